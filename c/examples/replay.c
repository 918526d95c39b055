/* Replays the lines of JSON that `hda_trace --raw` writes: takes each step, makes each access, and compares what a read
 * gives with what stands in its line. Usage: replay CODEC_FILE TRACE. Ends with 0 where all lines agree, and else with
 * 1 at the first that does not, which it prints. */
#include "hda.h"
#include <stdlib.h>
#include <string.h>

enum { LINE = 200000 };
static hda *d;

/* The bytes of hexadecimal digits up to the quote behind them, and how many they are. */
static size_t bytes_of(const char *digits, uint8_t *bytes) {
    size_t count = 0;
    unsigned byte;
    while (*digits != '"' && sscanf(digits, "%2x", &byte) == 1) {
        bytes[count++] = (uint8_t)byte;
        digits += 2;
    }
    return count;
}

/* Takes a step, as a line of a schedule names it; 0 where there is no such. */
static int take(const char *step) {
    unsigned first, second;
    if (!strncmp(step, "corb\"", 5)) return hda_corb(d) == HDA_OK;
    if (!strncmp(step, "rirb\"", 5)) return hda_rirb(d) == HDA_OK;
    if (sscanf(step, "answer %u", &first) == 1) return hda_answer(d, (uint8_t)first) == HDA_OK;
    if (sscanf(step, "lose %u", &first) == 1) return hda_lose(d, (uint8_t)first) == HDA_OK;
    if (sscanf(step, "link %u", &first) == 1) return hda_link(d, first) == HDA_OK;
    if (sscanf(step, "fetch %u %u", &first, &second) == 2) return hda_fetch(d, (uint8_t)first, second) == HDA_OK;
    if (sscanf(step, "plug %u %x", &first, &second) == 2) return hda_plug(d, (uint8_t)first, (uint8_t)second) == HDA_OK;
    if (sscanf(step, "unplug %u %x", &first, &second) == 2)
        return hda_unplug(d, (uint8_t)first, (uint8_t)second) == HDA_OK;
    return 0;
}

/* A piece of memory, written or compared; its address and its digits. */
static int piece(int writes, uint32_t at, const char *digits) {
    static uint8_t told[LINE / 2], found[LINE / 2];
    size_t count = bytes_of(digits, told);
    if (writes) return hda_dma_write(d, at, told, count) == HDA_OK;
    return hda_dma_read(d, at, found, count) == HDA_OK && !memcmp(told, found, count);
}

/* Replays a line; 0 where it does not agree. */
static int replay(const char *line) {
    unsigned at, bytes, value;
    int digits = 0;
    if (sscanf(line, "[\"R\", %u, %u, %u]", &at, &bytes, &value) == 3) return hda_read(d, at, bytes) == value;
    if (sscanf(line, "[\"W\", %u, %u, %u]", &at, &bytes, &value) == 3) return hda_write(d, at, bytes, value) == HDA_OK;
    if (sscanf(line, "[\"DR\", %u, \"%n", &at, &digits) == 1 && digits) return piece(0, at, line + digits);
    if (sscanf(line, "[\"DW\", %u, \"%n", &at, &digits) == 1 && digits) return piece(1, at, line + digits);
    if (!strncmp(line, "[\"S\", \"", 7)) return take(line + 7);
    return !strcmp(line, "[\"begin\"]\n") || !strcmp(line, "[\"end\"]\n");
}

int main(int argc, char **argv) {
    static char text[HDA_TEXT + 1], line[LINE];
    char fault[100];
    unsigned count = 0;
    FILE *file = argc > 2 ? fopen(argv[1], "rb") : NULL;
    FILE *trace = argc > 2 ? fopen(argv[2], "rb") : NULL;
    if (!file || !trace) return 3;
    d = hda_open(text, fread(text, 1, sizeof text, file), NULL, 0, fault, sizeof fault);
    fclose(file);
    if (!d) {
        printf("codec refused: %s\n", fault);
        return 5;
    }
    while (fgets(line, sizeof line, trace)) {
        count++;
        if (!replay(line)) {
            printf("line %u differs: %.100s\n", count, line);
            return 1;
        }
    }
    fclose(trace);
    hda_close(&d);
    printf("replayed %u\n", count);
    return count == 0;
}
