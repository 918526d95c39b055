/* A log whose accesses stand in calls is written as a schedule, which the grammar of docs/FORMATS.md has; another is
 * refused, and so is one past the limits. Usage: schedules CODEC_FILE */
#include "driver.h"
#include <ctype.h>

static char into[8 << 20];

/* What is written to a file, as a text. */
static const char *written(hda *d, int (*write)(const hda *, FILE *), int status) {
    FILE *file = tmpfile();
    size_t size;
    if (!file) exit(3);
    CHECK(write(d, file) == status);
    rewind(file);
    size = fread(into, 1, sizeof into - 1, file);
    into[size] = 0;
    fclose(file);
    return into;
}

static int is(const char *got, const char *wanted) {
    if (!strcmp(got, wanted)) return 1;
    printf("got:\n%.1000s\nwanted:\n%s\n", got, wanted);
    return 0;
}

/* ---- a reader of schedules without `irq` and `repeat` ---- */

static const char *at;
static unsigned long long steps_read, frames_read;

static int word(const char *wanted) {
    size_t size = strlen(wanted);
    if (strncmp(at, wanted, size) || (at[size] && !strchr(" \n", at[size]))) return 0;
    at += size;
    return 1;
}

static int number(unsigned long long least, unsigned long long most, unsigned long long *value) {
    const char *begin = at + 1;
    if (*at != ' ') return 0;
    for (*value = 0, at = begin; isdigit((unsigned char)*at) && at - begin < 11; at++)
        *value = *value * 10 + (unsigned)(*at - '0');
    return at > begin && at - begin <= 10 && *value >= least && *value <= most;
}

static int node(void) {
    unsigned value;
    if (*at != ' ' || !isxdigit((unsigned char)at[1]) || !isxdigit((unsigned char)at[2])) return 0;
    value = (unsigned)strtoul((char[]){at[1], at[2], 0}, NULL, 16);
    at += 3;
    return value >= 1 && value <= 0x7f;
}

static int one_step(void) {
    unsigned long long a = 0;
    steps_read++;
    if (word("corb") || word("rirb")) return 1;
    if (word("answer") || word("lose")) return number(0, 14, &a);
    if (word("fetch")) return number(0, 1, &a) && number(1, 65535, &a);
    if (word("plug") || word("unplug")) return number(0, 14, &a) && node();
    if (!word("link") || !number(1, 1000000, &a)) return 0;
    frames_read += a;
    return 1;
}

static int group(void) {
    steps_read++;
    if (word(" -")) return 1;
    do {
        if (*at++ != ' ' || !one_step()) return 0;
    } while (word(" ,"));
    return 1;
}

/* Whether this is a schedule within its limits. */
static int is_schedule(const char *schedule) {
    unsigned long long budget;
    steps_read = frames_read = 0;
    for (at = schedule; *at; at++) {
        if (word("run")) {
            steps_read++;
            if (!number(0, 4294967295u, &budget)) return 0;
            while (word(" |"))
                if (!group()) return 0;
        } else if (!one_step()) return 0;
        if (*at != '\n') return 0;
    }
    return strlen(schedule) <= 4194304 && steps_read <= 1000000 && frames_read <= 2000000;
}

/* ---- what is written ---- */

static void words(void) {
    hda *d = open_device();
    uint32_t value = 0;
    hda_keep_log(d, 1);
    hda_call(d, 8);
    hda_write(d, 8, 4, 1);
    hda_link(d, 1);
    hda_corb(d);
    hda_dma_read(d, 0, &value, 4);
    hda_read(d, 8, 4);
    hda_fetch(d, 1, 0);
    hda_fetch(d, 1, 16);
    hda_return(d);
    hda_link(d, 1000025);
    hda_call(d, 0);
    hda_return(d);
    hda_plug(d, 0, 0x14);
    hda_answer(d, 0);
    hda_lose(d, 0);
    hda_rirb(d);
    hda_unplug(d, 0, 0x7f);
    hda_plug(d, 0, 0);
    hda_plug(d, 0, 0x80);
    hda_unplug(d, 0, 0xff);
    hda_unplug(d, 0, 1);
    hda_link(d, 0);
    CHECK(is_schedule(written(d, hda_log_schedule, HDA_OK)) && steps_read == 17 && frames_read == 1000026);
    CHECK(is(into, "run 8 | - | link 1 , corb | - | fetch 1 16\nlink 1000000\nlink 25\nrun 0\nplug 0 14\nanswer 0\n"
                   "lose 0\nrirb\nunplug 0 7f\nunplug 0 01\n"));
    CHECK(is(written(d, hda_log_text, HDA_OK),
             "call 8\nwrite 0008 4 00000001\nlink 1\ncorb\ndma_read 0000000000000000 4\nread 0008 4 00000001\n"
             "fetch 1 0\nfetch 1 16\nreturn\nlink 1000000\nlink 25\ncall 0\nreturn\nplug 0 14\nanswer 0\n"
             "lose 0\nrirb\nunplug 0 7f\nplug 0 00\nplug 0 80\nunplug 0 ff\nunplug 0 01\nlink 0\n"));
    hda_call(d, 0);
    CHECK(is(written(d, hda_log_schedule, HDA_REFUSED), ""));
    hda_return(d);
    CHECK(is_schedule(written(d, hda_log_schedule, HDA_OK)));
    hda_read(d, 8, 4);
    CHECK(is(written(d, hda_log_schedule, HDA_REFUSED), ""));
    hda_close(&d);
}

/* A run by habits, with a call for each command. */
static void run(hda_habits habits) {
    driver r = {0};
    hda *d = r.device = open_device();
    unsigned k;
    CHECK(hda_keep_log(d, 1) == HDA_OK && hda_act(d, &habits) == HDA_OK);
    hda_pass(d, 30);
    hda_call(d, 0);
    CHECK(bring_up(&r));
    hda_return(d);
    for (k = 0; k < 20; k++) {
        hda_call(d, 100);
        CHECK(ask(&r, 0x000F0000));
        hda_return(d);
        hda_pass(d, 100);
    }
    CHECK(is_schedule(written(d, hda_log_schedule, HDA_OK)) && steps_read > 1000 && frames_read == hda_frames(d));
    hda_close(&d);
}

/* ---- what is refused ---- */

/* So many steps of a kind. */
static hda *steps(unsigned kind, uint32_t each, unsigned count) {
    hda *d = open_device();
    hda_keep_log(d, 1);
    while (count--) CHECK(hda_step(d, kind, 0, 0x14, each) == HDA_OK);
    return d;
}

/* A call with so many accesses and a step behind them. */
static hda *accesses(unsigned count) {
    hda *d = open_device();
    hda_keep_log(d, 1);
    hda_call(d, 0);
    while (count--) hda_read(d, 8, 4);
    hda_corb(d);
    hda_return(d);
    return d;
}

static void limits(void) {
    hda *d = steps(HDA_RIRB, 0, 838860); /* of 5 bytes each */
    CHECK(is_schedule(written(d, hda_log_schedule, HDA_OK)) && steps_read == 838860 && strlen(into) == 4194300);
    hda_rirb(d);
    CHECK(is(written(d, hda_log_schedule, HDA_REFUSED), ""));
    CHECK(strlen(written(d, hda_log_text, HDA_OK)) == 4194305);
    hda_close(&d);
    d = accesses(999997);
    CHECK(is_schedule(written(d, hda_log_schedule, HDA_OK)) && steps_read == 1000000);
    hda_close(&d);
    d = accesses(999998);
    CHECK(is(written(d, hda_log_schedule, HDA_REFUSED), ""));
    hda_close(&d);
    d = steps(HDA_LINK, 500000, 4);
    CHECK(is_schedule(written(d, hda_log_schedule, HDA_OK)) && frames_read == 2000000);
    hda_link(d, 1);
    CHECK(is(written(d, hda_log_schedule, HDA_REFUSED), ""));
    hda_close(&d);
}

/* Logs that have not all since the opening, and marks that stand alone. */
static void no_runs(void) {
    hda *d = open_device();
    hda_saved *saved = hda_save(d);
    CHECK(hda_link(d, 0) == HDA_OK && hda_keep_log(d, 1) == HDA_OK && hda_corb(d) == HDA_OK);
    CHECK(is(written(d, hda_log_schedule, HDA_REFUSED), "") && is(written(d, hda_log_text, HDA_OK), "corb\n"));
    hda_close(&d);
    hda_discard(&saved);
    d = open_device();
    hda_keep_log(d, 1);
    hda_link(d, 1);
    saved = hda_save(d);
    hda_link(d, 2);
    CHECK(is(written(d, hda_log_schedule, HDA_OK), "link 1\nlink 2\n"));
    CHECK(hda_restore(d, saved) == HDA_OK && hda_link(d, 3) == HDA_OK);
    CHECK(is(written(d, hda_log_schedule, HDA_REFUSED), ""));
    CHECK(is(written(d, hda_log_text, HDA_OK), "link 1\nlink 2\nrestore\nlink 3\n"));
    CHECK(hda_keep_log(d, 1) == HDA_OK && is(written(d, hda_log_text, HDA_OK), ""));
    CHECK(is(written(d, hda_log_schedule, HDA_REFUSED), ""));
    hda_discard(&saved);
    hda_close(&d);
    d = open_device();
    hda_keep_log(d, 1);
    CHECK(hda_keep_log(d, 1) == HDA_OK && is(written(d, hda_log_schedule, HDA_OK), ""));
    hda_return(d);
    CHECK(is(written(d, hda_log_schedule, HDA_REFUSED), ""));
    CHECK(hda_keep_log(d, 0) == HDA_OK && hda_log_text(d, stdout) == HDA_REFUSED);
    hda_close(&d);
}

/* A full disk is told. */
static void full(void) {
    FILE *file = fopen("/dev/full", "w");
    hda *d;
    if (!file) return;
    d = steps(HDA_LINK, 1, 3);
    CHECK(hda_log_text(d, file) == HDA_REFUSED);
    clearerr(file);
    CHECK(hda_log_schedule(d, file) == HDA_REFUSED && hda_log_schedule(d, NULL) == HDA_REFUSED);
    fclose(file);
    hda_close(&d);
}

int main(int argc, char **argv) {
    uint64_t seed;
    read_text(argc > 1 ? argv[1] : "");
    CHECK(!is_schedule("link 0\n") && !is_schedule("plug 0 ff\n") && !is_schedule("run 1 |\n") && !is_schedule("rirb"));
    CHECK(!is_schedule("fetch 1 0\n") && !is_schedule("run 1 | corb ,\n") && !is_schedule("corb 1\n"));
    words();
    for (seed = 1; seed <= 3; seed++) {
        run(hda_quick(seed));
        run(hda_usual(seed));
        run(hda_difficult(seed));
    }
    limits();
    no_runs();
    full();
    printf("schedules: %ld wrong\n", wrong);
    return wrong != 0;
}
