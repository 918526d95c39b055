/* The input stream: which blocks come to it, which its FIFO takes, and where they are stored, step by step. What comes
 * of each table was worked out by hand from the standard and the limits of docs/DESIGN.md, and by a model in another
 * language. Usage: capture */
#include "rows.h"

/* The converter 08 hears the pin 18, and 09 does in a codec that has it. */
#define CONVERTER(nid, caps, stream, format) \
    "{nid = " nid ", caps = " caps ", formats = 1, pcm = 0x20040, list = [0x18], stream = " stream \
    ", format = " format "}, "
#define STEREO "0x100111"
#define PIN(caps, control) \
    "{nid = 0x18, caps = " caps ", pin_caps = 0x20, default = 0x01A19030, control = " control "}"
#define CODEC_AT(address, nodes) "[[codec]]\naddress = " address "\nvendor = 0x10EC0889\nnode = [" nodes "]\n"
#define OPENED(format) CODEC_AT("0", CONVERTER("0x08", STEREO, "0x10", format) PIN("0x400001", "0x20"))

/* A list of two buffers of 384 bytes, both with IOC, whose bytes are 9; the rest of the registers; and RUN. */
#define LISTED \
    PUT(LIST, SOUND), PUT(LIST + 8, 384), PUT(LIST + 12, 1), PUT(LIST + 16, SOUND + 384), PUT(LIST + 24, 384), \
        PUT(LIST + 28, 1), FILL(SOUND, 768, 9)
#define RUNS(format) \
    W(4, 0x88, 768), W(2, 0x8C, 1), W(2, 0x92, format), W(4, 0x98, LIST), W(4, 0x80, 0x0010001C), W(1, 0x80, 0x1E)
#define STARTED(format) W(4, 0x08, 1), LISTED, RUNS(format)

/* A device whose pins are given so many numbered frames. */
static hda *given(const char *codecs, uint32_t frames) {
    hda *d = open_text(codecs);
    uint32_t sound[200], k;
    for (k = 0; k < frames; k++) sound[k] = numbered_frame(k);
    CHECK(hda_give(d, sound, 4 * frames) == HDA_OK);
    return d;
}

static void give_and_run(const char *codecs, uint32_t frames, const char *name, const row *rows, size_t count) {
    hda *d = given(codecs, frames);
    run_rows(d, name, rows, count);
    hda_close(&d);
}

#define GIVE_AND_RUN(text, frames, rows) give_and_run(text, frames, #rows, rows, sizeof rows / sizeof *rows)

/* ---- two whole captures ---- */

/* The words that open the way from the pin 18 to the converter 08, and RUN. */
#define SET_UP \
    W(4, 0x08, 0x101), W(4, 0x40, CORB), W(1, 0x4C, 2), PUT(CORB + 4, 0x00170500), PUT(CORB + 8, 0x00820011), \
        PUT(CORB + 12, 0x00870610), PUT(CORB + 16, 0x01870720), W(2, 0x48, 4), CORBS(4), LISTED, RUNS(0x0011)

/* Two frames come, and silence behind them. FIFORDY is there while the FIFO holds a block. */
static const row two_frames[] = {
    SET_UP, R(2, 0x90, 192), R(1, 0x83, 0), CAME(0), LINK(2), R(4, 0x84, 8), R(1, 0x83, 0x20), STORE(8), R(1, 0x83, 0),
    R(4, 0x84, 8), HAS(SOUND, 0x00020001), HAS(SOUND + 4, 0xFFFF0003), BYTES(SOUND + 8, 760, 9), LINK(48),
    R(4, 0x84, 200), R(1, 0x83, 0x20), STORE(192), R(1, 0x83, 0), BYTES(SOUND + 8, 192, 0), BYTES(SOUND + 200, 568, 9),
    CAME(50), MARKS(0, 50, 1), MARKS(50, 1, 9),
};

/* Of 50 frames the FIFO has room for 48, so that two are dropped. BCIS comes with the last byte of the first buffer. */
static const row fifty_frames[] = {
    SET_UP, LINK(50), R(4, 0x84, 192), R(1, 0x83, 0x28), STORE(192), R(1, 0x83, 0x08), LINK(48), R(4, 0x84, 384),
    R(1, 0x83, 0x28), STORE(192), R(1, 0x83, 0x0C), LINK(2), R(4, 0x84, 392), R(1, 0x83, 0x2C), STORE(8),
    R(1, 0x83, 0x0C), FRAMES(SOUND, 48, 0), BYTES(SOUND + 192, 200, 0), BYTES(SOUND + 392, 376, 9), CAME(100),
    MARKS(0, 48, 1), MARKS(48, 2, 0), MARKS(50, 50, 1), W(1, 0x83, 0x0C), R(1, 0x83, 0),
};

static void captures(void) {
    static const int16_t sound[] = {1, 2, 3, -1};
    static const char closed[] = CODEC_AT("0", CONVERTER("0x08", STEREO, "0", "0") PIN("0x400001", "0"));
    hda *d = open_text(closed);
    CHECK(hda_give(d, sound, sizeof sound) == HDA_OK);
    RUN(d, two_frames);
    hda_close(&d);
    GIVE_AND_RUN(closed, 50, fifty_frames);
}

/* ---- blocks that are dropped ---- */

/* A FIFO below one block takes none. */
static const row below_a_block[] = {
    STARTED(0x0047), LINK(3), R(1, 0x83, 0x08), R(4, 0x84, 0), CAME(3), MARKS(0, 3, 0), STORE(64),
    BYTES(SOUND, 768, 9), W(1, 0x83, 0x08), R(1, 0x83, 0), STORE(64), R(1, 0x83, 0), LINK(1), R(1, 0x83, 0x08),
    R(4, 0x84, 0), CAME(4), MARKS(3, 1, 0), R(1, 0x80, 0x1E),
};

/* At 192 kHz a link frame has four blocks: each comes by itself, and those that find no room are the last. */
static const row parts_of_frames[] = {
    STARTED(0x1811), LINK(2), R(4, 0x84, 16), R(1, 0x83, 0x28), CAME(8), MARKS(0, 4, 1), MARKS(4, 4, 0), STORE(6),
    R(1, 0x83, 0x08), FRAMES(SOUND, 1, 0), LINK(1), R(4, 0x84, 20), CAME(12), MARKS(8, 1, 1), MARKS(9, 3, 0),
    STORE(14), FRAMES(SOUND, 4, 0), FRAMES(SOUND + 16, 1, 8), BYTES(SOUND + 20, 748, 9), R(1, 0x83, 0x08),
};

/* Room for three of the second frame's four. */
static const row last_of_a_frame[] = {
    STARTED(0x1811), LINK(1), R(1, 0x83, 0x20), STORE(12), R(1, 0x83, 0), LINK(1), R(1, 0x83, 0x28), R(4, 0x84, 28),
    CAME(8), MARKS(0, 7, 1), MARKS(7, 1, 0),
};

/* In the midst of the sound: what comes next is the next block, not the dropped one. */
static const row in_the_midst[] = {
    STARTED(0x0011), LINK(49), STORE(192), LINK(48), STORE(192), LINK(2), STORE(8), FRAMES(SOUND, 48, 0),
    FRAMES(SOUND + 192, 1, 49), BYTES(SOUND + 196, 196, 0), BYTES(SOUND + 392, 376, 9), CAME(99), MARKS(0, 48, 1),
    MARKS(48, 1, 0), MARKS(49, 50, 1), R(4, 0x84, 392),
};

/* The last block of the sound. */
static const row at_the_end[] = {
    STARTED(0x0011), LINK(49), R(1, 0x83, 0x28), STORE(192), LINK(1), STORE(4), FRAMES(SOUND, 48, 0),
    BYTES(SOUND + 192, 4, 0), BYTES(SOUND + 196, 572, 9), CAME(50), MARKS(48, 1, 0), MARKS(49, 1, 1),
};

/* And blocks behind its end. */
static const row past_the_end[] = {
    STARTED(0x0011), LINK(2), STORE(8), LINK(60), R(4, 0x84, 200), R(1, 0x83, 0x28), CAME(62), MARKS(0, 50, 1),
    MARKS(50, 12, 0), STORE(192), FRAMES(SOUND, 2, 0), BYTES(SOUND + 8, 192, 0),
};

/* ---- which blocks come ---- */

/* At 44.1 kHz the 13th link frame has no block: it moves no register. */
static const row with_gaps[] = {
    STARTED(0x4011), LINK(12), CAME(12), R(4, 0x84, 48), LINK(1), CAME(12), R(4, 0x84, 48), R(1, 0x83, 0x20), LINK(1),
    CAME(13), R(4, 0x84, 52), STORE(52), FRAMES(SOUND, 13, 0),
};

/* The words of commands that change what is heard, handed over one by one. */
#define COMMANDS(first, second, third) \
    W(4, 0x40, CORB), W(1, 0x4C, 2), PUT(CORB + 4, first), PUT(CORB + 8, second), PUT(CORB + 12, third)
#define COMMAND(number) W(2, 0x48, number), CORBS(1)

/* Two converters that take the stream: no block comes, and none is used up. Then one, whose pin is disabled in the
 * second frame: silence comes, and a block is used up. */
static const row two_then_one[] = {
    STARTED(0x0011), COMMANDS(0x00970620, 0x01870700, 0x01870720), LINK(3), CAME(0), R(4, 0x84, 0), R(1, 0x83, 0),
    COMMAND(1), LINK(1), CAME(1), R(4, 0x84, 4), COMMAND(2), LINK(1), COMMAND(3), LINK(1), CAME(3), MARKS(0, 3, 1),
    STORE(12), FRAMES(SOUND, 1, 0), BYTES(SOUND + 4, 4, 0), FRAMES(SOUND + 8, 1, 2), R(4, 0x84, 12),
};

/* Two in two codecs are two. */
static const row in_two_codecs[] = {
    STARTED(0x0011), COMMANDS(0x20870600, 0, 0), LINK(2), CAME(0), R(4, 0x84, 0), COMMAND(1), LINK(1), CAME(1),
    STORE(4), FRAMES(SOUND, 1, 0),
};

/* A converter with the tag 0 takes no stream, with another tag or format none that has not these. */
static const row of_tag_0[] = {
    W(4, 0x08, 1), LISTED, W(4, 0x88, 768), W(2, 0x8C, 1), W(2, 0x92, 0x0011), W(4, 0x98, LIST), W(4, 0x80, 0x0000001C),
    W(1, 0x80, 0x1E), LINK(2), CAME(0), R(4, 0x84, 0), R(1, 0x83, 0), STORE(4), BYTES(SOUND, 768, 9), R(1, 0x80, 0x1E),
};
static const row nothing_comes[] = {
    STARTED(0x0011), LINK(2), CAME(0), R(4, 0x84, 0), R(1, 0x83, 0), STORE(4), BYTES(SOUND, 768, 9), R(1, 0x80, 0x1E),
};

/* Given blocks, and silence in their place. */
static const row sound_comes[] = {STARTED(0x0011), LINK(2), CAME(2), STORE(8), FRAMES(SOUND, 2, 0)};
static const row silence_comes[] = {STARTED(0x0011), LINK(2), CAME(2), STORE(8), BYTES(SOUND, 8, 0)};

#define ONE_INPUT(caps, stream, format, pin, control) \
    CODEC_AT("0", CONVERTER("0x08", caps, stream, format) PIN(pin, control))

static void comings(void) {
    static const char both[] = CODEC_AT(
        "0", CONVERTER("0x08", STEREO, "0x10", "0x0011") CONVERTER("0x09", STEREO, "0x10", "0x0011")
                 PIN("0x400001", "0x20"));
    static const char apart[] = OPENED("0x0011")
        CODEC_AT("2", CONVERTER("0x08", STEREO, "0x10", "0x0011") PIN("0x400001", "0x20"));
    GIVE_AND_RUN(OPENED("0x4011"), 20, with_gaps);
    GIVE_AND_RUN(both, 9, two_then_one);
    GIVE_AND_RUN(apart, 9, in_two_codecs);
    GIVE_AND_RUN(ONE_INPUT(STEREO, "0x00", "0x0011", "0x400001", "0x20"), 9, of_tag_0);
    GIVE_AND_RUN(ONE_INPUT(STEREO, "0x20", "0x0011", "0x400001", "0x20"), 9, nothing_comes);
    GIVE_AND_RUN(ONE_INPUT(STEREO, "0x10", "0x4011", "0x400001", "0x20"), 9, nothing_comes);
    GIVE_AND_RUN(ONE_INPUT("0x100110", "0x10", "0x0011", "0x400001", "0x20"), 9, sound_comes); /* mono */
    GIVE_AND_RUN(ONE_INPUT("0x100311", "0x10", "0x0011", "0x400001", "0x20"), 9, sound_comes); /* digital */
    GIVE_AND_RUN(ONE_INPUT(STEREO, "0x10", "0x0011", "0x400000", "0x20"), 9, silence_comes);   /* a mono pin */
    GIVE_AND_RUN(ONE_INPUT(STEREO, "0x10", "0x0011", "0x400001", "0"), 9, silence_comes);      /* no input */
    OPEN_AND_RUN(OPENED("0x0011"), silence_comes);
}

/* ---- where it stops ---- */

/* An empty FIFO needs no entry of the list. The first byte of a block does, and this one has no bytes: the stream
 * stops. What came stays until RUN rises. */
static const row bad_entry[] = {
    W(4, 0x08, 1), RUNS(0x0011), STORE(4), R(1, 0x83, 0), R(1, 0x80, 0x1E), LINK(1), R(1, 0x83, 0x20), STORE(4),
    R(1, 0x83, 0x10), R(1, 0x80, 0x1C), R(4, 0x84, 4), CAME(1), LINK(2), STORE(4), CAME(1), R(4, 0x84, 4),
    W(1, 0x83, 0x10), LISTED, W(1, 0x80, 0x1E), CAME(0), R(4, 0x84, 0), LINK(1), STORE(4), FRAMES(SOUND, 1, 0), CAME(1),
    R(1, 0x83, 0),
};

/* Registers that can't be used stop it in a link frame, and in a fetch with an empty FIFO too: no bytes in the cyclic
 * buffer, one entry alone, and a format without a meaning. */
#define IN_A_FRAME W(1, 0x80, 0x1E), LINK(1), R(1, 0x83, 0x10), R(1, 0x80, 0x1C), CAME(0), W(1, 0x83, 0x10)
#define IN_A_FETCH W(1, 0x80, 0x1E), STORE(1), R(1, 0x83, 0x10), R(1, 0x80, 0x1C), W(1, 0x83, 0x10)
static const row bad_registers[] = {
    STARTED(0x0011), W(1, 0x80, 0x1C), W(4, 0x88, 0), IN_A_FRAME, IN_A_FETCH, W(4, 0x88, 768), W(2, 0x8C, 0),
    IN_A_FRAME, IN_A_FETCH, W(2, 0x8C, 1), W(2, 0x92, 0x8011), IN_A_FRAME, IN_A_FETCH, W(2, 0x92, 0x0011),
    W(1, 0x80, 0x1E), STORE(1), LINK(1), R(1, 0x83, 0x20), CAME(1), STORE(4), FRAMES(SOUND, 1, 0),
};

/* Where RUN falls the FIFO loses what it holds. LPIB and what came stay, and begin anew where it rises; a write of 1
 * over a 1 is no rise. */
static const row stopped[] = {
    STARTED(0x0011), LINK(5), STORE(8), R(1, 0x83, 0x20), W(1, 0x80, 0x1E), CAME(5), W(1, 0x80, 0x1C), R(1, 0x83, 0),
    R(4, 0x84, 20), CAME(5), STORE(12), LINK(3), FRAMES(SOUND, 2, 0), BYTES(SOUND + 8, 760, 9), CAME(5), MARKS(0, 5, 1),
    R(4, 0x84, 20), FILL(SOUND, 768, 9), W(1, 0x80, 0x1E), CAME(0), R(4, 0x84, 0), R(1, 0x83, 0), STORE(12), LINK(1),
    STORE(4), FRAMES(SOUND, 1, 0), BYTES(SOUND + 4, 764, 9), CAME(1), MARKS(0, 1, 1),
};

/* A reset of the controller stops it too. */
static const row reset[] = {
    STARTED(0x0011), LINK(5), W(4, 0x08, 0), R(4, 0x80, 0), LINK(2), STORE(4), CAME(5), STARTED(0x0011), CAME(0),
    LINK(1), STORE(4), FRAMES(SOUND, 1, 0), BYTES(SOUND + 4, 764, 9),
};

/* A list within its own first buffer, which the stream writes over with silence: the entry in use is the one that was
 * read, and the next one is bad. */
static const row over_its_list[] = {
    W(4, 0x08, 1), FILL(LIST + 32, 736, 9), PUT(LIST, LIST), PUT(LIST + 8, 384), PUT(LIST + 12, 1),
    PUT(LIST + 16, LIST + 384), PUT(LIST + 24, 384), PUT(LIST + 28, 1), RUNS(0x0011), LINK(10), STORE(40),
    R(1, 0x83, 0), R(1, 0x80, 0x1E), BYTES(LIST, 40, 0), BYTES(LIST + 40, 728, 9), LINK(40), STORE(160), LINK(40),
    STORE(160), R(1, 0x80, 0x1E), LINK(40), STORE(160), R(1, 0x83, 0x14), R(1, 0x80, 0x1C), R(4, 0x84, 520),
    BYTES(LIST, 384, 0), BYTES(LIST + 384, 384, 9), CAME(130), MARKS(0, 130, 1),
};

/* Round the list: the third buffer is the first again, and LPIB is counted modulo CBL. */
static const row round_the_list[] = {
    STARTED(0x0011), LINK(48), STORE(192), LINK(48), STORE(192), R(1, 0x83, 0x04), W(1, 0x83, 0x04), LINK(48),
    STORE(192), LINK(47), STORE(188), R(1, 0x83, 0), LINK(1), R(4, 0x84, 0), STORE(4), R(1, 0x83, 0x04),
    FRAMES(SOUND, 192, 0), LINK(2), R(4, 0x84, 8), STORE(8), FRAMES(SOUND, 2, 192), FRAMES(SOUND + 8, 190, 2),
    CAME(194), MARKS(0, 194, 1),
};

/* ---- calls ---- */

/* A sound that is given anew goes on with the number of the block; bytes behind its last whole block are silence. */
static void given_anew(void) {
    static const row before[] = {STARTED(0x0011), LINK(2)};
    static const row after[] = {LINK(2), STORE(16), FRAMES(SOUND, 2, 0), HAS(SOUND + 8, 0x0C0B0A09),
                                BYTES(SOUND + 12, 4, 0), CAME(4)};
    static const row silent[] = {LINK(1), STORE(4), BYTES(SOUND + 16, 4, 0), CAME(5)};
    uint8_t sound[15], k;
    hda *d = given(OPENED("0x0011"), 9);
    for (k = 0; k < 15; k++) sound[k] = k + 1;
    RUN(d, before);
    CHECK(hda_give(d, sound, sizeof sound) == HDA_OK);
    memset(sound, 0, sizeof sound); /* it was copied */
    RUN(d, after);
    CHECK(hda_give(d, NULL, 9) == HDA_OK);
    RUN(d, silent);
    hda_close(&d);
}

/* Marks are copied from a number on, as many as there is room for. */
static void parts(void) {
    static const row frames[] = {STARTED(0x0011), LINK(50)};
    uint8_t marks[8] = {9, 9, 9, 9, 9, 9, 9, 9};
    uint64_t all = 0;
    hda *d = given(OPENED("0x0011"), 9);
    RUN(d, frames);
    CHECK(hda_taken(d, 46, marks, 3, &all) == HDA_OK && all == 50);
    CHECK(marks[0] == 1 && marks[1] == 1 && marks[2] == 0 && marks[3] == 9);
    CHECK(hda_taken(d, 49, marks + 4, 3, NULL) == HDA_OK && marks[4] == 0 && marks[5] == 9);
    CHECK(hda_taken(d, 50, marks + 5, 3, &all) == HDA_OK && all == 50 && marks[5] == 9);
    CHECK(hda_taken(d, UINT64_MAX, marks + 5, 3, &all) == HDA_OK && all == 50 && marks[5] == 9);
    CHECK(hda_taken(d, 0, NULL, 9, NULL) == HDA_OK);
    hda_close(&d);
}

/* A snapshot has the sound, what the FIFO holds and what came. */
static void put_back(void) {
    static const row before[] = {STARTED(0x0011), LINK(3), STORE(4)};
    static const row other[] = {LINK(60), STORE(192), CAME(63), W(1, 0x80, 0x1C), W(1, 0x80, 0x1E), CAME(0)};
    static const row same[] = {CAME(3), BYTES(SOUND + 4, 764, 9), LINK(2), STORE(16), FRAMES(SOUND, 5, 0), CAME(5),
                               R(4, 0x84, 20)};
    hda *d = given(OPENED("0x0011"), 9);
    hda_saved *saved;
    unsigned k;
    RUN(d, before);
    saved = hda_save(d);
    CHECK(saved != NULL);
    for (k = 0; k < 2; k++) {
        CHECK(hda_give(d, "other sound", 11) == HDA_OK);
        RUN(d, other);
        CHECK(hda_restore(d, saved) == HDA_OK);
        RUN(d, same);
        CHECK(hda_restore(d, saved) == HDA_OK);
    }
    hda_discard(&saved);
    hda_close(&d);
}

int main(void) {
    captures();
    GIVE_AND_RUN("fifo = 8\n" OPENED("0x0047"), 99, below_a_block);
    GIVE_AND_RUN("fifo = 17\n" OPENED("0x1811"), 20, parts_of_frames);
    GIVE_AND_RUN("fifo = 16\n" OPENED("0x1811"), 20, last_of_a_frame);
    GIVE_AND_RUN(OPENED("0x0011"), 50, in_the_midst);
    GIVE_AND_RUN(OPENED("0x0011"), 49, at_the_end);
    GIVE_AND_RUN(OPENED("0x0011"), 2, past_the_end);
    comings();
    GIVE_AND_RUN(OPENED("0x0011"), 9, bad_entry);
    GIVE_AND_RUN(OPENED("0x0011"), 9, bad_registers);
    GIVE_AND_RUN(OPENED("0x0011"), 9, stopped);
    GIVE_AND_RUN(OPENED("0x0011"), 9, reset);
    OPEN_AND_RUN(OPENED("0x0011"), over_its_list);
    GIVE_AND_RUN(OPENED("0x0011"), 200, round_the_list);
    given_anew();
    parts();
    put_back();
    printf("capture: %ld wrong\n", wrong);
    return wrong != 0;
}
