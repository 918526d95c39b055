/* Both rings, what waits at a codec and in the controller, and what a pin hears meanwhile, step by step: what comes of
 * each table was worked out by hand from the standard and the limits of docs/DESIGN.md. Usage: queues */
#include "rows.h"

static hda_item items[16];

/* A codec keeps 64 unsolicited responses of a hundred pairs, and has room for an answer beside them. */
static void keeps_64_responses(void) {
    static const row waiting[] = {PUT(CORB + 4, 0x000F0000), W(2, 0x48, 1), CORBS(1), R(2, 0x4A, 1), ANSWERS(70, 0),
                                  RIRBS, R(2, 0x58, 65), W(1, 0x5D, 1), RIRBS, R(2, 0x58, 65)};
    static const row set[] = {RINGS(255)};
    static const row pair[] = {STEP(HDA_PLUG, 0, 0x14, 0), STEP(HDA_UNPLUG, 0, 0x14, 0)};
    hda *d = open_text(ONE_PIN("0"));
    uint32_t k;
    RUN(d, set);
    for (k = 0; k < 100; k++) RUN(d, pair);
    RUN(d, waiting);
    for (k = 1; k <= 64; k++) {
        const row event[] = {HAS(RIRB + 8 * k, 0x04000000), HAS(RIRB + 8 * k + 4, 0x10)};
        RUN(d, event);
    }
    {
        static const row answer[] = {HAS(RIRB + 8 * 65, 0x10EC0889), HAS(RIRB + 8 * 65 + 4, 0)};
        RUN(d, answer);
    }
    hda_close(&d);
}

/* What is plugged in twice changes once, and at the function group nothing does. A word without a reading is answered
 * by 0. The pin senses what is plugged in, and its unsolicited responses are as the codec file has them. */
static const row answers[] = {
    RINGS(255), STEP(HDA_PLUG, 0, 0x14, 0), STEP(HDA_PLUG, 0, 0x14, 0), STEP(HDA_PLUG, 0, 0x01, 0),
    PUT(CORB + 4, 0x000F0004), PUT(CORB + 8, 0x080F0000), PUT(CORB + 12, 0x014F0900), PUT(CORB + 16, 0x014F0800),
    W(2, 0x48, 4), CORBS(4), ANSWERS(6, 0), PUT(RIRB + 24, 9), RIRBS, R(2, 0x58, 5), HAS(RIRB + 8, 0x04000000),
    HAS(RIRB + 12, 0x10), HAS(RIRB + 16, 0x00010001), HAS(RIRB + 20, 0), HAS(RIRB + 24, 0), HAS(RIRB + 32, 0x80000000),
    HAS(RIRB + 40, 0x81), HAS(RIRB + 44, 0),
};

/* Answers alone are lost, the first that waits each time; where none waits nothing is. A reset drops what waits. */
static const row losing[] = {
    RINGS(255), STEP(HDA_PLUG, 0, 0x14, 0), PUT(CORB + 4, 0x000F0004), PUT(CORB + 8, 0x080F0000),
    PUT(CORB + 12, 0x014F0900), W(2, 0x48, 3), CORBS(3), EACH(1, HDA_LOSE, 0), ANSWERS(2, 0), EACH(2, HDA_LOSE, 0),
    ANSWERS(2, 0), PUT(RIRB + 16, 9), PUT(RIRB + 20, 9), RIRBS, R(2, 0x58, 2), HAS(RIRB + 8, 0x04000000),
    HAS(RIRB + 12, 0x10), HAS(RIRB + 16, 0), HAS(RIRB + 20, 0), STEP(HDA_UNPLUG, 0, 0x14, 0),
    W(4, 0x08, 0), RINGS(255), ANSWERS(1, 0), RIRBS, R(2, 0x58, 0),
};

/* A codec with 64 answers takes no command, and in the controller wait 256 responses at most. */
static const row full[] = {
    W(4, 0x08, 0x101), W(1, 0x4C, 2), W(2, 0x48, 255), CORBS(70), R(2, 0x4A, 64), ANSWERS(64, 0), CORBS(64),
    ANSWERS(64, 0), CORBS(64), ANSWERS(64, 0), CORBS(64), ANSWERS(64, 0), CORBS(64), R(2, 0x4A, 255),
    /* all 255 wait in the controller; of three more one is the 256th there, and two leave room for 62 at the codec */
    W(2, 0x48, 2), CORBS(3), R(2, 0x4A, 2), ANSWERS(3, 0), W(2, 0x48, 255), CORBS(64), R(2, 0x4A, 64),
    /* a batch is of 255, since the ring has 256 entries, and one is left */
    W(4, 0x50, 0x800), W(2, 0x5A, 0), W(1, 0x5C, 2), RIRBS, R(2, 0x58, 255), W(1, 0x5D, 1), RIRBS, R(2, 0x58, 0),
    W(1, 0x5D, 1), RIRBS, R(2, 0x58, 0),
    /* a reset drops what waits: the codec has room for 64 again */
    W(4, 0x08, 0), W(4, 0x08, 0x101), W(1, 0x4C, 2), W(2, 0x48, 255), CORBS(70), R(2, 0x4A, 64),
};

/* Responses stand in memory with who sent them, one at a time while RINTFL is cleared, and a reset drops the others. */
static const row responses[] = {
    W(4, 0x08, 0x101), W(4, 0x40, CORB), W(4, 0x50, 128), W(2, 0x5A, 1), W(1, 0x4C, 2), W(1, 0x5C, 2),
    PUT(CORB + 4, 0x000F0000), PUT(CORB + 8, 0x200F0002), W(2, 0x48, 1), CORBS(1), ANSWERS(1, 0),
    STEP(HDA_PLUG, 2, 0x14, 0), ANSWERS(1, 2), W(2, 0x48, 2), CORBS(1), ANSWERS(1, 2), RIRBS, R(2, 0x58, 1), RIRBS,
    R(2, 0x58, 1), R(1, 0x5D, 1), W(1, 0x5D, 1), RIRBS, R(2, 0x58, 2), HAS(136, 0x10EC0889), HAS(140, 0),
    HAS(144, 0x04000000), HAS(148, 0x12), HAS(152, 0), HAS(156, 0), W(4, 0x08, 0), W(4, 0x08, 0x101),
    W(4, 0x50, 128), W(2, 0x5A, 1), W(1, 0x5C, 2), RIRBS, R(2, 0x58, 0),
};

/* Commands are fetched round a ring of two entries. */
static const row round_the_ring[] = {
    RINGS(255), PUT(CORB, 0x000F0002), PUT(CORB + 4, 0x000F0000), CORBS(1), R(2, 0x4A, 0), W(2, 0x48, 1), CORBS(1),
    R(2, 0x4A, 1), CORBS(1), R(2, 0x4A, 1), W(2, 0x48, 2), CORBS(1), R(2, 0x4A, 0), CORBS(1), ANSWERS(3, 0), RIRBS,
    R(2, 0x58, 2), HAS(RIRB + 8, 0x10EC0889), HAS(RIRB + 16, 0x00100101),
};

/* A command's way through a ring at 0 and one at 1024: RINTFL and the eight bytes of the response. */
static const row way[] = {
    W(4, 0x08, 0x101), LINK(25), R(2, 0x0E, 1), W(4, 0x40, 0), W(4, 0x50, 1024), W(2, 0x58, 0x8000),
    W(2, 0x5A, 128), W(1, 0x4C, 2), W(1, 0x5C, 3), PUT(4, 0x000F0000), PUT(1036, 9), W(2, 0x48, 1), CORBS(1),
    ANSWERS(1, 0), RIRBS, R(2, 0x58, 1), R(1, 0x5D, 1), HAS(1032, 0x10EC0889), HAS(1036, 0),
};

/* Nothing moves in reset, and the codecs announce themselves 25 link frames behind it. */
static const row in_reset[] = {
    LINK(30), CORBS(1), ANSWERS(1, 0), R(4, 0x30, 0), W(4, 0x08, 0x101), LINK(24), R(2, 0x0E, 0), LINK(1),
    R(2, 0x0E, 1), R(4, 0x30, 12500),
};

/* The words that open the way from the converter 02 through input 0 of the mixer 0C to the pin 14, and last the one
 * that disables its output, in CORB at 0; a list of two buffers of 128 bytes at 1024, and the sound at 1152. */
#define OPENED \
    PUT(4, 0x00170500), PUT(8, 0x00220011), PUT(12, 0x00270610), PUT(16, 0x00C37000), PUT(20, 0x00C37180), \
        PUT(24, 0x0143B000), PUT(28, 0x01470740), PUT(32, 0x01470700), PUT(1024, 1152), PUT(1032, 128), \
        PUT(1040, 1280), PUT(1048, 128), PUT(1152, 0x00020001), PUT(1156, 0xFFFF0003), W(4, 0x08, 0x101), \
        W(2, 0x48, 7), W(1, 0x4C, 2), CORBS(7), W(2, 0xB2, 0x0011), W(4, 0xA8, 256), W(2, 0xAC, 1), \
        W(4, 0xB8, 1024), W(1, 0xA2, 0x10), W(1, 0xA0, 2)

static int is_item(const hda_item *item, uint32_t kind, int32_t left, int32_t right) {
    return item->kind == kind && item->left == left && item->right == right;
}

/* Three blocks are fetched, of which four link frames carry two before the pin is silenced and one behind it. */
static void heard_until_silenced(void) {
    static const row silenced[] = {OPENED, FETCH(12), LINK(2), R(4, 0xA4, 8), W(2, 0x48, 8), CORBS(1), LINK(2)};
    hda *d = open_text(ONE_PATH);
    hda_pin pin;
    uint64_t heard;
    RUN(d, silenced);
    CHECK(hda_pins(d, &pin, 1) == 1 && pin.codec == 0 && pin.nid == 0x14);
    CHECK(hda_heard(d, 0, 0x14, 0, items, 16, &heard) == HDA_OK && heard == 4);
    CHECK(is_item(&items[0], HDA_SOUND, 1, 2) && is_item(&items[1], HDA_SOUND, 3, -1));
    CHECK(is_item(&items[2], HDA_QUIET, 0, 0) && is_item(&items[3], HDA_HOLE, 0, 0));
    hda_close(&d);
}

/* Steps that name a codec, a pin or a stream that is not there: seven answers wait, and none is sent or lost; a stream
 * runs with an empty FIFO, and nothing is fetched. */
static void nothing_where_nothing_is(void) {
    static const row nowhere[] = {
        OPENED, NONE(HDA_ANSWER, 9, 0, 0), NONE(HDA_LOSE, 15, 0, 0), NONE(HDA_PLUG, 3, 0x14, 0),
        STEP(HDA_UNPLUG, 0, 0x7F, 0), STEP(HDA_FETCH, 0, 0, 64), NONE(HDA_FETCH, 2, 0, 64),
        NONE(HDA_FETCH, 255, 0, 64), LINK(0), W(4, 0x50, 1408), W(2, 0x5A, 8), W(1, 0x5C, 2), RIRBS, R(2, 0x58, 0),
        ANSWERS(7, 0), RIRBS, R(2, 0x58, 7), LINK(1)};
    hda *d = open_text(ONE_PATH);
    uint64_t heard;
    RUN(d, nowhere);
    CHECK(hda_heard(d, 0, 0x14, 0, items, 16, &heard) == HDA_OK && heard == 1 && is_item(&items[0], HDA_HOLE, 0, 0));
    hda_close(&d);
}

/* Pins stand by their associations and, in one, by their sequences; each hears every link frame. */
static void pins_in_order(void) {
    static const char five[] =
        "[[codec]]\naddress = 0\nvendor = 0x10EC0888\nnode = [{nid = 0x02, caps = 0x1}, "
        "{nid = 0x14, caps = 0x400101, pin_caps = 0x10, default = 0x01014010, list = [2]}, "
        "{nid = 0x15, caps = 0x400101, pin_caps = 0x10, default = 0x01011012, list = [2]}, "
        "{nid = 0x16, caps = 0x400101, pin_caps = 0x10, default = 0x01016011, list = [2]}, "
        "{nid = 0x17, caps = 0x400101, pin_caps = 0x10, default = 0x01012014, list = [2]}, "
        "{nid = 0x1B, caps = 0x400101, pin_caps = 0x10, default = 0x02214020, list = [2]}, "
        "{nid = 0x1C, caps = 0x400101, pin_caps = 0x10, default = 0x411111F0, list = [2]}]\n";
    static const uint8_t order[] = {0x14, 0x16, 0x15, 0x17, 0x1B};
    static const row frames[] = {OPENED, FETCH(8), LINK(3)};
    hda *d = open_text(five);
    hda_pin pins[8];
    uint64_t heard;
    size_t k;
    RUN(d, frames);
    CHECK(hda_pins(d, pins, 8) == 5);
    for (k = 0; k < 5; k++) {
        CHECK(pins[k].codec == 0 && pins[k].nid == order[k]);
        CHECK(hda_heard(d, 0, order[k], 0, items, 16, &heard) == HDA_OK && heard == 3);
        CHECK(is_item(&items[0], k ? HDA_QUIET : HDA_SOUND, k ? 0 : 1, k ? 0 : 2) && items[2].kind == HDA_HOLE);
    }
    hda_close(&d);
}

int main(void) {
    keeps_64_responses();
    OPEN_AND_RUN(ONE_PIN("0"), answers);
    OPEN_AND_RUN(ONE_PIN("0"), losing);
    OPEN_AND_RUN(ONE_PATH, full);
    OPEN_AND_RUN("rirb = 16\n" ONE_PIN("0") ONE_PIN("2"), responses);
    OPEN_AND_RUN("corb = 2\n" ONE_PIN("0"), round_the_ring);
    OPEN_AND_RUN(ONE_PATH, way);
    OPEN_AND_RUN(ONE_PATH, in_reset);
    heard_until_silenced();
    nothing_where_nothing_is();
    pins_in_order();
    printf("queues: %ld wrong\n", wrong);
    return wrong != 0;
}
