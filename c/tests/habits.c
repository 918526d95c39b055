/* Each habit does what c/hda.h says of it, by the log. Usage: habits CODEC_FILE */
#include "driver.h"

enum { ACCESSES = 2000, SECOND = 48000 };

/* How many entries of each kind a log has after so many reads by these habits, how many link frames passed, the least
 * and the most bytes of a fetch of stream 1, and the most of CORB's turns before one read. */
typedef struct counts {
    unsigned of[HDA_RESTORE + 1], most_turns, reads_without;
    uint64_t frames, least, most;
} counts;

static counts of_log(const hda *d) {
    counts made = {{0}, 0, 0, 0, UINT64_MAX, 0};
    unsigned turns = 0;
    size_t entries, k;
    const hda_entry *log = hda_log(d, &entries);
    for (k = 0; k < entries; k++) {
        made.of[log[k].what]++;
        if (log[k].what == HDA_FETCH) {
            CHECK(log[k].a == 1);
            if (log[k].c > made.most) made.most = log[k].c;
            if (log[k].c < made.least) made.least = log[k].c;
        }
        if (log[k].what == HDA_CORB) turns++;
        if (log[k].what != HDA_READ) continue;
        if (turns > made.most_turns) made.most_turns = turns;
        if (!turns) made.reads_without++;
        turns = 0;
    }
    made.frames = hda_frames(d);
    return made;
}

/* A device that acts by these habits, with a log of so many reads. */
static hda *logged(hda_habits habits, unsigned reads) {
    hda *d = open_device();
    CHECK(hda_act(d, &habits) == HDA_OK && hda_keep_log(d, 1) == HDA_OK);
    while (reads--) hda_read(d, 0x08, 4);
    return d;
}

static counts count(hda_habits habits) {
    hda *d = logged(habits, ACCESSES);
    counts made = of_log(d);
    hda_close(&d);
    return made;
}

static void parts(void) {
    hda_habits h = {1, 2, 0, 0, 100, 0, 0, 0};
    counts each = count(h), late, never, none;
    unsigned turns = each.of[HDA_CORB];
    CHECK(each.of[HDA_READ] == ACCESSES && each.frames == 0 && each.of[HDA_LINK] == 0);
    CHECK(turns > ACCESSES * 14 / 10 && turns < ACCESSES * 16 / 10 && each.most_turns == 2 && !each.reads_without);
    CHECK(each.of[HDA_RIRB] == turns && each.of[HDA_ANSWER] == turns && each.of[HDA_FETCH] == turns);
    CHECK(each.of[HDA_LOSE] == 0 && each.least >= 1 && each.least < 10 && each.most > 90 && each.most <= 100);
    h.idle = 1000;
    h.patience = 9;
    late = count(h);
    CHECK(late.of[HDA_CORB] > turns / 12 && late.of[HDA_CORB] < turns / 8);
    CHECK(late.of[HDA_RIRB] == late.of[HDA_CORB] && late.of[HDA_FETCH] == late.of[HDA_CORB]);
    h.patience = 1000000;
    never = count(h);
    CHECK(!never.of[HDA_CORB] && !never.of[HDA_RIRB] && !never.of[HDA_ANSWER] && !never.of[HDA_FETCH]);
    h.idle = 300;
    late = count(h);
    CHECK(late.of[HDA_CORB] > turns * 6 / 10 && late.of[HDA_CORB] < turns * 8 / 10);
    h.turns = 0;
    none = count(h);
    CHECK(none.of[HDA_READ] == ACCESSES && !none.of[HDA_CORB]);
    h.turns = 1;
    h.idle = 0;
    each = count(h);
    CHECK(each.of[HDA_CORB] == ACCESSES && !each.reads_without && each.most_turns == 1);
}

/* How many accesses in a row CORB makes no step, at most. */
static unsigned put_off(hda_habits habits) {
    hda *d = logged(habits, 20000);
    size_t entries, k;
    const hda_entry *log = hda_log(d, &entries);
    unsigned now = 0, most = 0;
    for (k = 0; k < entries; k++) {
        now = log[k].what == HDA_CORB ? 0 : now + (log[k].what == HDA_READ);
        if (now > most) most = now;
    }
    hda_close(&d);
    return most;
}

/* Patience is in turns; since each access has one at least, no step is put off for more accesses. */
static void patience(void) {
    hda_habits usual = hda_usual(1), late = {1, 1, 1000, 5, 0, 0, 0, 0};
    usual.frames = 0;
    CHECK(put_off(hda_quick(1)) == 1 && put_off(usual) <= 9 && put_off(late) == 6);
}

/* In the turns of one access the parts come in all orders, about as often each. */
static void order(void) {
    hda_habits h = {1, 1, 0, 0, 100, 0, 0, 0};
    hda *d = logged(h, 24 * 200);
    size_t entries, k;
    const hda_entry *log = hda_log(d, &entries);
    unsigned seen[65536] = {0}, orders = 0;
    CHECK(entries == 5 * 24 * 200);
    for (k = 0; k + 5 <= entries; k += 5)
        seen[log[k].what << 12 | log[k + 1].what << 8 | log[k + 2].what << 4 | log[k + 3].what]++;
    for (k = 0; k < 65536; k++) {
        orders += seen[k] > 0;
        CHECK(!seen[k] || (seen[k] > 140 && seen[k] < 260));
    }
    CHECK(orders == 24);
    hda_close(&d);
}

static void losses(void) {
    hda_habits h = {1, 2, 0, 0, 0, 0, 1000, 0};
    counts all = count(h), some;
    CHECK(all.of[HDA_LOSE] > 0 && !all.of[HDA_ANSWER] && !all.of[HDA_FETCH]);
    h.lose = 500;
    some = count(h);
    CHECK(some.of[HDA_LOSE] > ACCESSES / 2 && some.of[HDA_ANSWER] > ACCESSES / 2);
}

static void time_passes(void) {
    hda_habits h = {1, 0, 0, 0, 0, 0, 0, 200};
    counts some = count(h);
    CHECK(some.frames == some.of[HDA_LINK] && some.frames > ACCESSES / 6 && some.frames < ACCESSES / 4);
    h.frames = 3000;
    some = count(h);
    CHECK(some.frames > ACCESSES * 11 / 4 && some.frames < ACCESSES * 13 / 4);
}

static int is_log(const hda *d, const hda_entry *wanted, size_t count) {
    size_t entries;
    const hda_entry *log = hda_log(d, &entries);
    return entries == count && !memcmp(log, wanted, count * sizeof *log);
}

/* Habits begin anew where they are given again, and end with NULL. */
static void anew(void) {
    static hda_entry first[65536];
    hda_habits h = hda_usual(3);
    hda *d = logged(h, ACCESSES);
    size_t entries;
    const hda_entry *log = hda_log(d, &entries);
    unsigned k;
    CHECK(entries < 65536 && entries > ACCESSES);
    memcpy(first, log, entries * sizeof *log);
    CHECK(hda_keep_log(d, 1) == HDA_OK && hda_act(d, &h) == HDA_OK);
    for (k = 0; k < ACCESSES; k++) hda_read(d, 0x08, 4);
    CHECK(is_log(d, first, entries));
    CHECK(hda_keep_log(d, 1) == HDA_OK && hda_act(d, NULL) == HDA_OK);
    for (k = 0; k < ACCESSES; k++) hda_read(d, 0x08, 4);
    hda_pass(d, 250);
    hda_log(d, &entries);
    CHECK(of_log(d).of[HDA_READ] == ACCESSES && of_log(d).of[HDA_LINK] == 3 && entries == ACCESSES + 3);
    hda_close(&d);
}

/* A preset has the seed that it is given. */
static void seeds(void) {
    hda_habits (*const presets[])(uint64_t) = {hda_quick, hda_usual, hda_difficult};
    unsigned k;
    for (k = 0; k < 3; k++) {
        hda *d = logged(presets[k](1), ACCESSES), *other = logged(presets[k](UINT64_C(1) << 40 | 1), ACCESSES);
        size_t entries;
        const hda_entry *log = hda_log(d, &entries);
        CHECK(presets[k](7).seed == 7 && !is_log(other, log, entries));
        hda_close(&d);
        hda_close(&other);
    }
}

/* ---- starving ---- */

/* What a pin hears of a second by these habits: how many holes, and the longest row of them. */
typedef struct holes {
    uint64_t heard, all, longest;
} holes;

static holes of_second(hda_habits habits) {
    static hda_item items[65536];
    hda_habits quick = hda_quick(1);
    driver r = {0};
    holes found = {0, 0, 0};
    uint64_t k, row = 0;
    r.device = open_device();
    CHECK(hda_act(r.device, &quick) == HDA_OK && bring_up(&r));
    start(&r, BUFFER);
    CHECK(hda_fetch(r.device, 1, 65535) == HDA_OK);
    CHECK(hda_act(r.device, &habits) == HDA_OK && hda_forget(r.device) == HDA_OK);
    CHECK(hda_pass(r.device, SECOND) == HDA_OK);
    CHECK(hda_heard(r.device, 0, 0x14, 0, items, 65536, &found.heard) == HDA_OK);
    for (k = 0; k < found.heard && k < 65536; k++) {
        row = items[k].kind == HDA_HOLE ? row + 1 : 0;
        found.all += row > 0;
        if (row > found.longest) found.longest = row;
    }
    hda_close(&r.device);
    return found;
}

/* Without starving no preset makes a hole; in a bout neither the turns nor the frames fetch. The FIFO holds 48 frames,
 * of which a bout of 200 finds 47 at least. */
static void starving(void) {
    hda_habits h = {1, 0, 0, 0, 0, 0, 0, 0};
    uint64_t seed, with_holes = 0;
    holes found = of_second(h);
    CHECK(found.heard == SECOND && found.all == 0);
    CHECK(of_second(hda_quick(1)).all == 0 && of_second(hda_usual(1)).all == 0);
    h.starve = 1000;
    found = of_second(h);
    CHECK(found.all == SECOND - 48);
    h.turns = 3;
    h.fetch = 65535;
    CHECK(of_second(h).all == SECOND - 48);
    h.starve = 2;
    found = of_second(h);
    CHECK(found.all > SECOND / 50 && found.all < SECOND / 4 && found.longest > 100 && found.longest <= 153);
    for (seed = 1; seed <= 10; seed++) {
        found = of_second(hda_difficult(seed));
        with_holes += found.all > 0;
        CHECK(found.all < SECOND / 4 && found.longest <= 153);
    }
    CHECK(with_holes >= 9);
}

int main(int argc, char **argv) {
    read_text(argc > 1 ? argv[1] : "");
    parts();
    patience();
    order();
    losses();
    time_passes();
    anew();
    seeds();
    starving();
    printf("habits: %ld wrong\n", wrong);
    return wrong != 0;
}
