/* An Intel High Definition Audio controller (specification 1.0a) with one to four codecs, for drivers, emulators and
 * firmware.
 *
 * What the device does at each access and at each step is the proved model of libhda_c.a. hda.c, which no proof covers,
 * holds its memory, keeps its time and chooses which steps it makes when. docs/C.md says how to build and link it, and
 * has the first program.
 *
 * Numbers in (3.3.7) are sections of the specification. Every function takes NULL for a device, and gives HDA_CLOSED, 0
 * or nothing then. A device belongs to one thread at a time; two devices may belong to two threads. What a function
 * gives is a status; an answer is what a codec sends for a command. */
#ifndef HDA_H
#define HDA_H
#include <stddef.h>
#include <stdint.h>
#include <stdio.h>
#ifdef __cplusplus
extern "C" {
#endif

typedef struct hda hda;

/* Statuses. Where it is not HDA_OK the function itself changed nothing, but for hda_pass, whose link frames stay
 * passed, and the two that write a log, which may have written a part. The steps that the device made by itself before
 * (hda_act) stay made. */
enum {
    HDA_OK = 0,
    HDA_NO_MEMORY = 1, /* memory was wanting */
    HDA_REFUSED = 2,   /* the text, the habits or the log are refused, or a file could not be written */
    HDA_NO_SUCH = 3,   /* there is no such width, address, codec, stream, pin, step or snapshot */
    HDA_OUTSIDE = 4,   /* not all of it lies in the device's memory */
    HDA_CLOSED = 5     /* there is no device */
};

/* ---- a device ---- */

#define HDA_MEMORY 4194304u /* bytes of memory that a device has where none is lent */
#define HDA_TEXT 262144u    /* the most bytes of a codec file's text */

/* Opens the device that the text of a codec file describes (docs/FORMATS.md), `length` bytes, 1 to HDA_TEXT. The
 * controller is in reset (3.3.7), and nothing was heard yet.
 *
 * The memory that its engines reach begins at bus address 0. With `memory` it is these `size` bytes, 0 or more: they
 * stay the caller's, who may read and write them between two calls, while none runs, and have to live as long as the
 * device. With NULL it is a region of `size` bytes of its own that are 0, of HDA_MEMORY bytes where `size` is 0.
 *
 * Gives NULL where the text is refused or memory was wanting. Then `fault`, of `fault_size` bytes, has the reason,
 * ended by a 0 and cut to fit: the words that `hda_play` writes behind "codec refused: " (as "MissingKey caps at codec
 * 0 node 1"), or "OutOfMemory". `fault` may be NULL. */
hda *hda_open(const char *text, size_t length, void *memory, size_t size, char *fault, size_t fault_size);

/* Closes the device, frees what it took, and makes the pointer NULL. Nothing happens where it is NULL already. */
void hda_close(hda **device);

/* The status of the last function with this device that has one: hda_read and hda_save among them, hda_log_text and
 * hda_log_schedule not. */
int hda_status(const hda *device);

/* ---- what a driver does ---- */

/* Reads the registers (3.3): `bytes` 1, 2 or 4 at a multiple of that number. An address without a register, one that is
 * no such multiple, another number of bytes and an address past 65,535 read 0; the last two have the status
 * HDA_NO_SUCH. A guest's access of 8 bytes is two of 4. */
uint32_t hda_read(hda *device, uint32_t at, unsigned bytes);

/* Writes the registers (3.3), the lowest bytes of `value`. Where hda_read would read 0 for want of a register nothing
 * is written. */
int hda_write(hda *device, uint32_t at, unsigned bytes, uint32_t value);

/* The device's memory, and how many bytes it has. */
uint8_t *hda_memory(hda *device, size_t *size);

/* Reads or writes `bytes` bytes of the memory from a bus address on, at most 4,294,967,295, as an access of the driver:
 * the device may act before it. `into` and `from` may lie in the memory itself. HDA_OUTSIDE where not all bytes lie in
 * it, they are more, or the pointer is NULL and `bytes` is not 0. */
int hda_dma_read(hda *device, uint64_t address, void *into, size_t bytes);
int hda_dma_write(hda *device, uint64_t address, const void *from, size_t bytes);

/* 1 where the interrupt line is high (3.3.14, 3.3.15), else 0. No access: the device does not act. */
int hda_line(hda *device);

/* ---- what the device does ---- */

/* One step each. HDA_OK also where nothing was there to be done, as while the controller is in reset. */
/* CORB's engine fetches a command and hands it to its codec (4.4.1). Room is taken first for the mark of a pin whose
 * control it may set; HDA_NO_MEMORY where there is none. */
int hda_corb(hda *device);
int hda_answer(hda *device, uint8_t codec); /* the codec sends the first answer or event that waits at it (4.4.2) */
int hda_lose(hda *device, uint8_t codec);   /* the codec loses the first answer that waits at it */
int hda_rirb(hda *device);                  /* RIRB's engine writes what waits, at most RINTCNT responses (4.4.2) */
/* Stream 0 stores at most so many bytes of its FIFO in its buffers, or stream 1 fetches as many from its own into its
 * FIFO, 0 to 65,535 (4.5). */
int hda_fetch(hda *device, uint8_t stream, uint32_t most);
/* So many link frames pass, of 1/48,000 second each (5.3). Room is taken first for all that pins may hear in them and
 * for the marks of hda_taken, up to four blocks a frame, also in reset and where no stream runs; HDA_NO_MEMORY where
 * there is none. 1,000,000 frames take 268 MB for one pin, which the device keeps and each snapshot has. For a long
 * time hda_pass takes far less. */
int hda_link(hda *device, uint32_t frames);
int hda_plug(hda *device, uint8_t codec, uint8_t nid);   /* something is plugged in at a pin (7.3.3.15) */
int hda_unplug(hda *device, uint8_t codec, uint8_t nid); /* and pulled out; at a node that is no pin nothing happens */

/* The steps' numbers, in a log and for hda_step: `part` is the codec or the stream, `count` the bytes or the frames. */
enum {
    HDA_CORB = 1,
    HDA_ANSWER = 2,
    HDA_LOSE = 3,
    HDA_RIRB = 4,
    HDA_FETCH = 5,
    HDA_LINK = 6,
    HDA_PLUG = 7,
    HDA_UNPLUG = 8
};
int hda_step(hda *device, unsigned kind, uint8_t part, uint8_t nid, uint32_t count);

/* ---- a device that acts by itself ---- */

/* By which the device chooses its steps. All choices come of the seed: the same calls with the same habits make the
 * same steps. docs/C.md says in which order the choices are made. */
typedef struct hda_habits {
    uint64_t seed;
    /* Before each access and before each link frame the device has 1 to so many turns, 0 to 1,000; none with 0. In a
     * turn each of its parts (CORB, RIRB, the fetching output stream, each codec) may make one step, in an order that
     * is drawn anew. */
    uint32_t turns;
    /* So many of 1,000 turns a part lets pass, 0 to 1,000, */
    uint32_t idle;
    /* but never more than so many turns in a row, 0 to 1,000,000. Unless `turns` is 0, a step is put off for no more
     * accesses and link frames than that, but for fetches while the stream starves. */
    uint32_t patience;
    /* The most bytes of one fetch in a turn, 0 to 65,535. A few prefetch bit by bit, 65,535 fill the FIFO at once, 0
     * prefetch nothing. */
    uint32_t fetch;
    /* Of 1,000 link frames so many begin a bout, 0 to 1,000: for 1 to 200 link frames the output stream fetches
     * nothing, and those that find too few bytes in the FIFO are holes. Its 192 bytes (the codec file's `fifo`) last
     * for 48 frames at 48 kHz with 16 bits and 2 channels. Before a frame outside of a bout the FIFO is filled. */
    uint32_t starve;
    /* Of 1,000 answers so many are lost, 0 to 1,000. */
    uint32_t lose;
    /* Link frames that pass in 1,000 accesses, on the average, 0 to 1,000,000. With 0 time passes in hda_pass and
     * hda_link alone. */
    uint32_t frames;
} hda_habits;

/* Three devices: one that does each step at the next turn, one that takes its time, and one that answers late, starves
 * some 40 times a second, and lets time run. */
hda_habits hda_quick(uint64_t seed);
hda_habits hda_usual(uint64_t seed);
hda_habits hda_difficult(uint64_t seed);

/* From now on the device acts by these habits; with NULL by none, as at its opening. HDA_REFUSED where a number is out
 * of its range. */
int hda_act(hda *device, const hda_habits *habits);

/* Lets so many link frames pass, the device acting by its habits before each. Ends early, with HDA_NO_MEMORY, where
 * memory was wanting: hda_frames says how many passed. UINT64_MAX of them never end. */
int hda_pass(hda *device, uint64_t frames);

/* How many link frames passed since the opening, in reset too. hda_restore puts the number back. */
uint64_t hda_frames(const hda *device);

/* Whether memory was wanting for a step that the device made by itself. It did nothing then. */
int hda_wanted_memory(const hda *device);

/* ---- what the pins heard ---- */

/* One for each block of the stream, and one for each link frame that missed its blocks. */
enum {
    HDA_QUIET = 0,   /* nothing */
    HDA_HOLE = 1,    /* the blocks of a link frame were missing */
    HDA_ALTERED = 2, /* a signal that is not followed, as through an amplifier that is not at 0 dB */
    HDA_SOUND = 3    /* two samples */
};
/* Samples have a sign. One of 16 bits stands in the lowest bits; of 24 and 32 bits it is the number in the container of
 * four bytes, so that 24 bits stand in the upper three (4.5.1). */
typedef struct hda_item {
    uint32_t kind;
    int32_t left, right;
} hda_item;
typedef struct hda_pin {
    uint8_t codec, nid;
} hda_pin;

/* The pins that can hear: the candidate pins, codecs ascending. Writes as many as fit, or none where `into` is NULL,
 * and gives how many there are, at most 16. */
size_t hda_pins(hda *device, hda_pin *into, size_t count);

/* The addresses of the codecs, bit n for address n, as in STATESTS (3.3.9). */
uint16_t hda_codecs(const hda *device);

/* What a pin heard since the opening or the last hda_forget: *heard is how many items, and those from the number `from`
 * on, counted from 0, are copied into `into`, at most `count`. `heard` may be NULL, and `into` where `count` is 0. */
int hda_heard(hda *device, uint8_t codec, uint8_t nid, uint64_t from, hda_item *into, size_t count, uint64_t *heard);

/* Forgets what all pins heard. The room that it took is used again; a device that runs for long calls it now and then.
 */
int hda_forget(hda *device);

/* Items as frames of two samples, lowest byte first, left before right, as they stood in the stream's memory; all but
 * sound is 0. `bits` has to be the stream's: 16, in 2 bytes, or 24 or 32, in 4. Gives how many bytes it wrote: 4 or 8
 * an item, 0 for another number of bits. */
size_t hda_pcm(const hda_item *items, size_t count, unsigned bits, void *into);

/* ---- what comes in ---- */

/* Gives all input pins this sound of `bytes` bytes, which are copied; NULL or no bytes are silence, as at the opening.
 * The input stream has descriptor 0. While it runs, the blocks due in a link frame (5.3) come to it where exactly one
 * input converter of all codecs has its tag and its format: the sound's block with number i, counted from the rise of
 * RUN, as its bytes have to stand in memory (4.5.1), and silence behind the last whole one; but silence where the
 * converter hears no pin. To be called before the first step, where all of it is to come. The status is HDA_NO_MEMORY
 * where memory was wanting. The log has no mark of it. */
int hda_give(hda *device, const void *sound, size_t bytes);

/* Of each block that came to the input stream since its RUN rose whether it was taken: *came is how many they are, and
 * the marks from the number `from` on, counted from 0, are copied into `into`, at most `count`: 1 where the FIFO took
 * the block, 0 where it had no room and the block was dropped (FIFOE, 3.3.36). `came` may be NULL, and `into` where
 * `count` is 0. A mark takes a byte, which is free again where RUN rises. */
int hda_taken(hda *device, uint64_t from, uint8_t *into, size_t count, uint64_t *came);

/* ---- a log ---- */

/* Beside the steps' numbers. `a`, `b` and `c` are of an access to a register its address, its bytes and its value; of
 * one to the memory the address (its lower and its upper 32 bits) and its bytes; of a step the codec or stream, the
 * node identifier and the count; of a call of the driver its budget. HDA_RESTORE stands where hda_restore put the
 * device back. */
enum {
    HDA_READ = 16,
    HDA_WRITE = 17,
    HDA_DMA_READ = 18,
    HDA_DMA_WRITE = 19,
    HDA_CALL = 20,
    HDA_RETURN = 21,
    HDA_RESTORE = 22
};
typedef struct hda_entry {
    uint32_t what, a, b, c;
} hda_entry;

/* Begins an empty log of all accesses and steps that are made from now on, or with 0 ends and frees it. */
int hda_keep_log(hda *device, int keep);

/* The log, and how many entries it has; NULL where none is kept or it has none. Valid until the next call with this
 * device. An entry for which memory was wanting is left out, and hda_log_text and hda_log_schedule then give
 * HDA_NO_MEMORY. */
const hda_entry *hda_log(const hda *device, size_t *count);

/* Marks that a call of the driver begins, with a budget of so many bytes of sound, and that it ends. For
 * hda_log_schedule alone. */
int hda_call(hda *device, uint32_t budget);
int hda_return(hda *device);

/* Writes the log as lines: `read 0008 4 00000001`, `link 1`. HDA_REFUSED where no log is kept or `file` is NULL, and
 * where it could not be written whole: then a part may stand there. */
int hda_log_text(const hda *device, FILE *file);

/* Writes the steps of the log as a schedule file (docs/FORMATS.md): a line for each step outside of calls, and for each
 * call `run BUDGET` with a group for each access. A fetch of no bytes, no link frame, and a node identifier that is not
 * 01 to 7f do nothing, and are left out.
 *
 * HDA_REFUSED as of hda_log_text, and with nothing written where the log is no run: it was begun after an access, a
 * step or another log, the device was put back since (hda_restore), an access stands outside of a call, or a call has
 * no end; and where the file would be past the limits: 1,000,000 steps, 2,000,000 link frames, 4,194,304 bytes. */
int hda_log_schedule(const hda *device, FILE *file);

/* ---- snapshots ---- */

/* A copy of all that the device is: its registers, rings, streams and codecs, what its pins heard and are given, its
 * habits with where their choices stand, and its memory where that is its own. Lent memory is the caller's to save. The
 * log is no part of it, and goes on where the device is put back. */
typedef struct hda_saved hda_saved;

/* Gives NULL where memory was wanting. */
hda_saved *hda_save(hda *device);

/* Makes the device what it was at the saving: the same calls then give the same. As often as wanted, and without taking
 * more memory. HDA_NO_SUCH where the snapshot is NULL or of another device; a device's snapshots are of no use once it
 * is closed. */
int hda_restore(hda *device, const hda_saved *saved);

/* Frees a snapshot, and makes the pointer NULL. */
void hda_discard(hda_saved **saved);

#ifdef __cplusplus
}
#endif
#endif
