/* What hda.c and hda_log.c share of a device. Not for drivers. */
#ifndef HDA_DEVICE_H
#define HDA_DEVICE_H
#include "hda.h"
#include "hda_heap.h"
#include "hda_model.h"

/* Fifteen addresses of codecs (3.3.9); a device's parts that act are CORB, RIRB, the output stream's fetching, and each
 * codec. */
enum { HDA_ADDRESSES = 15, HDA_PARTS = 3 + HDA_ADDRESSES };

/* What a snapshot copies beside the heap and the memory. */
typedef struct hda_state {
    hda_model model;
    hda_habits habits;
    int acts, wanted_memory;
    uint64_t random, frames;
    uint32_t owed;              /* thousandths of link frames that accesses still owe */
    uint32_t passed[HDA_PARTS]; /* turns in a row that a part let pass */
    uint32_t starving;          /* link frames that are left of a bout without fetches */
} hda_state;

struct hda {
    hda_state state;
    hda_heap heap;
    uint8_t *memory;
    size_t size;
    int owns, status;
    uint16_t codecs;
    uint64_t number; /* of the opening, by which a snapshot knows its device */
    int logs, log_wants;
    int missed; /* whether an access or a step was made that the log has not */
    hda_entry *log;
    size_t logged, room;
};

/* Adds an entry where a log is kept. */
void hda_note(hda *device, uint32_t what, uint32_t a, uint32_t b, uint32_t c);

#endif
