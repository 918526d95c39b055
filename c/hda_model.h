/* The proved device model as C sees it: the exports of the crate hda_c, libhda_c.a. A driver or an emulator uses hda.h,
 * which checks what it is given, keeps the memory and lets the device act; this is for those who want the model alone.
 * They link the toolchain's liblibc_c.a, which takes the model's memory from malloc, and not hda_heap.c.
 *
 * What a caller owes, since nothing checks it: each pointer is one to so many bytes or items as stand beside it and is
 * not null, also where there are none; no two pointers of one call overlap; all bytes of a place are 0 before its first
 * call; a place is given to one call at a time, and none writes to it or copies it. Beside that every call with every
 * value is defined, and gives a status of hda.h: HDA_OK, HDA_NO_MEMORY, HDA_REFUSED, HDA_NO_SUCH or HDA_CLOSED. Where
 * that is not HDA_OK nothing changed, but that hda_model_open has freed the device that was in the place. */
#ifndef HDA_MODEL_H
#define HDA_MODEL_H
#include "hda.h"
#include <stdbool.h>
#ifdef __cplusplus
extern "C" {
#endif

/* A place for a device: none where all its bytes are 0. */
typedef struct hda_model {
    bool is_open;
    void *at;
} hda_model;

/* Opens the device of a codec file's text, in the place of any that is there, which is freed first. HDA_OK, HDA_REFUSED
 * or HDA_NO_MEMORY; but for the first the place then holds none. Where the text is refused, `fault` begins with the
 * words of the fault, as many bytes as fit and with no 0 behind them, and *told is how many they are; else that is 0.
 */
uint8_t hda_model_open(hda_model *place, const uint8_t *text, size_t length, uint8_t *fault, size_t fault_size,
                       size_t *told);

/* Frees the device, if there is one. The place then holds none. */
void hda_model_close(hda_model *place);

/* Reads 1, 2 or 4 bytes of the registers (3.3). HDA_NO_SUCH for another number; then *value is 0. */
uint8_t hda_model_read(hda_model *place, uint16_t at, uint8_t bytes, uint32_t *value);

/* Writes 1, 2 or 4 bytes of the registers (3.3). HDA_NO_SUCH for another number. */
uint8_t hda_model_write(hda_model *place, uint16_t at, uint8_t bytes, uint32_t value);

/* *high is 1 where the interrupt line is high (3.3.14, 3.3.15), else 0. */
uint8_t hda_model_line(hda_model *place, uint32_t *high);

/* Makes a step with the memory that the engines reach, whose first byte has the bus address 0. HDA_NO_SUCH where no
 * step has this number, `part` is no codec or no stream, or a fetch is of more than 65,535 bytes. HDA_NO_MEMORY comes
 * at HDA_LINK alone. */
uint8_t hda_model_step(hda_model *place, uint8_t *memory, size_t size, uint8_t kind, uint8_t part, uint8_t node,
                       uint32_t count);

/* Gives all input pins these bytes, which are copied, as their sound. HDA_OK or HDA_NO_MEMORY. */
uint8_t hda_model_give(hda_model *place, const uint8_t *sound, size_t size);

/* *count is how many blocks came to the input stream since its RUN rose. */
uint8_t hda_model_taken_count(hda_model *place, uint64_t *count);

/* Copies their marks from the number `from` on, counted from 0, into `into`, at most `room`: 1 where the block was
 * taken, 0 where it was dropped. */
uint8_t hda_model_copy_taken(hda_model *place, uint64_t from, uint8_t *into, size_t room);

/* *count is how many items a pin heard that were not forgotten, and those from the number `from` on, counted from 0,
 * are copied into `into`, at most `room`. HDA_NO_SUCH where there is no such pin; then *count is 0. */
uint8_t hda_model_heard(hda_model *place, uint8_t codec, uint8_t nid, uint64_t from, hda_item *into, size_t room,
                        uint64_t *count);

/* Forgets what all pins heard. */
uint8_t hda_model_forget(hda_model *place);

/* HDA_OK where a codec has this address, else HDA_NO_SUCH. */
uint8_t hda_model_codec(hda_model *place, uint8_t address);

/* The pin with a number, counted from 0, of those that can hear, codecs ascending. HDA_NO_SUCH where there are no more.
 */
uint8_t hda_model_pin_at(hda_model *place, size_t number, hda_pin *name);

#ifdef __cplusplus
}
#endif
#endif
