/* The part's rules in plain C, written for speed: the baseline that the proved code is measured against.
   It trusts its state and its arguments, so it never gives refusals 4, 5, 6 or 16. */
#ifndef MODEL_H
#define MODEL_H

#include <stdbool.h>
#include <stddef.h>
#include <stdint.h>

enum kind { INSTRUCTION_WRITE, DATA_WRITE, STATUS_READ, DATA_READ, WAIT };

enum answer { DONE = 0, BUSY = 1, HALVES_DISAGREE = 2, NO_SUCH_ADDRESS = 3, FIRST_HALF = 20 };

enum { NO_HALF = 255, ROM_BYTES = 4096, MOST_DOTS = 880 };

struct part {
    uint8_t display[80];
    uint8_t character[64];
    uint16_t busy;
    uint8_t address;     /* as on the bus */
    bool in_character;   /* the counter belongs to character memory */
    uint8_t shift;
    uint8_t half;        /* the kind of the half that waits, or NO_HALF */
    uint8_t half_bits;   /* a write's half, in the upper four bits */
    bool four_lines, two_lines, tall;
    bool up, shift_on_write;
    bool display_on, cursor, blink;
};

void switch_on(struct part *part);

/* One transfer of the kinds 0 to 3. The value read is 0 unless a read succeeds; the wrap is true where the counter
   passed an end. */
uint8_t transfer(struct part *part, enum kind kind, uint8_t value, uint8_t *read, bool *wrap);

/* Not `wait`, which the C library has already. */
void wait_ticks(struct part *part, uint16_t ticks);

/* Lines x rows x digits bytes; returns how many. */
size_t picture_model(const struct part *part, unsigned digits, const uint8_t rom[ROM_BYTES], bool dark, uint8_t *dots);

/* All events (three bytes each, as behind a sound record's head), and three bytes for each: its answer, the value read
   and the wrap. */
void list_model(struct part *part, const uint8_t *events, size_t bytes, uint8_t *answers);

#endif
