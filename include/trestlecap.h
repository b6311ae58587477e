/* Trestlecap: the display controller OKI MSM6222B-01, as a library for C.

   The caller keeps one part as a run of 159 bytes and lends it to each call, which changes it where it stands. Make it
   with trestlecap_switch_on; then copy it, save it or send it as it is. Nothing is kept between two calls.

   Every call returns an answer: 0 when it is done, else the number of a refusal. The refusals stand with each function
   in the order in which they are looked at: of several, the first is given. A refused call writes nothing: no state, no
   byte of a buffer, no number behind a pointer.

   A run of bytes is a pointer and a length; a run of no bytes may be NULL, a pointer to a number may not. What is lent
   to one call must not overlap. */
#ifndef TRESTLECAP_H
#define TRESTLECAP_H

#include <stddef.h>
#include <stdint.h>

#ifdef __cplusplus
extern "C" {
#endif

/* What a call returns, and what an event is answered (there only 0 to 3 and 20). */
enum trestlecap_answer {
    TRESTLECAP_DONE = 0,
    TRESTLECAP_BUSY = 1,              /* busy, and the transfer is no status read */
    TRESTLECAP_HALVES_DISAGREE = 2,   /* the second half has another RS or R/W; the first is forgotten */
    TRESTLECAP_NO_SUCH_ADDRESS = 3,   /* a display address that the line mode lacks */
    TRESTLECAP_BAD_DIGITS = 4,        /* 0, or above 80 with one line, above 40 with two */
    TRESTLECAP_BAD_IMAGE = 5,         /* the ROM image is not of 4,096 bytes */
    TRESTLECAP_SHORT_BUFFER = 6,      /* no room for what would be written */
    TRESTLECAP_BAD_LENGTH = 7,        /* a record below 3 bytes */
    TRESTLECAP_BAD_VERSION = 8,       /* a record's version is not 1 */
    TRESTLECAP_BAD_EVENTS = 9,        /* not whole, more than 4,096, or one that is ill-formed */
    TRESTLECAP_BAD_NIGHT = 11,        /* above 23 */
    TRESTLECAP_BAD_QUARTERS = 12,     /* above 96 quarter hours */
    TRESTLECAP_ALREADY_WRITTEN = 13,  /* the night keeps its figure */
    TRESTLECAP_NOT_IN_RANGE = 16,     /* not the bytes of a part in range */
    TRESTLECAP_NOT_READY = 17,        /* unless N = 1, direction up, no shift on write, shift 0 and no half waiting */
    TRESTLECAP_BAD_TEXT = 18,         /* not 16 characters, or no such line */
    TRESTLECAP_FIRST_HALF = 20,       /* the first half of a transfer on four lines was taken */
    TRESTLECAP_BAD_VDD = 21,          /* not 288 to 352 */
    TRESTLECAP_BAD_SPAN = 22          /* not 192 to 512 */
};

/* The first byte of an event. Its value, high byte first, is up to 255 for a write, 0 for a read, and any number of
   ticks for a wait. */
enum trestlecap_kind {
    TRESTLECAP_INSTRUCTION_WRITE = 0,
    TRESTLECAP_DATA_WRITE = 1,
    TRESTLECAP_STATUS_READ = 2,
    TRESTLECAP_DATA_READ = 3,
    TRESTLECAP_WAIT = 4
};

/* The wrap: 1 where a transfer stepped the counter past an end (text that goes on there has run off its line), else 0.
   The ends, in hex: 27 to 40 and 67 to 00 with two lines, 4F to 00 with one, 3F to 00 in character memory, and each of
   these downwards. Data writes, data reads and cursor moves (10 to 17) step the counter, on four lines with the second
   half. Status reads, first halves, refusals, every other instruction (also one that sets address 00) and waits have
   wrap 0. */

/* Lengths in bytes. */
enum {
    TRESTLECAP_STATE_BYTES = 159,
    TRESTLECAP_EVENT_BYTES = 3,   /* kind, value */
    TRESTLECAP_ANSWER_BYTES = 3,  /* answer, value read, wrap */
    TRESTLECAP_ROM_BYTES = 4096,
    TRESTLECAP_TEXT_BYTES = 16,
    TRESTLECAP_MOST_DOTS = 880,   /* of a picture: 80 digits with 11 rows */
    TRESTLECAP_MOST_RECORD = 12291 /* of a bench record: 4,096 events */
};

/* Numbers of other things. */
enum {
    TRESTLECAP_MOST_EVENTS = 4096,
    TRESTLECAP_NIGHTS = 24,
    TRESTLECAP_MOST_QUARTERS = 96,
    TRESTLECAP_QUARTER_VOLTAGES = 3,
    TRESTLECAP_FIFTH_VOLTAGES = 4,
    TRESTLECAP_MOST_BUSY = 3750   /* ticks; a wait of so many waits any busy time out */
};

/* The state, for whoever looks into it. Any other bytes, and any other length, are refused with 16.

       0 to 79      display memory, by cells
       80 to 143    character memory
       144          memory of the counter: 0 display, 1 character
       145          address: one that the memory and the line mode have
       146          shift: 0 to 79 with one line, 0 to 39 with two
       147 to 154   eight lines, N, F, direction up, shift on write, display, cursor, blink: each 0 or 1
       155          half that waits: 0 none, 1 instruction write, 2 data write, 3 status read, 4 data read;
                    on eight lines 0
       156          its number: 0 to 15 for a write, else 0
       157, 158     busy ticks, high byte first: 0 to 3,750 */

/* Makes the part as it is just switched on: eight lines, one line of text, all off, busy for 3,750 ticks.

   Refusals: 6 (fewer than 159 bytes).
   Writes: the first 159 bytes of state. */
uint8_t trestlecap_switch_on(uint8_t *state, size_t state_length);

/* Gives a list of events to the part, in order. An event that is answered 1, 2 or 3 does not stop the rest; an empty
   list is done. One transfer or one wait is a list of one event.

   Refusals: 16; 6 (below three bytes of answers for each whole event, also of a list that would be refused with 9);
   9 (a length that is not a multiple of 3, more than 4,096 events, or one that is ill-formed: no event is run).
   Writes: state; the first 3 bytes of answers for each event: its answer, the value read (0 where none is) and the
   wrap (1 where the counter passed an end, else 0). */
uint8_t trestlecap_run_list(uint8_t *state, size_t state_length, const uint8_t *events, size_t events_length,
                            uint8_t *answers, size_t answers_length);

/* The standard restart, from any state: leaves four lines, N = 1, F = 0, direction up, no shift on write, all off,
   address 00 of display memory, shift 0, busy for 10 ticks. Both memories stay. Each of its writes is preceded by a
   wait; the four lower lines are 0.

   Refusals: 16.
   Writes: state. */
uint8_t trestlecap_restart(uint8_t *state, size_t state_length);

/* The picture: one byte a digit and row, the leftmost dot in bit 4, in the order line, row, digit. There are 2 lines
   with N = 1, else 1, of 11 rows with N = 0 and F = 1, else of 8. `digits` is the number in each line; `dark` is the
   blink phase: 0 plain, any other dark.

   Refusals: 16; 4; 5; 6 (below lines x rows x digits bytes).
   Writes: the first lines x rows x digits bytes of dots. */
uint8_t trestlecap_picture(const uint8_t *state, size_t state_length, uint8_t digits, const uint8_t *rom,
                           size_t rom_length, uint8_t dark, uint8_t *dots, size_t dots_length);

/* Writes a text of 16 characters on line 0 or 1 of the two-line screen, from its first digit on. A panel's call waits
   3,750 ticks before each transfer, leaves the part at display address 00, busy for 10 ticks, and writes *wrap, 1 if
   one of its data writes passed an end, else 0. Those of a text never do.

   Refusals: 16; 17; 18.
   Writes: state; *wrap, always 0. */
uint8_t trestlecap_text(uint8_t *state, size_t state_length, uint8_t line, const uint8_t *text, size_t text_length,
                        uint8_t *wrap);

/* Logs the quarter hours (0 to 96) of a night (0 to 23), off the screen, as a panel's call like a text. A night that is
   already written keeps its figure.

   Refusals: 16; 17; 11; 12; 13.
   Writes: state; *wrap, 1 exactly for night 23, whose cells stand at the ends of both lines, 27 and 67 (hex): no text
   runs off there. */
uint8_t trestlecap_log_night(uint8_t *state, size_t state_length, uint8_t night, uint8_t quarters, uint8_t *wrap);

/* Looks a night up, without a transfer: written 1 and the figure as it stands; of a night that is not yet written,
   written 0 and quarters 0.

   Refusals: 16; 11.
   Writes: *written, *quarters. */
uint8_t trestlecap_look_up(const uint8_t *state, size_t state_length, uint8_t night, uint8_t *written,
                           uint8_t *quarters);

/* The drive voltages of quarter bias: V1, V2 = V3 and V4, in volts. VDD and span (VDD minus V5) are given in 64ths of a
   volt.

   Refusals: 21; 22.
   Writes: volts. */
uint8_t trestlecap_quarter_bias(uint16_t vdd, uint16_t span, float volts[3]);

/* The same of fifth bias: V1 to V4.

   Refusals: 21; 22.
   Writes: volts. */
uint8_t trestlecap_fifth_bias(uint16_t vdd, uint16_t span, float volts[4]);

/* Mends a bench record that was cut. A record is two bytes of length, high byte first, which count all that follows, a
   version byte, 1, and events. The longest run of whole, well-formed events from the front, at most 4,096, is kept,
   whatever the length says, and a sound record of them is written: 3 bytes, and 3 for each event.

   Refusals: 7; 8; 6 (no room for the mended record).
   Writes: the mended record at the front of mended; *kept, its events; *dropped, the bytes behind them; *altered, 1 if
   the length field is another than before, else 0. */
uint8_t trestlecap_mend(const uint8_t *record, size_t record_length, uint8_t *mended, size_t mended_length,
                        uint16_t *kept, size_t *dropped, uint8_t *altered);

#ifdef __cplusplus
}
#endif

#endif
