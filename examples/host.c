/* How a host uses the library: one evening at the bedside, and what each call answers.

       host ROM        (examples/rom.bin)

   The part is one run of bytes that the host keeps and lends to each call. */
#include "../include/trestlecap.h"

#include <stdio.h>
#include <stdlib.h>

enum { LINES = 2, ROWS = 8, DIGITS = 16, SHORT_TICKS = 10 };

static uint8_t part[TRESTLECAP_STATE_BYTES];
static uint8_t wrap; /* of the panel's last call: 1 for night 23 alone, and no text runs off there */

static void say(const char *what, uint8_t answer)
{
    printf("%s: %d\n", what, answer);
}

static void write_text(uint8_t line, const char *text)
{
    say(text, trestlecap_text(part, sizeof part, line, (const uint8_t *)text, TRESTLECAP_TEXT_BYTES, &wrap));
}

static void look_up(uint8_t night)
{
    uint8_t written, quarters;
    if (trestlecap_look_up(part, sizeof part, night, &written, &quarters) != TRESTLECAP_DONE)
        printf("night %d: no such night\n", night);
    else if (written)
        printf("night %d: %d quarter hours\n", night, quarters);
    else
        printf("night %d: not yet written\n", night);
}

/* The restart leaves four lines, the display off and the part busy for 10 ticks. A byte goes as two halves. */
static void switch_display_on(void)
{
    static const uint8_t events[][TRESTLECAP_EVENT_BYTES] = {
        { TRESTLECAP_WAIT, 0, SHORT_TICKS },
        { TRESTLECAP_INSTRUCTION_WRITE, 0, 0x00 }, /* 0E: display and cursor on */
        { TRESTLECAP_INSTRUCTION_WRITE, 0, 0xE0 },
        { TRESTLECAP_INSTRUCTION_WRITE, 0, 0x80 }, /* too early: busy, and refused; the rest goes on */
        { TRESTLECAP_WAIT, 0, SHORT_TICKS },
        { TRESTLECAP_INSTRUCTION_WRITE, 0, 0x10 }, /* 10: cursor left, from 00 past an end to 67; wrap 1 */
        { TRESTLECAP_INSTRUCTION_WRITE, 0, 0x00 },
        { TRESTLECAP_WAIT, 0, SHORT_TICKS },
        { TRESTLECAP_INSTRUCTION_WRITE, 0, 0x80 }, /* 8F: display address 0F */
        { TRESTLECAP_INSTRUCTION_WRITE, 0, 0xF0 },
        { TRESTLECAP_STATUS_READ, 0, 0 },          /* 8F: busy, at address 0F */
        { TRESTLECAP_STATUS_READ, 0, 0 },
    };
    enum { COUNT = sizeof events / sizeof *events };
    uint8_t answers[COUNT][TRESTLECAP_ANSWER_BYTES];
    say("list", trestlecap_run_list(part, sizeof part, *events, sizeof events, *answers, sizeof answers));
    printf("event kind value answer result wrap\n");
    for (int at = 0; at < COUNT; at++)
        printf("%d %d %d %d %d %d\n", at + 1, events[at][0], events[at][1] << 8 | events[at][2], answers[at][0],
               answers[at][1], answers[at][2]);
}

/* One byte a digit and row, the leftmost dot in bit 4. */
static void print_digit(uint8_t dots)
{
    for (int bit = 4; bit >= 0; bit--)
        putchar(dots >> bit & 1 ? '#' : '.');
}

static uint8_t show(const uint8_t *rom, size_t rom_length)
{
    uint8_t dots[LINES][ROWS][DIGITS];
    uint8_t answer = trestlecap_picture(part, sizeof part, DIGITS, rom, rom_length, 0, **dots, sizeof dots);
    say("picture", answer);
    for (int row = 0; answer == TRESTLECAP_DONE && row < LINES * ROWS; row++) {
        if (row % ROWS == 0)
            putchar('\n');
        for (int digit = 0; digit < DIGITS; digit++) {
            print_digit(dots[row / ROWS][row % ROWS][digit]);
            putchar(digit < DIGITS - 1 ? ' ' : '\n');
        }
    }
    return answer;
}

int main(int count, char **arguments)
{
    static uint8_t rom[TRESTLECAP_ROM_BYTES + 1]; /* a byte more, so that a longer file is seen and refused */
    FILE *file = count == 2 ? fopen(arguments[1], "rb") : NULL;
    if (!file) {
        fprintf(stderr, "usage: host ROM\n");
        return EXIT_FAILURE;
    }
    size_t rom_length = fread(rom, 1, sizeof rom, file);
    fclose(file);

    say("switch on", trestlecap_switch_on(part, sizeof part));
    say("restart", trestlecap_restart(part, sizeof part));
    write_text(0, "Good night, Anna");
    write_text(1, "Slept 7 1/4 h   ");
    say("log night 3, 29 quarter hours", trestlecap_log_night(part, sizeof part, 3, 29, &wrap));
    say("log night 3, 30 quarter hours", trestlecap_log_night(part, sizeof part, 3, 30, &wrap));
    look_up(3);
    look_up(4);
    say("restart", trestlecap_restart(part, sizeof part));
    look_up(3);
    switch_display_on();
    return show(rom, rom_length) == TRESTLECAP_DONE ? EXIT_SUCCESS : EXIT_FAILURE;
}
