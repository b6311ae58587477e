/* The calls that the model wrote down (tests/model/src/calls.rs says how a line is read). */
#ifndef CALLS_H
#define CALLS_H

#include <stddef.h>
#include <stdint.h>

enum function {
    SWITCH_ON, RUN_LIST, RESTART, PICTURE, TEXT, LOG_NIGHT, LOOK_UP, QUARTER_BIAS, FIFTH_BIAS, MEND, FUNCTIONS
};

enum { MOST_RUNS = 5, MOST_NUMBERS = 2, MOST_LEFT = 4 * sizeof(float) };

/* Bytes lent to a call, or the bytes of a number behind a pointer. */
struct run {
    size_t length;
    const uint8_t *given; /* NULL: any bytes */
    const uint8_t *left;  /* what the call writes at its front; all else stays */
    size_t left_length;
    uint8_t numbers[MOST_LEFT];
};

/* Runs and numbers stand in the header's order. */
struct call {
    enum function function;
    size_t line;
    struct run runs[MOST_RUNS];
    size_t run_count;
    uint16_t numbers[MOST_NUMBERS];
    size_t number_count;
    uint8_t answer;
};

struct calls {
    struct call *call;
    size_t count;
    char *text; /* the file, to which the runs point */
};

extern const char *const function_names[FUNCTIONS];

/* Ends the program where the file is not one of calls. */
struct calls read_calls(const char *path);

void free_calls(struct calls *calls);

#endif
