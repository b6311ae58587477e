/* The library beside the model, call by call: harness CALLS

   Each call is made twice, with other bytes wherever none are given, and the second time with NULL for each run of no
   bytes. Everything lent stands between guard bytes; the answer and every byte behind the call have to be the model's.
   Then wrong libraries take the library's place: each has to differ somewhere, or this comparison would prove little. */
#include "calls.h"
#include "library.h"

#include <stdbool.h>
#include <stdio.h>
#include <stdlib.h>
#include <string.h>

enum { GUARD = 32, TURNS = 2, TOLD = 5, MOST_LENT = 80000 };

/* What stands where nothing is given: each turn's byte is another at every place. */
static uint8_t any_bytes[TURNS][GUARD + MOST_LENT + GUARD];

static void fill_any_bytes(void)
{
    for (size_t at = 0; at < sizeof any_bytes[0]; at++) {
        any_bytes[0][at] = (uint8_t)(at * 0x5B + 0x33);
        any_bytes[1][at] = (uint8_t)~any_bytes[0][at];
    }
}

/* A run between its guards, and NULL or where it begins. */
struct lent {
    uint8_t *block;
    void *bytes;
};

static struct lent lend(const struct run *run, int turn)
{
    struct lent lent = { .block = run->length > MOST_LENT ? NULL : malloc(GUARD + run->length + GUARD) };
    if (!lent.block) {
        fprintf(stderr, "no room to lend\n");
        exit(2);
    }
    memcpy(lent.block, any_bytes[turn], GUARD + run->length + GUARD);
    if (run->given && run->length)
        memcpy(lent.block + GUARD, run->given, run->length);
    lent.bytes = turn && run->length == 0 ? NULL : lent.block + GUARD;
    return lent;
}

/* The bytes that have to stand in the block behind the call. */
static void put_due(const struct run *run, int turn, uint8_t *block)
{
    memcpy(block, any_bytes[turn], GUARD + run->length + GUARD);
    if (run->given && run->length)
        memcpy(block + GUARD, run->given, run->length);
    if (run->left_length)
        memcpy(block + GUARD, run->left, run->left_length);
}

static uint8_t make(const struct library *library, const struct call *call, const struct lent *lent)
{
    const struct run *runs = call->runs;
    const uint16_t *numbers = call->numbers;
    switch (call->function) {
    case SWITCH_ON:
        return library->switch_on(lent[0].bytes, runs[0].length);
    case RUN_LIST:
        return library->run_list(lent[0].bytes, runs[0].length, lent[1].bytes, runs[1].length, lent[2].bytes,
                                 runs[2].length);
    case RESTART:
        return library->restart(lent[0].bytes, runs[0].length);
    case PICTURE:
        return library->picture(lent[0].bytes, runs[0].length, (uint8_t)numbers[0], lent[1].bytes, runs[1].length,
                                (uint8_t)numbers[1], lent[2].bytes, runs[2].length);
    case TEXT:
        return library->text(lent[0].bytes, runs[0].length, (uint8_t)numbers[0], lent[1].bytes, runs[1].length,
                             lent[2].bytes);
    case LOG_NIGHT:
        return library->log_night(lent[0].bytes, runs[0].length, (uint8_t)numbers[0], (uint8_t)numbers[1],
                                  lent[1].bytes);
    case LOOK_UP:
        return library->look_up(lent[0].bytes, runs[0].length, (uint8_t)numbers[0], lent[1].bytes, lent[2].bytes);
    case QUARTER_BIAS:
        return library->quarter_bias(numbers[0], numbers[1], lent[0].bytes);
    case FIFTH_BIAS:
        return library->fifth_bias(numbers[0], numbers[1], lent[0].bytes);
    case MEND:
    default:
        return library->mend(lent[0].bytes, runs[0].length, lent[1].bytes, runs[1].length, lent[2].bytes,
                             lent[3].bytes, lent[4].bytes);
    }
}

/* Whether every byte of the run and its guards is the one that is due. */
static bool left_alike(const struct call *call, size_t number, const uint8_t *block, int turn, bool tell)
{
    static uint8_t due[sizeof any_bytes[0]];
    const struct run *run = &call->runs[number];
    put_due(run, turn, due);
    if (memcmp(block, due, GUARD + run->length + GUARD) == 0)
        return true;
    size_t at = 0;
    while (block[at] == due[at])
        at++;
    if (tell)
        printf("c: line %lu, %s: lent run %lu, byte %ld: %02x, and %02x was due\n", (unsigned long)call->line,
               function_names[call->function], (unsigned long)number, (long)at - GUARD, block[at], due[at]);
    return false;
}

static bool alike_in(const struct library *library, const struct call *call, int turn, bool tell)
{
    struct lent lent[MOST_RUNS];
    for (size_t at = 0; at < call->run_count; at++)
        lent[at] = lend(&call->runs[at], turn);
    uint8_t answer = make(library, call, lent);
    bool same = answer == call->answer;
    if (!same && tell)
        printf("c: line %lu, %s: answered %d, and %d was due\n", (unsigned long)call->line,
               function_names[call->function], answer, call->answer);
    for (size_t at = 0; at < call->run_count; at++) {
        same = same && left_alike(call, at, lent[at].block, turn, tell);
        free(lent[at].block);
    }
    return same;
}

static bool alike(const struct library *library, const struct call *call, bool tell)
{
    for (int turn = 0; turn < TURNS; turn++)
        if (!alike_in(library, call, turn, tell))
            return false;
    return true;
}

static bool all_alike(const struct calls *calls)
{
    size_t different = 0;
    size_t made[FUNCTIONS] = { 0 };
    for (size_t at = 0; at < calls->count; at++) {
        made[calls->call[at].function]++;
        different += !alike(&right, &calls->call[at], different < TOLD);
    }
    for (int at = 0; at < FUNCTIONS; at++)
        printf("%s%s %lu", at ? ", " : "c: ", function_names[at], (unsigned long)made[at]);
    printf("\nc: %lu calls alike, %lu different\n", (unsigned long)(calls->count - different),
           (unsigned long)different);
    return different == 0 && calls->count > 0;
}

static bool replaces(const struct library *library, enum function function)
{
    switch (function) {
    case SWITCH_ON:
        return library->switch_on;
    case RUN_LIST:
        return library->run_list;
    case RESTART:
        return library->restart;
    case PICTURE:
        return library->picture;
    case TEXT:
        return library->text;
    case LOG_NIGHT:
        return library->log_night;
    case LOOK_UP:
        return library->look_up;
    case QUARTER_BIAS:
        return library->quarter_bias;
    case FIFTH_BIAS:
        return library->fifth_bias;
    case MEND:
    default:
        return library->mend;
    }
}

/* All other calls would be the right library's. */
static bool caught(const struct wrong *one, const struct calls *calls)
{
    for (size_t at = 0; at < calls->count; at++)
        if (replaces(&one->library, calls->call[at].function) && !alike(&one->library, &calls->call[at], false))
            return true;
    printf("c: not caught: %s\n", one->name);
    return false;
}

static bool all_caught(const struct calls *calls)
{
    size_t count = 0;
    for (size_t at = 0; at < wrong_count; at++)
        count += caught(&wrong[at], calls);
    printf("c: %lu of %lu wrong libraries caught\n", (unsigned long)count, (unsigned long)wrong_count);
    return count == wrong_count;
}

int main(int count, char **arguments)
{
    if (count != 2) {
        fprintf(stderr, "usage: harness CALLS\n");
        return 2;
    }
    struct calls calls = read_calls(arguments[1]);
    fill_any_bytes();
    bool passed = all_alike(&calls);
    passed = all_caught(&calls) && passed;
    free_calls(&calls);
    return passed ? EXIT_SUCCESS : EXIT_FAILURE;
}
