/* The proved code beside the C model.

       compare time RECORD [COUNT]                  both sides' time in nanoseconds, and the proved code's rate in C's
       compare pass SIDE RECORD PASSES [COUNT]      passes of one side (proved or c) alone, for counting instructions

   What is measured of a record is its events as one list (the first COUNT of them, where it is given), each time from a
   part just switched on; of one named wide or tall, which leads to a screen, the picture: all digits, dark phase, drawn
   as often as there are passes, after the record is run once. Both sides' results are compared before anything is
   timed, and no pass can be left out: the sides are compiled apart from this file. */
#include "model.h"
#include "proved.h"

#include <stdio.h>
#include <stdlib.h>
#include <string.h>
#include <time.h>

enum { ROUNDS = 15, MOST_RECORD = 12291, HEAD = 3, EVENT = 3, MOST_ANSWERS = 3 * 4096 };

struct work {
    const char *name;
    uint8_t record[MOST_RECORD + 1];
    size_t length;
    uint8_t digits; /* 0: no picture, the events alone */
};

static uint8_t rom[ROM_BYTES];
static uint8_t dots[MOST_DOTS];
static uint8_t answers[MOST_ANSWERS];

/* Just switched on, for either side. */
static uint8_t fresh_state[TRESTLECAP_STATE_BYTES];
static struct part fresh_part;

static void stop(const char *name, const char *what)
{
    fprintf(stderr, "%s: %s\n", name, what);
    exit(1);
}

/* The sides: one or more passes, and the last one's answer */

typedef uint32_t side(const struct work *work, uint32_t passes);

static uint32_t proved_side(const struct work *work, uint32_t passes)
{
    if (work->digits)
        return benchmark_picture(work->record, work->length, work->digits, rom, sizeof rom, true, passes - 1, dots,
                                 sizeof dots);
    uint32_t answer = DONE;
    for (uint32_t at = 0; at < passes; at++) {
        uint8_t state[TRESTLECAP_STATE_BYTES];
        memcpy(state, fresh_state, sizeof state);
        answer = trestlecap_run_list(state, sizeof state, work->record + HEAD, work->length - HEAD, answers,
                                     sizeof answers);
    }
    return answer;
}

static uint32_t c_side(const struct work *work, uint32_t passes)
{
    const uint8_t *events = work->record + HEAD;
    size_t bytes = work->length - HEAD;
    struct part part = fresh_part;
    if (work->digits) {
        list_model(&part, events, bytes, answers);
        for (uint32_t at = 0; at < passes; at++)
            picture_model(&part, work->digits, rom, true, dots);
        return DONE;
    }
    for (uint32_t at = 0; at < passes; at++) {
        part = fresh_part;
        list_model(&part, events, bytes, answers);
    }
    return DONE;
}

/* Reading */

/* `count` is the number of events that are taken from the front, or NULL (the end of the arguments) for all. */
static void read_work(const char *name, const char *count, struct work *work)
{
    const char *last = strrchr(name, '/');
    work->name = last ? last + 1 : name;
    FILE *file = fopen(name, "rb");
    if (!file)
        stop(name, "cannot be read");
    work->length = fread(work->record, 1, sizeof work->record, file);
    fclose(file);
    if (work->length < HEAD || work->length > MOST_RECORD)
        stop(name, "not a record");
    size_t first = count ? HEAD + EVENT * strtoul(count, NULL, 10) : work->length;
    if (first > work->length)
        stop(name, "has fewer events");
    work->length = first;
    work->digits = strncmp(work->name, "wide", 4) == 0 ? 40 : strncmp(work->name, "tall", 4) == 0 ? 80 : 0;
}

/* A ROM image in which every byte differs from its neighbours and all eight bits occur. */
static void fill_rom(void)
{
    for (unsigned at = 0; at < ROM_BYTES; at++)
        rom[at] = (uint8_t)(at * 37 + at / 256 * 11);
}

/* Both sides give the same */

static void make_fresh(void)
{
    trestlecap_switch_on(fresh_state, sizeof fresh_state);
    switch_on(&fresh_part);
}

static void clear(void)
{
    memset(dots, 0xA5, sizeof dots);
    memset(answers, 0xA5, sizeof answers);
}

static void same(const struct work *work)
{
    uint8_t proved_dots[MOST_DOTS], proved_answers[MOST_ANSWERS];
    clear();
    uint32_t answer = proved_side(work, 2);
    memcpy(proved_dots, dots, sizeof dots);
    memcpy(proved_answers, answers, sizeof answers);
    clear();
    if (c_side(work, 2) != answer)
        stop(work->name, "the proved side refuses");
    if (!work->digits && memcmp(proved_answers, answers, sizeof answers) != 0)
        stop(work->name, "the two sides answer differently");
    if (memcmp(proved_dots, dots, sizeof dots) != 0)
        stop(work->name, "the two sides show different dots");
}

/* Time */

/* Of the processor for this process, so that the time that others get does not count. */
static double nanoseconds(void)
{
    struct timespec now;
    clock_gettime(CLOCK_PROCESS_CPUTIME_ID, &now);
    return now.tv_sec * 1e9 + now.tv_nsec;
}

static double time_of(side *side, const struct work *work, uint32_t passes)
{
    double start = nanoseconds();
    side(work, passes);
    return nanoseconds() - start;
}

/* As many passes as take some 10 milliseconds. */
static uint32_t enough(side *side, const struct work *work)
{
    uint32_t passes = 1;
    while (time_of(side, work, passes) < 1e7)
        passes *= 2;
    return passes;
}

static double less(double one, double other)
{
    return one < other ? one : other;
}

/* The least of many rounds, the sides taking turns. */
static void time_both(const struct work *work)
{
    uint32_t passes = enough(c_side, work);
    double proved = 1e300, c = 1e300;
    for (int round = 0; round < ROUNDS; round++) {
        proved = less(proved, time_of(proved_side, work, passes));
        c = less(c, time_of(c_side, work, passes));
    }
    double count = (double)passes * (work->digits ? 1 : (work->length - HEAD) / EVENT);
    printf("%8.2f %8.2f %6.2f\n", proved / count, c / count, c / proved);
}

int main(int count, char **arguments)
{
    static struct work work;
    fill_rom();
    make_fresh();
    if ((count == 3 || count == 4) && strcmp(arguments[1], "time") == 0) {
        read_work(arguments[2], arguments[3], &work);
        same(&work);
        time_both(&work);
        return 0;
    }
    if ((count == 5 || count == 6) && strcmp(arguments[1], "pass") == 0) {
        read_work(arguments[3], arguments[5], &work);
        side *side = strcmp(arguments[2], "proved") == 0 ? proved_side : c_side;
        side(&work, (uint32_t)strtoul(arguments[4], NULL, 10));
        return 0;
    }
    fprintf(stderr, "usage: compare time RECORD [COUNT] | compare pass proved|c RECORD PASSES [COUNT]\n");
    return 1;
}
