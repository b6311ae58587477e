/* Reading the calls: the whole file at once, and runs of bytes decoded where they stand. */
#include "calls.h"

#include <stdio.h>
#include <stdlib.h>
#include <string.h>

const char *const function_names[FUNCTIONS] = {
    "switch_on", "run_list", "restart", "picture", "text", "log_night", "look_up", "quarter_bias", "fifth_bias", "mend"
};

struct reader {
    char *place;
    size_t line;
    struct run image; /* of the last line `rom` */
};

static void stop(size_t line, const char *what)
{
    fprintf(stderr, "calls, line %lu: %s\n", (unsigned long)line, what);
    exit(2);
}

/* Words and numbers */

/* The next word of the line, ended where it ends. */
static char *next_word(struct reader *reader)
{
    char *word = reader->place;
    size_t length = strcspn(word, " \n");
    if (length == 0 || word[length] == '\0')
        stop(reader->line, "a word is missing");
    reader->place = word + length + (word[length] == ' ');
    if (word[length] == ' ')
        word[length] = '\0';
    return word;
}

static void end_line(struct reader *reader)
{
    if (*reader->place != '\n')
        stop(reader->line, "more words than the call has");
    *reader->place++ = '\0';
    reader->line++;
}

static int is_nothing(const char *word)
{
    return word[0] == '-';
}

static size_t number_of(const struct reader *reader, const char *word)
{
    char *end;
    unsigned long number = strtoul(word, &end, 16);
    if (end == word || (*end != '\0' && *end != '\n'))
        stop(reader->line, "not a number");
    return number;
}

static uint8_t digit_of(const struct reader *reader, char digit)
{
    if ('0' <= digit && digit <= '9')
        return (uint8_t)(digit - '0');
    if ('a' <= digit && digit <= 'f')
        return (uint8_t)(digit - 'a' + 10);
    stop(reader->line, "not a digit");
    return 0;
}

/* Bytes take the place of the front half of their digits. */
static const uint8_t *bytes_of(const struct reader *reader, char *word, size_t *length)
{
    uint8_t *bytes = (uint8_t *)word;
    *length = is_nothing(word) ? 0 : strcspn(word, "\n") / 2;
    for (size_t at = 0; at < *length; at++) {
        uint8_t high = digit_of(reader, word[2 * at]);
        bytes[at] = (uint8_t)(high << 4 | digit_of(reader, word[2 * at + 1]));
    }
    return bytes;
}

/* What a call is given */

static struct run *another_run(struct call *call, size_t length)
{
    struct run *run = &call->runs[call->run_count++];
    *run = (struct run){ .length = length };
    return run;
}

static void lend_bytes(struct reader *reader, struct call *call)
{
    struct run *run = another_run(call, 0);
    run->given = bytes_of(reader, next_word(reader), &run->length);
}

static void lend_image(const struct reader *reader, struct call *call)
{
    *another_run(call, 0) = reader->image;
}

static void lend_room(struct reader *reader, struct call *call)
{
    another_run(call, number_of(reader, next_word(reader)));
}

static void hand_over(struct reader *reader, struct call *call)
{
    call->numbers[call->number_count++] = (uint16_t)number_of(reader, next_word(reader));
}

static void read_given(struct reader *reader, struct call *call)
{
    switch (call->function) {
    case SWITCH_ON:
        lend_room(reader, call);
        break;
    case RUN_LIST:
        lend_bytes(reader, call);
        lend_bytes(reader, call);
        lend_room(reader, call);
        break;
    case RESTART:
        lend_bytes(reader, call);
        break;
    case PICTURE:
        lend_bytes(reader, call);
        hand_over(reader, call);
        lend_image(reader, call);
        hand_over(reader, call);
        lend_room(reader, call);
        break;
    case TEXT:
        lend_bytes(reader, call);
        hand_over(reader, call);
        lend_bytes(reader, call);
        another_run(call, sizeof(uint8_t));
        break;
    case LOG_NIGHT:
        lend_bytes(reader, call);
        hand_over(reader, call);
        hand_over(reader, call);
        another_run(call, sizeof(uint8_t));
        break;
    case LOOK_UP:
        lend_bytes(reader, call);
        hand_over(reader, call);
        another_run(call, sizeof(uint8_t));
        another_run(call, sizeof(uint8_t));
        break;
    case QUARTER_BIAS:
    case FIFTH_BIAS:
        hand_over(reader, call);
        hand_over(reader, call);
        another_run(call, (call->function == QUARTER_BIAS ? 3 : 4) * sizeof(float));
        break;
    case MEND:
    default:
        lend_bytes(reader, call);
        lend_room(reader, call);
        another_run(call, sizeof(uint16_t));
        another_run(call, sizeof(size_t));
        another_run(call, sizeof(uint8_t));
    }
}

/* What it leaves */

static void leaves_bytes(struct reader *reader, struct run *run)
{
    run->left = bytes_of(reader, next_word(reader), &run->left_length);
    if (run->left_length > run->length)
        stop(reader->line, "more is left than was lent");
}

/* False where the number behind the pointer is left as it was. */
static int next_left(struct reader *reader, size_t *number)
{
    const char *word = next_word(reader);
    if (is_nothing(word))
        return 0;
    *number = number_of(reader, word);
    return 1;
}

/* The next number of a run, as this machine puts it. */
static void put_left(struct run *run, const void *number, size_t size)
{
    memcpy(run->numbers + run->left_length, number, size);
    run->left = run->numbers;
    run->left_length += size;
}

static void leaves_byte(struct reader *reader, struct run *run)
{
    size_t number;
    if (next_left(reader, &number))
        put_left(run, &(uint8_t){ (uint8_t)number }, sizeof(uint8_t));
}

static void leaves_word(struct reader *reader, struct run *run)
{
    size_t number;
    if (next_left(reader, &number))
        put_left(run, &(uint16_t){ (uint16_t)number }, sizeof(uint16_t));
}

static void leaves_size(struct reader *reader, struct run *run)
{
    size_t number;
    if (next_left(reader, &number))
        put_left(run, &number, sizeof number);
}

/* A float's bits. */
static void leaves_volts(struct reader *reader, struct run *run)
{
    size_t number;
    if (next_left(reader, &number))
        put_left(run, &(uint32_t){ (uint32_t)number }, sizeof(float));
}

static void read_left(struct reader *reader, struct call *call)
{
    struct run *runs = call->runs;
    switch (call->function) {
    case RUN_LIST:
        leaves_bytes(reader, &runs[0]);
        leaves_bytes(reader, &runs[2]);
        break;
    case PICTURE:
        leaves_bytes(reader, &runs[2]);
        break;
    case TEXT:
        leaves_bytes(reader, &runs[0]);
        leaves_byte(reader, &runs[2]);
        break;
    case LOG_NIGHT:
        leaves_bytes(reader, &runs[0]);
        leaves_byte(reader, &runs[1]);
        break;
    case LOOK_UP:
        leaves_byte(reader, &runs[1]);
        leaves_byte(reader, &runs[2]);
        break;
    case QUARTER_BIAS:
    case FIFTH_BIAS:
        for (size_t at = 0; at < runs[0].length; at += sizeof(float))
            leaves_volts(reader, &runs[0]);
        break;
    case MEND:
        leaves_bytes(reader, &runs[1]);
        leaves_word(reader, &runs[2]);
        leaves_size(reader, &runs[3]);
        leaves_byte(reader, &runs[4]);
        break;
    default: /* the state alone */
        leaves_bytes(reader, &runs[0]);
    }
}

/* Lines */

static enum function function_of(const struct reader *reader, const char *name)
{
    for (int at = 0; at < FUNCTIONS; at++)
        if (strcmp(name, function_names[at]) == 0)
            return (enum function)at;
    stop(reader->line, "no such function");
    return FUNCTIONS;
}

/* False for a line that is an image. */
static int read_call(struct reader *reader, struct call *call)
{
    const char *name = next_word(reader);
    if (strcmp(name, "rom") == 0) {
        reader->image = (struct run){ .length = 0 };
        reader->image.given = bytes_of(reader, next_word(reader), &reader->image.length);
        end_line(reader);
        return 0;
    }
    memset(call, 0, sizeof *call);
    call->function = function_of(reader, name);
    call->line = reader->line;
    read_given(reader, call);
    call->answer = (uint8_t)number_of(reader, next_word(reader));
    read_left(reader, call);
    end_line(reader);
    return 1;
}

static char *read_file(const char *path)
{
    FILE *file = fopen(path, "rb");
    if (!file || fseek(file, 0, SEEK_END) != 0)
        stop(0, "the file cannot be read");
    long length = ftell(file);
    char *text = length < 0 ? NULL : malloc((size_t)length + 1);
    rewind(file);
    if (!text || fread(text, 1, (size_t)length, file) != (size_t)length)
        stop(0, "the file cannot be read");
    fclose(file);
    text[length] = '\0';
    return text;
}

static size_t lines_of(const char *text)
{
    size_t count = 0;
    for (; *text; text++)
        count += *text == '\n';
    return count;
}

struct calls read_calls(const char *path)
{
    struct calls calls = { .text = read_file(path) };
    struct reader reader = { .place = calls.text, .line = 1 };
    calls.call = malloc((lines_of(calls.text) + 1) * sizeof *calls.call);
    if (!calls.call)
        stop(0, "no room for the calls");
    while (*reader.place)
        calls.count += (size_t)read_call(&reader, &calls.call[calls.count]);
    return calls;
}

void free_calls(struct calls *calls)
{
    free(calls->call);
    free(calls->text);
}
