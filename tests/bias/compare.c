/* The proved bias sheet beside a model in C's float, written from the request (02, 1/12).

   Every VDD and span in range, the borders of both refusals and the ends of 16 bits, with quarter and with fifth bias:
   the whole text, byte by byte, and that the bytes behind it stay. Then models with one rule replaced take the model's
   place: each has to differ somewhere, or this comparison would prove little. */
#include <inttypes.h>
#include <stdbool.h>
#include <stdint.h>
#include <stdio.h>
#include <stdlib.h>
#include <string.h>

/* crates/bias_export_c, as C calls it: a slice is a pointer and a length. 0 is a buffer that is too short. */
size_t bias_sheet(uint16_t vdd, uint16_t span, bool fifth, uint8_t *out, size_t length);

enum { ROOM = 80, BEHIND = 16, UNTOUCHED = 0xAA };
enum { VDD_LEAST = 288, VDD_MOST = 352, SPAN_LEAST = 192, SPAN_MOST = 512 };

enum rounding { AWAY_FROM_ZERO, TO_EVEN, TOWARDS_ZERO };

/* The rules of the request where all is 0. */
struct rules {
    const char *name;
    int vdd_least, vdd_most, span_least, span_most; /* how far a border is off */
    bool span_first;                                /* 22 before 21 */
    bool part_first;                                /* k times (span / divisor) */
    bool quarter_exchanged;                         /* V2 = V3 and V4 */
    bool decimals_of_float;                         /* the float's own value printed, not the exact one */
    bool minus_zero;                                /* a sign in front of 0 */
    enum rounding rounding;
};

static const struct rules paper = {.name = "the request"};

static const struct rules wrong[] = {
    {"VDD from 287", .vdd_least = -1},
    {"VDD from 289", .vdd_least = 1},
    {"VDD to 351", .vdd_most = -1},
    {"VDD to 353", .vdd_most = 1},
    {"span from 191", .span_least = -1},
    {"span from 193", .span_least = 1},
    {"span to 511", .span_most = -1},
    {"span to 513", .span_most = 1},
    {"22 before 21", .span_first = true},
    {"k times a part of the span", .part_first = true},
    {"V2 and V4 exchanged in quarter bias", .quarter_exchanged = true},
    {"decimals of the float", .decimals_of_float = true},
    {"minus in front of zero", .minus_zero = true},
    {"a half to the even digit", .rounding = TO_EVEN},
    {"a half towards zero", .rounding = TOWARDS_ZERO},
};

/* Step k in volts, each operation rounded once. */
static float step(const struct rules *rules, int divisor, int vdd, int span, int k)
{
    float v = (float)vdd / 64.0f;
    float s = (float)span / 64.0f;
    if (rules->part_first) {
        float part = s / (float)divisor;
        float parts = (float)k * part;
        return v - parts;
    }
    float product = (float)k * s;
    float quotient = product / (float)divisor;
    return v - quotient;
}

/* The exact value has eight decimals: 256 and 320 divide 100,000,000. The last four are rounded off. */
static int64_t exact(int divisor, int vdd, int span, int k)
{
    return ((int64_t)divisor * vdd - (int64_t)k * span) * (100000000 / (64 * divisor));
}

static int64_t to_four_decimals(const struct rules *rules, int64_t size)
{
    int64_t kept = size / 10000;
    int64_t rest = size % 10000;
    bool up = rest > 5000;
    if (rest == 5000)
        up = rules->rounding == AWAY_FROM_ZERO || (rules->rounding == TO_EVEN && kept % 2 == 1);
    return up ? kept + 1 : kept;
}

static int line(const struct rules *rules, const char *name, int divisor, int vdd, int span, int k, char *out)
{
    float volts = step(rules, divisor, vdd, span, k);
    uint32_t bits;
    memcpy(&bits, &volts, sizeof bits);
    if (rules->decimals_of_float)
        return sprintf(out, "%s %.4f %08" PRIx32 "\n", name, volts, bits);
    int64_t value = exact(divisor, vdd, span, k);
    const char *sign = value < 0 || (rules->minus_zero && value == 0) ? "-" : "";
    int64_t kept = to_four_decimals(rules, value < 0 ? -value : value);
    return sprintf(out, "%s %s%" PRId64 ".%04" PRId64 " %08" PRIx32 "\n", name, sign, kept / 10000, kept % 10000, bits);
}

static int model(const struct rules *rules, int vdd, int span, bool fifth, char *out)
{
    static const char *const quarter_names[] = {"V1", "V2=V3", "V4"};
    static const char *const fifth_names[] = {"V1", "V2", "V3", "V4"};
    bool bad_vdd = vdd < VDD_LEAST + rules->vdd_least || VDD_MOST + rules->vdd_most < vdd;
    bool bad_span = span < SPAN_LEAST + rules->span_least || SPAN_MOST + rules->span_most < span;
    if (bad_span && (rules->span_first || !bad_vdd))
        return sprintf(out, "refused 22\n");
    if (bad_vdd)
        return sprintf(out, "refused 21\n");
    int divisor = fifth ? 5 : 4;
    int size = 0;
    for (int k = 1; k < divisor; k++) {
        int shown = !fifth && rules->quarter_exchanged && k > 1 ? 5 - k : k;
        const char *name = fifth ? fifth_names[k - 1] : quarter_names[k - 1];
        size += line(rules, name, divisor, vdd, span, shown, out + size);
    }
    return size;
}

/* Whether the proved sheet is the model's, and nothing else was written. */
static bool alike(const struct rules *rules, int vdd, int span, bool fifth, bool tell)
{
    char wanted[2 * ROOM];
    uint8_t left[ROOM + BEHIND];
    size_t size = (size_t)model(rules, vdd, span, fifth, wanted);
    memset(left, UNTOUCHED, sizeof left);
    size_t got = bias_sheet((uint16_t)vdd, (uint16_t)span, fifth, left, sizeof left);
    bool same = got == size && memcmp(left, wanted, size) == 0;
    for (size_t at = got; same && at < sizeof left; at++)
        same = left[at] == UNTOUCHED;
    if (!same && tell)
        printf("bias %d %d %s: expected\n%.*sgot\n%.*s", vdd, span, fifth ? "fifth" : "quarter", (int)size, wanted,
               (int)(got < sizeof left ? got : sizeof left), (const char *)left);
    return same;
}

/* A buffer one byte too short takes nothing, though this text would fit: its four lines have no sign. */
static bool short_refused(void)
{
    enum { SIGNS = 4 };
    uint8_t left[ROOM];
    memset(left, UNTOUCHED, sizeof left);
    bool refused = bias_sheet(320, 256, true, left, ROOM - 1) == 0;
    for (size_t at = 0; at < sizeof left; at++)
        refused = refused && left[at] == UNTOUCHED;
    return refused && bias_sheet(320, 256, true, left, ROOM) == ROOM - SIGNS;
}

/* The numbers from two below a range to two above it, and the ends of 16 bits. */
static int numbers(int least, int most, int *out)
{
    int count = 0;
    out[count++] = 0;
    for (int n = least - 2; n <= most + 2; n++)
        out[count++] = n;
    out[count++] = 65535;
    return count;
}

/* How many sheets differ; at most one is told. */
static long different(const struct rules *rules, bool tell, long *tried)
{
    int vdd[80], span[400];
    int vdds = numbers(VDD_LEAST, VDD_MOST, vdd);
    int spans = numbers(SPAN_LEAST, SPAN_MOST, span);
    long count = 0;
    *tried = 0;
    for (int i = 0; i < vdds; i++)
        for (int j = 0; j < spans; j++)
            for (int fifth = 0; fifth < 2; fifth++) {
                *tried += 1;
                if (!alike(rules, vdd[i], span[j], fifth == 1, tell && count == 0))
                    count++;
            }
    return count;
}

int main(void)
{
    long tried, caught = 0, models = (long)(sizeof wrong / sizeof *wrong);
    long wrong_sheets = different(&paper, true, &tried);
    printf("bias: %ld sheets alike, %ld different\n", tried - wrong_sheets, wrong_sheets);
    bool refused = short_refused();
    if (!refused)
        printf("bias: a buffer of %d bytes is not refused, or one of %d is\n", ROOM - 1, ROOM);
    for (long at = 0; at < models; at++) {
        long unused;
        if (different(&wrong[at], false, &unused) > 0)
            caught++;
        else
            printf("bias: not caught: %s\n", wrong[at].name);
    }
    printf("bias: %ld of %ld wrong models caught\n", caught, models);
    return wrong_sheets == 0 && refused && caught == models ? EXIT_SUCCESS : EXIT_FAILURE;
}
