/* The library by its ten functions, so that one of them can be replaced by a wrong one. */
#ifndef LIBRARY_H
#define LIBRARY_H

#include "../../include/trestlecap.h"

struct library {
    uint8_t (*switch_on)(uint8_t *, size_t);
    uint8_t (*run_list)(uint8_t *, size_t, const uint8_t *, size_t, uint8_t *, size_t);
    uint8_t (*restart)(uint8_t *, size_t);
    uint8_t (*picture)(const uint8_t *, size_t, uint8_t, const uint8_t *, size_t, uint8_t, uint8_t *, size_t);
    uint8_t (*text)(uint8_t *, size_t, uint8_t, const uint8_t *, size_t, uint8_t *);
    uint8_t (*log_night)(uint8_t *, size_t, uint8_t, uint8_t, uint8_t *);
    uint8_t (*look_up)(const uint8_t *, size_t, uint8_t, uint8_t *, uint8_t *);
    uint8_t (*quarter_bias)(uint16_t, uint16_t, float *);
    uint8_t (*fifth_bias)(uint16_t, uint16_t, float *);
    uint8_t (*mend)(const uint8_t *, size_t, uint8_t *, size_t, uint16_t *, size_t *, uint8_t *);
};

/* A library with one fault; its other functions, which are NULL here, are the right ones. */
struct wrong {
    const char *name;
    struct library library;
};

extern const struct library right;
extern const struct wrong wrong[];
extern const size_t wrong_count;

#endif
