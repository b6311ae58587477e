/* The proved functions as C calls them: the library's list, and crates/benchmark_picture_c. A slice is a pointer and a
   length. */
#ifndef PROVED_H
#define PROVED_H

#include "../include/trestlecap.h"

#include <stdbool.h>

/* The picture, and the same one `again` times more. */
uint8_t benchmark_picture(const uint8_t *bytes, size_t length, uint8_t digits, const uint8_t *rom, size_t rom_length,
                          bool dark, uint32_t again, uint8_t *out, size_t out_length);

#endif
