/* What the tests in C share: a check that counts, and settings. */
#ifndef CHECK_H
#define CHECK_H
#include "../linnetshelf.h"
#include <stdio.h>
#include <string.h>

static _Atomic int failures;

/* Counts a failure, and says where it is. */
#define CHECK(holds) \
    do { \
        if (!(holds)) { \
            failures++; \
            fprintf(stderr, "%s:%d: %s\n", __FILE__, __LINE__, #holds); \
        } \
    } while (0)

static const uint64_t DAY = 86400000;

static const linnetshelf_settings SMALL = {
    .epoch = 0, .cells = 4096, .index_count = 16, .index_spacing = 4, .cycles = 4, .roll = LINNETSHELF_DAILY};

#define STATUS(word) (LINNETSHELF_##word)
#endif
