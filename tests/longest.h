/* The longest trace there is: on 32 items of 16 settings without a block, 480 covers leave setting 0 of each item, and 32 snakes take the
 * items out. No lawful trace has more records, since each uses up a setting that was on; putting back keeps a state for each. */
#ifndef LONGEST_H
#define LONGEST_H

#include <string.h>

#include "zomuwedli.h"

enum { LONGEST_SHEET = 40, LONGEST_TRACE = 1 + 480 * 5 + 32 * 4 };

static inline void fill_longest(uint8_t *sheet, uint8_t *trace)
{
    uint8_t *at = trace + 1;
    memcpy(sheet, (const uint8_t[]){1, 0, 0, 0, LONGEST_SHEET, 32, 0, 0}, 8);
    memset(sheet + 8, 16, 32);
    trace[0] = 1;
    for (unsigned i = 0; i < 32; i++) {
        for (unsigned b = 1; b < 16; b++, at += 5) {
            memcpy(at, (const uint8_t[]){4, 4, (uint8_t)i, (uint8_t)b, 0}, 5);
        }
    }
    for (unsigned i = 0; i < 32; i++, at += 4) {
        memcpy(at, (const uint8_t[]){3, 2, (uint8_t)i, 0}, 4);
    }
}

#endif
