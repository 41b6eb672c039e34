/*
 * The words that crates/test_program draws: the same generator (PCG32, XSH RR) from the same seed, so that programs can be
 * compared by counts and sums of what they answer. Not a source of randomness for anything else.
 */
#ifndef WORDS_H
#define WORDS_H

#include "../reference/coder.h"
#include "../reference/draws.h"
#include <time.h>

enum { WORDS_SEED = 42 }; /* that of crates/test_program */

typedef enum { CLEAN, FLIPS, RANDOM, KINDS } Kind;

static const char *const KIND_NAMES[KINDS] = {"clean", "flips", "random"};

static inline void draw_information(uint8_t octets[12]) {
    for (int i = 0; i < 12; i++) octets[i] = next_word() & 0xFF;
}

static inline void draw_word(Kind kind, Word *word) {
    uint8_t octets[12];
    draw_information(octets);
    encode_by_nibbles(octets, word);
    if (kind == FLIPS)
        for (int i = 0; i < 3; i++) flip(word, next_word() % PLACES);
    if (kind == RANDOM)
        for (int place = 0; place < PLACES; place++)
            if (bit_of(word, place) != (int)(next_word() % 2)) flip(word, place);
}

/* Seconds of a clock that is never set. */
static inline double seconds_now(void) {
    struct timespec now;
    clock_gettime(CLOCK_MONOTONIC, &now);
    return now.tv_sec + now.tv_nsec * 1e-9;
}

#endif
