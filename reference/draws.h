/*
 * Random numbers of a seed (PCG32, XSH RR), so that what was drawn can be drawn again. Not a source of randomness for anything
 * else.
 */
#ifndef DRAWS_H
#define DRAWS_H

#include <stdbool.h>
#include <stdint.h>

static uint64_t generator_state, generator_increment;

static inline uint32_t next_word(void) {
    uint64_t old = generator_state;
    uint32_t mixed = (uint32_t)((old >> 18 ^ old) >> 27);
    int turn = old >> 59;
    generator_state = old * 6364136223846793005ull + generator_increment;
    return mixed >> turn | mixed << (-turn & 31);
}

static inline void seed_words(uint64_t seed) {
    generator_increment = 54 << 1 | 1;
    generator_state = seed + generator_increment;
    generator_state = generator_state * 6364136223846793005ull + generator_increment;
}

/* A number below a bound; 0 if the bound is 0. */
static inline uint32_t below(uint32_t bound) { return next_word() % (bound ? bound : 1); }

/* Whether something happens that does once in `times`. */
static inline bool chance(uint32_t times) { return !below(times); }

#endif
