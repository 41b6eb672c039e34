/*
 * Coders in C that use the tables of the proved coder, and better ones. The proved coder should be measured against these.
 *
 *     same         the algorithm and the tables of crates/dmr_bptc: groups of four places, the sums of the word taken three times
 *     incremental  the same tables, but only failing lines are visited, sums are kept up to date, and a word with more than
 *                  three failing columns is rejected at once
 *     octets       as incremental, over tables of groups of eight places (200 KB)
 *
 * The encoders work on groups of four and of eight bits, and so do those that add the check in the same pass ("seal"). The
 * check uses one table of 256 entries, look-up after look-up as in crates/dmr_csbk, or ten independent tables.
 *
 *     bptc_tables --check COUNT        compares all of them with the reference of coder.h, on COUNT words with 0 to 8 flips,
 *                                      with bursts of errors in one line, and at random
 *     bptc_tables [WHAT [COUNT]]       takes COUNT words of each kind (200,000) once, and prints a line for each figure,
 *                                      "figure variant rate count sum": words a second, how many were decoded, encoded or
 *                                      checked, and a sum of what came out. WHAT: clean, flips, random, encode; else all
 *
 * It is not part of the product, and nothing in it is proved. coder.h says what it lacks compared with the proved coder.
 */
#define _POSIX_C_SOURCE 200809L
#include "words.h"
#include <stdio.h>
#include <stdlib.h>

enum { MOST = 200000 };

static Word words[MOST];
static uint8_t information[MOST][12];

static __attribute__((noreturn)) void fail(const char *what) {
    fprintf(stderr, "bptc_tables: %s gives something else\n", what);
    exit(1);
}

/* A sum of the octets, by two loads of what was stored by two stores. */
static uint64_t sum_of(const uint8_t octets[12]) {
    const uint64_t every_other = 0xFF00FF00FF00FFull;
    uint64_t high;
    uint32_t low;
    memcpy(&high, octets, 8);
    memcpy(&low, octets + 8, 4);
    high = (high & every_other) + (high >> 8 & every_other) + (low & 0xFF00FFu) + (low >> 8 & 0xFF00FFu);
    return high * 0x1000100010001ull >> 48;
}

/* ---- each variant as a function of its own, so that a profile counts it by itself */

#define APART __attribute__((noinline)) static
APART bool decode_same(const Word *word, uint8_t octets[12]) { return decode_in_passes(word, octets); }
APART bool decode_incremental(const Word *word, uint8_t octets[12]) {
    return decode_incrementally(sums_by_nibbles(word), octets);
}
APART bool decode_octets(const Word *word, uint8_t octets[12]) {
    return decode_incrementally(sums_by_octets(word), octets);
}
APART void encode_same(const uint8_t octets[12], Word *word) { encode_by_nibbles(octets, word); }
APART void encode_octets(const uint8_t octets[12], Word *word) { encode_by_octets(octets, word); }
APART void seal_same(const uint8_t octets[12], Word *word) { seal_by_nibbles(octets, word); }
APART void seal_octets(const uint8_t octets[12], Word *word) { seal_by_octets(octets, word); }
APART uint16_t check_same(const uint8_t octets[10]) { return check_in_turn(octets); }
APART uint16_t check_octets(const uint8_t octets[10]) { return check_by_octets(octets); }

typedef struct {
    const char *name;
    bool (*decode)(const Word *, uint8_t *);
} Decoder;
typedef struct {
    const char *figure, *name;
    void (*encode)(const uint8_t *, Word *);
} Encoder;
typedef struct {
    const char *name;
    uint16_t (*check)(const uint8_t *);
} Check;

static const Decoder DECODERS[] = {
    {"same", decode_same}, {"incremental", decode_incremental}, {"octets", decode_octets}};
static const Encoder ENCODERS[] = {{"encode", "same", encode_same},
                                   {"encode", "octets", encode_octets},
                                   {"seal", "same", seal_same},
                                   {"seal", "octets", seal_octets}};
static const Check CHECKS[] = {{"same", check_same}, {"octets", check_octets}};
#define COUNT_OF(array) (sizeof(array) / sizeof *(array))

/* ---- comparison with the reference */

/* Adds a codeword that has only reserved bits and their parities. */
static void add_reserved(Word *word) {
    for (int bit = 0; bit < 3; bit++) {
        Grid grid = {0};
        if (next_word() & 1) continue;
        grid.cell[0][bit] = 1;
        fill_parities(&grid);
        add_grid(&grid, word);
    }
}

/* A codeword with an error of some kind: 0 to 8 flips, random bits, or several flips within one line. */
static void damage(Word *word, int kind) {
    int line = next_word(), count = 1 + next_word() % 5;
    if (kind < 9)
        for (int i = 0; i < kind; i++) flip(word, next_word() % PLACES);
    else if (kind == 9)
        for (int place = 0; place < PLACES; place++) {
            if (next_word() & 1) flip(word, place);
        }
    else
        for (int i = 0; i < count; i++) {
            int cell = next_word();
            flip(word, kind == 10 ? place_of[(unsigned)cell % ROWS][(unsigned)line % COLUMNS]
                                  : place_of[(unsigned)line % ROWS][(unsigned)cell % COLUMNS]);
        }
    if (kind > 9 && next_word() & 1) flip(word, 0);
}

static void compare_coders(const uint8_t octets[12]) {
    uint8_t sealed[12];
    uint16_t check = check_reference(octets);
    Word word, other;
    for (size_t k = 0; k < COUNT_OF(CHECKS); k++)
        if (CHECKS[k].check(octets) != check) fail("check");
    memcpy(sealed, octets, 10);
    sealed[10] = check >> 8;
    sealed[11] = check;
    for (size_t k = 0; k < COUNT_OF(ENCODERS); k++) {
        encode_reference(ENCODERS[k].figure[0] == 's' ? sealed : octets, &word);
        ENCODERS[k].encode(octets, &other);
        if (memcmp(&word, &other, sizeof word)) fail(ENCODERS[k].figure);
    }
}

static void compare_with_reference(long count) {
    long decoded = 0;
    for (long i = 0; i < count; i++) {
        uint8_t octets[12], wanted[12], got[12];
        Word word;
        bool is_near;
        draw_information(octets);
        compare_coders(octets);
        encode_reference(octets, &word);
        if (next_word() & 1) add_reserved(&word);
        damage(&word, i % 12);
        is_near = decode_reference(&word, wanted);
        for (size_t k = 0; k < COUNT_OF(DECODERS); k++)
            if (DECODERS[k].decode(&word, got) != is_near || (is_near && memcmp(wanted, got, 12))) fail(DECODERS[k].name);
        decoded += is_near;
    }
    printf("checked %ld words: %ld decoded, %ld not\n", count, decoded, count - decoded);
}

/* ---- figures */

static void print_figure(const char *figure, const char *name, double seconds, int all, uint64_t count, uint64_t sum) {
    printf("%s %s %.0f %llu %llu\n", figure, name, all / seconds, (unsigned long long)count, (unsigned long long)sum);
}

static void time_decoders(Kind kind, int all) {
    char figure[32];
    snprintf(figure, sizeof figure, "decode_%s", KIND_NAMES[kind]);
    seed_words(WORDS_SEED);
    for (int i = 0; i < all; i++) draw_word(kind, &words[i]);
    for (size_t k = 0; k < COUNT_OF(DECODERS); k++) {
        uint64_t count = 0, sum = 0;
        double start = seconds_now();
        for (int i = 0; i < all; i++) {
            uint8_t octets[12];
            if (DECODERS[k].decode(&words[i], octets)) count++, sum += sum_of(octets);
        }
        print_figure(figure, DECODERS[k].name, seconds_now() - start, all, count, sum);
    }
}

static void time_encoders(int all) {
    seed_words(WORDS_SEED);
    for (int i = 0; i < all; i++) draw_information(information[i]);
    for (size_t k = 0; k < COUNT_OF(ENCODERS); k++) {
        uint64_t sum = 0;
        double start = seconds_now();
        for (int i = 0; i < all; i++) {
            Word word;
            ENCODERS[k].encode(information[i], &word);
            sum += bit_of(&word, 3) + bit_of(&word, 4) + 2 * bit_of(&word, i % PLACES);
        }
        print_figure(ENCODERS[k].figure, ENCODERS[k].name, seconds_now() - start, all, all, sum);
    }
    for (size_t k = 0; k < COUNT_OF(CHECKS); k++) {
        uint64_t sum = 0;
        double start = seconds_now();
        for (int i = 0; i < all; i++) sum += CHECKS[k].check(information[i]);
        print_figure("check", CHECKS[k].name, seconds_now() - start, all, all, sum);
    }
}

int main(int argc, char **argv) {
    const char *what = argc > 1 ? argv[1] : "all";
    long count = argc > 2 ? atol(argv[2]) : MOST;
    make_coder_tables();
    if (!strcmp(what, "--check")) {
        seed_words(WORDS_SEED);
        compare_with_reference(count);
        return 0;
    }
    if (count < 1 || count > MOST) count = MOST;
    for (Kind kind = CLEAN; kind < KINDS; kind++)
        if (!strcmp(what, "all") || !strcmp(what, KIND_NAMES[kind])) time_decoders(kind, count);
    if (!strcmp(what, "all") || !strcmp(what, "encode")) time_encoders(count);
    return 0;
}
