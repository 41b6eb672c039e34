/*
 * The coders in C that `make bench` compares with: two decoders of the block product turbo code BPTC(196,96), two encoders,
 * and two ways to compute the check of a control block.
 *
 *     plain   words are 196 truth values, arranged in the order of the grid; each line has its syndrome from its equations, bit
 *             by bit, as open DMR stacks have it
 *     packed  words are four words of 64 bits; each equation is a mask, and a parity is that of the set bits under it
 *
 * Each answers as the proved decoder does: the information of the codeword that differs in at most three of the places 1
 * to 195, or none. Before any time is taken, the two are checked against each other on ten thousand words of each kind.
 * The words are those of crates/test_program: the same generator from the same seed. The program prints lines "what plain
 * packed count sum": the two rates, in words a second, how many were decoded, encoded or checked, and a sum of the results.
 */
#define _POSIX_C_SOURCE 200809L
#include <stdint.h>
#include <stdio.h>
#include <stdlib.h>
#include <string.h>
#include <time.h>

enum { PLACES = 196, ROWS = 13, COLUMNS = 15, MANY = 200000, FEW = 10000 };

typedef struct { uint8_t bit[PLACES]; } Plain;
typedef struct { uint64_t part[4]; } Packed;

/* ---- the code, as both know it */

static const uint8_t ROW_SUMS[4][8] = {{0, 1, 2, 3, 5, 7, 8, 11}, {1, 2, 3, 4, 6, 8, 9, 12}, {2, 3, 4, 5, 7, 9, 10, 13}, {0, 1, 2, 4, 6, 7, 10, 14}};
static const uint8_t COLUMN_SUMS[4][8] = {{0, 1, 3, 5, 6, 9}, {0, 1, 2, 4, 6, 7, 10}, {0, 1, 2, 3, 5, 7, 8, 11}, {0, 2, 4, 5, 8, 12}};
static const uint8_t COLUMN_COUNTS[4] = {6, 7, 8, 6};

static uint8_t place_of[ROWS][COLUMNS];
static uint8_t information_place[96];
/* Which bit of a line is wrong, by its syndrome; 15 if none is. */
static uint8_t row_wrong[16], column_wrong[16];
static Packed row_mask[ROWS][4], column_mask[COLUMNS][4];
static uint16_t check_table[256];

static void put(Packed *word, int place, int bit) {
    uint64_t one = 1ull << (63 - place % 64);
    if (bit) word->part[place / 64] |= one; else word->part[place / 64] &= ~one;
}

/* At a place that holds 0. */
static void add(Packed *word, int place, int bit) { word->part[place / 64] |= (uint64_t)bit << (63 - place % 64); }
static void turn(Packed *word, int place) { word->part[place / 64] ^= 1ull << (63 - place % 64); }
static int bit_of(const Packed *word, int place) { return word->part[place / 64] >> (63 - place % 64) & 1; }

static int mark_of(const uint8_t sums[4][8], const uint8_t *counts, int k) {
    int mark = 0;
    for (int e = 0; e < 4; e++)
        for (int i = 0; i < (counts ? counts[e] : 8); i++)
            if (sums[e][i] == k) mark |= 8 >> e;
    return mark;
}

static void make_tables(void) {
    for (int r = 0; r < ROWS; r++)
        for (int c = 0; c < COLUMNS; c++) place_of[r][c] = 181 * (1 + 15 * r + c) % 196;
    for (int k = 0; k < 96; k++) information_place[k] = place_of[(k + 3) / 11][(k + 3) % 11];
    memset(row_wrong, 15, sizeof row_wrong);
    memset(column_wrong, 15, sizeof column_wrong);
    for (int k = 0; k < COLUMNS; k++) row_wrong[mark_of(ROW_SUMS, 0, k)] = k;
    for (int k = 0; k < ROWS; k++) column_wrong[mark_of(COLUMN_SUMS, COLUMN_COUNTS, k)] = k;
    for (int e = 0; e < 4; e++) {
        for (int r = 0; r < ROWS; r++)
            for (int i = 0; i < 8; i++) put(&row_mask[r][e], place_of[r][ROW_SUMS[e][i]], 1);
        for (int c = 0; c < COLUMNS; c++)
            for (int i = 0; i < COLUMN_COUNTS[e]; i++) put(&column_mask[c][e], place_of[COLUMN_SUMS[e][i]][c], 1);
    }
    for (int t = 0; t < 256; t++) {
        uint16_t r = t << 8;
        for (int i = 0; i < 8; i++) r = r & 0x8000 ? r << 1 ^ 0x1021 : r << 1;
        check_table[t] = r;
    }
}

/* ---- words as truth values */

static int plain_row(const uint8_t *b) {
    int a = b[0] ^ b[1] ^ b[2] ^ b[3] ^ b[5] ^ b[7] ^ b[8] ^ b[11];
    int c = b[1] ^ b[2] ^ b[3] ^ b[4] ^ b[6] ^ b[8] ^ b[9] ^ b[12];
    int d = b[2] ^ b[3] ^ b[4] ^ b[5] ^ b[7] ^ b[9] ^ b[10] ^ b[13];
    int e = b[0] ^ b[1] ^ b[2] ^ b[4] ^ b[6] ^ b[7] ^ b[10] ^ b[14];
    return 8 * a + 4 * c + 2 * d + e;
}

static int plain_column(const uint8_t *b) {
    int a = b[0] ^ b[15] ^ b[45] ^ b[75] ^ b[90] ^ b[135];
    int c = b[0] ^ b[15] ^ b[30] ^ b[60] ^ b[90] ^ b[105] ^ b[150];
    int d = b[0] ^ b[15] ^ b[30] ^ b[45] ^ b[75] ^ b[105] ^ b[120] ^ b[165];
    int e = b[0] ^ b[30] ^ b[60] ^ b[75] ^ b[120] ^ b[180];
    return 8 * a + 4 * c + 2 * d + e;
}

static int plain_decode(const Plain *word, uint8_t octets[12]) {
    uint8_t grid[PLACES], old[PLACES];
    int count = 0, failed = 0;
    for (int n = 0; n < PLACES; n++) grid[n] = word->bit[181 * n % 196];
    memcpy(old, grid, sizeof grid);
    for (int c = 0; c < COLUMNS; c++) {
        int wrong = column_wrong[plain_column(grid + 1 + c)];
        if (wrong < ROWS) grid[1 + 15 * wrong + c] ^= 1;
    }
    for (int r = 0; r < ROWS; r++) {
        int wrong = row_wrong[plain_row(grid + 1 + 15 * r)];
        if (wrong < COLUMNS) grid[1 + 15 * r + wrong] ^= 1;
    }
    for (int c = 0; c < COLUMNS; c++) failed |= plain_column(grid + 1 + c);
    for (int r = 0; r < ROWS; r++) failed |= plain_row(grid + 1 + 15 * r);
    for (int n = 1; n < PLACES; n++) count += grid[n] ^ old[n];
    if (failed || count > 3) return 0;
    memset(octets, 0, 12);
    for (int k = 0; k < 96; k++) octets[k / 8] |= grid[1 + 15 * ((k + 3) / 11) + (k + 3) % 11] << (7 - k % 8);
    return 1;
}

static void plain_encode(const uint8_t octets[12], Plain *word) {
    uint8_t grid[PLACES] = {0};
    for (int k = 0; k < 96; k++) grid[1 + 15 * ((k + 3) / 11) + (k + 3) % 11] = octets[k / 8] >> (7 - k % 8) & 1;
    for (int r = 0; r < 9; r++) {
        int s = plain_row(grid + 1 + 15 * r);
        for (int e = 0; e < 4; e++) grid[1 + 15 * r + 11 + e] = s >> (3 - e) & 1;
    }
    for (int c = 0; c < COLUMNS; c++) {
        int s = plain_column(grid + 1 + c);
        for (int e = 0; e < 4; e++) grid[1 + 15 * (9 + e) + c] = s >> (3 - e) & 1;
    }
    for (int n = 0; n < PLACES; n++) word->bit[181 * n % 196] = grid[n];
}

static uint16_t plain_check(const uint8_t octets[10]) {
    uint16_t r = 0;
    for (int k = 0; k < 80; k++) {
        int out = r >> 15 ^ (octets[k / 8] >> (7 - k % 8) & 1);
        r = r << 1 ^ (out ? 0x1021 : 0);
    }
    return (uint16_t)~r ^ 0xA5A5;
}

/* ---- words of 64 bits under masks */

static int odd_under(const Packed *word, const Packed *mask) {
    return __builtin_parityll((word->part[0] & mask->part[0]) ^ (word->part[1] & mask->part[1])
        ^ (word->part[2] & mask->part[2]) ^ (word->part[3] & mask->part[3]));
}

static int packed_syndrome(const Packed *word, const Packed masks[4]) {
    return 8 * odd_under(word, &masks[0]) + 4 * odd_under(word, &masks[1]) + 2 * odd_under(word, &masks[2]) + odd_under(word, &masks[3]);
}

static int packed_decode(const Packed *word, uint8_t octets[12]) {
    Packed mended = *word;
    int failed = 0, flips = 0;
    for (int c = 0; c < COLUMNS; c++) {
        int syndrome = packed_syndrome(&mended, column_mask[c]);
        failed |= syndrome;
        if (column_wrong[syndrome] < ROWS) turn(&mended, place_of[column_wrong[syndrome]][c]);
    }
    for (int r = 0; r < ROWS; r++) {
        int syndrome = packed_syndrome(&mended, row_mask[r]);
        failed |= syndrome;
        if (row_wrong[syndrome] < COLUMNS) turn(&mended, place_of[r][row_wrong[syndrome]]);
    }
    if (failed) {
        for (int i = 0; i < 4; i++) flips += __builtin_popcountll(word->part[i] ^ mended.part[i]);
        if (flips > 3) return 0;
        for (int c = 0; c < COLUMNS; c++) if (packed_syndrome(&mended, column_mask[c])) return 0;
        for (int r = 0; r < ROWS; r++) if (packed_syndrome(&mended, row_mask[r])) return 0;
    }
    for (int i = 0; i < 12; i++) {
        int octet = 0;
        for (int k = 8 * i; k < 8 * i + 8; k++) octet = 2 * octet + bit_of(&mended, information_place[k]);
        octets[i] = octet;
    }
    return 1;
}

static void packed_encode(const uint8_t octets[12], Packed *word) {
    memset(word, 0, sizeof *word);
    for (int k = 0; k < 96; k++) add(word, information_place[k], octets[k / 8] >> (7 - k % 8) & 1);
    for (int r = 0; r < 9; r++)
        for (int e = 0; e < 4; e++) add(word, place_of[r][11 + e], odd_under(word, &row_mask[r][e]));
    for (int c = 0; c < COLUMNS; c++)
        for (int e = 0; e < 4; e++) add(word, place_of[9 + e][c], odd_under(word, &column_mask[c][e]));
}

static uint16_t packed_check(const uint8_t octets[10]) {
    uint16_t r = 0;
    for (int k = 0; k < 10; k++) r = r << 8 ^ check_table[r >> 8 ^ octets[k]];
    return (uint16_t)~r ^ 0xA5A5;
}

/* ---- words */

static uint64_t state, increment;

static uint32_t next_word(void) {
    uint64_t old = state;
    state = old * 6364136223846793005ull + increment;
    uint32_t mixed = (uint32_t)((old >> 18 ^ old) >> 27);
    int turned = old >> 59;
    return mixed >> turned | mixed << (-turned & 31);
}

static void begin_words(void) {
    increment = 54 << 1 | 1;
    state = 42 + increment;
    state = state * 6364136223846793005ull + increment;
}

static void make_information(uint8_t octets[12]) {
    for (int i = 0; i < 12; i++) octets[i] = next_word() & 0xFF;
}

static void make_word(int kind, Packed *word) {
    uint8_t octets[12];
    make_information(octets);
    packed_encode(octets, word);
    if (kind == 1) for (int i = 0; i < 3; i++) turn(word, next_word() % 196);
    if (kind == 2) for (int p = 0; p < PLACES; p++) put(word, p, next_word() % 2);
}

static void spread(const Packed *word, Plain *plain) {
    for (int p = 0; p < PLACES; p++) plain->bit[p] = bit_of(word, p);
}

/* The sum of decoded octets, so that the compiler must compute each of them. */
static uint64_t sum_of(const uint8_t octets[12]) {
    uint64_t sum = 0;
    for (int i = 0; i < 12; i++) sum += octets[i];
    return sum;
}

static double now(void) {
    struct timespec t;
    clock_gettime(CLOCK_MONOTONIC, &t);
    return t.tv_sec + t.tv_nsec * 1e-9;
}

static Packed packed[MANY];
static Plain plain[MANY];
static uint8_t information[MANY][12];

static void fail(const char *what) {
    fprintf(stderr, "bptc_baseline: the two differ in %s\n", what);
    exit(1);
}

static void compare(int count) {
    for (int i = 0; i < count; i++) {
        uint8_t a[12] = {0}, b[12] = {0};
        Packed made, kept;
        Plain cells;
        if (plain_decode(&plain[i], a) != packed_decode(&packed[i], b) || memcmp(a, b, 12)) fail("decoding");
        plain_encode(information[i], &cells);
        packed_encode(information[i], &made);
        memset(&kept, 0, sizeof kept);
        for (int p = 0; p < PLACES; p++) put(&kept, p, cells.bit[p]);
        if (memcmp(&made, &kept, sizeof made)) fail("encoding");
        if (plain_check(information[i]) != packed_check(information[i])) fail("the check");
    }
}

int main(void) {
    static const char *const kinds[] = {"clean", "flips", "random"};
    make_tables();
    begin_words();
    for (int i = 0; i < MANY; i++) make_information(information[i]);
    for (int kind = 0; kind < 3; kind++) {
        uint64_t count = 0, again = 0, sum = 0, other = 0;
        begin_words();
        for (int i = 0; i < MANY; i++) {
            make_word(kind, &packed[i]);
            spread(&packed[i], &plain[i]);
        }
        compare(FEW);
        double start = now();
        for (int i = 0; i < MANY; i++) {
            uint8_t octets[12];
            if (plain_decode(&plain[i], octets)) count++, sum += sum_of(octets);
        }
        double middle = now();
        for (int i = 0; i < MANY; i++) {
            uint8_t octets[12];
            if (packed_decode(&packed[i], octets)) again++, other += sum_of(octets);
        }
        double end = now();
        if (count != again || sum != other) fail("what decodes");
        printf("decode_%s %.0f %.0f %llu %llu\n", kinds[kind], MANY / (middle - start), MANY / (end - middle), (unsigned long long)count, (unsigned long long)sum);
    }
    uint64_t sum = 0, other = 0;
    double start = now();
    for (int i = 0; i < MANY; i++) {
        Plain cells;
        plain_encode(information[i], &cells);
        sum += cells.bit[3] + cells.bit[4] + 2 * cells.bit[i % 196];
    }
    double middle = now();
    for (int i = 0; i < MANY; i++) {
        Packed word;
        packed_encode(information[i], &word);
        other += bit_of(&word, 3) + bit_of(&word, 4) + 2 * bit_of(&word, i % 196);
    }
    double end = now();
    if (sum != other) fail("what is encoded");
    printf("encode %.0f %.0f %d %llu\n", MANY / (middle - start), MANY / (end - middle), MANY, (unsigned long long)sum);
    sum = other = 0;
    start = now();
    for (int i = 0; i < MANY; i++) sum += plain_check(information[i]);
    middle = now();
    for (int i = 0; i < MANY; i++) other += packed_check(information[i]);
    end = now();
    if (sum != other) fail("what is checked");
    printf("check %.0f %.0f %d %llu\n", MANY / (middle - start), MANY / (end - middle), MANY, (unsigned long long)sum);
    return 0;
}
