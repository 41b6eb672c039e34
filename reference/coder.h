/*
 * The block product turbo code BPTC(196,96) and the check of a control block in plain C, by tables.
 *
 * It is: decoders, encoders and checks that give the same octets as crates/dmr_bptc and crates/dmr_csbk. Each decoder
 * answers with the information of the one codeword that differs from the word in at most three of the places 1 to 195, or
 * with none. A slow reference, made from the equations alone, is there to compare them with.
 *
 * It is not: proved. No function checks the length of what it is given. Indices come from masked values, and only the
 * comparison with the reference says that they stay inside their tables. The tables are made at the start by
 * make_coder_tables; every other function needs them.
 *
 * The vectors are an extension of GCC and Clang. With AVX2 the sums of a word are one vector, else two of SSE2.
 */
#ifndef CODER_H
#define CODER_H

#include <stdbool.h>
#include <stdint.h>
#include <string.h>

enum {
    PLACES = 196,
    ROWS = 13,
    COLUMNS = 15,
    INFORMATION_ROWS = 9,
    INFORMATION_COLUMNS = 11,
    INFORMATION_BITS = 96,
    PDU_BITS = 80,
    NO_CELL = 255
};

/* The 196 bits of a burst. Place 0 is the highest bit of part 0; the last 60 bits of part 3 are 0. */
typedef struct {
    uint64_t part[4];
} Word;

/* Four numbers of 64 bits: the syndromes of the columns (60 bits), those of the rows (52), the information (64 and 32). */
#ifdef __AVX2__
typedef uint64_t Sums __attribute__((vector_size(32)));
#define NO_SUMS ((Sums){0, 0, 0, 0})
#define ADD(sums, other) ((sums) ^= (other))
#define PART(sums, k) ((sums)[k])
#else
typedef uint64_t Half __attribute__((vector_size(16)));
typedef struct {
    Half half[2];
} Sums;
#define NO_SUMS ((Sums){{{0, 0}, {0, 0}}})
#define ADD(sums, other) ((sums).half[0] ^= (other).half[0], (sums).half[1] ^= (other).half[1])
#define PART(sums, k) ((sums).half[(k) / 2][(k) % 2])
#endif

/* ---- the code */

/* Each equation of a row, and of a column, is the sum of these cells; the last of them is the parity itself. */
static const uint8_t ROW_EQUATIONS[4][8] = {
    {0, 1, 2, 3, 5, 7, 8, 11}, {1, 2, 3, 4, 6, 8, 9, 12}, {2, 3, 4, 5, 7, 9, 10, 13}, {0, 1, 2, 4, 6, 7, 10, 14}};
static const uint8_t COLUMN_EQUATIONS[4][8] = {
    {0, 1, 3, 5, 6, 9}, {0, 1, 2, 4, 6, 7, 10}, {0, 1, 2, 3, 5, 7, 8, 11}, {0, 2, 4, 5, 8, 12}};
static const uint8_t ROW_CELLS[4] = {8, 8, 8, 8};
static const uint8_t COLUMN_CELLS[4] = {6, 7, 8, 6};

/* The sums that one place adds to those of a word, and the sums that each group of four or eight places adds. */
static Sums place_sums[PLACES + 60] __attribute__((aligned(64)));
static Sums nibble_sums[49][16] __attribute__((aligned(64)));
static Sums octet_sums[25][256] __attribute__((aligned(64)));
/* The codeword of each group of information bits, and of each group of a PDU's bits with the check that they add. */
static Sums nibble_codeword[24][16] __attribute__((aligned(64)));
static Sums octet_codeword[12][256] __attribute__((aligned(64)));
static Sums nibble_sealed[20][16] __attribute__((aligned(64)));
static Sums octet_sealed[10][256] __attribute__((aligned(64)));
static Sums sealed_zero; /* the codeword of ten zero octets with their check */
static uint8_t place_of[ROWS][16];
static uint8_t wrong_in_row[16], wrong_in_column[16];                    /* the cell by syndrome; 15: none */
static uint8_t place_in_row[ROWS][16], place_in_column[COLUMNS][16];     /* the place by syndrome; NO_CELL: none */
static uint16_t check_table[256], check_of_octet[10][256], check_of_zero;

static inline int bit_of(const Word *word, int place) { return word->part[place >> 6] >> (63 - (place & 63)) & 1; }
static inline void flip(Word *word, int place) { word->part[place >> 6] ^= 1ull << (63 - (place & 63)); }

/* The syndrome of a line in which one cell alone is wrong. */
static inline int syndrome_of_cell(const uint8_t equations[4][8], const uint8_t cells[4], int cell) {
    int syndrome = 0;
    for (int e = 0; e < 4; e++)
        for (int i = 0; i < cells[e]; i++)
            if (equations[e][i] == cell) syndrome |= 8 >> e;
    return syndrome;
}

/* ---- the reference: slow, from the equations */

typedef struct {
    uint8_t cell[ROWS][COLUMNS];
} Grid;

static inline int row_syndrome(const Grid *grid, int row) {
    int syndrome = 0;
    for (int e = 0; e < 4; e++) {
        int sum = 0;
        for (int i = 0; i < ROW_CELLS[e]; i++) sum ^= grid->cell[row][ROW_EQUATIONS[e][i]];
        syndrome |= sum << (3 - e);
    }
    return syndrome;
}

static inline int column_syndrome(const Grid *grid, int column) {
    int syndrome = 0;
    for (int e = 0; e < 4; e++) {
        int sum = 0;
        for (int i = 0; i < COLUMN_CELLS[e]; i++) sum ^= grid->cell[COLUMN_EQUATIONS[e][i]][column];
        syndrome |= sum << (3 - e);
    }
    return syndrome;
}

/* Sets the parities of a grid that has 0 in each of them. */
static inline void fill_parities(Grid *grid) {
    for (int row = 0; row < INFORMATION_ROWS; row++) {
        int syndrome = row_syndrome(grid, row);
        for (int e = 0; e < 4; e++) grid->cell[row][INFORMATION_COLUMNS + e] = syndrome >> (3 - e) & 1;
    }
    for (int column = 0; column < COLUMNS; column++) {
        int syndrome = column_syndrome(grid, column);
        for (int e = 0; e < 4; e++) grid->cell[INFORMATION_ROWS + e][column] = syndrome >> (3 - e) & 1;
    }
}

static inline void add_grid(const Grid *grid, Word *word) {
    for (int row = 0; row < ROWS; row++)
        for (int column = 0; column < COLUMNS; column++)
            if (grid->cell[row][column]) flip(word, 181 * (1 + COLUMNS * row + column) % PLACES);
}

static inline void encode_reference(const uint8_t octets[12], Word *word) {
    Grid grid = {0};
    for (int k = 0; k < INFORMATION_BITS; k++)
        grid.cell[(k + 3) / INFORMATION_COLUMNS][(k + 3) % INFORMATION_COLUMNS] = octets[k / 8] >> (7 - k % 8) & 1;
    fill_parities(&grid);
    memset(word, 0, sizeof *word);
    add_grid(&grid, word);
}

/* Mends columns, then rows, and takes all syndromes again. Codewords with reserved bits set count as codewords too. */
static inline bool decode_reference(const Word *word, uint8_t octets[12]) {
    Grid grid, received;
    int flips = 0, failed = 0;
    for (int row = 0; row < ROWS; row++)
        for (int column = 0; column < COLUMNS; column++)
            grid.cell[row][column] = bit_of(word, 181 * (1 + COLUMNS * row + column) % PLACES);
    received = grid;
    for (int column = 0; column < COLUMNS; column++) {
        int syndrome = column_syndrome(&grid, column);
        for (int row = 0; row < ROWS && syndrome; row++)
            if (syndrome_of_cell(COLUMN_EQUATIONS, COLUMN_CELLS, row) == syndrome) grid.cell[row][column] ^= 1;
    }
    for (int row = 0; row < ROWS; row++) {
        int syndrome = row_syndrome(&grid, row);
        for (int column = 0; column < COLUMNS && syndrome; column++)
            if (syndrome_of_cell(ROW_EQUATIONS, ROW_CELLS, column) == syndrome) grid.cell[row][column] ^= 1;
    }
    for (int row = 0; row < ROWS; row++) failed |= row_syndrome(&grid, row);
    for (int column = 0; column < COLUMNS; column++) failed |= column_syndrome(&grid, column);
    for (int row = 0; row < ROWS; row++)
        for (int column = 0; column < COLUMNS; column++) flips += grid.cell[row][column] ^ received.cell[row][column];
    if (failed || flips > 3) return false;
    memset(octets, 0, 12);
    for (int k = 0; k < INFORMATION_BITS; k++)
        octets[k / 8] |= grid.cell[(k + 3) / INFORMATION_COLUMNS][(k + 3) % INFORMATION_COLUMNS] << (7 - k % 8);
    return true;
}

static inline uint16_t check_reference(const uint8_t octets[10]) {
    uint16_t remainder = 0;
    for (int k = 0; k < PDU_BITS; k++) {
        int out = remainder >> 15 ^ (octets[k / 8] >> (7 - k % 8) & 1);
        remainder = remainder << 1 ^ (out ? 0x1021 : 0);
    }
    return (uint16_t)~remainder ^ 0xA5A5;
}

/* ---- the tables */

/* Fills a table of groups of `width` bits: each entry is the sum of what its bits add. */
static inline void fill_groups(Sums *table, int groups, int width, const Sums *bits) {
    for (int group = 0; group < groups; group++)
        for (int value = 0; value < 1 << width; value++)
            for (int k = 0; k < width; k++)
                if (value >> (width - 1 - k) & 1) ADD(table[(group << width) + value], bits[width * group + k]);
}

static inline void make_place_tables(void) {
    memset(wrong_in_row, 15, sizeof wrong_in_row);
    memset(wrong_in_column, 15, sizeof wrong_in_column);
    memset(place_in_row, NO_CELL, sizeof place_in_row);
    memset(place_in_column, NO_CELL, sizeof place_in_column);
    for (int row = 0; row < ROWS; row++)
        for (int column = 0; column < COLUMNS; column++) {
            int place = 181 * (1 + COLUMNS * row + column) % PLACES;
            int in_column = syndrome_of_cell(COLUMN_EQUATIONS, COLUMN_CELLS, row);
            int in_row = syndrome_of_cell(ROW_EQUATIONS, ROW_CELLS, column);
            place_of[row][column] = place;
            wrong_in_column[in_column] = row;
            wrong_in_row[in_row] = column;
            place_in_column[column][in_column] = place;
            place_in_row[row][in_row] = place;
            PART(place_sums[place], 0) ^= (uint64_t)in_column << (4 * column);
            PART(place_sums[place], 1) ^= (uint64_t)in_row << (4 * row);
        }
    for (int k = 0; k < INFORMATION_BITS; k++) {
        int place = place_of[(k + 3) / INFORMATION_COLUMNS][(k + 3) % INFORMATION_COLUMNS];
        PART(place_sums[place], 2 + k / 64) ^= 1ull << (63 - k % 64);
    }
}

static inline void make_check_tables(void) {
    uint8_t zero[10] = {0};
    for (int value = 0; value < 256; value++) {
        uint16_t remainder = value << 8;
        for (int i = 0; i < 8; i++) remainder = remainder & 0x8000 ? remainder << 1 ^ 0x1021 : remainder << 1;
        check_table[value] = remainder;
    }
    check_of_zero = check_reference(zero);
    for (int j = 0; j < 10; j++)
        for (int value = 0; value < 256; value++) {
            uint8_t octets[10] = {0};
            octets[j] = value;
            check_of_octet[j][value] = check_reference(octets) ^ check_of_zero;
        }
}

/* The codeword of ten octets and their check, as sums. */
static inline Sums seal_reference(const uint8_t pdu[10]) {
    uint8_t octets[12];
    uint16_t check = check_reference(pdu);
    Word word;
    Sums sums;
    memcpy(octets, pdu, 10);
    octets[10] = check >> 8;
    octets[11] = check;
    encode_reference(octets, &word);
    memcpy(&sums, &word, sizeof sums);
    return sums;
}

static inline void make_coder_tables(void) {
    static Sums codeword[INFORMATION_BITS], sealed[PDU_BITS];
    uint8_t zero[12] = {0};
    make_place_tables();
    make_check_tables();
    fill_groups(&nibble_sums[0][0], 49, 4, place_sums);
    fill_groups(&octet_sums[0][0], 25, 8, place_sums);
    sealed_zero = seal_reference(zero);
    for (int k = 0; k < INFORMATION_BITS; k++) {
        uint8_t octets[12] = {0};
        Word word;
        octets[k / 8] = 0x80 >> (k % 8);
        encode_reference(octets, &word);
        memcpy(&codeword[k], &word, sizeof word);
        if (k >= PDU_BITS) continue;
        sealed[k] = seal_reference(octets);
        ADD(sealed[k], sealed_zero);
    }
    fill_groups(&nibble_codeword[0][0], 24, 4, codeword);
    fill_groups(&octet_codeword[0][0], 12, 8, codeword);
    fill_groups(&nibble_sealed[0][0], 20, 4, sealed);
    fill_groups(&octet_sealed[0][0], 10, 8, sealed);
}

/* ---- decoders */

static inline Sums sums_by_nibbles(const Word *word) {
    Sums even = NO_SUMS, odd = NO_SUMS;
#pragma GCC unroll 3
    for (int k = 0; k < 3; k++) {
        uint64_t part = word->part[k];
#pragma GCC unroll 8
        for (int j = 0; j < 16; j += 2) {
            ADD(even, nibble_sums[16 * k + j][part >> (60 - 4 * j) & 15]);
            ADD(odd, nibble_sums[16 * k + j + 1][part >> (56 - 4 * j) & 15]);
        }
    }
    ADD(even, nibble_sums[48][word->part[3] >> 60]);
    ADD(even, odd);
    return even;
}

static inline Sums sums_by_octets(const Word *word) {
    Sums even = NO_SUMS, odd = NO_SUMS;
#pragma GCC unroll 3
    for (int k = 0; k < 3; k++) {
        uint64_t part = word->part[k];
#pragma GCC unroll 4
        for (int j = 0; j < 8; j += 2) {
            ADD(even, octet_sums[8 * k + j][part >> (56 - 8 * j) & 255]);
            ADD(odd, octet_sums[8 * k + j + 1][part >> (48 - 8 * j) & 255]);
        }
    }
    ADD(even, octet_sums[24][word->part[3] >> 56]);
    ADD(even, odd);
    return even;
}

static inline bool is_codeword(Sums sums) { return !(PART(sums, 0) | PART(sums, 1)); }

static inline void write_information(Sums sums, uint8_t octets[12]) {
    uint64_t high = __builtin_bswap64(PART(sums, 2));
    uint32_t low = __builtin_bswap32((uint32_t)(PART(sums, 3) >> 32));
    memcpy(octets, &high, 8);
    memcpy(octets + 8, &low, 4);
}

/* The algorithm and the tables of dmr_bptc: columns, then rows, and after each the sums of the whole word again. */
static inline bool decode_in_passes(const Word *word, uint8_t octets[12]) {
    Sums sums = sums_by_nibbles(word);
    if (!is_codeword(sums)) {
        Word mended = *word;
        int flips;
        for (int column = 0; column < COLUMNS; column++) {
            int wrong = wrong_in_column[PART(sums, 0) >> (4 * column) & 15];
            if (wrong < ROWS) flip(&mended, place_of[wrong][column]);
        }
        sums = sums_by_nibbles(&mended);
        for (int row = 0; row < ROWS; row++) {
            int wrong = wrong_in_row[PART(sums, 1) >> (4 * row) & 15];
            if (wrong < COLUMNS) flip(&mended, place_of[row][wrong]);
        }
        flips = __builtin_popcountll((mended.part[0] ^ word->part[0]) & ~0ull >> 1);
        for (int k = 1; k < 4; k++) flips += __builtin_popcountll(mended.part[k] ^ word->part[k]);
        if (flips > 3) return false;
        sums = sums_by_nibbles(&mended);
        if (!is_codeword(sums)) return false;
    }
    write_information(sums, octets);
    return true;
}

/* The lowest bit of each group of four, set if any bit of the group is. */
static inline uint64_t failing_lines(uint64_t syndromes) {
    uint64_t any = syndromes | syndromes >> 1;
    return (any | any >> 2) & 0x1111111111111111ull;
}

/*
 * Visits failing lines only, and keeps the sums up to date: a flip adds what its place adds. More than three failing
 * columns cannot be three wrong cells. Once the columns are mended, at most four cells are wrong: three in one column, and
 * the one that was flipped to mend it.
 */
static inline __attribute__((always_inline)) bool decode_incrementally(Sums sums, uint8_t octets[12]) {
    if (__builtin_expect(!is_codeword(sums), 0)) {
        int flipped[3], count = 0, flips;
        uint64_t syndromes = PART(sums, 0), failing = failing_lines(syndromes);
        if (__builtin_popcountll(failing) > 3) return false;
        for (; failing; failing &= failing - 1) {
            int column = __builtin_ctzll(failing) >> 2, place = place_in_column[column][syndromes >> (4 * column) & 15];
            if (place == NO_CELL) continue;
            flipped[count++] = place;
            ADD(sums, place_sums[place]);
        }
        syndromes = PART(sums, 1);
        failing = failing_lines(syndromes);
        if (__builtin_popcountll(failing) > 4) return false;
        flips = count;
        for (; failing; failing &= failing - 1) {
            int row = __builtin_ctzll(failing) >> 2, place = place_in_row[row][syndromes >> (4 * row) & 15];
            bool is_flipped_back = false;
            if (place == NO_CELL) return false;
            for (int i = 0; i < count; i++) is_flipped_back |= flipped[i] == place;
            flips += is_flipped_back ? -1 : 1;
            ADD(sums, place_sums[place]);
        }
        if (flips > 3 || !is_codeword(sums)) return false;
    }
    write_information(sums, octets);
    return true;
}

/* ---- encoders and checks */

static inline void encode_by_nibbles(const uint8_t octets[12], Word *word) {
    Sums high = NO_SUMS, low = NO_SUMS;
#pragma GCC unroll 12
    for (int k = 0; k < 12; k++) {
        ADD(high, nibble_codeword[2 * k][octets[k] >> 4]);
        ADD(low, nibble_codeword[2 * k + 1][octets[k] & 15]);
    }
    ADD(high, low);
    memcpy(word, &high, sizeof *word);
}

static inline void encode_by_octets(const uint8_t octets[12], Word *word) {
    Sums even = NO_SUMS, odd = NO_SUMS;
#pragma GCC unroll 6
    for (int k = 0; k < 12; k += 2) {
        ADD(even, octet_codeword[k][octets[k]]);
        ADD(odd, octet_codeword[k + 1][octets[k + 1]]);
    }
    ADD(even, odd);
    memcpy(word, &even, sizeof *word);
}

/* Ten octets to the codeword that carries them and their check: one linear map. */
static inline void seal_by_nibbles(const uint8_t pdu[10], Word *word) {
    Sums high = sealed_zero, low = NO_SUMS;
#pragma GCC unroll 10
    for (int k = 0; k < 10; k++) {
        ADD(high, nibble_sealed[2 * k][pdu[k] >> 4]);
        ADD(low, nibble_sealed[2 * k + 1][pdu[k] & 15]);
    }
    ADD(high, low);
    memcpy(word, &high, sizeof *word);
}

static inline void seal_by_octets(const uint8_t pdu[10], Word *word) {
    Sums even = sealed_zero, odd = NO_SUMS;
#pragma GCC unroll 5
    for (int k = 0; k < 10; k += 2) {
        ADD(even, octet_sealed[k][pdu[k]]);
        ADD(odd, octet_sealed[k + 1][pdu[k + 1]]);
    }
    ADD(even, odd);
    memcpy(word, &even, sizeof *word);
}

/* By the table of dmr_csbk: each look-up waits for the one before it. */
static inline uint16_t check_in_turn(const uint8_t octets[10]) {
    uint16_t remainder = 0;
    for (int k = 0; k < 10; k++) remainder = remainder << 8 ^ check_table[remainder >> 8 ^ octets[k]];
    return (uint16_t)~remainder ^ 0xA5A5;
}

/* By ten tables, one for each octet: no look-up waits for another. */
static inline uint16_t check_by_octets(const uint8_t octets[10]) {
    uint16_t check = check_of_zero;
#pragma GCC unroll 10
    for (int k = 0; k < 10; k++) check ^= check_of_octet[k][octets[k]];
    return check;
}

#endif
