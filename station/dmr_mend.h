/*
 * Reads control bursts that have wrong bits, on hard and on soft bits: the decoder of a base station. C99, no allocation, no
 * input or output, no state, no recursion, no floating point; <stdint.h>, <string.h>; some 12 KiB of stack.
 *
 * The controller reads a burst with at most three wrong bits. At 5 % wrong bits, at which radios' sensitivity is specified,
 * that is one burst of a hundred. This reads some 97 there, and all on soft bits, and encodes what it read again: so the
 * controller gets a burst without wrong bits. What the controller reads, this reads the same. docs/LINK.md, "What a base
 * station may read", has the figures, and station/hearing.c prints them.
 *
 *     uint8_t sent[25];
 *     dmr_mend_hard(word, DMR_MEND_LIMIT, sent);             word: as dmr_air_take took it from the burst
 *     n = dmr_link_rx(&link, slot, sent, out);               in any case: if nothing was read, `sent` is the word as it came
 *
 * It is tested, also against the controller's proved decoder. It is not proved.
 *
 * How it works. The 195 bits are a table of 13 rows and 15 columns, and each line has four parities: 16 syndromes. First each column
 * is mended by its syndrome, then each row: that finds the codeword at a distance of at most three if there is one, as the
 * controller does. Else each row reports of each of its bits by how much 0 is likelier than 1, judged by its other bits. The columns
 * do the same, on what came and what the rows reported, and then the rows again. If after a round all equations hold, and
 * the check of sixteen bits, that is the burst. All rows are worked at once, and so are all columns: the lanes of the loops
 * are vectors if the compiler makes them so (-O3).
 */
#ifndef DMR_MEND_H
#define DMR_MEND_H

#include <stdint.h>
#include <string.h>

/*
 * The greatest number of places in which what is read may differ from what came. The check lets one wrong reading of 65,536 pass,
 * so a decoder that tries much takes noise for bursts now and then. The codewords that it finds in random words differ from them in
 * 20 places or more on hard bits, nearly always, and in 26 on soft bits. So these limits refuse noise, and few bursts: those with more
 * wrong bits. With a smaller limit noise is even rarer; with 3 only those bursts are read that the controller reads; 195 refuses nothing.
 */
enum { DMR_MEND_LIMIT = 20, DMR_MEND_SOFT_LIMIT = 26 };

/* Instead of a number of wrong bits: nothing was read. */
enum { DMR_MEND_NOTHING = -1 };

/*
 * Place p of a word holds index 13 p mod 196. Index 0 is a reserved bit in no equation; index 1 + 15 r + c is the cell of row r
 * and column c. The cells (0,0) to (0,2) are reserved bits, sent as 0. The 96 information bits follow, in rows 0 to 8 and
 * columns 0 to 10, row by row: ten octets and their check. All other cells are parities. The syndrome of a line is the sum, modulo
 * 2, of these numbers over its bits that are 1; it is 0 in a codeword.
 */
enum { DMR_MEND_ROWS = 13, DMR_MEND_COLUMNS = 15, DMR_MEND_PLACES = 196, DMR_MEND_WORD = 25 };
static const uint8_t DMR_MEND_IN_ROW[15] = {9, 13, 15, 14, 7, 10, 5, 11, 12, 6, 3, 8, 4, 2, 1};
static const uint8_t DMR_MEND_IN_COLUMN[13] = {15, 14, 7, 10, 5, 11, 12, 6, 3, 8, 4, 2, 1};

/* Rounds of the search; beliefs are within these bounds; a way that does not exist costs more than any that does. */
enum { DMR_MEND_LANES = 16, DMR_MEND_ROUNDS = 8, DMR_MEND_MEAN = 32, DMR_MEND_MOST = 500, DMR_MEND_NEVER = 8000 };

/* A bit for each cell, by row and column. */
typedef struct { uint8_t at[DMR_MEND_ROWS][DMR_MEND_COLUMNS]; } dmr_mend_bits;
/* Of each bit of each line how much more likely it is 0 than 1, by place in the line, then by line. */
typedef struct { int16_t at[DMR_MEND_COLUMNS][DMR_MEND_LANES]; } dmr_mend_belief;

static inline int dmr_mend_place(int row, int column) { return 181 * (1 + DMR_MEND_COLUMNS * row + column) % DMR_MEND_PLACES; }

static inline int dmr_mend_row_syndrome(const dmr_mend_bits *b, int row) {
    int sum = 0;
    for (int c = 0; c < DMR_MEND_COLUMNS; c++) sum ^= b->at[row][c] * DMR_MEND_IN_ROW[c];
    return sum;
}

static inline int dmr_mend_column_syndrome(const dmr_mend_bits *b, int column) {
    int sum = 0;
    for (int r = 0; r < DMR_MEND_ROWS; r++) sum ^= b->at[r][column] * DMR_MEND_IN_COLUMN[r];
    return sum;
}

/* Sets the parities, of rows 0 to 8 and then of all columns: the last four bits of each line, by its syndrome without them. */
static inline void dmr_mend_fill(dmr_mend_bits *b) {
    for (int r = 0; r < 9; r++) {
        for (int c = 11; c < DMR_MEND_COLUMNS; c++) b->at[r][c] = 0;
        int sum = dmr_mend_row_syndrome(b, r);
        for (int e = 0; e < 4; e++) b->at[r][11 + e] = (uint8_t)(sum >> (3 - e) & 1);
    }
    for (int c = 0; c < DMR_MEND_COLUMNS; c++) {
        for (int r = 9; r < DMR_MEND_ROWS; r++) b->at[r][c] = 0;
        int sum = dmr_mend_column_syndrome(b, c);
        for (int e = 0; e < 4; e++) b->at[9 + e][c] = (uint8_t)(sum >> (3 - e) & 1);
    }
}

/* The 25 octets of a word whose place 0 is 0. */
static inline void dmr_mend_write(const dmr_mend_bits *b, uint8_t word[25]) {
    memset(word, 0, DMR_MEND_WORD);
    for (int r = 0; r < DMR_MEND_ROWS; r++)
        for (int c = 0; c < DMR_MEND_COLUMNS; c++) {
            int place = dmr_mend_place(r, c);
            word[place >> 3] |= (uint8_t)(b->at[r][c] << (7 - (place & 7)));
        }
}

static inline int dmr_mend_distance(const dmr_mend_bits *a, const dmr_mend_bits *b) {
    int count = 0;
    for (int r = 0; r < DMR_MEND_ROWS; r++)
        for (int c = 0; c < DMR_MEND_COLUMNS; c++) count += a->at[r][c] != b->at[r][c];
    return count;
}

/* The check of ten octets: their remainder by x^16 + x^12 + x^5 + 1, complemented, with the mask A5A5 of a CSBK. */
static inline unsigned dmr_mend_check(const uint8_t octets[10]) {
    unsigned sum = 0;
    for (int n = 0; n < 80; n++) {
        unsigned top = (sum >> 15 ^ octets[n >> 3] >> (7 - (n & 7))) & 1;
        sum = (sum << 1 & 0xFFFF) ^ top * 0x1021;
    }
    return sum ^ 0xFFFF ^ 0xA5A5;
}

/* The twelve octets of the information bits. */
static inline void dmr_mend_information(const dmr_mend_bits *b, uint8_t octets[12]) {
    memset(octets, 0, 12);
    for (int n = 0; n < 96; n++) octets[n >> 3] |= (uint8_t)(b->at[(n + 3) / 11][(n + 3) % 11] << (7 - (n & 7)));
}

/* Whether the check of the information bits is right. */
static inline int dmr_mend_fits(const dmr_mend_bits *b) {
    uint8_t octets[12];
    dmr_mend_information(b, octets);
    return dmr_mend_check(octets) == ((unsigned)octets[10] << 8 | octets[11]);
}

/* Makes a codeword with the check of ten octets. */
static inline void dmr_mend_encode(const uint8_t octets[10], uint8_t word[25]) {
    unsigned check = dmr_mend_check(octets);
    dmr_mend_bits b;
    memset(&b, 0, sizeof b);
    for (int n = 0; n < 96; n++) {
        unsigned octet = n < 80 ? octets[n >> 3] : n < 88 ? check >> 8 : check;
        b.at[(n + 3) / 11][(n + 3) % 11] = (uint8_t)(octet >> (7 - (n & 7)) & 1);
    }
    dmr_mend_fill(&b);
    dmr_mend_write(&b, word);
}

/* The ten octets that a codeword carries, such as what dmr_mend_hard read. */
static inline void dmr_mend_octets(const uint8_t word[25], uint8_t octets[10]) {
    uint8_t twelve[12];
    dmr_mend_bits b;
    for (int r = 0; r < DMR_MEND_ROWS; r++)
        for (int c = 0; c < DMR_MEND_COLUMNS; c++) b.at[r][c] = word[dmr_mend_place(r, c) >> 3] >> (7 - (dmr_mend_place(r, c) & 7)) & 1;
    dmr_mend_information(&b, twelve);
    memcpy(octets, twelve, 10);
}

/* Whether all equations hold. */
static inline int dmr_mend_is_codeword(const dmr_mend_bits *b) {
    int sums = 0;
    for (int r = 0; r < DMR_MEND_ROWS; r++) sums |= dmr_mend_row_syndrome(b, r);
    for (int c = 0; c < DMR_MEND_COLUMNS; c++) sums |= dmr_mend_column_syndrome(b, c);
    return !sums;
}

/* The bit of a line that has this syndrome; no bit of the line: `bits`. */
static inline int dmr_mend_wrong(const uint8_t *in_line, int bits, int syndrome) {
    int n = 0;
    while (n < bits && in_line[n] != syndrome) n++;
    return n;
}

/* The controller's decoder: finds the codeword at a distance of at most three. Whether there is one. */
static inline int dmr_mend_near(const dmr_mend_bits *came, dmr_mend_bits *b) {
    *b = *came;
    for (int c = 0; c < DMR_MEND_COLUMNS; c++) {
        int r = dmr_mend_wrong(DMR_MEND_IN_COLUMN, DMR_MEND_ROWS, dmr_mend_column_syndrome(b, c));
        if (r < DMR_MEND_ROWS) b->at[r][c] ^= 1;
    }
    for (int r = 0; r < DMR_MEND_ROWS; r++) {
        int c = dmr_mend_wrong(DMR_MEND_IN_ROW, DMR_MEND_COLUMNS, dmr_mend_row_syndrome(b, r));
        if (c < DMR_MEND_COLUMNS) b->at[r][c] ^= 1;
    }
    return dmr_mend_is_codeword(b) && dmr_mend_distance(came, b) <= 3;
}

/* ---- the search. A way is a choice of bits for a part of a line, and costs what the beliefs against it are. */

typedef int16_t dmr_mend_lane[DMR_MEND_LANES];

/* The cheaper of two ways and their next steps, in each lane. `out` is none of the others. */
static inline void dmr_mend_cheaper(const int16_t *a, const int16_t *a_step, const int16_t *b, const int16_t *b_step,
                                    int16_t *restrict out) {
    for (int l = 0; l < DMR_MEND_LANES; l++) {
        int16_t first = (int16_t)(a[l] + a_step[l]), second = (int16_t)(b[l] + b_step[l]);
        out[l] = first < second ? first : second;
    }
}

/* Keeps the cheapest of ways that are put together from two parts, in each lane. */
static inline void dmr_mend_cheapest(const int16_t *a, const int16_t *b, int16_t *restrict best) {
    for (int l = 0; l < DMR_MEND_LANES; l++) {
        int16_t way = (int16_t)(a[l] + b[l]);
        best[l] = way < best[l] ? way : best[l];
    }
}

/* What a 0 and a 1 cost, by the belief. */
static inline void dmr_mend_costs(const int16_t *belief, int16_t *restrict zero, int16_t *restrict one) {
    for (int l = 0; l < DMR_MEND_LANES; l++) {
        one[l] = belief[l] > 0 ? belief[l] : 0;
        zero[l] = (int16_t)(one[l] - belief[l]);
    }
}

static inline void dmr_mend_start(dmr_mend_lane ways[16]) {
    for (int s = 0; s < 16; s++)
        for (int l = 0; l < DMR_MEND_LANES; l++) ways[s][l] = s ? DMR_MEND_NEVER : 0;
}

/* What lines of `bits` bits report of each of their bits, its own belief left out. */
static inline void dmr_mend_lines(const dmr_mend_belief *in, const uint8_t *in_line, int bits, dmr_mend_belief *out) {
    dmr_mend_lane ways[DMR_MEND_COLUMNS][16], back[2][16], zero, one; /* by syndrome: up to a bit, and from the end */
    dmr_mend_start(ways[0]);
    for (int n = 0; n + 1 < bits; n++) {
        dmr_mend_costs(in->at[n], zero, one);
        for (int s = 0; s < 16; s++) dmr_mend_cheaper(ways[n][s], zero, ways[n][s ^ in_line[n]], one, ways[n + 1][s]);
    }
    dmr_mend_start(back[0]);
    for (int n = bits - 1, k = 0; n >= 0; n--, k ^= 1) {
        dmr_mend_lane with0, with1;
        for (int l = 0; l < DMR_MEND_LANES; l++) with0[l] = with1[l] = INT16_MAX;
        dmr_mend_costs(in->at[n], zero, one);
        for (int s = 0; s < 16; s++) {
            dmr_mend_cheapest(ways[n][s], back[k][s], with0);
            dmr_mend_cheapest(ways[n][s ^ in_line[n]], back[k][s], with1);
            dmr_mend_cheaper(back[k][s], zero, back[k][s ^ in_line[n]], one, back[!k][s]);
        }
        for (int l = 0; l < DMR_MEND_LANES; l++) out->at[n][l] = (int16_t)(with1[l] - with0[l]);
    }
}

/* What is believed of a bit: what came, and five eighths of what lines report. Less than all, as they are not independent. */
static inline int dmr_mend_sum(int came, int reported) {
    int sum = came + reported * 5 / 8;
    return sum > DMR_MEND_MOST ? DMR_MEND_MOST : sum < -DMR_MEND_MOST ? -DMR_MEND_MOST : sum;
}

/* Searches a burst. Its distance from what came; or DMR_MEND_NOTHING. */
static inline int dmr_mend_search(const dmr_mend_belief *soft, const dmr_mend_bits *came, int limit, dmr_mend_bits *b) {
    dmr_mend_belief in, rows, columns;
    memset(&in, 0, sizeof in);
    memset(&columns, 0, sizeof columns);
    for (int round = 0; round < DMR_MEND_ROUNDS; round++) {
        for (int r = 0; r < DMR_MEND_ROWS; r++)
            for (int c = 0; c < DMR_MEND_COLUMNS; c++) in.at[c][r] = (int16_t)dmr_mend_sum(soft->at[r][c], columns.at[r][c]);
        dmr_mend_lines(&in, DMR_MEND_IN_ROW, DMR_MEND_COLUMNS, &rows);
        for (int r = 0; r < DMR_MEND_ROWS; r++)
            for (int c = 0; c < DMR_MEND_COLUMNS; c++) in.at[r][c] = (int16_t)dmr_mend_sum(soft->at[r][c], rows.at[c][r]);
        dmr_mend_lines(&in, DMR_MEND_IN_COLUMN, DMR_MEND_ROWS, &columns);
        for (int r = 0; r < DMR_MEND_ROWS; r++)
            for (int c = 0; c < DMR_MEND_COLUMNS; c++)
                b->at[r][c] = soft->at[r][c] + (rows.at[c][r] + columns.at[r][c]) * 5 / 8 < 0;
        if (!dmr_mend_is_codeword(b)) continue;
        int distance = dmr_mend_distance(came, b), is_reserved_0 = !(b->at[0][0] | b->at[0][1] | b->at[0][2]);
        if (distance <= limit && is_reserved_0 && dmr_mend_fits(b)) return distance;
    }
    return DMR_MEND_NOTHING;
}

/* Reads by both ways. The wrong bits, 0 to 195; or DMR_MEND_NOTHING. The reserved bits are 0 in what is read. */
static inline int dmr_mend_read(dmr_mend_belief *soft, const dmr_mend_bits *came, int limit, dmr_mend_bits *b) {
    int wrong = DMR_MEND_NOTHING;
    if (dmr_mend_near(came, b)) {
        if (dmr_mend_fits(b)) wrong = dmr_mend_distance(came, b); /* else it is a burst of another kind */
        for (int c = 0; c < 3; c++) b->at[0][c] = 0;
        dmr_mend_fill(b);
        return wrong <= limit ? wrong : DMR_MEND_NOTHING;
    }
    if (limit <= 3) return DMR_MEND_NOTHING;
    for (int c = 0; c < 3; c++) soft->at[0][c] = DMR_MEND_MOST;
    return dmr_mend_search(soft, came, limit, b);
}

/*
 * Reads a burst on soft bits. `came` has a value for each bit of the word, 0 to 195. Above 0 the bit is more likely 0, below 0
 * more likely 1, and more so the farther from 0. At 0 nothing is known. Any scale does, if it is the same for all bits of a burst:
 * a mean of 20 to 40 is good. If many values are at the ends of the range they are as hard bits, and have their limit. Writes what to send: the codeword that was read, with reserved bits 0, or the signs of what came. Returns how many
 * places of what came were wrong, at most `limit` (DMR_MEND_SOFT_LIMIT); or DMR_MEND_NOTHING.
 */
static inline int dmr_mend_soft(const int8_t came[196], int limit, uint8_t sent[25]) {
    dmr_mend_belief soft;
    dmr_mend_bits signs, b;
    int sum = 1, wrong;
    memset(&soft, 0, sizeof soft);
    for (int n = 0; n < DMR_MEND_PLACES; n++) sum += came[n] < 0 ? -came[n] : came[n];
    for (int r = 0; r < DMR_MEND_ROWS; r++)
        for (int c = 0; c < DMR_MEND_COLUMNS; c++) {
            int value = came[dmr_mend_place(r, c)];
            soft.at[r][c] = (int16_t)dmr_mend_sum(value * DMR_MEND_MEAN * DMR_MEND_PLACES / sum, 0);
            signs.at[r][c] = value < 0;
        }
    wrong = dmr_mend_read(&soft, &signs, limit, &b);
    dmr_mend_write(wrong < 0 ? &signs : &b, sent);
    if (wrong < 0 && came[0] < 0) sent[0] |= 0x80;
    return wrong;
}

/* Reads a burst on hard bits, `came`, likewise; the limit is DMR_MEND_LIMIT. `sent` may be `came`. */
static inline int dmr_mend_hard(const uint8_t came[25], int limit, uint8_t sent[25]) {
    int8_t soft[DMR_MEND_PLACES];
    for (int n = 0; n < DMR_MEND_PLACES; n++) soft[n] = came[n >> 3] >> (7 - (n & 7)) & 1 ? -1 : 1;
    return dmr_mend_soft(soft, limit, sent);
}

#endif
