/*
 * The burst of the air interface around the 25 octets of the link, in both directions (TS 102 361-1, 6.1 and B.3.1). That is the
 * sync, and the slot type with the colour code. Also the CACH, which a base station sends between its bursts. C99, no allocation, no
 * input or output, no state; <stdint.h>, <string.h>. It is tested, also against a recording of a base station; it is not proved.
 *
 * Bits are numbered from 0 in the order of transmission. Bit 0 is the highest of the first octet; bit n of a list of octets is
 * bit 7 - n mod 8 of octet n div 8. A burst has 264 bits:
 *
 *     bits   0 to  97   the word's bits 0 to 97                        156 to 165   the second half of the slot type
 *           98 to 107   the first half of the slot type                166 to 263   the word's bits 98 to 195
 *          108 to 155   sync
 *
 * To transmit a TX: dmr_air_make(link.word, DMR_AIR_BS_DATA, colour, DMR_AIR_CSBK, burst). To receive: find the sync of a radio
 * (DMR_AIR_MS_DATA), and take the burst around it with dmr_air_take. If that returns 0 or more, `kind` is DMR_AIR_CSBK and `colour`
 * is yours, send an RX. For soft bits see dmr_air_place.
 */
#ifndef DMR_AIR_H
#define DMR_AIR_H

#include <stdint.h>
#include <string.h>

enum { DMR_AIR_BURST = 33, DMR_AIR_WORD = 25, DMR_AIR_WORD_BITS = 196, DMR_AIR_SYNC = 6, DMR_AIR_SYNC_AT = 108 };
/* Data types of a slot type: a control burst, and the burst of a slot without traffic. */
enum { DMR_AIR_CSBK = 3, DMR_AIR_IDLE = 9 };
/* Syncs of data bursts: of a base station, and of a radio. */
static const uint8_t DMR_AIR_BS_DATA[6] = {0xDF, 0xF5, 0x7D, 0x75, 0xDF, 0x5D};
static const uint8_t DMR_AIR_MS_DATA[6] = {0xD5, 0xD7, 0xF7, 0x7F, 0xD7, 0x57};

static inline int dmr_air_bit(const uint8_t *octets, int n) { return octets[n >> 3] >> (7 - (n & 7)) & 1; }

static inline void dmr_air_put(uint8_t *octets, int n, int bit) {
    int mask = 0x80 >> (n & 7);
    octets[n >> 3] = (uint8_t)(bit ? octets[n >> 3] | mask : octets[n >> 3] & ~mask);
}

static inline int dmr_air_ones(uint32_t bits) {
    int count = 0;
    for (; bits; bits &= bits - 1) count++;
    return count;
}

/* The bit of the burst in which bit n of the word is, 0 to 195: soft[n] of dmr_mend_soft is what was received there. */
static inline int dmr_air_place(int n) { return n < 98 ? n : n + 68; }

/* The 20 bits of a slot type: four of the colour code, four of the data type, and Golay(20,8). */
static inline uint32_t dmr_air_slot_type(unsigned colour, unsigned kind) {
    static const uint16_t rows[8] = {0x3DA, 0xD99, 0x6CD, 0x367, 0xDC6, 0xA97, 0x93E, 0x8EB};
    unsigned eight = (colour & 15) << 4 | (kind & 15);
    uint32_t sum = 0;
    for (int n = 0; n < 8; n++)
        if (eight >> (7 - n) & 1) sum ^= rows[n];
    return (uint32_t)eight << 12 | sum;
}

/* Makes the burst that is transmitted. */
static inline void dmr_air_make(const uint8_t word[25], const uint8_t sync[6], unsigned colour, unsigned kind, uint8_t burst[33]) {
    uint32_t type = dmr_air_slot_type(colour, kind);
    memset(burst, 0, DMR_AIR_BURST);
    for (int n = 0; n < DMR_AIR_WORD_BITS; n++) dmr_air_put(burst, dmr_air_place(n), dmr_air_bit(word, n));
    for (int n = 0; n < 20; n++) dmr_air_put(burst, n < 10 ? 98 + n : 146 + n, (int)(type >> (19 - n) & 1));
    for (int n = 0; n < 48; n++) dmr_air_put(burst, DMR_AIR_SYNC_AT + n, dmr_air_bit(sync, n));
}

/* How many of the 48 bits of the burst's sync differ from this one. Two syncs differ in at least 12 of them: up to five wrong bits leave no doubt. */
static inline int dmr_air_sync_wrong(const uint8_t burst[33], const uint8_t sync[6]) {
    int count = 0;
    for (int n = 0; n < 48; n++) count += dmr_air_bit(burst, DMR_AIR_SYNC_AT + n) != dmr_air_bit(sync, n);
    return count;
}

/*
 * Takes a burst apart: the word as it was received, its last four bits 0, and what the slot type says. The wrong bits of the slot
 * type, 0 to 3; or -1: it has more, nothing is known of it, and `colour` and `kind` are as they were.
 */
static inline int dmr_air_take(const uint8_t burst[33], uint8_t word[25], unsigned *colour, unsigned *kind) {
    uint32_t came = 0;
    memset(word, 0, DMR_AIR_WORD);
    for (int n = 0; n < DMR_AIR_WORD_BITS; n++) dmr_air_put(word, n, dmr_air_bit(burst, dmr_air_place(n)));
    for (int n = 0; n < 20; n++) came = came << 1 | (uint32_t)dmr_air_bit(burst, n < 10 ? 98 + n : 146 + n);
    for (unsigned eight = 0; eight < 256; eight++) {
        int wrong = dmr_air_ones(came ^ dmr_air_slot_type(eight >> 4, eight & 15));
        if (wrong > 3) continue;
        *colour = eight >> 4;
        *kind = eight & 15;
        return wrong;
    }
    return -1;
}

/*
 * The CACH: 24 bits, as the low bits of a number, before each burst of a base station. Its head is four bits in Hamming(7,4). `busy` is 1
 * if the next slot in the other direction is not free. `slot` is the timeslot of the burst after the CACH, 0 or 1. `lcss` says
 * which part of a message the other 17 bits are: DMR_AIR_FIRST, twice DMR_AIR_NEXT, DMR_AIR_LAST, or DMR_AIR_WHOLE.
 */
enum { DMR_AIR_CACH_BITS = 24, DMR_AIR_PART_BITS = 17 };
enum { DMR_AIR_WHOLE = 0, DMR_AIR_FIRST = 1, DMR_AIR_LAST = 2, DMR_AIR_NEXT = 3 };

/* The bits 0 to 6 of the head, then the bits of the part, by their places. */
static const uint8_t DMR_AIR_CACH_AT[24] = {0, 4, 8, 12, 14, 18, 22, 1, 2, 3, 5, 6, 7, 9, 10, 11, 13, 15, 16, 17, 19, 20, 21, 23};

/* The seven bits of a CACH's head: four, and three of Hamming(7,4). */
static inline uint32_t dmr_air_cach_head(unsigned busy, unsigned slot, unsigned lcss) {
    static const uint8_t rows[4] = {5, 7, 6, 3};
    unsigned four = (busy & 1) << 3 | (slot & 1) << 2 | (lcss & 3);
    uint32_t sum = 0;
    for (int n = 0; n < 4; n++)
        if (four >> (3 - n) & 1) sum ^= rows[n];
    return (uint32_t)four << 3 | sum;
}

/* A CACH with this part of a short LC: 17 bits, as dmr_air_short_lc makes them. */
static inline uint32_t dmr_air_cach(unsigned busy, unsigned slot, unsigned lcss, uint32_t part) {
    uint32_t bits = dmr_air_cach_head(busy, slot, lcss) << DMR_AIR_PART_BITS | (part & 0x1FFFF), cach = 0;
    for (int n = 0; n < DMR_AIR_CACH_BITS; n++)
        if (bits >> (23 - n) & 1) cach |= (uint32_t)1 << (23 - DMR_AIR_CACH_AT[n]);
    return cach;
}

/* The five parities of twelve bits, Hamming(17,12): their remainder by x^5 + x^2 + 1. */
static inline uint32_t dmr_air_hamming17(uint32_t twelve) {
    uint32_t sum = twelve << 5;
    for (int n = 16; n >= 5; n--)
        if (sum >> n & 1) sum ^= (uint32_t)0x25 << (n - 5);
    return sum;
}

/* The check of 28 bits: their remainder by x^8 + x^2 + x + 1. */
static inline uint32_t dmr_air_crc8(uint32_t bits) {
    uint32_t sum = 0;
    for (int n = 27; n >= 0; n--) sum = (sum << 1 & 0xFF) ^ ((sum >> 7 ^ bits >> n) & 1 ? 7u : 0u);
    return sum;
}

/*
 * The four parts of a short LC of 28 bits, to be sent in four CACHs in a row. The bits and their check are three rows of
 * Hamming(17,12). A fourth row is the sum of these, and the 68 bits are interleaved. What the 28 bits say is the base station's: on a
 * control channel they have the site's system code, the key `system` of the site file, which its operator knows.
 */
static inline void dmr_air_short_lc(uint32_t bits, uint32_t parts[4]) {
    uint64_t checked = (uint64_t)(bits & 0xFFFFFFF) << 8 | dmr_air_crc8(bits & 0xFFFFFFF);
    uint32_t row[4] = {0, 0, 0, 0};
    memset(parts, 0, 4 * sizeof parts[0]);
    for (int r = 0; r < 3; r++) {
        uint32_t twelve = (uint32_t)(checked >> (24 - 12 * r) & 0xFFF);
        row[r] = twelve << 5 | dmr_air_hamming17(twelve);
        row[3] ^= row[r];
    }
    for (int n = 0; n < 68; n++) {
        int at = n == 67 ? 67 : 4 * n % 67;
        if (row[n / 17] >> (16 - n % 17) & 1) parts[at / 17] |= (uint32_t)1 << (16 - at % 17);
    }
}

#endif
