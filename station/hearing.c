/*
 * Prints how well control bursts are received: the table of docs/LINK.md, "What a base station may read".
 *
 *     hearing [-n BURSTS] [-o MANY] [-d DMR_DECODE] [-s SEED]
 *
 *     -n N      bursts for each share of wrong bits and each row (10,000)
 *     -o N      reads N bursts, at all the shares in turn, and N random words, and prints what was read that should not be
 *     -d PATH   also has the controller's program `dmr_decode` read the words of the first row, and prints its counts and times
 *
 * The draws are of a generator of its own from a fixed seed, so that every run draws the same words. Wrong bits are
 * independent of each other. Soft bits have Gaussian noise that turns the share of bits, in 127 steps to each side. The times are
 * processor times. Status 1: a burst was read as another; or, with 10,000 bursts or more, fewer were read than dmr_mend.h says.
 */
#define _POSIX_C_SOURCE 200809L
#include "dmr_mend.h"
#include <math.h>
#include <stdio.h>
#include <stdlib.h>
#include <sys/resource.h>
#include <time.h>
#include <unistd.h>

enum { SHARES = 8, ROWS = 3 };
static const double SHARE[SHARES] = {0.01, 0.02, 0.03, 0.04, 0.05, 0.06, 0.08, 0.10};
static const char *const NAMES[ROWS] = {"the controller alone", "`dmr_mend` on hard bits", "`dmr_mend` on soft bits"};

typedef struct {
    long read, other;        /* bursts that were read, and that were read as another */
    double mean, worst;      /* microseconds */
    int farthest;            /* the most wrong bits of one that was read */
} Figures;

static uint64_t drawn = 88172645463325252u;

static uint64_t draw(void) {
    drawn ^= drawn << 13;
    drawn ^= drawn >> 7;
    drawn ^= drawn << 17;
    return drawn * 2685821657736338717u;
}

/* From 0 to 1, neither of them. */
static double draw_part(void) { return ((double)(draw() >> 12) + 0.5) / 4503599627370496.0; }

static double draw_noise(void) { return sqrt(-2 * log(draw_part())) * cos(6.283185307179586 * draw_part()); }

/* The deviation of the noise that turns this share of bits, a bit being 1 or -1. */
static double noise_of(double share) {
    double least = 0, most = 10;
    for (int n = 0; n < 60; n++) {
        double middle = (least + most) / 2;
        if (erfc(middle / sqrt(2)) / 2 > share) least = middle;
        else most = middle;
    }
    return 2 / (least + most);
}

static void draw_burst(uint8_t word[25]) {
    uint8_t octets[10];
    for (int n = 0; n < 10; n++) octets[n] = (uint8_t)(draw() >> 32);
    dmr_mend_encode(octets, word);
}

static int bit_of(const uint8_t *octets, int n) { return octets[n >> 3] >> (7 - (n & 7)) & 1; }

static void turn_bits(uint8_t word[25], double share) {
    for (int n = 0; n < DMR_MEND_PLACES; n++)
        if (draw_part() < share) word[n >> 3] ^= (uint8_t)(0x80 >> (n & 7));
}

/* Soft bits of a signal with this amplitude and this noise. */
static void add_noise(const uint8_t word[25], double signal, double noise, int8_t soft[196]) {
    for (int n = 0; n < DMR_MEND_PLACES; n++) {
        double value = 40 * ((bit_of(word, n) ? -signal : signal) + noise * draw_noise());
        soft[n] = (int8_t)(value > 127 ? 127 : value < -127 ? -127 : lround(value));
    }
}

static double microseconds(void) {
    struct timespec now;
    clock_gettime(CLOCK_PROCESS_CPUTIME_ID, &now);
    return (double)now.tv_sec * 1e6 + (double)now.tv_nsec / 1e3;
}

static void note(Figures *f, int wrong, int is_same, double time) {
    f->read += wrong >= 0 && is_same;
    f->other += wrong >= 0 && !is_same;
    if (wrong > f->farthest) f->farthest = wrong;
    f->mean += time;
    if (time > f->worst) f->worst = time;
}

/* Reads bursts with a share of wrong bits, by the row's way. */
static Figures read_bursts(int row, double share, long bursts, FILE *words) {
    Figures f = {0, 0, 0, 0, 0};
    double noise = noise_of(share);
    for (long n = 0; n < bursts; n++) {
        uint8_t word[25], came[25], sent[25];
        int8_t soft[196];
        draw_burst(word);
        memcpy(came, word, 25);
        if (row < 2) turn_bits(came, share);
        else add_noise(word, 1, noise, soft);
        double before = microseconds();
        int wrong = row == 2 ? dmr_mend_soft(soft, DMR_MEND_SOFT_LIMIT, sent) : dmr_mend_hard(came, row ? DMR_MEND_LIMIT : 3, sent);
        note(&f, wrong, !memcmp(word, sent, 25), microseconds() - before);
        if (words) {
            fprintf(words, "021A00");
            for (int k = 0; k < 25; k++) fprintf(words, "%02X", came[k]);
            fputc('\n', words);
        }
    }
    f.mean /= (double)bursts;
    return f;
}

/* ---- the controller's own decoder */

/* Has dmr_decode read a carrier's octets, and prints how many bursts it read, and its time. Whether it read as many as `read`. */
static int ask_decoder(const char *decoder, FILE *words, long bursts, long read, double share) {
    char command[4200], line[512];
    struct rusage before, after;
    long nothing = 0;
    fflush(words);
    rewind(words);
    snprintf(command, sizeof command, "'%s' carrier <&%d", decoder, fileno(words));
    getrusage(RUSAGE_CHILDREN, &before);
    FILE *said = popen(command, "r");
    while (said && fgets(line, sizeof line, said)) nothing += strstr(line, "means nothing") != NULL;
    if (!said || pclose(said)) return 0;
    getrusage(RUSAGE_CHILDREN, &after);
    double seconds = (double)(after.ru_utime.tv_sec - before.ru_utime.tv_sec + after.ru_stime.tv_sec - before.ru_stime.tv_sec) +
                     (double)(after.ru_utime.tv_usec - before.ru_utime.tv_usec + after.ru_stime.tv_usec - before.ru_stime.tv_usec) / 1e6;
    printf("at %.0f %% dmr_decode reads %ld of the same words, in %.1f microseconds each, printing included\n", 100 * share,
           bursts - nothing, 1e6 * seconds / (double)bursts);
    return bursts - nothing == read;
}

/* A file with a HELLO, to which the words are appended. It has no name. */
static FILE *file_of_words(void) {
    FILE *words = tmpfile();
    if (!words) {
        perror("hearing");
        exit(1);
    }
    fprintf(words, "010401000001\n");
    return words;
}

/* ---- the tables */

static void print_heading(const char *what, int is_line) {
    printf(is_line ? "|---|" : "| %s |", what);
    for (int k = 0; k < SHARES; k++) {
        if (is_line) printf("---|");
        else printf(" %.0f %% |", 100 * SHARE[k]);
    }
    putchar('\n');
}

static void print_shares(Figures figures[ROWS][SHARES], long bursts) {
    printf("Control bursts that are read, of 100, by the share of wrong bits; %ld bursts for each figure\n\n", bursts);
    print_heading("wrong bits", 0);
    print_heading("", 1);
    for (int row = 0; row < ROWS; row++) {
        printf("| %s |", NAMES[row]);
        for (int k = 0; k < SHARES; k++) printf(" %.1f |", 100.0 * (double)figures[row][k].read / (double)bursts);
        putchar('\n');
    }
}

static void print_times(Figures figures[ROWS][SHARES]) {
    printf("\nMicroseconds of processor time for a burst\n\n");
    print_heading("wrong bits", 0);
    print_heading("", 1);
    for (int row = 1; row < ROWS; row++) {
        printf("| %s, mean |", NAMES[row]);
        for (int k = 0; k < SHARES; k++) printf(" %.0f |", figures[row][k].mean);
        printf("\n| %s, longest |", NAMES[row]);
        for (int k = 0; k < SHARES; k++) printf(" %.0f |", figures[row][k].worst);
        putchar('\n');
    }
    putchar('\n');
}

/* Whether no burst was read as another, and enough were read: that is said of 10,000 bursts. */
static int are_kept(Figures figures[ROWS][SHARES], long bursts) {
    long other = 0;
    for (int row = 0; row < ROWS; row++)
        for (int k = 0; k < SHARES; k++) other += figures[row][k].other;
    printf("%ld bursts were read as another\n", other);
    if (bursts < 10000) return !other;
    return !other && figures[1][4].read * 100 >= 95 * bursts && figures[2][4].read * 1000 >= 995 * bursts &&
           figures[2][6].read * 100 >= 98 * bursts;
}

static int print_table(long bursts, const char *decoder) {
    static Figures figures[ROWS][SHARES];
    int is_same = 1;
    for (int row = 0; row < ROWS; row++)
        for (int k = 0; k < SHARES; k++) {
            FILE *words = decoder && !row ? file_of_words() : NULL;
            figures[row][k] = read_bursts(row, SHARE[k], bursts, words);
            if (words) is_same &= ask_decoder(decoder, words, bursts, figures[row][k].read, SHARE[k]);
            if (words) fclose(words);
        }
    print_shares(figures, bursts);
    print_times(figures);
    return are_kept(figures, bursts) && is_same;
}

/* ---- false readings */

typedef struct {
    long any, within; /* read with any distance, and within the limit */
    int nearest;      /* the least distance of one of the first */
    int farthest;     /* the greatest distance of a burst that was read right */
} False;

/* Reads a burst, or noise if there is none, with and without a limit. */
static void read_false(const uint8_t *word, const int8_t soft[196], int limit, False *f) {
    uint8_t sent[25];
    int wrong = dmr_mend_soft(soft, 195, sent);
    if (wrong < 0) return;
    if (word && !memcmp(word, sent, 25)) {
        if (wrong > f->farthest) f->farthest = wrong;
        return;
    }
    f->any++;
    if (wrong < f->nearest) f->nearest = wrong;
    wrong = dmr_mend_soft(soft, limit, sent);
    f->within += wrong >= 0 && !(word && !memcmp(word, sent, 25));
}

static void print_false(const char *what, long count, const False *f) {
    printf("%ld %s: %ld read as a burst that they are not; %ld without a limit", count, what, f->within, f->any);
    if (f->any) printf(", the nearest at a distance of %d", f->nearest);
    putchar('\n');
}

/* Reads bursts at all shares and random words, on hard and on soft bits in turn. */
static int print_many(long count) {
    False bursts = {0, 0, 196, 0}, noise = {0, 0, 196, 0};
    for (long n = 0; n < 2 * count; n++) {
        uint8_t word[25], came[25];
        int8_t soft[196];
        int is_noise = n >= count;
        double share = SHARE[n / 2 % SHARES];
        draw_burst(word);
        memcpy(came, word, 25);
        if (n % 2) add_noise(word, !is_noise, is_noise ? 1 : noise_of(share), soft);
        else turn_bits(came, is_noise ? 0.5 : share);
        for (int k = 0; n % 2 == 0 && k < DMR_MEND_PLACES; k++) soft[k] = bit_of(came, k) ? -1 : 1;
        read_false(is_noise ? NULL : word, soft, n % 2 ? DMR_MEND_SOFT_LIMIT : DMR_MEND_LIMIT, is_noise ? &noise : &bursts);
    }
    print_false("bursts", count, &bursts);
    printf("bursts that were read right had at most %d wrong bits\n", bursts.farthest);
    print_false("random words", count, &noise);
    return !bursts.within && !noise.within;
}

int main(int argc, char **argv) {
    long bursts = 10000, many = 0;
    const char *decoder = NULL;
    for (int option; (option = getopt(argc, argv, "n:o:d:s:")) != -1;) switch (option) {
        case 'n': bursts = atol(optarg); break;
        case 'o': many = atol(optarg); break;
        case 'd': decoder = optarg; break;
        case 's': drawn += strtoull(optarg, NULL, 10) * 2; break;
        default: return 2;
        }
    if (bursts < 0 || many < 0 || optind < argc) return 2;
    int is_kept = bursts ? print_table(bursts, decoder) : 1;
    if (many) is_kept &= print_many(many);
    return is_kept ? 0 : 1;
}
