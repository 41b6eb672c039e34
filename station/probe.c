/*
 * Asks the headers of the kit, for its tests (python/tests/test_station.py): reads a question in each line of standard input, and
 * prints a line for it. Octets are in hexadecimal; a frame that is not written is `-`.
 *
 *     link VERSION CARRIER LPCN     a new connection; its HELLO
 *     octets HEX                    what these octets bring: `N:EVENT` for the Nth octet of the connection
 *     rx SLOT HEX, again SLOT HEX, active SLOT, poll, bye     a frame
 *     retry VERSION                 milliseconds and version
 *     make HEX SYNC COLOUR KIND     a burst; SYNC 0 is that of a base station, 1 that of a radio
 *     take HEX                      wrong bits of the sync of a radio, those of the slot type, colour, kind, word
 *     place N, cach BUSY SLOT LCSS PART, short HEX            a place; a CACH; the parts of a short LC
 *     hard LIMIT HEX, soft LIMIT N,N,..                       wrong bits and what is sent
 *     encode HEX, read HEX                                    the codeword of ten octets; the ten octets of a codeword
 */
#include "dmr_air.h"
#include "dmr_link.h"
#include "dmr_mend.h"
#include <stdio.h>
#include <stdlib.h>

static struct dmr_link link_state;
static unsigned long taken;

/* Reads a word of the line as octets; their count. */
static size_t octets_of(const char *text, uint8_t *octets, size_t most) {
    size_t count = 0;
    unsigned value;
    while (text && count < most && sscanf(text + 2 * count, "%2x", &value) == 1) octets[count++] = (uint8_t)value;
    return count;
}

static void print_octets(const uint8_t *octets, size_t count) {
    if (!count) putchar('-');
    for (size_t n = 0; n < count; n++) printf("%02X", octets[n]);
}

static long number_of(const char *text) { return text ? strtol(text, NULL, 10) : 0; }

static void print_events(const uint8_t *octets, size_t count) {
    static const char *const names[] = {"", "WELCOME", "TX", "DONE", "REFUSED", "FAULT"};
    for (size_t n = 0; n < count; n++, taken++) {
        enum dmr_link_event event = dmr_link_octet(&link_state, octets[n]);
        if (event == DMR_LINK_NOTHING) continue;
        printf("%lu:%s", taken, names[event]);
        if (event == DMR_LINK_TX) {
            printf("/%d/", link_state.slot);
            print_octets(link_state.word, 25);
        }
        if (event == DMR_LINK_REFUSED) printf("/%d", link_state.cause);
        putchar(' ');
    }
}

static void answer_link(const char *name, char **words) {
    uint8_t octets[4096], out[29];
    size_t count = 0;
    unsigned version = (unsigned)number_of(words[0]);
    if (!strcmp(name, "octets")) {
        print_events(octets, octets_of(words[0], octets, sizeof octets));
        return;
    }
    if (!strcmp(name, "retry")) {
        unsigned wait = dmr_link_retry(&link_state, &version);
        printf("%u %u", wait, version);
        return;
    }
    octets_of(words[1], octets, 25);
    if (!strcmp(name, "link")) {
        taken = 0;
        count = dmr_link_hello(&link_state, version, (unsigned)number_of(words[1]), (unsigned)number_of(words[2]), out);
    } else if (!strcmp(name, "rx")) {
        count = dmr_link_rx(&link_state, version, octets, out);
    } else if (!strcmp(name, "again")) {
        count = dmr_link_rx_again(&link_state, version, octets, out);
    } else if (!strcmp(name, "active")) {
        count = dmr_link_active(version, out);
    } else if (!strcmp(name, "poll")) {
        count = dmr_link_poll(&link_state, out);
    } else {
        count = dmr_link_bye(out);
    }
    print_octets(out, count);
}

static void answer_air(const char *name, char **words) {
    uint8_t octets[DMR_AIR_BURST] = {0}, out[DMR_AIR_BURST];
    unsigned colour = 99, kind = 99;
    uint32_t parts[4];
    if (!strcmp(name, "make")) {
        octets_of(words[0], octets, DMR_AIR_WORD);
        dmr_air_make(octets, number_of(words[1]) ? DMR_AIR_MS_DATA : DMR_AIR_BS_DATA, (unsigned)number_of(words[2]),
                     (unsigned)number_of(words[3]), out);
        print_octets(out, DMR_AIR_BURST);
    } else if (!strcmp(name, "take")) {
        octets_of(words[0], octets, DMR_AIR_BURST);
        int wrong = dmr_air_take(octets, out, &colour, &kind);
        printf("%d %d %u %u ", dmr_air_sync_wrong(octets, DMR_AIR_MS_DATA), wrong, colour, kind);
        print_octets(out, DMR_AIR_WORD);
    } else if (!strcmp(name, "place")) {
        printf("%d", dmr_air_place((int)number_of(words[0])));
    } else if (!strcmp(name, "cach")) {
        printf("%06X", (unsigned)dmr_air_cach((unsigned)number_of(words[0]), (unsigned)number_of(words[1]),
                                              (unsigned)number_of(words[2]), (uint32_t)number_of(words[3])));
    } else {
        dmr_air_short_lc(words[0] ? (uint32_t)strtoul(words[0], NULL, 16) : 0, parts);
        for (int n = 0; n < 4; n++) printf("%05X ", (unsigned)parts[n]);
    }
}

static void answer_mend(const char *name, char **words) {
    uint8_t octets[DMR_MEND_WORD] = {0}, out[DMR_MEND_WORD];
    int8_t soft[DMR_MEND_PLACES] = {0};
    int limit = (int)number_of(words[0]);
    if (!strcmp(name, "encode") || !strcmp(name, "read")) {
        octets_of(words[0], octets, sizeof octets);
        if (*name == 'e') dmr_mend_encode(octets, out);
        else dmr_mend_octets(octets, out);
        print_octets(out, *name == 'e' ? 25 : 10);
        return;
    }
    if (!strcmp(name, "hard")) {
        octets_of(words[1], octets, sizeof octets);
        printf("%d ", dmr_mend_hard(octets, limit, out));
    } else {
        for (int n = 0; words[1] && n < DMR_MEND_PLACES; n++) {
            soft[n] = (int8_t)number_of(words[1]);
            if ((words[1] = strchr(words[1], ','))) words[1]++;
        }
        printf("%d ", dmr_mend_soft(soft, limit, out));
    }
    print_octets(out, sizeof out);
}

int main(void) {
    static char line[10000];
    while (fgets(line, sizeof line, stdin)) {
        char *words[6] = {0};
        int count = 0;
        for (char *word = strtok(line, " \n"); word && count < 5; word = strtok(NULL, " \n")) words[count++] = word;
        if (!count) continue;
        if (strstr(" make take place cach short ", words[0])) answer_air(words[0], words + 1);
        else if (strstr(" hard soft encode read ", words[0])) answer_mend(words[0], words + 1);
        else answer_link(words[0], words + 1);
        putchar('\n');
    }
    return 0;
}
