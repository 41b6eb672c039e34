/*
 * A site in plain C: its plan, and all that it keeps between two events. site_machine.h has its rules, site_link.h the link,
 * site_console.h the operators' lines.
 *
 * It is: the whole site machine of docs/SITE_MACHINE.md with both versions of the link and the console of docs/FORMATS.md, for
 * one thread. It writes the same octets as the engine of crates/dmr_link. A soak compares them, and a bench measures them.
 *
 * It is not a controller, and nothing in it is proved. It takes no site file: plan.h reads and writes plans, and no rule of the
 * site file is checked. All room is reserved once, in one block; the caller passes a buffer for what
 * goes out, and nothing checks that it is large enough. There is no journal that could be audited.
 */
#ifndef SITE_H
#define SITE_H

#include "coder.h"
#include <stdlib.h>

enum {
    CARRIERS = 16,
    SLOTS = 2 * CARRIERS,
    QUEUE_ROOM = 64,     /* PDUs that wait for one slot */
    REQUEST_LIMIT = 56,  /* with more PDUs than this on the control slot, requests are ignored */
    LIST_ROOM = 32,      /* calls, asks and lines */
    MOST_RADIOS = 4096,
    MOST_RANGES = 16,
    MOST_GROUPS = 64,
    HASH_PLACES = 16384,
    NOISE_POLLS = 32, /* the window of the backoff */
    MOST_NOISES = 15, /* of one poll */
    LATE_EVERY = 4    /* fills of the control slot */
};

/* Octet 0 of the PDUs. */
enum {
    C_ALOHA = 0x99,
    C_AHOY = 0x9C,
    C_RAND = 0x9F,
    C_ACKD = 0xA0,
    C_ACKU = 0xA1,
    P_CLEAR = 0xAE,
    PV_GRANT = 0xB0,
    TV_GRANT = 0xB1,
    C_MOVE = 0xB9
};

/* The kinds of a request. */
enum { INDIVIDUAL_VOICE = 0, TALKGROUP_VOICE = 1, REGISTRATION = 14, CANCEL = 15 };

typedef struct {
    uint32_t first, last;
} Range;

/* The values of a site file. Times are in ticks. */
typedef struct {
    int system, regi, tsi;
    int leave_bit; /* -1: radios do not leave */
    int aloha_sync, aloha_version, aloha_offset, aloha_active, nrand_wait; /* of C_ALOHA */
    int hang, maximum, ahoy_wait, ahoy_tries, grant_copies, clear_copies, backoff_low, backoff_high;
    int link_version;
    int control;     /* the carrier of the control channel */
    uint16_t listed; /* the carriers of the site, as bits */
    uint16_t lpcn[CARRIERS];
    Range radios[MOST_RANGES];
    int radio_ranges;
    uint32_t groups[MOST_GROUPS];
    int group_count;
} Plan;

typedef struct {
    uint32_t source, target;
    bool group;
    uint8_t slot;
    uint32_t began, active; /* ticks */
} Call;

/* An individual request whose called radio has been asked. */
typedef struct {
    uint32_t source, target;
    uint8_t options, attempt;
    uint32_t asked; /* tick */
} Ask;

/* A request that waits for a slot. */
typedef struct {
    uint32_t source, target;
    bool group;
} Line;

typedef struct {
    uint8_t pdu[QUEUE_ROOM][10];
    uint8_t head, count;
} Queue;

typedef enum { CLOSED, AWAITS_HELLO, RUNNING } LinkState;

/* A carrier's connection: the part of a frame that has come, the version, and the numbers of version 2. */
typedef struct {
    uint8_t frame[30];
    int received, version;
    LinkState state;
    int last_number; /* of the RX before; -1: none */
    uint8_t next_number;
} Link;

enum { LINE_OCTETS = 80 };

/* The part of an operator's line that has come. */
typedef struct {
    char line[LINE_OCTETS + 1];
    int received; /* LINE_OCTETS + 1: more than a line may have */
} Console;

typedef struct {
    Plan plan;
    uint32_t now;           /* ticks */
    uint16_t up;            /* carriers, as bits */
    uint32_t held, waiting; /* slots with a call, and with PDUs that wait, as bits */
    uint8_t grants[SLOTS];  /* grants of each slot that wait on the control slot */
    uint32_t granted;       /* slots with such grants, as bits */
    Call calls[LIST_ROOM];
    int call_count;
    Ask asks[LIST_ROOM];
    int ask_count;
    Line lines[LIST_ROOM];
    int line_count;
    Queue queues[SLOTS];
    uint8_t noises[NOISE_POLLS];
    int noise_place, noise_sum;
    int fills;     /* of the control slot, modulo LATE_EVERY */
    int late_slot; /* of the last late entry; -1: none */
    int moved_to;  /* the channel to which the control channel is to be moved; 0: none */
    uint32_t hash[HASH_PLACES];
    int radio_count;
    Link links[CARRIERS];
    Console console;
} Site;

/* A site on which nothing has happened, or a null pointer. */
static inline Site *new_site(const Plan *plan) {
    Site *site = calloc(1, sizeof *site);
    if (!site) return site;
    site->plan = *plan;
    site->late_slot = -1;
    return site;
}

#endif
