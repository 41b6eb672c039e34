/*
 * What radios and operators of a soak send: PDUs and lines, drawn so that radios meet one another.
 */
#ifndef RADIOS_H
#define RADIOS_H

#include "draws.h"
#include "scenes.h"
#include "site_console.h"

/* What a site is busy with for a while. */
typedef enum {
    EVERYDAY,
    CROWD,    /* many radios request calls, and the clock hardly ticks */
    ASKING,   /* many radios call each other, and none answers */
    UNPOLLED, /* carriers poll rarely, so that room runs out */
    PASSING,  /* the clock ticks often: calls hang, and asks are not answered */
    LASTING,  /* the clock ticks often, and calls are kept active until they reach the longest time of a call */
    JOINING,  /* many radios register */
    STORMY,   /* much noise on the control slot, and few polls */
    MODES
} Mode;

typedef struct {
    uint32_t source, target;
    bool group;
} Parties;

static inline bool is_engaged(const Site *s, uint32_t radio) {
    int at;
    return engagement_of(s, radio, &at) != FREE;
}

/* A radio: mostly one of those that send often, now and then one that the site does not know. */
static inline uint32_t any_radio(const Scene *scene, Mode mode) {
    const Plan *plan = &scene->plan;
    if (chance(40)) return plan->radios[plan->radio_ranges - 1].last + 1 + below(4);
    if (mode == JOINING) return plan->radios[0].first + below(MOST_RADIOS + MOST_RADIOS / 2);
    return plan->radios[0].first + below(mode == CROWD || mode == ASKING ? 4 * scene->few : scene->few);
}

/* A radio at rest that is registered, or is not; or any. */
static inline uint32_t radio_at_rest(const Site *s, const Scene *scene, Mode mode, bool registered) {
    for (int tries = 0; tries < 4; tries++) {
        uint32_t radio = any_radio(scene, mode);
        if (is_registered(s, radio) == registered && !is_engaged(s, radio)) return radio;
    }
    return any_radio(scene, mode);
}

static inline Parties any_parties(const Scene *scene, Mode mode) {
    uint32_t source = any_radio(scene, mode), target = any_radio(scene, mode);
    return (Parties){source, target, false};
}

static inline Parties any_call(const Site *s, const Scene *scene, Mode mode) {
    const Call *call = &s->calls[below(s->call_count)];
    if (!s->call_count) return any_parties(scene, mode);
    return (Parties){call->source, call->target, call->group};
}

static inline Parties any_ask(const Site *s, const Scene *scene, Mode mode) {
    const Ask *ask = &s->asks[below(s->ask_count)];
    if (!s->ask_count) return any_parties(scene, mode);
    return (Parties){ask->source, ask->target, false};
}

static inline Parties any_line(const Site *s, const Scene *scene, Mode mode) {
    const Line *line = &s->lines[below(s->line_count)];
    if (!s->line_count) return any_parties(scene, mode);
    return (Parties){line->source, line->target, line->group};
}

/* The parties of a call, an ask or a line. */
static inline Parties any_engaged(const Site *s, const Scene *scene, Mode mode) {
    switch (below(3)) {
    case 0: return any_call(s, scene, mode);
    case 1: return any_ask(s, scene, mode);
    default: return any_line(s, scene, mode);
    }
}

/* ---- PDUs */

static inline void write_pdu(uint8_t pdu[10], int first, int half, uint32_t upper, uint32_t lower) {
    pdu[0] = first;
    pdu[1] = 0;
    pdu[2] = half >> 8;
    pdu[3] = half;
    write_24(pdu + 4, upper);
    write_24(pdu + 7, lower);
}

/* A request of a kind, with random options. */
static inline void write_request(uint8_t pdu[10], int kind, uint32_t source, uint32_t target) {
    write_pdu(pdu, C_RAND, below(128) << 9 | kind, target, source);
}

static inline void write_registration(uint8_t pdu[10], const Plan *plan, uint32_t radio, bool stays) {
    int bit = 2 << plan->leave_bit;
    write_request(pdu, REGISTRATION, radio, plan->regi);
    pdu[2] = stays ? pdu[2] | bit : pdu[2] & ~bit;
}

/* A request for a call: of a radio at rest, of any radio, or of one that has a call, an ask or a line already. */
static inline void write_call_request(uint8_t pdu[10], const Site *s, const Scene *scene, Mode mode, bool group) {
    uint32_t source = radio_at_rest(s, scene, mode, true), target = radio_at_rest(s, scene, mode, true);
    Parties parties = {source, group ? scene->plan.groups[0] + below(scene->plan.group_count + 1) : target, group};
    switch (below(24)) {
    case 0:
    case 1:
    case 2: parties.source = any_radio(scene, mode); break;
    case 3:
    case 4: parties.target = any_radio(scene, mode); break;
    case 5: parties.target = parties.source; break;
    case 6:
    case 7:
    case 8:
    case 9: parties = any_engaged(s, scene, mode); break;
    case 10: parties.source = any_engaged(s, scene, mode).source; break;
    default: break;
    }
    write_request(pdu, parties.group ? TALKGROUP_VOICE : INDIVIDUAL_VOICE, parties.source, parties.target);
}

/* The answer of a radio, mostly one that was asked, and mostly that it accepts. */
static inline void write_answer(uint8_t pdu[10], const Site *s, const Scene *scene, Mode mode) {
    Parties ask = any_ask(s, scene, mode);
    int reason = chance(4) ? (int)below(256) : MS_ACCEPTED, info = below(128), spare = below(2);
    write_pdu(pdu, C_ACKU, info << 9 | reason << 1 | spare, ask.source, ask.target);
}

/* A PDU that is nearly a request: of another kind, with a flag, with a feature set, with another first octet. */
static inline void write_odd(uint8_t pdu[10], const Scene *scene, Mode mode) {
    Parties parties = any_parties(scene, mode);
    write_request(pdu, below(16), parties.source, parties.target);
    switch (below(4)) {
    case 0: pdu[3] |= 0x10 << below(4); break;
    case 1: pdu[2] |= 1; break;
    case 2: pdu[1] = 1; break;
    default: pdu[0] = below(256);
    }
}

/* ---- lines of operators */

/* Lines that are not commands, each for another reason. */
static const char *const NONSENSE[] = {"", "   ", "Status", "status 1", "status\t", "radios", "radios 16777216", "radios 000000001", "radios -1",
                                       "calls 16", "lines 0", "lines 33", "drop 0", "end 1", "end 0 2", "end 16 0", "move 4095", "move 0",
                                       "stay 1 2 3", "help", "status\r", "radios +1", "st\xC3\xA4y", "end 0 0 0"};

/* A slot of a call, or any slot. */
static inline int any_slot(const Site *s) {
    if (s->call_count && !chance(4)) return s->calls[below(s->call_count)].slot;
    return below(SLOTS);
}

static inline uint32_t any_registered(const Site *s) {
    uint32_t radio = next_radio(s, below(1 << 13));
    return radio ? radio : 1;
}

/* A number of a command that fits the state of the site. */
static inline uint32_t any_number(NumberKind kind, int slot, const Site *s, const Scene *scene, Mode mode) {
    switch (kind) {
    case FROM_RADIO: return below(chance(3) ? 1 << 24 : 8100);
    case OF_RADIO: return chance(2) ? any_registered(s) : chance(4) ? any_radio(scene, mode) : any_engaged(s, scene, mode).source;
    case OF_CARRIER: return chance(3) ? (int)below(CARRIERS) : slot / 2;
    case OF_SIDE: return slot & 1;
    case OF_LINE: return 1 + (chance(2) ? below(LIST_ROOM) : below(s->line_count));
    default: return 1 + below(4094);
    }
}

/* Writes a command. How many octets it has. */
static inline int write_command(char *line, const Site *s, const Scene *scene, Mode mode) {
    const Command *it = &COMMANDS[below(COMMAND_COUNT)];
    int slot = any_slot(s), count = sprintf(line, "%*s%s", chance(4) ? 2 : 0, "", it->name);
    for (int i = 0; i < it->count; i++)
        count += sprintf(line + count, chance(4) ? "  %08u" : " %u", (unsigned)any_number(it->numbers[i], slot, s, scene, mode));
    return count;
}

#endif
