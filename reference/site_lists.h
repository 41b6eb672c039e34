/*
 * What a site keeps, in plain C, and what changes it: registered radios, PDUs that wait, calls, asks and lines. site_machine.h has
 * the rules that use it.
 *
 * Functions trust their arguments: slots are below SLOTS, lists and queues have room. The limits of requests and of copies
 * ensure this, as in the proved machine; here only tests show it.
 */
#ifndef SITE_LISTS_H
#define SITE_LISTS_H

#include "site.h"

static inline uint32_t read_24(const uint8_t *octets) { return octets[0] << 16 | octets[1] << 8 | octets[2]; }
static inline void write_24(uint8_t *octets, uint32_t value) {
    octets[0] = value >> 16;
    octets[1] = value >> 8;
    octets[2] = value;
}

/* ---- the registry: a hash table with linear probing */

static inline uint32_t hash_place(uint32_t radio) { return radio * 2654435761u >> 18; }
static inline uint32_t next_place(uint32_t place) { return (place + 1) & (HASH_PLACES - 1); }

static inline bool is_registered(const Site *s, uint32_t radio) {
    for (uint32_t i = hash_place(radio); s->hash[i]; i = next_place(i))
        if (s->hash[i] == radio) return true;
    return false;
}

static inline void register_radio(Site *s, uint32_t radio) {
    uint32_t i = hash_place(radio);
    while (s->hash[i]) i = next_place(i);
    s->hash[i] = radio;
    s->radio_count++;
}

/* Moves back each radio after the gap that its own probing would no longer find. */
static inline void unregister_radio(Site *s, uint32_t radio) {
    uint32_t gap = hash_place(radio);
    while (s->hash[gap] != radio) {
        if (!s->hash[gap]) return;
        gap = next_place(gap);
    }
    s->radio_count--;
    for (uint32_t i = next_place(gap); s->hash[i]; i = next_place(i)) {
        uint32_t home = hash_place(s->hash[i]);
        bool is_after_gap = gap <= i ? gap < home && home <= i : gap < home || home <= i;
        if (is_after_gap) continue;
        s->hash[gap] = s->hash[i];
        gap = i;
    }
    s->hash[gap] = 0;
}

static inline bool may_register(const Plan *plan, uint32_t radio) {
    for (int i = 0; i < plan->radio_ranges; i++)
        if (plan->radios[i].first <= radio && radio <= plan->radios[i].last) return true;
    return false;
}

static inline bool is_group(const Plan *plan, uint32_t address) {
    bool found = false;
    for (int i = 0; i < plan->group_count; i++) found |= plan->groups[i] == address;
    return found;
}

/* ---- PDUs that wait */

static inline int control_slot(const Site *s) { return 2 * s->plan.control; }

/* The slot that a grant names, or -1 for another PDU. */
static inline int slot_of_grant(const Site *s, const uint8_t *pdu) {
    if (pdu[0] != PV_GRANT && pdu[0] != TV_GRANT) return -1;
    int lpcn = pdu[2] << 4 | pdu[3] >> 4;
    for (int carrier = 0; carrier < CARRIERS; carrier++)
        if (s->plan.listed >> carrier & 1 && s->plan.lpcn[carrier] == lpcn) return 2 * carrier + (pdu[3] >> 3 & 1);
    return -1;
}

static inline void queue_pdu(Site *s, int slot, const uint8_t *pdu) {
    Queue *queue = &s->queues[slot];
    memcpy(queue->pdu[(queue->head + queue->count++) & (QUEUE_ROOM - 1)], pdu, 10);
    s->waiting |= 1u << slot;
    if (slot != control_slot(s)) return;
    int granted = slot_of_grant(s, pdu);
    if (granted < 0) return;
    s->grants[granted]++;
    s->granted |= 1u << granted;
}

/* Takes the oldest PDU of a slot that has one. */
static inline const uint8_t *take_pdu(Site *s, int slot) {
    Queue *queue = &s->queues[slot];
    const uint8_t *pdu = queue->pdu[queue->head];
    int granted = slot == control_slot(s) ? slot_of_grant(s, pdu) : -1;
    if (granted >= 0 && !--s->grants[granted]) s->granted &= ~(1u << granted);
    queue->head = (queue->head + 1) & (QUEUE_ROOM - 1);
    if (!--queue->count) s->waiting &= ~(1u << slot);
    return pdu;
}

static inline void acknowledge(Site *s, int reason, uint32_t source, uint32_t target) {
    uint8_t pdu[10] = {C_ACKD, 0, reason >> 7, reason << 1};
    write_24(pdu + 4, source);
    write_24(pdu + 7, target);
    queue_pdu(s, control_slot(s), pdu);
}

static inline void ask_radio(Site *s, const Ask *ask) {
    uint8_t pdu[10] = {C_AHOY, 0, ask->options << 1, 0};
    write_24(pdu + 4, ask->target);
    write_24(pdu + 7, ask->source);
    queue_pdu(s, control_slot(s), pdu);
}

static inline void write_grant(const Site *s, const Call *call, bool late, uint8_t pdu[10]) {
    int lpcn = s->plan.lpcn[call->slot / 2];
    pdu[0] = call->group ? TV_GRANT : PV_GRANT;
    pdu[1] = 0;
    pdu[2] = lpcn >> 4;
    pdu[3] = lpcn << 4 | (call->slot & 1) << 3 | (call->group ? late << 2 : 0);
    write_24(pdu + 4, call->target);
    write_24(pdu + 7, call->source);
}

static inline void queue_grants(Site *s, const Call *call, bool late) {
    uint8_t pdu[10];
    write_grant(s, call, late, pdu);
    for (int i = 0; i < s->plan.grant_copies; i++) queue_pdu(s, control_slot(s), pdu);
}

/* ---- calls, asks and lines */

/* The lowest slot of a carrier that is up on which no call, no PDU and no grant waits, or -1. */
static inline int free_slot(const Site *s) {
    uint32_t slots = 0;
    for (uint32_t up = s->up & s->plan.listed; up; up &= up - 1) slots |= 3u << 2 * __builtin_ctz(up);
    slots &= ~(s->held | s->waiting | s->granted | 1u << control_slot(s));
    return slots ? __builtin_ctz(slots) : -1;
}

static inline void begin_call(Site *s, int slot, uint32_t source, uint32_t target, bool group) {
    Call *call = &s->calls[s->call_count++];
    *call = (Call){source, target, group, slot, s->now, s->now};
    s->held |= 1u << slot;
    queue_grants(s, call, false);
}

static inline void drop_call(Site *s, int at) {
    s->held &= ~(1u << s->calls[at].slot);
    memmove(&s->calls[at], &s->calls[at + 1], (--s->call_count - at) * sizeof(Call));
}

static inline void drop_ask(Site *s, int at) {
    memmove(&s->asks[at], &s->asks[at + 1], (--s->ask_count - at) * sizeof(Ask));
}

static inline void drop_line(Site *s, int at) {
    memmove(&s->lines[at], &s->lines[at + 1], (--s->line_count - at) * sizeof(Line));
}

static inline void end_call(Site *s, int at) {
    Call call = s->calls[at];
    int lpcn = s->plan.lpcn[s->plan.control];
    uint8_t pdu[10] = {P_CLEAR, 0, lpcn >> 4, lpcn << 4 | call.group};
    write_24(pdu + 4, call.target);
    write_24(pdu + 7, s->plan.tsi);
    drop_call(s, at);
    for (int i = 0; i < s->plan.clear_copies; i++) queue_pdu(s, call.slot, pdu);
}

typedef enum { FREE, IN_CALL, IN_ASK, IN_LINE } Engagement;

/* The kind of thing that engages a radio, and its place in the list of that kind. */
static inline Engagement engagement_of(const Site *s, uint32_t radio, int *at) {
    for (int i = 0; i < s->call_count; i++)
        if (s->calls[i].source == radio || (!s->calls[i].group && s->calls[i].target == radio)) return *at = i, IN_CALL;
    for (int i = 0; i < s->ask_count; i++)
        if (s->asks[i].source == radio || s->asks[i].target == radio) return *at = i, IN_ASK;
    for (int i = 0; i < s->line_count; i++)
        if (s->lines[i].source == radio || (!s->lines[i].group && s->lines[i].target == radio)) return *at = i, IN_LINE;
    return FREE;
}

#endif
