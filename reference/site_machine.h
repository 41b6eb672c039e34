/*
 * The rules of a site (docs/SITE_MACHINE.md) in plain C: what each event changes, and which PDUs it queues. Not
 * here: octets of the link, which site_link.h reads and writes, and lines of operators (site_console.h).
 */
#ifndef SITE_MACHINE_H
#define SITE_MACHINE_H

/* ---- the rows of the document's tables, in its words, with which python/tests/test_reference.py compares them */

/* "A request (C_RAND), the first row that applies" */
#define REQUEST_ROWS(ROW) \
    ROW(REQUEST_UNKNOWN, "flags not 0, or a kind other than registration (14), talkgroup voice (1), individual voice (0), cancel (15)") \
    ROW(REQUEST_LEAVES, "registration, leaving (the plan names an option bit, and it is 0)") \
    ROW(REQUEST_DENIED, "registration, the source is in no range of radios") \
    ROW(REQUEST_AGAIN, "registration, the source is registered") \
    ROW(REQUEST_TOO_MANY, "registration, 4,096 radios are registered") \
    ROW(REQUEST_JOINS, "registration") \
    ROW(REQUEST_STRANGER, "the source is not registered") \
    ROW(REQUEST_CANCELS_ASK, "cancel, the source has an ask") \
    ROW(REQUEST_CANCELS_LINE, "cancel, the source has a line") \
    ROW(REQUEST_CANCELS_NOTHING, "cancel") \
    ROW(REQUEST_TALKGROUP, "talkgroup voice") \
    ROW(REQUEST_INDIVIDUAL, "individual voice")

/* "Close(r)" */
#define CLOSE_ROWS(ROW) \
    ROW(CLOSE_CALL, "the source of a call, or the target of an individual one") \
    ROW(CLOSE_OWN_ASK, "the source of an ask") \
    ROW(CLOSE_ASK, "the target of an ask") \
    ROW(CLOSE_OWN_LINE, "the source of a line") \
    ROW(CLOSE_LINE, "the target of an individual line")

/* "A talkgroup request, the first row that applies" */
#define TALKGROUP_ROWS(ROW) \
    ROW(TALKGROUP_UNLISTED, "the talkgroup is not listed") \
    ROW(TALKGROUP_CALLED, "the source has a call to it") \
    ROW(TALKGROUP_LINED, "the source has a line to it") \
    ROW(TALKGROUP_ENGAGED, "the source is engaged otherwise") \
    ROW(TALKGROUP_LATE, "there is a call to the talkgroup") \
    ROW(TALKGROUP_WAITS, "there is a line to the talkgroup") \
    ROW(TALKGROUP_BEGINS, "there is no line, and a slot is free") \
    ROW(TALKGROUP_LINES, "there are fewer than 32 lines") \
    ROW(TALKGROUP_BUSY, "else")

/* "An individual request, the first row that applies" */
#define INDIVIDUAL_ROWS(ROW) \
    ROW(INDIVIDUAL_NEVER, "the target is the source, or is in no range of radios") \
    ROW(INDIVIDUAL_CALLED, "the source has an individual call to it") \
    ROW(INDIVIDUAL_ASKED, "the source has an ask to it") \
    ROW(INDIVIDUAL_LINED, "the source has an individual line to it") \
    ROW(INDIVIDUAL_ENGAGED, "the source is engaged otherwise") \
    ROW(INDIVIDUAL_AWAY, "the target is not registered") \
    ROW(INDIVIDUAL_TAKEN, "the target is engaged") \
    ROW(INDIVIDUAL_ASKS, "there are fewer than 32 asks") \
    ROW(INDIVIDUAL_BUSY, "else")

/* "The called radio's answer (C_ACKU whose additional address is the target of an ask)" */
#define ANSWER_ROWS(ROW) \
    ROW(ANSWER_BEGINS, "the reason is MS_Accepted, there is no line, and a slot is free") \
    ROW(ANSWER_LINES, "the reason is MS_Accepted, and there are fewer than 32 lines") \
    ROW(ANSWER_BUSY, "the reason is MS_Accepted") \
    ROW(ANSWER_REFUSED, "another reason")

#include "rows.h"
#include "site_lists.h"

/* The reasons of an acknowledgement. */
enum {
    NOT_SUPPORTED = 0x20,
    PERM_USER_REFUSED = 0x21,
    TRANSIENT_SYS_REFUSED = 0x23,
    NOREG_MS_AWAY = 0x24,
    SYSBUSY_REFUSED = 0x27,
    CALL_CANCEL_REFUSED = 0x29,
    REG_REFUSED = 0x2A,
    REG_DENIED = 0x2B,
    MS_NOT_REGISTERED = 0x2D,
    CALLED_PARTY_BUSY = 0x2E,
    GROUP_NOT_ALLOWED = 0x2F,
    MS_ACCEPTED = 0x44,
    MESSAGE_ACCEPTED = 0x60,
    REG_ACCEPTED = 0x62,
    QUEUED_FOR_RESOURCE = 0xA0,
    WAIT = 0xE0
};

/* ---- what is received on the control slot */

/* Starts the call if a slot is free and nobody queues; else queues it; if the queue is full, refuses it. */
static inline void request_call(Site *s, uint32_t source, uint32_t target, bool group) {
    int slot = s->line_count ? -1 : free_slot(s);
    if (slot >= 0) {
        REACHED(group ? TALKGROUP_BEGINS : ANSWER_BEGINS);
        begin_call(s, slot, source, target, group);
    } else if (s->line_count < LIST_ROOM) {
        REACHED(group ? TALKGROUP_LINES : ANSWER_LINES);
        s->lines[s->line_count++] = (Line){source, target, group};
        acknowledge(s, QUEUED_FOR_RESOURCE, source, target);
    } else {
        REACHED(group ? TALKGROUP_BUSY : ANSWER_BUSY);
        acknowledge(s, SYSBUSY_REFUSED, source, target);
    }
}


static inline void receive_answer(Site *s, int reason, uint32_t called) {
    for (int i = 0; i < s->ask_count; i++)
        if (s->asks[i].target == called) {
            Ask ask = s->asks[i];
            drop_ask(s, i);
            if (reason == MS_ACCEPTED) {
                request_call(s, ask.source, ask.target, false);
            } else {
                REACHED(ANSWER_REFUSED);
                acknowledge(s, CALLED_PARTY_BUSY, ask.source, ask.target);
            }
            return;
        }
    REACHED(HEARD_NO_ASK);
}

/* Close(radio): ends what a radio has that leaves. */
static inline void close_radio(Site *s, uint32_t radio) {
    int at = 0;
    switch (engagement_of(s, radio, &at)) {
    case IN_CALL:
        REACHED(CLOSE_CALL);
        end_call(s, at);
        break;
    case IN_ASK: {
        Ask ask = s->asks[at];
        REACHED(ask.source == radio ? CLOSE_OWN_ASK : CLOSE_ASK);
        drop_ask(s, at);
        if (ask.source != radio) acknowledge(s, NOREG_MS_AWAY, ask.source, ask.target);
        break;
    }
    case IN_LINE: {
        Line line = s->lines[at];
        REACHED(line.source == radio ? CLOSE_OWN_LINE : CLOSE_LINE);
        drop_line(s, at);
        if (line.source != radio) acknowledge(s, NOREG_MS_AWAY, line.source, line.target);
        break;
    }
    case FREE: break;
    }
}

static inline void receive_leave(Site *s, uint32_t source, uint32_t target) {
    REACHED(REQUEST_LEAVES);
    close_radio(s, source);
    unregister_radio(s, source);
    acknowledge(s, MESSAGE_ACCEPTED, source, target);
}

static inline void receive_registration(Site *s, int options, uint32_t source, uint32_t target) {
    int reason = REG_ACCEPTED;
    if (s->plan.leave_bit >= 0 && !(options >> s->plan.leave_bit & 1)) {
        receive_leave(s, source, target);
        return;
    }
    if (!may_register(&s->plan, source)) {
        REACHED(REQUEST_DENIED);
        reason = REG_DENIED;
    } else if (is_registered(s, source)) {
        REACHED(REQUEST_AGAIN);
    } else if (s->radio_count < MOST_RADIOS) {
        REACHED(REQUEST_JOINS);
        register_radio(s, source);
    } else {
        REACHED(REQUEST_TOO_MANY);
        reason = REG_REFUSED;
    }
    acknowledge(s, reason, source, target);
}

static inline void receive_cancel(Site *s, uint32_t source, uint32_t target) {
    int at = 0, reason = MESSAGE_ACCEPTED;
    Engagement engagement = engagement_of(s, source, &at);
    if (engagement == IN_ASK && s->asks[at].source == source) {
        REACHED(REQUEST_CANCELS_ASK);
        drop_ask(s, at);
    } else if (engagement == IN_LINE && s->lines[at].source == source) {
        REACHED(REQUEST_CANCELS_LINE);
        drop_line(s, at);
    } else {
        REACHED(REQUEST_CANCELS_NOTHING);
        reason = CALL_CANCEL_REFUSED;
    }
    acknowledge(s, reason, source, target);
}

/* A talkgroup request of a radio that is engaged already: the answer of the same request, or a refusal. */
static inline void repeat_group_request(Site *s, Engagement engagement, int at, uint32_t source, uint32_t target) {
    int reason = TRANSIENT_SYS_REFUSED;
    if (engagement == IN_CALL && s->calls[at].group && s->calls[at].target == target) {
        REACHED(TALKGROUP_CALLED);
        queue_grants(s, &s->calls[at], false);
        return;
    }
    if (engagement == IN_LINE && s->lines[at].group && s->lines[at].target == target) reason = QUEUED_FOR_RESOURCE;
    REACHED(reason == QUEUED_FOR_RESOURCE ? TALKGROUP_LINED : TALKGROUP_ENGAGED);
    acknowledge(s, reason, source, target);
}

static inline void receive_group_request(Site *s, uint32_t source, uint32_t target) {
    int at = 0;
    Engagement engagement;
    if (!is_group(&s->plan, target)) {
        REACHED(TALKGROUP_UNLISTED);
        acknowledge(s, GROUP_NOT_ALLOWED, source, target);
        return;
    }
    engagement = engagement_of(s, source, &at);
    if (engagement != FREE) {
        repeat_group_request(s, engagement, at, source, target);
        return;
    }
    for (int i = 0; i < s->call_count; i++)
        if (s->calls[i].group && s->calls[i].target == target) {
            REACHED(TALKGROUP_LATE);
            queue_grants(s, &s->calls[i], true);
            return;
        }
    for (int i = 0; i < s->line_count; i++)
        if (s->lines[i].group && s->lines[i].target == target) {
            REACHED(TALKGROUP_WAITS);
            acknowledge(s, QUEUED_FOR_RESOURCE, source, target);
            return;
        }
    request_call(s, source, target, true);
}

/* An individual request of a radio that is engaged already: the answer of the same request, or a refusal. */
static inline void repeat_individual(Site *s, Engagement engagement, int at, uint32_t source, uint32_t target) {
    const Call *call = &s->calls[at];
    const Ask *ask = &s->asks[at];
    const Line *line = &s->lines[at];
    int reason = TRANSIENT_SYS_REFUSED;
    if (engagement == IN_CALL && call->source == source && call->target == target && !call->group) {
        REACHED(INDIVIDUAL_CALLED);
        queue_grants(s, call, false);
        return;
    }
    if (engagement == IN_ASK && ask->source == source && ask->target == target) reason = WAIT;
    if (engagement == IN_LINE && line->source == source && line->target == target && !line->group)
        reason = QUEUED_FOR_RESOURCE;
    REACHED(reason == WAIT ? INDIVIDUAL_ASKED : reason == QUEUED_FOR_RESOURCE ? INDIVIDUAL_LINED : INDIVIDUAL_ENGAGED);
    acknowledge(s, reason, source, target);
}

static inline void receive_individual(Site *s, int options, uint32_t source, uint32_t target) {
    int at = 0, reason = 0;
    Engagement engagement = engagement_of(s, source, &at);
    if (target == source || !may_register(&s->plan, target)) {
        REACHED(INDIVIDUAL_NEVER);
        reason = PERM_USER_REFUSED;
    } else if (engagement != FREE) {
        repeat_individual(s, engagement, at, source, target);
        return;
    } else if (!is_registered(s, target)) {
        REACHED(INDIVIDUAL_AWAY);
        reason = NOREG_MS_AWAY;
    } else if (engagement_of(s, target, &at) != FREE) {
        REACHED(INDIVIDUAL_TAKEN);
        reason = CALLED_PARTY_BUSY;
    } else if (s->ask_count >= LIST_ROOM) {
        REACHED(INDIVIDUAL_BUSY);
        reason = SYSBUSY_REFUSED;
    }
    acknowledge(s, reason ? reason : WAIT, source, target);
    if (reason) return;
    REACHED(INDIVIDUAL_ASKS);
    Ask *ask = &s->asks[s->ask_count++];
    *ask = (Ask){source, target, options, 1, s->now};
    ask_radio(s, ask);
}

static inline void receive_request(Site *s, const uint8_t *pdu) {
    uint32_t target = read_24(pdu + 4), source = read_24(pdu + 7);
    int options = pdu[2] >> 1, kind = pdu[3] & 15, flags = (pdu[2] & 1) << 4 | pdu[3] >> 4;
    bool is_known = kind == REGISTRATION || kind == CANCEL || kind == TALKGROUP_VOICE || kind == INDIVIDUAL_VOICE;
    if (flags || !is_known) {
        REACHED(REQUEST_UNKNOWN);
        acknowledge(s, NOT_SUPPORTED, source, target);
    } else if (kind == REGISTRATION) {
        receive_registration(s, options, source, target);
    } else if (!is_registered(s, source)) {
        REACHED(REQUEST_STRANGER);
        acknowledge(s, MS_NOT_REGISTERED, source, target);
    } else if (kind == CANCEL) {
        receive_cancel(s, source, target);
    } else if (kind == TALKGROUP_VOICE) {
        REACHED(REQUEST_TALKGROUP);
        receive_group_request(s, source, target);
    } else {
        REACHED(REQUEST_INDIVIDUAL);
        receive_individual(s, options, source, target);
    }
}

/* ---- events */

static inline bool is_up(const Site *s, int carrier) { return s->up >> carrier & 1; }
static inline bool has_room(const Site *s) { return s->queues[control_slot(s)].count <= REQUEST_LIMIT; }

static inline void receive_pdu(Site *s, int slot, const uint8_t *pdu) {
    if (slot != control_slot(s) || !is_up(s, slot / 2)) {
        REACHED(HEARD_ELSEWHERE);
    } else if (!has_room(s)) {
        REACHED(HEARD_NO_ROOM);
    } else if (pdu[1] || (pdu[0] != C_ACKU && pdu[0] != C_RAND)) {
        REACHED(HEARD_NOTHING);
    } else if (pdu[0] == C_ACKU) {
        receive_answer(s, (pdu[2] << 8 | pdu[3]) >> 1 & 255, read_24(pdu + 7));
    } else {
        receive_request(s, pdu);
    }
}

static inline void receive_noise(Site *s, int slot) {
    if (slot != control_slot(s) || !is_up(s, s->plan.control)) return;
    if (s->noises[s->noise_place] >= MOST_NOISES) {
        REACHED(NOISE_FULL);
        return;
    }
    REACHED(NOISE_COUNTS);
    s->noises[s->noise_place]++;
    s->noise_sum++;
}

static inline void note_activity(Site *s, int slot) {
    REACHED(s->held >> slot & 1 ? ACTIVE_MARKS : ACTIVE_NOTHING);
    if (!(s->held >> slot & 1)) return;
    for (int i = 0; i < s->call_count; i++)
        if (s->calls[i].slot == slot) {
            s->calls[i].active = s->now;
            return;
        }
}

/* The ticks since one. */
static inline int age(const Site *s, uint32_t since) { return s->now - since; }

/* Ends one call that is over, asks one radio again, and starts one queued call. */
static inline void tick(Site *s) {
    bool room = has_room(s);
    int slot = s->line_count ? free_slot(s) : -1;
    s->now++;
    for (int i = 0; i < s->call_count; i++) {
        const Call *call = &s->calls[i];
        bool is_quiet = age(s, call->active) >= s->plan.hang;
        if (!is_quiet && age(s, call->began) < s->plan.maximum) continue;
        REACHED(is_quiet ? TICK_QUIET : TICK_LONG);
        end_call(s, i);
        break;
    }
    if (room && s->ask_count && age(s, s->asks[0].asked) >= s->plan.ahoy_wait) {
        Ask ask = s->asks[0];
        drop_ask(s, 0);
        REACHED(ask.attempt < s->plan.ahoy_tries ? TICK_ASKS_AGAIN : TICK_GIVES_UP);
        if (ask.attempt < s->plan.ahoy_tries) {
            ask.attempt++;
            ask.asked = s->now;
            s->asks[s->ask_count++] = ask;
            ask_radio(s, &ask);
        } else {
            acknowledge(s, NOREG_MS_AWAY, ask.source, ask.target);
        }
    }
    if (!room) REACHED(TICK_NO_ROOM);
    if (s->line_count && slot < 0) REACHED(TICK_NO_SLOT);
    if (s->line_count && room && slot >= 0) {
        REACHED(TICK_BEGINS);
        Line line = s->lines[0];
        drop_line(s, 0);
        begin_call(s, slot, line.source, line.target, line.group);
    }
}

/* Forgets the calls and the waiting PDUs of a carrier; of the control carrier also asks, lines, noises and fills. */
static inline void reset_carrier(Site *s, int carrier) {
    for (int i = s->call_count - 1; i >= 0; i--)
        if (s->calls[i].slot / 2 == carrier) {
            REACHED(LOST_CALL);
            drop_call(s, i);
        }
    for (int slot = 2 * carrier; slot < 2 * carrier + 2; slot++) {
        s->queues[slot].count = 0;
        s->waiting &= ~(1u << slot);
    }
    if (carrier != s->plan.control) return;
    REACHED(LOST_CONTROL);
    s->ask_count = s->line_count = 0;
    memset(s->noises, 0, sizeof s->noises);
    s->noise_sum = 0;
    s->fills = 0;
    s->late_slot = -1;
    memset(s->grants, 0, sizeof s->grants);
    s->granted = 0;
}

static inline void carrier_up(Site *s, int carrier) {
    reset_carrier(s, carrier);
    s->up |= 1 << carrier;
}

static inline void carrier_lost(Site *s, int carrier) {
    if (!is_up(s, carrier)) return;
    reset_carrier(s, carrier);
    s->up &= ~(1 << carrier);
}

/* ---- what fills an idle control slot */

/* The talkgroup call whose late entry is next in turn, if one is due: the next slot after the last, else the lowest. None is
 * due while the control channel is to be moved. */
static inline const Call *late_entry(const Site *s) {
    const Call *next = 0, *lowest = 0;
    if (s->fills || s->moved_to) return 0;
    for (int i = 0; i < s->call_count; i++) {
        const Call *call = &s->calls[i];
        if (!call->group) continue;
        if (!lowest || call->slot < lowest->slot) lowest = call;
        if (s->late_slot >= 0 && call->slot > s->late_slot && (!next || call->slot < next->slot)) next = call;
    }
    return next ? next : lowest;
}

/* Adds to a PDU with register and backoff what makes it a C_MOVE. */
static inline void write_move(const Site *s, uint8_t pdu[10]) {
    REACHED(FILL_MOVE);
    pdu[0] = C_MOVE;
    pdu[5] = s->moved_to >> 8;
    pdu[6] = s->moved_to;
}

/* Adds to a PDU with register and backoff what makes it a C_ALOHA. */
static inline void write_aloha(const Plan *plan, uint8_t pdu[10]) {
    REACHED(FILL_ALOHA);
    pdu[0] = C_ALOHA;
    pdu[2] = plan->aloha_sync << 5 | plan->aloha_version << 2 | plan->aloha_offset << 1 | plan->aloha_active;
    pdu[3] = plan->nrand_wait >> 3;
    pdu[4] |= plan->nrand_wait << 5;
    pdu[5] = plan->system >> 8;
    pdu[6] = plan->system;
}

static inline void write_fill(Site *s, uint8_t pdu[10]) {
    const Call *call;
    int backoff = s->plan.backoff_low + s->noise_sum;
    s->fills = (s->fills + 1) % LATE_EVERY;
    call = late_entry(s);
    if (call) {
        REACHED(FILL_LATE_ENTRY);
        write_grant(s, call, true, pdu);
        s->late_slot = call->slot;
        return;
    }
    if (s->plan.backoff_low < backoff) REACHED(backoff < s->plan.backoff_high ? FILL_BACKOFF : FILL_MOST_BACKOFF);
    if (backoff > s->plan.backoff_high) backoff = s->plan.backoff_high;
    memset(pdu, 0, 10);
    pdu[4] = 1 << 4 | backoff; /* register, backoff */
    if (s->moved_to) write_move(s, pdu);
    else write_aloha(&s->plan, pdu);
}

/* Begins the next poll's part of the noise window. */
static inline void end_poll(Site *s, int carrier) {
    if (carrier != s->plan.control) return;
    s->noise_place = (s->noise_place + 1) % NOISE_POLLS;
    s->noise_sum -= s->noises[s->noise_place];
    s->noises[s->noise_place] = 0;
}

#endif
