/*
 * The link of a site in plain C (docs/LINK.md, "Frames"): octets of carriers to events, and answers to octets, in
 * both versions. A whole frame is read in place; a part of one is kept.
 *
 * It writes to a buffer of the caller, and checks no room: a poll writes 58 octets at most in version 1, 60 in version 2.
 */
#ifndef SITE_LINK_H
#define SITE_LINK_H

#include "site_machine.h"

enum { HELLO = 1, RX, POLL, ACTIVE, BYE, WELCOME = 0x81, TX, DONE, REFUSED };
enum { BAD_VERSION = 1, WRONG_CARRIER = 2 };
enum { BURST_OCTETS = 25, HELLO_BODY = 4 };

static inline uint8_t *write_burst(const uint8_t *pdu, uint8_t *out) {
    Word word;
    seal_by_nibbles(pdu, &word);
    for (int k = 0; k < 3; k++) {
        uint64_t part = __builtin_bswap64(word.part[k]);
        memcpy(out + 8 * k, &part, 8);
    }
    out[24] = word.part[3] >> 56;
    return out + BURST_OCTETS;
}

/* The PDU and its check, or nothing: the burst is noise. */
static inline bool read_burst(const uint8_t *burst, uint8_t octets[12]) {
    Word word;
    for (int k = 0; k < 3; k++) {
        uint64_t part;
        memcpy(&part, burst + 8 * k, 8);
        word.part[k] = __builtin_bswap64(part);
    }
    word.part[3] = (uint64_t)burst[24] << 56;
    return decode_incrementally(sums_by_nibbles(&word), octets) &&
           check_in_turn(octets) == (octets[10] << 8 | octets[11]);
}

static inline uint8_t *write_tx(Link *link, int slot, const uint8_t *pdu, uint8_t *out) {
    *out++ = TX;
    REACHED(link->version == 2 ? TX_2 : TX_1);
    if (link->version == 2) {
        if (link->next_number == 255) REACHED(TX_ROUND);
        *out++ = 27;
        *out++ = link->next_number++;
    } else {
        *out++ = 26;
    }
    *out++ = slot & 1;
    return write_burst(pdu, out);
}

static inline uint8_t *answer_poll(Site *s, int carrier, uint8_t *out) {
    Link *link = &s->links[carrier];
    REACHED(POLL_DONE);
    for (int slot = 2 * carrier; slot < 2 * carrier + 2; slot++) {
        uint8_t fill[10];
        if (s->queues[slot].count) {
            REACHED(POLL_SENDS);
            out = write_tx(link, slot, take_pdu(s, slot), out);
        } else if (slot == control_slot(s)) {
            write_fill(s, fill);
            out = write_tx(link, slot, fill, out);
        }
    }
    end_poll(s, carrier);
    *out++ = DONE;
    *out++ = 0;
    return out;
}

static inline void open_link(Site *s, int carrier) {
    Link *link = &s->links[carrier];
    REACHED(link->state == CLOSED ? OPENED : OPENED_AGAIN);
    if (link->state == RUNNING) carrier_lost(s, carrier);
    memset(link, 0, sizeof *link);
    link->state = AWAITS_HELLO;
    link->version = 1;
    link->last_number = -1;
}

static inline void cut_link(Site *s, int carrier) {
    if (s->links[carrier].state == RUNNING) carrier_lost(s, carrier);
    s->links[carrier].state = CLOSED;
}

/* The octets of the body of a frame, or -1 for an unknown type. */
static inline int body_length(int type, int version) {
    switch (type) {
    case HELLO: return HELLO_BODY;
    case RX: return BURST_OCTETS + version;
    case POLL:
    case BYE: return 0;
    case ACTIVE: return 1;
    default: return -1;
    }
}

static inline uint8_t *answer_hello(Site *s, int carrier, const uint8_t *frame, uint8_t *out) {
    Link *link = &s->links[carrier];
    int version = frame[2], refusal = 0;
    if (frame[0] != HELLO) {
        REACHED(frame[0] == BYE ? BYE_ENDS : FAULT_NO_HELLO);
        cut_link(s, carrier);
        return out;
    }
    if (version < 1 || version > s->plan.link_version) refusal = BAD_VERSION;
    else if (frame[3] != carrier || (frame[4] << 8 | frame[5]) != s->plan.lpcn[carrier]) refusal = WRONG_CARRIER;
    REACHED(refusal == BAD_VERSION ? HELLO_VERSION : refusal == WRONG_CARRIER ? HELLO_CARRIER : version == 2 ? HELLO_2 : HELLO_1);
    *out++ = refusal ? REFUSED : WELCOME;
    *out++ = 1;
    *out++ = refusal ? refusal : version;
    if (refusal) {
        cut_link(s, carrier);
        return out;
    }
    link->version = version;
    link->state = RUNNING;
    carrier_up(s, carrier);
    return out;
}

/* Whether the frame is good. */
static inline bool receive_burst(Site *s, int carrier, const uint8_t *frame) {
    Link *link = &s->links[carrier];
    bool is_numbered = link->version == 2;
    int slot = frame[2 + is_numbered];
    const uint8_t *burst = frame + 3 + is_numbered;
    uint8_t octets[12];
    if (slot > 1 || burst[24] & 15) {
        REACHED(slot > 1 ? FAULT_SLOT : FAULT_PAD);
        return false;
    }
    if (is_numbered) {
        if (link->last_number == frame[2]) {
            REACHED(RX_REPEAT);
            return true;
        }
        link->last_number = frame[2];
    }
    if (read_burst(burst, octets)) {
        REACHED(RX_PDU);
        receive_pdu(s, 2 * carrier + slot, octets);
    } else {
        REACHED(RX_NOISE);
        receive_noise(s, 2 * carrier + slot);
    }
    return true;
}

/* Takes a whole frame. The end of what answers it; a fault closes the link. */
static inline uint8_t *take_frame(Site *s, int carrier, const uint8_t *frame, uint8_t *out) {
    bool good = true;
    if (s->links[carrier].state == AWAITS_HELLO) return answer_hello(s, carrier, frame, out);
    switch (frame[0]) {
    case RX: good = receive_burst(s, carrier, frame); break;
    case POLL: out = answer_poll(s, carrier, out); break;
    case ACTIVE:
        good = frame[2] <= 1;
        REACHED(good ? ACTIVE_SLOT : FAULT_ACTIVE_SLOT);
        if (good) note_activity(s, 2 * carrier + frame[2]);
        break;
    default:
        REACHED(frame[0] == BYE ? BYE_ENDS : FAULT_SECOND_HELLO);
        good = false;
    }
    if (!good) cut_link(s, carrier);
    return out;
}

/* Whether some frame begins with what has come of this one. */
static inline bool is_frame_start(const Link *link) {
    const uint8_t *frame = link->frame;
    int length = body_length(frame[0], link->version), slot_end = 2 + link->version;
    if (length < 0) REACHED(FAULT_TYPE);
    else if (link->received == 2 && length != frame[1]) REACHED(FAULT_LENGTH);
    else if (frame[0] == RX && link->received == slot_end && frame[slot_end - 1] > 1) REACHED(FAULT_SLOT);
    else return true;
    return false;
}

/* Takes octets of a carrier's connection, in any cutting. The end of what answers them. */
static inline uint8_t *take_octets(Site *s, int carrier, const uint8_t *octets, int count, uint8_t *out) {
    Link *link = &s->links[carrier];
    while (count > 0 && link->state != CLOSED) {
        int length = link->received ? -1 : body_length(octets[0], link->version);
        if (length >= 0 && count >= 2 && octets[1] == length && count >= 2 + length) {
            out = take_frame(s, carrier, octets, out);
            octets += 2 + length;
            count -= 2 + length;
            continue;
        }
        link->frame[link->received++] = *octets++;
        count--;
        if (!is_frame_start(link)) {
            cut_link(s, carrier);
        } else if (link->received >= 2 && link->received == 2 + link->frame[1]) {
            REACHED(FRAME_IN_PIECES);
            link->received = 0;
            out = take_frame(s, carrier, link->frame, out);
        }
    }
    return out;
}

#endif
