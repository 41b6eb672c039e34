/*
 * The carrier's half of the link between a carrier, one channel of a base station, and the site controller: octets in, events out,
 * frames to write. A base station with several channels has a link for each. C99, no allocation, no input or output, no clock;
 * <stddef.h>, <stdint.h>, <string.h>. Sockets and timers are the caller's; station/example.c is a whole client of one carrier. The
 * link is this project's own profile. docs/LINK.md says more of it, and has a table of what to test; this file has all that a
 * client needs. It is tested against the controller. It is not proved.
 *
 * Ask the operator of the site for the controller's address and port, and for the greatest version of the link that the site serves
 * (1 or 2). Also for the number of the carrier (0 to 15), and its LPCN (the logical physical channel number, 1 to 4094).
 *
 *     struct dmr_link link;
 *     connect; set TCP_NODELAY; n = dmr_link_hello(&link, version, carrier, lpcn, out); write n octets
 *     every 60 ms, at the beginning of a TDMA frame:
 *         for each burst that was received     n = dmr_link_rx(&link, slot, word, out); write n octets
 *         for each slot that carried voice     n = dmr_link_active(slot, out); write n octets
 *         then, if link.up                     n = dmr_link_poll(&link, out); write n octets; 0: there is nothing to write
 *     whenever octets come, for each of them   event = dmr_link_octet(&link, octet)
 *
 * What comes may be cut and joined in any way: give it octet by octet. Read all the time, also while you write.
 *
 * - RX: a burst of the slot type CSBK, on either slot (0 and 1 are timeslots 1 and 2), and no other burst. The word is 196 bits,
 *   those before the sync and those after it, interleaved and with all parities, and four bits 0. dmr_air.h takes it from the
 *   burst. If you can read it (dmr_mend.h), send the codeword that you read. Else send the bits as they came: the controller
 *   counts them as noise, and makes radios spread their requests over more slots.
 * - ACTIVE: it keeps the call on that slot. Without it for the site's hang time the controller ends the call.
 * - TX: transmit the word as it is, on this slot of the next frame, with the slot type CSBK and your own sync and colour code.
 *   In a slot without a TX transmit what is yours: the voice that you repeat, or an idle burst. Each TX comes once. Two TX with the
 *   same word are two bursts.
 * - DONE ends the answer to a POLL: at most a TX for slot 0, then at most one for slot 1. While it has not come, dmr_link_poll
 *   writes nothing: that frame is missed, and its POLL is not sent later. If nothing comes for five seconds after a POLL, close the
 *   connection and connect again.
 * - Before WELCOME nothing may come for as long as another connection has the port: keep the connection, and send HELLO
 *   at once. RX, ACTIVE and the first POLL may be sent before it.
 * - When the connection has ended, connect again after dmr_link_retry milliseconds, for as long as it takes, with a new HELLO. The
 *   calls on both slots have ended then. Bursts of the old connection are not sent on the new one.
 * - To leave: dmr_link_bye, end your output (shutdown), read up to the end of input, close.
 * - The controller closes a connection that sends nothing for the site's `silence`, or that does not read.
 */
#ifndef DMR_LINK_H
#define DMR_LINK_H

#include <stddef.h>
#include <stdint.h>
#include <string.h>

/* Octets of the longest frame, and of a word. Milliseconds between two polls, and for which an answer is waited. */
enum { DMR_LINK_LONGEST = 29, DMR_LINK_WORD = 25, DMR_LINK_FRAME_MS = 60, DMR_LINK_ANSWER_MS = 5000 };

/*
 * The frames: a type octet, a length octet, a body. The length follows from type and version; all other values are faults.
 *
 *     HELLO    01 04   version, carrier, LPCN in two octets, high first      WELCOME  81 01   version, that of HELLO
 *     RX       02 1A   slot, word                (version 1)                 TX       82 1A   slot, word
 *              02 1B   number, slot, word        (version 2)                          82 1B   number, slot, word
 *     POLL     03 00                                                         DONE     83 00
 *     ACTIVE   04 01   slot                                                  REFUSED  84 01   cause
 *     BYE      05 00
 */
enum dmr_link_type {
    DMR_LINK_TYPE_HELLO = 1, DMR_LINK_TYPE_RX, DMR_LINK_TYPE_POLL, DMR_LINK_TYPE_ACTIVE, DMR_LINK_TYPE_BYE,
    DMR_LINK_TYPE_WELCOME = 0x81, DMR_LINK_TYPE_TX, DMR_LINK_TYPE_DONE, DMR_LINK_TYPE_REFUSED
};

/* What an octet means. */
enum dmr_link_event {
    DMR_LINK_NOTHING, /* a frame has begun, or goes on */
    DMR_LINK_WELCOME, /* the carrier is up */
    DMR_LINK_TX,      /* transmit link.word on link.slot */
    DMR_LINK_DONE,    /* the answer to the POLL is whole */
    DMR_LINK_REFUSED, /* HELLO was refused, for link.cause; the controller closes the connection */
    DMR_LINK_FAULT    /* no frame of the controller, or one that may not come now: close the connection */
};

/* Why HELLO is refused: the site does not serve this version; number, LPCN or port is not this carrier's. */
enum dmr_link_cause { DMR_LINK_BAD_VERSION = 1, DMR_LINK_WRONG_CARRIER = 2 };

/* A connection. Read the fields; dmr_link_hello and dmr_link_octet write them. */
struct dmr_link {
    uint8_t version;                /* 1 or 2 */
    uint8_t up, waits, over;        /* WELCOME came; a POLL has no DONE yet; REFUSED or a fault came */
    uint8_t slot, cause;            /* of the last TX; of REFUSED, else 0 */
    uint8_t word[DMR_LINK_WORD];    /* of the last TX */
    uint8_t next_rx, next_tx;       /* numbers of the next burst in each direction, in version 2 */
    uint8_t held[DMR_LINK_LONGEST], count; /* the frame that is coming */
};

/* Begins a connection: writes its HELLO. 0: a value is out of its range, and nothing is written. */
static inline size_t dmr_link_hello(struct dmr_link *l, unsigned version, unsigned carrier, unsigned lpcn, uint8_t out[6]) {
    if (version < 1 || version > 2 || carrier > 15 || lpcn < 1 || lpcn > 4094) return 0;
    memset(l, 0, sizeof *l);
    l->version = (uint8_t)version;
    out[0] = DMR_LINK_TYPE_HELLO;
    out[1] = 4;
    out[2] = (uint8_t)version;
    out[3] = (uint8_t)carrier;
    out[4] = (uint8_t)(lpcn >> 8);
    out[5] = (uint8_t)(lpcn & 255);
    return 6;
}

/* An RX with this number. */
static inline size_t dmr_link_numbered(const struct dmr_link *l, uint8_t number, unsigned slot, const uint8_t word[25], uint8_t *out) {
    size_t n = 0;
    if (slot > 1) return 0;
    out[n++] = DMR_LINK_TYPE_RX;
    out[n++] = (uint8_t)(DMR_LINK_WORD + l->version);
    if (l->version == 2) out[n++] = number;
    out[n++] = (uint8_t)slot;
    memcpy(out + n, word, DMR_LINK_WORD);
    n += DMR_LINK_WORD;
    out[n - 1] &= 0xF0;
    return n;
}

/*
 * Writes the RX of a new burst, which has the next number in version 2. The last four bits of the word are written as 0.
 * 0: the slot is not 0 or 1.
 */
static inline size_t dmr_link_rx(struct dmr_link *l, unsigned slot, const uint8_t word[25], uint8_t out[29]) {
    size_t n = dmr_link_numbered(l, l->next_rx, slot, word, out);
    if (n) l->next_rx++;
    return n;
}

/*
 * Writes the last RX again, with its number: the controller processes it once, whether both come or one. Only for a client that
 * cannot know whether its RX was sent, and only before the next RX. 0: in version 1, which has no numbers, or for another slot.
 */
static inline size_t dmr_link_rx_again(const struct dmr_link *l, unsigned slot, const uint8_t word[25], uint8_t out[29]) {
    return l->version == 2 ? dmr_link_numbered(l, (uint8_t)(l->next_rx - 1), slot, word, out) : 0;
}

/* Writes an ACTIVE: there was voice on the slot in the last frame. 0: the slot is not 0 or 1. */
static inline size_t dmr_link_active(unsigned slot, uint8_t out[3]) {
    if (slot > 1) return 0;
    out[0] = DMR_LINK_TYPE_ACTIVE;
    out[1] = 1;
    out[2] = (uint8_t)slot;
    return 3;
}

/* Writes a POLL. 0 while the DONE of the last POLL has not come: that frame is missed. */
static inline size_t dmr_link_poll(struct dmr_link *l, uint8_t out[2]) {
    if (l->waits) return 0;
    l->waits = 1;
    out[0] = DMR_LINK_TYPE_POLL;
    out[1] = 0;
    return 2;
}

/* Writes a BYE: the carrier leaves. */
static inline size_t dmr_link_bye(uint8_t out[2]) {
    out[0] = DMR_LINK_TYPE_BYE;
    out[1] = 0;
    return 2;
}

/* The length octet of a type of the controller's, or -1. */
static inline int dmr_link_length(const struct dmr_link *l, uint8_t type) {
    switch (type) {
    case DMR_LINK_TYPE_WELCOME:
    case DMR_LINK_TYPE_REFUSED: return 1;
    case DMR_LINK_TYPE_TX: return DMR_LINK_WORD + l->version;
    case DMR_LINK_TYPE_DONE: return 0;
    default: return -1;
    }
}

/* A whole TX: its slot and its word are kept. */
static inline enum dmr_link_event dmr_link_take_tx(struct dmr_link *l) {
    const uint8_t *burst = l->held + 1 + l->version; /* the slot, then the word */
    if (!l->up || !l->waits || burst[0] > 1 || burst[DMR_LINK_WORD] & 15) return DMR_LINK_FAULT;
    if (l->version == 2 && l->held[2] != l->next_tx++) return DMR_LINK_FAULT;
    l->slot = burst[0];
    memcpy(l->word, burst + 1, DMR_LINK_WORD);
    return DMR_LINK_TX;
}

/* A whole frame. */
static inline enum dmr_link_event dmr_link_take(struct dmr_link *l) {
    switch (l->held[0]) {
    case DMR_LINK_TYPE_WELCOME:
        if (l->up || l->held[2] != l->version) return DMR_LINK_FAULT;
        l->up = 1;
        return DMR_LINK_WELCOME;
    case DMR_LINK_TYPE_TX: return dmr_link_take_tx(l);
    case DMR_LINK_TYPE_DONE:
        if (!l->up || !l->waits) return DMR_LINK_FAULT;
        l->waits = 0;
        return DMR_LINK_DONE;
    default:
        if (l->up || l->held[2] < DMR_LINK_BAD_VERSION || l->held[2] > DMR_LINK_WRONG_CARRIER) return DMR_LINK_FAULT;
        l->cause = l->held[2];
        return DMR_LINK_REFUSED;
    }
}

/*
 * Takes an octet that came. After DMR_LINK_REFUSED or DMR_LINK_FAULT close the connection: all further octets are faults.
 * It is a fault if the number of a TX is not the next one: one was lost, or came twice, on your own side of the connection.
 */
static inline enum dmr_link_event dmr_link_octet(struct dmr_link *l, uint8_t octet) {
    enum dmr_link_event event = DMR_LINK_NOTHING;
    if (l->over) return DMR_LINK_FAULT;
    l->held[l->count++] = octet;
    int length = dmr_link_length(l, l->held[0]);
    if (length < 0 || (l->count == 2 && octet != length)) {
        event = DMR_LINK_FAULT;
    } else if (l->count == length + 2) {
        l->count = 0;
        event = dmr_link_take(l);
    }
    l->over = event == DMR_LINK_REFUSED || event == DMR_LINK_FAULT;
    return event;
}

/*
 * The milliseconds to wait before the next connection, when this one has ended or could not be made. `version` is the one to
 * name next: 1 if version 2 was refused, and then keep to it while your program runs. Report each other refusal: version, number,
 * LPCN or port is misconfigured.
 */
static inline unsigned dmr_link_retry(const struct dmr_link *l, unsigned *version) {
    int falls_back = l->cause == DMR_LINK_BAD_VERSION && l->version == 2;
    if (falls_back) *version = 1;
    return l->cause && !falls_back ? 10000 : 1000;
}

#endif
