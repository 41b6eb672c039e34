/*
 * The inputs of a soak: what carriers, radios and operators do, as octets in pieces that are cut at random, with flipped bits,
 * faults and nonsense.
 */
#ifndef TRAFFIC_H
#define TRAFFIC_H

#include "play.h"
#include "radios.h"

enum { STREAM_ROOM = 1 << 13, MOST_PIECE = 1 << 12, MOST_FLIPS = 12 };

/* An input: `count` octets of a party come, a connection begins or is cut, or the clock ticks. */
typedef enum { OPEN, CUT, TICK, PIECE } InputKind;
typedef struct {
    InputKind kind;
    int party, count;
} Input;

/* The octets that a party has written and that have not come yet. */
typedef struct {
    uint8_t octets[STREAM_ROOM];
    int count;
} Stream;

typedef struct {
    const Scene *scene;
    const Site *site;
    Stream streams[PARTIES];
    uint8_t versions[CARRIERS]; /* of the frames that a carrier writes */
    uint8_t numbers[CARRIERS];  /* of a carrier's last RX in version 2, on any connection */
    Mode mode;
    int left; /* of the mode, in actions */
} Traffic;

/* How often, of 200 actions in each mode, something happens. The rest are polls. */
typedef enum { REGISTER, LEAVE, CALL_GROUP, CALL_RADIO, GIVE_UP, ANSWER, ODD, ELSEWHERE, TALK, NOISE, LOSE, TICKS, COMMAND, NO_COMMAND, SORTS, POLLS = SORTS } Sort;
static const uint8_t WEIGHTS[SORTS][MODES] = {
    [REGISTER] = {8, 10, 8, 10, 2, 1, 96, 2},
    [LEAVE] = {3, 0, 0, 4, 1, 0, 0, 0},
    [CALL_GROUP] = {10, 10, 0, 20, 4, 3, 0, 2},
    [CALL_RADIO] = {14, 32, 56, 30, 6, 4, 0, 0},
    [GIVE_UP] = {4, 1, 0, 10, 1, 0, 0, 0},
    [ANSWER] = {8, 22, 0, 20, 2, 4, 0, 0},
    [ODD] = {3, 0, 0, 8, 1, 0, 0, 0},
    [ELSEWHERE] = {3, 0, 0, 6, 1, 0, 0, 0},
    [TALK] = {8, 3, 0, 16, 4, 0, 0, 0},
    [NOISE] = {4, 1, 1, 12, 2, 0, 0, 170},
    [LOSE] = {5, 0, 0, 1, 0, 0, 0, 0},
    [TICKS] = {36, 1, 0, 58, 136, 168, 1, 2},
    [COMMAND] = {8, 4, 3, 6, 4, 4, 3, 0},
    [NO_COMMAND] = {2, 0, 0, 1, 1, 0, 0, 0},
};

static inline Sort draw_sort(Mode mode) {
    int draw = below(200), sort = 0;
    while (sort < SORTS && draw >= WEIGHTS[sort][mode]) draw -= WEIGHTS[sort++][mode];
    return sort;
}

/* ---- octets */

static inline Stream *stream_of(Traffic *t, int party) { return &t->streams[party]; }

/* Writes octets of a party. There is room: a full stream comes as a piece first. */
static inline void write_octets(Traffic *t, int party, const void *octets, int count) {
    Stream *stream = stream_of(t, party);
    memcpy(stream->octets + stream->count, octets, count);
    stream->count += count;
}

/* What has been written, or half of the time a part of it. */
static inline Input piece_of(Traffic *t, int party) {
    int count = stream_of(t, party)->count;
    if (count > MOST_PIECE) return (Input){PIECE, party, MOST_PIECE};
    return (Input){PIECE, party, count && chance(2) ? 1 + (int)below(count) : count};
}

static inline Input forget_octets(Traffic *t, int carrier, InputKind kind) {
    stream_of(t, carrier)->count = 0;
    t->versions[carrier] = 1;
    return (Input){kind, carrier, 0};
}

/* ---- frames */

/* Draws a HELLO of a version that is served. The frames after it have that version. */
static inline void draw_hello(Traffic *t, int carrier, uint8_t frame[6]) {
    const Plan *plan = &t->site->plan;
    int version = plan->link_version == 2 && !chance(4) ? 2 : 1, lpcn = plan->lpcn[carrier];
    t->versions[carrier] = version;
    memcpy(frame, (uint8_t[]){HELLO, HELLO_BODY, version, carrier, lpcn >> 8, lpcn}, 6);
}

/* Writes a HELLO. The first RX after it mostly has the number of the last RX before it. */
static inline void say_hello(Traffic *t, int carrier) {
    uint8_t frame[6];
    draw_hello(t, carrier, frame);
    t->numbers[carrier]--;
    write_octets(t, carrier, frame, 6);
}

/* Writes a HELLO that is refused for its version, or for its carrier or channel. */
static inline void say_wrong_hello(Traffic *t, int carrier) {
    uint8_t frame[6];
    bool wrong_version = chance(2);
    draw_hello(t, carrier, frame);
    if (wrong_version) frame[2] = chance(4) ? 0 : chance(3) ? 4 + (int)below(252) : t->site->plan.link_version + 1;
    if (!wrong_version || chance(2)) {
        int place = 3 + below(3);
        frame[place] ^= 1 + below(255);
    }
    write_octets(t, carrier, frame, 6);
}

/* Writes the octets of an RX before its word. In version 2 the number mostly follows the last one; sometimes it is the last one
 * again, the one before that, or any. */
static inline void write_rx_head(Traffic *t, int carrier, int slot, bool again) {
    if (t->versions[carrier] == 1) {
        write_octets(t, carrier, (uint8_t[]){RX, BURST_OCTETS + 1, slot}, 3);
        return;
    }
    uint32_t draw = below(20);
    if (!again && draw > 1) t->numbers[carrier] += draw == 2 ? 255 : draw == 3 ? below(256) : 1;
    write_octets(t, carrier, (uint8_t[]){RX, BURST_OCTETS + 2, t->numbers[carrier], slot}, 4);
}

static inline void write_poll(Traffic *t, int carrier) { write_octets(t, carrier, (uint8_t[]){POLL, 0}, 2); }
static inline void write_active(Traffic *t, int slot) { write_octets(t, slot / 2, (uint8_t[]){ACTIVE, 1, slot & 1}, 3); }

/* Writes an RX. In version 2 it sometimes comes twice, with the same number on either slot, and sometimes with a POLL or an
 * ACTIVE between the two. */
static inline void write_rx(Traffic *t, int slot, const uint8_t *burst) {
    int carrier = slot / 2;
    bool twice = t->versions[carrier] == 2 && chance(12);
    write_rx_head(t, carrier, twice ? (int)below(2) : slot & 1, false);
    write_octets(t, carrier, burst, BURST_OCTETS);
    if (!twice) return;
    if (chance(4)) write_poll(t, carrier);
    else if (chance(3)) write_active(t, slot);
    write_rx_head(t, carrier, slot & 1, true);
    write_octets(t, carrier, burst, BURST_OCTETS);
}

static inline void draw_burst(uint8_t *burst) {
    for (int i = 0; i < BURST_OCTETS; i++) burst[i] = below(256);
    burst[BURST_OCTETS - 1] &= 0xF0;
}

/* Writes octets that begin no frame: an unknown type, a wrong length, a wrong slot, a pad that is not 0. Half of the time any
 * octets follow. */
static inline void write_fault(Traffic *t, int carrier) {
    static const uint8_t starts[][3] = {{0x00}, {0x06}, {HELLO, 5}, {RX, 0x19}, {BYE, 0xFF}, {ACTIVE, 1, 0x80}, {ACTIVE, 1, 2}, {POLL, 1}};
    uint8_t burst[BURST_OCTETS];
    draw_burst(burst);
    switch (below(6)) {
    case 0:
        burst[BURST_OCTETS - 1] |= 1 + below(15);
        write_rx_head(t, carrier, 0, false);
        write_octets(t, carrier, burst, BURST_OCTETS);
        break;
    case 1: write_rx_head(t, carrier, 2 + below(254), false); break;
    case 2: write_octets(t, carrier, (uint8_t[]){RX, t->versions[carrier] == 2 ? BURST_OCTETS + 1 : BURST_OCTETS + 2}, 2); break;
    default: write_octets(t, carrier, starts[below(sizeof starts / sizeof *starts)], 3);
    }
    if (chance(2)) write_octets(t, carrier, burst, below(12));
}

/* Ends a carrier's connection in one of many ways. */
static inline Input lose_carrier(Traffic *t, int carrier) {
    bool begins = chance(3);
    Input begun = {OPEN, carrier, 0};
    if (chance(8)) return forget_octets(t, carrier, CUT);
    if (begins) begun = forget_octets(t, carrier, OPEN);
    switch (below(7)) {
    case 0:
    case 1: say_wrong_hello(t, carrier); break;
    case 2: say_hello(t, carrier); break;
    case 3: write_poll(t, carrier); break;
    case 4: write_octets(t, carrier, (uint8_t[]){BYE, 0}, 2); break;
    default: write_fault(t, carrier);
    }
    return begins ? begun : piece_of(t, carrier);
}

/* ---- bursts */

/* Whether a burst means a PDU. Ends the soak if the decoder by tables, which the site uses, and the slow one differ. So it does if a
 * burst with at most three flipped bits does not mean the PDU that was sent. */
static inline bool check_reading(const uint8_t *burst, const uint8_t *pdu, int flips) {
    uint8_t read[12] = {0}, wanted[12] = {0};
    Word word = {{0}};
    for (int place = 0; place < PLACES; place++)
        if (burst[place / 8] >> (7 - place % 8) & 1) flip(&word, place);
    bool is_read = read_burst(burst, read);
    bool is_wanted = decode_reference(&word, wanted) && check_reference(wanted) == (wanted[10] << 8 | wanted[11]);
    if (is_read != is_wanted || (is_read && memcmp(read, wanted, 10)) || (flips < 4 && (!is_read || memcmp(read, pdu, 10)))) {
        fputs("soak: the decoders of the reference differ\n", stderr);
        exit(3);
    }
    return is_read;
}

/* Writes the RX of a PDU, mostly with at most three flipped bits. Place 0 is not part of the code. */
static inline Input send_pdu(Traffic *t, int slot, const uint8_t *pdu) {
    uint8_t burst[BURST_OCTETS];
    int flips = chance(30) ? 4 + below(MOST_FLIPS - 3) : below(4);
    write_burst(pdu, burst);
    for (int i = 0; i < flips; i++) {
        int place = 1 + below(PLACES - 1);
        burst[place / 8] ^= 0x80 >> place % 8;
    }
    if (chance(8)) burst[0] ^= 0x80;
    bool is_read = check_reading(burst, pdu, flips);
    if (flips) REACHED(flips < 4 ? FLIPS_MENDED : is_read ? FLIPS_READ : FLIPS_LOST);
    write_rx(t, slot, burst);
    return piece_of(t, slot / 2);
}

/* A slot: mostly of a carrier of the site, sometimes the control slot. */
static inline int draw_slot(Traffic *t) {
    int carrier = below(CARRIERS);
    if (chance(4)) return control_slot(t->site);
    while (!chance(8) && !is_listed(t->site, carrier)) carrier = below(CARRIERS);
    return 2 * carrier + below(2);
}

static inline Input send_noise(Traffic *t) {
    int slot = t->mode == STORMY ? control_slot(t->site) : draw_slot(t);
    uint8_t burst[BURST_OCTETS];
    draw_burst(burst);
    check_reading(burst, 0, MOST_FLIPS);
    write_rx(t, slot, burst);
    return piece_of(t, slot / 2);
}

/* A PDU of a radio. */
static inline void draw_pdu(Traffic *t, Sort sort, uint8_t pdu[10]) {
    const Site *s = t->site;
    const Scene *scene = t->scene;
    Parties engaged = any_engaged(s, scene, t->mode);
    switch (sort) {
    case LEAVE: write_registration(pdu, &s->plan, engaged.group || chance(2) ? engaged.source : engaged.target, false); break;
    case CALL_GROUP: write_call_request(pdu, s, scene, t->mode, true); break;
    case CALL_RADIO: write_call_request(pdu, s, scene, t->mode, false); break;
    case GIVE_UP: write_request(pdu, CANCEL, engaged.source, REGI); break;
    case ANSWER: write_answer(pdu, s, scene, t->mode); break;
    case ODD: write_odd(pdu, scene, t->mode); break;
    default: write_registration(pdu, &s->plan, radio_at_rest(s, scene, t->mode, false), true);
    }
}

/* ---- operators */

/* Writes a line of an operator. Sometimes spaces fill it to 78, 79 or 80 octets before its LF, or to more than a line may have. */
static inline Input say_line(Traffic *t, const char *text, int count, bool too_long) {
    char line[2 * LINE_OCTETS];
    bool has_cr = chance(4);
    int octets = count, length = too_long ? LINE_OCTETS + 1 + (int)below(40) : chance(8) ? LINE_OCTETS - (int)below(3) : 0;
    memcpy(line, text, count);
    while (octets + has_cr < length) line[octets++] = ' ';
    if (has_cr) line[octets++] = '\r';
    line[octets++] = '\n';
    write_octets(t, OPERATORS, line, octets);
    return piece_of(t, OPERATORS);
}

static inline Input say_command(Traffic *t) {
    char line[LINE_OCTETS];
    int count = write_command(line, t->site, t->scene, t->mode);
    return say_line(t, line, count, false);
}

static inline Input say_nonsense(Traffic *t) {
    const char *text = NONSENSE[below(sizeof NONSENSE / sizeof *NONSENSE)];
    uint8_t octets[BURST_OCTETS];
    if (chance(4)) return say_line(t, "status", 6, true);
    if (!chance(3)) return say_line(t, text, strlen(text), false);
    draw_burst(octets);
    octets[BURST_OCTETS - 1] = '\n';
    write_octets(t, OPERATORS, octets, BURST_OCTETS);
    return piece_of(t, OPERATORS);
}

/* ---- the next input */

static inline Input talk(Traffic *t) {
    const Site *s = t->site;
    int slot = s->call_count && !chance(6) ? s->calls[below(s->call_count)].slot : draw_slot(t);
    write_active(t, slot);
    return piece_of(t, slot / 2);
}

static inline Input poll_carrier(Traffic *t) {
    int slot = draw_slot(t);
    for (int tries = 0; tries < 8 && !t->site->queues[slot].count; tries++) slot = draw_slot(t);
    if (below(8) < 5) slot = control_slot(t->site);
    write_poll(t, slot / 2);
    return piece_of(t, slot / 2);
}

static inline void turn_mode(Traffic *t) {
    static const uint8_t share[MODES] = {40, 13, 8, 11, 16, 4, 5, 3};
    const int lasts[MODES] = {250, 700, 350, 150, 250, 2 * t->site->plan.maximum, 500, 150};
    int draw = below(100), mode = 0;
    while (mode < STORMY && draw >= share[mode]) draw -= share[mode++];
    t->mode = mode;
    t->left = lasts[mode];
}

static inline Input next_action(Traffic *t) {
    uint8_t pdu[10];
    Sort sort = draw_sort(t->mode);
    switch (sort) {
    case TALK: return talk(t);
    case NOISE: return send_noise(t);
    case LOSE: return lose_carrier(t, draw_slot(t) / 2);
    case TICKS: return (Input){TICK, 0, 0};
    case COMMAND: return say_command(t);
    case NO_COMMAND: return say_nonsense(t);
    case POLLS: return poll_carrier(t);
    default:
        draw_pdu(t, sort, pdu);
        return send_pdu(t, sort == ELSEWHERE ? draw_slot(t) : control_slot(t->site), pdu);
    }
}

/* More octets of a party, if some wait: surely once they are many. */
static inline bool more_octets(Traffic *t, Input *input) {
    int first = below(PARTIES);
    for (int more = 0; more < PARTIES; more++) {
        int party = (first + more) % PARTIES, count = stream_of(t, party)->count;
        if (!count || (count < MOST_PIECE && !chance(2))) continue;
        *input = piece_of(t, party);
        return true;
    }
    return false;
}

/* Whether a call ends soon if nothing is active on its slot. */
static inline bool is_any_quiet(const Site *s) {
    for (int i = 0; i < s->call_count; i++)
        if (age(s, s->calls[i].active) > s->plan.hang / 2) return true;
    return false;
}

/* The next input, by the state of the site: more octets of a party, a carrier that connects, or a new action. */
static inline Input next_input(Traffic *t) {
    const Site *s = t->site;
    Input input;
    if (more_octets(t, &input)) return input;
    for (int carrier = 0; carrier < CARRIERS; carrier++)
        if (is_listed(s, carrier) && !is_up(s, carrier) && chance(8)) {
            if (chance(12)) return forget_octets(t, carrier, CUT);
            input = forget_octets(t, carrier, OPEN);
            say_hello(t, carrier);
            return input;
        }
    if (!t->left) turn_mode(t);
    t->left--;
    if (t->mode == LASTING && is_any_quiet(s)) return talk(t);
    return next_action(t);
}

/* Moves the octets of a piece to `octets`. */
static inline void take_piece(Traffic *t, const Input *input, uint8_t *octets) {
    Stream *stream = stream_of(t, input->party);
    memcpy(octets, stream->octets, input->count);
    stream->count -= input->count;
    memmove(stream->octets, stream->octets + input->count, stream->count);
}

#endif
