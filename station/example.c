/*
 * A client of the link over sockets: how a base station uses the three headers. It has no transmitter and no receiver: what it is to
 * transmit it prints, and what it receives comes from a file, or from a radio that is played here.
 *
 *     example -p PORT [-a ADDRESS] [-c CARRIER] [-l LPCN] [-v VERSION] [-o COLOUR] [-t MILLISECONDS] [-n FRAMES]
 *             [-f FILE | -r RADIO -g GROUP] [-w SHARE] [-s SEED] [-m] [-x]
 *
 *     -f FILE   what is received: a line `SLOT BURST` for a burst of 33 octets in hexadecimal, a line `SLOT voice`, and an empty line
 *               at the end of each frame; `-` is standard input, for which a frame waits. After its end nothing is received
 *     -r, -g    a radio that registers, calls a talkgroup and talks for a second. It repeats a request each eighth frame
 *     -w SHARE  of each received burst this share of the bits is wrong, in percent
 *     -m        sends bursts as they came, without dmr_mend
 *     -t, -n    a frame lasts so long (60), and after so many it leaves (for ever)
 *     -x        prints each burst that it transmits
 *
 * It prints what becomes of the connection and of the radio, and in its last line what it counted. The status is 0 if it left by
 * itself. docs/LINK.md has a table that says how to try a client; this one passes.
 */
#define _XOPEN_SOURCE 700
#include "dmr_air.h"
#include "dmr_link.h"
#include "dmr_mend.h"
#include <arpa/inet.h>
#include <errno.h>
#include <fcntl.h>
#include <netinet/tcp.h>
#include <poll.h>
#include <stdio.h>
#include <stdlib.h>
#include <sys/socket.h>
#include <time.h>
#include <unistd.h>

enum { MOST_SYNC_WRONG = 4, REQUEST_FRAMES = 8, TALK_FRAMES = 17, MOST_OUT = 512 };

static struct {
    const char *address;
    unsigned port, carrier, lpcn, version, colour, radio, group;
    long frame_ms, frames;
    double share;
    int mends, prints;
    FILE *received;
} options = {"127.0.0.1", 7101, 0, 1, 1, 1, 0, 91, 60, -1, 0, 1, 0, NULL};

static struct {
    long sent, mended, unread, lost, transmitted, missed;
} counts;

/* The octets that this frame writes. */
static uint8_t out[MOST_OUT];
static size_t out_count;

static long milliseconds(void) {
    struct timespec now;
    clock_gettime(CLOCK_MONOTONIC, &now);
    return now.tv_sec * 1000L + now.tv_nsec / 1000000L;
}

static void say(const char *what, unsigned number) {
    printf("%s %u\n", what, number);
    fflush(stdout);
}

/* ---- the receiver */

/* Turns bits of a burst, as noise does. */
static void turn_bits(uint8_t *octets, int bits) {
    for (int n = 0; n < bits; n++)
        if (drand48() * 100 < options.share) dmr_air_put(octets, n, !dmr_air_bit(octets, n));
}

/* A burst of 264 bits was received: an RX, if it is a control burst with our colour code. */
static void receive(struct dmr_link *link, unsigned slot, uint8_t burst[33]) {
    uint8_t word[25];
    unsigned colour = 0, kind = 0;
    turn_bits(burst, 264);
    if (dmr_air_sync_wrong(burst, DMR_AIR_MS_DATA) > MOST_SYNC_WRONG || dmr_air_take(burst, word, &colour, &kind) < 0 ||
        kind != DMR_AIR_CSBK || colour != options.colour) {
        counts.lost++;
        return;
    }
    if (options.mends) {
        int wrong = dmr_mend_hard(word, DMR_MEND_LIMIT, word);
        counts.mended += wrong > 0;
        counts.unread += wrong < 0;
    }
    if (out_count + DMR_LINK_LONGEST > sizeof out) return;
    size_t count = dmr_link_rx(link, slot, word, out + out_count);
    counts.sent += count > 0;
    out_count += count;
}

/* There was voice on a slot. */
static void hear_voice(unsigned slot) {
    if (out_count + 3 <= sizeof out) out_count += dmr_link_active(slot, out + out_count);
}

/* Receives what the file has for a frame. */
static void receive_lines(struct dmr_link *link) {
    char line[128];
    while (options.received && fgets(line, sizeof line, options.received)) {
        uint8_t burst[33] = {0};
        unsigned slot = (unsigned)(*line - '0'), value;
        if (*line == '\n') return;
        for (int n = 0; n < 33 && sscanf(line + 2 + 2 * n, "%2x", &value) == 1; n++) burst[n] = (uint8_t)value;
        if (line[2] == 'v') hear_voice(slot);
        else receive(link, slot, burst);
    }
}

/* ---- a radio, which registers and calls */

static struct {
    enum { REGISTERS, CALLS, TALKS, RESTS } state;
    long frame; /* since the state began */
    unsigned slot, requests;
} radio;

static void enter(int state) {
    radio.state = state;
    radio.frame = 0;
    radio.requests = 0;
}

/* Makes a PDU: three octets, two numbers of three octets. */
static void make_pdu(uint8_t pdu[10], unsigned opcode, unsigned options_and_kind, unsigned target, unsigned source) {
    const unsigned octets[10] = {opcode, 0, options_and_kind >> 8, options_and_kind, target >> 16, target >> 8, target, source >> 16, source >> 8, source};
    for (int n = 0; n < 10; n++) pdu[n] = (uint8_t)octets[n];
}

/* The radio sends a C_RAND on the control slot. */
static void request(struct dmr_link *link, unsigned options_and_kind, unsigned target) {
    uint8_t pdu[10], word[25], burst[33];
    make_pdu(pdu, 0x9F, options_and_kind, target, options.radio);
    dmr_mend_encode(pdu, word);
    dmr_air_make(word, DMR_AIR_MS_DATA, options.colour, DMR_AIR_CSBK, burst);
    radio.requests++;
    receive(link, 0, burst);
}

/* What the radio does in a frame. */
static void play_radio(struct dmr_link *link) {
    if (radio.state == REGISTERS && radio.frame % REQUEST_FRAMES == 0) request(link, 0x20E, 0xFFFEC6);
    if (radio.state == CALLS && radio.frame % REQUEST_FRAMES == 0) request(link, 1, options.group);
    if (radio.state == TALKS) hear_voice(radio.slot);
    if (radio.state == TALKS && radio.frame == TALK_FRAMES) {
        enter(RESTS);
        say("talked on slot", radio.slot);
    }
    radio.frame++;
}

/* The radio receives what is transmitted on the control slot: C_ACKD of its registration, TV_GRANT of its call. */
static void hear(const uint8_t word[25]) {
    uint8_t pdu[10], wanted[10];
    dmr_mend_octets(word, pdu);
    make_pdu(wanted, 0xA0, 0xC4, options.radio, 0xFFFEC6);
    if (radio.state == REGISTERS && !memcmp(pdu, wanted, 10)) {
        say("registered; requests", radio.requests);
        enter(CALLS);
    }
    make_pdu(wanted, 0xB1, 0, options.group, options.radio);
    if (radio.state == CALLS && pdu[0] == 0xB1 && !memcmp(pdu + 4, wanted + 4, 6)) {
        say("granted; requests", radio.requests);
        radio.slot = pdu[3] >> 3 & 1;
        enter(TALKS);
    }
}

/* ---- the transmitter */

static void transmit(unsigned slot, const uint8_t word[25]) {
    uint8_t burst[33];
    dmr_air_make(word, DMR_AIR_BS_DATA, options.colour, DMR_AIR_CSBK, burst);
    counts.transmitted++;
    if (options.prints) {
        printf("transmits %u ", slot);
        for (int n = 0; n < 33; n++) printf("%02X", burst[n]);
        putchar('\n');
        fflush(stdout);
    }
    if (options.radio && slot == 0) hear(word);
}

/* ---- the connection */

/* Connects. -1: nobody listens. */
static int dial(void) {
    struct sockaddr_in address = {0};
    int stream = socket(AF_INET, SOCK_STREAM, 0), one = 1;
    address.sin_family = AF_INET;
    address.sin_port = htons((uint16_t)options.port);
    if (stream < 0 || inet_pton(AF_INET, options.address, &address.sin_addr) != 1) exit(2);
    setsockopt(stream, IPPROTO_TCP, TCP_NODELAY, &one, sizeof one);
    setsockopt(stream, SOL_SOCKET, SO_KEEPALIVE, &one, sizeof one);
    if (!connect(stream, (struct sockaddr *)&address, sizeof address)) return stream;
    close(stream);
    return -1;
}

/* Writes what is to be written. 0: the system does not take it, and the connection is of no use any more. */
static int flush_out(int stream) {
    ssize_t count = out_count ? send(stream, out, out_count, MSG_NOSIGNAL | MSG_DONTWAIT) : 0;
    int is_whole = count == (ssize_t)out_count;
    out_count = 0;
    return is_whole;
}

/* Reads what has come. 0: the connection ends. */
static int read_octets(int stream, struct dmr_link *link) {
    uint8_t octets[512];
    ssize_t count = recv(stream, octets, sizeof octets, MSG_DONTWAIT);
    if (count < 0) return errno == EAGAIN || errno == EINTR;
    for (ssize_t n = 0; n < count; n++) {
        switch (dmr_link_octet(link, octets[n])) {
        case DMR_LINK_WELCOME: say("up in version", link->version); break;
        case DMR_LINK_TX: transmit(link->slot, link->word); break;
        case DMR_LINK_REFUSED: say("refused", link->cause); return 0;
        case DMR_LINK_FAULT: say("fault", 0); return 0;
        default: break;
        }
    }
    return count > 0;
}

/* Writes what was received in the last frame, and a POLL. 0: the connection ends. */
static int begin_frame(int stream, struct dmr_link *link, long now, long *polled) {
    receive_lines(link);
    if (options.radio) play_radio(link);
    if (link->waits && now - *polled > DMR_LINK_ANSWER_MS) return 0;
    size_t count = dmr_link_poll(link, out + out_count);
    if (count) *polled = now;
    else counts.missed++;
    out_count += count;
    return flush_out(stream);
}

/* Says BYE, and reads to the end, for a second at most. */
static void leave(int stream, struct dmr_link *link) {
    struct pollfd wait = {stream, POLLIN, 0};
    out_count = dmr_link_bye(out);
    flush_out(stream);
    shutdown(stream, SHUT_WR);
    while (poll(&wait, 1, 1000) > 0 && read_octets(stream, link)) {}
}

/* Serves a connection to its end. Whether it left by itself. */
static int serve(int stream, struct dmr_link *link) {
    long due = milliseconds(), polled = due;
    out_count = dmr_link_hello(link, options.version, options.carrier, options.lpcn, out);
    if (!out_count) exit(2);
    if (!flush_out(stream)) return 0;
    for (;;) {
        struct pollfd wait = {stream, POLLIN, 0};
        long now = milliseconds();
        if (now >= due && link->up) {
            if (options.frames >= 0 && options.frames-- == 0) {
                leave(stream, link);
                return 1;
            }
            if (!begin_frame(stream, link, now, &polled)) return 0;
        }
        while (due <= now) due += options.frame_ms;
        if (poll(&wait, 1, (int)(due - now)) > 0 && !read_octets(stream, link)) return 0;
    }
}

static int read_options(int argc, char **argv) {
    for (int option; (option = getopt(argc, argv, "a:p:c:l:v:o:t:n:f:r:g:w:s:mx")) != -1;) switch (option) {
        case 'a': options.address = optarg; break;
        case 'p': options.port = (unsigned)atoi(optarg); break;
        case 'c': options.carrier = (unsigned)atoi(optarg); break;
        case 'l': options.lpcn = (unsigned)atoi(optarg); break;
        case 'v': options.version = (unsigned)atoi(optarg); break;
        case 'o': options.colour = (unsigned)atoi(optarg) & 15; break;
        case 't': options.frame_ms = atol(optarg); break;
        case 'n': options.frames = atol(optarg); break;
        case 'f': options.received = strcmp(optarg, "-") ? fopen(optarg, "r") : stdin; break;
        case 'r': options.radio = (unsigned)atoi(optarg); break;
        case 'g': options.group = (unsigned)atoi(optarg); break;
        case 'w': options.share = atof(optarg); break;
        case 's': srand48(atol(optarg)); break;
        case 'm': options.mends = 0; break;
        case 'x': options.prints = 1; break;
        default: return 0;
        }
    return optind == argc && options.frame_ms > 0 && options.port > 0 && options.port < 65536;
}

int main(int argc, char **argv) {
    if (!read_options(argc, argv)) return 2;
    for (int has_left = 0; !has_left;) {
        struct dmr_link link = {0};
        int stream = dial();
        if (stream >= 0) {
            has_left = serve(stream, &link);
            close(stream);
        }
        if (!has_left) {
            unsigned wait = dmr_link_retry(&link, &options.version);
            say("connects again; milliseconds", wait);
            nanosleep(&(struct timespec){wait / 1000, 0}, NULL);
        }
    }
    printf("bursts sent %ld, of them mended %ld and not read %ld; not received %ld; transmitted %ld; frames missed %ld\n", counts.sent,
           counts.mended, counts.unread, counts.lost, counts.transmitted, counts.missed);
    return 0;
}
