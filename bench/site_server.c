/*
 * The site of reference/site.h over TCP ports: one thread, one epoll, a timer for the ticks. It is measured with
 * bench/load_generator.c, as `dmr_trunk --serve` is.
 *
 *     site_server [-p BASE_PORT] [-n CARRIERS] [-c CONTROL] [-l FIRST_LPCN] [-L LPCN_STEP] [-t MILLISECONDS] [-j]
 *
 *     -t N   a tick lasts N milliseconds (60)
 *     -j     keeps a journal too: the answer of each event, 64 octets each, in a ring of 100,000
 *
 * It is not a controller. It reads no site file, has no operators, no terms and no audit. It does not wait for a peer that
 * reads nothing: a write that is not taken whole ends the connection. It runs until it is killed.
 */
#define _GNU_SOURCE
#include "listener.h"
#include "../reference/site_link.h"
#include <errno.h>
#include <netinet/in.h>
#include <netinet/tcp.h>
#include <stdio.h>
#include <sys/epoll.h>
#include <sys/socket.h>
#include <sys/timerfd.h>
#include <unistd.h>

enum { JOURNAL_ENTRIES = 100000, READ_ROOM = 4096, WRITE_ROOM = 262144, EVENTS = 32 };

typedef struct {
    int stream, listener, carrier;
} Connection;

static int base_port = 7101, carriers = 16, control, first_lpcn = 101, lpcn_step = 2, tick_ms = 60;
static bool has_journal;
static Site *site;

static void watch(int epoll, int operation, int stream, Connection *c) {
    struct epoll_event event = {.events = EPOLLIN, .data.ptr = c};
    epoll_ctl(epoll, operation, stream, &event);
}

static void note(int carrier, const uint8_t *octets, long count) {
    static uint8_t journal[JOURNAL_ENTRIES][64];
    static unsigned entries;
    uint8_t *entry = journal[entries++ % JOURNAL_ENTRIES];
    entry[0] = carrier;
    memcpy(entry + 1, octets, count < 63 ? count : 63);
}

static void take_connection(int epoll, Connection *c) {
    int stream = accept4(c->listener, 0, 0, SOCK_NONBLOCK), one = 1;
    if (stream < 0) return;
    setsockopt(stream, IPPROTO_TCP, TCP_NODELAY, &one, sizeof one);
    c->stream = stream;
    open_link(site, c->carrier);
    watch(epoll, EPOLL_CTL_DEL, c->listener, c);
    watch(epoll, EPOLL_CTL_ADD, stream, c);
}

static void serve(int epoll, Connection *c) {
    static uint8_t octets[READ_ROOM], out[WRITE_ROOM];
    long count = read(c->stream, octets, sizeof octets), written;
    if (count < 0 && errno == EAGAIN) return;
    written = count > 0 ? take_octets(site, c->carrier, octets, count, out) - out : 0;
    if (has_journal && written) note(c->carrier, out, written);
    bool taken = !written || write(c->stream, out, written) == written;
    if (count > 0 && taken && site->links[c->carrier].state != CLOSED) return;
    cut_link(site, c->carrier);
    close(c->stream);
    c->stream = -1;
    watch(epoll, EPOLL_CTL_ADD, c->listener, c);
}

static void pass_ticks(int timer) {
    uint64_t ticks;
    if (read(timer, &ticks, sizeof ticks) != sizeof ticks) return;
    while (ticks--) tick(site);
}

static void begin_site(void) {
    Plan plan = {.system = 0x0A51,
                 .regi = 0xFFFEC6,
                 .tsi = 0xFFFECA,
                 .hang = 50,
                 .maximum = 3000,
                 .ahoy_wait = 8,
                 .ahoy_tries = 4,
                 .grant_copies = 2,
                 .clear_copies = 2,
                 .backoff_low = 2,
                 .backoff_high = 12,
                 .leave_bit = -1,
                 .link_version = 2,
                 .control = control,
                 .radios = {{1, 5000}},
                 .radio_ranges = 1,
                 .group_count = 16};
    for (int i = 0; i < 16; i++) plan.groups[i] = i + 1;
    for (int i = 0; i < carriers; i++) {
        plan.lpcn[i] = first_lpcn + lpcn_step * i;
        plan.listed |= 1 << i;
    }
    make_coder_tables();
    site = new_site(&plan);
    if (!site) die("site");
}

static int read_options(int argc, char **argv) {
    int option;
    while ((option = getopt(argc, argv, "p:n:c:l:L:t:j")) != -1) switch (option) {
        case 'p': base_port = atoi(optarg); break;
        case 'n': carriers = atoi(optarg); break;
        case 'c': control = atoi(optarg); break;
        case 'l': first_lpcn = atoi(optarg); break;
        case 'L': lpcn_step = atoi(optarg); break;
        case 't': tick_ms = atoi(optarg); break;
        case 'j': has_journal = true; break;
        default: return -1;
        }
    bool fits = carriers >= 1 && carriers <= CARRIERS && control >= 0 && control < carriers && tick_ms >= 1;
    return fits ? 0 : -1;
}

int main(int argc, char **argv) {
    static Connection connections[CARRIERS];
    int epoll = epoll_create1(0), timer = timerfd_create(CLOCK_MONOTONIC, TFD_NONBLOCK);
    if (read_options(argc, argv)) return 2;
    const struct timespec tick_time = {tick_ms / 1000, tick_ms % 1000 * 1000000l};
    const struct itimerspec every_tick = {tick_time, tick_time};
    begin_site();
    timerfd_settime(timer, 0, &every_tick, 0);
    watch(epoll, EPOLL_CTL_ADD, timer, 0);
    for (int i = 0; i < carriers; i++) {
        connections[i] = (Connection){-1, listen_on(base_port + i), i};
        watch(epoll, EPOLL_CTL_ADD, connections[i].listener, &connections[i]);
    }
    for (;;) {
        struct epoll_event events[EVENTS];
        int count = epoll_wait(epoll, events, EVENTS, -1);
        for (int i = 0; i < count; i++) {
            Connection *c = events[i].data.ptr;
            if (!c) pass_ticks(timer);
            else if (c->stream < 0) take_connection(epoll, c);
            else serve(epoll, c);
        }
    }
}
