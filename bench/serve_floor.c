/*
 * The least that serving costs: a server in C that answers constants. It cuts the frames of the link, and answers a HELLO by a
 * WELCOME and a POLL by constant octets. It is measured with bench/load_generator.c over loopback, as `dmr_trunk --serve` is.
 *
 *     serve_floor [-p BASE_PORT] [-n CARRIERS] [-a OCTETS] [-c CONTROL]
 *
 * It has a thread and an epoll for each carrier, as the proved controller has. The epoll has the carrier's listener, its
 * connection, and an eventfd by which the end of a term would wake the thread.
 *
 *     -a N   answers each POLL by N octets, 2 at least; else the control carrier's by a TX and DONE, the others' by DONE
 *
 * It is not a controller: it has no site, ignores what a carrier says, and runs until it is killed.
 */
#define _GNU_SOURCE
#include "listener.h"
#include <errno.h>
#include <netinet/in.h>
#include <netinet/tcp.h>
#include <pthread.h>
#include <stdint.h>
#include <stdio.h>
#include <stdlib.h>
#include <string.h>
#include <sys/epoll.h>
#include <sys/eventfd.h>
#include <sys/socket.h>
#include <unistd.h>

enum { HELLO = 1, RX, POLL, ACTIVE, BYE, WELCOME = 0x81, TX, DONE };
enum { READ_ROOM = 4096, WRITE_ROOM = 16384, MOST_CARRIERS = 64 };

typedef struct {
    int stream, listener, carrier, version;
    int part, type, left; /* the frame being cut: 0 its type is next, 1 its length, 2 its body; octets left of the body */
    uint8_t hello[4];
    int received;  /* octets of the HELLO */
    uint8_t sent;  /* how many TX, which is the number of the next one in version 2 */
} Connection;

static int base_port = 7101, carriers = 16, answer_octets, control;
static uint8_t answer_of[2][31]; /* by version: a TX and DONE */

static int body_length(int type, int version) {
    switch (type) {
    case HELLO: return 4;
    case RX: return 25 + version;
    case POLL:
    case BYE: return 0;
    case ACTIVE: return 1;
    default: return -1;
    }
}

/* Writes the answer of a POLL. How many octets it has. */
static int answer_poll(Connection *c, uint8_t *out) {
    int count = answer_octets ? answer_octets : c->carrier == control ? 29 + c->version : 2;
    memset(out, 0, count);
    if (count > 2) memcpy(out, answer_of[c->version == 2], count < 31 ? count : 31);
    if (count > 2 && c->version == 2) out[2] = c->sent++;
    out[count - 2] = DONE;
    out[count - 1] = 0;
    return count;
}

/* Takes a whole frame. How many octets answer it, or -1: the connection ends. */
static int answer_frame(Connection *c, uint8_t *out) {
    if (c->type == POLL) return answer_poll(c, out);
    if (c->type == BYE) return -1;
    if (c->type != HELLO) return 0;
    c->version = c->hello[0] == 2 ? 2 : 1;
    out[0] = WELCOME;
    out[1] = 1;
    out[2] = c->version;
    return 3;
}

/* Takes octets, and writes what answers them. How many octets, or -1: the connection ends. */
static int take(Connection *c, const uint8_t *octets, int count, uint8_t *out) {
    int written = 0;
    for (int i = 0; i < count;) {
        if (c->part == 0) {
            c->type = octets[i++];
            if (body_length(c->type, c->version) < 0) return -1;
            c->part = 1;
            continue;
        }
        if (c->part == 1) {
            c->left = octets[i++];
            if (c->left != body_length(c->type, c->version)) return -1;
            c->received = 0;
            c->part = 2;
        } else {
            int some = count - i < c->left ? count - i : c->left;
            if (c->type == HELLO) memcpy(c->hello + c->received, octets + i, some), c->received += some;
            i += some;
            c->left -= some;
        }
        if (c->left) continue;
        c->part = 0;
        int answered = answer_frame(c, out + written);
        if (answered < 0) return -1;
        written += answered;
    }
    return written;
}

static void begin(Connection *c, int stream) {
    int one = 1;
    setsockopt(stream, IPPROTO_TCP, TCP_NODELAY, &one, sizeof one);
    c->stream = stream;
    c->part = 0;
    c->version = 1;
    c->sent = 0;
}

static void watch(int epoll, int operation, int stream, Connection *c) {
    struct epoll_event event = {.events = EPOLLIN, .data.ptr = c};
    epoll_ctl(epoll, operation, stream, &event);
}

static void serve_event(int epoll, Connection *c) {
    uint8_t octets[READ_ROOM], out[WRITE_ROOM];
    int count, written;
    if (c->stream < 0) {
        int stream = accept4(c->listener, 0, 0, SOCK_NONBLOCK);
        if (stream < 0) return;
        begin(c, stream);
        watch(epoll, EPOLL_CTL_DEL, c->listener, c);
        watch(epoll, EPOLL_CTL_ADD, stream, c);
        return;
    }
    count = read(c->stream, octets, sizeof octets);
    if (count < 0 && errno == EAGAIN) return;
    written = count > 0 ? take(c, octets, count, out) : -1;
    if (written >= 0 && (!written || write(c->stream, out, written) == written)) return;
    close(c->stream);
    c->stream = -1;
    watch(epoll, EPOLL_CTL_ADD, c->listener, c);
}

/* The thread of one carrier. */
static void *serve_carrier(void *argument) {
    Connection *c = argument;
    int epoll = epoll_create1(0), waker = eventfd(0, EFD_NONBLOCK);
    watch(epoll, EPOLL_CTL_ADD, c->listener, c);
    watch(epoll, EPOLL_CTL_ADD, waker, 0);
    for (;;) {
        struct epoll_event event;
        if (epoll_wait(epoll, &event, 1, -1) == 1 && event.data.ptr) serve_event(epoll, c);
    }
    return 0;
}

static int read_options(int argc, char **argv) {
    int option;
    while ((option = getopt(argc, argv, "p:n:a:c:")) != -1) switch (option) {
        case 'p': base_port = atoi(optarg); break;
        case 'n': carriers = atoi(optarg); break;
        case 'a': answer_octets = atoi(optarg); break;
        case 'c': control = atoi(optarg); break;
        default: return -1;
        }
    return carriers < 1 || carriers > MOST_CARRIERS || answer_octets == 1 || answer_octets > 1000 ? -1 : 0;
}

int main(int argc, char **argv) {
    static Connection connections[MOST_CARRIERS];
    pthread_t thread;
    if (read_options(argc, argv)) return 2;
    for (int version = 1; version <= 2; version++) {
        answer_of[version - 1][0] = TX;
        answer_of[version - 1][1] = 25 + version;
    }
    for (int i = 0; i < carriers; i++)
        connections[i] = (Connection){.stream = -1, .listener = listen_on(base_port + i), .carrier = i, .version = 1};
    for (int i = 0; i < carriers; i++) pthread_create(&thread, 0, serve_carrier, &connections[i]);
    for (;;) pause();
}
