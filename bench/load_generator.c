/*
 * Plays carriers that poll against a served site, on loopback, and prints how long the answers took. `tools/carriers` plays
 * radios too and looks at each answer; this one looks at the frames alone, and disturbs the machine less.
 *
 *     load_generator [-p BASE_PORT] [-n CARRIERS] [-l FIRST_LPCN] [-L LPCN_STEP] [-v VERSION] [-s SECONDS] [-u MICROSECONDS]
 *                    [-o OFFSET] [-A] [-f] [-S] [-T THREADS] [-P PID] [-a ACTIVES] [-r POLLS] [-c CONTROL]
 *
 *     -u N   each carrier polls each N microseconds (60,000, the rate of the air), the carriers spread evenly
 *     -A     all carriers poll at once, as those of a site whose base stations share their frames
 *     -o N   the first carrier's polls are due N microseconds after a whole number of periods of the machine's clock, so that
 *            generators which run at once poll at times of their own (without it: from when the carriers are connected)
 *     -f     as fast as possible: the next POLL follows the DONE of the last
 *     -S     asks the system in a loop instead of waiting, so that no wake-up of its own is part of a figure
 *     -a N   N frames ACTIVE before each POLL, in the same write
 *     -r N   every Nth POLL of the control carrier has the RX of a registration before it
 *     -P N   reads processor time, memory, threads and context switches of the process N, which should be the server
 *
 * A time is from just before the write of a POLL until the last octet of its DONE is read; "from due": from when the POLL was due.
 * It is a bench: any fault of a connection ends it with status 1.
 */
#define _GNU_SOURCE
#include "../station/dmr_link.h"
#include <arpa/inet.h>
#include <dirent.h>
#include <errno.h>
#include <fcntl.h>
#include <netinet/in.h>
#include <netinet/tcp.h>
#include <pthread.h>
#include <stdbool.h>
#include <stdint.h>
#include <stdio.h>
#include <stdlib.h>
#include <string.h>
#include <sys/epoll.h>
#include <sys/socket.h>
#include <time.h>
#include <unistd.h>

enum { STEPS = 64, BUCKETS = STEPS * 40, MOST_CARRIERS = 64, MOST_THREADS = 16, MOST_ACTIVES = 60, DIALS = 200 };

static const uint64_t SECOND = 1000000000ull;
/* The burst of the registration of radio 1001. */
static const uint8_t REGISTRATION[DMR_LINK_WORD] = {0x0E, 0xB4, 0x9C, 0xDF, 0x34, 0xF2, 0x74, 0x9C, 0xEC, 0xBA, 0x5C, 0xB3, 0xB7,
                                         0xC4, 0x0E, 0x88, 0x13, 0x8C, 0x9A, 0x38, 0xF9, 0x62, 0x48, 0xE1, 0x80};

static struct {
    int base_port, carriers, first_lpcn, lpcn_step, version, seconds, threads, actives, rx_every, control, server;
    long period, offset; /* microseconds; no offset: -1 */
    bool at_once, fast, spins;
} options = {7101, 16, 101, 2, 1, 10, 1, 0, 0, 0, 0, 60000, -1, false, false, false};

static __attribute__((noreturn)) void die(const char *what) {
    perror(what);
    exit(1);
}

static uint64_t nanoseconds_now(void) {
    struct timespec now;
    clock_gettime(CLOCK_MONOTONIC, &now);
    return now.tv_sec * SECOND + now.tv_nsec;
}

/* ---- times, in buckets of 64 steps to each doubling */

typedef struct {
    uint64_t bucket[BUCKETS], count, most;
    double sum;
} Times;

static int bucket_of(uint64_t time) {
    int shift = time < STEPS ? 0 : 57 - __builtin_clzll(time);
    int bucket = time < STEPS ? (int)time : (shift + 1) * STEPS + (int)((time >> shift) - STEPS);
    return bucket < BUCKETS ? bucket : BUCKETS - 1;
}

static double middle_of(int bucket) {
    int shift = bucket / STEPS - 1;
    if (bucket < STEPS) return bucket;
    return ((uint64_t)(bucket % STEPS + STEPS) << shift) + (1ull << shift) / 2.0;
}

static void add_time(Times *times, uint64_t time) {
    times->bucket[bucket_of(time)]++;
    times->count++;
    times->sum += time;
    if (time > times->most) times->most = time;
}

static void add_times(Times *times, const Times *others) {
    for (int i = 0; i < BUCKETS; i++) times->bucket[i] += others->bucket[i];
    times->count += others->count;
    times->sum += others->sum;
    if (others->most > times->most) times->most = others->most;
}

/* The microseconds that a part of all answers did not exceed. */
static double quantile(const Times *times, double part) {
    uint64_t wanted = part * times->count, seen = 0;
    for (int i = 0; i < BUCKETS; i++) {
        seen += times->bucket[i];
        if (seen > wanted) return middle_of(i) / 1e3;
    }
    return times->most / 1e3;
}

/* ---- the server's process */

typedef struct {
    uint64_t read, used;  /* nanoseconds: when this was read, and the processor time by the process's own clock */
    double user, system;  /* seconds, in steps of the system's */
    long memory, threads, switches;
} Usage;

static long status_field(const char *path, const char *field) {
    char line[256];
    long value = 0;
    FILE *file = fopen(path, "r");
    while (file && fgets(line, sizeof line, file))
        if (!strncmp(line, field, strlen(field))) value = atol(line + strlen(field) + 1);
    if (file) fclose(file);
    return value;
}

static Usage read_usage(int pid) {
    char path[64], line[1024], *rest;
    unsigned long user = 0, system = 0;
    Usage usage = {.read = nanoseconds_now()};
    clockid_t clock;
    struct timespec used;
    if (!clock_getcpuclockid(pid, &clock) && !clock_gettime(clock, &used)) usage.used = used.tv_sec * SECOND + used.tv_nsec;
    snprintf(path, sizeof path, "/proc/%d/stat", pid);
    FILE *file = fopen(path, "r");
    if (file && fgets(line, sizeof line, file) && (rest = strrchr(line, ')')))
        sscanf(rest + 2, "%*c %*d %*d %*d %*d %*d %*u %*u %*u %*u %*u %lu %lu", &user, &system);
    if (file) fclose(file);
    usage.user = user / (double)sysconf(_SC_CLK_TCK);
    usage.system = system / (double)sysconf(_SC_CLK_TCK);
    snprintf(path, sizeof path, "/proc/%d/status", pid);
    usage.memory = status_field(path, "VmRSS:");
    usage.threads = status_field(path, "Threads:");
    snprintf(path, sizeof path, "/proc/%d/task", pid);
    DIR *tasks = opendir(path);
    for (struct dirent *task; tasks && (task = readdir(tasks));) {
        char status[384];
        if (task->d_name[0] == '.') continue;
        snprintf(status, sizeof status, "%s/%s/status", path, task->d_name);
        usage.switches +=
            status_field(status, "voluntary_ctxt_switches:") + status_field(status, "nonvoluntary_ctxt_switches:");
    }
    if (tasks) closedir(tasks);
    return usage;
}

/* ---- carriers */

typedef struct {
    int stream, carrier;
    struct dmr_link link;
    unsigned polls;
    uint64_t sent, due, next, octets;
} Carrier;

typedef struct {
    int count;
    Carrier carrier[MOST_CARRIERS];
    Times times, from_due;
    bool reads_usage; /* of the server's process, from the first poll to the last */
    Usage before, after;
} Player;

static int dial(int port) {
    struct sockaddr_in address = {
        .sin_family = AF_INET, .sin_port = htons(port), .sin_addr = {htonl(INADDR_LOOPBACK)}};
    for (int dials = 0; dials < DIALS; dials++) {
        int stream = socket(AF_INET, SOCK_STREAM, 0), one = 1;
        if (stream < 0) die("socket");
        setsockopt(stream, IPPROTO_TCP, TCP_NODELAY, &one, sizeof one);
        if (!connect(stream, (void *)&address, sizeof address)) return stream;
        close(stream);
        nanosleep(&(struct timespec){0, 20000000}, 0);
    }
    die("connect");
}

/* Takes octets that came. Whether a DONE was among them. */
static bool take(Carrier *c, const uint8_t *octets, int count) {
    bool done = false;
    c->octets += count;
    for (int i = 0; i < count; i++) switch (dmr_link_octet(&c->link, octets[i])) {
        case DMR_LINK_DONE: done = true; break;
        case DMR_LINK_REFUSED:
        case DMR_LINK_FAULT:
            fprintf(stderr, "load_generator: carrier %d: %s\n", c->carrier, c->link.cause ? "refused" : "no frame of a controller");
            exit(1);
        default: break;
        }
    return done;
}

static void come_up(Carrier *c) {
    uint8_t octets[6];
    size_t count = dmr_link_hello(&c->link, options.version, c->carrier, options.first_lpcn + options.lpcn_step * c->carrier, octets);
    c->stream = dial(options.base_port + c->carrier);
    if (!count || write(c->stream, octets, count) != (ssize_t)count) die("HELLO");
    for (ssize_t got; !c->link.up; take(c, octets, got))
        if ((got = read(c->stream, octets, sizeof octets)) <= 0) die("WELCOME");
    c->octets = 0;
    fcntl(c->stream, F_SETFL, O_NONBLOCK);
}

static void send_poll(Carrier *c, uint64_t due) {
    uint8_t octets[64 + 3 * MOST_ACTIVES];
    size_t count = 0;
    if (options.rx_every && c->carrier == options.control && c->polls % options.rx_every == 0)
        count += dmr_link_rx(&c->link, 0, REGISTRATION, octets + count);
    for (int i = 0; i < options.actives; i++)
        count += dmr_link_active((i ^ (c->carrier == options.control)) & 1, octets + count);
    count += dmr_link_poll(&c->link, octets + count);
    c->polls++;
    c->due = due;
    c->sent = nanoseconds_now();
    if (write(c->stream, octets, count) != (ssize_t)count) die("POLL");
}

static void read_answer(Player *player, Carrier *c) {
    uint8_t octets[4096];
    int count = read(c->stream, octets, sizeof octets);
    uint64_t now;
    if (count < 0 && errno == EAGAIN) return;
    if (count <= 0) die("a connection ended");
    if (!take(c, octets, count)) return;
    now = nanoseconds_now();
    add_time(&player->times, now - c->sent);
    add_time(&player->from_due, now - c->due);
    if (options.fast) send_poll(c, now);
}

/* Sends the polls that are due. When the next one is. */
static uint64_t send_due_polls(Player *player, uint64_t end) {
    uint64_t soonest = end, now = nanoseconds_now();
    for (int i = 0; i < player->count; i++) {
        Carrier *c = &player->carrier[i];
        if (now >= c->next && !c->link.waits) {
            send_poll(c, c->next);
            c->next += options.period * 1000;
        }
        if (!c->link.waits && c->next < soonest) soonest = c->next;
    }
    return soonest;
}

/* When the first carrier's first poll is due: 2 ms after the start, or as soon after that as the offset says. */
static uint64_t first_due(uint64_t start) {
    uint64_t soonest = start + 2000000, period = options.period * 1000ull, offset = options.offset * 1000ull;
    if (options.offset < 0) return soonest;
    return soonest + (period + offset % period - soonest % period) % period;
}

static void *play(void *argument) {
    Player *player = argument;
    int epoll = epoll_create1(0);
    uint64_t start, end, due;
    for (int i = 0; i < player->count; i++) {
        struct epoll_event event = {.events = EPOLLIN, .data.ptr = &player->carrier[i]};
        come_up(&player->carrier[i]);
        epoll_ctl(epoll, EPOLL_CTL_ADD, player->carrier[i].stream, &event);
    }
    if (player->reads_usage) player->before = read_usage(options.server);
    start = nanoseconds_now();
    end = start + options.seconds * SECOND;
    due = first_due(start);
    for (int i = 0; i < player->count; i++) {
        Carrier *c = &player->carrier[i];
        c->next = due + (options.at_once ? 0 : options.period * 1000ull * c->carrier / options.carriers);
        if (options.fast) send_poll(c, start);
    }
    for (uint64_t now; (now = nanoseconds_now()) < end;) {
        struct epoll_event events[MOST_CARRIERS];
        uint64_t soonest = options.fast ? end : send_due_polls(player, end), wait = soonest > now ? soonest - now : 0;
        struct timespec time = {wait / SECOND, wait % SECOND};
        if (options.spins) time = (struct timespec){0, 0};
        int count = epoll_pwait2(epoll, events, MOST_CARRIERS, &time, 0);
        for (int i = 0; i < count; i++) read_answer(player, events[i].data.ptr);
    }
    if (player->reads_usage) player->after = read_usage(options.server);
    for (int i = 0; i < player->count; i++) close(player->carrier[i].stream);
    return 0;
}

/* ---- the whole */

static void print_usage(const Usage *before, const Usage *after, uint64_t polls) {
    double seconds = (after->read - before->read) / (double)SECOND, used = (after->used - before->used) / (double)SECOND;
    printf("  server: user %.2f s, system %.2f s of %.1f s: %.2f %% of a processor, %.2f us a poll; "
           "%ld kB, %ld threads, %.0f context switches a second\n",
           after->user - before->user, after->system - before->system, seconds, 100 * used / seconds,
           polls ? 1e6 * used / polls : 0, after->memory, after->threads, (after->switches - before->switches) / seconds);
}

static int read_options(int argc, char **argv) {
    int option;
    while ((option = getopt(argc, argv, "p:n:l:L:v:s:u:o:AfST:P:a:r:c:")) != -1) switch (option) {
        case 'p': options.base_port = atoi(optarg); break;
        case 'n': options.carriers = atoi(optarg); break;
        case 'l': options.first_lpcn = atoi(optarg); break;
        case 'L': options.lpcn_step = atoi(optarg); break;
        case 'v': options.version = atoi(optarg); break;
        case 's': options.seconds = atoi(optarg); break;
        case 'u': options.period = atol(optarg); break;
        case 'o': options.offset = atol(optarg); break;
        case 'A': options.at_once = true; break;
        case 'f': options.fast = true; break;
        case 'S': options.spins = true; break;
        case 'T': options.threads = atoi(optarg); break;
        case 'P': options.server = atoi(optarg); break;
        case 'a': options.actives = atoi(optarg); break;
        case 'r': options.rx_every = atoi(optarg); break;
        case 'c': options.control = atoi(optarg); break;
        default: return -1;
        }
    bool fits = options.carriers >= 1 && options.carriers <= MOST_CARRIERS && options.threads >= 1 &&
                options.threads <= MOST_THREADS && options.actives >= 0 && options.actives <= MOST_ACTIVES &&
                options.seconds >= 1 && options.period >= 1 && (options.version == 1 || options.version == 2);
    return fits ? 0 : -1;
}

int main(int argc, char **argv) {
    static Player players[MOST_THREADS];
    static Times times, from_due;
    pthread_t threads[MOST_THREADS];
    uint64_t octets = 0, polls;
    if (read_options(argc, argv)) return 2;
    for (int carrier = 0; carrier < options.carriers; carrier++) {
        Player *player = &players[carrier % options.threads];
        player->carrier[player->count++].carrier = carrier;
    }
    players[0].reads_usage = options.server;
    for (int i = 0; i < options.threads; i++) pthread_create(&threads[i], 0, play, &players[i]);
    for (int i = 0; i < options.threads; i++) {
        pthread_join(threads[i], 0);
        add_times(&times, &players[i].times);
        add_times(&from_due, &players[i].from_due);
        for (int k = 0; k < players[i].count; k++) octets += players[i].carrier[k].octets;
    }
    polls = times.count;
    printf("%llu polls, %.0f a second; microseconds: mean %.1f, median %.1f, 99 %% %.1f, 99.9 %% %.1f, most %.1f; ",
           (unsigned long long)polls, polls / (double)options.seconds, times.sum / (polls ? polls : 1) / 1e3,
           quantile(&times, 0.5), quantile(&times, 0.99), quantile(&times, 0.999), times.most / 1e3);
    if (!options.fast) printf("from due: 99.9 %% %.1f, most %.1f; ", quantile(&from_due, 0.999), from_due.most / 1e3);
    printf("%.1f octets a poll\n", octets / (double)(polls ? polls : 1));
    if (options.server) print_usage(&players[0].before, &players[0].after, polls);
    return 0;
}
