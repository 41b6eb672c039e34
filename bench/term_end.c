/*
 * Measures what the parts of a term's end cost in C, each as the proved desk does it and in another way:
 *
 *     stop     17 workers that wait in parts of 25 ms and look whether the term is over, or are woken; all are joined
 *     audit    18 views compared with a journal of N entries: a pass over the journal for each view, or one pass for all;
 *              with entries of 568 octets, as the desk has them, or of 64
 *     memory   what it takes to give the journal and the views back to the system
 *
 * It models these parts alone: there is no site, no lock, and no entry that means anything. Nothing in it is proved.
 */
#define _GNU_SOURCE
#include <pthread.h>
#include <stdbool.h>
#include <stdint.h>
#include <stdio.h>
#include <stdlib.h>
#include <string.h>
#include <sys/epoll.h>
#include <sys/eventfd.h>
#include <sys/mman.h>
#include <time.h>
#include <unistd.h>

enum { WORKERS = 17, VIEWS = 18, PART_MS = 25, STOPS = 40, AUDITS = 5, LARGE_ENTRY = 568, SMALL_ENTRY = 64 };

static volatile bool is_over;
static int wake_up[WORKERS];

static double milliseconds_now(void) {
    struct timespec now;
    clock_gettime(CLOCK_MONOTONIC, &now);
    return now.tv_sec * 1e3 + now.tv_nsec / 1e6;
}

/* ---- stopping */

static void *work(void *argument) {
    struct epoll_event event = {.events = EPOLLIN};
    int epoll = epoll_create1(0);
    epoll_ctl(epoll, EPOLL_CTL_ADD, *(int *)argument, &event);
    while (!is_over) epoll_wait(epoll, &event, 1, PART_MS);
    close(epoll);
    return 0;
}

/* Starts the workers, and stops them after a while. The milliseconds of the stop; those of the start go to `starting`. */
static double stop_once(bool wakes, double *starting) {
    pthread_t threads[WORKERS];
    uint64_t count = 1;
    double start = milliseconds_now();
    is_over = false;
    for (int i = 0; i < WORKERS; i++) {
        if (read(wake_up[i], &count, sizeof count) < 0) count = 1;
        pthread_create(&threads[i], 0, work, &wake_up[i]);
    }
    *starting = milliseconds_now() - start;
    nanosleep(&(struct timespec){0, 30000000 + rand() % 25000000}, 0);
    start = milliseconds_now();
    is_over = true;
    count = 1;
    for (int i = 0; wakes && i < WORKERS; i++)
        if (write(wake_up[i], &count, sizeof count) < 0) perror("eventfd");
    for (int i = 0; i < WORKERS; i++) pthread_join(threads[i], 0);
    return milliseconds_now() - start;
}

static void print_stops(bool wakes) {
    double sum = 0, most = 0, started = 0;
    for (int i = 0; i < STOPS; i++) {
        double starting, stopping = stop_once(wakes, &starting);
        sum += stopping;
        started += starting;
        if (stopping > most) most = stopping;
    }
    printf("stop, %s: mean %.2f ms, most %.2f ms; starting %d threads %.2f ms\n", wakes ? "woken" : "parts of 25 ms",
           sum / STOPS, most, WORKERS, started / STOPS);
}

/* ---- the audit */

typedef struct {
    size_t count, size; /* entries, and octets of one */
    uint8_t *journal, *view[VIEWS];
} Term;

static uint8_t *reserve(const Term *term) {
    void *octets = mmap(0, term->count * term->size, PROT_READ | PROT_WRITE, MAP_PRIVATE | MAP_ANONYMOUS, -1, 0);
    if (octets == MAP_FAILED) {
        perror("mmap");
        exit(1);
    }
    return octets;
}

static Term make_term(size_t count, size_t size) {
    Term term = {.count = count, .size = size};
    size_t next[VIEWS] = {0};
    term.journal = reserve(&term);
    for (int i = 0; i < VIEWS; i++) term.view[i] = reserve(&term);
    for (size_t i = 0; i < count; i++) {
        int actor = i * 7 % WORKERS;
        uint8_t *entry = term.journal + i * size;
        memset(entry, i, size);
        entry[0] = actor;
        memcpy(term.view[actor] + next[actor]++ * size, entry, size);
    }
    return term;
}

static bool audit_in_passes(const Term *term) {
    bool same = true;
    for (int actor = 0; actor < VIEWS; actor++) {
        size_t next = 0;
        for (size_t i = 0; i < term->count; i++) {
            const uint8_t *entry = term->journal + i * term->size;
            if (*entry == actor) same &= !memcmp(entry, term->view[actor] + next++ * term->size, term->size);
        }
    }
    return same;
}

static bool audit_at_once(const Term *term) {
    size_t next[VIEWS] = {0};
    bool same = true;
    for (size_t i = 0; i < term->count; i++) {
        const uint8_t *entry = term->journal + i * term->size;
        same &= !memcmp(entry, term->view[*entry] + next[*entry]++ * term->size, term->size);
    }
    return same;
}

/* The least milliseconds of an audit, of several; those of giving the memory back go to `freeing`. */
static double time_audit(size_t count, size_t size, bool (*audit)(const Term *), double *freeing) {
    double best = 1e9;
    for (int i = 0; i < AUDITS; i++) {
        Term term = make_term(count, size);
        double start = milliseconds_now(), took;
        if (!audit(&term)) fputs("term_end: a view differs\n", stderr);
        took = milliseconds_now() - start;
        if (took < best) best = took;
        start = milliseconds_now();
        munmap(term.journal, count * size);
        for (int k = 0; k < VIEWS; k++) munmap(term.view[k], count * size);
        *freeing = milliseconds_now() - start;
    }
    return best;
}

int main(void) {
    const size_t counts[] = {1000, 10000, 100000};
    for (int i = 0; i < WORKERS; i++) wake_up[i] = eventfd(0, EFD_NONBLOCK);
    print_stops(false);
    print_stops(true);
    for (size_t i = 0; i < sizeof counts / sizeof *counts; i++) {
        double large, small, passes = time_audit(counts[i], LARGE_ENTRY, audit_in_passes, &large);
        double once = time_audit(counts[i], LARGE_ENTRY, audit_at_once, &large);
        double at_64 = time_audit(counts[i], SMALL_ENTRY, audit_at_once, &small);
        printf("audit of %zu entries: a pass for each view %.2f ms, one pass %.2f ms, of 64 octets %.2f ms; "
               "memory given back in %.2f and %.2f ms\n",
               counts[i], passes, once, at_64, large, small);
    }
    return 0;
}
