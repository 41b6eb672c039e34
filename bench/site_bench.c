/*
 * Plays loads to the site of reference/site.h. `make bench` compares it with `test_program --load`.
 *
 *     site_bench --load LOAD CARRIERS RADIOS FRAMES   plays frames of a load, and prints "rate octets sum events": events a
 *                                                     second, how many octets went out, their sum, and how many events came
 *
 * LOAD: polls, registrations, joins, calls, busy. The loads, and what an event is, are those of crates/test_program.
 * It is a bench, not a controller; site.h says what the site lacks.
 */
#define _POSIX_C_SOURCE 200809L
#include "../reference/site_link.h"
#include "words.h"
#include <stdio.h>

enum { BURSTS = 4096, KEPT_FRAMES = 256, OUTPUT_ROOM = 1 << 21, GROUPS = 16, REGI = 0xFFFEC6 };
enum { JOINING = 0x020E, LEAVING = 0x000E, STRIDE = 7919 };

typedef enum { POLLS, REGISTRATIONS, JOINS, CALLS, BUSY_HOUR, LOADS } Load;
static const char *const LOAD_NAMES[LOADS] = {"polls", "registrations", "joins", "calls", "busy"};

typedef struct {
    Site *site;
    int carriers;
    uint8_t *end[CARRIERS]; /* of what went out */
    uint64_t events, octets, sum;
} Scene;

static uint8_t output[CARRIERS][OUTPUT_ROOM];
static uint8_t bursts[BURSTS][28];

/* The site of crates/test_program. */
static Plan bench_plan(int carriers) {
    Plan plan = {.system = 0x0A51,
                 .regi = REGI,
                 .tsi = 0xFFFECA,
                 .hang = 50,
                 .maximum = 100,
                 .ahoy_wait = 8,
                 .ahoy_tries = 4,
                 .grant_copies = 2,
                 .clear_copies = 2,
                 .backoff_low = 2,
                 .backoff_high = 12,
                 .leave_bit = 0,
                 .link_version = 1,
                 .radios = {{1, 5000}},
                 .radio_ranges = 1,
                 .group_count = GROUPS};
    for (int i = 0; i < GROUPS; i++) plan.groups[i] = i + 1;
    for (int carrier = 0; carrier < carriers; carrier++) {
        plan.lpcn[carrier] = carrier + 1;
        plan.listed |= 1 << carrier;
    }
    return plan;
}

static void begin_scene(Scene *scene, int carriers) {
    Plan plan = bench_plan(carriers);
    memset(scene, 0, sizeof *scene);
    scene->site = new_site(&plan);
    if (!scene->site) {
        fputs("site_bench: out of memory\n", stderr);
        exit(4);
    }
    scene->carriers = carriers;
    for (int carrier = 0; carrier < CARRIERS; carrier++) scene->end[carrier] = output[carrier];
}

/* ---- loads */

/* The RX of a PDU, in version 1 of the link, on slot 0. */
static void write_rx(uint8_t *frame, uint8_t first, uint16_t half, uint32_t upper, uint32_t lower) {
    uint8_t pdu[10] = {first, 0, half >> 8, half};
    write_24(pdu + 4, upper);
    write_24(pdu + 7, lower);
    frame[0] = RX;
    frame[1] = 26;
    frame[2] = 0;
    write_burst(pdu, frame + 3);
}

static void write_registration(uint8_t *frame, uint32_t radio) { write_rx(frame, C_RAND, JOINING, REGI, radio); }

/* The burst that the control slot receives in a frame of the busy hour. */
static void write_busy_burst(uint8_t *rx, uint32_t frame, uint32_t radios) {
    uint32_t radio = 1 + frame / 4 * STRIDE % radios, called = 1 + radio % radios;
    switch (frame % 4) {
    case 1: write_rx(rx, C_RAND, TALKGROUP_VOICE, 1 + frame / 4 % GROUPS, radio); break;
    case 2: write_rx(rx, C_RAND, INDIVIDUAL_VOICE, called, radio); break;
    case 3: write_rx(rx, C_ACKU, MS_ACCEPTED << 1, radio, called); break;
    default: write_registration(rx, radio);
    }
}

/* A talkgroup call is requested twice, and ends as its radio leaves, which then registers again. */
static void write_call_burst(uint8_t *rx, uint32_t frame, uint32_t radios) {
    uint32_t radio = 1 + frame / 4 * STRIDE % radios;
    switch (frame % 4) {
    case 2: write_rx(rx, C_RAND, LEAVING, REGI, radio); break;
    case 3: write_registration(rx, radio); break;
    default: write_rx(rx, C_RAND, TALKGROUP_VOICE, 1 + frame / 4 % GROUPS, radio);
    }
}

static void write_bursts(Load load, uint32_t radios) {
    if (!radios) radios = 1;
    for (uint32_t frame = 0; frame < BURSTS; frame++) {
        uint8_t *rx = bursts[frame];
        if (load == BUSY_HOUR) write_busy_burst(rx, frame, radios);
        else if (load == CALLS) write_call_burst(rx, frame, radios);
        else if (load == JOINS) write_rx(rx, C_RAND, frame % 2 ? JOINING : LEAVING, REGI, 1 + frame / 2 * STRIDE % radios);
        else write_registration(rx, 1 + frame * STRIDE % radios);
    }
}

/* Counts and sums up what went out, and drops it. */
static void drop_output(Scene *scene) {
    for (int carrier = 0; carrier < CARRIERS; carrier++) {
        const uint8_t *start = output[carrier];
        scene->octets += scene->end[carrier] - start;
        for (const uint8_t *octet = start; octet < scene->end[carrier]; octet++) scene->sum += *octet;
        scene->end[carrier] = output[carrier];
    }
}

static inline void take(Scene *scene, int carrier, const uint8_t *octets, int count) {
    scene->events++;
    scene->end[carrier] = take_octets(scene->site, carrier, octets, count, scene->end[carrier]);
}

static const uint8_t POLL_FRAME[2] = {POLL, 0}, ACTIVE_FRAME[2][3] = {{ACTIVE, 1, 0}, {ACTIVE, 1, 1}};

static void play_busy_frame(Scene *scene, const uint8_t *rx) {
    scene->events++;
    tick(scene->site);
    for (int carrier = 0; carrier < scene->carriers; carrier++) {
        if (carrier) take(scene, carrier, ACTIVE_FRAME[0], 3);
        else take(scene, carrier, rx, 28);
        take(scene, carrier, ACTIVE_FRAME[1], 3);
        take(scene, carrier, POLL_FRAME, 2);
    }
}

__attribute__((noinline)) static void play(Scene *scene, Load load, int frames) {
    for (int frame = 0; frame < frames; frame++) {
        const uint8_t *rx = bursts[frame % BURSTS];
        if (load == POLLS) {
            for (int carrier = 0; carrier < scene->carriers; carrier++) take(scene, carrier, POLL_FRAME, 2);
        } else if (load == BUSY_HOUR) {
            play_busy_frame(scene, rx);
        } else {
            take(scene, 0, rx, 28);
            take(scene, 0, POLL_FRAME, 2);
            if (load == CALLS) take(scene, 0, POLL_FRAME, 2);
        }
        if (frame % KEPT_FRAMES == 0) drop_output(scene);
    }
    drop_output(scene);
}

/* Connects all carriers, and registers the radios. */
static void set_up(Scene *scene, int carriers, uint32_t radios) {
    begin_scene(scene, carriers);
    for (int carrier = 0; carrier < carriers; carrier++) {
        uint8_t hello[6] = {HELLO, 4, 1, carrier, 0, carrier + 1};
        open_link(scene->site, carrier);
        take(scene, carrier, hello, 6);
    }
    for (uint32_t radio = 1; radio <= radios; radio++) {
        uint8_t rx[28];
        write_registration(rx, radio);
        take(scene, 0, rx, 28);
        take(scene, 0, POLL_FRAME, 2);
    }
    drop_output(scene);
    scene->events = scene->octets = scene->sum = 0;
}

static int run_load(const char *name, int carriers, uint32_t radios, int frames) {
    static Scene scene;
    Load load = POLLS;
    double seconds;
    while (load < LOADS && strcmp(name, LOAD_NAMES[load])) load++;
    if (load == LOADS || carriers < 1 || carriers > CARRIERS) return 2;
    set_up(&scene, carriers, radios);
    write_bursts(load, radios);
    seconds = seconds_now();
    play(&scene, load, frames);
    seconds = seconds_now() - seconds;
    printf("%.0f %llu %llu %llu\n", scene.events / seconds, (unsigned long long)scene.octets,
           (unsigned long long)scene.sum, (unsigned long long)scene.events);
    free(scene.site);
    return 0;
}

int main(int argc, char **argv) {
    int status = 2;
    make_coder_tables();
    if (argc == 6 && !strcmp(argv[1], "--load")) status = run_load(argv[2], atoi(argv[3]), atoi(argv[4]), atoi(argv[5]));
    if (status == 2) fputs("site_bench: --load LOAD CARRIERS RADIOS FRAMES\n", stderr);
    return status;
}
