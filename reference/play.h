/*
 * Plays inputs to a site, and keeps what it writes: for each carrier, and for operators. The lines of a script are inputs
 * (docs/FORMATS.md, "Scripts").
 */
#ifndef PLAY_H
#define PLAY_H

#include "site_console.h"
#include "site_link.h"

/* The parties: carriers by their numbers, and operators. */
enum { OPERATORS = CARRIERS, PARTIES };
/* The most octets that an octet of a carrier is answered by: a POLL by two TX and DONE. */
enum { MOST_ANSWER = 64 };

typedef struct {
    uint8_t *octets;
    size_t count, room;
} Output;

typedef struct {
    Site *site;
    Output outputs[PARTIES];
} Play;

static inline Play new_play(const Plan *plan) {
    Play play = {.site = new_site(plan)};
    if (!play.site) {
        fputs("out of memory\n", stderr);
        exit(4);
    }
    return play;
}

static inline void free_play(Play *play) {
    for (int party = 0; party < PARTIES; party++) free(play->outputs[party].octets);
    free(play->site);
}

/* The place for the next octets of a party, of which at least `room` fit. */
static inline uint8_t *room_for(Output *output, size_t room) {
    if (output->count + room > output->room) {
        output->room = 2 * (output->count + room);
        output->octets = realloc(output->octets, output->room);
        if (!output->octets) {
            fputs("out of memory\n", stderr);
            exit(4);
        }
    }
    return output->octets + output->count;
}

/* ---- inputs */

static inline void play_tick(Play *play) { tick(play->site); }

static inline void play_turn(Play *play, int carrier, bool opens) {
    if (!is_listed(play->site, carrier)) {
        REACHED(UNLISTED);
    } else if (opens) {
        open_link(play->site, carrier);
    } else {
        REACHED(is_up(play->site, carrier) ? CUT_UP : CUT_DOWN);
        cut_link(play->site, carrier);
    }
}

static inline void play_text(Play *play, const uint8_t *octets, int count) {
    Output *output = &play->outputs[OPERATORS];
    uint8_t *place = room_for(output, (size_t)count * REPLY_OCTETS);
    output->count += take_text(play->site, octets, count, place) - place;
}

static inline void play_octets(Play *play, int carrier, const uint8_t *octets, int count) {
    if (!is_listed(play->site, carrier)) {
        REACHED(UNLISTED);
        return;
    }
    if (play->site->links[carrier].state == CLOSED) REACHED(OCTETS_CLOSED);
    Output *output = &play->outputs[carrier];
    uint8_t *place = room_for(output, (size_t)count * MOST_ANSWER);
    output->count += take_octets(play->site, carrier, octets, count, place) - place;
}

/* ---- scripts */

static inline int digit(char c) { return c <= '9' ? c - '0' : (c | 32) - 'a' + 10; }

/* Reads hexadecimal octets up to the end of the line, over the text itself. How many there are. */
static inline int read_hex(char *text) {
    uint8_t *octets = (uint8_t *)text;
    int count = 0;
    for (; text[0] > ' ' && text[1] > ' '; text += 2) octets[count++] = digit(text[0]) << 4 | digit(text[1]);
    return count;
}

/* Plays a line of a script, with its end. Each kind of line begins with another letter, but for `tick` and `text`. A line that is
 * none is not found. */
static inline void play_line(Play *play, char *line) {
    char *rest = strchr(line, ' ');
    long number = rest ? strtol(rest, &rest, 10) : 1;
    if (line[0] == 's') {
        size_t end = strcspn(line, "\n");
        line[end] = '\n';
        play_text(play, (uint8_t *)line + strlen("say "), end + 1 - strlen("say "));
    } else if (!strncmp(line, "text ", 5)) {
        play_text(play, (uint8_t *)line + 5, read_hex(line + 5));
    } else if (line[0] == 't') {
        while (number-- > 0) play_tick(play);
    } else if (line[0] == 'o' || line[0] == 'c') {
        play_turn(play, number, line[0] == 'o');
    } else if (line[0] == 'b') {
        play_octets(play, number, (uint8_t *)rest + 1, read_hex(rest + 1));
    }
}

/* ---- what was written */

static inline void write_hex(FILE *file, const uint8_t *octets, size_t count) {
    for (size_t i = 0; i < count; i++) {
        putc("0123456789ABCDEF"[octets[i] >> 4], file);
        putc("0123456789ABCDEF"[octets[i] & 15], file);
    }
}

/* Writes what `dmr_trunk --script` prints. */
static inline void write_printed(const Play *play, FILE *file) {
    for (int carrier = 0; carrier < CARRIERS; carrier++) {
        const Output *output = &play->outputs[carrier];
        if (!is_listed(play->site, carrier)) continue;
        fprintf(file, "carrier %d ", carrier);
        if (output->count) write_hex(file, output->octets, output->count);
        else putc('-', file);
        putc('\n', file);
    }
    if (play->outputs[OPERATORS].count) fwrite(play->outputs[OPERATORS].octets, 1, play->outputs[OPERATORS].count, file);
}

#endif
