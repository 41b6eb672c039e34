/*
 * The console of a site in plain C (docs/FORMATS.md, "Console"): octets of operators to commands, and their replies.
 *
 * It writes to a buffer of the caller, and checks no room: a reply has 1,024 octets at most.
 */
#ifndef SITE_CONSOLE_H
#define SITE_CONSOLE_H

#include "site_machine.h"
#include <stdio.h>

enum { REPLY_OCTETS = 1024, LISTED_AT_ONCE = 16, MOST_DIGITS = 8, MOST_WORDS = 4, MOST_NUMBERS = 2 };

/* Writes a text, and returns its end. */
#define PRINT(out, ...) ((out) + sprintf((char *)(out), __VA_ARGS__))

static inline bool is_listed(const Site *s, uint32_t carrier) { return carrier < CARRIERS && s->plan.listed >> carrier & 1; }

static inline const Call *call_on(const Site *s, int slot) {
    for (int i = 0; i < s->call_count; i++)
        if (s->calls[i].slot == slot) return &s->calls[i];
    return 0;
}

static inline uint8_t *write_parties(uint8_t *out, bool group, uint32_t target, uint32_t source) {
    return PRINT(out, "%s %u from %u\n", group ? "group" : "radio", (unsigned)target, (unsigned)source);
}

static inline uint8_t *reply_status(Site *s, const uint32_t *numbers, uint8_t *out) {
    (void)numbers;
    int up = __builtin_popcount(s->up & s->plan.listed);
    REACHED(s->moved_to ? STATUS_MOVE : STATUS_ALOHA);
    out = PRINT(out, "status carriers %d radios %d asks %d lines %d calls %d fill ", up, s->radio_count, s->ask_count, s->line_count, s->call_count);
    return s->moved_to ? PRINT(out, "move %d\n", s->moved_to) : PRINT(out, "aloha\n");
}

/* The least registered radio from a number on, or 0. */
static inline uint32_t next_radio(const Site *s, uint32_t from) {
    uint32_t least = 0;
    for (int i = 0; i < HASH_PLACES; i++)
        if (s->hash[i] >= from && s->hash[i] && (!least || s->hash[i] < least)) least = s->hash[i];
    return least;
}

static inline uint8_t *reply_radios(Site *s, const uint32_t *from, uint8_t *out) {
    uint32_t radio = next_radio(s, *from);
    int listed = 0;
    for (; radio && listed < LISTED_AT_ONCE; listed++) {
        out = PRINT(out, "radio %u\n", (unsigned)radio);
        radio = next_radio(s, radio + 1);
    }
    REACHED(radio ? RADIOS_MANY : RADIOS_SOME);
    return PRINT(out, "end\n");
}

static inline uint8_t *reply_calls(Site *s, const uint32_t *numbers, uint8_t *out) {
    uint32_t carrier = *numbers;
    bool any = false;
    if (!is_listed(s, carrier)) {
        REACHED(CALLS_NO_CARRIER);
        return PRINT(out, "error no carrier\n");
    }
    for (int slot = 2 * carrier; slot < 2 * (int)carrier + 2; slot++) {
        const Call *call = call_on(s, slot);
        if (!call) continue;
        any = true;
        REACHED(call->group ? CALLS_GROUP : CALLS_RADIO);
        out = write_parties(PRINT(out, "call %u %d ", (unsigned)carrier, slot & 1), call->group, call->target, call->source);
    }
    if (!any) REACHED(CALLS_NONE);
    return PRINT(out, "end\n");
}

static inline uint8_t *reply_lines(Site *s, const uint32_t *numbers, uint8_t *out) {
    int from = *numbers;
    if (from > s->line_count) REACHED(LINES_NONE);
    for (int place = from; place <= s->line_count && place < from + LISTED_AT_ONCE; place++) {
        const Line *line = &s->lines[place - 1];
        REACHED(line->group ? LINES_GROUP : LINES_RADIO);
        out = write_parties(PRINT(out, "line %d ", place), line->group, line->target, line->source);
    }
    return PRINT(out, "end\n");
}

static inline const char *state_of(const Site *s, int slot) {
    uint32_t taken = s->waiting | s->granted;
    if (slot == control_slot(s)) return REACHED(SLOTS_CONTROL), "control";
    if (!is_up(s, slot / 2)) return REACHED(SLOTS_DOWN), "down";
    if (s->held >> slot & 1) return REACHED(SLOTS_CALL), "call";
    if (taken >> slot & 1) return REACHED(SLOTS_WAITING), "waiting";
    return REACHED(SLOTS_FREE), "free";
}

static inline uint8_t *reply_slots(Site *s, const uint32_t *numbers, uint8_t *out) {
    (void)numbers;
    for (int slot = 0; slot < SLOTS; slot++)
        if (is_listed(s, slot / 2)) out = PRINT(out, "slot %d %d %s\n", slot / 2, slot & 1, state_of(s, slot));
    return PRINT(out, "end\n");
}

static inline uint8_t *drop_radio(Site *s, const uint32_t *numbers, uint8_t *out) {
    uint32_t radio = *numbers;
    if (!is_registered(s, radio)) {
        REACHED(DROP_STRANGER);
        return PRINT(out, "error not registered\n");
    }
    if (!has_room(s)) {
        REACHED(DROP_BUSY);
        return PRINT(out, "error busy\n");
    }
    REACHED(DROP_DONE);
    close_radio(s, radio);
    unregister_radio(s, radio);
    return PRINT(out, "ok\n");
}

static inline uint8_t *end_call_on(Site *s, const uint32_t *numbers, uint8_t *out) {
    uint32_t carrier = numbers[0], side = numbers[1];
    const Call *call = is_listed(s, carrier) ? call_on(s, 2 * carrier + side) : 0;
    if (!is_listed(s, carrier)) {
        REACHED(END_NO_CARRIER);
        return PRINT(out, "error no carrier\n");
    }
    if (!call) {
        REACHED(END_NO_CALL);
        return PRINT(out, "error no call\n");
    }
    REACHED(END_DONE);
    end_call(s, call - s->calls);
    return PRINT(out, "ok\n");
}

/* The words of a line, without spaces; 0 ends the list. How many there are; MOST_WORDS for those that are more. */
static inline int split_line(char *line, char *words[MOST_WORDS]) {
    int count = 0;
    for (char *word = strtok(line, " "); word && count < MOST_WORDS; word = strtok(0, " ")) words[count++] = word;
    return count;
}

/* Whether a word is a number of one to eight digits from `least` to `most`. */
static inline bool read_number(const char *word, uint32_t least, uint32_t most, uint32_t *number) {
    size_t digits = strspn(word, "0123456789");
    if (word[digits] || digits < 1 || digits > MOST_DIGITS) return false;
    *number = strtoul(word, 0, 10);
    return least <= *number && *number <= most;
}

static inline uint8_t *reply_unknown(uint8_t *out) {
    REACHED(UNKNOWN_COMMAND);
    return PRINT(out, "error unknown command\n");
}

/* The control channel moves to a channel, or stays, with the number 0. */
static inline uint8_t *reply_move(Site *s, const uint32_t *channel, uint8_t *out) {
    REACHED(*channel ? MOVE_DONE : STAY_DONE);
    s->moved_to = *channel;
    return PRINT(out, "ok\n");
}

/* What a number of a command is, with its least and its greatest value. */
typedef enum { FROM_RADIO, OF_RADIO, OF_CARRIER, OF_SIDE, OF_LINE, OF_CHANNEL } NumberKind;
static const uint32_t RANGES[][2] = {{0, 0xFFFFFF}, {1, 0xFFFFFF}, {0, CARRIERS - 1}, {0, 1}, {1, LIST_ROOM}, {1, 4094}};

/* A command: its name, the numbers that follow it, and its answer. */
typedef struct {
    const char *name;
    int count;
    NumberKind numbers[MOST_NUMBERS];
    uint8_t *(*answer)(Site *s, const uint32_t *numbers, uint8_t *out);
} Command;

static const Command COMMANDS[] = {
    {"status", 0, {0}, reply_status},
    {"radios", 1, {FROM_RADIO}, reply_radios},
    {"calls", 1, {OF_CARRIER}, reply_calls},
    {"lines", 1, {OF_LINE}, reply_lines},
    {"slots", 0, {0}, reply_slots},
    {"drop", 1, {OF_RADIO}, drop_radio},
    {"end", 2, {OF_CARRIER, OF_SIDE}, end_call_on},
    {"move", 1, {OF_CHANNEL}, reply_move},
    {"stay", 0, {0}, reply_move},
};
enum { COMMAND_COUNT = sizeof COMMANDS / sizeof *COMMANDS };

/* Reads the numbers of a command from the words after its name. Whether they are as many, and each in its range. */
static inline bool read_numbers(const Command *it, char **words, int count, uint32_t *numbers) {
    bool are_read = count == it->count;
    for (int i = 0; i < it->count && are_read; i++) are_read = read_number(words[i], RANGES[it->numbers[i]][0], RANGES[it->numbers[i]][1], &numbers[i]);
    return are_read;
}

/* Takes a line without its end, in which a 0 ends the text. */
static inline uint8_t *take_line(Site *s, char *line, uint8_t *out) {
    char *words[MOST_WORDS];
    uint32_t numbers[MOST_NUMBERS] = {0};
    int count = split_line(line, words);
    for (const Command *it = COMMANDS; count && it < COMMANDS + COMMAND_COUNT; it++)
        if (!strcmp(words[0], it->name) && read_numbers(it, words + 1, count - 1, numbers)) return it->answer(s, numbers, out);
    return reply_unknown(out);
}

/* Takes the line that has come, at its LF. */
static inline uint8_t *end_line(Site *s, uint8_t *out) {
    Console *console = &s->console;
    int count = console->received;
    console->received = 0;
    if (count > LINE_OCTETS) {
        REACHED(TOO_LONG);
        return PRINT(out, "error line too long\n");
    }
    if (memchr(console->line, 0, count)) return reply_unknown(out);
    if (count && console->line[count - 1] == '\r') count--;
    console->line[count] = 0;
    return take_line(s, console->line, out);
}

/* Takes octets of operators, in any cutting. The end of the replies. */
static inline uint8_t *take_text(Site *s, const uint8_t *octets, int count, uint8_t *out) {
    Console *console = &s->console;
    for (; count > 0; count--, octets++) {
        if (*octets == '\n') {
            out = end_line(s, out);
        } else if (console->received < LINE_OCTETS) {
            console->line[console->received++] = *octets;
        } else {
            console->received = LINE_OCTETS + 1;
        }
    }
    return out;
}

#endif
