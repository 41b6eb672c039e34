/*
 * Plans as texts: as a site file (docs/SITE_FILE.md), and as plain lines, which python/tests/reference.py makes of a site file.
 * A line is a key of the site file and its value, `carrier NUMBER LPCN`, `radios FIRST LAST` or `group NUMBER`.
 */
#ifndef PLAN_H
#define PLAN_H

#include "site.h"
#include <stddef.h>
#include <stdio.h>

/* The port of carrier 0 in a site file. */
enum { FIRST_PORT = 7101 };

/* A key whose value is a number, and its place in a plan. */
typedef struct {
    const char *name;
    size_t place;
} PlanKey;

#define PLAN_KEY(key) {#key, offsetof(Plan, key)}
static const PlanKey PLAN_KEYS[] = {
    PLAN_KEY(system), PLAN_KEY(regi), PLAN_KEY(tsi), PLAN_KEY(leave_bit), PLAN_KEY(aloha_sync), PLAN_KEY(aloha_version), PLAN_KEY(aloha_offset),
    PLAN_KEY(aloha_active), PLAN_KEY(nrand_wait), PLAN_KEY(hang), PLAN_KEY(maximum), PLAN_KEY(ahoy_wait), PLAN_KEY(ahoy_tries), PLAN_KEY(grant_copies),
    PLAN_KEY(clear_copies), PLAN_KEY(backoff_low), PLAN_KEY(backoff_high), PLAN_KEY(link_version), PLAN_KEY(control)};
enum { PLAN_KEY_COUNT = sizeof PLAN_KEYS / sizeof *PLAN_KEYS };

static inline int *value_of(Plan *plan, const PlanKey *key) { return (int *)((char *)plan + key->place); }

static inline void write_key(const char *key, int value, FILE *file) { fprintf(file, "%s = %d\n", key, value); }

/* Writes the keys of a plan as a site file, which lacks those that no rule here asks for. */
static inline void write_site_file(Plan *plan, FILE *file) {
    for (int i = 0; i < PLAN_KEY_COUNT; i++) write_key(PLAN_KEYS[i].name, *value_of(plan, &PLAN_KEYS[i]), file);
    fputs("radios = [", file);
    for (int i = 0; i < plan->radio_ranges; i++)
        fprintf(file, "%s[%u, %u]", i ? ", " : "", (unsigned)plan->radios[i].first, (unsigned)plan->radios[i].last);
    fputs("]\ngroups = [", file);
    for (int i = 0; i < plan->group_count; i++) fprintf(file, "%s%u", i ? ", " : "", (unsigned)plan->groups[i]);
    fputs("]\n", file);
    for (int carrier = 0; carrier < CARRIERS; carrier++) {
        if (!(plan->listed >> carrier & 1)) continue;
        fputs("[[carrier]]\n", file);
        write_key("number", carrier, file);
        write_key("lpcn", plan->lpcn[carrier], file);
        write_key("port", FIRST_PORT + carrier, file);
    }
}

/* Reads a line of a plan. Whether it is one. */
static inline bool read_plan_line(Plan *plan, const char *line) {
    char key[32];
    int first = 0, second = 0, numbers = sscanf(line, "%31s %d %d", key, &first, &second) - 1;
    for (int i = 0; i < PLAN_KEY_COUNT && numbers == 1; i++)
        if (!strcmp(key, PLAN_KEYS[i].name)) return *value_of(plan, &PLAN_KEYS[i]) = first, true;
    if (numbers == 1 && !strcmp(key, "group") && plan->group_count < MOST_GROUPS) return plan->groups[plan->group_count++] = first, true;
    if (numbers != 2) return false;
    if (!strcmp(key, "radios") && plan->radio_ranges < MOST_RANGES) return plan->radios[plan->radio_ranges++] = (Range){first, second}, true;
    if (strcmp(key, "carrier") || first < 0 || first >= CARRIERS) return false;
    plan->listed |= 1 << first;
    plan->lpcn[first] = second;
    return true;
}

/* Reads a plan of lines. Whether all of them are lines of a plan. */
static inline bool read_plan(Plan *plan, FILE *file) {
    char line[128];
    *plan = (Plan){.leave_bit = -1, .link_version = 1};
    while (fgets(line, sizeof line, file))
        if (!read_plan_line(plan, line)) return false;
    return true;
}

#endif
