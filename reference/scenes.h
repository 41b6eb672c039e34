/* The sites of a soak. */
#ifndef SCENES_H
#define SCENES_H

#include "site.h"

enum { REGI = 0xFFFEC6 };

/* A site, and what its radios do. */
typedef struct {
    const char *name;
    Plan plan;
    uint32_t few;     /* radios that send in everyday traffic, from the first one on */
    uint32_t at_first; /* radios that register at the beginning */
} Scene;

enum { SCENES = 2 };

/* A site with three slots for calls, and numbers and channels far apart. One with 31, and the most copies of each PDU, on which
 * nearly as many radios are registered as there is room for. */
static Scene scenes[SCENES] = {
    {.name = "two",
     .few = 40,
     .plan = {.system = 0x1234,
              .regi = REGI,
              .tsi = 0xFFFECA,
              .leave_bit = 0,
              .hang = 100,
              .maximum = 1000,
              .ahoy_wait = 8,
              .ahoy_tries = 3,
              .grant_copies = 1,
              .clear_copies = 1,
              .backoff_low = 1,
              .backoff_high = 8,
              .control = 9,
              .listed = 1 << 2 | 1 << 9,
              .lpcn = {[2] = 4094, [9] = 1},
              .radios = {{1000, 1999}},
              .radio_ranges = 1,
              .groups = {91, 92, 93, 94},
              .group_count = 4}},
    {.name = "sixteen",
     .few = 80,
     .at_first = MOST_RADIOS - 20,
     .plan = {.system = 0xA5C3,
              .regi = REGI,
              .tsi = 0xFFFECB,
              .aloha_sync = 1,
              .aloha_version = 5,
              .aloha_offset = 1,
              .aloha_active = 1,
              .nrand_wait = 13,
              .leave_bit = 3,
              .hang = 50,
              .maximum = 300,
              .ahoy_wait = 9,
              .ahoy_tries = 2,
              .grant_copies = 4,
              .clear_copies = 4,
              .backoff_low = 2,
              .backoff_high = 15,
              .control = 5,
              .listed = 0xFFFF,
              .lpcn = {300, 16, 15, 14, 13, 12, 11, 10, 9, 8, 7, 6, 5, 4, 3, 2},
              .radios = {{1000, 3999}, {3000, 7999}},
              .radio_ranges = 2,
              .groups = {91, 92, 93, 94, 95, 96, 97, 98, 99, 100, 101, 102},
              .group_count = 12}},
};

#endif
