/* Which numbers each call answers, and after which of them the record may be another than before. Written by tools/numbers --write from numbers.toml: change it there. */
#ifndef NUMBERS_H
#define NUMBERS_H
#include <stdint.h>

static inline int new_gives(uint32_t n) { return n == 0 || n == 30 || n == 31 || n == 33 || n == 38; }
static inline int new_changes(uint32_t n) { return n == 0 || n == 30 || n == 33 || n == 38; }
static inline int metered_gives(uint32_t n) { return n == 0 || n == 30 || n == 31 || n == 33 || n == 34 || n == 35 || n == 36 || n == 37; }
static inline int metered_changes(uint32_t n) { return n == 0 || n == 30 || n == 33 || n == 34 || n == 35 || n == 36 || n == 37; }
static inline int profile_gives(uint32_t n) { return n == 0 || n == 30 || n == 33 || n == 34 || n == 35 || n == 36 || n == 37; }
static inline int timer_gives(uint32_t n) { return n == 20 || n == 21 || n == 22 || n == 23 || n == 24 || n == 31 || n == 32; }
static inline int timer_changes(uint32_t n) { return n == 20 || n == 23 || n == 24; }
static inline int reply_gives(uint32_t n) { return n == 0 || n == 1 || n == 2 || n == 4 || n == 5 || n == 6 || n == 7 || n == 8 || n == 9 || n == 10 || n == 11 || n == 12 || n == 13 || n == 14 || n == 32 || n == 33; }
static inline int reply_changes(uint32_t n) { return n == 0 || n == 5 || n == 6 || n == 7 || n == 8 || n == 9 || n == 10 || n == 11; }
static inline int reply_decoded_gives(uint32_t n) { return n == 0 || n == 1 || n == 2 || n == 4 || n == 5 || n == 6 || n == 7 || n == 8 || n == 9 || n == 10 || n == 11 || n == 12 || n == 13 || n == 14 || n == 32 || n == 33; }
static inline int reply_decoded_changes(uint32_t n) { return n == 0 || n == 5 || n == 6 || n == 7 || n == 8 || n == 9 || n == 10 || n == 11; }
static inline int accept_gives(uint32_t n) { return n == 0 || n == 32 || n == 40 || n == 41 || n == 42; }
static inline int collect_gives(uint32_t n) { return n == 0 || n == 1 || n == 31; }
static inline int write_request_gives(uint32_t n) { return n == 0 || n == 50 || n == 51 || n == 52; }
static inline int salvage_gives(uint32_t n) { return n == 0 || n == 70; }
static inline int check_calendar_gives(uint32_t n) { return n == 0 || n == 80 || n == 81 || n == 82 || n == 83; }
static inline int plan_calendar_gives(uint32_t n) { return n == 0 || n == 31 || n == 80 || n == 81 || n == 84; }
static inline int save_gives(uint32_t n) { return n == 0 || n == 32 || n == 60; }
static inline int save_changes(uint32_t n) { return n == 0; }
static inline int load_gives(uint32_t n) { return n == 0 || n == 31 || n == 61 || n == 62 || n == 63; }
static inline int load_changes(uint32_t n) { return n == 0 || n == 61 || n == 62 || n == 63; }
static inline int compare_gives(uint32_t n) { return n == 0 || n == 61 || n == 62 || n == 63 || n == 71; }
static inline int look_gives(uint32_t n) { return n == 0 || n == 32; }
static inline int field_at_gives(uint32_t n) { return n == 0 || n == 1; }
static inline int blank_gives(uint32_t n) { return n == 0; }
static inline int blank_changes(uint32_t n) { return n == 0; }

#endif
