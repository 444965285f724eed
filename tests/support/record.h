/* A record's layout once more, written from the table in include/reckonstile.h and not from the library: its numbers out of the bytes, and back. And memory that
   ends at a page which is not mapped, so that a byte read or written past a buffer ends the program. */
#ifndef RECORD_H
#define RECORD_H
#include "numbers.h"
#include "reckonstile.h"
#include <stdio.h>
#include <stdlib.h>
#include <string.h>
#include <sys/mman.h>
#include <unistd.h>

#define RECORD_MOST RECKONSTILE_BYTES(RECKONSTILE_SLOTS)
#define ROW_AT(k) (92 + 726 * (size_t)(k))

struct numbers {
    struct reckonstile_settings settings;
    uint8_t read, held;
    struct reckonstile_state state;
};

static inline uint64_t big_endian(const uint8_t *b, size_t n) {
    uint64_t x = 0;
    for (size_t k = 0; k < n; k++) x = x << 8 | b[k];
    return x;
}
static inline void put_big_endian(uint8_t *b, size_t n, uint64_t x) {
    for (size_t k = n; k; x >>= 8) b[--k] = (uint8_t)x;
}

static inline struct numbers numbers_in(const uint8_t *b) {
    struct numbers n;
    memset(&n, 0, sizeof n);
    n.settings.min = (int8_t)b[0];
    n.settings.max = (int8_t)b[1];
    n.settings.startup = b[2];
    n.settings.window = big_endian(b + 3, 8);
    n.settings.upgrademark = big_endian(b + 11, 8);
    n.settings.start = b[19];
    n.settings.left = b[20];
    n.settings.nts = b[21];
    n.settings.source = (uint32_t)big_endian(b + 22, 4);
    n.settings.capacity = b[26];
    n.read = b[27];
    n.held = b[28];
    n.state.reach = b[29];
    n.state.tries = b[30];
    n.state.unanswered = b[31];
    n.state.version = b[32];
    n.state.left = b[33];
    n.state.last = (int8_t)b[34];
    n.state.remote = (int8_t)b[35];
    n.state.stratum = b[36];
    n.state.refid = (uint32_t)big_endian(b + 37, 4);
    n.state.denial = b[41];
    n.state.present = b[42];
    n.state.answered = b[43];
    n.state.id = big_endian(b + 44, 8);
    n.state.deadline = big_endian(b + 52, 8);
    memcpy(n.state.uid, b + 60, 32);
    return n;
}

static inline void put_numbers(uint8_t *b, const struct numbers *n) {
    b[0] = (uint8_t)n->settings.min;
    b[1] = (uint8_t)n->settings.max;
    b[2] = n->settings.startup;
    put_big_endian(b + 3, 8, n->settings.window);
    put_big_endian(b + 11, 8, n->settings.upgrademark);
    b[19] = (uint8_t)n->settings.start;
    b[20] = n->settings.left;
    b[21] = (uint8_t)n->settings.nts;
    put_big_endian(b + 22, 4, n->settings.source);
    b[26] = n->settings.capacity;
    b[27] = n->read;
    b[28] = n->held;
    b[29] = n->state.reach;
    b[30] = n->state.tries;
    b[31] = n->state.unanswered;
    b[32] = (uint8_t)n->state.version;
    b[33] = n->state.left;
    b[34] = (uint8_t)n->state.last;
    b[35] = (uint8_t)n->state.remote;
    b[36] = n->state.stratum;
    put_big_endian(b + 37, 4, n->state.refid);
    b[41] = n->state.denial;
    b[42] = (uint8_t)n->state.present;
    b[43] = (uint8_t)n->state.answered;
    put_big_endian(b + 44, 8, n->state.id);
    put_big_endian(b + 52, 8, n->state.deadline);
    memcpy(b + 60, n->state.uid, 32);
}

static inline unsigned row_length(const uint8_t *b, size_t k) { return (unsigned)big_endian(b + ROW_AT(k) + 724, 2); }

/* whether bytes are a record to look at: as many as its capacity has, and no unknown code. Whether its numbers go together is another question: `whole` of fuzz.c. */
static inline int readable(const uint8_t *b, size_t size) {
    if (size < 92 || b[26] > RECKONSTILE_SLOTS || size != RECKONSTILE_BYTES(b[26])) return 0;
    int start = b[19] <= 3 && (b[19] == RECKONSTILE_UPGRADING || !b[20]), version = b[32] <= 3 && (b[32] == RECKONSTILE_UPGRADING || !b[33]);
    return start && version && b[21] <= 1 && b[41] <= 1 && b[42] <= 1 && b[43] <= 1;
}

/* whether what reckonstile_look says is what the bytes say */
static inline int shown_right(const struct reckonstile_view *v, const uint8_t *b) {
    struct numbers n = numbers_in(b);
    return v->number == 0 && !memcmp(&v->settings, &n.settings, sizeof n.settings) && !memcmp(&v->state, &n.state, sizeof n.state);
}
static inline int shown_zero(const struct reckonstile_view *v) {
    struct reckonstile_view none;
    memset(&none, 0, sizeof none);
    none.number = RECKONSTILE_NOT_WHOLE;
    return !memcmp(v, &none, sizeof none);
}

/* ---- memory with a fence behind it */

#define FENCED 16384 /* bytes before the fence */
#define WALL 64      /* bytes before a lent buffer that are looked at */
#define BRICK 0x5A

/* n bytes that end at the fence; those before them are bricks. Each fence is made once and used again: `which` tells them apart. */
static inline uint8_t *fenced(unsigned which, size_t n) {
    static uint8_t *ends[16];
    if (!ends[which]) {
        size_t page = (size_t)sysconf(_SC_PAGESIZE), whole = (FENCED + page - 1) / page * page;
        uint8_t *start = (uint8_t *)mmap(NULL, whole + page, PROT_READ | PROT_WRITE, MAP_PRIVATE | MAP_ANONYMOUS, -1, 0);
        if (start == MAP_FAILED || mprotect(start + whole, page, PROT_NONE)) {
            perror("fenced memory");
            exit(2);
        }
        ends[which] = start + whole;
    }
    if (n + WALL > FENCED) {
        fprintf(stderr, "a buffer of %zu bytes is longer than what is fenced\n", n);
        exit(2);
    }
    memset(ends[which] - n - WALL, BRICK, WALL);
    return ends[which] - n;
}
static inline int wall_stands(const uint8_t *lent) {
    for (size_t k = 1; k <= WALL; k++)
        if (lent[-(ptrdiff_t)k] != BRICK) return 0;
    return 1;
}
#endif
