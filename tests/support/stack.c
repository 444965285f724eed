/* How much stack each call takes: it is run on a stack of its own that was painted before, and the deepest byte that changed is looked for. The caller's own frame, which
   makes the call and nothing else, is counted in. No call may take more than its limit. */
#define _XOPEN_SOURCE 700
#include "reckonstile.h"
#include <stdio.h>
#include <string.h>
#include <ucontext.h>

#define STACK 262144
#define PAINT 0xA7
#define MOST 2048          /* of any call but a comparison */
#define COMPARE_MOST 14336 /* it loads no file: the 26 fields of both sides are on its stack */

static uint8_t painted[STACK] __attribute__((aligned(16)));
static ucontext_t back, there;
static uint8_t record[RECKONSTILE_BYTES(RECKONSTILE_SLOTS)];
static uint8_t packet[228], decrypted[104], list[8 * 104], buffer[RECKONSTILE_COOKIE_BYTES], out[6144], file[RECKONSTILE_FILE_BYTES];
static size_t file_len;
static uint16_t starts[RECKONSTILE_ENTRIES], repeats[RECKONSTILE_ENTRIES];
static struct reckonstile_uid uid;
static struct reckonstile_settings settings;
static struct reckonstile_decoded decoded;
static volatile uint32_t number;

static void nothing(void) { number = 0; }
static void new_(void) { number = reckonstile_new(record, sizeof record, settings, list, sizeof list).number; }
static void metered(void) { number = reckonstile_metered(record, sizeof record, settings, list, sizeof list).number; }
static void profile(void) { number = reckonstile_profile(settings, list, sizeof list); }
static void timer(void) { number = reckonstile_timer(record, sizeof record, 1000, 6, 1, uid, buffer, sizeof buffer).number; }
static void reply(void) { number = reckonstile_reply(record, sizeof record, packet, sizeof packet, 84, decrypted, sizeof decrypted, list, 104, 1, 2, 2000).number; }
static void reply_decoded(void) { number = reckonstile_reply_decoded(record, sizeof record, decoded, list, 104, 1, 2, 2000).number; }
static void blank(void) { number = reckonstile_blank(out, sizeof out); }
static void look(void) { number = (uint32_t)reckonstile_look(record, sizeof record).number; }
static void field_at(void) { number = reckonstile_field_at(packet, sizeof packet, 48).number; }
static void revision(void) { number = reckonstile_revision() != RECKONSTILE_REVISION; }
static void accept_(void) { number = reckonstile_accept(record, sizeof record, 17, (const uint32_t *)(const void *)out, 0, RECKONSTILE_BLOOM_NONE); }
static void collect(void) { number = reckonstile_collect(decrypted, sizeof decrypted, out, sizeof out).number; }
static void salvage(void) { number = reckonstile_salvage(list, sizeof list, out, sizeof out).number; }
static void check_calendar(void) { number = reckonstile_check_calendar(64, starts, 64, repeats, 64).number; }
static void plan_calendar(void) { number = reckonstile_plan_calendar(64, repeats, 64, starts, 64).number; }
static void request(void) { number = reckonstile_write_request(RECKONSTILE_SEND_NTS_V4, 6, 1, 0, uid, list + 4, 100, 3, out, sizeof out).number; }

static void save(void) {
    struct reckonstile_written w = reckonstile_save(record, sizeof record, file, sizeof file);
    number = w.number;
    file_len = (size_t)w.length;
}
static void compare(void) { number = reckonstile_compare(file, file_len, file, file_len, out, sizeof out).number; }
static void load(void) { number = reckonstile_load(record, sizeof record, file, file_len).number; }

static size_t deepest(void (*call)(void)) {
    memset(painted, PAINT, sizeof painted);
    getcontext(&there);
    there.uc_stack.ss_sp = painted;
    there.uc_stack.ss_size = sizeof painted;
    there.uc_link = &back;
    makecontext(&there, call, 0);
    swapcontext(&back, &there);
    size_t at = 0;
    while (at < sizeof painted && painted[at] == PAINT) at++;
    return sizeof painted - at;
}

int main(void) {
    static const struct { const char *name; void (*call)(void); uint32_t number; } calls[] = {
        { "new", new_, 0 }, { "profile", profile, 0 }, { "metered", metered, 0 }, { "timer", timer, 20 }, { "reply", reply, 0 }, { "timer", timer, 20 }, { "reply_decoded", reply_decoded, 2 }, { "look", look, 0 }, { "field_at", field_at, 0 }, { "blank", blank, 0 }, { "revision", revision, 0 },
        { "accept", accept_, 0 }, { "collect", collect, 0 }, { "write_request", request, 0 }, { "salvage", salvage, 0 }, { "check_calendar", check_calendar, 0 },
        { "plan_calendar", plan_calendar, 0 }, { "save", save, 0 }, { "compare", compare, 0 }, { "load", load, 0 },
    };
    int passed = 0, failed = 0;
    settings.window = 5000;
    settings.nts = 1;
    settings.capacity = RECKONSTILE_SLOTS;
    settings.startup = 3;
    settings.min = 8;
    settings.max = 10;
    for (size_t k = 0; k < 8; k++) memcpy(list + 104 * k, "\xC0\x0E\x00\x64", 4);
    for (size_t k = 0; k < RECKONSTILE_ENTRIES; k++) repeats[k] = 1;
    memcpy(packet, "\x24\x02\x06\xEC", 4);
    packet[31] = 1;
    memcpy(packet + 48, "\x01\x04\x00\x24", 4);
    memcpy(packet + 84, "\x04\x04\x00\x90", 4);
    memcpy(decrypted, "\x02\x04\x00\x68", 4);
    /* Found before anything is measured: a dynamic linker that looks memcpy up at its first call does so on the caller's stack. */
    static volatile size_t none;
    memcpy(out, list, none);
    size_t own = deepest(nothing);
    printf("bytes of stack (%zu are the frame's own):", own);
    for (size_t k = 0; k < sizeof calls / sizeof *calls; k++) {
        size_t n = deepest(calls[k].call);
        printf("%s %s %zu", k ? "," : "", calls[k].name, n);
        if (n <= (calls[k].call == compare ? COMPARE_MOST : MOST) && number == calls[k].number) passed++;
        else {
            failed++;
            printf(" (too much, or answered %u)", (unsigned)number);
        }
    }
    printf("; at most %d, of compare %d\n%d passed, %d failed\n", MOST, COMPARE_MOST, passed, failed);
    return failed != 0;
}
