/* exported KIND CAPACITY N [base]: N calls of a kind through the static library, or as many turns of the loop without the call. Prints the number that the last call
   answered. What a call took is put back before each: the tries, a cookie, the pending request, the stash. The inputs are those of `driver speed` (the crate's), with as
   many cookies of 100 bytes as the capacity. A salvage is of eight cookies of 100 bytes without damage, a check and a plan are of 64 hourly entries. */
#include "reckonstile.h"
#include <stdio.h>
#include <stdlib.h>
#include <string.h>

#define ID 0x5A5A5A5A5A5A5A5A
#define HIDE(thing) __asm__ volatile("" : : "g"(&(thing)) : "memory") /* the compiler knows nothing of what is there */

/* Places of a record, as the header's table has them. */
enum { READ = 27, HELD = 28, TRIES = 30, REQUEST = 42, STASH = 92, ROW = 726 };

static uint8_t record[RECKONSTILE_BYTES(RECKONSTILE_SLOTS)], kept[RECKONSTILE_BYTES(RECKONSTILE_SLOTS)];
static uint8_t packet[228], decrypted[104], list[104], buffer[RECKONSTILE_COOKIE_BYTES], out[6144], file[RECKONSTILE_FILE_BYTES], first[8 * 104];
static uint8_t cookie[ROW], request[50];
static uint16_t starts[RECKONSTILE_ENTRIES], repeats[RECKONSTILE_ENTRIES];
static struct reckonstile_uid uid;
static struct reckonstile_settings settings;
static size_t size, first_len, file_len;

static void make(int nts, uint8_t capacity) {
    settings.window = 5000000000;
    settings.upgrademark = 0x4E54503544524654;
    settings.source = 0xC0000201;
    settings.nts = (uint16_t)nts;
    settings.capacity = capacity;
    settings.startup = 3;
    settings.min = 4;
    settings.max = 10;
    size = RECKONSTILE_BYTES(capacity);
    first_len = 104 * (size_t)capacity;
    memset(first, 7, sizeof first);
    for (size_t k = 0; k < 8; k++) memcpy(first + 104 * k, "\xC0\x0E\x00\x64", 4);
    if (reckonstile_new(record, size, settings, first, first_len).number != RECKONSTILE_OK) exit(2);
    memcpy(kept, record, size);
    struct reckonstile_written w = reckonstile_save(record, size, file, sizeof file);
    if (w.number != RECKONSTILE_OK) exit(2);
    file_len = (size_t)w.length;
    memcpy(record, kept, size);
    for (size_t k = 0; k < RECKONSTILE_ENTRIES; k++) repeats[k] = 60;
    memset(&uid, 0x5A, sizeof uid);
    memset(cookie, 7, 100);
    cookie[725] = 100;
    request[0] = 1; /* present, not answered */
    memset(request + 2, 0x5A, 8);
    request[16] = 0x17; /* the deadline 6000 */
    request[17] = 0x70;
    if (nts) memset(request + 18, 0x5A, 32);
    memcpy(packet, "\x24\x02\x06\xEC\x00\x00\x01\x00\x00\x00\x02\x00\xC0\x00\x02\x01\x00\x00\x00\x00\x00\x00\x00\x00ZZZZZZZZ\x00\x00\x00\x02\x00\x00\x00\x00\x00\x00\x00\x03", 44);
    memcpy(packet + 48, "\x01\x04\x00\x24", 4);
    memset(packet + 52, 'Z', 32);
    memcpy(packet + 84, "\x04\x04\x00\x90", 4);
    memset(decrypted, 9, sizeof decrypted);
    memset(list, 9, sizeof list);
    memcpy(decrypted, "\x02\x04\x00\x68", 4);
    memcpy(list, "\xC0\x0E\x00\x64", 4);
}

/* Where no call took something, it is put back all the same: the loop without the call does the same work. */
static void put_back(char kind, int nts) {
    if (kind == 't') {
        record[TRIES] = 0;
        if (nts) {
            record[HELD] = settings.capacity;
            memcpy(record + STASH + ROW * ((record[READ] + (size_t)settings.capacity - 1) % settings.capacity), cookie, ROW);
        }
    } else if (kind == 'r')
        memcpy(record + REQUEST, request, sizeof request);
    else if (kind == 's')
        memcpy(record, kept, size);
}

int main(int argc, char **argv) {
    static const struct { const char *name; char kind; } kinds[] = {
        { "timer", 't' }, { "timer-nts", 't' }, { "reply", 'r' }, { "reply-nts", 'r' }, { "accept", 'a' }, { "look", 'k' }, { "new", 'n' }, { "new-nts", 'n' }, { "save", 's' },
        { "save-nts", 's' }, { "load", 'l' }, { "load-nts", 'l' }, { "collect", 'c' }, { "request", 'w' }, { "field", 'f' }, { "salvage", 'S' }, { "check", 'C' }, { "plan", 'P' },
    };
    char kind = 0;
    for (size_t k = 0; argc >= 4 && k < sizeof kinds / sizeof *kinds; k++)
        if (!strcmp(argv[1], kinds[k].name)) kind = kinds[k].kind;
    uint8_t capacity = (uint8_t)(kind ? strtoul(argv[2], NULL, 10) : 0);
    if (!kind || capacity < 1 || capacity > RECKONSTILE_SLOTS) {
        fprintf(stderr, "usage: exported KIND CAPACITY N [base]\n");
        return 2;
    }
    int nts = !!strstr(argv[1], "-nts"), base = argc > 4;
    uint32_t number = 0, local[1] = { 1 };
    make(nts, capacity);
    for (unsigned long left = strtoul(argv[3], NULL, 10); left; left--) {
        put_back(kind, nts);
        HIDE(record);
        HIDE(packet);
        HIDE(decrypted);
        HIDE(list);
        HIDE(first);
        HIDE(file);
        HIDE(repeats);
        if (base) continue;
        switch (kind) {
        case 't': number = reckonstile_timer(record, size, 1000, 6, ID, uid, buffer, sizeof buffer).number; break;
        case 'r':
            if (nts) number = reckonstile_reply(record, size, packet, 228, 84, decrypted, 104, list, 104, (uint64_t)1 << 32, (uint64_t)4 << 32, 2000).number;
            else number = reckonstile_reply(record, size, packet, 48, 48, list, 0, list, 0, (uint64_t)1 << 32, (uint64_t)4 << 32, 2000).number;
            break;
        case 'a': number = reckonstile_accept(record, size, 17, local, 1, RECKONSTILE_BLOOM_NONE); break;
        case 'k': number = (uint32_t)reckonstile_look(record, size).number; break;
        case 'n': number = reckonstile_new(record, size, settings, first, first_len).number; break;
        case 's': number = reckonstile_save(record, size, out, sizeof out).number; break;
        case 'l': number = reckonstile_load(record, size, file, file_len).number; break;
        case 'c': number = reckonstile_collect(decrypted, 104, out, sizeof out).number; break;
        case 'w': number = reckonstile_write_request(RECKONSTILE_SEND_NTS_V4, 6, ID, 0, uid, list + 4, 100, 3, out, sizeof out).number; break;
        case 'f': number = reckonstile_field_at(packet, 228, 48).number; break;
        case 'S': number = reckonstile_salvage(first, sizeof first, out, sizeof out).number; break;
        case 'C': number = reckonstile_check_calendar(64, starts, RECKONSTILE_ENTRIES, repeats, RECKONSTILE_ENTRIES).number; break;
        default: number = reckonstile_plan_calendar(2, repeats, RECKONSTILE_ENTRIES, starts, RECKONSTILE_ENTRIES).number;
        }
        HIDE(number);
    }
    printf("%u\n", (unsigned)number);
    return 0;
}
