/* Salvages a list of a kind and a length so many times and nothing else, so that its instructions can be counted: KIND LENGTH CALLS. It prints how many records
   were kept. Without arguments it does so once for 1,024 bytes without damage, and once for as many marks. */
#include <inttypes.h>
#include <stdio.h>
#include <stdlib.h>
#include "reckonstile.h"

#define MOST 16384

/* A record of 64 bytes: the mark, the length 60, and a cookie without a mark in it. */
static uint8_t whole(size_t i)
{
    static const uint8_t head[4] = { 0xC0, 0x0E, 0, 60 };
    return i % 64 < 4 ? head[i % 64] : 0x55;
}

static void run(char kind, size_t length, unsigned long calls)
{
    static uint8_t list[MOST], out[MOST];
    uint32_t x = 1; /* bytes that follow no rule of a cookie list: every 65,536 steps the same again */
    uint64_t kept = 0;
    for (size_t i = 0; i < MOST; i++) {
        x = (x * 75 + 74) % 65537;
        list[i] = kind == 'w' ? whole(i) : kind == 'n' ? (uint8_t)(x % 256) : i % 2 == 0 ? 0xC0 : 0x0E;
    }
    for (unsigned long i = 0; i < calls; i++)
        kept = reckonstile_salvage(list, length, out, sizeof out).kept;
    printf("%" PRIu64 "\n", kept);
}

int main(int argc, char **argv)
{
    if (argc < 4) {
        run('w', 1024, 1);
        run('m', 1024, 1);
        return 0;
    }
    size_t length = strtoul(argv[2], NULL, 10);
    if (length > MOST)
        return 2;
    run(argv[1][0], length, strtoul(argv[3], NULL, 10));
    return 0;
}
