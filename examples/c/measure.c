/* One poll, measured: makes an association, writes its request, and measures the reply. The server's reply is made here, so nothing is sent.
   examples/cmake has a client that sends. Against an installed release:

     cc $(pkg-config --cflags reckonstile) measure.c $(pkg-config --libs reckonstile) -o measure && ./measure

   prints `measured: offset 1.250 s, delay 0.500 s, stratum 2`. docs/EMBEDDING.md explains each argument. */
#include <reckonstile.h>
#include <stdio.h>
#include <string.h>

#define SECOND 4294967296u /* of a timestamp and of a duration, in its units of 2^-32 s */

static int stop(const char *what, unsigned number) {
    fprintf(stderr, "measure: %s: %u (docs/NUMBERS.md says what it means)\n", what, number);
    return 1;
}

static void put_timestamp(uint8_t *at, uint64_t t) {
    for (int k = 0; k < 8; k++) at[k] = (uint8_t)(t >> (56 - 8 * k));
}

int main(void) {
    static uint8_t record[RECKONSTILE_BYTES(1)]; /* the association: bytes of the caller's, at any address */
    static uint8_t request[RECKONSTILE_REQUEST_BYTES];
    static const struct reckonstile_uid uid; /* used only with NTS */
    uint8_t nothing = 0; /* if a length is 0, the pointer must still be valid */

    if (!RECKONSTILE_CHECK()) return stop("reckonstile.h and the library are of different revisions; the library's is", reckonstile_revision());

    struct reckonstile_settings settings = { .start = RECKONSTILE_V4, .window = 5000000000u, .source = 0xC0000201u, .capacity = 1, .startup = 3, .min = 4, .max = 10 };
    struct reckonstile_new_answer made = reckonstile_new(record, sizeof record, settings, &nothing, 0);
    if (made.number != RECKONSTILE_OK) return stop("new", made.number);

    /* It is time to poll. The id must be 64 random bits, drawn anew for each poll; here it is fixed, since the reply is made for it. */
    uint64_t id = 0x0123456789ABCDEFu, time = 1000000000u;
    struct reckonstile_timer_answer timer = reckonstile_timer(record, sizeof record, time, 6, id, uid, &nothing, 0);
    if (timer.number != RECKONSTILE_SENT) return stop("timer", timer.number);
    struct reckonstile_written written = reckonstile_write_request(timer.kind, timer.poll, id, 0, uid, &nothing, 0, 0, request, sizeof request);
    if (written.number != RECKONSTILE_OK) return stop("write_request", written.number);

    /* What a server of stratum 2 would send back: its clock is 1.25 s ahead of ours, and each way takes a quarter of a second. */
    uint64_t t1 = 100ull * SECOND, t2 = t1 + SECOND / 4 + SECOND / 4 * 5, t3 = t2 + SECOND / 4, t4 = t1 + SECOND / 4 * 3;
    uint8_t reply[48] = { 0x24, 2 }; /* version 4, mode 4; stratum */
    memcpy(reply + 24, request + 40, 8); /* it names the request that it answers */
    put_timestamp(reply + 32, t2);
    put_timestamp(reply + 40, t3);

    struct reckonstile_reply_answer answer = reckonstile_reply(record, sizeof record, reply, sizeof reply, 48, &nothing, 0, &nothing, 0, t1, t4, time + 750000000u);
    if (answer.number != RECKONSTILE_OK) return stop("reply", answer.number);
    printf("measured: offset %.3f s, delay %.3f s, stratum %u\n", (double)answer.offset / SECOND, (double)answer.delay / SECOND, answer.stratum);
    uint32_t accepted = reckonstile_accept(record, sizeof record, 16, &settings.source, 0, RECKONSTILE_BLOOM_NONE);
    return accepted == RECKONSTILE_OK ? 0 : stop("accept", accepted);
}
