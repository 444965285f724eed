/* poll ADDRESS [PORT]: polls an NTP server once, without NTS, and prints what was measured. It sets no clock. CMakeLists.txt beside it says how to build it;
   rust/examples/connector.rs is a whole client, with NTS. */
#define _POSIX_C_SOURCE 200809L
#include <arpa/inet.h>
#include <reckonstile.h>
#include <stdio.h>
#include <stdlib.h>
#include <sys/socket.h>
#include <sys/time.h>
#include <time.h>
#include <unistd.h>

#define SECOND 4294967296.0 /* units of a duration */
#define WINDOW 5u           /* seconds to wait for a reply */

static void stop(const char *what, unsigned number) {
    fprintf(stderr, "poll: %s: %u (docs/NUMBERS.md says what it means)\n", what, number);
    exit(1);
}

static void fail(const char *what) {
    perror(what);
    exit(1);
}

static uint64_t uptime(void) { /* nanoseconds of a clock that only goes forward */
    struct timespec t;
    clock_gettime(CLOCK_MONOTONIC, &t);
    return (uint64_t)t.tv_sec * 1000000000u + (uint64_t)t.tv_nsec;
}

static uint64_t wall_clock(void) { /* an NTP timestamp: seconds since 1900, and the fraction in 2^-32 s */
    struct timespec t;
    clock_gettime(CLOCK_REALTIME, &t);
    return ((uint64_t)t.tv_sec + 2208988800u) << 32 | ((uint64_t)t.tv_nsec << 32) / 1000000000u;
}

static uint64_t random_bits(void) {
    uint64_t bits;
    FILE *f = fopen("/dev/urandom", "rb");
    if (!f || fread(&bits, sizeof bits, 1, f) != 1) fail("/dev/urandom");
    fclose(f);
    return bits;
}

int main(int argc, char **argv) {
    static uint8_t record[RECKONSTILE_BYTES(1)], packet[RECKONSTILE_REQUEST_BYTES];
    static const struct reckonstile_uid uid; /* used only with NTS */
    uint8_t nothing = 0; /* if a length is 0, the pointer must still be valid */
    struct sockaddr_in server = { .sin_family = AF_INET, .sin_port = htons((uint16_t)atoi(argc > 2 ? argv[2] : "123")) };
    if (argc < 2 || inet_pton(AF_INET, argv[1], &server.sin_addr) != 1) {
        fputs("usage: poll ADDRESS [PORT], with an IPv4 address\n", stderr);
        return 2;
    }
    if (!RECKONSTILE_CHECK()) stop("reckonstile.h and the library are of different revisions; the library's is", reckonstile_revision());
    int socket_ = socket(AF_INET, SOCK_DGRAM, 0);
    if (socket_ < 0 || connect(socket_, (struct sockaddr *)&server, sizeof server)) fail(argv[1]);
    setsockopt(socket_, SOL_SOCKET, SO_RCVTIMEO, &(struct timeval){ .tv_sec = WINDOW }, sizeof(struct timeval));

    struct reckonstile_settings settings = { .start = RECKONSTILE_V4, .window = WINDOW * 1000000000ull, .source = ntohl(server.sin_addr.s_addr), .capacity = 1,
                                             .startup = 3, .min = 4, .max = 10 };
    struct reckonstile_new_answer made = reckonstile_new(record, sizeof record, settings, &nothing, 0);
    if (made.number != RECKONSTILE_OK) stop("new", made.number);

    uint64_t id = random_bits();
    struct reckonstile_timer_answer timer = reckonstile_timer(record, sizeof record, uptime(), 6, id, uid, &nothing, 0);
    if (timer.number != RECKONSTILE_SENT) stop("timer", timer.number);
    struct reckonstile_written request = reckonstile_write_request(timer.kind, timer.poll, id, 0, uid, &nothing, 0, 0, packet, sizeof packet);
    if (request.number != RECKONSTILE_OK) stop("write_request", request.number);

    uint64_t t1 = wall_clock(); /* right before it is sent */
    if (send(socket_, packet, (size_t)request.length, 0) < 0) fail("send");
    for (;;) { /* after a datagram that is not measured, the right one may still come */
        ssize_t length = recv(socket_, packet, sizeof packet, 0);
        uint64_t t4 = wall_clock();
        if (length < 0) fail("no reply");
        struct reckonstile_reply_answer answer = reckonstile_reply(record, sizeof record, packet, (size_t)length, 48, &nothing, 0, &nothing, 0, t1, t4, uptime());
        if (answer.number == RECKONSTILE_OK) {
            printf("measured: offset %+.6f s, delay %.6f s, stratum %u\n", (double)answer.offset / SECOND, (double)answer.delay / SECOND, answer.stratum);
            uint32_t accepted = reckonstile_accept(record, sizeof record, 16, &settings.source, 0, RECKONSTILE_BLOOM_NONE);
            if (accepted != RECKONSTILE_OK) stop("accept", accepted);
            return 0;
        }
        fprintf(stderr, "poll: reply: %u, waiting on\n", answer.number);
    }
}
