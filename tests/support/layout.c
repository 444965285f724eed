/* The header's layout against the library: its revision, the table of a record's bytes, and each field of a struct, found where the header has it after calls that give
   every field a value of its own. Compiled as C11 and as C++17. Prints what is wrong, and last how much was right. */
#ifndef _DEFAULT_SOURCE
#define _DEFAULT_SOURCE
#endif
#include "record.h"

static int passed, failed;
#define EXPECT(test) ((test) ? (void)passed++ : (void)(failed++, printf("layout.c:%d: not so: %s\n", __LINE__, #test)))

/* A record as its bytes, and as the numbers and cookies that the header's table says they are; a program of C needs neither. */
static uint8_t a[RECORD_MOST], b[RECORD_MOST], c5[RECORD_MOST];
static size_t size;
static uint8_t packet[48], none[1], buffer[RECKONSTILE_COOKIE_BYTES];

static void lay_cookie(uint8_t *r, size_t k, const uint8_t *bytes, unsigned len) {
    memset(r + ROW_AT(k), 0, 726);
    memcpy(r + ROW_AT(k), bytes, len);
    put_big_endian(r + ROW_AT(k) + 724, 2, len);
}
static int same(void) { return !memcmp(a, b, size); }
/* the record's numbers, where reckonstile_look gives them too; else all 0xEE, which nothing is */
static struct numbers seen(const uint8_t *r) {
    struct reckonstile_view v = reckonstile_look(r, size);
    struct numbers n = numbers_in(r);
    if (!shown_right(&v, r)) memset(&n, 0xEE, sizeof n);
    return n;
}
static uint32_t accept_of(const uint8_t *r) {
    uint32_t nobody = 0;
    return reckonstile_accept(r, size, 17, &nobody, 0, RECKONSTILE_BLOOM_NONE);
}

int main(void) {
    EXPECT(reckonstile_revision() == RECKONSTILE_REVISION);
    EXPECT(RECKONSTILE_BYTES(1) == 818 && RECKONSTILE_BYTES(2) == 1544 && RECKONSTILE_BYTES(4) == 2996 && RECKONSTILE_BYTES(8) == 5900);

    /* blank: every byte of what is lent, and no other */
    for (size = 0; size < 200; size += 7) {
        memset(a, 0xEE, sizeof a);
        memset(b, 0xEE, sizeof b);
        memset(b, 0, size);
        EXPECT(reckonstile_blank(a, size) == RECKONSTILE_OK && !memcmp(a, b, sizeof a));
    }

    /* new: the settings, the stash, the state, each in its place of the table */
    struct reckonstile_settings s;
    memset(&s, 0, sizeof s);
    s.window = 59123456789;
    s.upgrademark = 0x4e54503544524654;
    s.source = 0xC0000201;
    s.start = RECKONSTILE_V5;
    s.nts = 1;
    s.capacity = 6;
    s.startup = 7;
    s.min = 3;
    s.max = 16;
    size = RECKONSTILE_BYTES(6);
    uint8_t list[] = { 0xC0, 0x0E, 0, 5, 11, 12, 13, 14, 15, 0xC0, 0x0E, 0, 2, 21, 22 };
    memset(a, 0xEE, sizeof a);
    struct reckonstile_new_answer m = reckonstile_new(a, size, s, list, sizeof list);
    EXPECT(m.number == RECKONSTILE_OK && m.made == 1 && m.dropped == 0 && m.lost == 0 && a[size] == 0xEE);
    /* 59123456789 is 0DC4085B15 hexadecimal */
    static const uint8_t head[92] = { 3,    16,   7, 0, 0, 0, 0x0D, 0xC4, 0x08, 0x5B, 0x15, 0x4E, 0x54, 0x50, 0x35, 0x44, 0x52, 0x46, 0x54, 3, 0, 1, 0xC0, 0, 2, 1, 6,
                                      0,    2,    /* the oldest cookie's place, and two held */
                                      0,    0,    8, 3, 0, 3, 3, 16,   'X',  'N',  'O',  'N',  0 };
    memset(b, 0, sizeof b);
    memcpy(b, head, sizeof head);
    lay_cookie(b, 0, list + 4, 5);
    lay_cookie(b, 1, list + 13, 2);
    EXPECT(same());
    struct numbers n = seen(a);
    EXPECT(!memcmp(&n.settings, &s, sizeof s) && n.read == 0 && n.held == 2 && n.state.last == 3 && n.state.remote == 3 && n.state.refid == 0x584E4F4E);
    EXPECT(n.state.version == RECKONSTILE_V5 && n.state.stratum == 16 && n.state.unanswered == 8);

    /* a byte more or less is no record of this capacity: 31 for who makes one, 32 for who has one */
    for (size_t wrong = size - 2; wrong <= size + 2; wrong++) {
        if (wrong == size) continue;
        memset(c5, 0xEE, sizeof c5);
        EXPECT(reckonstile_new(c5, wrong, s, list, sizeof list).number == RECKONSTILE_WRONG_SIZE && c5[0] == 0xEE && c5[wrong - 1] == 0xEE);
        EXPECT(reckonstile_look(a, wrong).number == RECKONSTILE_NOT_WHOLE && same());
    }

    /* timer: effort, polls, the pending request, a cookie taken. The desired poll is the larger. */
    struct reckonstile_uid uid;
    for (int i = 0; i < 32; i++) uid.bytes[i] = (uint8_t)(200 + i);
    struct reckonstile_timer_answer t = reckonstile_timer(a, size, 1000, 9, 0x1122334455667788, uid, buffer, sizeof buffer);
    EXPECT(t.number == RECKONSTILE_SENT && t.kind == RECKONSTILE_SEND_NTS_V5 && t.poll == 9 && t.asked == 5 && t.length == 5 && !memcmp(buffer, list + 4, 5));
    memset(b + ROW_AT(0), 0, 726);
    b[27] = 1; /* read */
    b[28] = 1; /* held */
    b[30] = 1; /* tries */
    b[34] = 9; /* last */
    b[42] = 1; /* present */
    memcpy(b + 44, "\x11\x22\x33\x44\x55\x66\x77\x88", 8);
    memcpy(b + 52, "\0\0\0\x0D\xC4\x08\x5E\xFD", 8); /* 1000 more */
    memcpy(b + 60, uid.bytes, 32);
    EXPECT(same());
    n = seen(a);
    EXPECT(n.state.present == 1 && n.state.id == 0x1122334455667788 && n.state.deadline == 1000 + s.window && !memcmp(n.state.uid, uid.bytes, 32) && n.state.tries == 1 && n.state.last == 9);

    /* the retired version: refused in settings, whatever tries stand beside it; not whole in a record, in either place; an unknown code comes before it */
    memcpy(c5, a, size);
    for (int left = 0; left < 256; left += 51) {
        s.start = RECKONSTILE_UPGRADING;
        s.left = (uint8_t)left;
        m = reckonstile_new(b, size, s, list, sizeof list);
        EXPECT(m.number == RECKONSTILE_RETIRED_START && !m.made && !m.dropped && !m.lost && b[7] == 0 && b[26] == 0);
        EXPECT(reckonstile_new(b, size, s, list, sizeof list - 1).number == RECKONSTILE_BROKEN_LIST);
        memcpy(a, c5, size);
        a[19] = RECKONSTILE_UPGRADING;
        a[20] = (uint8_t)left;
        EXPECT(accept_of(a) == RECKONSTILE_NOT_WHOLE);
        memcpy(a, c5, size);
        a[32] = RECKONSTILE_UPGRADING;
        a[33] = (uint8_t)left;
        EXPECT(accept_of(a) == RECKONSTILE_NOT_WHOLE);
        memcpy(a, c5, size);
        a[33] = (uint8_t)left;
        EXPECT(accept_of(a) == (left ? RECKONSTILE_NOT_WHOLE : RECKONSTILE_UNREACHABLE));
        s.start = RECKONSTILE_UPGRADED;
        EXPECT(reckonstile_new(b, size, s, list, sizeof list).number == (left ? RECKONSTILE_BAD_SETTINGS : RECKONSTILE_OK));
    }
    memcpy(a, c5, size);

    /* a file: what it loads as, and that the retired version of it, at 23, is V4 now */
    static uint8_t file[RECKONSTILE_FILE_BYTES];
    struct reckonstile_written w = reckonstile_save(a, size, file, sizeof file);
    EXPECT(w.number == RECKONSTILE_OK && w.written == 1 && w.length == 64 + 2 + 2);
    struct reckonstile_load_answer l = reckonstile_load(b, size, file, (size_t)w.length);
    n = seen(b);
    EXPECT(l.number == RECKONSTILE_OK && l.retired == 0 && n.settings.start == RECKONSTILE_V5 && n.state.version == RECKONSTILE_V5 && n.settings.capacity == 6);
    file[23] = RECKONSTILE_UPGRADING;
    file[24] = 77;
    l = reckonstile_load(b, size, file, (size_t)w.length);
    n = seen(b);
    EXPECT(l.number == RECKONSTILE_OK && l.retired == 1 && n.settings.start == RECKONSTILE_V4 && n.settings.left == 0 && n.state.version == RECKONSTILE_V5);
    l = reckonstile_load(b, size + 1, file, (size_t)w.length);
    EXPECT(l.number == RECKONSTILE_WRONG_SIZE && l.retired == 0 && seen(b).settings.window == n.settings.window);
    l = reckonstile_load(b, size, file, (size_t)w.length - 1);
    EXPECT(l.number == RECKONSTILE_WRONG_LENGTH && l.retired == 0 && b[7] == 0 && b[26] == 0);

    /* a measured reply, without NTS: every field of the answer, and of what the record keeps. T1 = 100 s, T2 = 103, T3 = 103.5, T4 = 101. */
    memset(&s, 0, sizeof s);
    s.window = 5000;
    s.max = 17;
    s.startup = 1;
    s.capacity = RECKONSTILE_SLOTS;
    size = RECKONSTILE_BYTES(RECKONSTILE_SLOTS);
    EXPECT(reckonstile_new(a, size, s, none, 0).number == RECKONSTILE_OK);
    memset(&uid, 0, sizeof uid);
    t = reckonstile_timer(a, size, 1000, -5, 0x0102030405060708, uid, none, 0);
    EXPECT(t.number == RECKONSTILE_SENT && t.kind == RECKONSTILE_SEND_V4 && t.poll == 0 && t.asked == 0 && t.length == 0);
    packet[0] = 0x64; /* leap 61, V4, server */
    packet[1] = 2;
    packet[3] = 0xEC; /* precision -20 */
    packet[6] = 1;    /* root delay 256 / 65536 s */
    packet[10] = 2;   /* root dispersion 512 / 65536 s */
    packet[12] = 0xAB;
    for (int i = 0; i < 8; i++) packet[24 + i] = (uint8_t)(1 + i);
    packet[35] = 103;
    packet[43] = 103;
    packet[44] = 0x80;
    struct reckonstile_reply_answer r = reckonstile_reply(a, size, packet, 48, 48, none, 0, none, 0, (uint64_t)100 << 32, (uint64_t)101 << 32, 6000);
    EXPECT(r.number == RECKONSTILE_OK && r.measured == 1 && r.leap == RECKONSTILE_LEAP_61 && r.stratum == 2 && r.precision == -20);
    EXPECT(r.delay == (int64_t)1 << 31 && r.offset == ((int64_t)11 << 32) / 4 && r.local == ((uint64_t)100 << 32 | (uint64_t)1 << 31) && r.mono == 6000);
    EXPECT(r.rootdelay == (int64_t)256 << 16 && r.rootdisp == (int64_t)512 << 16 && r.dropped == 0 && r.lost == 0);
    n = seen(a);
    EXPECT(!memcmp(&n.settings, &s, sizeof s) && n.state.reach == 1 && n.state.tries == 1 && n.state.refid == 0xAB000000 && n.state.stratum == 2);
    EXPECT(n.state.answered == 1 && n.state.present == 0 && n.state.unanswered == 0 && n.state.last == 0 && n.state.remote == 0 && n.state.denial == 0);
    EXPECT(a[29] == 1 && a[36] == 2 && a[37] == 0xAB && a[43] == 1);
    memcpy(b, a, size);

    /* why no request is live: measured already, or with the fact unset never sent; too late for the next poll. The fact is 0 or 1, and 0 while one is pending */
    EXPECT(reckonstile_reply(a, size, packet, 48, 48, none, 0, none, 0, 0, 0, 6000).number == RECKONSTILE_ALREADY_MEASURED && same());
    a[43] = 0;
    EXPECT(reckonstile_reply(a, size, packet, 48, 48, none, 0, none, 0, 0, 0, 6000).number == RECKONSTILE_NEVER_SENT && a[43] == 0);
    a[43] = 2;
    EXPECT(reckonstile_reply(a, size, packet, 48, 48, none, 0, none, 0, 0, 0, 6000).number == RECKONSTILE_NOT_WHOLE && a[43] == 2);
    a[43] = 128;
    EXPECT(reckonstile_timer(a, size, 6500, 0, 6, uid, none, 0).number == RECKONSTILE_NOT_WHOLE);
    a[43] = 1;
    EXPECT(reckonstile_timer(a, size, 6500, 0, 6, uid, none, 0).number == RECKONSTILE_SENT && a[43] == 0);
    EXPECT(reckonstile_reply(a, size, packet, 48, 48, none, 0, none, 0, 0, 0, 11501).number == RECKONSTILE_EXPIRED);
    a[43] = 1;
    EXPECT(reckonstile_reply(a, size, packet, 48, 48, none, 0, none, 0, 0, 0, 11501).number == RECKONSTILE_NOT_WHOLE);
    a[43] = 0;
    a[42] = 2;
    EXPECT(reckonstile_reply(a, size, packet, 48, 48, none, 0, none, 0, 0, 0, 11501).number == RECKONSTILE_NOT_WHOLE && a[42] == 2);
    a[42] = 1;

    /* the unanswered polls: 0 once a reply was measured, one more for each poll sent */
    n = seen(a);
    EXPECT(n.state.reach == 2 && n.state.unanswered == 1);

    /* a denial is noted */
    t = reckonstile_timer(a, size, 7000, 0, 5, uid, none, 0);
    memset(packet, 0, sizeof packet);
    packet[0] = 0x24;
    memcpy(packet + 12, "DENY", 4);
    packet[31] = 5;
    EXPECT(t.number == RECKONSTILE_SENT && reckonstile_reply(a, size, packet, 48, 48, none, 0, none, 0, 0, 0, 7000).number == RECKONSTILE_DENIED && a[41] == 1);
    n = seen(a);
    EXPECT(n.state.denial == 1 && n.state.reach == 4 && n.state.unanswered == 2);

    /* a decoded reply: each field in its place. V5 from the start, poll raised to the server's. */
    s.start = RECKONSTILE_V5;
    EXPECT(reckonstile_new(a, size, s, none, 0).number == RECKONSTILE_OK && a[32] == RECKONSTILE_V5);
    t = reckonstile_timer(a, size, 1, 4, 99, uid, none, 0);
    EXPECT(t.number == RECKONSTILE_SENT && t.kind == RECKONSTILE_SEND_V5);
    struct reckonstile_decoded d;
    memset(&d, 0, sizeof d);
    d.rootdelay = -5;
    d.rootdisp = 6;
    d.receive = (uint64_t)103 << 32;
    d.transmit = (uint64_t)103 << 32;
    d.cookie = 99;
    d.mode = RECKONSTILE_MODE_RESPONSE;
    d.leap = RECKONSTILE_LEAP_UNKNOWN;
    d.stratum = 16;
    d.poll = 7;
    d.precision = -128;
    d.untrusted = RECKONSTILE_UID_DISAGREE;
    r = reckonstile_reply_decoded(a, size, d, none, 0, (uint64_t)100 << 32, (uint64_t)102 << 32, 2);
    EXPECT(r.number == RECKONSTILE_OK && r.leap == RECKONSTILE_LEAP_UNKNOWN && r.stratum == 16 && r.precision == -128 && r.rootdelay == -5 && r.rootdisp == 6);
    EXPECT(r.delay == (int64_t)2 << 32 && r.offset == (int64_t)2 << 32 && seen(a).state.remote == 7);
    /* each kiss, and each code of no kind */
    uint8_t *kisses[] = { &d.rate, &d.deny, &d.rstr, &d.ntsn, &d.any };
    uint32_t numbers[] = { RECKONSTILE_RATE, RECKONSTILE_DENIED, RECKONSTILE_DENIED, RECKONSTILE_NTSN, RECKONSTILE_OTHER_KISS };
    for (int k = 0; k < 5; k++) {
        EXPECT(reckonstile_timer(a, size, 10, 4, 99, uid, none, 0).number == RECKONSTILE_SENT);
        *kisses[k] = 1;
        EXPECT(reckonstile_reply_decoded(a, size, d, none, 0, 0, 0, 10).number == numbers[k]);
        *kisses[k] = 2;
        EXPECT(reckonstile_reply_decoded(a, size, d, none, 0, 0, 0, 10).number == RECKONSTILE_UNDECODABLE);
        *kisses[k] = 0;
    }
    uint8_t *codes[] = { &d.leap, &d.authenticated, &d.encrypted, &d.untrusted };
    uint8_t firsts[] = { 5, 3, 3, 3 };
    for (int k = 0; k < 4; k++) {
        uint8_t was = *codes[k];
        *codes[k] = firsts[k];
        EXPECT(reckonstile_reply_decoded(a, size, d, none, 0, 0, 0, 10).number == RECKONSTILE_UNDECODABLE);
        *codes[k] = was;
    }
    d.mode = 2;
    EXPECT(reckonstile_reply_decoded(a, size, d, none, 0, 0, 0, 10).number == RECKONSTILE_UNDECODABLE);
    d.mode = RECKONSTILE_MODE_REQUEST;
    EXPECT(reckonstile_reply_decoded(a, size, d, none, 0, 0, 0, 10).number == RECKONSTILE_NOT_SERVER);

    /* what the stash dropped: of nine cookies the first, of three bytes; then, where one is taken and two come, the oldest, of 700; on a refusal nothing */
    uint8_t nine[39] = { 0xC0, 0x0E, 0, 3, 1, 2, 3 }, two[8];
    for (int k = 0; k < 8; k++) memcpy(nine + 7 + 4 * k, "\xC0\x0E\0\0", 4);
    for (int k = 0; k < 2; k++) memcpy(two + 4 * k, "\xC0\x0E\0\0", 4);
    s.nts = 1;
    m = reckonstile_new(a, size, s, nine, sizeof nine);
    EXPECT(m.number == RECKONSTILE_OK && m.made == 1 && m.dropped == 1 && m.lost == 3 && a[28] == 8);
    put_big_endian(a + ROW_AT((a[27] + 1) % 8) + 724, 2, 700);
    EXPECT(reckonstile_timer(a, size, 1, 4, 99, uid, buffer, sizeof buffer).number == RECKONSTILE_SENT && a[28] == 7);
    memset(&d.rate, 0, 5);
    d.mode = RECKONSTILE_MODE_RESPONSE;
    d.leap = RECKONSTILE_LEAP_UNKNOWN;
    d.authenticated = RECKONSTILE_UID_AGREE;
    d.encrypted = d.untrusted = RECKONSTILE_UID_ABSENT;
    r = reckonstile_reply_decoded(a, size, d, two, sizeof two, 0, 0, 2);
    EXPECT(r.number == RECKONSTILE_OK && r.dropped == 1 && r.lost == 700);
    m = reckonstile_new(a, size, s, nine, sizeof nine - 1);
    EXPECT(m.number == RECKONSTILE_BROKEN_LIST && !m.made && !m.dropped && !m.lost);

    /* a stash of two: two of nine are held, the places go round at two, and one is asked for where one is free. A capacity outside 1 to 8 is refused whatever the size is, and
       so is a spare byte that is not 0 */
    s.capacity = 2;
    size = RECKONSTILE_BYTES(2);
    m = reckonstile_new(a, size, s, nine, sizeof nine);
    n = seen(a);
    EXPECT(m.number == RECKONSTILE_OK && m.dropped == 7 && m.lost == 3 && n.settings.capacity == 2 && n.read == 1 && n.held == 2);
    t = reckonstile_timer(a, size, 1, 4, 99, uid, buffer, sizeof buffer);
    n = seen(a);
    EXPECT(t.number == RECKONSTILE_SENT && t.asked == 1 && n.read == 0 && n.held == 1);
    for (unsigned capacity = 0; capacity < 256; capacity += capacity < 10 ? 1 : 49) {
        int right = capacity >= 1 && capacity <= 8;
        a[26] = s.capacity = (uint8_t)capacity;
        EXPECT(accept_of(a) == (capacity == 2 ? RECKONSTILE_UNREACHABLE : RECKONSTILE_NOT_WHOLE));
        EXPECT(reckonstile_new(b, size, s, nine, sizeof nine).number == (!right ? RECKONSTILE_BAD_SETTINGS : capacity == 2 ? RECKONSTILE_OK : RECKONSTILE_WRONG_SIZE));
        EXPECT(reckonstile_profile(s, nine, sizeof nine) == (right ? RECKONSTILE_LOW_POLL_MIN : RECKONSTILE_BAD_SETTINGS));
    }
    a[26] = s.capacity = 2;
    s.spare = 1;
    EXPECT(reckonstile_new(b, size, s, nine, sizeof nine).number == RECKONSTILE_BAD_SETTINGS && reckonstile_profile(s, nine, sizeof nine) == RECKONSTILE_BAD_SETTINGS);
    s.spare = 0;
    a[27] = 2;
    EXPECT(accept_of(a) == RECKONSTILE_NOT_WHOLE);
    s.capacity = RECKONSTILE_SLOTS;
    size = RECKONSTILE_BYTES(RECKONSTILE_SLOTS);
    s.nts = 0;

    /* accept: the words of the Bloom filter, and the identifiers as numbers */
    uint32_t local[] = { 1, 0xC0000201 };
    s.start = RECKONSTILE_V4;
    s.source = 0xC0000201;
    EXPECT(reckonstile_new(a, size, s, none, 0).number == RECKONSTILE_OK);
    a[29] = 1;
    EXPECT(reckonstile_accept(a, size, 16, local, 2, RECKONSTILE_BLOOM_NONE) == RECKONSTILE_NOT_WHOLE); /* the unanswered polls are still 8 */
    a[31] = 0;
    EXPECT(reckonstile_accept(a, size, 16, local, 2, RECKONSTILE_BLOOM_NONE) == RECKONSTILE_HIGH_STRATUM);
    EXPECT(reckonstile_accept(a, size, 17, local, 2, RECKONSTILE_BLOOM_NONE) == RECKONSTILE_LOOP);
    EXPECT(reckonstile_accept(a, size, 17, local, 1, RECKONSTILE_BLOOM_NONE) == RECKONSTILE_OK);
    EXPECT(reckonstile_accept(a, size, 17, local, 0, RECKONSTILE_BLOOM_ABSENT) == RECKONSTILE_OK);
    EXPECT(reckonstile_accept(a, size, 17, local, 0, RECKONSTILE_BLOOM_PRESENT) == RECKONSTILE_LOOP);
    EXPECT(reckonstile_accept(a, size, 17, local, 0, 3) == RECKONSTILE_LOOP);
    a[29] = 0;
    a[31] = 8;
    EXPECT(reckonstile_accept(a, size, 17, local, 0, RECKONSTILE_BLOOM_NONE) == RECKONSTILE_UNREACHABLE);

    /* each reach has one number of unanswered polls: the zeros at its low end, 8 where it is 0 */
    for (unsigned reach = 0; reach < 256; reach++) {
        unsigned zeros = 0;
        while (zeros < 8 && !(reach >> zeros & 1)) zeros++;
        a[29] = (uint8_t)reach;
        for (unsigned k = 0; k <= 10; k++) {
            a[31] = (uint8_t)(k < 10 ? k : 255);
            EXPECT((reckonstile_accept(a, size, 17, local, 0, RECKONSTILE_BLOOM_NONE) == RECKONSTILE_NOT_WHOLE) == (k != zeros));
        }
    }

    /* field_at: each field of the answer in its place. A packet with a field of 36 bytes and one of 28, and a tail of 24. */
    static uint8_t fields[48 + 36 + 28 + 24];
    memcpy(fields + 48, "\x01\x04\0\x24", 4);
    memcpy(fields + 84, "\x04\x04\0\x1C", 4);
    struct reckonstile_field f = reckonstile_field_at(fields, sizeof fields, 48);
    EXPECT(f.number == RECKONSTILE_OK && f.found == 1 && f.kind == 0x0104 && f.spare == 0 && f.body == 52 && f.length == 32 && f.next == 84);
    f = reckonstile_field_at(fields, sizeof fields, 84);
    EXPECT(f.number == RECKONSTILE_OK && f.found == 1 && f.kind == 0x0404 && f.body == 88 && f.length == 24 && f.next == 112);
    f = reckonstile_field_at(fields, sizeof fields, 112);
    EXPECT(f.number == RECKONSTILE_OK && !f.found && !f.kind && !f.body && !f.length && !f.next);
    f = reckonstile_field_at(fields, 100, 84);
    EXPECT(f.number == RECKONSTILE_OK && !f.found); /* 16 bytes are left, which are a tail */
    f = reckonstile_field_at(fields, 111, 84);
    EXPECT(f.number == RECKONSTILE_UNDECODABLE && !f.found && !f.kind && !f.body && !f.length && !f.next);
    f = reckonstile_field_at(fields, sizeof fields, sizeof fields + 1);
    EXPECT(f.number == RECKONSTILE_UNDECODABLE && !f.found);

    /* salvage: each field of the report in its place. A stray byte, two cookies, a head whose length does not fit, a cookie. */
    uint8_t damaged[] = { 7, 0xC0, 0x0E, 0, 3, 1, 2, 3, 0xC0, 0x0E, 0, 0, 0xC0, 0x0E, 9, 9, 0xC0, 0x0E, 0, 0 }, out[sizeof damaged];
    memset(out, 0xEE, sizeof out);
    struct reckonstile_salvaged v = reckonstile_salvage(damaged, sizeof damaged, out, sizeof out);
    EXPECT(v.number == RECKONSTILE_OK && v.kept == 3 && v.skipped == 5 && v.gaps == 2 && v.told == 2 && v.length == 15 && v.places[0] == 0 && v.places[1] == 12 && v.places[31] == 0);
    EXPECT(!memcmp(out, damaged + 1, 11) && !memcmp(out + 11, damaged + 16, 4) && out[15] == 0xEE);
    v = reckonstile_salvage(damaged, sizeof damaged, out, sizeof out - 1);
    EXPECT(v.number == RECKONSTILE_SHORT_SALVAGE_BUFFER && !v.kept && !v.skipped && !v.gaps && !v.told && !v.length && out[15] == 0xEE);

    /* compare: each field of the answer in its place, and the files in their order. A file of 63 bytes, of before there was a capacity, without NTS; one with another startup limit; one that is cut. */
    uint8_t here[] = "SE\0\x1A\x04\x0A\x03\0\0\0\0\0\0\0\x01\0\0\0\0\0\0\0\0\0\0\0\0\0\0\0ST\0\x01\0RE\0\x02\0\0VE\0\x02\0\0PO\0\x02\x04\x04SO\0\x06\x10XNON\0", there[63], list_of_two[20];
    memcpy(there, here, 63);
    there[6] = 8;
    memset(list_of_two, 0xEE, sizeof list_of_two);
    struct reckonstile_compared told = reckonstile_compare(here, 63, there, 63, list_of_two, sizeof list_of_two);
    EXPECT(told.number == RECKONSTILE_OK && !told.side && told.entries == 1);
    EXPECT(list_of_two[0] == 3 && list_of_two[8] == 3 && list_of_two[16] == 8 && !list_of_two[17] && !list_of_two[18] && list_of_two[19] == 0xEE);
    told = reckonstile_compare(here, 63, there, 62, list_of_two, sizeof list_of_two);
    EXPECT(told.number == RECKONSTILE_WRONG_LENGTH && told.side == 2 && !told.entries);
    told = reckonstile_compare(here, 62, there, 62, list_of_two, sizeof list_of_two);
    EXPECT(told.number == RECKONSTILE_WRONG_LENGTH && told.side == 1 && !told.entries);
    told = reckonstile_compare(here, 63, there, 63, list_of_two, 18);
    EXPECT(told.number == RECKONSTILE_SHORT_COMPARE_BUFFER && !told.side && !told.entries && list_of_two[0] == 3);

    /* the calendar: the lists in their order, the numbers, and what each answer names */
    uint16_t starts[] = { 0, 15, 1439 }, repeats[] = { 60, 720, 1440 }, same[] = { 0, 15, 15 }, hourly[] = { 60, 720, 60 }, zero[] = { 60, 0, 7 }, planned[] = { 7, 7, 7, 7 };
    struct reckonstile_calendar_answer c = reckonstile_check_calendar(1, starts, 3, repeats, 3);
    EXPECT(c.number == RECKONSTILE_OK && !c.named && !c.place);
    c = reckonstile_check_calendar(1, starts, 3, zero, 3);
    EXPECT(c.number == RECKONSTILE_BAD_REPEAT && c.named == 1 && c.place == 1);
    c = reckonstile_check_calendar(1, repeats, 3, starts, 3);
    EXPECT(c.number == RECKONSTILE_BAD_REPEAT && c.named == 1 && c.place == 0);
    c = reckonstile_check_calendar(1, starts, 3, hourly, 3);
    EXPECT(c.number == RECKONSTILE_LATE_START && c.named == 1 && c.place == 2);
    c = reckonstile_check_calendar(1, same, 3, hourly, 3);
    EXPECT(c.number == RECKONSTILE_OVER_CAP && c.named == 1 && c.place == 15);
    c = reckonstile_check_calendar(1, starts, 3, repeats, 2);
    EXPECT(c.number == RECKONSTILE_BAD_REPEAT && c.named == 1 && c.place == 2);
    c = reckonstile_check_calendar(1, starts, 2, repeats, 3);
    EXPECT(c.number == RECKONSTILE_LATE_START && c.named == 1 && c.place == 2);
    c = reckonstile_plan_calendar(1, repeats, 3, planned, 4);
    EXPECT(c.number == RECKONSTILE_OK && !c.named && planned[0] == 0 && planned[1] == 1 && planned[2] == 2 && planned[3] == 7);
    c = reckonstile_plan_calendar(0, repeats, 3, planned, 4);
    EXPECT(c.number == RECKONSTILE_NO_FIT && c.named == 1 && c.place == 0 && planned[3] == 7);
    c = reckonstile_plan_calendar(1, repeats, 3, planned + 3, 1);
    EXPECT(c.number == RECKONSTILE_WRONG_SIZE && !c.named && !c.place && planned[3] == 7);

    printf("%d passed, %d failed\n", passed, failed);
    return failed != 0;
}
