/* Any bytes whatever as a record, of any number: random ones, and records that calls have made with bytes of them changed, cut or added. Each call gives 32 exactly
   where the record is not whole (the test below is written from the header's layout and docs/RULES.md, not from the library), or a number of its own; what it must not
   change stays: the whole record after 32 and the other refusals, the settings always, and the bytes around the record and the buffers. reckonstile_look gives 0 exactly
   where size and codes are a record's, and then what the bytes say. The record and the buffers end at a page that is not mapped. The tools, which have no record, are held to a
   second reading of their rules on random damaged lists, calendars, plans and packets. fuzz SEED ROUNDS */
#define _DEFAULT_SOURCE
#include "record.h"

static uint64_t state;
static uint64_t next(void) { /* splitmix64 */
    uint64_t z = state += 0x9E3779B97F4A7C15;
    z = (z ^ z >> 30) * 0xBF58476D1CE4E5B9;
    z = (z ^ z >> 27) * 0x94D049BB133111EB;
    return z ^ z >> 31;
}
static uint64_t below(uint64_t n) { return next() % n; }

/* ---- when a record is whole */

static int zeros(const uint8_t *b, size_t n) {
    for (size_t i = 0; i < n; i++)
        if (b[i]) return 0;
    return 1;
}
static int version_ok(uint32_t kind, uint8_t left) { return kind == RECKONSTILE_UPGRADING || (kind <= RECKONSTILE_V5 && left == 0); }
static int setting_codes_ok(const struct reckonstile_settings *s) { return version_ok(s->start, s->left) && s->nts <= 1 && !s->spare; }
static int settings_ok(const struct reckonstile_settings *s) {
    return 0 <= s->min && s->min <= s->max && s->max <= 17 && 1 <= s->startup && s->startup <= 8 && 1 <= s->window && s->window <= 60000000000 && 1 <= s->capacity &&
           s->capacity <= RECKONSTILE_SLOTS;
}
static uint8_t unanswered_of(uint8_t reach) { /* the zeros at its low end */
    uint8_t n = 0;
    while (n < 8 && !(reach & 1u << n)) n++;
    return n;
}
static int whole(const uint8_t *b, size_t size) {
    if (size < 92) return 0;
    struct numbers a = numbers_in(b);
    const struct reckonstile_state *s = &a.state;
    size_t capacity = a.settings.capacity;
    if (a.settings.start == RECKONSTILE_UPGRADING || s->version == RECKONSTILE_UPGRADING) return 0; /* retired */
    if (!setting_codes_ok(&a.settings) || !version_ok(s->version, s->left) || s->denial > 1 || s->present > 1 || s->answered > 1) return 0;
    if (!settings_ok(&a.settings) || size != RECKONSTILE_BYTES(capacity) || a.read >= capacity || a.held > capacity) return 0;
    for (size_t k = 0; k < capacity; k++) { /* oldest first */
        size_t row = (a.read + k) % capacity, len = row_length(b, row), stored = len <= RECKONSTILE_COOKIE_BYTES ? len : 0;
        if ((k >= a.held && len) || !zeros(b + ROW_AT(row) + stored, RECKONSTILE_COOKIE_BYTES - stored)) return 0;
    }
    if (s->present ? s->answered != 0 : s->id || s->deadline || !zeros(s->uid, 32)) return 0;
    if (s->unanswered != unanswered_of(s->reach)) return 0;
    return a.settings.nts || (!a.read && !a.held && zeros(s->uid, 32));
}

/* ---- a record before a fence */

#define MOST 6000
enum { RECORD, OUT, PACKET, DECRYPTED, LIST, FILE_, OTHER };
static uint8_t *record, *out, before[MOST + 1];
static size_t size, before_size, room;
static struct numbers was; /* what the bytes before said; zero where there are fewer than 92 */
static unsigned long passed, failed, wholes, measured, fell;

/* lends n bytes: as many of those that were lent as there are, and zeros */
static void lend(size_t n) {
    static uint8_t kept[MOST + 1];
    memset(kept, 0, sizeof kept);
    if (record) memcpy(kept, record, size);
    size = n;
    record = fenced(RECORD, n);
    memcpy(record, kept, n);
}
static void note(void) {
    before_size = size;
    memcpy(before, record, size);
    memset(&was, 0, sizeof was);
    if (size >= 92) was = numbers_in(before);
}
static void put_back(void) {
    lend(before_size);
    memcpy(record, before, size);
}
static void lend_out(size_t n) {
    room = n;
    out = fenced(OUT, n);
    memset(out, 0xAA, n);
}
static int untouched(uint64_t from) {
    if (from > room) return 0;
    for (size_t i = (size_t)from; i < room; i++)
        if (out[i] != 0xAA) return 0;
    return 1;
}
static uint8_t *fenced_copy(unsigned which, const uint8_t *bytes, size_t n) {
    uint8_t *copy = fenced(which, n);
    memcpy(copy, bytes, n);
    return copy;
}
static void expect(int test, const char *what, uint32_t number) {
    int walls = (!record || wall_stands(record)) && (!out || wall_stands(out));
    if (test && walls) {
        passed++;
        return;
    }
    if (failed++ < 10) printf("fuzz: %s (%u) after %lu right ones\n", test ? "bytes before the record or a buffer changed" : what, (unsigned)number, passed);
}
static int kept(void) { return size == before_size && !memcmp(record, before, size); }
static int settings_kept(void) { return size < 27 ? kept() : !memcmp(record, before, 27); }

/* ---- records */

static void random_bytes(void *to, size_t n) {
    for (size_t i = 0; i < n; i++) ((uint8_t *)to)[i] = (uint8_t)next();
}
static size_t list_of(uint8_t *list, size_t room) {
    size_t n = 0;
    for (uint64_t left = below(10); left && n + 4 < room; left--) {
        size_t len = below(8) ? below(120) : below(room - n - 4);
        if (n + 4 + len > room) break;
        list[n] = 0xC0;
        list[n + 1] = 0x0E;
        list[n + 2] = (uint8_t)(len >> 8);
        list[n + 3] = (uint8_t)len;
        random_bytes(list + n + 4, len);
        n += 4 + len;
    }
    return n;
}
static void make(void) {
    static uint8_t list[4096];
    struct reckonstile_uid uid;
    if (!below(16)) { /* random bytes of a random number, or of one that a record may have, with the capacity that goes with it */
        int fits = below(2);
        uint8_t capacity = (uint8_t)(1 + below(RECKONSTILE_SLOTS));
        lend(fits ? RECKONSTILE_BYTES(capacity) : below(4) ? below(MOST + 1) : below(94));
        random_bytes(record, size);
        if (fits) record[26] = capacity;
        return;
    }
    struct reckonstile_settings s;
    memset(&s, 0, sizeof s);
    s.window = 1 + below(60000000000);
    s.upgrademark = next();
    s.source = (uint32_t)next();
    s.start = (uint32_t)below(4);
    s.left = s.start == RECKONSTILE_UPGRADING ? (uint8_t)next() : 0;
    s.nts = (uint16_t)below(2);
    s.capacity = (uint8_t)(1 + below(RECKONSTILE_SLOTS));
    s.startup = (uint8_t)(1 + below(8));
    s.max = (int8_t)below(18);
    s.min = (int8_t)below((uint64_t)s.max + 1);
    size_t n = list_of(list, below(2) ? sizeof list : 1000);
    lend(RECKONSTILE_BYTES(s.capacity));
    uint8_t *lent = fenced_copy(LIST, list, n);
    uint32_t number = reckonstile_new(record, size, s, lent, n).number;
    if (s.start == RECKONSTILE_UPGRADING) {
        expect(number == RECKONSTILE_RETIRED_START && zeros(record, size), "new with the retired start version", number);
        s.start = RECKONSTILE_V4;
        s.left = 0;
        number = reckonstile_new(record, size, s, lent, n).number;
    }
    expect(number == RECKONSTILE_OK && whole(record, size), "new was refused, or its record is not whole", number);
    /* an upgraded one with its last poll answered, as a load gives it: its first poll is of V5 */
    if (s.start == RECKONSTILE_UPGRADED && below(2)) {
        record[29] = 1; /* reach */
        record[31] = 0; /* unanswered */
    }
    for (uint64_t k = below(4); k; k--) {
        random_bytes(&uid, sizeof uid);
        lend_out(724);
        number = reckonstile_timer(record, size, below(1000000), (int8_t)below(18), next(), uid, out, room).number;
        expect(whole(record, size) && number >= RECKONSTILE_SENT && number <= RECKONSTILE_COOKIE_TOO_LARGE, "timer on a whole record", number);
    }
    /* a reach by hand, with its unanswered polls, as a load gives it */
    if (!below(4)) {
        record[29] = (uint8_t)next();
        record[31] = unanswered_of(record[29]);
        expect(whole(record, size), "a reach with its unanswered polls", record[29]);
    }
    /* then bytes of it, more often where numbers are few; at times its size */
    for (uint64_t k = below(4); k; k--) record[below(4) ? below(92) : below(size)] = (uint8_t)(below(2) ? below(4) : next());
    if (!below(16)) lend(below(2) ? size - 1 : below(2) ? size + 1 : RECKONSTILE_BYTES(1 + below(RECKONSTILE_SLOTS)));
}

/* What falls out where a list is stored: of the lengths held and those of the list, oldest first, as many as do not fit. With another number than 0, and without NTS,
   nothing is stored. */
static int dropped_right(uint32_t number, const struct numbers *a, const uint8_t *b, const uint8_t *list, size_t n, uint64_t dropped, uint64_t lost) {
    if (number || !a->settings.nts) return !dropped && !lost;
    uint64_t cookies = 0, sum = 0, capacity = a->settings.capacity;
    for (size_t at = 0; at < n; at += 4u + (size_t)(list[at + 2] << 8 | list[at + 3])) cookies++;
    uint64_t over = a->held + cookies > capacity ? a->held + cookies - capacity : 0;
    size_t at = 0;
    for (uint64_t k = 0; k < over; k++) {
        if (k < a->held) {
            sum += row_length(b, (a->read + k) % capacity);
            continue;
        }
        size_t len = (size_t)(list[at + 2] << 8 | list[at + 3]);
        sum += len;
        at += 4 + len;
    }
    return dropped == over && lost == sum;
}

/* ---- a reply that may match, and what may be said of one */

/* 12, 13 and 14 as the record has it; what comes behind them in the order, only where a request is live */
static int reason_right(uint32_t n, const struct reckonstile_state *s, uint64_t time) {
    uint32_t reason = !s->present ? (s->answered ? RECKONSTILE_ALREADY_MEASURED : RECKONSTILE_NEVER_SENT) : s->deadline < time ? RECKONSTILE_EXPIRED : 0;
    return n == reason || n == 1 || n == 2 || n == 32 || n == 33 || (!reason && n < RECKONSTILE_NEVER_SENT);
}

static size_t packet_of(uint8_t *packet) {
    size_t n = below(8) ? 48 : below(120);
    random_bytes(packet, 256);
    if (below(8)) {
        packet[0] = (uint8_t)(below(4) << 6 | (3 + below(3)) << 3 | (below(4) ? 4 : below(8)));
        packet[1] = (uint8_t)(below(4) ? below(18) : 0);
        static const char *const names[] = { "RATE", "DENY", "RSTR", "NTSN", "XXXX" };
        if (!packet[1]) memcpy(packet + 12, names[below(5)], 4);
        for (int i = 0; i < 8; i++) packet[24 + i] = (uint8_t)(was.state.id >> (56 - 8 * i));
        if (below(2)) {
            static const uint8_t head[4] = { 1, 4, 0, 36 };
            memcpy(packet + 48, head, 4);
            memcpy(packet + 52, was.state.uid, 32);
            n = 84 + below(60);
        }
    }
    return n;
}

/* ---- the tools: what they say, against a second reading of docs/RULES.md, No. 9 and No. 13 */

static int marked(const uint8_t *l, size_t n, size_t at) { return n - at >= 2 && l[at] == 0xC0 && l[at + 1] == 0x0E; }
static size_t kept_end(const uint8_t *l, size_t n, size_t at) { /* where the record that is kept at a place ends; 0 where there is none */
    if (n - at < 4 || !marked(l, n, at)) return 0;
    size_t end = at + 4 + ((size_t)l[at + 2] << 8 | l[at + 3]);
    return end <= n && (end == n || marked(l, n, end)) ? end : 0;
}
static void salvaged(void) {
    static uint8_t list[1024], clean[1024];
    size_t n = list_of(list, below(2) ? sizeof list : 40), length = 0, kept = 0, gaps = 0;
    uint64_t places[RECKONSTILE_PLACES] = { 0 };
    for (uint64_t k = below(4) ? below(4) : below(200); n && k; k--) list[below(n)] = (uint8_t)(below(2) ? next() : below(2) ? 0xC0 : 0x0E);
    lend_out(below(8) ? n + below(100) : below(n + 1));
    for (size_t at = 0, gap = 0, end; at < n;) {
        if ((end = kept_end(list, n, at))) {
            memcpy(clean + length, list + at, end - at);
            length += end - at;
            kept++;
            at = end;
            gap = 0;
        } else {
            if (!gap && gaps++ < RECKONSTILE_PLACES) places[gaps - 1] = at;
            gap = 1;
            at++;
        }
    }
    struct reckonstile_salvaged s = reckonstile_salvage(fenced_copy(LIST, list, n), n, out, room);
    int refused = room < n, right = s.number == (refused ? 70 : 0);
    if (refused) length = kept = gaps = 0, memset(places, 0, sizeof places);
    right &= s.kept == kept && s.skipped == (refused ? 0 : n - length) && s.gaps == gaps && s.told == (gaps < RECKONSTILE_PLACES ? gaps : RECKONSTILE_PLACES) && s.length == length;
    expect(right && !memcmp(s.places, places, sizeof places) && !memcmp(out, clean, length), "salvage", s.number);
    expect(untouched(length), "salvage: the buffer past the clean list changed", s.number);
}

static const uint16_t divisors[] = { 1, 2, 3, 4, 5, 6, 8, 9, 10, 12, 15, 16, 18, 20, 24, 30, 60, 90, 144, 720, 1440 };
static unsigned polls(const uint16_t *starts, const uint16_t *repeats, size_t n, unsigned minute) {
    unsigned count = 0;
    for (size_t k = 0; k < n; k++) count += minute % repeats[k] == starts[k];
    return count;
}
static uint32_t fits(uint8_t cap, const uint16_t *starts, const uint16_t *repeats, size_t n, size_t *place) {
    *place = 0;
    if (n > RECKONSTILE_ENTRIES) return 80;
    for (size_t k = 0; k < n; k++)
        if (!repeats[k] || 1440 % repeats[k]) return *place = k, 81;
    for (size_t k = 0; k < n; k++)
        if (starts[k] >= repeats[k]) return *place = k, 82;
    for (unsigned m = 0; m < 1440; m++)
        if (polls(starts, repeats, n, m) > cap) return *place = m, 83;
    return 0;
}
static void scheduled(void) {
    static uint16_t starts[130], repeats[130];
    size_t n = below(16) ? below(6) : below(130), place, at;
    uint8_t cap = (uint8_t)(below(4) ? below(4) : next());
    for (size_t k = 0; k < n; k++) {
        repeats[k] = below(64) ? divisors[below(sizeof divisors / sizeof *divisors)] : (uint16_t)next();
        starts[k] = (uint16_t)(repeats[k] && below(64) ? below(repeats[k]) : next());
    }
    uint32_t number = fits(cap, starts, repeats, n, &place);
    struct reckonstile_calendar_answer r = reckonstile_check_calendar(cap, starts, n, repeats, n);
    expect(r.number == number && r.place == place && r.named == (number >= 81), "check_calendar", r.number);

    /* a plan is accepted, and each of its starts is the earliest that fits behind those before; the buffer is as it was but for the plan */
    size_t places = below(8) ? n + below(4) : below(n + 1);
    for (size_t k = 0; k < 130; k++) starts[k] = 0xAAAA;
    r = reckonstile_plan_calendar(cap, repeats, n, starts, places);
    int right = r.number == 0 || r.number == 31 || r.number == 80 || r.number == 81 || r.number == 84, as_was = 1;
    for (size_t k = r.number ? 0 : n; k < 130; k++) as_was &= starts[k] == 0xAAAA;
    if (r.number == 0) {
        right &= places >= n && !fits(cap, starts, repeats, n, &at);
        for (size_t k = 0; k < n && k < 6; k++) {
            uint16_t was = starts[k];
            for (starts[k] = 0; starts[k] < was; starts[k]++) right &= fits(cap, starts, repeats, k + 1, &at) == 83;
        }
    } else if (r.number == 31)
        right &= places < n;
    else if (r.number != 84)
        right &= number == r.number && place == r.place;
    expect(right && r.named == (r.number > 80) && (r.named || !r.place), "plan_calendar", r.number);
    expect(as_was, "plan_calendar: the buffer past the plan changed", r.number);
}

/* the fields of a packet, by RFC 7822 and docs/RULES.md, part 7, against reckonstile_field_at */
static void walked(void) {
    static uint8_t packet[256];
    size_t n = below(8) ? 48 + below(200) : below(60), at = below(4) ? 48 : below(260);
    random_bytes(packet, sizeof packet);
    for (size_t k = 48; k + 4 <= n && below(8);) { /* mostly fields one behind the other */
        size_t len = 4 * (4 + below(8));
        put_big_endian(packet + k, 2, below(2) ? 0x0404 : next());
        put_big_endian(packet + k + 2, 2, below(16) ? len : below(64));
        k += len;
    }
    uint8_t *lent = fenced_copy(PACKET, packet, n);
    for (int left = 40; left; left--) {
        struct reckonstile_field f = reckonstile_field_at(lent, n, at), e;
        memset(&e, 0, sizeof e);
        size_t len = at + 4 <= n ? (size_t)big_endian(packet + at + 2, 2) : 0;
        if (at > n) e.number = 1;
        else if (n - at > 24) {
            if (len < 16 || len % 4 || len > n - at) e.number = 1;
            else {
                e.found = 1;
                e.kind = (uint32_t)big_endian(packet + at, 2);
                e.body = at + 4;
                e.length = len - 4;
                e.next = at + len;
            }
        }
        expect(!memcmp(&f, &e, sizeof e), "field_at", f.number);
        if (!e.found) break;
        at = (size_t)e.next;
    }
    struct reckonstile_field far = reckonstile_field_at(lent, n, (size_t)-1 - below(8));
    expect(far.number == 1 && !far.found && !far.next, "field_at past every packet", far.number);
}

static int reply_zero(const struct reckonstile_reply_answer *r) {
    return !r->measured && !r->delay && !r->offset && !r->local && !r->mono && !r->leap && !r->stratum && !r->precision && !r->rootdelay && !r->rootdisp && !r->dropped && !r->lost;
}

typedef struct reckonstile_new_answer (*maker)(uint8_t *, size_t, struct reckonstile_settings, const uint8_t *, size_t);
/* with bytes of another number: 31 and as they were where there would have been an association, else zeros and the number */
static void elsewhere(maker make, const char *what, struct reckonstile_settings s, const uint8_t *list, size_t n, uint32_t number) {
    size_t right = RECKONSTILE_BYTES(s.capacity);
    lend(below(2) ? below(MOST) : RECKONSTILE_BYTES(below(9)) - below(2));
    if (size == right) lend(right + 1);
    random_bytes(record, size);
    note();
    struct reckonstile_new_answer r = make(record, size, s, list, n);
    expect(r.number == (number ? number : RECKONSTILE_WRONG_SIZE) && !r.made && !r.dropped && !r.lost && (number ? zeros(record, size) : kept()), what, r.number);
}

/* a record of each capacity, with and without NTS and a request, with one byte changed: each of the head to every value, each of the stash to a few */
static void swept(uint8_t capacity, uint16_t nts, int polled) {
    static uint8_t list[] = "\xC0\x0E\0\3abc\xC0\x0E\0\0\xC0\x0E\0\2de";
    struct reckonstile_settings s;
    struct reckonstile_uid uid;
    memset(&s, 0, sizeof s);
    memset(&uid, 7, sizeof uid);
    s.window = 5000;
    s.nts = nts;
    s.capacity = capacity;
    s.startup = 3;
    s.min = 4;
    s.max = 10;
    lend(RECKONSTILE_BYTES(capacity));
    lend_out(724);
    expect(reckonstile_new(record, size, s, list, sizeof list - 1).number == RECKONSTILE_OK, "new", 0);
    if (polled) expect(reckonstile_timer(record, size, 1000, 6, 99, uid, out, room).number == RECKONSTILE_SENT, "timer", 0);
    note();
    expect(whole(record, size), "a record that was made is whole", 0);
    static const unsigned few[] = { 0, 1, 255 };
    for (size_t at = 0; at < size; at++) {
        uint8_t was_there = record[at];
        for (unsigned k = 0; k < (at < 92 ? 256 : 3); k++) {
            record[at] = (uint8_t)(at < 92 ? k : few[k]);
            uint32_t nobody = 0, n = reckonstile_accept(record, size, 17, &nobody, 0, RECKONSTILE_BLOOM_NONE);
            expect((n == RECKONSTILE_NOT_WHOLE) == !whole(record, size), "accept of a record with one byte changed", (uint32_t)at);
            struct reckonstile_view v = reckonstile_look(record, size);
            expect(readable(record, size) ? shown_right(&v, record) : shown_zero(&v), "look at a record with one byte changed", (uint32_t)at);
        }
        record[at] = was_there;
    }
    expect(kept(), "accept or look changed the record", 0);
}

int main(int argc, char **argv) {
    if (argc != 3) {
        fprintf(stderr, "usage: fuzz SEED ROUNDS\n");
        return 2;
    }
    state = strtoull(argv[1], NULL, 10);
    static uint8_t bytes[1024], none[1];
    static const struct numbers empty;
    for (uint8_t capacity = 1; capacity <= RECKONSTILE_SLOTS; capacity++)
        for (int k = 0; k < 4; k++) swept(capacity, k & 1, k >> 1);
    for (unsigned long rounds = strtoul(argv[2], NULL, 10); rounds; rounds--) {
        make();
        note();
        int is_whole = whole(before, before_size);
        wholes += (unsigned long)is_whole;
        struct reckonstile_uid uid;
        random_bytes(&uid, sizeof uid);
        size_t list_len = below(4) ? list_of(bytes, sizeof bytes) : below(sizeof bytes), decrypted_len = below(2) ? 0 : below(40);
        uint8_t *list = fenced_copy(LIST, bytes, list_len), *decrypted = fenced(DECRYPTED, decrypted_len);
        memset(decrypted, 0, decrypted_len);
        uint64_t time = below(2) ? below(2000000) : next();

        struct reckonstile_view v = reckonstile_look(record, size);
        expect(kept() && (readable(before, before_size) ? shown_right(&v, before) : shown_zero(&v)) && (!is_whole || !v.number), "look", (uint32_t)v.number);

        uint32_t local[4] = { was.settings.source, 1, 2, 3 }, n = reckonstile_accept(record, size, (uint8_t)next(), local + below(2), below(4), (uint32_t)below(4));
        expect(kept() && accept_gives(n) && (n == RECKONSTILE_NOT_WHOLE) == !is_whole, "accept", n);

        lend_out(below(4) ? 724 + below(100) : below(724));
        struct reckonstile_timer_answer t = reckonstile_timer(record, size, time, (int8_t)next(), next(), uid, out, room);
        n = t.number;
        expect(settings_kept() && timer_gives(n) && (n == RECKONSTILE_NOT_WHOLE) == !is_whole && (!is_whole || whole(record, size)), "timer", n);
        expect(timer_changes(n) || kept(), "timer: a refusal changed the record", n);
        uint8_t polled = was.state.unanswered < 8 ? (uint8_t)(was.state.unanswered + 1) : was.state.unanswered;
        expect(!is_whole || record[31] == (n == 20 || n == 23 || n == 24 ? polled : was.state.unanswered), "timer: the unanswered polls", n);
        expect((n == 20) == (t.kind != 0) && t.length <= RECKONSTILE_COOKIE_BYTES && t.asked <= was.settings.capacity && (n == 20 || (!t.poll && !t.asked && !t.length)), "timer's answer", n);
        expect(untouched(t.length), "timer: the buffer past the cookie changed", n);

        if (below(4)) put_back();
        note();
        is_whole = whole(before, before_size);
        static uint8_t packet[256];
        size_t packet_len = packet_of(packet);
        struct reckonstile_reply_answer r =
            reckonstile_reply(record, size, fenced_copy(PACKET, packet, packet_len), packet_len, below(8) ? (was.settings.nts == 1 && packet_len >= 84 ? 84 : 48) : below(2) ? 84 : next(), decrypted, decrypted_len, list, list_len, next(), next(), time);
        n = r.number;
        expect(settings_kept() && reply_gives(n) && (n == RECKONSTILE_NOT_WHOLE) == !is_whole && (!is_whole || whole(record, size)), "reply", n);
        expect(!is_whole || reason_right(n, &was.state, time), "reply: why no request is live", n);
        expect(reply_changes(n) || kept(), "reply: a refusal changed the record", n);
        expect(!is_whole || record[31] == (n == 0 ? 0 : was.state.unanswered), "reply: the unanswered polls", n);
        expect(n == 0 ? r.measured == 1 : reply_zero(&r), "reply's answer", n);
        measured += n == 0;
        fell += r.dropped > 0;
        expect(dropped_right(n, &was, before, list, list_len, r.dropped, r.lost), "reply: what the stash dropped", n);

        if (below(4)) put_back();
        note();
        is_whole = whole(before, before_size);
        struct reckonstile_decoded d;
        random_bytes(&d, sizeof d);
        if (below(4)) {
            uint8_t *codes[] = { &d.rate, &d.deny, &d.rstr, &d.ntsn, &d.any };
            for (int k = 0; k < 5; k++) *codes[k] = (uint8_t)!below(8);
            d.authenticated = (uint8_t)below(3);
            d.encrypted = (uint8_t)below(3);
            d.untrusted = (uint8_t)below(3);
            d.mode = (uint32_t)below(2);
            d.leap = (uint8_t)below(5);
            d.cookie = was.state.id;
        }
        r = reckonstile_reply_decoded(record, size, d, list, list_len, next(), next(), time);
        n = r.number;
        expect(settings_kept() && reply_decoded_gives(n) && (n == RECKONSTILE_NOT_WHOLE) == !is_whole && (!is_whole || whole(record, size)), "reply_decoded", n);
        expect(!is_whole || reason_right(n, &was.state, time), "reply_decoded: why no request is live", n);
        expect(reply_decoded_changes(n) || kept(), "reply_decoded: a refusal changed the record", n);
        expect(!is_whole || record[31] == (n == 0 ? 0 : was.state.unanswered), "reply_decoded: the unanswered polls", n);
        expect(n == 0 ? r.measured == 1 : reply_zero(&r), "reply_decoded's answer", n);
        expect(dropped_right(n, &was, before, list, list_len, r.dropped, r.lost), "reply_decoded: what the stash dropped", n);

        /* a file that is written is read as the record, with nothing sent; a byte of it changed, or its end cut, is a number of its own and a record that is whole or blank */
        static uint8_t file[RECKONSTILE_FILE_BYTES], other[RECKONSTILE_FILE_BYTES], kept_of[RECORD_MOST], settled[RECORD_MOST];
        if (below(4)) put_back();
        note();
        is_whole = whole(before, before_size);
        lend_out(below(4) ? sizeof file : below(100));
        struct reckonstile_written w = reckonstile_save(record, size, out, room);
        n = w.number;
        expect(save_gives(n) && (n == RECKONSTILE_NOT_WHOLE) == !is_whole, "save", n);
        expect(w.written == (n == 0) && (n == 0 ? w.length >= 64 : !w.length) && untouched(w.length), "save's answer", n);
        if (n == 0) {
            size_t length = (size_t)w.length;
            memcpy(file, out, length);
            memcpy(kept_of, before, size);
            kept_of[28] = 0;
            memset(kept_of + 92, 0, size - 92);
            expect(!memcmp(record, kept_of, size), "save: more than the stash changed", n);
            memcpy(kept_of, before, size);
            memset(kept_of + 42, 0, 50); /* nothing is pending, and nothing answered */
            random_bytes(record, size);
            struct reckonstile_load_answer l = reckonstile_load(record, size, fenced_copy(FILE_, file, length), length);
            n = l.number;
            expect(n == 0 && !l.retired && !memcmp(record, kept_of, size), "load of what was saved", n);
            /* into bytes of another number: 31, and they are as they were */
            size_t right = size;
            lend(below(2) ? below(MOST) : RECKONSTILE_BYTES(1 + below(RECKONSTILE_SLOTS)));
            if (size == right) lend(right - 1);
            random_bytes(record, size);
            note();
            l = reckonstile_load(record, size, fenced_copy(FILE_, file, length), length);
            expect(l.number == RECKONSTILE_WRONG_SIZE && !l.retired && kept(), "load into a record of another size", l.number);
            /* without the capacity it is an old file, of 26 bytes of settings, which reads as 8 */
            memcpy(other, file, 30);
            other[3] = 26;
            memcpy(other + 30, file + 31, length - 31);
            lend(RECORD_MOST);
            l = reckonstile_load(record, size, fenced_copy(FILE_, other, length - 1), length - 1);
            n = l.number;
            expect(!l.retired, "load of an old file: nothing is retired", n);
            if (kept_of[26] == 8) expect(n == 0 && !memcmp(record, kept_of, size), "load of an old file", n);
            else expect(n == 0 ? whole(record, size) && record[26] == 8 && record[28] == kept_of[28] : n == 63 && zeros(record, size), "load of an old file", n);
            /* the retired version, as start version (at 23) or as version (fourteen bytes before the two last records), loads as V4 */
            memcpy(other, file, length);
            memcpy(settled, kept_of, right);
            size_t places[] = { 23, length - 18 };
            uint64_t which = 1 + below(3);
            for (int k = 0; k < 2; k++)
                if (which >> k & 1) {
                    other[places[k]] = RECKONSTILE_UPGRADING;
                    other[places[k] + 1] = (uint8_t)next();
                    settled[k ? 32 : 19] = RECKONSTILE_V4;
                }
            lend(right);
            l = reckonstile_load(record, size, fenced_copy(FILE_, other, length), length);
            expect(l.number == 0 && l.retired == 1 && !memcmp(record, settled, size), "load of a file with the retired version", l.number);
            /* compared with itself with a byte changed: nothing differs exactly where the loaded records are equal */
            memcpy(other, file, length);
            if (below(4)) other[below(length)] = (uint8_t)next();
            lend_out(below(2) ? RECKONSTILE_LIST_BYTES : below(100));
            struct reckonstile_compared c = reckonstile_compare(fenced_copy(FILE_, file, length), length, fenced_copy(OTHER, other, length), length, out, room);
            expect(compare_gives(c.number), "compare", c.number);
            expect(c.side == (c.number >= 61 && c.number <= 63 ? 2 : 0) && (c.number == 0 || !c.entries), "compare's answer", c.number);
            expect(untouched(RECKONSTILE_ENTRY_BYTES * c.entries), "compare: the buffer past the list changed", c.number);
            l = reckonstile_load(record, size, fenced_copy(FILE_, other, length), length);
            expect(c.number || !c.entries == (l.number == 0 && !memcmp(record, kept_of, size)), "compare: nothing differs exactly where the loaded records are equal", c.number);
            if (below(2)) file[below(length)] = (uint8_t)next();
            else length = below(length);
            random_bytes(record, size);
            note();
            l = reckonstile_load(record, size, fenced_copy(FILE_, file, length), length);
            n = l.number;
            expect(load_gives(n) && (n == 0 ? l.retired <= 1 : !l.retired), "load", n);
            if (n == 0) expect(whole(record, size) && zeros(record + 42, 50), "load's record", n);
            else expect(n == 31 ? kept() && length > 30 && (file[3] == 26 ? 8 : file[30]) != kept_of[26] : zeros(record, size), "load's record", n);
        } else
            expect(kept(), "save: a refusal changed the record", n);

        salvaged();
        walked();
        if (!below(16)) scheduled();

        /* settings of any kind: made and whole, or blank */
        make();
        struct reckonstile_settings s = size < 92 ? empty.settings : numbers_in(record).settings;
        if (!below(16)) s.spare = (uint8_t)next();
        if (!below(16)) s.start = (uint32_t)next();
        if (!below(16)) s.nts = (uint16_t)next();
        int good = setting_codes_ok(&s) && settings_ok(&s);
        list = fenced_copy(LIST, bytes, list_len);
        lend(good ? RECKONSTILE_BYTES(s.capacity) : below(MOST));
        random_bytes(record, size);
        struct reckonstile_new_answer made = reckonstile_new(record, size, s, list, list_len);
        n = made.number;
        struct numbers first = empty;
        first.settings = s;
        expect(good ? n == (s.start == RECKONSTILE_UPGRADING ? RECKONSTILE_RETIRED_START : 0) || (n == 33 && s.nts) : n == 30, "new", n);
        if (n == 0) {
            struct numbers now = numbers_in(record);
            expect(whole(record, size) && !memcmp(&now.settings, &s, sizeof s), "new's record", n);
        } else
            expect(zeros(record, size), "new's record", n);
        expect(made.made == (n == 0) && dropped_right(n, &first, none, list, list_len, made.dropped, made.lost), "new: what the stash dropped", n);

        /* the same for a metered link: the plain record where the profile is met, and the check's number */
        static uint8_t plain_record[MOST];
        memcpy(plain_record, record, size);
        random_bytes(record, size);
        struct reckonstile_new_answer metered = reckonstile_metered(record, size, s, list, list_len);
        uint32_t told = reckonstile_profile(s, list, list_len), m = metered.number;
        int slow = s.min >= 8 && s.startup <= 3 && s.start != RECKONSTILE_UPGRADING;
        expect(m == told && (n == 30 || n == 33 ? m == n : m == 0 ? slow : m >= 34 && m <= 37 && (!slow || (m == 37 && s.nts))), "metered", m);
        expect(m == 0 ? !memcmp(record, plain_record, size) : zeros(record, size), "metered's record", m);
        expect(metered.made == (m == 0) && dropped_right(m, &first, none, list, list_len, metered.dropped, metered.lost), "metered: what the stash dropped", m);

        elsewhere(reckonstile_new, "new in a record of another size", s, list, list_len, n);
        elsewhere(reckonstile_metered, "metered in a record of another size", s, list, list_len, m);
        lend(below(MOST + 1));
        random_bytes(record, size);
        expect(reckonstile_blank(record, size) == RECKONSTILE_OK && zeros(record, size), "blank", 0);
    }
    printf("%lu of the records were whole, %lu replies measured, from %lu of them cookies fell out\n%lu passed, %lu failed\n", wholes, measured, fell, passed, failed);
    return failed != 0;
}
