/* The drill's language (docs/DRILL.md) answered through the static library, from C. It reads logs without bad lines from standard input. What the drill does not
   show is looked at here: a refusal leaves record and buffer as they were, nothing is written past what is handed out, reckonstile_look says what the bytes say, and
   a record of another size than its capacity's is refused; else the answer ends with CHANGED. The record and every buffer end at a page that is not mapped. */
#define _DEFAULT_SOURCE
#include "record.h"
#include <inttypes.h>

#define FILL 0xAA
#define MOST 8192 /* bytes of a value, as the drill takes them of a hand-over file */

/* The record with room for eight places, and how it was before the command. As many bytes of it are lent as its capacity has. */
static uint8_t image[RECORD_MOST], before[RECORD_MOST];
static uint8_t *record;
static size_t size;
static uint64_t far_read, far_held; /* numbers that were poked and that no byte holds: 255 stands for them, which is not whole either */

enum { RECORD, PACKET, DECRYPTED, LIST, OUT, LOCAL, TRIAL };

static int zeros(const uint8_t *b, size_t n) {
    for (size_t i = 0; i < n; i++)
        if (b[i]) return 0;
    return 1;
}

/* The bytes of the capacity. Where it is none, or a place past it is not empty, there is no such record: then all eight places are lent, and have to be refused. */
static size_t lent_size(void) {
    size_t n = RECKONSTILE_BYTES(image[26]);
    return image[26] >= 1 && image[26] <= RECKONSTILE_SLOTS && zeros(image + n, RECORD_MOST - n) ? n : RECORD_MOST;
}
static void lend(size_t n) {
    size = n;
    record = fenced(RECORD, n);
    memcpy(record, image, n);
}
/* takes the record back, and says whether nothing before it has changed */
static int taken_back(void) {
    memcpy(image, record, size);
    return wall_stands(record);
}

/* ---- a line's pairs */

static struct { const char *key, *value; } pairs[64];
static size_t count;

static void die(const char *what, const char *text) {
    fprintf(stderr, "drill: %s: %s\n", what, text);
    exit(2);
}

static const char *or_text(const char *key, const char *other) {
    for (size_t i = 0; i < count; i++)
        if (!strcmp(pairs[i].key, key)) return pairs[i].value;
    if (!other) die("no such key in the line", key);
    return other;
}
static const char *text(const char *key) { return or_text(key, NULL); }
static uint64_t natural(const char *s) { return strtoull(s, NULL, 10); }
static int64_t integer(const char *s) { return strtoll(s, NULL, 10); }
static uint64_t bits(const char *s) { return strtoull(s, NULL, 16); }

static unsigned digit(char c) { return c <= '9' ? (unsigned)(c - '0') : (unsigned)((c | 32) - 'a' + 10); }

/* how many bytes hexadecimal digits are, and the bytes */
static size_t count_of(const char *s) {
    size_t n = strcmp(s, "-") ? strlen(s) / 2 : 0;
    if (n > MOST) die("too many bytes", s);
    return n;
}
static void bytes(const char *s, uint8_t *out) {
    for (size_t i = 0, n = count_of(s); i < n; i++) out[i] = (uint8_t)(digit(s[2 * i]) << 4 | digit(s[2 * i + 1]));
}
/* the same, before a fence */
static uint8_t *fenced_bytes(unsigned which, const char *s, size_t *n) {
    uint8_t *out = fenced(which, *n = count_of(s));
    bytes(s, out);
    return out;
}

static struct reckonstile_uid uid_of(const char *s) {
    struct reckonstile_uid uid = { { 0 } };
    if (count_of(s) <= sizeof uid.bytes) bytes(s, uid.bytes);
    return uid;
}

static uint8_t *out; /* a buffer to write to, and its room */
static size_t room;
static void lend_out(const char *otherwise) {
    room = natural(or_text("room", otherwise));
    if (room > MOST) die("too much room", text("room"));
    out = fenced(OUT, room);
    memset(out, FILL, room);
}

static void hex(const uint8_t *b, size_t n) {
    if (!n) putchar('-');
    for (size_t i = 0; i < n; i++) printf("%02x", b[i]);
}

static int filled(const uint8_t *b, size_t n) {
    for (size_t i = 0; i < n; i++)
        if (b[i] != FILL) return 0;
    return 1;
}
static void end(int same) { puts(same ? "" : " CHANGED"); }
static int same(void) { return !memcmp(image, before, sizeof image); }
static int rest_filled(uint64_t from) { return from <= room && filled(out + from, room - from) && wall_stands(out); }

static const char *const kinds[] = { "", "v4", "v4-upgrade", "v5", "nts-v4", "nts-v5" };
static const char *const versions[] = { "v4", "upgrading", "upgraded", "v5" };
static uint8_t group(const char *key) {
    const char *s = or_text(key, "absent");
    return !strcmp(s, "agree") ? RECKONSTILE_UID_AGREE : !strcmp(s, "disagree") ? RECKONSTILE_UID_DISAGREE : RECKONSTILE_UID_ABSENT;
}

/* ---- the commands */

static void version(const char *s, uint32_t *kind, uint8_t *left) { /* as `start` of new has it */
    for (uint32_t k = 0; k < 4; k++)
        if (!strncmp(s, versions[k], strlen(versions[k])) && (k != RECKONSTILE_UPGRADED || strlen(s) == 8)) *kind = k;
    *left = *kind == RECKONSTILE_UPGRADING ? (uint8_t)natural(s + 10) : 0;
}

static struct reckonstile_settings settings(void) {
    struct reckonstile_settings s;
    memset(&s, 0, sizeof s);
    s.window = natural(text("window"));
    s.upgrademark = bits(text("mark"));
    s.source = (uint32_t)bits(text("source"));
    version(text("start"), &s.start, &s.left);
    s.nts = !strcmp(text("nts"), "yes");
    s.capacity = (uint8_t)natural(or_text("capacity", "8"));
    s.startup = (uint8_t)natural(text("startup"));
    s.min = (int8_t)integer(text("min"));
    s.max = (int8_t)integer(text("max"));
    return s;
}

/* A size that is not n; another one with each call. */
static size_t other_size(size_t n) {
    static unsigned turn;
    const size_t sizes[] = { n - 1, n + 1, 0, 91, 92, RECKONSTILE_BYTES(1), RECKONSTILE_BYTES(2), RECKONSTILE_BYTES(4), RECORD_MOST, RECORD_MOST + 1, n + 726, n - 726 };
    size_t size = sizes[turn++ % (sizeof sizes / sizeof *sizes)];
    return size == n ? n + 7 : size;
}

typedef struct reckonstile_new_answer (*maker)(uint8_t *, size_t, struct reckonstile_settings, const uint8_t *, size_t);

/* With bytes of another number: 31 and nothing changed where the call would have been answered 0, else the same number and zeros. */
static int refused_elsewhere(maker make, struct reckonstile_settings s, const uint8_t *list, size_t n, uint32_t number, size_t right) {
    size_t wrong = other_size(right);
    uint8_t *trial = fenced(TRIAL, wrong);
    memset(trial, FILL, wrong);
    struct reckonstile_new_answer r = make(trial, wrong, s, list, n);
    return r.number == (number ? number : RECKONSTILE_WRONG_SIZE) && !r.made && !r.dropped && !r.lost && (number ? zeros(trial, wrong) : filled(trial, wrong)) && wall_stands(trial);
}

static void made(const char *word, maker make) {
    struct reckonstile_settings s = settings();
    size_t n, right = s.capacity >= 1 && s.capacity <= RECKONSTILE_SLOTS ? RECKONSTILE_BYTES(s.capacity) : RECORD_MOST;
    uint8_t *list = fenced_bytes(LIST, or_text("list", "-"), &n);
    lend(right);
    struct reckonstile_new_answer r = make(record, size, s, list, n);
    memset(image, 0, sizeof image);
    int well = taken_back() && refused_elsewhere(make, s, list, n, r.number, right);
    far_read = far_held = 0;
    printf("%s %" PRIu32, word, r.number);
    if (r.number == RECKONSTILE_OK) printf(" dropped=%" PRIu64 " lost=%" PRIu64, r.dropped, r.lost);
    end(well && (r.number == RECKONSTILE_OK ? r.made == 1 : !r.made && !r.dropped && !r.lost && zeros(image, sizeof image)));
}

static void new_(void) { made("new", reckonstile_new); }
static void metered(void) { made("metered", reckonstile_metered); }

static void profile(void) {
    size_t n;
    uint8_t *list = fenced_bytes(LIST, or_text("list", "-"), &n);
    printf("profile %" PRIu32 "\n", reckonstile_profile(settings(), list, n));
}

static void timer(void) {
    lend_out("1024");
    lend(lent_size());
    struct reckonstile_timer_answer r =
        reckonstile_timer(record, size, natural(text("now")), (int8_t)integer(text("desired")), bits(text("id")), uid_of(or_text("uid", "-")), out, room);
    int well = taken_back();
    printf("timer %" PRIu32, r.number);
    if (r.number == RECKONSTILE_SENT) {
        printf(" send=%s poll=%d cookie=", kinds[r.kind], r.poll);
        hex(out, r.length);
        printf(" asked=%u", (unsigned)r.asked);
        end(well && rest_filled(r.length));
        return;
    }
    int untouched = timer_changes(r.number) || same();
    end(well && untouched && rest_filled(0) && !r.kind && !r.poll && !r.asked && !r.length);
}

static void replied(const char *word, struct reckonstile_reply_answer r) {
    int well = taken_back();
    printf("%s %" PRIu32, word, r.number);
    if (r.number == RECKONSTILE_OK) {
        printf(" delay=%" PRId64 " offset=%" PRId64 " local=%" PRIu64 " mono=%" PRIu64 " stratum=%u rootdelay=%" PRId64 " rootdisp=%" PRId64 " leap=%u precision=%d dropped=%" PRIu64
               " lost=%" PRIu64, r.delay, r.offset, r.local, r.mono, (unsigned)r.stratum, r.rootdelay, r.rootdisp, (unsigned)r.leap, r.precision, r.dropped, r.lost);
        end(well && r.measured == 1);
        return;
    }
    int zero = !r.measured && !r.delay && !r.offset && !r.local && !r.mono && !r.stratum && !r.rootdelay && !r.rootdisp && !r.leap && !r.precision && !r.dropped && !r.lost;
    end(well && (reply_changes(r.number) || same()) && zero);
}

static void reply(void) {
    size_t packet_len, decrypted_len, list_len;
    uint8_t *packet = fenced_bytes(PACKET, text("packet"), &packet_len), *decrypted = fenced_bytes(DECRYPTED, or_text("plain", "-"), &decrypted_len), *list;
    const char *named = or_text("list", "-");
    if (!strcmp(named, "collect")) {
        static uint8_t collected[4096];
        list_len = (size_t)reckonstile_collect(decrypted, decrypted_len, collected, sizeof collected).length;
        list = fenced(LIST, list_len);
        memcpy(list, collected, list_len);
    } else
        list = fenced_bytes(LIST, named, &list_len);
    lend(lent_size());
    replied("reply", reckonstile_reply(record, size, packet, packet_len, natural(or_text("auth", "48")), decrypted, decrypted_len, list, list_len, natural(text("t1")),
                                       natural(text("t4")), natural(text("now"))));
}

static void reply5(void) {
    size_t list_len;
    uint8_t *list = fenced_bytes(LIST, or_text("list", "-"), &list_len);
    const char *kiss = or_text("kiss", "-");
    struct reckonstile_decoded d;
    memset(&d, 0, sizeof d);
    d.rootdelay = integer(text("rootdelay"));
    d.rootdisp = integer(text("rootdisp"));
    d.receive = natural(text("receive"));
    d.transmit = natural(text("transmit"));
    d.cookie = bits(text("cookie"));
    d.mode = !strcmp(text("mode"), "4") ? RECKONSTILE_MODE_RESPONSE : RECKONSTILE_MODE_REQUEST;
    d.leap = (uint8_t)natural(text("leap"));
    d.stratum = (uint8_t)natural(text("stratum"));
    d.poll = (int8_t)integer(text("poll"));
    d.precision = (int8_t)integer(text("precision"));
    d.rate = !!strstr(kiss, "rate");
    d.deny = !!strstr(kiss, "deny");
    d.rstr = !!strstr(kiss, "rstr");
    d.ntsn = !!strstr(kiss, "ntsn");
    d.any = !!strstr(kiss, "any");
    d.authenticated = group("auth");
    d.encrypted = group("enc");
    d.untrusted = group("untrusted");
    lend(lent_size());
    replied("reply5", reckonstile_reply_decoded(record, size, d, list, list_len, natural(text("t1")), natural(text("t4")), natural(text("now"))));
}

static void accept_(void) {
    const char *s = or_text("local", "-"), *bloom = or_text("bloom", "none");
    size_t n = strcmp(s, "-") ? 1 : 0;
    for (const char *at = s; n && (at = strchr(at, ',')); at++) n++;
    if (n > MOST / 4) die("too many identifiers", s);
    uint32_t *local = (uint32_t *)(void *)fenced(LOCAL, 4 * n);
    for (size_t k = 0; k < n; k++, s = strchr(s, ',') + 1) local[k] = (uint32_t)bits(s);
    uint32_t word = !strcmp(bloom, "none") ? RECKONSTILE_BLOOM_NONE : !strcmp(bloom, "absent") ? RECKONSTILE_BLOOM_ABSENT : RECKONSTILE_BLOOM_PRESENT;
    lend(lent_size());
    printf("accept %" PRIu32, reckonstile_accept(record, size, (uint8_t)natural(text("stratum")), local, n, word));
    end(taken_back() && same());
}

static void written(const char *word, const char *name, struct reckonstile_written w) {
    printf("%s %" PRIu32, word, w.number);
    if (w.number == RECKONSTILE_OK) {
        if (strcmp(word, "collect")) printf(" len=%" PRIu64, w.length);
        printf(" %s=", name);
        hex(out, w.length);
    }
    end(rest_filled(w.length) && w.written == (w.number == RECKONSTILE_OK) && (w.written || !w.length) && same());
}

static void collect(void) {
    size_t n;
    uint8_t *decrypted = fenced_bytes(DECRYPTED, text("plain"), &n);
    lend_out("4096");
    written("collect", "list", reckonstile_collect(decrypted, n, out, room));
}

static void request(void) {
    size_t n;
    uint8_t *cookie = fenced_bytes(LIST, or_text("cookie", "-"), &n), kind = 0;
    for (uint8_t k = 1; k < 6; k++)
        if (!strcmp(text("kind"), kinds[k])) kind = k;
    lend_out("6144");
    written("request", "packet",
            reckonstile_write_request(kind, (int8_t)integer(text("poll")), bits(text("id")), bits(or_text("mark", "0")), uid_of(or_text("uid", "-")), cookie, n,
                                      (uint8_t)natural(or_text("asked", "0")), out, room));
}

static void save(void) {
    lend_out("8192");
    lend(lent_size());
    struct reckonstile_written w = reckonstile_save(record, size, out, room);
    if (!taken_back()) w.written = 9;
    if (w.number == RECKONSTILE_OK) { /* only the stash changes: it is empty, at the same reading place */
        before[28] = 0;
        memset(before + 92, 0, sizeof before - 92);
    }
    written("save", "file", w);
}

static void load(void) {
    size_t n;
    uint8_t *file = fenced_bytes(PACKET, text("file"), &n);
    uint8_t capacity = n > 30 && file[3] == 27 ? file[30] : RECKONSTILE_SLOTS;
    size_t right = capacity >= 1 && capacity <= RECKONSTILE_SLOTS ? RECKONSTILE_BYTES(capacity) : RECORD_MOST, wrong = other_size(right);
    lend(right);
    struct reckonstile_load_answer r = reckonstile_load(record, size, file, n);
    memset(image, 0, sizeof image);
    int well = taken_back() && (r.number == RECKONSTILE_OK || zeros(image, sizeof image));
    far_read = far_held = 0;
    printf("load %" PRIu32, r.number);
    if (r.number == RECKONSTILE_OK) printf(" retired=%s", r.retired ? "yes" : "no");
    uint8_t *trial = fenced(TRIAL, wrong);
    memset(trial, FILL, wrong);
    struct reckonstile_load_answer elsewhere = reckonstile_load(trial, wrong, file, n);
    well &= elsewhere.number == (r.number ? r.number : RECKONSTILE_WRONG_SIZE) && !elsewhere.retired && wall_stands(trial) && (r.number ? zeros(trial, wrong) : filled(trial, wrong));
    end(well && (r.number == RECKONSTILE_OK ? r.retired <= 1 : !r.retired));
}

/* ---- the tools, which have no record */

static void salvage(void) {
    size_t n;
    uint8_t *list = fenced_bytes(LIST, text("list"), &n);
    lend_out("4096");
    struct reckonstile_salvaged s = reckonstile_salvage(list, n, out, room);
    printf("salvage %" PRIu32, s.number);
    if (s.number == RECKONSTILE_OK) {
        printf(" kept=%" PRIu64 " skipped=%" PRIu64 " gaps=%" PRIu64 " at=", s.kept, s.skipped, s.gaps);
        if (!s.told) putchar('-');
        for (size_t k = 0; k < s.told; k++) printf("%s%" PRIu64, k ? "," : "", s.places[k]);
        printf(" list=");
        hex(out, s.length);
    }
    int zero = s.told == (s.gaps < RECKONSTILE_PLACES ? s.gaps : RECKONSTILE_PLACES) && (!s.number || (!s.kept && !s.skipped && !s.gaps && !s.length));
    for (size_t k = s.told; k < RECKONSTILE_PLACES; k++) zero &= !s.places[k];
    end(zero && rest_filled(s.length) && same());
}

/* the name of a field that is compared, by its code, and how its reading is written: n a number, s a signed one, m and i 16 and 8 digits, v a version, y yes or no */
static const struct { uint8_t code; const char *name, *how; } fields[] = {
    { 1, "min", "s" }, { 2, "max", "s" }, { 3, "startup", "n" }, { 4, "window", "n" }, { 5, "mark", "m" }, { 6, "start", "v" }, { 7, "nts", "y" }, { 8, "source", "i" },
    { 9, "capacity", "n" }, { 16, "read", "n" }, { 48, "reach", "n" }, { 49, "tries", "n" }, { 50, "version", "v" }, { 51, "last", "s" }, { 52, "remote", "s" }, { 53, "stratum", "n" },
    { 54, "refid", "i" }, { 55, "denial", "y" },
};

static void reading(char how, uint64_t n) {
    static const char *kinds[] = { "v4", "upgrading", "upgraded", "v5" };
    if (how == 's') printf("%" PRId64, (int64_t)n);
    else if (how == 'm') printf("%016" PRIx64, n);
    else if (how == 'i') printf("%08" PRIx64, n);
    else if (how == 'y') printf("%s", n ? "yes" : "no");
    else if (how == 'v' && n >> 8 == 1) printf("upgrading:%" PRIu64, n & 255);
    else if (how == 'v') printf("%s", n >> 8 < 4 ? kinds[n >> 8] : "?");
    else if (how == 'c' && n == 65536) putchar('-');
    else printf("%" PRIu64, n);
}

static void entry(const uint8_t *e) {
    char how = 'c';
    if (e[0] >= 32 && e[0] < 40) printf(" cookie%d:", e[0] - 32);
    for (size_t k = 0; k < sizeof fields / sizeof *fields; k++)
        if (fields[k].code == e[0]) {
            how = *fields[k].how;
            printf(" %s:", fields[k].name);
        }
    reading(how, big_endian(e + 1, 8));
    putchar('/');
    reading(how, big_endian(e + 9, 8));
    if (how == 'c') printf("@%" PRIu64, big_endian(e + 17, 2));
}

static void compare(void) {
    size_t m, n;
    uint8_t *left = fenced_bytes(PACKET, text("left"), &m), *right = fenced_bytes(DECRYPTED, text("right"), &n);
    lend_out("4096");
    struct reckonstile_compared r = reckonstile_compare(left, m, right, n, out, room);
    printf("compare %" PRIu32, r.number);
    int refused = r.number >= RECKONSTILE_WRONG_MARK && r.number <= RECKONSTILE_NO_ASSOCIATION;
    if (refused) printf(" side=%s", r.side == 1 ? "left" : "right");
    if (r.number == RECKONSTILE_OK) printf(" %" PRIu64, r.entries);
    for (size_t k = 0; k < r.entries; k++) entry(out + RECKONSTILE_ENTRY_BYTES * k);
    int right_side = refused ? r.side == 1 || r.side == 2 : r.side == 0;
    end(right_side && (!r.number || !r.entries) && rest_filled(RECKONSTILE_ENTRY_BYTES * r.entries) && same());
}

/* numbers joined by commas, each perhaps with a second one behind a stroke; how many there are */
static size_t minutes(const char *s, uint16_t *first, uint16_t *second) {
    size_t n = 0;
    if (!strcmp(s, "-")) return 0;
    for (;; s++) {
        char *rest;
        if (n == MOST / 2) die("too many entries", s);
        first[n] = (uint16_t)strtoul(s, &rest, 10);
        if (second) second[n] = (uint16_t)strtoul(rest + 1, NULL, 10);
        n++;
        if (!(s = strchr(s, ','))) return n;
    }
}

static uint16_t *fenced_minutes(unsigned which, const uint16_t *minutes, size_t n) {
    uint16_t *out = (uint16_t *)(void *)fenced(which, 2 * n);
    memcpy(out, minutes, 2 * n);
    return out;
}

static void scheduled(const char *word, struct reckonstile_calendar_answer r) {
    printf("%s %" PRIu32, word, r.number);
    if (r.named) printf(" %s=%" PRIu64, r.number == RECKONSTILE_OVER_CAP ? "minute" : "entry", r.place);
}

static void calendar(void) {
    static uint16_t starts[MOST / 2], repeats[MOST / 2];
    size_t n = minutes(text("entries"), starts, repeats);
    uint16_t *first = fenced_minutes(PACKET, starts, n), *second = fenced_minutes(DECRYPTED, repeats, n);
    struct reckonstile_calendar_answer r = reckonstile_check_calendar((uint8_t)natural(text("cap")), first, n, second, n);
    scheduled("calendar", r);
    end((r.named || !r.place) && same());
}

static void plan(void) {
    static uint16_t given[MOST / 2];
    uint8_t cap = (uint8_t)natural(text("cap"));
    size_t n = minutes(text("repeats"), given, NULL);
    uint16_t *repeats = fenced_minutes(DECRYPTED, given, n), *starts = (uint16_t *)(void *)fenced(OUT, 2 * n + 2);
    memset(starts, FILL, 2 * n + 2);
    struct reckonstile_calendar_answer r = reckonstile_plan_calendar(cap, repeats, n, starts, n + 1);
    size_t written = r.number == RECKONSTILE_OK ? n : 0;
    scheduled("plan", r);
    if (r.number == RECKONSTILE_OK) {
        printf(" starts=%s", n ? "" : "-");
        for (size_t k = 0; k < n; k++) printf("%s%u", k ? "," : "", (unsigned)starts[k]);
    }
    int right = filled((const uint8_t *)(starts + written), 2 * (n + 1 - written)) && (r.named || !r.place);
    /* one start too few: 31 where there is a plan, and the same number where there is none; nothing is written */
    if (n) {
        starts = (uint16_t *)(void *)fenced(OUT, 2 * n - 2);
        memset(starts, FILL, 2 * n - 2);
        struct reckonstile_calendar_answer less = reckonstile_plan_calendar(cap, repeats, n, starts, n - 1);
        right &= less.number == (r.number ? r.number : RECKONSTILE_WRONG_SIZE) && filled((const uint8_t *)starts, 2 * n - 2);
    }
    end(right && same());
}

/* What the bytes say, by the header's layout; and where they are a record, reckonstile_look says the same. */
static void show(void) {
    struct numbers n = numbers_in(image);
    const struct reckonstile_state *s = &n.state;
    lend(lent_size());
    struct reckonstile_view v = reckonstile_look(record, size);
    printf("record reach=%u tries=%u version=%s", (unsigned)s->reach, (unsigned)s->tries, versions[s->version]);
    if (s->version == RECKONSTILE_UPGRADING) printf(":%u", (unsigned)s->left);
    printf(" last=%d remote=%d pending=", s->last, s->remote);
    if (s->present) {
        printf("%016" PRIx64 "/", s->id);
        hex(s->uid, 32);
        printf("/%" PRIu64, s->deadline);
    } else
        putchar('-');
    printf(" denial=%s stratum=%u refid=%08" PRIx32 " read=%" PRIu64 " held=%" PRIu64 " lens=", s->denial ? "yes" : "no", (unsigned)s->stratum, s->refid,
           far_read ? far_read : n.read, far_held ? far_held : n.held);
    for (size_t k = 0; k < RECKONSTILE_SLOTS; k++) printf("%s%u", k ? "," : "", row_length(image, k));
    printf(" answered=%s unanswered=%u capacity=%u", s->answered ? "yes" : "no", (unsigned)s->unanswered, (unsigned)n.settings.capacity);
    end((readable(image, size) ? shown_right(&v, image) : shown_zero(&v)) && taken_back() && same());
}

static void cookies(void) {
    struct numbers n = numbers_in(image);
    uint32_t nobody = 0;
    lend(lent_size());
    if (!n.held || reckonstile_accept(record, size, 0, &nobody, 0, RECKONSTILE_BLOOM_NONE) == RECKONSTILE_NOT_WHOLE) {
        puts("cookies 0");
        return;
    }
    printf("cookies %u ", (unsigned)n.held);
    for (size_t k = 0; k < n.held; k++) {
        size_t row = (n.read + k) % n.settings.capacity;
        if (k) putchar(',');
        hex(image + ROW_AT(row), row_length(image, row) <= RECKONSTILE_COOKIE_BYTES ? row_length(image, row) : 0);
    }
    puts("");
}

/* a number of one byte, and what stands for a larger one */
static uint8_t near(const char *value, uint64_t *far) {
    uint64_t n = natural(value);
    *far = n > 255 ? n : 0;
    return (uint8_t)(n > 255 ? 255 : n);
}

static void poke(void) {
    const char *key = text("key"), *value = text("value");
    struct numbers n = numbers_in(image);
    if (!strcmp(key, "reach")) n.state.reach = (uint8_t)natural(value);
    else if (!strcmp(key, "tries")) n.state.tries = (uint8_t)natural(value);
    else if (!strcmp(key, "last")) n.state.last = (int8_t)integer(value);
    else if (!strcmp(key, "remote")) n.state.remote = (int8_t)integer(value);
    else if (!strcmp(key, "stratum")) n.state.stratum = (uint8_t)natural(value);
    else if (!strcmp(key, "refid")) n.state.refid = (uint32_t)bits(value);
    else if (!strcmp(key, "read")) n.read = near(value, &far_read);
    else if (!strcmp(key, "held")) n.held = near(value, &far_held);
    else if (!strcmp(key, "min")) n.settings.min = (int8_t)integer(value);
    else if (!strcmp(key, "max")) n.settings.max = (int8_t)integer(value);
    else if (!strcmp(key, "startup")) n.settings.startup = (uint8_t)natural(value);
    else if (!strcmp(key, "window")) n.settings.window = natural(value);
    else if (!strcmp(key, "capacity")) n.settings.capacity = (uint8_t)natural(value);
    else if (!strcmp(key, "version")) version(value, &n.state.version, &n.state.left);
    else if (!strcmp(key, "start")) version(value, &n.settings.start, &n.settings.left);
    else if (!strcmp(key, "id")) n.state.id = bits(value);
    else if (!strcmp(key, "deadline")) n.state.deadline = natural(value);
    else if (!strcmp(key, "answered")) n.state.answered = (uint32_t)natural(value);
    else if (!strcmp(key, "unanswered")) n.state.unanswered = (uint8_t)natural(value);
    else if (!strcmp(key, "uid")) memcpy(n.state.uid, uid_of(value).bytes, sizeof n.state.uid);
    else if (!strcmp(key, "slotbyte")) {
        unsigned slot, at, byte;
        if (sscanf(value, "%u/%u/%u", &slot, &at, &byte) != 3 || slot > 7 || at >= RECKONSTILE_COOKIE_BYTES) die("no slot's byte", value);
        image[ROW_AT(slot) + at] = (uint8_t)byte;
    } else
        die("no such key of poke", key);
    put_numbers(image, &n);
    puts("poke");
}

static void blank(void) {
    lend(RECORD_MOST);
    int cleared = reckonstile_blank(record, size) == RECKONSTILE_OK && taken_back() && zeros(image, sizeof image);
    far_read = far_held = 0;
    puts(cleared ? "blank" : "blank was refused");
}

int main(void) {
    static const struct { const char *word; void (*call)(void); } commands[] = {
        { "new", new_ }, { "metered", metered }, { "profile", profile }, { "timer", timer }, { "reply", reply }, { "reply5", reply5 }, { "accept", accept_ }, { "collect", collect },
        { "request", request }, { "save", save }, { "load", load }, { "salvage", salvage }, { "compare", compare }, { "calendar", calendar }, { "plan", plan },
        { "show", show }, { "cookies", cookies }, { "poke", poke }, { "blank", blank },
    };
    static char line[65536];
    while (fgets(line, sizeof line, stdin)) {
        line[strcspn(line, "\n")] = 0;
        if (!*line || *line == '#') continue;
        count = 0;
        char *word = strtok(line, " ");
        for (char *pair; (pair = strtok(NULL, " ")); count++) {
            char *equals = strchr(pair, '=');
            if (!equals || count == 64) die("no pair", pair);
            *equals = 0;
            pairs[count].key = pair;
            pairs[count].value = equals + 1;
        }
        size_t k = 0;
        while (k < sizeof commands / sizeof *commands && strcmp(commands[k].word, word)) k++;
        if (k == sizeof commands / sizeof *commands) die("no such command", word);
        memcpy(before, image, sizeof image);
        commands[k].call();
        fflush(stdout);
    }
    return 0;
}
