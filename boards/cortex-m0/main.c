/* The drill's language (docs/DRILL.md) answered on a Cortex-M0 with 16 KB of RAM, through the library for thumbv6m-none-eabi. Lines come from the file `lines` and
   answers go to the file `answers` beside it, both of the machine that emulates the board, by ARM's semihosting. Lines are as tests/board sends them: without
   faults, with a capacity of 1 to 4, and short enough for the buffers here. What the drill does not show is looked at here, as in tests/support/drill.c: a refusal
   leaves record and buffer as they were; else the answer ends with CHANGED. The line `stack` is answered with the deepest stack of each call so far, and with
   the most ticks of the timer that it took. */
#include "reckonstile.h"
#include <string.h>

#define FILL 0xAA
#define SLOTS 4

static uint8_t record[RECKONSTILE_BYTES(SLOTS)]; /* of which as many bytes are lent as the capacity has */
static uint8_t arena[5120];                      /* the bytes of a line, and behind them those that a call writes to */
static char texts[640];                          /* a line's keys, and its values that are no bytes */
static struct {
    const char *key, *value;
    uint8_t *bytes;
    size_t length;
} pairs[20];
static size_t count, used;

/* ---- the machine that emulates the board */

#ifdef __riscv
static __attribute__((noinline)) uint32_t host(uint32_t operation, const void *argument) {
    register uint32_t a0 __asm__("a0") = operation;
    register const void *a1 __asm__("a1") = argument;
    __asm__ volatile(".option push\n.option norvc\n.balign 16\nslli zero, zero, 0x1f\nebreak\nsrai zero, zero, 7\n.option pop" : "+r"(a0) : "r"(a1) : "memory");
    return a0;
}
#else
static uint32_t host(uint32_t operation, const void *argument) {
    register uint32_t r0 __asm__("r0") = operation;
    register const void *r1 __asm__("r1") = argument;
    __asm__ volatile("bkpt 0xab" : "+r"(r0) : "r"(r1) : "memory");
    return r0;
}
#endif

enum { OPEN = 1, WRITE = 5, READ = 6, EXIT = 0x18 };
static uint32_t from, to;
static char come[64], go[64];
static uint32_t come_at, come_end, go_at;

static uint32_t opened(const char *name, uint32_t length, uint32_t mode) {
    uint32_t block[3] = { (uint32_t)(uintptr_t)name, mode, length };
    return host(OPEN, block);
}

static void flush(void) {
    uint32_t block[3] = { to, (uint32_t)(uintptr_t)go, go_at };
    host(WRITE, block);
    go_at = 0;
}

static void stop(int well) {
    flush();
    host(EXIT, (const void *)(uintptr_t)(well ? 0x20026 : 0x20023)); /* ADP_Stopped_ApplicationExit, or a run-time error */
    for (;;) {}
}

static int next(void) {
    if (come_at == come_end) {
        uint32_t block[3] = { from, (uint32_t)(uintptr_t)come, sizeof come };
        come_end = sizeof come - host(READ, block); /* the host says how many were not read */
        come_at = 0;
        if (!come_end) return -1;
    }
    return come[come_at++];
}

static void put(char c) {
    if (go_at == sizeof go) flush();
    go[go_at++] = c;
}
static void say(const char *s) {
    while (*s) put(*s++);
}
static void fault(const char *what) {
    say("fault ");
    say(what);
    put('\n');
    stop(0);
}

/* ---- numbers: no division, as the board has no divider */

static void natural(uint64_t n) {
    static const uint64_t tens[] = { 10000000000000000000u, 1000000000000000000u, 100000000000000000u, 10000000000000000u, 1000000000000000u, 100000000000000u, 10000000000000u,
                                     1000000000000u, 100000000000u, 10000000000u, 1000000000u, 100000000u, 10000000u, 1000000u, 100000u, 10000u, 1000u, 100u, 10u, 1u };
    int begun = 0;
    for (size_t k = 0; k < sizeof tens / sizeof *tens; k++) {
        char digit = '0';
        for (; n >= tens[k]; n -= tens[k]) digit++;
        begun |= digit != '0' || tens[k] == 1;
        if (begun) put(digit);
    }
}
static void integer(int64_t n) {
    if (n < 0) put('-');
    natural(n < 0 ? 0 - (uint64_t)n : (uint64_t)n);
}
static void digits(uint8_t n) {
    put("0123456789abcdef"[n >> 4]);
    put("0123456789abcdef"[n & 15]);
}
static void hex(const uint8_t *b, size_t n) {
    if (!n) put('-');
    for (size_t k = 0; k < n; k++) digits(b[k]);
}
static void key_natural(const char *key, uint64_t n) {
    put(' ');
    say(key);
    put('=');
    natural(n);
}
static void key_integer(const char *key, int64_t n) {
    put(' ');
    say(key);
    put('=');
    integer(n);
}
static void key_text(const char *key, const char *value) {
    put(' ');
    say(key);
    put('=');
    say(value);
}

static uint64_t to_natural(const char *s) {
    uint64_t n = 0;
    for (; *s >= '0' && *s <= '9'; s++) n = (n << 3) + (n << 1) + (uint64_t)(*s - '0');
    return n;
}
static int64_t to_integer(const char *s) { return *s == '-' ? (int64_t)(0 - to_natural(s + 1)) : (int64_t)to_natural(s); }
static unsigned digit(int c) { return c <= '9' ? (unsigned)(c - '0') : (unsigned)((c | 32) - 'a' + 10); }
static uint64_t to_bits(const char *s) {
    uint64_t n = 0;
    for (; *s && *s != ','; s++) n = n << 4 | digit(*s);
    return n;
}
static uint64_t big_endian(const uint8_t *b, size_t n) {
    uint64_t x = 0;
    for (size_t k = 0; k < n; k++) x = x << 8 | b[k];
    return x;
}
static void put_big_endian(uint8_t *b, size_t n, uint64_t x) {
    for (size_t k = n; k; x >>= 8) b[--k] = (uint8_t)x;
}

/* ---- a line */

static int is(const char *a, const char *b) { return !strcmp(a, b); }
/* whether a word is among those that commas join */
static int among(const char *words, const char *word) {
    size_t n = strlen(word);
    for (; words; words = strchr(words, ',')) {
        if (*words == ',') words++;
        if (!strncmp(words, word, n) && (!words[n] || words[n] == ',')) return 1;
    }
    return 0;
}

static size_t or_pair(const char *key) {
    size_t k = 0;
    while (k < count && !is(pairs[k].key, key)) k++;
    return k;
}
static const char *or_text(const char *key, const char *other) {
    size_t k = or_pair(key);
    return k < count ? pairs[k].value : other;
}
static const char *text(const char *key) {
    const char *s = or_text(key, NULL);
    if (!s) fault(key);
    return s;
}

struct lent { uint8_t *at; size_t length; };
static struct lent bytes(const char *key) {
    size_t k = or_pair(key);
    return k < count && pairs[k].bytes ? (struct lent){ pairs[k].bytes, pairs[k].length } : (struct lent){ arena, 0 };
}
/* what is left of the arena, up to as many bytes as the line lends */
static struct lent room(const char *otherwise) {
    uint64_t n = to_natural(or_text("room", otherwise));
    struct lent out = { arena + used, n < sizeof arena - used ? (size_t)n : sizeof arena - used };
    memset(out.at, FILL, sizeof arena - used);
    return out;
}
static int filled(const uint8_t *b) {
    while (b < arena + sizeof arena)
        if (*b++ != FILL) return 0;
    return 1;
}

/* Reads a line, bytes straight into the arena; gives its first word, nothing at the end. Empty lines and comments are none of tests/board's. */
static const char *line(void) {
    char *at = texts, *start = texts, *last = texts + sizeof texts - 2;
    int c = next();
    if (c < 0) return NULL;
    count = used = 0;
    for (; c >= 0 && c != ' ' && c != '\n'; c = next()) {
        if (at == last) fault("a long word");
        *at++ = (char)c;
    }
    *at++ = 0;
    const char *word = start;
    while (c == ' ') {
        if (count == sizeof pairs / sizeof *pairs) fault("many pairs");
        start = at;
        while ((c = next()) != '=') {
            if (at == last || c <= ' ') fault("no pair");
            *at++ = (char)c;
        }
        *at++ = 0;
        pairs[count].key = start;
        pairs[count].value = at;
        pairs[count].bytes = NULL;
        c = next();
        int octets = is(start, "packet") || is(start, "plain") || is(start, "file") || is(start, "list") || (is(start, "cookie") && is(word, "request"));
        if (octets && c != '-') {
            pairs[count].bytes = arena + used;
            while (c > ' ') {
                int second = next();
                if (second == 'o') { /* `list=collect`: no digit is an o */
                    pairs[count].bytes = NULL;
                    *at++ = (char)c;
                    c = second;
                    break;
                }
                if (used == sizeof arena) fault("a long line");
                arena[used++] = (uint8_t)(digit(c) << 4 | digit(second));
                c = next();
            }
            pairs[count].length = (size_t)(arena + used - pairs[count].bytes);
        }
        for (; c >= 0 && c > ' '; c = next()) {
            if (at == last) fault("a long value");
            *at++ = (char)c;
        }
        *at++ = 0;
        count++;
    }
    return word;
}

/* ---- the record */

static size_t size; /* as many bytes as are lent */
static uint32_t before[2];

static void digest(uint32_t *out) {
    uint32_t a = 2166136261u, b = 5381;
    for (size_t k = 0; k < sizeof record; k++) {
        a = (a ^ record[k]) * 16777619u;
        b = (b << 5) + b + record[k];
    }
    out[0] = a;
    out[1] = b;
}
static int same(void) {
    uint32_t now[2];
    digest(now);
    return now[0] == before[0] && now[1] == before[1];
}
static int zeros(const uint8_t *b, size_t n) {
    for (size_t k = 0; k < n; k++)
        if (b[k]) return 0;
    return 1;
}
static size_t size_of(unsigned capacity) { return capacity >= 1 && capacity <= SLOTS ? RECKONSTILE_BYTES(capacity) : sizeof record; }
/* Bytes past those of the capacity are no part of a record: where one of them is not zero, all are lent, and have to be refused. */
static void lend(void) {
    size = size_of(record[26]);
    if (!zeros(record + size, sizeof record - size)) size = sizeof record;
}
static void end(int right) { say(right ? "\n" : " CHANGED\n"); }

/* ---- the stack of each call: painted before it, and looked at behind it. The frame that makes the call and nothing else is counted in. */

enum { BLANK, NEW, METERED, PROFILE, TIMER, REPLY, REPLY_DECODED, ACCEPT, LOOK, SAVE, LOAD, FIELD_AT, COLLECT, WRITE_REQUEST, CALLS };
static const char *const names[CALLS] = { "blank", "new", "metered", "profile", "timer", "reply", "reply_decoded", "accept", "look", "save", "load", "field_at", "collect", "write_request" };
static uint32_t deepest[CALLS], whole, most[CALLS];
extern uint32_t _bss_start, _bss_end, _stack_top;
#define PAINT 0xDEADBEEFu
#ifdef __riscv
#define MOVE "mv"
#else
#define MOVE "mov"
#endif

/* The nRF51's first timer, at 16 MHz: tests/board lets an instruction take 64 ns, so that 128 ticks are 125 instructions. */
#ifdef __ARM_ARCH_6M__
static volatile uint32_t *const clock = (volatile uint32_t *)0x40008000;
static void start_clock(void) {
    clock[0x508 / 4] = 3; /* 32 bits */
    clock[0x510 / 4] = 0; /* no prescaler */
    clock[0x000 / 4] = 1; /* start */
}
static uint32_t ticks(void) {
    clock[0x040 / 4] = 1; /* capture */
    return clock[0x540 / 4];
}
#else /* another board, without that timer */
static void start_clock(void) {}
static uint32_t ticks(void) { return 0; }
#endif

static __attribute__((noinline)) void measured(unsigned which, void (*call)(void)) {
    uint32_t *sp;
    __asm__ volatile(MOVE " %0, sp" : "=r"(sp));
    for (volatile uint32_t *p = &_bss_end; p < sp - 2; p++) *p = PAINT;
    uint32_t before_call = ticks();
    call();
    uint32_t taken = ticks() - before_call;
    if (most[which] < taken) most[which] = taken;
    const volatile uint32_t *p = &_bss_end;
    while (*p == PAINT) p++;
    uint32_t deep = (uint32_t)((uintptr_t)sp - (uintptr_t)p), all = (uint32_t)((uintptr_t)&_stack_top - (uintptr_t)p);
    if (deepest[which] < deep) deepest[which] = deep;
    if (whole < all) whole = all;
}

/* What goes into a call and what comes out of it lies here, and not in a frame. */
static union {
    struct reckonstile_new_answer made;
    struct reckonstile_timer_answer timed;
    struct reckonstile_reply_answer replied;
    struct reckonstile_written written;
    struct reckonstile_load_answer loaded;
    struct reckonstile_view view;
    struct reckonstile_field field;
    uint32_t number;
} answer;
static union {
    struct reckonstile_settings settings;
    struct { struct reckonstile_uid uid; uint64_t id, mark; int8_t poll; uint8_t kind, asked; } poll;
    struct reckonstile_decoded decoded;
    struct { size_t at; } walk;
    struct { uint32_t local[16], bloom; uint8_t stratum; } accept;
} in;
static uint64_t t1, t4, time;
static size_t authenticated, locals;
static struct lent packet, decrypted, list, out;

static void call_blank(void) { answer.number = reckonstile_blank(record, size); }
static void call_new(void) { answer.made = reckonstile_new(record, size, in.settings, list.at, list.length); }
static void call_metered(void) { answer.made = reckonstile_metered(record, size, in.settings, list.at, list.length); }
static void call_profile(void) { answer.number = reckonstile_profile(in.settings, list.at, list.length); }
static void call_timer(void) { answer.timed = reckonstile_timer(record, size, time, in.poll.poll, in.poll.id, in.poll.uid, out.at, out.length); }
static void call_reply(void) {
    answer.replied = reckonstile_reply(record, size, packet.at, packet.length, authenticated, decrypted.at, decrypted.length, list.at, list.length, t1, t4, time);
}
static void call_reply_decoded(void) { answer.replied = reckonstile_reply_decoded(record, size, in.decoded, list.at, list.length, t1, t4, time); }
static void call_accept(void) { answer.number = reckonstile_accept(record, size, in.accept.stratum, in.accept.local, locals, in.accept.bloom); }
static void call_look(void) { answer.view = reckonstile_look(record, size); }
static void call_save(void) { answer.written = reckonstile_save(record, size, out.at, out.length); }
static void call_load(void) { answer.loaded = reckonstile_load(record, size, list.at, list.length); }
static void call_field_at(void) { answer.field = reckonstile_field_at(packet.at, packet.length, in.walk.at); }
static void call_collect(void) { answer.written = reckonstile_collect(decrypted.at, decrypted.length, out.at, out.length); }
static void call_write_request(void) {
    answer.written = reckonstile_write_request(in.poll.kind, in.poll.poll, in.poll.id, in.poll.mark, in.poll.uid, list.at, list.length, in.poll.asked, out.at, out.length);
}

/* ---- the commands */

static const char *const versions[] = { "v4", "upgrading", "upgraded", "v5" };
static const char *const kinds[] = { "", "v4", "v4-upgrade", "v5", "nts-v4", "nts-v5" };

static void version(const char *s, uint32_t *kind, uint8_t *left) {
    *left = 0;
    for (uint32_t k = 0; k < 4; k++)
        if (is(s, versions[k])) *kind = k;
    if (!strncmp(s, "upgrading:", 10)) {
        *kind = RECKONSTILE_UPGRADING;
        *left = (uint8_t)to_natural(s + 10);
    }
}
static void uid_of(const char *s, uint8_t *uid) {
    memset(uid, 0, 32);
    for (size_t k = 0; k < 32 && s[0] && s[1]; k++, s += 2) uid[k] = (uint8_t)(digit(s[0]) << 4 | digit(s[1]));
}

static void settings(void) {
    struct reckonstile_settings *s = &in.settings;
    memset(s, 0, sizeof *s);
    s->window = to_natural(text("window"));
    s->upgrademark = to_bits(text("mark"));
    s->source = (uint32_t)to_bits(text("source"));
    version(text("start"), &s->start, &s->left);
    s->nts = is(text("nts"), "yes");
    s->capacity = (uint8_t)to_natural(text("capacity"));
    s->startup = (uint8_t)to_natural(text("startup"));
    s->min = (int8_t)to_integer(text("min"));
    s->max = (int8_t)to_integer(text("max"));
    list = bytes("list");
}

static void make(const char *word, unsigned which, void (*call)(void)) {
    settings();
    memset(record, 0, sizeof record); /* what lies past the bytes that are lent */
    size = size_of(in.settings.capacity);
    measured(which, call);
    say(word);
    put(' ');
    natural(answer.made.number);
    int right = answer.made.made == 1;
    if (answer.made.number == RECKONSTILE_OK) {
        key_natural("dropped", answer.made.dropped);
        key_natural("lost", answer.made.lost);
    } else
        right = !answer.made.made && !answer.made.dropped && !answer.made.lost && zeros(record, sizeof record);
    end(right);
}
static void new_(void) { make("new", NEW, call_new); }
static void metered(void) { make("metered", METERED, call_metered); }
static void profile(void) {
    settings();
    measured(PROFILE, call_profile);
    say("profile ");
    natural(answer.number);
    end(same());
}

static void timer(void) {
    time = to_natural(text("now"));
    in.poll.poll = (int8_t)to_integer(text("desired"));
    in.poll.id = to_bits(text("id"));
    uid_of(or_text("uid", "-"), in.poll.uid.bytes);
    out = room("1024");
    measured(TIMER, call_timer);
    const struct reckonstile_timer_answer *r = &answer.timed;
    say("timer ");
    natural(r->number);
    if (r->number == RECKONSTILE_SENT) {
        key_text("send", kinds[r->kind]);
        key_integer("poll", r->poll);
        say(" cookie=");
        hex(out.at, (size_t)r->length);
        key_natural("asked", r->asked);
        end(filled(out.at + r->length));
        return;
    }
    int untouched = r->number == RECKONSTILE_NO_COOKIE || r->number == RECKONSTILE_COOKIE_TOO_LARGE || same();
    end(untouched && filled(out.at) && !r->kind && !r->poll && !r->asked && !r->length);
}

static void replied(const char *word) {
    const struct reckonstile_reply_answer *r = &answer.replied;
    say(word);
    put(' ');
    natural(r->number);
    if (r->number == RECKONSTILE_OK) {
        key_integer("delay", r->delay);
        key_integer("offset", r->offset);
        key_natural("local", r->local);
        key_natural("mono", r->mono);
        key_natural("stratum", r->stratum);
        key_integer("rootdelay", r->rootdelay);
        key_integer("rootdisp", r->rootdisp);
        key_natural("leap", r->leap);
        key_integer("precision", r->precision);
        key_natural("dropped", r->dropped);
        key_natural("lost", r->lost);
        end(r->measured == 1);
        return;
    }
    int changes = r->number >= RECKONSTILE_RATE && r->number <= RECKONSTILE_NOT_SERVER;
    int zero = !r->measured && !r->delay && !r->offset && !r->local && !r->mono && !r->stratum && !r->rootdelay && !r->rootdisp && !r->leap && !r->precision && !r->dropped && !r->lost;
    end((changes || same()) && zero);
}

static void arrival(void) {
    t1 = to_natural(text("t1"));
    t4 = to_natural(text("t4"));
    time = to_natural(text("now"));
}

static void reply(void) {
    arrival();
    packet = bytes("packet");
    decrypted = bytes("plain");
    list = bytes("list");
    uint64_t place = to_natural(or_text("auth", "48"));
    authenticated = place > SIZE_MAX ? SIZE_MAX : (size_t)place; /* past any packet, and so refused like any other number past it */
    for (in.walk.at = 48; in.walk.at < packet.length;) { /* the walk ends: each field is behind the one before it */
        measured(FIELD_AT, call_field_at);
        if (answer.field.number || !answer.field.found || answer.field.next <= in.walk.at) break;
        in.walk.at = (size_t)answer.field.next;
    }
    if (is(or_text("list", "-"), "collect")) {
        out = room("4096");
        measured(COLLECT, call_collect);
        list = (struct lent){ out.at, (size_t)answer.written.length };
    }
    measured(REPLY, call_reply);
    replied("reply");
}

static uint8_t group(const char *key) {
    const char *s = or_text(key, "absent");
    return is(s, "agree") ? RECKONSTILE_UID_AGREE : is(s, "disagree") ? RECKONSTILE_UID_DISAGREE : RECKONSTILE_UID_ABSENT;
}
static void reply5(void) {
    struct reckonstile_decoded *d = &in.decoded;
    const char *kiss = or_text("kiss", "-");
    memset(d, 0, sizeof *d);
    arrival();
    list = bytes("list");
    d->rootdelay = to_integer(text("rootdelay"));
    d->rootdisp = to_integer(text("rootdisp"));
    d->receive = to_natural(text("receive"));
    d->transmit = to_natural(text("transmit"));
    d->cookie = to_bits(text("cookie"));
    d->mode = is(text("mode"), "4") ? RECKONSTILE_MODE_RESPONSE : RECKONSTILE_MODE_REQUEST;
    d->leap = (uint8_t)to_natural(text("leap"));
    d->stratum = (uint8_t)to_natural(text("stratum"));
    d->poll = (int8_t)to_integer(text("poll"));
    d->precision = (int8_t)to_integer(text("precision"));
    d->rate = (uint8_t)among(kiss, "rate");
    d->deny = (uint8_t)among(kiss, "deny");
    d->rstr = (uint8_t)among(kiss, "rstr");
    d->ntsn = (uint8_t)among(kiss, "ntsn");
    d->any = (uint8_t)among(kiss, "any");
    d->authenticated = group("auth");
    d->encrypted = group("enc");
    d->untrusted = group("untrusted");
    measured(REPLY_DECODED, call_reply_decoded);
    replied("reply5");
}

static void accept_(void) {
    const char *s = or_text("local", "-"), *bloom = or_text("bloom", "none");
    in.accept.stratum = (uint8_t)to_natural(text("stratum"));
    in.accept.bloom = is(bloom, "none") ? RECKONSTILE_BLOOM_NONE : is(bloom, "absent") ? RECKONSTILE_BLOOM_ABSENT : RECKONSTILE_BLOOM_PRESENT;
    locals = 0;
    if (!is(s, "-"))
        for (;; s++) {
            if (locals == sizeof in.accept.local / sizeof *in.accept.local) fault("many identifiers");
            in.accept.local[locals++] = (uint32_t)to_bits(s);
            if (!(s = strchr(s, ','))) break;
        }
    measured(ACCEPT, call_accept);
    say("accept ");
    natural(answer.number);
    end(same());
}

static void written(const char *word, const char *name, int with_length) {
    const struct reckonstile_written *w = &answer.written;
    say(word);
    put(' ');
    natural(w->number);
    if (w->number == RECKONSTILE_OK) {
        if (with_length) key_natural("len", w->length);
        put(' ');
        say(name);
        put('=');
        hex(out.at, (size_t)w->length);
    }
    end(filled(out.at + w->length) && w->written == (w->number == RECKONSTILE_OK) && (w->written || !w->length) && same());
}

static void collect(void) {
    decrypted = bytes("plain");
    out = room("4096");
    measured(COLLECT, call_collect);
    written("collect", "list", 0);
}

static void request(void) {
    list = bytes("cookie");
    in.poll.kind = 0;
    for (uint8_t k = 1; k < 6; k++)
        if (is(text("kind"), kinds[k])) in.poll.kind = k;
    in.poll.poll = (int8_t)to_integer(text("poll"));
    in.poll.id = to_bits(text("id"));
    in.poll.mark = to_bits(or_text("mark", "0"));
    uid_of(or_text("uid", "-"), in.poll.uid.bytes);
    in.poll.asked = (uint8_t)to_natural(or_text("asked", "0"));
    out = room("6144");
    measured(WRITE_REQUEST, call_write_request);
    written("request", "packet", 1);
}

static void save(void) {
    out = room("8192");
    measured(SAVE, call_save);
    if (answer.written.number == RECKONSTILE_OK) { /* only the stash changes: it is empty, at the same reading place */
        int empty = !record[28] && zeros(record + 92, sizeof record - 92);
        digest(before);
        if (!empty) before[0]++;
    }
    written("save", "file", 1);
}

static void load(void) {
    list = bytes("file");
    memset(record, 0, sizeof record);
    size = size_of(list.length > 30 && list.at[3] == 27 ? list.at[30] : RECKONSTILE_SLOTS);
    measured(LOAD, call_load);
    const struct reckonstile_load_answer *r = &answer.loaded;
    say("load ");
    natural(r->number);
    if (r->number == RECKONSTILE_OK) key_text("retired", r->retired ? "yes" : "no");
    end(r->number == RECKONSTILE_OK ? r->retired <= 1 : !r->retired && zeros(record, sizeof record));
}

static const char *yes_or_no(unsigned bit) { return bit ? "yes" : "no"; }

/* The record's own bytes are shown; where reckonstile_look takes them for a record, it has to say the same. */
static void show(void) {
    const uint8_t *b = record;
    measured(LOOK, call_look);
    const struct reckonstile_view *v = &answer.view;
    int right = v->number == RECKONSTILE_NOT_WHOLE;
    if (v->number == RECKONSTILE_OK)
        right = v->settings.capacity == b[26] && v->settings.window == big_endian(b + 3, 8) && v->settings.min == (int8_t)b[0] && v->settings.max == (int8_t)b[1] &&
                v->settings.startup == b[2] && v->settings.start == b[19] && v->settings.nts == b[21] && v->settings.source == big_endian(b + 22, 4) &&
                v->settings.upgrademark == big_endian(b + 11, 8) && v->state.reach == b[29] && v->state.tries == b[30] && v->state.unanswered == b[31] &&
                v->state.version == b[32] && v->state.last == (int8_t)b[34] && v->state.remote == (int8_t)b[35] && v->state.stratum == b[36] &&
                v->state.refid == big_endian(b + 37, 4) && v->state.denial == b[41] && v->state.present == b[42] && v->state.answered == b[43] &&
                v->state.id == big_endian(b + 44, 8) && v->state.deadline == big_endian(b + 52, 8) && !memcmp(v->state.uid, b + 60, 32);
    say("record");
    key_natural("reach", b[29]);
    key_natural("tries", b[30]);
    key_text("version", versions[b[32] & 3]);
    if (b[32] == RECKONSTILE_UPGRADING) {
        put(':');
        natural(b[33]);
    }
    key_integer("last", (int8_t)b[34]);
    key_integer("remote", (int8_t)b[35]);
    say(" pending=");
    if (b[42]) {
        hex(b + 44, 8);
        put('/');
        hex(b + 60, 32);
        put('/');
        natural(big_endian(b + 52, 8));
    } else
        put('-');
    key_text("denial", yes_or_no(b[41]));
    key_natural("stratum", b[36]);
    say(" refid=");
    hex(b + 37, 4);
    key_natural("read", b[27]);
    key_natural("held", b[28]);
    say(" lens=");
    for (unsigned k = 0; k < RECKONSTILE_SLOTS; k++) {
        if (k) put(',');
        natural(k < SLOTS ? big_endian(b + RECKONSTILE_BYTES(k) + RECKONSTILE_COOKIE_BYTES, 2) : 0);
    }
    key_text("answered", yes_or_no(b[43]));
    key_natural("unanswered", b[31]);
    key_natural("capacity", b[26]);
    end(right && same());
}

static void cookies(void) {
    static const uint32_t nobody;
    unsigned held = record[28], at = record[27];
    if (!held || reckonstile_accept(record, size, 0, &nobody, 0, RECKONSTILE_BLOOM_NONE) == RECKONSTILE_NOT_WHOLE) {
        say("cookies 0\n");
        return;
    }
    say("cookies ");
    natural(held);
    put(' ');
    for (unsigned k = 0; k < held; k++) {
        const uint8_t *row = record + RECKONSTILE_BYTES(at);
        size_t length = (size_t)big_endian(row + RECKONSTILE_COOKIE_BYTES, 2);
        if (k) put(',');
        hex(row, length <= RECKONSTILE_COOKIE_BYTES ? length : 0);
        if (++at == record[26]) at = 0;
    }
    end(same());
}

static void blank(void) {
    size = sizeof record;
    measured(BLANK, call_blank);
    say("blank");
    end(!answer.number && zeros(record, sizeof record));
}

static void poke(void) {
    static const struct { const char *key; uint8_t at, length, how; } places[] = {
        { "reach", 29, 1, 'n' }, { "tries", 30, 1, 'n' }, { "last", 34, 1, 'i' }, { "remote", 35, 1, 'i' }, { "stratum", 36, 1, 'n' }, { "refid", 37, 4, 'b' },
        { "read", 27, 1, 'n' }, { "held", 28, 1, 'n' }, { "min", 0, 1, 'i' }, { "max", 1, 1, 'i' }, { "startup", 2, 1, 'n' }, { "window", 3, 8, 'n' },
        { "capacity", 26, 1, 'n' }, { "version", 32, 2, 'v' }, { "start", 19, 2, 'v' }, { "id", 44, 8, 'b' }, { "deadline", 52, 8, 'n' }, { "answered", 43, 1, 'n' },
        { "unanswered", 31, 1, 'n' }, { "uid", 60, 32, 'u' }, { "slotbyte", 0, 0, 's' },
    };
    const char *key = text("key"), *value = text("value");
    for (size_t k = 0; k < sizeof places / sizeof *places; k++) {
        uint8_t *at = record + places[k].at;
        if (!is(key, places[k].key)) continue;
        if (places[k].how == 'n') put_big_endian(at, places[k].length, to_natural(value));
        else if (places[k].how == 'i') *at = (uint8_t)to_integer(value);
        else if (places[k].how == 'b') put_big_endian(at, places[k].length, to_bits(value));
        else if (places[k].how == 'u') uid_of(value, at);
        else if (places[k].how == 'v') {
            uint32_t kind = 0;
            version(value, &kind, at + 1);
            *at = (uint8_t)kind;
        } else {
            const char *place = strchr(value, '/'), *byte = place ? strchr(place + 1, '/') : NULL;
            uint64_t slot = to_natural(value);
            if (!byte || slot >= SLOTS) fault("no slot's byte");
            record[RECKONSTILE_BYTES(slot) + to_natural(place + 1)] = (uint8_t)to_natural(byte + 1);
        }
        say("poke\n");
        return;
    }
    fault("no such key of poke");
}

static void stack(void) {
    say("stack whole=");
    natural(whole);
    for (unsigned k = 0; k < CALLS; k++)
        if (deepest[k]) {
            key_natural(names[k], deepest[k]);
            put('/');
            natural(most[k]);
        }
    put('\n');
}

int main(void) {
    static const struct { const char *word; void (*answered)(void); } commands[] = {
        { "new", new_ }, { "metered", metered }, { "profile", profile }, { "timer", timer }, { "reply", reply }, { "reply5", reply5 }, { "accept", accept_ },
        { "collect", collect }, { "request", request }, { "save", save }, { "load", load }, { "show", show }, { "cookies", cookies }, { "blank", blank }, { "poke", poke },
        { "stack", stack },
    };
    start_clock();
    from = opened("lines", 5, 0);
    to = opened("answers", 7, 4);
    if (reckonstile_revision() != RECKONSTILE_REVISION) fault("header and library are of different revisions");
    for (const char *word; (word = line());) {
        size_t k = 0;
        while (k < sizeof commands / sizeof *commands && !is(commands[k].word, word)) k++;
        if (k == sizeof commands / sizeof *commands) fault(word);
        lend();
        digest(before);
        commands[k].answered();
    }
    stop(1);
    return 0;
}

static void reset(void) {
    for (uint32_t *p = &_bss_start; p < &_bss_end; p++) *p = 0;
    main();
}
#ifdef __riscv
__attribute__((used)) static void trapped(void) { fault("a trap of the processor"); }
__attribute__((section(".vectors"), used, naked)) void start(void) {
    __asm__ volatile("la sp, _stack_top\nla t0, %0\ncsrw mtvec, t0\ntail %1" : : "i"(trapped), "i"(reset));
}
#else
static void hard_fault(void) { fault("a hard fault of the processor"); }
__attribute__((section(".vectors"), used)) static const void *const vectors[] = { &_stack_top, (const void *)reset, (const void *)hard_fault, (const void *)hard_fault };
#endif
