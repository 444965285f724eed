/* Reckonstile for C and C++: an NTP client association, proved to follow its rules.

   The caller owns the record, RECKONSTILE_BYTES(capacity) bytes, and lends it to each call. No call allocates, reads a clock or starts a thread, and nothing is
   kept between calls except in the record. A record belongs to one caller at a time; two records are independent.

   The order of calls of a client:
     reckonstile_new            once, with the settings (reckonstile_metered if the link is paid by the packet)
     reckonstile_timer          when it is time to poll; on 20 send a request
     reckonstile_write_request  the bytes of that request
     reckonstile_field_at       for each datagram that comes back: where its fields are, to find `end` and what to decrypt
     reckonstile_collect        with NTS, before reckonstile_reply: the new cookies of a reply, as the list that reckonstile_reply takes
     reckonstile_reply          for each datagram that comes back (V5: reckonstile_reply_decoded); on 0 there is a measurement
     reckonstile_accept         whether the source may be used
     reckonstile_look           settings and state of the record as numbers, for a display or a log
   To swap a box for another (docs/HANDOVER.md):
     reckonstile_save           the association as a file, at power-down
     reckonstile_load           once, instead of reckonstile_new: the association of such a file
   Tools that take no record:
     reckonstile_compare        compares two such files, of boxes that behave differently
     reckonstile_salvage        cleans a damaged cookie list
     reckonstile_check_calendar whether a calendar of polls keeps to a modem's cap
     reckonstile_plan_calendar  a start for each entry of such a calendar

   The record is bytes, at any address and without padding. Its size is part of it: `size` is always RECKONSTILE_BYTES(capacity), with the capacity of the
   settings. If there are more or fewer bytes, or if no call made them, they are not whole: a call answers 32 and changes nothing. No call trusts what the bytes
   say. reckonstile_new, _metered and _load make a record from any bytes; 31 says that there are too many or too few of them.

   Pointers. A record, and each buffer, is at a valid address and lent to one call at a time. What a call reads and what it writes do not overlap. If a length
   is 0 the pointer is not read, but must not be NULL: pass the address of any byte. A length is at most PTRDIFF_MAX.

   Times. `time` is one clock that only goes forward, in nanoseconds from any start, the same in all calls. t1 and t4 are readings of the wall clock as NTP
   timestamps: seconds since 1900 in the upper 32 bits, the fraction in the lower. Take t1 when the request leaves, t4 when the reply comes in.

   Targets. Fields of structs have fixed widths and no padding, so this header is the same for 32 and 64 bits. A library is made for one target and its C
   calling convention (docs/BOARDS.md lists them). A struct of one number is passed as that number. */
#ifndef RECKONSTILE_H
#define RECKONSTILE_H

#include <stddef.h>
#include <stdint.h>

#ifdef __cplusplus
extern "C" {
#define RECKONSTILE_ASSERT(test, text) static_assert(test, text)
#else
#define RECKONSTILE_ASSERT(test, text) _Static_assert(test, text)
#endif

/* The revision: what this header declares and how a record is laid out, as one number. reckonstile_revision returns the library's. If the two differ, header
   and library must not be used together. tools/revision computes it. */
#define RECKONSTILE_REVISION 0xBCF81C62u

/* RECKONSTILE_LIBRARY is the revision of the library that will be linked, from its own reckonstile.pc or ReckonstileConfig.cmake. */
#if defined(RECKONSTILE_LIBRARY) && RECKONSTILE_LIBRARY != RECKONSTILE_REVISION
#error "reckonstile: this header is of another revision than the library that pkg-config or CMake has found; take both from one release"
#endif

/* 1 if the linked library is of this header's revision, else 0. Check it once, at the start: the linker does not. */
#define RECKONSTILE_CHECK() (reckonstile_revision() == RECKONSTILE_REVISION)

/* The bytes of a record, for a capacity of 1 to RECKONSTILE_SLOTS: 818, 1544, 2996 and 5900 for 1, 2, 4 and 8. */
#define RECKONSTILE_BYTES(capacity) (92 + 726 * (size_t)(capacity))
/* The longest cookie that is kept, and with NTS the least room of the timer's buffer. */
#define RECKONSTILE_COOKIE_BYTES 724
/* The slots of a stash: the largest capacity that an association may have. */
#define RECKONSTILE_SLOTS 8
/* A buffer of this size holds any request that a timer's 20 asks for. */
#define RECKONSTILE_REQUEST_BYTES 852
/* A buffer of this size holds the hand-over file of any association. */
#define RECKONSTILE_FILE_BYTES 5872
/* An entry of a comparison, and a buffer that holds the list of any two files. */
#define RECKONSTILE_ENTRY_BYTES 19
#define RECKONSTILE_LIST_BYTES 494
/* For how many gaps of a damaged cookie list the place is reported. */
#define RECKONSTILE_PLACES 32
/* The most entries of a calendar, and the minutes of its day. */
#define RECKONSTILE_ENTRIES 64
#define RECKONSTILE_MINUTES 1440

/* ---- numbers: what a call returns */

/* Made from numbers.toml. tools/numbers: defines */
#define RECKONSTILE_OK 0                       /* new, metered: made. profile: met. reply, reply_decoded: measured. accept, check_calendar: accepted.
                                                  collect: collected. write_request, save: written. salvage: salvaged. plan_calendar: planned. load: loaded.
                                                  compare: compared. look: shown. field_at: a field, or the end. blank: cleared */
#define RECKONSTILE_UNDECODABLE 1              /* reply, reply_decoded: the packet cannot be decoded, end is 0 or not the place of a field, or a decoded
                                                  reply has an unknown code. collect: the decrypted bytes are not whole fields. field_at: a broken field */
#define RECKONSTILE_UNEXPECTED_VERSION 2       /* reply, reply_decoded: the packet has an unexpected version */
#define RECKONSTILE_NO_MATCH 4                 /* reply, reply_decoded: it answers another request */
#define RECKONSTILE_RATE 5                     /* reply, reply_decoded: the server asks for slower polls, and the next ones are slower */
#define RECKONSTILE_DENIED 6                   /* reply, reply_decoded: service is denied, and the record notes it */
#define RECKONSTILE_DENIED_NTS 7               /* reply, reply_decoded: service is denied, and with NTS that is believed: stop talking to this server */
#define RECKONSTILE_NTSN 8                     /* reply, reply_decoded: the server could not use the cookie (NTSN) */
#define RECKONSTILE_OTHER_KISS 9               /* reply, reply_decoded: the server declines with some other kiss code */
#define RECKONSTILE_BAD_STRATUM 10             /* reply, reply_decoded: the reply has a stratum over 16 */
#define RECKONSTILE_NOT_SERVER 11              /* reply, reply_decoded: the reply does not come from a server (by its mode) */
#define RECKONSTILE_NEVER_SENT 12              /* reply, reply_decoded: nothing was sent yet */
#define RECKONSTILE_ALREADY_MEASURED 13        /* reply, reply_decoded: the last poll was answered already */
#define RECKONSTILE_EXPIRED 14                 /* reply, reply_decoded: too late: the deadline of the request has passed */
#define RECKONSTILE_SENT 20                    /* timer: send the poll, and set the timer again */
#define RECKONSTILE_RESET 21                   /* timer: no answer to that many polls: look the server up again and begin with a new association */
#define RECKONSTILE_DEMOBILIZE 22              /* timer: no answer, and service was denied: stop talking to this server */
#define RECKONSTILE_NO_COOKIE 23               /* timer: no cookie is left: exchange keys again and begin with a new association */
#define RECKONSTILE_COOKIE_TOO_LARGE 24        /* timer: the cookie is too large to send: exchange keys again and begin with a new association */
#define RECKONSTILE_BAD_SETTINGS 30            /* new, metered, profile: a setting is outside its range, or an unknown code */
#define RECKONSTILE_WRONG_SIZE 31              /* new, metered: the record does not have the size of its capacity. timer: with NTS, the buffer for the cookie
                                                  has fewer than 724 bytes. collect: the list is longer than the buffer. plan_calendar: the buffer has fewer
                                                  starts than there are entries. load: the record does not have the size of the file's capacity */
#define RECKONSTILE_NOT_WHOLE 32               /* timer, reply, reply_decoded, accept, save: the record was not made by a call, or is not lent whole. look:
                                                  the bytes are not a record: their number is not the capacity's, or a code is unknown */
#define RECKONSTILE_BROKEN_LIST 33             /* new, metered, profile, reply, reply_decoded: with NTS, the cookie list is broken */
#define RECKONSTILE_LOW_POLL_MIN 34            /* metered, profile: the lower poll limit is below 8 */
#define RECKONSTILE_HIGH_STARTUP 35            /* metered, profile: the startup limit is over 3 */
#define RECKONSTILE_UPGRADING_START 36         /* metered, profile: the start version is upgrading, which is retired */
#define RECKONSTILE_LONG_COOKIE 37             /* metered, profile: with NTS, a cookie of the first list has over 100 bytes */
#define RECKONSTILE_RETIRED_START 38           /* new: the start version is upgrading, which is retired */
#define RECKONSTILE_HIGH_STRATUM 40            /* accept: the source's stratum is not below our own (16: nothing was measured yet) */
#define RECKONSTILE_LOOP 41                    /* accept: the source gets its time from us */
#define RECKONSTILE_UNREACHABLE 42             /* accept: none of the last eight polls was answered */
#define RECKONSTILE_VERSION_FIVE 50            /* write_request: the caller writes requests of version 5 itself; or the kind is unknown */
#define RECKONSTILE_SHORT_REQUEST_BUFFER 51    /* write_request: the packet is longer than the buffer */
#define RECKONSTILE_COOKIE_OR_COUNT 52         /* write_request: the cookie has over 724 bytes, or the number asked for is not 1 to 8 */
#define RECKONSTILE_SHORT_FILE_BUFFER 60       /* save: the buffer is shorter than the file */
#define RECKONSTILE_WRONG_MARK 61              /* load, compare: a record of the file has a wrong mark */
#define RECKONSTILE_WRONG_LENGTH 62            /* load, compare: a record of the file has a wrong length, or bytes are missing or left over */
#define RECKONSTILE_NO_ASSOCIATION 63          /* load, compare: the file has an unknown code, or its contents are not a whole association */
#define RECKONSTILE_SHORT_SALVAGE_BUFFER 70    /* salvage: the buffer is shorter than the damaged list */
#define RECKONSTILE_SHORT_COMPARE_BUFFER 71    /* compare: the buffer is shorter than the list */
#define RECKONSTILE_TOO_MANY 80                /* check_calendar, plan_calendar: more than 64 entries */
#define RECKONSTILE_BAD_REPEAT 81              /* check_calendar, plan_calendar: a repeat that is 0 or does not divide 1440 */
#define RECKONSTILE_LATE_START 82              /* check_calendar: a start at or past its repeat */
#define RECKONSTILE_OVER_CAP 83                /* check_calendar: more polls than the cap */
#define RECKONSTILE_NO_FIT 84                  /* plan_calendar: no start fits after those placed before */

/* Which call answers which:
   new            0, 30, 31, 33, 38
   metered        0, 30, 31, 33 to 37
   profile        0, 30, 33 to 37
   timer          20 to 24, 31, 32
   reply          0 to 2, 4 to 14, 32, 33
   reply_decoded  0 to 2, 4 to 14, 32, 33
   accept         0, 32, 40 to 42
   collect        0, 1, 31
   write_request  0, 50 to 52
   salvage        0, 70
   check_calendar 0, 80 to 83
   plan_calendar  0, 31, 80, 81, 84
   save           0, 32, 60
   load           0, 31, 61 to 63
   compare        0, 61 to 63, 71
   look           0, 32
   field_at       0, 1
   blank          0 */
/* tools/numbers: end */

/* ---- codes */

/* settings.start, state.version */
#define RECKONSTILE_V4 0
#define RECKONSTILE_UPGRADING 1     /* retired: rejected in settings (38); a record with it is not whole (32); a file with it loads as V4 */
#define RECKONSTILE_UPGRADED 2
#define RECKONSTILE_V5 3

/* timer_answer.kind, the kind of write_request */
#define RECKONSTILE_SEND_NOTHING 0
#define RECKONSTILE_SEND_V4 1
#define RECKONSTILE_SEND_V4_UPGRADE 2
#define RECKONSTILE_SEND_V5 3       /* not written here */
#define RECKONSTILE_SEND_NTS_V4 4
#define RECKONSTILE_SEND_NTS_V5 5   /* not written here */

/* reply_answer.leap, decoded.leap */
#define RECKONSTILE_LEAP_NO_WARNING 0
#define RECKONSTILE_LEAP_61 1
#define RECKONSTILE_LEAP_59 2
#define RECKONSTILE_LEAP_UNKNOWN 3
#define RECKONSTILE_LEAP_UNSYNCHRONIZED 4

/* decoded.mode */
#define RECKONSTILE_MODE_REQUEST 0
#define RECKONSTILE_MODE_RESPONSE 1

/* decoded.authenticated, .encrypted, .untrusted: what a group of fields says about the request's unique identifier */
#define RECKONSTILE_UID_ABSENT 0
#define RECKONSTILE_UID_AGREE 1
#define RECKONSTILE_UID_DISAGREE 2

/* what the Bloom filter says, for accept */
#define RECKONSTILE_BLOOM_NONE 0
#define RECKONSTILE_BLOOM_ABSENT 1
#define RECKONSTILE_BLOOM_PRESENT 2

/* ---- the record */

/* Layout of a record. Numbers are big-endian, signed ones in two's complement. The format is that of one revision, for looking at a record and for tests. To
   store or send an association, use reckonstile_save.

     at   bytes  what
     0    1      settings: min, signed
     1    1      settings: max, signed
     2    1      settings: startup
     3    8      settings: window
     11   8      settings: upgrademark
     19   2      settings: start version, kind and tries left
     21   1      settings: nts, 0 or 1
     22   4      settings: source
     26   1      settings: capacity
     27   1      stash: the place of the oldest cookie, below the capacity
     28   1      stash: how many cookies are held
     29   1      state: reach
     30   1      state: tries
     31   1      state: unanswered
     32   2      state: version, kind and tries left
     34   1      state: last poll, signed
     35   1      state: remote minimum, signed
     36   1      state: stratum
     37   4      state: refid
     41   1      state: denial, 0 or 1
     42   1      state: present, 0 or 1
     43   1      state: answered, 0 or 1
     44   8      state: id
     52   8      state: deadline
     60   32     state: uid
     92   726    each place of the stash, as many as the capacity: 724 bytes of a cookie, zero past its end, and its length in two bytes */

/* The settings, for reckonstile_new and from reckonstile_look. No padding. */
struct reckonstile_settings {
    uint64_t window;      /* how long a request stays live, in nanoseconds: 1 to 60000000000 */
    uint64_t upgrademark; /* kept, and read by no rule: write_request takes its own as an argument */
    uint32_t source;      /* the source's own identifier */
    uint32_t start;       /* the version to start with: RECKONSTILE_V4, _UPGRADED or _V5 */
    uint16_t nts;         /* 0 or 1 */
    uint8_t capacity;     /* how many cookies the stash holds: 1 to RECKONSTILE_SLOTS */
    uint8_t spare;        /* 0 */
    uint8_t left;         /* 0; with RECKONSTILE_UPGRADING, which is retired, any number */
    uint8_t startup;      /* give up after this many polls with no answer: 1 to 8 */
    int8_t min, max;      /* limits of the poll exponent: 0 <= min <= max <= 17 */
};

/* What the calls change in a record, except its cookies. reckonstile_look returns it. */
struct reckonstile_state {
    uint8_t reach;     /* which of the last eight polls were answered, the newest in bit 0 */
    uint8_t tries;     /* polls sent, held at 255 */
    int8_t last;       /* the poll exponent last used */
    int8_t remote;     /* the least exponent that the source asks for */
    uint32_t refid;    /* the source's reference identifier */
    uint32_t version;  /* RECKONSTILE_V4, _UPGRADED or _V5 */
    uint8_t left;      /* as in the settings */
    uint8_t stratum;   /* the source's; 16 until a reply is measured */
    uint8_t denial;    /* 0 or 1: service was denied since the last measured reply */
    uint8_t unanswered; /* polls since the last that was answered, 0 to 8: the zeros at the low end of reach; 8 when new */
    uint64_t id;       /* the pending request's 64 bits */
    uint64_t deadline; /* until when its reply is awaited */
    uint8_t uid[32];   /* its unique identifier; zero without NTS */
    uint32_t answered; /* 0 or 1: a reply was measured since the last sent poll. Never 1 while a request is pending */
    uint32_t present;  /* 0 or 1: a request is pending. If not, id, deadline and uid are zero */
};

/* What a display or a log shows. */
struct reckonstile_view {
    struct reckonstile_settings settings;
    struct reckonstile_state state;
    uint64_t number; /* if it is not 0, all above is zero */
};

/* ---- what goes in and what comes back */

struct reckonstile_uid {
    uint8_t bytes[32];
};

struct reckonstile_new_answer {
    uint32_t number;  /* if it is not 0, all below is zero */
    uint32_t made;    /* 1 if the number is 0 */
    uint64_t dropped; /* with NTS, how many cookies of the list did not fit: beyond the capacity the oldest are dropped */
    uint64_t lost;    /* the sum of their lengths */
};

struct reckonstile_timer_answer {
    uint32_t number; /* if it is not 20, all below is zero */
    uint8_t kind;    /* what to send: RECKONSTILE_SEND_V4 .. RECKONSTILE_SEND_NTS_V5 */
    int8_t poll;     /* the poll exponent: the next poll is due in 2^poll seconds, stretched at random by the caller */
    uint16_t asked;  /* with NTS, how many new cookies the request asks for: 1 to the capacity */
    uint64_t length; /* with NTS, the length of the cookie in the buffer */
};

struct reckonstile_reply_answer {
    uint32_t number;   /* if it is not 0, all below is zero */
    uint8_t measured;  /* 1 if the number is 0 */
    uint8_t leap;      /* RECKONSTILE_LEAP_NO_WARNING .. RECKONSTILE_LEAP_UNSYNCHRONIZED */
    uint8_t stratum;
    int8_t precision;  /* of the source's clock, as an exponent of 2, in seconds */
    int64_t delay;     /* in 2^-32 s, as all durations here */
    int64_t offset;    /* what to add to our wall clock */
    uint64_t local;    /* our wall clock half way between t1 and t4 */
    uint64_t mono;     /* `time` of the call */
    int64_t rootdelay; /* from the source to its root */
    int64_t rootdisp;
    uint64_t dropped;  /* with NTS, how many cookies were dropped from the stash to store the list: the oldest */
    uint64_t lost;     /* the sum of their lengths, with the lengths of those over 724 bytes, of which nothing is kept */
};

/* A V5 reply that the caller has decoded. An unknown code gets 1, as bytes do that are not a reply. */
struct reckonstile_decoded {
    int64_t rootdelay, rootdisp;      /* in 2^-32 s */
    uint64_t receive, transmit;       /* the source's timestamps */
    uint64_t cookie;                  /* the client cookie, which answers the request's id */
    uint32_t mode;                    /* RECKONSTILE_MODE_REQUEST or _RESPONSE */
    uint8_t leap, stratum;
    int8_t poll, precision;
    uint8_t rate, deny, rstr, ntsn;   /* the kisses: 0 or 1 each */
    uint8_t any;                      /* 0 or 1: any kiss at all */
    uint8_t authenticated, encrypted, untrusted; /* RECKONSTILE_UID_ABSENT .. RECKONSTILE_UID_DISAGREE */
};

struct reckonstile_written {
    uint32_t number;  /* if it is not 0, the buffer is unchanged and all below is zero */
    uint32_t written; /* 1 if the number is 0 */
    uint64_t length;  /* how many bytes are written, from the buffer's start on */
};

struct reckonstile_load_answer {
    uint32_t number;
    uint32_t retired; /* 1 if the number is 0 and the file had RECKONSTILE_UPGRADING, as start version or as version: that is RECKONSTILE_V4 now */
};

/* What a salvage reports. `length` is the sum of the cookies kept, each with its head of four bytes; `length` and `skipped` add up to the damaged list. */
struct reckonstile_salvaged {
    uint32_t number; /* if it is not 0, the buffer is unchanged and all below is zero */
    uint32_t told;   /* how many of the places below are set: one for each gap, up to 32 */
    uint64_t kept;   /* how many records (cookies) were kept */
    uint64_t skipped; /* how many bytes were skipped */
    uint64_t gaps;   /* how many runs of skipped bytes there are; between two of them a record was kept */
    uint64_t length; /* the length of the clean list, at the buffer's start */
    uint64_t places[RECKONSTILE_PLACES]; /* where the first gaps start in the damaged list, in order; the others are 0 */
};

/* The answer of comparing two hand-over files. */
struct reckonstile_compared {
    uint32_t number; /* if it is not 0, the buffer is unchanged */
    uint32_t side;   /* on 61, 62 and 63 which file is rejected: 1 the left one, 2 the right one; else 0 */
    uint64_t entries; /* how many fields differ: each has an entry of 19 bytes, from the buffer's start on; 0 unless the number is 0 */
};

struct reckonstile_calendar_answer {
    uint32_t number;
    uint32_t named;  /* 1 if the answer names an entry (81, 82, 84) or a minute (83); else 0 */
    uint64_t place;  /* that entry or minute, the lowest, counted from 0; else 0 */
};

/* What is at an offset of a packet of V4. */
struct reckonstile_field {
    uint32_t number; /* if it is not 0, the field is broken and all below is zero */
    uint32_t found;  /* 1 a field; 0 the end of the fields, or broken */
    uint32_t kind;   /* its type: 0x0104 unique identifier, 0x0204 cookie, 0x0404 authenticator, .. */
    uint32_t spare;  /* 0 */
    uint64_t body;   /* where its body starts in the packet: four bytes after the start of its head */
    uint64_t length; /* how many bytes the body has */
    uint64_t next;   /* where the next field starts */
};

/* The layout: each size is the sum of its fields. A compiler that lays out a struct differently stops here. */
RECKONSTILE_ASSERT(sizeof(struct reckonstile_settings) == 32 && offsetof(struct reckonstile_settings, nts) == 24 &&
                   offsetof(struct reckonstile_settings, capacity) == 26 && offsetof(struct reckonstile_settings, left) == 28,
                   "reckonstile: layout of settings");
RECKONSTILE_ASSERT(sizeof(struct reckonstile_state) == 72 && offsetof(struct reckonstile_state, version) == 8 &&
                   offsetof(struct reckonstile_state, unanswered) == 15 && offsetof(struct reckonstile_state, id) == 16 &&
                   offsetof(struct reckonstile_state, uid) == 32 && offsetof(struct reckonstile_state, answered) == 64 &&
                   offsetof(struct reckonstile_state, present) == 68, "reckonstile: layout of the state");
RECKONSTILE_ASSERT(sizeof(struct reckonstile_view) == 112 && offsetof(struct reckonstile_view, state) == 32 && offsetof(struct reckonstile_view, number) == 104,
                   "reckonstile: layout of a view");
RECKONSTILE_ASSERT(sizeof(struct reckonstile_uid) == 32, "reckonstile: layout of a uid");
RECKONSTILE_ASSERT(sizeof(struct reckonstile_new_answer) == 24 && offsetof(struct reckonstile_new_answer, dropped) == 8,
                   "reckonstile: layout of new's answer");
RECKONSTILE_ASSERT(sizeof(struct reckonstile_timer_answer) == 16 && offsetof(struct reckonstile_timer_answer, length) == 8,
                   "reckonstile: layout of the timer's answer");
RECKONSTILE_ASSERT(sizeof(struct reckonstile_reply_answer) == 72 && offsetof(struct reckonstile_reply_answer, delay) == 8 &&
                   offsetof(struct reckonstile_reply_answer, dropped) == 56,
                   "reckonstile: layout of the reply's answer");
RECKONSTILE_ASSERT(sizeof(struct reckonstile_decoded) == 56 && offsetof(struct reckonstile_decoded, mode) == 40 &&
                   offsetof(struct reckonstile_decoded, untrusted) == 55, "reckonstile: layout of a decoded reply");
RECKONSTILE_ASSERT(sizeof(struct reckonstile_written) == 16 && offsetof(struct reckonstile_written, length) == 8, "reckonstile: layout of what is written");
RECKONSTILE_ASSERT(sizeof(struct reckonstile_field) == 40 && offsetof(struct reckonstile_field, kind) == 8 && offsetof(struct reckonstile_field, body) == 16 &&
                   offsetof(struct reckonstile_field, next) == 32, "reckonstile: layout of a field");
RECKONSTILE_ASSERT(sizeof(struct reckonstile_load_answer) == 8 && offsetof(struct reckonstile_load_answer, retired) == 4,
                   "reckonstile: layout of load's answer");
RECKONSTILE_ASSERT(sizeof(struct reckonstile_salvaged) == 296 && offsetof(struct reckonstile_salvaged, kept) == 8 &&
                   offsetof(struct reckonstile_salvaged, places) == 40, "reckonstile: layout of a salvage's report");
RECKONSTILE_ASSERT(sizeof(struct reckonstile_compared) == 16 && offsetof(struct reckonstile_compared, entries) == 8,
                   "reckonstile: layout of a comparison's answer");
RECKONSTILE_ASSERT(sizeof(struct reckonstile_calendar_answer) == 16 && offsetof(struct reckonstile_calendar_answer, place) == 8,
                   "reckonstile: layout of a calendar's answer");

/* ---- calls */

/* The revision of the library: RECKONSTILE_REVISION of the header that it was built with. RECKONSTILE_CHECK() compares the two. */
uint32_t reckonstile_revision(void);

/* Sets all bytes to zero, whatever their number. Answers 0. Zeros are not a whole record: timer, reply, accept and save answer 32 on them. */
uint32_t reckonstile_blank(uint8_t *record, size_t size);

/* Makes the record, whatever it was, a new association with these settings. With NTS its first cookies are those of the list (as reckonstile_collect writes
   it), and the answer says how many of them did not fit. Without NTS the list is not read.
   In this order: 30 a setting is outside its range, or an unknown code; 33 with NTS, the list is broken; 38 start is RECKONSTILE_UPGRADING, which is retired:
   after these three all bytes are zero. 31 size is not RECKONSTILE_BYTES(settings.capacity): the bytes are unchanged. 0 made. */
struct reckonstile_new_answer reckonstile_new(uint8_t *record, size_t size, struct reckonstile_settings settings, const uint8_t *list, size_t list_len);

/* The same for a link that is paid by the packet: the settings and the list must also meet the metered profile. The record is then the one that
   reckonstile_new makes. No poll that its timer sends has an exponent below 8.
   In this order: 30 and 33 as for reckonstile_new; the first rule of the profile that is broken: 34 min is below 8; 35 startup is over 3; 36 start is
   RECKONSTILE_UPGRADING; 37 with NTS, a cookie of the list has over 100 bytes: all bytes are zero. 31 as for reckonstile_new. 0 made. */
struct reckonstile_new_answer reckonstile_metered(uint8_t *record, size_t size, struct reckonstile_settings settings, const uint8_t *list, size_t list_len);

/* The number that reckonstile_metered gives for these settings and this list, with a record of the right size. */
uint32_t reckonstile_profile(struct reckonstile_settings settings, const uint8_t *list, size_t list_len);

/* Call it when it is time to poll. `desired` is the poll exponent that the clock steering wants; it is raised to what the source asks for, and not limited by
   the settings. `id` and `uid` are fresh random bits (uid is used only with NTS). With NTS the cookie to send is written to the buffer, which must have 724
   bytes or more; without NTS a room of 0 is enough.
   In this order: 32 the record is not whole; 31 with NTS, room under 724; 22 stop talking to the source; 21 make a new association; 23, 24 with NTS, no cookie
   or one too large: exchange keys; 20 send. After 32, 31, 22 and 21 the record is unchanged. 23 and 24 count the poll as tried, and leave the pending request
   and the last poll as they were; 24 takes the cookie out. The buffer is written only on 20 with NTS. */
struct reckonstile_timer_answer reckonstile_timer(uint8_t *record, size_t size, uint64_t time, int8_t desired, uint64_t id, struct reckonstile_uid uid,
                                                  uint8_t *buffer, size_t room);

/* What is at an offset of a packet of V4: a field, the end, or something broken. Begin at 48 and go on at `next`: this gives the fields as reckonstile_reply
   reads them. An offset past the packet is broken. Only a packet of V4 has fields: its version is in bits 3 to 5 of its first byte.
   0 a field (found is 1), or the end (found is 0): at most 24 bytes are left, which are not a field; 1 broken: reckonstile_reply answers 1 to this packet. */
struct reckonstile_field reckonstile_field_at(const uint8_t *packet, size_t packet_len, size_t at);

/* A reply of V3 or V4, as bytes. `end` is where its authenticated part ends:
     - the offset of the head of its authenticator field (type 0404), of the last if there are several, once the caller has decrypted each of them;
     - 48 if there is none, and in V3;
     - 0 if decrypting an authenticator failed, if its nonce and ciphertext do not fit into it, if the decrypted bytes are not whole fields, and if there is one
       without NTS. The answer is then 1.
   `decrypted` are the decrypted bytes of these fields, one after the other, and `list` the new cookies among them (reckonstile_collect), both empty if there is
   none; they are read only with NTS. docs/EMBEDDING.md, "Several 0404 fields", has the steps.
   A wrong `end` defeats NTS: fields before it are believed. With an `end` past the authenticator (the packet's length, say), or any but 0 after a failed
   decryption, whoever sees a request can send a reply that is measured. No call can detect it: the keys are the caller's.
   In this order: 32, 1, 33, 2, then 12, 13 or 14, then 4: the record is unchanged. 5 to 11: a matching reply that is not measured; the record keeps what
   counts of it. 0 measured: the request is answered and no longer pending, and with NTS the list's cookies are stored; the answer says what was dropped. */
struct reckonstile_reply_answer reckonstile_reply(uint8_t *record, size_t size, const uint8_t *packet, size_t packet_len, size_t end,
                                                  const uint8_t *decrypted, size_t decrypted_len, const uint8_t *list, size_t list_len,
                                                  uint64_t t1, uint64_t t4, uint64_t time);

/* A reply of V5, decoded by the caller. The same numbers. */
struct reckonstile_reply_answer reckonstile_reply_decoded(uint8_t *record, size_t size, struct reckonstile_decoded d, const uint8_t *list, size_t list_len,
                                                          uint64_t t1, uint64_t t4, uint64_t time);

/* Whether the source may be used, given our own stratum, the identifiers of this machine (`count` numbers, not bytes) and what the Bloom filter says. The
   record is only read.
   In this order: 32; 40 the source is not below our stratum; 41 it gets its time from us, or bloom is neither RECKONSTILE_BLOOM_NONE nor _ABSENT; 42 none
   of the last eight polls was answered; 0 accepted. */
uint32_t reckonstile_accept(const uint8_t *record, size_t size, uint8_t stratum, const uint32_t *local, size_t count, uint32_t bloom);

/* Settings and state of the record as numbers: what a display or a log shows. The record is only read; nothing of a cookie is shown.
   0 shown; 32 the bytes are not a record, since their number is not the capacity's, or a code is unknown: all else is zero. The numbers shown may contradict
   each other: if another call answers 32 and this one does not, they say what is wrong. */
struct reckonstile_view reckonstile_look(const uint8_t *record, size_t size);

/* Writes the cookies among a reply's decrypted fields as a list for reckonstile_new and reckonstile_reply. The list is never longer than the fields.
   0 written; 1 the fields are broken; 31 the list is longer than the buffer. */
struct reckonstile_written reckonstile_collect(const uint8_t *decrypted, size_t decrypted_len, uint8_t *out, size_t room);

/* Writes the request that a timer's 20 asks for: `kind`, `poll` and `asked` from that answer, the `id` and `uid` that the timer got, the upgrademark of the
   settings, the cookie from the timer's buffer. With NTS the caller appends its authenticator. kind is 1, 2 or 4; cookie, uid and asked are used only for 4,
   the upgrademark only for 2, which is an upgrade request: no timer asks for one any more.
   In this order: 50 V5, or an unknown kind; 52 a cookie or a count that no request has; 51 the buffer is too short; 0 written. */
struct reckonstile_written reckonstile_write_request(uint8_t kind, int8_t poll, uint64_t id, uint64_t upgrademark, struct reckonstile_uid uid,
                                                     const uint8_t *cookie, size_t cookie_len, uint8_t asked, uint8_t *out, size_t room);

/* Writes the association to a hand-over file, at power-down (docs/HANDOVER.md). The cookies are then only in the file: the record's stash is empty, and its
   reading place and all else are unchanged. The file has the cookies, but not the NTS keys.
   In this order: 32 the record is not whole; 60 the buffer is shorter than the file; 0 written. After 32 and 60 record and buffer are unchanged. */
struct reckonstile_written reckonstile_save(uint8_t *record, size_t size, uint8_t *out, size_t room);

/* Makes the record, whatever it was, the association of a hand-over file, with nothing sent yet. Load a file once: a cookie has one owner. The retired version,
   RECKONSTILE_UPGRADING, becomes RECKONSTILE_V4, and the answer says so. The capacity is the file's: byte 30 if byte 3 is 27, and 8 in an older file.
   In this order: 61 a wrong mark or 62 a wrong length, whichever is first in the file; 63 its contents are not an association: all bytes are zero. 31 size is
   not RECKONSTILE_BYTES of the file's capacity: the bytes are unchanged, and the file may be loaded with a record of the right size. 0 loaded. */
struct reckonstile_load_answer reckonstile_load(uint8_t *record, size_t size, const uint8_t *file, size_t file_len);

/* Compares two hand-over files, of boxes that behave differently: an entry for each field that differs, in the file's order, is written to the buffer. An
   entry is 19 bytes, big-endian: the field's code 1, the left reading 8, the right reading 8, the place 2 (docs/HANDOVER.md has the codes). Of a cookie only
   the length and the place of the first differing byte are written. The buffer past the list is unchanged. If there is no entry, both files load the same.
   In this order: 61, 62, 63 for the left file, as for reckonstile_load; then for the right one; 71 the buffer is shorter than the list; 0 written. */
struct reckonstile_compared reckonstile_compare(const uint8_t *left, size_t left_len, const uint8_t *right, size_t right_len, uint8_t *out, size_t room);

/* Cleans a damaged cookie list, of which cheap flash has lost bytes: what is left of it is written to the buffer, as a list for reckonstile_new. Each place is
   tried in turn. If a mark (C0 0E), a length of two bytes and that many bytes fit, and the end or another mark follows, the record is kept and reading goes on
   after it; else one byte is skipped. A list without damage comes out byte for byte, and so does a clean list that is salvaged again. The buffer past the clean
   list is unchanged.
   0 written; 70 the buffer is shorter than the damaged list, whatever would be written. */
struct reckonstile_salvaged reckonstile_salvage(const uint8_t *list, size_t list_len, uint8_t *out, size_t room);

/* Whether a calendar of polls keeps to a modem's cap. Entry k polls at minute m of the day, 0 to 1439, exactly if m modulo repeats[k] is starts[k]. Both
   counts are of entries, not of bytes, and should be the same: if they are not, the longer list counts; a missing repeat is read as 0 (81), a missing start as
   1440 (82). A calendar without entries is accepted.
   In this order, each with the lowest entry or minute: 80 more than 64 entries; 81 a repeat is 0 or does not divide 1440; 82 a start is at or past its repeat;
   83 a minute has more polls than the cap; 0 accepted. */
struct reckonstile_calendar_answer reckonstile_check_calendar(uint8_t cap, const uint16_t *starts, size_t starts_count, const uint16_t *repeats,
                                                              size_t repeats_count);

/* Writes a start for each entry to the buffer: the entries are placed one by one, each at the earliest start that fits after those before it. It does not look
   back, so the answer may be 84 although another plan exists. reckonstile_check_calendar accepts what is planned. The buffer past the plan is unchanged. `room`
   is a number of starts, not of bytes.
   In this order: 80; 81; 84 no start fits the entry that is named; 31 there is a plan, and room is below the number of entries; 0 written. Nothing is written
   unless the answer is 0. */
struct reckonstile_calendar_answer reckonstile_plan_calendar(uint8_t cap, const uint16_t *repeats, size_t repeats_count, uint16_t *starts, size_t room);

#ifdef __cplusplus
}
#endif
#endif
