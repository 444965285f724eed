/* The library's face in the target's own calling convention. Each call hands the proved function behind it (raw_*, see boards/module.py) pointers and numbers
   alone, which C passes as the module takes them on every target; it adds nothing. Before tools/library compiles this file it holds each declaration of a raw_
   function, and the size of each struct, to the proved module. */
#include "reckonstile.h"

_Static_assert(__BYTE_ORDER__ == __ORDER_LITTLE_ENDIAN__, "reckonstile: the module is written for little-endian machines");
_Static_assert(_Alignof(uint64_t) == 8, "reckonstile: the module takes a 64-bit number to lie at a multiple of eight");
/* A run of bytes or numbers that is lent: its address, and how many there are. */
#define SLICE(at, count) (at), (count)

/* ---- the record */

uint32_t raw_reckonstile_revision(void);
uint32_t reckonstile_revision(void) { return raw_reckonstile_revision(); }

uint32_t raw_reckonstile_blank(const void *, uint64_t);
uint32_t reckonstile_blank(uint8_t *record, size_t size) { return raw_reckonstile_blank(SLICE(record, size)); }

void raw_reckonstile_new(struct reckonstile_new_answer *, const void *, uint64_t, const struct reckonstile_settings *, const void *, uint64_t);
struct reckonstile_new_answer reckonstile_new(uint8_t *record, size_t size, struct reckonstile_settings settings, const uint8_t *list, size_t list_len) {
    struct reckonstile_new_answer answer;
    raw_reckonstile_new(&answer, SLICE(record, size), &settings, SLICE(list, list_len));
    return answer;
}

void raw_reckonstile_metered(struct reckonstile_new_answer *, const void *, uint64_t, const struct reckonstile_settings *, const void *, uint64_t);
struct reckonstile_new_answer reckonstile_metered(uint8_t *record, size_t size, struct reckonstile_settings settings, const uint8_t *list, size_t list_len) {
    struct reckonstile_new_answer answer;
    raw_reckonstile_metered(&answer, SLICE(record, size), &settings, SLICE(list, list_len));
    return answer;
}

uint32_t raw_reckonstile_profile(const struct reckonstile_settings *, const void *, uint64_t);
uint32_t reckonstile_profile(struct reckonstile_settings settings, const uint8_t *list, size_t list_len) {
    return raw_reckonstile_profile(&settings, SLICE(list, list_len));
}

void raw_reckonstile_timer(struct reckonstile_timer_answer *, const void *, uint64_t, uint64_t, int8_t, uint64_t, const struct reckonstile_uid *,
                           const void *, uint64_t);
struct reckonstile_timer_answer reckonstile_timer(uint8_t *record, size_t size, uint64_t time, int8_t desired, uint64_t id, struct reckonstile_uid uid,
                                                  uint8_t *buffer, size_t room) {
    struct reckonstile_timer_answer answer;
    raw_reckonstile_timer(&answer, SLICE(record, size), time, desired, id, &uid, SLICE(buffer, room));
    return answer;
}

void raw_reckonstile_reply(struct reckonstile_reply_answer *, const void *, uint64_t, const void *, uint64_t, uint64_t, const void *, uint64_t, const void *, uint64_t,
                           uint64_t, uint64_t, uint64_t);
struct reckonstile_reply_answer reckonstile_reply(uint8_t *record, size_t size, const uint8_t *packet, size_t packet_len, size_t end,
                                                  const uint8_t *decrypted, size_t decrypted_len, const uint8_t *list, size_t list_len,
                                                  uint64_t t1, uint64_t t4, uint64_t time) {
    struct reckonstile_reply_answer answer;
    raw_reckonstile_reply(&answer, SLICE(record, size), SLICE(packet, packet_len), end, SLICE(decrypted, decrypted_len), SLICE(list, list_len), t1, t4, time);
    return answer;
}

void raw_reckonstile_reply_decoded(struct reckonstile_reply_answer *, const void *, uint64_t, const struct reckonstile_decoded *, const void *, uint64_t,
                                   uint64_t, uint64_t, uint64_t);
struct reckonstile_reply_answer reckonstile_reply_decoded(uint8_t *record, size_t size, struct reckonstile_decoded d, const uint8_t *list, size_t list_len,
                                                          uint64_t t1, uint64_t t4, uint64_t time) {
    struct reckonstile_reply_answer answer;
    raw_reckonstile_reply_decoded(&answer, SLICE(record, size), &d, SLICE(list, list_len), t1, t4, time);
    return answer;
}

uint32_t raw_reckonstile_accept(const void *, uint64_t, uint8_t, const void *, uint64_t, uint32_t);
uint32_t reckonstile_accept(const uint8_t *record, size_t size, uint8_t stratum, const uint32_t *local, size_t count, uint32_t bloom) {
    return raw_reckonstile_accept(SLICE(record, size), stratum, SLICE(local, count), bloom);
}

void raw_reckonstile_look(struct reckonstile_view *, const void *, uint64_t);
struct reckonstile_view reckonstile_look(const uint8_t *record, size_t size) {
    struct reckonstile_view view;
    raw_reckonstile_look(&view, SLICE(record, size));
    return view;
}

void raw_reckonstile_save(struct reckonstile_written *, const void *, uint64_t, const void *, uint64_t);
struct reckonstile_written reckonstile_save(uint8_t *record, size_t size, uint8_t *out, size_t room) {
    struct reckonstile_written written;
    raw_reckonstile_save(&written, SLICE(record, size), SLICE(out, room));
    return written;
}

void raw_reckonstile_load(struct reckonstile_load_answer *, const void *, uint64_t, const void *, uint64_t);
struct reckonstile_load_answer reckonstile_load(uint8_t *record, size_t size, const uint8_t *file, size_t file_len) {
    struct reckonstile_load_answer answer;
    raw_reckonstile_load(&answer, SLICE(record, size), SLICE(file, file_len));
    return answer;
}

/* ---- beside the record */

void raw_reckonstile_field_at(struct reckonstile_field *, const void *, uint64_t, uint64_t);
struct reckonstile_field reckonstile_field_at(const uint8_t *packet, size_t packet_len, size_t at) {
    struct reckonstile_field field;
    raw_reckonstile_field_at(&field, SLICE(packet, packet_len), at);
    return field;
}

void raw_reckonstile_collect(struct reckonstile_written *, const void *, uint64_t, const void *, uint64_t);
struct reckonstile_written reckonstile_collect(const uint8_t *decrypted, size_t decrypted_len, uint8_t *out, size_t room) {
    struct reckonstile_written written;
    raw_reckonstile_collect(&written, SLICE(decrypted, decrypted_len), SLICE(out, room));
    return written;
}

void raw_reckonstile_write_request(struct reckonstile_written *, uint8_t, int8_t, uint64_t, uint64_t, const struct reckonstile_uid *,
                                   const void *, uint64_t, uint8_t, const void *, uint64_t);
struct reckonstile_written reckonstile_write_request(uint8_t kind, int8_t poll, uint64_t id, uint64_t upgrademark, struct reckonstile_uid uid,
                                                     const uint8_t *cookie, size_t cookie_len, uint8_t asked, uint8_t *out, size_t room) {
    struct reckonstile_written written;
    raw_reckonstile_write_request(&written, kind, poll, id, upgrademark, &uid, SLICE(cookie, cookie_len), asked, SLICE(out, room));
    return written;
}

void raw_reckonstile_compare(struct reckonstile_compared *, const void *, uint64_t, const void *, uint64_t, const void *, uint64_t);
struct reckonstile_compared reckonstile_compare(const uint8_t *left, size_t left_len, const uint8_t *right, size_t right_len, uint8_t *out, size_t room) {
    struct reckonstile_compared compared;
    raw_reckonstile_compare(&compared, SLICE(left, left_len), SLICE(right, right_len), SLICE(out, room));
    return compared;
}

void raw_reckonstile_salvage(struct reckonstile_salvaged *, const void *, uint64_t, const void *, uint64_t);
struct reckonstile_salvaged reckonstile_salvage(const uint8_t *list, size_t list_len, uint8_t *out, size_t room) {
    struct reckonstile_salvaged salvaged;
    raw_reckonstile_salvage(&salvaged, SLICE(list, list_len), SLICE(out, room));
    return salvaged;
}

void raw_reckonstile_check_calendar(struct reckonstile_calendar_answer *, uint8_t, const void *, uint64_t, const void *, uint64_t);
struct reckonstile_calendar_answer reckonstile_check_calendar(uint8_t cap, const uint16_t *starts, size_t starts_count, const uint16_t *repeats,
                                                              size_t repeats_count) {
    struct reckonstile_calendar_answer answer;
    raw_reckonstile_check_calendar(&answer, cap, SLICE(starts, starts_count), SLICE(repeats, repeats_count));
    return answer;
}

void raw_reckonstile_plan_calendar(struct reckonstile_calendar_answer *, uint8_t, const void *, uint64_t, const void *, uint64_t);
struct reckonstile_calendar_answer reckonstile_plan_calendar(uint8_t cap, const uint16_t *repeats, size_t repeats_count, uint16_t *starts, size_t room) {
    struct reckonstile_calendar_answer answer;
    raw_reckonstile_plan_calendar(&answer, cap, SLICE(repeats, repeats_count), SLICE(starts, room));
    return answer;
}
