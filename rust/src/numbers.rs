//! The numbers by name, as the header has them: for a program that logs or compares numbers rather than matching on an answer's type.
// Written by tools/numbers --write from numbers.toml: change it there.

/// new, metered: made. profile: met. reply, reply_decoded: measured. accept, check_calendar: accepted. collect: collected. write_request, save: written.
/// salvage: salvaged. plan_calendar: planned. load: loaded. compare: compared. look: shown. field_at: a field, or the end. blank: cleared.
pub const OK: u32 = 0;

/// reply, reply_decoded: the packet cannot be decoded, `end` is 0 or not the place of a field, or a decoded reply has an unknown code. collect: the decrypted
/// bytes are not whole fields. field_at: a broken field.
pub const UNDECODABLE: u32 = 1;

/// reply, reply_decoded: the packet has an unexpected version.
pub const UNEXPECTED_VERSION: u32 = 2;

/// reply, reply_decoded: it answers another request.
pub const NO_MATCH: u32 = 4;

/// reply, reply_decoded: the server asks for slower polls, and the next ones are slower.
pub const RATE: u32 = 5;

/// reply, reply_decoded: service is denied, and the record notes it.
pub const DENIED: u32 = 6;

/// reply, reply_decoded: service is denied, and with NTS that is believed: stop talking to this server.
pub const DENIED_NTS: u32 = 7;

/// reply, reply_decoded: the server could not use the cookie (NTSN).
pub const NTSN: u32 = 8;

/// reply, reply_decoded: the server declines with some other kiss code.
pub const OTHER_KISS: u32 = 9;

/// reply, reply_decoded: the reply has a stratum over 16.
pub const BAD_STRATUM: u32 = 10;

/// reply, reply_decoded: the reply does not come from a server (by its mode).
pub const NOT_SERVER: u32 = 11;

/// reply, reply_decoded: nothing was sent yet.
pub const NEVER_SENT: u32 = 12;

/// reply, reply_decoded: the last poll was answered already.
pub const ALREADY_MEASURED: u32 = 13;

/// reply, reply_decoded: too late: the deadline of the request has passed.
pub const EXPIRED: u32 = 14;

/// timer: send the poll, and set the timer again.
pub const SENT: u32 = 20;

/// timer: no answer to that many polls: look the server up again and begin with a new association.
pub const RESET: u32 = 21;

/// timer: no answer, and service was denied: stop talking to this server.
pub const DEMOBILIZE: u32 = 22;

/// timer: no cookie is left: exchange keys again and begin with a new association.
pub const NO_COOKIE: u32 = 23;

/// timer: the cookie is too large to send: exchange keys again and begin with a new association.
pub const COOKIE_TOO_LARGE: u32 = 24;

/// new, metered, profile: a setting is outside its range, or an unknown code.
pub const BAD_SETTINGS: u32 = 30;

/// new, metered: the record does not have the size of its capacity. timer: with NTS, the buffer for the cookie has fewer than 724 bytes. collect: the list is
/// longer than the buffer. plan_calendar: the buffer has fewer starts than there are entries. load: the record does not have the size of the file's capacity.
pub const WRONG_SIZE: u32 = 31;

/// timer, reply, reply_decoded, accept, save: the record was not made by a call, or is not lent whole. look: the bytes are not a record: their number is not
/// the capacity's, or a code is unknown.
pub const NOT_WHOLE: u32 = 32;

/// new, metered, profile, reply, reply_decoded: with NTS, the cookie list is broken.
pub const BROKEN_LIST: u32 = 33;

/// metered, profile: the lower poll limit is below 8.
pub const LOW_POLL_MIN: u32 = 34;

/// metered, profile: the startup limit is over 3.
pub const HIGH_STARTUP: u32 = 35;

/// metered, profile: the start version is upgrading, which is retired.
pub const UPGRADING_START: u32 = 36;

/// metered, profile: with NTS, a cookie of the first list has over 100 bytes.
pub const LONG_COOKIE: u32 = 37;

/// new: the start version is upgrading, which is retired.
pub const RETIRED_START: u32 = 38;

/// accept: the source's stratum is not below our own (16: nothing was measured yet).
pub const HIGH_STRATUM: u32 = 40;

/// accept: the source gets its time from us.
pub const LOOP: u32 = 41;

/// accept: none of the last eight polls was answered.
pub const UNREACHABLE: u32 = 42;

/// write_request: the caller writes requests of version 5 itself; or the kind is unknown.
pub const VERSION_FIVE: u32 = 50;

/// write_request: the packet is longer than the buffer.
pub const SHORT_REQUEST_BUFFER: u32 = 51;

/// write_request: the cookie has over 724 bytes, or the number asked for is not 1 to 8.
pub const COOKIE_OR_COUNT: u32 = 52;

/// save: the buffer is shorter than the file.
pub const SHORT_FILE_BUFFER: u32 = 60;

/// load, compare: a record of the file has a wrong mark.
pub const WRONG_MARK: u32 = 61;

/// load, compare: a record of the file has a wrong length, or bytes are missing or left over.
pub const WRONG_LENGTH: u32 = 62;

/// load, compare: the file has an unknown code, or its contents are not a whole association.
pub const NO_ASSOCIATION: u32 = 63;

/// salvage: the buffer is shorter than the damaged list.
pub const SHORT_SALVAGE_BUFFER: u32 = 70;

/// compare: the buffer is shorter than the list.
pub const SHORT_COMPARE_BUFFER: u32 = 71;

/// check_calendar, plan_calendar: more than 64 entries.
pub const TOO_MANY: u32 = 80;

/// check_calendar, plan_calendar: a repeat that is 0 or does not divide 1440.
pub const BAD_REPEAT: u32 = 81;

/// check_calendar: a start at or past its repeat.
pub const LATE_START: u32 = 82;

/// check_calendar: more polls than the cap.
pub const OVER_CAP: u32 = 83;

/// plan_calendar: no start fits after those placed before.
pub const NO_FIT: u32 = 84;
