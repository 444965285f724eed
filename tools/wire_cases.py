#!/usr/bin/env python3
"""Writes crates/wire_cases/stdin, the cases of the program wire_cases, and crates/wire_cases/stdout, what it must answer.

A small reference of the wire, written from RFC 5905, RFC 7822, RFC 8915, RULES (parts 6 to 9, No. 1), and from nothing else.
It shares no code with the program.  Line N of stdout answers line N of stdin; comments are repeated.
Run it from anywhere; with '-' it prints each case with its answer below it instead.
"""

import datetime
import os
import struct
import sys

CASES = []
ANSWERS = []


def case(line, answer):
    CASES.append(line)
    ANSWERS.append(answer)


def section(words):
    case('# ' + words, '# ' + words)


def hexed(data):
    return data.hex() or '-'


def told(data):
    """Bytes as a case has them: the zeros at their end are counted."""
    front = data.rstrip(b'\0')
    zeros = len(data) - len(front)
    return 'bytes=' + hexed(front) + (' zeros=%d' % zeros if zeros else '')


def yes(b):
    return 'yes' if b else 'no'


# ---- RFC 5905 section 7.3, figure 8: the packet header, 48 bytes, big-endian (RULES, part 6)

def header(leap=0, version=4, mode=4, stratum=0, poll=0, precision=0, delay=0, dispersion=0, refid=0,
           reference=0, origin=0, receive=0, transmit=0):
    return struct.pack('>BBbbIIIQQQQ', leap << 6 | version << 3 | mode, stratum, poll, precision, delay, dispersion, refid,
                       reference, origin, receive, transmit)


def readable(packet):
    """Part 6: 48 bytes or more, of version 3 or 4."""
    return len(packet) >= 48 and (packet[0] >> 3 & 7) in (3, 4)


def split(packet):
    names = ('first', 'stratum', 'poll', 'precision', 'delay', 'dispersion', 'refid', 'reference', 'origin', 'receive', 'transmit')
    h = dict(zip(names, struct.unpack('>BBbbIIIQQQQ', packet[:48])))
    first = h.pop('first')
    h['leap'], h['version'], h['mode'] = first >> 6, first >> 3 & 7, first & 7
    return h


# RFC 5905 section 6, figure 4, "Interesting Historic NTP Dates": the date and its era offset as published.
FIGURE_4 = {
    (1899, 12, 31): 4294880896,
    (1900, 1, 1): 0,
    (1970, 1, 1): 2208988800,
    (1972, 1, 1): 2272060800,
    (1999, 12, 31): 3155587200,
    (2036, 2, 8): 63104,
}


def published(year, month, day):
    """The era offset of figure 4, held against the calendar."""
    days = (datetime.date(year, month, day) - datetime.date(1900, 1, 1)).days
    offset = FIGURE_4[(year, month, day)]
    assert days * 86400 % 2 ** 32 == offset
    return offset


def timestamp(seconds, fraction):
    """RFC 5905 section 6, figure 3: NTP timestamp format, 32 bits of seconds and 32 of fraction."""
    return seconds << 32 | fraction


def kisses(h):
    """RFC 5905 section 7.4, RFC 8915 section 5.7; RULES, parts 1 and 9: at stratum 0 the reference identifier is the kiss's name."""
    name = h['refid'].to_bytes(4, 'big') if h['stratum'] == 0 else b''
    said = ''.join(' %s=%s' % (code.lower(), yes(name == code.encode('ascii'))) for code in ('RATE', 'DENY', 'RSTR', 'NTSN'))
    return said + ' any=' + yes(h['stratum'] == 0)


def ask_header(packet):
    """The number is 1 where the bytes are not decodable, else 0; then the fields, the kisses, and the header written again."""
    if not readable(packet):
        return case('header ' + told(packet), 'header 1')
    h = split(packet)
    said = ''.join(' %s=%d' % (name, h[name]) for name in ('leap', 'version', 'mode', 'stratum', 'poll', 'precision'))
    said += ''.join(' %s=%08x' % (name, h[name]) for name in ('delay', 'dispersion', 'refid'))
    for name in ('reference', 'origin', 'receive', 'transmit'):
        said += ' %s=%d.%08x' % (name, h[name] >> 32, h[name] & 0xffffffff)
    again = header(**h)
    assert again == packet[:48]
    case('header ' + told(packet), 'header 0' + said + kisses(h) + ' again=' + hexed(again))


HEADER = header()


def headers():
    section('a header of every length at the edge, and of every version')
    for n in (0, 1, 2, 46, 47, 48, 49, 512):
        ask_header((HEADER + bytes(512))[:n])
    for v in range(8):
        ask_header(header(version=v))
    section('a reply, with dates of figure 4; leap 3 (figure 9), mode 4 (figure 10), stratum 2 (figure 11), an IPv4 address as refid')
    ask_header(header(
        leap=3, version=4, mode=4, stratum=2, poll=6, precision=-20, delay=0x00001a2b, dispersion=0x00023c4d, refid=0xc0000201,
        reference=timestamp(published(1970, 1, 1), 0),
        origin=timestamp(published(1972, 1, 1), 0x80000000),
        receive=timestamp(published(1999, 12, 31), 1),
        transmit=timestamp(published(2036, 2, 8), 0xffffffff)))
    section('the last day of era -1 and the first of era 0, in a symmetric association of version 3')
    ask_header(header(
        leap=1, version=3, mode=1, stratum=15, poll=17, precision=-6, delay=0xffffffff, dispersion=0x80000000, refid=0x58464143,
        reference=timestamp(published(1899, 12, 31), 0xfedcba98),
        origin=timestamp(published(1900, 1, 1), 0x01234567)))
    section('every bit behind the first byte; bytes that all differ; poll and precision at the ends of their range')
    ask_header(bytes([0xe7]) + bytes([0xff]) * 47)
    ask_header(bytes([0x24]) + bytes(range(1, 48)))
    for poll, precision in ((-128, 127), (127, -128), (-1, 1), (1, -1)):
        ask_header(header(poll=poll, precision=precision))
    section('each byte behind the first, alone')
    for i in range(1, 48):
        ask_header(HEADER[:i] + bytes([0x80 + i]) + HEADER[i + 1:])
    section('every first byte')
    for b in range(256):
        ask_header(bytes([b]) + bytes(47))
    section('kisses: every name, at and above stratum 0; names that are nearly one')
    for version, stratum, name in ((4, 0, 'DENY'), (4, 0, 'RATE'), (4, 0, 'RSTR'), (4, 0, 'NTSN'), (4, 0, 'XNON'), (4, 1, 'DENY'),
                                   (3, 0, 'RATE'), (3, 16, 'RATE'), (4, 1, 'RATE'), (4, 1, 'RSTR'), (4, 1, 'NTSN'), (4, 255, 'RATE'),
                                   (3, 0, 'DENY'), (3, 0, 'RSTR'), (3, 0, 'NTSN'), (4, 0, 'rate'), (4, 0, 'RATD'), (4, 0, 'QATE'),
                                   (4, 0, 'DENX'), (4, 0, 'RSTS'), (4, 0, 'NTSO'), (4, 0, 'ETAR')):
        ask_header(header(version=version, stratum=stratum, refid=int.from_bytes(name.encode('ascii'), 'big')))


# ---- extension fields (RFC 7822 section 3; RULES, part 7)

def field_at(data, at, least, tail):
    """What stands at an offset: ('field', type, start, length, next), ('end',) or ('broken',)."""
    if at > len(data):
        return ('broken',)  # an offset past the bytes
    rest = len(data) - at
    if rest <= tail:
        return ('end',)  # a MAC, or nothing: not walked
    if rest < 4:
        return ('broken',)
    kind, length = struct.unpack('>HH', data[at:at + 4])
    if length % 4 or length < least or length > rest:
        return ('broken',)
    return ('field', kind, at + 4, length - 4, at + length)


def packet_field_at(data, at):
    return field_at(data, at, 16, 24)


def decrypted_field_at(data, at):
    return field_at(data, at, 4, 0)


def walk(data, at, field):
    """The fields from an offset on, with their places, and where the walk ends (None: broken)."""
    found = []
    while True:
        step = field(data, at)
        if step[0] == 'end':
            return found, at
        if step[0] == 'broken':
            return found, None
        found.append((at, step[1], data[step[2]:step[2] + step[3]]))
        at = step[4]


def packet_walk(data):
    return walk(data, 48, packet_field_at)


def decrypted_walk(data):
    return walk(data, 0, decrypted_field_at)


def show_step(step):
    if step[0] == 'field':
        return ' field=%04x start=%d len=%d next=%d' % step[1:]
    return ' ' + step[0]


def show_end(end):
    return ' walk=broken' if end is None else ' walk=%d' % end


def ask_walk(packet, at=48):
    found, end = packet_walk(packet)
    # part 7: 48, or where a field starts, or where the walk ends; a broken walk has no place
    places = set() if end is None else {48, end} | {start for start, _, _ in found}
    case('walk %s at=%d' % (told(packet), at),
         'walk' + show_step(packet_field_at(packet, at)) + show_end(end) + ' place=' + yes(at in places))


def ask_decrypted(plain, at=0):
    case('decrypted %s at=%d' % (told(plain), at),
         'decrypted' + show_step(decrypted_field_at(plain, at)) + show_end(decrypted_walk(plain)[1]))


def field(kind, body):
    assert len(body) % 4 == 0
    return struct.pack('>HH', kind, 4 + len(body)) + body


def walks():
    section('packets that are short, and tails of every length')
    for n in (0, 1, 46, 47):
        ask_walk(HEADER[:n])
    for n in range(61):
        ask_walk(HEADER + bytes(n))
    section('a field of every length, in 56 bytes')
    for n in range(61):
        ask_walk(HEADER + struct.pack('>HH', 0x0104, n) + bytes(52))
    section('both bytes of a type and of a length; a length that no packet has')
    ask_walk(HEADER + field(0xabcd, bytes(252)))
    ask_walk(HEADER + field(0xabcd, bytes(508)) + bytes(25))
    for length in (0x1000, 0x8010, 0xfffc, 0xffff):
        ask_walk(HEADER + struct.pack('>HH', 0x0104, length) + bytes(52))
    section('a field that runs past the end')
    for past in range(5):
        ask_walk((HEADER + field(0x0104, bytes(28)))[:48 + 32 - past])
    section('offsets at the end and past it')
    for at in (48, 49, 50, 2 ** 64 - 1):
        ask_walk(HEADER, at)
    three = HEADER + field(0x0104, bytes(12)) + field(0x0204, bytes(16)) + field(0x0404, bytes(24)) + bytes(20)
    for words, packet in (('three fields and a tail', three), ('a tail alone', HEADER + bytes(20)), ('a header alone', HEADER)):
        section('the places of ' + words)
        for at in [0] + list(range(40, len(packet) + 5)):
            ask_walk(packet, at)
    section('three fields, and behind them what is none: no places')
    for at in (0, 48, 64, 84, 112, 140):
        ask_walk(three + bytes(8), at)


def decrypted_walks():
    section('decrypted tails of every length')
    for n in range(9):
        ask_decrypted(bytes(n))
    section('a decrypted field of every length, in 32 bytes')
    for n in range(37):
        ask_decrypted(struct.pack('>HH', 0x0104, n) + bytes(28))
    section('both bytes of a type and of a length; lengths that run past the end')
    ask_decrypted(struct.pack('>HH', 0xabcd, 0x0100) + bytes(252))
    for length in (0x0200, 0xfffc, 0xffff):
        ask_decrypted(struct.pack('>HH', 0xabcd, length) + bytes(252))
    for past in range(5):
        ask_decrypted(field(0x0104, bytes(4))[:8 - past])
    section('decrypted offsets at the end and past it')
    for at in (8, 9, 10, 2 ** 64 - 1):
        ask_decrypted(bytes(8), at)
    section('decrypted fields at every offset: two, and two and what is none')
    two = field(0x0204, bytes(4)) + field(0x0304, b'')
    for plain in (two, two + b'\0', two + bytes(4)):
        for at in range(len(plain) + 2):
            ask_decrypted(plain, at)


# ---- the walker (RULES, "What must change shape"): a field's body is that part of the packet itself

def ask_walker(packet, at=0, length=0):
    """The part at an offset, which is none where it runs past the end; the first step, and the body of its field."""
    part = packet[at:at + length] if at + length <= len(packet) else b''
    step = packet_field_at(packet, 48)
    body = ' body=' + hexed(packet[step[2]:step[2] + step[3]]) if step[0] == 'field' else ''
    case('walker %s at=%d len=%d' % (told(packet), at, length), 'walker part=' + hexed(part) + show_step(step) + body)


def counted(first, size):
    return bytes((first + i) % 256 for i in range(size))


def walkers():
    body = counted(0x61, 28)
    whole = HEADER + field(0x0404, body)
    section('the walker over a header, a tail, no field, a field to the last byte, one too long, one before a tail, two')
    ask_walker(HEADER)
    ask_walker(HEADER + bytes(24))
    ask_walker(HEADER + bytes(28))
    ask_walker(whole)
    ask_walker(whole[:79])
    ask_walker(HEADER + field(0x0204, body[:12]) + body[12:])
    ask_walker(HEADER + field(0x0204, body) + field(0x0404, body))
    ask_walker(HEADER[:47])
    section('parts of a packet, by their start and length')
    for start, length in ((76, 4), (76, 5), (80, 0), (80, 1), (81, 0), (52, 2 ** 64 - 1), (0, 0), (0, 80), (0, 81), (1, 80), (79, 1), (79, 2),
                          (2 ** 64 - 1, 0), (2 ** 64 - 1, 1), (2 ** 64 - 1, 2 ** 64 - 1), (2 ** 63, 2 ** 63)):
        ask_walker(whole, start, length)


# ---- the unique identifier (RFC 8915 section 5.3; RULES, part 8)

UID = bytes(0xa0 + i for i in range(32))
OTHER = UID[:31] + b'\0'


def group(found, uid, first, last):
    """What the fields say that start from `first` on and before `last`."""
    bodies = [body for at, kind, body in found if kind == 0x0104 and first <= at < last]
    if not bodies:
        return 'absent'
    return 'agree' if all(body[:32] == uid for body in bodies) else 'disagree'


def ask_uid(packet, end, uid=UID):
    found, _ = packet_walk(packet)
    case('uid %s uid=%s at=%d' % (told(packet), hexed(uid), end),
         'uid authenticated=%s untrusted=%s' % (group(found, uid, 48, end), group(found, uid, end, len(packet))))


def ask_encrypted(plain, uid=UID):
    found, _ = decrypted_walk(plain)
    case('encrypted %s uid=%s' % (told(plain), hexed(uid)), 'encrypted ' + group(found, uid, 0, len(plain)))


def uids():
    cover = field(0x0404, bytes(28))  # a field of another type, 32 bytes
    section('no identifier')
    ask_uid(HEADER + cover + cover, 80)
    ask_uid(HEADER, 48)
    ask_encrypted(cover)
    ask_encrypted(b'')
    section('one identifier, of 28 bytes, 31 that agree, 32, 40: in front of the end, behind it, encrypted')
    for body in (UID[:28], OTHER, UID, UID + bytes(8)):
        uid = field(0x0104, body)
        ask_uid(HEADER + uid + cover, 48 + len(uid))
        ask_uid(HEADER + cover + uid, 80)
        ask_encrypted(uid)
    section('two identifiers: both in front, parted by the end, both behind, encrypted')
    good, bad = field(0x0104, UID), field(0x0104, OTHER)
    for a, b in ((good, good), (good, bad), (bad, good), (bad, bad)):
        packet = HEADER + a + b
        ask_uid(packet, 120)
        ask_uid(packet, 84)
        ask_uid(packet, 48)
        ask_encrypted(a + b)
    section('an identifier and a field of another type with the same body; an empty body; ends around a start')
    same = field(0x0204, UID)
    ask_uid(HEADER + same + good, 84)
    ask_uid(HEADER + good + same, 84)
    ask_encrypted(same)
    ask_encrypted(field(0x0401, UID))
    ask_encrypted(field(0x0104, b''))
    ask_encrypted(field(0x0104, b'') + good)
    for end in (0, 47, 49, 83, 85, 119, 121, 2 ** 64 - 1):
        ask_uid(HEADER + good + bad, end)
    section('one byte that differs, at each place of the identifier')
    for i in range(32):
        ask_encrypted(good, UID[:i] + bytes([UID[i] ^ 1]) + UID[i + 1:])


def matches():
    section('when the groups match: the whole table')
    states = ('absent', 'agree', 'disagree')
    for authenticated in states:
        for encrypted in states:
            for untrusted in states:
                for ntsn in (False, True):
                    looked = [authenticated, encrypted] + ([untrusted] if ntsn else [])
                    ok = 'disagree' not in looked and 'agree' in looked
                    case('match authenticated=%s encrypted=%s untrusted=%s ntsn=%s' % (authenticated, encrypted, untrusted, yes(ntsn)),
                         'match ' + yes(ok))


# ---- what a lent buffer holds before a call

def filled(size):
    return b'\xee' * size


# ---- the collector (RFC 8915 sections 5.4 and 5.5; RULES, part 7 and the cookie list)

def collected(plain, size):
    """The number, the list's length, and the buffer after."""
    found, end = decrypted_walk(plain)
    if end is None:
        return 1, 0, filled(size)
    cookies = [body for _, kind, body in found if kind == 0x0204]
    records = b''.join(b'\xc0\x0e' + struct.pack('>H', len(body)) + body for body in cookies)
    if len(records) > size:
        return 31, 0, filled(size)
    return 0, len(records), records + filled(size - len(records))


def ask_collect(plain, *sizes):
    for size in sizes:
        number, length, after = collected(plain, size)
        case('collect %s room=%d' % (told(plain), size),
             'collect before=%s number=%d len=%d after=%s' % (hexed(filled(size)), number, length, hexed(after)))


def collector():
    hundred = field(0x0204, counted(1, 100))
    placeholder = field(0x0304, bytes(100))
    another = field(0x0204, counted(0x81, 96))
    uid = field(0x0104, UID)
    section('no cookie')
    ask_collect(b'', 8, 0)
    ask_collect(uid + placeholder, 8, 0)
    section('one cookie, two, with placeholders before, behind and between; buffers around the list')
    ask_collect(hundred, 112, 105, 104, 103, 0)
    ask_collect(placeholder + hundred, 112)
    ask_collect(hundred + placeholder, 112)
    ask_collect(hundred + another, 212, 205, 204, 203, 105, 104)
    ask_collect(hundred + placeholder + another, 212)
    ask_collect(uid + hundred + placeholder + another + uid, 212, 204, 203)
    section('empty cookies')
    ask_collect(field(0x0204, b''), 12, 4, 3)
    ask_collect(field(0x0204, b'') * 3, 16, 12, 11)
    section('broken: behind, in front, at the tail, and into a buffer that is too short as well')
    ask_collect(hundred + bytes(4), 112)
    ask_collect(bytes(4) + hundred, 112)
    ask_collect(hundred + b'\x02', 112)
    ask_collect(hundred + bytes(4), 8)
    ask_collect(hundred + hundred[:-1], 300)
    section('types that are nearly a cookie\'s; a length of two bytes; a long list')
    ask_collect(field(0x0402, bytes(4)) + field(0x0205, bytes(4)) + field(0x0104, bytes(4)) + field(0x8204, bytes(4)), 8)
    ask_collect(field(0x0204, counted(7, 260)), 265, 264, 263)
    ask_collect(b''.join(field(0x0204, counted(i, 64)) for i in range(8)), 546, 544, 543)


# ---- the request writer (RULES, No. 1; RFC 5905 section 7.3, RFC 8915 sections 5.3 to 5.5)

ID = 0x0102030405060708
MARK = 0x1112131415161718


def padded(kind, body):
    """A field, filled with zeros to a multiple of four and to the least length, 16."""
    return field(kind, body + bytes(max(-len(body) % 4, 12 - len(body))))


def packet_of(kind, cookie, asked, poll):
    packet = header(mode=3, poll=poll, reference=MARK if kind == 'v4-upgrade' else 0, transmit=ID)
    if kind == 'nts-v4':
        packet += padded(0x0104, UID) + padded(0x0204, cookie)
        for _ in range(asked - 1):
            packet += padded(0x0304, bytes(len(cookie)))
    return packet


def requested(kind, cookie, asked, size, poll):
    """The number, the packet's length, and what the writer leaves in a buffer of so many bytes."""
    if kind.endswith('v5'):
        return 50, 0, filled(size)
    if kind == 'nts-v4' and not (len(cookie) <= 724 and 1 <= asked <= 8):
        return 52, 0, filled(size)
    packet = packet_of(kind, cookie, asked, poll)
    if size < len(packet):
        return 51, 0, filled(size)
    return 0, len(packet), packet + filled(size - len(packet))


def ask_request(kind, cookie, asked, size, poll=-2):
    number, length, after = requested(kind, cookie, asked, size, poll)
    case('request kind=%s uid=%s poll=%d id=%016x mark=%016x %s asked=%d room=%d' % (
        kind, hexed(UID), poll, ID, MARK, told(cookie), asked, size),
         'request number=%d len=%d after=%s' % (number, length, hexed(after)))


def requests():
    cookie = b'cookie bytes!'
    section('requests without NTS, and those of version 5')
    for kind, length, asked, size in (('v4', 0, 0, 50), ('v4', 0, 0, 48), ('v4', 0, 0, 47), ('v4', 0, 0, 0), ('v4', 13, 2, 124),
                                      ('v4-upgrade', 13, 9, 49), ('v4-upgrade', 0, 0, 48), ('v4-upgrade', 0, 0, 47),
                                      ('v5', 0, 0, 50), ('v5', 0, 0, 0), ('nts-v5', 13, 0, 0), ('nts-v5', 13, 1, 124)):
        ask_request(kind, cookie[:length], asked, size)
    section('every poll exponent\'s byte is the header\'s third')
    for poll in (-128, -1, 0, 4, 10, 17, 127):
        ask_request('v4', b'', 0, 48, poll)
    section('requests with NTS: cookies of every length up to one word more, and their edges')
    for length, asked, size in ((0, 1, 103), (12, 2, 117), (13, 2, 124), (13, 2, 123), (13, 0, 104), (13, 9, 8)):
        ask_request('nts-v4', cookie[:length], asked, size)
    for length in range(18):
        longest = len(packet_of('nts-v4', bytes(length), 1, 0))
        for size in (longest + 1, longest, longest - 1):
            ask_request('nts-v4', counted(0x31, length), 1, size)
    section('as many cookies asked for as there may be, none, and more')
    for asked in (0, 1, 2, 7, 8, 9, 255):
        ask_request('nts-v4', counted(0x31, 20), asked, 84 + 8 * 24 + 2)
    for size in (84 + 8 * 24, 84 + 8 * 24 - 1):
        ask_request('nts-v4', counted(0x31, 20), 8, size)
    section('the longest cookie, and one byte more')
    ask_request('nts-v4', counted(0x31, 724), 1, 814)
    for length, asked, size in ((724, 1, 812), (724, 1, 811), (725, 1, 900), (725, 1, 8), (724, 0, 8), (724, 9, 8), (721, 1, 812), (720, 1, 808)):
        ask_request('nts-v4', cookie + bytes(length - len(cookie)), asked, size)
    ask_request('nts-v4', counted(0x31, 724), 8, 84 + 8 * 728 + 2)


# ---- lines that are no case (docs/DRILL.md, "The language")

def refusals():
    section('lines that cannot be read: each is refused by its number')
    for line, what in (('nonsense', 'unknown command'), ('headers bytes=00', 'unknown command'), ('', 'unknown command'),
                       ('header bytes', 'no pair'), ('header  bytes=00', 'no pair'), ('header bytes=0', 'bad bytes'), ('header bytes=0g', 'bad bytes'),
                       ('header bytes=', 'bad bytes'), ('header bytes=00 bytes=00', 'repeated bytes'), ('header packet=00', 'unknown key'),
                       ('walk bytes=00 at=18446744073709551616', 'bad at'), ('walk bytes=00 at=-1', 'bad at'),
                       ('collect bytes=00 room=6145', 'bad room'), ('encrypted bytes=- uid=00', 'bad uid'),
                       ('match authenticated=agree encrypted=agree untrusted=maybe ntsn=no', 'bad untrusted')):
        case(line, 'error %d %s' % (len(CASES) + 1, what))


def main():
    headers()
    walks()
    decrypted_walks()
    walkers()
    uids()
    matches()
    collector()
    requests()
    refusals()
    if sys.argv[1:] == ['-']:
        for line, answer in zip(CASES, ANSWERS):
            print(line if line == answer else line + '\n    ' + answer)
        return
    root = os.path.dirname(os.path.dirname(os.path.abspath(__file__)))
    for name, lines in (('stdin', CASES), ('stdout', ANSWERS)):
        with open(os.path.join(root, 'crates', 'wire_cases', name), 'w', encoding='ascii', newline='\n') as out:
            out.write(''.join(line + '\n' for line in lines))


main()
