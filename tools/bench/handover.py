"""Hand-over files (docs/HANDOVER.md) for people: where one is damaged, whether it is an association, its settings, and the fields in which two differ."""
from collections.abc import Callable

import human

SLOT = 724      # bytes of the longest cookie whose bytes are kept
# The records of a file in their order: mark, what it is, and how long its body is; an old file has 26 bytes of settings, and the stash is as long as its cookies make it.
FILE = ((b'SE', 'settings', (27, 26)), (b'ST', 'stash', None), (b'RE', 'reach and tries', (2,)), (b'VE', 'version', (2,)), (b'PO', 'polls', (2,)), (b'SO', 'source', (6,)))
V4, UPGRADING, _UPGRADED, V5 = range(4)   # the codes of a version


def cookies_in(body: bytes) -> list[int] | None:
    """the lengths of a stash's cookies; nothing where they do not end with it"""
    at, out = 1, []
    while 0 < len(body) - at:
        length = int.from_bytes(body[at:at + 2], 'big') if len(body) - at >= 2 else 0
        at += 2 + (length if length <= SLOT else 0)
        out.append(length)
    return out if at == len(body) else None


def fault_in(f: bytes) -> str | None:
    """where the first fault of a file stands that is refused with 61 or 62; nothing where its marks and lengths are right"""
    at = 0
    for mark, name, usual in FILE:
        if len(f) - at >= 2 and f[at:at + 2] != mark:
            return 'at byte %d the %s record is due, with the mark %s, and %s stands there' % (at, name, mark.hex(), f[at:at + 2].hex())
        if len(f) - at < 4:
            return 'the file ends at byte %d, where the %s record is due' % (len(f), name)
        body = int.from_bytes(f[at + 2:at + 4], 'big')
        if body > len(f) - at - 4:
            return 'the %s record at byte %d says %d bytes, and %d follow' % (name, at, body, len(f) - at - 4)
        if usual is not None and body not in usual:
            return 'the %s record at byte %d says %d bytes, and has %d' % (name, at, body, usual[0])
        if usual is None and cookies_in(f[at + 4:at + 4 + body]) is None:
            return 'the cookies of the stash record at byte %d do not end with it' % at
        at += 4 + body
    return '%d bytes are left over behind the last record' % (len(f) - at) if at < len(f) else None


def bodies(f: bytes) -> list[bytes]:
    """the bodies of a file without a fault in it"""
    out, at = [], 0
    for _ in FILE:
        end = at + 4 + int.from_bytes(f[at + 2:at + 4], 'big')
        out.append(f[at + 4:end])
        at = end
    return out


def signed(octet: int) -> int:
    return octet - 256 if octet > 127 else octet


def loads(f: bytes) -> bool:
    """whether a file is an association (RULES, No. 6): no fault in it, every code known, the settings in their ranges, and no more cookies than fit"""
    if fault_in(f) is not None:
        return False
    settings, stash, _, version, _, source = bodies(f)
    cookies, capacity, nts = cookies_in(stash) or [], settings[26] if len(settings) == 27 else 8, settings[21]
    known = all(kind <= V5 and (tries == 0 or kind == UPGRADING) for kind, tries in (settings[19:21], version)) and nts <= 1 and source[5] <= 1
    ranges = 0 <= signed(settings[0]) <= signed(settings[1]) <= 17 and 1 <= settings[2] <= 8 and 1 <= int.from_bytes(settings[3:11], 'big') <= 60 * 10**9
    fits = 1 <= capacity <= 8 and len(cookies) <= capacity and stash[0] < capacity
    return known and ranges and fits and (nts == 1 or (stash[0], cookies) == (0, []))


def in_file(f: bytes) -> dict[str, str]:
    """the settings of a file that loads, as `new` has them"""
    start = ('v4', 'v4', 'upgraded', 'v5')[f[23]]  # upgrading is retired, and loads as V4
    return dict(min=str(signed(f[4])), max=str(signed(f[5])), startup=str(f[6]), window=str(int.from_bytes(f[7:15], 'big')), start=start,
                nts='yes' if f[25] else 'no', source=f[26:30].hex(), capacity=str(f[30]) if f[3] == 27 else '8')


# ---- two files compared

def every(exponent: str) -> str:
    n = int(exponent)
    return human.every(n) if -10 <= n <= 20 else '2^%d s' % n


# A field: what it is, and how its value is written for people.
FIELDS: dict[str, tuple[str, Callable[[str], str]]] = {
    'min': ('shortest time between polls', every), 'max': ('longest time between polls', every),
    'startup': ('gives up after so many polls', str), 'window': ('waits for a reply', lambda v: human.span(int(v))), 'mark': ('upgrade mark', str),
    'start': ('version at the start', str), 'nts': ('speaks NTS', str), 'source': ("the source's identifier", human.address),
    'capacity': ('cookies it may hold', str),
    'read': ('slot of the oldest cookie', str), 'reach': ('last eight polls, 1 is answered', human.bits), 'tries': ('polls sent', str),
    'version': ('version now', str), 'last': ('time between polls, last used', every), 'remote': ('the server asks for at least', every),
    'stratum': ('stratum of the source', str), 'refid': ('the source has its time from', human.address), 'denial': ('the server denied service', str)}


def cookie(value: str) -> str:
    return 'none' if value == '-' else '%s byte%s%s' % (value, '' if value == '1' else 's', ', none kept' if int(value) > SLOT else '')


def place(left: str, right: str, at: int) -> str:
    """where two cookies of an age part"""
    if '-' in (left, right):
        return ''
    kept = min(int(n) if int(n) <= SLOT else 0 for n in (left, right))
    return 'byte %d is the first that differs, counted from 0' % at if at < kept else 'the first %d bytes agree' % at if at else ''


def entry(word: str) -> tuple[str, str, str, str]:
    """a word of the answer, NAME:LEFT/RIGHT or NAME:LEFT/RIGHT@PLACE, as a row for people"""
    name, _, rest = word.partition(':')
    rest, _, at = rest.partition('@')
    left, right = rest.split('/')
    if name.startswith('cookie'):
        age = int(name[6:])
        words = 'cookie 0, the oldest' if age == 0 else 'cookie %d' % age
        return words, cookie(left), cookie(right), place(left, right, int(at))
    words, how = FIELDS.get(name, (name, str))
    return words, how(left), how(right), ''
