"""./drill --capture FILE [--all FOLDER] [--box ADDRESS].. [--server ADDRESS] [--port N]..: logs of the drill from a capture of a site's NTP traffic.

Requests become `new` and `timer` lines, replies `reply` lines; `now`, T1 and T4 are the capture's clock. What a capture cannot say is said in comments.
Nothing is written unless the whole capture was read; what was skipped on the way is counted and said, with the reason. packets.py reads the capture.

Where the rules give up in the middle (a reset), a caller makes a new association. `Association` says where that is; tests/capture holds it to the drill."""
import collections
import ipaddress
import os
import re
import stat
import struct
import sys
from datetime import datetime, timezone
from typing import BinaryIO, Collection, Iterable, NamedTuple, NoReturn, Optional, Sequence

import ends
import human
import packets
import replies

PORT = 123
MOST = 200_000          # packets of one box that a log is made of
MOST_TOGETHER = 5 * MOST
LAST = 2**63            # nanoseconds since 1970, in the year 2262: no capture's clock is later
VIEWS = 10**7           # nanoseconds within which one packet is seen at two interfaces
UPGRADE_MARK = 0x4e54503544524654  # NTP5DRFT
UNIX = (70 * 365 + 17) * 86400     # seconds from 1900 to 1970
UID, COOKIE, AUTHENTICATOR = replies.UID, 0x0204, 0x0404
LIST = 4096             # bytes of a cookie list that a line of the drill takes
LONGEST = 724           # bytes of the longest cookie that a request can carry
STARTUP, WINDOW, HELD = 3, 5 * 10**9, 8   # as the crate sets them: polls before it gives up, nanoseconds for a reply, cookies that are held


# ---- what was skipped

# Why a packet is in no log, in the order in which it is said.
REASONS = dict(cut='cut by the capture\'s snap length (capture with -s 0)',
               fragment='as IP fragments, of which none is a whole packet',
               link='of a link type that is not known here: %s (capture on an Ethernet, raw IP, PPP or Linux "any" interface)',
               ip='without IP%s',
               udp='of IP that is no UDP',
               port='of other UDP ports%s',
               damaged='with a length that cannot be',
               time='without a time, or with one that cannot be',
               mode='neither a request nor a server\'s answer',
               unasked='from a server to a box that did not ask it in this capture',
               twice='seen at another interface already')


class Skips:
    def __init__(self) -> None:
        self.count: collections.Counter[str] = collections.Counter()
        self.details: dict[str, collections.Counter] = {'link': collections.Counter(), 'ip': collections.Counter(), 'port': collections.Counter()}

    def add(self, why: str, what: object = None) -> None:
        self.count[why] += 1
        if what is not None and why in self.details:
            self.details[why][what] += 1

    def words(self, why: str) -> str:
        most = self.details[why].most_common(3) if why in self.details else []
        if why == 'link':
            return REASONS[why] % ', '.join(str(link) for link, _ in most)
        if why == 'ip':
            return REASONS[why] % (' (%s)' % ', '.join('%s: %d' % kind for kind in most) if most else '')
        if why == 'port':
            return REASONS[why] % (' (%s)' % ', '.join('%d look like requests to port %d: --port %d' % (n, port, port) for port, n in most) if most else '')
        return REASONS[why]

    def said(self) -> str:
        """every reason with its count; nothing where nothing was skipped"""
        return '; '.join('%d %s' % (self.count[why], self.words(why)) for why in REASONS if self.count[why])


# ---- NTP

class Packet:
    __slots__ = ('at', 'octets', 'way', 'version', 'fields')

    def __init__(self, at: int, octets: bytes, way: tuple) -> None:
        self.at, self.octets, self.way = at, octets, way
        self.version = octets[0] >> 3 & 7
        self.fields = self.walk() if self.version == 4 else []

    def walk(self) -> list[tuple[int, int, bytes]]:
        """the extension fields as (place, type, body), as far as they are whole"""
        p, at, out = self.octets, 48, []
        while len(p) - at > 24:
            kind, n = struct.unpack('>HH', p[at:at + 4])
            if n % 4 or n < 16 or n > len(p) - at:
                break
            out.append((at, kind, p[at + 4:at + n]))
            at += n
        return out

    def field(self, kind: int) -> Optional[tuple[int, bytes]]:
        return next(((at, body) for at, k, body in self.fields if k == kind), None)

    def ident(self) -> str:
        return self.octets[24 if self.version == 5 else 40:][:8].hex()


class Server(NamedTuple):
    address: bytes
    port: int

    def __str__(self) -> str:
        return text(self.address) + (' port %d' % self.port if self.port != PORT else '')


Talk = list[tuple[bool, Packet]]  # what goes between a box and a server, in the capture's order: whether the box asks, and the packet


class Site:
    """the NTP packets of a capture by box and server; of the boxes that are wanted, or of all where none is named"""

    def __init__(self, called: str, ports: frozenset[int], wanted: frozenset[bytes]) -> None:
        self.called, self.ports, self.wanted = called, ports, wanted
        self.boxes: dict[bytes, dict[Server, Talk]] = {}
        self.asking: set[bytes] = set()       # every box that asks, wanted or not
        self.held: collections.Counter[bytes] = collections.Counter()
        self.kept = self.frames = 0
        self.start: Optional[int] = None      # the earliest NTP packet
        self.skips = Skips()

    def read(self, f: BinaryIO) -> None:
        for frame in packets.frames(f):
            self.frames += 1
            try:
                self.take(frame)
            except packets.Skipped as skipped:
                self.skips.add(skipped.why, skipped.what)
        self.drop_unasked()

    def take(self, frame: packets.Frame) -> None:
        if not 0 <= frame.at < LAST:
            raise packets.Skipped('time')
        udp = packets.udp_in(frame, self.ports)
        mode = udp.octets[0] & 7 if udp.octets else None
        asks = udp.to_port in self.ports and mode == 3 and len(udp.octets) >= 48
        if not asks and (udp.from_port not in self.ports or mode in (None, 3, 6, 7)):
            raise packets.Skipped('mode')
        box, server = (udp.source, Server(udp.target, udp.to_port)) if asks else (udp.target, Server(udp.source, udp.from_port))
        if self.start is None or frame.at < self.start:
            self.start = frame.at
        if asks:
            self.asking.add(box)
        if self.wanted and box not in self.wanted:
            return
        self.held[box] += 1
        if self.held[box] > MOST:
            self.kept -= sum(map(len, self.boxes.pop(box, {}).values()))  # too_many says so
            return
        talk = self.boxes.setdefault(box, {}).setdefault(server, [])
        packet = Packet(frame.at, udp.octets, udp.way)
        if any(asks == asked and same_packet(packet, other) for asked, other in talk[-8:]):
            raise packets.Skipped('twice')
        talk.append((asks, packet))
        self.kept += 1
        if self.kept > MOST_TOGETHER:
            ends.die('%s has more than %d NTP packets: name some of its boxes with --box, or cut it first (tcpdump -r FILE -w SHORTER host ADDRESS)'
                     % (self.called, MOST_TOGETHER))

    def drop_unasked(self) -> None:
        for box in list(self.boxes):
            for server, talk in list(self.boxes[box].items()):
                if not any(asks for asks, _ in talk):
                    del self.boxes[box][server]
                    self.skips.count['unasked'] += len(talk)
            if not self.boxes[box]:
                del self.boxes[box]
        self.skips.count['unasked'] += sum(n for box, n in self.held.items() if n > MOST and box not in self.asking)

    def too_many(self) -> list[bytes]:
        return [box for box in in_order(self.asking) if self.held[box] > MOST]

    def skipped(self) -> str:
        said = self.skips.said()
        return 'skipped %d of %d packets: %s' % (sum(self.skips.count.values()), self.frames, said) if said else ''


def same_packet(one: Packet, other: Packet) -> bool:
    """seen twice: byte for byte the same, at another interface or in another wrapping, a moment later; what a network doubles comes the same way twice"""
    return one.octets == other.octets and one.way != other.way and abs(one.at - other.at) <= VIEWS


def text(octets: bytes) -> str:
    return str(ipaddress.ip_address(octets))


def in_order(boxes: Iterable[bytes]) -> list[bytes]:
    return sorted(boxes, key=lambda box: (len(box), box))


def listed(boxes: Collection[bytes]) -> str:
    return ', '.join(text(box) for box in in_order(boxes)[:20]) + (' ..' if len(boxes) > 20 else '')


def packed(word: str, option: str) -> bytes:
    try:
        return ipaddress.ip_address(word).packed
    except ValueError:
        ends.die('%s %s is no address' % (option, word))


def port_of(word: str) -> int:
    if not re.fullmatch('[0-9]{1,5}', word) or not 0 < int(word) < 2**16:
        ends.die('--port %s is no port: a number from 1 to 65535' % word)
    return int(word)


def stamp(ns: int) -> int:
    """nanoseconds since 1970 as an NTP timestamp"""
    return (ns + UNIX * 10**9) * 2**32 // 10**9 % 2**64


def moment(ns: int) -> str:
    return datetime.fromtimestamp(ns // 10**9, timezone.utc).strftime('%Y-%m-%d %H:%M:%S') + '.%06d' % (ns % 10**9 // 1000)


# ---- the log

class Association:
    """what the rules make of the lines of one association (RULES, parts 10 and 11), as far as the log depends on it: whether a poll is sent, and a reply measured"""

    def __init__(self, nts: bool, versions: tuple[int, ...], cookies: Sequence[bytes]) -> None:
        self.nts, self.versions = nts, versions
        self.cookies: collections.deque[int] = collections.deque(map(len, cookies), HELD)
        self.reach = self.tries = 0
        self.awaited: Optional[tuple[int, bytes, int]] = None   # identifier, unique identifier, deadline

    def timer(self, now: int, ident: int, uid: bytes) -> bool:
        if self.reach == 0 and self.tries >= STARTUP:
            return False
        self.reach, self.tries = self.reach << 1 & 255, self.tries + 1
        if self.nts and (not self.cookies or self.cookies.popleft() > LONGEST):
            return False
        self.awaited = ident, uid if self.nts else replies.NO_UID, now + WINDOW
        return True

    def reply(self, now: int, octets: bytes, auth: int, cookies: Sequence[bytes]) -> bool:
        if self.awaited is None or self.awaited[2] < now:
            return False
        ident, uid, _ = self.awaited
        reply = replies.read(octets, auth, b'', self.nts, uid)
        if reply is None or reply.version not in self.versions or not replies.answers(reply, self.nts, ident):
            return False
        if reply.kisses or reply.stratum > 16 or not reply.server:
            return False
        self.reach, self.awaited = self.reach | 1, None
        self.cookies.extend(map(len, cookies))
        return True


class Log:
    """the lines of a log"""

    def __init__(self) -> None:
        self.lines: list[str] = []

    def say(self, line: str) -> None:
        self.lines.append('# ' + line)

    def add(self, line: str) -> None:
        self.lines.append(line)


def fitting(cookies: list[bytes]) -> list[bytes]:
    """the first of them, as many as a list of the drill takes"""
    room, n = LIST, 0
    while n < len(cookies) and 4 + len(cookies[n]) <= room:
        room, n = room - 4 - len(cookies[n]), n + 1
    return cookies[:n]


def cookie_list(cookies: list[bytes]) -> str:
    return ''.join('c00e%04x' % len(c) + c.hex() for c in cookies) or '-'


def association(log: Log, server: Server, talk: Talk, midnight: int) -> None:
    """the lines of one server"""
    requests = [p for asks, p in talk if asks]
    first = requests[0]
    nts = any(p.field(COOKIE) for p in requests)
    upgrades = first.version != 5 and int.from_bytes(first.octets[16:24], 'big') == UPGRADE_MARK
    start, versions = ('v5', (5,)) if first.version == 5 else ('v4', (3, 4))
    cookies = [found[1] for found in (p.field(COOKIE) for p in requests) if found]
    used = 0

    def new() -> Association:
        held = fitting(cookies[used:used + HELD])
        log.add('new min=4 max=10 startup=%d window=%d mark=%016x start=%s nts=%s source=%s list=%s' % (
            STARTUP, WINDOW, UPGRADE_MARK, start, 'yes' if nts else 'no', human.identifier(text(server.address)), cookie_list(held) if nts else '-'))
        return Association(nts, versions, held)

    def timer(p: Packet) -> bool:
        """asks for the poll of a request; whether it is sent"""
        uid = p.field(UID)
        poll = p.octets[2] - 256 if p.octets[2] > 127 else p.octets[2]
        named = uid[1][:32] if nts and uid and len(uid[1]) >= 32 else b''
        log.add('timer now=%d desired=%d id=%s%s' % (p.at - midnight, poll, p.ident(), ' uid=' + named.hex() if named else ''))
        return made.timer(p.at - midnight, int(p.ident(), 16), named or replies.NO_UID)

    log.say('server %s: %d requests, %d replies' % (server, len(requests), len(talk) - len(requests)))
    log.say('not in a capture, and set as the crate sets it: min, max, startup, window' + (', and the cookies of the key exchange' if nts else ''))
    if nts:
        log.say('NTS: the cookies are those that the requests of this capture carried; new ones come encrypted in the replies, and stand in list= of a reply in time')
        log.say('NTS: decrypted bytes (plain=) are left out, since a capture has none; that each 0404 field deciphers is taken as given')
    if upgrades:
        log.say('the requests are of an association that starts as upgrading:8, which the rules refuse; v4 stands here instead')
    made = new()
    given, asked = len(fitting(cookies[:HELD])), None
    for asks, p in talk:
        if asks:
            log.say('%s UTC, request of version %d' % (moment(p.at), p.version))
            if p.version == 5:
                log.say('version 5 is a draft: the request stands here by its client cookie')
            if not timer(p):
                log.say('the rules give up here, and the caller makes a new association, which sends this request')
                made = new()
                given = used + len(fitting(cookies[used:used + HELD]))
                timer(p)
            asked = p
            used += 1 if p.field(COOKIE) else 0
            continue
        log.say('%s UTC, %d bytes from the server' % (moment(p.at), len(p.octets)))
        if asked is None:
            log.say('left out: it came before the first request of the capture, so its T1 is not known')
            continue
        if p.version == 5:
            log.say('left out: of version 5, whose decoding is the caller\'s (reply5)')
            continue
        place = p.field(AUTHENTICATOR)
        more = fitting(cookies[given:used + HELD]) if nts else []
        log.add('reply now=%d t1=%d t4=%d packet=%s%s%s' % (p.at - midnight, stamp(asked.at), stamp(p.at), p.octets[:4096].hex(), ' auth=%d' % place[0] if place else '',
                                                            ' list=' + cookie_list(more) if more else ''))
        if made.reply(p.at - midnight, p.octets[:4096], place[0] if place else 48, more):
            given += len(more)
        log.add('accept stratum=16')
    log.add('show')


# ---- a log for each box

TOO_MANY = 'more than %d NTP packets: cut the capture first (tcpdump -r FILE -w SHORTER host %s)'
HEAD = 'box %s, made from %s by ./drill --capture'


def log_of(site: Site, box: bytes, source: str) -> bytes:
    log, servers = Log(), site.boxes[box]
    midnight = site.start - site.start % (86400 * 10**9)
    log.say(HEAD % (text(box), source.encode('ascii', 'replace').decode()))
    log.say('the capture begins %s UTC; now= counts from the midnight before, and T1 and T4 are the clock of the machine that captured:' % moment(site.start))
    log.say('on the box itself that is the box\'s clock, elsewhere an offset is that of the other machine\'s clock')
    log.say('not in a capture: the box\'s own stratum (accept asks with 16), the exponent that its clock steering asked for (desired= is what the request says)')
    words = dict(fragment='fragments of IP packets', cut='packets that the capture cut short', mode='packets that are neither a request nor a server\'s answer')
    for why, what in words.items():
        if site.skips.count[why]:
            log.say('left out: %d %s' % (site.skips.count[why], what))
    for server, talk in servers.items():
        association(log, server, talk, midnight)
    return ('\n'.join(log.lines) + '\n').encode('ascii')


def counts(servers: dict[Server, Talk]) -> str:
    asked = sum(asks for talk in servers.values() for asks, _ in talk)
    every = sum(map(len, servers.values()))
    return '%d request%s, %d repl%s, %d server%s' % (asked, '' if asked == 1 else 's', every - asked, 'y' if every - asked == 1 else 'ies',
                                                    len(servers), '' if len(servers) == 1 else 's')


def file_of(box: bytes) -> str:
    """the name of a box's log: its address, with - for the colons that not every system takes"""
    return text(box).replace(':', '-') + '.drill'


def kept_before(path: str, box: bytes) -> Optional[bytes]:
    """the log of this box that an earlier run left there; nothing where there is no file. Anything else that is there is no log to be replaced"""
    head, tail = ('# ' + HEAD % (text(box), '\n')).encode().split(b'\n')
    try:
        if stat.S_ISREG(os.lstat(path).st_mode):
            with open(path, 'rb') as f:
                first = f.readline(4096)
                if first.startswith(head) and first.endswith(tail + b'\n'):
                    return first + f.read()
    except FileNotFoundError:
        return None
    raise FileExistsError(17, 'it is there', path)


def put(path: str, octets: bytes) -> None:
    """writes a file as a whole or not at all"""
    new = os.path.join(os.path.dirname(path), '.%s.%d' % (os.path.basename(path), os.getpid()))
    try:
        with open(new, 'xb') as f:
            f.write(octets)
        os.replace(new, path)
    except OSError:
        if os.path.exists(new):
            os.remove(new)
        raise


def write_one(path: str, box: bytes, octets: bytes) -> str:
    """writes a box's log, and says what became of the file that stood there"""
    before = kept_before(path, box)
    if before == octets:
        return ', as it was'
    if before is not None:
        kept_before(path + '~', box)
        put(path + '~', before)  # somebody may have written into it
    put(path, octets)
    return ', made anew; the one before is %s~' % path if before is not None else ''


def write_all(site: Site, folder: str, source: str) -> int:
    """the logs of all boxes into a folder; how many stand there then"""
    made = 0
    try:
        os.makedirs(folder, exist_ok=True)
    except OSError as fault:
        ends.die('the folder %s cannot be made: %s' % (folder, fault.strerror))
    for box in in_order(site.boxes):
        path, octets = os.path.join(folder, file_of(box)), log_of(site, box, source)
        try:
            became = write_one(path, box, octets)
        except FileExistsError as fault:
            ends.say('%s: no log: %s is there and was not made from a capture of this box: move it away, or name another folder' % (text(box), fault.filename))
            continue
        except OSError as fault:
            ends.die('%s cannot be written: %s; %d of %d logs are there' % (path, fault.strerror, made, len(site.boxes)))
        made += 1
        ends.say('%s: %s: %s%s' % (text(box), counts(site.boxes[box]), path, became))
    ends.say('%d of %d logs are in %s' % (made, len(site.boxes), folder))
    return made


# ---- from the options to the logs

def gathered(name: str, ports: frozenset[int], wanted: frozenset[bytes]) -> Site:
    site = Site('standard input' if name == '-' else name, ports, wanted)
    try:
        if name == '-':
            ends.need_stdin()
            if sys.stdin.isatty():
                ends.die('standard input is a terminal: hand over a capture (tcpdump -s 0 -w - udp port 123 | ./drill --capture -)')
            site.read(sys.stdin.buffer)
            return site
        with open(name, 'rb') as f:
            if stat.S_ISDIR(os.fstat(f.fileno()).st_mode):
                raise IsADirectoryError(21, 'it is a folder')
            site.read(f)
    except packets.Damaged as fault:
        ends.die('%s cannot be used: %s%s' % (site.called, fault, '; `tcpdump -r FILE -w OTHER` keeps the whole packets' if 'whole packets' in str(fault) else ''))
    except OSError as fault:
        ends.die('%s cannot be read: %s' % (site.called, fault.strerror))
    return site


def refuse(site: Site, why: str) -> NoReturn:
    skipped = site.skipped()
    ends.die(why + ('; ' + skipped if skipped else '' if site.frames else '; it has no packet'))


def choose(site: Site, server: Optional[bytes], one: bool) -> None:
    """leaves the boxes that a log is made of, and of those that are named and have none says why"""
    if not site.asking:
        ports = ' or '.join(map(str, sorted(site.ports)))
        refuse(site, '%s has no NTP request (UDP to port %s, mode 3): there is nothing to make a log of' % (site.called, ports))
    if one and not site.wanted and len(site.asking) > 1:
        refuse(site, '%s has requests of %d boxes; name one with --box, or have a log of each with --all FOLDER: %s'
               % (site.called, len(site.asking), listed(site.asking)))
    missing = {box: 'no request of it is in %s' % site.called for box in in_order(site.wanted - site.asking)}
    missing.update((box, TOO_MANY % (MOST, text(box))) for box in site.too_many())
    for box in in_order(site.boxes) if server is not None else []:
        asked = ', '.join(map(str, sorted(site.boxes[box])))
        site.boxes[box] = {s: talk for s, talk in site.boxes[box].items() if s.address == server}
        if not site.boxes[box]:
            del site.boxes[box]
            missing[box] = 'it asks %s, and not %s' % (asked, text(server))
    if not site.boxes and not site.wanted & site.asking and site.wanted:
        refuse(site, '%s has no request of %s; it has those of %s' % (site.called, listed(site.wanted), listed(site.asking)))
    for box, why in missing.items():
        ends.say('%s: no log: %s' % (text(box), why))
    if not site.boxes:
        refuse(site, '%s gives no log' % site.called)


def main(name: str, boxes: Sequence[str] = (), server: Optional[str] = None, ports: Sequence[str] = (), folder: Optional[str] = None) -> int:
    wanted = frozenset(packed(box, '--box') for box in boxes)
    only = packed(server, '--server') if server is not None else None
    if folder is None and len(wanted) > 1:
        ends.die('--box names %d boxes: a log of each needs a folder (--all FOLDER)' % len(wanted))
    if folder is not None and (not folder or os.path.exists(folder) and not os.path.isdir(folder)):
        ends.die('--all %s is no folder: name one, which is made where there is none' % (folder or "''"))
    site = gathered(name, frozenset(map(port_of, ports)) or frozenset([PORT]), wanted)
    choose(site, only, folder is None)
    source, made = os.path.basename(site.called), 1
    if folder is None:
        ends.write(log_of(site, next(iter(site.boxes)), source))
    else:
        made = write_all(site, folder, source)
    skipped = site.skipped()
    if skipped:
        ends.say('%s: %s' % (site.called, skipped))
    return ends.ALL_ANSWERED if made else ends.FAILED
