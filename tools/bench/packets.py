"""Captures, frame by frame: pcap and pcapng as tcpdump and Wireshark write them, from a file or a stream, with nothing but the standard library.

`frames` gives the frames of a capture, `udp_in` the UDP packet inside a frame, whatever it is wrapped in. Where there is none to be had, `Skipped` says why."""
import struct
from typing import Any, BinaryIO, Callable, Iterator, NamedTuple, Optional

LARGEST = 16 * 2**20    # bytes of one block; more is damage
NO_TIME = -1


class Damaged(Exception):
    """the file is no whole capture"""


class Frame(NamedTuple):
    at: int             # nanoseconds since 1970, or NO_TIME
    link: int           # the link type, as pcap files number them
    octets: bytes
    cut: bool           # the capture kept fewer bytes than the frame had
    interface: int      # of pcapng, which one it was seen at


class Udp(NamedTuple):
    source: bytes
    target: bytes
    from_port: int
    to_port: int
    octets: bytes       # what it carries
    way: tuple          # where it was seen, and in which wrapping


class Skipped(Exception):
    """why a frame gives no NTP packet: a key of REASONS in capture.py, and what is known beside it"""

    def __init__(self, why: str, what: object = None) -> None:
        super().__init__(why, what)
        self.why, self.what = why, what


# ---- files

class Reader:
    def __init__(self, f: BinaryIO) -> None:
        self.f, self.at, self.frames = f, 0, 0

    def take(self, n: int, what: str, end_is_fine: bool = False) -> Optional[bytes]:
        octets = self.f.read(n)
        if len(octets) < n:
            if end_is_fine and not octets:
                return None
            raise Damaged('it is cut off in %s at byte %d, behind %d whole packets' % (what, self.at + len(octets), self.frames))
        self.at += n
        return octets


MAGIC = {b'\xa1\xb2\xc3\xd4': ('>', 1000), b'\xd4\xc3\xb2\xa1': ('<', 1000), b'\xa1\xb2\x3c\x4d': ('>', 1), b'\x4d\x3c\xb2\xa1': ('<', 1)}


def pcap(r: Reader, order: str, unit: int) -> Iterator[Frame]:
    link = struct.unpack(order + 'HHIIII', r.take(20, 'the head'))[5] & 0xffff
    while True:
        head = r.take(16, 'a packet\'s head', True)
        if head is None:
            return
        seconds, part, held, had = struct.unpack(order + 'IIII', head)
        if held > LARGEST:
            raise Damaged('the packet at byte %d says that it has %d bytes' % (r.at - 16, held))
        octets = r.take(held, 'a packet')
        r.frames += 1
        yield Frame(seconds * 10**9 + part * unit, link, octets, had > held, 0)


class Interface(NamedTuple):
    link: int
    units: int          # of a second, that its clock counts
    offset: int         # seconds that its clock begins behind 1970


def interface(body: bytes, order: str) -> Interface:
    units, offset, at = 10**6, 0, 8
    while at + 4 <= len(body):
        code, n = struct.unpack(order + 'HH', body[at:at + 4])
        value = body[at + 4:at + 4 + n]
        if code == 0:
            break
        if code == 9 and len(value) >= 1:
            units = 2**(value[0] & 127) if value[0] & 128 else 10**value[0]
        if code == 14 and len(value) == 8:
            offset = struct.unpack(order + 'q', value)[0]
        at += 4 + n + -n % 4
    return Interface(struct.unpack(order + 'H', body[:2])[0], units, offset)


def pcapng(r: Reader) -> Iterator[Frame]:
    order = '<'
    known: list[Interface] = []
    head = b'\x0a\x0d\x0d\x0a' + r.take(4, 'the head')
    while True:
        kind = struct.unpack(order + 'I', head[:4])[0]
        if head[:4] == b'\x0a\x0d\x0d\x0a':
            mark = r.take(4, 'a section\'s head')
            if mark not in (b'\x1a\x2b\x3c\x4d', b'\x4d\x3c\x2b\x1a'):
                raise Damaged('the section at byte %d has no byte order' % (r.at - 12))
            order, known = '>' if mark == b'\x1a\x2b\x3c\x4d' else '<', []
            rest = 16
        else:
            rest = 12
        length = struct.unpack(order + 'I', head[4:])[0]
        if length < rest or length % 4 or length > LARGEST:
            raise Damaged('the block at byte %d says that it has %d bytes' % (r.at - 8, length))
        body = r.take(length - rest, 'a block')
        if struct.unpack(order + 'I', r.take(4, 'a block'))[0] != length:
            raise Damaged('the block that ends at byte %d has two lengths' % r.at)
        if kind == 1 and len(body) >= 8:
            known.append(interface(body, order))
        elif kind in (2, 6) and len(body) >= 20:  # 2 is the form of before
            which, high, low, held, had = struct.unpack(order + ('IIIII' if kind == 6 else 'HxxIIII'), body[:20])
            if which >= len(known) or held > len(body) - 20:
                raise Damaged('the packet that ends at byte %d is not whole' % r.at)
            seen = known[which]
            r.frames += 1
            yield Frame((high << 32 | low) * 10**9 // seen.units + seen.offset * 10**9, seen.link, body[20:20 + held], had > held, which)
        elif kind == 3 and known:
            r.frames += 1
            yield Frame(NO_TIME, known[0].link, b'', False, 0)  # the simple form has none
        head = r.take(8, 'a block\'s head', True)
        if head is None:
            return


def frames(f: BinaryIO) -> Iterator[Frame]:
    r = Reader(f)
    magic = f.read(4)
    r.at = len(magic)
    if not magic:
        raise Damaged('it is empty')
    if magic in MAGIC:
        yield from pcap(r, *MAGIC[magic])
    elif magic == b'\x0a\x0d\x0d\x0a':
        yield from pcapng(r)
    else:
        raise Damaged('it is no capture: it begins with %s, and neither pcap nor pcapng does' % magic.hex())


# ---- frames: the IP inside

IP, PPP = 'IP', 'PPP'  # beside the EtherTypes: IP by its first four bits, and PPP's own numbers behind here
IPV4, IPV6, PPPOE, MPLS = 0x0800, 0x86dd, 0x8864, (0x8847, 0x8848)
VLAN = (0x8100, 0x88a8, 0x9100, 0x9200)
IN_PPP = {0x21: IPV4, 0x57: IPV6, 0x281: MPLS[0], 0x283: MPLS[1]}
ANY = (113, 276)
SNAP = b'\xaa\xaa\x03\0\0\0'


def u16(b: bytes, at: int) -> int:
    return b[at] << 8 | b[at + 1]


def behind(b: bytes, at: int, mark: bytes) -> int:
    return at + len(mark) if b.startswith(mark, at) else at


# A link type: what its first head says that follows, and where that begins.
LINKS: dict[int, Callable[[bytes], tuple[Any, int]]] = {
    1: lambda b: (u16(b, 12), 14),                                               # Ethernet
    **dict.fromkeys((12, 14, 101, 228, 229), lambda b: (IP, 0)),                 # raw IP
    **dict.fromkeys((0, 108), lambda b: (IP, 4)),                                # loopback of BSD
    113: lambda b: (u16(b, 14), 16),                                             # Linux, any interface
    276: lambda b: (u16(b, 0), 20),                                              # the same, second form
    9: lambda b: (PPP, behind(b, 0, b'\xff\x03')),
    50: lambda b: (u16(b, 2), 4) if b[0] in (0x0f, 0x8f) else (PPP, behind(b, 0, b'\xff\x03')),  # PPP or Cisco's HDLC on a serial line
    51: lambda b: (PPPOE, 0),
    104: lambda b: (u16(b, 2), 4),                                               # Cisco's HDLC
    166: lambda b: (PPP, 2),                                                     # pppd: its direction stands for ff
    204: lambda b: (PPP, behind(b, 1, b'\xff\x03')),                             # PPP behind its direction
    219: lambda b: (MPLS[0], 0),
}


def ip_in(frame: Frame) -> tuple[bytes, tuple]:
    """the IP packet in a frame, and the way to it"""
    b = frame.octets
    if frame.link not in LINKS:
        raise Skipped('link', frame.link)
    try:
        kind, at = LINKS[frame.link](b)
        # Two views of one packet differ in this; what comes twice does not. The second form of "any" says at which interface.
        way = [frame.interface, b[4:8] if frame.link == ANY[1] else b'', kind]
        while kind not in (IP, IPV4, IPV6):
            if kind in VLAN:
                way.append(u16(b, at) & 0xfff)
                kind, at = u16(b, at + 2), at + 4
            elif kind == PPPOE:
                kind, at = PPP, at + 6
            elif kind in MPLS:
                while not b[at + 2] & 1:  # until the stack's last label
                    at += 4
                kind, at = IP, at + 4
            elif kind == PPP:
                said, size = (b[at], 1) if b[at] & 1 else (u16(b, at), 2)  # a number whose first byte is odd has one byte
                if said not in IN_PPP:
                    raise Skipped('ip', 'PPP 0x%04x' % said)
                kind, at = IN_PPP[said], at + size
            elif kind < 0x600 and b.startswith(SNAP, at):
                kind, at = u16(b, at + 6), at + 8
            else:
                raise Skipped('ip', '0x%04x' % kind)
            way.append(kind)
        # Of two tags Linux "any" keeps the outer, and then says what stands behind the inner one, which is still there.
        if frame.link in ANY and {IPV4: 4, IPV6: 6}.get(u16(b, at + 2)) == b[at + 4] >> 4:
            way.append(u16(b, at) & 0xfff)
            at += 4
        if b[at] >> 4 not in (4, 6):
            raise Skipped('ip')
    except IndexError:
        raise Skipped('cut' if frame.cut else 'ip') from None
    return b[at:], tuple(way)


# ---- IP: the UDP inside

UDP, AH, FRAGMENT = 17, 51, 44
OPTIONS = (0, 43, 60)  # heads of IPv6 that stand before what is carried, and say their own length


def body_of(b: bytes) -> tuple[int, int, Optional[int], bool, bool]:
    """of an IP packet: the protocol that it carries, where that begins, where it ends if the packet says so, whether it is a fragment, and whether the first"""
    if b[0] >> 4 == 4:
        if len(b) < 20:
            raise IndexError
        head, total, part = (b[0] & 15) * 4, u16(b, 2), u16(b, 6)
        if head < 20 or 0 < total < head:
            raise Skipped('damaged')
        return b[9], head, total or None, bool(part & 0x3fff), not part & 0x1fff
    if len(b) < 40:
        raise IndexError
    kind, at, total = b[6], 40, u16(b, 4)
    end = 40 + total if total else None
    while kind in OPTIONS or kind in (AH, FRAGMENT):
        part = u16(b, at + 2) if kind == FRAGMENT else 0
        if part & 0xfff9:
            return b[at], at + 8, end, True, not part & 0xfff8
        size = 8 if kind == FRAGMENT else (b[at + 1] + 2) * 4 if kind == AH else (b[at + 1] + 1) * 8
        kind, at = b[at], at + size
    return kind, at, end, False, True


def udp_in(frame: Frame, ports: frozenset[int]) -> Udp:
    """the UDP packet in a frame, from or to one of the ports"""
    b, way = ip_in(frame)
    try:
        kind, at, end, fragment, first = body_of(b)
        if kind != UDP:
            raise Skipped('udp')
        if not first:
            raise Skipped('fragment')  # its ports are not in it
        from_port, to_port, length = u16(b, at), u16(b, at + 2), u16(b, at + 4)
    except IndexError:
        raise Skipped('cut') from None
    last = at + length if length else end or len(b)
    octets = b[at + 8:last]
    if not ports & {from_port, to_port}:
        raise Skipped('port', to_port if len(octets) >= 48 and octets[0] >> 3 & 7 in (3, 4, 5) and octets[0] & 7 == 3 else None)
    if fragment:
        raise Skipped('fragment')
    if last < at + 8 or end and last > end:
        raise Skipped('damaged')
    if last > len(b):
        raise Skipped('cut')
    places = (b[12:16], b[16:20]) if b[0] >> 4 == 4 else (b[8:24], b[24:40])
    return Udp(*places, from_port, to_port, octets, way)
