"""What a log alone says that each call must answer. Written from docs/EMBEDDING.md, docs/PROMISES.md and the RFCs, over the log's own lines: it keeps no record of an
association, but looks back over what was sent and what came. V3 and V4 only; a packet of another version is handed to `reply5` and is expected by no one here."""
from typing import Any, Collection, Iterable, List, Optional, Sequence, Tuple

KISSES = {b'RATE': 5, b'DENY': 6, b'RSTR': 6, b'NTSN': 8}
SLOTS, SLOT_BYTES = 8, 724
Walk = Tuple[List[Tuple[int, int, bytes]], int]  # fields as (place, type, body), and the place behind them


def fields(packet: bytes, at: int = 48, least: int = 16, tail: int = 24) -> Optional[Walk]:
    """RFC 7822: the extension fields as (place, type, body), and the place behind them; None where one is broken. A tail of up to 24 bytes is a MAC."""
    found = []
    while len(packet) - at > tail:
        length = int.from_bytes(packet[at + 2:at + 4], 'big')
        if len(packet) - at < 4 or length % 4 or length < least or length > len(packet) - at:
            return None
        found.append((at, int.from_bytes(packet[at:at + 2], 'big'), packet[at + 4:at + length]))
        at += length
    return found, at


def cookies(text: bytes) -> List[bytes]:
    """RFC 8915, 5.4: the cookies among decrypted fields"""
    walked = fields(text, 0, 4, 0)
    return [body for _, kind, body in walked[0] if kind == 0x0204] if walked else []


class Poll:
    """A poll that was sent: identifiers, the last moment at which a reply may come, the exponent, and when it was measured."""

    def __init__(self, ident: bytes, uid: bytes, deadline: int, poll: int) -> None:
        self.ident, self.uid, self.deadline, self.poll, self.measured = ident, uid, deadline, poll, False


class Log:
    """The log of one association since its `new`."""

    def __init__(self, minimum: int, maximum: int, startup: int, window: int, start: str, nts: bool, source: int, first_cookies: Sequence[bytes],
                 capacity: int = SLOTS) -> None:
        self.min, self.max, self.startup, self.window, self.nts, self.source = minimum, maximum, startup, window, nts, source
        self.start, self.capacity = start, capacity
        self.polls: List[Poll] = []
        self.matched: List[Tuple[str, Any]] = []
        self.cookies: List[bytes] = []
        self.store(first_cookies)

    def store(self, more: Iterable[bytes]) -> None:
        """keeps the newest cookies; how many of the oldest did not fit, and their bytes, in the drill's words"""
        every = self.cookies + list(more) if self.nts else []
        gone, self.cookies = every[:-self.capacity], every[-self.capacity:]
        self.dropped = 'dropped=%d lost=%d' % (len(gone), sum(map(len, gone)))

    # ---- what the log says of the moment

    def reached(self) -> bool:
        """whether one of the last eight polls was answered"""
        return any(p.measured for p in self.polls[-8:])

    def unanswered(self) -> int:
        """how many polls were sent since the last that was answered, up to 8"""
        n = 0
        while n < 8 and n < len(self.polls) and not self.polls[-1 - n].measured:
            n += 1
        return n if n < len(self.polls) else 8

    def denied(self) -> bool:
        """whether a denial came and nothing was measured since"""
        for what, number in reversed(self.matched):
            if what == 'reply' and number == 0:
                return False
            if what == 'reply' and number == 6:
                return True
        return False

    def version(self) -> str:
        """the version in use: the start version, V4 or upgraded, until the fallback"""
        return 'v4' if ('fallback', None) in self.matched else self.start

    def remote(self) -> int:
        """the least exponent that the server asks for: one more with each RATE, up to the limit, and not below the last poll"""
        least = self.min
        for what, said in self.matched:
            if what == 'rate':
                least = max(min(least + 1, self.max), said)
        return least

    # ---- what is expected

    def timer(self, now: int, desired: int, ident: bytes, uid: bytes) -> str:
        """the timer's answer in the drill's words"""
        if not self.reached() and len(self.polls) >= self.startup:
            return 'timer 22' if self.denied() else 'timer 21'
        if self.version() == 'upgraded' and self.unanswered() >= 2:
            self.matched.append(('fallback', None))
        cookie, asked = b'', 0
        if self.nts:
            if not self.cookies:
                return 'timer 23'
            cookie = self.cookies.pop(0)
            asked = min(self.capacity - len(self.cookies), SLOT_BYTES // max(len(cookie), 1))
        poll = max(desired, self.remote())
        kind = {'v4': 'v4', 'upgraded': 'v5'}[self.version()]
        self.polls.append(Poll(ident, uid, now + self.window, poll))
        return 'timer 20 send=%s poll=%d cookie=%s asked=%d' % ('nts-' + kind if self.nts else kind, poll, cookie.hex() or '-', asked)

    def not_live(self, now: int) -> int:
        """why a reply has no live request (RULES, No. 3): no poll was sent, the last one is measured, or its deadline is before now; else 0"""
        if not self.polls:
            return 12
        return 13 if self.polls[-1].measured else 14 if self.polls[-1].deadline < now else 0

    def identified(self, walked: Walk, inner: Walk, end: int, uid: bytes, ntsn: bool) -> bool:
        """RFC 8915, 5.3, and part 8: the unique identifier where it is authenticated, or anywhere in an NTSN kiss"""
        parts = [[f for f in walked[0] if f[0] < end], inner[0]] + ([[f for f in walked[0] if f[0] >= end]] if ntsn else [])
        bodies = [body[:32] for part in parts for _, kind, body in part if kind == 0x0104]
        return bool(bodies) and all(b == uid for b in bodies)

    def reply(self, packet: bytes, end: int, text: bytes, new_cookies: Sequence[bytes], now: int) -> int:
        """the number of a packet, in the order of the rules"""
        version = packet[0] >> 3 & 7 if packet else 0
        if len(packet) < 48 or version not in (3, 4):
            return 1
        walked = fields(packet) if version == 4 else ([], 48)
        inner = fields(text, 0, 4, 0) if self.nts else ([], 0)
        if walked is None or inner is None or end not in [at for at, _, _ in walked[0]] + [walked[1]]:
            return 1
        if version not in {'v4': (3, 4), 'upgraded': (5,)}[self.version()]:
            return 2
        if self.not_live(now):
            return self.not_live(now)
        poll = self.polls[-1]
        stratum, reference = packet[1], packet[12:16]
        kiss = KISSES.get(reference, 9) if stratum == 0 else 0
        if packet[24:32] != poll.ident or (self.nts and not self.identified(walked, inner, end, poll.uid, kiss == 8)):
            return 4
        if kiss == 5:
            self.matched.append(('rate', poll.poll))
            return 5
        if kiss:
            number = 7 if kiss == 6 and self.nts else kiss
        elif stratum > 16:
            number = 10
        elif packet[0] & 7 != 4:
            number = 11
        else:
            number = 0
            poll.measured = True
            self.store(new_cookies)
        self.matched.append(('reply', number))
        self.stratum = stratum if number == 0 else getattr(self, 'stratum', 16)
        return number

    def reply5(self, now: int) -> int:
        """a reply of version 5, which nobody waits for unless the association is upgraded: then it has the wrong cookie"""
        if self.version() != 'upgraded':
            return 2
        return self.not_live(now) or 4

    def accept(self, stratum: int, local: Collection[int]) -> int:
        last = getattr(self, 'stratum', 16)
        if last >= stratum:
            return 40
        if last != 1 and self.source in local:
            return 41
        return 0 if self.reached() else 42


def wrapped(n: int) -> int:
    """a difference of timestamps, read as signed"""
    n %= 2**64
    return n - 2**64 if n >= 2**63 else n


def held(n: int) -> int:
    return max(-2**63, min(2**63 - 1, n))


def half(n: int) -> int:
    return -(-n // 2) if n < 0 else n // 2


def measurement(packet: bytes, t1: int, t4: int, now: int) -> str:
    """RFC 5905, section 8, with halves cut toward zero: the drill's words for a measured reply"""
    t2, t3 = int.from_bytes(packet[32:40], 'big'), int.from_bytes(packet[40:48], 'big')
    precision = packet[3] - 256 if packet[3] > 127 else packet[3]
    return ('delay=%d offset=%d local=%d mono=%d stratum=%d rootdelay=%d rootdisp=%d leap=%d precision=%d'
            % (held(wrapped(t4 - t1) - wrapped(t3 - t2)), half(held(wrapped(t2 - t1) + wrapped(t3 - t4))), (t1 + half(wrapped(t4 - t1))) % 2**64, now, packet[1],
               int.from_bytes(packet[4:8], 'big') << 16, int.from_bytes(packet[8:12], 'big') << 16, (0, 1, 2, 4)[packet[0] >> 6], precision))
