"""Random logs in the drill's language, without bad lines. What a reply has to bring back is taken from a record that tools/reference keeps beside, so that every number
comes up; the expected answers are not taken from here, but from the drill."""
import random
from typing import Iterator, List, Tuple

import harness

NAMES = (b'RATE', b'DENY', b'RSTR', b'NTSN', b'STEP')
MAX64 = 2**64 - 1
Octets = bytes  # of which the class below has a method


def hexed(b: bytes) -> str:
    return b.hex() or '-'


class Logs:
    def __init__(self, seed: int) -> None:
        self.rng, self.model = random.Random(seed), harness.script('tools/reference')
        self.record, self.now, self.cookie, self.file = self.model.Record(), 0, b'', b''

    def bytes(self, n: int) -> Octets:
        return self.rng.getrandbits(8 * n).to_bytes(n, 'big') if n else b''

    def field(self, kind: int, body: Octets) -> Octets:
        return kind.to_bytes(2, 'big') + (4 + len(body)).to_bytes(2, 'big') + body

    def cookie_of(self) -> Octets:
        n = self.rng.choice((0, 1, 4, 20, 100, 100, 100, 104, 723, 724, 725, 1000) if self.rng.random() < 0.2 else (96, 100, 104, 180))
        return self.bytes(n)

    def list(self, longest: int = 1000) -> Octets:
        found = b''
        for _ in range(self.rng.choice((0, 1, 1, 2, 7, 8, 9, 12))):
            cookie = self.cookie_of()[:longest]
            if len(found) + 4 + len(cookie) <= 4000:
                found += b'\xc0\x0e' + len(cookie).to_bytes(2, 'big') + cookie
        if self.rng.random() < 0.04:  # broken, but where the cut is between two cookies
            found = found[:self.rng.randrange(len(found) + 1)] + self.bytes(self.rng.randrange(5))
        return found

    # ---- commands

    def new(self, word: str = 'new') -> str:
        """the keys of `new`, which are those of `metered` and `profile`; for these two they mostly meet the metered profile"""
        rng, metered = self.rng, word != 'new'
        low = rng.choice((8, 8, 8, 10, 7) if metered else (0, 4, 4, 6))
        good = rng.random() < 0.95
        start = rng.choice(('v4', 'v4', 'upgraded', 'v5')) if rng.random() < 0.93 else rng.choice(('upgrading:8', 'upgrading:1', 'upgrading:0', 'upgrading:255'))
        nts = rng.random() < 0.6
        if word != 'profile':
            self.now = rng.choice((0, rng.randrange(10**12), MAX64 - 10**10))
        capacity = rng.choice((1, 2, 2, 3, 4, 4, 5, 6, 7)) if good else rng.choice((0, 9, 255, 8))
        return word + ' min=%d max=%d startup=%d window=%d mark=%s start=%s nts=%s source=%08x list=%s%s' % (
            low if good else rng.choice((-128, -1, 18, low)), rng.choice((low, max(low, 10), 17)) if good else rng.choice((18, 127, -1, 10)),
            rng.choice((1, 3, 3, 3, 4) if metered else (1, 3, 8)) if good else rng.choice((0, 9, 255, 3)), rng.choice((1, 5 * 10**9, 60 * 10**9)) if good else rng.choice((0, 60 * 10**9 + 1, MAX64)),
            '4e54503544524654', start, 'yes' if nts else 'no', rng.choice((0, 1, 0x7f000001, 0xffffffff)), hexed(self.list(100 if metered and rng.random() < 0.7 else 1000)),
            rng.choice(('', '', ' capacity=8', ' capacity=%d' % capacity, ' capacity=%d' % capacity)))

    def timer(self) -> str:
        rng = self.rng
        self.now = min(self.now + rng.choice((0, 1, rng.randrange(10**9), rng.randrange(10**11))), MAX64)
        return 'timer now=%d desired=%d id=%s uid=%s room=%d' % (self.now, rng.choice((4, 6, 10, rng.randint(-128, 127))), self.bytes(8).hex(),
                                                               rng.choice((self.bytes(32).hex(), '-')), rng.choice((1024,) * 8 + (724, 723, 0)))

    def packet(self) -> Tuple[Octets, int, Octets]:
        rng, a = self.rng, self.record
        version = rng.choice((4,) * 16 + (3, 3, rng.randrange(8)))
        head = bytearray(self.bytes(48))
        head[0] = rng.randrange(4) << 6 | version << 3 | (4 if rng.random() < 0.9 else rng.randrange(8))
        head[1] = rng.choice((1, 2, 2, 3, 3, 15, 16, 17, 255, 0))
        if head[1] == 0 or rng.random() < 0.1:
            head[12:16] = rng.choice(NAMES)
        if rng.random() < 0.15:
            head[16:24] = bytes.fromhex('4e54503544524654')
        if rng.random() < 0.85:
            head[24:32] = a.id.to_bytes(8, 'big')
        packet, places, plain = bytes(head), [48], b''
        uid = a.uid if rng.random() < 0.9 else self.bytes(32)
        for _ in range(rng.choice((0, 1, 1, 2, 3))):
            packet += self.field(*rng.choice(((0x0104, uid), (0x0104, uid + self.bytes(4)), (0x0104, self.bytes(28)), (0x0304, self.bytes(100)), (0x1234, self.bytes(rng.choice((12, 24)))))))
            places.append(len(packet))
        if rng.random() < 0.15:
            packet += self.bytes(rng.choice((4, 20, 24, 24, 20, 25, 28)))
        for _ in range(rng.choice((0, 0, 1, 1, 2, 3))):
            plain += self.field(*rng.choice(((0x0204, self.bytes(4 * rng.randrange(60))), (0x0204, self.bytes(100)), (0x0104, uid), (0x0304, self.bytes(8)))))
        if rng.random() < 0.05:
            packet = packet[:rng.randrange(len(packet) + 1)]
        if rng.random() < 0.05:
            plain += self.bytes(rng.randrange(6))
        end = (48 if version == 3 else rng.choice(places + [places[-1]] * 4)) if rng.random() < 0.95 else rng.choice((0, 1, 52, len(packet), MAX64))
        return packet, end, plain[:4000]

    def arrival(self) -> Tuple[int, int, int]:
        rng, a = self.rng, self.record
        at = rng.choice((self.now,) * 6 + (self.now + 1, a.deadline, a.deadline, a.deadline + 1, max(a.deadline, 1) - 1, rng.randrange(2**64)))
        t1 = rng.choice((rng.randrange(2**64), 0, MAX64, 2**63))
        return min(at, MAX64), t1, rng.choice(((t1 + rng.randrange(2**33)) % 2**64, rng.randrange(2**64), t1))

    def reply(self) -> str:
        packet, end, plain = self.packet()
        listed = 'collect' if self.rng.random() < 0.6 else hexed(self.list())
        return 'reply now=%d t1=%d t4=%d' % self.arrival() + ' packet=%s auth=%d plain=%s list=%s' % (hexed(packet), end, hexed(plain), listed)

    def reply5(self) -> str:
        rng, a = self.rng, self.record
        kiss = ','.join(k for k in ('rate', 'deny', 'rstr', 'ntsn', 'any') if rng.random() < 0.06) or '-'
        group = lambda: rng.choice(('absent', 'agree', 'agree', 'disagree'))
        whole = lambda: rng.choice((0, rng.randrange(-2**63, 2**63), -2**63, 2**63 - 1))
        return 'reply5 now=%d t1=%d t4=%d' % self.arrival() + (
            ' leap=%d mode=%s stratum=%d poll=%d precision=%d rootdelay=%d rootdisp=%d receive=%d transmit=%d cookie=%016x kiss=%s auth=%s enc=%s untrusted=%s list=%s'
            % (rng.randrange(5), '4' if rng.random() < 0.9 else '3', rng.choice((0, 1, 2, 16, 17, 255)), rng.randint(-128, 127) if rng.random() < 0.2 else 6,
               rng.randint(-128, 127), whole(), whole(), rng.randrange(2**64), rng.randrange(2**64), a.id if rng.random() < 0.9 else rng.randrange(2**64), kiss, group(),
               group(), group(), hexed(self.list())))

    def accept(self) -> str:
        rng, a = self.rng, self.record
        local = rng.choice(('-', '%08x' % a.source, '00000001,%08x,00000003' % a.source, '00000002'))
        return 'accept stratum=%d local=%s bloom=%s' % (rng.choice((1, 2, 3, 16, 17, 255, rng.randrange(256))), local, rng.choice(('none', 'none', 'absent', 'present')))

    def collect(self) -> str:
        return 'collect plain=%s room=%d' % (hexed(self.packet()[2]), self.rng.choice((4096, 4096, 0, 100, 104, self.rng.randrange(300))))

    def request(self) -> str:
        rng = self.rng
        cookie = self.cookie if rng.random() < 0.5 else self.cookie_of()
        return 'request kind=%s poll=%d id=%s mark=%s uid=%s cookie=%s asked=%d room=%d' % (
            rng.choice(('v4', 'v4-upgrade', 'v5', 'nts-v4', 'nts-v4', 'nts-v4', 'nts-v5')), rng.randint(-128, 127), self.bytes(8).hex(), self.bytes(8).hex(), self.bytes(32).hex(),
            hexed(cookie), rng.choice((0, 1, 3, 7, 8, 9, rng.randrange(256))), rng.choice((6144, 6144, 852, 47, 48, rng.randrange(1000))))

    def salvage(self) -> str:
        rng, damaged = self.rng, self.list()
        for _ in range(rng.choice((0, 1, 1, 3, 40))):  # bytes lost, changed or put in
            at = rng.randrange(len(damaged) + 1)
            damaged = damaged[:at] + rng.choice((b'', b'\xc0', b'\xc0\x0e', self.bytes(1))) + damaged[at + rng.randrange(2):]
        damaged = damaged[:4096]
        return 'salvage list=%s room=%d' % (hexed(damaged), rng.choice((4096, len(damaged), max(len(damaged) - 1, 0))))

    def repeats(self) -> List[int]:
        """mostly ones that divide 1440, the small ones more often: they crowd the day"""
        rng = self.rng
        few = (1, 2, 3, 4, 5, 6, 8, 9, 10, 12, 15, 16, 20, 60)
        count = rng.choice((0, 64, 65, 128)) if rng.random() < 0.1 else rng.randrange(1, 12)
        some = [rng.choice(few + (24, 30, 90, 144, 720, 1440)) if rng.random() < 0.99 else rng.choice((0, 7, 1441, 2880, 65535)) for _ in range(count)]
        return [rng.choice((60, 720, 1440)) for _ in some] if count > 60 and rng.random() < 0.5 else some

    def calendar(self) -> str:
        rng = self.rng
        entries = ['%d/%d' % (rng.randrange(r) if r and rng.random() < 0.99 else rng.choice((r, 1440, 65535)), r) for r in self.repeats()]
        return 'calendar cap=%d entries=%s' % (rng.choice((0, 1, 1, 2, 3, 5, 64, 255)), ','.join(entries) or '-')

    def plan(self) -> str:
        return 'plan cap=%d repeats=%s' % (self.rng.choice((0, 1, 1, 2, 3, 5, 64, 255)), ','.join(map(str, self.repeats())) or '-')

    def poke(self) -> str:
        rng = self.rng
        key = rng.choice(('reach', 'tries', 'last', 'remote', 'stratum', 'refid', 'read', 'held', 'min', 'max', 'startup', 'window', 'id', 'uid', 'deadline', 'answered', 'unanswered', 'capacity',
                          'slotbyte', 'version', 'version', 'start'))
        value = {
            'reach': rng.randrange(256), 'tries': rng.choice((0, 1, 3, 254, 255)), 'last': rng.randint(-128, 127), 'remote': rng.choice((4, 127, -128, 6)),
            'stratum': rng.randrange(256), 'refid': '%08x' % rng.getrandbits(32), 'read': rng.choice((0, 1, 7, 8, MAX64)), 'held': rng.choice((0, 1, 8, 9, MAX64)),
            'min': rng.choice((4, -1, 0)), 'max': rng.choice((10, 17, 18)), 'startup': rng.choice((0, 3, 8, 9)), 'window': rng.choice((0, 1, 5 * 10**9, 60 * 10**9 + 1)),
            'id': self.bytes(8).hex(), 'uid': self.bytes(32).hex(), 'deadline': rng.choice((0, self.now, MAX64)), 'answered': rng.randrange(2), 'unanswered': rng.choice((0, 1, 2, 7, 8, 9, 255)),
            'capacity': rng.choice((0, 1, 2, 4, 8, 9, 255)),
            'version': rng.choice(('v4', 'upgraded', 'v5', 'upgrading:0', 'upgrading:8')), 'start': rng.choice(('v4', 'upgraded', 'v5', 'upgrading:255')),
            'slotbyte': '%d/%d/%d' % (rng.randrange(8), rng.randrange(724), rng.choice((0, 1, 255))),
        }[key]
        return 'poke key=%s value=%s' % (key, value)

    def unanswered(self) -> str:
        """behind a reach that was set by hand: the number that goes with it, so that the record is whole again"""
        return 'poke key=unanswered value=%d' % self.model.unanswered(self.record.reach)

    def save(self) -> str:
        length = len(self.model.handover(self.record)) if self.record.whole() else 64
        return 'save room=%d' % self.rng.choice((8192, 8192, 5872, length, length - 1, 0))

    def load(self) -> str:
        """the last file that was written, at times as an old one, without the capacity or with a version that is retired or upgraded, and at times with a byte of it
        changed or its end cut"""
        rng, f = self.rng, self.file
        for at in (23, len(f) - 18):  # the start version, and the version
            if f and rng.random() < 0.2:
                f = f[:at] + rng.choice((b'\x01\x08', b'\x01\x00', b'\x02\x00')) + f[at + 2:]
        if f and rng.random() < 0.2:
            f = f[:3] + b'\x1a' + f[4:30] + f[31:]
        if f and rng.random() < 0.4:
            at = rng.randrange(len(f))
            f = rng.choice((f[:at] + self.bytes(1) + f[at + 1:], f[:at], f + self.bytes(1), f[:4] + self.bytes(1) + f[5:], b'S' + f[:at]))
        return 'load file=' + hexed(f)

    def compare(self) -> str:
        """the last file that was written and the file of the record as it is, one of them damaged at times"""
        rng = self.rng
        now = self.model.handover(self.record) if self.record.whole() else self.file
        pair = [self.file, rng.choice((now, now, self.file))]
        if rng.random() < 0.3:
            k = rng.randrange(2)
            at = rng.randrange(len(pair[k]))
            pair[k] = rng.choice((pair[k][:at] + self.bytes(1) + pair[k][at + 1:], pair[k][:at], pair[k] + self.bytes(1)))
        rng.shuffle(pair)
        return 'compare left=%s right=%s room=%d' % (hexed(pair[0]), hexed(pair[1]), rng.choice((4096, 494, 494, rng.randrange(100))))

    # ---- a log

    def steps(self, count: int) -> Iterator[str]:
        """lines of so many steps, each with what it leaves shown behind it; the first is a `new` or a `metered`"""
        rng, left = self.rng, 0
        for _ in range(count):
            if left == 0:
                left = rng.choice((10, 30, 60))
                line = self.new(rng.choice(('new', 'new', 'metered')))
            else:
                line = rng.choice((self.timer,) * 5 + (self.reply,) * 9 + (self.reply5,) * (8 if self.record.version[0] in ('upgraded', 'v5') else 1)
                                  + (self.accept,) * 2 + (self.collect, self.request, self.salvage, self.calendar, self.plan, lambda: self.new('profile'), self.save)
                                  + ((self.load, self.compare) if self.file else ()))()
                if rng.random() < 0.02:
                    line = rng.choice((self.poke, self.poke, self.poke, lambda: 'blank'))()
                elif self.record.version[0] == 'upgraded' and self.record.unanswered >= 2 and rng.random() < 0.7:
                    line = 'poke key=reach value=%d' % (rng.randrange(256) | 1)  # as a load may bring it: else it falls back with its first poll
                elif self.record.unanswered != self.model.unanswered(self.record.reach) and rng.random() < 0.4:
                    line = self.unanswered()
            left -= 1
            self.record, said = self.model.answer(self.record, line)
            if said.startswith('timer 20'):
                self.cookie = self.model.octets(said.split('cookie=')[1].split(' ')[0])
            if said.startswith('save 0 '):
                self.file = bytes.fromhex(said.rsplit('=', 1)[1])
            if not self.record.whole() and rng.random() < 0.3:
                left = 0  # no call makes such a record whole: begin anew soon
            yield line
            yield 'show'
            if self.record.nts and rng.random() < 0.5:
                yield 'cookies'
