"""Made logs whose end is known. `Log` writes what a box lived through, line by line, and notes what each line has to be answered with; a story below is such a life, and
says itself what became of the box. Nothing here asks the scripts that are tested: the numbers are held to tools/reference, the truth is the story's."""
import random
import struct
from collections.abc import Callable, Iterator
from typing import Any

DAY = 46339 * 86400      # 2026-11-15 in seconds since 1900
MARK = '4e54503544524654'
UID = bytes([0x41] * 32)
HALF_WAY = 0.02          # seconds from the box to its server, and back


class Log:
    """a box whose uptime is `at` seconds when its log begins. It was switched on at `on` seconds of the day, and its own clock is `slow` seconds behind the true time"""

    def __init__(self, at: float = 300, slow: float = 0.25, on: float = 5 * 3600, source: str = '192.0.2.1', people: bool = True) -> None:
        self.at, self.slow, self.on, self.source, self.people = at, slow, on, source, people
        self.lines: list[str] = []
        self.numbers: list[tuple[str, int | None]] = []   # what each line has to be answered with
        self.asked = at
        self.ident = 0
        self.nts = False
        self.counts = dict(sent=0, answered=0, late=0, foreign=0)
        self.first: float | None = None                    # the first and the last offset, and the tick of the last measured reply, in seconds
        self.last: float | None = None
        self.heard: float | None = None
        self.risen: float | None = None                    # the tick of the accept that began the last good state
        self.heard_at: float | None = None                 # the true times of these two, in seconds since 1900
        self.risen_at: float | None = None
        self.fresh = False                                 # since a reboot nothing was measured

    def say(self, line: str, number: int | None) -> None:
        self.lines.append(line)
        self.numbers.append((line.split(' ')[0], number))

    # -- times

    def tick(self, at: float) -> str:
        ns = round(at * 10**9)
        if not self.people:
            return str(ns)
        return '%d.%03ds' % (ns // 10**9, ns // 10**6 % 1000)

    def true(self, at: float) -> float:
        """the true time of a tick, in seconds since 1900"""
        return DAY + self.on + at

    def ntp(self, seconds: float) -> int:
        return round(seconds * 2**32) % 2**64

    def wait(self, seconds: float = 16) -> None:
        self.at = self.asked + seconds

    # -- the calls

    def new(self, word: str = 'new', number: int = 0, nts: bool = False, cookies: tuple[int, ...] = (), **changed: str) -> None:
        self.nts = nts
        keys = dict(min='4', max='10', startup='3', window='5s', mark=MARK, start='v4', nts='yes' if nts else 'no', source=self.source)
        if word == 'metered':
            keys.update(min='8')
        if nts:
            keys['list'] = ''.join('c00e%04x%s' % (n, '5a' * n) for n in cookies) or '-'
        keys.update(changed)
        self.say('%s %s' % (word, ' '.join('%s=%s' % pair for pair in keys.items())), number)

    def load(self, file: str, number: int = 0) -> None:
        self.nts = False
        self.say('load file=' + file, number)

    def poll(self, number: int = 20, room: int | None = None) -> None:
        if number == 20:
            self.ident += 1
            self.asked = self.at
        self.counts['sent'] += number == 20
        more = (' uid=' + UID.hex() if self.nts else '') + (' room=%d' % room if room is not None else '')
        self.say('timer now=%s desired=4 id=%016x%s' % (self.tick(self.at), self.ident, more), number)

    def reply(self, number: int = 0, after: float = 2 * HALF_WAY, ident: int | None = None, stratum: int = 2, refid: bytes = b'\xc0\0\2\x63', first: int = 0x24,
              cut: int | None = None) -> None:
        """a packet of version 4 that comes `after` seconds behind its poll"""
        at = self.asked + after
        there = self.ntp(self.true(self.asked + after / 2))
        packet = struct.pack('>BBbbII4sQQQQ', first, stratum, 4, -20, 256, 512, refid, 0, self.ident if ident is None else ident, there, there)
        end = ''
        if self.nts:
            packet += b'\1\4\0\x24' + UID + b'\4\4\0\x2c' + bytes([0x55] * 40)
            end = ' auth=84'
        t1, t4 = (self.ntp(self.true(t) - self.slow) for t in (self.asked, at))
        self.say('reply now=%s t1=%d t4=%d packet=%s%s' % (self.tick(at), t1, t4, packet[:cut].hex(), end), number)
        self.count(number, at)

    def reply5(self, leap: int = 0, number: int = 0, after: float = 2 * HALF_WAY, stratum: int = 2, kiss: str = '-') -> None:
        at = self.asked + after
        there = self.ntp(self.true(self.asked + after / 2))
        t1, t4 = (self.ntp(self.true(t) - self.slow) for t in (self.asked, at))
        self.say('reply5 now=%s t1=%d t4=%d leap=%d mode=4 stratum=%d poll=4 precision=-20 rootdelay=0 rootdisp=0 receive=%d transmit=%d cookie=%016x kiss=%s'
                 % (self.tick(at), t1, t4, leap, stratum, there, there, self.ident, kiss), number)
        self.count(number, at)

    def count(self, number: int, at: float) -> None:
        self.at = max(self.at, at)
        if number == 0:
            self.first = self.slow if self.first is None or self.fresh else self.first
            self.last, self.heard, self.heard_at, self.fresh = self.slow, at, self.true(at), False
        for name, which in (('answered', 0), ('late', 14), ('foreign', 4)):
            self.counts[name] += number == which

    def accept(self, number: int = 0, stratum: int = 16, local: str | None = None, rises: bool = False) -> None:
        """`rises`: a good state begins here"""
        self.say('accept stratum=%d%s' % (stratum, ' local=' + local if local else ''), number)
        if rises:
            self.risen, self.risen_at = self.at, self.true(self.at)

    def other(self, line: str, number: int | None = None) -> None:
        self.say(line, number)

    # -- what happens again and again

    def round(self, **reply: Any) -> None:
        self.poll()
        self.reply(**reply)

    def up(self, rounds: int = 3, asks: bool = True, **reply: Any) -> None:
        """the source is measured and accepted, and polled on"""
        self.round(**reply)
        self.accept(rises=True)
        for k in range(rounds):
            self.wait()
            self.round(**reply)
            if asks:
                self.accept()

    def silence(self, polls: int) -> None:
        for _ in range(polls):
            self.wait()
            self.poll()

    def loop(self) -> None:
        """the source has its time from us"""
        self.accept(41, local='192.0.2.99,192.0.2.77')

    def back(self, to: float, source: str) -> None:
        """another server of the box, whose part of the log begins earlier"""
        self.at = self.asked = to
        self.source = source

    def reboot(self, down: float = 40, to: float = 2) -> None:
        """the box is switched off, and on again after so many seconds: its ticks begin anew, and the first that is read is `to`"""
        self.on += self.at + down
        self.at = self.asked = to
        self.fresh = True

    def noise(self, dice: random.Random) -> None:
        """replies that harm nobody, after an answered poll"""
        for _ in range(dice.randrange(4)):
            dice.choice((lambda: self.reply(13, after=0.05), lambda: self.other('show'), lambda: self.other('save room=8', 60)))()

    def text(self) -> str:
        return ''.join(line + '\n' for line in self.lines)


class Truth:
    """what became of a box. `number` is that of the event that decided it, where there is one"""

    def __init__(self, state: str, number: int | None = None, call: str | None = None, said: str | None = None) -> None:
        self.state, self.number, self.call, self.said = state, number, call, said


STORIES: list[Callable[[Log, random.Random], Truth]] = []


def story(life: Callable[[Log, random.Random], Truth]) -> Callable[[Log, random.Random], Truth]:
    STORIES.append(life)
    return life


UP = Truth('up')


def box_file(reach: int = 1, source: tuple[int, ...] = (192, 0, 2, 1)) -> str:
    """a hand-over file of a box whose source was accepted: stratum 2, and of its last eight polls those of `reach` answered (docs/HANDOVER.md)"""
    settings = bytes([4, 10, 3]) + (5 * 10**9).to_bytes(8, 'big') + bytes.fromhex(MARK) + bytes([0, 0, 0]) + bytes(source) + bytes([8])
    bodies = ((b'SE', settings), (b'ST', b'\0'), (b'RE', bytes([reach, 1])), (b'VE', b'\0\0'), (b'PO', bytes([4, 4])), (b'SO', bytes([2, 192, 0, 2, 99, 0])))
    return b''.join(mark + len(body).to_bytes(2, 'big') + body for mark, body in bodies).hex()


# ---- up

@story
def comes_up(log: Log, dice: random.Random) -> Truth:
    log.new()
    log.up(dice.randrange(6))
    log.noise(dice)
    return UP


@story
def comes_up_and_is_not_asked_again(log: Log, dice: random.Random) -> Truth:
    log.new()
    log.up(4, asks=False)
    return UP


@story
def comes_up_after_a_reset(log: Log, dice: random.Random) -> Truth:
    log.new()
    log.poll()
    log.silence(2)
    log.wait()
    log.poll(21)
    log.accept(40)
    log.at += 30
    log.new()
    log.up()
    return UP


@story
def comes_up_after_replies_that_were_refused(log: Log, dice: random.Random) -> Truth:
    log.new()
    log.reply(12)
    log.poll()
    for refused in dice.sample((lambda: log.reply(4, ident=0xdead), lambda: log.reply(14, after=6), lambda: log.reply(5, stratum=0, refid=b'RATE'),
                                lambda: log.reply(6, stratum=0, refid=b'DENY'), lambda: log.reply(1, cut=40), lambda: log.reply(9, stratum=0, refid=b'STEP')), 4):
        refused()
    log.accept(40)
    log.wait()
    log.up()
    return UP


@story
def is_not_accepted_at_first(log: Log, dice: random.Random) -> Truth:
    log.new()
    log.round()
    log.loop()
    log.wait()
    log.round()
    log.accept(40, stratum=2)
    log.wait()
    log.up()
    return UP


@story
def loses_its_source_and_has_it_again(log: Log, dice: random.Random) -> Truth:
    log.new()
    log.up()
    log.loop()
    log.wait()
    log.round()
    log.accept(rises=True)
    log.silence(3)
    log.accept()
    return UP


@story
def is_reset_and_comes_up_again(log: Log, dice: random.Random) -> Truth:
    log.new()
    log.up()
    log.silence(8)
    log.wait()
    log.poll(21)
    log.at += 5
    log.new()
    log.up()
    return UP


@story
def has_seven_polls_unanswered(log: Log, dice: random.Random) -> Truth:
    log.new()
    log.up()
    log.silence(7)
    if dice.random() < 0.5:
        log.accept()
    return UP


@story
def has_harmless_replies_behind_its_acceptance(log: Log, dice: random.Random) -> Truth:
    log.new()
    log.up()
    log.wait()
    log.poll()
    log.reply(4, ident=0xbeef)
    log.reply(6, stratum=0, refid=b'RSTR')
    log.reply(5, stratum=0, refid=b'RATE')
    log.reply(1, cut=20)
    log.reply(14, after=9)
    return UP


@story
def is_seven_hours_slow_and_then_stepped(log: Log, dice: random.Random) -> Truth:
    log.slow = 25200
    log.new()
    log.round()
    log.accept(rises=True)
    log.slow = 0.00005
    log.wait()
    log.round()
    log.accept()
    return UP


@story
def is_stepped_before_it_is_accepted(log: Log, dice: random.Random) -> Truth:
    log.slow = -7200
    log.new()
    log.round()
    log.slow = 0.1
    log.wait()
    log.round()
    log.accept(rises=True)
    return UP


@story
def is_a_swapped_box(log: Log, dice: random.Random) -> Truth:
    log.load(box_file())
    log.accept()
    log.wait()
    log.up()
    return UP


@story
def is_metered(log: Log, dice: random.Random) -> Truth:
    log.new('metered')
    log.up()
    log.other('save', 0)
    return UP


@story
def speaks_version_5(log: Log, dice: random.Random) -> Truth:
    log.new(start='v5')
    log.poll()
    log.reply5(leap=dice.choice((0, 1, 2, 3)))
    log.accept(rises=True)
    return UP


@story
def has_a_leap_second_ahead(log: Log, dice: random.Random) -> Truth:
    log.new()
    log.up(first=dice.choice((0x64, 0xa4)))
    return UP


@story
def is_off_by_just_the_limit(log: Log, dice: random.Random) -> Truth:
    log.slow = dice.choice((1, -1))
    log.new()
    log.up(after=0)  # so that no rounding comes in between
    return UP


@story
def has_a_second_server_that_is_silent(log: Log, dice: random.Random) -> Truth:
    start = log.at
    log.new()
    log.up(4)
    log.back(start + dice.choice((0, 1)), '192.0.2.2')
    log.new()
    log.poll()
    log.silence(2)
    log.wait()
    log.poll(21)
    return UP


@story
def has_a_first_server_that_is_silent(log: Log, dice: random.Random) -> Truth:
    start = log.at
    log.new()
    log.poll()
    log.silence(2)
    log.wait()
    log.poll(21)
    log.accept(40)
    log.back(start, '192.0.2.2')
    log.new()
    log.up()
    return UP


@story
def has_a_first_server_that_is_lost(log: Log, dice: random.Random) -> Truth:
    start = log.at
    log.new()
    log.up(8)
    log.loop()
    log.back(start, '192.0.2.2')
    log.new()
    log.up(1)
    return UP


@story
def has_settings_refused_first(log: Log, dice: random.Random) -> Truth:
    log.new(number=30, startup='9')
    log.accept(32)
    log.new(number=38, start='upgrading:3')
    log.new()
    log.up()
    return UP


@story
def has_too_small_a_buffer_once(log: Log, dice: random.Random) -> Truth:
    log.new(nts=True, cookies=(100, 100, 100, 100))
    log.up(1)
    log.wait()
    log.poll(31, room=100)
    return UP


@story
def is_accepted_again_behind_a_missing_cookie(log: Log, dice: random.Random) -> Truth:
    log.new(nts=True, cookies=(100,))
    log.round()
    log.accept()
    log.wait()
    log.poll(23)
    log.accept(rises=True)
    return UP


@story
def reboots_and_comes_up_again(log: Log, dice: random.Random) -> Truth:
    log.new()
    log.up()
    log.reboot()
    log.slow = dice.choice((0.1, 25200, -7200))   # a box without a battery has another clock now
    log.new(dice.choice(('new', 'metered')))
    log.round()
    log.accept(rises=True)
    log.slow = 0.003
    log.wait()
    log.round()
    return UP


@story
def reboots_twice_and_comes_up_at_last(log: Log, dice: random.Random) -> Truth:
    log.new()
    log.up()
    log.reboot()
    log.new()
    log.poll()
    log.silence(1)
    log.reboot(to=1)
    log.new()
    log.up(dice.randrange(3))
    return UP


@story
def gives_up_and_comes_up_after_a_reboot(log: Log, dice: random.Random) -> Truth:
    log.new()
    log.poll()
    log.silence(2)
    log.wait()
    log.poll(21)
    log.reboot()
    log.new()
    log.up(1)
    return UP


@story
def comes_up_after_a_file_that_was_refused(log: Log, dice: random.Random) -> Truth:
    log.new()
    log.up()
    log.reboot()
    log.load('00', 62)
    log.poll(32)
    log.wait()
    log.slow = 0.5
    log.new()
    log.up()
    return UP


@story
def loads_a_file_that_is_none_and_comes_up_after_a_reboot(log: Log, dice: random.Random) -> Truth:
    log.new()
    log.up()
    log.load('00', 62)
    log.poll(32)
    log.reboot()
    log.poll(32)
    log.wait()
    log.slow = 0.5
    log.new()
    log.up()
    return UP


@story
def reboots_while_another_server_is_up(log: Log, dice: random.Random) -> Truth:
    start = log.at
    log.new()
    log.up(4)
    log.back(start, '192.0.2.2')
    log.new()
    log.up(2)
    log.back(1, '192.0.2.1')
    log.new()
    log.poll()
    log.silence(1)
    return UP


@story
def has_a_second_server_that_was_refused_at_first(log: Log, dice: random.Random) -> Truth:
    log.source = '192.0.2.2'
    log.new(number=30, min='18')
    log.source = '192.0.2.1'
    log.new()
    log.up()
    log.back(1, '192.0.2.2')
    log.new()
    log.poll()
    return UP


@story
def is_up_after_a_reboot_beside_a_silent_server(log: Log, dice: random.Random) -> Truth:
    log.new()
    log.up(2)
    log.reboot(to=9)
    log.new()
    log.up(3)
    log.back(9 if dice.random() < 0.5 else 10, '192.0.2.2')
    log.new()
    log.poll()
    log.silence(2)
    log.wait()
    log.poll(21)
    return UP


@story
def loads_the_file_of_another_server_at_a_lower_tick(log: Log, dice: random.Random) -> Truth:
    log.new()
    log.up()
    log.back(1, '192.0.2.2')
    log.load(box_file(source=(192, 0, 2, 2)))
    log.poll()
    return UP


# ---- doubtful

@story
def stays_far_off(log: Log, dice: random.Random) -> Truth:
    log.slow = dice.choice((25200, -86400 * 3, 1.001, -1.5, 40))
    log.new()
    log.up(dice.randrange(3))
    return Truth('doubtful', 0, 'reply', 'slow' if log.slow > 0 else 'fast')


@story
def begins_in_1970_or_2066(log: Log, dice: random.Random) -> Truth:
    log.slow = dice.choice((DAY - 25567 * 86400, -40 * 365.25 * 86400))  # over 34 years, where a measured offset stops
    log.new()
    log.up(dice.randrange(3))
    return Truth('doubtful', 0, 'reply', 'slow' if log.slow > 0 else 'fast')


@story
def drifts_away(log: Log, dice: random.Random) -> Truth:
    log.new()
    log.up()
    log.slow = 2.5
    log.wait()
    log.round()
    return Truth('doubtful', 0, 'reply', '2 s 500 ms slow')


@story
def has_a_server_without_a_time(log: Log, dice: random.Random) -> Truth:
    log.new()
    log.up(dice.randrange(3), first=0xe4)
    return Truth('doubtful', 0, 'reply', 'not synchronized')


@story
def has_a_server_that_loses_its_time(log: Log, dice: random.Random) -> Truth:
    log.new()
    log.up()
    log.wait()
    log.round(first=0xe4)
    log.accept()
    return Truth('doubtful', 0, 'reply', 'not synchronized')


@story
def has_a_server_of_version_5_without_a_time(log: Log, dice: random.Random) -> Truth:
    log.new(start='v5')
    log.poll()
    log.reply5(leap=4)
    log.accept(rises=True)
    return Truth('doubtful', 0, 'reply5', 'not synchronized')


@story
def has_one_server_far_off_and_one_silent(log: Log, dice: random.Random) -> Truth:
    start = log.at
    log.slow = 30
    log.new()
    log.up(4)
    log.back(start, '192.0.2.2')
    log.new()
    log.poll()
    return Truth('doubtful', 0, 'reply', '30 s 000 ms slow')


# ---- lost

@story
def follows_its_follower(log: Log, dice: random.Random) -> Truth:
    log.new()
    log.up()
    log.noise(dice)
    log.loop()
    log.noise(dice)
    return Truth('lost', 41, 'accept')


@story
def has_a_server_of_stratum_16_later(log: Log, dice: random.Random) -> Truth:
    log.new()
    log.up()
    log.wait()
    log.round(stratum=16)
    log.accept(40)
    return Truth('lost', 40, 'accept', 'its stratum is 16, ours is 16')


@story
def is_unreachable_later(log: Log, dice: random.Random) -> Truth:
    log.new()
    log.up()
    log.silence(8)
    log.accept(42)
    if dice.random() < 0.5:
        log.wait()
        log.poll(21)
    return Truth('lost', 42, 'accept')


@story
def gives_up_half_an_hour_behind_a_late_reply(log: Log, dice: random.Random) -> Truth:
    log.new()
    log.up(3)
    log.wait()
    log.poll()
    log.reply(14, after=8)
    log.wait()
    log.round()
    log.accept()
    for _ in range(60):
        log.wait()
        log.round()
    log.silence(8)
    log.wait()
    log.poll(21)
    return Truth('lost', 21, 'timer')


@story
def is_denied_for_good(log: Log, dice: random.Random) -> Truth:
    log.new()
    log.up()
    log.wait()
    log.poll()
    log.reply(6, stratum=0, refid=b'DENY')
    log.silence(7)
    log.wait()
    log.poll(22)
    return Truth('lost', 22, 'timer')


@story
def is_denied_with_nts(log: Log, dice: random.Random) -> Truth:
    log.new(nts=True, cookies=(100, 100, 100))
    log.up(1)
    log.wait()
    log.poll()
    log.reply(7, stratum=0, refid=dice.choice((b'DENY', b'RSTR')))
    return Truth('lost', 7, 'reply')


@story
def runs_out_of_cookies(log: Log, dice: random.Random) -> Truth:
    log.new(nts=True, cookies=(100, 100))
    log.up(1)
    log.wait()
    log.poll(23)
    return Truth('lost', 23, 'timer')


@story
def has_too_large_a_cookie(log: Log, dice: random.Random) -> Truth:
    log.new(nts=True, cookies=(100, 725))
    log.up(0)
    log.wait()
    log.poll(24)
    return Truth('lost', 24, 'timer')


@story
def is_restarted_and_hears_nothing(log: Log, dice: random.Random) -> Truth:
    log.new()
    log.up()
    log.at += 20
    log.new(dice.choice(('new', 'metered')))
    if dice.random() < 0.7:
        log.poll()
        log.silence(1)
    return Truth('lost', 0, 'new', 'restarted by')


@story
def is_restarted_and_not_asked(log: Log, dice: random.Random) -> Truth:
    log.new()
    log.up()
    log.wait()
    log.new()
    log.round()
    return Truth('lost', 0, 'new', 'restarted by')


@story
def is_restarted_into_a_loop(log: Log, dice: random.Random) -> Truth:
    log.new()
    log.up()
    log.wait()
    log.new()
    log.round()
    log.loop()
    return Truth('lost', 0, 'new', '(41)')


@story
def is_swapped_and_hears_nothing(log: Log, dice: random.Random) -> Truth:
    log.new()
    log.up()
    log.wait()
    log.load(box_file())
    log.accept()
    log.poll()
    return Truth('lost', 0, 'load', 'accepted, but no reply was measured')


@story
def is_restarted_with_settings_that_are_refused(log: Log, dice: random.Random) -> Truth:
    log.new()
    log.up()
    log.new(number=30, min='18')
    return Truth('lost', 30, 'new')


@story
def loads_a_file_that_is_none(log: Log, dice: random.Random) -> Truth:
    log.new()
    log.up()
    log.load('00', 62)
    return Truth('lost', 62, 'load')


@story
def is_blanked(log: Log, dice: random.Random) -> Truth:
    log.new()
    log.up()
    log.other('blank')
    return Truth('lost', None, None, 'blank')


@story
def has_a_broken_record(log: Log, dice: random.Random) -> Truth:
    log.new()
    log.up()
    log.other('poke key=held value=9')
    log.accept(32)
    return Truth('lost', 32, 'accept')


@story
def is_lost_twice(log: Log, dice: random.Random) -> Truth:
    log.new()
    log.up()
    log.loop()
    log.wait()
    log.round()
    log.accept(rises=True)
    log.silence(8)
    log.wait()
    log.poll(21)
    return Truth('lost', 21, 'timer')


@story
def is_reset_and_does_not_come_back(log: Log, dice: random.Random) -> Truth:
    log.new()
    log.up()
    log.silence(8)
    log.wait()
    log.poll(21)
    log.at += 30
    log.new()
    log.poll()
    log.reply(14, after=7)
    log.silence(2)
    log.accept(40)
    return Truth('lost', 21, 'timer')


@story
def is_far_off_and_then_lost(log: Log, dice: random.Random) -> Truth:
    log.slow = 25200
    log.new()
    log.up(1)
    log.loop()
    return Truth('lost', 41, 'accept')


@story
def loses_the_one_server_and_never_has_the_other(log: Log, dice: random.Random) -> Truth:
    start = log.at
    log.new()
    log.up(3)
    log.loop()
    log.back(start, '192.0.2.2')
    log.new()
    log.poll()
    return Truth('lost', 41, 'accept')


@story
def loses_both_servers(log: Log, dice: random.Random) -> Truth:
    start = log.at
    log.new()
    log.up(8)
    log.loop()
    log.back(start, '192.0.2.2')
    log.new()
    log.up(1)
    log.accept(40, stratum=2)
    return Truth('lost', 41, 'accept')


@story
def reboots_and_hears_nothing(log: Log, dice: random.Random) -> Truth:
    log.slow = dice.choice((log.slow, 40))
    log.new()
    log.up()
    log.reboot(to=dice.choice((0, 2)))
    log.new(dice.choice(('new', 'metered')))
    if dice.random() < 0.7:
        log.poll()
        log.silence(2)
        log.accept(40)
    else:
        log.poll()
        log.reply(14, after=7)
    return Truth('lost', 0, 'new', 'restarted by')


@story
def reboots_and_is_not_asked(log: Log, dice: random.Random) -> Truth:
    log.new()
    log.up()
    log.reboot()
    log.slow = 30
    log.new()
    log.round()
    return Truth('lost', 0, 'new', 'does not ask `accept`')


@story
def reboots_twice_and_hears_nothing(log: Log, dice: random.Random) -> Truth:
    log.new()
    log.up()
    for _ in range(2):
        log.reboot(to=1)
        log.new()
        log.poll()
        log.silence(1)
    return Truth('lost', 0, 'new', 'no association since has come up')


@story
def gives_up_before_it_reboots(log: Log, dice: random.Random) -> Truth:
    log.new()
    log.up()
    log.silence(8)
    log.wait()
    log.poll(21)
    log.reboot()
    log.new()
    log.poll()
    return Truth('lost', 21, 'timer')


@story
def reboots_with_settings_that_are_refused(log: Log, dice: random.Random) -> Truth:
    log.new()
    log.up()
    log.reboot()
    log.new(number=30, min='18')
    log.poll(32)
    return Truth('lost', 30, 'new')


@story
def comes_up_after_a_reboot_and_is_lost(log: Log, dice: random.Random) -> Truth:
    log.new()
    log.up()
    log.reboot()
    log.new()
    log.up()
    log.loop()
    return Truth('lost', 41, 'accept')


@story
def is_swapped_for_a_box_with_lower_ticks(log: Log, dice: random.Random) -> Truth:
    log.new()
    log.up()
    log.reboot(to=3)
    log.load(box_file())
    log.accept()
    log.poll()
    return Truth('lost', 0, 'load', 'accepted, but no reply was measured')


@story
def is_swapped_for_a_box_whose_file_is_refused(log: Log, dice: random.Random) -> Truth:
    log.new()
    log.up()
    log.reboot(to=3)
    log.load('00', 62)
    log.poll(32)
    return Truth('lost', 62, 'load')


@story
def loads_a_file_that_is_none_and_reboots(log: Log, dice: random.Random) -> Truth:
    log.new()
    log.up()
    log.load('00', 62)
    log.wait()
    log.poll(32)
    log.reboot()
    log.poll(32)
    if dice.random() < 0.5:
        log.wait()
        log.new()
        log.poll()
    return Truth('lost', 62, 'load')


@story
def never_is_up_and_loads_a_file_that_is_none(log: Log, dice: random.Random) -> Truth:
    log.new()
    log.poll()
    log.load('00', 62)
    log.wait()
    log.poll(32)
    log.reboot()
    log.poll(32)
    log.reply(32)
    return Truth('never', 62, 'load')


@story
def is_asked_about_another_server_that_is_refused(log: Log, dice: random.Random) -> Truth:
    log.new()
    log.up()
    log.back(1, '192.0.2.2')
    log.new(number=30, min='18')
    log.poll(32)
    return Truth('lost', 30, 'new')


@story
def reboots_beside_a_server_that_is_silent(log: Log, dice: random.Random) -> Truth:
    start = log.at
    log.new()
    log.up(4)
    log.back(start, '192.0.2.2')
    log.new()
    log.poll()
    log.silence(1)
    log.back(1, '192.0.2.1')
    log.new()
    log.poll()
    return Truth('lost', 0, 'new', 'restarted by')


@story
def reboots_beside_a_server_that_was_lost_at_a_higher_tick(log: Log, dice: random.Random) -> Truth:
    start = log.at
    log.new()
    log.up(4)
    log.back(start, '192.0.2.2')
    log.new()
    log.up(1)
    log.loop()
    log.back(1, '192.0.2.1')
    log.new()
    log.poll()
    return Truth('lost', 0, 'new', 'restarted by')


@story
def reboots_and_is_heard_of_late(log: Log, dice: random.Random) -> Truth:
    """the first tick after the reboot is above the last one of the server between: only the name tells"""
    log.at = log.asked = log.at + 1000
    log.new()
    log.up(4)
    log.back(3, '192.0.2.2')
    log.new()
    log.poll()
    log.silence(1)
    log.back(300, '192.0.2.1')
    log.new()
    log.poll()
    return Truth('lost', 0, 'new', 'restarted by')


# ---- never

@story
def is_never_answered(log: Log, dice: random.Random) -> Truth:
    log.new()
    log.poll()
    log.silence(2)
    log.wait()
    log.poll(21)
    if dice.random() < 0.5:
        log.accept(40)
    return Truth('never', 21, 'timer')


@story
def is_denied_from_the_start(log: Log, dice: random.Random) -> Truth:
    log.new()
    log.poll()
    log.reply(6, stratum=0, refid=b'DENY')
    log.silence(2)
    log.wait()
    log.poll(22)
    return Truth('never', 22, 'timer', 'DENY')


@story
def is_denied_with_nts_from_the_start(log: Log, dice: random.Random) -> Truth:
    log.new(nts=True, cookies=(100, 100))
    log.poll()
    log.reply(7, stratum=0, refid=b'DENY')
    return Truth('never', 7, 'reply')


@story
def has_only_late_replies(log: Log, dice: random.Random) -> Truth:
    log.new(startup='8')
    for _ in range(4):
        log.poll()
        log.reply(14, after=6.5)
        log.wait()
    if dice.random() < 0.5:
        log.accept(40)
    return Truth('never', 14, 'reply', '1.5 s too late')


@story
def gets_only_late_replies_and_gives_up(log: Log, dice: random.Random) -> Truth:
    log.new()
    for _ in range(3):
        log.poll()
        log.reply(14, after=6.5)
        log.wait()
    log.poll(21)
    return Truth('never', 21, 'timer', 'give up; before that, reply too late (14)')


@story
def gives_up_and_then_gets_its_replies(log: Log, dice: random.Random) -> Truth:
    log.new()
    log.poll()
    log.silence(2)
    log.wait()
    log.poll(21)
    log.reply(14, after=1200)
    return Truth('never', 21, 'timer', 'give up; after that, reply too late (14)')


@story
def has_one_kind_of_refusal(log: Log, dice: random.Random) -> Truth:
    refusals: dict[int, dict[str, Any]] = {
        4: dict(ident=0xdead), 5: dict(stratum=0, refid=b'RATE'), 6: dict(stratum=0, refid=b'RSTR'), 8: dict(stratum=0, refid=b'NTSN'),
        9: dict(stratum=0, refid=b'STEP'), 10: dict(stratum=17), 11: dict(first=0x23), 1: dict(cut=47)}
    number = dice.choice(sorted(refusals))
    log.new()
    log.poll()
    log.reply(number, **refusals[number])
    if dice.random() < 0.5:
        log.reply(number, after=0.06, **refusals[number])
    said = {6: 'RSTR', 9: 'STEP'}.get(number)
    return Truth('never', number, 'reply', said)


@story
def has_a_source_of_stratum_16(log: Log, dice: random.Random) -> Truth:
    log.new()
    log.round(stratum=16)
    log.accept(40)
    return Truth('never', 40, 'accept', 'its stratum is 16, ours is 16')


@story
def follows_its_follower_from_the_start(log: Log, dice: random.Random) -> Truth:
    log.new()
    log.round()
    log.loop()
    log.reply(13, after=0.06)
    return Truth('never', 41, 'accept')


@story
def is_asked_too_late(log: Log, dice: random.Random) -> Truth:
    log.new(startup='8')
    log.round()
    log.silence(8)
    log.accept(42)
    return Truth('never', 42, 'accept')


@story
def is_not_asked(log: Log, dice: random.Random) -> Truth:
    log.new()
    if dice.random() < 0.5:
        log.accept(40)
    log.round()
    log.noise(dice)
    return Truth('never', 0, 'reply', 'does not ask `accept`')


@story
def is_swapped_and_not_asked_again(log: Log, dice: random.Random) -> Truth:
    log.load(box_file())
    log.accept()
    log.round()
    return Truth('never', 0, 'reply', 'does not ask `accept`')


@story
def is_swapped_and_silent(log: Log, dice: random.Random) -> Truth:
    log.load(box_file())
    log.accept()
    if dice.random() < 0.5:
        log.poll()
        return Truth('never', 20, 'timer', 'accepted, but no reply was measured')
    return Truth('never', 0, 'load', 'accepted, but no reply was measured')


@story
def has_just_begun(log: Log, dice: random.Random) -> Truth:
    log.new()
    return Truth('never', 0, 'new', 'no poll was sent')


@story
def waits_for_its_first_reply(log: Log, dice: random.Random) -> Truth:
    log.new()
    log.poll()
    return Truth('never', 20, 'timer', 'no reply was measured')


@story
def hears_only_what_was_before_it(log: Log, dice: random.Random) -> Truth:
    log.new()
    log.asked = log.at
    log.reply(12)
    log.reply(12, after=1)
    return Truth('never', 0, 'new', 'no reply was measured')


@story
def is_asked_before_anything_is_measured(log: Log, dice: random.Random) -> Truth:
    log.new()
    log.poll()
    log.accept(40)
    return Truth('never', 40, 'accept', 'nothing was measured yet')


@story
def is_asked_before_its_polls(log: Log, dice: random.Random) -> Truth:
    log.new()
    log.accept(40)
    log.poll()
    log.silence(dice.randrange(3))
    return Truth('never', 20, 'timer', 'no reply was measured')


@story
def is_refused_once_and_then_hears_nothing(log: Log, dice: random.Random) -> Truth:
    log.new()
    log.poll()
    number, name, after = dice.choice(((5, b'RATE', 0.04), (14, b'RATE', 6.5), (9, b'STEP', 0.04)))
    log.reply(number, after=after, stratum=0, refid=name)
    log.silence(2)
    return Truth('never', 20, 'timer', 'no reply was measured')


@story
def hears_a_stranger_and_then_nothing(log: Log, dice: random.Random) -> Truth:
    log.new()
    log.poll()
    log.reply(4, ident=0xdead)
    log.silence(2)
    return Truth('never', 20, 'timer', 'no reply was measured')


@story
def hears_only_strangers(log: Log, dice: random.Random) -> Truth:
    log.new()
    for _ in range(2):
        log.poll()
        log.reply(4, ident=0xdead)
    log.silence(1)
    return Truth('never', 4, 'reply')


@story
def is_slowed_down_and_polls_once_more(log: Log, dice: random.Random) -> Truth:
    log.new()
    log.poll()
    log.reply(5, stratum=0, refid=b'RATE')
    log.silence(1)
    if dice.random() < 0.5:
        log.reply(4, ident=0xdead)
    return Truth('never', 5, 'reply', 'RATE')


@story
def has_two_servers_that_are_silent(log: Log, dice: random.Random) -> Truth:
    start = log.at
    log.new()
    log.poll()
    log.silence(2)
    log.wait()
    log.poll(21)
    log.back(start, '192.0.2.2')
    log.new()
    log.poll()
    log.accept(40)
    return Truth('never', 40, 'accept')


@story
def never_is_up_and_reboots(log: Log, dice: random.Random) -> Truth:
    log.new()
    log.poll()
    log.silence(2)
    log.wait()
    log.poll(21)
    log.reboot()
    log.new()
    log.poll()
    return Truth('never', 20, 'timer', 'no reply was measured')


# ---- unreadable: the log's bytes, by its text

def damaged(text: str, dice: random.Random) -> Iterator[tuple[str, bytes | None, str]]:
    """how, the bytes (nothing: there is no file), and a word of the reason"""
    lines = text.split('\n')
    yield 'missing', None, 'No such file'
    yield 'empty', b'', 'no command'
    yield 'comments', b'# nothing came\n\n# of it\n', 'no command'
    yield 'binary', bytes(dice.randrange(256) for _ in range(3000)) + b'\0\n', 'line '
    yield 'utf16', text.encode('utf-16'), 'UTF-16'
    yield 'cut', text[:text.rindex(' t4=')].encode(), 'needs t4='
    yield 'cut-word', (text + 'acce').encode(), 'no command "acce"'
    yield 'no-new', '\n'.join(line for line in lines if not line.startswith(('new', 'metered', 'load'))).encode(), 'no association'
    yield 'refused', b'new min=4 max=3 startup=3 window=5s mark=%s start=v4 nts=no source=192.0.2.1\n' % MARK.encode(), 'no association: new settings (30) in line 1'
    yield 'error', '\n'.join(lines[:2] + ['timer now=soon desired=4 id=1'] + lines[2:]).encode(), 'line 3: '
    yield 'zeros', text.encode() + bytes(512), 'NUL'
    yield 'prose', b'The box did not answer this morning.\n', 'no command "The"'


def forms(text: str, dice: random.Random) -> bytes:
    """a log as people may save it: all mean the same"""
    form = dice.randrange(6)
    if form == 0:
        return b'\xef\xbb\xbf' + text.replace('\n', '\r\n').encode()
    if form == 1:
        return text.removesuffix('\n').encode()
    if form == 2:
        return ('# site 7, K\xf6ln\n\n' + text.replace('\n', '\n\n# and on\n')).encode('latin-1')
    return text.encode()


def made(life: Callable[[Log, random.Random], Truth], dice: random.Random) -> tuple[Log, Truth]:
    """a box that lived through a story"""
    log = Log(at=round(dice.uniform(20, 40000), 3), slow=round(dice.uniform(-0.9, 0.9), 3), on=round(dice.uniform(0, 20000), 3), people=dice.random() < 0.7)
    return log, life(log, dice)


def fleet(dice: random.Random, count: int) -> Iterator[tuple[str, Log, Truth]]:
    """so many boxes, each story as often as another"""
    for k in range(count):
        life = STORIES[k % len(STORIES)]
        yield ('%03d-%s' % (k, life.__name__), *made(life, dice))


# ---- nights, for what is drawn

def night(dice: random.Random, polls: int = 450, every: float = 64, ends: str = 'up') -> Log:
    """a box that is polled all night, some seconds early or late, with a late and a lost reply now and then. It `ends` up, lost (by a loop) or never (no reply but late ones)"""
    log = Log(at=dice.randrange(60, 240), slow=dice.choice((0.25, 0.003, -0.04)), on=21 * 3600, people=False)
    begun = 0
    for k in range(polls):
        if not k or ends == 'never' and k == begun + 3:
            if k:
                log.poll(21)
            log.new(window=str(5 * 10**9), source='c0000201')
            begun = k
        log.poll()
        if ends == 'never' or k and dice.random() < 0.02:
            log.reply(14, after=7.5)
        elif not k or dice.random() < 0.98:
            log.reply()
        if not k and ends != 'never':
            log.accept(rises=True)
        log.wait(every + dice.choice((-1, 0, 0, 1)))
    if ends == 'lost':
        log.round()
        log.loop()
    return log
