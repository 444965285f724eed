"""From ticks to wall time: the true time of a measured reply, of any tick behind it, and how far off the box's own clock was before. A step here is a measured reply
of `story`. Ticks are uptimes in nanoseconds; times and durations count 2^-32 s."""
from collections.abc import Mapping
from datetime import timedelta
from typing import NamedTuple, Protocol

import human

FURTHEST = 2**62      # where a measured offset stops, at 34 years: it is half of a sum that stops at the end of its range (RULES, part 5)
UNSYNCHRONIZED = '4'  # of `leap` in the answer to a reply; 3, unknown, is said by a server that is synchronized (docs/EMBEDDING.md)


class Measured(Protocol):
    """a measured reply, as `story` has it"""
    line: int
    tick: int | None

    @property
    def given(self) -> Mapping[str, str]: ...

    @property
    def gave(self) -> Mapping[str, str]: ...


class Instant(NamedTuple):
    """a true time, and how far off it may be"""
    stamp: int       # NTP timestamp
    within: int      # half the delay


class Rise(NamedTuple):
    """when ticks became wall time: the accept's tick, the reply that tells the time there, and the first reply of all, which tells how far off the clock was"""
    tick: int
    heard: Measured
    first: Measured


def difference(a: int, b: int) -> int:
    """of two timestamps, read as signed (RULES, part 5)"""
    return (a - b + 2**63) % human.ERA - 2**63


def measured_offset(step: Measured) -> int:
    """the offset as the program answered it"""
    return int(step.gave['offset'])


def offset(step: Measured) -> int:
    """how far the box's clock was behind the server's: as it was measured, but where that stopped by the four timestamps. So a clock that begins in 1970 is told right"""
    said = measured_offset(step)
    if -FURTHEST < said < FURTHEST - 1:
        return said
    t1, t2, t3, t4 = stamps(step)
    both = difference(t2, t1) + difference(t3, t4)
    return both // 2 if both >= 0 else -(-both // 2)


def stamps(step: Measured) -> tuple[int, int, int, int]:
    """T1 to T4 of a reply, in bytes or decoded"""
    given = step.given
    if 'packet' in given:
        packet = bytes.fromhex(given['packet'])
        t2, t3 = (int.from_bytes(packet[at:at + 8], 'big') for at in (32, 40))
    else:
        t2, t3 = int(given['receive']), int(given['transmit'])
    return int(given['t1']), t2, t3, int(given['t4'])


def delay(step: Measured) -> int:
    return int(step.gave['delay'])


def unsynchronized(step: Measured) -> bool:
    """whether the source says that it has no time itself"""
    return step.gave.get('leap') == UNSYNCHRONIZED


def at_reply(step: Measured) -> Instant:
    """the true time when a reply came: T4, which is the box's own clock, plus the offset"""
    return Instant((int(step.given['t4']) + offset(step)) % human.ERA, abs(delay(step)) // 2)


def at_tick(step: Measured, tick: int | None) -> Instant | None:
    """the true time of a tick, counted from a measured reply; nothing where one of the two ticks is not known"""
    if tick is None or step.tick is None:
        return None
    heard = at_reply(step)
    return heard._replace(stamp=(heard.stamp + (tick - step.tick) * human.SECOND // 10**9) % human.ERA)


def told(at: Instant) -> str:
    return 'true time %s ± %s' % (human.wall(at.stamp), human.milliseconds(at.within))


def off(ntp: int) -> str:
    """how far off a clock was that has this offset"""
    if human.apart(ntp) == '0 ms':
        return 'right to the millisecond'
    return '%s %s' % (human.apart(ntp), 'slow' if ntp > 0 else 'fast')


def reading(step: Measured) -> str:
    """what the box's clock did to a reading that it stamped when the reply came"""
    far = abs(offset(step)) / human.SECOND
    size, form, cut = (0.001, '%H:%M:%S.%f', -3) if far < 1 else (1, '%H:%M:%S', None) if round(far) % 60 else (60, '%H:%M', None)
    unit = timedelta(seconds=size)
    stamp = human.moment_of(int(step.given['t4']))
    stamp -= (stamp - human.EPOCH) % unit
    true = stamp + unit * round(offset(step) / human.SECOND / unit.total_seconds())  # so that the two differ by what was said
    days = '' if stamp.date() == true.date() else ' on %s, and not on %s' % (true.date(), stamp.date())
    return 'a reading stamped %s was taken at %s%s' % (stamp.strftime(form)[:cut], true.strftime(form)[:cut], days)


def line(rise: Rise) -> str:
    """the wall-time line of a box"""
    at = at_tick(rise.heard, rise.tick)
    became = 'ticks became wall time at tick %s, %s' % (human.tick(rise.tick), told(at))
    before = "until then the box's clock was %s" % off(offset(rise.first))
    return '%s; %s' % (became, before if human.apart(offset(rise.first)) == '0 ms' else '%s: %s' % (before, reading(rise.first)))
