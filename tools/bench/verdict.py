"""What became of a box by the end of its log: up, doubtful, lost, never or unreadable, with the event that decided it. The rules are those of docs/DRILL.md, "What
became of a box"; nothing is drawn or written here.

A box may have several servers, one behind the other in its log (DECISIONS 114): another begins where the clock goes back with a new association. One that is up is
enough. A server that is named again is no other one: it was restarted, and what stands of it before that is over (DECISIONS 120)."""
from collections.abc import Iterator
from typing import Any, NamedTuple

import handover
import human
import meanings
import story
import walltime
from story import Step

STATES = ('up', 'doubtful', 'lost', 'never', 'unreadable')  # from the best to the worst
FAR = human.SECOND                                          # an offset over this makes a box doubtful, where nothing else is said
STRETCHES = 64                                              # in which the source was accepted, that are kept of a server
SENT, TOO_LATE, NOT_OURS = 20, 14, 4
GAVE_UP = {call: meanings.numbers(call, 'stop') for call in ('timer', 'reply', 'reply5')}
# What is in the way of a box though its number is good: something did not follow it.
GOOD_BUT = {'new': 'a new association', 'metered': 'a new association', 'load': 'a new association', 'timer': 'no reply', 'reply': 'accept not asked',
            'reply5': 'accept not asked'}
NO_REASON = (12, 13)    # replies that come while none is awaited harm nobody
ANYBODYS = (1, 2, 4)    # replies that anybody may have sent: a reason only where there is no other


class Event(NamedTuple):
    """a step with its tick, for lines that have none that of their neighbour"""
    step: Step
    tick: int | None

    def told(self) -> str:
        """what happened, in a sentence"""
        step, at = self.step, ', tick %s' % human.tick(self.tick) if self.tick is not None else ''
        where = 'in line %d%s' % (step.line, at)
        if step.number is None:
            return '%s %s' % (step.head, where)
        says = '' if step.good() else story.why(step)
        return '%s %s (%d) %s%s' % (step.head, step.row.short, step.number, where, ': ' + says if says else '')

    def cause(self) -> str:
        """what happened, in short, to count alike ones by"""
        step = self.step
        return step.head if step.number is None else GOOD_BUT.get(step.head) if step.good() else '%s %d (%s)' % (step.head, step.number, step.row.short)


class Stretch(NamedTuple):
    """a time in which the source was accepted; the last may have no end"""
    begun: int
    ended: int | None


class Known(NamedTuple):
    """what was measured of a server, and when it was accepted"""
    first: Step | None = None                # the first reply of all that was measured
    latest: Step | None = None               # the last one of all
    accepted: walltime.Rise | None = None    # when the source was accepted for the last time
    risen: walltime.Rise | None = None       # and for the first time

    def since(self, before: 'Known') -> 'Known':
        """this, and what was known before in the place of what is not there"""
        measured = self if self.latest else before
        return Known(measured.first, measured.latest, self.accepted or before.accepted, self.risen or before.risen)

    def line(self) -> int:
        """of the last reply that it tells of"""
        return self.latest.line if self.latest else 0


class Placed(NamedTuple):
    """a step, with the server that it belongs to and its tick"""
    step: Step
    server: 'Server'
    tick: int | None


class Server:
    """what a log says of one server, folded line by line"""

    def __init__(self) -> None:
        self.sources: set[str] = set()         # the identifiers that its associations name
        self.made: Event | None = None         # what made the last association, or tried to
        self.first: Step | None = None         # the first reply of all that was measured
        self.latest: Step | None = None        # the last one of all
        self.risen: walltime.Rise | None = None      # when the source was accepted for the first time
        self.accepted: walltime.Rise | None = None   # and for the last time
        self.ended: Event | None = None        # what ended the last good state
        self.stretches: list[Stretch] = []
        self.rises = 0                         # how often it was accepted: the nearest stretches are one where there are many
        self.good = False
        self.before = Known()                  # what is known of it from before its ticks began anew
        self.replaces = False                  # the one that it takes the place of was good: what makes the new association ends that
        self.anew: Step | None = None          # what makes the first association since
        self.begin(None)

    def replace(self, earlier: 'Server', made: Step) -> None:
        """takes the place of the same server before a restart, which is over. That one's ticks are not comparable with the ones here"""
        self.replaces = self.replaces or earlier.good or earlier.replaces
        self.ended = max(filter(None, (self.ended, earlier.ended)), key=lambda event: event.step.line, default=None)
        self.before = max(self.before, earlier.known(), key=Known.line)
        self.made, self.anew = earlier.made, made

    def idle(self) -> bool:
        """whether its last association is over, and none took its place"""
        return self.made is not None and self.made.step.number != 0

    def begin(self, made: Event | None) -> None:
        """another association, or none, from here on"""
        self.made = made
        self.heard: Event | None = None        # its last measured reply
        self.asked: Event | None = None        # its last accept
        self.polled: Event | None = None       # its last timer that did not give up
        self.stopped: Event | None = None      # what gave up, unless the source was accepted again
        self.refused: Event | None = None      # its last refused reply that tells something
        self.silent = 0                        # the polls sent since that one

    def take(self, event: Event) -> None:
        step, number = event.step, event.step.number
        if step.makes():
            self.fall(event)
            self.begin(event)
        elif number in GAVE_UP.get(step.head, ()):
            self.fall(event)
            self.stopped = event
        elif step.head == 'timer':
            self.polled = event
            self.silent += number == SENT
        elif step.measured():
            self.first, self.latest, self.heard = self.first or step, step, event
        elif step.head in story.REPLIES:
            self.refuse(event)
        elif step.head == 'accept' and not step.error:
            self.accept(event)

    def refuse(self, event: Event) -> None:
        number = event.step.number
        if number is not None and number not in NO_REASON and (number not in ANYBODYS or not self.hinders() or self.refused.step.number in ANYBODYS):
            self.refused, self.silent = event, 0

    def hinders(self) -> bool:
        """whether the last refused reply is in the way: one that was followed by two polls without a reply is not; one poll may still be under way"""
        return self.refused is not None and self.silent <= 1

    def accept(self, event: Event) -> None:
        self.asked = event
        if event.step.number != 0:
            self.fall(event)
        elif self.heard:
            self.stopped = None
            if not self.good:
                self.good = True
                tick = event.tick if event.tick is not None else self.heard.step.now
                self.accepted = walltime.Rise(tick, self.heard.step, self.first)
                self.risen = self.risen or self.accepted
                self.stretches.append(Stretch(tick, None))
                self.rises += 1
                if len(self.stretches) > STRETCHES:
                    self.join()

    def join(self) -> None:
        """makes one of the two stretches that are nearest to each other"""
        k = min(range(len(self.stretches) - 1), key=lambda k: self.stretches[k + 1].begun - self.stretches[k].ended)
        self.stretches[k:k + 2] = [Stretch(self.stretches[k].begun, self.stretches[k + 1].ended)]

    def fall(self, event: Event) -> None:
        if self.good or self.replaces:
            self.ended = event
        if self.good:
            tick = event.tick if event.tick is not None else self.latest.now
            self.stretches[-1] = self.stretches[-1]._replace(ended=tick)
        self.good = self.replaces = False

    # -- at the end

    def known(self) -> Known:
        return Known(self.first, self.latest, self.accepted, self.risen).since(self.before)

    def wall_time(self) -> str | None:
        """the wall-time line: of the ticks that count now, where they became wall time"""
        if self.risen:
            restarted = self.anew and self.anew.line < self.risen.heard.line
            return ('after the restart in line %d, ' % self.anew.line if restarted else '') + walltime.line(self.risen)
        if self.before.risen:
            return 'since the restart in line %d ticks have not become wall time; before it, %s' % (self.anew.line, walltime.line(self.before.risen))
        return None

    def doubts(self, far: int) -> list[str]:
        """what is wrong with a source that is accepted"""
        heard, out = self.heard.step, []
        if abs(walltime.offset(heard)) > far:
            out.append("the box's clock is %s (offset %s): over %s" % (
                walltime.off(walltime.offset(heard)), human.offset(walltime.offset(heard)), human.length(far * 10**9 // human.SECOND)))
        if walltime.unsynchronized(heard):
            out.append('the source says that it is not synchronized (leap)')
        return out

    def state(self, far: int) -> str:
        if self.good:
            return 'doubtful' if self.doubts(far) else 'up'
        return 'lost' if self.ended else 'never'

    def in_the_way(self) -> tuple[Event | None, str]:
        """what keeps the last association from being up, and that in words"""
        if self.made and self.made.step.number != 0:
            return self.made, self.made.told()
        if self.stopped:
            when = 'before' if self.refused and self.refused.step.line < self.stopped.step.line else 'after'
            more = '; %s that, %s' % (when, self.refused.told()) if self.refused and not self.heard else ''
            return self.stopped, self.stopped.told() + more
        if self.heard:
            if self.asked and self.asked.step.line > self.heard.step.line:
                return self.asked, self.asked.told()
            return self.heard, 'a reply was measured in line %d, but the log does not ask `accept` after it' % self.heard.step.line
        hindered = self.refused if self.hinders() else (self.polled if self.polled and self.polled.step.number != SENT else None)
        accepted = self.asked is not None and self.asked.step.number == 0
        if not hindered and self.asked and not accepted and (not self.polled or self.polled.step.line < self.asked.step.line):
            hindered = self.asked
        if hindered:
            return hindered, hindered.told()
        nothing = 'accepted, but no reply was measured' if accepted else 'no reply was measured'
        return self.polled or self.made, nothing + (': ' + self.polled.told() if self.polled else ', and no poll was sent')

    def reason(self, far: int) -> tuple[Event | None, str | None]:
        """the event that decided the state, and that in words; nothing of a box that is up"""
        state = self.state(far)
        if state == 'doubtful':
            return self.heard, '; '.join(self.doubts(far))
        if state == 'lost':
            why = self.ended.told()
            if self.ended.step.head in story.MAKES and self.ended.step.number == 0:
                since = 'the new association has not come up' if self.made is self.ended else 'no association since has come up'
                why = 'restarted by %s, and %s: %s' % (why, since, self.in_the_way()[1])
            return self.ended, why
        return self.in_the_way() if state == 'never' else (None, None)


def source_of(step: Step) -> str | None:
    """the identifier of the server that an association is made for, or was to be; that of a `load` stands in its file, and a file that is refused names none"""
    if step.head == 'load':
        return handover.in_file(bytes.fromhex(step.given['file']))['source'] if step.number == 0 else None
    return step.given.get('source', '').lower() or None


class Verdict(NamedTuple):
    """what became of a box"""
    state: str
    number: int | None              # of the event that decided it
    cause: str | None               # that event in short, to count alike ones by
    reason: str | None
    action: str | None              # docs/NUMBERS.md, what the caller does next
    server: Server | None           # the server that decided it
    servers: int = 1                # how many the box has
    error: str | None = None        # why it is unreadable
    sent: int | None = None
    answered: int | None = None
    late: int | None = None
    foreign: int | None = None


def unreadable(why: str, cause: str) -> Verdict:
    return Verdict('unreadable', None, cause, why, None, None, error=why)


class Judge:
    """takes a log's steps as they come, and says at any time what became of the box so far. Steps that decide nothing are left out, unless `every` one is to be placed"""

    def __init__(self, far: int = FAR, every: bool = False) -> None:
        self.far, self.every = far, every
        self.servers = [Server()]           # but for those that were restarted
        self.restarted = False              # whether there was one
        self.last: int | None = None        # the last tick of the server under way
        self.waiting: list[Step] = []       # a new association and what follows, until a line tells when that is
        self.steps = self.associations = 0
        self.error: Step | None = None      # the first line that was answered `error`
        self.refused: Step | None = None    # the last association that was refused
        self.counts: dict[str, Any] = {'sent': 0, 'answered': 0, 'late': 0, 'foreign': 0}

    def take(self, step: Step) -> list[Placed]:
        """the steps that have found their place by this one, in the log's order"""
        self.steps += 1
        self.count(step)
        if step.now is None:
            if not self.every and not step.makes() and step.head != 'accept':
                return []
            if self.waiting or step.makes() or self.last is None:
                self.waiting.append(step)
                return []
            return [self.put(step, self.last)]
        return self.place(step.now, step) + [self.put(step, step.now)]

    def over(self) -> list[Placed]:
        """the steps that are left when the log is over"""
        return self.place(self.last)

    def place(self, tick: int | None, by: Step | None = None) -> list[Placed]:
        """the steps that wait for a tick, `by` the one that has it"""
        waiting, self.waiting = self.waiting, []
        made = [step for step in waiting if step.makes()]
        if made:
            self.turn(made, tick)
        elif by and self.servers[-1].idle():
            self.turn([by], tick)
        return [self.put(step, tick) for step in waiting]

    def turn(self, made: list[Step], tick: int | None) -> None:
        """where associations end: another server begins if the clock goes back, and one that an earlier part of the log names takes that one's place. Where none is
        made, there is no other server: it is the end of the one before (DECISIONS 117)"""
        back = self.last is not None and tick < self.last
        if back:
            self.servers.append(Server())
        named = {source_of(step) for step in made}
        over = [earlier for earlier in self.servers[:-1] if not earlier.sources or earlier.sources & named]
        if back and not over and not any(step.head in story.MAKES and step.number == 0 for step in made):
            over = self.servers[-2:-1]
            self.servers[-1].sources |= over[0].sources
        for earlier in over:
            self.servers[-1].replace(earlier, made[0])
            self.servers.remove(earlier)
            self.restarted = True

    def put(self, step: Step, tick: int | None) -> Placed:
        self.last = tick
        server = self.servers[-1]
        if step.head in story.MAKES and step.number == 0 and (source := source_of(step)):
            server.sources.add(source)
        server.take(Event(step, tick))
        return Placed(step, server, tick)

    def count(self, step: Step) -> None:
        if step.error:
            self.error = self.error or step
        elif step.head in story.MAKES:
            self.associations += step.number == 0
            self.refused = step if step.number != 0 else self.refused
        elif step.head == 'timer':
            self.counts['sent'] += step.number == SENT
        elif step.head in story.REPLIES:
            self.counts['answered'] += step.number == 0
            self.counts['late'] += step.number == TOO_LATE
            self.counts['foreign'] += step.number == NOT_OURS

    # -- the verdict

    def fault(self) -> tuple[str, str] | None:
        """why the log cannot be judged, and that in short"""
        if not self.steps:
            return 'it has no command in it: is it a log of the drill?', 'no command'
        if self.error:
            return 'line %d: %s' % (self.error.line, story.fault(self.error)), 'a line answered error'
        if not self.associations:
            why = Event(self.refused, None).told() if self.refused else 'no `new`, `metered` or `load` is in it'
            return 'it has no association: ' + why, 'no association'
        return None

    def deciding(self) -> Server:
        """the server that the box's state is: the best one; of several that were lost the one that was lost last, of several that never were up the last. Ticks of before
        and after a restart tell no order: there that of the log counts"""
        def rank(server: Server) -> tuple:
            state = server.state(self.far)
            lost = (0 if self.restarted else server.ended.tick or 0, server.ended.step.line) if state == 'lost' else (0, 0)
            return STATES.index(state), *(-n for n in lost)
        best = min(rank(server) for server in self.servers)
        alike = [server for server in self.servers if rank(server) == best]
        return alike[-1] if best[0] == STATES.index('never') else alike[0]

    def cause(self, server: Server, event: Event | None) -> str | None:
        if server.good:
            return None if event is None else 'far off' if abs(walltime.offset(event.step)) > self.far else 'not synchronized'
        return event.cause() if event else None

    def verdict(self) -> Verdict:
        server, fault = self.deciding(), self.fault()
        if fault:
            known: dict[str, Any] = dict(self.counts, server=server, servers=len(self.servers)) if self.associations else {}
            return unreadable(*fault)._replace(**known)
        event, reason = server.reason(self.far)
        step = event.step if event else None
        action = step.row.next or None if step and step.row else None
        return Verdict(server.state(self.far), step.number if step else None, self.cause(server, event), reason, action, server, len(self.servers), **self.counts)


def judged(steps: Iterator[Step], far: int = FAR) -> Verdict:
    """what became of the box of a log"""
    judge = Judge(far)
    for step in steps:
        judge.take(step)
    judge.over()
    return judge.verdict()
