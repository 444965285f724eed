"""A log with its answers, told: what each line asked, what the proved program answered, and how the record stood before and after. The record is the program's own
word too: behind each line of the log stands a `show`, which changes nothing. Where many logs are told at once the log's own numbers tell as much of the record as is
needed, since each `show` costs as much as a line.

A command, a number or a key of the record that this page does not know is passed on as it stands, so that a new one is readable before it has words here."""
import functools
import re
from collections.abc import Callable, Iterator, Mapping, Sequence

import answers
import handover
import human
import meanings
import run
import walltime

KIND_ERROR = 'caller'
# How an answer's first word is told: where the number is good, and where it is not.
TOLD = {'new': ('association made', 'association refused'), 'timer': ('poll sent', 'no poll'), 'reply': ('reply measured', 'reply refused'),
        'reply5': ('reply measured', 'reply refused'), 'accept': ('source accepted', 'source not accepted'), 'collect': ('cookies collected', 'cookies not collected'),
        'request': ('request written', 'request refused'), 'salvage': ('list salvaged', 'salvage refused'),
        'calendar': ('calendar accepted', 'calendar refused'), 'plan': ('starts planned', 'no plan'),
        'metered': ('metered association made', 'metered association refused'), 'profile': ('the metered profile is met', 'the metered profile is not met'),
        'save': ('hand-over file written', 'hand-over file not written'), 'load': ('association loaded', 'hand-over file refused'),
        'compare': ('boxes compared', 'boxes not compared')}
REPLIES = ('reply', 'reply5')
MAKES = ('new', 'metered', 'load')  # the commands that make an association
ENDS = MAKES + ('blank',)           # and those that end the one before
SHIFTS = (20, 23, 24)               # numbers of the timer that move the reach register on
FOLLOWED = ('reach', 'stratum', 'pending')
NOW = re.compile(r' now=(\d+)(?: |$)')


class Step:
    """a line that was asked, and its answer"""

    def __init__(self, said: answers.Answered, before: Mapping[str, str]) -> None:
        self.said, self.before = said, before
        self.line, self.text, self.answer, self.names = said.asked.line, said.asked.text, said.answer, said.names
        self.after: Mapping[str, str] = before
        self.head = said.asked.sent.partition(' ')[0]
        first, _, rest = said.answer.partition(' ')
        number = rest.partition(' ')[0]
        self.error = first == 'error'
        self.number = int(number) if number.isdigit() and not self.error else None
        self.row = meanings.row(self.head, self.number) if self.number is not None else None
        self.kind = KIND_ERROR if self.error else self.row.kind if self.row else 'quiet'
        now = NOW.search(said.asked.sent)
        self.now = int(now[1]) if now and not self.error else None
        self.tick: int | None = self.now  # the tick at which it was asked: its own, else that of the line before
        self.heard: Step | None = None    # the last reply that the association had measured before this line

    @functools.cached_property
    def given(self) -> dict[str, str]:
        return pairs(self.said.asked.sent)

    @functools.cached_property
    def gave(self) -> dict[str, str]:
        return pairs(self.answer)

    def good(self) -> bool:
        return self.kind == 'good'

    def makes(self) -> bool:
        """whether an association ends here: another takes its place, or none does"""
        return self.head in ENDS and not self.error

    def measured(self) -> bool:
        return self.number == 0 and self.head in REPLIES


def pairs(line: str) -> dict[str, str]:
    return dict(w.split('=', 1) for w in line.split(' ')[1:] if '=' in w)


class Course:
    """what the lines so far leave to the next one: the tick, the reply that was measured last, and the record. Where the program shows its record behind each line, that
    is the record; else it is what the log's numbers tell of it (docs/PROMISES.md, "RULES, No. 8"): reach, stratum and what is awaited"""

    def __init__(self, first: str | None) -> None:
        self.record = pairs(first) if first is not None else {}
        self.follows = first is None
        self.tick: int | None = None
        self.heard: Step | None = None
        self.window: int | None = None

    def step(self, said: answers.Answered) -> Step:
        step = Step(said, self.record)
        if step.makes():
            self.tick = self.heard = None
        step.tick = self.tick = self.tick if step.now is None else step.now
        if step.measured():
            self.heard = step  # it has no `heard` of its own, or each would hold all before it
        else:
            step.heard = self.heard
        if self.follows:
            self.follow(step)
        elif said.record is not None:
            self.record = pairs(said.record)
        step.after = self.record
        return step

    def follow(self, step: Step) -> None:
        """what the numbers tell of the record"""
        if step.head == 'timer':
            if step.number in SHIFTS and 'reach' in self.record:
                self.record = dict(self.record, reach=str(int(self.record['reach']) << 1 & 255))
            if step.number == 20:
                self.record = dict(self.record)
                self.record.pop('pending', None)
                if self.window is not None:
                    self.record['pending'] = '%s/-/%d' % (step.given['id'].lower(), min(step.now + self.window, human.ERA - 1))
        elif step.measured():
            reach = {'reach': str(int(self.record['reach']) | 1)} if 'reach' in self.record else {}
            self.record = dict(reach, stratum=step.gave['stratum'], pending='-')
        elif step.makes() or step.head == 'poke' and not step.error:
            self.begin(step)

    def begin(self, step: Step) -> None:
        """a record that is not the one before, moved on"""
        self.record, window = {'reach': '0', 'stratum': '0', 'pending': '-'}, None  # the blank one
        if step.said.record is not None:
            shown = pairs(step.said.record)
            self.record = {key: shown[key] for key in FOLLOWED if key in shown}
        if step.head == 'poke':
            window = step.given['value'] if step.given['key'] == 'window' else self.window
        elif step.number == 0 and step.head == 'load':
            window = handover.in_file(bytes.fromhex(step.given['file']))['window']
        elif step.number == 0:
            self.record, window = dict(self.record, stratum='16'), step.given['window']
        self.window = int(window) if window is not None else None


def told(sources: Sequence[answers.Source], shown: bool = True) -> Iterator[tuple[answers.Source, Iterator[Step]]]:
    """each log and its steps, which have to be taken before those of the next log. Where a log cannot be read, taking its steps raises answers.Unreadable. `shown`: the
    record is the program's own word at each line, and else what the numbers tell"""
    for source, first, said in answers.Conversation(sources, shown).logs():
        yield source, map(Course(first).step, said)


# ---- the record in words

def pending(value: str) -> str:
    if value == '-':
        return 'nothing'
    ident, _, deadline = value.split('/')
    return '%s until tick %s' % (ident, human.tick(int(deadline)))


# A key of `show`: its words and how its value is written. A key that is not here is shown as it stands.
RECORD: dict[str, tuple[str, Callable[..., str]]] = {
    'reach': ('reach', human.bits), 'tries': ('tries', str), 'version': ('version', str), 'last': ('last poll', human.every), 'remote': ('remote minimum', human.every),
    'pending': ('awaited', pending), 'denial': ('denial noted', str), 'stratum': ('stratum', str), 'refid': ('reference', human.address),
    'read': ('reading place', str), 'held': ('cookies held', str), 'lens': ('cookie lengths', str), 'answered': ('last poll answered', str),
    'unanswered': ('unanswered polls', str), 'capacity': ('capacity', str)}


def field(key: str, value: str, names: Mapping[str, str]) -> tuple[str, str]:
    words, how = RECORD.get(key, (key, str))
    try:
        return words, how(value, names) if how is human.address else how(value)
    except ValueError:
        return words, value


def changes(step: Step) -> list[str]:
    """what the line changed in the record, and nothing else"""
    out = []
    for key, value in step.after.items():
        if step.before.get(key) != value:
            words, now = field(key, value, step.names)
            was = field(key, step.before[key], step.names)[1] if key in step.before else '?'
            out.append('%s %s → %s' % (words, was, now))
    return out


# ---- why

def octets(step: Step) -> bytes:
    try:
        return bytes.fromhex(step.given.get('packet', ''))
    except ValueError:
        return b''


def why_late(step: Step) -> str:
    deadline = int(step.before['pending'].split('/')[2])
    trip = walltime.difference(int(step.given['t4']), int(step.given['t1'])) * 10**9 // human.SECOND
    return '%s too late: the request expired at tick %s; the round trip took %s' % (
        human.length(step.now - deadline), human.tick(deadline), human.length(trip) if trip >= 0 else 'no time that can be told, since T4 is before T1')


def why_kiss(step: Step) -> str:
    """the server's own word: the reference identifier of the packet, or what a decoded reply names"""
    if step.head == 'reply5':
        return '%s; the reply says %s' % (step.row.says, step.given.get('kiss', '-'))
    code = octets(step)[12:16]
    letters = all(0x20 < o < 0x7f for o in code)
    return '%s; the packet says %s' % (step.row.says, code.decode() if letters else code.hex())


def why_stratum(step: Step) -> str:
    theirs, ours = step.before['stratum'], step.given['stratum']
    return 'its stratum is %s, ours is %s%s' % (theirs, ours, '; nothing was measured yet' if step.heard is None and theirs == '16' else '')


def why_version(step: Step) -> str:
    expects = {'v4': '3 or 4', 'upgraded': '5', 'v5': '5'}.get(step.before.get('version', ''), 'another')
    version = '5' if step.head == 'reply5' else str(octets(step)[0] >> 3 & 7)
    return 'it is of version %s, and %s is expected' % (version, expects)


def why_foreign(step: Step) -> str:
    wanted = step.before['pending'].split('/')[0]
    found = step.given.get('cookie') if step.head == 'reply5' else octets(step)[24:32].hex()
    return 'it answers %s, and %s was asked' % (found, wanted) if found != wanted else 'its unique identifier is not that of the request'


def why_undecodable(step: Step) -> str:
    packet = octets(step)
    if len(packet) < 48:
        return 'it has %d bytes, and a packet has 48 or more' % len(packet)
    if packet[0] >> 3 & 7 not in (3, 4):
        return 'it is of version %d, and 3 and 4 can be read' % (packet[0] >> 3 & 7)
    end = step.given.get('auth', '48')
    if end == '0':
        return 'the caller could not decrypt it (auth=0)'
    return 'its extension fields are broken, or none of them starts at its authenticated end (auth=%s)' % end


def cookie_lengths(step: Step) -> list[int]:
    """the lengths of a whole cookie list's cookies"""
    octets, out = bytes.fromhex(step.given['list']), []
    while octets:
        out.append(int.from_bytes(octets[2:4], 'big'))
        octets = octets[4 + out[-1]:]
    return out


# The rules of the metered profile.
PROFILE = {34: lambda s: 'the lower poll limit is %s, and has to be 8 (256 s) or more' % s.given['min'],
           35: lambda s: 'the startup limit is %s, and has to be 3 or less' % s.given['startup'],
           36: lambda s: 'the start version is %s, and the profile has no upgrading' % s.given['start'],
           37: lambda s: 'a cookie of the first list has %d bytes, and may have 100' % next(n for n in cookie_lengths(s) if n > 100)}

def file_of(step: Step, key: str) -> bytes:
    return b'' if step.given[key] == '-' else bytes.fromhex(step.given[key])


def why_file(step: Step) -> str:
    return handover.fault_in(file_of(step, 'file')) or step.row.says


def why_side(step: Step) -> str:
    """of two files that are compared, which is refused, and why"""
    side = step.gave['side']
    return 'the %s file: %s' % (side, handover.fault_in(file_of(step, side)) if step.number != 63 else step.row.says)


WHY = {('load', 61): why_file, ('load', 62): why_file, ('compare', 61): why_side, ('compare', 62): why_side, ('compare', 63): why_side,
       ('reply', 1): why_undecodable,
       ('reply', 2): why_version, ('reply', 4): why_foreign, ('reply', 6): why_kiss, ('reply', 9): why_kiss, ('reply', 14): why_late,
       ('reply', 10): lambda s: 'its stratum is %d' % octets(s)[1] if s.head == 'reply' else 'its stratum is %s' % s.given['stratum'],
       **{(call, number): why for call in ('metered', 'profile') for number, why in PROFILE.items()},
       ('new', 38): lambda s: 'the start version is %s, and upgrading is retired' % s.given['start'],
       ('accept', 40): why_stratum}


def why(step: Step) -> str:
    """the reason in plain words: from the log's own values where that says more than the number's sentence"""
    special = WHY.get(('reply' if step.head in REPLIES else step.head, step.number))
    if special:
        try:
            return special(step)
        except (KeyError, IndexError, ValueError):
            pass
    return step.row.says


def dropped(step: Step) -> str:
    """what fell out of the stash while cookies were stored; nothing where nothing did"""
    n = int(step.gave.get('dropped', 0))
    return '; %d cookie%s did not fit and fell out (%s bytes)' % (n, '' if n == 1 else 's', step.gave['lost']) if n else ''


def measured(step: Step) -> str:
    g, off, said = step.gave, walltime.offset(step), walltime.measured_offset(step)
    told = human.milliseconds(off, sign=True) if off == said else '%s (by T1 to T4: the measured one stops at %s)' % (human.offset(off), human.offset(said))
    return 'offset %s, delay %s, stratum %s%s%s' % (told, human.milliseconds(int(g['delay'])), g['stratum'],
                                                   '; the source says that it is not synchronized (leap)' if walltime.unsynchronized(step) else '', dropped(step))


def accepted(step: Step) -> str:
    """the true time at which a source was accepted"""
    if step.heard is None:
        return 'no reply was measured yet, so that ticks cannot be turned into wall time'
    at = walltime.at_tick(step.heard, step.tick)
    return 'at %s' % walltime.told(at) if at is not None else ''


def settings(g: Mapping[str, str], names: Mapping[str, str]) -> str:
    return ('polls every %s to %s, gives up from %s tries on where none of the last eight polls was answered, waits %s for a reply; version %s, %s, source %s'
            % (human.every(g['min']), human.every(g['max']), g['startup'], human.span(int(g['window'])), g['start'], nts(g), human.address(g['source'], names)))


def nts(g: Mapping[str, str]) -> str:
    """with NTS or not, and how many cookies the stash holds where that is not the usual eight"""
    if g['nts'] != 'yes':
        return 'no NTS'
    capacity = g.get('capacity', '8')
    return 'with NTS' + ('' if capacity == '8' else ' and a stash of %s' % capacity)


def made(step: Step) -> str:
    return settings(step.given, step.names) + dropped(step)


def loaded(step: Step) -> str:
    retired = '; the file had a version that is retired, upgrading, which is V4 now' if step.gave['retired'] == 'yes' else ''
    return 'it has sent nothing yet; ' + settings(handover.in_file(bytes.fromhex(step.given['file'])), step.names) + retired


def saved(step: Step) -> str:
    held = int(step.before.get('held', 0))
    return '%s bytes%s' % (step.gave['len'], '; %d %s went with it, and the stash is empty' % (held, 'cookie' if held == 1 else 'cookies') if held else '')


def sent(step: Step) -> str:
    until = step.after.get('pending', '-')
    return '%s, the next in %s%s' % (step.gave['send'], human.every(step.gave['poll']), '' if until == '-' else ', a reply is awaited until tick ' + human.tick(int(until.split('/')[2])))


def compared(step: Step) -> str:
    """the fields in which two boxes differ, the left reading and then the right one"""
    rows = [handover.entry(word) for word in step.answer.split(' ')[3:]]
    return '; '.join('%s: %s and %s%s' % (words, left, right, ' (%s)' % note if note else '') for words, left, right, note in rows) or 'nothing differs'


GOOD = {'new': made, 'metered': made, 'timer': sent, 'reply': measured, 'reply5': measured, 'accept': accepted, 'load': loaded, 'save': saved, 'compare': compared}


def rest(step: Step) -> str:
    """the values of an answer that have no words here"""
    return ' '.join(w if len(w) < 100 else w[:97] + '..' for w in step.answer.split(' ')[2:])


def fault(step: Step) -> str:
    """what is wrong with a line that was answered `error`"""
    return run.fault(step.text, step.answer.split(' ', 2)[-1])


def headed(step: Step) -> str:
    """what happened, with its number"""
    good, bad = TOLD.get(step.head, (step.head, step.head + ' refused'))
    return '%s (%d)' % (good if step.good() else 'stop, ' + step.row.short if step.kind == 'stop' else bad, step.number)


def sentence(step: Step) -> str:
    """a step in plain words, without its time"""
    if step.error:
        return 'error: ' + fault(step)
    if step.answer.startswith('record '):
        return 'the record: ' + ', '.join('%s %s' % field(k, v, step.names) for k, v in step.gave.items())
    if step.number is None or step.head not in TOLD and not step.row.says:
        return step.answer if len(step.answer) < 200 else step.answer[:197] + '..'
    head = headed(step)
    if not step.good():
        return '%s: %s' % (head, why(step) or rest(step))
    try:
        more = GOOD[step.head](step) if step.head in GOOD else rest(step)
    except (KeyError, ValueError):
        more = rest(step)
    return '%s%s' % (head, ': ' + more if more else '')


def in_short(step: Step) -> str:
    """a step in the words that every step with its number shares: what happened, and what the number says"""
    if step.number is None:
        return step.head
    return headed(step) if step.good() or not step.row.says else '%s: %s' % (headed(step), step.row.says)


def own_clock(step: Step) -> str | None:
    """what the box's own wall clock read, where the line gives it: it may be wrong"""
    t4 = step.given.get('t4', '')
    return human.wall(int(t4)) if t4.isdigit() and not step.error and int(t4) < human.ERA else None
