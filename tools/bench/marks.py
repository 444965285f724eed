"""What is kept of a box to draw it, however long its log is: the worst kind of each stretch of time, the marks in a short form, and lines in words. All of it is bounded,
so that a log can be watched for weeks. What became of the box is decided in `verdict`; how all this looks is said in `page`."""
from collections.abc import Iterator
from typing import NamedTuple

import human
import story
import verdict

BINS = 512              # stretches of time that are kept of a lane
LANES = 8               # lanes that are kept of a box
# Characters on a page that all boxes share: marks in the short form, and lines in words. No box has less than the second number.
MARKS, WORDS = (600_000, 2_000), (100_000, 330)
FEW = 30                # so many boxes have their marks to the millisecond; of more they are to the second, which keeps the page small
# From the worst kind to the one that tells least: that a bucket of several marks has.
WORST = ('stop', 'lost', 'caller', 'kiss', 'broken', 'foreign', 'late', 'silent', 'accepted', 'good', 'made', 'stray', 'quiet', 'poll')
RANK = {kind: k for k, kind in enumerate(WORST)}
DIGITS = '0123456789abcdefghijklmnopqrstuvwxyz'
LETTERS = ''.join(map(chr, [*range(ord('A'), ord('Z') + 1), *range(0xc0, 0x100)]))   # a code of the short form each
REACH = '='             # of the short form: the reach register is what stands before it
PAIR = '*'              # of the short form: a poll and then its reply, both without anything beside their letters but the poll's time
NONE = '\0'


def base36(n: int) -> str:
    if n < 0:
        return '-' + base36(-n)
    out = ''
    while n or not out:
        n, digit = divmod(n, 36)
        out = DIGITS[digit] + out
    return out


class Code(NamedTuple):
    """what marks of one kind are alike in"""
    kind: str
    row: str          # poll, reply or made
    words: str
    rises: bool       # the source is accepted from here on
    falls: bool       # and from here on it is not
    reach: str = ''   # what it does to the reach register: moves it on (<), sets the newest bit (1), empties it (0)


# What a code makes of the reach register, where the log does not say otherwise.
REACHES = {'<': lambda reach: reach << 1 & 255, '1': lambda reach: reach | 1, '0': lambda reach: 0, '': lambda reach: reach}


class Codes:
    """the codes of a page, each with its letter, in the order in which they came"""

    def __init__(self) -> None:
        self.letters: dict[Code, str] = {}

    def letter(self, code: Code) -> str:
        if code not in self.letters:
            self.letters[code] = LETTERS[min(len(self.letters), len(LETTERS) - 1)]
        return self.letters[code]

    def pair(self) -> str:
        """what PAIR stands for"""
        return ''.join(letter for code, letter in sorted(self.letters.items(), key=lambda item: item[0].reach != '<') if code.kind == 'poll' or code.reach == '1')


class Bins:
    """the worst kind in each stretch of time. A stretch is as short as BINS of them allow"""

    def __init__(self) -> None:
        self.shift = 20    # a stretch has 2^shift ns: about a millisecond at first
        self.kinds: dict[int, str] = {}

    def add(self, tick: int, kind: str) -> None:
        self.put(tick >> self.shift, kind)
        while len(self.kinds) > BINS:
            old, self.kinds, self.shift = self.kinds, {}, self.shift + 1
            for key, kind_ in old.items():
                self.put(key >> 1, kind_)

    def put(self, key: int, kind: str) -> None:
        if key not in self.kinds or RANK[kind] < RANK[self.kinds[key]]:
            self.kinds[key] = kind

    def each(self) -> Iterator[tuple[int, str]]:
        """a tick and the kind there, in the order of time"""
        for key in sorted(self.kinds):
            yield key << self.shift, self.kinds[key]


class Short:
    """the marks in the short form, the oldest left out where there are too many. A mark is, in base 36, how much later it is than the mark before and, behind a colon, how
    many lines further on, each left out where it is as it was at the last mark of that code; and then its code's letter. page.js reads it"""

    def __init__(self, unit: int, most: int) -> None:
        self.unit, self.most = unit, most
        self.pieces: list[list] = []     # each begins on its own: tick and line before it, reach, whether accepted, its characters, and how many marks they are
        self.length = self.count = 0     # of the marks that are kept
        self.total = 0                   # and of all
        self.tick = self.line = self.reach = 0
        self.accepted = False
        self.usual: dict[str, tuple[int, int]] = {}
        self.asked = NONE                # the letter of a poll, where that is the mark before

    def add(self, letter: str, code: Code, tick: int, line: int, reach: int | None) -> None:
        if not self.pieces or len(self.pieces[-1][4]) >= 500:
            self.pieces.append([self.tick, self.line, self.reach, self.accepted, '', 0])
            self.usual = {}
        at = tick // self.unit
        later, further = at - self.tick, line - self.line
        was = self.usual.get(letter, (0, 1))
        text = (base36(later) if later != was[0] else '') + (':' + base36(further) if further != was[1] else '') + letter
        self.usual[letter] = later, further
        self.tick, self.line = at, line
        self.accepted = code.rises or self.accepted and not code.falls
        self.reach = REACHES[code.reach](self.reach)
        if reach is not None and reach != self.reach:
            text += base36(reach) + REACH
            self.reach = reach
        before = self.pieces[-1][4]
        if text == letter and code.reach == '1' and before.endswith(self.asked):
            self.pieces[-1][4] = before.removesuffix(self.asked) + PAIR
        else:
            self.pieces[-1][4] += text
            self.length += len(text)
        self.asked = letter if code.kind == 'poll' else NONE
        self.pieces[-1][5] += 1
        self.count += 1
        self.total += 1
        self.keep(self.most)

    def keep(self, most: int) -> None:
        """no more characters than that, but for the last piece"""
        self.most = most
        while self.length > self.most and len(self.pieces) > 1:
            gone = self.pieces.pop(0)
            self.length -= len(gone[4])
            self.count -= gone[5]


class Lane:
    """what is kept of one server"""

    def __init__(self, server: verdict.Server, codes: Codes, unit: int, most: int) -> None:
        self.server, self.codes = server, codes
        self.bins, self.short = Bins(), Short(unit, most)
        self.marks = 0
        self.risen = 0                     # how often its source was accepted so far
        self.asked: int | None = None      # the tick of a poll that has no answer yet
        self.low: int | None = None
        self.high = 0

    def take(self, step: story.Step, now: int) -> bool:
        """gives back whether the step is more than the course of things"""
        code = self.code(step)
        if code is None:
            return False
        self.low, self.high = now if self.low is None else min(self.low, now), max(self.high, now)
        self.marks += 1
        if (code.kind == 'poll' or code.row == 'made') and self.asked is not None:
            self.bins.add(self.asked, 'silent')
        self.asked = now if code.kind == 'poll' else None if step.measured() or code.row == 'made' else self.asked
        self.bins.add(now, code.kind)
        reach = step.after.get('reach', '')
        first = not self.short.total
        self.short.add(self.codes.letter(code), code, now, step.line, int(reach) if reach.isdigit() else None)
        return first or code.kind not in ('poll', 'good') or step is self.server.first

    def code(self, step: story.Step) -> Code | None:
        """what is drawn of a step; nothing of one that changes nothing"""
        falls = self.server.ended is not None and self.server.ended.step is step
        if step.error:
            return Code('caller', 'reply', 'error: the line is no command that can be answered', False, False)
        if step.head in story.MAKES:
            return Code('made' if step.good() else 'caller', 'made', story.in_short(step), False, falls, '0')
        if step.head == 'timer' and step.number == verdict.SENT:
            return Code('poll', 'poll', story.in_short(step), False, False, '<')
        if step.head == 'accept':
            return self.accepted(step, falls)
        if step.head in story.REPLIES or step.number is not None and not step.good():
            reach = '1' if step.measured() else '<' if step.head == 'timer' and step.number in story.SHIFTS else ''
            return Code(step.kind, 'poll' if step.head == 'timer' else 'reply', story.in_short(step), False, falls, reach)
        return None

    def accepted(self, step: story.Step, falls: bool) -> Code | None:
        """only what changes is drawn: the source is accepted, or is not any more"""
        if self.server.rises > self.risen:
            self.risen = self.server.rises
            return Code('accepted', 'reply', story.in_short(step), True, False)
        return Code('lost', 'reply', story.in_short(step), False, True) if falls else None


class Line(NamedTuple):
    """a line of the log in words"""
    line: int
    tick: int | None
    says: str
    tells: bool      # it is more than the course of things

    def text(self) -> str:
        return '%d%s: %s' % (self.line, ', tick ' + human.tick(self.tick) if self.tick is not None else '', self.says)


class Words:
    """lines of the log in words: all of them where there is room, else those that tell something, and of these the first and the last"""

    def __init__(self, most: int) -> None:
        self.most, self.length = most, 0
        self.lines: list[Line] = []
        self.left_out = 0
        self.every = True

    def take(self, step: story.Step, tells: bool) -> None:
        if not tells and not self.every:
            self.left_out += 1
            return
        clock = story.own_clock(step)
        self.lines.append(Line(step.line, step.now, story.sentence(step) + ("; the box's own wall clock " + clock if clock else ''), tells))
        self.length += len(self.lines[-1].text()) + 1
        if self.length > self.most and self.every:
            self.every = False
            self.keep([line for line in self.lines if line.tells])
        while self.length > self.most and len(self.lines) > 2:
            self.length -= len(self.lines[len(self.lines) // 4].text()) + 1
            del self.lines[len(self.lines) // 4]
            self.left_out += 1

    def keep(self, lines: list[Line]) -> None:
        self.left_out += len(self.lines) - len(lines)
        self.lines, self.length = lines, sum(len(line.text()) + 1 for line in lines)


class Drawing:
    """what is kept of a box, step by step"""

    def __init__(self, far: int, boxes: int, codes: Codes) -> None:
        self.judge, self.codes = verdict.Judge(far, every=True), codes
        self.unit = 10**6 if boxes <= FEW else 10**9
        self.most = max(MARKS[0] // boxes, MARKS[1])
        self.words = Words(max(WORDS[0] // boxes, WORDS[1]))
        self.by_server: dict[verdict.Server, Lane] = {}
        self.undrawn = 0                   # lanes that are not kept any more
        self.poll: int | None = None       # the exponent of the last poll that was sent

    def take(self, step: story.Step) -> None:
        if step.head == 'timer' and step.number == verdict.SENT:
            self.poll = int(step.gave['poll'])
        self.draw(self.judge.take(step))

    def over(self) -> None:
        self.draw(self.judge.over())

    def draw(self, placed: list[verdict.Placed]) -> None:
        for step, server, tick in placed:
            if server not in self.by_server:
                self.begin(server)
            self.words.take(step, self.by_server[server].take(step, tick or 0))

    def begin(self, server: verdict.Server) -> None:
        """another lane: all share the room, and of too many the oldest goes, at first of those that were restarted"""
        self.by_server[server] = Lane(server, self.codes, self.unit, self.most)
        if len(self.by_server) > LANES:
            del self.by_server[next((one for one in self.by_server if one not in self.judge.servers), next(iter(self.by_server)))]
            self.undrawn += 1
        for lane in self.by_server.values():
            lane.short.keep(self.most // len(self.by_server))

    def lanes(self) -> list[Lane]:
        return [lane for lane in self.by_server.values() if lane.marks]


class Box:
    """a log that is judged, with what is drawn of it"""

    def __init__(self, name: str, judged: verdict.Verdict, drawing: Drawing | None = None, note: str | None = None) -> None:
        self.name, self.verdict, self.drawing, self.note = name, judged, drawing, note   # note: what is said beside the verdict, as of a log that grows no more
        self.lanes = drawing.lanes() if drawing else []

    def times(self) -> Iterator[int]:
        for lane in self.lanes:
            yield lane.low
            yield lane.high
            yield from (min(max(tick, lane.low), lane.high) for tick, _ in lane.bins.each())


def drawn(name: str, steps: Iterator[story.Step], far: int, boxes: int, codes: Codes) -> Box:
    """the box of a whole log, one of so many"""
    drawing = Drawing(far, boxes, codes)
    for step in steps:
        drawing.take(step)
    drawing.over()
    return Box(name, drawing.judge.verdict(), drawing)
