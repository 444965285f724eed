"""./drill --watch FOLDER --page OUT.html [--every SECONDS] [--far LENGTH]: the page of a folder whose logs grow, made again and again until Ctrl-C. Of a log only what grew
is read; one that was cut or replaced is read anew; one that is gone stays on the page and says so. The page is written beside its place and moved there in one step."""
import copy
import os
import select
import signal
import stat
import time
from collections.abc import Iterator

import answers
import boxes as folder
import ends
import human
import marks
import page
import story
import verdict

EVERY = 5               # seconds between two looks, where nothing else is said
HEAD = 4096             # octets at the beginning of a log by which it is known to be the same one
PIECE = 16384           # octets that are read and asked together
TAIL = 2000             # lines that are asked again at most, before the whole log is read again instead
UNSAID = 64             # seconds: the poll interval of a box that has sent no poll


def allowed(poll: int | None) -> float:
    """for how many seconds a log may stay as it is: one and a half of the box's poll intervals, and ten seconds"""
    return 10 + 1.5 * (UNSAID if poll is None else 2.0 ** poll)


class Log:
    """a log that is watched: how far it was read, what is kept of it, and how its association is brought back"""

    def __init__(self, path: str, far: int, many: int, codes: marks.Codes) -> None:
        self.path, self.far, self.many, self.codes = path, far, many, codes
        self.grew: float | None = None       # when, by the clock of this machine
        self.gone: float | None = None
        self.unread: str | None = None       # why it could not be looked at
        self.at_desk = False                 # whether the program's record is this log's
        self.begin()

    def begin(self) -> None:
        """as if it had not been read"""
        self.identity: tuple[int, int] | None = None
        self.size, self.stamp, self.head = 0, 0, b''
        self.lines = human.Lines()
        self.course = story.Course(None)
        self.drawing = marks.Drawing(self.far, self.many, self.codes)
        self.names: dict[str, str] = {}
        self.kept: answers.Kept | None = answers.BLANK
        self.tail: list[str] = []            # what the program was asked since
        self.made = 1                        # the line from which on the record is known: the last that makes an association, or ends one
        self.fault: str | None = None        # why it is no log

    # -- what is new

    def look(self, desk: answers.Desk) -> None:
        """takes what is new"""
        self.unread, self.at_desk = None, False
        try:
            file = os.open(self.path, os.O_RDONLY | os.O_NONBLOCK)   # a FIFO of that name must not hold up the others
        except FileNotFoundError:
            self.gone = self.gone or time.time()
            return
        except OSError as fault:
            self.unread = 'it cannot be read: %s' % fault.strerror
            return
        try:
            self.take(file, desk)
        except human.NotText as fault:
            self.fault = str(fault)
        except OSError as fault:
            self.unread = 'it cannot be read: %s' % fault.strerror
        finally:
            os.close(file)

    def take(self, file: int, desk: answers.Desk) -> None:
        found = os.fstat(file)
        self.gone = None
        if not stat.S_ISREG(found.st_mode):
            self.unread = 'it is no file'
            return
        identity = found.st_dev, found.st_ino
        if identity == self.identity and (found.st_size, found.st_mtime_ns) == (self.size, self.stamp):
            return
        head = os.pread(file, HEAD, 0)
        if self.identity and (identity != self.identity or found.st_size <= self.size or not head.startswith(self.head)):
            self.begin()
        self.grew = time.time() if self.grew is not None else found.st_mtime
        self.identity, self.stamp, self.head = identity, found.st_mtime_ns, head[:found.st_size]
        while octets := os.pread(file, min(PIECE, found.st_size - self.size), self.size):
            self.size += len(octets)
            self.answered(self.lines.more(octets), desk)

    def answered(self, lines: list[tuple[int, str]], desk: answers.Desk) -> None:
        """asks what new lines say, and takes the answers"""
        asked = []
        for line, text in lines:
            names, one = answers.prepared(line, text)
            self.names.update(names or {})
            if one:
                asked.append(one)
        if not asked:
            return
        if not self.at_desk:
            desk.bring(self.kept.lines if self.kept else self.whole(asked[0].line), self.path)
            desk.bring(self.tail, self.path)
        mine: list[str] = []
        for one in asked:
            mine += [one.sent, 'show'] if one.sent.startswith(answers.HIDE_RECORD) else [one.sent]
        said, at = desk.ask(mine, self.path), 0
        for one in asked:
            shown = one.sent.startswith(answers.HIDE_RECORD)
            step = self.course.step(answers.Answered(one, said[at], said[at + 1] if shown else None, self.names))
            self.drawing.take(step)
            if step.makes():   # what was before it leaves nothing in the record
                self.kept, self.tail, self.made, mine, said, at = answers.BLANK, [], one.line, mine[at:], said[at:], 0
            at += 1 + shown
        kept, self.at_desk = desk.keep(self.path)
        if kept:
            self.kept, self.tail = kept, []
        elif self.kept and len(self.tail) + len(mine) <= TAIL:
            self.tail += mine
        else:
            self.kept, self.tail = None, []

    def whole(self, before: int) -> Iterator[str]:
        """the lines of the log before one that have made the record: for one that no file brings back"""
        yield 'blank'
        lines, left = human.Lines(), self.size
        with open(self.path, 'rb') as file:
            while octets := file.read(min(PIECE, left)):
                left -= len(octets)
                for number, text in lines.more(octets):
                    _, one = answers.prepared(number, text) if self.made <= number < before else (None, None)
                    if one:
                        yield one.sent

    # -- what is shown

    def box(self, name: str, now: float) -> marks.Box:
        if self.gone is not None:
            return marks.Box(name, verdict.unreadable('its log is gone since %s' % at(self.gone), 'gone'))
        if self.unread or self.fault:
            return marks.Box(name, verdict.unreadable(self.unread or self.fault, 'no log'))
        judge = self.drawing.judge
        if judge.waiting:
            judge = copy.deepcopy(judge)   # the judge itself still waits for the line that places them
            judge.over()
        silent = self.grew is not None and now - self.grew > allowed(self.drawing.poll)
        return marks.Box(name, judge.verdict(), self.drawing, self.silence(now) if silent else None)

    def silence(self, now: float) -> str:
        every = 'it polls every %s' % human.every(self.drawing.poll) if self.drawing.poll is not None else 'no poll of it was seen'
        return 'not heard since %s, for %s; %s' % (at(self.grew), human.length(int(now - self.grew) * 10**9), every)


def at(when: float) -> str:
    return time.strftime('%Y-%m-%d %H:%M:%S UTC', time.gmtime(when))


class Watch:
    def __init__(self, place: str, out: str, every: int, far: int) -> None:
        self.place, self.out, self.every, self.far = place, out, every, far
        self.codes = marks.Codes()
        self.logs: dict[str, Log] = {}
        self.desk = answers.Desk()
        self.bell = os.pipe()                # Ctrl-C writes into it, so that nothing is ended half-way
        self.trouble: str | None = None      # what was said last, so that it is not said again and again

    def say(self, trouble: str | None) -> None:
        if trouble and trouble != self.trouble:
            ends.say(trouble)
        self.trouble = trouble

    def look(self) -> None:
        """takes what is new in the folder"""
        try:
            found = folder.logs_in(self.place)
            self.say(None if found or self.logs else '%s has no log in it yet: a log is a file whose name ends with %s' % (self.place, folder.ENDING))
        except OSError as fault:
            found = []
            self.say('%s cannot be read, and is looked at again: %s' % (self.place, fault.strerror))
        many = max(len(found), len(self.logs))
        for path in found:
            if path not in self.logs:
                self.logs[path] = Log(path, self.far, many, self.codes)
        for log in self.logs.values():
            if self.stopped(0):
                return
            log.look(self.desk)

    def stop(self, *_: object) -> None:
        os.write(self.bell[1], b'.')

    def stopped(self, seconds: float) -> bool:
        """whether it is to end, after so many seconds at most"""
        return bool(select.select([self.bell[0]], [], [], seconds)[0])

    def made(self, ended: bool = False) -> bytes:
        now = time.time()
        paths = sorted(self.logs)
        shown = [self.logs[path].box(name, now) for path, name in zip(paths, folder.names_of(paths))]
        shown = folder.worst_first([(box, box.verdict) for box in shown])
        return page.render(shown, self.codes, 0 if ended else self.every, ended).encode('utf-8', 'replace')

    def write(self, octets: bytes) -> str | None:
        """puts the page in its place, whole or not at all; gives back what was in the way"""
        beside = os.path.join(os.path.dirname(self.out) or '.', '.%s.%d' % (os.path.basename(self.out), os.getpid()))
        try:
            with open(beside, 'wb') as file:
                file.write(octets)
            os.replace(beside, self.out)
        except OSError as fault:
            if os.path.exists(beside):
                os.remove(beside)
            return '%s cannot be written: %s' % (self.out, fault.strerror)
        return None

    def run(self) -> None:
        first = True
        while True:
            begun = time.monotonic()
            self.look()
            if first and self.stopped(0):
                return
            trouble = self.write(self.made(ended=self.stopped(0)))
            if trouble and first:
                ends.die(trouble)
            if trouble:
                ends.say(trouble + '; the page before it is still there')
            elif first:
                ends.say('watching %s, a page every %d s at %s; Ctrl-C ends it' % (self.place, self.every, self.out))
            first = False
            if self.stopped(max(0.0, self.every - (time.monotonic() - begun))):
                break
        trouble = self.write(self.made(ended=True))
        if trouble:
            ends.die(trouble)


def main(place: str, out: str, every: int = EVERY, far: int = verdict.FAR) -> int:
    if not os.path.isdir(place):
        ends.die('%s is no folder: --watch takes the folder with the logs' % place)
    watch = Watch(place, out, every, far)
    for which in (signal.SIGINT, signal.SIGTERM):
        signal.signal(which, watch.stop)
    watch.run()
    watch.desk.close()
    return ends.ALL_ANSWERED
