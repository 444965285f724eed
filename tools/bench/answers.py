"""One proved program answers all logs, one behind the other. A thread hands it their lines while the answers are read, so that a log that is still being written is
answered as it grows, and a long one is never held as a whole."""
import collections
import itertools
import os
import queue
import stat
import subprocess
import threading
from collections.abc import Iterable, Iterator, Sequence
from typing import Any, NamedTuple

import ends
import human
import program

AT_ONCE = 65536               # octets of a log that are read and handed over together
TOGETHER = 1000               # lines whose answers are waited for together
KEEP_RECORD = ('accept', 'show')     # the commonest lines that leave the record as it was: no `show` is asked behind them
HIDE_RECORD = ('load', 'poke')       # the lines behind which the log's own numbers do not tell what the record is


class Unreadable(Exception):
    """why a log cannot be read, for people"""


class Asked(NamedTuple):
    """a line that the program was asked"""
    line: int
    text: str                # as it stands in the log
    sent: str                # with plain numbers


class Noted(NamedTuple):
    """the IPv6 addresses that a line of the log names, by their identifiers"""
    names: dict[str, str]


class Answered(NamedTuple):
    asked: Asked
    answer: str
    record: str | None       # the answer of the `show` behind it, where one was asked: else the record is what it was
    names: dict[str, str]    # the IPv6 addresses that the log has named so far


class Source:
    """a log: a file, a FIFO, or standard input for `-`. One that nobody named is not waited for: a FIFO among the logs of a folder would hold up all the others"""

    def __init__(self, path: str, named: bool = True) -> None:
        self.path, self.named = path, named
        self.called = 'standard input' if path == '-' else path

    def opened(self) -> int:
        if self.path == '-':
            return os.dup(0)
        try:
            if not self.named and stat.S_ISFIFO(os.stat(self.path).st_mode):
                raise Unreadable('it is no file')
            return os.open(self.path, os.O_RDONLY)
        except (OSError, ValueError) as fault:
            raise Unreadable('it cannot be read: %s' % (getattr(fault, 'strerror', None) or fault)) from None

    def is_file(self) -> bool:
        """whether it can be read at once, as a file on a disk can"""
        try:
            return stat.S_ISREG((os.fstat(0) if self.path == '-' else os.stat(self.path)).st_mode)
        except OSError:
            return False

    def lines(self) -> Iterator[list[tuple[int, str]]]:
        """its lines with their numbers, as many at a time as are there"""
        lines, source = human.Lines(), self.opened()
        try:
            while True:
                octets = os.read(source, AT_ONCE)
                yield lines.more(octets) if octets else lines.over()
                if not octets:
                    return
        except human.NotText as fault:
            raise Unreadable(str(fault)) from None
        except OSError as fault:
            raise Unreadable('it is a folder, and no log in it was read' if isinstance(fault, IsADirectoryError) else 'it cannot be read: %s' % fault.strerror) from None
        finally:
            os.close(source)


def prepared(line: int, text: str) -> tuple[dict[str, str] | None, Asked | None]:
    """the IPv6 addresses that a line names, and what the program is asked by it"""
    names = human.named(text) if text.startswith(('#', 'new ', 'metered ', 'accept ')) else None
    return names, Asked(line, text, human.translated(text)) if text and not text.startswith('#') else None


def started(**how: Any) -> subprocess.Popen:
    """the program. What it says beside its answers is not for here; a pipe that nobody reads would stop it"""
    return subprocess.Popen(program.drill(), stdin=subprocess.PIPE, stdout=subprocess.PIPE, stderr=subprocess.DEVNULL, **how)


class Conversation:
    """the program, and the thread that asks it. `shown` has it show its record before the first line and behind each; else only where the numbers do not tell it"""

    def __init__(self, sources: Sequence[Source], shown: bool) -> None:
        self.sources, self.shown = sources, shown
        self.asked: queue.SimpleQueue = queue.SimpleQueue()  # what the program has not taken yet holds the thread back, and so keeps this short
        if any(source.path == '-' for source in sources):
            ends.need_stdin()
        self.program = started()
        self.into = self.program.stdin.fileno()
        threading.Thread(target=self.ask, daemon=True).start()

    def shows(self, sent: str) -> bool:
        """whether the record is shown behind a line"""
        return not sent.startswith(KEEP_RECORD) if self.shown else sent.startswith(HIDE_RECORD)

    # -- the thread that asks

    def ask(self) -> None:
        try:
            for k, source in enumerate(self.sources):
                self.send(['blank'] if k else ['show'] if self.shown else [])  # behind a `blank` the record is the first one again
                self.asked.put(self.ask_one(source))
        except Exception as fault:  # it is told where the answers are taken; there a program that is gone is seen first
            self.asked.put(fault)
        self.program.stdin.close()

    def ask_one(self, source: Source) -> Unreadable | None:
        """hands over the lines of a log; gives back why not all of it could be read"""
        try:
            for lines in source.lines():
                sent = []
                for line, text in lines:
                    names, asked = prepared(line, text)
                    if names:
                        self.asked.put(Noted(names))
                    if asked:
                        sent.append(asked.sent)
                        self.asked.put(asked)
                        if self.shows(asked.sent):
                            sent.append('show')
                self.send(sent)
        except Unreadable as fault:
            return fault
        return None

    def send(self, lines: list[str]) -> None:
        octets = memoryview(''.join(line + '\n' for line in lines).encode('latin-1'))
        while octets:
            octets = octets[os.write(self.into, octets):]

    # -- what is answered

    def answer(self, source: Source, asked: Asked | None = None) -> str:
        said = self.program.stdout.readline()
        if not said.endswith(b'\n'):
            where = 'line %d of %s' % (asked.line, source.called) if asked else source.called
            ends.die('the program ended with %s and left %s without an answer' % (ends.wait_status(self.program.wait()), where))
        return said[:-1].decode('latin-1')

    def answers(self, source: Source) -> Iterator[Answered]:
        """the answers of one log, to be taken before those of the next"""
        names: dict[str, str] = {}
        while True:
            item = self.asked.get()
            if isinstance(item, Asked):
                yield Answered(item, self.answer(source, item), self.answer(source, item) if self.shows(item.sent) else None, names)
            elif isinstance(item, Noted):
                names.update(item.names)
            elif item is None:
                return
            else:
                raise item

    def logs(self) -> Iterator[tuple[Source, str | None, Iterator[Answered]]]:
        """each log, the record before its first line, and its answers"""
        record = self.answer(self.sources[0]) if self.shown else None
        for k, source in enumerate(self.sources):
            if k:
                self.answer(source)
            said = self.answers(source)
            yield source, record, said
            collections.deque(said, 0)  # what was not taken is not the next log's
        if self.program.wait() not in (ends.ALL_ANSWERED, ends.A_LINE_ERRED):
            ends.die('the program ended with %s behind the last answer' % ends.wait_status(self.program.returncode))


class Kept(NamedTuple):
    """an association put aside: the lines that bring the program's record to where it was"""
    lines: tuple[str, ...]


BLANK = Kept(('blank',))


class Desk:
    """one program that stays up and is asked of many logs in turn. Before the lines of a log its record is brought back: from a hand-over file that the program itself wrote
    when nothing was awaited, and by the lines since then. Whether the file brings back all that `show` tells is tried when it is written"""

    def __init__(self) -> None:
        self.program = started(start_new_session=True)  # Ctrl-C is for the watch, which ends the program itself
        self.asked: queue.SimpleQueue = queue.SimpleQueue()
        threading.Thread(target=self.send, daemon=True).start()

    def ask(self, lines: list[str], called: str) -> list[str]:
        """an answer to each line"""
        self.asked.put(''.join(line + '\n' for line in lines).encode('latin-1'))
        out = []
        for _ in lines:
            said = self.program.stdout.readline()
            if not said.endswith(b'\n'):
                ends.die('the program ended with %s and left %s without an answer' % (ends.wait_status(self.program.wait()), called))
            out.append(said[:-1].decode('latin-1'))
        return out

    def bring(self, lines: Iterable[str], called: str) -> None:
        """asks lines, however many they are, whose answers are known"""
        left = iter(lines)
        while some := list(itertools.islice(left, TOGETHER)):
            self.ask(some, called)

    def send(self) -> None:
        """hands over what is asked, beside the reading of the answers: a program that waits until its answers are read takes no line"""
        while True:
            octets = self.asked.get()
            try:
                self.program.stdin.write(octets)
                self.program.stdin.flush()
            except OSError:
                return  # a program that is gone is seen where its answers are read

    def keep(self, called: str) -> tuple[Kept | None, bool]:
        """the record as it is, put aside, and whether the program still has it; nothing where a request is awaited, or where a file does not bring all of it back"""
        shown = self.ask(['show'], called)[0]
        if ' pending=- ' not in shown:
            return None, True
        saved = self.ask(['save'], called)[0]
        kept = BLANK
        if saved.startswith('save 0 '):
            kept = Kept(('load file=' + saved.rpartition('=')[2], 'poke key=answered value=%d' % (' answered=yes ' in shown)))
        same = bare(self.ask([*kept.lines, 'show'], called)[-1]) == bare(shown)
        return (kept, True) if same else (None, False)

    def close(self) -> None:
        self.program.stdin.close()
        self.program.wait()


def bare(shown: str) -> list[str]:
    """a shown record without the reading place: cookies come out in the same order wherever it is"""
    words = [word for word in shown.split(' ') if not word.startswith(('read=', 'lens='))]
    return words + sorted(next((word for word in shown.split(' ') if word.startswith('lens=')), '').partition('=')[2].split(','))
