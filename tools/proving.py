"""One line of progress while rt proves, the same for ./drill and ./connect: the crate, how many of how many, the seconds, and how long it may still take.

On a terminal the line is written over each second; elsewhere a line is written for each crate that was proved. What is left is told from the seconds that each crate
took when it was last proved here, which are kept in target/seconds.json, and before that from the table below. The seconds that are left never jump: they rise by
at most one in a second and fall by at most five, but for crates that turn out to be proved already, which take their share with them.

rt proves the crates one after the other, those below first, each by as many processes as it sees fit. It says which crate it begins with (`rt: chose --jobs 2 for
NAME`), and ends each with its verdict (`logic=proved ..`); of a crate whose library is built already it says nothing.

What is not proved again is told by content, as rt itself does it: a source that was only touched counts as unchanged."""
import fcntl
import hashlib
import json
import os
import platform
import re
import select
import shutil
import subprocess
import time
from typing import Any, Callable, Dict, IO, Iterable, List, Optional, Sequence, Set

ROOT = os.path.dirname(os.path.dirname(os.path.realpath(__file__)))
TARGET = os.path.join(ROOT, 'target')
LOCK = os.path.join(TARGET, 'proving.lock')
KEPT = os.path.join(TARGET, 'seconds.json')
OUT = os.path.join(ROOT, 'crates', '%s', 'out')  # what rt keeps of a crate, and makes of it
PARTS = ('src', 'specs', 'proofs', 'stdin', 'stdout', 'args', 'data')  # what rt proves a crate from, and runs a program on
BEGINS = re.compile(r'rt: chose --jobs \d+ for (\w+)$')
VERDICT = re.compile(r'logic=proved ')
OTHERS = ('RT_BACKEND', 'RT_ALLOW_C')  # what would have rt build or allow something else
UNKNOWN = 10  # seconds of a crate that was never proved here and is not in the table
CALM = 60  # the seconds that have to be proved before this run's own pace counts as much as the kept seconds do

# About how many seconds each crate's check takes by the clock. They say how much is left where nothing was proved yet, and are those of an older toolchain.
SECONDS: Dict[str, int] = dict(words=10, laws_log=1, calendar=15, version=5, time_types=6, cookielist=5, reach=3, identifiers=3, cookiestash=18,
                               wire_header=12, salvage=7, record_stash=24, association=15, wire_fields=12, drill_text=59, handover_groups=13, timer_rules=13,
                               wire_collector=6, association_accept=8, association_metered=8, wire_groups=8, record_bytes=27, wire_request=15,
                               handover_file=15, wire_incoming=13, timer=13, wire_cases=37, handover_load=27, handover_save=18, reply_clauses=10,
                               record_new=14, handover_compare=29, record_files=22, reply_rules=21, exports_values=29, reply=15, laws_cases=6,
                               drill_commands=153, record_calls=21, laws=9, drill=55, exports=27)


class Busy(Exception):
    """Nothing can be built: why."""


def kit() -> str:
    """the toolchain's folder, that of the rt on the PATH; nothing where there is none"""
    found = shutil.which('rt')
    return os.path.dirname(os.path.dirname(os.path.realpath(found))) if found else ''


def kit_id() -> bytes:
    """which toolchain this is, by its own word; nothing where there is none"""
    try:
        with open(os.path.join(kit(), 'KIT-ID'), 'rb') as f:
            return f.read()
    except OSError:
        return b''


# ---- the crates

def edges() -> Dict[str, List[str]]:
    """each crate of crates.txt and what it stands on, in the order of the file; io, libc, os and the like are the toolchain's own"""
    with open(os.path.join(ROOT, 'crates.txt')) as f:
        rows = [line.split('#')[0].split(':') for line in f]
    found = {row[0].split()[0]: row[1].split() for row in rows if len(row) == 2}  # what follows the name says that it is a static library
    return {name: [below for below in on if below in found] for name, on in found.items()}


def reached(crate: str) -> List[str]:
    """the crates of the repository that a crate stands on, and itself, in the order of crates.txt"""
    on, found, todo = edges(), set(), [crate]  # type: Dict[str, List[str]], Set[str], List[str]
    while todo:
        name = todo.pop()
        if name not in found:
            found.add(name)
            todo += on.get(name, [])
    return [name for name in on if name in found]


def order(crate: str) -> List[str]:
    """a crate and those that it stands on, in the order in which rt proves them, one after the other"""
    on, found = edges(), []  # type: Dict[str, List[str]], List[str]

    def visit(name: str) -> None:
        for below in on[name]:
            if below not in found:
                visit(below)
        found.append(name)
    visit(crate)
    return found


def digests(names: Iterable[str]) -> Dict[str, str]:
    """of each crate a digest of all that it is proved from: its files by content, the crates below it, the toolchain"""
    on, found = edges(), {}  # type: Dict[str, List[str]], Dict[str, str]

    def digest(name: str) -> str:
        if name not in found:
            whole = hashlib.sha256(kit_id() + platform.machine().encode())
            for part in PARTS:
                top = os.path.join(ROOT, 'crates', name, part)
                for path in [top] if os.path.isfile(top) else sorted(os.path.join(at, file) for at, _, files in os.walk(top) for file in files):
                    with open(path, 'rb') as f:
                        whole.update(('%s %s\n' % (os.path.relpath(path, ROOT), hashlib.sha256(f.read()).hexdigest())).encode())
            for below in on[name]:
                whole.update(('%s %s\n' % (below, digest(below))).encode())
            found[name] = whole.hexdigest()
        return found[name]
    return {name: digest(name) for name in names}


# ---- how long it takes

def kept() -> Dict[str, Dict[str, Any]]:
    """what is kept of each crate: the seconds that it took, and the digest that was proved"""
    try:
        with open(KEPT) as f:
            found = json.load(f)
        return {name: row for name, row in found.items()
                if isinstance(row['seconds'], (int, float)) and isinstance(row['digest'], str) and isinstance(row.get('verdict', ''), str)}
    except (OSError, ValueError, KeyError, TypeError, AttributeError):
        return {}  # not there, or not ours: the table serves


def keep(rows: Dict[str, Dict[str, Any]]) -> None:
    try:
        with open(KEPT + '.new', 'w') as f:
            json.dump(rows, f, indent=0, sort_keys=True)
        os.replace(KEPT + '.new', KEPT)
    except OSError:
        pass  # the next estimate is worse, and that is all


class Estimate:
    """How many seconds are left, from the seconds that each crate is expected to take, and from the pace of this run."""

    def __init__(self, plan: Sequence[str], expected: Dict[str, float]) -> None:
        """`expected` has no row for a crate that will not be proved again"""
        self.plan, self.expected, self.ended = list(plan), dict(expected), set()  # type: List[str], Dict[str, float], Set[str]
        self.thought = self.took = float(CALM)
        self.began = self.at = 0.0  # when the crate that is being proved began, and when `left` was asked last
        self.shown: Optional[float] = None

    def running(self) -> str:
        """the crate that is being proved, as far as rt has told; nothing at the end"""
        return next((name for name in self.plan if name not in self.ended and name in self.expected), '')

    def rest(self, now: float) -> float:
        """the seconds that are left by the estimate itself, which may jump"""
        pace, total, first = self.took / self.thought, 0.0, True
        for name in self.plan:
            if name in self.ended or not self.expected.get(name):
                continue
            here = pace * self.expected[name]
            total += max(here - (now - self.began), here / 20) if first else here  # a crate that takes longer than expected has a little left, always
            first = False
        return total

    def proved(self, name: str, seconds: Optional[float], now: float) -> None:
        """a crate was proved, in so many seconds; None: it was proved already"""
        before = self.rest(now)
        self.ended.add(name)
        expected = self.expected.get(name)
        if seconds is None:
            if expected and self.shown is not None:
                self.shown = max(0.0, self.shown - max(0.0, before - self.rest(now)))
        elif expected:
            self.thought, self.took = self.thought + expected, self.took + seconds
        self.began = now

    def left(self, now: float) -> float:
        """the seconds to be shown"""
        rest = self.rest(now)
        if self.shown is None:
            self.shown = rest
        else:
            gone = now - self.at
            self.shown = max(0.0, min(max(rest, self.shown - 5 * gone), self.shown + gone))
        self.at = now
        return self.shown


def length(seconds: float) -> str:
    return 'about %d min' % round(seconds / 60) if seconds >= 90 else 'about a minute' if seconds > 30 else 'less than a minute'


# ---- the line

class Progress:
    """The line of one run, which may be of several commands of rt. Use it in a `with`."""

    def __init__(self, who: str, crate: str, says: bool = True) -> None:
        """`who` begins the line; `crate` and those below it are proved"""
        self.who, self.names, self.says = who, order(crate), says
        self.rows, self.digests = kept(), digests(self.names)
        expected = {name: float(self.rows.get(name, {}).get('seconds', SECONDS.get(name, UNKNOWN))) for name in self.names if not self.unchanged(name)}
        self.estimate, self.done = Estimate(self.names, expected), set()  # type: Estimate, Set[str]
        self.start, self.written, self.anew = time.monotonic(), 0, 0
        self.at, self.at_since = '', 0.0  # the crate that rt is proving, and since when
        try:
            self.wide = (os.get_terminal_size(2).columns or 80) if os.isatty(2) else 0  # the columns of a terminal; 0: there is none
        except OSError:
            self.wide = 0

    def __enter__(self) -> 'Progress':
        return self

    def __exit__(self, *_: Any) -> None:
        self.clear()
        keep(self.rows)

    def unchanged(self, name: str) -> bool:
        """whether a crate was proved here from just what it has now, and what came of it is still there"""
        made = [os.path.join(OUT % name, file) for file in ('rlib/%s.rlib' % name, name, 'lib%s.a' % name)]
        return self.rows.get(name, {}).get('digest') == self.digests[name] and any(map(os.path.exists, made))

    def now(self) -> float:
        return time.monotonic() - self.start

    def write(self, text: str) -> None:
        try:
            os.write(2, text.encode('utf-8', 'replace'))
        except OSError:
            pass  # nobody listens

    def clear(self) -> None:
        if self.written:
            self.write('\r' + ' ' * self.written + '\r')
            self.written = 0

    def words(self, what: str) -> str:
        now = self.now()
        left = self.estimate.left(now)
        more = len(self.done) < len(self.names)
        return '%s: %s, %d of %d, %d s%s' % (self.who, what, len(self.done), len(self.names), now, ', %s left' % length(left) if more else '')

    def begin(self) -> None:
        if self.says:
            todo = len(self.estimate.expected)
            self.write('%s: proving %d of %d crates, %s\n' % (self.who, todo, len(self.names), length(self.estimate.left(self.now()))) if todo
                       else '%s: %d crates, proved already\n' % (self.who, len(self.names)))

    def tick(self) -> None:
        """on a terminal, the line anew"""
        if self.says and self.wide:
            text = self.words('proving ' + (self.at or self.estimate.running() or self.names[-1]))[:self.wide - 1]
            self.write('\r' + text + ' ' * (self.written - len(text)))
            self.written = len(text)

    def heard(self, line: str) -> None:
        """a line of rt"""
        begins = BEGINS.match(line)
        if begins and begins[1] in self.names:
            for name in self.names[:self.names.index(begins[1])]:  # rt goes by this order: of these it had nothing to prove
                self.proved(name, None)
            self.at, self.at_since = begins[1], self.now()
        elif VERDICT.match(line) and self.at:
            self.proved(self.at, self.now() - self.at_since)
            self.rows[self.at]['verdict'] = line
            self.at = ''

    def proved(self, name: str, seconds: Optional[float]) -> None:
        """a crate was proved, in so many seconds; None: it was proved already"""
        if name not in self.names or name in self.done:
            return
        self.done.add(name)
        self.estimate.proved(name, seconds, self.now())
        if seconds is not None:
            before = self.rows.get(name, {}).get('seconds', seconds)
            self.rows[name] = {'seconds': (before + seconds) / 2, 'digest': self.digests[name], 'verdict': ''}
            self.anew += 1
            if self.says and not self.wide:
                self.write(self.words('proved ' + name) + '\n')
        elif self.rows.get(name, {}).get('digest') != self.digests[name]:
            self.rows[name] = {'seconds': self.rows.get(name, {}).get('seconds', SECONDS.get(name, UNKNOWN)), 'digest': self.digests[name], 'verdict': ''}

    def verdict(self, name: str) -> str:
        """the line in which the toolchain said that a crate is proved, as it stands now; nothing where rt took its library from an earlier run"""
        row = self.rows.get(name, {})
        return row.get('verdict', '') if row.get('digest') == self.digests[name] else ''

    def run(self, command: Sequence[str], log: IO[bytes], crate: str = '') -> int:
        """runs a command of rt in the folder of the crate, or of one below it; all that it says goes to the log. Gives its status; where that is 0, all is proved"""
        top = crate or self.names[-1]
        rt = subprocess.Popen(list(command), cwd=os.path.join(ROOT, 'crates', top), stdin=subprocess.DEVNULL, stdout=subprocess.PIPE, stderr=subprocess.STDOUT,
                              env={name: value for name, value in os.environ.items() if name not in OTHERS})
        assert rt.stdout
        part = b''
        try:
            while True:
                self.tick()
                if not select.select([rt.stdout], [], [], 1)[0]:
                    continue
                data = os.read(rt.stdout.fileno(), 65536)
                log.write(data)
                log.flush()
                *lines, part = (part + data).split(b'\n')
                for line in lines:
                    self.heard(line.decode('utf-8', 'replace'))
                if not data:
                    status = rt.wait()
                    for name in self.names[:self.names.index(top) + 1] if status == 0 else ():
                        self.proved(name, None)
                    return status
        finally:
            self.clear()
            if rt.poll() is None:
                rt.terminate()
            rt.stdout.close()


# ---- one run at a time

class Alone:
    """Of several runs at once one proves: `with Alone(say):` waits for the others. Those that wait find it done."""

    def __init__(self, say: Callable[[str], None]) -> None:
        self.say = say

    def __enter__(self) -> None:
        try:
            os.makedirs(TARGET, exist_ok=True)
            self.file = open(LOCK, 'w')
        except OSError as fault:
            raise Busy('nothing can be built in %s: %s' % (TARGET, fault.strerror))
        try:
            fcntl.flock(self.file, fcntl.LOCK_EX | fcntl.LOCK_NB)
        except OSError:
            self.say('another run is proving and building; waiting for it')
            fcntl.flock(self.file, fcntl.LOCK_EX)

    def __exit__(self, *_: Any) -> None:
        self.file.close()


def tail(log: str, lines: int = 5) -> List[str]:
    """the last lines of a log"""
    with open(log, encoding='utf-8', errors='replace') as f:
        return f.read().splitlines()[-lines:]
