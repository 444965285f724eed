"""How the bench ends: 0 every line was answered, 1 a line was answered `error`, 2 bad usage, or reading or writing failed."""
import os
import select
import sys
from typing import NoReturn

ALL_ANSWERED, A_LINE_ERRED, FAILED = 0, 1, 2


def say(text: str) -> None:
    """a line of the bench's own, beside the answers"""
    try:
        os.write(2, ('drill: %s\n' % text).encode('utf-8', 'replace'))
    except OSError:
        pass  # nobody listens


def die(text: str) -> NoReturn:
    say(text)
    sys.exit(FAILED)


def write(data: bytes) -> None:
    """to standard output, at once and all of it; a reader that has gone away is no news, anything else is said"""
    left = memoryview(data)
    while left:
        try:
            left = left[os.write(1, left):]
        except BlockingIOError:
            select.select([], [1], [])
        except BrokenPipeError:
            sys.exit(FAILED)
        except OSError as fault:
            die('standard output cannot be written: %s' % fault.strerror)


def wait_status(code: int) -> str:
    """an ended program's status in words"""
    return 'signal %d' % -code if code < 0 else 'status %d' % code


def contents(name: str | None) -> bytes:
    """the bytes of a file, a FIFO or /dev/stdin; `-` and no name are standard input"""
    try:
        if name in (None, '-'):
            need_stdin()
            return sys.stdin.buffer.read()
        with open(name, 'rb') as f:
            return f.read()
    except OSError as fault:
        die('%s cannot be read: %s' % (name or 'standard input', fault.strerror))


def need_stdin() -> None:
    if os.environ.get('DRILL_STDIN') == 'folder':
        die('standard input cannot be read: it is a folder')
    if os.environ.get('DRILL_STDIN') == 'closed':
        die('standard input is closed: name a log, or hand one over (./drill FILE, ./drill <FILE)')
