"""The log goes to the proved program line by line, and its answers come out as it gives them, byte for byte. Beside them, on standard error, stands what a
person needs to mend a line that was answered `error`."""
import collections
import os
import select
import stat
import subprocess
import sys

import ends
import human
import program
from ends import say

LONGEST = 32768  # bytes of a line that the program takes
EXPLAINED = 20   # lines that are explained one by one; the rest are counted


def quoted(text: str, most: int = 60) -> str:
    return '"%s"' % ''.join(c if ' ' <= c <= '~' else '\\x%02x' % ord(c) for c in text[:most]) + ('..' if len(text) > most else '')


def oddities(text: str) -> str:
    """what in a text people do not see"""
    names = (('\r', 'a carriage return'), ('\xef\xbb\xbf', 'a byte order mark (BOM)'), ('\t', 'a tab'), ('\0', 'a NUL byte'), ('\xc2\xa0', 'a no-break space'))
    found = [name for sign, name in names if sign in text]
    if not found and any(ord(c) > 126 or ord(c) < 32 for c in text):
        found = ['a byte that is no ASCII letter, digit or sign']
    return ' (it has %s)' % ' and '.join(found) if found else ''


def fault(line: str, what: str) -> str:
    """the sentence for a line that was answered `error`: what is wrong, with the value as it was written, and what to do"""
    words = line.split(' ')
    pairs = [w.partition('=') for w in words[1:]]
    kind, _, key = what.partition(' ')
    if what == 'long line':
        return 'the line is longer than %d bytes: it begins with %s' % (LONGEST, quoted(line, 30))
    if what == 'unknown command':
        why = ': the line begins with a space' if words[0] == '' else ': commands are written small' if words[0].lower() != words[0] else ''
        return 'there is no command %s%s%s (./drill --help lists them)' % (quoted(words[0]), oddities(words[0]), why)
    if what == 'no pair':
        word = next((w for w in words[1:] if '=' not in w), '')
        return '%s is no key=value pair%s' % (quoted(word) if word else 'nothing between two spaces, or behind the last,', oddities(word))
    if what == 'unknown key':
        return '%s has no such key: the line has %s%s' % (quoted(words[0]), ', '.join(quoted(k) for k, eq, _ in pairs if eq), oddities(''.join(k for k, _, _ in pairs)))
    if kind == 'missing':
        return '%s needs %s=' % (words[0], key)
    if kind == 'repeated':
        return '%s= stands twice' % key
    if kind == 'bad':
        value = next((v for k, eq, v in pairs if k == key), '')
        unit = human.unit_of(key, {k: v for k, _, v in pairs})
        return '%s=%s cannot be taken%s%s' % (key, quoted(value), oddities(value), ': it takes ' + human.FORMS[unit] if unit else '')
    return what


class Replay:
    def __init__(self, name: str) -> None:
        self.name = name
        self.number = self.errors = 0
        self.asked: collections.deque[tuple[int, str]] = collections.deque()  # the lines that wait for an answer, with their numbers
        self.piece = b''                  # what is there of the next line
        self.long = False                 # the line under way is too long, and is passed on as it comes
        self.first = True
        self.windows = False              # the first line ends with a carriage return, as Windows writes lines: so do the others
        self.send = bytearray()           # what the program has not taken yet
        self.got = b''

    # -- what goes in

    def line(self, octets: bytes, end: bytes) -> None:
        self.number += 1
        if self.number == 1:
            self.windows = octets.endswith(b'\r')
        line = octets.removesuffix(b'\r') if self.windows else octets
        text = line.decode('latin-1')
        if line and not line.startswith(b'#'):
            self.asked.append((self.number, text))
            if len(line) <= LONGEST:
                line = human.translated(text).encode('latin-1')
        self.send += line + end

    def begin(self) -> None:
        """a byte order mark in front of the log: one of UTF-8 is passed over, one of UTF-16 says that the log is none"""
        if self.piece[:2] in human.BOM16:
            ends.die('%s begins with the byte order mark (BOM) of UTF-16: save it as plain text (ASCII or UTF-8)' % self.name)
        self.piece = self.piece.removeprefix(human.BOM8)
        self.first = False

    def more(self, octets: bytes) -> None:
        self.piece += octets
        if self.first:
            if len(self.piece) < 3 and b'\n' not in self.piece:
                return
            self.begin()
        lines = self.piece.split(b'\n')
        self.piece = lines.pop()
        for line in lines:
            if self.long:
                self.send += line + b'\n'
                self.long = False
            else:
                self.line(line, b'\n')
        if self.long or len(self.piece) > 2 * LONGEST:
            if not self.long:
                self.line(self.piece, b'')
            else:
                self.send += self.piece
            self.piece, self.long = b'', True

    def over(self) -> None:
        if self.first:
            self.begin()
        if self.piece and not self.long:
            self.line(self.piece, b'')
        self.piece = b''

    # -- what comes out

    def answers(self, octets: bytes) -> None:
        self.got += octets
        end = self.got.rfind(b'\n') + 1
        whole, self.got = self.got[:end], self.got[end:]
        if not whole:
            return
        ends.write(whole)
        for answer in whole.split(b'\n')[:-1]:
            number, line = self.asked.popleft() if self.asked else (0, '')
            if answer.startswith(b'error '):
                self.errors += 1
                if self.errors <= EXPLAINED:
                    say('%s, line %d: %s' % (self.name, number, fault(line, answer.decode('latin-1').split(' ', 2)[-1])))

    def run(self, command: list[str], source: int) -> int:
        drill = subprocess.Popen(command, stdin=subprocess.PIPE, stdout=subprocess.PIPE, bufsize=0)
        os.set_blocking(drill.stdin.fileno(), False)
        reading, unread = True, None
        try:
            while True:
                wants = [drill.stdout] + ([source] if reading and len(self.send) < 2**18 else [])
                readable, writable, _ = select.select(wants, [drill.stdin] if self.send else [], [])
                if drill.stdout in readable:
                    octets = os.read(drill.stdout.fileno(), 65536)
                    if not octets:
                        break
                    self.answers(octets)
                if writable:
                    try:
                        del self.send[:os.write(drill.stdin.fileno(), self.send)]
                    except BlockingIOError:
                        pass
                    except BrokenPipeError:
                        self.send.clear()
                        reading = False
                if source in readable:
                    try:
                        octets = os.read(source, 65536)
                    except OSError as fault:
                        octets, unread = b'', fault.strerror
                    if octets:
                        self.more(octets)
                    else:
                        self.over()
                        reading = False
                if not reading and not self.send and not drill.stdin.closed:
                    drill.stdin.close()
            status = drill.wait()
        finally:
            if drill.poll() is None:
                drill.kill()
        if self.errors > EXPLAINED:
            say('%d lines more were answered error' % (self.errors - EXPLAINED))
        if unread:
            ends.die('%s cannot be read: %s' % (self.name, unread))
        if status or self.got or self.asked:
            ends.die('the program ended with %s and left %d lines without an answer' % (ends.wait_status(status), len(self.asked)))
        return ends.A_LINE_ERRED if self.errors else ends.ALL_ANSWERED


def is_file(source: int) -> bool:
    """whether it is a log on a disk, which was meant to have something in it; a conversation may end without a word"""
    return stat.S_ISREG(os.fstat(source).st_mode)


def opened(name: str | None) -> tuple[int, str]:
    """the log to read, as a descriptor, and its name in what is said of it"""
    if name in (None, '-'):
        ends.need_stdin()
        return 0, 'standard input'
    try:
        return os.open(name, os.O_RDONLY), name
    except OSError as fault:
        ends.die('%s cannot be read: %s' % (name, fault.strerror))


def has_command(source: int) -> bool:
    """whether a file has a line that is neither empty nor a remark; it is read by place, so that the log is still to be read, and nothing is built for it"""
    at, rest = 0, b''
    while True:
        octets = os.pread(source, 1 << 16, at)
        lines = (rest + octets).split(b'\n')
        rest = lines.pop() if octets else b''
        if any(line.strip() and not line.startswith(b'#') for line in lines):
            return True
        if not octets:
            return False
        at += len(octets)


def replay(name: str | None, raw: bool = False) -> int:
    """answers a log; `raw` hands it to the program and has nothing to do with it any more"""
    source, called = opened(name)
    if os.path.isdir('/dev/fd/%d' % source):
        ends.die('%s cannot be read: it is a folder' % called)
    if not raw and is_file(source) and not has_command(source):
        ends.die('%s has no command in it: is it a log of the drill?' % called)
    command = program.ready()
    if source == 0 and sys.stdin.isatty():
        say('waiting for commands, a line each, such as `show` (./drill --help lists them; Ctrl-D ends)')
    if raw:
        os.dup2(source, 0)
        os.execv(command[0], command)
    return Replay(called).run(command, source)
