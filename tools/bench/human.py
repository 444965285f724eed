"""What people write for the drill's numbers (03:00:00, 250ms, 192.0.2.1, 2026-11-15T03:00:00Z), and the numbers as people read them.

A value that is written so is put into the number that it stands for before the proved program sees the line. Anything else is passed on byte for byte: the
program says what is wrong with it. docs/DRILL.md has the units; tests/wrapper holds UNITS to its table."""
import hashlib
import ipaddress
import re
from collections.abc import Mapping
from datetime import datetime, timedelta, timezone
from fractions import Fraction
from types import MappingProxyType

# A key's unit, whatever the command. Keys that are not here are passed on as they are.
UNITS = dict(now='ns', window='ns', deadline='ns',
             t1='timestamp', t4='timestamp', receive='timestamp', transmit='timestamp',
             rootdelay='2^-32 s', rootdisp='2^-32 s',
             min='log2 s', max='log2 s', desired='log2 s', poll='log2 s', last='log2 s', remote='log2 s',
             source='identifier', refid='identifier', local='identifiers')

# What may be written for a unit beside the plain number, for the errors.
FORMS = {'ns': 'nanoseconds, or 5s, 250ms, 03:00:00, 1d03:00:00.5',
         'timestamp': 'seconds since 1900 in 2^-32 s, or 2026-11-15T03:00:00.04Z',
         '2^-32 s': 'a signed count of 2^-32 s, or 15ms, -2s',
         'log2 s': 'an exponent of two, in seconds, or 64s, 1024s',
         'identifier': '8 hexadecimal digits, or an address such as 192.0.2.1',
         'identifiers': '8 hexadecimal digits or addresses, joined by commas'}

DURATION = re.compile(r'(-?)(\d+(?:\.\d+)?)(ns|us|ms|s|m|h|d)')
CLOCK = re.compile(r'(?:(\d+)d)?([01]\d|2[0-3]):([0-5]\d):([0-5]\d(?:\.\d+)?)')
MOMENT = re.compile(r'(\d{4}-\d\d-\d\dT[0-2]\d:[0-5]\d:[0-5]\d)(\.\d+)?Z')
IN_SECONDS = dict(ns=Fraction(1, 10**9), us=Fraction(1, 10**6), ms=Fraction(1, 1000), s=Fraction(1), m=Fraction(60), h=Fraction(3600), d=Fraction(86400))
EPOCH = datetime(1900, 1, 1, tzinfo=timezone.utc)
SECOND, ERA = 2**32, 2**64
BOM8, BOM16 = b'\xef\xbb\xbf', (b'\xff\xfe', b'\xfe\xff')  # byte order marks of UTF-8 and UTF-16


def seconds(text: str) -> Fraction | None:
    """what a duration or a time of day stands for, in seconds; None for anything else"""
    found = DURATION.fullmatch(text)
    if found:
        return (-1 if found[1] else 1) * Fraction(found[2]) * IN_SECONDS[found[3]]
    found = CLOCK.fullmatch(text)
    if found:
        return int(found[1] or 0) * 86400 + int(found[2]) * 3600 + int(found[3]) * 60 + Fraction(found[4])
    return None


def moment(text: str) -> int | None:
    """a date and time in UTC as an NTP timestamp: 2^-32 s since 1900, rounded down, of its era"""
    found = MOMENT.fullmatch(text)
    if not found:
        return None
    try:
        whole = datetime.strptime(found[1] + '+0000', '%Y-%m-%dT%H:%M:%S%z')
    except ValueError:
        return None
    return int((Fraction((whole - EPOCH) // timedelta(seconds=1)) + Fraction('0' + (found[2] or ''))) * SECOND) % ERA


def identifier(text: str) -> str | None:
    """an address's identifier: an IPv4 address itself, of an IPv6 address the first four bytes of its MD5 (docs/EMBEDDING.md)"""
    try:
        address = ipaddress.ip_address(text)
    except ValueError:
        return None
    octets = address.packed if address.version == 4 else hashlib.md5(address.packed, usedforsecurity=False).digest()[:4]
    return octets.hex()


def plain(unit: str, text: str) -> str:
    """the plain number that a value of this unit stands for; the value itself where it is no form that people write"""
    if unit == 'timestamp':
        stamp = moment(text)
        return text if stamp is None else str(stamp)
    if unit == 'identifier':
        return identifier(text) or text
    if unit == 'identifiers':
        return ','.join(identifier(part) or part for part in text.split(','))
    length = seconds(text)
    if length is None:
        return text
    if unit == 'ns':
        return str(int(length * 10**9)) if length >= 0 and (length * 10**9).denominator == 1 else text
    if unit == '2^-32 s':
        return str(length * SECOND // 1)
    if length > 0 and 1 in (length.numerator, length.denominator) and not (length.numerator & length.numerator - 1 or length.denominator & length.denominator - 1):
        return str(length.numerator.bit_length() - length.denominator.bit_length())
    return text


class NotText(Exception):
    """what is wrong with octets that are no log at all"""


class Lines:
    """a log's lines as text, as its octets come: a byte order mark in front is passed over, and where the first line ends with a carriage return, as Windows writes
    lines, so do the others"""

    def __init__(self) -> None:
        self.piece = b''
        self.number = 0       # of the last line that was given
        self.begun = self.windows = False

    def begin(self) -> None:
        if self.piece[:2] in BOM16:
            raise NotText('it begins with the byte order mark (BOM) of UTF-16: save it as plain text (ASCII or UTF-8)')
        self.piece = self.piece.removeprefix(BOM8)
        self.begun = True

    def line(self, octets: bytes) -> tuple[int, str]:
        self.number += 1
        if self.number == 1:
            self.windows = octets.endswith(b'\r')
        return self.number, (octets.removesuffix(b'\r') if self.windows else octets).decode('latin-1')

    def more(self, octets: bytes) -> list[tuple[int, str]]:
        """the lines that are whole now, with their numbers"""
        self.piece += octets
        if not self.begun:
            if len(self.piece) < len(BOM8) and b'\n' not in self.piece:
                return []
            self.begin()
        if b'\n' not in octets:
            return []
        *whole, self.piece = self.piece.split(b'\n')
        return [self.line(line) for line in whole]

    def over(self) -> list[tuple[int, str]]:
        """the last line, where no newline ends it"""
        if not self.begun:
            self.begin()
        last, self.piece = self.piece, b''
        return [self.line(last)] if last else []


def lines_of(octets: bytes) -> list[str]:
    """the lines of a whole log"""
    lines = Lines()
    return [text for _, text in lines.more(octets) + lines.over()]


MAYBE = re.compile(r'[:.TZsmhd]')  # one of these is in every form that people write


def unit_of(word: str, pairs: Mapping[str, str]) -> str | None:
    """the unit of a key in a line: that of `value` is its `key`'s"""
    return UNITS.get(pairs.get('key', '') if word == 'value' else word)


def translated(line: str) -> str:
    """a line with plain numbers"""
    if not MAYBE.search(line):
        return line
    words = line.split(' ')
    pairs = dict(w.split('=', 1) for w in words[1:] if '=' in w)
    for k, word in enumerate(words[1:], 1):
        key, eq, value = word.partition('=')
        unit = unit_of(key, pairs) if eq else None
        if unit and MAYBE.search(value):
            words[k] = key + '=' + plain(unit, value)
    return ' '.join(words)


# ---- numbers as people read them

def tick(ns: int) -> str:
    """a reading of `now`, an uptime: 3h00m05.040s. It is no time of day and never looks like one; what is finer than a millisecond is cut off"""
    whole, ms = divmod(ns // 10**6, 1000)
    if whole < 60:
        text = '%d' % whole
    elif whole < 3600:
        text = '%dm%02d' % divmod(whole, 60)
    else:
        days, rest = divmod(whole, 86400)
        text = ('%dd%02dh%02dm%02d' % (days, rest // 3600, rest // 60 % 60, rest % 60)) if days else '%dh%02dm%02d' % (rest // 3600, rest // 60 % 60, rest % 60)
    return '%s.%03ds' % (text, ms) if ms else text + 's'


def round_tick(ns: int) -> str:
    """a tick that an axis names, without the parts that are zero and without a fraction: 2d06h, 3h15m, 40s, 250ms"""
    parts: list[str] = []
    rest = ns // 10**6
    for unit, size in (('d', 86400000), ('h', 3600000), ('m', 60000), ('s', 1000), ('ms', 1)):
        count, rest = divmod(rest, size)
        if count:
            parts.append(('%02d%s' if parts and unit != 'ms' else '%d%s') % (count, unit))
    return ''.join(parts) or '0s'


def moment_of(stamp: int) -> datetime:
    """an NTP timestamp as a moment in UTC, to the millisecond: of the era that lies between 1968 and 2104 (RFC 4330, section 3)"""
    ms = ((stamp if stamp >= 2**63 else stamp + ERA) * 1000 + SECOND // 2) // SECOND
    return EPOCH + timedelta(milliseconds=ms)


def wall(stamp: int) -> str:
    """an NTP timestamp for people"""
    at = moment_of(stamp)
    return at.strftime('%Y-%m-%d %H:%M:%S') + '.%03d UTC' % (at.microsecond // 1000)


def iso(stamp: int) -> str:
    """an NTP timestamp in ISO 8601"""
    at = moment_of(stamp)
    return at.strftime('%Y-%m-%dT%H:%M:%S') + '.%03dZ' % (at.microsecond // 1000)


def seconds_of(ntp: int) -> float:
    """a duration in 2^-32 s as seconds, to the nanosecond"""
    return round(ntp / SECOND, 9) + 0.0  # + 0.0: what rounds to zero has no sign


def milliseconds(ntp: int, sign: bool = False) -> str:
    """a duration in 2^-32 s as milliseconds"""
    ms = round(ntp * 1000 / SECOND, 3) + 0.0
    return ('%+.3f ms' if sign else '%.3f ms') % ms


def offset(ntp: int) -> str:
    """an offset, with its sign: in seconds where it is one or more"""
    return milliseconds(ntp, sign=True) if abs(ntp) < SECOND else '%+.3f s' % (ntp / SECOND)


def apart(ntp: int) -> str:
    """how far two clocks are apart, in h, min, s and ms: the two units that tell, with minutes and seconds below hours; the sign is not told"""
    ms = (abs(ntp) * 1000 + SECOND // 2) // SECOND
    if ms < 60000:
        return '%d s %03d ms' % divmod(ms, 1000) if ms >= 1000 else '%d ms' % ms
    minutes, seconds_ = divmod((ms + 500) // 1000, 60)
    hours, minutes = divmod(minutes, 60)
    return ('%d h %02d min %02d s' % (hours, minutes, seconds_)) if hours else '%d min %02d s' % (minutes, seconds_)


def span(ns: int) -> str:
    """a length of time in the largest unit that it fills"""
    for unit, size in (('h', 3600 * 10**9), ('min', 60 * 10**9), ('s', 10**9), ('ms', 10**6), ('us', 10**3)):
        if ns >= size and (unit in ('s', 'ms', 'us') or ns % size == 0):
            return ('%.3f' % (ns / size)).rstrip('0').rstrip('.') + ' ' + unit
    return '%d ns' % ns


def length(ns: int) -> str:
    """a length of time, however long: what is below a minute as span has it, longer ones in h, min and s"""
    return span(ns) if ns < 60 * 10**9 else apart(ns * SECOND // 10**9)


def every(exponent: str | int) -> str:
    """an exponent of two, in seconds, as a length of time"""
    n = int(exponent)
    return span(2**n * 10**9) if n >= 0 else '1/%d s' % 2**-n


def bits(value: str | int) -> str:
    """the eight bits of reach"""
    return format(int(value), '08b')


def address(digits: str, names: Mapping[str, str] = MappingProxyType({})) -> str:
    """an identifier as people know it: the address that the log names for it, the name of a kiss or of a source where it is four letters, else an IPv4 address"""
    octets = bytes.fromhex(digits)
    if digits in names:
        return names[digits]
    if all(0x41 <= o <= 0x5a for o in octets):
        return octets.decode()
    return '.'.join(str(o) for o in octets)


def named(text: str) -> dict[str, str]:
    """the IPv6 addresses that a line names, by their identifiers, which tell an address no more"""
    found = {}
    for word in re.findall(r'[0-9A-Fa-f:.]*:[0-9A-Fa-f:.]*', text) if text.count(':') > 1 else ():
        for address_ in (word, word.rstrip(':.')):
            digits = identifier(address_)
            if digits:
                found[digits] = address_
    return found
