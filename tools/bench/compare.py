"""./drill --compare LEFT RIGHT: two hand-over files side by side, every field that differs in plain words. The list is the proved program's."""
import re
import subprocess

import ends
import handover
import program

ROOM = 8192     # bytes of the longest file that the program takes
REFUSED = 1     # how this ends where a file is no hand-over file
DIFFER = 3      # and where the two differ


def octets_of(name: str) -> bytes:
    """a file's bytes: as they are, or as the hexadecimal digits that the drill writes"""
    octets = ends.contents(name)
    digits = re.sub(rb'\s+', b'', octets)
    if digits and len(digits) % 2 == 0 and re.fullmatch(rb'[0-9a-fA-F]+', digits):
        octets = bytes.fromhex(digits.decode())
    if len(octets) > ROOM:
        ends.die('%s has %d bytes: no hand-over file has more than 5872, and the program takes up to %d' % (name, len(octets), ROOM))
    return octets


def asked(files: dict[str, bytes]) -> tuple[list[str], list[str]]:
    """what the program answers to the comparison, and the sides whose file had the retired version"""
    digits = {side: octets.hex() or '-' for side, octets in files.items()}
    lines = ['compare left=%(left)s right=%(right)s' % digits] + ['load file=' + digits[side] for side in files]
    run = subprocess.run(program.drill(), input='\n'.join(lines + ['']).encode(), stdout=subprocess.PIPE, stderr=subprocess.PIPE)
    said = run.stdout.decode('latin-1').split('\n')[:-1]
    if run.returncode != 0 or len(said) != len(lines) or not said[0].startswith('compare '):
        ends.die('the program ended with %s and answered %s' % (ends.wait_status(run.returncode), said[0][:80] if said else 'nothing'))
    return said[0].split(' ')[1:], [side for side, answer in zip(files, said[1:]) if answer == 'load 0 retired=yes']


def refused(number: str, side: str, name: str, octets: bytes) -> int:
    why = handover.fault_in(octets) if number in ('61', '62') else 'a code in it is of no kind, or what it says is no whole association'
    ends.say('%s, on the %s, is no hand-over file that can be read (%s): %s' % (name, side, number, why))
    return REFUSED


def table(names: dict[str, str], rows: list[tuple[str, str, str, str]]) -> list[str]:
    """the fields that differ, as lines"""
    cells = [('', 'left: ' + names['left'], 'right: ' + names['right'], '')] + rows
    wide = [max(len(row[k]) for row in cells) for k in range(3)]
    lines = ['  '.join(cell.ljust(w) for cell, w in zip(row, wide + [0])).rstrip() for row in cells]
    return lines + ['', '%d field%s; docs/HANDOVER.md says what each tells' % (len(rows), ' differs' if len(rows) == 1 else 's differ')]


def main(left: str, right: str) -> int:
    names = {'left': left, 'right': right}
    files = {side: octets_of(name) for side, name in names.items()}
    (number, *rest), retired = asked(files)
    if number in ('61', '62', '63'):
        side = rest[0].split('=')[1]
        return refused(number, side, names[side], files[side])
    if number != '0':
        ends.die('the program answered %s' % number)
    rows = [handover.entry(word) for word in rest[1:]]
    notes = ['%s, on the %s, had the retired version, upgrading: it is compared as what it loads as, V4' % (names[side], side) for side in retired]
    ends.write(('\n'.join((table(names, rows) if rows else ['nothing differs: the two files load as the same record']) + notes) + '\n').encode())
    return DIFFER if rows else ends.ALL_ANSWERED
