"""The numbers in plain words. The words are those of numbers.toml, the one table of the numbers; `tools/numbers --write` makes numbered.py of it, which any python3 reads. A
number that has no row there is told as it stands."""
from typing import NamedTuple

from numbered import ROWS

# what each kind looks like; a kind that is not here is drawn as `quiet`
KINDS = ('good', 'quiet', 'late', 'stray', 'foreign', 'broken', 'kiss', 'stop', 'caller')


class Row(NamedTuple):
    number: str
    kind: str
    short: str
    says: str
    after: str
    next: str


COLUMNS = Row._fields
TABLE = {(call, number): Row(str(number), *cells) for (call, number), cells in ROWS.items()}


def row(call: str, number: int) -> Row:
    return TABLE.get((call, number)) or Row(str(number), 'quiet', str(number), '', '', '')


def numbers(call: str, kind: str) -> tuple[int, ...]:
    """the numbers of a call that are of a kind"""
    return tuple(number for (given_by, number), found in TABLE.items() if given_by == call and found.kind == kind)
