"""./drill --summary [--json|--csv] [--far LENGTH] [--since OLD.json] FILE|FOLDER..: a row for each box, the worst first, for people or for a console."""
import collections
import csv
import io
import json
import os
import textwrap
from collections.abc import Iterator
from typing import Any

import boxes
import ends
import human
import story
import verdict
import walltime
from verdict import STATES, Verdict

KEYS = ('box', 'state', 'number', 'reason', 'action', 'accepted_tick', 'accepted_time', 'first_offset', 'offset', 'delay', 'stratum', 'last_heard_tick', 'last_heard_time',
        'sent', 'answered', 'late', 'foreign', 'error')
WIDTH = 150     # columns of the text for people, where no terminal says how many there are
Row = dict[str, Any]


# ---- a row

def time_of(at: walltime.Instant | None) -> str | None:
    return human.iso(at.stamp) if at else None


def figures(server: verdict.Server) -> Row:
    """what was measured"""
    out: Row = {}
    first, latest, accepted, _ = server.known()
    if accepted:
        out.update(accepted_tick=accepted.tick, accepted_time=time_of(walltime.at_tick(accepted.heard, accepted.tick)))
    if latest:
        out.update(first_offset=human.seconds_of(walltime.offset(first)), offset=human.seconds_of(walltime.offset(latest)),
                   delay=human.seconds_of(walltime.delay(latest)), stratum=int(latest.gave['stratum']),
                   last_heard_tick=latest.now, last_heard_time=time_of(walltime.at_reply(latest)))
    return out


def row(name: str, judged: Verdict) -> Row:
    """a box as a console reads it: numbers in seconds, ticks in nanoseconds, times in UTC, nothing for what is absent"""
    known = dict(box=name, state=judged.state, number=judged.number, reason=judged.reason, action=judged.action, sent=judged.sent, answered=judged.answered,
                 late=judged.late, foreign=judged.foreign, error=judged.error, **(figures(judged.server) if judged.server else {}))
    return {key: known.get(key) for key in KEYS}


# ---- the forms

def as_json(rows: list[Row]) -> str:
    return '[%s]\n' % ','.join('\n' + json.dumps(row, allow_nan=False) for row in rows)


def as_csv(rows: list[Row]) -> str:
    out = io.StringIO()
    sheet = csv.DictWriter(out, KEYS, lineterminator='\n')
    sheet.writeheader()
    sheet.writerows(rows)
    return out.getvalue()


def up_since(judged: Verdict) -> str:
    """a box that is up in a line"""
    accepted, latest = judged.server.accepted, judged.server.latest
    servers = '; it has %d servers, and one that is up is enough' % judged.servers if judged.servers > 1 else ''
    return 'since tick %s, %s; offset %s, stratum %s%s' % (human.tick(accepted.tick), walltime.told(walltime.at_tick(accepted.heard, accepted.tick)),
                                                         human.offset(walltime.offset(latest)), latest.gave['stratum'], servers)


def told(judged: Verdict) -> str:
    """what became of a box, in a sentence or two"""
    if judged.state == 'up':
        return up_since(judged)
    return judged.reason + ('; to do: ' + judged.action if judged.action else '')


def totals(judged: list[Verdict]) -> Iterator[str]:
    """how many boxes there are of each state, and by which cause"""
    states = collections.Counter(v.state for v in judged)
    yield '%d %s: %s' % (len(judged), 'box' if len(judged) == 1 else 'boxes', ', '.join('%d %s' % (states[state], state) for state in STATES))
    causes = collections.Counter((v.state, v.cause) for v in judged if v.cause)
    for (state, cause), count in sorted(causes.items(), key=lambda item: (-STATES.index(item[0][0]), -item[1], item[0][1])):
        yield '%7d %s by %s' % (count, state, cause)


def columns() -> int:
    try:
        return os.get_terminal_size(1).columns or WIDTH
    except OSError:
        return WIDTH


def as_text(pairs: list[tuple[str, Verdict]]) -> str:
    wide, across = max(len('box'), *(len(name) for name, _ in pairs)), columns()
    lines = ['%-10s  %-*s  %s' % ('state', wide, 'box', 'since when, or why not and what to do')]
    for name, judged in pairs:
        head = '%-10s  %-*s  ' % (judged.state, wide, name)
        lines += textwrap.wrap(told(judged), max(across, len(head) + 30), initial_indent=head, subsequent_indent=' ' * min(len(head), 40), break_long_words=False,
                               break_on_hyphens=False)
    return '\n'.join(lines + [''] + list(totals([judged for _, judged in pairs]))) + '\n'


# ---- what has changed

def earlier(name: str) -> dict[str, str]:
    """the states of an earlier summary"""
    what = '%s is no summary as `./drill --summary --json` writes it: ' % name
    try:
        old = json.loads(ends.contents(name))
    except ValueError as fault:
        ends.die(what + 'it is no JSON (%s)' % fault)
    if not isinstance(old, list):
        ends.die(what + 'it is no array')
    for k, box in enumerate(old):
        if not isinstance(box, dict) or not isinstance(box.get('box'), str) or box.get('state') not in STATES:
            ends.die(what + 'its entry %d has no `box` and `state`, or a state that there is not' % k)
    return {box['box']: box['state'] for box in old}


def changes(old: dict[str, str], rows: list[Row]) -> Iterator[str]:
    """which boxes are newly down, recovered, new and missing; down is every state but `up`"""
    now = {row['box']: row for row in rows}
    groups = {'newly down': [box for box in now if old.get(box) == 'up' and now[box]['state'] != 'up'],
              'recovered': [box for box in now if old.get(box, 'up') != 'up' and now[box]['state'] == 'up'],
              'new': [box for box in now if box not in old],
              'missing': [box for box in old if box not in now]}
    for what, names in groups.items():
        told_ = ['%s (%s)' % (box, 'was %s' % old[box] if what in ('missing', 'recovered') else now[box]['state']) for box in names]
        yield '%s: %s' % (what, ', '.join(told_) or 'none')


# ---- the command

def judged_boxes(paths: list[str], far: int) -> list[tuple[str, Verdict]]:
    def make(name: str, steps: Iterator[story.Step]) -> tuple[str, Verdict]:
        return name, verdict.judged(steps, far)
    pairs = boxes.each(paths, make, lambda name, fault: (name, fault))
    return boxes.worst_first([(pair, pair[1]) for pair in pairs])


def main(named: list[str], form: str | None, far: int, since: str | None) -> int:
    old = earlier(since) if since is not None else None
    pairs = judged_boxes(boxes.paths_of(named), far)
    rows = [row(*pair) for pair in pairs]
    text = as_json(rows) if form == '--json' else as_csv(rows) if form == '--csv' else as_text(pairs)
    news = list(changes(old, rows)) if old is not None else []
    if form is None and news:
        text += '\nsince %s\n' % since + ''.join('  %s\n' % line for line in news)
    ends.write(text.encode('utf-8', 'replace'))
    for line in news if form else ():
        ends.say(line)  # what a console reads stays whole
    return boxes.status(judged for _, judged in pairs)
