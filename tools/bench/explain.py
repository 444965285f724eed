"""./drill --explain FILE: the log in plain words, a line for each of its commands, and what became of the box. That stands above where the log is a file; of a log that
is still being written each line is told at once, and what became of the box at the end."""
import os
import tempfile

import answers
import ends
import human
import story
import summary
import verdict

COLOURS = dict(good='32', late='33', stray='0', foreign='35', broken='35', kiss='36', stop='31;1', caller='31', quiet='0')
IN_MEMORY = 8 * 2**20   # bytes of the told lines that wait in memory for what stands above them; more wait on the disk


def coloured() -> bool:
    return os.isatty(1) and not os.environ.get('NO_COLOR') and os.environ.get('TERM', 'dumb') != 'dumb'


def told(step: story.Step, paint: bool) -> str:
    says = story.sentence(step)
    if paint and step.kind in COLOURS:
        says = '\x1b[%sm%s\x1b[0m' % (COLOURS[step.kind], says)
    clock = story.own_clock(step)
    changed = story.changes(step) if not step.answer.startswith('record ') else []
    tick = step.now if step.head != 'accept' else step.tick  # an accept is asked at the tick of the line before it
    return '%5d  %-15s %s%s%s\n' % (step.line, human.tick(tick) if tick is not None else '', says, "; the box's own wall clock " + clock if clock else '',
                                    ' [%s]' % '; '.join(changed) if changed else '')


def above(judged: verdict.Verdict) -> str:
    """what became of the box, and when its ticks became wall time"""
    lines = ['%s: %s' % (judged.state, summary.told(judged))]
    if judged.server and (when := judged.server.wall_time()):
        lines.append(when)
    return ''.join(line + '\n' for line in lines)


def main(name: str, far: int = verdict.FAR) -> int:
    source, judge, paint = answers.Source(name), verdict.Judge(far), coloured()
    waits = source.is_file()
    head = '%5s  %-15s %s\n' % ('line', 'now', 'what (docs/NUMBERS.md has the numbers)')
    with tempfile.SpooledTemporaryFile(IN_MEMORY) as lines:
        write = lines.write if waits else ends.write
        try:
            for _, steps in story.told([source]):
                for step in steps:
                    judge.take(step)
                    write(((head if judge.steps == 1 else '') + told(step, paint)).encode('utf-8'))
        except answers.Unreadable as fault:
            ends.die('%s cannot be read: %s' % (source.called, str(fault).removeprefix('it cannot be read: ')))
        judge.over()
        if not judge.steps:
            ends.die('%s has no command in it: is it a log of the drill?' % source.called)
        ends.write(above(judge.verdict()).encode('utf-8'))
        if waits:
            lines.seek(0)
            while octets := lines.read(2**16):
                ends.write(octets)
    return ends.A_LINE_ERRED if judge.error else ends.ALL_ANSWERED
