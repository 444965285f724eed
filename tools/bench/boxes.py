"""The boxes of a morning: a log each, named on the command line or found in a folder. All are answered by one program."""
import collections
import os
from collections.abc import Callable, Iterator
from typing import TypeVar

import answers
import ends
import story
import verdict

ENDING = '.drill'
NOT_ALL_UP = 3   # how --summary and --page end where a box is not up
Made = TypeVar('Made')


class Found(str):
    """the path of a log that was found in a folder, and not named"""


def logs_in(folder: str) -> list[str]:
    return [Found(os.path.join(folder, name)) for name in sorted(os.listdir(folder)) if name.endswith(ENDING) and not name.startswith('.')]


def paths_of(named: list[str]) -> list[str]:
    """the logs: the files that are named, and of a folder those in it. A folder without one, or that cannot be read, stays as a box that cannot be read: its logs may not
    have come, and the others are told"""
    paths = []
    for path in named:
        found = []
        if os.path.isdir(path):
            try:
                found = logs_in(path)
                if not found:
                    ends.say('%s has no log in it: a log is a file whose name ends with %s' % (path, ENDING))
            except OSError as fault:
                ends.say('%s cannot be read: %s' % (path, fault.strerror))
        paths += found or [path]
    if all(os.path.isdir(path) for path in paths):
        ends.die('there is no log to read')
    return paths


def names_of(paths: list[str]) -> list[str]:
    """a box's name is its log's, without the ending; where two are the same, the path. Bytes that are no UTF-8 are told, so that a name can be written anywhere"""
    paths = [os.fsencode(path).decode('utf-8', 'backslashreplace') for path in paths]
    short = [os.path.splitext(os.path.basename(path.rstrip('/')))[0] if path != '-' else 'standard input' for path in paths]
    times = collections.Counter(short)
    return [path if times[name] > 1 else name for path, name in zip(paths, short)]


def each(paths: list[str], make: Callable[[str, Iterator[story.Step]], Made], fail: Callable[[str, verdict.Verdict], Made]) -> list[Made]:
    """what is made of each box by its name and steps, or, where its log cannot be read, by its name and the verdict that says so"""
    out: list[Made] = []
    terminal = os.isatty(2)
    names = names_of(paths)
    for k, (_, steps) in enumerate(story.told([answers.Source(path, not isinstance(path, Found)) for path in paths], shown=False)):
        try:
            out.append(make(names[k], steps))
        except answers.Unreadable as fault:
            out.append(fail(names[k], verdict.unreadable(str(fault), 'no log')))
        if terminal:
            progress(len(out), len(paths))
    return out


def progress(done: int, of: int) -> None:
    """how far it is, on one line, which is wiped out at the end"""
    text = '\r%d/%d' % (done, of)
    try:
        os.write(2, (text if done < of else text + '\r' + ' ' * len(text) + '\r').encode())
    except OSError:
        pass  # nobody looks


def worst_first(judged: list[tuple[Made, verdict.Verdict]]) -> list[Made]:
    """sorted by their states; boxes of one state stay as they stood"""
    return [made for made, _ in sorted(judged, key=lambda pair: -verdict.STATES.index(pair[1].state))]


def status(verdicts: Iterator[verdict.Verdict]) -> int:
    return ends.ALL_ANSWERED if all(v.state == 'up' for v in verdicts) else NOT_ALL_UP
