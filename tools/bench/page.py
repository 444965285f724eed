"""./drill --page [--far LENGTH] FILE|FOLDER..: one page for a whole fleet. Above stand totals, which filter, then a table with a row for each box (each log), then a strip
for each, one line high: the worst that happened, bucket by bucket, and opened the marks themselves. The page stands alone: one file, no network, and whole without its
script. What became of a box is decided in `verdict`, what is kept of it in `marks`; here it is drawn. page.css and page.js stand beside this file."""
import collections
import html
import json
import os
import re
import time
import zlib
from collections.abc import Iterable
from typing import NamedTuple

import boxes as morning
import ends
import human
import marks
import verdict
import walltime
from axis import Axis
from marks import Box, Lane

HERE = os.path.dirname(os.path.realpath(__file__))
LINES = 25        # in words that an opened box shows at once; more of them are to be opened
BUCKETS = 60      # of a strip that has more marks than that; one with fewer shows each
WIDE, HIGH = 960, 22       # a strip's own measures, which are stretched to its width on the page; a bucket's are whole numbers
LETTER, APART = 7.3, 6     # pixels of a letter on an axis, at most in the mean, and between two labels
AXES = ((330, ''), (720, 'm'), (1000, 'w'))   # how wide an axis is at least in any window, in one from 1,000 pixels on and from 1,280, and the class of what is shown only there
KINDS = dict(good='measured', late='too late', stray='nothing was awaited', foreign='answers something else', broken='not a usable reply', kiss='the server declines',
             stop='the association gives up', caller='the call itself was wrong', quiet='other')
WORDS = dict({kind: ('reply ' if kind == 'good' else '') + words for kind, words in KINDS.items()}, poll='poll sent', silent='poll without a measured reply',
             made='a new association', accepted='source accepted', lost='source not accepted any more')
# Each kind has a shape of its own, so that they can be told apart without colour: as a mark, drawn around its place, ...
SHAPES = dict(good='m-5 0a5 5 0 1 0 10 0a5 5 0 1 0-10 0z', late='m-5 0a5 5 0 1 0 10 0a5 5 0 1 0-10 0zm2 0a3 3 0 1 1 6 0a3 3 0 1 1-6 0zm2.2-3v3.8h3v-1.6h-1.4v-2.2z',
              stray='m-3 0a3 3 0 1 0 6 0a3 3 0 1 0-6 0zm1.5 0a1.5 1.5 0 1 1 3 0a1.5 1.5 0 1 1-3 0z', foreign='m-5-4l4 4l-4 4l1.5 1.5l4-4l4 4l1.5-1.5l-4-4l4-4l-1.5-1.5l-4 4l-4-4z',
              broken='m-5-5h10v10h-10zm2 2v6h6v-6z', kiss='m0-6l6 11h-12z', stop='m0-7l7 7l-7 7l-7-7z', caller='m-1.5-6h3v7h-3zm0 9h3v3h-3z', quiet='m-2 0a2 2 0 1 0 4 0a2 2 0 1 0-4 0z',
              accepted='m-4 7v-14l9 4l-7 3.5v6.5z', lost='m-4 7v-14l9 4l-7 3.5v6.5zm2-11v4.6l4.2-2.2z', poll='m-1-7h2v3h4v6h-4v3h-2z', made='m-.7-14h1.4v6h-1.4zm0 9h1.4v6h-1.4zm0 9h1.4v6h-1.4z')
# ... and in a strip, where it fills a width of 10 and stands on the ground. A run of alike ones is drawn as one, where a shape can be stretched.
STRETCHED = dict(good='v-8h{0}v8z', silent='v-8h{0}v8zm2-2h{1}v-4h-{1}z', poll='v-3h{0}v3z', quiet='v-2h{0}v2z', stray='m0-3v-2h{0}v2z')
SINGLE = dict(late='v-13h5v6h5v7z', foreign='m0-16h10l-10 16h10z', broken='v-16h10v16zm2.5-3h5v-10h-5z', kiss='l5-17l5 17z', stop='m5 0l-5-11l5-11l5 11z', caller='m3 0v-4h4v4zm0-7v-13h4v13z',
              lost='v-21h10l-3 5l3 5h-7v11zm3-13h3.5l-1.8-3l1.8-3h-3.5z', accepted='v-21h10l-3 5l3 5h-7v11z', made='m4 0v-22h2v22z')
SIGNS = dict(up='✓', doubtful='?', lost='✗', never='✗', unreadable='!')  # so that the states can be told apart without colour


def esc(text: object) -> str:
    return html.escape(str(text), quote=True)


def fine(x: float) -> str:
    """a number of a drawing, to a tenth"""
    return ('%.1f' % x).removesuffix('.0')


# ---- a strip

class Label(NamedTuple):
    """a tick that is written on an axis"""
    where: float     # from 0 to 1
    tick: str
    anchor: str
    kind: str = ''   # from which width of the window on it is shown; page.css has the widths

    def span(self, wide: int) -> tuple[float, float]:
        """from where to where it reaches on an axis of so many pixels"""
        long, at = LETTER * len(self.tick), self.where * wide
        begun = at if self.anchor == 'start' else at - long if self.anchor == 'end' else at - long / 2
        return begun, begun + long


def labels_of(axis: Axis) -> list[Label]:
    """the ticks that are written, each from the width on at which it has room beside those that a narrower axis has, too"""
    every = [Label(where, tick, 'start' if where < .07 else 'end' if where > .93 else 'middle') for where, tick in axis.written()]
    out: list[Label] = []
    for wide, kind in AXES:
        for label in every:
            begun, ended = label.span(wide)
            if begun >= 0 and ended <= wide and all(ended + APART <= a or b + APART <= begun for a, b in (other.span(wide) for other in out)):
                out.append(label._replace(kind=kind))
        if every and not out:
            out.append(every[0]._replace(anchor='start' if every[0].where < .5 else 'end'))
    return out


def axis_svg(axis: Axis) -> str:
    out = ['<svg class="axis" aria-hidden="true">']
    for where, tick, anchor, kind in labels_of(axis):
        x, kind = fine(100 * where) + '%', ' class="%s"' % kind if kind else ''
        out.append('<line%s x1="%s" x2="%s" y1="12" y2="18"/><text%s x="%s" y="10" text-anchor="%s">%s</text>' % (kind, x, x, kind, x, anchor, tick))
    return ''.join(out + ['</svg>'])


def placed(lane: Lane, axis: Axis) -> tuple[list[tuple[float, str]], float]:
    """the kinds of a strip from left to right, and how wide each is"""
    if lane.marks <= BUCKETS:
        return [(min(max(WIDE * axis.at(tick) - 5, 0), WIDE - 10), kind) for tick, kind in lane.bins.each()], 10
    worst: dict[int, str] = {}
    for tick, kind in lane.bins.each():
        bucket = min(int(BUCKETS * axis.at(tick)), BUCKETS - 1)
        worst[bucket] = min(worst.get(bucket, kind), kind, key=marks.RANK.__getitem__)
    return [(WIDE * bucket / BUCKETS, worst[bucket]) for bucket in sorted(worst)], WIDE / BUCKETS


def lane_paths(lane: Lane, axis: Axis, ground: int, tinted: bool) -> dict[str, str]:
    """what is drawn of a server, by its class: one path for each kind, however many marks it has"""
    out: dict[str, str] = collections.defaultdict(str)
    for begun, ended in lane.server.stretches if tinted else ():
        x, y = WIDE * axis.at(begun), WIDE * axis.at(lane.high if ended is None else ended)
        out['tint'] += 'M%s %dH%sv-%dH%sz' % (fine(x), ground, fine(max(y, x + 3)), HIGH, fine(x))
    kinds, wide = placed(lane, axis)
    k = 0
    while k < len(kinds):
        x, kind = kinds[k]
        end, k = x + wide, k + 1
        if kind in STRETCHED:
            while wide > 10 and k < len(kinds) and kinds[k][1] == kind and kinds[k][0] - end < 1:
                end, k = kinds[k][0] + wide, k + 1
            length = end - x - (2 if wide > 10 else 0)
            shape = STRETCHED[kind].format(fine(length), fine(length - 4))
        else:
            shape = SINGLE[kind]
            x += (wide - 10) / 2
        out['k ' + kind] += 'M%s %d%s' % (fine(x), ground, shape)
    return out


def strip_svg(box: Box, axis: Axis) -> str:
    high = HIGH * len(box.lanes)
    paths: dict[str, str] = collections.defaultdict(str)
    for k, lane in enumerate(box.lanes):
        for what, path in lane_paths(lane, axis, HIGH * k, box.verdict.state != 'unreadable').items():
            paths[what] += path
    for a, b, _ in axis.breaks:
        x, y = WIDE * axis.at(a), WIDE * axis.at(b)
        paths['break'] += 'M%s %dH%sv%dH%sz' % (fine(x + 3), -HIGH, fine(y - 3), high, fine(x + 3))
    order = ['tint', 'break'] + ['k ' + kind for kind in reversed(marks.WORST)]
    return '<svg class="strip" viewBox="0 %d %d %d" height="%d" preserveAspectRatio="none" aria-hidden="true">%s</svg>' % (
        -HIGH, WIDE, high, high, ''.join('<path class="%s" d="%s"/>' % (what, paths[what]) for what in order if what in paths))


def short_form(box: Box) -> str:
    """the marks as page.js reads them"""
    out = []
    for lane in box.lanes:
        tick, line, reach, accepted = lane.short.pieces[0][:4]
        out.append([lane.short.unit // 10**6, tick, line, reach, accepted, [piece[4] for piece in lane.short.pieces]])
    return json.dumps(out, separators=(',', ':'), ensure_ascii=False)


# ---- the boxes

def anchor(name: str) -> str:
    """where a box stands on every page that has it: by its name, and by nothing else"""
    plain = re.sub(r'[^A-Za-z0-9._-]', '_', name)
    return 'box-' + (plain if plain == name else '%s-%08x' % (plain, zlib.crc32(name.encode('utf-8', 'surrogatepass'))))


def since(judged: verdict.Verdict) -> str:
    """when the source was accepted: the true time, and the tick"""
    accepted = judged.server.accepted
    day, at, zone = human.wall(walltime.at_tick(accepted.heard, accepted.tick).stamp).split(' ')
    return '%s %s %s<br><span class="soft">tick %s</span>' % (day, at[:8], zone, human.tick(accepted.tick))


def cells(box: Box) -> str:
    """a row of the table, but for the name"""
    judged = box.verdict
    good = judged.state in ('up', 'doubtful')
    offset = human.offset(walltime.offset(judged.server.latest)) if good else ''
    why = ['<span class="note">⏱ %s</span>' % esc(box.note)] if box.note else []
    why += [esc(judged.reason)] if judged.reason else []
    why += ['to do: ' + esc(judged.action)] if judged.action else []
    why += ['<span class="soft">%s</span>' % esc(judged.server.wall_time())] if good else []
    return '<td class="%s">%s %s</td><td class="n">%s</td><td class="n">%s</td><td>%s</td>' % (
        judged.state, SIGNS[judged.state], judged.state, since(judged) if good else '', offset, '<br>'.join(why))


def sorts(box: Box) -> str:
    """what the columns are sorted by: name, state, since, offset, cause"""
    judged = box.verdict
    good = judged.state in ('up', 'doubtful')
    accepted = judged.server.accepted if good else None
    return json.dumps([box.name, -verdict.STATES.index(judged.state), round(walltime.at_tick(accepted.heard, accepted.tick).stamp / human.SECOND, 3) if good else None,
                       human.seconds_of(walltime.offset(judged.server.latest)) if good else None, judged.cause or ''], separators=(',', ':'))


def row(box: Box, groups: str) -> str:
    where = anchor(box.name)
    keys = sorts(box).replace('&', '&amp;').replace("'", '&#39;').replace('<', '&lt;')
    return '<tr data-b="%s" data-g="%s" data-s=\'%s\'><td class="name"><a href="#%s">%s</a></td>%s</tr>' % (where, groups, keys, where, esc(box.name), cells(box))


def in_the_open(box: Box) -> str:
    """what an opened box has: its marks, which the script draws, and lines of its log in words"""
    words = box.drawing.words
    less = ['%d lines more: ./drill --explain tells them all' % words.left_out] if words.left_out else []
    cut = sum(lane.short.total - lane.short.count for lane in box.lanes)
    less += ['the first %d marks are in the strip alone' % cut] if cut else []
    less += ['%d earlier parts of the log, which end where ticks begin anew, are not drawn' % box.drawing.undrawn] if box.drawing.undrawn else []
    text = '<pre>%s</pre>' % esc('\n'.join([line.text() for line in words.lines] + less))
    if len(words.lines) > LINES:
        text = '<details><summary>%d lines in words</summary>%s</details>' % (len(words.lines), text)
    return '<div class="lanes"></div>' + text


def strip(box: Box, shared: Axis | None) -> str:
    """the strip of a box; those that are not up are open"""
    state = box.verdict.state
    who = '<div class="who"><b>%s</b> <i class="%s">%s %s</i></div>' % (esc(box.name), state, SIGNS[state], state)
    opened = ' open data-o' if state != 'up' else ''
    if not box.lanes:
        return '<tr><td><details class="box" id="%s"%s><summary class="line">%s<div></div></summary><div class="in soft">%s</div></details></td></tr>' % (
            anchor(box.name), opened, who, esc(box.verdict.reason))
    axis = shared or Axis(box.times())
    return "<tr><td><details class=\"box\" id=\"%s\"%s data-l='%s'><summary class=\"line\">%s<div>%s%s</div></summary><div class=\"in\">%s</div></details></td></tr>" % (
        anchor(box.name), opened, short_form(box), who, '' if shared else axis_svg(axis), strip_svg(box, axis), in_the_open(box))


def one_axis(boxes: list[Box]) -> bool:
    """whether the boxes' clocks start together, so that one axis serves all. A lane tells that, and not a box: from before a reboot to behind it no time has passed"""
    spans = [(lane.low, lane.high) for box in boxes for lane in box.lanes]
    if not spans:
        return False
    whole = max(b for _, b in spans) - min(a for a, _ in spans)
    return whole <= 4 * max(b - a for a, b in spans) or sum(bool(box.lanes) for box in boxes) == 1


# ---- above

def legend(kinds: Iterable[str]) -> str:
    """the kinds that there are, each as it looks in a strip and as a mark"""
    items = []
    for kind in marks.WORST:
        if kind in kinds:
            low = '<svg width="14" height="22" viewBox="-2 0 14 22" aria-hidden="true"><path class="k %s" d="M0 22%s"/></svg>' % (
                kind, SINGLE[kind] if kind in SINGLE else STRETCHED[kind].format(10, 6))
            mark = '<svg width="18" height="18" viewBox="-9 -9 18 18" aria-hidden="true"><path class="k %s" d="M0 0%s"/></svg>' % (kind, SHAPES[kind]) if kind in SHAPES else ''
            items.append('<li>%s%s%s</li>' % (low, mark, esc(WORDS[kind])))
    items += ['<li><svg width="26" height="18" aria-hidden="true"><rect class="tint" x="3" y="1" width="20" height="16"/></svg>tinted as long as the source is accepted</li>',
              '<li><svg width="26" height="18" aria-hidden="true"><rect class="break" x="3" y="1" width="20" height="16"/></svg>a long time without anything, drawn shorter</li>',
              '<li><svg width="26" height="18" aria-hidden="true"><rect class="reach" x="3" y="9" width="20" height="6"/></svg>below the marks: how many of the last 8 polls were answered</li>']
    return '<ul class="legend">%s</ul>' % ''.join(items)


class Group(NamedTuple):
    """boxes that are counted, and shown alone when their number is clicked"""
    word: str
    sign: str
    many: int


def groups_of(boxes: list[Box]) -> tuple[list[Group], list[Group], dict[str, str]]:
    """the states, the causes below them, and each box's groups by its name"""
    states = collections.Counter(box.verdict.state for box in boxes)
    silent = sum(box.note is not None for box in boxes)
    above = [Group(state, SIGNS[state], states[state]) for state in reversed(verdict.STATES)] + ([Group('not heard', '⏱', silent)] if silent else [])
    causes = collections.Counter((box.verdict.state, box.verdict.cause) for box in boxes if box.verdict.cause)
    below = sorted(causes.items(), key=lambda item: (-verdict.STATES.index(item[0][0]), -item[1], item[0][1]))
    number = {cause: 'c%d' % k for k, (cause, _) in enumerate(below)}
    mine = {box.name: ' '.join([box.verdict.state] + ([number[box.verdict.state, box.verdict.cause]] if box.verdict.cause else []) + (['not-heard'] if box.note else []))
            for box in boxes}
    return above, [Group('%s by %s' % cause, SIGNS[cause[0]], count) for cause, count in below], mine


def chip(group: Group, key: str) -> str:
    return '<button type="button" class="chip" disabled data-f="%s">%s <b>%d</b> %s</button>' % (key, group.sign, group.many, esc(group.word))


def spanned(boxes: list[Box]) -> str:
    """from when to when replies were measured, in true time"""
    servers = [lane.server for box in boxes for lane in box.lanes if lane.server.latest]
    if not servers:
        return 'no reply was measured'
    first, last = min(human.moment_of(walltime.at_reply(s.first).stamp) for s in servers), max(human.moment_of(walltime.at_reply(s.latest).stamp) for s in servers)
    return 'replies were measured from %s to %s UTC' % (first.strftime('%Y-%m-%d %H:%M'), last.strftime('%H:%M' if first.date() == last.date() else '%Y-%m-%d %H:%M'))


def asset(name: str) -> str:
    with open(os.path.join(HERE, name), encoding='utf-8') as f:
        return f.read()


def render(boxes: list[Box], codes: marks.Codes, every: int = 0, ended: bool = False) -> str:
    """the page; `every`: it is made again after so many seconds, and comes again by itself; `ended`: it was, and is not any more"""
    up, made = sum(box.verdict.state == 'up' for box in boxes), time.time()
    states, causes, mine = groups_of(boxes)
    kinds = {kind for box in boxes for lane in box.lanes for kind in lane.bins.kinds.values()} | {code.kind for code in codes.letters}
    shared = Axis([tick for box in boxes for tick in box.times()]) if one_axis(boxes) else None
    watched = ', and made again every %d s' % every if every else ', when its watch ended' if ended else ''
    about = dict(codes={letter: code._asdict() for code, letter in codes.letters.items()}, pair=codes.pair(), shapes=SHAPES, every=every, made=made)
    out = ['<!DOCTYPE html><html lang="en"><head><meta charset="utf-8"><meta name="viewport" content="width=device-width,initial-scale=1">',
           '<noscript><meta http-equiv="refresh" content="%d"></noscript>' % every if every else '',
           '<title>%d of %d came up</title><style>%s</style></head><body>' % (up, len(boxes), asset('page.css')),
           '<svg width="0" height="0" style="position:absolute" aria-hidden="true"><defs><pattern id="hatch" width="6" height="6" patternUnits="userSpaceOnUse" '
           'patternTransform="rotate(45)"><line class="hatch" x1="0" x2="0" y1="0" y2="6"/></pattern></defs></svg>',
           '<h1>%d of %d %s came up right</h1>' % (up, len(boxes), 'box' if len(boxes) == 1 else 'boxes'),
           '<p>Made at %s UTC%s; %s. <span id="old"></span></p>' % (time.strftime('%Y-%m-%d %H:%M:%S', time.gmtime(made)), watched, spanned(boxes)),
           '<div class="chips">%s <input id="q" type="search" placeholder="search boxes and reasons" aria-label="search boxes and reasons" hidden> <span id="shown" class="soft" '
           'aria-live="polite"></span></div>' % ''.join(chip(group, group.word.replace(' ', '-')) for group in states),
           '<div class="chips">%s</div>' % ''.join(chip(group, 'c%d' % k) for k, group in enumerate(causes)) if causes else '',
           '<p class="soft">Up is: a reply was measured, the source was accepted after it, and nothing gave up since. Ticks are the boxes’ own uptimes (<code>now</code>), '
           'times are true times, corrected by what was measured. The answers are those of the proved association; this page is drawn from them by a script.</p>',
           '<table class="rows"><thead><tr>%s</tr></thead><tbody>' % ''.join('<th><button type="button" disabled>%s</button></th>' % head for head in (
               'box', 'state', 'since', 'last offset', 'why and what to do, or when ticks became wall time'))]
    out += [row(box, mine[box.name]) for box in boxes]
    out += ['</tbody></table><h2>Strips</h2>', legend(kinds),
            '<p class="soft how">A strip of more than %d marks has the worst of each stretch of time. Open a box to see its marks: point at one, or use the arrow keys, left and right '
            'from mark to mark, up and down from box to box; the bar below says more. %s</p>'
            % (BUCKETS, 'All strips have one axis, of ticks.' if shared else 'Each strip has an axis of its own, of ticks, since the boxes’ ticks do not start together.'),
            '<table class="strips">%s<tbody>' % ('<thead><tr><th><div class="line"><div></div><div>%s</div></div></th></tr></thead>' % axis_svg(shared) if shared else '')]
    out += [strip(box, shared) for box in boxes]
    out.append('</tbody></table><div id="say" aria-live="polite">Open a box and point at a mark, or use the arrow keys: what happened there is said here.</div>'
               '<script type="application/json" id="page">%s</script><script>%s</script></body></html>\n' % (
                   json.dumps(about, ensure_ascii=False).replace('<', '\\u003c'), asset('page.js')))
    return '\n'.join(out)


def main(named: list[str], far: int = verdict.FAR) -> int:
    paths, codes = morning.paths_of(named), marks.Codes()
    boxes = morning.each(paths, lambda name, steps: marks.drawn(name, steps, far, len(paths), codes), Box)
    boxes = morning.worst_first([(box, box.verdict) for box in boxes])
    ends.write(render(boxes, codes).encode('utf-8', 'replace'))
    return morning.status(box.verdict for box in boxes)
