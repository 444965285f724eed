(function () {
'use strict';
// The page is whole without this script, which adds: sorting, filters, search, the marks of an opened strip, keys, and the reload of a watched page.
var doc = document, say = doc.getElementById('say'), first = say.textContent, page = JSON.parse(doc.getElementById('page').textContent);
var rows = [].slice.call(doc.querySelectorAll('.rows tbody tr')), boxes = [].slice.call(doc.querySelectorAll('details.box'));
var body = doc.querySelector('.rows tbody'), search = doc.getElementById('q'), chips = [].slice.call(doc.querySelectorAll('[data-f]'));
var heads = [].slice.call(doc.querySelectorAll('.rows th button')), by = {}, PITCH = 14, TALL = 50, ROWS = 2, NS = 'http://www.w3.org/2000/svg';
var state = {f: '', q: '', sort: -1, down: false, open: {}, y: 0}, at = null;
boxes.forEach(function (box) { by[box.id] = box; });

// ---- filters, search and sorting
function fits(row) {
  return (!state.f || (' ' + row.dataset.g + ' ').indexOf(' ' + state.f + ' ') >= 0) && (!state.q || row.textContent.toLowerCase().indexOf(state.q) >= 0);
}
function filter() {
  var shown = 0;
  rows.forEach(function (row) {
    var out = !fits(row);
    row.hidden = out;
    shown += !out;
    by[row.dataset.b].closest('tr').hidden = out;
  });
  doc.getElementById('shown').textContent = shown < rows.length ? shown + ' of ' + rows.length + ' shown' : '';
  chips.forEach(function (chip) { chip.setAttribute('aria-pressed', String(chip.dataset.f === state.f)); });
  rove(rows.map(function (row) { return row.querySelector('a'); }));
  rove(boxes.map(function (box) { return box.firstElementChild; }));
}
function sort() {
  var k = state.sort, sign = state.down ? -1 : 1;
  var order = rows.slice();
  if (k >= 0) {
    order.sort(function (a, b) {
      var x = JSON.parse(a.dataset.s)[k], y = JSON.parse(b.dataset.s)[k];
      if (x === y) return rows.indexOf(a) - rows.indexOf(b);
      if (x === null || y === null) return x === null ? 1 : -1;
      return typeof x === 'string' ? sign * x.localeCompare(y, undefined, {numeric: true}) : sign * (x - y);
    });
  }
  order.forEach(function (row) {
    body.appendChild(row);
    var strip = by[row.dataset.b].closest('tr');
    strip.parentNode.appendChild(strip);
  });
  heads.forEach(function (head, i) {
    head.parentNode.setAttribute('aria-sort', i !== k ? 'none' : state.down ? 'descending' : 'ascending');
    head.textContent = head.dataset.t + (i !== k ? '' : state.down ? ' ▾' : ' ▴');
  });
}
chips.forEach(function (chip) {
  chip.disabled = false;
  chip.addEventListener('click', function () { state.f = state.f === chip.dataset.f ? '' : chip.dataset.f; filter(); });
});
heads.forEach(function (head, i) {
  head.disabled = false;
  head.dataset.t = head.textContent;
  head.addEventListener('click', function () {
    if (state.sort === i && state.down) { state.sort = -1; state.down = false; } else { state.down = state.sort === i; state.sort = i; }
    sort();
  });
});
search.hidden = false;
search.addEventListener('input', function () { state.q = search.value.trim().toLowerCase(); filter(); });

// ---- one tab stop for all names and one for all strips: the arrow keys go on from there
function seen(list) { return list.filter(function (e) { return e && !e.closest('[hidden]'); }); }
function rove(list) {
  list.forEach(function (e) { if (e) e.tabIndex = -1; });
  list = seen(list);
  if (list.length) list[0].tabIndex = 0;
}
function inOrder(selector) { return seen([].slice.call(doc.querySelectorAll(selector))); }
doc.addEventListener('keydown', function (e) {
  var here = doc.activeElement, step = {ArrowDown: 1, ArrowUp: -1}[e.key], list = null;
  if (!here || e.ctrlKey || e.altKey || e.metaKey) return;
  if (here.matches('.rows td a')) list = '.rows td a';
  if (here.matches('details.box > summary')) {
    list = 'details.box > summary';
    var move = {ArrowRight: 1, ArrowLeft: -1, Home: -Infinity, End: Infinity}[e.key];
    if (move) { go(here.parentNode, move); e.preventDefault(); return; }
  }
  if (!list || !step) return;
  var all = inOrder(list), next = all[all.indexOf(here) + step];
  if (next) {
    all.forEach(function (one) { one.tabIndex = -1; });
    next.tabIndex = 0;
    next.focus();
  }
  e.preventDefault();
});

// ---- the marks of an opened strip
function number(text) { return parseInt(text, 36); }
function read(lane) {
  var out = [], tick = lane.tick, line = lane.line, reach = lane.reach, good = lane.accepted, m, form = /(-?[0-9a-z]+)?(?::(-?[0-9a-z]+))?([^0-9a-z:-])/g;
  lane.pieces.forEach(function (piece) {
    var usual = {}, text = piece.split('*').join(page.pair);
    form.lastIndex = 0;
    while ((m = form.exec(text))) {
      if (m[3] === '=') { reach = out[out.length - 1].reach = number(m[1]); continue; }
      var was = usual[m[3]] || [0, 1], later = m[1] ? number(m[1]) : was[0], further = m[2] ? number(m[2]) : was[1], code = page.codes[m[3]];
      usual[m[3]] = [later, further];
      tick += later;
      line += further;
      reach = code.reach === '<' ? reach << 1 & 255 : code.reach === '1' ? reach | 1 : code.reach === '0' ? 0 : reach;
      good = code.rises || good && !code.falls;
      out.push({code: code, tick: tick * lane.unit, line: line, reach: reach, good: good});
    }
  });
  return out;
}
function two(n) { return (n < 10 ? '0' : '') + n; }
function clock(ms) {
  var s = Math.floor(ms / 1000), rest = ms % 1000, d = Math.floor(s / 86400), h = Math.floor(s / 3600) % 24, m = Math.floor(s / 60) % 60;
  var text = d ? d + 'd' + two(h) + 'h' + two(m) + 'm' + two(s % 60) : h ? h + 'h' + two(m) + 'm' + two(s % 60) : m ? m + 'm' + two(s % 60) : String(s % 60);
  return text + (rest ? '.' + String(1000 + rest).slice(1) : '') + 's';
}
function data(box) {
  if (!box.marks) {
    var words = box.words = {}, text = box.querySelector('pre');
    if (text) text.textContent.split('\n').forEach(function (line) { var m = /^(\d+)[,:]/.exec(line); if (m) words[m[1]] = line; });
    box.marks = JSON.parse(box.dataset.l || '[]').map(function (lane) {
      var marks = read({unit: lane[0], tick: lane[1], line: lane[2], reach: lane[3], accepted: lane[4], pieces: lane[5]}), column = -1, poll = false;
      marks.forEach(function (mark) {
        // A reply stands below its poll; every other mark has a column of its own, so that none covers another.
        if (mark.code.row !== 'reply' || !poll) column += 1;
        poll = mark.code.kind === 'poll';
        mark.column = column;
      });
      return marks;
    });
  }
  return box.marks;
}
function told(box, mark) {
  return 'line ' + (box.words[mark.line] || mark.line + ', tick ' + clock(mark.tick) + ': ' + mark.code.words);
}
function put(parent, name, what, text) {
  var node = doc.createElementNS(NS, name);
  for (var key in what) node.setAttribute(key, what[key]);
  if (text) node.textContent = text;
  parent.appendChild(node);
  return node;
}
function draw(box) {
  var place = box.querySelector('.lanes');
  if (!place || !box.open || !place.clientWidth) return;
  var wide = Math.floor(place.clientWidth), per = Math.max(1, Math.floor((wide - 10) / PITCH));
  if (box.drawn === wide + (box.whole ? 'all' : '')) return;
  box.drawn = wide + (box.whole ? 'all' : '');
  place.textContent = '';
  data(box).forEach(function (marks) {
    if (!marks.length) return;
    var last = marks[marks.length - 1].column, lines = Math.ceil((last + 1) / per), from = box.whole ? 0 : Math.max(0, lines - ROWS) * per;
    var svg = put(place, 'svg', {class: 'marks', viewBox: '0 0 ' + wide + ' ' + TALL * (lines - from / per), height: TALL * (lines - from / per), 'aria-hidden': 'true'});
    var paths = {tint: '', base: '', reach: ''}, labels = [], labelled = -1e9;
    svg.style.maxWidth = wide + 'px';
    for (var k = 0; k < lines - from / per; k++) paths.base += 'M0 ' + (TALL * k + 48.5) + 'H' + wide;
    marks.forEach(function (mark, i) {
      var c = mark.column - from, next = marks[i + 1];
      if (c < 0) return;
      var x = mark.x = 5 + PITCH / 2 + PITCH * (c % per), top = TALL * Math.floor(c / per);
      mark.y = top + (mark.code.row === 'poll' ? 19 : 31);
      if (!next || next.column !== mark.column) {
        var bits = mark.reach.toString(2).replace(/0/g, '').length;
        if (mark.good && !box.querySelector('i.unreadable')) paths.tint += 'M' + (x - PITCH / 2) + ' ' + (top + 12) + 'h' + PITCH + 'v27h-' + PITCH + 'z';
        if (bits) paths.reach += 'M' + (x - PITCH / 2) + ' ' + (top + 48) + 'v-' + bits + 'h' + PITCH + 'v' + bits + 'z';
      }
      paths[mark.code.kind] = (paths[mark.code.kind] || '') + 'M' + x + ' ' + mark.y + page.shapes[mark.code.kind];
      if (c !== labelled && (c % per === 0 || c - labelled >= 160 / PITCH) && c % per <= per - 70 / PITCH) { labels.push([x - PITCH / 2, top + 10, clock(Math.floor(mark.tick / 1000) * 1000)]); labelled = c; }
    });
    for (var kind in paths) if (paths[kind]) put(svg, 'path', {class: kind === 'tint' || kind === 'base' || kind === 'reach' ? kind : 'k ' + kind, d: paths[kind]});
    labels.forEach(function (label) { put(svg, 'text', {x: label[0], y: label[1]}, label[2]); });
    svg.addEventListener('mousemove', function (e) {
      var r = svg.getBoundingClientRect(), x = (e.clientX - r.left) * wide / r.width, y = (e.clientY - r.top) * wide / r.width, best = null, far = 400;
      marks.forEach(function (mark) {
        if (mark.column < from) return;
        var d = (mark.x - x) * (mark.x - x) + (mark.y - y) * (mark.y - y);
        if (d < far) { far = d; best = mark; }
      });
      if (best) show(box, svg, best);
    });
    marks.svg = svg;
    marks.from = from;
    if (from) {
      var more = doc.createElement('button');
      more.type = 'button';
      more.textContent = 'the earlier marks too';
      more.addEventListener('click', function () { box.whole = true; draw(box); });
      place.insertBefore(more, svg);
    }
  });
}
function show(box, svg, mark) {
  if (at && at.ring) at.ring.remove();
  at = {box: box, mark: mark, ring: put(svg, 'circle', {class: 'cursor', cx: mark.x, cy: mark.y, r: 8})};
  say.textContent = told(box, mark);
}
// The keys go by the log: line after line, whatever the marks' places are.
function go(box, move) {
  box.open = true;
  draw(box);
  var all = [].concat.apply([], data(box).map(function (marks) { return marks.map(function (mark) { return [marks, mark]; }); }));
  if (!all.length) return;
  all.sort(function (a, b) { return a[1].line - b[1].line; });
  var k = -1;
  all.forEach(function (one, i) { if (at && at.box === box && at.mark === one[1]) k = i; });
  k = k < 0 && Math.abs(move) === 1 ? 0 : Math.max(0, Math.min(all.length - 1, k + move));
  if (all[k][1].column < all[k][0].from) { box.whole = true; draw(box); }
  show(box, all[k][0].svg, all[k][1]);
}
boxes.forEach(function (box) { box.addEventListener('toggle', function () { draw(box); }); });
function drawAll() { boxes.forEach(draw); }
var waiting = 0;
addEventListener('resize', function () { clearTimeout(waiting); waiting = setTimeout(drawAll, 100); });
function target() {
  var box = by[decodeURIComponent(location.hash.slice(1))];
  if (box) { box.open = true; draw(box); box.scrollIntoView(); }
}
addEventListener('hashchange', target);

// ---- a watched page: it comes again by itself, and stays where it was
var KEY = 'drill ' + location.pathname;
function keep() {
  state.y = scrollY;
  state.open = {};
  boxes.forEach(function (box) { if (box.open !== box.hasAttribute('data-o')) state.open[box.id] = box.open; });
  try { sessionStorage.setItem(KEY, JSON.stringify(state)); } catch (e) { /* a browser that keeps nothing for files: the page is as it was made */ }
}
if (page.every) {
  try { Object.assign(state, JSON.parse(sessionStorage.getItem(KEY) || '{}')); } catch (e) { /* as above */ }
  search.value = state.q;
  Object.keys(state.open).forEach(function (id) { if (by[id]) by[id].open = state.open[id]; });
  addEventListener('pagehide', keep);
  setInterval(function () {
    if (doc.activeElement !== search) { keep(); location.reload(); }
  }, page.every * 1000);
  var age = Date.now() / 1000 - page.made;
  if (age > 60 + 3 * page.every) doc.getElementById('old').textContent = 'This page is ' + Math.round(age / 60) + ' min old: its watch has ended or is late.';
}
sort();
filter();
drawAll();
if (page.every && state.y) scrollTo(0, state.y); else if (location.hash) target();
doc.documentElement.dataset.ready = '1';
})();
