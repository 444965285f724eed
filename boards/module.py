"""The module that the toolchain hands its compiler, as text: held to what every target can take, then given to the targets' own face (face.c).

The module is the proved code with byte offsets written out, places of bytes and 64-bit lengths. x86-64 shows in three places alone: the triple and layout, three
attributes, and the exported functions, which follow that machine's calling convention. What stands behind them takes pointers and numbers. All that is known to
mean the same on every target is listed here; anything else is refused by name, since a compiler would take it without a word."""
import re
from typing import Dict, List, NamedTuple, NoReturn, Optional, Set, Tuple

REG = r'%[\w.]+'
VAL = r'(?:%[\w.]+|-?\d+|true|false)'
PLACE = r'(?:%[\w.]+|@static\.\d+)'
INT = r'i(?:1|8|16|32|64)'
NAME = r'@(?:"[^"]+"|[\w.$]+)'
# Two values that go together, out of a place or from one function of the module to another. Before a number a pointer goes with one of 64 bits alone: only so the
# number stands at the same byte where a pointer has four. Behind a number the pointer stands at byte 8, which `apart` keeps.
PAIR = r'\{ (?:i(?:8|16|32|64), i(?:8|16|32|64)|ptr, i64|i(?:8|16|32|64), ptr) \}'
NARROW = r'\{ i(?:8|16|32), ptr \}'  # of these a processor with pointers of four bytes would look for the pointer at byte 4
EMPTY = re.compile(r'@static\.\d+ = private unnamed_addr constant \[0 x i8\] zeroinitializer, align 1\Z')  # where an empty run of bytes is
MEMORY = ('llvm.memmove.p0.p0.i64', 'llvm.memcpy.p0.p0.i64', 'llvm.memset.p0.i64')
TRAP = 'llvm.trap'  # where the proof says that nothing comes: before `unreachable` alone
ATTRIBUTES = {'nounwind', 'nocallback', 'nofree', 'nosync', 'willreturn', 'mustprogress', 'norecurse', 'memory(argmem: readwrite)', 'memory(argmem: write)',
              'alwaysinline', 'cold', 'noreturn', 'memory(inaccessiblemem: write)'}
X86_64 = ('"probe-stack"="inline-asm"', '"stack-probe-size"="3072"', '"target-cpu"="x86-64"')

ARITHMETIC = r'%s = \w+(?: nuw| nsw| exact| disjoint)* %s %s, %s' % (REG, INT, VAL, VAL)
CAST = r'%s = \w+(?: nuw| nsw| nneg)* %s %s to %s' % (REG, INT, VAL, INT)
FORMS = {
    'alloca': r'(?P<to>%s) = alloca (?P<type>%s|ptr|\[\d+ x i8\]), align [1248]' % (REG, INT),
    'load': r'%s = load (?P<type>%s|ptr|%s), ptr (?P<at>%s), align [1248](?:, ![\w.]+ !\d+)*' % (REG, INT, PAIR, REG),
    'store': r'store (?:(?P<type>%s) %s|(?P<pointer>ptr) %s), ptr (?P<at>%s), align [1248]' % (INT, VAL, PLACE, REG),
    'extractvalue': r'%s = extractvalue %s %s, [01]' % (REG, PAIR, REG),
    'getelementptr': r'(?P<to>%s) = getelementptr(?: inbounds)?(?: nuw)? i8, ptr (?P<of>%s), i64 (?P<by>%s)' % (REG, REG, VAL),
    'icmp': r'%s = icmp \w+ %s %s, %s' % (REG, INT, VAL, VAL),
    'select': r'%s = select i1 %s, %s %s, %s %s' % (REG, VAL, INT, VAL, INT, VAL),
    'br': r'br (?:label %s|i1 %s, label %s, label %s)' % (REG, VAL, REG, REG),
    'switch': r'switch %s %s, label %s \[' % (INT, VAL, REG),
    'ret': r'ret (?:void|%s %s|ptr %s|%s %s)' % (INT, VAL, PLACE, PAIR, REG),
    'unreachable': r'unreachable',
    'call': r'(?:%s = )?call (?:void|%s|ptr|%s) (?P<name>%s)\((?P<arguments>.*)\)(?: #\d+)?' % (REG, INT, PAIR, NAME),
}
FORMS.update({word: ARITHMETIC for word in ('add', 'sub', 'mul', 'udiv', 'sdiv', 'urem', 'srem', 'shl', 'lshr', 'ashr', 'and', 'or', 'xor')})
FORMS.update({word: CAST for word in ('zext', 'sext', 'trunc')})
COMPILED = {word: re.compile(form + r'\Z') for word, form in FORMS.items()}
CASE = re.compile(r'%s -?\d+, label %s\Z|\]\Z' % (INT, REG))
ARGUMENT = re.compile(r'(?:i1 zeroext|%s|ptr) %s\Z' % (INT, VAL))  # a truth value goes between the module's own functions alone
DEFINE = re.compile(r'define (internal )?(.*?)(%s)\((.*)\) #\d+ \{\Z' % NAME)


class Refused(Exception):
    """The module has what a target cannot take: what, where, and what to do."""


class Form(NamedTuple):
    """How the function behind an export is called: what it gives, then each argument: i8 .. i64, or ptr with as many bytes as stand there, where that is said. Where
    it gives two values, they are written through a pointer that goes before the others: so C takes them alike on every target (`Module.retargeted`)."""
    result: str
    arguments: Tuple[str, ...]
    sizes: Tuple[Optional[int], ...]


class Function(NamedTuple):
    name: str
    internal: bool
    head: str
    lines: List[str]


def pieces(text: str) -> List[str]:
    """what stands between commas that no bracket holds"""
    found, depth, start = [], 0, 0
    for at, c in enumerate(text):
        depth += (c in '([{') - (c in ')]}')
        if c == ',' and not depth:
            found.append(text[start:at].strip())
            start = at + 1
    return found + [text[start:].strip()] if text.strip() else []


def functions(text: str) -> List[Function]:
    """the module's functions; what else stands in it is looked at on the way"""
    found: List[Function] = []
    inside: Optional[Function] = None
    for number, line in enumerate(text.splitlines(), 1):
        where = 'line %d of the module: %s' % (number, line[:160])
        if inside:
            if line == '}':
                inside = None
            else:
                inside.lines.append(line)
        elif line.startswith('define '):
            head = DEFINE.match(line)
            if not head:
                raise Refused('a function of a kind that is not known (%s)' % where)
            inside = Function(head.group(3)[1:].strip('"'), bool(head.group(1)), line, [])
            found.append(inside)
        elif line.startswith('target datalayout'):
            if '"e-' not in line or '-i64:64-' not in line:
                raise Refused('numbers do not lie as on a little-endian machine that aligns 64 bits to 8 bytes (%s)' % where)
        elif line.startswith('declare '):
            if not any('@%s(' % name in line for name in MEMORY + (TRAP,)):
                raise Refused('a function that the module does not have and that is none of memory\'s (%s)' % where)
        elif line.startswith('attributes '):
            held = line[line.index('{') + 1:line.rindex('}')]
            words = re.findall(r'"[^"]*"="[^"]*"|\w+\([^)]*\)|\S+', held)
            other = [w for w in words if w not in ATTRIBUTES and w not in X86_64]
            if other:
                raise Refused('the attribute %s, of which it is not known what another target makes of it (%s)' % (other[0], where))
        elif line.startswith('module asm'):
            raise Refused('inline assembly (%s)' % where)
        elif line and not line.startswith((';', 'source_filename', 'target triple', '!')) and not EMPTY.match(line):
            raise Refused('something that is no function (%s)' % where)
    return found


def size_of(kind: str) -> int:
    return 8 if kind == 'ptr' else max(1, int(kind[1:]) // 8)


def parts(pair: str) -> List[Tuple[str, int]]:
    """the types of two values that go together, each with the byte at which it stands"""
    first, second = re.findall(r'i\d+|ptr', pair)
    return [(first, 0), (second, -(-size_of(first) // size_of(second)) * size_of(second))]


def distances(function: Function) -> Set[str]:
    """the numbers of addresses: two are taken from each other, and what they are apart is compared with a length. That is the same where an address has four bytes,
    and whatever else is done with one is refused"""
    lines = [line.strip() for line in function.lines]
    addresses = {found.group(1) for found in (re.match(r'(%s) = ptrtoaddr ptr %s to i64\Z' % (REG, REG), line) for line in lines) if found}
    apart = {found.group(1) for found in (re.match(r'(%s) = sub i64 (%s), (%s)\Z' % (REG, REG, REG), line) for line in lines)
             if found and found.group(2) in addresses and found.group(3) in addresses}
    for line in lines:
        for register in set(re.findall(REG, line)) & (addresses | apart):
            known = r'%s = (?:ptrtoaddr ptr %s to i64|sub i64 %s, %s)\Z' if register in addresses else r'%s = (?:sub i64 %s, %s|icmp ult i64 %s, %s)\Z'
            blanks = (REG, REG, REG, REG) if register in addresses else (REG, REG, REG, re.escape(register), VAL)
            if not re.match(known % blanks, line) or ' = sub ' in line and re.match(REG, line) and re.match(REG, line)[0] not in apart:
                raise Refused('a pointer made a number, or a number a pointer: its width would count, in %s: %s' % (function.name, line[:200]))
    return addresses


def held(function: Function, names: Dict[str, Function]) -> None:
    """refuses a function that would mean something else, or nothing, where a pointer has four bytes or the processor is another"""
    def refuse(what: str, line: str) -> NoReturn:
        raise Refused('%s, in %s: %s' % (what, function.name, line[:200]))

    head = DEFINE.match(function.head)
    for parameter in pieces(head.group(4) if head else ''):
        if not re.match(r'(?:i1 noundef zeroext|(?:%s|ptr)(?: noundef)?) %s\Z' % (INT, REG), parameter):
            refuse('a parameter of a form that is not known', parameter)
    places: Dict[str, Tuple[str, int]] = {}
    pointers: Set[str] = set()                          # places of one pointer
    used: Dict[str, Dict[Tuple[int, str], str]] = {}    # of each place the offsets that are read or written, and as what
    addresses = distances(function)
    for row, raw in enumerate(function.lines):
        line = re.sub(r'\s*; (?:preds = .*|No predecessors!)\Z', '', raw).strip()
        if not line or re.match(r'[\w.]+:\Z', line) or CASE.match(line):
            continue
        word = re.sub(r'^%s = ' % REG, '', line).split(' ')[0]
        if ' asm ' in line:
            refuse('inline assembly', line)
        if word == 'ptrtoaddr' and re.match(REG, line) and re.findall(REG, line)[0] in addresses:
            continue
        if word in ('ptrtoint', 'inttoptr', 'ptrtoaddr') or 'inttoptr' in line or 'ptrtoint' in line:
            refuse('a pointer made a number, or a number a pointer: its width would count', line)
        form = COMPILED.get(word)
        if not form:
            refuse('the instruction %s, which is not known to mean the same on every target' % word, line)
        got = form.match(line)
        if not got:
            refuse('a type, an alignment or a form that is not known to mean the same on every target', line)
        if word == 'alloca':
            places[got.group('to')] = (got.group('to'), 0)
            if got.group('type') == 'ptr':
                pointers.add(got.group('to'))
            continue
        if word == 'getelementptr' and got.group('by').isdigit():
            root, at = places.get(got.group('of'), (got.group('of'), 0))
            places[got.group('to')] = (root, at + int(got.group('by')))
        if word in ('load', 'store'):
            root, at = places.get(got.group('at'), (got.group('at'), 0))
            kind = got.group('type') or got.group('pointer')
            for part, offset in parts(kind) if kind.startswith('{') else [(kind, 0)]:
                used.setdefault(root, {})[at + offset, part] = line
            kept = re.search(r'store \w+ (%s),' % REG, line)
            if kind == 'ptr' and not (kept and kept.group(1) in pointers):
                continue
        if word == 'call':
            name = got.group('name')[1:].strip('"')
            if name == TRAP and [after.strip() for after in function.lines[row + 1:row + 2]] != ['unreachable']:
                refuse('a trap that is not where nothing comes', line)
            if name not in MEMORY + (TRAP,) and name not in names:
                refuse('a call of %s, which the module does not have' % name, line)
            for argument in pieces(got.group('arguments')):
                if not ARGUMENT.match(argument):
                    refuse('an argument of a form that is not known', line)
        for register in re.findall(REG, line):
            if register in pointers:
                refuse('a place of one pointer that is used as bytes: it has eight of them here and four elsewhere', line)
    for root, all_used in used.items():
        for at, kind in all_used:
            for other, number in all_used:
                if kind == 'ptr' and number != 'ptr' and other < at + 8 and at < other + size_of(number):
                    refuse('a pointer\'s eight bytes that are also read or written as a number', all_used[other, number])


def form_of(export: Function, behind: Function) -> Form:
    """how the function behind an export is called, by the export's own call of it"""
    head = DEFINE.match(behind.head)
    assert head
    result = head.group(2).replace('noundef', '').strip()
    types = [piece.split(' ')[0] for piece in pieces(head.group(4))]
    places: Dict[str, int] = {}
    called: List[List[str]] = []
    lent: Dict[str, int] = {}
    outer = DEFINE.match(export.head)
    for piece in pieces(outer.group(4) if outer else ''):
        size = re.search(r'byval\(\[(\d+) x i8\]\)', piece)
        if size:
            lent[piece.split(' ')[-1]] = int(size.group(1))
    for line in (line.strip() for line in export.lines):
        place = re.match(r'(%s) = alloca \[(\d+) x i8\]' % REG, line)
        call = re.match(r'(?:%s = )?call .*?%s\((.*)\)' % (REG, NAME), line)
        if place:
            places[place.group(1)] = int(place.group(2))
        elif call and 'llvm.' not in line:
            called.append([piece.split(' ')[-1] for piece in pieces(call.group(1))])
    if len(called) != 1 or len(called[0]) != len(types):
        raise Refused('the export %s does not call the function behind it once' % export.name)
    arguments: List[str] = []
    sizes: List[Optional[int]] = []
    for kind, register in zip(types, called[0]):
        arguments.append(kind)
        sizes.append(lent.get(register, places.get(register)) if kind == 'ptr' else None)
    if result == 'void' and arguments and arguments[0] == 'ptr' and sizes[0] is None:
        given = {int(size) for size in re.findall(r'llvm\.memmove\.p0\.p0\.i64\(ptr %a0, ptr %[\w.]+, i64 (\d+), ', '\n'.join(behind.lines))}
        sizes[0] = given.pop() if len(given) == 1 else None
    if result.startswith('{'):
        (first, _), (second, at) = parts(result)
        most = max(size_of(first), size_of(second))
        return Form('void', ('ptr', *arguments), (-(-(at + size_of(second)) // most) * most, *sizes))
    return Form(result, tuple(arguments), tuple(sizes))


class Module:
    """A module that every target can take: its text, and how the function behind each export is called."""

    def __init__(self, text: str, crate: str) -> None:
        self.text, self.crate = text, crate
        every = functions(text)
        names = {function.name: function for function in every}
        self.forms: Dict[str, Form] = {}
        for function in every:
            if function.internal:
                held(function, names)
            else:
                behind = names.get('%s::%s' % (crate, function.name))
                if not behind:
                    raise Refused('the export %s has no function of the crate %s behind it' % (function.name, crate))
                self.forms[function.name] = form_of(function, behind)
        if not self.forms:
            raise Refused('the crate %s exports nothing' % crate)

    def retargeted(self, signext: bool) -> str:
        """the text without what is x86-64's; the functions behind the exports have C names, raw_NAME, which no shared object shows"""
        text = re.sub(r'^target (?:datalayout|triple) = .*\n', '', self.text, flags=re.M)
        text = text.replace(' = ptrtoaddr ptr ', ' = ptrtoint ptr ')  # which fills up an address of four bytes by zeros
        text = re.sub(r'^  (%s) = load (%s), ptr (%s), align (\d)[^\n]*$' % (REG, NARROW, REG), apart, text, flags=re.M)
        for attribute in X86_64:
            text = text.replace(' ' + attribute, '')
        text = re.sub(r'^(?:; Function Attrs:[^\n]*\n)?define (?!internal )[^\n]*\{\n.*?^\}\n', '', text, flags=re.M | re.S)
        for name, form in self.forms.items():
            quoted = '@"%s::%s"' % (self.crate, name)
            extended = 'signext ' if signext and form.result == 'i32' else ''
            pair = re.search(r'^define internal (?:noundef )?(%s) %s\((.*)\) (#\d+) \{$' % (PAIR, re.escape(quoted)), text, re.M)
            if pair:
                text = paired(text, name, quoted, pair)
                continue
            text, times = re.subn(r'^define internal (.*)%s\(' % re.escape(quoted), lambda m, n=name, e=extended: 'define hidden %s%s@raw_%s(' % (e, m.group(1), n), text,
                                  flags=re.M)
            if times != 1 or quoted in text:
                raise Refused('%s is called from within the module, or is there %d times' % (quoted, times))
        return text


def apart(load: 're.Match[str]') -> str:
    """a number and the pointer behind it, read one by one: the pointer at byte 8, where the module writes it, whatever a pointer's own alignment is"""
    to, pair, at, align = load.groups()
    (first, _), (second, byte) = parts(pair)
    lines = ('%s.0 = load %s, ptr %s, align %s' % (to, first, at, align), '%s.at = getelementptr i8, ptr %s, i64 %d' % (to, at, byte),
             '%s.1 = load %s, ptr %s.at, align %s' % (to, second, to, align), '%s.half = insertvalue %s poison, %s %s.0, 0' % (to, pair, first, to),
             '%s = insertvalue %s %s.half, %s %s.1, 1' % (to, pair, to, second, to))
    return '\n'.join('  ' + line for line in lines)


def paired(text: str, name: str, quoted: str, found: 're.Match[str]') -> str:
    """the text with a raw_NAME that calls the function behind an export, which gives two values, and writes them through its first argument"""
    if text.count(quoted) != 1:
        raise Refused('%s is called from within the module, or is there %d times' % (quoted, text.count(quoted)))
    pair, kinds = found.group(1), [piece.split(' ')[0] for piece in pieces(found.group(2))]
    given = ', '.join('%s %%a%d' % (kind, k) for k, kind in enumerate(kinds))
    lines = ['', 'define hidden void @raw_%s(%s) %s {' % (name, ', '.join(['ptr %to'] + ([given] if given else [])), found.group(3)), 'start:',
             '  %%pair = call %s @behind_%s(%s)' % (pair, name, given)]
    for k, (kind, at) in enumerate(parts(pair)):
        lines += ['  %%value%d = extractvalue %s %%pair, %d' % (k, pair, k), '  %%place%d = getelementptr i8, ptr %%to, i64 %d' % (k, at),
                  '  store %s %%value%d, ptr %%place%d, align %d' % (kind, k, k, size_of(kind))]
    return text.replace(quoted, '@behind_' + name) + '\n'.join(lines + ['  ret void', '}', ''])


# ---- the face: a C file that declares raw_NAME for each export

DECLARED = re.compile(r'^(\w[\w ]*?)\s+raw_(\w+)\(([^;{}]*)\);', re.M)
C_TYPES = {'uint8_t': 'i8', 'int8_t': 'i8', 'uint16_t': 'i16', 'uint32_t': 'i32', 'uint64_t': 'i64', 'void': 'void'}


class Call(NamedTuple):
    """A raw function as the face declares it."""
    result: str
    arguments: Tuple[str, ...]
    pointed: Tuple[str, ...]  # of a ptr the C type that it points to


def declared(face: str) -> Dict[str, Call]:
    """the functions that a face's text declares"""
    found: Dict[str, Call] = {}
    for result, name, inside in DECLARED.findall(re.sub(r'\n[ \t]+', ' ', face)):
        arguments, pointed = [], []
        for argument in pieces('' if inside.strip() == 'void' else inside):
            target = argument.replace('const ', '').replace('*', '').strip()
            arguments.append('ptr' if '*' in argument else C_TYPES.get(target, target))
            pointed.append(target if '*' in argument else '')
        found[name] = Call(C_TYPES.get(result.strip(), result), tuple(arguments), tuple(pointed))
    return found


def matched(module: Module, face: str) -> str:
    """refuses a face that calls otherwise than the module is called; gives C lines that hold each struct to the bytes that the module has for it"""
    calls = declared(face)
    for name in sorted(set(module.forms) ^ set(calls)):
        raise Refused('the export %s is in %s' % (name, 'the module and not in the face: write it there' if name in module.forms else 'the face and not in the module'))
    sizes: Dict[str, int] = {}
    for name, form in module.forms.items():
        call = calls[name]
        if (form.result, form.arguments) != (call.result, call.arguments):
            raise Refused('the export %s has the form %s(%s), and the face declares %s(%s)'
                          % (name, form.result, ', '.join(form.arguments), call.result, ', '.join(call.arguments)))
        if form.result not in ('void', 'i32', 'i64'):
            raise Refused('the export %s gives %s: how targets hand back a small number differs' % (name, form.result))
        for kind, size, pointed in zip(form.arguments, form.sizes, call.pointed):
            if (size is None) != (pointed in ('', 'void')):
                raise Refused('an argument of the export %s is %s, and the face declares %s there' % (
                    name, 'a run of bytes, or numbers' if size is None else '%d bytes' % size, pointed or 'a number'))
            if pointed and kind == 'ptr' and size is not None and sizes.setdefault(pointed, size) != size:
                raise Refused('%s has %d bytes in one export and %d in another (%s)' % (pointed, sizes[pointed], size, name))
    return ''.join('_Static_assert(sizeof(%s) == %d, "reckonstile: %s has %d bytes in the proved module");\n' % (c, n, c, n) for c, n in sorted(sizes.items()))
