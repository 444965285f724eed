"""The options of ./drill, one row each. `--help` is made from these tables as it runs; `tools/options --write` makes docs/drill.1 and tools/completion/.

A new mode is a row of MODES, and a branch in __main__.py. A new command of the log is a line of COMMANDS. Then run tools/options --write."""
import os
import textwrap
from typing import NamedTuple

ROOT = os.path.dirname(os.path.dirname(os.path.dirname(os.path.realpath(__file__))))
LOGS, CAPTURES, FILES, FOLDERS = ('*.drill',), ('*.pcap', '*.pcapng', '*.cap'), ('*',), ('/',)


class Option(NamedTuple):
    """an option of one mode"""
    word: str                           # as it is written: --box
    value: str                          # what stands behind it, in capitals; nothing for a flag
    tells: str                          # what it does, in a line of --help
    repeats: bool = False               # it may be given more than once
    offers: tuple[str, ...] = ()        # what completion offers for its value: patterns of file names, or FOLDERS


class Mode(NamedTuple):
    """what ./drill does, named by its first word"""
    word: str                           # as it is written: --explain; nothing where a log is answered
    forms: tuple[tuple[str, str], ...]  # each way to write it: what stands behind the word, and what it does, in a line of --help
    offers: tuple[str, ...] = ()        # the files that completion offers, as patterns
    options: tuple[Option, ...] = ()
    one: str = ''                       # where it ends with status 1, if that is not where a line was answered `error`
    three: str = ''                     # where it ends with status 3
    more: tuple[str, ...] = ()          # paragraphs that the man page has beyond --help; `code` stands in backquotes
    also: tuple[str, ...] = ()          # other words for it: -h


FAR = Option('--far', 'LENGTH', 'the offset above which a box is doubtful: 1s by default')
NOT_UP = 'if a box is not up'
NEVER = 'never, such a box is unreadable'
FOLDER = 'In a FOLDER the files `*.drill` are read.'

MODES = (
    Mode('', (('FILE', 'answer each line of the log FILE; a FIFO and /dev/stdin are files too'),
              ('', 'the same for standard input, a line at a time: another program can hold a conversation with it')), LOGS,
         more=('The proved program answers each line before it reads the next. '
               'Standard error says what is wrong with a line that is answered `error`.',)),
    Mode('--explain', (('[--far LENGTH] FILE', 'the log in plain words: when, what was asked, what was answered and why, what changed in the record'),), LOGS,
         (FAR,)),
    Mode('--page', (('[--far LENGTH] FILE|FOLDER.. >MORNING.html', 'one page for a whole fleet: totals, a table and a strip for each log, to look at in a browser and to print'),), LOGS,
         (FAR,), one=NEVER, three=NOT_UP, more=(FOLDER,)),
    Mode('--watch', (('FOLDER --page OUT.html [--every SECONDS] [--far LENGTH]',
                      'the same page for a folder whose logs grow, made again and again until Ctrl-C; in a browser it reloads itself'),), FOLDERS,
         (Option('--page', 'OUT.html', 'where the page is written, in one step', offers=('*.html',)),
          Option('--every', 'SECONDS', 'how often it is made again: every 5 seconds by default'),
          FAR),
         more=(FOLDER + ' Only what grew is read; a log that was cut or replaced is read anew, and one that is gone stays on the page and says so. '
               'A box whose log has not grown for longer than its poll interval allows says `not heard since`.',
               'Ctrl-C ends it with status 0, and leaves a last page that does not reload.')),
    Mode('--summary', (('[--json|--csv] [--since OLD.json] [--far LENGTH] FILE|FOLDER..',
                        'a row for each box, the worst first: unreadable, never, lost, doubtful or up, and why; for people, or for a program'),), LOGS,
         (Option('--json', '', 'the rows as an array of objects'),
          Option('--csv', '', 'the rows as a table with a header'),
          Option('--since', 'OLD.json', 'say which boxes are newly down, recovered, new and missing since an earlier --json', offers=('*.json',)),
          FAR), one=NEVER, three=NOT_UP, more=(FOLDER, 'docs/DRILL.md has the rules ("What became of a box"), the keys and an example of two days ("A summary of many boxes").')),
    Mode('--capture', (('FILE.pcap [--box ADDRESS] [--server ADDRESS] [--port N].. >FILE.drill',
                        'make a log from a capture (pcap or pcapng) of a box\'s NTP traffic'),
                       ('FILE.pcap --all FOLDER [--box ADDRESS].. [--server ADDRESS] [--port N]..',
                        'the same for a whole site: a log for each box, FOLDER/ADDRESS.drill')),
         CAPTURES,
         (Option('--all', 'FOLDER', 'write a log for each box into FOLDER, which is made if there is none', offers=FOLDERS),
          Option('--box', 'ADDRESS', 'only this box; with --all it may be given more than once', repeats=True),
          Option('--server', 'ADDRESS', 'only what is asked of this server'),
          Option('--port', 'N', 'NTP is on this port and not on 123; it may be given more than once', repeats=True)),
         more=('`-` for FILE.pcap is standard input: `tcpdump -s 0 -w - udp port 123 | ./drill --capture -`.',
               "The link may be Ethernet, raw IP, PPP, Cisco's HDLC, MPLS, a loopback or Linux \"any\" (both forms), with VLAN tags (0x8100, 0x88a8, 0x9100, 0x9200), "
               'PPPoE and MPLS in any order. A packet that was seen at two interfaces counts once.',
               'Standard error says what is skipped, with the reason and a count: packets that the snap length cut (capture with `-s 0`), '
               'IP fragments, other ports, and so on. If no log can be made, the error says so.',
               'With `--all` there is a line for each box on standard error. A file is named by the box\'s address, with `-` for each colon, and is '
               'written whole or not at all. A log that an earlier run made of the same box is made anew, and the one before is kept with `~` after '
               'its name; any other file is left alone. The status is 0 if at least one log is there, and 2 if none is.')),
    Mode('--compare', (('LEFT RIGHT', 'the fields in which two hand-over files differ, in plain words, for boxes that behave differently'),), FILES,
         one='if a file cannot be read as one', three='if the two differ'),
    Mode('--strike', (('FILE', 'strike the replies that answer nothing, by the log alone, and replay the shorter log beside the whole one'),), LOGS,
         one='also if demand 3 is not seen to hold'),
    Mode('--raw', (('[FILE]', 'the proved program alone: no forms for people, no word about errors, and always the program\'s own status'),), LOGS),
    Mode('--ready', (('', 'say whether the program is proved and built; build nothing'),), one='if it is not'),
    Mode('--version', (('', 'the version of this repository, as its file VERSION has it'),)),
    Mode('--help', (('', 'this text'),), also=('-h',), more=('It is made from the same table as this page.',)),
)

COMMANDS = (
    'new min= max= startup= window= mark= start= nts= source= list=[-] capacity=[8]',
    'timer now= desired= id= uid=[-] room=[1024]',
    'reply now= t1= t4= packet= auth=[48] plain=[-] list=[-]',
    'reply5 now= t1= t4= leap= mode= stratum= poll= precision= rootdelay= rootdisp= receive= transmit= cookie=\n'
    '       kiss=[-] auth=[absent] enc=[absent] untrusted=[absent] list=[-]',
    'accept stratum= local=[-] bloom=[none]',
    'collect plain= room=[4096]',
    'request kind= poll= id= mark=[0000000000000000] uid=[-] cookie=[-] asked=[0] room=[6144]',
    'salvage list= room=[4096]',
    'calendar cap= entries=',
    'plan cap= repeats=',
    'metered, profile: the keys of new',
    'save room=[8192]',
    'load file=',
    'compare left= right= room=[4096]',
    'show, cookies, blank, poke key= value=',
)

TITLE = 'replay a log of calls against the proved association'
LANGUAGE = 'A log has a command to a line; empty lines and lines that begin with # are skipped:'
FORMS = 'Times may be written as 03:00:00, 5s or 250ms, wall clocks as 2026-11-15T03:00:00.04Z, addresses as 192.0.2.1.'
PAPERS = 'docs/DRILL.md says what each key takes, docs/NUMBERS.md what each number means; drills/ has logs to start from.'
FIRST_RUN = 'The first run proves and builds the program: it needs rt, and takes some minutes. --ready says whether that is done.'
STREAMS = 'Answers go to standard output, all else to standard error.'
ZERO = 'if every line was answered, and with --page and --summary every box is up'
TWO = 'on bad usage, if reading or writing failed, if there is no log to read or it has no command, or if a capture gives no log'


# What the man page has beside the options.
ENVIRONMENT = (
    ('DRILL', 'The program that --explain, --page, --watch, --summary, --compare and --strike run in the proved one\'s place; for tests.'),
    ('NO_COLOR', 'If it is set, --explain has no colours.'),
)
KEPT = (
    ('target/bin/drill', 'The program.'),
    ('target/drill.stamp', 'What the program was proved from. If it is missing or differs, the program is proved and built anew.'),
    ('target/drill.log', 'What the toolchain printed while it was proved and built.'),
)
EXAMPLES = (
    ('./drill drills/modem-overnight.drill', 'Replay a bad morning:'),
    ('tcpdump -i any -s 0 -w site.pcap udp port 123', 'Capture at a site (Ctrl-C ends it):'),
    ('./drill --capture site.pcap --all site && ./drill --page site/*.drill >site.html', 'Make a log for each of its boxes, and look at them all:'),
)


def one_words() -> str:
    """when ./drill ends with 1"""
    modes = {mode.one: [other.word for other in MODES if other.one == mode.one] for mode in MODES if mode.one}
    return 'if a line was answered `error` (%s)' % '; '.join('%s: %s' % (', '.join(words), when) for when, words in modes.items())


def three_words() -> str:
    """when ./drill ends with 3"""
    modes = {mode.three: [other.word for other in MODES if other.three == mode.three] for mode in MODES if mode.three}
    return ' or '.join('%s (%s)' % (when, ', '.join(words)) for when, words in modes.items())


# Where a line of --help says what its left side does; a longer left side has a line of its own.
COLUMN = 28


def row(left: str, right: str) -> str:
    return left.ljust(COLUMN) + right if len(left) + 2 <= COLUMN else left + '\n' + ' ' * COLUMN + right


def written(mode: Mode, takes: str) -> str:
    """how a form of a mode is written"""
    return ' '.join(word for word in ('./drill', mode.word, takes) if word)


def help_text() -> str:
    out = ['drill: ' + TITLE, '']
    for mode in MODES:
        out += [row('  ' + written(mode, takes), tells) for takes, tells in mode.forms]
        out += [row('    ' + ' '.join((option.word, option.value)).strip(), option.tells) for option in mode.options]
    out += ['', textwrap.fill('It ends with 0 %s, 1 %s, 2 %s, and 3 %s. %s' % (ZERO, one_words(), TWO, three_words(), STREAMS), 150, break_on_hyphens=False), '']
    out += [LANGUAGE, ''] + ['  ' + command.replace('\n', '\n  ') for command in COMMANDS]
    return '\n'.join(out + ['', FORMS, PAPERS, FIRST_RUN, ''])


def of(word: str) -> Mode:
    return next(mode for mode in MODES if mode.word == word)


def version() -> str:
    with open(os.path.join(ROOT, 'VERSION'), encoding='ascii') as f:
        return f.read().strip()
