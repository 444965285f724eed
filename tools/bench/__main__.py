"""drill: what ./drill does with its options. The answers are the proved program's; everything around them is these scripts'."""
import _signal  # Ctrl-C ends this by the signal and without a traceback, from the first moment on: `signal` itself takes a while to load
_signal.signal(_signal.SIGINT, _signal.SIG_DFL)
_signal.pthread_sigmask(_signal.SIG_UNBLOCK, [_signal.SIGINT])  # ./drill held it back
import os  # noqa: E402
import sys  # noqa: E402

sys.path.insert(0, os.path.dirname(os.path.realpath(__file__)))
import ends  # noqa: E402


def misused(why):
    ends.say(why)
    ends.die('./drill --help says how it is used')


def options(args, takes, repeats=()):
    """the values of the options that `takes` names, as a list where an option `repeats`, and the arguments beside them"""
    found, rest = {}, []
    while args:
        word = args.pop(0)
        if word in takes:
            if not args or args[0].startswith('--'):
                misused('%s needs a value' % word)
            if word in repeats:
                found.setdefault(word, []).append(args.pop(0))
                continue
            if word in found:
                misused('%s is given twice' % word)
            found[word] = args.pop(0)
        elif word.startswith('-') and word != '-':
            misused('there is no option %s here' % word)
        else:
            rest.append(word)
    return found, rest


def far(found):
    """the offset from which on a box is doubtful, in 2^-32 s: seconds, or 250ms, 2s, 1m"""
    import human
    import verdict
    text = found.get('--far')
    length = verdict.FAR if text is None else human.seconds(text if not text.replace('.', '', 1).isdigit() else text + 's')
    if length is None or length < 0:
        misused('--far takes a length of time such as 1s or 250ms, and not %s' % text)
    return length if text is None else int(length * human.SECOND)


def one(args, what):
    if len(args) != 1:
        misused('%s takes one file' % what)
    return args[0]


def main(args):
    word = args[0] if args and args[0].startswith('-') and args[0] != '-' else ''
    if word in ('-h', '--help'):
        import options as table
        ends.write(table.help_text().encode())
        return ends.ALL_ANSWERED
    args = args[1:] if word else args
    if word in ('', '--raw'):
        import run
        _, names = options(args, ())
        if len(names) > 1:
            misused('one log at a time')
        return run.replay(names[0] if names else None, raw=word == '--raw')
    if word == '--ready':
        import program
        options(args, ())
        why = program.lacks()
        ends.write(((why or 'the program is proved and built') + '\n').encode())
        return 1 if why else 0
    if word == '--strike':
        import program
        name = one(options(args, ())[1], word)
        strike = os.path.join(program.ROOT, 'tools', 'strike')
        _signal.pthread_sigmask(_signal.SIG_BLOCK, [_signal.SIGINT])  # until strike has said what Ctrl-C is to do
        os.execv(sys.executable, [sys.executable, strike, name])
    if word == '--explain':
        import explain
        found, names = options(args, ('--far',))
        return explain.main(one(names, word), far(found))
    if word == '--compare':
        import compare
        names = options(args, ())[1]
        if len(names) != 2:
            misused('--compare takes two files')
        return compare.main(*names)
    if word == '--page':
        import page
        found, names = options(args, ('--far',))
        if not names:
            misused('--page takes one log or more, or a folder')
        return page.main(names, far(found))
    if word == '--watch':
        import watch
        found, names = options(args, ('--page', '--every', '--far'))
        every = found.get('--every', str(watch.EVERY))
        if len(names) != 1 or '--page' not in found:
            misused('--watch takes one folder, and --page with the name of the page to write')
        if not every.isdigit() or not 1 <= int(every) <= 86400:
            misused('--every takes a number of seconds, 1 to 86400, and not %s' % every)
        return watch.main(names[0], found['--page'], int(every), far(found))
    if word == '--summary':
        import summary
        forms = [form for form in ('--json', '--csv') if form in args]
        found, names = options([arg for arg in args if arg not in forms], ('--far', '--since'))
        if len(forms) > 1 or not names:
            misused('--summary takes one log or more, or a folder' if not names else '--json and --csv are two forms: take one')
        return summary.main(names, forms[0] if forms else None, far(found), found.get('--since'))
    if word == '--capture':
        import capture
        import options as table
        mine = table.of(word).options
        found, names = options(args, [o.word for o in mine], [o.word for o in mine if o.repeats])
        return capture.main(one(names, word), found.get('--box', ()), found.get('--server'), found.get('--port', ()), found.get('--all'))
    if word == '--version':
        import options as table
        options(args, ())
        try:
            ends.write(('drill (Reckonstile) %s\n' % table.version()).encode())
        except OSError as fault:
            ends.die('VERSION, at the root of the repository, cannot be read: %s' % fault.strerror)
        return ends.ALL_ANSWERED
    misused('there is no option %s' % word)


sys.exit(main(sys.argv[1:]))
