"""The harness of the tests: checks are counted, the last line is `N passed, M failed`, and the status is 1 where a check failed or nothing was checked. What this machine
lacks is named on a line `left out: ..`. With it come the folder that a test works in, which is removed at its end, and the modules of tools/bench, tools and boards."""
import atexit
import importlib.machinery
import importlib.util
import os
import pty
import shutil
import subprocess
import sys
import tempfile
from types import ModuleType
from typing import Any, Callable, Dict, Iterable, List, Mapping, NoReturn, Optional, Sequence, Tuple, Union

ROOT = os.path.dirname(os.path.dirname(os.path.dirname(os.path.realpath(__file__))))
HERE = os.path.join(ROOT, 'drill')              # ./drill of this tree
DRILL = os.environ.get('DRILL', HERE)           # what answers logs
DRILLS = os.path.join(ROOT, 'drills')
NOT_OURS = ('.git', 'target', 'out', 'published', '__pycache__')   # in the repository's folder, and none of it
ROOM = 800                                      # characters that are shown of what was found instead

sys.dont_write_bytecode = True
sys.path[1:1] = [os.path.join(ROOT, *path) for path in (('tools', 'bench'), ('tools',), ('boards',))]


# ---- checks

class Count:
    """the checks of one test"""

    def __init__(self) -> None:
        self.passed = self.failed = self.left = 0
        self.most: Optional[int] = None  # how many that fail are shown; all, where nothing is said


COUNT = Count()


def show_at_most(count: int) -> None:
    """of the checks that fail only the first are shown: for tests that make thousands"""
    COUNT.most = count


def held(what: str, true: object, why: object = '') -> bool:
    """one check; where it does not hold it is shown, with what was found instead. Gives whether it holds"""
    if true:
        COUNT.passed += 1
        return True
    COUNT.failed += 1
    if COUNT.most is None or COUNT.failed <= COUNT.most:
        found = str(why)[-ROOM:]
        print('failed: %s%s' % (what, ': ' + found if found else ''), flush=True)
    return False


def counted(passed: int, failed: int = 0) -> None:
    """checks that another program made, or that are shown elsewhere"""
    COUNT.passed, COUNT.failed = COUNT.passed + passed, COUNT.failed + failed


def answers_held(asked: Sequence[str], wanted: Sequence[str], said: Sequence[str], where: str = '') -> None:
    """each answer to a line is the wanted one; an answer that is missing, or one too many, is wrong too"""
    for k in range(max(len(wanted), len(said))):
        line, should, answer = (texts[k] if k < len(texts) else '(nothing)' for texts in (asked, wanted, said))
        if answer == should:
            COUNT.passed += 1
        else:
            held('%s%s\n  is answered   %s\n  and should be %s' % (where, line[:400], answer[:400], should[:400]), False)


def left_out(what: str) -> None:
    """something is not tried, since this machine lacks what it needs; it is no failure"""
    COUNT.left += 1
    print('left out: ' + what, flush=True)


def ended() -> NoReturn:
    """the end of a test: its last line, and its status"""
    if not (COUNT.passed or COUNT.failed or COUNT.left):
        held('something is tried', False)
    print('%d passed, %d failed' % (COUNT.passed, COUNT.failed))
    sys.exit(1 if COUNT.failed else 0)


def stopped(why: str) -> NoReturn:
    """the end of a test that cannot go on"""
    held(why, False)
    ended()


def tried(parts: Iterable[Callable[[], None]], names: Sequence[str] = ()) -> None:
    """runs the parts of a test, or those that are named"""
    for part in parts:
        if not names or part.__name__ in names:
            part()


# ---- the folder that a test works in

class Folder:
    path = ''


def work() -> str:
    """the test's own folder, which is removed when it ends"""
    if not Folder.path:
        Folder.path = tempfile.mkdtemp(prefix=os.path.basename(sys.argv[0]) + '.')
        atexit.register(shutil.rmtree, Folder.path, ignore_errors=True)
    return Folder.path


def path(name: str) -> str:
    """a place in the test's folder; an absolute path stays"""
    return os.path.join(work(), name)


def put(name: str, text: Union[str, bytes], mode: Optional[int] = None) -> str:
    """writes a file into the test's folder; gives its path"""
    place = path(name)
    os.makedirs(os.path.dirname(place), exist_ok=True)
    with open(place, 'wb') as f:
        f.write(text if isinstance(text, bytes) else text.encode())
    if mode is not None:
        os.chmod(place, mode)
    return place


def contents(place: str) -> str:
    """the text of a file: of the repository, unless the path is absolute"""
    with open(os.path.join(ROOT, place), encoding='utf-8') as f:
        return f.read()


def copy_of(parts: Optional[Sequence[str]], to: str) -> str:
    """a copy of parts of the repository, or of all of it, without what is built; gives its path"""
    for part in parts or ('',):
        here, there = os.path.join(ROOT, part), os.path.join(path(to), part).rstrip('/')
        if os.path.isdir(here):
            shutil.copytree(here, there, symlinks=True, ignore=shutil.ignore_patterns(*NOT_OURS), dirs_exist_ok=True)
        else:
            os.makedirs(os.path.dirname(there), exist_ok=True)
            shutil.copy(here, there)
    return path(to)


# ---- programs

def script(name: str) -> Any:
    """a program of the repository, such as tools/reference, as a module"""
    called = os.path.basename(name)
    loader = importlib.machinery.SourceFileLoader(called, os.path.join(ROOT, name))
    spec = importlib.util.spec_from_loader(called, loader)
    assert spec
    module: ModuleType = importlib.util.module_from_spec(spec)
    loader.exec_module(module)
    return module


def run(*command: str, **how: Any) -> 'subprocess.CompletedProcess[Any]':
    """a command that is run to its end, with nothing to read and with what it writes kept"""
    usual: Dict[str, Any] = dict(stdout=subprocess.PIPE, stderr=subprocess.PIPE, timeout=600)
    if 'input' not in how:
        usual['stdin'] = subprocess.DEVNULL
    return subprocess.run(command, **{**usual, **how})


def on_terminal(command: Sequence[str], env: Optional[Mapping[str, str]] = None, out: Optional[str] = None) -> Tuple[int, bytes]:
    """the status of a command that has a terminal of its own, and what it writes to it; standard output goes there too, unless it goes to a file"""
    child, fd = pty.fork()
    if child == 0:
        if out is not None:
            os.dup2(os.open(out, os.O_WRONLY), 1)
        os.execve(command[0], list(command), os.environ if env is None else env)
    said = b''
    while True:
        try:
            more = os.read(fd, 65536)
        except OSError:  # that is how a terminal ends whose program is gone
            break
        if not more:
            break
        said += more
    os.close(fd)
    return os.waitstatus_to_exitcode(os.waitpid(child, 0)[1]), said


def answered(lines: Sequence[str], program: str = DRILL) -> List[str]:
    """what a program answers to lines; `(nothing)` where it does not"""
    ran = subprocess.run([program], input=''.join(line + '\n' for line in lines).encode(), stdout=subprocess.PIPE, stderr=subprocess.DEVNULL)
    said = ran.stdout.decode().split('\n')[:-1]
    return said + ['(nothing)'] * (len(lines) - len(said))
