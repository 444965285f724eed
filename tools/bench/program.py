"""The proved program: where it is, whether it is the one that was proved, and how it is proved and built.

Only a program that a stamp names is run. `rt run` in crates/drill proves the crate and all below it, and only then compiles and links crates/drill/out/drill. Once
that gave its expected answers, it is copied to target/bin/drill, and the stamp is written; it holds a digest of the program, and of the sources and the toolchain
that it was made with. A program that was refused, or that answered otherwise, has none."""
import hashlib
import os
import platform
import shutil
import subprocess
import sys

from ends import die, say

sys.path.insert(1, os.path.dirname(os.path.dirname(os.path.realpath(__file__))))
import proving  # noqa: E402

ROOT, TARGET = proving.ROOT, proving.TARGET
CRATE = os.path.join(ROOT, 'crates', 'drill')
MADE = os.path.join(CRATE, 'out', 'drill')  # where rt leaves what it proved, compiled and linked
PROGRAM = os.path.join(TARGET, 'bin', 'drill')
SECONDS = 120  # the program has no more for its expected answers, as in rt ci
STAMP = os.path.join(TARGET, 'drill.stamp')
LOG = os.path.join(TARGET, 'drill.log')


def sha256(*pieces: bytes) -> str:
    h = hashlib.sha256()
    for piece in pieces:
        h.update(piece)
    return h.hexdigest()


def contents(path: str) -> bytes:
    with open(path, 'rb') as f:
        return f.read()


# ---- the toolchain

def kit() -> str:
    """the folder of the toolchain"""
    return proving.kit() or die("Rattle's command rt is not on the PATH: install the toolchain that README.md names")


def command(program: str = PROGRAM) -> list[str]:
    """what runs a program: it is for x86-64 Linux, so the toolchain's loader and C library run it, and elsewhere an emulator runs those"""
    libraries, machine = os.path.join(kit(), 'toolchain', 'lib'), platform.machine()
    loader = os.path.join(libraries, 'ld-linux-x86-64.so.2')
    if not os.path.exists(loader):
        die("the toolchain's loader %s is missing: install the toolchain again" % loader)
    emulator = None if machine in ('x86_64', 'amd64') else shutil.which('qemu-x86_64')
    if not emulator and machine not in ('x86_64', 'amd64'):
        die('the program is for x86-64, this machine is %s, and there is no emulator: qemu-x86_64 is not on the PATH (Debian: apt-get install qemu-user)' % machine)
    return ([emulator] if emulator else []) + [loader, '--library-path', libraries, program]


# ---- what was proved

def sources() -> str:
    """a digest of all that the program is proved from"""
    pieces = [contents(os.path.join(ROOT, 'crates.txt'))]
    for crate in proving.reached('drill'):
        for part in ('src', 'specs', 'proofs'):
            for folder, inner, files in os.walk(os.path.join(ROOT, 'crates', crate, part)):
                inner.sort()
                for name in sorted(files):
                    path = os.path.join(folder, name)
                    octets = contents(path)
                    pieces += [os.path.relpath(path, ROOT).encode(), b'\0%d\0' % len(octets), octets]
    identity = os.path.join(kit(), 'KIT-ID')
    return sha256(*pieces, contents(identity) if os.path.exists(identity) else b'')


def stamp_for(made_from: str, octets: bytes) -> str:
    return 'sources %s\nprogram %s\n' % (made_from, sha256(octets))


def lacks() -> str | None:
    """why the program may not run as it stands; nothing where it may"""
    try:
        with open(STAMP) as f:
            stamped = f.read()
    except FileNotFoundError:
        return 'no program was proved and built yet'
    if not os.access(PROGRAM, os.X_OK):
        return 'the built program is gone'
    if stamped.split()[:2] != ['sources', sources()]:
        return 'a source, or the toolchain, is not the one that the program was proved from'
    if stamped != stamp_for(stamped.split()[1], contents(PROGRAM)):
        return 'the built program is not the one that was proved'
    return None


# ---- proving and building

def expected() -> bool:
    """whether the program gives its expected answers: crates/drill/stdout, for the logs of crates/drill/data that crates/drill/args names"""
    words = contents(os.path.join(CRATE, 'args')).decode().splitlines()
    try:
        ran = subprocess.run(command(MADE) + words, cwd=os.path.join(CRATE, 'data'), stdin=subprocess.DEVNULL, stdout=subprocess.PIPE, stderr=subprocess.DEVNULL, timeout=SECONDS)
    except subprocess.TimeoutExpired:
        return False
    return ran.returncode == 0 and ran.stdout == contents(os.path.join(CRATE, 'stdout'))


def build() -> None:
    made_from = sources()
    for old in (STAMP, MADE):  # what is there afterwards is of this run
        if os.path.exists(old):
            os.remove(old)
    with open(LOG, 'wb') as log, proving.Progress('drill', 'drill') as progress:
        progress.begin()
        status = progress.run(['rt', 'run', '--cpu=x86-64'], log)  # for every x86-64; the toolchain's default is a later processor
    if status != 0:
        for line in proving.tail(LOG):
            say('  ' + line)
        die('the program was not proved or could not be built, and is not run (target/drill.log has the whole of it)')
    if not os.path.exists(MADE):
        die('rt run succeeded in crates/drill and left no program at crates/drill/out/drill')
    octets = contents(MADE)
    if not expected():
        die('the program was proved and did not give its expected answers, crates/drill/stdout, and is not run (`rt ci drill` says where they differ)')
    if sources() != made_from or contents(MADE) != octets:
        die('a source changed while it was proved: run this again')
    os.makedirs(os.path.dirname(PROGRAM), exist_ok=True)
    with open(PROGRAM + '.new', 'wb') as f:
        f.write(octets)
    os.chmod(PROGRAM + '.new', 0o755)
    os.replace(PROGRAM + '.new', PROGRAM)
    with open(STAMP + '.new', 'w') as f:
        f.write(stamp_for(made_from, octets))
    os.replace(STAMP + '.new', STAMP)


def ready() -> list[str]:
    """the command that runs the proved program, which is proved and built first where that is missing; of several runs at once one builds"""
    if not lacks():
        return command()
    try:
        with proving.Alone(say):
            if lacks():
                command()  # what is missing to run it is said before the minutes that it takes to build it
                build()
    except proving.Busy as why:
        die(str(why))
    return command()


def drill() -> list[str]:
    """what answers a log on standard input, for the commands that read a log as a whole: $DRILL, or the proved program"""
    return [os.environ['DRILL']] if os.environ.get('DRILL') else ready()
