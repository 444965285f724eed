"""What this machine has to build and run programs over the static library with: compilers, Rust, and the library, all for this machine's own target. A C program
can be built for another target of boards/targets.py too, by a cross compiler, and is then run under an emulator. Each thing that is missing is named with the package
that has it."""
import importlib.machinery
import importlib.util
import os
import shutil
import subprocess
import sys
from typing import Any, Dict, List, Optional, Sequence

ROOT = os.path.dirname(os.path.dirname(os.path.abspath(__file__)))
BUILT = os.environ.get('RECKONSTILE_TARGET') or os.path.join(ROOT, 'target')  # tests/all works in a copy, which has nothing built
sys.path.insert(0, os.path.join(ROOT, 'boards'))
import targets  # noqa: E402


class Lacks(Exception):
    """Something is missing: what, and what to do."""


def row(name: Optional[str] = None) -> targets.Target:
    """a target of the library, by its name or Rust's; else this machine's own"""
    try:
        return targets.named(name) if name else targets.own()
    except KeyError as fault:
        raise Lacks(fault.args[0])


def native(target: targets.Target) -> bool:
    return target == row()


def found(name: str, packages: str) -> str:
    path = shutil.which(name)
    if not path:
        raise Lacks('there is no %s (Debian: apt-get install %s)' % (name, packages))
    return path


def cc(target: Optional[targets.Target] = None) -> str:
    target = target or row()
    return found(os.environ.get('CC') or 'cc', 'gcc') if native(target) else found(target.cc, target.packages)


def cxx() -> str:
    return found(os.environ.get('CXX') or 'c++', 'g++')


def emulated(target: targets.Target) -> List[str]:
    """what stands before a program's name to run it: nothing for this machine's own"""
    return [] if native(target) else [found(target.emulator, 'qemu-user')]


# ---- the library

def archive(path: str) -> Optional[str]:
    return path if os.path.isfile(path) else next((p for p in (os.path.join(path, 'libreckonstile.a'),) if os.path.isfile(p)), None)


def library(target: Optional[targets.Target] = None, make: bool = True) -> str:
    """the static library for a target: for this machine's own what RECKONSTILE_LIB names; else the repository's, made where it is missing or a source has changed"""
    target, named = target or row(), os.environ.get('RECKONSTILE_LIB')
    if named and native(target):
        path = archive(named)
        if not path:
            raise Lacks('there is no library at %s, which RECKONSTILE_LIB names' % named)
        return os.path.abspath(path)
    tool = script('library')
    try:
        folder = tool.make(target) if make else tool.current(target)
    except (tool.Fault, tool.proving.Busy) as fault:
        raise Lacks('%s; or set RECKONSTILE_LIB' % fault)
    if not folder:
        raise Lacks('the library for %s is not made, or was made from another revision or other sources; `tools/library %s` proves and makes it' % (target.name, target.name))
    return os.path.join(folder, 'libreckonstile.a')


def script(name: str) -> Any:
    """a program of tools/, as a module"""
    loader = importlib.machinery.SourceFileLoader(name, os.path.join(ROOT, 'tools', name))
    module = importlib.util.module_from_spec(importlib.util.spec_from_loader(name, loader))
    loader.exec_module(module)
    return module


# ---- Rust

def has_core(name: str, rustc: str = '') -> bool:
    """whether the Rust compiler has its own library for a target"""
    said = subprocess.run([rustc or os.environ.get('RUSTC') or 'rustc', '--print', 'target-libdir', '--target', name], stdout=subprocess.PIPE, stderr=subprocess.DEVNULL)
    folder = said.stdout.decode().strip()
    return said.returncode == 0 and os.path.isdir(folder) and any(entry.startswith('libcore') for entry in os.listdir(folder))


def rustc_for(name: str) -> Optional[str]:
    """a Rust compiler with the standard library for a target: this machine's own, or the one that tools/rust-elsewhere unpacked"""
    unpacked = os.path.join(BUILT, 'rust-elsewhere', 'rustc')
    return next((rustc for rustc in (os.environ.get('RUSTC') or 'rustc', unpacked) if shutil.which(rustc) and has_core(name, rustc)), None)


def nettle() -> str:
    """the folder of this machine's static nettle, by which the example connector speaks NTS; nothing where there is none"""
    if os.environ.get('NETTLE_LIB'):
        return os.environ['NETTLE_LIB']
    said = subprocess.run([cc(), '-print-file-name=libnettle.a'], stdout=subprocess.PIPE).stdout.decode().strip()
    return os.path.dirname(os.path.realpath(said)) if os.path.isabs(said) else ''


def has_nettle() -> bool:
    return os.path.isfile(os.path.join(nettle() or '/', 'libnettle.a'))


def rust(target: Optional[targets.Target] = None) -> Dict[str, str]:
    """the environment in which cargo builds over the library"""
    if not shutil.which('cargo'):
        raise Lacks('there is no cargo (rustup, or Debian: apt-get install cargo)')
    cc()  # what is missing is said before the library is proved, which takes minutes
    environment = dict(os.environ, RECKONSTILE_LIB=library(target))
    environment.setdefault('CARGO_TARGET_DIR', os.path.join(BUILT, 'rust'))
    if has_nettle():
        environment['NETTLE_LIB'] = nettle()
    return environment


def cargo(arguments: Sequence[str], **more: Any) -> 'subprocess.CompletedProcess[bytes]':
    """cargo in rust/, with the library for this machine, or for the one that --target names"""
    named = [after for before, after in zip(arguments, list(arguments)[1:]) if before == '--target'] + [word[9:] for word in arguments if word.startswith('--target=')]
    return subprocess.run(['cargo'] + list(arguments), cwd=os.path.join(ROOT, 'rust'), env=rust(row(named[0]) if named else None), **more)


def rust_example(name: str, features: Sequence[str] = ()) -> List[str]:
    """builds an example of the crate; gives the command that runs it"""
    environment = rust()
    command = ['cargo', 'build', '--quiet', '--offline', '--release', '-j1', '--example', name] + (['--features', ','.join(features)] if features else [])
    done = subprocess.run(command, cwd=os.path.join(ROOT, 'rust'), env=environment, stdout=subprocess.PIPE, stderr=subprocess.STDOUT)
    if done.returncode:
        raise RuntimeError('%s\n%s' % (' '.join(command), done.stdout.decode('utf-8', 'replace').strip()))
    return [os.path.join(environment['CARGO_TARGET_DIR'], 'release', 'examples', name)]
