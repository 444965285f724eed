"""Programs in C of tests/support over the static library, and what the library gives and needs; tools/machine.py has the compilers, Rust and the library. Run, it says
what this machine lacks for them."""
import os
import subprocess
import sys
from typing import List, Optional

import harness
import targets
from machine import BUILT, Lacks, cargo, cc, cxx, emulated, found, has_core, has_nettle, library, native, row, rust, rust_example, rustc_for, script

__all__ = ['BUILT', 'Lacks', 'cargo', 'cc', 'compiled', 'cxx', 'emulated', 'found', 'gives', 'has_core', 'has_nettle', 'library', 'native', 'needs', 'row', 'rust',
           'rust_example', 'rustc_for', 'script', 'targets']
ROOT = harness.ROOT


def compiled(source: str, out: str, language: str = 'c11', target: Optional[targets.Target] = None) -> List[str]:
    """compiles a C file of tests/support with the header and the library; gives the command that runs it"""
    target = target or row()
    flags = ['-O2', '-Wall', '-Wextra', '-Werror', '-pedantic', '-I', os.path.join(ROOT, 'include')]
    file, objects = os.path.join(ROOT, 'tests', 'support', source), out + '.o'
    compiler = [cxx(), '-x', 'c++', '-std=c++17'] if language == 'c++17' else [cc(target), '-std=c11']
    for command in (compiler + flags + ['-c', '-o', objects, file], [cc(target), '-static', '-o', out, objects, library(target)]):
        done = subprocess.run(command, stdout=subprocess.PIPE, stderr=subprocess.STDOUT)
        if done.returncode:
            raise RuntimeError('%s\n%s' % (' '.join(command), done.stdout.decode('utf-8', 'replace').strip()))
    return emulated(target) + [out]


def symbols(target: Optional[targets.Target] = None) -> List[List[str]]:
    named = subprocess.run([cc(target), '-print-prog-name=nm'], stdout=subprocess.PIPE).stdout.decode().strip()
    said = subprocess.run([named, library(target)], stdout=subprocess.PIPE, stderr=subprocess.DEVNULL).stdout.decode().splitlines()
    return [line.split() for line in said]


def gives(target: Optional[targets.Target] = None) -> List[str]:
    """the functions that the library has for programs"""
    return sorted({words[2] for words in symbols(target) if len(words) == 3 and words[1] == 'T'})


def needs(target: Optional[targets.Target] = None) -> List[str]:
    """the C functions that the library leaves to the program that links it"""
    lines = symbols(target)
    given = {words[2] for words in lines if len(words) == 3}
    return sorted({words[1] for words in lines if len(words) == 2 and words[0] == 'U'} - given)


if __name__ == '__main__':
    # Says what is missing to build and run what links the library, and nothing where all is there. With names of targets: to build and run C programs for them.
    try:
        if sys.argv[1:]:
            for each in map(row, sys.argv[1:]):
                cc(each), emulated(each), library(each, make=False)
        else:
            cc(), cxx(), library(make=False), rust()
    except Lacks as lack:
        print(lack)
