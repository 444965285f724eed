"""counted: the proved library once more, with a counter or a flag in each block of its code. guided and reached link it."""
import hashlib
import importlib.machinery
import importlib.util
import os
import shutil
from typing import Any, List

HERE = os.path.dirname(os.path.realpath(__file__))


class Fault(Exception):
    """What is wrong, where, and what to do."""


def library_tool() -> Any:
    """tools/library, as a module"""
    loader = importlib.machinery.SourceFileLoader('library_tool', os.path.join(os.path.dirname(HERE), 'tools', 'library'))
    spec = importlib.util.spec_from_loader('library_tool', loader)
    tool = importlib.util.module_from_spec(spec)
    loader.exec_module(tool)
    return tool


def archive(folder: str, counters: List[str], flags: List[str]) -> str:
    """compiles the proved module with these counters and flags into a folder, unless that is done; gives the archive"""
    tool = library_tool()
    try:
        source, target = tool.proved(True), tool.targets.own()
        made, core, stamp = (os.path.join(folder, name) for name in ('libreckonstile.a', 'core.o', 'made-of'))
        parts = [tool.digest(path) for path in (os.path.join(source, 'module.ll'), tool.FACE, os.path.abspath(__file__))] + counters + flags
        made_of = hashlib.sha256('\n'.join(parts).encode()).hexdigest()
        if os.path.exists(stamp):
            with open(stamp) as f:
                if f.read() == made_of:
                    return made
        shutil.rmtree(folder, ignore_errors=True)
        os.makedirs(folder)
        more = [word for counter in counters for word in ('-Xclang', counter)] + flags
        if target.kits:
            tool.run([tool.program('clang'), '--target=' + target.triple] + list(target.flags) + tool.CORE + more
                     + ['-c', '-x', 'ir', os.path.join(source, 'module.ll'), '-o', core], 'compiling the proved module with counters')
            tool.run([tool.program('llvm-ar'), 'rcsD', made, core], 'making the archive')
        else:
            with open(os.path.join(source, 'module.ll')) as f, open(tool.FACE) as g:
                text, face = f.read(), g.read()
            whole = tool.module.Module(text, tool.CRATE)
            tool.CORE = tool.CORE + more
            tool.compiled(target, whole, tool.module.matched(whole, face), folder, made)
        with open(stamp, 'w') as f:
            f.write(made_of)
    except tool.Fault as why:
        raise Fault(str(why))
    return made
