"""The targets of the proved library: one row each. A new target is a new row; docs/BOARDS.md says how to find out whether it holds."""
import platform
from typing import NamedTuple, Tuple


class Target(NamedTuple):
    name: str
    triple: str                   # what the toolchain's clang calls it
    flags: Tuple[str, ...]        # the processor, and what is compiled for: speed on Linux, size on a board
    rust: Tuple[str, ...]         # the names that Rust has for it
    cc: str = ''                  # a C compiler that builds whole programs for it, and its packages of Debian
    packages: str = ''
    machine: str = ''             # what `uname -m` says on such a machine
    emulator: str = ''            # what runs its Linux programs elsewhere
    signext: bool = False         # a 32-bit number comes back sign-extended, whatever its type: RISC-V's convention on 64 bits
    kits: bool = False            # the toolchain writes this target's archive itself: no face of ours, nothing compiled anew
    runtime: Tuple[str, ...] = ()  # what the archive may leave to the compiler's runtime library, besides the functions of memory


# 64-bit shifts and products, which 32-bit processors have no instruction for.
EABI = ('__aeabi_lmul', '__aeabi_llsl', '__aeabi_llsr', '__aeabi_lasr')
LINUX = ('-O3', '-fPIC')
BOARD = ('-Os',)

TARGETS = (
    Target('x86_64-linux-gnu', 'x86_64-unknown-linux-gnu', LINUX, ('x86_64-unknown-linux-gnu', 'x86_64-unknown-linux-musl'), cc='x86_64-linux-gnu-gcc',
           packages='gcc-x86-64-linux-gnu libc6-dev-amd64-cross', machine='x86_64', emulator='qemu-x86_64', kits=True),
    Target('aarch64-linux-gnu', 'aarch64-unknown-linux-gnu', LINUX, ('aarch64-unknown-linux-gnu', 'aarch64-unknown-linux-musl'), cc='aarch64-linux-gnu-gcc',
           packages='gcc-aarch64-linux-gnu libc6-dev-arm64-cross', machine='aarch64', emulator='qemu-aarch64'),
    Target('armv7-linux-gnueabihf', 'armv7-unknown-linux-gnueabihf', LINUX + ('-march=armv7-a', '-mfpu=vfpv3-d16'),
           ('armv7-unknown-linux-gnueabihf', 'armv7-unknown-linux-musleabihf'), cc='arm-linux-gnueabihf-gcc',
           packages='gcc-arm-linux-gnueabihf libc6-dev-armhf-cross', machine='armv7l', emulator='qemu-arm', runtime=EABI),
    Target('riscv64-linux-gnu', 'riscv64-unknown-linux-gnu', LINUX + ('-march=rv64gc', '-mabi=lp64d'), ('riscv64gc-unknown-linux-gnu', 'riscv64gc-unknown-linux-musl'),
           cc='riscv64-linux-gnu-gcc', packages='gcc-riscv64-linux-gnu libc6-dev-riscv64-cross', machine='riscv64', emulator='qemu-riscv64', signext=True),
    Target('thumbv6m-none-eabi', 'thumbv6m-none-eabi', BOARD + ('-mcpu=cortex-m0', '-meabi', 'gnu', '-fshort-enums'), ('thumbv6m-none-eabi',), cc='arm-none-eabi-gcc',
           packages='gcc-arm-none-eabi libnewlib-arm-none-eabi', runtime=EABI),
    Target('thumbv7em-none-eabi', 'thumbv7em-none-eabi', BOARD + ('-mcpu=cortex-m4', '-mfloat-abi=soft', '-meabi', 'gnu', '-fshort-enums'), ('thumbv7em-none-eabi',),
           cc='arm-none-eabi-gcc', packages='gcc-arm-none-eabi libnewlib-arm-none-eabi', runtime=EABI),
    Target('riscv32imc-none-elf', 'riscv32-unknown-none-elf', BOARD + ('-march=rv32imc', '-mabi=ilp32'), ('riscv32imc-unknown-none-elf',), cc='riscv64-unknown-elf-gcc',
           packages='gcc-riscv64-unknown-elf picolibc-riscv64-unknown-elf', runtime=('__ashldi3', '__lshrdi3', '__ashrdi3', '__muldi3')),
)


def named(name: str) -> Target:
    """the row of that name, or of that name of Rust's"""
    for target in TARGETS:
        if name == target.name or name in target.rust:
            return target
    raise KeyError('there is no target %s; there are %s' % (name, ', '.join(t.name for t in TARGETS)))


def own() -> Target:
    """this machine's row"""
    for target in TARGETS:
        if target.machine and target.machine == platform.machine():
            return target
    raise KeyError('this machine, %s, is no target of the library; name one of %s' % (platform.machine(), ', '.join(t.name for t in TARGETS)))
