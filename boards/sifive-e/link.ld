/* A RISC-V of 32 bits with the memory of SiFive's E31 boards (QEMU's sifive_e): code runs from flash, everything else is 16 KB of RAM with the stack at its end. */
ENTRY(start)
MEMORY {
    FLASH (rx) : ORIGIN = 0x20400000, LENGTH = 128K
    RAM (rwx) : ORIGIN = 0x80000000, LENGTH = 16K
}
SECTIONS {
    .text : { KEEP(*(.vectors)) *(.text*) *(.rodata*) } > FLASH
    .data : { *(.data*) *(.sdata*) } > RAM AT > FLASH
    .bss (NOLOAD) : { _bss_start = .; *(.bss*) *(.sbss*) *(COMMON) . = ALIGN(8); _bss_end = .; } > RAM
    _stack_top = ORIGIN(RAM) + LENGTH(RAM);
}
/* Nothing of the program starts with a value in RAM, so that reset has nothing to copy. */
ASSERT(SIZEOF(.data) == 0, "a variable with a first value: make it zero or const")
ASSERT(_stack_top - _bss_end >= 4096 + 1024, "less than 4096 bytes are left for a call's stack, and 1024 for the program's")
