/* A Cortex-M0 with the memory of the smallest nRF51 (QEMU's microbit): code runs from flash, everything else is 16 KB of RAM with the stack at its end. */
MEMORY {
    FLASH (rx) : ORIGIN = 0, LENGTH = 64K
    RAM (rwx) : ORIGIN = 0x20000000, LENGTH = 16K
}
SECTIONS {
    .text : { KEEP(*(.vectors)) *(.text*) *(.rodata*) } > FLASH
    .ARM.exidx : { *(.ARM.exidx*) } > FLASH
    .data : { *(.data*) } > RAM AT > FLASH
    .bss (NOLOAD) : { _bss_start = .; *(.bss*) *(COMMON) . = ALIGN(8); _bss_end = .; } > RAM
    _stack_top = ORIGIN(RAM) + LENGTH(RAM);
}
/* Nothing of the program starts with a value in RAM, so that reset has nothing to copy. */
ASSERT(SIZEOF(.data) == 0, "a variable with a first value: make it zero or const")
ASSERT(_stack_top - _bss_end >= 4096 + 1024, "less than 4096 bytes are left for a call's stack, and 1024 for the program's")
