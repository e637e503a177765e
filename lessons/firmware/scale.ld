/* Where the firmware of the imagined bee scale lies on the classroom boot board: document 01, "The board on the desk". */
MEMORY {
    flash (rx) : ORIGIN = 0x08000000, LENGTH = 32768
    sram (rw) : ORIGIN = 0x20000000, LENGTH = 8192
}

ENTRY(start)

SECTIONS {
    .text : { KEEP(*(.vectors)) *(.text*) *(.rodata*) } > flash
    .bss (NOLOAD) : { *(.bss*) *(COMMON) } > sram
    /DISCARD/ : { *(.ARM.*) *(.comment) }
}
