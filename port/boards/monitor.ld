/* The sections of the monitor: code, which never changes, and memory that it clears itself. A board's own script has the addresses. */
ENTRY(_start)
SECTIONS {
    .text : { *(.text.start) *(.text .text.*) *(.rodata .rodata.* .srodata*) } > code
    .data : { *(.data .data.* .sdata*) } > ram
    .stack (NOLOAD) : { *(.stack) } > ram
    .bss (NOLOAD) : {
        monitor_memory = .;
        *(.bss .bss.* .sbss* COMMON)
        . = ALIGN(16);
        monitor_memory_end = .;
    } > ram
    ASSERT(SIZEOF(.data) == 0, "the monitor has no data that begins as something else than zeros")
}
