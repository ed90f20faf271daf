/* An image at address 0 of 65,536 bytes, the stack at the top. */
ENTRY(_start)
MEMORY { ram (rwx) : ORIGIN = 0, LENGTH = 64K }
SECTIONS
{
    .text : { *(.start) *(.text*) *(.rodata*) } > ram
    .data : { *(.data*) } > ram
    .bss (NOLOAD) : { . = ALIGN(4); bss_start = .; *(.bss*) *(COMMON) . = ALIGN(4); bss_end = .; } > ram
    stack_top = ORIGIN(ram) + LENGTH(ram);
    /DISCARD/ : { *(.ARM.exidx*) *(.ARM.extab*) }
}
