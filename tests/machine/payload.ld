/* The part of a kernel that is loaded. It is entered 512 bytes after its beginning, and runs wherever it lies. */
PHDRS { code PT_LOAD FLAGS(5); room PT_LOAD FLAGS(6); }
SECTIONS
{
    . = 0;
    payload_begin = .;
    . = 0x200;
    .text : { *(.head) *(.text*) *(.rodata*) *(.data*) . = ALIGN(16); } :code
    payload_end = .;
    .bss : { *(.bss*) } :room
    /DISCARD/ : { *(.comment) *(.note*) *(.eh_frame*) *(.got*) }
}
