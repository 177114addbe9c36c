/* boot.S is loaded and linked at 1 MiB. The rest is loaded after it, and linked at -2 GiB plus its load address, as kernels are. */
ENTRY(start)
PHDRS { note PT_NOTE; boot PT_LOAD; kernel PT_LOAD; }
base = 0xffffffff80000000;
SECTIONS
{
    . = 0x100000;
    .note.Xen : { KEEP(*(.note.Xen)) } :boot :note
    .boot : { KEEP(*(.boot)) } :boot
    . = ALIGN(4096);
    . += base;
    .text : AT(ADDR(.text) - base) { *(.text .text.*) } :kernel
    .rodata : AT(ADDR(.rodata) - base) { *(.rodata .rodata.*) } :kernel
    .data : AT(ADDR(.data) - base) { *(.data .data.*) *(.data.rel.ro .data.rel.ro.*) *(.got .got.*) } :kernel
    .bss : AT(ADDR(.bss) - base) { *(.bss .bss.*) *(COMMON) } :kernel
    . = ALIGN(4096);
    kernel_end = .;
    /DISCARD/ : { *(.eh_frame*) *(.comment) *(.note.GNU-stack) *(.note.gnu*) *(.gcc_except_table*) }
}
