/* Text and data as two segments that are loaded where they are used: the simulator loads each segment at its virtual address,
   and what no segment fills is zero. The first page stays empty, so that no object lies at the null pointer. */
ENTRY(start)

PHDRS
{
    text PT_LOAD FLAGS(5);
    data PT_LOAD FLAGS(6);
    tls PT_TLS FLAGS(4);
}

SECTIONS
{
    . = 0x1000;
    .text : { *(.text.start) *(.text .text.*) *(.rodata .rodata.* .srodata .srodata.*) } :text
    . = ALIGN(16);
    .tdata : { *(.tdata .tdata.*) } :data :tls
    .tbss : { *(.tbss .tbss.*) } :data :tls
    .data : ALIGN(16) { *(.data .data.*) __global_pointer$ = . + 0x800; *(.sdata .sdata.*) } :data
    .bss : ALIGN(16) { *(.sbss .sbss.*) *(.bss .bss.*) *(COMMON) . = ALIGN(16); } :data
    image_end = .;

    /* What a core copies to the upper end of its stack, and the room for that with the variables that begin as zero. */
    tls_begin = ADDR(.tdata);
    tls_bytes = SIZEOF(.tdata);
    tls_room = ALIGN(ADDR(.tbss) + SIZEOF(.tbss) - ADDR(.tdata), 16);

    /DISCARD/ : { *(.comment) *(.riscv.attributes) *(.note*) *(.eh_frame*) }
}
