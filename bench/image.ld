SECTIONS
{
  .text 0x00400000 : { *(.start) start.o(.text) *(.text .text.*) . = ALIGN(4); }
  .data 0x10000000 : { *(.rodata .rodata.*) *(.data .data.*) *(.sdata .sdata.*) *(.sbss .sbss.*) *(.bss .bss.*) *(COMMON) . = ALIGN(4); }
  /DISCARD/ : { *(*) }
}
ENTRY(_start)
