/* The program's first byte and its first segment stand at 0x80000000, where the machine's memory
   begins. No ELF header is part of a segment. */
OUTPUT_ARCH(riscv)
ENTRY(_start)

PHDRS
{
  code PT_LOAD FLAGS(5);
  data PT_LOAD FLAGS(6);
  zeros PT_LOAD FLAGS(6);
}

SECTIONS
{
  . = 0x80000000;
  .text : { KEEP(*(.start)) *(.text .text.*) *(.rodata .rodata.* .srodata .srodata.*) } :code
  . = ALIGN(16);
  .data : { *(.data .data.*) __global_pointer$ = . + 0x800; *(.sdata .sdata.*) } :data
  . = ALIGN(16);
  .bss : { *(.sbss .sbss.* .bss .bss.* COMMON) } :zeros
  . = ALIGN(16);
  . = . + 0x4000;
  stack_top = .;
  /DISCARD/ : { *(.comment .note* .eh_frame .riscv.attributes) }
}
