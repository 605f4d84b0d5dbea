/* One read-write-execute segment at 0x10000; the loader adds the stack and the heap. */
ENTRY(_start)
PHDRS { all PT_LOAD FLAGS(7); }
SECTIONS {
  . = 0x10000;
  .text : { *(.text*) } :all
  .rodata : { *(.rodata*) *(.srodata*) } :all
  .data : { *(.data*) *(.sdata*) } :all
  .bss : { *(.bss*) *(.sbss*) *(COMMON) } :all
  /DISCARD/ : { *(.comment) *(.note*) *(.riscv.attributes) *(.eh_frame*) }
}
