/* One read-write-execute segment at 0x10000, as ../guest.ld has it, and the places that picolibc asks for. */
ENTRY(_start)
PHDRS {
  all PT_LOAD FLAGS(7);
  tls PT_TLS;
}
SECTIONS {
  . = 0x10000;
  .text : { *(.text*) } :all
  .rodata : { *(.rodata* .srodata*) } :all
  .init_array : {
    __preinit_array_start = .;
    KEEP(*(.preinit_array))
    __preinit_array_end = .;
    __init_array_start = .;
    KEEP(*(SORT(.init_array.*) .init_array))
    __init_array_end = .;
    __fini_array_start = .;
    KEEP(*(SORT(.fini_array.*) .fini_array))
    __fini_array_end = .;
  } :all
  .data : { *(.data* .sdata*) } :all
  /* There is one thread, so its copy of thread-local data is the only one: the one that is loaded. */
  .tdata : ALIGN(16) {
    __tls_base = .;
    *(.tdata*)
    . = ALIGN(4);
  } :all :tls
  .tbss : { *(.tbss*) } :all :tls
  /* A linker gives thread-local zeros no room in front of what follows, so it is taken here. */
  . = ADDR(.tbss) + SIZEOF(.tbss);
  .bss : {
    *(.bss* .sbss* COMMON)
    . = ALIGN(4);
  } :all
  __bss_start = ADDR(.tbss);
  __bss_end = ADDR(.bss) + SIZEOF(.bss);
  /DISCARD/ : { *(.comment) *(.note*) *(.riscv.attributes) *(.eh_frame*) }
}
