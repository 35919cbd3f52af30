/* CODE and DATA: -Wl,--defsym. What is in .kept begins at DATA, where the host lays words, and is left alone by a reset. */
SECTIONS {
  . = CODE;
  .vectors : { KEEP(*(.vectors)) }
  .text : { *(.text .text.* .rodata .rodata.*) }
  .ARM.exidx : { *(.ARM.exidx*) }
  .data : { *(.data .data.*) }
  . = DATA;
  .kept (NOLOAD) : { KEEP(*(.kept)) }
  . = DATA + 0x1000;
  .stack (NOLOAD) : { . = . + 8192; stack_top = .; }
  .bss (NOLOAD) : { . = ALIGN(16); bss_start = .; *(.bss .bss.* COMMON); . = ALIGN(16); bss_end = .; }
}
