/* CODE and DATA: -Wl,--defsym */
ENTRY(begin)
STACK = 8192;
SECTIONS {
  . = CODE;
  .vectors : { KEEP(*(.vectors)) }
  .text : { *(.text .text.* .rodata .rodata.* .srodata .srodata.*) }
  .data : { *(.data .data.* .sdata .sdata.*) }
  .ARM.exidx : { *(.ARM.exidx*) }
  .eh_frame : { *(.eh_frame) }
  . = DATA;
  .stack (NOLOAD) : { . = . + STACK; stack_top = .; }
  .bss (NOLOAD) : { . = ALIGN(16); bss_start = .; *(.sbss .sbss.* .bss .bss.* COMMON) ; . = ALIGN(16); bss_end = .; }
}
