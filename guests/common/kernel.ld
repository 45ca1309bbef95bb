/* Text first, in pages of its own, which are approved at boot. Everything else is data: no page of it is ever
   approved. The user's code stands there too, since user mode may not fetch from approved pages. */
ENTRY(_start)
PHDRS {
  text PT_LOAD FLAGS(5); init PT_LOAD FLAGS(5);
  data PT_LOAD FLAGS(6); user PT_LOAD FLAGS(6); bss PT_LOAD FLAGS(6);
}
SECTIONS {
  . = 0x80000000;
  .text : { *(.text.start) *(.text .text.*) } :text
  . = ALIGN(4096);
  init_start = .;
  .init : { *(.init.text) } :init
  . = ALIGN(4096);
  init_end = .;
  .data : { *(.rodata .rodata.* .srodata .srodata.*) *(.data .data.* .sdata .sdata.*) } :data
  . = ALIGN(4096);
  user_start = .;
  .user : { *(.user) } :user
  . = ALIGN(4096);
  user_end = .;
  .bss : { *(.bss .bss.* .sbss .sbss.* COMMON) } :bss
  . = ALIGN(4096);
  free_start = .;
  /DISCARD/ : { *(.comment) *(.riscv.attributes) *(.eh_frame) *(.note.*) }
}
