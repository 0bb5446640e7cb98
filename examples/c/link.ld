/* A part sees its region at the addresses from 0 on. What stands in no section is 0 there. */
SECTIONS {
  . = 0;
  .all : { *(.text.start) *(.text*) *(.rodata*) *(.data*) *(.sdata*) *(.bss*) *(.sbss*) }
  /DISCARD/ : { *(.comment) *(.note*) *(.riscv.attributes) *(.eh_frame*) }
}
