/* Data from 0, code from CODE, which is given at the link: the model has two address spaces, QEMU one memory. */
OUTPUT_ARCH(riscv)
ENTRY(_start)
SECTIONS
{
  .text CODE : { *(.text.start) *(.text .text.*) . = ALIGN(4); }
  .data 0 : {
    *(.rodata .rodata.* .srodata .srodata.*)
    *(.data .data.* .sdata .sdata.*)
    *(.bss .bss.* .sbss .sbss.* COMMON)
    . = ALIGN(4);
  }
  /DISCARD/ : { *(.comment .note* .eh_frame* .riscv.attributes) }
}
ASSERT(SIZEOF(.data) <= 3072, "the data meet the stack")
