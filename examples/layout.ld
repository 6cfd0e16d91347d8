/* Program and data both start at 0, since the model has two address spaces. */
OUTPUT_ARCH(riscv)
ENTRY(_start)
SECTIONS
{
  .text 0 : { *(.text.start) *(.text .text.*) }
  .data 0 : {
    *(.rodata .rodata.* .srodata .srodata.*)
    *(.data .data.* .sdata .sdata.*)
    *(.bss .bss.* .sbss .sbss.* COMMON)
  }
  /DISCARD/ : { *(.comment .note* .eh_frame* .riscv.attributes) }
}
