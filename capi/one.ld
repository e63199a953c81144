/* One section of each kind: each function of the library has its own, of which the names and headers take a quarter of the file. */
SECTIONS
{
  .text : { *(.text .text.*) }
  .rodata : { *(.rodata .rodata.*) }
  .data.rel.ro : { *(.data.rel.ro .data.rel.ro.*) }
}
