/* An MPS2 board (mps2-an386: Cortex-M4; mps2-an500: Cortex-M7): 4 MB for code, 16 MB for data. */
MEMORY { code (rx) : ORIGIN = 0, LENGTH = 4M
         data (rwx) : ORIGIN = 0x21000000, LENGTH = 16M }
ENTRY(reset)
SECTIONS {
  .text : { KEEP(*(.vectors)) *(.text .text.*) *(.rodata .rodata.*) *(.ARM.extab*) } > code
  .ARM.exidx : { *(.ARM.exidx*) } > code
  .init_array : { *(.preinit_array) *(.init_array*) *(.fini_array*) } > code
  .data : { *(.data .data.*) } > data
  .bss (NOLOAD) : { bss_begin = .; *(.bss .bss.*) *(COMMON) bss_end = .; } > data
  heap_begin = ALIGN(16);
  end = heap_begin; /* (newlib names it) */
  stack_top = ORIGIN(data) + LENGTH(data);
  heap_end = stack_top - 256K;
}
