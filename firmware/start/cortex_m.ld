/* Memory of a small Cortex-M: code from 0 on, data from 20000000h on, the stack at the end of it. */
ENTRY(machine_reset)
MEMORY {
  FLASH (rx) : ORIGIN = 0, LENGTH = 256K
  RAM (rw) : ORIGIN = 0x20000000, LENGTH = 16K
}
SECTIONS {
  .text : { KEEP(*(.vectors)) *(.text*) *(.rodata*) . = ALIGN(4); } >FLASH
  .data : { data_begin = .; *(.data*) . = ALIGN(4); data_end = .; } >RAM AT>FLASH
  data_stored = LOADADDR(.data);
  .bss (NOLOAD) : { bss_begin = .; *(.bss*) *(COMMON) bss_end = .; } >RAM
  stack_top = ORIGIN(RAM) + LENGTH(RAM);
  /DISCARD/ : { *(.ARM.exidx*) *(.ARM.extab*) }
}
