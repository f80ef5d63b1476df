/* The board mps2-an386 of qemu: a Cortex-M4 with 4 MiB for code at 0, and 4 MiB for data at 20000000. */
ENTRY(reset)
MEMORY {
    CODE (rx) : ORIGIN = 0x00000000, LENGTH = 4M
    DATA (rw) : ORIGIN = 0x20000000, LENGTH = 4M
}
SECTIONS {
    .text : { KEEP(*(.vectors)) *(.text*) *(.rodata*) *(.init) *(.fini) . = ALIGN(8); } > CODE
    .ARM.exidx : { *(.ARM.exidx*) } > CODE
    .init_array : {
        __preinit_array_start = .; KEEP(*(.preinit_array*)) __preinit_array_end = .;
        __init_array_start = .; KEEP(*(.init_array*)) __init_array_end = .;
        __fini_array_start = .; KEEP(*(.fini_array*)) __fini_array_end = .;
    } > CODE
    data_kept = LOADADDR(.data);
    .data : { data_begin = .; *(.data*) . = ALIGN(8); data_end = .; } > DATA AT > CODE
    .bss (NOLOAD) : { __bss_start__ = .; *(.bss*) *(COMMON) . = ALIGN(8); __bss_end__ = .; } > DATA
    end = .;
    stack_top = ORIGIN(DATA) + LENGTH(DATA);
}
