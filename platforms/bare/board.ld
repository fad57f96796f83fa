/* The board mps2-an386 of qemu-system-arm, a Cortex-M4 with code from 0 and memory from 0x20000000. The emulator puts initialised data where it belongs; on a board of your own, start-up code copies it. */
MEMORY
{
    FLASH (rx) : ORIGIN = 0x00000000, LENGTH = 4M
    RAM (rwx) : ORIGIN = 0x20000000, LENGTH = 4M
}
ENTRY(_start)
SECTIONS
{
    .text :
    {
        KEEP(*(.vectors))
        *(.text .text.* .rodata .rodata.*)
        KEEP(*(.init)) KEEP(*(.fini))
        *(.ARM.exidx* .ARM.extab* .eh_frame*)
        . = ALIGN(8);
        __preinit_array_start = .; KEEP(*(.preinit_array)) __preinit_array_end = .;
        __init_array_start = .; KEEP(*(.init_array*)) __init_array_end = .;
        __fini_array_start = .; KEEP(*(.fini_array*)) __fini_array_end = .;
    } >FLASH
    .data : { *(.data .data.*) } >RAM
    .bss (NOLOAD) : ALIGN(8) { __bss_start__ = .; *(.bss .bss.* COMMON) . = ALIGN(8); __bss_end__ = .; } >RAM
    __end__ = .;
    end = .;
}
