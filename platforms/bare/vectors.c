/* The vectors of a Cortex-M: the C library's start, and for every fault the end of the emulator with an error. */
#include <stdint.h>

void _start(void);

/* Semihosting's exit for a run-time error. */
__attribute__((naked)) static void fault(void)
{
    __asm__ volatile("movs r0, #0x18\n ldr r1, =0x20023\n bkpt 0xAB\n b .");
}

__attribute__((section(".vectors"), used)) static void (*const vectors[16])(void) = {
    (void (*)(void))0x20400000, _start, fault, fault, fault, fault, fault, fault, fault, fault, fault, fault, fault, fault, fault, fault,
};
