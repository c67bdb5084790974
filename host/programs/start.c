/* The beginning of every program on the machine: a stack, the GTE, the program, the end.
   The end is a SYSCALL with register v0 = 454E4421h, so that it cannot be taken for another. */
#include "program.h"

#define RESULTS ((uint32_t *)0x80100000)

__asm__(".section .start, \"ax\"\n"
        ".set noreorder\n"
        ".globl start\n"
        "start:\n"
        "    lui $29, 0x8020\n"       /* the stack goes down from the end of 2 MiB */
        "    addiu $29, $29, -32\n"
        "    lui $8, 0x4000\n"        /* SR: kernel mode, GTE usable */
        "    mtc0 $8, $12\n"
        "    jal finish\n"
        "    nop\n"
        "    lui $2, 0x454E\n"
        "    ori $2, $2, 0x4421\n"
        "    syscall\n"
        "    nop\n"
        ".set reorder\n"
        ".text\n");

/* How many words there are, then the words. */
void finish(void)
{
    RESULTS[0] = PROGRAM(RESULTS + 1);
}

/* The compiler may call these for copies that the source does not name. */
void *memcpy(void *to, const void *from, size_t length)
{
    uint8_t *t = to;
    const uint8_t *f = from;
    while (length-- > 0)
        *t++ = *f++;
    return to;
}

void *memset(void *to, int byte, size_t length)
{
    uint8_t *t = to;
    while (length-- > 0)
        *t++ = (uint8_t)byte;
    return to;
}
