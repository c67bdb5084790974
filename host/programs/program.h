/* What the programs share: each is one function that writes words of results and answers how many.
   The same source is compiled for MIPS I (host/programs/compile) and for the host (host/src/programs.c). */
#ifndef FLISKADEE_PROGRAM_H
#define FLISKADEE_PROGRAM_H

#include <stddef.h>
#include <stdint.h>

/* Enough for every program; the first word after them is never written. */
enum { RESULT_WORDS = 65536 };

typedef uint32_t program_function(uint32_t *results);

program_function sort_program;
program_function checksum_program;
program_function renderer_program;
program_function unpack_program;
program_function bignum_program;
program_function kernel_program;

/* The same numbers on every machine. */
static inline uint32_t next_random(uint32_t *state)
{
    uint32_t x = *state;
    x ^= x << 13;
    x ^= x >> 17;
    x ^= x << 5;
    *state = x;
    return x;
}

#endif
