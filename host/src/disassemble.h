/* A disassembler for the 68 instructions of paper 01. */
#ifndef DISASSEMBLE_H
#define DISASSEMBLE_H

#include <stddef.h>
#include <stdint.h>

/*
 * Writes the instruction as text, cut to size bytes with its final zero.
 * Branch and jump targets are those of an instruction at pc whose next PC is
 * pc + 4. Words that are none of the 68 instructions come out as
 * ".word 0x........" with the reason in brackets.
 */
void disassemble(uint32_t word, uint32_t pc, char *out, size_t size);

/*
 * The mnemonic of one of the 68 instructions, "cop2" for every GTE command,
 * listed or not; a null pointer for any other word.
 */
const char *instruction_name(uint32_t word);

/* The conventional name of a general register, 0..31. */
const char *general_register_name(unsigned number);

/* The name that 001 gives a COP2 register, 0..63. */
const char *cop2_register_name(unsigned number);

/* The name of a GTE command by its low six bits, or a null pointer if unlisted. */
const char *gte_command_name(uint32_t word);

#endif
