/* Encodings of 000, for tests that write programs, and words in bytes. */
#ifndef ENCODE_H
#define ENCODE_H

#include <stdint.h>

#include "fliskadee.h"

static inline uint32_t get_word(const uint8_t *p)
{
    return fliskadee_get_word(p, 0);
}

static inline void put_word(uint8_t *p, uint32_t w)
{
    fliskadee_set_word(p, 0, w);
}

/* The 22 GTE commands, by their low six bits. */
static const uint8_t listed_commands[] __attribute__((unused)) = {0x01, 0x06, 0x0C, 0x10, 0x11, 0x12, 0x13, 0x14,
                                                                  0x16, 0x1B, 0x1C, 0x1E, 0x20, 0x28, 0x29, 0x2A,
                                                                  0x2D, 0x2E, 0x30, 0x3D, 0x3E, 0x3F};

static inline uint32_t encode_r(uint32_t funct, uint32_t rd, uint32_t rs, uint32_t rt, uint32_t shift)
{
    return rs << 21 | rt << 16 | rd << 11 | shift << 6 | funct;
}

static inline uint32_t encode_i(uint32_t opcode, uint32_t rt, uint32_t rs, int32_t immediate)
{
    return opcode << 26 | rs << 21 | rt << 16 | ((uint32_t)immediate & 0xFFFF);
}

static inline uint32_t encode_j(uint32_t opcode, uint32_t address)
{
    return opcode << 26 | (address >> 2 & 0x03FFFFFF);
}

/* A move between general register rt and register rd of coprocessor z: MF 0, CF 2, MT 4, CT 6. */
static inline uint32_t encode_move(uint32_t z, uint32_t form, uint32_t rt, uint32_t rd)
{
    return (0x10 + z) << 26 | form << 21 | rt << 16 | rd << 11;
}

static inline uint32_t encode_command(uint32_t number, uint32_t sf, uint32_t lm)
{
    return 0x4A000000 | sf << 19 | lm << 10 | number;
}

static inline uint32_t encode_mvmva(uint32_t sf, uint32_t mx, uint32_t v, uint32_t cv, uint32_t lm)
{
    return encode_command(0x12, sf, lm) | mx << 17 | v << 15 | cv << 13;
}

enum {
    OP_BCOND = 0x01, OP_J = 0x02, OP_JAL = 0x03, OP_BEQ = 0x04, OP_BNE = 0x05, OP_BLEZ = 0x06, OP_BGTZ = 0x07,
    OP_ADDI = 0x08, OP_ADDIU = 0x09, OP_SLTI = 0x0A, OP_SLTIU = 0x0B, OP_ANDI = 0x0C, OP_ORI = 0x0D,
    OP_XORI = 0x0E, OP_LUI = 0x0F,
    OP_LB = 0x20, OP_LH = 0x21, OP_LWL = 0x22, OP_LW = 0x23, OP_LBU = 0x24, OP_LHU = 0x25, OP_LWR = 0x26,
    OP_SB = 0x28, OP_SH = 0x29, OP_SWL = 0x2A, OP_SW = 0x2B, OP_SWR = 0x2E, OP_LWC2 = 0x32, OP_SWC2 = 0x3A
};

enum {
    F_SLL = 0x00, F_SRL = 0x02, F_SRA = 0x03, F_SLLV = 0x04, F_SRLV = 0x06, F_SRAV = 0x07, F_JR = 0x08, F_JALR = 0x09,
    F_SYSCALL = 0x0C, F_BREAK = 0x0D, F_MFHI = 0x10, F_MTHI = 0x11, F_MFLO = 0x12, F_MTLO = 0x13, F_MULT = 0x18,
    F_MULTU = 0x19, F_DIV = 0x1A, F_DIVU = 0x1B, F_ADD = 0x20, F_ADDU = 0x21, F_SUB = 0x22, F_SUBU = 0x23,
    F_AND = 0x24, F_OR = 0x25, F_XOR = 0x26, F_NOR = 0x27, F_SLT = 0x2A, F_SLTU = 0x2B
};

#define RFE 0x42000010u

#endif
