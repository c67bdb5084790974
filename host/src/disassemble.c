#include "disassemble.h"

#include <stdio.h>

/* Encodings are 000's; GTE names and command fields are 001's. */

static const char *const general_names[32] = {
    "zero", "at", "v0", "v1", "a0", "a1", "a2", "a3", "t0", "t1", "t2", "t3", "t4", "t5", "t6", "t7",
    "s0", "s1", "s2", "s3", "s4", "s5", "s6", "s7", "t8", "t9", "k0", "k1", "gp", "sp", "fp", "ra",
};

static const char *const cop2_names[64] = {
    "VXY0", "VZ0", "VXY1", "VZ1", "VXY2", "VZ2", "RGBC", "OTZ",
    "IR0", "IR1", "IR2", "IR3", "SXY0", "SXY1", "SXY2", "SXYP",
    "SZ0", "SZ1", "SZ2", "SZ3", "RGB0", "RGB1", "RGB2", "RES1",
    "MAC0", "MAC1", "MAC2", "MAC3", "IRGB", "ORGB", "LZCS", "LZCR",
    "RT11RT12", "RT13RT21", "RT22RT23", "RT31RT32", "RT33", "TRX", "TRY", "TRZ",
    "L11L12", "L13L21", "L22L23", "L31L32", "L33", "RBK", "GBK", "BBK",
    "LR1LR2", "LR3LG1", "LG2LG3", "LB1LB2", "LB3", "RFC", "GFC", "BFC",
    "OFX", "OFY", "H", "DQA", "DQB", "ZSF3", "ZSF4", "FLAG",
};

static const char *const command_names[64] = {
    [0x01] = "rtps", [0x06] = "nclip", [0x0C] = "op", [0x10] = "dpcs", [0x11] = "intpl", [0x12] = "mvmva",
    [0x13] = "ncds", [0x14] = "cdp", [0x16] = "ncdt", [0x1B] = "nccs", [0x1C] = "cc", [0x1E] = "ncs",
    [0x20] = "nct", [0x28] = "sqr", [0x29] = "dcpl", [0x2A] = "dpct", [0x2D] = "avsz3", [0x2E] = "avsz4",
    [0x30] = "rtpt", [0x3D] = "gpf", [0x3E] = "gpl", [0x3F] = "ncct",
};

/* The operands of an instruction, as they are printed. */
enum form {
    RD_RT_SHIFT,
    RD_RT_RS,
    RD_RS_RT,
    RS_RT,
    RS,
    RD,
    RD_RS,
    CODE,
    RS_RT_BRANCH,
    RS_BRANCH,
    JUMP,
    RT_RS_SIGNED,
    RT_RS_UNSIGNED,
    RT_UNSIGNED,
    RT_MEMORY,
    COP2_MEMORY
};

struct entry {
    const char *name;
    enum form form;
};

static const struct entry special[64] = {
    [0x00] = {"sll", RD_RT_SHIFT}, [0x02] = {"srl", RD_RT_SHIFT}, [0x03] = {"sra", RD_RT_SHIFT},
    [0x04] = {"sllv", RD_RT_RS}, [0x06] = {"srlv", RD_RT_RS}, [0x07] = {"srav", RD_RT_RS},
    [0x08] = {"jr", RS}, [0x09] = {"jalr", RD_RS}, [0x0C] = {"syscall", CODE}, [0x0D] = {"break", CODE},
    [0x10] = {"mfhi", RD}, [0x11] = {"mthi", RS}, [0x12] = {"mflo", RD}, [0x13] = {"mtlo", RS},
    [0x18] = {"mult", RS_RT}, [0x19] = {"multu", RS_RT}, [0x1A] = {"div", RS_RT}, [0x1B] = {"divu", RS_RT},
    [0x20] = {"add", RD_RS_RT}, [0x21] = {"addu", RD_RS_RT}, [0x22] = {"sub", RD_RS_RT}, [0x23] = {"subu", RD_RS_RT},
    [0x24] = {"and", RD_RS_RT}, [0x25] = {"or", RD_RS_RT}, [0x26] = {"xor", RD_RS_RT}, [0x27] = {"nor", RD_RS_RT},
    [0x2A] = {"slt", RD_RS_RT}, [0x2B] = {"sltu", RD_RS_RT},
};

static const struct entry bcond[32] = {
    [0x00] = {"bltz", RS_BRANCH}, [0x01] = {"bgez", RS_BRANCH},
    [0x10] = {"bltzal", RS_BRANCH}, [0x11] = {"bgezal", RS_BRANCH},
};

static const struct entry major[64] = {
    [0x02] = {"j", JUMP}, [0x03] = {"jal", JUMP}, [0x04] = {"beq", RS_RT_BRANCH}, [0x05] = {"bne", RS_RT_BRANCH},
    [0x06] = {"blez", RS_BRANCH}, [0x07] = {"bgtz", RS_BRANCH},
    [0x08] = {"addi", RT_RS_SIGNED}, [0x09] = {"addiu", RT_RS_SIGNED}, [0x0A] = {"slti", RT_RS_SIGNED},
    [0x0B] = {"sltiu", RT_RS_SIGNED}, [0x0C] = {"andi", RT_RS_UNSIGNED}, [0x0D] = {"ori", RT_RS_UNSIGNED},
    [0x0E] = {"xori", RT_RS_UNSIGNED}, [0x0F] = {"lui", RT_UNSIGNED},
    [0x20] = {"lb", RT_MEMORY}, [0x21] = {"lh", RT_MEMORY}, [0x22] = {"lwl", RT_MEMORY}, [0x23] = {"lw", RT_MEMORY},
    [0x24] = {"lbu", RT_MEMORY}, [0x25] = {"lhu", RT_MEMORY}, [0x26] = {"lwr", RT_MEMORY},
    [0x28] = {"sb", RT_MEMORY}, [0x29] = {"sh", RT_MEMORY}, [0x2A] = {"swl", RT_MEMORY}, [0x2B] = {"sw", RT_MEMORY},
    [0x2E] = {"swr", RT_MEMORY}, [0x32] = {"lwc2", COP2_MEMORY}, [0x3A] = {"swc2", COP2_MEMORY},
};

const char *general_register_name(unsigned number)
{
    return general_names[number & 31];
}

const char *cop2_register_name(unsigned number)
{
    return cop2_names[number & 63];
}

const char *gte_command_name(uint32_t word)
{
    return command_names[word & 0x3F];
}

static const char *cop2_form_name(uint32_t word)
{
    if (word >> 25 & 1)
        return "cop2";
    switch (word >> 21 & 31) {
    case 0: return "mfc2";
    case 2: return "cfc2";
    case 4: return "mtc2";
    case 6: return "ctc2";
    default: return NULL;
    }
}

static const char *cop0_form_name(uint32_t word)
{
    if ((word >> 25 & 1) && (word & 0x3F) == 0x10)
        return "rfe";
    switch (word >> 21 & 31) {
    case 0: return "mfc0";
    case 4: return "mtc0";
    default: return NULL;
    }
}

const char *instruction_name(uint32_t word)
{
    switch (word >> 26) {
    case 0x00: return special[word & 0x3F].name;
    case 0x01: return bcond[word >> 16 & 31].name;
    case 0x10: return cop0_form_name(word);
    case 0x12: return cop2_form_name(word);
    default: return major[word >> 26].name;
    }
}

static void print_entry(const struct entry *e, uint32_t word, uint32_t pc, char *out, size_t size)
{
    const char *rs = general_names[word >> 21 & 31];
    const char *rt = general_names[word >> 16 & 31];
    const char *rd = general_names[word >> 11 & 31];
    const char *data = cop2_names[word >> 16 & 31];
    unsigned shift = word >> 6 & 31;
    unsigned immediate = word & 0xFFFF;
    int offset = (int16_t)immediate;
    uint32_t branch = pc + 4 + ((uint32_t)offset << 2);
    uint32_t jump = ((pc + 4) & 0xF0000000) | (word & 0x03FFFFFF) << 2;

    switch (e->form) {
    case RD_RT_SHIFT: snprintf(out, size, "%s %s, %s, %u", e->name, rd, rt, shift); break;
    case RD_RT_RS: snprintf(out, size, "%s %s, %s, %s", e->name, rd, rt, rs); break;
    case RD_RS_RT: snprintf(out, size, "%s %s, %s, %s", e->name, rd, rs, rt); break;
    case RS_RT: snprintf(out, size, "%s %s, %s", e->name, rs, rt); break;
    case RS: snprintf(out, size, "%s %s", e->name, rs); break;
    case RD: snprintf(out, size, "%s %s", e->name, rd); break;
    case RD_RS: snprintf(out, size, "%s %s, %s", e->name, rd, rs); break;
    case CODE: snprintf(out, size, "%s 0x%x", e->name, (unsigned)(word >> 6 & 0xFFFFF)); break;
    case RS_RT_BRANCH: snprintf(out, size, "%s %s, %s, 0x%08x", e->name, rs, rt, (unsigned)branch); break;
    case RS_BRANCH: snprintf(out, size, "%s %s, 0x%08x", e->name, rs, (unsigned)branch); break;
    case JUMP: snprintf(out, size, "%s 0x%08x", e->name, (unsigned)jump); break;
    case RT_RS_SIGNED: snprintf(out, size, "%s %s, %s, %d", e->name, rt, rs, offset); break;
    case RT_RS_UNSIGNED: snprintf(out, size, "%s %s, %s, 0x%x", e->name, rt, rs, immediate); break;
    case RT_UNSIGNED: snprintf(out, size, "%s %s, 0x%x", e->name, rt, immediate); break;
    case RT_MEMORY: snprintf(out, size, "%s %s, %d(%s)", e->name, rt, offset, rs); break;
    case COP2_MEMORY: snprintf(out, size, "%s %s, %d(%s)", e->name, data, offset, rs); break;
    }
}

static void print_reserved(const char *why, uint32_t word, char *out, size_t size)
{
    snprintf(out, size, ".word 0x%08x (%s)", (unsigned)word, why);
}

static void print_cop0(uint32_t word, char *out, size_t size)
{
    static const char *const names[32] = {[8] = "BADV", [12] = "SR", [13] = "CAUSE", [14] = "EPC"};
    const char *name = cop0_form_name(word);
    const char *rt = general_names[word >> 16 & 31];
    unsigned rd = word >> 11 & 31;

    if (!name)
        print_reserved("reserved COP0 form", word, out, size);
    else if (word >> 25 & 1)
        snprintf(out, size, "%s", name);
    else if (names[rd])
        snprintf(out, size, "%s %s, %s", name, rt, names[rd]);
    else
        snprintf(out, size, "%s %s, cop0r%u", name, rt, rd);
}

static void print_command(uint32_t word, char *out, size_t size)
{
    static const char *const matrix[4] = {"RT", "LLM", "LCM", "3"};
    static const char *const vector[4] = {"V0", "V1", "V2", "IR"};
    static const char *const translation[4] = {"TR", "BK", "FC", "none"};
    const char *name = command_names[word & 0x3F];
    unsigned sf = word >> 19 & 1, lm = word >> 10 & 1;

    if (!name)
        snprintf(out, size, "cop2 0x%07x (unlisted command)", (unsigned)(word & 0x01FFFFFF));
    else if ((word & 0x3F) == 0x12)
        snprintf(out, size, "%s sf=%u lm=%u mx=%s v=%s cv=%s", name, sf, lm, matrix[word >> 17 & 3],
                 vector[word >> 15 & 3], translation[word >> 13 & 3]);
    else
        snprintf(out, size, "%s sf=%u lm=%u", name, sf, lm);
}

static void print_cop2(uint32_t word, char *out, size_t size)
{
    const char *name = cop2_form_name(word);
    const char *rt = general_names[word >> 16 & 31];
    unsigned control = (word >> 22 & 1) * 32; /* CFC2 and CTC2 reach 32..63 */

    if (word >> 25 & 1)
        print_command(word, out, size);
    else if (name)
        snprintf(out, size, "%s %s, %s", name, rt, cop2_names[control + (word >> 11 & 31)]);
    else
        print_reserved("reserved COP2 form", word, out, size);
}

void disassemble(uint32_t word, uint32_t pc, char *out, size_t size)
{
    uint32_t opcode = word >> 26;
    const struct entry *e = &major[opcode];

    if (size == 0)
        return;
    if (word == 0) {
        snprintf(out, size, "nop");
        return;
    }
    switch (opcode) {
    case 0x00: e = &special[word & 0x3F]; break;
    case 0x01: e = &bcond[word >> 16 & 31]; break;
    case 0x10: print_cop0(word, out, size); return;
    case 0x12: print_cop2(word, out, size); return;
    case 0x11: case 0x31: case 0x39: print_reserved("COP1 form", word, out, size); return;
    case 0x13: case 0x33: case 0x3B: print_reserved("COP3 form", word, out, size); return;
    default: break;
    }
    if (e->name)
        print_entry(e, word, pc, out, size);
    else
        print_reserved("reserved", word, out, size);
}
