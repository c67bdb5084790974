#include "show.h"

#include <ctype.h>
#include <stdbool.h>
#include <stddef.h>

#include "disassemble.h"
#include "image.h"

static const struct {
    const char *name;
    const char *meaning;
} flag_bits[20] = { /* from bit 12 on */
    {"IR0", "IR0 limited to 0..1000h: the depth cueing result lies outside"},
    {"SY2", "SY2 limited to -400h..3FFh: the screen point lies too far up or down"},
    {"SX2", "SX2 limited to -400h..3FFh: the screen point lies too far left or right"},
    {"MAC0 negative", "MAC0 below -2^31: the sum does not fit 32 bits"},
    {"MAC0 positive", "MAC0 above 2^31-1: the sum does not fit 32 bits"},
    {"divide overflow", "divide overflow, quotient limited to 1FFFFh: H is at least twice SZ3, the vertex is too near or behind"},
    {"SZ3 or OTZ", "SZ3 or OTZ limited to 0..FFFFh: the depth is negative or too far"},
    {"blue", "blue of the colour queue limited to 0..FFh"},
    {"green", "green of the colour queue limited to 0..FFh"},
    {"red", "red of the colour queue limited to 0..FFh"},
    {"IR3", "IR3 limited to -8000h..7FFFh, or 0..7FFFh with lm (not counted in bit 31)"},
    {"IR2", "IR2 limited to -8000h..7FFFh, or 0..7FFFh with lm"},
    {"IR1", "IR1 limited to -8000h..7FFFh, or 0..7FFFh with lm"},
    {"MAC3 negative", "MAC3 below -2^43: the sum does not fit 44 bits"},
    {"MAC2 negative", "MAC2 below -2^43: the sum does not fit 44 bits"},
    {"MAC1 negative", "MAC1 below -2^43: the sum does not fit 44 bits"},
    {"MAC3 positive", "MAC3 above 2^43-1: the sum does not fit 44 bits"},
    {"MAC2 positive", "MAC2 above 2^43-1: the sum does not fit 44 bits"},
    {"MAC1 positive", "MAC1 above 2^43-1: the sum does not fit 44 bits"},
    {"error", "error: one of bits 30..23 and 18..13 is set, the result cannot be trusted"},
};

const char *flag_name(unsigned bit)
{
    return flag_bits[bit - 12].name;
}

const char *flag_meaning(unsigned bit)
{
    return flag_bits[bit - 12].meaning;
}

void show_flag(FILE *out, uint32_t flag, const char *indent)
{
    if (flag == 0)
        fprintf(out, "%sno bit is set\n", indent);
    for (unsigned bit = 31; bit >= 12; bit--)
        if ((flag >> bit & 1) != 0)
            fprintf(out, "%sbit %u: %s\n", indent, bit, flag_meaning(bit));
}

static void show_colour(FILE *out, uint32_t word)
{
    fprintf(out, "red %u, green %u, blue %u, code %02X", (unsigned)(word & 0xFF), (unsigned)(word >> 8 & 0xFF),
           (unsigned)(word >> 16 & 0xFF), (unsigned)(word >> 24));
}

static void show_cop2(FILE *out, const uint8_t *image, unsigned number)
{
    const struct cop2_register *name = &cop2_registers[number];
    uint32_t word = cop2_at(image, number);
    fprintf(out, "%-8s  %08X  ", cop2_register_name(number), (unsigned)word);
    switch (name->kind) {
    case KIND_SIGNED: fprintf(out, "%ld", (long)(int32_t)word); break;
    case KIND_FIXED: fprintf(out, "%.5f", (int32_t)word / 65536.0); break;
    case KIND_SIGNED_HALF: fprintf(out, "%ld", (long)(int32_t)word); break;
    case KIND_PLANE: fprintf(out, "%u in calculation", (unsigned)(word & 0xFFFF)); break;
    case KIND_UNSIGNED_HALF: fprintf(out, "%lu", (unsigned long)word); break;
    case KIND_PAIR:
        fprintf(out, "%s %ld, %s %ld", name->low, (long)low_half(word), name->high, (long)high_half(word));
        break;
    case KIND_COLOUR: show_colour(out, word); break;
    case KIND_PACKED:
        fprintf(out, "red %u, green %u, blue %u", (unsigned)(word & 31), (unsigned)(word >> 5 & 31),
               (unsigned)(word >> 10 & 31));
        break;
    case KIND_FLAG: fprintf(out, "%s", word == 0 ? "no bit is set" : "bits set:"); break;
    }
}

void show_word(FILE *out, const uint8_t *image, unsigned word)
{
    uint32_t value = fliskadee_get_word(image, word);
    if (word >= FLISKADEE_WORD_COP2)
        show_cop2(out, image, word - FLISKADEE_WORD_COP2);
    else
        fprintf(out, "%-8s  %08X  %ld", word_name(word), (unsigned)value, (long)(int32_t)value);
}

static const char *mode_name(uint32_t sr, unsigned bit)
{
    return (sr >> bit & 1) != 0 ? "user" : "kernel";
}

static const char *enable_name(uint32_t sr, unsigned bit)
{
    return (sr >> bit & 1) != 0 ? "on" : "off";
}

static void show_sr(FILE *out, uint32_t sr)
{
    static const struct {
        unsigned bit;
        const char *name;
    } named[] = {
        {31, "CU3: COP3 usable"},
        {30, "CU2: GTE usable"},
        {29, "CU1: COP1 usable"},
        {28, "CU0: COP0 usable in user mode"},
        {25, "RE: reverse byte order (no effect)"},
        {22, "BEV: exceptions go to BFC00180"},
        {19, "CM"},
        {18, "PZ"},
        {17, "SwC"},
        {16, "IsC: isolated cache (no effect)"},
    };
    fprintf(out, "SR        %08X  mode: current %s, previous %s, old %s\n", (unsigned)sr, mode_name(sr, 1),
           mode_name(sr, 3), mode_name(sr, 5));
    fprintf(out, "                    interrupts: current %s, previous %s, old %s; mask %02X\n", enable_name(sr, 0),
           enable_name(sr, 2), enable_name(sr, 4), (unsigned)(sr >> 8 & 0xFF));
    for (size_t i = 0; i < sizeof named / sizeof named[0]; i++)
        if ((sr >> named[i].bit & 1) != 0)
            fprintf(out, "                    %s\n", named[i].name);
}

const char *exception_name(unsigned code)
{
    static const char *const names[] = {
        "Int, interrupt",
        "no name here",
        "no name here",
        "no name here",
        "AdEL, address error on fetch or load",
        "AdES, address error on store",
        "IBE, bus error on fetch",
        "DBE, bus error on load or store",
        "Sys, SYSCALL",
        "Bp, BREAK",
        "RI, reserved instruction",
        "CpU, coprocessor unusable",
        "Ov, arithmetic overflow",
    };
    return code < sizeof names / sizeof names[0] ? names[code] : "no name here";
}

static void show_cause(FILE *out, uint32_t cause)
{
    unsigned code = cause >> 2 & 31;
    if (cause == 0) {
        fprintf(out, "CAUSE     00000000  no exception\n");
        return;
    }
    fprintf(out, "CAUSE     %08X  exception code %u (%s)\n", (unsigned)cause, code, exception_name(code));
    if (cause >> 31 != 0)
        fprintf(out, "                    BD: in a delay slot, EPC is the address before it\n");
    if (code == 11)
        fprintf(out, "                    CE: coprocessor %u\n", (unsigned)(cause >> 28 & 3));
    if ((cause >> 8 & 3) != 0)
        fprintf(out, "                    software interrupt bits %u\n", (unsigned)(cause >> 8 & 3));
}

static void show_general(FILE *out, const uint8_t *image)
{
    for (unsigned row = 0; row < 8; row++) {
        for (unsigned column = 0; column < 4; column++) {
            unsigned word = row + 8 * column;
            fprintf(out, "%sr%-2u %-4s %08X", column == 0 ? "" : "   ", word, word_name(word),
                   (unsigned)fliskadee_get_word(image, word));
        }
        fprintf(out, "\n");
    }
}

static void show_control(FILE *out, const uint8_t *image)
{
    uint32_t waiting = fliskadee_get_word(image, FLISKADEE_WORD_LOAD_REGISTER);
    fprintf(out, "HI        %08X\n", (unsigned)fliskadee_get_word(image, FLISKADEE_WORD_HI));
    fprintf(out, "LO        %08X\n", (unsigned)fliskadee_get_word(image, FLISKADEE_WORD_LO));
    fprintf(out, "PC        %08X\n", (unsigned)fliskadee_get_word(image, FLISKADEE_WORD_PC));
    fprintf(out, "next PC   %08X\n", (unsigned)fliskadee_get_word(image, FLISKADEE_WORD_NEXT_PC));
    if (waiting == 0)
        fprintf(out, "load delay: no register awaits a load\n");
    else if (waiting < 32)
        fprintf(out, "load delay: %s (r%u) becomes %08X after the next instruction\n", word_name(waiting), (unsigned)waiting,
               (unsigned)fliskadee_get_word(image, FLISKADEE_WORD_LOAD_VALUE));
    else
        fprintf(out, "load delay: register %lu, which does not exist\n", (unsigned long)waiting);
    fprintf(out, "delay slot: the next instruction is %s\n",
           fliskadee_get_word(image, FLISKADEE_WORD_DELAY_SLOT) == 0 ? "not in one" : "in the delay slot of a jump or branch");
    show_sr(out, fliskadee_get_word(image, FLISKADEE_WORD_SR));
    show_cause(out, fliskadee_get_word(image, FLISKADEE_WORD_CAUSE));
    fprintf(out, "EPC       %08X\n", (unsigned)fliskadee_get_word(image, FLISKADEE_WORD_EPC));
    fprintf(out, "BADV      %08X\n", (unsigned)fliskadee_get_word(image, FLISKADEE_WORD_BADV));
}

void show_image(FILE *out, const uint8_t *image)
{
    unsigned wrong = check_image(image, NULL, NULL);
    fprintf(out, "General registers\n");
    show_general(out, image);
    fprintf(out, "\nProcessor\n");
    show_control(out, image);
    fprintf(out, "\nGTE data registers\n");
    for (unsigned number = 0; number < 64; number++) {
        if (number == 32)
            fprintf(out, "\nGTE control registers\n");
        fprintf(out, "%2u  ", number);
        show_cop2(out, image, number);
        fprintf(out, "\n");
    }
    if (cop2_at(image, FLISKADEE_COP2_FLAG) != 0)
        show_flag(out, cop2_at(image, FLISKADEE_COP2_FLAG), "                        ");
    if (wrong != 0)
        fprintf(out, "\nThis image is not well formed: %u word%s wrong. The command check says why.\n", wrong,
               wrong == 1 ? " is" : "s are");
}

/* Groups of registers that commands read. */
enum {
    READS_V0 = 1 << 0,
    READS_V1 = 1 << 1,
    READS_V2 = 1 << 2,
    READS_IR = 1 << 3,
    READS_IR0 = 1 << 4,
    READS_RT = 1 << 5,
    READS_TR = 1 << 6,
    READS_LLM = 1 << 7,
    READS_BK = 1 << 8,
    READS_LCM = 1 << 9,
    READS_FC = 1 << 10,
    READS_RGBC = 1 << 11,
    READS_RGB_QUEUE = 1 << 12,
    READS_SXY = 1 << 13,
    READS_SZ = 1 << 14,
    READS_ZSF3 = 1 << 15,
    READS_ZSF4 = 1 << 16,
    READS_SCREEN = 1 << 17,
    READS_MAC = 1 << 18,
    READS_MATRIX_3 = 1 << 19,
    READS_VERTICES = READS_V0 | READS_V1 | READS_V2,
    READS_LIGHT = READS_LLM | READS_BK | READS_LCM,
    READS_DEPTH_CUE = READS_IR0 | READS_FC
};

/* What each command reads, by its low six bits; of MVMVA, mvmva_reads says it. */
static const unsigned command_reads[64] = {
    [0x01] = READS_V0 | READS_RT | READS_TR | READS_SCREEN, /* RTPS */
    [0x06] = READS_SXY, /* NCLIP */
    [0x0C] = READS_IR | READS_RT, /* OP */
    [0x10] = READS_RGBC | READS_DEPTH_CUE, /* DPCS */
    [0x11] = READS_IR | READS_DEPTH_CUE, /* INTPL */
    [0x13] = READS_V0 | READS_LIGHT | READS_RGBC | READS_DEPTH_CUE, /* NCDS */
    [0x14] = READS_IR | READS_BK | READS_LCM | READS_RGBC | READS_DEPTH_CUE, /* CDP */
    [0x16] = READS_VERTICES | READS_LIGHT | READS_RGBC | READS_DEPTH_CUE, /* NCDT */
    [0x1B] = READS_V0 | READS_LIGHT | READS_RGBC, /* NCCS */
    [0x1C] = READS_IR | READS_BK | READS_LCM | READS_RGBC, /* CC */
    [0x1E] = READS_V0 | READS_LIGHT, /* NCS */
    [0x20] = READS_VERTICES | READS_LIGHT, /* NCT */
    [0x28] = READS_IR, /* SQR */
    [0x29] = READS_IR | READS_RGBC | READS_DEPTH_CUE, /* DCPL */
    [0x2A] = READS_RGB_QUEUE | READS_DEPTH_CUE, /* DPCT */
    [0x2D] = READS_SZ | READS_ZSF3, /* AVSZ3 */
    [0x2E] = READS_SZ | READS_ZSF4, /* AVSZ4 */
    [0x30] = READS_VERTICES | READS_RT | READS_TR | READS_SCREEN, /* RTPT */
    [0x3D] = READS_IR | READS_IR0, /* GPF */
    [0x3E] = READS_IR | READS_IR0 | READS_MAC, /* GPL */
    [0x3F] = READS_VERTICES | READS_LIGHT | READS_RGBC, /* NCCT */
};

static unsigned mvmva_reads(uint32_t instruction)
{
    static const unsigned matrix[] = {READS_RT, READS_LLM, READS_LCM, READS_MATRIX_3};
    static const unsigned vector[] = {READS_V0, READS_V1, READS_V2, READS_IR};
    static const unsigned translation[] = {READS_TR, READS_BK, READS_FC, 0};
    return matrix[instruction >> 17 & 3] | vector[instruction >> 15 & 3] | translation[instruction >> 13 & 3];
}

static int32_t matrix_element(const uint8_t *image, unsigned first, unsigned row, unsigned column)
{
    unsigned index = 3 * row + column;
    uint32_t word = cop2_at(image, first + index / 2);
    return index % 2 == 0 ? low_half(word) : high_half(word);
}

static void show_matrix(FILE *out, const uint8_t *image, const char *name, unsigned first)
{
    for (unsigned row = 0; row < 3; row++)
        fprintf(out, "  %-5s %6ld %6ld %6ld\n", row == 0 ? name : "", (long)matrix_element(image, first, row, 0),
               (long)matrix_element(image, first, row, 1), (long)matrix_element(image, first, row, 2));
}

static void show_three(FILE *out, const uint8_t *image, const char *name, unsigned first)
{
    fprintf(out, "  %-5s (%ld, %ld, %ld)\n", name, (long)(int32_t)cop2_at(image, first),
           (long)(int32_t)cop2_at(image, first + 1), (long)(int32_t)cop2_at(image, first + 2));
}

static void vertex(const uint8_t *image, unsigned number, int32_t v[3])
{
    v[0] = low_half(cop2_at(image, FLISKADEE_COP2_VXY0 + 2 * number));
    v[1] = high_half(cop2_at(image, FLISKADEE_COP2_VXY0 + 2 * number));
    v[2] = low_half(cop2_at(image, FLISKADEE_COP2_VZ0 + 2 * number));
}

static int64_t floor_4096(int64_t value)
{
    return value >= 0 ? value / 4096 : -((4095 - value) / 4096);
}

/* Perspective commands rotate and translate a vertex first; the result says which one is too near or too far. */
static void show_rotated(FILE *out, const uint8_t *image, const int32_t v[3])
{
    int64_t sum[3];
    for (unsigned row = 0; row < 3; row++) {
        sum[row] = (int64_t)(int32_t)cop2_at(image, FLISKADEE_COP2_TRX + row) * 4096;
        for (unsigned column = 0; column < 3; column++)
            sum[row] += (int64_t)matrix_element(image, FLISKADEE_COP2_RT, row, column) * v[column];
    }
    fprintf(out, ", rotated and translated (%lld, %lld, %lld)", (long long)floor_4096(sum[0]), (long long)floor_4096(sum[1]),
           (long long)floor_4096(sum[2]));
}

static void show_vertex(FILE *out, const uint8_t *image, unsigned number, bool perspective)
{
    int32_t v[3];
    vertex(image, number, v);
    fprintf(out, "  V%u    (%ld, %ld, %ld)", number, (long)v[0], (long)v[1], (long)v[2]);
    if (perspective)
        show_rotated(out, image, v);
    fprintf(out, "\n");
}

static void show_register(FILE *out, const uint8_t *image, unsigned number)
{
    fprintf(out, "  ");
    show_cop2(out, image, number);
    fprintf(out, "\n");
}

static void show_registers(FILE *out, const uint8_t *image, unsigned first, unsigned count)
{
    for (unsigned i = 0; i < count; i++)
        show_register(out, image, first + i);
}

static void show_groups(FILE *out, const uint8_t *image, unsigned reads)
{
    for (unsigned number = 0; number < 3; number++)
        if ((reads & (unsigned)READS_V0 << number) != 0)
            show_vertex(out, image, number, (reads & READS_SCREEN) != 0);
    if ((reads & READS_IR) != 0)
        show_three(out, image, "IR", FLISKADEE_COP2_IR1);
    if ((reads & READS_IR0) != 0)
        show_register(out, image, FLISKADEE_COP2_IR0);
    if ((reads & READS_MAC) != 0)
        show_three(out, image, "MAC", FLISKADEE_COP2_MAC1);
    if ((reads & READS_RT) != 0)
        show_matrix(out, image, "RT", FLISKADEE_COP2_RT);
    if ((reads & READS_TR) != 0)
        show_three(out, image, "TR", FLISKADEE_COP2_TRX);
    if ((reads & READS_LLM) != 0)
        show_matrix(out, image, "LLM", FLISKADEE_COP2_LLM);
    if ((reads & READS_BK) != 0)
        show_three(out, image, "BK", FLISKADEE_COP2_RBK);
    if ((reads & READS_LCM) != 0)
        show_matrix(out, image, "LCM", FLISKADEE_COP2_LCM);
    if ((reads & READS_FC) != 0)
        show_three(out, image, "FC", FLISKADEE_COP2_RFC);
    if ((reads & READS_RGBC) != 0)
        show_register(out, image, FLISKADEE_COP2_RGBC);
    if ((reads & READS_RGB_QUEUE) != 0)
        show_registers(out, image, FLISKADEE_COP2_RGB0, 3);
    if ((reads & READS_SXY) != 0)
        show_registers(out, image, FLISKADEE_COP2_SXY0, 3);
    if ((reads & READS_SZ) != 0)
        show_registers(out, image, FLISKADEE_COP2_SZ0, 4);
    if ((reads & READS_ZSF3) != 0)
        show_register(out, image, FLISKADEE_COP2_ZSF3);
    if ((reads & READS_ZSF4) != 0)
        show_register(out, image, FLISKADEE_COP2_ZSF4);
    if ((reads & READS_SCREEN) != 0)
        show_registers(out, image, FLISKADEE_COP2_OFX, 5);
    if ((reads & READS_MATRIX_3) != 0)
        fprintf(out, "  matrix 3: -96 96 %ld; %ld three times; %ld three times\n", (long)(int32_t)cop2_at(image, FLISKADEE_COP2_IR0),
               (long)matrix_element(image, FLISKADEE_COP2_RT, 0, 2), (long)matrix_element(image, FLISKADEE_COP2_RT, 1, 1));
}

void show_inputs(FILE *out, const uint8_t *image, uint32_t instruction)
{
    if (instruction >> 25 != 0x25) {
        unsigned general = instruction >> 16 & 31;
        fprintf(out, "The value written to FLAG is that of %s (r%u): %08X\n", word_name(general), general,
               (unsigned)fliskadee_get_word(image, general));
        return;
    }
    const char *name = gte_command_name(instruction);
    if (name == NULL)
        return;
    fprintf(out, "Inputs of ");
    for (; *name != '\0'; name++)
        fputc(toupper((unsigned char)*name), out);
    fprintf(out, " before the step (sf = %u, lm = %u)\n", (unsigned)(instruction >> 19 & 1),
            (unsigned)(instruction >> 10 & 1));
    show_groups(out, image, (instruction & 63) == 0x12 ? mvmva_reads(instruction) : command_reads[instruction & 63]);
}
