/*
 * The generator. Cases are weighted so that every instruction, GTE command,
 * exception and refusal comes up often, and values so that limits are met
 * exactly as well as passed.
 */
#include "generate.h"

#include "draw_list.h"
#include "encode.h"
#include "model.h"

#include <stdbool.h>
#include <string.h>

/* ---- Random numbers: xoshiro256**, seeded by splitmix64 -------------------- */

struct random {
    uint64_t state[4];
};

static uint64_t rotate(uint64_t value, int bits)
{
    return value << bits | value >> (64 - bits);
}

static uint64_t next(struct random *r)
{
    uint64_t *s = r->state;
    uint64_t result = rotate(s[1] * 5, 7) * 9, t = s[1] << 17;

    s[2] ^= s[0];
    s[3] ^= s[1];
    s[1] ^= s[2];
    s[0] ^= s[3];
    s[2] ^= t;
    s[3] = rotate(s[3], 45);
    return result;
}

static void seed_random(struct random *r, uint64_t seed, uint64_t number)
{
    uint64_t x = seed * 0x9E3779B97F4A7C15 ^ (number + 1) * 0xD1B54A32D192ED03;
    int i;

    for (i = 0; i < 4; i++) {
        uint64_t z = x += 0x9E3779B97F4A7C15;

        z = (z ^ z >> 30) * 0xBF58476D1CE4E5B9;
        z = (z ^ z >> 27) * 0x94D049BB133111EB;
        r->state[i] = z ^ z >> 31;
    }
}

static uint32_t random_word(struct random *r)
{
    return (uint32_t)(next(r) >> 32);
}

/* 0..bound-1 */
static uint32_t below(struct random *r, uint32_t bound)
{
    return (uint32_t)((uint64_t)random_word(r) * bound >> 32);
}

static bool chance(struct random *r, uint32_t percent)
{
    return below(r, 100) < percent;
}

#define COUNT_OF(array) (sizeof(array) / sizeof *(array))
#define PICK(r, array) ((array)[below((r), COUNT_OF(array))])

/* ---- Values at and around limits ------------------------------------------- */

static uint32_t edge_half(struct random *r)
{
    static const uint16_t edges[] = {0, 0, 0, 1, 2, 0xFFFF, 0xFFFE, 0x7FFF, 0x7FFE, 0x8000, 0x8001, 0x4000, 0xC000,
                                     0x0FFF, 0x1000, 0x1001, 0xF000, 0x0F80, 0x0FFE, 0x00FF, 0x0100, 0x007F, 0x0080,
                                     0x03FF, 0x0400, 0xFC00, 0xFBFF, 0x001F, 0x0010};

    switch (below(r, 8)) {
    case 0: case 1: case 2: case 3: return PICK(r, edges);
    case 4: return below(r, 64) & 0xFFFF;
    case 5: return (0u - below(r, 64)) & 0xFFFF;
    default: return random_word(r) & 0xFFFF;
    }
}

static uint32_t edge_word(struct random *r)
{
    static const uint32_t edges[] = {0, 0, 1, 2, 0xFFFFFFFF, 0xFFFFFFFE, 0x7FFF, 0x8000, 0xFFFF8000, 0xFFFF7FFF, 0xFFFF,
                                     0x10000, 0x7FFFFFFF, 0x80000000, 0x80000001, 0x7FFFFFFE, 0x55555555, 0xAAAAAAAA};

    switch (below(r, 12)) {
    case 0: case 1: case 2: case 3: return PICK(r, edges);
    case 4: return 1u << below(r, 32);
    case 5: return (1u << below(r, 32)) - 1;
    case 6: return below(r, 64);
    case 7: return 0u - below(r, 64);
    case 8: return edge_half(r) | edge_half(r) << 16;
    case 9: return (uint32_t)(int32_t)(int16_t)edge_half(r);
    default: return random_word(r);
    }
}

/* ---- COP2 registers ---------------------------------------------------------- */

static uint32_t extend(uint32_t half)
{
    return (uint32_t)(int32_t)(int16_t)half;
}

static bool sign_extended(unsigned i)
{
    return i == 1 || i == 3 || i == 5 || (i >= 8 && i <= 11) || i == 36 || i == 44 || i == 52 || i == 58 || i == 59 ||
           i == 61 || i == 62;
}

static bool zero_extended(unsigned i)
{
    return i == 7 || (i >= 16 && i <= 19);
}

/* A five-bit field of 28 and 29. */
static uint32_t field(uint32_t ir)
{
    int32_t value = (int16_t)ir;

    return value < 0 ? 0 : value > 0xFFF ? 31 : (uint32_t)value / 128;
}

/* Makes any 64 words into ones that reads can return (01, The machine image). */
static void make_cop2_well_formed(uint32_t *r)
{
    uint32_t sign, count = 0, i;

    for (i = 0; i < 64; i++) {
        if (sign_extended(i))
            r[i] = extend(r[i]);
        if (zero_extended(i))
            r[i] &= 0xFFFF;
    }
    r[15] = r[14];
    r[28] = r[29] = field(r[9]) | field(r[10]) << 5 | field(r[11]) << 10;
    sign = r[30] >> 31;
    for (i = 32; i-- > 0 && (r[30] >> i & 1) == sign;)
        count++;
    r[31] = count;
    r[63] &= 0x7FFFF000;
    for (i = 13; i < 31; i++)
        if ((i < 19 || i > 22) && (r[63] >> i & 1))
            r[63] |= 0x80000000;
}

/* H and SZ3 below the overflow: any leading zeros and any entry of the table, or a quotient that is cut (three of the forty). */
struct quotient {
    uint32_t h, sz3;
};

static struct quotient random_quotient(struct random *r)
{
    static const struct quotient cut[] = {{0xFE3F, 0x7F20}, {0xF015, 0x780B}, {0xE383, 0x71C2}};
    struct quotient q;

    if (chance(r, 15))
        return PICK(r, cut);
    q.sz3 = (0x8000 + below(r, 0x8000)) >> below(r, 16);
    q.h = below(r, q.sz3 < 0x8000 ? 2 * q.sz3 : 0x10000);
    return q;
}

/* A depth around a limit: 0, 7FFFh, FFFFh, -8000h, or anywhere. */
static int32_t random_depth(struct random *r)
{
    switch (below(r, 8)) {
    case 0: return (int32_t)below(r, 8);
    case 1: return (int32_t)below(r, 0x400);
    case 2: return 0x7FFC + (int32_t)below(r, 8);
    case 3: return 0xFFFC + (int32_t)below(r, 8);
    case 4: return -0x8000 - 4 + (int32_t)below(r, 8);
    default: return (int32_t)below(r, 0x8000);
    }
}

/*
 * A camera along Z, with the depth, the quotient, the screen limits or the 32
 * bits of MAC0 near their edges for the first vertex; the others are close to
 * it or anywhere.
 */
static void projection_recipe(struct random *r, uint32_t *c)
{
    static const int64_t screen[] = {0x3FFFFFF, 0x4000000, -0x4000000, -0x4000001, 0x7FFFFFFF, 0x80000000,
                                     -0x80000000LL, -0x80000001LL, 0, -1};
    static const int64_t cue[] = {0, -1, 0xFFF, 0x1000FFF, 0x1001000, 0x7FFFFFFF, 0x80000000, -0x80000000LL, -0x80000001LL};
    bool divides = chance(r, 30);
    struct quotient q = random_quotient(r);
    int32_t depth = divides ? (int32_t)q.sz3 : random_depth(r), reach, z;
    int64_t quotient, x, y;
    uint32_t h, i;
    bool overflow;

    for (i = 32; i < 37; i++)
        c[i] = 0;
    c[32] = c[34] = c[36] = 0x1000;
    if (chance(r, 30))
        c[32 + below(r, 4)] ^= edge_half(r) << 16;
    for (i = 37; i < 39; i++)
        c[i] = chance(r, 60) ? 0 : (uint32_t)((int32_t)below(r, 4001) - 2000);
    /* TRZ brings the depth within reach of VZ, which has 16 bits. */
    reach = depth > 0x7F00 ? depth - 0x7F00 : depth < -0x7F00 ? depth + 0x7F00 : chance(r, 70) ? 0 : (int32_t)below(r, 200);
    c[39] = (uint32_t)reach;
    for (i = 1; i < 6; i += 2) {
        z = i == 1 || chance(r, 60) ? depth + (int32_t)below(r, 5) - 2 : random_depth(r);
        c[i] = (uint32_t)((divides && (i == 1 || chance(r, 50)) ? depth : z) - reach);
    }
    h = chance(r, 60) ? 2 * (uint32_t)depth + below(r, 7) - 3 : chance(r, 50) ? (uint32_t)depth : edge_half(r);
    c[58] = divides ? q.h : h & 0xFFFF;
    z = (int16_t)c[1] + reach;
    z = z < 0 ? 0 : z > 0xFFFF ? 0xFFFF : z;
    quotient = model_quotient(c[58], (uint32_t)z, &overflow);
    for (i = 0; i < 6; i += 2) {
        x = chance(r, 50) ? (int64_t)below(r, 9) - 4 : (int16_t)edge_half(r);
        y = chance(r, 50) ? (int64_t)below(r, 9) - 4 : (int16_t)edge_half(r);
        c[i] = ((uint32_t)x & 0xFFFF) | (uint32_t)y << 16;
        if (i == 0) {
            x += (int32_t)c[37];
            y += (int32_t)c[38];
            if (chance(r, 70))
                c[56] = (uint32_t)(PICK(r, screen) - quotient * x + (int64_t)below(r, 3) - 1);
            if (chance(r, 70))
                c[57] = (uint32_t)(PICK(r, screen) - quotient * y + (int64_t)below(r, 3) - 1);
        }
    }
    c[59] = chance(r, 50) ? below(r, 5) - 2 : edge_half(r);
    if (chance(r, 70))
        c[60] = (uint32_t)(PICK(r, cue) - quotient * (int16_t)c[59] + (int64_t)below(r, 3) - 1);
    if (divides && chance(r, 70)) { /* MAC0 is the quotient */
        c[59] = 1;
        c[60] = 0;
    }
}

/* -bound..bound */
static int32_t around_zero(struct random *r, uint32_t bound)
{
    return (int32_t)below(r, 2 * bound + 1) - (int32_t)bound;
}

static uint32_t halves(int32_t low, int32_t high)
{
    return ((uint32_t)low & 0xFFFF) | (uint32_t)high << 16;
}

/*
 * A scene as a game has it: a camera turned a little, three vertices in sight
 * and, half the time, one of them moved to an edge. Most commands then set no
 * bit, or those of line 7 alone.
 */
static void scene_recipe(struct random *r, uint32_t *c)
{
    int32_t depth = 600 + (int32_t)below(r, 20000), h = 100 + (int32_t)below(r, 400);
    uint32_t i, moved = 2 * below(r, 3);

    c[32] = halves(0x1000, around_zero(r, 0x100));
    c[33] = halves(around_zero(r, 0x100), around_zero(r, 0x100));
    c[34] = halves(0x1000, around_zero(r, 0x100));
    c[35] = halves(around_zero(r, 0x100), around_zero(r, 0x100));
    c[36] = 0x1000;
    c[37] = (uint32_t)around_zero(r, 200);
    c[38] = (uint32_t)around_zero(r, 200);
    c[39] = (uint32_t)depth;
    for (i = 0; i < 6; i += 2) {
        c[i] = halves(around_zero(r, 250), around_zero(r, 250));
        c[i + 1] = (uint32_t)around_zero(r, 250);
    }
    c[56] = 160 << 16 | below(r, 0x10000);
    c[57] = 120 << 16 | below(r, 0x10000);
    c[58] = (uint32_t)h;
    c[59] = (uint32_t)around_zero(r, chance(r, 50) ? 8 : 0x1000);
    c[60] = below(r, 0x1001000);
    if (chance(r, 50))
        switch (below(r, 5)) {
        case 0: c[moved + 1] = (uint32_t)(h / 2 - depth + around_zero(r, 60)); break; /* too near, or just not */
        case 1: c[moved + 1] = (uint32_t)(0x7FFF - depth + around_zero(r, 60)); break; /* as far as IR3 reaches */
        case 2: c[moved] = halves(chance(r, 50) ? 0x7FFF : -0x8000, around_zero(r, 250)); break;
        case 3: c[moved] = halves(around_zero(r, 250), chance(r, 50) ? 0x7FFF : -0x8000); break;
        default: c[56 + below(r, 2)] = (900 + below(r, 250)) << 16; break; /* near the screen's end */
        }
}

/* Sums at -2^43 and 2^43-1: a translation of 32 bits and one product, the rest zero. */
static void wide_sum_recipe(struct random *r, uint32_t *c)
{
    static const int16_t positive[] = {4094, 4095, 4096, 4097}, negative[] = {1, 0, -1, -2};
    static const unsigned matrices[] = {32, 40, 48}, translations[] = {37, 45, 53};
    unsigned i, k;

    for (i = 0; i < 3; i++)
        for (k = 0; k < 5; k++)
            c[matrices[i] + k] = 0;
    for (i = 0; i < 3; i++) {
        bool up = chance(r, 50);

        for (k = 0; k < 3; k++)
            c[translations[i] + k] = up ? 0x7FFFFFFF - below(r, 2) : 0x80000000 + below(r, 2);
        /* the last column, which MVMVA with FC keeps, and the first */
        c[matrices[i] + 1] = 1;
        c[matrices[i] + 2] = 0x10000;
        c[matrices[i] + 4] = 1;
        if (chance(r, 30))
            c[matrices[i]] = 1;
        c[2 * i + 1] = (uint32_t)(int32_t)(up ? PICK(r, positive) : PICK(r, negative));
        c[2 * i] = 0;
    }
    for (i = 9; i < 12; i++) {
        c[i] = (uint32_t)(int32_t)(chance(r, 50) ? PICK(r, positive) : PICK(r, negative));
        c[i + 16] = chance(r, 50) ? 0x7FFFFFFF - below(r, 2) : 0x80000000 + below(r, 2);
    }
    c[8] = chance(r, 50) ? 1 : chance(r, 50) ? 0xFFFF : 0x1000;
}

/* Colours around 0, FFh and the far colour. */
static void colour_recipe(struct random *r, uint32_t *c)
{
    unsigned i;

    for (i = 9; i < 12; i++)
        c[i] = chance(r, 70) ? below(r, 0x1100) : edge_half(r);
    c[8] = chance(r, 70) ? below(r, 0x1001) : edge_half(r);
    for (i = 25; i < 28; i++)
        c[i] = chance(r, 50) ? 4094 + below(r, 4) : (uint32_t)((int32_t)below(r, 5) - 2);
    for (i = 45; i < 48; i++) {
        c[i] = below(r, 0x1100);
        c[i + 8] = chance(r, 50) ? below(r, 0x1100) : edge_word(r);
    }
    for (i = 0; i < 5; i++) {
        c[40 + i] = below(r, 0x1000) | below(r, 0x1000) << 16;
        c[48 + i] = below(r, 0x1000) | below(r, 0x1000) << 16;
    }
    for (i = 0; i < 6; i++)
        c[i] = below(r, 0x1000) | below(r, 0x1000) << 16;
}

/* Average Z with OTZ at FFFFh and MAC0 at 2^31; NCLIP of large corners. */
static void depth_and_clip_recipe(struct random *r, uint32_t *c)
{
    static const uint16_t corners[] = {0, 1, 0xFFFF, 0x7FFF, 0x8000, 0x4000, 0xC000};
    static const uint16_t depths[] = {0, 1, 2, 3, 0x5555, 0x5556, 0x7FFF, 0x8000, 0xFFFF};
    static const uint16_t factors[] = {0, 1, 0xFFFF, 0x1000, 0x4000, 0x7FFF, 0x8000, 0xC000, 0x0555};
    unsigned i;

    for (i = 12; i < 15; i++)
        c[i] = PICK(r, corners) | (uint32_t)PICK(r, corners) << 16;
    if (chance(r, 40)) { /* twice the area is FFFFh * 8001h - (SX2 + 8000h): 2^31 for SX2 = -1 */
        c[12] = 0x80008000;
        c[13] = 0x80017FFF;
        c[14] = 0x00010000 | ((below(r, 5) - 3) & 0xFFFF);
        if (chance(r, 50)) {
            c[12] = 0x80017FFF;
            c[13] = 0x80008000;
        }
    }
    for (i = 16; i < 20; i++)
        c[i] = PICK(r, depths);
    c[61] = PICK(r, factors);
    c[62] = PICK(r, factors);
}

/* Answers a command that suits the recipe taken, or 12h if any does. */
static uint32_t random_cop2(struct random *r, uint32_t *c)
{
    static const uint8_t projecting[] = {0x01, 0x30}, averaging[] = {0x06, 0x06, 0x2D, 0x2E};
    uint32_t style = below(r, 10);
    unsigned i;

    for (i = 0; i < 64; i++)
        c[i] = style == 0 ? random_word(r) : style == 1 && chance(r, 60) ? 0 : edge_word(r);
    switch (style) {
    case 2: case 3: projection_recipe(r, c); break;
    case 4: case 5: wide_sum_recipe(r, c); break;
    case 6: colour_recipe(r, c); break;
    case 7: depth_and_clip_recipe(r, c); break;
    case 8: scene_recipe(r, c); break;
    default: break;
    }
    make_cop2_well_formed(c);
    return style == 2 || style == 3 || style == 8 ? PICK(r, projecting) : style == 7 ? PICK(r, averaging) : 0x12;
}

/* ---- Instructions ------------------------------------------------------------ */

/* Where a program lies and how often it may go wrong. */
struct layout {
    uint32_t code, code_end; /* physical */
    uint32_t position; /* physical address of the instruction being made */
    bool wild; /* any register anywhere: for short runs */
};

static uint32_t source(struct random *r)
{
    return below(r, 32);
}

#define PAD 0x1F800000u
#define PAD_END (PAD + MODEL_PAD_BYTES)
#define PAD_BASE 23 /* the register in which programs keep the pad's address */

/* Programs keep pointers in 16..25, 27 and 28 and write elsewhere. */
static uint32_t destination(struct random *r, const struct layout *l)
{
    if (l->wild || chance(r, 2))
        return below(r, 32);
    return chance(r, 4) ? 31 : below(r, 16);
}

static uint32_t base(struct random *r, const struct layout *l)
{
    return l->wild && chance(r, 30) ? below(r, 32) : 16 + below(r, 8);
}

static int32_t offset(struct random *r)
{
    switch (below(r, 8)) {
    case 0: return (int32_t)below(r, 33) - 16;
    case 1: return chance(r, 10) ? (int16_t)random_word(r) : 0;
    default: return ((int32_t)below(r, 33) - 16) * 4;
    }
}

/* In the pad, half of them around its ends. */
static int32_t pad_offset(struct random *r)
{
    int32_t at = (int32_t)below(r, 8) - 4;

    switch (below(r, 4)) {
    case 0: break;
    case 1: at += MODEL_PAD_BYTES; break;
    default: at = (int32_t)below(r, MODEL_PAD_BYTES); break;
    }
    return chance(r, 60) ? at & ~3 : at;
}

/* A load or store; those from the pad's address stay in the pad or near it. */
static uint32_t encode_access(struct random *r, const struct layout *l, uint32_t opcode, uint32_t rt)
{
    uint32_t rs = base(r, l);

    return encode_i(opcode, rt, rs, rs == PAD_BASE && chance(r, 80) ? pad_offset(r) : offset(r));
}

static uint32_t random_command(struct random *r)
{
    uint32_t word = 0x4A000000 | (random_word(r) & 0x01FFFFC0);

    return word | (chance(r, 25) ? 0x12u : PICK(r, listed_commands));
}

static uint32_t random_branch(struct random *r, const struct layout *l)
{
    static const uint8_t conditions[] = {0x00, 0x01, 0x10, 0x11};
    uint32_t words = (l->code_end - l->code) / 4, here = (l->position - l->code) / 4;
    uint32_t to = chance(r, 75) ? here + 2 + below(r, 12) : below(r, words);
    int32_t distance = (int32_t)(to % words) - (int32_t)here - 1;
    uint32_t rs = chance(r, 15) ? 0 : source(r), rt = chance(r, 30) ? rs : source(r);

    if (l->wild && chance(r, 20))
        distance = (int16_t)random_word(r);
    switch (below(r, 5)) {
    case 0: return encode_i(OP_BEQ, rt, rs, distance);
    case 1: return encode_i(OP_BNE, rt, rs, distance);
    case 2: return encode_i(OP_BLEZ, l->wild ? rt : 0, rs, distance);
    case 3: return encode_i(OP_BGTZ, l->wild ? rt : 0, rs, distance);
    default: return encode_i(OP_BCOND, PICK(r, conditions), rs, distance);
    }
}

static uint32_t random_jump(struct random *r, const struct layout *l)
{
    uint32_t target = l->code + below(r, (l->code_end - l->code) / 4) * 4;
    uint32_t holder = chance(r, 80) ? 24 + below(r, 2) : chance(r, 50) ? 31 : source(r);

    if (l->wild && chance(r, 20))
        target = random_word(r);
    switch (below(r, 4)) {
    case 0: return encode_j(OP_J, target);
    case 1: return encode_j(OP_JAL, target);
    case 2: return encode_r(F_JR, 0, holder, 0, 0);
    default: return encode_r(F_JALR, chance(r, 70) ? 31 : destination(r, l), holder, 0, 0);
    }
}

static uint32_t random_load_or_store(struct random *r, const struct layout *l)
{
    static const uint8_t loads[] = {OP_LB, OP_LH, OP_LWL, OP_LW, OP_LBU, OP_LHU, OP_LWR, OP_LWL, OP_LWR, OP_LW};
    static const uint8_t stores[] = {OP_SB, OP_SH, OP_SWL, OP_SW, OP_SWR};

    if (chance(r, 60))
        return encode_access(r, l, PICK(r, loads), destination(r, l));
    return encode_access(r, l, PICK(r, stores), source(r));
}

static uint32_t random_alu(struct random *r, const struct layout *l)
{
    static const uint8_t three[] = {F_ADD, F_ADDU, F_SUB, F_SUBU, F_AND, F_OR, F_XOR, F_NOR, F_SLT, F_SLTU,
                                    F_SLL, F_SRL, F_SRA, F_SLLV, F_SRLV, F_SRAV};
    static const uint8_t immediate[] = {OP_ADDI, OP_ADDIU, OP_SLTI, OP_SLTIU, OP_ANDI, OP_ORI, OP_XORI, OP_LUI};

    if (chance(r, 60))
        return encode_r(PICK(r, three), destination(r, l), source(r), source(r), below(r, 32));
    return encode_i(PICK(r, immediate), destination(r, l), source(r), (int32_t)edge_half(r));
}

static uint32_t random_multiply_divide(struct random *r, const struct layout *l)
{
    static const uint8_t functions[] = {F_MULT, F_MULTU, F_DIV, F_DIVU, F_MFHI, F_MFLO, F_MTHI, F_MTLO};

    return encode_r(PICK(r, functions), destination(r, l), source(r), source(r), l->wild ? below(r, 32) : 0);
}

static uint32_t random_cop2_access(struct random *r, const struct layout *l)
{
    static const uint8_t often[] = {15, 28, 29, 30, 31, 7, 9, 14};
    uint32_t number = chance(r, 25) ? PICK(r, often) : below(r, 32);

    switch (below(r, 6)) {
    case 0: return encode_move(2, 0, destination(r, l), number) | (l->wild ? below(r, 0x800) : 0);
    case 1: return encode_move(2, 2, destination(r, l), chance(r, 20) ? 31 : below(r, 32));
    case 2: return encode_move(2, 4, source(r), number);
    case 3: return encode_move(2, 6, source(r), chance(r, 20) ? 31 : below(r, 32));
    case 4: return encode_access(r, l, OP_LWC2, number);
    default: return encode_access(r, l, OP_SWC2, number);
    }
}

static uint32_t random_cop0_access(struct random *r, const struct layout *l)
{
    static const uint8_t registers[] = {8, 12, 13, 14, 12, 13};
    uint32_t number = chance(r, 70) ? PICK(r, registers) : below(r, 32);

    switch (below(r, 3)) {
    case 0: return encode_move(0, 0, destination(r, l), number) | (l->wild ? below(r, 0x800) : 0);
    case 1:
        /* SR from register 28, which holds a usable one, or the run soon loses COP2 */
        if (!l->wild && number == 12 && chance(r, 80))
            return encode_move(0, 4, 28, 12);
        return encode_move(0, 4, source(r), number);
    default: return RFE | (l->wild ? random_word(r) & 0x01FFFFC0 : 0);
    }
}

/* Reserved words, COP1 and COP3, and unlisted GTE commands. */
static uint32_t random_illegal(struct random *r, const struct layout *l)
{
    static const uint8_t opcodes[] = {0x14, 0x1F, 0x27, 0x2C, 0x2D, 0x2F, 0x30, 0x34, 0x37, 0x38, 0x3C, 0x3F};
    static const uint8_t coprocessors[] = {0x11, 0x13, 0x31, 0x33, 0x39, 0x3B};
    static const uint8_t functions[] = {0x10, 0x30, 0x30, 0x11, 0x00, 0x08};
    uint32_t rest = random_word(r) & 0x03FFFFFF;

    switch (below(r, 8)) {
    case 0: return (uint32_t)PICK(r, opcodes) << 26 | rest;
    case 1: return (uint32_t)PICK(r, coprocessors) << 26 | rest;
    case 2: return rest; /* SPECIAL, any function */
    case 3: return 0x04000000 | rest; /* BCOND, any rt */
    case 4: /* COP0, any form; functions around that of RFE */
        return 0x40000000 | (rest & 0x03FFFFC0) | (chance(r, 50) ? below(r, 64) : PICK(r, functions));
    case 5: return 0x48000000 | (rest & 0x01FFFFFF); /* COP2, any form that is no command */
    case 6:
        if (l->wild || chance(r, 5))
            return 0x4A000000 | rest; /* any command */
        return (uint32_t)PICK(r, coprocessors) << 26 | rest;
    default: return random_word(r) & ~(l->wild ? 0u : 0x0A000000u);
    }
}

static uint32_t random_instruction(struct random *r, const struct layout *l)
{
    uint32_t choice = below(r, 100);

    if (choice < 10)
        return random_command(r);
    if (choice < 22)
        return random_cop2_access(r, l);
    if (choice < 25)
        return random_cop0_access(r, l);
    if (choice < 46)
        return random_load_or_store(r, l);
    if (choice < 74)
        return random_alu(r, l);
    if (choice < 82)
        return random_multiply_divide(r, l);
    if (choice < 91)
        return random_branch(r, l);
    if (choice < 95)
        return random_jump(r, l);
    if (choice < 97)
        return encode_r(chance(r, 50) ? F_SYSCALL : F_BREAK, below(r, 32), below(r, 32), below(r, 32), below(r, 32));
    return random_illegal(r, l);
}

/* ---- Images -------------------------------------------------------------------- */

enum { PC = 34, NEXT, WAIT, WAITING, SLOT, SR, CAUSE, EPC, BADV, COP2 = 44 };

#define SR_MASK 0xF24FFF3Fu
#define CAUSE_MASK 0xB000037Cu

static void put_image(struct test_case *c, const uint32_t *word)
{
    unsigned i;

    for (i = 0; i < 108; i++)
        put_word(c->image + 4 * i, word[i]);
    c->image_length = 432;
}

static uint32_t random_sr(struct random *r)
{
    uint32_t sr = random_word(r) & SR_MASK & ~0x42u;

    if (chance(r, 85))
        sr |= 0x40000000; /* CU2 */
    else
        sr &= ~0x40000000u;
    if (chance(r, 25))
        sr |= 2; /* user mode */
    if (chance(r, 75))
        sr &= ~0x00400000u; /* BEV */
    return sr & SR_MASK;
}

/* The segments that reach RAM; the first two reach the pad. */
static const uint32_t segments[] = {0, 0x80000000, 0xA0000000};

/* User mode reaches only the first. */
static uint32_t segment(struct random *r, uint32_t sr)
{
    if ((sr & 2) && chance(r, 85))
        return 0;
    return PICK(r, segments);
}

/* The pad's address, mostly through a segment that reaches it. */
static uint32_t pad_address(struct random *r, uint32_t sr)
{
    return PAD + (chance(r, 85) ? segment(r, sr) & 0x80000000 : below(r, 8) << 29);
}

/* An address for a load or store: in RAM, at its end, in the pad, misaligned, or nowhere. */
static uint32_t data_address(struct random *r, uint32_t sr, uint32_t low, uint32_t high)
{
    uint32_t address = low + below(r, high - low);

    if (chance(r, 80))
        address &= ~3u;
    switch (below(r, 26)) {
    case 0: return random_word(r);
    case 1: return high - 2 + below(r, 5);
    case 2: return 0x1FFFFFF8 + below(r, 16);
    case 3: return address | 0x20000000u * below(r, 8);
    case 4: case 5: return pad_address(r, sr) + (uint32_t)pad_offset(r);
    default: return address | segment(r, sr);
    }
}

/* Within a word of an end of the pad, of RAM or of a segment, mostly through a segment that reaches RAM. */
static uint32_t edge_address(struct random *r, uint32_t ram_length)
{
    const uint32_t edges[] = {PAD, PAD, PAD_END, PAD_END, ram_length, 0};
    uint32_t address = PICK(r, edges) + below(r, 8) - 4 + (chance(r, 75) ? PICK(r, segments) : below(r, 8) << 29);

    return chance(r, 50) ? address & ~3u : address;
}

static void random_general(struct random *r, uint32_t *word)
{
    unsigned i;

    word[0] = 0;
    for (i = 1; i < 34; i++)
        word[i] = edge_word(r);
}

static void random_cop0(struct random *r, uint32_t *word)
{
    word[SR] = random_sr(r);
    word[CAUSE] = edge_word(r) & CAUSE_MASK;
    if (chance(r, 50))
        word[CAUSE] |= random_word(r) & CAUSE_MASK;
    word[EPC] = edge_word(r);
    word[BADV] = edge_word(r);
    word[43] = 0;
}

/* Often a register that the instruction names, so that dropping, landing and merging are met. */
static void random_waiting(struct random *r, uint32_t *word, uint32_t instruction)
{
    const uint32_t fields[] = {instruction >> 21 & 31, instruction >> 16 & 31, instruction >> 11 & 31, 31};

    word[WAIT] = chance(r, 30) ? 0 : chance(r, 80) ? PICK(r, fields) : below(r, 32);
    word[WAITING] = word[WAIT] == 0 ? 0 : edge_word(r);
}

/* Operands of arithmetic and branches at the ends of their range, both at once. */
static void operands_at_edges(struct random *r, uint32_t *word, uint32_t instruction)
{
    static const uint32_t ends[] = {0, 1, 0xFFFFFFFF, 0x7FFFFFFF, 0x80000000};

    uint32_t rs = instruction >> 21 & 31, rt = instruction >> 16 & 31, funct = instruction & 0x3F;
    bool product = instruction >> 26 == 0 && (funct == F_MULT || funct == F_MULTU);

    if (instruction >> 26 < 0x10 && chance(r, product ? 80 : 40)) {
        word[rs] = PICK(r, ends);
        word[rt] = PICK(r, ends);
        if (!product && chance(r, 20)) { /* the quotient that 32 bits cannot hold */
            word[rs] = 0x80000000;
            word[rt] = 0xFFFFFFFF;
        }
        word[0] = 0;
    }
}

/* A load or store whose base and offset give an address at an edge. */
static void address_at_edge(struct random *r, uint32_t *word, uint32_t instruction, uint32_t ram_length)
{
    uint32_t base = instruction >> 21 & 31;

    if (instruction >> 26 >= OP_LB && base != 0 && chance(r, 25))
        word[base] = edge_address(r, ram_length) - extend(instruction);
}

/* ---- Kinds of cases -------------------------------------------------------------- */

static void step_case(struct random *r, struct test_case *c)
{
    static const uint32_t lengths[] = {4, 8, 12, 16, 64, 64, 256, 256, 256, 1024, 260};
    struct layout l = {0, 0, 0, true};
    uint32_t word[108], i;

    c->kind = "a few steps from a random state";
    c->ram_length = PICK(r, lengths);
    l.code_end = (uint32_t)c->ram_length;
    random_general(r, word);
    random_cop0(r, word);
    random_cop2(r, word + COP2);
    for (i = 16; i < 26; i++)
        if (chance(r, 85))
            word[i] = i == PAD_BASE ? pad_address(r, word[SR]) : data_address(r, word[SR], 0, (uint32_t)c->ram_length);
    for (i = 0; i < c->ram_length; i += 4) {
        l.position = i;
        put_word(c->ram + i, chance(r, 70) ? random_instruction(r, &l) : edge_word(r));
    }
    l.position = below(r, (uint32_t)c->ram_length / 4) * 4;
    put_word(c->ram + l.position, chance(r, 15) ? random_multiply_divide(r, &l) : random_instruction(r, &l));
    operands_at_edges(r, word, get_word(c->ram + l.position));
    address_at_edge(r, word, get_word(c->ram + l.position), (uint32_t)c->ram_length);
    word[PC] = l.position | segment(r, word[SR]);
    if (chance(r, 6))
        word[PC] = chance(r, 60) ? edge_word(r) : edge_address(r, (uint32_t)c->ram_length);
    word[NEXT] = chance(r, 70) ? word[PC] + 4 : chance(r, 60) ? word[PC] + 4 * below(r, 16) : edge_word(r);
    word[SLOT] = chance(r, 30);
    random_waiting(r, word, get_word(c->ram + l.position));
    put_image(c, word);
    c->count = chance(r, 70) ? 1 : below(r, 12);
}

static void command_case(struct random *r, struct test_case *c)
{
    uint32_t word[108], suited, i;

    c->kind = "GTE commands";
    c->ram_length = 64;
    random_general(r, word);
    random_cop0(r, word);
    suited = random_cop2(r, word + COP2);
    word[SR] |= 0x40000000;
    for (i = 0; i < 64; i += 4)
        put_word(c->ram + i, chance(r, 3) ? 0x4A000000 | (random_word(r) & 0x01FFFFFF) : random_command(r));
    if (suited != 0x12 && chance(r, 60))
        put_word(c->ram, 0x4A000000 | (random_word(r) & 0x01FFFFC0) | suited);
    word[PC] = 0;
    word[NEXT] = 4;
    word[SLOT] = 0;
    random_waiting(r, word, 0);
    put_image(c, word);
    c->count = 1 + (chance(r, 30) ? below(r, 8) : 0);
}

/* The room behind it is filled too, since a length that is refused may be greater. */
static void random_pad(struct random *r, struct test_case *c)
{
    uint32_t i;

    c->pad_length = MODEL_PAD_BYTES;
    for (i = 0; i < MODEL_PAD_BYTES; i += 4)
        put_word(c->pad + i, edge_word(r));
    memset(c->pad + MODEL_PAD_BYTES, 0x3C, CASE_PAD_CAPACITY - MODEL_PAD_BYTES);
}

/* The code at the exception vector: most kinds bring the run back into the program. */
static void put_handler(struct random *r, struct test_case *c, const struct layout *l)
{
    uint32_t at = 0x80, i;
    uint32_t code[6] = {0};

    switch (below(r, 4)) {
    case 0: /* return past the instruction */
        code[0] = encode_move(0, 0, 26, 14);
        code[2] = encode_i(OP_ADDIU, 26, 26, 4);
        code[3] = encode_r(F_JR, 0, 26, 0, 0);
        code[4] = RFE;
        break;
    case 1: /* a usable SR, and on from a fixed place */
        code[0] = encode_move(0, 4, 28, 12);
        code[1] = encode_j(OP_J, l->code + below(r, (l->code_end - l->code) / 4) * 4);
        code[2] = encode_i(OP_ADDIU, 1, 1, 1);
        break;
    case 2: /* on from an address near EPC that lies in RAM */
        code[0] = encode_move(0, 0, 26, 14);
        code[1] = encode_move(0, 4, 28, 12);
        code[2] = encode_i(OP_ANDI, 26, 26, 0x1FC);
        code[3] = encode_i(OP_ADDIU, 26, 26, 8);
        code[4] = encode_r(F_JR, 0, 26, 0, 0);
        break;
    default: return;
    }
    for (i = 0; i < 6; i++)
        put_word(c->ram + at + 4 * i, code[i]);
}

static void program_case(struct random *r, struct test_case *c, uint32_t ram_length, uint32_t code_bytes)
{
    struct layout l = {0xC0, 0, 0, false};
    uint32_t word[108], i;

    c->kind = "a program";
    c->ram_length = ram_length;
    l.code_end = l.code + code_bytes;
    memset(c->ram, 0, ram_length);
    for (i = 0; i < l.code_end; i += 4) {
        l.position = i < l.code ? l.code : i;
        put_word(c->ram + i, random_instruction(r, &l));
    }
    for (; i < ram_length && i < l.code_end + 4096; i += 4)
        put_word(c->ram + i, edge_word(r));
    random_general(r, word);
    random_cop0(r, word);
    random_cop2(r, word + COP2);
    word[SR] |= 0x40000000;
    if (chance(r, 80))
        word[SR] &= ~0x00400000u;
    word[28] = word[SR];
    for (i = 16; i < 24; i++)
        word[i] = i == PAD_BASE ? pad_address(r, word[SR]) : data_address(r, word[SR], l.code_end, ram_length);
    for (i = 24; i < 26; i++)
        word[i] = (l.code + below(r, code_bytes / 4) * 4) | ((word[SR] & 2) ? 0 : segment(r, word[SR]));
    put_handler(r, c, &l);
    word[PC] = l.code | ((word[SR] & 2) ? 0 : segment(r, word[SR]));
    word[NEXT] = word[PC] + 4;
    word[SLOT] = 0;
    random_waiting(r, word, 0);
    put_image(c, word);
}

static void small_program_case(struct random *r, struct test_case *c)
{
    uint32_t code_bytes = 64 + below(r, 256) * 4;

    program_case(r, c, 0xC0 + code_bytes + 64 + below(r, 128) * 4, code_bytes);
    c->count = chance(r, 20) ? below(r, 3000) : 50 + below(r, 500);
}

/* Runs of the greatest count, and RAM of the greatest length. */
static void large_case(struct random *r, struct test_case *c)
{
    static const uint32_t lengths[] = {2097152, 2097148, 1048576, 1500000, 65536, 2048};

    program_case(r, c, PICK(r, lengths), 64 + below(r, 256) * 4);
    c->kind = "a large run";
    c->count = chance(r, 30) ? 1000000 : below(r, 100000);
}

static uint64_t bad_count(struct random *r)
{
    static const uint64_t counts[] = {1000001, 1000002, 1048575, 1048576, 2097152, 5242880, 0xFFFFFFFF, 0x100000000,
                                      0x100000001, 0x100000005, 0x1000F4240, 0x7FFFFFFFFFFFFFFF, 0x8000000000000000,
                                      0x8000000000000001, UINT64_MAX - 1, UINT64_MAX};

    return chance(r, 80) ? PICK(r, counts) : 1000001 + (next(r) >> below(r, 40));
}

static size_t bad_ram_length(struct random *r)
{
    static const uint32_t small[] = {0, 0, 1, 2, 3, 5, 6, 7, 9, 10, 11, 253, 254, 255};
    static const uint32_t large[] = {2097149, 2097150, 2097151, 2097153, 2097154, 2097155, 2097156, 2097160, 4194304};

    if (chance(r, 5))
        return PICK(r, large);
    return chance(r, 70) ? PICK(r, small) : below(r, 1000) * 4 + 1 + below(r, 3);
}

static size_t bad_pad_length(struct random *r)
{
    static const size_t lengths[] = {0, 0, 1, 5, 512, 1020, 1022, 1023, 1025, 1026, 1028, 2048, CASE_PAD_CAPACITY};
    size_t length = chance(r, 80) ? PICK(r, lengths) : below(r, 2 * MODEL_PAD_BYTES);

    return length == MODEL_PAD_BYTES ? 0 : length;
}

/* Spoils one word that 01 binds; the bit is one whose flip cannot give a well-formed image. */
static void spoil(struct random *r, uint32_t *word)
{
    uint32_t bit = below(r, 32), number;

    switch (below(r, 12)) {
    case 0: word[0] ^= 1u << bit; break;
    case 1: word[WAIT] |= 1u << (5 + below(r, 27)); break;
    case 2: word[WAIT] = 0; word[WAITING] = edge_word(r) | 1u << bit; break;
    case 3: word[SLOT] |= 1u << (1 + below(r, 31)); break;
    case 4: word[43] ^= 1u << bit; break;
    case 5:
        do
            bit = below(r, 32);
        while (SR_MASK >> bit & 1);
        word[SR] |= 1u << bit;
        break;
    case 6:
        do
            bit = below(r, 32);
        while (CAUSE_MASK >> bit & 1);
        word[CAUSE] |= 1u << bit;
        break;
    case 7: case 8: /* an upper half that no read returns */
        do
            number = below(r, 64);
        while (!sign_extended(number) && !zero_extended(number));
        word[COP2 + number] ^= 1u << (16 + below(r, 16));
        break;
    case 9: /* SXY2 against SXYP */
        word[COP2 + 14 + below(r, 2)] ^= 1u << bit;
        break;
    case 10: /* IRGB, ORGB, LZCR against what they are worked out from */
        number = below(r, 3);
        word[COP2 + (number == 2 ? 31 : 28 + number)] ^= 1u << bit;
        break;
    default: /* FLAG: bits 11..0, or a wrong bit 31 */
        word[COP2 + 63] ^= chance(r, 50) ? 0x80000000 : 1u << below(r, 12);
        break;
    }
}

static void refused_case(struct random *r, struct test_case *c)
{
    static const size_t lengths[] = {0, 0, 1, 4, 428, 431, 433, 436, 448, 452, 863, 864, 4096};
    uint32_t word[108], choice = below(r, 24), i;

    step_case(r, c);
    c->kind = "a refusal";
    for (i = 0; i < 108; i++)
        word[i] = get_word(c->image + 4 * i);
    memset(c->image + 432, 0x5A, CASE_IMAGE_CAPACITY - 432);
    c->expected = EXPECT_RUN;
    /* From the last test to the first, so that an earlier one has the word. */
    if (choice < 4 || chance(r, 25)) {
        c->count = bad_count(r);
        c->expected = EXPECT_4;
    } else if (chance(r, 30)) {
        c->count = 0;
    }
    if (choice >= 20 || (choice >= 4 && chance(r, 25))) {
        c->pad_length = bad_pad_length(r);
        c->expected = EXPECT_6;
    }
    if ((choice >= 4 && choice < 8) || (choice > 8 && chance(r, 25))) {
        c->ram_length = bad_ram_length(r);
        memset(c->ram, 0xA5, c->ram_length);
        c->expected = EXPECT_3;
    }
    if ((choice >= 8 && choice < 14) || (choice >= 15 && chance(r, 25))) {
        spoil(r, word);
        c->expected = EXPECT_2;
    } else if (choice == 14) { /* any bit of any word, whatever that gives */
        word[below(r, 108)] ^= 1u << below(r, 32);
        c->expected = EXPECT_ANY;
    }
    put_image(c, word);
    if (choice >= 15 && choice < 20) {
        c->image_length = PICK(r, lengths);
        c->expected = EXPECT_1;
    }
}

/* ---- Searches and windows -------------------------------------------------------- */

static uint32_t random_mask(struct random *r)
{
    switch (below(r, 8)) {
    case 0: return 0;
    case 1: return 0xFFFFFFFF;
    case 2: return random_word(r) & 0xFFF; /* bits that FLAG never has */
    case 3: return random_word(r);
    case 4: return random_word(r) & random_word(r) & random_word(r);
    default: return 1u << (31 - below(r, chance(r, 90) ? 20 : 32));
    }
}

static uint64_t random_search_count(struct random *r, uint64_t count)
{
    return count <= 5000 || count > 1000000 || chance(r, 20) ? count : below(r, 5000);
}

/* Mostly the case's own; no memory is read, so another costs nothing. */
static size_t window_ram_length(struct random *r, size_t own)
{
    static const size_t good[] = {4, 8, 2097148, 2097152};

    if (chance(r, 80))
        return own;
    return chance(r, 50) ? bad_ram_length(r) : chance(r, 50) ? PICK(r, good) : 4 * (1 + below(r, 524288));
}

static size_t window_pad_length(struct random *r, size_t own)
{
    return chance(r, 85) ? own : chance(r, 70) ? bad_pad_length(r) : MODEL_PAD_BYTES;
}

/* Near an end of a memory or of a segment, inside a memory, past RAM's end by a multiple of its length, or anywhere. */
static uint32_t window_address(struct random *r, uint32_t ram_length)
{
    uint32_t base = chance(r, 85) ? PICK(r, segments) : below(r, 8) << 29;
    uint32_t around = below(r, 9) - 4; /* below 0 for the segment before */

    switch (below(r, 12)) {
    case 0: return base + around;
    case 1: case 2: return base + ram_length + around;
    case 3: return base + ram_length * below(r, 16) + below(r, ram_length + 4);
    case 4: return random_word(r);
    case 5: return base + PAD + around;
    case 6: return base + PAD_END + around;
    case 7: return base + PAD + below(r, MODEL_PAD_BYTES);
    case 8: return base + (chance(r, 30) ? PAD : PAD + 4 * below(r, 256));
    default: return base + below(r, ram_length + 4);
    }
}

/* Around what is left of the memory after the address, small, or with more than 32 bits. */
static uint64_t window_length(struct random *r, const struct window *w)
{
    static const uint64_t lengths[] = {0, 0, 0, 1, 2, 3, 4, 1024, 1025, 2097152, 2097153, 0x1FFFFFFF, 0x20000000, 0x80000000,
                                       0xFFFFFFFF, 0x100000000, 0x100000001, 0x7FFFFFFFFFFFFFFF, 0x8000000000000000,
                                       0x8000000000000001, UINT64_MAX - 1, UINT64_MAX};
    uint32_t place = w->address & 0x1FFFFFFF;
    bool near_pad = place >= PAD - 16;
    uint64_t left = (near_pad ? PAD_END : (uint64_t)w->ram_length) - place;

    switch (below(r, 6)) {
    case 0: return PICK(r, lengths);
    case 1: case 2: return left + below(r, 3) - 1;
    case 3: return left + ((uint64_t)random_word(r) << 32); /* fits in its low 32 bits alone */
    default: return below(r, (near_pad ? MODEL_PAD_BYTES : (uint32_t)w->ram_length) + 2);
    }
}

static void random_windows(struct random *r, struct test_case *c)
{
    struct window *w;

    for (w = c->windows; w < c->windows + CASE_WINDOWS; w++) {
        w->ram_length = window_ram_length(r, c->ram_length);
        w->pad_length = window_pad_length(r, c->pad_length);
        w->address = window_address(r, (uint32_t)w->ram_length);
        w->length = window_length(r, w);
    }
}

/* ---- Questions for causes ------------------------------------------------------- */

#define NO_SPACE (-QUESTION_CAPACITY) /* more than any rows need */

static void random_questions(struct random *r, struct test_case *c)
{
    struct question *q;

    for (q = c->questions; q < c->questions + CASE_QUESTIONS; q++) {
        q->command = random_word(r);
        if (chance(r, 92))
            q->command = (q->command & ~0x3Fu) | PICK(r, listed_commands);
        switch (below(r, 8)) {
        case 0: case 1: q->spare = 0; break;
        case 2: q->spare = 1 + (int32_t)below(r, 20); break;
        case 3: q->spare = NO_SPACE; break;
        default: q->spare = -1 - (int32_t)below(r, 5); break;
        }
    }
}

size_t question_space(const struct question *q, size_t needed)
{
    int64_t space = (int64_t)needed + q->spare;

    if (needed == 0) /* no row, or a refusal: it cannot be too few, so let it be some */
        return (size_t)(q->spare < 0 ? -q->spare : q->spare);
    return space < 0 ? 0 : (size_t)space;
}

/* ---- Saved machines -------------------------------------------------------------- */

#define BLOCK 32768
#define MOST_BLOCKS 65 /* one more than RAM can have */
#define MOST_FIELDS (MOST_BLOCKS + 8)
#define SMALL_FILE_RAM 4096 /* RAM up to this length is any case's */

/* A file as its fields, before it is written. */
struct field {
    uint32_t tag, told; /* the tag and the length of the head */
    const uint8_t *content;
    size_t length; /* of the content */
};

struct fields {
    struct field field[MOST_FIELDS];
    size_t start[MOST_FIELDS]; /* where each was written */
    unsigned count;
};

static uint8_t file_room[CASE_FILE_CAPACITY], long_ram[MOST_BLOCKS * BLOCK], filler[2 * BLOCK];
static size_t file_room_used;

static void random_bytes(struct random *r, uint8_t *bytes, size_t length)
{
    size_t i;

    for (i = 0; i < length; i += 4)
        put_word(bytes + i, random_word(r));
}

/* Around the ends of blocks; seldom the greatest. */
static size_t long_ram_length(struct random *r)
{
    static const size_t lengths[] = {BLOCK - 4, BLOCK, BLOCK + 4, BLOCK + 4, 2 * BLOCK - 4, 2 * BLOCK, 2 * BLOCK + 4, 3 * BLOCK};
    static const size_t great[] = {MODEL_RAM_MAXIMUM, MODEL_RAM_MAXIMUM, MODEL_RAM_MAXIMUM - 4, 63 * BLOCK, 63 * BLOCK + 4};

    return chance(r, 3) ? PICK(r, great) : chance(r, 80) ? PICK(r, lengths) : BLOCK + 4 * below(r, BLOCK / 2);
}

static size_t saved_bytes(size_t ram_length)
{
    return 1468 + ram_length + 3 * ((ram_length + BLOCK - 1) / BLOCK);
}

/* Just enough, more, a byte or some too few, or none. */
static size_t random_space(struct random *r, size_t needed)
{
    size_t space = needed;

    switch (below(r, 10)) {
    case 0: case 1: case 2: case 3: break;
    case 4: case 5: space += 1 + below(r, 200); break;
    case 6: space -= 1; break;
    case 7: space -= 1 + below(r, 40); break;
    case 8: space = below(r, (uint32_t)needed); break;
    default: space = 0; break;
    }
    return space < CASE_FILE_CAPACITY ? space : CASE_FILE_CAPACITY;
}

static void add_field(struct fields *f, uint32_t tag, const uint8_t *content, size_t length)
{
    f->field[f->count++] = (struct field){tag, (uint32_t)length, content, length};
}

static void add_blocks(struct fields *f, const uint8_t *ram, size_t ram_length)
{
    size_t place;

    for (place = 0; place < ram_length; place += BLOCK)
        add_field(f, 3, ram + place, ram_length - place < BLOCK ? ram_length - place : BLOCK);
}

/* Blocks of which one may be empty, too long, or stand behind a short one. Answers their total. */
static size_t add_odd_blocks(struct random *r, struct fields *f)
{
    static const size_t lengths[] = {BLOCK, BLOCK, 0, BLOCK - 1, BLOCK + 1, BLOCK + 0x80, 0x8100, 0xFF00, 0xFFFF};
    uint32_t blocks = below(r, 4), i;
    bool small = chance(r, 60);
    size_t total = 0;

    for (i = 0; i < blocks; i++) {
        size_t length = small || chance(r, 30) ? (chance(r, 20) ? 0 : 1 + below(r, 40)) : PICK(r, lengths);

        add_field(f, 3, filler + below(r, (uint32_t)(sizeof filler - length)), length);
        total += length;
    }
    return total;
}

/* One field is missing, is there twice, changes places with the next, or has another tag or length with the content to it. */
static void spoil_fields(struct random *r, struct fields *f)
{
    uint32_t at = below(r, f->count), i;
    struct field moved = f->field[at];

    switch (below(r, 4)) {
    case 0:
        f->count--;
        for (i = at; i < f->count; i++)
            f->field[i] = f->field[i + 1];
        break;
    case 1:
        for (i = f->count++; i > at; i--)
            f->field[i] = f->field[i - 1];
        break;
    case 2:
        if (at + 1 < f->count) {
            f->field[at] = f->field[at + 1];
            f->field[at + 1] = moved;
        }
        break;
    default:
        f->field[at].tag = chance(r, 50) ? moved.tag : below(r, 6);
        f->field[at].content = filler;
        f->field[at].length = chance(r, 50) ? moved.length ^ 1u << below(r, 11) : below(r, 2000);
        f->field[at].told = (uint32_t)f->field[at].length;
        break;
    }
}

static void write_byte(uint32_t byte)
{
    file_room[file_room_used++] = (uint8_t)byte;
}

static void write_fields(struct fields *f)
{
    unsigned i;

    file_room_used = 0;
    for (i = 0; i < f->count; i++) {
        const struct field *field = &f->field[i];

        f->start[i] = file_room_used;
        write_byte(field->tag);
        write_byte(field->told);
        write_byte(field->told >> 8);
        if (field->length > 0)
            memcpy(file_room + file_room_used, field->content, field->length);
        file_room_used += field->length;
    }
}

/* A byte of a head: any, or near the one that is there. */
static void change_head(struct random *r, const struct fields *f)
{
    static const uint8_t values[] = {0, 1, 2, 3, 4, 5, 0x7F, 0x80, 0x81, 0xFF};
    uint8_t *byte = file_room + f->start[below(r, f->count)] + below(r, 3);

    switch (below(r, 4)) {
    case 0: *byte ^= (uint8_t)(1u << below(r, 8)); break;
    case 1: *byte = (uint8_t)(*byte + (chance(r, 50) ? 1 : 0xFF)); break;
    case 2: *byte = PICK(r, values); break;
    default: *byte = (uint8_t)random_word(r); break;
    }
}

/* In a head or at its ends more often than anywhere. */
static void cut_file(struct random *r, const struct fields *f)
{
    size_t place = f->start[below(r, f->count)] + below(r, 4);

    if (chance(r, 30))
        place = below(r, (uint32_t)file_room_used);
    if (place < file_room_used)
        file_room_used = place;
}

static void lengthen_file(struct random *r)
{
    uint32_t bytes = 1 + below(r, 4), zeros = below(r, 2), i;

    for (i = 0; i < bytes; i++)
        write_byte(zeros ? 0 : random_word(r));
}

/* Bits anywhere, mostly in contents. */
static void damage_file(struct random *r)
{
    uint32_t bits = 1 + below(r, 3), i;

    for (i = 0; i < bits && file_room_used > 0; i++)
        file_room[below(r, (uint32_t)file_room_used)] ^= (uint8_t)(1u << below(r, 8));
}

/* Of long RAM fewer whole files, since it is seldom. */
static const char *random_file(struct random *r, struct fields *f, bool is_long)
{
    uint32_t choice = below(r, is_long ? 85 : 100);

    if (choice < 12) {
        spoil_fields(r, f);
        write_fields(f);
        return "fields that are odd";
    }
    write_fields(f);
    if (choice < 34) {
        change_head(r, f);
        return "a head with another byte";
    }
    if (choice < 48) {
        cut_file(r, f);
        return "a cut file";
    }
    if (choice < 54) {
        lengthen_file(r);
        return "a file with bytes behind it";
    }
    if (choice < 60) {
        damage_file(r);
        return "a damaged file";
    }
    if (choice < 62) {
        change_head(r, f);
        cut_file(r, f);
        return "a cut file with another byte in a head";
    }
    if (choice < 64) {
        file_room_used = below(r, 500);
        random_bytes(r, file_room, file_room_used);
        if (chance(r, 50))
            file_room[0] = 1;
        return "random bytes";
    }
    return "a whole file";
}

/* What is lent to the load: mostly what the file needs. */
static void random_lent(struct random *r, struct saved_case *s, size_t total)
{
    static const size_t lengths[] = {0, 1, 4, 428, 431, 433, 436, 448, 452, 863, 864};
    size_t whole = (total + 3) / 4 * 4;

    s->lent_image_length = chance(r, 5) ? PICK(r, lengths) : 432;
    s->lent_pad_length = chance(r, 5) ? bad_pad_length(r) : MODEL_PAD_BYTES;
    s->lent_ram_length = total;
    if (total == 0 || (total % 4 != 0 && chance(r, 70)))
        s->lent_ram_length = whole <= 4 || chance(r, 50) ? whole + 4 * (total == 0) : whole - 4;
    else if (chance(r, 4))
        s->lent_ram_length = bad_ram_length(r);
    else if (chance(r, 10))
        s->lent_ram_length = chance(r, 40) ? whole + 4 : whole > 4 && chance(r, 50) ? whole - 4 : 4 * (1 + below(r, 64));
    else if (total > MODEL_RAM_MAXIMUM && chance(r, 80))
        s->lent_ram_length = chance(r, 50) ? MODEL_RAM_MAXIMUM : 4;
}

/* The machine of the file: the case's image, well formed or not, the RAM to be saved or as much of it as there is, and the pad. */
static size_t make_file(struct random *r, struct saved_case *s, const struct test_case *c)
{
    static uint8_t image[MODEL_IMAGE_BYTES];
    struct fields f = {.count = 0};
    size_t total = s->ram_length;
    uint32_t word[108], i;

    if (total == 0 || (s->ram == c->ram && total > MODEL_RAM_MAXIMUM))
        total = 4;
    if (total <= SMALL_FILE_RAM && chance(r, 6))
        total = 1 + below(r, (uint32_t)total);
    for (i = 0; i < 108; i++)
        word[i] = get_word(c->image + 4 * i);
    if (chance(r, 12))
        spoil(r, word);
    for (i = 0; i < 108; i++)
        put_word(image + 4 * i, word[i]);
    add_field(&f, 1, image, 176);
    add_field(&f, 2, image + 176, 256);
    if (total <= SMALL_FILE_RAM && chance(r, 10))
        total = add_odd_blocks(r, &f);
    else if (total > MODEL_RAM_MAXIMUM - BLOCK && s->ram == long_ram && chance(r, 60))
        add_blocks(&f, long_ram, total = MOST_BLOCKS * BLOCK - (chance(r, 50) ? 0 : BLOCK - 4)); /* more than can be lent */
    else
        add_blocks(&f, s->ram, total);
    add_field(&f, 4, c->pad, MODEL_PAD_BYTES);
    add_field(&f, 0, NULL, 0);
    s->kind = random_file(r, &f, s->ram == long_ram);
    s->file = file_room;
    s->file_length = file_room_used;
    return total;
}

void generate_saved(struct saved_case *s, const struct test_case *c, unsigned number)
{
    struct random random, *r = &random;

    if (filler[0] == 0) { /* the same for every case */
        seed_random(r, 0, 0);
        random_bytes(r, filler, sizeof filler);
        filler[0] = 1;
    }
    seed_random(r, c->saved_seeds[number], number);
    s->ram = c->ram;
    s->ram_length = c->ram_length;
    if (chance(r, 3)) {
        s->ram = long_ram;
        s->ram_length = long_ram_length(r);
        random_bytes(r, long_ram, s->ram_length > MODEL_RAM_MAXIMUM - BLOCK ? sizeof long_ram : s->ram_length);
    }
    s->space_length = random_space(r, saved_bytes(s->ram_length));
    random_lent(r, s, make_file(r, s, c));
}

/* ---- Draw lists ------------------------------------------------------------------ */

static uint32_t list_room[CASE_LIST_CAPACITY];
static size_t list_room_used;

static bool known_byte(uint32_t byte)
{
    return byte == MODEL_POLYLINE || model_packet_words(byte << 24) != 0;
}

static uint32_t random_known_byte(struct random *r)
{
    static uint8_t known[256];
    static uint32_t count;
    uint32_t byte;

    if (count == 0)
        for (byte = 0; byte < 256; byte++)
            if (known_byte(byte))
                known[count++] = (uint8_t)byte;
    return known[below(r, count)];
}

/* Often a bit away from one that is known. */
static uint32_t random_unknown_byte(struct random *r)
{
    uint32_t byte;

    do
        byte = chance(r, 30) ? random_known_byte(r) ^ 1u << below(r, 8) : below(r, 256);
    while (known_byte(byte));
    return byte;
}

static uint32_t first_word(struct random *r, uint32_t byte)
{
    return byte << 24 | (random_word(r) & 0xFFFFFF);
}

/* Any word; more often than by chance one that ends a polyline, that nearly does, or that could begin a packet. */
static uint32_t random_datum(struct random *r)
{
    switch (below(r, 16)) {
    case 0: return MODEL_POLYLINE_END;
    case 1: return MODEL_POLYLINE_END ^ 1u << below(r, 32);
    case 2: return 0x50005000 | (random_word(r) & 0x0FFF0FFF);
    case 3: case 4: return first_word(r, random_known_byte(r));
    default: return random_word(r);
    }
}

static void add_word(uint32_t word)
{
    list_room[list_room_used++] = word;
}

static void add_points(struct random *r, uint32_t points)
{
    while (points-- > 0) {
        uint32_t word = random_datum(r);

        add_word(word == MODEL_POLYLINE_END ? 0 : word);
    }
}

static void add_polyline(struct random *r, uint32_t points)
{
    add_word(first_word(r, MODEL_POLYLINE));
    add_points(r, points);
    add_word(MODEL_POLYLINE_END);
}

/* From one of two words to some hundred. */
static void add_packet(struct random *r)
{
    uint32_t byte = chance(r, 12) ? MODEL_POLYLINE : random_known_byte(r), words;

    if (byte == MODEL_POLYLINE) {
        add_polyline(r, 2 + (chance(r, 90) ? below(r, 5) : chance(r, 95) ? below(r, 40) : 250 + below(r, 10)));
        return;
    }
    add_word(first_word(r, byte));
    for (words = model_packet_words(byte << 24); words > 1; words--)
        add_word(random_datum(r));
}

static void add_packets(struct random *r)
{
    size_t wanted = list_room_used + below(r, chance(r, 45) ? 12 : chance(r, 70) ? 60 : chance(r, 95) ? 150 : 600);

    while (list_room_used < wanted)
        add_packet(r);
}

/* In the last packet, mostly, or anywhere. */
static void cut_list(struct random *r)
{
    uint32_t used = (uint32_t)list_room_used;

    list_room_used = used > 12 && chance(r, 50) ? used - 1 - below(r, 12) : below(r, used + 1);
}

/* Words that need not be packets at all. */
static void add_any_words(struct random *r)
{
    uint32_t words = below(r, 30);

    if (chance(r, 50))
        add_packet(r);
    while (words-- > 0)
        add_word(random_datum(r));
}

static const char *random_list(struct random *r)
{
    uint32_t choice = below(r, 100);

    if (choice < 2)
        return "an empty list";
    if (choice < 9) {
        add_any_words(r);
        return "any words";
    }
    add_packets(r);
    if (choice < 28) {
        cut_list(r);
        return "a cut list";
    }
    if (choice < 36) {
        add_word(first_word(r, MODEL_POLYLINE));
        add_points(r, below(r, 6));
        return "a polyline without an end";
    }
    if (choice < 48) {
        add_polyline(r, below(r, 2));
        add_packets(r);
        return "a polyline of too few points";
    }
    if (choice < 66) {
        add_word(chance(r, 5) ? MODEL_POLYLINE_END : first_word(r, random_unknown_byte(r)));
        add_packets(r);
        return "an unknown byte";
    }
    return "whole packets";
}

void generate_list(struct draw_list *l, const struct test_case *c, unsigned number)
{
    struct random random, *r = &random;

    seed_random(r, c->list_seeds[number], number);
    list_room_used = 0;
    l->kind = random_list(r);
    l->words = list_room;
    l->length = list_room_used;
    l->at_beginning = chance(r, 25);
}

void generate_case(struct test_case *c, uint64_t seed, uint64_t number)
{
    struct random random, *r = &random;
    uint32_t choice, i;

    seed_random(r, seed, number);
    c->expected = EXPECT_RUN;
    random_pad(r, c);
    choice = below(r, 10000);
    if (choice < 4000)
        step_case(r, c);
    else if (choice < 6200)
        command_case(r, c);
    else if (choice < 8600)
        small_program_case(r, c);
    else if (choice < 9990)
        refused_case(r, c);
    else
        large_case(r, c);
    c->placement = next(r);
    c->mask = random_mask(r);
    c->search_count = random_search_count(r, c->count);
    random_windows(r, c);
    random_questions(r, c);
    for (i = 0; i < CASE_SAVED; i++)
        c->saved_seeds[i] = next(r);
    for (i = 0; i < CASE_LISTS; i++)
        c->list_seeds[i] = next(r);
}
