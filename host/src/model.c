/*
 * The model, in the order of paper 01: image, run, addresses, COP2 registers,
 * GTE arithmetic, GTE commands, one step. "01" and "001" in comments are the
 * papers; a section's name follows.
 */
#include "model.h"

/* ---- Bytes and words ---------------------------------------------------- */

static uint32_t read_word(const uint8_t *bytes)
{
    return (uint32_t)bytes[0] | (uint32_t)bytes[1] << 8 | (uint32_t)bytes[2] << 16 | (uint32_t)bytes[3] << 24;
}

static void write_word(uint8_t *bytes, uint32_t word)
{
    bytes[0] = (uint8_t)word;
    bytes[1] = (uint8_t)(word >> 8);
    bytes[2] = (uint8_t)(word >> 16);
    bytes[3] = (uint8_t)(word >> 24);
}

static int32_t signed_word(uint32_t word)
{
    return (int32_t)word;
}

static int32_t signed_half(uint32_t word)
{
    return (int16_t)(uint16_t)word;
}

static uint32_t sign_extend_half(uint32_t word)
{
    return (uint32_t)signed_half(word);
}

static uint32_t sign_extend_byte(uint32_t word)
{
    return (uint32_t)(int32_t)(int8_t)(uint8_t)word;
}

/* Division by 2^bits that rounds down (01, GTE arithmetic). */
static int64_t floor_shift(int64_t value, int bits)
{
    return value >> bits; /* gcc shifts signed values arithmetically */
}

/* ---- COP2 registers (01, COP2 registers; names of 001) ------------------- */

enum {
    VXY0 = 0,
    RGBC = 6,
    OTZ = 7,
    IR0 = 8,
    IR1 = 9,
    IR2 = 10,
    IR3 = 11,
    SXY0 = 12,
    SXY1 = 13,
    SXY2 = 14,
    SXYP = 15,
    SZ0 = 16,
    SZ1 = 17,
    SZ2 = 18,
    SZ3 = 19,
    RGB0 = 20,
    RGB1 = 21,
    RGB2 = 22,
    MAC0 = 24,
    IRGB = 28,
    ORGB = 29,
    LZCS = 30,
    LZCR = 31,
    RT = 32, /* rotation matrix, five registers */
    TR = 37, /* translation vector, three registers */
    LLM = 40, /* light matrix */
    BK = 45, /* background colour */
    LCM = 48, /* light colour matrix */
    FC = 53, /* far colour */
    OFX = 56,
    OFY = 57,
    H = 58,
    DQA = 59,
    DQB = 60,
    ZSF3 = 61,
    ZSF4 = 62,
    FLAG = 63
};

/* A value limited to lowest..highest; *outside says whether it had to be. */
static int64_t limit(int64_t value, int64_t lowest, int64_t highest, bool *outside)
{
    *outside = value < lowest || value > highest;
    if (value < lowest)
        return lowest;
    if (value > highest)
        return highest;
    return value;
}

/* One five-bit field of 28 and 29. */
static uint32_t colour_field(uint32_t ir)
{
    bool outside;

    return (uint32_t)limit(floor_shift(signed_half(ir), 7), 0, 31, &outside);
}

/* The count of leading bits equal to the sign, 1..32. */
static uint32_t leading_bits(uint32_t word)
{
    uint32_t count = 1;

    while (count < 32 && (word >> (31 - count) & 1) == word >> 31)
        count++;
    return count;
}

/* Bits 30..12 as given, with bit 31 the OR of 30..23 and 18..13. Bit 22 and bits 21..19, 12 are no errors. */
static uint32_t flag_word(uint32_t flag)
{
    flag &= 0x7FFFF000;
    if (flag & 0x7F87E000)
        flag |= 0x80000000;
    return flag;
}

uint32_t model_cop2_read(const struct model *machine, unsigned number)
{
    const uint32_t *r = machine->cop2;

    switch (number) {
    case SXYP:
        return r[SXY2];
    case IRGB:
    case ORGB:
        return colour_field(r[IR1]) | colour_field(r[IR2]) << 5 | colour_field(r[IR3]) << 10;
    case LZCR:
        return leading_bits(r[LZCS]);
    default:
        return r[number];
    }
}

void model_cop2_write(struct model *machine, unsigned number, uint32_t word)
{
    uint32_t *r = machine->cop2;

    switch (number) {
    case 1: case 3: case 5: /* VZ0, VZ1, VZ2 */
    case IR0: case IR1: case IR2: case IR3:
    case 36: case 44: case 52: /* RT33, L33, LB3 */
    case H: case DQA: case ZSF3: case ZSF4:
        r[number] = sign_extend_half(word);
        break;
    case SZ0: case SZ1: case SZ2: case SZ3:
        r[number] = word & 0xFFFF;
        break;
    case SXYP:
        r[SXY0] = r[SXY1];
        r[SXY1] = r[SXY2];
        r[SXY2] = word;
        break;
    case IRGB:
        r[IR1] = (word & 31) * 0x80;
        r[IR2] = (word >> 5 & 31) * 0x80;
        r[IR3] = (word >> 10 & 31) * 0x80;
        break;
    case OTZ: case ORGB: case LZCR:
        break;
    case FLAG:
        r[FLAG] = flag_word(word);
        break;
    default:
        r[number] = word;
        break;
    }
}

/* ---- The image (01, The machine image) ----------------------------------- */

#define SR_MASK 0xF24FFF3Fu
#define CAUSE_MASK 0xB000037Cu

/* Whether a read of this register could return the word, the other registers being as stored. */
static bool cop2_word_well_formed(const struct model *machine, unsigned number, uint32_t word)
{
    switch (number) {
    case 1: case 3: case 5:
    case IR0: case IR1: case IR2: case IR3:
    case 36: case 44: case 52:
    case H: case DQA: case ZSF3: case ZSF4:
        return word == sign_extend_half(word);
    case OTZ: case SZ0: case SZ1: case SZ2: case SZ3:
        return word <= 0xFFFF;
    case FLAG:
        return word == flag_word(word);
    default:
        return word == model_cop2_read(machine, number);
    }
}

bool model_load(struct model *machine, const uint8_t image[MODEL_IMAGE_BYTES])
{
    uint32_t word[MODEL_IMAGE_WORDS];
    unsigned i;

    for (i = 0; i < MODEL_IMAGE_WORDS; i++)
        word[i] = read_word(image + 4 * i);
    for (i = 0; i < 32; i++)
        machine->general[i] = word[i];
    machine->hi = word[32];
    machine->lo = word[33];
    machine->pc = word[34];
    machine->next_pc = word[35];
    machine->load_register = word[36];
    machine->load_value = word[37];
    machine->delay_slot = word[38];
    machine->sr = word[39];
    machine->cause = word[40];
    machine->epc = word[41];
    machine->badv = word[42];
    for (i = 0; i < 64; i++)
        machine->cop2[i] = word[44 + i];

    if (word[0] != 0 || word[36] > 31 || (word[36] == 0 && word[37] != 0) || word[38] > 1 || word[43] != 0)
        return false;
    if ((word[39] & ~SR_MASK) != 0 || (word[40] & ~CAUSE_MASK) != 0)
        return false;
    for (i = 0; i < 64; i++)
        if (!cop2_word_well_formed(machine, i, word[44 + i]))
            return false;
    return true;
}

void model_store(const struct model *machine, uint8_t image[MODEL_IMAGE_BYTES])
{
    unsigned i;

    for (i = 0; i < 32; i++)
        write_word(image + 4 * i, machine->general[i]);
    write_word(image + 4 * 32, machine->hi);
    write_word(image + 4 * 33, machine->lo);
    write_word(image + 4 * 34, machine->pc);
    write_word(image + 4 * 35, machine->next_pc);
    write_word(image + 4 * 36, machine->load_register);
    write_word(image + 4 * 37, machine->load_value);
    write_word(image + 4 * 38, machine->delay_slot);
    write_word(image + 4 * 39, machine->sr);
    write_word(image + 4 * 40, machine->cause);
    write_word(image + 4 * 41, machine->epc);
    write_word(image + 4 * 42, machine->badv);
    write_word(image + 4 * 43, 0);
    for (i = 0; i < 64; i++)
        write_word(image + 4 * (44 + i), model_cop2_read(machine, i));
}

/* ---- GTE arithmetic (01, GTE arithmetic) --------------------------------- */

/*
 * One command under way. Every exact value fits in 64 bits: the largest is a
 * sum of 2^43 and three products of 2^30.
 */
struct command {
    uint32_t *r; /* the 64 registers as stored */
    int shift; /* 12 * sf */
    bool lm;
    uint32_t flag; /* bits 30..12; cleared as the command begins */
};

struct vector {
    int32_t x, y, z;
};

/* Three rows of three. */
struct matrix {
    int32_t element[3][3];
};

static void raise_flag(struct command *c, int bit, bool condition)
{
    if (condition)
        c->flag |= 1u << bit;
}

/* An exact value for MAC1..3: sets 30..28 or 27..25 when it leaves 44 bits, and wraps to 44 bits. */
static int64_t test_mac(struct command *c, int n, int64_t exact)
{
    raise_flag(c, 31 - n, exact > ((int64_t)1 << 43) - 1);
    raise_flag(c, 28 - n, exact < -((int64_t)1 << 43));
    return floor_shift((int64_t)((uint64_t)exact << 20), 20);
}

/* The wrapped value, shifted right by 12 * sf; its low 32 bits are stored. */
static void store_mac(struct command *c, int n, int64_t wrapped)
{
    c->r[MAC0 + n] = (uint32_t)floor_shift(wrapped, c->shift);
}

static void set_mac(struct command *c, int n, int64_t exact)
{
    store_mac(c, n, test_mac(c, n, exact));
}

/* MAC0: sets 16 or 15 outside 32 signed bits. Later limits act on the exact value, so that is answered. */
static int64_t set_mac0(struct command *c, int64_t exact)
{
    raise_flag(c, 16, exact > INT32_MAX);
    raise_flag(c, 15, exact < INT32_MIN);
    c->r[MAC0] = (uint32_t)exact;
    return exact;
}

/* IR1..3 come from the stored MAC: bits 24, 23, 22. */
static void set_ir(struct command *c, int n, bool lm)
{
    bool outside;

    c->r[IR0 + n] = (uint32_t)limit(signed_word(c->r[MAC0 + n]), lm ? 0 : -0x8000, 0x7FFF, &outside);
    raise_flag(c, 25 - n, outside);
}

static void set_all_ir(struct command *c, bool lm)
{
    set_ir(c, 1, lm);
    set_ir(c, 2, lm);
    set_ir(c, 3, lm);
}

/* A colour is the stored MAC/16, rounded down, limited to a byte: bits 21, 20, 19. */
static uint32_t colour_byte(struct command *c, int n)
{
    bool outside;
    uint32_t byte = (uint32_t)limit(floor_shift(signed_word(c->r[MAC0 + n]), 4), 0, 0xFF, &outside);

    raise_flag(c, 22 - n, outside);
    return byte;
}

/* Color FIFO = [MAC1/16, MAC2/16, MAC3/16, CODE]; the older entries move down. */
static void push_colour(struct command *c)
{
    uint32_t colour = colour_byte(c, 1) | colour_byte(c, 2) << 8 | colour_byte(c, 3) << 16;

    c->r[RGB0] = c->r[RGB1];
    c->r[RGB1] = c->r[RGB2];
    c->r[RGB2] = colour | (c->r[RGBC] & 0xFF000000);
}

static struct matrix read_matrix(const struct command *c, int first)
{
    const uint32_t *r = c->r + first;
    struct matrix m = {{
        {signed_half(r[0]), signed_half(r[0] >> 16), signed_half(r[1])},
        {signed_half(r[1] >> 16), signed_half(r[2]), signed_half(r[2] >> 16)},
        {signed_half(r[3]), signed_half(r[3] >> 16), signed_half(r[4])},
    }};

    return m;
}

/* V0, V1 or V2. */
static struct vector read_vertex(const struct command *c, int number)
{
    const uint32_t *r = c->r + VXY0 + 2 * number;
    struct vector v = {signed_half(r[0]), signed_half(r[0] >> 16), signed_half(r[1])};

    return v;
}

static struct vector read_ir(const struct command *c)
{
    struct vector v = {signed_half(c->r[IR1]), signed_half(c->r[IR2]), signed_half(c->r[IR3])};

    return v;
}

/* Three whole registers: TR, BK or FC. */
static struct vector read_words(const struct command *c, int first)
{
    struct vector v = {signed_word(c->r[first]), signed_word(c->r[first + 1]), signed_word(c->r[first + 2])};

    return v;
}

static int64_t component(const struct vector *v, int n)
{
    return n == 1 ? v->x : n == 2 ? v->y : v->z;
}

/* T*1000h + M*V for row n = 1..3, exact. */
static int64_t row_sum(const struct vector *t, const struct matrix *m, const struct vector *v, int n)
{
    const int32_t *row = m->element[n - 1];

    return component(t, n) * 0x1000 + (int64_t)row[0] * v->x + (int64_t)row[1] * v->y + (int64_t)row[2] * v->z;
}

/* [MAC] = (T*1000h + M*V) SAR (sf*12), [IR] = [MAC]; whole sums are tested, once. */
static void multiply_add(struct command *c, struct vector t, struct matrix m, struct vector v)
{
    int n;

    for (n = 1; n <= 3; n++)
        set_mac(c, n, row_sum(&t, &m, &v, n));
    set_all_ir(c, c->lm);
}

/* ---- GTE commands (001, in its order) ------------------------------------ */

/* 001, "GTE Division Inaccuracy": the table as it is printed there. */
static const uint8_t first_guess[0x101] = {
    0xFF, 0xFD, 0xFB, 0xF9, 0xF7, 0xF5, 0xF3, 0xF1, 0xEF, 0xEE, 0xEC, 0xEA, 0xE8, 0xE6, 0xE4, 0xE3,
    0xE1, 0xDF, 0xDD, 0xDC, 0xDA, 0xD8, 0xD6, 0xD5, 0xD3, 0xD1, 0xD0, 0xCE, 0xCD, 0xCB, 0xC9, 0xC8,
    0xC6, 0xC5, 0xC3, 0xC1, 0xC0, 0xBE, 0xBD, 0xBB, 0xBA, 0xB8, 0xB7, 0xB5, 0xB4, 0xB2, 0xB1, 0xB0,
    0xAE, 0xAD, 0xAB, 0xAA, 0xA9, 0xA7, 0xA6, 0xA4, 0xA3, 0xA2, 0xA0, 0x9F, 0x9E, 0x9C, 0x9B, 0x9A,
    0x99, 0x97, 0x96, 0x95, 0x94, 0x92, 0x91, 0x90, 0x8F, 0x8D, 0x8C, 0x8B, 0x8A, 0x89, 0x87, 0x86,
    0x85, 0x84, 0x83, 0x82, 0x81, 0x7F, 0x7E, 0x7D, 0x7C, 0x7B, 0x7A, 0x79, 0x78, 0x77, 0x75, 0x74,
    0x73, 0x72, 0x71, 0x70, 0x6F, 0x6E, 0x6D, 0x6C, 0x6B, 0x6A, 0x69, 0x68, 0x67, 0x66, 0x65, 0x64,
    0x63, 0x62, 0x61, 0x60, 0x5F, 0x5E, 0x5D, 0x5D, 0x5C, 0x5B, 0x5A, 0x59, 0x58, 0x57, 0x56, 0x55,
    0x54, 0x53, 0x53, 0x52, 0x51, 0x50, 0x4F, 0x4E, 0x4D, 0x4D, 0x4C, 0x4B, 0x4A, 0x49, 0x48, 0x48,
    0x47, 0x46, 0x45, 0x44, 0x43, 0x43, 0x42, 0x41, 0x40, 0x3F, 0x3F, 0x3E, 0x3D, 0x3C, 0x3C, 0x3B,
    0x3A, 0x39, 0x39, 0x38, 0x37, 0x36, 0x36, 0x35, 0x34, 0x33, 0x33, 0x32, 0x31, 0x31, 0x30, 0x2F,
    0x2E, 0x2E, 0x2D, 0x2C, 0x2C, 0x2B, 0x2A, 0x2A, 0x29, 0x28, 0x28, 0x27, 0x26, 0x26, 0x25, 0x24,
    0x24, 0x23, 0x22, 0x22, 0x21, 0x20, 0x20, 0x1F, 0x1E, 0x1E, 0x1D, 0x1D, 0x1C, 0x1B, 0x1B, 0x1A,
    0x19, 0x19, 0x18, 0x18, 0x17, 0x16, 0x16, 0x15, 0x15, 0x14, 0x14, 0x13, 0x12, 0x12, 0x11, 0x11,
    0x10, 0x0F, 0x0F, 0x0E, 0x0E, 0x0D, 0x0D, 0x0C, 0x0C, 0x0B, 0x0A, 0x0A, 0x09, 0x09, 0x08, 0x08,
    0x07, 0x07, 0x06, 0x06, 0x05, 0x05, 0x04, 0x04, 0x03, 0x03, 0x02, 0x02, 0x01, 0x01, 0x00, 0x00,
    0x00,
};

uint32_t model_quotient(uint32_t h, uint32_t sz3, bool *overflow)
{
    uint32_t n, d, u;
    uint64_t quotient;
    int z;

    *overflow = h >= 2 * sz3;
    if (*overflow)
        return 0x1FFFF;
    z = __builtin_clz(sz3) - 16;
    n = h << z;
    d = sz3 << z;
    u = first_guess[(d - 0x7FC0) >> 7] + 0x101;
    d = (0x2000080 - d * u) >> 8;
    d = (0x80 + d * u) >> 8;
    quotient = ((uint64_t)n * d + 0x8000) >> 16;
    return quotient < 0x1FFFF ? (uint32_t)quotient : 0x1FFFF;
}

/* One vertex of RTPS or RTPT. Both act as lm = 0. */
static void perspective(struct command *c, int vertex)
{
    struct vector t = read_words(c, TR);
    struct matrix m = read_matrix(c, RT);
    struct vector v = read_vertex(c, vertex);
    int64_t third, depth, exact;
    uint32_t quotient, sz3, sx, sy;
    bool outside;

    store_mac(c, 1, test_mac(c, 1, row_sum(&t, &m, &v, 1)));
    store_mac(c, 2, test_mac(c, 2, row_sum(&t, &m, &v, 2)));
    third = test_mac(c, 3, row_sum(&t, &m, &v, 3));
    store_mac(c, 3, third);
    set_ir(c, 1, false);
    set_ir(c, 2, false);

    /* The third sum shifted by 12 for either sf is the depth, and bit 22 tests it; IR3 is limited from MAC3. */
    depth = floor_shift(third, 12);
    c->r[IR3] = (uint32_t)limit(signed_word(c->r[MAC0 + 3]), -0x8000, 0x7FFF, &outside);
    raise_flag(c, 22, depth < -0x8000 || depth > 0x7FFF);

    sz3 = (uint32_t)limit(depth, 0, 0xFFFF, &outside);
    raise_flag(c, 18, outside);
    c->r[SZ0] = c->r[SZ1];
    c->r[SZ1] = c->r[SZ2];
    c->r[SZ2] = c->r[SZ3];
    c->r[SZ3] = sz3;

    /* H is unsigned here, though its register reads sign-extended. */
    quotient = model_quotient(c->r[H] & 0xFFFF, sz3, &outside);
    raise_flag(c, 17, outside);

    exact = set_mac0(c, (int64_t)quotient * signed_half(c->r[IR1]) + signed_word(c->r[OFX]));
    sx = (uint32_t)limit(floor_shift(exact, 16), -0x400, 0x3FF, &outside);
    raise_flag(c, 14, outside);
    exact = set_mac0(c, (int64_t)quotient * signed_half(c->r[IR2]) + signed_word(c->r[OFY]));
    sy = (uint32_t)limit(floor_shift(exact, 16), -0x400, 0x3FF, &outside);
    raise_flag(c, 13, outside);
    c->r[SXY0] = c->r[SXY1];
    c->r[SXY1] = c->r[SXY2];
    c->r[SXY2] = (sx & 0xFFFF) | sy << 16;

    exact = set_mac0(c, (int64_t)quotient * signed_half(c->r[DQA]) + signed_word(c->r[DQB]));
    c->r[IR0] = (uint32_t)limit(floor_shift(exact, 12), 0, 0x1000, &outside);
    raise_flag(c, 12, outside);
}

static void command_rtps(struct command *c)
{
    perspective(c, 0);
}

/* A triple ORs the flags of its three parts. */
static void command_rtpt(struct command *c)
{
    perspective(c, 0);
    perspective(c, 1);
    perspective(c, 2);
}

static void command_nclip(struct command *c)
{
    int64_t sx0 = signed_half(c->r[SXY0]), sy0 = signed_half(c->r[SXY0] >> 16);
    int64_t sx1 = signed_half(c->r[SXY1]), sy1 = signed_half(c->r[SXY1] >> 16);
    int64_t sx2 = signed_half(c->r[SXY2]), sy2 = signed_half(c->r[SXY2] >> 16);

    set_mac0(c, sx0 * sy1 + sx1 * sy2 + sx2 * sy0 - sx0 * sy2 - sx1 * sy0 - sx2 * sy1);
}

/* OTZ = MAC0/1000h, of the exact value, limited to 0..FFFFh. */
static void set_otz(struct command *c, int64_t exact)
{
    bool outside;

    c->r[OTZ] = (uint32_t)limit(floor_shift(exact, 12), 0, 0xFFFF, &outside);
    raise_flag(c, 18, outside);
}

static void command_avsz3(struct command *c)
{
    int64_t sum = (int64_t)c->r[SZ1] + c->r[SZ2] + c->r[SZ3];

    set_otz(c, set_mac0(c, signed_half(c->r[ZSF3]) * sum));
}

static void command_avsz4(struct command *c)
{
    int64_t sum = (int64_t)c->r[SZ0] + c->r[SZ1] + c->r[SZ2] + c->r[SZ3];

    set_otz(c, set_mac0(c, signed_half(c->r[ZSF4]) * sum));
}

static const struct vector no_vector = {0, 0, 0};

/* Matrix 3 of MVMVA: -60h, 60h, IR0, RT13 three times, RT22 three times. */
static struct matrix garbage_matrix(const struct command *c)
{
    struct matrix rotation = read_matrix(c, RT);
    int32_t ir0 = signed_half(c->r[IR0]);
    int32_t rt13 = rotation.element[0][2];
    int32_t rt22 = rotation.element[1][1];
    struct matrix m = {{{-0x60, 0x60, ir0}, {rt13, rt13, rt13}, {rt22, rt22, rt22}}};

    return m;
}

/* FC in MVMVA: bits 30..25 from the full sum; MAC, IR and 24..22 from the third product alone. */
static void multiply_add_far_colour(struct command *c, struct matrix m, struct vector v)
{
    struct vector t = read_words(c, FC);
    int n;

    for (n = 1; n <= 3; n++) {
        test_mac(c, n, row_sum(&t, &m, &v, n));
        store_mac(c, n, (int64_t)m.element[n - 1][2] * v.z);
    }
    set_all_ir(c, c->lm);
}

static void command_mvmva(struct command *c, uint32_t word)
{
    struct matrix m;
    struct vector v;

    switch (word >> 17 & 3) {
    case 0: m = read_matrix(c, RT); break;
    case 1: m = read_matrix(c, LLM); break;
    case 2: m = read_matrix(c, LCM); break;
    default: m = garbage_matrix(c); break;
    }
    switch (word >> 15 & 3) {
    case 0: v = read_vertex(c, 0); break;
    case 1: v = read_vertex(c, 1); break;
    case 2: v = read_vertex(c, 2); break;
    default: v = read_ir(c); break;
    }
    switch (word >> 13 & 3) {
    case 0: multiply_add(c, read_words(c, TR), m, v); break;
    case 1: multiply_add(c, read_words(c, BK), m, v); break;
    case 2: multiply_add_far_colour(c, m, v); break;
    default: multiply_add(c, no_vector, m, v); break;
    }
}

static void command_sqr(struct command *c)
{
    struct vector ir = read_ir(c);

    set_mac(c, 1, (int64_t)ir.x * ir.x);
    set_mac(c, 2, (int64_t)ir.y * ir.y);
    set_mac(c, 3, (int64_t)ir.z * ir.z);
    set_all_ir(c, c->lm);
}

/* D1, D2, D3 are RT11, RT22, RT33. */
static void command_op(struct command *c)
{
    struct matrix rotation = read_matrix(c, RT);
    struct vector ir = read_ir(c);
    int64_t d1 = rotation.element[0][0], d2 = rotation.element[1][1], d3 = rotation.element[2][2];

    set_mac(c, 1, ir.z * d2 - ir.y * d3);
    set_mac(c, 2, ir.x * d3 - ir.z * d1);
    set_mac(c, 3, ir.y * d1 - ir.x * d2);
    set_all_ir(c, c->lm);
}

/* [IR] = [MAC] = (LLM*V) SAR (sf*12) */
static void light(struct command *c, int vertex)
{
    multiply_add(c, no_vector, read_matrix(c, LLM), read_vertex(c, vertex));
}

/* [IR] = [MAC] = (BK*1000h + LCM*IR) SAR (sf*12) */
static void background_and_colour(struct command *c)
{
    multiply_add(c, read_words(c, BK), read_matrix(c, LCM), read_ir(c));
}

/* An unshifted MAC of a colour command, before the line that shifts it. It needs 29 bits at most. */
struct unshifted {
    int64_t mac[3];
};

/* [R*IR1, G*IR2, B*IR3] SHL 4, with R, G, B of RGBC. */
static struct unshifted primary_colour(const struct command *c)
{
    struct vector ir = read_ir(c);
    uint32_t rgbc = c->r[RGBC];
    struct unshifted u = {{
        (int64_t)(rgbc & 0xFF) * ir.x * 16,
        (int64_t)(rgbc >> 8 & 0xFF) * ir.y * 16,
        (int64_t)(rgbc >> 16 & 0xFF) * ir.z * 16,
    }};

    return u;
}

/* [R, G, B] SHL 16 */
static struct unshifted plain_colour(uint32_t rgb)
{
    struct unshifted u = {{
        (int64_t)(rgb & 0xFF) * 0x10000,
        (int64_t)(rgb >> 8 & 0xFF) * 0x10000,
        (int64_t)(rgb >> 16 & 0xFF) * 0x10000,
    }};

    return u;
}

/*
 * MAC+(FC-MAC)*IR0. (FC*1000h - MAC) is a tested MAC value, shifted, limited
 * as lm = 0 into IR, times IR0, plus the unshifted MAC.
 */
static struct unshifted interpolate(struct command *c, struct unshifted u)
{
    struct vector far = read_words(c, FC);
    int n;

    for (n = 1; n <= 3; n++) {
        set_mac(c, n, component(&far, n) * 0x1000 - u.mac[n - 1]);
        set_ir(c, n, false);
        u.mac[n - 1] += (int64_t)signed_half(c->r[IR0 + n]) * signed_half(c->r[IR0]);
    }
    return u;
}

/* [MAC] = [MAC] SAR (sf*12), Color FIFO = [MAC/16, CODE], [IR] = [MAC] */
static void finish_colour(struct command *c, struct unshifted u)
{
    set_mac(c, 1, u.mac[0]);
    set_mac(c, 2, u.mac[1]);
    set_mac(c, 3, u.mac[2]);
    push_colour(c);
    set_all_ir(c, c->lm);
}

static void normal_colour(struct command *c, int vertex)
{
    light(c, vertex);
    background_and_colour(c);
    push_colour(c);
}

static void normal_colour_colour(struct command *c, int vertex)
{
    light(c, vertex);
    background_and_colour(c);
    finish_colour(c, primary_colour(c));
}

static void normal_colour_depth_cue(struct command *c, int vertex)
{
    light(c, vertex);
    background_and_colour(c);
    finish_colour(c, interpolate(c, primary_colour(c)));
}

static void command_cc(struct command *c)
{
    background_and_colour(c);
    finish_colour(c, primary_colour(c));
}

static void command_cdp(struct command *c)
{
    background_and_colour(c);
    finish_colour(c, interpolate(c, primary_colour(c)));
}

static void command_dcpl(struct command *c)
{
    finish_colour(c, interpolate(c, primary_colour(c)));
}

static void command_dpcs(struct command *c)
{
    finish_colour(c, interpolate(c, plain_colour(c->r[RGBC])));
}

/* Each part reads the colour that is RGB0 by then, since each part moves the FIFO. */
static void command_dpct(struct command *c)
{
    int part;

    for (part = 0; part < 3; part++)
        finish_colour(c, interpolate(c, plain_colour(c->r[RGB0])));
}

/* [MAC] = [IR] SHL 12 */
static void command_intpl(struct command *c)
{
    struct vector ir = read_ir(c);
    struct unshifted u = {{(int64_t)ir.x * 0x1000, (int64_t)ir.y * 0x1000, (int64_t)ir.z * 0x1000}};

    finish_colour(c, interpolate(c, u));
}

/* [MAC] = ([IR]*IR0) SAR (sf*12) */
static void command_gpf(struct command *c)
{
    struct vector ir = read_ir(c);
    int64_t ir0 = signed_half(c->r[IR0]);
    struct unshifted u = {{ir.x * ir0, ir.y * ir0, ir.z * ir0}};

    finish_colour(c, u);
}

/* [MAC] = ([IR]*IR0 + ([MAC] SHL (sf*12))) SAR (sf*12); the sum is tested, not the shift before it. */
static void command_gpl(struct command *c)
{
    struct vector ir = read_ir(c);
    int64_t ir0 = signed_half(c->r[IR0]);
    int64_t scale = (int64_t)1 << c->shift;
    struct unshifted u = {{
        ir.x * ir0 + signed_word(c->r[MAC0 + 1]) * scale,
        ir.y * ir0 + signed_word(c->r[MAC0 + 2]) * scale,
        ir.z * ir0 + signed_word(c->r[MAC0 + 3]) * scale,
    }};

    finish_colour(c, u);
}

bool model_command(struct model *machine, uint32_t word)
{
    struct command command = {machine->cop2, (word >> 19 & 1) ? 12 : 0, (word >> 10 & 1) != 0, 0};
    struct command *c = &command;
    int part;

    switch (word & 0x3F) {
    case 0x01: command_rtps(c); break;
    case 0x06: command_nclip(c); break;
    case 0x0C: command_op(c); break;
    case 0x10: command_dpcs(c); break;
    case 0x11: command_intpl(c); break;
    case 0x12: command_mvmva(c, word); break;
    case 0x13: normal_colour_depth_cue(c, 0); break;
    case 0x14: command_cdp(c); break;
    case 0x16:
        for (part = 0; part < 3; part++)
            normal_colour_depth_cue(c, part);
        break;
    case 0x1B: normal_colour_colour(c, 0); break;
    case 0x1C: command_cc(c); break;
    case 0x1E: normal_colour(c, 0); break;
    case 0x20:
        for (part = 0; part < 3; part++)
            normal_colour(c, part);
        break;
    case 0x28: command_sqr(c); break;
    case 0x29: command_dcpl(c); break;
    case 0x2A: command_dpct(c); break;
    case 0x2D: command_avsz3(c); break;
    case 0x2E: command_avsz4(c); break;
    case 0x30: command_rtpt(c); break;
    case 0x3D: command_gpf(c); break;
    case 0x3E: command_gpl(c); break;
    case 0x3F:
        for (part = 0; part < 3; part++)
            normal_colour_colour(c, part);
        break;
    default: return false;
    }
    machine->cop2[FLAG] = flag_word(c->flag);
    return true;
}

/* ---- Addresses (01, Addresses) ------------------------------------------- */

#define SR_KUC 0x00000002u
#define SR_BEV 0x00400000u
#define SR_CU0 0x10000000u

static bool user_mode(const struct model *m)
{
    return (m->sr & SR_KUC) != 0;
}

/* Segments 000, 100 and 101 reach RAM. */
static bool translate(uint32_t virtual_address, size_t ram_length, uint32_t *physical_address)
{
    uint32_t segment = virtual_address >> 29;

    *physical_address = virtual_address & 0x1FFFFFFF;
    return (segment == 0 || segment == 4 || segment == 5) && *physical_address < ram_length;
}

/* 02, Ticket 1: segments 000 and 100 reach the scratch pad; *place is counted from its first byte. */
static bool translate_to_pad(uint32_t virtual_address, uint32_t *place)
{
    uint32_t segment = virtual_address >> 29, physical = virtual_address & 0x1FFFFFFF;

    *place = physical - 0x1F800000;
    return (segment == 0 || segment == 4) && physical >= 0x1F800000 && physical <= 0x1F8003FF;
}

/* The byte that a load or store reaches; a null pointer, a bus error, where there is none. */
static uint8_t *data_byte(const struct model_memory *memory, uint32_t address)
{
    uint32_t place;

    if (translate(address, memory->ram_length, &place))
        return memory->ram + place;
    if (translate_to_pad(address, &place))
        return memory->pad + place;
    return NULL;
}

/* An address error: not a multiple of the size, or bit 31 set in user mode. */
static bool address_error(const struct model *m, uint32_t address, uint32_t size)
{
    return (address & (size - 1)) != 0 || (user_mode(m) && address >> 31 != 0);
}

/* ---- Exceptions (01, One step; codes of 002) ------------------------------ */

static enum model_outcome take_exception(struct model *m, enum model_outcome code, uint32_t coprocessor)
{
    /* The waiting load lands. */
    if (m->load_register != 0)
        m->general[m->load_register] = m->load_value;
    m->load_register = 0;
    m->load_value = 0;

    m->epc = m->delay_slot ? m->pc - 4 : m->pc;
    m->cause = (m->cause & 0x300) | m->delay_slot << 31 | coprocessor << 28 | (uint32_t)code << 2;
    m->sr = (m->sr & ~0x3Fu) | (m->sr << 2 & 0x3F);
    m->pc = (m->sr & SR_BEV) ? 0xBFC00180 : 0x80000080;
    m->next_pc = m->pc + 4;
    m->delay_slot = 0;
    return code;
}

static enum model_outcome take_address_error(struct model *m, enum model_outcome code, uint32_t address)
{
    m->badv = address;
    return take_exception(m, code, 0);
}

/* ---- One step (01, One step; encodings of 000) ---------------------------- */

static uint32_t read_cop0(const struct model *m, uint32_t number)
{
    switch (number) {
    case 8: return m->badv;
    case 12: return m->sr;
    case 13: return m->cause;
    case 14: return m->epc;
    default: return 0;
    }
}

static void write_cop0(struct model *m, uint32_t number, uint32_t word)
{
    if (number == 12)
        m->sr = word & SR_MASK;
    else if (number == 13)
        m->cause = (m->cause & ~0x300u) | (word & 0x300);
}

static void multiply_signed(struct model *m, uint32_t a, uint32_t b)
{
    uint64_t product = (uint64_t)((int64_t)signed_word(a) * signed_word(b));

    m->hi = (uint32_t)(product >> 32);
    m->lo = (uint32_t)product;
}

static void multiply_unsigned(struct model *m, uint32_t a, uint32_t b)
{
    uint64_t product = (uint64_t)a * b;

    m->hi = (uint32_t)(product >> 32);
    m->lo = (uint32_t)product;
}

static void divide_signed(struct model *m, uint32_t a, uint32_t b)
{
    if (b == 0) {
        m->hi = a;
        m->lo = signed_word(a) >= 0 ? 0xFFFFFFFF : 1;
    } else if (a == 0x80000000 && b == 0xFFFFFFFF) {
        m->hi = 0;
        m->lo = 0x80000000;
    } else {
        m->hi = (uint32_t)(signed_word(a) % signed_word(b));
        m->lo = (uint32_t)(signed_word(a) / signed_word(b));
    }
}

static void divide_unsigned(struct model *m, uint32_t a, uint32_t b)
{
    if (b == 0) {
        m->hi = a;
        m->lo = 0xFFFFFFFF;
    } else {
        m->hi = a % b;
        m->lo = a / b;
    }
}

/* LWL: the addressed byte becomes the leftmost byte of the register. */
static uint32_t merge_left(uint32_t word, uint32_t old, uint32_t address)
{
    switch (address & 3) {
    case 0: return word << 24 | (old & 0x00FFFFFF);
    case 1: return word << 16 | (old & 0x0000FFFF);
    case 2: return word << 8 | (old & 0x000000FF);
    default: return word;
    }
}

/* LWR: the addressed byte becomes the rightmost byte of the register. */
static uint32_t merge_right(uint32_t word, uint32_t old, uint32_t address)
{
    switch (address & 3) {
    case 0: return word;
    case 1: return word >> 8 | (old & 0xFF000000);
    case 2: return word >> 16 | (old & 0xFFFF0000);
    default: return word >> 24 | (old & 0xFFFFFF00);
    }
}

/* SWL: the leftmost byte of the register goes to the addressed byte. */
static uint32_t store_left(uint32_t word, uint32_t value, uint32_t address)
{
    switch (address & 3) {
    case 0: return (word & 0xFFFFFF00) | value >> 24;
    case 1: return (word & 0xFFFF0000) | value >> 16;
    case 2: return (word & 0xFF000000) | value >> 8;
    default: return value;
    }
}

/* SWR: the rightmost byte of the register goes to the addressed byte. */
static uint32_t store_right(uint32_t word, uint32_t value, uint32_t address)
{
    switch (address & 3) {
    case 0: return value;
    case 1: return (word & 0x000000FF) | value << 8;
    case 2: return (word & 0x0000FFFF) | value << 16;
    default: return (word & 0x00FFFFFF) | value << 24;
    }
}

/* The bytes that a load, or the store of the same width, has to be aligned to; LWL, LWR, SWL and SWR take any. */
static uint32_t access_size(uint32_t opcode)
{
    switch (opcode) {
    case 0x21: case 0x25: case 0x29: return 2; /* LH, LHU, SH */
    case 0x23: case 0x2B: case 0x32: case 0x3A: return 4; /* LW, SW, LWC2, SWC2 */
    default: return 1;
    }
}

enum model_outcome model_step(struct model *m, const struct model_memory *memory)
{
    uint32_t fetch_address, word, opcode, rs, rt, rd, shift, immediate, signed_immediate;
    uint32_t a, b; /* operands rs and rt, read before anything is written */
    uint32_t branch_target, link, target;
    uint32_t sum, address, value, old;
    uint8_t *byte, *bytes; /* the one that is addressed, and those of the word that it is in */
    uint32_t write_register = 0, write_value = 0; /* written in this step */
    uint32_t late_register = 0, late_value = 0; /* shown one instruction late */
    bool jump = false; /* a jump or branch, taken or not */

    /* Fetch, from RAM alone: AdEL, then IBE. */
    if (address_error(m, m->pc, 4))
        return take_address_error(m, MODEL_ADEL, m->pc);
    if (!translate(m->pc, memory->ram_length, &fetch_address))
        return take_exception(m, MODEL_IBE, 0);
    word = read_word(memory->ram + fetch_address);

    opcode = word >> 26;
    rs = word >> 21 & 31;
    rt = word >> 16 & 31;
    rd = word >> 11 & 31;
    shift = word >> 6 & 31;
    immediate = word & 0xFFFF;
    signed_immediate = sign_extend_half(immediate);
    a = m->general[rs];
    b = m->general[rt];

    /* Relative targets start from next PC as it stood before the step; a link is that plus 4. */
    branch_target = m->next_pc + (signed_immediate << 2);
    link = m->next_pc + 4;
    target = m->next_pc + 4;

    switch (opcode) {
    case 0x00: /* SPECIAL */
        write_register = rd;
        switch (word & 0x3F) {
        case 0x00: write_value = b << shift; break; /* SLL */
        case 0x02: write_value = b >> shift; break; /* SRL */
        case 0x03: write_value = (uint32_t)(signed_word(b) >> shift); break; /* SRA */
        case 0x04: write_value = b << (a & 31); break; /* SLLV */
        case 0x06: write_value = b >> (a & 31); break; /* SRLV */
        case 0x07: write_value = (uint32_t)(signed_word(b) >> (a & 31)); break; /* SRAV */
        case 0x08: write_register = 0; jump = true; target = a; break; /* JR */
        case 0x09: write_value = link; jump = true; target = a; break; /* JALR */
        case 0x0C: return take_exception(m, MODEL_SYSCALL, 0);
        case 0x0D: return take_exception(m, MODEL_BREAK, 0);
        case 0x10: write_value = m->hi; break; /* MFHI */
        case 0x11: write_register = 0; m->hi = a; break; /* MTHI */
        case 0x12: write_value = m->lo; break; /* MFLO */
        case 0x13: write_register = 0; m->lo = a; break; /* MTLO */
        case 0x18: write_register = 0; multiply_signed(m, a, b); break; /* MULT */
        case 0x19: write_register = 0; multiply_unsigned(m, a, b); break; /* MULTU */
        case 0x1A: write_register = 0; divide_signed(m, a, b); break; /* DIV */
        case 0x1B: write_register = 0; divide_unsigned(m, a, b); break; /* DIVU */
        case 0x20: /* ADD */
            sum = a + b;
            if (((a ^ sum) & (b ^ sum)) >> 31)
                return take_exception(m, MODEL_OVERFLOW, 0);
            write_value = sum;
            break;
        case 0x21: write_value = a + b; break; /* ADDU */
        case 0x22: /* SUB */
            sum = a - b;
            if (((a ^ b) & (a ^ sum)) >> 31)
                return take_exception(m, MODEL_OVERFLOW, 0);
            write_value = sum;
            break;
        case 0x23: write_value = a - b; break; /* SUBU */
        case 0x24: write_value = a & b; break; /* AND */
        case 0x25: write_value = a | b; break; /* OR */
        case 0x26: write_value = a ^ b; break; /* XOR */
        case 0x27: write_value = ~(a | b); break; /* NOR */
        case 0x2A: write_value = signed_word(a) < signed_word(b); break; /* SLT */
        case 0x2B: write_value = a < b; break; /* SLTU */
        default: return take_exception(m, MODEL_RI, 0);
        }
        break;

    case 0x01: /* BCOND: rt is BLTZ 00h, BGEZ 01h, BLTZAL 10h, BGEZAL 11h */
        if ((rt & 0x0E) != 0)
            return take_exception(m, MODEL_RI, 0);
        jump = true;
        if ((rt & 1) ? signed_word(a) >= 0 : signed_word(a) < 0)
            target = branch_target;
        if (rt & 0x10) { /* the link is written whether taken or not */
            write_register = 31;
            write_value = link;
        }
        break;

    case 0x03: /* JAL */
        write_register = 31;
        write_value = link;
        jump = true;
        target = (m->next_pc & 0xF0000000) | (word & 0x03FFFFFF) << 2;
        break;
    case 0x02: /* J */
        jump = true;
        target = (m->next_pc & 0xF0000000) | (word & 0x03FFFFFF) << 2;
        break;
    case 0x04: jump = true; if (a == b) target = branch_target; break; /* BEQ */
    case 0x05: jump = true; if (a != b) target = branch_target; break; /* BNE */
    case 0x06: jump = true; if (signed_word(a) <= 0) target = branch_target; break; /* BLEZ */
    case 0x07: jump = true; if (signed_word(a) > 0) target = branch_target; break; /* BGTZ */

    case 0x08: /* ADDI */
        sum = a + signed_immediate;
        if (((a ^ sum) & (signed_immediate ^ sum)) >> 31)
            return take_exception(m, MODEL_OVERFLOW, 0);
        write_register = rt;
        write_value = sum;
        break;
    case 0x09: write_register = rt; write_value = a + signed_immediate; break; /* ADDIU */
    case 0x0A: write_register = rt; write_value = signed_word(a) < signed_word(signed_immediate); break; /* SLTI */
    case 0x0B: write_register = rt; write_value = a < signed_immediate; break; /* SLTIU */
    case 0x0C: write_register = rt; write_value = a & immediate; break; /* ANDI */
    case 0x0D: write_register = rt; write_value = a | immediate; break; /* ORI */
    case 0x0E: write_register = rt; write_value = a ^ immediate; break; /* XORI */
    case 0x0F: write_register = rt; write_value = immediate << 16; break; /* LUI */

    case 0x10: /* COP0: kernel mode or CU0 */
        if (user_mode(m) && !(m->sr & SR_CU0))
            return take_exception(m, MODEL_CPU, 0);
        if (rs == 0x00) { /* MFC0 */
            late_register = rt;
            late_value = read_cop0(m, rd);
        } else if (rs == 0x04) { /* MTC0 */
            write_cop0(m, rd, b);
        } else if ((rs & 0x10) && (word & 0x3F) == 0x10) { /* RFE copies bits 5..2 to 3..0 */
            m->sr = (m->sr & ~0xFu) | (m->sr >> 2 & 0xF);
        } else {
            return take_exception(m, MODEL_RI, 0);
        }
        break;

    case 0x11: case 0x13: /* COP1, COP3 */
    case 0x31: case 0x33: /* LWC1, LWC3 */
    case 0x39: case 0x3B: /* SWC1, SWC3 */
        if (!(m->sr & SR_CU0 << (opcode & 3)))
            return take_exception(m, MODEL_CPU, opcode & 3);
        return take_exception(m, MODEL_RI, 0);

    case 0x12: /* COP2 */
        if (!(m->sr & SR_CU0 << 2))
            return take_exception(m, MODEL_CPU, 2);
        if (rs & 0x10) {
            if (!model_command(m, word))
                return MODEL_STOP;
        } else if (rs == 0x00) { /* MFC2 */
            late_register = rt;
            late_value = model_cop2_read(m, rd);
        } else if (rs == 0x02) { /* CFC2 */
            late_register = rt;
            late_value = model_cop2_read(m, 32 + rd);
        } else if (rs == 0x04) { /* MTC2 */
            model_cop2_write(m, rd, b);
        } else if (rs == 0x06) { /* CTC2 */
            model_cop2_write(m, 32 + rd, b);
        } else {
            return take_exception(m, MODEL_RI, 0);
        }
        break;

    case 0x32: /* LWC2 */
        if (!(m->sr & SR_CU0 << 2))
            return take_exception(m, MODEL_CPU, 2);
        /* fall through */
    case 0x20: case 0x21: case 0x22: case 0x23: case 0x24: case 0x25: case 0x26: /* loads */
        address = a + signed_immediate;
        if (address_error(m, address, access_size(opcode)))
            return take_address_error(m, MODEL_ADEL, address);
        byte = data_byte(memory, address);
        if (byte == NULL)
            return take_exception(m, MODEL_DBE, 0);
        bytes = byte - (address & 3);
        value = read_word(bytes);
        /* LWL and LWR merge with a waiting value for the same register. */
        old = m->load_register == rt ? m->load_value : b;
        late_register = rt;
        switch (opcode) {
        case 0x20: late_value = sign_extend_byte(value >> 8 * (address & 3)); break; /* LB */
        case 0x21: late_value = sign_extend_half(value >> 8 * (address & 2)); break; /* LH */
        case 0x22: late_value = merge_left(value, old, address); break; /* LWL */
        case 0x23: late_value = value; break; /* LW */
        case 0x24: late_value = value >> 8 * (address & 3) & 0xFF; break; /* LBU */
        case 0x25: late_value = value >> 8 * (address & 2) & 0xFFFF; break; /* LHU */
        case 0x26: late_value = merge_right(value, old, address); break; /* LWR */
        default: late_register = 0; model_cop2_write(m, rt, value); break; /* LWC2 */
        }
        break;

    case 0x3A: /* SWC2 */
        if (!(m->sr & SR_CU0 << 2))
            return take_exception(m, MODEL_CPU, 2);
        /* fall through */
    case 0x28: case 0x29: case 0x2A: case 0x2B: case 0x2E: /* stores */
        address = a + signed_immediate;
        if (address_error(m, address, access_size(opcode)))
            return take_address_error(m, MODEL_ADES, address);
        byte = data_byte(memory, address);
        if (byte == NULL)
            return take_exception(m, MODEL_DBE, 0);
        bytes = byte - (address & 3);
        value = read_word(bytes);
        switch (opcode) {
        case 0x28: byte[0] = (uint8_t)b; break; /* SB */
        case 0x29: byte[0] = (uint8_t)b; byte[1] = (uint8_t)(b >> 8); break; /* SH */
        case 0x2A: write_word(bytes, store_left(value, b, address)); break; /* SWL */
        case 0x2B: write_word(bytes, b); break; /* SW */
        case 0x2E: write_word(bytes, store_right(value, b, address)); break; /* SWR */
        default: write_word(bytes, model_cop2_read(m, rt)); break; /* SWC2 */
        }
        break;

    default: /* LWC0 (30h) and SWC0 (38h) among them */
        return take_exception(m, MODEL_RI, 0);
    }

    /* The waiting load lands, unless this instruction writes or loads the same register. */
    if (m->load_register != write_register && m->load_register != late_register)
        m->general[m->load_register] = m->load_value;
    m->general[write_register] = write_value;
    m->general[0] = 0;
    m->load_register = late_register;
    m->load_value = late_register != 0 ? late_value : 0;

    m->pc = m->next_pc;
    m->next_pc = target;
    m->delay_slot = jump;
    return MODEL_NO_EXCEPTION;
}

/* ---- The run (01, The run and its numbers) -------------------------------- */

static uint64_t answer(enum model_code code, uint64_t steps)
{
    return (uint64_t)code * MODEL_CODE_UNIT + steps;
}

static bool bad_ram_length(size_t ram_length)
{
    return ram_length % 4 != 0 || ram_length < 4 || ram_length > MODEL_RAM_MAXIMUM;
}

static bool bad_pad_length(size_t pad_length)
{
    return pad_length != MODEL_PAD_BYTES;
}

/* The first refusal that applies; MODEL_DONE where none does, with the machine loaded. */
static enum model_code refusal(struct model *machine, const uint8_t *image, size_t image_length, size_t ram_length,
                               size_t pad_length, uint64_t count)
{
    if (image_length != MODEL_IMAGE_BYTES)
        return MODEL_IMAGE_LENGTH;
    if (!model_load(machine, image))
        return MODEL_IMAGE_FORM;
    if (bad_ram_length(ram_length))
        return MODEL_RAM_LENGTH;
    if (bad_pad_length(pad_length))
        return MODEL_PAD_LENGTH;
    if (count > MODEL_COUNT_MAXIMUM)
        return MODEL_COUNT;
    return MODEL_DONE;
}

/* The run, ended after the first step that brings up a bit of mask in FLAG. With mask 0 no step does. It is made part of its
 * callers, so that the run, beside which the library's speed is measured, has no test of FLAG. */
__attribute__((always_inline)) static inline uint64_t run_until(uint8_t *image, size_t image_length, uint8_t *ram,
                                                                size_t ram_length, uint8_t *pad, size_t pad_length,
                                                                uint64_t count, uint32_t mask)
{
    const struct model_memory memory = {ram, ram_length, pad};
    struct model machine;
    enum model_code code = refusal(&machine, image, image_length, ram_length, pad_length, count);
    uint64_t steps = 0;

    if (code != MODEL_DONE)
        return answer(code, 0);
    while (code == MODEL_DONE && steps < count) {
        uint32_t before = machine.cop2[FLAG] & mask;

        if (model_step(&machine, &memory) == MODEL_STOP) {
            code = MODEL_UNLISTED;
            break;
        }
        steps++;
        if (before == 0 && (machine.cop2[FLAG] & mask) != 0)
            code = MODEL_FLAG_UP;
    }
    model_store(&machine, image);
    return answer(code, steps);
}

uint64_t model_run(uint8_t *image, size_t image_length, uint8_t *ram, size_t ram_length, uint8_t *pad, size_t pad_length,
                   uint64_t count)
{
    return run_until(image, image_length, ram, ram_length, pad, pad_length, count, 0);
}

uint64_t model_find_flag(uint8_t *image, size_t image_length, uint8_t *ram, size_t ram_length, uint8_t *pad,
                         size_t pad_length, uint64_t count, uint32_t mask)
{
    return run_until(image, image_length, ram, ram_length, pad, pad_length, count, mask);
}

/* ---- The window (01, The run and its numbers; 02, Ticket 1) ---------------- */

#define IN_PAD ((uint64_t)1 << 63)

/* Both memories are shorter than a segment, so a range that starts in one is in it only up to its end. */
static uint64_t part_of(uint64_t buffer, size_t size, uint32_t place, uint64_t length)
{
    if (length > size - place)
        return 0;
    return buffer | (uint64_t)place << 32 | length;
}

uint64_t model_window(const uint8_t *ram, size_t ram_length, const uint8_t *pad, size_t pad_length, uint32_t address,
                      uint64_t length)
{
    uint32_t place;

    (void)ram, (void)pad; /* named by the interface, and not read */
    if (bad_ram_length(ram_length))
        return 0;
    if (bad_pad_length(pad_length))
        return 0;
    if (translate(address, ram_length, &place))
        return part_of(0, ram_length, place, length);
    if (translate_to_pad(address, &place))
        return part_of(IN_PAD, MODEL_PAD_BYTES, place, length);
    return 0;
}
