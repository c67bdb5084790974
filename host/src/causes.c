/*
 * The causes of FLAG's bits (02, Ticket 5), from the formulas of 001 and the
 * ranges of 01. Of the model only the reading of an image and the division are
 * used here.
 *
 * Lines are counted from 1 within one part: those of 001's formula that write a
 * register, those that are marked for other commands too. MAC1..3, IR1..3, V
 * and the like are arrays here, with components 0..2.
 */
#include "causes.h"

/* COP2 registers. */
enum {
    RGBC = 6, IR0 = 8, IR1 = 9, SXY0 = 12, SXY1 = 13, SXY2 = 14, SZ0 = 16, SZ1 = 17, SZ2 = 18, SZ3 = 19, RGB0 = 20, MAC1 = 25,
    RT = 32, TR = 37, LLM = 40, BK = 45, LCM = 48, FC = 53, OFX = 56, OFY = 57, H = 58, DQA = 59, DQB = 60, ZSF3 = 61, ZSF4 = 62
};

struct row {
    uint32_t bit, part, line, low, high;
};

/* A command under way. */
struct command {
    const uint32_t *r; /* the registers as the command finds them */
    int shift; /* sf * 12 */
    int64_t lowest; /* of IR1..3, by lm */
    uint32_t part;
    int64_t mac[3], ir[3], ir0; /* as the lines so far leave them; no command reads the IR0 that it has written */
    struct row rows[MODEL_MOST_CAUSES]; /* in the order of the answer */
    unsigned count;
};

static int64_t low_half(uint32_t word)
{
    return (int16_t)(uint16_t)word;
}

static int64_t high_half(uint32_t word)
{
    return (int16_t)(uint16_t)(word >> 16);
}

static int64_t whole(uint32_t word)
{
    return (int32_t)word;
}

/* Division by 2^bits that rounds down. */
static int64_t sar(int64_t value, int bits)
{
    return value >> bits; /* gcc shifts signed values arithmetically */
}

/* ---- Rows -------------------------------------------------------------------- */

/* By bit from 30 down, then by part, then by line. */
static uint32_t order(const struct row *row)
{
    return (30 - row->bit) << 8 | row->part << 4 | row->line;
}

static void add_row(struct command *c, uint32_t bit, uint32_t line, uint32_t low, uint32_t high)
{
    struct row row = {bit, c->part, line, low, high};
    unsigned at = c->count++;

    for (; at > 0 && order(&row) < order(&c->rows[at - 1]); at--)
        c->rows[at] = c->rows[at - 1];
    c->rows[at] = row;
}

static void add_value(struct command *c, uint32_t bit, uint32_t line, int64_t value)
{
    add_row(c, bit, line, (uint32_t)value, (uint32_t)((uint64_t)value >> 32));
}

/* ---- Ranges (01, GTE arithmetic) ---------------------------------------------- */

static int64_t limit(struct command *c, uint32_t bit, uint32_t line, int64_t value, int64_t lowest, int64_t highest)
{
    if (value < lowest || value > highest)
        add_value(c, bit, line, value);
    return value < lowest ? lowest : value > highest ? highest : value;
}

/* An exact value for MAC1..3. Answers its low 44 bits as a signed number. */
static int64_t test_mac(struct command *c, unsigned k, uint32_t line, int64_t exact)
{
    const int64_t bound = (int64_t)1 << 43;

    if (exact >= bound)
        add_value(c, 30 - k, line, exact);
    if (exact < -bound)
        add_value(c, 27 - k, line, exact);
    return ((exact + bound) & (2 * bound - 1)) - bound;
}

/* MAC = value SAR (sf*12): its low 32 bits are stored. */
static void store_mac(struct command *c, unsigned k, int64_t value)
{
    c->mac[k] = whole((uint32_t)sar(value, c->shift));
}

/* An exact value for MAC0; later limits act on it as it is. */
static void test_mac0(struct command *c, uint32_t line, int64_t exact)
{
    if (exact > INT32_MAX)
        add_value(c, 16, line, exact);
    if (exact < INT32_MIN)
        add_value(c, 15, line, exact);
}

/* IR = MAC, from the stored MAC. */
static void set_ir(struct command *c, unsigned k, uint32_t line, int64_t lowest)
{
    c->ir[k] = limit(c, 24 - k, line, c->mac[k], lowest, 0x7FFF);
}

/* ---- Operands ------------------------------------------------------------------ */

struct matrix {
    int64_t element[3][3];
};

struct vector {
    int64_t v[3];
};

/* Nine halves from this register on, the low half of each first. */
static struct matrix read_matrix(const struct command *c, unsigned first)
{
    struct matrix m;
    unsigned i;

    for (i = 0; i < 9; i++)
        m.element[i / 3][i % 3] = i % 2 ? high_half(c->r[first + i / 2]) : low_half(c->r[first + i / 2]);
    return m;
}

static struct vector read_vertex(const struct command *c, unsigned number)
{
    const uint32_t *r = c->r + 2 * number;

    return (struct vector){{low_half(r[0]), high_half(r[0]), low_half(r[1])}};
}

static struct vector read_words(const struct command *c, unsigned first)
{
    return (struct vector){{whole(c->r[first]), whole(c->r[first + 1]), whole(c->r[first + 2])}};
}

static struct vector read_ir(const struct command *c)
{
    return (struct vector){{c->ir[0], c->ir[1], c->ir[2]}};
}

/* R, G, B of a register. */
static struct vector read_colour(const struct command *c, unsigned number)
{
    uint32_t rgb = c->r[number];

    return (struct vector){{rgb & 0xFF, rgb >> 8 & 0xFF, rgb >> 16 & 0xFF}};
}

/* Row k of T*1000h + M*V. */
static int64_t row_sum(const struct vector *t, const struct matrix *m, const struct vector *v, unsigned k)
{
    return t->v[k] * 0x1000 + m->element[k][0] * v->v[0] + m->element[k][1] * v->v[1] + m->element[k][2] * v->v[2];
}

/* ---- Coordinates ----------------------------------------------------------------- */

/* RTPS, or one vertex of RTPT; lm counts as 0. */
static void perspective(struct command *c)
{
    struct vector t = read_words(c, TR), v = read_vertex(c, c->part - 1);
    struct matrix m = read_matrix(c, RT);
    uint32_t h = c->r[H] & 0xFFFF, sz3;
    int64_t z, quotient, exact;
    bool overflow;

    /* Lines 1 to 3. Bit 22 tests the third sum SAR 12 for either sf; no later line reads IR3. */
    store_mac(c, 0, test_mac(c, 0, 1, row_sum(&t, &m, &v, 0)));
    set_ir(c, 0, 1, -0x8000);
    store_mac(c, 1, test_mac(c, 1, 2, row_sum(&t, &m, &v, 1)));
    set_ir(c, 1, 2, -0x8000);
    z = sar(test_mac(c, 2, 3, row_sum(&t, &m, &v, 2)), 12);
    limit(c, 22, 3, z, -0x8000, 0x7FFF);

    sz3 = (uint32_t)limit(c, 18, 4, z, 0, 0xFFFF);
    quotient = model_quotient(h, sz3, &overflow); /* first used on line 5 */
    if (overflow)
        add_row(c, 17, 5, h, sz3);

    exact = quotient * c->ir[0] + whole(c->r[OFX]);
    test_mac0(c, 5, exact);
    limit(c, 14, 5, sar(exact, 16), -0x400, 0x3FF);
    exact = quotient * c->ir[1] + whole(c->r[OFY]);
    test_mac0(c, 6, exact);
    limit(c, 13, 6, sar(exact, 16), -0x400, 0x3FF);
    exact = quotient * low_half(c->r[DQA]) + whole(c->r[DQB]);
    test_mac0(c, 7, exact);
    limit(c, 12, 7, sar(exact, 12), 0, 0x1000);
}

static void nclip(struct command *c)
{
    int64_t sx0 = low_half(c->r[SXY0]), sx1 = low_half(c->r[SXY1]), sx2 = low_half(c->r[SXY2]);
    int64_t sy0 = high_half(c->r[SXY0]), sy1 = high_half(c->r[SXY1]), sy2 = high_half(c->r[SXY2]);

    test_mac0(c, 1, sx0 * sy1 + sx1 * sy2 + sx2 * sy0 - sx0 * sy2 - sx1 * sy0 - sx2 * sy1);
}

/* AVSZ3 has line 1 and AVSZ4 line 2; line 3, OTZ, is both's. */
static void average(struct command *c, bool four)
{
    int64_t sum = (int64_t)c->r[SZ1] + c->r[SZ2] + c->r[SZ3];
    int64_t exact = four ? low_half(c->r[ZSF4]) * (c->r[SZ0] + sum) : low_half(c->r[ZSF3]) * sum;

    test_mac0(c, four ? 2 : 1, exact);
    limit(c, 18, 3, sar(exact, 12), 0, 0xFFFF);
}

/* ---- General purpose -------------------------------------------------------------- */

/* -60h, 60h, IR0, RT13 three times, RT22 three times. */
static struct matrix matrix_3(const struct command *c)
{
    int64_t rt13 = low_half(c->r[RT + 1]), rt22 = low_half(c->r[RT + 2]);

    return (struct matrix){{{-0x60, 0x60, c->ir0}, {rt13, rt13, rt13}, {rt22, rt22, rt22}}};
}

/* Lines 1 to 3 are MAC1..3, line 4 is IR. With FC, bits 30..25 are the whole sum's and MAC is the third product alone. */
static void mvmva(struct command *c, uint32_t word)
{
    static const unsigned matrices[3] = {RT, LLM, LCM}, translations[3] = {TR, BK, FC};
    uint32_t mx = word >> 17 & 3, vertex = word >> 15 & 3, cv = word >> 13 & 3;
    struct matrix m = mx == 3 ? matrix_3(c) : read_matrix(c, matrices[mx]);
    struct vector v = vertex == 3 ? read_ir(c) : read_vertex(c, vertex), none = {{0, 0, 0}};
    struct vector t = cv == 3 ? none : read_words(c, translations[cv]);
    unsigned k;

    for (k = 0; k < 3; k++) {
        int64_t sum = test_mac(c, k, k + 1, row_sum(&t, &m, &v, k));

        store_mac(c, k, cv == 2 ? m.element[k][2] * v.v[2] : sum);
        set_ir(c, k, 4, c->lowest);
    }
}

/* SQR and OP: line 1 is MAC, line 2 is IR. The products need 32 bits at most. */
static void products(struct command *c, struct vector product)
{
    unsigned k;

    for (k = 0; k < 3; k++) {
        store_mac(c, k, product.v[k]);
        set_ir(c, k, 2, c->lowest);
    }
}

static struct vector squares(const struct command *c)
{
    return (struct vector){{c->ir[0] * c->ir[0], c->ir[1] * c->ir[1], c->ir[2] * c->ir[2]}};
}

/* D1, D2, D3 are RT11, RT22, RT33. */
static struct vector outer_product(const struct command *c)
{
    int64_t d1 = low_half(c->r[RT]), d2 = low_half(c->r[RT + 2]), d3 = low_half(c->r[RT + 4]);
    const int64_t *ir = c->ir;

    return (struct vector){{ir[2] * d2 - ir[1] * d3, ir[0] * d3 - ir[2] * d1, ir[1] * d1 - ir[0] * d2}};
}

/* ---- Colours ----------------------------------------------------------------------- */

/* [IR] = [MAC] = (T*1000h + M*V) SAR (sf*12) */
static void multiply(struct command *c, uint32_t line, struct vector t, struct matrix m, struct vector v)
{
    unsigned k;

    for (k = 0; k < 3; k++) {
        store_mac(c, k, test_mac(c, k, line, row_sum(&t, &m, &v, k)));
        set_ir(c, k, line, c->lowest);
    }
}

/* LLM*V; a triple takes V0, V1 and V2 in turn. */
static void light(struct command *c, uint32_t line)
{
    multiply(c, line, (struct vector){{0, 0, 0}}, read_matrix(c, LLM), read_vertex(c, c->part - 1));
}

/* BK*1000h + LCM*IR */
static void background(struct command *c, uint32_t line)
{
    multiply(c, line, read_words(c, BK), read_matrix(c, LCM), read_ir(c));
}

/* [R*IR1, G*IR2, B*IR3] SHL 4, of RGBC. It needs 28 bits at most, as do the other MACs that (FC-MAC) is made of. */
static struct vector lit_colour(const struct command *c)
{
    struct vector rgb = read_colour(c, RGBC);

    return (struct vector){{rgb.v[0] * c->ir[0] * 16, rgb.v[1] * c->ir[1] * 16, rgb.v[2] * c->ir[2] * 16}};
}

static struct vector times(struct vector v, int64_t factor)
{
    return (struct vector){{v.v[0] * factor, v.v[1] * factor, v.v[2] * factor}};
}

/* MAC+(FC-MAC)*IR0. FC-MAC is tested, shifted and limited on this line, as lm = 0; the sum needs 32 bits at most. */
static struct vector interpolate(struct command *c, uint32_t line, struct vector mac)
{
    struct vector far = read_words(c, FC);
    unsigned k;

    for (k = 0; k < 3; k++) {
        store_mac(c, k, test_mac(c, k, line, far.v[k] * 0x1000 - mac.v[k]));
        set_ir(c, k, line, -0x8000);
        mac.v[k] += c->ir[k] * c->ir0;
    }
    return mac;
}

/* Color FIFO = [MAC/16, CODE], [IR] = [MAC] */
static void push_colour(struct command *c, uint32_t line)
{
    unsigned k;

    for (k = 0; k < 3; k++) {
        limit(c, 21 - k, line, sar(c->mac[k], 4), 0, 0xFF);
        set_ir(c, k, line, c->lowest);
    }
}

/* [MAC] = [MAC] SAR (sf*12), where nothing leaves its range, and then the line of the FIFO. */
static void finish(struct command *c, uint32_t line, struct vector mac)
{
    unsigned k;

    for (k = 0; k < 3; k++)
        store_mac(c, k, mac.v[k]);
    push_colour(c, line);
}

/* GPF and GPL. Line 1 is 0 and line 2 MAC SHL (sf*12), which 44 bits hold; the sum with IR*IR0 is line 3. */
static void general(struct command *c, bool with_base)
{
    unsigned k;

    for (k = 0; k < 3; k++) {
        int64_t base = with_base ? c->mac[k] * ((int64_t)1 << c->shift) : 0;

        store_mac(c, k, test_mac(c, k, 3, c->ir[k] * c->ir0 + base));
    }
    push_colour(c, 4);
}

/* ---- Commands ------------------------------------------------------------------------ */

static bool triple(uint32_t word)
{
    switch (word & 0x3F) {
    case 0x16: case 0x20: case 0x2A: case 0x30: case 0x3F: return true; /* NCDT, NCT, DPCT, RTPT, NCCT */
    default: return false;
    }
}

/* One part of a triple, or the whole of another command; false where the command is unlisted. */
static bool add_part(struct command *c, uint32_t word)
{
    switch (word & 0x3F) {
    case 0x01: case 0x30: perspective(c); break;
    case 0x06: nclip(c); break;
    case 0x2D: average(c, false); break;
    case 0x2E: average(c, true); break;

    case 0x12: mvmva(c, word); break;
    case 0x28: products(c, squares(c)); break;
    case 0x0C: products(c, outer_product(c)); break;

    case 0x1E: case 0x20: /* NCS, NCT: line 6 takes the MAC of line 2 again */
        light(c, 1);
        background(c, 2);
        push_colour(c, 6);
        break;
    case 0x1B: case 0x3F: /* NCCS, NCCT */
        light(c, 1);
        background(c, 2);
        finish(c, 6, lit_colour(c));
        break;
    case 0x13: case 0x16: /* NCDS, NCDT */
        light(c, 1);
        background(c, 2);
        finish(c, 6, interpolate(c, 4, lit_colour(c)));
        break;

    case 0x1C: /* CC */
        background(c, 1);
        finish(c, 5, lit_colour(c));
        break;
    case 0x14: /* CDP */
        background(c, 1);
        finish(c, 5, interpolate(c, 3, lit_colour(c)));
        break;

    case 0x29: finish(c, 6, interpolate(c, 4, lit_colour(c))); break; /* DCPL */
    case 0x11: finish(c, 6, interpolate(c, 4, times(read_ir(c), 0x1000))); break; /* INTPL */
    case 0x10: finish(c, 6, interpolate(c, 4, times(read_colour(c, RGBC), 0x10000))); break; /* DPCS */
    case 0x2A: /* DPCT: each part moves the FIFO, so the next finds in RGB0 what was RGB1 */
        finish(c, 6, interpolate(c, 4, times(read_colour(c, RGB0 + c->part - 1), 0x10000)));
        break;

    case 0x3D: general(c, false); break;
    case 0x3E: general(c, true); break;
    default: return false;
    }
    return true;
}

/* False where the command is unlisted. */
static bool find_causes(struct command *c, const uint32_t *registers, uint32_t word)
{
    uint32_t parts = triple(word) ? 3 : 1;
    unsigned k;

    c->r = registers;
    c->shift = (word >> 19 & 1) ? 12 : 0;
    c->lowest = (word >> 10 & 1) ? 0 : -0x8000;
    c->ir0 = low_half(registers[IR0]);
    for (k = 0; k < 3; k++) {
        c->mac[k] = whole(registers[MAC1 + k]);
        c->ir[k] = low_half(registers[IR1 + k]);
    }
    c->count = 0;
    for (c->part = 1; c->part <= parts; c->part++)
        if (!add_part(c, word))
            return false;
    return true;
}

static struct model_answer answer(enum model_code code, size_t number)
{
    return (struct model_answer){(uint64_t)code, number};
}

struct model_answer model_causes(const uint8_t *image, size_t image_length, uint32_t command, uint32_t *words,
                                 size_t words_length)
{
    struct model machine;
    struct command c;
    size_t needed;
    unsigned i;

    if (image_length != MODEL_IMAGE_BYTES)
        return answer(MODEL_IMAGE_LENGTH, 0);
    if (!model_load(&machine, image))
        return answer(MODEL_IMAGE_FORM, 0);
    if (!find_causes(&c, machine.cop2, command))
        return answer(MODEL_UNLISTED, 0);
    needed = (size_t)MODEL_CAUSE_WORDS * c.count;
    if (needed > words_length)
        return answer(MODEL_SPACE, needed);
    for (i = 0; i < c.count; i++) {
        uint32_t *row = words + MODEL_CAUSE_WORDS * i;

        row[0] = c.rows[i].bit;
        row[1] = c.rows[i].part;
        row[2] = c.rows[i].line;
        row[3] = c.rows[i].low;
        row[4] = c.rows[i].high;
    }
    return answer(MODEL_DONE, needed);
}
