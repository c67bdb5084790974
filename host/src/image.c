#define _POSIX_C_SOURCE 200809L

#include "image.h"

#include <ctype.h>
#include <stdio.h>
#include <string.h>
#include <strings.h>

#include "disassemble.h"

static const uint32_t SR_BITS = 0xF24FFF3F;
static const uint32_t CAUSE_BITS = 0xB000037C;
static const uint32_t FLAG_BITS = 0x7FFFF000;        /* those that a write takes */
static const uint32_t FLAG_ERROR_BITS = 0x7F87E000;  /* 30..23 and 18..13, whose OR is bit 31 */

const struct cop2_register cop2_registers[64] = { /* those that are not named here are signed words */
    [FLISKADEE_COP2_VXY0] = {KIND_PAIR, "VX0", "VY0"},
    [FLISKADEE_COP2_VZ0] = {KIND_SIGNED_HALF, NULL, NULL},
    [FLISKADEE_COP2_VXY1] = {KIND_PAIR, "VX1", "VY1"},
    [FLISKADEE_COP2_VZ1] = {KIND_SIGNED_HALF, NULL, NULL},
    [FLISKADEE_COP2_VXY2] = {KIND_PAIR, "VX2", "VY2"},
    [FLISKADEE_COP2_VZ2] = {KIND_SIGNED_HALF, NULL, NULL},
    [FLISKADEE_COP2_RGBC] = {KIND_COLOUR, NULL, NULL},
    [FLISKADEE_COP2_OTZ] = {KIND_UNSIGNED_HALF, NULL, NULL},
    [FLISKADEE_COP2_IR0] = {KIND_SIGNED_HALF, NULL, NULL},
    [FLISKADEE_COP2_IR1] = {KIND_SIGNED_HALF, NULL, NULL},
    [FLISKADEE_COP2_IR2] = {KIND_SIGNED_HALF, NULL, NULL},
    [FLISKADEE_COP2_IR3] = {KIND_SIGNED_HALF, NULL, NULL},
    [FLISKADEE_COP2_SXY0] = {KIND_PAIR, "SX0", "SY0"},
    [FLISKADEE_COP2_SXY1] = {KIND_PAIR, "SX1", "SY1"},
    [FLISKADEE_COP2_SXY2] = {KIND_PAIR, "SX2", "SY2"},
    [FLISKADEE_COP2_SXYP] = {KIND_PAIR, "SXP", "SYP"},
    [FLISKADEE_COP2_SZ0] = {KIND_UNSIGNED_HALF, NULL, NULL},
    [FLISKADEE_COP2_SZ1] = {KIND_UNSIGNED_HALF, NULL, NULL},
    [FLISKADEE_COP2_SZ2] = {KIND_UNSIGNED_HALF, NULL, NULL},
    [FLISKADEE_COP2_SZ3] = {KIND_UNSIGNED_HALF, NULL, NULL},
    [FLISKADEE_COP2_RGB0] = {KIND_COLOUR, NULL, NULL},
    [FLISKADEE_COP2_RGB1] = {KIND_COLOUR, NULL, NULL},
    [FLISKADEE_COP2_RGB2] = {KIND_COLOUR, NULL, NULL},
    [FLISKADEE_COP2_RES1] = {KIND_COLOUR, NULL, NULL},
    [FLISKADEE_COP2_IRGB] = {KIND_PACKED, NULL, NULL},
    [FLISKADEE_COP2_ORGB] = {KIND_PACKED, NULL, NULL},
    [FLISKADEE_COP2_RT] = {KIND_PAIR, "RT11", "RT12"},
    [FLISKADEE_COP2_RT + 1] = {KIND_PAIR, "RT13", "RT21"},
    [FLISKADEE_COP2_RT + 2] = {KIND_PAIR, "RT22", "RT23"},
    [FLISKADEE_COP2_RT + 3] = {KIND_PAIR, "RT31", "RT32"},
    [FLISKADEE_COP2_RT + 4] = {KIND_SIGNED_HALF, NULL, NULL},
    [FLISKADEE_COP2_LLM] = {KIND_PAIR, "L11", "L12"},
    [FLISKADEE_COP2_LLM + 1] = {KIND_PAIR, "L13", "L21"},
    [FLISKADEE_COP2_LLM + 2] = {KIND_PAIR, "L22", "L23"},
    [FLISKADEE_COP2_LLM + 3] = {KIND_PAIR, "L31", "L32"},
    [FLISKADEE_COP2_LLM + 4] = {KIND_SIGNED_HALF, NULL, NULL},
    [FLISKADEE_COP2_LCM] = {KIND_PAIR, "LR1", "LR2"},
    [FLISKADEE_COP2_LCM + 1] = {KIND_PAIR, "LR3", "LG1"},
    [FLISKADEE_COP2_LCM + 2] = {KIND_PAIR, "LG2", "LG3"},
    [FLISKADEE_COP2_LCM + 3] = {KIND_PAIR, "LB1", "LB2"},
    [FLISKADEE_COP2_LCM + 4] = {KIND_SIGNED_HALF, NULL, NULL},
    [FLISKADEE_COP2_OFX] = {KIND_FIXED, NULL, NULL},
    [FLISKADEE_COP2_OFY] = {KIND_FIXED, NULL, NULL},
    [FLISKADEE_COP2_H] = {KIND_PLANE, NULL, NULL},
    [FLISKADEE_COP2_DQA] = {KIND_SIGNED_HALF, NULL, NULL},
    [FLISKADEE_COP2_ZSF3] = {KIND_SIGNED_HALF, NULL, NULL},
    [FLISKADEE_COP2_ZSF4] = {KIND_SIGNED_HALF, NULL, NULL},
    [FLISKADEE_COP2_FLAG] = {KIND_FLAG, NULL, NULL},
};

static const char *const control_names[FLISKADEE_WORD_COP2 - FLISKADEE_WORD_HI] = {
    "HI", "LO", "PC", "NEXT_PC", "LOAD_REGISTER", "LOAD_VALUE", "DELAY_SLOT", "SR", "CAUSE", "EPC", "BADV", "UNUSED",
};

const char *word_name(unsigned word)
{
    if (word < FLISKADEE_WORD_HI)
        return general_register_name(word);
    return word < FLISKADEE_WORD_COP2 ? control_names[word - FLISKADEE_WORD_HI] : cop2_register_name(word - FLISKADEE_WORD_COP2);
}

static uint32_t sign_extended(uint32_t word)
{
    return (uint32_t)low_half(word);
}

static uint32_t leading_count(uint32_t word)
{
    uint32_t sign = word >> 31;
    uint32_t count = 0;
    while (count < 32 && (word >> (31 - count) & 1) == sign)
        count++;
    return count;
}

static uint32_t packed_colour(const uint8_t *image)
{
    uint32_t packed = 0;
    for (unsigned i = 0; i < 3; i++) {
        int32_t ir = low_half(cop2_at(image, FLISKADEE_COP2_IR1 + i));
        int32_t field = ir < 0 ? 0 : ir / 128 > 31 ? 31 : ir / 128;
        packed |= (uint32_t)field << 5 * i;
    }
    return packed;
}

uint32_t flag_read(uint32_t word)
{
    return (word & FLAG_BITS) | ((word & FLAG_ERROR_BITS) != 0 ? UINT32_C(1) << 31 : 0);
}

/* What a read of a COP2 register returns; an image holds just these. */
static uint32_t cop2_read(const uint8_t *image, unsigned number)
{
    uint32_t word = cop2_at(image, number);
    switch (number) {
    case FLISKADEE_COP2_SXYP: return cop2_at(image, FLISKADEE_COP2_SXY2);
    case FLISKADEE_COP2_IRGB:
    case FLISKADEE_COP2_ORGB: return packed_colour(image);
    case FLISKADEE_COP2_LZCR: return leading_count(cop2_at(image, FLISKADEE_COP2_LZCS));
    case FLISKADEE_COP2_FLAG: return flag_read(word);
    }
    switch (cop2_registers[number].kind) {
    case KIND_SIGNED_HALF:
    case KIND_PLANE: return sign_extended(word);
    case KIND_UNSIGNED_HALF: return word & 0xFFFF;
    default: return word;
    }
}

static const char *cop2_rule(unsigned number)
{
    switch (number) {
    case FLISKADEE_COP2_SXYP: return "it reads as SXY2";
    case FLISKADEE_COP2_IRGB:
    case FLISKADEE_COP2_ORGB: return "it reads as IR1..IR3, five bits each";
    case FLISKADEE_COP2_LZCR: return "it counts the leading bits of LZCS that equal its sign";
    case FLISKADEE_COP2_FLAG: return "bits 11..0 are clear and bit 31 is the OR of bits 30..23 and 18..13";
    }
    return cop2_registers[number].kind == KIND_UNSIGNED_HALF ? "it has 16 bits, zero-extended"
                                                             : "it has 16 bits, sign-extended";
}

struct checking {
    tell_word *tell;
    void *context;
    unsigned found;
};

static void refuse_word(struct checking *checking, unsigned word, const char *why)
{
    checking->found++;
    if (checking->tell != NULL)
        checking->tell(checking->context, word, why);
}

static void check_mask(struct checking *checking, unsigned word, uint32_t value, uint32_t mask)
{
    char why[80];
    if ((value & ~mask) == 0)
        return;
    snprintf(why, sizeof why, "it may have only bits of %08X, but has %08X too", (unsigned)mask,
             (unsigned)(value & ~mask));
    refuse_word(checking, word, why);
}

unsigned check_image(const uint8_t *image, tell_word *tell, void *context)
{
    struct checking checking = {tell, context, 0};
    if (fliskadee_get_word(image, 0) != 0)
        refuse_word(&checking, 0, "register 0 is always 0");
    if (fliskadee_get_word(image, FLISKADEE_WORD_LOAD_REGISTER) > 31)
        refuse_word(&checking, FLISKADEE_WORD_LOAD_REGISTER, "it is a register's number, at most 31");
    if (fliskadee_get_word(image, FLISKADEE_WORD_LOAD_REGISTER) == 0 && fliskadee_get_word(image, FLISKADEE_WORD_LOAD_VALUE) != 0)
        refuse_word(&checking, FLISKADEE_WORD_LOAD_VALUE, "it is 0 when no register awaits a load");
    if (fliskadee_get_word(image, FLISKADEE_WORD_DELAY_SLOT) > 1)
        refuse_word(&checking, FLISKADEE_WORD_DELAY_SLOT, "it is 1 in a delay slot, else 0");
    check_mask(&checking, FLISKADEE_WORD_SR, fliskadee_get_word(image, FLISKADEE_WORD_SR), SR_BITS);
    check_mask(&checking, FLISKADEE_WORD_CAUSE, fliskadee_get_word(image, FLISKADEE_WORD_CAUSE), CAUSE_BITS);
    if (fliskadee_get_word(image, FLISKADEE_WORD_ZERO) != 0)
        refuse_word(&checking, FLISKADEE_WORD_ZERO, "it is always 0");
    for (unsigned number = 0; number < 64; number++) {
        char why[120];
        if (cop2_at(image, number) == cop2_read(image, number))
            continue;
        snprintf(why, sizeof why, "%s, here %08X", cop2_rule(number), (unsigned)cop2_read(image, number));
        refuse_word(&checking, FLISKADEE_WORD_COP2 + number, why);
    }
    return checking.found;
}

void settle_image(uint8_t *image)
{
    static const unsigned following[] = {FLISKADEE_COP2_SXYP, FLISKADEE_COP2_IRGB, FLISKADEE_COP2_ORGB, FLISKADEE_COP2_LZCR, FLISKADEE_COP2_FLAG};
    for (size_t i = 0; i < sizeof following / sizeof following[0]; i++)
        fliskadee_set_word(image, FLISKADEE_WORD_COP2 + following[i], cop2_read(image, following[i]));
}

bool parse_number(const char *text, uint64_t *number)
{
    unsigned base = 10;
    uint64_t sum = 0;
    if (text[0] == '0' && (text[1] == 'x' || text[1] == 'X')) {
        base = 16;
        text += 2;
    }
    if (*text == '\0')
        return false;
    for (; *text != '\0'; text++) {
        unsigned digit;
        if (*text >= '0' && *text <= '9')
            digit = (unsigned)(*text - '0');
        else if (base == 16 && isxdigit((unsigned char)*text))
            digit = (unsigned)(tolower((unsigned char)*text) - 'a' + 10);
        else
            return false;
        if (sum > (UINT64_MAX - digit) / base)
            return false;
        sum = sum * base + digit;
    }
    *number = sum;
    return true;
}

/* A number from -2^31 to 2^32 - 1, as a word. */
static bool parse_word(const char *text, int64_t *number)
{
    bool negative = *text == '-';
    uint64_t magnitude;
    if (!parse_number(text + negative, &magnitude))
        return false;
    if (magnitude > (negative ? UINT64_C(0x80000000) : UINT64_C(0xFFFFFFFF)))
        return false;
    *number = negative ? -(int64_t)magnitude : (int64_t)magnitude;
    return true;
}

enum part { PART_WHOLE, PART_LOW, PART_HIGH };

static bool find_name(const char *name, unsigned *word, enum part *part)
{
    char plain[16];
    *part = PART_WHOLE;
    for (*word = 0; *word < FLISKADEE_IMAGE_WORDS; ++*word) {
        snprintf(plain, sizeof plain, "r%u", *word);
        if (strcasecmp(name, word_name(*word)) == 0 || (*word < 32 && strcasecmp(name, plain) == 0))
            return true;
        if (*word < FLISKADEE_WORD_COP2 || cop2_registers[*word - FLISKADEE_WORD_COP2].kind != KIND_PAIR)
            continue;
        *part = PART_LOW;
        if (strcasecmp(name, cop2_registers[*word - FLISKADEE_WORD_COP2].low) == 0)
            return true;
        *part = PART_HIGH;
        if (strcasecmp(name, cop2_registers[*word - FLISKADEE_WORD_COP2].high) == 0)
            return true;
        *part = PART_WHOLE;
    }
    return false;
}

/* A half may be given as a signed or an unsigned 16-bit number, or as a sign-extended word. */
static bool as_half(int64_t number, uint32_t *half)
{
    *half = (uint32_t)number & 0xFFFF;
    return (number >= -32768 && number <= 65535) || number >= INT64_C(0xFFFF8000);
}

bool set_by_name(uint8_t *image, const char *name, const char *value, char *why, size_t why_size)
{
    unsigned word;
    enum part part;
    int64_t number;
    uint32_t half;
    if (!find_name(name, &word, &part)) {
        snprintf(why, why_size, "there is no register %s", name);
        return false;
    }
    if (!parse_word(value, &number)) {
        snprintf(why, why_size, "%s is no 32-bit number (decimal, or hex after 0x): %s", name, value);
        return false;
    }
    uint32_t old = fliskadee_get_word(image, word);
    uint32_t set = (uint32_t)number;
    if (word >= FLISKADEE_WORD_COP2) {
        unsigned cop2 = word - FLISKADEE_WORD_COP2;
        enum cop2_kind kind = cop2_registers[cop2].kind;
        if (cop2 == FLISKADEE_COP2_SXYP || kind == KIND_PACKED || cop2 == FLISKADEE_COP2_LZCR) {
            snprintf(why, why_size, "%s follows other registers and cannot be set: %s", name, cop2_rule(cop2));
            return false;
        }
        if (part != PART_WHOLE || kind == KIND_SIGNED_HALF || kind == KIND_PLANE || kind == KIND_UNSIGNED_HALF) {
            bool fits = as_half(number, &half);
            if (kind == KIND_UNSIGNED_HALF)
                fits = number >= 0 && number <= 65535;
            if (!fits) {
                snprintf(why, why_size, "%s has 16 bits, which cannot hold %s", name, value);
                return false;
            }
            if (part == PART_LOW)
                set = (old & 0xFFFF0000) | half;
            else if (part == PART_HIGH)
                set = (old & 0xFFFF) | half << 16;
            else
                set = kind == KIND_UNSIGNED_HALF ? half : sign_extended(half);
        }
        if (cop2 == FLISKADEE_COP2_FLAG && (set & 0xFFF) != 0) {
            snprintf(why, why_size, "FLAG has no bits 11..0, which %s would set", value);
            return false;
        }
        if (cop2 == FLISKADEE_COP2_FLAG && set >> 31 != 0 && (set & FLAG_ERROR_BITS) == 0) {
            snprintf(why, why_size, "bit 31 of FLAG follows other bits and cannot be set: %s", cop2_rule(cop2));
            return false;
        }
    }
    fliskadee_set_word(image, word, set);
    return true;
}
