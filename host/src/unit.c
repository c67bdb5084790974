/*
 * Unit tests of the model and of the disassembler: the figures of 01, its
 * rules one by one, and the points at which the obvious code is wrong.
 */
#include "causes.h"
#include "disassemble.h"
#include "draw_list.h"
#include "encode.h"
#include "model.h"
#include "saved.h"

#include <stdio.h>
#include <string.h>

static int passed, failed;

static void equal(const char *what, uint64_t got, uint64_t expected)
{
    if (got == expected) {
        passed++;
        return;
    }
    failed++;
    printf("%s: got %llx, expected %llx\n", what, (unsigned long long)got, (unsigned long long)expected);
}

static void equal_text(const char *got, const char *expected)
{
    if (strcmp(got, expected) == 0) {
        passed++;
        return;
    }
    failed++;
    printf("got \"%s\", expected \"%s\"\n", got, expected);
}

/* ---- A machine under test ------------------------------------------------- */

enum { HI = 32, LO, PC, NEXT, WAIT, WAITING, SLOT, SR, CAUSE, EPC, BADV, ZERO, COP2 };

#define CU2 0x40000000u
#define CODE_BASE 0x100

static uint32_t word[MODEL_IMAGE_WORDS]; /* the image as words */
static uint8_t ram[2097152 + 8];
static size_t ram_length;
static uint8_t pad[2 * MODEL_PAD_BYTES];
static size_t pad_length;
static uint64_t answer;

/* Kernel mode, COP2 usable, PC at 100h, everything else zero. LZCR of LZCS 0 is 32. */
static void fresh(void)
{
    memset(word, 0, sizeof word);
    memset(ram, 0, 4096);
    ram_length = 4096;
    memset(pad, 0, sizeof pad);
    pad_length = MODEL_PAD_BYTES;
    word[PC] = CODE_BASE;
    word[NEXT] = CODE_BASE + 4;
    word[SR] = CU2;
    word[COP2 + 31] = 32;
}

static void put_image(uint8_t *image)
{
    unsigned i;

    for (i = 0; i < MODEL_IMAGE_WORDS; i++)
        put_word(image + 4 * i, word[i]);
}

static void get_image(const uint8_t *image)
{
    unsigned i;

    for (i = 0; i < MODEL_IMAGE_WORDS; i++)
        word[i] = get_word(image + 4 * i);
}

static uint64_t run_length(size_t image_length, uint64_t count)
{
    uint8_t image[512] = {0};

    put_image(image);
    answer = model_run(image, image_length, ram, ram_length, pad, pad_length, count);
    get_image(image);
    return answer;
}

static uint64_t find_length(size_t image_length, uint64_t count, uint32_t mask)
{
    uint8_t image[512] = {0};

    put_image(image);
    answer = model_find_flag(image, image_length, ram, ram_length, pad, pad_length, count, mask);
    get_image(image);
    return answer;
}

static uint64_t find(uint64_t count, uint32_t mask)
{
    return find_length(MODEL_IMAGE_BYTES, count, mask);
}

static uint64_t run(uint64_t count)
{
    return run_length(MODEL_IMAGE_BYTES, count);
}

/* Puts one instruction at PC and runs it. */
static void step(uint32_t instruction)
{
    put_word(ram + (word[PC] & 0x1FFFFFFF), instruction);
    equal("answer of one step", run(1), 1);
}

/* Sets a COP2 register by its write rule, the image staying well formed. */
static void set(unsigned number, uint32_t value)
{
    struct model machine;
    uint8_t image[MODEL_IMAGE_BYTES];

    put_image(image);
    equal("image before set", model_load(&machine, image), true);
    model_cop2_write(&machine, number, value);
    model_store(&machine, image);
    get_image(image);
}

static uint32_t cop2(unsigned number)
{
    return word[COP2 + number];
}

static uint32_t halves(int32_t low, int32_t high)
{
    return ((uint32_t)low & 0xFFFF) | (uint32_t)high << 16;
}

/* ---- 01, Figures from the bench -------------------------------------------- */

static void projection(int32_t x, int32_t y, int32_t z)
{
    fresh();
    set(32, 0x1000); /* RT11 */
    set(34, 0x1000); /* RT22 */
    set(36, 0x1000); /* RT33 */
    set(56, 160 * 65536);
    set(57, 120 * 65536);
    set(58, 200);
    set(0, halves(x, y));
    set(1, (uint32_t)z);
    step(encode_command(0x01, 1, 0));
}

/* What the hardware's quotient is; *overflow is to stay false. */
static void quotient(uint32_t h, uint32_t sz3, uint32_t expected)
{
    char name[40];
    bool overflow;

    snprintf(name, sizeof name, "quotient %04X/%04X", (unsigned)h, (unsigned)sz3);
    equal(name, model_quotient(h, sz3, &overflow), expected);
    equal(name, overflow, false);
}

/* 02, Ticket 2, and 001's section on division: what they say of single quotients, and the distance from the printed formula. */
static void division(void)
{
    uint32_t sz3, i, worst_below = 0, worst_above = 0, limited = 0, flagged = 0;
    bool overflow;

    quotient(200, 1000, 13107);
    quotient(200, 101, 129773);
    quotient(0, 1, 0);
    quotient(1, 1, 0x10000);
    quotient(0xFE3F, 0x7F20, 0x1FFFF);
    quotient(0xF015, 0x780B, 0x1FFFF);
    quotient(0xFFFF, 0xFFFF, 65535);
    quotient(0xFFFF, 0x8000, 131070);
    quotient(1991, 1023, 127546);
    quotient(413, 269, 100620);
    equal("quotient 0/0", model_quotient(0, 0, &overflow), 0x1FFFF);
    equal("quotient 0/0 overflows", overflow, true);

    /* every SZ3, with H at both ends of what it allows and at fifteen places between */
    for (sz3 = 1; sz3 < 0x10000; sz3++)
        for (i = 0; i <= 16; i++) {
            uint32_t highest = sz3 < 0x8000 ? 2 * sz3 - 1 : 0xFFFF, h = highest * i / 16;
            uint32_t q = model_quotient(h, sz3, &overflow);
            uint32_t printed = (uint32_t)(((uint64_t)h * 0x20000 / sz3 + 1) / 2);

            flagged += overflow;
            limited += q > 0x1FFFF;
            if (q < printed && printed - q > worst_below)
                worst_below = printed - q;
            if (q > printed && q - printed > worst_above)
                worst_above = q - printed;
        }
    equal("quotients below the overflow that are flagged", flagged, 0);
    equal("quotients past the limit", limited, 0);
    equal("quotients within 3 below the printed formula", worst_below <= 3, true);
    equal("quotients within 2 above the printed formula", worst_above <= 2, true);
}

static void figures(void)
{
    bool overflow;

    projection(100, -50, 1000);
    equal("RTPS 1000 SXY2", cop2(14), halves(179, 110));
    equal("RTPS 1000 FLAG", cop2(63), 0);
    equal("RTPS 1000 quotient", model_quotient(200, 1000, &overflow), 13107);
    projection(100, -50, 100);
    equal("RTPS 100 SXY2", cop2(14), halves(359, 20));
    equal("RTPS 100 FLAG", cop2(63), 0x80020000);
    equal("RTPS 100 quotient", model_quotient(200, 100, &overflow), 0x1FFFF);
    equal("RTPS 100 overflow", overflow, true);
    projection(100, -50, 101);
    equal("RTPS 101 SXY2", cop2(14), halves(358, 20));
    equal("RTPS 101 FLAG", cop2(63), 0);
    equal("RTPS 101 quotient", model_quotient(200, 101, &overflow), 129773);
    equal("RTPS 101 overflow", overflow, false);

    fresh();
    set(12, halves(0, 0));
    set(13, halves(10, 0));
    set(14, halves(0, 10));
    step(encode_command(0x06, 0, 0));
    equal("NCLIP MAC0", cop2(24), 100);
    fresh();
    set(12, halves(0, 0));
    set(13, halves(0, 10));
    set(14, halves(10, 0));
    step(encode_command(0x06, 0, 0));
    equal("NCLIP exchanged MAC0", cop2(24), (uint32_t)-100);

    fresh();
    set(61, 1365);
    set(17, 300);
    set(18, 300);
    set(19, 300);
    step(encode_command(0x2D, 0, 0));
    equal("AVSZ3 OTZ", cop2(7), 299);

    fresh();
    set(9, 0x7FFF);
    step(encode_command(0x28, 0, 0));
    equal("SQR MAC1", cop2(25), 0x3FFF0001);
    equal("SQR FLAG", cop2(63), 0x81000000);
    fresh();
    set(11, 0x7FFF);
    step(encode_command(0x28, 0, 0));
    equal("SQR IR3 FLAG", cop2(63), 0x00400000);

    fresh();
    set(30, 0);
    equal("LZCR 0", cop2(31), 32);
    set(30, 0xFFFFFFFF);
    equal("LZCR FFFFFFFFh", cop2(31), 32);
    set(30, 1);
    equal("LZCR 1", cop2(31), 31);
    set(30, 0x80000000);
    equal("LZCR 80000000h", cop2(31), 1);

    fresh();
    set(63, 0xFFFFFFFF);
    equal("FLAG written FFFFFFFFh", cop2(63), 0xFFFFF000);

    fresh();
    word[1] = 0x7FFFFFFF;
    word[2] = 1;
    step(encode_r(F_ADDU, 3, 1, 2, 0));
    equal("ADDU", word[3], 0x80000000);
    step(encode_r(F_ADD, 4, 1, 2, 0));
    equal("ADD code", word[CAUSE], 12 << 2);
    equal("ADD target", word[4], 0);
    equal("ADD EPC", word[EPC], CODE_BASE + 4);

    fresh(); /* zeros are SLL zero: a loop through memory would leave RAM, so jump to itself */
    put_word(ram + CODE_BASE, encode_j(OP_J, CODE_BASE));
    equal("count 1000000", run(1000000), 1000000);
    equal("count 1000001", run(1000001), 4 * MODEL_CODE_UNIT);
    ram_length = 4;
    equal("RAM of 4", run(2), 2);
    ram_length = 0;
    equal("RAM of 0", run(1), 3 * MODEL_CODE_UNIT);
    ram_length = 6;
    equal("RAM of 6", run(1), 3 * MODEL_CODE_UNIT);
    ram_length = 2097156;
    equal("RAM of 2097156", run(1), 3 * MODEL_CODE_UNIT);
    ram_length = 2097152;
    equal("RAM of 2097152", run(1), 1);
}

/* ---- 01, The run and its numbers ------------------------------------------- */

static void refusals(void)
{
    uint32_t before[MODEL_IMAGE_WORDS];
    unsigned i, bit;

    fresh();
    ram_length = 6;
    equal("length before form", run_length(431, 2000000), 1 * MODEL_CODE_UNIT);
    equal("length 0", run_length(0, 0), 1 * MODEL_CODE_UNIT);
    equal("length 433", run_length(433, 0), 1 * MODEL_CODE_UNIT);
    equal("length 452", run_length(452, 0), 1 * MODEL_CODE_UNIT);
    word[0] = 1;
    equal("form before RAM", run(2000000), 2 * MODEL_CODE_UNIT);
    word[0] = 0;
    equal("RAM before count", run(2000000), 3 * MODEL_CODE_UNIT);
    ram_length = 4;
    equal("count", run(2000000), 4 * MODEL_CODE_UNIT);
    equal("count past 32 bits", run(0x100000005), 4 * MODEL_CODE_UNIT);
    equal("count 2^64 - 1", run(UINT64_MAX), 4 * MODEL_CODE_UNIT);
    equal("count 0", run(0), 0);

    /* From a well-formed image, the words whose every bit is bound. */
    static const unsigned bound[] = {0, 37, 43, COP2 + 15, COP2 + 28, COP2 + 29, COP2 + 31};
    for (i = 0; i < sizeof bound / sizeof *bound; i++)
        for (bit = 0; bit < 32; bit++) {
            fresh();
            word[bound[i]] ^= 1u << bit;
            memcpy(before, word, sizeof word);
            equal("bound word", run(1), 2 * MODEL_CODE_UNIT);
            equal("bound word unchanged", memcmp(before, word, sizeof word), 0);
        }
    for (bit = 0; bit < 32; bit++) {
        fresh();
        word[WAIT] = 1u << bit;
        equal("word 36", run(0), bit < 5 ? 0 : 2 * MODEL_CODE_UNIT);
        fresh();
        word[SLOT] = 1u << bit;
        equal("word 38", run(0), bit < 1 ? 0 : 2 * MODEL_CODE_UNIT);
        fresh();
        word[SR] = 1u << bit;
        equal("word 39", run(0), 0xF24FFF3F >> bit & 1 ? 0 : 2 * MODEL_CODE_UNIT);
        fresh();
        word[CAUSE] = 1u << bit;
        equal("word 40", run(0), 0xB000037C >> bit & 1 ? 0 : 2 * MODEL_CODE_UNIT);
        fresh();
        word[COP2 + 14] = 1u << bit; /* 15 does not follow */
        equal("SXY2 alone", run(0), 2 * MODEL_CODE_UNIT);
        fresh();
        word[COP2 + 63] = 1u << bit;
        equal("FLAG bit", run(0), 0x00781000 >> bit & 1 ? 0 : 2 * MODEL_CODE_UNIT);
    }
    static const unsigned sign_extended[] = {1, 3, 5, 8, 9, 10, 11, 36, 44, 52, 58, 59, 61, 62};
    for (i = 0; i < sizeof sign_extended / sizeof *sign_extended; i++) {
        fresh();
        word[COP2 + sign_extended[i]] = 0x8000;
        equal("sign-extended register, 00008000h", run(0), 2 * MODEL_CODE_UNIT);
        word[COP2 + sign_extended[i]] = 0xFFFF7FFF;
        equal("sign-extended register, FFFF7FFFh", run(0), 2 * MODEL_CODE_UNIT);
        word[COP2 + sign_extended[i]] = 0x10000;
        equal("sign-extended register, 10000h", run(0), 2 * MODEL_CODE_UNIT);
        word[COP2 + sign_extended[i]] = 0xFFFF8000;
        equal("sign-extended register, FFFF8000h", run(0), 0);
    }
    static const unsigned zero_extended[] = {7, 16, 17, 18, 19};
    for (i = 0; i < sizeof zero_extended / sizeof *zero_extended; i++) {
        fresh();
        word[COP2 + zero_extended[i]] = 0xFFFF8000;
        equal("zero-extended register, FFFF8000h", run(0), 2 * MODEL_CODE_UNIT);
        word[COP2 + zero_extended[i]] = 0xFFFF;
        equal("zero-extended register, FFFFh", run(0), 0);
    }
    static const unsigned plain[] = {0, 2, 4, 6, 12, 13, 20, 21, 22, 23, 24, 25, 26, 27, 32, 33, 34, 35, 37, 38, 39,
                                     40, 41, 42, 43, 45, 46, 47, 48, 49, 50, 51, 53, 54, 55, 56, 57, 60};
    for (i = 0; i < sizeof plain / sizeof *plain; i++) {
        fresh();
        word[COP2 + plain[i]] = 0xDEADBEEF;
        equal("plain register", run(0), 0);
    }
    fresh();
    word[COP2 + 9] = 0x80; /* 28 and 29 do not follow */
    equal("IR1 without IRGB", run(0), 2 * MODEL_CODE_UNIT);
    word[COP2 + 28] = 1;
    equal("IR1 without ORGB", run(0), 2 * MODEL_CODE_UNIT);
    word[COP2 + 29] = 1;
    equal("IR1 with both", run(0), 0);
    fresh();
    word[COP2 + 31] = 0; /* an image of zeros is not well formed */
    equal("LZCR of zeros", run(0), 2 * MODEL_CODE_UNIT);
    fresh();
    word[PC] = 1;
    word[NEXT] = 0xFFFFFFFF;
    word[EPC] = word[BADV] = word[HI] = word[LO] = 0xFFFFFFFF;
    equal("free words", run(0), 0);
    word[WAIT] = 5;
    word[WAITING] = 0;
    equal("waiting 0 for register 5", run(0), 0);
}

static void unlisted_commands(void)
{
    uint32_t before[MODEL_IMAGE_WORDS];
    unsigned number, i;

    for (number = 0; number < 64; number++) {
        bool is_listed = false;

        for (i = 0; i < sizeof listed_commands; i++)
            is_listed |= listed_commands[i] == number;
        fresh();
        set(63, 0x1000);
        put_word(ram + CODE_BASE, encode_command(number, 0, 0));
        memcpy(before, word, sizeof word);
        equal("command listed", run(1), is_listed ? 1 : 5 * MODEL_CODE_UNIT);
        if (!is_listed)
            equal("state before it", memcmp(before, word, sizeof word), 0);
    }

    fresh(); /* the waiting load still waits, and word 38 stays */
    word[WAIT] = 4;
    word[WAITING] = 9;
    word[SLOT] = 1;
    word[PC] = 0;
    word[NEXT] = 4;
    put_word(ram, 0x4A000000);
    memcpy(before, word, sizeof word);
    equal("unlisted answer", run(7), 5 * MODEL_CODE_UNIT);
    equal("unlisted leaves all", memcmp(before, word, sizeof word), 0);
    equal("unlisted, count 0", run(0), 0);
    word[SR] = 0;
    equal("unlisted, CU2 clear", run(1), 1);
    equal("unlisted, waiting load lands", word[4], 9);
    equal("unlisted, CAUSE", word[CAUSE], 0xA000002C);
    equal("unlisted, EPC", word[EPC], 0xFFFFFFFC);

    fresh(); /* a step, then the unlisted command */
    put_word(ram + CODE_BASE, encode_i(OP_ADDIU, 1, 0, 7));
    put_word(ram + CODE_BASE + 4, 0x4BFFFFC0);
    equal("steps remain", run(2), 5 * MODEL_CODE_UNIT + 1);
    equal("first step done", word[1], 7);
    word[PC] = CODE_BASE;
    word[NEXT] = CODE_BASE + 4;
    equal("no steps remain", run(1), 1);

    fresh(); /* the fake number in bits 24..20 is ignored */
    set(9, 0x7FFF);
    step(0x4BE00028);
    equal("fake number", cop2(25), 0x3FFF0001);
}

/* ---- The search for a bit of FLAG ---------------------------------------------- */

#define FLAG_UP (MODEL_FLAG_UP * (uint64_t)MODEL_CODE_UNIT)

/* Five steps that leave these words in FLAG, then an unlisted command. */
static void flag_program(void)
{
    static const uint32_t flags[5] = {0, 0x80100000 | 1u << 24, 0x80000000 | 1u << 23, 0, 1u << 22};
    unsigned i;

    fresh();
    for (i = 0; i < 5; i++) {
        word[8 + i] = flags[i] & 0x7FFFF000;
        put_word(ram + CODE_BASE + 4 * i, encode_move(2, 6, 8 + i, 31));
    }
    put_word(ram + CODE_BASE + 20, 0x4A000000);
}

/* The search from the program's start, and that it left what a run of so many steps leaves. */
static void searches(const char *what, uint64_t count, uint32_t mask, uint64_t expected)
{
    uint32_t found[MODEL_IMAGE_WORDS];

    flag_program();
    equal(what, find(count, mask), expected);
    memcpy(found, word, sizeof word);
    flag_program();
    run(expected % MODEL_CODE_UNIT);
    equal(what, memcmp(found, word, sizeof word), 0);
}

static void search(void)
{
    searches("mask 0", 5, 0, 5);
    searches("mask 0, unlisted", 6, 0, 5 * MODEL_CODE_UNIT + 5);
    searches("count 0", 0, 0xFFFFFFFF, 0);
    searches("before the bit", 1, 1u << 24, 1);
    searches("the bit in the last step", 2, 1u << 24, FLAG_UP + 2);
    searches("the bit with steps left", 1000000, 1u << 24, FLAG_UP + 2);
    searches("a bit that is no error", 6, 1u << 20, FLAG_UP + 2);
    searches("bit 31", 6, 1u << 31, FLAG_UP + 2);
    searches("a later bit", 6, 1u << 23, FLAG_UP + 3);
    searches("one of several", 6, 1u << 23 | 1u << 18, FLAG_UP + 3);
    searches("the last bit before an unlisted command", 6, 1u << 22, FLAG_UP + 5);
    searches("no such bit", 6, 1u << 18, 5 * MODEL_CODE_UNIT + 5);
    searches("bits 11..0", 6, 0xFFF, 5 * MODEL_CODE_UNIT + 5);
    searches("any bit", 6, 0xFFFFFFFF, FLAG_UP + 2);

    flag_program(); /* another bit of the mask stands, so the new one does not count until all were clear */
    set(63, 1u << 24);
    word[PC] += 4;
    word[NEXT] += 4;
    equal("a bit that stands", find(5, 1u << 24 | 1u << 23), 5 * MODEL_CODE_UNIT + 4);
    flag_program();
    set(63, 1u << 24);
    word[PC] += 4;
    word[NEXT] += 4;
    equal("up after all were clear", find(5, 7u << 22), FLAG_UP + 4);
    fresh(); /* set before, and again by a command: it never came up */
    set(9, 0x7FFF);
    set(63, 1u << 24);
    put_word(ram + CODE_BASE, encode_command(0x28, 0, 0));
    equal("set again", find(1, 1u << 24), 1);
    fresh();
    set(9, 0x7FFF);
    put_word(ram + CODE_BASE, encode_command(0x28, 0, 0));
    equal("set by a command", find(9, 1u << 24), FLAG_UP + 1);
    equal("the step was carried out", cop2(25), 0x3FFF0001);

    fresh(); /* the refusals, in the order of the run's */
    ram_length = 6;
    equal("search, length before form", find_length(431, 2000000, 1), 1 * MODEL_CODE_UNIT);
    word[0] = 1;
    equal("search, form before RAM", find(2000000, 1), 2 * MODEL_CODE_UNIT);
    word[0] = 0;
    equal("search, RAM before count", find(2000000, 1), 3 * MODEL_CODE_UNIT);
    ram_length = 4;
    equal("search, count", find(1000001, 1), 4 * MODEL_CODE_UNIT);
    equal("search, count past 32 bits", find(0x100000005, 1), 4 * MODEL_CODE_UNIT);
}

/* ---- The window ------------------------------------------------------------------ */

static uint64_t window_at(size_t length_of_ram, uint32_t address, uint64_t length)
{
    return model_window(ram, length_of_ram, pad, pad_length, address, length);
}

/* Where the byte lies: its place in RAM, 2^31 and its place in the pad, or UINT64_MAX. */
static uint64_t byte_place(uint64_t length_of_ram, uint32_t address)
{
    static const uint32_t bases[] = {0, 0x80000000, 0xA0000000}, pads[] = {0x1F800000, 0x9F800000};
    unsigned i;

    for (i = 0; i < 3; i++)
        if (address >= bases[i] && address - bases[i] < length_of_ram)
            return address - bases[i];
    for (i = 0; i < 2; i++)
        if (address >= pads[i] && address - pads[i] < 1024)
            return 0x80000000 + address - pads[i];
    return UINT64_MAX;
}

/* The definition, byte by byte modulo 2^32. */
static uint64_t window_by_bytes(uint64_t length_of_ram, uint32_t address, uint64_t length)
{
    uint64_t first = byte_place(length_of_ram, address), words = length_of_ram / 4, i;

    if (words < 1 || words > 524288 || 4 * words != length_of_ram || pad_length != 1024 || first == UINT64_MAX)
        return 0;
    for (i = 0; i < length; i++)
        if (byte_place(length_of_ram, (uint32_t)(address + i)) != first + i)
            return 0;
    return first << 32 | length;
}

/* How many windows at the address differ from the definition: lengths from that one on, and huge ones. */
static unsigned differing_windows(size_t length_of_ram, uint32_t address, uint64_t from)
{
    static const uint64_t huge[] = {0x20000000, 0xFFFFFFFF, 0x100000000, 0x100000001, 0x100000400, 0x7FFFFFFFFFFFFFFF,
                                    0x8000000000000000, 0x8000000000000001, UINT64_MAX};
    unsigned i, different = 0;
    uint64_t length;

    for (length = from; length < from + 24; length++)
        different += window_at(length_of_ram, address, length) != window_by_bytes(length_of_ram, address, length);
    for (i = 0; i < sizeof huge / sizeof *huge; i++)
        different += window_at(length_of_ram, address, huge[i]) != window_by_bytes(length_of_ram, address, huge[i]);
    return different;
}

static void windows(void)
{
    static const size_t rams[] = {0, 1, 2, 3, 4, 5, 6, 7, 8, 12, 13, 20, 2097151, 2097152, 2097153, 2097156};
    unsigned i, segment, different = 0;
    uint32_t at;

    fresh();
    equal("window at the start", window_at(64, 0, 64), 64);
    equal("window past the end", window_at(64, 0, 65), 0);
    equal("window of the last byte", window_at(64, 0xA000003F, 1), (uint64_t)63 << 32 | 1);
    equal("window of no byte", window_at(64, 0x80000010, 0), (uint64_t)16 << 32);
    equal("window of no byte at the end", window_at(64, 64, 0), 0);
    equal("window in kseg2", window_at(64, 0xC0000000, 1), 0);
    equal("window in RAM of 6", window_at(6, 0, 1), 0);
    equal("window of all RAM", window_at(2097152, 0x80000000, 2097152), 2097152);
    equal("window of all RAM and one byte", window_at(2097152, 0x80000000, 2097153), 0);
    equal("window in RAM of 2097156", window_at(2097156, 0, 1), 0);

    /* Around both ends of RAM in every segment. */
    for (i = 0; i < sizeof rams / sizeof *rams; i++)
        for (segment = 0; segment < 8; segment++)
            for (at = 0; at < 25; at++)
                different += differing_windows(rams[i], (segment << 29) + (at < 5 ? at - 2 : (uint32_t)rams[i] + at - 15), 0);
    equal("windows byte by byte", different, 0);
}

static void pad_windows(void)
{
    static const size_t rams[] = {0, 3, 4, 64, 2097151, 2097156}, pads[] = {0, 5, 1020, 1023, 1024, 1025, 1028, 2048};
    unsigned i, k, segment, different = 0;
    uint32_t at;

    fresh();
    equal("window of the whole pad", window_at(64, 0x1F800000, 1024), 0x8000000000000400);
    equal("window of the whole pad through 100", window_at(64, 0x9F800000, 1024), 0x8000000000000400);
    equal("window of the pad through 101", window_at(64, 0xBF800000, 1), 0);
    equal("window of no byte through 101", window_at(64, 0xBF800000, 0), 0);
    equal("window of the pad's last byte", window_at(64, 0x1F8003FF, 1), 0x800003FF00000001);
    equal("window of the pad and one byte", window_at(64, 0x1F800000, 1025), 0);
    equal("window past the pad's end", window_at(64, 0x1F8003FF, 2), 0);
    equal("window from below the pad", window_at(64, 0x1F7FFFFF, 2), 0);
    equal("window below the pad", window_at(64, 0x1F7FFFFF, 1), 0);
    equal("window of no byte in the pad", window_at(64, 0x9F800010, 0), 0x8000001000000000);
    equal("window of no byte at the pad's start", window_at(64, 0x1F800000, 0), 0x8000000000000000);
    equal("window of no byte at the pad's end", window_at(64, 0x1F800400, 0), 0);
    equal("window of 2^32 bytes in the pad", window_at(64, 0x1F800000, 0x100000000), 0);
    equal("window of 2^63 bytes in the pad", window_at(64, 0x1F800000, 0x8000000000000000), 0);
    equal("window of 2^64 - 1 bytes in the pad", window_at(64, 0x1F800000, UINT64_MAX), 0);
    equal("window of the pad in RAM of 6", window_at(6, 0x1F800000, 4), 0);
    equal("window of no byte of the pad in RAM of 6", window_at(6, 0x1F800010, 0), 0);
    pad_length = 5; /* T-62 */
    equal("T-62 window of RAM", window_at(64, 0, 4), 0);
    equal("T-62 window of no byte of RAM", window_at(64, 16, 0), 0);
    equal("T-62 window of the pad", window_at(64, 0x1F800000, 4), 0);

    /* Around both ends of the pad in every segment, and at RAM's beginning and end. */
    for (i = 0; i < sizeof rams / sizeof *rams; i++)
        for (k = 0; k < sizeof pads / sizeof *pads; k++)
            for (segment = 0; segment < 8; segment++)
                for (at = 0; at < 32; at++) {
                    uint32_t in_pad = (segment << 29) + 0x1F800000 + (at < 16 ? at - 8 : 1024 + at - 24);
                    uint32_t in_ram = (segment << 29) + (at < 16 ? at - 8 : (uint32_t)rams[i] + at - 24);

                    pad_length = pads[k];
                    different += differing_windows(rams[i], in_pad, 0) + differing_windows(rams[i], in_pad, 1008);
                    different += differing_windows(rams[i], in_ram, 0);
                }
    equal("windows of both memories byte by byte", different, 0);
}

/* ---- Load delay -------------------------------------------------------------- */

static void waiting(uint32_t number, uint32_t value)
{
    word[WAIT] = number;
    word[WAITING] = value;
}

static void none_waiting(const char *what)
{
    equal(what, (uint64_t)word[WAIT] << 32 | word[WAITING], 0);
}

static void load_delay(void)
{
    fresh(); /* T-01: an instruction that traps drops nothing */
    word[2] = 0x7FFFFFFF;
    word[3] = 1;
    waiting(1, 0x55);
    step(encode_r(F_ADD, 1, 2, 3, 0));
    equal("T-01 r1", word[1], 0x55);
    equal("T-01 CAUSE", word[CAUSE], 0x30);
    none_waiting("T-01 waiting");
    fresh();
    waiting(1, 0x55);
    step(encode_i(OP_LW, 1, 0, 2));
    equal("T-01 LW r1", word[1], 0x55);
    equal("T-01 LW BADV", word[BADV], 2);
    none_waiting("T-01 LW waiting");

    fresh(); /* T-02 */
    word[1] = 7;
    word[2] = 2;
    waiting(1, 0x55);
    step(encode_r(F_ADDU, 1, 1, 2, 0));
    equal("T-02 r1", word[1], 9);
    none_waiting("T-02 waiting");

    fresh(); /* T-03 */
    word[1] = 3;
    put_word(ram + 0x20, 0x12345678);
    waiting(1, 0x55);
    step(encode_i(OP_LW, 1, 0, 0x20));
    equal("T-03 r1", word[1], 3);
    equal("T-03 word 36", word[WAIT], 1);
    equal("T-03 word 37", word[WAITING], 0x12345678);
    step(0);
    equal("T-03 lands", word[1], 0x12345678);
    none_waiting("T-03 waiting");

    fresh(); /* T-04 */
    waiting(31, 0x1234);
    step(encode_j(OP_JAL, 0x200));
    equal("T-04 JAL", word[31], CODE_BASE + 8);
    fresh();
    word[31] = 0x300;
    waiting(31, 0x1234);
    step(encode_r(F_JR, 0, 31, 0, 0));
    equal("T-04 JR next PC", word[NEXT], 0x300);
    equal("T-04 JR r31", word[31], 0x1234);
    fresh();
    word[31] = 0x80000000;
    waiting(31, 0x1234);
    step(encode_i(OP_BCOND, 0x10, 31, 4));
    equal("T-04 BLTZAL next PC", word[NEXT], CODE_BASE + 4 + 16);
    equal("T-04 BLTZAL r31", word[31], CODE_BASE + 8);
    fresh();
    word[5] = 0x400;
    step(encode_r(F_JALR, 5, 5, 0, 0));
    equal("T-04 JALR next PC", word[NEXT], 0x400);
    equal("T-04 JALR r5", word[5], CODE_BASE + 8);

    fresh(); /* T-05 */
    unsigned i;
    for (i = 0; i < 8; i++)
        ram[0x20 + i] = (uint8_t)(0x10 + i);
    word[1] = 0xEEEEEEEE;
    word[2] = 0x21;
    step(encode_i(OP_LWR, 1, 2, 0));
    equal("T-05 after LWR", word[WAITING], 0xEE131211);
    step(encode_i(OP_LWL, 1, 2, 3));
    equal("T-05 after LWL", word[WAITING], 0x14131211);
    equal("T-05 r1", word[1], 0xEEEEEEEE);
    step(0);
    equal("T-05 later", word[1], 0x14131211);
    fresh(); /* a value waiting from MFC0 merges too; the base is the register */
    word[EPC] = 0xAABBCCDD;
    step(encode_move(0, 0, 1, 14));
    step(encode_i(OP_LWL, 1, 0, 0));
    equal("T-05 MFC0 merge", word[WAITING], 0x00BBCCDD);

    fresh(); /* T-06 */
    put_word(ram + 0x20, 0x11);
    put_word(ram + 0x30, 0x22);
    word[1] = 0x20;
    waiting(1, 0x30);
    step(encode_i(OP_LWC2, 9, 1, 0));
    equal("T-06 IR1", cop2(9), 0x11);
    equal("T-06 r1", word[1], 0x30);
    none_waiting("T-06 waiting");

    fresh(); /* T-07 */
    word[1] = 1;
    waiting(1, 2);
    step(encode_i(OP_SW, 1, 0, 0x20));
    equal("T-07 SW", get_word(ram + 0x20), 1);
    fresh();
    word[1] = 1;
    waiting(1, 2);
    step(encode_move(2, 4, 1, 0));
    equal("T-07 MTC2", cop2(0), 1);
    equal("T-07 MTC2 r1", word[1], 2);
    fresh();
    word[1] = 1;
    waiting(1, 2);
    step(encode_r(F_MULT, 0, 1, 1, 0));
    equal("T-07 MULT", word[LO], 1);
    fresh();
    word[1] = 0x40000001;
    waiting(1, 2);
    step(encode_move(0, 4, 1, 12));
    equal("T-07 MTC0", word[SR], 0x40000001);

    fresh(); /* T-08 */
    word[1] = 5;
    step(encode_move(0, 0, 1, 3));
    equal("T-08 r1", word[1], 5);
    equal("T-08 word 36", word[WAIT], 1);
    equal("T-08 word 37", word[WAITING], 0);
    step(0);
    equal("T-08 r1 later", word[1], 0);

    fresh(); /* T-09 */
    put_word(ram + 0x20, 5);
    waiting(3, 9);
    step(encode_i(OP_LW, 0, 0, 0x20));
    none_waiting("T-09 waiting");
    equal("T-09 r3", word[3], 9);
    equal("T-09 r0", word[0], 0);
    fresh();
    step(encode_i(OP_LW, 0, 0, 0x21));
    equal("T-09 AdEL", word[CAUSE], 4 << 2);
    fresh();
    step(encode_i(OP_LW, 0, 0, 0x7FF0));
    equal("T-09 DBE", word[CAUSE], 7 << 2);
    fresh();
    word[SR] = 0;
    step(encode_move(2, 0, 0, 0));
    equal("T-09 CpU", word[CAUSE], 0x20000000 | 11 << 2);
    fresh();
    step(encode_move(2, 2, 0, 31));
    none_waiting("T-09 CFC2 r0");

    fresh(); /* T-10 */
    word[1] = 0x7FFFFFFF;
    step(encode_i(OP_ADDI, 0, 1, 1));
    equal("T-10 ADDI r0", word[CAUSE], 12 << 2);
    fresh();
    word[1] = 0x80000000;
    word[2] = 1;
    step(encode_r(F_SUB, 0, 1, 2, 0));
    equal("T-10 SUB r0", word[CAUSE], 12 << 2);

    fresh(); /* T-11 */
    waiting(3, 9);
    word[PC] = 0x102;
    equal("T-11 answer", run(1), 1);
    equal("T-11 AdEL r3", word[3], 9);
    equal("T-11 AdEL", word[CAUSE], 4 << 2);
    fresh();
    waiting(3, 9);
    word[PC] = 0x20000000;
    equal("T-11 answer", run(1), 1);
    equal("T-11 IBE r3", word[3], 9);
    equal("T-11 IBE", word[CAUSE], 6 << 2);
    none_waiting("T-11 waiting");

    fresh(); /* a load is not visible at once */
    put_word(ram + 0x20, 5);
    put_word(ram + CODE_BASE, encode_i(OP_LW, 1, 0, 0x20));
    put_word(ram + CODE_BASE + 4, encode_r(F_ADDU, 2, 1, 0, 0));
    put_word(ram + CODE_BASE + 8, encode_r(F_ADDU, 3, 1, 0, 0));
    run(3);
    equal("load delay, next instruction", word[2], 0);
    equal("load delay, the one after", word[3], 5);
}

/* ---- Arithmetic of the processor ------------------------------------------- */

/* The result in r3 of an R-type instruction on r1 and r2. */
static uint32_t operate(uint32_t funct, uint32_t r1, uint32_t r2)
{
    fresh();
    word[1] = r1;
    word[2] = r2;
    step(encode_r(funct, 3, 1, 2, 0));
    return word[3];
}

static uint32_t operate_shift(uint32_t funct, uint32_t r2, uint32_t shift)
{
    fresh();
    word[2] = r2;
    step(encode_r(funct, 3, 0, 2, shift));
    return word[3];
}

static uint32_t operate_immediate(uint32_t opcode, uint32_t r1, int32_t immediate)
{
    fresh();
    word[1] = r1;
    step(encode_i(opcode, 3, 1, immediate));
    return word[3];
}

/* HI and LO after a multiplication or division. */
static uint64_t hi_lo(uint32_t funct, uint32_t r1, uint32_t r2)
{
    operate(funct, r1, r2);
    return (uint64_t)word[HI] << 32 | word[LO];
}

/* HI and LO of MULT and MULTU of every pair of edges, worked out by hand. */
static void products(void)
{
    static const struct {
        uint32_t a, b;
        uint64_t product, unsigned_product;
    } edges[] = {
        {0, 0, 0, 0},
        {0, 1, 0, 0},
        {0, 0x7FFFFFFF, 0, 0},
        {0, 0x80000000, 0, 0},
        {0, 0xFFFFFFFF, 0, 0},
        {1, 1, 1, 1},
        {1, 0x7FFFFFFF, 0x7FFFFFFF, 0x7FFFFFFF},
        {1, 0x80000000, 0xFFFFFFFF80000000, 0x80000000},
        {1, 0xFFFFFFFF, 0xFFFFFFFFFFFFFFFF, 0xFFFFFFFF},
        {0x7FFFFFFF, 0x7FFFFFFF, 0x3FFFFFFF00000001, 0x3FFFFFFF00000001},
        {0x7FFFFFFF, 0x80000000, 0xC000000080000000, 0x3FFFFFFF80000000},
        {0x7FFFFFFF, 0xFFFFFFFF, 0xFFFFFFFF80000001, 0x7FFFFFFE80000001},
        {0x80000000, 0x80000000, 0x4000000000000000, 0x4000000000000000},
        {0x80000000, 0xFFFFFFFF, 0x0000000080000000, 0x7FFFFFFF80000000},
        {0xFFFFFFFF, 0xFFFFFFFF, 1, 0xFFFFFFFE00000001},
    };
    unsigned i;

    for (i = 0; i < sizeof edges / sizeof *edges; i++) {
        equal("MULT of edges", hi_lo(F_MULT, edges[i].a, edges[i].b), edges[i].product);
        equal("MULT of edges, exchanged", hi_lo(F_MULT, edges[i].b, edges[i].a), edges[i].product);
        equal("MULTU of edges", hi_lo(F_MULTU, edges[i].a, edges[i].b), edges[i].unsigned_product);
        equal("MULTU of edges, exchanged", hi_lo(F_MULTU, edges[i].b, edges[i].a), edges[i].unsigned_product);
    }
    /* the carries of a product that is made from halves */
    equal("MULTU, the first carry", hi_lo(F_MULTU, 0x0000FFFF, 0x0002FFFF), 0x00000002FFFC0001);
    equal("MULTU, the second carry", hi_lo(F_MULTU, 0x0002FFFF, 0x0000FFFF), 0x00000002FFFC0001);
    equal("MULTU, both carries", hi_lo(F_MULTU, 0x0002FFFF, 0x0002FFFF), 0x00000008FFFA0001);
    equal("MULTU, no carry", hi_lo(F_MULTU, 0x00020003, 0x00040005), 0x000000080016000F);
    equal("MULT, a carry and a sign", hi_lo(F_MULT, 0xFFFFFFFD, 0x7FFFFFFF), 0xFFFFFFFE80000003);
}

static void arithmetic(void)
{
    equal("SLL", operate_shift(F_SLL, 0x80000001, 31), 0x80000000);
    equal("SRL", operate_shift(F_SRL, 0x80000001, 31), 1);
    equal("SRA", operate_shift(F_SRA, 0x80000001, 31), 0xFFFFFFFF);
    equal("SRA 0", operate_shift(F_SRA, 0x80000001, 0), 0x80000001);
    equal("SLLV", operate(F_SLLV, 0xFFFFFFE1, 3), 6);
    equal("SRLV", operate(F_SRLV, 32, 0x80000000), 0x80000000);
    equal("SRAV", operate(F_SRAV, 0x24, 0x80000000), 0xF8000000);
    equal("ADD", operate(F_ADD, 0x7FFFFFFF, 0x80000000), 0xFFFFFFFF);
    equal("ADD of negatives traps", (operate(F_ADD, 0x80000000, 0xFFFFFFFF), word[CAUSE]), 12 << 2);
    equal("ADDU wraps", operate(F_ADDU, 0xFFFFFFFF, 2), 1);
    equal("SUB", operate(F_SUB, 5, 7), (uint32_t)-2);
    equal("SUB traps", (operate(F_SUB, 0x80000000, 1), word[CAUSE]), 12 << 2);
    equal("SUB of 80000000h traps", (operate(F_SUB, 0, 0x80000000), word[CAUSE]), 12 << 2);
    equal("SUB -1 - 80000000h", operate(F_SUB, 0xFFFFFFFF, 0x80000000), 0x7FFFFFFF);
    equal("SUBU wraps", operate(F_SUBU, 0, 0x80000000), 0x80000000);
    equal("AND", operate(F_AND, 0xFF00FF00, 0x0FF00FF0), 0x0F000F00);
    equal("OR", operate(F_OR, 0xFF00FF00, 0x0FF00FF0), 0xFFF0FFF0);
    equal("XOR", operate(F_XOR, 0xFF00FF00, 0x0FF00FF0), 0xF0F0F0F0);
    equal("NOR", operate(F_NOR, 0xFF00FF00, 0x0FF00FF0), 0x000F000F);
    equal("SLT", operate(F_SLT, 0x80000000, 0), 1);
    equal("SLT equal", operate(F_SLT, 5, 5), 0);
    equal("SLTU", operate(F_SLTU, 0x80000000, 0), 0);
    equal("SLTU less", operate(F_SLTU, 0, 0xFFFFFFFF), 1);
    equal("ADDI", operate_immediate(OP_ADDI, 5, -6), 0xFFFFFFFF);
    equal("ADDI traps", (operate_immediate(OP_ADDI, 0x80000000, -1), word[CAUSE]), 12 << 2);
    equal("ADDIU", operate_immediate(OP_ADDIU, 0x80000000, -1), 0x7FFFFFFF);
    equal("SLTI", operate_immediate(OP_SLTI, 0xFFFFFFFE, -1), 1);
    equal("SLTIU", operate_immediate(OP_SLTIU, 0xFFFFFFFE, -1), 1);
    equal("SLTIU of 8000h", operate_immediate(OP_SLTIU, 0x8000, -0x8000), 1);
    equal("ANDI", operate_immediate(OP_ANDI, 0xFFFFFFFF, 0x8001), 0x8001);
    equal("ORI", operate_immediate(OP_ORI, 0x10000, 0x8001), 0x18001);
    equal("XORI", operate_immediate(OP_XORI, 0xFFFFFFFF, 0x8001), 0xFFFF7FFE);
    equal("LUI", operate_immediate(OP_LUI, 0xFFFFFFFF, 0x8001), 0x80010000);

    equal("MULT", hi_lo(F_MULT, 0xFFFFFFFF, 0xFFFFFFFF), 1);
    equal("MULT sign", hi_lo(F_MULT, 0xFFFFFFFF, 2), 0xFFFFFFFFFFFFFFFE);
    equal("MULT lowest", hi_lo(F_MULT, 0x80000000, 0x80000000), 0x4000000000000000);
    equal("MULTU", hi_lo(F_MULTU, 0xFFFFFFFF, 0xFFFFFFFF), 0xFFFFFFFE00000001);
    products();
    equal("DIV -7 / 2", hi_lo(F_DIV, (uint32_t)-7, 2), 0xFFFFFFFFFFFFFFFD);
    equal("DIV 7 / -2", hi_lo(F_DIV, 7, (uint32_t)-2), 0x00000001FFFFFFFD);
    equal("DIV 5 / 0", hi_lo(F_DIV, 5, 0), 0x00000005FFFFFFFF);
    equal("DIV 0 / 0", hi_lo(F_DIV, 0, 0), 0x00000000FFFFFFFF);
    equal("DIV -5 / 0", hi_lo(F_DIV, (uint32_t)-5, 0), 0xFFFFFFFB00000001);
    equal("DIV lowest / -1", hi_lo(F_DIV, 0x80000000, 0xFFFFFFFF), 0x0000000080000000);
    equal("DIVU 5 / 0", hi_lo(F_DIVU, 5, 0), 0x00000005FFFFFFFF);
    equal("DIVU 80000000h / 0", hi_lo(F_DIVU, 0x80000000, 0), 0x80000000FFFFFFFF);
    equal("DIVU", hi_lo(F_DIVU, 0xFFFFFFFF, 16), 0x0000000F0FFFFFFF);
    equal("MULT writes no rd", word[3], 0);

    fresh();
    word[1] = 5;
    step(encode_r(F_MTHI, 7, 1, 2, 3));
    step(encode_r(F_MTLO, 7, 0, 1, 3));
    equal("MTHI reads rs", word[HI], 5);
    equal("MTLO reads rs", word[LO], 0);
    word[LO] = 6;
    step(encode_r(F_MFHI, 3, 9, 9, 9));
    step(encode_r(F_MFLO, 4, 9, 9, 9));
    equal("MFHI", word[3], 5);
    equal("MFLO", word[4], 6);
    step(encode_i(OP_ADDIU, 0, 0, 5));
    equal("r0 stays 0", word[0], 0);
}

/* ---- Jumps and branches ------------------------------------------------------ */

static bool taken(uint32_t opcode, uint32_t rt, uint32_t r1)
{
    fresh();
    word[1] = r1;
    step(encode_i(opcode, rt, 1, 0x40));
    equal("branch PC", word[PC], CODE_BASE + 4);
    equal("branch word 38", word[SLOT], 1);
    if (word[NEXT] != CODE_BASE + 4 + 0x100)
        equal("branch not taken", word[NEXT], CODE_BASE + 8);
    return word[NEXT] != CODE_BASE + 8;
}

static void jumps(void)
{
    equal("BEQ", taken(OP_BEQ, 0, 0), true);
    equal("BEQ not", taken(OP_BEQ, 0, 1), false);
    equal("BNE", taken(OP_BNE, 0, 1), true);
    equal("BNE not", taken(OP_BNE, 0, 0), false);
    equal("BLEZ 0", taken(OP_BLEZ, 0, 0), true);
    equal("BLEZ -1, rt ignored", taken(OP_BLEZ, 7, 0xFFFFFFFF), true);
    equal("BLEZ 1", taken(OP_BLEZ, 0, 1), false);
    equal("BGTZ 1, rt ignored", taken(OP_BGTZ, 7, 1), true);
    equal("BGTZ 0", taken(OP_BGTZ, 0, 0), false);
    equal("BGTZ -1", taken(OP_BGTZ, 0, 0xFFFFFFFF), false);
    equal("BLTZ -1", taken(OP_BCOND, 0x00, 0xFFFFFFFF), true);
    equal("BLTZ 0", taken(OP_BCOND, 0x00, 0), false);
    equal("BLTZ r31", word[31], 0);
    equal("BGEZ 0", taken(OP_BCOND, 0x01, 0), true);
    equal("BGEZ -1", taken(OP_BCOND, 0x01, 0xFFFFFFFF), false);
    equal("BLTZAL -1", taken(OP_BCOND, 0x10, 0xFFFFFFFF), true);
    equal("BLTZAL link", word[31], CODE_BASE + 8);
    equal("BLTZAL 0", taken(OP_BCOND, 0x10, 0), false);
    equal("BLTZAL link, not taken", word[31], CODE_BASE + 8);
    equal("BGEZAL 0", taken(OP_BCOND, 0x11, 0), true);
    equal("BGEZAL -1", taken(OP_BCOND, 0x11, 0xFFFFFFFF), false);
    equal("BGEZAL link, not taken", word[31], CODE_BASE + 8);

    fresh(); /* T-17: targets start from next PC as it stood */
    word[PC] = 0x80000010;
    word[NEXT] = 0xA0000100;
    word[SLOT] = 1;
    step(OP_J << 26 | 0x20);
    equal("T-17 J", word[NEXT], 0xA0000080);
    equal("T-17 J PC", word[PC], 0xA0000100);
    fresh();
    word[PC] = 0x10;
    word[NEXT] = 0x40;
    step(encode_i(OP_BCOND, 0x11, 0, -1));
    equal("T-17 BGEZAL next PC", word[NEXT], 0x3C);
    equal("T-17 BGEZAL r31", word[31], 0x44);
    fresh();
    word[NEXT] = 0xFFFFFFFC;
    step(encode_j(OP_JAL, 0x0FFFFFFC));
    equal("JAL next PC", word[NEXT], 0xFFFFFFFC);
    equal("JAL link wraps", word[31], 0);
    fresh();
    word[NEXT] = 0xFFFFFFFC;
    step(0);
    equal("next PC wraps", word[NEXT], 0);
    equal("word 38 after an ordinary step", word[SLOT], 0);

    fresh(); /* T-15: JR to an odd address runs the delay slot first */
    word[1] = 0x203;
    put_word(ram + CODE_BASE, encode_r(F_JR, 0, 1, 0, 0));
    put_word(ram + CODE_BASE + 4, encode_i(OP_ADDIU, 2, 0, 7));
    equal("T-15 answer", run(2), 2);
    equal("T-15 delay slot", word[2], 7);
    equal("T-15 PC", word[PC], 0x203);
    equal("T-15 answer", run(1), 1);
    equal("T-15 BADV", word[BADV], 0x203);
    equal("T-15 EPC", word[EPC], 0x203);
    equal("T-15 CAUSE", word[CAUSE], 4 << 2);
    fresh();
    word[PC] = 0x42;
    word[SLOT] = 1;
    equal("T-15 answer", run(1), 1);
    equal("T-15 EPC in slot", word[EPC], 0x3E);
    equal("T-15 CAUSE in slot", word[CAUSE], 0x80000010);
    equal("T-15 BADV in slot", word[BADV], 0x42);
    fresh(); /* T-16 */
    word[PC] = 0x40;
    word[NEXT] = 0x3C;
    word[SLOT] = 1;
    step(encode_r(F_SYSCALL, 0, 0, 0, 0));
    equal("T-16 EPC", word[EPC], 0x3C);
    equal("T-16 CAUSE", word[CAUSE], 0x80000020);
}

/* ---- Decoding and exceptions ------------------------------------------------- */

/* CAUSE after one instruction from a fresh machine with this SR. */
static uint32_t cause_of(uint32_t instruction, uint32_t sr)
{
    fresh();
    word[SR] = sr;
    step(instruction);
    return word[CAUSE];
}

#define USER 2u
#define CAUSE_RI (10u << 2)
#define CAUSE_CPU(z) ((z) << 28 | 11u << 2)

static void decoding(void)
{
    static const uint8_t special[] = {0x00, 0x02, 0x03, 0x04, 0x06, 0x07, 0x08, 0x09, 0x10, 0x11, 0x12, 0x13, 0x18, 0x19,
                                      0x1A, 0x1B, 0x20, 0x21, 0x22, 0x23, 0x24, 0x25, 0x26, 0x27, 0x2A, 0x2B};
    static const uint8_t reserved[] = {0x14, 0x15, 0x16, 0x17, 0x18, 0x19, 0x1A, 0x1B, 0x1C, 0x1D, 0x1E, 0x1F, 0x27,
                                       0x2C, 0x2D, 0x2F, 0x30, 0x34, 0x35, 0x36, 0x37, 0x38, 0x3C, 0x3D, 0x3E, 0x3F};
    unsigned i, j;

    for (i = 0; i < 64; i++) {
        uint32_t expected = i == 0x0C ? 8 << 2 : i == 0x0D ? 9 << 2 : CAUSE_RI;

        for (j = 0; j < sizeof special; j++)
            if (special[j] == i)
                expected = 0;
        equal("SPECIAL", cause_of(0x03FFFFC0 | i, 0), expected);
    }
    for (i = 0; i < 32; i++)
        equal("BCOND", cause_of(encode_i(OP_BCOND, i, 0, 0), 0), i == 0 || i == 1 || i == 0x10 || i == 0x11 ? 0 : CAUSE_RI);
    for (i = 0; i < sizeof reserved; i++) {
        equal("reserved opcode", cause_of((uint32_t)reserved[i] << 26, 0xF0000000), CAUSE_RI);
        equal("reserved opcode, user mode", cause_of((uint32_t)reserved[i] << 26, USER), CAUSE_RI);
    }
    for (i = 0; i < 32; i++) {
        bool move0 = i == 0 || i == 4, move2 = i == 0 || i == 2 || i == 4 || i == 6;

        equal("COP0 form", cause_of(0x40000000 | i << 21, 0), move0 ? 0 : CAUSE_RI);
        equal("COP0 form, user mode", cause_of(0x40000000 | i << 21, USER), CAUSE_CPU(0u));
        equal("COP0 form, user mode with CU0", cause_of(0x40000000 | i << 21, USER | 0x10000000), move0 ? 0 : CAUSE_RI);
        equal("COP0 form with funct 10h", cause_of(0x40000010 | i << 21, 0), move0 || i >= 16 ? 0 : CAUSE_RI);
        equal("COP2 form", cause_of(0x48000006 | i << 21, CU2), move2 || i >= 16 ? 0 : CAUSE_RI);
        equal("COP2 form, CU2 clear", cause_of(0x48000006 | i << 21, 0xB0000000), CAUSE_CPU(2u));
        equal("COP2 form, user mode", cause_of(0x48000006 | i << 21, USER | CU2), move2 || i >= 16 ? 0 : CAUSE_RI);
        equal("COP1 form", cause_of(0x44000000 | i << 21, 0xD0000000), CAUSE_CPU(1u));
        equal("COP1 form with CU1", cause_of(0x44000000 | i << 21, 0x20000000), CAUSE_RI);
        equal("COP3 form", cause_of(0x4C000000 | i << 21, 0x70000000), CAUSE_CPU(3u));
        equal("COP3 form with CU3", cause_of(0x4C000000 | i << 21, 0x80000000), CAUSE_RI);
    }
    for (i = 0; i < 64; i++)
        equal("COP0 function", cause_of(0x42000000 | i, 0), i == 0x10 ? 0 : CAUSE_RI);
    equal("T-26 bits 24..6 ignored", cause_of(0x43FFFFD0, 0), 0);
    equal("T-26 funct 30h", cause_of(0x42000030, 0), CAUSE_RI);
    /* T-22: loads and stores of COP1 and COP3 with bad addresses */
    equal("LWC1", cause_of(0x31u << 26 | 1, 0), CAUSE_CPU(1u));
    equal("LWC3", cause_of(0x33u << 26 | 1, 0), CAUSE_CPU(3u));
    equal("SWC1", cause_of(0x39u << 26 | 1, 0), CAUSE_CPU(1u));
    equal("SWC3", cause_of(0x3Bu << 26 | 1, 0), CAUSE_CPU(3u));
    equal("LWC1 with CU1", cause_of(0x31u << 26 | 1, 0x20000000), CAUSE_RI);
    equal("LWC3 with CU3", cause_of(0x33u << 26 | 1, 0x80000000), CAUSE_RI);
    equal("SWC1 with CU1", cause_of(0x39u << 26 | 1, 0x20000000), CAUSE_RI);
    equal("SWC3 with CU3", cause_of(0x3Bu << 26 | 1, 0x80000000), CAUSE_RI);
    equal("SWC2, CU2 clear", cause_of(encode_i(OP_SWC2, 0, 0, 1), 0), CAUSE_CPU(2u));
    equal("SWC2 misaligned", cause_of(encode_i(OP_SWC2, 0, 0, 1), CU2), 5 << 2);
    equal("LWC2 misaligned", cause_of(encode_i(OP_LWC2, 0, 0, 1), CU2), 4 << 2);
    equal("RFE in user mode", cause_of(RFE, USER), CAUSE_CPU(0u));
}

static void exceptions(void)
{
    fresh(); /* T-18 */
    word[SR] = USER;
    word[PC] = 0x80000000;
    run(1);
    equal("T-18 AdEL", word[CAUSE], 4 << 2);
    equal("T-18 BADV", word[BADV], 0x80000000);
    equal("T-18 SR", word[SR], 8);
    fresh();
    word[SR] = USER;
    word[PC] = 0x20000000;
    word[BADV] = 77;
    run(1);
    equal("T-18 IBE", word[CAUSE], 6 << 2);
    equal("T-18 BADV unchanged", word[BADV], 77);
    fresh();
    word[1] = 0xC0000000;
    step(encode_i(OP_LW, 2, 1, 0));
    equal("T-18 kernel DBE", word[CAUSE], 7 << 2);
    equal("T-18 kernel BADV", word[BADV], 0);
    fresh();
    word[SR] = USER;
    word[1] = 0xC0000000;
    step(encode_i(OP_LW, 2, 1, 0));
    equal("T-18 user AdEL", word[CAUSE], 4 << 2);
    equal("T-18 user BADV", word[BADV], 0xC0000000);
    fresh();
    word[SR] = USER;
    word[1] = 0x80000000;
    step(encode_i(OP_SWL, 2, 1, 1));
    equal("user SWL AdES", word[CAUSE], 5 << 2);
    equal("user SWL BADV", word[BADV], 0x80000001);

    fresh(); /* T-19 */
    word[SR] = 0;
    word[CAUSE] = 0xB000037C;
    step(encode_i(OP_LWC2, 0, 0, 1));
    equal("T-19 CU2 clear", word[CAUSE], 0x2000032C);
    fresh();
    word[CAUSE] = 0xB000037C;
    step(encode_i(OP_LWC2, 0, 0, 1));
    equal("T-19 CU2 set", word[CAUSE], 0x00000310);

    fresh(); /* T-23 */
    word[PC] = 0;
    word[NEXT] = 4;
    word[SR] = 0x00400007;
    step(encode_r(F_BREAK, 0, 0, 0, 0));
    equal("T-23 PC", word[PC], 0xBFC00180);
    equal("T-23 next PC", word[NEXT], 0xBFC00184);
    equal("T-23 SR", word[SR], 0x0040001C);
    equal("T-23 CAUSE", word[CAUSE], 9 << 2);
    run(1);
    equal("T-23 EPC", word[EPC], 0xBFC00180);
    equal("T-23 SR again", word[SR], 0x00400030);
    equal("T-23 CAUSE again", word[CAUSE], 6 << 2);
    equal("T-23 further steps", run(100), 100);
    equal("T-23 SR at last", word[SR], 0x00400000);

    fresh(); /* T-24 */
    word[PC] = 0x80000100;
    word[NEXT] = 0x80000104;
    word[1] = 0xFFFFFFFF;
    step(encode_move(0, 4, 1, 12));
    equal("T-24 SR", word[SR], 0xF24FFF3F);
    run(1);
    equal("T-24 AdEL", word[CAUSE], 4 << 2);
    equal("T-24 BADV", word[BADV], 0x80000104);
    equal("T-24 SR after", word[SR], 0xF24FFF3C);

    static const uint32_t bus_errors[] = {0x20000000, 0x40000000, 0x60000000, 0xC0000000, 0xE0000000,
                                          0x00001000, 0x80001000, 0xA0001000, 0x1FFFFFFC, 0xFFFFFFFC};
    unsigned i;
    for (i = 0; i < sizeof bus_errors / sizeof *bus_errors; i++) { /* T-25 */
        fresh();
        word[1] = bus_errors[i];
        step(encode_i(OP_SW, 1, 1, 0));
        equal("store DBE", word[CAUSE], 7 << 2);
        equal("store DBE BADV", word[BADV], 0); /* T-30 */
        fresh();
        word[PC] = bus_errors[i];
        run(1);
        equal("fetch IBE", word[CAUSE], 6 << 2);
    }
    static const uint32_t segments[] = {0, 0x80000000, 0xA0000000};
    for (i = 0; i < 3; i++) {
        fresh();
        word[1] = segments[i] + 0x1004;
        word[2] = 0x11223344;
        step(encode_i(OP_SW, 2, 1, -8));
        equal("segment", get_word(ram + 0xFFC), 0x11223344);
    }
    fresh(); /* base plus offset modulo 2^32 */
    word[1] = 4;
    put_word(ram + 4, 0x99);
    step(encode_i(OP_LW, 2, 1, -8));
    equal("address below zero", word[CAUSE], 7 << 2);
    fresh();
    word[1] = 0xFFFFFFFC;
    put_word(ram + 4, 0x99);
    step(encode_i(OP_LW, 2, 1, 8));
    equal("address past 2^32", word[WAITING], 0x99);

    fresh(); /* T-35 */
    ram_length = 4;
    word[PC] = 4;
    equal("T-35", run(10), 10);
    equal("T-35 PC", word[PC], 0x80000080);
    equal("T-35 CAUSE", word[CAUSE], 6 << 2);

    fresh(); /* T-29: the unaligned address of LWL is BADV in user mode */
    word[SR] = USER;
    word[1] = 0x80000003;
    step(encode_i(OP_LWL, 2, 1, 0));
    equal("T-29 BADV", word[BADV], 0x80000003);
    fresh();
    ram_length = 0x104;
    step(encode_i(OP_LWL, 2, 0, 0x103));
    equal("T-29 last byte", word[WAIT], 2);
    fresh();
    ram_length = 0x104;
    step(encode_i(OP_LWR, 2, 0, 0x104));
    equal("T-29 past the end", word[CAUSE], 7 << 2);

    fresh(); /* nothing else changes */
    uint32_t before[MODEL_IMAGE_WORDS];
    for (i = 1; i < 34; i++)
        word[i] = 0x1000 * i;
    word[EPC] = 5;
    word[CAUSE] = 0x300;
    word[SR] = 0xF20FFF3F & ~USER;
    memcpy(before, word, sizeof word);
    step(encode_r(F_SYSCALL, 31, 31, 31, 31));
    before[PC] = 0x80000080;
    before[NEXT] = 0x80000084;
    before[EPC] = CODE_BASE;
    before[CAUSE] = 0x320;
    before[SR] = 0xF20FFF34;
    equal("SYSCALL changes", memcmp(before, word, sizeof word), 0);
}

static void coprocessor0(void)
{
    unsigned i;

    for (i = 0; i < 32; i++) {
        fresh();
        word[BADV] = 0x11111111;
        word[SR] = 0x40000040 & 0xF24FFF3F;
        word[CAUSE] = 0x30000100;
        word[EPC] = 0x44444444;
        step(encode_move(0, 0, 1, i) | 0x7FF);
        equal("MFC0", word[WAITING],
              i == 8 ? 0x11111111 : i == 12 ? 0x40000000 : i == 13 ? 0x30000100 : i == 14 ? 0x44444444 : 0);
        fresh();
        word[1] = 0xFFFFFFFD;
        word[BADV] = word[EPC] = 0x55555555;
        step(encode_move(0, 4, 1, i) | 0x7FF);
        equal("MTC0 SR", word[SR], i == 12 ? 0xF24FFF3D : CU2);
        equal("MTC0 CAUSE", word[CAUSE], i == 13 ? 0x300 : 0);
        equal("MTC0 EPC", word[EPC], 0x55555555);
        equal("MTC0 BADV", word[BADV], 0x55555555);
    }
    fresh();
    word[CAUSE] = 0xB000037C;
    step(encode_move(0, 4, 0, 13));
    equal("MTC0 CAUSE keeps the rest", word[CAUSE], 0xB000007C);
    fresh();
    word[SR] = 0x34;
    step(RFE);
    equal("RFE", word[SR], 0x3D);
    fresh(); /* no interrupts */
    word[SR] = 0x0000FF01;
    word[CAUSE] = 0x300;
    step(0);
    equal("no interrupt", word[PC], CODE_BASE + 4);
    fresh(); /* IsC and RE have no effect */
    word[SR] = 0x02010002;
    word[1] = 0x11223344;
    step(encode_i(OP_SW, 1, 0, 0x20));
    equal("IsC and RE", ram[0x20], 0x44);
}

/* ---- Loads and stores -------------------------------------------------------- */

/* Register 12, AABBCCDDh in both sets, loaded or stored at the address, where this value lies at bytes. */
static void access(uint32_t opcode, uint32_t address, uint8_t *bytes, uint32_t value)
{
    fresh();
    put_word(bytes, value);
    word[12] = word[COP2 + 12] = 0xAABBCCDD;
    word[1] = address - 0x80;
    step(encode_i(opcode, 12, 1, 0x80));
}

/* Each load and store at the four bytes of the word at the address, which lies at bytes. */
static void memory_at(uint32_t address, uint8_t *bytes)
{
    static const uint32_t lwl[4] = {0x11BBCCDD, 0x2211CCDD, 0x332211DD, 0x44332211};
    static const uint32_t lwr[4] = {0x44332211, 0xAA443322, 0xAABB4433, 0xAABBCC44};
    static const uint32_t swl[4] = {0x443322AA, 0x4433AABB, 0x44AABBCC, 0xAABBCCDD};
    static const uint32_t swr[4] = {0xAABBCCDD, 0xBBCCDD11, 0xCCDD2211, 0xDD332211};
    uint32_t n;

    for (n = 0; n < 4; n++) {
        access(OP_LWL, address + n, bytes, 0x44332211);
        equal("LWL", word[WAITING], lwl[n]);
        access(OP_LWR, address + n, bytes, 0x44332211);
        equal("LWR", word[WAITING], lwr[n]);
        access(OP_SWL, address + n, bytes, 0x44332211);
        equal("SWL", get_word(bytes), swl[n]);
        access(OP_SWR, address + n, bytes, 0x44332211);
        equal("SWR", get_word(bytes), swr[n]);
        access(OP_LB, address + n, bytes, 0x84838281);
        equal("LB", word[WAITING], 0xFFFFFF81 + n);
        access(OP_LBU, address + n, bytes, 0x84838281);
        equal("LBU", word[WAITING], 0x81 + n);
        access(OP_SB, address + n, bytes, 0x44332211);
        equal("SB", get_word(bytes), (0x44332211 & ~(0xFFu << 8 * n)) | 0xDDu << 8 * n);

        access(OP_LH, address + n, bytes, 0x84838281);
        equal("LH", n & 1 ? word[CAUSE] : word[WAITING], n & 1 ? 4 << 2 : n ? 0xFFFF8483 : 0xFFFF8281);
        access(OP_LHU, address + n, bytes, 0x84838281);
        equal("LHU", n & 1 ? word[CAUSE] : word[WAITING], n & 1 ? 4 << 2 : n ? 0x8483 : 0x8281);
        access(OP_SH, address + n, bytes, 0x44332211);
        equal("SH", get_word(bytes), n & 1 ? 0x44332211 : n ? 0xCCDD2211 : 0x4433CCDD);
        equal("SH code", word[CAUSE], n & 1 ? 5 << 2 : 0);
        access(OP_LW, address + n, bytes, 0x44332211);
        equal("LW", n ? word[CAUSE] : word[WAITING], n ? 4 << 2 : 0x44332211);
        access(OP_LWC2, address + n, bytes, 0x44332211);
        equal("LWC2", cop2(12), n ? 0xAABBCCDD : 0x44332211);
        equal("LWC2 code", word[CAUSE], n ? 4 << 2 : 0);
        access(OP_SW, address + n, bytes, 0x44332211);
        equal("SW", get_word(bytes), n ? 0x44332211 : 0xAABBCCDD);
        equal("SW code", word[CAUSE], n ? 5 << 2 : 0);
        equal("SW BADV", word[BADV], n ? address + n : 0);
        access(OP_SWC2, address + n, bytes, 0x44332211);
        equal("SWC2", get_word(bytes), n ? 0x44332211 : 0xAABBCCDD);
        equal("SWC2 code", word[CAUSE], n ? 5 << 2 : 0);
    }
}

static void memory(void)
{
    memory_at(0x20, ram + 0x20);
    memory_at(0xFFC, ram + 0xFFC);
    memory_at(0x80000020, ram + 0x20);
    memory_at(0xA0000020, ram + 0x20);
    memory_at(0x1F800000, pad);
    memory_at(0x1F8003FC, pad + 0x3FC);
    memory_at(0x1F800200, pad + 0x200);
    memory_at(0x9F800000, pad);
    memory_at(0x9F8003FC, pad + 0x3FC);
}

/* ---- 02, Ticket 1: the scratch pad --------------------------------------------- */

static const struct {
    uint32_t opcode, size; /* and what the address has to be a multiple of */
} accesses[] = {{OP_LB, 1}, {OP_LH, 2}, {OP_LWL, 1}, {OP_LW, 4}, {OP_LBU, 1}, {OP_LHU, 2}, {OP_LWR, 1}, {OP_LWC2, 4},
                {OP_SB, 1}, {OP_SH, 2}, {OP_SWL, 1}, {OP_SW, 4}, {OP_SWR, 1}, {OP_SWC2, 4}};

#define LOADS 8 /* the first of them */
#define ACCESSES (sizeof accesses / sizeof *accesses)

/* A fresh machine with a different byte at each place of both memories. */
static void fill_memories(void)
{
    unsigned i;

    fresh();
    for (i = 0; i < ram_length; i++)
        ram[i] = (uint8_t)(i * 7 + i / 256);
    for (i = 0; i < sizeof pad; i++)
        pad[i] = (uint8_t)(i * 11 + i / 256 + 128);
}

static uint8_t ram_before[4096], pad_before[sizeof pad];

static void keep_memories(void)
{
    memcpy(ram_before, ram, sizeof ram_before);
    memcpy(pad_before, pad, sizeof pad_before);
}

static bool memories_unchanged(void)
{
    return memcmp(ram_before, ram, sizeof ram_before) == 0 && memcmp(pad_before, pad, sizeof pad_before) == 0;
}

/* One access from filled memories, as they were kept. */
static void access_filled(uint32_t opcode, uint32_t address, uint32_t sr)
{
    fill_memories();
    word[SR] = sr;
    word[1] = address + 0x80;
    word[2] = word[COP2 + 2] = 0x3C5A6978;
    word[BADV] = 77;
    put_word(ram + CODE_BASE, encode_i(opcode, 2, 1, -0x80));
    keep_memories();
    run(1);
}

/* The access takes this exception, with this BADV, and moves no byte. */
static void access_fails(unsigned k, uint32_t address, uint32_t sr, uint32_t code, uint32_t badv)
{
    access_filled(accesses[k].opcode, address, sr);
    equal("exception at the pad", word[CAUSE], code << 2);
    equal("BADV at the pad", word[BADV], badv);
    equal("EPC at the pad", word[EPC], CODE_BASE);
    equal("memories after an exception", memories_unchanged(), true);
}

static void pad_exceptions(void)
{
    static const uint32_t bus_errors[] = {0x1F7FFFFC, 0x1F800400, 0x9F7FFFFC, 0x9F800400, 0xBF7FFFFC, 0xBF800000, 0xBF800200,
                                          0xBF8003FC, 0xBF800400, 0x3F800000, 0x5F800000, 0x7F800000, 0xDF800000, 0xFF800000,
                                          0x1F000000, 0x1FC00000, 0x1FFFFC00, 0x0F800000, 0x1E800000, 0x1F840000};
    static const uint32_t places[] = {0, 0x200, 0x3FC};
    unsigned i, k;

    for (k = 0; k < ACCESSES; k++) {
        uint32_t size = accesses[k].size, address_error = k < LOADS ? 4 : 5;

        for (i = 0; i < sizeof bus_errors / sizeof *bus_errors; i++)
            access_fails(k, bus_errors[i], CU2, 7, 77);
        if (size == 1) /* the last byte below the pad; in the word, its neighbour is in no memory either */
            access_fails(k, 0x1F7FFFFF, CU2, 7, 77);
        for (i = 0; i < 3; i++) {
            access_fails(k, 0x9F800000 + places[i], USER | CU2, address_error, 0x9F800000 + places[i]);
            access_fails(k, 0xBF800000 + places[i], USER | CU2, address_error, 0xBF800000 + places[i]);
            if (size == 1)
                continue;
            access_fails(k, 0x1F800001 + places[i], CU2, address_error, 0x1F800001 + places[i]);
            access_fails(k, 0x9F800003 + places[i], CU2, address_error, 0x9F800003 + places[i]);
            access_fails(k, 0xBF800001 + places[i], CU2, address_error, 0xBF800001 + places[i]);
        }
        access_filled(accesses[k].opcode, 0x1F800000, USER | CU2);
        equal("the pad in user mode", word[CAUSE], 0);
    }
    access_filled(OP_LWC2, 0x1F800000, 0);
    equal("LWC2 in the pad, CU2 clear", word[CAUSE], CAUSE_CPU(2u));
    access_filled(OP_SWC2, 0x1F800000, 0);
    equal("SWC2 in the pad, CU2 clear", word[CAUSE], CAUSE_CPU(2u));
    equal("SWC2 in the pad moves nothing", memories_unchanged(), true);
}

/* A fetch at PC, where an instruction stands in the pad. */
static void fetch(uint32_t pc, uint32_t sr, uint32_t code, uint32_t badv)
{
    unsigned i;

    fresh();
    word[SR] = sr;
    word[PC] = pc;
    word[NEXT] = pc + 4;
    word[BADV] = 77;
    for (i = 0; i < sizeof pad; i += 4)
        put_word(pad + i, encode_i(OP_ADDIU, 1, 0, 5));
    equal("fetch at the pad", run(1), 1);
    equal("fetch, CAUSE", word[CAUSE], code << 2);
    equal("fetch, BADV", word[BADV], badv);
    equal("fetch, EPC", word[EPC], pc);
    equal("fetch, register 1", word[1], 0);
}

static void pad_fetches(void)
{
    static const uint32_t places[] = {0, 0x200, 0x3FC, 0x400, 0xFFFFFFFC};
    unsigned i;

    for (i = 0; i < sizeof places / sizeof *places; i++) {
        fetch(0x1F800000 + places[i], CU2, 6, 77);
        fetch(0x9F800000 + places[i], CU2, 6, 77);
        fetch(0xBF800000 + places[i], CU2, 6, 77);
        fetch(0x1F800000 + places[i], USER, 6, 77);
        fetch(0x9F800000 + places[i], USER, 4, 0x9F800000 + places[i]);
        fetch(0x1F800002 + places[i], CU2, 4, 0x1F800002 + places[i]);
    }
    fresh(); /* jumped to, the delay slot being in RAM */
    word[1] = 0x1F800000;
    put_word(pad, encode_i(OP_ADDIU, 2, 0, 5));
    put_word(ram + CODE_BASE, encode_r(F_JR, 0, 1, 0, 0));
    put_word(ram + CODE_BASE + 4, encode_i(OP_SW, 1, 1, 0));
    equal("jump to the pad", run(3), 3);
    equal("jump to the pad, CAUSE", word[CAUSE], 6 << 2);
    equal("jump to the pad, EPC", word[EPC], 0x1F800000);
    equal("jump to the pad, its word", get_word(pad), 0x1F800000);
}

/* A store changes the word that it is in, of one memory. */
static void pad_stores(void)
{
    static const struct {
        uint32_t address;
        uint8_t *bytes, *before;
    } places[] = {{0x1F800000, pad, pad_before},
                  {0x1F800200, pad + 0x200, pad_before + 0x200},
                  {0x9F8003FC, pad + 0x3FC, pad_before + 0x3FC},
                  {0, ram, ram_before},
                  {0xA0000200, ram + 0x200, ram_before + 0x200},
                  {0x800003FC, ram + 0x3FC, ram_before + 0x3FC}};
    unsigned i, k;

    for (i = 0; i < sizeof places / sizeof *places; i++)
        for (k = LOADS; k < ACCESSES; k++) {
            access_filled(accesses[k].opcode, places[i].address, CU2);
            equal("a store changes its word", memcmp(places[i].bytes, places[i].before, 4) != 0, true);
            memcpy(places[i].bytes, places[i].before, 4);
            equal("a store changes nothing else", memories_unchanged(), true);
        }
}

/* Every subset of the five reasons to refuse a call: the first in the order 1, 2, 3, 6, 4 is the answer, and nothing changes. */
static void refusals_together(void)
{
    static const unsigned order[] = {1, 2, 3, 6, 4};
    uint32_t before[MODEL_IMAGE_WORDS];
    unsigned wrong, i, search;

    for (wrong = 0; wrong < 32; wrong++)
        for (search = 0; search < 2; search++) {
            size_t image_length = wrong & 1 ? 431 : 432;
            uint64_t count = wrong & 16 ? 1000001 : 0, expected = 0;

            for (i = 5; i-- > 0;)
                if (wrong >> i & 1)
                    expected = order[i] * MODEL_CODE_UNIT;
            fill_memories();
            put_word(ram + CODE_BASE, encode_i(OP_SW, 1, 1, 0)); /* what a step would do */
            word[1] = 0x1F800000;
            word[0] = wrong >> 1 & 1;
            ram_length = wrong & 4 ? 2097156 : 4096;
            pad_length = wrong & 8 ? 1023 : 1024;
            memcpy(before, word, sizeof word);
            keep_memories();
            equal("refusals together", search ? find_length(image_length, count, 1) : run_length(image_length, count), expected);
            equal("refusals together, the image", memcmp(before, word, sizeof word), 0);
            equal("refusals together, the memories", memories_unchanged(), true);
        }
}

static void pad_lengths(void)
{
    static const size_t lengths[] = {0, 1, 5, 512, 1020, 1023, 1025, 1028, 2048};
    unsigned i;

    for (i = 0; i < sizeof lengths / sizeof *lengths; i++) {
        fresh();
        pad_length = lengths[i];
        equal("pad length", run(1), 6 * MODEL_CODE_UNIT);
        equal("pad length, count 0", run(0), 6 * MODEL_CODE_UNIT);
        equal("pad length, count too high", run(2000000), 6 * MODEL_CODE_UNIT);
        equal("pad length, search", find(1, 1), 6 * MODEL_CODE_UNIT);
        equal("pad length, PC", word[PC], CODE_BASE);
    }
    pad_length = 1024;
    equal("pad of 1024", run(1), 1);
    ram_length = 6; /* T-61 */
    pad_length = 5;
    equal("T-61 RAM and pad", run(1), 3 * MODEL_CODE_UNIT);
}

/* ---- COP2 registers ---------------------------------------------------------- */

static void cop2_registers(void)
{
    unsigned i;

    for (i = 0; i < 64; i++) { /* 001's example: 12008900h to a signed 16-bit register is FFFF8900h */
        bool sign = i == 1 || i == 3 || i == 5 || (i >= 8 && i <= 11) || i == 36 || i == 44 || i == 52 || i == 58 ||
                    i == 59 || i == 61 || i == 62;
        uint32_t expected = sign ? 0xFFFF8900 : 0x12008900;

        if (i >= 16 && i <= 19)
            expected = 0x8900;
        if (i == 7 || i == 29)
            expected = 0;
        if (i == 28)
            expected = 0x0900; /* fields 0, 8, 2 of 8900h */
        if (i == 31)
            expected = 32;
        if (i == 63)
            expected = 0x92008000;
        fresh();
        word[1] = 0x12008900;
        step(encode_move(2, i < 32 ? 4 : 6, 1, i & 31));
        step(encode_move(2, i < 32 ? 0 : 2, 2, i & 31));
        equal(cop2_register_name(i), word[WAITING], expected);
        equal("register 2 not yet written", word[2], 0);
        step(0);
        equal("register 2 written", word[2], expected);
        if (i < 32) { /* through memory by the same rules */
            fresh();
            put_word(ram + 0x20, 0x12008900);
            step(encode_i(OP_LWC2, i, 0, 0x20));
            step(encode_i(OP_SWC2, i, 0, 0x24));
            equal("LWC2 and SWC2", get_word(ram + 0x24), expected);
        }
    }

    fresh(); /* T-78 */
    set(28, 0xFFFFFFFF);
    equal("T-78 IR1", cop2(9), 0xF80);
    equal("T-78 IR2", cop2(10), 0xF80);
    equal("T-78 IR3", cop2(11), 0xF80);
    equal("T-78 IRGB", cop2(28), 0x7FFF);
    equal("T-78 ORGB", cop2(29), 0x7FFF);
    set(9, 0xFFFFFFFF);
    set(10, 0x1000);
    set(11, 0x7F);
    equal("T-78 limits", cop2(28), 0x3E0);
    fresh();
    set(14, 5);
    set(15, 7);
    equal("T-78 SXY0", cop2(12), 0);
    equal("T-78 SXY1", cop2(13), 5);
    equal("T-78 SXY2", cop2(14), 7);
    equal("T-78 SXYP", cop2(15), 7);
    fresh();
    set(12, 1);
    set(13, 2);
    set(14, 3);
    set(16, 4);
    set(19, 5);
    set(20, 6);
    set(22, 7);
    equal("no FIFO moves", cop2(12) + cop2(13) * 10 + cop2(14) * 100 + cop2(16) * 1000 + cop2(19) * 10000, 54321);
    equal("no colour moves", cop2(20) * 10 + cop2(22), 67);
    for (i = 12; i < 31; i++) { /* bit 31 of FLAG, bit by bit */
        fresh();
        set(63, 1u << i);
        equal("FLAG error bit", cop2(63) >> 31, (i >= 23) || (i >= 13 && i <= 18));
    }
    fresh();
    set(63, 0x80000FFF);
    equal("FLAG bit 31 is read only", cop2(63), 0);
}

/* ---- GTE commands ------------------------------------------------------------ */

static void command(uint32_t number, uint32_t sf, uint32_t lm)
{
    step(encode_command(number, sf, lm));
}

static void gte(void)
{
    unsigned i;

    /* T-37: low 32 bits are stored, then IR is limited from them */
    for (i = 0; i < 2; i++) {
        fresh();
        for (unsigned k = 40; k <= 43; k++)
            set(k, 0x80008000);
        set(44, 0x8000);
        set(0, 0x80008000);
        set(1, 0x8000);
        step(encode_mvmva(0, 1, 0, 3, i));
        equal("T-37 MAC1", cop2(25), (uint32_t)-1073741824);
        equal("T-37 MAC3", cop2(27), (uint32_t)-1073741824);
        equal("T-37 IR1", cop2(9), i ? 0 : 0xFFFF8000);
        equal("T-37 FLAG", cop2(63), 0x81C00000);
    }

    fresh(); /* T-38 */
    set(53, 0x100000);
    set(6, 1);
    set(8, 0x1000);
    command(0x10, 0, 0);
    /* IR1 -8000h times IR0 1000h plus 10000h */
    equal("T-38 MAC1", cop2(25), (uint32_t)(-0x8000 * 0x1000 + 0x10000));
    equal("T-38 bit 24", cop2(63) >> 24 & 1, 1);

    fresh(); /* T-39 */
    set(9, 0x8000);
    set(53, 0x7FFFFFFF);
    set(8, 0);
    command(0x11, 1, 0);
    equal("T-39 IR0 0: MAC1", cop2(25), (uint32_t)-32768);
    fresh();
    set(9, 0x8000);
    set(53, 0x7FFFFFFF);
    set(8, 0x1000);
    command(0x11, 1, 0);
    equal("T-39 MAC1", cop2(25), (uint32_t)-65536);
    equal("T-39 FLAG", cop2(63), 0xC1200000);

    fresh(); /* T-40 */
    set(25, 0x7FFFFFFF);
    set(9, 1);
    set(8, 1);
    command(0x3E, 0, 0);
    equal("T-40 MAC1", cop2(25), 0x80000000);
    equal("T-40 IR1", cop2(9), 0xFFFF8000);
    equal("T-40 FLAG", cop2(63), 0x81200000);
    fresh();
    set(25, 0x7FFFFFFF);
    set(9, 0x1000);
    set(8, 1);
    command(0x3E, 1, 0);
    equal("T-40 bit 30", cop2(63) >> 30 & 1, 1);
    equal("T-40 MAC1 wraps", cop2(25), 0x80000000);
    fresh();
    set(26, 0x80000000);
    command(0x3E, 1, 0);
    equal("T-40 lowest MAC2 is inside", cop2(63) & 0x7E000000, 0);
    equal("T-40 lowest MAC2", cop2(26), 0x80000000);

    fresh(); /* T-41 */
    set(32, halves(0x7FFF, 0x7FFF));
    set(33, halves(0x1000, 0));
    set(36, 0x7FFF);
    set(0, halves(0x7FFF, 0x7FFF));
    set(1, (uint32_t)-1);
    set(53, 0x7FFFFFFF);
    step(encode_mvmva(1, 0, 0, 2, 1));
    equal("T-41 MAC1", cop2(25), (uint32_t)-1);
    equal("T-41 MAC2", cop2(26), 0);
    equal("T-41 MAC3", cop2(27), (uint32_t)-8);
    equal("T-41 IR", cop2(9) | cop2(10) | cop2(11), 0);
    equal("T-41 FLAG", cop2(63), 0xC1400000);

    fresh(); /* T-42 */
    set(33, halves(2, 0));
    set(34, halves(3, 0));
    set(8, 0x1000);
    set(0, halves(1, 1));
    set(1, 1);
    step(encode_mvmva(0, 3, 0, 3, 0));
    equal("T-42 MAC1", cop2(25), 4096);
    equal("T-42 MAC2", cop2(26), 6);
    equal("T-42 MAC3", cop2(27), 9);
    fresh(); /* -60h first, then 60h */
    set(0, halves(1, 0));
    step(encode_mvmva(0, 3, 0, 3, 0));
    equal("T-42 first element", cop2(25), (uint32_t)-0x60);

    fresh(); /* T-43 */
    set(39, 0x10);
    command(0x01, 0, 0);
    equal("T-43 MAC3", cop2(27), 65536);
    equal("T-43 IR3", cop2(11), 0x7FFF);
    equal("T-43 SZ3", cop2(19), 0x10);
    equal("T-43 FLAG", cop2(63), 0);
    fresh();
    set(39, 0x9000);
    command(0x01, 1, 0);
    equal("T-43 sf 1 FLAG", cop2(63), 0x00400000);
    equal("T-43 sf 1 IR3", cop2(11), 0x7FFF);
    equal("T-43 sf 1 SZ3", cop2(19), 0x9000);
    fresh(); /* lm has no effect on RTPS */
    set(37, (uint32_t)-5);
    set(39, 0x100);
    command(0x01, 1, 1);
    equal("RTPS lm IR1", cop2(9), (uint32_t)-5);
    equal("RTPS lm FLAG", cop2(63), 0);

    fresh(); /* T-44 */
    set(39, 0x7FFFFFFF);
    set(36, 0x1000);
    set(1, 1);
    set(58, 0x10);
    command(0x01, 1, 0);
    equal("T-44 FLAG", cop2(63), 0x90460000);
    equal("T-44 SZ3", cop2(19), 0);
    equal("T-44 MAC3", cop2(27), 0x80000000);
    fresh(); /* T-45: at sf 0 the 44-bit sum, not the stored MAC3, gives SZ3 */
    set(39, 0x100000);
    command(0x01, 0, 0);
    equal("T-45 MAC3", cop2(27), 0);
    equal("T-45 SZ3", cop2(19), 0xFFFF);
    equal("T-45 FLAG", cop2(63), 0x80440000);

    fresh(); /* T-46 */
    set(37, (uint32_t)-32768);
    set(39, 1000);
    set(58, 1999);
    set(56, 0x80000000);
    command(0x01, 1, 0);
    equal("T-46 FLAG", cop2(63), 0x8000C000);
    equal("T-46 MAC0", cop2(24), 0);
    equal("T-46 SX", cop2(14), halves(-0x400, 0));
    fresh(); /* T-47 */
    set(37, 32767);
    set(39, 1000);
    set(58, 1999);
    command(0x01, 1, 0);
    equal("T-47 FLAG", cop2(63), 0x80014000);
    equal("T-47 SX", cop2(14), halves(0x3FF, 0));
    fresh();
    set(62, 0x7FFF);
    for (i = 16; i < 20; i++)
        set(i, 0xFFFF);
    command(0x2E, 0, 0);
    equal("T-47 AVSZ4 MAC0", cop2(24), (uint32_t)((int64_t)0x7FFF * 4 * 0xFFFF));
    equal("T-47 AVSZ4 OTZ", cop2(7), 0xFFFF);
    equal("T-47 AVSZ4 FLAG", cop2(63), 0x80050000);
    fresh(); /* a negative factor: ZSF3 is signed */
    set(61, (uint32_t)-1);
    set(17, 1);
    command(0x2D, 0, 0);
    equal("AVSZ3 negative MAC0", cop2(24), (uint32_t)-1);
    equal("AVSZ3 negative OTZ", cop2(7), 0);
    equal("AVSZ3 negative FLAG", cop2(63), 0x80040000);

    fresh(); /* T-48 */
    set(12, halves(-0x8000, -0x8000));
    set(13, halves(0x7FFF, -0x8000));
    set(14, halves(-0x8000, 0x7FFF));
    command(0x06, 0, 0);
    equal("T-48 MAC0", cop2(24), (uint32_t)-131071);
    equal("T-48 FLAG", cop2(63), 0x80010000);

    fresh(); /* T-49 */
    set(25, (uint32_t)-1);
    command(0x3E, 0, 0);
    equal("T-49 colour", cop2(22), 0);
    equal("T-49 FLAG", cop2(63), 0x00200000);
    fresh(); /* 4080/16 is 255; 4096/16 is past it */
    set(25, 4095);
    set(26, 4096);
    set(6, 0xAB000000);
    command(0x3E, 0, 0);
    equal("colour limit", cop2(22), 0xAB00FFFF);
    equal("colour limit FLAG", cop2(63), 0x00100000);

    fresh(); /* T-50: one FLAG bit */
    set(45, 0x9000);
    command(0x1E, 1, 0);
    equal("T-50 FLAG", cop2(63), 0x81200000);
    equal("T-50 IR1", cop2(9), 0x7FFF);
    equal("T-50 colour", cop2(22), 0xFF);

    fresh(); /* T-52 */
    set(20, 0x01000010);
    set(21, 0x02000020);
    set(22, 0x03000030);
    set(6, 0x7F123456);
    command(0x2A, 1, 0);
    equal("T-52 RGB0", cop2(20), 0x7F000010);
    equal("T-52 RGB1", cop2(21), 0x7F000020);
    equal("T-52 RGB2", cop2(22), 0x7F000030);

    fresh(); /* T-53 */
    set(9, 0x8000);
    command(0x28, 0, 1);
    equal("T-53 MAC1", cop2(25), 0x40000000);
    equal("T-53 IR1", cop2(9), 0x7FFF);
    fresh();
    set(9, 1);
    set(10, 2);
    set(11, 3);
    set(32, halves(4, 99));
    set(34, halves(5, 99));
    set(36, 6);
    command(0x0C, 0, 0);
    equal("OP MAC1", cop2(25), (uint32_t)(3 * 5 - 2 * 6));
    equal("OP MAC2", cop2(26), (uint32_t)(1 * 6 - 3 * 4));
    equal("OP MAC3", cop2(27), (uint32_t)(2 * 4 - 1 * 5));
    equal("OP IR2", cop2(10), (uint32_t)-6);
    fresh(); /* OP with lm limits below at 0 */
    set(9, 1);
    set(36, 6);
    set(11, 3);
    set(32, 4);
    command(0x0C, 0, 1);
    equal("OP lm IR2", cop2(10), 0);
    equal("OP lm FLAG", cop2(63), 0x80800000);

    fresh(); /* T-54: MVMVA with IR takes all from the old IR */
    set(9, 1);
    set(10, 2);
    set(11, 3);
    set(32, halves(10, 0));
    set(33, halves(0, 100));
    set(35, halves(1000, 0));
    step(encode_mvmva(0, 0, 3, 3, 0));
    equal("T-54 MAC1", cop2(25), 10);
    equal("T-54 MAC2", cop2(26), 100);
    equal("T-54 MAC3", cop2(27), 1000);
    fresh(); /* the second product of NCS takes the new IR */
    set(40, 0x1000); /* L11 */
    set(48, 0x1000); /* LR1 */
    set(0, 0x123);
    set(9, 0x777);
    command(0x1E, 1, 0);
    equal("T-54 NCS MAC1", cop2(25), 0x123);

    fresh(); /* T-56 */
    set(58, 0xFFFF);
    equal("T-56 H reads", cop2(58), 0xFFFFFFFF);
    set(39, 0x8000);
    command(0x01, 1, 0);
    equal("T-56 bit 17", cop2(63) >> 17 & 1, 0);
    fresh();
    set(58, 0xFFFF);
    set(39, 0x7FFF);
    command(0x01, 1, 0);
    equal("T-56 bit 17 set", cop2(63) >> 17 & 1, 1);
    bool overflow;
    uint32_t h, z;
    equal("quotient 0/0", model_quotient(0, 0, &overflow), 0x1FFFF);
    equal("quotient 0/0 overflow", overflow, true);
    equal("quotient 0/1", model_quotient(0, 1, &overflow), 0);
    equal("quotient 1/1", model_quotient(1, 1, &overflow), 65536);
    for (z = 1; z <= 0xFFFF; z++) { /* T-57: no quotient past 1FFFFh without the flag */
        h = 2 * z - 1 > 0xFFFF ? 0xFFFF : 2 * z - 1;
        if (model_quotient(h, z, &overflow) > 0x1FFFF || overflow)
            equal("T-57", z, 0);
    }

    fresh(); /* T-79 */
    set(45, 1);
    set(6, 0x80);
    command(0x1B, 0, 0);
    equal("T-79 MAC1", cop2(25), 8388608);
    equal("T-79 IR1", cop2(9), 0x7FFF);
    equal("T-79 colour", cop2(22), 0xFF);
    equal("T-79 FLAG", cop2(63), 0x81200000);

    fresh(); /* T-80 */
    set(36, 0x1000);
    set(1, 100);
    set(3, 200);
    set(5, 300);
    set(19, 7);
    set(58, 50);
    set(59, 1);
    command(0x30, 1, 0);
    equal("T-80 SZ0", cop2(16), 7);
    equal("T-80 SZ1", cop2(17), 100);
    equal("T-80 SZ2", cop2(18), 200);
    equal("T-80 SZ3", cop2(19), 300);
    equal("T-80 MAC3", cop2(27), 300);
    equal("T-80 MAC0", cop2(24), model_quotient(50, 300, &overflow));

    fresh(); /* T-84: the depth-cue line runs for V0 and V1 too */
    set(36, 0x1000);
    set(1, 100);
    set(3, 20000);
    set(5, 20000);
    set(58, 190);
    set(59, 0x7FFF);
    command(0x30, 1, 0);
    equal("T-84 IR0", cop2(8), 0x1000);
    equal("T-84 bit 16 from V0", cop2(63) >> 16 & 1, 1);
    equal("T-84 MAC0 of V2", cop2(24), model_quotient(190, 20000, &overflow) * 0x7FFF);
    fresh(); /* 1000h is inside the range of IR0, 1001h is not */
    set(39, 1);
    set(60, 0x1000000);
    command(0x01, 1, 0);
    equal("IR0 1000h", cop2(8), 0x1000);
    equal("IR0 1000h FLAG", cop2(63), 0);
    fresh();
    set(39, 1);
    set(60, 0x1001000);
    command(0x01, 1, 0);
    equal("IR0 1001h", cop2(8), 0x1000);
    equal("IR0 1001h FLAG", cop2(63), 0x00001000);
    fresh();
    set(39, 1);
    set(60, 0xFFFFFFFF);
    command(0x01, 1, 0);
    equal("IR0 -1", cop2(8), 0);
    equal("IR0 -1 FLAG", cop2(63), 0x00001000);

    fresh(); /* FLAG is cleared as a command begins */
    set(63, 0xFFFFFFFF);
    command(0x06, 0, 0);
    equal("FLAG cleared", cop2(63), 0);

    fresh(); /* matrices: three rows of three, each element in its place */
    for (unsigned m = 0; m < 3; m++) {
        for (unsigned e = 0; e < 9; e++) {
            unsigned base = 32 + 8 * m, row = e / 3, column = e % 3;

            fresh();
            set(base + e / 2, e % 2 ? 0x00010000 : 1);
            set(0, halves(10, 20));
            set(1, 30);
            step(encode_mvmva(0, m, 0, 3, 0));
            equal("matrix element", cop2(25 + row), 10 * (column + 1));
            equal("other rows", cop2(25) + cop2(26) + cop2(27), 10 * (column + 1));
        }
    }
    for (i = 0; i < 4; i++) { /* vectors and translations of MVMVA */
        fresh();
        set(32, 1); /* RT11 */
        set(0, 1);
        set(2, 2);
        set(4, 3);
        set(9, 4);
        step(encode_mvmva(0, 0, i, 3, 0));
        equal("MVMVA vector", cop2(25), i + 1);
        fresh();
        set(37, 1);
        set(45, 2);
        set(53, 3);
        step(encode_mvmva(1, 0, 0, i, 0));
        equal("MVMVA translation", cop2(25), i < 2 ? i + 1 : 0);
    }

    fresh(); /* NCDS: the far colour wholly, then the near one */
    set(45, 0x800);
    set(6, 0x11000080);
    set(53, 0x100);
    command(0x13, 1, 1);
    equal("NCDS IR0 0", cop2(25), 0x80 * 0x800 * 16 >> 12);
    fresh();
    set(45, 0x800);
    set(6, 0x11000080);
    set(53, 0x100);
    set(8, 0x1000);
    command(0x13, 1, 1);
    equal("NCDS IR0 1000h", cop2(25), 0x100);
    equal("NCDS colour", cop2(22), 0x11000010);
    fresh(); /* interpolation limits as lm = 0 even with lm = 1, the end with lm */
    set(9, 0x100);
    set(8, 0x1000);
    set(53, (uint32_t)-0x80);
    command(0x11, 1, 1);
    equal("INTPL MAC1", cop2(25), (uint32_t)-0x80);
    equal("INTPL IR1", cop2(9), 0);
    equal("INTPL FLAG", cop2(63), 0x81200000);
    fresh(); /* CC, CDP and DCPL */
    set(9, 0x1000);
    set(48, 0x800);
    set(6, 0x40);
    command(0x1C, 1, 0);
    equal("CC MAC1", cop2(25), 0x40 * 0x800 * 16 >> 12);
    fresh();
    set(9, 0x1000);
    set(48, 0x800);
    set(6, 0x40);
    set(8, 0x800);
    command(0x14, 1, 0);
    equal("CDP MAC1", cop2(25), 0x40 * 0x800 * 16 >> 13);
    fresh();
    set(9, 0x1000);
    set(6, 0x40);
    set(8, 0x800);
    command(0x29, 1, 0);
    equal("DCPL MAC1", cop2(25), 0x40 * 0x1000 * 16 >> 13);
    fresh(); /* GPF */
    set(8, 0x800);
    set(9, (uint32_t)-3);
    set(25, 1000);
    command(0x3D, 1, 0);
    equal("GPF MAC1 rounds down", cop2(25), (uint32_t)-2);
    equal("GPF FLAG", cop2(63), 0x00200000);
    fresh(); /* colours by byte */
    set(6, 0x44332211);
    set(9, 0x1000);
    set(10, 0x1000);
    set(11, 0x1000);
    command(0x29, 1, 0);
    equal("RGBC bytes", cop2(22), 0x44332211);
    fresh(); /* NCT pushes three times */
    set(40, 0x1000);
    set(48, 0x1000);
    set(0, 0x100);
    set(2, 0x200);
    set(4, 0x300);
    command(0x20, 1, 0);
    equal("NCT RGB0", cop2(20), 0x10);
    equal("NCT RGB1", cop2(21), 0x20);
    equal("NCT RGB2", cop2(22), 0x30);
}

/* ---- Demand 3 ------------------------------------------------------------------ */

static uint64_t random_state = 1;

static uint32_t random_below(uint32_t bound)
{
    random_state = random_state * 6364136223846793005 + 1442695040888963407;
    return (uint32_t)((random_state >> 32) * bound >> 32);
}

static int64_t half(uint32_t w)
{
    return (int16_t)(uint16_t)w;
}

/* Row n of TR*1000h + RT*V, divided by 1000h and rounded down. */
static int64_t rotated(const uint32_t *r, int n, int vertex)
{
    int64_t v[3] = {half(r[2 * vertex]), half(r[2 * vertex] >> 16), half(r[2 * vertex + 1])};
    int64_t sum = (int64_t)(int32_t)r[37 + n] * 4096;
    int i;

    for (i = 0; i < 3; i++)
        sum += half(r[32 + (3 * n + i) / 2] >> 16 * ((3 * n + i) % 2)) * v[i];
    return sum >> 12;
}

static bool within(int64_t z, int64_t screen, int64_t screen_offset, int64_t h, int64_t x)
{
    int64_t difference = z * (65536 * screen - screen_offset) - 65536 * h * x;

    return difference <= 212992 * z && difference >= -212992 * z;
}

/* 01's whole-number form of demand 3 on vertices in front of the camera, RTPS and RTPT in turn. */
static void demand_3(void)
{
    unsigned i, n, clear = 0, kept = 0;

    for (i = 0; i < 300000; i++) {
        struct model before = {0}, after;
        bool triple = i & 1;

        for (n = 0; n < 5; n++)
            before.cop2[32 + n] = random_below(0x400) | random_below(0x400) << 16;
        model_cop2_write(&before, 32, 0x1000 | random_below(0x100) << 16);
        model_cop2_write(&before, 34, 0x1000 | random_below(0x100) << 16);
        model_cop2_write(&before, 36, 0x1000);
        for (n = 0; n < 6; n++)
            model_cop2_write(&before, n, random_below(0x800) | random_below(0x800) << 16);
        model_cop2_write(&before, 37, random_below(400) - 200);
        model_cop2_write(&before, 38, random_below(400) - 200);
        model_cop2_write(&before, 39, random_below(0xF000));
        model_cop2_write(&before, 56, random_below(600) << 16 | random_below(65536));
        model_cop2_write(&before, 57, random_below(400) << 16 | random_below(65536));
        model_cop2_write(&before, 58, random_below(i % 3 ? 2000 : 65536));
        after = before;
        model_command(&after, encode_command(triple ? 0x30 : 0x01, 1, i >> 1 & 1));
        if (after.cop2[63] >> 31)
            continue;
        clear++;
        bool holds = true;
        for (n = 0; n < (triple ? 3 : 1); n++) {
            uint32_t sxy = after.cop2[triple ? 12 + n : 14];
            int64_t x = rotated(before.cop2, 0, (int)n), y = rotated(before.cop2, 1, (int)n);
            int64_t z = rotated(before.cop2, 2, (int)n), h = before.cop2[58] & 0xFFFF;

            holds &= z >= 1 && within(z, half(sxy), (int32_t)before.cop2[56], h, x) &&
                     within(z, half(sxy >> 16), (int32_t)before.cop2[57], h, y);
        }
        kept += holds;
    }
    equal("demand 3", kept, clear);
    equal("demand 3 met often", clear > 50000, true);

    fresh(); /* the worst case: D = -125,907.65 * Z */
    set(37, 32758);
    set(39, 62913);
    set(58, 64900);
    set(56, (uint32_t)-2147462969);
    command(0x01, 1, 0);
    equal("demand 3 worst FLAG", cop2(63) >> 31, 0);
    {
        int64_t sx = half(cop2(14)), d = 62913 * (65536 * sx + 2147462969) - 65536LL * 64900 * 32758;

        equal("demand 3 worst distance", d / 62913 == -125907, true);
    }
}

/* ---- Why bits of FLAG are set (02, Ticket 5) ------------------------------------ */

#define CAUSE_SPACE 400
#define UNUSED_WORD 0xA5C3A5C3u

static uint32_t cause_words[CAUSE_SPACE];

/* Asks with this many words, and holds that the words behind those that the answer counts are as before. */
static struct model_answer ask_length(size_t image_length, uint32_t instruction, size_t space)
{
    uint8_t image[512] = {0}, before[512];
    struct model_answer a;
    size_t i, changed = 0;

    for (i = 0; i < CAUSE_SPACE; i++)
        cause_words[i] = UNUSED_WORD;
    put_image(image);
    memcpy(before, image, sizeof image);
    a = model_causes(image, image_length, instruction, cause_words, space);
    for (i = a.code == MODEL_DONE ? (size_t)a.number : 0; i < CAUSE_SPACE; i++)
        changed += cause_words[i] != UNUSED_WORD;
    if (changed != 0 || memcmp(before, image, sizeof image) != 0)
        equal("causes change the image or words that are not theirs", true, false);
    return a;
}

static struct model_answer ask(uint32_t instruction, size_t space)
{
    return ask_length(MODEL_IMAGE_BYTES, instruction, space);
}

static void answers(const char *what, struct model_answer a, uint64_t code, uint64_t number)
{
    equal(what, a.code, code);
    equal(what, a.number, number);
}

struct cause {
    uint32_t bit, part, line;
    int64_t value; /* of bit 17 H, and SZ3 in the upper half */
};

/* The bits 30..12 that the command leaves in FLAG. */
static uint32_t flag_after(uint32_t instruction)
{
    uint8_t image[MODEL_IMAGE_BYTES];
    struct model machine;

    put_image(image);
    model_load(&machine, image);
    model_command(&machine, instruction);
    return machine.cop2[63] & 0x7FFFF000;
}

static void rows_are(const char *what, uint32_t instruction, const struct cause *expected, size_t count)
{
    struct model_answer a = ask(instruction, CAUSE_SPACE);
    uint32_t bits = 0;
    size_t i;

    answers(what, a, MODEL_DONE, 5 * count);
    for (i = 0; i < count; i++) {
        const uint32_t *row = cause_words + 5 * i;

        equal(what, row[0], expected[i].bit);
        equal(what, row[1], expected[i].part);
        equal(what, row[2], expected[i].line);
        equal(what, row[3], (uint32_t)expected[i].value);
        equal(what, row[4], (uint64_t)expected[i].value >> 32);
        bits |= 1u << expected[i].bit;
    }
    equal(what, flag_after(instruction), bits);
}

#define ROWS(what, instruction, ...)                                                                                    \
    rows_are(what, instruction, (const struct cause[]){__VA_ARGS__},                                                    \
             sizeof((const struct cause[]){__VA_ARGS__}) / sizeof(struct cause))

static int64_t divided(uint32_t h, uint32_t sz3)
{
    return (int64_t)((uint64_t)sz3 << 32 | h);
}

/* 01's camera with this vertex. */
static void camera(int32_t x, int32_t y, int32_t z)
{
    fresh();
    set(32, 0x1000);
    set(34, 0x1000);
    set(36, 0x1000);
    set(56, 160 * 65536);
    set(57, 120 * 65536);
    set(58, 200);
    set(0, halves(x, y));
    set(1, (uint32_t)z);
}

static void perspective_causes(void)
{
    unsigned i;

    camera(100, -50, 1000);
    rows_are("causes of no bit", encode_command(0x01, 1, 0), NULL, 0);
    camera(100, -50, 100); /* FLAG 80020000h */
    ROWS("causes, Z 100", encode_command(0x01, 1, 0), {17, 1, 5, divided(200, 100)});
    camera(100, -50, 101);
    rows_are("causes, Z 101", encode_command(0x01, 1, 0), NULL, 0);
    camera(100, -50, -1); /* SZ3 is the limited depth */
    ROWS("causes, Z -1", encode_command(0x01, 1, 1), {18, 1, 4, -1}, {17, 1, 5, divided(200, 0)});
    camera(0, 0, 0x7FFF); /* H is unsigned */
    set(58, 0xFFFF);
    ROWS("causes, H FFFFh", encode_command(0x01, 1, 0), {17, 1, 5, divided(0xFFFF, 0x7FFF)});

    camera(100, -50, 1000); /* the parts of RTPT: V1 too near, V2 behind the camera */
    set(3, 100);
    set(5, (uint32_t)-7);
    ROWS("causes, RTPT", encode_command(0x30, 1, 0), {18, 3, 4, -7}, {17, 2, 5, divided(200, 100)}, {17, 3, 5, divided(200, 0)});
    for (i = 0; i < 6; i += 2) { /* one vertex of three */
        camera(100, -50, 1000);
        set(3, 1000);
        set(5, 1000);
        set(i + 1, 100);
        ROWS("causes, one of three", encode_command(0x30, 1, 0), {17, i / 2 + 1, 5, divided(200, 100)});
    }

    fresh(); /* T-43: with sf 0 the depth has no row where MAC3 does not fit IR3 */
    set(39, 0x10);
    rows_are("causes, TRZ 10h, sf 0", encode_command(0x01, 0, 0), NULL, 0);
    fresh();
    set(39, 0x9000);
    ROWS("causes, TRZ 9000h", encode_command(0x01, 1, 0), {22, 1, 3, 0x9000});
    ROWS("causes, TRZ 9000h, sf 0", encode_command(0x01, 0, 0), {22, 1, 3, 0x9000});
    fresh(); /* T-44: the sum as it is, the depth from 44 bits of it */
    set(39, 0x7FFFFFFF);
    set(36, 0x1000);
    set(1, 1);
    set(58, 0x10);
    ROWS("causes, T-44", encode_command(0x01, 1, 0), {28, 1, 3, (int64_t)1 << 43}, {22, 1, 3, -0x80000000LL},
         {18, 1, 4, -0x80000000LL}, {17, 1, 5, divided(0x10, 0)});
    fresh(); /* T-45: bit 22 has the depth, not MAC3, which is 0 */
    set(39, 0x100000);
    ROWS("causes, T-45", encode_command(0x01, 0, 0), {22, 1, 3, 0x100000}, {18, 1, 4, 0x100000});

    fresh(); /* IR1 and IR2 from the stored MAC */
    set(37, 0x9000);
    set(38, (uint32_t)-0x8001);
    set(39, 1000);
    ROWS("causes, IR1 and IR2", encode_command(0x01, 1, 1), {24, 1, 1, 0x9000}, {23, 1, 2, -0x8001});
    ROWS("causes, IR1 and IR2, sf 0", encode_command(0x01, 0, 1), {24, 1, 1, 0x9000000}, {23, 1, 2, -0x8001000});
    fresh(); /* T-46: the first of three MAC0s */
    set(37, (uint32_t)-32768);
    set(39, 1000);
    set(58, 1999);
    set(56, 0x80000000);
    ROWS("causes, T-46", encode_command(0x01, 1, 0), {15, 1, 5, -6440321024}, {14, 1, 5, -98272});
    fresh(); /* T-47 */
    set(37, 32767);
    set(39, 1000);
    set(58, 1999);
    ROWS("causes, T-47", encode_command(0x01, 1, 0), {16, 1, 5, 4292706369}, {14, 1, 5, 65501});
    fresh(); /* MAC0 on all three lines: OFX, OFY and DQB */
    set(37, 32767);
    set(38, 32767);
    set(39, 1000);
    set(58, 1999);
    set(59, 0x7FFF);
    ROWS("causes, three MAC0s", encode_command(0x01, 1, 0), {16, 1, 5, 4292706369}, {16, 1, 6, 4292706369},
         {16, 1, 7, 4292706369}, {14, 1, 5, 65501}, {13, 1, 6, 65501}, {12, 1, 7, 1048024});
    fresh();
    set(39, 1000);
    set(59, (uint32_t)-0x8000);
    set(58, 1999);
    set(60, 0x80000000);
    ROWS("causes, IR0 below 0", encode_command(0x01, 1, 0), {15, 1, 7, -6440321024}, {12, 1, 7, -1572344});
    fresh(); /* rounded down */
    set(39, 1);
    set(56, 0xFBFFFFFF);
    set(60, 0xFFFFFFFF);
    ROWS("causes, rounded down", encode_command(0x01, 1, 0), {14, 1, 5, -0x401}, {12, 1, 7, -1});
}

static void other_causes(void)
{
    unsigned i;

    fresh(); /* T-48 */
    set(12, halves(-0x8000, -0x8000));
    set(13, halves(0x7FFF, -0x8000));
    set(14, halves(-0x8000, 0x7FFF));
    ROWS("causes, NCLIP", encode_command(0x06, 0, 0), {16, 1, 1, 4294836225});
    set(13, halves(-0x8000, 0x7FFF));
    set(14, halves(0x7FFF, -0x8000));
    ROWS("causes, NCLIP below", encode_command(0x06, 1, 1), {15, 1, 1, -4294836225});
    equal("low word of a value below 0", cause_words[3], 0x0001FFFF);
    equal("high word of a value below 0", cause_words[4], 0xFFFFFFFF);

    fresh(); /* T-47: AVSZ4 has line 2 */
    set(61, 0x7FFF);
    set(62, 0x7FFF);
    for (i = 16; i < 20; i++)
        set(i, 0xFFFF);
    ROWS("causes, AVSZ4", encode_command(0x2E, 0, 0), {18, 1, 3, 2097056}, {16, 1, 2, (int64_t)0x7FFF * 4 * 0xFFFF});
    ROWS("causes, AVSZ3", encode_command(0x2D, 0, 0), {18, 1, 3, 1572792}, {16, 1, 1, (int64_t)0x7FFF * 3 * 0xFFFF});
    set(61, 0x8000);
    set(62, 0x8000);
    ROWS("causes, AVSZ3 below", encode_command(0x2D, 1, 0), {18, 1, 3, -1572840}, {15, 1, 1, -(int64_t)0x8000 * 3 * 0xFFFF});
    ROWS("causes, AVSZ4 below", encode_command(0x2E, 1, 0), {18, 1, 3, -2097120}, {15, 1, 2, -(int64_t)0x8000 * 4 * 0xFFFF});
    fresh();
    set(61, (uint32_t)-1);
    set(17, 1);
    ROWS("causes, OTZ rounded down", encode_command(0x2D, 0, 0), {18, 1, 3, -1});

    fresh(); /* MVMVA: MAC on lines 1 to 3, IR on line 4 */
    set(37, 0x80000000);
    set(38, 0x7FFFFFFF);
    set(39, 0x9000);
    set(32, 1);
    set(34, 0x1000);
    set(0, halves(-1, 1));
    ROWS("causes, MVMVA", encode_mvmva(1, 0, 0, 0, 0), {29, 1, 2, (int64_t)1 << 43}, {27, 1, 1, -((int64_t)1 << 43) - 1},
         {24, 1, 4, 0x7FFFFFFF}, {23, 1, 4, -0x80000000LL}, {22, 1, 4, 0x9000});
    fresh(); /* T-37: IR from the low 32 bits */
    for (i = 40; i <= 44; i++)
        set(i, 0x80008000);
    set(0, 0x80008000);
    set(1, 0x8000);
    ROWS("causes, T-37", encode_mvmva(0, 1, 0, 3, 1), {24, 1, 4, -1073741824}, {23, 1, 4, -1073741824}, {22, 1, 4, -1073741824});
    fresh(); /* T-41: FC; the whole sum, and IR of the third product */
    set(32, halves(0x7FFF, 0x7FFF));
    set(33, halves(0x1000, 0));
    set(36, 0x7FFF);
    set(0, halves(0x7FFF, 0x7FFF));
    set(1, (uint32_t)-1);
    set(53, 0x7FFFFFFF);
    ROWS("causes, T-41", encode_mvmva(1, 0, 0, 2, 1), {30, 1, 1, 0x7FFFFFFFLL * 0x1000 + 2LL * 0x7FFF * 0x7FFF - 0x1000},
         {24, 1, 4, -1}, {22, 1, 4, -8});
    fresh(); /* matrix 3 and IR: IR0 is the third element */
    set(8, 0x7FFF);
    set(11, 0x7FFF);
    ROWS("causes, matrix 3", encode_mvmva(1, 3, 3, 3, 0), {24, 1, 4, 0x7FFF * 0x7FFF >> 12});

    fresh();
    set(9, 0x7FFF);
    set(11, 0x8000);
    ROWS("causes, SQR", encode_command(0x28, 0, 1), {24, 1, 2, 0x3FFF0001}, {22, 1, 2, 0x40000000});
    ROWS("causes, SQR sf 1", encode_command(0x28, 1, 1), {24, 1, 2, 0x3FFF0}, {22, 1, 2, 0x40000});
    fresh();
    set(9, 1);
    set(36, 6);
    set(11, 3);
    set(32, 4);
    ROWS("causes, OP", encode_command(0x0C, 0, 1), {23, 1, 2, -6});
    rows_are("causes, OP lm 0", encode_command(0x0C, 0, 0), NULL, 0);
}

static void colour_causes(void)
{
    unsigned i;

    fresh(); /* T-50: IR is limited on lines 2 and 6 */
    set(45, 0x9000);
    ROWS("causes, NCS", encode_command(0x1E, 1, 0), {24, 1, 2, 36864}, {24, 1, 6, 36864}, {21, 1, 6, 2304});
    ROWS("causes, NCT", encode_command(0x20, 1, 0), {24, 1, 2, 36864}, {24, 1, 6, 36864}, {24, 2, 2, 36864}, {24, 2, 6, 36864},
         {24, 3, 2, 36864}, {24, 3, 6, 36864}, {21, 1, 6, 2304}, {21, 2, 6, 2304}, {21, 3, 6, 2304});
    ROWS("causes, NCCS", encode_command(0x1B, 1, 0), {24, 1, 2, 36864});
    set(6, 0x000000FF);
    ROWS("causes, NCCS with R FFh", encode_command(0x1B, 1, 0), {24, 1, 2, 36864}, {21, 1, 6, 0x7FFF * 0xFF >> 12});
    fresh(); /* line 1, in the part of its vertex; BK brings line 2 within range */
    set(43, 0x4000); /* L31 */
    set(52, 0x8000); /* LB3 */
    set(47, 0x40000);
    set(4, 0x7000);
    ROWS("causes, NCCT line 1", encode_command(0x3F, 1, 1), {22, 1, 2, 0x40000}, {22, 2, 2, 0x40000}, {22, 3, 1, 0x1C000});

    fresh(); /* NCDS: FC-MAC on line 4 */
    set(54, (uint32_t)-0x8001);
    ROWS("causes, NCDS", encode_command(0x13, 1, 1), {23, 1, 4, -0x8001});
    fresh(); /* a sum of line 4 that 44 bits cannot hold: b is -8000h * FFh * 10h */
    set(45, (uint32_t)-0x8000);
    set(53, 0x7FFFFFFF);
    set(6, 0xFF);
    ROWS("causes, NCDS line 4", encode_command(0x13, 1, 0), {30, 1, 4, 0x7FFFFFFFLL * 0x1000 + 0x8000 * 0xFF * 0x10},
         {24, 1, 4, (-0x80000000LL * 0x1000 - 0x1000 + 0x8000 * 0xFF * 0x10) >> 12}, {21, 1, 6, -0x8000 * 0xFF >> 12});
    ROWS("causes, CDP line 3", encode_command(0x14, 1, 0), {30, 1, 3, 0x7FFFFFFFLL * 0x1000 + 0x8000 * 0xFF * 0x10},
         {24, 1, 3, (-0x80000000LL * 0x1000 - 0x1000 + 0x8000 * 0xFF * 0x10) >> 12}, {21, 1, 5, -0x8000 * 0xFF >> 12});
    fresh(); /* the second and third vertex of NCDT */
    set(40, 0x1000); /* L11 */
    set(48, 0x1000); /* LR1 */
    set(6, 0xFF);
    set(53, 0x7FFF);
    set(2, (uint32_t)-1 & 0xFFFF);
    set(4, (uint32_t)-16 & 0xFFFF);
    ROWS("causes, NCDT", encode_command(0x16, 1, 0), {24, 3, 4, (0x7FFF * 0x1000 + 16 * 0xFF * 0x10) >> 12}, {21, 2, 6, -1},
         {21, 3, 6, -1});

    fresh(); /* CC: lines 1 and 5 */
    set(46, 0x7FFFFFFF);
    set(50, 0x1000); /* LG2 */
    set(10, 1);
    set(6, 0x0000FF00);
    ROWS("causes, CC", encode_command(0x1C, 1, 0), {29, 1, 1, (int64_t)1 << 43}, {23, 1, 1, -0x80000000LL},
         {20, 1, 5, -0x8000 * 0xFF >> 12});

    fresh(); /* T-38: DPCS, where 32 bits of FC-MAC are kept */
    set(53, 0x100000);
    set(6, 1);
    set(8, 0x1000);
    ROWS("causes, DPCS", encode_command(0x10, 0, 0), {24, 1, 4, -65536}, {24, 1, 6, -0x8000 * 0x1000 + 0x10000},
         {21, 1, 6, (-0x8000 * 0x1000 + 0x10000) >> 4});
    fresh(); /* T-39: INTPL */
    set(9, 0x8000);
    set(53, 0x7FFFFFFF);
    set(8, 0x1000);
    ROWS("causes, INTPL", encode_command(0x11, 1, 0), {30, 1, 4, ((int64_t)1 << 43) + 134213632}, {24, 1, 4, -2147450881},
         {24, 1, 6, -65536}, {21, 1, 6, -4096});
    fresh(); /* the far colour limited as lm = 0, the end by lm */
    set(9, 0x100);
    set(8, 0x1000);
    set(53, (uint32_t)-0x80);
    ROWS("causes, INTPL lm 1", encode_command(0x11, 1, 1), {24, 1, 6, -0x80}, {21, 1, 6, -8});
    fresh(); /* DCPL */
    set(9, 0x1000);
    set(6, 0x40);
    set(55, 0x80000000);
    set(11, 1);
    set(6, 0x00010000);
    ROWS("causes, DCPL", encode_command(0x29, 1, 0), {25, 1, 4, -0x80000000LL * 0x1000 - 16}, {22, 1, 4, 0x7FFFFFFF});
    fresh(); /* DPCT: each part has the colour that was RGB0, RGB1 and RGB2 */
    set(20, 0x00000010);
    set(21, 0x00000020);
    set(22, 0x00000030);
    set(53, 0x80000000);
    ROWS("causes, DPCT", encode_command(0x2A, 1, 0), {27, 1, 4, -0x80000000LL * 0x1000 - 0x100000},
         {27, 2, 4, -0x80000000LL * 0x1000 - 0x200000}, {27, 3, 4, -0x80000000LL * 0x1000 - 0x300000},
         {24, 1, 4, 0x7FFFFFFF - 0xFF}, {24, 2, 4, 0x7FFFFFFF - 0x1FF}, {24, 3, 4, 0x7FFFFFFF - 0x2FF});

    fresh(); /* T-40: GPL */
    set(25, 0x7FFFFFFF);
    set(9, 1);
    set(8, 1);
    ROWS("causes, GPL sf 0", encode_command(0x3E, 0, 0), {24, 1, 4, -0x80000000LL}, {21, 1, 4, -0x8000000});
    set(9, 0x1000);
    ROWS("causes, GPL", encode_command(0x3E, 1, 0), {30, 1, 3, (int64_t)1 << 43}, {24, 1, 4, -0x80000000LL},
         {21, 1, 4, -0x8000000});
    ROWS("causes, GPF", encode_command(0x3D, 0, 0), {21, 1, 4, 0x100});
    fresh(); /* T-49: rounded down */
    set(25, (uint32_t)-1);
    set(27, 4096);
    ROWS("causes, GPL colours", encode_command(0x3E, 0, 0), {21, 1, 4, -1}, {19, 1, 4, 256});
    fresh(); /* all that DPCT can have: in each part bits 27..19, and 24..22 on both lines */
    for (i = 20; i < 23; i++) {
        set(i, 0x00FFFFFF);
        set(i + 33, 0x80000000);
    }
    set(8, 0x7FFF);
    equal("causes, DPCT of white", ask(encode_command(0x2A, 0, 1), CAUSE_SPACE).number, 5 * 3 * 12);
}

static void causes(void)
{
    perspective_causes();
    other_causes();
    colour_causes();
}

/* Three rows, with the space that they need, more, and less. */
static void cause_spaces(void)
{
    const uint32_t ncs = encode_command(0x1E, 1, 0);
    size_t space;

    fresh();
    set(45, 0x9000);
    for (space = 0; space < 15; space++)
        answers("too few words", ask(ncs, space), MODEL_SPACE, 15);
    for (space = 15; space < 40; space++) {
        answers("words enough", ask(ncs, space), MODEL_DONE, 15);
        equal("words enough, the last", cause_words[14], 0);
        equal("words enough, the last but one", cause_words[13], 2304);
    }
    fresh();
    answers("no word for no row", ask(ncs, 0), MODEL_DONE, 0);
    answers("some words for no row", ask(ncs, 7), MODEL_DONE, 0);
}

static void cause_refusals(void)
{
    const uint32_t ncs = encode_command(0x1E, 1, 0), unlisted = 0x4A000000;
    static const size_t lengths[] = {0, 1, 428, 431, 433, 436, 452};
    unsigned number, i;

    fresh();
    set(45, 0x9000);
    for (i = 0; i < sizeof lengths / sizeof *lengths; i++) {
        answers("causes, length", ask_length(lengths[i], ncs, 100), MODEL_IMAGE_LENGTH, 0);
        answers("causes, length before unlisted", ask_length(lengths[i], unlisted, 100), MODEL_IMAGE_LENGTH, 0);
        answers("causes, length before space", ask_length(lengths[i], ncs, 0), MODEL_IMAGE_LENGTH, 0);
    }
    word[0] = 1;
    answers("causes, length before form", ask_length(431, unlisted, 0), MODEL_IMAGE_LENGTH, 0);
    answers("causes, form", ask(ncs, 100), MODEL_IMAGE_FORM, 0);
    answers("causes, form before unlisted", ask(unlisted, 100), MODEL_IMAGE_FORM, 0);
    answers("causes, form before space", ask(ncs, 0), MODEL_IMAGE_FORM, 0);
    word[0] = 0;
    answers("causes, unlisted", ask(unlisted, 100), MODEL_UNLISTED, 0);
    answers("causes, unlisted without space", ask(unlisted, 0), MODEL_UNLISTED, 0);
    answers("causes, space", ask(ncs, 14), MODEL_SPACE, 15);

    for (number = 0; number < 64; number++) {
        bool is_listed = false;

        for (i = 0; i < sizeof listed_commands; i++)
            is_listed |= listed_commands[i] == number;
        fresh();
        equal("causes, command listed", ask(encode_command(number, 1, 0), CAUSE_SPACE).code,
              is_listed ? MODEL_DONE : MODEL_UNLISTED);
    }

    for (i = 0; i < 128; i++) { /* the top seven bits are ignored */
        fresh();
        set(45, 0x9000);
        ROWS("causes, top bits", i << 25 | (ncs & 0x01FFFFFF), {24, 1, 2, 36864}, {24, 1, 6, 36864}, {21, 1, 6, 2304});
    }
    for (i = 0; i < 25; i++) { /* and so are bits 24..20, 12..11 and 9..6; NCS has no use for 18..13 */
        if (i >= 20 || (i >= 11 && i < 19) || (i >= 6 && i < 10))
            ROWS("causes, bits of no meaning", ncs ^ 1u << i, {24, 1, 2, 36864}, {24, 1, 6, 36864}, {21, 1, 6, 2304});
    }
    word[SR] = 0; /* COP2 not usable */
    ROWS("causes, CU2 clear", ncs, {24, 1, 2, 36864}, {24, 1, 6, 36864}, {21, 1, 6, 2304});
    word[SR] = 0xF24FFF3F;
    ROWS("causes, SR full", ncs, {24, 1, 2, 36864}, {24, 1, 6, 36864}, {21, 1, 6, 2304});
    set(63, 0x7FFFF000); /* FLAG is cleared as the command begins */
    word[1] = 0xDEADBEEF;
    word[WAIT] = 7;
    word[WAITING] = 9;
    word[SLOT] = 1;
    ROWS("causes, FLAG full", ncs, {24, 1, 2, 36864}, {24, 1, 6, 36864}, {21, 1, 6, 2304});
}

/* A word for a register: at an edge more often than not. */
static uint32_t random_register(unsigned style)
{
    static const uint32_t edges[] = {0, 1, 0xFFFFFFFF, 0x7FFF7FFF, 0x80008000, 0x7FFFFFFF, 0x80000000, 0x1000, 0x0FFF, 0xFFFF};

    switch (style) {
    case 0: return random_below(0x10000) << 16 | random_below(0x10000);
    case 1: return edges[random_below(sizeof edges / sizeof *edges)];
    case 2: return random_below(0x800) | random_below(0x800) << 16;
    default: return random_below(2) ? edges[random_below(sizeof edges / sizeof *edges)] : random_below(0x2000);
    }
}

/* Whether the value of a row is outside the range that its bit stands for, for IR1..3 the smaller one if lm is set. */
static bool out_of_range(const uint32_t *row, bool lm)
{
    int64_t value = (int64_t)((uint64_t)row[4] << 32 | row[3]), wide = (int64_t)1 << 43;

    switch (row[0]) {
    case 30: case 29: case 28: return value >= wide;
    case 27: case 26: case 25: return value < -wide;
    case 24: case 23: case 22: return value > 0x7FFF || value < (lm ? 0 : -0x8000);
    case 21: case 20: case 19: return value < 0 || value > 0xFF;
    case 18: return value < 0 || value > 0xFFFF;
    case 17: return row[3] <= 0xFFFF && row[4] <= 0xFFFF && row[3] >= 2 * row[4];
    case 16: return value > INT32_MAX;
    case 15: return value < INT32_MIN;
    case 14: case 13: return value < -0x400 || value > 0x3FF;
    case 12: return value < 0 || value > 0x1000;
    default: return false;
    }
}

/* The rows and model_command, which were written apart: the bits of FLAG have rows, in order, and no others. */
static void causes_of_random_commands(void)
{
    static const uint8_t triples[] = {0x16, 0x20, 0x2A, 0x30, 0x3F};
    uint32_t all_bits = 0, most = 0, parts = 0, i, k;
    unsigned different = 0, unordered = 0, inside = 0, odd = 0;

    for (i = 0; i < 200000; i++) {
        uint32_t instruction = random_below(0x10000) << 16 | random_below(0x10000), style = random_below(4), bits = 0;
        struct model machine = {0};
        uint8_t image[MODEL_IMAGE_BYTES];
        struct model_answer a;
        uint32_t last_part = 1;

        instruction = (instruction & ~0x3Fu) | listed_commands[i % sizeof listed_commands];
        for (k = 0; k < 64; k++)
            model_cop2_write(&machine, k, random_register(style));
        model_store(&machine, image);
        a = model_causes(image, sizeof image, instruction, cause_words, CAUSE_SPACE);
        model_command(&machine, instruction);
        for (k = 0; k < sizeof triples; k++)
            if (triples[k] == (instruction & 0x3F))
                last_part = 3;
        odd += a.code != MODEL_DONE || a.number % 5 != 0 || a.number > 5 * MODEL_MOST_CAUSES;
        for (k = 0; k < a.number; k += 5) {
            const uint32_t *row = cause_words + k;
            uint32_t place = (30 - row[0]) << 8 | row[1] << 4 | row[2];

            odd += row[1] < 1 || row[1] > last_part || row[2] < 1 || row[2] > 7;
            inside += !out_of_range(row, instruction >> 10 & 1);
            unordered += k > 0 && place <= ((30 - row[-5]) << 8 | row[-4] << 4 | row[-3]);
            bits |= 1u << row[0];
            parts |= 1u << row[1];
        }
        different += bits != (machine.cop2[63] & 0x7FFFF000);
        all_bits |= bits;
        if (a.number > most)
            most = (uint32_t)a.number;
    }
    equal("rows have the bits of FLAG", different, 0);
    equal("rows stand in order", unordered, 0);
    equal("values are out of range", inside, 0);
    equal("answers, parts and lines", odd, 0);
    equal("every bit has a row", all_bits, 0x7FFFF000);
    equal("every part has a row", parts, 2 | 4 | 8);
    equal("many rows", most > 5 * 40, true);
}

/* ---- Saved machines (02, Ticket 3) --------------------------------------------- */

#define UNUSED_BYTE 0x6B
#define FIRST_BLOCK 438 /* where the first block's head stands */

static uint8_t file[2200000]; /* the file to load, and the space to save to */
static size_t file_length;
static uint8_t loaded_image[512], loaded_ram[65 * 32768], loaded_pad[sizeof pad]; /* lent to loads */

static size_t saved_bytes(size_t length)
{
    return 1468 + length + 3 * ((length + 32767) / 32768);
}

static unsigned count_other(const uint8_t *bytes, size_t from, size_t to, uint8_t value)
{
    unsigned other = 0;

    for (; from < to; from++)
        other += bytes[from] != value;
    return other;
}

/* Saves the machine under test. What is not the file's is as before, and so is the machine. */
static struct model_answer save_length(size_t image_length, size_t space)
{
    static uint8_t ram_before[sizeof ram], pad_before[sizeof pad];
    uint8_t image[512] = {0}, before[512];
    struct model_answer a;
    size_t used;

    put_image(image);
    memcpy(before, image, sizeof image);
    memcpy(ram_before, ram, ram_length);
    memcpy(pad_before, pad, sizeof pad);
    memset(file, UNUSED_BYTE, space + 64);
    a = model_save_file(image, image_length, ram, ram_length, pad, pad_length, file, space);
    used = a.code == MODEL_DONE ? (size_t)a.number : 0;
    if (count_other(file, used, space + 64, UNUSED_BYTE) != 0)
        equal("a save changes what is not the file's", true, false);
    if (memcmp(before, image, sizeof image) != 0 || memcmp(ram_before, ram, ram_length) != 0 ||
        memcmp(pad_before, pad, sizeof pad) != 0)
        equal("a save changes the machine", true, false);
    file_length = used;
    return a;
}

static struct model_answer save(size_t space)
{
    return save_length(MODEL_IMAGE_BYTES, space);
}

/* Loads the file into buffers of the lengths of the machine under test; a refusal leaves them as they were. */
static struct model_answer load_length(size_t image_length)
{
    struct model_answer a;

    memset(loaded_image, UNUSED_BYTE, sizeof loaded_image);
    memset(loaded_ram, UNUSED_BYTE, ram_length);
    memset(loaded_pad, UNUSED_BYTE, sizeof loaded_pad);
    a = model_load_file(file, file_length, loaded_image, image_length, loaded_ram, ram_length, loaded_pad, pad_length);
    if (a.code != MODEL_DONE &&
        (count_other(loaded_image, 0, sizeof loaded_image, UNUSED_BYTE) != 0 ||
         count_other(loaded_ram, 0, ram_length, UNUSED_BYTE) != 0 || count_other(loaded_pad, 0, pad_length, UNUSED_BYTE) != 0))
        equal("a refused load changes something", true, false);
    if (count_other(loaded_image, MODEL_IMAGE_BYTES, sizeof loaded_image, UNUSED_BYTE) != 0 ||
        count_other(loaded_pad, MODEL_PAD_BYTES, sizeof loaded_pad, UNUSED_BYTE) != 0)
        equal("a load writes behind a buffer", true, false);
    return a;
}

static struct model_answer load(void)
{
    return load_length(MODEL_IMAGE_BYTES);
}

/* The fresh machine with every byte of its memories different from its neighbours, and never 0, 3 or 4. */
static void fresh_saved(size_t length)
{
    size_t i;

    fresh();
    ram_length = length;
    for (i = 0; i < length; i++)
        ram[i] = (uint8_t)(5 + (i * 7 + i / 251) % 250);
    for (i = 0; i < MODEL_PAD_BYTES; i++)
        pad[i] = (uint8_t)(5 + (i * 11 + i / 241) % 250);
}

/* ---- A file field by field */

static void add_bytes(const uint8_t *bytes, size_t length)
{
    memcpy(file + file_length, bytes, length);
    file_length += length;
}

static void add_head(unsigned tag, size_t length)
{
    const uint8_t head[3] = {(uint8_t)tag, (uint8_t)length, (uint8_t)(length >> 8)};

    add_bytes(head, sizeof head);
}

static void add_block(size_t length)
{
    add_head(3, length);
    add_bytes(ram, length);
}

/* Tags 1 and 2, of the machine under test. */
static void begin_file(void)
{
    uint8_t image[MODEL_IMAGE_BYTES];

    put_image(image);
    file_length = 0;
    add_head(1, 176);
    add_bytes(image, 176);
    add_head(2, 256);
    add_bytes(image + 176, 256);
}

/* Tags 4 and 0. */
static void end_file(void)
{
    add_head(4, 1024);
    add_bytes(pad, 1024);
    add_head(0, 0);
}

/* ---- What is shared, from the definition */

/* Whether the head of a field stands there; if not, *shared takes how much of the file is good up to there. */
static bool head_stands(size_t at, unsigned tag, size_t length, size_t *shared)
{
    const uint8_t head[3] = {(uint8_t)tag, (uint8_t)length, (uint8_t)(length >> 8)};
    unsigned i;

    for (i = 0; i < 3; i++) {
        *shared = at + i < file_length ? at + i : file_length;
        if (at + i >= file_length || file[at + i] != head[i])
            return false;
    }
    return true;
}

/* How much of the file is the beginning of the well-formed one with so much RAM and the same contents; all of that if *whole. */
static size_t shared_with(size_t ram_bytes, bool *whole)
{
    size_t at = FIRST_BLOCK, left, shared;

    *whole = false;
    if (!head_stands(0, 1, 176, &shared) || !head_stands(179, 2, 256, &shared))
        return shared;
    for (left = ram_bytes; left > 0; left -= left < 32768 ? left : 32768) {
        if (!head_stands(at, 3, left < 32768 ? left : 32768, &shared))
            return shared;
        at += 3 + (left < 32768 ? left : 32768);
    }
    if (!head_stands(at, 4, 1024, &shared) || !head_stands(at + 1027, 0, 0, &shared))
        return shared;
    *whole = true;
    return at + 1030;
}

/* The longest of these over every RAM that could make a difference; *total takes the RAM of the file where it is well formed. */
static size_t longest_shared(size_t *total)
{
    size_t longest = 0, ram_bytes, shared;
    bool whole;

    *total = 0;
    for (ram_bytes = 1; ram_bytes <= file_length + 65536; ram_bytes++) {
        shared = shared_with(ram_bytes, &whole);
        if (shared > longest)
            longest = shared;
        if (whole && shared == file_length)
            *total = ram_bytes;
    }
    return longest;
}

/* The load answers what the definition says, for a file with a well-formed image. */
static void loads_by_definition(const char *what)
{
    size_t total, shared = longest_shared(&total);
    struct model_answer a = load();

    if (total == 0)
        answers(what, a, MODEL_FILE, shared);
    else
        answers(what, a, total == ram_length ? MODEL_DONE : MODEL_SPACE, 0);
}

/* ---- Tests */

static void malformed(const char *what, uint64_t number)
{
    answers(what, load(), MODEL_FILE, number);
}

/* Every field where it belongs, and the bytes that are used. */
static void saved_layout(void)
{
    static const size_t lengths[] = {4, 8, 4096, 32764, 32768, 32772, 65532, 65536, 65540, 98304, 98308, 1500000, 2097148, 2097152};
    uint8_t image[MODEL_IMAGE_BYTES];
    size_t i, needed, place, at;

    for (i = 0; i < sizeof lengths / sizeof *lengths; i++) {
        size_t length = lengths[i], blocks = 0;

        fresh_saved(length);
        word[1] = 0x12345678;
        set(63, 0x7FFFF000);
        needed = saved_bytes(length);
        answers("save, no space", save(0), MODEL_SPACE, 0);
        answers("save, a byte too few", save(needed - 1), MODEL_SPACE, 0);
        answers("save, half of the space", save(needed / 2), MODEL_SPACE, 0);
        answers("save, a byte more", save(needed + 1), MODEL_DONE, needed);
        answers("save, much more", save(needed + 5000), MODEL_DONE, needed);
        answers("save, just enough", save(needed), MODEL_DONE, needed);

        put_image(image);
        equal("tag 1", file[0] | file[1] << 8 | file[2] << 16, 0x00B001);
        equal("words 0..43", memcmp(file + 3, image, 176), 0);
        equal("tag 2", file[179] | file[180] << 8 | file[181] << 16, 0x010002);
        equal("COP2 words", memcmp(file + 182, image + 176, 256), 0);
        for (place = 0, at = FIRST_BLOCK; place < length; place += 32768) {
            size_t block = length - place < 32768 ? length - place : 32768;

            equal("tag 3", file[at], 3);
            equal("tag 3, length", file[at + 1] + 256u * file[at + 2], block);
            equal("tag 3, content", memcmp(file + at + 3, ram + place, block), 0);
            at += 3 + block;
            blocks++;
        }
        equal("blocks", blocks, (length + 32767) / 32768);
        equal("tag 4", file[at] | file[at + 1] << 8 | file[at + 2] << 16, 0x040004);
        equal("pad", memcmp(file + at + 3, pad, 1024), 0);
        equal("tag 0", file[at + 1027] | file[at + 1028] << 8 | file[at + 1029] << 16, 0);
        equal("nothing after it", at + 1030, needed);

        answers("load", load(), MODEL_DONE, 0);
        equal("load, image", memcmp(loaded_image, image, sizeof image), 0);
        equal("load, RAM", memcmp(loaded_ram, ram, length), 0);
        equal("load, pad", memcmp(loaded_pad, pad, 1024), 0);
        file_length--;
        malformed("a byte less", needed - 1);
        file_length += 2;
        malformed("a byte more", needed);
    }
    equal("T-64, 2 MiB", needed, 2098812);
    fresh_saved(4);
    answers("4 bytes of RAM", save(2000), MODEL_DONE, 1475);
}

/* T-63, and what is beside it. */
static void malformed_files(void)
{
    static const uint8_t nothing[4] = {0};
    size_t i;

    fresh_saved(4);
    file_length = 0;
    malformed("an empty file", 0);
    begin_file();
    end_file();
    malformed("no tag 3", 438);
    begin_file();
    malformed("no tag 3, and nothing else", 438);
    begin_file();
    add_head(3, 0xFF05);
    add_bytes(ram, 4);
    malformed("03 05 FF", 440);
    file_length = FIRST_BLOCK + 2;
    malformed("03 05", 440);
    begin_file();
    add_head(3, 0x8001);
    malformed("03 01 80", 440);
    begin_file();
    add_head(3, 0x8000);
    malformed("03 00 80", 441);
    begin_file();
    add_head(3, 0x7FFF);
    malformed("03 FF 7F", 441);
    begin_file();
    add_head(3, 0x8100);
    malformed("03 00 81", 440);
    begin_file();
    add_head(3, 0);
    malformed("03 00 00", 440);
    begin_file();
    add_head(3, 0x0100);
    malformed("03 00 01", 441);

    fresh_saved(32768);
    begin_file();
    add_block(32768);
    malformed("cut behind a full block", 33209);
    add_block(0);
    end_file();
    malformed("second block of length 0 after a full one", 33211);
    begin_file();
    add_block(32768);
    add_head(5, 4);
    malformed("neither RAM nor pad behind a full block", 33209);
    begin_file();
    add_block(32768);
    add_block(32768);
    add_block(0);
    end_file();
    malformed("third block of length 0", 33211 + 32771);
    begin_file();
    add_block(32768);
    add_head(3, 0x8001);
    malformed("second block too long", 33211);
    begin_file();
    add_block(32767);
    malformed("cut behind a block of 32,767", 33208);
    add_block(1);
    end_file();
    malformed("a block after one of 32,767", 33208);

    fresh_saved(4);
    begin_file();
    add_block(4);
    add_block(4);
    end_file();
    malformed("a block after a short block", 445);
    begin_file();
    add_block(4);
    add_block(32768);
    end_file();
    malformed("a full block after a short block", 445);
    begin_file();
    add_block(4);
    add_head(0, 0);
    malformed("no pad", 445);
    begin_file();
    add_block(4);
    end_file();
    file_length -= 3;
    malformed("no end", 1472);
    add_head(4, 1024);
    malformed("two pads", 1472);
    begin_file();
    add_block(4);
    end_file();
    add_bytes(nothing, 1);
    malformed("a good file and a byte", 1475);
    add_head(0, 0);
    malformed("a good file and more", 1475);
    begin_file();
    add_head(4, 1024);
    add_bytes(pad, 1024);
    add_block(4);
    add_head(0, 0);
    malformed("the pad before the RAM", 438);
    begin_file();
    add_block(4);
    add_head(4, 1020);
    add_bytes(pad, 1020);
    add_head(0, 0);
    malformed("a shorter pad", 446);
    begin_file();
    add_block(4);
    add_head(4, 0x0300);
    malformed("a pad of 768", 447);
    begin_file();
    add_block(4);
    end_file();
    file[1473] = 1;
    add_bytes(nothing, 1);
    malformed("an end with a content", 1473);
    memmove(file, file + 179, file_length - 179);
    file_length -= 179;
    malformed("no tag 1", 0);
    begin_file();
    add_block(4);
    end_file();
    memmove(file + 179, file + 438, file_length - 438);
    file_length -= 259;
    malformed("no tag 2", 179);

    /* not 7, but 8 */
    begin_file();
    add_block(5);
    end_file();
    answers("a last block of 5 bytes", load(), MODEL_SPACE, 0);
    ram_length = 8;
    answers("a last block of 5 bytes, 8 lent", load(), MODEL_SPACE, 0);
    ram_length = 5;
    answers("a last block of 5 bytes, 5 lent", load(), MODEL_RAM_LENGTH, 0);
    fresh_saved(32768);
    begin_file();
    for (i = 0; i < 65; i++)
        add_block(32768);
    end_file();
    ram_length = 2097152;
    answers("65 full blocks", load(), MODEL_SPACE, 0);
    ram_length = 65 * 32768;
    answers("65 full blocks, as many lent", load(), MODEL_RAM_LENGTH, 0);
    ram_length = 4;
    answers("65 full blocks, 4 lent", load(), MODEL_SPACE, 0);
    file_length--;
    malformed("65 full blocks, cut", 1468 + 65 * 32771 - 1);
    file_length = 438 + 65 * 32771;
    malformed("65 full blocks and no pad", 438 + 65 * 32771);
    fresh_saved(32768);
    begin_file();
    for (i = 0; i < 64; i++)
        add_block(32768);
    add_block(4);
    end_file();
    ram_length = 2097152;
    answers("64 full blocks and 4 bytes", load(), MODEL_SPACE, 0);
}

/* Every cut, and every value of every byte of a head; contents never matter. */
static void changed_files(void)
{
    static const size_t heads[] = {0, 179, 438, 445, 1472}, lengths[] = {4, 32768, 32772};
    unsigned value, i, k, different = 0;
    size_t cut;

    fresh_saved(4);
    save(1475);
    for (cut = 0; cut < 1475; cut++) {
        file_length = cut;
        malformed("a cut", cut);
    }
    for (i = 0; i < sizeof lengths / sizeof *lengths; i++)
        for (cut = FIRST_BLOCK; cut < saved_bytes(lengths[i]); cut += i == 0 ? 1 : 977) {
            fresh_saved(lengths[i]);
            save(saved_bytes(lengths[i]));
            file_length = cut;
            malformed("a cut in a longer file", cut);
        }

    fresh_saved(4);
    save(1475);
    for (i = 0; i < sizeof heads / sizeof *heads; i++)
        for (k = 0; k < 3; k++)
            for (value = 0; value < 256; value++) {
                uint8_t *byte = file + heads[i] + k, old = *byte;

                if (value == old)
                    continue;
                *byte = (uint8_t)value;
                if (i == 2 && k > 0) { /* another length of the block: what follows is found elsewhere */
                    if (k == 1 ? value < 32 || value % 16 == 0 : value == 1 || value >= 126)
                        loads_by_definition("a changed length of RAM");
                } else {
                    malformed("a changed head", heads[i] + k);
                }
                *byte = old;
            }
    answers("unchanged again", load(), MODEL_DONE, 0);
    for (cut = 0; cut < 1475; cut++) {
        bool in_head = false;

        for (i = 0; i < sizeof heads / sizeof *heads; i++)
            in_head |= cut >= heads[i] && cut < heads[i] + 3;
        file[cut] ^= 0x5A;
        if (!in_head)
            different += load().code == MODEL_FILE;
        file[cut] ^= 0x5A;
    }
    equal("contents that make a file malformed", different, 0);
}

/* Every set of reasons, and which of them has the word. */
static void save_refusals(void)
{
    static const unsigned order[] = {1, 3, 6, 2, 8};
    static const size_t image_lengths[] = {0, 1, 428, 431, 433, 436, 452}, ram_lengths[] = {0, 1, 2, 3, 5, 6, 7, 2097153, 2097156};
    static const size_t pad_lengths[] = {0, 1, 1020, 1023, 1025, 1028, 2048};
    unsigned wrong, i;

    for (wrong = 0; wrong < 32; wrong++) {
        unsigned expected = 0;

        for (i = 5; i-- > 0;)
            if (wrong >> i & 1)
                expected = order[i];
        fresh_saved(32772);
        ram_length = wrong & 2 ? 32770 : 32772;
        pad_length = wrong & 4 ? 1023 : 1024;
        word[43] = wrong >> 3 & 1;
        answers("save, refusals together", save_length(wrong & 1 ? 431 : 432, wrong & 16 ? 34245 : 34246), expected,
                expected ? 0 : 34246);
    }
    for (i = 0; i < sizeof image_lengths / sizeof *image_lengths; i++) {
        fresh_saved(4);
        answers("save, image length", save_length(image_lengths[i], 1475), MODEL_IMAGE_LENGTH, 0);
    }
    for (i = 0; i < sizeof ram_lengths / sizeof *ram_lengths; i++) {
        fresh_saved(4);
        ram_length = ram_lengths[i];
        answers("save, RAM length", save(2100000), MODEL_RAM_LENGTH, 0);
    }
    for (i = 0; i < sizeof pad_lengths / sizeof *pad_lengths; i++) {
        fresh_saved(4);
        pad_length = pad_lengths[i];
        answers("save, pad length", save(1475), MODEL_PAD_LENGTH, 0);
    }
    for (i = 0; i < 1475; i++) {
        fresh_saved(4);
        answers("save, short space", save(i), MODEL_SPACE, 0);
    }
}

static void load_refusals(void)
{
    static const unsigned order[] = {1, 3, 6, 7, 2, 8};
    static const size_t image_lengths[] = {0, 1, 428, 431, 433, 436, 452}, ram_lengths[] = {0, 1, 2, 3, 5, 6, 7, 2097153, 2097156};
    static const size_t pad_lengths[] = {0, 1, 1020, 1023, 1025, 1028, 2048};
    unsigned wrong, i;

    for (wrong = 0; wrong < 64; wrong++) {
        unsigned expected = 0;
        size_t lent = wrong & 32 ? 32768 : 32772;

        for (i = 6; i-- > 0;)
            if (wrong >> i & 1)
                expected = order[i];
        fresh_saved(32772);
        word[43] = wrong >> 4 & 1;
        begin_file();
        add_block(32768);
        add_block(4);
        end_file();
        file_length += wrong >> 3 & 1;
        ram_length = wrong & 2 ? lent + 2 : lent;
        pad_length = wrong & 4 ? 1023 : 1024;
        answers("load, refusals together", load_length(wrong & 1 ? 431 : 432), expected, expected == 7 ? 34246 : 0);
    }
    fresh_saved(4);
    save(1475);
    for (i = 0; i < sizeof image_lengths / sizeof *image_lengths; i++)
        answers("load, image length", load_length(image_lengths[i]), MODEL_IMAGE_LENGTH, 0);
    for (i = 0; i < sizeof ram_lengths / sizeof *ram_lengths; i++) {
        ram_length = ram_lengths[i];
        answers("load, RAM length", load(), MODEL_RAM_LENGTH, 0);
    }
    ram_length = 4;
    for (i = 0; i < sizeof pad_lengths / sizeof *pad_lengths; i++) {
        pad_length = pad_lengths[i];
        answers("load, pad length", load(), MODEL_PAD_LENGTH, 0);
    }
    pad_length = 1024;
    for (ram_length = 8; ram_length <= 70000; ram_length += 4)
        if (load().code != MODEL_SPACE)
            equal("load, another RAM", true, false);
    ram_length = 4;
    for (i = 0; i < MODEL_IMAGE_WORDS; i++) { /* the file's image, and not what was lent before */
        fresh_saved(4);
        word[i] ^= 0x80000000;
        begin_file();
        add_block(4);
        end_file();
        equal("load, a word of the image", load().code, run(0) / MODEL_CODE_UNIT);
    }
}

/* Random blocks and damage: the number by the definition, and what is accepted is what a save writes of it. */
static void random_files(void)
{
    static const size_t lengths[] = {32768, 32768, 32768, 1, 4, 0, 32767, 32769, 8};
    unsigned i, k, accepted = 0, refused = 0, other = 0;
    static uint8_t before[sizeof file];

    for (i = 0; i < 400; i++) {
        unsigned blocks = 1 + random_below(3);
        struct model_answer a;
        size_t total = 0;

        fresh_saved(32772);
        begin_file();
        for (k = 0; k < blocks; k++) {
            size_t length = lengths[random_below(random_below(2) ? 5 : sizeof lengths / sizeof *lengths)];

            add_head(3, length);
            add_bytes(ram, length);
            total += length;
        }
        end_file();
        if (random_below(3) == 0)
            file[FIRST_BLOCK + random_below((uint32_t)file_length - FIRST_BLOCK)] ^= (uint8_t)(1u << random_below(8));
        if (random_below(6) == 0)
            file_length -= random_below(1100);
        ram_length = random_below(8) ? total : 4;
        if (ram_length % 4 != 0 || ram_length == 0)
            ram_length = 4;
        loads_by_definition("a random file");
        a = load();
        if (a.code != MODEL_DONE) {
            refused++;
            continue;
        }
        accepted++;
        memcpy(before, file, file_length);
        get_image(loaded_image);
        memcpy(ram, loaded_ram, ram_length);
        memcpy(pad, loaded_pad, MODEL_PAD_BYTES);
        total = file_length;
        other += save(total).number != total || memcmp(before, file, total) != 0;
    }
    equal("accepted files that a save writes otherwise", other, 0);
    equal("files accepted", accepted > 50, true);
    equal("files refused", refused > 50, true);
}

static void saved_machines(void)
{
    saved_layout();
    malformed_files();
    changed_files();
    save_refusals();
    load_refusals();
    random_files();
}

/* ---- Draw lists (02, Ticket 10) -------------------------------------------------- */

#define END_WORD 0x55555555u

/* The ticket's list. */
static const struct {
    uint32_t byte;
    unsigned words;
} packets[] = {
    {0x20, 4}, {0x24, 7}, {0x28, 5}, {0x2C, 9}, {0x30, 6}, {0x34, 9}, {0x38, 8}, {0x3C, 12}, {0x40, 3},
    {0x50, 4}, {0x60, 3}, {0x64, 4}, {0x68, 2}, {0x70, 2}, {0x74, 3}, {0x78, 2}, {0x7C, 3},
};

#define PACKETS (sizeof packets / sizeof *packets)

static uint32_t list[200000];
static size_t list_length;

static void add(uint32_t word)
{
    list[list_length++] = word;
}

static void add_times(uint32_t word, size_t times)
{
    while (times-- > 0)
        add(word);
}

/* Checks the list, which stays as it is. */
static struct model_answer check_list(void)
{
    static uint32_t before[sizeof list / sizeof *list];
    struct model_answer a;

    memcpy(before, list, 4 * list_length);
    a = model_draw_list(list, list_length);
    if (memcmp(before, list, 4 * list_length) != 0)
        equal("a check changes the list", true, false);
    return a;
}

static void accepted(const char *what, uint64_t count)
{
    answers(what, check_list(), MODEL_DONE, count);
}

static void unknown(const char *what, uint64_t index)
{
    answers(what, check_list(), MODEL_PACKET_BYTE, index);
}

static void cut_short(const char *what, uint64_t index)
{
    answers(what, check_list(), MODEL_PACKET_SHORT, index);
}

/* ---- A list by the definition: every split */

static unsigned words_by_ticket(uint32_t byte)
{
    size_t i;

    for (i = 0; i < PACKETS; i++)
        if (packets[i].byte == byte)
            return packets[i].words;
    return 0;
}

/* Whether the words from one index up to another are a packet. */
static bool is_packet(size_t from, size_t to)
{
    size_t i;

    if (list[from] >> 24 != 0x48)
        return to - from == words_by_ticket(list[from] >> 24);
    if (to - from < 4 || list[to - 1] != END_WORD)
        return false;
    for (i = from + 1; i < to - 1; i++)
        if (list[i] == END_WORD)
            return false;
    return true;
}

#define MOST_SPLIT 64 /* words */

/* What the definition answers; *most takes the greatest number of ways in which a beginning of the list splits. */
static struct model_answer split_list(unsigned *most)
{
    unsigned ways[MOST_SPLIT + 1] = {1}, count[MOST_SPLIT + 1] = {0};
    struct model_answer refused = {0, 0};
    size_t from, to;

    *most = 1;
    for (from = 0; from < list_length; from++) {
        bool begins = false;

        for (to = from + 1; to <= list_length && ways[from] > 0; to++)
            if (is_packet(from, to)) {
                begins = true;
                ways[to] += ways[from];
                count[to] = count[from] + 1;
                *most = ways[to] > *most ? ways[to] : *most;
            }
        if (ways[from] > 0 && !begins) {
            uint32_t byte = list[from] >> 24;

            refused.code = byte == 0x48 || words_by_ticket(byte) != 0 ? MODEL_PACKET_SHORT : MODEL_PACKET_BYTE;
            refused.number = from;
        }
    }
    return ways[list_length] > 0 ? (struct model_answer){MODEL_DONE, count[list_length]} : refused;
}

/* Lists that were compared with the definition. */
struct compared {
    unsigned accepted, refused, different, ambiguous;
};

static void compare_list(struct compared *c)
{
    struct model_answer a = check_list(), expected;
    unsigned most;

    expected = split_list(&most);
    c->different += a.code != expected.code || a.number != expected.number;
    c->ambiguous += most > 1;
    c->accepted += expected.code == MODEL_DONE;
    c->refused += expected.code != MODEL_DONE;
}

/* ---- Tests */

/* A packet with nothing behind it, with fewer words, and with one more, which begins a packet of its own. */
static void top_bytes(void)
{
    static const uint32_t low_bits[] = {0, 0x482024};
    unsigned byte, i, words;

    for (byte = 0; byte < 256; byte++)
        for (i = 0; i < sizeof low_bits / sizeof *low_bits; i++) {
            uint32_t first = byte << 24 | low_bits[i];
            unsigned expected = words_by_ticket(byte);

            equal("words by the first word", model_packet_words(first), expected);
            if (byte == 0x48)
                continue;
            for (words = 1; words <= 13; words++) {
                list_length = 0;
                add(first);
                add_times(0, words - 1);
                if (expected == 0)
                    unknown("an unknown byte", 0);
                else if (words < expected)
                    cut_short("a packet with fewer words", 0);
                else if (words == expected)
                    accepted("a packet", 1);
                else
                    unknown("zeros behind a packet", expected);
            }
        }
}

static void polylines(void)
{
    static const size_t lengths[] = {2, 3, 4, 10, 100, 255, 256, 257, 258, 65535, 65536, 65537, 65538, 199998};
    size_t i;

    for (i = 0; i < 2; i++) {
        list_length = 0;
        add(0x48123456);
        add_times(7, i);
        cut_short("too few points and no end", 0);
        add(END_WORD);
        cut_short("too few points", 0);
        add(END_WORD);
        cut_short("too few points, the end twice", 0);
        list_length--;
        add_times(7, 3);
        cut_short("too few points, and more behind the end", 0);
        add(END_WORD);
        cut_short("too few points, and enough behind the end", 0);
    }
    for (i = 0; i < sizeof lengths / sizeof *lengths; i++) {
        list_length = 0;
        add(0x48000000);
        add_times(0x5555, lengths[i]);
        cut_short("a polyline without an end", 0);
        add(END_WORD);
        accepted("a polyline", 1);
    }
    list_length = 0;
    add(0x48000000);
    add_times(0x48000000, 2);
    add(END_WORD);
    accepted("48h as points", 1);
    add(END_WORD);
    unknown("the end twice", 4);
    list_length = 0;
    add(0x48555555);
    add(END_WORD ^ 1);
    add(END_WORD ^ 0x80000000);
    add(0x55550000);
    add(0x00005555);
    add(0x50005000);
    cut_short("points that are nearly the end", 0);
    add(END_WORD);
    accepted("points that are nearly the end, and the end", 1);
    add(0x48000000);
    cut_short("48h as the last word", 7);
    add_times(0, 2);
    cut_short("the second one has no end", 7);
    add(END_WORD);
    accepted("two polylines", 2);
    add(0x48000000);
    add(0);
    add(END_WORD);
    cut_short("points of an earlier polyline do not count", 11);
}

/* In a packet of a fixed number of words any word can stand. */
static void ends_as_data(void)
{
    unsigned i, k;

    for (i = 0; i < PACKETS; i++) {
        for (k = 1; k < packets[i].words; k++) {
            list_length = 0;
            add(packets[i].byte << 24);
            add_times(0, packets[i].words - 1);
            list[k] = END_WORD;
            accepted("55555555h as data", 1);
            list[k] = 0x48000000;
            accepted("48h as data", 1);
            list_length = k + 1;
            list[k] = END_WORD;
            if (k + 1 < packets[i].words)
                cut_short("55555555h as the last word of a cut packet", 0);
        }
        list_length = 0;
        add(packets[i].byte << 24);
        add_times(END_WORD, packets[i].words - 1);
        accepted("55555555h alone as data", 1);
        add(END_WORD);
        unknown("55555555h behind a packet", packets[i].words);
    }
    list_length = 0;
    add(END_WORD);
    unknown("55555555h as a first word", 0);
    add_times(END_WORD, 20);
    unknown("55555555h and nothing else", 0);
}

/* Which packet is named where more than one is bad. */
static void first_refused(void)
{
    list_length = 0;
    accepted("an empty list", 0);
    answers("no list", model_draw_list(NULL, 0), MODEL_DONE, 0);
    add(0x21000000);
    unknown("21h", 0);
    list[0] = 0x58000000;
    unknown("58h", 0);
    list[0] = 0x55000000;
    unknown("55h", 0);
    add_times(1, 2);
    add(END_WORD);
    list[0] = 0x58000000;
    unknown("58h as a polyline", 0);

    list_length = 0;
    add(0x20000000);
    add_times(1, 3);
    add(0x48000000);
    add_times(1, 2);
    cut_short("a polyline without an end behind a packet", 4);
    add(END_WORD);
    accepted("with its end", 2);
    list[6] = END_WORD;
    cut_short("with one point", 4);
    list[4] = 0x49000000;
    unknown("49h, the rest as it was", 4);

    list_length = 0;
    add(0x68000000);
    add(0);
    add(0x00000000);
    add(0x3C000000);
    unknown("11 before a cut packet", 2);
    list[2] = 0x70000000;
    accepted("two packets of two words", 2);
    add(0x48000000);
    add(END_WORD);
    add(0x99000000);
    cut_short("12 before an unknown byte", 4);
    list[4] = 0x3C000000;
    cut_short("12 with an unknown byte in the cut packet", 4);
    list[4] = 0x60000000;
    accepted("the unknown byte as data", 3);
    add(0x99000000);
    unknown("and as a first word", 7);
}

/* A list with every packet, forwards and backwards, cut at every word. */
static void cut_lists(void)
{
    unsigned backwards, i;
    size_t whole;

    for (backwards = 0; backwards < 2; backwards++) {
        size_t starts[PACKETS + 4], count = 0, at = 0;

        list_length = 0;
        for (i = 0; i < PACKETS; i++) {
            unsigned k = backwards ? PACKETS - 1 - i : i;

            if (i % 6 == 2) { /* polylines of 2, 3 and 4 points */
                starts[count++] = list_length;
                add(0x48FFFFFF);
                add_times(0x20000000, 2 + i / 6);
                add(END_WORD);
            }
            starts[count++] = list_length;
            add(packets[k].byte << 24 | i);
            add_times(i % 2 ? END_WORD : 0x7C000000, packets[k].words - 1);
        }
        whole = list_length;
        equal("words of the whole list", whole, 101);
        starts[count] = whole;
        for (list_length = 0; list_length <= whole; list_length++) {
            at += at < count && list_length > starts[at];
            if (list_length == starts[at])
                accepted("a cut between packets", at);
            else
                cut_short("a cut in a packet", starts[at - 1]);
        }
    }
}

/* Numbers beyond 16 bits. */
static void long_lists(void)
{
    size_t i;

    list_length = 0;
    for (i = 0; i < 70000; i++) {
        add(i % 3 == 0 ? 0x68000000 : i % 3 == 1 ? 0x70000000 : 0x78000000);
        add(END_WORD);
    }
    accepted("70,000 packets", 70000);
    add(0x24000000);
    cut_short("a cut packet behind them", 140000);
    list[140000] = 0x59000000;
    unknown("an unknown byte behind them", 140000);
}

/* Every list of up to 7 of these words. */
static void short_lists(void)
{
    static const uint32_t words[] = {0x68000000, 0x40000000, 0x48000000, END_WORD, 0};
    struct compared c = {0, 0, 0, 0};
    size_t number, lists = 1, length, i;

    for (length = 0; length <= 7; length++, lists *= 5)
        for (number = 0; number < lists; number++) {
            size_t rest = number;

            list_length = 0;
            for (i = 0; i < length; i++, rest /= 5)
                add(words[rest % 5]);
            compare_list(&c);
        }
    equal("short lists with another answer", c.different, 0);
    equal("short lists that split in two ways", c.ambiguous, 0);
    equal("short lists", c.accepted + c.refused, 97656);
    equal("short lists accepted", c.accepted > 1000, true);
}

static void random_lists(void)
{
    struct compared c = {0, 0, 0, 0};
    unsigned i, k;

    for (i = 0; i < 20000; i++) {
        unsigned wanted = random_below(MOST_SPLIT - 15);

        list_length = 0;
        while (list_length < wanted) {
            unsigned n = random_below(PACKETS + 3), words = n < PACKETS ? packets[n].words : 1 + random_below(6);

            add((n < PACKETS ? packets[n].byte : 0x48) << 24 | random_below(0x1000000));
            for (k = 1; k < words; k++)
                add(random_below(6) ? random_below(0xFFFFFFFF) : END_WORD);
            if (n >= PACKETS)
                add(END_WORD);
        }
        if (random_below(3) == 0 && list_length > 0)
            list[random_below((uint32_t)list_length)] = random_below(2) ? END_WORD : random_below(0xFFFFFFFF);
        if (random_below(3) == 0)
            list_length = random_below((uint32_t)list_length + 1);
        compare_list(&c);
    }
    equal("random lists with another answer", c.different, 0);
    equal("random lists that split in two ways", c.ambiguous, 0);
    equal("random lists accepted", c.accepted > 1000, true);
    equal("random lists refused", c.refused > 1000, true);
}

static void draw_lists(void)
{
    top_bytes();
    polylines();
    ends_as_data();
    first_refused();
    cut_lists();
    long_lists();
    short_lists();
    random_lists();
}

/* ---- The disassembler -------------------------------------------------------- */

static void text(uint32_t instruction, const char *expected)
{
    char out[80];

    disassemble(instruction, 0x80000100, out, sizeof out);
    equal_text(out, expected);
}

static void disassembler(void)
{
    char small[6];

    text(0, "nop");
    text(encode_r(F_SLL, 2, 0, 4, 3), "sll v0, a0, 3");
    text(encode_r(F_SRL, 2, 0, 4, 3), "srl v0, a0, 3");
    text(encode_r(F_SRA, 2, 0, 4, 31), "sra v0, a0, 31");
    text(encode_r(F_SLLV, 2, 5, 4, 0), "sllv v0, a0, a1");
    text(encode_r(F_SRLV, 2, 5, 4, 0), "srlv v0, a0, a1");
    text(encode_r(F_SRAV, 2, 5, 4, 0), "srav v0, a0, a1");
    text(encode_r(F_JR, 0, 31, 0, 0), "jr ra");
    text(encode_r(F_JALR, 31, 8, 0, 0), "jalr ra, t0");
    text(0x0000004C, "syscall 0x1");
    text(0x0000000D, "break 0x0");
    text(encode_r(F_MFHI, 8, 0, 0, 0), "mfhi t0");
    text(encode_r(F_MTHI, 0, 8, 0, 0), "mthi t0");
    text(encode_r(F_MFLO, 8, 0, 0, 0), "mflo t0");
    text(encode_r(F_MTLO, 0, 8, 0, 0), "mtlo t0");
    text(encode_r(F_MULT, 0, 8, 9, 0), "mult t0, t1");
    text(encode_r(F_MULTU, 0, 8, 9, 0), "multu t0, t1");
    text(encode_r(F_DIV, 0, 8, 9, 0), "div t0, t1");
    text(encode_r(F_DIVU, 0, 8, 9, 0), "divu t0, t1");
    text(encode_r(F_ADD, 1, 2, 3, 0), "add at, v0, v1");
    text(encode_r(F_ADDU, 1, 2, 3, 0), "addu at, v0, v1");
    text(encode_r(F_SUB, 1, 2, 3, 0), "sub at, v0, v1");
    text(encode_r(F_SUBU, 1, 2, 3, 0), "subu at, v0, v1");
    text(encode_r(F_AND, 1, 2, 3, 0), "and at, v0, v1");
    text(encode_r(F_OR, 1, 2, 3, 0), "or at, v0, v1");
    text(encode_r(F_XOR, 1, 2, 3, 0), "xor at, v0, v1");
    text(encode_r(F_NOR, 1, 2, 3, 0), "nor at, v0, v1");
    text(encode_r(F_SLT, 1, 2, 3, 0), "slt at, v0, v1");
    text(encode_r(F_SLTU, 1, 2, 3, 0), "sltu at, v0, v1");
    text(encode_i(OP_BCOND, 0x00, 4, -1), "bltz a0, 0x80000100");
    text(encode_i(OP_BCOND, 0x01, 4, 1), "bgez a0, 0x80000108");
    text(encode_i(OP_BCOND, 0x10, 4, 1), "bltzal a0, 0x80000108");
    text(encode_i(OP_BCOND, 0x11, 4, 1), "bgezal a0, 0x80000108");
    text(encode_j(OP_J, 0x200), "j 0x80000200");
    text(encode_j(OP_JAL, 0x200), "jal 0x80000200");
    text(encode_i(OP_BEQ, 5, 4, 1), "beq a0, a1, 0x80000108");
    text(encode_i(OP_BNE, 5, 4, 1), "bne a0, a1, 0x80000108");
    text(encode_i(OP_BLEZ, 0, 4, 1), "blez a0, 0x80000108");
    text(encode_i(OP_BGTZ, 0, 4, 1), "bgtz a0, 0x80000108");
    text(encode_i(OP_ADDI, 4, 5, -1), "addi a0, a1, -1");
    text(encode_i(OP_ADDIU, 29, 29, -32), "addiu sp, sp, -32");
    text(encode_i(OP_SLTI, 4, 5, -1), "slti a0, a1, -1");
    text(encode_i(OP_SLTIU, 4, 5, -1), "sltiu a0, a1, -1");
    text(encode_i(OP_ANDI, 4, 5, 0xFFFF), "andi a0, a1, 0xffff");
    text(encode_i(OP_ORI, 4, 5, 0xFFFF), "ori a0, a1, 0xffff");
    text(encode_i(OP_XORI, 4, 5, 0xFFFF), "xori a0, a1, 0xffff");
    text(encode_i(OP_LUI, 4, 0, 0x8000), "lui a0, 0x8000");
    text(encode_i(OP_LB, 4, 5, -1), "lb a0, -1(a1)");
    text(encode_i(OP_LH, 4, 5, -1), "lh a0, -1(a1)");
    text(encode_i(OP_LWL, 4, 5, -1), "lwl a0, -1(a1)");
    text(encode_i(OP_LW, 4, 5, -1), "lw a0, -1(a1)");
    text(encode_i(OP_LBU, 4, 5, -1), "lbu a0, -1(a1)");
    text(encode_i(OP_LHU, 4, 5, -1), "lhu a0, -1(a1)");
    text(encode_i(OP_LWR, 4, 5, -1), "lwr a0, -1(a1)");
    text(encode_i(OP_SB, 4, 5, -1), "sb a0, -1(a1)");
    text(encode_i(OP_SH, 4, 5, -1), "sh a0, -1(a1)");
    text(encode_i(OP_SWL, 4, 5, -1), "swl a0, -1(a1)");
    text(encode_i(OP_SW, 4, 5, -1), "sw a0, -1(a1)");
    text(encode_i(OP_SWR, 4, 5, -1), "swr a0, -1(a1)");
    text(encode_move(0, 0, 26, 14), "mfc0 k0, EPC");
    text(encode_move(0, 4, 26, 12), "mtc0 k0, SR");
    text(encode_move(0, 0, 26, 3), "mfc0 k0, cop0r3");
    text(RFE, "rfe");
    text(encode_move(2, 0, 8, 14), "mfc2 t0, SXY2");
    text(encode_move(2, 2, 8, 31), "cfc2 t0, FLAG");
    text(encode_move(2, 4, 8, 15), "mtc2 t0, SXYP");
    text(encode_move(2, 6, 8, 26), "ctc2 t0, H");
    text(encode_i(OP_LWC2, 9, 4, 8), "lwc2 IR1, 8(a0)");
    text(encode_i(OP_SWC2, 31, 4, 8), "swc2 LZCR, 8(a0)");
    text(0x4A180001, "rtps sf=1 lm=0");
    text(0x4A280030, "rtpt sf=1 lm=0");
    text(encode_command(0x3F, 0, 1), "ncct sf=0 lm=1");
    text(encode_mvmva(1, 2, 3, 1, 1), "mvmva sf=1 lm=1 mx=LCM v=IR cv=BK");
    text(encode_mvmva(0, 3, 0, 2, 0), "mvmva sf=0 lm=0 mx=3 v=V0 cv=FC");
    text(0x4A000000, "cop2 0x0000000 (unlisted command)");
    text(0x49000000, ".word 0x49000000 (reserved COP2 form)");
    text(0x42000001, ".word 0x42000001 (reserved COP0 form)");
    text(0x44000000, ".word 0x44000000 (COP1 form)");
    text(0xCC000000, ".word 0xcc000000 (COP3 form)");
    text(0xC0000000, ".word 0xc0000000 (reserved)");
    text(0x04020000, ".word 0x04020000 (reserved)");
    text(0x00000001, ".word 0x00000001 (reserved)");
    disassemble(encode_r(F_ADDU, 1, 2, 3, 0), 0, small, sizeof small);
    equal_text(small, "addu ");
    equal_text(gte_command_name(0x4A280030), "rtpt");
    equal("unlisted has no name", gte_command_name(0x4A000000) == NULL, true);
    equal_text(general_register_name(31), "ra");
}

int main(void)
{
    figures();
    division();
    refusals();
    unlisted_commands();
    search();
    windows();
    pad_windows();
    load_delay();
    arithmetic();
    jumps();
    decoding();
    exceptions();
    coprocessor0();
    memory();
    pad_exceptions();
    pad_fetches();
    pad_stores();
    refusals_together();
    pad_lengths();
    cop2_registers();
    gte();
    demand_3();
    causes();
    cause_spaces();
    cause_refusals();
    causes_of_random_commands();
    saved_machines();
    draw_lists();
    disassembler();
    printf("%d passed, %d failed\n", passed, failed);
    return failed != 0;
}
