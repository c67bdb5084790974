#include "coverage.h"

#include "causes.h"
#include "disassemble.h"
#include "draw_list.h"
#include "encode.h"
#include "model.h"
#include "saved.h"

#include <stdarg.h>
#include <stdio.h>
#include <string.h>

#define INSTRUCTIONS 68

static const char *const names[INSTRUCTIONS] = {
    "lb", "lh", "lwl", "lw", "lbu", "lhu", "lwr", "sb", "sh", "swl", "sw", "swr",
    "addi", "addiu", "slti", "sltiu", "andi", "ori", "xori", "lui",
    "add", "addu", "sub", "subu", "and", "or", "xor", "nor", "slt", "sltu",
    "sll", "srl", "sra", "sllv", "srlv", "srav",
    "mult", "multu", "div", "divu", "mfhi", "mthi", "mflo", "mtlo",
    "j", "jal", "jr", "jalr", "beq", "bne", "blez", "bgtz", "bltz", "bgez", "bltzal", "bgezal",
    "syscall", "break", "mfc0", "mtc0", "rfe",
    "mfc2", "cfc2", "mtc2", "ctc2", "cop2", "lwc2", "swc2",
};

/* FLAG bits that a command can set at all, by the formulas of 001 and the widths of its operands. */
#define MAC_OVER 0x70000000u
#define MAC_UNDER 0x0E000000u
#define IR_BITS 0x01C00000u
#define COLOUR_BITS 0x00380000u

static const struct {
    uint32_t number, reachable;
} commands[] = {
    {0x01, MAC_OVER | MAC_UNDER | IR_BITS | 0x0007F000},
    {0x06, 0x00018000},
    {0x0C, IR_BITS},
    {0x10, MAC_UNDER | IR_BITS | COLOUR_BITS}, /* FC*1000h less a colour cannot pass 2^43 - 1 */
    {0x11, MAC_OVER | MAC_UNDER | IR_BITS | COLOUR_BITS},
    {0x12, MAC_OVER | MAC_UNDER | IR_BITS},
    {0x13, MAC_OVER | MAC_UNDER | IR_BITS | COLOUR_BITS},
    {0x14, MAC_OVER | MAC_UNDER | IR_BITS | COLOUR_BITS},
    {0x16, MAC_OVER | MAC_UNDER | IR_BITS | COLOUR_BITS},
    {0x1B, MAC_OVER | MAC_UNDER | IR_BITS | COLOUR_BITS},
    {0x1C, MAC_OVER | MAC_UNDER | IR_BITS | COLOUR_BITS},
    {0x1E, MAC_OVER | MAC_UNDER | IR_BITS | COLOUR_BITS},
    {0x20, MAC_OVER | MAC_UNDER | IR_BITS | COLOUR_BITS},
    {0x28, IR_BITS},
    {0x29, MAC_OVER | MAC_UNDER | IR_BITS | COLOUR_BITS},
    {0x2A, MAC_UNDER | IR_BITS | COLOUR_BITS},
    {0x2D, 0x00058000},
    {0x2E, 0x00058000},
    {0x30, MAC_OVER | MAC_UNDER | IR_BITS | 0x0007F000},
    {0x3D, IR_BITS | COLOUR_BITS},
    {0x3E, MAC_OVER | MAC_UNDER | IR_BITS | COLOUR_BITS},
    {0x3F, MAC_OVER | MAC_UNDER | IR_BITS | COLOUR_BITS},
};

#define COMMANDS (sizeof commands / sizeof *commands)

/* The lines of 001's formulas on which a bit can have a cause at all, by the widths of their operands. */
static const struct {
    uint8_t numbers[10]; /* of the commands that share the line */
    uint32_t line, bits;
} cause_lines[] = {
    {{0x01, 0x30}, 1, 0x49000000}, /* MAC1 and IR1 */
    {{0x01, 0x30}, 2, 0x24800000},
    {{0x01, 0x30}, 3, 0x12400000},
    {{0x01, 0x30}, 4, 0x00040000}, /* SZ3 */
    {{0x01, 0x30}, 5, 0x0003C000}, /* the quotient, MAC0 and SX */
    {{0x01, 0x30}, 6, 0x0001A000},
    {{0x01, 0x30}, 7, 0x00019000},
    {{0x06, 0x2D}, 1, 0x00018000}, /* NCLIP, AVSZ3 */
    {{0x2E}, 2, 0x00018000},
    {{0x2D, 0x2E}, 3, 0x00040000}, /* OTZ */
    {{0x12}, 1, 0x48000000},
    {{0x12}, 2, 0x24000000},
    {{0x12}, 3, 0x12000000},
    {{0x12}, 4, IR_BITS},
    {{0x0C, 0x28}, 2, IR_BITS},
    {{0x1E, 0x20, 0x1B, 0x3F, 0x13, 0x16}, 1, IR_BITS}, /* LLM*V cannot leave 44 bits */
    {{0x1E, 0x20, 0x1B, 0x3F, 0x13, 0x16}, 2, MAC_OVER | MAC_UNDER | IR_BITS},
    {{0x13, 0x16, 0x29, 0x11}, 4, MAC_OVER | MAC_UNDER | IR_BITS}, /* FC-MAC */
    {{0x10, 0x2A}, 4, MAC_UNDER | IR_BITS},
    {{0x1E, 0x20, 0x1B, 0x3F, 0x13, 0x16, 0x29, 0x11, 0x10, 0x2A}, 6, IR_BITS | COLOUR_BITS},
    {{0x1C, 0x14}, 1, MAC_OVER | MAC_UNDER | IR_BITS},
    {{0x14}, 3, MAC_OVER | MAC_UNDER | IR_BITS},
    {{0x1C, 0x14}, 5, IR_BITS | COLOUR_BITS},
    {{0x3E}, 3, MAC_OVER | MAC_UNDER},
    {{0x3D, 0x3E}, 4, IR_BITS | COLOUR_BITS},
};

#define CAUSE_LINES (sizeof cause_lines / sizeof *cause_lines)
#define LINES 8 /* from 1 on */

enum { LANDED, LANDED_BY_EXCEPTION, DROPPED_BY_WRITE, DROPPED_BY_LOAD, MERGED, LOAD_EVENTS };

static const char *const event_names[LOAD_EVENTS] = {"landed", "landed by an exception", "dropped by a write",
                                                     "dropped by a load", "merged by LWL or LWR"};

/* The loads and stores, which are the first names and the last two. */
#define ACCESSES 14

static int access_index(int instruction)
{
    return instruction < 12 ? instruction : instruction >= INSTRUCTIONS - 2 ? instruction - INSTRUCTIONS + ACCESSES : -1;
}

static const char *access_name(int access)
{
    return names[access < 12 ? access : access + INSTRUCTIONS - ACCESSES];
}

#define PAD 0x1F800000u
#define PAD_END (PAD + MODEL_PAD_BYTES)

/* Where in the pad a load or store went, by the segment that reached it. */
enum { FIRST_WORD, LAST_WORD, BETWEEN, PAD_PLACES };

static const char *const pad_place_names[2 * PAD_PLACES] = {
    "first word through 000", "last word through 000", "between through 000",
    "first word through 100", "last word through 100", "between through 100",
};

/* Exceptions of a load or store at the pad's addresses and beside them; the last one of words and halves alone. */
enum { BUS_BELOW_PAD, BUS_ABOVE_PAD, BUS_THROUGH_101, BUS_OTHER_SEGMENT, USER_MODE, MISALIGNED, PAD_EXCEPTIONS };

static const char *const pad_exception_names[PAD_EXCEPTIONS] = {
    "DBE just below the pad", "DBE just above the pad", "DBE through 101", "DBE through another segment",
    "address error in user mode", "address error, misaligned",
};

/* Fetches there: PC in the pad by segment, and beside it. */
enum { FETCH_000, FETCH_100, FETCH_101, FETCH_BELOW, FETCH_ABOVE, FETCH_USER_MODE, FETCH_MISALIGNED, PAD_FETCHES };

static const char *const pad_fetch_names[PAD_FETCHES] = {
    "IBE through 000", "IBE through 100", "IBE through 101", "IBE just below the pad", "IBE just above the pad",
    "AdEL in user mode", "AdEL, misaligned",
};

/* The reasons for which a run is refused, in the order of their tests. */
#define REASONS 5

static const unsigned reason_codes[REASONS] = {MODEL_IMAGE_LENGTH, MODEL_IMAGE_FORM, MODEL_RAM_LENGTH, MODEL_PAD_LENGTH,
                                               MODEL_COUNT};

/* A window that is empty counts only where it is so for one reason. */
enum {
    IN_RAM, LENGTH_0_IN_RAM, LENGTH_0_ELSEWHERE, BAD_RAM_LENGTH, STARTS_OUTSIDE, ENDS_OUTSIDE,
    IN_PAD, WHOLE_PAD, LENGTH_0_IN_PAD, PAD_BUT_BAD_RAM_LENGTH, BAD_PAD_LENGTH, PAD_BUT_BAD_PAD_LENGTH, INTO_PAD, OUT_OF_PAD,
    PAD_THROUGH_101, WINDOW_KINDS
};

static const char *const window_names[WINDOW_KINDS] = {
    "in RAM", "length 0 in RAM", "length 0 elsewhere", "RAM, bad RAM length", "starts outside both", "ends outside RAM",
    "in the pad", "the whole pad", "length 0 in the pad", "pad, bad RAM length", "RAM, bad pad length", "pad, bad pad length",
    "starts below the pad", "ends outside the pad", "pad through 101",
};

/* The words lent to a question, beside those that its rows need. */
enum { SHORT_BY_1, SHORT_BY_5 = SHORT_BY_1 + 4, NO_WORD, JUST_ENOUGH, MORE_WORDS, NO_ROW_NO_WORD, NO_ROW_SOME_WORDS, SPACE_KINDS };

static const char *const space_names[SPACE_KINDS] = {
    "1 word too few", "2 words too few", "3 words too few", "4 words too few", "5 words too few", "no word for some rows",
    "just enough words", "more words than needed", "no word for no row", "some words for no row",
};

/* Of a save, which has no file, and of a load: the reasons to refuse, in the order of their tests. */
#define SAVE_REASONS 5
#define LOAD_REASONS 6

static const unsigned save_reason_codes[SAVE_REASONS] = {MODEL_IMAGE_LENGTH, MODEL_RAM_LENGTH, MODEL_PAD_LENGTH, MODEL_IMAGE_FORM,
                                                         MODEL_SPACE};
static const unsigned load_reason_codes[LOAD_REASONS] = {MODEL_IMAGE_LENGTH, MODEL_RAM_LENGTH, MODEL_PAD_LENGTH, MODEL_FILE,
                                                         MODEL_IMAGE_FORM, MODEL_SPACE};

/* The bytes lent to a save that is refused for nothing else. */
enum { NO_BYTE, BYTE_SHORT, BYTES_SHORT, ENOUGH_BYTES, MORE_BYTES, BYTE_SPACES };

static const char *const byte_space_names[BYTE_SPACES] = {
    "no byte", "a byte too few", "some bytes too few", "just enough bytes", "more bytes than needed",
};

/* The RAM of machines that were saved or loaded. */
enum { SHORT_BLOCK, FULL_BLOCK, FULL_AND_4, FULL_AND_SHORT, FULL_BLOCKS, MOST_RAM, RAM_KINDS };

static const char *const ram_names[RAM_KINDS] = {
    "one short block", "one full block", "a full block and 4 bytes", "full blocks and a short one", "full blocks",
    "the greatest RAM",
};

/* Files that were refused with code 8, and with code 2 by the field that is wrong. */
enum { LESS_RAM, MORE_RAM, AS_MANY_BLOCKS, ODD_RAM, ABOVE_MOST, WORDS_WRONG, COP2_WRONG, LOAD_KINDS };

static const char *const load_names[LOAD_KINDS] = {
    "less RAM than lent", "more RAM than lent", "other RAM in as many blocks", "RAM no multiple of 4", "RAM above the greatest",
    "words 0..43 wrong", "COP2 words wrong",
};

/*
 * Where a malformed file ceases to be the beginning of a well-formed one: in
 * which field, at which byte of its head or in its content, and whether the
 * byte there is wrong or the file ends. Behind a block the field is not known
 * before its tag.
 */
enum { AT_IMAGE, AT_COP2, AT_FIRST_BLOCK, AFTER_FULL, AFTER_SHORT, AT_LATER_BLOCK, AT_PAD, AT_END, AFTER_END, STOP_FIELDS };
enum { AT_TAG, AT_LOW, AT_HIGH, AT_CONTENT, STOP_BYTES };
enum { WRONG_BYTE, FILE_ENDS, STOP_REASONS };

static const char *const stop_field_names[STOP_FIELDS] = {
    "tag 1", "tag 2", "first tag 3", "behind a full block", "behind a short block", "later tag 3", "tag 4", "tag 0",
    "behind the end",
};
static const char *const stop_byte_names[STOP_BYTES] = {"tag", "low byte", "high byte", "content"};
static const char *const stop_reason_names[STOP_REASONS] = {"wrong", "missing"};

/* Those that can be: two bits for each byte of the head and for the content, the lower one where the byte can be wrong. */
static const uint8_t possible_stops[STOP_FIELDS] = {
    [AT_IMAGE] = 0xBF, [AT_COP2] = 0xBF, [AT_FIRST_BLOCK] = 0xBB, [AFTER_FULL] = 0x03, [AFTER_SHORT] = 0x03,
    [AT_LATER_BLOCK] = 0xB8, [AT_PAD] = 0xBC, [AT_END] = 0x3F, [AFTER_END] = 0x01,
};

/* Blocks that make a file malformed, the first one or one behind a full block. */
enum { EMPTY_BLOCK, LONG_BLOCK, LONG_BLOCK_LOW_0, BLOCK_OF_80XX, WRONG_BLOCKS, BLOCK_AFTER_SHORT = 2 * WRONG_BLOCKS, BLOCK_KINDS };

static const char *const block_names[BLOCK_KINDS] = {
    "first one empty", "first one too long", "first one too long, low 0", "first one of 80xxh",
    "later one empty", "later one too long", "later one too long, low 0", "later one of 80xxh", "behind a short one",
};

/* Draw lists as wholes. */
enum {
    EMPTY_LIST, ONE_PACKET, MORE_PACKETS, UNKNOWN_AT_0, UNKNOWN_LATER, SHORT_AT_0, SHORT_LATER, END_AS_FIRST, ENDS_IN_48,
    LIST_KINDS
};

static const char *const list_names[LIST_KINDS] = {
    "an empty list", "one packet", "more packets", "11 at word 0", "11 at a later word", "12 at word 0", "12 at a later word",
    "55555555h as a first word", "48h as the last word",
};

/* Polylines by their points, with an end and without. */
#define POINTS 4

static const char *const polyline_names[2 * POINTS] = {
    "no point", "1 point", "2 points", "3 points or more", "no point, no end", "1 point, no end", "2 points, no end",
    "3 points or more, no end",
};

#define MOST_PACKET_WORDS 12

/* What RTPS and RTPT divided: SZ3 by its leading zeros, and the limit with and without bit 17. */
enum { LIMIT_UNFLAGGED = 16, LIMIT_FLAGGED, QUOTIENT_KINDS };

enum { TABLE_ENTRIES = 257 };

static const char *const quotient_names[QUOTIENT_KINDS] = {
    "0 leading zeros", "1 leading zero", "2 leading zeros", "3 leading zeros", "4 leading zeros", "5 leading zeros",
    "6 leading zeros", "7 leading zeros", "8 leading zeros", "9 leading zeros", "10 leading zeros", "11 leading zeros",
    "12 leading zeros", "13 leading zeros", "14 leading zeros", "15 leading zeros", "1FFFFh without bit 17",
    "1FFFFh with bit 17",
};

/* Which bits RTPS and RTPT left with sf = 1: the library has a way of its own where lines 1 to 6 set none. */
enum { NO_BIT, LINE_7_ALONE, OTHER_BITS, BITS_LEFT };

static const char *const perspective_names[2 * BITS_LEFT] = {
    "RTPS, no bit", "RTPS, line 7 alone", "RTPS, other bits", "RTPT, no bit", "RTPT, line 7 alone", "RTPT, other bits",
};

/* Products of words that are edges, by pairs; and of any words, by their sign bits and by the two carries of a product from halves. */
#define EDGES 5
#define SIGNS 4
#define CARRIES 4

static const uint32_t edges[EDGES] = {0, 1, 0x7FFFFFFF, 0x80000000, 0xFFFFFFFF};
static const char *const product_names[2] = {"mult", "multu"};
static const char *const sign_names[SIGNS] = {"no sign bit", "the second's sign bit", "the first's sign bit", "both sign bits"};
static const char *const carry_names[CARRIES] = {"no carry", "the first carry", "the second carry", "both carries"};

static const char *const exception_names[13] = {[4] = "AdEL", [5] = "AdES", [6] = "IBE", [7] = "DBE", [8] = "Sys",
                                                [9] = "Bp", [10] = "RI", [11] = "CpU", [12] = "Ovf"};

static uint64_t done[INSTRUCTIONS], trapped[INSTRUCTIONS], taken[INSTRUCTIONS], reserved_words;
static uint64_t command_runs[COMMANDS][2][2]; /* by sf and lm */
static uint64_t mvmva_forms[256]; /* by sf, mx, v, cv, lm */
static uint64_t flag_set[COMMANDS][32], flag_clear[COMMANDS][32];
static uint64_t exceptions[32][2]; /* by code, and in a delay slot */
static uint64_t exceptions_user, exceptions_bev, steps_user;
static uint64_t run_codes[MODEL_PAD_LENGTH + 1], search_codes[MODEL_FLAG_UP + 1];
static uint64_t load_events[LOAD_EVENTS];
static uint64_t windows[WINDOW_KINDS];
static uint64_t pad_accesses[ACCESSES][2 * PAD_PLACES], pad_exceptions[ACCESSES][PAD_EXCEPTIONS], pad_fetches[PAD_FETCHES];
static uint64_t refusals[REASONS][REASONS]; /* for just these two reasons, or for one alone */
static uint64_t quotients[QUOTIENT_KINDS], table_entries[TABLE_ENTRIES];
static uint64_t perspectives[2 * BITS_LEFT];
static uint64_t edge_products[2][EDGES][EDGES], sign_products[2][SIGNS], carry_products[2][CARRIES]; /* of MULT and of MULTU */
static uint64_t question_codes[MODEL_SPACE + 1], spaces[SPACE_KINDS];
static uint64_t question_forms[COMMANDS][4], question_mvmva_forms[256]; /* by sf and lm; by sf, mx, v, cv, lm */
static uint64_t causes[COMMANDS][3][LINES][31]; /* by part, line and bit */
static uint64_t impossible_causes[COMMANDS];
static uint64_t save_codes[MODEL_SPACE + 1], load_codes[MODEL_SPACE + 1];
static uint64_t save_refusals[SAVE_REASONS][SAVE_REASONS], load_refusals[LOAD_REASONS][LOAD_REASONS]; /* as refusals */
static uint64_t byte_spaces[BYTE_SPACES], saved_rams[RAM_KINDS], loaded_rams[RAM_KINDS], load_kinds[LOAD_KINDS];
static uint64_t stops[STOP_FIELDS][STOP_BYTES][STOP_REASONS], wrong_blocks[BLOCK_KINDS];
static uint64_t list_codes[MODEL_PACKET_SHORT + 1], list_kinds[LIST_KINDS], polylines[2 * POINTS];
static uint64_t first_bytes[256], whole_packets[256], short_packets[256]; /* by the top byte */
static uint64_t cut_packets[256][MOST_PACKET_WORDS]; /* by the words that are there */
static uint64_t ends_as_data[256][MOST_PACKET_WORDS]; /* 55555555h in whole packets, by its place */

static int find_index(uint32_t word)
{
    const char *name = instruction_name(word);
    int i;

    if (name)
        for (i = 0; i < INSTRUCTIONS; i++)
            if (strcmp(names[i], name) == 0)
                return i;
    return -1;
}

/* Words are met again and again, so what was found is kept. */
static int instruction_index(uint32_t word)
{
    static struct {
        bool known;
        uint32_t word;
        int index;
    } kept[4096], *k;

    k = &kept[(word ^ word >> 12 ^ word >> 24) % 4096];
    if (!k->known || k->word != word) {
        k->known = true;
        k->word = word;
        k->index = find_index(word);
    }
    return k->index;
}

static void count_command(uint32_t word, uint32_t flag)
{
    unsigned i, bit;
    uint32_t sf = word >> 19 & 1, lm = word >> 10 & 1;

    for (i = 0; i < COMMANDS; i++)
        if (commands[i].number == (word & 0x3F)) {
            command_runs[i][sf][lm]++;
            for (bit = 12; bit < 32; bit++)
                if (flag >> bit & 1)
                    flag_set[i][bit]++;
                else
                    flag_clear[i][bit]++;
        }
    if ((word & 0x3F) == 0x12)
        mvmva_forms[(word >> 13 & 0x7F) | lm << 7]++;
}

static unsigned edge_index(uint32_t word)
{
    unsigned i;

    for (i = 0; i < EDGES && edges[i] != word; i++)
        ;
    return i;
}

static void count_product(bool is_unsigned, uint32_t a, uint32_t b)
{
    unsigned i = edge_index(a), k = edge_index(b);
    uint32_t low = (a & 0xFFFF) * (b & 0xFFFF), middle = (a & 0xFFFF) * (b >> 16) << 16, other = (a >> 16) * (b & 0xFFFF) << 16;
    uint32_t part = low + middle;

    if (i < EDGES && k < EDGES)
        edge_products[is_unsigned][i][k]++;
    sign_products[is_unsigned][2 * (a >> 31) + (b >> 31)]++;
    carry_products[is_unsigned][(part < low) + 2 * (part + other < part)]++;
}

static void count_quotient(uint32_t h, uint32_t sz3)
{
    bool overflow, limit = model_quotient(h, sz3, &overflow) == 0x1FFFF;
    uint32_t divisor = sz3;
    unsigned zeros = 0;

    quotients[LIMIT_UNFLAGGED] += limit && !overflow;
    quotients[LIMIT_FLAGGED] += overflow;
    if (overflow)
        return;
    for (; divisor < 0x8000; divisor *= 2)
        zeros++;
    quotients[zeros]++;
    table_entries[(divisor - 0x7FC0) / 128]++;
}

/* Bits 16, 15 and 12 by themselves are line 7's: lines 5 and 6 set bit 14 or 13 with them. */
static void count_perspective(uint32_t word, uint32_t flag)
{
    bool triple = (word & 0x3F) == 0x30;

    if (word >> 19 & 1)
        perspectives[triple * BITS_LEFT + (flag == 0 ? NO_BIT : flag & ~0x80019000u ? OTHER_BITS : LINE_7_ALONE)]++;
}

/* What became of a waiting load in this step. */
static void count_load(const struct model *before, const struct model *after, enum model_outcome outcome, uint32_t word)
{
    uint32_t number = before->load_register, opcode = word >> 26;

    if (number == 0)
        return;
    if (outcome != MODEL_NO_EXCEPTION) {
        load_events[LANDED_BY_EXCEPTION]++;
        return;
    }
    if (after->load_register == number) {
        load_events[DROPPED_BY_LOAD]++;
        load_events[MERGED] += opcode == 0x22 || opcode == 0x26;
    } else if (after->general[number] != before->load_value) {
        load_events[DROPPED_BY_WRITE]++;
    } else {
        load_events[LANDED]++;
    }
}

/* The word below the pad and the one above it. */
static bool just_below(uint32_t physical)
{
    return physical >= PAD - 4 && physical < PAD;
}

static bool just_above(uint32_t physical)
{
    return physical >= PAD_END && physical < PAD_END + 4;
}

static bool in_pad(uint32_t physical)
{
    return physical >= PAD && physical < PAD_END;
}

static bool reaches_pad(uint32_t address)
{
    return address >> 29 == 0 || address >> 29 == 4;
}

static void count_pad_access(int access, uint32_t address, enum model_outcome outcome)
{
    uint32_t physical = address & 0x1FFFFFFF;
    uint64_t *e = pad_exceptions[access];

    if (outcome == MODEL_DBE && reaches_pad(address)) {
        e[BUS_BELOW_PAD] += just_below(physical);
        e[BUS_ABOVE_PAD] += just_above(physical);
    }
    if (!in_pad(physical))
        return;
    if (outcome == MODEL_NO_EXCEPTION) {
        unsigned place = physical < PAD + 4 ? FIRST_WORD : physical >= PAD_END - 4 ? LAST_WORD : BETWEEN;

        pad_accesses[access][(address >> 31) * PAD_PLACES + place]++;
    } else if (outcome == MODEL_DBE) {
        e[address >> 29 == 5 ? BUS_THROUGH_101 : BUS_OTHER_SEGMENT]++;
    } else if ((outcome == MODEL_ADEL || outcome == MODEL_ADES) && reaches_pad(address)) {
        /* Each counts where it is the only reason: the address is aligned, or its bit 31 is clear. */
        e[USER_MODE] += physical % 4 == 0;
        e[MISALIGNED] += address >> 31 == 0;
    }
}

static void count_pad_fetch(uint32_t pc, enum model_outcome outcome)
{
    uint32_t physical = pc & 0x1FFFFFFF, segment = pc >> 29;

    if (outcome == MODEL_IBE && reaches_pad(pc)) {
        pad_fetches[FETCH_BELOW] += just_below(physical);
        pad_fetches[FETCH_ABOVE] += just_above(physical);
    }
    if (!in_pad(physical))
        return;
    if (outcome == MODEL_IBE) {
        if (segment == 0 || segment == 4 || segment == 5)
            pad_fetches[segment == 0 ? FETCH_000 : segment == 4 ? FETCH_100 : FETCH_101]++;
    } else if (reaches_pad(pc)) {
        pad_fetches[FETCH_USER_MODE] += physical % 4 == 0;
        pad_fetches[FETCH_MISALIGNED] += segment == 0;
    }
}

static void count_step(const struct model *before, const struct model *after, enum model_outcome outcome,
                       const uint8_t *ram, size_t ram_length)
{
    uint32_t physical = before->pc & 0x1FFFFFFF, word;
    bool user = (before->sr & 2) != 0;
    int index;

    steps_user += user;
    if (outcome != MODEL_NO_EXCEPTION) {
        exceptions[outcome][before->delay_slot]++;
        exceptions_user += user;
        exceptions_bev += before->sr >> 22 & 1;
    }
    if (physical + 4 > ram_length || (physical & 3) != 0 || (outcome == MODEL_ADEL && after->badv == before->pc)
        || outcome == MODEL_IBE) {
        count_load(before, after, outcome, 0);
        count_pad_fetch(before->pc, outcome);
        return;
    }
    word = get_word(ram + physical);
    count_load(before, after, outcome, word);
    index = instruction_index(word);
    if (index < 0) {
        reserved_words++;
        return;
    }
    if (access_index(index) >= 0)
        count_pad_access(access_index(index), before->general[word >> 21 & 31] + (uint32_t)(int16_t)word, outcome);
    if (outcome != MODEL_NO_EXCEPTION) {
        trapped[index]++;
        return;
    }
    done[index]++;
    taken[index] += after->delay_slot && after->next_pc != before->next_pc + 4;
    if (word >> 26 == 0 && ((word & 0x3F) == F_MULT || (word & 0x3F) == F_MULTU))
        count_product((word & 0x3F) == F_MULTU, before->general[word >> 21 & 31], before->general[word >> 16 & 31]);
    if (strcmp(names[index], "cop2") == 0) {
        unsigned i, vertices = (word & 0x3F) == 0x01 ? 1 : (word & 0x3F) == 0x30 ? 3 : 0;

        count_command(word, after->cop2[63]);
        if (vertices)
            count_perspective(word, after->cop2[63]);
        for (i = 0; i < vertices; i++)
            count_quotient(before->cop2[58] & 0xFFFF, after->cop2[19 - i]);
    }
}

static bool bad_ram_length(size_t length)
{
    return length % 4 != 0 || length == 0 || length > MODEL_RAM_MAXIMUM;
}

/* Of lengths that are good, length 0 apart. */
static unsigned window_kind(const struct window *w, bool starts_in_ram, bool starts_in_pad, bool fits)
{
    uint32_t place = w->address & 0x1FFFFFFF;

    if (starts_in_ram)
        return fits ? IN_RAM : ENDS_OUTSIDE;
    if (starts_in_pad)
        return !fits ? OUT_OF_PAD : w->length == MODEL_PAD_BYTES ? WHOLE_PAD : IN_PAD;
    if (reaches_pad(w->address) && place < PAD && w->length > PAD - place && w->length <= PAD_END - place)
        return INTO_PAD;
    if (w->address >> 29 == 5 && in_pad(place) && w->length <= PAD_END - place)
        return PAD_THROUGH_101;
    return STARTS_OUTSIDE;
}

static void count_window(const struct window *w)
{
    uint32_t segment = w->address >> 29, place = w->address & 0x1FFFFFFF;
    bool bad_ram = bad_ram_length(w->ram_length), bad_pad = w->pad_length != MODEL_PAD_BYTES;
    bool starts_in_ram = (segment == 0 || segment == 4 || segment == 5) && place < w->ram_length;
    bool starts_in_pad = reaches_pad(w->address) && in_pad(place);
    bool starts = starts_in_ram || starts_in_pad;
    bool fits = starts && w->length <= (starts_in_ram ? w->ram_length : PAD_END) - place;

    if (bad_ram || bad_pad) {
        if (fits && w->length != 0 && bad_ram != bad_pad)
            windows[bad_ram ? (starts_in_ram ? BAD_RAM_LENGTH : PAD_BUT_BAD_RAM_LENGTH)
                            : (starts_in_ram ? BAD_PAD_LENGTH : PAD_BUT_BAD_PAD_LENGTH)]++;
    } else if (w->length == 0) {
        windows[starts_in_ram ? LENGTH_0_IN_RAM : starts_in_pad ? LENGTH_0_IN_PAD : LENGTH_0_ELSEWHERE]++;
    } else {
        windows[window_kind(w, starts_in_ram, starts_in_pad, fits)]++;
    }
}

/* Counts in a square table the one reason or the two that apply. */
static void count_reasons(uint64_t *table, const bool *applies, unsigned reasons)
{
    unsigned i, number = 0, first = reasons, last = 0;

    for (i = 0; i < reasons; i++)
        if (applies[i]) {
            number++;
            first = first == reasons ? i : first;
            last = i;
        }
    if (number == 1 || number == 2)
        table[first * reasons + last]++;
}

/* An image of the wrong length is not asked for its form. */
static void count_refusal(const struct test_case *c)
{
    struct model machine;
    bool short_or_long = c->image_length != MODEL_IMAGE_BYTES;
    const bool applies[REASONS] = {short_or_long, !short_or_long && !model_load(&machine, c->image),
                                   bad_ram_length(c->ram_length), c->pad_length != MODEL_PAD_BYTES,
                                   c->count > MODEL_COUNT_MAXIMUM};

    count_reasons(&refusals[0][0], applies, REASONS);
}

/* Whether line k of the table is one of the command's. */
static bool has_line(uint32_t number, unsigned k)
{
    return memchr(cause_lines[k].numbers, (int)number, sizeof cause_lines[k].numbers) != NULL;
}

static bool cause_possible(uint32_t number, uint32_t line, uint32_t bit)
{
    unsigned k;

    for (k = 0; k < CAUSE_LINES; k++)
        if (has_line(number, k) && cause_lines[k].line == line && cause_lines[k].bits >> bit & 1)
            return true;
    return false;
}

static void count_rows(uint32_t command, const uint32_t *words, size_t length)
{
    uint32_t number = command & 0x3F, sf = command >> 19 & 1, lm = command >> 10 & 1;
    const uint32_t *row;
    unsigned i;

    for (i = 0; commands[i].number != number; i++)
        ;
    question_forms[i][2 * sf + lm]++;
    if (number == 0x12)
        question_mvmva_forms[(command >> 13 & 0x7F) | lm << 7]++;
    for (row = words; row < words + length; row += MODEL_CAUSE_WORDS)
        if (cause_possible(number, row[2], row[0]))
            causes[i][row[1] - 1][row[2]][row[0]]++;
        else
            impossible_causes[i]++;
}

static void count_space(const struct question *q, size_t needed)
{
    size_t space = question_space(q, needed);

    if (needed == 0)
        spaces[space == 0 ? NO_ROW_NO_WORD : NO_ROW_SOME_WORDS]++;
    else if (space >= needed)
        spaces[space == needed ? JUST_ENOUGH : MORE_WORDS]++;
    else if (needed - space <= 5)
        spaces[SHORT_BY_1 + (needed - space - 1)]++;
    if (needed != 0 && space == 0)
        spaces[NO_WORD]++;
}

static void count_question(const struct test_case *c, const struct question *q)
{
    uint32_t words[MODEL_CAUSE_WORDS * MODEL_MOST_CAUSES];
    struct model_answer a = model_causes(c->image, c->image_length, q->command, words, sizeof words / sizeof *words);

    if (a.code != MODEL_DONE) {
        question_codes[a.code]++;
        return;
    }
    question_codes[question_space(q, (size_t)a.number) < a.number ? MODEL_SPACE : MODEL_DONE]++;
    count_space(q, (size_t)a.number);
    count_rows(q->command, words, (size_t)a.number);
}

static bool well_formed(const uint8_t *image)
{
    struct model machine;

    return model_load(&machine, image);
}

static void count_ram(uint64_t *kinds, size_t length)
{
    const size_t block = 32768;

    kinds[SHORT_BLOCK] += length < block;
    kinds[FULL_BLOCK] += length == block;
    kinds[FULL_AND_4] += length == block + 4;
    kinds[FULL_AND_SHORT] += length > 2 * block && length % block != 0;
    kinds[FULL_BLOCKS] += length >= 2 * block && length % block == 0;
    kinds[MOST_RAM] += length == MODEL_RAM_MAXIMUM;
}

/* Of a RAM of any length, so that a bad one and a short space are met together. */
static size_t saved_bytes(size_t ram_length)
{
    return 1468 + ram_length + 3 * ((ram_length + 32767) / 32768);
}

static void count_save(const struct test_case *c, const struct saved_case *v, struct model_answer a)
{
    size_t needed = saved_bytes(v->ram_length);
    bool short_or_long = c->image_length != MODEL_IMAGE_BYTES;
    const bool applies[SAVE_REASONS] = {short_or_long, bad_ram_length(v->ram_length), c->pad_length != MODEL_PAD_BYTES,
                                        !short_or_long && !well_formed(c->image), v->space_length < needed};

    save_codes[a.code]++;
    count_reasons(&save_refusals[0][0], applies, SAVE_REASONS);
    if (a.code == MODEL_DONE)
        count_ram(saved_rams, v->ram_length);
    if (a.code == MODEL_DONE || a.code == MODEL_SPACE)
        byte_spaces[v->space_length == 0             ? NO_BYTE
                    : v->space_length == needed - 1 ? BYTE_SHORT
                    : v->space_length < needed      ? BYTES_SHORT
                    : v->space_length == needed     ? ENOUGH_BYTES
                                                    : MORE_BYTES]++;
}

/* Where in the fields of a file a number stands; up to there the file is well formed. */
struct place_in_file {
    unsigned field, byte;
    size_t ram_length; /* of the blocks that are whole */
    bool behind_ram; /* no block can follow */
};

static unsigned field_behind(unsigned tag, size_t length)
{
    switch (tag) {
    case 1: return AT_COP2;
    case 2: return AT_FIRST_BLOCK;
    case 3: return length == 32768 ? AFTER_FULL : AFTER_SHORT;
    case 4: return AT_END;
    default: return AFTER_END;
    }
}

static struct place_in_file find_place(const uint8_t *file, size_t number)
{
    struct place_in_file p = {AT_IMAGE, AT_TAG, 0, false};
    size_t at = 0, length;

    for (;;) {
        p.behind_ram = p.field == AFTER_SHORT || p.field >= AT_PAD;
        if (number == at)
            return p;
        if (p.field == AFTER_FULL || p.field == AFTER_SHORT)
            p.field = file[at] == 4 ? AT_PAD : AT_LATER_BLOCK;
        p.behind_ram = p.field >= AT_PAD;
        p.byte = (unsigned)(number - at < 3 ? number - at : AT_CONTENT);
        if (number < at + 3)
            return p;
        length = file[at + 1] + (size_t)256 * file[at + 2];
        if (number < at + 3 + length)
            return p;
        p.ram_length += file[at] == 3 ? length : 0;
        p.field = field_behind(file[at], length);
        p.byte = AT_TAG;
        at += 3 + length;
    }
}

/* A high byte that no block can have. */
static void count_wrong_high(const uint8_t *head, uint64_t *kinds)
{
    kinds[EMPTY_BLOCK] += head[1] == 0 && head[2] == 0;
    kinds[LONG_BLOCK] += head[1] != 0 && head[2] > 0x80;
    kinds[LONG_BLOCK_LOW_0] += head[1] == 0 && head[2] > 0x80;
    kinds[BLOCK_OF_80XX] += head[1] != 0 && head[2] == 0x80;
}

static void count_malformed(const struct saved_case *v, const struct place_in_file *p, size_t number)
{
    unsigned reason = number == v->file_length ? FILE_ENDS : WRONG_BYTE;

    stops[p->field][p->byte][reason]++;
    if (reason == WRONG_BYTE && p->byte == AT_HIGH && p->field == AT_FIRST_BLOCK)
        count_wrong_high(v->file + number - 2, wrong_blocks);
    if (reason == WRONG_BYTE && p->byte == AT_HIGH && p->field == AT_LATER_BLOCK)
        count_wrong_high(v->file + number - 2, wrong_blocks + WRONG_BLOCKS);
    wrong_blocks[BLOCK_AFTER_SHORT] += reason == WRONG_BYTE && p->field == AFTER_SHORT && v->file[number] == 3;
}

/* A file that says another RAM or a wrong image, and a load that is refused for it alone. */
static void count_refused_load(const struct saved_case *v, uint64_t code, size_t total, const uint8_t *image)
{
    uint8_t part[MODEL_IMAGE_BYTES];

    if (code == MODEL_SPACE) {
        load_kinds[total < v->lent_ram_length ? LESS_RAM : MORE_RAM]++;
        load_kinds[AS_MANY_BLOCKS] += (total + 32767) / 32768 == (v->lent_ram_length + 32767) / 32768;
        load_kinds[ODD_RAM] += total % 4 != 0;
        load_kinds[ABOVE_MOST] += total > MODEL_RAM_MAXIMUM;
    }
    if (code == MODEL_IMAGE_FORM) {
        fliskadee_fresh_image(part);
        memcpy(part, image, 176);
        load_kinds[WORDS_WRONG] += !well_formed(part);
        fliskadee_fresh_image(part);
        memcpy(part + 176, image + 176, 256);
        load_kinds[COP2_WRONG] += !well_formed(part);
    }
}

/* Of a malformed file, what it says of image and RAM counts as far as it is the beginning of a well-formed one. */
static void count_load_file(const struct saved_case *v, struct model_answer a)
{
    static uint8_t ram[CASE_RAM_CAPACITY], pad[MODEL_PAD_BYTES];
    uint8_t image[MODEL_IMAGE_BYTES];
    struct model_answer alone = model_load_file(v->file, v->file_length, image, sizeof image, ram, 4, pad, sizeof pad);
    bool malformed = alone.code == MODEL_FILE;
    size_t number = malformed ? (size_t)alone.number : v->file_length;
    struct place_in_file p = find_place(v->file, number);
    bool has_image = number >= 438;
    bool applies[LOAD_REASONS] = {v->lent_image_length != MODEL_IMAGE_BYTES, bad_ram_length(v->lent_ram_length),
                                  v->lent_pad_length != MODEL_PAD_BYTES, malformed, false,
                                  p.behind_ram && p.ram_length != v->lent_ram_length};

    if (has_image) {
        memcpy(image, v->file + 3, 176);
        memcpy(image + 176, v->file + 182, 256);
        applies[4] = !well_formed(image);
    }
    load_codes[a.code]++;
    count_reasons(&load_refusals[0][0], applies, LOAD_REASONS);
    if (a.code == MODEL_DONE)
        count_ram(loaded_rams, v->lent_ram_length);
    if (a.code == MODEL_FILE)
        count_malformed(v, &p, number);
    count_refused_load(v, a.code, p.ram_length, image);
}

static void count_saved(const struct test_case *c, const struct case_answers *answers)
{
    struct saved_case v;
    unsigned i;

    for (i = 0; i < CASE_SAVED; i++) {
        generate_saved(&v, c, i);
        count_save(c, &v, answers->saves[i]);
        count_load_file(&v, answers->loads[i]);
    }
}

/* Answers the words of a whole packet, and else 0. */
static size_t count_packet(const uint32_t *packet, size_t left)
{
    size_t words = model_packet_words(*packet), i;
    uint32_t byte = *packet >> 24;

    if (words > left) {
        cut_packets[byte][left]++;
        return 0;
    }
    for (i = 1; i < words; i++)
        ends_as_data[byte][i] += packet[i] == MODEL_POLYLINE_END;
    return words;
}

static size_t count_polyline(const uint32_t *packet, size_t left)
{
    size_t points = 0;
    bool ended;

    while (1 + points < left && packet[1 + points] != MODEL_POLYLINE_END)
        points++;
    ended = 1 + points < left;
    polylines[(points < POINTS ? points : POINTS - 1) + (ended ? 0 : POINTS)]++;
    return ended && points >= 2 ? points + 2 : 0;
}

static void count_packets(const struct draw_list *l)
{
    size_t at, words;

    for (at = 0; at < l->length; at += words) {
        const uint32_t *packet = l->words + at;
        size_t left = l->length - at;
        uint32_t byte = *packet >> 24;

        words = byte == MODEL_POLYLINE ? count_polyline(packet, left) : count_packet(packet, left);
        first_bytes[byte]++;
        if (words == 0)
            return;
        whole_packets[byte]++;
    }
}

static void count_list(const struct draw_list *l, struct model_answer a)
{
    bool later = a.number > 0;

    list_codes[a.code]++;
    count_packets(l);
    switch (a.code) {
    case MODEL_DONE:
        list_kinds[l->length == 0 ? EMPTY_LIST : a.number == 1 ? ONE_PACKET : MORE_PACKETS]++;
        break;
    case MODEL_PACKET_BYTE:
        list_kinds[later ? UNKNOWN_LATER : UNKNOWN_AT_0]++;
        list_kinds[END_AS_FIRST] += l->words[a.number] == MODEL_POLYLINE_END;
        break;
    default:
        list_kinds[later ? SHORT_LATER : SHORT_AT_0]++;
        list_kinds[ENDS_IN_48] += l->words[a.number] >> 24 == MODEL_POLYLINE && a.number == l->length - 1;
        short_packets[l->words[a.number] >> 24]++;
        break;
    }
}

static void count_lists(const struct test_case *c, const struct case_answers *answers)
{
    struct draw_list l;
    unsigned i;

    for (i = 0; i < CASE_LISTS; i++) {
        generate_list(&l, c, i);
        count_list(&l, answers->lists[i]);
    }
}

static void walk(struct test_case *c, uint64_t steps)
{
    const struct model_memory memory = {c->ram, c->ram_length, c->pad};
    struct model machine, before;
    uint8_t code[4] = {0};
    uint64_t i;

    model_load(&machine, c->image);
    for (i = 0; i < steps; i++) {
        enum model_outcome outcome;
        uint32_t physical = machine.pc & 0x1FFFFFFC;
        bool inside = physical + 4 <= c->ram_length;

        /* The word that is fetched, before a store can change it. */
        if (inside)
            memcpy(code, c->ram + physical, 4);
        before = machine;
        outcome = model_step(&machine, &memory);
        if (inside && memcmp(code, c->ram + physical, 4) != 0) {
            uint8_t now[4];

            memcpy(now, c->ram + physical, 4);
            memcpy(c->ram + physical, code, 4);
            count_step(&before, &machine, outcome, c->ram, c->ram_length);
            memcpy(c->ram + physical, now, 4);
        } else {
            count_step(&before, &machine, outcome, c->ram, c->ram_length);
        }
    }
}

void coverage_add(struct test_case *c, const struct case_answers *answers)
{
    uint64_t code = answers->run / MODEL_CODE_UNIT;
    unsigned i;

    run_codes[code]++;
    search_codes[answers->search / MODEL_CODE_UNIT]++;
    for (i = 0; i < CASE_WINDOWS; i++)
        count_window(&c->windows[i]);
    for (i = 0; i < CASE_QUESTIONS; i++)
        count_question(c, &c->questions[i]);
    count_refusal(c);
    count_saved(c, answers);
    count_lists(c, answers);
    if (code == MODEL_DONE || code == MODEL_UNLISTED)
        walk(c, answers->run % MODEL_CODE_UNIT);
}

/* ---- What was reached --------------------------------------------------------- */

/* Of one kind: how much was reached, and the first that was not. */
struct tally {
    const char *kind;
    unsigned reached, all;
    char missing[48];
};

static void tally(struct tally *t, bool reached, const char *format, ...)
{
    va_list arguments;

    if (!reached && t->reached == t->all) {
        va_start(arguments, format);
        vsnprintf(t->missing, sizeof t->missing, format, arguments);
        va_end(arguments);
    }
    t->reached += reached;
    t->all++;
}

enum {
    ALL_INSTRUCTIONS, ALL_COMMANDS, ALL_FORMS, ALL_MVMVA, BITS_SET, BITS_CLEAR, BITS_IMPOSSIBLE, OUTSIDE_SLOTS,
    IN_SLOTS, ALL_EVENTS, RUN_CODES, SEARCH_CODES, ALL_REFUSALS, ALL_WINDOWS, IN_THE_PAD, AROUND_THE_PAD, ALL_FETCHES,
    ALL_QUOTIENTS, ALL_ENTRIES, ALL_PERSPECTIVES, EDGE_PRODUCTS, SIGN_PRODUCTS, CARRY_PRODUCTS, QUESTION_CODES, ALL_SPACES,
    QUESTION_FORMS, ALL_CAUSES, CAUSES_IMPOSSIBLE,
    SAVE_CODES, LOAD_CODES, SAVE_REFUSALS, LOAD_REFUSALS, ALL_BYTE_SPACES, SAVED_RAMS, LOADED_RAMS, ALL_LOADS, ALL_STOPS,
    STOPS_IMPOSSIBLE, ALL_BLOCKS,
    LIST_CODES, ALL_LISTS, FIRST_BYTES, WHOLE_PACKETS, SHORT_PACKETS, CUT_PACKETS, ENDS_AS_DATA, ALL_POLYLINES, TALLIES
};

static void tally_instructions(struct tally *t)
{
    int i;

    for (i = 0; i < INSTRUCTIONS; i++) { /* SYSCALL and BREAK only ever end in an exception */
        bool ends = strcmp(names[i], "syscall") == 0 || strcmp(names[i], "break") == 0;

        tally(t, (ends ? trapped[i] : done[i]) != 0, "%s", names[i]);
    }
}

static void tally_flags(struct tally *t, unsigned i)
{
    const char *name = gte_command_name(commands[i].number);
    uint32_t reachable = commands[i].reachable;
    unsigned bit;

    if (reachable & 0x7F87E000)
        reachable |= 0x80000000;
    for (bit = 12; bit < 32; bit++) {
        if (reachable >> bit & 1) {
            tally(&t[BITS_SET], flag_set[i][bit] != 0, "bit %u of %s", bit, name);
            tally(&t[BITS_CLEAR], flag_clear[i][bit] != 0, "bit %u of %s", bit, name);
        } else {
            tally(&t[BITS_IMPOSSIBLE], flag_set[i][bit] == 0, "bit %u of %s", bit, name);
        }
    }
}

static void tally_commands(struct tally *t)
{
    unsigned i, form;

    for (i = 0; i < COMMANDS; i++) {
        const char *name = gte_command_name(commands[i].number);
        const uint64_t *runs = &command_runs[i][0][0];

        tally(&t[ALL_COMMANDS], (runs[0] | runs[1] | runs[2] | runs[3]) != 0, "%s", name);
        for (form = 0; form < 4; form++)
            tally(&t[ALL_FORMS], runs[form] != 0, "%s with sf %u, lm %u", name, form >> 1, form & 1);
        tally_flags(t, i);
    }
    for (i = 0; i < 256; i++)
        tally(&t[ALL_MVMVA], mvmva_forms[i] != 0, "%08x", 0x4A000012 | (i & 0x7F) << 13 | (i >> 7) << 10);
}

static bool is_triple(uint32_t number)
{
    return number == 0x16 || number == 0x20 || number == 0x2A || number == 0x30 || number == 0x3F;
}

/* Every bit on every line where it can have a cause, in each part. */
static void tally_causes(struct tally *t)
{
    unsigned i, k, part, bit;

    for (i = 0; i < COMMANDS; i++) {
        const char *name = gte_command_name(commands[i].number);
        unsigned parts = is_triple(commands[i].number) ? 3 : 1;

        for (k = 0; k < CAUSE_LINES; k++)
            if (has_line(commands[i].number, k))
                for (part = 0; part < parts; part++)
                    for (bit = 12; bit < 31; bit++)
                        if (cause_lines[k].bits >> bit & 1)
                            tally(t, causes[i][part][cause_lines[k].line][bit] != 0, "bit %u on line %u of %s, part %u", bit,
                                  cause_lines[k].line, name, part + 1);
    }
}

static void tally_questions(struct tally *t)
{
    static const unsigned codes[] = {MODEL_DONE, MODEL_IMAGE_LENGTH, MODEL_IMAGE_FORM, MODEL_UNLISTED, MODEL_SPACE};
    unsigned i, form;

    for (i = 0; i < sizeof codes / sizeof *codes; i++)
        tally(&t[QUESTION_CODES], question_codes[codes[i]] != 0, "%u", codes[i]);
    for (i = 0; i < SPACE_KINDS; i++)
        tally(&t[ALL_SPACES], spaces[i] != 0, "%s", space_names[i]);
    for (i = 0; i < COMMANDS; i++) {
        const char *name = gte_command_name(commands[i].number);

        for (form = 0; form < 4; form++)
            tally(&t[QUESTION_FORMS], question_forms[i][form] != 0, "%s with sf %u, lm %u", name, form >> 1, form & 1);
        tally(&t[CAUSES_IMPOSSIBLE], impossible_causes[i] == 0, "%s", name);
    }
    for (i = 0; i < 256; i++)
        tally(&t[QUESTION_FORMS], question_mvmva_forms[i] != 0, "%08x", 0x4A000012 | (i & 0x7F) << 13 | (i >> 7) << 10);
    tally_causes(&t[ALL_CAUSES]);
}

/* Of an image of the wrong length, whether its form is wrong as well is not asked. */
static void tally_refusals(struct tally *t)
{
    unsigned i, k;

    for (i = 0; i < REASONS; i++)
        for (k = i; k < REASONS; k++)
            if (i != 0 || k != 1)
                tally(t, refusals[i][k] != 0, "%u with %u", reason_codes[i], reason_codes[k]);
}

static bool can_be_misaligned(int access)
{
    static const char *const any[] = {"lb", "lbu", "lwl", "lwr", "sb", "swl", "swr"};
    unsigned i;

    for (i = 0; i < sizeof any / sizeof *any; i++)
        if (strcmp(any[i], access_name(access)) == 0)
            return false;
    return true;
}

static void tally_pad(struct tally *t)
{
    int access;
    unsigned i;

    for (access = 0; access < ACCESSES; access++) {
        for (i = 0; i < 2 * PAD_PLACES; i++)
            tally(&t[IN_THE_PAD], pad_accesses[access][i] != 0, "%s, %s", access_name(access), pad_place_names[i]);
        for (i = 0; i < PAD_EXCEPTIONS; i++)
            if (i != MISALIGNED || can_be_misaligned(access))
                tally(&t[AROUND_THE_PAD], pad_exceptions[access][i] != 0, "%s, %s", access_name(access), pad_exception_names[i]);
    }
    for (i = 0; i < PAD_FETCHES; i++)
        tally(&t[ALL_FETCHES], pad_fetches[i] != 0, "%s", pad_fetch_names[i]);
}

/* Of a malformed file, every place at which it can cease to be well formed. */
static void tally_stops(struct tally *t)
{
    unsigned i, k, reason;

    for (i = 0; i < STOP_FIELDS; i++)
        for (k = 0; k < STOP_BYTES; k++)
            for (reason = 0; reason < STOP_REASONS; reason++) {
                bool possible = possible_stops[i] >> (2 * k + reason) & 1, reached = stops[i][k][reason] != 0;

                tally(&t[possible ? ALL_STOPS : STOPS_IMPOSSIBLE], reached == possible, "%s, %s %s", stop_field_names[i],
                      stop_byte_names[k], stop_reason_names[reason]);
            }
}

/* Of an image of the wrong length, whether a save finds its form wrong as well is not asked. */
static void tally_saved(struct tally *t)
{
    unsigned i, k;

    for (i = 0; i < SAVE_REASONS; i++)
        for (k = i; k < SAVE_REASONS; k++)
            if (i != 0 || k != 3)
                tally(&t[SAVE_REFUSALS], save_refusals[i][k] != 0, "%u with %u", save_reason_codes[i], save_reason_codes[k]);
    for (i = 0; i < LOAD_REASONS; i++)
        for (k = i; k < LOAD_REASONS; k++)
            tally(&t[LOAD_REFUSALS], load_refusals[i][k] != 0, "%u with %u", load_reason_codes[i], load_reason_codes[k]);
    tally(&t[SAVE_CODES], save_codes[MODEL_DONE] != 0, "%u", MODEL_DONE);
    for (i = 0; i < SAVE_REASONS; i++)
        tally(&t[SAVE_CODES], save_codes[save_reason_codes[i]] != 0, "%u", save_reason_codes[i]);
    tally(&t[LOAD_CODES], load_codes[MODEL_DONE] != 0, "%u", MODEL_DONE);
    for (i = 0; i < LOAD_REASONS; i++)
        tally(&t[LOAD_CODES], load_codes[load_reason_codes[i]] != 0, "%u", load_reason_codes[i]);
    for (i = 0; i < BYTE_SPACES; i++)
        tally(&t[ALL_BYTE_SPACES], byte_spaces[i] != 0, "%s", byte_space_names[i]);
    for (i = 0; i < RAM_KINDS; i++) {
        tally(&t[SAVED_RAMS], saved_rams[i] != 0, "%s", ram_names[i]);
        tally(&t[LOADED_RAMS], loaded_rams[i] != 0, "%s", ram_names[i]);
    }
    for (i = 0; i < LOAD_KINDS; i++)
        tally(&t[ALL_LOADS], load_kinds[i] != 0, "%s", load_names[i]);
    for (i = 0; i < BLOCK_KINDS; i++)
        tally(&t[ALL_BLOCKS], wrong_blocks[i] != 0, "%s", block_names[i]);
    tally_stops(t);
}

/* Of the known bytes, whole packets and refused ones; of those with a fixed number of words, every cut and every place in them. */
static void tally_packets(struct tally *t)
{
    unsigned byte, words, i;

    for (byte = 0; byte < 256; byte++) {
        tally(&t[FIRST_BYTES], first_bytes[byte] != 0, "%02Xh", byte);
        words = model_packet_words(byte << 24);
        if (words == 0 && byte != MODEL_POLYLINE)
            continue;
        tally(&t[WHOLE_PACKETS], whole_packets[byte] != 0, "%02Xh", byte);
        tally(&t[SHORT_PACKETS], short_packets[byte] != 0, "%02Xh", byte);
        for (i = 1; i < words; i++) {
            tally(&t[CUT_PACKETS], cut_packets[byte][i] != 0, "%02Xh with %u of %u words", byte, i, words);
            tally(&t[ENDS_AS_DATA], ends_as_data[byte][i] != 0, "word %u of %02Xh", i, byte);
        }
    }
}

static void tally_lists(struct tally *t)
{
    static const unsigned codes[] = {MODEL_DONE, MODEL_PACKET_BYTE, MODEL_PACKET_SHORT};
    unsigned i;

    for (i = 0; i < sizeof codes / sizeof *codes; i++)
        tally(&t[LIST_CODES], list_codes[codes[i]] != 0, "%u", codes[i]);
    for (i = 0; i < LIST_KINDS; i++)
        tally(&t[ALL_LISTS], list_kinds[i] != 0, "%s", list_names[i]);
    for (i = 0; i < 2 * POINTS; i++)
        tally(&t[ALL_POLYLINES], polylines[i] != 0, "%s", polyline_names[i]);
    tally_packets(t);
}

static void tally_products(struct tally *t)
{
    unsigned u, i, k;

    for (u = 0; u < 2; u++) {
        for (i = 0; i < EDGES; i++)
            for (k = 0; k < EDGES; k++)
                tally(&t[EDGE_PRODUCTS], edge_products[u][i][k] != 0, "%s of %08X and %08X", product_names[u], (unsigned)edges[i],
                      (unsigned)edges[k]);
        for (i = 0; i < SIGNS; i++)
            tally(&t[SIGN_PRODUCTS], sign_products[u][i] != 0, "%s, %s", product_names[u], sign_names[i]);
        for (i = 0; i < CARRIES; i++)
            tally(&t[CARRY_PRODUCTS], carry_products[u][i] != 0, "%s, %s", product_names[u], carry_names[i]);
    }
}

static void tally_all(struct tally t[TALLIES])
{
    static const char *const kinds[TALLIES] = {
        [ALL_INSTRUCTIONS] = "instructions",
        [ALL_COMMANDS] = "commands",
        [ALL_FORMS] = "commands by sf and lm",
        [ALL_MVMVA] = "forms of MVMVA",
        [BITS_SET] = "FLAG bits set",
        [BITS_CLEAR] = "FLAG bits clear",
        [BITS_IMPOSSIBLE] = "FLAG bits that cannot be set and were not",
        [OUTSIDE_SLOTS] = "exceptions outside delay slots",
        [IN_SLOTS] = "exceptions in delay slots",
        [ALL_EVENTS] = "ends of waiting loads",
        [RUN_CODES] = "codes of the run",
        [SEARCH_CODES] = "codes of the search",
        [ALL_REFUSALS] = "reasons to refuse a run, alone and two together",
        [ALL_WINDOWS] = "kinds of windows",
        [IN_THE_PAD] = "loads and stores in the pad",
        [AROUND_THE_PAD] = "exceptions of loads and stores in and around the pad",
        [ALL_FETCHES] = "fetches in and around the pad",
        [ALL_QUOTIENTS] = "kinds of quotients",
        [ALL_ENTRIES] = "entries of the division's table",
        [ALL_PERSPECTIVES] = "kinds of perspective commands",
        [EDGE_PRODUCTS] = "products of 0, 1, 7FFFFFFFh, 80000000h and FFFFFFFFh, signed and unsigned",
        [SIGN_PRODUCTS] = "products by their sign bits",
        [CARRY_PRODUCTS] = "products by the carries between halves",
        [QUESTION_CODES] = "codes of the causes",
        [ALL_SPACES] = "kinds of words lent for causes",
        [QUESTION_FORMS] = "forms of commands asked for causes",
        [ALL_CAUSES] = "causes by command, part, line and bit",
        [CAUSES_IMPOSSIBLE] = "commands with no cause on a line where none can be",
        [SAVE_CODES] = "codes of the save",
        [LOAD_CODES] = "codes of the load",
        [SAVE_REFUSALS] = "reasons to refuse a save, alone and two together",
        [LOAD_REFUSALS] = "reasons to refuse a load, alone and two together",
        [ALL_BYTE_SPACES] = "kinds of bytes lent to a save",
        [SAVED_RAMS] = "kinds of RAM saved",
        [LOADED_RAMS] = "kinds of RAM loaded",
        [ALL_LOADS] = "kinds of files that are well formed and refused",
        [ALL_STOPS] = "places at which a malformed file ceases to be well formed",
        [STOPS_IMPOSSIBLE] = "places at which none can and none did",
        [ALL_BLOCKS] = "kinds of blocks that make a file malformed",
        [LIST_CODES] = "codes of the draw list",
        [ALL_LISTS] = "kinds of draw lists",
        [FIRST_BYTES] = "top bytes at the beginning of a packet",
        [WHOLE_PACKETS] = "known bytes in packets that are whole",
        [SHORT_PACKETS] = "known bytes in packets that are refused",
        [CUT_PACKETS] = "cuts of packets by byte and words",
        [ENDS_AS_DATA] = "places of 55555555h in packets of a fixed number of words",
        [ALL_POLYLINES] = "kinds of polylines",
    };
    unsigned i;

    memset(t, 0, TALLIES * sizeof *t);
    for (i = 0; i < TALLIES; i++)
        t[i].kind = kinds[i];
    tally_instructions(&t[ALL_INSTRUCTIONS]);
    tally_commands(t);
    for (i = 4; i <= 12; i++) {
        tally(&t[OUTSIDE_SLOTS], exceptions[i][0] != 0, "%s", exception_names[i]);
        tally(&t[IN_SLOTS], exceptions[i][1] != 0, "%s", exception_names[i]);
    }
    for (i = 0; i < LOAD_EVENTS; i++)
        tally(&t[ALL_EVENTS], load_events[i] != 0, "%s", event_names[i]);
    for (i = 0; i <= MODEL_PAD_LENGTH; i++) {
        tally(&t[RUN_CODES], run_codes[i] != 0, "%u", i);
        tally(&t[SEARCH_CODES], search_codes[i] != 0, "%u", i);
    }
    tally(&t[SEARCH_CODES], search_codes[MODEL_FLAG_UP] != 0, "%u", MODEL_FLAG_UP);
    tally_refusals(&t[ALL_REFUSALS]);
    tally_pad(t);
    for (i = 0; i < WINDOW_KINDS; i++)
        tally(&t[ALL_WINDOWS], windows[i] != 0, "%s", window_names[i]);
    for (i = 0; i < QUOTIENT_KINDS; i++)
        tally(&t[ALL_QUOTIENTS], quotients[i] != 0, "%s", quotient_names[i]);
    for (i = 0; i < TABLE_ENTRIES; i++)
        tally(&t[ALL_ENTRIES], table_entries[i] != 0, "%u", i);
    for (i = 0; i < 2 * BITS_LEFT; i++)
        tally(&t[ALL_PERSPECTIVES], perspectives[i] != 0, "%s", perspective_names[i]);
    tally_products(t);
    tally_questions(t);
    tally_saved(t);
    tally_lists(t);
}

const char *coverage_missing(void)
{
    static char text[160 * TALLIES];
    struct tally t[TALLIES];
    size_t length = 0;
    unsigned i;

    tally_all(t);
    for (i = 0; i < TALLIES; i++)
        if (t[i].reached < t[i].all)
            length += (size_t)snprintf(text + length, sizeof text - length, "%s%u of %u %s (the first missing is %s)",
                                       length ? ", " : "", t[i].reached, t[i].all, t[i].kind, t[i].missing);
    return length ? text : NULL;
}

/* ---- Printing --------------------------------------------------------------- */

static void print_instructions(void)
{
    int i;

    printf("instructions (completed, with an exception, taken):\n");
    for (i = 0; i < INSTRUCTIONS; i++)
        printf("  %-8s %10llu %9llu %9llu%s", names[i], (unsigned long long)done[i], (unsigned long long)trapped[i],
               (unsigned long long)taken[i], i % 2 ? "\n" : "  |");
    printf("  reserved words, COP1 and COP3: %llu\n", (unsigned long long)reserved_words);
}

static void print_flags(void)
{
    unsigned i, bit;

    printf("GTE commands by sf, lm: 00, 01, 10, 11\n");
    for (i = 0; i < COMMANDS; i++)
        printf("  %-6s %8llu %8llu %8llu %8llu\n", gte_command_name(commands[i].number),
               (unsigned long long)command_runs[i][0][0], (unsigned long long)command_runs[i][0][1],
               (unsigned long long)command_runs[i][1][0], (unsigned long long)command_runs[i][1][1]);
    printf("FLAG bits set (. cannot be set)\n        ");
    for (bit = 31; bit >= 12; bit--)
        printf(" %6u", bit);
    printf("\n");
    for (i = 0; i < COMMANDS; i++) {
        printf("  %-6s", gte_command_name(commands[i].number));
        for (bit = 31; bit >= 12; bit--)
            if (bit < 31 && !(commands[i].reachable >> bit & 1) && flag_set[i][bit] == 0)
                printf("      .");
            else
                printf(" %6llu", (unsigned long long)flag_set[i][bit]);
        printf("\n");
    }
}

/* The parts of a triple together. */
static void print_causes(void)
{
    unsigned i, k, bit;

    printf("causes by bit:\n");
    for (i = 0; i < COMMANDS; i++)
        for (k = 0; k < CAUSE_LINES; k++) {
            uint64_t (*part)[LINES][31] = causes[i];
            uint32_t line = cause_lines[k].line;

            if (!has_line(commands[i].number, k))
                continue;
            printf("  %-6s line %u", gte_command_name(commands[i].number), (unsigned)line);
            for (bit = 30; bit >= 12; bit--)
                if (cause_lines[k].bits >> bit & 1)
                    printf("  %u: %llu", bit, (unsigned long long)(part[0][line][bit] + part[1][line][bit] + part[2][line][bit]));
            printf("\n");
        }
}

static void print_codes(const char *call, const uint64_t *codes, unsigned last)
{
    unsigned i;

    printf("answers of the %s by code:", call);
    for (i = 0; i <= last; i++)
        if (i <= MODEL_PAD_LENGTH || i == last || codes[i] != 0)
            printf(" %u: %llu", i, (unsigned long long)codes[i]);
    printf("\n");
}

static void print_names(const char *title, const char *const *kinds, const uint64_t *counts, unsigned number)
{
    unsigned i;

    printf("%s:\n", title);
    for (i = 0; i < number; i++)
        printf("  %-24s %9llu\n", kinds[i], (unsigned long long)counts[i]);
}

static void print_pad(void)
{
    int access;
    unsigned i;

    printf("loads and stores in the pad:\n  ");
    for (i = 0; i < 2 * PAD_PLACES; i++)
        printf("%s%s", pad_place_names[i], i + 1 < 2 * PAD_PLACES ? ", " : "\n  ");
    for (i = 0; i < PAD_EXCEPTIONS; i++)
        printf("%s%s", pad_exception_names[i], i + 1 < PAD_EXCEPTIONS ? ", " : "\n");
    for (access = 0; access < ACCESSES; access++) {
        printf("  %-5s", access_name(access));
        for (i = 0; i < 2 * PAD_PLACES; i++)
            printf(" %7llu", (unsigned long long)pad_accesses[access][i]);
        printf("  |");
        for (i = 0; i < PAD_EXCEPTIONS; i++)
            printf(" %6llu", (unsigned long long)pad_exceptions[access][i]);
        printf("\n");
    }
    print_names("fetches in and around the pad", pad_fetch_names, pad_fetches, PAD_FETCHES);
}

static void print_refusals(const char *call, const uint64_t *table, const unsigned *codes, unsigned reasons)
{
    unsigned i, k;

    printf("reasons to refuse a %s (n+n: alone):", call);
    for (i = 0; i < reasons; i++)
        for (k = i; k < reasons; k++)
            printf(" %u+%u: %llu", codes[i], codes[k], (unsigned long long)table[i * reasons + k]);
    printf("\n");
}

static void print_saved(void)
{
    unsigned i, k;

    print_codes("save", save_codes, MODEL_SPACE);
    print_refusals("save", &save_refusals[0][0], save_reason_codes, SAVE_REASONS);
    print_names("bytes lent to a save", byte_space_names, byte_spaces, BYTE_SPACES);
    print_names("RAM saved", ram_names, saved_rams, RAM_KINDS);
    print_codes("load", load_codes, MODEL_SPACE);
    print_refusals("load", &load_refusals[0][0], load_reason_codes, LOAD_REASONS);
    print_names("RAM loaded", ram_names, loaded_rams, RAM_KINDS);
    print_names("files that are well formed and refused", load_names, load_kinds, LOAD_KINDS);
    printf("malformed files (tag, low byte, high byte, content: wrong, missing):\n");
    for (i = 0; i < STOP_FIELDS; i++) {
        printf("  %-20s", stop_field_names[i]);
        for (k = 0; k < STOP_BYTES; k++)
            printf(" %7llu %6llu", (unsigned long long)stops[i][k][WRONG_BYTE], (unsigned long long)stops[i][k][FILE_ENDS]);
        printf("\n");
    }
    print_names("blocks that make a file malformed", block_names, wrong_blocks, BLOCK_KINDS);
}

static void print_lists(void)
{
    unsigned byte, i;

    printf("answers of the draw list by code: %u: %llu %u: %llu %u: %llu\n", MODEL_DONE, (unsigned long long)list_codes[MODEL_DONE],
           MODEL_PACKET_BYTE, (unsigned long long)list_codes[MODEL_PACKET_BYTE], MODEL_PACKET_SHORT,
           (unsigned long long)list_codes[MODEL_PACKET_SHORT]);
    print_names("draw lists", list_names, list_kinds, LIST_KINDS);
    print_names("polylines", polyline_names, polylines, 2 * POINTS);
    printf("packets (whole, refused, cut with so many words, 55555555h at its places):\n");
    for (byte = 0; byte < 256; byte++) {
        unsigned words = model_packet_words(byte << 24);

        if (words == 0 && byte != MODEL_POLYLINE)
            continue;
        printf("  %02Xh %9llu %7llu  |", byte, (unsigned long long)whole_packets[byte], (unsigned long long)short_packets[byte]);
        for (i = 1; i < words; i++)
            printf(" %llu", (unsigned long long)cut_packets[byte][i]);
        printf("  |");
        for (i = 1; i < words; i++)
            printf(" %llu", (unsigned long long)ends_as_data[byte][i]);
        printf("\n");
    }
}

static void print_products(void)
{
    unsigned u, i, k;

    for (u = 0; u < 2; u++) {
        printf("%s of edges:\n", product_names[u]);
        for (i = 0; i < EDGES; i++) {
            printf("  %08X", (unsigned)edges[i]);
            for (k = 0; k < EDGES; k++)
                printf(" %7llu", (unsigned long long)edge_products[u][i][k]);
            printf("\n");
        }
        print_names(product_names[u], sign_names, sign_products[u], SIGNS);
        print_names(product_names[u], carry_names, carry_products[u], CARRIES);
    }
}

void coverage_print(void)
{
    struct tally t[TALLIES];
    unsigned i;

    print_instructions();
    print_flags();
    printf("exceptions (outside, in a delay slot):\n");
    for (i = 4; i <= 12; i++)
        printf("  %2u %-4s %9llu %9llu\n", i, exception_names[i], (unsigned long long)exceptions[i][0],
               (unsigned long long)exceptions[i][1]);
    printf("  from user mode %llu, with BEV %llu; steps in user mode %llu\n", (unsigned long long)exceptions_user,
           (unsigned long long)exceptions_bev, (unsigned long long)steps_user);
    print_names("waiting loads", event_names, load_events, LOAD_EVENTS);
    print_codes("run", run_codes, MODEL_PAD_LENGTH);
    print_codes("search", search_codes, MODEL_FLAG_UP);
    print_refusals("run", &refusals[0][0], reason_codes, REASONS);
    print_pad();
    print_codes("causes", question_codes, MODEL_SPACE);
    print_names("words lent for causes", space_names, spaces, SPACE_KINDS);
    print_causes();
    print_names("windows", window_names, windows, WINDOW_KINDS);
    print_names("quotients", quotient_names, quotients, QUOTIENT_KINDS);
    print_names("perspective commands with sf 1", perspective_names, perspectives, 2 * BITS_LEFT);
    print_products();
    print_saved();
    print_lists();
    printf("reached:\n");
    tally_all(t);
    for (i = 0; i < TALLIES; i++)
        printf("  %3u of %3u %s\n", t[i].reached, t[i].all, t[i].kind);
}
