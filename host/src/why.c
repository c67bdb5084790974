#include "why.h"

#include <inttypes.h>
#include <stdbool.h>

#include "image.h"
#include "show.h"

/* ---- The formulas of 001 ----

   Of each block the lines that write a register, in 001's words. Lines that are marked for some of the block's commands count for
   all of them, as the library counts. @ is the number of the vector that a part reads. */

static const char cue_line[] = "[MAC1,MAC2,MAC3] = MAC+(FC-MAC)*IR0";
static const char shift_line[] = "[MAC1,MAC2,MAC3] = [MAC1,MAC2,MAC3] SAR (sf*12)";
static const char queue_line[] = "Color FIFO = [MAC1/16,MAC2/16,MAC3/16,CODE], [IR1,IR2,IR3] = [MAC1,MAC2,MAC3]";
static const char vector_line[] = "[IR1,IR2,IR3] = [MAC1,MAC2,MAC3]";
static const char background_line[] = "[IR1,IR2,IR3] = [MAC1,MAC2,MAC3] = (BK*1000h + LCM*IR) SAR (sf*12)";
static const char product_line[] = "[MAC1,MAC2,MAC3] = [R*IR1,G*IR2,B*IR3] SHL 4";

enum { MOST_LINES = 7 };
typedef const char *const formula[MOST_LINES];

static formula perspective = { /* RTPS, RTPT */
    "IR1 = MAC1 = (TRX*1000h + RT11*VX@ + RT12*VY@ + RT13*VZ@) SAR (sf*12)",
    "IR2 = MAC2 = (TRY*1000h + RT21*VX@ + RT22*VY@ + RT23*VZ@) SAR (sf*12)",
    "IR3 = MAC3 = (TRZ*1000h + RT31*VX@ + RT32*VY@ + RT33*VZ@) SAR (sf*12)",
    "SZ3 = MAC3 SAR ((1-sf)*12)",
    "MAC0=(((H*20000h/SZ3)+1)/2)*IR1+OFX, SX2=MAC0/10000h",
    "MAC0=(((H*20000h/SZ3)+1)/2)*IR2+OFY, SY2=MAC0/10000h",
    "MAC0=(((H*20000h/SZ3)+1)/2)*DQA+DQB, IR0=MAC0/1000h",
};

static formula clipping = { /* NCLIP */
    "MAC0 = SX0*SY1 + SX1*SY2 + SX2*SY0 - SX0*SY2 - SX1*SY0 - SX2*SY1",
};

static formula average = { /* AVSZ3, AVSZ4 */
    "MAC0 = ZSF3*(SZ1+SZ2+SZ3)",
    "MAC0 = ZSF4*(SZ0+SZ1+SZ2+SZ3)",
    "OTZ = MAC0/1000h",
};

static formula multiplication = { /* MVMVA */
    "MAC1 = (Tx1*1000h + Mx11*Vx1 + Mx12*Vx2 + Mx13*Vx3) SAR (sf*12)",
    "MAC2 = (Tx2*1000h + Mx21*Vx1 + Mx22*Vx2 + Mx23*Vx3) SAR (sf*12)",
    "MAC3 = (Tx3*1000h + Mx31*Vx1 + Mx32*Vx2 + Mx33*Vx3) SAR (sf*12)",
    vector_line,
};

static formula square = { /* SQR */
    "[MAC1,MAC2,MAC3] = [IR1*IR1,IR2*IR2,IR3*IR3] SHR (sf*12)",
    vector_line,
};

static formula outer_product = { /* OP */
    "[MAC1,MAC2,MAC3] = [IR3*D2-IR2*D3, IR1*D3-IR3*D1, IR2*D1-IR1*D2] SAR (sf*12)",
    vector_line,
};

static formula normal_colour = { /* NCS, NCT, NCCS, NCCT, NCDS, NCDT */
    "[IR1,IR2,IR3] = [MAC1,MAC2,MAC3] = (LLM*V@) SAR (sf*12)",
    background_line,
    product_line, /* NCC and NCD */
    cue_line,     /* NCD */
    shift_line,   /* NCC and NCD */
    queue_line,
};

static formula light_colour = { /* CC, CDP */
    background_line,
    product_line,
    cue_line, /* CDP */
    shift_line,
    queue_line,
};

static formula depth_cueing = { /* DCPL, INTPL, DPCS, DPCT */
    product_line,                               /* DCPL */
    "[MAC1,MAC2,MAC3] = [IR1,IR2,IR3] SHL 12",  /* INTPL */
    "[MAC1,MAC2,MAC3] = [R,G,B] SHL 16",        /* DPCS and DPCT */
    cue_line,
    shift_line,
    queue_line,
};

static formula interpolation = { /* GPF, GPL */
    "[MAC1,MAC2,MAC3] = [0,0,0]",                           /* GPF */
    "[MAC1,MAC2,MAC3] = [MAC1,MAC2,MAC3] SHL (sf*12)",      /* GPL */
    "[MAC1,MAC2,MAC3] = (([IR1,IR2,IR3] * IR0) + [MAC1,MAC2,MAC3]) SAR (sf*12)",
    queue_line,
};

/* By a command's low six bits. */
static formula *const formulas[64] = {
    [0x01] = &perspective, [0x06] = &clipping, [0x0C] = &outer_product, [0x10] = &depth_cueing, [0x11] = &depth_cueing,
    [0x12] = &multiplication, [0x13] = &normal_colour, [0x14] = &light_colour, [0x16] = &normal_colour, [0x1B] = &normal_colour,
    [0x1C] = &light_colour, [0x1E] = &normal_colour, [0x20] = &normal_colour, [0x28] = &square, [0x29] = &depth_cueing,
    [0x2A] = &depth_cueing, [0x2D] = &average, [0x2E] = &average, [0x30] = &perspective, [0x3D] = &interpolation,
    [0x3E] = &interpolation, [0x3F] = &normal_colour,
};

static const char *line_text(uint32_t command, unsigned line)
{
    return (*formulas[command & 63])[line - 1];
}

static void print_line(FILE *out, uint32_t command, unsigned part, unsigned line)
{
    for (const char *text = line_text(command, line); *text != '\0'; text++)
        fputc(*text == '@' ? '0' + (int)part - 1 : *text, out);
}

/* ---- The library's rows ---- */

unsigned find_causes(struct causes *causes, const uint8_t *image, uint32_t command)
{
    struct fliskadee_answer answer =
        fliskadee_causes(image, FLISKADEE_IMAGE_BYTES, command, causes->words, FLISKADEE_MOST_CAUSE_WORDS);
    causes->command = command;
    causes->count = answer.code == FLISKADEE_DONE ? (size_t)answer.number / FLISKADEE_CAUSE_WORDS : 0;
    return (unsigned)answer.code;
}

uint32_t causes_flag(const struct causes *causes, unsigned part)
{
    uint32_t bits = 0;
    for (size_t i = 0; i < causes->count; i++) {
        const uint32_t *row = cause_row(causes, i);
        if (part == 0 || row[1] == part)
            bits |= UINT32_C(1) << row[0];
    }
    return flag_read(bits);
}

const char *part_name(uint32_t command, unsigned part)
{
    static const char *const vectors[] = {"V0", "V1", "V2"};
    static const char *const colours[] = {"RGB0", "RGB1", "RGB2"};
    switch (command & 63) {
    case 0x16: /* NCDT */
    case 0x20: /* NCT */
    case 0x30: /* RTPT */
    case 0x3F: /* NCCT */ return vectors[part - 1];
    case 0x2A: /* DPCT: each part takes the oldest colour of the queue and pushes one */ return colours[part - 1];
    default: return NULL;
    }
}

/* ---- What left its range ---- */

/* Hex beside decimal, where it is another text. */
static void print_value(FILE *out, int64_t value)
{
    uint64_t magnitude = value < 0 ? -(uint64_t)value : (uint64_t)value;
    fprintf(out, "%" PRId64, value);
    if (magnitude > 9)
        fprintf(out, " (%s%" PRIX64 "h)", value < 0 ? "-" : "", magnitude);
}

static void print_outside(FILE *out, const char *quantity, const uint32_t *row, const char *range, const char *of)
{
    fprintf(out, "%s is ", quantity);
    print_value(out, fliskadee_cause_value(row));
    fprintf(out, ", outside %s of %s", range, of);
}

/* Bits 30 to 19, of which each stands for one of three: a MAC, an IR or a colour. On the line with FC-MAC the value is that
   difference, which is limited as without lm. */
static void print_vector_fault(FILE *out, uint32_t command, const uint32_t *row)
{
    static const char *const macs[] = {"MAC1", "MAC2", "MAC3"};
    static const char *const irs[] = {"IR1", "IR2", "IR3"};
    static const char *const colours[] = {"red", "green", "blue"};
    static const char *const sixteenths[] = {"MAC1/16", "MAC2/16", "MAC3/16"};
    static const char *const differences[] = {"(RFC SHL 12) - MAC1", "(GFC SHL 12) - MAC2", "(BFC SHL 12) - MAC3"};
    static const char *const stored_differences[] = {"the low word of ((RFC SHL 12) - MAC1) SAR (sf*12)",
                                                     "the low word of ((GFC SHL 12) - MAC2) SAR (sf*12)",
                                                     "the low word of ((BFC SHL 12) - MAC3) SAR (sf*12)"};
    unsigned i = 2 - (row[0] - 19) % 3;
    bool cue = line_text(command, row[2]) == cue_line;
    bool projected = formulas[command & 63] == &perspective;
    bool lm = (command >> 10 & 1) != 0 && !cue && !projected;
    const char *limited = cue ? stored_differences[i] : projected && i == 2 ? "the 44-bit sum SAR 12" : macs[i];
    if (row[0] >= 25)
        print_outside(out, cue ? differences[i] : "the sum before SAR", row, "-80000000000h..7FFFFFFFFFFh", macs[i]);
    else if (row[0] >= 22)
        print_outside(out, limited, row, lm ? "0..7FFFh" : "-8000h..7FFFh", irs[i]);
    else
        print_outside(out, sixteenths[i], row, "0..FFh", colours[i]);
}

/* MAC0 is cut to 32 bits, but what is taken from it comes from the exact value. */
static void print_fault(FILE *out, uint32_t command, const uint32_t *row)
{
    switch (row[0]) {
    case 18:
        if (formulas[command & 63] == &perspective)
            print_outside(out, "the 44-bit sum of line 3 SAR 12", row, "0..FFFFh", "SZ3");
        else
            print_outside(out, "the exact MAC0/1000h", row, "0..FFFFh", "OTZ");
        break;
    case 17:
        fprintf(out, "H = ");
        print_value(out, row[3]);
        fprintf(out, " is at least twice SZ3 = ");
        print_value(out, row[4]);
        break;
    case 16:
    case 15: print_outside(out, "the exact value", row, "-80000000h..7FFFFFFFh", "MAC0"); break;
    case 14: print_outside(out, "the exact MAC0/10000h", row, "-400h..3FFh", "SX2"); break;
    case 13: print_outside(out, "the exact MAC0/10000h", row, "-400h..3FFh", "SY2"); break;
    case 12: print_outside(out, "the exact MAC0/1000h", row, "0..1000h", "IR0"); break;
    default: print_vector_fault(out, command, row);
    }
}

/* ---- Causes ---- */

/* The part of a triple, and the line's number. */
static void print_place(FILE *out, uint32_t command, const uint32_t *row)
{
    const char *name = part_name(command, row[1]);
    if (name != NULL)
        fprintf(out, "part %u (%s), ", (unsigned)row[1], name);
    fprintf(out, "line %u: ", (unsigned)row[2]);
}

void show_cause(FILE *out, const struct causes *causes, size_t number)
{
    const uint32_t *row = cause_row(causes, number);
    fprintf(out, "bit %u, ", (unsigned)row[0]);
    print_place(out, causes->command, row);
    print_fault(out, causes->command, row);
}

void show_causes(FILE *out, const struct causes *causes, const char *indent)
{
    uint32_t flag = causes_flag(causes, 0);
    size_t i = 0;
    for (unsigned bit = 31; bit >= 12; bit--) {
        if ((flag >> bit & 1) == 0)
            continue;
        fprintf(out, "%sbit %u: %s\n", indent, bit, flag_meaning(bit));
        for (; i < causes->count && cause_row(causes, i)[0] == bit; i++) {
            const uint32_t *row = cause_row(causes, i);
            fprintf(out, "%s  ", indent);
            print_place(out, causes->command, row);
            print_line(out, causes->command, row[1], row[2]);
            fprintf(out, "\n%s    ", indent);
            print_fault(out, causes->command, row);
            fprintf(out, "\n");
        }
    }
}
