/* Fliskadee: a software R3000A with its geometry unit (GTE), proved to do what its papers say.
 *
 * Link target/staticlib/libfliskadee.a, which host/library makes ("rt lib" of crates/fliskadee_c): one ELF object for x86-64. The library
 * keeps no state of its own, allocates nothing, and calls memcpy and nothing else: everything is in the buffers that the caller
 * lends. Calls on different buffers may run at the same time.
 *
 * What the caller must see to: a buffer has the length that is passed, may be read and (unless it is const) written, and no
 * two buffers of one call overlap. Nothing else is required: every content, every length and every count is answered. */
#ifndef FLISKADEE_H
#define FLISKADEE_H

#include <stddef.h>
#include <stdint.h>

#ifdef __cplusplus
extern "C" {
#endif

/* ---- The machine image: 108 little-endian words, 432 bytes
 *
 *    0..31  general registers       36  register that awaits a load (0: none)   41  EPC
 *       32  HI                      37  its value                               42  BADV
 *       33  LO                      38  1 in a delay slot, else 0               43  zero
 *       34  PC                      39  SR                                      44..107  COP2 registers 0..63
 *       35  next PC                 40  CAUSE
 *
 * It is well formed when: word 0 is 0; word 36 is at most 31; word 37 is 0 if word 36 is; word 38 is at most 1; word 43 is 0; SR
 * has only bits of F24FFF3Fh; CAUSE has only bits of B000037Ch; and every COP2 word equals what a read of that register returns
 * (15 reads as 14, 28 and 29 as the packed IR1..3, 31 as the leading bits of 30, 63 with its bit 31, the 16-bit registers
 * extended). A fresh machine is not all zeros: COP2 register 31 is 32. */
#define FLISKADEE_IMAGE_WORDS 108
#define FLISKADEE_IMAGE_BYTES 432
#define FLISKADEE_MOST_RAM 2097152 /* bytes */
#define FLISKADEE_PAD_BYTES 1024   /* the scratch pad */

/* The words of an image; 0..31 are the general registers. */
enum fliskadee_word {
    FLISKADEE_WORD_HI = 32,
    FLISKADEE_WORD_LO,
    FLISKADEE_WORD_PC,
    FLISKADEE_WORD_NEXT_PC,
    FLISKADEE_WORD_LOAD_REGISTER,
    FLISKADEE_WORD_LOAD_VALUE,
    FLISKADEE_WORD_DELAY_SLOT,
    FLISKADEE_WORD_SR,
    FLISKADEE_WORD_CAUSE,
    FLISKADEE_WORD_EPC,
    FLISKADEE_WORD_BADV,
    FLISKADEE_WORD_ZERO,
    FLISKADEE_WORD_COP2 /* COP2 register n is word FLISKADEE_WORD_COP2 + n */
};

/* COP2 registers. Data registers 0..31, then control registers. */
enum fliskadee_cop2 {
    FLISKADEE_COP2_VXY0, FLISKADEE_COP2_VZ0, FLISKADEE_COP2_VXY1, FLISKADEE_COP2_VZ1, FLISKADEE_COP2_VXY2,
    FLISKADEE_COP2_VZ2, FLISKADEE_COP2_RGBC, FLISKADEE_COP2_OTZ, FLISKADEE_COP2_IR0, FLISKADEE_COP2_IR1,
    FLISKADEE_COP2_IR2, FLISKADEE_COP2_IR3, FLISKADEE_COP2_SXY0, FLISKADEE_COP2_SXY1, FLISKADEE_COP2_SXY2,
    FLISKADEE_COP2_SXYP, FLISKADEE_COP2_SZ0, FLISKADEE_COP2_SZ1, FLISKADEE_COP2_SZ2, FLISKADEE_COP2_SZ3,
    FLISKADEE_COP2_RGB0, FLISKADEE_COP2_RGB1, FLISKADEE_COP2_RGB2, FLISKADEE_COP2_RES1, FLISKADEE_COP2_MAC0,
    FLISKADEE_COP2_MAC1, FLISKADEE_COP2_MAC2, FLISKADEE_COP2_MAC3, FLISKADEE_COP2_IRGB, FLISKADEE_COP2_ORGB,
    FLISKADEE_COP2_LZCS, FLISKADEE_COP2_LZCR,
    FLISKADEE_COP2_RT, /* five words: RT11 and RT12, RT13 and RT21, RT22 and RT23, RT31 and RT32, RT33 */
    FLISKADEE_COP2_TRX = 37, FLISKADEE_COP2_TRY, FLISKADEE_COP2_TRZ,
    FLISKADEE_COP2_LLM, /* the light matrix, in the same way */
    FLISKADEE_COP2_RBK = 45, FLISKADEE_COP2_GBK, FLISKADEE_COP2_BBK,
    FLISKADEE_COP2_LCM, /* the light colour matrix */
    FLISKADEE_COP2_RFC = 53, FLISKADEE_COP2_GFC, FLISKADEE_COP2_BFC, FLISKADEE_COP2_OFX, FLISKADEE_COP2_OFY,
    FLISKADEE_COP2_H, FLISKADEE_COP2_DQA, FLISKADEE_COP2_DQB, FLISKADEE_COP2_ZSF3, FLISKADEE_COP2_ZSF4,
    FLISKADEE_COP2_FLAG
};

/* Word n of an image, and of any little-endian words. */
static inline uint32_t fliskadee_get_word(const uint8_t *image, size_t n)
{
    const uint8_t *b = image + 4 * n;

    return (uint32_t)b[0] | (uint32_t)b[1] << 8 | (uint32_t)b[2] << 16 | (uint32_t)b[3] << 24;
}

static inline void fliskadee_set_word(uint8_t *image, size_t n, uint32_t value)
{
    size_t i;

    for (i = 0; i < 4; i++)
        image[4 * n + i] = (uint8_t)(value >> 8 * i);
}

/* A fresh accepted image of 432 bytes: zeros, but for next PC and the register that counts leading bits. Kernel mode, PC 0. */
static inline void fliskadee_fresh_image(uint8_t *image)
{
    size_t i;

    for (i = 0; i < FLISKADEE_IMAGE_BYTES; i++)
        image[i] = 0;
    fliskadee_set_word(image, FLISKADEE_WORD_NEXT_PC, 4);
    fliskadee_set_word(image, FLISKADEE_WORD_COP2 + FLISKADEE_COP2_LZCR, 32);
}

/* ---- The interface's number: it rises with each change of a call's arguments. fliskadee_interface answers the number of the
 * library that was linked; a host that compares the two at its start knows that header and library belong together. 2: the scratch
 * pad is lent to fliskadee_run, fliskadee_find_flag and fliskadee_window. */
#define FLISKADEE_INTERFACE 2
uint32_t fliskadee_interface(void);

/* ---- The answer of fliskadee_run and fliskadee_find_flag: code * 1,048,576 + steps completed */
#define FLISKADEE_CODE(answer) ((unsigned)((answer) >> 20))
#define FLISKADEE_STEPS(answer) ((uint32_t)((answer) & 0xFFFFF))

enum fliskadee_code {
    FLISKADEE_DONE = 0,                 /* all steps done: image, RAM and pad are as after them */
    FLISKADEE_REFUSED_IMAGE_LENGTH = 1, /* the image is not 432 bytes; nothing changed */
    FLISKADEE_REFUSED_IMAGE_FORM = 2,   /* the image is not well formed; nothing changed */
    FLISKADEE_REFUSED_RAM_LENGTH = 3,   /* the RAM's length is no multiple of 4 in 4..2,097,152; nothing changed */
    FLISKADEE_REFUSED_COUNT = 4,        /* the count is above 1,000,000; nothing changed */
    FLISKADEE_UNLISTED = 5,             /* steps remain, and the next instruction is a usable COP2 command that is not one of
                                           the 22: image, RAM and pad are as just before it. Of fliskadee_causes: the command
                                           word is not one of the 22; nothing changed */
    FLISKADEE_REFUSED_PAD_LENGTH = 6,   /* the pad is not 1,024 bytes; nothing changed */
    FLISKADEE_REFUSED_FILE = 7,         /* fliskadee_load only: the file is malformed; nothing changed */
    FLISKADEE_REFUSED_SPACE = 8,        /* fliskadee_causes: too few words are lent; fliskadee_save: too few bytes are lent;
                                           fliskadee_load: the file has another total of RAM than is lent. Nothing changed */
    FLISKADEE_REFUSED_PACKET_BYTE = 11, /* fliskadee_draw_list only: the top byte of a packet's first word is unknown */
    FLISKADEE_REFUSED_PACKET_SHORT = 12, /* fliskadee_draw_list only: a packet is cut short, or a polyline has too few points */
    FLISKADEE_FLAG_UP = 16              /* fliskadee_find_flag only: a bit of the mask came up in the last step completed */
};

#define FLISKADEE_MOST_STEPS 1000000

/* Carries out at most count steps of the machine that image, RAM and scratch pad describe, and leaves all three as they are
 * afterwards. An exception is a completed step. Codes 1, 2, 3, 6 and 4 are tested in this order; where none of them applies, count 0
 * answers 0 and changes nothing.
 *
 * RAM stands from physical address 0 on, through the segments 000, 100 and 101 (the top three bits of an address). The scratch pad
 * stands at physical 1F800000h to 1F8003FFh: loads and stores reach it through 000 and 100; through 101 it is a bus error, and so
 * is every fetch from it.
 *
 * An accepted image (one that codes 1 and 2 do not refuse) is accepted again as the call has left it, and RAM and pad keep their
 * lengths. Where a call with count a is not refused and a + b is at most 1,000,000, a call with count b on what it left leaves what
 * one call with count a + b would have left; the steps of the two add up, and the code of the whole is 5 where the first one's is,
 * else the second one's. */
uint64_t fliskadee_run(uint8_t *image, size_t image_length, uint8_t *ram, size_t ram_length, uint8_t *pad, size_t pad_length,
                       uint64_t count);

/* As fliskadee_run, but ends after the first step that leaves a bit of mask set in FLAG (COP2 register 63) where none of the
 * mask's bits was set before that step: the code is then 16, and the step is counted. To have the machine just before that
 * step, run one step fewer from the same start. An accepted image is accepted again as the call has left it. */
uint64_t fliskadee_find_flag(uint8_t *image, size_t image_length, uint8_t *ram, size_t ram_length, uint8_t *pad,
                             size_t pad_length, uint64_t count, uint32_t mask);

/* What a machine is lent, in one place: the same two calls over it. */
struct fliskadee_lent {
    uint8_t *image;
    size_t image_length;
    uint8_t *ram;
    size_t ram_length;
    uint8_t *pad;
    size_t pad_length;
};

static inline uint64_t fliskadee_run_lent(const struct fliskadee_lent *lent, uint64_t count)
{
    return fliskadee_run(lent->image, lent->image_length, lent->ram, lent->ram_length, lent->pad, lent->pad_length, count);
}

static inline uint64_t fliskadee_find_flag_lent(const struct fliskadee_lent *lent, uint64_t count, uint32_t mask)
{
    return fliskadee_find_flag(lent->image, lent->image_length, lent->ram, lent->ram_length, lent->pad, lent->pad_length, count,
                               mask);
}

/* ---- The answer of fliskadee_causes, fliskadee_save, fliskadee_load and fliskadee_draw_list: a code of the list above, and a number
 * beside it */
struct fliskadee_answer {
    uint64_t code, number;
};

/* Why bits of FLAG are set: every cause for which the GTE command of a word sets bits 30 to 12, on the machine of an image. The
 * command is the word's low 25 bits, as an instruction has them; the top seven bits are ignored, and so is SR. The image is only
 * read.
 *
 * A cause is a row of five words:
 *
 *   0  the bit of FLAG, 30..12
 *   1  the part of a triple (RTPT, NCT, NCCT, NCDT, DPCT): 1, 2 or 3; of every other command 1
 *   2  the line of the command's formula in 001, counted from 1 within one part: lines that write a register, those that are
 *      marked for other commands too. FC-MAC stands on the line of MAC+(FC-MAC)*IR0, the quotient on that of SX
 *   3  the low word of the value that left its range, exact and signed; for bit 17 H
 *   4  its high word; for bit 17 SZ3
 *
 * Rows stand by bit from 30 down, then by part, then by line, and no two have the same three. A bit of 30..12 has a row exactly
 * when the command sets it.
 *
 * Codes 1, 2, 5 and 8 are tested in this order. Code 0: the rows stand at the beginning of the words, the words behind them are as
 * before, and the number is that of the words written, five for each row. Code 8: the rows do not all fit, nothing is written, and
 * the number is that of the words that they need. Every other code has the number 0. No command needs more than
 * FLISKADEE_MOST_CAUSE_WORDS. */
#define FLISKADEE_CAUSE_WORDS 5
#define FLISKADEE_MOST_CAUSE_WORDS 585
struct fliskadee_answer fliskadee_causes(const uint8_t *image, size_t image_length, uint32_t command, uint32_t *words,
                                         size_t words_length);

/* The value of a row, but of one of bit 17. */
static inline int64_t fliskadee_cause_value(const uint32_t *row)
{
    return (int64_t)((uint64_t)row[4] << 32 | row[3]);
}

/* ---- Saved machines: image, RAM and pad as one file
 *
 * A file is fields: a tag of one byte, the length of the content in two bytes, the lower one first, and the content. In this order:
 *
 *   tag 1    176 bytes: words 0..43 of the image
 *   tag 2    256 bytes: the 64 COP2 words
 *   tag 3    RAM in address order, one block or more: each has 32,768 bytes, but the last may have 1 to 32,768
 *   tag 4    1,024 bytes: the pad
 *   tag 0    0 bytes, and nothing after it
 *
 * A machine has one file, and a file one machine: what fliskadee_save wrote, fliskadee_load gives back, and a file that
 * fliskadee_load accepts is the one that fliskadee_save writes of what was loaded, byte for byte. */
#define FLISKADEE_BLOCK_BYTES 32768
#define FLISKADEE_MOST_SAVED_BYTES 2098812 /* of FLISKADEE_MOST_RAM */

/* The bytes of the file of a machine with so many bytes of RAM. */
static inline size_t fliskadee_saved_bytes(size_t ram_length)
{
    return 1468 + ram_length + 3 * ((ram_length + FLISKADEE_BLOCK_BYTES - 1) / FLISKADEE_BLOCK_BYTES);
}

/* The bytes of RAM in a well-formed file of so many bytes; 0 where no well-formed file has so many. */
static inline size_t fliskadee_saved_ram(size_t file_length)
{
    size_t blocks, n;

    if (file_length < 1472)
        return 0;
    n = file_length - 1468;
    blocks = n / (FLISKADEE_BLOCK_BYTES + 3) + (n % (FLISKADEE_BLOCK_BYTES + 3) != 0);
    n -= 3 * blocks;
    return fliskadee_saved_bytes(n) == file_length ? n : 0;
}

/* Writes the file of a machine to the front of the space; image, RAM and pad are only read.
 *
 * Codes 1, 3 and 6 (the lengths of image, RAM and pad), 2 and 8 (the space is too short) are tested in this order. Code 0: the
 * number is that of the bytes written, fliskadee_saved_bytes of the RAM's length, and the rest of the space is as before. Every
 * other code has the number 0, and nothing changed. */
struct fliskadee_answer fliskadee_save(const uint8_t *image, size_t image_length, const uint8_t *ram, size_t ram_length,
                                       const uint8_t *pad, size_t pad_length, uint8_t *space, size_t space_length);

/* Reads the machine of a file into image, RAM and pad, whatever they held.
 *
 * Codes 1, 3 and 6 (the lengths of image, RAM and pad), 7 (the file is malformed), 2 (the file's image is not well formed) and 8
 * (the total of tag 3 is not the length of the RAM) are tested in this order. Code 0: the machine is loaded, and fliskadee_run does
 * not refuse it. Code 7 has for its number the length of the longest beginning that the file shares with some well-formed file: the
 * place of the first byte that cannot stand there, or the file's length where it ends too early. Every other code has the
 * number 0; with every code but 0 nothing changed. */
struct fliskadee_answer fliskadee_load(const uint8_t *file, size_t file_length, uint8_t *image, size_t image_length, uint8_t *ram,
                                       size_t ram_length, uint8_t *pad, size_t pad_length);

/* The same over what a machine is lent. */
static inline struct fliskadee_answer fliskadee_save_lent(const struct fliskadee_lent *lent, uint8_t *space, size_t space_length)
{
    return fliskadee_save(lent->image, lent->image_length, lent->ram, lent->ram_length, lent->pad, lent->pad_length, space,
                          space_length);
}

static inline struct fliskadee_answer fliskadee_load_lent(const uint8_t *file, size_t file_length,
                                                          const struct fliskadee_lent *lent)
{
    return fliskadee_load(file, file_length, lent->image, lent->image_length, lent->ram, lent->ram_length, lent->pad,
                          lent->pad_length);
}

/* ---- Draw lists: whether words for the graphics unit are whole packets
 *
 * The top byte (bits 31..24) of a packet's first word says how many words the packet has, that word included:
 *
 *   20h  4    28h  5    30h  6    38h  8    40h  3    60h  3    68h  2    74h  3    7Ch  3
 *   24h  7    2Ch  9    34h  9    3Ch 12    50h  4    64h  4    70h  2    78h  2
 *   48h  a polyline: its first word, two or more points, and FLISKADEE_POLYLINE_END, which is never a point
 *
 * Every other byte is unknown. In the packets of a fixed number of words FLISKADEE_POLYLINE_END is a word like any other.
 *
 * Code 0: the whole list splits into packets, in one way only, and the number is how many they are; of an empty list 0. Codes 11 and
 * 12: it does not, and the number is the index of the word at which the first refused packet begins: the words before it split into
 * packets, and no packet begins there. Code 11 is for an unknown byte; code 12 for a known one, where the list ends inside the
 * packet, or a polyline has fewer than two points. The words are only read, in one pass, and the list may have any length. */
#define FLISKADEE_POLYLINE_END 0x55555555u
struct fliskadee_answer fliskadee_draw_list(const uint32_t *words, size_t words_length);

/* ---- The window: which part of the lent RAM, or of the lent pad, a virtual address and a length name
 *
 * The answer is 2^63 where the part is in the pad, plus the place of its first byte in that buffer times 2^32, plus its length. The
 * length is the one asked for, or 0. It is 0 exactly when the length asked for is 0, the length of RAM or of the pad is one that
 * fliskadee_run refuses, or the bytes of the range are neither all in RAM (through the segments 000, 100 or 101) nor all in the pad
 * (through 000 or 100). The place of an empty part is 0 in RAM, but for a length of 0 at an address in RAM or in the pad, where
 * it is that place. Neither buffer is read. */
#define FLISKADEE_WINDOW_IN_PAD(part) ((int)((part) >> 63))
#define FLISKADEE_WINDOW_PLACE(part) ((uint32_t)((part) >> 32 & 0x7FFFFFFF))
#define FLISKADEE_WINDOW_LENGTH(part) ((uint32_t)(part))
uint64_t fliskadee_window(const uint8_t *ram, size_t ram_length, const uint8_t *pad, size_t pad_length, uint32_t address,
                          uint64_t length);

/* The same as a pointer into RAM or the pad itself, with no copy: NULL where the part is empty. */
static inline uint8_t *fliskadee_window_bytes(uint8_t *ram, size_t ram_length, uint8_t *pad, size_t pad_length, uint32_t address,
                                              uint64_t length)
{
    uint64_t part = fliskadee_window(ram, ram_length, pad, pad_length, address, length);

    if (FLISKADEE_WINDOW_LENGTH(part) == 0)
        return NULL;
    return (FLISKADEE_WINDOW_IN_PAD(part) ? pad : ram) + FLISKADEE_WINDOW_PLACE(part);
}

#ifdef __cplusplus
}
#endif

#endif
