/* The machine image: 108 little-endian words, their names, and when they are well formed. */
#ifndef FLISKADEE_HOST_IMAGE_H
#define FLISKADEE_HOST_IMAGE_H

#include <stdbool.h>
#include <stddef.h>
#include <stdint.h>

#include "fliskadee.h"

enum { RAM_LEAST = 4 }; /* the shortest RAM that the library runs */

/* Whether the library runs a RAM of so many bytes. */
static inline bool is_ram_length(size_t length)
{
    return length % 4 == 0 && length >= RAM_LEAST && length <= FLISKADEE_MOST_RAM;
}

enum cop2_kind {
    KIND_SIGNED, /* 32 bits */
    KIND_FIXED,        /* 32 bits, 16 of them fraction */
    KIND_SIGNED_HALF,  /* 16 bits, read sign-extended */
    KIND_PLANE,        /* as SIGNED_HALF, but unsigned in calculation (H) */
    KIND_UNSIGNED_HALF,
    KIND_PAIR,         /* two signed halves, each with its name */
    KIND_COLOUR,       /* code, blue, green, red: a byte each */
    KIND_PACKED,       /* red, green, blue: five bits each */
    KIND_FLAG
};

struct cop2_register {
    enum cop2_kind kind;
    const char *low;   /* for a pair, the name of bits 15..0 */
    const char *high;  /* and of bits 31..16 */
};

extern const struct cop2_register cop2_registers[64];

static inline uint32_t cop2_at(const uint8_t *image, unsigned number)
{
    return fliskadee_get_word(image, FLISKADEE_WORD_COP2 + number);
}

static inline int32_t low_half(uint32_t word)
{
    return (int32_t)((word & 0xFFFF) ^ 0x8000) - 0x8000;
}

static inline int32_t high_half(uint32_t word)
{
    return low_half(word >> 16);
}

/* FLAG as it reads after these bits were set: bits 30..12 of them, and bit 31 by its rule. */
uint32_t flag_read(uint32_t word);

/* The name by which a word of the image is printed. */
const char *word_name(unsigned word);

/* Tells of each word that is not well formed, and why. Answers how many there are. */
typedef void tell_word(void *context, unsigned word, const char *why);
unsigned check_image(const uint8_t *image, tell_word *tell, void *context);

/* Sets a register, or a half of one, by name. On refusal the answer is false and why holds a sentence. */
bool set_by_name(uint8_t *image, const char *name, const char *value, char *why, size_t why_size);

/* Works out the registers that follow others (SXYP, IRGB, ORGB, LZCR, bit 31 of FLAG). */
void settle_image(uint8_t *image);

/* A number in decimal, or in hex after 0x; nothing else may stand in the text. */
bool parse_number(const char *text, uint64_t *number);

#endif
