/*
 * An independent model of the machine of paper 01, in plain C.
 *
 * It is written from the papers alone and shares no code with the library, so
 * that the two can be compared. model_run, model_find_flag and model_window
 * have the interfaces of the library's calls (those of the others are in
 * causes.h, saved.h and draw_list.h); the calls below them run the same machine one
 * step at a time.
 */
#ifndef MODEL_H
#define MODEL_H

#include <stdbool.h>
#include <stddef.h>
#include <stdint.h>

#define MODEL_IMAGE_WORDS 108
#define MODEL_IMAGE_BYTES 432
#define MODEL_RAM_MAXIMUM 2097152
#define MODEL_PAD_BYTES 1024
#define MODEL_COUNT_MAXIMUM 1000000
#define MODEL_CODE_UNIT 1048576

/* 01, The run and its numbers, and 02: the codes of an answer. */
enum model_code {
    MODEL_DONE = 0,
    MODEL_IMAGE_LENGTH = 1,
    MODEL_IMAGE_FORM = 2,
    MODEL_RAM_LENGTH = 3,
    MODEL_COUNT = 4,
    MODEL_UNLISTED = 5,
    MODEL_PAD_LENGTH = 6,
    MODEL_FILE = 7, /* of model_load_file (saved.h) alone */
    MODEL_SPACE = 8, /* of causes.h and saved.h alone */
    MODEL_PACKET_BYTE = 11, /* this one and the next of draw_list.h alone */
    MODEL_PACKET_SHORT = 12,
    MODEL_FLAG_UP = 16 /* of model_find_flag alone */
};

/* Code and number apart, as the calls of causes.h, saved.h and draw_list.h answer them. */
struct model_answer {
    uint64_t code, number;
};

/* Answers code * 1048576 + steps completed. */
uint64_t model_run(uint8_t *image, size_t image_length, uint8_t *ram, size_t ram_length, uint8_t *pad, size_t pad_length,
                   uint64_t count);

/* The run, ended after the first step that leaves a bit of mask set in FLAG where none was set before it. */
uint64_t model_find_flag(uint8_t *image, size_t image_length, uint8_t *ram, size_t ram_length, uint8_t *pad,
                         size_t pad_length, uint64_t count, uint32_t mask);

/*
 * The window: the part of RAM, or of the pad, that an address and a length name, as place * 2^32 + length, with 2^63
 * added in the pad. The length is 0 when the part is empty; the whole is then 0, but for length 0 at an address in RAM
 * or in the pad it is that address's place.
 */
uint64_t model_window(const uint8_t *ram, size_t ram_length, const uint8_t *pad, size_t pad_length, uint32_t address,
                      uint64_t length);

/* 01, The machine image: words 0..107 as fields. */
struct model {
    uint32_t general[32];
    uint32_t hi, lo;
    uint32_t pc, next_pc;
    uint32_t load_register; /* register awaiting a load, 0 = none */
    uint32_t load_value;
    uint32_t delay_slot; /* 1 in a delay slot, else 0 */
    uint32_t sr, cause, epc, badv;
    uint32_t cop2[64]; /* as stored; 15, 28, 29 and 31 are worked out on reading */
};

/* What one step came to: an exception code of 002, or one of the two below. */
enum model_outcome {
    MODEL_ADEL = 4,
    MODEL_ADES = 5,
    MODEL_IBE = 6,
    MODEL_DBE = 7,
    MODEL_SYSCALL = 8,
    MODEL_BREAK = 9,
    MODEL_RI = 10,
    MODEL_CPU = 11,
    MODEL_OVERFLOW = 12,
    MODEL_NO_EXCEPTION = 32,
    MODEL_STOP = 33 /* an unlisted GTE command: nothing was changed */
};

/* Reads the image; false when it is not well formed. */
bool model_load(struct model *machine, const uint8_t image[MODEL_IMAGE_BYTES]);
void model_store(const struct model *machine, uint8_t image[MODEL_IMAGE_BYTES]);

/* The memories that a machine is lent: RAM of a length that code 3 does not refuse, and a pad of MODEL_PAD_BYTES. */
struct model_memory {
    uint8_t *ram;
    size_t ram_length;
    uint8_t *pad;
};

enum model_outcome model_step(struct model *machine, const struct model_memory *memory);

uint32_t model_cop2_read(const struct model *machine, unsigned number);
void model_cop2_write(struct model *machine, unsigned number, uint32_t word);

/* Carries out a GTE command; false, with nothing changed, when its low six bits are unlisted. */
bool model_command(struct model *machine, uint32_t word);

/* 02, Ticket 2: the perspective quotient, for H and SZ3 of 16 bits; *overflow says whether bit 17 is set. */
uint32_t model_quotient(uint32_t h, uint32_t sz3, bool *overflow);

#endif
