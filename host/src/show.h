/* Registers in words. */
#ifndef FLISKADEE_HOST_SHOW_H
#define FLISKADEE_HOST_SHOW_H

#include <stdint.h>
#include <stdio.h>

/* Every register of an image by name, with what its bits say. */
void show_image(FILE *out, const uint8_t *image);

/* One line for each bit of FLAG that is set; a line that says so when none is. */
void show_flag(FILE *out, uint32_t flag, const char *indent);

/* A bit of FLAG (12..31) in a word or two, and in a sentence. */
const char *flag_name(unsigned bit);
const char *flag_meaning(unsigned bit);

/* An exception by the code in CAUSE. */
const char *exception_name(unsigned code);

/* The registers that a GTE command, or a write of FLAG by CTC2, takes its result from. */
void show_inputs(FILE *out, const uint8_t *image, uint32_t instruction);

/* One word of an image with its decoded value, as in show_image, without a line end. */
void show_word(FILE *out, const uint8_t *image, unsigned word);

#endif
