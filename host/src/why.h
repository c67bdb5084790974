/* Why a GTE command sets bits of FLAG: the library's rows of causes in words. */
#ifndef FLISKADEE_HOST_WHY_H
#define FLISKADEE_HOST_WHY_H

#include <stddef.h>
#include <stdint.h>
#include <stdio.h>

#include "fliskadee.h"

struct causes {
    uint32_t command;
    size_t count; /* rows */
    uint32_t words[FLISKADEE_MOST_CAUSE_WORDS];
};

/* Asks the library for the causes of a command on an image of FLISKADEE_IMAGE_BYTES bytes. Answers its code; there are no rows
   unless that is FLISKADEE_DONE. */
unsigned find_causes(struct causes *causes, const uint8_t *image, uint32_t command);

/* A row, by its number from 0. */
static inline const uint32_t *cause_row(const struct causes *causes, size_t number)
{
    return causes->words + FLISKADEE_CAUSE_WORDS * number;
}

/* FLAG as one part of the command leaves it, 1 to 3, or as all of it does: 0. */
uint32_t causes_flag(const struct causes *causes, unsigned part);

/* What a part of a triple reads, as V1 or RGB1; NULL where the command is no triple. */
const char *part_name(uint32_t command, unsigned part);

/* The bits of FLAG that the command sets, as show_flag has them, and under each its causes: the line of 001, and what left its
   range. */
void show_causes(FILE *out, const struct causes *causes, const char *indent);

/* One cause in a line, without 001's text and without a line end. */
void show_cause(FILE *out, const struct causes *causes, size_t number);

#endif
