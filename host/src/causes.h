/*
 * The model of the call that tells why bits of FLAG are set (02, Ticket 5),
 * with the interface of the library's.
 *
 * Its rows are worked out from 001's formulas line by line, apart from
 * model_command; so the bits that model_command leaves in FLAG have to be
 * those of the rows.
 */
#ifndef CAUSES_H
#define CAUSES_H

#include "model.h"

#define MODEL_CAUSE_WORDS 5 /* bit, part, line, and the low and high word of the value, or H and SZ3 */
#define MODEL_MOST_CAUSES 63 /* of any command; NCDT comes to 21 in each part */

/* Codes 1, 2, 5 and 8, tested in this order, write nothing; the number is 0, but of code 8 that of the words needed. */
struct model_answer model_causes(const uint8_t *image, size_t image_length, uint32_t command, uint32_t *words,
                                 size_t words_length);

#endif
