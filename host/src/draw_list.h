/*
 * The model of the check of draw lists (02, Ticket 10), with the interface of
 * the library's call.
 *
 * It reads a list word by word and keeps what the next word is; nothing is
 * looked at twice or ahead.
 */
#ifndef DRAW_LIST_H
#define DRAW_LIST_H

#include "model.h"

#define MODEL_POLYLINE 0x48 /* its top byte */
#define MODEL_POLYLINE_END 0x55555555u

/* The words of a packet by its first word: 0 for a polyline, which has 4 or more, and where the top byte is unknown. */
unsigned model_packet_words(uint32_t first);

/* Code 0 has the number of packets; 11 and 12 have the index of the word at which the first refused packet begins. */
struct model_answer model_draw_list(const uint32_t *words, size_t words_length);

#endif
