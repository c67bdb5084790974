/*
 * The model of saved machines (02, Ticket 3): a machine as one file, and back,
 * with the interfaces of the library's two calls.
 *
 * It reads the file field by field as the ticket lists them, each byte where it
 * stands; all that it takes from the model is whether an image is well formed.
 */
#ifndef SAVED_H
#define SAVED_H

#include "model.h"

/* Codes 1, 3, 6, 2 and 8, tested in this order, change nothing and have the number 0; that of code 0 is the bytes written. */
struct model_answer model_save_file(const uint8_t *image, size_t image_length, const uint8_t *ram, size_t ram_length,
                                    const uint8_t *pad, size_t pad_length, uint8_t *space, size_t space_length);

/* Codes 1, 3, 6, 7, 2 and 8, tested in this order, change nothing; the number is 0, but of code 7 the length of the longest
 * beginning that the file shares with some well-formed file. */
struct model_answer model_load_file(const uint8_t *file, size_t file_length, uint8_t *image, size_t image_length, uint8_t *ram,
                                    size_t ram_length, uint8_t *pad, size_t pad_length);

#endif
