/* Whole files in, whole files out. Where a path is read or written, "-" is standard input or output. */
#ifndef FLISKADEE_HOST_FILES_H
#define FLISKADEE_HOST_FILES_H

#include <stdbool.h>
#include <stddef.h>
#include <stdint.h>

struct bytes {
    uint8_t *data;
    size_t length;
};

/* To be called first: no file that is opened takes the place of a closed standard input, output or error, and a signal
   that ends the program removes the temporary files before it does. */
void start_files(void);

/* One sentence on stderr, after the program's name. */
void complain(const char *format, ...) __attribute__((format(printf, 1, 2)));

/* Whether a path is "-". */
bool is_standard(const char *path);

/* A path that is read, as it is told. */
const char *input_name(const char *path);

/* Reads a regular file of at most `most` bytes. Standard input may be anything, but is read only once in a program.
   On failure it complains and answers false. */
bool read_file(const char *path, size_t most, struct bytes *bytes);

/* A file to be written; it is not asked for if the path is NULL. */
struct output {
    const char *path;
    const struct bytes *bytes;
};

/* Writes at most 4 outputs, of which no two may be the same file. The files change together or not at all: each is
   written and synced beside its target, the old ones are kept until all are in place, and are put back if one
   cannot be. A link is followed, permissions stay, and only a regular file that is writable is replaced.
   Standard output is written when all files are in place; if that fails, they stay. On failure it complains and
   answers false. */
bool write_outputs(const struct output *outputs, size_t count);

/* Refuses, before the work is done, what write_outputs would refuse; the bytes are not looked at. If one of the outputs
   is standard output, what is printed from then on goes to standard error, so that it is not mixed with the file. */
bool check_outputs(const struct output *outputs, size_t count);

#endif
