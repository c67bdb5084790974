/* Saved machines as files: where a malformed one goes wrong, in words, and the machine of a well-formed one. */
#ifndef FLISKADEE_HOST_SAVED_FILE_H
#define FLISKADEE_HOST_SAVED_FILE_H

#include <stdbool.h>
#include <stddef.h>

#include "files.h"
#include "machine.h"

/* How a file reads as a saved machine. Where it is malformed, `words` say it as in "It %s.". */
struct saved_form {
    bool malformed;
    size_t place; /* of the first byte that cannot stand there, or the file's length where it ends too early */
    char words[256];
    size_t ram;   /* bytes, of a well-formed one */
    size_t blocks;
};

/* Whether a file begins with the head of a saved machine. No well-formed image does, as its first byte is 0. */
bool begins_saved(const struct bytes *file);

/* Reads a file and asks the library for its code: 0; 7 where it is malformed; 2 where its image is not well formed; 8 where its
   RAM has a length that no machine is run with. The machine is there, and has to be freed, with every code but 7. Where there is no
   memory, or where this tool and the library disagree, it complains and answers false. */
bool open_saved(const struct bytes *file, struct saved_form *form, struct machine *machine, unsigned *code);

/* The same, but a malformed file is complained about as well. */
bool load_saved(const char *path, const struct bytes *file, struct machine *machine, unsigned *code);

#endif
