/* The arguments of a command: options, and the files of its machines. Each of these complains where it answers false. */
#ifndef FLISKADEE_HOST_ARGUMENTS_H
#define FLISKADEE_HOST_ARGUMENTS_H

#include <stdbool.h>
#include <stddef.h>
#include <stdint.h>

#include "machine.h"

/* "--name", or "--name=VALUE". */
bool is_option(const char *argument, const char *name);

/* Takes the value of an option: after an equals sign, or as the next argument. */
bool take_option(const char *name, const char *what, const char **value, int count, char **arguments, int *i);

/* Takes the pad of the next of a command's machines. */
bool take_pad(const char **pads, int machines, int count, char **arguments, int *i);

/* Takes an argument that is no option; of those above `most` only the number. */
bool take_positional(const char *command, const char **positional, int most, int *taken, const char *argument);
bool have_positionals(const char *command, const char *usage, int least_count, int most, int taken);

/* A number, decimal or hex after 0x. */
bool parse_argument(const char *text, const char *what, uint64_t least_value, uint64_t most, uint64_t *value);

bool has_length(const char *path, const struct bytes *bytes, const char *what, size_t length);

/* The files that a machine was read from. */
struct source {
    const char *file; /* the image, or the saved machine */
    const char *ram;  /* NULL where it is saved */
    const char *pad;  /* NULL where it is saved, or zeros */
};

/* Reads the machines of a command, one or two: each is one file where that is a saved machine, and else two, an image and its RAM.
   There are at least as many files as machines, and at most twice as many. The pads are those of the machines that are not saved;
   where none are given, they are zeros. */
bool read_machines(const char *command, const char *const *files, int count, const char *const *pads, int wanted,
                   struct machine *machines, struct source *sources);

/* Reads a file that stands alone: a saved machine, or an image, which then has no RAM and no pad. */
bool read_alone(const char *path, struct machine *machine);

/* The image of such a file. */
bool read_image(const char *path, struct bytes *image);

#endif
