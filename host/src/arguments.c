#include "arguments.h"

#include <inttypes.h>
#include <stdlib.h>
#include <string.h>

#include "fliskadee.h"
#include "image.h"
#include "saved_file.h"

/* ---- Options ---- */

bool is_option(const char *argument, const char *name)
{
    size_t length = strlen(name);
    return strncmp(argument, name, length) == 0 && (argument[length] == '\0' || argument[length] == '=');
}

bool take_option(const char *name, const char *what, const char **value, int count, char **arguments, int *i)
{
    const char *equals = strchr(arguments[*i], '=');
    if (*value != NULL) {
        complain("%s is given twice.", name);
        return false;
    }
    if (equals == NULL && *i + 1 >= count) {
        complain("%s needs %s after it.", name, what);
        return false;
    }
    *value = equals != NULL ? equals + 1 : arguments[++*i];
    return true;
}

bool take_pad(const char **pads, int machines, int count, char **arguments, int *i)
{
    int taken = 0;
    while (taken < machines && pads[taken] != NULL)
        taken++;
    if (taken < machines)
        return take_option("--pad", "a file name", &pads[taken], count, arguments, i);
    complain("--pad is given more than %s.", machines == 1 ? "once" : "twice");
    return false;
}

bool take_positional(const char *command, const char **positional, int most, int *taken, const char *argument)
{
    if (strncmp(argument, "--", 2) == 0) {
        complain("%s has no option %s.", command, argument);
        return false;
    }
    if (*taken < most)
        positional[*taken] = argument;
    ++*taken;
    return true;
}

bool have_positionals(const char *command, const char *usage, int least_count, int most, int taken)
{
    if (taken >= least_count && taken <= most)
        return true;
    complain("%s takes %s, but %d argument%s given; see fliskadee %s --help.", command, usage, taken, taken == 1 ? " is" : "s are",
             command);
    return false;
}

bool parse_argument(const char *text, const char *what, uint64_t least_value, uint64_t most, uint64_t *value)
{
    if (parse_number(text, value) && *value >= least_value && *value <= most)
        return true;
    complain("%s must be a number from %" PRIu64 " to %" PRIu64 " (decimal, or hex after 0x), not \"%s\".", what,
             least_value, most, text);
    return false;
}

bool has_length(const char *path, const struct bytes *bytes, const char *what, size_t length)
{
    if (bytes->length == length)
        return true;
    complain("%s has %zu bytes; %s has %zu.", input_name(path), bytes->length, what, length);
    return false;
}

/* ---- Machines ---- */

/* What is left of a command's files, and of its machines. */
struct files {
    const char *command;
    const char *const *next;
    int left;
    int machines;
};

/* Whether those that are left after this file, or after it and its RAM, are enough for the other machines and not too many. */
static bool files_suffice(struct files *files, bool saved)
{
    const char *file = input_name(files->next[0]);
    files->machines--;
    files->left -= saved ? 1 : 2;
    if (files->left < files->machines)
        complain("%s is not a saved machine, and for an image and its RAM there is a file too few; see fliskadee %s --help.", file,
                 files->command);
    else if (files->left > 2 * files->machines)
        complain("%s is a saved machine, which has its own RAM, so there is a file too many; see fliskadee %s --help.", file,
                 files->command);
    else
        return true;
    return false;
}

/* All but the pad of one that is not saved. */
static bool read_next(struct files *files, struct machine *machine, struct source *source)
{
    struct bytes file;
    unsigned code;
    if (!read_file(files->next[0], FILE_MOST, &file))
        return false;
    bool saved = begins_saved(&file);
    bool good = files_suffice(files, saved);
    if (good) {
        *source = (struct source){files->next[0], saved ? NULL : files->next[1], NULL};
        files->next += saved ? 1 : 2;
    }
    if (good && saved)
        good = load_saved(source->file, &file, machine, &code);
    if (!good || saved) {
        free(file.data);
        return good;
    }
    machine->image = file;
    return read_file(source->ram, FILE_MOST, &machine->ram);
}

/* Gives the pads to the machines that are not saved. */
static bool share_pads(const char *command, const char *const *pads, int wanted, struct source *sources)
{
    const char *saved = NULL;
    int given = 0;
    int shared = 0;
    while (given < wanted && pads[given] != NULL)
        given++;
    for (int i = 0; i < wanted; i++) {
        if (sources[i].ram == NULL)
            saved = sources[i].file;
        else if (shared < given)
            sources[i].pad = pads[shared++];
    }
    if (shared < given) {
        complain("%s is a saved machine, which has its own pad: --pad is for an image and its RAM.", input_name(saved));
        return false;
    }
    /* Where there are two images, one pad alone could be that of either. */
    if (given == 1 && wanted == 2 && saved == NULL) {
        complain("%s has two machines: give --pad twice, first for the first and then for the second, or not at all.", command);
        return false;
    }
    return true;
}

bool read_machines(const char *command, const char *const *files, int count, const char *const *pads, int wanted,
                   struct machine *machines, struct source *sources)
{
    struct files rest = {command, files, count, wanted};
    bool good = true;
    memset(machines, 0, (size_t)wanted * sizeof *machines);
    for (int i = 0; good && i < wanted; i++)
        good = read_next(&rest, &machines[i], &sources[i]);
    good = good && share_pads(command, pads, wanted, sources);
    for (int i = 0; good && i < wanted; i++)
        good = sources[i].ram == NULL || read_pad(sources[i].pad, &machines[i].pad);
    for (int i = 0; !good && i < wanted; i++)
        free_machine(&machines[i]);
    return good;
}

bool read_alone(const char *path, struct machine *machine)
{
    struct bytes file;
    unsigned code;
    memset(machine, 0, sizeof *machine);
    if (!read_file(path, FILE_MOST, &file))
        return false;
    bool saved = begins_saved(&file);
    bool good = saved ? load_saved(path, &file, machine, &code) : has_length(path, &file, "an image", FLISKADEE_IMAGE_BYTES);
    if (good && !saved)
        machine->image = file;
    else
        free(file.data);
    return good;
}

bool read_image(const char *path, struct bytes *image)
{
    struct machine machine;
    if (!read_alone(path, &machine))
        return false;
    *image = machine.image;
    machine.image.data = NULL;
    free_machine(&machine);
    return true;
}
