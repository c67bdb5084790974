#define _POSIX_C_SOURCE 200809L

#include "machine.h"

#include <inttypes.h>
#include <stdio.h>
#include <stdlib.h>
#include <string.h>
#include <time.h>
#include <unistd.h>

#include "disassemble.h"
#include "fliskadee.h"
#include "image.h"

/* ---- Progress ---- */

void start_progress(struct progress *progress)
{
    progress->start = (long)time(NULL);
    progress->shown = false;
}

void show_progress(struct progress *progress, uint64_t done, uint64_t all)
{
    if (!isatty(STDERR_FILENO) || (long)time(NULL) - progress->start < 1)
        return;
    fprintf(stderr, "\r%" PRIu64 " of %" PRIu64 " steps", done, all);
    fflush(stderr);
    progress->shown = true;
}

void end_progress(const struct progress *progress)
{
    if (progress->shown)
        fprintf(stderr, "\r\033[K");
}

/* ---- Machines ---- */

void free_machine(struct machine *machine)
{
    free(machine->image.data);
    free(machine->ram.data);
    free(machine->pad.data);
    memset(machine, 0, sizeof *machine);
}

static bool copy_bytes(struct bytes *to, const struct bytes *from)
{
    to->data = malloc(from->length + 1);
    to->length = from->length;
    if (to->data == NULL) {
        complain("there is not enough memory.");
        return false;
    }
    memcpy(to->data, from->data, from->length);
    return true;
}

bool read_pad(const char *path, struct bytes *pad)
{
    static uint8_t zeros[FLISKADEE_PAD_BYTES];
    const struct bytes none = {zeros, sizeof zeros};
    return path == NULL ? copy_bytes(pad, &none) : read_file(path, FILE_MOST, pad);
}

bool read_machine(struct machine *machine, const char *image, const char *ram, const char *pad)
{
    memset(machine, 0, sizeof *machine);
    if (read_file(image, FILE_MOST, &machine->image) && read_file(ram, FILE_MOST, &machine->ram)
        && read_pad(pad, &machine->pad))
        return true;
    free_machine(machine);
    return false;
}

static bool make_bytes(struct bytes *bytes, size_t length)
{
    bytes->data = calloc(length, 1);
    bytes->length = length;
    if (bytes->data == NULL)
        complain("there is not enough memory.");
    return bytes->data != NULL;
}

bool make_machine(struct machine *machine, size_t ram_length)
{
    memset(machine, 0, sizeof *machine);
    if (make_bytes(&machine->image, FLISKADEE_IMAGE_BYTES) && make_bytes(&machine->ram, ram_length + RAM_LEAST)
        && make_bytes(&machine->pad, FLISKADEE_PAD_BYTES)) {
        machine->ram.length = ram_length; /* the rest may be lent where this length may not */
        return true;
    }
    free_machine(machine);
    return false;
}

bool copy_machine(struct machine *to, const struct machine *from)
{
    memset(to, 0, sizeof *to);
    if (copy_bytes(&to->image, &from->image) && copy_bytes(&to->ram, &from->ram) && copy_bytes(&to->pad, &from->pad))
        return true;
    free_machine(to);
    return false;
}

void assign_machine(struct machine *to, const struct machine *from)
{
    memcpy(to->image.data, from->image.data, from->image.length);
    memcpy(to->ram.data, from->ram.data, from->ram.length);
    memcpy(to->pad.data, from->pad.data, from->pad.length);
}

bool machines_equal(const struct machine *first, const struct machine *second)
{
    return memcmp(first->image.data, second->image.data, first->image.length) == 0
           && memcmp(first->ram.data, second->ram.data, first->ram.length) == 0
           && memcmp(first->pad.data, second->pad.data, first->pad.length) == 0;
}

static struct fliskadee_lent lend(const struct machine *machine)
{
    return (struct fliskadee_lent){machine->image.data, machine->image.length, machine->ram.data,
                                   machine->ram.length, machine->pad.data,     machine->pad.length};
}

static struct outcome outcome_of(uint64_t answer)
{
    return (struct outcome){FLISKADEE_CODE(answer), FLISKADEE_STEPS(answer)};
}

struct outcome run_piece(struct machine *machine, uint64_t count)
{
    struct fliskadee_lent lent = lend(machine);
    return outcome_of(fliskadee_run_lent(&lent, count));
}

struct outcome find_piece(struct machine *machine, uint64_t count, uint32_t mask)
{
    struct fliskadee_lent lent = lend(machine);
    return outcome_of(fliskadee_find_flag_lent(&lent, count, mask));
}

bool save_machine(const struct machine *machine, struct bytes *file, unsigned *code)
{
    struct fliskadee_lent lent = lend(machine);
    if (!make_bytes(file, fliskadee_saved_bytes(machine->ram.length)))
        return false;
    struct fliskadee_answer answer = fliskadee_save_lent(&lent, file->data, file->length);
    *code = (unsigned)answer.code;
    file->length = (size_t)answer.number;
    if (answer.code == FLISKADEE_DONE)
        return true;
    free(file->data);
    file->data = NULL;
    return true;
}

struct fliskadee_answer load_machine(struct machine *machine, const struct bytes *file)
{
    struct fliskadee_lent lent = lend(machine);
    if (!is_ram_length(lent.ram_length))
        lent.ram_length = RAM_LEAST;
    return fliskadee_load_lent(file->data, file->length, &lent);
}

/* ---- Memory ---- */

bool find_word(const struct machine *machine, uint32_t address, struct place *place)
{
    uint64_t part = fliskadee_window(machine->ram.data, machine->ram.length, machine->pad.data, machine->pad.length, address, 4);
    place->memory = FLISKADEE_WINDOW_IN_PAD(part) ? MEMORY_PAD : MEMORY_RAM;
    place->offset = FLISKADEE_WINDOW_PLACE(part);
    return FLISKADEE_WINDOW_LENGTH(part) != 0;
}

bool fetch_word(const struct machine *machine, uint32_t address, uint32_t *word)
{
    struct place place;
    if (!find_word(machine, address, &place) || place.memory != MEMORY_RAM)
        return false;
    *word = fliskadee_get_word(machine->ram.data + place.offset, 0);
    return true;
}

bool in_pad(const struct machine *machine, uint32_t address)
{
    struct place place;
    return find_word(machine, address, &place) && place.memory == MEMORY_PAD;
}

bool next_instruction(const struct machine *machine, uint32_t *word)
{
    uint32_t pc = fliskadee_get_word(machine->image.data, FLISKADEE_WORD_PC);
    bool user = (fliskadee_get_word(machine->image.data, FLISKADEE_WORD_SR) >> 1 & 1) != 0;
    return pc % 4 == 0 && !(user && pc >> 31 != 0) && fetch_word(machine, pc, word);
}

void print_instruction(const struct machine *machine, const char *label)
{
    uint32_t pc = fliskadee_get_word(machine->image.data, FLISKADEE_WORD_PC);
    uint32_t word;
    char text[128];
    if (!fetch_word(machine, pc, &word))
        return;
    disassemble(word, pc, text, sizeof text);
    printf("%s%08X  %08X  %s\n", label, (unsigned)pc, (unsigned)word, text);
}

int print_refusal(unsigned code, const struct machine *machine, const char *done)
{
    switch (code) {
    case FLISKADEE_REFUSED_IMAGE_LENGTH:
        complain("code 1: refused, the image has %zu bytes in place of %d; nothing was %s.", machine->image.length,
                 FLISKADEE_IMAGE_BYTES, done);
        return STATUS_TROUBLE;
    case FLISKADEE_REFUSED_IMAGE_FORM:
        printf("Code 2: refused, the image is not well formed (the command check says why). Nothing was %s.\n", done);
        return STATUS_FINDING;
    case FLISKADEE_REFUSED_RAM_LENGTH:
        complain("code 3: refused, the RAM has %zu bytes in place of a multiple of 4 from %d to %d; nothing was %s.",
                 machine->ram.length, RAM_LEAST, FLISKADEE_MOST_RAM, done);
        return STATUS_TROUBLE;
    case FLISKADEE_REFUSED_PAD_LENGTH:
        complain("code 6: refused, the pad has %zu bytes in place of %d; nothing was %s.", machine->pad.length,
                 FLISKADEE_PAD_BYTES, done);
        return STATUS_TROUBLE;
    default:
        complain("code %u: the library's answer is not one that this tool knows.", code);
        return STATUS_TROUBLE;
    }
}

int print_answer(struct outcome outcome, const struct machine *machine)
{
    switch (outcome.code) {
    case FLISKADEE_DONE:
        printf("Code 0: all steps done, %" PRIu64 " of them.\n", outcome.steps);
        return STATUS_FINE;
    case FLISKADEE_REFUSED_COUNT: complain("code 4: refused, the step count is too large; nothing was run."); return STATUS_TROUBLE;
    case FLISKADEE_UNLISTED:
        printf("Code 5: stopped after %" PRIu64 " steps, just before an unknown GTE command.\n", outcome.steps);
        print_instruction(machine, "  at ");
        return STATUS_FINDING;
    default: return print_refusal(outcome.code, machine, "run");
    }
}

bool was_run(struct outcome outcome)
{
    return outcome.code == FLISKADEE_DONE || outcome.code == FLISKADEE_UNLISTED;
}

