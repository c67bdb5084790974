/* A machine in three buffers, and the library's calls on it. */
#ifndef FLISKADEE_HOST_MACHINE_H
#define FLISKADEE_HOST_MACHINE_H

#include <stdbool.h>
#include <stdint.h>

#include "files.h"
#include "fliskadee.h"

enum { STATUS_FINE = 0, STATUS_FINDING = 1, STATUS_TROUBLE = 2 };

enum {
    PIECE = 1000000,          /* the most steps that the library takes in one call */
    FILE_MOST = 16 * 1048576  /* well over any good RAM or pad, so that the library gets to judge bad ones */
};

struct machine {
    struct bytes image;
    struct bytes ram;
    struct bytes pad;
};

/* The two memories of a machine, and a place in one of them. */
enum memory { MEMORY_RAM, MEMORY_PAD, MEMORIES };

struct place {
    enum memory memory;
    size_t offset; /* in bytes */
};

enum { PAD_BASE = 0x1F800000 }; /* the pad's physical address; that of RAM is 0 */

struct outcome {
    unsigned code;
    uint64_t steps;
};

/* Each complains where it fails, and answers false. Without a path the pad is zeros. */
bool read_machine(struct machine *machine, const char *image, const char *ram, const char *pad);
bool read_pad(const char *path, struct bytes *pad);
bool make_machine(struct machine *machine, size_t ram_length); /* of zeros, which are no good image */
bool copy_machine(struct machine *to, const struct machine *from);
void assign_machine(struct machine *to, const struct machine *from);
void free_machine(struct machine *machine);

/* Whether two machines whose buffers have the same lengths are equal. */
bool machines_equal(const struct machine *first, const struct machine *second);

static inline const struct bytes *memory_of(const struct machine *machine, enum memory memory)
{
    return memory == MEMORY_RAM ? &machine->ram : &machine->pad;
}

/* At most PIECE steps, by one call of the library. */
struct outcome run_piece(struct machine *machine, uint64_t count);
struct outcome find_piece(struct machine *machine, uint64_t count, uint32_t mask);

/* Whether the library ran the machine, and did not refuse it. */
bool was_run(struct outcome outcome);

/* The library's answer in words, and the status that goes with it; what is trouble goes to stderr. */
int print_answer(struct outcome outcome, const struct machine *machine);

/* A refusal of an image, a RAM or a pad in the same way: nothing was `done`, which is "run" or "written". */
int print_refusal(unsigned code, const struct machine *machine, const char *done);

/* The machine as one file, which has to be freed; there is one only with the code FLISKADEE_DONE. Where there is no memory, it
   complains and answers false. */
bool save_machine(const struct machine *machine, struct bytes *file, unsigned *code);

/* Loads the machine of such a file into one that make_machine made, and answers what the library answers. Of a RAM whose length it
   would refuse RAM_LEAST bytes are lent, so that it judges the file all the same. */
struct fliskadee_answer load_machine(struct machine *machine, const struct bytes *file);

/* Where the word at a virtual address is, if loads and stores reach one there. */
bool find_word(const struct machine *machine, uint32_t address, struct place *place);

/* The word at a virtual address, if it lies in RAM: nothing is fetched from the pad. */
bool fetch_word(const struct machine *machine, uint32_t address, uint32_t *word);
bool in_pad(const struct machine *machine, uint32_t address);

/* The instruction that the next step carries out, if its fetch is no exception. */
bool next_instruction(const struct machine *machine, uint32_t *word);

/* Where PC is, and what stands there: after a label, with a line end. */
void print_instruction(const struct machine *machine, const char *label);

/* On a terminal, how far a long command has come. */
struct progress {
    long start;
    bool shown;
};

void start_progress(struct progress *progress);
void show_progress(struct progress *progress, uint64_t done, uint64_t all);
void end_progress(const struct progress *progress);

/* The smaller of two counts. */
static inline uint64_t least(uint64_t a, uint64_t b)
{
    return a < b ? a : b;
}

#endif
