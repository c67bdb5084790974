/* Commands that follow machines step by step: which step set a flag, and where two machines part. */
#ifndef FLISKADEE_HOST_FOLLOW_H
#define FLISKADEE_HOST_FOLLOW_H

#include <stdbool.h>
#include <stdint.h>

#include "machine.h"

/* A GTE command, listed or not; CTC2 to register 63, which is FLAG. */
bool is_command(uint32_t word);
bool is_flag_move(uint32_t word);

/* Whether the GTE is usable by SR; else each of its instructions takes CpU. */
bool gte_usable(const uint8_t *image);

/* Whether the next step writes FLAG: it carries out a listed GTE command, or CTC2 to register 63. */
bool writes_flag(const struct machine *machine, uint32_t *word);

/* The step from `before` to `after` was an exception. */
bool took_exception(const uint8_t *before, const uint8_t *after);

/* A line for each step that writes FLAG, of at most count steps, and under it the causes of a GTE command. bit: those alone that
   leave this bit set, or -1 for all. */
int follow_flags(struct machine *machine, uint64_t count, int bit, bool last_alone);

/* How two machines differ: the registers; RAM and the pad. Answers how many words do. */
uint64_t compare_images(const uint8_t *first, const uint8_t *second);
uint64_t compare_memories(const struct machine machines[2]);

struct part_options {
    bool flag_alone; /* FLAG alone is compared */
    bool coarse;     /* pieces of PIECE steps are compared at their ends first */
};

/* Two machines in lockstep for at most count steps: where something that was equal first differs. */
int follow_parting(struct machine machines[2], uint64_t count, struct part_options options);

#endif
