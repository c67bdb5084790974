/* Runs a fresh machine. Its RAM is zeros, and a word of zeros is an instruction that does nothing. */
#include <stdio.h>

#include "fliskadee.h"

static uint8_t image[FLISKADEE_IMAGE_BYTES];
static uint8_t ram[65536];
static uint8_t pad[FLISKADEE_PAD_BYTES];

int main(void)
{
    uint64_t answer;

    if (fliskadee_interface() != FLISKADEE_INTERFACE)
        return 2; /* the library is of another version than the header */
    fliskadee_fresh_image(image);
    answer = fliskadee_run(image, sizeof image, ram, sizeof ram, pad, sizeof pad, 1000);
    printf("code %u after %u steps, PC %08X\n", FLISKADEE_CODE(answer), (unsigned)FLISKADEE_STEPS(answer),
           (unsigned)fliskadee_get_word(image, FLISKADEE_WORD_PC));
    return FLISKADEE_CODE(answer) == FLISKADEE_DONE ? 0 : 1;
}
