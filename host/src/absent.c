/* Stands in for the library where only the tool's help is wanted (host/fliskadee), so that help does not wait for the proofs. Help
   calls none of these; were one called, it would say so and end the program. */
#include <stdio.h>
#include <stdlib.h>

#include "fliskadee.h"

static _Noreturn void end(void)
{
    fprintf(stderr, "fliskadee: this program was linked without the library and gives help only.\n");
    exit(2);
}

uint64_t fliskadee_run(uint8_t *image, size_t image_length, uint8_t *ram, size_t ram_length, uint8_t *pad, size_t pad_length,
                       uint64_t count)
{
    (void)image, (void)image_length, (void)ram, (void)ram_length, (void)pad, (void)pad_length, (void)count;
    end();
}

uint64_t fliskadee_find_flag(uint8_t *image, size_t image_length, uint8_t *ram, size_t ram_length, uint8_t *pad,
                             size_t pad_length, uint64_t count, uint32_t mask)
{
    (void)image, (void)image_length, (void)ram, (void)ram_length, (void)pad, (void)pad_length, (void)count, (void)mask;
    end();
}

struct fliskadee_answer fliskadee_causes(const uint8_t *image, size_t image_length, uint32_t command, uint32_t *words,
                                         size_t words_length)
{
    (void)image, (void)image_length, (void)command, (void)words, (void)words_length;
    end();
}

struct fliskadee_answer fliskadee_save(const uint8_t *image, size_t image_length, const uint8_t *ram, size_t ram_length,
                                       const uint8_t *pad, size_t pad_length, uint8_t *space, size_t space_length)
{
    (void)image, (void)image_length, (void)ram, (void)ram_length, (void)pad, (void)pad_length, (void)space, (void)space_length;
    end();
}

struct fliskadee_answer fliskadee_load(const uint8_t *file, size_t file_length, uint8_t *image, size_t image_length, uint8_t *ram,
                                       size_t ram_length, uint8_t *pad, size_t pad_length)
{
    (void)file, (void)file_length, (void)image, (void)image_length, (void)ram, (void)ram_length, (void)pad, (void)pad_length;
    end();
}

struct fliskadee_answer fliskadee_draw_list(const uint32_t *words, size_t words_length)
{
    (void)words, (void)words_length;
    end();
}

uint64_t fliskadee_window(const uint8_t *ram, size_t ram_length, const uint8_t *pad, size_t pad_length, uint32_t address,
                          uint64_t length)
{
    (void)ram, (void)ram_length, (void)pad, (void)pad_length, (void)address, (void)length;
    end();
}

uint32_t fliskadee_interface(void)
{
    end();
}
