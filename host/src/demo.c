/* A short use of the library: put a triangle through the GTE and read the screen points back.

   The program in RAM loads three vertices from memory, projects them with RTPT and stores the three screen points.
   It is run twice: once with all vertices in front of the viewer, once with one of them too near. With --save FOLDER the
   two machines are written there before they run, as files for the command-line tool: image, RAM and pad, and the three as one
   saved machine. The scratch pad is lent as zeros, and the program leaves it alone. */
#define _POSIX_C_SOURCE 200809L

#include <inttypes.h>
#include <stdbool.h>
#include <stdio.h>
#include <string.h>

#include "disassemble.h"
#include "files.h"
#include "fliskadee.h"
#include "image.h"
#include "show.h"

/* Places in RAM. */
enum { RAM_LENGTH = 65536, PROGRAM = 0x1000, VERTICES = 0x2000, POINTS = 0x3000 };
#define KERNEL 0x80000000u      /* virtual addresses 80000000h.. name the same RAM as 0.. */
#define SR_GTE_USABLE (1u << 30)

/* Registers of the program. */
enum { A0 = 4, A1 = 5 };

/* Instructions, each with its fields. */
#define LUI(rt, high) (0x3C000000u | (uint32_t)(rt) << 16 | (high))
#define ORI(rt, rs, low) (0x34000000u | (uint32_t)(rs) << 21 | (uint32_t)(rt) << 16 | (low))
#define LWC2(register, offset, base) (0xC8000000u | (uint32_t)(base) << 21 | (uint32_t)(register) << 16 | (offset))
#define SWC2(register, offset, base) (0xE8000000u | (uint32_t)(base) << 21 | (uint32_t)(register) << 16 | (offset))
#define RTPT 0x4A280030u        /* project V0, V1 and V2; the twelve-bit shift (sf) is set */
#define SPIN 0x1000FFFFu        /* branch to itself: BEQ r0, r0, -1 */
#define NOP 0u

static const uint32_t program[] = {
    LUI(A0, (KERNEL | VERTICES) >> 16),
    ORI(A0, A0, VERTICES & 0xFFFF),
    LUI(A1, (KERNEL | POINTS) >> 16),
    ORI(A1, A1, POINTS & 0xFFFF),
    LWC2(0, 0, A0),             /* VX0 and VY0 */
    LWC2(1, 4, A0),             /* VZ0 */
    LWC2(2, 8, A0),
    LWC2(3, 12, A0),
    LWC2(4, 16, A0),
    LWC2(5, 20, A0),
    RTPT,
    SWC2(12, 0, A1),            /* the screen point of V0 */
    SWC2(13, 4, A1),
    SWC2(14, 8, A1),
    SPIN,
    NOP,                        /* the branch's delay slot */
};
enum { PROGRAM_WORDS = sizeof program / sizeof program[0] };

static void put_cop2(uint8_t *image, unsigned number, uint32_t value)
{
    fliskadee_set_word(image, FLISKADEE_WORD_COP2 + number, value);
}

static void put_machine(uint8_t *image, uint8_t *ram, const int16_t triangle[3][3])
{
    fliskadee_fresh_image(image);
    memset(ram, 0, RAM_LENGTH);
    fliskadee_set_word(image, FLISKADEE_WORD_PC, KERNEL | PROGRAM);
    fliskadee_set_word(image, FLISKADEE_WORD_NEXT_PC, (KERNEL | PROGRAM) + 4);
    fliskadee_set_word(image, FLISKADEE_WORD_SR, SR_GTE_USABLE);
    put_cop2(image, FLISKADEE_COP2_RT, 0x1000);     /* the unit matrix; 1000h is one: RT11, */
    put_cop2(image, FLISKADEE_COP2_RT + 2, 0x1000); /* RT22 */
    put_cop2(image, FLISKADEE_COP2_RT + 4, 0x1000); /* and RT33 */
    put_cop2(image, FLISKADEE_COP2_OFX, 160 * 65536); /* the screen's middle */
    put_cop2(image, FLISKADEE_COP2_OFY, 120 * 65536);
    put_cop2(image, FLISKADEE_COP2_H, 200); /* distance of the projection plane */
    for (size_t i = 0; i < PROGRAM_WORDS; i++)
        fliskadee_set_word(ram, PROGRAM / 4 + i, program[i]);
    for (size_t i = 0; i < 3; i++) {
        uint32_t xy = (uint16_t)triangle[i][0] | (uint32_t)(uint16_t)triangle[i][1] << 16;
        fliskadee_set_word(ram, VERTICES / 4 + 2 * i, xy);
        fliskadee_set_word(ram, VERTICES / 4 + 2 * i + 1, (uint16_t)triangle[i][2]);
    }
}

/* Writes the machine to FOLDER/NAME.image, FOLDER/NAME.ram, FOLDER/NAME.pad and FOLDER/NAME.saved, for the command-line tool. */
static bool save_machine(const char *folder, const char *name, const struct fliskadee_lent *lent)
{
    enum { FILES = 4 };
    static const char *const endings[FILES] = {"image", "ram", "pad", "saved"};
    static uint8_t saved[FLISKADEE_MOST_SAVED_BYTES];
    struct fliskadee_answer answer = fliskadee_save_lent(lent, saved, sizeof saved);
    const struct bytes bytes[FILES] = {{lent->image, lent->image_length},
                                       {lent->ram, lent->ram_length},
                                       {lent->pad, lent->pad_length},
                                       {saved, (size_t)answer.number}};
    char paths[FILES][4096];
    struct output outputs[FILES];
    for (size_t i = 0; i < FILES; i++) {
        snprintf(paths[i], sizeof paths[i], "%s/%s.%s", folder, name, endings[i]);
        outputs[i] = (struct output){paths[i], &bytes[i]};
    }
    return answer.code == FLISKADEE_DONE && write_outputs(outputs, FILES);
}

static void print_registers(const uint8_t *image)
{
    printf("PC %08" PRIX32 "; GTE registers that are not 0:\n", fliskadee_get_word(image, FLISKADEE_WORD_PC));
    for (unsigned i = 0, column = 0; i < 64; i++)
        if (cop2_at(image, i) != 0)
            printf("  %-8s %08" PRIX32 "%s", cop2_register_name(i), cop2_at(image, i), ++column % 4 == 0 ? "\n" : "");
    printf("\nFLAG\n");
    show_flag(stdout, cop2_at(image, FLISKADEE_COP2_FLAG), "  ");
}

static bool show_case(const char *title, const int16_t triangle[3][3], const char *folder, const char *name)
{
    static uint8_t image[FLISKADEE_IMAGE_BYTES];
    static uint8_t ram[RAM_LENGTH];
    static uint8_t pad[FLISKADEE_PAD_BYTES];
    const struct fliskadee_lent lent = {image, sizeof image, ram, sizeof ram, pad, sizeof pad};
    printf("%s\n", title);
    put_machine(image, ram, triangle);
    if (folder != NULL && !save_machine(folder, name, &lent))
        return false;
    uint64_t answer = fliskadee_run_lent(&lent, PROGRAM_WORDS);
    printf("The run answers code %u after %u steps.\n", FLISKADEE_CODE(answer), (unsigned)FLISKADEE_STEPS(answer));
    if (FLISKADEE_CODE(answer) != FLISKADEE_DONE)
        return false;
    print_registers(image);

    /* The points that the program stored, in RAM itself. */
    const uint8_t *points = fliskadee_window_bytes(ram, sizeof ram, pad, sizeof pad, KERNEL | POINTS, 12);
    if (points == NULL)
        return false;
    for (size_t i = 0; i < 3; i++) {
        uint32_t point = fliskadee_get_word(points, i);
        printf("V%zu (%d, %d, %d) is at screen point (%d, %d)\n", i, triangle[i][0], triangle[i][1], triangle[i][2],
               (int16_t)(uint16_t)point, (int16_t)(uint16_t)(point >> 16));
    }
    printf("\n");
    return true;
}

int main(int count, char **arguments)
{
    static const int16_t clear[3][3] = {{100, -50, 1000}, {-100, -50, 1000}, {0, 80, 600}};
    static const int16_t near[3][3] = {{100, -50, 1000}, {-100, -50, 1000}, {100, -50, 100}};
    const char *folder = count == 3 && strcmp(arguments[1], "--save") == 0 ? arguments[2] : NULL;
    if (count != 1 && folder == NULL) {
        fprintf(stderr, "usage: demo [--save FOLDER]\n");
        return 2;
    }
    if (fliskadee_interface() != FLISKADEE_INTERFACE) {
        fprintf(stderr, "demo: the library has another interface than the header; build both anew.\n");
        return 2;
    }
    start_files();
    bool good = show_case("A triangle in front of the viewer.", clear, folder, "clear")
                && show_case("The same with its third vertex too near: twice its depth, 100, is not above H, 200.", near,
                             folder, "near");
    return good ? 0 : 1;
}
