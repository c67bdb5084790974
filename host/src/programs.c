/* Runs compiled MIPS programs through the library and compares their results with the host's build of the same
   sources (host/programs). One line for each program, then how many passed and failed. */
#include <stdbool.h>
#include <stdio.h>
#include <stdlib.h>
#include <string.h>

#include "../programs/program.h"
#include "fliskadee.h"
#include "image.h"

enum {
    PIECE = 9973,            /* prime, so that runs are cut in loops, delay slots and load delays */
    MOST_PIECES = 5000,
    WAIT_HERE = 0x1000FFFF,  /* branch to itself; the word after it, 0, is its delay slot */
    END_MARK = 0x454E4421    /* v0 at the program's last SYSCALL; see host/programs/start.c */
};

#define VECTOR 0x80000080u
#define ENTRY 0x80010000u
#define RESULTS 0x80100000u

static const uint32_t sort_words[] = {
#include "../programs/sort.words"
};
static const uint32_t checksum_words[] = {
#include "../programs/checksum.words"
};
static const uint32_t renderer_words[] = {
#include "../programs/renderer.words"
};
static const uint32_t unpack_words[] = {
#include "../programs/unpack.words"
};
static const uint32_t bignum_words[] = {
#include "../programs/bignum.words"
};
static const uint32_t kernel_words[] = {
#include "../programs/kernel.words"
};

#define PROGRAM(name) {#name, name##_words, sizeof name##_words / sizeof name##_words[0], name##_program}

static const struct program {
    const char *name;
    const uint32_t *words;
    size_t length;
    program_function *on_host;
} programs[] = {PROGRAM(sort), PROGRAM(checksum), PROGRAM(renderer), PROGRAM(unpack), PROGRAM(bignum),
              PROGRAM(kernel)};

/* Published values, so that the two builds are not merely wrong together. */
static const struct {
    const char *program;
    uint32_t index;
    uint32_t value;
} known[] = {
    {"checksum", 0, 0xCBF43926},  /* CRC-32 of "123456789" */
    {"checksum", 2, 0x091E01DE},  /* Adler-32 */
    {"checksum", 4, 0xBB86B11C},  /* FNV-1a */
    {"checksum", 5, 0xF7C3BC1D},  /* SHA-1, the first and last word */
    {"checksum", 9, 0xA7AE3441},
    {"unpack", 1, 5000},          /* as many bytes as were packed */
    {"bignum", 13, 9737},         /* four digits of 200 factorial */
    {"bignum", 161, 1875},        /* the last four of the 2500th Fibonacci number */
};

static uint8_t image[FLISKADEE_IMAGE_BYTES];
static uint8_t ram[FLISKADEE_MOST_RAM];
static uint8_t pad[FLISKADEE_PAD_BYTES];
static const struct fliskadee_lent machine = {image, sizeof image, ram, sizeof ram, pad, sizeof pad};
static uint32_t expected[RESULT_WORDS + 1];

static size_t ram_word(uint32_t address)
{
    return (address & 0x1FFFFFFF) / 4;
}

static void load(const struct program *program)
{
    memset(ram, 0, sizeof ram);
    memset(pad, 0, sizeof pad);
    fliskadee_set_word(ram, ram_word(VECTOR), WAIT_HERE);
    for (size_t i = 0; i < program->length; i++)
        fliskadee_set_word(ram, ram_word(ENTRY) + i, program->words[i]);
    fliskadee_fresh_image(image);
    fliskadee_set_word(image, FLISKADEE_WORD_PC, ENTRY);
    fliskadee_set_word(image, FLISKADEE_WORD_NEXT_PC, ENTRY + 4);
}

/* A program may put a handler of its own at the vector; only the first one waits there for ever. */
static bool has_ended(void)
{
    return (fliskadee_get_word(image, FLISKADEE_WORD_PC) & ~4u) == VECTOR && fliskadee_get_word(ram, ram_word(VECTOR)) == WAIT_HERE;
}

/* Runs until an exception ends the program, in pieces. */
static bool run_to_end(const char *name, int *pieces)
{
    int piece = 0;
    for (; piece < MOST_PIECES && !has_ended(); piece++) {
        uint64_t answer = fliskadee_run_lent(&machine, PIECE);
        if (answer != PIECE) {
            printf("%s: failed, the library answers code %u after %u steps of piece %d, PC %08X\n", name,
                   FLISKADEE_CODE(answer), (unsigned)FLISKADEE_STEPS(answer), piece, (unsigned)fliskadee_get_word(image, FLISKADEE_WORD_PC));
            return false;
        }
    }
    if (!has_ended()) {
        printf("%s: failed, it does not end; PC %08X\n", name, (unsigned)fliskadee_get_word(image, FLISKADEE_WORD_PC));
        return false;
    }
    *pieces = piece;
    unsigned code = fliskadee_get_word(image, FLISKADEE_WORD_CAUSE) >> 2 & 31;
    if (code != 8 || fliskadee_get_word(image, 2) != END_MARK) {
        printf("%s: failed, it ended by exception %u at %08X, BADV %08X\n", name, code,
               (unsigned)fliskadee_get_word(image, FLISKADEE_WORD_EPC), (unsigned)fliskadee_get_word(image, FLISKADEE_WORD_BADV));
        return false;
    }
    return true;
}

static bool compare(const char *name, uint32_t count)
{
    uint32_t got = fliskadee_get_word(ram, ram_word(RESULTS));
    if (got != count) {
        printf("%s: failed, %u words of results in place of %u\n", name, (unsigned)got, (unsigned)count);
        return false;
    }
    for (uint32_t i = 0; i < count; i++) {
        uint32_t word = fliskadee_get_word(ram, ram_word(RESULTS) + 1 + i);
        if (word != expected[i]) {
            printf("%s: failed, word %u of the results is %08X in place of %08X\n", name, (unsigned)i, (unsigned)word,
                   (unsigned)expected[i]);
            return false;
        }
    }
    return true;
}

static bool host_is_right(const char *name, uint32_t count)
{
    for (size_t i = 0; i < sizeof known / sizeof known[0]; i++) {
        if (strcmp(known[i].program, name) != 0)
            continue;
        if (known[i].index >= count || expected[known[i].index] != known[i].value) {
            printf("%s: failed, the host's build gives %08X as word %u in place of %08X\n", name,
                   (unsigned)expected[known[i].index], (unsigned)known[i].index, (unsigned)known[i].value);
            return false;
        }
    }
    return true;
}

static bool try_program(const struct program *program)
{
    uint32_t count = program->on_host(expected);
    int pieces = 0;
    if (count > RESULT_WORDS) {
        printf("%s: failed, too many results\n", program->name);
        return false;
    }
    load(program);
    if (!host_is_right(program->name, count) || !run_to_end(program->name, &pieces) || !compare(program->name, count))
        return false;
    printf("%s: passed, %u words of results, about %d steps\n", program->name, (unsigned)count, pieces * PIECE);
    return true;
}

int main(void)
{
    unsigned passed = 0;
    unsigned failed = 0;
    for (size_t i = 0; i < sizeof programs / sizeof programs[0]; i++) {
        if (try_program(&programs[i]))
            passed++;
        else
            failed++;
    }
    printf("%u passed, %u failed\n", passed, failed);
    return failed == 0 ? EXIT_SUCCESS : EXIT_FAILURE;
}
