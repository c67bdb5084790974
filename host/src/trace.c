/*
 * Which machine instructions the library carries out for MULT and MULTU: runs
 * them one machine instruction at a time and prints the address of each, as a
 * disassembly of this program has it. host/test-multiply looks there for wide
 * products.
 *
 *   trace mult, trace multu     MULT or MULTU of many pairs of words, by the library's run
 *   trace wide                  a product of 64 bits in C, which has to be found
 */
#define _GNU_SOURCE
#include <link.h>
#include <signal.h>
#include <stdio.h>
#include <string.h>
#include <ucontext.h>

#include "encode.h"
#include "fliskadee.h"

enum { RAM_BYTES = 65536, REGISTERS = 32, MOST_CODE = 1 << 20, TRAP_FLAG = 0x100 };

extern const char __executable_start, etext; /* of the linker: where this program's code lies */

static uint8_t image[FLISKADEE_IMAGE_BYTES], ram[RAM_BYTES], pad[FLISKADEE_PAD_BYTES];
static const struct fliskadee_lent machine = {image, sizeof image, ram, sizeof ram, pad, sizeof pad};
static uint8_t met[MOST_CODE]; /* by the place in this program's code */

static void note(int signal, siginfo_t *info, void *context)
{
    size_t place = (size_t)((ucontext_t *)context)->uc_mcontext.gregs[REG_RIP] - (size_t)&__executable_start;

    (void)signal, (void)info;
    if (place < MOST_CODE && place < (size_t)(&etext - &__executable_start))
        met[place] = 1;
}

/* From here on the processor stops after each instruction, or no longer. */
static void turn(int signal, siginfo_t *info, void *context)
{
    (void)signal, (void)info;
    ((ucontext_t *)context)->uc_mcontext.gregs[REG_EFL] ^= TRAP_FLAG;
}

static void handle(int signal, void (*handler)(int, siginfo_t *, void *))
{
    struct sigaction action;

    memset(&action, 0, sizeof action);
    action.sa_sigaction = handler;
    action.sa_flags = SA_SIGINFO;
    sigaction(signal, &action, NULL);
}

static const uint32_t values[REGISTERS] = {
    0, 1, 0x7FFFFFFF, 0x80000000, 0xFFFFFFFF, 2, 0x8000, 0x8001, 0x7FFF, 0xFFFF, 0x10000, 0x10001, 0x1FFFF, 0xFFFF0000,
    0xFFFF0001, 0xFFFEFFFF, 0x80000001, 0x8000FFFF, 0x7FFF0000, 0x7FFFFFFE, 0x55555555, 0xAAAAAAAA, 0x12345678, 0xEDCBA988,
    0x00FF00FF, 0xFF00FF00, 0x3FFFFFFF, 0xC0000000, 0xDEADBEEF, 0x0001FFFE, 0xFFFFFFFE, 0x40004000,
};

/* MULT or MULTU of every pair of registers, from address 0 on. */
static void prepare(uint32_t funct)
{
    uint32_t i, j;

    fliskadee_fresh_image(image);
    for (i = 1; i < REGISTERS; i++)
        fliskadee_set_word(image, i, values[i]);
    for (i = 0; i < REGISTERS; i++)
        for (j = 0; j < REGISTERS; j++)
            fliskadee_set_word(ram, i * REGISTERS + j, encode_r(funct, 0, i, j, 0));
}

static uint64_t run(void)
{
    return fliskadee_run_lent(&machine, REGISTERS * REGISTERS);
}

static volatile uint32_t factor = 0xFFFFFFFF;

static uint64_t wide_product(void)
{
    return (uint64_t)factor * factor;
}

static uint64_t stepped(uint64_t (*volatile call)(void))
{
    uint64_t answer;

    raise(SIGUSR1);
    answer = call();
    raise(SIGUSR1);
    return answer;
}

static int found_base(struct dl_phdr_info *info, size_t size, void *base)
{
    (void)size;
    *(size_t *)base = info->dlpi_addr;
    return 1; /* the first is this program */
}

int main(int count, char **words)
{
    static const struct {
        const char *name;
        uint64_t (*call)(void);
        uint64_t answer;
        uint32_t funct;
    } calls[] = {
        {"mult", run, REGISTERS * REGISTERS, F_MULT},
        {"multu", run, REGISTERS * REGISTERS, F_MULTU},
        {"wide", wide_product, 0xFFFFFFFE00000001, 0},
    };
    size_t i, place, base = 0;

    for (i = 0; i < sizeof calls / sizeof *calls; i++)
        if (count == 2 && strcmp(words[1], calls[i].name) == 0)
            break;
    if (i == sizeof calls / sizeof *calls) {
        fputs("trace: it takes mult, multu or wide.\n", stderr);
        return 2;
    }
    prepare(calls[i].funct);
    handle(SIGTRAP, note);
    handle(SIGUSR1, turn);
    if (stepped(calls[i].call) != calls[i].answer) {
        fputs("trace: the call's answer is wrong.\n", stderr);
        return 1;
    }
    dl_iterate_phdr(found_base, &base);
    for (place = 0; place < MOST_CODE; place++)
        if (met[place])
            printf("%zx:\n", (size_t)&__executable_start + place - base);
    return 0;
}
