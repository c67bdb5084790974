/*
 * Benchmark: the library beside the model, or beside a copy of RAM where a
 * machine is saved or loaded, in one process, in rounds that alternate between
 * them. Figures are medians over the rounds.
 *
 *   bench [ROUNDS]
 */
#define _DEFAULT_SOURCE

#include "causes.h"
#include "draw_list.h"
#include "encode.h"
#include "fliskadee.h"
#include "model.h"
#include "saved.h"

#include <stdio.h>
#include <stdlib.h>
#include <string.h>
#include <time.h>

#define MAXIMUM_ROUNDS 101
#define RAM_BYTES 65536
#define CODE 0x400
#define DATA 0x8000

typedef uint64_t run_function(uint8_t *, size_t, uint8_t *, size_t, uint8_t *, size_t, uint64_t);

/* One thing to time: a machine, and how it is run. */
struct workload {
    const char *name;
    uint8_t image[MODEL_IMAGE_BYTES];
    uint8_t ram[RAM_BYTES];
    uint8_t pad[MODEL_PAD_BYTES];
    uint64_t count; /* steps of one call */
    unsigned calls; /* calls in one round */
    double units; /* what is reported, for each step: 1, or commands in a step */
    const char *unit;
};

/* ---- Machines ---------------------------------------------------------------- */

enum { ZERO = 0, T0 = 8, T1, T2, T3, T4, T5, T6, T7, S0, S1, S2 };

/* Kernel mode, COP2 usable, registers of a camera that looks at three vertices in front of it, and one register as given. */
static void fresh_with(struct workload *w, unsigned number, uint32_t value)
{
    struct model m = {0};
    static const struct {
        unsigned number;
        uint32_t value;
    } camera[] = {
        {0, 0x00640064}, {1, 1000}, {2, 0xFF9C0032}, {3, 1200}, {4, 0x0010FFF0}, {5, 900},
        {32, 0x1000}, {34, 0x1000}, {36, 0x1000}, {39, 500}, {56, 160 << 16}, {57, 120 << 16}, {58, 300},
        {59, 0xFF00}, {60, 0x1000000},
    };
    unsigned i;

    memset(w->ram, 0, sizeof w->ram);
    memset(w->pad, 0, sizeof w->pad);
    m.pc = 0x80000000 + CODE;
    m.next_pc = m.pc + 4;
    m.sr = 0x40000000;
    m.general[S0] = 0x80000000 + DATA;
    m.general[S1] = 1;
    for (i = 0; i < sizeof camera / sizeof *camera; i++) {
        model_cop2_write(&m, camera[i].number, camera[i].value);
        if (i < 6)
            put_word(w->ram + DATA + 0x20 + 4 * i, camera[i].value);
    }
    model_cop2_write(&m, number, value);
    model_store(&m, w->image);
}

static void fresh(struct workload *w)
{
    fresh_with(w, 63, 0);
}

static void put_code(struct workload *w, const uint32_t *code, unsigned words)
{
    unsigned i;

    for (i = 0; i < words; i++)
        put_word(w->ram + CODE + 4 * i, code[i]);
}

/* Twelve ordinary instructions, a taken branch among them. */
static void integer_loop(struct workload *w)
{
    const uint32_t code[] = {
        encode_i(OP_LW, T0, S0, 0),
        encode_i(OP_ADDIU, S1, S1, 1),
        encode_r(F_SLL, T2, 0, S1, 3),
        encode_r(F_XOR, T3, T2, T0, 0),
        encode_r(F_ADDU, T1, T0, S1, 0),
        encode_r(F_SRL, T4, 0, T3, 5),
        encode_i(OP_SW, T4, S0, 4),
        encode_i(OP_ANDI, T5, S1, 0xFF),
        encode_i(OP_LBU, T6, S0, 5),
        encode_r(F_SLT, T7, T5, T4, 0),
        encode_i(OP_BNE, ZERO, S1, -11),
        encode_r(F_SUBU, S2, S2, T7, 0),
    };

    fresh(w);
    put_code(w, code, sizeof code / sizeof *code);
    put_word(w->ram + DATA, 0x12345678);
}

/* One MULT in 20, and both of its words read. */
static void product_loop(struct workload *w)
{
    const uint32_t code[] = {
        encode_i(OP_LW, T0, S0, 0),
        encode_i(OP_ADDIU, S1, S1, 1),
        encode_r(F_SLL, T2, 0, S1, 3),
        encode_r(F_XOR, T3, T2, T0, 0),
        encode_r(F_ADDU, T1, T0, S1, 0),
        encode_r(F_MULT, 0, T1, T3, 0),
        encode_r(F_SRL, T4, 0, T3, 5),
        encode_i(OP_SW, T4, S0, 4),
        encode_i(OP_ANDI, T5, S1, 0xFF),
        encode_r(F_MFHI, T7, 0, 0, 0),
        encode_r(F_MFLO, T3, 0, 0, 0),
        encode_i(OP_LBU, T6, S0, 5),
        encode_r(F_SLTU, T7, T7, T3, 0),
        encode_r(F_NOR, T6, T0, T3, 0),
        encode_r(F_OR, T2, T7, T5, 0),
        encode_i(OP_ADDIU, T5, T5, -3),
        encode_r(F_SRA, T4, 0, T6, 2),
        encode_i(OP_SW, T4, S0, 0),
        encode_i(OP_BNE, ZERO, S1, -19),
        encode_r(F_SUBU, S2, S2, T7, 0),
    };

    fresh(w);
    put_code(w, code, sizeof code / sizeof *code);
    put_word(w->ram + DATA, 0x12345678);
}

/* The integer loop with its data in the scratch pad. */
static void pad_loop(struct workload *w)
{
    integer_loop(w);
    fliskadee_set_word(w->image, S0, 0x1F800000);
    put_word(w->pad, 0x12345678);
}

/* Sixteen instructions around one RTPT: vertices in, screen points and FLAG out. */
static void rtpt_in_16_loop(struct workload *w)
{
    const uint32_t code[] = {
        encode_i(OP_LWC2, 0, S0, 0x20),
        encode_i(OP_LWC2, 1, S0, 0x24),
        encode_i(OP_LWC2, 2, S0, 0x28),
        encode_i(OP_LWC2, 3, S0, 0x2C),
        encode_i(OP_LWC2, 4, S0, 0x30),
        encode_i(OP_LWC2, 5, S0, 0x34),
        encode_command(0x30, 1, 0),
        encode_i(OP_ADDIU, S1, S1, 1),
        encode_move(2, 2, T0, 31),
        encode_i(OP_SWC2, 12, S0, 0x40),
        encode_i(OP_SWC2, 13, S0, 0x44),
        encode_i(OP_SWC2, 14, S0, 0x48),
        encode_r(F_SRL, T1, 0, T0, 31),
        encode_r(F_OR, T2, T2, T1, 0),
        encode_i(OP_BNE, ZERO, S1, -15),
        encode_i(OP_SW, T2, S0, 0x4C),
    };

    fresh(w);
    put_code(w, code, sizeof code / sizeof *code);
}

/* Nothing but one command and one jump, with the command in its delay slot. */
#define COMMAND_LOOP_WORDS 1024
#define COMMANDS_A_STEP ((COMMAND_LOOP_WORDS - 1.0) / COMMAND_LOOP_WORDS)

static void command_loop(struct workload *w, uint32_t command)
{
    uint32_t code[COMMAND_LOOP_WORDS];
    unsigned i;

    for (i = 0; i < COMMAND_LOOP_WORDS; i++)
        code[i] = encode_command(command, 1, 0);
    code[COMMAND_LOOP_WORDS - 2] = encode_j(OP_J, CODE);
    put_code(w, code, COMMAND_LOOP_WORDS);
}

static void rtpt_loop(struct workload *w)
{
    fresh(w);
    command_loop(w, 0x30);
}

/* DQB = 0 leaves line 7 below 0 for every vertex. */
static void rtpt_limited_loop(struct workload *w)
{
    fresh_with(w, 60, 0);
    command_loop(w, 0x30);
}

/* V2 at a depth of 100, where H is 300. */
static void rtpt_near_loop(struct workload *w)
{
    fresh_with(w, 5, (uint32_t)-400);
    command_loop(w, 0x30);
}

static void rtps_loop(struct workload *w)
{
    fresh(w);
    command_loop(w, 0x01);
}

/* ---- Timing -------------------------------------------------------------------- */

struct sides {
    uint8_t image[MODEL_IMAGE_BYTES];
    uint8_t ram[RAM_BYTES];
    uint8_t pad[MODEL_PAD_BYTES];
};

static double now(void)
{
    struct timespec t;

    clock_gettime(CLOCK_MONOTONIC, &t);
    return (double)t.tv_sec + (double)t.tv_nsec * 1e-9;
}

/* Seconds of one round from the workload's start. */
static double time_round(run_function *run, const struct workload *w, struct sides *s)
{
    double start;
    unsigned i;

    memcpy(s->image, w->image, sizeof s->image);
    memcpy(s->ram, w->ram, sizeof s->ram);
    memcpy(s->pad, w->pad, sizeof s->pad);
    start = now();
    for (i = 0; i < w->calls; i++)
        if (run(s->image, sizeof s->image, s->ram, sizeof s->ram, s->pad, sizeof s->pad, w->count) != w->count) {
            fprintf(stderr, "bench: %s: a call did not complete\n", w->name);
            exit(1);
        }
    return now() - start;
}

static int compare_doubles(const void *a, const void *b)
{
    double x = *(const double *)a, y = *(const double *)b;

    return (x > y) - (x < y);
}

static double median(double *values, unsigned count)
{
    qsort(values, count, sizeof *values, compare_doubles);
    return values[count / 2];
}

/* Rates and their ratio, of rounds that each carried out so many units. */
static void print_rates(const char *name, const char *unit, double units, double *library_times, double *model_times, unsigned rounds)
{
    double library = median(library_times, rounds) / units, model = median(model_times, rounds) / units;

    printf("%-34s %10.2f %10.2f M %s/s %9.2f %9.2f ns %8.2f\n", name, 1e-6 / library, 1e-6 / model, unit, library * 1e9,
           model * 1e9, model / library);
}

/* Prints rates and their ratio; answers whether both left the same machine. */
static bool measure(const struct workload *w, unsigned rounds)
{
    static struct sides library, model;
    double library_times[MAXIMUM_ROUNDS], model_times[MAXIMUM_ROUNDS], steps = (double)w->count * w->calls;
    unsigned i;

    for (i = 0; i < rounds; i++) {
        library_times[i] = time_round(fliskadee_run, w, &library);
        model_times[i] = time_round(model_run, w, &model);
        if (memcmp(&library, &model, sizeof library) != 0) {
            printf("%s: library and model leave different machines\n", w->name);
            return false;
        }
    }
    print_rates(w->name, w->unit, steps * w->units, library_times, model_times, rounds);
    return true;
}

/* ---- Causes -------------------------------------------------------------------- */

#define QUESTIONS 2000 /* of a round */

/* An image whose COP2 registers are as different as can be, so that commands set many bits. */
static void strained(uint8_t image[MODEL_IMAGE_BYTES])
{
    static struct workload w;
    struct model m;
    unsigned n;

    fresh(&w);
    model_load(&m, w.image);
    for (n = 0; n < 64; n++)
        model_cop2_write(&m, n, 0x9E3779B9u * (n + 1));
    model_store(&m, image);
}

typedef uint64_t causes_function(const uint8_t *, uint32_t, uint32_t *);

static uint64_t library_causes(const uint8_t *image, uint32_t command, uint32_t *words)
{
    return fliskadee_causes(image, MODEL_IMAGE_BYTES, command, words, FLISKADEE_MOST_CAUSE_WORDS).number;
}

static uint64_t model_words(const uint8_t *image, uint32_t command, uint32_t *words)
{
    return model_causes(image, MODEL_IMAGE_BYTES, command, words, FLISKADEE_MOST_CAUSE_WORDS).number;
}

static double time_causes(causes_function *causes, const uint8_t *image, uint32_t command, uint32_t *words)
{
    double start = now();
    unsigned i;

    for (i = 0; i < QUESTIONS; i++)
        causes(image, command, words);
    return now() - start;
}

/* The same for questions after a command's causes. */
static bool measure_causes(const char *name, const uint8_t *image, uint32_t command, unsigned rounds)
{
    static uint32_t library[FLISKADEE_MOST_CAUSE_WORDS], model[FLISKADEE_MOST_CAUSE_WORDS];
    double library_times[MAXIMUM_ROUNDS], model_times[MAXIMUM_ROUNDS];
    unsigned i;

    for (i = 0; i < rounds; i++) {
        library_times[i] = time_causes(library_causes, image, command, library);
        model_times[i] = time_causes(model_words, image, command, model);
        if (memcmp(library, model, sizeof library) != 0) {
            printf("%s: library and model list different rows\n", name);
            return false;
        }
    }
    print_rates(name, "calls", QUESTIONS, library_times, model_times, rounds);
    return true;
}

/* ---- Draw lists ------------------------------------------------------------------ */

#define LIST_WORDS 1000000

static uint32_t list[LIST_WORDS];
static size_t list_length;

static uint32_t random_word(void)
{
    static uint64_t state = 1;

    state = state * 6364136223846793005 + 1442695040888963407;
    return (uint32_t)(state >> 32);
}

static void add_packet(uint32_t byte, size_t words)
{
    list[list_length++] = byte << 24 | (random_word() & 0xFFFFFF);
    while (--words > 0)
        list[list_length++] = random_word() & 0x0FFFFFFF; /* never the end of a polyline */
}

static void add_polyline(size_t words)
{
    add_packet(MODEL_POLYLINE, words - 1);
    list[list_length++] = MODEL_POLYLINE_END;
}

/* Every kind of packet in mixed order, and a polyline of the words that are left at the end. */
static void all_kinds(void)
{
    while (list_length <= LIST_WORDS - 16) { /* the longest packet, and the shortest polyline behind it */
        uint32_t byte = random_word() >> 24;

        if (byte == MODEL_POLYLINE)
            add_polyline(4 + random_word() % 8);
        else if (model_packet_words(byte << 24) != 0)
            add_packet(byte, model_packet_words(byte << 24));
    }
    add_polyline(LIST_WORDS - list_length);
}

/* As many packets as there can be, in mixed order. */
static void most_packets(void)
{
    static const uint32_t bytes[] = {0x68, 0x70, 0x78};

    while (list_length < LIST_WORDS)
        add_packet(bytes[random_word() % 3], 2);
}

/* The slowest that was found: neither the kind of the next packet nor the length of a polyline can be foreseen. */
static void dots_and_polylines(void)
{
    while (list_length <= LIST_WORDS - 10) { /* the longest of these, and the shortest polyline behind it */
        if (random_word() >> 31)
            add_polyline(4 + (random_word() >> 16) % 3);
        else
            add_packet(0x68, 2);
    }
    add_polyline(LIST_WORDS - list_length);
}

static void one_polyline(void)
{
    add_polyline(LIST_WORDS);
}

typedef struct model_answer draw_list_function(const uint32_t *, size_t);

/* With the answer as the model's. */
static struct model_answer library_draw_list(const uint32_t *words, size_t words_length)
{
    struct fliskadee_answer a = fliskadee_draw_list(words, words_length);

    return (struct model_answer){a.code, a.number};
}

static double time_list(draw_list_function *draw_list, struct model_answer *answer)
{
    double start = now();

    *answer = draw_list(list, LIST_WORDS);
    return now() - start;
}

/* The same for the words of a list, checked in one call. */
static bool measure_list(const char *name, void (*make)(void), unsigned rounds)
{
    double library_times[MAXIMUM_ROUNDS], model_times[MAXIMUM_ROUNDS];
    struct model_answer library, model;
    unsigned i;

    list_length = 0;
    make();
    for (i = 0; i < rounds; i++) {
        library_times[i] = time_list(library_draw_list, &library);
        model_times[i] = time_list(model_draw_list, &model);
        if (library.code != MODEL_DONE || model.code != MODEL_DONE || library.number != model.number) {
            printf("%s: library and model do not both count the same packets\n", name);
            return false;
        }
    }
    print_rates(name, "words", LIST_WORDS, library_times, model_times, rounds);
    return true;
}

/* ---- Saved machines -------------------------------------------------------------- */

/* A machine to save, its file, and a machine to load into. */
static struct {
    uint8_t image[MODEL_IMAGE_BYTES], ram[MODEL_RAM_MAXIMUM], pad[MODEL_PAD_BYTES];
    uint8_t file[FLISKADEE_MOST_SAVED_BYTES], model_file[FLISKADEE_MOST_SAVED_BYTES];
    uint8_t loaded_image[MODEL_IMAGE_BYTES], loaded_ram[MODEL_RAM_MAXIMUM], loaded_pad[MODEL_PAD_BYTES];
    size_t ram_length, file_length;
} saved;

/* Each does its work once; false where a call is refused. */
typedef bool saved_function(void);

static bool save_once(void)
{
    return fliskadee_save(saved.image, sizeof saved.image, saved.ram, saved.ram_length, saved.pad, sizeof saved.pad, saved.file,
                          saved.file_length).code == FLISKADEE_DONE;
}

static bool load_once(void)
{
    return fliskadee_load(saved.file, saved.file_length, saved.loaded_image, sizeof saved.loaded_image, saved.loaded_ram,
                          saved.ram_length, saved.loaded_pad, sizeof saved.loaded_pad).code == FLISKADEE_DONE;
}

/* Called through a variable, so that no copy is left out. */
static void *(*volatile copy)(void *, const void *, size_t) = memcpy;

static bool copy_to_file(void)
{
    copy(saved.file, saved.ram, saved.ram_length);
    return true;
}

static bool copy_from_file(void)
{
    copy(saved.loaded_ram, saved.file, saved.ram_length);
    return true;
}

static double time_saved(saved_function *once, unsigned calls)
{
    double start = now();
    unsigned i;

    for (i = 0; i < calls; i++)
        if (!once()) {
            fprintf(stderr, "bench: a save or a load was refused\n");
            exit(1);
        }
    return (now() - start) / calls;
}

static void print_saved(const char *name, double *library_times, double *copy_times, unsigned rounds)
{
    double library_median = median(library_times, rounds), copy_median = median(copy_times, rounds);

    printf("%-34s %10.2f %10.2f GB/s %12.2f %9.2f us %8.2f\n", name, (double)saved.ram_length / library_median * 1e-9,
           (double)saved.ram_length / copy_median * 1e-9, library_median * 1e6, copy_median * 1e6, library_median / copy_median);
}

/* A copy goes where the save or the load beside it goes. Answers whether the file is the model's and gives the machine back. */
static bool measure_saved(const char *save_name, const char *load_name, size_t ram_length, unsigned calls, unsigned rounds)
{
    double saves[MAXIMUM_ROUNDS], loads[MAXIMUM_ROUNDS], copies_to[MAXIMUM_ROUNDS], copies_from[MAXIMUM_ROUNDS];
    unsigned i;

    saved.ram_length = ram_length;
    strained(saved.image);
    for (i = 0; i < ram_length; i++)
        saved.ram[i] = (uint8_t)(i * 7 + i / 251);
    memset(saved.loaded_ram, 0, ram_length);
    saved.file_length = (size_t)model_save_file(saved.image, sizeof saved.image, saved.ram, ram_length, saved.pad,
                                                sizeof saved.pad, saved.model_file, sizeof saved.model_file).number;
    for (i = 0; i < rounds; i++) {
        copies_to[i] = time_saved(copy_to_file, calls);
        saves[i] = time_saved(save_once, calls);
        copies_from[i] = time_saved(copy_from_file, calls);
        loads[i] = time_saved(load_once, calls);
    }
    print_saved(save_name, saves, copies_to, rounds);
    print_saved(load_name, loads, copies_from, rounds);
    if (memcmp(saved.file, saved.model_file, saved.file_length) == 0 &&
        memcmp(saved.loaded_image, saved.image, sizeof saved.image) == 0 &&
        memcmp(saved.loaded_ram, saved.ram, ram_length) == 0 && memcmp(saved.loaded_pad, saved.pad, sizeof saved.pad) == 0)
        return true;
    printf("%s: library and model have different files\n", save_name);
    return false;
}

int main(int argc, char **argv)
{
    static struct workload w;
    uint8_t image[MODEL_IMAGE_BYTES];
    static const struct {
        const char *name;
        void (*prepare)(struct workload *);
        uint64_t count;
        unsigned calls;
        double units;
        const char *unit;
    } workloads[] = {
        {"integer loop", integer_loop, 1000000, 1, 1, "steps"},
        {"one RTPT in 16", rtpt_in_16_loop, 1000000, 1, 1, "steps"},
        {"RTPT alone", rtpt_loop, 200000, 1, COMMANDS_A_STEP, "RTPT"},
        {"RTPT, IR0 limited", rtpt_limited_loop, 200000, 1, COMMANDS_A_STEP, "RTPT"},
        {"RTPT, one vertex too near", rtpt_near_loop, 200000, 1, COMMANDS_A_STEP, "RTPT"},
        {"RTPS alone", rtps_loop, 200000, 1, COMMANDS_A_STEP, "RTPS"},
        {"calls of one step", integer_loop, 1, 20000, 1, "calls"},
        {"integer loop, calls of 1,000", integer_loop, 1000, 1000, 1, "steps"},
        {"integer loop, calls of 1,000,000", integer_loop, 1000000, 1, 1, "steps"},
        {"integer loop, data in the pad", pad_loop, 1000000, 1, 1, "steps"},
        {"one MULT in 20", product_loop, 1000000, 1, 1, "steps"},
    };
    unsigned rounds = 15, i;
    bool same = true;

    if (argc > 1)
        rounds = (unsigned)strtoul(argv[1], NULL, 10);
    if (argc > 2 || rounds == 0 || rounds > MAXIMUM_ROUNDS) {
        fprintf(stderr, "usage: bench [ROUNDS], 1 to %d rounds\n", MAXIMUM_ROUNDS);
        return 2;
    }
    printf("%u rounds, medians          %17s %10s %21s %9s %11s\n", rounds, "library", "model", "library", "model", "ratio");
    for (i = 0; i < sizeof workloads / sizeof *workloads; i++) {
        workloads[i].prepare(&w);
        w.name = workloads[i].name;
        w.count = workloads[i].count;
        w.calls = workloads[i].calls;
        w.units = workloads[i].units;
        w.unit = workloads[i].unit;
        same &= measure(&w, rounds);
    }
    rtpt_near_loop(&w);
    same &= measure_causes("causes of RTPT, a vertex too near", w.image, encode_command(0x30, 1, 0), rounds);
    strained(image);
    same &= measure_causes("causes of RTPS, many bits", image, encode_command(0x01, 1, 0), rounds);
    same &= measure_causes("causes of NCDT, many bits", image, encode_command(0x16, 1, 0), rounds);
    same &= measure_list("draw list, all kinds of packets", all_kinds, rounds);
    same &= measure_list("draw list, packets of 2 words", most_packets, rounds);
    same &= measure_list("draw list, dots and polylines", dots_and_polylines, rounds);
    same &= measure_list("draw list, one polyline", one_polyline, rounds);
    printf("ratio: the library's speed over the model's\n");
    printf("%-27s %17s %10s %17s %9s %11s\n", "saved machines", "library", "copy", "library", "copy", "time");
    same &= measure_saved("a save of 2 MiB of RAM", "a load of 2 MiB of RAM", MODEL_RAM_MAXIMUM, 20, rounds);
    same &= measure_saved("a save of 64 KiB of RAM", "a load of 64 KiB of RAM", 65536, 1000, rounds);
    printf("time: the library's over that of a copy of RAM\n");
    return same ? 0 : 1;
}
