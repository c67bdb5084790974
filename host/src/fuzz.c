/*
 * Differential test: random cases through the library and through the model.
 * Each is run, searched for a bit of FLAG, asked for windows of RAM and pad and
 * for the causes of FLAG's bits, and saved; files are loaded, and draw lists are
 * checked.
 *
 *   fuzz N SEED [--coverage] [--whole] [--case K]
 *
 * Runs cases 0..N-1 of the seed, then loads two fixed files, cut and with every
 * other byte in a head, and checks fixed draw lists; or runs case K alone.
 * Status 0 when all agree, 1 at the first difference or where --whole is given
 * and the cases did not reach all that can be reached, 2 on bad usage.
 */
#define _DEFAULT_SOURCE

#include "causes.h"
#include "coverage.h"
#include "disassemble.h"
#include "draw_list.h"
#include "generate.h"
#include "fliskadee.h"
#include "model.h"
#include "saved.h"

#include <errno.h>
#include <signal.h>
#include <stdio.h>
#include <stdlib.h>
#include <string.h>
#include <sys/mman.h>
#include <unistd.h>

/* ---- Buffers ----------------------------------------------------------------- */

/*
 * A buffer lies in an area between two pages that cannot be touched: at its
 * end, at its beginning, or somewhere between with guard bytes around it.
 */
#define GUARD 64
#define GUARD_BYTE 0xC7

struct area {
    uint8_t *bytes;
    size_t capacity;
};

struct buffer {
    uint8_t *bytes;
    size_t length;
    size_t before, after; /* guard bytes on each side */
};

static struct area make_area(size_t capacity)
{
    size_t page = (size_t)sysconf(_SC_PAGESIZE);
    struct area a;
    uint8_t *all;

    a.capacity = (capacity + 4 * GUARD + page - 1) / page * page;
    all = mmap(NULL, a.capacity + 2 * page, PROT_NONE, MAP_PRIVATE | MAP_ANONYMOUS, -1, 0);
    if (all == MAP_FAILED || mprotect(all + page, a.capacity, PROT_READ | PROT_WRITE) != 0) {
        perror("fuzz");
        exit(2);
    }
    a.bytes = all + page;
    return a;
}

static struct buffer place(const struct area *a, size_t length, uint64_t placement)
{
    struct buffer b = {NULL, length, GUARD, GUARD};

    switch (placement & 3) {
    case 0:
        b.bytes = a->bytes + a->capacity - length;
        b.after = 0;
        break;
    case 1:
        b.bytes = a->bytes;
        b.before = 0;
        break;
    default: /* misaligned more often than not */
        b.bytes = a->bytes + GUARD + (placement >> 2 & 63);
        break;
    }
    memset(b.bytes - b.before, GUARD_BYTE, b.before);
    memset(b.bytes + b.length, GUARD_BYTE, b.after);
    return b;
}

static bool guards_intact(const struct buffer *b)
{
    size_t i;

    for (i = 0; i < b->before; i++)
        if (b->bytes[-1 - (ptrdiff_t)i] != GUARD_BYTE)
            return false;
    for (i = 0; i < b->after; i++)
        if (b->bytes[b->length + i] != GUARD_BYTE)
            return false;
    return true;
}

/* ---- The two sides ------------------------------------------------------------- */

typedef uint64_t run_function(const struct fliskadee_lent *, uint64_t);
typedef uint64_t find_flag_function(const struct fliskadee_lent *, uint64_t, uint32_t);
typedef struct model_answer causes_function(const uint8_t *, size_t, uint32_t, uint32_t *, size_t);
typedef struct model_answer save_function(const struct fliskadee_lent *, uint8_t *, size_t);
typedef struct model_answer load_function(const uint8_t *, size_t, const struct fliskadee_lent *);
typedef struct model_answer draw_list_function(const uint32_t *, size_t);

struct side {
    run_function *run;
    find_flag_function *find_flag;
    causes_function *causes;
    save_function *save;
    load_function *load;
    draw_list_function *draw_list;
    struct area image_area, ram_area, pad_area, words_area, file_area, space_area, list_area;
    struct buffer image, ram, pad, words, file, space, list;
    uint64_t answer;
    struct model_answer causes_answer, saved_answer, list_answer;
};

/* With the answer as the model's. */
static struct model_answer library_causes(const uint8_t *image, size_t image_length, uint32_t command, uint32_t *words,
                                          size_t words_length)
{
    struct fliskadee_answer a = fliskadee_causes(image, image_length, command, words, words_length);

    return (struct model_answer){a.code, a.number};
}

static struct model_answer library_save(const struct fliskadee_lent *l, uint8_t *space, size_t space_length)
{
    struct fliskadee_answer a = fliskadee_save_lent(l, space, space_length);

    return (struct model_answer){a.code, a.number};
}

static struct model_answer library_load(const uint8_t *file, size_t file_length, const struct fliskadee_lent *l)
{
    struct fliskadee_answer a = fliskadee_load_lent(file, file_length, l);

    return (struct model_answer){a.code, a.number};
}

static struct model_answer library_draw_list(const uint32_t *words, size_t words_length)
{
    struct fliskadee_answer a = fliskadee_draw_list(words, words_length);

    return (struct model_answer){a.code, a.number};
}

static uint64_t model_run_lent(const struct fliskadee_lent *l, uint64_t count)
{
    return model_run(l->image, l->image_length, l->ram, l->ram_length, l->pad, l->pad_length, count);
}

static uint64_t model_find_flag_lent(const struct fliskadee_lent *l, uint64_t count, uint32_t mask)
{
    return model_find_flag(l->image, l->image_length, l->ram, l->ram_length, l->pad, l->pad_length, count, mask);
}

static struct model_answer model_save_lent(const struct fliskadee_lent *l, uint8_t *space, size_t space_length)
{
    return model_save_file(l->image, l->image_length, l->ram, l->ram_length, l->pad, l->pad_length, space, space_length);
}

static struct model_answer model_load_lent(const uint8_t *file, size_t file_length, const struct fliskadee_lent *l)
{
    return model_load_file(file, file_length, l->image, l->image_length, l->ram, l->ram_length, l->pad, l->pad_length);
}

static struct side library = {.run = fliskadee_run_lent, .find_flag = fliskadee_find_flag_lent, .causes = library_causes,
                              .save = library_save, .load = library_load, .draw_list = library_draw_list};
static struct side model = {.run = model_run_lent, .find_flag = model_find_flag_lent, .causes = model_causes,
                            .save = model_save_lent, .load = model_load_lent, .draw_list = model_draw_list};

static struct fliskadee_lent lent_by(const struct side *s)
{
    return (struct fliskadee_lent){s->image.bytes, s->image.length, s->ram.bytes, s->ram.length, s->pad.bytes, s->pad.length};
}

/* A call on a machine: the run, or the search with a mask. */
struct call {
    bool search;
    uint64_t count;
    uint32_t mask;
};

/* Makes the call on the side as it stands. */
static uint64_t make_call(struct side *s, const struct call *call)
{
    const struct fliskadee_lent lent = lent_by(s);

    return call->search ? s->find_flag(&lent, call->count, call->mask) : s->run(&lent, call->count);
}

static uint64_t run_on(struct side *s, uint64_t count)
{
    return make_call(s, &(struct call){false, count, 0});
}

/* Places the side's image, RAM and pad. */
static void lend(struct side *s, uint64_t placement, size_t image_length, size_t ram_length, size_t pad_length)
{
    s->image = place(&s->image_area, image_length, placement);
    s->ram = place(&s->ram_area, ram_length, placement >> 8);
    s->pad = place(&s->pad_area, pad_length, placement >> 48);
}

/* The machine of the case, with this RAM. */
static void lend_case(struct side *s, const struct test_case *c, const uint8_t *ram, size_t ram_length)
{
    lend(s, c->placement, c->image_length, ram_length, c->pad_length);
    memcpy(s->image.bytes, c->image, c->image_length);
    memcpy(s->ram.bytes, ram, ram_length);
    memcpy(s->pad.bytes, c->pad, c->pad_length);
}

/* Sets the side's buffers to the case, and makes the call. */
static void call_side(struct side *s, const struct test_case *c, const struct call *call)
{
    lend_case(s, c, c->ram, c->ram_length);
    s->answer = make_call(s, call);
}

static bool same_bytes(const struct buffer *a, const struct buffer *b)
{
    return a->length == b->length && memcmp(a->bytes, b->bytes, a->length) == 0;
}

static bool same_machines(void)
{
    return same_bytes(&library.image, &model.image) && same_bytes(&library.ram, &model.ram) &&
           same_bytes(&library.pad, &model.pad) && guards_intact(&library.image) && guards_intact(&library.ram) &&
           guards_intact(&library.pad);
}

static bool agree(void)
{
    return library.answer == model.answer && same_machines();
}

/* Whether the two agree on the call, but with this count. */
static bool agree_with_count(const struct test_case *c, struct call call, uint64_t count)
{
    call.count = count;
    call_side(&library, c, &call);
    call_side(&model, c, &call);
    return agree();
}

static unsigned code_of(uint64_t answer)
{
    return (unsigned)(answer / MODEL_CODE_UNIT);
}

static bool refused(uint64_t answer)
{
    return (code_of(answer) >= 1 && code_of(answer) <= 4) || code_of(answer) == MODEL_PAD_LENGTH;
}

/* ---- Reports --------------------------------------------------------------------- */

static uint64_t seed, case_number;

static uint32_t image_word(const struct buffer *image, unsigned number)
{
    return fliskadee_get_word(image->bytes, number);
}

static const char *image_word_name(unsigned number)
{
    static const char *const control[12] = {"HI", "LO", "PC", "next PC", "waiting register", "waiting value",
                                            "delay slot", "SR", "CAUSE", "EPC", "BADV", "word 43"};

    if (number < 32)
        return general_register_name(number);
    if (number < 44)
        return control[number - 32];
    return cop2_register_name(number - 44);
}

static void print_case(const struct test_case *c, const struct call *call)
{
    printf("seed %llu, case %llu: %s; image of %zu bytes, RAM of %zu bytes, pad of %zu bytes, count %llu",
           (unsigned long long)seed, (unsigned long long)case_number, c->kind, c->image_length, c->ram_length, c->pad_length,
           (unsigned long long)call->count);
    if (call->search)
        printf(", search with mask %08x", (unsigned)call->mask);
    printf("\n");
}

static void print_state(const struct side *s)
{
    unsigned i;

    for (i = 0; i < MODEL_IMAGE_WORDS; i++)
        printf("  %-16s %08x%s", image_word_name(i), (unsigned)image_word(&s->image, i), i % 4 == 3 ? "\n" : "");
}

static void print_instruction(const struct side *s)
{
    uint32_t pc = image_word(&s->image, 34), physical = pc & 0x1FFFFFFF, word;
    char text[80];

    if ((pc & 3) != 0 || physical + 4 > s->ram.length) {
        printf("no instruction at PC %08x\n", (unsigned)pc);
        return;
    }
    word = fliskadee_get_word(s->ram.bytes + physical, 0);
    disassemble(word, pc, text, sizeof text);
    printf("instruction at PC %08x: %08x %s\n", (unsigned)pc, (unsigned)word, text);
}

static void print_bytes(const char *name, const struct buffer *l, const struct buffer *m)
{
    unsigned shown = 0;
    size_t i;

    for (i = 0; i < l->length; i++)
        if (l->bytes[i] != m->bytes[i] && shown++ < 32)
            printf("  %s %06zx: library %02x, model %02x\n", name, i, l->bytes[i], m->bytes[i]);
    if (shown > 32)
        printf("  and %u further bytes of %s\n", shown - 32, name);
    if (!guards_intact(l))
        printf("  the library wrote outside the %s\n", name);
}

static void print_differences(void)
{
    size_t i;

    if (library.answer != model.answer)
        printf("  answer: library code %u, steps %llu; model code %u, steps %llu\n", code_of(library.answer),
               (unsigned long long)(library.answer % MODEL_CODE_UNIT), code_of(model.answer),
               (unsigned long long)(model.answer % MODEL_CODE_UNIT));
    if (library.image.length == MODEL_IMAGE_BYTES) {
        for (i = 0; i < MODEL_IMAGE_WORDS; i++) {
            uint32_t l = image_word(&library.image, (unsigned)i), m = image_word(&model.image, (unsigned)i);

            if (l != m)
                printf("  %s: library %08x, model %08x\n", image_word_name((unsigned)i), (unsigned)l, (unsigned)m);
        }
    } else if (!same_bytes(&library.image, &model.image)) {
        printf("  an image of the wrong length was changed\n");
    }
    if (!guards_intact(&library.image))
        printf("  the library wrote outside the image\n");
    print_bytes("RAM", &library.ram, &model.ram);
    print_bytes("pad", &library.pad, &model.pad);
}

/* Finds a step at which the two part: they agree with count - 1 and differ with count. */
static void report_difference(const struct test_case *c, const struct call *call)
{
    uint64_t good = 0, bad = 1;

    printf("DIFFERENCE\n");
    print_case(c, call);
    if (refused(library.answer) || refused(model.answer) || !agree_with_count(c, *call, 0)) {
        print_differences();
        return;
    }
    while (bad < call->count && agree_with_count(c, *call, bad)) {
        good = bad;
        bad *= 2;
    }
    if (bad > call->count)
        bad = call->count;
    while (bad - good > 1) {
        uint64_t middle = good + (bad - good) / 2;

        if (agree_with_count(c, *call, middle))
            good = middle;
        else
            bad = middle;
    }
    agree_with_count(c, *call, good);
    printf("they agree after %llu steps and differ after %llu; before the step:\n", (unsigned long long)good,
           (unsigned long long)bad);
    print_state(&model);
    print_instruction(&model);
    if (agree_with_count(c, *call, bad))
        printf("  no difference when run again\n");
    print_differences();
}

static bool report_fault(const struct test_case *c, const struct call *call, const char *what)
{
    printf("FAULT: %s\n", what);
    print_case(c, call);
    printf("  library code %u, steps %llu; model code %u, steps %llu\n", code_of(library.answer),
           (unsigned long long)(library.answer % MODEL_CODE_UNIT), code_of(model.answer),
           (unsigned long long)(model.answer % MODEL_CODE_UNIT));
    return false;
}

static bool report_window(const struct window *w, const char *what, uint64_t got, uint64_t expected)
{
    printf("DIFFERENCE\nseed %llu, case %llu: window of %llu bytes at %08x, RAM of %zu bytes, pad of %zu bytes\n"
           "  %s: library %016llx, model %016llx\n",
           (unsigned long long)seed, (unsigned long long)case_number, (unsigned long long)w->length,
           (unsigned)w->address, w->ram_length, w->pad_length, what, (unsigned long long)got, (unsigned long long)expected);
    return false;
}

static const uint32_t *words_of(const struct side *s)
{
    return (const uint32_t *)(const void *)s->words.bytes;
}

static void print_causes(const char *name, const struct side *s)
{
    size_t lent = s->words.length / 4, i;

    printf("  %s: code %llu, number %llu\n", name, (unsigned long long)s->causes_answer.code,
           (unsigned long long)s->causes_answer.number);
    for (i = 0; i + 5 <= lent && i < s->causes_answer.number && s->causes_answer.code == MODEL_DONE; i += 5) {
        const uint32_t *row = words_of(s) + i;

        printf("    bit %u, part %u, line %u, %08x %08x\n", (unsigned)row[0], (unsigned)row[1], (unsigned)row[2],
               (unsigned)row[3], (unsigned)row[4]);
    }
}

static bool report_question(const struct test_case *c, const struct question *q, const char *what)
{
    char text[80];

    disassemble(0x4A000000 | (q->command & 0x01FFFFFF), 0, text, sizeof text);
    printf("DIFFERENCE\nseed %llu, case %llu: %s; causes of %08x (%s), image of %zu bytes, %zu words lent\n  %s\n",
           (unsigned long long)seed, (unsigned long long)case_number, c->kind, (unsigned)q->command, text, c->image_length,
           library.words.length / 4, what);
    print_causes("library", &library);
    print_causes("model", &model);
    if (c->image_length == MODEL_IMAGE_BYTES)
        print_state(&model);
    return false;
}

/* The fields of a file, as far as it has them. */
static void print_fields(const uint8_t *file, size_t length)
{
    size_t at = 0, content;
    unsigned shown = 0;

    printf("  fields:");
    for (; length - at >= 3 && shown < 80; at += 3 + content, shown++) {
        content = file[at + 1] + (size_t)256 * file[at + 2];
        printf(" %zu: %02x %02x %02x", at, file[at], file[at + 1], file[at + 2]);
        if (content > length - at - 3) {
            printf(" and %zu bytes\n", length - at - 3);
            return;
        }
    }
    printf(" %zu: %zu bytes\n", at, length - at);
}

static bool report_saved(const struct test_case *c, const struct saved_case *v, bool load, const char *what)
{
    printf("DIFFERENCE\nseed %llu, case %llu: ", (unsigned long long)seed, (unsigned long long)case_number);
    if (load)
        printf("load of %zu bytes, %s", v->file_length, v->kind);
    else
        printf("save to %zu bytes", v->space_length);
    printf("; image of %zu bytes, RAM of %zu bytes, pad of %zu bytes\n  %s\n", load ? v->lent_image_length : c->image_length,
           load ? v->lent_ram_length : v->ram_length, load ? v->lent_pad_length : c->pad_length, what);
    printf("  library code %llu, number %llu; model code %llu, number %llu\n", (unsigned long long)library.saved_answer.code,
           (unsigned long long)library.saved_answer.number, (unsigned long long)model.saved_answer.code,
           (unsigned long long)model.saved_answer.number);
    if (load)
        print_fields(v->file, v->file_length);
    return false;
}

/* Prints where the buffers of the two differ. */
static bool report_buffers(const struct test_case *c, const struct saved_case *v, bool load, const char *what)
{
    report_saved(c, v, load, what);
    print_bytes("image", &library.image, &model.image);
    print_bytes("RAM", &library.ram, &model.ram);
    print_bytes("pad", &library.pad, &model.pad);
    print_bytes(load ? "file" : "space", &library.file, &model.file);
    return false;
}

static bool report_list(const struct draw_list *l, const char *what)
{
    size_t i;

    printf("DIFFERENCE\nseed %llu, case %llu: draw list of %zu words, %s\n  %s\n", (unsigned long long)seed,
           (unsigned long long)case_number, l->length, l->kind, what);
    printf("  library code %llu, number %llu; model code %llu, number %llu", (unsigned long long)library.list_answer.code,
           (unsigned long long)library.list_answer.number, (unsigned long long)model.list_answer.code,
           (unsigned long long)model.list_answer.number);
    for (i = 0; i < l->length && i < 2000; i++) {
        if (i % 8 == 0)
            printf("\n  %6zu:", i);
        printf(" %08x", (unsigned)l->words[i]);
    }
    printf("\n");
    return false;
}

/* The library touched a page outside its buffers, or trapped. */
static void on_signal(int number)
{
    char text[160];
    int length = snprintf(text, sizeof text, "FAULT: signal %d in seed %llu, case %llu\n", number,
                          (unsigned long long)seed, (unsigned long long)case_number);

    if (length > 0 && write(STDOUT_FILENO, text, (size_t)length) < 0)
        _exit(1);
    _exit(1);
}

/* ---- One case ---------------------------------------------------------------------- */

/* Demand 1: an image once accepted is accepted again. Count 0 answers 0 and changes nothing. */
static bool accepted_again(const struct test_case *c, const struct call *call)
{
    if (run_on(&library, 0) != 0)
        return report_fault(c, call, "the library refuses the image that it left");
    if (!agree())
        return report_fault(c, call, "a count of 0 changes something");
    return true;
}

/* The two agree on the call, and the library kept its word about what it left. */
static bool check_call(const struct test_case *c, const struct call *call)
{
    if (!agree_with_count(c, *call, call->count)) {
        report_difference(c, call);
        return false;
    }
    if (!refused(library.answer))
        return accepted_again(c, call);
    if (memcmp(library.image.bytes, c->image, c->image_length) != 0 ||
        memcmp(library.ram.bytes, c->ram, c->ram_length) != 0 || memcmp(library.pad.bytes, c->pad, c->pad_length) != 0)
        return report_fault(c, call, "a refused call changed something");
    return true;
}

/* A run of a steps and then b leaves what a run of a + b leaves. */
static bool cut_in_two(const struct test_case *c, const struct call *call)
{
    uint64_t first = (c->placement >> 16 & 0xFFFF) % (call->count + 1), whole = library.answer, steps;

    call_side(&library, c, &(struct call){false, first, 0});
    steps = library.answer;
    if (code_of(steps) == MODEL_DONE)
        steps += run_on(&library, call->count - first);
    library.answer = whole;
    if (steps != whole || !agree())
        return report_fault(c, call, "a run cut in two differs from the whole");
    return true;
}

static bool as_expected(const struct test_case *c)
{
    switch (c->expected) {
    case EXPECT_ANY: return true;
    case EXPECT_RUN: return !refused(model.answer);
    default: return code_of(model.answer) == (unsigned)c->expected;
    }
}

static bool check_run(const struct test_case *c)
{
    const struct call run = {false, c->count, 0};

    if (!check_call(c, &run))
        return false;
    if (!as_expected(c))
        return report_fault(c, &run, "the generator expected another code");
    return refused(library.answer) || c->count > 5000 || (c->placement >> 32 & 7) != 0 || cut_in_two(c, &run);
}

/* The number, and what the header makes of it. */
static bool check_window(const struct test_case *c, const struct window *w)
{
    struct buffer ram = place(&library.ram_area, w->ram_length, c->placement >> 8);
    struct buffer pad = place(&library.pad_area, w->pad_length, c->placement >> 48);
    uint64_t expected = model_window(ram.bytes, w->ram_length, pad.bytes, w->pad_length, w->address, w->length);
    uint64_t got = fliskadee_window(ram.bytes, w->ram_length, pad.bytes, w->pad_length, w->address, w->length);
    uint8_t *bytes = fliskadee_window_bytes(ram.bytes, w->ram_length, pad.bytes, w->pad_length, w->address, w->length);
    bool in_pad = expected >= 0x8000000000000000;
    uint64_t place_in_it = expected / 0x100000000 % 0x80000000;
    uint8_t *expected_bytes = expected % 0x100000000 == 0 ? NULL : (in_pad ? pad.bytes : ram.bytes) + place_in_it;

    if (got != expected)
        return report_window(w, "the number", got, expected);
    if (FLISKADEE_WINDOW_IN_PAD(got) != in_pad)
        return report_window(w, "whether it is in the pad", (uint64_t)FLISKADEE_WINDOW_IN_PAD(got), in_pad);
    if (FLISKADEE_WINDOW_PLACE(got) != place_in_it)
        return report_window(w, "the place", FLISKADEE_WINDOW_PLACE(got), place_in_it);
    if (FLISKADEE_WINDOW_LENGTH(got) != expected % 0x100000000)
        return report_window(w, "the length", FLISKADEE_WINDOW_LENGTH(got), expected % 0x100000000);
    if (bytes != expected_bytes)
        return report_window(w, "the pointer", (uintptr_t)bytes, (uintptr_t)expected_bytes);
    return true;
}

/* What a lent word holds before the question. */
static uint32_t unused_word(size_t number)
{
    return 0x9E3779B9 * (uint32_t)(number + case_number);
}

/* Sets the side's image to the case's, lends so many words, and asks. Words are aligned, as C wants them. */
static void ask_side(struct side *s, const struct test_case *c, uint32_t command, size_t space)
{
    uint32_t *words;
    size_t i;

    s->image = place(&s->image_area, c->image_length, c->placement);
    s->words = place(&s->words_area, 4 * space, c->placement >> 40 & ~(uint64_t)12);
    memcpy(s->image.bytes, c->image, c->image_length);
    words = (uint32_t *)(void *)s->words.bytes;
    for (i = 0; i < space; i++)
        words[i] = unused_word(i);
    s->causes_answer = s->causes(s->image.bytes, s->image.length, command, words, space);
}

/* The two agree, and the library wrote its rows and nothing else. */
static bool check_question(const struct test_case *c, const struct question *q)
{
    size_t needed, space, i;

    ask_side(&model, c, q->command, 0);
    needed = (size_t)model.causes_answer.number;
    space = question_space(q, needed);
    ask_side(&model, c, q->command, space);
    ask_side(&library, c, q->command, space);
    if (library.causes_answer.code != model.causes_answer.code || library.causes_answer.number != model.causes_answer.number)
        return report_question(c, q, "the answers differ");
    if (!same_bytes(&library.words, &model.words))
        return report_question(c, q, "the words differ");
    for (i = library.causes_answer.code == MODEL_DONE ? needed : 0; i < space; i++)
        if (words_of(&library)[i] != unused_word(i))
            return report_question(c, q, "a word that is no row's was changed");
    if (!guards_intact(&library.words) || !guards_intact(&library.image))
        return report_question(c, q, "the library wrote outside the words");
    if (memcmp(library.image.bytes, c->image, c->image_length) != 0)
        return report_question(c, q, "the image was changed");
    return true;
}

/* ---- Saved machines -------------------------------------------------------------- */

/* What a lent byte holds before a save or a load. */
static uint8_t unused_byte(void)
{
    return (uint8_t)(0x5B + 29 * case_number);
}

static bool all_unused(const uint8_t *bytes, size_t length)
{
    return length == 0 || (bytes[0] == unused_byte() && memcmp(bytes, bytes + 1, length - 1) == 0);
}

static void clear_buffer(struct buffer *b)
{
    memset(b->bytes, unused_byte(), b->length);
}

static void clear_machine(struct side *s)
{
    clear_buffer(&s->image);
    clear_buffer(&s->ram);
    clear_buffer(&s->pad);
}

/* Whether the library's machine is this one, with nothing written around it. */
static bool library_has(const uint8_t *image, const uint8_t *ram, const uint8_t *pad)
{
    return memcmp(library.image.bytes, image, library.image.length) == 0 &&
           memcmp(library.ram.bytes, ram, library.ram.length) == 0 &&
           memcmp(library.pad.bytes, pad, library.pad.length) == 0 && guards_intact(&library.image) &&
           guards_intact(&library.ram) && guards_intact(&library.pad);
}

static bool answered(struct model_answer a, uint64_t code, uint64_t number)
{
    return a.code == code && a.number == number;
}

static bool saved_answers_agree(void)
{
    return answered(library.saved_answer, model.saved_answer.code, model.saved_answer.number);
}

static bool saved_bytes_agree(void)
{
    return same_machines() && same_bytes(&library.file, &model.file) && guards_intact(&library.file);
}

static void save_side(struct side *s, const struct test_case *c, const struct saved_case *v)
{
    struct fliskadee_lent lent;

    lend_case(s, c, v->ram, v->ram_length);
    s->file = place(&s->file_area, v->space_length, c->placement >> 24);
    clear_buffer(&s->file);
    lent = lent_by(s);
    s->saved_answer = s->save(&lent, s->file.bytes, s->file.length);
}

/* The two agree, the library wrote its bytes and nothing else, and a load gives the machine back. */
static bool check_save(const struct test_case *c, const struct saved_case *v)
{
    struct fliskadee_lent lent;
    size_t used;

    save_side(&model, c, v);
    save_side(&library, c, v);
    if (!saved_answers_agree())
        return report_saved(c, v, false, "the answers differ");
    if (!saved_bytes_agree())
        return report_buffers(c, v, false, "the bytes differ");
    used = library.saved_answer.code == MODEL_DONE ? (size_t)library.saved_answer.number : 0;
    if (!all_unused(library.file.bytes + used, library.file.length - used))
        return report_saved(c, v, false, "a byte that is not the file's was changed");
    if (!library_has(c->image, v->ram, c->pad))
        return report_saved(c, v, false, "the machine was changed");
    if (library.saved_answer.code != MODEL_DONE)
        return true;
    if (used != fliskadee_saved_bytes(v->ram_length) || fliskadee_saved_ram(used) != v->ram_length)
        return report_saved(c, v, false, "the header has another number of bytes");
    clear_machine(&library);
    lent = lent_by(&library);
    if (!answered(library.load(library.file.bytes, used, &lent), MODEL_DONE, 0) || !library_has(c->image, v->ram, c->pad))
        return report_saved(c, v, false, "a load does not give the machine back");
    return true;
}

static void load_side(struct side *s, const struct test_case *c, const struct saved_case *v)
{
    struct fliskadee_lent lent;

    lend(s, c->placement, v->lent_image_length, v->lent_ram_length, v->lent_pad_length);
    clear_machine(s);
    s->file = place(&s->file_area, v->file_length, c->placement >> 24);
    memcpy(s->file.bytes, v->file, v->file_length);
    lent = lent_by(s);
    s->saved_answer = s->load(s->file.bytes, s->file.length, &lent);
}

/* The file is the one that a save writes of what was loaded, and a run does not refuse it. */
static bool saved_again(const struct test_case *c, const struct saved_case *v)
{
    const struct fliskadee_lent lent = lent_by(&library);

    library.space = place(&library.space_area, v->file_length, c->placement >> 32);
    clear_buffer(&library.space);
    if (!answered(library.save(&lent, library.space.bytes, library.space.length), MODEL_DONE, v->file_length) ||
        !same_bytes(&library.space, &library.file) || !guards_intact(&library.space))
        return report_saved(c, v, true, "a save does not give the file back");
    if (run_on(&library, 0) != 0)
        return report_saved(c, v, true, "a run refuses what was loaded");
    return true;
}

/* The two agree, and a refused load changed nothing. */
static bool check_load(const struct test_case *c, const struct saved_case *v)
{
    load_side(&model, c, v);
    load_side(&library, c, v);
    if (!saved_answers_agree())
        return report_saved(c, v, true, "the answers differ");
    if (!saved_bytes_agree())
        return report_buffers(c, v, true, "the bytes differ");
    if (memcmp(library.file.bytes, v->file, v->file_length) != 0)
        return report_saved(c, v, true, "the file was changed");
    if (library.saved_answer.code == MODEL_DONE)
        return saved_again(c, v);
    if (!all_unused(library.image.bytes, library.image.length) || !all_unused(library.ram.bytes, library.ram.length) ||
        !all_unused(library.pad.bytes, library.pad.length))
        return report_saved(c, v, true, "a refused load changed something");
    return true;
}

static bool check_saved(const struct test_case *c, struct case_answers *answers)
{
    struct saved_case v;
    unsigned i;

    for (i = 0; i < CASE_SAVED; i++) {
        generate_saved(&v, c, i);
        if (!check_save(c, &v))
            return false;
        answers->saves[i] = model.saved_answer;
        if (!check_load(c, &v))
            return false;
        answers->loads[i] = model.saved_answer;
    }
    return true;
}

/* ---- Draw lists ------------------------------------------------------------------ */

/* At the end of its area no word behind the list can be read, at the beginning none before it. */
static void list_side(struct side *s, const struct draw_list *l)
{
    s->list = place(&s->list_area, 4 * l->length, l->at_beginning);
    memcpy(s->list.bytes, l->words, 4 * l->length);
    s->list_answer = s->draw_list((const uint32_t *)(const void *)s->list.bytes, l->length);
}

/* The two agree, and the words are as they were. */
static bool check_list(const struct draw_list *l)
{
    list_side(&model, l);
    list_side(&library, l);
    if (!answered(library.list_answer, model.list_answer.code, model.list_answer.number))
        return report_list(l, "the answers differ");
    if (memcmp(library.list.bytes, l->words, 4 * l->length) != 0 || !guards_intact(&library.list))
        return report_list(l, "a word was changed");
    return true;
}

static bool check_lists(const struct test_case *c, struct case_answers *answers)
{
    struct draw_list l;
    unsigned i;

    for (i = 0; i < CASE_LISTS; i++) {
        generate_list(&l, c, i);
        if (!check_list(&l))
            return false;
        answers->lists[i] = model.list_answer;
    }
    return true;
}

/* answers takes what was answered, windows and causes apart. */
static bool check_case(const struct test_case *c, struct case_answers *answers)
{
    const struct call search = {true, c->search_count, c->mask};
    unsigned i;

    if (!check_run(c))
        return false;
    answers->run = model.answer;
    if (!check_call(c, &search))
        return false;
    answers->search = model.answer;
    for (i = 0; i < CASE_WINDOWS; i++)
        if (!check_window(c, &c->windows[i]))
            return false;
    for (i = 0; i < CASE_QUESTIONS; i++)
        if (!check_question(c, &c->questions[i]))
            return false;
    return check_saved(c, answers) && check_lists(c, answers);
}

/* ---- Fixed files ------------------------------------------------------------------- */

/* A whole file, and the machine that it is of. */
struct fixed {
    struct test_case c;
    struct saved_case v;
    uint8_t *file;
};

static void make_fixed(struct fixed *f, size_t ram_length)
{
    static uint8_t image[MODEL_IMAGE_BYTES], ram[2 * FLISKADEE_BLOCK_BYTES], pad[MODEL_PAD_BYTES], file[3 * FLISKADEE_BLOCK_BYTES];
    size_t i;

    fliskadee_fresh_image(image);
    for (i = 0; i < ram_length; i++)
        ram[i] = (uint8_t)(i * 7 + i / 251);
    for (i = 0; i < sizeof pad; i++)
        pad[i] = (uint8_t)(i * 11);
    f->c = (struct test_case){.image = image, .image_length = sizeof image, .ram = ram, .ram_length = ram_length, .pad = pad,
                              .pad_length = sizeof pad};
    f->v = (struct saved_case){.ram = ram, .ram_length = ram_length, .file = file, .lent_image_length = sizeof image,
                               .lent_ram_length = ram_length, .lent_pad_length = sizeof pad};
    f->v.file_length = (size_t)model_save_file(image, sizeof image, ram, ram_length, pad, sizeof pad, file, sizeof file).number;
    f->file = file;
}

/* Places in turn, so that a cut is tried against each kind of them. */
static bool check_fixed(struct fixed *f, const char *kind)
{
    f->c.placement += 0x0101010101010101;
    f->v.kind = kind;
    return check_load(&f->c, &f->v);
}

static bool check_heads(struct fixed *f)
{
    size_t at, content, k;

    for (at = 0; at < f->v.file_length; at += 3 + content) {
        content = f->file[at + 1] + (size_t)256 * f->file[at + 2];
        for (k = at; k < at + 3; k++) {
            uint8_t old = f->file[k];
            unsigned i;

            for (i = 0; i < 256; i++) { /* the last one is as it was */
                f->file[k] = (uint8_t)(old + i + 1);
                if (!check_fixed(f, "a fixed file with another byte in a head"))
                    return false;
            }
        }
    }
    return true;
}

static bool check_cuts(struct fixed *f, size_t step)
{
    size_t whole = f->v.file_length;

    for (f->v.file_length = 0; f->v.file_length < whole; f->v.file_length += step)
        if (!check_fixed(f, "a fixed file that is cut"))
            return false;
    f->v.file_length = whole;
    return true;
}

static bool check_spaces(struct fixed *f)
{
    for (f->v.space_length = 0; f->v.space_length < f->v.file_length + 64; f->v.space_length++)
        if (!check_save(&f->c, &f->v))
            return false;
    return true;
}

/* Two files, of one short block and of a full one with a short one behind it. */
static bool check_fixed_files(void)
{
    static struct fixed f;

    make_fixed(&f, 4);
    if (!check_cuts(&f, 1) || !check_heads(&f) || !check_spaces(&f))
        return false;
    make_fixed(&f, FLISKADEE_BLOCK_BYTES + 4);
    return check_cuts(&f, 83) && check_heads(&f);
}

/* ---- Fixed draw lists ---------------------------------------------------------------- */

#define FIXED_LIST_CAPACITY 140002 /* words */

static uint32_t fixed_words[FIXED_LIST_CAPACITY];
static size_t fixed_length;

static void add_words(uint32_t word, size_t times)
{
    while (times-- > 0)
        fixed_words[fixed_length++] = word;
}

/* In both places. */
static bool check_fixed_list(const char *kind)
{
    struct draw_list l = {kind, fixed_words, fixed_length, false};

    if (!check_list(&l))
        return false;
    l.at_beginning = true;
    return check_list(&l);
}

/* Each byte with up to 12 words behind it, which are data, points, the end, or packets of their own. */
static bool check_top_bytes(void)
{
    static const uint32_t behind[] = {0, MODEL_POLYLINE_END, 0x68000000};
    uint32_t byte;
    unsigned i;
    size_t words;

    for (byte = 0; byte < 256; byte++)
        for (i = 0; i < sizeof behind / sizeof *behind; i++)
            for (words = 0; words <= 12; words++) {
                fixed_length = 0;
                add_words(byte << 24, 1);
                add_words(behind[i], words);
                if (!check_fixed_list("a fixed list by its top byte"))
                    return false;
            }
    return true;
}

/* Every packet once, in the order of their bytes or against it. */
static void make_every_packet(bool backwards)
{
    uint32_t i, first;

    fixed_length = 0;
    for (i = 0; i < 256; i++) {
        first = (backwards ? 255 - i : i) << 24;
        if (first >> 24 == MODEL_POLYLINE) {
            add_words(first, 1);
            add_words(0, 2);
            add_words(MODEL_POLYLINE_END, 1);
        } else if (model_packet_words(first) != 0) {
            add_words(first, 1);
            add_words(0, model_packet_words(first) - 1);
        }
    }
}

static bool check_every_packet(bool backwards)
{
    static const uint32_t others[] = {MODEL_POLYLINE_END, (uint32_t)MODEL_POLYLINE << 24, 0, 0x7C000000};
    size_t whole, k;
    unsigned i;

    make_every_packet(backwards);
    whole = fixed_length;
    for (fixed_length = 0; fixed_length < whole; fixed_length++)
        if (!check_fixed_list("a fixed list that is cut"))
            return false;
    for (k = 0; k < whole; k++) {
        uint32_t old = fixed_words[k];

        for (i = 0; i < sizeof others / sizeof *others; i++) {
            fixed_words[k] = others[i];
            if (!check_fixed_list("a fixed list with another word"))
                return false;
        }
        fixed_words[k] = old;
    }
    return check_fixed_list("a fixed list with every packet");
}

/* Without an end, with it, and with a packet behind it. */
static bool check_polyline(size_t points)
{
    fixed_length = 0;
    add_words((uint32_t)MODEL_POLYLINE << 24, 1);
    add_words(0x00100010, points);
    if (!check_fixed_list("a fixed polyline without an end"))
        return false;
    add_words(MODEL_POLYLINE_END, 1);
    if (!check_fixed_list("a fixed polyline"))
        return false;
    add_words(0x68000000, 2);
    return check_fixed_list("a fixed polyline and a packet");
}

static bool check_polylines(void)
{
    size_t points;

    for (points = 0; points <= 300; points++)
        if (!check_polyline(points))
            return false;
    for (points = 0x10000; points < 0x10003; points++)
        if (!check_polyline(points))
            return false;
    return true;
}

/* Numbers beyond 16 bits, of packets and of words. */
static bool check_long_list(void)
{
    fixed_length = 0;
    add_words(0x70000000, 2 * 70000);
    if (!check_fixed_list("a long fixed list"))
        return false;
    add_words(0x40000000, 2);
    if (!check_fixed_list("a long fixed list, cut"))
        return false;
    fixed_words[140000] = 0;
    return check_fixed_list("a long fixed list with an unknown byte");
}

static bool check_fixed_lists(void)
{
    const struct draw_list none = {"no list", NULL, 0, false};

    model.list_answer = model.draw_list(NULL, 0);
    library.list_answer = library.draw_list(NULL, 0);
    if (!answered(library.list_answer, model.list_answer.code, model.list_answer.number))
        return report_list(&none, "the answers differ");
    return check_top_bytes() && check_every_packet(false) && check_every_packet(true) && check_polylines() && check_long_list();
}

/* ---- The program -------------------------------------------------------------------- */

static bool parse(const char *text, uint64_t *value)
{
    char *end;

    errno = 0;
    *value = strtoull(text, &end, 0);
    return *text >= '0' && *text <= '9' && *end == '\0' && errno == 0;
}

struct options {
    uint64_t cases, first;
    bool coverage, whole, one; /* one: a case alone */
};

/* False, with the reason told, where the arguments are wrong. */
static bool read_options(int argc, char **argv, struct options *o)
{
    bool good = argc >= 3 && parse(argv[2], &seed);
    int i;

    if (argc >= 2 && (!parse(argv[1], &o->cases) || o->cases == 0)) {
        fprintf(stderr, "fuzz: the number of cases must be a number above 0, not '%s'\n", argv[1]);
        return false;
    }
    for (i = 3; i < argc; i++) {
        if (strcmp(argv[i], "--coverage") == 0)
            o->coverage = true;
        else if (strcmp(argv[i], "--whole") == 0)
            o->whole = true;
        else if (strcmp(argv[i], "--case") == 0 && i + 1 < argc && parse(argv[i + 1], &o->first))
            o->cases = 1, o->one = true, i++;
        else
            good = false;
    }
    if (!good)
        fprintf(stderr, "usage: fuzz N SEED [--coverage] [--whole] [--case K]\n");
    return good;
}

static void make_areas(struct side *s)
{
    s->image_area = make_area(CASE_IMAGE_CAPACITY);
    s->ram_area = make_area(CASE_RAM_CAPACITY);
    s->pad_area = make_area(CASE_PAD_CAPACITY);
    s->words_area = make_area(4 * QUESTION_CAPACITY);
    s->file_area = make_area(CASE_FILE_CAPACITY);
    s->space_area = make_area(CASE_FILE_CAPACITY);
    s->list_area = make_area(4 * FIXED_LIST_CAPACITY); /* more than a case's list has */
}

static void prepare(void)
{
    static const int signals[] = {SIGSEGV, SIGBUS, SIGILL, SIGFPE, SIGABRT};
    size_t i;

    make_areas(&library);
    make_areas(&model);
    for (i = 0; i < sizeof signals / sizeof *signals; i++)
        signal(signals[i], on_signal);
}

int main(int argc, char **argv)
{
    static uint8_t case_image[CASE_IMAGE_CAPACITY], case_ram[CASE_RAM_CAPACITY], case_pad[CASE_PAD_CAPACITY];
    struct test_case c = {.image = case_image, .ram = case_ram, .pad = case_pad};
    struct options o = {0};
    struct case_answers answers;
    uint64_t steps = 0, ran;
    bool walking;

    if (!read_options(argc, argv, &o))
        return 2;
    if (fliskadee_interface() != FLISKADEE_INTERFACE) {
        printf("FAULT: the library's interface is %u, the header's %u\n", (unsigned)fliskadee_interface(), FLISKADEE_INTERFACE);
        return 1;
    }
    walking = o.coverage || o.whole;
    prepare();
    for (ran = 0; ran < o.cases; ran++) {
        case_number = o.first + ran;
        generate_case(&c, seed, case_number);
        if (!check_case(&c, &answers))
            return 1;
        steps += answers.run % MODEL_CODE_UNIT;
        if (walking) {
            coverage_add(&c, &answers);
            if (!o.coverage && ran % 64 == 0) /* to save time, as both take longer than the case */
                walking = coverage_missing() != NULL;
        }
    }
    if (o.coverage)
        coverage_print();
    case_number = o.cases;
    if (!o.one && !(check_fixed_files() && check_fixed_lists()))
        return 1;
    printf("%llu cases of seed %llu agree, %llu steps\n", (unsigned long long)ran, (unsigned long long)seed,
           (unsigned long long)steps);
    if (o.whole && coverage_missing()) {
        printf("the coverage is not whole: %s\n", coverage_missing());
        return 1;
    }
    return 0;
}
