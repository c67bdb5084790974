/* The command-line tool: run machines, look at them, compare them, save and load them, find the step that set a flag, and say why
   it did; and check draw lists. */
#define _POSIX_C_SOURCE 200809L

#include <inttypes.h>
#include <stdbool.h>
#include <stdio.h>
#include <stdlib.h>
#include <string.h>
#include <strings.h>
#include <unistd.h>

#include "arguments.h"
#include "disassemble.h"
#include "draw_list_file.h"
#include "files.h"
#include "fliskadee.h"
#include "follow.h"
#include "image.h"
#include "machine.h"
#include "saved_file.h"
#include "show.h"
#include "why.h"

/* ---- run ---- */

/* Any number of steps, in pieces that the library takes. */
static struct outcome run_steps(struct machine *machine, uint64_t count)
{
    struct outcome outcome = {FLISKADEE_DONE, 0};
    struct progress progress;
    start_progress(&progress);
    do {
        struct outcome piece = run_piece(machine, least(count - outcome.steps, PIECE));
        outcome.code = piece.code;
        outcome.steps += piece.steps;
        show_progress(&progress, outcome.steps, count);
    } while (outcome.code == FLISKADEE_DONE && outcome.steps < count);
    end_progress(&progress);
    return outcome;
}

struct run_arguments {
    const char *positional[3]; /* the machine's files, then N */
    int files;
    const char *pad;
    const char *image_out;
    const char *ram_out;
    const char *pad_out;
    const char *saved_out;
    bool quiet;
};

static bool take_run_arguments(struct run_arguments *taken, int count, char **arguments)
{
    int positionals = 0;
    memset(taken, 0, sizeof *taken);
    for (int i = 0; i < count; i++) {
        bool good = true;
        if (is_option(arguments[i], "--image-out"))
            good = take_option("--image-out", "a file name", &taken->image_out, count, arguments, &i);
        else if (is_option(arguments[i], "--ram-out"))
            good = take_option("--ram-out", "a file name", &taken->ram_out, count, arguments, &i);
        else if (is_option(arguments[i], "--pad-out"))
            good = take_option("--pad-out", "a file name", &taken->pad_out, count, arguments, &i);
        else if (is_option(arguments[i], "--saved-out"))
            good = take_option("--saved-out", "a file name", &taken->saved_out, count, arguments, &i);
        else if (is_option(arguments[i], "--pad"))
            good = take_pad(&taken->pad, 1, count, arguments, &i);
        else if (strcmp(arguments[i], "--quiet") == 0)
            taken->quiet = true;
        else
            good = take_positional("run", taken->positional, 3, &positionals, arguments[i]);
        if (!good)
            return false;
    }
    taken->files = positionals - 1;
    return have_positionals("run", "IMAGE RAM N or SAVED N", 2, 3, positionals);
}

/* The exceptions that a run takes. A run is followed step by step up to a bound; a longer one would take too long. */
struct exceptions {
    bool counted;
    uint64_t number;
    uint64_t first; /* the step of the first one */
    unsigned code;  /* and its code */
};

static struct outcome run_counting(struct machine *machine, uint64_t count, struct exceptions *exceptions)
{
    enum { FOLLOWED = 10000000 };
    uint8_t before[FLISKADEE_IMAGE_BYTES];
    struct outcome outcome = run_piece(machine, 0);
    memset(exceptions, 0, sizeof *exceptions);
    exceptions->counted = count <= FOLLOWED;
    if (!was_run(outcome) || !exceptions->counted)
        return was_run(outcome) ? run_steps(machine, count) : outcome;
    while (outcome.steps < count) {
        memcpy(before, machine->image.data, FLISKADEE_IMAGE_BYTES);
        struct outcome step = run_piece(machine, 1);
        outcome.code = step.code;
        if (step.code != FLISKADEE_DONE)
            break;
        outcome.steps++;
        if (took_exception(before, machine->image.data) && exceptions->number++ == 0) {
            exceptions->first = outcome.steps;
            exceptions->code = fliskadee_get_word(machine->image.data, FLISKADEE_WORD_CAUSE) >> 2 & 31;
        }
    }
    return outcome;
}

static void print_exceptions(const struct exceptions *exceptions)
{
    if (!exceptions->counted)
        printf("Exceptions were not counted in so long a run.\n");
    else if (exceptions->number != 0)
        printf("%" PRIu64 " exception%s taken, the first at step %" PRIu64 " with code %u (%s).\n", exceptions->number,
               exceptions->number == 1 ? " was" : "s were", exceptions->first, exceptions->code,
               exception_name(exceptions->code));
}

/* The machine as a run left it. The library saves what it runs. */
static bool save_left(const struct machine *machine, struct bytes *saved)
{
    unsigned code;
    if (!save_machine(machine, saved, &code))
        return false;
    if (code != FLISKADEE_DONE)
        print_refusal(code, machine, "written");
    return code == FLISKADEE_DONE;
}

static int command_run(int count, char **arguments)
{
    struct run_arguments taken;
    struct machine machine;
    struct source source;
    struct bytes saved = {NULL, 0};
    struct exceptions exceptions;
    uint64_t steps;
    if (!take_run_arguments(&taken, count, arguments)
        || !parse_argument(taken.positional[taken.files], "N", 0, UINT64_MAX, &steps))
        return STATUS_TROUBLE;
    const struct output outputs[] = {
        {taken.image_out, &machine.image}, {taken.ram_out, &machine.ram}, {taken.pad_out, &machine.pad}, {taken.saved_out, &saved}};
    enum { OUTPUTS = sizeof outputs / sizeof outputs[0] };
    if (!check_outputs(outputs, OUTPUTS)
        || !read_machines("run", taken.positional, taken.files, &taken.pad, 1, &machine, &source))
        return STATUS_TROUBLE;
    struct outcome outcome = run_counting(&machine, steps, &exceptions);
    /* The files come first, as a reader of the report may end early. */
    bool written = !was_run(outcome)
                   || ((taken.saved_out == NULL || save_left(&machine, &saved)) && write_outputs(outputs, OUTPUTS));
    int status = STATUS_FINE;
    if (!taken.quiet || outcome.code != FLISKADEE_DONE)
        status = print_answer(outcome, &machine);
    if (was_run(outcome) && !taken.quiet) {
        print_exceptions(&exceptions);
        printf("\n");
        show_image(stdout, machine.image.data);
    }
    free(saved.data);
    free_machine(&machine);
    return written ? status : STATUS_TROUBLE;
}

/* ---- show, check, diff ---- */

static int command_show(int count, char **arguments)
{
    struct bytes image;
    (void)count;
    if (!read_image(arguments[0], &image))
        return STATUS_TROUBLE;
    show_image(stdout, image.data);
    free(image.data);
    return STATUS_FINE;
}

static void tell_wrong_word(void *context, unsigned word, const char *why)
{
    const uint8_t *image = context;
    printf("word %u (%s) is %08X: %s\n", word, word_name(word), (unsigned)fliskadee_get_word(image, word), why);
}

/* Memory for calls that are about something else: it only has to be of good length. */
static uint8_t some_ram[RAM_LEAST];
static uint8_t some_pad[FLISKADEE_PAD_BYTES];

/* What the library itself says of an image. */
static unsigned library_code(const struct bytes *image)
{
    return FLISKADEE_CODE(
        fliskadee_run(image->data, image->length, some_ram, sizeof some_ram, some_pad, sizeof some_pad, 0));
}

/* Whether it says of an image what this tool says. */
static bool library_agrees(const struct bytes *image, unsigned expected)
{
    unsigned code = library_code(image);
    if (code != expected)
        complain("DISAGREEMENT: this tool expects code %u for the image, but the library answers code %u. "
                 "One of the two is wrong; please report it.",
                 expected, code);
    return code == expected;
}

static int check_words(const struct bytes *image)
{
    unsigned wrong = check_image(image->data, tell_wrong_word, image->data);
    if (wrong == 0)
        printf("The image is well formed.\n");
    else
        printf("The image is not well formed: %u word%s wrong.\n", wrong, wrong == 1 ? " is" : "s are");
    if (!library_agrees(image, wrong == 0 ? FLISKADEE_DONE : FLISKADEE_REFUSED_IMAGE_FORM))
        return STATUS_TROUBLE;
    return wrong == 0 ? STATUS_FINE : STATUS_FINDING;
}

static bool all_zeros(const struct bytes *bytes)
{
    for (size_t i = 0; i < bytes->length; i++)
        if (bytes->data[i] != 0)
            return false;
    return true;
}

static int check_well_formed(const struct saved_form *form, const struct machine *machine)
{
    printf("The saved machine is well formed: %zu byte%s of RAM in %zu block%s, and a pad %s.\n", form->ram,
           form->ram == 1 ? "" : "s", form->blocks, form->blocks == 1 ? "" : "s",
           all_zeros(&machine->pad) ? "of zeros" : "that is not zeros");
    int status = check_words(&machine->image);
    if (is_ram_length(form->ram))
        return status;
    printf("No machine is run with %zu byte%s of RAM: the length is a multiple of 4 from %d to %d.\n", form->ram,
           form->ram == 1 ? "" : "s", RAM_LEAST, FLISKADEE_MOST_RAM);
    return status == STATUS_FINE ? STATUS_FINDING : status;
}

/* A file that is told to be a saved machine; one that is neither that nor an image. */
static int check_saved(const struct bytes *file, bool neither)
{
    struct saved_form form;
    struct machine machine;
    unsigned code;
    if (!open_saved(file, &form, &machine, &code))
        return STATUS_TROUBLE;
    if (form.malformed) {
        printf("%s %s.\n", neither ? "As a saved machine it" : "The saved machine is malformed. It", form.words);
        return STATUS_FINDING;
    }
    int status = check_well_formed(&form, &machine);
    free_machine(&machine);
    return status;
}

static int check_neither(const struct bytes *file)
{
    printf("The file has %zu bytes; an image has %d.\n", file->length, FLISKADEE_IMAGE_BYTES);
    if (!library_agrees(file, FLISKADEE_REFUSED_IMAGE_LENGTH))
        return STATUS_TROUBLE;
    return check_saved(file, true);
}

static int command_check(int count, char **arguments)
{
    struct bytes file;
    int status;
    (void)count;
    if (!read_file(arguments[0], FILE_MOST, &file))
        return STATUS_TROUBLE;
    if (begins_saved(&file))
        status = check_saved(&file, false);
    else
        status = file.length == FLISKADEE_IMAGE_BYTES ? check_words(&file) : check_neither(&file);
    free(file.data);
    return status;
}

static void print_source(const struct source *source)
{
    printf("%s", source->file);
    if (source->ram != NULL)
        printf(" and %s", source->ram);
}

/* Registers, RAM and pad. */
static int diff_machines(const struct machine machines[2], const struct source sources[2])
{
    uint64_t registers = compare_images(machines[0].image.data, machines[1].image.data);
    uint64_t words = compare_memories(machines);
    if (registers + words == 0) {
        printf("The machines are equal: registers, RAM and pad.\n");
        return STATUS_FINE;
    }
    printf("%" PRIu64 " register%s. In each pair above the first is of ", registers, registers == 1 ? " differs" : "s differ");
    print_source(&sources[0]);
    printf(", the second of ");
    print_source(&sources[1]);
    printf(".\n");
    return STATUS_FINDING;
}

/* Registers alone. One of the two may be a saved machine. */
static int diff_images(const struct machine machines[2], const struct source sources[2])
{
    uint64_t differing = compare_images(machines[0].image.data, machines[1].image.data);
    if (differing == 0)
        printf("The images are equal.");
    else
        printf("%" PRIu64 " register%s. In each pair above the first line is %s, the second %s.", differing,
               differing == 1 ? " differs" : "s differ", sources[0].file, sources[1].file);
    printf(" RAM and pad were not looked at");
    for (unsigned i = 0; i < 2; i++)
        if (machines[i].ram.data != NULL)
            printf(", since %s is an image alone", sources[1 - i].file);
    printf(".\n");
    return differing == 0 ? STATUS_FINE : STATUS_FINDING;
}

/* Two files, each a saved machine or an image alone. */
static int diff_alone(const char *const *files)
{
    const struct source sources[2] = {{files[0], NULL, NULL}, {files[1], NULL, NULL}};
    struct machine machines[2];
    if (!read_alone(files[0], &machines[0]))
        return STATUS_TROUBLE;
    if (!read_alone(files[1], &machines[1])) {
        free_machine(&machines[0]);
        return STATUS_TROUBLE;
    }
    bool whole = machines[0].ram.data != NULL && machines[1].ram.data != NULL;
    int status = whole ? diff_machines(machines, sources) : diff_images(machines, sources);
    free_machine(&machines[0]);
    free_machine(&machines[1]);
    return status;
}

static int command_diff(int count, char **arguments)
{
    const char *files[4];
    const char *pads[2] = {NULL, NULL};
    struct machine machines[2];
    struct source sources[2];
    int taken = 0;
    bool good = true;
    for (int i = 0; good && i < count; i++)
        good = is_option(arguments[i], "--pad") ? take_pad(pads, 2, count, arguments, &i)
                                                : take_positional("diff", files, 4, &taken, arguments[i]);
    if (!good || !have_positionals("diff", "IMAGE IMAGE, or twice IMAGE RAM or SAVED", 2, 4, taken))
        return STATUS_TROUBLE;
    if (taken == 2 && pads[0] == NULL)
        return diff_alone(files);
    if (!read_machines("diff", files, taken, pads, 2, machines, sources))
        return STATUS_TROUBLE;
    for (unsigned i = 0; good && i < 2; i++)
        good = has_length(sources[i].file, &machines[i].image, "an image", FLISKADEE_IMAGE_BYTES)
               && has_length(sources[i].pad, &machines[i].pad, "a pad", FLISKADEE_PAD_BYTES);
    int status = good ? diff_machines(machines, sources) : STATUS_TROUBLE;
    free_machine(&machines[0]);
    free_machine(&machines[1]);
    return status;
}

/* ---- flags, part ---- */

static int command_flags(int count, char **arguments)
{
    const char *positional[3];
    int positionals = 0;
    const char *bit_text = NULL;
    const char *pad = NULL;
    bool last = false;
    uint64_t bit = 0;
    uint64_t steps;
    struct machine machine;
    struct source source;
    for (int i = 0; i < count; i++) {
        if (strcmp(arguments[i], "--last") == 0) {
            last = true;
        } else if (is_option(arguments[i], "--bit")) {
            if (!take_option("--bit", "a number", &bit_text, count, arguments, &i))
                return STATUS_TROUBLE;
        } else if (is_option(arguments[i], "--pad")) {
            if (!take_pad(&pad, 1, count, arguments, &i))
                return STATUS_TROUBLE;
        } else if (!take_positional("flags", positional, 3, &positionals, arguments[i])) {
            return STATUS_TROUBLE;
        }
    }
    if (!have_positionals("flags", "IMAGE RAM N or SAVED N", 2, 3, positionals)
        || (bit_text != NULL && !parse_argument(bit_text, "B", 12, 31, &bit))
        || !parse_argument(positional[positionals - 1], "N", 0, UINT64_MAX, &steps)
        || !read_machines("flags", positional, positionals - 1, &pad, 1, &machine, &source))
        return STATUS_TROUBLE;
    int status = follow_flags(&machine, steps, bit_text == NULL ? -1 : (int)bit, last);
    free_machine(&machine);
    return status;
}

static int command_part(int count, char **arguments)
{
    const char *positional[5];
    const char *pads[2] = {NULL, NULL};
    int positionals = 0;
    struct part_options options = {false, false};
    struct machine machines[2];
    struct source sources[2];
    uint64_t steps;
    for (int i = 0; i < count; i++) {
        bool good = true;
        if (strcmp(arguments[i], "--flag") == 0)
            options.flag_alone = true;
        else if (strcmp(arguments[i], "--coarse") == 0)
            options.coarse = true;
        else if (is_option(arguments[i], "--pad"))
            good = take_pad(pads, 2, count, arguments, &i);
        else
            good = take_positional("part", positional, 5, &positionals, arguments[i]);
        if (!good)
            return STATUS_TROUBLE;
    }
    if (!have_positionals("part", "twice IMAGE RAM or SAVED, and N", 3, 5, positionals)
        || !parse_argument(positional[positionals - 1], "N", 0, UINT64_MAX, &steps)
        || !read_machines("part", positional, positionals - 1, pads, 2, machines, sources))
        return STATUS_TROUBLE;
    int status = follow_parting(machines, steps, options);
    free_machine(&machines[0]);
    free_machine(&machines[1]);
    return status;
}

/* ---- find-flag ---- */

/* The machine before the found step is in `before`, the one after it in `after`. */
static void print_found(unsigned bit, uint64_t step, const struct machine *before, const struct machine *after)
{
    uint32_t pc = fliskadee_get_word(before->image.data, FLISKADEE_WORD_PC);
    uint32_t word = 0;
    struct causes causes;
    bool fetched = fetch_word(before, pc, &word);
    printf("FLAG bit %u came up at step %" PRIu64 ".\n", bit, step);
    printf("  bit %u: %s\n\n", bit, flag_meaning(bit));
    print_instruction(before, "instruction ");
    if (fliskadee_get_word(before->image.data, FLISKADEE_WORD_DELAY_SLOT) != 0)
        printf("It stands in the delay slot of a jump or branch.\n");
    printf("\nFLAG before %08X\n", (unsigned)cop2_at(before->image.data, FLISKADEE_COP2_FLAG));
    show_flag(stdout, cop2_at(before->image.data, FLISKADEE_COP2_FLAG), "  ");
    printf("FLAG after  %08X\n", (unsigned)cop2_at(after->image.data, FLISKADEE_COP2_FLAG));
    if (is_command(word) && find_causes(&causes, before->image.data, word) == FLISKADEE_DONE)
        show_causes(stdout, &causes, "  ");
    else
        show_flag(stdout, cop2_at(after->image.data, FLISKADEE_COP2_FLAG), "  ");
    printf("\n");
    if (fetched)
        show_inputs(stdout, before->image.data, word);
}

/* Searches piece by piece. `before` is kept as the machine before the current piece, and on success is run on to
   just before the found step. */
static struct outcome search_flag(struct machine *machine, struct machine *before, uint64_t count, uint32_t mask)
{
    struct outcome outcome = {FLISKADEE_DONE, 0};
    struct progress progress;
    start_progress(&progress);
    do {
        assign_machine(before, machine);
        struct outcome piece = find_piece(machine, least(count - outcome.steps, PIECE), mask);
        outcome.code = piece.code;
        outcome.steps += piece.steps;
        if (piece.code == FLISKADEE_FLAG_UP && piece.steps > 0)
            run_piece(before, piece.steps - 1);
        show_progress(&progress, outcome.steps, count);
    } while (outcome.code == FLISKADEE_DONE && outcome.steps < count);
    end_progress(&progress);
    return outcome;
}

/* The step found by the search, run alone, has to leave the same machine as the search did. */
static bool confirm_found(const struct machine *before, const struct machine *after)
{
    struct machine again;
    if (!copy_machine(&again, before))
        return false;
    struct outcome step = run_piece(&again, 1);
    bool same = step.code == FLISKADEE_DONE && machines_equal(&again, after);
    if (!same)
        complain("DISAGREEMENT: the step that was found, run alone, leaves another machine than the search; "
                 "please report it.");
    free_machine(&again);
    return same;
}

/* The steps after the found one that wrote FLAG and left the bit set: the first ones by number, and how many more. */
static void print_set_again(struct machine *machine, unsigned bit, uint64_t done, uint64_t count)
{
    enum { LISTED = 8 };
    uint64_t times = 0;
    uint32_t word;
    while (done < count) {
        bool writes = writes_flag(machine, &word);
        if (run_piece(machine, 1).code != FLISKADEE_DONE)
            break;
        done++;
        if (!writes || (cop2_at(machine->image.data, FLISKADEE_COP2_FLAG) >> bit & 1) == 0)
            continue;
        if (times++ < LISTED)
            printf("%s %" PRIu64, times == 1 ? "\nThe bit was set again by step" : ",", done);
    }
    if (times > LISTED)
        printf(" and %" PRIu64 " more", times - LISTED);
    printf(times == 0 ? "\nNo later step of these set the bit again.\n" : ".\n");
}

static int report_search(unsigned bit, struct outcome outcome, const struct machine *before, struct machine *after,
                         uint64_t count)
{
    if (outcome.code == FLISKADEE_FLAG_UP) {
        if (!confirm_found(before, after))
            return STATUS_TROUBLE;
        print_found(bit, outcome.steps, before, after);
        print_set_again(after, bit, outcome.steps, count);
        return STATUS_FINE;
    }
    int status = print_answer(outcome, after);
    if (!was_run(outcome))
        return status;
    printf("FLAG bit %u did not come up.\n", bit);
    return STATUS_FINDING;
}

static int command_find_flag(int count, char **arguments)
{
    const char *positional[4];
    const char *pad = NULL;
    int positionals = 0;
    struct machine machine;
    struct machine before;
    struct source source;
    uint64_t bit;
    uint64_t steps;
    for (int i = 0; i < count; i++) {
        bool good = is_option(arguments[i], "--pad")
                        ? take_pad(&pad, 1, count, arguments, &i)
                        : take_positional("find-flag", positional, 4, &positionals, arguments[i]);
        if (!good)
            return STATUS_TROUBLE;
    }
    if (!have_positionals("find-flag", "BIT IMAGE RAM N or BIT SAVED N", 3, 4, positionals)
        || !parse_argument(positional[0], "BIT", 12, 31, &bit)
        || !parse_argument(positional[positionals - 1], "N", 0, UINT64_MAX, &steps)
        || !read_machines("find-flag", positional + 1, positionals - 2, &pad, 1, &machine, &source))
        return STATUS_TROUBLE;
    if (!copy_machine(&before, &machine)) {
        free_machine(&machine);
        return STATUS_TROUBLE;
    }
    if (machine.image.length == FLISKADEE_IMAGE_BYTES && (cop2_at(machine.image.data, FLISKADEE_COP2_FLAG) >> bit & 1) != 0)
        printf("FLAG bit %u is set at the start already; looking for the next time it comes up after being clear.\n",
               (unsigned)bit);
    struct outcome outcome = search_flag(&machine, &before, steps, UINT32_C(1) << bit);
    int status = report_search((unsigned)bit, outcome, &before, &machine, steps);
    free_machine(&before);
    free_machine(&machine);
    return status;
}

/* ---- why ---- */

/* After the line of the instruction: the causes, or why there are none. */
static int print_causes(const uint8_t *image, uint32_t command)
{
    struct causes causes;
    unsigned code = find_causes(&causes, image, command);
    switch (code) {
    case FLISKADEE_DONE: break;
    case FLISKADEE_REFUSED_IMAGE_FORM:
        printf("Code 2: refused, the image is not well formed (the command check says why).\n");
        return STATUS_FINDING;
    case FLISKADEE_UNLISTED: printf("Code 5: refused, it is not one of the 22 GTE commands.\n"); return STATUS_FINDING;
    default: complain("code %u: the library's answer is not one that this tool knows.", code); return STATUS_TROUBLE;
    }
    if (causes.count == 0) {
        printf("It sets no bit of FLAG.\n");
        return STATUS_FINE;
    }
    printf("It leaves FLAG %08X:\n", (unsigned)causes_flag(&causes, 0));
    show_causes(stdout, &causes, "  ");
    return STATUS_FINE;
}

static int why_word(const char *path, const char *text)
{
    struct bytes image;
    uint64_t word;
    char line[128];
    if (!parse_number(text, &word) || word > UINT32_MAX) {
        complain("WORD must be a 32-bit number (decimal, or hex after 0x), not \"%s\"; a RAM file is given as --ram RAM.", text);
        return STATUS_TROUBLE;
    }
    if (!read_image(path, &image))
        return STATUS_TROUBLE;
    uint32_t instruction = 0x4A000000 | ((uint32_t)word & 0x01FFFFFF);
    disassemble(instruction, 0, line, sizeof line);
    printf("%08X  %s\n", (unsigned)instruction, line);
    /* Without any of the seven bits is how 001 prints commands. */
    if (word >> 25 != 0 && !is_command((uint32_t)word))
        printf("The top seven bits of %08X, which are not those of a GTE command, are ignored.\n", (unsigned)word);
    int status = print_causes(image.data, (uint32_t)word);
    free(image.data);
    return status;
}

static int print_no_fetch(const struct machine *machine)
{
    uint32_t pc = fliskadee_get_word(machine->image.data, FLISKADEE_WORD_PC);
    bool user = (fliskadee_get_word(machine->image.data, FLISKADEE_WORD_SR) >> 1 & 1) != 0;
    const char *reason = in_pad(machine, pc) ? "it is in the pad, not in RAM, and the step takes IBE"
                                             : "it is not in RAM, and the step takes IBE";
    if (pc % 4 != 0)
        reason = "it is no multiple of 4, and the step takes AdEL";
    else if (user && pc >> 31 != 0)
        reason = "user mode does not reach it, and the step takes AdEL";
    printf("Nothing is fetched at PC %08X: %s.\n", (unsigned)pc, reason);
    return STATUS_FINDING;
}

static int why_next(struct machine *machine)
{
    uint32_t word;
    struct outcome outcome = run_piece(machine, 0);
    if (!was_run(outcome))
        return print_answer(outcome, machine);
    if (!next_instruction(machine, &word))
        return print_no_fetch(machine);
    print_instruction(machine, "");
    if (!is_command(word)) {
        printf("The instruction at PC is no GTE command. To ask about a later one, run to just before it, or give its word.\n");
        if (is_flag_move(word))
            show_inputs(stdout, machine->image.data, word);
        return STATUS_FINDING;
    }
    if (!gte_usable(machine->image.data))
        printf("CU2 of SR is clear: the step itself takes CpU and carries out no command. With CU2 set:\n");
    return print_causes(machine->image.data, word);
}

static int command_why(int count, char **arguments)
{
    const char *positional[2];
    const char *ram = NULL;
    const char *no_pad = NULL; /* nothing is fetched from the pad, so its words do not matter */
    int positionals = 0;
    struct machine machine;
    struct source source;
    for (int i = 0; i < count; i++) {
        bool good = is_option(arguments[i], "--ram") ? take_option("--ram", "a file name", &ram, count, arguments, &i)
                                                     : take_positional("why", positional, 2, &positionals, arguments[i]);
        if (!good)
            return STATUS_TROUBLE;
    }
    if (positionals == 2 && ram == NULL)
        return why_word(positional[0], positional[1]);
    if (positionals != 1) {
        complain("why takes IMAGE WORD, or IMAGE --ram RAM for the command at PC, or SAVED in place of either; "
                 "see fliskadee why --help.");
        return STATUS_TROUBLE;
    }
    const char *const files[2] = {positional[0], ram};
    if (!read_machines("why", files, ram == NULL ? 1 : 2, &no_pad, 1, &machine, &source))
        return STATUS_TROUBLE;
    int status = why_next(&machine);
    free_machine(&machine);
    return status;
}

/* ---- disassemble ---- */

static int command_disassemble(int count, char **arguments)
{
    struct bytes ram;
    uint64_t address;
    uint64_t words;
    (void)count;
    if (!parse_argument(arguments[1], "ADDRESS", 0, UINT32_MAX, &address)
        || !parse_argument(arguments[2], "COUNT", 1, FLISKADEE_MOST_RAM / 4, &words))
        return STATUS_TROUBLE;
    if (address % 4 != 0) {
        complain("ADDRESS must be a multiple of 4, as instructions are, not %s.", arguments[1]);
        return STATUS_TROUBLE;
    }
    if (!read_file(arguments[0], FILE_MOST, &ram))
        return STATUS_TROUBLE;
    uint64_t part = fliskadee_window(ram.data, ram.length, some_pad, sizeof some_pad, (uint32_t)address, 4 * words);
    if (!is_ram_length(ram.length)) {
        complain("%s has %zu bytes; a RAM has a multiple of 4 from %d to %d.", arguments[0], ram.length, RAM_LEAST, FLISKADEE_MOST_RAM);
        free(ram.data);
        return STATUS_TROUBLE;
    }
    if (FLISKADEE_WINDOW_LENGTH(part) == 0 || FLISKADEE_WINDOW_IN_PAD(part)) {
        complain("%" PRIu64 " words at %08X are not all in this RAM of %zu bytes.", words, (unsigned)address,
                 ram.length);
        free(ram.data);
        return STATUS_TROUBLE;
    }
    for (uint64_t i = 0; i < words; i++) {
        uint32_t pc = (uint32_t)(address + 4 * i);
        uint32_t word = fliskadee_get_word(ram.data + FLISKADEE_WINDOW_PLACE(part), i);
        char text[128];
        disassemble(word, pc, text, sizeof text);
        printf("%08X  %08X  %s\n", (unsigned)pc, (unsigned)word, text);
    }
    free(ram.data);
    return STATUS_FINE;
}

/* ---- make-image ---- */

static bool set_from_argument(uint8_t *image, const char *argument, bool *next_pc_given)
{
    char name[32];
    char why[200];
    const char *equals = strchr(argument, '=');
    if (equals == NULL || equals == argument || (size_t)(equals - argument) >= sizeof name) {
        complain("\"%s\" is not of the form NAME=VALUE.", argument);
        return false;
    }
    memcpy(name, argument, (size_t)(equals - argument));
    name[equals - argument] = '\0';
    if (!set_by_name(image, name, equals + 1, why, sizeof why)) {
        complain("%s.", why);
        return false;
    }
    if (strcasecmp(name, word_name(FLISKADEE_WORD_NEXT_PC)) == 0)
        *next_pc_given = true;
    return true;
}

static void tell_refused_word(void *context, unsigned word, const char *why)
{
    bool *told = context;
    if (!*told)
        complain("such an image would not be well formed: %s, word %u: %s.", word_name(word), word, why);
    *told = true;
}

/* An existing file is written over only where that is asked for. */
static bool may_write(const char *path, bool replace)
{
    if (replace || is_standard(path) || access(path, F_OK) != 0)
        return true;
    complain("%s exists; give --replace to write over it.", path);
    return false;
}

static int write_made(const char *path, bool replace, const struct bytes *bytes)
{
    const struct output output = {path, bytes};
    return may_write(path, replace) && write_outputs(&output, 1) ? STATUS_FINE : STATUS_TROUBLE;
}

/* The image that a new one starts from. */
static bool start_image(uint8_t *image, const char *from)
{
    struct bytes bytes;
    if (from == NULL) {
        fliskadee_fresh_image(image);
        return true;
    }
    if (!read_image(from, &bytes))
        return false;
    memcpy(image, bytes.data, FLISKADEE_IMAGE_BYTES);
    free(bytes.data);
    return true;
}

static int command_make_image(int count, char **arguments)
{
    uint8_t image[FLISKADEE_IMAGE_BYTES];
    const char *path = NULL;
    const char *from = NULL;
    bool replace = false;
    bool next_pc_given = false;
    bool pc_given = false;
    bool told = false;
    for (int i = 0; i < count; i++)
        if (is_option(arguments[i], "--from") && !take_option("--from", "an image", &from, count, arguments, &i))
            return STATUS_TROUBLE;
    if (!start_image(image, from))
        return STATUS_TROUBLE;
    for (int i = 0; i < count; i++) {
        if (strcmp(arguments[i], "--replace") == 0) {
            replace = true;
        } else if (is_option(arguments[i], "--from")) {
            i += strchr(arguments[i], '=') == NULL;
        } else if (strncmp(arguments[i], "--", 2) == 0) {
            complain("make-image has no option %s.", arguments[i]);
            return STATUS_TROUBLE;
        } else if (path == NULL) {
            path = arguments[i];
        } else if (!set_from_argument(image, arguments[i], &next_pc_given)) {
            return STATUS_TROUBLE;
        } else {
            pc_given = pc_given || strncasecmp(arguments[i], "PC=", 3) == 0;
        }
    }
    if (path == NULL) {
        complain("make-image needs a file name; see fliskadee make-image --help.");
        return STATUS_TROUBLE;
    }
    /* An image that is taken over keeps its next PC, unless its PC is set. */
    if (!next_pc_given && (from == NULL || pc_given))
        fliskadee_set_word(image, FLISKADEE_WORD_NEXT_PC, fliskadee_get_word(image, FLISKADEE_WORD_PC) + 4);
    settle_image(image);
    if (check_image(image, tell_refused_word, &told) != 0)
        return STATUS_TROUBLE;
    const struct bytes bytes = {image, sizeof image};
    return write_made(path, replace, &bytes);
}

/* ---- make-ram, make-pad ---- */

static bool store_from_argument(const struct machine *machine, enum memory made, const char *argument)
{
    char address_text[32];
    uint64_t address;
    uint64_t word;
    struct place place;
    const struct bytes *bytes = memory_of(machine, made);
    const char *equals = strchr(argument, '=');
    if (equals == NULL || (size_t)(equals - argument) >= sizeof address_text) {
        complain("\"%s\" is not of the form ADDRESS=WORD.", argument);
        return false;
    }
    memcpy(address_text, argument, (size_t)(equals - argument));
    address_text[equals - argument] = '\0';
    if (!parse_argument(address_text, "ADDRESS", 0, UINT32_MAX, &address)
        || !parse_argument(equals + 1, "WORD", 0, UINT32_MAX, &word))
        return false;
    if (address % 4 != 0 || !find_word(machine, (uint32_t)address, &place) || place.memory != made) {
        complain("a word at %s is not in this %s of %zu bytes, or not at a multiple of 4.", address_text,
                 made == MEMORY_RAM ? "RAM" : "pad", bytes->length);
        return false;
    }
    fliskadee_set_word(bytes->data + place.offset, 0, (uint32_t)word);
    return true;
}

static bool parse_ram_length(const char *text, uint64_t *length)
{
    if (!parse_argument(text, "BYTES", RAM_LEAST, FLISKADEE_MOST_RAM, length))
        return false;
    if (*length % 4 == 0)
        return true;
    complain("BYTES must be a multiple of 4, not %s.", text);
    return false;
}

/* Takes the file's name, for a RAM its length too, and then the words. The other memory of the machine only has to be of good
   length. */
static int make_memory(const char *command, enum memory made, int count, char **arguments)
{
    static uint8_t ram[FLISKADEE_MOST_RAM];
    static uint8_t pad[FLISKADEE_PAD_BYTES];
    const char *positional[2] = {NULL, NULL};
    int wanted = made == MEMORY_RAM ? 2 : 1;
    int positionals = 0;
    int stores = count;
    bool replace = false;
    uint64_t length = RAM_LEAST;
    for (int i = 0; i < count; i++) {
        if (strcmp(arguments[i], "--replace") == 0)
            replace = true;
        else if (!take_positional(command, positional, wanted, &positionals, arguments[i]))
            return STATUS_TROUBLE;
        if (positionals == wanted && stores == count)
            stores = i + 1;
    }
    if (positionals < wanted) {
        complain("%s takes %s; see fliskadee %s --help.", command, made == MEMORY_RAM ? "FILE BYTES" : "FILE", command);
        return STATUS_TROUBLE;
    }
    if (made == MEMORY_RAM && !parse_ram_length(positional[1], &length))
        return STATUS_TROUBLE;
    const struct machine machine = {.ram = {ram, (size_t)length}, .pad = {pad, sizeof pad}};
    for (int i = stores; i < count; i++)
        if (strncmp(arguments[i], "--", 2) != 0 && !store_from_argument(&machine, made, arguments[i]))
            return STATUS_TROUBLE;
    return write_made(positional[0], replace, memory_of(&machine, made));
}

static int command_make_ram(int count, char **arguments)
{
    return make_memory("make-ram", MEMORY_RAM, count, arguments);
}

static int command_make_pad(int count, char **arguments)
{
    return make_memory("make-pad", MEMORY_PAD, count, arguments);
}

/* ---- save, load ---- */

static int command_save(int count, char **arguments)
{
    const char *positional[3];
    const char *pad = NULL;
    int positionals = 0;
    bool replace = false;
    struct machine machine;
    struct bytes saved = {NULL, 0};
    unsigned code;
    for (int i = 0; i < count; i++) {
        bool good = true;
        if (strcmp(arguments[i], "--replace") == 0)
            replace = true;
        else if (is_option(arguments[i], "--pad"))
            good = take_pad(&pad, 1, count, arguments, &i);
        else
            good = take_positional("save", positional, 3, &positionals, arguments[i]);
        if (!good)
            return STATUS_TROUBLE;
    }
    if (!have_positionals("save", "IMAGE RAM FILE", 3, 3, positionals))
        return STATUS_TROUBLE;
    const struct output output = {positional[2], &saved};
    if (!may_write(output.path, replace) || !check_outputs(&output, 1)
        || !read_machine(&machine, positional[0], positional[1], pad))
        return STATUS_TROUBLE;
    int status = STATUS_TROUBLE;
    if (save_machine(&machine, &saved, &code)) {
        if (code != FLISKADEE_DONE)
            status = print_refusal(code, &machine, "written");
        else if (write_outputs(&output, 1))
            status = STATUS_FINE;
    }
    free(saved.data);
    free_machine(&machine);
    return status;
}

/* Writes the files of a machine that the library has loaded. */
static int write_loaded(unsigned code, const char *path, const struct machine *machine, const struct output outputs[3])
{
    if (code == FLISKADEE_REFUSED_SPACE) {
        complain("%s is a well-formed saved machine, but no machine is run with %zu byte%s of RAM: the length is a multiple of 4 "
                 "from %d to %d. Nothing was written.",
                 input_name(path), machine->ram.length, machine->ram.length == 1 ? "" : "s", RAM_LEAST, FLISKADEE_MOST_RAM);
        return STATUS_TROUBLE;
    }
    if (code != FLISKADEE_DONE)
        return print_refusal(code, machine, "written");
    if (outputs[2].path == NULL && !all_zeros(&machine->pad)) {
        complain("the pad of %s is not zeros, which commands take where no pad is given; name a file for it after that of the "
                 "RAM. Nothing was written.",
                 input_name(path));
        return STATUS_TROUBLE;
    }
    return write_outputs(outputs, 3) ? STATUS_FINE : STATUS_TROUBLE;
}

static int command_load(int count, char **arguments)
{
    const char *positional[4] = {NULL, NULL, NULL, NULL};
    int positionals = 0;
    bool replace = false;
    struct machine machine;
    struct bytes file;
    unsigned code;
    for (int i = 0; i < count; i++) {
        if (strcmp(arguments[i], "--replace") == 0)
            replace = true;
        else if (!take_positional("load", positional, 4, &positionals, arguments[i]))
            return STATUS_TROUBLE;
    }
    if (!have_positionals("load", "FILE IMAGE RAM and where it is not zeros PAD", 3, 4, positionals))
        return STATUS_TROUBLE;
    const struct output outputs[3] = {
        {positional[1], &machine.image}, {positional[2], &machine.ram}, {positional[3], &machine.pad}};
    for (int i = 1; i < positionals; i++)
        if (!may_write(positional[i], replace))
            return STATUS_TROUBLE;
    if (!check_outputs(outputs, 3) || !read_file(positional[0], FILE_MOST, &file))
        return STATUS_TROUBLE;
    int status = STATUS_TROUBLE;
    if (load_saved(positional[0], &file, &machine, &code)) {
        status = write_loaded(code, positional[0], &machine, outputs);
        free_machine(&machine);
    }
    free(file.data);
    return status;
}

/* ---- drawlist ---- */

static int command_drawlist(int count, char **arguments)
{
    const char *path;
    int positionals = 0;
    bool quiet = false;
    for (int i = 0; i < count; i++) {
        if (strcmp(arguments[i], "--quiet") == 0)
            quiet = true;
        else if (!take_positional("drawlist", &path, 1, &positionals, arguments[i]))
            return STATUS_TROUBLE;
    }
    if (!have_positionals("drawlist", "FILE", 1, 1, positionals))
        return STATUS_TROUBLE;
    return check_draw_list(path, quiet);
}

/* ---- Commands ---- */

struct command {
    const char *name;
    int (*act)(int count, char **arguments);
    int arguments;  /* how many it takes; -1 when it counts them itself */
    const char *usage;
    const char *summary;
    const char *help;
};

#define PAD_HELP \
    "The scratch pad is zeros, or with --pad the file of 1024 bytes that is named. In place of IMAGE and RAM one file\n" \
    "SAVED may stand, a saved machine (see save), which has its own pad.\n"
#define PADS_HELP \
    "Both scratch pads are zeros; or --pad is given twice, with a file of 1024 bytes for the first machine and then\n" \
    "with one for the second. In place of each IMAGE and RAM one file SAVED may stand, a saved machine (see save), which\n" \
    "has its own pad; where one of the two is saved, --pad is given once, for the other, or not at all.\n"

static const struct command commands[] = {
    {"run", command_run, -1,
     "(IMAGE RAM | SAVED) N [--pad FILE] [--image-out FILE] [--ram-out FILE] [--pad-out FILE] [--saved-out FILE] [--quiet]",
     "run N steps and print the registers",
     "Runs N steps of the machine in the files IMAGE and RAM, and prints the library's answer in words and\n"
     "every register by name. N may be any 64-bit number; more than 1,000,000 are run in pieces. Exceptions that\n"
     "were taken are mentioned, in runs of up to 10,000,000 steps. With --quiet only what is not code 0 is said.\n"
     PAD_HELP
     "The files themselves never change. With --image-out, --ram-out and --pad-out the machine after the run is\n"
     "written to the files named, and with --saved-out as one saved machine. They may be those it was read from: all\n"
     "of them are written or none, and none if the run is refused.\n"
     "If the run stops before an unknown GTE command (code 5), the machine just before it is printed and written.\n"
     "\n"
     "Status: 0 all steps done; 1 stopped with code 5, or the image is not well formed; 2 bad usage, file trouble,\n"
     "a file of a wrong length, or a malformed saved machine.\n"},
    {"show", command_show, 1, "IMAGE | SAVED", "print every register of an image by name",
     "Prints the general registers, PC, the load delay, SR and CAUSE with their bits, and all COP2 registers by\n"
     "name; FLAG is explained bit by bit. An image that is not well formed is printed too, with a note. Of a saved\n"
     "machine it is the image that is printed.\n"
     "\n"
     "Status: 0 printed; 2 bad usage or file trouble.\n"},
    {"check", command_check, 1, "IMAGE | SAVED", "say what is not well formed in an image or a saved machine, and why",
     "Prints a line for each word of an image that is not well formed, with the reason. Of a saved machine it says how\n"
     "much RAM it has and whether its pad is zeros, and then the same of its image; or, where it is malformed, the first\n"
     "byte that cannot stand there, what it is, and what can stand there, or where it ends too early. A file that begins\n"
     "with the bytes 01 B0 00 is taken for a saved machine, any other one of 432 bytes for an image. The library is asked\n"
     "as well; if it disagrees with this tool, that is said on stderr and the status is 2.\n"
     "\n"
     "Status: 0 well formed; 1 not well formed, malformed, neither an image nor a saved machine, or a saved machine with\n"
     "RAM of a length that is not run; 2 bad usage or file trouble.\n"},
    {"diff", command_diff, -1, "IMAGE IMAGE | (IMAGE RAM | SAVED) (IMAGE RAM | SAVED) [--pad FILE ...]",
     "compare two images, or two machines with RAM and pad",
     "Prints each register that differs, its value in the first image above its value in the second; FLAG is\n"
     "explained bit by bit. With two images and two RAMs, in the order IMAGE RAM IMAGE RAM, the words of RAM and\n"
     "then of the scratch pad that differ follow: the physical address and both values, the first 32 of each, and\n"
     "how many there are. With two images alone, or an image alone and a saved machine, it says that RAM and pad were\n"
     "not looked at.\n"
     PADS_HELP
     "\n"
     "Status: 0 equal; 1 different; 2 bad usage or file trouble.\n"},
    {"flags", command_flags, -1, "(IMAGE RAM | SAVED) N [--pad FILE] [--bit B] [--last]", "list the steps that wrote FLAG, and why",
     "Runs at most N steps and prints a line for each completed step that wrote FLAG (a GTE command, or CTC2 to\n"
     "register 63): the step, its PC, word and instruction, FLAG before and after, and the bits that came (+) and\n"
     "went (-) by name. Under a GTE command stands a line for each cause of a bit that it set, as why tells them but\n"
     "without the text of 001. With --bit B only the steps that left bit B (12..31) set, also where it was set before.\n"
     "With --last only the last of them: without --bit that is the step that left the FLAG that stands.\n"
     "The lists of two machines can be compared with diff(1).\n"
     PAD_HELP
     "\n"
     "Status: 0 printed; 1 no such step, or the run stopped before an unknown GTE command, or the image is not well\n"
     "formed; 2 bad usage or file trouble.\n"},
    {"part", command_part, -1, "(IMAGE RAM | SAVED) (IMAGE RAM | SAVED) N [--pad FILE ...] [--flag] [--coarse]",
     "find the step at which two machines part",
     "Runs two machines in lockstep, at most N steps, and finds the first step at which something that was equal\n"
     "differs: a register, or the word of RAM or of the scratch pad that a store addressed; with --flag, FLAG alone.\n"
     "What differs at the start is listed first and does not count. Prints the step; PC, word and instruction on\n"
     "both sides; the registers that part, and each bit of FLAG that one side has and the other has not; for a GTE\n"
     "command the causes of those bits (see why) and its inputs on both sides, with < and > where they differ, and\n"
     "for a triple which vertex (or colour) it is; and whether and when the two are equal again.\n"
     "With --coarse pieces of 1,000,000 steps are compared at their ends first: quicker, but a parting that heals\n"
     "inside a piece is missed.\n"
     PADS_HELP
     "\n"
     "Status: 0 they do not part; 1 they part, or one stops before an unknown GTE command, or an image is not well\n"
     "formed; 2 bad usage or file trouble.\n"},
    {"find-flag", command_find_flag, -1, "BIT (IMAGE RAM | SAVED) N [--pad FILE]",
     "find the first step at which a bit of FLAG comes up",
     "Runs at most N steps and finds the first one at which bit BIT (12..31) of FLAG comes up: it is clear before\n"
     "the step and set after it. Prints the step's number (the first step is 1), its PC and instruction, FLAG before\n"
     "and after bit by bit, for a GTE command with the causes of each bit (see why), and the registers that the\n"
     "instruction took its result from; for RTPS and RTPT also each vertex after rotation and translation.\n"
     "If the bit is set at the start already, that is said, and the next time it comes up is looked for. A command\n"
     "that finds the bit set and sets it again is not such a time; those steps are named after the others. Which step\n"
     "left the FLAG that stands is what flags --last says. No file changes.\n"
     PAD_HELP
     "\n"
     "  12 IR0   13 SY2   14 SX2   15 MAC0 negative   16 MAC0 positive   17 divide overflow   18 SZ3 or OTZ\n"
     "  19 blue   20 green   21 red   22 IR3   23 IR2   24 IR1   25 MAC3 negative   26 MAC2 negative\n"
     "  27 MAC1 negative   28 MAC3 positive   29 MAC2 positive   30 MAC1 positive   31 error (30..23, 18..13)\n"
     "\n"
     "Status: 0 found; 1 not found, or the image is not well formed; 2 bad usage or file trouble.\n"},
    {"why", command_why, -1, "IMAGE WORD | IMAGE --ram RAM | SAVED [WORD]", "say why a GTE command sets bits of FLAG",
     "Prints FLAG as a GTE command leaves it on the machine of IMAGE, bit by bit, and under each bit from 30 to 12 every\n"
     "cause: for a triple the part and its vertex (or colour); the line of the command's formula in 001, by its text and\n"
     "its number (counted from 1: the lines of the block that write a register, those marked for other commands too);\n"
     "and the exact value that left its range, or H and SZ3 for bit 17.\n"
     "WORD is the command: decimal, or hex after 0x; its top seven bits are ignored. With --ram in place of WORD it is\n"
     "the instruction at PC, as the next step fetches it, which is never from the scratch pad; so it is of a saved machine\n"
     "without WORD. Where CU2 of SR is clear, the causes are told all the same, and that the step itself takes CpU. No\n"
     "file changes.\n"
     "\n"
     "Status: 0 printed, also where no bit is set; 1 the image is not well formed, the command is not one of the 22, or\n"
     "there is none at PC; 2 bad usage or file trouble.\n"},
    {"disassemble", command_disassemble, 3, "RAM ADDRESS COUNT", "print instructions from a RAM file",
     "Prints COUNT instructions from the virtual address ADDRESS on: address, word and text. ADDRESS is decimal, or\n"
     "hex after 0x, and a multiple of 4; addresses beginning with bits 000, 100 and 101 name the same RAM.\n"
     "\n"
     "Status: 0 printed; 2 bad usage, file trouble, or not all of the words are in RAM.\n"},
    {"save", command_save, -1, "IMAGE RAM [--pad FILE] FILE [--replace]", "write a machine as one file",
     "Writes the machine of IMAGE, RAM and scratch pad, which is zeros where no --pad is given, to FILE as a saved\n"
     "machine. A machine has one such file and a file one machine, byte for byte. Commands take it, as SAVED, in place of\n"
     "IMAGE and RAM, and load takes it apart again. include/fliskadee.h says how its bytes stand.\n"
     "An existing file is replaced only with --replace.\n"
     "\n"
     "Status: 0 written; 1 the image is not well formed; 2 bad usage, file trouble, or a file of a wrong length.\n"},
    {"load", command_load, -1, "FILE IMAGE RAM [PAD] [--replace]", "write the image, the RAM and the pad of a saved machine",
     "Writes the machine of the saved machine FILE to the files IMAGE, RAM and PAD: all of them or none. Without PAD the\n"
     "pad has to be zeros, which commands take where no pad is given. Existing files are replaced only with --replace.\n"
     "\n"
     "Status: 0 written; 1 the image is not well formed; 2 bad usage, file trouble, a malformed saved machine, RAM of a\n"
     "length that is not run, or a pad that is not zeros and has no file.\n"},
    {"drawlist", command_drawlist, -1, "FILE [--quiet]", "list the packets of a draw list, and say where it goes wrong",
     "Prints a line for each packet of the draw list in FILE, whose words are little-endian: the word at which it begins,\n"
     "counted from 0, how many words it has, its first word, and what 000 calls it; for a polyline also how many points\n"
     "it has. Then the library's answer: accepted, or the word at which the list goes wrong, with its byte in the file,\n"
     "and why: its top byte begins no packet, the list ends inside the packet, or a polyline has too few points. The\n"
     "packets before that one are listed. With --quiet only the answer is printed. include/fliskadee.h says which packets\n"
     "there are. The library is asked for each packet as well; if it disagrees with this tool, that is said on stderr and\n"
     "the status is 2.\n"
     "\n"
     "Status: 0 accepted, as an empty file is; 1 refused; 2 bad usage, file trouble, or a length that is no multiple of 4.\n"},
    {"make-image", command_make_image, -1, "FILE [--from IMAGE | --from SAVED] [NAME=VALUE ...] [--replace]",
     "write a fresh image, or a changed one",
     "Writes a well-formed image: every register 0 but LZCR, which is 32, and the next PC, which is PC + 4.\n"
     "With --from the registers are those of IMAGE, or of a saved machine, and only those that are named change.\n"
     "Registers are set by name, in capitals or not:\n"
     "  r1..r31 or at, v0, ..., ra; HI, LO, PC, NEXT_PC, LOAD_REGISTER, LOAD_VALUE, DELAY_SLOT, SR, CAUSE, EPC,\n"
     "  BADV; and the COP2 registers as the command show prints them. Halves have names of their own: VX0, VY0,\n"
     "  SX0, SY0, RT11..RT33, L11..L33, LR1..LB3. IRGB, ORGB, SXYP and LZCR follow other registers and cannot be\n"
     "  set; nor can bit 31 of FLAG.\n"
     "Values are decimal, with or without a minus sign, or hex after 0x. To use the GTE, set SR=0x40000000.\n"
     "An existing file is replaced only with --replace.\n"
     "\n"
     "Status: 0 written; 2 bad usage or file trouble.\n"},
    {"make-ram", command_make_ram, -1, "FILE BYTES [ADDRESS=WORD ...] [--replace]", "write a RAM of zeros and some words",
     "Writes a RAM file of BYTES bytes, a multiple of 4 from 4 to 2097152: zeros, and the words given, little-endian.\n"
     "ADDRESS and WORD are decimal, or hex after 0x; an address is a multiple of 4 in RAM.\n"
     "An existing file is replaced only with --replace.\n"
     "\n"
     "Status: 0 written; 2 bad usage or file trouble.\n"},
    {"make-pad", command_make_pad, -1, "FILE [ADDRESS=WORD ...] [--replace]", "write a scratch pad of zeros and some words",
     "Writes a pad file of 1024 bytes: zeros, and the words given, little-endian.\n"
     "ADDRESS and WORD are decimal, or hex after 0x; an address is a multiple of 4 in the pad, as loads and stores have\n"
     "it: 0x1F800000 to 0x1F8003FC, or the same from 0x9F800000 on.\n"
     "An existing file is replaced only with --replace.\n"
     "\n"
     "Status: 0 written; 2 bad usage or file trouble.\n"},
};

enum { COMMANDS = sizeof commands / sizeof commands[0] };

static void print_help(void)
{
    printf("fliskadee COMMAND ...\n\n"
           "Runs machines of the Fliskadee library (an R3000A with its geometry unit, GTE) from files, and looks at\n"
           "them. An image is a file of %d bytes with all registers; a RAM is a file of %d to %d bytes; a scratch pad\n"
           "is a file of %d bytes, and zeros where no file is given; a saved machine is one file with all three. A draw\n"
           "list is a file of words for the graphics unit.\n\n",
           FLISKADEE_IMAGE_BYTES, RAM_LEAST, FLISKADEE_MOST_RAM, FLISKADEE_PAD_BYTES);
    for (int i = 0; i < COMMANDS; i++)
        printf("  %s %s\n      %s\n", commands[i].name, commands[i].usage, commands[i].summary);
    printf("\nfliskadee COMMAND --help, or fliskadee help COMMAND, says more of each; --version names the interface.\n\n"
           "Where a file is read or written, - is standard input or output. After -- nothing is an option.\n"
           "No file changes unless a command is asked to write it; a file is replaced whole or not at all.\n"
           "Status: 0 fine; 1 a negative finding (images differ, not well formed, flag not found, run stopped before\n"
           "an unknown GTE command, no GTE command to explain, draw list refused); 2 bad usage or file trouble, as is a\n"
           "malformed saved machine to every command but check.\n");
}

static void print_command_help(const struct command *command)
{
    printf("fliskadee %s %s\n\n%s", command->name, command->usage, command->help);
}

static bool is_help(const char *argument)
{
    return strcmp(argument, "--help") == 0 || strcmp(argument, "-h") == 0;
}

/* Takes the first -- away. What stands after it is no option: a name that begins with - is written ./-.. instead, which names
   the same file. Answers how many arguments are left, or -1 where there is no memory. */
static int take_dashes(int count, char **arguments)
{
    int at = 0;
    while (at < count && strcmp(arguments[at], "--") != 0)
        at++;
    if (at == count)
        return count;
    for (int i = at; i + 1 < count; i++) {
        arguments[i] = arguments[i + 1];
        if (arguments[i][0] != '-')
            continue;
        char *name = malloc(strlen(arguments[i]) + 3);
        if (name == NULL) {
            complain("there is not enough memory.");
            return -1;
        }
        strcpy(name, "./");
        strcat(name, arguments[i]);
        arguments[i] = name;
    }
    return count - 1;
}

static int do_command(const struct command *command, int count, char **arguments)
{
    count = take_dashes(count, arguments);
    if (count < 0)
        return STATUS_TROUBLE;
    for (int i = 0; i < count; i++) {
        if (is_help(arguments[i])) {
            print_command_help(command);
            return STATUS_FINE;
        }
    }
    /* After help, which is given also where no library is linked. */
    if (fliskadee_interface() != FLISKADEE_INTERFACE) {
        complain("this tool was built for interface %d, but the library has interface %u; build both anew.",
                 FLISKADEE_INTERFACE, (unsigned)fliskadee_interface());
        return STATUS_TROUBLE;
    }
    for (int i = 0; command->arguments >= 0 && i < count; i++) {
        if (strncmp(arguments[i], "--", 2) == 0) {
            complain("%s has no option %s.", command->name, arguments[i]);
            return STATUS_TROUBLE;
        }
    }
    if (command->arguments >= 0 && count != command->arguments) {
        complain("%s takes %s; see fliskadee %s --help.", command->name, command->usage, command->name);
        return STATUS_TROUBLE;
    }
    return command->act(count, arguments);
}

static const struct command *find_command(const char *name)
{
    for (int i = 0; i < COMMANDS; i++)
        if (strcmp(name, commands[i].name) == 0)
            return &commands[i];
    return NULL;
}

static int dispatch(int count, char **arguments)
{
    if (count < 2) {
        complain("a command is missing; see fliskadee --help.");
        return STATUS_TROUBLE;
    }
    if (strcmp(arguments[1], "--version") == 0) {
        printf("fliskadee, interface %d\n", FLISKADEE_INTERFACE);
        return STATUS_FINE;
    }
    bool help = is_help(arguments[1]) || strcmp(arguments[1], "help") == 0;
    if (help && count == 2) {
        print_help();
        return STATUS_FINE;
    }
    const char *name = arguments[help ? 2 : 1];
    const struct command *command = find_command(name);
    if (command == NULL) {
        complain("there is no command %s; see fliskadee --help.", name);
        return STATUS_TROUBLE;
    }
    if (help) {
        print_command_help(command);
        return STATUS_FINE;
    }
    return do_command(command, count - 2, arguments + 2);
}

int main(int count, char **arguments)
{
    start_files();
    int status = dispatch(count, arguments);
    if (fflush(stdout) != 0 || ferror(stdout)) {
        complain("cannot write standard output.");
        return STATUS_TROUBLE;
    }
    return status;
}
