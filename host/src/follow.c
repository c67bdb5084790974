#define _POSIX_C_SOURCE 200809L

#include "follow.h"

#include <inttypes.h>
#include <stdio.h>
#include <stdlib.h>
#include <string.h>

#include "disassemble.h"
#include "fliskadee.h"
#include "image.h"
#include "show.h"
#include "why.h"

enum { LISTED_WORDS = 32 }; /* differences of RAM, and of the pad, that are printed one by one */

static uint32_t flag_of(const uint8_t *image)
{
    return cop2_at(image, FLISKADEE_COP2_FLAG);
}

/* The same word of both machines is equal. */
static bool words_equal(const uint8_t *first, const uint8_t *second, unsigned word)
{
    return fliskadee_get_word(first, word) == fliskadee_get_word(second, word);
}

bool is_command(uint32_t word)
{
    return word >> 25 == 0x25;
}

bool is_flag_move(uint32_t word)
{
    return word >> 21 == 0x246 && (word >> 11 & 31) == FLISKADEE_COP2_FLAG - 32;
}

bool gte_usable(const uint8_t *image)
{
    return (fliskadee_get_word(image, FLISKADEE_WORD_SR) >> 30 & 1) != 0;
}

bool writes_flag(const struct machine *machine, uint32_t *word)
{
    if (!gte_usable(machine->image.data) || !next_instruction(machine, word))
        return false;
    return is_flag_move(*word) || (is_command(*word) && gte_command_name(*word) != NULL);
}

bool took_exception(const uint8_t *before, const uint8_t *after)
{
    uint32_t sr = fliskadee_get_word(before, FLISKADEE_WORD_SR);
    uint32_t pushed = (sr & ~UINT32_C(0x3F)) | (sr << 2 & 0x3F);
    uint32_t vector = (sr >> 22 & 1) != 0 ? 0xBFC00180 : 0x80000080;
    uint32_t slot = fliskadee_get_word(before, FLISKADEE_WORD_DELAY_SLOT);
    uint32_t epc = fliskadee_get_word(before, FLISKADEE_WORD_PC) - (slot != 0 ? 4 : 0);
    return fliskadee_get_word(after, FLISKADEE_WORD_PC) == vector
           && fliskadee_get_word(after, FLISKADEE_WORD_NEXT_PC) == vector + 4
           && fliskadee_get_word(after, FLISKADEE_WORD_DELAY_SLOT) == 0
           && fliskadee_get_word(after, FLISKADEE_WORD_SR) == pushed
           && fliskadee_get_word(after, FLISKADEE_WORD_EPC) == epc
           && (fliskadee_get_word(after, FLISKADEE_WORD_CAUSE) & 0x7C) != 0;
}

/* The causes of the step that fetches this instruction on the machine of an image: none, unless it carries out a GTE command. */
static void step_causes(struct causes *causes, const uint8_t *image, uint32_t word)
{
    causes->command = 0;
    causes->count = 0;
    if (gte_usable(image) && is_command(word))
        find_causes(causes, image, word);
}

/* ---- flags ---- */

struct flag_line {
    uint64_t step;
    uint32_t word;
    uint32_t after; /* FLAG */
    uint8_t before[FLISKADEE_IMAGE_BYTES];
};

static void print_bits(uint32_t bits, char sign)
{
    for (unsigned bit = 31; bit >= 12; bit--)
        if ((bits >> bit & 1) != 0)
            printf("  %c%u %s", sign, bit, flag_name(bit));
}

static void print_flag_line(const struct flag_line *line)
{
    char text[128];
    struct causes causes;
    uint32_t pc = fliskadee_get_word(line->before, FLISKADEE_WORD_PC);
    uint32_t before = flag_of(line->before);
    disassemble(line->word, pc, text, sizeof text);
    printf("%" PRIu64 "  %08X  %08X  %-24s  %08X -> %08X", line->step, (unsigned)pc, (unsigned)line->word, text, (unsigned)before,
           (unsigned)line->after);
    print_bits(line->after & ~before, '+');
    print_bits(before & ~line->after, '-');
    printf("\n");
    step_causes(&causes, line->before, line->word);
    for (size_t i = 0; i < causes.count; i++) {
        printf("    ");
        show_cause(stdout, &causes, i);
        printf("\n");
    }
}

int follow_flags(struct machine *machine, uint64_t count, int bit, bool last_alone)
{
    struct flag_line last = {.step = 0};
    struct flag_line line;
    struct outcome outcome = run_piece(machine, 0);
    for (uint64_t step = 1; was_run(outcome) && outcome.code == FLISKADEE_DONE && step <= count; step++) {
        bool writes = writes_flag(machine, &line.word);
        if (writes)
            memcpy(line.before, machine->image.data, FLISKADEE_IMAGE_BYTES);
        outcome = run_piece(machine, 1);
        if (outcome.code != FLISKADEE_DONE || !writes)
            continue;
        line.step = step;
        line.after = flag_of(machine->image.data);
        if (bit >= 0 && (line.after >> bit & 1) == 0)
            continue;
        last = line;
        if (!last_alone)
            print_flag_line(&line);
    }
    if (!was_run(outcome))
        return print_answer(outcome, machine);
    if (last.step != 0 && last_alone)
        print_flag_line(&last);
    if (outcome.code == FLISKADEE_UNLISTED)
        printf("The run stopped before an unknown GTE command (code 5), at %08X.\n",
               (unsigned)fliskadee_get_word(machine->image.data, FLISKADEE_WORD_PC));
    if (last.step == 0)
        printf(bit < 0 ? "No step wrote FLAG; it stands as at the start.\n"
                       : "No step that wrote FLAG left the bit set.\n");
    return last.step == 0 || outcome.code == FLISKADEE_UNLISTED ? STATUS_FINDING : STATUS_FINE;
}

/* ---- Differences ---- */

static void print_difference(const uint8_t *first, const uint8_t *second, unsigned word)
{
    const uint8_t *const sides[2] = {first, second};
    for (unsigned i = 0; i < 2; i++) {
        show_word(stdout, sides[i], word);
        printf("\n");
        if (word == FLISKADEE_WORD_COP2 + FLISKADEE_COP2_FLAG && fliskadee_get_word(sides[i], word) != 0)
            show_flag(stdout, fliskadee_get_word(sides[i], word), "            ");
    }
    printf("\n");
}

uint64_t compare_images(const uint8_t *first, const uint8_t *second)
{
    uint64_t differing = 0;
    for (unsigned word = 0; word < FLISKADEE_IMAGE_WORDS; word++) {
        if (words_equal(first, second, word))
            continue;
        differing++;
        print_difference(first, second, word);
    }
    return differing;
}

/* How a memory is told: before an address and in a sentence; and where it begins. */
static const struct {
    const char *mark;
    const char *name;
    uint32_t base;
} memory_words[MEMORIES] = {{"RAM", "RAM", 0}, {"PAD", "the pad", PAD_BASE}};

static uint32_t word_at(const struct machine *machine, struct place place)
{
    return fliskadee_get_word(memory_of(machine, place.memory)->data + place.offset, 0);
}

static bool places_equal(const struct machine machines[2], struct place place)
{
    return word_at(&machines[0], place) == word_at(&machines[1], place);
}

static void print_place(const struct machine machines[2], struct place place)
{
    printf("%s %08X  %08X  %08X\n", memory_words[place.memory].mark,
           (unsigned)(memory_words[place.memory].base + place.offset), (unsigned)word_at(&machines[0], place),
           (unsigned)word_at(&machines[1], place));
}

/* The bytes behind the last whole word, which a RAM that the library refuses may have. */
static uint64_t compare_rest(const struct machine machines[2], enum memory memory, size_t length)
{
    size_t rest = length % 4;
    if (memcmp(memory_of(&machines[0], memory)->data + length - rest, memory_of(&machines[1], memory)->data + length - rest,
               rest) == 0)
        return 0;
    printf("The last bytes of %s, which are no whole word, differ.\n", memory_words[memory].name);
    return 1;
}

/* What both have of a memory. */
static uint64_t compare_memory(const struct machine machines[2], enum memory memory)
{
    const char *name = memory_words[memory].name;
    size_t length = (size_t)least(memory_of(&machines[0], memory)->length, memory_of(&machines[1], memory)->length);
    uint64_t differing = 0;
    for (struct place place = {memory, 0}; place.offset + 4 <= length; place.offset += 4)
        if (!places_equal(machines, place) && differing++ < LISTED_WORDS)
            print_place(machines, place);
    if (differing > LISTED_WORDS)
        printf("and %" PRIu64 " more words of %s\n", differing - LISTED_WORDS, name);
    if (differing != 0)
        printf("%" PRIu64 " word%s of %s differ%s.\n", differing, differing == 1 ? "" : "s", name, differing == 1 ? "s" : "");
    return differing + compare_rest(machines, memory, length);
}

uint64_t compare_memories(const struct machine machines[2])
{
    size_t first = machines[0].ram.length;
    size_t second = machines[1].ram.length;
    uint64_t differing = compare_memory(machines, MEMORY_RAM);
    if (first != second)
        printf("The RAMs have %zu and %zu bytes; only what both have was compared.\n", first, second);
    return differing + (first != second) + compare_memory(machines, MEMORY_PAD);
}

/* ---- part ---- */

/* Two machines, as they stand and before the last step. What differed at the start does not count. */
struct pair {
    struct machine *now;
    uint8_t before[2][FLISKADEE_IMAGE_BYTES];
    bool fetched[2]; /* the last step's instruction, where its fetch was no exception */
    uint32_t words[2];
    bool apart_at_start[FLISKADEE_IMAGE_WORDS];
    struct machine start[2]; /* as they stood at the start, to tell what differed there in memory */
    struct part_options options;
};

static bool word_counts(const struct pair *pair, unsigned word)
{
    return !pair->apart_at_start[word] && (!pair->options.flag_alone || word == FLISKADEE_WORD_COP2 + FLISKADEE_COP2_FLAG);
}

static bool registers_equal(const struct pair *pair)
{
    if (memcmp(pair->now[0].image.data, pair->now[1].image.data, FLISKADEE_IMAGE_BYTES) == 0)
        return true;
    for (unsigned word = 0; word < FLISKADEE_IMAGE_WORDS; word++)
        if (word_counts(pair, word) && !words_equal(pair->now[0].image.data, pair->now[1].image.data, word))
            return false;
    return true;
}

/* All of a memory, but for what differed at the start. */
static bool memory_equal(const struct pair *pair, enum memory memory)
{
    const struct bytes *first = memory_of(&pair->now[0], memory);
    const struct bytes *second = memory_of(&pair->now[1], memory);
    if (memcmp(first->data, second->data, first->length) == 0)
        return true;
    for (struct place place = {memory, 0}; place.offset < first->length; place.offset += 4)
        if (!places_equal(pair->now, place) && places_equal(pair->start, place))
            return false;
    return true;
}

static bool all_equal(const struct pair *pair)
{
    return registers_equal(pair)
           && (pair->options.flag_alone || (memory_equal(pair, MEMORY_RAM) && memory_equal(pair, MEMORY_PAD)));
}

/* The word of memory that the next step stores to; false where it stores nothing. */
static bool stored_word(const struct machine *machine, struct place *place)
{
    uint32_t word;
    if (!next_instruction(machine, &word))
        return false;
    uint32_t opcode = word >> 26;
    if (!(opcode == 0x28 || opcode == 0x29 || opcode == 0x2A || opcode == 0x2B || opcode == 0x2E || opcode == 0x3A))
        return false;
    uint32_t address = fliskadee_get_word(machine->image.data, word >> 21 & 31) + (uint32_t)low_half(word);
    return find_word(machine, address & ~UINT32_C(3), place);
}

struct stored {
    struct place place[2];
    bool equal[2]; /* whether something is stored, and that word was equal on both sides before the step */
};

static struct outcome step_pair(struct pair *pair, struct stored *stored)
{
    struct outcome outcomes[2];
    for (unsigned i = 0; i < 2; i++) {
        stored->equal[i] = !pair->options.flag_alone && stored_word(&pair->now[i], &stored->place[i])
                           && places_equal(pair->now, stored->place[i]);
        pair->fetched[i] = next_instruction(&pair->now[i], &pair->words[i]);
        memcpy(pair->before[i], pair->now[i].image.data, FLISKADEE_IMAGE_BYTES);
    }
    for (unsigned i = 0; i < 2; i++)
        outcomes[i] = run_piece(&pair->now[i], 1);
    if (outcomes[0].code != outcomes[1].code)
        printf("The %s machine stops before an unknown GTE command (code 5); the other goes on.\n",
               outcomes[0].code == FLISKADEE_DONE ? "second" : "first");
    return outcomes[0].code == FLISKADEE_DONE ? outcomes[1] : outcomes[0];
}

static bool newly_apart(const struct pair *pair, unsigned word)
{
    return (!pair->options.flag_alone || word == FLISKADEE_WORD_COP2 + FLISKADEE_COP2_FLAG)
           && words_equal(pair->before[0], pair->before[1], word)
           && !words_equal(pair->now[0].image.data, pair->now[1].image.data, word);
}

/* The word that one side has stored to, where it was equal and is no longer. */
static bool store_parts(const struct pair *pair, const struct stored *stored, unsigned side)
{
    return stored->equal[side] && !places_equal(pair->now, stored->place[side]);
}

static bool same_place(const struct stored *stored)
{
    return stored->place[0].memory == stored->place[1].memory && stored->place[0].offset == stored->place[1].offset;
}

static bool parted(const struct pair *pair, const struct stored *stored)
{
    if (store_parts(pair, stored, 0) || store_parts(pair, stored, 1))
        return true;
    if (memcmp(pair->now[0].image.data, pair->now[1].image.data, FLISKADEE_IMAGE_BYTES) == 0)
        return false;
    for (unsigned word = 0; word < FLISKADEE_IMAGE_WORDS; word++)
        if (newly_apart(pair, word))
            return true;
    return false;
}

static void print_sides(const struct pair *pair)
{
    static const char *const labels[2] = {"first ", "second"};
    char text[128];
    for (unsigned i = 0; i < 2; i++) {
        uint32_t pc = fliskadee_get_word(pair->before[i], FLISKADEE_WORD_PC);
        if (pair->fetched[i]) {
            disassemble(pair->words[i], pc, text, sizeof text);
            printf("%s  %08X  %08X  %s\n", labels[i], (unsigned)pc, (unsigned)pair->words[i], text);
        } else {
            printf("%s  %08X  nothing is fetched %s\n", labels[i], (unsigned)pc,
                   in_pad(&pair->now[i], pc) ? "from the pad" : "there");
        }
    }
    printf("\n");
}

static void print_flag_sides(uint32_t first, uint32_t second)
{
    static const char *const sides[2] = {"first", "second"};
    for (unsigned bit = 31; bit >= 12; bit--)
        if (((first ^ second) >> bit & 1) != 0)
            printf("FLAG bit %u is set on the %s alone: %s\n", bit, sides[second >> bit & 1], flag_meaning(bit));
    printf("\n");
}

/* Whether the commands of the two sides leave another FLAG, all in all (part 0) or by a part. */
static bool flags_differ(const struct causes causes[2], unsigned part)
{
    return causes_flag(&causes[0], part) != causes_flag(&causes[1], part);
}

/* Which of two rows stands first: below 0 the first one, above 0 the second, 0 where bit, part and line are the same. */
static int compare_places(const uint32_t *first, const uint32_t *second)
{
    if (first[0] != second[0])
        return first[0] > second[0] ? -1 : 1;
    if (first[1] != second[1])
        return first[1] < second[1] ? -1 : 1;
    return (first[2] > second[2]) - (first[2] < second[2]);
}

static void print_side_cause(const char *mark, const struct causes *causes, size_t number)
{
    printf("%s  ", mark);
    show_cause(stdout, causes, number);
    printf("\n");
}

/* The causes of both sides in one list: those that are equal once, the others marked. */
static void print_causes(const struct causes causes[2])
{
    size_t i = 0;
    size_t j = 0;
    if (!flags_differ(causes, 0) && !flags_differ(causes, 1) && !flags_differ(causes, 2) && !flags_differ(causes, 3))
        return;
    printf("  Causes of the bits of FLAG\n");
    while (i < causes[0].count || j < causes[1].count) {
        const uint32_t *first = cause_row(&causes[0], i);
        const uint32_t *second = cause_row(&causes[1], j);
        int order = i == causes[0].count ? 1 : j == causes[1].count ? -1 : compare_places(first, second);
        if (order == 0 && causes[0].command == causes[1].command
            && memcmp(first, second, FLISKADEE_CAUSE_WORDS * sizeof *first) == 0) {
            print_side_cause("  ", &causes[0], i++);
            j++;
            continue;
        }
        if (order <= 0)
            print_side_cause("< ", &causes[0], i++);
        if (order >= 0)
            print_side_cause("> ", &causes[1], j++);
    }
    printf("\n");
}

static void print_parts(const struct causes causes[2])
{
    if (causes[0].command != causes[1].command || part_name(causes[0].command, 1) == NULL)
        return;
    for (unsigned part = 1; part <= 3; part++)
        if (flags_differ(causes, part))
            printf("Part %u of the triple (%s) leaves FLAG %08X on the first and %08X on the second.\n", part,
                   part_name(causes[0].command, part), (unsigned)causes_flag(&causes[0], part),
                   (unsigned)causes_flag(&causes[1], part));
}

static char *inputs_text(const uint8_t *image, uint32_t word)
{
    char *text = NULL;
    size_t length = 0;
    FILE *out = open_memstream(&text, &length);
    if (out == NULL)
        return NULL;
    show_inputs(out, image, word);
    fclose(out);
    return text;
}

/* Lines that are equal once; a line that differs from both sides, marked. The two texts have the same lines but for values. */
static void print_marked(const char *first, const char *second)
{
    while (*first != '\0' && *second != '\0') {
        size_t a = strcspn(first, "\n");
        size_t b = strcspn(second, "\n");
        if (a == b && memcmp(first, second, a) == 0)
            printf("  %.*s\n", (int)a, first);
        else
            printf("< %.*s\n> %.*s\n", (int)a, first, (int)b, second);
        first += a + (first[a] == '\n');
        second += b + (second[b] == '\n');
    }
    printf("\n");
}

static void print_inputs(const struct pair *pair)
{
    uint32_t word = pair->words[0];
    bool same = pair->fetched[0] && pair->fetched[1] && word == pair->words[1];
    if (!same || !(is_command(word) || is_flag_move(word)))
        return;
    char *first = inputs_text(pair->before[0], word);
    char *second = inputs_text(pair->before[1], word);
    if (first != NULL && second != NULL)
        print_marked(first, second);
    free(first);
    free(second);
}

static void print_parting(const struct pair *pair, const struct stored *stored, uint64_t step)
{
    uint32_t flags[2] = {flag_of(pair->now[0].image.data), flag_of(pair->now[1].image.data)};
    struct causes causes[2];
    for (unsigned i = 0; i < 2; i++)
        step_causes(&causes[i], pair->before[i], pair->fetched[i] ? pair->words[i] : 0);
    printf("They part at step %" PRIu64 ".\n", step);
    print_sides(pair);
    for (unsigned word = 0; word < FLISKADEE_IMAGE_WORDS; word++)
        if (newly_apart(pair, word))
            print_difference(pair->now[0].image.data, pair->now[1].image.data, word);
    for (unsigned i = 0; i < 2; i++)
        if (store_parts(pair, stored, i) && (i == 0 || !stored->equal[0] || !same_place(stored)))
            print_place(pair->now, stored->place[i]);
    if (newly_apart(pair, FLISKADEE_WORD_COP2 + FLISKADEE_COP2_FLAG))
        print_flag_sides(flags[0], flags[1]);
    print_causes(causes);
    print_inputs(pair);
    print_parts(causes);
}

static void list_start(struct pair *pair)
{
    const uint8_t *first = pair->now[0].image.data;
    const uint8_t *second = pair->now[1].image.data;
    for (unsigned word = 0; word < FLISKADEE_IMAGE_WORDS; word++)
        pair->apart_at_start[word] = !words_equal(first, second, word);
    if (machines_equal(&pair->now[0], &pair->now[1]))
        return;
    printf("Different at the start already, and not counted:\n");
    compare_images(first, second);
    compare_memories(pair->now);
    printf("\n");
}

/* Runs both for whole pieces while they are equal at the ends; answers the steps that both have done. */
static uint64_t skip_pieces(struct pair *pair, uint64_t count)
{
    struct machine kept[2];
    uint64_t done = 0;
    if (!copy_machine(&kept[0], &pair->now[0]))
        return 0;
    if (!copy_machine(&kept[1], &pair->now[1])) {
        free_machine(&kept[0]);
        return 0;
    }
    printf("Compared at the ends of pieces of %d steps first: a parting that heals inside a piece is missed.\n", PIECE);
    while (count - done >= PIECE) {
        struct outcome outcomes[2];
        for (unsigned i = 0; i < 2; i++)
            outcomes[i] = run_piece(&pair->now[i], PIECE);
        if (outcomes[0].code != FLISKADEE_DONE || outcomes[1].code != FLISKADEE_DONE || !all_equal(pair)) {
            for (unsigned i = 0; i < 2; i++)
                assign_machine(&pair->now[i], &kept[i]);
            break;
        }
        done += PIECE;
        for (unsigned i = 0; i < 2; i++)
            assign_machine(&kept[i], &pair->now[i]);
    }
    free_machine(&kept[0]);
    free_machine(&kept[1]);
    return done;
}

/* From the step after the parting on: when all that counts is equal again. */
static void follow_meeting(struct pair *pair, uint64_t done, uint64_t count)
{
    struct stored stored;
    if (all_equal(pair)) {
        printf("What counts is equal again after the same step.\n");
        return;
    }
    while (done < count) {
        struct outcome outcome = step_pair(pair, &stored);
        if (outcome.code != FLISKADEE_DONE)
            break;
        done++;
        if (all_equal(pair)) {
            printf("They meet again after step %" PRIu64 ".\n", done);
            return;
        }
    }
    printf("They do not meet again within %" PRIu64 " steps.\n", done);
}

static int follow_pair(struct pair *pair, uint64_t count)
{
    struct stored stored;
    uint64_t done = pair->options.coarse ? skip_pieces(pair, count) : 0;
    struct progress progress;
    start_progress(&progress);
    while (done < count) {
        struct outcome outcome = step_pair(pair, &stored);
        if (outcome.code != FLISKADEE_DONE) {
            end_progress(&progress);
            printf("The run stopped before an unknown GTE command (code 5) after %" PRIu64 " steps.\n", done);
            print_instruction(&pair->now[0], "first   ");
            print_instruction(&pair->now[1], "second  ");
            return STATUS_FINDING;
        }
        done++;
        if (done % PIECE == 0)
            show_progress(&progress, done, count);
        if (!parted(pair, &stored))
            continue;
        end_progress(&progress);
        print_parting(pair, &stored, done);
        follow_meeting(pair, done, count);
        return STATUS_FINDING;
    }
    end_progress(&progress);
    printf("They do not part within %" PRIu64 " steps.\n", done);
    return STATUS_FINE;
}

int follow_parting(struct machine machines[2], uint64_t count, struct part_options options)
{
    struct pair pair = {.now = machines, .options = options};
    for (unsigned i = 0; i < 2; i++) {
        struct outcome outcome = run_piece(&machines[i], 0);
        if (!was_run(outcome))
            return print_answer(outcome, &machines[i]);
    }
    if (machines[0].ram.length != machines[1].ram.length) {
        complain("the RAMs have %zu and %zu bytes; machines in lockstep have RAM of one length.", machines[0].ram.length,
                 machines[1].ram.length);
        return STATUS_TROUBLE;
    }
    if (!copy_machine(&pair.start[0], &machines[0]))
        return STATUS_TROUBLE;
    if (!copy_machine(&pair.start[1], &machines[1])) {
        free_machine(&pair.start[0]);
        return STATUS_TROUBLE;
    }
    list_start(&pair);
    int status = follow_pair(&pair, count);
    free_machine(&pair.start[0]);
    free_machine(&pair.start[1]);
    return status;
}
