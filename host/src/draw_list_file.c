#include "draw_list_file.h"

#include <inttypes.h>
#include <stddef.h>
#include <stdint.h>
#include <stdio.h>
#include <stdlib.h>

#include "files.h"
#include "fliskadee.h"
#include "machine.h"

/* ---- Kinds of packets ---- */

enum { POLYLINE = 1, POINTS_LEAST = 2 };

struct kind {
    size_t words; /* with the first one; or POLYLINE, which is no packet's number of words */
    const char *name;
};

/* By the top byte of the first word, as 000's overview calls them. A byte without a name is unknown. */
static const struct kind kinds[256] = {
    [0x20] = {4, "monochrome 3 point polygon"},
    [0x24] = {7, "textured 3 point polygon"},
    [0x28] = {5, "monochrome 4 point polygon"},
    [0x2C] = {9, "textured 4 point polygon"},
    [0x30] = {6, "gradated 3 point polygon"},
    [0x34] = {9, "gradated textured 3 point polygon"},
    [0x38] = {8, "gradated 4 point polygon"},
    [0x3C] = {12, "gradated textured 4 point polygon"},
    [0x40] = {3, "monochrome line"},
    [0x48] = {POLYLINE, "monochrome polyline"},
    [0x50] = {4, "gradated line"},
    [0x60] = {3, "rectangle"},
    [0x64] = {4, "sprite"},
    [0x68] = {2, "dot"},
    [0x70] = {2, "8*8 rectangle"},
    [0x74] = {3, "8*8 sprite"},
    [0x78] = {2, "16*16 rectangle"},
    [0x7C] = {3, "16*16 sprite"},
};

/* Unknown bytes that have a name in 000. */
static const char *const other_names[256] = {
    [0x01] = "clear cache",
    [0x02] = "frame buffer rectangle draw",
    [0x58] = "gradated polyline",
    [0x80] = "move image in frame buffer",
    [0xA0] = "send image to frame buffer",
    [0xC0] = "copy image from frame buffer",
    [0xE1] = "draw mode setting",
    [0xE2] = "texture window setting",
    [0xE3] = "set drawing area top left",
    [0xE4] = "set drawing area bottom right",
    [0xE5] = "drawing offset",
    [0xE6] = "mask setting",
};

/* ---- Packets of a list ---- */

struct draw_list {
    uint32_t *words;
    size_t length;
};

/* What stands from a word on. */
struct packet {
    const struct kind *kind;
    size_t points; /* of a polyline */
    size_t words;  /* that it needs */
    unsigned code; /* FLISKADEE_DONE where it is whole */
};

/* The words between a polyline's first word and the word that ends it, or the list's end. */
static size_t count_points(const struct draw_list *list, size_t at)
{
    size_t end = at + 1;
    while (end < list->length && list->words[end] != FLISKADEE_POLYLINE_END)
        end++;
    return end - at - 1;
}

static struct packet read_packet(const struct draw_list *list, size_t at)
{
    const struct kind *kind = &kinds[list->words[at] >> 24];
    bool polyline = kind->words == POLYLINE;
    size_t points = polyline ? count_points(list, at) : 0;
    size_t words = polyline ? points + 2 : kind->words;
    unsigned code = FLISKADEE_DONE;
    if (kind->name == NULL)
        code = FLISKADEE_REFUSED_PACKET_BYTE;
    else if (words > list->length - at || (polyline && points < POINTS_LEAST))
        code = FLISKADEE_REFUSED_PACKET_SHORT;
    return (struct packet){kind, points, words, code};
}

/* The packets from the start on, up to the list's end or to one that is refused. */
struct split {
    size_t packets;
    size_t last;   /* the word at which the last of them begins */
    size_t end;    /* the word after them */
    size_t widest; /* the words of the widest of them */
    unsigned code;
};

static struct split split_list(const struct draw_list *list)
{
    struct split split = {.code = FLISKADEE_DONE};
    while (split.end < list->length) {
        struct packet packet = read_packet(list, split.end);
        split.code = packet.code;
        if (packet.code != FLISKADEE_DONE)
            break;
        split.packets++;
        split.last = split.end;
        split.end += packet.words;
        if (packet.words > split.widest)
            split.widest = packet.words;
    }
    return split;
}

/* ---- The library's verdict ---- */

/* Whether the library answers for words of the list what this tool expects. */
static bool library_agrees(const struct draw_list *list, size_t at, size_t length, unsigned code, size_t number)
{
    struct fliskadee_answer answer = fliskadee_draw_list(list->words + at, length);
    if (answer.code == code && answer.number == number)
        return true;
    complain("DISAGREEMENT: this tool expects code %u and number %zu for %zu words of the draw list from word %zu on, but the library "
             "answers code %" PRIu64 " and number %" PRIu64 ". One of the two is wrong; please report it.",
             code, number, length, at, answer.code, answer.number);
    return false;
}

/* The verdict on the whole list, and then on each packet of the split, which alone is one packet. A list has one split only, so the
   library's has the same packets. */
static bool library_confirms(const struct draw_list *list, const struct split *split)
{
    size_t number = split->code == FLISKADEE_DONE ? split->packets : split->end;
    if (!library_agrees(list, 0, list->length, split->code, number))
        return false;
    for (size_t at = 0; at < split->end;) {
        size_t words = read_packet(list, at).words;
        if (!library_agrees(list, at, words, FLISKADEE_DONE, 1))
            return false;
        at += words;
    }
    return true;
}

/* ---- In words ---- */

static int digits(size_t number)
{
    return snprintf(NULL, 0, "%zu", number);
}

static void print_packets(const struct draw_list *list, const struct split *split)
{
    int place_digits = digits(split->last);
    int width_digits = digits(split->widest);
    for (size_t at = 0; at < split->end;) {
        struct packet packet = read_packet(list, at);
        printf("%*zu  %*zu words  %08X  %s", place_digits, at, width_digits, packet.words, (unsigned)list->words[at],
               packet.kind->name);
        if (packet.kind->words == POLYLINE)
            printf(", %zu points", packet.points);
        printf("\n");
        at += packet.words;
    }
}

static void print_unknown(uint32_t word)
{
    unsigned byte = word >> 24;
    printf(", and its top byte %02Xh begins no packet", byte);
    if (other_names[byte] != NULL)
        printf("; in 000 it is \"%s\", which draw lists do not have", other_names[byte]);
    else if (word == FLISKADEE_POLYLINE_END)
        printf("; there is no polyline for it to end");
    printf(".\n");
}

static void print_short(const struct draw_list *list, size_t at, const struct packet *packet)
{
    size_t left = list->length - at;
    size_t mark = at + 1 + packet->points;
    const char *plural = packet->points == 1 ? "" : "s";
    printf(" (%s), ", packet->kind->name);
    if (packet->kind->words != POLYLINE)
        printf("a packet of %zu words, but only %zu %s left: the list ends at word %zu (byte %zu).\n", packet->words, left,
               left == 1 ? "is" : "are", list->length, 4 * list->length);
    else if (mark == list->length)
        printf("but no %Xh ends it: the list ends at word %zu (byte %zu), after %zu point%s.\n", FLISKADEE_POLYLINE_END, mark,
               4 * mark, packet->points, plural);
    else
        printf("but %Xh ends it at word %zu (byte %zu), after %zu point%s: a polyline has at least %d.\n", FLISKADEE_POLYLINE_END,
               mark, 4 * mark, packet->points, plural, POINTS_LEAST);
}

static int print_verdict(const struct draw_list *list, const struct split *split)
{
    size_t at = split->end;
    const char *plural = split->packets == 1 ? "" : "s";
    if (split->code == FLISKADEE_DONE) {
        printf("Code 0: accepted, %zu packet%s in %zu words.\n", split->packets, plural, list->length);
        return STATUS_FINE;
    }
    printf("Code %u: refused, the list goes wrong at word %zu (byte %zu), after %zu packet%s.\n", split->code, at, 4 * at,
           split->packets, plural);
    struct packet packet = read_packet(list, at);
    printf("Word %zu is %08X", at, (unsigned)list->words[at]);
    if (split->code == FLISKADEE_REFUSED_PACKET_BYTE)
        print_unknown(list->words[at]);
    else
        print_short(list, at, &packet);
    return STATUS_FINDING;
}

/* ---- Files ---- */

enum { BYTES_MOST = 256 * 1048576 };

/* The words of a file, which have to be freed. */
static bool take_words(const char *path, const struct bytes *file, struct draw_list *list)
{
    if (file->length % 4 != 0) {
        complain("%s has %zu byte%s; a draw list has a multiple of 4.", input_name(path), file->length,
                 file->length == 1 ? "" : "s");
        return false;
    }
    list->length = file->length / 4;
    list->words = malloc(file->length + 1);
    if (list->words == NULL) {
        complain("there is not enough memory.");
        return false;
    }
    for (size_t i = 0; i < list->length; i++)
        list->words[i] = fliskadee_get_word(file->data, i);
    return true;
}

static int check_list(const struct draw_list *list, bool quiet)
{
    struct split split = split_list(list);
    if (!library_confirms(list, &split))
        return STATUS_TROUBLE;
    if (!quiet)
        print_packets(list, &split);
    return print_verdict(list, &split);
}

int check_draw_list(const char *path, bool quiet)
{
    struct bytes file;
    struct draw_list list;
    if (!read_file(path, BYTES_MOST, &file))
        return STATUS_TROUBLE;
    bool good = take_words(path, &file, &list);
    free(file.data);
    if (!good)
        return STATUS_TROUBLE;
    int status = check_list(&list, quiet);
    free(list.words);
    return status;
}
