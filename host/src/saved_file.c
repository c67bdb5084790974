#include "saved_file.h"

#include <inttypes.h>
#include <stdarg.h>
#include <stdio.h>
#include <stdlib.h>
#include <string.h>

#include "fliskadee.h"
#include "image.h"

/* ---- The fields ---- */

enum { HEAD_BYTES = 3, TAG_RAM = 3, IMAGE_PART = 4 * FLISKADEE_WORD_COP2, COP2_PART = FLISKADEE_IMAGE_BYTES - IMAGE_PART };

/* Those that have one length. */
struct field {
    unsigned tag;
    size_t length;
    const char *name;
};

static const struct field image_field = {1, IMAGE_PART, "words 0 to 43 of the image"};
static const struct field cop2_field = {2, COP2_PART, "the COP2 words"};
static const struct field pad_field = {4, FLISKADEE_PAD_BYTES, "the pad"};
static const struct field end_field = {0, 0, "the end mark"};

bool begins_saved(const struct bytes *file)
{
    static const uint8_t head[HEAD_BYTES] = {0x01, 0xB0, 0x00};
    return file->length >= sizeof head && memcmp(file->data, head, sizeof head) == 0;
}

/* ---- Where a file goes wrong ---- */

struct reader {
    const struct bytes *file;
    struct saved_form *form;
    size_t at;        /* the bytes that were read */
    char after[96];   /* the field that was read last */
    char instead[64]; /* after a full block, the next one, which may stand in place of the pad */
};

/* At the byte where the reader stands, or at the file's end. */
__attribute__((format(printf, 2, 3))) static bool wrong_here(struct reader *reader, const char *format, ...)
{
    struct saved_form *form = reader->form;
    char reason[192];
    va_list arguments;
    va_start(arguments, format);
    vsnprintf(reason, sizeof reason, format, arguments);
    va_end(arguments);
    form->malformed = true;
    form->place = reader->at;
    if (reader->at < reader->file->length)
        snprintf(form->words, sizeof form->words, "goes wrong at byte %zu, which is %02X: %s", reader->at,
                 (unsigned)reader->file->data[reader->at], reason);
    else
        snprintf(form->words, sizeof form->words, "ends at byte %zu, %s", reader->at, reason);
    return false;
}

static bool is_next(const struct reader *reader, unsigned byte)
{
    return reader->at < reader->file->length && reader->file->data[reader->at] == byte;
}

static bool take_tag(struct reader *reader, unsigned tag, const char *name)
{
    if (is_next(reader, tag)) {
        reader->at++;
        return true;
    }
    if (reader->at == reader->file->length)
        return wrong_here(reader, "before %stag %u (%s)", reader->instead, tag, name);
    if (reader->at == 0)
        return wrong_here(reader, "a saved machine begins with tag %u (%s)", tag, name);
    return wrong_here(reader, "after %s %stag %u (%s) follows", reader->after, reader->instead, tag, name);
}

/* Complains where the file ends before a byte of a length. */
static bool have_half(struct reader *reader, const char *half, const char *name)
{
    return reader->at < reader->file->length || wrong_here(reader, "before the %s byte of the length of %s", half, name);
}

static bool take_content(struct reader *reader, size_t length, const char *name)
{
    size_t there = reader->file->length - reader->at;
    if (there >= length) {
        reader->at += length;
        return true;
    }
    reader->at = reader->file->length;
    return wrong_here(reader, "inside %s, of whose %zu bytes %zu %s there", name, length, there, there == 1 ? "is" : "are");
}

static bool take_field(struct reader *reader, const struct field *field)
{
    static const char *const halves[2] = {"lower", "upper"};
    if (!take_tag(reader, field->tag, field->name))
        return false;
    for (unsigned i = 0; i < 2; i++) {
        unsigned half = (unsigned)(field->length >> 8 * i) & 255;
        if (!have_half(reader, halves[i], field->name))
            return false;
        if (!is_next(reader, half))
            return wrong_here(reader, "the length of %s is %zu, and its %s byte %02X", field->name, field->length, halves[i], half);
        reader->at++;
    }
    snprintf(reader->after, sizeof reader->after, "%s", field->name);
    reader->instead[0] = '\0';
    return take_content(reader, field->length, field->name);
}

/* The two bytes after the tag of a block. */
static bool take_block_length(struct reader *reader, const char *name, size_t *length)
{
    if (!have_half(reader, "lower", name))
        return false;
    unsigned lower = reader->file->data[reader->at++];
    if (!have_half(reader, "upper", name))
        return false;
    *length = lower | (size_t)reader->file->data[reader->at] << 8;
    if (*length == 0 || *length > FLISKADEE_BLOCK_BYTES)
        return wrong_here(reader,
                          "it is the upper byte of the length of %s, and with the lower byte %02X it can be %s, as a block has 1 "
                          "to %d bytes",
                          name, lower, lower == 0 ? "01 to 80" : "00 to 7F", FLISKADEE_BLOCK_BYTES);
    reader->at++;
    return true;
}

/* One block or more; none follows one that is not full. */
static bool take_blocks(struct reader *reader)
{
    struct saved_form *form = reader->form;
    size_t length;
    do {
        char name[32];
        snprintf(name, sizeof name, "RAM block %zu", form->blocks + 1);
        if (!take_tag(reader, TAG_RAM, name) || !take_block_length(reader, name, &length) || !take_content(reader, length, name))
            return false;
        form->blocks++;
        form->ram += length;
    } while (length == FLISKADEE_BLOCK_BYTES && is_next(reader, TAG_RAM));
    if (length == FLISKADEE_BLOCK_BYTES) {
        snprintf(reader->after, sizeof reader->after, "RAM block %zu, which is full,", form->blocks);
        snprintf(reader->instead, sizeof reader->instead, "tag %d (RAM block %zu) or ", TAG_RAM, form->blocks + 1);
    } else {
        snprintf(reader->after, sizeof reader->after, "RAM block %zu, which has %zu byte%s and so is the last one,", form->blocks,
                 length, length == 1 ? "" : "s");
    }
    return true;
}

static void read_form(const struct bytes *file, struct saved_form *form)
{
    struct reader reader = {.file = file, .form = form};
    memset(form, 0, sizeof *form);
    if (!take_field(&reader, &image_field) || !take_field(&reader, &cop2_field) || !take_blocks(&reader)
        || !take_field(&reader, &pad_field) || !take_field(&reader, &end_field))
        return;
    size_t more = file->length - reader.at;
    if (more != 0)
        wrong_here(&reader, "%zu byte%s the end mark", more, more == 1 ? " follows" : "s follow");
}

/* ---- The machine of a file ---- */

/* Takes a well-formed file apart. */
static void split_saved(const struct bytes *file, const struct saved_form *form, struct machine *machine)
{
    const uint8_t *from = file->data + HEAD_BYTES;
    memcpy(machine->image.data, from, IMAGE_PART);
    from += IMAGE_PART + HEAD_BYTES;
    memcpy(machine->image.data + IMAGE_PART, from, COP2_PART);
    from += COP2_PART + HEAD_BYTES;
    for (size_t at = 0; at < form->ram; at += FLISKADEE_BLOCK_BYTES) {
        size_t length = (size_t)least(form->ram - at, FLISKADEE_BLOCK_BYTES);
        memcpy(machine->ram.data + at, from, length);
        from += length + HEAD_BYTES;
    }
    memcpy(machine->pad.data, from, FLISKADEE_PAD_BYTES);
}

/* The code that the library has to answer for a file that was taken apart. */
static unsigned expected_code(const struct saved_form *form, const struct machine *machine)
{
    if (form->malformed)
        return FLISKADEE_REFUSED_FILE;
    if (check_image(machine->image.data, NULL, NULL) != 0)
        return FLISKADEE_REFUSED_IMAGE_FORM;
    return is_ram_length(form->ram) ? FLISKADEE_DONE : FLISKADEE_REFUSED_SPACE;
}

bool open_saved(const struct bytes *file, struct saved_form *form, struct machine *machine, unsigned *code)
{
    read_form(file, form);
    if (!make_machine(machine, form->ram))
        return false;
    struct fliskadee_answer answer = load_machine(machine, file);
    *code = (unsigned)answer.code;
    /* The library loads no machine that it would not run; commands show and compare such a one all the same. */
    if (!form->malformed && answer.code != FLISKADEE_DONE)
        split_saved(file, form, machine);
    unsigned expected = expected_code(form, machine);
    size_t place = form->malformed ? form->place : 0;
    bool agreed = answer.code == expected && answer.number == place;
    if (!agreed)
        complain("DISAGREEMENT: this tool expects code %u and number %zu for the saved machine, but the library answers code "
                 "%" PRIu64 " and number %" PRIu64 ". One of the two is wrong; please report it.",
                 expected, place, answer.code, answer.number);
    if (!agreed || form->malformed)
        free_machine(machine);
    return agreed;
}

bool load_saved(const char *path, const struct bytes *file, struct machine *machine, unsigned *code)
{
    struct saved_form form;
    if (!open_saved(file, &form, machine, code))
        return false;
    if (form.malformed)
        complain("code 7: refused, %s is a malformed saved machine. It %s.", input_name(path), form.words);
    return !form.malformed;
}
