/*
 * Saved machines (02, Ticket 3): fields of a tag, a length in two bytes, the
 * lower one first, and the content.
 */
#include "saved.h"

#include <string.h>

/* In the order of a file. */
enum { TAG_IMAGE = 1, TAG_COP2 = 2, TAG_RAM = 3, TAG_PAD = 4, TAG_END = 0 };

#define HEAD_BYTES 3
#define FIRST_WORDS 176 /* bytes: words 0..43 of the image */
#define COP2_WORDS 256 /* bytes: the other 64 */
#define BLOCK_BYTES 32768

static struct model_answer answer(enum model_code code, size_t number)
{
    return (struct model_answer){(uint64_t)code, number};
}

/* The lengths of what is lent, in the order in which both calls test them. */
static enum model_code bad_length(size_t image_length, size_t ram_length, size_t pad_length)
{
    if (image_length != MODEL_IMAGE_BYTES)
        return MODEL_IMAGE_LENGTH;
    if (ram_length == 0 || ram_length % 4 != 0 || ram_length > MODEL_RAM_MAXIMUM)
        return MODEL_RAM_LENGTH;
    if (pad_length != MODEL_PAD_BYTES)
        return MODEL_PAD_LENGTH;
    return MODEL_DONE;
}

static bool well_formed_image(const uint8_t *image)
{
    struct model machine;

    return model_load(&machine, image);
}

/* ---- Writing ------------------------------------------------------------------ */

/* Answers where the next field begins. */
static uint8_t *put_field(uint8_t *at, uint8_t tag, const uint8_t *content, size_t length)
{
    at[0] = tag;
    at[1] = (uint8_t)(length & 0xFF);
    at[2] = (uint8_t)(length >> 8);
    if (length > 0)
        memcpy(at + HEAD_BYTES, content, length);
    return at + HEAD_BYTES + length;
}

static size_t block_length(size_t left)
{
    return left < BLOCK_BYTES ? left : BLOCK_BYTES;
}

static size_t file_bytes(size_t ram_length)
{
    size_t bytes = HEAD_BYTES + FIRST_WORDS + HEAD_BYTES + COP2_WORDS, place;

    for (place = 0; place < ram_length; place += BLOCK_BYTES)
        bytes += HEAD_BYTES + block_length(ram_length - place);
    return bytes + HEAD_BYTES + MODEL_PAD_BYTES + HEAD_BYTES;
}

struct model_answer model_save_file(const uint8_t *image, size_t image_length, const uint8_t *ram, size_t ram_length,
                                    const uint8_t *pad, size_t pad_length, uint8_t *space, size_t space_length)
{
    enum model_code code = bad_length(image_length, ram_length, pad_length);
    uint8_t *at = space;
    size_t place;

    if (code != MODEL_DONE)
        return answer(code, 0);
    if (!well_formed_image(image))
        return answer(MODEL_IMAGE_FORM, 0);
    if (space_length < file_bytes(ram_length))
        return answer(MODEL_SPACE, 0);
    at = put_field(at, TAG_IMAGE, image, FIRST_WORDS);
    at = put_field(at, TAG_COP2, image + FIRST_WORDS, COP2_WORDS);
    for (place = 0; place < ram_length; place += BLOCK_BYTES)
        at = put_field(at, TAG_RAM, ram + place, block_length(ram_length - place));
    at = put_field(at, TAG_PAD, pad, MODEL_PAD_BYTES);
    at = put_field(at, TAG_END, NULL, 0);
    return answer(MODEL_DONE, (size_t)(at - space));
}

/* ---- Reading ------------------------------------------------------------------ */

/* A file, read from its front. What was read can stand in a well-formed file; where the next byte cannot, it is not read. */
struct reader {
    const uint8_t *file;
    size_t length, at;
};

/* The next byte, where it is one of lowest..highest. */
static bool read_byte(struct reader *r, unsigned lowest, unsigned highest, unsigned *byte)
{
    if (r->at == r->length || r->file[r->at] < lowest || r->file[r->at] > highest)
        return false;
    *byte = r->file[r->at++];
    return true;
}

/* Any content, as far as the file has it; *content says where it stands. */
static bool read_content(struct reader *r, size_t length, const uint8_t **content)
{
    size_t left = r->length - r->at;

    *content = r->file + r->at;
    r->at += left < length ? left : length;
    return left >= length;
}

/* A field of which tag and length are fixed. */
static bool read_field(struct reader *r, uint8_t tag, unsigned length, const uint8_t **content)
{
    unsigned low = length & 0xFF, high = length >> 8, byte;

    return read_byte(r, tag, tag, &byte) && read_byte(r, low, low, &byte) && read_byte(r, high, high, &byte) &&
           read_content(r, length, content);
}

/* A block of RAM: 1..32,768 bytes, so that which high bytes are possible depends on the low one. */
static bool read_block(struct reader *r, size_t *length, const uint8_t **content)
{
    unsigned byte, low, high;

    if (!read_byte(r, TAG_RAM, TAG_RAM, &byte) || !read_byte(r, 0, 0xFF, &low))
        return false;
    if (!read_byte(r, low == 0 ? 0x01 : 0x00, low == 0 ? 0x80 : 0x7F, &high))
        return false;
    *length = high * 256 + low;
    return read_content(r, *length, content);
}

/* What a well-formed file says. The blocks stand one behind the other, each with its head, from the first one's content on. */
struct contents {
    const uint8_t *first_words, *cop2, *blocks, *pad;
    size_t ram_length;
};

/* One block or more; after one that is not full there is no further one. */
static bool read_blocks(struct reader *r, struct contents *c)
{
    const uint8_t *content;
    size_t length;

    if (!read_block(r, &length, &c->blocks))
        return false;
    c->ram_length = length;
    while (length == BLOCK_BYTES && r->at < r->length && r->file[r->at] == TAG_RAM) {
        if (!read_block(r, &length, &content))
            return false;
        c->ram_length += length;
    }
    return true;
}

/* Whether the file is well formed; *shared takes the length of the longest beginning that it shares with one that is. */
static bool read_file(const uint8_t *file, size_t file_length, struct contents *c, size_t *shared)
{
    struct reader r = {file, file_length, 0};
    const uint8_t *nothing;
    bool read = read_field(&r, TAG_IMAGE, FIRST_WORDS, &c->first_words) && read_field(&r, TAG_COP2, COP2_WORDS, &c->cop2) &&
                read_blocks(&r, c) && read_field(&r, TAG_PAD, MODEL_PAD_BYTES, &c->pad) && read_field(&r, TAG_END, 0, &nothing);

    *shared = r.at;
    return read && r.at == file_length;
}

struct model_answer model_load_file(const uint8_t *file, size_t file_length, uint8_t *image, size_t image_length, uint8_t *ram,
                                    size_t ram_length, uint8_t *pad, size_t pad_length)
{
    enum model_code code = bad_length(image_length, ram_length, pad_length);
    uint8_t file_image[MODEL_IMAGE_BYTES];
    const uint8_t *block;
    struct contents c;
    size_t shared, place;

    if (code != MODEL_DONE)
        return answer(code, 0);
    if (!read_file(file, file_length, &c, &shared))
        return answer(MODEL_FILE, shared);
    memcpy(file_image, c.first_words, FIRST_WORDS);
    memcpy(file_image + FIRST_WORDS, c.cop2, COP2_WORDS);
    if (!well_formed_image(file_image))
        return answer(MODEL_IMAGE_FORM, 0);
    if (c.ram_length != ram_length)
        return answer(MODEL_SPACE, 0);
    memcpy(image, file_image, MODEL_IMAGE_BYTES);
    for (place = 0, block = c.blocks; place < ram_length; place += BLOCK_BYTES, block += BLOCK_BYTES + HEAD_BYTES)
        memcpy(ram + place, block, block_length(ram_length - place));
    memcpy(pad, c.pad, MODEL_PAD_BYTES);
    return answer(MODEL_DONE, 0);
}
