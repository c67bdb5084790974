/*
 * Draw lists (02, Ticket 10): packets of a number of words that the top byte of
 * the first one tells, and polylines, which a word of their own ends.
 */
#include "draw_list.h"

#define FEWEST_POINTS 2

static const struct {
    uint32_t byte;
    unsigned words; /* the first one included */
} table[] = {
    {0x20, 4}, {0x24, 7}, {0x28, 5}, {0x2C, 9}, {0x30, 6}, {0x34, 9}, {0x38, 8}, {0x3C, 12}, {0x40, 3},
    {0x50, 4}, {0x60, 3}, {0x64, 4}, {0x68, 2}, {0x70, 2}, {0x74, 3}, {0x78, 2}, {0x7C, 3},
};

/* A list, read up to some word. */
struct reader {
    enum { BETWEEN, IN_PACKET, IN_POLYLINE } place;
    size_t begin; /* of the packet */
    unsigned left; /* its words to come */
    size_t points; /* of the polyline, so far */
    size_t packets; /* that are whole */
};

unsigned model_packet_words(uint32_t first)
{
    size_t i;

    for (i = 0; i < sizeof table / sizeof *table; i++)
        if (table[i].byte == first >> 24)
            return table[i].words;
    return 0;
}

static struct model_answer answer(enum model_code code, size_t number)
{
    return (struct model_answer){(uint64_t)code, number};
}

static enum model_code read_first(struct reader *r, uint32_t word)
{
    if (word >> 24 == MODEL_POLYLINE) {
        r->place = IN_POLYLINE;
        r->points = 0;
        return MODEL_DONE;
    }
    r->left = model_packet_words(word);
    if (r->left == 0)
        return MODEL_PACKET_BYTE;
    r->place = IN_PACKET;
    r->left--;
    return MODEL_DONE;
}

static void end_packet(struct reader *r)
{
    r->place = BETWEEN;
    r->packets++;
}

static enum model_code read_point_or_end(struct reader *r, uint32_t word)
{
    if (word != MODEL_POLYLINE_END) {
        r->points++;
        return MODEL_DONE;
    }
    if (r->points < FEWEST_POINTS)
        return MODEL_PACKET_SHORT;
    end_packet(r);
    return MODEL_DONE;
}

/* Answers the code of the packet if it is refused at this word. */
static enum model_code read_word(struct reader *r, const uint32_t *words, size_t i)
{
    switch (r->place) {
    case BETWEEN:
        r->begin = i;
        return read_first(r, words[i]);
    case IN_POLYLINE:
        return read_point_or_end(r, words[i]);
    default: /* any word */
        if (--r->left == 0)
            end_packet(r);
        return MODEL_DONE;
    }
}

struct model_answer model_draw_list(const uint32_t *words, size_t words_length)
{
    struct reader r = {.place = BETWEEN};
    enum model_code code;
    size_t i;

    for (i = 0; i < words_length; i++) {
        code = read_word(&r, words, i);
        if (code != MODEL_DONE)
            return answer(code, r.begin);
    }
    if (r.place != BETWEEN)
        return answer(MODEL_PACKET_SHORT, r.begin);
    return answer(MODEL_DONE, r.packets);
}
