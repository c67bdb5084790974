/* A packer and unpacker of the LZ77 kind, a reader of records that lie unaligned in memory, a tree walked by
   recursion, and a small stack machine whose instructions are told apart by a jump table. */
#include "program.h"

enum { TEXT = 5000, PACKED = 2 * TEXT, SLOTS = 1024, LEAST_MATCH = 4, MOST_MATCH = 67, MOST_BACK = 4095 };

static uint8_t text[TEXT];
static uint8_t packed[PACKED];
static uint8_t unpacked[TEXT + 8];

/* Fields of any alignment; the compiler uses LWL, LWR, SWL and SWR for them. */
struct __attribute__((packed)) loose_word {
    uint32_t value;
};

struct __attribute__((packed)) loose_half {
    int16_t value;
};

static uint32_t get_word(const uint8_t *place)
{
    return ((const struct loose_word *)place)->value;
}

static void put_word(uint8_t *place, uint32_t value)
{
    ((struct loose_word *)place)->value = value;
}

static int32_t get_half(const uint8_t *place)
{
    return ((const struct loose_half *)place)->value;
}

/* The same word by LWR and LWL one straight after the other: the second merges with what the first has not yet put
   into its register. The compiler would set them apart. */
static uint32_t get_word_close(const uint8_t *place)
{
#ifdef __mips__
    uint32_t value;
    __asm__(".set push\n\t.set noreorder\n\tlwr %0, 0(%1)\n\tlwl %0, 3(%1)\n\tnop\n\t.set pop"
            : "=&r"(value)
            : "r"(place), "m"(*(const struct loose_word *)place));
    return value;
#else
    return get_word(place);
#endif
}

/* Words of a small vocabulary, so that there is something to pack. */
static void write_text(void)
{
    static const char words[16][9] = {"vertex", "matrix", "screen", "a",    "depth",  "queue", "of",   "the",
                                      "light",  "colour", "limit",  "flag", "rotate", "step",  "near", "plane"};
    uint32_t state = 0xC0FFEE11;
    uint32_t length = 0;
    while (length < TEXT) {
        uint32_t random = next_random(&state);
        for (const char *w = words[random >> 28]; *w != '\0' && length < TEXT; w++)
            text[length++] = (uint8_t)*w;
        if (length < TEXT)
            text[length++] = (random & 0xFF) == 0 ? (uint8_t)(random >> 8) : (uint8_t)' ';
    }
}

static uint32_t slot_of(const uint8_t *place)
{
    return get_word(place) * 2654435761u >> 22;
}

static uint32_t match_length(const uint8_t *a, const uint8_t *b, const uint8_t *end)
{
    uint32_t length = 0;
    while (length < MOST_MATCH && b + length < end && a[length] == b[length])
        length++;
    return length;
}

/* A literal run is its length (1..127) and bytes; a match is 128 + length - 4 in six bits, back in twelve. */
static uint32_t pack(void)
{
    static uint16_t last[SLOTS];
    uint32_t out = 0;
    uint32_t run = 0;
    for (uint32_t i = 0; i < SLOTS; i++)
        last[i] = 0xFFFF;
    for (uint32_t at = 0; at < TEXT;) {
        uint32_t length = 0;
        uint32_t back = 0;
        if (at + LEAST_MATCH <= TEXT) {
            uint32_t slot = slot_of(text + at);
            back = at - last[slot];
            if (last[slot] != 0xFFFF && back <= MOST_BACK)
                length = match_length(text + at - back, text + at, text + TEXT);
            last[slot] = (uint16_t)at;
        }
        if (length >= LEAST_MATCH) {
            uint32_t code = (length - LEAST_MATCH) << 12 | back;
            packed[out++] = (uint8_t)(0x80 | code >> 12);
            packed[out++] = (uint8_t)(code >> 4);
            packed[out++] = (uint8_t)(code << 4);
            at += length;
            run = 0;
        } else {
            if (run == 0 || packed[run - 1] == 127) {
                run = out + 1;
                packed[out++] = 0;
            }
            packed[run - 1]++;
            packed[out++] = text[at++];
        }
    }
    return out;
}

/* Copies by unaligned words where source and target are apart, by bytes where they overlap. */
static void copy_back(uint32_t at, uint32_t back, uint32_t length)
{
    uint8_t *to = unpacked + at;
    const uint8_t *from = to - back;
    for (; back >= 4 && length >= 4; length -= 4, to += 4, from += 4)
        put_word(to, get_word(from));
    while (length-- > 0)
        *to++ = *from++;
}

static uint32_t unpack(uint32_t length)
{
    uint32_t out = 0;
    for (uint32_t i = 0; i < length;) {
        uint32_t code = packed[i++];
        if (code < 0x80) {
            for (; code > 0; code--)
                unpacked[out++] = packed[i++];
            continue;
        }
        code = (code & 0x7F) << 12 | (uint32_t)packed[i] << 4 | packed[i + 1] >> 4;
        i += 2;
        uint32_t matched = (code >> 12 & 63) + LEAST_MATCH;
        copy_back(out, code & 0xFFF, matched);
        out += matched;
    }
    return out;
}

/* Words and halves at every alignment, read, changed and written back. */
static uint32_t walk_loose(uint32_t *results)
{
    uint32_t count = 0;
    for (uint32_t offset = 0; offset < 8; offset++) {
        uint32_t sum = 0;
        for (uint32_t i = 0; i < 200; i += 7) {
            sum += get_word(unpacked + offset + i) ^ (uint32_t)get_half(unpacked + offset + i + 1);
            put_word(unpacked + offset + i + 2, sum);
            sum -= (uint32_t)(int8_t)unpacked[offset + i + 3];
            sum ^= get_word_close(unpacked + 4 * offset + i);
        }
        results[count++] = sum;
    }
    for (uint32_t i = 0; i < 220; i++)
        results[count++] = unpacked[i];
    return count;
}

struct node {
    uint16_t left, right;
    int16_t key;
    uint8_t height;
    int8_t sign;
};

static struct node nodes[512];
static uint16_t node_count;

/* Node 0 is none. */
static uint16_t insert(uint16_t root, int16_t key)
{
    if (root == 0) {
        root = ++node_count;
        nodes[root].left = nodes[root].right = 0;
        nodes[root].key = key;
        nodes[root].sign = (int8_t)(key < 0 ? -1 : 1);
    } else if (key < nodes[root].key) {
        nodes[root].left = insert(nodes[root].left, key);
    } else if (key > nodes[root].key) {
        nodes[root].right = insert(nodes[root].right, key);
    }
    uint8_t left = nodes[nodes[root].left].height;
    uint8_t right = nodes[nodes[root].right].height;
    nodes[root].height = (uint8_t)((left > right ? left : right) + 1);
    return root;
}

static uint32_t weigh(uint16_t root, uint32_t depth)
{
    if (root == 0)
        return depth;
    uint32_t below = weigh(nodes[root].left, depth + 1) - weigh(nodes[root].right, depth - 3);
    return below * 3 + (uint32_t)(nodes[root].key * nodes[root].sign);
}

enum operation { PUSH, ADD, SUBTRACT, MULTIPLY, DIVIDE, REMAINDER, DUPLICATE, EXCHANGE, NEGATE, SHIFT, JUMP_IF, HALT };

/* The compiler makes a table of places to jump to from this switch. */
static int32_t interpret(const int8_t *code, int32_t input, uint32_t *steps)
{
    int32_t stack[16];
    uint32_t top = 0;
    int32_t kept;
    stack[0] = input;
    for (*steps = 0; *steps < 20000; ++*steps) {
        switch (*code++) {
        case PUSH: stack[++top] = *code++; break;
        case ADD: top--; stack[top] = (int32_t)((uint32_t)stack[top] + (uint32_t)stack[top + 1]); break;
        case SUBTRACT: top--; stack[top] = (int32_t)((uint32_t)stack[top] - (uint32_t)stack[top + 1]); break;
        case MULTIPLY: top--; stack[top] = (int32_t)((uint32_t)stack[top] * (uint32_t)stack[top + 1]); break;
        case DIVIDE: top--; stack[top] /= stack[top + 1] | 1; break;
        case REMAINDER: top--; stack[top] %= stack[top + 1] | 1; break;
        case DUPLICATE: stack[top + 1] = stack[top]; top++; break;
        case EXCHANGE: kept = stack[top]; stack[top] = stack[top - 1]; stack[top - 1] = kept; break;
        case NEGATE: stack[top] = (int32_t)-(uint32_t)stack[top]; break;
        case SHIFT: top--; stack[top] >>= stack[top + 1] & 31; break;
        case JUMP_IF: code += stack[top] != 0 ? *code : 1; break;
        case HALT: return stack[0];
        }
    }
    return stack[0];
}

static uint32_t run_machine(uint32_t *results)
{
    /* A counter above a sum: while it is not 0, the sum is mixed with it. */
    static const int8_t code[] = {
        PUSH, 100, EXCHANGE, PUSH, 77, MULTIPLY, PUSH, 13, ADD, DUPLICATE, PUSH, 5, SHIFT, SUBTRACT,
        DUPLICATE, PUSH, 9, DIVIDE, ADD, DUPLICATE, PUSH, -7, REMAINDER, NEGATE, ADD,
        EXCHANGE, PUSH, 1, SUBTRACT, JUMP_IF, -28, ADD, HALT,
    };
    uint32_t count = 0;
    for (int32_t input = -3; input <= 3; input++) {
        uint32_t steps;
        results[count++] = (uint32_t)interpret(code, input * 1000003, &steps);
        results[count++] = steps;
    }
    return count;
}

uint32_t unpack_program(uint32_t *results)
{
    uint32_t count = 0;
    uint32_t state = 0x1234567;
    uint16_t root = 0;
    write_text();
    uint32_t length = pack();
    results[count++] = length;
    results[count++] = unpack(length);
    for (uint32_t i = 0; i < TEXT; i += 4)
        results[count++] = get_word(unpacked + i);
    for (uint32_t i = 0; i < length; i++)
        results[count++] = packed[i];
    count += walk_loose(results + count);
    for (uint32_t i = 0; i < 400; i++)
        root = insert(root, (int16_t)(next_random(&state) % 3000 - 1500));
    results[count++] = node_count;
    results[count++] = nodes[root].height;
    results[count++] = weigh(root, 0);
    return count + run_machine(results + count);
}
