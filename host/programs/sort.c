/* Four sorts over tables of words, halves and bytes. */
#include "program.h"

enum { WORDS = 1000, HALVES = 600, BYTES = 2000 };

static void exchange(int32_t *a, int32_t *b)
{
    int32_t kept = *a;
    *a = *b;
    *b = kept;
}

/* Lets an element sink until no child is larger. */
static void sink(int32_t *table, uint32_t root, uint32_t length)
{
    for (;;) {
        uint32_t child = 2 * root + 1;
        if (child >= length)
            return;
        if (child + 1 < length && table[child] < table[child + 1])
            child++;
        if (table[root] >= table[child])
            return;
        exchange(&table[root], &table[child]);
        root = child;
    }
}

static void heap_sort(int32_t *table, uint32_t length)
{
    for (uint32_t i = length / 2; i-- > 0;)
        sink(table, i, length);
    for (uint32_t end = length; end-- > 1;) {
        exchange(&table[0], &table[end]);
        sink(table, 0, end);
    }
}

static void quick_sort(int32_t *table, int32_t low, int32_t high)
{
    if (low >= high)
        return;
    int32_t pivot = table[low + (high - low) / 2];
    int32_t i = low;
    int32_t j = high;
    while (i <= j) {
        while (table[i] < pivot)
            i++;
        while (table[j] > pivot)
            j--;
        if (i <= j)
            exchange(&table[i++], &table[j--]);
    }
    quick_sort(table, low, j);
    quick_sort(table, i, high);
}

/* Signed halves, by insertion with growing gaps narrowing to 1. */
static void shell_sort(int16_t *table, uint32_t length)
{
    for (uint32_t gap = length / 2; gap > 0; gap /= 2)
        for (uint32_t i = gap; i < length; i++) {
            int16_t kept = table[i];
            uint32_t j = i;
            for (; j >= gap && table[j - gap] > kept; j -= gap)
                table[j] = table[j - gap];
            table[j] = kept;
        }
}

static void counting_sort(uint8_t *table, uint32_t length)
{
    static uint16_t counts[256];
    uint32_t place = 0;
    for (uint32_t i = 0; i < 256; i++)
        counts[i] = 0;
    for (uint32_t i = 0; i < length; i++)
        counts[table[i]]++;
    for (uint32_t value = 0; value < 256; value++)
        for (uint32_t i = 0; i < counts[value]; i++)
            table[place++] = (uint8_t)value;
}

uint32_t sort_program(uint32_t *results)
{
    static int32_t first[WORDS];
    static int32_t second[WORDS];
    static int16_t halves[HALVES];
    static uint8_t bytes[BYTES];
    uint32_t state = 0x2545F491;
    uint32_t count = 0;
    for (uint32_t i = 0; i < WORDS; i++)
        first[i] = second[i] = (int32_t)next_random(&state);
    for (uint32_t i = 0; i < HALVES; i++)
        halves[i] = (int16_t)next_random(&state);
    for (uint32_t i = 0; i < BYTES; i++)
        bytes[i] = (uint8_t)next_random(&state);
    heap_sort(first, WORDS);
    quick_sort(second, 0, WORDS - 1);
    shell_sort(halves, HALVES);
    counting_sort(bytes, BYTES);
    for (uint32_t i = 0; i < WORDS; i++)
        results[count++] = (uint32_t)first[i];
    for (uint32_t i = 0; i < WORDS; i++)
        results[count++] = (uint32_t)second[i];
    for (uint32_t i = 0; i < HALVES; i++)
        results[count++] = (uint32_t)halves[i];
    for (uint32_t i = 0; i < BYTES; i++)
        results[count++] = bytes[i];
    return count;
}
