/* The commands of gte.h for the host. */
#include "gte.h"

static uint32_t data[32];
static uint32_t control[32];

static int32_t low(uint32_t word)
{
    return (int16_t)(uint16_t)word;
}

static int32_t high(uint32_t word)
{
    return (int16_t)(uint16_t)(word >> 16);
}

/* Division by 2^bits, rounding down. */
static int64_t shifted(int64_t value, unsigned bits)
{
    int64_t unit = (int64_t)1 << bits;
    return value >= 0 ? value / unit : -((unit - 1 - value) / unit);
}

static void raise(unsigned bit)
{
    control[FLAG] |= (uint32_t)1 << bit;
}

static int64_t limit(int64_t value, int64_t least, int64_t most, unsigned bit)
{
    if (value >= least && value <= most)
        return value;
    raise(bit);
    return value < least ? least : most;
}

static void settle_flag(void)
{
    control[FLAG] &= 0x7FFFF000;
    if ((control[FLAG] & 0x7F87E000) != 0)
        raise(31);
}

void gte_set(uint32_t number, uint32_t value)
{
    switch (number) {
    case VZ0: case VZ1: case VZ2: case IR0: case IR1: case IR2: case IR3: data[number] = (uint32_t)low(value); break;
    case SZ0: case SZ1: case SZ2: case SZ3: data[number] = value & 0xFFFF; break;
    case OTZ: case LZCR: break;
    case SXYP:
        data[SXY0] = data[SXY1];
        data[SXY1] = data[SXY2];
        data[SXY2] = value;
        break;
    default: data[number] = value; break;
    }
}

void gte_set_control(uint32_t number, uint32_t value)
{
    switch (number) {
    case RT33: case H: case DQA: case ZSF3: case ZSF4: control[number] = (uint32_t)low(value); break;
    default: control[number] = value; break;
    }
    settle_flag();
}

uint32_t gte_get(uint32_t number)
{
    uint32_t count = 0;
    if (number == SXYP)
        return data[SXY2];
    if (number != LZCR)
        return data[number];
    while (count < 32 && (data[LZCS] >> (31 - count) & 1) == data[LZCS] >> 31)
        count++;
    return count;
}

uint32_t gte_get_control(uint32_t number)
{
    return control[number];
}

void gte_load(uint32_t number, const uint32_t *place)
{
    gte_set(number, *place);
}

void gte_store(uint32_t number, uint32_t *place)
{
    *place = gte_get(number);
}

static int32_t rotation(unsigned row, unsigned column)
{
    unsigned index = 3 * row + column;
    return index % 2 == 0 ? low(control[index / 2]) : high(control[index / 2]);
}

/* The perspective quotient as the hardware works it out, the first guess by the rule of its table. */
static int64_t quotient(uint32_t plane, uint32_t depth)
{
    if (plane >= 2 * depth) {
        raise(17);
        return 0x1FFFF;
    }
    int64_t numerator = plane, divisor = depth;
    for (; divisor < 0x8000; divisor *= 2)
        numerator *= 2;
    int64_t place = (divisor - 0x7FC0) / 128;
    int64_t entry = (0x40000 / (place + 0x100) + 1) / 2 - 0x101;
    int64_t guess = 0x101 + (entry < 0 ? 0 : entry);
    divisor = (0x2000080 - divisor * guess) / 256;
    divisor = (0x80 + divisor * guess) / 256;
    int64_t result = (numerator * divisor + 0x8000) / 65536;
    return result > 0x1FFFF ? 0x1FFFF : result;
}

static int64_t to_mac0(int64_t value)
{
    if (value > INT32_MAX)
        raise(16);
    if (value < INT32_MIN)
        raise(15);
    data[MAC0] = (uint32_t)value;
    return value;
}

static void project(unsigned vertex)
{
    int32_t v[3] = {low(data[2 * vertex]), high(data[2 * vertex]), low(data[2 * vertex + 1])};
    int64_t sums[3];
    for (unsigned row = 0; row < 3; row++) {
        sums[row] = (int64_t)(int32_t)control[TRX + row] * 4096;
        for (unsigned column = 0; column < 3; column++)
            sums[row] += (int64_t)rotation(row, column) * v[column];
        sums[row] = shifted(sums[row], 12);
        data[MAC1 + row] = (uint32_t)sums[row];
        data[IR1 + row] = (uint32_t)limit(sums[row], -0x8000, 0x7FFF, 24 - row);
    }
    data[SZ0] = data[SZ1];
    data[SZ1] = data[SZ2];
    data[SZ2] = data[SZ3];
    data[SZ3] = (uint32_t)limit(sums[2], 0, 0xFFFF, 18);
    int64_t q = quotient(control[H] & 0xFFFF, data[SZ3]);
    int64_t x = limit(shifted(to_mac0(q * (int32_t)data[IR1] + (int32_t)control[OFX]), 16), -0x400, 0x3FF, 14);
    int64_t y = limit(shifted(to_mac0(q * (int32_t)data[IR2] + (int32_t)control[OFY]), 16), -0x400, 0x3FF, 13);
    gte_set(SXYP, (uint32_t)(y * 65536 + (x & 0xFFFF)));
    int64_t cue = to_mac0(q * (int32_t)control[DQA] + (int32_t)control[DQB]);
    data[IR0] = (uint32_t)limit(shifted(cue, 12), 0, 0x1000, 12);
}

void gte_rtps(void)
{
    control[FLAG] = 0;
    project(0);
    settle_flag();
}

void gte_rtpt(void)
{
    control[FLAG] = 0;
    for (unsigned vertex = 0; vertex < 3; vertex++)
        project(vertex);
    settle_flag();
}

void gte_nclip(void)
{
    int64_t x[3], y[3];
    control[FLAG] = 0;
    for (unsigned i = 0; i < 3; i++) {
        x[i] = low(data[SXY0 + i]);
        y[i] = high(data[SXY0 + i]);
    }
    to_mac0(x[0] * y[1] + x[1] * y[2] + x[2] * y[0] - x[0] * y[2] - x[1] * y[0] - x[2] * y[1]);
    settle_flag();
}

static void average(unsigned first, int32_t scale)
{
    int64_t sum = 0;
    control[FLAG] = 0;
    for (unsigned i = first; i <= SZ3; i++)
        sum += data[i];
    data[OTZ] = (uint32_t)limit(shifted(to_mac0(scale * sum), 12), 0, 0xFFFF, 18);
    settle_flag();
}

void gte_avsz3(void)
{
    average(SZ1, (int32_t)control[ZSF3]);
}

void gte_avsz4(void)
{
    average(SZ0, (int32_t)control[ZSF4]);
}
