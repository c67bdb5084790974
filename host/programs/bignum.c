/* Large numbers: factorials, Fibonacci numbers, products by recursion, powers modulo a prime, square roots, decimal
   digits; and 64-bit arithmetic, signed and unsigned, with its divisions written out. */
#include "program.h"

enum { LIMBS = 64 };

struct big {
    uint32_t limb[LIMBS];  /* the lowest first */
};

static void set_small(struct big *a, uint32_t value)
{
    for (uint32_t i = 0; i < LIMBS; i++)
        a->limb[i] = i == 0 ? value : 0;
}

static uint32_t add_to(uint32_t *a, const uint32_t *b, uint32_t length)
{
    uint64_t carry = 0;
    for (uint32_t i = 0; i < length; i++) {
        carry += (uint64_t)a[i] + b[i];
        a[i] = (uint32_t)carry;
        carry >>= 32;
    }
    return (uint32_t)carry;
}

static uint32_t subtract_from(uint32_t *a, const uint32_t *b, uint32_t length)
{
    uint32_t borrow = 0;
    for (uint32_t i = 0; i < length; i++) {
        uint64_t difference = (uint64_t)a[i] - b[i] - borrow;
        a[i] = (uint32_t)difference;
        borrow = (uint32_t)(difference >> 63);
    }
    return borrow;
}

static void carry_into(uint32_t *a, uint32_t length, uint32_t carry)
{
    for (uint32_t i = 0; i < length && carry != 0; i++) {
        a[i] += carry;
        carry = a[i] < carry;
    }
}

static void multiply_small(struct big *a, uint32_t factor)
{
    uint64_t carry = 0;
    for (uint32_t i = 0; i < LIMBS; i++) {
        carry += (uint64_t)a->limb[i] * factor;
        a->limb[i] = (uint32_t)carry;
        carry >>= 32;
    }
}

/* Divides by halves, so that each division has 32 bits; the divisor is below 65536. */
static uint32_t divide_small(struct big *a, uint32_t divisor)
{
    uint32_t rest = 0;
    for (uint32_t i = LIMBS; i-- > 0;) {
        uint32_t upper = rest << 16 | a->limb[i] >> 16;
        rest = upper % divisor;
        uint32_t lower = rest << 16 | (a->limb[i] & 0xFFFF);
        rest = lower % divisor;
        a->limb[i] = upper / divisor << 16 | lower / divisor;
    }
    return rest;
}

/* out = a * b, of 2 * length limbs; Karatsuba's three products while the length is even and above 4. */
static void multiply(uint32_t *out, const uint32_t *a, const uint32_t *b, uint32_t length)
{
    uint32_t sums[2][LIMBS / 2];
    uint32_t middle[LIMBS + 1];
    uint32_t half = length / 2;
    if (length % 2 != 0 || length <= 4) {
        for (uint32_t i = 0; i < 2 * length; i++)
            out[i] = 0;
        for (uint32_t i = 0; i < length; i++) {
            uint64_t carry = 0;
            for (uint32_t j = 0; j < length; j++) {
                carry += (uint64_t)a[i] * b[j] + out[i + j];
                out[i + j] = (uint32_t)carry;
                carry >>= 32;
            }
            out[i + length] = (uint32_t)carry;
        }
        return;
    }
    multiply(out, a, b, half);
    multiply(out + length, a + half, b + half, half);
    for (uint32_t i = 0; i < half; i++) {
        sums[0][i] = a[i];
        sums[1][i] = b[i];
    }
    uint32_t over_a = add_to(sums[0], a + half, half);
    uint32_t over_b = add_to(sums[1], b + half, half);
    multiply(middle, sums[0], sums[1], half);
    middle[length] = over_a & over_b;
    if (over_a != 0)
        middle[length] += add_to(middle + half, sums[1], half);
    if (over_b != 0)
        middle[length] += add_to(middle + half, sums[0], half);
    middle[length] -= subtract_from(middle, out, length);
    middle[length] -= subtract_from(middle, out + length, length);
    uint32_t carry = add_to(out + half, middle, length) + middle[length];
    carry_into(out + half + length, half, carry);
}

static uint32_t decimal(struct big a, uint32_t *results)
{
    uint32_t count = 0;
    uint32_t digits = 0;
    for (uint32_t left = 0; left < 160; left++)
        results[count++] = divide_small(&a, 10000);
    for (uint32_t i = 0; i < LIMBS; i++)
        digits |= a.limb[i];
    results[count++] = digits;
    return count;
}

static void factorial(struct big *a, uint32_t n)
{
    if (n == 0) {
        set_small(a, 1);
        return;
    }
    factorial(a, n - 1);
    multiply_small(a, n);
}

static void fibonacci(struct big *a, uint32_t n)
{
    struct big b;
    set_small(a, 0);
    set_small(&b, 1);
    for (uint32_t i = 0; i < n; i++) {
        struct big kept = b;
        add_to(b.limb, a->limb, LIMBS);
        *a = kept;
    }
}

struct divided {
    uint64_t quotient;
    uint64_t rest;
};

/* Bit by bit, as the machine has no 64-bit division. */
static struct divided divide_unsigned(uint64_t dividend, uint64_t divisor)
{
    struct divided d = {0, 0};
    for (uint32_t i = 0; i < 64; i++) {
        uint32_t over = (uint32_t)(d.rest >> 63);
        d.rest = d.rest << 1 | dividend >> 63;
        dividend <<= 1;
        d.quotient <<= 1;
        if (over != 0 || d.rest >= divisor) {
            d.rest -= divisor;
            d.quotient |= 1;
        }
    }
    return d;
}

/* Toward zero; the rest has the dividend's sign. */
static int64_t divide_signed(int64_t dividend, int64_t divisor)
{
    uint64_t a = dividend < 0 ? -(uint64_t)dividend : (uint64_t)dividend;
    uint64_t b = divisor < 0 ? -(uint64_t)divisor : (uint64_t)divisor;
    uint64_t q = divide_unsigned(a, b).quotient;
    return (int64_t)((dividend < 0) != (divisor < 0) ? -q : q);
}

static uint32_t power_modulo(uint32_t base, uint32_t exponent, uint32_t modulus)
{
    uint32_t result = 1;
    for (; exponent != 0; exponent >>= 1) {
        if ((exponent & 1) != 0)
            result = (uint32_t)divide_unsigned((uint64_t)result * base, modulus).rest;
        base = (uint32_t)divide_unsigned((uint64_t)base * base, modulus).rest;
    }
    return result;
}

static uint32_t square_root(uint64_t value)
{
    uint64_t root = 0;
    for (uint64_t bit = (uint64_t)1 << 62; bit != 0; bit >>= 2) {
        if (value >= root + bit) {
            value -= root + bit;
            root = (root >> 1) + bit;
        } else {
            root >>= 1;
        }
    }
    return (uint32_t)root;
}

static uint32_t greatest_divisor(uint32_t a, uint32_t b)
{
    return b == 0 ? a : greatest_divisor(b, a % b);
}

static uint32_t ackermann(uint32_t m, uint32_t n)
{
    if (m == 0)
        return n + 1;
    return ackermann(m - 1, n == 0 ? 1 : ackermann(m, n - 1));
}

static uint32_t put_64(uint32_t *results, uint64_t value)
{
    results[0] = (uint32_t)value;
    results[1] = (uint32_t)(value >> 32);
    return 2;
}

static uint32_t mix_64(uint32_t *results)
{
    uint64_t state = 0x9E3779B97F4A7C15;
    uint32_t count = 0;
    for (uint32_t i = 0; i < 24; i++) {
        state ^= state << 13;
        state ^= state >> 7;
        state ^= state << 17;
        uint64_t other = state * 0xBF58476D1CE4E5B9;
        int32_t a = (int32_t)(state >> 32);
        int32_t b = (int32_t)state | 3;
        uint64_t divisor = (other >> 29) | 1;
        count += put_64(results + count, state);
        count += put_64(results + count, other);
        count += put_64(results + count, (uint64_t)((int64_t)a * b));
        count += put_64(results + count, divide_unsigned(state, divisor).quotient);
        count += put_64(results + count, divide_unsigned(state, divisor).rest);
        count += put_64(results + count, (uint64_t)divide_signed((int64_t)state, (int64_t)(other >> 40) - 8388607));
        results[count++] = (uint32_t)(a / b);
        results[count++] = (uint32_t)(a % b);
        results[count++] = (uint32_t)a / (uint32_t)b;
        results[count++] = (uint32_t)a % (uint32_t)b;
        results[count++] = (int64_t)state < (int64_t)other;
        results[count++] = square_root(state);
        results[count++] = greatest_divisor((uint32_t)a, (uint32_t)b * 6);
        results[count++] = power_modulo((uint32_t)a, 65537, 4294967291u);
    }
    return count;
}

uint32_t bignum_program(uint32_t *results)
{
    static struct big a, b;
    static uint32_t product[2 * LIMBS];
    uint32_t count = 0;
    factorial(&a, 200);
    count += decimal(a, results + count);
    fibonacci(&b, 2500);
    count += decimal(b, results + count);
    multiply(product, a.limb, b.limb, LIMBS);
    for (uint32_t i = 0; i < 2 * LIMBS; i++)
        results[count++] = product[i];
    count += mix_64(results + count);
    results[count++] = ackermann(2, 40);
    return count;
}
