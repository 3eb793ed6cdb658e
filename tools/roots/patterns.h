// Bit patterns of binary64 values to try a square root on, from a seed. Included by the programs
// beside it.
#include <math.h>
#include <stdint.h>
#include <string.h>

static uint64_t bits_of(double x) {
    uint64_t bits;
    memcpy(&bits, &x, sizeof bits);
    return bits;
}

static double value_of(uint64_t bits) {
    double x;
    memcpy(&x, &bits, sizeof x);
    return x;
}

// splitmix64: the next of a sequence of 64-bit numbers that the seed fixes.
static uint64_t seed;

static uint64_t random_bits(void) {
    uint64_t z = seed += 0x9e3779b97f4a7c15;
    z = (z ^ z >> 30) * 0xbf58476d1ce4e5b9;
    z = (z ^ z >> 27) * 0x94d049bb133111eb;
    return z ^ z >> 31;
}

// A number of exactly n binary digits.
static uint64_t random_digits(int n) {
    return random_bits() >> (64 - n) | (uint64_t)1 << (n - 1);
}

static uint64_t positive_finite(void) {
    return random_bits() % 0x7ff0000000000000;
}

// Of 1 to 52 digits.
static uint64_t subnormal(void) {
    return random_digits(1 + random_bits() % 52);
}

// The pattern of x times a random power of 4, for x from 1 to 2^110.
static uint64_t scaled(double x) {
    return bits_of(ldexp(x, 2 * (int)(random_bits() % 960) - 1020));
}

// A square whose root is exact: of an odd number of 26 digits.
static uint64_t exact_square(void) {
    uint64_t k = random_digits(26) | 1;
    return scaled(k * k);
}

// The square of a number of 53 digits, rounded.
static uint64_t rounded_square(void) {
    double k = random_digits(53);
    return scaled(k * k);
}

// The square of the middle of two neighbours, k and k + 1 of 53 digits, times 4, and rounded.
static uint64_t rounded_middle(void) {
    unsigned __int128 y = 2 * random_digits(53) + 1;
    return scaled(y * y);
}

// A y with y * y = c modulo 2^64, where c is 1 modulo 8. Each turn puts one more digit right.
static uint64_t root_modulo(uint64_t c) {
    uint64_t y = 1;
    for (int i = 3; i < 64; i++)
        y |= ((c - y * y) >> i & 1) << (i - 1);
    return y;
}

// A value whose root lies very near the middle of two neighbours: y, of 54 digits, is twice the
// middle, c is small, and the value is that of y * y - c, which is x * 2^m. Answers 0 where x has
// not 53 digits.
static uint64_t near_middle_or_0(void) {
    int64_t c = 8 * ((int64_t)random_bits() >> (16 + random_bits() % 48)) + 1;
    int m = 54 + random_bits() % 2;
    uint64_t y = root_modulo(c) % 0x40000000000000;
    if (y < 0x20000000000000)
        y = 0x40000000000000 - y;
    uint64_t x = ((__int128)y * y - c) >> m;
    return x >> 52 == 1 ? scaled(ldexp(x, m % 2)) : 0;
}

static uint64_t near_middle(void) {
    uint64_t x = 0;
    while (x == 0)
        x = near_middle_or_0();
    return x;
}
