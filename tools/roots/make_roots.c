// Prints the list of roots that the program `roots` checks: a line for each value, with its bit
// pattern and that of its square root, rounded to nearest. Each root is computed by MPFR and by the
// processor's instruction, and the list ends with an error where the two differ.
//
// The values: known roots; every power of two with its neighbours; subnormals of each size; the
// ends of the ranges; negative values; exact squares, rounded squares, and values whose roots lie
// near the middle of two neighbours, each with its neighbours; random patterns.
//
// From the repository's root, with MPFR's headers installed (libmpfr-dev):
//   cc -O2 -o target/make_roots tools/roots/make_roots.c -lmpfr -lgmp -lm &&
//       target/make_roots > crates/roots/stdin
// crates/roots/stdout is the line 'N roots agreed', with N the number of the list's lines.
#include <emmintrin.h>
#include <inttypes.h>
#include <mpfr.h>
#include <stdio.h>
#include <stdlib.h>

#include "patterns.h"

// A root's pattern, with one NaN for all.
static uint64_t root_bits(double root) {
    return isnan(root) ? 0x7ff8000000000000 : bits_of(root);
}

static uint64_t root_by_instruction(double x) {
    __m128d v = _mm_set_sd(x);
    return root_bits(_mm_cvtsd_f64(_mm_sqrt_sd(v, v)));
}

static uint64_t root_by_mpfr(double x) {
    mpfr_t root;
    mpfr_init2(root, 53);
    mpfr_set_d(root, x, MPFR_RNDN);
    int rounded = mpfr_sqrt(root, root, MPFR_RNDN);
    mpfr_subnormalize(root, rounded, MPFR_RNDN);
    uint64_t bits = root_bits(mpfr_get_d(root, MPFR_RNDN));
    mpfr_clear(root);
    return bits;
}

static void stop(const char *what, uint64_t x) {
    fprintf(stderr, "make_roots: %s at %016" PRIx64 "\n", what, x);
    exit(1);
}

static uint64_t put(uint64_t x) {
    uint64_t root = root_by_mpfr(value_of(x));
    if (root != root_by_instruction(value_of(x)))
        stop("MPFR and the processor differ", x);
    printf("%016" PRIx64 " %016" PRIx64 "\n", x, root);
    return root;
}

static void put_known(uint64_t x, uint64_t root) {
    if (put(x) != root)
        stop("a known root differs", x);
}

static void put_three(uint64_t x) {
    put(x - 1);
    put(x);
    put(x + 1);
}

static void known(void) {
    static const uint64_t roots[][2] = {
        {0x0000000000000000, 0x0000000000000000}, // 0
        {0x8000000000000000, 0x8000000000000000}, // -0
        {0x3ff0000000000000, 0x3ff0000000000000}, // 1
        {0x4010000000000000, 0x4000000000000000}, // 4
        {0x4000000000000000, 0x3ff6a09e667f3bcd}, // 2
        {0x0000000000000001, 0x1e60000000000000}, // 2^-1074
        {0x7fefffffffffffff, 0x5fefffffffffffff}, // the largest
        {0xbff0000000000000, 0x7ff8000000000000}, // -1
        {0x7ff0000000000000, 0x7ff0000000000000}, // infinity
        {0xfff0000000000000, 0x7ff8000000000000}, // -infinity
        {0x7ff8000000000000, 0x7ff8000000000000}, // NaNs
        {0xfff8000000000000, 0x7ff8000000000000},
        {0x7ff0000000000001, 0x7ff8000000000000},
        {0xffffffffffffffff, 0x7ff8000000000000},
    };
    for (size_t i = 0; i < sizeof roots / sizeof roots[0]; i++)
        put_known(roots[i][0], roots[i][1]);
}

static void powers_of_two(void) {
    for (int e = -1074; e <= 1023; e++)
        put_three(bits_of(ldexp(1, e)));
}

// For each number of digits: the smallest, the largest and two others.
static void subnormals(void) {
    for (int n = 1; n <= 52; n++) {
        put((uint64_t)1 << (n - 1));
        put(((uint64_t)1 << n) - 1);
        put(random_digits(n));
        put(random_digits(n));
    }
}

static void ends(void) {
    static const uint64_t values[] = {
        0x0000000000000001, // the smallest subnormal value
        0x000fffffffffffff, // the largest
        0x0010000000000000, // the smallest normal value
        0x7fefffffffffffff, // the largest
    };
    for (size_t i = 0; i < sizeof values / sizeof values[0]; i++)
        put_three(values[i]);
}

// The opposites of values of several kinds, and of random ones.
static void negatives(void) {
    static const uint64_t values[] = {
        0x0000000000000001, 0x000fffffffffffff, 0x0010000000000000, 0x3fefffffffffffff,
        0x4000000000000000, 0x4010000000000000, 0x7fefffffffffffff, 0x7fd0000000000000,
    };
    for (size_t i = 0; i < sizeof values / sizeof values[0]; i++) {
        put(values[i] | (uint64_t)1 << 63);
        put(subnormal() | (uint64_t)1 << 63);
        put(positive_finite() | (uint64_t)1 << 63);
    }
}

static void near_squares(void) {
    for (int i = 0; i < 300; i++) {
        put_three(exact_square());
        put_three(rounded_square());
        put_three(rounded_middle());
        put_three(near_middle());
    }
}

static void random_patterns(void) {
    for (int i = 0; i < 4000; i++) {
        put(random_bits());
        put(positive_finite());
    }
}

int main(void) {
    mpfr_set_emin(-1073);
    mpfr_set_emax(1024);
    seed = 20210914;
    known();
    powers_of_two();
    subnormals();
    ends();
    negatives();
    near_squares();
    random_patterns();
    return 0;
}
