// Compares juvandeer_sqrt with the processor's square root. `compare` builds and runs it:
//   compare [COUNT [SEED]]   on COUNT patterns: random ones, positive finite ones, subnormals, and
//                            values near squares and near squares of middles, a quarter of each
//   compare --time           the time of a call of each
#include <emmintrin.h>
#include <inttypes.h>
#include <stdbool.h>
#include <stdio.h>
#include <stdlib.h>
#include <time.h>

#include "patterns.h"

double juvandeer_sqrt(double x);

__attribute__((noinline)) static double hardware_sqrt(double x) {
    __m128d v = _mm_set_sd(x);
    return _mm_cvtsd_f64(_mm_sqrt_sd(v, v));
}

static uint64_t near_square(void) {
    switch (random_bits() % 4) {
    case 0: return exact_square() + random_bits() % 3 - 1;
    case 1: return rounded_square() + random_bits() % 3 - 1;
    case 2: return rounded_middle();
    default: return near_middle();
    }
}

static uint64_t pattern(uint64_t i) {
    switch (i % 4) {
    case 0: return random_bits();
    case 1: return positive_finite();
    case 2: return subnormal();
    default: return near_square();
    }
}

// Whether two roots are the same, a NaN as any other.
static bool agree(double a, double b) {
    return bits_of(a) == bits_of(b) || (isnan(a) && isnan(b));
}

static bool differs_at(uint64_t x, bool is_first) {
    double ours = juvandeer_sqrt(value_of(x)), theirs = hardware_sqrt(value_of(x));
    if (agree(ours, theirs))
        return false;
    if (is_first)
        printf("root of %016" PRIx64 " is %016" PRIx64 ", not %016" PRIx64 "\n", x, bits_of(ours),
               bits_of(theirs));
    return true;
}

static uint64_t compare(uint64_t count) {
    uint64_t differ = 0;
    for (uint64_t i = 0; i < count; i++)
        differ += differs_at(pattern(i), differ == 0);
    printf("%" PRIu64 " compared, %" PRIu64 " differ\n", count, differ);
    return differ;
}

enum { VALUES = 16384, PASSES = 200, REPETITIONS = 9 };
static double values[VALUES], roots[VALUES];

// Every root of the values. The function is not known where this is compiled, so that both are
// called alike.
static void pass(double (*volatile chosen)(double)) {
    double (*root)(double) = chosen;
    for (int i = 0; i < VALUES; i++)
        roots[i] = root(values[i]);
}

static double nanoseconds(void) {
    struct timespec now;
    clock_gettime(CLOCK_MONOTONIC, &now);
    return now.tv_sec * 1e9 + now.tv_nsec;
}

// The time of a call, over one repetition.
static double timed(double (*root)(double)) {
    double start = nanoseconds();
    for (int i = 0; i < PASSES; i++)
        pass(root);
    return (nanoseconds() - start) / PASSES / VALUES;
}

static double best(double (*root)(double)) {
    double least = timed(root);
    for (int i = 1; i < REPETITIONS; i++)
        least = fmin(least, timed(root));
    return least;
}

static void print_times(void) {
    for (int i = 0; i < VALUES; i++)
        values[i] = value_of(positive_finite());
    double theirs = best(hardware_sqrt), ours = best(juvandeer_sqrt);
    printf("instruction %.2f ns, juvandeer_sqrt %.2f ns, ratio %.2f\n", theirs, ours,
           ours / theirs);
}

static uint64_t number(const char *text) {
    char *end;
    uint64_t n = strtoull(text, &end, 0);
    if (end == text || *end != 0) {
        fprintf(stderr, "compare_roots: no number: %s\n", text);
        exit(2);
    }
    return n;
}

int main(int argc, char **argv) {
    seed = argc > 2 ? number(argv[2]) : 20210914;
    if (argc > 1 && strcmp(argv[1], "--time") == 0) {
        print_times();
        return 0;
    }
    return compare(argc > 1 ? number(argv[1]) : 100000000) > 0;
}
