/* juvandeer_environment_is_default in environments that are, and that are not. */
#include "juvandeer.h"

#include "judge.h"
#include "report.h"

#include <fenv.h>
#ifdef __SSE2__
#include <xmmintrin.h>
#endif

static void hold(const char *where, int is, int expected)
{
    if (is != expected)
        fail("environment %s: is default %d, expected %d", where, is, expected);
    passed++;
}

static void hold_rounding(const char *where, int mode, int expected)
{
    int old = fegetround();
    if (fesetround(mode))
        fail("environment %s: cannot be set", where);
    int is = juvandeer_environment_is_default();
    fesetround(old);
    hold(where, is, expected);
}

#ifdef __SSE2__
static void hold_control(const char *where, unsigned bits)
{
    unsigned old = _mm_getcsr();
    _mm_setcsr(old | bits);
    int is = juvandeer_environment_is_default();
    _mm_setcsr(old);
    hold(where, is, 0);
}
#endif

void judge_environment(void)
{
    hold("at the start", juvandeer_environment_is_default(), 1);
    hold_rounding("to nearest", FE_TONEAREST, 1);
    hold_rounding("upward", FE_UPWARD, 0);
    hold_rounding("downward", FE_DOWNWARD, 0);
    hold_rounding("toward zero", FE_TOWARDZERO, 0);
#ifdef __SSE2__
    hold_control("with flush to zero", 0x8000);
    hold_control("with denormals are zero", 0x0040);
#endif
    hold("at the end", juvandeer_environment_is_default(), 1);
}
