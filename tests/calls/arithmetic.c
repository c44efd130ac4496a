/* ragbasalt_arithmetic_holds of include/ragbasalt.h has to say yes in the floating-point environment that the library is for and no in each other one: every rounding, each
 * flush of subnormal values, each exception that is not masked, in this thread and in others. The argument is what it has to say as the program starts: yes, or no where
 * cc -Ofast linked it. Exit status 1 where it says something else. */
#include <fenv.h>
#include <pthread.h>
#include <stdio.h>
#include <string.h>
#include <xmmintrin.h>

#include "ragbasalt.h"

/* MXCSR at power-on of a processor, and what may be set or cleared in it. */
#define USUAL 0x1F80u
#define FLUSH_TO_ZERO 0x8000u
#define DENORMALS_ARE_ZERO 0x0040u
#define FLAGS 0x003Fu

static int failures;

static void want(int expected, int holds, const char *setting)
{
    if (holds != expected) {
        fprintf(stderr, "arithmetic: %s: says %d\n", setting, holds);
        failures++;
    }
}

/* What it says with another MXCSR. */
static int holds_with(unsigned csr)
{
    unsigned before = _mm_getcsr();
    int holds;
    _mm_setcsr(csr);
    holds = ragbasalt_arithmetic_holds();
    _mm_setcsr(before);
    return holds;
}

static int holds_rounding(int mode)
{
    int before = fegetround(), holds;
    if (fesetround(mode) != 0)
        return -1;
    holds = ragbasalt_arithmetic_holds();
    fesetround(before);
    return holds;
}

/* A thread that sets its MXCSR, or that keeps the one it was begun with where this is 0. */
static void *asked(void *given)
{
    unsigned csr = *(unsigned *)given;
    *(unsigned *)given = (unsigned)(csr != 0 ? holds_with(csr) : ragbasalt_arithmetic_holds());
    return NULL;
}

static int holds_in_thread(unsigned csr)
{
    pthread_t thread;
    if (pthread_create(&thread, NULL, asked, &csr) != 0)
        return -1;
    pthread_join(thread, NULL);
    return (int)csr;
}

int main(int count, char **arguments)
{
    static const struct {
        int mode;
        const char *name;
    } roundings[] = {{FE_TONEAREST, "FE_TONEAREST"}, {FE_UPWARD, "FE_UPWARD"}, {FE_DOWNWARD, "FE_DOWNWARD"}, {FE_TOWARDZERO, "FE_TOWARDZERO"}};
    unsigned i;
    if (count != 2)
        return 2;
    want(strcmp(arguments[1], "yes") == 0, ragbasalt_arithmetic_holds(), "as it starts");
    want(strcmp(arguments[1], "yes") == 0, holds_in_thread(0), "a thread as it starts");
    _mm_setcsr(USUAL);
    for (i = 0; i < sizeof roundings / sizeof roundings[0]; i++)
        want(roundings[i].mode == FE_TONEAREST, holds_rounding(roundings[i].mode), roundings[i].name);
    want(1, holds_with(USUAL | FLAGS), "flags of earlier exceptions");
    want(0, holds_with(USUAL | FLUSH_TO_ZERO), "flush to zero");
    want(0, holds_with(USUAL | DENORMALS_ARE_ZERO), "denormals are zero");
    want(0, holds_with(USUAL | FLUSH_TO_ZERO | DENORMALS_ARE_ZERO), "both flushes");
    for (i = 0x0080; i <= 0x1000; i <<= 1)
        want(0, holds_with(USUAL & ~i), "an exception that is not masked");
    want(0, holds_with(0), "no exception masked");
    want(0, holds_in_thread(USUAL | FLUSH_TO_ZERO), "flush to zero in another thread");
    want(1, ragbasalt_arithmetic_holds(), "beside a thread that flushed");
    _mm_setcsr(USUAL | DENORMALS_ARE_ZERO);
    want(1, holds_in_thread(USUAL), "another thread as usual");
    want(0, holds_in_thread(0), "a thread begun where denormals are zero");
    _mm_setcsr(USUAL);
    want(1, holds_in_thread(0), "a thread begun as usual");
    return failures > 0;
}
