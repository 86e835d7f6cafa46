/* floats: the float environment as the header tells of it, then floats of every kind through lens, cosines and targets, each beside plain C's. The lines are the same on
 * every board, but for those of the environment: a mode that the board has not got shows as -. */
#include "calls.h"

#include <fenv.h>
#include <inttypes.h>
#include <stdio.h>
#include <string.h>

#if defined(__x86_64__)
#include <xmmintrin.h>
static unsigned long control(void) { return _mm_getcsr(); }
static void set_control(unsigned long bits) { _mm_setcsr((unsigned)bits); }
enum { FLUSH = 0x8040, DEFAULT_NAN = 0 };
#elif defined(__aarch64__)
static unsigned long control(void)
{
    unsigned long bits;
    __asm__ volatile("mrs %0, fpcr" : "=r"(bits));
    return bits;
}
static void set_control(unsigned long bits) { __asm__ volatile("msr fpcr, %0" : : "r"(bits)); }
enum { FLUSH = 1 << 24, DEFAULT_NAN = 1 << 25 };
#elif defined(__arm__)
static unsigned long control(void)
{
    unsigned long bits;
    __asm__ volatile("vmrs %0, fpscr" : "=r"(bits));
    return bits;
}
static void set_control(unsigned long bits) { __asm__ volatile("vmsr fpscr, %0" : : "r"(bits)); }
enum { FLUSH = 1 << 24, DEFAULT_NAN = 1 << 25 };
#else
static unsigned long control(void) { return 0; }
static void set_control(unsigned long bits) { (void)bits; }
enum { FLUSH = 0, DEFAULT_NAN = 0 };
#endif

/* What the header says with these bits of the control register set, as a digit. */
static char told_with(unsigned long bits)
{
    const unsigned long start = control();
    char told = '-';
    if (bits) {
        set_control(start | bits);
        told = (char)('0' + mn_floats_ok());
        set_control(start);
    }
    return told;
}

static char told_rounding(int mode)
{
    char told;
    fesetround(mode);
    told = (char)('0' + mn_floats_ok());
    fesetround(FE_TONEAREST);
    return told;
}

/* At the start, then upward, downward and toward zero, with subnormals flushed, with one pattern for every result that is no number, and at the end. */
static void show_environment(void)
{
    const char start = (char)('0' + mn_floats_ok());
    printf("environment %c%c%c%c%c%c", start, told_rounding(FE_UPWARD), told_rounding(FE_DOWNWARD), told_rounding(FE_TOWARDZERO), told_with(FLUSH),
           told_with(DEFAULT_NAN));
    printf("%d\n", mn_floats_ok());
}

/* Zeros, the least and the largest subnormal and normal numbers, infinities, numbers beside powers of two, and patterns that are no number. */
static const uint64_t specials[] = {
    0, 1, 2, UINT64_C(0x0008000000000000), UINT64_C(0x000fffffffffffff), UINT64_C(0x0010000000000000), UINT64_C(0x0010000000000001), UINT64_C(0x3ca0000000000000),
    UINT64_C(0x3fdfffffffffffff), UINT64_C(0x3fe0000000000000), UINT64_C(0x3fefffffffffffff), UINT64_C(0x3ff0000000000000), UINT64_C(0x3ff0000000000001),
    UINT64_C(0x4000000000000000), UINT64_C(0x41cdcd6500000000), UINT64_C(0x4340000000000000), UINT64_C(0x5fe0000000000000), UINT64_C(0x7fe0000000000000),
    UINT64_C(0x7fefffffffffffff), UINT64_C(0x7ff0000000000000), UINT64_C(0x7ff0000000000001), UINT64_C(0x7ff8000000000000), UINT64_C(0x7fffffffffffffff)};
enum { SPECIALS = sizeof specials / sizeof *specials, FLOATS = 2 * SPECIALS };

/* Float k: a special one, or its opposite. */
static double special(int k)
{
    return float_of(specials[k / 2] ^ (k % 2 ? UINT64_C(0x8000000000000000) : 0));
}

static uint64_t hash = UINT64_C(0xcbf29ce484222325);
static int wrong;

/* A float that the library gave, beside plain C's. */
static void met(double found, double expected)
{
    wrong += bits_of(found) != bits_of(expected);
    hash = (hash ^ bits_of(found)) * UINT64_C(0x100000001b3);
}

/* Each row by a target: every two floats as products and as sums. */
static void show_targets(void)
{
    struct mn_cosines rows;
    double target[3], turned[3];
    int a, b, k;
    for (a = 0; a < FLOATS; a++)
        for (b = 0; b < FLOATS; b++) {
            const double row[3][3] = {{special(a), special(b), 0}, {special(b), 1, special(a)}, {1, special((a + b) % FLOATS), special(b)}};
            target[0] = special(b);
            target[1] = 1;
            target[2] = special((a + 7) % FLOATS);
            memcpy(rows.entries, row, sizeof row);
            mn_turned(&rows, target, turned);
            for (k = 0; k < 3; k++) {
                const volatile double x = row[k][0] * target[0], y = row[k][1] * target[1], z = row[k][2] * target[2], sum = x + y;
                met(turned[k], sum + z);
            }
        }
    printf("targets %d, other than plain C's: %d, hash %016" PRIx64 "\n", 3 * FLOATS * FLOATS, wrong, hash);
}

static void show_cosines(void)
{
    static const int64_t entries[9] = {0, 1, -1, 999999999, -1000000000, 1000000001, 7999999999, 8000000000, -8000000000};
    struct mn_matrix matrix;
    struct mn_cosines cosines;
    int k, turn;
    for (turn = 0; turn < 9; turn++) {
        for (k = 0; k < 9; k++)
            matrix.entries[k / 3][k % 3] = entries[(k + turn) % 9] / (turn + 1);
        mn_cosines(&matrix, &cosines);
        for (k = 0; k < 9; k++)
            met(cosines.entries[k / 3][k % 3], (double)matrix.entries[k / 3][k % 3] / 1e9);
    }
    printf("cosines 81, other than plain C's: %d, hash %016" PRIx64 "\n", wrong, hash);
}

/* The whole focal length of every two floats, in both forms of the plate. */
static void show_lenses(void)
{
    static const double plain[8] = {64, 63.999999999999993, 16384, 16384.00390625, 50, 5.5, 35.000000000000007, 8.1999999999999993};
    struct mn_lens lens;
    int64_t focal_length;
    int a, b, accepted = 0;
    for (lens.kind = 0; lens.kind < 3; lens.kind++)
        for (a = 0; a < FLOATS + 8; a++)
            for (b = 0; b < FLOATS + 8; b++) {
                lens.focal_length = a < FLOATS ? special(a) : plain[a - FLOATS];
                lens.pitch = b < FLOATS ? special(b) : plain[b - FLOATS];
                accepted += mn_lens(&lens, &focal_length).number == 0;
                hash = (hash ^ (uint64_t)focal_length) * UINT64_C(0x100000001b3);
            }
    printf("lenses %d, accepted %d, hash %016" PRIx64 "\n", 3 * (FLOATS + 8) * (FLOATS + 8), accepted, hash);
}

int main(void)
{
    show_environment();
    show_targets();
    show_cosines();
    show_lenses();
    return wrong != 0;
}
