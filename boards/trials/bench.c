/* The bench set through the header, a line for each answer: crates/bench_run/stdout. */
#include "calls.h"

#include <inttypes.h>
#include <stdio.h>

#define N " %" PRId64

static const char *const kinds[5] = {"dark", "beaten", "edge", "lone", "measured"};

static struct mn_settings seven(size_t threshold)
{
    const struct mn_settings settings = {7, 7, threshold, 3, 0, 0, {MN_PIXELS, 64, 0}, 0};
    return settings;
}

static void refused(struct mn_refusal refusal)
{
    printf(" refused" N N "\n", refusal.number, refusal.place);
}

/* The verdict on a pixel of a frame of 7 x 7. */
static void pixel(char letter, const uint16_t *samples, size_t threshold, size_t row, size_t column)
{
    const struct mn_settings settings = seven(threshold);
    struct mn_verdict verdict;
    mn_verdict(samples, 49, &settings, row, column, &verdict);
    printf("%c %s", letter, kinds[verdict.kind]);
    if (verdict.kind == MN_MEASURED)
        printf(N N N, verdict.centroid.x, verdict.centroid.y, verdict.centroid.brightness);
    puts("");
}

/* How many of its pixels are measured, edge and lone. */
static void counts(char letter, const uint16_t *samples, size_t threshold)
{
    const struct mn_settings settings = seven(threshold);
    struct mn_report report;
    mn_list(samples, 49, &settings, &report);
    printf("%c counts" N N N "\n", letter, report.measured, report.edge, report.lone);
}

static void beaten(char letter, const uint16_t *samples, size_t threshold)
{
    const struct mn_settings settings = seven(threshold);
    struct mn_verdict verdict;
    size_t k;
    int number = 0;
    for (k = 0; k < 49; k++) {
        mn_verdict(samples, 49, &settings, k / 7, k % 7, &verdict);
        number += verdict.kind == MN_BEATEN;
    }
    printf("%c beaten %d\n", letter, number);
}

/* A peak of 100 in the middle, and up to three other samples: places and values by turns, up to a place of -1. */
static void peak(char letter, size_t threshold, const int *others)
{
    uint16_t samples[49] = {0};
    samples[24] = 100;
    for (; *others >= 0; others += 2)
        samples[others[0]] = (uint16_t)others[1];
    pixel(letter, samples, threshold, 3, 3);
    if (letter == 'B')
        pixel(letter, samples, threshold, 3, 4);
    counts(letter, samples, threshold);
}

static void frames(void)
{
    uint16_t samples[49] = {0};
    size_t k;
    peak('A', 50, (const int[]){-1});
    peak('B', 50, (const int[]){25, 100, -1});
    peak('C', 50, (const int[]){23, 50, -1});
    peak('D', 50, (const int[]){0, 24, -1});
    samples[23] = 100;
    pixel('E', samples, 50, 3, 2);
    counts('E', samples, 50);
    for (k = 0; k < 49; k++)
        samples[k] = 4095;
    pixel('F', samples, 4095, 0, 0);
    beaten('F', samples, 4095);
    counts('F', samples, 4095);
}

static void lone_frames(void)
{
    peak('T', 50, (const int[]){23, 50, 25, 50, 0, 24, -1});
    peak('U', 51, (const int[]){16, 25, -1});
    peak('V', 51, (const int[]){16, 24, -1});
    peak('W', 1, (const int[]){-1});
}

/* The direction of a position with a focal length of 16,384 / 256 pixels. */
static void direction(char letter, int64_t cx, int64_t x)
{
    struct mn_settings settings = seven(1);
    struct mn_direction found;
    settings.cx = cx;
    mn_direction(&settings, x, 0, &found);
    printf("%c %" PRId32 " %" PRId32 " %" PRId32 "\n", letter, found.x, found.y, found.z);
}

/* The attitude, and its cosines by their bits. */
static void attitude(char letter, struct mn_direction v1, struct mn_direction v2, struct mn_direction w1, struct mn_direction w2)
{
    struct mn_matrix matrix;
    struct mn_cosines cosines;
    const struct mn_refusal refusal = mn_attitude(&v1, &v2, &w1, &w2, &matrix);
    int k;
    printf("%c", letter);
    if (refusal.number) {
        refused(refusal);
        return;
    }
    for (k = 0; k < 9; k++)
        printf(N, matrix.entries[k / 3][k % 3]);
    printf("\n%c cosines", letter);
    mn_cosines(&matrix, &cosines);
    for (k = 0; k < 9; k++)
        printf(" %" PRIu64, bits_of(cosines.entries[k / 3][k % 3]));
    puts("");
}

/* Three stars as a catalogue: identity, x, y and z of each, with a magnitude of 2,500. */
static void put_star(uint8_t *record, const int32_t *star)
{
    const int32_t numbers[5] = {star[0], star[1], star[2], star[3], 2500};
    int k;
    for (k = 0; k < 20; k++)
        record[k] = (uint8_t)((uint32_t)numbers[k / 4] >> 8 * (3 - k % 4));
}

static void search(char letter, const struct mn_direction *directions, size_t count, const int32_t *stars, uint64_t tolerance, const uint16_t *ranking)
{
    uint8_t catalogue[60];
    struct mn_settings settings = seven(1);
    struct mn_assignment found;
    struct mn_refusal refusal;
    size_t k;
    for (k = 0; k < 3; k++)
        put_star(catalogue + 20 * k, stars + 4 * k);
    settings.tolerance = tolerance;
    refusal = mn_search(directions, count, catalogue, sizeof catalogue, &settings, ranking, 3 * count, &found);
    printf("%c", letter);
    if (refusal.number) {
        refused(refusal);
        return;
    }
    for (k = 0; k < count; k++)
        if (found.stars[k] == MN_NONE)
            printf(" -");
        else
            printf(N, found.stars[k]);
    puts("");
}

static const struct mn_direction right = {MN_UNIT, 0, 0}, down = {0, MN_UNIT, 0}, out = {0, 0, MN_UNIT};
static const uint16_t rising[12] = {0, 1, 2, 0, 1, 2, 0, 1, 2, 0, 1, 2};

static void vectors(void)
{
    direction('G', 12288, 12288);
    direction('H', 12288, 0);
    attitude('I', out, right, out, right);
    attitude('J', out, down, out, right);
    attitude('K', out, out, out, right);
}

static void searches(void)
{
    const int32_t axes[12] = {1, MN_UNIT, 0, 0, 2, 0, MN_UNIT, 0, 3, 0, 0, MN_UNIT};
    const struct mn_direction four[4] = {{600000000, 800000000, 0}, right, down, out};
    const uint16_t other[9] = {2, 1, 0, 0, 1, 2, 0, 1, 2};
    search('L', four + 1, 3, axes, 0, rising);
    search('M', four + 1, 3, axes, 0, other);
    search('N', four + 1, 2, axes, 0, rising);
    search('O', four, 4, axes, 0, rising);
}

/* The rule over threes. */
static void mirrors(void)
{
    const struct mn_direction listed[3] = {{-600000000, 0, 800000000}, {600000000, 0, 800000000}, {0, 600000000, 800000000}};
    const int32_t exchanged[12] = {11, 600000000, 0, 800000000, 22, -600000000, 0, 800000000, 33, 0, 600000000, 800000000};
    const uint16_t third_first[9] = {0, 1, 2, 0, 1, 2, 2, 0, 1};
    const struct mn_direction small[3] = {{MN_UNIT, 0, 0}, {600000000, 800000000, 0}, {0, MN_UNIT, 1000}};
    const int32_t small_turn[12] = {1, MN_UNIT, 0, 0, 2, 600000000, 800000000, 0, 3, 0, MN_UNIT, -1000};
    const struct mn_direction least[3] = {{MN_UNIT, 0, 0}, {0, MN_UNIT, 0}, {600000000, 800000000, 1000}};
    const int32_t least_turn[12] = {1, MN_UNIT, 0, 0, 2, 0, MN_UNIT, 0, 3, 600000000, 800000000, -1000};
    const struct mn_direction less[3] = {{999999000, 0, 0}, {0, MN_UNIT, 1000}, {MN_UNIT, -1000, 1000}};
    const int32_t third_turn[12] = {1, MN_UNIT, 0, 0, 2, 0, MN_UNIT, 0, 3, MN_UNIT, 0, -1000};
    search('P', listed, 3, exchanged, 0, third_first);
    search('Q', small, 3, small_turn, 0, rising);
    search('R', least, 3, least_turn, 0, rising);
    search('S', less, 3, third_turn, UINT64_C(10000000000000), rising);
}

int main(void)
{
    frames();
    vectors();
    searches();
    mirrors();
    lone_frames();
    return 0;
}
