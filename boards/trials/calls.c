/* Makes the calls and shows what they give. */
#include "calls.h"

#include <inttypes.h>
#include <stdio.h>
#include <string.h>

const struct form forms[KINDS] = {
    {"", 0, 0, ""},
    {"verdict", 5, 8, "h"},
    {"list", 3, 30, "h"},
    {"direction", 7, 5, ""},
    {"catalogue", 0, 3, "b"},
    {"ranking", 1, 2, "ibH"},
    {"search", 2, 11, "ibh"},
    {"attitude", 0, 11, "w"},
    {"chain", 10, 47, "hbH"},
    {"reason", 5, 6, "h"},
    {"index", 1, 3, "bB"},
    {"ranking_by_index", 2, 2, "ibbH"},
    {"chain_by_index", 11, 47, "hbbH"},
    {"burst", 10, 3, "hbHB"},
    {"cosines", 0, 2, "wD"},
    {"turned", 0, 2, "ddD"},
    {"lens", 3, 3, ""},
    {"compare", 0, 3, "bbB"},
    {"rival", 2, 11, "ibh"},
    {"cut", 2, 3, "B"},
    {"guider_start", 1, 2, "wW"},
    {"guider_frame", 0, 2, "Ww"},
};

static char letter(const struct call *call, int k)
{
    return k == OUT ? 'W' : forms[call->kind].buffers[k];
}

size_t width_of(const struct call *call, int k)
{
    switch (letter(call, k) | 0x20) {
    case 'b': return 1;
    case 'h': return 2;
    case 'i': return 4;
    default: return 8;
    }
}

int is_written(const struct call *call, int k)
{
    return letter(call, k) < 'a';
}

double float_of(uint64_t bits)
{
    double number;
    memcpy(&number, &bits, sizeof number);
    return number;
}

uint64_t bits_of(double number)
{
    uint64_t bits;
    memcpy(&bits, &number, sizeof bits);
    return number == number ? bits : UINT64_MAX;
}

/* Buffer k as the archive's functions take it. */
#define LENT(type, k) (type *)call->given[k], call->lengths[k]
#define BYTES(k) LENT(uint8_t, k)
#define HALVES(k) LENT(uint16_t, k)
#define THREES(k) LENT(int32_t, k)
#define WORDS(k) LENT(int64_t, k)
#define FLOATS(k) LENT(double, k)
/* Numbers k, k + 1 and k + 2 as a lens. */
#define LENS(k) (uint32_t)s[k], float_of(s[(k) + 1]), float_of(s[(k) + 2])
#define FRAME s[0], s[1], s[2]
#define CAMERA FRAME, mn_signed(s[3]), mn_signed(s[4]), LENS(5)

uintptr_t called_at;

void make_plain(const struct call *call)
{
    const uint64_t *s = call->scalars;
    called_at = stack_pointer();
    switch (call->kind) {
    case 1: mnemathor_verdict(HALVES(0), FRAME, s[3], s[4], WORDS(OUT)); break;
    case 2: mnemathor_list(HALVES(0), FRAME, WORDS(OUT)); break;
    case 3: mnemathor_direction(mn_signed(s[0]), mn_signed(s[1]), LENS(2), mn_signed(s[5]), mn_signed(s[6]), WORDS(OUT)); break;
    case 4: mnemathor_catalogue(BYTES(0), WORDS(OUT)); break;
    case 5: mnemathor_ranking(THREES(0), BYTES(1), s[0], HALVES(2), WORDS(OUT)); break;
    case 6: mnemathor_search(THREES(0), BYTES(1), s[0], s[1], HALVES(2), WORDS(OUT)); break;
    case 7: mnemathor_attitude(WORDS(0), WORDS(OUT)); break;
    case 8: mnemathor_chain(HALVES(0), CAMERA, BYTES(1), s[8], s[9], HALVES(2), WORDS(OUT)); break;
    case 9: mnemathor_reason(HALVES(0), FRAME, s[3], s[4], WORDS(OUT)); break;
    case 10: mnemathor_index(BYTES(0), mn_signed(s[0]), BYTES(1), WORDS(OUT)); break;
    case 11: mnemathor_ranking_by_index(THREES(0), BYTES(1), BYTES(2), mn_signed(s[0]), s[1], HALVES(3), WORDS(OUT)); break;
    case 12: mnemathor_chain_by_index(HALVES(0), CAMERA, BYTES(1), BYTES(2), mn_signed(s[8]), s[9], s[10], HALVES(3), WORDS(OUT)); break;
    case 13: mnemathor_burst(HALVES(0), CAMERA, BYTES(1), s[8], s[9], HALVES(2), BYTES(3), WORDS(OUT)); break;
    case 14: mnemathor_cosines(WORDS(0), FLOATS(1), WORDS(OUT)); break;
    case 15: mnemathor_turned(FLOATS(0), FLOATS(1), FLOATS(2), WORDS(OUT)); break;
    case 16: mnemathor_lens(LENS(0), WORDS(OUT)); break;
    case 17: mnemathor_compare(BYTES(0), BYTES(1), BYTES(2), WORDS(OUT)); break;
    case 18: mnemathor_rival(THREES(0), BYTES(1), s[0], s[1], HALVES(2), WORDS(OUT)); break;
    case 19: mnemathor_cut(BYTES(0), mn_signed_32(s[0] & UINT32_MAX), mn_signed(s[1]), WORDS(OUT)); break;
    case 20: mnemathor_guider_start(mn_signed(s[0]), WORDS(0), WORDS(1), WORDS(OUT)); break;
    case 21: mnemathor_guider_frame(WORDS(0), WORDS(1), WORDS(OUT)); break;
    default: break;
    }
}

uint64_t sum_of(const struct call *call, int k)
{
    const uint8_t *bytes = (const uint8_t *)call->filled[k];
    uint64_t sum = 0, i;
    for (i = 0; i < call->lengths[k]; i++) {
        uint16_t half = 0;
        if (width_of(call, k) == 2)
            memcpy(&half, bytes + 2 * i, sizeof half);
        sum = (31 * sum + (width_of(call, k) == 2 ? half : bytes[i]) + 1) % 1000003;
    }
    return sum;
}

static void show_words(const struct call *call, int k)
{
    uint64_t i;
    for (i = 0; i < call->lengths[k]; i++)
        if (letter(call, k) == 'D')
            printf(" %" PRIu64, bits_of(((double *)call->filled[k])[i]));
        else
            printf(" %" PRId64, ((int64_t *)call->filled[k])[i]);
}

void show(const struct call *call, const int64_t *numbers, const uint64_t *sums)
{
    int k;
    printf("%d", call->kind);
    for (k = 0; k < forms[call->kind].numbers; k++)
        printf(" %" PRId64, numbers[k]);
    for (k = 0; forms[call->kind].buffers[k]; k++)
        if (is_written(call, k) && width_of(call, k) < 8)
            printf(" %" PRIu64 " %" PRIu64, sums[k], sum_of(call, k));
        else if (is_written(call, k))
            show_words(call, k);
    puts(numbers[MN_NUMBERS - 1] ? " misread" : "");
}
