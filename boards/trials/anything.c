/* anything SEED CALLS [each]: makes random calls, and prints the hash of all that they gave after each thousand, or with `each` after each; then how many of each kind
 * were accepted. The same words print the same lines on every board. */
#include "random.h"

#include <inttypes.h>
#include <stdio.h>
#include <stdlib.h>
#include <string.h>

static uint64_t hash = UINT64_C(0xcbf29ce484222325);

/* FNV-1a over a number's 8 bytes. */
static void mix(uint64_t number)
{
    int k;
    for (k = 0; k < 8; k++)
        hash = (hash ^ (number >> 8 * k & 0xff)) * UINT64_C(0x100000001b3);
}

/* What a written buffer holds after the call. Floats count by bits_of. */
static void mix_buffer(const struct call *call, int k)
{
    const size_t bytes = (size_t)call->lengths[k] * width_of(call, k);
    const char letter = k == OUT ? 'W' : forms[call->kind].buffers[k];
    uint64_t word;
    size_t at;
    for (at = 0; at < bytes; at += sizeof word) {
        word = 0;
        memcpy(&word, (const uint8_t *)call->filled[k] + at, bytes - at < sizeof word ? bytes - at : sizeof word);
        mix(letter == 'D' ? bits_of(float_of(word)) : word);
    }
}

/* Makes the call, by the header or by the archive's function; its refusal, -1 where it had no place to tell. */
static int64_t made(const struct call *call, int header)
{
    int64_t numbers[MN_NUMBERS];
    int k;
    if (header && call->lengths[OUT] == MN_NUMBERS && make_typed(call, numbers)) {
        for (k = 0; k < MN_NUMBERS; k++)
            mix((uint64_t)numbers[k]);
    } else {
        make_plain(call);
        memcpy(numbers, call->filled[OUT], sizeof *numbers);
        mix_buffer(call, OUT);
    }
    for (k = 0; forms[call->kind].buffers[k]; k++)
        if (is_written(call, k))
            mix_buffer(call, k);
    return call->lengths[OUT] < MN_NUMBERS ? -1 : numbers[0];
}

int main(int count, char **words)
{
    const uint64_t seed = count > 2 ? strtoull(words[1], NULL, 10) : 0, calls = count > 2 ? strtoull(words[2], NULL, 10) : 0;
    const uint64_t step = count > 3 ? 1 : 1000;
    static uint64_t accepted[KINDS], all[KINDS];
    struct call call;
    uint64_t number;
    int kind;
    if (calls == 0) {
        fprintf(stderr, "usage: anything SEED CALLS [each]\n");
        return 2;
    }
    for (number = 1; number <= calls; number++) {
        random_call(&call, seed, number);
        all[call.kind]++;
        accepted[call.kind] += made(&call, by_header(number)) == 0;
        if (number % step == 0)
            printf("%" PRIu64 " %016" PRIx64 "\n", number, hash);
    }
    for (kind = 1; kind < KINDS; kind++)
        printf("%s %" PRIu64 " of %" PRIu64 " accepted\n", forms[kind].name, accepted[kind], all[kind]);
    printf("calls %" PRIu64 " %016" PRIx64 "\n", calls, hash);
    return 0;
}
