/* recorded CASES: plays the recorded calls back through the header, and prints what each gives: crates/recorded/stdout. Every other call lends its buffers against
 * the guarded page before them, the rest against the one behind. */
#include "reader.h"

#include <string.h>

int main(int count, char **words)
{
    FILE *file = fopen(count == 2 ? words[1] : "cases.bin", "rb");
    struct call call;
    int64_t numbers[MN_NUMBERS];
    uint64_t sums[MOST_BUFFERS];
    long cases = 0;
    int k;
    if (!file) {
        perror(count == 2 ? words[1] : "cases.bin");
        return 2;
    }
    for (; read_call(file, &call, cases % 2 ? AT_START : AT_END); cases++) {
        for (k = 0; forms[call.kind].buffers[k]; k++)
            sums[k] = is_written(&call, k) && width_of(&call, k) < 8 ? sum_of(&call, k) : 0;
        if (!make_typed(&call, numbers)) {
            make_plain(&call);
            memcpy(numbers, call.given[OUT], sizeof numbers);
        }
        show(&call, numbers, sums);
    }
    printf("cases %ld\n", cases);
    fclose(file);
    return 0;
}
