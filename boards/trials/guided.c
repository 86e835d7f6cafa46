/* guided RUN: the guided run through the header, and a line for each frame: crates/guided_run/stdout. */
#include "reader.h"

#include <inttypes.h>

/* The next buffer of the file as the only one of a call of this kind. */
static void next_buffer(FILE *file, struct call *call, int kind)
{
    call->kind = kind;
    read_lent(file, call, AT_END);
}

static void show_guider(uint64_t frame, struct mn_refusal seen, const struct mn_guider *guider)
{
    int k;
    printf("%" PRIu64 " %" PRId64, frame, seen.number);
    for (k = 0; k < MN_GUIDES; k++)
        printf(" %" PRId64 " %" PRId64 " %" PRId64 " %" PRId64, guider->guides[k].identity, guider->guides[k].x, guider->guides[k].y, guider->guides[k].misses);
    puts("");
}

int main(int count, char **words)
{
    FILE *file = fopen(count == 2 ? words[1] : "run.bin", "rb");
    struct mn_settings settings = {0, 0, 0, 0, 0, 0, {0, 0, 0}, 0};
    struct mn_guider guider;
    struct call call;
    uint64_t frame, frames;
    int64_t half_width;
    if (!file) {
        perror(count == 2 ? words[1] : "run.bin");
        return 2;
    }
    settings.width = (size_t)read_word(file);
    settings.height = (size_t)read_word(file);
    settings.threshold = (size_t)read_word(file);
    half_width = mn_signed(read_word(file));
    frames = read_word(file);
    next_buffer(file, &call, 7);
    mn_guider_start(half_width, (const int64_t *)call.given[0], (size_t)call.lengths[0], &guider);
    for (frame = 0; frame < frames; frame++) {
        struct mn_report report;
        struct mn_refusal seen;
        next_buffer(file, &call, 2);
        seen = mn_list((const uint16_t *)call.given[0], (size_t)call.lengths[0], &settings, &report);
        mn_guider_frame(&guider, seen, &report);
        show_guider(frame, seen, &guider);
    }
    fclose(file);
    return 0;
}
