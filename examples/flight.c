/* The library at work. Reads settings.bin, catalogue.bin and frame.bin of the current folder and prints the listing, as ./mnemathor does. With the name of a
 * file of up to 64 frames of the same size, one behind the other, it then follows the first four stars that it named through that burst: a line for each
 * frame, with its number, number and place of the chain's refusal (0 and 0 for none), and identity, x, y and misses of each guide. */
#include "mnemathor.h"

#include <inttypes.h>
#include <stdio.h>

#define N "%" PRId64

enum { SETTINGS_BYTES = 32, MOST_SAMPLES = 32000, HALF_WIDTH = 4 * 256 };

/* All that the library is lent. There is room for a little more than a file may hold, so that the library sees one that is too long. */
static uint8_t settings_file[SETTINGS_BYTES + 1];
static uint8_t catalogue[MN_CATALOGUE_STARS * MN_CATALOGUE_RECORD + 1];
static uint16_t samples[MN_BURST_FRAMES * MOST_SAMPLES + 1];
static uint16_t room[MN_ROOM];
static uint8_t records[MN_BURST_FRAMES * MN_BURST_RECORD];

/* The bytes of a file, up to so many; a missing one counts as empty. */
static size_t read_bytes(const char *name, uint8_t *bytes, size_t most)
{
    FILE *file = fopen(name, "rb");
    size_t length = file ? fread(bytes, 1, most, file) : 0;
    if (file)
        fclose(file);
    return length;
}

/* The samples of a file, 2 bytes each, up to one more than there may be; none where half a sample is left over. */
static size_t read_samples(const char *name, size_t most)
{
    FILE *file = fopen(name, "rb");
    size_t length = 0;
    int high, low = 0;
    while (file && length <= most && low != EOF && (high = getc(file)) != EOF) {
        low = getc(file);
        samples[length++] = (uint16_t)(256 * high + low);
    }
    if (file)
        fclose(file);
    return low == EOF ? 0 : length;
}

/* A settings file of another length gives sides of 0, which are refused. */
static struct mn_settings read_settings(void)
{
    struct mn_settings settings = {0, 0, 0, 0, 0, 0, {MN_PIXELS, 0, 0}, 0};
    if (read_bytes("settings.bin", settings_file, sizeof settings_file) == SETTINGS_BYTES) {
        settings.width = (size_t)mn_take_bytes(settings_file, 2);
        settings.height = (size_t)mn_take_bytes(settings_file + 2, 2);
        settings.threshold = (size_t)mn_take_bytes(settings_file + 4, 2);
        settings.needed = (size_t)mn_take_bytes(settings_file + 6, 2);
        settings.cx = (int64_t)mn_take_bytes(settings_file + 8, 4);
        settings.cy = (int64_t)mn_take_bytes(settings_file + 12, 4);
        settings.lens.focal_length = (double)mn_take_bytes(settings_file + 16, 4) / 256;
        settings.tolerance = mn_take_bytes(settings_file + 24, 8);
    }
    return settings;
}

/* What a chain that was refused with 12, 13 or 14 had found before: the list, and with 14 the names, by the ranking that it left in the room. */
static void find_again(const struct mn_settings *settings, size_t samples_len, size_t catalogue_len, struct mn_refusal refusal, struct mn_tracked *tracked)
{
    struct mn_direction directions[MN_STARS];
    size_t i, count;
    mn_list(samples, samples_len, settings, &tracked->report);
    count = (size_t)tracked->report.count;
    for (i = 0; i < count; i++) {
        mn_direction(settings, tracked->report.stars[i].x, tracked->report.stars[i].y, &directions[i]);
        tracked->assignment.stars[i] = MN_NONE;
    }
    if (refusal.number == MN_REFUSED_CLOSE)
        mn_search(directions, count, catalogue, catalogue_len, settings, room, count * (catalogue_len / MN_CATALOGUE_RECORD), &tracked->assignment);
}

static struct mn_star named(const struct mn_tracked *tracked, int k)
{
    struct mn_star star;
    mn_read_star(catalogue, (size_t)tracked->assignment.stars[k], &star);
    return star;
}

/* The counts, and a line for each listed star. */
static void print_stars(const struct mn_tracked *tracked)
{
    const struct mn_report *report = &tracked->report;
    int k;
    printf("measured " N " edge " N " lone " N "\n", report->measured, report->edge, report->lone);
    for (k = 0; k < report->count; k++) {
        printf("%d " N " " N " " N " ", k, report->stars[k].x, report->stars[k].y, report->stars[k].brightness);
        if (tracked->assignment.stars[k] == MN_NONE)
            printf("-\n");
        else
            printf("%" PRIu32 "\n", named(tracked, k).identity);
    }
}

static struct mn_refusal print_listing(const struct mn_settings *settings, size_t catalogue_len, struct mn_tracked *tracked)
{
    size_t samples_len = read_samples("frame.bin", MOST_SAMPLES);
    struct mn_refusal refusal = mn_chain(samples, samples_len, settings, catalogue, catalogue_len, room, MN_ROOM, tracked);
    int at_stars = refusal.number == MN_REFUSED_FEW || refusal.number == MN_REFUSED_NO_FIT || refusal.number == MN_REFUSED_CLOSE;
    int row;
    if (at_stars)
        find_again(settings, samples_len, catalogue_len, refusal, tracked);
    if (at_stars || refusal.number == MN_ACCEPTED)
        print_stars(tracked);
    for (row = 0; row < 3 && refusal.number == MN_ACCEPTED; row++)
        printf(N " " N " " N "\n", tracked->matrix.entries[row][0], tracked->matrix.entries[row][1], tracked->matrix.entries[row][2]);
    return refusal;
}

/* A guider for the first stars that have a name. */
static struct mn_refusal start_guider(const struct mn_tracked *tracked, struct mn_guider *guider)
{
    int64_t stars[3 * MN_GUIDES];
    size_t length = 0;
    int k;
    for (k = 0; k < tracked->report.count && length < 3 * MN_GUIDES; k++)
        if (tracked->assignment.stars[k] != MN_NONE) {
            stars[length++] = named(tracked, k).identity;
            stars[length++] = tracked->report.stars[k].x;
            stars[length++] = tracked->report.stars[k].y;
        }
    return mn_guider_start(HALF_WIDTH, stars, length, guider);
}

/* The burst: its frames' attitudes in one call, and the guider from list to list. */
static struct mn_refusal follow(const struct mn_settings *settings, size_t catalogue_len, struct mn_guider *guider, const char *name)
{
    size_t frame_len = settings->width * settings->height;
    size_t samples_len = read_samples(name, MN_BURST_FRAMES * frame_len);
    int64_t frames, k, i;
    struct mn_refusal refusal = mn_burst(samples, samples_len, settings, catalogue, catalogue_len, room, MN_ROOM, records, sizeof records, &frames);
    for (k = 0; k < frames; k++) {
        struct mn_framed framed;
        struct mn_report report;
        struct mn_refusal seen = mn_list(samples + (size_t)k * frame_len, frame_len, settings, &report);
        mn_guider_frame(guider, seen, &report);
        mn_read_framed(records, (size_t)k, &framed);
        printf(N " " N " " N, k, framed.refusal.number, framed.refusal.place);
        for (i = 0; i < guider->count; i++)
            printf(" " N " " N " " N " " N, guider->guides[i].identity, guider->guides[i].x, guider->guides[i].y, guider->guides[i].misses);
        printf("\n");
    }
    return refusal;
}

int main(int count, char **words)
{
    struct mn_settings settings = read_settings();
    size_t catalogue_len = read_bytes("catalogue.bin", catalogue, sizeof catalogue);
    struct mn_tracked tracked;
    struct mn_guider guider;
    struct mn_refusal refusal = print_listing(&settings, catalogue_len, &tracked);
    if (count > 1 && refusal.number == MN_ACCEPTED)
        refusal = start_guider(&tracked, &guider);
    if (count > 1 && refusal.number == MN_ACCEPTED)
        refusal = follow(&settings, catalogue_len, &guider, words[1]);
    if (refusal.number != MN_ACCEPTED)
        printf("refused " N " " N "\n", refusal.number, refusal.place);
    return refusal.number != MN_ACCEPTED;
}
