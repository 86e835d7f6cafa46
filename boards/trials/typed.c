/* The header's typed calls. The fields of what they give are put back among the 64 numbers by name, so that one that the header took from elsewhere shows. */
#include "calls.h"

#include <string.h>

static struct mn_lens lens_of(const uint64_t *scalars)
{
    struct mn_lens lens;
    lens.kind = (uint32_t)scalars[0];
    lens.focal_length = float_of(scalars[1]);
    lens.pitch = float_of(scalars[2]);
    return lens;
}

/* The settings that the call's numbers are. */
static struct mn_settings settings_of(const struct call *call)
{
    const uint64_t *s = call->scalars;
    const int kind = call->kind, behind = kind == 12 ? 9 : 8;
    struct mn_settings settings = {0, 0, 0, 0, 0, 0, {0, 0, 0}, 0};
    if (strchr(forms[kind].buffers, 'h') == forms[kind].buffers && *forms[kind].buffers) {
        settings.width = (size_t)s[0];
        settings.height = (size_t)s[1];
        settings.threshold = (size_t)s[2];
    }
    if (forms[kind].scalars >= 10) {
        settings.cx = mn_signed(s[3]);
        settings.cy = mn_signed(s[4]);
        settings.lens = lens_of(s + 5);
        settings.needed = (size_t)s[behind];
        settings.tolerance = s[behind + 1];
    }
    if (kind == 3) {
        settings.cx = mn_signed(s[0]);
        settings.cy = mn_signed(s[1]);
        settings.lens = lens_of(s + 2);
    }
    if (kind == 6 || kind == 18)
        settings.needed = (size_t)s[0];
    if (kind == 5 || kind == 6 || kind == 11 || kind == 18)
        settings.tolerance = s[forms[kind].scalars - 1];
    return settings;
}

/* Whether every number of 64 bits that goes into a size_t fits, as all do where that has 64 bits. */
static int sizes_fit(const struct call *call)
{
    const uint64_t *s = call->scalars;
    const int kind = call->kind;
    int k, frame = kind == 1 || kind == 9 ? 5 : kind == 2 || kind == 8 || kind == 12 || kind == 13 ? 3 : 0;
    for (k = 0; k < frame; k++)
        if (s[k] > SIZE_MAX)
            return 0;
    if (kind == 6 || kind == 18)
        return s[0] <= SIZE_MAX;
    return kind == 8 || kind == 13 ? s[8] <= SIZE_MAX : kind != 12 || s[9] <= SIZE_MAX;
}

static int vectors_fit(const struct call *call)
{
    uint64_t k;
    for (k = 0; k < call->lengths[0]; k++) {
        const int64_t number = ((const int64_t *)call->given[0])[k];
        if (number < INT32_MIN || number > INT32_MAX)
            return 0;
    }
    return call->lengths[0] == 12;
}

/* Whether the header's types have room for the call: directions in threes, nine entries and floats of rows, three of a target, whole guiders and lists. */
static int can_make(const struct call *call)
{
    const uint64_t *n = call->lengths;
    switch (call->kind) {
    case 5:
    case 6:
    case 11:
    case 18: return n[0] % 3 == 0 && sizes_fit(call);
    case 7: return vectors_fit(call);
    case 14: return n[0] == 9 && n[1] == 9;
    case 15: return n[0] == 9 && n[1] == 3 && n[2] == 3;
    case 20: return n[1] == MN_GUIDER_NUMBERS;
    case 21: return n[0] == MN_GUIDER_NUMBERS && n[1] == MN_NUMBERS;
    default: return sizes_fit(call);
    }
}

static void put_centroid(const struct mn_centroid *centroid, int64_t *numbers)
{
    numbers[0] = centroid->x;
    numbers[1] = centroid->y;
    numbers[2] = centroid->brightness;
}

/* What the kind names goes to its numbers, and what it does not name must be 0. */
static void put_reason(const struct mn_reason *reason, int64_t *numbers)
{
    int64_t fields[5][3] = {{reason->sample, reason->threshold, 0}, {reason->row, reason->column, 0}, {reason->side, 0, 0}, {reason->largest, 0, 0}, {0, 0, 0}};
    int kind, k;
    put_centroid(&reason->centroid, fields[4]);
    numbers[2] = reason->kind;
    for (kind = 0; kind < 5; kind++)
        for (k = 0; k < 3; k++)
            if (kind == reason->kind)
                numbers[3 + k] = fields[kind][k];
            else
                numbers[63] |= fields[kind][k] != 0;
}

static void put_report(const struct mn_report *report, int64_t *numbers)
{
    int k;
    numbers[2] = report->count;
    numbers[3] = report->measured;
    numbers[4] = report->edge;
    numbers[5] = report->lone;
    for (k = 0; k < MN_STARS; k++)
        put_centroid(&report->stars[k], numbers + 6 + 3 * k);
}

static void put_tracked(const struct mn_tracked *tracked, int64_t *numbers)
{
    put_report(&tracked->report, numbers);
    memcpy(numbers + 30, tracked->assignment.stars, sizeof tracked->assignment.stars);
    memcpy(numbers + 38, tracked->matrix.entries, sizeof tracked->matrix.entries);
    numbers[63] = tracked->assignment.count != tracked->report.count;
}

static void put_guider(const struct mn_guider *guider, int64_t *numbers)
{
    int k;
    numbers[0] = guider->half_width;
    numbers[1] = guider->count;
    for (k = 0; k < MN_GUIDES; k++) {
        numbers[2 + 4 * k] = guider->guides[k].identity;
        numbers[3 + 4 * k] = guider->guides[k].x;
        numbers[4 + 4 * k] = guider->guides[k].y;
        numbers[5 + 4 * k] = guider->guides[k].misses;
    }
}

/* A list's numbers as what its call reported. */
static struct mn_report report_of(const int64_t *numbers)
{
    struct mn_report report;
    int k;
    report.count = numbers[2];
    report.measured = numbers[3];
    report.edge = numbers[4];
    report.lone = numbers[5];
    for (k = 0; k < MN_STARS; k++) {
        report.stars[k].x = numbers[6 + 3 * k];
        report.stars[k].y = numbers[7 + 3 * k];
        report.stars[k].brightness = numbers[8 + 3 * k];
    }
    return report;
}

/* A number of so many bytes, high byte first, at the end of some. */
static size_t put_bytes(uint64_t number, size_t count, uint8_t *bytes, size_t at)
{
    size_t k;
    for (k = 0; k < count; k++)
        bytes[at + k] = (uint8_t)(number >> 8 * (count - 1 - k));
    return at + count;
}

/* Record k as the header's reader has it, as bytes; how many there are, 0 where the call has no records. */
static size_t read_again(const struct call *call, size_t k, uint8_t *bytes)
{
    size_t at = 0, entry;
    if (call->kind == 4) {
        struct mn_star star;
        mn_read_star((const uint8_t *)call->given[0], k, &star);
        at = put_bytes(star.identity, 4, bytes, at);
        at = put_bytes((uint32_t)star.direction.x, 4, bytes, at);
        at = put_bytes((uint32_t)star.direction.y, 4, bytes, at);
        at = put_bytes((uint32_t)star.direction.z, 4, bytes, at);
        at = put_bytes((uint32_t)star.magnitude, 4, bytes, at);
    } else if (call->kind == 10) {
        struct mn_pair pair;
        mn_read_pair((const uint8_t *)call->given[1], k, &pair);
        at = put_bytes((uint64_t)pair.dot, 8, bytes, at);
        at = put_bytes(pair.first, 2, bytes, at);
        at = put_bytes(pair.second, 2, bytes, at);
    } else if (call->kind == 17) {
        struct mn_change change;
        mn_read_change((const uint8_t *)call->given[2], k, &change);
        at = put_bytes(change.identity, 4, bytes, at);
        at = put_bytes(change.kind, 4, bytes, at);
    } else if (call->kind == 13) {
        struct mn_framed framed;
        mn_read_framed((const uint8_t *)call->given[3], k, &framed);
        at = put_bytes((uint64_t)framed.refusal.number, 4, bytes, at);
        at = put_bytes((uint64_t)framed.refusal.place, 4, bytes, at);
        for (entry = 0; entry < 9; entry++)
            at = put_bytes((uint64_t)framed.matrix.entries[entry / 3][entry % 3], 8, bytes, at);
    }
    return at;
}

/* Whether a record is read otherwise than it is written. */
static int misread(const struct call *call, const int64_t *numbers)
{
    const int room = call->kind == 4 ? 0 : call->kind == 10 ? 1 : call->kind == 17 ? 2 : 3;
    uint8_t bytes[MN_BURST_RECORD];
    size_t k, size;
    for (k = 0; numbers[0] == 0 && k < (size_t)numbers[2] && (size = read_again(call, k, bytes)) > 0; k++)
        if (memcmp(bytes, (const uint8_t *)call->given[room] + size * k, size))
            return 1;
    return 0;
}

/* Buffer k as the typed calls take it. */
#define BYTES(k) (uint8_t *)call->given[k], (size_t)call->lengths[k]
#define HALVES(k) (uint16_t *)call->given[k], (size_t)call->lengths[k]
#define DIRECTIONS (const struct mn_direction *)call->given[0], (size_t)(call->lengths[0] / 3)

static struct mn_refusal make_frame(const struct call *call, const struct mn_settings *settings, int64_t *numbers)
{
    struct mn_refusal refusal;
    if (call->kind == 1) {
        struct mn_verdict verdict;
        refusal = mn_verdict(HALVES(0), settings, (size_t)call->scalars[3], (size_t)call->scalars[4], &verdict);
        numbers[2] = verdict.row;
        numbers[3] = verdict.column;
        numbers[4] = verdict.kind;
        put_centroid(&verdict.centroid, numbers + 5);
    } else if (call->kind == 9) {
        struct mn_reason reason;
        refusal = mn_reason(HALVES(0), settings, (size_t)call->scalars[3], (size_t)call->scalars[4], &reason);
        put_reason(&reason, numbers);
    } else {
        struct mn_report report;
        refusal = mn_list(HALVES(0), settings, &report);
        put_report(&report, numbers);
    }
    return refusal;
}

static struct mn_refusal make_camera(const struct call *call, const struct mn_settings *settings, int64_t *numbers)
{
    const struct mn_lens lens = lens_of(call->scalars);
    struct mn_direction direction;
    struct mn_refusal refusal;
    if (call->kind == 16)
        return mn_lens(&lens, &numbers[2]);
    refusal = mn_direction(settings, mn_signed(call->scalars[5]), mn_signed(call->scalars[6]), &direction);
    numbers[2] = direction.x;
    numbers[3] = direction.y;
    numbers[4] = direction.z;
    return refusal;
}

static struct mn_refusal make_stars(const struct call *call, const struct mn_settings *settings, int64_t *numbers)
{
    struct mn_assignment assignment;
    struct mn_rival rival;
    struct mn_refusal refusal;
    const int64_t floor = mn_signed(call->scalars[0]);
    switch (call->kind) {
    case 4: return mn_catalogue(BYTES(0), &numbers[2]);
    case 5: return mn_ranking(DIRECTIONS, BYTES(1), settings, HALVES(2));
    case 10: return mn_index(BYTES(0), floor, BYTES(1), &numbers[2]);
    case 11: return mn_ranking_by_index(DIRECTIONS, BYTES(1), BYTES(2), floor, settings, HALVES(3));
    case 17: return mn_compare(BYTES(0), BYTES(1), BYTES(2), &numbers[2]);
    case 19: return mn_cut(BYTES(0), mn_signed_32(call->scalars[0] & UINT32_MAX), mn_signed(call->scalars[1]), &numbers[2]);
    case 6:
        refusal = mn_search(DIRECTIONS, BYTES(1), settings, HALVES(2), &assignment);
        numbers[2] = assignment.count;
        memcpy(numbers + 3, assignment.stars, sizeof assignment.stars);
        return refusal;
    default:
        refusal = mn_rival(DIRECTIONS, BYTES(1), settings, HALVES(2), &rival);
        numbers[2] = rival.exists;
        memcpy(numbers + 3, rival.stars, sizeof rival.stars);
        return refusal;
    }
}

static struct mn_refusal make_chain(const struct call *call, const struct mn_settings *settings, int64_t *numbers)
{
    struct mn_tracked tracked;
    struct mn_refusal refusal;
    if (call->kind == 13)
        return mn_burst(HALVES(0), settings, BYTES(1), HALVES(2), BYTES(3), &numbers[2]);
    if (call->kind == 8)
        refusal = mn_chain(HALVES(0), settings, BYTES(1), HALVES(2), &tracked);
    else
        refusal = mn_chain_by_index(HALVES(0), settings, BYTES(1), BYTES(2), mn_signed(call->scalars[8]), HALVES(3), &tracked);
    put_tracked(&tracked, numbers);
    return refusal;
}

static struct mn_refusal make_attitude(const struct call *call, int64_t *numbers)
{
    const int64_t *vectors = (const int64_t *)call->given[0];
    struct mn_direction four[4];
    struct mn_matrix matrix;
    struct mn_refusal refusal;
    int k;
    for (k = 0; k < 4; k++) {
        four[k].x = (int32_t)vectors[3 * k];
        four[k].y = (int32_t)vectors[3 * k + 1];
        four[k].z = (int32_t)vectors[3 * k + 2];
    }
    refusal = mn_attitude(&four[0], &four[1], &four[2], &four[3], &matrix);
    memcpy(numbers + 2, matrix.entries, sizeof matrix.entries);
    return refusal;
}

static struct mn_refusal make_gimbal(const struct call *call)
{
    if (call->kind == 14)
        return mn_cosines((const struct mn_matrix *)call->given[0], (struct mn_cosines *)call->given[1]);
    return mn_turned((const struct mn_cosines *)call->given[0], (const double *)call->given[1], (double *)call->given[2]);
}

/* A refused start gives a guider of zeros, where the archive's call leaves the room. */
static struct mn_refusal make_guider(const struct call *call, int64_t *numbers)
{
    int64_t *room = (int64_t *)call->given[call->kind == 20];
    int64_t after[MN_GUIDER_NUMBERS], given;
    struct mn_guider guider;
    struct mn_refusal refusal;
    int k;
    if (call->kind == 20) {
        refusal = mn_guider_start(mn_signed(call->scalars[0]), (const int64_t *)call->given[0], (size_t)call->lengths[0], &guider);
    } else {
        const int64_t *list = (const int64_t *)call->given[1];
        const struct mn_refusal seen = {list[0], list[1]};
        const struct mn_report report = report_of(list);
        mn_take_guider(room, &guider);
        refusal = mn_guider_frame(&guider, seen, &report);
    }
    put_guider(&guider, after);
    for (k = 0; k < MN_GUIDER_NUMBERS; k++) {
        given = refusal.number && call->kind == 20 ? 0 : after[k];
        numbers[63] |= given != after[k];
        if (!refusal.number || call->kind == 21)
            room[k] = after[k];
    }
    return refusal;
}

int make_typed(const struct call *call, int64_t *numbers)
{
    const struct mn_settings settings = settings_of(call);
    struct mn_refusal refusal;
    if (!can_make(call))
        return 0;
    memset(numbers, 0, MN_NUMBERS * sizeof *numbers);
    switch (call->kind) {
    case 1:
    case 2:
    case 9: refusal = make_frame(call, &settings, numbers); break;
    case 3:
    case 16: refusal = make_camera(call, &settings, numbers); break;
    case 7: refusal = make_attitude(call, numbers); break;
    case 8:
    case 12:
    case 13: refusal = make_chain(call, &settings, numbers); break;
    case 14:
    case 15: refusal = make_gimbal(call); break;
    case 20:
    case 21: refusal = make_guider(call, numbers); break;
    default: refusal = make_stars(call, &settings, numbers); break;
    }
    numbers[0] = refusal.number;
    numbers[1] = refusal.place;
    numbers[63] |= misread(call, numbers);
    return 1;
}
