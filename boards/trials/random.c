/* Makes calls up: skies of stars, a camera that looks at one of them, its frame and settings, all sound at first. Then many are spoilt in one place: a length one
 * too short or one too long, a number at an edge, a bit. Floats are added, multiplied, divided and rooted alone, and no statement draws two numbers whose order C
 * leaves open, so that every board makes the same. */
#include "random.h"

#include <math.h>
#include <string.h>

enum { MOST_STARS = 512, MOST_SIDE = 72, LARGE_WIDTH = 200, LARGE_HEIGHT = 160, MOST_SAMPLES = 4 * LARGE_WIDTH * LARGE_HEIGHT, MOST_PAIRS = 16384 };

/* What the buffers will hold; there is room for one element more. */
static union {
    uint8_t bytes[MN_INDEX_RECORD * MOST_PAIRS + 8];
    uint16_t halves[MOST_SAMPLES + 8];
    int32_t threes[64];
    int64_t words[72];
    double floats[16];
} made[MOST_BUFFERS];

static uint64_t state;

/* splitmix64 */
static uint64_t next(void)
{
    uint64_t z = state += UINT64_C(0x9E3779B97F4A7C15);
    z = (z ^ (z >> 30)) * UINT64_C(0xBF58476D1CE4E5B9);
    z = (z ^ (z >> 27)) * UINT64_C(0x94D049BB133111EB);
    return z ^ (z >> 31);
}

static int64_t between(int64_t low, int64_t high)
{
    return low + (int64_t)(next() % (uint64_t)(high - low + 1));
}

static int chance(int percent)
{
    return between(0, 99) < percent;
}

/* From -1 to 1. */
static double part(void)
{
    return (double)between(-1000000000, 1000000000) / 1e9;
}

/* The sky, the camera and what it sees. */
static struct {
    int stars;
    double star[MOST_STARS][3];
    double axes[3][3]; /* right, down and out of the camera, in the sky */
    double focal_length;
    int width, height;
    int seen[MN_STARS], seen_count; /* stars in view */
    int frames;                     /* of a burst */
    int large;                      /* as a camera has it: 512 stars anywhere, all pairs of its field in the index */
} sky;

static void unit(double *v)
{
    const double xx = v[0] * v[0], yy = v[1] * v[1], zz = v[2] * v[2];
    const double sum = xx + yy, length = sqrt(sum + zz);
    int k;
    for (k = 0; k < 3; k++)
        v[k] = length > 0 ? v[k] / length : k == 2;
}

static double dot(const double *a, const double *b)
{
    const double x = a[0] * b[0], y = a[1] * b[1], z = a[2] * b[2];
    const double sum = x + y;
    return sum + z;
}

static void cross(const double *a, const double *b, double *c)
{
    int k;
    for (k = 0; k < 3; k++) {
        const double first = a[(k + 1) % 3] * b[(k + 2) % 3], second = a[(k + 2) % 3] * b[(k + 1) % 3];
        c[k] = first - second;
    }
}

/* A number of a unit vector over 10^9, rounded. */
static int32_t whole(double component)
{
    const double wide = component * 1e9;
    return (int32_t)floor(wide + 0.5);
}

static int any_size(void)
{
    return chance(1) ? MOST_STARS : chance(10) ? (int)between(60, 128) : chance(30) ? (int)between(24, 60) : (int)between(3, 24);
}

/* Stars in a cone around one direction, or anywhere. */
static void make_stars(int size, int anywhere)
{
    const double wide = anywhere ? 4 : 0.3;
    double middle[3];
    int i, k;
    for (k = 0; k < 3; k++)
        middle[k] = part();
    unit(middle);
    sky.stars = size;
    for (i = 0; i < size; i++) {
        for (k = 0; k < 3; k++) {
            const double off = wide * part();
            sky.star[i][k] = middle[k] + off;
        }
        unit(sky.star[i]);
    }
}

/* A camera that looks at a star. */
static void make_camera(void)
{
    const int at = (int)between(0, sky.stars - 1);
    double up[3];
    int k;
    for (k = 0; k < 3; k++)
        up[k] = part();
    memcpy(sky.axes[2], sky.star[at], sizeof up);
    cross(up, sky.axes[2], sky.axes[0]);
    unit(sky.axes[0]);
    cross(sky.axes[2], sky.axes[0], sky.axes[1]);
    sky.width = (int)between(7, MOST_SIDE);
    sky.height = (int)between(7, MOST_SIDE);
    sky.focal_length = (double)between(64, 200);
    if (chance(3))
        sky.focal_length = (double)between(20, 63);
    sky.frames = (int)between(0, 4);
    sky.large = 0;
}

/* The position of a star on the frame in pixels; whether it has one well inside. */
static int project(int star, double *x, double *y)
{
    const double right = dot(sky.axes[0], sky.star[star]), down = dot(sky.axes[1], sky.star[star]), out = dot(sky.axes[2], sky.star[star]);
    if (out < 0.2)
        return 0;
    *x = sky.focal_length * right / out;
    *y = sky.focal_length * down / out;
    *x = *x + sky.width / 2;
    *y = *y + sky.height / 2;
    return *x > 3 && *y > 3 && *x < sky.width - 4 && *y < sky.height - 4;
}

/* The share of a star's light in the pixel before its own, in its own and in the one behind, by how far it is from the middle. */
static double share(int pixel, double off)
{
    const double half = pixel < 0 ? 0.5 - off : 0.5 + off;
    return pixel == 0 ? 0.75 - off * off : 0.5 * half * half;
}

static void draw(uint16_t *samples, double x, double y)
{
    const int column = (int)floor(x + 0.5), row = (int)floor(y + 0.5), light = (int)between(200, 6000);
    int i, j;
    for (i = -1; i <= 1; i++)
        for (j = -1; j <= 1; j++) {
            uint16_t *sample = &samples[(row + i) * sky.width + column + j];
            const double down = share(i, y - row), across = share(j, x - column);
            const double more = light * down * across;
            *sample = (uint16_t)(*sample + (int)more > 4095 ? 4095 : *sample + (int)more);
        }
}

/* A frame at the place of the samples: a dim sky, the stars, and sometimes a hot pixel. */
static void make_frame(uint16_t *samples)
{
    const int dim = (int)between(0, 20), pixels = sky.width * sky.height;
    double x = 0, y = 0;
    int i;
    for (i = 0; i < pixels; i++)
        samples[i] = (uint16_t)between(0, dim);
    for (i = 0; i < sky.stars; i++)
        if (project(i, &x, &y))
            draw(samples, x, y);
    if (chance(20)) {
        i = (int)between(0, pixels - 1);
        samples[i] = (uint16_t)between(100, 4095);
    }
}

static uint8_t *put(uint8_t *bytes, uint32_t number)
{
    int k;
    for (k = 0; k < 4; k++)
        bytes[k] = (uint8_t)(number >> 8 * (3 - k));
    return bytes + 4;
}

/* The sky's stars as a catalogue in buffer k. */
static void make_catalogue(struct call *call, int k)
{
    uint8_t *bytes = made[k].bytes;
    uint32_t identity = (uint32_t)between(0, 1000);
    int i, axis;
    for (i = 0; i < sky.stars; i++) {
        bytes = put(bytes, identity);
        for (axis = 0; axis < 3; axis++)
            bytes = put(bytes, (uint32_t)whole(sky.star[i][axis]));
        bytes = put(bytes, (uint32_t)between(-1000, 9000));
        identity += (uint32_t)between(1, 50);
    }
    call->lengths[k] = (uint64_t)sky.stars * MN_CATALOGUE_RECORD;
}

/* The directions of stars in view, as many as there may be, and some that are no star's. */
static void make_directions(struct call *call, int k)
{
    const int most = sky.large ? MN_STARS : (int)between(2, MN_STARS);
    double x = 0, y = 0, other[3];
    int i, axis;
    sky.seen_count = 0;
    for (i = 0; i < sky.stars && sky.seen_count < most; i++)
        if (project(i, &x, &y))
            sky.seen[sky.seen_count++] = i;
    for (i = 0; i < sky.seen_count; i++)
        for (axis = 0; axis < 3; axis++)
            made[k].threes[3 * i + axis] = whole(dot(sky.axes[axis], sky.star[sky.seen[i]]));
    if (chance(30) && sky.seen_count > 0) {
        i = (int)between(0, sky.seen_count - 1);
        for (axis = 0; axis < 3; axis++)
            other[axis] = part();
        unit(other);
        for (axis = 0; axis < 3; axis++)
            made[k].threes[3 * i + axis] = whole(other[axis]);
    }
    call->lengths[k] = 3 * (uint64_t)sky.seen_count;
}

/* A row of every star for each direction, mostly with its own star near the front. */
static void make_rows(struct call *call, int k)
{
    uint16_t *row = made[k].halves, kept;
    int i, j, other;
    for (i = 0; i < sky.seen_count; i++, row += sky.stars) {
        for (j = 0; j < sky.stars; j++)
            row[j] = (uint16_t)j;
        for (j = sky.stars - 1; j > 0; j--) {
            other = (int)between(0, j);
            kept = row[j];
            row[j] = row[other];
            row[other] = kept;
        }
        for (j = 0; chance(80) && j < sky.stars; j++)
            if (row[j] == sky.seen[i]) {
                row[j] = row[0];
                row[0] = (uint16_t)sky.seen[i];
            }
    }
    call->lengths[k] = (uint64_t)(sky.seen_count * sky.stars);
}

/* A room of some elements, filled with what must stay where nothing is written. */
static void make_room(struct call *call, int k, uint64_t length)
{
    memset(made[k].bytes, 0xa5, (size_t)(length + 1) * width_of(call, k));
    call->lengths[k] = length;
}

/* The index of the catalogue in buffer `from` for a floor, in buffer k. */
static void make_index(struct call *call, int from, int k, int64_t floor)
{
    int64_t records = 0;
    mn_index(made[from].bytes, (size_t)call->lengths[from], floor, made[k].bytes, MN_INDEX_RECORD * MOST_PAIRS, &records);
    call->lengths[k] = (uint64_t)records * MN_INDEX_RECORD;
}

/* A floor that leaves few pairs of many stars. */
static int64_t any_floor(void)
{
    const int64_t high = INT64_C(1000000000000000000);
    if (sky.large)
        return high / 10 * 8;
    return sky.stars > 128 ? high - between(0, 100) * (high / 20000) : between(-10, 10) * (high / 10);
}

static uint64_t any_tolerance(void)
{
    static const uint64_t tolerances[6] = {0, 100000000000, 10000000000000, 100000000000000, 1000000000000000, 10000000000000000};
    const int lowest = chance(5) ? 0 : 2, at = (int)between(lowest, sky.stars > 60 ? 3 : 5);
    return tolerances[at] + (uint64_t)between(0, 1000);
}

/* The lens as three numbers: in pixels, or in millimetres and micrometres. */
static void make_lens(uint64_t *scalars)
{
    const int pixels = chance(60);
    const double pitch = (double)between(2, 20);
    const double thousandths = sky.focal_length * pitch;
    scalars[0] = (uint64_t)pixels;
    scalars[1] = bits_of(pixels ? sky.focal_length : thousandths / 1000);
    scalars[2] = bits_of(pixels ? part() : pitch);
}

static void make_sizes(struct call *call)
{
    call->scalars[0] = (uint64_t)sky.width;
    call->scalars[1] = (uint64_t)sky.height;
    call->scalars[2] = (uint64_t)between(15, 120);
}

static void make_settings(struct call *call)
{
    uint64_t *behind = call->scalars + (call->kind == 12 ? 9 : 8);
    make_sizes(call);
    call->scalars[3] = (uint64_t)(sky.width / 2) * 256;
    call->scalars[4] = (uint64_t)(sky.height / 2) * 256;
    make_lens(call->scalars + 5);
    behind[0] = (uint64_t)(chance(80) ? 3 : between(3, 8));
    behind[1] = any_tolerance();
}

/* Each kind's numbers and buffers. */
static void make_one_frame(struct call *call)
{
    make_sizes(call);
    make_frame(made[0].halves);
    call->lengths[0] = (uint64_t)(sky.width * sky.height);
    call->scalars[3] = (uint64_t)between(0, sky.height - 1);
    call->scalars[4] = (uint64_t)between(0, sky.width - 1);
}

static void make_chain(struct call *call)
{
    const int frames = call->kind == 13 ? sky.frames : 1;
    int k;
    make_settings(call);
    for (k = 0; k < frames; k++)
        make_frame(made[0].halves + k * sky.width * sky.height);
    call->lengths[0] = (uint64_t)(frames * sky.width * sky.height);
    make_catalogue(call, 1);
    if (call->kind == 12) {
        call->scalars[8] = (uint64_t)any_floor();
        make_index(call, 1, 2, mn_signed(call->scalars[8]));
    }
    make_room(call, call->kind == 12 ? 3 : 2, MN_ROOM);
    if (call->kind == 13)
        make_room(call, 3, (uint64_t)frames * MN_BURST_RECORD);
}

static void make_camera_call(struct call *call)
{
    if (call->kind == 16) {
        make_lens(call->scalars);
        return;
    }
    call->scalars[0] = (uint64_t)between(0, 261888);
    call->scalars[1] = (uint64_t)between(0, 261888);
    make_lens(call->scalars + 2);
    call->scalars[5] = (uint64_t)between(0, 261888);
    call->scalars[6] = (uint64_t)between(0, 261888);
}

static void make_named(struct call *call)
{
    make_directions(call, 0);
    make_catalogue(call, 1);
    call->scalars[0] = (uint64_t)(chance(80) ? 3 : between(3, 8));
    call->scalars[forms[call->kind].scalars - 1] = any_tolerance();
    if (call->kind == 6 || call->kind == 18)
        make_rows(call, 2);
    if (call->kind == 5)
        make_room(call, 2, call->lengths[0] / 3 * (uint64_t)sky.stars);
    if (call->kind == 11) {
        call->scalars[0] = (uint64_t)any_floor();
        make_index(call, 1, 2, mn_signed(call->scalars[0]));
        make_room(call, 3, call->lengths[0] / 3 * (uint64_t)sky.stars);
    }
}

static void make_stars_call(struct call *call)
{
    int k;
    make_catalogue(call, 0);
    if (call->kind == 10) {
        call->scalars[0] = (uint64_t)any_floor();
        make_room(call, 1, MN_INDEX_RECORD * (uint64_t)(sky.large ? MOST_PAIRS - 1 : between(0, MOST_PAIRS / 2)));
    } else if (call->kind == 17) {
        memcpy(made[1].bytes, made[0].bytes, (size_t)call->lengths[0]);
        call->lengths[1] = call->lengths[0];
        for (k = 0; k < 3; k++)
            made[1].bytes[MN_CATALOGUE_RECORD * between(0, sky.stars - 1) + 19] ^= 1;
        make_room(call, 2, MN_CHANGE_RECORD * (uint64_t)between(2, 40));
    } else if (call->kind == 19) {
        call->scalars[0] = (uint64_t)between(0, 9000);
        call->scalars[1] = (uint64_t)(INT64_C(1000000000000000000) - between(0, 1000) * INT64_C(10000000000000));
    }
}

/* Two directions of the camera, and those of their stars. */
static void make_attitude(struct call *call)
{
    int k, axis;
    for (k = 0; k < 2; k++) {
        const double *star = sky.star[between(0, sky.stars - 1)];
        for (axis = 0; axis < 3; axis++) {
            made[0].words[3 * k + axis] = whole(dot(sky.axes[axis], star));
            made[0].words[6 + 3 * k + axis] = whole(star[axis]);
        }
    }
    call->lengths[0] = 12;
}

/* A float of any kind: plain, the largest, an infinity, a subnormal, a zero, none. */
static double any_float(void)
{
    static const uint64_t edges[10] = {0, UINT64_C(0x7ff0000000000000), UINT64_C(0x7fefffffffffffff), 1, UINT64_C(0x000fffffffffffff), UINT64_C(0x0010000000000000),
                                       UINT64_C(0x7ff8000000000000), UINT64_C(0x7ff0000000000001), UINT64_C(0x3ff0000000000000), UINT64_C(0x3ca0000000000000)};
    uint64_t pattern = chance(30) ? edges[between(0, 9)] : chance(20) ? next() : bits_of(part());
    if (chance(50))
        pattern ^= UINT64_C(0x8000000000000000);
    return float_of(pattern);
}

static void make_floats(struct call *call, int k, uint64_t length)
{
    uint64_t i;
    for (i = 0; i <= length; i++)
        made[k].floats[i] = any_float();
    call->lengths[k] = length;
}

static void make_gimbal(struct call *call)
{
    int k;
    if (call->kind == 14) {
        for (k = 0; k < 9; k++)
            made[0].words[k] = chance(90) ? between(-1100000000, 1100000000) : between(-8000000001, 8000000001);
        call->lengths[0] = 9;
        make_room(call, 1, 9);
        return;
    }
    make_floats(call, 0, 9);
    make_floats(call, 1, 3);
    make_room(call, 2, 3);
}

static void make_guides(struct call *call)
{
    const int count = (int)between(0, 4);
    int64_t *numbers = made[0].words;
    int k;
    call->scalars[0] = (uint64_t)between(0, 2560);
    if (call->kind == 20) {
        for (k = 0; k < count; k++) {
            *numbers++ = between(0, 12);
            *numbers++ = between(0, 18000);
            *numbers++ = between(0, 18000);
        }
        call->lengths[0] = 3 * (uint64_t)count;
        make_room(call, 1, MN_GUIDER_NUMBERS);
        return;
    }
    memset(numbers, 0, MN_GUIDER_NUMBERS * sizeof *numbers);
    numbers[0] = between(0, 2560);
    numbers[1] = count;
    for (k = 0; k < count; k++) {
        numbers[2 + 4 * k] = 10 * k + between(0, 10);
        numbers[3 + 4 * k] = between(0, 2000);
        numbers[4 + 4 * k] = between(0, 2000);
        numbers[5 + 4 * k] = between(0, 5);
    }
    call->lengths[0] = MN_GUIDER_NUMBERS;
    memset(made[1].words, 0, MN_NUMBERS * sizeof *numbers);
    made[1].words[2] = between(0, 8);
    for (k = 0; k < 3 * made[1].words[2]; k++)
        made[1].words[6 + k] = between(0, 2000);
    call->lengths[1] = MN_NUMBERS;
}

static void make_call(struct call *call)
{
    switch (call->kind) {
    case 1:
    case 2:
    case 9: make_one_frame(call); break;
    case 3:
    case 16: make_camera_call(call); break;
    case 8:
    case 12:
    case 13: make_chain(call); break;
    case 5:
    case 6:
    case 11:
    case 18: make_named(call); break;
    case 7: make_attitude(call); break;
    case 14:
    case 15: make_gimbal(call); break;
    case 20:
    case 21: make_guides(call); break;
    default: make_stars_call(call); break;
    }
}

/* One number of the call at an edge, or beside what it was. */
static void spoil_scalar(struct call *call)
{
    static const uint64_t edges[8] = {0, 1, UINT64_MAX, INT64_MAX, UINT64_C(0x8000000000000000), UINT32_MAX, UINT64_C(0x100000000), 512};
    uint64_t *scalar = &call->scalars[between(0, forms[call->kind].scalars - 1)];
    const int how = (int)between(0, 9);
    *scalar = how < 8 ? edges[how] : how == 8 ? *scalar + 1 : *scalar - 1;
}

/* One buffer that is an element too short or too long, or has another byte. */
static void spoil_buffer(struct call *call)
{
    const int k = (int)between(0, (int64_t)strlen(forms[call->kind].buffers) - 1);
    const int how = (int)between(0, 2);
    const uint64_t bytes = call->lengths[k] * width_of(call, k), at = next();
    const int bit = (int)between(0, 7);
    if (how == 0 && call->lengths[k] > 0)
        call->lengths[k]--;
    else if (how == 1)
        call->lengths[k]++;
    else if (bytes > 0)
        made[k].bytes[at % bytes] ^= (uint8_t)(1 << bit);
}

int by_header(uint64_t number)
{
    return number % 3 == 0;
}

/* Lends what was made. */
static void lend_made(struct call *call, enum side side)
{
    int k;
    lend(call, side);
    for (k = 0; forms[call->kind].buffers[k]; k++)
        memcpy(call->filled[k], made[k].bytes, (size_t)call->lengths[k] * width_of(call, k));
    memset(call->filled[OUT], 0xa5, (size_t)call->lengths[OUT] * sizeof(int64_t));
}

static void begin(struct call *call, uint64_t seed, uint64_t number)
{
    state = seed * UINT64_C(0x9E3779B97F4A7C15) + number;
    next();
    memset(call, 0, sizeof *call);
    call->lengths[OUT] = MN_NUMBERS;
}

void random_call(struct call *call, uint64_t seed, uint64_t number)
{
    int k;
    begin(call, seed, number);
    call->kind = (int)between(1, KINDS - 1);
    k = any_size();
    make_stars(k, chance(15));
    make_camera();
    make_call(call);
    if (chance(15) && forms[call->kind].scalars)
        spoil_scalar(call);
    if (chance(35) && *forms[call->kind].buffers)
        spoil_buffer(call);
    if (chance(5))
        call->lengths[OUT] = (uint64_t)between(MN_NUMBERS - 1, MN_NUMBERS + 1);
    lend_made(call, chance(50) ? AT_END : AT_START);
}

/* The last number of calls that rank or search is the tolerance, and the one before it the needed count. */
void random_large(struct call *call, int kind, uint64_t seed)
{
    uint64_t *behind = call->scalars + forms[kind].scalars;
    begin(call, seed, 0);
    call->kind = kind;
    make_stars(MOST_STARS, 1);
    make_camera();
    sky.width = LARGE_WIDTH;
    sky.height = LARGE_HEIGHT;
    sky.focal_length = 320;
    sky.frames = 4;
    sky.large = 1;
    make_call(call);
    if (kind == 5 || kind == 6 || kind == 8 || kind == 11 || kind == 12 || kind == 13 || kind == 18)
        behind[-1] = UINT64_C(20000000000000);
    if (kind == 6 || kind == 8 || kind == 12 || kind == 13 || kind == 18)
        behind[-2] = 4;
    lend_made(call, AT_END);
}
