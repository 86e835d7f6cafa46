/* Mnemathor, the software of a guidance star camera, for C99 and C++.
 *
 * Link with libmnemathor.a, which ./library makes. docs/FLIGHT.md tells how to use it, docs/RULES.md what each call computes; its names, order and units are
 * used here. The archive's functions, mnemathor_..., are proved. They hand over 64 numbers each; the functions of this file, mn_..., lend them the caller's
 * buffers and take the numbers apart, and decide nothing.
 *
 * Every call returns its refusal: number MN_ACCEPTED, or the first row of its table that applies, with a place. Its answer goes where the last pointer
 * points to, and is zeros where the call is refused. Buffers are pointer and length in elements; NULL with length 0 is fine. A buffer that a call writes
 * overlaps no other that it is lent. No call keeps a pointer, no call allocates, none has a state of its own: calls may run at the same time as long as no
 * buffer that one of them writes is lent to another.
 *
 * A type is written with `struct` before its name, since some have the name of the call that gives them. On every board the archive's lengths have 64 bits;
 * those of this file are size_t. */
#ifndef MNEMATHOR_H
#define MNEMATHOR_H

#include <float.h>
#include <stddef.h>
#include <stdint.h>

/* The version of this header and of the archive beside it. docs/FLIGHT.md says what each number promises. */
#define MN_VERSION_MAJOR 1
#define MN_VERSION_MINOR 2
#define MN_VERSION_PATCH 0
/* As one number, to compare: 10200 for 1.2.0. */
#define MN_VERSION (10000 * MN_VERSION_MAJOR + 100 * MN_VERSION_MINOR + MN_VERSION_PATCH)

/* Every call is local to the file that includes this one. A file that wants them as symbols defines MN_FUNCTION as nothing (include/mnemathor.c does). */
#ifndef MN_FUNCTION
#define MN_FUNCTION static inline
#endif

#ifdef __cplusplus
extern "C" {
/* A call may have the name of the struct that it gives, as above; C++ compilers warn of that as of a hidden constructor. */
#ifdef __GNUC__
#pragma GCC diagnostic push
#pragma GCC diagnostic ignored "-Wshadow"
#endif
#endif

/* Sizes. */
enum {
    MN_NUMBERS = 64,           /* numbers that a call of the archive hands over */
    MN_STARS = 8,              /* most stars of a frame's list, and most directions */
    MN_CATALOGUE_STARS = 512,  /* most records of a catalogue */
    MN_CATALOGUE_RECORD = 20,  /* bytes of a catalogue's record */
    MN_ROOM = 4096,            /* words of the ranking room: MN_STARS x MN_CATALOGUE_STARS */
    MN_INDEX_RECORD = 12,      /* bytes of an index's record */
    MN_INDEX_RECORDS = 130816, /* most records of an index: the pairs of 512 stars */
    MN_BURST_RECORD = 80,      /* bytes of a burst's record */
    MN_BURST_FRAMES = 64,      /* most frames of a burst */
    MN_CHANGE_RECORD = 8,      /* bytes of a record of a list of changes */
    MN_CHANGES = 1024,         /* most records of a list of changes */
    MN_GUIDES = 4,             /* most guides of a guider */
    MN_GUIDER_NUMBERS = 18,    /* numbers of a guider in the archive's calls */
    MN_DROPPED = 5,            /* misses at which a guide is dropped */
    MN_NONE = -1,              /* a direction that no star is assigned to */
    MN_UNIT = 1000000000       /* stands for 1 in directions and matrices */
};

/* Where an answer stands among the numbers that a call of the archive hands over; what else there is, is 0. docs/FLIGHT.md has every call's. */
enum mn_place {
    MN_AT_NUMBER = 0,       /* the refusal's number, 0 if the call is accepted */
    MN_AT_PLACE = 1,        /* the refusal's place */
    MN_AT_OWN = 2,          /* the answer's own: a count, a direction, a matrix by rows, whether there is a rival */
    MN_AT_NAMES = 3,        /* of a search or a rival: the star of each of 8 directions */
    MN_AT_ROW = 2,          /* of a verdict: row, column, kind and three numbers of the centroid */
    MN_AT_COLUMN = 3,
    MN_AT_KIND = 4,
    MN_AT_CENTROID = 5,
    MN_AT_REASON = 2,       /* of a reason: its kind, and three numbers that it names */
    MN_AT_FIRST = 3,
    MN_AT_SECOND = 4,
    MN_AT_THIRD = 5,
    MN_AT_COUNT = 2,        /* of a list: its four counts, and three numbers of each star */
    MN_AT_MEASURED = 3,
    MN_AT_EDGE = 4,
    MN_AT_LONE = 5,
    MN_AT_STARS = 6,
    MN_AT_CHAIN_NAMES = 30, /* of a chain, behind its list: the star of each of 8 directions, and the matrix by rows */
    MN_AT_CHAIN_MATRIX = 38,
    MN_AT_HALF_WIDTH = 0,   /* of a guider's own MN_GUIDER_NUMBERS: half-width, count, and four numbers of each guide */
    MN_AT_GUIDE_COUNT = 1,
    MN_AT_GUIDES = 2
};

/* Numbers of a refusal. docs/FLIGHT.md says what each means in flight. */
enum mn_refused {
    MN_ACCEPTED = 0,
    MN_REFUSED_SIZE = 1,          /* width or height is out of range */
    MN_REFUSED_SAMPLES = 2,       /* the samples lent are not width x height; of a burst, no multiple of it or more than 64 times it */
    MN_REFUSED_THRESHOLD = 3,     /* the threshold is out of range */
    MN_REFUSED_SAMPLE = 4,        /* a sample is above 4,095; place: the first such sample */
    MN_REFUSED_SETTINGS = 5,      /* cx or cy is out of range, or a position handed in is */
    MN_REFUSED_CATALOGUE = 6,     /* the catalogue's length is no multiple of a record's, or not that of 1 to 512 records */
    MN_REFUSED_RECORD = 7,        /* a record breaks its rule; place: the first such record */
    MN_REFUSED_DIRECTIONS = 8,    /* more than 8 directions, or a component beyond 10^9; in the archive's calls also a wrong count of numbers */
    MN_REFUSED_DEMAND = 9,        /* the needed count or the tolerance is out of range */
    MN_REFUSED_ROOM = 10,         /* the ranking room is too short */
    MN_REFUSED_RANKING = 11,      /* the ranking read has a wrong length (place 0) or a wrong entry; place: the first such entry */
    MN_REFUSED_FEW = 12,          /* there are fewer directions than needed */
    MN_REFUSED_NO_FIT = 13,       /* no assignment fits */
    MN_REFUSED_CLOSE = 14,        /* the two stars that the attitude rests on are too close */
    MN_REFUSED_PIXEL = 15,        /* the pixel asked for is outside the frame */
    MN_REFUSED_INDEX_ROOM = 16,   /* the room is shorter than the index */
    MN_REFUSED_INDEX = 17,        /* the index is not the one for this catalogue and floor */
    MN_REFUSED_RECORDS_ROOM = 18, /* the answer room is shorter than a burst's records; in the archive's calls also than 9 or 3 floats */
    MN_REFUSED_LENS = 19,         /* a number of the lens is not above zero, the focal length is out of range, or the kind is none */
    MN_REFUSED_CHANGES_ROOM = 20, /* the room is shorter than the list of changes */
    MN_REFUSED_CUT = 21,          /* nothing would be kept of the catalogue */
    MN_REFUSED_GUIDER = 22,       /* a guider or a list breaks its rule, in the archive's calls also by its length */
    MN_REFUSED_ENTRY = 23         /* a matrix entry handed in is beyond 8 x 10^9; in the archive's calls also other than 9 entries or floats of rows */
};

/* Verdicts on a pixel, in the order in which they are tried. */
enum mn_kind { MN_DARK = 0, MN_BEATEN = 1, MN_EDGE = 2, MN_LONE = 3, MN_MEASURED = 4 };

/* Sides of a frame, in the order in which they are tried. */
enum mn_side { MN_LEFT = 0, MN_RIGHT = 1, MN_TOP = 2, MN_BOTTOM = 3 };

/* The two forms of the lens plate. */
enum mn_plate { MN_MILLIMETRES = 0, MN_PIXELS = 1 };

/* What changed about a star. */
enum mn_changed { MN_REMOVED = 1, MN_ADDED = 2, MN_CHANGED = 3 };

/* What every call returns: an mn_refused, and the place that it names, 0 if it names none. */
struct mn_refusal {
    int64_t number;
    int64_t place;
};

/* The lens plate: MN_MILLIMETRES with focal length in millimetres and pixel pitch in micrometres, or MN_PIXELS with focal length in pixels and a pitch that
 * is not looked at. */
struct mn_lens {
    uint32_t kind;
    double focal_length;
    double pitch;
};

/* Each call looks at those that its comment names. */
struct mn_settings {
    size_t width;     /* of a frame, 7 to 1,024 */
    size_t height;    /* of a frame, 7 to 1,024 */
    size_t threshold; /* 1 to 4,095 */
    size_t needed;    /* how many directions must have a star, 3 to 8 */
    int64_t cx;       /* the centre in 1/256 pixel, 0 to 261,888 */
    int64_t cy;
    struct mn_lens lens;
    uint64_t tolerance; /* by how much two dot products may differ, 0 to 10^16 where 10^18 stands for 1 */
};

/* A star's position in 1/256 pixel, and its brightness. */
struct mn_centroid {
    int64_t x;
    int64_t y;
    int64_t brightness;
};

/* The verdict on a pixel; the centroid is zeros unless the kind is MN_MEASURED. */
struct mn_verdict {
    int64_t row;
    int64_t column;
    int64_t kind; /* an mn_kind */
    struct mn_centroid centroid;
};

/* Why a pixel is or is not a star. What its kind does not name is 0. */
struct mn_reason {
    int64_t kind;                /* an mn_kind */
    int64_t sample;              /* MN_DARK: the pixel's sample */
    int64_t threshold;           /* MN_DARK */
    int64_t row;                 /* MN_BEATEN: the first pixel, in row order, of its window that beats it */
    int64_t column;              /* MN_BEATEN */
    int64_t side;                /* MN_EDGE: the first side that is too near, an mn_side */
    int64_t largest;             /* MN_LONE: the largest sample among the eight neighbours */
    struct mn_centroid centroid; /* MN_MEASURED */
};

/* A frame's list: the first `count` stars, by falling brightness, and how many pixels of the whole frame are measured, edge and lone. */
struct mn_report {
    int64_t count;
    int64_t measured;
    int64_t edge;
    int64_t lone;
    struct mn_centroid stars[MN_STARS];
};

/* Right, down and out to the sky; MN_UNIT stands for 1. */
struct mn_direction {
    int32_t x;
    int32_t y;
    int32_t z;
};

/* The star of each of `count` directions: its record number in the catalogue, from 0, or MN_NONE. */
struct mn_assignment {
    int64_t count;
    int64_t stars[MN_STARS];
};

/* Whether the search's answer has a rival, 1 or 0, and the rival's star for each direction, as in an assignment. */
struct mn_rival {
    int64_t exists;
    int64_t stars[MN_STARS];
};

/* The attitude: entries[row][column], MN_UNIT for 1. It carries sky to camera. */
struct mn_matrix {
    int64_t entries[3][3];
};

/* What the whole chain gives. The assignment's count is the report's. */
struct mn_tracked {
    struct mn_report report;
    struct mn_assignment assignment;
    struct mn_matrix matrix;
};

/* Direction cosines: entries[row][column]. */
struct mn_cosines {
    double entries[3][3];
};

/* A star's identity, its last position in 1/256 pixel, and how many frames in a row it was missed; at MN_DROPPED the guide is dropped. */
struct mn_guide {
    int64_t identity;
    int64_t x;
    int64_t y;
    int64_t misses;
};

/* Half the side of the boxes, 0 to 2,560 in 1/256 pixel, and the first `count` of the guides. The caller keeps it from frame to frame. */
struct mn_guider {
    int64_t half_width;
    int64_t count;
    struct mn_guide guides[MN_GUIDES];
};

/* What a record of a catalogue holds; the magnitude is in thousandths. */
struct mn_star {
    uint32_t identity;
    struct mn_direction direction;
    int32_t magnitude;
};

/* What a record of an index holds: a dot product and two record numbers of the catalogue, lower first. */
struct mn_pair {
    int64_t dot;
    uint32_t first;
    uint32_t second;
};

/* What a record of a list of changes holds. */
struct mn_change {
    uint32_t identity;
    uint32_t kind; /* an mn_changed */
};

/* What a record of a burst holds: what the single call on the frame gives. */
struct mn_framed {
    struct mn_refusal refusal;
    struct mn_matrix matrix;
};

/* The archives are for boards with the low byte first, doubles of 64 bits by IEEE 754, and numbers of 64 bits aligned on 8 bytes, of which arrays are made with
 * nothing between them. Another does not get past these lines. */
#if defined(__BYTE_ORDER__) && __BYTE_ORDER__ != __ORDER_LITTLE_ENDIAN__
#error "mnemathor: the archives are for boards that have the low byte first"
#endif
#if defined(__FLOAT_WORD_ORDER__) && __FLOAT_WORD_ORDER__ != __ORDER_LITTLE_ENDIAN__
#error "mnemathor: the archives are for boards whose doubles have the low byte first"
#endif
#if FLT_RADIX != 2 || DBL_MANT_DIG != 53 || DBL_MAX_EXP != 1024 || DBL_MIN_EXP != -1021
#error "mnemathor: the archives are for boards whose doubles have 64 bits, by IEEE 754"
#endif
struct mn_aligned {
    char byte;
    int64_t number;
    char other;
    double real;
};
typedef char mn_board_does_not_fit[offsetof(struct mn_aligned, number) == 8 && offsetof(struct mn_aligned, real) == 24 && sizeof(double) == 8 &&
                                           sizeof(size_t) <= 8 && sizeof(struct mn_direction) == 12 && sizeof(struct mn_matrix) == 72 &&
                                           sizeof(struct mn_cosines) == 72
                                       ? 1
                                       : -1];

/* The archive's functions. Each writes its answer into `out`, refused or not: number and place of a refusal first, and zeros where there is no answer. Lists
 * and rooms of a wrong length are refused like any other input. Only an `out` with room for fewer than MN_NUMBERS stays as it was: nothing can be told. */

void mnemathor_verdict(const uint16_t *samples, uint64_t samples_len, uint64_t width, uint64_t height, uint64_t threshold, uint64_t row, uint64_t column,
                       int64_t *out, uint64_t out_len);
void mnemathor_reason(const uint16_t *samples, uint64_t samples_len, uint64_t width, uint64_t height, uint64_t threshold, uint64_t row, uint64_t column,
                      int64_t *out, uint64_t out_len);
void mnemathor_list(const uint16_t *samples, uint64_t samples_len, uint64_t width, uint64_t height, uint64_t threshold, int64_t *out, uint64_t out_len);
void mnemathor_lens(uint32_t kind, double first, double second, int64_t *out, uint64_t out_len);
void mnemathor_direction(int64_t cx, int64_t cy, uint32_t kind, double first, double second, int64_t x, int64_t y, int64_t *out, uint64_t out_len);
void mnemathor_catalogue(const uint8_t *catalogue, uint64_t catalogue_len, int64_t *out, uint64_t out_len);
void mnemathor_ranking(const int32_t *directions, uint64_t directions_len, const uint8_t *catalogue, uint64_t catalogue_len, uint64_t tolerance, uint16_t *room,
                       uint64_t room_len, int64_t *out, uint64_t out_len);
void mnemathor_search(const int32_t *directions, uint64_t directions_len, const uint8_t *catalogue, uint64_t catalogue_len, uint64_t needed, uint64_t tolerance,
                      const uint16_t *ranking, uint64_t ranking_len, int64_t *out, uint64_t out_len);
void mnemathor_rival(const int32_t *directions, uint64_t directions_len, const uint8_t *catalogue, uint64_t catalogue_len, uint64_t needed, uint64_t tolerance,
                     const uint16_t *ranking, uint64_t ranking_len, int64_t *out, uint64_t out_len);
void mnemathor_attitude(const int64_t *vectors, uint64_t vectors_len, int64_t *out, uint64_t out_len);
void mnemathor_cosines(const int64_t *matrix, uint64_t matrix_len, double *rows, uint64_t rows_len, int64_t *out, uint64_t out_len);
void mnemathor_turned(const double *rows, uint64_t rows_len, const double *target, uint64_t target_len, double *turned, uint64_t turned_len, int64_t *out,
                      uint64_t out_len);
void mnemathor_chain(const uint16_t *samples, uint64_t samples_len, uint64_t width, uint64_t height, uint64_t threshold, int64_t cx, int64_t cy, uint32_t kind,
                     double first, double second, const uint8_t *catalogue, uint64_t catalogue_len, uint64_t needed, uint64_t tolerance, uint16_t *room,
                     uint64_t room_len, int64_t *out, uint64_t out_len);
void mnemathor_index(const uint8_t *catalogue, uint64_t catalogue_len, int64_t floor, uint8_t *room, uint64_t room_len, int64_t *out, uint64_t out_len);
void mnemathor_ranking_by_index(const int32_t *directions, uint64_t directions_len, const uint8_t *catalogue, uint64_t catalogue_len, const uint8_t *index,
                                uint64_t index_len, int64_t floor, uint64_t tolerance, uint16_t *room, uint64_t room_len, int64_t *out, uint64_t out_len);
void mnemathor_chain_by_index(const uint16_t *samples, uint64_t samples_len, uint64_t width, uint64_t height, uint64_t threshold, int64_t cx, int64_t cy,
                              uint32_t kind, double first, double second, const uint8_t *catalogue, uint64_t catalogue_len, const uint8_t *index,
                              uint64_t index_len, int64_t floor, uint64_t needed, uint64_t tolerance, uint16_t *room, uint64_t room_len, int64_t *out,
                              uint64_t out_len);
void mnemathor_burst(const uint16_t *samples, uint64_t samples_len, uint64_t width, uint64_t height, uint64_t threshold, int64_t cx, int64_t cy, uint32_t kind,
                     double first, double second, const uint8_t *catalogue, uint64_t catalogue_len, uint64_t needed, uint64_t tolerance, uint16_t *room,
                     uint64_t room_len, uint8_t *records, uint64_t records_len, int64_t *out, uint64_t out_len);
void mnemathor_compare(const uint8_t *first, uint64_t first_len, const uint8_t *second, uint64_t second_len, uint8_t *room, uint64_t room_len, int64_t *out,
                       uint64_t out_len);
void mnemathor_cut(uint8_t *catalogue, uint64_t catalogue_len, int32_t limit, int64_t closeness, int64_t *out, uint64_t out_len);
void mnemathor_guider_start(int64_t half_width, const int64_t *stars, uint64_t stars_len, int64_t *guider, uint64_t guider_len, int64_t *out, uint64_t out_len);
void mnemathor_guider_frame(int64_t *guider, uint64_t guider_len, const int64_t *list, uint64_t list_len, int64_t *out, uint64_t out_len);

/* Parts of the numbers. */

static inline struct mn_refusal mn_take_refusal(const int64_t *out)
{
    struct mn_refusal refusal;
    refusal.number = out[MN_AT_NUMBER];
    refusal.place = out[MN_AT_PLACE];
    return refusal;
}

static inline void mn_take_centroid(const int64_t *numbers, struct mn_centroid *centroid)
{
    centroid->x = numbers[0];
    centroid->y = numbers[1];
    centroid->brightness = numbers[2];
}

static inline void mn_take_report(const int64_t *out, struct mn_report *report)
{
    size_t k;
    report->count = out[MN_AT_COUNT];
    report->measured = out[MN_AT_MEASURED];
    report->edge = out[MN_AT_EDGE];
    report->lone = out[MN_AT_LONE];
    for (k = 0; k < MN_STARS; k++)
        mn_take_centroid(out + MN_AT_STARS + 3 * k, &report->stars[k]);
}

static inline void mn_take_stars(const int64_t *numbers, int64_t *stars)
{
    size_t i;
    for (i = 0; i < MN_STARS; i++)
        stars[i] = numbers[i];
}

static inline void mn_take_matrix(const int64_t *numbers, struct mn_matrix *matrix)
{
    size_t row, column;
    for (row = 0; row < 3; row++)
        for (column = 0; column < 3; column++)
            matrix->entries[row][column] = numbers[3 * row + column];
}

static inline void mn_take_tracked(const int64_t *out, struct mn_tracked *tracked)
{
    mn_take_report(out, &tracked->report);
    tracked->assignment.count = out[MN_AT_COUNT];
    mn_take_stars(out + MN_AT_CHAIN_NAMES, tracked->assignment.stars);
    mn_take_matrix(out + MN_AT_CHAIN_MATRIX, &tracked->matrix);
}

static inline void mn_take_guider(const int64_t *numbers, struct mn_guider *guider)
{
    size_t k;
    guider->half_width = numbers[MN_AT_HALF_WIDTH];
    guider->count = numbers[MN_AT_GUIDE_COUNT];
    for (k = 0; k < MN_GUIDES; k++) {
        guider->guides[k].identity = numbers[MN_AT_GUIDES + 4 * k];
        guider->guides[k].x = numbers[MN_AT_GUIDES + 4 * k + 1];
        guider->guides[k].y = numbers[MN_AT_GUIDES + 4 * k + 2];
        guider->guides[k].misses = numbers[MN_AT_GUIDES + 4 * k + 3];
    }
}

static inline void mn_give_guider(const struct mn_guider *guider, int64_t *numbers)
{
    size_t k;
    numbers[MN_AT_HALF_WIDTH] = guider->half_width;
    numbers[MN_AT_GUIDE_COUNT] = guider->count;
    for (k = 0; k < MN_GUIDES; k++) {
        numbers[MN_AT_GUIDES + 4 * k] = guider->guides[k].identity;
        numbers[MN_AT_GUIDES + 4 * k + 1] = guider->guides[k].x;
        numbers[MN_AT_GUIDES + 4 * k + 2] = guider->guides[k].y;
        numbers[MN_AT_GUIDES + 4 * k + 3] = guider->guides[k].misses;
    }
}

/* The numbers that the list's call handed over. */
static inline void mn_give_report(struct mn_refusal seen, const struct mn_report *report, int64_t *numbers)
{
    size_t k;
    numbers[MN_AT_NUMBER] = seen.number;
    numbers[MN_AT_PLACE] = seen.place;
    numbers[MN_AT_COUNT] = report->count;
    numbers[MN_AT_MEASURED] = report->measured;
    numbers[MN_AT_EDGE] = report->edge;
    numbers[MN_AT_LONE] = report->lone;
    for (k = 0; k < MN_STARS; k++) {
        numbers[MN_AT_STARS + 3 * k] = report->stars[k].x;
        numbers[MN_AT_STARS + 3 * k + 1] = report->stars[k].y;
        numbers[MN_AT_STARS + 3 * k + 2] = report->stars[k].brightness;
    }
    for (k = MN_AT_STARS + 3 * MN_STARS; k < MN_NUMBERS; k++)
        numbers[k] = 0;
}

/* Directions as they are lent: three numbers each, with nothing between them. */
static inline const int32_t *mn_give_directions(const struct mn_direction *directions)
{
    return directions ? &directions->x : (const int32_t *)0;
}

/* How many numbers so many directions are, where size_t has 32 bits too. */
static inline uint64_t mn_give_count(size_t directions_count)
{
    return 3 * (uint64_t)directions_count;
}

static inline void mn_give_direction(const struct mn_direction *direction, int64_t *numbers)
{
    numbers[0] = direction->x;
    numbers[1] = direction->y;
    numbers[2] = direction->z;
}

/* A number of so many bytes, high byte first. */
static inline uint64_t mn_take_bytes(const uint8_t *bytes, size_t count)
{
    uint64_t number = 0;
    size_t k;
    for (k = 0; k < count; k++)
        number = 256 * number + bytes[k];
    return number;
}

/* The signed number that has the same 64 bits, and the same for 32. */
static inline int64_t mn_signed(uint64_t word)
{
    return word <= INT64_MAX ? (int64_t)word : -(int64_t)(UINT64_MAX - word) - 1;
}

static inline int32_t mn_signed_32(uint64_t word)
{
    return word <= INT32_MAX ? (int32_t)word : -(int32_t)(UINT32_MAX - word) - 1;
}

/* The calls. */

/* The verdict on the pixel at a row and column, the first that applies of dark, beaten, edge, lone and measured. Settings: width, height, threshold.
 * Refusals: 1, 2, 3, 4, 15. */
MN_FUNCTION struct mn_refusal mn_verdict(const uint16_t *samples, size_t samples_len, const struct mn_settings *settings, size_t row, size_t column,
                                         struct mn_verdict *verdict)
{
    int64_t out[MN_NUMBERS];
    mnemathor_verdict(samples, samples_len, settings->width, settings->height, settings->threshold, row, column, out, MN_NUMBERS);
    verdict->row = out[MN_AT_ROW];
    verdict->column = out[MN_AT_COLUMN];
    verdict->kind = out[MN_AT_KIND];
    mn_take_centroid(out + MN_AT_CENTROID, &verdict->centroid);
    return mn_take_refusal(out);
}

/* Why the pixel at a row and column is or is not a star; the reason's kind is always the verdict. The three numbers behind the kind have their names by it.
 * Settings: width, height, threshold. Refusals: 1, 2, 3, 4, 15. */
MN_FUNCTION struct mn_refusal mn_reason(const uint16_t *samples, size_t samples_len, const struct mn_settings *settings, size_t row, size_t column,
                                        struct mn_reason *reason)
{
    int64_t out[MN_NUMBERS];
    mnemathor_reason(samples, samples_len, settings->width, settings->height, settings->threshold, row, column, out, MN_NUMBERS);
    reason->kind = out[MN_AT_REASON];
    reason->sample = out[MN_AT_REASON] == MN_DARK ? out[MN_AT_FIRST] : 0;
    reason->threshold = out[MN_AT_REASON] == MN_DARK ? out[MN_AT_SECOND] : 0;
    reason->row = out[MN_AT_REASON] == MN_BEATEN ? out[MN_AT_FIRST] : 0;
    reason->column = out[MN_AT_REASON] == MN_BEATEN ? out[MN_AT_SECOND] : 0;
    reason->side = out[MN_AT_REASON] == MN_EDGE ? out[MN_AT_FIRST] : 0;
    reason->largest = out[MN_AT_REASON] == MN_LONE ? out[MN_AT_FIRST] : 0;
    reason->centroid.x = out[MN_AT_REASON] == MN_MEASURED ? out[MN_AT_FIRST] : 0;
    reason->centroid.y = out[MN_AT_REASON] == MN_MEASURED ? out[MN_AT_SECOND] : 0;
    reason->centroid.brightness = out[MN_AT_REASON] == MN_MEASURED ? out[MN_AT_THIRD] : 0;
    return mn_take_refusal(out);
}

/* The frame's list: the measured pixels by falling brightness, equal ones in row order, the first 8, and how many pixels are measured, edge and lone.
 * Settings: width, height, threshold. Refusals: 1, 2, 3, 4. */
MN_FUNCTION struct mn_refusal mn_list(const uint16_t *samples, size_t samples_len, const struct mn_settings *settings, struct mn_report *report)
{
    int64_t out[MN_NUMBERS];
    mnemathor_list(samples, samples_len, settings->width, settings->height, settings->threshold, out, MN_NUMBERS);
    mn_take_report(out, report);
    return mn_take_refusal(out);
}

/* The whole focal length F of a lens plate, in 1/256 pixel: at most 256 x q and below it by less than one. Refusals: 19. */
MN_FUNCTION struct mn_refusal mn_lens(const struct mn_lens *lens, int64_t *focal_length)
{
    int64_t out[MN_NUMBERS];
    mnemathor_lens(lens->kind, lens->focal_length, lens->pitch, out, MN_NUMBERS);
    *focal_length = out[MN_AT_OWN];
    return mn_take_refusal(out);
}

/* The direction of a position x, y in 1/256 pixel. Settings: cx, cy, lens. Refusals: 19, 5. */
MN_FUNCTION struct mn_refusal mn_direction(const struct mn_settings *settings, int64_t x, int64_t y, struct mn_direction *direction)
{
    int64_t out[MN_NUMBERS];
    mnemathor_direction(settings->cx, settings->cy, settings->lens.kind, settings->lens.focal_length, settings->lens.pitch, x, y, out, MN_NUMBERS);
    direction->x = (int32_t)out[MN_AT_OWN];
    direction->y = (int32_t)out[MN_AT_OWN + 1];
    direction->z = (int32_t)out[MN_AT_OWN + 2];
    return mn_take_refusal(out);
}

/* Whether a catalogue is valid, and how many records it has. Refusals: 6, 7. */
MN_FUNCTION struct mn_refusal mn_catalogue(const uint8_t *catalogue, size_t catalogue_len, int64_t *records)
{
    int64_t out[MN_NUMBERS];
    mnemathor_catalogue(catalogue, catalogue_len, out, MN_NUMBERS);
    *records = out[MN_AT_OWN];
    return mn_take_refusal(out);
}

/* A row of record numbers for each direction, the most votes first, equal ones by rising number, written at the start of the room, which needs directions x
 * stars words; the rest of it stays. Settings: tolerance. Refusals: 6, 7, 8, 9, 10. */
MN_FUNCTION struct mn_refusal mn_ranking(const struct mn_direction *directions, size_t directions_count, const uint8_t *catalogue, size_t catalogue_len,
                                         const struct mn_settings *settings, uint16_t *room, size_t room_len)
{
    int64_t out[MN_NUMBERS];
    mnemathor_ranking(mn_give_directions(directions), mn_give_count(directions_count), catalogue, catalogue_len, settings->tolerance, room, room_len, out,
                      MN_NUMBERS);
    return mn_take_refusal(out);
}

/* The index of the catalogue for a floor, one record of 12 bytes for each pair of stars whose dot product is at least the floor, written at the start of the
 * room; the rest of it stays. The answer is the number of records. Refusals: 6, 7, 16. */
MN_FUNCTION struct mn_refusal mn_index(const uint8_t *catalogue, size_t catalogue_len, int64_t floor, uint8_t *room, size_t room_len, int64_t *records)
{
    int64_t out[MN_NUMBERS];
    mnemathor_index(catalogue, catalogue_len, floor, room, room_len, out, MN_NUMBERS);
    *records = out[MN_AT_OWN];
    return mn_take_refusal(out);
}

/* The ranking of mn_ranking, worked out by the index of the catalogue for a floor, which is tested first. Settings: tolerance. Refusals: 6, 7, 17, 8, 9, 10. */
MN_FUNCTION struct mn_refusal mn_ranking_by_index(const struct mn_direction *directions, size_t directions_count, const uint8_t *catalogue,
                                                  size_t catalogue_len, const uint8_t *index, size_t index_len, int64_t floor,
                                                  const struct mn_settings *settings, uint16_t *room, size_t room_len)
{
    int64_t out[MN_NUMBERS];
    mnemathor_ranking_by_index(mn_give_directions(directions), mn_give_count(directions_count), catalogue, catalogue_len, index, index_len, floor,
                               settings->tolerance, room, room_len, out, MN_NUMBERS);
    return mn_take_refusal(out);
}

/* What changed from the first catalogue to the second: one record of 8 bytes for each star that only one of them has, or both with different numbers, by
 * rising identity, written at the start of the room; the rest of it stays. The answer is the number of records. Refusals: 6, 7 of the first catalogue, 6, 7
 * of the second, 20. */
MN_FUNCTION struct mn_refusal mn_compare(const uint8_t *first, size_t first_len, const uint8_t *second, size_t second_len, uint8_t *room, size_t room_len,
                                         int64_t *records)
{
    int64_t out[MN_NUMBERS];
    mnemathor_compare(first, first_len, second, second_len, room, room_len, out, MN_NUMBERS);
    *records = out[MN_AT_OWN];
    return mn_take_refusal(out);
}

/* Cuts a flight catalogue in place: a star is kept exactly if its magnitude is at most the limit and no other star within the limit has a dot product of at
 * least the closeness with it. Kept records move to the front in their order, and the room behind them is filled with 255. The answer is the number of
 * records kept. Refusals: 6, 7, 21. */
MN_FUNCTION struct mn_refusal mn_cut(uint8_t *catalogue, size_t catalogue_len, int32_t limit, int64_t closeness, int64_t *records)
{
    int64_t out[MN_NUMBERS];
    mnemathor_cut(catalogue, catalogue_len, limit, closeness, out, MN_NUMBERS);
    *records = out[MN_AT_OWN];
    return mn_take_refusal(out);
}

/* The first assignment that fits, in the order of the ranking lent, whatever its rows are as long as each names each star once. Settings: needed, tolerance.
 * Refusals: 6, 7, 8, 9, 11, 12, 13. */
MN_FUNCTION struct mn_refusal mn_search(const struct mn_direction *directions, size_t directions_count, const uint8_t *catalogue, size_t catalogue_len,
                                        const struct mn_settings *settings, const uint16_t *ranking, size_t ranking_len, struct mn_assignment *assignment)
{
    int64_t out[MN_NUMBERS];
    mnemathor_search(mn_give_directions(directions), mn_give_count(directions_count), catalogue, catalogue_len, settings->needed, settings->tolerance, ranking,
                     ranking_len, out, MN_NUMBERS);
    assignment->count = out[MN_AT_OWN];
    mn_take_stars(out + MN_AT_NAMES, assignment->stars);
    return mn_take_refusal(out);
}

/* Whether another assignment fits that gives some direction a different star than the search's answer does, and the first such. It takes what the search takes.
 * Settings: needed, tolerance. Refusals: 6, 7, 8, 9, 11, 12, 13. */
MN_FUNCTION struct mn_refusal mn_rival(const struct mn_direction *directions, size_t directions_count, const uint8_t *catalogue, size_t catalogue_len,
                                       const struct mn_settings *settings, const uint16_t *ranking, size_t ranking_len, struct mn_rival *rival)
{
    int64_t out[MN_NUMBERS];
    mnemathor_rival(mn_give_directions(directions), mn_give_count(directions_count), catalogue, catalogue_len, settings->needed, settings->tolerance, ranking,
                    ranking_len, out, MN_NUMBERS);
    rival->exists = out[MN_AT_OWN];
    mn_take_stars(out + MN_AT_NAMES, rival->stars);
    return mn_take_refusal(out);
}

/* The matrix that carries sky to camera, from two directions and the directions of their stars. Refusals: 8, 14. */
MN_FUNCTION struct mn_refusal mn_attitude(const struct mn_direction *first, const struct mn_direction *second, const struct mn_direction *first_star,
                                          const struct mn_direction *second_star, struct mn_matrix *matrix)
{
    int64_t vectors[12];
    int64_t out[MN_NUMBERS];
    mn_give_direction(first, vectors);
    mn_give_direction(second, vectors + 3);
    mn_give_direction(first_star, vectors + 6);
    mn_give_direction(second_star, vectors + 9);
    mnemathor_attitude(vectors, 12, out, MN_NUMBERS);
    mn_take_matrix(out + MN_AT_OWN, matrix);
    return mn_take_refusal(out);
}

/* Each entry of a matrix as a float, over 10^9. Where it is refused, the rows stay as they were. Refusals: 23. */
MN_FUNCTION struct mn_refusal mn_cosines(const struct mn_matrix *matrix, struct mn_cosines *cosines)
{
    int64_t out[MN_NUMBERS];
    mnemathor_cosines(&matrix->entries[0][0], 9, &cosines->entries[0][0], 9, out, MN_NUMBERS);
    return mn_take_refusal(out);
}

/* Each row by a target of three floats: (a x + b y) + c z, every product and every sum rounded, in that order. No refusals. */
MN_FUNCTION struct mn_refusal mn_turned(const struct mn_cosines *cosines, const double *target, double *turned)
{
    int64_t out[MN_NUMBERS];
    mnemathor_turned(&cosines->entries[0][0], 9, target, 3, turned, 3, out, MN_NUMBERS);
    return mn_take_refusal(out);
}

/* Whether floats are rounded to the nearest and subnormals kept, 1 or 0, as the promises on lens, cosines and targets ask: for a board to call at start,
 * and in each thread that sets its own. Another rounding mode, or zeros for subnormals, as start-up code of -ffast-math sets, makes other floats. The
 * rows are 1 + 2^-53, 1 + 3 x 2^-54 and 2^-1074 + 2^-1022 / 2, whose bits in every other mode are others. */
MN_FUNCTION int mn_floats_ok(void)
{
    static const uint64_t expected[3] = {UINT64_C(0x3ff0000000000000), UINT64_C(0x3ff0000000000001), UINT64_C(0x0008000000000001)};
    const struct mn_cosines rows = {{{1, 1.1102230246251565e-16, 0}, {1, 1.6653345369377348e-16, 0}, {4.9406564584124654e-324, 0, 2.2250738585072014e-308}}};
    const double target[3] = {1, 1, 0.5};
    double turned[3];
    const unsigned char *found = (const unsigned char *)turned;
    const unsigned char *wanted = (const unsigned char *)expected;
    size_t k;
    mn_turned(&rows, target, turned);
    for (k = 0; k < sizeof expected; k++)
        if (found[k] != wanted[k])
            return 0;
    return 1;
}

/* The whole chain: the frame's list, a direction for every listed position, their ranking, the search over it, the attitude. The ranking room needs MN_ROOM
 * words; the ranking is left in it, with 13 and 14 too. Settings: all. Refusals: 1, 2, 3, 4, 19, 5, 6, 7, 9, 10, 12, 13, 14. */
MN_FUNCTION struct mn_refusal mn_chain(const uint16_t *samples, size_t samples_len, const struct mn_settings *settings, const uint8_t *catalogue,
                                       size_t catalogue_len, uint16_t *room, size_t room_len, struct mn_tracked *tracked)
{
    int64_t out[MN_NUMBERS];
    mnemathor_chain(samples, samples_len, settings->width, settings->height, settings->threshold, settings->cx, settings->cy, settings->lens.kind,
                    settings->lens.focal_length, settings->lens.pitch, catalogue, catalogue_len, settings->needed, settings->tolerance, room, room_len, out,
                    MN_NUMBERS);
    mn_take_tracked(out, tracked);
    return mn_take_refusal(out);
}

/* The whole chain with the index of the catalogue for a floor, which is tested first; the answers are those of mn_chain. Settings: all. Refusals: 1, 2, 3,
 * 4, 19, 5, 6, 7, 17, 9, 10, 12, 13, 14. */
MN_FUNCTION struct mn_refusal mn_chain_by_index(const uint16_t *samples, size_t samples_len, const struct mn_settings *settings, const uint8_t *catalogue,
                                                size_t catalogue_len, const uint8_t *index, size_t index_len, int64_t floor, uint16_t *room, size_t room_len,
                                                struct mn_tracked *tracked)
{
    int64_t out[MN_NUMBERS];
    mnemathor_chain_by_index(samples, samples_len, settings->width, settings->height, settings->threshold, settings->cx, settings->cy, settings->lens.kind,
                             settings->lens.focal_length, settings->lens.pitch, catalogue, catalogue_len, index, index_len, floor, settings->needed,
                             settings->tolerance, room, room_len, out, MN_NUMBERS);
    mn_take_tracked(out, tracked);
    return mn_take_refusal(out);
}

/* Each of 0 to 64 frames of one size, one behind the other, through the chain by itself; a record of 80 bytes for each at the start of the answer room,
 * whose rest stays, and the number of records as the answer. Settings: all. Refusals of the whole burst: 1, 2, 18; in a frame's record the chain's from 3
 * on. */
MN_FUNCTION struct mn_refusal mn_burst(const uint16_t *samples, size_t samples_len, const struct mn_settings *settings, const uint8_t *catalogue,
                                       size_t catalogue_len, uint16_t *room, size_t room_len, uint8_t *records, size_t records_len, int64_t *frames)
{
    int64_t out[MN_NUMBERS];
    mnemathor_burst(samples, samples_len, settings->width, settings->height, settings->threshold, settings->cx, settings->cy, settings->lens.kind,
                    settings->lens.focal_length, settings->lens.pitch, catalogue, catalogue_len, settings->needed, settings->tolerance, room, room_len, records,
                    records_len, out, MN_NUMBERS);
    *frames = out[MN_AT_OWN];
    return mn_take_refusal(out);
}

/* A guider for these stars, three numbers each: identity, x and y in 1/256 pixel; its misses are 0. Where it is refused, the guider has no guides. Refusals:
 * 22. */
MN_FUNCTION struct mn_refusal mn_guider_start(int64_t half_width, const int64_t *stars, size_t stars_len, struct mn_guider *guider)
{
    int64_t numbers[MN_GUIDER_NUMBERS] = {0};
    int64_t out[MN_NUMBERS];
    mnemathor_guider_start(half_width, stars, stars_len, numbers, MN_GUIDER_NUMBERS, out, MN_NUMBERS);
    mn_take_guider(numbers, guider);
    return mn_take_refusal(out);
}

/* The guider after a frame, by what mn_list returned for it and the report that it gave. A guide follows when exactly one listed star lies in its closed box
 * and that star is in no other live guide's box; otherwise its misses rise by one, and at five it is dropped. A refused frame counts as no frame. Where the
 * call is refused, the guider stays as it was. Refusals: 22. */
MN_FUNCTION struct mn_refusal mn_guider_frame(struct mn_guider *guider, struct mn_refusal seen, const struct mn_report *report)
{
    int64_t numbers[MN_GUIDER_NUMBERS];
    int64_t list[MN_NUMBERS];
    int64_t out[MN_NUMBERS];
    mn_give_guider(guider, numbers);
    mn_give_report(seen, report, list);
    mnemathor_guider_frame(numbers, MN_GUIDER_NUMBERS, list, MN_NUMBERS, out, MN_NUMBERS);
    mn_take_guider(numbers, guider);
    return mn_take_refusal(out);
}

/* What stands in records, high byte first, at the place of record k. The caller sees to it that there is one. */

/* Record k of a catalogue: identity, x, y, z, magnitude. */
MN_FUNCTION void mn_read_star(const uint8_t *catalogue, size_t k, struct mn_star *star)
{
    const uint8_t *record = catalogue + MN_CATALOGUE_RECORD * k;
    star->identity = (uint32_t)mn_take_bytes(record, 4);
    star->direction.x = mn_signed_32(mn_take_bytes(record + 4, 4));
    star->direction.y = mn_signed_32(mn_take_bytes(record + 8, 4));
    star->direction.z = mn_signed_32(mn_take_bytes(record + 12, 4));
    star->magnitude = mn_signed_32(mn_take_bytes(record + 16, 4));
}

/* Record k of an index: a dot product, then two record numbers. */
MN_FUNCTION void mn_read_pair(const uint8_t *index, size_t k, struct mn_pair *pair)
{
    const uint8_t *record = index + MN_INDEX_RECORD * k;
    pair->dot = mn_signed(mn_take_bytes(record, 8));
    pair->first = (uint32_t)mn_take_bytes(record + 8, 2);
    pair->second = (uint32_t)mn_take_bytes(record + 10, 2);
}

/* Record k of a list of changes: identity and kind. */
MN_FUNCTION void mn_read_change(const uint8_t *changes, size_t k, struct mn_change *change)
{
    const uint8_t *record = changes + MN_CHANGE_RECORD * k;
    change->identity = (uint32_t)mn_take_bytes(record, 4);
    change->kind = (uint32_t)mn_take_bytes(record + 4, 4);
}

/* Record k of a burst: number and place of the frame's refusal, 0 and 0 if it is accepted, then its matrix by rows, zeros if it is refused. */
MN_FUNCTION void mn_read_framed(const uint8_t *records, size_t k, struct mn_framed *framed)
{
    const uint8_t *record = records + MN_BURST_RECORD * k;
    size_t entry;
    framed->refusal.number = (int64_t)mn_take_bytes(record, 4);
    framed->refusal.place = (int64_t)mn_take_bytes(record + 4, 4);
    for (entry = 0; entry < 9; entry++)
        framed->matrix.entries[entry / 3][entry % 3] = mn_signed(mn_take_bytes(record + 8 + 8 * entry, 8));
}

#ifdef __cplusplus
#ifdef __GNUC__
#pragma GCC diagnostic pop
#endif
}
#endif

#endif
