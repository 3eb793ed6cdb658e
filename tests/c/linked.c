/* Steps over linked faces, known exactly: by document 02 and by hand. The base has two unit squares side by
 * side. Faces 1 and 2, to the left and to the right, are linked with a translation of (2, 0), and here look a
 * little upwards and downwards; faces 3 and 6 have the fixed values 4 and 2, faces 4 and 5 a zero gradient.
 * All numbers are sums of few powers of two, so that nothing is rounded. */
#include "judge.h"
#include "put.h"
#include "report.h"

#include <inttypes.h>
#include <math.h>
#include <string.h>

enum { CELLS = 2, FACES = 7 };

#define AREA(f, x, y) REAL(GEOMETRY, 11 * (f) + 3, x), REAL(GEOMETRY, 11 * (f) + 4, y)
#define TRANSLATION(f, x, y) REAL(VALUES, 4 * (f) + 1, x), REAL(VALUES, 4 * (f) + 2, y)
#define CODE(f, n) WHOLE(CODES, 2 * (f), n)
#define PEER(f, n) WHOLE(CODES, 2 * (f) + 1, n)
#define WALL(f, x) REAL(WALLS, f, x)
#define WALL_BITS(f, bits) {offsetof(struct call, real[WALLS][f]), {.whole = UINT64_C(bits)}}
#define PAIR(part, x, y) REAL(part, 0, x), REAL(part, 1, y)
#define SPEEDS(x, y) REAL(VELOCITY, 0, x), REAL(VELOCITY, 3, y)
#define OTHER(f, x) REAL(GEOMETRY, 11 * (f) + 10, x)
#define UPRIGHT AREA(1, -1.0, 0.0), AREA(2, 1.0, 0.0)

/* Room for the equations of one pair more. */
#define ROOM_FOR_8 {offsetof(struct call, records), {.whole = 8}}, LENGTH(EQUATIONS, 16), LENGTH(WEIGHTS, 32)

static const struct put base[] = {
    ROOM_FOR_8,
    AREA(1, -1.0, 0.5), AREA(2, 1.0, -0.5), PAIR(PRESSURE, 1.0, 3.0), SPEEDS(1.0, 3.0),
    REAL(VELOCITY, 1, 0.5), REAL(VELOCITY, 4, 0.25), WALL(4, -0.5), WALL(5, 0.25)
};

/* Faces 4 and 5 linked too: cell 1 lies above cell 0. */
#define LINK_4_AND_5                                                                                         \
    PEER(4, 6), PEER(5, 5), TRANSLATION(4, 1.0, -1.0), TRANSLATION(5, -1.0, 1.0), OTHER(4, 0.5), OTHER(5, 0.5)

/* The responses are 0.5 and 0.25, the corrections 1 and 3. The gradients are (0, -6) and (0, -2); at the
 * faces the velocity is (2, 0.375), the response 0.375 and the covariance (0, -0.25), and the pressure rises
 * by 2. Face 0 is predicted with 2 - 0.375 x 2, face 1 with -2 + 0.375 / 2 - 0.25 / 2 - 0.375 x 2, and the
 * correction takes 0.375 x 2 from either; it takes 1 x (4 - 1) from face 3 and 0.5 x (2 - 3) from face 6. */
#define WALL_3 -2.5
#define WALLS_3_TO_6 WALL_3, -0.5, 0.25, 1.5
#define GIVEN 0.5, -0.5, 0.25, 1.0

/* Accepted steps. */
static const struct {
    const char *name;
    size_t puts;
    struct put put[9];
    double predicted[FACES], flux[FACES], outflow[CELLS];
} rows[] = {
    {"as it stands", NO_PUTS, {1.25, -2.6875, 2.6875, GIVEN}, {0.5, -3.4375, 3.4375, WALLS_3_TO_6},
        {-5.9375, 4.6875}},
    {"face 2 by itself 2.75", PUTS(AREA(2, 1.0, 0.0)), {1.25, -2.6875, 2.6875, GIVEN},
        {0.5, -3.4375, 3.4375, WALLS_3_TO_6}, {-5.9375, 4.6875}},
    {"face 2 by itself 5.375, with twice the coefficient", PUTS(AREA(2, 2.0, -1.0)),
        {1.25, -2.6875, 2.6875, GIVEN}, {0.5, -3.4375, 4.1875, WALLS_3_TO_6}, {-5.9375, 5.4375}},
    {"responses 0.5", PUTS(PAIR(RESPONSES, 0.5, 0.5)), {1.0, -2.8125, 2.8125, GIVEN},
        {0.0, -3.8125, 3.8125, WALL_3, -0.5, 0.25, 2.0}, {-6.8125, 6.0625}},

    /* the image is 3.5 from the face, so that the cell on this side counts 7/8 and the one beyond 1/8; the
     * gradient on this side has an x of 0.75, and the coefficient is (3.5 x 0.5 + 0.5 x 0.25) / 4 x 4 / 16 at
     * face 1, or (3.5 x 0.25 + 0.5 x 0.5) / 4 x 4 / 16 at face 2 */
    {"translation 5 at face 1", PUTS(TRANSLATION(1, 5.0, 0.0)), {1.4375, -1.6328125, 1.6328125, GIVEN},
        {0.6875, -1.8671875, 2.3828125, WALLS_3_TO_6}, {-4.1796875, 3.4453125}},
    {"translation 5 at face 2", PUTS(TRANSLATION(2, -5.0, 0.0)), {1.34375, -2.78125, 2.78125, GIVEN},
        {0.59375, -3.53125, 2.921875, WALLS_3_TO_6}, {-5.9375, 4.078125}},
    {"translation 5", PUTS(TRANSLATION(1, 5.0, 0.0), TRANSLATION(2, -5.0, 0.0)),
        {1.53125, -1.65625, 1.65625, GIVEN}, {0.78125, -1.890625, 1.796875, WALLS_3_TO_6},
        {-4.109375, 2.765625}},

    /* a link goes before a condition */
    {"fixed values at linked faces",
        PUTS(CODE(1, 1), REAL(VALUES, 4, 100.0), CODE(2, 1), REAL(VALUES, 8, 200.0)),
        {1.25, -2.6875, 2.6875, GIVEN}, {0.5, -3.4375, 3.4375, WALLS_3_TO_6}, {-5.9375, 4.6875}},
    {"zero gradients at linked faces", PUTS(CODE(1, 2), CODE(2, 2)), {1.25, -2.6875, 2.6875, GIVEN},
        {0.5, -3.4375, 3.4375, WALLS_3_TO_6}, {-5.9375, 4.6875}},

    /* gradients (0, -2) and (0, 0), covariances (0, -0.125) */
    {"faces 4 and 5 linked", PUTS(LINK_4_AND_5),
        {1.25, -2.625, 2.625, 0.5, -0.875, 0.875, 1.0}, {0.5, -3.375, 3.375, WALL_3, -1.625, 1.625, 1.5},
        {-7.0, 6.0}},

    /* 0.75 - 0.75 is +0.0, and so it is at face 2 by itself */
    {"+0.0 at face 1", PUTS(UPRIGHT, PAIR(PRESSURE, 3.0, 1.0), SPEEDS(0.5, 1.0)), {1.5, 0.0, -0.0, GIVEN},
        {0.75, -0.75, 0.75, WALLS_3_TO_6}, {-3.0, 1.75}},
    {"+0.0 at face 1, corrections 1",
        PUTS(UPRIGHT, PAIR(PRESSURE, 3.0, 1.0), SPEEDS(0.5, 1.0), REAL(CORRECTION, 1, 1.0)),
        {1.5, 0.0, -0.0, GIVEN}, {1.5, 0.0, -0.0, WALL_3, -0.5, 0.25, 0.5}, {-1.5, -0.75}},

    /* what is kept keeps its bits; 2^-1074 is lost in the outflow */
    {"walls -0 and 2^-1074", PUTS(WALL(4, -0.0), WALL(5, 0x1p-1074)),
        {1.25, -2.6875, 2.6875, 0.5, -0.0, 0x1p-1074, 1.0},
        {0.5, -3.4375, 3.4375, WALL_3, -0.0, 0x1p-1074, 1.5}, {-5.4375, 4.4375}}
};

/* Wall fluxes of faces with two cells or a link, which are not read: every output is as in the first row. */
static const struct {
    const char *name;
    size_t puts;
    struct put put[3];
} unread[] = {
    {"wall flux of face 1 a NaN", PUTS(WALL(1, NAN))},
    {"wall flux of face 2 a NaN", PUTS(WALL(2, NAN))},
    {"wall fluxes of faces 1 and 2 signalling NaNs",
        PUTS(WALL_BITS(1, 0x7ff0000000000001), WALL_BITS(2, 0xfff4000000000003))},
    {"wall fluxes of faces 1 and 2 infinite", PUTS(WALL(1, INFINITY), WALL(2, INFINITY))},
    {"wall fluxes of faces 0, 1 and 2 1.7e308",
        PUTS(WALL(0, 1.7e308), WALL(1, 1.7e308), WALL(2, -1.7e308))},
    {"wall flux of face 0 a NaN", PUTS(WALL(0, NAN))},
    {"wall fluxes of faces 0, 1 and 2 -0", PUTS(WALL(0, -0.0), WALL(1, -0.0), WALL(2, -0.0))}
};

/* With an area of 1e308 the velocity of 2 gives an infinite flux and a finite coefficient. */
#define BAD_1 AREA(1, -1.0e308, 0.0)
#define BAD_2 AREA(2, 1.0e308, 0.0)

/* The same of face 5 alone, with faces 4 and 5 linked and a velocity upwards of (8 + 0.25) / 2. */
#define BAD_5 LINK_4_AND_5, AREA(5, 0.0, -1.0e308), REAL(VELOCITY, 1, 8.0)

/* A face 7 of cell 0 that no chain lists, in the cell's centre and without a condition. */
#define UNLISTED                                                                                             \
    COUNT(faces, 8), LENGTH(ADJACENCY, 16), LENGTH(GEOMETRY, 88), LENGTH(CODES, 16), LENGTH(VALUES, 32),     \
        LENGTH(WALLS, 8), LENGTH(PREDICTED, 8), LENGTH(COEFFICIENTS, 8), LENGTH(FLUX, 8),                    \
        REAL(GEOMETRY, 77, 0.5), REAL(GEOMETRY, 78, 0.5)

static const struct {
    const char *name;
    size_t puts;
    struct put put[16];
    uint64_t number;
    size_t index;
} refusals[] = {
    /* the lowest whose own flux is not finite */
    {"bad flux of face 1", PUTS(BAD_1), 9, 1},
    {"bad flux of face 2", PUTS(BAD_2), 9, 2},
    {"bad fluxes of faces 1 and 2", PUTS(BAD_1, BAD_2), 9, 1},
    {"bad flux of face 5, linked to face 4", PUTS(BAD_5), 9, 5},
    {"bad fluxes of faces 2 and 5", PUTS(BAD_5, BAD_2), 9, 2},
    {"bad fluxes of faces 1 and 5", PUTS(BAD_5, BAD_1), 9, 1},

    /* what comes before */
    {"bad flux of face 1, walls one short", PUTS(BAD_1, LENGTH(WALLS, 6)), 2, 0},
    {"bad flux of face 1, walls of another mesh", PUTS(BAD_1, NUMBER(WALLS, 9)), 3, 0},
    {"bad flux of face 1, face 5 linked to itself", PUTS(BAD_1, PEER(5, 6)), 6, 5},
    {"bad flux of face 1, no condition at face 4", PUTS(BAD_1, CODE(4, 0)), 10, 4},
    {"bad flux of face 1, response -1", PUTS(BAD_1, REAL(RESPONSES, 0, -1.0)), 9, 0},
    {"bad flux of face 1, and of face 0", PUTS(BAD_1, AREA(0, 1.0e308, 0.0)), 9, 0},
    {"bad flux of face 1, coefficient of face 2 below 0", PUTS(BAD_1, AREA(2, -1.0, 0.0)), 9, 2},
    {"bad flux of face 1, coefficient of face 6 0", PUTS(BAD_1, AREA(6, 0.0, 0.0)), 9, 6},

    /* what comes after, and what it is by itself */
    {"corrections too far apart", PUTS(PAIR(CORRECTION, -1.7e308, 1.7e308)), 9, 0},
    {"bad flux of face 2, corrections too far apart", PUTS(BAD_2, PAIR(CORRECTION, -1.7e308, 1.7e308)), 9, 2},
    {"a face that no chain lists without a condition", PUTS(UNLISTED), 10, 7},
    {"bad flux of face 2, the same", PUTS(UNLISTED, BAD_2), 9, 2},
    {"wall flux of face 3 a NaN", PUTS(WALL(3, NAN)), 9, 3},
    {"bad flux of face 2, wall flux of face 3 a NaN", PUTS(BAD_2, WALL(3, NAN)), 9, 2},
    {"wall flux of face 4 a NaN", PUTS(WALL(4, NAN)), 9, 0},
    {"bad flux of face 2, wall flux of face 4 a NaN", PUTS(BAD_2, WALL(4, NAN)), 9, 2},
    {"volume of cell 1 0", PUTS(REAL(PLACES, 7, 0.0)), 12, 1},
    {"bad flux of face 2, volume of cell 1 0", PUTS(BAD_2, REAL(PLACES, 7, 0.0)), 9, 2},

    /* without the link the wall flux of face 1 is read */
    {"wall flux of face 1 a NaN, no links",
        PUTS(WALL(1, NAN), PEER(1, 0), PEER(2, 0), CODE(1, 2), CODE(2, 2), OTHER(1, 0.0), OTHER(2, 0.0)),
        9, 0}
};

static const struct entry *step(void)
{
    const struct entry *entry = entries;
    while (strcmp(entry->name, "step"))
        entry++;
    return entry;
}

static void lend_step(struct call *call, const struct put *put, size_t puts)
{
    lend(call, step());
    put_all(call, base, sizeof base / sizeof *base);
    put_all(call, put, puts);
}

static void make(const char *name, struct call *call, uint64_t number, size_t index)
{
    uint64_t answer = step()->make(call);
    if (answer != number || call->index != index)
        fail("step, %s: answer %" PRIu64 " at %zu, expected %" PRIu64 " at %zu", name, answer, call->index,
            number, index);
    passed++;
}

/* The first numbers of a part are those of another call. */
static void hold(const char *name, const struct call *call, const struct call *due, enum part part, size_t n)
{
    for (size_t i = 0; i < n; i++)
        if (bits_at(call, part, i) != bits_at(due, part, i))
            fail("step, %s: part %d, number %zu is %016" PRIx64 ", expected %016" PRIx64, name, (int)part, i,
                bits_at(call, part, i), bits_at(due, part, i));
}

static void hold_outputs(const char *name, const struct call *call, const struct call *due)
{
    for (const enum part *part = step()->outputs; *part != PARTS; part++)
        hold(name, call, due, *part, ROOM);
}

static void judge_rows(void)
{
    static struct call call, due;
    for (size_t i = 0; i < sizeof rows / sizeof *rows; i++) {
        memcpy(due.real[PREDICTED], rows[i].predicted, sizeof rows[i].predicted);
        memcpy(due.real[FLUX], rows[i].flux, sizeof rows[i].flux);
        memcpy(due.real[OUTFLOW], rows[i].outflow, sizeof rows[i].outflow);
        lend_step(&call, rows[i].put, rows[i].puts);
        make(rows[i].name, &call, 0, 0);
        hold(rows[i].name, &call, &due, PREDICTED, FACES);
        hold(rows[i].name, &call, &due, FLUX, FACES);
        hold(rows[i].name, &call, &due, OUTFLOW, CELLS);
    }
}

static void judge_unread(void)
{
    static struct call call, due;
    lend_step(&due, NULL, 0);
    make("as it stands", &due, 0, 0);
    for (size_t i = 0; i < sizeof unread / sizeof *unread; i++) {
        lend_step(&call, unread[i].put, unread[i].puts);
        make(unread[i].name, &call, 0, 0);
        hold_outputs(unread[i].name, &call, &due);
    }
}

/* Where a check refuses, the outputs are as before, and else +0.0 and 0. */
static void judge_refusals(void)
{
    static struct call call, due;
    for (size_t i = 0; i < sizeof refusals / sizeof *refusals; i++) {
        lend_step(&call, refusals[i].put, refusals[i].puts);
        due = call;
        for (const enum part *part = step()->outputs; *part != PARTS; part++)
            if (refusals[i].number > JUVANDEER_LINK) {
                memset(due.whole[*part], 0, due.length[*part] * sizeof **due.whole);
                memset(due.real[*part], 0, due.length[*part] * sizeof **due.real);
            }
        make(refusals[i].name, &call, refusals[i].number, refusals[i].index);
        hold_outputs(refusals[i].name, &call, &due);
    }
}

void judge_linked(void)
{
    judge_rows();
    judge_unread();
    judge_refusals();
}
