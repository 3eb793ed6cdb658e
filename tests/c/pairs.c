/* The mesh of crates/pairs, and the changes to it by the names that they have in crates/pairs/src/cases.rt.
 * Faces 0 and 8 join two cells, one from each side; face 1, of cell 1, has a fixed value. Faces 2 and 3 are
 * linked, and faces 4 and 5, of which the lower is cell 1's, with a zero gradient, and the higher cell 0's,
 * with a fixed value; face 6, of cell 0, has a fixed value, face 7, of cell 1, a zero gradient. */
#include "put.h"

#include <math.h>
#include <string.h>

enum { FACES = 9, RECORDS = 11 };

static const size_t adjacency[2 * FACES] = {0, 2, 1, 0, 0, 0, 1, 0, 1, 0, 0, 0, 0, 0, 1, 0, 1, 1};

static const size_t heads[4] = {1, 1, 6, 2};

static const size_t facing[2 * RECORDS] = {
    0, 2, 2, 3, 5, 4, 6, 5, 8, 0,  0, 7, 1, 8, 3, 9, 4, 10, 7, 11, 8, 0
};

static const size_t codes[2 * FACES] = {0, 0, 1, 0, 0, 4, 0, 3, 2, 6, 1, 5, 1, 0, 2, 0, 0, 0};

/* In the places of the distances stands what none is. */
static const double geometry[11 * FACES] = {
    1.0, 0.375, 0.25,   1.1, 0.25, 0.125,    1.0, 0.0, 0.0,   -1.0, -1.0,
    1.9, 0.3, -1.2,     0.1, 0.0, -1.2,      0.0, 0.0, -1.0,  -1.0, -1.0,
    -0.5, 0.5, 0.25,   -1.1, -0.3, -0.25,   -1.0, 0.0, 0.0,   -1.0, -1.0,
    2.5, 0.25, 0.0,     1.1, 0.3, 0.25,      1.0, 0.0, 0.0,   -1.0, -1.0,
    1.6, -0.75, -0.1,   0.1, -1.0, 0.2,      0.0, -1.0, 0.0,  -1.0, -1.0,
    0.5, 1.25, 0.3,     0.0, 0.9, -0.3,      0.0, 1.0, 0.0,   -1.0, -1.0,
    0.5, -0.2, 0.4,     0.1, -1.0, 0.2,      0.0, -1.0, 0.0,  -1.0, -1.0,
    1.5, 1.0, -0.375,  -0.2, 0.9, 0.3,       0.0, 1.0, 0.0,   -1.0, -1.0,
    1.0, 0.2, -0.3,    -0.4, 0.3, -0.7,      0.0, 0.0, -1.0,  -1.0, -1.0
};

static const double places[8] = {0.25, 0.5, 0.125, 1.7,  1.75, 0.25, -0.25, 0.7};

static const double values[4 * FACES] = {
    0.0, 0.0, 0.0, 0.0,        2.0, 0.0, 0.0, 0.0,         0.0, 3.125, -0.125, 0.5,
    0.0, -3.125, 0.125, -0.5,  0.0, -1.125, 2.0, 0.375,    5.0, 1.125, -2.0, -0.375,
    4.0, 0.0, 0.0, 0.0,        0.0, 0.0, 0.0, 0.0,         0.0, 0.0, 0.0, 0.0
};

static const double velocity[6] = {1.0, 0.5, 0.1,  3.0, -0.3, 0.2};

static const double pressure[2] = {1.1, -0.7};

static const double responses[2] = {0.7, 0.25};

static const double walls[FACES] = {0.3, 0.2, 2.0, -2.0, 0.5, 0.1, -0.6, 0.3, 0.7};

static int lend_mesh(struct call *call, const struct entry *entry)
{
    lend(call, entry);
    call->counts.dimension = 3;
    call->counts.faces = FACES;
    call->counts.face_records = call->records = RECORDS;
    call->length[ADJACENCY] = call->length[CODES] = 2 * FACES;
    call->length[GEOMETRY] = 11 * FACES;
    call->length[VALUES] = 4 * FACES;
    call->length[WALLS] = call->length[PREDICTED] = call->length[COEFFICIENTS] = call->length[FLUX] = FACES;
    call->length[FACING] = call->length[EQUATIONS] = 2 * RECORDS;
    call->length[WEIGHTS] = 4 * RECORDS;
    memcpy(call->whole[ADJACENCY], adjacency, sizeof adjacency);
    memcpy(call->whole[HEADS], heads, sizeof heads);
    memcpy(call->whole[FACING], facing, sizeof facing);
    memcpy(call->whole[CODES], codes, sizeof codes);
    memcpy(call->real[GEOMETRY], geometry, sizeof geometry);
    memcpy(call->real[PLACES], places, sizeof places);
    memcpy(call->real[VALUES], values, sizeof values);
    memcpy(call->real[VELOCITY], velocity, sizeof velocity);
    memcpy(call->real[PRESSURE], pressure, sizeof pressure);
    memcpy(call->real[RESPONSES], responses, sizeof responses);
    memcpy(call->real[WALLS], walls, sizeof walls);
    return make_distances(call);
}

/* With this velocity of cell 0 the flux of a linked face of a huge area is not finite. */
#define FAST REAL(VELOCITY, 0, 1.0e10)
#define FAST_Y REAL(VELOCITY, 1, 1.0e10)
#define ENDLESS_2 REAL(GEOMETRY, 25, -1.0e300)
#define ENDLESS_3 REAL(GEOMETRY, 36, 1.0e300)
#define ENDLESS_4 REAL(GEOMETRY, 48, -1.0e300)
#define ENDLESS_5 REAL(GEOMETRY, 59, 1.0e300)

/* Face 1 in no chain. */
#define APART WHOLE(FACING, 11, 8)

/* Corrections with which the flux of face 0 is not finite. */
#define LOW REAL(CORRECTION, 0, -1.7e308)
#define HIGH REAL(CORRECTION, 1, 1.7e308)

/* With these pressures and fixed values no gradient is other than 0. */
#define EVEN                                                                                                 \
    REAL(PRESSURE, 0, 0.0), REAL(PRESSURE, 1, 0.0), REAL(VALUES, 4, 0.0), REAL(VALUES, 24, 0.0)

#define VELOCITIES(x)                                                                                        \
    REAL(VELOCITY, 0, x), REAL(VELOCITY, 1, x), REAL(VELOCITY, 2, x), REAL(VELOCITY, 3, x),                  \
        REAL(VELOCITY, 4, x), REAL(VELOCITY, 5, x)

/* Members of the call that are others, and whether the distances are made anew. */
static const struct {
    const char *name;
    size_t puts;
    struct put put[10];
    int made;
} rows[] = {
    {"as it stands", NO_PUTS},

    {"wall flux of face 2 a NaN", PUTS(REAL(WALLS, 2, NAN))},
    {"wall flux of face 3 a NaN", PUTS(REAL(WALLS, 3, NAN))},
    {"wall flux of face 2 infinite", PUTS(REAL(WALLS, 2, INFINITY))},
    {"wall flux of face 3 -infinite", PUTS(REAL(WALLS, 3, -INFINITY))},
    {"wall flux of face 4 1.7e308, of face 5 1.7e308",
        PUTS(REAL(WALLS, 4, 1.7e308), REAL(WALLS, 5, 1.7e308))},
    {"wall flux of face 8 a NaN", PUTS(REAL(WALLS, 8, NAN))},
    {"wall flux of face 6 a NaN", PUTS(REAL(WALLS, 6, NAN))},
    {"wall flux of face 7 a NaN", PUTS(REAL(WALLS, 7, NAN))},

    {"face 2 endless", PUTS(FAST, ENDLESS_2)},
    {"face 3 endless", PUTS(FAST, ENDLESS_3)},
    {"faces 2 and 3 endless", PUTS(FAST, ENDLESS_2, ENDLESS_3)},
    {"face 4 endless", PUTS(FAST_Y, ENDLESS_4)},
    {"face 5 endless", PUTS(FAST_Y, ENDLESS_5)},
    {"faces 4 and 5 endless", PUTS(FAST_Y, ENDLESS_4, ENDLESS_5)},
    {"faces 2 and 4 endless", PUTS(FAST, FAST_Y, ENDLESS_2, ENDLESS_4)},
    {"faces 3 and 4 endless", PUTS(FAST, FAST_Y, ENDLESS_3, ENDLESS_4)},
    {"prediction of face 3 a NaN", PUTS(FAST, FAST_Y, ENDLESS_3, REAL(GEOMETRY, 37, -1.0e299))},
    {"area of face 2 -1e150", PUTS(REAL(GEOMETRY, 25, -1.0e150))},
    {"area of face 3 1e150", PUTS(REAL(GEOMETRY, 36, 1.0e150))},

    {"face 2 endless, walls of another mesh", PUTS(FAST, ENDLESS_2, NUMBER(WALLS, 8))},
    {"face 2 endless, walls one short", PUTS(FAST, ENDLESS_2, LENGTH(WALLS, 8))},
    {"face 2 endless, link of face 4 to face 3", PUTS(FAST, ENDLESS_2, WHOLE(CODES, 9, 4))},
    {"face 2 endless, no condition at face 1", PUTS(FAST, ENDLESS_2, WHOLE(CODES, 2, 0))},
    {"face 2 endless, area of face 8 1e300", PUTS(FAST, ENDLESS_2, REAL(GEOMETRY, 91, -1.0e300))},
    {"face 2 endless, area of face 6 0",
        PUTS(FAST, ENDLESS_2, REAL(GEOMETRY, 69, 0.0), REAL(GEOMETRY, 70, 0.0), REAL(GEOMETRY, 71, 0.0))},
    {"face 2 endless, area of face 3 the other way", PUTS(FAST, ENDLESS_2, REAL(GEOMETRY, 36, -1.1))},

    {"face 1 in no chain", PUTS(APART)},
    {"face 1 in no chain, no condition there", PUTS(APART, WHOLE(CODES, 2, 0))},
    {"face 1 in no chain, no condition there, face 3 endless",
        PUTS(APART, WHOLE(CODES, 2, 0), FAST, ENDLESS_3)},
    {"correction without end at face 0", PUTS(LOW, HIGH)},
    {"correction without end at face 0, face 3 endless", PUTS(LOW, HIGH, FAST, ENDLESS_3)},
    {"volume of cell 1 0", PUTS(REAL(PLACES, 7, 0.0))},
    {"volume of cell 1 0, face 5 endless", PUTS(REAL(PLACES, 7, 0.0), FAST_Y, ENDLESS_5)},

    {"responses equal", PUTS(REAL(RESPONSES, 1, 0.7))},
    {"responses 0.5", PUTS(REAL(RESPONSES, 0, 0.5), REAL(RESPONSES, 1, 0.5))},
    {"responses 0.5, wall fluxes of faces 2 and 3 NaNs",
        PUTS(REAL(RESPONSES, 0, 0.5), REAL(RESPONSES, 1, 0.5), REAL(WALLS, 2, NAN), REAL(WALLS, 3, NAN))},
    {"fixed value a NaN at face 2", PUTS(WHOLE(CODES, 4, 1), REAL(VALUES, 8, NAN))},
    {"zero gradient at face 3", PUTS(WHOLE(CODES, 6, 2))},
    {"no condition at faces 4 and 5", PUTS(WHOLE(CODES, 8, 0), WHOLE(CODES, 10, 0))},
    {"translation of face 3 a little off", PUTS(REAL(VALUES, 13, -2.75))},
    {"faces 2 and 5, 3 and 4 linked, distances made anew",
        PUTS(WHOLE(CODES, 5, 6), WHOLE(CODES, 11, 3), WHOLE(CODES, 7, 5), WHOLE(CODES, 9, 4)), .made = 1},
    {"links gone, distances made anew",
        PUTS(WHOLE(CODES, 5, 0), WHOLE(CODES, 7, 0), WHOLE(CODES, 9, 0), WHOLE(CODES, 11, 0),
            WHOLE(CODES, 4, 2), WHOLE(CODES, 6, 2)), .made = 1},

    {"velocities 0, pressures and fixed values 0", PUTS(EVEN, VELOCITIES(0.0))},
    {"velocities -0, pressures and fixed values 0", PUTS(EVEN, VELOCITIES(-0.0))}
};

int lend_pair(struct call *call, const struct entry *entry, const char *name)
{
    for (size_t i = 0; i < sizeof rows / sizeof *rows; i++) {
        if (strcmp(rows[i].name, name))
            continue;
        if (!lend_mesh(call, entry))
            return 0;
        put_all(call, rows[i].put, rows[i].puts);
        return !rows[i].made || make_distances(call);
    }
    return 0;
}
