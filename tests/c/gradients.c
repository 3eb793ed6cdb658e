/* The mesh of crates/gradients, and the changes to it by the names that they have in
 * crates/gradients/src/cases.rt. Faces 0 and 6 join two cells, one from each side; faces 1 and 2, one of
 * each, are linked, and face 1 has a fixed value besides; face 3, of cell 0, has a fixed value, face 4, of
 * cell 1, a zero gradient, and face 5, of cell 0, no condition. */
#include "put.h"

#include <math.h>
#include <string.h>

static const size_t adjacency[14] = {0, 2, 0, 0, 1, 0, 0, 0, 1, 0, 0, 0, 1, 1};

static const size_t codes[14] = {0, 0, 1, 3, 0, 2, 1, 0, 2, 0, 0, 0, 0, 0};

/* In the places of the distances stands what none is. */
static const double geometry[77] = {
    1.0, 0.375, 0.25,   1.1, 0.25, 0.125,   1.0, 0.0, 0.0,   -1.0, -1.0,
    -0.5, 0.5, 0.25,   -1.1, 0.3, 0.0,     -1.0, 0.0, 0.0,   -1.0, -1.0,
    2.5, 0.25, 0.0,     1.1, -0.3, 0.0,     1.0, 0.0, 0.0,   -1.0, -1.0,
    0.5, -0.2, 0.4,     0.1, -1.0, 0.2,     0.0, -1.0, 0.0,  -1.0, -1.0,
    1.5, 1.0, -0.375,  -0.2, 0.9, 0.3,      0.0, 1.0, 0.0,   -1.0, -1.0,
    0.25, 0.6, 1.0,     0.0, 0.1, 1.3,      0.0, 0.0, 1.0,   -1.0, -1.0,
    1.0, 0.2, -0.3,    -0.4, 0.3, -0.7,     0.0, 0.0, -1.0,  -1.0, -1.0
};

static const double places[8] = {0.25, 0.5, 0.125, 1.7,  1.75, 0.25, -0.25, 0.7};

static const double values[28] = {
    0.0, 0.0, 0.0, 0.0,  5.0, 3.125, -0.25, 0.5,  0.0, -3.125, 0.25, -0.5,  4.0, 0.0, 0.0, 0.0
};

static const double pressure[2] = {1.1, -0.7};

static const double face_values[7] = {0.3, -1.1, 0.7, 2.0, -0.4, 0.9, 1.3};

static int lend_mesh(struct call *call, const struct entry *entry)
{
    lend(call, entry);
    call->counts.dimension = 3;
    call->counts.face_records = 9;
    memcpy(call->whole[ADJACENCY], adjacency, sizeof adjacency);
    memcpy(call->whole[CODES], codes, sizeof codes);
    memcpy(call->real[GEOMETRY], geometry, sizeof geometry);
    memcpy(call->real[PLACES], places, sizeof places);
    memcpy(call->real[VALUES], values, sizeof values);
    memcpy(call->real[PRESSURE], pressure, sizeof pressure);
    memcpy(call->real[FACE_VALUES], face_values, sizeof face_values);
    return make_distances(call);
}

#define LEAST 4.9406564584124654e-324

/* Members of the call that are others, a number of the geometry whose lowest bit is, faces more that are like
 * face 3, and whether the distances are made anew. */
static const struct {
    const char *name;
    size_t puts;
    struct put put[7];
    size_t flipped, faces;
    int made;
} rows[] = {
    {"as it stands", NO_PUTS},
    {"volume of cell 0 a NaN", PUTS(REAL(PLACES, 3, NAN))},
    {"volume of cell 1 infinite", PUTS(REAL(PLACES, 7, INFINITY))},
    {"volume of cell 1 2^-1074", PUTS(REAL(PLACES, 7, LEAST))},
    {"volume of cell 0 -infinite", PUTS(REAL(PLACES, 3, -INFINITY))},
    {"volume of cell 0 0", PUTS(REAL(PLACES, 3, 0.0))},
    {"volume of cell 1 -0", PUTS(REAL(PLACES, 7, -0.0))},
    {"volume of cell 1 -1", PUTS(REAL(PLACES, 7, -1.0))},
    {"volume of cell 1 -2^-1074", PUTS(REAL(PLACES, 7, -LEAST))},
    {"volume of cell 0 0, of cell 1 -1", PUTS(REAL(PLACES, 3, 0.0), REAL(PLACES, 7, -1.0))},
    {"volume of cell 0 a NaN, of cell 1 0", PUTS(REAL(PLACES, 3, NAN), REAL(PLACES, 7, 0.0))},
    {"volume of cell 0 0, owner's of face 0 one bit off", PUTS(REAL(PLACES, 3, 0.0)), .flipped = 9},
    {"volume of cell 0 0, 27 faces of cell 0", PUTS(REAL(PLACES, 3, 0.0)), .faces = 22},
    {"owner's of face 3 one bit off", .flipped = 42},
    {"other of face 1 one bit off", .flipped = 21},
    {"other of face 3 -0", PUTS(REAL(GEOMETRY, 43, -0.0))},
    {"dimension 4", PUTS(COUNT(dimension, 4))},
    {"adjacency one short", PUTS(LENGTH(ADJACENCY, 13))},
    {"geometry one long", PUTS(LENGTH(GEOMETRY, 78))},
    {"places one short", PUTS(LENGTH(PLACES, 7))},
    {"output one short", PUTS(LENGTH(GRADIENT, 5))},
    {"owner of face 3 missing", PUTS(WHOLE(ADJACENCY, 6, 2))},
    {"area of face 0 infinite", PUTS(REAL(GEOMETRY, 3, INFINITY))},

    {"65536 face records counted", PUTS(COUNT(face_records, 65536))},
    {"values one short", PUTS(LENGTH(FACE_VALUES, 6))},
    {"values of another mesh", PUTS(NUMBER(FACE_VALUES, 8))},
    {"values of another mesh, volume of cell 0 0", PUTS(NUMBER(FACE_VALUES, 8), REAL(PLACES, 3, 0.0))},
    {"value of face 0 a NaN", PUTS(REAL(FACE_VALUES, 0, NAN))},
    {"value of face 3 infinite", PUTS(REAL(FACE_VALUES, 3, INFINITY))},
    {"value of face 0 1.7e308, of face 3 -1.7e308",
        PUTS(REAL(FACE_VALUES, 0, 1.7e308), REAL(FACE_VALUES, 3, -1.7e308))},
    {"values of cell 0's faces -0",
        PUTS(REAL(FACE_VALUES, 0, -0.0), REAL(FACE_VALUES, 1, -0.0), REAL(FACE_VALUES, 3, -0.0),
            REAL(FACE_VALUES, 5, -0.0), REAL(FACE_VALUES, 6, -0.0))},

    {"pressure one short", PUTS(LENGTH(PRESSURE, 1))},
    {"pressure of another mesh", PUTS(NUMBER(PRESSURE, 8))},
    {"pressure of another mesh, volume of cell 1 0", PUTS(NUMBER(PRESSURE, 8), REAL(PLACES, 7, 0.0))},
    {"pressures -0", PUTS(REAL(PRESSURE, 0, -0.0), REAL(PRESSURE, 1, -0.0))},
    {"pressure of cell 0 a NaN", PUTS(REAL(PRESSURE, 0, NAN))},
    {"pressure of cell 1 infinite", PUTS(REAL(PRESSURE, 1, INFINITY))},
    {"centre of face 0 its owner's",
        PUTS(REAL(GEOMETRY, 0, 0.25), REAL(GEOMETRY, 1, 0.5), REAL(GEOMETRY, 2, 0.125)), .made = 1},
    {"centres of face 0 and of both cells in one place",
        PUTS(REAL(GEOMETRY, 0, 0.25), REAL(GEOMETRY, 1, 0.5), REAL(GEOMETRY, 2, 0.125), REAL(PLACES, 4, 0.25),
            REAL(PLACES, 5, 0.5), REAL(PLACES, 6, 0.125)), .made = 1},
    {"centre of face 0 1e-170 from that of both cells",
        PUTS(REAL(GEOMETRY, 0, 1.0e-170), REAL(GEOMETRY, 1, 0.5), REAL(GEOMETRY, 2, 0.125),
            REAL(PLACES, 0, 0.0), REAL(PLACES, 4, 0.0), REAL(PLACES, 5, 0.5), REAL(PLACES, 6, 0.125)),
        .made = 1},
    {"centre of cell 1 at 1e300", PUTS(REAL(PLACES, 4, 1.0e300)), .made = 1},

    {"code 0 at linked face 1", PUTS(WHOLE(CODES, 2, 0))},
    {"code 2 at linked face 1", PUTS(WHOLE(CODES, 2, 2))},
    {"code 1 at face 0", PUTS(WHOLE(CODES, 0, 1))},
    {"no condition at face 3", PUTS(WHOLE(CODES, 6, 0))},
    {"zero gradient at face 3", PUTS(WHOLE(CODES, 6, 2))},
    {"fixed value a NaN", PUTS(REAL(VALUES, 12, NAN))},
    {"links gone, distances made anew", PUTS(WHOLE(CODES, 3, 0), WHOLE(CODES, 5, 0)), .made = 1},
    {"faces 4 and 5 linked, distances made anew", PUTS(WHOLE(CODES, 9, 6), WHOLE(CODES, 11, 5)), .made = 1},
    {"no translation of face 1", PUTS(REAL(VALUES, 5, 0.0), REAL(VALUES, 6, 0.0), REAL(VALUES, 7, 0.0))},
    {"centre of face 1 that of the image", PUTS(REAL(GEOMETRY, 11, -1.375), REAL(GEOMETRY, 13, -0.75)),
        .made = 1},
    {"centres of face 1 and of its owner that of the image",
        PUTS(REAL(GEOMETRY, 11, -1.375), REAL(GEOMETRY, 13, -0.75), REAL(PLACES, 0, -1.375),
            REAL(PLACES, 2, -0.75)), .made = 1},
    {"codes one short", PUTS(LENGTH(CODES, 13))},
    {"condition values one long", PUTS(LENGTH(VALUES, 29))},
    {"conditions of another mesh", PUTS(NUMBER(CODES, 8))},
    {"conditions of another mesh, volume of cell 0 0", PUTS(NUMBER(CODES, 8), REAL(PLACES, 3, 0.0))},
    {"code 3 at face 4", PUTS(WHOLE(CODES, 8, 3))},
    {"link of face 4 to face 3", PUTS(WHOLE(CODES, 9, 4))},
    {"link of face 4 to face 3, volume of cell 0 0", PUTS(WHOLE(CODES, 9, 4), REAL(PLACES, 3, 0.0))}
};

static void add_faces(struct call *call, size_t faces)
{
    for (size_t i = 0; i < faces; i++) {
        size_t f = call->counts.faces++;
        memcpy(&call->whole[ADJACENCY][2 * f], &adjacency[6], 2 * sizeof *adjacency);
        memcpy(&call->whole[CODES][2 * f], &codes[6], 2 * sizeof *codes);
        memcpy(&call->real[GEOMETRY][11 * f], &call->real[GEOMETRY][33], 11 * sizeof(double));
        memcpy(&call->real[VALUES][4 * f], &values[12], 4 * sizeof *values);
        call->real[FACE_VALUES][f] = face_values[3];
    }
    call->length[ADJACENCY] += 2 * faces;
    call->length[CODES] += 2 * faces;
    call->length[GEOMETRY] += 11 * faces;
    call->length[VALUES] += 4 * faces;
    call->length[FACE_VALUES] += faces;
}

static void flip(double *x)
{
    uint64_t bits;
    memcpy(&bits, x, sizeof bits);
    bits ^= 1;
    memcpy(x, &bits, sizeof bits);
}

int lend_gradient(struct call *call, const struct entry *entry, const char *name)
{
    for (size_t i = 0; i < sizeof rows / sizeof *rows; i++) {
        if (strcmp(rows[i].name, name))
            continue;
        if (!lend_mesh(call, entry))
            return 0;
        put_all(call, rows[i].put, rows[i].puts);
        add_faces(call, rows[i].faces);
        if (rows[i].flipped)
            flip(&call->real[GEOMETRY][rows[i].flipped]);
        return !rows[i].made || make_distances(call);
    }
    return 0;
}
