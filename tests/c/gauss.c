/* The gradients by Gauss of unit cubes side by side, known exactly: by document 02 and by hand. Face 0 lies
 * between the cubes at x = 1; faces 1 and 2, at x = 0 and x = 2, are linked; faces 3 to 6 are the other walls
 * of cell 0, faces 7 to 10 those of cell 1, in the order of y and z. A cell's gradient is the value of its
 * upper face less that of its lower one, in each direction. */
#include "judge.h"
#include "put.h"
#include "report.h"

#include <inttypes.h>
#include <math.h>
#include <string.h>

enum { FROM_FACES, WITH_CONDITIONS, ALONE, GRADIENTS };

enum { CELLS = 2, FACES = 11 };

/* The owner of a face, its neighbour + 1, and its area vector, whose zeros have the sign of its one. */
static const struct {
    size_t owner, neighbour, axis;
    double sign;
} faces[FACES] = {
    {0, 2, 0, 1.0}, {0, 0, 0, -1.0}, {1, 0, 0, 1.0},
    {0, 0, 1, -1.0}, {0, 0, 1, 1.0}, {0, 0, 2, -1.0}, {0, 0, 2, 1.0},
    {1, 0, 1, -1.0}, {1, 0, 1, 1.0}, {1, 0, 2, -1.0}, {1, 0, 2, 1.0}
};

static const double places[4 * CELLS] = {0.5, 0.5, 0.5, 1.0,  1.5, 0.5, 0.5, 1.0};

/* A condition and a linked face + 1 each. */
static const size_t codes[2 * FACES] = {0, 0, 0, 3, 0, 2, 1, 0, 2, 0, 0, 0, 1, 0, 1, 0, 0, 0, 2, 0, 1, 0};

/* The fixed values are 8, 16, 64 and -4. A link's translation is not the way between its faces: the image of
 * cell 1 is 3.5 from face 1, that of cell 0 7.5 from face 2. What else stands here is not to be read. */
static const double values[4 * FACES] = {
    901.0, 902.0, 903.0, 904.0,  905.0, 5.0, 0.0, 0.0,      906.0, -9.0, 0.0, 0.0,
    8.0, 907.0, 908.0, 909.0,    910.0, 911.0, 912.0, 913.0,  914.0, 915.0, 916.0, 917.0,
    16.0, 918.0, 919.0, 920.0,   64.0, 921.0, 922.0, 923.0,   924.0, 925.0, 926.0, 927.0,
    928.0, 929.0, 930.0, 931.0,  -4.0, 932.0, 933.0, 934.0
};

static const double pressures[CELLS] = {1.0, 5.0};

static const double face_values[FACES] = {
    1.0, 2.0, 4.0, 8.0, 16.0, 32.0, 64.0, 128.0, 256.0, 512.0, 1024.0
};

/* What comes of them. The pressure of face 0 is 3, of face 1 (3.5 x 1 + 0.5 x 5) / 4 = 1.5, of face 2
 * (7.5 x 5 + 0.5 x 1) / 8 = 4.75; without conditions all faces but face 0 have their owner's. */
#define FACE_GRADIENTS -1.0, 8.0, 32.0, 3.0, 128.0, 512.0
#define GRADIENTS_0 1.5, -7.0, 15.0
#define GRADIENTS_1 1.75, -59.0, -9.0
#define PRESSURE_GRADIENTS GRADIENTS_0, GRADIENTS_1
#define ALONE_GRADIENTS 2.0, 0.0, 0.0, 2.0, 0.0, 0.0

/* Two unit cubes are lent in place of the base. */
static void lend_cubes(struct call *call, const struct entry *entry)
{
    lend(call, entry);
    call->counts.dimension = 3;
    call->counts.faces = FACES;
    call->length[ADJACENCY] = call->length[CODES] = 2 * FACES;
    call->length[GEOMETRY] = 11 * FACES;
    call->length[VALUES] = 4 * FACES;
    call->length[FACE_VALUES] = FACES;
    memcpy(call->real[PLACES], places, sizeof places);
    memcpy(call->whole[CODES], codes, sizeof codes);
    memcpy(call->real[VALUES], values, sizeof values);
    memcpy(call->real[PRESSURE], pressures, sizeof pressures);
    memcpy(call->real[FACE_VALUES], face_values, sizeof face_values);
    for (size_t f = 0; f < FACES; f++) {
        double *face = &call->real[GEOMETRY][11 * f];
        call->whole[ADJACENCY][2 * f] = faces[f].owner;
        call->whole[ADJACENCY][2 * f + 1] = faces[f].neighbour;
        for (size_t k = 0; k < 3; k++) {
            double out = k == faces[f].axis ? faces[f].sign : 0.0 * faces[f].sign;
            face[k] = places[4 * faces[f].owner + k] + 0.5 * out;
            face[3 + k] = face[6 + k] = out;
        }
        face[9] = 0.5;
        face[10] = f < 3 ? 0.5 : 0.0;
    }
}

#define CENTRE(f, k, x) REAL(GEOMETRY, 11 * (f) + (k), x)
#define AREA(f, k, x) REAL(GEOMETRY, 11 * (f) + 3 + (k), x)
#define NORMAL(f, k, x) REAL(GEOMETRY, 11 * (f) + 6 + (k), x)
#define OWN(f, x) REAL(GEOMETRY, 11 * (f) + 9, x)
#define OTHER(f, x) REAL(GEOMETRY, 11 * (f) + 10, x)
#define VOLUME(c, x) REAL(PLACES, 4 * (c) + 3, x)
#define VALUE(f, x) REAL(FACE_VALUES, f, x)
#define FIXED(f, x) WHOLE(CODES, 2 * (f), 1), REAL(VALUES, 4 * (f), x)
#define CODE(f, n) WHOLE(CODES, 2 * (f), n)
#define PEER(f, n) WHOLE(CODES, 2 * (f) + 1, n)

/* Accepted calls and the gradients of both cells. */
#define MOVED 1
#define NANS NAN, NAN, NAN
#define ZEROS 0.0, 0.0, 0.0

static const struct {
    const char *name;
    int moved; /* a centre or a link is another, so that distances are made */
    size_t puts;
    struct put put[8];
    double due[GRADIENTS][3 * CELLS];
} rows[] = {
    {"as it stands", 0, NO_PUTS, {{FACE_GRADIENTS}, {PRESSURE_GRADIENTS}, {ALONE_GRADIENTS}}},
    {"the same distances made", MOVED, NO_PUTS,
        {{FACE_GRADIENTS}, {PRESSURE_GRADIENTS}, {ALONE_GRADIENTS}}},
    {"two dimensions, other normals, more records", 0,
        PUTS(COUNT(dimension, 2), NORMAL(0, 0, NAN), NORMAL(3, 1, 7.0), COUNT(face_records, 65535),
            COUNT(neighbour_records, 65535)),
        {{FACE_GRADIENTS}, {PRESSURE_GRADIENTS}, {ALONE_GRADIENTS}}},

    /* areas */
    {"area of face 0 (2, 4, 8)", 0, PUTS(AREA(0, 0, 2.0), AREA(0, 1, 4.0), AREA(0, 2, 8.0)),
        {{0.0, 12.0, 40.0, 2.0, 124.0, 504.0}, {4.5, 5.0, 39.0, -1.25, -71.0, -33.0},
            {5.0, 12.0, 24.0, -1.0, -12.0, -24.0}}},
    {"face 0 of cell 1 and then cell 0", 0, PUTS(WHOLE(ADJACENCY, 0, 1), WHOLE(ADJACENCY, 1, 1)),
        {{-3.0, 8.0, 32.0, 5.0, 128.0, 512.0}, {-4.5, -7.0, 15.0, 7.75, -59.0, -9.0},
            {-4.0, 0.0, 0.0, 8.0, 0.0, 0.0}}},

    /* volumes */
    {"volumes 2 and 0.25", 0, PUTS(VOLUME(0, 2.0), VOLUME(1, 0.25)),
        {{-0.5, 4.0, 16.0, 12.0, 512.0, 2048.0}, {0.75, -3.5, 7.5, 7.0, -236.0, -36.0},
            {1.0, 0.0, 0.0, 8.0, 0.0, 0.0}}},
    {"volume of cell 0 a NaN", 0, PUTS(VOLUME(0, NAN)),
        {{NANS, 3.0, 128.0, 512.0}, {NANS, GRADIENTS_1}, {NANS, 2.0, 0.0, 0.0}}},
    {"volume of cell 1 a NaN of the other sign", 0, PUTS(VOLUME(1, -NAN)),
        {{-1.0, 8.0, 32.0, NANS}, {GRADIENTS_0, NANS}, {2.0, 0.0, 0.0, NANS}}},
    {"volume of cell 0 infinite", 0, PUTS(VOLUME(0, INFINITY)),
        {{-0.0, 0.0, 0.0, 3.0, 128.0, 512.0}, {0.0, -0.0, 0.0, GRADIENTS_1}, {ZEROS, 2.0, 0.0, 0.0}}},
    {"volume of cell 1 2^-1074", 0, PUTS(VOLUME(1, 0x1p-1074)),
        {{-1.0, 8.0, 32.0, INFINITY, INFINITY, INFINITY}, {GRADIENTS_0, INFINITY, -INFINITY, -INFINITY},
            {2.0, 0.0, 0.0, INFINITY, 0.0, 0.0}}},

    /* the sums: in face order, where 1 + 2^-53 is 1 and what stands before the 1 counts; from +0.0; each
     * divided once, for three tenths one by one are more than 0.3 */
    {"1, 2^-53, 2^-53 to cell 0", 0,
        PUTS(VALUE(1, -0x1p-53), AREA(4, 0, 1.0), AREA(4, 1, 0.0), VALUE(4, 0x1p-53)),
        {{1.0, -8.0, 32.0, 3.0, 128.0, 512.0}, {2.5, -8.0, 15.0, GRADIENTS_1},
            {3.0, -1.0, 0.0, 2.0, 0.0, 0.0}}},
    {"-1, -2^-53, -2^-53 to cell 1", 0,
        PUTS(VALUE(2, -0x1p-53), AREA(8, 0, 1.0), AREA(8, 1, 0.0), VALUE(8, -0x1p-53)),
        {{-1.0, 8.0, 32.0, -1.0, -128.0, 512.0}, {GRADIENTS_0, 6.75, -64.0, -9.0},
            {2.0, 0.0, 0.0, 7.0, -5.0, 0.0}}},
    {"zeros of either sign, all -0 to cell 0", 0,
        PUTS(VALUE(0, -0.0), VALUE(1, 0.0), VALUE(3, 0.0), VALUE(4, -0.0), VALUE(5, 0.0), VALUE(6, -0.0),
            REAL(PRESSURE, 0, -0.0), REAL(PRESSURE, 1, -0.0)),
        {{ZEROS, 4.0, 128.0, 512.0}, {0.0, -8.0, 16.0, 0.0, -64.0, -4.0}, {ZEROS, ZEROS}}},
    {"ones over 10", 0,
        PUTS(VALUE(1, -1.0), AREA(4, 0, 1.0), AREA(4, 1, 0.0), VALUE(4, 1.0), VALUE(3, 0.0), VOLUME(0, 10.0)),
        {{0.3, 0.0, 3.2, 3.0, 128.0, 512.0}, {0.25, -0.8, 1.5, GRADIENTS_1},
            {0.3, -0.1, 0.0, 2.0, 0.0, 0.0}}},

    /* what is not finite */
    {"value of face 4 infinite", 0, PUTS(VALUE(4, INFINITY), FIXED(4, -INFINITY)),
        {{NAN, INFINITY, NAN, 3.0, 128.0, 512.0}, {NAN, -INFINITY, NAN, GRADIENTS_1}, {ALONE_GRADIENTS}}},
    {"value of face 9 a NaN", 0, PUTS(VALUE(9, NAN), FIXED(9, NAN)),
        {{-1.0, 8.0, 32.0, NANS}, {GRADIENTS_0, NANS}, {ALONE_GRADIENTS}}},
    {"values of 2^1023 with areas of 2", 0, PUTS(VALUE(6, 0x1p+1023), FIXED(6, 0x1p+1023), AREA(6, 2, 2.0)),
        {{-1.0, 8.0, INFINITY, 3.0, 128.0, 512.0}, {1.5, -7.0, INFINITY, GRADIENTS_1},
            {2.0, 0.0, 1.0, 2.0, 0.0, 0.0}}},
    {"pressure of cell 1 infinite", 0, PUTS(REAL(PRESSURE, 1, INFINITY)),
        {{FACE_GRADIENTS}, {NANS, NANS}, {INFINITY, NAN, NAN, NANS}}},

    /* what lies between */
    {"face 0 at 0.75", MOVED, PUTS(CENTRE(0, 0, 0.75)),
        {{FACE_GRADIENTS}, {0.5, -7.0, 15.0, 2.75, -59.0, -9.0}, {1.0, 0.0, 0.0, 3.0, 0.0, 0.0}}},
    {"face 0 in the centre of cell 0", MOVED, PUTS(CENTRE(0, 0, 0.5)),
        {{FACE_GRADIENTS}, {-0.5, -7.0, 15.0, 3.75, -59.0, -9.0}, {ZEROS, 4.0, 0.0, 0.0}}},
    {"face 0 in the centre of cell 1, pressures 2^60 and 1", MOVED,
        PUTS(CENTRE(0, 0, 1.5), REAL(PRESSURE, 0, 0x1p+60), REAL(PRESSURE, 1, 1.0)),
        {{FACE_GRADIENTS}, {-0x1.cp+59, 0x1p+60, -0x1p+60, 0x1p+56, -63.0, -5.0},
            {-0x1p+60, 0.0, 0.0, 0.0, 0.0, 0.0}}},
    {"both centres in face 0", MOVED, PUTS(REAL(PLACES, 0, 1.0), REAL(PLACES, 4, 1.0)),
        {{FACE_GRADIENTS}, {NANS, NANS}, {NANS, NANS}}},
    {"face 0 infinitely far", MOVED, PUTS(CENTRE(0, 1, INFINITY)),
        {{FACE_GRADIENTS}, {NANS, NANS}, {NANS, NANS}}},

    /* links, before the condition */
    {"fixed values at linked faces", 0, PUTS(FIXED(1, 1000.0), FIXED(2, 2000.0)),
        {{FACE_GRADIENTS}, {PRESSURE_GRADIENTS}, {ALONE_GRADIENTS}}},
    {"translation (1.5, 4.5, 6) at face 1", 0,
        PUTS(REAL(VALUES, 5, 1.5), REAL(VALUES, 6, 4.5), REAL(VALUES, 7, 6.0)),
        {{FACE_GRADIENTS}, {1.75, -7.0, 15.0, GRADIENTS_1}, {ALONE_GRADIENTS}}},
    {"the image in face 1", 0, PUTS(REAL(VALUES, 5, 1.5)),
        {{FACE_GRADIENTS}, {-2.0, -7.0, 15.0, GRADIENTS_1}, {ALONE_GRADIENTS}}},
    {"face 1 in the centre of its cell and of the image", MOVED,
        PUTS(CENTRE(1, 0, 0.5), REAL(VALUES, 5, 1.0)),
        {{FACE_GRADIENTS}, {NANS, GRADIENTS_1}, {ALONE_GRADIENTS}}},
    {"face 1 in the centre of its cell, the image elsewhere", MOVED, PUTS(CENTRE(1, 0, 0.5)),
        {{FACE_GRADIENTS}, {2.0, -7.0, 15.0, GRADIENTS_1}, {ALONE_GRADIENTS}}},
    {"faces 3 and 7 linked, one beside the other", MOVED,
        PUTS(PEER(3, 8), PEER(7, 4), REAL(VALUES, 13, 1.0), REAL(VALUES, 14, 0.0), REAL(VALUES, 15, 0.0),
            REAL(VALUES, 29, -1.0), REAL(VALUES, 30, 0.0), REAL(VALUES, 31, 0.0)),
        {{FACE_GRADIENTS}, {1.5, -2.0, 15.0, 1.75, 2.0, -9.0}, {ALONE_GRADIENTS}}},
    {"no links", MOVED, PUTS(PEER(1, 0), PEER(2, 0)),
        {{FACE_GRADIENTS}, {2.0, -7.0, 15.0, 2.0, -59.0, -9.0}, {ALONE_GRADIENTS}}},

    /* conditions */
    {"a fixed value at face 0", 0, PUTS(FIXED(0, 1000.0)),
        {{FACE_GRADIENTS}, {PRESSURE_GRADIENTS}, {ALONE_GRADIENTS}}},
    {"a zero gradient at face 3", 0, PUTS(CODE(3, 2)),
        {{FACE_GRADIENTS}, {1.5, 0.0, 15.0, GRADIENTS_1}, {ALONE_GRADIENTS}}},
    {"no condition at faces 3, 6, 7 and 10", 0, PUTS(CODE(3, 0), CODE(6, 0), CODE(7, 0), CODE(10, 0)),
        {{FACE_GRADIENTS}, {1.5, 0.0, 0.0, 1.75, 0.0, 0.0}, {ALONE_GRADIENTS}}},
    {"no condition and no link", MOVED,
        PUTS(CODE(3, 0), CODE(4, 0), CODE(6, 0), CODE(7, 0), CODE(9, 0), CODE(10, 0), PEER(1, 0), PEER(2, 0)),
        {{FACE_GRADIENTS}, {ALONE_GRADIENTS}, {ALONE_GRADIENTS}}}
};

/* A refusal of each gradient, or 0 where it is what it is as it stands. */
struct answer {
    uint64_t number;
    size_t index;
};

#define EVERY(n, i) {{n, i}, {n, i}, {n, i}}
#define FACES_ONLY(n) {{n, 0}, {0, 0}, {0, 0}}
#define CONDITIONS_ONLY(n, i) {{0, 0}, {n, i}, {0, 0}}
#define PRESSURES_ONLY(n) {{0, 0}, {n, 0}, {n, 0}}

static const struct {
    const char *name;
    size_t puts;
    struct put put[4];
    struct answer answers[GRADIENTS];
} refusals[] = {
    {"no cell", PUTS(COUNT(cells, 0)), EVERY(1, 0)},
    {"65536 cells", PUTS(COUNT(cells, 65536)), EVERY(1, 0)},
    {"65536 faces", PUTS(COUNT(faces, 65536)), EVERY(1, 0)},
    {"65536 face records", PUTS(COUNT(face_records, 65536)), EVERY(1, 0)},
    {"65536 neighbour records", PUTS(COUNT(neighbour_records, 65536)), EVERY(1, 0)},
    {"dimension 1", PUTS(COUNT(dimension, 1)), EVERY(1, 0)},
    {"dimension 4, places one short", PUTS(COUNT(dimension, 4), LENGTH(PLACES, 7)), EVERY(1, 0)},

    {"adjacency one short", PUTS(LENGTH(ADJACENCY, 21)), EVERY(2, 0)},
    {"adjacency one long", PUTS(LENGTH(ADJACENCY, 23)), EVERY(2, 0)},
    {"geometry one short", PUTS(LENGTH(GEOMETRY, 120)), EVERY(2, 0)},
    {"geometry one long", PUTS(LENGTH(GEOMETRY, 122)), EVERY(2, 0)},
    {"geometry of 9 numbers a face", PUTS(LENGTH(GEOMETRY, 99)), EVERY(2, 0)},
    {"places one short", PUTS(LENGTH(PLACES, 7)), EVERY(2, 0)},
    {"places one long", PUTS(LENGTH(PLACES, 9)), EVERY(2, 0)},
    {"values of faces one short", PUTS(LENGTH(FACE_VALUES, 10)), FACES_ONLY(2)},
    {"values of faces one long", PUTS(LENGTH(FACE_VALUES, 12)), FACES_ONLY(2)},
    {"a value of each cell", PUTS(LENGTH(FACE_VALUES, 2)), FACES_ONLY(2)},
    {"codes one short", PUTS(LENGTH(CODES, 21)), CONDITIONS_ONLY(2, 0)},
    {"codes one long", PUTS(LENGTH(CODES, 23)), CONDITIONS_ONLY(2, 0)},
    {"fixed values and translations one short", PUTS(LENGTH(VALUES, 43)), CONDITIONS_ONLY(2, 0)},
    {"fixed values and translations one long", PUTS(LENGTH(VALUES, 45)), CONDITIONS_ONLY(2, 0)},
    {"pressures one short", PUTS(LENGTH(PRESSURE, 1)), PRESSURES_ONLY(2)},
    {"pressures one long", PUTS(LENGTH(PRESSURE, 3)), PRESSURES_ONLY(2)},
    {"a pressure of each face", PUTS(LENGTH(PRESSURE, 11)), PRESSURES_ONLY(2)},
    {"output one short", PUTS(LENGTH(GRADIENT, 5)), EVERY(2, 0)},
    {"output one long", PUTS(LENGTH(GRADIENT, 7)), EVERY(2, 0)},
    {"a number of output for each cell", PUTS(LENGTH(GRADIENT, 2)), EVERY(2, 0)},
    {"one face more", PUTS(COUNT(faces, 12)), EVERY(2, 0)},
    {"one cell more, another mesh", PUTS(COUNT(cells, 3), COUNT(mesh, 9)), EVERY(2, 0)},

    {"values of faces of another mesh", PUTS(NUMBER(FACE_VALUES, 9)), FACES_ONLY(3)},
    {"conditions of another mesh", PUTS(NUMBER(CODES, 9)), CONDITIONS_ONLY(3, 0)},
    {"pressures of another mesh", PUTS(NUMBER(PRESSURE, 9)), PRESSURES_ONLY(3)},
    {"conditions and pressures of another mesh", PUTS(NUMBER(CODES, 9), NUMBER(PRESSURE, 9)),
        PRESSURES_ONLY(3)},
    {"another mesh", PUTS(COUNT(mesh, 9)), EVERY(3, 0)},
    {"another number, of all",
        PUTS(COUNT(mesh, 9), NUMBER(FACE_VALUES, 9), NUMBER(CODES, 9), NUMBER(PRESSURE, 9)), EVERY(0, 0)},
    {"another mesh, a bad face", PUTS(COUNT(mesh, 9), WHOLE(ADJACENCY, 6, 2)), EVERY(3, 0)},
    {"another mesh, volume 0", PUTS(COUNT(mesh, 9), VOLUME(0, 0.0)), EVERY(3, 0)},

    {"owner of face 10 missing", PUTS(WHOLE(ADJACENCY, 20, 2)), EVERY(4, 10)},
    {"neighbour of face 0 missing", PUTS(WHOLE(ADJACENCY, 1, 3)), EVERY(4, 0)},
    {"neighbour of face 8 its owner", PUTS(WHOLE(ADJACENCY, 17, 2)), EVERY(4, 8)},
    {"code 3 at face 5", PUTS(CODE(5, 3)), CONDITIONS_ONLY(4, 5)},
    {"code 3 at face 0", PUTS(CODE(0, 3)), CONDITIONS_ONLY(4, 0)},
    {"owner of face 6 missing, code 3 at face 5", PUTS(WHOLE(ADJACENCY, 12, 2), CODE(5, 3)),
        {{4, 6}, {4, 5}, {4, 6}}},
    {"owner of face 6 missing, face 3 linked to itself", PUTS(WHOLE(ADJACENCY, 12, 2), PEER(3, 4)),
        EVERY(4, 6)},
    {"owner of face 6 missing, volume 0", PUTS(WHOLE(ADJACENCY, 12, 2), VOLUME(0, 0.0)), EVERY(4, 6)},

    {"face 4 linked with face 5, which is not", PUTS(PEER(4, 6)), CONDITIONS_ONLY(6, 4)},
    {"face 10 linked past the last", PUTS(PEER(10, 12)), CONDITIONS_ONLY(6, 10)},
    {"face 7 linked to itself", PUTS(PEER(7, 8)), CONDITIONS_ONLY(6, 7)},
    {"faces 0 and 3 linked", PUTS(PEER(0, 4), PEER(3, 1)), CONDITIONS_ONLY(6, 0)},
    {"face 4 linked with face 5, volume of cell 1 0", PUTS(PEER(4, 6), VOLUME(1, 0.0)),
        {{12, 1}, {6, 4}, {12, 1}}},

    {"own distance of face 10 another", PUTS(OWN(10, 1.0)), EVERY(20, 10)},
    {"other distance of face 0 another", PUTS(OTHER(0, 1.0)), EVERY(20, 0)},
    {"other distance of face 2 another", PUTS(OTHER(2, 7.5)), CONDITIONS_ONLY(20, 2)},
    {"other distance of face 3 -0", PUTS(OTHER(3, -0.0)), CONDITIONS_ONLY(20, 3)},
    {"own distance of face 10 another, volume 0", PUTS(OWN(10, 1.0), VOLUME(0, 0.0)), EVERY(20, 10)},

    {"volume of cell 0 0", PUTS(VOLUME(0, 0.0)), EVERY(12, 0)},
    {"volume of cell 1 0", PUTS(VOLUME(1, 0.0)), EVERY(12, 1)},
    {"volume of cell 1 -0", PUTS(VOLUME(1, -0.0)), EVERY(12, 1)},
    {"volume of cell 0 -1", PUTS(VOLUME(0, -1.0)), EVERY(12, 0)},
    {"volume of cell 1 -2^-1074", PUTS(VOLUME(1, -0x1p-1074)), EVERY(12, 1)},
    {"volume of cell 0 -infinite", PUTS(VOLUME(0, -INFINITY)), EVERY(12, 0)},
    {"both volumes 0", PUTS(VOLUME(0, 0.0), VOLUME(1, 0.0)), EVERY(12, 0)},
    {"volumes a NaN and 0", PUTS(VOLUME(0, NAN), VOLUME(1, 0.0)), EVERY(12, 1)},
    {"volume of cell 1 0, values a NaN", PUTS(VOLUME(1, 0.0), VALUE(0, NAN), REAL(PRESSURE, 0, NAN)),
        EVERY(12, 1)}
};

static const struct entry *entry_of(size_t gradient)
{
    return &entries[GAUSS_GRADIENT_FROM_FACES + gradient];
}

static void hold_answer(const char *of, const char *name, uint64_t answer, size_t index, struct answer due)
{
    if (answer != due.number || index != due.index)
        fail("%s, %s: answer %" PRIu64 " at %zu, expected %" PRIu64 " at %zu", of, name, answer, index,
            due.number, due.index);
}

/* So many numbers of the gradients are those that are due, what follows is as before, and so is all else. */
static void hold_out(const char *of, const char *name, const struct call *before, const struct call *call,
    const double *due, size_t n)
{
    static struct call left;
    left = *before;
    memcpy(left.real[GRADIENT], due, n * sizeof *due);
    for (size_t i = 0; i < ROOM; i++)
        if (bits_at(call, GRADIENT, i) != bits_at(&left, GRADIENT, i))
            fail("%s, %s: number %zu is %016" PRIx64 ", expected %016" PRIx64, of, name, i,
                bits_at(call, GRADIENT, i), bits_at(&left, GRADIENT, i));
    memcpy(left.real[GRADIENT], call->real[GRADIENT], sizeof left.real[GRADIENT]);
    if (memcmp(left.real, call->real, sizeof left.real) || memcmp(left.whole, call->whole, sizeof left.whole))
        fail("%s, %s: more is written than the gradients", of, name);
    passed++;
}

static void judge_rows(void)
{
    static struct call call, before;
    for (size_t i = 0; i < sizeof rows / sizeof *rows; i++)
        for (size_t k = 0; k < GRADIENTS; k++) {
            const struct entry *entry = entry_of(k);
            lend_cubes(&call, entry);
            put_all(&call, rows[i].put, rows[i].puts);
            if (rows[i].moved && entries[FACE_DISTANCES].make(&call))
                fail("%s, %s: no distances", entry->name, rows[i].name);
            call.index = SIZE_MAX;
            before = call;
            uint64_t answer = entry->make(&call);
            hold_answer(entry->name, rows[i].name, answer, call.index, (struct answer){0, 0});
            hold_out(entry->name, rows[i].name, &before, &call, rows[i].due[k], 3 * CELLS);
        }
}

/* A refusal by 12 leaves +0.0, every other nothing. */
static void judge_refusals(void)
{
    static const double zeros[3 * CELLS];
    static struct call call, before;
    for (size_t i = 0; i < sizeof refusals / sizeof *refusals; i++)
        for (size_t k = 0; k < GRADIENTS; k++) {
            const struct entry *entry = entry_of(k);
            const struct answer due = refusals[i].answers[k];
            lend_cubes(&call, entry);
            put_all(&call, refusals[i].put, refusals[i].puts);
            before = call;
            uint64_t answer = entry->make(&call);
            hold_answer(entry->name, refusals[i].name, answer, call.index, due);
            const double *left = due.number ? zeros : rows[0].due[k];
            size_t n = due.number && due.number != JUVANDEER_INVALID_CELL_MEASURE ? 0 : 3 * CELLS;
            hold_out(entry->name, refusals[i].name, &before, &call, left, n);
        }
}

/* One call from the values of the faces, into an array of a struct of three doubles. */
static void hold_vectors(const char *name, struct call *call, const double *from, const double *due)
{
    struct {
        double x, y, z;
    } gradients[CELLS];
    _Static_assert(sizeof gradients == 3 * CELLS * sizeof(double), "three doubles are a vector");
    uint64_t answer = juvandeer_gauss_gradient_from_faces(
        call->counts, call->whole[ADJACENCY], call->length[ADJACENCY], call->real[GEOMETRY],
        call->length[GEOMETRY], call->real[PLACES], call->length[PLACES], call->number[FACE_VALUES], from,
        FACES, (double *)gradients, 3 * CELLS, &call->index);
    hold_answer("gauss_gradient_from_faces", name, answer, call->index, (struct answer){0, 0});
    for (size_t c = 0; c < CELLS; c++)
        if (gradients[c].x != due[3 * c] || gradients[c].y != due[3 * c + 1]
            || gradients[c].z != due[3 * c + 2])
            fail("gauss_gradient_from_faces, %s: another gradient of cell %zu", name, c);
    passed++;
}

/* As vectors; and from values that are the numbers of face 0 in the geometry, lent a second time: 1, 0.5,
 * 0.5, its area vector, its normal and two distances of 0.5. */
static void judge_vectors(void)
{
    static const double as_it_stands[] = {FACE_GRADIENTS}, twice[] = {0.5, -1.0, 1.0, -0.5, 0.0, 0.0};
    static struct call call;
    lend_cubes(&call, entry_of(FROM_FACES));
    hold_vectors("as vectors", &call, call.real[FACE_VALUES], as_it_stands);
    hold_vectors("geometry lent twice", &call, call.real[GEOMETRY], twice);
}

void judge_gauss(void)
{
    judge_rows();
    judge_refusals();
    judge_vectors();
}
