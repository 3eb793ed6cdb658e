/* The changes to the base, by the names that they have in crates/edges/src/tables.rt and in
 * crates/oneslice/src/cases.rt. */
#include "call.h"

#include <math.h>
#include <string.h>

enum kind { NOTHING, DIMENSION, RECORDS, LENGTH, NUMBER, WHOLE, REAL };

/* A length or a number of a part, or one number of its slice, becomes n or x. A name that two entries
 * have for different changes stands with the entry. */
struct row {
    const char *entry, *name;
    enum kind kind;
    enum part part;
    size_t at, n;
    double x;
};

#define NEAR 0.50000001490116119384765625
#define FARTHER 0.5000000298023223876953125
#define BESIDE 0.499999992549419403076171875
#define LEAST 4.9406564584124654e-324

static const struct row rows[] = {
    {0, "as it stands", NOTHING, 0, 0, 0, 0},
    {0, "dimension 4", DIMENSION, 0, 0, 4, 0},
    {0, "room for 5 records", RECORDS, 0, 0, 5, 0},
    {0, "room for 6 records", RECORDS, 0, 0, 6, 0},

    {0, "codes one short", LENGTH, CODES, 0, 13, 0},
    {0, "diagonal one short", LENGTH, DIAGONAL, 0, 1, 0},
    {0, "equations one short", LENGTH, EQUATIONS, 0, 13, 0},
    {0, "gradient one short", LENGTH, GRADIENT, 0, 5, 0},
    {0, "metrics one long", LENGTH, METRICS, 0, 3, 0},
    {0, "places one short", LENGTH, PLACES, 0, 7, 0},
    {0, "predicted flux one long", LENGTH, PREDICTED, 0, 8, 0},
    {0, "predicted flux one short", LENGTH, PREDICTED, 0, 6, 0},
    {0, "pressure one short", LENGTH, PRESSURE, 0, 1, 0},
    {0, "values one short", LENGTH, VALUES, 0, 27, 0},
    {0, "walls one short", LENGTH, WALLS, 0, 6, 0},
    {"correct_face_flux_with_boundary", "output one long", LENGTH, FLUX, 0, 8, 0},
    {"integrated_divergence", "output one short", LENGTH, OUTFLOW, 0, 1, 0},
    {"momentum_inverse_diagonal", "output one long", LENGTH, RESPONSES, 0, 3, 0},

    {0, "coefficients of another mesh", NUMBER, COEFFICIENTS, 0, 8, 0},
    {0, "conditions of another mesh", NUMBER, CODES, 0, 8, 0},
    {0, "correction of another mesh", NUMBER, CORRECTION, 0, 8, 0},
    {0, "flux of another mesh", NUMBER, FLUX, 0, 8, 0},
    {0, "gradient of another mesh", NUMBER, GRADIENT, 0, 8, 0},
    {0, "predicted flux of another mesh", NUMBER, PREDICTED, 0, 8, 0},
    {0, "pressure of another mesh", NUMBER, PRESSURE, 0, 8, 0},
    {0, "responses of another mesh", NUMBER, RESPONSES, 0, 8, 0},
    {0, "stencil of another mesh", NUMBER, STARTS, 0, 8, 0},
    {0, "velocity of another mesh", NUMBER, VELOCITY, 0, 8, 0},

    {0, "code 1 at linked face 1", WHOLE, CODES, 2, 1, 0},
    {0, "code 3 at face 4", WHOLE, CODES, 8, 3, 0},
    {0, "first equation of cell 1 missing", WHOLE, STARTS, 1, 8, 0},
    {0, "first face of cell 1 missing", WHOLE, HEADS, 2, 9, 0},
    {0, "first neighbour of cell 1 missing", WHOLE, HEADS, 3, 3, 0},
    {0, "link of face 4 to face 5", WHOLE, CODES, 9, 6, 0},
    {0, "neighbour of face 0 its owner", WHOLE, ADJACENCY, 1, 1, 0},
    {0, "no condition at face 3", WHOLE, CODES, 6, 0, 0},
    {0, "no condition at face 4", WHOLE, CODES, 8, 0, 0},
    {0, "no faces of cell 0 but 0 and 1", WHOLE, FACING, 3, 0, 0},
    {0, "owner of face 3 missing", WHOLE, ADJACENCY, 6, 2, 0},
    {0, "zero gradient at face 3", WHOLE, CODES, 6, 2, 0},

    {0, "area of face 0 1e308", REAL, GEOMETRY, 3, 0, 1.0e308},
    {0, "area of face 3 1e308", REAL, GEOMETRY, 37, 0, -1.0e308},
    {0, "area of face 6 0", REAL, GEOMETRY, 70, 0, 0.0},
    {0, "centre distance 2^-25", REAL, PLACES, 4, 0, FARTHER},
    {0, "centre distance 2^-26", REAL, PLACES, 4, 0, NEAR},
    {0, "centre of face 3 2^-27 from its cell's", REAL, GEOMETRY, 34, 0, BESIDE},
    {0, "centre of face 3 its cell's", REAL, GEOMETRY, 34, 0, 0.5},
    {0, "coefficient 0 at face 0", REAL, COEFFICIENTS, 0, 0, 0.0},
    {0, "coefficient 0 at face 6", REAL, COEFFICIENTS, 6, 0, 0.0},
    {0, "correction of cell 0 -1.7e308", REAL, CORRECTION, 0, 0, -1.7e308},
    {0, "diagonal 0", REAL, DIAGONAL, 1, 0, 0.0},
    {0, "diagonal 2^-1074", REAL, DIAGONAL, 0, 0, LEAST},
    {0, "flux of face 1 1.7e308", REAL, FLUX, 1, 0, 1.7e308},
    {0, "predicted flux of face 2 a NaN", REAL, PREDICTED, 2, 0, NAN},
    {0, "predicted flux of face 4 a NaN", REAL, PREDICTED, 4, 0, NAN},
    {0, "predicted flux of face 5 -0", REAL, PREDICTED, 5, 0, -0.0},
    {0, "response -1", REAL, RESPONSES, 0, 0, -1.0},
    {0, "response 0", REAL, RESPONSES, 1, 0, 0.0},
    {0, "response 1.7e308", REAL, RESPONSES, 1, 0, 1.7e308},
    {0, "volume of cell 1 0", REAL, PLACES, 7, 0, 0.0},
    {0, "volume of cell 1 2^-1074", REAL, PLACES, 7, 0, LEAST},
    {0, "wall flux of face 4 1.7e308", REAL, WALLS, 4, 0, 1.7e308}
};

static void apply(struct call *call, const struct row *row)
{
    switch (row->kind) {
    case NOTHING:
        break;
    case DIMENSION:
        call->counts.dimension = row->n;
        break;
    case RECORDS:
        call->records = row->n;
        call->length[EQUATIONS] = 2 * row->n;
        call->length[WEIGHTS] = 4 * row->n;
        break;
    case LENGTH:
        call->length[row->part] = row->n;
        break;
    case NUMBER:
        call->number[row->part] = row->n;
        break;
    case WHOLE:
        call->whole[row->part][row->at] = row->n;
        break;
    case REAL:
        call->real[row->part][row->at] = row->x;
        break;
    }
}

int change(struct call *call, const char *entry, const char *name)
{
    for (size_t i = 0; i < sizeof rows / sizeof *rows; i++) {
        if (strcmp(rows[i].name, name) || (rows[i].entry && strcmp(rows[i].entry, entry)))
            continue;
        apply(call, &rows[i]);
        if (rows[i].kind == REAL && (rows[i].part == GEOMETRY || rows[i].part == PLACES))
            return make_distances(call);
        return 1;
    }
    return 0;
}
