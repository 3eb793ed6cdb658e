/* One call of each function of the library. */
#include "call.h"

#define WHOLE(part) c->whole[part], c->length[part]
#define REAL(part) c->real[part], c->length[part]

static uint64_t diagonal(struct call *c)
{
    return juvandeer_momentum_inverse_diagonal(c->counts, REAL(DIAGONAL), REAL(RESPONSES), &c->index);
}

static uint64_t stencil(struct call *c)
{
    return juvandeer_least_squares_stencil(
        c->counts, WHOLE(ADJACENCY), REAL(GEOMETRY), WHOLE(HEADS), REAL(PLACES), WHOLE(FACING),
        WHOLE(BORDERING), c->number[CODES], WHOLE(CODES), REAL(VALUES), c->records, WHOLE(STARTS),
        WHOLE(EQUATIONS), REAL(WEIGHTS), REAL(INVERSES), &c->index);
}

static uint64_t gradient(struct call *c)
{
    return juvandeer_least_squares_gradient(
        c->counts, c->number[STARTS], c->records, WHOLE(STARTS), WHOLE(EQUATIONS), REAL(WEIGHTS),
        REAL(INVERSES), c->number[PRESSURE], REAL(PRESSURE), REAL(GRADIENT), &c->index);
}

static uint64_t coefficients(struct call *c)
{
    return juvandeer_pressure_face_coefficients(
        c->counts, WHOLE(ADJACENCY), REAL(GEOMETRY), REAL(PLACES), c->number[RESPONSES],
        REAL(RESPONSES), REAL(COEFFICIENTS), &c->index);
}

static uint64_t boundary(struct call *c)
{
    return juvandeer_pressure_face_coefficients_with_boundary(
        c->counts, WHOLE(ADJACENCY), REAL(GEOMETRY), REAL(PLACES), c->number[CODES], WHOLE(CODES),
        REAL(VALUES), c->number[RESPONSES], REAL(RESPONSES), REAL(COEFFICIENTS), &c->index);
}

static uint64_t prediction(struct call *c)
{
    return juvandeer_rhie_chow_predicted_flux(
        c->counts, WHOLE(ADJACENCY), REAL(GEOMETRY), REAL(PLACES), c->number[STARTS], c->records,
        WHOLE(STARTS), WHOLE(EQUATIONS), REAL(WEIGHTS), REAL(INVERSES), c->number[VELOCITY],
        REAL(VELOCITY), c->number[PRESSURE], REAL(PRESSURE), c->number[RESPONSES], REAL(RESPONSES),
        c->number[WALLS], REAL(WALLS), REAL(GRADIENT), REAL(PREDICTED), &c->index);
}

static uint64_t correction(struct call *c)
{
    return juvandeer_correct_face_flux_with_boundary(
        c->counts, WHOLE(ADJACENCY), c->number[CODES], WHOLE(CODES), REAL(VALUES),
        c->number[PREDICTED], REAL(PREDICTED), c->number[COEFFICIENTS], REAL(COEFFICIENTS),
        c->number[CORRECTION], REAL(CORRECTION), REAL(FLUX), &c->index);
}

static uint64_t in_place(struct call *c)
{
    return juvandeer_correct_face_flux_in_place(
        c->counts, WHOLE(ADJACENCY), c->number[CODES], WHOLE(CODES), REAL(VALUES),
        c->number[COEFFICIENTS], REAL(COEFFICIENTS), c->number[CORRECTION], REAL(CORRECTION),
        c->number[PREDICTED], REAL(PREDICTED), &c->index);
}

static uint64_t velocity(struct call *c)
{
    return juvandeer_correct_cell_velocity_from_gradient(
        c->counts, c->number[VELOCITY], REAL(VELOCITY), c->number[RESPONSES], REAL(RESPONSES),
        c->number[GRADIENT], REAL(GRADIENT), REAL(CORRECTED), &c->index);
}

static uint64_t outflow(struct call *c)
{
    return juvandeer_integrated_divergence(
        c->counts, WHOLE(ADJACENCY), c->number[FLUX], REAL(FLUX), REAL(OUTFLOW), &c->index);
}

static uint64_t metrics(struct call *c)
{
    return juvandeer_continuity_metrics(
        c->counts, WHOLE(ADJACENCY), REAL(PLACES), c->number[FLUX], REAL(FLUX), REAL(OUTFLOW),
        REAL(METRICS), &c->index);
}

static uint64_t step(struct call *c)
{
    return juvandeer_step(
        c->counts, WHOLE(ADJACENCY), REAL(GEOMETRY), WHOLE(HEADS), REAL(PLACES), WHOLE(FACING),
        WHOLE(BORDERING), c->number[CODES], WHOLE(CODES), REAL(VALUES), c->records,
        c->number[VELOCITY], REAL(VELOCITY), c->number[PRESSURE], REAL(PRESSURE),
        c->number[RESPONSES], REAL(RESPONSES), c->number[WALLS], REAL(WALLS), c->number[CORRECTION],
        REAL(CORRECTION), WHOLE(STARTS), WHOLE(EQUATIONS), REAL(WEIGHTS), REAL(INVERSES),
        REAL(GRADIENT), REAL(PREDICTED), REAL(COEFFICIENTS), REAL(FLUX), REAL(OUTFLOW),
        REAL(METRICS), &c->index);
}

static uint64_t from_faces(struct call *c)
{
    return juvandeer_gauss_gradient_from_faces(
        c->counts, WHOLE(ADJACENCY), REAL(GEOMETRY), REAL(PLACES), c->number[FACE_VALUES],
        REAL(FACE_VALUES), REAL(GRADIENT), &c->index);
}

static uint64_t pressure(struct call *c)
{
    return juvandeer_pressure_coupling_gradient(
        c->counts, WHOLE(ADJACENCY), REAL(GEOMETRY), REAL(PLACES), c->number[CODES], WHOLE(CODES),
        REAL(VALUES), c->number[PRESSURE], REAL(PRESSURE), REAL(GRADIENT), &c->index);
}

static uint64_t pressure_alone(struct call *c)
{
    return juvandeer_pressure_coupling_gradient_without_conditions(
        c->counts, WHOLE(ADJACENCY), REAL(GEOMETRY), REAL(PLACES), c->number[PRESSURE],
        REAL(PRESSURE), REAL(GRADIENT), &c->index);
}

static uint64_t distances(struct call *c)
{
    return juvandeer_face_distances(
        c->counts, WHOLE(ADJACENCY), REAL(PLACES), c->number[CODES], WHOLE(CODES), REAL(GEOMETRY),
        &c->index);
}

const struct entry entries[ENTRIES] = {
    {"momentum_inverse_diagonal", diagonal, {RESPONSES, PARTS}, 1, 0},
    {"least_squares_stencil", stencil, {STARTS, EQUATIONS, WEIGHTS, INVERSES, PARTS}, 1, 0},
    {"least_squares_gradient", gradient, {GRADIENT, PARTS}, 0, 0},
    {"pressure_face_coefficients", coefficients, {COEFFICIENTS, PARTS}, 1, 0},
    {"pressure_face_coefficients_with_boundary", boundary, {COEFFICIENTS, PARTS}, 1, 0},
    {"rhie_chow_predicted_flux", prediction, {GRADIENT, PREDICTED, PARTS}, 1, 0},
    {"correct_face_flux_with_boundary", correction, {FLUX, PARTS}, 1, 0},
    {"correct_face_flux_in_place", in_place, {PREDICTED, PARTS}, 1, 1},
    {"correct_cell_velocity_from_gradient", velocity, {CORRECTED, PARTS}, 1, 0},
    {"integrated_divergence", outflow, {OUTFLOW, PARTS}, 0, 0},
    {"continuity_metrics", metrics, {OUTFLOW, METRICS, PARTS}, 1, 0},
    {"step", step, {STARTS, EQUATIONS, WEIGHTS, INVERSES, GRADIENT, PREDICTED, COEFFICIENTS, FLUX,
        OUTFLOW, METRICS, PARTS}, 1, 0},
    {"gauss_gradient_from_faces", from_faces, {GRADIENT, PARTS}, 1, 0},
    {"pressure_coupling_gradient", pressure, {GRADIENT, PARTS}, 1, 0},
    {"pressure_coupling_gradient_without_conditions", pressure_alone, {GRADIENT, PARTS}, 1, 0},
    {"face_distances", distances, {GEOMETRY, PARTS}, 0, 1}
};
