/* The functions of Juvandeer for C99, C11 and C++; link them from target/staticlib/libcapi.a, which
 * `tools/archive` makes for x86-64.
 *
 * What is asked of a caller, and nothing else:
 *
 * - A pointer and the length after it are a slice: so many numbers of its type stand there, aligned.
 *   Where the length is 0 nothing is read or written there, and the pointer may be null.
 * - `index` points to a size_t.
 * - No output shares memory with another output or with an input; `index` is an output. Inputs may
 *   share memory with each other. No other thread writes what is lent, or touches an output, during
 *   the call.
 * - The floating-point environment is the default: round to nearest, no flush to zero, no
 *   denormals-are-zero. juvandeer_environment_is_default() finds out.
 * - The stack has room. Nothing is allocated: a call that can give 14 counts the faces of each cell on the
 *   stack, in 64 KiB of it whatever the number of cells; every call uses a few KiB besides.
 *
 * Everything else is tested: counts, mesh numbers, indices and chains may be anything, and a slice may
 * be longer or shorter than it is due. What outputs hold before a call does not matter, but for the flux
 * of juvandeer_correct_face_flux_in_place, which is read too, and the geometry of
 * juvandeer_face_distances, of which two numbers a face are written.
 *
 * A mesh is lent as counts and slices. Faces and cells count from 0; records count from 1, and a next
 * record of 0 ends a chain.
 *
 *   slice      type    numbers in all          one record
 *   adjacency  size_t  2 x faces               owner, neighbour + 1 (0: none)
 *   geometry   double  11 x faces              centre 3, area vector 3, normal 3, own distance, other
 *                                              distance
 *   heads      size_t  2 x cells               first face record, first neighbour record
 *   places     double  4 x cells               centre 3, volume
 *   facing     size_t  2 x face records        face, next
 *   bordering  size_t  2 x neighbour records   cell, next
 *   codes      size_t  2 x faces               condition, linked face + 1 (0: none)
 *   values     double  4 x faces               fixed value, translation 3 of the link
 *   starts     size_t  1 x cells               first equation record
 *   equations  size_t  2 x records             source, next
 *   weights    double  4 x records             coefficient 3, fixed value
 *   inverses   double  9 x cells               inverse of the normal matrix, row by row
 *
 * A face's own distance is from its centre to that of its owner. Its other distance is, of a face with two
 * cells, from its centre to that of the neighbour; of a face with one cell and a link, the linked face's
 * own distance, from the linked face's centre to that of the linked face's owner, so that no translation
 * bears on it; of any other face +0.0. A distance is juvandeer_sqrt of (x * x + y * y) + z * z, where x, y
 * and z are the face's centre less the cell's. juvandeer_face_distances makes both, by the places of the
 * cells and the links that it is lent: a mesh that is lent with other links has other distances.
 *
 * A condition is 0 for absent, 1 for a fixed value, 2 for zero gradient. An equation's source is 0 for
 * a zero normal derivative, 1 for a fixed value, cell + 2 for a neighbour. Codes and values are the
 * conditions; starts, equations, weights and inverses are a stencil with room for `records` equations.
 *
 * A number that stands before slices is their mesh number and must be counts.mesh: `number` before
 * conditions, a field or a flux, `stencil` before a stencil, `velocity` before velocities, and so on.
 */
#ifndef JUVANDEER_H
#define JUVANDEER_H

#include <float.h>
#include <stddef.h>
#include <stdint.h>

#if SIZE_MAX != UINT64_MAX
#error "the library is for a size_t of 64 bits"
#endif

#ifdef __cplusplus
extern "C" {
#endif

/* The mesh's number, its dimension (2 or 3), and how many of each it has: at least one cell, and at
 * most 65,535 of any. A cell has at most 26 faces. */
struct juvandeer_counts {
    uint64_t mesh;
    size_t dimension;
    size_t cells;
    size_t faces;
    size_t face_records;
    size_t neighbour_records;
};

/* What a call returns, and what `*index` then is. An accepted call leaves 0 in `*index`.
 * juvandeer_refusal_sentence makes a sentence of the two.
 *
 * 1, 2, 3 (shape) and 4, 5, 14, 6, 20 (mesh) are tested first, in this order, each by the calls that are
 * lent what it looks at, and leave every output untouched. The others are met within arithmetic, in its
 * own order, and leave +0.0, in whole numbers 0, in every output. 1 can be either: where a stencil needs
 * more than `records` equations it is 1 with index 0 within arithmetic, and the outputs are cleared. */
enum juvandeer_answer {
    JUVANDEER_ACCEPTED = 0,
    /* no cell, more than 65,535 of a count or of records, or a dimension not 2 or 3; index 0 */
    JUVANDEER_COUNTS = 1,
    /* the length of a slice, lent or handed out, is not its count; index 0 */
    JUVANDEER_LENGTH = 2,
    /* a mesh number is not that of the counts; index 0 */
    JUVANDEER_MESH_MISMATCH = 3,
    /* owner or neighbour is no cell, neighbour is the owner, or the condition is unknown; lowest face */
    JUVANDEER_FACE = 4,
    /* a chain names a missing record, face or cell, or does not end; lowest cell */
    JUVANDEER_CHAIN = 5,
    /* a link on a face with two cells, to itself, to no face, or not linked back; lowest face */
    JUVANDEER_LINK = 6,
    /* centres, or a centre and a face, too near or not finitely far apart; face */
    JUVANDEER_DEGENERATE_DISTANCE = 7,
    /* the normal matrix of a cell has no inverse; cell */
    JUVANDEER_SINGULAR_LEAST_SQUARES_STENCIL = 8,
    /* a coefficient that is not finite or at most 0, a flux that is not finite; face. A metric or an
     * outflow that is not finite; index 0 */
    JUVANDEER_INVALID_PRESSURE_FACE_COEFFICIENT = 9,
    /* a face with one cell and no link has no condition; face */
    JUVANDEER_MISSING_BOUNDARY_CONDITION = 10,
    /* a diagonal or a response that is not finite or at most 0, or a velocity not finite; cell */
    JUVANDEER_INVALID_MOMENTUM_DIAGONAL = 11,
    /* a volume at most 0 or, but for the gradients by Gauss, not finite; cell */
    JUVANDEER_INVALID_CELL_MEASURE = 12,
    /* more than 26 faces name a cell, or its chain has more than 26 face records; lowest cell */
    JUVANDEER_CROWDED_CELL = 14,
    /* the own or the other distance of a face is not, bit for bit, what juvandeer_face_distances makes;
     * any NaN agrees with any NaN. A call that is lent no links does not look at the other distance of a
     * face with one cell; lowest face */
    JUVANDEER_WRONG_DISTANCE = 20
};

/* Whether sums round to nearest, ties to even, and subnormals are neither flushed nor read as zero:
 * 1 or 0, by arithmetic in the environment of the caller's thread. */
static inline int juvandeer_environment_is_default(void)
{
    volatile double one = 1.0, tie = DBL_EPSILON / 2, above = DBL_EPSILON * 0.75;
    volatile double normal = DBL_MIN, half = 0.5, least = 4.9406564584124654e-324, large = DBL_MAX;
    volatile double stays = one + tie, next = one + above;
    volatile double subnormal = normal * half, product = least * large;
    return stays == 1.0 && next == 1.0 + DBL_EPSILON && subnormal > 0.0 && product > 0.0;
}

/* The float nearest to the square root of x, as IEEE 754 has it. Never refuses. */
double juvandeer_sqrt(double x);

/* The bytes of the longest sentence. */
enum { JUVANDEER_SENTENCE_LONGEST = 41 };

/* The sentence of a refusal, for a learner to read: a phrase for its number, ` at `, the index in decimal
 * and a full stop, in ASCII, without a line end or a NUL: `bad link at 7.` docs/REFUSALS.md says of each
 * what is wrong and what to do.
 *
 *   in   number and index of a refusal
 *   out  out, of any length: the sentence at its start where all of it fits, and the bytes after it as
 *        they were; else untouched
 *
 * Returns the bytes that the sentence needs, also where out has fewer; they are at most
 * JUVANDEER_SENTENCE_LONGEST. A number that is no refusal's, as 0, has no sentence and needs 0. Never
 * refuses.
 *
 * Proved of any two refusals: where number or index differ, so do the sentences. */
size_t juvandeer_refusal_sentence(uint64_t number, size_t index, uint8_t *out, size_t out_len);

/* Makes the own and the other distance of each face. Whatever builds a mesh calls it last, once the centres
 * of faces and cells, the cells of each face and the links are in place, and again where one of them
 * changes: the calls that are lent the geometry refuse distances that are not these by 20.
 *
 *   in      adjacency 2 x faces, places 4 x cells; number before codes 2 x faces
 *   in out  geometry 11 x faces: of each face the two distances are written, whatever they were, and the
 *           nine numbers before them keep every bit
 *
 * Refusals: 1 to 4, 14 and 6, geometry as it was. None by arithmetic: a distance may be infinite or a
 * NaN.
 *
 * Proved of every accepted call: what it leaves passes 20, with these links and in calls that are lent
 * none. */
uint64_t juvandeer_face_distances(
    struct juvandeer_counts counts,
    const size_t *adjacency, size_t adjacency_len,
    const double *places, size_t places_len,
    uint64_t number,
    const size_t *codes, size_t codes_len,
    double *geometry, size_t geometry_len,
    size_t *index);

/* Builds the least-squares stencil of each cell from its faces and neighbours: the equations, and the
 * inverse of their normal matrix. It is the stencil that juvandeer_least_squares_gradient takes.
 *
 *   in   adjacency 2 x faces, geometry 11 x faces, heads 2 x cells, places 4 x cells,
 *        facing 2 x face records, bordering 2 x neighbour records;
 *        number before codes 2 x faces and values 4 x faces; records, the room for equations
 *   out  starts 1 x cells, equations 2 x records, weights 4 x records, inverses 9 x cells
 *
 * Refusals: 1 to 5, 14, 6 and 20, outputs untouched; 7 and 10 at a face, 8 at a cell, and 1 where the
 * equations need more than records, outputs +0.0 and 0. Records that are not used are 0. */
uint64_t juvandeer_least_squares_stencil(
    struct juvandeer_counts counts,
    const size_t *adjacency, size_t adjacency_len,
    const double *geometry, size_t geometry_len,
    const size_t *heads, size_t heads_len,
    const double *places, size_t places_len,
    const size_t *facing, size_t facing_len,
    const size_t *bordering, size_t bordering_len,
    uint64_t number,
    const size_t *codes, size_t codes_len,
    const double *values, size_t values_len,
    size_t records,
    size_t *starts, size_t starts_len,
    size_t *equations, size_t equations_len,
    double *weights, size_t weights_len,
    double *inverses, size_t inverses_len,
    size_t *index);

/* The gradient of a field in each cell, from a stencil.
 *
 *   in   stencil before starts 1 x cells, equations 2 x records, weights 4 x records and
 *        inverses 9 x cells; number before field 1 x cells
 *   out  out 3 x cells
 *
 * Refusals: 1, 2, 3 and 5, output untouched. None by arithmetic. */
uint64_t juvandeer_least_squares_gradient(
    struct juvandeer_counts counts,
    uint64_t stencil,
    size_t records,
    const size_t *starts, size_t starts_len,
    const size_t *equations, size_t equations_len,
    const double *weights, size_t weights_len,
    const double *inverses, size_t inverses_len,
    uint64_t number,
    const double *field, size_t field_len,
    double *out, size_t out_len,
    size_t *index);

/* The outflow of each cell: each face's flux, in face order, added to its owner's and taken from its
 * neighbour's.
 *
 *   in   adjacency 2 x faces; number before flux 1 x faces
 *   out  out 1 x cells
 *
 * Refusals: 1 to 4 and 14, output untouched. None by arithmetic. */
uint64_t juvandeer_integrated_divergence(
    struct juvandeer_counts counts,
    const size_t *adjacency, size_t adjacency_len,
    uint64_t number,
    const double *flux, size_t flux_len,
    double *out, size_t out_len,
    size_t *index);

/* The gradient of each cell by Gauss, from the values of the faces: area vector x value of each face, in face
 * order from +0.0, added to its owner's sum and taken from its neighbour's; then each sum over its cell's
 * volume. Nothing has to be finite: a gradient may be infinite or a NaN.
 *
 *   in   adjacency 2 x faces, geometry 11 x faces, places 4 x cells; number before values 1 x faces
 *   out  out 3 x cells: x, y and z of a cell, then those of the next, so that an array of a struct of three
 *        doubles may be handed out
 *
 * Refusals: 1 to 4, 14 and 20, output untouched; 12 at the lowest cell whose volume is <= 0, so that a NaN
 * and +infinity pass, output +0.0. No links are lent: 20 looks at every own distance, and at the other of
 * each face with two cells. */
uint64_t juvandeer_gauss_gradient_from_faces(
    struct juvandeer_counts counts,
    const size_t *adjacency, size_t adjacency_len,
    const double *geometry, size_t geometry_len,
    const double *places, size_t places_len,
    uint64_t number,
    const double *values, size_t values_len,
    double *out, size_t out_len,
    size_t *index);

/* The same of a pressure, whose value at a face is
 *
 *   with two cells       (b x owner's + a x neighbour's) / (a + b), where a and b are its own and its other
 *                        distance
 *   with a link          the same with the pressure of the linked face's owner, and b the distance to its
 *                        image, from the face's centre to that owner's centre less the translation
 *   with a fixed value   that value
 *   that is left         its owner's + 0.0
 *
 * A link is looked at before the condition, and an absent condition is no refusal. Where a + b is 0, the
 * value is what the division gives.
 *
 *   in   adjacency 2 x faces, geometry 11 x faces, places 4 x cells; number before codes 2 x faces and
 *        values 4 x faces; pressure before pressures 1 x cells
 *   out  out 3 x cells, as above
 *
 * Refusals: 1 to 4, 14, 6 and 20, output untouched; 12 as above, output +0.0. */
uint64_t juvandeer_pressure_coupling_gradient(
    struct juvandeer_counts counts,
    const size_t *adjacency, size_t adjacency_len,
    const double *geometry, size_t geometry_len,
    const double *places, size_t places_len,
    uint64_t number,
    const size_t *codes, size_t codes_len,
    const double *values, size_t values_len,
    uint64_t pressure,
    const double *pressures, size_t pressures_len,
    double *out, size_t out_len,
    size_t *index);

/* The same without conditions and links: a face with one cell has its owner's pressure + 0.0.
 *
 *   in   adjacency 2 x faces, geometry 11 x faces, places 4 x cells; pressure before pressures 1 x cells
 *   out  out 3 x cells, as above
 *
 * Refusals: 1 to 4, 14 and 20, output untouched; 12 as above, output +0.0. 20 looks at every own distance,
 * and at the other of each face with two cells. */
uint64_t juvandeer_pressure_coupling_gradient_without_conditions(
    struct juvandeer_counts counts,
    const size_t *adjacency, size_t adjacency_len,
    const double *geometry, size_t geometry_len,
    const double *places, size_t places_len,
    uint64_t pressure,
    const double *pressures, size_t pressures_len,
    double *out, size_t out_len,
    size_t *index);

/* The response of each cell: 1 over its momentum diagonal. An infinite quotient is accepted.
 *
 *   in   diagonal 1 x cells; no mesh number
 *   out  out 1 x cells
 *
 * Refusals: 1 and 2, output untouched; 11 at the lowest cell, output +0.0. */
uint64_t juvandeer_momentum_inverse_diagonal(
    struct juvandeer_counts counts,
    const double *diagonal, size_t diagonal_len,
    double *out, size_t out_len,
    size_t *index);

/* The pressure coefficient of each face with two cells: the response at the face times the area
 * projected onto the line of centres, over its length. +0.0 at the other faces.
 *
 *   in   adjacency 2 x faces, geometry 11 x faces, places 4 x cells; response before
 *        responses 1 x cells
 *   out  out 1 x faces
 *
 * Refusals: 1 to 4, 14 and 20, output untouched; 7 and 9 at a face, output +0.0. No links are lent: 20
 * looks at every own distance, and at the other of each face with two cells. */
uint64_t juvandeer_pressure_face_coefficients(
    struct juvandeer_counts counts,
    const size_t *adjacency, size_t adjacency_len,
    const double *geometry, size_t geometry_len,
    const double *places, size_t places_len,
    uint64_t response,
    const double *responses, size_t responses_len,
    double *out, size_t out_len,
    size_t *index);

/* The same, and the coefficient of each face with a link or a fixed value. A link is looked at before
 * the condition; +0.0 at the faces that are left.
 *
 *   in   adjacency 2 x faces, geometry 11 x faces, places 4 x cells; number before codes 2 x faces and
 *        values 4 x faces; response before responses 1 x cells
 *   out  out 1 x faces
 *
 * Refusals: 1 to 4, 14, 6 and 20, output untouched; 7 and 9 at a face with two cells, then 9 at any
 * other, output +0.0. */
uint64_t juvandeer_pressure_face_coefficients_with_boundary(
    struct juvandeer_counts counts,
    const size_t *adjacency, size_t adjacency_len,
    const double *geometry, size_t geometry_len,
    const double *places, size_t places_len,
    uint64_t number,
    const size_t *codes, size_t codes_len,
    const double *values, size_t values_len,
    uint64_t response,
    const double *responses, size_t responses_len,
    double *out, size_t out_len,
    size_t *index);

/* The gradient of the pressure from the stencil, and the flux predicted with it: of a face with two
 * cells that of Rhie and Chow, of any other the wall flux as lent, with a link too. juvandeer_step
 * predicts its linked faces besides.
 *
 *   in   adjacency 2 x faces, geometry 11 x faces, places 4 x cells; stencil before starts 1 x cells,
 *        equations 2 x records, weights 4 x records and inverses 9 x cells; velocity before
 *        velocities 3 x cells; pressure before pressures 1 x cells; response before
 *        responses 1 x cells; wall before walls 1 x faces
 *   out  gradient 3 x cells, out 1 x faces
 *
 * Refusals: 1 to 5, 14 and 20, outputs untouched; 7 and 9 of a coefficient, then 9 of a flux, at a face,
 * outputs +0.0. No links are lent: 20 looks at every own distance, and at the other of each face with two
 * cells. */
uint64_t juvandeer_rhie_chow_predicted_flux(
    struct juvandeer_counts counts,
    const size_t *adjacency, size_t adjacency_len,
    const double *geometry, size_t geometry_len,
    const double *places, size_t places_len,
    uint64_t stencil,
    size_t records,
    const size_t *starts, size_t starts_len,
    const size_t *equations, size_t equations_len,
    const double *weights, size_t weights_len,
    const double *inverses, size_t inverses_len,
    uint64_t velocity,
    const double *velocities, size_t velocities_len,
    uint64_t pressure,
    const double *pressures, size_t pressures_len,
    uint64_t response,
    const double *responses, size_t responses_len,
    uint64_t wall,
    const double *walls, size_t walls_len,
    double *gradient, size_t gradient_len,
    double *out, size_t out_len,
    size_t *index);

/* The corrected flux of each face: predicted - coefficient x (other - owner), where other is the
 * correction of the neighbour or of the linked cell, or the fixed value. A face with one cell, no link
 * and a zero gradient keeps its flux.
 *
 *   in   adjacency 2 x faces; number before codes 2 x faces and values 4 x faces; prediction before
 *        predicted 1 x faces; coefficient before coefficients 1 x faces; correction before
 *        corrections 1 x cells
 *   out  out 1 x faces
 *
 * Refusals: 1 to 4, 14 and 6, output untouched; 9 and 10 at a face, output +0.0. */
uint64_t juvandeer_correct_face_flux_with_boundary(
    struct juvandeer_counts counts,
    const size_t *adjacency, size_t adjacency_len,
    uint64_t number,
    const size_t *codes, size_t codes_len,
    const double *values, size_t values_len,
    uint64_t prediction,
    const double *predicted, size_t predicted_len,
    uint64_t coefficient,
    const double *coefficients, size_t coefficients_len,
    uint64_t correction,
    const double *corrections, size_t corrections_len,
    double *out, size_t out_len,
    size_t *index);

/* The same in one slice: flux holds the predicted flux before the call and the corrected flux after it,
 * read and written. Answer, refusals and fluxes are bit for bit those of the function above, save that
 * what that leaves untouched is here the predicted flux.
 *
 *   in      adjacency 2 x faces; number before codes 2 x faces and values 4 x faces; coefficient before
 *           coefficients 1 x faces; correction before corrections 1 x cells
 *   in out  prediction before flux 1 x faces
 *
 * Refusals: 1 to 4, 14 and 6, flux as it was; 9 and 10 at a face, flux +0.0 throughout, the predicted
 * flux lost. */
uint64_t juvandeer_correct_face_flux_in_place(
    struct juvandeer_counts counts,
    const size_t *adjacency, size_t adjacency_len,
    uint64_t number,
    const size_t *codes, size_t codes_len,
    const double *values, size_t values_len,
    uint64_t coefficient,
    const double *coefficients, size_t coefficients_len,
    uint64_t correction,
    const double *corrections, size_t corrections_len,
    uint64_t prediction,
    double *flux, size_t flux_len,
    size_t *index);

/* The corrected velocity of each cell: velocity - response x gradient.
 *
 *   in   velocity before velocities 3 x cells; response before responses 1 x cells; gradient before
 *        gradients 3 x cells
 *   out  out 3 x cells
 *
 * Refusals: 1, 2 and 3, output untouched; 11 at the lowest cell, output +0.0. */
uint64_t juvandeer_correct_cell_velocity_from_gradient(
    struct juvandeer_counts counts,
    uint64_t velocity,
    const double *velocities, size_t velocities_len,
    uint64_t response,
    const double *responses, size_t responses_len,
    uint64_t gradient,
    const double *gradients, size_t gradients_len,
    double *out, size_t out_len,
    size_t *index);

/* The outflow of each cell, and two metrics: the root mean square of the outflows, and the largest
 * magnitude of an outflow over its cell's volume.
 *
 *   in   adjacency 2 x faces, places 4 x cells; number before flux 1 x faces
 *   out  outflow 1 x cells, metrics 2
 *
 * Refusals: 1 to 4 and 14, outputs untouched; 9 with index 0, 12 at a cell, outputs +0.0. */
uint64_t juvandeer_continuity_metrics(
    struct juvandeer_counts counts,
    const size_t *adjacency, size_t adjacency_len,
    const double *places, size_t places_len,
    uint64_t number,
    const double *flux, size_t flux_len,
    double *outflow, size_t outflow_len,
    double *metrics, size_t metrics_len,
    size_t *index);

/* The coupling step: stencil, predicted flux, coefficients with boundary, predicted flux of the linked
 * faces, corrected flux, outflow and metrics, with one set of conditions; all but the fourth as the
 * functions above give them. The first refusal is its own.
 *
 * A linked face is predicted as if it had two cells: the other is the owner of the face that it is linked
 * to, its centre less the translation. The coefficient is the face's own, with boundary. Of two faces that
 * are linked the lower keeps this flux, and the higher has the lower's negated in place of its own. The
 * wall flux counts at faces with one cell and no link; at any other face it is not read.
 *
 *   in   adjacency 2 x faces, geometry 11 x faces, heads 2 x cells, places 4 x cells,
 *        facing 2 x face records, bordering 2 x neighbour records; number before codes 2 x faces and
 *        values 4 x faces; records, the room for equations; velocity before velocities 3 x cells;
 *        pressure before pressures 1 x cells; response before responses 1 x cells; wall before
 *        walls 1 x faces; correction before corrections 1 x cells
 *   out  starts 1 x cells, equations 2 x records, weights 4 x records, inverses 9 x cells,
 *        gradient 3 x cells, predicted 1 x faces, coefficients 1 x faces, flux 1 x faces,
 *        outflow 1 x cells, metrics 2
 *
 * Refusals: 1 to 5, 14, 6 and 20, outputs untouched; 7 to 10 and 12, and 1 where the equations need more
 * than records, outputs +0.0 and 0. After the coefficients and before the correction it is 9 at the lowest
 * linked face whose own flux, before any is negated, is not finite. 9 has index 0 where a metric or an
 * outflow is not finite.
 *
 * Proved of every accepted step: fluxes and outflows are finite, each outflow is within
 * (n - 1) x 2^-53 x (sum of magnitudes) of the exact sum of its cell's n fluxes, and together they
 * equal the flux through the faces with one cell within the sum of these bounds. n is at most 26, so
 * both hold with 25 for n - 1 too. A face with one cell, no link and a zero gradient keeps its wall flux.
 * Of two linked faces the higher has exactly the lower's predicted flux negated; where their coefficients
 * are equal, their corrected fluxes are opposite, a zero's sign aside. docs/BALANCE.md says what may be
 * quoted. */
uint64_t juvandeer_step(
    struct juvandeer_counts counts,
    const size_t *adjacency, size_t adjacency_len,
    const double *geometry, size_t geometry_len,
    const size_t *heads, size_t heads_len,
    const double *places, size_t places_len,
    const size_t *facing, size_t facing_len,
    const size_t *bordering, size_t bordering_len,
    uint64_t number,
    const size_t *codes, size_t codes_len,
    const double *values, size_t values_len,
    size_t records,
    uint64_t velocity,
    const double *velocities, size_t velocities_len,
    uint64_t pressure,
    const double *pressures, size_t pressures_len,
    uint64_t response,
    const double *responses, size_t responses_len,
    uint64_t wall,
    const double *walls, size_t walls_len,
    uint64_t correction,
    const double *corrections, size_t corrections_len,
    size_t *starts, size_t starts_len,
    size_t *equations, size_t equations_len,
    double *weights, size_t weights_len,
    double *inverses, size_t inverses_len,
    double *gradient, size_t gradient_len,
    double *predicted, size_t predicted_len,
    double *coefficients, size_t coefficients_len,
    double *flux, size_t flux_len,
    double *outflow, size_t outflow_len,
    double *metrics, size_t metrics_len,
    size_t *index);

#ifdef __cplusplus
}
#endif

#endif
