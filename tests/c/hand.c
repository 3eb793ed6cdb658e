/* Calls whose answers follow from documents 01 and 02, and the roots of the stored list. */
#include "call.h"
#include "judge.h"
#include "report.h"

#include <inttypes.h>
#include <stdio.h>
#include <string.h>

static uint64_t bits_of(double x)
{
    uint64_t bits;
    if (x != x)
        return UINT64_C(0x7ff8000000000000);
    memcpy(&bits, &x, sizeof bits);
    return bits;
}

void judge_root(char *line)
{
    uint64_t of, expected, root;
    double x;
    char more;
    if (sscanf(line, "%" SCNx64 " %" SCNx64 "%c", &of, &expected, &more) != 2)
        fail("no line of a root: %s", line);
    memcpy(&x, &of, sizeof x);
    root = bits_of(juvandeer_sqrt(x));
    if (root != expected)
        fail("sqrt of %016" PRIx64 " is %016" PRIx64 ", expected %016" PRIx64, of, root, expected);
    passed++;
}

/* One count is one more than the mesh has; what the diagonal, the outflow and the stencil answer tells
 * which count of the library it is. In three dimensions a flat stencil is singular. */
static const struct {
    const char *name;
    struct juvandeer_counts more;
    uint64_t answers[3];
} one_more[] = {
    {"another mesh", {.mesh = 1}, {0, 3, 3}},
    {"one dimension more", {.dimension = 1}, {0, 0, 8}},
    {"one cell more", {.cells = 1}, {2, 2, 2}},
    {"one face more", {.faces = 1}, {0, 2, 2}},
    {"one face record more", {.face_records = 1}, {0, 0, 2}},
    {"one neighbour record more", {.neighbour_records = 1}, {0, 0, 2}}
};

static void add(struct juvandeer_counts *counts, const struct juvandeer_counts *more)
{
    counts->mesh += more->mesh;
    counts->dimension += more->dimension;
    counts->cells += more->cells;
    counts->faces += more->faces;
    counts->face_records += more->face_records;
    counts->neighbour_records += more->neighbour_records;
}

static const struct entry *named(const char *name)
{
    const struct entry *entry = entries;
    while (strcmp(entry->name, name))
        entry++;
    return entry;
}

static void hold_answer(const struct entry *entry, struct call *call, uint64_t expected, const char *of)
{
    uint64_t answer = entry->make(call);
    if (answer != expected)
        fail("%s, %s: answer %" PRIu64 ", expected %" PRIu64, entry->name, of, answer, expected);
    passed++;
}

void judge_counts(void)
{
    static const char *const names[3] = {
        "momentum_inverse_diagonal", "integrated_divergence", "least_squares_stencil"
    };
    static struct call call;
    for (size_t i = 0; i < sizeof one_more / sizeof *one_more; i++)
        for (size_t k = 0; k < 3; k++) {
            const struct entry *entry = named(names[k]);
            lend(&call, entry);
            add(&call.counts, &one_more[i].more);
            hold_answer(entry, &call, one_more[i].answers[k], one_more[i].name);
        }
}

/* Of several bad links the lowest face is named, by every function that is lent links. Face 1 stays
 * linked with face 2; face 6 is linked with face 0, which has two cells, and faces 5 and 4 to themselves. */
void judge_links(void)
{
    static const char *const names[7] = {
        "least_squares_stencil", "pressure_face_coefficients_with_boundary",
        "correct_face_flux_with_boundary", "correct_face_flux_in_place", "step",
        "pressure_coupling_gradient", "face_distances"
    };
    static const struct {
        const char *name;
        size_t faces, face[4], peer[4], lowest;
    } rows[] = {
        {"faces 5 and 4 linked to themselves", 2, {5, 4}, {5, 4}, 4},
        {"faces 6 and 0 linked, face 5 to itself", 3, {6, 0, 5}, {0, 6, 5}, 0}
    };
    static struct call call;
    for (size_t i = 0; i < sizeof rows / sizeof *rows; i++)
        for (size_t k = 0; k < 7; k++) {
            const struct entry *entry = named(names[k]);
            lend(&call, entry);
            for (size_t f = 0; f < rows[i].faces; f++)
                call.whole[CODES][2 * rows[i].face[f] + 1] = rows[i].peer[f] + 1;
            hold_answer(entry, &call, 6, rows[i].name);
            if (call.index != rows[i].lowest)
                fail("%s, %s: face %zu, expected %zu", names[k], rows[i].name, call.index, rows[i].lowest);
        }
}

/* One record more of each kind, which no chain reaches, changes no answer. */
void judge_room(void)
{
    static struct call call;
    for (int e = 0; e < ENTRIES; e++) {
        lend(&call, &entries[e]);
        call.counts.face_records = 9;
        call.counts.neighbour_records = 3;
        call.records = 8;
        call.length[FACING] = 18;
        call.length[BORDERING] = 6;
        call.length[EQUATIONS] = 16;
        call.length[WEIGHTS] = 32;
        hold_answer(&entries[e], &call, 0, "records that no chain reaches");
    }
}

/* NaNs of both signs, quiet and signalling, with payloads, lent as the predicted flux of faces 4 and 5:
 * both have one cell, no link and a zero gradient, and keep every bit, whichever call corrects. So do all
 * where a check refuses the call that writes over them. */
void judge_payloads(void)
{
    static const uint64_t nans[4] = {
        UINT64_C(0x7ff8000000000abc), UINT64_C(0xfff8dead0000beef), UINT64_C(0x7ff0000000000001),
        UINT64_C(0xfff4000000000003)
    };
    static const struct {
        const char *name;
        enum part out;
    } rows[] = {{"correct_face_flux_with_boundary", FLUX}, {"correct_face_flux_in_place", PREDICTED}};
    static struct call call;
    for (size_t i = 0; i < 2; i++)
        for (size_t k = 0; k < 4; k++) {
            const struct entry *entry = named(rows[i].name);
            lend(&call, entry);
            memcpy(&call.real[PREDICTED][4], &nans[k], sizeof nans[k]);
            memcpy(&call.real[PREDICTED][5], &nans[3 - k], sizeof nans[k]);
            hold_answer(entry, &call, 0, "NaNs that are kept");
            if (memcmp(&call.real[rows[i].out][4], &nans[k], sizeof nans[k])
                || memcmp(&call.real[rows[i].out][5], &nans[3 - k], sizeof nans[k]))
                fail("%s: a kept NaN has other bits", rows[i].name);
        }
    const struct entry *entry = named("correct_face_flux_in_place");
    double before[ROOM];
    lend(&call, entry);
    for (size_t k = 0; k < ROOM; k++)
        memcpy(&call.real[PREDICTED][k], &nans[k % 4], sizeof nans[k % 4]);
    memcpy(before, call.real[PREDICTED], sizeof before);
    call.number[PREDICTED]++;
    hold_answer(entry, &call, 3, "NaNs of another mesh");
    if (memcmp(before, call.real[PREDICTED], sizeof before))
        fail("correct_face_flux_in_place: a flux that is left has other bits");
}

/* The gradient by Gauss of a cell without a face is +0.0. */
static void hold_no_face(const char *name, uint64_t answer, size_t *index, double gradient[3])
{
    if (answer || *index)
        fail("%s without a face: refused", name);
    for (size_t k = 0; k < 3; k++) {
        if (bits_of(gradient[k]))
            fail("%s without a face: number %zu is %016" PRIx64 ", expected 0", name, k,
                bits_of(gradient[k]));
        gradient[k] = 1.0;
    }
    *index = SIZE_MAX;
    passed++;
}

/* One cell and no face: slices of length 0 without a pointer, lent and handed out. */
void judge_null(void)
{
    const struct juvandeer_counts counts = {.mesh = 7, .dimension = 2, .cells = 1};
    const double places[4] = {0.5, 0.5, 0.0, 1.0}, response = 0.5;
    double out = 1.0;
    size_t index = SIZE_MAX;
    if (juvandeer_integrated_divergence(counts, NULL, 0, 7, NULL, 0, &out, 1, &index) || index)
        fail("outflow without a face: refused");
    if (bits_of(out))
        fail("outflow without a face: %016" PRIx64 ", expected 0", bits_of(out));
    passed++;
    index = SIZE_MAX;
    if (juvandeer_pressure_face_coefficients(
            counts, NULL, 0, NULL, 0, places, 4, 7, &response, 1, NULL, 0, &index)
        || index)
        fail("coefficients without a face: refused");
    passed++;
    index = SIZE_MAX;
    if (juvandeer_correct_face_flux_in_place(
            counts, NULL, 0, 7, NULL, 0, NULL, 0, 7, NULL, 0, 7, &response, 1, 7, NULL, 0, &index)
        || index)
        fail("a correction in one slice without a face: refused");
    passed++;
    index = SIZE_MAX;
    if (juvandeer_face_distances(counts, NULL, 0, places, 4, 7, NULL, 0, NULL, 0, &index) || index)
        fail("distances without a face: refused");
    passed++;
    double gradient[3] = {1.0, 1.0, 1.0};
    index = SIZE_MAX;
    uint64_t answer = juvandeer_gauss_gradient_from_faces(
        counts, NULL, 0, NULL, 0, places, 4, 7, NULL, 0, gradient, 3, &index);
    hold_no_face("gauss_gradient_from_faces", answer, &index, gradient);
    answer = juvandeer_pressure_coupling_gradient(
        counts, NULL, 0, NULL, 0, places, 4, 7, NULL, 0, NULL, 0, 7, &response, 1, gradient, 3, &index);
    hold_no_face("pressure_coupling_gradient", answer, &index, gradient);
    answer = juvandeer_pressure_coupling_gradient_without_conditions(
        counts, NULL, 0, NULL, 0, places, 4, 7, &response, 1, gradient, 3, &index);
    hold_no_face("pressure_coupling_gradient_without_conditions", answer, &index, gradient);
    if (juvandeer_gauss_gradient_from_faces(
            counts, NULL, 0, NULL, 0, NULL, 0, 7, NULL, 0, NULL, 0, &index) != JUVANDEER_LENGTH
        || index)
        fail("a gradient with no slice at all: not refused by 2");
    passed++;
}
