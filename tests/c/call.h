/* What is lent to a function and handed out by it, and the changes that cases make to it. The base is
 * that of crates/edges/src/case.rt and of crates/oneslice: two unit squares side by side. */
#ifndef CALL_H
#define CALL_H

#include "juvandeer.h"

/* The slices, as crates/edges names them. */
enum part {
    ADJACENCY, GEOMETRY, HEADS, PLACES, FACING, BORDERING, CODES, VALUES, STARTS, EQUATIONS, WEIGHTS,
    INVERSES, DIAGONAL, RESPONSES, PRESSURE, VELOCITY, GRADIENT, WALLS, PREDICTED, COEFFICIENTS,
    CORRECTION, FLUX, OUTFLOW, METRICS, CORRECTED, FACE_VALUES, PARTS
};

/* Enough for the geometry of 32 faces. */
#define ROOM 352

/* A slice is the first numbers of its row, `whole` or `real` by its type. */
struct call {
    struct juvandeer_counts counts;
    size_t records;
    size_t length[PARTS];
    uint64_t number[PARTS];
    size_t whole[PARTS][ROOM];
    double real[PARTS][ROOM];
    size_t index;
};

/* A function of the library: what makes the call, its outputs up to PARTS, whether it can refuse by
 * arithmetic, and whether it reads its output too and writes over it. */
struct entry {
    const char *name;
    uint64_t (*make)(struct call *call);
    enum part outputs[11];
    int clears, over;
};

/* The first have stored lines, in crates/edges and crates/oneslice up to the gradients by Gauss, whose lines
 * stand in crates/gradients; juvandeer_face_distances, the last, has none. */
enum { GAUSS_GRADIENT_FROM_FACES = 12, STORED = 15, FACE_DISTANCES = STORED, ENTRIES };

extern const struct entry entries[ENTRIES];

int is_whole(enum part part);

/* The bits of number i of a slice; of every NaN 7ff8000000000000. */
uint64_t bits_at(const struct call *call, enum part part, size_t i);

/* The base, with the outputs of the entry filled, but for one that it reads too. */
void lend(struct call *call, const struct entry *entry);

/* Makes the distances of every face; 0 where they are refused. */
int make_distances(struct call *call);

/* Makes the change of that name, and where a centre may be another the distances; 0 where there is none, or
 * where the distances are refused. */
int change(struct call *call, const char *entry, const char *name);

/* The mesh of crates/gradients in place of the base, with the change of that name there; 0 where there is
 * none, or where its distances are refused. */
int lend_gradient(struct call *call, const struct entry *entry, const char *name);

/* The same of crates/pairs. */
int lend_pair(struct call *call, const struct entry *entry, const char *name);

#endif
