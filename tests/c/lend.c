/* The base: the numbers that every entry accepts, those of crates/edges/src/case.rt. A
 * predicted flux that is one longer ends as that of crates/oneslice/src/change.rt does. Face 0
 * joins cells 0 and 1; faces 1 and 2, to the left and to the right, are linked; faces 3 and 4 are below
 * and above cell 0, faces 5 and 6 below and above cell 1. The mesh's number is no count and no length, so
 * that it cannot be taken for one. */
#include "call.h"

#include <string.h>

static const struct juvandeer_counts counts = {
    .mesh = 70007, .dimension = 2, .cells = 2, .faces = 7, .face_records = 8, .neighbour_records = 2
};

static const size_t lengths[PARTS] = {
    [ADJACENCY] = 14, [GEOMETRY] = 77, [HEADS] = 4, [PLACES] = 8, [FACING] = 16, [BORDERING] = 4,
    [CODES] = 14, [VALUES] = 28, [STARTS] = 2, [EQUATIONS] = 14, [WEIGHTS] = 28, [INVERSES] = 18,
    [DIAGONAL] = 2, [RESPONSES] = 2, [PRESSURE] = 2, [VELOCITY] = 6, [GRADIENT] = 6, [WALLS] = 7,
    [PREDICTED] = 7, [COEFFICIENTS] = 7, [CORRECTION] = 2, [FLUX] = 7, [OUTFLOW] = 2, [METRICS] = 2,
    [CORRECTED] = 6, [FACE_VALUES] = 7
};

static const size_t whole[PARTS][ROOM] = {
    [ADJACENCY] = {0, 2, 0, 0, 1, 0, 0, 0, 0, 0, 1, 0, 1, 0},
    [HEADS] = {1, 1, 5, 2},
    [FACING] = {0, 2, 1, 3, 3, 4, 4, 0, 0, 6, 2, 7, 5, 8, 6, 0},
    [BORDERING] = {1, 0, 0, 0},
    [CODES] = {0, 0, 0, 3, 0, 2, 1, 0, 2, 0, 2, 0, 1, 0},
    [STARTS] = {1, 4},
    [EQUATIONS] = {3, 2, 3, 3, 1, 0, 2, 5, 2, 6, 1, 7, 0, 0}
};

static const double real[PARTS][ROOM] = {
    [GEOMETRY] = {
        1.0, 0.5, 0.0,   1.0, 0.0, 0.0,   1.0, 0.0, 0.0,   0.5, 0.5,
        0.0, 0.5, 0.0,  -1.0, 0.0, 0.0,  -1.0, 0.0, 0.0,   0.5, 0.5,
        2.0, 0.5, 0.0,   1.0, 0.0, 0.0,   1.0, 0.0, 0.0,   0.5, 0.5,
        0.5, 0.0, 0.0,   0.0, -1.0, 0.0,  0.0, -1.0, 0.0,  0.5, 0.0,
        0.5, 1.0, 0.0,   0.0, 1.0, 0.0,   0.0, 1.0, 0.0,   0.5, 0.0,
        1.5, 0.0, 0.0,   0.0, -1.0, 0.0,  0.0, -1.0, 0.0,  0.5, 0.0,
        1.5, 1.0, 0.0,   0.0, 1.0, 0.0,   0.0, 1.0, 0.0,   0.5, 0.0
    },
    [PLACES] = {0.5, 0.5, 0.0, 1.0,  1.5, 0.5, 0.0, 1.0},
    [VALUES] = {
        0.0, 0.0, 0.0, 0.0,  0.0, 2.0, 0.0, 0.0,  0.0, -2.0, 0.0, 0.0,  4.0, 0.0, 0.0, 0.0,
        0.0, 0.0, 0.0, 0.0,  0.0, 0.0, 0.0, 0.0,  2.0, 0.0, 0.0, 0.0
    },
    [WEIGHTS] = {
        1.0, 0.0, 0.0, 0.0,  -0.7, 0.0, 0.0, 0.0,  0.0, -2.0, 0.0, 4.0,  -1.0, 0.0, 0.0, 0.0,
        0.7, 0.0, 0.0, 0.0,  0.0, 2.0, 0.0, 2.0,  1.0, 1.0, 0.0, 0.0
    },
    [INVERSES] = {
        0.5, 0.0, 0.0,  0.0, 1.0, 0.0,  0.0, 0.0, 0.0,
        0.5, 0.1, 0.0,  0.1, 1.0, 0.0,  0.0, 0.0, 0.0
    },
    [DIAGONAL] = {2.0, 3.0},
    [RESPONSES] = {0.5, 0.25},
    [PRESSURE] = {0.1, 0.7},
    [VELOCITY] = {1.0, 0.5, 0.0,  3.0, 0.3, 0.0},
    [GRADIENT] = {1.0, 0.5, 0.0,  4.0, 0.3, 0.0},
    [WALLS] = {0.0, 2.0, -2.0, 0.5, -0.6, 0.3, 1.0},
    [PREDICTED] = {2.0, -1.0, 1.0, 0.0, 0.1, 0.2, -0.3, 1.0},
    [COEFFICIENTS] = {0.5, 1.0, 1.0, 2.0, 0.0, 0.0, 0.7},
    [CORRECTION] = {1.0, 3.0},
    [FLUX] = {1.0, -1.0, 0.7, 0.1, 0.2, -0.5, 0.3},
    [FACE_VALUES] = {0.3, -0.4, 1.1, 0.9, -0.8, 1.7, 0.6}
};

int is_whole(enum part part)
{
    return part == ADJACENCY || part == HEADS || part == FACING || part == BORDERING || part == CODES
        || part == STARTS || part == EQUATIONS;
}

uint64_t bits_at(const struct call *call, enum part part, size_t i)
{
    uint64_t bits;
    if (is_whole(part))
        return call->whole[part][i];
    if (call->real[part][i] != call->real[part][i])
        return UINT64_C(0x7ff8000000000000);
    memcpy(&bits, &call->real[part][i], sizeof bits);
    return bits;
}

static void fill(struct call *call, enum part part)
{
    const uint64_t bits = UINT64_C(0xa5a5a5a5a5a5a5a5);
    for (size_t i = 0; i < ROOM; i++) {
        call->whole[part][i] = bits;
        memcpy(&call->real[part][i], &bits, sizeof bits);
    }
}

void lend(struct call *call, const struct entry *entry)
{
    call->counts = counts;
    call->records = 7;
    call->index = SIZE_MAX;
    memcpy(call->length, lengths, sizeof lengths);
    memcpy(call->whole, whole, sizeof whole);
    memcpy(call->real, real, sizeof real);
    for (int i = 0; i < PARTS; i++)
        call->number[i] = counts.mesh;
    for (int i = 0; !entry->over && entry->outputs[i] != PARTS; i++)
        fill(call, entry->outputs[i]);
}

int make_distances(struct call *call)
{
    uint64_t answer = entries[FACE_DISTANCES].make(call);
    call->index = SIZE_MAX;
    return !answer;
}
