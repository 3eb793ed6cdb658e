/* 14, a cell with more than 26 faces: what every function answers by document 02, and that its outputs are
 * as they were. In the base either cell has four faces, of which they share face 0. */
#include "call.h"
#include "judge.h"
#include "report.h"

#include <inttypes.h>
#include <string.h>

_Static_assert(JUVANDEER_CROWDED_CELL == 14, "the number of document 02");

/* What a function is lent of what the checks of the mesh look at. */
enum lent { NO_MESH, STENCIL, FACES, FACES_AND_STENCIL, FACES_AND_LINKS, WHOLE_MESH, KINDS };

/* In the order of the entries. */
static const enum lent lent_to[ENTRIES] = {
    NO_MESH, WHOLE_MESH, STENCIL, FACES, FACES_AND_LINKS, FACES_AND_STENCIL, FACES_AND_LINKS,
    FACES_AND_LINKS, NO_MESH, FACES, FACES, WHOLE_MESH, FACES, FACES_AND_LINKS, FACES, FACES_AND_LINKS
};

/* What is wrong besides: face 3 of a missing cell; the faces and the equations of cell 1 begin at a missing
 * record; face 4 is linked to itself; the own distance of face 0 is another; cell 0 has volume 0. */
enum fault { NONE, BAD_FACE, BROKEN_CHAINS, BAD_LINK, WRONG_DISTANCE, BAD_VOLUME };

/* Faces more that a cell has alone, faces more that both have, and records more of a cell's chain of faces,
 * which name a face of its own again. A number with its index for each kind; 0 is accepted. */
struct crowd {
    const char *name;
    size_t own[2], shared, records[2];
    enum fault fault;
    struct {
        uint64_t number;
        size_t index;
    } answers[KINDS];
};

#define OF_FACES(n, i) [FACES] = {n, i}, [FACES_AND_STENCIL] = {n, i}, [FACES_AND_LINKS] = {n, i}

static const struct crowd crowds[] = {
    {.name = "26 faces of cell 1", .own = {0, 22}},
    {.name = "27 faces of cell 1", .own = {0, 23}, .answers = {OF_FACES(14, 1), [WHOLE_MESH] = {14, 1}}},
    {.name = "27 faces of cell 1, 12 of them shared", .own = {0, 12}, .shared = 11,
        .answers = {OF_FACES(14, 1), [WHOLE_MESH] = {14, 1}}},
    {.name = "27 faces of either cell", .shared = 23,
        .answers = {OF_FACES(14, 0), [WHOLE_MESH] = {14, 0}}},

    {.name = "26 records of cell 1", .records = {0, 22}},
    {.name = "27 records of cell 1", .records = {0, 23}, .answers = {[WHOLE_MESH] = {14, 1}}},
    {.name = "27 records of cell 0, 27 faces of cell 1", .own = {0, 23}, .records = {23, 0},
        .answers = {OF_FACES(14, 1), [WHOLE_MESH] = {14, 0}}},
    {.name = "27 faces of cell 0, 27 records of cell 1", .own = {23, 0}, .records = {0, 23},
        .answers = {OF_FACES(14, 0), [WHOLE_MESH] = {14, 0}}},

    {.name = "27 faces of cell 1, a bad face", .own = {0, 23}, .fault = BAD_FACE,
        .answers = {OF_FACES(4, 3), [WHOLE_MESH] = {4, 3}}},
    {.name = "27 faces of cell 0, broken chains", .own = {23, 0}, .fault = BROKEN_CHAINS,
        .answers = {[STENCIL] = {5, 1}, [FACES] = {14, 0}, [FACES_AND_STENCIL] = {5, 1},
            [FACES_AND_LINKS] = {14, 0}, [WHOLE_MESH] = {5, 1}}},
    {.name = "27 faces of cell 1, a bad link", .own = {0, 23}, .fault = BAD_LINK,
        .answers = {OF_FACES(14, 1), [WHOLE_MESH] = {14, 1}}},
    {.name = "27 records of cell 1, a bad link", .records = {0, 23}, .fault = BAD_LINK,
        .answers = {[FACES_AND_LINKS] = {6, 4}, [WHOLE_MESH] = {14, 1}}},
    {.name = "26 faces of cell 1, a bad link", .own = {0, 22}, .fault = BAD_LINK,
        .answers = {[FACES_AND_LINKS] = {6, 4}, [WHOLE_MESH] = {6, 4}}},
    {.name = "27 faces of cell 1, a wrong distance", .own = {0, 23}, .fault = WRONG_DISTANCE,
        .answers = {OF_FACES(14, 1), [WHOLE_MESH] = {14, 1}}},
    {.name = "27 faces of cell 1, volume 0", .own = {0, 23}, .fault = BAD_VOLUME,
        .answers = {OF_FACES(14, 1), [WHOLE_MESH] = {14, 1}}}
};

/* Faces with the geometry of one of the base, a zero gradient and no link. Their fields are 0, and where a
 * field is handed out it stays filled. No chain names them. */
static void add_faces(struct call *call, size_t faces, size_t owner, size_t neighbour, size_t like)
{
    for (size_t i = 0; i < faces; i++) {
        size_t f = call->counts.faces++;
        call->whole[ADJACENCY][2 * f] = owner;
        call->whole[ADJACENCY][2 * f + 1] = neighbour;
        call->whole[CODES][2 * f] = 2;
        memcpy(&call->real[GEOMETRY][11 * f], &call->real[GEOMETRY][11 * like], 11 * sizeof(double));
    }
    call->length[ADJACENCY] += 2 * faces;
    call->length[GEOMETRY] += 11 * faces;
    call->length[CODES] += 2 * faces;
    call->length[VALUES] += 4 * faces;
    call->length[WALLS] += faces;
    call->length[PREDICTED] += faces;
    call->length[COEFFICIENTS] += faces;
    call->length[FLUX] += faces;
    call->length[FACE_VALUES] += faces;
}

/* Records that name a face, behind the last record of a chain. */
static void add_records(struct call *call, size_t records, size_t last, size_t face)
{
    for (size_t i = 0; i < records; i++) {
        size_t record = ++call->counts.face_records;
        call->whole[FACING][2 * last - 1] = record;
        call->whole[FACING][2 * record - 2] = face;
        call->whole[FACING][2 * record - 1] = 0;
        last = record;
    }
    call->length[FACING] += 2 * records;
}

static void spoil(struct call *call, enum fault fault)
{
    if (fault == BAD_FACE)
        call->whole[ADJACENCY][6] = 2;
    if (fault == BROKEN_CHAINS)
        call->whole[HEADS][2] = call->whole[STARTS][1] = 99;
    if (fault == BAD_LINK)
        call->whole[CODES][9] = 5;
    if (fault == WRONG_DISTANCE)
        call->real[GEOMETRY][9] = 1.0;
    if (fault == BAD_VOLUME)
        call->real[PLACES][3] = 0.0;
}

void judge_crowded(void)
{
    static struct call call, before;
    for (size_t i = 0; i < sizeof crowds / sizeof *crowds; i++)
        for (int e = 0; e < ENTRIES; e++) {
            const struct crowd *crowd = &crowds[i];
            uint64_t expected = crowd->answers[lent_to[e]].number;
            size_t index = crowd->answers[lent_to[e]].index;
            lend(&call, &entries[e]);
            add_faces(&call, crowd->own[0], 0, 0, 4);
            add_faces(&call, crowd->own[1], 1, 0, 5);
            add_faces(&call, crowd->shared, 0, 2, 0);
            add_records(&call, crowd->records[0], 4, 4);
            add_records(&call, crowd->records[1], 8, 5);
            spoil(&call, crowd->fault);
            before = call;
            uint64_t answer = entries[e].make(&call);
            if (answer != expected || call.index != index)
                fail("%s, %s: answer %" PRIu64 " at %zu, expected %" PRIu64 " at %zu", entries[e].name,
                    crowd->name, answer, call.index, expected, index);
            if (answer && (memcmp(before.whole, call.whole, sizeof call.whole)
                    || memcmp(before.real, call.real, sizeof call.real)))
                fail("%s, %s: an output is written", entries[e].name, crowd->name);
            passed++;
        }
}
