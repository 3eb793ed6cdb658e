/* 20, a distance of a face that the geometry does not give, and juvandeer_face_distances, which makes both:
 * answers and distances by document 02 and by hand. In the base the own distance of every face is 0.5, and
 * so is the other of face 0, which has two cells, and of faces 1 and 2, which are linked. Faces 3 to 6 are
 * walls, whose other distance is +0.0. */
#include "call.h"
#include "judge.h"
#include "report.h"

#include <inttypes.h>
#include <math.h>
#include <stddef.h>
#include <string.h>

_Static_assert(JUVANDEER_WRONG_DISTANCE == 20, "the number of document 02");

/* What a function is lent beside the geometry, of what the checks of the mesh look at. */
enum lent { NO_GEOMETRY, FACES, FACES_AND_STENCIL, FACES_AND_LINKS, WHOLE_MESH, KINDS };

/* In the order of the entries. The last is not lent distances, it makes them. */
static const enum lent lent_to[ENTRIES] = {
    NO_GEOMETRY, WHOLE_MESH, NO_GEOMETRY, FACES, FACES_AND_LINKS, FACES_AND_STENCIL, NO_GEOMETRY,
    NO_GEOMETRY, NO_GEOMETRY, NO_GEOMETRY, NO_GEOMETRY, WHOLE_MESH, FACES, FACES_AND_LINKS, FACES,
    NO_GEOMETRY
};

#define OWN(f) GEOMETRY, 11 * (f) + 9
#define OTHER(f) GEOMETRY, 11 * (f) + 10
#define CENTRE(f, k) GEOMETRY, 11 * (f) + (k)
#define CODE(f) CODES, 2 * (f)
#define PEER(f) CODES, 2 * (f) + 1

/* The numbers beside 0.5. */
#define MORE 0x1.0000000000001p-1
#define LESS 0x1.fffffffffffffp-2

/* x of face 2, which is 0.75 from cell 1 and 0.25 from the image of cell 0. Face 1 stays 0.5 from the image
 * of cell 1. */
#define AWAY {CENTRE(2, 0), 2.25}

/* y of face 4, which no arithmetic reads: it is a zero-gradient wall. */
#define WALL(y) {CENTRE(4, 1), y}

/* A number for each kind, with its index; 0 is accepted. */
struct answer {
    uint64_t number;
    size_t index;
};

#define UNLINKED(n, i) [FACES] = {n, i}, [FACES_AND_STENCIL] = {n, i}
#define LINKED(n, i) [FACES_AND_LINKS] = {n, i}, [WHOLE_MESH] = {n, i}
#define EVERY(n, i) UNLINKED(n, i), LINKED(n, i)

/* Numbers of the base that are others, and what is answered then. */
static const struct {
    const char *name;
    size_t puts;
    struct {
        enum part part;
        size_t at;
        double x;
    } put[6];
    struct answer answers[KINDS];
} rows[] = {
    {"own of face 0 one bit more", 1, {{OWN(0), MORE}}, {EVERY(20, 0)}},
    {"own of face 6 one bit less", 1, {{OWN(6), LESS}}, {EVERY(20, 6)}},
    {"other of face 0 one bit less", 1, {{OTHER(0), LESS}}, {EVERY(20, 0)}},
    {"other of linked face 2 one bit more", 1, {{OTHER(2), MORE}}, {LINKED(20, 2)}},
    {"other of wall 3 -0", 1, {{OTHER(3), -0.0}}, {LINKED(20, 3)}},
    {"other of wall 6 its own", 1, {{OTHER(6), 0.5}}, {LINKED(20, 6)}},
    {"own of wall 4 negative", 1, {{OWN(4), -0.5}}, {EVERY(20, 4)}},
    {"own of linked face 1 a NaN", 1, {{OWN(1), NAN}}, {EVERY(20, 1)}},
    {"other of linked face 1 a NaN", 1, {{OTHER(1), NAN}}, {LINKED(20, 1)}},
    {"other of wall 5 infinite", 1, {{OTHER(5), INFINITY}}, {LINKED(20, 5)}},

    {"own of faces 6 and 2", 2, {{OWN(6), MORE}, {OWN(2), LESS}}, {EVERY(20, 2)}},
    {"other of face 1, own of face 4", 2, {{OTHER(1), MORE}, {OWN(4), MORE}},
        {UNLINKED(20, 4), LINKED(20, 1)}},

    {"face 2 away, nothing made", 1, {AWAY}, {UNLINKED(20, 2), LINKED(20, 1)}},
    {"face 2 away, other of face 1 to the image", 2, {AWAY, {OWN(2), 0.75}}, {LINKED(20, 1)}},
    {"face 2 away, other of face 2 to the image", 4,
        {AWAY, {OWN(2), 0.75}, {OTHER(1), 0.75}, {OTHER(2), 0.25}}, {LINKED(20, 2)}},
    {"face 2 away, its own not made", 2, {AWAY, {OTHER(1), 0.75}}, {EVERY(20, 2)}},
    {"face 2 away, both made", 3, {AWAY, {OWN(2), 0.75}, {OTHER(1), 0.75}}, {EVERY(0, 0)}},
    {"face 2 in its place, both as if away", 2, {{OWN(2), 0.75}, {OTHER(1), 0.75}},
        {UNLINKED(20, 2), LINKED(20, 1)}},

    {"links gone, distances left", 4, {{PEER(1), 0}, {PEER(2), 0}, {CODE(1), 2}, {CODE(2), 2}},
        {LINKED(20, 1)}},
    {"links gone, distances made", 6,
        {{PEER(1), 0}, {PEER(2), 0}, {CODE(1), 2}, {CODE(2), 2}, {OTHER(1), 0.0}, {OTHER(2), 0.0}},
        {EVERY(0, 0)}},
    {"walls 3 and 4 linked, distances left", 2, {{PEER(3), 5}, {PEER(4), 4}}, {LINKED(20, 3)}},
    {"walls 3 and 4 linked one above the other, distances made", 6,
        {{PEER(3), 5}, {PEER(4), 4}, {VALUES, 14, 1.0}, {VALUES, 18, -1.0}, {OTHER(3), 0.5},
            {OTHER(4), 0.5}},
        {EVERY(0, 0)}},

    {"wall 4 at a NaN, 0.5 left", 1, {WALL(NAN)}, {EVERY(20, 4)}},
    {"wall 4 at a NaN, infinite", 2, {WALL(NAN), {OWN(4), INFINITY}}, {EVERY(20, 4)}},
    {"wall 4 at infinity, the largest number", 2, {WALL(INFINITY), {OWN(4), 0x1.fffffffffffffp+1023}},
        {EVERY(20, 4)}},
    {"wall 4 at infinity, a NaN", 2, {WALL(INFINITY), {OWN(4), NAN}}, {EVERY(20, 4)}},
    {"wall 4 at infinity, infinite", 2, {WALL(INFINITY), {OWN(4), INFINITY}}, {EVERY(0, 0)}},
    {"wall 4 at 2^600, 2^600", 2, {WALL(0x1p+600), {OWN(4), 0x1p+600}}, {EVERY(20, 4)}},
    {"wall 4 at 2^600, infinite", 2, {WALL(0x1p+600), {OWN(4), INFINITY}}, {EVERY(0, 0)}},

    {"a bad face", 2, {{OWN(0), MORE}, {ADJACENCY, 6, 2}}, {EVERY(4, 3)}},
    {"broken chains", 3, {{OWN(0), MORE}, {HEADS, 2, 99}, {STARTS, 1, 99}},
        {[FACES] = {20, 0}, [FACES_AND_STENCIL] = {5, 1}, [FACES_AND_LINKS] = {20, 0},
            [WHOLE_MESH] = {5, 1}}},
    {"a bad link", 2, {{OWN(0), MORE}, {PEER(6), 7}}, {UNLINKED(20, 0), LINKED(6, 6)}}
};

/* Makes the call, of which the answer is due, and which leaves everything where it is refused. */
static void hold_call(const struct entry *entry, struct call *call, struct answer due, const char *of)
{
    static struct call before;
    before = *call;
    uint64_t answer = entry->make(call);
    if (answer != due.number || call->index != due.index)
        fail("%s, %s: answer %" PRIu64 " at %zu, expected %" PRIu64 " at %zu", entry->name, of, answer,
            call->index, due.number, due.index);
    if (answer && (memcmp(before.whole, call->whole, sizeof call->whole)
            || memcmp(before.real, call->real, sizeof call->real)))
        fail("%s, %s: an output is written", entry->name, of);
    passed++;
}

static void put(struct call *call, enum part part, size_t at, double x)
{
    if (is_whole(part))
        call->whole[part][at] = (size_t)x;
    else
        call->real[part][at] = x;
}

static void put_bits(struct call *call, enum part part, size_t at, uint64_t bits)
{
    memcpy(&call->real[part][at], &bits, sizeof bits);
}

static void judge_rows(void)
{
    static struct call call;
    for (size_t i = 0; i < sizeof rows / sizeof *rows; i++)
        for (int e = 0; e < ENTRIES; e++) {
            if (lent_to[e] == NO_GEOMETRY)
                continue;
            lend(&call, &entries[e]);
            for (size_t k = 0; k < rows[i].puts; k++)
                put(&call, rows[i].put[k].part, rows[i].put[k].at, rows[i].put[k].x);
            hold_call(&entries[e], &call, rows[i].answers[lent_to[e]], rows[i].name);
        }
}

/* NaNs of both signs, quiet and signalling. */
static const uint64_t nans[4] = {
    UINT64_C(0x7ff8000000000abc), UINT64_C(0xfff8dead0000beef), UINT64_C(0x7ff0000000000001),
    UINT64_C(0xfff4000000000003)
};

/* Where wall 4 stands at a NaN, any NaN is its distance. */
static void judge_nans(void)
{
    static struct call call;
    for (size_t i = 0; i < 16; i++)
        for (int e = 0; e < ENTRIES; e++) {
            if (lent_to[e] == NO_GEOMETRY)
                continue;
            lend(&call, &entries[e]);
            put_bits(&call, CENTRE(4, 1), nans[i / 4]);
            put_bits(&call, OWN(4), nans[i % 4]);
            hold_call(&entries[e], &call, (struct answer){0, 0}, "wall 4 at a NaN, another NaN");
        }
}

/* Calls that are not lent the geometry, and the one that makes the distances, look at none. */
static void judge_blind(void)
{
    static struct call call;
    for (int e = 0; e < ENTRIES; e++) {
        if (lent_to[e] != NO_GEOMETRY)
            continue;
        lend(&call, &entries[e]);
        for (size_t f = 0; f < 7; f++) {
            put(&call, OWN(f), -1.0);
            put(&call, OTHER(f), -1.0);
        }
        hold_call(&entries[e], &call, (struct answer){0, 0}, "every distance wrong");
    }
}

/* Centres for the two cells and the seven faces of the base, and the distances of the faces, where faces 1
 * and 2 are linked. */
static const struct {
    double cells[2][3], faces[7][3], own[7], other[7];
} made[] = {
    /* sides of right triangles; a diagonal; a face in its cell's centre; a square that overflows */
    {
        .cells = {{0.0, 0.0, 0.0}, {8.0, 16.0, 0.0}},
        .faces = {
            {3.0, 4.0, 0.0}, {8.0, 0.0, 15.0}, {8.0, 23.0, -24.0}, {2.0, 3.0, 6.0}, {1.0, 0.0, 1.0},
            {8.0, 16.0, -0.0}, {8.0, 16.0, 0x1p+600}
        },
        .own = {5.0, 17.0, 25.0, 7.0, 0x1.6a09e667f3bcdp+0, 0.0, INFINITY},
        .other = {13.0, 25.0, 17.0, 0.0, 0.0, 0.0, 0.0}
    },
    /* the squares of x and y are added first: 2.25 + 2^-52 is 2.25, and 2^-52 + 2^-52 + 2.25 is exact; the
     * least square, and one below it; the greatest distance */
    {
        .cells = {{0.0, 0.0, 0.0}, {0.0, 0.0, 0.0}},
        .faces = {
            {0x1p-537, 0.0, 0.0}, {1.5, 0x1p-26, 0x1p-26}, {0x1p-26, 0x1p-26, 1.5}, {0x1p-26, 1.5, 0x1p-26},
            {0.0, -0x1p-600, 0.0}, {0.0, 0.0, -0x1.fffffffffffffp+511}, {0.0, 0x1p+512, 0.0}
        },
        .own = {
            0x1p-537, 1.5, 0x1.8000000000001p+0, 1.5, 0.0, 0x1.fffffffffffffp+511, INFINITY
        },
        .other = {0x1p-537, 0x1.8000000000001p+0, 1.5, 0.0, 0.0, 0.0, 0.0}
    },
    /* infinities and NaNs */
    {
        .cells = {{INFINITY, 0.0, 0.0}, {0.0, -3.0, 0.0}},
        .faces = {
            {INFINITY, 0.0, 0.0}, {-INFINITY, 0.0, 0.0}, {0.0, 0.0, 4.0}, {INFINITY, 0.0, 0.0},
            {0.0, NAN, 0.0}, {-4.0, 0.0, 0.0}, {0.0, -3.0, NAN}
        },
        .own = {NAN, INFINITY, 5.0, NAN, NAN, 5.0, NAN},
        .other = {INFINITY, 5.0, INFINITY, 0.0, 0.0, 0.0, 0.0}
    }
};

/* The two distances of each face, with links and without: what was there does not matter, and nothing else
 * is written, whatever its bits. */
static void judge_made(void)
{
    const struct entry *entry = &entries[FACE_DISTANCES];
    static struct call call, due;
    for (size_t i = 0; i < 2 * (sizeof made / sizeof *made); i++) {
        size_t row = i / 2, linked = i % 2;
        lend(&call, entry);
        for (size_t k = 0; k < ROOM; k++)
            put_bits(&call, GEOMETRY, k, nans[k % 4]);
        for (size_t c = 0; c < 2; c++)
            memcpy(&call.real[PLACES][4 * c], made[row].cells[c], sizeof made[row].cells[c]);
        for (size_t f = 0; f < 7; f++)
            memcpy(&call.real[GEOMETRY][11 * f], made[row].faces[f], sizeof made[row].faces[f]);
        if (!linked)
            call.whole[CODES][3] = call.whole[CODES][5] = 0;
        due = call;
        for (size_t f = 0; f < 7; f++) {
            put(&due, OWN(f), made[row].own[f]);
            put(&due, OTHER(f), linked || (f != 1 && f != 2) ? made[row].other[f] : 0.0);
        }
        uint64_t answer = entry->make(&call);
        if (answer || call.index)
            fail("distances %zu: answer %" PRIu64 " at %zu", i, answer, call.index);
        for (size_t k = 0; k < call.length[GEOMETRY]; k++) {
            uint64_t bits = bits_at(&call, GEOMETRY, k), expected = bits_at(&due, GEOMETRY, k);
            if (bits != expected)
                fail("distances %zu: number %zu is %016" PRIx64 ", expected %016" PRIx64, i, k, bits,
                    expected);
            if (k % 11 > 8)
                call.real[GEOMETRY][k] = due.real[GEOMETRY][k];
        }
        if (memcmp(due.whole, call.whole, sizeof call.whole)
            || memcmp(due.real, call.real, sizeof call.real))
            fail("distances %zu: more is written than the distances", i);
        passed++;
    }
}

/* Two members of a call that are others, and what juvandeer_face_distances answers then. */
#define COUNT(name) offsetof(struct call, counts.name)
#define LENGTH(part) offsetof(struct call, length[part])
#define NUMBER offsetof(struct call, number[CODES])
#define AT(part, i) offsetof(struct call, whole[part][i])

static const struct {
    const char *name;
    size_t puts;
    struct {
        size_t at, n;
    } put[2];
    struct answer answer;
} checks[] = {
    {"dimension 3", 1, {{COUNT(dimension), 3}}, {0, 0}},
    {"more face records", 1, {{COUNT(face_records), 65535}}, {0, 0}},
    {"more neighbour records", 1, {{COUNT(neighbour_records), 65535}}, {0, 0}},
    {"broken chains", 2, {{AT(HEADS, 2), 99}, {AT(HEADS, 3), 99}}, {0, 0}},
    {"another number, of both", 2, {{COUNT(mesh), 9}, {NUMBER, 9}}, {0, 0}},

    {"no cell", 1, {{COUNT(cells), 0}}, {1, 0}},
    {"65536 cells", 1, {{COUNT(cells), 65536}}, {1, 0}},
    {"65536 faces", 1, {{COUNT(faces), 65536}}, {1, 0}},
    {"65536 face records", 1, {{COUNT(face_records), 65536}}, {1, 0}},
    {"65536 neighbour records", 1, {{COUNT(neighbour_records), 65536}}, {1, 0}},
    {"dimension 1", 1, {{COUNT(dimension), 1}}, {1, 0}},
    {"dimension 4, codes one short", 2, {{COUNT(dimension), 4}, {LENGTH(CODES), 13}}, {1, 0}},

    {"adjacency one short", 1, {{LENGTH(ADJACENCY), 13}}, {2, 0}},
    {"adjacency one long", 1, {{LENGTH(ADJACENCY), 15}}, {2, 0}},
    {"places one short", 1, {{LENGTH(PLACES), 7}}, {2, 0}},
    {"places one long", 1, {{LENGTH(PLACES), 9}}, {2, 0}},
    {"codes one short", 1, {{LENGTH(CODES), 13}}, {2, 0}},
    {"codes one long", 1, {{LENGTH(CODES), 15}}, {2, 0}},
    {"geometry one short", 1, {{LENGTH(GEOMETRY), 76}}, {2, 0}},
    {"geometry one long", 1, {{LENGTH(GEOMETRY), 78}}, {2, 0}},
    {"geometry of 9 numbers a face", 1, {{LENGTH(GEOMETRY), 63}}, {2, 0}},
    {"one face more", 1, {{COUNT(faces), 8}}, {2, 0}},
    {"one cell more", 1, {{COUNT(cells), 3}}, {2, 0}},
    {"one cell more, conditions of another mesh", 2, {{COUNT(cells), 3}, {NUMBER, 9}}, {2, 0}},

    {"conditions of another mesh", 1, {{NUMBER, 9}}, {3, 0}},
    {"another mesh", 1, {{COUNT(mesh), 9}}, {3, 0}},
    {"conditions of another mesh, a bad face", 2, {{NUMBER, 9}, {AT(ADJACENCY, 6), 2}}, {3, 0}},

    {"owner of face 3 missing", 1, {{AT(ADJACENCY, 6), 2}}, {4, 3}},
    {"neighbour of face 0 missing", 1, {{AT(ADJACENCY, 1), 3}}, {4, 0}},
    {"neighbour of face 0 its owner", 1, {{AT(ADJACENCY, 1), 1}}, {4, 0}},
    {"code 3 at face 4", 1, {{AT(CODES, 8), 3}}, {4, 4}},
    {"owner of face 5 missing, code 3 at face 2", 2, {{AT(ADJACENCY, 10), 2}, {AT(CODES, 4), 3}}, {4, 2}},
    {"owner of face 6 missing, face 3 linked to itself", 2, {{AT(ADJACENCY, 12), 2}, {AT(CODES, 7), 4}},
        {4, 6}},

    {"face 4 linked to face 5, which is not", 1, {{AT(CODES, 9), 6}}, {6, 4}},
    {"face 4 linked past the last", 1, {{AT(CODES, 9), 8}}, {6, 4}},
    {"face 0 linked to face 1", 1, {{AT(CODES, 1), 2}}, {6, 0}}
};

static void judge_checks(void)
{
    static struct call call;
    for (size_t i = 0; i < sizeof checks / sizeof *checks; i++) {
        lend(&call, &entries[FACE_DISTANCES]);
        for (size_t k = 0; k < checks[i].puts; k++)
            memcpy((char *)&call + checks[i].put[k].at, &checks[i].put[k].n, sizeof checks[i].put[k].n);
        hold_call(&entries[FACE_DISTANCES], &call, checks[i].answer, checks[i].name);
    }
}

void judge_distances(void)
{
    judge_rows();
    judge_nans();
    judge_blind();
    judge_made();
    judge_checks();
}
