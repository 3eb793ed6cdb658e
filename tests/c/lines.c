/* The stored lines: `ENTRY, CASE: accepted, NUMBERS, ..` with a group of bit patterns for each output,
 * or `ENTRY, CASE: refused NUMBER at INDEX, untouched` or `.. cleared`, or the patterns there too. Lines of
 * crates/gradients on records, which C has no function for, are passed over. */
#include "call.h"
#include "judge.h"
#include "report.h"

#include <inttypes.h>
#include <stdio.h>
#include <stdlib.h>
#include <string.h>

enum { ACCEPTED, UNTOUCHED, CLEARED, ENDS };

static int seen[STORED][ENDS];

/* One judgement: the line up to the answer, the function, whether its lines have the patterns after a
 * refusal too, the call before and after it was made, and its answer. */
struct made {
    const char *line;
    const struct entry *entry;
    int tells;
    struct call before, call;
    uint64_t answer;
};

static void hold_answer(const struct made *made, uint64_t number, size_t index)
{
    if (made->answer != number)
        fail("%s: answer %" PRIu64 ", expected %" PRIu64, made->line, made->answer, number);
    if (made->call.index != index)
        fail("%s: index %zu, expected %zu", made->line, made->call.index, index);
}

static void hold_number(const struct made *made, int output, size_t i, uint64_t expected)
{
    uint64_t bits = bits_at(&made->call, made->entry->outputs[output], i);
    if (bits != expected)
        fail("%s: output %d, number %zu is %016" PRIx64 ", expected %016" PRIx64, made->line, output, i,
            bits, expected);
}

static void hold_as_before(const struct made *made, int output, size_t i)
{
    hold_number(made, output, i, bits_at(&made->before, made->entry->outputs[output], i));
}

/* Past an output's length nothing was written. */
static void hold_rest(const struct made *made)
{
    for (int o = 0; made->entry->outputs[o] != PARTS; o++)
        for (size_t i = made->call.length[made->entry->outputs[o]]; i < ROOM; i++)
            hold_as_before(made, o, i);
}

static void hold_untouched(const struct made *made)
{
    for (int o = 0; made->entry->outputs[o] != PARTS; o++)
        for (size_t i = 0; i < ROOM; i++)
            hold_as_before(made, o, i);
}

static void hold_cleared(const struct made *made)
{
    for (int o = 0; made->entry->outputs[o] != PARTS; o++)
        for (size_t i = 0; i < made->call.length[made->entry->outputs[o]]; i++)
            hold_number(made, o, i, 0);
}

/* A group for each output, a pattern of 16 digits for each of its numbers, and nothing more. */
static void hold_groups(const struct made *made, const char *text)
{
    for (int o = 0; made->entry->outputs[o] != PARTS; o++) {
        if (*text++ != ',')
            fail("%s: the line has no output %d", made->line, o);
        for (size_t i = 0; i < made->call.length[made->entry->outputs[o]]; i++) {
            char *end;
            uint64_t expected = strtoull(text, &end, 16);
            if (*text != ' ' || end - text != 17)
                fail("%s: the line has no number %zu of output %d", made->line, i, o);
            hold_number(made, o, i, expected);
            text = end;
        }
    }
    if (*text)
        fail("%s: the line has more than the outputs", made->line);
}

/* Whether a refusal is by shape or mesh, before arithmetic. */
static int is_by_check(unsigned number)
{
    return number < JUVANDEER_DEGENERATE_DISTANCE || number == JUVANDEER_CROWDED_CELL
        || number == JUVANDEER_WRONG_DISTANCE;
}

static int hold_result(const struct made *made, const char *text)
{
    unsigned number, index;
    int end = 0;
    hold_rest(made);
    if (!strncmp(text, "accepted", 8)) {
        hold_answer(made, 0, 0);
        hold_groups(made, text + 8);
        return ACCEPTED;
    }
    if (sscanf(text, "refused %u at %u%n", &number, &index, &end) != 2)
        fail("%s: no answer in the line: %s", made->line, text);
    hold_answer(made, number, index);
    text += end;
    int told = strcmp(text, ", untouched") && strcmp(text, ", cleared");
    if (told != made->tells)
        fail("%s: the line does not say what is left: %s", made->line, text);
    if (told)
        hold_groups(made, text);
    if (told ? is_by_check(number) : !strcmp(text, ", untouched")) {
        hold_untouched(made);
        return UNTOUCHED;
    }
    hold_cleared(made);
    return CLEARED;
}

static int entry_of(const char *line, size_t length)
{
    for (int e = 0; e < STORED; e++)
        if (strlen(entries[e].name) == length && !strncmp(entries[e].name, line, length))
            return e;
    return STORED;
}

static int is_of_records(const char *line)
{
    return !strncmp(line, "hand_out, ", 10) || strstr(line, ", as records: ");
}

static int lend_case(struct call *call, const struct entry *entry, const char *name)
{
    if (entry >= &entries[GAUSS_GRADIENT_FROM_FACES])
        return lend_gradient(call, entry, name);
    lend(call, entry);
    return change(call, entry->name, name);
}

static void judge(char *line, int (*lend_it)(struct call *, const struct entry *, const char *))
{
    static struct made made;
    char *name = strstr(line, ", "), *text = strstr(line, ": ");
    if (is_of_records(line))
        return;
    if (!name || !text || name > text)
        fail("no line on a call: %s", line);
    *text = '\0';
    int e = entry_of(line, (size_t)(name - line));
    if (e == STORED)
        fail("%s: no call of this entry in tests/c/entries.c", line);
    made.line = line;
    made.entry = &entries[e];
    made.tells = made.entry->over || e >= GAUSS_GRADIENT_FROM_FACES;
    if (!lend_it(&made.call, &entries[e], name + 2))
        fail("%s: no change of this name in tests/c, or no distances after it", line);
    made.before = made.call;
    made.answer = made.entry->make(&made.call);
    seen[e][hold_result(&made, text + 2)] = 1;
    passed++;
}

void judge_line(char *line)
{
    judge(line, lend_case);
}

void judge_pair(char *line)
{
    judge(line, lend_pair);
}

void judge_coverage(void)
{
    for (int e = 0; e < STORED; e++) {
        if (!seen[e][ACCEPTED] || !seen[e][UNTOUCHED])
            fail("%s: no line with an accepted call, or none that a check refuses", entries[e].name);
        if (seen[e][CLEARED] != entries[e].clears)
            fail("%s: refusals by arithmetic: %d, expected %d", entries[e].name, seen[e][CLEARED],
                entries[e].clears);
    }
}
