/* Sentences of refusals, held to lines `NUMBER INDEX SLICE: needs BYTES |SLICE AFTER THE CALL|`. */
#include "judge.h"
#include "juvandeer.h"
#include "report.h"

#include <inttypes.h>
#include <stdio.h>
#include <string.h>

enum { ROOM = 64 };

static size_t longest;

/* The call writes into the first `length` bytes of a larger slice, of which the rest stays. */
static void hold_sentence(const char *line, uint64_t number, size_t index, size_t needs, const char *left,
    size_t length)
{
    uint8_t out[ROOM];
    memset(out, '#', sizeof out);
    size_t answer = juvandeer_refusal_sentence(number, index, out, length);
    if (answer != needs)
        fail("%s: needs %zu", line, answer);
    if (answer > longest)
        longest = answer;
    if (memcmp(out, left, length))
        fail("%s: the slice is %.*s", line, (int)length, (const char *)out);
    for (size_t i = length; i < sizeof out; i++)
        if (out[i] != '#')
            fail("%s: a byte behind the slice is written", line);
    passed++;
}

/* Around every power of ten of 64 bits the index is what printf writes; then, of all sentences so far, the
 * longest is that of the header. */
void judge_digits(void)
{
    char line[ROOM], left[ROOM];
    size_t power = 1;
    for (int digits = 1; digits <= 20; digits++) {
        for (size_t index = power - 1; index <= power + 1; index++) {
            int needs = snprintf(left, sizeof left, "bad link at %zu.", index);
            snprintf(line, sizeof line, "6 at %zu", index);
            hold_sentence(line, 6, index, (size_t)needs, left, (size_t)needs);
        }
        power *= 10;
    }
    if (longest != JUVANDEER_SENTENCE_LONGEST)
        fail("the longest sentence needs %zu bytes, by the header %d", longest, JUVANDEER_SENTENCE_LONGEST);
}

void judge_sentence(char *line)
{
    uint64_t number;
    size_t index, needs;
    int at = 0;
    if (sscanf(line, "%" SCNu64 " %zu %*[a-z]: needs %zu |%n", &number, &index, &needs, &at) != 3 || !at)
        fail("no line on a sentence: %s", line);
    size_t length = strcspn(line + at, "|");
    if (strcmp(line + at + length, "|") || length >= ROOM)
        fail("no slice in the line: %s", line);
    hold_sentence(line, number, index, needs, line + at, length);
    if (juvandeer_refusal_sentence(number, index, NULL, 0) != needs)
        fail("%s: another answer for a slice of no bytes", line);
}
