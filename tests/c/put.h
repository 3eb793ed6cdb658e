/* Members of a call that are others, as tables of cases say. */
#ifndef PUT_H
#define PUT_H

#include "call.h"

#include <stddef.h>
#include <string.h>

struct put {
    size_t at;
    union {
        uint64_t whole;
        double real;
    } is;
};

#define COUNT(name, n) {offsetof(struct call, counts.name), {.whole = n}}
#define LENGTH(part, n) {offsetof(struct call, length[part]), {.whole = n}}
#define NUMBER(part, n) {offsetof(struct call, number[part]), {.whole = n}}
#define WHOLE(part, i, n) {offsetof(struct call, whole[part][i]), {.whole = n}}
#define REAL(part, i, x) {offsetof(struct call, real[part][i]), {.real = x}}

/* The members `puts` and `put` of a row, how many they are and which. */
#define PUTS(...) .puts = sizeof((struct put[]){__VA_ARGS__}) / sizeof(struct put), .put = {__VA_ARGS__}
#define NO_PUTS .puts = 0, .put = {{0}}

static inline void put_all(struct call *call, const struct put *put, size_t puts)
{
    for (size_t i = 0; i < puts; i++)
        memcpy((char *)call + put[i].at, &put[i].is, sizeof put[i].is);
}

#endif
