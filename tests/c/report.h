/* What passed, and the end at the first thing that did not. */
#ifndef REPORT_H
#define REPORT_H

#include <stddef.h>

extern size_t passed;

/* Writes a line and ends the program with status 1. */
_Noreturn void fail(const char *format, ...);

#endif
