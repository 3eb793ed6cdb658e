/* Calls every function of include/juvandeer.h. Its arguments are the stored list of roots,
 * crates/roots/stdin, the lines on sentences, crates/sentences/stdout, those on steps over linked faces,
 * crates/pairs/stdout, and files with stored lines on calls of entries, crates/edges/stdout,
 * crates/oneslice/stdout and crates/gradients/stdout: what it expects comes from the original Rust, from MPFR
 * and from document 02, not from the engine. Writes `N passed, 0 failed`, or what is wrong. */
#include "judge.h"
#include "report.h"

#include <stdarg.h>
#include <stdio.h>
#include <stdlib.h>
#include <string.h>

size_t passed;

_Noreturn void fail(const char *format, ...)
{
    va_list values;
    va_start(values, format);
    printf("c: ");
    vprintf(format, values);
    printf("\n");
    va_end(values);
    exit(1);
}

/* Judges every line of a file, of which there is at least one. */
static void judge_file(const char *path, void (*judge)(char *line))
{
    static char line[8192];
    size_t lines = 0;
    FILE *file = fopen(path, "r");
    if (!file)
        fail("cannot read %s", path);
    while (fgets(line, sizeof line, file)) {
        char *end = strchr(line, '\n');
        if (!end)
            fail("line %zu of %s is too long or not ended", lines + 1, path);
        *end = '\0';
        judge(line);
        lines++;
    }
    if (ferror(file) || lines == 0)
        fail("%s has no lines, or cannot be read to its end", path);
    fclose(file);
}

int main(int count, char **arguments)
{
    if (count < 5)
        fail("four arguments are needed, the list of roots, the lines on sentences, on pairs, on entries");
    judge_environment();
    judge_file(arguments[1], judge_root);
    judge_file(arguments[2], judge_sentence);
    judge_file(arguments[3], judge_pair);
    for (int i = 4; i < count; i++)
        judge_file(arguments[i], judge_line);
    judge_coverage();
    judge_digits();
    judge_counts();
    judge_links();
    judge_crowded();
    judge_distances();
    judge_gauss();
    judge_linked();
    judge_payloads();
    judge_room();
    judge_null();
    printf("%zu passed, 0 failed\n", passed);
    return 0;
}
