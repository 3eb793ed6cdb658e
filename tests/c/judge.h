/* Calls held against stored lines, and calls whose answers stand in documents 01 and 02. */
#ifndef JUDGE_H
#define JUDGE_H

/* Makes the call that a line of crates/edges/stdout, crates/oneslice/stdout or crates/gradients/stdout
 * names, and holds its answer and outputs to it. */
void judge_line(char *line);

/* The same of a line of crates/pairs/stdout. */
void judge_pair(char *line);

/* Every function of the library but juvandeer_face_distances was called by a line: accepted, refused by a
 * check, and refused by arithmetic where it can be. */
void judge_coverage(void);

/* A line of crates/roots/stdin: a number and its root. */
void judge_root(char *line);

/* A line of crates/sentences/stdout: a refusal, and a slice that its sentence was to be written into. */
void judge_sentence(char *line);

void judge_digits(void);

void judge_counts(void);

void judge_links(void);

void judge_crowded(void);

void judge_distances(void);

void judge_gauss(void);

void judge_linked(void);

void judge_payloads(void);

void judge_room(void);

void judge_null(void);

void judge_environment(void);

#endif
