/* What a line from the embosser says. */
#ifndef ANSWER_H
#define ANSWER_H

#include "link.h"

/* Reads a line without its newline. Returns false if it is no answer. */
bool answer_read(const char *line, answer *a);

/* The sentence of a line `says TEXT`, or NULL. */
const char *sentence_of(const char *line);

#endif
