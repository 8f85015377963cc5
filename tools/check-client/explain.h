/* What was found where, in one sentence or a few, for each number that gate_fits answers. */
#ifndef EXPLAIN_H
#define EXPLAIN_H

#include "text.h"

/* What is tried: a setup reply, and a request with the value that its client made. */
typedef struct trial {
    span reply;
    span value;
    span method;
    span head;
    span path;
    span body;
} trial;

/* Says nothing where nothing is found that the number could mean. */
void explain(unsigned number, const trial *of, sentence *to);

#endif
