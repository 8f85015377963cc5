/* Header lines, their names, and the names that a session covers. */
#ifndef HEAD_H
#define HEAD_H

#include "text.h"

typedef struct line {
    size_t number; /* from 1 */
    span text;     /* without its CR LF */
    span name;
    span value;    /* as it stands after the colon */
} line;

/* The lines in their order, malformed ones too. The head is empty or ends with CR LF. */
pieces lines_of(span head);
int next_line(pieces *all, line *found);

/* What makes a line malformed, if anything does. */
int line_breach(const line *read, sentence *why);

/* The place of the first byte that no token has, or the length. */
size_t place_of_no_token(span name);

/* Goes through the names that a mask and extra names cover, in the order of signing. */
typedef struct covered {
    uint64_t mask;
    pieces extra;
    unsigned bit;
    span name;
    int is_list; /* it may stand on several lines */
} covered;

covered covered_by(uint64_t mask, span extra);
int next_covered(covered *all);

/* Why no orders have these extra names, if none have. */
int extra_breach(span extra, sentence *why);

#endif
