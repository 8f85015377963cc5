/* A request as it goes over the wire. */
#ifndef REQUEST_H
#define REQUEST_H

#include "explain.h"

/* Takes a file apart into method, path, head and body; answers 0 and says what is missing where it is no request. */
int read_request(span file, trial *into, sentence *why);

/* Prints what the head says of the body that does not agree with the file: no number of the gate tells of it. */
void print_notes(const trial *of);

#endif
