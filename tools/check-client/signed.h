/* The signed text of a request. */
#ifndef SIGNED_H
#define SIGNED_H

#include "explain.h"

/* Prints it part by part, then the code that c should have been, for a request whose only breach is its code. */
void print_signed_text(const trial *of);

#endif
