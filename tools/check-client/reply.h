/* The setup reply: what no setup writes. */
#ifndef REPLY_H
#define REPLY_H

#include "text.h"

/* 23 */
void bad_reply(span reply, sentence *to);

#endif
