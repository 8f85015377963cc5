/* Runs of bytes out of files, and sentences about them. */
#ifndef TEXT_H
#define TEXT_H

#include <stddef.h>
#include <stdint.h>

typedef struct span {
    const uint8_t *at;
    size_t length;
} span;

span span_of(const void *bytes, size_t length);
span span_of_string(const char *string);
span part(span whole, size_t from, size_t to);
int same(span one, span other);
int is_string(span one, const char *string);
int same_name(span one, span other); /* without regard to case */
int is_blank(uint8_t byte);
span trimmed(span whole);

/* Where the text first stands in a span, or the span's length where it does not. */
size_t place_of(span in, const char *text);

/* Takes a span apart at each separator. What stands before the first and after the last is a piece too. */
typedef struct pieces {
    span rest;
    const char *separator;
    int ended;
    size_t count; /* of those taken */
} pieces;

pieces pieces_of(span whole, const char *separator);
int next_piece(pieces *all, span *piece);

/* A sentence in the making. What finds no room in it is left out. */
typedef struct sentence {
    char text[4096];
    size_t length;
} sentence;

sentence empty_sentence(void);
void say(sentence *to, const char *format, ...);
const char *plural(size_t count); /* the `s` of so many bytes */

/* Bytes from a file after some words: in quotes, with no byte that a terminal would obey; a long run is cut. */
void say_shown(sentence *to, const char *words, span bytes);

/* `Field 3 of the value, `t`: why.` */
void say_breach(sentence *to, const char *what, size_t number, const char *of, span shown, const sentence *why);

/* All of the bytes, on standard output and without quotes. */
void print_shown(span bytes);

#endif
