#include "text.h"

#include <stdarg.h>
#include <stdio.h>
#include <string.h>

#define SHOWN_MAX 200

span span_of(const void *bytes, size_t length) { return (span){bytes, length}; }

span span_of_string(const char *string) { return span_of(string, strlen(string)); }

span part(span whole, size_t from, size_t to) { return span_of(whole.at + from, to - from); }

int same(span one, span other) { return one.length == other.length && memcmp(one.at, other.at, one.length) == 0; }

int is_string(span one, const char *string) { return same(one, span_of_string(string)); }

/* Not tolower, which asks the locale. */
static int lower(uint8_t byte) { return byte >= 'A' && byte <= 'Z' ? byte - 'A' + 'a' : byte; }

int same_name(span one, span other) {
    size_t i = 0;
    if (one.length != other.length) return 0;
    while (i < one.length && lower(one.at[i]) == lower(other.at[i])) i++;
    return i == one.length;
}

int is_blank(uint8_t byte) { return byte == ' ' || byte == '\t'; }

span trimmed(span whole) {
    size_t from = 0, to = whole.length;
    while (from < to && is_blank(whole.at[from])) from++;
    while (from < to && is_blank(whole.at[to - 1])) to--;
    return part(whole, from, to);
}

size_t place_of(span in, const char *text) {
    size_t length = strlen(text);
    for (size_t i = 0; i + length <= in.length; i++) {
        if (memcmp(in.at + i, text, length) == 0) return i;
    }
    return in.length;
}

pieces pieces_of(span whole, const char *separator) { return (pieces){whole, separator, 0, 0}; }

int next_piece(pieces *all, span *piece) {
    size_t end = place_of(all->rest, all->separator);
    if (all->ended) return 0;
    *piece = part(all->rest, 0, end);
    all->ended = end == all->rest.length;
    all->rest = part(all->rest, all->ended ? end : end + strlen(all->separator), all->rest.length);
    all->count++;
    return 1;
}

sentence empty_sentence(void) { return (sentence){{0}, 0}; }

void say(sentence *to, const char *format, ...) {
    size_t room = sizeof to->text - to->length;
    va_list values;
    va_start(values, format);
    int wanted = vsnprintf(to->text + to->length, room, format, values);
    va_end(values);
    if (wanted > 0) to->length += (size_t)wanted < room ? (size_t)wanted : room - 1;
}

const char *plural(size_t count) { return count == 1 ? "" : "s"; }

static const char *form_of(uint8_t byte) { return byte >= 32 && byte <= 126 && byte != '\\' ? "%c" : "\\x%02x"; }

void say_shown(sentence *to, const char *words, span bytes) {
    size_t count = bytes.length < SHOWN_MAX ? bytes.length : SHOWN_MAX;
    say(to, "%s`", words);
    for (size_t i = 0; i < count; i++) say(to, form_of(bytes.at[i]), bytes.at[i]);
    say(to, count < bytes.length ? "`..." : "`");
}

void say_breach(sentence *to, const char *what, size_t number, const char *of, span shown, const sentence *why) {
    say(to, "%s %zu of %s", what, number, of);
    say_shown(to, ", ", shown);
    say(to, ": %s.", why->text);
}

void print_shown(span bytes) {
    for (size_t i = 0; i < bytes.length; i++) printf(form_of(bytes.at[i]), bytes.at[i]);
}
