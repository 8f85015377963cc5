#include "request.h"

#include "head.h"

#include <stdio.h>

/* ---- Its form ---- */

static int is_digit(uint8_t byte) { return byte >= '0' && byte <= '9'; }

/* HTTP/1.1 and the like. HTTP/2 passes, since the version is not signed. */
static int is_version(span text) {
    if (text.length != 6 && text.length != 8) return 0;
    if (!is_string(part(text, 0, 5), "HTTP/") || !is_digit(text.at[5])) return 0;
    return text.length == 6 || (text.at[6] == '.' && is_digit(text.at[7]));
}

/* The method goes up to the first space and the path up to the last: there is no telling what else a path may have. */
static int read_first_line(span first, trial *into, sentence *why) {
    size_t space = place_of(first, " "), last = first.length;
    while (last > space + 1 && first.at[last - 1] != ' ') last--;
    if (last > space + 1 && is_version(part(first, last, first.length))) {
        into->method = part(first, 0, space);
        into->path = part(first, space + 1, last - 1);
        return 1;
    }
    say_shown(why, "its first line, ", first);
    say(why, ", is not METHOD PATH HTTP/x.y with a space between each");
    if (place_of(first, "\n") < first.length) say(why, "; lines end with CR LF, and it has a bare line feed");
    return 0;
}

int read_request(span file, trial *into, sentence *why) {
    size_t end = place_of(file, "\r\n");
    span rest = part(file, end, file.length);
    size_t blank = place_of(rest, "\r\n\r\n"); /* the first line's own CR LF counts, so that there may be no header lines */
    if (end == file.length) {
        say(why, "lines end with CR LF, and it has none");
        if (place_of(file, "\n") < file.length) say(why, "; it seems to have bare line feeds");
        return 0;
    }
    if (!read_first_line(part(file, 0, end), into, why)) return 0;
    if (blank == rest.length) {
        say(why, "no blank line, CR LF CR LF, ends its header lines");
        return 0;
    }
    into->head = part(rest, 2, blank + 2);
    into->body = part(rest, blank + 4, rest.length);
    return 1;
}

/* ---- Notes ---- */

/* Whether the text is this number in decimal. */
static int says_number(span text, size_t number) {
    size_t said = 0;
    for (size_t i = 0; i < text.length; i++) {
        if (!is_digit(text.at[i]) || said > number) return 0;
        said = said * 10 + (size_t)(text.at[i] - '0');
    }
    return text.length > 0 && said == number;
}

static void note_length(span said, span body) {
    sentence note = empty_sentence();
    if (says_number(said, body.length)) return;
    say_shown(&note, "Note: Content-Length says ", said);
    say(&note, ", with %zu byte%s after the blank line, all taken as the body.", body.length, plural(body.length));
    if (body.length > 0 && body.at[body.length - 1] == '\n') say(&note, " The last is a line feed, which an editor may have added.");
    printf("%s\n", note.text);
}

void print_notes(const trial *of) {
    line read;
    pieces all = lines_of(of->head);
    while (next_line(&all, &read)) {
        if (same_name(read.name, span_of_string("Content-Length"))) note_length(trimmed(read.value), of->body);
        if (same_name(read.name, span_of_string("Transfer-Encoding"))) {
            printf("Note: the head has Transfer-Encoding. The body was taken as it stands in the file; a portal's gate is lent the "
                   "body without its chunks.\n");
        }
    }
}
