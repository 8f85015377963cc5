/*
 * check-client REPLY VALUE REQUEST: tries a client that somebody else wrote. It tells whether the request that the client
 * made fits the setup reply that it got, and if not, the first rule that is broken and what was found where.
 *
 * The number is the library's, by gate_fits. What was found where is this program's own reading of the files, which no
 * proof speaks of: it only puts the number into words.
 */
#include "explain.h"
#include "gate.h"
#include "request.h"
#include "signed.h"

#include <errno.h>
#include <stdio.h>
#include <stdlib.h>

#define FILE_MAX ((size_t)1 << 20)

enum { FITS = 0, FITS_NOT = 1, NOT_TRIED = 2 };

static const char usage[] = "usage: check-client REPLY VALUE REQUEST, or check-client --help\n";

static const char help[] =
    "check-client REPLY VALUE REQUEST\n"
    "\n"
    "Tries a client: does the request that it made fit the setup reply that it got?\n"
    "\n"
    "  REPLY    a file with the X-S-Armor value of the setup reply: s:..;iv:..;tag:..;kh:..;h:..;ah:.. and perhaps ;eah:..\n"
    "  VALUE    a file with the X-S-Armor value that the client made for the request\n"
    "  REQUEST  a file with the request as it goes over the wire: the request line, the header lines, a blank line, the body;\n"
    "           all lines but the body's end with CR LF. An X-S-Armor line in it is a line like any other.\n"
    "\n"
    "One line end after the value in REPLY and VALUE is no part of it. No file may have more than 1,048,576 bytes.\n"
    "\n"
    "The first line of output is 'fit', or the number of the first rule broken and what was found where:\n"
    "\n"
    "   1  something has a size that is not allowed\n"
    "  23  no setup writes such a reply\n"
    "   4  a field of the value breaks the grammar\n"
    "   5  the value has the wrong set of fields\n"
    "   6  the method or a header line is malformed\n"
    "   7  a covered name that is no list field stands on several lines\n"
    "   8  h, ah, eah, s, iv or tag is not the reply's, or c is not of the length that h asks for\n"
    "  11  c is not the code of the signed text, which is then printed part by part, each as its netstring;\n"
    "      a byte outside 32 to 126 and the backslash are shown as \\xNN\n"
    "\n"
    "They are tried in this order. The gate that wrote the reply carries a request that is 'fit' past its signature; what it\n"
    "checks by its clock and by its table of sessions cannot be told from here. docs/RULES.md has the rules.\n"
    "\n"
    "Exit status: 0 for fit, 1 for a rule broken, 2 for files that cannot be read or are no request.\n";

/* Says why nothing was tried. */
static int give_up(const char *name, const char *what, const char *why) {
    fprintf(stderr, "check-client: %s: %s%s\n", name, what, why);
    return 0;
}

/* Reads a file whole. The room that is left is handed back, so that a tool which watches memory sees where the file ends. */
static int read_file(const char *name, span *into) {
    FILE *file = fopen(name, "rb");
    if (file == NULL) return give_up(name, "cannot be read: ", strerror(errno));
    uint8_t *bytes = malloc(FILE_MAX + 1);
    size_t length = bytes != NULL ? fread(bytes, 1, FILE_MAX + 1, file) : 0;
    const char *why = bytes == NULL ? "no memory" : ferror(file) ? strerror(errno) : length > FILE_MAX ? "more than 1,048,576 bytes" : NULL;
    fclose(file);
    if (why != NULL) {
        free(bytes);
        return give_up(name, "cannot be read: ", why);
    }
    uint8_t *kept = realloc(bytes, length > 0 ? length : 1);
    *into = span_of(kept != NULL ? kept : bytes, length);
    return 1;
}

/* A value from a file: one line end at its very end is the file's. */
static span value_of(span file) {
    size_t length = file.length;
    if (length > 0 && file.at[length - 1] == '\n') length--;
    if (length < file.length && length > 0 && file.at[length - 1] == '\r') length--;
    return part(file, 0, length);
}

static gate_run lent(span bytes) { return gate_bytes(bytes.at, bytes.length); }

/* A client has no set-aside lines. */
static unsigned fits(const trial *of) {
    gate_request request = {lent(of->value), lent(of->method), lent(of->head), gate_bytes(NULL, 0), lent(of->path), lent(of->body)};
    return gate_fits_request(lent(of->reply), &request).number;
}

/* The status, unless what was said could not be written. */
static int written(int status) {
    if (fflush(stdout) == 0 && !ferror(stdout)) return status;
    give_up("standard output", "cannot be written", "");
    return NOT_TRIED;
}

static int answer(const trial *of) {
    unsigned number = fits(of);
    sentence found = empty_sentence();
    explain(number, of, &found);
    if (number == GATE_ACCEPTED) {
        printf("fit\n");
    } else {
        printf("%u %s\n", number, found.length > 0 ? found.text : gate_text(number));
    }
    if (number == GATE_BAD_SIGNATURE) print_signed_text(of);
    print_notes(of);
    return written(number == GATE_ACCEPTED ? FITS : FITS_NOT);
}

/* Tries what the three files hold. */
static int try_files(char **names, const span *files) {
    trial of = {value_of(files[0]), value_of(files[1]), files[2], files[2], files[2], files[2]};
    sentence why = empty_sentence();
    if (read_request(files[2], &of, &why)) return answer(&of);
    give_up(names[2], "no request: ", why.text);
    return NOT_TRIED;
}

int main(int count, char **arguments) {
    span files[3] = {{NULL, 0}, {NULL, 0}, {NULL, 0}};
    int status = NOT_TRIED, read = 0;
    if (count == 2 && strcmp(arguments[1], "--help") == 0) {
        fputs(help, stdout);
        return written(FITS);
    }
    if (count != 4) {
        fputs(usage, stderr);
        return NOT_TRIED;
    }
    while (read < 3 && read_file(arguments[read + 1], &files[read])) read++;
    if (read == 3) status = try_files(arguments + 1, files);
    for (int i = 0; i < 3; i++) free((void *)files[i].at);
    return status;
}
