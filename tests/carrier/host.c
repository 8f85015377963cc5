/*
 * Plays a call file of the second program (its format: tests/second/README.md) through include/carrier.h, and prints the
 * answer to each call.
 *
 *     host end CALLS      each lent run ends where memory begins that nobody may touch
 *     host begin CALLS    each begins where such memory ends
 *     host heap CALLS     each is an allocation of just its size, which valgrind watches
 *
 * In the first two, a run that is lent to be read cannot be written to during its call. A touch that is not allowed ends the
 * program with status 1, a malformed line with status 2; either with a message on standard error that names the line.
 */
#define _GNU_SOURCE
#include "carrier.h"

#include <signal.h>
#include <stdio.h>
#include <stdlib.h>
#include <string.h>
#include <sys/mman.h>
#include <unistd.h>

/* Whole pages on every machine, whatever their size. */
#define GUARD ((size_t)1 << 16)
#define ROOM ((size_t)1 << 16)

/* Of a line: a call and its eleven arguments. */
#define MOST_WORDS 12

enum place { AT_END, AT_BEGIN, ON_HEAP };

enum which { METHOD, AUTHORITY, PATH, LINES, NAMES, LABEL, KEY_ID, KEY, INPUT, SIGNATURE, OUT, CREATED, RUNS };

static const char *const run_names[RUNS] = {"method", "authority", "path",  "lines",     "names", "label",
                                            "key id", "key",       "input", "signature", "out",   "created"};

static struct run {
    uint8_t *room;
    uint8_t *bytes;
    size_t length;
} runs[RUNS];

static enum place place;
static unsigned long line_number;

static void give_up(const char *why) {
    if (line_number > 0) fprintf(stderr, "line %lu: ", line_number);
    fprintf(stderr, "%s\n", why);
    exit(2);
}

/* ---- Lending ---- */

static void make_rooms(void) {
    for (int i = 0; i < RUNS; i++) {
        size_t whole = ROOM + 3 * GUARD; /* with what is lost to begin at a multiple of GUARD */
        uint8_t *found = mmap(NULL, whole, PROT_NONE, MAP_PRIVATE | MAP_ANONYMOUS, -1, 0);
        if (found == MAP_FAILED) give_up("no memory");
        runs[i].room = found + GUARD + (GUARD - (uintptr_t)found % GUARD) % GUARD;
    }
}

static void protect(enum which which, int how) {
    if (place != ON_HEAP && mprotect(runs[which].room, ROOM, how) != 0) give_up("no protection");
}

/* Room for a run of this length, to be filled before it is lent. */
static uint8_t *room_for(enum which which, size_t length) {
    struct run *run = &runs[which];
    run->length = length;
    if (place == ON_HEAP) {
        free(run->bytes);
        run->bytes = malloc(length);
        if (run->bytes == NULL) give_up("no memory");
    } else {
        protect(which, PROT_READ | PROT_WRITE);
        run->bytes = place == AT_END ? run->room + ROOM - length : run->room;
    }
    return run->bytes;
}

static carrier_run lent(enum which which) { return carrier_bytes(runs[which].bytes, runs[which].length); }

static const uint8_t *at(enum which which) { return runs[which].bytes; }

static size_t length_of(enum which which) { return runs[which].length; }

/* An emulator may enter a handler with a stack that is not aligned: QEMU 7.2 does. */
__attribute__((force_align_arg_pointer)) static void touched(int number, siginfo_t *info, void *context) {
    (void)number;
    (void)context;
    uint8_t *byte = info->si_addr;
    fprintf(stderr, "line %lu: a touch at %p is not allowed\n", line_number, info->si_addr);
    for (int i = 0; i < RUNS; i++) {
        if (byte >= runs[i].room - GUARD && byte < runs[i].room + ROOM + GUARD) {
            fprintf(stderr, "byte %ld of %s, which has %zu\n", (long)(byte - runs[i].bytes), run_names[i], runs[i].length);
        }
    }
    fflush(stdout);
    _exit(1);
}

static void watch(void) {
    struct sigaction action;
    memset(&action, 0, sizeof action);
    action.sa_sigaction = touched;
    action.sa_flags = SA_SIGINFO;
    if (sigaction(SIGSEGV, &action, NULL) != 0 || sigaction(SIGBUS, &action, NULL) != 0) give_up("no handler");
}

/* ---- Reading ---- */

/* The words of the line that is read, and the next of them. */
static const char *words[MOST_WORDS];
static size_t word_count, next_word;

/* One space stands between words: two in a row hold an empty word, which is neither a number nor a byte run. */
static void split(char *line) {
    word_count = next_word = 0;
    for (char *rest = line; rest != NULL;) {
        if (word_count == MOST_WORDS) give_up("wrong number of words");
        words[word_count++] = rest;
        rest = strchr(rest, ' ');
        if (rest != NULL) *rest++ = 0;
    }
}

static uint64_t number_up_to(uint64_t most) {
    const char *text = words[next_word++];
    uint64_t value = 0;
    if (*text == 0) give_up("no number");
    for (; *text != 0; text++) {
        if (*text < '0' || *text > '9') give_up("no number");
        uint64_t digit = (uint64_t)(*text - '0');
        if (digit > most || value > (most - digit) / 10) give_up("a number is out of range");
        value = 10 * value + digit;
    }
    return value;
}

static uint8_t hex_digit(char c) {
    if (c >= '0' && c <= '9') return (uint8_t)(c - '0');
    if (c >= 'a' && c <= 'f') return (uint8_t)(c - 'a' + 10);
    give_up("no byte run");
    return 0;
}

static size_t hex_length(const char *hex) {
    size_t digits = strlen(hex);
    if (strcmp(hex, "-") == 0) return 0;
    if (digits == 0 || digits % 2 != 0) give_up("no byte run");
    if (digits / 2 > ROOM) give_up("a byte run is too long");
    return digits / 2;
}

/* The next word's bytes, in a room that may be written to. */
static void fill_next(enum which which) {
    const char *hex = words[next_word++];
    size_t length = hex_length(hex);
    uint8_t *bytes = room_for(which, length);
    for (size_t i = 0; i < length; i++) bytes[i] = (uint8_t)(hex_digit(hex[2 * i]) << 4 | hex_digit(hex[2 * i + 1]));
}

static void lend_next(enum which which) {
    fill_next(which);
    protect(which, PROT_READ);
}

/* ---- Answering ---- */

/* What the call may write to, as it was before. */
static uint8_t kept[ROOM];

static void keep(enum which which) { memcpy(kept, at(which), length_of(which)); }

static void print_answer(unsigned number, size_t length, enum which written) {
    printf("%u %zu ", number, length);
    if (memcmp(kept, at(written), length_of(written)) == 0) {
        putchar('=');
    } else {
        for (size_t i = 0; i < length_of(written); i++) printf("%02x", at(written)[i]);
    }
    putchar('\n');
}

/* ---- The calls ---- */

static void play_sign(void) {
    for (enum which i = METHOD; i <= NAMES; i++) lend_next(i);
    uint64_t created = number_up_to(UINT64_MAX);
    for (enum which i = LABEL; i <= KEY; i++) lend_next(i);
    size_t size = (size_t)number_up_to(ROOM);
    memset(room_for(OUT, size), (int)number_up_to(UINT8_MAX), size);
    keep(OUT);
    const carrier_message message = {lent(METHOD), lent(AUTHORITY), lent(PATH), lent(LINES)};
    const carrier_terms terms = {lent(NAMES), lent(LABEL), lent(KEY_ID), lent(KEY)};
    carrier_answer answer = carrier_sign_message(&message, &terms, created, carrier_room_of(runs[OUT].bytes, size));
    print_answer(answer.number, answer.length, OUT);
}

/* By the raw call, since the inline one lends a created of its own. */
static void play_verify(void) {
    for (enum which i = METHOD; i <= SIGNATURE; i++) lend_next(i);
    fill_next(CREATED);
    keep(CREATED);
    uint32_t number = carrier_verify(
        at(METHOD), length_of(METHOD), at(AUTHORITY), length_of(AUTHORITY), at(PATH), length_of(PATH), at(LINES),
        length_of(LINES), at(NAMES), length_of(NAMES), at(LABEL), length_of(LABEL), at(KEY_ID), length_of(KEY_ID), at(KEY),
        length_of(KEY), at(INPUT), length_of(INPUT), at(SIGNATURE), length_of(SIGNATURE), runs[CREATED].bytes,
        length_of(CREATED));
    print_answer(number, 0, CREATED);
}

static void play(char *line) {
    split(line);
    const char *kind = words[next_word++];
    void (*call)(void) = strcmp(kind, "sign") == 0 ? play_sign : strcmp(kind, "verify") == 0 ? play_verify : NULL;
    if (call == NULL) give_up("no such call");
    if (word_count != MOST_WORDS) give_up("wrong number of words"); /* both have as many */
    call();
}

static enum place place_named(const char *name) {
    if (strcmp(name, "end") == 0) return AT_END;
    if (strcmp(name, "begin") == 0) return AT_BEGIN;
    if (strcmp(name, "heap") == 0) return ON_HEAP;
    give_up("no such place");
    return ON_HEAP;
}

int main(int count, char **arguments) {
    if (count != 3) give_up("usage: host end|begin|heap CALLS");
    place = place_named(arguments[1]);
    FILE *calls = fopen(arguments[2], "r");
    if (calls == NULL) give_up("no such file");
    make_rooms();
    watch();
    char *line = NULL;
    size_t size = 0;
    ssize_t length;
    while ((length = getline(&line, &size, calls)) > 0) {
        line_number++;
        if (line[length - 1] != '\n') give_up("no line feed at its end");
        line[length - 1] = 0;
        if (strlen(line) != (size_t)length - 1) give_up("a zero byte");
        play(line);
    }
    if (!feof(calls)) give_up("the file cannot be read");
    return 0;
}
