/*
 * Plays a scanner's calls, by the raw ones of include/scanner.h, and prints the answer to each. tests/lending.h says how it is
 * called and how it ends. State and out stay where they are from call to call.
 */
#define _GNU_SOURCE
#include "scanner.h"

#define ROOM ((size_t)1 << 17)

/* Of a line: scanner_sign and its five arguments. */
#define MOST_WORDS 6

enum which { SETUP_REPLY, METHOD, HEAD, PATH, BODY, VALUE, STATE, OUT, RUNS };

static const char *const run_names[RUNS] = {"setup reply", "method", "head", "path", "body", "value", "state", "out"};

#include "../lending.h"

static uint32_t number32(void) { return (uint32_t)number_up_to(UINT32_MAX); }

static void set_state(void) { fill_next(STATE); }

static void set_out(void) { fill_alike(OUT); }

static void keep_both(void) {
    keep(STATE);
    keep(OUT);
}

static void print_answer(scanner_answer answer) {
    printf("%u %zu", answer.number, answer.length);
    print_left(OUT);
    print_left(STATE);
    putchar('\n');
}

static void play_begin(void) {
    uint32_t time = number32();
    lend_next(SETUP_REPLY);
    keep_both();
    print_answer(scanner_answer_of(
        scanner_begin(time, at(SETUP_REPLY), length_of(SETUP_REPLY), runs[STATE].bytes, length_of(STATE))));
}

static void play_sign(void) {
    uint32_t clock = number32();
    for (enum which i = METHOD; i <= BODY; i++) lend_next(i);
    keep_both();
    print_answer(scanner_answer_of(scanner_sign(
        clock, at(METHOD), length_of(METHOD), at(HEAD), length_of(HEAD), at(PATH), length_of(PATH), at(BODY), length_of(BODY),
        runs[STATE].bytes, length_of(STATE), runs[OUT].bytes, length_of(OUT))));
}

static void play_hear(void) {
    lend_next(VALUE);
    keep_both();
    print_answer(scanner_answer_of(scanner_hear(at(VALUE), length_of(VALUE), runs[STATE].bytes, length_of(STATE))));
}

int main(int count, char **arguments) {
    static const struct kind kinds[] = {{"state", 2, set_state},
                                        {"out", 3, set_out},
                                        {"scanner_begin", 3, play_begin},
                                        {"scanner_sign", 6, play_sign},
                                        {"scanner_hear", 2, play_hear}};
    return play_file(count, arguments, kinds, sizeof kinds / sizeof kinds[0]);
}
