/*
 * Plays a call file of the second program (its format: tests/second/README.md) through include/gate.h, and prints the
 * answer to each call.
 *
 *     host end CALLS      each lent run ends where memory begins that nobody may touch
 *     host begin CALLS    each begins where such memory ends
 *     host heap CALLS     each is an allocation of just its size, which valgrind watches
 *
 * In the first two, a run that is lent to be read cannot be written to during its call, and each call has a stack of its
 * own, whose depth is measured. A touch that is not allowed ends the program with status 1; a malformed line, or a stack that
 * grows too deep, with status 2; either with a message on standard error that names the line. Last, the deepest stack of each
 * kind of call is told there.
 */
#define _GNU_SOURCE
#include "gate.h"

#include <signal.h>
#include <stdio.h>
#include <stdlib.h>
#include <string.h>
#include <sys/mman.h>
#include <ucontext.h>
#include <unistd.h>

/* Whole pages on every machine, whatever their size. */
#define GUARD ((size_t)1 << 16)
#define ROOM ((size_t)1 << 18)

/* Room for a call's stack, the byte that it is filled with beforehand, and how deep a call may go: the 6,144 bytes that its
   machine code is held to, and what this host puts before them. */
#define STACK ((size_t)1 << 16)
#define UNTOUCHED 0xa5
#define DEEPEST (6144 + 512)

/* Of a line: a judge and its fourteen arguments. */
#define MOST_WORDS 15

enum place { AT_END, AT_BEGIN, ON_HEAP };

enum kind { SETUP, JUDGE, ONE, END, MAKE_INDEX, FITS, KINDS };

enum which {
    EXTRA, SERVER_KEY, SESSION_KEY, IV, SESSION_ID, VALUE, METHOD, HEAD, ASIDE, PATH, BODY, TABLE, INDEX, RECORD, REPLY,
    SETUP_REPLY, RUNS
};

struct run {
    const char *name;
    uint8_t *room;
    uint8_t *bytes;
    size_t length;
};

static struct run runs[RUNS] = {
    {"extra names", NULL, NULL, 0}, {"server key", NULL, NULL, 0}, {"session key", NULL, NULL, 0},
    {"IV", NULL, NULL, 0},          {"session id", NULL, NULL, 0}, {"value", NULL, NULL, 0},
    {"method", NULL, NULL, 0},      {"head", NULL, NULL, 0},       {"set-aside", NULL, NULL, 0},
    {"path", NULL, NULL, 0},        {"body", NULL, NULL, 0},       {"table", NULL, NULL, 0},
    {"index", NULL, NULL, 0},       {"record", NULL, NULL, 0},     {"reply", NULL, NULL, 0},
    {"setup reply", NULL, NULL, 0},
};

static enum place place;
static unsigned long line_number;

/* What goes on from call to call. */
static uint8_t table[ROOM], table_index[ROOM], reply[ROOM];
static size_t table_length, index_length, reply_length;

static void give_up(const char *why) {
    if (line_number > 0) fprintf(stderr, "line %lu: ", line_number);
    fprintf(stderr, "%s\n", why);
    exit(2);
}

/* ---- Lending ---- */

static void make_rooms(void) {
    for (int i = 0; i < RUNS; i++) {
        size_t whole = ROOM + 3 * GUARD; /* with what is lost to begin at a multiple of GUARD */
        uint8_t *found = mmap(NULL, whole, PROT_NONE, MAP_PRIVATE | MAP_ANONYMOUS, -1, 0);
        if (found == MAP_FAILED) give_up("no memory");
        runs[i].room = found + GUARD + (GUARD - (uintptr_t)found % GUARD) % GUARD;
    }
}

static void protect(struct run *run, int how) {
    if (mprotect(run->room, ROOM, how) != 0) give_up("no protection");
}

/* Room for a run of this length, to be filled before it is lent. */
static uint8_t *room_for(enum which which, size_t length) {
    struct run *run = &runs[which];
    run->length = length;
    if (place == ON_HEAP) {
        free(run->bytes);
        run->bytes = malloc(length);
        if (run->bytes == NULL) give_up("no memory");
    } else {
        protect(run, PROT_READ | PROT_WRITE);
        run->bytes = place == AT_END ? run->room + ROOM - length : run->room;
    }
    return run->bytes;
}

static void read_only(enum which which) {
    if (place != ON_HEAP) protect(&runs[which], PROT_READ);
}

static gate_run lent(enum which which) { return gate_bytes(runs[which].bytes, runs[which].length); }

static gate_room lent_room(enum which which) { return gate_room_of(runs[which].bytes, runs[which].length); }

/* An emulator may enter a handler with a stack that is not aligned: QEMU 7.2 does. */
__attribute__((force_align_arg_pointer)) static void touched(int number, siginfo_t *info, void *context) {
    (void)number;
    (void)context;
    uint8_t *at = info->si_addr;
    fprintf(stderr, "line %lu: a touch at %p is not allowed\n", line_number, info->si_addr);
    for (int i = 0; i < RUNS; i++) {
        if (at >= runs[i].room - GUARD && at < runs[i].room + ROOM + GUARD) {
            fprintf(stderr, "byte %ld of %s, which has %zu\n", (long)(at - runs[i].bytes), runs[i].name, runs[i].length);
        }
    }
    fflush(stdout);
    _exit(1);
}

static void watch(void) {
    struct sigaction action;
    memset(&action, 0, sizeof action);
    action.sa_sigaction = touched;
    action.sa_flags = SA_SIGINFO;
    if (sigaction(SIGSEGV, &action, NULL) != 0 || sigaction(SIGBUS, &action, NULL) != 0) give_up("no handler");
}

/* ---- Reading ---- */

/* The words of the line that is read, and the next of them. */
static const char *words[MOST_WORDS];
static size_t word_count, next_word;

/* One space stands between words: two in a row hold an empty word, which is neither a number nor a byte run. */
static void split(char *line) {
    word_count = next_word = 0;
    for (char *rest = line; rest != NULL;) {
        if (word_count == MOST_WORDS) give_up("wrong number of words");
        words[word_count++] = rest;
        rest = strchr(rest, ' ');
        if (rest != NULL) *rest++ = 0;
    }
}

static uint64_t number_up_to(uint64_t most) {
    const char *text = words[next_word++];
    uint64_t value = 0;
    if (*text == 0) give_up("no number");
    for (; *text != 0; text++) {
        if (*text < '0' || *text > '9') give_up("no number");
        uint64_t digit = (uint64_t)(*text - '0');
        if (digit > most || value > (most - digit) / 10) give_up("a number is out of range");
        value = 10 * value + digit;
    }
    return value;
}

static uint32_t number32(void) { return (uint32_t)number_up_to(UINT32_MAX); }

static uint8_t hex_digit(char c) {
    if (c >= '0' && c <= '9') return (uint8_t)(c - '0');
    if (c >= 'a' && c <= 'f') return (uint8_t)(c - 'a' + 10);
    give_up("no byte run");
    return 0;
}

static size_t hex_length(const char *hex) {
    size_t digits = strlen(hex);
    if (strcmp(hex, "-") == 0) return 0;
    if (digits == 0 || digits % 2 != 0) give_up("no byte run");
    if (digits / 2 > ROOM) give_up("a byte run is too long");
    return digits / 2;
}

static void read_hex(const char *hex, uint8_t *out, size_t length) {
    for (size_t i = 0; i < length; i++) out[i] = (uint8_t)(hex_digit(hex[2 * i]) << 4 | hex_digit(hex[2 * i + 1]));
}

static void lend_next(enum which which) {
    const char *hex = words[next_word++];
    size_t length = hex_length(hex);
    read_hex(hex, room_for(which, length), length);
    read_only(which);
}

/* The bytes of the next word, and how many there are. */
static size_t keep_next(uint8_t *kept) {
    const char *hex = words[next_word++];
    size_t length = hex_length(hex);
    read_hex(hex, kept, length);
    return length;
}

static void set_table(void) {
    table_length = keep_next(table);
    index_length = keep_next(table_index);
}

static void set_reply(void) {
    reply_length = (size_t)number_up_to(ROOM);
    memset(reply, (int)number_up_to(UINT8_MAX), reply_length);
}

/* ---- Answering ---- */

static void print_hex(const uint8_t *bytes, size_t length) {
    if (length == 0) putchar('-');
    for (size_t i = 0; i < length; i++) printf("%02x", bytes[i]);
}

/* Prints what a call left, `=` where every byte is as it was, and keeps it. */
static void print_left(const uint8_t *left, uint8_t *kept, size_t length) {
    putchar(' ');
    if (memcmp(left, kept, length) == 0) {
        putchar('=');
    } else {
        print_hex(left, length);
        memcpy(kept, left, length);
    }
}

static void print_answer(gate_answer answer, const uint8_t *reply_left) {
    printf("%u %zu", answer.number, answer.length);
    print_left(reply_left, reply, reply_length);
    print_left(runs[TABLE].bytes, table, table_length);
    print_left(runs[INDEX].bytes, table_index, index_length);
    putchar('\n');
}

/* ---- The calls ---- */

/* What is asked next, and its answer. */
static struct {
    enum kind kind;
    gate_orders orders;
    uint32_t clock;
    gate_new_session session;
    gate_request request;
    gate_record *record;
    gate_answer answer;
} call;

static void perform(void) {
    const gate_run server_key = lent(SERVER_KEY);
    const gate_room in_table = lent_room(TABLE), in_index = lent_room(INDEX), in_reply = lent_room(REPLY);
    switch (call.kind) {
    case SETUP:
        call.answer = gate_set_up_session(&call.orders, call.clock, server_key, &call.session, in_table, in_index, in_reply);
        break;
    case JUDGE:
        call.answer = gate_judge_request(&call.orders, call.clock, server_key, &call.request, in_table, in_index, in_reply);
        break;
    case ONE:
        call.answer = gate_judge_one_request(&call.orders, call.clock, server_key, &call.request, call.record, in_reply);
        break;
    case END:
        call.answer = gate_end_session(lent(IV), in_table, in_index);
        break;
    case FITS:
        call.answer = gate_fits_request(lent(SETUP_REPLY), &call.request);
        break;
    default:
        call.answer = gate_make_index(lent(TABLE), in_index);
    }
}

static size_t deepest[KINDS];

/* Performs the call on a stack of its own, and notes how deep it went. */
static void perform_apart(void) {
    static uint8_t stack[STACK];
    static ucontext_t here, there;
    memset(stack, UNTOUCHED, sizeof stack);
    if (getcontext(&there) != 0) give_up("no context");
    there.uc_stack.ss_sp = stack;
    there.uc_stack.ss_size = sizeof stack;
    there.uc_link = &here;
    makecontext(&there, perform, 0);
    if (swapcontext(&here, &there) != 0) give_up("no context");
    size_t left = 0;
    while (left < sizeof stack && stack[left] == UNTOUCHED) left++;
    size_t depth = sizeof stack - left;
    if (depth > DEEPEST) give_up("the call went too deep into its stack");
    if (depth > deepest[call.kind]) deepest[call.kind] = depth;
}

static void print_deepest(void) {
    fprintf(stderr, "deepest stack in bytes: setup %zu, judge %zu, one %zu, end %zu, index %zu, fits %zu\n", deepest[SETUP],
            deepest[JUDGE], deepest[ONE], deepest[END], deepest[MAKE_INDEX], deepest[FITS]);
}

static void ask(enum kind kind) {
    call.kind = kind;
    if (place == ON_HEAP) perform(); else perform_apart();
}

static void read_site(void) {
    call.orders.mask = number_up_to(UINT64_MAX);
    call.orders.hashes = number_up_to(UINT64_MAX);
    lend_next(EXTRA);
    call.orders.extra = lent(EXTRA);
    call.orders.request_life = number32();
    call.orders.idle = number32();
    call.orders.session_life = number32();
    call.clock = number32();
    lend_next(SERVER_KEY);
}

static void read_request(void) {
    for (enum which i = VALUE; i <= BODY; i++) lend_next(i);
    const gate_request request = {lent(VALUE), lent(METHOD), lent(HEAD), lent(ASIDE), lent(PATH), lent(BODY)};
    call.request = request;
}

static void lend_kept(enum which which, const uint8_t *kept, size_t length) {
    memcpy(room_for(which, length), kept, length);
}

static void lend_table(void) {
    lend_kept(TABLE, table, table_length);
    lend_kept(INDEX, table_index, index_length);
}

static void make_index(void) {
    read_only(TABLE);
    ask(MAKE_INDEX);
}

static void play_setup(void) {
    read_site();
    for (enum which i = SESSION_KEY; i <= VALUE; i++) lend_next(i);
    const gate_new_session session = {lent(SESSION_KEY), lent(IV), lent(SESSION_ID), lent(VALUE)};
    call.session = session;
    lend_table();
    lend_kept(REPLY, reply, reply_length);
    ask(SETUP);
    print_answer(call.answer, runs[REPLY].bytes);
}

static void play_judge(void) {
    read_site();
    read_request();
    lend_table();
    lend_kept(REPLY, reply, reply_length);
    ask(JUDGE);
    print_answer(call.answer, runs[REPLY].bytes);
}

/* The table's first record, lent as a struct and put back; where it is free then, the index is made anew. */
static void play_one(void) {
    read_site();
    read_request();
    if (table_length < GATE_RECORD_BYTES) give_up("the table has no record");
    call.record = (gate_record *)(void *)room_for(RECORD, sizeof *call.record);
    *call.record = gate_record_at(table);
    lend_kept(REPLY, reply, reply_length);
    ask(ONE);
    const gate_answer answer = call.answer;
    lend_table();
    gate_put_record(runs[TABLE].bytes, call.record);
    if (answer.number == GATE_EXPIRED || answer.number == GATE_IDLE) make_index();
    print_answer(answer, runs[REPLY].bytes);
}

static void play_end(void) {
    lend_next(IV);
    lend_table();
    ask(END);
    print_answer(call.answer, reply);
}

static void play_index(void) {
    lend_table();
    make_index();
    print_answer(call.answer, reply);
}

/* Table, index and reply buffer are not lent: what stands beside the call has to stay as it is. */
static void play_fits(void) {
    lend_next(SETUP_REPLY);
    read_request();
    lend_table();
    ask(FITS);
    print_answer(call.answer, reply);
}

static void play(char *line) {
    static const struct {
        const char *name;
        size_t words;
        void (*play)(void);
    } kinds[] = {{"table", 3, set_table}, {"reply", 3, set_reply}, {"setup", 13, play_setup}, {"judge", 15, play_judge},
                 {"one", 15, play_one},   {"end", 2, play_end},    {"index", 1, play_index}, {"fits", 8, play_fits}};
    split(line);
    const char *kind = words[next_word++];
    for (size_t i = 0; i < sizeof kinds / sizeof kinds[0]; i++) {
        if (strcmp(kind, kinds[i].name) == 0) {
            if (word_count != kinds[i].words) give_up("wrong number of words");
            kinds[i].play();
            return;
        }
    }
    give_up("no such call");
}

static enum place place_named(const char *name) {
    if (strcmp(name, "end") == 0) return AT_END;
    if (strcmp(name, "begin") == 0) return AT_BEGIN;
    if (strcmp(name, "heap") == 0) return ON_HEAP;
    give_up("no such place");
    return ON_HEAP;
}

int main(int count, char **arguments) {
    if (count != 3) give_up("usage: host end|begin|heap CALLS");
    place = place_named(arguments[1]);
    FILE *calls = fopen(arguments[2], "r");
    if (calls == NULL) give_up("no such file");
    make_rooms();
    watch();
    char *line = NULL;
    size_t size = 0;
    ssize_t length;
    while ((length = getline(&line, &size, calls)) > 0) {
        line_number++;
        if (line[length - 1] != '\n') give_up("no line feed at its end");
        line[length - 1] = 0;
        if (strlen(line) != (size_t)length - 1) give_up("a zero byte");
        play(line);
    }
    if (!feof(calls)) give_up("the file cannot be read");
    if (place != ON_HEAP) print_deepest();
    return 0;
}
