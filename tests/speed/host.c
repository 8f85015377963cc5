/* A C host that measures the calls of a call file (tests/speed/requests.py). A call that is timed or counted must be accepted.

     host FILE time      the time of each call, median and best of the turns, what 4,096 records cost of what 64 do, and a request of what the hash of its body does
     host FILE stack     how deep each call writes its stack
     host FILE once I    call number I alone, once: for a profiler */
#define _POSIX_C_SOURCE 200809L
#include <stdint.h>
#include <stdio.h>
#include <stdlib.h>
#include <string.h>
#include <time.h>
#include <ucontext.h>

typedef struct {
    uint8_t *bytes;
    size_t len;
} run;

#define IN(name) const uint8_t *name, size_t name##_len
#define OUT(name) uint8_t *name, size_t name##_len
#define LIMITS uint32_t request_life, uint32_t idle, uint32_t session_life, uint32_t clock

uint32_t gate_setup(uint64_t mask, uint64_t hashes, IN(extra), LIMITS, IN(server_key), IN(session_key), IN(iv), IN(session_id),
                    IN(value), OUT(table), OUT(index), OUT(reply));
uint32_t gate_judge(uint64_t mask, uint64_t hashes, IN(extra), LIMITS, IN(server_key), IN(value), IN(method), IN(head),
                    IN(aside), IN(path), IN(body), OUT(table), OUT(index), OUT(reply));
uint32_t gate_end(IN(iv), OUT(table), OUT(index));
uint32_t gate_index(IN(table), OUT(index));
uint32_t prim_sha512(IN(text), OUT(out));
uint32_t prim_sha256(IN(text), OUT(out));

enum { SETUP, JUDGE, END, INDEX, SHA_512, SHA_256, KINDS };

static const struct {
    const char *name;
    int orders; /* whether it takes orders and a clock */
    size_t runs;
} kinds[KINDS] = {{"setup", 1, 6}, {"judge", 1, 8}, {"end", 0, 1}, {"index", 0, 0}, {"sha512", 0, 1}, {"sha256", 0, 1}};

enum { MOST_CALLS = 64, MOST_RUNS = 8, MOST_RECORDS = 4096, TURNS = 15, STACK = 1 << 18, PAINT = 0xa5 };

static const double TURN = 0.02;

typedef struct {
    int kind;
    uint64_t mask, hashes;
    uint32_t limits[4];
    run runs[MOST_RUNS]; /* in the order of the call, without table, index and reply */
    run table, index;
    double turns[TURNS]; /* seconds, in the end the shortest first */
    char name[80];
} call;

static call calls[MOST_CALLS];
static size_t count;
static uint8_t table[MOST_RECORDS * 31], table_index[MOST_RECORDS * 2], reply[1024];

static void fail(const char *what) {
    fprintf(stderr, "%s\n", what);
    exit(1);
}

/* Reading the file */

static char *word(void) {
    char *found = strtok(NULL, " \n");
    if (!found) fail("a field is missing");
    return found;
}

static uint64_t number(void) { return strtoull(word(), NULL, 10); }

static run bytes(void) {
    const char *text = word();
    run r = {malloc(strlen(text) / 2 + 1), 0};
    if (!r.bytes) fail("no memory");
    for (; text[0] && text[0] != '-'; text += 2) {
        char digits[3] = {text[0], text[1], 0};
        r.bytes[r.len++] = (uint8_t)strtoul(digits, NULL, 16);
    }
    return r;
}

static void read_call(call *c) {
    size_t at = 0;
    if (kinds[c->kind].orders) {
        c->mask = number();
        c->hashes = number();
        c->runs[at++] = bytes();
        for (int i = 0; i < 4; i++) c->limits[i] = (uint32_t)number();
    }
    while (at < kinds[c->kind].runs) c->runs[at++] = bytes();
}

/* Each call stands behind its own table. */
static void read_line(char *line) {
    const char *name = strtok(line, " \n");
    call *c = &calls[count];
    if (!strcmp(name, "table")) {
        c->table = bytes();
        c->index = bytes();
        if (c->table.len > sizeof table || c->index.len > sizeof table_index) fail("too much");
    }
    for (c->kind = 0; c->kind < KINDS && strcmp(name, kinds[c->kind].name); c->kind++) {}
    if (c->kind < KINDS) {
        read_call(c);
        if (++count == MOST_CALLS) fail("too much");
    }
}

static void read_calls(const char *path) {
    char *line = NULL, beside[4096];
    size_t size = 0;
    FILE *file = fopen(path, "r");
    if (!file) fail("no call file");
    while (getline(&line, &size, file) > 0) read_line(line);
    fclose(file);
    snprintf(beside, sizeof beside, "%s.names", path);
    if (!(file = fopen(beside, "r"))) fail("no names");
    for (size_t i = 0; i < count; i++)
        if (!fgets(calls[i].name, sizeof calls[i].name, file)) fail("a name is missing");
        else calls[i].name[strcspn(calls[i].name, "\n")] = 0;
    fclose(file);
    free(line);
}

/* Making a call */

#define RUN(i) c->runs[i].bytes, c->runs[i].len
#define LENT table, c->table.len, table_index, c->index.len
#define ORDERS c->mask, c->hashes, RUN(0), c->limits[0], c->limits[1], c->limits[2], c->limits[3]

static uint32_t answer(const call *c) {
    switch (c->kind) {
    case SETUP:
        return gate_setup(ORDERS, RUN(1), RUN(2), RUN(3), RUN(4), RUN(5), LENT, reply, sizeof reply);
    case JUDGE:
        return gate_judge(ORDERS, RUN(1), RUN(2), RUN(3), RUN(4), RUN(5), RUN(6), RUN(7), LENT, reply, sizeof reply);
    case END:
        return gate_end(RUN(0), LENT);
    case INDEX:
        return gate_index(LENT);
    case SHA_512:
        return prim_sha512(RUN(0), reply, 64);
    default:
        return prim_sha256(RUN(0), reply, 32);
    }
}

static void make(const call *c) {
    if (answer(c) % 256) fail("not accepted");
}

static void lend(const call *c) {
    memcpy(table, c->table.bytes, c->table.len);
    memcpy(table_index, c->index.bytes, c->index.len);
}

/* Bytes of a run, from the first up to the last, which is not with them */
typedef struct {
    size_t from, to;
} part;

static part changed(const uint8_t *now, run before) {
    part p = {0, before.len};
    while (p.from < p.to && now[p.from] == before.bytes[p.from]) p.from++;
    while (p.from < p.to && now[p.to - 1] == before.bytes[p.to - 1]) p.to--;
    return p;
}

static void restore(uint8_t *now, run before, part p) { memcpy(now + p.from, before.bytes + p.from, p.to - p.from); }

/* Time */

static double seconds(void) {
    struct timespec now;
    clock_gettime(CLOCK_MONOTONIC, &now);
    return (double)now.tv_sec + (double)now.tv_nsec * 1e-9;
}

static int by_size(const void *a, const void *b) {
    double x = *(const double *)a, y = *(const double *)b;
    return (x > y) - (x < y);
}

/* The call is made once before, so that what is timed restores no more of table and index than the call changes. */
static double take_turn(const call *c) {
    lend(c);
    make(c);
    const part in_table = changed(table, c->table), in_index = changed(table_index, c->index);
    double start = seconds(), end;
    unsigned made = 0;
    do {
        for (int i = 0; i < 16; i++) {
            restore(table, c->table, in_table);
            restore(table_index, c->index, in_index);
            make(c);
        }
        made += 16;
        end = seconds();
    } while (end - start < TURN);
    return (end - start) / made;
}

/* A turn of each call and then the next of each, so that a slow minute of the machine falls on all of them. */
static void take_turns(void) {
    for (int turn = 0; turn < TURNS; turn++)
        for (size_t i = 0; i < count; i++) calls[i].turns[turn] = take_turn(&calls[i]);
    for (size_t i = 0; i < count; i++) qsort(calls[i].turns, TURNS, sizeof calls[i].turns[0], by_size);
}

static size_t lent_bytes(const call *c) {
    size_t sum = c->table.len + c->index.len;
    for (int i = 0; i < MOST_RUNS; i++) sum += c->runs[i].len;
    return sum;
}

static double median(const call *c) { return c->turns[TURNS / 2]; }

static double best(const call *c) { return c->turns[0]; }

/* How much of a name stands before this end; 0 where it has another */
static size_t before(const char *name, const char *end) {
    size_t whole = strlen(name), last = strlen(end);
    return whole > last && !strcmp(name + whole - last, end) ? whole - last : 0;
}

/* Of each two calls whose names differ in these ends alone, how often the time of the second goes into that of the first */
static void print_ratios(const char *many, const char *few) {
    for (const call *a = calls; a < calls + count; a++)
        for (const call *b = calls; b < calls + count; b++) {
            size_t same = before(a->name, many);
            if (same && same == before(b->name, few) && !strncmp(a->name, b->name, same))
                printf("%-36s median %8.2f times, best %8.2f times that of%s\n", a->name, median(a) / median(b), best(a) / best(b), few);
        }
}

static void print_times(void) {
    take_turns();
    for (const call *c = calls; c < calls + count; c++) {
        size_t lent = lent_bytes(c);
        printf("%-36s median %8.1f us, best %8.1f us; %6zu bytes lent, %6.1f MB/s\n", c->name, median(c) * 1e6, best(c) * 1e6, lent,
               (double)lent / median(c) * 1e-6);
    }
    print_ratios(" 4096 records", " 64 records");
    print_ratios(" judged", " hashed");
    print_ratios(" lines of 4 bytes, 55 names", " small");
    print_ratios(" lines of 4 bytes, 63 names", " small");
    print_ratios(" TE on lines of 5 bytes", " small");
    print_ratios(" 12 list fields around others", " small");
}

/* Stack: the call runs on one that was painted, and the paint that is gone tells how deep it went */

static ucontext_t here, there;
static const call *chosen;
static uint32_t answered;

static void nothing(void) { answered = 0; }

static void chosen_call(void) { answered = answer(chosen); }

static size_t depth(void (*work)(void)) {
    static uint8_t stack[STACK];
    size_t whole = 0;
    memset(stack, PAINT, sizeof stack);
    getcontext(&there);
    there.uc_stack.ss_sp = stack;
    there.uc_stack.ss_size = sizeof stack;
    there.uc_link = &here;
    makecontext(&there, work, 0);
    swapcontext(&here, &there);
    while (stack[whole] == PAINT) whole++;
    return sizeof stack - whole;
}

static void print_depths(void) {
    size_t own = depth(nothing);
    for (size_t i = 0; i < count; i++) {
        chosen = &calls[i];
        lend(chosen);
        size_t deep = depth(chosen_call) - own;
        printf("%-36s %6zu bytes, answers %u\n", calls[i].name, deep, answered % 256);
    }
}

int main(int argc, char **argv) {
    if (argc < 3) fail("host FILE time | stack | once I");
    read_calls(argv[1]);
    if (!strcmp(argv[2], "time")) print_times();
    else if (!strcmp(argv[2], "stack")) print_depths();
    else if (argc > 3 && strtoul(argv[3], NULL, 10) < count) {
        const call *c = &calls[strtoul(argv[3], NULL, 10)];
        lend(c);
        make(c);
    }
    return 0;
}
