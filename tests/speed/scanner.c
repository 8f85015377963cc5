/* Measures the scanner's three calls over include/scanner.h: best and median of the turns. Each call that is timed is answered 0. */
#define _POSIX_C_SOURCE 200809L
#include "scanner.h"

#include <stdio.h>
#include <stdlib.h>
#include <time.h>

enum { TURNS = 15, CALLS = 2000 };

/* Two replies of one session, which covers nonces, Host and Cookie: README.md's key and IV. */
static const char *const replies[] = {
    "s:qBj9u/QaBd5qj8WNCh+JqgksxgOrPIdcCE+CPI01Nx0MIeWoqCO58Q5mqnoMC9/vYY/z3JePZAudogztXwg=;iv:aGFuZC1zY2FubmVy;"
    "tag:rWJoOp8IgH3UqZOfX3T+Ww==;kh:AAECAwQFBgcICQoLDA0ODxAREhMUFRYXGBkaGxwdHh8=;h:AQE=;ah:AgED",
    "s:qBj9u/QaBd5qj8WNCh+JqgksxgOrPIdcCE+CPI01Nx0MIeWoqCO58Q5mqnoMC9/vYY/z3JePZAudogztXwg=;iv:aGFuZC1zY2FubmVy;"
    "tag:rWJoOp8IgH3UqZOfX3T+Ww==;kh:AAECAwQFBgcICQoLDA0ODxAREhMUFRYXGBkaGxwdHh8=;h:AQQ=;ah:AgED"};

static const char head[] = "Host: parts.example\r\nUser-Agent: scanner\r\nAccept: */*\r\nCookie: seat=4\r\n";
static uint8_t body[SCANNER_BODY_MAX], out[SCANNER_OUT_MIN];
static scanner own;

static double now(void) {
    struct timespec t;
    clock_gettime(CLOCK_MONOTONIC, &t);
    return (double)t.tv_sec + (double)t.tv_nsec / 1e9;
}

static void done(unsigned number) {
    if (number != SCANNER_DONE) {
        fprintf(stderr, "%s\n", scanner_text(number));
        exit(1);
    }
}

static void begin(int hash) { done(scanner_begin_session(&own, 1794787200, scanner_string(replies[hash]))); }

static void sign(size_t length) {
    scanner_request request = {scanner_string("POST"), scanner_string(head), scanner_string("/stock"), scanner_bytes(body, length)};
    done(scanner_sign_request(&own, 1794787205, &request, scanner_room_of(out, sizeof out)).number);
}

static int by_time(const void *a, const void *b) {
    double x = *(const double *)a, y = *(const double *)b;
    return (x > y) - (x < y);
}

/* One call of a kind: 0 begins a session, 1 signs a body of some bytes. */
static void measure(const char *name, int hash, int kind, size_t length) {
    double turns[TURNS];
    int calls = length > 4096 ? CALLS / 20 : CALLS;
    begin(hash);
    for (int i = 0; i < TURNS; i++) {
        double from = now();
        for (int k = 0; k < calls; k++) kind ? sign(length) : begin(hash);
        turns[i] = (now() - from) / calls;
    }
    qsort(turns, TURNS, sizeof *turns, by_time);
    printf("%-40s best %7.2f, median %7.2f microseconds\n", name, turns[0] * 1e6, turns[TURNS / 2] * 1e6);
}

int main(void) {
    measure("scanner_begin", 0, 0, 0);
    measure("scanner_sign, 200 bytes, SHA-256", 0, 1, 200);
    measure("scanner_sign, 200 bytes, SHA-512", 1, 1, 200);
    measure("scanner_sign, 64 KiB, SHA-256", 0, 1, sizeof body);
    measure("scanner_sign, 64 KiB, SHA-512", 1, 1, sizeof body);
    return 0;
}
