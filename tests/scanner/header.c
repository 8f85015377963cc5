/*
 * include/scanner.h beside include/gate.h and include/carrier.h, in C and in C++: docs/RULES.md's example, refusals, null
 * pointers, texts. Prints a line for each test, and last 'N passed, M failed'. `header constants` prints what the header names
 * instead.
 */
#include "scanner.h"
#include "carrier.h"
#include "gate.h"

#include <stdio.h>
#include <string.h>

static int passed, failed;

static void expect(const char *what, int holds) {
    printf("%s: %s\n", holds ? "ok" : "FAILED", what);
    if (holds) passed++; else failed++;
}

/* The example of docs/RULES.md, where the request has the nonce 7. */

#define TOKEN "s:0YuUAwcepCfo4jAesk44d1TofWyGBzwXQnF53a4p1uelNsyA5oO9JkCabxu8PPPr+0ubBAPx2zGzLeY3Cw=="
#define SEALED "iv:QEFCQ0RFRkdISUpL;tag:ZckYUDPe5o/Ab/zCK/KKww=="
#define KEY "kh:ICEiIyQlJicoKSorLC0uLzAxMjM0NTY3ODk6Ozw9Pj8="
#define ORDERS "ah:AgED;eah:WC1EZWFsZXI="

static const struct example {
    const char *name, *reply, *value, *invalidation;
} examples[] = {
    {"SHA-512", TOKEN ";" SEALED ";" KEY ";h:AQQ=;" ORDERS,
     TOKEN ";c:ZUY8lGKYPFNFMNnrQbq7l9IBvnw9Q43EgKJUT0+04bFMoBcf7bzHEBzjWGYLOC0iKthvEu2pS1JxpQMVwjbxCw=="
           ";t:WcBGfw==;lt:WcBGQw==;" SEALED ";h:AQQ=;" ORDERS ";n:Bw==",
     "i:ocfP3bpjNASLah3zD3Vz1MYUzQhw48FMap2tk954cpmznnOlndyNiYfvjyU+kDEon4sAcBfgxEL3lMZPiwMPqA=="},
    {"SHA-256", TOKEN ";" SEALED ";" KEY ";h:AQE=;" ORDERS,
     TOKEN ";c:HWQSjgdm7u79CySnVW8dpLoOgL6StVBQcWRzRAU1res=;t:WcBGfw==;lt:WcBGQw==;" SEALED ";h:AQE=;" ORDERS ";n:Bw==",
     "i:7je5QtwuYBxXDAWHz/TlQD210HyYzolAIvcmHuJWr8M="},
};

static const uint32_t set_up = 1505773123, made = 1505773183;
static const unsigned nonce = 7;

static uint8_t out[SCANNER_OUT_MIN];
static scanner own;

static scanner_request example_request(void) {
    const scanner_request request = {scanner_string("POST"),
                                     scanner_string("Host:portal.example\r\nCookie: seat=4 \r\nX-Dealer:Brandt\r\n"),
                                     scanner_string("/orders"), scanner_string("belts=11")};
    return request;
}

static int all(const uint8_t *bytes, size_t count, uint8_t value) {
    for (size_t i = 0; i < count; i++) if (bytes[i] != value) return 0;
    return 1;
}

static scanner_answer sign(const scanner_request *request, uint32_t clock) {
    memset(out, 7, sizeof out);
    return scanner_sign_request(&own, clock, request, scanner_room_of(out, sizeof out));
}

/* A session in which the next nonce is the example's. */
static int begin(const struct example *example) {
    const scanner_request request = example_request();
    memset(&own, 0, sizeof own);
    int good = scanner_begin_session(&own, set_up, scanner_string(example->reply)) == SCANNER_DONE;
    for (unsigned i = 0; i < nonce; i++) good = good && sign(&request, set_up).number == SCANNER_DONE;
    return good;
}

static void rules(void) {
    for (size_t i = 0; i < sizeof examples / sizeof examples[0]; i++) {
        const struct example *example = &examples[i];
        const scanner_request request = example_request();
        const size_t length = strlen(example->value);
        printf("docs/RULES.md's example with %s:\n", example->name);
        expect("the session is begun, and seven requests made", begin(example));
        scanner_answer answer = sign(&request, made);
        expect("the next is made", answer.number == SCANNER_DONE && answer.length == length);
        expect("with the page's code", memcmp(out, example->value, length) == 0);
        expect("nothing stands past it", all(out + length, sizeof out - length, 7));
        expect("another's invalidation is not believed",
               scanner_hear_value(&own, scanner_string(examples[1 - i].invalidation)) == SCANNER_NOT_OURS);
        expect("its own is believed", scanner_hear_value(&own, scanner_string(example->invalidation)) == SCANNER_DONE);
        expect("and the state is zeros", all(own.state, sizeof own.state, 0));
    }
}

static void refusals(void) {
    scanner_request request = example_request();
    memset(&own, 0, sizeof own);
    scanner_answer answer = sign(&request, made);
    expect("a request without a session is 1", answer.number == SCANNER_NO_SESSION && answer.length == 0);
    expect("and nothing is written", all(out, sizeof out, 7) && all(own.state, sizeof own.state, 0));
    expect("a session is begun", begin(&examples[1]));
    const scanner before = own;
    request.path = scanner_string("");
    answer = sign(&request, made);
    expect("no path is 3", answer.number == SCANNER_BAD_PART && answer.length == 0);
    request.path = scanner_string("/orders");
    request.head = scanner_string("Host: a\r\nHost: b\r\n");
    expect("a covered name twice is 3", sign(&request, made).number == SCANNER_BAD_PART);
    expect("no setup reply is 4", scanner_begin_session(&own, made, scanner_string(SCANNER_ASKS)) == SCANNER_NOT_OURS);
    expect("the session goes on", memcmp(&own, &before, sizeof own) == 0);
    memset(own.state + 4, 0, 8); /* the next nonce, of which no host knows */
    own.state[7] = 1;
    request = example_request();
    expect("after nonce 4,294,967,295 it is 2", sign(&request, made).number == SCANNER_NO_NONCE);
}

static void nulls(void) {
    const scanner_run empty = scanner_bytes(NULL, 0);
    const scanner_request nothing = {empty, empty, empty, empty};
    expect("a null reply is an empty one", scanner_begin_session(&own, set_up, empty) == SCANNER_NOT_OURS);
    expect("a session is begun", begin(&examples[0]));
    scanner_answer answer = scanner_sign_request(&own, made, &nothing, scanner_room_of(NULL, 0));
    expect("nulls to sign are 3", answer.number == SCANNER_BAD_PART && answer.length == 0);
    scanner_request request = example_request();
    request.head = request.body = empty;
    answer = sign(&request, made);
    expect("head and body may be null", answer.number == SCANNER_DONE && answer.length > 0);
    expect("a null value is an empty one", scanner_hear_value(&own, empty) == SCANNER_NOT_OURS);
    expect("a null text is an empty run", scanner_string(NULL).length == 0 && scanner_string("abc").length == 3);
}

static void texts(void) {
    const unsigned none = SCANNER_NOT_OURS + 1;
    int apart = 1;
    for (unsigned i = 0; i <= none; i++) {
        for (unsigned j = 0; j < i; j++) apart = apart && strcmp(scanner_text(i), scanner_text(j)) != 0;
    }
    expect("each number has a text of its own", apart);
    expect("what is no number has one too", strcmp(scanner_text(255), scanner_text(none)) == 0);
    expect("gate.h stands beside it", strcmp(gate_text(GATE_BAD_SIZE), scanner_text(SCANNER_NO_SESSION)) != 0);
    expect("carrier.h stands beside it", strcmp(carrier_text(CARRIER_BAD_SIZE), scanner_text(SCANNER_NO_SESSION)) != 0);
}

/* In the order in which tests/scanner/run asks the second program. */
static void print_constants(void) {
    const unsigned long constants[] = {
        SCANNER_STATE_BYTES, SCANNER_SETUP_REPLY_MAX, SCANNER_METHOD_MAX, SCANNER_HEAD_MAX,
        SCANNER_PATH_MAX,    SCANNER_BODY_MAX,        SCANNER_OUT_MIN,    SCANNER_NOT_OURS,
    };
    for (size_t i = 0; i < sizeof constants / sizeof constants[0]; i++) printf("%lu\n", constants[i]);
    printf("%s\n", SCANNER_ASKS);
}

int main(int count, char **words) {
    if (count == 2 && strcmp(words[1], "constants") == 0) {
        print_constants();
        return 0;
    }
    rules();
    refusals();
    nulls();
    texts();
    printf("%d passed, %d failed\n", passed, failed);
    return failed != 0;
}
