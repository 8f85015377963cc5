/*
 * include/carrier.h by itself and beside include/gate.h, in C and in C++: the standard's example, null pointers, the time that
 * is handed back, texts. Prints a line for each test, and last 'N passed, M failed'. `header constants` prints what the header
 * names instead.
 */
#include "carrier.h"
#include "gate.h"

#include <stdio.h>
#include <string.h>

static int passed, failed;

static void expect(const char *what, int holds) {
    printf("%s: %s\n", holds ? "ok" : "FAILED", what);
    if (holds) passed++; else failed++;
}

/* RFC 9421, B.2.5: the message of B.2, signed with hmac-sha256. */

static const char example_lines[] =
    "Host: example.com\r\n"
    "Date: Tue, 20 Apr 2021 02:07:55 GMT\r\n"
    "Content-Type: application/json\r\n"
    "Content-Digest: sha-512=:WZDPaVn/7XgHaAy8pmojAkGWoRx2UFChF41A2svX+TaPm+AbwAgBWnrIiYllu7BNNyealdVLvRwEmTHWXvJwew==:\r\n"
    "Content-Length: 18\r\n";
static const char example_out[] =
    "Signature-Input: sig-b25=(\"date\" \"@authority\" \"content-type\");created=1618884473;keyid=\"test-shared-secret\"\r\n"
    "Signature: sig-b25=:pxcQw6G3AjtMBQjwo8XzkZf/bws5LelbaMk5rGIGtE8=:\r\n";
static const char example_input[] =
    "sig-b25=(\"date\" \"@authority\" \"content-type\");created=1618884473;keyid=\"test-shared-secret\"";
static const char example_signature[] = "sig-b25=:pxcQw6G3AjtMBQjwo8XzkZf/bws5LelbaMk5rGIGtE8=:";
static const uint8_t example_key[64] = { /* uzvJfB4u3N0Jy4T7NZ75MDVcr8zSTInedJtkgcu46YW4XByzNJjxBdtjUkdJPBtbmHhIDi6pcl8jsasjlTMtDQ== */
    0xbb, 0x3b, 0xc9, 0x7c, 0x1e, 0x2e, 0xdc, 0xdd, 0x09, 0xcb, 0x84, 0xfb, 0x35, 0x9e, 0xf9, 0x30,
    0x35, 0x5c, 0xaf, 0xcc, 0xd2, 0x4c, 0x89, 0xde, 0x74, 0x9b, 0x64, 0x81, 0xcb, 0xb8, 0xe9, 0x85,
    0xb8, 0x5c, 0x1c, 0xb3, 0x34, 0x98, 0xf1, 0x05, 0xdb, 0x63, 0x52, 0x47, 0x49, 0x3c, 0x1b, 0x5b,
    0x98, 0x78, 0x48, 0x0e, 0x2e, 0xa9, 0x72, 0x5f, 0x23, 0xb1, 0xab, 0x23, 0x95, 0x33, 0x2d, 0x0d,
};
static const uint64_t example_created = 1618884473;

static uint8_t out[CARRIER_OUT_MIN];

static carrier_message example_message(void) {
    const carrier_message message = {carrier_string("POST"), carrier_string("example.com"), carrier_string("/foo"),
                                     carrier_string(example_lines)};
    return message;
}

static carrier_terms example_terms(void) {
    const carrier_terms terms = {carrier_string("date,@authority,content-type"), carrier_string("sig-b25"),
                                 carrier_string("test-shared-secret"), carrier_bytes(example_key, sizeof example_key)};
    return terms;
}

static int all(const uint8_t *bytes, size_t count, uint8_t value) {
    for (size_t i = 0; i < count; i++) if (bytes[i] != value) return 0;
    return 1;
}

static carrier_answer sign(const carrier_message *message, const carrier_terms *terms, uint64_t created) {
    memset(out, 7, sizeof out);
    return carrier_sign_message(message, terms, created, carrier_room_of(out, sizeof out));
}

static void standard(void) {
    const carrier_message message = example_message();
    const carrier_terms terms = example_terms();
    const size_t length = sizeof example_out - 1;
    carrier_answer answer = sign(&message, &terms, example_created);
    expect("B.2.5 is signed", answer.number == CARRIER_DONE && answer.length == length);
    expect("as the standard has it", memcmp(out, example_out, length) == 0);
    expect("nothing stands past it", all(out + length, sizeof out - length, 7));
    carrier_verdict verdict =
        carrier_verify_message(&message, &terms, carrier_string(example_input), carrier_string(example_signature));
    expect("B.2.5 is verified", verdict.number == CARRIER_DONE && verdict.created == example_created);
    verdict = carrier_verify_message(&message, &terms, carrier_string(example_input),
                                     carrier_string("sig-b25=:pxcQw6G3AjtMBQjwo8XzkZf/bws5LelbaMk5rGIGtE4=:"));
    expect("but not with another signature", verdict.number == CARRIER_BAD_SIGNATURE && verdict.created == 0);
}

static void refusals(void) {
    carrier_message message = example_message();
    carrier_terms terms = example_terms();
    carrier_answer answer = sign(&message, &terms, CARRIER_CREATED_MAX + 1);
    expect("a time past the last is 1", answer.number == CARRIER_BAD_SIZE && answer.length == 0);
    expect("and nothing is written", all(out, sizeof out, 7));
    message.path = carrier_string("/foo bar");
    expect("a blank in the path is 2", sign(&message, &terms, 0).number == CARRIER_MALFORMED);
    message.path = carrier_string("/foo");
    terms.label = carrier_string("Sig");
    expect("an upper-case label is 3", sign(&message, &terms, 0).number == CARRIER_BAD_LABEL);
    terms.label = carrier_string("sig");
    terms.names = carrier_string("date,date");
    expect("a name twice is 4", sign(&message, &terms, 0).number == CARRIER_LISTED_TWICE);
    terms.names = carrier_string("x-none");
    expect("a header that is not there is 5", sign(&message, &terms, 0).number == CARRIER_MISSING_FIELD);
}

static void nulls(void) {
    const carrier_run empty = carrier_bytes(NULL, 0);
    const carrier_message nothing = {empty, empty, empty, empty};
    const carrier_terms no_terms = {empty, empty, empty, empty};
    carrier_answer answer = carrier_sign_message(&nothing, &no_terms, 0, carrier_room_of(NULL, 0));
    expect("nulls to sign are 1", answer.number == CARRIER_BAD_SIZE && answer.length == 0);
    carrier_verdict verdict = carrier_verify_message(&nothing, &no_terms, empty, empty);
    expect("nulls to verify are 1", verdict.number == CARRIER_BAD_SIZE && verdict.created == 0);
    carrier_message message = example_message();
    carrier_terms terms = example_terms();
    message.lines = terms.names = empty;
    answer = sign(&message, &terms, 0);
    expect("lines and names may be null", answer.number == CARRIER_DONE && answer.length > 0);
    verdict = carrier_verify_message(&message, &terms, empty, empty);
    expect("a null input is an empty one", verdict.number == CARRIER_MALFORMED);
    expect("a null text is an empty run", carrier_string(NULL).length == 0 && carrier_string("abc").length == 3);
}

/* The two values out of the lines that were signed. */
static carrier_run value_of(const char *name, size_t length) {
    const char *text = (const char *)out;
    for (size_t i = 0; i + strlen(name) <= length; i++) {
        if ((i == 0 || text[i - 1] == '\n') && memcmp(text + i, name, strlen(name)) == 0) {
            const char *value = text + i + strlen(name);
            return carrier_bytes(value, (size_t)(strchr(value, '\r') - value));
        }
    }
    return carrier_bytes(NULL, 0);
}

static void times(void) {
    const carrier_message message = example_message();
    const carrier_terms terms = example_terms();
    const uint64_t created[] = {0, 1, 255, 256, 4294967296, CARRIER_CREATED_MAX};
    int same = 1;
    for (size_t i = 0; i < sizeof created / sizeof created[0]; i++) {
        carrier_answer answer = sign(&message, &terms, created[i]);
        carrier_verdict verdict = carrier_verify_message(&message, &terms, value_of("Signature-Input: ", answer.length),
                                                         value_of("Signature: ", answer.length));
        same = same && answer.number == CARRIER_DONE && verdict.number == CARRIER_DONE && verdict.created == created[i];
    }
    expect("what is signed is verified, and the time handed back", same);
}

static void texts(void) {
    const unsigned none = CARRIER_BAD_SIGNATURE + 1;
    int apart = 1;
    for (unsigned i = 0; i <= none; i++) {
        for (unsigned j = 0; j < i; j++) apart = apart && strcmp(carrier_text(i), carrier_text(j)) != 0;
    }
    expect("each number has a text of its own", apart);
    expect("what is no number has one too", strcmp(carrier_text(255), carrier_text(none)) == 0);
    expect("gate.h stands beside it", strcmp(gate_text(GATE_ACCEPTED), carrier_text(CARRIER_DONE)) != 0);
}

/* In the order in which tests/carrier/run asks the second program. */
static void print_constants(void) {
    const unsigned long long constants[] = {
        CARRIER_METHOD_MAX, CARRIER_AUTHORITY_MAX, CARRIER_PATH_MAX,      CARRIER_LINES_MAX, CARRIER_NAMES_MAX,
        CARRIER_LABEL_MAX,  CARRIER_KEY_ID_MAX,    CARRIER_KEY_MAX,       CARRIER_INPUT_MAX, CARRIER_SIGNATURE_MAX,
        CARRIER_OUT_MIN,    CARRIER_CREATED_BYTES, CARRIER_CREATED_MAX,   CARRIER_BAD_SIGNATURE,
    };
    for (size_t i = 0; i < sizeof constants / sizeof constants[0]; i++) printf("%llu\n", constants[i]);
}

int main(int count, char **words) {
    if (count == 2 && strcmp(words[1], "constants") == 0) {
        print_constants();
        return 0;
    }
    standard();
    refusals();
    nulls();
    times();
    texts();
    printf("%d passed, %d failed\n", passed, failed);
    return failed != 0;
}
