/*
 * include/gate.h by itself, in C and in C++: null pointers, the longest reply, an index that is lost, records as structs
 * and as bytes. Prints a line for each test, and last 'N passed, M failed'. `header constants` prints what the header
 * names instead.
 */
#include "gate.h"

#include <stdio.h>
#include <string.h>

static int passed, failed;

static void expect(const char *what, int holds) {
    printf("%s: %s\n", holds ? "ok" : "FAILED", what);
    if (holds) passed++; else failed++;
}

static int all(const uint8_t *bytes, size_t count, uint8_t value) {
    for (size_t i = 0; i < count; i++) if (bytes[i] != value) return 0;
    return 1;
}

static const gate_run empty = {NULL, 0};
static const gate_orders no_orders = {0, GATE_HASH_SHA_512, {NULL, 0}, 0, 0, 0};
static const uint8_t zeros[GATE_SERVER_KEY_BYTES] = {0};

static uint8_t table[GATE_RECORD_BYTES], table_index[GATE_INDEX_ENTRY_BYTES], reply[GATE_REPLY_MIN];

static gate_run key(void) { return gate_bytes(zeros, GATE_SERVER_KEY_BYTES); }

static gate_room in_table(void) { return gate_room_of(table, sizeof table); }

static gate_room in_index(void) { return gate_room_of(table_index, sizeof table_index); }

static gate_room in_reply(void) { return gate_room_of(reply, sizeof reply); }

static void nulls_everywhere(void) {
    const gate_new_session session = {empty, empty, empty, empty};
    const gate_request request = {empty, empty, empty, empty, empty, empty};
    const gate_room none = gate_room_of(NULL, 0);
    gate_record record = gate_record_at(zeros);
    gate_answer set_up = gate_set_up_session(&no_orders, 0, empty, &session, none, none, none);
    gate_answer judged = gate_judge_request(&no_orders, 0, empty, &request, none, none, none);
    gate_answer single = gate_judge_one_request(&no_orders, 0, empty, &request, &record, none);
    expect("a setup of nulls is 1", set_up.number == GATE_BAD_SIZE && set_up.length == 0);
    expect("a request of nulls is 1", judged.number == GATE_BAD_SIZE && judged.length == 0);
    expect("so is one for a record", single.number == GATE_BAD_SIZE && single.length == 0);
    expect("an ending of nulls is 1", gate_end_session(empty, none, none).number == GATE_BAD_SIZE);
    expect("the index of a null table is 1", gate_make_index(empty, none).number == GATE_BAD_SIZE);
    expect("a trial of nulls is 1", gate_fits_request(empty, &request).number == GATE_BAD_SIZE);
}

/* The parts of a request for which nothing is ordered, good up to its token, which does not open. */
#define ZEROS_16 "AAAAAAAAAAAAAAAAAAAAAA=="
#define ZEROS_64 "AAAAAAAAAAAAAAAAAAAAAAAAAAAAAAAAAAAAAAAAAAAAAAAAAAAAAAAAAAAAAAAAAAAAAAAAAAAAAAAAAAAAAA=="
#define UNSEALED "s:AA==;c:" ZEROS_64 ";t:AA==;lt:AA==;h:AQQ=;ah:AQA=;iv:AAAAAAAAAAAAAAAA;tag:" ZEROS_16

static void nulls_for_empty_runs(void) {
    gate_request request = {gate_string(UNSEALED), gate_string("GET"), empty, empty, gate_string("/"), empty};
    gate_record record = gate_record_at(zeros);
    gate_answer judged = gate_judge_request(&no_orders, 0, key(), &request, in_table(), in_index(), in_reply());
    gate_answer single = gate_judge_one_request(&no_orders, 0, key(), &request, &record, in_reply());
    expect("extra names, lines and body may be null", judged.number == GATE_BAD_TOKEN);
    expect("for a record too", single.number == GATE_BAD_TOKEN);
    request.value = empty;
    judged = gate_judge_request(&no_orders, 0, key(), &request, in_table(), in_index(), in_reply());
    expect("a null value is an empty one", judged.number == GATE_BAD_VALUE);
    gate_answer tried = gate_fits_request(empty, &request);
    expect("a null setup reply is an empty one, which no setup writes", tried.number == GATE_BAD_SETUP_REPLY && tried.length == 0);
    expect("a null text is an empty run", gate_string(NULL).length == 0 && gate_string("abc").length == 3);
}

/* Every part as long as it can be; then its ending. */
static void longest_setup(void) {
    char id[GATE_SESSION_ID_MAX], extra[GATE_EXTRA_MAX];
    memset(id, 'i', sizeof id);
    memset(extra, 'e', sizeof extra);
    memset(reply, 7, sizeof reply);
    const gate_orders orders = {GATE_COVER(MIME_VERSION), GATE_HASH_SHA_256 | GATE_HASH_SHA_512, {extra, sizeof extra}, 0, 0, 0};
    const gate_new_session session = {key(), {zeros, GATE_IV_BYTES}, {id, sizeof id}, gate_string("r:AQQ=")};
    const uint32_t clock = 4000000000u;
    gate_answer answer = gate_set_up_session(&orders, clock, key(), &session, in_table(), in_index(), in_reply());
    expect("the longest setup is accepted", answer.number == GATE_ACCEPTED);
    expect("its reply is as long as a reply can be", answer.length == GATE_SETUP_REPLY_MAX);
    expect("and stands at the front", memcmp(reply, "s:", 2) == 0 && reply[GATE_SETUP_REPLY_MAX - 1] == '=');
    expect("nothing stands past it", all(reply + GATE_SETUP_REPLY_MAX, sizeof reply - GATE_SETUP_REPLY_MAX, 7));
    gate_record record = gate_record_at(table);
    expect("its record is used", record.used == 1 && all(record.iv, GATE_IV_BYTES, 0));
    expect("with no nonce", record.any == 0 && record.highest == 0 && record.bits == 0);
    expect("its expiry is the default's", record.expiry == clock + GATE_SESSION_LIFE_DEFAULT);
    expect("its hash is the one that the client has", record.hash == GATE_HASH_SHA_512);
    expect("its place stands in the index", all(table_index, sizeof table_index, 0));
    answer = gate_end_session(gate_bytes(record.iv, GATE_IV_BYTES), in_table(), in_index());
    expect("its ending is accepted, with no reply", answer.number == GATE_ACCEPTED && answer.length == 0);
    expect("the record is free", all(table, sizeof table, 0));
    expect("and no place stands in the index", all(table_index, sizeof table_index, 0xff));
}

/* A host that kept its table of two sessions, the second with the lower IV, and not the index. */
static void lost_index(void) {
    static const uint8_t fits[] = {0, 1, 0, 0}, fits_after[] = {0, 0, 0xff, 0xff};
    uint8_t two[2 * GATE_RECORD_BYTES], its_index[2 * GATE_INDEX_ENTRY_BYTES];
    gate_record record = gate_record_at(zeros);
    record.used = 1;
    record.hash = GATE_HASH_SHA_256;
    record.iv[0] = 1;
    gate_put_record(two, &record);
    record.iv[0] = 0;
    gate_put_record(two + GATE_RECORD_BYTES, &record);
    memset(its_index, 0xff, sizeof its_index);
    const gate_run iv = gate_bytes(record.iv, GATE_IV_BYTES);
    const gate_room in_two = gate_room_of(two, sizeof two), in_its_index = gate_room_of(its_index, sizeof its_index);
    expect("an ending with no index is 22", gate_end_session(iv, in_two, in_its_index).number == GATE_BAD_INDEX);
    expect("and repairs nothing", all(its_index, sizeof its_index, 0xff) && two[GATE_RECORD_BYTES] == 1);
    gate_answer made = gate_make_index(gate_bytes(two, sizeof two), in_its_index);
    expect("the index is made, with no reply", made.number == GATE_ACCEPTED && made.length == 0);
    expect("by rising IV", memcmp(its_index, fits, sizeof fits) == 0);
    expect("the ending is accepted then", gate_end_session(iv, in_two, in_its_index).number == GATE_ACCEPTED);
    expect("and leaves the index that fits", memcmp(its_index, fits_after, sizeof fits_after) == 0);
}

static void records(void) {
    uint8_t bytes[GATE_RECORD_BYTES], again[GATE_RECORD_BYTES];
    for (size_t i = 0; i < sizeof bytes; i++) bytes[i] = (uint8_t)(0x81 + i);
    gate_record record = gate_record_at(bytes);
    expect("the marks", record.used == 0x81 && record.any == 0x92);
    expect("the IV", memcmp(record.iv, bytes + 1, GATE_IV_BYTES) == 0);
    expect("the numbers", record.expiry == 0x8e8f9091u && record.highest == 0x93949596u);
    expect("the bits", (uint32_t)(record.bits >> 32) == 0x9798999au && (uint32_t)record.bits == 0x9b9c9d9eu);
    expect("the hash", record.hash == 0x9f);
    gate_put_record(again, &record);
    expect("and back", memcmp(again, bytes, sizeof bytes) == 0);
}

static void texts(void) {
    const unsigned none = GATE_BAD_SETUP_REPLY + 1;
    int apart = 1;
    for (unsigned i = 0; i <= none; i++) {
        for (unsigned j = 0; j < i; j++) apart = apart && strcmp(gate_text(i), gate_text(j)) != 0;
    }
    expect("each number has a text of its own", apart);
    expect("what is no number has one too", strcmp(gate_text(255), gate_text(none)) == 0);
    expect("a bit past the last has no header", strcmp(gate_header_name(GATE_BITS), "") == 0);
}

/* In the order in which tests/host/run asks the second program. */
static void print_constants(void) {
    const long constants[] = {
        GATE_SERVER_KEY_BYTES,     GATE_SESSION_KEY_BYTES, GATE_IV_BYTES,             GATE_SESSION_ID_MAX,
        GATE_VALUE_MAX,            GATE_METHOD_MAX,        GATE_LINES_MAX,            GATE_PATH_MAX,
        GATE_BODY_MAX,             GATE_REPLY_MIN,         GATE_EXTRA_MAX,            GATE_EXTRA_NAMES_MAX,
        GATE_RECORD_BYTES,         GATE_RECORDS_MAX,       GATE_INDEX_ENTRY_BYTES,    GATE_WINDOW,
        GATE_REQUEST_LIFE_DEFAULT, GATE_IDLE_DEFAULT,      GATE_SESSION_LIFE_DEFAULT, GATE_SESSION_LIFE_MAX,
        GATE_AHEAD_MAX,            GATE_SETUP_REPLY_MAX,
        GATE_HASH_SHA_256,         GATE_INVALIDATION_SHA_256_BYTES,
        GATE_HASH_SHA_512,         GATE_INVALIDATION_SHA_512_BYTES,
    };
    for (size_t i = 0; i < sizeof constants / sizeof constants[0]; i++) printf("%ld\n", constants[i]);
    for (unsigned bit = GATE_BIT_HOST; bit < GATE_BITS; bit++) printf("%s\n", gate_header_name(bit));
}

int main(int count, char **words) {
    if (count == 2 && strcmp(words[1], "constants") == 0) {
        print_constants();
        return 0;
    }
    memset(table_index, 0xff, sizeof table_index);
    nulls_everywhere();
    nulls_for_empty_runs();
    longest_setup();
    lost_index();
    records();
    texts();
    printf("%d passed, %d failed\n", passed, failed);
    return failed != 0;
}
