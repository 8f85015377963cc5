/*
 * A scanner's side and the gate together, each as its own library: what scanner_sign makes is judged by gate_judge, and what
 * the gate answers is heard by scanner_hear, over thousands of requests of sessions of both hashes, with and without nonces
 * and extra names.
 *
 *     together [SEED]
 *
 * prints a line for each thing that is tried, with how often it held, and last 'N passed, M failed'.
 */
#include "gate.h"
#include "scanner.h"

#include <stdio.h>
#include <stdlib.h>
#include <string.h>

#define RECORDS 16
#define MOST_TOGETHER GATE_WINDOW /* requests that are on their way at once */

static int passed, failed;

/* ---- Chance: xorshift64, so that a seed tells the whole run ---- */

static uint64_t chance;

static uint32_t draw(uint32_t below) {
    chance ^= chance << 13;
    chance ^= chance >> 7;
    chance ^= chance << 17;
    return (uint32_t)(chance >> 32) % below;
}

static void draw_bytes(uint8_t *bytes, size_t count) {
    for (size_t i = 0; i < count; i++) bytes[i] = (uint8_t)draw(256);
}

/* ---- What is tried, and how often it held ---- */

static int held, broke;

static void expect(int holds) {
    if (holds) held++; else broke++;
}

static void told(const char *what) {
    printf("%s: %s, %d times", broke == 0 ? "ok" : "FAILED", what, held);
    if (broke != 0) printf(", and %d times not", broke);
    printf("\n");
    passed += held;
    failed += broke;
    held = broke = 0;
}

/* ---- The site: its orders, and the gate over one table ---- */

#define COVERED (GATE_COVER(HOST) | GATE_COVER(ACCEPT) | GATE_COVER(COOKIE))
#define SESSION_LIFE 36000

static const struct kind {
    uint64_t mask, hashes;
    const char *extra, *asks;
} kinds[] = {
    {GATE_COVER(NONCE) | COVERED, GATE_HASH_SHA_256, "X-Dealer", SCANNER_ASKS},
    {GATE_COVER(NONCE) | COVERED, GATE_HASH_SHA_512, "X-Dealer,X-Farm", "r:AQU="},
    {GATE_COVER(NONCE), GATE_HASH_SHA_256 | GATE_HASH_SHA_512, "", SCANNER_ASKS},
    {GATE_COVER(NONCE) | COVERED, GATE_HASH_SHA_256 | GATE_HASH_SHA_512, "", "r:AQQ="},
    {COVERED, GATE_HASH_SHA_256, "X-Dealer", SCANNER_ASKS},
    {COVERED, GATE_HASH_SHA_512, "", "r:AQU="},
};

#define KINDS (sizeof kinds / sizeof kinds[0])

static int has_nonces(const struct kind *kind) { return (kind->mask & GATE_COVER(NONCE)) != 0; }

static uint8_t table[RECORDS * GATE_RECORD_BYTES], table_index[RECORDS * GATE_INDEX_ENTRY_BYTES], reply[GATE_REPLY_MIN];
static uint8_t server_key[GATE_SERVER_KEY_BYTES];
static uint32_t now = 1795000000;

static gate_room the_table(void) { return gate_room_of(table, sizeof table); }

static gate_room the_index(void) { return gate_room_of(table_index, sizeof table_index); }

static gate_room the_reply(void) { return gate_room_of(reply, sizeof reply); }

static gate_orders orders_of(const struct kind *kind) {
    const gate_orders orders = {kind->mask, kind->hashes, gate_string(kind->extra), 0, 0, SESSION_LIFE};
    return orders;
}

/* ---- A scanner with its session, and its requests ---- */

typedef struct session {
    const struct kind *kind;
    scanner own;
    uint8_t iv[GATE_IV_BYTES];
    uint32_t last; /* when its last request was made */
} session;

static const uint8_t session_id[] = {'s', 'c', 'a', 'n'};

static void begin(session *of, const struct kind *kind) {
    const gate_orders orders = orders_of(kind);
    uint8_t key[GATE_SESSION_KEY_BYTES];
    draw_bytes(of->iv, sizeof of->iv);
    draw_bytes(key, sizeof key);
    const gate_new_session asked = {gate_bytes(key, sizeof key), gate_bytes(of->iv, sizeof of->iv),
                                    gate_bytes(session_id, sizeof session_id), gate_string(kind->asks)};
    of->kind = kind;
    of->last = now;
    gate_answer answer = gate_set_up_session(&orders, now, gate_bytes(server_key, sizeof server_key), &asked, the_table(),
                                             the_index(), the_reply());
    unsigned begun = scanner_begin_session(&of->own, now, scanner_bytes(reply, answer.length));
    if (answer.number != GATE_ACCEPTED || begun != SCANNER_DONE) {
        printf("no session: setup %u, begin %u\n", answer.number, begun);
        exit(1);
    }
}

static gate_answer end(const session *of) {
    return gate_end_session(gate_bytes(of->iv, sizeof of->iv), the_table(), the_index());
}

typedef struct request {
    char method[16], head[512], aside[64], path[64];
    uint8_t body[300];
    size_t body_length;
    uint8_t value[SCANNER_OUT_MIN];
    size_t value_length;
} request;

/* Lines of every covered name but now and then one, Accept on several, and others that nobody covers. */
static void draw_head(char *head) {
    static const char *const accept[] = {"text/html", "image/webp, image/png", "", "*/*;q=0.8"};
    int length = 0;
    head[0] = 0;
    if (draw(8) != 0) length += sprintf(head + length, "Host: parts.example\r\n");
    for (uint32_t i = draw(4); i > 0; i--) length += sprintf(head + length, "Accept:%s\r\n", accept[draw(4)]);
    if (draw(4) != 0) length += sprintf(head + length, "cookie:\tseat=%u \r\n", draw(100));
    if (draw(2) != 0) length += sprintf(head + length, "X-Scanner: %u\r\nX-Scanner: again\r\n", draw(100));
    if (draw(4) != 0) length += sprintf(head + length, "X-DEALER: Brandt\r\n");
    if (draw(4) != 0) sprintf(head + length, "X-Farm: \xe4kerhof\r\n");
}

static void draw_request(request *made) {
    static const char *const methods[] = {"GET", "POST", "PUT", "DELETE", "M-SEARCH", "VERSION-CONTROL"};
    strcpy(made->method, methods[draw(6)]);
    draw_head(made->head);
    made->aside[0] = 0;
    sprintf(made->path, "/stock/%u?part=%u", draw(100), draw(100));
    made->body_length = draw(sizeof made->body);
    draw_bytes(made->body, made->body_length);
}

static scanner_answer sign(session *of, request *made) {
    const scanner_request asked = {scanner_string(made->method), scanner_string(made->head), scanner_string(made->path),
                                   scanner_bytes(made->body, made->body_length)};
    scanner_answer answer = scanner_sign_request(&of->own, now, &asked, scanner_room_of(made->value, sizeof made->value));
    made->value_length = answer.length;
    return answer;
}

/* Mostly within seconds of the one before. */
static void make(session *of, request *made) {
    now += draw(3);
    draw_request(made);
    if (sign(of, made).number != SCANNER_DONE) broke++;
    of->last = now;
}

static gate_answer deliver(const session *of, const request *made) {
    const gate_orders orders = orders_of(of->kind);
    const gate_request came = {gate_bytes(made->value, made->value_length), gate_string(made->method), gate_string(made->head),
                               gate_string(made->aside), gate_string(made->path), gate_bytes(made->body, made->body_length)};
    return gate_judge_request(&orders, now, gate_bytes(server_key, sizeof server_key), &came, the_table(), the_index(),
                              the_reply());
}

static int accepted(const session *of, const request *made) {
    gate_answer answer = deliver(of, made);
    return answer.number == GATE_ACCEPTED && answer.length == sizeof session_id &&
           memcmp(reply, session_id, sizeof session_id) == 0;
}

static int refused(const session *of, const request *made, unsigned number) {
    gate_answer answer = deliver(of, made);
    return answer.number == number && answer.length == 0;
}

/* ---- What is tried ---- */

static request on_their_way[MOST_TOGETHER + 1];

static void in_order(const struct kind *kind) {
    session of;
    begin(&of, kind);
    for (int i = 0; i < 300; i++) {
        make(&of, &on_their_way[0]);
        expect(accepted(&of, &on_their_way[0]));
    }
    expect(end(&of).number == GATE_ACCEPTED);
}

static void losses(const struct kind *kind) {
    session of;
    begin(&of, kind);
    for (int i = 0; i < 300; i++) {
        for (uint32_t lost = draw(100) < 90 ? draw(3) : 200; lost > 0; lost--) make(&of, &on_their_way[0]);
        make(&of, &on_their_way[0]);
        expect(accepted(&of, &on_their_way[0]));
    }
    end(&of);
}

static void resends(const struct kind *kind) {
    session of;
    begin(&of, kind);
    for (int i = 0; i < 100; i++) {
        make(&of, &on_their_way[0]);
        expect(accepted(&of, &on_their_way[0]));
        for (int again = 0; again < 2; again++) {
            expect(has_nonces(kind) ? refused(&of, &on_their_way[0], GATE_NONCE_SEEN) : accepted(&of, &on_their_way[0]));
        }
    }
    end(&of);
}

static void any_order(const struct kind *kind) {
    session of;
    begin(&of, kind);
    for (int i = 0; i < 30; i++) {
        uint32_t count = i == 0 ? MOST_TOGETHER : 1 + draw(MOST_TOGETHER);
        uint32_t order[MOST_TOGETHER];
        for (uint32_t k = 0; k < count; k++) {
            draw_request(&on_their_way[k]);
            expect(sign(&of, &on_their_way[k]).number == SCANNER_DONE);
            uint32_t other = draw(k + 1);
            order[k] = order[other];
            order[other] = k;
        }
        for (uint32_t k = 0; k < count; k++) expect(accepted(&of, &on_their_way[order[k]]));
    }
    end(&of);
}

/* The first of so many is the last to arrive. */
static void far_behind(const struct kind *kind) {
    for (uint32_t behind = MOST_TOGETHER - 1; behind <= MOST_TOGETHER; behind++) {
        session of;
        begin(&of, kind);
        make(&of, &on_their_way[MOST_TOGETHER]);
        for (uint32_t i = 0; i < behind; i++) {
            draw_request(&on_their_way[0]);
            expect(sign(&of, &on_their_way[0]).number == SCANNER_DONE && accepted(&of, &on_their_way[0]));
        }
        expect(has_nonces(kind) && behind == MOST_TOGETHER ? refused(&of, &on_their_way[MOST_TOGETHER], GATE_NONCE_OLD)
                                                           : accepted(&of, &on_their_way[MOST_TOGETHER]));
        end(&of);
    }
}

/* The scanner's own Host line is set aside where it sent one, and lines are added that nobody covers. */
static void proxied(const struct kind *kind) {
    session of;
    begin(&of, kind);
    for (int i = 0; i < 100; i++) {
        request *made = &on_their_way[0];
        make(&of, made);
        const char *rest = strncmp(made->head, "Host: ", 6) == 0 ? strchr(made->head, '\n') + 1 : made->head;
        size_t own = (size_t)(rest - made->head);
        memcpy(made->aside, made->head, own);
        made->aside[own] = 0;
        memmove(made->head, rest, strlen(rest) + 1);
        strcat(made->head, "Via: 1.1 proxy\r\nX-Forwarded-For: 10.0.0.1\r\n");
        if (own > 0) strcat(made->head, "Host: portal.inside\r\n");
        expect(accepted(&of, made));
    }
    end(&of);
}

/* Something is altered on the way; the request as it was made is still good. */
static void altered(const struct kind *kind) {
    session of;
    begin(&of, kind);
    for (int i = 0; i < 100; i++) {
        request *made = &on_their_way[0], *other = &on_their_way[1];
        make(&of, made);
        *other = *made;
        switch (i % 4) {
        case 0: other->body[other->body_length++] = 0; break;
        case 1: strcpy(other->method, strcmp(made->method, "GET") == 0 ? "HEAD" : "GET"); break;
        case 2: strcat(other->path, "0"); break;
        default: other->value_length--; /* of a field's base64 */
        }
        expect(refused(&of, other, i % 4 == 3 ? GATE_BAD_VALUE : GATE_BAD_SIGNATURE));
        expect(accepted(&of, made));
    }
    end(&of);
}

/* What the gate answered with: an invalidation, which is believed, and a session that is gone at both ends. */
static void believed(session *of, gate_answer answer) {
    static const scanner none;
    request *made = &on_their_way[0];
    expect(scanner_hear_value(&of->own, scanner_bytes(reply, answer.length)) == SCANNER_DONE);
    expect(memcmp(&of->own, &none, sizeof none) == 0);
    expect(sign(of, made).number == SCANNER_NO_SESSION);
    expect(end(of).number == GATE_NO_SESSION);
    begin(of, of->kind);
    make(of, made);
    expect(accepted(of, made));
    end(of);
}

static void idle(const struct kind *kind) {
    session of;
    begin(&of, kind);
    request *made = &on_their_way[0];
    for (uint32_t beyond = 0; beyond <= 1; beyond++) {
        now = of.last + GATE_IDLE_DEFAULT + beyond;
        draw_request(made);
        expect(sign(&of, made).number == SCANNER_DONE);
        if (beyond == 0) {
            expect(accepted(&of, made));
            of.last = now;
        } else {
            gate_answer answer = deliver(&of, made);
            expect(answer.number == GATE_IDLE);
            believed(&of, answer);
        }
    }
}

static void expired(const struct kind *kind) {
    session of;
    begin(&of, kind);
    const uint32_t expiry = now + SESSION_LIFE;
    while (now + GATE_IDLE_DEFAULT < expiry) {
        now += GATE_IDLE_DEFAULT - 10;
        make(&of, &on_their_way[0]);
        expect(accepted(&of, &on_their_way[0]));
    }
    now = expiry - 1;
    draw_request(&on_their_way[0]);
    expect(sign(&of, &on_their_way[0]).number == SCANNER_DONE && accepted(&of, &on_their_way[0]));
    draw_request(&on_their_way[0]);
    expect(sign(&of, &on_their_way[0]).number == SCANNER_DONE);
    now = expiry;
    gate_answer answer = deliver(&of, &on_their_way[0]);
    expect(answer.number == GATE_EXPIRED);
    believed(&of, answer);
}

/* Whether the scanner takes this for no invalidation of its own, and keeps every byte of its state. */
static int not_believed(session *of, const uint8_t *value, size_t length) {
    const scanner before = of->own;
    return scanner_hear_value(&of->own, scanner_bytes(value, length)) == SCANNER_NOT_OURS &&
           memcmp(&before, &of->own, sizeof before) == 0;
}

/* Lets a session be idle for too long; answers the invalidation that the gate writes, which the scanner does not hear. */
static size_t invalidated(session *of, uint8_t *value) {
    make(of, &on_their_way[0]);
    now += GATE_IDLE_DEFAULT + 1;
    draw_request(&on_their_way[0]);
    sign(of, &on_their_way[0]);
    gate_answer answer = deliver(of, &on_their_way[0]);
    memcpy(value, reply, answer.length);
    expect(answer.number == GATE_IDLE);
    return answer.length;
}

static void forged(const struct kind *kind) {
    session of, another;
    uint8_t value[GATE_REPLY_MIN], others[GATE_REPLY_MIN];
    begin(&of, kind);
    begin(&another, kind);
    size_t length = invalidated(&of, value), others_length = invalidated(&another, others);
    for (size_t i = 0; i < length; i++) {
        for (unsigned bit = 0; bit < 8; bit++) {
            value[i] = (uint8_t)(value[i] ^ 1u << bit);
            expect(not_believed(&of, value, length));
            value[i] = (uint8_t)(value[i] ^ 1u << bit);
        }
        expect(not_believed(&of, value, i));
    }
    value[length] = ';';
    expect(not_believed(&of, value, length + 1));
    expect(not_believed(&of, others, others_length));
    expect(not_believed(&of, on_their_way[0].value, on_their_way[0].value_length));
    expect(scanner_hear_value(&of.own, scanner_bytes(value, length)) == SCANNER_DONE);
    expect(scanner_hear_value(&another.own, scanner_bytes(others, others_length)) == SCANNER_DONE);
}

/* Other sessions are set up, judged, invalidated and ended between this one's requests. */
static void among_others(const struct kind *kind) {
    session of, others[4];
    int there[4] = {0, 0, 0, 0};
    begin(&of, kind);
    for (int i = 0; i < 200; i++) {
        uint32_t which = draw(4);
        session *other = &others[which];
        if (!there[which]) {
            begin(other, &kinds[draw((uint32_t)KINDS)]);
            there[which] = 1;
        } else if (draw(5) == 0) {
            expect(end(other).number == GATE_ACCEPTED);
            there[which] = 0;
        } else {
            request *made = &on_their_way[1];
            make(other, made);
            expect(accepted(other, made));
            made->body_length ^= 1; /* and a stranger's try */
            expect(!accepted(other, made));
        }
        make(&of, &on_their_way[0]);
        expect(accepted(&of, &on_their_way[0]));
    }
    for (int i = 0; i < 4; i++) if (there[i]) end(&others[i]);
    end(&of);
}

/* Where the next nonce stands in a state, highest byte first: the one place that a test has to know. */
#define NEXT_NONCE 4
#define NEXT_NONCE_BYTES 8

static void last_nonces(const struct kind *kind) {
    session of;
    if (!has_nonces(kind)) return;
    begin(&of, kind);
    make(&of, &on_their_way[0]);
    expect(accepted(&of, &on_their_way[0]));
    gate_put_number(of.own.state + NEXT_NONCE, NEXT_NONCE_BYTES, (uint64_t)UINT32_MAX - 2);
    for (int i = 0; i < 3; i++) {
        make(&of, &on_their_way[0]);
        expect(accepted(&of, &on_their_way[0]));
        expect(refused(&of, &on_their_way[0], GATE_NONCE_SEEN));
    }
    const scanner before = of.own;
    static request last;
    for (int i = 0; i < 2; i++) {
        last = on_their_way[0];
        scanner_answer answer = sign(&of, &last);
        expect(answer.number == SCANNER_NO_NONCE && answer.length == 0);
        expect(memcmp(&of.own, &before, sizeof before) == 0);
        expect(memcmp(last.value, on_their_way[0].value, sizeof last.value) == 0);
    }
    end(&of);
    begin(&of, kind);
    make(&of, &on_their_way[0]);
    expect(accepted(&of, &on_their_way[0]));
    end(&of);
}

static void try_each(const char *what, void (*try_one)(const struct kind *)) {
    for (size_t i = 0; i < KINDS; i++) try_one(&kinds[i]);
    told(what);
}

int main(int count, char **words) {
    chance = 0x9e3779b97f4a7c15 ^ (count > 1 ? strtoull(words[1], NULL, 10) : 0);
    memset(table_index, 0xff, sizeof table_index);
    draw_bytes(server_key, sizeof server_key);
    try_each("requests in the order made are accepted", in_order);
    try_each("requests after lost ones are accepted", losses);
    try_each("a request counts once where nonces are ordered, and passes again where they are not", resends);
    try_each("up to 64 requests arrive in any order and are accepted", any_order);
    try_each("a request 63 behind the highest is accepted, one 64 behind is not", far_behind);
    try_each("a proxy sets lines aside and adds others", proxied);
    try_each("a request that was altered on the way is refused, and good as it was made", altered);
    try_each("an idle session's invalidation is believed, and a new session begins", idle);
    try_each("an expired session's invalidation is believed, and a new session begins", expired);
    try_each("a forged invalidation is not believed, and the state is kept", forged);
    try_each("other sessions between change nothing", among_others);
    try_each("the last three nonces are accepted, after them none is made, and a new session begins", last_nonces);
    printf("%d passed, %d failed\n", passed, failed);
    return failed != 0;
}
