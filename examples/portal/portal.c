/*
 * A day at a parts portal: the proxy's side of the login gate, with dealers, vans, a hand scanner and the stock uploader to
 * talk to it.
 *
 *     portal day.txt
 *
 * reads what happens, a line for each event, and prints what the gate decides. Keys and IVs stand in the script, so that
 * two runs print the same; a real proxy takes fresh random bytes for each session. The script's lines:
 *
 *     day SECONDS                     midnight, in seconds since 1970; times of the day count from here
 *     server-key HEX                  the portal's own key
 *     records COUNT                   how many sessions the table has room for; it may grow, and keeps those it has
 *     cover NAME..                    what a request must sign: nonce, or a header that has a bit in the mask
 *     hashes NAME..                   what a session may be signed with: SHA-256, SHA-512
 *     extra NAME,NAME                 further headers to sign
 *     limits REQUEST IDLE SESSION     in seconds; 0 is the default
 *     limits-of CALLER LIMITS         the same three in orders of this caller's own; the portal's hold for the others
 *     hashes-of CALLER NAME..         what this caller's own orders allow
 *     has CALLER NAME..               the hashes that the caller's program has; SHA-512 if nothing is said
 *     clock-of CALLER SECONDS         how far the caller's clock runs ahead from now on; 0 if nothing is said
 *     line-of CALLER NAME VALUE       a header line that the caller's requests have from now on, besides those of all callers
 *     note TEXT                       printed as it stands
 *     at HH:MM:SS                     the clock from now on
 *     setup CALLER IV KEY             the caller asks for a session; IV and session key in hexadecimal
 *     make LABEL CALLER METHOD PATH [BODY]
 *                                     the caller signs a request, which is kept under a label
 *     deliver LABEL                   it reaches the proxy
 *     forge LABEL METHOD [BODY]       it reaches the proxy with this method and this body
 *     combine LABEL NAME VALUE        it reaches the proxy with this line in the place of those by line-of
 *     send CALLER METHOD PATH [BODY]  made and delivered at once
 *     signs-with CALLER NAME          the hash that the caller's program signs with from now on, whatever its session's
 *     fetch CALLER COUNT PATH         so many GET requests at once, told in one line
 *     crowd COUNT                     so many dealers ask for sessions at once, told in one line
 *     end CALLER                      the caller logs out
 *     restart                         the proxy begins anew, with the table that it kept and an index that has no record
 *     make-index                      the proxy makes the index of its table
 *     table                           prints the table
 *     index                           prints the records in the order of the index
 */
#include "client.h"
#include "gate.h"

#include <stdio.h>
#include <stdlib.h>
#include <string.h>

#define CALLERS 16
#define KEPT 16
#define LINES 4

/* A header line of a caller, besides the Host, Cookie and X-Dealer that every one sends. */
typedef struct own_line {
    char name[16];
    char value[64];
} own_line;

typedef struct caller {
    char name[16];
    char session_id[32];
    gate_orders orders;
    uint8_t hashes; /* of its program */
    uint32_t ahead; /* its clock of the proxy's */
    uint8_t iv[GATE_IV_BYTES];
    int setups;
    own_line lines[LINES];
    size_t line_count;
    client program;
} caller;

/* A request on its way. */
typedef struct request {
    char label[16];
    caller *from;
    uint32_t nonce;
    uint32_t made;
    char value[1024];
    char method[GATE_METHOD_MAX + 1];
    own_line lines[LINES];
    size_t line_count;
    char path[64];
    char body[64];
} request;

static uint32_t midnight, now;
static uint8_t server_key[GATE_SERVER_KEY_BYTES];
static char extra[GATE_EXTRA_MAX + 1];
static gate_orders orders; /* the portal's, which a caller begins with */
static uint8_t table[GATE_TABLE_MAX], table_index[GATE_INDEX_MAX], reply[GATE_REPLY_MIN];
static size_t records;

static caller callers[CALLERS];
static request kept[KEPT];
static unsigned line_number;

static void give_up(const char *why) {
    fprintf(stderr, "line %u: %s\n", line_number, why);
    exit(1);
}

/* ---- The gate, as a proxy calls it ---- */

static gate_room the_table(void) { return gate_room_of(table, records * GATE_RECORD_BYTES); }

static gate_room the_index(void) { return gate_room_of(table_index, records * GATE_INDEX_ENTRY_BYTES); }

static gate_room the_reply(void) { return gate_room_of(reply, sizeof reply); }

static gate_run the_server_key(void) { return gate_bytes(server_key, sizeof server_key); }

static gate_answer set_up(const caller *who, const char *asked, const uint8_t *session_key) {
    const gate_new_session session = {gate_bytes(session_key, GATE_SESSION_KEY_BYTES), gate_bytes(who->iv, sizeof who->iv),
                                      gate_string(who->session_id), gate_string(asked)};
    return gate_set_up_session(&who->orders, now, the_server_key(), &session, the_table(), the_index(), the_reply());
}

/* The proxy hands requests on under the portal's inner name, and sets the caller's own Host line aside. */
static gate_answer judge(const request *asked) {
    char head[512];
    int length = sprintf(head, "Host: portal.inside\r\nCookie: session=%s\r\nX-Dealer: %s\r\n", asked->from->session_id, asked->from->name);
    for (size_t i = 0; i < asked->line_count; i++) length += sprintf(head + length, "%s: %s\r\n", asked->lines[i].name, asked->lines[i].value);
    const gate_request judged = {gate_string(asked->value), gate_string(asked->method),
                                 gate_string(head),         gate_string("Host: parts.example\r\n"),
                                 gate_string(asked->path),  gate_string(asked->body)};
    return gate_judge_request(&asked->from->orders, now, the_server_key(), &judged, the_table(), the_index(), the_reply());
}

static gate_answer end(const caller *who) {
    return gate_end_session(gate_bytes(who->iv, sizeof who->iv), the_table(), the_index());
}

static gate_answer make_index(void) { return gate_make_index(gate_bytes(table, the_table().length), the_index()); }

/* Past the records that the table has, too: where it grows, the entries are there. */
static void begin_index(void) { memset(table_index, 0xff, sizeof table_index); }

/* ---- A caller's program ---- */

static uint32_t clock_of(const caller *who) { return now + who->ahead; }

static void keep(char *to, size_t room, const char *text) {
    if (strlen(text) >= room) give_up("a text is too long");
    strcpy(to, text);
}

static void make(request *asked, caller *from, const char *method, const char *path, const char *body) {
    char cookie[64];
    sprintf(cookie, "session=%s", from->session_id);
    client_header headers[3 + LINES] = {{"Host", "parts.example"}, {"Cookie", cookie}, {"X-Dealer", from->name}};
    for (size_t i = 0; i < from->line_count; i++) {
        headers[3 + i].name = from->lines[i].name;
        headers[3 + i].value = from->lines[i].value;
    }
    const client_request signing = {method, headers, 3 + from->line_count, path, body};
    asked->from = from;
    memcpy(asked->lines, from->lines, sizeof asked->lines);
    asked->line_count = from->line_count;
    asked->nonce = from->program.next;
    asked->made = clock_of(from);
    keep(asked->method, sizeof asked->method, method);
    keep(asked->path, sizeof asked->path, path);
    keep(asked->body, sizeof asked->body, body);
    if (!client_sign(&from->program, &signing, asked->made, asked->value, sizeof asked->value)) give_up("the request is too long");
}

/* ---- Printing ---- */

static const char *time_text(uint32_t time) {
    static char text[32];
    uint32_t second = time - midnight, days = second / 86400;
    int length = sprintf(text, "%02u:%02u:%02u", second / 3600 % 24, second / 60 % 60, second % 60);
    if (days == 1) sprintf(text + length, " tomorrow");
    if (days > 1) sprintf(text + length, " in %u days", days);
    return text;
}

static const char *hash_text(uint64_t hash) { return hash == GATE_HASH_SHA_256 ? "SHA-256" : "SHA-512"; }

static void print_event(const char *who, const char *what, gate_answer answer) {
    printf("%s  %-7s  %-50s  %2u %s", time_text(now), who, what, answer.number, gate_text(answer.number));
}

/* The end of a line about many calls, of which the last got this answer; it is the first that was refused, if one was. */
static void print_many(gate_answer answer) { printf("%s\n", answer.number == GATE_ACCEPTED ? ", every one" : ", the last one"); }

/* A request and the gate's answer to it, with the reply in words. */
static void print_judged(const request *asked, gate_answer answer) {
    char what[192];
    int length = sprintf(what, "%s %s%s%s, nonce %u", asked->method, asked->path, asked->body[0] != 0 ? " " : "", asked->body, asked->nonce);
    if (asked->made != now) sprintf(what + length, ", made %s", time_text(asked->made));
    print_event(asked->from->name, what, answer);
    if (answer.number == GATE_ACCEPTED) {
        printf(": session %.*s", (int)answer.length, (const char *)reply);
    } else if (answer.length > 0) {
        int believed = client_believes(&asked->from->program, (const char *)reply, answer.length);
        printf(": invalidation of %u bytes, which the caller's program %s", (unsigned)answer.length, believed ? "believes" : "does not believe");
    }
    printf("\n");
}

static void print_table(void) {
    for (size_t i = 0; i < records; i++) {
        gate_record record = gate_record_at(table + i * GATE_RECORD_BYTES);
        printf("%s  record %u: ", time_text(now), (unsigned)i + 1);
        if (record.used == 0) {
            printf("free\n");
        } else if (record.any == 0) {
            printf("used until %s, %s, no nonce yet\n", time_text(record.expiry), hash_text(record.hash));
        } else {
            printf("used until %s, %s, highest nonce %u, window %08x %08x\n", time_text(record.expiry), hash_text(record.hash),
                   record.highest, (unsigned)(record.bits >> 32), (unsigned)(record.bits & 0xffffffffu));
        }
    }
}

static void print_index(void) {
    size_t listed = 0;
    printf("%s  records by rising IV:", time_text(now));
    for (; listed < records; listed++) {
        uint64_t place = gate_number_at(table_index + listed * GATE_INDEX_ENTRY_BYTES, GATE_INDEX_ENTRY_BYTES);
        if (place >= records) break;
        printf("%s %u", listed > 0 ? "," : "", (unsigned)place + 1);
    }
    printf("%s\n", listed > 0 ? "" : " none");
}

/* ---- Reading the script ---- */

static const char *optional_word(void) { return strtok(NULL, " \n"); }

static const char *word(void) {
    const char *found = optional_word();
    if (found == NULL) give_up("a word is missing");
    return found;
}

static const char *rest_of_line(void) {
    const char *found = strtok(NULL, "\n");
    return found != NULL ? found : "";
}

static uint32_t number(void) { return (uint32_t)strtoul(word(), NULL, 10); }

static void read_hex(uint8_t *out, size_t count) {
    const char *hex = word();
    if (strlen(hex) != 2 * count) give_up("wrong length");
    for (size_t i = 0; i < count; i++) {
        unsigned byte = 0;
        if (sscanf(hex + 2 * i, "%2x", &byte) != 1) give_up("no hexadecimal digit");
        out[i] = (uint8_t)byte;
    }
}

static caller *named_caller(void) {
    const char *name = word();
    for (caller *who = callers; who < callers + CALLERS; who++) {
        if (who->name[0] == 0 && strlen(name) < sizeof who->name) {
            strcpy(who->name, name);
            who->orders = orders;
            who->hashes = GATE_HASH_SHA_512;
        }
        if (strcmp(who->name, name) == 0) return who;
    }
    give_up("too many callers");
    return NULL;
}

static request *labelled_request(void) {
    const char *label = word();
    for (request *asked = kept; asked < kept + KEPT; asked++) {
        if (asked->label[0] == 0 && strlen(label) < sizeof asked->label) strcpy(asked->label, label);
        if (strcmp(asked->label, label) == 0) return asked;
    }
    give_up("too many requests kept");
    return NULL;
}

static request *made_request(void) {
    request *asked = labelled_request();
    if (asked->from == NULL) give_up("no such request");
    return asked;
}

static void read_line(own_line *into) {
    keep(into->name, sizeof into->name, word());
    keep(into->value, sizeof into->value, rest_of_line());
}

static const char *body_word(void) {
    const char *body = optional_word();
    return body != NULL ? body : "";
}

static uint64_t bit_of(const char *name) {
    if (strcmp(name, "nonce") == 0) return GATE_COVER(NONCE);
    for (unsigned bit = GATE_BIT_HOST; bit < GATE_BITS; bit++) {
        if (strcmp(name, gate_header_name(bit)) == 0) return (uint64_t)1 << bit;
    }
    give_up("no such header");
    return 0;
}

static uint8_t hash_named(const char *name) {
    if (strcmp(name, "SHA-256") == 0) return GATE_HASH_SHA_256;
    if (strcmp(name, "SHA-512") == 0) return GATE_HASH_SHA_512;
    give_up("no such hash");
    return 0;
}

static uint8_t read_hashes(void) {
    uint8_t hashes = 0;
    for (const char *name = word(); name != NULL; name = optional_word()) hashes = (uint8_t)(hashes | hash_named(name));
    return hashes;
}

/* ---- The script's lines ---- */

static void do_day(void) { midnight = number(); }

static void do_server_key(void) { read_hex(server_key, sizeof server_key); }

static void do_records(void) {
    size_t before = records;
    records = number();
    if (records > GATE_RECORDS_MAX) give_up("too many records");
    if (records < before) give_up("too few records");
}

static void do_cover(void) {
    for (const char *name = word(); name != NULL; name = optional_word()) orders.mask |= bit_of(name);
}

static void do_hashes(void) { orders.hashes = read_hashes(); }

static void do_hashes_of(void) {
    caller *who = named_caller();
    who->orders.hashes = read_hashes();
}

static void do_has(void) {
    caller *who = named_caller();
    who->hashes = read_hashes();
}

static void do_clock_of(void) {
    caller *who = named_caller();
    who->ahead = number();
}

static void do_line_of(void) {
    caller *who = named_caller();
    if (who->line_count == LINES) give_up("too many lines");
    read_line(&who->lines[who->line_count++]);
}

static void do_signs_with(void) {
    caller *who = named_caller();
    client_sign_with(&who->program, hash_named(word()));
}

static void do_extra(void) {
    const char *names = word();
    if (strlen(names) >= sizeof extra) give_up("too many extra names");
    strcpy(extra, names);
    orders.extra = gate_string(extra);
}

static void read_limits(gate_orders *into) {
    into->request_life = number();
    into->idle = number();
    into->session_life = number();
}

static void do_limits(void) { read_limits(&orders); }

static void do_limits_of(void) { read_limits(&named_caller()->orders); }

static void do_note(void) {
    static const char *before = "";
    printf("%s%s\n", before, rest_of_line());
    before = "\n";
}

static void do_at(void) {
    unsigned hour, minute, second;
    if (sscanf(word(), "%2u:%2u:%2u", &hour, &minute, &second) != 3) give_up("no time");
    now = midnight + hour * 3600 + minute * 60 + second;
}

static void do_setup(void) {
    caller *who = named_caller();
    char asked[CLIENT_ASKS_BYTES];
    uint8_t session_key[GATE_SESSION_KEY_BYTES];
    read_hex(who->iv, sizeof who->iv);
    read_hex(session_key, sizeof session_key);
    sprintf(who->session_id, "%s-%d", who->name, ++who->setups);
    client_ask(who->hashes, asked);
    gate_answer answer = set_up(who, asked, session_key);
    print_event(who->name, "setup", answer);
    if (answer.number == GATE_ACCEPTED) {
        if (!client_begin(&who->program, (const char *)reply, answer.length, clock_of(who))) give_up("the reply is none");
        printf(": token, key, %s and coverage, %u bytes", hash_text(client_hash(&who->program)), (unsigned)answer.length);
    }
    printf("\n");
}

static void do_make(void) {
    request *asked = labelled_request();
    caller *from = named_caller();
    const char *method = word(), *path = word();
    make(asked, from, method, path, body_word());
}

static void do_deliver(void) {
    const request *asked = made_request();
    print_judged(asked, judge(asked));
}

static void do_forge(void) {
    request forged = *made_request();
    keep(forged.method, sizeof forged.method, word());
    keep(forged.body, sizeof forged.body, body_word());
    print_judged(&forged, judge(&forged));
}

static void do_combine(void) {
    request combined = *made_request();
    combined.line_count = 1;
    read_line(&combined.lines[0]);
    print_judged(&combined, judge(&combined));
}

static void do_send(void) {
    request asked;
    caller *from = named_caller();
    const char *method = word(), *path = word();
    make(&asked, from, method, path, body_word());
    print_judged(&asked, judge(&asked));
}

static void do_fetch(void) {
    request asked;
    caller *from = named_caller();
    uint32_t count = number(), sent = 0, first = from->program.next;
    const char *path = word();
    gate_answer answer = {GATE_ACCEPTED, 0};
    char what[128];
    for (; sent < count && answer.number == GATE_ACCEPTED; sent++) {
        make(&asked, from, "GET", path, "");
        answer = judge(&asked);
    }
    sprintf(what, "GET %s %u times, nonces %u to %u", path, sent, first, from->program.next - 1);
    print_event(from->name, what, answer);
    print_many(answer);
}

static void do_crowd(void) {
    uint8_t session_key[GATE_SESSION_KEY_BYTES] = {0};
    uint32_t count = number(), asking = 0;
    gate_answer answer = {GATE_ACCEPTED, 0};
    char asked[CLIENT_ASKS_BYTES], what[32];
    caller dealer;
    memset(&dealer, 0, sizeof dealer);
    dealer.orders = orders;
    client_ask(GATE_HASH_SHA_512, asked);
    for (; asking < count && answer.number == GATE_ACCEPTED; asking++) {
        sprintf(dealer.session_id, "dealer-%u", asking + 1);
        gate_put_number(dealer.iv, 4, asking * 2654435761u); /* odd, so that no IV comes twice */
        gate_put_number(session_key, 4, asking);
        answer = set_up(&dealer, asked, session_key);
    }
    sprintf(what, "setup %u times", asking);
    print_event("dealers", what, answer);
    print_many(answer);
}

static void do_end(void) {
    const caller *who = named_caller();
    print_event(who->name, "logs out", end(who));
    printf("\n");
}

static void do_make_index(void) {
    print_event("proxy", "makes the index", make_index());
    printf("\n");
}

static void act(char *line) {
    static const struct {
        const char *name;
        void (*act)(void);
    } events[] = {{"day", do_day},       {"server-key", do_server_key}, {"records", do_records},       {"cover", do_cover},
                  {"hashes", do_hashes}, {"extra", do_extra},           {"limits", do_limits},         {"limits-of", do_limits_of},
                  {"has", do_has},       {"hashes-of", do_hashes_of},   {"clock-of", do_clock_of},     {"note", do_note},
                  {"at", do_at},         {"setup", do_setup},           {"make", do_make},             {"deliver", do_deliver},
                  {"forge", do_forge},   {"send", do_send},             {"signs-with", do_signs_with}, {"fetch", do_fetch},
                  {"crowd", do_crowd},   {"restart", begin_index},      {"make-index", do_make_index}, {"table", print_table},
                  {"end", do_end},       {"index", print_index},        {"line-of", do_line_of},       {"combine", do_combine}};
    const char *name = strtok(line, " \n");
    if (name == NULL || name[0] == '#') return;
    for (size_t i = 0; i < sizeof events / sizeof events[0]; i++) {
        if (strcmp(name, events[i].name) == 0) {
            events[i].act();
            return;
        }
    }
    give_up("no such event");
}

int main(int count, char **words) {
    char line[512];
    FILE *script = count == 2 ? fopen(words[1], "r") : NULL;
    if (script == NULL) {
        fprintf(stderr, "usage: portal SCRIPT\n");
        return 1;
    }
    begin_index();
    while (fgets(line, sizeof line, script) != NULL) {
        line_number++;
        act(line);
    }
    fclose(script);
    return 0;
}
