/*
 * The login gate, for a proxy written in C: set up a session, judge a request, end a session by its IV; and for those who
 * write clients, try a request.
 *
 * First come the sizes and numbers, then the calls as libgate.a exports them, and last the form that most hosts want:
 * structs, and inline functions over the calls. Every call takes any bytes, numbers, table and index and answers a number
 * for them; nothing has to be checked beforehand. libgate.a is x86-64 Linux code. It keeps nothing between two calls,
 * allocates nothing and needs memcpy, memmove and memset alone; threads may call it at once on different buffers.
 *
 * What the caller owes, since no number can be given for it:
 *   - a pointer is good for as many bytes as its length says, and is not null, not even with length 0
 *     (gate_set_up_session and the other inline functions take a null pointer with length 0);
 *   - no two runs of bytes lent to one call overlap;
 *   - nobody else writes to a lent run during the call.
 */
#ifndef GATE_H
#define GATE_H

#include <stddef.h>
#include <stdint.h>
#include <string.h>

#ifdef __cplusplus
extern "C" {
#endif

/* ---- Sizes in bytes. A run of another size is answered by GATE_BAD_SIZE, extra names by GATE_BAD_ORDERS. ---- */

#define GATE_SERVER_KEY_BYTES 32
#define GATE_SESSION_KEY_BYTES 32
#define GATE_IV_BYTES 12
#define GATE_SESSION_ID_MAX 64 /* at least 1 */
#define GATE_VALUE_MAX 4096    /* the value of the header X-S-Armor */
#define GATE_METHOD_MAX 16     /* at least 1 */
#define GATE_LINES_MAX 16384   /* all head lines, and again all set-aside lines, each with its CR LF */
#define GATE_PATH_MAX 2048     /* at least 1 */
#define GATE_BODY_MAX 65536
#define GATE_REPLY_MIN 1024    /* the reply buffer */
#define GATE_EXTRA_MAX 128     /* the extra header names with their commas */
#define GATE_EXTRA_NAMES_MAX 8

#define GATE_RECORD_BYTES 31   /* a session's record in a table */
#define GATE_RECORDS_MAX 4096  /* at least 1 */
#define GATE_TABLE_MAX (GATE_RECORD_BYTES * GATE_RECORDS_MAX)
#define GATE_INDEX_ENTRY_BYTES 2 /* an index has an entry for each record of its table */
#define GATE_INDEX_MAX (GATE_INDEX_ENTRY_BYTES * GATE_RECORDS_MAX)

#define GATE_SETUP_REPLY_MAX 459
#define GATE_INVALIDATION_SHA_256_BYTES 46
#define GATE_INVALIDATION_SHA_512_BYTES 90

/* ---- Hashes: the bits of the mask of those that are allowed. A record keeps the bit of its session's. ---- */

#define GATE_HASH_SHA_256 1
#define GATE_HASH_SHA_512 4

/* ---- Limits in seconds. 0 orders the default. ---- */

#define GATE_REQUEST_LIFE_DEFAULT 60
#define GATE_IDLE_DEFAULT 1800
#define GATE_SESSION_LIFE_DEFAULT 1209600
#define GATE_SESSION_LIFE_MAX 2592000

/* Seconds that a request's time may be ahead of the clock. A clock that is slow leaves the callers fewer of them. */
#define GATE_AHEAD_MAX 30

/* A nonce is refused when it is this far below the highest one accepted, or further. */
#define GATE_WINDOW 64

/*
 * ---- The numbers that a call answers ----
 *
 * A request is checked for 1, 2, 3, 22, 4 to 12, then for 8 against its session's record, then for 13, 14, 21, 15, 16; a
 * setup for 1, 2, 3, 22, 4, 5, 19, 20, 17, 18, in this order; an ending for 1, 3, 22, 12; gate_index for 1, 3; gate_fits
 * for 1, 23, 4 to 8, 11. The first that holds is the number. Table, index and reply buffer keep every byte and the reply has
 * length 0, unless the line says more; where a record is taken or freed, the index is made to fit.
 */
enum gate_number {
    GATE_ACCEPTED = 0,         /* done. Setup: the record is taken, the reply is for the client. Request: the reply
                                  is the session id, and the record holds the nonce. Ending: the record is freed, no
                                  reply. gate_index: the index is written, no reply. gate_fits: the request fits */
    GATE_BAD_SIZE = 1,         /* something lent to this call has a size outside those above */
    GATE_BAD_ORDERS = 2,       /* orders bad */
    GATE_BAD_TABLE = 3,        /* table not well formed */
    GATE_BAD_VALUE = 4,        /* header value breaks its grammar */
    GATE_BAD_FIELDS = 5,       /* wrong set of fields */
    GATE_BAD_LINE = 6,         /* head or set-aside line malformed, or a byte in the method that no token has */
    GATE_REPEATED_NAME = 7,    /* a covered name that is no list field, twice among the head lines or twice among the
                                  set-aside ones */
    GATE_BAD_COVERAGE = 8,     /* the request covers otherwise than ordered, or its hash is not one that is allowed, not
                                  that of its signature's length, or not its session's. gate_fits: ah, eah, h, s, iv or
                                  tag other than the setup reply's, too */
    GATE_BAD_TOKEN = 9,        /* token fails to open, or does not hold what it must */
    GATE_EXPIRED = 10,         /* the clock is at or past the token's expiry. Frees the record if there is one; the
                                  reply is the invalidation */
    GATE_BAD_SIGNATURE = 11,   /* signature differs */
    GATE_NO_SESSION = 12,      /* no used record with this IV */
    GATE_IDLE = 13,            /* idle for longer than the limit. Frees the record; the reply is the invalidation */
    GATE_TOO_OLD = 14,         /* the request is older than the request life */
    GATE_NONCE_OLD = 15,       /* nonce 64 or more below the highest */
    GATE_NONCE_SEEN = 16,      /* nonce accepted before, less than 64 below the highest */
    GATE_IV_TAKEN = 17,        /* setup: IV already in a used record */
    GATE_TABLE_FULL = 18,      /* setup: no free record, and none whose expiry is at or before the clock */
    GATE_NO_HASH = 19,         /* setup: no hash in common: none that the client has is allowed */
    GATE_EXPIRY_TOO_LATE = 20, /* setup: expiry would pass 4,294,967,295 */
    GATE_TOO_FAR_AHEAD = 21,   /* the request's time is more than GATE_AHEAD_MAX ahead of the clock */
    GATE_BAD_INDEX = 22,       /* the index is not the one that fits its table */
    GATE_BAD_SETUP_REPLY = 23  /* gate_fits: no setup writes such a reply */
};

/* A number in a few words, for a log. */
static inline const char *gate_text(unsigned number) {
    switch (number) {
    case GATE_ACCEPTED: return "accepted";
    case GATE_BAD_SIZE: return "something lent has a wrong size";
    case GATE_BAD_ORDERS: return "bad orders";
    case GATE_BAD_TABLE: return "table not well formed";
    case GATE_BAD_VALUE: return "header value breaks its grammar";
    case GATE_BAD_FIELDS: return "wrong set of fields";
    case GATE_BAD_LINE: return "malformed method or header line";
    case GATE_REPEATED_NAME: return "covered header repeated";
    case GATE_BAD_COVERAGE: return "wrong coverage or hash";
    case GATE_BAD_TOKEN: return "token does not open";
    case GATE_EXPIRED: return "session expired";
    case GATE_BAD_SIGNATURE: return "signature differs";
    case GATE_NO_SESSION: return "no such session";
    case GATE_IDLE: return "session idle too long";
    case GATE_TOO_OLD: return "request too old";
    case GATE_NONCE_OLD: return "nonce too far back";
    case GATE_NONCE_SEEN: return "nonce seen before";
    case GATE_IV_TAKEN: return "IV already taken";
    case GATE_TABLE_FULL: return "table full";
    case GATE_NO_HASH: return "no hash in common";
    case GATE_EXPIRY_TOO_LATE: return "expiry past the last time";
    case GATE_TOO_FAR_AHEAD: return "request too far ahead";
    case GATE_BAD_INDEX: return "index does not fit its table";
    case GATE_BAD_SETUP_REPLY: return "no setup writes such a reply";
    default: return "no number of the gate";
    }
}

/* ---- The coverage mask: bit 0 orders nonces, bits 1 to 55 are these headers in this order. ---- */

#define GATE_HEADERS(HEADER) \
    HEADER(HOST, "Host") \
    HEADER(USER_AGENT, "User-Agent") \
    HEADER(ACCEPT, "Accept") \
    HEADER(CONNECTION, "Connection") \
    HEADER(ACCEPT_ENCODING, "Accept-Encoding") \
    HEADER(ACCEPT_LANGUAGE, "Accept-Language") \
    HEADER(REFERER, "Referer") \
    HEADER(COOKIE, "Cookie") \
    HEADER(ACCEPT_CHARSET, "Accept-Charset") \
    HEADER(IF_MODIFIED_SINCE, "If-Modified-Since") \
    HEADER(IF_NONE_MATCH, "If-None-Match") \
    HEADER(RANGE, "Range") \
    HEADER(DATE, "Date") \
    HEADER(AUTHORIZATION, "Authorization") \
    HEADER(CACHE_CONTROL, "Cache-Control") \
    HEADER(ORIGIN, "Origin") \
    HEADER(PRAGMA, "Pragma") \
    HEADER(DNT, "DNT") \
    HEADER(X_CSRFTOKEN, "X-Csrftoken") \
    HEADER(SEC_WEBSOCKET_VERSION, "Sec-WebSocket-Version") \
    HEADER(SEC_WEBSOCKET_PROTOCOL, "Sec-WebSocket-Protocol") \
    HEADER(SEC_WEBSOCKET_KEY, "Sec-WebSocket-Key") \
    HEADER(SEC_WEBSOCKET_EXTENSIONS, "Sec-WebSocket-Extensions") \
    HEADER(TE, "TE") \
    HEADER(X_REQUESTED_WITH, "X-Requested-With") \
    HEADER(X_FORWARDED_FOR, "X-Forwarded-For") \
    HEADER(X_FORWARDED_PROTO, "X-Forwarded-Proto") \
    HEADER(FORWARDED, "Forwarded") \
    HEADER(FROM, "From") \
    HEADER(HTTP2_SETTINGS, "HTTP2-Settings") \
    HEADER(UPGRADE, "Upgrade") \
    HEADER(PROXY_AUTHORIZATION, "Proxy-Authorization") \
    HEADER(IF, "If") \
    HEADER(IF_MATCH, "If-Match") \
    HEADER(IF_RANGE, "If-Range") \
    HEADER(IF_UNMODIFIED_SINCE, "If-Unmodified-Since") \
    HEADER(MAX_FORWARDS, "Max-Forwards") \
    HEADER(PREFER, "Prefer") \
    HEADER(VIA, "Via") \
    HEADER(ALPN, "ALPN") \
    HEADER(EXPECT, "Expect") \
    HEADER(ALT_USED, "Alt-Used") \
    HEADER(CALDAV_TIMEZONES, "CalDAV-Timezones") \
    HEADER(SCHEDULE_REPLY, "Schedule-Reply") \
    HEADER(IF_SCHEDULE_TAG_MATCH, "If-Schedule-Tag-Match") \
    HEADER(DESTINATION, "Destination") \
    HEADER(LOCK_TOKEN, "Lock-Token") \
    HEADER(TIMEOUT, "Timeout") \
    HEADER(ORDERING_TYPE, "Ordering-Type") \
    HEADER(OVERWRITE, "Overwrite") \
    HEADER(POSITION, "Position") \
    HEADER(DEPTH, "Depth") \
    HEADER(SLUG, "SLUG") \
    HEADER(TRAILER, "Trailer") \
    HEADER(MIME_VERSION, "MIME-Version")

#define GATE_HEADER_BIT(label, name) GATE_BIT_##label,
#define GATE_HEADER_NAME(label, name) name,

enum gate_bit { GATE_BIT_NONCE = 0, GATE_HEADERS(GATE_HEADER_BIT) GATE_BITS };

/* As in `mask = GATE_COVER(NONCE) | GATE_COVER(HOST) | GATE_COVER(COOKIE)`. */
#define GATE_COVER(label) ((uint64_t)1 << GATE_BIT_##label)

/* The header of a bit, or an empty text for bit 0 and for those that no header has. */
static inline const char *gate_header_name(unsigned bit) {
    static const char *const names[] = {"", GATE_HEADERS(GATE_HEADER_NAME)};
    return bit < GATE_BITS ? names[bit] : "";
}

/*
 * ---- The calls ----
 *
 * A run of bytes is a pointer and then a length. Each call answers its number plus 256 times the reply's length:
 * gate_answer_of takes the two apart. The orders are the same six arguments in each call that takes them:
 *
 *   mask          GATE_COVER of what the client must sign; a bit above 55 makes bad orders
 *   hashes        GATE_HASH_SHA_256, GATE_HASH_SHA_512, or both joined by |: what a session may be signed with; there is
 *                 no default, and any other mask makes bad orders
 *   extra         names of further headers to sign: 0 to GATE_EXTRA_NAMES_MAX tokens joined by commas, none twice,
 *                 none that has a bit, not X-S-Armor
 *   request_life  seconds for which a request is taken; 0: GATE_REQUEST_LIFE_DEFAULT; callers that queue for longer than
 *                 that need orders of their own, which name it
 *   idle          seconds allowed between two requests; 0: GATE_IDLE_DEFAULT
 *   session_life  seconds from setup to expiry, at most GATE_SESSION_LIFE_MAX; 0: GATE_SESSION_LIFE_DEFAULT
 *
 * clock is the host's, in seconds. table is 1 to GATE_RECORDS_MAX records of GATE_RECORD_BYTES each; it begins as
 * zeros, which is a table of free records, and from then on only these calls write to it. Sites with orders and keys of
 * their own may share one: no session's requests and endings change what another's are answered. Setups share its room
 * and its IVs (GATE_TABLE_FULL, GATE_IV_TAKEN). reply has at least GATE_REPLY_MIN bytes; those after the reply keep
 * their contents.
 *
 * index has GATE_INDEX_ENTRY_BYTES for each record of the table: the places (0, 1, ..) of the used records by rising IV,
 * whose bytes are compared from the first, and then FF FF for each entry that is left; a place has its highest byte
 * first. It begins as FF in every byte (memset 0xFF), which fits a table of zeros, and from then on only these calls
 * write to it. The two belong together and are kept together. An index that does not fit its table is refused by
 * GATE_BAD_INDEX, and nothing repairs it but gate_index.
 */

/*
 * Sets up a session.
 *   server_key   GATE_SERVER_KEY_BYTES, the site's secret; it seals the token
 *   session_key  GATE_SESSION_KEY_BYTES, fresh random bytes
 *   iv           GATE_IV_BYTES, never lent to a setup under this server key before; the session is known by it
 *   session_id   1 to GATE_SESSION_ID_MAX, the host's own name for the session; an accepted request answers it
 *   value        the X-S-Armor value of the client's request for a session
 * At GATE_ACCEPTED the record is the lowest free one, else the lowest expired one, and the reply, at most
 * GATE_SETUP_REPLY_MAX bytes, is the X-S-Armor value for the client. It holds the session key: send it over TLS alone.
 * The session's hash is the longest that is allowed and that the client has; reply and record hold it, and it stays.
 */
uint32_t gate_setup(uint64_t mask, uint64_t hashes, const uint8_t *extra, size_t extra_len, uint32_t request_life,
                    uint32_t idle, uint32_t session_life, uint32_t clock, const uint8_t *server_key,
                    size_t server_key_len, const uint8_t *session_key, size_t session_key_len, const uint8_t *iv,
                    size_t iv_len, const uint8_t *session_id, size_t session_id_len, const uint8_t *value,
                    size_t value_len, uint8_t *table, size_t table_len, uint8_t *index, size_t index_len,
                    uint8_t *reply, size_t reply_len);

/*
 * Judges a request.
 *   server_key  GATE_SERVER_KEY_BYTES, as at setup
 *   value       the request's X-S-Armor value
 *   method      1 to GATE_METHOD_MAX characters of a token, as the client sent it: GET is not get
 *   head        its header lines as they will be handed on, `name:value` CR LF each, no request line, no empty line
 *   aside       the client's own lines, in the same form, where the proxy wrote others in their place; mostly nothing; of
 *               a name all of its lines or none
 *   path        1 to GATE_PATH_MAX, as the client sent it
 *   body        at most GATE_BODY_MAX
 * A covered header is taken from aside where it stands there, and otherwise from head. A list field may have several lines
 * there, whose values are joined in order by a comma and a space, empty ones too: `a` and `b` are signed as `a, b`. List
 * fields are Accept, Accept-Charset, Accept-Encoding, Accept-Language, Connection, Cache-Control, If-Match, If-None-Match,
 * TE, Trailer, Upgrade and Via.
 * At GATE_ACCEPTED the reply is the session id. At GATE_EXPIRED and GATE_IDLE it is the invalidation, an X-S-Armor value
 * for the client under the request's hash: of GATE_INVALIDATION_SHA_256_BYTES or GATE_INVALIDATION_SHA_512_BYTES.
 * A session's requests may be judged in any order: two orders in which all are accepted leave the same record.
 */
uint32_t gate_judge(uint64_t mask, uint64_t hashes, const uint8_t *extra, size_t extra_len, uint32_t request_life,
                    uint32_t idle, uint32_t session_life, uint32_t clock, const uint8_t *server_key,
                    size_t server_key_len, const uint8_t *value, size_t value_len, const uint8_t *method,
                    size_t method_len, const uint8_t *head, size_t head_len, const uint8_t *aside, size_t aside_len,
                    const uint8_t *path, size_t path_len, const uint8_t *body, size_t body_len, uint8_t *table,
                    size_t table_len, uint8_t *index, size_t index_len, uint8_t *reply, size_t reply_len);

/* Ends the session of an IV of GATE_IV_BYTES. It has no reply. */
uint32_t gate_end(const uint8_t *iv, size_t iv_len, uint8_t *table, size_t table_len, uint8_t *index,
                  size_t index_len);

/*
 * Writes the index that fits a table, whatever stood there, for a host that has a table and no index of it. It only reads
 * the table, and has no reply.
 */
uint32_t gate_index(const uint8_t *table, size_t table_len, uint8_t *index, size_t index_len);

/*
 * Tries a client: whether the request that it made fits the setup reply that it got, without server key, orders, clock and
 * table. The checks are those of gate_judge up to the signature, by the orders that the reply tells of, under its key.
 *   setup_reply  at most GATE_SETUP_REPLY_MAX: the X-S-Armor value of the reply
 *   value, method, head, aside, path, body
 *                as for gate_judge
 * At GATE_ACCEPTED the gate that wrote the reply would carry the request past its signature and the hash of its session,
 * as long as the token lasts and the session's record stands. It has no reply.
 */
uint32_t gate_fits(const uint8_t *setup_reply, size_t setup_reply_len, const uint8_t *value, size_t value_len,
                   const uint8_t *method, size_t method_len, const uint8_t *head, size_t head_len, const uint8_t *aside,
                   size_t aside_len, const uint8_t *path, size_t path_len, const uint8_t *body, size_t body_len);

/* One session's record, for hosts that keep their sessions apart. */
typedef struct gate_record {
    uint8_t used; /* 0 or 1; a free record holds zeros */
    uint8_t iv[GATE_IV_BYTES];
    uint32_t expiry;
    uint8_t any;      /* whether a nonce was accepted yet, 0 or 1 */
    uint32_t highest; /* the highest one */
    uint64_t bits;    /* that nonce in the lowest bit, and the 63 below it */
    uint8_t hash;     /* the session's: GATE_HASH_SHA_256 or GATE_HASH_SHA_512 */
} gate_record;

/* The library reads and writes a record at these places. */
typedef char gate_record_is_laid_out_so[offsetof(gate_record, used) == 0 && offsetof(gate_record, iv) == 1 &&
                                                offsetof(gate_record, expiry) == 16 && offsetof(gate_record, any) == 20 &&
                                                offsetof(gate_record, highest) == 24 && offsetof(gate_record, bits) == 32 &&
                                                offsetof(gate_record, hash) == 40 && sizeof(gate_record) == 48
                                            ? 1
                                            : -1];

/*
 * Judges a request as gate_judge does with a table of this one record, and leaves the new record in its place. It takes
 * no index. A host that takes a record out of a table for it and puts it back calls gate_index where the answer was
 * GATE_EXPIRED or GATE_IDLE, since the record is free then.
 */
uint32_t gate_judge_one(uint64_t mask, uint64_t hashes, const uint8_t *extra, size_t extra_len, uint32_t request_life,
                        uint32_t idle, uint32_t session_life, uint32_t clock, const uint8_t *server_key,
                        size_t server_key_len, const uint8_t *value, size_t value_len, const uint8_t *method,
                        size_t method_len, const uint8_t *head, size_t head_len, const uint8_t *aside, size_t aside_len,
                        const uint8_t *path, size_t path_len, const uint8_t *body, size_t body_len, gate_record *record,
                        uint8_t *reply, size_t reply_len);

/*
 * ---- Structs, and functions over the calls ----
 *
 * The arguments are those of the calls above. A null pointer with length 0 is an empty run.
 */

/* Bytes lent to be read. */
typedef struct gate_run {
    const void *bytes;
    size_t length;
} gate_run;

/* Bytes lent to be written as well. */
typedef struct gate_room {
    void *bytes;
    size_t length;
} gate_room;

typedef struct gate_orders {
    uint64_t mask;
    uint64_t hashes;
    gate_run extra;
    uint32_t request_life;
    uint32_t idle;
    uint32_t session_life;
} gate_orders;

/* What a setup is lent. */
typedef struct gate_new_session {
    gate_run session_key;
    gate_run iv;
    gate_run session_id;
    gate_run value;
} gate_new_session;

/* A request as it came in. */
typedef struct gate_request {
    gate_run value;
    gate_run method;
    gate_run head;
    gate_run aside;
    gate_run path;
    gate_run body;
} gate_request;

typedef struct gate_answer {
    unsigned number; /* enum gate_number */
    size_t length;   /* of the reply, at the front of the reply buffer */
} gate_answer;

static inline gate_run gate_bytes(const void *bytes, size_t length) {
    gate_run run;
    run.bytes = bytes;
    run.length = length;
    return run;
}

/* A text up to its zero byte; a null pointer is an empty text. */
static inline gate_run gate_string(const char *text) {
    return gate_bytes(text, text != NULL ? strlen(text) : 0);
}

static inline gate_room gate_room_of(void *bytes, size_t length) {
    gate_room room;
    room.bytes = bytes;
    room.length = length;
    return room;
}

static inline gate_answer gate_answer_of(uint32_t answered) {
    gate_answer answer;
    answer.number = answered % 256;
    answer.length = answered / 256;
    return answer;
}

/* A pointer that may be lent. */
static inline const uint8_t *gate_lent(gate_run run) {
    static const uint8_t nothing[1] = {0};
    return run.bytes != NULL ? (const uint8_t *)run.bytes : nothing;
}

static inline uint8_t *gate_lent_room(gate_room room) {
    static uint8_t nothing[1];
    return room.bytes != NULL ? (uint8_t *)room.bytes : nothing;
}

static inline gate_answer gate_set_up_session(const gate_orders *orders, uint32_t clock, gate_run server_key,
                                              const gate_new_session *session, gate_room table, gate_room index,
                                              gate_room reply) {
    return gate_answer_of(gate_setup(
        orders->mask, orders->hashes, gate_lent(orders->extra), orders->extra.length, orders->request_life,
        orders->idle, orders->session_life, clock, gate_lent(server_key), server_key.length,
        gate_lent(session->session_key), session->session_key.length, gate_lent(session->iv), session->iv.length,
        gate_lent(session->session_id), session->session_id.length, gate_lent(session->value), session->value.length,
        gate_lent_room(table), table.length, gate_lent_room(index), index.length, gate_lent_room(reply), reply.length));
}

static inline gate_answer gate_judge_request(const gate_orders *orders, uint32_t clock, gate_run server_key,
                                             const gate_request *request, gate_room table, gate_room index,
                                             gate_room reply) {
    return gate_answer_of(gate_judge(
        orders->mask, orders->hashes, gate_lent(orders->extra), orders->extra.length, orders->request_life,
        orders->idle, orders->session_life, clock, gate_lent(server_key), server_key.length, gate_lent(request->value),
        request->value.length, gate_lent(request->method), request->method.length, gate_lent(request->head),
        request->head.length, gate_lent(request->aside), request->aside.length, gate_lent(request->path),
        request->path.length, gate_lent(request->body), request->body.length, gate_lent_room(table), table.length,
        gate_lent_room(index), index.length, gate_lent_room(reply), reply.length));
}

/* The record is not null: it has no length that could say so. */
static inline gate_answer gate_judge_one_request(const gate_orders *orders, uint32_t clock, gate_run server_key,
                                                 const gate_request *request, gate_record *record, gate_room reply) {
    return gate_answer_of(gate_judge_one(
        orders->mask, orders->hashes, gate_lent(orders->extra), orders->extra.length, orders->request_life,
        orders->idle, orders->session_life, clock, gate_lent(server_key), server_key.length, gate_lent(request->value),
        request->value.length, gate_lent(request->method), request->method.length, gate_lent(request->head),
        request->head.length, gate_lent(request->aside), request->aside.length, gate_lent(request->path),
        request->path.length, gate_lent(request->body), request->body.length, record, gate_lent_room(reply),
        reply.length));
}

static inline gate_answer gate_end_session(gate_run iv, gate_room table, gate_room index) {
    return gate_answer_of(
        gate_end(gate_lent(iv), iv.length, gate_lent_room(table), table.length, gate_lent_room(index), index.length));
}

static inline gate_answer gate_make_index(gate_run table, gate_room index) {
    return gate_answer_of(gate_index(gate_lent(table), table.length, gate_lent_room(index), index.length));
}

static inline gate_answer gate_fits_request(gate_run setup_reply, const gate_request *request) {
    return gate_answer_of(gate_fits(
        gate_lent(setup_reply), setup_reply.length, gate_lent(request->value), request->value.length,
        gate_lent(request->method), request->method.length, gate_lent(request->head), request->head.length,
        gate_lent(request->aside), request->aside.length, gate_lent(request->path), request->path.length,
        gate_lent(request->body), request->body.length));
}

/* ---- A record as a struct and as the GATE_RECORD_BYTES that it has in a table, numbers highest byte first ---- */

static inline uint64_t gate_number_at(const uint8_t *bytes, size_t count) {
    uint64_t number = 0;
    for (size_t i = 0; i < count; i++) number = number << 8 | bytes[i];
    return number;
}

static inline void gate_put_number(uint8_t *bytes, size_t count, uint64_t number) {
    for (size_t i = count; i > 0; i--, number >>= 8) bytes[i - 1] = (uint8_t)(number & 255);
}

static inline gate_record gate_record_at(const uint8_t *bytes) {
    gate_record record;
    memset(&record, 0, sizeof record);
    record.used = bytes[0];
    memcpy(record.iv, bytes + 1, GATE_IV_BYTES);
    record.expiry = (uint32_t)gate_number_at(bytes + 13, 4);
    record.any = bytes[17];
    record.highest = (uint32_t)gate_number_at(bytes + 18, 4);
    record.bits = gate_number_at(bytes + 22, 8);
    record.hash = bytes[30];
    return record;
}

static inline void gate_put_record(uint8_t *bytes, const gate_record *record) {
    bytes[0] = record->used;
    memcpy(bytes + 1, record->iv, GATE_IV_BYTES);
    gate_put_number(bytes + 13, 4, record->expiry);
    bytes[17] = record->any;
    gate_put_number(bytes + 18, 4, record->highest);
    gate_put_number(bytes + 22, 8, record->bits);
    bytes[30] = record->hash;
}

#ifdef __cplusplus
}
#endif

#endif
