/*
 * A scanner's own side of a session with the login gate: takes the setup reply, makes each request's X-S-Armor value, and
 * believes an invalidation only if it is the session's.
 *
 * First come the sizes and numbers, then the three calls as libscanner.a exports them, and last the form that most hosts
 * want: structs, and inline functions over the calls. Each call takes any bytes and numbers and answers a number for them;
 * nothing has to be checked beforehand. libscanner.a is x86-64 Linux code. It keeps nothing between two calls but the state
 * that the host lends, allocates nothing and needs memcpy, memmove and memset alone; threads may call it at once on
 * different buffers.
 *
 * What the caller owes, since no number can be given for it:
 *   - a pointer is good for as many bytes as its length says, and is not null, not even with length 0
 *     (scanner_begin_session and the other inline functions take a null pointer with length 0);
 *   - no two runs of bytes lent to one call overlap;
 *   - nobody else writes to a lent run during the call.
 *
 * And what no call can see:
 *   - the state holds the session key: it is kept where secrets are kept;
 *   - no older copy of a state is lent again, since its nonces were sent already and the gate would refuse them. A host that
 *     stores the state does so before it sends the request that was made with it;
 *   - at SCANNER_NO_NONCE, and once an invalidation was believed, the host asks for a new session (SCANNER_ASKS) and hands the
 *     reply to scanner_begin;
 *   - the clock agrees with the gate's: what it tells goes into the request.
 */
#ifndef SCANNER_H
#define SCANNER_H

#include <stddef.h>
#include <stdint.h>
#include <string.h>

#ifdef __cplusplus
extern "C" {
#endif

/* ---- Sizes in bytes. A state of another size is answered by SCANNER_NO_SESSION, the rest by SCANNER_BAD_PART. ---- */

#define SCANNER_STATE_BYTES 329
#define SCANNER_SETUP_REPLY_MAX 459
#define SCANNER_METHOD_MAX 16  /* at least 1 */
#define SCANNER_HEAD_MAX 16384 /* all header lines, each with its CR LF */
#define SCANNER_PATH_MAX 2048  /* at least 1 */
#define SCANNER_BODY_MAX 65536
#define SCANNER_OUT_MIN 4096   /* the buffer for the value that is made */

/* The X-S-Armor value that asks for a session, of a scanner that has SHA-256 alone. */
#define SCANNER_ASKS "r:AQE="

/*
 * ---- The numbers that a call answers ----
 *
 * The lowest that holds is the number. At every number but 0 state and out keep every byte.
 */
enum scanner_number {
    SCANNER_DONE = 0,       /* begun: the state holds the session. Signed: out has the value, and the state the request's time
                               and the next nonce. Heard: the session is over, and the state is zeros */
    SCANNER_NO_SESSION = 1, /* the state is not of SCANNER_STATE_BYTES, is zeros, or is one that no call here left;
                               scanner_begin: it is not of SCANNER_STATE_BYTES */
    SCANNER_NO_NONCE = 2,   /* scanner_sign: every nonce up to 4,294,967,295 is used, and a new session is needed */
    SCANNER_BAD_PART = 3,   /* a part too long or too short; a method that is no token, a malformed line in head, or a covered
                               name twice there that is no list field; scanner_begin: the reply is too long */
    SCANNER_NOT_OURS = 4    /* scanner_begin: no setup writes such a reply; scanner_hear: not this session's invalidation */
};

/* A number in a few words, for a log. */
static inline const char *scanner_text(unsigned number) {
    switch (number) {
    case SCANNER_DONE: return "done";
    case SCANNER_NO_SESSION: return "no session";
    case SCANNER_NO_NONCE: return "no nonce left";
    case SCANNER_BAD_PART: return "a part of the request, or the reply, is too long or malformed";
    case SCANNER_NOT_OURS: return "no setup reply, or not this session's invalidation";
    default: return "no number of the scanner library";
    }
}

/*
 * ---- The calls ----
 *
 * A run of bytes is a pointer and then a length. All three calls are lent the state:
 *
 *   state  SCANNER_STATE_BYTES, zeros at first, and from then on only these calls write to it. What stands in it is theirs
 *          alone; a host keeps it and lends it again
 */

/*
 * Begins a session, whatever the state held before.
 *   time         the clock at the setup, in seconds since 1970: the first request names it as the time of the one before
 *   setup_reply  at most SCANNER_SETUP_REPLY_MAX: the X-S-Armor value of the gate's reply to SCANNER_ASKS. A reply for SHA-512
 *                is taken as well
 * Answers the number.
 */
uint32_t scanner_begin(uint32_t time, const uint8_t *setup_reply, size_t setup_reply_len, uint8_t *state, size_t state_len);

/*
 * Makes the X-S-Armor value of the session's next request.
 *   clock   now, in seconds since 1970: the time of the request
 *   method  1 to SCANNER_METHOD_MAX characters of a token, as it is sent: GET is not get
 *   head    at most SCANNER_HEAD_MAX: the header lines as they are sent, `name:value` CR LF each, no request line, no empty
 *           line; X-S-Armor is never covered, and its line need not be there yet
 *   path    1 to SCANNER_PATH_MAX, as it is sent
 *   body    at most SCANNER_BODY_MAX
 *   out     at least SCANNER_OUT_MIN
 * The covered headers are those that the setup reply told. Of a list field (include/gate.h names them) head may have several
 * lines, which are signed as one, joined by a comma and a space; a covered header that head lacks is signed as an empty one.
 * Answers the number plus 256 times the length of the value at the front of out: scanner_answer_of takes the two apart. The
 * bytes after the value keep their contents. Each value is for one request, which is sent once; what was made and not sent
 * costs a nonce and nothing else.
 */
uint32_t scanner_sign(uint32_t clock, const uint8_t *method, size_t method_len, const uint8_t *head, size_t head_len,
                      const uint8_t *path, size_t path_len, const uint8_t *body, size_t body_len, uint8_t *state,
                      size_t state_len, uint8_t *out, size_t out_len);

/*
 * Hears an X-S-Armor value that came with a response, of any length: whether it is the invalidation under this session's key,
 * byte for byte. Then the session is forgotten; otherwise it goes on. Nobody without the key can make it.
 * Answers the number.
 */
uint32_t scanner_hear(const uint8_t *value, size_t value_len, uint8_t *state, size_t state_len);

/*
 * ---- Structs, and functions over the calls ----
 *
 * The arguments are those of the calls above. A null pointer with length 0 is an empty run.
 */

/* A scanner's state. It begins as zeros: `scanner one = {{0}};`. */
typedef struct scanner {
    uint8_t state[SCANNER_STATE_BYTES];
} scanner;

/* Bytes lent to be read. */
typedef struct scanner_run {
    const void *bytes;
    size_t length;
} scanner_run;

/* Bytes lent to be written as well. */
typedef struct scanner_room {
    void *bytes;
    size_t length;
} scanner_room;

/* A request to be signed. */
typedef struct scanner_request {
    scanner_run method;
    scanner_run head;
    scanner_run path;
    scanner_run body;
} scanner_request;

typedef struct scanner_answer {
    unsigned number; /* enum scanner_number */
    size_t length;   /* of the value, at the front of out; 0 unless the number is SCANNER_DONE */
} scanner_answer;

static inline scanner_run scanner_bytes(const void *bytes, size_t length) {
    scanner_run run;
    run.bytes = bytes;
    run.length = length;
    return run;
}

/* A text up to its zero byte; a null pointer is an empty text. */
static inline scanner_run scanner_string(const char *text) {
    return scanner_bytes(text, text != NULL ? strlen(text) : 0);
}

static inline scanner_room scanner_room_of(void *bytes, size_t length) {
    scanner_room room;
    room.bytes = bytes;
    room.length = length;
    return room;
}

static inline scanner_answer scanner_answer_of(uint32_t answered) {
    scanner_answer answer;
    answer.number = answered % 256;
    answer.length = answered / 256;
    return answer;
}

/* A pointer that may be lent. */
static inline const uint8_t *scanner_lent(scanner_run run) {
    static const uint8_t nothing[1] = {0};
    return run.bytes != NULL ? (const uint8_t *)run.bytes : nothing;
}

static inline uint8_t *scanner_lent_room(scanner_room room) {
    static uint8_t nothing[1];
    return room.bytes != NULL ? (uint8_t *)room.bytes : nothing;
}

/* The scanner is not null in these three: it has no length that could say so. The first and the last answer the number. */
static inline unsigned scanner_begin_session(scanner *own, uint32_t time, scanner_run setup_reply) {
    return scanner_begin(time, scanner_lent(setup_reply), setup_reply.length, own->state, sizeof own->state);
}

static inline scanner_answer scanner_sign_request(scanner *own, uint32_t clock, const scanner_request *request,
                                                  scanner_room out) {
    return scanner_answer_of(scanner_sign(
        clock, scanner_lent(request->method), request->method.length, scanner_lent(request->head), request->head.length,
        scanner_lent(request->path), request->path.length, scanner_lent(request->body), request->body.length, own->state,
        sizeof own->state, scanner_lent_room(out), out.length));
}

static inline unsigned scanner_hear_value(scanner *own, scanner_run value) {
    return scanner_hear(scanner_lent(value), value.length, own->state, sizeof own->state);
}

#ifdef __cplusplus
}
#endif

#endif
