/*
 * Calls to a carrier, signed and verified by RFC 9421, HTTP Message Signatures, with hmac-sha256.
 *
 * First come the sizes and numbers, then the two calls as libcarrier.a exports them, and last the form that most hosts want:
 * structs, and inline functions over the calls. docs/CARRIER.md says what is signed, and what the host does itself. Both calls
 * take any bytes and numbers and answer a number for them; nothing has to be checked beforehand. libcarrier.a is x86-64 Linux
 * code. It keeps nothing between two calls, allocates nothing and needs memcpy, memmove and memset alone; threads may call it
 * at once on different buffers.
 *
 * What the caller owes, since no number can be given for it:
 *   - a pointer is good for as many bytes as its length says, and is not null, not even with length 0
 *     (carrier_sign_message and carrier_verify_message take a null pointer with length 0);
 *   - no two runs of bytes lent to one call overlap;
 *   - nobody else writes to a lent run during the call.
 */
#ifndef CARRIER_H
#define CARRIER_H

#include <stddef.h>
#include <stdint.h>
#include <string.h>

#ifdef __cplusplus
extern "C" {
#endif

/* ---- Sizes in bytes, and the last time. Anything else is answered by CARRIER_BAD_SIZE. ---- */

#define CARRIER_METHOD_MAX 16      /* at least 1 */
#define CARRIER_AUTHORITY_MAX 255  /* at least 1 */
#define CARRIER_PATH_MAX 2048      /* at least 1 */
#define CARRIER_LINES_MAX 16384    /* all header lines, each with its CR LF */
#define CARRIER_NAMES_MAX 1024     /* with their commas */
#define CARRIER_LABEL_MAX 64       /* at least 1 */
#define CARRIER_KEY_ID_MAX 255     /* at least 1 */
#define CARRIER_KEY_MAX 256        /* at least 1 */
#define CARRIER_INPUT_MAX 4096     /* the value of the field Signature-Input */
#define CARRIER_SIGNATURE_MAX 4096 /* the value of the field Signature */
#define CARRIER_OUT_MIN 4096       /* the buffer for what is signed */
#define CARRIER_CREATED_BYTES 8
#define CARRIER_CREATED_MAX ((uint64_t)999999999999999) /* the last integer of RFC 8941 */

/*
 * ---- The numbers that a call answers ----
 *
 * The lowest that holds is the number. At every number but 0 out and created keep every byte.
 */
enum carrier_number {
    CARRIER_DONE = 0,          /* signed: out has the two header lines. Verified: created has the time of the signature */
    CARRIER_BAD_SIZE = 1,      /* something lent has a size, or the time is one, outside those above */
    CARRIER_MALFORMED = 2,     /* a header line, the method, authority, path, a name or a listed value is malformed; or
                                  input or signature is not in the form that carrier_sign writes */
    CARRIER_BAD_LABEL = 3,     /* the label is no key of RFC 8941, or the key id has a byte outside 32 to 126; or those
                                  that came are others than asked for */
    CARRIER_LISTED_TWICE = 4,  /* a name twice among the names */
    CARRIER_MISSING_FIELD = 5, /* a listed header that no line has */
    CARRIER_BAD_SIGNATURE = 6  /* carrier_verify: another list than asked for, or another signature */
};

/* A number in a few words, for a log. */
static inline const char *carrier_text(unsigned number) {
    switch (number) {
    case CARRIER_DONE: return "done";
    case CARRIER_BAD_SIZE: return "something lent has a wrong size";
    case CARRIER_MALFORMED: return "malformed message, name, input or signature";
    case CARRIER_BAD_LABEL: return "bad or other label or key id";
    case CARRIER_LISTED_TWICE: return "a name is listed twice";
    case CARRIER_MISSING_FIELD: return "a listed header is missing";
    case CARRIER_BAD_SIGNATURE: return "another list or signature";
    default: return "no number of the carrier library";
    }
}

/*
 * ---- The calls ----
 *
 * A run of bytes is a pointer and then a length. Both calls are lent a message and what the two sides agreed on:
 *
 *   method     a token of RFC 9110, as it is sent: GET is not get
 *   authority  bytes 33 to 126 without upper-case letters: the host makes it lower case and leaves a default port out
 *   path       bytes 33 to 126: the path as it is sent, without its query
 *   lines      header lines, `name:value` CR LF each, no request line, no empty line
 *   names      what is signed, joined by commas, in this order: @method, @authority, @path and header names in lower case; may
 *              be empty, which signs time and key id alone
 *   label      a key of RFC 8941: a letter a to z or *, then also digits and _ - . *
 *   key_id     bytes 32 to 126, by which the other side knows the key
 *   key        the shared secret
 *
 * Several lines of a name are one value: each without the blanks and tabs at its ends, joined by a comma and a space, empty ones
 * too. A value that is signed has bytes 32 to 126 alone. Lines that are not listed may have tabs and bytes 128 to 255.
 */

/*
 * Signs a message.
 *   created  the time of the signature in seconds, at most CARRIER_CREATED_MAX
 *   out      at least CARRIER_OUT_MIN
 * Answers the number plus 256 times the length of what stands at the front of out: carrier_answer_of takes the two apart. At
 * CARRIER_DONE these are the lines Signature-Input and Signature, each with its CR LF, to be sent with the message; the bytes
 * after them keep their contents.
 */
uint32_t carrier_sign(const uint8_t *method, size_t method_len, const uint8_t *authority, size_t authority_len,
                      const uint8_t *path, size_t path_len, const uint8_t *lines, size_t lines_len, const uint8_t *names,
                      size_t names_len, uint64_t created, const uint8_t *label, size_t label_len, const uint8_t *key_id,
                      size_t key_id_len, const uint8_t *key, size_t key_len, uint8_t *out, size_t out_len);

/*
 * Verifies what came: whether it is what carrier_sign makes of this message under the same names, label, key id and key, at
 * some time.
 *   input      the value of its field Signature-Input
 *   signature  the value of its field Signature
 *   created    CARRIER_CREATED_BYTES; at CARRIER_DONE it holds the time of the signature, highest byte first
 * Answers the number. How old a signature may be is for the host to say.
 */
uint32_t carrier_verify(const uint8_t *method, size_t method_len, const uint8_t *authority, size_t authority_len,
                        const uint8_t *path, size_t path_len, const uint8_t *lines, size_t lines_len, const uint8_t *names,
                        size_t names_len, const uint8_t *label, size_t label_len, const uint8_t *key_id, size_t key_id_len,
                        const uint8_t *key, size_t key_len, const uint8_t *input, size_t input_len,
                        const uint8_t *signature, size_t signature_len, uint8_t *created, size_t created_len);

/*
 * ---- Structs, and functions over the calls ----
 *
 * The arguments are those of the calls above. A null pointer with length 0 is an empty run.
 */

/* Bytes lent to be read. */
typedef struct carrier_run {
    const void *bytes;
    size_t length;
} carrier_run;

/* Bytes lent to be written as well. */
typedef struct carrier_room {
    void *bytes;
    size_t length;
} carrier_room;

typedef struct carrier_message {
    carrier_run method;
    carrier_run authority;
    carrier_run path;
    carrier_run lines;
} carrier_message;

/* What the two sides agreed on. */
typedef struct carrier_terms {
    carrier_run names;
    carrier_run label;
    carrier_run key_id;
    carrier_run key;
} carrier_terms;

typedef struct carrier_answer {
    unsigned number; /* enum carrier_number */
    size_t length;   /* of the two lines, at the front of out; 0 unless the number is CARRIER_DONE */
} carrier_answer;

typedef struct carrier_verdict {
    unsigned number;  /* enum carrier_number */
    uint64_t created; /* the time of the signature; 0 unless the number is CARRIER_DONE */
} carrier_verdict;

static inline carrier_run carrier_bytes(const void *bytes, size_t length) {
    carrier_run run;
    run.bytes = bytes;
    run.length = length;
    return run;
}

/* A text up to its zero byte; a null pointer is an empty text. */
static inline carrier_run carrier_string(const char *text) {
    return carrier_bytes(text, text != NULL ? strlen(text) : 0);
}

static inline carrier_room carrier_room_of(void *bytes, size_t length) {
    carrier_room room;
    room.bytes = bytes;
    room.length = length;
    return room;
}

static inline carrier_answer carrier_answer_of(uint32_t answered) {
    carrier_answer answer;
    answer.number = answered % 256;
    answer.length = answered / 256;
    return answer;
}

/* A pointer that may be lent. */
static inline const uint8_t *carrier_lent(carrier_run run) {
    static const uint8_t nothing[1] = {0};
    return run.bytes != NULL ? (const uint8_t *)run.bytes : nothing;
}

static inline uint8_t *carrier_lent_room(carrier_room room) {
    static uint8_t nothing[1];
    return room.bytes != NULL ? (uint8_t *)room.bytes : nothing;
}

static inline carrier_answer carrier_sign_message(const carrier_message *message, const carrier_terms *terms,
                                                  uint64_t created, carrier_room out) {
    return carrier_answer_of(carrier_sign(
        carrier_lent(message->method), message->method.length, carrier_lent(message->authority), message->authority.length,
        carrier_lent(message->path), message->path.length, carrier_lent(message->lines), message->lines.length,
        carrier_lent(terms->names), terms->names.length, created, carrier_lent(terms->label), terms->label.length,
        carrier_lent(terms->key_id), terms->key_id.length, carrier_lent(terms->key), terms->key.length,
        carrier_lent_room(out), out.length));
}

static inline carrier_verdict carrier_verify_message(const carrier_message *message, const carrier_terms *terms,
                                                     carrier_run input, carrier_run signature) {
    uint8_t created[CARRIER_CREATED_BYTES] = {0};
    carrier_verdict verdict;
    verdict.number = carrier_verify(
        carrier_lent(message->method), message->method.length, carrier_lent(message->authority), message->authority.length,
        carrier_lent(message->path), message->path.length, carrier_lent(message->lines), message->lines.length,
        carrier_lent(terms->names), terms->names.length, carrier_lent(terms->label), terms->label.length,
        carrier_lent(terms->key_id), terms->key_id.length, carrier_lent(terms->key), terms->key.length,
        carrier_lent(input), input.length, carrier_lent(signature), signature.length, created, sizeof created);
    verdict.created = 0;
    for (size_t i = 0; i < sizeof created; i++) verdict.created = verdict.created << 8 | created[i];
    return verdict;
}

#ifdef __cplusplus
}
#endif

#endif
