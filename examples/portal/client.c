#include "client.h"

#include "gate.h"

#include <ctype.h>
#include <stdio.h>
#include <string.h>

/* From libprimitives.a; 0 is done. */
uint32_t prim_hmac_sha256(const uint8_t *key, size_t key_len, const uint8_t *text, size_t text_len, uint8_t *out,
                          size_t out_len);
uint32_t prim_hmac_sha512(const uint8_t *key, size_t key_len, const uint8_t *text, size_t text_len, uint8_t *out,
                          size_t out_len);

/* ---- A text that grows in a buffer ---- */

typedef struct text {
    uint8_t *bytes;
    size_t room;
    size_t length;
    int full;
} text;

static void add(text *to, const void *bytes, size_t length) {
    if (length > to->room - to->length) {
        to->full = 1;
    } else {
        memcpy(to->bytes + to->length, bytes, length);
        to->length += length;
    }
}

static void add_string(text *to, const char *string) { add(to, string, strlen(string)); }

static void add_netstring(text *to, const void *bytes, size_t length) {
    char digits[24];
    add(to, digits, (size_t)sprintf(digits, "%lu:", (unsigned long)length));
    add(to, bytes, length);
    add_string(to, ",");
}

/* ---- Base64 ---- */

static const char alphabet[] = "ABCDEFGHIJKLMNOPQRSTUVWXYZabcdefghijklmnopqrstuvwxyz0123456789+/";

static void add_base64(text *to, const uint8_t *bytes, size_t length) {
    for (size_t i = 0; i < length; i += 3) {
        size_t count = length - i < 3 ? length - i : 3;
        uint32_t bits = (uint32_t)bytes[i] << 16;
        if (count > 1) bits |= (uint32_t)bytes[i + 1] << 8;
        if (count > 2) bits |= bytes[i + 2];
        char four[4];
        for (size_t k = 0; k < 4; k++) four[k] = k <= count ? alphabet[bits >> (18 - 6 * k) & 63] : '=';
        add(to, four, 4);
    }
}

/* The bytes of a base64 text, up to `room` of them. */
static size_t base64_bytes(const char *from, uint8_t *out, size_t room) {
    uint32_t bits = 0;
    size_t held = 0, length = 0;
    for (; *from != 0 && *from != '='; from++) {
        const char *found = strchr(alphabet, *from);
        if (found == NULL) return 0;
        bits = (bits << 6 | (uint32_t)(found - alphabet)) & 0xffff;
        held += 6;
        if (held >= 8 && length < room) {
            held -= 8;
            out[length++] = (uint8_t)(bits >> held & 255);
        }
    }
    return length;
}

/* ---- Masks ---- */

/* A mask is a byte that says how many follow, and then a number. */
static uint64_t mask_of(const char *base64) {
    uint8_t bytes[9];
    size_t length = base64_bytes(base64, bytes, sizeof bytes);
    return length > 1 ? gate_number_at(bytes + 1, length - 1) : 0;
}

static void add_mask_byte(text *to, uint8_t mask) {
    const uint8_t bytes[2] = {1, mask};
    add_base64(to, bytes, sizeof bytes);
    add(to, "", 1);
}

void client_ask(uint8_t hashes, char *value) {
    text out = {(uint8_t *)value, CLIENT_ASKS_BYTES, 0, 0};
    add_string(&out, "r:");
    add_mask_byte(&out, hashes);
}

uint64_t client_hash(const client *session) { return mask_of(session->h); }

void client_sign_with(client *session, uint8_t hash) {
    text out = {(uint8_t *)session->h, sizeof session->h, 0, 0};
    add_mask_byte(&out, hash);
}

/* ---- The setup reply ---- */

/* Copies the field of this key from a value of pieces `key:base64` with `;` between them. */
static int take_field(const char *value, size_t length, const char *key, char *out, size_t room) {
    size_t key_length = strlen(key);
    for (size_t start = 0; start < length;) {
        const char *end = memchr(value + start, ';', length - start);
        size_t piece = end != NULL ? (size_t)(end - value) - start : length - start;
        if (piece > key_length && memcmp(value + start, key, key_length) == 0 && value[start + key_length] == ':') {
            size_t count = piece - key_length - 1;
            if (count >= room) return 0;
            memcpy(out, value + start + key_length + 1, count);
            out[count] = 0;
            return 1;
        }
        start += piece + 1;
    }
    return 0;
}

int client_begin(client *session, const char *reply, size_t length, uint32_t now) {
    char key[48];
    memset(session, 0, sizeof *session);
    session->last = now;
    session->next = 1;
    take_field(reply, length, "eah", session->eah, sizeof session->eah);
    return take_field(reply, length, "s", session->s, sizeof session->s) &&
           take_field(reply, length, "iv", session->iv, sizeof session->iv) &&
           take_field(reply, length, "tag", session->tag, sizeof session->tag) &&
           take_field(reply, length, "h", session->h, sizeof session->h) &&
           take_field(reply, length, "ah", session->ah, sizeof session->ah) &&
           take_field(reply, length, "kh", key, sizeof key) &&
           base64_bytes(key, session->key, sizeof session->key) == sizeof session->key;
}

/* ---- A request ---- */

/* The shortest run of bytes for a number, highest byte first; 0 is one zero byte. */
static size_t number_bytes(uint32_t number, uint8_t *out) {
    size_t count = number >> 24 != 0 ? 4 : number >> 16 != 0 ? 3 : number >> 8 != 0 ? 2 : 1;
    gate_put_number(out, count, number);
    return count;
}

static int same_name(const char *one, size_t length, const char *other) {
    if (length != strlen(other)) return 0;
    for (size_t i = 0; i < length; i++) {
        if (tolower((unsigned char)one[i]) != tolower((unsigned char)other[i])) return 0;
    }
    return 1;
}

static void add_trimmed(text *to, const char *value) {
    value += strspn(value, " \t");
    size_t length = strlen(value);
    while (length > 0 && strchr(" \t", value[length - 1]) != NULL) length--;
    add(to, value, length);
}

/* Several lines are joined by a comma and a space, empty ones too; an absent header is signed as an empty one. */
static void add_header(text *to, const client_request *request, const char *name, size_t length) {
    uint8_t space[4096];
    text value = {space, sizeof space, 0, 0};
    const char *between = "";
    for (size_t i = 0; i < request->header_count; i++) {
        const client_header *header = &request->headers[i];
        if (same_name(name, length, header->name)) {
            add_string(&value, between);
            add_trimmed(&value, header->value);
            between = ", ";
        }
    }
    add_netstring(to, value.bytes, value.length);
    if (value.full) to->full = 1;
}

/* The headers that the mask covers, by rising bit, and then the extra ones. */
static void add_covered(text *to, const client_request *request, uint64_t mask, const char *extra, size_t extra_length) {
    for (unsigned bit = GATE_BIT_HOST; bit < GATE_BITS; bit++) {
        if (mask >> bit & 1) add_header(to, request, gate_header_name(bit), strlen(gate_header_name(bit)));
    }
    for (size_t start = 0; start < extra_length;) {
        const char *end = memchr(extra + start, ',', extra_length - start);
        size_t length = end != NULL ? (size_t)(end - extra) - start : extra_length - start;
        add_header(to, request, extra + start, length);
        start += length + 1;
    }
}

/* The three numbers of a request, as the bytes that are signed and sent. */
typedef struct numbers {
    uint8_t n[4], t[4], lt[4];
    size_t n_length, t_length, lt_length;
} numbers;

/* The code of a text under the session's key and hash, at most 64 bytes. Answers its length, 0 if there is none. */
static size_t code_of(const client *session, const uint8_t *bytes, size_t length, uint8_t *out) {
    switch (client_hash(session)) {
    case GATE_HASH_SHA_256: return prim_hmac_sha256(session->key, sizeof session->key, bytes, length, out, 32) == 0 ? 32 : 0;
    case GATE_HASH_SHA_512: return prim_hmac_sha512(session->key, sizeof session->key, bytes, length, out, 64) == 0 ? 64 : 0;
    default: return 0;
    }
}

/* The code of the netstrings of the method, h, ah, eah, n if ordered, t, lt, covered values, path and body. */
static size_t signature(const client *session, const client_request *request, const numbers *sent, uint8_t *out) {
    uint8_t space[8192], h[9], ah[9], eah[GATE_EXTRA_MAX];
    const uint64_t mask = mask_of(session->ah);
    text all = {space, sizeof space, 0, 0};
    size_t extra_length = base64_bytes(session->eah, eah, sizeof eah);
    add_netstring(&all, request->method, strlen(request->method));
    add_netstring(&all, h, base64_bytes(session->h, h, sizeof h));
    add_netstring(&all, ah, base64_bytes(session->ah, ah, sizeof ah));
    add_netstring(&all, eah, extra_length);
    if (mask & GATE_COVER(NONCE)) add_netstring(&all, sent->n, sent->n_length);
    add_netstring(&all, sent->t, sent->t_length);
    add_netstring(&all, sent->lt, sent->lt_length);
    add_covered(&all, request, mask, (const char *)eah, extra_length);
    add_netstring(&all, request->path, strlen(request->path));
    add_netstring(&all, request->body, strlen(request->body));
    return all.full ? 0 : code_of(session, all.bytes, all.length, out);
}

static void add_piece(text *to, const char *key, const char *base64) {
    if (to->length > 0) add_string(to, ";");
    add_string(to, key);
    add_string(to, ":");
    add_string(to, base64);
}

static void add_coded(text *to, const char *key, const uint8_t *bytes, size_t length) {
    add_piece(to, key, "");
    add_base64(to, bytes, length);
}

int client_sign(client *session, const client_request *request, uint32_t now, char *value, size_t room) {
    uint8_t c[64];
    numbers sent;
    text out = {(uint8_t *)value, room, 0, 0};
    sent.n_length = number_bytes(session->next, sent.n);
    sent.t_length = number_bytes(now, sent.t);
    sent.lt_length = number_bytes(session->last, sent.lt);
    size_t c_length = signature(session, request, &sent, c);
    if (c_length == 0) return 0;
    add_piece(&out, "s", session->s);
    add_coded(&out, "c", c, c_length);
    if (mask_of(session->ah) & GATE_COVER(NONCE)) add_coded(&out, "n", sent.n, sent.n_length);
    add_coded(&out, "t", sent.t, sent.t_length);
    add_coded(&out, "lt", sent.lt, sent.lt_length);
    add_piece(&out, "h", session->h);
    add_piece(&out, "ah", session->ah);
    if (session->eah[0] != 0) add_piece(&out, "eah", session->eah);
    add_piece(&out, "iv", session->iv);
    add_piece(&out, "tag", session->tag);
    add(&out, "", 1);
    session->last = now;
    session->next++;
    return !out.full;
}

int client_believes(const client *session, const char *reply, size_t length) {
    static const char expired[] = "Session Expired";
    uint8_t code[64], space[GATE_INVALIDATION_SHA_512_BYTES];
    text wanted = {space, sizeof space, 0, 0};
    size_t code_length = code_of(session, (const uint8_t *)expired, strlen(expired), code);
    if (code_length == 0) return 0;
    add_coded(&wanted, "i", code, code_length);
    return length == wanted.length && memcmp(reply, wanted.bytes, length) == 0;
}
