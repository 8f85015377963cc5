/* A caller's end of a session: what a program needs that talks to a portal behind the gate. */
#ifndef CLIENT_H
#define CLIENT_H

#include <stddef.h>
#include <stdint.h>

/* Room for the X-S-Armor value that asks for a session. */
#define CLIENT_ASKS_BYTES 8

/* What the setup reply told, the fields as they came, in base64. */
typedef struct client {
    char s[164], iv[20], tag[28], h[16], ah[16], eah[176];
    uint8_t key[32];
    uint32_t last; /* when the last request was made; at first, when the session was set up */
    uint32_t next; /* nonce */
} client;

/* A header line. A list field, as Accept, may have several, which are signed as one value; two of another name are refused. */
typedef struct client_header {
    const char *name;
    const char *value;
} client_header;

typedef struct client_request {
    const char *method;
    const client_header *headers;
    size_t header_count;
    const char *path;
    const char *body;
} client_request;

/* Writes the value that asks for a session, of a client that has these hashes: GATE_HASH_SHA_256, GATE_HASH_SHA_512 or both. */
void client_ask(uint8_t hashes, char *value);

/* Takes a setup reply. Answers 0 if it is none. */
int client_begin(client *session, const char *reply, size_t length, uint32_t now);

/* Writes the next request's X-S-Armor value and a zero byte. Answers 0 if they do not fit. */
int client_sign(client *session, const client_request *request, uint32_t now, char *value, size_t room);

/* The mask of the hash that it signs with: at first, the one that the setup reply told. */
uint64_t client_hash(const client *session);

/* Signs with this hash from now on, whatever the setup reply told: what somebody would have it do who wants a weaker one. */
void client_sign_with(client *session, uint8_t hash);

/* Whether a reply is the invalidation of this session, which nobody without its key can make. */
int client_believes(const client *session, const char *reply, size_t length);

#endif
