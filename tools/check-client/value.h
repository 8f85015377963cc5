/* The fields of an X-S-Armor value: their form, their base64, and what the contents of each key must be. */
#ifndef VALUE_H
#define VALUE_H

#include "gate.h"
#include "text.h"

typedef struct field {
    size_t number; /* from 1 */
    span whole;    /* `key:base64` as it stands */
    span key;
    span base64;
    uint8_t contents[GATE_VALUE_MAX / 4 * 3];
    size_t length; /* of the contents, once they are read */
} field;

/* The fields in their order, with nothing checked yet; a closing `;`, of which a request's value may have one, is passed over. */
pieces fields_of(span value);
int next_field(pieces *all, field *found);

/* What breaks the form `key:contents`, if anything does. */
int form_breach(const field *read, sentence *why);

/* Reads the contents; what breaks the rules of base64 or of the key, if anything does. The form is good. */
int contents_breach(field *read, sentence *why);

/* The first field of a key, with its contents, in a value that keeps the rules. Where it has none, the contents are empty. */
int find_field(span value, const char *key, field *found);

span contents_of(const field *read);
uint64_t mask_of(const field *read);

/* A hash by its mask: its name, or NULL where the mask is not that of one; the bytes of its codes. */
const char *hash_name(uint64_t mask);
size_t code_length(uint64_t mask);

void say_base64(sentence *to, span bytes);

#endif
