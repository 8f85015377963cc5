#include "signed.h"

#include "gate.h"
#include "head.h"
#include "value.h"

#include <stdio.h>

/* From libprimitives.a; 0 is done. */
uint32_t prim_hmac_sha256(const uint8_t *key, size_t key_len, const uint8_t *text, size_t text_len, uint8_t *out, size_t out_len);
uint32_t prim_hmac_sha512(const uint8_t *key, size_t key_len, const uint8_t *text, size_t text_len, uint8_t *out, size_t out_len);

/* Room for all parts at their longest: the values of covered names are of the head, and the rest is some 70 netstrings' own. */
typedef struct signed_text {
    uint8_t bytes[GATE_METHOD_MAX + GATE_EXTRA_MAX + GATE_LINES_MAX + GATE_PATH_MAX + GATE_BODY_MAX + 2048];
    size_t length;
} signed_text;

static void add(signed_text *to, span bytes) {
    if (bytes.length > sizeof to->bytes - to->length) return;
    memcpy(to->bytes + to->length, bytes.at, bytes.length);
    to->length += bytes.length;
}

/* The line of one part: its name, what there is to know about it, and its netstring. */
static void add_part(signed_text *to, span name, const char *remark, span bytes) {
    sentence length = empty_sentence();
    say(&length, "%zu:", bytes.length);
    add(to, span_of_string(length.text));
    add(to, bytes);
    add(to, span_of_string(","));
    printf("  ");
    print_shown(name);
    printf("%s  %s", remark, length.text);
    print_shown(bytes);
    printf(",\n");
}

static void add_field(signed_text *to, const trial *of, const char *key) {
    field read;
    int carried = find_field(of->value, key, &read);
    add_part(to, span_of_string(key), carried ? "" : " (not carried, an empty part)", contents_of(&read));
}

static void add_covered(signed_text *to, span head, span name) {
    signed_text value;
    sentence remark = empty_sentence();
    size_t count = 0;
    line read;
    pieces all = lines_of(head);
    value.length = 0;
    while (next_line(&all, &read)) {
        if (!same_name(read.name, name)) continue;
        if (count++ > 0) add(&value, span_of_string(", "));
        add(&value, trimmed(read.value));
    }
    if (count == 0) say(&remark, " (not in the head, an empty part)");
    if (count > 1) say(&remark, " (%zu lines, joined)", count);
    add_part(to, name, remark.text, span_of(value.bytes, value.length));
}

static void print_codes(const trial *of, const signed_text *text) {
    field h, key, c;
    uint8_t code[64];
    sentence should = empty_sentence();
    if (!find_field(of->value, "h", &h) || !find_field(of->reply, "kh", &key) || !find_field(of->value, "c", &c)) return;
    size_t length = code_length(mask_of(&h));
    uint32_t failed = length == 32 ? prim_hmac_sha256(key.contents, key.length, text->bytes, text->length, code, length)
                                   : prim_hmac_sha512(key.contents, key.length, text->bytes, text->length, code, length);
    if (failed == 0) say_base64(&should, span_of(code, length));
    printf("The signed text has %zu bytes.\nc should be  %s\nc was sent   ", text->length, should.text);
    print_shown(c.base64);
    printf("\n");
}

void print_signed_text(const trial *of) {
    signed_text text;
    field ah, eah, n;
    text.length = 0;
    find_field(of->value, "ah", &ah);
    find_field(of->value, "eah", &eah);
    covered all = covered_by(mask_of(&ah), contents_of(&eah));
    add_part(&text, span_of_string("method"), "", of->method);
    add_field(&text, of, "h");
    add_field(&text, of, "ah");
    add_field(&text, of, "eah");
    if (find_field(of->value, "n", &n)) add_field(&text, of, "n");
    add_field(&text, of, "t");
    add_field(&text, of, "lt");
    while (next_covered(&all)) add_covered(&text, of->head, all.name);
    add_part(&text, span_of_string("path"), "", of->path);
    add_part(&text, span_of_string("body"), "", of->body);
    print_codes(of, &text);
}
