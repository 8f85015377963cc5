#include "explain.h"

#include "gate.h"
#include "head.h"
#include "reply.h"
#include "value.h"

/* 1 */
static void bad_size(const trial *of, sentence *to) {
    const struct {
        const char *name;
        size_t length, least, most;
    } parts[] = {{"setup reply", of->reply.length, 0, GATE_SETUP_REPLY_MAX}, {"value", of->value.length, 0, GATE_VALUE_MAX},
                 {"method", of->method.length, 1, GATE_METHOD_MAX},          {"head", of->head.length, 0, GATE_LINES_MAX},
                 {"path", of->path.length, 1, GATE_PATH_MAX},                {"body", of->body.length, 0, GATE_BODY_MAX}};
    for (size_t i = 0; i < sizeof parts / sizeof parts[0]; i++) {
        if (parts[i].length >= parts[i].least && parts[i].length <= parts[i].most) continue;
        say(to, "The %s has %zu byte%s, and %zu to %zu are allowed. ", parts[i].name, parts[i].length, plural(parts[i].length),
            parts[i].least, parts[i].most);
    }
}

/* 4 */
static void bad_value(const trial *of, sentence *to) {
    field read;
    sentence why = empty_sentence();
    pieces all = fields_of(of->value);
    while (to->length == 0 && next_field(&all, &read)) {
        if (!form_breach(&read, &why) && !contents_breach(&read, &why)) continue;
        say_breach(to, "Field", read.number, "the value", read.key, &why);
    }
}

/* ---- 5 ---- */

static const char *const keys[] = {"s", "c", "t", "lt", "h", "ah", "iv", "tag", "eah", "n"};
enum { MUST = 8, NONCE = 9, KEYS = 10 };

static size_t place_of_key(span key) {
    size_t i = 0;
    while (i < KEYS && !is_string(key, keys[i])) i++;
    return i;
}

static void say_no_place(sentence *to, const field *read) {
    sentence why = empty_sentence();
    say(&why, "this key has no place in a request");
    if (is_string(read->key, "kh")) say(&why, "; the session key is never sent");
    for (size_t i = 0; i < KEYS; i++) {
        if (!same_name(trimmed(read->key), span_of_string(keys[i]))) continue;
        say(&why, "; keys are compared byte for byte, and nothing is trimmed");
    }
    say_breach(to, "Field", read->number, "the value", read->key, &why);
    say(to, " ");
}

/* One of each kind: a key that has no place is often the one that is missing, mistyped. */
static void bad_fields(const trial *of, sentence *to) {
    field read;
    size_t first[KEYS + 1] = {0}, twice = 0;
    pieces all = fields_of(of->value);
    while (next_field(&all, &read)) {
        size_t key = place_of_key(read.key);
        if (key == KEYS && first[key] == 0) say_no_place(to, &read);
        if (key < KEYS && first[key] != 0 && twice++ == 0) {
            say(to, "%s stands twice in the value, as fields %zu and %zu. ", keys[key], first[key], read.number);
        }
        if (first[key] == 0) first[key] = read.number;
    }
    for (size_t key = 0; key < MUST; key++) {
        if (first[key] == 0) say(to, "%s is missing in the value. ", keys[key]);
    }
    if (!find_field(of->value, "ah", &read)) return;
    int ordered = (int)(mask_of(&read) & 1), carried = first[NONCE] != 0;
    if (ordered && !carried) say(to, "n is missing in the value, although bit 0 of its ah is set. ");
    if (!ordered && carried) say(to, "n is carried in the value, although bit 0 of its ah is not set. ");
}

/* 6 */
static void bad_line(const trial *of, sentence *to) {
    line read;
    sentence why = empty_sentence();
    size_t no_token = place_of_no_token(of->method);
    pieces all = lines_of(of->head);
    if (no_token < of->method.length) {
        say_shown(to, "The method ", of->method);
        say_shown(to, " has ", part(of->method, no_token, no_token + 1));
        say(to, " at place %zu, a byte that no token has.", no_token + 1);
    }
    while (to->length == 0 && next_line(&all, &read)) {
        if (!line_breach(&read, &why)) continue;
        say_breach(to, "Line", read.number, "the head", read.text, &why);
    }
}

/* ---- 7 ---- */

static size_t lines_with(span head, span name, sentence *to) {
    line read;
    size_t count = 0;
    pieces all = lines_of(head);
    while (next_line(&all, &read)) {
        if (same_name(read.name, name)) say(to, "%s%zu", count++ == 0 ? "" : ", ", read.number);
    }
    return count;
}

static void repeated_name(const trial *of, sentence *to) {
    field ah, eah;
    find_field(of->reply, "ah", &ah);
    find_field(of->reply, "eah", &eah);
    covered all = covered_by(mask_of(&ah), contents_of(&eah));
    while (to->length == 0 && next_covered(&all)) {
        sentence where = empty_sentence();
        if (all.is_list || lines_with(of->head, all.name, &where) < 2) continue;
        say_shown(to, "The covered name ", all.name);
        say(to, ", which is no list field, stands on several lines of the head: %.200s.", where.text);
    }
}

/* ---- 8 ---- */

static void say_bits(sentence *to, const char *words, uint64_t bits) {
    for (unsigned bit = 0; bit < 64; bit++) {
        if ((bits >> bit & 1) == 0) continue;
        say(to, "%s ", words);
        words = ",";
        if (bit >= GATE_BITS) say(to, "bit %u", bit);
        if (bit < GATE_BITS) say(to, "%s", bit == GATE_BIT_NONCE ? "the nonce" : gate_header_name(bit));
    }
}

/* A field as it stands, and where its base64 tells a reader little, what it means. */
static void say_field(sentence *to, const char *words, int stands, const field *read) {
    if (!stands) {
        say(to, "%snone", words);
        return;
    }
    say_shown(to, words, read->base64);
    if (is_string(read->key, "h")) say(to, ", %s", hash_name(mask_of(read)) != NULL ? hash_name(mask_of(read)) : "which names no hash");
    if (is_string(read->key, "eah")) say_shown(to, ", ", contents_of(read));
}

static size_t difference(span one, span other) {
    size_t i = 0;
    while (i < one.length && i < other.length && one.at[i] == other.at[i]) i++;
    return i;
}

static void compare(const trial *of, const char *key, sentence *to) {
    field own, given;
    int carried = find_field(of->value, key, &own), written = find_field(of->reply, key, &given);
    if (carried == written && same(contents_of(&own), contents_of(&given))) return;
    say(to, "%s is not the setup reply's:", key);
    say_field(to, " the value has ", carried, &own);
    say_field(to, ", and the reply has ", written, &given);
    if (own.base64.length > 12 && carried && written) say(to, "; they differ from place %zu on", difference(own.base64, given.base64) + 1);
    if (strcmp(key, "ah") == 0) {
        say_bits(to, "; it covers more:", mask_of(&own) & ~mask_of(&given));
        say_bits(to, "; it covers less:", mask_of(&given) & ~mask_of(&own));
    }
    say(to, ". ");
}

static void bad_coverage(const trial *of, sentence *to) {
    static const char *const copied[] = {"h", "ah", "eah", "s", "iv", "tag"};
    field h, c;
    for (size_t i = 0; i < sizeof copied / sizeof copied[0]; i++) compare(of, copied[i], to);
    if (!find_field(of->reply, "h", &h) || !find_field(of->value, "c", &c) || hash_name(mask_of(&h)) == NULL) return;
    if (c.length == code_length(mask_of(&h))) return;
    say(to, "c has %zu bytes, and a code under the reply's h, %s, has %zu.", c.length, hash_name(mask_of(&h)), code_length(mask_of(&h)));
}

/* 11; print_signed_text has the rest */
static void bad_signature(const trial *of, sentence *to) {
    field h;
    if (!find_field(of->reply, "h", &h) || hash_name(mask_of(&h)) == NULL) return;
    say(to, "c is not the HMAC with %s, under the session key kh, of the signed text, which has these parts:", hash_name(mask_of(&h)));
}

void explain(unsigned number, const trial *of, sentence *to) {
    switch (number) {
    case GATE_BAD_SIZE: bad_size(of, to); break;
    case GATE_BAD_SETUP_REPLY: bad_reply(of->reply, to); break;
    case GATE_BAD_VALUE: bad_value(of, to); break;
    case GATE_BAD_FIELDS: bad_fields(of, to); break;
    case GATE_BAD_LINE: bad_line(of, to); break;
    case GATE_REPEATED_NAME: repeated_name(of, to); break;
    case GATE_BAD_COVERAGE: bad_coverage(of, to); break;
    case GATE_BAD_SIGNATURE: bad_signature(of, to); break;
    default: break;
    }
    while (to->length > 0 && to->text[to->length - 1] == ' ') to->text[--to->length] = 0;
}
