#include "value.h"

/* ---- Fields ---- */

pieces fields_of(span value) {
    int closed = value.length > 0 && value.at[value.length - 1] == ';';
    return pieces_of(part(value, 0, closed ? value.length - 1 : value.length), ";");
}

int next_field(pieces *all, field *found) {
    if (!next_piece(all, &found->whole)) return 0;
    size_t colon = place_of(found->whole, ":"), end = found->whole.length;
    found->number = all->count;
    found->key = part(found->whole, 0, colon);
    found->base64 = part(found->whole, colon < end ? colon + 1 : end, end);
    found->length = 0;
    return 1;
}

int form_breach(const field *read, sentence *why) {
    if (read->whole.length == 0) {
        say(why, "it is empty; fields have one `;` between them");
    } else if (read->key.length == read->whole.length) {
        say(why, "it has no colon; a field is `key:base64`");
    } else if (read->key.length == 0) {
        say(why, "its key is empty");
    } else if (read->base64.length == 0) {
        say(why, "its contents are empty");
    }
    return why->length > 0;
}

span contents_of(const field *read) { return span_of(read->contents, read->length); }

uint64_t mask_of(const field *read) { return read->length > 1 ? gate_number_at(read->contents + 1, read->length - 1) : 0; }

/* ---- Base64 ---- */

static const char alphabet[] = "ABCDEFGHIJKLMNOPQRSTUVWXYZabcdefghijklmnopqrstuvwxyz0123456789+/";

/* The six bits that a character stands for, or 64 where it is none of base64's. */
static size_t six_bits(uint8_t character) {
    const char *found = character != 0 ? strchr(alphabet, character) : NULL;
    return found != NULL ? (size_t)(found - alphabet) : 64;
}

/* Characters come before the length: a stray one tells more than the length that it spoils. */
static int base64_breach(span text, sentence *why) {
    size_t letters = place_of(text, "="), pads = text.length - letters, i = 0;
    while (i < text.length && (text.at[i] == '=' || six_bits(text.at[i]) < 64)) i++;
    if (i < text.length) {
        say_shown(why, "the character ", part(text, i, i + 1));
        say(why, " at place %zu of its base64 is none of base64's", i + 1);
    } else if (text.length % 4 != 0) {
        say(why, "its base64 has %zu character%s, which is no multiple of 4", text.length, plural(text.length));
        if (pads == 0) say(why, "; it is padded with `=`");
    } else if (pads > 2 || (pads == 2 && text.at[text.length - 1] != '=')) {
        say(why, "padding `=` stands at place %zu of its %zu base64 characters, where none may", letters + 1, text.length);
    } else if (pads > 0 && six_bits(text.at[letters - 1]) % (pads == 1 ? 4 : 16) != 0) {
        say_shown(why, "the spare bits of ", part(text, letters - 1, letters));
        say(why, " at place %zu of its base64, the last before the padding, are not zero", letters);
    }
    return why->length > 0;
}

static void decode(field *read) {
    size_t bits = 0, held = 0, letters = place_of(read->base64, "=");
    for (size_t i = 0; i < letters; i++) {
        bits = (bits << 6 | six_bits(read->base64.at[i])) & 0xffff;
        held += 6;
        if (held < 8 || read->length == sizeof read->contents) continue;
        held -= 8;
        read->contents[read->length++] = (uint8_t)(bits >> held & 255);
    }
}

void say_base64(sentence *to, span bytes) {
    for (size_t i = 0; i < bytes.length; i += 3) {
        size_t count = bytes.length - i < 3 ? bytes.length - i : 3;
        uint64_t bits = gate_number_at(bytes.at + i, count) << 8 * (3 - count);
        for (size_t k = 0; k < 4; k++) say(to, "%c", k <= count ? alphabet[bits >> (18 - 6 * k) & 63] : '=');
    }
}

/* ---- The rules of keys ---- */

static void say_hex(sentence *to, const field *read) {
    for (size_t i = 0; i < read->length && i < 10; i++) say(to, "%s%02x", i == 0 ? " (" : " ", read->contents[i]);
    say(to, read->length > 10 ? " ...)" : ")");
}

static void number_breach(const field *read, sentence *why) {
    if (read->length > 4) {
        say(why, "it is a number of %zu bytes, and 1 to 4 are allowed", read->length);
    } else if (read->length > 1 && read->contents[0] == 0) {
        say(why, "it is a number with a leading zero byte");
    }
    if (why->length > 0) say_hex(why, read);
}

static void mask_breach(const field *read, sentence *why) {
    size_t said = read->contents[0], follow = read->length - 1;
    if (said != follow) {
        say(why, "it is a mask whose length byte says %zu, with %zu byte%s after it", said, follow, plural(follow));
    } else if (said < 1 || said > 8) {
        say(why, "it is a mask whose length byte says %zu, and 1 to 8 are allowed", said);
    } else if (said > 1 && read->contents[1] == 0) {
        say(why, "it is a mask with a leading zero byte");
    }
    if (why->length > 0) say_hex(why, read);
}

static void length_breach(const field *read, int good, const char *allowed, sentence *why) {
    if (!good) say(why, "it has %zu byte%s, and %s are allowed", read->length, plural(read->length), allowed);
}

int contents_breach(field *read, sentence *why) {
    span key = read->key;
    if (base64_breach(read->base64, why)) {
        if (same_name(key, span_of_string("X-S-Armor"))) say(why, "; the header's name is no part of the value");
        return 1;
    }
    decode(read);
    if (is_string(key, "t") || is_string(key, "lt") || is_string(key, "n")) number_breach(read, why);
    if (is_string(key, "h") || is_string(key, "ah") || is_string(key, "r")) mask_breach(read, why);
    if (is_string(key, "c")) length_breach(read, read->length == 32 || read->length == 64, "32 or 64", why);
    if (is_string(key, "iv")) length_breach(read, read->length == GATE_IV_BYTES, "12", why);
    if (is_string(key, "tag")) length_breach(read, read->length == 16, "16", why);
    if (is_string(key, "s")) length_breach(read, read->length <= 118, "1 to 118", why);
    return why->length > 0;
}

int find_field(span value, const char *key, field *found) {
    pieces all = fields_of(value);
    while (next_field(&all, found)) {
        if (!is_string(found->key, key)) continue;
        decode(found);
        return 1;
    }
    return 0;
}

const char *hash_name(uint64_t mask) {
    return mask == GATE_HASH_SHA_256 ? "SHA-256" : mask == GATE_HASH_SHA_512 ? "SHA-512" : NULL;
}

size_t code_length(uint64_t mask) { return mask == GATE_HASH_SHA_256 ? 32 : 64; }
