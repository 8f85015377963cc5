#include "reply.h"

#include "gate.h"
#include "head.h"
#include "value.h"

static const char *const written[] = {"s", "iv", "tag", "kh", "h", "ah", "eah"};
enum { MUST = 6, WRITTEN = 7 }; /* eah is written only where there are extra names */

static int place_breach(const field *read, sentence *why) {
    if (read->number > WRITTEN) {
        say(why, "nothing follows eah in a setup reply");
    } else if (!is_string(read->key, written[read->number - 1])) {
        say(why, read->number <= MUST ? "%s is expected in its place" : "%s alone may follow ah", written[read->number - 1]);
    }
    return why->length > 0;
}

static void hash_breach(uint64_t mask, sentence *why) {
    uint64_t both = GATE_HASH_SHA_256 | GATE_HASH_SHA_512;
    if (hash_name(mask) == NULL) say(why, "it names %s; 1 is SHA-256 and 4 is SHA-512", (mask & both) == both ? "two hashes" : "no hash");
}

/* What holds for a reply beyond the rules of a value. */
static int orders_breach(const field *read, sentence *why) {
    if (is_string(read->key, "kh") && read->length != GATE_SESSION_KEY_BYTES) {
        say(why, "it has %zu byte%s, and a session key has %d", read->length, plural(read->length), GATE_SESSION_KEY_BYTES);
    } else if (is_string(read->key, "h")) {
        hash_breach(mask_of(read), why);
    } else if (is_string(read->key, "ah")) {
        unsigned bit = 63;
        while (bit >= GATE_BITS && (mask_of(read) >> bit & 1) == 0) bit--;
        if (bit >= GATE_BITS) say(why, "bit %u is set, and no bit above %d covers anything", bit, GATE_BITS - 1);
    } else if (is_string(read->key, "eah")) {
        extra_breach(contents_of(read), why);
    }
    return why->length > 0;
}

void bad_reply(span reply, sentence *to) {
    field read;
    sentence why = empty_sentence();
    pieces all = fields_of(reply);
    if (reply.length == 0) say(to, "The setup reply is empty.");
    while (to->length == 0 && next_field(&all, &read)) {
        if (!form_breach(&read, &why) && !place_breach(&read, &why) && !contents_breach(&read, &why) && !orders_breach(&read, &why)) continue;
        say_breach(to, "Field", read.number, "the setup reply", read.key, &why);
    }
    if (to->length > 0) return;
    if (all.count < MUST) {
        say(to, "The setup reply has no %s: it ends after field %zu.", written[all.count], all.count);
    } else if (reply.at[reply.length - 1] == ';') {
        say(to, "The setup reply has a closing `;`, which no setup writes.");
    }
}
