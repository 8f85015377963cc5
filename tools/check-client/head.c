#include "head.h"

#include "gate.h"

static const uint64_t list_fields =
    GATE_COVER(ACCEPT) | GATE_COVER(ACCEPT_CHARSET) | GATE_COVER(ACCEPT_ENCODING) | GATE_COVER(ACCEPT_LANGUAGE) |
    GATE_COVER(CONNECTION) | GATE_COVER(CACHE_CONTROL) | GATE_COVER(IF_MATCH) | GATE_COVER(IF_NONE_MATCH) | GATE_COVER(TE) |
    GATE_COVER(TRAILER) | GATE_COVER(UPGRADE) | GATE_COVER(VIA);

/* ---- Lines ---- */

pieces lines_of(span head) {
    pieces all = pieces_of(part(head, 0, head.length < 2 ? 0 : head.length - 2), "\r\n");
    all.ended = head.length == 0;
    return all;
}

int next_line(pieces *all, line *found) {
    if (!next_piece(all, &found->text)) return 0;
    size_t colon = place_of(found->text, ":"), end = found->text.length;
    found->number = all->count;
    found->name = part(found->text, 0, colon);
    found->value = part(found->text, colon < end ? colon + 1 : end, end);
    return 1;
}

static int is_token_byte(uint8_t byte) {
    int is_letter = (byte >= 'A' && byte <= 'Z') || (byte >= 'a' && byte <= 'z');
    return is_letter || (byte >= '0' && byte <= '9') || (byte != 0 && strchr("!#$%&'*+-.^_`|~", byte) != NULL);
}

size_t place_of_no_token(span name) {
    size_t i = 0;
    while (i < name.length && is_token_byte(name.at[i])) i++;
    return i;
}

static size_t place_of_control(span value) {
    size_t i = 0;
    while (i < value.length && (value.at[i] >= 32 || value.at[i] == '\t') && value.at[i] != 127) i++;
    return i;
}

/* Line ends come first: where one is bare, two lines look like one that has some other breach. */
int line_breach(const line *read, sentence *why) {
    span text = read->text, name = read->name;
    size_t feed = place_of(text, "\n"), stray = place_of(text, "\r");
    size_t no_token = place_of_no_token(name), control = place_of_control(read->value);
    if (feed < text.length) {
        say(why, "it has a bare line feed at place %zu; each line ends with CR LF", feed + 1);
    } else if (stray < text.length) {
        say(why, "it has a bare carriage return at place %zu; each line ends with CR LF", stray + 1);
    } else if (text.length > 0 && is_blank(text.at[0])) {
        say(why, "it begins with a blank, and lines are not folded");
    } else if (name.length == text.length) {
        say(why, "it has no colon");
    } else if (name.length == 0) {
        say(why, "its name is empty");
    } else if (is_blank(name.at[name.length - 1])) {
        say(why, "a blank stands before the colon");
    } else if (no_token < name.length) {
        say_shown(why, "its name has ", part(name, no_token, no_token + 1));
        say(why, " at place %zu, a byte that no token has", no_token + 1);
    } else if (control < read->value.length) {
        say_shown(why, "its value has the control character ", part(read->value, control, control + 1));
        say(why, " at place %zu of the line", name.length + control + 2);
    }
    return why->length > 0;
}

/* ---- Names ---- */

covered covered_by(uint64_t mask, span extra) {
    covered all = {mask, pieces_of(extra, ","), GATE_BIT_NONCE, extra, 0};
    all.extra.ended = extra.length == 0;
    return all;
}

int next_covered(covered *all) {
    while (all->bit < GATE_BITS) {
        if (++all->bit == GATE_BITS || (all->mask >> all->bit & 1) == 0) continue;
        all->name = span_of_string(gate_header_name(all->bit));
        all->is_list = (int)(list_fields >> all->bit & 1);
        return 1;
    }
    all->is_list = 0;
    return next_piece(&all->extra, &all->name);
}

static int has_bit(span name) {
    covered all = covered_by(~(uint64_t)0, span_of_string(""));
    while (next_covered(&all)) {
        if (same_name(all.name, name)) return 1;
    }
    return 0;
}

/* Whether the name, which is one of the extra ones, stands before its place too. */
static int stood_before(span extra, span name) {
    span other;
    pieces before = pieces_of(extra, ",");
    while (next_piece(&before, &other) && other.at < name.at) {
        if (same_name(other, name)) return 1;
    }
    return 0;
}

static const char *name_breach(span extra, span name) {
    if (name.length == 0) return "is empty";
    if (place_of_no_token(name) < name.length) return "has a byte that no token has";
    if (has_bit(name)) return "is one that a bit of ah covers";
    if (same_name(name, span_of_string("X-S-Armor"))) return "cannot be covered";
    return stood_before(extra, name) ? "stands there twice" : NULL;
}

int extra_breach(span extra, sentence *why) {
    span name;
    pieces all = pieces_of(extra, ",");
    if (extra.length > GATE_EXTRA_MAX) say(why, "the extra names have %zu bytes, and at most %d are allowed", extra.length, GATE_EXTRA_MAX);
    while (why->length == 0 && next_piece(&all, &name)) {
        const char *breach = name_breach(extra, name);
        if (breach != NULL) {
            say_shown(why, "the extra name ", name);
            say(why, " %s", breach);
        } else if (all.count > GATE_EXTRA_NAMES_MAX) {
            say(why, "there are more than %d extra names", GATE_EXTRA_NAMES_MAX);
        }
    }
    return why->length > 0;
}
