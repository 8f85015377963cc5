"""Refusal 11: 'signature differs'. Requests altered after signing, and clients that sign another text than 01's."""

import base64
import hashlib
import hmac

import hashing
from faults.catalogue import fault, no_extras, no_nonces, nonces, nothing, sha_256, sha_512

# c itself


def other_c(name, change):
    @fault(f"c: {name}", 11, "signed")
    def alter(draft, rng):
        c = dict(draft.fields).get(b"c", bytes(64))
        draft.set_field(b"c", change(c))


def inverted(run):
    return bytes(byte ^ 0xFF for byte in run)


other_c("first byte altered", lambda c: inverted(c[:1]) + c[1:])
other_c("last byte altered", lambda c: c[:-1] + inverted(c[-1:]))
other_c("lowest bit of the last byte altered", lambda c: c[:-1] + bytes([c[-1] ^ 1]))
other_c("top bit of byte 31 altered", lambda c: c[:31] + bytes([c[31] ^ 0x80]) + c[32:])
other_c("only the first half right", lambda c: c[:len(c) // 2] + inverted(c[len(c) // 2:]))
other_c("only the last half right", lambda c: inverted(c[:len(c) // 2]) + c[len(c) // 2:])
other_c("only the first byte right", lambda c: c[:1] + inverted(c[1:]))
other_c("zeros", lambda c: bytes(len(c)))
other_c("bytes turned round", lambda c: c[::-1])


def in_longer_blocks(key, text):
    """HMAC-SHA-256 with blocks of 128 bytes."""
    block = key + bytes(128 - len(key))
    inner, outer = (bytes(byte ^ pad for byte in block) for pad in (0x36, 0x5C))
    return hashlib.sha256(outer + hashlib.sha256(inner + text).digest()).digest()


def other_signing(name, sign, needs=nothing):
    @fault(f"signed with {name}", 11, "signed", needs=needs)
    def alter(draft, rng):
        draft.set_field(b"c", sign(draft))


other_signing("another key", lambda d: d.code(bytes(32), d.text))
other_signing("the server key", lambda d: d.code(d.server_key, d.text))
other_signing("the key's base64", lambda d: d.code(base64.b64encode(d.key), d.text))
other_signing("the session id", lambda d: d.code(d.session_id, d.text))
other_signing("the plain hash", lambda d: hashing.FUNCTIONS[d.hash](d.key + d.text).digest())
other_signing("SHA3-512", lambda d: hmac.digest(d.key, d.text, "sha3_512"), sha_512)
other_signing("BLAKE2b", lambda d: hmac.digest(d.key, d.text, "blake2b"), sha_512)
other_signing("SHA-256 twice over", lambda d: 2 * hmac.digest(d.key, d.text, "sha256"), sha_512)
other_signing("SHA-256 and zeros", lambda d: hmac.digest(d.key, d.text, "sha256") + bytes(32), sha_512)
other_signing("SHA3-256", lambda d: hmac.digest(d.key, d.text, "sha3_256"), sha_256)
other_signing("BLAKE2s", lambda d: hmac.digest(d.key, d.text, "blake2s"), sha_256)
other_signing("the first half of SHA-512", lambda d: hmac.digest(d.key, d.text, "sha512")[:32], sha_256)
other_signing("the key in a block of SHA-512's size", lambda d: in_longer_blocks(d.key, d.text), sha_256)


# Altered on the way


@fault("altered on the way: path", 11, "lent")
def path_altered(draft, rng):
    draft.path += b"x" if len(draft.path) == 1 else b""
    draft.path = draft.path[:-1] + inverted(draft.path[-1:])


@fault("altered on the way: body", 11, "lent")
def body_altered(draft, rng):
    draft.body = draft.body[:-1] + inverted(draft.body[-1:]) if draft.body else b"\0"


@fault("altered on the way: last byte of the path into the body", 11, "lent")
def path_into_body(draft, rng):
    draft.path, draft.body = (draft.path + b"x")[:-2] or b"/", (draft.path + b"x")[-2:] + draft.body


def covered_host(draft):
    draft.cover(b"Host", head=b" shop.example ")


@fault("altered on the way: a covered value", 11, "lent", needs=covered_host)
def covered_altered(draft, rng):
    draft.head = draft.head.replace(b"shop.example", b"shop.exampl")


@fault("altered on the way: a covered line taken out", 11, "lent", needs=covered_host)
def covered_taken_out(draft, rng):
    draft.head = draft.head.replace(b"Host: shop.example \r\n", b"")


@fault("altered on the way: a covered value in other case", 11, "lent", needs=covered_host)
def covered_other_case(draft, rng):
    draft.head = draft.head.replace(b"shop.example", b"Shop.example")


@fault("altered on the way: a set-aside line put in", 11, "lent", needs=covered_host)
def aside_put_in(draft, rng):
    draft.aside += b"host: other\r\n"


@fault("altered on the way: an empty set-aside line put in", 11, "lent", needs=covered_host)
def empty_aside_put_in(draft, rng):
    draft.aside += b"Host:\r\n"


@fault("altered on the way: an extra value", 11, "lent", needs=lambda d: (d.order_extra(b"q,Z"), d.give(b"Z", b"same")))
def extra_altered(draft, rng):
    draft.head = draft.head.replace(b"same", b"game")


@fault("altered on the way: an uncovered line", 0, "lent")
def uncovered_altered(draft, rng):
    draft.head += b"X-Proxy: new\r\n"
    draft.aside += b"X-Proxy: old\r\n"


@fault("altered on the way: case and blanks of a covered line", 0, "lent", needs=covered_host)
def harmless(draft, rng):
    draft.head = draft.head.replace(b"Host: shop.example ", b"hOST:\t shop.example")


for altered_key in (b"t", b"lt", b"n"):

    @fault(f"altered on the way: {altered_key.decode()}", 11, "signed", needs=nonces)
    def number_altered(draft, rng, key=altered_key):
        run = dict(draft.fields).get(key, b"\5")
        draft.set_field(key, run[:-1] + bytes([run[-1] ^ 1]) if len(run) > 1 else bytes([run[0] ^ 1]))


# Clients that read 01 otherwise


def other_parts(name, needs, change):
    @fault(f"signed text: {name}", 11, "parts", needs=needs)
    def alter(draft, rng):
        draft.parts = change(draft.parts)


def two_hosts(draft):
    """Two covered headers and two extras, all with different values."""
    draft.cover(b"Host", head=b"h1", aside=b"h2")
    draft.cover(b"Via", head=b"v1")
    draft.order_extra(b"q,Z")
    draft.give(b"q", head=b"q1")
    draft.give(b"Z", head=b"z1")


def absent_host(draft):
    draft.cover(b"Host")


def empty_body(draft):
    draft.body = b""


def two_times(draft):
    draft.lt = draft.t - 1 if draft.t else 1


def nonce_unlike_time(draft):
    draft.order_nonces()
    draft.t += draft.t == draft.n


def without(label):
    return lambda parts: [part for part in parts if part[0] != label]


def replaced(label, change):
    return lambda parts: [(name, change(run) if name == label else run) for name, run in parts]


def swapped(first, second):
    def swap(parts):
        of = dict(parts)
        order = [{first: second, second: first}.get(name, name) for name, _ in parts]
        return [(name, of.get(name, b"")) for name in order]

    return swap


other_parts("absent eah left out", no_extras, without(b"eah"))
other_parts("absent header left out", absent_host, without(b"Host"))
other_parts("n left out", nonces, without(b"n"))
other_parts("h left out", nonces, without(b"h"))
other_parts("ah left out", nonces, without(b"ah"))
other_parts("lt left out", nonces, without(b"lt"))
other_parts("path left out", nonces, without(b"path"))
other_parts("empty body left out", empty_body, without(b"body"))
other_parts("an empty n where none is carried", no_nonces, lambda ps: ps[:4] + [(b"n", b"")] + ps[4:])
other_parts("h without its length byte", nonces, replaced(b"h", lambda run: run[1:]))
other_parts("ah without its length byte", nonces, replaced(b"ah", lambda run: run[1:]))
other_parts("t in eight bytes", nonces, replaced(b"t", lambda run: bytes(8 - len(run)) + run))
other_parts("t in decimal", nonces, replaced(b"t", lambda run: b"%d" % int.from_bytes(run, "big") + b" "))
other_parts("n in eight bytes", nonces, replaced(b"n", lambda run: bytes(8 - len(run)) + run))
other_parts("head's value where one is set aside", two_hosts, replaced(b"Host", lambda run: b"h1"))
other_parts("untrimmed value", covered_host, replaced(b"Host", lambda run: b" " + run + b" "))
other_parts("line instead of value", covered_host, replaced(b"Host", lambda run: b"Host: " + run))
other_parts("covered values by falling bit", two_hosts, swapped(b"Host", b"Via"))
other_parts("extra values in other order", two_hosts, swapped(b"q", b"Z"))
other_parts("extra values before covered ones", two_hosts, swapped(b"Host", b"q"))
other_parts("body before path", lambda d: setattr(d, "body", b"other"), swapped(b"path", b"body"))
other_parts("lt before t", two_times, swapped(b"t", b"lt"))
other_parts("n after t", nonce_unlike_time, swapped(b"n", b"t"))
other_parts("ah before h", two_hosts, swapped(b"h", b"ah"))
other_parts("bit 0 read as the last name", nonces, lambda ps: ps[:-2] + [(b"MIME-Version", b"")] + ps[-2:])


def other_text(name, change):
    @fault(f"signed text: {name}", 11, "text")
    def alter(draft, rng):
        draft.text = change(draft)


other_text("joined by bars", lambda d: b"|".join(run for _, run in d.parts))
other_text("joined by nothing", lambda d: b"".join(run for _, run in d.parts))
other_text("netstrings without commas", lambda d: b"".join(b"%d:%s" % (len(run), run) for _, run in d.parts))
other_text("lengths with a leading zero", lambda d: b"".join(b"0%d:%s," % (len(run), run) for _, run in d.parts))
other_text("a netstring around it all", lambda d: b"%d:%s," % (len(d.text), d.text))
other_text("a line feed after it", lambda d: d.text + b"\n")
