"""Calls by document 02's sentences: a name, the call, its number, and the value and the state that 0 leaves.

Numbers and covered values are said by the cases and not taken from the model, so that model and cases check each other.
"""

import base64

from scanner import requests, sessions
from scanner.calls import Begin, Hear, Sign
from scanner.placed import OUT, ZEROS

# The example of docs/RULES.md: its reply, the code of its request, whose nonce is 7, and its invalidation, under each hash

TOKEN = b"s:0YuUAwcepCfo4jAesk44d1TofWyGBzwXQnF53a4p1uelNsyA5oO9JkCabxu8PPPr+0ubBAPx2zGzLeY3Cw=="
SEALED = b"iv:QEFCQ0RFRkdISUpL;tag:ZckYUDPe5o/Ab/zCK/KKww=="
KEY = b"kh:ICEiIyQlJicoKSorLC0uLzAxMjM0NTY3ODk6Ozw9Pj8="
ORDERS = b"ah:AgED;eah:WC1EZWFsZXI="
EXAMPLES = {
    b"h:AQQ=": (
        "65463c9462983c534530d9eb41babb97d201be7c3d438dc480a2544f4fb4e1b14ca0171fedbcc7101ce358660b382d222ad86f12eda94b5271a50315c236f10b",
        b"i:ocfP3bpjNASLah3zD3Vz1MYUzQhw48FMap2tk954cpmznnOlndyNiYfvjyU+kDEon4sAcBfgxEL3lMZPiwMPqA==",
    ),
    b"h:AQE=": ("1d64128e0766eeeefd0b24a7556f1da4ba0e80be92b55050716473440535adeb", b"i:7je5QtwuYBxXDAWHz/TlQD210HyYzolAIvcmHuJWr8M="),
}


def example():
    for h, (code, invalidation) in EXAMPLES.items():
        name = f"docs/RULES.md's example with {h.decode()}"
        begun, before, after = (example_state(h, *told) for told in ((1_505_773_123, 0), (1_505_773_123, 7), (1_505_773_183, 8)))
        yield f"{name}, begun", Begin(1_505_773_123, b";".join((TOKEN, SEALED, KEY, h, ORDERS)), ZEROS), 0, b"", begun
        head = b"Host:portal.example\r\nCookie: seat=4 \r\nX-Dealer:Brandt\r\n"
        call = Sign(1_505_773_183, b"POST", head, b"/orders", b"belts=11", before, OUT)
        coded = b"c:" + base64.b64encode(bytes.fromhex(code))
        value = b";".join((TOKEN, coded, b"t:WcBGfw==;lt:WcBGQw==", SEALED, h, ORDERS, b"n:Bw=="))
        yield f"{name}, signed", call, 0, value, after
        yield f"{name}, heard", Hear(invalidation, begun), 0, b"", ZEROS


def example_state(h, last, nonce):
    """Byte by byte: the front, IV, tag, key, s, eah, zeros."""
    s, iv, tag = (base64.b64decode(piece.split(b":")[1]) for piece in (TOKEN, *SEALED.split(b";")))
    front = last.to_bytes(4, "big") + nonce.to_bytes(8, "big") + b"\0\0\0\0\0\0\1\3" + base64.b64decode(h[2:])[1:] + bytes([len(s), 8])
    return (front + iv + tag + bytes(range(32, 64)) + s + b"X-Dealer").ljust(329, b"\0")


# The first some hundred calls are played under valgrind as well, so subjects of a few calls come first.
SUBJECTS = (
    *(example, sessions.lives, sessions.beginning, sessions.nonces, sessions.believed),
    *(requests.sizes, requests.extra_names, requests.at_once, requests.values, requests.names, requests.methods, requests.lines),
    *(sessions.times, sessions.no_replies, sessions.changed_replies),
    *(sessions.sized_states, sessions.changed_states, sessions.other_states, sessions.not_believed),
)


def cases():
    for subject in SUBJECTS:
        yield from subject()
