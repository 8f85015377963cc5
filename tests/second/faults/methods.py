"""The method (document 02, K3).

'A method of wrong length is 1; a byte that no token has is 6.' It is the first part of the signed text, so another is 11.
"""

import model
from faults.catalogue import REQUEST, each_32_but, fault, nonces
from faults.signature import other_parts, replaced, swapped, without
from faults.sizes import of_length

of_length("method", "method", [0, 17, 272], 1, REQUEST, at="plan")
of_length("method", "method", [1, 16], 0, REQUEST, at="plan")

for no_token, no_token_values in each_32_but(model.TOKEN_CHARACTERS):

    @fault(f"method: a byte that no token has {no_token}", 6, "plan")
    def no_token_byte(draft, rng, values=no_token_values):
        place = rng.randrange(len(draft.method))
        draft.method = draft.method[:place] + bytes([rng.choice(values)]) + draft.method[place + 1:]


@fault("method: a blank after it", 6, "lent")
def blank_after(draft, rng):
    draft.method = draft.method[:15] + b" "


@fault("method: the request line", 6, "plan")
def request_line(draft, rng):
    draft.method = b"GET / HTTP/1.1"


@fault("method: any token characters", 0, "plan")
def any_token(draft, rng):
    draft.method = bytes(rng.choices(model.TOKEN_CHARACTERS, k=rng.randint(1, model.MOST_METHOD)))


def altered(name, signed, lent):
    def needs(draft):
        draft.method = signed

    @fault(f"altered on the way: {name}", 11, "lent", needs=needs)
    def alter(draft, rng):
        draft.method = lent


altered("POST to DELETE", b"POST", b"DELETE")
altered("GET to HEAD", b"GET", b"HEAD")
altered("the method's case", b"POST", b"Post")
altered("the method's last byte left out", b"POST", b"POS")
altered("a byte more in the method", b"POST", b"POSTS")

other_parts("method left out", nonces, without(b"method"))
other_parts("method after h", nonces, swapped(b"method", b"h"))
other_parts("method after the body", nonces, lambda parts: parts[1:] + parts[:1])
other_parts("method twice", nonces, lambda parts: parts[:1] + parts)
other_parts("method in other case", nonces, replaced(b"method", bytes.swapcase))
other_parts("method before the path", nonces, lambda parts: parts[1:-2] + parts[:1] + parts[-2:])
