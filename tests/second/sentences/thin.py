"""The thin entry: document 01, 'The numbers a call returns'."""

from sentences.placing import CLOCK, freed_apart, replaced, request_call, taken_out


def cases():
    yield "a thin entry: the host lends one session's record for the call and finds the new one there"
    yield taken_out, 5
    yield taken_out, 0, 63, 64, 1, 4_294_967_295
    yield "a record that is free after the thin entry is put back: the host makes the index anew"
    yield freed_apart, "the token's expiry", request_call(replaced("plan", "expiry", CLOCK)), 10
    yield freed_apart, "an idle request", request_call(lt=0), 13
