"""Order of arrival: document 02, K12."""

from sentences.placing import around_another, arriving, fallen_out


def cases():
    yield "two nonces accepted in one order, and in the other, leave the same window"
    yield (around_another,)
    yield "any two orders of one list of nonces that are each accepted throughout"
    for seed in range(24):
        yield arriving, seed
    yield "where an order refuses one, nothing is claimed"
    yield (fallen_out,)
