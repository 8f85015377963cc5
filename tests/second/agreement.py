"""K11's agreement: 'It says fit exactly for values that the gate would carry past check 11 and K2's check against the record'.

That is 'taking as given that our setup wrote that reply under the gate's orders and server key, that the token is the one in it,
unexpired, and that sizes, orders and table are good', and that the session's record stands and keeps the reply's hash.
"""

import calls
import client
import drafts
import model
import record as rec

LENT_BADLY = (1, 2, 3, 22)
CARRIED_PAST = (0, 13, 14, 15, 16, 21)
STOPPED = (4, 5, 6, 7, 8, 11)


def trial_of(call, judged, tokens):
    """The trial of a request that was judged so, by the reply that its session's setup wrote; None where something is not given.

    The tokens of the sessions stand by their IVs. A value that is no request's bears none of them, and any session will do.
    """
    if judged.number in LENT_BADLY:
        return None
    lent = calls.named(call)
    field = calls.request_fields(lent["value"])
    for iv in tokens if field is None else {field[b"iv"]} & tokens.keys():
        reply = reply_given(call, iv, tokens[iv])
        if reply is not None and (field is None or bears_token(field, reply)):
            arguments = (reply, *(lent[name] for name in calls.SENT))
            return drafts.Call("fits", arguments, judged.table, judged.index, None)
    return None


def reply_given(call, iv, token):
    """What our setup writes under the orders and the server key that are lent, if the token lasts and the record stands."""
    lent, orders, records = calls.named(call), calls.orders_of(call), rec.records_of(call.table)
    place = rec.place_of(records, iv)
    if place is None or records[place].hash & orders.hashes == 0 or lent["clock"] >= token.expiry:
        return None
    return model.setup_reply(orders, records[place].hash, lent["server_key"], iv, token)


def bears_token(field, reply):
    told = client.parse_reply(reply)
    return all(field[key] == told[key] for key in (b"s", b"iv", b"tag"))


def agree(judged, tried):
    return judged.number in (CARRIED_PAST if tried.number == 0 else STOPPED)
