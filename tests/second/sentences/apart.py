"""Sessions apart, over whole days: document 02, K9."""

from sentences.placing import in_turns, on_two_tables, struck_out


def cases():
    yield "two sessions on one table, whose calls come in turns"
    yield (in_turns,)
    yield "strike out every call that bears another session's IV; this session's verdicts, replies and record at the end are the same"
    for seed in range(16):
        yield struck_out, seed
    yield "two makers' sessions on two tables as on one"
    for seed in range(8):
        yield on_two_tables, seed
