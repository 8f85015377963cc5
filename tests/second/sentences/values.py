"""X-S-Armor values: document 01, 'The X-S-Armor value'."""

from client import encoded_mask, encoded_number, piece
from faults.grammar import BAD_CONTENTS, BAD_MASKS, GOOD_CONTENTS
from sentences.placing import request, setup

MUST = (b"s", b"c", b"t", b"lt", b"h", b"ah", b"iv", b"tag")

GOOD = {
    b"s": b"\x53",
    b"c": bytes(range(64)),
    b"t": encoded_number(1_505_773_123),
    b"lt": encoded_number(1_505_773_000),
    b"h": encoded_mask(4),
    b"ah": encoded_mask(2),
    b"iv": bytes(range(100, 112)),
    b"tag": bytes(range(200, 216)),
}
WITH_NONCE = {**GOOD, b"ah": encoded_mask(3), b"n": encoded_number(5)}
WITH_EXTRA = {**GOOD, b"eah": b"X-Dealer,X-Farm"}

BASE64 = {
    "padded": [b"AAAA", b"AAA=", b"AA==", b"AAAAAAA=", b"AAAAAA==", b"+/+/", b"Zz09", b"////"],
    "a length that is not a multiple of 4": [b"A", b"AA", b"AAA", b"AAAAA", b"AAAAAA", b"AAAAAAA", b"AAA=A", b"AA=", b"="],
    "= inside or in front": [b"====", b"A===", b"AA==AA==", b"AAA=AAAA", b"AA=A", b"A=AA", b"=AAA", b"AAAA====", b"A==A", b"=A=="],
    "its spare bits are zero": [b"AB==", b"AC==", b"AE==", b"AI==", b"AP==", b"AQ==", b"Ag==", b"AAB=", b"AAC=", b"AAD=", b"AAE=", b"AAg="],
    "the URL alphabet": [b"AA-_", b"----", b"____", b"A-==", b"AA_="],
    "line breaks and blanks": [b"AAAA\r\nAAAA", b"AAAA\nAAAA", b"AA\r\n", b"AAA\n", b" AAA", b"AAA ", b"AAAA ", b" AAAA", b"\tAAA", b"AAAA    "],
    "other bytes": [b"AA\0A", b"AAA\0", b"\x80AAA", b"AAA\xff", b"AAA\xc1", b"A,AA", b"AAA.", b"A@AA", b"AA[A", b"A`AA", b"AA{A"],
}


def value(fields):
    """The pieces of a field for each key, or of a list of pairs."""
    pairs = fields.items() if isinstance(fields, dict) else fields
    return b";".join(piece(key, contents) for key, contents in pairs)


def having(fields, **changed):
    return value({**fields, **{key.encode(): contents for key, contents in changed.items()}})


def without_key(fields, key):
    return {k: contents for k, contents in fields.items() if k != key}


def without(fields, key):
    return value(without_key(fields, key))


def both(text):
    yield request, text
    yield setup, text


def whole_values():
    yield "One or more pieces key:base64, separated by ;"
    for text in (b"", b"x", b"x:AAAA", b"x:AAAA;y:AAAA", b"r:AQQ=", value(GOOD), value(WITH_NONCE), value(WITH_EXTRA)):
        yield from both(text)
    yield "the order of the pieces is free"
    yield request, value(list(GOOD.items())[::-1])
    yield request, value([(b"eah", b"q"), *GOOD.items()])
    yield request, value([(b"n", b"\0"), *{**WITH_NONCE, **WITH_EXTRA, b"ah": encoded_mask(1)}.items()][:-1])
    yield "one closing ; allowed"
    for text in (b"r:AQQ=;", b"x:AAAA;", value(GOOD) + b";", value(WITH_EXTRA) + b";", value([*GOOD.items(), (b"eah", b"Zz")]) + b";"):
        yield from both(text)
    yield "no empty piece"
    for text in (b";", b";;", b"r:AQQ=;;", b";r:AQQ=", b"r:AQQ=;;x:AAAA", b"r:AQQ=;;;", value(GOOD) + b";;", b";" + value(GOOD)):
        yield from both(text)
    yield from both(value(GOOD).replace(b";", b";;", 1))
    yield "no empty key"
    for text in (b":AAAA", b":", b"r:AQQ=;:AAAA", b":AAAA;r:AQQ=", value(GOOD) + b";:AAAA", b"AAAA", b"AQQ="):
        yield from both(text)
    yield "no empty value"
    for text in (b"x:", b"r:", b"r:AQQ=;x:", b"x:;r:AQQ=", b"r:;", value(GOOD) + b";eah:", value(GOOD) + b";eah:;", value(GOOD) + b";x:"):
        yield from both(text)
    yield "the key ends at the first colon"
    for text in (b"r::AQQ=", b"r:AQQ=:", b"r:A:Q=", b"r:AQQ=:AAAA", b"x:y:AAAA", b"x:AA:A", b"::AAAA", value(GOOD) + b";eah:AA:A"):
        yield from both(text)
    yield "a piece has a colon"
    for text in (b"r", b"r;", b"x;r:AQQ=", b"r:AQQ=;x", value(GOOD) + b";x", value(GOOD) + b"; "):
        yield from both(text)
    yield "nothing is trimmed, and a key is any bytes but : and ; (docs/DECISIONS.md)"
    for text in (b" r:AQQ=", b"r :AQQ=", b"r: AQQ=", b"r:AQQ= ", b"r:AQQ=; ", b"r:AQQ=\r\n", b"\0:AAAA", b"\xff:AAAA", b"=:AAAA", b"t\r\n:AAAA"):
        yield from both(text)
    for text in (b" " + value(GOOD), value(GOOD) + b" ", value(GOOD).replace(b";", b"; "), b'"' + value(GOOD) + b'"'):
        yield from both(text)
    yield "keys are compared byte for byte (docs/DECISIONS.md)"
    for text in (b"R:AQQ=", b"rr:AQQ=", b"R:AA==", having(GOOD, T=b"\0\0"), having(GOOD, EAH=b"q"), having(without_key(GOOD, b"t"), T=b"\5")):
        yield from both(text)
    yield "The comma in that figure between two fields is a misprint"
    yield from both(value(GOOD).replace(b";", b",", 1))
    yield from both(b"r:AQQ=,x:AAAA")


def base64():
    for kind, texts in BASE64.items():
        yield f"Base64 is padded and its spare bits are zero: {kind}"
        for text in texts:
            yield setup, b"x:" + text
        yield request, value(GOOD) + b";eah:" + texts[0]
        yield request, value(GOOD) + b";eah:" + texts[-1]
    yield "Base64 is padded: fields whose padding is missing, doubled or misplaced"
    for text in (b"r:AQQ", b"r:AQQ==", b"r:AQQ===", b"r:=AQQ", b"r:AQ=Q", b"r:AQR=", b"r:AQS="):
        yield from both(text)
    yield "a table for all 256 byte values: each in each place of a group"
    for byte in range(256):
        yield setup, b"x:AA%cA" % byte
    for place in (0, 1, 3):
        for byte in b"\0\n\r *+,-./09:;<=>@AZ[_`az{\x7f\x80\xff":
            yield setup, b"x:" + b"A" * place + bytes([byte]) + b"A" * (3 - place)


def numbers():
    yield "Numbers (t, lt, n): 1 to 4 bytes, highest byte first"
    for n in (1, 127, 128, 255, 256, 258, 65_535, 65_536, 66_051, 16_777_215, 16_777_216, 16_909_060, 4_294_967_295):
        run = encoded_number(n)
        yield request, having(WITH_NONCE, t=run, lt=encoded_number(n ^ 1), n=run[::-1] if run[-1] else run)
    yield "no leading zero byte; 0 is one zero byte; 1 to 4 bytes"
    for run in (b"\0", b"\0\0", b"\0\5", b"\0\0\0", b"\0\0\0\5", b"\0\xff\xff\xff", b"\1\0\0\0", b"\1\0\0\0\0", b"\0\1\0\0\0", b"\xff" * 5, bytes(8)):
        for key in ("t", "lt", "n"):
            yield request, having(WITH_NONCE, **{key: run})


def masks():
    yield "Masks: a length byte, then that many bytes (1 to 8) of number, highest byte first"
    for mask in (0, 1, 4, 255, 256, 1_024, 65_536, 1 << 24, 1 << 32, 1 << 40, 1 << 55, 1 << 56, 1 << 63, (1 << 64) - 1, 0x0102030405060708):
        yield setup, value([(b"r", encoded_mask(mask))])
        yield request, having(WITH_NONCE if mask & 1 else GOOD, ah=encoded_mask(mask))
        yield request, having(GOOD, h=encoded_mask(mask))
    yield "the listing's comment says little-endian, its code does not, and the code decides"
    yield setup, value([(b"r", b"\2\4\0")])
    yield setup, value([(b"r", b"\2\1\4")])
    yield "same rule: no leading zero byte; the length byte is the number of bytes that follow"
    bad = [*BAD_MASKS.values(), b"\x08" + bytes(8), b"\7\1\1\1\1\1\1\1\1", b"\x08\1\1\1\1\1\1\1", b"\x09\1\1\1\1\1\1\1\1", b"\1\0\0"]
    for run in bad:
        yield setup, value([(b"r", run)])
        yield request, having(GOOD, h=run)
        yield request, having(GOOD, ah=run)


def sizes():
    yield "Lengths: c 32 or 64 (document 02, K2), iv 12, tag 16, s 1 to 118"
    for key, lengths in (("iv", (1, 11, 12, 13)), ("tag", (1, 15, 16, 17)), ("s", (1, 2, 117, 118, 119, 120, 374))):
        for length in lengths:
            yield request, having(GOOD, **{key: bytes([7]) * length})
    for length in (1, 16, 20, 31, 32, 33, 48, 63, 64, 65, 66, 96, 128):
        for h in (1, 4):
            yield request, having(GOOD, h=encoded_mask(h), c=bytes([7]) * length)
        yield setup, value([(b"r", encoded_mask(4)), (b"c", bytes([7]) * length)])
    yield "eah and every other key need only good base64"
    for length in (1, 2, 3, 128, 129, 300):
        yield request, having(GOOD, eah=b"q" * length)
        yield request, having(GOOD, kh=b"q" * length)
    for key in (b"kh", b"x", b"i", b"eahx", b"ea", b"l", b"ta", b"ti", b"ivy", b"lta", b"hh"):
        yield setup, key + b":AA=="
        yield setup, key + b":AA="
    yield "X-S-Armor value at most 4,096 bytes"
    for text in (b"r:AQQ=;" * 585, b"r:AQQ=;" * 585 + b"r", b"k" * 4_096, b":" * 4_096, b";" * 4_096):
        yield from both(text)
    yield setup, b"x:" + b"A" * 4_092 + b";"
    yield request, having(GOOD, eah=b"q" * 2_700)


def field_sets():
    yield "A request carries s, c, t, lt, h, ah, iv, tag, each once: missing, twice with equal or other contents"
    for key in MUST:
        yield request, without(GOOD, key)
        yield request, value([*GOOD.items(), (key, GOOD[key])])
        yield request, value([(key, GOOD_CONTENTS[key]), *GOOD.items()])
    yield "eah or not; twice is 5"
    for extra in (b"q", b"X-Dealer,X-Farm", b"\0", b","):
        yield request, having(GOOD, eah=extra)
    yield request, value([*WITH_EXTRA.items(), (b"eah", WITH_EXTRA[b"eah"])])
    yield request, value([(b"eah", b"q"), *WITH_EXTRA.items()])
    yield "n exactly if bit 0 of ah is set: of the request's own ah (docs/DECISIONS.md)"
    for mask in (0, 1, 2, 3, 254, 255, 256, 257, (1 << 55) - 1, 1 << 55, 1 << 56, (1 << 64) - 1, (1 << 64) - 2):
        yield request, having(GOOD, ah=encoded_mask(mask))
        yield request, having(GOOD, ah=encoded_mask(mask), n=b"\5")
    yield request, value([*WITH_NONCE.items(), (b"n", b"\5")])
    yield request, value([(b"n", b"\0"), *WITH_NONCE.items()])
    yield request, value([*WITH_NONCE.items(), (b"n", b"\0\0")])
    yield "ah missing or twice: 5, whatever n does"
    yield request, without(WITH_NONCE, b"ah")
    yield request, value([*WITH_NONCE.items(), (b"ah", encoded_mask(2))])
    yield "Other keys are 5. That includes kh"
    for key, contents in ((b"kh", bytes(32)), (b"r", encoded_mask(4)), (b"i", bytes(64)), (b"x", b"\1"), (b"T", bytes(5)), (b" t", b"\5"), (b"k" * 40, b"\0")):
        yield request, value([*GOOD.items(), (key, contents)])
    yield "A setup request carries r alone, the client's mask; bits that the gate doesn't know are ignored"
    for text in (b"r:AQQ=", b"r:AQQ=;", b"r:AQQ=;r:AQQ=", b"r:AQQ=;x:AAAA", b"kh:AAAA;r:AQQ=", b"h:AQQ=", b"r:AQQ=;eah:AAAA", b"eah:AAAA"):
        yield setup, text
    yield setup, value([(b"r", encoded_mask(4)), *GOOD.items()])
    yield setup, value([(b"r", encoded_mask(4)), (b"n", b"\5")])
    yield "All this holds for setup and request alike. Any breach is 4"
    for key, contents in BAD_CONTENTS.items():
        yield setup, value([(b"r", encoded_mask(4)), (key, contents)])
        yield request, value([*GOOD.items(), (key, contents)])
    for key, contents in GOOD_CONTENTS.items():
        yield setup, value([(b"r", encoded_mask(4)), (key, contents)])


def cases():
    yield from whole_values()
    yield from base64()
    yield from numbers()
    yield from masks()
    yield from sizes()
    yield from field_sets()
