"""Orders: document 01, 'Orders, records and sizes'."""

import model
from sentences.placing import orders

HIGHEST = model.HIGHEST


def extra(run):
    return orders, 0, 5, run, 0, 0, 0


def cases():
    yield "a coverage mask .. Bits 1 to 55 .. A higher bit makes bad orders"
    for mask in (0, 1, 2, 3, 1 << 54, 1 << 55, (1 << 56) - 1, 1 << 56, (1 << 56) + 1, 1 << 57, 1 << 63, (1 << 64) - 1):
        yield orders, mask, 5, b"", 0, 0, 0
    yield "a mask of allowed hashes .. of 0 or with other bits is 2 (document 02, K2)"
    for hashes in (*range(17), 20, 21, 255, 256, 260, 1 << 32 | 5, 5 << 32, 1 << 63, 1 << 63 | 4, (1 << 64) - 1):
        yield orders, 3, hashes, b"", 0, 0, 0
    yield "three limits in seconds, where 0 means the default: request life 60 (document 02, K1), idle 1,800, session life 1,209,600"
    for limits in ((0, 0, 0), (1, 0, 0), (0, 1, 0), (0, 0, 1), (60, 1_800, 1_209_600), (300, 0, 0), (5, 6, 7), (60, 0, 900)):
        yield orders, 3, 5, b"", *limits
    yield "A session life above 2,592,000 (30 days) makes bad orders; the other limits are any 32-bit numbers"
    for life in (2_591_999, 2_592_000, 2_592_001, 2_592_256, 1 << 31, HIGHEST):
        yield orders, 3, 5, b"", 0, 0, life
    for limits in ((HIGHEST, 0, 0), (0, HIGHEST, 0), (2_592_001, 2_592_001, 2_592_000), (HIGHEST, HIGHEST, 1), (1 << 31, 1, 0)):
        yield orders, 3, 5, b"", *limits
    yield "Extra names: 0 to 8 .. tokens joined by commas"
    for run in (b"", b"q", b"q,w", b"a,b,c,d,e,f,g,j", b"a,b,c,d,e,f,g,j,k", b"a,b,c,d,e,f,g,j,k,l"):
        yield extra(run)
    for run in (b",", b",,", b",a", b"a,", b"a,,b", b"a,b,", b"a, b", b"a ,b", b" a", b"a ", b" ", b"a;b", b"a:b", b"a,b,c,d,e,f,g,j,"):
        yield extra(run)
    yield "Extra names: .. RFC 9110 tokens: each byte by itself, and every token character at once"
    for byte in range(256):
        yield extra(bytes([byte]))
    yield extra(model.TOKEN_CHARACTERS)
    yield "at most 128 bytes"
    for size in (127, 128, 129, 256, 384):
        yield extra(b"n" * size)
    for last in (15, 16, 17):
        yield extra(b",".join(bytes([letter]) * 15 for letter in b"abcdefg") + b"," + b"h" * last)
    yield "none twice .. compared without regard to ASCII case"
    for run in (b"X-Farm,X-Farm", b"X-Farm,b,x-fARM", b"a,b,c,d,e,f,g,A", b"a,A", b"q,a,b,c,Q", b"z,Z", b"m,M"):
        yield extra(run)
    for run in (b"x^,x~", b"Q,QQ,Q-", b"xA,xb,Xc", b"a,aa,aaa", b"x-1,x-2", b"`,'", b"~,^,|"):
        yield extra(run)
    yield "none from the list below .. compared without regard to ASCII case"
    for name in model.NAMES:
        yield extra(name)
        yield extra(b"q," + name.swapcase())
    for run in (b"Hos", b"Hostess", b"Host-", b"hos,t", b"MIME-Versio", b"MIME-Versions", b"I", b"Iff", b"T", b"TEE", b"-", b"Forwarde"):
        yield extra(run)
    yield "a listed name, whether or not the mask has its bit"
    for mask in (0, 2, 3, 4):
        yield orders, mask, 5, b"Host", 0, 0, 0
    yield "not X-S-Armor, compared without regard to ASCII case"
    for run in (b"X-S-Armor", b"x-s-armor", b"a,x-S-aRMOR", b"X-S-Armo", b"X-S-Armory", b"XS-Armor"):
        yield extra(run)
    yield "several faults at once"
    yield orders, 1 << 56, 5, b",", 0, 0, HIGHEST
    yield orders, 1 << 56, 5, b"q", 9, 9, 9
