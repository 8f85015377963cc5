"""Numbers, masks and base64: document 01, 'The X-S-Armor value'."""

import encoding
import model
from sentences.placing import decode, mask, number


def cases():
    yield "cases 2 to 5: Kb+4 is 2736056, AQQ= is the mask 4, WcBGQw== is 1505773123, Aw1z7w== is the mask with bytes 0D 73 EF"
    for text in (b"Kb+4", b"AQQ=", b"WcBGQw==", b"Aw1z7w=="):
        yield decode, text
    for n in (2_736_056, 1_505_773_123):
        yield number, n
    for m in (4, 0x0D73EF):
        yield mask, m
    yield "Numbers: highest byte first, no leading zero byte; 0 is one zero byte"
    for size in range(4):
        for n in (0, 1, 255, 256 ** size - 1, 256 ** size, 256 ** size + 1, 0x01020304 >> 8 * size):
            yield number, n
    yield number, model.HIGHEST
    yield "Masks: a length byte, then that many bytes (1 to 8) of number, same rule"
    for bit in range(64):
        yield mask, 1 << bit
        yield mask, (1 << bit) - 1
    yield mask, (1 << 64) - 1
    yield mask, 0x0102030405060708
    yield "a table for all 256 byte values, each with its six bits or the mark for none"
    for byte in range(256):
        yield decode, b"%cAAA" % byte
    for byte in encoding.ALPHABET:
        yield decode, b"AA%c%c" % (byte, byte)
        yield decode, b"A%c==" % byte
        yield decode, b"AA%c=" % byte
        yield decode, b"AQ%c=" % byte
    yield decode, b""
    yield decode, encoding.ALPHABET
    for start in range(0, 64, 16):
        yield decode, encoding.ALPHABET[start:start + 16]
