"""The small encodings of document 01, read strictly: base64, numbers, masks and netstrings.

A reader answers None for text that breaks its rule; which refusal that is, the caller knows.
"""

import base64

ALPHABET = b"ABCDEFGHIJKLMNOPQRSTUVWXYZabcdefghijklmnopqrstuvwxyz0123456789+/"
SIX_BITS = {byte: place for place, byte in enumerate(ALPHABET)}
DIGITS = b"0123456789"
PAD = ord("=")


def base64_text(run):
    """RFC 4648 section 4, padded."""
    return base64.b64encode(run)


def base64_bytes(text):
    """'Base64 is padded and its spare bits are zero': every run of bytes has exactly one text."""
    if len(text) % 4 != 0:
        return None
    run = bytearray()
    for start in range(0, len(text), 4):
        group = text[start:start + 4]
        is_last = start + 4 == len(text)
        pads = trailing_pads(group) if is_last else 0
        letters = group[:4 - pads]
        if any(letter not in SIX_BITS for letter in letters):
            return None
        bits = 0
        for letter in letters:
            bits = bits * 64 + SIX_BITS[letter]
        spare = 2 * pads
        if bits % (1 << spare) != 0:
            return None
        run += (bits >> spare).to_bytes(3 - pads, "big")
    return bytes(run)


def trailing_pads(group):
    """At most two: a third `=` is left among the letters, where it is none."""
    if group[2] == PAD and group[3] == PAD:
        return 2
    return 1 if group[3] == PAD else 0


def number_bytes(number):
    """The shortest run, highest byte first; 0 is one zero byte."""
    return number.to_bytes(max(1, (number.bit_length() + 7) // 8), "big")


def without_leading_zero(run):
    return len(run) == 1 or run[0] != 0


def number(run):
    """'Numbers (t, lt, n): 1 to 4 bytes, highest byte first, no leading zero byte; 0 is one zero byte.'"""
    if not 1 <= len(run) <= 4 or not without_leading_zero(run):
        return None
    return int.from_bytes(run, "big")


def mask_bytes(mask):
    digits = number_bytes(mask)
    return bytes([len(digits)]) + digits


def mask(run):
    """'Masks: a length byte, then that many bytes (1 to 8) of number, same rule.'"""
    length, digits = run[0], run[1:]
    if not 1 <= length <= 8 or len(digits) != length or not without_leading_zero(digits):
        return None
    return int.from_bytes(digits, "big")


def netstring(run):
    return b"%d:%s," % (len(run), run)


def decimal(text):
    """Digits without a leading zero; `0` itself is good (docs/DECISIONS.md)."""
    if not text or any(letter not in DIGITS for letter in text):
        return None
    if len(text) > 1 and text[:1] == b"0":
        return None
    return int(text)


def first_netstring(text):
    """The contents of the netstring that text begins with, and what follows it."""
    digits, colon, rest = text.partition(b":")
    length = decimal(digits)
    if not colon or length is None or rest[length:length + 1] != b",":
        return None
    return rest[:length], rest[length + 1:]
