"""The other side: writes the two fields' values from names and values that it is told, with nothing of the model's."""

import base64
import hashlib
import hmac


def params(names, created, key_id):
    text = key_id.replace(b"\\", b"\\\\").replace(b'"', b'\\"')
    quoted = [b'"' + name + b'"' for name in names]
    return b"(" + b" ".join(quoted) + b");created=" + str(created).encode() + b';keyid="' + text + b'"'


def base(pairs, told):
    return b"\n".join([b'"' + name + b'": ' + value for name, value in pairs] + [b'"@signature-params": ' + told])


def code(key, text):
    return hmac.new(key, text, hashlib.sha256).digest()


def signature(label, key, text):
    return label + b"=:" + base64.b64encode(code(key, text)) + b":"


def made(label, pairs, created, key_id, key):
    """The values of Signature-Input and Signature, for pairs (name, value)."""
    told = params([name for name, _ in pairs], created, key_id)
    return label + b"=" + told, signature(label, key, base(pairs, told))


def lines(input, signed):
    return b"Signature-Input: " + input + b"\r\nSignature: " + signed + b"\r\n"
