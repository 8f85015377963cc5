#!/usr/bin/env python3
"""Writes the input of the crate `vectors` and its expected output from the published vectors.

    apt-get install python3-cryptography-vectors      (NIST's files as they were published)
    tests/vectors/convert.py

The expected output comes from the published answers alone: this program copies them and computes nothing.
A line of the input is a kind and byte runs in hexadecimal, each after a comma; crates/vectors/src says which runs a kind
takes. A digest's kind begins with a capital for SHA-256. The answer stands in the same line of the expected output. A line
that begins with `#` names the source; its answer is empty.
"""
import itertools
import pathlib
from typing import NamedTuple

import cryptography_vectors

NIST = pathlib.Path(cryptography_vectors.__file__).parent
CRATE = pathlib.Path(__file__).resolve().parents[2] / "crates" / "vectors"


class Hash(NamedTuple):
    """What is asked of a hash: its name, the bytes of a block, and published answers that no file has."""
    name: str
    block: int
    examples: list
    million: tuple
    case_5: str

    @property
    def file(self):
        return self.name.replace("-", "")

    def kind(self, kind):
        return kind.capitalize() if self.name == "SHA-256" else kind


# FIPS 180-4 publishes its examples apart (the NIST page "Cryptographic Standards and Guidelines, example values"): message and
# digest. The million letters stand in FIPS 180-2: section and digest. RFC 4231, 4.6, is case 5, whose digest is cut to 128 bits;
# Debian's files leave it out.
SHA_512 = Hash(
    "SHA-512", 128,
    [(b"abc",
      "ddaf35a193617abacc417349ae20413112e6fa4e89a97ea20a9eeee64b55d39a"
      "2192992a274fc1a836ba3c23a3feebbd454d4423643ce80e2a9ac94fa54ca49f"),
     (b"abcdefghbcdefghicdefghijdefghijkefghijklfghijklmghijklmn"
      b"hijklmnoijklmnopjklmnopqklmnopqrlmnopqrsmnopqrstnopqrstu",
      "8e959b75dae313da8cf4f72814fc143f8f7779c6eb9f7fa17299aeadb6889018"
      "501d289e4900f7e4331b99dec4b5433ac7d329eeb6dd26545e96e55b874be909")],
    ("C.3",
     "e718483d0ce769644e2e42c7bc15b4638e1f98b13b2044285632a803afa973eb"
     "de0ff244877ea60a4cb0432ce577c31beb009c5c2c49aa2e4eadb217ad8cc09b"),
    "415fad6271580a531d4179bc891d87a6")
SHA_256 = Hash(
    "SHA-256", 64,
    [(b"abc", "ba7816bf8f01cfea414140de5dae2223b00361a396177a9cb410ff61f20015ad"),
     (b"abcdbcdecdefdefgefghfghighijhijkijkljklmklmnlmnomnopnopq",
      "248d6a61d20638b8e5c026930c3e6039a33ce45964ff2167f6ecedd419db06c1")],
    ("B.3", "cdc76e5c9914fb9281a1c7e284d73e67f1809a48a497200e046d39ccc7112cd0"),
    "a3b6167473100ee06e0c796c2955552b")
# FIPS 197, C.3, and SP 800-38A, F.1.5. Each: key, and pairs of block and answer.
FIPS_197_C_3 = ("000102030405060708090a0b0c0d0e0f101112131415161718191a1b1c1d1e1f",
                [("00112233445566778899aabbccddeeff", "8ea2b7ca516745bfeafc49904b496089")])
SP_800_38A_F_1_5 = ("603deb1015ca71be2b73aef0857d77811f352c073b6108d72d9810a30914dff4",
                    [("6bc1bee22e409f96e93d7e117393172a", "f3eed1bdb5d2a03c064b5a7e3db181f8"),
                     ("ae2d8a571e03ac9c9eb76fac45af8e51", "591ccb10d410ed26dc5ba74a31362870"),
                     ("30c81c46a35ce411e5fbc1191a0a52ef", "b6ed21b99ca6f4f9f153e7b1beafed1d"),
                     ("f69f2445df4f9b17ad2b417be66c3710", "23304b7a39f9f3ff067d8d8f9e24ecc7")])
# RFC 4648, 10, and document 01, proved cases 2 to 5. Each: bytes and text.
RFC_4648_10 = [(b"", b""), (b"f", b"Zg=="), (b"fo", b"Zm8="), (b"foo", b"Zm9v"), (b"foob", b"Zm9vYg=="),
               (b"fooba", b"Zm9vYmE="), (b"foobar", b"Zm9vYmFy")]
DOCUMENT_01 = [((2736056).to_bytes(3, "big"), b"Kb+4"), (b"\x01\x04", b"AQQ="),
               ((1505773123).to_bytes(4, "big"), b"WcBGQw=="), (b"\x03\x0d\x73\xef", b"Aw1z7w==")]
# Texts that encode nothing, by the section of RFC 4648 that forbids each, as document 01, "The X-S-Armor value", does.
OUTSIDE = [bytes([c]) for c in b" \n\r-_:;\x00\x80\xff"]
SPACES = [b" ", b"\t", b"\n", b"\r\n", b"    "]
NOT_BASE64 = [
    ("3.5: spare bits set, of the four in a last group of one byte",
     [b"Zh==", b"Zi==", b"Zk==", b"Zo==", b"AB==", b"AP==", b"A/==", b"Zm9vYh=="]),
    ("3.5: spare bits set, of the two in a last group of two bytes",
     [b"Zm9=", b"Zm+=", b"Zm/=", b"AAB=", b"AAC=", b"AAD=", b"AA/=", b"Zm9vYmF="]),
    ("3.2: padding missing", [b"Zg", b"Zg=", b"Zm8", b"Zm9vYg", b"Zm9vYg=", b"Zm9vYmE"]),
    ("3.2: padding too long",
     [b"====", b"A===", b"Zg===", b"Zm8==", b"Zm9v=", b"Zm9v==", b"Zm9v===", b"Zm9v====", b"Zm9vA==="]),
    ("3.2: padding in the middle",
     [b"AA==AA==", b"AAA=AAA=", b"Zg==Zm9v", b"Zm8=Zm9v", b"AA=A", b"Zm9vAA=AZm9v"]),
    ("3.2: = in the first or second place",
     [b"=AAA", b"A=AA", b"==AA", b"=AA=", b"A=A=", b"=A==", b"A==A", b"Zm9v=AAA", b"Zm9vA=A="]),
    ("4: a length that is not a multiple of four", [b"Z", b"ZZ", b"ZZZ", b"Zm9vZ", b"Zm9vZm", b"Zm9vZm9"]),
    ("3.3: a character outside the alphabet in each place, and before padding",
     [b"A" * at + c + b"A" * (3 - at) for c in OUTSIDE for at in range(4)]
     + [before + c + after for c in OUTSIDE for before, after in ((b"A", b"=="), (b"AA", b"="))]),
    ("3.3: white space at either end, or between groups",
     [space + b"Zm9v" for space in SPACES] + [b"Zm9v" + space for space in SPACES]
     + [b"Zg==\n", b"Zg== ", b"Zm9v\nZm9v", b"Zm9v\r\nZm9v"]),
]


def records(path):
    """The records of a NIST response file: dictionaries of what stood before each blank line, section settings included."""
    settings, record = {}, {}
    for line in path.read_text().splitlines() + [""]:
        line = line.strip()
        if line.startswith("["):
            name, _, value = line[1:-1].partition("=")
            settings[name.strip()] = value.strip()
        elif line and not line.startswith("#"):
            name, _, value = line.partition("=")
            record[name.strip()] = value.strip()
        elif not line and record:
            yield {**settings, **record}
            record = {}


def messages(h):
    yield f"FIPS 180-4, examples for {h.name}: each whole, then a byte at a time"
    for message, digest in h.examples:
        yield (h.kind("whole"), message.hex()), digest
        yield (h.kind("parts"), message[:1].hex(), message.hex()), digest
    section, digest = h.million
    yield f"FIPS 180-2, {section}: a million letters a, in parts of 999 bytes"
    yield (h.kind("letters"), (b"a" * 999).hex()), digest
    for name in (f"{h.file}ShortMsg.rsp", f"{h.file}LongMsg.rsp"):
        yield f"NIST CAVS 11.0, {name}, all of it; the sizes of the parts are ours"
        for n, r in enumerate(records(NIST / "hashes" / "SHA2" / name)):
            message = r["Msg"][:int(r["Len"]) // 4]
            size = (None, 1, h.block - 1, h.block, h.block + 1, h.block // 2 - 1)[n % 6]
            yield (h.kind("parts"), message[:2 * size], message) if size else (h.kind("whole"), message), r["MD"]


def monte(h):
    yield f"NIST CAVS 11.1, {h.file}Monte.rsp, its first ten rounds; the seed of each but the first is the digest before it"
    rows = list(records(NIST / "hashes" / "SHA2" / f"{h.file}Monte.rsp"))
    digests = [r["MD"] for r in rows if "COUNT" in r][:10]
    seeds = [r["Seed"] for r in rows if "Seed" in r] + digests
    for seed, digest in zip(seeds, digests):
        yield (h.kind("monte"), 3 * seed), digest


def hmac(h):
    yield f"RFC 4231, cases 1 to 7 for {h.name}; the fifth is published truncated to 128 bits"
    cases = [("hmac", r["Key"], r["Msg"], r["MD"]) for r in records(NIST / "HMAC" / f"rfc-4231-{h.file.lower()}.txt")]
    fifth = ("truncated", (b"\x0c" * 20).hex(), b"Test With Truncation".hex(), h.case_5)
    for kind, key, text, code in cases[:4] + [fifth] + cases[4:]:
        yield (h.kind(kind), key, text), code


def aes():
    for source, (key, blocks) in (("FIPS 197, C.3", FIPS_197_C_3), ("SP 800-38A, F.1.5", SP_800_38A_F_1_5)):
        yield source
        for block, answer in blocks:
            yield ("aes", key, block), answer
    for name in ("ECBGFSbox256.rsp", "ECBKeySbox256.rsp", "ECBVarTxt256.rsp", "ECBVarKey256.rsp", "ECBMMT256.rsp"):
        yield f"NIST CAVS 11.1, {name}, what is to be encrypted, by blocks"
        for r in records(NIST / "ciphers" / "AES" / "ECB" / name):
            if "DECRYPT" in r:
                continue
            text, answer = r["PLAINTEXT"], r["CIPHERTEXT"]
            for at in range(0, len(text), 32):
                yield ("aes", r["KEY"], text[at:at + 32]), answer[at:at + 32]


def gcm(name):
    """The records of the sizes that the gate uses: an IV of 96 bits, a tag of 128, no associated data."""
    for r in records(NIST / "ciphers" / "AES" / "GCM" / name):
        if (r["IVlen"], r["Taglen"], r["AADlen"]) == ("96", "128", "0"):
            yield r


def seal():
    yield "NIST CAVS 14.0, gcmEncryptExtIV256.rsp, all with an IV of 96 bits, a tag of 128 and no associated data"
    for r in gcm("gcmEncryptExtIV256.rsp"):
        yield ("seal", r["Key"], r["IV"], r["PT"]), r["CT"] + r["Tag"]


def unseal():
    """The call's number stands before the text: 2 where the tag is wrong, and the buffer is as it was, zeros."""
    yield "NIST CAVS 14.0, gcmDecrypt256.rsp, all with an IV of 96 bits, a tag of 128 and no associated data"
    for r in gcm("gcmDecrypt256.rsp"):
        answer = "2" + "0" * len(r["CT"]) if "FAIL" in r else "0" + r["PT"]
        yield ("open", r["Key"], r["IV"], r["CT"], r["Tag"]), answer


def base64():
    """A text that encodes nothing has the answer 1."""
    for source, pairs in (("RFC 4648, 10", RFC_4648_10), ("document 01, proved cases 2 to 5", DOCUMENT_01)):
        yield f"{source}: each run encoded, then its text decoded"
        for run, text in pairs:
            yield ("encode", run.hex()), text.hex()
            yield ("decode", text.hex()), run.hex()
    for reason, texts in NOT_BASE64:
        yield f"no encoding by RFC 4648, {reason}"
        for text in texts:
            yield ("decode", text.hex()), "1"


def main():
    given, answers = [], []
    digests = [source(h) for h in (SHA_512, SHA_256) for source in (messages, monte, hmac)]
    for item in itertools.chain(*digests, aes(), seal(), unseal(), base64()):
        words, answer = (["# " + item], "") if isinstance(item, str) else item
        given.append(",".join(words))
        answers.append(answer)
    (CRATE / "stdin").write_text("\n".join(given) + "\n")
    (CRATE / "stdout").write_text("\n".join(answers) + "\n")


if __name__ == "__main__":
    main()
