"""What check-client says: named mistakes in docs/RULES.md's example, each with its number and words of the sentence about it.

    python3 tests/clients/words.py PROGRAM..
"""

import base64
import sys

from program import Program, examples

DEALER, SCANNER = examples()
LINE = b"X-Dealer:Brandt\r\n"


def changed(file, old, new):
    """The dealer's files with a change in one; what is changed is there."""

    def change(files):
        contents = getattr(files, file)
        assert old in contents, old
        return files._replace(**{file: contents.replace(old, new, 1)})

    return change


def reply(old, new):
    return changed("reply", old, new)


def value(old, new):
    return changed("value", old, new)


def request(old, new):
    return changed("request", old, new)


def added(line):
    return request(LINE, LINE + line)


def extra(names):
    return reply(b"WC1EZWFsZXI=", base64.b64encode(names))


def field(key, contents):
    """The value with these contents for a key that it has."""

    def change(files):
        pieces = files.value.strip().split(b";")
        others = [key + b":" + base64.b64encode(contents) if piece.startswith(key + b":") else piece for piece in pieces]
        assert others != pieces
        return files._replace(value=b";".join(others))

    return change


def each(*changes):
    def change(files):
        for one in changes:
            files = one(files)
        return files

    return change


MISTAKES = (
    (1, reply(b"s:", b"s:" + b"A" * 460), "setup reply", "to 459"),
    (1, value(b"s:", b"s:" + b"A" * 4096), "The value has", "0 to 4096"),
    (1, request(b"POST", b"P" * 17), "The method has 17 bytes", "1 to 16"),
    (1, request(b"POST", b""), "The method has 0 bytes", "1 to 16"),
    (1, request(b"/orders", b""), "The path has 0 bytes", "1 to 2048"),
    (1, request(b"/orders", b"/" * 2049), "The path has 2049 bytes", "1 to 2048"),
    (1, added(b"X-Pad:" + b"p" * 16_384 + b"\r\n"), "The head has 16447 bytes", "0 to 16384"),
    (1, request(b"belts=11", b"b" * 65_537), "The body has 65537 bytes", "0 to 65536"),
    (1, each(request(b"belts=11", b"b" * 65_537), request(b"POST", b"")), "The method has 0 bytes", "The body has 65537 bytes"),
    (23, lambda files: files._replace(reply=b""), "The setup reply is empty"),
    (23, lambda files: files._replace(reply=b"\n"), "The setup reply is empty"),
    (23, lambda files: files._replace(reply=files.value), "Field 4 of the setup reply, `h`", "kh is expected"),
    (23, reply(b"tag:", b"Tag:"), "Field 3 of the setup reply, `Tag`", "tag is expected"),
    (23, reply(b"iv:QEFCQ0RFRkdISUpL;", b""), "Field 2 of the setup reply, `tag`", "iv is expected"),
    (23, reply(b"s:", b"X-S-Armor: s:"), "Field 1 of the setup reply, `X-S-Armor`", "s is expected"),
    (23, reply(b";ah:AgED;eah:WC1EZWFsZXI=", b""), "has no ah", "ends after field 5"),
    (23, reply(b"WC1EZWFsZXI=", b"WC1EZWFsZXI=;"), "closing `;`"),
    (23, reply(b";eah:", b";n:"), "Field 7", "`n`", "eah alone may follow ah"),
    (23, reply(b"WC1EZWFsZXI=", b"WC1EZWFsZXI=;eah:AAAA"), "Field 8", "nothing follows eah"),
    (23, reply(b";iv", b";;iv"), "Field 2", "it is empty"),
    (23, reply(b"QEFCQ0RFRkdISUpL", b"QEFCQ0RFRkdISUpLTA=="), "Field 2", "`iv`", "13 bytes", "12 are allowed"),
    (23, reply(b"kh:ICEi", b"kh:"), "Field 4", "`kh`", "29 bytes", "a session key has 32"),
    (23, reply(b"kh:ICEi", b"kh:IC-i"), "`kh`", "`-` at place 3", "none of base64's"),
    (23, reply(b"h:AQQ=", b"h:AQU="), "Field 5", "`h`", "two hashes"),
    (23, reply(b"h:AQQ=", b"h:AQI="), "Field 5", "`h`", "no hash"),
    (23, reply(b"ah:AgED", b"ah:CAEAAAAAAAAA"), "Field 6", "`ah`", "bit 56", "above 55"),
    (23, reply(b"ah:AgED", b"ah:AwABAw=="), "`ah`", "leading zero byte"),
    (23, extra(b"X-Dealer,Host"), "Field 7", "`eah`", "`Host`", "a bit of ah"),
    (23, extra(b"X-Dealer,x-dealer"), "`x-dealer`", "twice"),
    (23, extra(b"X-Dealer,"), "the extra name ``", "empty"),
    (23, extra(b"X-Dealer,x-s-armor"), "`x-s-armor`", "cannot be covered"),
    (23, extra(b"X Dealer"), "`X Dealer`", "no token has"),
    (23, extra(b"a,b,c,d,e,f,g,h,i"), "more than 8"),
    (23, extra(b"n" * 130), "130 bytes", "at most 128"),
    (4, lambda files: files._replace(value=b""), "Field 1 of the value", "it is empty"),
    (4, value(b";t:", b";;t:"), "Field 8 of the value", "it is empty"),
    (4, lambda files: files._replace(value=files.value.strip() + b";;"), "Field 11 of the value", "it is empty"),
    (4, value(b";t:WcBGfw==", b";WcBGfw=="), "Field 8 of the value", "has no colon"),
    (4, value(b";t:", b";:"), "Field 8 of the value", "its key is empty"),
    (4, value(b"WcBGfw==", b""), "Field 8 of the value, `t`", "contents are empty"),
    (4, value(b"WcBGfw==", b"WcBGfw"), "Field 8 of the value, `t`", "6 characters", "no multiple of 4", "padded"),
    (4, value(b"WcBGfw==", b"WcBGfx=="), "Field 8 of the value, `t`", "spare bits", "`x` at place 6"),
    (4, value(b"AQQ=", b"AQR="), "`h`", "spare bits", "`R` at place 3"),
    (4, value(b"WcBGfw==", b"Wc=Gfw=="), "`t`", "padding `=`", "place 3"),
    (4, value(b"WcBGfw==", b"WcBG===="), "`t`", "padding `=`", "place 5"),
    (4, value(b"t:WcBGfw==", b"t: WcBGfw=="), "`t`", "` ` at place 1", "none of base64's"),
    (4, value(b"WcBGfw==", b"Wc_Gfw=="), "`t`", "`_` at place 3", "none of base64's"),
    (4, value(b"WcBGfw==", b"WcBG\x1b[2J"), "`t`", "`\\x1b` at place 5", "none of base64's"),
    (4, value(b"s:", b"X-S-Armor: s:"), "Field 1 of the value, `X-S-Armor`", "no part of the value"),
    (4, lambda files: files._replace(value=files.value + b"\n"), "Field 10 of the value, `c`", "`\\x0a` at place 89"),
    (4, field(b"t", b"\0\5"), "Field 8 of the value, `t`", "leading zero byte", "00 05"),
    (4, field(b"n", b"\1\0\0\0\0"), "`n`", "5 bytes", "1 to 4"),
    (4, field(b"lt", bytes(8)), "`lt`", "8 bytes", "1 to 4"),
    (4, field(b"ah", b"\3\1\3"), "Field 5 of the value, `ah`", "length byte says 3", "2 bytes after it", "03 01 03"),
    (4, field(b"ah", b"\3\0\1\3"), "`ah`", "leading zero byte"),
    (4, field(b"h", b"\4"), "`h`", "length byte says 4", "0 bytes after it"),
    (4, field(b"h", b"\0"), "`h`", "length byte says 0", "1 to 8"),
    (4, field(b"c", bytes(48)), "`c`", "48 bytes", "32 or 64"),
    (4, field(b"iv", bytes(16)), "`iv`", "16 bytes", "12 are allowed"),
    (4, field(b"tag", bytes(12)), "`tag`", "12 bytes", "16 are allowed"),
    (4, field(b"s", bytes(119)), "`s`", "119 bytes", "1 to 118"),
    (5, value(b"t:WcBGfw==;", b""), "t is missing"),
    (5, value(b"t:WcBGfw==;", b"T:WcBGfw==;"), "Field 8 of the value, `T`", "no place in a request", "t is missing"),
    (5, value(b";t:", b"; t:"), "Field 8 of the value, ` t`", "no place", "nothing is trimmed", "t is missing"),
    (5, value(b";t:", b";kh:ICEi;t:"), "Field 8 of the value, `kh`", "the session key is never sent"),
    (5, value(b";t:", b";r:AQU=;t:"), "Field 8 of the value, `r`", "no place"),
    (5, value(b";t:", b";iv:QEFCQ0RFRkdISUpL;t:"), "iv stands twice", "fields 2 and 8"),
    (5, value(b"n:Bw==;", b""), "n is missing", "bit 0"),
    (5, value(b"AgED", b"AgEC"), "n is carried", "bit 0"),
    (6, request(b"POST", b"PO\xffT"), "The method `PO\\xffT`", "`\\xff` at place 3", "no token"),
    (6, added(b"X-A b\r\n"), "Line 4 of the head, `X-A b`", "no colon"),
    (6, added(b": b\r\n"), "Line 4", "name is empty"),
    (6, added(b"X-A : b\r\n"), "Line 4", "`X-A : b`", "blank stands before the colon"),
    (6, added(b"X/A: b\r\n"), "Line 4", "`/` at place 2", "no token"),
    (6, added(b"X-A: b\x07\r\n"), "Line 4", "`X-A: b\\x07`", "control character `\\x07` at place 7"),
    (6, added(b"X-A: b\r\n more\r\n"), "Line 5 of the head, ` more`", "begins with a blank", "folded"),
    (6, added(b"X-A: b\nX-B: c\r\n"), "Line 4", "bare line feed at place 7"),
    (6, added(b"X-A: b\rc\r\n"), "Line 4", "bare carriage return at place 7"),
    (7, added(b"host: other\r\n"), "`Host`", "lines of the head: 1, 4"),
    (7, added(b"X-A:\r\nX-DEALER: a\r\nx-dealer:\r\n"), "`X-Dealer`", "lines of the head: 3, 5, 6"),
    (8, value(b"AQQ=", b"AQE="), "h is not the setup reply's", "`AQE=`, SHA-256", "`AQQ=`, SHA-512"),
    (8, value(b"AQQ=", b"AQU="), "h is not the setup reply's", "`AQU=`, which names no hash"),
    (8, value(b"AgED", b"AgEF"), "ah is not", "`AgEF`", "`AgED`", "more: User-Agent", "less: Host"),
    (8, each(value(b"AgED", b"AgEC"), value(b"n:Bw==;", b"")), "ah is not", "less: the nonce"),
    (8, value(b"AgED", b"CEAAAAAAAAED"), "more: bit 62"),
    (8, value(b"WC1EZWFsZXI=", b"eC1kZWFsZXI="), "eah is not", "`x-dealer`", "`X-Dealer`"),
    (8, value(b"eah:WC1EZWFsZXI=;", b""), "eah is not", "the value has none", "`X-Dealer`"),
    (8, reply(b";eah:WC1EZWFsZXI=", b""), "eah is not", "the reply has none"),
    (8, value(b"s:0YuU", b"s:0YuV"), "s is not the setup reply's", "`0YuV", "`0YuU", "differ from place 4 on"),
    (8, value(b"QEFC", b"AEFC"), "iv is not", "`AEFCQ0RFRkdISUpL`", "`QEFCQ0RFRkdISUpL`"),
    (8, value(b"tag:Z", b"tag:A"), "tag is not", "`AckY", "`ZckY"),
    (8, each(value(b"s:0", b"s:1"), value(b"QEFC", b"AEFC")), "s is not", "iv is not"),
    (8, field(b"c", bytes(32)), "c has 32 bytes", "SHA-512, has 64"),
    (11, request(b"POST", b"post"), "HMAC with SHA-512", "kh", "\n  method  4:post,\n", "\n  h  2:\\x01\\x04,\n", "\n  n  1:\\x07,\n"),
    (11, request(b"/orders", b"/or ders"), "\n  path  8:/or ders,\n"),
    (11, request(b"Cookie: seat=4 \r\n", b""), "\n  Cookie (not in the head, an empty part)  0:,\n"),
    (11, request(b"Brandt", b"Br\\a\xe9"), "\n  X-Dealer  5:Br\\x5ca\\xe9,\n"),
    (11, lambda files: SCANNER._replace(request=files.request + b"\n"), "HMAC with SHA-256", "\n  body  9:belts=11\\x0a,\n"),
    (11, each(reply(b"AgED", b"AgEJ"), value(b"AgED", b"AgEJ"), added(b"Accept: a\r\naccept:b \r\n")), "\n  Accept (2 lines, joined)  4:a, b,\n"),
    (11, each(reply(b";eah:WC1EZWFsZXI=", b""), value(b"eah:WC1EZWFsZXI=;", b"")), "\n  eah (not carried, an empty part)  0:,\n"),
    (11, field(b"c", bytes(64)), "The signed text has 104 bytes.\nc should be  ZUY8lGKY", "\nc was sent   AAAAAAAA"),
)

FITTING = (
    ("docs/RULES.md's example", DEALER),
    ("the same under SHA-256", SCANNER),
    ("with CR LF after the values", DEALER._replace(reply=DEALER.reply.replace(b"\n", b"\r\n"), value=DEALER.value.replace(b"\n", b"\r\n"))),
    ("with no line end after the values", DEALER._replace(reply=DEALER.reply.strip(), value=DEALER.value.strip())),
    ("with one closing `;`", DEALER._replace(value=DEALER.value.strip() + b";\n")),
    ("with an X-S-Armor line", added(b"X-S-Armor: " + DEALER.value.strip() + b"\r\n")(DEALER)),
    ("with the right Content-Length", added(b"content-length:\t8 \r\n")(DEALER)),
    ("with a Content-Length of leading zeros", added(b"Content-Length: 0008\r\n")(DEALER)),
    ("by HTTP/1.0", request(b"HTTP/1.1", b"HTTP/1.0")(DEALER)),
)

LENGTH = "Note: Content-Length says `{}`, with 8 bytes after the blank line"

# Lines in the head that are noted, and what stands in the note
NOTED = (
    (b"Content-Length: 7\r\n", LENGTH.format(7)),
    (b"content-length: 9\r\n", LENGTH.format(9)),
    (b"Content-Length: 88888888888888888888888888888888\r\n", LENGTH.format("8" * 32)),
    (b"Content-Length:\r\n", LENGTH.format("")),
    (b"Content-Length: 8, 8\r\n", LENGTH.format("8, 8")),
    (b"Transfer-Encoding: chunked\r\n", "Note: the head has Transfer-Encoding."),
)

# What is no request, and what is said to be missing
NO_REQUESTS = (
    (b"", "lines end with CR LF, and it has none"),
    (DEALER.request.replace(b"\r\n", b"\n"), "bare line feeds"),
    (DEALER.request.replace(b"\r\n", b"\n", 1), "bare line feed"),
    (DEALER.request.replace(b" HTTP/1.1", b""), "`POST /orders`, is not METHOD PATH HTTP/x.y"),
    (DEALER.request.replace(b"POST /orders ", b"POST "), "`POST HTTP/1.1`, is not METHOD PATH HTTP/x.y"),
    (DEALER.request.replace(b"HTTP/1.1", b"HTTP/"), "is not METHOD PATH HTTP/x.y"),
    (DEALER.request.replace(b"HTTP/1.1", b"HTTP/1.x"), "is not METHOD PATH HTTP/x.y"),
    (DEALER.request.replace(b"HTTP/1.1", b"http/1.1"), "is not METHOD PATH HTTP/x.y"),
    (DEALER.request.replace(b"POST", b"PO\x1b[2JST").replace(b"HTTP", b""), "`PO\\x1b[2JST"),
    (DEALER.request.replace(b"\r\n\r\n", b"\r\n"), "no blank line"),
    (b"GET / HTTP/1.1\r\n", "no blank line"),
    (b"\r\n\r\n", "its first line, ``"),
)


def checks(program):
    """Each check as its name, whether it holds, and what was said."""
    for number, change, *words in MISTAKES:
        said = program.tries(change(DEALER))
        sentence = said.first if number != 11 else said.out
        yield f"{number}, {words}", said.number == number and said.status == 1 and not said.err and all(word in sentence for word in words), said
    for name, files in FITTING:
        said = program.tries(files)
        yield f"fit: {name}", said == (0, "fit\n", ""), said
    for line, words in NOTED:
        said = program.tries(added(line)(DEALER))
        yield f"noted: {line}", said.status == 0 and said.first == "fit" and words in said.out.split("\n", 1)[1], said
    said = program.tries(DEALER._replace(request=added(b"Content-Length: 8\r\n")(DEALER).request + b"\n"))
    yield "a line feed that an editor added", said.number == 11 and "The last is a line feed" in said.out.split("\n")[-2], said
    for contents, words in NO_REQUESTS:
        said = program.tries(DEALER._replace(request=contents))
        yield f"no request: {words}", said.status == 2 and not said.out and "no request" in said.err and words in said.err, said


if __name__ == "__main__":
    results = [*checks(Program(sys.argv[1:]))]
    failed = [f"{name}: {said}" for name, good, said in results if not good]
    print(*failed, f"{len(results) - len(failed)} passed, {len(failed)} failed", sep="\n")
    sys.exit(len(failed) != 0)
