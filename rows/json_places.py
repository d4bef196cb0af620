#!/usr/bin/env python3
"""Places of faults in broken JSON texts, found by trying continuations.

A front is viable where some continuation makes it a JSON text (RFC 8259 in UTF-8, a byte order mark in
front or not, any depth). The grammar here is written down from the RFC as regular expressions for the
tokens and a plain recursive check of whole texts; a front is tested by trying every continuation that
could be needed: an end of the open token, then what the open brackets want. Nothing is shared with the
reader in crates/jtext.

Prints a row (text, length of the longest viable front) for each text below that is no JSON text.
"""
import itertools
import re

TAIL = rb"[\x80-\xBF]"
UTF8 = (
    rb"(?:[\x20-\x21\x23-\x5B\x5D-\x7F]"
    rb"|[\xC2-\xDF]" + TAIL
    + rb"|\xE0[\xA0-\xBF]" + TAIL
    + rb"|[\xE1-\xEC\xEE-\xEF]" + TAIL + rb"{2}"
    + rb"|\xED[\x80-\x9F]" + TAIL
    + rb"|\xF0[\x90-\xBF]" + TAIL + rb"{2}"
    + rb"|[\xF1-\xF3]" + TAIL + rb"{3}"
    + rb"|\xF4[\x80-\x8F]" + TAIL + rb"{2})"
)
STRING = re.compile(rb'"(?:' + UTF8 + rb'|\\["\\/bfnrt]|\\u[0-9A-Fa-f]{4})*"', re.S)
NUMBER = re.compile(rb"-?(?:0|[1-9][0-9]*)(?:\.[0-9]+)?(?:[eE][+-]?[0-9]+)?")
WHITE = re.compile(rb"[ \t\n\r]*")
MARK = b"\xEF\xBB\xBF"


def white(text, at):
    return WHITE.match(text, at).end()


def value(text, at):
    """The place behind the one value at this place, or None. Numbers are taken as long as they go."""
    for word in (b"null", b"true", b"false"):
        if text.startswith(word, at):
            return at + len(word)
    for token in (STRING, NUMBER):
        found = token.match(text, at)
        if found:
            return found.end()
    if text[at : at + 1] == b"[":
        return listed(text, at + 1, b"]", value)
    if text[at : at + 1] == b"{":
        return listed(text, at + 1, b"}", pair)
    return None


def pair(text, at):
    key = STRING.match(text, at)
    if not key:
        return None
    at = white(text, key.end())
    if text[at : at + 1] != b":":
        return None
    return value(text, white(text, at + 1))


def listed(text, at, closing, one):
    at = white(text, at)
    if text[at : at + 1] == closing:
        return at + 1
    while True:
        at = one(text, at)
        if at is None:
            return None
        at = white(text, at)
        if text[at : at + 1] == closing:
            return at + 1
        if text[at : at + 1] != b",":
            return None
        at = white(text, at + 1)


def is_text(text):
    start = 3 if text.startswith(MARK) else 0
    end = value(text, white(text, start))
    return end is not None and white(text, end) == len(text)


# what may end an open token: words and marks, numbers, texts with every way into a character
WORDS = [w[i:] for w in (b"null", b"true", b"false", MARK) for i in range(1, len(w))]
TOKEN = [b"", b"0", b'"'] + WORDS
INSIDE = [b"".join(p) + b'"' for n in range(1, 5) for p in itertools.product([b"0", b"n", b"\x80", b"\x90", b"\xA0"], repeat=n)]
WANTED = [b"", b"0", b":0", b'"":0']


def is_viable(front):
    brackets = 1 + front.count(b"[") + front.count(b"{")
    for token in TOKEN + INSIDE:
        for wanted in WANTED:
            if is_text(front + token + wanted):
                return True
    closings = [b""]
    for _ in range(brackets):
        closings = [c + b for c in closings for b in (b"]", b"}")] if len(closings) < 32 else closings
        for closing in closings:
            for token in TOKEN + INSIDE:
                for wanted in WANTED:
                    if is_text(front + token + wanted + closing):
                        return True
    return False


def place(text):
    at = 0
    while at < len(text) and is_viable(text[: at + 1]):
        at += 1
    return at


TEXTS = [
    b"", b" ", b"\t\n", b"x", b"nul", b"nulL", b"truf", b"tru", b"fals ", b"fa1se", b"True",
    b"-", b"--1", b"-a", b"01", b"-01", b"1.", b"1.e3", b".5", b"+1", b"1e", b"1e+", b"1e+-2", b"1E5.0", b"0x10", b"1 2", b"1,",
    b'"', b'"a', b'"a\n"', b'"\x1f"', b'"\\', b'"\\x"', b'"\\u12"', b'"\\u12G4"', b'"\\u', b"'a'", b'"a"b',
    b'"\x80"', b'"\xC1\x81"', b'"\xC3"', b'"\xC3(', b'"\xE0\x9F\xBF"', b'"\xE1\x80', b'"\xED\xA0\x80"', b'"\xEF\xBF"',
    b'"\xF0\x8F\xBF\xBF"', b'"\xF0\x90\x80"', b'"\xF4\x90\x80\x80"', b'"\xF5\x80\x80\x80"', b'"\xFF"',
    b"[", b"[1", b"[1,", b"[,", b"[1,]", b"[1,,2]", b"[1 2]", b"[1}", b"[1]]", b"[1][", b"]", b"[}", b"[\x0c]", b"[nulla]", b"[1:2]",
    b"{", b"{1", b'{"a', b'{"a"', b'{"a":', b'{"a":}', b'{"a" 1}', b'{"a":1', b'{"a":1,', b'{"a":1,}', b'{"a":1 "b":2}', b'{"a"::1}', b'{,}', b'{"a":1]', b"{]", b'{"a","b"}', b"}", b'{a:1}',
    b"\xEF", b"\xEF\xBB", b"\xEF\xBB\xBF", b"\xEF\xBB\xBE1", b"\xEF\xBB\xBF\xEF\xBB\xBF1", b" \xEF\xBB\xBF1", b"\xFE\xFF",
    b'{"file_type":', b'[{"a":[1,{"b":tru]}]', b'{"a":[1,2,{"b":"\\ud83"}]}', b'[[1,[2,[3,"x\x00"]]]]', b'{"a":{"b":{"c":1e}}}',
]

if __name__ == "__main__":
    for text in TEXTS:
        assert not is_text(text), text
        print((text, place(text)))
