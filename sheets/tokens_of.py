#!/usr/bin/env python3
"""Turns a sheet's text (NAME.sphinx) into treelist's input lines (NAME.tokens).

    tokens_of.py < NAME.sphinx > NAME.tokens
    tokens_of.py --names < NAME.sphinx      the names by their numbers

A small lexer for these sheets, by what the published src/language.rs says of the language; the published lexer itself is no part of this project. It takes

- the words and signs of docs/TOKENS.md; names of ASCII letters, digits and _; labels, which are :: and a name;
- whole numbers below 2^63, the published IntType: decimal ones without a leading zero, and 0x, 0o, 0b with digits; floats, as 0.05;
- texts in double quotes on one line, with the escapes \\0 \\\\ \\' \\" \\t \\n \\r;
- comments from # to the end of the line, which give no token.

A character that starts no token is a lexer error, token 76. What the published lexer may take in a way that is not known here is refused, with its line and
column on stderr, exit status 1 and no output: numbers of any other form, as 1_000, 1e5 and 1., other escapes, a text that does not end on its line, single
quotes, comments from #{ on, :: before something else than a name, characters outside ASCII that may be part of a name or a blank, a carriage return inside a
line, and words, numbers, labels or texts directly one behind the other.

Names, texts and labels are numbered together, from 0, in the order in which they first stand. A token's newline is 1 where it is the first one of its
line. Needs Python 3.
"""
import math
import os
import re
import struct
import sys

sys.dont_write_bytecode = True  # no compiled files beside the sources
sys.path.insert(0, os.path.join(os.path.dirname(os.path.abspath(__file__)), "..", "compare", "oracle"))
from tokens import EOF, FLOAT, INT, LABEL, LEXERR, NAME, STRING
import tokens as table

# the table has the signs of xor as ^^ and ^^=
TEXTS = [text.replace("^^", "^") for text in table.TEXTS[:NAME]]
KIND = {text: kind for kind, text in enumerate(TEXTS)}
SIGNS = sorted((t for t in TEXTS if not t.isalpha()), key=len, reverse=True)
PIECE = re.compile(r"""(?P<blank>[ \t\f\v]+)|(?P<nested>\#\{)|(?P<comment>\#[^\r]*)|(?P<number>[0-9][\w.]*)|(?P<label>::[A-Za-z_]\w*)|(?P<colons>::)
    |(?P<word>[A-Za-z_]\w*)|(?P<text>"(?:[^"\\\r]|\\[^\r])*")|(?P<sign>%s)|(?P<other>.|\r)""" % "|".join(map(re.escape, SIGNS)), re.X | re.ASCII)
DECIMAL = re.compile("0|[1-9][0-9]*")
PREFIXED = re.compile("0x[0-9A-Fa-f]+|0o[0-7]+|0b[01]+")
WITH_FRACTION = re.compile(r"(?:0|[1-9][0-9]*)\.[0-9]+")
INT_END = 1 << 63
INT_DIGITS = 19  # of INT_END
ESCAPES = {"0": "\0", "\\": "\\", "'": "'", '"': '"', "t": "\t", "n": "\n", "r": "\r"}
# how --names shows the characters that would not stand on its line as they are
SHOWN = {character: "\\" + letter for letter, character in ESCAPES.items() if letter not in "'\""}
APART = ("word", "number", "label", "text")


class Refused(Exception):
    """what is not known here"""


def integer(piece, base):
    if base == 10 and len(piece) > INT_DIGITS or int(piece, base) >= INT_END:  # Python's int gives up on very long decimal texts
        raise Refused("the number is 2^63 or more")
    return INT, int(piece, base)


def number(piece):
    if DECIMAL.fullmatch(piece):
        return integer(piece, 10)
    if PREFIXED.fullmatch(piece):
        return integer(piece, 0)
    if not WITH_FRACTION.fullmatch(piece):
        raise Refused("no number of a form that is known here: %s" % piece)
    value = float(piece)
    if math.isinf(value):
        raise Refused("the number is out of a float's range")
    return FLOAT, struct.unpack("<Q", struct.pack("<d", value))[0]


def unescaped(text):
    def one(match):
        if match.group(1) not in ESCAPES:
            raise Refused("an escape that is not known here: %s" % match.group())
        return ESCAPES[match.group(1)]

    return re.sub(r"\\(.)", one, text)


def other(character):
    """a character at which no piece begins"""
    if character in "'\"":
        raise Refused("single quotes are not known here" if character == "'" else "the text does not end on its line")
    if character == "\r" or not character.isascii() and (("_" + character).isidentifier() or character.isspace()):
        raise Refused("a character that is not known here: %s" % ascii(character))
    return LEXERR, 0


def token(what, piece, names):
    """kind and value"""
    def named(name):
        return names.setdefault(name, len(names))

    if what == "word":
        return (KIND[piece], 0) if piece in KIND else (NAME, named(piece))
    if what == "label" and piece[2:] not in KIND:
        return LABEL, named(piece[2:])
    if what == "text":
        return STRING, named(unescaped(piece[1:-1]))
    if what in ("label", "colons"):
        raise Refused(":: is not before a name")
    if what == "nested":
        raise Refused("comments from #{ on are not known here")
    return {"number": number, "sign": lambda sign: (KIND[sign], 0), "other": other}[what](piece)


def line_tokens(line, names):
    """the tokens of a line, each with its newline"""
    found, before = [], ""
    for match in PIECE.finditer(line):
        what, piece = match.lastgroup, match.group()
        try:
            if what in APART and before in APART or what == "number" and before == ".":
                raise Refused("nothing parts %s from what stands before it" % piece)
            if what not in ("blank", "comment"):
                found.append((token(what, piece, names), int(not found)))
        except Refused as refused:
            raise Refused("column %d: %s" % (match.start() + 1, refused)) from None
        before = piece if what == "sign" else what
    return [(kind, newline, value) for (kind, value), newline in found]


def tokens(text, names):
    found = []
    for number, line in enumerate(re.split("\r?\n", text), 1):
        try:
            found += line_tokens(line, names)
        except Refused as refused:
            raise Refused("line %d, %s" % (number, refused)) from None
    return found + [(EOF, 1, 0)]


def text_of(data):
    """the characters of bytes in UTF-8"""
    try:
        return data.decode()
    except UnicodeDecodeError as error:
        before = data[:error.start].decode()
        raise Refused("line %d, column %d: no character in UTF-8" % (before.count("\n") + 1, len(before) - before.rfind("\n"))) from None


def main():
    names = {}
    try:
        found = tokens(text_of(sys.stdin.buffer.read()), names)
    except Refused as refused:
        sys.exit("tokens_of.py: %s" % refused)
    if sys.argv[1:] == ["--names"]:
        for name, place in names.items():
            print(place, "".join(SHOWN.get(character, character) for character in name))
        return
    for row in found:
        print("token=%d newline=%d value=%d" % row)


if __name__ == "__main__":
    main()
