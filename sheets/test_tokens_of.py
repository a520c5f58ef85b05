#!/usr/bin/env python3
"""Tests tokens_of.py: what it makes of short texts, what it refuses and where, and that the sheets' .tokens are what it makes of their texts.

    test_tokens_of.py

Needs Python 3. Exit status 1 if something is not as expected.
"""
import os
import struct
import subprocess
import sys

HERE = os.path.dirname(os.path.abspath(__file__))
sys.dont_write_bytecode = True  # no compiled files beside the sources
sys.path.insert(0, os.path.join(HERE, "..", "compare", "oracle"))
import tokens

END = " ^EOF\n"


def bits(value):
    """a float in the notation of compare/oracle/tokens.py"""
    return "f%d" % struct.unpack("<Q", struct.pack("<d", value))[0]


# A text and its tokens in the notation of compare/oracle/tokens.py, without EOF.
TAKEN = (
    ("", ""),
    ("\n \t\r\n", ""),
    ("a b\nc", "^n0 n1 ^n2"),
    ("let a = a", "^let n0 = n0"),
    ("lets _x x1 End", "^n0 n1 n2 n3"),
    ("# a\na # b\n## c #{", "^n0"),
    ('a = "x # y"', "^n0 = s1"),
    ('"a" a ::a "b"', "^s0 n0 ::0 s1"),
    ('"" ""', "^s0 s0"),
    (r'"\t" "\0\\\'\"\t\n\r" "\\t"', "^s0 s1 s2"),
    ('"\u00e9" # \u00e9', "^s0"),
    ("0 7 10 9223372036854775807", "^i0 i7 i10 i9223372036854775807"),
    ("0x10 0xfF 0o17 0b101", "^i16 i255 i15 i5"),
    ("0.05 12.50", "^%s %s" % (bits(0.05), bits(12.5))),
    ("-1 1-2", "^- i1 i1 - i2"),
    ("a.b a...", "^n0 . n1 n0 ..."),
    ("a:b : c", "^n0 : n1 : n2"),
    ("a<<=b>>=c**d^=e^f!=g", "^n0 <<= n1 >>= n2 ** n3 ^^= n4 ^^ n5 != n6"),
    ("a $ ! \u20ac", "^n0 LEXERR LEXERR LEXERR"),
    ("(a){b}[c],;@~", "^( n0 ) { n1 } [ n2 ] , ; @ ~"),
)

# A text, and the line and column at which it is refused.
NOT_TAKEN = (
    ("a = 1_000", 1, 5),
    ("a\n  b = 1e5", 2, 7),
    ("1.5e3", 1, 1),
    ("1.", 1, 1),
    ("1.x", 1, 1),
    ("f(1...)", 1, 3),
    ("a .5", 1, 4),
    ("1.2.3", 1, 1),
    ("007", 1, 1),
    ("00.5", 1, 1),
    ("12ab", 1, 1),
    ("0x", 1, 1),
    ("0X10", 1, 1),
    ("0xg", 1, 1),
    ("0b2", 1, 1),
    ("0x1_0", 1, 1),
    ("9223372036854775808", 1, 1),
    ("18446744073709551616", 1, 1),
    ("9" * 5000, 1, 1),
    ("0xffffffffffffffff", 1, 1),
    ("9" * 400 + ".0", 1, 1),
    ('a = "x', 1, 5),
    ('a = "x\ny"', 1, 5),
    ('"x\\"', 1, 1),
    (r'"\q"', 1, 1),
    (r'"\x41"', 1, 1),
    ("a 'x'", 1, 3),
    ("a #{ b }#", 1, 3),
    (":: a", 1, 1),
    ("::5", 1, 1),
    ("::end", 1, 1),
    ("a::b", 1, 2),
    ('a"x"', 1, 2),
    ('"x"a', 1, 4),
    ('"x""y"', 1, 4),
    ("\u00e9", 1, 1),
    ("na\u00efve", 1, 3),
    ("a\u00a0b", 1, 2),
    ("a\rb", 1, 2),
    ("# a\rb", 1, 4),
    (b"a\n\xc3\xa9 \xff", 2, 3),
)


def run(text, *options):
    data = text if isinstance(text, bytes) else text.encode()
    return subprocess.run([sys.executable, os.path.join(HERE, "tokens_of.py"), *options], input=data, stdout=subprocess.PIPE, stderr=subprocess.PIPE)


def taken(text, expected):
    done = run(text)
    return done.returncode == 0 and done.stdout.decode() == tokens.lines(tokens.sheet(expected + END))


def refused(text, line, column):
    """whether the text is refused there, with nothing on stdout"""
    done = run(text)
    return done.returncode == 1 and not done.stdout and done.stderr.decode().startswith("tokens_of.py: line %d, column %d: " % (line, column))


def as_stored(name):
    with open(os.path.join(HERE, name), "rb") as text, open(os.path.join(HERE, name.replace(".sphinx", ".tokens")), "rb") as stored:
        return run(text.read()).stdout == stored.read()


def main():
    wrong = [text for text, expected in TAKEN if not taken(text, expected)]
    wrong += [text for text, line, column in NOT_TAKEN if not refused(text, line, column)]
    if run('let a = "b\\n"', "--names").stdout != b"0 a\n1 b\\n\n":
        wrong.append("--names")
    sheets = sorted(name for name in os.listdir(HERE) if name.endswith(".sphinx"))
    wrong += [name for name in sheets if not as_stored(name)]
    for text in wrong:
        print("not as expected: %s" % ascii(text))
    print("taken=%d refused=%d sheets=%d wrong=%d" % (len(TAKEN), len(NOT_TAKEN), len(sheets), len(wrong)))
    return 1 if wrong else 0


if __name__ == "__main__":
    sys.exit(main())
