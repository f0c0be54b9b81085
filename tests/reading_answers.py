#!/usr/bin/env python3
"""Files and what the rules of reading say of each, written by hand from the rules.

usage: reading_answers.py PROGRAM [NAME]    only the files whose name has NAME in it
Each package is one file n.wuffs of package n, its bytes as they stand; its name is what it shows and its text. An
answer is a rule with its line and column, or `read` where no rule of reading is broken. At last a package is cut
after each of its bytes and has each of them made 0, and the answers are compared with a second opinion.
"""
import sys

from packages import answer_all, run
from second_opinion import verdict

# What stands round a statement, and before a value.
METHOD, METHOD_END = "pub struct s()\npub func s.f() {\n", "\n}\n"
CONSTANT = "pri const X : base.u8 = "

# Whole files that are read.
FILES = [
    "", "\n", 'pub status "#a"', 'pub status "#a";', "pub struct s()", "pub struct s(x: base.u8,)",
    "pub struct s?(\n    x : base.u8,\n)+(\n    y : array[4] base.u8,\n)", "pub struct s!(x: slice base.u8, y: t)",
    "pub func s.f() {}", "pub func s.f() {\n}\n",
    "pub func s.f!(x: base.u32[..= 9], y: base.status) base.u8[1 ..= 2] {\n    return 1\n}",
    "pri const X : base.u8[..= n] = 1", "pri const X : base.u8[1 ..= n] = 1", "// nothing",
    'pub status "#a" // one\npri const X : base.u8 = 1',
]

# Whole files that are refused.
WRONG_FILES = [
    ("pub", "S5 1:4"), ("pub\n", "S5 2:1"), ("x", "S5 1:1"), (";", "S5 1:1"), ("pub const", "S5 1:10"),
    ("pub status", "S5 1:11"), ("pub status x", "S5 1:12"), ('pub status "#a";;', "S5 1:17"),
    ('pub status "#a" pub status "#b"', "S5 1:17"), ("pri const X base.u8 = 1", "S5 1:13"),
    ("pri const X : = 1", "S5 1:15"), ("pri const X : base = 1", "S5 1:20"), ("pri const X : base.1 = 1", "S5 1:20"),
    ("pri const X : base.u8[..= 9 = 1", "S5 1:29"), ("pri const X : base.u8[1 .. 9] = 1", "S5 1:25"),
    ("pri const X : base.u8[] = 1", "S5 1:23"), ("pri const X : slice = 1", "S5 1:21"),
    ("pri const X : array[] base.u8 = 1", "S5 1:21"), ("pri const X : array base.u8 = 1", "S5 1:21"),
    ("pri const X : base.u8 = ", "S5 1:25"), ("pri const X : base.u8", "S5 1:22"), ("pri const X", "S5 1:12"),
    ("pri const X : base.u8 256", "S5 1:23"), ("pub struct s", "S5 1:13"), ("pub struct s!", "S5 1:14"),
    ("pub struct s(", "S5 1:14"), ("pub struct s(x)", "S5 1:15"), ("pub struct s(x: base.u8 y: base.u8)", "S5 1:25"),
    ("pub struct s(,)", "S5 1:14"), ("pub struct s(x: base.u8,,)", "S5 1:25"), ("pub struct s() + x", "S5 1:18"),
    ("pub struct s() - ()", "S5 1:16"), ("pub struct s() +", "S5 1:17"), ("pub func s", "S5 1:11"),
    ("pub func s.", "S5 1:12"), ("pub func s.f", "S5 1:13"), ("pub func s.f()", "S5 1:15"),
    ("pub func s.f() {", "S5 1:17"), ("pub func s.f() base.u8", "S5 1:23"), ("pub func s.f() {} x", "S5 1:19"),
    ("pub func s.f()\n{\n}", "S5 1:15"), ('pub status "#a', "S2 1:12"), ("$", "S1 1:1"),
    ('pub status "#a" $', "S1 1:17"), ("x $", "S5 1:1"),
]

# Statements of a method that are read, the method's word in line 2.
STATEMENTS = [
    "this.f!()", "this.f?()", "x.f!(a: 1,)", "x =? y.f?()", "x =? this.f?()", "x =? args.y.f?()", "x =? this.y.f?()",
    "return", "return nothing", "return 1", "break", "break.l", "continue", "continue.l", "yield? x", "assert 1 < 2",
    'assert 1 < 2 via "a"()', 'assert x via "a"(c: 1, )', "var x : base.u8", "var x : base.u8;var y : base.u8\nx = y",
    "if x { } else { }", "if x { } else if y { } else { }", "if x { } else if y { }", "while true { } endwhile",
    "while true { }", "while.l true { } endwhile.l", "while true, inv x, { } endwhile",
    "while true, pre x, post y { } endwhile", "x = 1;", "if x { };", "x ~mod+= 1", "x[1] = 2", "this.x[1] += 2",
    "args.x.f!()", "this.x = 1", "",
]

# Statements of a method that are refused, the first in line 3.
WRONG_STATEMENTS = [
    ("x", "S5 3:2"), ("x =", "S5 4:1"), ("x = 1 1", "S5 3:7"), ("x = 1 y = 2", "S5 3:7"), ("x + 1", "S5 3:3"),
    ("x[1]", "S5 3:5"), ("x[1 .. 2] = 3", "S5 3:5"), ("x[] = 1", "S5 3:3"), ("this = 1", "S5 3:6"),
    ("this.f()", "S5 3:7"), ("x.f()", "S5 3:4"), ("x.f!", "S5 4:1"), ("x.f!(a)", "S5 3:7"),
    ("x.f!(a: 1 b: 2)", "S5 3:11"), ("x.f!(,)", "S5 3:6"), ("x.f!(a: 1,,)", "S5 3:11"), ("x =? y", "S5 3:7"),
    ("x =? y.f()", "S5 3:9"), ("x =? 1", "S5 3:6"), ("return nothing x", "S5 3:16"), ("return 1 2", "S5 3:10"),
    ("return return", "S5 3:8"), ("break.", "S5 4:1"), ("break x", "S5 3:7"), ("continue.1", "S5 3:10"),
    ("yield x", "S5 3:7"), ("yield?", "S5 4:1"), ("assert x via y()", "S5 3:14"), ('assert x via "a"', "S5 3:17"),
    ("x = 1\nvar y : base.u8", "S5 4:1"), ("if x { var y : base.u8 }", "S5 3:8"), ("if x { }\nelse { }", "S5 4:1"),
    ("if x { } else y", "S5 3:15"), ("if x { } else { } else { }", "S5 3:19"), ("if { }", "S5 3:4"),
    ("if x", "S5 3:5"), ("while true { } endwhile.l", "S5 3:24"), ("while.l true { }", "S5 3:17"),
    ("while.l true { } endwhile", "S5 3:26"), ("while.l true { } endwhile.m", "S5 3:27"),
    ("while true, x { }", "S5 3:13"), ("while true,, { }", "S5 3:12"), ("while true, pre x post y { }", "S5 3:19"),
    ("while.1 true { }", "S5 3:7"), ("{ }", "S5 3:1"), (";", "S5 3:1"), ("x = 1;;", "S5 3:7"),
    ("if x { };;", "S5 3:10"), ("x = 1 }", "S5 4:1"), ("x += ", "S5 4:1"), ("x ~mod 1", "S1 3:3"),
    ('x = "abc', "S2 3:5"), ("x = 0x", "S3 3:5"), ("x = 99999999999999999999", "S4 3:5"), ("x = 1 $", "S1 3:7"),
    ("x = $ $", "S1 3:5"), ("x $", "S1 3:3"), ("x x $", "S5 3:3"), ("var x", "S5 3:6"), ("var x : ", "S5 4:1"),
    ("var 1", "S5 3:5"), ("else { }", "S5 3:1"), ("endwhile", "S5 3:1"),
]

# Values of a constant that are read.
EXPRESSIONS = [
    "1 + 2 + 3", "1 - 2", "not x", "not x and y", "x and not y", "(1 + 2) * 3", "x[1]", "x[1 ..]", "x[.. 2]", "x[..]",
    "x[1 .. 2]", "x.f()", "x.f!()", "x.f?()", "this.x", "this.x[1]", "this.f(a: 1)", "this.f!(a: 1)", "this.x.f()",
    "args.x.f()", "args.x", 'base."#bad"', '"#a"', "ok", "true", "false", "x.f() as base.u8", "x.f() + 1",
    "1 as base.u8", "(1 as base.u8) as base.u16", "1 as slice base.u8", "x.f(a: 1, b: 2,)", "((((1))))",
]

# Values of a constant that are refused; they begin in column 25.
WRONG_EXPRESSIONS = [
    ("1 + 2 * 3", "S6 1:31"), ("1 - 2 - 3", "S6 1:31"), ("1 + 2 - 3", "S6 1:31"), ("1 - 2 + 3", "S6 1:31"),
    ("1 as base.u8 + 2", "S6 1:38"), ("1 as base.u8 as base.u8", "S6 1:38"), ("1 as", "S5 1:29"),
    ("1 as 2", "S5 1:30"), ("1 + 2 as base.u8", "S6 1:31"), ("not", "S5 1:28"), ("not not x", "S5 1:29"),
    ("x and y or z", "S6 1:33"), ("(1 + 2", "S5 1:31"), ("()", "S5 1:26"), ("1 + ", "S5 1:29"), ("1 2", "S5 1:27"),
    ("x[1", "S5 1:28"), ("x[]", "S5 1:27"), ("x[1 ..= 2]", "S5 1:29"), ("x[1][2]", "S5 1:29"), ("x.f", "S5 1:28"),
    ("x.f()()", "S5 1:30"), ("x.f().g()", "S5 1:30"), ("this", "S5 1:29"), ("args", "S5 1:29"), ("args.1", "S5 1:30"),
    ("base.x", "S5 1:30"), ("base", "S5 1:29"), ("- 1", "S5 1:25"), ("* 1", "S5 1:25"), ("+ 1", "S5 1:25"),
    ("1 < 2 < 3", "S6 1:31"), ("1 == 2 and x", "S6 1:32"), ("x = 1", "S5 1:27"), ("1 ~sat+ 2 ~sat+ 3", "S6 1:35"),
    ("nothing", "S5 1:25"), ("x[1 + 2 * 3]", "S6 1:33"), ("(1 + 2) + (3 * 4 + 5)", "S6 1:42"),
    ("x[1 .. 2", "S5 1:33"), ("x[.. ", "S5 1:30"), ("x.f(a: 1", "S5 1:33"), ("x.f(a: ", "S5 1:32"),
    ("x.f(", "S5 1:29"), ("1 ! 2", "S5 1:27"), ("(1 + 2) * 3 + 4", "S6 1:37"),
]

# Each word at the end of a line. After some a semicolon is added, so that the line ends there: it is read, or refused
# in its own line; after the others the next line goes on.
WORDS_IN_FILES = [
    ("pub\n", "S5 2:1"), ("pri\n", "S5 2:1"), ("pub const\n", "S5 2:1"), ("pub struct\n", "S5 2:1"), ("pub func\n", "S5 2:1"),
    ("pub status\n", "S5 1:11"), ("pri const X : array\n", "S5 2:1"), ("pri const X : slice\n", "S5 2:1"), ("pri const X : base\n", "S5 2:1"),
]
WORDS_IN_VALUES = [
    ("x and\n", "S5 2:1"), ("x or\n", "S5 2:1"), ("not\n", "S5 2:1"), ("x as\n", "S5 2:1"), ("base\n", "S5 2:1"), ("args\n", "S5 1:29"),
    ("this\n", "S5 1:29"), ("true\n", "read"), ("false\n", "read"), ("ok\n", "read"),
]
WORDS_IN_STATEMENTS = [
    ("assert", "S5 4:1"), ("assert x via", "S5 4:1"), ("if", "S5 4:1"), ("if x { } else", "S5 4:1"), ("while", "S5 4:1"),
    ("while x, inv", "S5 4:1"), ("while x, pre", "S5 4:1"), ("while x, post", "S5 4:1"), ("var", "S5 4:1"), ("yield", "S5 4:1"),
    ("break", "read"), ("continue", "read"), ("return", "read"), ("return nothing", "read"), ("while x { } endwhile", "read"),
]
# No word is a name, and a name may begin as one.
NAMES = [("pri const %s : base.u8 = 1" % word, "S5 1:11") for word in (
    "and args array as assert base break const continue else endwhile false func if inv not nothing ok or post pre pri pub return slice "
    "status struct this true var via while yield").split()] + [
    ("pri const %s : base.u8 = 1" % name, "read") for name in "_ ands an_d And whil x0 u8".split()]

# Each symbol at the end of a line, which no semicolon ends but after `)`, `]` and `}`.
OPERATORS = "+ - * / % << >> & | ^ ~mod+ ~mod- ~mod* ~mod<< ~sat+ ~sat-".split()
SYMBOLS_IN_VALUES = [(f"x {symbol}\n", "S5 2:1") for symbol in OPERATORS + "== <> < <= > >=".split()] + [
    ("(\n", "S5 2:1"), ("x[\n", "S5 2:1"), ("x.\n", "S5 2:1"), ("x.f(a:\n", "S5 2:1"), ("x.f(a: 1,\n", "S5 2:1"), ("x[1 ..\n", "S5 2:1"),
    ("1 as base.u8[..=\n", "S5 2:1"), ("(1)\n", "read"), ("x[1]\n", "read"), ("x.f?()\n", "read"), ("x.f!()\n", "read"),
]
SYMBOLS_IN_STATEMENTS = [(f"x {symbol}=", "S5 4:1") for symbol in OPERATORS] + [(f"x {symbol}= 1", "read") for symbol in OPERATORS] + [
    ("x =", "S5 4:1"), ("x =?", "S5 4:1"), ("yield?", "S5 4:1"), ("this.f!", "S5 4:1"), ("{", "S5 3:1"), ("if x {\n}", "read"),
]
# The longest symbol is taken.
NEIGHBOURS = [("1<<2", "read"), ("1<=2", "read"), ("1<>2", "read"), ("1< <2", "S5 1:28"), ("1<<<2", "S5 1:28"), ("1=<2", "S5 1:26"),
              ("x[1...2]", "S5 1:30"), ("x[1..=2]", "S5 1:28"), ("1~mod<<2", "read"), ("1~mod<2", "S1 1:26"), ("1 ~ sat+ 2", "S1 1:27"),
              ("1 / 2 //= 3", "read")]

# Numbers with their values: only this value is in the bounds of the type.
NUMBERS = [
    ("0", 0), ("9", 9), ("1__2", 12), ("18_446_744_073_709_551_615", 2**64 - 1), ("0x0", 0), ("0x00fF", 255), ("0XdeadBEEF", 3735928559),
    ("0xffff_ffff_ffff_ffff", 2**64 - 1), ("0b0101", 5), ("0B1_0", 2), ("0b" + "1" * 64, 2**64 - 1),
]
MISSPELT = "01 00 0_1 0_ 1_ 1_x 12ab 0b 0b2 0b_1 0b1_ 0x 0xg 0x_1 0X1_ 0y1 1x1 99999999999999999999_".split()
TOO_LARGE = ["18446744073709551616", "99999999999999999999999", "0x1_0000_0000_0000_0000", "0b1" + "0" * 64]

# Bytes that are no tokens, line feeds, comments, and where a file ends.
BYTES = [
    ('pub status "#a\n"', "S2 1:12"), ('pub status "#a\\n"', "S2 1:12"), ('pub status "#\t"', "S2 1:12"), ('pub status "#\x7f"', "S2 1:12"),
    ('pub status "#é"', "S2 1:12"), ("// ok\n ~mod", "S1 2:2"), ('pub status "#a"\n\0', "S1 2:1"), (CONSTANT + "1 +\x0b", "S1 1:28"), ("'", "S1 1:1"),
    (" \t\r\n// only a comment", "read"), ('pub status "#a" // a comment\r\n\npub status "#b" x', "S5 3:17"), ("pub func s.f() {};\n", "read"),
    ("pub\n  // c", "S5 2:7"), ("pub\r\n", "S5 2:1"), ("pub struct s(\nx : base.u8,\n\n\ny", "S5 5:2"),
]

LINE = "pri const c:base.u8=0\n"
LIMITS = [
    ("(" * 48 + "1" + ")" * 48, "read"), ("(" * 49 + "1" + ")" * 49, "L4 1:73"), ("(1 + 2 * " * 49 + "1" + ")" * 49, "S6 1:32"),
]
TOKENS = [
    (LINE * 26214 + 'pub status "#a"\n', "read"), (LINE * 26214 + 'pub status "#a"\npub status "#b"\n', "L3 26216:1"),
    (LINE * 26214 + 'pub status "#a"\nstatus', "S5 26216:1"),
]

DECIMAL = '''pub status "#not a digit"
pub status "#too large"
pub struct parser?(
    val : base.u32,
)
pub func parser.value() base.u32 {
    return this.val
}
pub func parser.parse?(src: base.io_reader) {
    var c : base.u8
    while true {
        c = args.src.read_u8?()
        if c == 0 {
            return ok
        }
        if (c < 0x30) or (0x39 < c) {
            return "#not a digit"
        }
        c -= 0x30
        if this.val < 429_496729 {
            this.val = (10 * this.val) + (c as base.u32)
            continue
        } else if (this.val > 429_496729) or (c > 5) {
            return "#too large"
        }
        this.val = (10 * this.val) + (c as base.u32)
    } endwhile
}
'''


def rows(shows, texts, before="", after=""):
    """The packages of a table: texts that are read, or pairs of a text and its answer."""
    pairs = [(text, "read") if isinstance(text, str) else text for text in texts]
    return [(f"{shows}: {text[:60]!r}", (before + text + after).encode(), right) for text, right in pairs]


PACKAGES = (
    rows("a file", FILES + WRONG_FILES) + rows("a statement", STATEMENTS + WRONG_STATEMENTS, METHOD, METHOD_END)
    + rows("a value", EXPRESSIONS + WRONG_EXPRESSIONS, CONSTANT) + rows("a word", WORDS_IN_FILES) + rows("a word", WORDS_IN_VALUES, CONSTANT)
    + rows("a word", WORDS_IN_STATEMENTS, METHOD, METHOD_END) + rows("a name", NAMES) + rows("a symbol", SYMBOLS_IN_VALUES, CONSTANT)
    + rows("a symbol", SYMBOLS_IN_STATEMENTS, METHOD, METHOD_END) + rows("symbols", NEIGHBOURS, CONSTANT)
    + [(f"a number: {text}", f"pri const X : base.u64[{value} ..= {value}] = {text}".encode(), "ok") for text, value in NUMBERS]
    + rows("a misspelt number", [(text, "S3 1:25") for text in MISSPELT], CONSTANT)
    + rows("a large number", [(text, "S4 1:25") for text in TOO_LARGE], CONSTANT)
    + rows("bytes", BYTES) + rows("brackets", LIMITS, CONSTANT) + rows("tokens", TOKENS) + rows("a whole package", [DECIMAL])
)


def spoilt(text):
    """A text that is cut after each of its bytes, and with each of them made 0."""
    for place in range(len(text)):
        yield text[:place]
        yield text[:place] + "\0" + text[place + 1:]


def compared(program):
    """How many spoilt packages get the answer of the second opinion, and how many don't."""
    passed = failed = 0
    for text in spoilt(DECIMAL):
        said, wanted = run(program, text.encode())[0], verdict([text]).replace(" f0:", " n.wuffs:") + "\n"
        passed += said == wanted
        failed += said != wanted
        if said != wanted:
            print(f"a spoilt package: the program: {said!r}, the second opinion: {wanted!r}\n{text!r}")
    return passed, failed


if __name__ == "__main__":
    answer_all(PACKAGES, compared)
