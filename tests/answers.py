#!/usr/bin/env python3
"""Runs the built program on real files and compares what it writes and how it ends with answers written by hand.

usage: answers.py PROGRAM [NAME]    only the answers whose name has NAME in it
Each answer has a folder of its own, and nothing but its files. Prints what differs; the last line counts.
"""
import os
import pathlib
import subprocess
import sys
import tempfile

USAGE = "usage: wuffsc COMMAND PKG [SCRIPT] FILE\n"

# 262,144 tokens, the semicolons that line ends add included: ten of each constant, four of the status.
TOKENS = b"".join(b"pri const c%d:base.u8=0\n" % n for n in range(26214)) + b'pub status "#a"\n'

# A method with its first statement, and a coroutine without one.
POINTS = b'pub status "$a"\npub struct s()\npub func s.f?() {\n'
METHOD = b"pub struct s()\npub func s.f() {\n    var x : base.u32\n"

# name, files, words, what is written, exit status
ANSWERS = [
    ("an empty file", {"e.wuffs": b""}, "check demo e.wuffs", "ok 0 methods\n", 0),
    ("statuses and a constant", {"demo.wuffs": b'pub status "#not a digit"\npri const LIMIT : base.u32 = 429_496729\n'},
     "check demo demo.wuffs", "ok 0 methods\n", 0),
    ("the greatest number", {"m.wuffs": b"pri const MOST : base.u64 = 0xFFFF_FFFF_FFFF_FFFF"}, "check m m.wuffs", "ok 0 methods\n", 0),
    ("a constant above its type", {"c.wuffs": b"// one line\npri const X : base.u8 = 256\n"}, "check c c.wuffs", "refused T5 c.wuffs:2:25\n", 1),
    ("a status without a kind", {"s.wuffs": b'pub status "done"'}, "check s s.wuffs", "refused T5 s.wuffs:1:12\n", 1),
    ("a status that could begin a trigraph", {"s.wuffs": b'pub status "#what??"'}, "check s s.wuffs", "refused T5 s.wuffs:1:12\n", 1),
    ("a type that is no number", {"t.wuffs": b"pri const X : base.bool = 1\n"}, "check t t.wuffs", "refused T1 t.wuffs:1:15\n", 1),
    ("a missing equals sign", {"t.wuffs": b"pri const X : base.u8 256\n"}, "check t t.wuffs", "refused S5 t.wuffs:1:23\n", 1),
    ("a file that ends in a declaration", {"t.wuffs": b"pri const X"}, "check t t.wuffs", "refused S5 t.wuffs:1:12\n", 1),
    ("a byte that is no token", {"t.wuffs": b"pri const X : base.u8 = @\n"}, "check t t.wuffs", "refused S1 t.wuffs:1:25\n", 1),
    ("a text that isn't closed", {"t.wuffs": b'pub status "#a\n'}, "check t t.wuffs", "refused S2 t.wuffs:1:12\n", 1),
    ("a leading zero", {"t.wuffs": b"pri const X : base.u8 = 01\n"}, "check t t.wuffs", "refused S3 t.wuffs:1:25\n", 1),
    ("a binary number without digits", {"t.wuffs": b"pri const X : base.u8 = 0b\n"}, "check t t.wuffs", "refused S3 t.wuffs:1:25\n", 1),
    ("a number of more than 64 bits", {"t.wuffs": b"pri const X : base.u64 = 18446744073709551616\n"},
     "check t t.wuffs", "refused S4 t.wuffs:1:26\n", 1),
    ("a megabyte of spaces", {"t.wuffs": b" " * 1048576}, "check t t.wuffs", "ok 0 methods\n", 0),
    ("one byte more", {"t.wuffs": b" " * 1048577}, "check t t.wuffs", "refused L1 t.wuffs:1:1\n", 1),
    ("a megabyte of one comment", {"t.wuffs": b"//" + b"x" * 1048574}, "check t t.wuffs", "ok 0 methods\n", 0),
    ("a value in parentheses", {"t.wuffs": b"pri const X : base.u8 = ((255))\n"}, "check t t.wuffs", "ok 0 methods\n", 0),
    ("48 open brackets", {"t.wuffs": b"pri const X : base.u8 = " + b"(" * 48 + b"1" + b")" * 48}, "check t t.wuffs", "ok 0 methods\n", 0),
    ("49 open brackets", {"t.wuffs": b"pri const X : base.u8 = " + b"(" * 49 + b"1" + b")" * 49}, "check t t.wuffs", "refused L4 t.wuffs:1:73\n", 1),
    ("operators that are mixed", {"t.wuffs": b"pub struct s()\npub func s.f() {\n    x = a * b + 1\n}\n"},
     "check t t.wuffs", "refused S6 t.wuffs:3:15\n", 1),
    ("a struct", {"t.wuffs": b"pri const X : base.u8 = 255\npub struct s()\n"}, "check t t.wuffs", "ok 0 methods\n", 0),
    ("a constant above its type before a struct", {"t.wuffs": b"pri const X : base.u8 = 256\npub struct s()\n"},
     "check t t.wuffs", "refused T5 t.wuffs:1:25\n", 1),
    ("a sum", {"t.wuffs": b"pri const X : base.u8 = 1 + 2\n"}, "check t t.wuffs", "ok 0 methods\n", 0),
    ("a product above the type", {"t.wuffs": b"pri const X : base.u8 = (1 + 2) * 100\npub struct s()\n"}, "check t t.wuffs", "refused T5 t.wuffs:1:33\n", 1),
    ("a method that only declares a local", {"t.wuffs": METHOD + b"}\n"}, "check t t.wuffs", "ok 1 methods\n", 0),
    ("a method of 4,096 statements", {"t.wuffs": METHOD + b"    x = 1\n" * 4095 + b"}\n"}, "check t t.wuffs", "ok 1 methods\n", 0),
    ("a method of 1,024 suspension points", {"t.wuffs": POINTS + b"    yield? \"$a\"\n" * 1024 + b"}\n"}, "check t t.wuffs", "ok 1 methods\n", 0),
    ("one suspension point more", {"t.wuffs": POINTS + b"    yield? \"$a\"\n" * 1025 + b"}\n"}, "check t t.wuffs", "refused L9 t.wuffs:1028:5\n", 1),
    ("262,144 tokens", {"t.wuffs": TOKENS}, "check t t.wuffs", "ok 0 methods\n", 0),
    ("one token more", {"t.wuffs": TOKENS + b'pub status "#b"\n'}, "check t t.wuffs", "refused L3 t.wuffs:26216:1\n", 1),
    ("one statement more", {"t.wuffs": METHOD + b"    x = 1\n" * 4096 + b"}\n"}, "check t t.wuffs", "refused L5 t.wuffs:4099:5\n", 1),
    ("two files", {"a.wuffs": b'pub status "#a"\n', "b.wuffs": b"pri const X : base.u8 = 256\n"},
     "check t a.wuffs b.wuffs", "refused T5 b.wuffs:1:25\n", 1),
    ("reading comes before types", {"a.wuffs": b"pri const X : base.u8 = 256\n", "b.wuffs": b"pub"},
     "check t a.wuffs b.wuffs", "refused S5 b.wuffs:1:4\n", 1),
    ("half a megabyte twice", {"a.wuffs": b" " * 524288, "b.wuffs": b" " * 524288}, "check t a.wuffs b.wuffs", "ok 0 methods\n", 0),
    ("one byte more than a megabyte together", {"a.wuffs": b" " * 524288, "b.wuffs": b" " * 524289},
     "check t a.wuffs b.wuffs", "refused L1 b.wuffs:1:1\n", 1),
    ("sixteen files", {f"f{n}": b"" for n in range(1, 17)}, "check t " + " ".join(f"f{n}" for n in range(1, 17)), "ok 0 methods\n", 0),
    ("seventeen files, none of which is there", {}, "check t " + " ".join(f"f{n}" for n in range(1, 18)), "refused L2 f17:1:1\n", 1),
    ("a second file that isn't there", {"a.wuffs": b"pub"}, "check t a.wuffs b.wuffs", "input fault b.wuffs\n", 3),
    ("a file that isn't there", {}, "check t t.wuffs", "input fault t.wuffs\n", 3),
    ("a folder in place of a file", {"t.wuffs/x": b""}, "check t t.wuffs", "input fault t.wuffs\n", 3),
    ("no words", {}, "", USAGE, 2),
    ("an unknown command", {"t.wuffs": b""}, "chek t t.wuffs", USAGE, 2),
    ("a package name in capitals", {"t.wuffs": b""}, "check T t.wuffs", USAGE, 2),
    ("the package base", {"t.wuffs": b""}, "check base t.wuffs", USAGE, 2),
    ("a package name of 33 bytes", {"t.wuffs": b""}, "check " + "a" * 33 + " t.wuffs", USAGE, 2),
    ("a package name of 32 bytes", {"t.wuffs": b""}, "check " + "a" * 32 + " t.wuffs", "ok 0 methods\n", 0),
]


# Files k.wuffs of the package k, and what is written of each.
ONE_FILE = [
    (b'pub status "#not a digit" // a status\npri const X : base.u8 = 0xF_F; pub const y:base.u64=0\n', "ok 0 methods"),
    (b'pri const X : base.u8 = 256', "refused T5 k.wuffs:1:25"),
    (b'pri const X : base.u8 = 255', "ok 0 methods"),
    (b'pri const X\n', "refused S5 k.wuffs:1:12"),
    (b'pri const X : base.u8 =', "refused S5 k.wuffs:1:24"),
    (b'pri const X : base.u8 = $\n', "refused S1 k.wuffs:1:25"),
    (b'pri const X : base.u8 = 0b2\n', "refused S3 k.wuffs:1:25"),
    (b'pub status "a"\npri const X : base.u8 = $', "refused S1 k.wuffs:2:25"),
    (b'pub status "a"\npri const X : base.u8 = 256', "refused T5 k.wuffs:1:12"),
    (b'pub status "#"', "refused T5 k.wuffs:1:12"),
    (b'pub status "#a??"', "refused T5 k.wuffs:1:12"),
    (b'pub status "#a?b?"', "ok 0 methods"),
    (b'pub struct s()', "ok 0 methods"),
    (b'pub status ok', "refused S5 k.wuffs:1:12"),
    (b'pri const X : base.u16 = 65536; pub', "refused S5 k.wuffs:1:36"),
    (b'pri const X : base.u8 = (255)', "ok 0 methods"),
    (b'pri const X : base.u8 = ((256))', "refused T5 k.wuffs:1:27"),
    (b'pri const X : base.u8 = 1 + 2', "ok 0 methods"),
    (b'pri const X : base.u8[..= 9] = 1', "ok 0 methods"),
    (b'pri const X : slice base.u8 = 1', "refused T1 k.wuffs:1:15"),
    (b'pri const X : array[2] base.u8 = 1', "refused T1 k.wuffs:1:15"),
    (b'pri const X : base.status = 1', "refused T1 k.wuffs:1:15"),
    (b'pri const X : s = 1\npub struct s()', "refused T1 k.wuffs:1:15"),
    (b'pri const X : base.u8 = 256\npub struct s()', "refused T5 k.wuffs:1:25"),
    (b'pub func s.f() { }\npub struct s()', "ok 1 methods"),
    (b'pub struct s()\npub func s.f() { x = a * b + 1\n}', "refused S6 k.wuffs:2:28"),
    (b'pri const A : base.u8 = B', "refused N1 k.wuffs:1:25"),
    (b'pri const X : s = 1', "refused N1 k.wuffs:1:15"),
    (b'pub status "#a"\npri status "#a"', "refused N2 k.wuffs:2:12"),
    (b'pub status "#a"\npri status "#b"', "ok 0 methods"),
    (b'pri const _a : base.u8 = 1', "refused N3 k.wuffs:1:11"),
    (b'pri const a_a : base.u8 = 1', "ok 0 methods"),
    (b'pub struct a(b : c)\npub struct c(d : a)', "refused N4 k.wuffs:1:12"),
    (b'pub struct a(b : c)\npub struct c(d : base.u8)', "ok 0 methods"),
    (b'pub struct s()\npub func s.f() {\nbreak\n}', "refused N5 k.wuffs:3:1"),
    (b'pub struct s()\npri func s.g(a: base.u8) {}\npub func s.f!() {\nthis.g!(a: 1, b: 2)\n}', "refused N6 k.wuffs:4:15"),
    (b'pub struct s()\npri func s.g(a: base.u8) {}\npub func s.f!() {\nthis.g!()\n}', "refused N7 k.wuffs:4:6"),
    (b'pub struct s()\npri func s.g(a: base.u8) {}\npub func s.f!() {\nthis.g!(a: 1)\n}', "refused E3 k.wuffs:4:6"),
    (b'pub struct t()\npub func t.g() {}\npub struct s()\npub func s.f!() {\nthis.g!()\n}', "refused N8 k.wuffs:5:6"),
    (b'pub struct s(a : array[65537] base.u8)', "refused L7 k.wuffs:1:14"),
    (b'pub struct s(a : array[65536] base.u8)', "ok 0 methods"),
    (b'pub struct s()\npri const A : base.u8 = B', "refused N1 k.wuffs:2:25"),
    (b'pri const X : base.u8 = 256\npri const X : base.u8 = 1', "refused N2 k.wuffs:2:11"),
    (b'pri const a_ : base.u8 = b', "refused N3 k.wuffs:1:11"),
    (b'pri const X : base.u8 = Y\npub', "refused S5 k.wuffs:2:4"),
    (b'pri const A : base.u8 = (1 + 2) * 100\npub struct n()', "refused T5 k.wuffs:1:33"),
    (b'pri const A : base.u8 = (1 + 2) * 80\npub struct n()', "ok 0 methods"),
    (b'pub struct s()\npub func s.f() {}\npri func s.g?(a: base.u8) {\nvar b : base.bool\n}', "ok 2 methods"),
    (b'pub struct s()\npub func s.f() {\nreturn nothing\n}', "ok 1 methods"),
    (b'pub struct s()\npub func s.f() {}\npri func s.g() {\nvar b : base.u8\nb = 1\n}\npri func s.h() {\nreturn nothing\n}', "ok 3 methods"),
    (b'pub struct s()\npub func s.f() {\nreturn 1\n}', "refused T4 k.wuffs:3:1"),
    (b'pub struct s()\npub func s.f() {\nreturn nothing\n}\npri const A : base.u8 = 256', "refused T5 k.wuffs:5:25"),
    (b'pub struct s()\npub func s.f() {\nyield? ok\n}', "refused E2 k.wuffs:3:1"),
    (b'pri const A : base.u8 = 256\npri const A : base.u8 = 1', "refused N2 k.wuffs:2:11"),
    (b'pub struct s()\npub func s.f() {\nreturn nothing\n}\npri const A : t = 1', "refused N1 k.wuffs:5:15"),
]

STATUS, OTHER, CUT, LARGE = b'pub status "#a"', b'pub status "#b"', b"\npub", b"pri const X : base.u8 = 256"
UNKNOWN, KNOWN, RESERVED = b"pub struct s(x : t)", b"pri struct t()", b"\npri const _a : base.u8 = 1"
OUTSIDE = b"pri struct s()\npri func s.f() base.u8 {\nreturn 300\n}"
TOO_MANY = b"pri status \"$a\"\npri struct p()\npri func p.f?() {\n" + b"yield? \"$a\"\n" * 1025 + b"}"

# Files f0, f1 and so on of a package, and what is written of them: of two places the one in the earlier file decides, but
# reading comes before names, names before types, types before bounds, and these before suspension points.
FILES = [
    ([STATUS, OTHER], "ok 0 methods"), ([STATUS, CUT], "refused S5 f1:2:4"), ([CUT, CUT], "refused S5 f0:2:4"),
    ([LARGE, CUT], "refused S5 f1:2:4"), ([STATUS, OUTSIDE], "refused B1 f1:3:8"), ([OUTSIDE, LARGE], "refused T5 f1:1:25"),
    ([STATUS, TOO_MANY], "refused L9 f1:1028:1"), ([TOO_MANY, OUTSIDE], "refused B1 f1:3:8"),
    ([STATUS, LARGE], "refused T5 f1:1:25"), ([STATUS, STATUS], "refused N2 f1:1:12"),
    ([STATUS, UNKNOWN, RESERVED], "refused N1 f1:1:18"), ([STATUS, RESERVED, UNKNOWN], "refused N3 f1:2:11"),
    ([UNKNOWN, CUT], "refused S5 f1:2:4"), ([UNKNOWN, KNOWN], "ok 0 methods"), ([b""] * 17, "refused L2 f16:1:1"),
    ([b" " * 524288, b" " * 524288, b" "], "refused L1 f2:1:1"),
]

ANSWERS += [(f"one file: {text[:60]!r}", {"k.wuffs": text}, "check k k.wuffs", line + "\n", int(line.startswith("refused"))) for text, line in ONE_FILE]
ANSWERS += [(f"{len(files)} files: {line}", {f"f{number}": data for number, data in enumerate(files)},
             "check k " + " ".join(f"f{number}" for number in range(len(files))), line + "\n", int(line.startswith("refused")))
            for files, line in FILES]
ANSWERS += [(f"words: {words!r}", {"k.wuffs": b""}, words, USAGE, 2) for words in ("check", "check k", "check K k.wuffs", "check k_B k.wuffs", "check k- k.wuffs", "Check k k.wuffs",
                                                                                               "gen k", "gen base k.wuffs", "run k k.wuffs", "mean k k.wuffs", "mean base k.wuffs k.wuffs", "exec k k.wuffs k.wuffs")]


def run(program, files, words):
    with tempfile.TemporaryDirectory() as folder:
        for name, data in files.items():
            path = pathlib.Path(folder, name)
            path.parent.mkdir(exist_ok=True)
            path.write_bytes(data)
        ended = subprocess.run([program, *words.split()], cwd=folder, stdin=subprocess.DEVNULL, capture_output=True, timeout=60)
        return ended.stdout.decode(errors="replace"), ended.returncode


def main():
    program = os.path.abspath(sys.argv[1])
    wanted = sys.argv[2] if len(sys.argv) > 2 else ""
    passed = failed = 0
    for name, files, words, out, status in ANSWERS:
        if wanted not in name:
            continue
        came = run(program, files, words)
        if came == (out, status):
            passed += 1
        else:
            failed += 1
            print(f"{name}: {words[:80]}\n  wanted {(out, status)!r}\n  came   {came!r}")
    # Standard output that takes nothing: the program ends with the status of an output fault.
    if not wanted and os.path.exists("/dev/full"):
        with open("/dev/full", "wb") as full:
            status = subprocess.run([program], stdin=subprocess.DEVNULL, stdout=full, timeout=60).returncode
        passed += status == 4
        failed += status != 4
        if status != 4:
            print(f"a full output: wanted status 4, came {status}")
    print(f"answers.py: {passed} passed, {failed} failed")
    return failed > 0


if __name__ == "__main__":
    sys.exit(main())
