#!/usr/bin/env python3
"""Runs scripts through the built program, by `mean`, by `run`, or by `exec` of what `gen` writes, and compares what it writes and how it
ends with answers written by hand.

usage: script_answers.py PROGRAM [NAME [COMMAND]]    only the scripts whose name has NAME in it; `mean` is the default
The scripts of examples/ have their reports beside them. REFUSED are scripts over the package KINDS, with the rule and the line of
the refusal; LAWFUL are some that are just not refused, with their reports. A bar ends a line. Each answer is compared with the
second opinion's too (second_opinion/scripts.py). Prints what differs; the last line counts.
"""
import os
import pathlib
import subprocess
import sys
import tempfile

from second_opinion.scripts import report

ROOT = pathlib.Path(__file__).resolve().parent.parent

# A struct of each kind, and arguments of each kind.
KINDS = """\
pub struct s?(
    n : base.u32,
)
pub struct t(
)
pri struct hidden(
)
pub func s.numbers(a: base.u8, b: base.u16, c: base.u32, d: base.u64) base.u64 {
    return args.d
}
pub func s.bounded(a: base.u32[1 ..= 9]) base.u32 {
    return args.a
}
pub func s.flag(yes: base.bool) base.bool {
    return args.yes
}
pub func s.copy?(dst: base.io_writer, src: base.io_reader) {
    args.dst.write_u8?(a: 1)
}
pub func s.join!(dst: base.io_writer, a: slice base.u8, b: slice base.u8) base.u64 {
    return args.a.length()
}
pub func s.wide(a: slice base.u32) base.u64 {
    return args.a.length()
}
pri func s.secret() {
}
pub func s.none() {
}
pub func t.only_t() {
}
"""
# What is declared before the line in question: two receivers, two buffers and two byte arrays.
START = "new p s|new q t|buf b 4|buf c 4|bytes a 01|bytes e -"

# name, lines with a bar between them, rule, line
REFUSED = [
    ("an unknown command", "frob", "X1", 1),
    ("a command in upper case", "NEW p s", "X1", 1),
    ("a longer command", "news p s", "X1", 1),
    ("a shorter command", "ne p s", "X1", 1),
    ("a number as a command", "1", "X1", 1),
    ("a command with a dot", "call.p.none", "X1", 1),
    ("a hash inside a word", "init# p", "X1", 1),
    ("an unknown command after lines that are skipped", "# one||  # two|\t|frob", "X1", 5),
    ("a vertical tab is no blank", "new\vp s", "X1", 1),
    ("a carriage return inside a line", "new p s\rnew q s", "X2", 1),
    ("a carriage return at the end of the script", "turns 1|turns 1\r", "X3", 2),
    ("two carriage returns before a line feed", "turns 1\r\r|turns 1", "X3", 1),
    ("a byte above 127", "n\xe9w p s", "X1", 1),
    ("a zero byte", "new p s|\0", "X1", 2),
    ("new without words", "new", "X3", 1),
    ("new without a struct", "new p", "X3", 1),
    ("new with a word too many", "new p s s", "X3", 1),
    ("new of an unknown struct", "new p z", "X2", 1),
    ("new of a private struct", "new p hidden", "X2", 1),
    ("new of a struct in upper case", "new p S", "X2", 1),
    ("an unknown struct and a word too many", "new p z z", "X2", 1),
    ("a name that begins with a digit", "new 1p s", "X3", 1),
    ("a name that begins with an underscore", "new _p s", "X3", 1),
    ("a name with an upper-case letter", "new pQ s", "X3", 1),
    ("a name with a dot", "new p.q s", "X3", 1),
    ("a name with a hyphen", "new p-q s", "X3", 1),
    ("the name null", "new null s", "X3", 1),
    ("the name true", "buf true 1", "X3", 1),
    ("the name false", "bytes false -", "X3", 1),
    ("a misspelt name before an unknown struct", "new P z", "X3", 1),
    ("a receiver that was declared", "new p s|new p s", "X3", 2),
    ("a buffer that was declared", "buf b 4|buf b 4", "X3", 2),
    ("a null receiver that was declared", "new p s|null p s", "X3", 2),
    ("a buffer with a receiver's name", "new p s|buf p 1", "X3", 2),
    ("an array with a buffer's name", "buf b 1|bytes b 00", "X3", 2),
    ("a receiver with an array's name", "bytes a 00|new a s", "X3", 2),
    ("null without words", "null", "X3", 1),
    ("null of an unknown struct", "null p z", "X2", 1),
    ("null with a word too many", "null p s s", "X3", 1),
    ("init without words", "init", "X3", 1),
    ("init of what isn't known", "init p", "X2", 1),
    ("init of what is declared later", "init p|new p s", "X2", 1),
    ("init of a buffer", "buf b 1|init b", "X3", 2),
    ("init of an array", "bytes b -|init b", "X3", 2),
    ("init with a word too many", "new p s|init p p", "X3", 2),
    ("init of two names, the first unknown", "init p p", "X2", 1),
    ("buf without words", "buf", "X3", 1),
    ("buf without a size", "buf b", "X3", 1),
    ("buf with a word too many", "buf b 1 1", "X3", 1),
    ("a size with a sign", "buf b +1", "X3", 1),
    ("a negative size", "buf b -1", "X3", 1),
    ("a size in hexadecimal digits", "buf b 0x10", "X3", 1),
    ("a size with an underscore", "buf b 1_0", "X3", 1),
    ("a size with a decimal point", "buf b 1.0", "X3", 1),
    ("a buffer of one byte too many", "buf b 16777217", "X4", 1),
    ("a size above 64 bits", "buf b 18446744073709551616", "X4", 1),
    ("a size of forty digits", "buf b " + "9" * 40, "X4", 1),
    ("a size above its limit and a word too many", "buf b 16777217 1", "X4", 1),
    ("a misspelt name before a size above its limit", "buf B 16777217", "X3", 1),
    ("buffers of one byte too many together", "buf b 16777216|buf c 16777216|buf d 16777216|buf e 16777215|buf f 2", "X4", 5),
    ("buffers and arrays of one byte too many together", "buf b 16777216|buf c 16777216|buf d 16777216|buf e 16777215|bytes f 0000", "X4", 5),
    ("bytes without words", "bytes", "X3", 1),
    ("bytes without HEX", "bytes a", "X3", 1),
    ("bytes with a word too many", "bytes a 00 00", "X3", 1),
    ("an odd number of digits", "bytes a 0", "X3", 1),
    ("three digits", "bytes a 012", "X3", 1),
    ("a digit that is none", "bytes a 0g", "X3", 1),
    ("a prefix of hexadecimal digits", "bytes a 0x", "X3", 1),
    ("two hyphens", "bytes a --", "X3", 1),
    ("a hyphen after digits", "bytes a 00-", "X3", 1),
    ("put without words", "put", "X3", 1),
    ("put into what isn't known", "put b 00", "X2", 1),
    ("put into a receiver", "new p s|put p 00", "X3", 2),
    ("put into an array", "bytes a 00|put a 00", "X3", 2),
    ("put without HEX", "buf b 1|put b", "X3", 2),
    ("put of an odd number of digits", "buf b 1|put b 000", "X3", 2),
    ("put with a word too many", "buf b 1|put b 00 00", "X3", 2),
    ("put into what isn't known, and misspelt digits", "put b 0", "X2", 1),
    ("close without words", "close", "X3", 1),
    ("close of what isn't known", "close b", "X2", 1),
    ("close of an array", "bytes a -|close a", "X3", 2),
    ("close with a word too many", "buf b 1|close b b", "X3", 2),
    ("compact without words", "compact", "X3", 1),
    ("compact of what isn't known", "compact b", "X2", 1),
    ("compact of a receiver", "new p s|compact p", "X3", 2),
    ("compact with a word too many", "buf b 1|compact b b", "X3", 2),
    ("show without words", "show", "X3", 1),
    ("show of what isn't known", "show b", "X2", 1),
    ("show of a receiver", "new p s|show p", "X3", 2),
    ("show with a word too many", "buf b 1|show b b", "X3", 2),
    ("turns without words", "turns", "X3", 1),
    ("turns with a word too many", "turns 1 1", "X3", 1),
    ("turns that are no number", "turns many", "X3", 1),
    ("one turn too many", "turns 10000001", "X4", 1),
    ("turns above 64 bits", "turns 99999999999999999999", "X4", 1),
    ("call without words", "call", "X3", 1),
    ("a call without a dot", START + "|call p", "X3", 7),
    ("a call without a dot of what isn't known", "call z", "X3", 1),
    ("a call of an unknown receiver", "call z.none", "X2", 1),
    ("a call of an unknown receiver by a second dot", START + "|call z.p.none", "X2", 7),
    ("a call on a buffer", START + "|call b.none", "X3", 7),
    ("a call on an array", START + "|call a.none", "X3", 7),
    ("a call of an unknown method", START + "|call p.nothing", "X2", 7),
    ("a call of a private method", START + "|call p.secret", "X2", 7),
    ("a call of another struct's method", START + "|call p.only_t", "X2", 7),
    ("a call of a method with a dot", START + "|call p.none.x", "X2", 7),
    ("a call without a method", START + "|call p.", "X2", 7),
    ("a call without a receiver", START + "|call .none", "X2", 7),
    ("a method with arguments that has none", START + "|call p.none a=1", "X3", 7),
    ("a word without an equals sign", START + "|call p.flag yes", "X3", 7),
    ("an argument that the method hasn't", START + "|call p.flag no=true", "X3", 7),
    ("an argument without a name", START + "|call p.flag =true", "X3", 7),
    ("an argument without a value", START + "|call p.flag yes=", "X3", 7),
    ("a truth value in upper case", START + "|call p.flag yes=True", "X3", 7),
    ("a truth value as a number", START + "|call p.flag yes=1", "X3", 7),
    ("an argument that is missing", START + "|call p.flag", "X3", 7),
    ("the last of four arguments is missing", START + "|call p.numbers a=1 b=1 c=1", "X3", 7),
    ("an argument that is given twice", START + "|call p.flag yes=true yes=true", "X3", 7),
    ("a number of eight bits too large", START + "|call p.numbers a=256 b=1 c=1 d=1", "X4", 7),
    ("a number of sixteen bits too large", START + "|call p.numbers a=255 b=65536 c=1 d=1", "X4", 7),
    ("a number of 32 bits too large", START + "|call p.numbers a=255 b=65535 c=4294967296 d=1", "X4", 7),
    ("a number of 64 bits too large", START + "|call p.numbers a=255 b=65535 c=4294967295 d=18446744073709551616", "X4", 7),
    ("a number that is none", START + "|call p.numbers a=b b=1 c=1 d=1", "X3", 7),
    ("a number too large before an argument that isn't known", START + "|call p.numbers a=256 z=1", "X4", 7),
    ("an argument that isn't known before a number too large", START + "|call p.numbers z=1 a=256", "X3", 7),
    ("a bounded argument goes by its width", START + "|call p.bounded a=4294967296", "X4", 7),
    ("a buffer that isn't known", START + "|call p.copy dst=b src=z", "X2", 7),
    ("an array where a buffer is wanted", START + "|call p.copy dst=b src=a", "X3", 7),
    ("an array where a writer's buffer is wanted", START + "|call p.copy dst=a src=c", "X3", 7),
    ("a receiver where a buffer is wanted", START + "|call p.copy dst=b src=p", "X3", 7),
    ("a number where a buffer is wanted", START + "|call p.copy dst=b src=1", "X2", 7),
    ("one buffer twice", START + "|call p.copy dst=b src=b", "X5", 7),
    ("one buffer twice, then a word too many", START + "|call p.copy dst=b src=b z=1", "X5", 7),
    ("a word too many, then one buffer twice", START + "|call p.copy z=1 dst=b src=b", "X3", 7),
    ("an argument given twice with one buffer", START + "|call p.copy dst=b dst=b src=c", "X3", 7),
    ("an argument given twice with null", START + "|call p.join dst=b a=null a=null", "X3", 7),
    ("an argument given twice with a buffer that isn't known", START + "|call p.copy dst=b dst=z src=c", "X2", 7),
    ("one array twice", START + "|call p.join dst=b a=a b=a", "X5", 7),
    ("a buffer where an array is wanted", START + "|call p.join dst=b a=c b=e", "X3", 7),
    ("an array that isn't known", START + "|call p.join dst=b a=z b=e", "X2", 7),
    ("a slice of wider numbers", START + "|call p.wide a=a", "X3", 7),
    ("a slice of wider numbers that is null", START + "|call p.wide a=null", "X3", 7),
    ("the 65th receiver", "|".join(f"new p{k} s" for k in range(65)), "X4", 65),
    ("the 65th buffer", "|".join(f"buf b{k} 0" for k in range(65)), "X4", 65),
    ("the 65th of buffers and arrays", "|".join(f"buf b{k} 0|bytes a{k} -" for k in range(33)), "X4", 65),
    ("the 65th receiver, misspelt", "|".join(f"new p{k} s" for k in range(64)) + "|new P s", "X3", 65),
    ("the 65th receiver of an unknown struct", "|".join(f"new p{k} s" for k in range(65)) + " z", "X4", 65),
    ("a line above the last", "|" * 65536 + "#", "X4", 65537),
    ("a line above the last, after one that is refused", "|" * 65535 + "frob|", "X1", 65536),
    ("a script of one byte too many", "#" * 1048577, "X4", 1),
    ("a script of one byte too many with an unknown command", "frob|" + "#" * 1048572, "X4", 1),
    ("the first of two refusals", "turns|frob", "X3", 1),
]
# name, script, report
LAWFUL = [
    ("no bytes", "", ""),
    ("blank lines alone", "||  |\t", ""),
    ("a last line without a line feed", "turns 1|turns 2", "turns 1|turns 2|"),
    ("carriage returns before line feeds", "turns 1\r|# x\r|turns 2\r|", "turns 1|turns 2|"),
    ("tabs and blanks", "\tturns \t 1  |", "turns 1|"),
    ("leading zeros", "turns 0001|buf b 04|", "turns 1|buf b 4|"),
    ("thousands of leading zeros", "turns " + "0" * 10000 + "7|", "turns 7|"),
    ("the most turns", "turns 10000000|", "turns 10000000|"),
    ("no turns", "turns 0|", "turns 0|"),
    ("the most bytes of a buffer", "buf b 16777216|", "buf b 16777216|"),
    ("the most bytes of all", "buf b 16777216|buf c 16777216|buf d 16777216|buf e 16777215|bytes f 00|",
     "buf b 16777216|buf c 16777216|buf d 16777216|buf e 16777215|bytes f 1|"),
    ("HEX in upper and lower case", "bytes a aBCdeF09|show a|", "bytes a 4|show a abcdef09|"),
    ("an empty buffer and array", "buf b 0|bytes a -|show b|show a|put b 00|", "buf b 0|bytes a 0|show b - ri=0 wi=0 pos=0 open|show a -|put b 0|"),
    ("names of one letter, with digits and underscores", "new a_1 s|buf z__ 1|", "new a_1|buf z__ 1|"),
    ("a name that is a command", "new init s|init init|call init.none|", "new init|init init ok|call init.none done|"),
    ("a method before init", "new p s|call p.bounded a=3|call p.flag yes=true|", "new p|call p.bounded 0|call p.flag false|"),
    ("arguments in any order", "new p s|init p|call p.numbers d=18446744073709551615 c=4294967295 b=65535 a=255|",
     "new p|init p ok|call p.numbers 18446744073709551615|"),
    ("an argument outside its bounds", "new p s|init p|call p.bounded a=0|call p.bounded a=9|call p.bounded a=10|",
     "new p|init p ok|call p.bounded 0|call p.bounded 9|call p.bounded 0|"),
    ("null buffers and arrays, two of them", "new p s|init p|call p.join dst=null a=null b=null|", "new p|init p ok|call p.join 0|"),
    ("buffers in the order of the declaration", "new p s|init p|buf b 4|buf c 4|call p.copy src=c dst=b|show b|",
     "new p|init p ok|buf b 4|buf c 4|call p.copy ok b ri=0 wi=1 pos=0 open c ri=0 wi=0 pos=0 open|show b 01 ri=0 wi=1 pos=0 open|"),
    ("a put into a closed buffer", "buf b 4|put b 0102|close b|put b 03|show b|",
     "buf b 4|put b 2|close b|put b 0|show b 0102 ri=0 wi=2 pos=0 closed|"),
    ("a put of more than fits", "buf b 2|put b 010203|show b|", "buf b 2|put b 2|show b 0102 ri=0 wi=2 pos=0 open|"),
    ("more bytes than are written at once", "buf b 65536|put b " + "5a" * 3000 + "|show b|",
     "buf b 65536|put b 3000|show b " + "5a" * 3000 + " ri=0 wi=3000 pos=0 open|"),
    ("a script of all bytes that it may have", "turns 1|" + "#" * 1048568, "turns 1|"),
    ("as many lines as it may have", "|" * 65535 + "turns 3", "turns 3|"),
]


def answer(program, command, package, files, script):
    """What a command prints of files (pairs of a name and a text) on a script of bytes, and its exit status. `exec` runs the very
    bytes that `gen` writes of the files."""
    with tempfile.TemporaryDirectory() as folder:
        for name, text in files:
            pathlib.Path(folder, name).write_text(text)
        pathlib.Path(folder, "s").write_bytes(script)
        names = [name for name, _ in files]
        how = {"cwd": folder, "stdin": subprocess.DEVNULL, "stdout": subprocess.PIPE, "timeout": 120}
        texts = ["t.c"] if command == "exec" else []
        for text in texts:
            pathlib.Path(folder, text).write_bytes(subprocess.run([program, "gen", package, *names], **how).stdout)
        ended = subprocess.run([program, command, package, "s", *texts, *names], **how)
        return ended.stdout.decode(errors="replace"), ended.returncode


def bytes_of(lines):
    return lines.replace("|", "\n").encode("latin-1")


def cases():
    """Names, packages, files, scripts and what is wanted: a text and an exit status."""
    kinds = [("k.wuffs", KINDS)]
    for name, lines, rule, line in REFUSED:
        yield name, "k", kinds, bytes_of(lines), (f"script {rule} line {line}\n", 5)
    for name, lines, wanted in LAWFUL:
        yield name, "k", kinds, bytes_of(lines), (wanted.replace("|", "\n"), 0)
    for script in sorted((ROOT / "examples").glob("*.script")):
        name = script.stem
        files = [(f"{name}.wuffs", script.with_suffix(".wuffs").read_text())]
        yield f"examples/{name}", name, files, script.read_bytes(), (script.with_suffix(".report").read_text(), 0)


def main():
    program = os.path.abspath(sys.argv[1])
    only, command = (sys.argv[2:] + ["", "mean"][len(sys.argv) - 2:])[:2]
    passed = failed = 0
    for name, package, files, script, wanted in cases():
        if only not in name:
            continue
        came, second = answer(program, command, package, files, script), report(package, [text for _, text in files], script)
        is_right = came == wanted == second
        passed += is_right
        failed += not is_right
        if not is_right:
            print(f"{name}: the program says {came}, the second opinion {second}, and {wanted} is wanted")
    print(f"script_answers.py, {command}: {passed} passed, {failed} failed")
    return 1 if failed or not passed else 0


if __name__ == "__main__":
    sys.exit(main())
