#!/usr/bin/env python3
"""Streams in pieces: what `mean` and `run` print of a coroutine whose input is cut at every byte, whose output comes by so many
bytes at a time, or whose turns run out at every number.

usage: cut_reports.py PROGRAM [NAME]    only the streams whose name has NAME in it
A stream is a package with a receiver p, the steps that read its input, and what is looked at when they are over. It is run uncut; cut in
two at every byte, alone and with something else done while p waits (another receiver takes the whole input, another coroutine of p
is called, a buffer is null, p is initialized again, or also takes the whole input); byte by byte; with outputs of 1, 2 and so on bytes;
with these and a cut; with no more than N turns for N from 0 until they are enough, uncut, cut and byte by byte; and with a receiver that is
null or wasn't initialized. Both commands have to print the same and to end alike. Uncut they say what the second opinion says
(second_opinion/scripts.py), and what is only cut ends by the status, writes the bytes and shows the numbers that the uncut stream does. Prints what
differs; the last line counts the scripts.
"""
import os
import pathlib
import re
import subprocess
import sys
import tempfile

import report_answers
from second_opinion.scripts import report

ROOT = pathlib.Path(__file__).resolve().parent.parent
COMMANDS = ("mean", "run")
OUT_OF_TURNS = 7
EACH = "each"  # a cut at each byte


class Step:
    """A coroutine's call, with the bytes that it reads and the arguments that aren't buffers."""

    def __init__(self, method, given=b"", others="", reads=True, writes=False):
        self.method, self.given, self.others, self.reads, self.writes = method, given, others, reads, writes

    def call(self, receiver, source, output):
        words = [f"call {receiver}.{self.method}", f"src={source}" if self.reads else "", f"dst={output}" if self.writes else "", self.others]
        return " ".join(word for word in words if word)


class Stream:
    """A package's name, its text, its first struct, the steps, whether the input is closed after them, the number of bytes that are
    written, what is looked at at last, and another coroutine of the struct."""

    def __init__(self, name, package, text, struct, steps, closes=False, room=0, looks=(), other=None):
        self.name, self.package, self.text, self.struct, self.steps = name, package, text, struct, steps
        self.closes, self.room, self.looks, self.other = closes, room, looks, other
        self.input = b"".join(step.given for step in steps)

    def whole(self, receiver, source, output):
        """The lines that hand the whole input to a receiver, in buffers of its own."""
        lines = [f"init {receiver}", f"buf {source} {len(self.input)}", f"buf {output} {self.room}", f"put {source} {self.input.hex() or '-'}"]
        return lines + [f"close {source}"] * self.closes + [step.call(receiver, source, output) for step in self.steps]

    def script(self, cut=None, capacity=None, between=(), begin=("new p {}", "init p"), turns=None):
        """A script. The input is in two pieces where there is a cut, or in bytes, and the output in buffers of the capacity; between the
        pieces stand other lines."""
        count = self.room // capacity + 1 if capacity else 1
        outputs = [f"d{number}" for number in range(2 * count if capacity else 1)]
        lines = [f"turns {turns}"] if turns is not None else []
        lines += [line.format(self.struct) for line in begin] + [f"buf b {len(self.input)}"]
        lines += [f"buf {name} {capacity or self.room}" for name in outputs]
        at = 0
        for step in self.steps:
            pieces, outs = [step.given], [outputs]
            if cut == EACH:
                pieces = [bytes([byte]) for byte in step.given] or [b""]
                outs = [outputs] * len(pieces)
            elif cut is not None and at <= cut < at + max(len(step.given), 1) + (self.closes and step is self.steps[-1]):
                pieces, outs = [step.given[:cut - at], step.given[cut - at:]], [outputs[:count], outputs[-count:]]
            for number, piece in enumerate(pieces):
                lines += [*between] * (number > 0) + [f"put b {piece.hex() or '-'}"]
                lines += ["close b"] * (self.closes and step is self.steps[-1] and number == len(pieces) - 1)
                lines += [step.call("p", "b", name) for name in (outs[number] if step.writes else outputs[:1])]
            at += len(step.given)
        return "\n".join(lines + [f"show {name}" for name in outputs] + [f"call p.{look}" for look in self.looks]).encode() + b"\n"

    def begin(self):
        """The lines that make p ready."""
        return ("new p {}", "init p") + ((f"call p.pick what={self.name[-1]}",) if self.struct == "k" else ())

    def cuts(self):
        """Where the input is cut: one that is closed also at its end, so that it is closed only after the package has asked for more."""
        return range(len(self.input) + self.closes) if self.input else range(0)

    def scripts(self):
        """Each script whose turns are enough: what is told of it, the script, and whether it has to come to what the uncut one does,
        which is the first of them."""
        begin = self.begin()
        yield "uncut", self.script(begin=begin), True
        another = [f"new q {self.struct}", *self.whole("q", "qb", "qd")]
        for cut in self.cuts():
            yield f"cut at {cut}", self.script(cut, begin=begin), True
            yield f"another receiver at {cut}", self.script(cut, between=another, begin=begin), True
            for told, line in [("another coroutine", f"call p.{self.other}"), ("null", self.steps[-1].call("p", "null", "null")), ("init", "init p")]:
                if self.other or told != "another coroutine":
                    yield f"{told} at {cut}", self.script(cut, between=[line], begin=begin), False
            yield f"the whole again at {cut}", self.script(cut, between=self.whole("p", "qb", "qd"), begin=begin), False
        if self.input:
            yield "byte by byte", self.script(EACH, begin=begin), True
        for capacity in range(1, self.room + 1):
            yield f"outputs of {capacity}", self.script(capacity=capacity, begin=begin), True
            for cut in self.cuts() if capacity < 4 else []:
                yield f"outputs of {capacity}, cut at {cut}", self.script(cut, capacity, begin=begin), True
        yield "a null receiver", self.script(begin=("null p {}", *begin[2:])), False
        yield "a receiver that isn't ready", self.script(begin=("new p {}", *begin[2:])), False

    def last(self, said):
        """The status of the last step, the bytes that were written, and the lines of what was looked at."""
        lines = said.rstrip("\n").split("\n")
        statuses = re.findall(rf'^call p\.{self.steps[-1].method} ("[^"]*"|\S+)', said, re.M)
        shown = "".join(line.split(" ")[2] for line in lines if line.startswith("show d")).replace("-", "")
        return statuses[-1:], shown, lines[len(lines) - len(self.looks):]


def streams():
    text = lambda name: (ROOT / "examples" / f"{name}.wuffs").read_text()
    yield Stream("packbits", "packbits", text("packbits"), "unpacker",
                 [Step("unpack", bytes.fromhex("feaa0280002afdaa0380002a22f7aa"), writes=True)], closes=True, room=24, looks=["count"])
    yield Stream("farbfeld", "farbfeld", text("farbfeld"), "decoder",
                 [Step("decode_header", b"farbfeld" + bytes([0, 0, 0, 2, 0, 0, 0, 1])),
                  Step("decode_pixels", bytes.fromhex("ffff00000000ffff0000000080008080"), writes=True)],
                 room=8, looks=["width", "height"], other="decode_header src=b")
    yield Stream("adler32", "adler32", text("adler32"), "hasher", [Step("update_from", b"Wikipedia")], closes=True, looks=["value"])
    yield Stream("parser", "parser", text("parser"), "parser", [Step("parse", b"4294967295\0")], looks=["value"])
    yield Stream("parser, too large", "parser", text("parser"), "parser", [Step("parse", b"4294967296")], looks=["value"])
    of = report_answers.PACKAGES
    numbers = [Step(f"u{bits}{order}", bytes(range(1, bits // 8 + 1))) for bits in (16, 32, 64) for order in ("be", "le")]
    for step in [Step("u8", b"\xff"), *numbers, Step("skip", b"abcde", "n=5"), Step("two", b"\1\2xy\3")]:
        yield Stream(f"readers, {step.method}", "k", of["r"], "r", [step], looks=["got"], other="two src=b" if step.method == "u8" else "u8 src=b")
    yield Stream("readers, all", "k", of["r"], "r", [*numbers, Step("two", b"\1\2xy\3")], looks=["got"], other="u8 src=b")
    yield Stream("writers", "k", of["w"], "w", [Step("count", reads=False, writes=True)], room=6, other="one dst=d0 a=7")
    for what in range(5):
        for method in ("plain", "keep", "hand"):
            yield Stream(f"statuses, {method} {what}", "k", of["k"], "k", [Step(f"{method}", reads=False)] * 2, looks=["from", "kinds", "last"], other="plain" if method != "plain" else "keep")
    for method in ("first", "second"):
        yield Stream(f"parts, {method}", "k", of["out"], "out", [Step(method, b"\2"), Step(method, b"\3")], looks=["both"], other="second src=b" if method == "first" else "first src=b")
    yield Stream("loops", "k", of["l"], "l", [Step("find", bytes([0, 5, 6, 6, 0, 0, 7, 1, 7]))], looks=["get"])


class Runs:
    """Runs scripts by both commands and counts them."""

    def __init__(self, program, folder):
        self.program, self.folder, self.passed, self.failed = program, folder, 0, 0

    def said(self, command, stream, script):
        (self.folder / "s").write_bytes(script)
        ended = subprocess.run([self.program, command, stream.package, "s", "f.wuffs"], cwd=self.folder, stdin=subprocess.DEVNULL, capture_output=True, timeout=60)
        return ended.stdout.decode(errors="replace"), ended.returncode

    def compare(self, stream, told, script, wanted=None, last=None):
        """What both commands say. It has to be what is wanted, and at last what `last` is."""
        came = [self.said(command, stream, script) for command in COMMANDS]
        is_right = came[0] == came[1] and came[0][1] in (0, OUT_OF_TURNS) and wanted in (None, came[0]) and (last is None or stream.last(came[0][0]) == last)
        self.passed += is_right
        self.failed += not is_right
        if not is_right:
            print(f"{stream.name}, {told}: the script\n{script.decode()}" + "".join(f"{command}: {it}\n" for command, it in zip(COMMANDS, came)) + f"wanted {wanted or last}", flush=True)
        return came[0]

    def turns(self, stream, told, **given):
        """N turns for each N until they are enough."""
        for n in range(100_000):
            if self.compare(stream, f"{n} turns, {told}", stream.script(turns=n, **given))[1] != OUT_OF_TURNS:
                return

    def stream(self, stream):
        (self.folder / "f.wuffs").write_text(stream.text)
        (told, script, _), *others = stream.scripts()
        last = stream.last(self.compare(stream, told, script, report(stream.package, [stream.text], script))[0])
        for told, script, is_alike in others:
            self.compare(stream, told, script, last=last if is_alike else None)
        self.turns(stream, "uncut", begin=stream.begin())
        if stream.input:
            self.turns(stream, "cut", cut=len(stream.input) // 2, begin=stream.begin())
            self.turns(stream, "byte by byte", cut=EACH, begin=stream.begin())


def main():
    only = (sys.argv[2:] + [""])[0]
    with tempfile.TemporaryDirectory() as at:
        runs = Runs(os.path.abspath(sys.argv[1]), pathlib.Path(at))
        for stream in streams():
            if only in stream.name:
                runs.stream(stream)
    print(f"cut_reports.py: {runs.passed} passed, {runs.failed} failed")
    return 1 if runs.failed or not runs.passed else 0


if __name__ == "__main__":
    sys.exit(main())
