#!/usr/bin/env python3
"""Refuses each allocation of a command once: nothing may be written, and the exit status has to be that of want of memory. A refusal
after which the library asks again may leave the answer as it is. Without gcc it tells so, and ends with 0.

usage: memory_refusals.py PROGRAM [PACKAGE [COMMAND [FROM TO]]]    both packages, their commands and all allocations are the default
The packages are examples/parser, for each command, and SHELF, which has what that one lacks, for gen and run. A small library, which gcc makes
and the loader puts before the C library, counts the calls of malloc and realloc: it lets the one of a number fail, alone, and in a second
run with all that come after it. Prints what differs, and the refusals that changed nothing; the last line counts.
"""
import os
import pathlib
import shutil
import subprocess
import sys
import tempfile

ROOT = pathlib.Path(__file__).resolve().parent.parent
NO_MEMORY = 6
COMMANDS = {
    "check": ["f.wuffs"],
    "gen": ["f.wuffs"],
    "mean": ["s", "f.wuffs"],
    "run": ["s", "f.wuffs"],
    "exec": ["s", "f.c", "f.wuffs"],
}

# A struct inside another, a saturating operator and a copy, and a script.
SHELF = ("""\
pri struct jar!(
    grams : base.u8,
)
pub func jar.add!(grams: base.u8) {
    this.grams = this.grams ~sat+ args.grams
}
pub struct shelf!(
    front : jar,
    label : array[3] base.u8,
)
pub func shelf.fill!(grams: base.u8, label: slice base.u8) base.u64 {
    var n : base.u64
    var t : slice base.u8
    this.front.add!(grams: args.grams)
    t = this.label[..]
    n = t.copy_from_slice!(s: args.label)
    return n
}
""", """\
new s shelf
init s
bytes b 01020304
call s.fill grams=200 label=b
call s.fill grams=100 label=null
""")

REFUSING = r"""
#include <stdio.h>
#include <stdlib.h>
#include <string.h>
#include <unistd.h>
extern void* __libc_malloc(size_t);
extern void* __libc_realloc(void*, size_t);
static unsigned long first, count;
static int onwards;
__attribute__((constructor)) static void begin(void) {
  const char* word = getenv("REFUSED_FROM");
  onwards = getenv("REFUSED_ON") != 0;
  first = word ? strtoul(word, 0, 10) : 0;
  count = 0;
}
__attribute__((destructor)) static void end(void) {
  char line[64];
  if (getenv("REFUSED_COUNT")) {
    write(2, line, snprintf(line, sizeof line, "%lu\n", count));
  }
}
static int refused(void) {
  count++;
  return first && (count == first || (onwards && count > first));
}
void* malloc(size_t n) { return refused() ? 0 : __libc_malloc(n); }
void* realloc(void* p, size_t n) { return refused() ? 0 : __libc_realloc(p, n); }
"""


def packages():
    """Names, texts, scripts and commands."""
    parser = [(ROOT / "examples" / f"parser.{suffix}").read_text() for suffix in ("wuffs", "script")]
    return {"parser": (*parser, list(COMMANDS)), "shelf": (*SHELF, ["gen", "run"])}


class Runs:
    """Runs the program on a package, under the library, in a folder."""

    def __init__(self, program, folder, package, text, script):
        self.program, self.folder, self.package = program, folder, package
        for name, what in (("f.wuffs", text), ("s", script), ("refusing.c", REFUSING)):
            (folder / name).write_text(what)
        subprocess.run(["gcc", "-O1", "-shared", "-fPIC", "-o", "refusing.so", "refusing.c"], cwd=folder, check=True)
        (folder / "f.c").write_bytes(self.ended("gen").stdout)

    def ended(self, command, **words):
        given = {**os.environ, "LD_PRELOAD": str(self.folder / "refusing.so"), **words}
        return subprocess.run([self.program, command, self.package, *COMMANDS[command]], cwd=self.folder, env=given, stdin=subprocess.DEVNULL, capture_output=True, timeout=60)

    def refused(self, command, first=1, last=None):
        """Refuses the allocations of a command; answers how many runs were right, and how many weren't."""
        whole, name = self.ended(command, REFUSED_COUNT="1"), f"{self.package} {command}"
        if whole.returncode:
            sys.exit(f"{name} ends with {whole.returncode}")
        count, right, wrong = int(whole.stderr), 0, 0
        last = min(last or count, count)
        for number in range(first, last + 1):
            for on in ({}, {"REFUSED_ON": "1"}):
                ended = self.ended(command, REFUSED_FROM=str(number), **on)
                came = ended.returncode, ended.stdout, ended.stderr
                is_same = not on and came == (0, whole.stdout, b"")
                is_right = is_same or came == (NO_MEMORY, b"", b"")
                right += is_right
                wrong += not is_right
                if is_same:
                    print(f"{name}: the refusal of allocation {number} alone changed nothing")
                elif not is_right:
                    print(f"{name}: allocation {number}{' and all after it' if on else ''}: {came[0]} {came[1][:200]} {came[2][:200]}", flush=True)
        print(f"{name}: {count} allocations, of which {first} to {last} were refused: {right} right answers", flush=True)
        return right, wrong


def main():
    words = sys.argv[2:]
    if not shutil.which("gcc"):
        print("there is no gcc, so no allocation was refused")
        return 0
    passed = failed = 0
    for package, (text, script, commands) in packages().items():
        if words and package != words[0]:
            continue
        with tempfile.TemporaryDirectory() as at:
            runs = Runs(os.path.abspath(sys.argv[1]), pathlib.Path(at), package, text, script)
            for command in words[1:2] or commands:
                right, wrong = runs.refused(command, *(int(word) for word in words[2:4]))
                passed += right
                failed += wrong
    print(f"memory_refusals.py: {passed} passed, {failed} failed")
    return 1 if failed or not passed else 0


if __name__ == "__main__":
    sys.exit(main())
