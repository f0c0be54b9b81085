#!/usr/bin/env python3
"""rule_examples.py PROGRAM: what the documents show, through the built program: the examples of docs/RULES.md and docs/LANGUAGE.md
that are whole files, and what README.md and docs/LOWERING.md show of the package in examples/parser.wuffs.

A block that begins with ```wuffs refused RULE LINE:COL has to be refused so; under a rule's heading it is refused by that rule.
One that begins with ```wuffs passes has to be accepted. A line that begins with - [refused RULE LINE:COL](FILE) or - [passes](FILE)
tells the same of a file. The package, the script and the report that README.md shows have to be those of examples/ and of the
program. README.md's first command is run as it stands there, with PROGRAM in the place of ./wuffsc: it has to print the C text, whose
lines are as many as are told, and then the report. The C texts that it and LOWERING.md show have to be what `gen` writes, that of
LOWERING.md whole after the io buffer's struct.
"""
import pathlib
import re
import shlex
import subprocess
import sys
import tempfile

TOP = pathlib.Path(__file__).resolve().parent.parent
DOCS = TOP / "docs"
EXAMPLES = TOP / "examples"


def examples(page):
    """The examples of the page: line, rule of the section, the words that tell its answer, text."""
    section, block = None, None
    for number, line in enumerate(page.read_text().splitlines(), 1):
        heading = re.fullmatch(r"## ([A-Z]\d+)", line)
        linked = re.match(r"- \[((?:refused|passes)[^]]*)\]\(([^)]*\.wuffs)\)", line)
        if block is None and heading:
            section = heading.group(1)
        elif block is None and linked:
            yield number, section, linked[1].split(), (page.parent / linked[2]).read_text()
        elif block is None and line.startswith("```wuffs "):
            block = (number, section, line.split()[1:], [])
        elif block is not None and line == "```":
            yield block[0], block[1], block[2], "".join(line + "\n" for line in block[3])
            block = None
        elif block is not None:
            block[3].append(line)


def answer(program, text):
    with tempfile.TemporaryDirectory() as folder:
        pathlib.Path(folder, "demo.wuffs").write_text(text)
        ran = subprocess.run([program, "check", "demo", "demo.wuffs"], cwd=folder, capture_output=True, text=True, timeout=60)
    return ran.stdout.strip()


def fault(section, words, got):
    """What is wrong with an answer, or None."""
    if words and words[0] == "refused":
        if section and words[1] != section:
            return f"stands under {section}"
        want = f"refused {words[1]} demo.wuffs:{words[2]}"
        return None if got == want else f"want {want}, got {got}"
    if words == ["passes"]:
        fine = re.fullmatch(r"ok \d+ methods", got)
        return None if fine else f"want a package that passes, got {got}"
    return f"no such kind of example: {' '.join(words)}"


def shown(page, first):
    """The one block of the page that begins with these words."""
    blocks = re.findall(r"^```\w*\n(.*?)^```$", page.read_text(), re.M | re.S)
    found = [block for block in blocks if block.startswith(first)]
    return found[0] if len(found) == 1 else f"no one block begins with {first}"


def first_command(page):
    """The first line of the page that is indented and in no block."""
    return re.search(r"^    (\S.*)$", re.sub(r"^```.*?^```$", "", page.read_text(), flags=re.M | re.S), re.M)[1]


def pasted(program, line):
    """What a shell prints for a line of a document that calls ./wuffsc."""
    line = line.replace("./wuffsc", shlex.quote(program))
    return subprocess.run(["sh", "-c", line], cwd=TOP, capture_output=True, text=True, timeout=60).stdout


def prints(program, *words):
    return subprocess.run([program, *words], cwd=TOP, capture_output=True, text=True, timeout=60).stdout


def drifts(program):
    """What README.md and LOWERING.md show of the package in examples/parser.wuffs: each with whether it is so."""
    readme, lowering = TOP / "README.md", DOCS / "LOWERING.md"
    package, script = "examples/parser.wuffs", "examples/parser.script"
    text = prints(program, "gen", "demo", package)
    report = prints(program, "run", "demo", script, package)
    yield "README.md: the package isn't that of examples/", shown(readme, "pub status") == (EXAMPLES / "parser.wuffs").read_text()
    yield "README.md: the script isn't that of examples/", shown(readme, "new p parser") == (EXAMPLES / "parser.script").read_text()
    yield "README.md: the report isn't what run prints", shown(readme, "new p\n") == report == (EXAMPLES / "parser.report").read_text()
    yield "README.md: the first command doesn't print the C text and then the report", pasted(program, first_command(readme)) == text + report
    yield "README.md: the C text has another number of lines", f"The C text has {text.count(chr(10))} lines" in readme.read_text()
    yield "README.md: mean doesn't print the same report", prints(program, "mean", "demo", script, package) == report
    yield "README.md: the C text isn't what gen writes", "\n" + shown(readme, "static const char* body_parser__parse(") in text
    _, buffer, rest = text.partition("} wuffs_base__io_buffer;\n\n")
    yield "LOWERING.md: the C text isn't what gen writes after the io buffer's struct", bool(buffer) and shown(lowering, "typedef struct {") == rest


def main():
    if len(sys.argv) != 2:
        sys.exit(__doc__)
    program = str(pathlib.Path(sys.argv[1]).resolve())
    passed = failed = 0
    refused, passes = set(), set()
    for page in (DOCS / "RULES.md", DOCS / "LANGUAGE.md"):
        for line, section, words, text in examples(page):
            wrong = fault(section, words, answer(program, text))
            if section:
                (refused if words[:1] == ["refused"] else passes).add(section)
            if wrong is None:
                passed += 1
            else:
                failed += 1
                print(f"{page.name}:{line}: {wrong}")
    for what, is_so in drifts(program):
        if is_so:
            passed += 1
        else:
            failed += 1
            print(what)
    for rule in sorted(refused ^ passes):
        failed += 1
        print(f"{rule}: has no example that {'passes' if rule in refused else 'is refused'}")
    if not passed:
        failed += 1
        print("there is no example")
    print(f"rule_examples: {passed} passed, {failed} failed")
    sys.exit(1 if failed else 0)


if __name__ == "__main__":
    main()
