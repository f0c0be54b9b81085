"""Small packages and what `check` says of each: what reading_answers.py, name_answers.py and type_answers.py share.

Each package is one file n.wuffs of package n: a text in which a bar with blanks round it ends a line, or bytes as they
stand. An answer is a rule with its
line and column, or `ok` where the package is accepted, with the number of its methods. It is `read` where no rule of reading
is broken: then the package is accepted, or refused by a rule of what comes after reading.
"""
import os
import pathlib
import re
import subprocess
import sys
import tempfile


def lines_of(text):
    return text.split(" | ")


def wanted_line(text, right):
    if right == "ok":
        lines = [] if isinstance(text, bytes) else lines_of(text)
        return f"ok {sum(line[4:].startswith('func ') for line in lines)} methods\n"
    rule, place = right.split(" ")
    return f"refused {rule} n.wuffs:{place}\n"


def is_read(line):
    """Whether a line tells that a package was read."""
    return re.fullmatch(r"ok [0-9]+ methods\n|refused ([NTE][0-9]|B[0-9]+|L[6789]) n\.wuffs:[0-9]+:[0-9]+\n", line) is not None


def is_right(came, text, right):
    line, status = came
    wanted = is_read(line) if right == "read" else line == wanted_line(text, right)
    return wanted and status == int(line.startswith("refused"))


def run(program, text):
    data = text if isinstance(text, bytes) else ("\n".join(lines_of(text)) + "\n").encode()
    with tempfile.TemporaryDirectory() as folder:
        pathlib.Path(folder, "n.wuffs").write_bytes(data)
        ended = subprocess.run([program, "check", "n", "n.wuffs"], cwd=folder, stdin=subprocess.DEVNULL, capture_output=True, timeout=60)
        return ended.stdout.decode(errors="replace"), ended.returncode


def answer_all(packages, more=None):
    """Runs the program that the command line names on each package (name, text, answer), and ends with the count.

    Where all packages are asked for, `more` of the program tells how many answers besides passed and failed.
    """
    program = os.path.abspath(sys.argv[1])
    wanted = sys.argv[2] if len(sys.argv) > 2 else ""
    passed = failed = 0
    for name, text, right in packages:
        if wanted not in name:
            continue
        came = run(program, text)
        if is_right(came, text, right):
            passed += 1
        else:
            failed += 1
            print(f"{name}:\n  wanted {right!r}\n  came   {came!r}")
    if more and not wanted:
        besides = more(program)
        passed, failed = passed + besides[0], failed + besides[1]
    print(f"{os.path.basename(sys.argv[0])}: {passed} passed, {failed} failed")
    sys.exit(failed != 0 or passed == 0)
