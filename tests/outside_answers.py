#!/usr/bin/env python3
"""Odd files and odd outputs: what the built program reads of them, writes, and ends with.

usage: outside_answers.py PROGRAM [NAME]    only the tests whose name has NAME in it
Each test has a folder of its own with the files of FILES. Prints what differs; the last line counts.
"""
import itertools
import os
import resource
import subprocess
import sys
import tempfile
import threading

from exec_answers import ITEMS, LINES

BAD = b"pri const X : base.u8 = 256\n"
REFUSED = b"refused T5 %s:1:25\n"
USAGE = b"usage: wuffsc COMMAND PKG [SCRIPT] FILE\n"
# A C text by hand of the package in good, whose method answers another number.
TEXT = LINES + ITEMS["buffer"] + """ typedef struct { uint8_t x; } wuffs_t__g;
const char* wuffs_t__g__initialize(wuffs_t__g* self) { return 0; }
uint8_t wuffs_t__g__f(wuffs_t__g* self) { return (9 + self->x); }
"""
FILES = {
    "bad.wuffs": BAD,
    "good": b"pub struct g()\npub func g.f() base.u8 {\n    return 7\n}\n",
    "many": b"pub struct g()\n" + b"".join(b"pub func g.f%d() {\n}\n" % number for number in range(40)),
    "large": b" " * 1048577,
    "s": b"new p g\ninit p\ncall p.f\n",
    "frob": b"frob\n",
    "few": b"turns 0\nnew p g\ninit p\ncall p.f\n",
    "long": b"buf b 5000\nput b " + b"5a" * 5000 + b"\nshow b\n",
    "t.c": TEXT.encode(),
    "x.c": b"x",
    "u.c": TEXT.replace("9 +", "9 /").encode(),
}
REPORT = b"new p\ninit p ok\ncall p.f %d\n"
# The commands, with what stands between the package's name and its files, and what is written of the package in good.
COMMANDS = {"check": ([], b"ok 1 methods\n"), "gen": ([], None), "run": (["s"], REPORT % 7), "mean": (["s"], REPORT % 7), "exec": (["s", "t.c"], REPORT % 9)}


def ended(program, words, **how):
    """What is written for these words, and how the program ends."""
    how = {"stdout": subprocess.PIPE, **how}
    came = subprocess.run([program, *words], stdin=subprocess.DEVNULL, stderr=subprocess.PIPE, timeout=60, **how)
    return came.stdout, came.returncode, came.stderr


def run(program, *words, **how):
    """That of `check t` and these words."""
    return ended(program, ["check", "t", *words], **how)


def answers(program, table):
    """That of the words of each row of a table, and what is wanted."""
    return [(words, *ended(program, words.split(" "))) for words, *_ in table], [(words, text, status, b"") for words, text, status in table]


def pipe_in_pieces(program):
    """A pipe that gives its bytes one at a time is read to its end."""
    os.mkfifo("pipe")

    def feed():
        with open("pipe", "wb", buffering=0) as pipe:
            for byte in BAD:
                pipe.write(bytes([byte]))

    feeder = threading.Thread(target=feed)
    feeder.start()
    came = run(program, "pipe")
    feeder.join()
    return came, (REFUSED % b"pipe", 1, b"")


def large_pipe(program):
    """A pipe that gives a byte more than a package may have."""
    os.mkfifo("pipe")

    def feed():
        try:
            with open("pipe", "wb") as pipe:
                pipe.write(b" " * 2_000_000)
        except BrokenPipeError:
            pass

    feeder = threading.Thread(target=feed)
    feeder.start()
    came = run(program, "pipe")
    feeder.join()
    return came, (b"refused L1 pipe:1:1\n", 1, b"")


def fails_when_read(program):
    """A file that is opened, but fails when it is read."""
    return run(program, "/proc/self/mem"), (b"input fault /proc/self/mem\n", 3, b"")


def endless_file(program):
    return run(program, "/dev/zero"), (b"refused L1 /dev/zero:1:1\n", 1, b"")


def unreadable_file(program):
    """Who may read every file runs the program as nobody, where nobody may run it."""
    os.chmod("bad.wuffs", 0)
    os.chmod(".", 0o755)
    how = {"user": 65534} if os.access("bad.wuffs", os.R_OK) else {}
    try:
        return run(program, "bad.wuffs", **how), (b"input fault bad.wuffs\n", 3, b"")
    except PermissionError:
        return None


def folder_as_file(program):
    return run(program, "."), (b"input fault .\n", 3, b"")


def link_to_itself(program):
    os.symlink("loop", "loop")
    return run(program, "loop"), (b"input fault loop\n", 3, b"")


def link_to_a_file(program):
    os.symlink("bad.wuffs", "link")
    return run(program, "link"), (REFUSED % b"link", 1, b"")


def empty_name(program):
    return run(program, ""), (b"input fault \n", 3, b"")


def long_name(program):
    name = "a/" * 3000
    return run(program, name), (b"input fault %s\n" % name.encode(), 3, b"")


def names_of_every_kind(program):
    """Relative and absolute names, names with `..`, blanks, line feeds and letters beyond ASCII are printed as they are given."""
    os.mkdir("below")
    names = ["./bad.wuffs", "below/../bad.wuffs", os.path.abspath("bad.wuffs"), "a name", "two\nlines", "größe", "-", "--help", "a=b"]
    for name in names[3:]:
        with open(name, "wb") as file:
            file.write(BAD)
    came = [run(program, name) for name in names]
    return came, [(REFUSED % name.encode(), 1, b"") for name in names]


def name_that_is_no_text(program):
    with open(b"\xff", "wb") as file:
        file.write(BAD)
    return run(program, b"\xff"), (USAGE, 2, b"")


def input_that_is_not_there(program):
    """Each input of each command, missing alone."""
    table = []
    for command, (others, _) in COMMANDS.items():
        for missing in [*others, "good"]:
            words = " ".join(f"no-{word}" if word == missing else word for word in [*others, "good"])
            table.append((f"{command} t {words}", b"input fault no-%s\n" % missing.encode(), 3))
    return answers(program, table)


def inputs_in_order(program):
    """Files in the order of the words, then the script, then the text: the first that fails is told, or with which files have too
    many bytes. Before them comes the number of files; after them the package's verdict, the script's and the text's."""
    return answers(program, [
        ("gen t good no-a no-b", b"input fault no-a\n", 3),
        ("run t no-s no-a no-b", b"input fault no-a\n", 3),
        ("mean t no-s good no-b", b"input fault no-b\n", 3),
        ("exec t no-s no-t good no-b", b"input fault no-b\n", 3),
        ("exec t no-s no-t good", b"input fault no-s\n", 3),
        ("run t no-s bad.wuffs", b"input fault no-s\n", 3),
        ("mean t no-s bad.wuffs", b"input fault no-s\n", 3),
        ("exec t s no-t bad.wuffs", b"input fault no-t\n", 3),
        ("exec t frob no-t good", b"input fault no-t\n", 3),
        ("exec t large no-t good", b"input fault no-t\n", 3),
        ("gen t large no-a", b"refused L1 large:1:1\n", 1),
        ("run t no-s good large no-b", b"refused L1 large:1:1\n", 1),
        ("mean t no-s no-a large", b"input fault no-a\n", 3),
        ("exec t no-s no-t large", b"refused L1 large:1:1\n", 1),
        ("run t no-s " + " ".join(f"f{number}" for number in range(17)), b"refused L2 f16:1:1\n", 1),
        ("exec t no-s no-t " + " ".join(f"f{number}" for number in range(17)), b"refused L2 f16:1:1\n", 1),
        ("run t frob bad.wuffs", REFUSED % b"bad.wuffs", 1),
        ("mean t large bad.wuffs", REFUSED % b"bad.wuffs", 1),
        ("exec t large large bad.wuffs", REFUSED % b"bad.wuffs", 1),
        ("run t large good", b"script X4 line 1\n", 5),
        ("exec t large large good", b"script X4 line 1\n", 5),
        ("exec t s large good", b"text long\n", 8),
    ])


def odd_scripts_and_texts(program):
    """A folder, a file that fails when it is read, a file without end, and nothing at all, as a script or a text."""
    return answers(program, [
        ("run t . good", b"input fault .\n", 3),
        ("mean t /proc/self/mem good", b"input fault /proc/self/mem\n", 3),
        ("exec t . t.c good", b"input fault .\n", 3),
        ("exec t s /proc/self/mem good", b"input fault /proc/self/mem\n", 3),
        ("run t /dev/zero good", b"script X4 line 1\n", 5),
        ("exec t s /dev/zero good", b"text long\n", 8),
        ("mean t /dev/null good", b"", 0),
        ("exec t /dev/null t.c good", b"", 0),
        ("exec t s /dev/null good", b"text notc 0\n", 8),
        ("gen t /dev/zero", b"refused L1 /dev/zero:1:1\n", 1),
    ])


def unreadable_scripts_and_texts(program):
    """As unreadable_file."""
    for name in ("s", "t.c"):
        os.chmod(name, 0)
    with open("r", "wb") as file:
        file.write(FILES["s"])
    os.chmod(".", 0o755)
    how = {"user": 65534} if os.access("s", os.R_OK) else {}
    try:
        came = [ended(program, words.split(" "), **how) for words in ("run t s good", "mean t s good", "exec t s t.c good", "exec t r t.c good")]
    except PermissionError:
        return None
    return came, [(b"input fault %s\n" % name, 3, b"") for name in (b"s", b"s", b"s", b"t.c")]


def every_answer():
    """Words for each command and each kind of answer, and answers of more bytes than are written at once."""
    yield ["gen", "t", "many"]
    for command, (others, _) in COMMANDS.items():
        for files in ("good", "bad.wuffs", "no-a", "large"):
            yield [command, "t", *others, files]
    for command in ("run", "mean"):
        yield from ([command, "t", script, "good"] for script in ("frob", "few", "long", "no-s"))
    yield from (["exec", "t", *others, "good"] for others in (["frob", "t.c"], ["long", "t.c"], ["s", "x.c"], ["s", "u.c"], ["s", "large"], ["s", "no-t"]))


def full_output(program):
    with open("/dev/full", "wb") as full:
        came = [(words, ended(program, words, stdout=full)[1]) for words in every_answer()]
    return came, [(words, 4) for words, _ in came]


def output_that_is_cut(program):
    """A file that may have so many bytes and no more: each beginning of an answer is written, and nothing else. Of a report every
    number of bytes is tried, of other answers some."""
    came, wanted = [], []
    for words in every_answer():
        whole, status, _ = ended(program, words)
        step = 1 if words[-1] == "good" and whole.startswith(b"new") else 1 + len(whole) // 4
        for room in [*range(0, len(whole), step), len(whole)]:
            with open("out", "wb") as file:
                how = {"preexec_fn": lambda: resource.setrlimit(resource.RLIMIT_FSIZE, (room, room)), "restore_signals": False}
                came.append((words, room, ended(program, words, stdout=file, **how)[1:], file_bytes("out")))
            wanted.append((words, room, (status if room == len(whole) else 4, b""), whole[:room]))
    differ = [pair for pair in zip(came, wanted) if pair[0] != pair[1]]
    return [pair[0] for pair in differ], [pair[1] for pair in differ]


def pipe_that_nobody_reads(program):
    """The other end of the output was closed before anything is written, whether or not the caller ignores SIGPIPE."""
    reader, writer = os.pipe()
    os.close(reader)
    cases = [(words, restored) for words, restored in itertools.product(every_answer(), (False, True))]
    came = [(*case, ended(program, case[0], stdout=writer, restore_signals=case[1])[1]) for case in cases]
    os.close(writer)
    return came, [(*case, 4) for case in cases]


def no_output_at_all(program):
    """Standard output is closed when the program starts."""
    came = [(words, ended("sh", ["-c", 'exec "$0" "$@" >&-', program, *words])[1]) for words in every_answer()]
    return came, [(words, 4) for words, _ in came]


def file_bytes(name):
    with open(name, "rb") as file:
        return file.read()


def output_to_a_file(program):
    """What goes to a file is what goes to a pipe, by each command."""
    came, wanted = [], [(REFUSED % b"bad.wuffs", 1)]
    with open("out", "wb") as file:
        status = run(program, "bad.wuffs", stdout=file)[1]
    came.append((file_bytes("out"), status))
    for command, (others, text) in COMMANDS.items():
        words = [command, "t", *others, "good"]
        with open("out", "wb") as file:
            status = ended(program, words, stdout=file)[1]
        came.append((file_bytes("out"), status))
        wanted.append((ended(program, words)[0] if text is None else text, 0))
    return came, wanted


TESTS = [
    pipe_in_pieces, large_pipe, fails_when_read, endless_file, unreadable_file, folder_as_file, link_to_itself, link_to_a_file, empty_name, long_name,
    names_of_every_kind, name_that_is_no_text, input_that_is_not_there, inputs_in_order, odd_scripts_and_texts, unreadable_scripts_and_texts,
    full_output, output_that_is_cut, pipe_that_nobody_reads, no_output_at_all, output_to_a_file,
]


def main():
    program = os.path.abspath(sys.argv[1])
    wanted = sys.argv[2] if len(sys.argv) > 2 else ""
    passed = failed = 0
    home = os.getcwd()
    for test in TESTS:
        name = test.__name__.replace("_", " ")
        if wanted not in name:
            continue
        with tempfile.TemporaryDirectory() as folder:
            os.chdir(folder)
            for made, data in FILES.items():
                with open(made, "wb") as file:
                    file.write(data)
            answer = test(program)
            os.chdir(home)
        if answer is None:
            print(f"{name}: not tried, since nobody may not run the program")
        elif answer[0] == answer[1]:
            passed += 1
        else:
            failed += 1
            print(f"{name}:\n  wanted {answer[1]!r}\n  came   {answer[0]!r}")
    print(f"outside_answers.py: {passed} passed, {failed} failed")
    return failed > 0 or passed == 0


if __name__ == "__main__":
    sys.exit(main())
