#!/usr/bin/env python3
"""The host programs of examples/, each built by the line in its head, on files that this test makes.

usage: example_hosts.py PROGRAM
The line is pasted into a shell in a copy of examples/, beside which PROGRAM stands as wuffsc: once with gcc as `cc`, once with clang;
a compiler that isn't there is skipped. It has to build without a remark. docs/EMBEDDING.md has to show the same line, a loop that
is that of packbits_main.c, and the declarations of two packages, of which with the lines under them a program is made here. What a host
writes and how it ends is compared with what Python makes of the same file: of files that are longer than the host's buffers, so that
the package stops and goes on, of files that break off, of files with an error, and of files and outputs that fail.
"""
import pathlib
import random
import re
import shutil
import subprocess
import sys
import tempfile
import textwrap
import zlib

TOP = pathlib.Path(__file__).resolve().parent.parent
EXAMPLES = TOP / "examples"
COMPILERS = ("gcc", "clang")
FAILED = 1


def adler32(data):
    """What adler32_main.c writes, what it says of the file, and its exit status. It refuses nothing."""
    return f"{zlib.adler32(data):08x}\n".encode(), None, 0


def packbits(data):
    out, at = bytearray(), 0
    while at < len(data):
        n = data[at]
        at += 1
        if n < 128:
            out += data[at:at + n + 1]
            at += n + 1
        elif n > 128:
            out += data[at:at + 1] * (257 - n)
            at += 1
    if at > len(data):
        return bytes(out), "#packbits: cut in the middle", FAILED
    return bytes(out), None, 0


def farbfeld(data):
    if len(data) < 8:
        return b"", "$base: short read", FAILED
    if data[:8] != b"farbfeld":
        return b"", "#farbfeld: bad header", FAILED
    if len(data) < 16:
        return b"", "$base: short read", FAILED
    width, height = int.from_bytes(data[8:12], "big"), int.from_bytes(data[12:16], "big")
    if width * height > 0xFFFFFFFF:
        return b"", "#farbfeld: too many pixels", FAILED
    out = [f"{width} x {height}\n"]
    for i in range(min(width * height, (len(data) - 16) // 8)):
        red, green, blue, opacity = data[16 + 8 * i:24 + 8 * i:2]
        # A number from 0 to 4 * 255 * 255, in ten steps.
        out.append(" .:-=+*#%@"[(red + 2 * green + blue) * opacity // 26011])
        if (i + 1) % width == 0:
            out.append("\n")
    whole = len(data) - 16 >= 8 * width * height
    return "".join(out).encode(), None if whole else "$base: short read", 0 if whole else FAILED


def any_bytes(source, n):
    return source.getrandbits(8 * n).to_bytes(n, "big") if n else b""


def packed(source, pieces):
    """A PackBits file: bytes that stand for themselves, runs, and now and then a byte that is nothing."""
    out = bytearray()
    for _ in range(pieces):
        n = source.randrange(256)
        out.append(n)
        if n != 128:
            out += any_bytes(source, n + 1 if n < 128 else 1)
    return bytes(out)


def image(source, width, height):
    """A farbfeld image: opaque, half opaque and any pixels."""
    out = bytearray(b"farbfeld" + width.to_bytes(4, "big") + height.to_bytes(4, "big"))
    for _ in range(width * height):
        out += any_bytes(source, 6) + source.choice((b"\xff\xff", b"\x80\x00", any_bytes(source, 2)))
    return bytes(out)


def files(source):
    """The files for each host: a name, and the bytes."""
    stream, runs, pixels = any_bytes(source, 20011), packed(source, 500), image(source, 61, 47)
    assert min(map(len, (stream, runs, pixels))) > 4 * 4096 and len(packbits(runs)[0]) > 4 * 4096
    white = b"farbfeld" + bytes([0, 0, 0, 3, 0, 0, 0, 1]) + b"\xff" * 24
    yield "adler32", [("long", stream), ("cut", stream[:10007]), ("empty", b""), ("a buffer", stream[:4096]), ("a buffer and a byte", stream[:4097])]
    yield "packbits", [("long", runs), *((f"cut at {n}", runs[:n]) for n in (1, 4095, 4096, 4097, 10007)), ("empty", b""),
                       ("nothing", b"\x80" * 5000), ("runs of one byte each", b"\x81a" * 4096), ("cut before a run's byte", b"\x00a" * 3000 + b"\x81"),
                       ("cut before bytes", b"\x00a" * 3000 + b"\x7f"), ("cut after a byte that is nothing", b"\x00a" * 3000 + b"\x80")]
    yield "farbfeld", [("long", pixels), *((f"cut at {n}", pixels[:n]) for n in (0, 7, 8, 15, 16, 17, 512, 4096, 10007)), ("more than the image", pixels + stream),
                       ("white", white), ("no image", stream), ("header", pixels[:7] + b"D" + pixels[8:]), ("no pixels", b"farbfeld" + bytes(8)),
                       ("too many pixels", b"farbfeld" + b"\x00\x01\x00\x00" * 2 + stream)]


def written(source):
    """A host, and a file of which it has something to write: less than its output keeps, and more."""
    yield "adler32", any_bytes(source, 5000)
    yield from (("packbits", b"\x81a" * pieces) for pieces in (2, 4096))
    yield from (("farbfeld", image(source, 79, height)) for height in (2, 200))


def line_of(name):
    """The line in the head of the host that builds it."""
    head = (EXAMPLES / f"{name}_main.c").read_text().partition("*/")[0]
    return re.search(r"^ {5}(\S.*)$", head, re.M)[1]


def blocks(heading):
    """The blocks of C in a section of docs/EMBEDDING.md."""
    section = (TOP / "docs" / "EMBEDDING.md").read_text().partition(f"## {heading}\n")[2].partition("\n## ")[0]
    return re.findall(r"^```c\n(.*?)^```$", section, re.M | re.S) or [section]


def shows():
    """Whether what docs/EMBEDDING.md shows of a loop stands in packbits_main.c: each block, function by function."""
    host = (EXAMPLES / "packbits_main.c").read_text()
    for part in [part.rstrip("\n") for block in blocks("A loop that feeds pieces") for part in block.split("\n\n")]:
        there = any(f"\n{textwrap.indent(part, by)}\n" in host for by in ("", "  "))
        yield None if there else f"docs/EMBEDDING.md shows what isn't in packbits_main.c:\n{part}"


def build(program, compiler, folder):
    """Builds all hosts in a copy of examples/ by their lines; yields what is wrong with each."""
    shutil.copytree(EXAMPLES, folder / "examples", ignore=shutil.ignore_patterns("limits"))
    (folder / "wuffsc").symlink_to(program)
    (folder / "bin").mkdir()
    (folder / "bin" / "cc").symlink_to(shutil.which(compiler))
    shown = (TOP / "docs" / "EMBEDDING.md").read_text().splitlines()
    for name in HOSTS:
        line = line_of(name)
        for made in (name, f"{name}.c"):
            (folder / "examples" / made).unlink(missing_ok=True)
        yield None if line in shown else f"{name}: docs/EMBEDDING.md has no line {line}"
        ran = subprocess.run(["sh", "-c", f'PATH="$PWD/../bin:$PATH"\n{line}'], cwd=folder / "examples", capture_output=True, text=True, timeout=60)
        fine = not ran.returncode and not ran.stdout + ran.stderr
        yield None if fine else f"{name}: {line}: status {ran.returncode}, {ran.stdout}{ran.stderr}"


def fault(host, words, want, **given):
    """What is wrong with a run, or None. What it writes is compared where that isn't given away."""
    given = {"stdin": subprocess.DEVNULL, "stdout": subprocess.PIPE, "stderr": subprocess.PIPE, "timeout": 20, **given}
    try:
        ran = subprocess.run([host, *words], cwd=host.parent, **given)
    except subprocess.TimeoutExpired:
        return f"{' '.join([host.name, *words])}: doesn't end"
    came = (ran.stdout or b"", ran.stderr.decode(), ran.returncode)
    return None if came == want else f"{' '.join([host.name, *words])}: want {cut(want)}, got {cut(came)}"


def cut(answer):
    out, said, status = answer
    return f"{len(out)} bytes with {out[-40:]!r} last, {said!r}, status {status}"


def runs(folder):
    """Runs the hosts; yields what is wrong with each run."""
    for name, given in files(random.Random(20261130)):
        host = folder / "examples" / name
        for what, data in given:
            at = folder / "examples" / f"{what}.data"
            at.write_bytes(data)
            out, said, status = HOSTS[name](data)
            yield fault(host, [at.name], (out, f"{at.name}: {said}\n" if said else "", status))
        yield fault(host, ["none.data"], (b"", "none.data: No such file or directory\n", FAILED))
        yield fault(host, [], (b"", f"usage: {name} FILE{' > UNPACKED' if name == 'packbits' else ''}\n", 2))
        yield fault(host, ["."], (b"", f"{name if name == 'packbits' else '.'}: Is a directory\n", FAILED))
    for name, data in written(random.Random(20261130)):
        host = folder / "examples" / name
        (host.parent / "written.data").write_bytes(data)
        with open("/dev/full", "wb") as full:
            yield fault(host, ["written.data"], (b"", f"{name}: No space left on device\n", FAILED), stdout=full)


def declared(folder):
    """Whether the declarations that docs/EMBEDDING.md shows of two packages are those of their texts, all that others can see of them."""
    wanted, texts = [], [(folder / "examples" / f"{name}.c").read_text() for name in ("adler32", "packbits")]
    for text in texts:
        wanted += [struct for struct in re.findall(r"^typedef struct \{\n(?: .*\n)+\} \w+;$", text, re.M) if struct not in wanted]
        wanted += [f"{head};" for head in re.findall(r"^(?!static|typedef)(\w.*\)) \{$", text, re.M)]
    shown = re.sub(r"^/\*.*\*/\n|^\n", "", blocks("Two packages in one program")[0], flags=re.M)
    yield None if shown == "\n".join(wanted) + "\n" else f"docs/EMBEDDING.md doesn't declare what stands in the texts:\n{shown}"


def together(folder):
    """Builds a program of two packages and of what docs/EMBEDDING.md shows of it; yields what is wrong with it and with its runs."""
    yield from declared(folder)
    declarations, loop = blocks("Two packages in one program")
    (folder / "examples" / "two_main.c").write_text(TWO.replace("DECLARATIONS", declarations).replace("LOOP", loop))
    words = ["../bin/cc", "-std=c99", "-O2", "-Wall", "-Wextra", "-o", "two", "two_main.c", "adler32.c", "packbits.c"]
    ran = subprocess.run(words, cwd=folder / "examples", capture_output=True, text=True, timeout=60)
    yield f"two packages: status {ran.returncode}, {ran.stdout}{ran.stderr}" if ran.returncode or ran.stdout + ran.stderr else None
    whole = packed(random.Random(20261130), 200)
    for data in (whole, whole[:5000], whole + b"\x81", b""):
        (folder / "examples" / "two.data").write_bytes(data)
        out, said, _ = packbits(data)
        yield fault(folder / "examples" / "two", ["two.data"], (f"{zlib.adler32(out):08x} {said or 'ok'}\n".encode(), "", 0))


TWO = """\
#include <stddef.h>
#include <stdint.h>
#include <stdio.h>
#include <string.h>
DECLARATIONS
int main(int argc, char** argv) {
  static uint8_t packed[1 << 16], unpacked[100];
  wuffs_base__io_buffer src = {0}, between = {0};
  wuffs_packbits__unpacker unpacker;
  wuffs_adler32__hasher hasher;
  const char* status;
  int more;
  FILE* file = argc == 2 ? fopen(argv[1], "rb") : 0;
  if (!file) {
    return 2;
  }
  src.ptr = packed;
  src.len = sizeof(packed);
  src.wi = fread(packed, 1, sizeof(packed), file);
  src.closed = 1;
  fclose(file);
  between.ptr = unpacked;
  between.len = sizeof(unpacked);
  wuffs_packbits__unpacker__initialize(&unpacker);
  wuffs_adler32__hasher__initialize(&hasher);
LOOP
  printf("%08lx %s\\n", (unsigned long)wuffs_adler32__hasher__value(&hasher), status ? status : "ok");
  return 0;
}
"""
HOSTS = {"adler32": adler32, "packbits": packbits, "farbfeld": farbfeld}


def main():
    if len(sys.argv) != 2:
        sys.exit(__doc__)
    program = pathlib.Path(sys.argv[1]).resolve()
    there = [compiler for compiler in COMPILERS if shutil.which(compiler)]
    if not there:
        print("there is neither gcc nor clang, so the hosts of examples/ weren't built")
        return 0
    if any(path.name[:-7] not in HOSTS for path in EXAMPLES.glob("*_main.c")):
        print("examples/ has a host that this test doesn't know")
        return 1
    passed = failed = 0
    told = {"documents": list(shows())}
    for compiler in there:
        with tempfile.TemporaryDirectory() as at:
            folder = pathlib.Path(at)
            faults = list(build(program, compiler, folder))
            told[compiler] = faults + ([] if any(faults) else [*runs(folder), *together(folder)])
    for who, faults in told.items():
        for wrong in faults:
            if wrong is None:
                passed += 1
            else:
                failed += 1
                print(f"{who}: {wrong}")
    print(f"example_hosts: {passed} passed, {failed} failed")
    return 1 if failed else 0


if __name__ == "__main__":
    sys.exit(main())
