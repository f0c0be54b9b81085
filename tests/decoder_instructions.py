#!/usr/bin/env python3
"""How fast the C text of `gen` is: its instructions against those of a decoder that somebody wrote by hand, both compiled by
`gcc -O2` and counted by callgrind inside the calls alone.

usage: decoder_instructions.py PROGRAM [CC]

The packages are packbits.wuffs (a reader and a writer), rows.wuffs (slices) and lzw.wuffs (tables in its struct) of tests/decoders,
those by hand *_by_hand.c beside them. Both get the same bytes in the same pieces and have to give the
same output. Prints a line for each, with the factor, and ends with 1 where an output differs or a factor is above 1.25, and with 0
where gcc or valgrind is missing.
"""
import pathlib
import random
import re
import shutil
import subprocess
import sys
import tempfile

ROOT = pathlib.Path(__file__).resolve().parent.parent
MOST = 1.25

# What counts is what `run` takes: it isn't inlined, and stands in a file of its own.
STREAM = r"""
#include TEXT
#include <stdlib.h>
static RECEIVER receiver;
void begin(void) { INIT(&receiver); }
const char* run(wuffs_base__io_buffer* dst, wuffs_base__io_buffer* src) { return CALL(&receiver, dst, src); }
"""
STREAM_MAIN = r"""
#include <stdint.h>
#include <stdio.h>
#include <string.h>
typedef struct { uint8_t* ptr; size_t len; size_t wi; size_t ri; uint64_t pos; _Bool closed; } buffer;
void begin(void);
const char* run(buffer* dst, buffer* src);
static void compact(buffer* b) {
  memmove(b->ptr, b->ptr + b->ri, b->wi - b->ri);
  b->pos += b->ri;
  b->wi -= b->ri;
  b->ri = 0;
}
int main(void) {
  static uint8_t in[4096], out[4096];
  buffer src = { in, sizeof in, 0, 0, 0, 0 }, dst = { out, sizeof out, 0, 0, 0, 0 };
  const char* status;
  begin();
  do {
    status = run(&dst, &src);
    fwrite(dst.ptr + dst.ri, 1, dst.wi - dst.ri, stdout);
    dst.ri = dst.wi;
    compact(&dst);
    if (!src.closed) {
      compact(&src);
      src.wi += fread(src.ptr + src.wi, 1, src.len - src.wi, stdin);
      src.closed = src.wi < src.len;
    } else if (status && !strcmp(status, "$base: short read")) {
      break;
    }
  } while (status && status[0] == '$');
  printf("\n%s\n", status ? status : "ok");
  return 0;
}
"""
ROWS = r"""
#include TEXT
static RECEIVER receiver;
void begin(void) { INIT(&receiver); }
uint64_t run(uint8_t* row, uint8_t* above, size_t n) {
  return wuffs_rows__rows__up(&receiver, row, n, above, n) + wuffs_rows__rows__average(&receiver, row, n, above, n, 3);
}
"""
ROWS_MAIN = r"""
#include <stddef.h>
#include <stdint.h>
#include <stdio.h>
void begin(void);
uint64_t run(uint8_t* row, uint8_t* above, size_t n);
int main(void) {
  static uint8_t row[1000], above[1000];
  size_t n;
  begin();
  while ((n = fread(row, 1, sizeof row, stdin)) == sizeof row) {
    run(row, above, n);
    fwrite(row, 1, n, stdout);
    for (size_t i = 0; i < n; i++) { above[i] = row[i]; }
  }
  return 0;
}
"""


def packed(random_):
    """A PackBits stream of runs and literals."""
    pieces = []
    for _ in range(6000):
        if random_.random() < 0.5:
            n = random_.randint(1, 128)
            pieces.append(bytes([n - 1, *(random_.randrange(256) for _ in range(n))]))
        else:
            pieces.append(bytes([257 - random_.randint(2, 128), random_.randrange(256)]))
    return b"".join(pieces)


def coded(random_):
    """An LZW stream of a text with much in it that comes again."""
    words = [bytes(random_.randrange(97, 123) for _ in range(random_.randint(2, 9))) for _ in range(300)]
    text = b" ".join(random_.choice(words) for _ in range(40000))
    out, held, count, width, table = bytearray(), 0, 0, 9, {}

    def put(code):
        nonlocal held, count
        held |= code << count
        count += width
        while count >= 8:
            out.append(held & 255)
            held >>= 8
            count -= 8

    def clear():
        nonlocal table, width
        table, width = {bytes([i]): i for i in range(256)}, 9

    clear()
    put(256)
    front, following = b"", 258
    for at in range(len(text)):
        longer = front + text[at:at + 1]
        if longer in table:
            front = longer
            continue
        put(table[front])
        if following < 4096:
            table[longer] = following
            following += 1
            # The decoder has one entry less.
            if following - 1 == 1 << width and width < 12:
                width += 1
        else:
            put(256)
            clear()
            following = 258
        front = text[at:at + 1]
    put(table[front])
    put(257)
    put(0)
    return bytes(out)


def cases():
    random_ = random.Random(7)
    return [
        ("packbits", ROOT / "tests" / "decoders" / "packbits.wuffs", STREAM, STREAM_MAIN, "wuffs_packbits__unpacker", "unpack", packed(random_)),
        ("rows", ROOT / "tests" / "decoders" / "rows.wuffs", ROWS, ROWS_MAIN, "wuffs_rows__rows", "", random_.randbytes(200_000)),
        ("lzw", ROOT / "tests" / "decoders" / "lzw.wuffs", STREAM, STREAM_MAIN, "wuffs_lzw__lzw", "decode", coded(random_)),
    ]


def counted(folder, cc, text, wrapper, main, receiver, method, given):
    """The instructions inside the calls, and the output."""
    words = [cc, "-std=c99", "-O2", f'-DTEXT="{text}"', f"-DRECEIVER={receiver}", f"-DINIT={receiver}__initialize", f"-DCALL={receiver}__{method}"]
    (folder / "wrapper.c").write_text(wrapper)
    (folder / "main.c").write_text(main)
    subprocess.run([*words, "-c", "-o", folder / "wrapper.o", folder / "wrapper.c"], check=True)
    subprocess.run([cc, "-std=c99", "-O2", "-o", folder / "program", folder / "main.c", folder / "wrapper.o"], check=True)
    ran = subprocess.run(["valgrind", "--tool=callgrind", "--toggle-collect=run", f"--callgrind-out-file={folder}/out", folder / "program"],
                         input=given, capture_output=True, check=True)
    return int(re.search(rb"Collected : (\d+)", ran.stderr)[1]), ran.stdout


def main():
    program, cc = sys.argv[1], (sys.argv[2:] + ["gcc"])[0]
    if not shutil.which(cc) or not shutil.which("valgrind"):
        print(f"skipped, since there is no {cc} or no valgrind")
        return 0
    failed = 0
    for name, source, wrapper, main_text, receiver, method, given in cases():
        with tempfile.TemporaryDirectory() as at:
            folder = pathlib.Path(at)
            made = subprocess.run([program, "gen", name, source], capture_output=True)
            if made.returncode:
                print(f"{name}: gen ended with {made.returncode}: {made.stdout.decode()}")
                failed = 1
                continue
            (folder / "made.c").write_bytes(made.stdout)
            count, output = counted(folder, cc, folder / "made.c", wrapper, main_text, receiver, method, given)
            by_hand, expected = counted(folder, cc, ROOT / "tests" / "decoders" / f"{name}_by_hand.c", wrapper, main_text, receiver, method, given)
            factor = count / by_hand
            said = "" if output == expected else ", and the outputs differ"
            print(f"{name}: {count:,} instructions, {by_hand:,} by hand, factor {factor:.2f}{said}")
            failed |= factor > MOST or output != expected
    return failed


if __name__ == "__main__":
    sys.exit(main())
