#!/usr/bin/env python3
"""The C texts that `gen` writes, through real compilers: each compiles without a remark, and a host program made from scripts
prints the reports that belong to the package, with no finding of the sanitizers and of valgrind.

usage: compiled_reports.py PROGRAM [COUNT [SEED [NAME]]]    20 random packages with the seed 1 are the default; with a NAME only
                                                            packages that have it in their name
The packages of examples/, tests/decoders, report_answers.py, worked_reports.py and QUIET are compiled by gcc, clang and tcc with exactly
LANGUAGE at each of LEVELS, and so are the host programs by hand in examples/. Their scripts are played by the BUILDS; a package without one
gets random ones, but for those of examples/limits, which are compiled alone.
The streams of cut_reports.py whose turns are enough, and COUNT random packages on two random scripts each, are played by the FEWER_BUILDS;
three of ten random packages are compiled by the FURTHER_BUILDS too, which optimise, for what these remark.

A script becomes a function in C, which calls those of the text as docs/LOWERING.md tells them. It has to print what `run` prints,
which has to be what the second opinion says (second_opinion/scripts.py). Compiled code counts no turns, so a script that needs more than it
has is played up to the call that does. Random packages may draw remarks that are true of the source (TRUE_REMARKS), and no others.
What needs a compiler or valgrind that isn't there is passed over. Prints what differs; the last lines count, and say what was passed over.
"""
import collections
import itertools
import os
import pathlib
import random
import re
import shutil
import subprocess
import sys
import tempfile

import cut_reports
import random_reports
import report_answers
import worked_reports
from second_opinion.scripts import OUT_OF_TURNS, Script, judged_once, report
from second_opinion.trees import BaseType, SliceType

ROOT = pathlib.Path(__file__).resolve().parent.parent
LANGUAGE = ["-std=c99", "-Wall", "-Wextra", "-Wpedantic", "-Werror"]
COMPILERS, LEVELS = ["gcc", "clang", "tcc"], ["-O0", "-O2", "-O3"]
SANITIZERS = ["-fsanitize=address,undefined", "-fno-sanitize-recover=all"]
# How a host program is compiled, and the words before its own when it is run.
BUILDS = [([compiler, level, *SANITIZERS], []) for compiler in ("gcc", "clang") for level in ("-O0", "-O3")]
BUILDS += [(["tcc"], []), (["gcc", "-O2", "-g"], ["valgrind", "-q", "--error-exitcode=99"])]
FEWER_BUILDS = [(["gcc", "-O1", *SANITIZERS], []), (["clang", "-O0", *SANITIZERS], []), (["tcc"], [])]
# How many random packages stand in one program, and by what else three of these are compiled, since a compiler looks further as it optimises.
TOGETHER, FURTHER = 10, 3
FURTHER_BUILDS = [["gcc", "-O2"], ["gcc", "-O3"], ["clang", "-O2"]]
# What compilers may say of random packages, and what is true of these then. Bounds don't look at what never runs: what stands under a
# comparison that is never met, or after a statement that never goes on.
TRUE_REMARKS = {
    "array-bounds": "an index past an array never runs",
    "div-by-zero": "a division by 0 never runs",
    "shift-count-overflow": "a shift too far never runs",
}

# Packages whose text compilers would remark on if it weren't written with care, each with the lines of a script.
QUIET = {
    "a length that is calculated in int beside size": ("""\
pub struct s?(
    a : array[4] base.u8,
)
pub func s.f!(i: base.u8[..= 4], j: base.u8[..= 4], g: slice base.u8) base.u64 {
    var m : base.u64
    var n : base.u64
    var t : slice base.u8
    this.a[0] = 1
    this.a[3] = 4
    t = args.g
    n = t.copy_from_slice!(s: this.a[args.i ..])
    if args.j >= args.i {
        m = t.copy_from_slice!(s: this.a[args.i .. args.j])
        n ~mod+= m
    }
    m = t.copy_from_slice!(s: this.a[.. args.j])
    return n ~mod+ m
}
""", ["bytes x 0000", "call p.f i=3 j=4 g=x", "show x", "call p.f i=4 j=0 g=x", "show x"]),
    "what is calculated in int beside wider numbers": ("""\
pub struct s?(
    n : base.u32,
    w : base.u64,
    a : array[32] base.u8,
)
pub func s.f!(a: base.u8[..= 15], b: base.u16[..= 1000], n: base.u32[..= 1000]) base.u32 {
    var m : base.u32
    m ~mod+= args.n + ((args.a + 1) as base.u32)
    m ~mod+= ((args.a * 3) as base.u32) * args.n
    m ~mod+= args.n % (((args.a as base.u16) + args.b + 1) as base.u32)
    m ~mod+= args.n / ((args.a + 1) as base.u32)
    m ~mod+= args.n & ((args.a ^ 5) as base.u32)
    m ~mod+= ((args.b << 1) as base.u32) | args.n
    m ~mod+= ((args.b >> 1) as base.u32) ^ args.n
    m ~mod+= ((args.a + 1) as base.u32) << 4
    m ~mod+= ((args.a | 3) as base.u32) ~mod* 0x1000_0001
    m ~sat+= (1000 - args.b) as base.u32
    m ~mod-= ((args.a * 2) as base.u32) ~mod- args.n
    if (((args.a + 1) as base.u32) < args.n) and (args.n >= ((args.b / 3) as base.u32)) {
        m ~mod+= 1
    }
    if ((args.a + 1) as base.u32) == args.n {
        m ~mod+= 2
    }
    m ~mod+= this.a[(args.a as base.u32) + ((args.a ^ 1) as base.u32)] as base.u32
    return m
}
pub func s.g!(a: base.u8[..= 15], b: base.u16[..= 1000], w: base.u64[..= 1000]) base.u64 {
    var m : base.u64
    m ~mod+= args.w + ((args.a + 1) as base.u64)
    m ~mod+= ((args.a * 3) as base.u64) * args.w
    m ~mod+= args.w % (((args.a as base.u16) + args.b + 1) as base.u64)
    m ~mod+= ((args.a ^ 5) as base.u64) & args.w
    m ~mod+= args.w ~mod- ((args.b << 1) as base.u64)
    m ~mod+= ((args.a + 1) as base.u64) << 40
    m ~sat-= ((args.a as base.u32) * 70000) as base.u64
    if args.w <= ((args.b + 1) as base.u64) {
        m ~mod+= 1
    }
    this.w = ((args.a + 1) as base.u64)
    this.n = ((args.b + 1) as base.u32)
    return m ~mod+ (this.w ~mod+ (this.n as base.u64))
}
""", ["call p.f a=15 b=1000 n=1000", "call p.f a=0 b=0 n=1", "call p.g a=15 b=1000 w=1000", "call p.g a=3 b=7 w=0"]),
    "two constant statuses": ("""\
pub status "#a"
pub status "#b"
pub struct s?()
pub func s.f() base.bool {
    return "#a" == "#b"
}
pub func s.g() base.bool {
    return ("#a" <> ok) and ("#b" == "#b")
}
pub func s.h() base.u8 {
    if (ok == ok) and (not ("#a" <> "#a")) {
        return 1
    }
    while "#a" == ok {
    } endwhile
    return 0
}
""", ["call p.f", "call p.g", "call p.h"]),
    "a complement that is compared": ("""\
pub struct s?(
    x : base.u8,
    w : base.u16,
    a : array[4] base.u8,
)
pub func s.f!(x: base.u8, y: base.u8, w: base.u16, v: base.u16, d: base.u32) base.u32 {
    var m : base.u32
    this.x = args.x ^ 255
    this.w = args.w ^ 0xFFFF
    this.a[1] = args.y
    if (args.x ^ 255) == args.y {
        m |= 1
    }
    if args.y < (255 ^ args.x) {
        m |= 2
    }
    if (args.x ^ 255) >= 7 {
        m |= 4
    }
    if (255 ~mod- args.x) <> args.y {
        m |= 8
    }
    if (args.w ^ 0xFFFF) <= args.v {
        m |= 16
    }
    if (65535 ~mod- args.w) > (args.y as base.u16) {
        m |= 32
    }
    if ((args.x ^ 255) as base.u16) == args.w {
        m |= 64
    }
    if ((args.x ^ 255) as base.u32) < args.d {
        m |= 128
    }
    if ((255 ~mod- args.x) as base.u64) < 300 {
        m |= 256
    }
    if (this.x ^ 255) == (args.y ^ 255) {
        m |= 512
    }
    if (this.a[1] ^ 255) == this.a[0] {
        m |= 1024
    }
    if (this.w ^ 0xFFFF) <> 3 {
        m |= 2048
    }
    if not ((255 ^ this.a[args.x & 3]) < args.y) {
        m |= 4096
    }
    if (args.x ^ args.y ^ 255) < 9 {
        m |= 8192
    }
    while ((args.x ~sat+ args.y) ^ 255) > 200 {
        m |= 16384
        break
    } endwhile
    if ((args.x as base.u16) ^ 255) == args.w {
        m |= 32768
    }
    if (0xFF ^ (args.x as base.u32)) < (args.y as base.u32) {
        m |= 65536
    }
    if (((args.x as base.u32) ^ 255) as base.u8) >= args.y {
        m |= 131072
    }
    if ((255 - (args.x as base.u32)) as base.u8) <> args.y {
        m |= 262144
    }
    if ((255 ~mod- args.x) as base.u16) > args.w {
        m |= 524288
    }
    if ((args.w as base.u64) ^ 0xFFFF) <= ((args.x ~sat+ 7) as base.u64) {
        m |= 1048576
    }
    if ((args.d as base.u64) ^ 0xFFFF_FFFF) == 127 {
        m |= 2097152
    }
    if (65535 ~mod- (args.x as base.u16)) == (args.v ^ 0xFF) {
        m |= 4194304
    }
    if ((args.d & 255) as base.u8) == (args.x ^ 255) {
        m |= 8388608
    }
    return m
}
pub func s.g!(src: base.io_reader) base.bool {
    if args.src.length() < 1 {
        return false
    }
    return (args.src.peek_u8() ^ 255) == this.x
}
""", ["call p.f x=1 y=254 w=254 v=65281 d=255", "call p.f x=0 y=0 w=0 v=0 d=0", "call p.f x=255 y=255 w=65535 v=65535 d=4294967295", "call p.f x=129 y=126 w=60000 v=5535 d=127", "put b 81", "call p.g src=b"]),
    "an or with all ones": ("""\
pub struct s?(
    n : base.u8,
    w : base.u16,
)
pri func s.h!(x: base.u8, w: base.u16) base.u16 {
    return (args.x as base.u16) | args.w
}
pub func s.f!(x: base.u8, y: base.u8, w: base.u16) base.u8 {
    var m : base.u8
    var t : base.u16
    m = ((args.x & 1) + (args.y & 1)) | 255
    this.n = 255 | ((args.x & 15) * 3)
    this.w = ((args.w & 255) + 7) | 0xFFFF
    this.w = (((args.x & 1) + (args.y & 1)) | 255) as base.u16
    t = this.h!(x: ((args.x >> 1) + 3) | 255, w: ((args.w & 7) * 3) | 65535)
    this.w &= t
    m = ((args.x & 3) * (args.y & 3)) | 255 | args.y
    this.n &= m
    m = (((args.x & 1) + (args.y & 1)) | 254) | 1
    this.n &= m
    m = (((args.x & 3) + 4) | 255) ~sat- (args.y & 1)
    this.n &= m | 1
    m = args.y ~sat+ (255 | ((args.x & 3) << 2))
    this.n &= m
    m = (((args.w & 7) + (args.w & 8)) | 255) as base.u8
    this.n &= m
    this.w &= 65535 | (args.x as base.u16)
    m = ((args.w | 255) & 1) as base.u8
    this.n &= m | 6
    m = ((args.w | 7 | 254) & 127) as base.u8
    this.n |= m
    m = ((((args.w | 127) & 3) + 1) & 254) as base.u8
    this.n &= m | 3
    m = (args.x ~mod* args.x) | (args.y & 127) | 255
    this.n &= m
    return ((args.x / 2) + (args.y / 2)) | 255
}
pub func s.g() base.u16 {
    return this.w | (this.n as base.u16)
}
""", ["call p.f x=1 y=254 w=254", "call p.g", "call p.f x=0 y=0 w=0", "call p.g"]),
    "comparisons that types decide": ("""\
pub struct s?(
    b : base.u8,
    a : array[4] base.u8,
    w : base.u16,
    u : base.u32,
)
pub func s.f(c: base.u8, w: base.u16, u: base.u32, q: base.u64, g: slice base.u8) base.u32 {
    var m : base.u32
    if args.c <= 255 {
        m |= 1
    }
    if (args.c > 255) or (255 < this.b) {
        m |= 2
    }
    if (args.c as base.u32) < 1000 {
        m |= 4
    }
    if (300 <> (this.a[args.c & 3] as base.u16)) and ((this.b as base.u64) <= 0xFFFF_FFFF) {
        m |= 8
    }
    if (args.w >= 65535) or (args.w <= 65535) {
        m |= 16
    }
    if ((this.w as base.u32) == 70000) or ((args.w ~mod+ 1) > 65535) {
        m |= 32
    }
    if ((args.u as base.u64) < 5000000000) and (this.u <= 0xFFFF_FFFF) {
        m |= 64
    }
    if (args.u >= 0) and (0 <= args.q) {
        m |= 128
    }
    if (args.q < 0) or (0 > args.c) {
        m |= 256
    }
    if (args.g.length() >= 0) and (args.q <= 0xFFFF_FFFF_FFFF_FFFF) {
        m |= 512
    }
    while (args.c >> 4) >= 255 {
        m |= 1024
        break
    } endwhile
    if ((args.c ~sat+ 7) as base.u64) >= 0x1_0000_0000 {
        m |= 2048
    }
    if (((args.u & 15) as base.u64) < 0x1_0000_0000) and ((args.c - 0) >= 0) {
        m |= 4096
    }
    if ((args.c & 15) == 16) or ((args.w | 1) <> 2) {
        m |= 8192
    }
    if (16 <> (15 & args.u)) and (2 == (args.q | 1)) {
        m |= 16384
    }
    return m
}
""", ["bytes x 01", "call p.f c=255 w=65535 u=4294967295 q=18446744073709551615 g=x", "call p.f c=0 w=0 u=0 q=0 g=null", "call p.f c=254 w=255 u=65535 q=1 g=x"]),
    "comparisons that compilers can decide": ("""\
pub struct s?(
    a : array[4] base.u8,
    w : base.u16,
)
pub func s.f(c: base.u8, d: base.u8, w: base.u16, v: base.u16, x: base.u32, y: base.u32, n: base.u64, i: base.u8[..= 3]) base.u32 {
    var m : base.u32
    if (((args.c as base.u32) >> 2) < 300) and (((args.w as base.u32) / 3) <= 65535) {
        m |= 1
    }
    if ((args.c as base.u64) & args.n) > 0x1_0000_0000 {
        m |= 2
    }
    if ((args.x & 0) <= args.y) or (args.c < (args.d ~mod- args.d)) {
        m |= 4
    }
    if (args.n < ((args.c & 0) as base.u64)) or (((0 & args.n) & 7) >= ((args.c & 0) as base.u64)) {
        m |= 8
    }
    if (((args.c & 0) & 7) == 4) or (((args.c % 4) & 7) == 4) {
        m |= 16
    }
    if ((args.c & args.d & 15) == 16) or (8 <> ((args.x | 4) | 2)) {
        m |= 32
    }
    if ((args.x & args.y) & 12) == (args.x & args.y & 12) {
        m |= 64
    }
    if (((args.x & 7) + (args.y & 7)) * 2) >= (((args.y & 7) + (args.x & 7)) * 2) {
        m |= 128
    }
    if (args.c ~mod+ args.d) <> (args.d ~mod+ args.c) {
        m |= 256
    }
    if (args.x ~mod- args.x) < (args.y ~mod* 0) {
        m |= 512
    }
    if ((this.a[args.i] & 1) & 2) == ((this.w >> 15) as base.u8) {
        m |= 1024
    }
    if ((args.v & 15) + 3) > ((args.w ~mod<< 4) & 240) {
        m |= 2048
    }
    if 300 == ((args.c >> 1) as base.u16) {
        m |= 4096
    }
    return m
}
""", ["call p.f c=255 d=1 w=65535 v=65535 x=4294967295 y=1 n=18446744073709551615 i=3", "call p.f c=0 d=0 w=0 v=0 x=0 y=0 n=0 i=0", "call p.f c=6 d=250 w=300 v=2 x=12 y=7 n=4294967296 i=1"]),
    "what is compared with itself": ("""\
pub status "#a"
pub struct s?(
    a : array[4] base.u8,
    n : base.u32,
    t : base.status,
)
pub func s.f!(i: base.u8[..= 3], x: base.u32, y: base.u32, g: slice base.u8) base.u32 {
    var m : base.u32
    var t : base.status
    var v : base.status
    if args.x == args.x {
        m ~mod+= 1
    }
    if this.n <> this.n {
        m ~mod+= 2
    }
    if this.a[args.i] == this.a[args.i] {
        m ~mod+= 4
    }
    if (args.x ~mod* 2) == (args.x ~mod* 2) {
        m ~mod+= 8
    }
    if (args.x ~mod+ args.y) >= (args.y ~mod+ args.x) {
        m ~mod+= 16
    }
    if (args.x & args.y & this.n) < (args.y & args.x & this.n) {
        m ~mod+= 32
    }
    if ((args.i as base.u32) << 8) <= ((args.i as base.u32) << 8) {
        m ~mod+= 64
    }
    if t == t {
        m ~mod+= 128
    }
    if this.t <> this.t {
        m ~mod+= 256
    }
    v = "#a"
    if v == t {
        m ~mod+= 512
    }
    if args.g.length() > args.g.length() {
        m ~mod+= 1024
    }
    if (args.i ~sat+ 1) == (args.i ~sat+ 1) {
        m ~mod+= 2048
    }
    while (args.i + 1) <> (args.i + 1) {
        m ~mod+= 4096
        break
    } endwhile
    if ((args.i ~mod+ 1) as base.u32) <= ((args.i ~mod+ 1) as base.u32) {
        m ~mod+= 8192
    }
    return m
}
""", ["bytes x 01", "call p.f i=3 x=4294967295 y=1 g=x", "call p.f i=0 x=0 y=0 g=null"]),
    "a part with a start that is copied": ("""\
pub struct s?(
    n : base.u64,
)
pri func s.own!(g: slice base.u8) base.u64 {
    return args.g.length()
}
pub func s.f!(w: base.io_writer, g: slice base.u8, h: slice base.u8, i: base.u64) base.u64 {
    var l : slice base.u8
    var v : base.u64
    if args.h.length() > 1 {
        this.n = args.w.copy_from_slice!(s: args.h[1 ..])
    }
    l = args.g
    if args.i <= args.h.length() {
        v = l.copy_from_slice!(s: args.h[args.i ..])
        this.n ~mod+= v
        v = args.w.copy_from_slice!(s: args.h[args.i ..])
        this.n ~mod+= v
        v = this.own!(g: args.h[args.i ..])
        this.n ~mod+= v
    }
    if l.length() >= 2 {
        v = args.w.copy_from_slice!(s: l[1 .. 2])
        this.n ~mod+= v
        v = l.copy_from_slice!(s: l[2 ..])
        this.n ~mod+= v
    }
    if l.length() >= 1 {
        l = l[1 ..]
    }
    if args.g.length() >= 2 {
        v = l.copy_from_slice!(s: args.g[2 ..])
    }
    return this.n ~mod+ v
}
""", ["bytes x 010203", "bytes y 0405", "call p.f w=b g=x h=y i=1", "show x", "show b", "call p.f w=b g=null h=null i=0", "call p.f w=b g=y h=x i=3", "show y", "show b"]),
    "what is assigned to itself": ("""\
pub status "#a"
pub struct s?(
    a : array[4] base.u8,
    n : base.u32,
    b : base.bool,
    t : base.status,
)
pub func s.f!(i: base.u8[..= 3], x: base.u32[..= 255], g: slice base.u8) base.u32 {
    var m : base.u32[..= 255]
    var d : base.bool
    var t : base.status
    var l : slice base.u8
    m = args.x
    m = m
    m = (m as base.u8) as base.u32
    d = m > 3
    d = d
    t = "#a"
    t = t
    l = args.g
    l = l
    l = l[..]
    this.n = this.n
    this.b = d
    this.b = this.b
    this.t = t
    this.t = this.t
    this.a[args.i] = m as base.u8
    this.a[args.i] = this.a[args.i]
    if l.length() > 2 {
        l[1] = l[1]
        l = l[.. 2]
    }
    if m == ((m as base.u8) as base.u32) {
        this.n ~mod+= 1
    }
    if this.b and (this.t == t) {
        return (this.a[args.i] as base.u32) ~mod+ this.n
    }
    return (l.length() & 0xFF) as base.u32
}
""", ["bytes x 010203", "call p.f i=3 x=255 g=x", "call p.f i=0 x=1 g=x", "show x", "call p.f i=1 x=2 g=null"]),
    "a slice that is made shorter where it stands": ("""\
pub struct s?(
    n : base.u64,
)
pub func s.f!(g: slice base.u8) base.u64 {
    var l : slice base.u8
    var i : base.u64
    l = args.g
    if l.length() >= 4 {
        l = l[.. 4]
    }
    while i < l.length() {
        this.n ~mod+= l[i] as base.u64
        i ~mod+= 1
    } endwhile
    if l.length() >= 2 {
        l = l[.. 2]
    }
    return l.length()
}
pub func s.n() base.u64 {
    return this.n
}
""", ["bytes x 010203040506", "bytes y 0708", "call p.f g=x", "call p.n", "call p.f g=y", "call p.f g=null", "call p.n"]),
    "a result without a return": ("""\
pub struct s?(
    n : base.u8,
)
pub func s.f() base.u8 {
    while true {
    } endwhile
}
pub func s.g!(src: base.io_reader) base.status {
    while true {
        this.n ~mod+= 1
    } endwhile
}
pub func s.h() base.bool {
    while true {
    } endwhile
}
""", ["null q s", "call q.f", "call q.g src=b", "call q.h"]),
    "private methods that nothing calls": ("""\
pub status "#odd"
pri struct part!(
    m : base.u8,
)
pri func part.step!() {
    this.m ~mod+= 1
}
pri func part.is_new() base.bool {
    return this.m == 0
}
pub struct s?(
    n : base.u32,
    t : part,
)
pri func s.pure(a: base.u32[1 ..= 9], f: base.bool, x: slice base.u16) base.u32 {
    var i : base.u32
    while i < args.a {
        i ~mod+= 1
    } endwhile
    i = this.twice(a: i)
    return i
}
pri func s.twice(a: base.u32) base.u32 {
    return args.a ~mod+ args.a
}
pri func s.impure!(src: base.io_reader, dst: base.io_writer) base.status {
    if args.src.length() < 1 {
        return "#odd"
    }
    if args.dst.length() >= 1 {
        args.dst.write_u8_fast!(a: args.src.peek_u8())
    }
    return ok
}
pri func s.none!(a: base.u8) {
    this.n ~sat+= args.a as base.u32
}
pri func s.flow?(src: base.io_reader, dst: base.io_writer) {
    var c : base.u8
    while true {
        c = args.src.read_u8?()
        args.dst.write_u8?(a: c)
        this.deep?(src: args.src)
    } endwhile
}
pri func s.deep?(src: base.io_reader) {
    while this.n < 9 {
        args.src.skip_u32?(n: this.n)
        this.n ~mod+= 1
    } endwhile
}
pri func s.still?() {
}
pub func s.f!() base.u32 {
    this.n ~mod+= 1
    return this.n
}
""", ["call p.f", "init p", "call p.f", "call p.f"]),
}

# What stands before the scripts. Only the text before it is compiled at a build's level, so that many scripts cost little.
HOST = r"""
#include <stdio.h>
#include <stdlib.h>
#if defined(__clang__)
#pragma clang optimize off
#elif defined(__GNUC__)
#pragma GCC optimize("O0")
#endif
static void say(const char* s) { fputs(s, stdout); }
static void say_number(uint64_t n) { printf("%llu", (unsigned long long)n); }
static void say_status(const char* s) {
    if (s) { printf("\"%s\"", s); } else { say("ok"); }
}
static void say_bytes(const uint8_t* p, size_t n) {
    for (size_t i = 0; i < n; i++) { printf("%02x", p[i]); }
    if (!n) { say("-"); }
}
static void say_buffer(const char* name, const wuffs_base__io_buffer* b) {
    printf("%s ri=%llu wi=%llu pos=%llu ", name, (unsigned long long)b->ri, (unsigned long long)b->wi, (unsigned long long)b->pos);
    say(b->closed ? "closed" : "open");
}
static uint8_t* bytes(const char* from, size_t n) {
    uint8_t* p = n ? malloc(n) : 0;
    if (from && n) { memcpy(p, from, n); }
    return p;
}
static wuffs_base__io_buffer buffer(size_t n) {
    wuffs_base__io_buffer b = { 0, 0, 0, 0, 0, 0 };
    b.ptr = bytes(0, n);
    b.len = n;
    return b;
}
static void put(const char* name, wuffs_base__io_buffer* b, const char* from, size_t n) {
    size_t room = b->closed ? 0 : b->len - b->wi, k = n < room ? n : room;
    if (k) { memcpy(b->ptr + b->wi, from, k); }
    b->wi += k;
    printf("put %s %llu\n", name, (unsigned long long)k);
}
static void close_buffer(const char* name, wuffs_base__io_buffer* b) {
    b->closed = 1;
    printf("close %s\n", name);
}
static void compact(const char* name, wuffs_base__io_buffer* b) {
    if (b->wi != b->ri) { memmove(b->ptr, b->ptr + b->ri, b->wi - b->ri); }
    b->pos += b->ri;
    b->wi -= b->ri;
    b->ri = 0;
    printf("compact %s\n", name);
}
static void show_buffer(const char* name, const wuffs_base__io_buffer* b) {
    printf("show %s ", name);
    say_bytes(b->ptr, b->wi);
    say_buffer("", b);
    say("\n");
}
static void show_bytes(const char* name, const uint8_t* p, size_t n) {
    printf("show %s ", name);
    say_bytes(p, n);
    say("\n");
}
"""
# A host may need some of these alone.
USES = "(void)say_status, (void)say_number, (void)buffer, (void)put, (void)close_buffer, (void)compact, (void)show_buffer, (void)show_bytes;\n"
MAIN = """\
#include <stdio.h>
{}
int main(void) {{
    setvbuf(stdout, 0, _IOLBF, 1024);
    {}
    return 0;
}}
"""


class Host:
    """Writes a function that plays a script: what second_opinion/scripts.py's `Run` does, as C. A receiver, buffer or array has its
    name in the script, after a letter. Each stands in memory of its own; what has no bytes is a null pointer."""

    def __init__(self, package):
        self.machine, self.package, self.lines, self.ends, self.lengths = self, package, [], [], {}

    # What a script's commands call, in place of a machine's run

    def new(self, struct):
        return struct

    def say(self, line):
        self.lines.append(f'say("{line}\\n");')

    def declare(self, thing, state, line):
        name, place = f"x_{thing.name}", f"x_{thing.name}"
        if thing.kind == "receiver":
            made = f"calloc(1, sizeof(*{name}))" if state else "0"
            self.lines.append(f"wuffs_{self.package}__{thing.of.name}* {name} = {made};")
        elif thing.kind == "buffer":
            self.lines.append(f"wuffs_base__io_buffer {name} = buffer({len(state.bytes)});")
            place += ".ptr"
        else:
            self.lines.append(f"uint8_t* {name} = bytes({literal(state)}, {len(state)});")
            self.lengths[thing] = len(state)
        self.ends.append(f"free({place});")
        self.say(line)

    def init(self, thing, turns):
        self.lines.append(f'say("init {thing.name} "); say_status(wuffs_{self.package}__{thing.of.name}__initialize(x_{thing.name})); say("\\n");')

    def put(self, thing, some):
        self.lines.append(f'put("{thing.name}", &x_{thing.name}, {literal(some)}, {len(some)});')

    def close(self, thing):
        self.lines.append(f'close_buffer("{thing.name}", &x_{thing.name});')

    def compact(self, thing):
        self.lines.append(f'compact("{thing.name}", &x_{thing.name});')

    def show(self, thing):
        if thing.kind == "buffer":
            self.lines.append(f'show_buffer("{thing.name}", &x_{thing.name});')
        else:
            self.lines.append(f'show_bytes("{thing.name}", x_{thing.name}, {self.lengths[thing]});')

    def call(self, thing, method, given, turns):
        values = ", ".join([f"x_{thing.name}", *(self.value(it.type, value) for it, value in given.items())])
        called = f"wuffs_{self.package}__{thing.of.name}__{method.name}({values})"
        buffers = "".join(f'say_buffer(" {value.name}", &x_{value.name}); ' for it, value in given.items()
                          if value is not None and not isinstance(it.type, SliceType) and it.type.name.startswith("io_"))
        self.lines.append(f'say("call {thing.name}.{method.name} "); {said(method, called)} {buffers}say("\\n");')

    def value(self, of, value):
        if isinstance(of, SliceType):
            return f"x_{value.name}, {self.lengths[value]}" if value else "0, 0"
        if of.name.startswith("io_"):
            return f"&x_{value.name}" if value else "0"
        return f"{int(value)}{'u' if value < 2 ** 32 else 'ull'}"

    def function(self, number):
        return "\n".join([f"static void script_{number}(void) {{", *self.lines, *self.ends, 'say("\\n");', "}\n"])


def literal(some):
    return '"' + "".join(f"\\x{byte:02x}" for byte in some) + '"'


def said(method, called):
    """A statement that makes the call and says its result."""
    of = method.result
    if method.mark == "?" or isinstance(of, BaseType) and of.name == "status":
        return f"say_status({called});"
    if of is None:
        return f'{called}; say("done");'
    if of.name == "bool":
        return f'say({called} ? "true" : "false");'
    return f"say_number({called});"


def without_error(words):
    return [word for word in words if word != "-Werror"]


class Wrong(Exception):
    """What is wrong with a text or with what it prints."""


def ended(words, folder):
    try:
        came = subprocess.run(words, cwd=folder, stdin=subprocess.DEVNULL, capture_output=True, timeout=1200)
    except subprocess.TimeoutExpired:
        raise Wrong(f"{' '.join(words)} doesn't end") from None
    return came.returncode, came.stdout.decode(errors="replace"), came.stderr.decode(errors="replace")


class Package:
    """A package with scripts; what its host program has to print of each is told when that is written."""

    def __init__(self, name, package, text, scripts):
        self.name, self.package, self.text, self.scripts, self.wanted = name, package, text, scripts, []

    def write(self, program, folder):
        """Writes the text of `gen` to PACKAGE.c, and to host_PACKAGE.c a function that plays the scripts."""
        (folder / f"{self.package}.wuffs").write_text(self.text)
        status, written, _ = ended([program, "gen", self.package, f"{self.package}.wuffs"], folder)
        if status:
            raise Wrong(f"gen ends with {status}: {written}")
        (folder / f"{self.package}.c").write_text(written)
        self.wanted = []
        functions = [self.played(program, folder, number, script) for number, script in enumerate(self.scripts)]
        calls = USES + "\n".join(f"script_{number}();" for number in range(len(functions)))
        play = f"void play_{self.package}(void)"
        (folder / f"host_{self.package}.c").write_text("\n".join([f'#include "{self.package}.c"', HOST, *functions, f"{play};", f"{play} {{", calls, "}\n"]))

    def played(self, program, folder, number, script):
        """A script as a function in C, from which is wanted what `run` and the second opinion say."""
        second = report(self.package, [self.text], script)
        (folder / "script").write_bytes(script)
        status, printed, _ = ended([program, "run", self.package, "script", f"{self.package}.wuffs"], folder)
        if (printed, status) != second:
            raise Wrong(f"run says\n{printed}{status}\nthe second opinion\n{second[0]}{second[1]}\nthe script\n{script.decode()}")
        lines = printed.splitlines(keepends=True)[:-1 if status == OUT_OF_TURNS else None]
        read, host = Script(judged_once((self.text,))[1]), Host(self.package)
        assert read.read(script) is None
        for act in read.commands[:len(lines)]:
            act(host)
        self.wanted.append("".join(lines))
        return host.function(number)


class Tests:
    """Tests packages in a folder, and counts."""

    def __init__(self, program, folder):
        self.program, self.folder, self.passed, self.failed, self.scripts = program, folder, 0, 0, 0
        self.remarks, self.missing = collections.Counter(), set()

    def each(self, test, packages):
        """Tests packages together, and alone where something is wrong with one of them."""
        try:
            test(packages)
            self.passed += len(packages)
        except Wrong as wrong:
            if len(packages) == 1:
                self.failed += 1
                print(f"{packages[0].name}: {wrong}\nthe package\n{packages[0].text}", flush=True)
            for it in packages if len(packages) > 1 else []:
                self.each(test, [it])

    def are_there(self, *programs):
        missing = {it for it in programs if not shutil.which(it)}
        self.missing |= missing
        return not missing

    def without_a_word(self, packages):
        """The texts compile without a remark, and by all builds they print what they have to."""
        for it in packages:
            it.write(self.program, self.folder)
            files, by_hand = [f"{it.package}.c"], ROOT / f"{it.name}_main.c"
            if by_hand.exists():
                files.append(shutil.copy(by_hand, self.folder))
            for words in [[compiler, *LANGUAGE, level] for compiler in COMPILERS for level in LEVELS if self.are_there(compiler)]:
                for file in files:
                    self.compile([*words, "-c", file, "-o", "text.o"])
        self.play([it for it in packages if it.scripts], BUILDS)

    def by_fewer_builds(self, packages):
        for it in packages:
            it.write(self.program, self.folder)
        self.play(packages, FEWER_BUILDS)

    def with_true_remarks(self, packages):
        for it in packages:
            it.write(self.program, self.folder)
        self.play(packages, FEWER_BUILDS, TRUE_REMARKS)
        for words in [[*build, *without_error(LANGUAGE)] for build in FURTHER_BUILDS if self.are_there(build[0])]:
            self.compile([*words, "-c", *(f"{it.package}.c" for it in packages[:FURTHER])], TRUE_REMARKS)

    def play(self, packages, builds, allowed=()):
        """A program of the packages prints what it has to, by each build. Some kinds of remarks may be allowed."""
        language = without_error(LANGUAGE) if allowed else LANGUAGE
        names = [f"play_{it.package}" for it in packages]
        (self.folder / "main.c").write_text(MAIN.format("\n".join(f"void {name}(void);" for name in names), " ".join(f"{name}();" for name in names)))
        for words, runner in builds if packages else []:
            if self.are_there(words[0], *runner[:1]):
                words = [*words, *language]
                self.compile([*words, *(f"host_{it.package}.c" for it in packages), "main.c", "-o", "host"], allowed)
                self.compare(packages, words, ended([*runner, "./host"], self.folder))
        self.scripts += sum(len(it.scripts) for it in packages)

    def compile(self, words, allowed=()):
        """Compiles, and counts the remarks, which have to be allowed."""
        status, _, told = ended(words, self.folder)
        remarks = [it for it in (re.search(r"warning: .*?(?:\[-W([\w-]+)\])?$", line) for line in told.splitlines()) if it]
        wrong = [it.string for it in remarks if it[1] not in allowed]
        if status or wrong or told and not remarks:
            raise Wrong("\n".join([" ".join(words), *(wrong or [told[:4000]])]))
        self.remarks.update(it[1] for it in remarks)

    def compare(self, packages, words, came):
        status, printed, told = came
        reports = printed.split("\n\n")
        scripts = [(it.name, script, wanted) for it in packages for script, wanted in zip(it.scripts, it.wanted)]
        for (name, script, wanted), said in zip(scripts, [*reports, *[""] * len(scripts)]):
            if said + "\n" != wanted:
                raise Wrong(f"{' '.join(words)}: {name}: {status} {told[:1500]}\n{said}\nwanted\n{wanted}\nthe script\n{script.decode()}")
        if status or printed != "".join(wanted + "\n" for _, _, wanted in scripts):
            raise Wrong(f"{' '.join(words)}: {status} {told[:1500]}\nafter the scripts: {reports[len(scripts):]}")


def random_scripts(declarations, source):
    return [random_reports.Writer(declarations, source).write(60) for _ in range(2)]


def written_packages():
    """The packages that somebody wrote."""
    source = random.Random(1)
    for folder in "examples", "tests/decoders":
        for file in sorted((ROOT / folder).glob("*.wuffs")):
            text, script = file.read_text(), file.with_suffix(".script")
            scripts = [script.read_bytes()] if script.exists() else random_scripts(judged_once((text,))[1], source)
            yield Package(f"{folder}/{file.stem}", file.stem, text, scripts)
    for file in sorted((ROOT / "examples/limits").glob("*pass*.wuffs")):
        yield Package(f"examples/limits/{file.stem}", file.stem, file.read_text(), [])
    for name, text in report_answers.PACKAGES.items():
        scripts = [report_answers.script_of(name, lines) for _, package, lines, _ in report_answers.REPORTS if package == name]
        yield Package(f"report_answers.py {name}", "k", text, scripts)
    for name, text in worked_reports.PACKAGES.items():
        scripts = [worked_reports.worked(lines)[0] for _, package, lines in worked_reports.REPORTS if package == name]
        yield Package(f"worked_reports.py {name}", name, text, scripts)
    for name, (text, lines) in QUIET.items():
        yield Package(name, "k", text, [report_answers.script_of("s", "|".join(lines))])


def cut_packages():
    """The packages of cut_reports.py, each with all its streams."""
    packages = {}
    for stream in cut_reports.streams():
        at = packages.setdefault(stream.text, Package(f"cut_reports.py {stream.name}", stream.package, stream.text, []))
        at.scripts += [script for _, script, _ in stream.scripts()]
    return packages.values()


def random_packages(count, seed):
    source = random.Random(seed)
    for number in range(count):
        text, declarations = random_reports.accepted(source)
        yield Package(f"random {number}", f"k{number}", text, random_scripts(declarations, source))


def main():
    program = os.path.abspath(sys.argv[1])
    count, seed, only = (sys.argv[2:] + ["20", "1", ""][len(sys.argv) - 2:])[:3]
    with tempfile.TemporaryDirectory() as at:
        tests = Tests(program, pathlib.Path(at))
        for it in written_packages():
            if only in it.name:
                tests.each(tests.without_a_word, [it])
        for it in cut_packages():
            if only in it.name:
                tests.each(tests.by_fewer_builds, [it])
        them = (it for it in random_packages(int(count), int(seed)) if only in it.name)
        while together := list(itertools.islice(them, TOGETHER)):
            tests.each(tests.with_true_remarks, together)
    for told, some in [("remarks that are true", [f"{kind} {times}" for kind, times in sorted(tests.remarks.items())]),
                       ("passed over, since they aren't there", sorted(tests.missing))]:
        if some:
            print(f"{told}: {', '.join(some)}")
    print(f"compiled_reports.py: {tests.passed} passed, {tests.failed} failed, on {tests.scripts} scripts")
    return 1 if tests.failed or not tests.passed else 0


if __name__ == "__main__":
    sys.exit(main())
