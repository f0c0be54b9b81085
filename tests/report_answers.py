#!/usr/bin/env python3
"""Runs scripts on small packages through the built program, by `mean`, by `run`, or by `exec` of what `gen` writes, and compares the lines
of calls and shows with answers written by hand.

usage: report_answers.py PROGRAM [NAME [COMMAND]]    only the answers whose name has NAME in it; `mean` is the default
A package is one of PACKAGES. In a script a bar ends a line; before its first line stand a receiver p of the package's first
struct, which is initialized, and buffers b and c of four bytes. Of the report the lines that begin with `call` or `show` are
compared, without that word. Each answer is compared with the second opinion's too (second_opinion/scripts.py). Prints what
differs; the last line counts.
"""
import os
import re
import sys

from script_answers import answer
from second_opinion.scripts import report

READER = """\
pub struct r?(
    n : base.u64,
)
pub func r.got() base.u64 {
    return this.n
}
pub func r.length(src: base.io_reader) base.u64 {
    return args.src.length()
}
pub func r.closed(src: base.io_reader) base.bool {
    return args.src.is_closed()
}
pub func r.position(src: base.io_reader) base.u64 {
    return args.src.position()
}
""" + "".join(f"""\
pub func r.{name}?(src: base.io_reader) {{
    var x : base.{name.rstrip("bel")}
    x = args.src.read_{name}?()
    this.n = x{"" if "64" in name else " as base.u64"}
}}
""" for name in ("u8", "u16be", "u16le", "u32be", "u32le", "u64be", "u64le")) + """\
pub func r.skip?(src: base.io_reader, n: base.u32) {
    args.src.skip_u32?(n: args.n)
}
pub func r.peek8(src: base.io_reader) base.u64 {
    if args.src.length() >= 1 {
        return args.src.peek_u8() as base.u64
    }
    return 7777
}
pub func r.peek16(src: base.io_reader) base.u64 {
    if args.src.length() >= 2 {
        return args.src.peek_u16le() as base.u64
    }
    return 7777
}
pub func r.peek32(src: base.io_reader) base.u64 {
    if args.src.length() >= 4 {
        return args.src.peek_u32le() as base.u64
    }
    return 7777
}
pub func r.fast!(src: base.io_reader) base.bool {
    if args.src.length() >= 3 {
        args.src.skip_u32_fast!(actual: 2, worst_case: 3)
        return true
    }
    return false
}
pub func r.two?(src: base.io_reader) {
    var x : base.u16
    var y : base.u8
    x = args.src.read_u16be?()
    args.src.skip_u32?(n: 2)
    y = args.src.read_u8?()
    this.n = ((x as base.u64) * 256) + (y as base.u64)
}
"""
WRITER = """\
pub struct w?(
    i : base.u32,
)
pub func w.length(dst: base.io_writer) base.u64 {
    return args.dst.length()
}
pub func w.position(dst: base.io_writer) base.u64 {
    return args.dst.position()
}
pub func w.one?(dst: base.io_writer, a: base.u8) {
    args.dst.write_u8?(a: args.a)
}
pub func w.count?(dst: base.io_writer) {
    while this.i < 6 {
        args.dst.write_u8?(a: (this.i & 255) as base.u8)
        this.i ~mod+= 1
    } endwhile
}
pub func w.fast!(dst: base.io_writer, a: base.u8) base.bool {
    if args.dst.length() >= 1 {
        args.dst.write_u8_fast!(a: args.a)
        return true
    }
    return false
}
pub func w.copy!(dst: base.io_writer, s: slice base.u8) base.u64 {
    var n : base.u64
    n = args.dst.copy_from_slice!(s: args.s)
    return n
}
"""
SLICES = """\
pub struct s!(
    a : array[4] base.u8,
)
pub func s.length(x: slice base.u8) base.u64 {
    return args.x.length()
}
pub func s.array_length() base.u64 {
    return this.a.length()
}
pub func s.at(x: slice base.u8, i: base.u64) base.u8 {
    if args.i < args.x.length() {
        return args.x[args.i]
    }
    return 0
}
pub func s.set!(x: slice base.u8, i: base.u64, to: base.u8) {
    if args.i < args.x.length() {
        args.x[args.i] = args.to
    }
}
pub func s.copy!(x: slice base.u8, y: slice base.u8) base.u64 {
    var to : base.u64
    var t : slice base.u8
    t = args.x
    to = t.copy_from_slice!(s: args.y)
    return to
}
pub func s.shift!(x: slice base.u8) base.u64 {
    var n : base.u64
    var t : slice base.u8
    if 1 <= args.x.length() {
        t = args.x[1 ..]
        n = t.copy_from_slice!(s: args.x)
    }
    return n
}
pub func s.middle(x: slice base.u8) base.u64 {
    var t : slice base.u8
    if args.x.length() >= 3 {
        t = args.x[1 .. 3]
        if t.length() >= 1 {
            return (t[0] as base.u64) ~mod+ (256 ~mod* t.length())
        }
    }
    return 0
}
pub func s.put!(i: base.u32, to: base.u8) {
    this.a[args.i & 3] = args.to
}
pub func s.get(i: base.u32) base.u8 {
    return this.a[args.i & 3]
}
"""
NUMBERS = """\
pub struct n(
)
pub func n.mod8(a: base.u8, b: base.u8) base.u8 {
    return args.a ~mod+ args.b
}
pub func n.mod_minus(a: base.u8, b: base.u8) base.u8 {
    return args.a ~mod- args.b
}
pub func n.mod_times(a: base.u32, b: base.u32) base.u32 {
    return args.a ~mod* args.b
}
pub func n.mod_shift(a: base.u16, b: base.u32) base.u16 {
    if args.b < 16 {
        return args.a ~mod<< args.b
    }
    return 0
}
pub func n.sat_plus(a: base.u64, b: base.u64) base.u64 {
    return args.a ~sat+ args.b
}
pub func n.sat_minus(a: base.u8, b: base.u8) base.u8 {
    return args.a ~sat- args.b
}
pub func n.divided(a: base.u64, b: base.u64) base.u64 {
    if args.b > 0 {
        return args.a / args.b
    }
    return 0
}
pub func n.rest(a: base.u64, b: base.u64) base.u64 {
    if args.b > 0 {
        return args.a % args.b
    }
    return 0
}
pub func n.shifted(a: base.u64, b: base.u32) base.u64 {
    if args.b < 64 {
        return args.a >> args.b
    }
    return 0
}
pub func n.bits(a: base.u8, b: base.u8) base.u32 {
    return ((((args.a & args.b) as base.u32) << 16) | (((args.a | args.b) as base.u32) << 8)) | ((args.a ^ args.b) as base.u32)
}
pub func n.square(a: base.u16) base.u32 {
    return (args.a as base.u32) * (args.a as base.u32)
}
pub func n.less(a: base.u64, b: base.u64) base.bool {
    return args.a < args.b
}
pub func n.both(a: base.bool, b: base.bool) base.bool {
    return args.a and args.b
}
pub func n.neither(a: base.bool, b: base.bool) base.bool {
    return not (args.a or args.b)
}
"""
STATUSES = """\
pub status "#bad"
pub status "$wait"
pub status "@note"
pub struct k?(
    what : base.u32,
    last : base.status,
    from : base.u32,
)
pub func k.pick!(what: base.u32) {
    this.what = args.what
}
pub func k.last() base.status {
    return this.last
}
pub func k.kinds() base.u32 {
    var n : base.u32
    if this.last.is_ok() {
        n |= 1
    }
    if this.last.is_note() {
        n |= 2
    }
    if this.last.is_suspension() {
        n |= 4
    }
    if this.last.is_error() {
        n |= 8
    }
    return n
}
pri func k.inner?() {
    this.from ~mod+= 1
    if this.what == 1 {
        return "#bad"
    } else if this.what == 2 {
        return "@note"
    } else if this.what == 3 {
        yield? "$wait"
    } else if this.what == 4 {
        return "$wait"
    }
    this.from ~mod+= 10
}
pub func k.plain?() {
    this.inner?()
    this.from ~mod+= 100
}
pub func k.keep?() {
    var s : base.status
    s =? this.inner?()
    this.last = s
    this.from ~mod+= 100
}
pub func k.hand?() {
    var s : base.status
    s =? this.inner?()
    return s
}
pub func k.from() base.u32 {
    return this.from
}
"""
PARTS = """\
pub struct out?(
    a : in,
    b : in,
)
pub struct in?(
    n : base.u32,
)
pub func in.add?(src: base.io_reader, most: base.u32[..= 9]) {
    var x : base.u8
    x = args.src.read_u8?()
    if (x as base.u32) > args.most {
        return base."#bad argument"
    }
    this.n ~mod+= x as base.u32
}
pub func in.total() base.u32 {
    return this.n
}
pub func out.first?(src: base.io_reader) {
    this.a.add?(src: args.src, most: 9)
}
pub func out.second?(src: base.io_reader) {
    var s : base.status
    s =? this.b.add?(src: args.src, most: 5)
    if s.is_suspension() {
        yield? base."$short read"
        s =? this.b.add?(src: args.src, most: 5)
    }
}
pub func out.both() base.u32 {
    var x : base.u32
    var y : base.u32
    x = this.a.total()
    y = this.b.total()
    return (x ~mod* 1000) ~mod+ y
}
"""
LOOPS = """\
pub struct l?(
    n : base.u32,
)
pub func l.get() base.u32 {
    return this.n
}
pub func l.find?(src: base.io_reader) {
    var c : base.u8
    var d : base.u8
    while.outer true {
        c = args.src.read_u8?()
        if c == 0 {
            continue
        }
        while true {
            d = args.src.read_u8?()
            if d == c {
                break.outer
            } else if d == 0 {
                continue.outer
            }
            this.n ~mod+= 1
        } endwhile
    } endwhile.outer
    this.n ~mod+= 100
}
pub func l.count(to: base.u32) base.u32 {
    var i : base.u32
    while i < args.to {
        i ~mod+= 1
    } endwhile
    return i
}
pri func l.step!() {
    this.n ~mod+= 1
}
pub func l.steps!(to: base.u32) {
    var i : base.u32
    while i < args.to {
        this.step!()
        i ~mod+= 1
    } endwhile
}
"""
PACKAGES = {"r": READER, "w": WRITER, "s": SLICES, "n": NUMBERS, "k": STATUSES, "out": PARTS, "l": LOOPS}

# name, package (by its first struct), script, lines of calls and shows
REPORTS = [
    ("the length of what is unread", "r", "call p.length src=b|put b 010203|call p.u8 src=b|call p.length src=b",
     "p.length 0 b ri=0 wi=0 pos=0 open|p.u8 ok b ri=1 wi=3 pos=0 open|p.length 2 b ri=1 wi=3 pos=0 open"),
    ("whether a reader is closed", "r", "call p.closed src=b|close b|call p.closed src=b",
     "p.closed false b ri=0 wi=0 pos=0 open|p.closed true b ri=0 wi=0 pos=0 closed"),
    ("the position counts what was moved away", "r", "put b 01020304|call p.u16le src=b|call p.position src=b|compact b|call p.position src=b|call p.u8 src=b|call p.position src=b",
     "p.u16le ok b ri=2 wi=4 pos=0 open|p.position 2 b ri=2 wi=4 pos=0 open|p.position 2 b ri=0 wi=2 pos=2 open|p.u8 ok b ri=1 wi=2 pos=2 open|p.position 3 b ri=1 wi=2 pos=2 open"),
    ("a byte", "r", "put b ff|call p.u8 src=b|call p.got", "p.u8 ok b ri=1 wi=1 pos=0 open|p.got 255"),
    ("a byte that comes later", "r", "call p.u8 src=b|put b 07|call p.u8 src=b|call p.got",
     "p.u8 \"$base: short read\" b ri=0 wi=0 pos=0 open|p.u8 ok b ri=1 wi=1 pos=0 open|p.got 7"),
    ("a byte that never comes", "r", "close b|call p.u8 src=b|call p.u8 src=b",
     "p.u8 \"$base: short read\" b ri=0 wi=0 pos=0 closed|p.u8 \"$base: short read\" b ri=0 wi=0 pos=0 closed"),
    ("two bytes, the high one first", "r", "put b 0102|call p.u16be src=b|call p.got", "p.u16be ok b ri=2 wi=2 pos=0 open|p.got 258"),
    ("two bytes, the low one first", "r", "put b 0102|call p.u16le src=b|call p.got", "p.u16le ok b ri=2 wi=2 pos=0 open|p.got 513"),
    ("two bytes from two buffers", "r", "put b 01|call p.u16be src=b|put c 02|call p.u16be src=c|call p.got",
     "p.u16be \"$base: short read\" b ri=1 wi=1 pos=0 open|p.u16be ok c ri=1 wi=1 pos=0 open|p.got 258"),
    ("four bytes, the high one first", "r", "put b 01020304|call p.u32be src=b|call p.got", "p.u32be ok b ri=4 wi=4 pos=0 open|p.got 16909060"),
    ("four bytes, the low one first", "r", "put b 01020304|call p.u32le src=b|call p.got", "p.u32le ok b ri=4 wi=4 pos=0 open|p.got 67305985"),
    ("four bytes one by one, with calls for nothing between", "r",
     "put b 01|call p.u32be src=b|call p.u32be src=b|put b 02|call p.u32be src=b|put b 03|call p.u32be src=b|put b 04|call p.u32be src=b|call p.got",
     "p.u32be \"$base: short read\" b ri=1 wi=1 pos=0 open|p.u32be \"$base: short read\" b ri=1 wi=1 pos=0 open|"
     "p.u32be \"$base: short read\" b ri=2 wi=2 pos=0 open|p.u32be \"$base: short read\" b ri=3 wi=3 pos=0 open|p.u32be ok b ri=4 wi=4 pos=0 open|p.got 16909060"),
    ("eight bytes, the high one first, from two buffers", "r", "put b 80010203|call p.u64be src=b|put c 04050607|call p.u64be src=c|call p.got",
     "p.u64be \"$base: short read\" b ri=4 wi=4 pos=0 open|p.u64be ok c ri=4 wi=4 pos=0 open|p.got 9223655723807081991"),
    ("eight bytes, the low one first, the greatest number", "r", "put b ffffffff|call p.u64le src=b|put c ffffffff|call p.u64le src=c|call p.got",
     "p.u64le \"$base: short read\" b ri=4 wi=4 pos=0 open|p.u64le ok c ri=4 wi=4 pos=0 open|p.got 18446744073709551615"),
    ("a skip of nothing", "r", "call p.skip src=b n=0", "p.skip ok b ri=0 wi=0 pos=0 open"),
    ("a skip of what is there", "r", "put b 0102|call p.skip src=b n=2", "p.skip ok b ri=2 wi=2 pos=0 open"),
    ("a skip of more than is there; later numbers don't matter", "r", "put b 0102|call p.skip src=b n=3|put b 0304|call p.skip src=b n=99",
     "p.skip \"$base: short read\" b ri=2 wi=2 pos=0 open|p.skip ok b ri=3 wi=4 pos=0 open"),
    ("a skip of the most", "r", "put b 01020304|call p.skip src=b n=4294967295|compact b|put b 00|call p.skip src=b n=0",
     "p.skip \"$base: short read\" b ri=4 wi=4 pos=0 open|p.skip \"$base: short read\" b ri=1 wi=1 pos=4 open"),
    ("peeks at one, two and four bytes", "r", "put b 01020304|call p.peek8 src=b|call p.peek16 src=b|call p.peek32 src=b",
     "p.peek8 1 b ri=0 wi=4 pos=0 open|p.peek16 513 b ri=0 wi=4 pos=0 open|p.peek32 67305985 b ri=0 wi=4 pos=0 open"),
    ("peeks where a byte is missing", "r", "call p.peek8 src=b|put b 01|call p.peek16 src=b|put b 0203|call p.peek32 src=b",
     "p.peek8 7777 b ri=0 wi=0 pos=0 open|p.peek16 7777 b ri=0 wi=1 pos=0 open|p.peek32 7777 b ri=0 wi=3 pos=0 open"),
    ("a fast skip takes the actual bytes", "r", "put b 010203|call p.fast src=b|call p.fast src=b",
     "p.fast true b ri=2 wi=3 pos=0 open|p.fast false b ri=2 wi=3 pos=0 open"),
    ("a read, a skip and a read, cut at each byte", "r",
     "put b 01|call p.two src=b|put b 02|call p.two src=b|put b 09|call p.two src=b|put b 09|call p.two src=b|put c 03|call p.two src=c|call p.got",
     "p.two \"$base: short read\" b ri=1 wi=1 pos=0 open|p.two \"$base: short read\" b ri=2 wi=2 pos=0 open|p.two \"$base: short read\" b ri=3 wi=3 pos=0 open|"
     "p.two \"$base: short read\" b ri=4 wi=4 pos=0 open|p.two ok c ri=1 wi=1 pos=0 open|p.got 66051"),
    ("the room of a writer", "w", "call p.length dst=b|put b 01|call p.length dst=b|close b|call p.length dst=b",
     "p.length 4 b ri=0 wi=0 pos=0 open|p.length 3 b ri=0 wi=1 pos=0 open|p.length 0 b ri=0 wi=1 pos=0 closed"),
    ("the position of a writer", "w", "put b 0102|call p.position dst=b", "p.position 2 b ri=0 wi=2 pos=0 open"),
    ("a byte is written", "w", "call p.one dst=b a=255|show b", "p.one ok b ri=0 wi=1 pos=0 open|b ff ri=0 wi=1 pos=0 open"),
    ("a byte that finds no room is kept", "w", "put b 01020304|call p.one dst=b a=5|call p.one dst=c a=6|show c",
     "p.one \"$base: short write\" b ri=0 wi=4 pos=0 open|p.one ok c ri=0 wi=1 pos=0 open|c 05 ri=0 wi=1 pos=0 open"),
    ("a write into a closed buffer", "w", "close b|call p.one dst=b a=5", "p.one \"$base: short write\" b ri=0 wi=0 pos=0 closed"),
    ("a loop that writes goes on in another buffer", "w", "call p.count dst=b|call p.count dst=b|call p.count dst=c|show b|show c",
     "p.count \"$base: short write\" b ri=0 wi=4 pos=0 open|p.count \"$base: short write\" b ri=0 wi=4 pos=0 open|p.count ok c ri=0 wi=2 pos=0 open|"
     "b 00010203 ri=0 wi=4 pos=0 open|c 0405 ri=0 wi=2 pos=0 open"),
    ("a fast write, and no room for one", "w", "put b 010203|call p.fast dst=b a=9|call p.fast dst=b a=9|show b",
     "p.fast true b ri=0 wi=4 pos=0 open|p.fast false b ri=0 wi=4 pos=0 open|b 01020309 ri=0 wi=4 pos=0 open"),
    ("a slice is copied as far as there is room", "w", "bytes a 010203|call p.copy dst=b s=a|call p.copy dst=b s=a|show b",
     "p.copy 3 b ri=0 wi=3 pos=0 open|p.copy 1 b ri=0 wi=4 pos=0 open|b 01020301 ri=0 wi=4 pos=0 open"),
    ("a slice is copied into a closed buffer", "w", "bytes a 010203|close b|call p.copy dst=b s=a", "p.copy 0 b ri=0 wi=0 pos=0 closed"),
    ("lengths", "s", "bytes a 010203|call p.length x=a|call p.length x=null|call p.array_length", "p.length 3|p.length 0|p.array_length 4"),
    ("elements", "s", "bytes a 010203|call p.at x=a i=2|call p.at x=a i=3|call p.at x=a i=18446744073709551615", "p.at 3|p.at 0|p.at 0"),
    ("an element is set", "s", "bytes a 010203|call p.set x=a i=1 to=9|show a", "p.set done|a 010903"),
    ("a shorter slice is copied", "s", "bytes a 010203|bytes d 0909|call p.copy x=a y=d|show a", "p.copy 2|a 090903"),
    ("a longer slice is copied", "s", "bytes a 010203|bytes d 09080706|call p.copy x=a y=d|show a", "p.copy 3|a 090807"),
    ("no slice is copied", "s", "bytes a 010203|call p.copy x=a y=null|call p.copy x=null y=a|show a", "p.copy 0|p.copy 0|a 010203"),
    ("a slice is copied over itself", "s", "bytes a 01020304|call p.shift x=a|show a", "p.shift 3|a 01010203"),
    ("a part of a slice", "s", "bytes a 01020304|call p.middle x=a|bytes d 0102|call p.middle x=d", "p.middle 514|p.middle 0"),
    ("an array's elements", "s", "call p.put i=6 to=9|call p.get i=2|call p.get i=3", "p.put done|p.get 9|p.get 0"),
    ("~mod+", "n", "call p.mod8 a=255 b=255|call p.mod8 a=1 b=2", "p.mod8 254|p.mod8 3"),
    ("~mod-", "n", "call p.mod_minus a=0 b=255|call p.mod_minus a=9 b=9", "p.mod_minus 1|p.mod_minus 0"),
    ("~mod*", "n", "call p.mod_times a=4294967295 b=4294967295|call p.mod_times a=65536 b=65536", "p.mod_times 1|p.mod_times 0"),
    ("~mod<<", "n", "call p.mod_shift a=65535 b=15|call p.mod_shift a=1 b=0", "p.mod_shift 32768|p.mod_shift 1"),
    ("~sat+", "n", "call p.sat_plus a=18446744073709551615 b=1|call p.sat_plus a=1 b=2", "p.sat_plus 18446744073709551615|p.sat_plus 3"),
    ("~sat-", "n", "call p.sat_minus a=1 b=2|call p.sat_minus a=255 b=1", "p.sat_minus 0|p.sat_minus 254"),
    ("/ and %", "n", "call p.divided a=18446744073709551615 b=10|call p.rest a=18446744073709551615 b=10", "p.divided 1844674407370955161|p.rest 5"),
    (">>", "n", "call p.shifted a=18446744073709551615 b=63|call p.shifted a=256 b=8", "p.shifted 1|p.shifted 1"),
    ("& and | and ^", "n", "call p.bits a=12 b=10", "p.bits 527878"),
    ("a product of converted numbers", "n", "call p.square a=65535", "p.square 4294836225"),
    ("<", "n", "call p.less a=18446744073709551614 b=18446744073709551615|call p.less a=1 b=1", "p.less true|p.less false"),
    ("and, or, not", "n", "call p.both a=true b=true|call p.both a=true b=false|call p.neither a=false b=false|call p.neither a=false b=true",
     "p.both true|p.both false|p.neither true|p.neither false"),
    ("a callee that answers ok", "k", "call p.plain|call p.from", "p.plain ok|p.from 111"),
    ("a callee that answers an error ends its caller", "k", "call p.pick what=1|call p.plain|call p.from|call p.plain",
     "p.pick done|p.plain \"#k: bad\"|p.from 1|p.plain \"#base: disabled by previous error\""),
    ("a callee that answers a note ends its caller", "k", "call p.pick what=2|call p.plain|call p.from|call p.pick what=0|call p.plain",
     "p.pick done|p.plain \"@k: note\"|p.from 1|p.pick done|p.plain ok"),
    ("a callee that yields", "k", "call p.pick what=3|call p.plain|call p.from|call p.plain|call p.from",
     "p.pick done|p.plain \"$k: wait\"|p.from 1|p.plain ok|p.from 111"),
    ("a suspension that is returned is an error", "k", "call p.pick what=4|call p.plain|call p.from",
     "p.pick done|p.plain \"#base: cannot return a suspension\"|p.from 1"),
    ("any status is kept by =?", "k", "call p.pick what=1|call p.keep|call p.last|call p.kinds|call p.pick what=2|call p.keep|call p.last|call p.kinds|call p.pick what=0|call p.keep|call p.last|call p.kinds",
     "p.pick done|p.keep ok|p.last \"#k: bad\"|p.kinds 8|p.pick done|p.keep ok|p.last \"@k: note\"|p.kinds 2|p.pick done|p.keep ok|p.last ok|p.kinds 1"),
    ("a suspension that is kept by =? goes on later", "k", "call p.pick what=3|call p.keep|call p.last|call p.kinds|call p.from|call p.keep|call p.last|call p.from",
     "p.pick done|p.keep ok|p.last \"$k: wait\"|p.kinds 4|p.from 101|p.keep ok|p.last ok|p.from 211"),
    ("a private coroutine that was left goes on under another caller", "k", "call p.pick what=3|call p.keep|call p.plain|call p.from",
     "p.pick done|p.keep ok|p.plain ok|p.from 211"),
    ("a suspension that is handed on by return", "k", "call p.pick what=3|call p.hand|call p.hand",
     "p.pick done|p.hand \"#base: cannot return a suspension\"|p.hand \"#base: disabled by previous error\""),
    ("a note that is handed on by return", "k", "call p.pick what=2|call p.hand|call p.hand", "p.pick done|p.hand \"@k: note\"|p.hand \"@k: note\""),
    ("a struct inside, and one beside it", "out", "put b 0304|call p.first src=b|call p.first src=b|call p.both",
     "p.first ok b ri=1 wi=2 pos=0 open|p.first ok b ri=2 wi=2 pos=0 open|p.both 7000"),
    ("a struct inside waits for itself", "out", "call p.second src=b|put b 05|call p.second src=b|call p.both",
     "p.second \"$base: short read\" b ri=0 wi=0 pos=0 open|p.second ok b ri=1 wi=1 pos=0 open|p.both 5"),
    ("an error of a struct inside disables that one", "out", "put b 0a01|call p.first src=b|init p|put c 0901|call p.first src=c|call p.both",
     "p.first \"#base: bad argument\" b ri=1 wi=2 pos=0 open|p.first ok c ri=1 wi=2 pos=0 open|p.both 9000"),
    ("an error of a struct inside, kept by =?", "out", "put b 0901|call p.second src=b|call p.second src=b|call p.both",
     "p.second ok b ri=1 wi=2 pos=0 open|p.second ok b ri=1 wi=2 pos=0 open|p.both 0"),
    ("interleaved calls", "out", "call p.first src=b|put b 01|call p.second src=b|call p.first src=b|call p.both",
     "p.first \"$base: short read\" b ri=0 wi=0 pos=0 open|p.second \"#base: interleaved coroutine calls\" b ri=0 wi=1 pos=0 open|"
     "p.first \"#base: disabled by previous error\" b ri=0 wi=1 pos=0 open|p.both 0"),
    ("two receivers at once", "out", "new q out|init q|call p.first src=b|call q.second src=b|put b 0102|call p.first src=b|call q.second src=b|call p.both|call q.both",
     "p.first \"$base: short read\" b ri=0 wi=0 pos=0 open|q.second \"$base: short read\" b ri=0 wi=0 pos=0 open|p.first ok b ri=1 wi=2 pos=0 open|"
     "q.second ok b ri=2 wi=2 pos=0 open|p.both 1000|q.both 2"),
    ("a break out of two loops", "l", "put b 00050605|call p.find src=b|call p.get", "p.find ok b ri=4 wi=4 pos=0 open|p.get 101"),
    ("a continue of the outer loop", "l", "put b 05060005|call p.find src=b|put c 05|call p.find src=c|call p.get",
     "p.find \"$base: short read\" b ri=4 wi=4 pos=0 open|p.find ok c ri=1 wi=1 pos=0 open|p.get 101"),
    ("turns: an entry and the ways back", "l", "turns 4|call p.count to=3|turns 3|call p.count to=3", "p.count 3|p.count turns"),
    ("turns: calls inside take one each", "l", "turns 7|call p.steps to=3|call p.get|turns 6|call p.steps to=3", "p.steps done|p.get 3|p.steps turns"),
    ("turns: none for a call that isn't entered", "l", "turns 0|new q l|call q.count to=0|null z l|call z.count to=0|call p.count to=0",
     "q.count 0|z.count 0|p.count turns"),
    # The entry table, row by row.
    ("a null receiver", "r", "null z r|call z.got|call z.closed src=b|call z.fast src=b|call z.u8 src=b|call z.u8 src=null",
     "z.got 0|z.closed false b ri=0 wi=0 pos=0 open|z.fast false b ri=0 wi=0 pos=0 open|z.u8 \"#base: bad receiver\" b ri=0 wi=0 pos=0 open|z.u8 \"#base: bad receiver\""),
    ("a receiver that wasn't initialized", "r", "new z r|put b 01|call z.got|call z.length src=b|call z.fast src=b|call z.u8 src=b|init z|call z.u8 src=b|call z.got",
     "z.got 0|z.length 0 b ri=0 wi=1 pos=0 open|z.fast false b ri=0 wi=1 pos=0 open|z.u8 \"#base: initialize not called\" b ri=0 wi=1 pos=0 open|"
     "z.u8 ok b ri=1 wi=1 pos=0 open|z.got 1"),
    ("a disabled receiver", "r", "put b 0102|call p.u8 src=b|call p.u8 src=null|call p.u8 src=b|call p.fast src=b|call p.got|call p.length src=b|init p|call p.got",
     "p.u8 ok b ri=1 wi=2 pos=0 open|p.u8 \"#base: bad argument\"|p.u8 \"#base: disabled by previous error\" b ri=1 wi=2 pos=0 open|"
     "p.fast false b ri=1 wi=2 pos=0 open|p.got 1|p.length 1 b ri=1 wi=2 pos=0 open|p.got 0"),
    ("a bad argument of a pure method disables nothing", "r", "put b 01|call p.length src=null|call p.u8 src=b", "p.length 0|p.u8 ok b ri=1 wi=1 pos=0 open"),
    ("a bad argument of an impure method disables", "r", "put b 01|call p.fast src=null|call p.u8 src=b",
     "p.fast false|p.u8 \"#base: disabled by previous error\" b ri=0 wi=1 pos=0 open"),
    ("a bad argument comes before an interleaved call", "r", "call p.u8 src=b|call p.u16be src=null", "p.u8 \"$base: short read\" b ri=0 wi=0 pos=0 open|p.u16be \"#base: bad argument\""),
    ("pure and impure calls while a coroutine waits", "r", "call p.u8 src=b|call p.got|put c 010203|call p.fast src=c|put b 07|call p.u8 src=b|call p.got",
     "p.u8 \"$base: short read\" b ri=0 wi=0 pos=0 open|p.got 0|p.fast true c ri=2 wi=3 pos=0 open|p.u8 ok b ri=1 wi=1 pos=0 open|p.got 7"),
    ("init while a coroutine waits", "r", "put b 01|call p.u16be src=b|init p|put b 02|call p.u16be src=b|put b 03|call p.u16be src=b|call p.got",
     "p.u16be \"$base: short read\" b ri=1 wi=1 pos=0 open|p.u16be \"$base: short read\" b ri=2 wi=2 pos=0 open|p.u16be ok b ri=3 wi=3 pos=0 open|p.got 515"),
]


def script_of(package, lines):
    return "\n".join([f"new p {package}", "init p", "buf b 4", "buf c 4", *lines.split("|")]).encode()


def seen(text):
    return "|".join(line[5:] for line in text.split("\n") if re.match("call |show ", line))


def main():
    program = os.path.abspath(sys.argv[1])
    only, command = (sys.argv[2:] + ["", "mean"][len(sys.argv) - 2:])[:2]
    passed = failed = 0
    for name, package, lines, wanted in REPORTS:
        if only not in name:
            continue
        text = PACKAGES[package]
        script = script_of(package, lines)
        status = 7 if wanted.endswith(" turns") else 0
        came, second = answer(program, command, package, [("f.wuffs", text)], script), report(package, [text], script)
        is_right = came == second and seen(came[0]) == wanted and came[1] == status
        passed += is_right
        failed += not is_right
        if not is_right:
            print(f"{name}: the program says\n  {seen(came[0]) or came}\nthe second opinion\n  {seen(second[0]) or second}\nand wanted is\n  {wanted}")
    print(f"report_answers.py, {command}: {passed} passed, {failed} failed")
    return 1 if failed or not passed else 0


if __name__ == "__main__":
    sys.exit(main())
