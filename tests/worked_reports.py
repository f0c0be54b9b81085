#!/usr/bin/env python3
"""Small packages, each with a script and its whole report, worked out by hand from docs/LANGUAGE.md, SEMANTICS.md and SCRIPTS.md.

usage: worked_reports.py PROGRAM [NAME]    only the reports whose name has NAME in it
`mean`, `run`, and `exec` on the text that `gen` writes have to print the report, and the second opinion too (second_opinion/scripts.py).
REPORTS has a name, a package of PACKAGES, and the lines of the script; behind `=>` stands what follows a line's first two words in the
report, or `nothing` where the report has ended before. And each `while` of a package has to be one of the C text: no loop is lost or
written twice (docs/LOWERING.md); this is looked at for the packages of examples/ and report_answers.py too. Prints what differs; the
last line counts.
"""
import os
import pathlib
import re
import subprocess
import sys
import tempfile

import report_answers
from script_answers import answer
from second_opinion.scripts import report

ROOT = pathlib.Path(__file__).resolve().parent.parent
COMMANDS = ("mean", "run", "exec")

# Numbers of 16, 32 and 64 bits, and for each width the same methods, which hand on parts of their array.
RACK = """\
pub status "$pause"
pub struct rack?(
    a16 : array[4] base.u16,
    a32 : array[4] base.u32,
    a64 : array[4] base.u64,
    length : base.u64,
)
pub func rack.length() base.u64 {
    return this.length
}
""" + "".join("""\
pri func rack.count16!(x: slice base.u16, first: base.u16) {
    var i : base.u64
    var v : base.u16
    v = args.first
    while i < args.x.length() {
        args.x[i] = v
        v ~mod+= 1
        i ~mod+= 1
    } endwhile
}
pri func rack.sum16(x: slice base.u16) base.u16 {
    var i : base.u64
    var n : base.u16
    while i < args.x.length() {
        n = n ~sat+ args.x[i]
        i ~mod+= 1
    } endwhile
    return n
}
pri func rack.turn16!(x: slice base.u16) base.u16 {
    var n : base.u64
    var v : base.u16
    var sum : base.u16
    var t : slice base.u16
    if args.x.length() >= 1 {
        t = args.x[1 ..]
        sum = this.sum16(x: t)
        v = args.x[0]
        n = args.x.copy_from_slice!(s: t)
        if n < args.x.length() {
            args.x[n] = v ~mod* v
        }
    }
    return sum
}
pub func rack.fill16!(i: base.u64[..= 4], j: base.u64[..= 4], first: base.u16) {
    if args.i <= args.j {
        this.count16!(x: this.a16[args.i .. args.j], first: args.first)
    }
}
pub func rack.turned16!(i: base.u64[..= 4]) base.u16 {
    var n : base.u16
    n = this.turn16!(x: this.a16[args.i ..])
    return n
}
pub func rack.lift16!(i: base.u64[..= 4], j: base.u64[..= 4]) base.u64 {
    var n : base.u64
    var t : slice base.u16
    t = this.a16[args.i ..]
    n = t.copy_from_slice!(s: this.a16[.. args.j])
    return n
}
pub func rack.pause16?() {
    var t : slice base.u16
    t = this.a16[1 ..]
    this.length = t.length()
    yield? "$pause"
    this.length = t.length()
}
pub func rack.at16(i: base.u64[..= 3]) base.u16 {
    return this.a16[args.i]
}
""".replace("16", bits) for bits in ("16", "32", "64"))

PACKAGES = {
    "rack": RACK,
    "scale": """\
pri const LIMIT : base.u64 = 0xFFFF_FFFF_FFFF_FFFF
pri const DOZEN : base.u8 = 12
pri const GROSS : base.u8 = DOZEN * DOZEN
pub struct scale(
    grams : base.u32,
)
pub func scale.limit() base.u64 {
    return LIMIT
}
pub func scale.gross() base.u8 {
    return GROSS
}
pub func scale.grams() base.u32 {
    return this.grams
}
""",
    # Parcels: a byte tells how many bytes follow, and 0 that there are no more.
    "parcels": """\
pub struct sorter?(
    count : base.u32,
)
pub func sorter.sort?(src: base.io_reader) {
    var size : base.u8
    while true {
        size = args.src.read_u8?()
        if size == 0 {
            return ok
        }
        args.src.skip_u32?(n: size as base.u32)
        this.count ~mod+= 1
    } endwhile
}
pub func sorter.count() base.u32 {
    return this.count
}
""",
    # A bus takes groups of 55 at most, while 200 ride in it at most: so never more than 255.
    "bus": """\
pub status "#not a group"
pub status "#full"
pub struct bus?(
    riders : base.u8,
)
pub func bus.board?(src: base.io_reader) {
    var group : base.u8
    while true {
        group = args.src.read_u8?()
        if group == 0 {
            return ok
        }
        if group > 55 {
            return "#not a group"
        }
        if this.riders > 200 {
            return "#full"
        }
        this.riders += group
    } endwhile
}
pub func bus.riders() base.u8 {
    return this.riders
}
""",
    "gate": """\
pub struct gate?()
pub func gate.cart?(src: base.io_reader) {
    args.src.skip_u32?(n: 3)
}
pub func gate.walker?(src: base.io_reader) {
    args.src.skip_u32?(n: 1)
}
""",
    "diary": """\
pub struct diary?(
    when : base.u32,
)
pri func diary.entry?(src: base.io_reader) {
    var day : base.u8
    var hour : base.u8
    day = args.src.read_u8?()
    this.when = (day as base.u32) * 100
    hour = args.src.read_u8?()
    this.when = ((day as base.u32) * 100) + (hour as base.u32)
}
pub func diary.open?(src: base.io_reader) {
    var s : base.status
    s =? this.entry?(src: args.src)
    return ok
}
pub func diary.shut?(src: base.io_reader) {
    this.entry?(src: args.src)
}
pub func diary.when() base.u32 {
    return this.when
}
""",
    "stamp": """\
pub struct stamp?(
    seen : base.u32,
)
pub func stamp.read?(src: base.io_reader) {
    this.seen = args.src.read_u32le?()
}
pub func stamp.seen() base.u32 {
    return this.seen
}
""",
    "press": """\
pub struct press!()
pub func press.blank!(ink: slice base.u8) base.u64 {
    var n : base.u64
    var sheet : slice base.u8
    n = sheet.copy_from_slice!(s: args.ink)
    return n
}
pub func press.print!(page: base.io_writer, ink: slice base.u8) base.u64 {
    var n : base.u64
    n = args.page.copy_from_slice!(s: args.ink)
    return n
}
""",
    "land": """\
pub struct land()
pub func land.area(side: base.u16) base.u32 {
    return (args.side as base.u32) * (args.side as base.u32)
}
pub func land.rest(side: base.u16, other: base.u16) base.u16 {
    return args.side ~mod* args.other
}
pub func land.tiles(side: base.u8) base.u8 {
    return args.side ~mod* args.side
}
""",
    # A well gives 3, 2, 1 and 100; a tank doubles what it has before each drop.
    "water": """\
pub struct well?()
pub func well.draw?(dst: base.io_writer) {
    var left : base.u8
    left = 3
    while left > 0 {
        args.dst.write_u8?(a: left)
        left -= 1
    } endwhile
    args.dst.write_u8?(a: 100)
}
pub struct tank?(
    level : base.u32,
)
pub func tank.fill?(src: base.io_reader) {
    var drop : base.u8
    while true {
        drop = args.src.read_u8?()
        this.level = (this.level ~mod* 2) ~mod+ (drop as base.u32)
    } endwhile
}
pub func tank.level() base.u32 {
    return this.level
}
""",
    "fence": """\
pub struct fence()
pub func fence.length(near: base.u32, gate: base.u32, far: base.u32) base.u32 {
    if args.near <= args.gate {
        if args.gate <= args.far {
            assert args.near <= args.far via "a <= b: a <= c; c <= b"(c: args.gate)
            return args.far - args.near
        }
    }
    return 0
}
""",
    "mill": """\
pub struct mill?(
    sacks : base.u32,
)
pub func mill.grind?() {
    while true {
        this.sacks ~mod+= 1
    } endwhile
}
pub func mill.rounds(n: base.u32) base.u32 {
    var i : base.u32
    var j : base.u32
    var count : base.u32
    while i < args.n {
        j = 0
        while j < 2 {
            count ~mod+= 1
            j += 1
        } endwhile
        i ~mod+= 1
    } endwhile
    return count
}
pub func mill.sacks() base.u32 {
    return this.sacks
}
""",
    "shelf": """\
pub struct shelf!(
    jars : array[5] base.u16,
)
pub func shelf.fill!(first: base.u16[..= 65531]) {
    var i : base.u32
    while i < 5,
        inv i <= 5,
    {
        this.jars[i] = args.first + (i as base.u16)
        i += 1
    } endwhile
}
pub func shelf.jar(i: base.u32[..= 4]) base.u16 {
    return this.jars[args.i]
}
""",
    "scanner": """\
pub struct scanner!()
pub func scanner.second!(src: base.io_reader) base.u32 {
    var c : base.u8
    if args.src.length() >= 3 {
        args.src.skip_u32_fast!(actual: 1, worst_case: 2)
        c = args.src.peek_u8()
    }
    return c as base.u32
}
""",
    "mail": """\
pub struct mail?(
    last : base.u8,
)
pri func mail.fetch?(src: base.io_reader) {
    this.last = args.src.read_u8?()
}
pub func mail.next?(src: base.io_reader, boxes: base.u32[1 ..= 3]) {
    var s : base.status
    s =? this.fetch?(src: args.src)
    if not s.is_ok() {
        return s
    }
    if this.last == 0 {
        return base."@end of data"
    }
}
""",
    "toll": """\
pub struct toll?(
    paid : base.u32,
    rate : base.u32,
)
pub func toll.set!(rate: base.u32[..= 99]) {
    this.rate = args.rate
}
pri func toll.pass?(src: base.io_reader, rate: base.u32, tip: base.u32[..= 9]) {
    args.src.skip_u32?(n: 2)
    this.paid = args.rate ~mod+ (args.tip * 100)
}
pub func toll.cross?(src: base.io_reader, tip: base.u32[..= 9]) {
    this.pass?(src: args.src, rate: this.rate, tip: args.tip)
    this.paid ~mod+= 1
}
pub func toll.paid() base.u32 {
    return this.paid
}
""",
    "boiler": """\
pri struct valve?(
    turned : base.u32,
)
pub func valve.open?(src: base.io_reader) {
    var by : base.u8
    by = args.src.read_u8?()
    this.turned ~mod+= by as base.u32
}
pub func valve.flush?(src: base.io_reader) {
    args.src.skip_u32?(n: 4)
}
pub func valve.turned() base.u32 {
    return this.turned
}
pub struct boiler?(
    left : valve,
    right : valve,
)
pub func boiler.heat?(src: base.io_reader) {
    this.left.open?(src: args.src)
}
pub func boiler.cool?(src: base.io_reader) {
    this.right.open?(src: args.src)
}
pub func boiler.muddle?(src: base.io_reader) {
    var s : base.status
    s =? this.left.open?(src: args.src)
    s =? this.left.flush?(src: args.src)
}
pub func boiler.turned() base.u32 {
    var x : base.u32
    var y : base.u32
    x = this.left.turned()
    y = this.right.turned()
    return (x ~mod* 1000) ~mod+ y
}
""",
    # Lockers that are moved by sums of a byte, with and without its end: the same words name two lockers once the sum is past 255.
    "lockers": """\
pub struct lockers?(
    held : array[512] base.u8,
)
pub func lockers.put!(x: base.u8, y: base.u8, what: base.u8) {
    this.held[(args.x as base.u16) + (args.y as base.u16)] = args.what
}
pub func lockers.at(n: base.u16[..= 511]) base.u8 {
    return this.held[args.n]
}
pub func lockers.down!(x: base.u8, y: base.u8) {
    this.held[args.x ~mod+ args.y] = this.held[(args.x as base.u16) + (args.y as base.u16)]
}
pub func lockers.up!(x: base.u8, y: base.u8) {
    this.held[(args.x as base.u16) + (args.y as base.u16)] = this.held[args.x ~mod+ args.y]
}
pub func lockers.turn!(x: base.u8, y: base.u8) {
    this.held[args.x ~mod- args.y] = this.held[args.y ~mod- args.x]
}
pub func lockers.is_low(x: base.u8, y: base.u8) base.bool {
    return ((args.x ~mod+ args.y) as base.u16) == ((args.x as base.u16) + (args.y as base.u16))
}
pub func lockers.narrowed(x: base.u16) base.u16 {
    var n : base.u16
    n = args.x
    n = n & 0xFFFF
    n = ((n & 0xFF) as base.u8) as base.u16
    n = n
    return n
}
""",
    # A tray: each thing goes to a place that is told by what is left behind it, or by how much was taken.
    "tray": """\
pub struct tray?(
    held : array[4] base.u8,
    wide : array[4] base.u16,
)
pub func tray.by_left?(src: base.io_reader) {
    this.held[args.src.length() & 3] = args.src.read_u8?()
}
pub func tray.by_taken?(src: base.io_reader) {
    this.held[args.src.position() & 3] = args.src.read_u8?()
}
pub func tray.wide_by_left?(src: base.io_reader) {
    this.wide[args.src.length() & 3] = args.src.read_u16be?()
}
pub func tray.at(n: base.u32[..= 3]) base.u8 {
    return this.held[args.n]
}
pub func tray.wide_at(n: base.u32[..= 3]) base.u16 {
    return this.wide[args.n]
}
""",
    # A scribe: what a started write has is what was evaluated, whatever is said later.
    "scribe": """\
pub struct scribe?(
    ink : base.u8,
)
pub func scribe.refill!(ink: base.u8) {
    this.ink = args.ink
}
pub func scribe.write?(dst: base.io_writer, note: base.u8) {
    args.dst.write_u8?(a: this.ink)
    args.dst.write_u8?(a: args.note)
    args.dst.write_u8?(a: args.note ~mod+ this.ink)
}
pub func scribe.leap?(src: base.io_reader, n: base.u32) {
    args.src.skip_u32?(n: args.n)
    args.src.skip_u32?(n: args.n)
}
""",
    # A mole digs by two own tunnels, one of which is public: what is kept of a tunnel outlives who began it.
    "mole": """\
pub status "$rest"
pub struct mole?(
    depth : base.u32,
    last : base.status,
)
pub func mole.tunnel?(src: base.io_reader, by: base.u32) {
    var c : base.u16
    c = args.src.read_u16be?()
    this.depth = (this.depth ~mod+ (c as base.u32)) ~mod+ args.by
}
pub func mole.dig?(src: base.io_reader) {
    this.last =? this.tunnel?(src: args.src, by: 1000)
    if this.last.is_suspension() {
        return ok
    }
    return this.last
}
pub func mole.pass_on?(src: base.io_reader) {
    this.last =? this.tunnel?(src: args.src, by: 1000)
    return this.last
}
pub func mole.depth() base.u32 {
    return this.depth
}
pub func mole.last() base.status {
    return this.last
}
""",
    # A ruler: parts of a part that is replaced by itself.
    "ruler": """\
pub struct ruler!(
    left : base.u64,
)
pub func ruler.cut!(t: slice base.u8) base.u8 {
    var s : slice base.u8
    s = args.t
    if s.length() > 2 {
        s = s[s[0] & 1 .. (s[1] & 1) + 1]
    }
    this.left = s.length()
    if s.length() > 0 {
        return s[0]
    }
    return 0
}
pub func ruler.last!(t: slice base.u8) base.u8 {
    var s : slice base.u8
    s = args.t
    if (s.length() ~mod- 1) <= s.length() {
        s = s[s.length() ~mod- 1 ..]
    }
    this.left = s.length()
    if s.length() > 0 {
        return s[0]
    }
    return 0
}
pub func ruler.left() base.u64 {
    return this.left
}
""",
    # A stock of numbers: the place of a copy's count is told by what was copied.
    "stock": """\
pub struct stock!(
    n : array[4] base.u64,
    m : array[4] base.u64,
)
pub func stock.fill!(k: base.u64[..= 3]) {
    var w : slice base.u64
    this.m[0] = args.k
    w = this.n[..]
    this.n[this.n[0] & 3] = w.copy_from_slice!(s: this.m[.. 2])
}
pub func stock.at(i: base.u32[..= 3]) base.u64 {
    return this.n[args.i]
}
""",
    # A cage inside a zoo. What refuses is inside, and answers each method as it answers.
    "zoo": """\
pub status "#bitten"
pub struct cage?(
    n : base.u32,
)
pub func cage.feed?(src: base.io_reader) {
    args.src.skip_u32?(n: 1)
    return "#bitten"
}
pub func cage.knock!() base.u32 {
    this.n ~mod+= 1
    return 50
}
pub func cage.is_full!() base.bool {
    return true
}
pub func cage.sign!() base.status {
    return ok
}
pub func cage.n() base.u32 {
    return this.n ~mod+ 7
}
pub struct zoo?(
    x : cage,
    st : base.status,
)
pub func zoo.feed?(src: base.io_reader) {
    this.st =? this.x.feed?(src: args.src)
    return ok
}
pub func zoo.knock!() base.u32 {
    var n : base.u32
    n = this.x.knock!()
    return n
}
pub func zoo.is_full!() base.bool {
    var b : base.bool
    b = this.x.is_full!()
    return b
}
pub func zoo.sign!() base.status {
    var s : base.status
    s = this.x.sign!()
    return s
}
pub func zoo.n() base.u32 {
    var n : base.u32
    n = this.x.n()
    return n
}
pub func zoo.st() base.status {
    return this.st
}
""",
    # A gauge: a wrong argument disables by an impure method, and an error that it answers does not.
    "gauge": """\
pub struct gauge(
    v : base.u32,
)
pub func gauge.pure(k: base.u8[1 ..= 9], src: base.io_reader) base.u8 {
    return args.k
}
pub func gauge.set!(src: base.io_reader, k: base.u8[1 ..= 9]) base.bool {
    this.v = args.k as base.u32
    return true
}
pub func gauge.error!() base.status {
    return base."#bad argument"
}
pub func gauge.v() base.u32 {
    return this.v
}
""",
    "dial": """\
pub struct dial()
pub func dial.any(x: base.u8[8 ..= 11], y: base.u8[8 ..= 11]) base.u8 {
    return (args.x | args.y) + 244
}
pub func dial.all(x: base.u8[8 ..= 11], y: base.u8[8 ..= 11]) base.u8 {
    return (args.x & args.y) - 8
}
""",
}

# Each row has a line before it that names the rule.
REPORTS = [
    # Entry: a raw and a null receiver answer 0 by a pure method; an init of a null one answers a status, and leaves it null. Constants.
    ("constants", "scale", """
        new s scale
        call s.limit => 0
        init s => ok
        call s.limit => 18446744073709551615
        call s.gross => 144
        call s.grams => 0
        null z scale
        call z.limit => 0
        init z => "#base: bad receiver"
        call z.gross => 0"""),
    # What remains, and `compact`: a read and a skip go on where they stopped, and the position counts what was moved away.
    ("a stream through a buffer of one byte", "parcels", """
        new s sorter
        init s => ok
        buf b 1 => 1
        put b 02 => 1
        call s.sort src=b => "$base: short read" b ri=1 wi=1 pos=0 open
        compact b
        call s.sort src=b => "$base: short read" b ri=0 wi=0 pos=1 open
        put b aabb => 1
        call s.sort src=b => "$base: short read" b ri=1 wi=1 pos=1 open
        compact b
        call s.count => 0
        put b bb => 1
        call s.sort src=b => "$base: short read" b ri=1 wi=1 pos=2 open
        compact b
        call s.count => 1
        put b 01 => 1
        call s.sort src=b => "$base: short read" b ri=1 wi=1 pos=3 open
        compact b
        put b cc => 1
        call s.sort src=b => "$base: short read" b ri=1 wi=1 pos=4 open
        compact b
        put b 00 => 1
        call s.sort src=b => ok b ri=1 wi=1 pos=5 open
        call s.count => 2"""),
    # Facts at their edge: the sum comes to the type's greatest number. Entry: an error disables; a pure method still answers, init clears.
    ("a sum at its limit", "bus", """
        new x bus
        init x => ok
        buf b 8 => 8
        put b 373737233700 => 6
        call x.board src=b => ok b ri=6 wi=6 pos=0 open
        call x.riders => 255
        new y bus
        init y => ok
        buf c 8 => 8
        put c 373737240100 => 6
        call y.board src=c => "#bus: full" c ri=5 wi=6 pos=0 open
        call y.board src=c => "#base: disabled by previous error" c ri=5 wi=6 pos=0 open
        call y.riders => 201
        init y => ok
        call y.riders => 0
        call y.board src=c => ok c ri=6 wi=6 pos=0 open
        call x.riders => 255"""),
    # Entry: what was never made ready, and what is null, is told before the body is entered; neither takes a byte.
    ("raw and null receivers", "bus", """
        new x bus
        buf b 4 => 4
        put b 0500 => 2
        call x.board src=b => "#base: initialize not called" b ri=0 wi=2 pos=0 open
        call x.riders => 0
        null z bus
        call z.board src=b => "#base: bad receiver" b ri=0 wi=2 pos=0 open
        call z.riders => 0
        init z => "#base: bad receiver"
        call z.board src=b => "#base: bad receiver" b ri=0 wi=2 pos=0 open
        init x => ok
        call x.board src=b => ok b ri=2 wi=2 pos=0 open
        call x.riders => 5"""),
    # Steps: a coroutine that goes on uses the arguments of that call. Entry: a null buffer is a bad argument, also while it waits.
    ("another buffer, and a null one", "bus", """
        new x bus
        init x => ok
        buf b 4 => 4
        buf c 4 => 4
        put b 05 => 1
        call x.board src=b => "$base: short read" b ri=1 wi=1 pos=0 open
        put c 0700 => 2
        call x.board src=c => ok c ri=2 wi=2 pos=0 open
        call x.riders => 12
        put b 09 => 1
        call x.board src=b => "$base: short read" b ri=2 wi=2 pos=0 open
        call x.board src=null => "#base: bad argument"
        call x.board src=b => "#base: disabled by previous error" b ri=2 wi=2 pos=0 open
        call x.riders => 21"""),
    # Entry: an interleaved coroutine disables its receiver and no other, though both read one buffer.
    ("interleaved calls of one of two receivers", "gate", """
        new e gate
        init e => ok
        new w gate
        init w => ok
        buf b 6 => 6
        put b 0a => 1
        call e.cart src=b => "$base: short read" b ri=1 wi=1 pos=0 open
        call w.cart src=b => "$base: short read" b ri=1 wi=1 pos=0 open
        call e.walker src=b => "#base: interleaved coroutine calls" b ri=1 wi=1 pos=0 open
        call e.cart src=b => "#base: disabled by previous error" b ri=1 wi=1 pos=0 open
        put b 0b0c0d => 3
        call e.walker src=b => "#base: disabled by previous error" b ri=1 wi=4 pos=0 open
        call w.cart src=b => ok b ri=4 wi=4 pos=0 open
        put b 0e => 1
        init e => ok
        call e.walker src=b => ok b ri=5 wi=5 pos=0 open"""),
    # What remains is kept by the method, not by its caller: it goes on under another one, with the locals that it had.
    ("a private coroutine that outlives its caller", "diary", """
        new d diary
        init d => ok
        buf b 4 => 4
        put b 0c => 1
        call d.open src=b => ok b ri=1 wi=1 pos=0 open
        call d.when => 1200
        put b 1e => 1
        call d.shut src=b => ok b ri=2 wi=2 pos=0 open
        call d.when => 1230
        put b 0d => 1
        call d.shut src=b => "$base: short read" b ri=3 wi=3 pos=0 open
        call d.when => 1300"""),
    # Steps: a read keeps the bytes that it has. Its number has its highest bit set, and is assigned when it is whole.
    ("a number in pieces, the low byte first", "stamp", """
        new s stamp
        init s => ok
        buf b 4 => 4
        put b a0 => 1
        call s.read src=b => "$base: short read" b ri=1 wi=1 pos=0 open
        call s.read src=b => "$base: short read" b ri=1 wi=1 pos=0 open
        put b b1c2 => 2
        call s.read src=b => "$base: short read" b ri=3 wi=3 pos=0 open
        call s.seen => 0
        put b d3 => 1
        call s.read src=b => ok b ri=4 wi=4 pos=0 open
        call s.seen => 3552752032
        compact b
        put b 78563412 => 4
        call s.read src=b => ok b ri=4 wi=4 pos=4 open
        call s.seen => 305419896"""),
    # Base methods: a copy takes as much as both have. A slice that was never assigned, and null, are empty.
    ("copies of nothing, to nothing, and of more than fits", "press", """
        new p press
        init p => ok
        bytes a 0a0b0c => 3
        bytes e - => 0
        buf b 2 => 2
        call p.blank ink=null => 0
        call p.blank ink=a => 0
        call p.print page=b ink=null => 0 b ri=0 wi=0 pos=0 open
        call p.print page=b ink=e => 0 b ri=0 wi=0 pos=0 open
        call p.print ink=a page=b => 2 b ri=0 wi=2 pos=0 open
        show b => 0a0b ri=0 wi=2 pos=0 open
        call p.print ink=a page=b => 0 b ri=0 wi=2 pos=0 open
        show a => 0a0b0c"""),
    # Expressions: numbers of 8 and 16 bits multiply within their width, also where the product leaves what C calculates them in.
    ("products of narrow numbers", "land", """
        new l land
        init l => ok
        call l.area side=46341 => 2147488281
        call l.area side=65534 => 4294705156
        call l.rest side=46341 other=46341 => 4633
        call l.rest side=65535 other=65533 => 3
        call l.tiles side=254 => 4
        call l.tiles side=16 => 0"""),
    # Steps: a write keeps its byte while there is no room, and a read waits for it: one byte goes over at a time.
    ("a writer and a reader on one byte", "water", """
        new w well
        init w => ok
        new t tank
        init t => ok
        buf b 1 => 1
        call w.draw dst=b => "$base: short write" b ri=0 wi=1 pos=0 open
        call t.fill src=b => "$base: short read" b ri=1 wi=1 pos=0 open
        compact b
        call w.draw dst=b => "$base: short write" b ri=0 wi=1 pos=1 open
        call t.fill src=b => "$base: short read" b ri=1 wi=1 pos=1 open
        compact b
        call w.draw dst=b => "$base: short write" b ri=0 wi=1 pos=2 open
        call t.fill src=b => "$base: short read" b ri=1 wi=1 pos=2 open
        compact b
        call w.draw dst=b => ok b ri=0 wi=1 pos=3 open
        call t.fill src=b => "$base: short read" b ri=1 wi=1 pos=3 open
        compact b
        call t.level => 134"""),
    # Assertions and axioms: what an axiom gives lets a difference be taken, and leaves nothing at run time.
    ("a difference by an axiom", "fence", """
        new f fence
        init f => ok
        call f.length near=2 gate=2 far=40 => 38
        call f.length near=0 gate=7 far=4294967295 => 4294967295
        call f.length near=5 gate=5 far=5 => 0
        call f.length near=9 gate=3 far=20 => 0"""),
    # Turns: one entry, and for each round three ways back; a report ends where they are too few.
    ("turns of loops in loops", "mill", """
        new m mill
        init m => ok
        turns 100
        call m.rounds n=33 => 66
        call m.rounds n=34 => turns
        call m.sacks => nothing"""),
    # Turns: a loop without end takes all of them, be they many or few.
    ("turns of a loop without end", "mill", """
        new m mill
        init m => ok
        turns 250
        call m.grind => turns
        init m => nothing"""),
    # Loops: `inv` carries the index to its edge, and the last element to its own. Entry: numbers outside a refinement.
    ("an array that is filled", "shelf", """
        new s shelf
        init s => ok
        call s.jar i=4 => 0
        call s.fill first=65531 => done
        call s.jar i=0 => 65531
        call s.jar i=4 => 65535
        call s.jar i=5 => 0
        call s.fill first=7 => done
        call s.jar i=3 => 10
        call s.fill first=65532 => done
        call s.fill first=8 => done
        call s.jar i=3 => 10"""),
    # Base methods: a fast skip takes the actual bytes, and what is known of the length lets a peek follow. A peek takes nothing.
    ("a fast skip, and a peek behind it", "scanner", """
        new s scanner
        init s => ok
        buf b 4 => 4
        put b 0506 => 2
        call s.second src=b => 0 b ri=0 wi=2 pos=0 open
        put b 07 => 1
        call s.second src=b => 6 b ri=1 wi=3 pos=0 open
        call s.second src=b => 0 b ri=1 wi=3 pos=0 open"""),
    # Steps: a suspension can't be returned, be the buffer closed or not; a note can, and disables nothing. Entry: refinements.
    ("a status that is handed on, and refined arguments", "mail", """
        new p mail
        init p => ok
        buf b 2 => 2
        close b
        call p.next src=b boxes=1 => "#base: cannot return a suspension" b ri=0 wi=0 pos=0 closed
        call p.next src=b boxes=1 => "#base: disabled by previous error" b ri=0 wi=0 pos=0 closed
        new q mail
        init q => ok
        buf c 4 => 4
        put c 2a00 => 2
        call q.next src=c boxes=3 => ok c ri=1 wi=2 pos=0 open
        call q.next src=c boxes=1 => "@base: end of data" c ri=2 wi=2 pos=0 open
        put c 2b => 1
        call q.next src=c boxes=2 => ok c ri=3 wi=3 pos=0 open
        call q.next src=c boxes=4 => "#base: bad argument" c ri=3 wi=3 pos=0 open
        call q.next src=c boxes=2 => "#base: disabled by previous error" c ri=3 wi=3 pos=0 open
        init q => ok
        call q.next src=c boxes=0 => "#base: bad argument" c ri=3 wi=3 pos=0 open
        call q.next src=c boxes=1 => "#base: disabled by previous error" c ri=3 wi=3 pos=0 open"""),
    # Steps: when a call is resumed, its arguments are evaluated anew, of the fields as they are then; a skip's are not.
    ("arguments of the call that goes on", "toll", """
        new t toll
        init t => ok
        buf b 4 => 4
        call t.set rate=30 => done
        put b 00 => 1
        call t.cross src=b tip=2 => "$base: short read" b ri=1 wi=1 pos=0 open
        call t.set rate=45 => done
        put b 00 => 1
        call t.cross src=b tip=7 => ok b ri=2 wi=2 pos=0 open
        call t.paid => 746"""),
    # Steps: a suspension of a call through a field is handed on, and goes on there.
    ("a struct inside that waits", "boiler", """
        new x boiler
        init x => ok
        buf b 4 => 4
        call x.heat src=b => "$base: short read" b ri=0 wi=0 pos=0 open
        put b 09 => 1
        call x.heat src=b => ok b ri=1 wi=1 pos=0 open
        call x.turned => 9000"""),
    # Entry of a call through a field: interleaved calls disable the field alone; its refusal is the call's answer, which disables the outer.
    ("a struct inside that is disabled", "boiler", """
        new x boiler
        init x => ok
        buf c 4 => 4
        call x.muddle src=c => ok c ri=0 wi=0 pos=0 open
        put c 05 => 1
        call x.cool src=c => ok c ri=1 wi=1 pos=0 open
        call x.heat src=c => "#base: disabled by previous error" c ri=1 wi=1 pos=0 open
        call x.cool src=c => "#base: disabled by previous error" c ri=1 wi=1 pos=0 open
        call x.muddle src=c => "#base: disabled by previous error" c ri=1 wi=1 pos=0 open
        call x.turned => 5
        init x => ok
        put c 06 => 1
        call x.heat src=c => ok c ri=2 wi=2 pos=0 open
        call x.turned => 6000"""),
    # Slices of 16 bits: their elements wrap, add up to the type's greatest number at most, and move over one another without loss.
    ("slices of 16 bits", "rack", """
        new r rack
        init r => ok
        call r.fill16 i=0 j=4 first=65533 => done
        call r.at16 i=2 => 65535
        call r.at16 i=3 => 0
        call r.lift16 i=1 j=4 => 3
        call r.at16 i=0 => 65533
        call r.at16 i=1 => 65533
        call r.at16 i=3 => 65535
        call r.turned16 i=0 => 65535
        call r.at16 i=0 => 65533
        call r.at16 i=2 => 65535
        call r.at16 i=3 => 9
        call r.turned16 i=3 => 0
        call r.at16 i=3 => 81
        call r.turned16 i=4 => 0
        call r.fill16 i=3 j=1 first=7 => done
        call r.lift16 i=4 j=4 => 0
        call r.at16 i=3 => 81
        call r.at32 i=0 => 0"""),
    # The same of 32 bits: only the elements of a part change.
    ("slices of 32 bits", "rack", """
        new r rack
        init r => ok
        call r.fill32 i=1 j=3 first=4294967295 => done
        call r.fill32 i=3 j=4 first=70000 => done
        call r.at32 i=0 => 0
        call r.at32 i=1 => 4294967295
        call r.at32 i=2 => 0
        call r.lift32 i=2 j=3 => 2
        call r.at32 i=2 => 0
        call r.at32 i=3 => 4294967295
        call r.turned32 i=1 => 4294967295
        call r.at32 i=1 => 0
        call r.at32 i=2 => 4294967295
        call r.at32 i=3 => 1
        call r.fill32 i=0 j=2 first=70000 => done
        call r.turned32 i=0 => 4294967295
        call r.at32 i=0 => 70001
        call r.at32 i=3 => 605032704
        call r.turned32 i=2 => 605032704
        call r.at32 i=3 => 1
        call r.at16 i=3 => 0
        call r.at64 i=0 => 0"""),
    # The same of 64 bits.
    ("slices of 64 bits", "rack", """
        new r rack
        init r => ok
        call r.fill64 i=0 j=4 first=18446744073709551614 => done
        call r.turned64 i=0 => 18446744073709551615
        call r.at64 i=0 => 18446744073709551615
        call r.at64 i=1 => 0
        call r.at64 i=3 => 4
        call r.turned64 i=1 => 5
        call r.at64 i=1 => 1
        call r.at64 i=3 => 0
        call r.lift64 i=0 j=2 => 2
        call r.lift64 i=2 j=2 => 2
        call r.at64 i=2 => 18446744073709551615
        call r.at64 i=3 => 1
        call r.fill64 i=2 j=3 first=4294967296 => done
        call r.turned64 i=2 => 1
        call r.at64 i=2 => 1
        call r.at64 i=3 => 0
        call r.at32 i=3 => 0
        call r.length => 0"""),
    # Steps: a slice in a local is empty after a suspension, whatever its elements are.
    ("slices of each width that are lost", "rack", """
        new r rack
        init r => ok
        call r.pause16 => "$rack: pause"
        call r.length => 3
        call r.pause32 => "#base: interleaved coroutine calls"
        init r => ok
        call r.pause16 => "$rack: pause"
        call r.pause16 => ok
        call r.length => 0
        call r.pause32 => "$rack: pause"
        call r.length => 3
        call r.pause32 => ok
        call r.length => 0
        call r.pause64 => "$rack: pause"
        call r.length => 3
        call r.pause64 => ok
        call r.length => 0"""),
    # A place is set to itself only where it is the same place: 200 + 200 is 400, and 144 modulo 256.
    ("places that are nearly alike", "lockers", """
        new l lockers
        init l => ok
        call l.put x=200 y=200 what=7 => done
        call l.down x=200 y=200 => done
        call l.at n=144 => 7
        call l.put x=100 y=44 what=9 => done
        call l.at n=400 => 7
        call l.up x=200 y=200 => done
        call l.at n=400 => 9
        call l.turn x=1 y=113 => done
        call l.at n=144 => 0
        call l.down x=100 y=44 => done
        call l.at n=144 => 0
        call l.is_low x=200 y=55 => true
        call l.is_low x=200 y=56 => false
        call l.narrowed x=515 => 3"""),
    # The target of a call is found when the call has its result: what is taken isn't left any more, and counts as taken.
    ("targets that are told by what is left", "tray", """
        new t tray
        init t => ok
        buf b 8 => 8
        put b 0708 => 2
        call t.by_left src=b => ok b ri=1 wi=2 pos=0 open
        call t.by_left src=b => ok b ri=2 wi=2 pos=0 open
        call t.at n=0 => 8
        call t.at n=1 => 7
        call t.at n=2 => 0
        put b 09 => 1
        call t.by_taken src=b => ok b ri=3 wi=3 pos=0 open
        call t.at n=2 => 0
        call t.at n=3 => 9
        call t.wide_by_left src=b => "$base: short read" b ri=3 wi=3 pos=0 open
        put b 01 => 1
        call t.wide_by_left src=b => "$base: short read" b ri=4 wi=4 pos=0 open
        put b 0203 => 2
        call t.wide_by_left src=b => ok b ri=5 wi=6 pos=0 open
        call t.wide_at n=1 => 258
        call t.wide_at n=2 => 0"""),
    # What a started write or skip has is evaluated once; all else of a call is evaluated anew where it goes on.
    ("a started write keeps its byte, a started skip its number", "scribe", """
        new s scribe
        init s => ok
        buf b 1 => 1
        buf c 2 => 2
        buf d 0 => 0
        call s.refill ink=5 => done
        call s.write dst=d note=7 => "$base: short write" d ri=0 wi=0 pos=0 open
        call s.refill ink=6 => done
        call s.write dst=b note=8 => "$base: short write" b ri=0 wi=1 pos=0 open
        show b => 05 ri=0 wi=1 pos=0 open
        call s.write dst=c note=9 => ok c ri=0 wi=2 pos=0 open
        show c => 080f ri=0 wi=2 pos=0 open
        buf r 4 => 4
        put r 01 => 1
        call s.leap src=r n=2 => "$base: short read" r ri=1 wi=1 pos=0 open
        put r 0203 => 2
        call s.leap src=r n=1 => ok r ri=3 wi=3 pos=0 open"""),
    # What is left of a coroutine stays where its caller goes on; a suspension that is kept and then returned is an error.
    ("a public coroutine that a method has begun, taken up by the host", "mole", """
        new m mole
        init m => ok
        buf b 8 => 8
        put b 01 => 1
        call m.dig src=b => ok b ri=1 wi=1 pos=0 open
        call m.last => "$base: short read"
        put b 02 => 1
        call m.tunnel src=b by=5 => ok b ri=2 wi=2 pos=0 open
        call m.depth => 263
        put b 03 => 1
        call m.pass_on src=b => "#base: cannot return a suspension" b ri=3 wi=3 pos=0 open
        call m.tunnel src=b by=5 => "#base: disabled by previous error" b ri=3 wi=3 pos=0 open
        call m.depth => 263
        call m.last => "$base: short read"
        init m => ok
        call m.last => ok
        put b 0405 => 2
        call m.tunnel src=b by=1 => ok b ri=5 wi=5 pos=0 open
        call m.depth => 1030"""),
    # Both ends of a part are those of the slice that it replaces.
    ("parts of a part that they replace", "ruler", """
        new r ruler
        init r => ok
        bytes t 030405 => 3
        bytes u 020709 => 3
        bytes v 010305 => 3
        call r.cut t=t => 0
        call r.left => 0
        call r.cut t=u => 2
        call r.left => 2
        call r.cut t=v => 3
        call r.left => 1
        call r.last t=t => 5
        call r.left => 1
        call r.last t=null => 0
        call r.left => 0"""),
    # The target of a call is found when the call has its result: the copy has changed its index.
    ("a count whose place is told by what was copied", "stock", """
        new i stock
        init i => ok
        call i.fill k=3 => done
        call i.at i=0 => 3
        call i.at i=3 => 2
        call i.fill k=1 => done
        call i.at i=0 => 1
        call i.at i=1 => 2
        call i.at i=3 => 2"""),
    # A struct inside that is disabled answers with the zero of the result, and a status with an error; pure methods go on.
    ("a disabled struct inside answers each method with its zero", "zoo", """
        new z zoo
        init z => ok
        buf b 4 => 4
        put b 0102 => 2
        call z.knock => 50
        call z.is_full => true
        call z.sign => ok
        call z.n => 8
        call z.feed src=b => ok b ri=1 wi=2 pos=0 open
        call z.st => "#zoo: bitten"
        call z.knock => 0
        call z.is_full => false
        call z.sign => "#base: disabled by previous error"
        call z.n => 8
        call z.feed src=b => ok b ri=1 wi=2 pos=0 open
        call z.st => "#base: disabled by previous error"
        init z => ok
        call z.knock => 50
        call z.n => 8"""),
    # Entry: a wrong argument disables by an impure method and not by a pure one; an error that an impure method answers disables nothing.
    ("wrong arguments of pure and impure methods, and an error that an impure one answers", "gauge", """
        new g gauge
        buf b 1 => 1
        call g.pure k=0 src=null => 0
        init g => ok
        call g.pure k=0 src=b => 0 b ri=0 wi=0 pos=0 open
        call g.pure k=5 src=null => 0
        call g.pure k=9 src=b => 9 b ri=0 wi=0 pos=0 open
        call g.error => "#base: bad argument"
        call g.set k=3 src=b => true b ri=0 wi=0 pos=0 open
        call g.set k=10 src=b => false b ri=0 wi=0 pos=0 open
        call g.set k=3 src=b => false b ri=0 wi=0 pos=0 open
        call g.error => "#base: disabled by previous error"
        call g.v => 3
        call g.pure k=9 src=b => 9 b ri=0 wi=0 pos=0 open
        call g.pure k=10 src=b => 0 b ri=0 wi=0 pos=0 open"""),
    # Ranges of `|` and `&` are exact at both ends: 8 to 11 here.
    ("ors and ands of refined numbers", "dial", """
        new d dial
        init d => ok
        call d.any x=9 y=10 => 255
        call d.any x=8 y=8 => 252
        call d.all x=9 y=10 => 0
        call d.all x=11 y=11 => 3
        call d.any x=7 y=8 => 0
        call d.all x=11 y=12 => 0"""),
]


def worked(lines):
    """The script, its report and how it ends, of the lines of a row."""
    pairs = [line.strip().split(" => ") for line in lines.strip().split("\n")]
    script = "".join(f"{said}\n" for said, *_ in pairs)
    told = "".join(" ".join([*said.split(" ")[:2], *more]) + "\n" for said, *more in pairs if more != ["nothing"])
    return script.encode(), (told, 7 if told.endswith(" turns\n") else 0)


def loops(text):
    """How many loops a package has, or its C text: each begins a line."""
    return len(re.findall(r"^ *while\b", text, re.MULTILINE))


def written(program, package, text):
    with tempfile.TemporaryDirectory() as folder:
        pathlib.Path(folder, "f.wuffs").write_text(text)
        return subprocess.run([program, "gen", package, "f.wuffs"], cwd=folder, capture_output=True, text=True, timeout=60).stdout


def cases(program):
    """Names, what is wanted, and what comes by each way that has to come to it."""
    for name, package, lines in REPORTS:
        text, (script, wanted) = PACKAGES[package], worked(lines)
        ways = {command: lambda command=command: answer(program, command, package, [("f.wuffs", text)], script) for command in COMMANDS}
        yield name, wanted, {**ways, "the second opinion": lambda: report(package, [text], script)}
    examples = {path.stem: path.read_text() for path in sorted((ROOT / "examples").glob("*.wuffs"))}
    for package, text in {**PACKAGES, **report_answers.PACKAGES, **examples}.items():
        yield f"loops of {package}", loops(text), {"gen": lambda: loops(written(program, package, text))}


def main():
    program, only = os.path.abspath(sys.argv[1]), (sys.argv[2:] + [""])[0]
    passed = failed = 0
    for name, wanted, ways in cases(program):
        if only not in name:
            continue
        wrong = {way: came for way, came in ((way, come()) for way, come in ways.items()) if came != wanted}
        passed += not wrong
        failed += bool(wrong)
        for way, came in wrong.items():
            print(f"{name}: by {way} comes {came}, and {wanted} is wanted")
    print(f"worked_reports.py: {passed} passed, {failed} failed")
    return 1 if failed or not passed else 0


if __name__ == "__main__":
    sys.exit(main())
