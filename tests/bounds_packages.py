"""Small packages and what the rules of bounds say of each, written by hand from the rules.

A row has a name, the rule that refuses the package or `ok`, and the lines of a method's body, where an `@` stands at the refused
place. `packages` gives each as (name, text, answer): the text of one file, and what `check` says after `refused RULE FILE:`.
"""

# A method of each kind stands before the method f; the fields of s, its arguments and locals are those that the rows speak of.
FRONT = ["pri struct p?(", "x : base.u8,", ")", "pub func p.set!(v: base.u8[..= 9]) base.u8[..= 9] {", "this.x = args.v", "return args.v",
         "}", "pub func p.more?(from: base.io_reader) {", "this.x = args.from.read_u8?()", "}",
         "pub struct s?(", "n : base.u32,", "m : base.u8[..= 9],", "f : base.bool,", "a : array[4] base.u8,", "b : array[256] base.u8,",
         "d : array[4] base.u8[..= 3],", "h : p,", ")",
         "pri func s.small(v: base.u8[..= 9]) base.u8[..= 9] {", "return args.v", "}",
         "pri func s.change!(v: base.u8[..= 9], from: base.io_reader) {", "this.n = 1", "}",
         "pri func s.wait?(v: base.u8[..= 9]) {", "}"]
HEAD = ("pub func s.f?(r: base.io_reader, w: base.io_writer, k: base.u8, e: base.u8[..= 9], i: base.u32, j: base.u32, o: base.u32, "
        "z: base.bool, g: slice base.u8) {")
LOCALS = ["var x : base.u32", "var y : base.u32", "var c : base.u8", "var u : base.u16", "var q : base.status", "var l : slice base.u8",
          "var t : base.bool", "var v : base.u64"]

# One number, from a whole type on.
NUMBERS = [
    ("a constant that doesn't fit its target", "B1", "c = @300"),
    ("the largest constant that fits", "ok", "c = 255"),
    ("a sum beyond its width", "B1", "x = args.j @+ 1"),
    ("a sum below a bound", "ok", "if args.j < 4294967295 {", "x = args.j + 1", "}"),
    ("a sum at a bound one too high", "B1", "if args.j <= 4294967295 {", "x = args.j @+ 1", "}"),
    ("a sum of bytes", "B1", "c = args.k @+ 1"),
    ("a sum of bytes under a constant on the left", "ok", "if 255 > args.k {", "c = args.k + 1", "}"),
    ("a difference below 0", "B1", "x = args.j @- 1"),
    ("a difference of what is above 0", "ok", "if args.j > 0 {", "x = args.j - 1", "}"),
    ("a difference of what isn't 0", "ok", "if args.j <> 0 {", "x = args.j - 1", "}"),
    ("a difference of what isn't 1", "B1", "if args.j <> 1 {", "x = args.j @- 1", "}"),
    ("a difference of two in order", "ok", "if args.i <= args.j {", "x = args.j - args.i", "}"),
    ("a difference of two in strict order", "ok", "if args.i < args.j {", "x = args.j - args.i", "}"),
    ("a difference of two, the order turned round", "ok", "if args.j >= args.i {", "x = args.j - args.i", "}"),
    ("a difference of two that differ", "B1", "if args.i <> args.j {", "x = args.j @- args.i", "}"),
    ("a difference of two in the other order", "B1", "if args.j <= args.i {", "x = args.j @- args.i", "}"),
    ("a difference after a refusal of the other order", "ok", "if args.i > args.j {", "return ok", "}", "x = args.j - args.i"),
    ("a product beyond its width", "B1", "x = args.j @* 2"),
    ("a product at its largest", "ok", "if args.j <= 2147483647 {", "x = args.j * 2", "}"),
    ("a product one above", "B1", "if args.j <= 2147483648 {", "x = args.j @* 2", "}"),
    ("a product of bytes in 16 bits", "ok", "u = (args.k as base.u16) * (args.k as base.u16)"),
    ("a chain whose first part fails", "B1", "x = args.j @+ args.i + args.o"),
    ("a chain whose second part fails", "B1", "x = (args.k as base.u32) + (args.e as base.u32) @+ args.j"),
    ("a chain of bytes that fits", "ok", "u = (args.k as base.u16) + (args.k as base.u16) + (args.k as base.u16)"),
    ("a chain that a fact about the whole saves too late", "B1", "if (args.i @+ args.j + 1) < 5 {", "}"),
    ("a refined target", "B1", "this.m = @args.k"),
    ("a refined target under a bound", "ok", "if args.k <= 9 {", "this.m = args.k", "}"),
    ("a refined target under a bound one too high", "B1", "if args.k <= 10 {", "this.m = @args.k", "}"),
    ("a refined value", "ok", "this.m = args.e"),
    ("a refined element as a target", "B1", "this.d[0] = @args.k"),
    ("a refined element under a bound", "ok", "if args.k < 4 {", "this.d[0] = args.k", "}"),
    ("an element's refinement as an index", "ok", "c = this.a[this.d[0]]"),
    ("a conversion to fewer bits", "B1", "c = args.j @as base.u8"),
    ("a conversion under a bound", "ok", "if args.j < 256 {", "c = args.j as base.u8", "}"),
    ("a conversion under a bound one too high", "B1", "if args.j <= 256 {", "c = args.j @as base.u8", "}"),
    ("a conversion to more bits", "ok", "v = args.j as base.u64"),
    ("a sum that wraps", "ok", "x = args.j ~mod+ 1"),
    ("a sum that wraps into a refined target", "B1", "this.m = args.k @~mod+ 1"),
    ("a sum that wraps where it needn't", "ok", "if args.k < 9 {", "this.m = args.k ~mod+ 1", "}"),
    ("a sum that is cut off", "ok", "c = args.k ~sat+ 200"),
    ("a difference that is cut off", "ok", "this.m = args.k ~sat- 246"),
    ("a difference that is cut off too high", "B1", "this.m = args.k @~sat- 245"),
    ("a quotient", "ok", "this.m = args.k / 26"),
    ("a quotient that is too high", "B1", "this.m = args.k @/ 25"),
    ("a remainder", "ok", "this.m = args.k % 10"),
    ("a remainder that is too high", "B1", "this.m = args.k @% 11"),
    ("bits that both have", "ok", "this.m = args.k & 9"),
    ("bits that both have, too high", "B1", "this.m = args.k @& 10"),
    ("bits that one has", "ok", "this.m = (args.k & 8) | 1"),
    ("bits that one has, too high", "B1", "this.m = (args.k & 8) @| 7"),
    ("bits that differ", "ok", "this.m = (args.k & 7) ^ 3"),
    ("bits that differ, too high", "B1", "this.m = (args.k & 8) @^ 1"),
    ("a shift to the left beyond the width", "B1", "x = args.j @<< 3"),
    ("a shift to the left that fits", "ok", "x = (args.k as base.u32) << 24"),
    ("a shift to the right", "ok", "this.m = args.k >> 5"),
    ("a shift to the right, too high", "B1", "this.m = args.k @>> 4"),
    ("a fact about an expression", "ok", "if (args.j ~mod+ args.i) < 5 {", "c = (args.j ~mod+ args.i) as base.u8", "}"),
    ("a fact about another expression", "B1", "if (args.j ~mod+ args.i) < 5 {", "c = (args.i ~mod+ args.j) @as base.u8", "}"),
    ("a fact about a shift of another width", "ok", "if ((args.k as base.u32) << 3) < 9 {", "this.m = ((args.k as base.u32) << 3) as base.u8", "}"),
    ("a number that two facts leave", "ok", "if (args.k >= 9) and (args.k <= 9) {", "this.m = args.k", "}"),
    ("facts that leave no number", "ok", "if (args.k > 9) and (args.k < 9) {", "this.m = args.k + 200", "}"),
]

# `x op= e`, what an assignment tells, and what a target forgets.
ASSIGNMENTS = [
    ("a local is 0 at first", "ok", "this.m = c"),
    ("an update that may leave its width", "B1", "this.n @+= 1"),
    ("an update under a bound", "ok", "if this.n < 100 {", "this.n += 1", "}"),
    ("an update of a refined field", "ok", "if this.m < 9 {", "this.m += 1", "}"),
    ("an update that leaves the refinement", "B1", "if this.m <= 9 {", "this.m @+= 1", "}"),
    ("an update to below 0", "B1", "this.n @-= 1"),
    ("a bound moves with its variable", "ok", "if args.k < 9 {", "x = args.k as base.u32", "if x < 9 {", "x += 1", "this.m = x as base.u8", "}", "}"),
    ("a bound moves as far as its variable", "B1", "if this.n < 9 {", "this.n += 2", "this.m = this.n @as base.u8", "}"),
    ("a bound moves down", "ok", "if this.n > 5 {", "this.n -= 1", "x = this.n - 5", "}"),
    ("a bound moves down too far", "B1", "if this.n > 5 {", "this.n -= 2", "x = this.n @- 5", "}"),
    ("a bound that falls below 0 is dropped", "ok", "if this.n >= 1 {", "this.n -= 1", "x = this.n", "}"),
    ("an update by a variable forgets", "B2", "if this.n < 4 {", "this.n ~mod+= args.j", "c = this.a@[this.n]", "}"),
    ("an update that wraps forgets", "B2", "if this.n < 4 {", "this.n ~mod+= 0", "c = this.a@[this.n]", "}"),
    ("an assignment tells its value", "ok", "x = 3", "c = this.a[x]"),
    ("an assignment tells a number that is too high", "B2", "x = 4", "c = this.a@[x]"),
    ("an assignment of a variable tells its facts by its own name alone", "ok", "if args.i < 4 {", "x = args.i", "c = this.a[args.i]", "}"),
    ("an assignment tells equality and no range", "B2", "if args.i < 4 {", "x = args.i", "c = this.a@[x]", "}"),
    ("an assignment from itself tells nothing", "B2", "x = x & 3", "c = this.a@[x]"),
    ("a target forgets what was known", "B2", "if this.n < 4 {", "this.n = args.j", "c = this.a@[this.n]", "}"),
    ("another target keeps what was known", "ok", "if this.n < 4 {", "this.m = 0", "c = this.a[this.n]", "}"),
    ("an element forgets what is known of all elements", "B2", "if this.a[0] < 4 {", "this.b[0] = 0", "c = this.a@[this.a[0]]", "}"),
    ("an element that isn't written keeps what is known", "ok", "if this.a[0] < 4 {", "x = 1", "c = this.a[this.a[0]]", "}"),
    ("an element of a slice forgets what is known of all elements", "B2", "l = this.b[..]", "if l.length() > 0 {", "if this.a[0] < 4 {", "l[0] = 1",
     "c = this.a@[this.a[0]]", "}", "}"),
    ("a slice that is set forgets its length", "B2", "if l.length() > 0 {", "l = args.g", "c = l@[0]", "}"),
    ("the index of a target is asked after the value's own demands", "B1", "this.a[9] = args.k @+ 1"),
    ("the index of a target is asked before the value's range", "B2", "this.a@[9] = 300"),
    ("the index of a target", "B2", "this.a@[4] = 1"),
    ("the index of a target of an update, as an operand", "B2", "this.a@[args.k] ~mod+= 1"),
    ("a bool that is set", "ok", "t = args.i < args.j"),
    ("a bool's operands are asked", "B2", "t = this.a@[4] == 0"),
]

# Indices, slices, shifts and divisors.
PARTS = [
    ("an index that may be too high", "B2", "c = this.a@[args.k]"),
    ("an index below the length", "ok", "if args.k < 4 {", "c = this.a[args.k]", "}"),
    ("an index up to the length", "B2", "if args.k <= 4 {", "c = this.a@[args.k]", "}"),
    ("an index that its type bounds", "ok", "c = this.b[args.k]"),
    ("an index of a slice", "B2", "c = args.g@[0]"),
    ("an index of a slice with an element", "ok", "if args.g.length() > 0 {", "c = args.g[0]", "}"),
    ("an index of a slice with an element, turned round", "ok", "if 0 < args.g.length() {", "c = args.g[0]", "}"),
    ("an index one beyond a slice", "B2", "if args.g.length() > 0 {", "c = args.g@[1]", "}"),
    ("an index of another slice", "B2", "if args.g.length() > 0 {", "c = l@[0]", "}"),
    ("an index that is compared with the length", "ok", "if v < args.g.length() {", "c = args.g[v]", "}"),
    ("an index that is compared in another width", "B2", "if (args.j as base.u64) < args.g.length() {", "c = args.g@[args.j]", "}"),
    ("an index inside an index", "B2", "c = this.a[this.b@[args.j]]"),
    ("a slice from a number on", "B3", "l = this.a@[args.k ..]"),
    ("a slice from the length on", "ok", "if args.k <= 4 {", "l = this.a[args.k ..]", "}"),
    ("a slice from beyond the length on", "B3", "if args.k <= 5 {", "l = this.a@[args.k ..]", "}"),
    ("a slice up to a number", "B3", "l = this.a@[.. args.k]"),
    ("a slice up to the length", "ok", "l = this.b[.. args.k]"),
    ("a slice between two numbers", "ok", "if (args.e <= args.k) and (args.k <= 4) {", "l = this.a[args.e .. args.k]", "}"),
    ("a slice between two numbers out of order", "B3", "if args.k <= 4 {", "l = this.a@[args.e .. args.k]", "}"),
    ("a slice between two numbers beyond the length", "B3", "if args.e <= args.k {", "l = this.a@[args.e .. args.k]", "}"),
    ("a whole slice", "ok", "l = this.a[..]"),
    ("a slice of a slice", "B3", "l = args.g@[1 ..]"),
    ("a slice of a slice that is long enough", "ok", "if args.g.length() >= 1 {", "l = args.g[1 ..]", "}"),
    ("a shift by the width", "B4", "c = args.k @>> 8"),
    ("a shift by one less", "ok", "c = args.k >> 7"),
    ("a shift by a variable", "B4", "x = args.j @>> args.k"),
    ("a shift by a variable below the width", "ok", "if args.k < 32 {", "x = args.j >> args.k", "}"),
    ("a shift by a variable up to the width", "B4", "if args.k <= 32 {", "x = args.j @>> args.k", "}"),
    ("a shift that wraps asks its right side too", "B4", "x = args.j @~mod<< args.k"),
    ("the width of a shift comes before its own", "B4", "x = args.j @<< args.k"),
    ("a quotient by a variable", "B5", "x = args.j @/ args.i"),
    ("a quotient by what isn't 0", "ok", "if args.i <> 0 {", "x = args.j / args.i", "}"),
    ("a quotient by what is above 0", "ok", "if args.i > 0 {", "x = args.j / args.i", "}"),
    ("a quotient by 0", "B5", "x = args.j @/ 0"),
    ("a remainder by a variable", "B5", "x = args.j @% args.i"),
    ("a remainder by what isn't 1", "B5", "if args.i <> 1 {", "x = args.j @% args.i", "}"),
    ("a remainder by at least 1", "ok", "if args.i >= 1 {", "x = args.j % args.i", "}"),
]

# Conditions: what is given where.
CONDITIONS = [
    ("an assertion of what is known", "ok", "if args.j < 5 {", "assert args.j < 5", "}"),
    ("an assertion of what isn't", "B6", "@assert args.j < 5"),
    ("an assertion of what follows by the range", "ok", "if args.j < 5 {", "assert args.j < 6", "}"),
    ("an assertion of more than is known", "B6", "if args.j < 5 {", "@assert args.j < 4", "}"),
    ("an assertion that a type decides", "ok", "assert args.k <= 255"),
    ("an assertion with a constant on the left", "ok", "if args.j < 5 {", "assert 5 > args.j", "}"),
    ("an assertion of two variables", "ok", "if args.i < args.j {", "assert args.i <> args.j", "}"),
    ("an assertion of two variables, turned round", "ok", "if args.i < args.j {", "assert args.j >= args.i", "}"),
    ("an assertion of equality from an order", "B6", "if args.i <= args.j {", "@assert args.i == args.j", "}"),
    ("an order from equality", "ok", "if args.i == args.j {", "assert args.j <= args.i", "}"),
    ("a flag that stands", "ok", "if args.z {", "assert args.z", "}"),
    ("a flag that doesn't", "B6", "@assert args.z"),
    ("a flag that was denied", "ok", "if args.z {", "return ok", "}", "assert not args.z"),
    ("both operands of an `and`", "ok", "if (args.j < 5) and args.z {", "assert args.z", "assert args.j < 5", "}"),
    ("one operand of an `or`", "B6", "if (args.j < 5) or args.z {", "@assert args.z", "}"),
    ("an `or` that stands", "ok", "if (args.j < 5) or args.z {", "assert (args.j < 5) or args.z", "}"),
    ("an `or` of which one is given", "ok", "if args.j < 5 {", "assert (args.j < 5) or args.z", "}"),
    ("an `and` of which one is given", "B6", "if args.j < 5 {", "@assert (args.j < 5) and args.z", "}"),
    ("an `or` that was denied", "ok", "if (args.j < 5) or args.z {", "return ok", "}", "assert (args.j >= 5) and (not args.z)"),
    ("an `and` that was denied", "B6", "if (args.j < 5) and args.z {", "return ok", "}", "@assert not args.z"),
    ("a denied `and` stands", "ok", "if (args.j < 5) and args.z {", "return ok", "}", "assert not ((args.j < 5) and args.z)"),
    ("a double negation", "ok", "if not (not args.z) {", "assert args.z", "}"),
    ("a comparison of statuses stands", "ok", "if q == ok {", "assert q == ok", "}"),
    ("a comparison of statuses is no number's", "B6", "if q == ok {", "@assert ok == q", "}"),
    ("a base method's answer stands", "ok", "if q.is_error() {", "assert q.is_error()", "}"),
    ("what an assertion tells", "B2", "if args.j < 5 {", "assert args.j < 5", "c = this.a@[args.j]", "}"),
    ("an assertion's value is asked first", "B2", "assert this.a@[4] == 0"),
    ("each condition is asked under those that failed", "ok", "if args.k >= 4 {", "} else if this.a[args.k] == 0 {", "}"),
    ("all conditions come before the blocks", "B2", "if args.z {", "c = this.a[4]", "} else if this.a@[4] == 0 {", "}"),
    ("a block comes before what follows", "B2", "if args.z {", "c = this.a@[4]", "}", "c = this.a[5]"),
    ("facts that both arms leave", "ok", "if args.z {", "x = 1", "} else {", "x = 1", "}", "c = this.a[x]"),
    ("facts that one arm leaves", "B2", "if args.z {", "x = 1", "} else {", "x = 2", "}", "c = this.a@[x]"),
    ("facts of the missing arm", "B2", "x = 9", "if args.z {", "x = 1", "}", "c = this.a@[x]"),
    ("an arm that never goes on doesn't count", "ok", "if args.k >= 4 {", "return ok", "}", "c = this.a[args.k]"),
    ("two arms that never go on", "ok", "if args.z {", "x = 1", "} else if args.k < 4 {", "return ok", "} else {", "return ok", "}", "c = this.a[x]"),
    ("a statement that is never reached", "ok", "return ok", "c = this.a[4]"),
    ("a statement after arms that never go on", "ok", "if args.z {", "return ok", "} else {", "return ok", "}", "c = this.a[4]"),
]

# Calls, and what they forget.
CALLS = [
    ("an argument outside its refinement", "B8", "c = this.small(v: @args.k)"),
    ("an argument inside its refinement", "ok", "c = this.small(v: args.e)"),
    ("an argument under a bound", "ok", "if args.k < 10 {", "c = this.small(v: args.k)", "}"),
    ("a constant outside its refinement", "B8", "c = this.small(v: @10)"),
    ("an argument's own demands come first", "B1", "c = this.small(v: args.k @+ 200)"),
    ("an argument of a field's method", "B8", "c = this.h.set!(v: @args.k)"),
    ("an argument of a base method", "B8", "args.w.write_u8?(a: @300)"),
    ("a result's refinement", "ok", "this.m = this.small(v: 9)"),
    ("a result outside its target", "B1", "this.m = args.r.@read_u8?()"),
    ("a result in its target", "ok", "c = args.r.read_u8?()"),
    ("a result through a field", "ok", "this.m = this.h.set!(v: 9)"),
    ("a result's target has an index", "B2", "this.a@[args.k] = args.r.read_u8?()"),
    ("a result tells nothing of its target", "B2", "x = 1", "x = args.r.read_u32le?()", "c = this.a@[x]"),
    ("a pure call keeps all", "ok", "if this.n < 4 {", "c = this.small(v: 1)", "c = this.a[this.n]", "}"),
    ("a marked call forgets `this`", "B2", "if this.n < 4 {", "this.change!(v: 1, from: args.r)", "c = this.a@[this.n]", "}"),
    ("a marked call forgets elements", "B2", "l = this.a[..]", "if l.length() > 0 {", "if l[0] < 4 {", "this.change!(v: 1, from: args.r)", "c = this.a@[l[0]]", "}", "}"),
    ("a marked call forgets the io that it is passed", "B9", "if args.r.length() > 0 {", "this.change!(v: 1, from: args.r)", "c = args.r.@peek_u8()", "}"),
    ("a marked call keeps other arguments", "ok", "if args.j < 4 {", "this.change!(v: 1, from: args.r)", "c = this.a[args.j]", "}"),
    ("a call through a field forgets `this`", "B2", "if this.n < 4 {", "c = this.h.set!(v: 1)", "c = this.a@[this.n]", "}"),
    ("a kept coroutine keeps arguments", "ok", "if args.j < 4 {", "q =? this.wait?(v: 1)", "c = this.a[args.j]", "}"),
    ("a kept coroutine forgets `this`", "B2", "if this.n < 4 {", "q =? this.wait?(v: 1)", "c = this.a@[this.n]", "}"),
    ("a kept coroutine's argument is asked before", "ok", "if args.k <= 9 {", "q =? this.wait?(v: args.k)", "}"),
    ("a coroutine forgets arguments before it asks its own", "B8", "if args.k <= 9 {", "this.wait?(v: @args.k)", "}"),
    ("a coroutine keeps locals", "ok", "x = 3", "this.wait?(v: 1)", "c = this.a[x]"),
    ("a coroutine of a field forgets arguments", "B2", "if args.j < 4 {", "this.h.more?(from: args.r)", "c = this.a@[args.j]", "}"),
    ("a base coroutine forgets arguments", "B2", "if args.j < 4 {", "args.r.skip_u32?(n: 1)", "c = this.a@[args.j]", "}"),
    ("a base coroutine's argument is asked before", "ok", "if args.j < 256 {", "args.w.write_u8?(a: args.j as base.u8)", "}"),
    ("a base coroutine keeps locals", "ok", "x = 3", "args.r.skip_u32?(n: 1)", "c = this.a[x]"),
    ("a base coroutine forgets slices", "B2", "if l.length() > 0 {", "args.r.skip_u32?(n: 1)", "c = l@[0]", "}"),
    ("a base coroutine forgets elements", "B2", "if this.a[0] < 4 {", "c = args.r.read_u8?()", "c = this.a@[this.a[0]]", "}"),
    ("a yield forgets arguments", "B2", "if args.j < 4 {", 'yield? base."$short read"', "c = this.a@[args.j]", "}"),
    ("a yield keeps locals", "ok", "x = 3", 'yield? base."$short read"', "c = this.a[x]"),
    ("a peek of what may be empty", "B9", "c = args.r.@peek_u8()"),
    ("a peek of what isn't empty", "ok", "if args.r.length() > 0 {", "c = args.r.peek_u8()", "}"),
    ("a wider peek", "B9", "if args.r.length() > 0 {", "u = args.r.@peek_u16le()", "}"),
    ("a wider peek of enough", "ok", "if args.r.length() >= 4 {", "x = args.r.peek_u32le()", "}"),
    ("a wider peek of one less", "B9", "if args.r.length() >= 3 {", "x = args.r.@peek_u32le()", "}"),
    ("a peek after a negation", "ok", "if args.r.length() == 0 {", "return ok", "}", "c = args.r.peek_u8()"),
    ("a fast skip of too much", "B9", "if args.r.length() >= 1 {", "args.r.@skip_u32_fast!(actual: 1, worst_case: 2)", "}"),
    ("a fast skip of more than its worst case", "B9", "if args.r.length() >= 5 {", "args.r.@skip_u32_fast!(actual: 2, worst_case: 1)", "}"),
    ("a fast skip leaves the rest", "ok", "if args.r.length() >= 2 {", "args.r.skip_u32_fast!(actual: 1, worst_case: 1)", "c = args.r.peek_u8()", "}"),
    ("a fast skip leaves no more than the rest", "B9", "if args.r.length() >= 2 {", "args.r.skip_u32_fast!(actual: 1, worst_case: 2)", "c = args.r.@peek_u8()", "}"),
    ("a fast skip of what is written differently", "ok", "if args.r.length() > 1 {", "args.r.skip_u32_fast!(worst_case: 1, actual: 0)", "c = args.r.peek_u8()", "}"),
    ("a fast skip by a variable", "ok", "if args.r.length() >= 9 {", "args.r.skip_u32_fast!(actual: args.e as base.u32, worst_case: 9)", "}"),
    ("a fast skip by a variable forgets where the worst case isn't constant", "B9", "if args.r.length() >= 30 {",
     "args.r.skip_u32_fast!(actual: 1, worst_case: (args.e as base.u32) ~sat+ 1)", "c = args.r.@peek_u8()", "}"),
    ("a fast write into what may be full", "B9", "args.w.@write_u8_fast!(a: 1)"),
    ("fast writes of what there is room for", "ok", "if args.w.length() >= 2 {", "args.w.write_u8_fast!(a: 1)", "args.w.write_u8_fast!(a: 1)", "}"),
    ("a fast write of one too many", "B9", "if args.w.length() >= 1 {", "args.w.write_u8_fast!(a: 1)", "args.w.@write_u8_fast!(a: 1)", "}"),
    ("a copy into a writer forgets its room", "B9", "if args.w.length() >= 300 {", "v = args.w.copy_from_slice!(s: this.a[..])", "args.w.@write_u8_fast!(a: 1)", "}"),
    ("a copy into a slice forgets elements", "B2", "l = this.b[..]", "if this.a[0] < 4 {", "v = l.copy_from_slice!(s: this.a[..])", "c = this.a@[this.a[0]]", "}"),
    ("a copy into a slice keeps its length", "ok", "if args.g.length() > 0 {", "l = this.b[..]", "v = l.copy_from_slice!(s: args.g)", "c = args.g[0]", "}"),
]

LOOPS = [
    ("a loop that counts", "ok", "while x < 4,", "inv x <= 4,", "{", "c = this.a[x]", "x += 1", "}"),
    ("a loop's condition is known inside", "B2", "while x <= 4,", "inv x <= 5,", "{", "c = this.a@[x]", "x += 1", "}"),
    ("a loop forgets what no clause says", "B2", "if args.j < 4 {", "while x < 4,", "inv x <= 4,", "{", "c = this.a@[args.j]", "x += 1", "}", "}"),
    ("a loop keeps what a clause says", "ok", "if args.j < 4 {", "while x < 4,", "inv x <= 4,", "inv args.j < 4,", "{", "c = this.a[args.j]", "x += 1", "}", "}"),
    ("a pre at the entry", "B10", "x = 5", "@while x < 9,", "pre x < 5,", "{", "return ok", "}"),
    ("a pre at the body's end", "B10", "while x < 9,", "pre x < 5,", "{", "x ~mod+= 1", "@}"),
    ("a pre at a continue", "B10", "while true,", "pre x < 5,", "{", "x ~mod+= 1", "@continue", "}"),
    ("a pre isn't asked at the exit", "ok", "while x < 9,", "pre x < 5,", "{", "return ok", "}"),
    ("an inv at the entry", "B11", "x = 5", "@while x < 9,", "inv x < 5,", "{", "return ok", "}"),
    ("an inv at the exit is known from the head", "ok", "while args.z,", "inv x < 5,", "{", "return ok", "}", "c = this.b[x]"),
    ("an inv at the body's end", "B11", "while args.z,", "inv x < 5,", "{", "x ~mod+= 1", "@}"),
    ("an inv at a continue", "B11", "while args.z,", "inv x < 5,", "{", "x ~mod+= 1", "if args.k == 1 {", "@continue", "}", "x = 0", "}"),
    ("an inv at a break", "B11", "while true,", "inv x < 5,", "{", "x ~mod+= 1", "@break", "}"),
    ("a post at the exit", "B12", "@while x < 9,", "inv x < 11,", "post x == 9,", "{", "x += 1", "}"),
    ("a post at the exit that two facts give", "ok", "while x < 9,", "inv x < 10,", "post x == 9,", "{", "x += 1", "}"),
    ("a post that the exit gives", "ok", "while x < 9,", "inv x < 10,", "post x >= 9,", "{", "x += 1", "}", "y = x - 9"),
    ("a post at a break", "B12", "while x < 9,", "inv x < 10,", "post x >= 9,", "{", "if args.z {", "@break", "}", "x += 1", "}"),
    ("a post at a break that has it", "ok", "while x < 20,", "inv x <= 20,", "post x >= 9,", "{", "if x == 9 {", "break", "}", "x += 1", "}"),
    ("a post isn't asked on the way back", "ok", "while x < 9,", "inv x < 10,", "post x >= 9,", "{", "x += 1", "}"),
    ("the inverse condition after a loop", "ok", "while x < 4,", "inv x <= 9,", "{", "x += 1", "}", "y = x - 4"),
    ("no inverse condition where a break leaves", "B1", "while x < 4,", "inv x <= 9,", "{", "if args.z {", "break", "}", "x += 1", "}", "y = x @- 4"),
    ("the inverse condition where an inner loop alone is left", "ok", "while x < 4,", "inv x <= 9,", "{", "while true,", "inv x < 4,", "{", "break", "}", "x += 1", "}", "y = x - 4"),
    ("a loop that never goes on", "ok", "while true {", "}", "c = this.a[4]"),
    ("a loop without end is asked nothing at its exit", "ok", "while true,", "post x == 7,", "{", "}"),
    ("a break out of two loops", "B12", "while.out true,", "post x == 7,", "{", "while true {", "@break.out", "}", "} endwhile.out"),
    ("a continue of the outer loop", "B10", "while.out true,", "pre x < 5,", "{", "while true {", "x ~mod+= 1", "@continue.out", "}", "} endwhile.out"),
    ("the condition is asked under the head's list", "B2", "if args.j < 4 {", "while this.a@[args.j] == 0,", "{", "}", "}"),
    ("the condition asked under the clauses", "ok", "if args.j < 4 {", "while this.a[args.j] == 0,", "inv args.j < 4,", "{", "}", "}"),
    ("the values of clauses are asked", "B2", "while true,", "inv this.a@[4] == 0,", "{", "}"),
    ("clauses are asked in order", "B11", "x = 5", "@while true,", "inv x < 5,", "pre x < 5,", "{", "}"),
    ("a body that never reaches its end", "ok", "while args.z,", "inv x < 5,", "{", "x ~mod+= 1", "return ok", "}"),
    ("facts of the clauses after the loop", "ok", "while args.z,", "inv x < 4,", "{", "}", "c = this.a[x]"),
]

# Axioms: the goal, the premises in order, and what is given.
AXIOMS = [
    ("a < b: b > a", "i < j", ["j > i"], ""),
    ("a < b: a < c; c < b", "i < j", ["i < o", "o < j"], "c: args.o"),
    ("a < b: a < c; c == b", "i < j", ["i < o", "o == j"], "c: args.o"),
    ("a < b: a == c; c < b", "i < j", ["i == o", "o < j"], "c: args.o"),
    ("a < b: a < c; c <= b", "i < j", ["i < o", "o <= j"], "c: args.o"),
    ("a < b: a <= c; c < b", "i < j", ["i <= o", "o < j"], "c: args.o"),
    ("a > b: b < a", "i > j", ["j < i"], ""),
    ("a <= b: b >= a", "i <= j", ["j >= i"], ""),
    ("a <= b: a <= c; c <= b", "i <= j", ["i <= o", "o <= j"], "c: args.o"),
    ("a <= b: a <= c; c == b", "i <= j", ["i <= o", "o == j"], "c: args.o"),
    ("a <= b: a == c; c <= b", "i <= j", ["i == o", "o <= j"], "c: args.o"),
    ("a >= b: b <= a", "i >= j", ["j <= i"], ""),
    ("a <= b: a < b", "i <= j", ["i < j"], ""),
    ("a == b: a <= b; b <= a", "i == j", ["i <= j", "j <= i"], ""),
]


def written(comparison):
    left, sign, right = comparison.split(" ")
    return f"args.{left} {sign} args.{right}"


def nested(conditions, *body):
    """The body inside an `if` for each condition."""
    return [f"if {condition} {{" for condition in conditions] + list(body) + ["}"] * len(conditions)


def axiom_rows():
    for name, goal, premises, given in AXIOMS:
        assertion = f'assert {written(goal)} via "{name}"({given})'
        conditions = [written(premise) for premise in premises]
        yield (f"the axiom {name}", "ok", *nested(conditions, assertion))
        at = name.index(": ") + 2 if len(premises) == 1 else name.index("; ") + 2
        broken = assertion.replace(name, name[:at] + "@" + name[at:])
        yield (f"the axiom {name} without its last premise", "B7", *nested(conditions[:-1], broken))
        yield (f"the axiom {name} with an unknown letter", "B6", *nested(conditions, f'assert {written(goal)} via @"{name}"(k: args.o)'))


SUMS = [
    ("a sum in a goal", "ok", *nested(["args.i < args.o", "(args.k as base.u32) < 9", "args.o < 9"],
     'assert args.i < ((args.k as base.u32) + args.o) via "a < (b + c): a < c; 0 <= b"()')),
    ("a sum in a goal in the other order", "B7", *nested(["args.i < args.o", "(args.k as base.u32) < 9", "args.o < 9"],
     'assert args.i < (args.o + (args.k as base.u32)) via "a < (b + c): @a < c; 0 <= b"()')),
    ("a sum in a premise", "ok", *nested(["args.i < 5", "args.j >= 2", "args.o >= 3", "args.j < 9", "args.o < 9"],
     'assert args.i < (args.j + args.o) via "a < (b + c): a < (b0 + c0); b0 <= b; c0 <= c"(b0: 2, c0: 3)')),
    ("a sum in a premise that is too small", "B7", *nested(["args.i < 6", "args.j >= 2", "args.o >= 3", "args.j < 9", "args.o < 9"],
     'assert args.i < (args.j + args.o) via "a < (b + c): @a < (b0 + c0); b0 <= b; c0 <= c"(b0: 2, c0: 3)')),
    ("a sum with its first part", "ok", *nested(["args.i < 9", "args.j < 9"], 'assert args.i <= (args.i + args.j) via "a <= (a + b): 0 <= b"()')),
    ("a sum with another part", "B6", *nested(["args.i < 9", "args.j < 9"], 'assert args.j <= (args.i + args.j) via @"a <= (a + b): 0 <= b"()')),
    ("two sums", "ok", *nested(["args.i <= args.j", "args.j < 9", "args.i < 9"],
     'assert (args.i + 3) <= (args.j + 4) via "(a + c) <= (b + d): a <= b; c <= d"()')),
    ("two sums with a part that is known by itself alone", "B7", *nested(["args.i <= args.j", "args.o < 9", "args.j < 9", "args.i < 9"],
     'assert (args.i + args.o) <= (args.j + args.o) via "(a + c) <= (b + d): a <= b; @c <= d"()')),
    ("a chain of three is no sum of two", "B6", *nested(["args.i < 9", "args.j < 9"], 'assert args.i <= (args.i + args.j + 1) via @"a <= (a + b): 0 <= b"()')),
    ("a constant sum is its number", "B6", *nested(["args.i < 9"], 'assert args.i <= (4 + 5) via @"a <= (a + b): 0 <= b"()')),
    ("no axiom of this name", "B6", *nested(["args.i < args.j"], 'assert args.i < args.j via @"a < b: a < b"()')),
    ("an axiom for another comparison", "B6", *nested(["args.i < args.j"], 'assert args.i < args.j via @"a <= b: a < b"()')),
    ("a letter that isn't given", "B6", *nested(["args.i < args.j"], 'assert args.i < args.j via @"a < b: a < c; c < b"()')),
    ("a letter that the goal binds", "B6", *nested(["args.i < args.j"], 'assert args.i < args.j via @"a < b: b > a"(a: args.i)')),
    ("a comparison of statuses has no axiom", "B6", 'assert q == ok via @"a == b: a <= b; b <= a"()'),
    ("a given expression is asked", "B2", *nested(["args.i < args.j"], 'assert args.i < args.j via "a < b: a < c; c < b"(c: this.a@[4] as base.u32)')),
    ("a given expression is asked before the axiom's name", "B2", 'assert args.i < args.j via "no axiom"(c: this.a@[4])'),
]


# Two statements or parts that fail: the one that is looked at first decides, which may stand later in the text.
ORDER = [
    ("two statements that fail: the first", "B1", "c = args.k @+ 1", "x = args.j + 1"),
    ("a value and its target's index: the value, which stands later", "B1", "this.a[args.k] = args.k @+ 1"),
    ("a block and the condition after it: the condition, which stands later", "B1", "if args.z {", "c = args.k + 1", "} else if (args.k @+ 1) == 3 {", "}"),
    ("the exit of a loop and its body: the exit, at the loop's word", "B12", "@while x < 9,", "post x < 9,", "{", "c = args.k + 1", "} endwhile"),
]


def methods_with_results():
    """Rows of a pure method with a result, in place of f."""
    head = "pub func s.r(k: base.u8) base.u8[..= 9] {"
    yield "a result that is too high", "B1", [head, "return @args.k", "}"]
    yield "a result that fits", "ok", [head, "if args.k < 10 {", "return args.k", "}", "return 0", "}"]
    yield "a constant result that is too high", "B1", [head, "return @10", "}"]
    yield "a result of 8 bits", "B1", ["pub func s.r() base.u8 {", "return @300", "}"]
    yield "a bool's operands are asked in a result", "B2", ["pub func s.r() base.bool {", "return this.a@[4] == 0", "}"]
    two = ["pub func s.r(k: base.u8) base.u8[..= 9] {", "return @10", "}", "pub func s.t(k: base.u8) base.u8 {", "return args.k + 1", "}"]
    yield "two methods that fail: the first by place", "B1", two


def limits():
    """Rows at the limits of facts and points."""
    head = "pub func s.r?(a: base.u32, r: base.io_reader) {"
    differ = lambda most: " and ".join(f"(args.a <> {n})" for n in range(1, most + 1))
    for most, rule in ((512, "ok"), (513, "L8")):
        yield f"{most} facts", rule, [head, ("@" if rule != "ok" else "") + f"if {differ(most)} {{", "}", "}"]
    yield "512 facts, and an assertion that tells one more", "L8", [head, f"if {differ(512)} {{", "@assert args.a >= 0", "}", "}"]
    yield "512 facts, and an assertion of one of them", "ok", [head, f"if {differ(512)} {{", "assert args.a <> 7", "}", "}"]
    zeros = [f"var x{n} : base.u8" for n in range(256)]
    yield "256 facts of locals and 256 of a condition", "ok", [head, *zeros, f"if {differ(256)} {{", "}", "}"]
    yield "256 facts of locals and 257 of a condition", "L8", [head, *zeros, f"@if {differ(257)} {{", "}", "}"]
    for most, rule in ((1024, "ok"), (1025, "L9")):
        yield f"{most} points", rule, [head, *["args.r.skip_u32?(n: 1)"] * 1024, *(["@args.r.skip_u32?(n: 1)"] if rule != "ok" else []), "}"]
    yield "a rule of bounds comes before L9", "B1", [head, *["args.r.skip_u32?(n: 1)"] * 1025, "this.m = @10", "}"]


def placed(lines):
    """The lines without the `@`, and where it stood, as LINE:COLUMN."""
    for number, line in enumerate(lines, 1):
        if "@" in line:
            return [it.replace("@", "") for it in lines], f"{number}:{line.index('@') + 1}"
    return lines, None


def packages():
    rows = [*NUMBERS, *ASSIGNMENTS, *PARTS, *CONDITIONS, *CALLS, *LOOPS, *axiom_rows(), *SUMS, *ORDER]
    wholes = [(name, rule, [HEAD, *LOCALS, *body, "}"]) for name, rule, *body in rows]
    for name, rule, method in [*wholes, *methods_with_results(), *limits()]:
        lines, place = placed(FRONT + method)
        yield name, "\n".join(lines) + "\n", "ok" if rule == "ok" else f"{rule} {place}"
