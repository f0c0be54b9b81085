"""Small packages of fixed declarations with something odd among them: statements made of values of every sort, whether they fit
or not, or types made of bounds and lengths of every sort."""

DECLARATIONS = """\
pub status "#bad"
pri status "$wait"
pri const A : base.u8 = 3
pri const B : base.u16 = 300
pri struct p!()
pub func p.open!(k: base.u8) {}
pub func p.go?() {}
pri func p.own!() {}
pub struct s?(n : base.u32, f : base.bool, t : base.status, a : array[4] base.u8, r : array[4] base.u8[..= 9], x : p)
pri func s.g!(k: base.u8) {}
pri func s.c?() {}
pri func s.p(k: base.u8) base.u8 { return args.k }
"""
LOCALS = """\
var x : base.u8
var y : base.u16
var b : base.bool
var q : base.status
var l : slice base.u8
"""
NUMBERS = """0 1 2 3 7 8 9 15 16 31 32 63 64 255 256 300 65535 65536 65537 4294967295 4294967296 18446744073709551615 0xFF""".split()
VALUES = NUMBERS[:3] + """\
x | y | b | q | l | A | B | true | ok | "#bad" | "$wait" | base."$short read" | base."#bad argument"
this.n | this.f | this.t | this.a | this.r | this.x | args.r | args.w | args.k | args.l | z | this.z | args.z | "#no"
this.a[0] | this.a[x] | this.a[q] | l[y] | x[0] | this.x[0] | args.r[0] | l[1 .. x] | this.a[..] | this.a[b .. x] | this.r[..] | args.l[..]
args.r.length() | args.w.position() | args.r.is_closed() | args.r.peek_u8() | l.length() | this.a.length() | x.length() | q.is_ok()
this.a.length!() | args.r.read_u8?() | this.p(k: x) | this.p(k: y) | this.p(k: 300) | this.g!(k: 1) | this.c?() | this.x.go?() | this.x.own!()
args.w.copy_from_slice!(s: l) | l.copy_from_slice!(s: args.l) | this.open!(k: 1) | this.p() | this.p(k: 1, k: 2) | this.p(n: 1)
(x + 1) | (x + 300) | (x + y) | (300 + x + y) | (300 + b + x) | (b + not x) | (this.a + 1) | (1 + true) | (x - (2 - 3)) | ((1 + 2) * x)
(A + 255) | (A + 253) | (A - 4) | (A / 0) | (5 % A) | (A ~sat- B) | (1 - 2) | (x ~mod+ 300) | (9223372036854775808 * 2 * 0)
(1 << 3) | (1 << x) | (x << y) | (x << 300) | (300 << 2) | (A << x) | (1 >> x) | (1 << 64) | (x ~mod<< 9) | (A ~mod<< 9)
(x < 3) | (A == 3) | (q == x) | (x == q) | (q <> ok) | (l == l) | (b == b) | not b | not x | (x and b) | (b and true) | (this.f or b or x)
(x as base.u16) | (y as base.u8) | (300 as base.u8) | (this.a as base.u8) | (q as base.u8) | (x as base.u8[..= 9]) | (x as base.bool)
""".replace("\n", " | ").strip(" |").split(" | ")
STATEMENTS = """\
x = % | y = % | b = % | q = % | l = % | this.n = % | this.f = % | this.t = % | this.a[%] = % | this.r[0] = % | l[%] = % | args.l[0] = %
args.k = % | args.r = % | this.a = % | this.x = % | this.x[0] = % | A = % | z = % | x += % | x -= % | y <<= % | this.n ~mod+= % | b += %
args.k += % | A += % | this.a += % | this.x += % | this.a[%] += % | x ~sat-= % | x = (%) | l = this.a[% .. %]
q =? % | x =? % | q =? this.c?() | x =? this.c?() | args.k =? this.c?() | this.a =? this.c?() | this.t =? this.x.go?() | q =? this.g!(k: 1)
q =? args.r.skip_u32?(n: %) | q =? this.p?(k: 1) | x = this.g!(k: %) | x = this.p(k: %) | x = this.p!(k: 1) | q = this.c?() | q = this.x.go?()
x = args.r.read_u8?() | y = args.r.read_u16le?() | x = args.r.read_u16be?() | this.n = args.r.read_u32le?() | x = args.r.skip_u32?(n: 1)
this.g!(k: %) | this.g?(k: 1) | this.p!(k: %) | this.c?() | this.c!() | this.c?(k: %) | this.x.open!(k: %) | this.x.open?(k: 1) | this.x.go?()
this.x.own!() | this.open!(k: 1) | args.r.skip_u32?(n: %) | args.w.write_u8?(a: %) | args.w.copy_from_slice!(s: %) | args.r.length!()
args.r.skip_u32_fast!(actual: %, worst_case: %) | return % | return (%) | return | return nothing | yield? % | yield? (%) | assert %
assert % via "a < b: a < c; c < b"(c: %) | if % {; x = 1; } else {; return %; } | while % {; break; } | while %, pre %, post % {; }
while.a true, inv % {; continue.a; } endwhile.a | while.a b {; break.b; } endwhile.a | break | continue | while true {; break; } | while true {; }
""".replace("\n", " | ").strip(" |").split(" | ")
TYPE_NAMES = "u8 u8 u8 u16 u32 u64 bool status io_reader io_writer utility".split()


def filled(template, random):
    """The lines of a statement with values for its signs `%`."""
    first, *others = template.split("%")
    return (first + "".join(random.choice(VALUES if random.random() < .9 else NUMBERS) + rest for rest in others)).replace("; ", "\n")


def odd_statements(random):
    """The text of a package whose last method has one or two odd statements."""
    statements = [filled(random.choice(STATEMENTS), random) for _ in range(random.choice([1, 1, 1, 2]))]
    result = random.choice(["", "", "", " base.u8", " base.bool", " base.status", " base.u16[..= 300]"])
    head = f"pub func s.m{random.choice(['', '!', '?', '?'])}(r: base.io_reader, w: base.io_writer, k: base.u8, l: slice base.u8){result} {{\n"
    return DECLARATIONS + head + LOCALS + "\n".join(statements) + "\n}\n"


def odd_type(random, depth=2):
    constant = lambda: random.choice(VALUES if random.random() < .3 else ["0", "1", "5", "A", "B", "300", "65537"])
    chance = random.random()
    if depth and chance < .2:
        return f"slice {odd_type(random, depth - 1)}"
    if depth and chance < .45:
        return f"array[{constant()}] {odd_type(random, depth - 1)}"
    if chance < .5:
        return random.choice(["p", "s", "t"])
    bounds = f"[{random.choice(['', constant() + ' '])}..= {constant()}]" if random.random() < .5 else ""
    return f"base.{random.choice(TYPE_NAMES)}{bounds}"


def odd_types(random):
    """The text of a package with one or two odd types in it."""
    types = ["base.u8", "base.io_reader", "base.u8", "base.bool", "base.u8[..= 9]", "slice base.u8", "array[4] base.u8", "base.u8", "base.u16"]
    for _ in range(random.choice([1, 1, 2])):
        types[random.randrange(len(types))] = odd_type(random)
    constant, reader, byte, flag, local, slice_local, array, result, conversion = types
    return DECLARATIONS + f"""\
pri const C : {constant} = {random.choice(VALUES)}
pri struct o(f : {flag}, a : {array})
pub func s.m?(r: {reader}, k: {byte}) {{
var x : {local}
var l : {slice_local}
x = {random.choice(VALUES)} as {conversion}
}}
pri func s.o{random.choice(["", "!", "?"])}(c: base.bool) {result} {{
return {random.choice(VALUES)}
}}
"""
