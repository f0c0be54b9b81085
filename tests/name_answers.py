#!/usr/bin/env python3
"""Small packages and what the rules of names say of each, written by hand from the rules.

usage: name_answers.py PROGRAM [NAME]    only the packages whose name has NAME in it
Each package is one file n.wuffs of package n; a bar with blanks round it ends a line. An answer is a rule with its
line and column: a rule of names, and where none is broken the rule of types or effects that is. It is `ok` where the package
is accepted.
"""
from packages import answer_all

S = "pub struct s?( | n : base.u32, | )"
ROWS = "pub struct s?( | a : array[4] base.u8, | t : base.status, | )"
SUB = "pri struct p?() | pub func p.open() {} | pri func p.shut() {} | pub func p.two(a: base.u8, b: base.u8) {} | pub struct s?( | x : p, | n : base.u32, | )"


def method(*body, args="", mark="?", gives=""):
    """The method f of the struct s, its body from its own line on."""
    return f" | pub func s.f{mark}({args}){gives} {{ | " + " | ".join(body) + " | }"


def lines(line, count):
    """So many lines, in each of which stand its number, from 0 on, and the next one."""
    return " | ".join(line.format(number, number + 1) for number in range(count))


# Each constant one more than the one before it, each struct with a field of the next one, each method with a call of the next.
CHAIN = "pri const K0 : base.u32 = 1 | " + lines("pri const K{1} : base.u32 = K{0} + 1", 3000)
STRUCTS = lines("pub struct s{0}( | x : s{1}, | )", 1500)
METHODS = lines("pub func s.f{0}() {{ | this.f{1}!() | }}", 1023)

PACKAGES = [
    # N1: an unknown name
    ("a status that isn't there", S + method('return "#no"'), "N1 5:8"),
    ("a status declared in another order", 'pub status "#no" | ' + S + method('return "#no"'), "ok"),
    ("a status declared after its use", S + method('return "#no"') + ' | pub status "#no"', "ok"),
    ("a status that differs in one byte", 'pub status "#no" | ' + S + method('return "#No"'), "N1 6:8"),
    ("a base status that isn't there", S + method('return base."#no"'), "N1 5:13"),
    ("a base status with another mark", S + method('return base."#short read"'), "N1 5:13"),
    ("a base status", S + method('return base."$short read"'), "ok"),
    ("a status of the package in another's place", 'pub status "#no" | ' + S + method('return base."#no"'), "N1 6:13"),
    ("a bare name", S + method("this.n = x"), "N1 5:10"),
    ("a bare name of a field", S + method("this.n = n"), "N1 5:10"),
    ("a bare name of an argument", S + method("this.n = a", args="a: base.u32"), "N1 5:10"),
    ("a constant of another file's end", S + method("this.n = K") + " | pri const K : base.u32 = 1", "ok"),
    ("a local", S + method("var x : base.u32", "this.n = x"), "ok"),
    ("a local of another method", S + " | pub func s.g?() { | var x : base.u32 | }" + method("this.n = x"), "N1 8:10"),
    ("a local of a method before it", S + method("var x : base.u32") + " | pub func s.g?() { | this.n = x | }", "N1 8:10"),
    ("a field that isn't there", S + method("this.m = 1"), "N1 5:6"),
    ("a field of another struct", "pub struct o( | m : base.u8, | ) | " + S + method("this.m = 1"), "N1 8:6"),
    ("an argument that isn't there", S + method("this.n = args.b", args="a: base.u32"), "N1 5:15"),
    ("an argument", S + method("this.n = args.a", args="a: base.u32"), "ok"),
    ("an argument of a method before it", S + method("this.n = args.a", args="a: base.u32") + " | pub func s.g?() { | this.n = args.a | }", "N1 8:15"),
    ("a constant that names itself", "pri const A : base.u8 = A", "N1 1:25"),
    ("a constant that names a later one", "pri const A : base.u8 = B | pri const B : base.u8 = 1", "N1 1:25"),
    ("a constant that names an earlier one", "pri const B : base.u8 = 1 | pri const A : base.u8 = B", "ok"),
    ("a bound that names a later constant", "pri const A : base.u8[..= B] = 1 | pri const B : base.u8 = 1", "N1 1:27"),
    ("a bound that names its own constant", "pri const A : base.u8[..= A] = 1", "N1 1:27"),
    ("a field in a constant", S + " | pri const A : base.u8 = this.n", "N1 4:30"),
    ("a struct that isn't there as a field", "pub struct s( | x : t, | )", "N1 2:5"),
    ("a struct that isn't there in an array", "pub struct s( | x : array[2] t, | )", "N1 2:14"),
    ("a struct after its use", "pub struct s( | x : t, | ) | pub struct t()", "ok"),
    ("a method of no struct", "pub func s.f() {}", "N1 1:10"),
    ("a method that no struct has", S + method("this.g?()"), "N1 5:6"),
    ("a method that isn't there with an argument that isn't either", S + method("this.g!(a: x)"), "N1 5:6"),
    ("a base method that isn't there", S + method("args.a.size?()", args="a: base.io_reader"), "N1 5:8"),
    ("a method on a number", S + method("var x : base.u32", "var y : base.u64", "y = x.length()"), "N1 7:7"),
    ("the length of an array", ROWS + method("var y : base.u64", "y = this.a.length()"), "ok"),
    ("a writer's method on a reader", S + method("args.a.write_u8?(a: 1)", args="a: base.io_reader"), "N1 5:8"),
    ("a method that a field's struct doesn't have", SUB + " | pub func s.g?() { | this.x.gone!() | }", "N1 10:8"),
    ("a method of a field's struct", SUB + " | pub func s.g?() { | this.x.open!() | }", "E3 10:8"),
    # N2: twice
    ("a status twice", 'pub status "#a" | pub status "#b" | pri status "#a"', "N2 3:12"),
    ("a name declared three times, at the second", "pri const A : base.u8 = 1 | pri const A : base.u8 = 1 | pri const A : base.u8 = 1", "N2 2:11"),
    ("two names twice, the lesser place", "pub struct s( | a : base.u8, | b : base.u8, | b : base.u8, | a : base.u8, | )", "N2 4:1"),
    ("a constant twice", "pri const A : base.u8 = 1 | pri const A : base.u8 = 1", "N2 2:11"),
    ("a struct twice", "pub struct s() | pub struct s()", "N2 2:12"),
    ("a constant and a struct of one name", "pri const s : base.u8 = 1 | pub struct s()", "ok"),
    ("a method twice", S + " | pub func s.f() {} | pub func s.f() {}", "N2 5:12"),
    ("a method of one name in two structs", "pub struct a() | pub struct b() | pub func a.f() {} | pub func b.f() {}", "ok"),
    ("a field twice", "pub struct s( | n : base.u8, | n : base.u8, | )", "N2 3:1"),
    ("a field in both lists", "pub struct s( | n : base.u8, | ) + ( | n : base.u8, | )", "N2 4:1"),
    ("an argument twice", S + " | pub func s.f(a: base.u8, a: base.u8) {}", "N2 4:26"),
    ("a local twice", S + method("var x : base.u8", "var x : base.u8"), "N2 6:5"),
    ("a local of an argument's name", S + method("var a : base.u8", args="a: base.u8"), "ok"),
    ("a local of a constant's name", "pri const x : base.u8 = 1 | " + S + method("var x : base.u8"), "N2 6:5"),
    ("a constant after a local of its name", S + method("var x : base.u8") + " | pri const x : base.u8 = 1", "N2 7:11"),
    ("a local of the name of a struct", S + method("var s : base.u8"), "ok"),
    ("a local of a field's name", S + method("var n : base.u8"), "ok"),
    ("a local that hides the length of an array", "pri const K : base.u32 = 65537 | " + S + method("var K : base.u32", "var a : array[K] base.u8"), "N2 6:5"),
    ("a label in a loop of its own name", S + method("while.a true {", "while.a true {", "} endwhile.a", "} endwhile.a"), "N2 6:7"),
    ("a label again after its loop", S + method("while.a true {", "break.a", "} endwhile.a", "while.a true {", "break.a", "} endwhile.a"), "ok"),
    ("an argument given twice", S + " | pri func s.g(a: base.u8) {}" + method("this.g!(a: 1, a: 2)"), "N2 6:15"),
    ("a reader passed twice", S + " | pri func s.g?(a: base.io_reader, b: base.io_reader) {}" + method("this.g?(a: args.r, b: args.r)", args="r: base.io_reader"), "N2 6:23"),
    ("a number passed twice", S + " | pri func s.g(a: base.u8, b: base.u8) {}" + method("this.g!(a: args.r, b: args.r)", args="r: base.u8"), "E3 6:6"),
    # N3: reserved
    ("a name that begins with an underscore", "pri const _a : base.u8 = 1", "N3 1:11"),
    ("a name that ends with one", "pub struct s( | a_ : base.u8, | )", "N3 2:1"),
    ("two underscores in a row", S + method("var a__b : base.u8"), "N3 5:5"),
    ("one underscore inside", S + method("var a_b : base.u8"), "ok"),
    ("a word that is kept", S + " | pub func s.f(ptr: base.u8) {}", "N3 4:14"),
    ("a label that is kept", S + method("while.use true {", "break.use", "} endwhile.use"), "N3 5:7"),
    ("a name that begins as a kept word", S + method("var used : base.u8"), "ok"),
    ("a status of a kept word", 'pub status "#ptr"', "ok"),
    ("a struct of a name with two underscores", "pub struct a__b()", "N3 1:12"),
    ("a method of a kept name", S + " | pub func s.table() {}", "N3 4:12"),
    ("a reserved label before a missing argument", S + " | pri func s.g(a: base.u8) {}" + method("while.use true {", "this.g!()", "break.use", "} endwhile.use"), "N3 6:7"),
    ("a method called initialize", S + " | pub func s.initialize() {}", "N3 4:12"),
    ("a field called initialize", "pub struct s( | initialize : base.u8, | )", "ok"),
    # N4: recursion
    ("a method that calls itself", S + method("this.f?()"), "N4 4:12"),
    ("two methods that call each other", S + " | pri func s.g?() { | this.h?() | } | pri func s.h?() { | this.g?() | }", "N4 4:12"),
    ("a method that calls one that calls itself", S + " | pub func s.f?() { | this.g?() | } | pri func s.g?() { | this.g?() | }", "N4 7:12"),
    ("methods in a line", S + " | pri func s.h?() {} | pri func s.g?() { | this.h?() | }" + method("this.g?()"), "ok"),
    ("three methods in a ring", S + " | pri func s.a?() { | this.b?() | } | pri func s.b?() { | this.c?() | } | pri func s.c?() { | this.a?() | }", "N4 4:12"),
    ("a call in the condition of a loop", S + method("while this.f() {", "} endwhile", "return true", mark="", gives=" base.bool"), "N4 4:12"),
    ("recursion before an unknown name", S + method("this.f?()", "this.n = x"), "N4 4:12"),
    ("methods of one name in two structs, one of which calls the other", "pub struct p() | pub struct s( | x : p, | ) | pub func p.f() {} | pub func s.f() { | this.x.f!() | }", "E1 7:8"),
    ("a struct that holds itself", "pub struct s( | x : s, | )", "N4 1:12"),
    ("structs that hold each other", "pub struct a( | x : b, | ) | pub struct b( | y : a, | )", "N4 1:12"),
    ("a struct that holds one that holds itself", "pub struct a( | x : b, | ) | pub struct b( | y : b, | )", "N4 4:12"),
    ("a struct that holds a ring of three", "pub struct z( | x : a, | ) | pub struct a( | x : b, | ) | pub struct b( | x : c, | ) | pub struct c( | x : a, | )", "N4 4:12"),
    ("a ring of three with a tail", "pub struct d() | pub struct a( | x : b, | ) | pub struct b( | x : c, | ) | pub struct c( | x : a, | y : d, | )", "N4 2:12"),
    ("two rings that share a struct", "pub struct a( | x : b, | y : c, | ) | pub struct b( | x : a, | ) | pub struct c( | x : a, | )", "N4 1:12"),
    ("a ring of methods after a ring of structs", "pub struct s( | x : s, | ) | pub func s.f?() { | this.f?() | }", "N4 1:12"),
    ("a ring of methods before a ring of structs", "pub struct o() | pub func o.f?() { | this.f?() | } | pub struct s( | x : s, | )", "N4 2:12"),
    ("an array of the struct itself", "pub struct s( | x : array[2] s, | )", "T1 2:5"),
    # N5: jumps
    ("a break outside every loop", S + method("break"), "N5 5:1"),
    ("a continue after a loop", S + method("while true {", "break", "} endwhile", "continue"), "N5 8:1"),
    ("a continue outside every loop", S + method("continue"), "N5 5:1"),
    ("a jump in a loop of no label", S + method("while true {", "break", "} endwhile"), "ok"),
    ("a label of no loop", S + method("while.a true {", "break.b", "} endwhile.a"), "N5 6:7"),
    ("a label of a loop that has ended", S + method("while.a true {", "break.a", "} endwhile.a", "while true {", "break.a", "} endwhile"), "N5 9:7"),
    ("a label of an outer loop", S + method("while.a true {", "while true {", "break.a", "} endwhile", "} endwhile.a"), "ok"),
    # N6 and N7: arguments of a call
    ("an argument that the method doesn't have", S + " | pri func s.g(a: base.u8) {}" + method("this.g!(a: 1, b: 2)"), "N6 6:15"),
    ("an argument that a method through a field doesn't have", SUB + " | pub func s.g?() { | this.x.two!(a: 1, b: 2, c: 3) | }", "N6 10:25"),
    ("an argument that a base method doesn't have", S + method("args.r.skip_u32?(m: 1, n: 1)", args="r: base.io_reader"), "N6 5:18"),
    ("an argument that is missing", S + " | pri func s.g(a: base.u8, b: base.u8) {}" + method("this.g!(b: 1)"), "N7 6:6"),
    ("a base method's argument that is missing", S + method("args.r.skip_u32?()", args="r: base.io_reader"), "N7 5:8"),
    ("an argument of a method through a field that is missing", SUB + " | pub func s.g?() { | this.x.two!(b: 2) | }", "N7 10:8"),
    ("arguments of a method through a field", SUB + " | pub func s.g?() { | this.x.two!(a: 1, b: 2) | }", "E3 10:8"),
    ("arguments in another order", S + " | pri func s.g(a: base.u8, b: base.u8) {}" + method("this.g!(b: 1, a: 2)"), "E3 6:6"),
    # N8: methods of another struct
    ("a method of another struct on this", SUB + " | pub func s.g?() { | this.open!() | }", "N8 10:6"),
    ("a private method through a field", SUB + " | pub func s.g?() { | this.x.shut!() | }", "N8 10:8"),
    ("a private method of another struct on this", SUB + " | pub func s.g?() { | this.shut!() | }", "N8 10:6"),
    ("a struct of the package as a local's type", SUB + " | pub func s.g() { | var y : p | }", "T1 10:9"),
    ("a method of its own", S + " | pri func s.g() {}" + method("this.g!()"), "E3 6:6"),
    # L6 and L7: limits
    ("1,025 methods", "pub struct s()" + "".join(f" | pub func s.f{i}() {{}}" for i in range(1025)), "L6 1026:12"),
    ("1,024 methods", "pub struct s()" + "".join(f" | pub func s.f{i}() {{}}" for i in range(1024)), "ok"),
    ("1,026 methods", "pub struct s()" + "".join(f" | pub func s.f{i}() {{}}" for i in range(1026)), "L6 1026:12"),
    ("20,000 methods", "pub struct s() | " + lines("pub func s.f{0}() {{}}", 20000), "L6 1026:12"),
    ("257 locals", S + method(*[f"var x{i} : base.u8" for i in range(257)]), "L7 261:5"),
    ("256 locals", S + method(*[f"var x{i} : base.u8" for i in range(256)]), "ok"),
    ("65 arguments", S + " | pub func s.f(" + ",".join(f" | a{i}: base.u8" for i in range(65)) + ") {}", "L7 69:1"),
    ("64 arguments", S + " | pub func s.f(" + ",".join(f" | a{i}: base.u8" for i in range(64)) + ") {}", "ok"),
    ("an array of 65,537 elements", "pub struct s( | a : array[65537] base.u8, | )", "L7 2:1"),
    ("an array of 65,536 elements", "pub struct s( | a : array[65536] base.u8, | )", "ok"),
    ("an argument's array of 65,537 elements", S + " | pub func s.f(a: array[65537] base.u8) {}", "L7 4:14"),
    ("a local's array of 65,537 elements", S + method("var a : array[65537] base.u8"), "L7 5:5"),
    ("a long array in an array", "pub struct s( | a : array[2] array[65537] base.u8, | )", "L7 2:1"),
    ("a long array before a jump", "pub struct s( | a : array[65537] base.u8, | ) | pub func s.f() { | break | }", "L7 2:1"),
    ("a jump before a long array", "pub struct s() | pub func s.f() { | break | } | pub struct t( | a : array[65537] base.u8, | )", "N5 3:1"),
    ("an unknown name before recursion", "pub struct s( | x : t, | ) | pub func s.f?() { | this.f?() | }", "N1 2:5"),
    ("an unknown method before a doubled struct", "pub struct p?( | x : base.u8, | ) | pub func p.f!() { | this.g!() | } | pub struct p?( | x : base.u8, | )", "N1 5:6"),
    ("a long array by a constant", "pri const K : base.u32 = 32768 | pub struct s( | a : array[(K * 2) + 1] base.u8, | )", "L7 3:1"),
    ("a megabyte and eight bytes", "pub struct s(" + "".join(f" | a{i} : array[65536] base.u64," for i in range(2)) + " | b : base.u64, | )", "L7 4:1"),
    ("a megabyte", "pub struct s(" + "".join(f" | a{i} : array[65536] base.u64," for i in range(2)) + " | )", "ok"),
    ("a struct that fills another", "pub struct p(" + "".join(f" | a{i} : array[65536] base.u64," for i in range(2)) + " | ) | pub struct s( | x : p, | )", "L7 6:1"),
    ("a struct of a megabyte less 8 bytes in another", "pub struct p( | a : array[65536] base.u64, | b : array[65535] base.u64, | ) | pub struct s( | x : p, | )", "ok"),
    ("one of a byte more", "pub struct p( | a : array[65536] base.u64, | b : array[65535] base.u64, | c : base.u8, | ) | pub struct s( | x : p, | )", "L7 7:1"),
    ("a struct that holds one that holds a large one", "pub struct r( | y : s, | ) | pub struct s( | x : p, | ) | pub struct p( | a : array[65536] base.u64, | b : array[65535] base.u64, | )", "L7 2:1"),
    ("a struct of a megabyte less 8 bytes in two others", "pub struct r( | y : s, | ) | pub struct s( | x : p, | ) | pub struct p( | a : array[65536] base.u64, | b : array[65534] base.u64, | )", "ok"),
    ("many fields", "pub struct s(" + "".join(f" | f{i} : array[{i}] base.u8," for i in range(1, 1448)) + " | )", "ok"),
    ("too many fields", "pub struct s(" + "".join(f" | f{i} : array[{i}] base.u8," for i in range(1, 4001)) + " | )", "L7 1449:1"),
    # packages of thousands of names, which take little time
    ("4,000 constants", lines("pri const K{0} : base.u32 = {0}", 4000), "ok"),
    ("1,000 constants of one name", lines("pri const K : base.u32 = {0} + {0}", 1000), "N2 2:11"),
    ("4,000 uses of a constant", S + method(lines("this.n = K + {0} + {0}", 4000)) + " | pri const K : base.u32 = 1", "ok"),
    ("4,000 uses of no constant", S + method(lines("this.n = K + {0} + {0}", 4000)), "N1 5:10"),
    ("a chain of 3,000 constants", CHAIN + " | pub struct s( | a : array[K3000] base.u8, | )", "ok"),
    ("a chain of 3,000 constants to a long array", CHAIN + " | pub struct s( | a : array[K3000 * 30] base.u8, | )", "L7 3003:1"),
    ("a chain of constants that is upside down", lines("pri const K{0} : base.u32 = K{1} + 1", 3000) + " | pri const K3000 : base.u32 = 1", "N1 1:27"),
    ("a chain of 1,500 structs", STRUCTS + " | pub struct s1500()", "ok"),
    ("a ring of 1,501 structs", STRUCTS + " | pub struct s1500( | x : s0, | )", "N4 1:12"),
    ("a chain of 1,500 structs round a large one", STRUCTS + " | pub struct s1500( | x : array[65536] base.u64, | y : array[65536] base.u64, | z : base.u8, | )", "L7 2:1"),
    ("a ring of 20,001 structs", lines("pub struct s{0}(x : s{1})", 20000) + " | pub struct s20000(x : s0)", "N4 1:12"),
    ("a chain of 20,000 structs to one that holds itself", lines("pub struct s{0}(x : s{1})", 20000) + " | pub struct s20000(x : s20000)", "N4 20001:12"),
    ("a chain of 1,023 methods", "pub struct s() | " + METHODS + " | pub func s.f1023() {}", "E1 3:6"),
    ("a ring of 1,024 methods", "pub struct s() | " + METHODS + " | pub func s.f1023() { | this.f0!() | }", "N4 2:12"),
    # two in one package: the lesser place
    ("an unknown name before a doubled one", S + method("var x : t", "var x : base.u8"), "N1 5:9"),
    ("a doubled name before an unknown one", S + method("var x : base.u8", "var x : t"), "N2 6:5"),
    ("a jump before recursion's later name", S + method("break") + " | pri func s.g?() { | this.g?() | }", "N5 5:1"),
    ("an unknown argument before an unknown value", S + " | pri func s.g(a: base.u8) {}" + method("this.g!(a: x, b: 1)"), "N1 6:12"),
    # two rules at one place: the earlier rule
    ("a doubled name that is reserved", "pub struct s( | _ : base.u8, | _ : base.u8, | )", "N3 2:1"),
    ("a struct of a kept name twice", "pri const a_ : base.u8 = 1 | pub struct table( | x : table, | )", "N3 1:11"),
    ("a reserved name that holds itself", "pub struct table( | x : table, | )", "N3 1:12"),
    ("a private method through a field with an argument missing", SUB.replace("pri func p.shut()", "pri func p.shut(a: base.u8)") + " | pub func s.g?() { | this.x.shut!() | }", "N7 10:8"),
    ("the 257th local doubles the first", S + method(*[f"var x{i} : base.u8" for i in range(256)], "var x0 : base.u8"), "N2 261:5"),
    ("a field with a doubled name and a long array", "pub struct s( | a : base.u8, | a : array[65537] base.u8, | )", "N2 3:1"),
    ("a reserved field with a long array", "pub struct s( | _a : array[65537] base.u8, | )", "N3 2:1"),
    ("a doubled struct that holds itself", "pub struct s( | x : s, | ) | pub struct s( | x : s, | )", "N4 1:12"),
    ("a doubled method that calls itself", S + " | pub func s.f() {}" + method("this.f?()"), "N2 5:12"),
]


if __name__ == "__main__":
    answer_all(PACKAGES)
