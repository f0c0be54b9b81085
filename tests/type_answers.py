#!/usr/bin/env python3
"""Small packages and what the rules of types and effects say of each, written by hand from the rules.

usage: type_answers.py PROGRAM [NAME]    only the packages whose name has NAME in it
Each package is one file n.wuffs of package n; a bar with blanks round it ends a line. An answer is a rule with its
line and column: a rule of types or effects, and where none is broken the rule of bounds that is. It is `ok` where the package
is accepted.
"""
from packages import answer_all

# A struct in lines 3 to 9, after two statuses; its method in line 10, with locals in lines 11 to 15.
S = ('pub status "#bad" | pri status "$wait" | pub struct s?( | n : base.u32, | f : base.bool, | t : base.status, '
     '| a : array[4] base.u8, | r : array[4] base.u8[..= 9], | )')
V = ("var x : base.u8", "var y : base.u16", "var b : base.bool", "var q : base.status", "var l : slice base.u8")
IO = "r: base.io_reader, w: base.io_writer, k: base.u8"


def method(*body, args=IO, mark="?", gives=""):
    """The method f of the struct s in line 10; its statements stand from line 16 on."""
    return f"{S} | pub func s.f{mark}({args}){gives} {{ | " + " | ".join(V + body) + " | }"


def beside(declaration, *body, mark="?"):
    """The same, before a method of the struct in one line: the statements stand from line 17 on."""
    return f"{S} | {declaration} | pub func s.f{mark}({IO}) {{ | " + " | ".join(V + body) + " | }"


def small(*body, mark="", gives=""):
    """A method of a struct without fields, in line 2; its statements stand from line 3 on."""
    return f"pub struct s() | pub func s.g{mark}(k: base.u8, c: base.bool){gives} {{ | " + " | ".join(body) + " | }"


def constant(of, value):
    return f"pri const A : {of} = {value}"


G = "pri func s.g!(k: base.u8) {}"
C = "pri func s.c?(k: base.u8) {}"
P = "pri func s.p(k: base.u8) base.u8 { return args.k }"
# A struct p in a field of s: its methods in lines 2 and 3, and s in lines 4 to 7.
SUB = "pri struct p!() | pub func p.open!(k: base.u8) {} | pub func p.go?() {} | pub struct s?( | x : p, | n : base.u32, | )"


def through(*body, mark="?"):
    """A method of the struct s with a field of struct type, in line 8; its statements stand from line 10 on."""
    return f"{SUB} | pub func s.f{mark}() {{ | var q : base.status | " + " | ".join(body) + " | }"


# Constants and their values, where a number as a byte keeps 8 bits; the column of the sign that is refused where there is
# another number or none, from 1 on.
VALUES = [
    ("1 - 1", 0), ("255 + 1", 256), ("3 * 4 * 5", 60), ("7 / 2", 3), ("7 % 2", 1), ("1 + 2 + 4", 7), ("7 & 6 & 12", 4), ("1 |4 |8", 13), ("7 ^ 1 ^ 2", 4),
    ("9223372036854775808 * 2 * 0", 0), ("9223372036854775808 * 0 * 2", 0), ("9223372036854775808 * 4 * 0", 0), ("(254 as base.u8) + 1", 255),
    ("(255 as base.u8) ~mod+ 2", 1), ("(1 as base.u8) ~mod- 2", 255), ("(16 as base.u8) ~mod* 17", 16), ("(250 as base.u8) ~sat+ 7", 255),
    ("(3 as base.u8) ~sat- 4", 0), ("0 ~mod- 1", 2**64 - 1), ("(1 as base.u8) << 7", 128), ("(3 as base.u8) ~mod<< 7", 128), ("(255 as base.u8) >> 7", 1),
    ("1 << 63", 2**63), ("(255 as base.u8)", 255), ("5 as base.u32", 5),
]
OTHER_VALUES = [("7 / 2", 3, 3), ("7 & 6 & 12", 4, 3), ("(255 as base.u8) ~mod+ 2", 1, 18)]
NO_VALUES = [
    ("0 - 1", 3), ("(255 as base.u8) + 1", 18), ("18446744073709551615 + 1", 22), ("7 / 0", 3), ("7 % 0", 3), ("9223372036854775808 * 2 * 1", 21),
    ("9223372036854775808 * 4 * 1", 21), ("9223372036854775808 + 9223372036854775808 + 0", 21), ("(1 as base.u8) << 8", 16), ("(2 as base.u8) << 7", 16),
    ("(3 as base.u8) ~mod<< 8", 16), ("(0 as base.u8) >> 8", 16), ("1 << 64", 3), ("256 as base.u8", 5),
]

PACKAGES = [
    # T1: operands
    ("two numbers of one width", method("x = x + x"), "ok"),
    ("two numbers of two widths", method("x = x + y"), "T1 16:9"),
    ("a bool before a number", method("x = b + x"), "T1 16:5"),
    ("a bool after a number", method("x = x + b"), "T1 16:9"),
    ("the third operand of a chain", method("x = x + x + y"), "T1 16:13"),
    ("a constant beside a number", method("x = x + 1"), "ok"),
    ("numbers of two widths compared", method("b = x < y"), "T1 16:9"),
    ("two statuses compared", method("b = q == ok"), "ok"),
    ("a status and a number compared", method("b = q == x"), "T1 16:10"),
    ("a number and a status compared", method("b = x == q"), "T1 16:10"),
    ("statuses in order", method("b = q < q"), "T1 16:5"),
    ("two bools joined", method("b = b and (x < 1)"), "ok"),
    ("a bool and a number joined", method("b = b or x"), "T1 16:10"),
    ("not a number", method("b = not x"), "T1 16:9"),
    ("not a bool", method("b = not b"), "ok"),
    ("a shift by another width", method("x = x << y"), "ok"),
    ("a shift by more than the width", method("x = x << 300"), "B4 16:7"),
    ("a shift by a bool", method("x = x << b"), "T1 16:10"),
    ("a shift of a bool", method("x = b << 1"), "T1 16:5"),
    ("a literal shifted by a variable", method("x = 1 << x"), "T1 16:10"),
    ("a number converted", method("x = y as base.u8"), "ok"),
    ("a bool converted", method("x = b as base.u8"), "T1 16:5"),
    ("a number converted to a bool", method("b = x as base.bool"), "T1 16:10"),
    ("a number converted to a refined type", method("x = y as base.u8[..= 255]"), "T1 16:10"),
    ("an element by a number of another width", method("x = this.a[y]"), "ok"),
    ("an element by a bool", method("x = this.a[b]"), "T1 16:12"),
    ("an element of a number", method("x = x[0]"), "T1 16:5"),
    ("an element of a slice", method("x = l[0]"), "B2 16:6"),
    ("a part of an array", method("l = this.a[y ..]"), "ok"),
    ("a part of an array of refined elements", method("l = this.r[..]"), "T1 16:5"),
    ("a part up to a bool", method("l = l[.. b]"), "T1 16:10"),
    ("a part of a number", method("l = this.n[..]"), "T1 16:5"),
    ("a whole array as a value", method("x = this.a"), "T1 16:5"),
    ("a reader as a value", method("x = args.r"), "T1 16:5"),
    ("the length of an array", method("b = this.a.length() == 4"), "ok"),
    ("a field of struct type as a value", through("this.n = this.x"), "T1 10:10"),
    # T1: arguments
    ("an argument of its type", beside(G, "this.g!(k: x)"), "ok"),
    ("an argument of another width", beside(G, "this.g!(k: y)"), "T1 17:12"),
    ("a bool for a number", beside(G, "this.g!(k: b)"), "T1 17:12"),
    ("an array as an argument", beside(G, "this.g!(k: this.a)"), "T1 17:12"),
    ("a reader handed on", beside("pri func s.g!(o: base.io_reader) {}", "this.g!(o: args.r)"), "ok"),
    ("a writer for a reader", beside("pri func s.g!(o: base.io_reader) {}", "this.g!(o: args.w)"), "T1 17:12"),
    ("a number of bytes to skip", method("args.r.skip_u32?(n: this.n)"), "ok"),
    ("a byte of bytes to skip", method("args.r.skip_u32?(n: x)"), "T1 16:21"),
    ("a slice to copy from", method("args.w.copy_from_slice!(s: l)"), "ok"),
    ("an array to copy from", method("args.w.copy_from_slice!(s: this.a)"), "T1 16:28"),
    ("a letter of an axiom that is a bool", method('assert b via "a < b: a < c; c < b"(c: b)'), "T1 16:39"),
    ("a letter of an axiom that is a number", method('assert b via "a < b: a < c; c < b"(c: x)'), "B6 16:14"),
    # T1: types
    ("no type of the language", "pub struct s( | n : base.foo, | )", "T1 2:5"),
    ("a slice as a field", "pub struct s( | n : slice base.u8, | )", "T1 2:5"),
    ("a reader as a field", "pub struct s( | n : base.io_reader, | )", "T1 2:5"),
    ("an array of bools", "pub struct s( | n : array[2] base.bool, | )", "T1 2:5"),
    ("an array of structs", "pub struct p() | pub struct s( | n : array[2] p, | )", "T1 3:5"),
    ("bounds of a bool", "pub struct s( | n : base.bool[..= 1], | )", "T1 2:5"),
    ("a bound that is no number", "pub struct s( | n : base.u8[..= true], | )", "T1 2:5"),
    ("a length that is no number", "pub struct s( | n : array[true] base.u8, | )", "T1 2:5"),
    ("a length that is a field", "pub struct s( | m : base.u8, | n : array[this.m] base.u8, | )", "T1 3:5"),
    ("every type that a field may have", "pub struct p() | pub struct s( | a : base.u64, | b : base.bool, | c : base.status, | d : array[3] base.u16[..= 9], | e : p, | f : base.u8[0 ..= 7], | )", "ok"),
    ("an array as a local", "pub struct s() | pub func s.g() { | var a : array[2] base.u8 | }", "T1 3:9"),
    ("a struct as a local", "pub struct s() | pub func s.g() { | var a : s | }", "T1 3:9"),
    ("a slice of bools", "pub struct s() | pub func s.g() { | var a : slice base.bool | }", "T1 3:9"),
    ("a slice of refined bytes", "pub struct s() | pub func s.g() { | var a : slice base.u8[..= 255] | }", "T1 3:9"),
    ("a bound that is a local", "pub struct s() | pub func s.g() { | var a : base.u8 | var c : base.u8[..= a] | }", "T1 4:9"),
    ("an array of nothing as a local", "pub struct s() | pub func s.g() { | var a : array[0] base.u8 | }", "T1 3:9"),
    ("a slice as a field whose elements are out of bounds", "pub struct s( | n : slice base.u8[..= 256], | )", "T1 2:5"),
    ("a slice as an argument whose elements are out of bounds", "pub struct s() | pub func s.g(k: slice base.u8[..= 256]) {}", "T1 2:17"),
    ("an array of an array of nothing", "pub struct s( | n : array[4] array[0] base.u8, | )", "T1 2:5"),
    ("an array of a slice of bools", "pub struct s( | n : array[4] slice base.bool, | )", "T1 2:5"),
    ("an array of no type", "pub struct s( | n : array[4] base.foo, | )", "T1 2:14"),
    ("an array of elements with a bound that is no number", "pub struct s( | n : array[4] base.u8[..= true], | )", "T1 2:14"),
    ("a slice of elements with a bound that is no number", "pub struct s( | n : slice base.u8[..= true], | )", "T1 2:11"),
    ("a conversion to bounds above the type", method("x = y as base.u8[..= 256]"), "T1 16:10"),
    ("a number as a local with bounds above the type", "pub struct s() | pub func s.g() { | var a : base.u8[..= 256] | }", "T5 3:21"),
    ("a result of a coroutine with bounds above the type", "pub struct s() | pub func s.g?() base.u8[..= 256] {}", "T1 2:17"),
    ("a result of a coroutine that is no type", "pub struct s() | pub func s.g?() base.foo {}", "T1 2:17"),
    ("a status as an argument", "pub struct s() | pub func s.g(k: base.status) {}", "T1 2:17"),
    ("an array as an argument's type", "pub struct s() | pub func s.g(k: array[2] base.u8) {}", "T1 2:17"),
    ("a slice as an argument", "pub struct s() | pub func s.g(k: slice base.u16, m: base.io_writer) {}", "ok"),
    ("a reader as a result", "pub struct s() | pub func s.g() base.io_reader {}", "T1 2:16"),
    ("a result of a coroutine", "pub struct s() | pub func s.g?() base.u8 {}", "T1 2:17"),
    ("a bool as a constant's type", constant("base.bool", "1"), "T1 1:15"),
    ("a constant that is a bool", constant("base.u8", "true"), "T1 1:25"),
    ("a constant that adds a bool", constant("base.u8", "1 + true"), "T1 1:29"),
    # T2: targets
    ("an argument as a target", method("args.k = 1"), "T2 16:1"),
    ("a constant as a target", "pri const K : base.u8 = 1 | pub struct s() | pub func s.g() { | K = 1 | }", "T2 4:1"),
    ("a whole array as a target", method("this.a = 1"), "T2 16:1"),
    ("a field of struct type as a target", through("this.x = 1"), "T2 10:1"),
    ("an element as a target", method("this.a[0] = x"), "ok"),
    ("an element of a slice as a target", method("l[0] = x"), "B2 16:2"),
    ("a number for an element of another width", method("this.a[0] = y"), "T2 16:7"),
    ("a bool for a number", method("x = b"), "T2 16:1"),
    ("a number for a bool", method("b = 1"), "T2 16:1"),
    ("a number of another width", method("x = y"), "T2 16:1"),
    ("a number for a status", method("q = 0"), "T2 16:1"),
    ("a status for a status", method('q = "#bad"'), "ok"),
    ("a slice for a slice", method("l = l[1 ..]"), "B3 16:6"),
    ("a byte that is read", method("x = args.r.read_u8?()"), "ok"),
    ("two bytes that are read for one", method("x = args.r.read_u16le?()"), "T2 16:1"),
    ("a call that gives nothing", method("x = args.r.skip_u32?(n: 1)"), "T2 16:1"),
    ("an own method that gives nothing", beside(G, "x = this.g!(k: 1)"), "T2 17:1"),
    ("an own method that gives a byte", beside(P, "x = this.p(k: 1)"), "ok"),
    ("an own method's byte for a bool", beside(P, "b = this.p(k: 1)"), "T2 17:1"),
    ("a coroutine's answer by `=`", beside(C, "q = this.c?(k: 1)"), "T2 17:1"),
    ("a coroutine's answer through a field by `=`", through("q = this.x.go?()"), "T2 10:1"),
    ("an operator with `=`", method("x += 255"), "ok"),
    ("an operator with `=` and another width", method("x += y"), "T1 16:6"),
    ("an operator with `=` on a bool", method("b += 1"), "T1 16:1"),
    ("an operator with `=` on an argument", method("args.k += 1"), "T2 16:1"),
    ("a shift with `=`", method("x <<= y"), "ok"),
    # T3: conditions
    ("an `if` on a number", method("if x {", "}"), "T3 16:4"),
    ("an `else if` on a number", method("if b {", "} else if x {", "}"), "T3 17:11"),
    ("an `if` on a bool", method("if b {", "}"), "ok"),
    ("a loop on a status", method("while q {", "} endwhile"), "T3 16:7"),
    ("a loop that promises a number", method("while b, inv x {", "} endwhile"), "T3 16:14"),
    ("a loop that promises a bool", method("while b, inv x < 9, post b {", "} endwhile"), "B12 16:1"),
    ("an assertion of a number", method("assert x"), "T3 16:8"),
    # T4: results
    ("a result", small("return args.k", gives=" base.u8"), "ok"),
    ("no result", small("return", gives=" base.u8"), "T4 3:1"),
    ("a bool for a byte", small("return args.c", gives=" base.u8"), "T4 3:1"),
    ("a result where there is none", small("return 1"), "T4 3:1"),
    ("nothing where there is none", small("return nothing"), "ok"),
    ("a coroutine without a status", small("return", mark="?"), "T4 3:1"),
    ("a coroutine with a number", small("return 1", mark="?"), "T4 3:1"),
    ("a coroutine with a status", small("return ok", mark="?"), "ok"),
    ("the end of a method with a result", small("if args.c {", "return 1", "}", gives=" base.u8"), "T4 6:1"),
    ("both ways return", small("if args.c {", "return 1", "} else {", "return 2", "}", gives=" base.u8"), "ok"),
    ("one of three ways goes on", small("if args.c {", "return 1", "} else if args.c {", "} else {", "return 2", "}", gives=" base.u8"), "T4 9:1"),
    ("a loop without end", small("while true {", "} endwhile", gives=" base.u8"), "ok"),
    ("a loop that is left", small("while true {", "break", "} endwhile", gives=" base.u8"), "T4 6:1"),
    ("a loop in which another is left", small("while true {", "while true {", "break", "} endwhile", "} endwhile", gives=" base.u8"), "ok"),
    ("an outer loop that is left", small("while.o true {", "while true {", "break.o", "} endwhile", "} endwhile.o", gives=" base.u8"), "T4 8:1"),
    ("a loop that may end", small("while args.c {", "return 1", "} endwhile", gives=" base.u8"), "T4 6:1"),
    ("a loop on the word in parentheses", small("while (true) {", "} endwhile", gives=" base.u8"), "ok"),
    ("a loop on a comparison that holds", small("while 1 == 1 {", "} endwhile", gives=" base.u8"), "T4 5:1"),
    # T5: constants
    ("a constant of its type", constant("base.u8", "255"), "ok"),
    ("a constant outside its type", constant("base.u8", "256"), "T5 1:25"),
    ("a sum outside the type", constant("base.u8", "(255 + 1) * 1"), "T5 1:35"),
    ("a difference below 0", constant("base.u8", "(1 - 2) + 3"), "T5 1:28"),
    ("a difference from 64 bits' end", constant("base.u64", "18446744073709551615 - 1"), "ok"),
    ("a sum above 64 bits", constant("base.u64", "18446744073709551615 + 1"), "T5 1:47"),
    ("a whole product of 0", constant("base.u64", "9223372036854775808 * 2 * 0"), "ok"),
    ("a division by 0", constant("base.u8", "1 / 0"), "T5 1:27"),
    ("a remainder by 0", constant("base.u8", "1 % 0"), "T5 1:27"),
    ("a shift by 64", constant("base.u64", "1 << 64"), "T5 1:28"),
    ("a shift by 63", constant("base.u64", "1 << 63"), "ok"),
    ("a number of 300 in a byte between", constant("base.u16", "300 as base.u8"), "T5 1:30"),
    ("a width of its own", constant("base.u8", "(255 as base.u8) + 1"), "T5 1:42"),
    ("a constant beside a byte", constant("base.u16", "300 + (1 as base.u8)"), "T5 1:26"),
    ("a constant from a wider one", "pri const A : base.u16 = 7 | pri const B : base.u8 = A", "ok"),
    ("a constant from one that is too large", "pri const A : base.u16 = 300 | pri const B : base.u8 = A", "T5 2:25"),
    ("a constant of one that has no value", "pri const A : base.u8 = 300 | pri const B : base.u8 = A + 1", "T5 1:25"),
    ("a constant outside its bounds", constant("base.u8[2 ..= 5]", "1"), "T5 1:34"),
    ("a constant within its bounds", constant("base.u8[2 ..= 5]", "5"), "ok"),
    ("bounds that cross", constant("base.u8[9 ..= 5]", "5"), "T5 1:23"),
    ("a constant that others are counted from", "pri const A : base.u8 = 200 | pri const B : base.u8 = A + 55", "ok"),
    ("a constant that is counted too far from another", "pri const A : base.u8 = 200 | pri const B : base.u8 = A + 56", "T5 2:27"),
    ("a bound above the type", constant("base.u8[..= 256]", "5"), "T5 1:27"),
    ("a field that can't be 0", "pub struct s( | n : base.u8[1 ..= 3], | )", "T5 2:5"),
    ("an argument that can't be 0", "pub struct s() | pub func s.g(k: base.u8[1 ..= 3]) {}", "ok"),
    ("a local that can't be 0", "pub struct s() | pub func s.g() { | var a : base.u8[1 ..= 3] | }", "T5 3:9"),
    ("a result that can't be 0", "pub struct s() | pub func s.g() base.u8[1 ..= 3] { | return 1 | }", "T5 2:16"),
    ("elements that can't be 0", "pub struct s( | n : array[2] base.u8[1 ..= 3], | )", "T5 2:14"),
    ("an array without elements", "pub struct s( | n : array[0] base.u8, | )", "T5 2:11"),
    ("an array without elements by its value", "pub struct s( | n : array[1 - 1] base.u8, | )", "T5 2:13"),
    ("a constant beside a byte variable", method("x = x + 256"), "T5 16:9"),
    ("a constant before a byte variable", method("x = 256 + x"), "T5 16:5"),
    ("a constant compared with a byte", method("b = x < 256"), "T5 16:9"),
    ("a constant for a byte", method("x = 256"), "B1 16:5"),
    ("a constant for a byte's operator", method("x += 256"), "T5 16:6"),
    ("a constant argument", beside(G, "this.g!(k: 256)"), "B8 17:12"),
    ("a constant argument of a base method", method("args.w.write_u8?(a: 256)"), "B8 16:21"),
    ("a constant result", small("return 256", gives=" base.u8"), "B1 3:8"),
    ("a bool after a constant argument", beside(G, "this.g!(k: 256)", "x = b"), "T2 18:1"),
    ("a status without a mark", 'pub status "bad"', "T5 1:12"),
    ("a status of a mark alone", 'pub status "#"', "T5 1:12"),
    ("a status with two question marks", 'pub status "#a??"', "T5 1:12"),
    ("a status with a question mark", 'pub status "#a?b?"', "ok"),
    ("a note with two question marks apart", 'pub status "@a?b?"', "ok"),
    ("a suspension with two question marks", 'pub status "$a??"', "T5 1:12"),
    ("a status before a constant", 'pub status "bad" | pri const A : base.u8 = 256', "T5 1:12"),
    ("a constant before a status", 'pri const A : base.u8 = 256 | pub status "bad"', "T5 1:25"),
    # values of operators: of all numbers only this one is in the type's bounds
    *[(f"{text} is {number}", constant(f"base.u64[{number} ..= {number}]", text), "ok") for text, number in VALUES],
    *[(f"{text} is another number", constant(f"base.u64[{number + 1} ..= {number + 1}]", text), f"T5 1:{32 + 2 * len(str(number + 1)) + sign}")
      for text, number, sign in OTHER_VALUES],
    *[(f"{text} has no value", constant("base.u64", text), f"T5 1:{25 + sign}") for text, sign in NO_VALUES],
    # E1: pure methods
    ("a pure method that writes a field", method("this.n = 1", mark=""), "E1 16:1"),
    ("a pure method that writes an element", method("this.a[0] = 1", mark=""), "E1 16:7"),
    ("a pure method that writes an element of a slice", method("l[0] = 1", mark=""), "E1 16:2"),
    ("a pure method that writes a local", method("x = 1", mark=""), "ok"),
    ("an impure method that writes a field", method("this.n = 1", mark="!"), "ok"),
    ("a pure method that calls an impure one", beside(G, "this.g!(k: 1)", mark=""), "E1 17:6"),
    ("a pure method that writes to a writer", method("args.w.write_u8_fast!(a: 1)", mark=""), "E1 16:8"),
    ("a pure method that calls a pure one", beside(P, "x = this.p(k: 1)", mark=""), "ok"),
    # E2: coroutines
    ("an impure method that calls a coroutine", beside(C, "this.c?(k: 1)", mark="!"), "E2 17:6"),
    ("an impure method that reads", method("x = args.r.read_u8?()", mark="!"), "E2 16:12"),
    ("an impure method that yields", method('yield? "$wait"', mark="!"), "E2 16:1"),
    ("an impure method that keeps a status", beside(C, "q =? this.c?(k: 1)", mark="!"), "E2 17:11"),
    ("a coroutine that calls a coroutine", beside(C, "this.c?(k: 1)"), "ok"),
    # E3: marks, and calls inside expressions
    ("a call with another mark", beside("pri func s.g!(k: base.u8) base.u8 { return 1 }", "x = this.g(k: 1)"), "E3 17:10"),
    ("a coroutine called as impure", beside(C, "this.c!(k: 1)"), "E3 17:6"),
    ("a pure base method with a mark", method("x = 1 + (this.a.length!() as base.u8)"), "E3 16:17"),
    ("a read inside an expression", method("x = x + args.r.read_u8?()"), "E3 16:16"),
    ("an own call inside an expression", beside(P, "x = x + this.p(k: 1)"), "E3 17:14"),
    ("an own call as an argument", beside(P, "x = this.p(k: this.p(k: 1))"), "E3 17:20"),
    ("an own call in parentheses", beside(P, "x = (this.p(k: 1))"), "ok"),
    ("an own call as a condition", beside("pri func s.p() base.bool { return true }", "if this.p() {", "}"), "E3 17:9"),
    ("a call through a field inside an expression", through("this.n = 1 + this.x.go?()"), "E3 10:21"),
    ("a call through a field", through("this.x.open!(k: 1)"), "ok"),
    # E4: `=?`
    ("a coroutine's status kept", beside(C, "q =? this.c?(k: 1)"), "ok"),
    ("a coroutine's status kept through a field", through("q =? this.x.go?()"), "ok"),
    ("a status kept in a number", beside(C, "x =? this.c?(k: 1)"), "E4 17:11"),
    ("a status kept in a field", beside(C, "this.t =? this.c?(k: 1)"), "ok"),
    ("a status kept in an argument", beside(C, "args.k =? this.c?(k: 1)"), "T2 17:1"),
    ("an impure method's status kept", beside(G, "q =? this.g!(k: 1)"), "E4 17:11"),
    ("a base coroutine's status kept", method("q =? args.r.skip_u32?(n: 1)"), "E4 16:13"),
    # E5: `yield?`
    ("a suspension yielded", method('yield? "$wait"'), "ok"),
    ("a suspension of the language yielded", method('yield? base."$short read"'), "ok"),
    ("an error yielded", method('yield? "#bad"'), "E5 16:8"),
    ("ok yielded", method("yield? ok"), "E5 16:8"),
    ("a variable yielded", method("yield? q"), "E5 16:8"),
    # two in one package: the lesser place
    ("a result before an argument of another type", beside(P, "b = this.p(k: y)"), "T1 17:15"),
    ("an effect before a type", method("this.n = 1", "x = b", mark=""), "E1 16:1"),
    ("a type before an effect", method("x = b", "this.n = 1", mark=""), "T2 16:1"),
    ("a constant before a method", "pri const A : base.u8 = 256 | " + small("return 1"), "T5 1:25"),
    # two rules at one place: the earlier rule
    ("a pure method that writes a bool to a number", method("this.n = true", mark=""), "T2 16:1"),
    ("an impure method that calls an impure one as a coroutine", beside(G, "this.g?(k: 1)", mark="!"), "E2 17:6"),
    ("a pure method that calls a pure one as impure", beside(P, "this.p!(k: 1)", mark=""), "E1 17:6"),
    # what breaks a rule has no type, and what holds it breaks none by that
    ("a sum with a wrong operand for a bool", method("b = x + b"), "T1 16:9"),
    ("a wrong operand in a condition", method("if x + b {", "}"), "T1 16:8"),
    ("a wrong operand beside another width", method("y = y + (x + b)"), "T1 16:14"),
]


if __name__ == "__main__":
    answer_all(PACKAGES)
