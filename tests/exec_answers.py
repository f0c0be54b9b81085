#!/usr/bin/env python3
"""Runs C texts by hand through `exec`, with answers by hand: what the C standard (ISO/IEC 9899:1999) and docs/SEMANTICS.md say of each.

usage: exec_answers.py PROGRAM [NAME]    only the rows whose name has NAME in it
Every text is the text of ITEMS with parts changed. A bar ends a line of a script or a report; before a script's lines stand a receiver
p, which is initialized, and their two lines in the report. The tables:

VALUES     an expression that `t` returns as a uint64_t, or `undefined`
BODIES     a body of `t`, and what a call of it comes to
TURNS      a body of `t`, the least turns that it needs, and what it returns
HOSTS      parts that change, a script, and the report: buffers, slices, statuses, receivers
FORMS      a part that changes, and the number of the item that breaks the unit form, or None where it is kept
READINGS   a text after the three lines; where it has an @, which is left out, the text can't go on (`text notc`)
OTHERS     whole files, and what is written

Prints what differs; the last line counts.
"""
import os
import pathlib
import subprocess
import sys
import tempfile

PACKAGE = """\
pub status "#bad"
pub struct e?(
)
pub func e.f!(a: base.u64) base.u64 {
    return 0
}
pub func e.g?(b: base.io_writer) {
}
pub func e.h!(s: slice base.u8) base.u8 {
    return 0
}
"""
LINES = "#include <stddef.h>\n#include <stdint.h>\n#include <string.h>\n"
# The items by number; BODY stands where a row may put a body of its own.
ITEMS = {
    "buffer": "typedef struct { uint8_t* ptr; size_t len; size_t wi; size_t ri; uint64_t pos; _Bool closed; } wuffs_base__io_buffer;",
    "part": "typedef struct { uint8_t n; uint32_t cells[3]; } part;",
    "struct": "typedef struct { uint8_t n8; uint16_t n16; uint32_t n32; uint64_t n64; _Bool yes; uint8_t a8[4]; uint16_t a16[3]; const char* s; "
              "part inner; } wuffs_e__e;",
    "bad": 'static const char bad[] = "#e: bad";',
    "none": 'static const char none[] = "#e: none";',
    "initialize": "const char* wuffs_e__e__initialize(wuffs_e__e* self) { memset(self, 0, sizeof(*self)); return 0; }",
    "twice": "static inline uint32_t twice(uint32_t x) { return (x + x); }",
    "set": "static uint8_t set(wuffs_e__e* self, uint8_t to) { self->n8 = to; return to; }",
    "put": "static void put(uint8_t* at, uint8_t to) { (*at) = to; }",
    "t": "static uint64_t t(wuffs_e__e* self, uint64_t a) { BODY }",
    "f": "uint64_t wuffs_e__e__f(wuffs_e__e* self, uint64_t a_a) { uint64_t got = 0; got = t(self, a_a); return got; }",
    "g": "const char* wuffs_e__e__g(wuffs_e__e* self, wuffs_base__io_buffer* a_b) { BODY }",
    "h": "uint8_t wuffs_e__e__h(wuffs_e__e* self, uint8_t* ap_s, size_t al_s) { BODY }",
}
NUMBER = {name: number for number, name in enumerate(ITEMS)}

LEAST = "((0 - 2147483647) - 1)"
VALUES = [
    # 6.5p5: an int that leaves its type is undefined; unsigned numbers are taken modulo 2^N (6.2.5p9).
    ("(2147483646 + 1)", 2147483647),
    ("(2147483647 + 1)", "undefined"),
    ("(2147483647 + 1u)", 2147483648),
    ("(4294967295u + 1)", 0),
    ("(4294967295u + 1ull)", 4294967296),
    ("(18446744073709551615ull + 1)", 0),
    ("(0 - 1)", 2 ** 64 - 1),
    ("(0u - 1)", 4294967295),
    (LEAST, 2 ** 64 - 2 ** 31),
    (f"({LEAST} - 1)", "undefined"),
    ("(((uint16_t)65535) * ((uint16_t)65535))", "undefined"),
    ("(((uint16_t)46340) * ((uint16_t)46340))", 2147395600),
    ("(((uint16_t)46341) * ((uint16_t)46341))", "undefined"),
    ("(((uint32_t)65535) * ((uint16_t)65535))", 4294836225),
    ("(((uint8_t)255) * ((uint8_t)255))", 65025),
    ("(((uint8_t)255) + ((uint8_t)1))", 256),
    ("(4294967295u * 4294967295u)", 1),
    ("(2147483647 * (0 - 1))", 2 ** 64 - 2147483647),
    (f"({LEAST} * (0 - 1))", "undefined"),
    # From the left, with the type that each step has (6.5.5, 6.5.6).
    ("(2147483647 + 1 + 0u)", "undefined"),
    ("(0u + 2147483647 + 1)", 2147483648),
    ("(65536 * 65536 * 0)", "undefined"),
    ("(0 * 65536 * 65536)", 0),
    # 6.5.5: quotients go towards 0, and a remainder has the sign of what is divided.
    ("(1 / 0)", "undefined"),
    ("(1 % 0)", "undefined"),
    ("(1u / 0)", "undefined"),
    ("(1ull % 0)", "undefined"),
    ("(7 / self->n8)", "undefined"),
    ("(7 + self->n8)", 7),
    ("((0 - 7) / 2)", 2 ** 64 - 3),
    ("((0 - 7) % 2)", 2 ** 64 - 1),
    ("(7 / (0 - 2))", 2 ** 64 - 3),
    ("(7 % (0 - 2))", 1),
    ("((0 - 7) / 2u)", 2147483644),
    ("((0 - 2147483647) / (0 - 1))", 2147483647),
    (f"({LEAST} / (0 - 1))", "undefined"),
    (f"({LEAST} % (0 - 1))", "undefined"),
    # 6.5.7: the count lies below the width of the promoted left operand, and what comes has to fit where that is an int.
    ("(1 << 30)", 1073741824),
    ("(1 << 31)", "undefined"),
    ("(1u << 31)", 2147483648),
    ("(1u << 32)", "undefined"),
    ("(1 << 31ull)", "undefined"),
    ("(1ull << 63)", 2 ** 63),
    ("(1ull << 64)", "undefined"),
    ("(0 << 31)", 0),
    ("(0 << 32)", "undefined"),
    ("((0 - 1) << 0)", "undefined"),
    ("(1u << (0 - 1))", "undefined"),
    ("(((uint8_t)127) << 24)", 2130706432),
    ("(((uint8_t)255) << 24)", "undefined"),
    ("(((uint32_t)255) << 24)", 4278190080),
    ("(1 >> 31)", 0),
    ("(1 >> 32)", "undefined"),
    ("(((uint16_t)65535) >> 16)", 0),
    ("((0 - 8) >> 1)", 2 ** 64 - 4),
    ("((0 - 7) >> 1)", 2 ** 64 - 4),
    ("(18446744073709551615ull >> 63)", 1),
    # 6.3.1.1, 6.5.3.3: narrower numbers are ints.
    ("(~0)", 2 ** 64 - 1),
    ("(~0u)", 4294967295),
    ("(~((uint8_t)15))", 2 ** 64 - 16),
    ("((uint8_t)(~((uint8_t)15)))", 240),
    ("((0 - 1) & 255u & 65535)", 255),
    ("((0 - 1) ^ 0u)", 4294967295),
    ("(1 | 2 | 4)", 7),
    # 6.3.1.2, 6.3.1.3, 6.5.4
    ("((uint8_t)256)", 0),
    ("((uint8_t)(0 - 1))", 255),
    ("((uint16_t)65537)", 1),
    ("((uint32_t)4294967297ull)", 1),
    ("((size_t)(0 - 1))", 2 ** 64 - 1),
    ("((uint64_t)(0u - 1))", 4294967295),
    ("((_Bool)256)", 1),
    ("((_Bool)4294967296ull)", 1),
    ("((_Bool)0)", 0),
    # 6.3.1.8, 6.5.8, 6.5.9: what is compared has one type.
    ("((0 - 1) < 0)", 1),
    ("((0 - 1) < 0u)", 0),
    ("((0 - 1) < 1ull)", 0),
    ("((0 - 1) < ((uint16_t)0))", 1),
    ("((0 - 1) == 4294967295u)", 1),
    ("((0 - 1) == 4294967295ull)", 0),
    ("(2 >= 2)", 1),
    ("(2 != 2)", 0),
    # 6.5.13 to 6.5.15: what isn't looked at needn't be defined.
    ("(0 && (1 / 0))", 0),
    ("(1 && (1 / 0))", "undefined"),
    ("(1 || (1 / 0))", 1),
    ("(0 || (1 / 0))", "undefined"),
    ("((1 / 0) || 1)", "undefined"),
    ("(1 && 0 && (1 / 0))", 0),
    ("(0 || 2 || (1 / 0))", 1),
    ("(1 ? 2 : (1 / 0))", 2),
    ("(0 ? 2 : (1 / 0))", "undefined"),
    ("(0 * (1 / 0))", "undefined"),
    ("(2 && 4)", 1),
    ("(!7)", 0),
    ("(!0)", 1),
    ("(1 ? (0 - 1) : 0)", 2 ** 64 - 1),
    ("(1 ? (0 - 1) : 0u)", 4294967295),
    ("((0 ? 0u : (0 - 1)) < 0)", 0),
    # 6.5.2.1, 6.5.6: elements, and pointers up to one past the last; that one C writes with `&` too (6.5.3.2p3), and the machine doesn't.
    ("self->a8[3]", 0),
    ("self->a8[4]", "undefined"),
    ("self->a8[(0 - 1)]", "undefined"),
    ("self->a8[18446744073709551615ull]", "undefined"),
    ("(self->a8 + 2)[(0 - 2)]", 0),
    ("(self->a8 + 2)[(0 - 3)]", "undefined"),
    ("(self->a8 + 2 + 4294967294u)[0]", "undefined"),
    ("(*(self->a8 + 3))", 0),
    ("(*(self->a8 + 4))", "undefined"),
    ("((self->a8 + 4) != self->a8)", 1),
    ("((self->a8 + 5) != self->a8)", "undefined"),
    ("((self->a8 + 4 + (0 - 4)) == self->a8)", 1),
    ("((self->a8 + 5 + (0 - 5)) == self->a8)", "undefined"),
    ("((&self->a8[3]) == (self->a8 + 3))", 1),
    ("((&self->a8[4]) == (self->a8 + 4))", "undefined"),
    ("(self->a16[3] || 1)", "undefined"),
    ("(1 || self->a16[3])", 1),
    ("(&self->inner)->cells[2]", 0),
    ("(&self->inner)->cells[3]", "undefined"),
    ("bad[0]", 35),
    ("bad[7]", 0),
    ("bad[8]", "undefined"),
    ("(*(bad + 6))", 100),
    # 6.5.8p5, 6.5.9p6. C has an order within one array; the machine has none.
    ("(bad == none)", 0),
    ("(bad != none)", 1),
    ("(bad < none)", "undefined"),
    ("(bad <= bad)", "undefined"),
    ("(bad == bad)", 1),
    ("((bad + 1) == bad)", 0),
    ("(self == 0)", 0),
    ("(!self)", 0),
    # 6.3.2.3p3, 6.5.3.2p4, 6.5.6p8
    ("(((uint8_t*)0) == 0)", 1),
    ("(((uint8_t*)0) == self->a8)", 0),
    ("(!((uint8_t*)0))", 1),
    ("(*((uint8_t*)0))", "undefined"),
    ("((uint8_t*)0)[0]", "undefined"),
    ("((((uint8_t*)0) + 1) == 0)", "undefined"),
    ("((part*)0)->n", "undefined"),
    ("(1 ? self->a8 : ((uint8_t*)0))[0]", 0),
    ("(0 ? self->a8 : ((uint8_t*)0))[0]", "undefined"),
    # 6.5.2.2
    ("(twice(2147483648u))", 0),
    ("(twice((0 - 1)))", 4294967294),
    ("(twice((1 / 0)))", "undefined"),
    ("(1 || (twice((1 / 0))))", 1),
    # The examples of docs/C-SUBSET.md.
    ("((self->n8 - 1) < 1)", 1),
    ("((self->n8 - 1u) < 1)", 0),
    ("((uint8_t)(0 - 1))", 255),
    ("((_Bool)256)", 1),
    ("((0 != a) && ((8 / a) > 2))", 0),
]

BODIES = [
    # 6.3.1.2, 6.3.1.3, 6.5.16.1
    ("stores cut numbers off", "self->n8 = 257; self->n16 = 65537; self->n32 = 4294967297ull; self->yes = 256; "
                               "return ((self->n8 * 1000) + (self->n16 * 100) + (self->n32 * 10) + self->yes);", 1111),
    ("a result is cut off", "uint64_t x = 0; x = set(self, 511); return x;", 255),
    ("an argument is cut off", "self->n32 = set(self, (0 - 1)); return self->n32;", 255),
    ("a store into a struct inside is cut off", "(&self->inner)->n = 258; return (&self->inner)->n;", 2),
    ("an element is cut off", "self->a16[1] = 65541; return self->a16[1];", 5),
    ("a product that is cut off is one of ints", "self->n16 = 65535; self->n16 = (self->n16 * self->n16); return 0;", "undefined"),
    ("a product of a cast", "self->n16 = 65535; self->n16 = (((uint32_t)self->n16) * self->n16); return self->n16;", 1),
    ("a number of 8 bits that goes on to 0", "self->n8 = 255; self->n8 = (self->n8 + 1); return self->n8;", 0),
    ("a number of 8 bits below 0", "self->n8 = (self->n8 - 1); return self->n8;", 255),
    ("a flag is an int", "self->yes = 5; return (self->yes + self->yes);", 2),
    ("a size is one of 64 bits", "size_t v = 0; v = (v - 1); return v;", 2 ** 64 - 1),
    # 6.2.4, 6.7.8p10
    ("a local that isn't set", "uint8_t v; return v;", "undefined"),
    ("a local that is set", "uint8_t v; v = 3; return v;", 3),
    ("a local that isn't set isn't looked at", "uint8_t v; return (1 || v);", 1),
    ("a local keeps its value over a jump back", "uint8_t v = 0; again: v = (v + 1); if ((v < 3)) { goto again; } return v;", 3),
    ("the local of an earlier call", "uint8_t v = 1; put((&v), 9); return v;", 9),
    ("a parameter is a variable", "a = (a + 5); put(((uint8_t*)0), a); return a;", "undefined"),
    ("a parameter that was assigned", "a = (a + 5); return a;", 5),
    # Macros of the headers (7.1.3), which no compiler takes as names.
    ("names that the headers define", "uint64_t NULL = 3; uint8_t INT8_MAX = 4; return (NULL + INT8_MAX);", 7),
    # 6.8.4.2
    ("a case", "switch (2) { case 1: return 10; case 2: return 20; default: return 30; }", 20),
    ("a default that stands first", "switch (7) { default: return 30; case 1: return 10; }", 30),
    ("a case after a default", "switch (1) { default: return 30; case 1: return 10; }", 10),
    ("no case, and no default", "switch (7) { case 1: return 10; } return 5;", 5),
    ("a fall through", "uint64_t n = 0; switch (1) { case 1: n = (n + 1); case 2: n = (n + 10); default: n = (n + 100); } return n;", 111),
    ("a fall through after a default", "uint64_t n = 0; switch (9) { case 1: n = (n + 1); default: n = (n + 10); case 2: n = (n + 100); } return n;", 110),
    ("two cases on one statement", "switch (a) { case 1: case 0: return 4; } return 5;", 4),
    ("a case of zeros and a case", "switch (self->n16) { case 65536: return 4; case 0: return 6; } return 5;", 6),
    ("a switch on a flag", "self->yes = 9; switch (self->yes) { case 9: return 4; case 1: return 6; } return 5;", 6),
    ("an empty switch", "switch (a) { } return 5;", 5),
    ("what stands before the first case", "uint64_t n = 0; switch (1) { n = 7; case 1: n = (n + 1); } return n;", 1),
    ("a case inside an if", "uint64_t n = 0; switch (1) { if (0) { n = 5; case 1: n = (n + 1); } else { n = (n + 10); } n = (n + 100); } return n;", 101),
    ("a case inside an else", "uint64_t n = 0; switch (1) { if (1) { n = 5; } else { case 1: n = (n + 1); } n = (n + 100); } return n;", 101),
    ("a case inside a while", "uint64_t n = 0; switch (1) { while ((n < 3)) { n = (n + 10); case 1: n = (n + 1); } } return n;", 12),
    ("a case of a switch inside", "uint64_t n = 0; switch (1) { case 2: switch (2) { case 1: n = 5; } default: n = (n + 1); } return n;", 1),
    ("a switch inside without its number", "uint64_t n = 0; switch (2) { case 1: n = 50; case 2: switch (1) { case 2: n = 5; } n = (n + 1); } return n;", 1),
    ("a case of another width", "switch (1ull) { case 1: return 4; } return 5;", 4),
    ("a number that is no case", "switch (4294967297ull) { case 1: return 4; } return 5;", 5),
    ("a switch on a negative number", "switch ((0 - 1)) { case 2147483647: return 4; default: return 6; } return 5;", 6),
    ("a switch on what isn't defined", "switch ((1 / 0)) { default: return 6; } return 5;", "undefined"),
    # 6.8.6.1
    ("a jump over a statement", "uint64_t n = 1; goto over; n = 2; over: return n;", 1),
    ("a jump into a block", "uint64_t n = 1; goto in; { n = 10; in: n = (n + 2); } return n;", 3),
    ("a jump into an if", "uint64_t n = 1; goto in; if (0) { in: n = (n + 2); } else { n = 10; } return n;", 3),
    ("a jump into an else", "uint64_t n = 1; goto in; if (1) { n = 10; } else { in: n = (n + 2); } return n;", 3),
    ("a jump into a loop", "uint64_t n = 5; goto in; while ((n < 8)) { n = (n + 10); in: n = (n + 1); } return n;", 17),
    ("a jump into a loop whose test fails then", "uint64_t n = 7; goto in; while ((n < 8)) { n = (n + 10); in: n = (n + 1); } return n;", 8),
    ("a jump into a switch", "uint64_t n = 0; goto in; switch (1) { case 1: n = 10; in: n = (n + 1); case 2: n = (n + 100); } return n;", 101),
    ("a jump out of two loops", "uint64_t n = 0; while (1) { while (1) { n = (n + 1); if ((n == 3)) { goto out; } } } out: return n;", 3),
    ("a jump back into a block that has ended", "uint64_t n = 0; { in: n = (n + 1); } if ((n < 4)) { goto in; } return n;", 4),
    ("labels on one statement", "uint64_t n = 1; switch (3) { case 3: x: y: n = (n + 1); } if ((n == 2)) { goto y; } return n;", 3),
    # 6.8.4.1, 6.8.5
    ("an else if", "if (0) { return 1; } else if (a) { return 2; } else if (1) { return 3; } else { return (1 / 0); }", 3),
    ("a condition that isn't defined", "if ((1 / 0)) { } return 0;", "undefined"),
    ("a condition after one that holds", "if (1) { return 7; } else if ((1 / 0)) { } return 0;", 7),
    ("a pointer as a condition", "if (self->a8) { return 7; } return 0;", 7),
    ("a while that isn't entered", "while (0) { return (1 / 0); } return 3;", 3),
    # 6.9.1p12
    ("a result that wasn't returned", "if (a) { return 1; }", "undefined"),
    # 6.5.2.3, 7.21.6.1
    ("a struct inside", "(&self->inner)->cells[1] = 5; (&self->inner)->n = 7; return ((&self->inner)->cells[1] + (&self->inner)->n + self->n8);", 12),
    ("a pointer to a struct inside", "part* q = (&self->inner); q->cells[2] = 9; return (&self->inner)->cells[2];", 9),
    ("zeros of a struct inside alone", "part* q = (&self->inner); self->n8 = 3; q->n = 4; q->cells[2] = 5; memset(q, 0, sizeof(*q)); "
                                       "return (self->n8 + q->n + q->cells[2]);", 3),
    ("zeros of a whole struct", "self->n64 = 1; self->yes = 1; self->s = bad; self->a16[2] = 5; (&self->inner)->cells[2] = 5; memset(self, 0, sizeof(*self)); "
                                "return (self->n64 + self->yes + (self->s == 0) + self->a16[2] + (&self->inner)->cells[2]);", 1),
    ("zeros of nothing", "part* q = 0; memset(q, 0, sizeof(*q)); return 0;", "undefined"),
    ("a pointer one past a struct", "part* q = ((&self->inner) + 1); return (q == (&self->inner));", 0),
    ("a field one past a struct", "part* q = ((&self->inner) + 1); return q->n;", "undefined"),
    ("a pointer two past a struct", "part* q = ((&self->inner) + 2); return 0;", "undefined"),
    # 7.21.2.2
    ("ranges that overlap, forwards", "self->a8[0] = 1; self->a8[1] = 2; self->a8[2] = 3; self->a8[3] = 4; memmove((&self->a8[1]), self->a8, 3); "
                                      "return ((self->a8[0] * 1000) + (self->a8[1] * 100) + (self->a8[2] * 10) + self->a8[3]);", 1123),
    ("ranges that overlap, backwards", "self->a8[0] = 1; self->a8[1] = 2; self->a8[2] = 3; self->a8[3] = 4; memmove(self->a8, (&self->a8[1]), 3); "
                                       "return ((self->a8[0] * 1000) + (self->a8[1] * 100) + (self->a8[2] * 10) + self->a8[3]);", 2344),
    ("a range onto itself", "self->a8[3] = 4; memmove(self->a8, self->a8, 4); return self->a8[3];", 4),
    ("bytes of a string", "memmove(self->a8, (bad + 4), 4); return ((self->a8[0] * 1000) + self->a8[3]);", 98000),
    ("more than a string has", "memmove(self->a8, (bad + 5), 4); return 0;", "undefined"),
    ("more than an array has", "memmove((self->a8 + 1), bad, 4); return 0;", "undefined"),
    ("more than is there", "memmove(self->a8, (self->a8 + 1), 4); return 0;", "undefined"),
    ("no bytes at an array's end", "memmove((self->a8 + 4), (self->a8 + 4), 0); return 7;", 7),
    ("no bytes of nothing", "memmove(self->a8, ((uint8_t*)0), 0); return 7;", "undefined"),
    ("no bytes to nothing", "memmove(((uint8_t*)0), self->a8, 0); return 7;", "undefined"),
    ("numbers of 16 bits", "self->a16[0] = 513; self->a16[1] = 1027; memmove((self->a16 + 1), self->a16, 4); return self->a16[2];", 1027),
    ("a number of bytes below 0", "memmove(self->a8, self->a8, (0 - 1)); return 0;", "undefined"),
    ("bytes that aren't set", "uint8_t v; memmove(self->a8, (&v), 1); return 0;", "undefined"),
    # What is moved are whole cells of one type: C has more that is defined here, and the machine calls it undefined.
    ("half a number", "memmove(self->a16, (self->a16 + 1), 1); return 0;", "undefined"),
    ("numbers as bytes", "memmove(self->a8, self->a16, 2); return 0;", "undefined"),
    # 6.5.16p4: it is open whether a target is found before the call or after it.
    ("a target that the call moves", "self->a8[self->n8] = set(self, 1); return 0;", "undefined"),
    ("a target that the call leaves", "self->n8 = 1; self->a8[self->n8] = set(self, 1); return self->a8[1];", 1),
    ("a target that is the call's own", "self->n8 = set(self, 6); return self->n8;", 6),
    ("a call whose result isn't used", "set(self, 6); return self->n8;", 6),
    ("a call with an argument that isn't defined", "set(self, (1 / 0)); return 0;", "undefined"),
    ("a store through nothing", "put(((uint8_t*)0), 1); return 0;", "undefined"),
    ("a store one past", "put((self->a8 + 4), 1); return 0;", "undefined"),
    ("a store into the last", "put((self->a8 + 3), 1); return self->a8[3];", 1),
    ("a store into a string", "self->s = bad; return self->s[1];", 101),
    ("a string that isn't there", "return self->s[0];", "undefined"),
]

# An entry of `t` is a turn, and so are a test after a pass and a jump back.
TURNS = [
    ("an entry", "return 7;", 1, 7),
    ("a call inside", "uint8_t v = 0; v = set(self, 1); set(self, 2); return v;", 3, 1),
    ("an inline call", "return (twice((twice(2))));", 1, 8),
    ("moves", "memmove(self->a8, self->a8, 4); memset(self, 0, sizeof(*self)); return 7;", 1, 7),
    ("a while that isn't entered", "while (0) { } return 7;", 1, 7),
    ("three passes", "uint8_t i = 0; while ((i < 3)) { i = (i + 1); } return i;", 4, 3),
    ("a pass that is left", "uint8_t i = 0; while ((i < 3)) { i = (i + 1); goto out; } out: return i;", 1, 1),
    ("loops in loops", "uint8_t i = 0; uint8_t n = 0; while ((i < 2)) { i = (i + 1); n = 0; while ((n < 3)) { n = (n + 1); } } return i;", 9, 2),
    ("a jump on", "goto x; x: ; return 7;", 1, 7),
    ("a jump on to a pass's end", "uint8_t i = 0; while ((i < 3)) { i = (i + 1); goto next; i = 9; next: ; } return i;", 4, 3),
    ("a jump on into a loop", "uint8_t i = 0; goto in; while ((i < 2)) { in: i = (i + 1); } return i;", 3, 2),
    ("a jump on out of a block", "{ { goto x; } } x: return 7;", 1, 7),
    ("a jump back", "uint8_t i = 0; x: i = (i + 1); if ((i < 3)) { goto x; } return i;", 3, 3),
    ("a jump back to its own label", "uint8_t i = 0; x: i = (i + 1); y: if ((i < 1)) { goto y; } return i;", 1, 1),
    ("a jump back inside a pass", "uint8_t i = 0; while ((i < 2)) { x: i = (i + 1); if ((i == 1)) { goto x; } } return i;", 3, 2),
    ("a jump back out of a switch", "uint8_t i = 0; x: i = (i + 1); switch (i) { case 1: goto x; case 2: goto y; } y: return i;", 2, 2),
    ("a jump back into a block", "uint8_t i = 0; if (1) { x: i = (i + 1); } if ((i < 2)) { goto x; } return i;", 2, 2),
    ("a switch into a loop", "uint8_t i = 0; switch (1) { case 0: while ((i < 2)) { case 1: i = (i + 1); } } return i;", 3, 2),
]

HOSTS = [
    # What a status may be: null, or the start of a string that is a status's text.
    ("a status that is null", {"g": "return 0;"}, "call p.g b=null", "call p.g ok"),
    ("a status of the package", {"g": "return bad;"}, "call p.g b=null", 'call p.g "#e: bad"'),
    ("a status of the base", {"bad": 'static const char bad[] = "$base: short write";', "g": "return bad;"}, "call p.g b=null", 'call p.g "$base: short write"'),
    ("a text that is no status", {"g": "return none;"}, "call p.g b=null", "call p.g undefined"),
    ("the rest of a status", {"g": "return (bad + 1);"}, "call p.g b=null", "call p.g undefined"),
    ("a status that wasn't returned", {"g": "if (a_b) { return 0; }"}, "call p.g b=null", "call p.g undefined"),
    ("a status that is kept", {"g": "if (self->s) { return self->s; } self->s = bad; return 0;"}, "call p.g b=null|call p.g b=null",
     'call p.g ok|call p.g "#e: bad"'),
    # Buffers. A call has to leave `ptr` and `len`, and ri <= wi <= len.
    ("a byte is written", {"g": "a_b->ptr[a_b->wi] = 7; a_b->wi = (a_b->wi + 1); return 0;"}, "buf b 2|call p.g b=b|show b",
     "buf b 2|call p.g ok b ri=0 wi=1 pos=0 open|show b 07 ri=0 wi=1 pos=0 open"),
    ("a byte past a buffer", {"g": "a_b->ptr[a_b->len] = 7; return 0;"}, "buf b 2|call p.g b=b", "buf b 2|call p.g undefined"),
    ("the last byte of a buffer", {"g": "a_b->ptr[(a_b->len - 1)] = 7; return 0;"}, "buf b 2|call p.g b=b", "buf b 2|call p.g ok b ri=0 wi=0 pos=0 open"),
    ("a full buffer", {"g": "a_b->wi = a_b->len; return 0;"}, "buf b 2|call p.g b=b|show b", "buf b 2|call p.g ok b ri=0 wi=2 pos=0 open|show b 0000 ri=0 wi=2 pos=0 open"),
    ("wi past len", {"g": "a_b->wi = (a_b->len + 1); return 0;"}, "buf b 2|call p.g b=b", "buf b 2|call p.g undefined"),
    ("ri up to wi", {"g": "a_b->ri = a_b->wi; return 0;"}, "buf b 2|put b 0102|call p.g b=b", "buf b 2|put b 2|call p.g ok b ri=2 wi=2 pos=0 open"),
    ("ri past wi", {"g": "a_b->ri = (a_b->wi + 1); return 0;"}, "buf b 2|call p.g b=b", "buf b 2|call p.g undefined"),
    ("ri past wi for a while", {"g": "a_b->ri = 9; a_b->ri = 0; return 0;"}, "buf b 2|call p.g b=b", "buf b 2|call p.g ok b ri=0 wi=0 pos=0 open"),
    ("another len", {"g": "a_b->len = 1; return 0;"}, "buf b 2|call p.g b=b", "buf b 2|call p.g undefined"),
    ("another pos, and closed", {"g": "a_b->pos = 18446744073709551615ull; a_b->closed = 2; return 0;"}, "buf b 2|call p.g b=b",
     "buf b 2|call p.g ok b ri=0 wi=0 pos=18446744073709551615 closed"),
    ("a buffer of zeros", {"g": "memset(a_b, 0, sizeof(*a_b)); return 0;"}, "buf b 2|call p.g b=b", "buf b 2|call p.g undefined"),
    ("a null buffer", {"g": "if ((!a_b)) { return bad; } return 0;"}, "call p.g b=null", 'call p.g "#e: bad"'),
    ("a field of a null buffer", {"g": "a_b->wi = 0; return 0;"}, "call p.g b=null", "call p.g undefined"),
    ("a buffer without bytes has none", {"g": "if ((!a_b->ptr)) { return bad; } return 0;"}, "buf b 0|call p.g b=b", 'buf b 0|call p.g "#e: bad" b ri=0 wi=0 pos=0 open'),
    ("a report stops at what is undefined", {"g": "if (a_b) { a_b->wi = 9; } return 0;"}, "buf b 2|call p.g b=null|call p.g b=b|call p.g b=null",
     "buf b 2|call p.g ok|call p.g undefined"),
    # Slices
    ("a slice's bytes", {"h": "ap_s[1] = 9; return (ap_s[0] + al_s);"}, "bytes a 0102|call p.h s=a|show a", "bytes a 2|call p.h 3|show a 0109"),
    ("a byte past a slice", {"h": "return ap_s[al_s];"}, "bytes a 0102|call p.h s=a", "bytes a 2|call p.h undefined"),
    ("a slice without bytes is null", {"h": "return ((ap_s == 0) + al_s);"}, "bytes a -|call p.h s=a|call p.h s=null", "bytes a 0|call p.h 1|call p.h 1"),
    ("a byte of a slice without bytes", {"h": "return ap_s[0];"}, "call p.h s=null", "call p.h undefined"),
    ("a slice that the package keeps no pointer to", {"h": "self->n8 = (self->n8 + 1); return self->n8;"}, "bytes a 01|call p.h s=a|call p.h s=null", "bytes a 1|call p.h 1|call p.h 2"),
    # Receivers
    ("a receiver that wasn't initialized is zero", {"t": "self->n8 = (self->n8 + 1); return self->n8;"}, "new q e|call q.f a=0|call q.f a=0|init q|call q.f a=0",
     "new q|call q.f 1|call q.f 2|init q ok|call q.f 1"),
    ("receivers are apart", {"t": "self->n64 = (self->n64 + a); return self->n64;"}, "new q e|init q|call p.f a=3|call q.f a=5|call p.f a=1", "new q|init q ok|call p.f 3|call q.f 5|call p.f 4"),
    ("a null receiver", {"t": "return (self == 0);"}, "null q e|call q.f a=0", "null q|call q.f 1"),
    ("a field of a null receiver", {"t": "return self->n8;"}, "null q e|call q.f a=0", "null q|call q.f undefined"),
    ("an init of a null receiver", {}, "null q e|init q", "null q|init q undefined"),
    ("an init that answers an error", {"initialize": "const char* wuffs_e__e__initialize(wuffs_e__e* self) { if ((!self)) { return bad; } return 0; }"},
     "null q e|init q", 'null q|init q "#e: bad"'),
    ("an argument of all bits", {"t": "return a;"}, "call p.f a=18446744073709551615", "call p.f 18446744073709551615"),
    # Parameters are evaluated in the memory before the call, and a call without a value isn't used.
    ("a function that gives no value, used", {"set": "static uint8_t set(wuffs_e__e* self, uint8_t to) { if (to) { return to; } }",
                                              "t": "uint8_t v = 0; v = set(self, a); return v;"}, "call p.f a=4|call p.f a=0", "call p.f 4|call p.f undefined"),
    ("a function that gives no value, not used", {"set": "static uint8_t set(wuffs_e__e* self, uint8_t to) { if (to) { return to; } }",
                                                  "t": "set(self, a); return 1;"}, "call p.f a=0", "call p.f 1"),
    ("a flag as a parameter and as a result", {"twice": "static inline _Bool twice(_Bool x) { return (x + x); }", "t": "return (twice(256));"}, "call p.f a=0", "call p.f 1"),
    ("a flag as a local", {"t": "_Bool v = a; return v;"}, "call p.f a=256|call p.f a=0", "call p.f 1|call p.f 0"),
    ("a parameter of 8 bits in an inline function", {"twice": "static inline uint32_t twice(uint8_t x) { return (~x); }", "t": "return (twice(a));"},
     "call p.f a=511", "call p.f 4294967040"),
    ("an inline function that isn't defined there", {"twice": "static inline uint32_t twice(uint32_t x) { return (12 / x); }", "t": "return (twice(a));"},
     "call p.f a=4|call p.f a=4294967296", "call p.f 3|call p.f undefined"),
]


def body(part, code, follows=""):
    return part, ITEMS[part].replace("BODY", code + follows)


def in_t(code, is_kept=False):
    """A row of FORMS for a body of `t`."""
    return code, *body("t", code, " return 0;"), None if is_kept else NUMBER["t"]


def in_g(code, is_kept=False):
    return f"in g: {code}", *body("g", code, " return 0;"), None if is_kept else NUMBER["g"]


def after(text, item=None):
    """A row of FORMS for items that stand after all others; where `item` is None, they keep the form."""
    return text, "end", text, item if item is None else len(ITEMS) + item


def other(part, old, new, item=True):
    """A row of FORMS for a part with other words. Without a number, it breaks at that part; with None it doesn't break."""
    assert old in ITEMS[part]
    return f"{part}: {new}", part, ITEMS[part].replace(old, new), NUMBER[part] if item is True else item


FORMS = [
    # Items and names
    other("buffer", "size_t wi; size_t ri;", "size_t ri; size_t wi;"),
    other("buffer", "wuffs_base__io_buffer;", "wuffs_base__buffer;"),
    after("static void one(void) { } static void one(void) { }", 1),
    after("static void bad(void) { }", 0),
    after("static void memset(void) { }", 0),
    after('static const char memmove[] = "x";', 0),
    after("static void one(uint8_t memset) { }", 0),
    after("typedef struct { uint8_t memset; } one;"),
    after("static void one(void) { memset: ; }"),
    after("typedef struct { uint8_t x; uint16_t x; } one;", 0),
    after("typedef struct { uint8_t x; } one; typedef struct { uint8_t x; } two;"),
    after("typedef struct { uint8_t* x; } one;", 0),
    after("typedef struct { part* x; } one;", 0),
    after("typedef struct { const char* x; part y; size_t z[7]; _Bool w[2]; } one;"),
    after("typedef struct { one x; } one;", 0),
    after("typedef struct { two x; } one; typedef struct { uint8_t x; } two;", 0),
    after("typedef struct { uint8_t x[0]; } one;", 0),
    after("typedef struct { uint8_t x[4u]; } one;", 0),
    after("typedef struct { part x[2]; } one;", 0),
    after("static void one(uint8_t x, uint8_t x) { }", 0),
    after("static void one(uint8_t x) { uint8_t x = 0; }", 0),
    after("static void one(void) { uint8_t late = 0; } static void late(void) { }", 0),
    after("static void one(uint8_t part) { }", 0),
    after("static void one(uint8_t twice) { }", 0),
    after("static void one(void) { uint8_t x = x; }", 0),
    after("static void one(void) { uint8_t x = y; uint8_t y = 0; }", 0),
    after("static void one(void) { uint8_t x = 1; uint8_t y = x; }"),
    after("static void one(two* p) { } typedef struct { uint8_t x; } two;", 0),
    after("static uint8_t* one(void) { }", 0),
    after("static part* one(void) { }", 0),
    after("static const char* one(void) { return bad; } static size_t two(void) { return 0; } static _Bool three(void) { return 2; }"),
    in_t("a = nothing;"),
    in_t("a = twice;"),
    in_t("self->s = bad;", True),
    # Types
    in_t("a = (!self->inner);"),
    in_t("a = (!self->a8);", True),
    in_t("if (self->inner) { }"),
    in_t("self->s = (1 + self->s);"),
    in_t("self->s = (self->s + 1);", True),
    in_t("a = (self->s + self->s);"),
    in_t("a = (self->s - self->s);"),
    in_t("a = (self->s * 1);"),
    in_t("a = (~self->s);"),
    in_t("switch (self->s) { }"),
    in_t("a = (self->s < 0);"),
    in_t("a = (self->s != 0);", True),
    in_t("a = (self->s == 0u);"),
    in_t("a = (self->s == self->a8);"),
    in_t("a = (self == (&self->inner));"),
    in_t("a = (a ? self->s : 0);"),
    in_t("self->s = (a ? self->s : 0);", True),
    in_t("self->s = (a ? self->s : self->a8);"),
    in_t("a = a->n8;"),
    in_t("a = self->nothing;"),
    in_t("a = self->inner->n;"),
    in_t("a = (&self->inner)->n;", True),
    in_t("a = self[0];"),
    in_t("a = (*self);"),
    in_t("a = a[0];"),
    in_t("a = self->s[self->s];"),
    in_t("a = ((uint64_t)self->s);"),
    in_t("self->s = ((const char*)0);", True),
    in_t("self->s = ((const char*)self->a8);"),
    in_t("self->s = ((const char*)1);"),
    in_t("self->s = 0;", True),
    in_t("self->s = 0u;"),
    in_t("self->s = 1;"),
    in_t("self->s = self->a8;"),
    in_t("a = self->s;"),
    in_t("self->s[0] = 1;"),
    in_t("bad = self->s;"),
    in_t("self->a8 = self->a8;"),
    in_t("self->inner = self->inner;"),
    in_t("self->a8[0] = 1;", True),
    in_t("put((&self->n8), 1);", True),
    in_t("put((&self->n16), 1);"),
    in_t("put((&1), 1);"),
    in_t("put((&(a + 1)), 1);"),
    in_t("put((&self->a8), 1);"),
    in_g("a_b->ptr[0] = 1;", True),
    in_g("a_b->ptr = 0;"),
    in_g("put((&a_b->ptr[0]), 1);", True),
    in_g("put((&a_b->ptr), 1);"),
    # Calls
    in_t("t(self, a);"),
    in_t("wuffs_e__e__f(self, a);"),
    in_t("set(self);"),
    in_t("set(self, 1, 2);"),
    in_t("set(1, self);"),
    in_t("set(0, 1);", True),
    in_t("a = put(self->a8, 1);"),
    in_t("self->s = set(self, 1);"),
    in_t("a = (set(self, 1));"),
    in_t("a = twice(1);", True),
    in_t("a = (twice(1));", True),
    in_t("a = (twice(1, 2));"),
    in_t("a = (twice(self));"),
    in_t("a = (bad(1));"),
    in_t("bad(1);"),
    after("static inline uint8_t one(uint8_t x) { uint8_t y = 0; return x; } static void two(void) { uint8_t z = (one(1)); }", 1),
    after("static inline uint8_t one(uint8_t x) { x = 1; return x; } static void two(void) { uint8_t z = (one(1)); }", 1),
    after("static inline uint8_t one(const char* x) { return 1; } static void two(void) { uint8_t z = (one(bad)); }", 1),
    after("static inline uint8_t one(const char* x) { return 1; } static void two(void) { uint8_t z = 0; z = one(bad); }"),
    in_t("memmove(self->a8, self->s, a);", True),
    in_t("memmove(self->s, self->a8, a);"),
    in_t("memmove(self, self->a8, a);"),
    in_t("memmove(self->a8, self->a8, self->s);"),
    in_t("memmove(self->a8, self->a8);"),
    in_t("a = memmove(self->a8, self->a8, 1);"),
    in_t("memset(self, 0, sizeof(*self));", True),
    in_t("memset(self, 1, sizeof(*self));"),
    in_t("memset(self, 0, 4);"),
    in_t("memset((&self->inner), 0, sizeof(*self));"),
    in_t("memset(self->a8, 0, sizeof(*self));"),
    in_t("memset(a, 0, sizeof(*a));"),
    in_t("set(self, sizeof(*self));"),
    # Labels and loops
    in_t("goto nowhere;"),
    in_t("x: ; { x: ; }"),
    in_t("case 1: ;"),
    in_t("default: ;"),
    in_t("switch (a) { case 1: ; { case 1: ; } }"),
    in_t("switch (a) { case 1: ; switch (a) { case 1: ; default: ; } default: ; }", True),
    in_t("switch (a) { default: ; default: ; }"),
    in_t("switch (a) { case 1u: ; }"),
    in_t("while (a) { }", True),
    in_t("x: ; goto x;", True),
    in_t("return;"),
    in_t("return self->s;"),
    in_g("while (1) { }"),
    in_g("x: ; goto x;"),
    in_g("goto x; { x: ; }", True),
    in_g("{ x: ; } if (1) { goto x; }"),
    after("static void one(void) { return 1; }", 0),
    after("static void one(void) { return; }"),
    after("static inline void one(void) { while (1) { } }", 0),
    # What the package asks for; where a function isn't there, the number of items is told.
    other("struct", "wuffs_e__e;", "wuffs_e__d;", NUMBER["initialize"]),
    other("initialize", "wuffs_e__e__initialize", "wuffs_e__e__init", len(ITEMS)),
    other("initialize", "(wuffs_e__e* self)", "(part* self)"),
    other("initialize", "const char*", "static const char*"),
    ("no f", "f", "", len(ITEMS) - 1),
    other("f", "uint64_t a_a", "uint32_t a_a"),
    other("f", "uint64_t wuffs_e", "uint32_t wuffs_e"),
    other("f", "uint64_t a_a) { ", "uint64_t b_a) { uint64_t a_a = 0; "),
    other("f", ", uint64_t a_a) { ", ") { uint64_t a_a = 0; "),
    other("f", "uint64_t wuffs_e", "static uint64_t wuffs_e"),
    ("f: its name for a string", "f", 'static const char wuffs_e__e__f[] = "x";', NUMBER["f"]),
    ("h: without its length", "h", "uint8_t wuffs_e__e__h(wuffs_e__e* self, uint8_t* ap_s) { return 0; }", NUMBER["h"]),
    ("h: a slice of other numbers", "h", "uint8_t wuffs_e__e__h(wuffs_e__e* self, uint16_t* ap_s, size_t al_s) { return 0; }", NUMBER["h"]),
    ("g: without a status", "g", "void wuffs_e__e__g(wuffs_e__e* self, wuffs_base__io_buffer* a_b) { }", NUMBER["g"]),
    after("uint8_t wuffs_e__e__more(wuffs_e__e* self) { return 1; }"),
    ("the first of two items", "set", "static uint8_t set(wuffs_e__e* self, uint8_t to) { return self; } static uint8_t later(void) { return none; }", NUMBER["set"]),
    ("an item, and a function that isn't there", "h", "static uint8_t later(void) { return none; }", NUMBER["h"]),
]

# Where a part can't go on, an @ stands before it. What is read whole has no public functions, and so breaks the form.
READINGS = [
    "",
    "@int one(void) { }",
    "static void one(void) { } @}",
    "static void one(void) { @",
    "static void one(uint8_t x) { x = @01; }",
    "static void one(uint8_t x) { x = @1ul; }",
    "static void one(uint8_t x) { x = @2147483648; }",
    "static void one(uint8_t x) { x = @0x10; }",
    "static void one(uint8_t x) { x = @18446744073709551616ull; }",
    "static void one(uint8_t x) { x = @-1; }",
    "static void one(uint8_t x) { x = (x -@- x); }",
    "static void one(uint8_t x) { x @+= 1; }",
    "static void one(uint8_t x) { x@++; }",
    "static void one(uint8_t x) { x = x @* x; }",
    "static uint32_t one(uint16_t x) { return x @* x; }",
    "static void one(uint8_t x) { x = (x@); }",
    "static void one(uint8_t x) { x = (x - x @- x); }",
    "static void one(uint8_t x) { x = (x + x @* x); }",
    "static void one(uint8_t x) { x = (x == x @== x); }",
    "static void one(uint8_t x) { @1 = x; }",
    "static void one(uint8_t x) { (x + x) @= x; }",
    "static void one(uint8_t x) { x = 1@->x; }",
    "static void one(uint8_t x) { x = x@.x; }",
    "static void one(uint8_t x) { x = @'x'; }",
    "static void one(uint8_t x) { x = @\"x\"; }",
    "static void one(uint8_t x) { if (x) @x = 1; }",
    "static void one(uint8_t x) { if @x { } }",
    "static void one(uint8_t x) { while (x) @; }",
    "static void one(uint8_t x) { @for (x = 0; x; ) { } }",
    "static void one(uint8_t x) { @do { } while (x); }",
    "static void one(uint8_t x) { while (x) { @break; } }",
    "static void one(uint8_t x) { x = 1; @uint8_t y; }",
    "static void one(uint8_t x) { uint8_t y@, z; }",
    "static void one(uint8_t x) { uint8_t y@[2]; }",
    "static void one(uint8_t x) { y: @}",
    "static void one(uint8_t x) { switch (x) { case @x: ; } }",
    "static void one(uint8_t x) { return two@(x); }",
    "static void one(uint8_t x) { x = (y + two@(x)); }",
    "static void one(uint8_t x) { x = @sizeof(*x); }",
    "static void one(@) { }",
    "static void one(uint8_t@) { }",
    "static void one(one @x) { }",
    "static void one(uint8_t*@* x) { }",
    "@inline void one(void) { }",
    "const @uint8_t one(void) { }",
    "static const @uint8_t one[] = \"x\";",
    "static const char @while[] = \"x\";",
    "static const char one[] = @\"x\\n\";",
    "static const char one[] = @\"a??b\";",
    "static const char one[] = @\"x",
    "static const char one[@1] = \"x\";",
    "typedef struct { @} one;",
    "typedef struct @one { uint8_t x; } one;",
    "@#define X",
    "@\tstatic void one(void) { }",
    "@// x",
    "@/* x */",
]


# Chains that no bracket bounds.
LONG = [
    ("a sum", "return (1" + " + 1" * 60000 + ");", 60001),
    ("conditions", "return (1" + " && 1" * 60000 + ");", 1),
    ("alternatives", "return (0" + " || 0" * 60000 + ");", 0),
    ("else if", "if (0) { }" + " else if (0) { }" * 60000 + " else { return 7; } return 0;", 7),
    ("labels", "".join(f"l{i}: " for i in range(60000)) + "return 7;", 7),
    ("statements", "uint64_t v = 0; " + "v = (v + 1); " * 60000 + "return v;", 60000),
]


def text_of(parts):
    items = [parts.get(name, body(name, "return 0;")[1]) for name in ITEMS] + [parts.get("end", "")]
    return LINES + "\n".join(item for item in items if item) + "\n"


def with_bodies(parts):
    return {name: code if name not in ("t", "g", "h") else body(name, code)[1] for name, code in parts.items()}


def status_of(report):
    last = report.rsplit("|", 1)[-1]
    return 9 if last.endswith(" undefined") else 7 if last.endswith(" turns") else 0


def others():
    """Whole files: a name, the package, the script, the text (None where there is none), and what is written with its exit status."""
    text = text_of({})
    ends = "void one(void) "
    yield "the least that is too long", PACKAGE, "", text + " " * (1048577 - len(text)), ("text long", 8)
    yield "the most that isn't", PACKAGE, "", text + " " * (1048576 - len(text)), ("", 0)
    yield "too long for a text, and none", PACKAGE, "", "x" * 1048577, ("text long", 8)
    yield "512 brackets", PACKAGE, "", text + ends + "{" * 512 + "}" * 512, ("", 0)
    yield "513 brackets", PACKAGE, "", text + ends + "{" * 513 + "}" * 513, (f"text deep {len(text + ends) + 512}", 8)
    yield "513 brackets and a fault before them", PACKAGE, "", text + "x " + ends + "{" * 513, (f"text notc {len(text) + 2}", 8)
    yield "513 brackets, the last of which can't stand there", PACKAGE, "", text + ends + "{" * 512 + "[", (f"text deep {len(text + ends) + 512}", 8)
    front, said, called = "new p e|init p|", "new p|init p ok|", "call p.f a=0"
    turns = "turns 100000|"
    for name, code, wanted in LONG:
        chained = text_of(with_bodies({"t": code}))
        assert len(chained) <= 1048576
        yield f"60,000 links: {name}", PACKAGE, front + turns + called, chained, (said + turns + f"call p.f {wanted}", 0)
    first = "static uint64_t t("
    for count, wanted in ((4094, (said + "turns 100000|call p.f 3", 0)), (4095, ("", 6))):
        functions = "static uint64_t f0(void) { return 3; }\n" + "".join(
            f"static uint64_t f{i}(void) {{ uint64_t v = 0; v = f{i - 1}(); return v; }}\n" for i in range(1, count))
        deep = text_of(with_bodies({"t": f"uint64_t v = 0; v = f{count - 1}(); return v;"}))
        yield f"a chain of {count + 2} calls", PACKAGE, front + turns + called, deep.replace(first, functions + first), wanted
    linked = text_of(with_bodies({"t": "self->n8 = self" + "->n8" * 60000 + "; return 0;"}))
    yield "60,000 links: fields", PACKAGE, "", linked, (f"text form {NUMBER['t']}", 8)
    yield "no text", PACKAGE, "", "", ("text notc 0", 8)
    yield "one letter", PACKAGE, "", "x", ("text notc 0", 8)
    yield "another second line", PACKAGE, "", LINES.replace("stdint", "stdio"), ("text notc 20", 8)
    yield "another third line", PACKAGE, "", LINES.replace("string", "strings"), ("text notc 40", 8)
    yield "a last line that doesn't end", PACKAGE, "", LINES[:-1], ("text notc 40", 8)
    yield "the script comes before the text", PACKAGE, "frob\n", "x", ("script X1 line 1", 5)
    yield "the package comes before the script", PACKAGE + "x\n", "frob\n", "x", ("refused S5 e.wuffs:12:1", 1)
    yield "no file of a text", PACKAGE, "frob\n", None, ("input fault t.c", 3)


def cases():
    """Names, packages, scripts, texts, and what is written, with its exit status."""
    front, said = "new p e|init p|", "new p|init p ok|"
    for code, wanted in VALUES:
        report = f"{said}call p.f {wanted}"
        yield f"value: {code}", PACKAGE, front + "call p.f a=0", text_of(with_bodies({"t": f"return {code};"})), (report, status_of(report))
    for name, code, wanted in BODIES:
        report = f"{said}call p.f {wanted}"
        yield f"body: {name}", PACKAGE, front + "call p.f a=0", text_of(with_bodies({"t": code})), (report, status_of(report))
    for name, code, least, wanted in TURNS:
        for turns, answer in ((least, wanted), (least - 1, "turns")):
            report = f"{said}turns {turns}|call p.f {answer}"
            yield f"turns: {name}, {turns}", PACKAGE, f"{front}turns {turns}|call p.f a=0", text_of(with_bodies({"t": code})), (report, status_of(report))
    for name, parts, lines, wanted in HOSTS:
        yield f"host: {name}", PACKAGE, front + lines, text_of(with_bodies(parts)), (said + wanted, status_of(wanted))
    for name, part, text, item in FORMS:
        yield f"form: {name}", PACKAGE, "turns 1", text_of({part: text}), ("turns 1", 0) if item is None else (f"text form {item}", 8)
    for text in READINGS:
        at = len(LINES) + text.find("@")
        wanted = f"text notc {at}" if "@" in text else "text form 0"
        yield f"reading: {text}", PACKAGE, "turns 1", LINES + text.replace("@", "", 1), (wanted, 8)
    for name, *case in others():
        yield f"other: {name}", *case


def answer(program, folder, package, script, text):
    """What `exec` writes, and its exit status."""
    for name, written in (("e.wuffs", package), ("s", script.replace("|", "\n")), ("t.c", text)):
        path = pathlib.Path(folder, name)
        path.unlink(missing_ok=True)
        if written is not None:
            path.write_text(written)
    ended = subprocess.run([program, "exec", "e", "s", "t.c", "e.wuffs"], cwd=folder, stdin=subprocess.DEVNULL, capture_output=True, text=True, timeout=60)
    return ended.stdout.rstrip("\n").replace("\n", "|"), ended.returncode


def main():
    program, only = os.path.abspath(sys.argv[1]), (sys.argv[2:] + [""])[0]
    passed = failed = 0
    with tempfile.TemporaryDirectory() as folder:
        for name, package, script, text, wanted in cases():
            if only not in name:
                continue
            came = answer(program, folder, package, script, text)
            passed += came == wanted
            failed += came != wanted
            if came != wanted:
                print(f"{name}: the program says {came}, and {wanted} is wanted")
    print(f"exec_answers.py: {passed} passed, {failed} failed")
    return 1 if failed or not passed else 0


if __name__ == "__main__":
    sys.exit(main())
