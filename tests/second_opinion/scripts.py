"""Scripts, read a second time by the rules of docs/SCRIPTS.md, and their reports, by the machine of source_machine.py.

A script is a list of bytes. It is read whole before anything runs: `report` gives what `mean` has to print of a package that was
accepted, and how it ends.
"""
import functools
import re

from . import judged
from .bounds import judge_bounds
from .source_machine import WIDTHS, Buffer, Machine, MoreTurns, Part
from .trees import BaseType, Method, SliceType, Struct

MOST_BYTES, MOST_LINES, MOST_RECEIVERS, MOST_STORES = 1 << 20, 1 << 16, 64, 64
MOST_IN_BUFFER, MOST_STORED, MOST_TURNS = 1 << 24, 1 << 26, 10_000_000
DONE, REFUSED, SCRIPT_REFUSED, OUT_OF_TURNS = 0, 1, 5, 7


class Broken(Exception):
    """A rule that a word breaks."""


def demand(holds, rule):
    if not holds:
        raise Broken(rule)


class Script:
    """What the lines read so far have declared, by name, and what they do: pairs of a line's number and a function of a run."""

    def __init__(self, declarations):
        self.structs = {it.name.encode(): it for it in declarations if isinstance(it, Struct) and it.public}
        self.methods = {}
        for it in declarations:
            if isinstance(it, Method) and it.public:
                self.methods.setdefault(it.owner, {})[it.name.encode()] = it
        self.things, self.commands, self.stored, self.turns = {}, [], 0, 1_000_000

    def read(self, text):
        """None, or the rule and the line of the first refusal."""
        if len(text) > MOST_BYTES:
            return "X4", 1
        lines = text.split(b"\n")
        last = lines.pop()
        lines = [line.removesuffix(b"\r") for line in lines] + ([last] if last else [])
        for number, line in enumerate(lines, 1):
            try:
                demand(number <= MOST_LINES, "X4")
                words = [word for word in re.split(rb"[ \t]", line) if word]
                if words and not words[0].startswith(b"#"):
                    self.line(words[0].decode("latin-1"), Words(words[1:]))
            except Broken as broken:
                return str(broken), number
        return None

    def line(self, word, words):
        demand(word in COMMANDS, "X1")
        getattr(self, "line_" + word)(words)

    def does(self, act):
        self.commands.append(act)

    # Names

    def declare(self, word, kind, most):
        """A name that the line declares, of a receiver, a buffer or an array."""
        demand(re.fullmatch(rb"[a-z][a-z0-9_]*", word) and word not in (b"null", b"true", b"false"), "X3")
        demand(word not in self.things, "X3")
        demand(sum((it.kind == "receiver") == (kind == "receiver") for it in self.things.values()) < most, "X4")
        return word

    def known(self, word, *kinds):
        demand(word in self.things, "X2")
        demand(self.things[word].kind in kinds, "X3")
        return self.things[word]

    # Lines

    def receiver(self, words, null):
        name = self.declare(words.next(), "receiver", MOST_RECEIVERS)
        struct = words.next()
        demand(struct in self.structs, "X2")
        words.end()
        thing = self.things[name] = Thing("receiver", name.decode(), self.structs[struct])
        word = "null" if null else "new"
        self.does(lambda run: run.declare(thing, None if null else run.machine.new(thing.of.name), f"{word} {thing.name}"))

    def line_new(self, words):
        self.receiver(words, False)

    def line_null(self, words):
        self.receiver(words, True)

    def line_init(self, words):
        thing, turns = self.known(words.next(), "receiver"), self.turns
        words.end()
        self.does(lambda run: run.init(thing, turns))

    def store(self, count):
        demand(self.stored + count <= MOST_STORED, "X4")
        return count

    def line_buf(self, words):
        name = self.declare(words.next(), "buffer", MOST_STORES)
        size = self.store(number(words.next(), MOST_IN_BUFFER))
        words.end()
        self.stored += size
        thing = self.things[name] = Thing("buffer", name.decode(), None)
        self.does(lambda run: run.declare(thing, Buffer(size), f"buf {thing.name} {size}"))

    def line_bytes(self, words):
        name = self.declare(words.next(), "array", MOST_STORES)
        cells = bytes_of(words.next())
        self.store(len(cells))
        words.end()
        self.stored += len(cells)
        thing = self.things[name] = Thing("array", name.decode(), None)
        self.does(lambda run: run.declare(thing, list(cells), f"bytes {thing.name} {len(cells)}"))

    def line_put(self, words):
        thing, some = self.known(words.next(), "buffer"), bytes_of(words.next())
        words.end()
        self.does(lambda run: run.put(thing, list(some)))

    def line_close(self, words):
        thing = self.known(words.next(), "buffer")
        words.end()
        self.does(lambda run: run.close(thing))

    def line_compact(self, words):
        thing = self.known(words.next(), "buffer")
        words.end()
        self.does(lambda run: run.compact(thing))

    def line_show(self, words):
        thing = self.known(words.next(), "buffer", "array")
        words.end()
        self.does(lambda run: run.show(thing))

    def line_turns(self, words):
        count = number(words.next(), MOST_TURNS)
        words.end()
        self.turns = count
        self.does(lambda run: run.say(f"turns {count}"))

    def line_call(self, words):
        target = words.next()
        demand(b"." in target, "X3")
        name, _, method = target.partition(b".")
        thing, turns = self.known(name, "receiver"), self.turns
        methods = self.methods.get(thing.of.name, {})
        demand(method in methods, "X2")
        method, given = methods[method], {}
        wanted = {it.name.encode(): it for it in method.arguments}
        for word in words.rest():
            demand(b"=" in word, "X3")
            name, _, value = word.partition(b"=")
            demand(name in wanted, "X3")
            value = self.value(wanted[name].type, value, wanted[name] in given)
            demand(not isinstance(value, Thing) or value not in given.values(), "X5")
            given[wanted[name]] = value
        demand(len(given) == len(wanted), "X3")
        self.does(lambda run: run.call(thing, method, {it: given[it] for it in method.arguments}, turns))

    def value(self, of, word, again):
        """What a word gives for an argument; an unknown name is told before an argument that is given again."""
        try:
            value = self.value_of(of, word)
        except Broken as broken:
            demand(not again or str(broken) == "X2", "X3")
            raise
        demand(not again, "X3")
        return value

    def value_of(self, of, word):
        if isinstance(of, SliceType):
            demand(of.element.name == "u8", "X3")
            return None if word == b"null" else self.known(word, "array")
        if of.name in WIDTHS:
            return number(word, 2 ** WIDTHS[of.name] - 1)
        if of.name == "bool":
            demand(word in (b"true", b"false"), "X3")
            return word == b"true"
        return None if word == b"null" else self.known(word, "buffer")


COMMANDS = {name[len("line_"):] for name in vars(Script) if name.startswith("line_")}


class Words:
    """The words of a line that are still to be examined. One that is missing is found at the line's end."""

    def __init__(self, words):
        self.words = words

    def next(self):
        demand(self.words, "X3")
        return self.words.pop(0)

    def rest(self):
        return self.words

    def end(self):
        demand(not self.words, "X3")


class Thing:
    """A receiver (of a struct), a buffer or a byte array."""

    def __init__(self, kind, name, of):
        self.kind, self.name, self.of = kind, name, of


def number(word, most):
    demand(re.fullmatch(rb"[0-9]+", word), "X3")
    digits = word.lstrip(b"0") or b"0"
    demand(len(digits) <= 20 and int(digits) <= most, "X4")
    return int(digits)


def bytes_of(word):
    demand(word == b"-" or re.fullmatch(rb"([0-9a-fA-F]{2})+", word), "X3")
    return b"" if word == b"-" else bytes.fromhex(word.decode())


class Run:
    """Runs a script's commands on a package, and keeps the lines of the report. What a script declares is there from the first."""

    def __init__(self, declarations, package):
        self.machine, self.state, self.lines = Machine(declarations, package=package), {}, []

    def say(self, line):
        self.lines.append(line)

    def declare(self, thing, state, line):
        self.state[thing] = state
        self.say(line)

    def init(self, thing, turns):
        state = self.state[thing]
        if state:
            self.machine.init(state)
        self.say(f"init {thing.name} " + ("ok" if state else '"#base: bad receiver"'))

    def put(self, thing, some):
        buffer = self.state[thing]
        before = buffer.wi
        buffer.put(some)
        self.say(f"put {thing.name} {buffer.wi - before}")

    def close(self, thing):
        self.state[thing].closed = True
        self.say(f"close {thing.name}")

    def compact(self, thing):
        self.state[thing].compact()
        self.say(f"compact {thing.name}")

    def show(self, thing):
        state = self.state[thing]
        if thing.kind == "buffer":
            self.say(f"show {thing.name} {shown(state.bytes[:state.wi])}{counts(state)}")
        else:
            self.say(f"show {thing.name} {shown(state)}")

    def call(self, thing, method, given, turns):
        self.machine.turns = turns
        line = f"call {thing.name}.{method.name} "
        try:
            answer = self.machine.enter(self.state[thing], method, {it: self.argument(it, value) for it, value in given.items()})
        except MoreTurns:
            self.say(line + "turns")
            raise
        buffers = [value for it, value in given.items() if isinstance(value, Thing) and not isinstance(it.type, SliceType)]
        self.say(line + result(method, answer) + "".join(f" {it.name}{counts(self.state[it])}" for it in buffers))

    def argument(self, it, value):
        if isinstance(it.type, SliceType):
            return Part(self.state[value], 0, len(self.state[value])) if value else Part([], 0, 0)
        return self.state[value] if isinstance(value, Thing) else value


def shown(some):
    return bytes(some).hex() or "-"


def counts(buffer):
    return f" ri={buffer.ri} wi={buffer.wi} pos={buffer.pos} {'closed' if buffer.closed else 'open'}"


def result(method, answer):
    of = method.result
    if method.mark == "?" or isinstance(of, BaseType) and of.name == "status":
        return f'"{answer}"' if answer else "ok"
    if of is None:
        return "done"
    return str(answer).lower()


@functools.lru_cache(16)
def judged_once(files):
    """What `check` has to print of files with these texts, which are a tuple, and their declarations where they are accepted."""
    kept = []

    def keep(declarations):
        kept.extend(declarations)
        return judge_bounds(declarations)

    return judged(files, keep), kept


def report(package, files, script):
    """What `mean PACKAGE SCRIPT FILE..` has to print of files with these texts, named f0, f1 and so on, and its exit status."""
    verdict, kept = judged_once(tuple(files))
    if verdict.startswith("refused"):
        return verdict + "\n", REFUSED
    read = Script(kept)
    refused = read.read(script)
    if refused:
        return f"script {refused[0]} line {refused[1]}\n", SCRIPT_REFUSED
    run, status = Run(kept, package), DONE
    try:
        for act in read.commands:
            act(run)
    except MoreTurns:
        status = OUT_OF_TURNS
    return "".join(line + "\n" for line in run.lines), status
