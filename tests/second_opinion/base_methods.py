"""What the language's own methods take and give. A kind is a tuple: ("reader",), ("writer",), ("status",), ("flag",), ("number",
bits), ("slice", bits) or ("array", bits)."""
from dataclasses import dataclass

BITS = {"u8": 8, "u16": 16, "u32": 32, "u64": 64}


@dataclass(frozen=True)
class BaseMethod:
    """`gives` is None where it gives nothing; arguments are pairs of name and kind."""
    mark: str
    arguments: tuple
    gives: tuple


FLAG, BYTE, COUNT = ("flag",), ("number", 8), ("number", 64)
LENGTH = {"length": BaseMethod("", (), COUNT)}
PLACED = {**LENGTH, "position": BaseMethod("", (), COUNT)}
READS = {f"read_u{bits}{order}": BaseMethod("?", (), ("number", bits)) for bits in (16, 32, 64) for order in ("be", "le")}
PEEKS = {name: BaseMethod("", (), ("number", bits)) for name, bits in (("peek_u8", 8), ("peek_u16le", 16), ("peek_u32le", 32))}
READER = {
    **PLACED, **READS, **PEEKS,
    "is_closed": BaseMethod("", (), FLAG),
    "read_u8": BaseMethod("?", (), BYTE),
    "skip_u32": BaseMethod("?", (("n", ("number", 32)),), None),
    "skip_u32_fast": BaseMethod("!", (("actual", ("number", 32)), ("worst_case", ("number", 32))), None),
}
WRITER = {
    **PLACED,
    "write_u8": BaseMethod("?", (("a", BYTE),), None),
    "write_u8_fast": BaseMethod("!", (("a", BYTE),), None),
    "copy_from_slice": BaseMethod("!", (("s", ("slice", 8)),), COUNT),
}
STATUS = {name: BaseMethod("", (), FLAG) for name in ("is_ok", "is_note", "is_suspension", "is_error")}


def methods_of(kind):
    """The methods of a kind by their names; a number and a flag have none."""
    if kind[0] == "slice":
        return {**LENGTH, "copy_from_slice": BaseMethod("!", (("s", kind),), COUNT)}
    return {"reader": READER, "writer": WRITER, "status": STATUS, "array": LENGTH}.get(kind[0], {})
