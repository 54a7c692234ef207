"""What exported functions take and give, read from code text (docs/MACHINE.md)."""
from __future__ import annotations

import struct
from typing import NamedTuple, Optional

# by the code's word of a type: struct's letter of the item, how many bits it has, and its name in ISPC
TYPES = {
    "b": ("?", 1, "bool"), "i8": ("b", 8, "int8"), "u8": ("B", 8, "uint8"), "i16": ("h", 16, "int16"), "u16": ("H", 16, "uint16"),
    "i32": ("i", 32, "int"), "u32": ("I", 32, "uint"), "i64": ("q", 64, "int64"), "u64": ("Q", 64, "uint64"),
}
# the instructions that write to the array that they name, and which of their words names it
_WRITES = {"store": 1, "scatter": 1, "vstore": 1, "clear": 1, "pstore": 2}


class Parameter(NamedTuple):
    """One parameter: its name, its type in ISPC, whether it is an array, and whether the kernel writes to that: it never does to one
    that is `const`. `bits` is the width of the type."""

    name: str
    type: str
    is_array: bool
    code: str
    is_written: bool

    @property
    def bits(self) -> int:
        return TYPES[self.code][1]

    @property
    def item_size(self) -> int:
        return struct.calcsize(TYPES[self.code][0])


class Signature(NamedTuple):
    """What an exported function takes, in order, and the type of what it returns, or None."""

    parameters: tuple
    result: Optional[str]

    def __str__(self) -> str:
        taken = ", ".join(f"{it.type} {it.name}{'[]' * it.is_array}" for it in self.parameters)
        return f"({taken}) -> {self.result or 'void'}"


class _Function:
    """A function of code text: its parameters, which arrays it writes to by number, and its calls with the arrays that they pass."""

    def __init__(self, words):
        self.name, self.exported = words[1], words[2] == "export"
        self.result = words[4] if len(words) > 4 else None
        self.parameters, self.written, self.calls = [], set(), []

    def add(self, words):
        """Takes one more line of the function."""
        place = _WRITES.get(words[0])
        if place and len(words) > place:
            self.written.add(words[place])
        elif words[0] == "call":
            self.calls.append((words[1], [it for it in words[5:] if it.startswith("a")]))
        elif words[0] == "par" and len(words) == 4 and words[2] in TYPES:
            self.parameters.append(words[1:])

    def signature(self):
        found, arrays = [], 0
        for kind, code, name in self.parameters:
            is_array = kind == "a"
            found.append(Parameter(name, TYPES[code][2], is_array, code, is_array and f"a{arrays}" in self.written))
            arrays += is_array
        return Signature(tuple(found), TYPES[self.result][2] if self.result in TYPES else None)


def signatures(code):
    """Returns the exported functions of code text, by name."""
    functions, inside = {}, None
    for line in code.split("\n"):
        words = line.split(" ")
        if words[0] == "func" and len(words) >= 4:
            functions[f"f{len(functions)}"] = inside = _Function(words)
        elif inside:
            inside.add(words)
    _follow_calls(functions)
    return {it.name: it.signature() for it in functions.values() if it.exported}


def _follow_calls(functions):
    """Adds the arrays to which the functions write that a function calls."""
    grown = True
    while grown:
        grown = False
        for function in functions.values():
            before = len(function.written)
            for callee, passed in function.calls:
                written = functions[callee].written if callee in functions else {f"a{i}" for i in range(len(passed))}
                function.written |= {name for i, name in enumerate(passed) if f"a{i}" in written}
            grown |= len(function.written) > before


def code_of(type_):
    """Returns the code's word of a type."""
    return next(code for code, (_, _, name) in TYPES.items() if name == type_)


def value_of(type_, bits):
    """Returns the value that these bits are."""
    if type_ is None:
        return None
    code = code_of(type_)
    if code == "b":
        return bool(bits)
    width = TYPES[code][1]
    return bits - (1 << width) if code.startswith("i") and bits >> width - 1 else bits
