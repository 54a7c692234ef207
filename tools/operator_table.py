#!/usr/bin/env python3
"""Writes crates/isp_tests_front/src/base/operators/table.rt: what each operator gives at the ends of each type.

The numbers come from Python's whole numbers, of any size, and from the rules of the language;
nothing here is taken from the crates.

    python3 tools/operator_table.py             writes it
    python3 tools/operator_table.py --check     ends with status 1 where it is stale
"""
import sys

sys.dont_write_bytecode = True
import written  # noqa: E402

TYPES = [
    ("bool", 1, False),
    ("int8", 8, True),
    ("uint8", 8, False),
    ("int16", 16, True),
    ("uint16", 16, False),
    ("int32", 32, True),
    ("uint32", 32, False),
    ("int64", 64, True),
    ("uint64", 64, False),
]
BINARY = ["Add", "Sub", "Mul", "Div", "Rem", "And", "Or", "Xor", "Shl", "Shr"]
UNARY = ["Negate", "Invert", "Absolute", "Not"]
HEAD = """//! The operators at the ends of each type. Written by `tools/operator_table.py`.

/// For each type the values that are tried, in the order of their numbers; for each operator on two values its result at
/// each pair, a dash where it divides by zero; for each on one value its result at each; and each value in each type.
"""


def ends(width, signed):
    """The values that are tried, in their order: both ends, 0, 1, their neighbours, the top bit."""
    low, high = (-(2 ** (width - 1)), 2 ** (width - 1) - 1) if signed else (0, 2**width - 1)
    tried = {low, low + 1, -1, 0, 1, 2, 2 ** (width - 1), high - 1, high}
    return sorted(value for value in tried if low <= value <= high)


def bits(value, width):
    """The low bits of a whole number, in two's complement."""
    return value % 2**width


def quotient(x, y):
    """Rounded toward zero."""
    return abs(x) // abs(y) * (1 if (x < 0) == (y < 0) else -1)


def binary(name, x, y, width):
    if name in ("Div", "Rem") and y == 0:
        return None
    amount = y % width
    return {
        "Add": lambda: x + y,
        "Sub": lambda: x - y,
        "Mul": lambda: x * y,
        "Div": lambda: quotient(x, y),
        "Rem": lambda: x - y * quotient(x, y),
        "And": lambda: x & y,
        "Or": lambda: x | y,
        "Xor": lambda: x ^ y,
        "Shl": lambda: x << amount,
        "Shr": lambda: x >> amount,
    }[name]()


def unary(name, x):
    return {"Negate": -x, "Invert": ~x, "Absolute": abs(x), "Not": int(x == 0)}[name]


def converted(x, name, width):
    return int(x != 0) if name == "bool" else bits(x, width)


def line(name, numbers, width):
    """A name and numbers, where a dash stands for none."""
    return " ".join([name, *("-" if z is None else str(bits(z, width)) for z in numbers)])


def lines(type_name, width, signed):
    tried = ends(width, signed)
    yield line(f"values_of_{type_name}", tried, width)
    for op in BINARY:
        yield line(op.lower(), [binary(op, x, y, width) for x in tried for y in tried], width)
    for op in UNARY:
        yield line(op.lower(), [unary(op, x) for x in tried], width)
    for other, wide, _ in TYPES:
        yield line(other, [converted(x, other, wide) for x in tried], wide)


def main():
    text = "\n".join(text for type_ in TYPES for text in lines(*type_))
    written.put({"crates/isp_tests_front/src/base/operators/table.rt": f'{HEAD}pub(super) const TABLE: &str = "{text}";\n'})


main()
