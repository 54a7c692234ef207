#!/usr/bin/env python3
"""Writes crates/isp_tests_machine/src/code/codes/table.rt: instructions that the verifier takes, and wrong ones.

Each line of the table of instructions in docs/MACHINE.md stands here once, as code text, with what it asks of each
operand. A wrong instruction differs from a right one in one operand: it is not there (40), has
another class, or has another type, kind or value (41). Nothing is taken from the crates.

    python3 tools/code_table.py             writes it
    python3 tools/code_table.py --check     ends with status 1 where it is stale
"""
import sys

sys.dont_write_bytecode = True
import written  # noqa: E402

# The registers of the function that the tests use: class, number, type.
#   s0 i32 (a parameter), s1 i32, s2 bool, s3 i64, s4 u8;  v0 i32, v1 i32, v2 bool, v3 i64, v4 u8;  m0, m1
#   a0 i32 (a parameter), a1 i32 (shared), a2 i32 (of each lane), a3 u8 (shared);  p0;  t0;  two instructions
OTHER_CLASS = {"s": "v", "v": "s", "m": "s", "a": "s"}


# Each operand: a right word, and the words of its class that are wrong in type or kind.
LINES = [
    # scalars
    ("copy s0 s1", [[], ["s3", "s2"]]),
    ("conv s0 s3", [[], []]),
    ("neg s0 s1", [["s2"], ["s3"]]),
    ("inv s4 s4", [["s2"], ["s0"]]),
    ("abs s3 s3", [["s2"], ["s0"]]),
    ("lnot s2 s2", [["s0"], ["s0"]]),
    ("add s0 s1 s0", [["s2"], ["s3"], ["s3"]]),
    ("max s4 s4 s4", [["s2"], ["s3"], ["s3"]]),
    ("eq s2 s0 s1", [["s0"], [], ["s3"]]),
    ("lt s2 s2 s2", [["s4"], [], ["s3"]]),
    ("sel s0 s2 s1 s0", [[], ["s0"], ["s3"], ["s2"]]),
    ("mfirst s3 m1", [["s0"], []]),
    ("load s0 a0 s3 m0 p0", [[], ["a2", "a3"], ["s0"], [], []]),
    ("radd s3 v0 m0", [["s2", "s4"], ["v2", "v4"], []]),
    ("radd s3 v3 m1", [["s2"], ["v2"], []]),
    ("rmin s0 v1 m0", [["s2"], ["v3"], []]),
    ("rmax s4 v4 m0", [["s2"], ["v0"], []]),
    ("requ s2 v3 m0", [["s0"], ["v2"], []]),
    ("rany s2 v2 m0", [["s0"], ["v0"], []]),
    ("rall s2 v2 m1", [["s0"], ["v4"], []]),
    ("extr s0 v1 s1 m0", [["s2"], ["v3"], ["s3"], []]),
    # lanes
    ("copy v0 v1 m0", [[], ["v3", "v2"], []]),
    ("conv v0 v3 m1", [[], [], []]),
    ("neg v0 v1 m0", [["v2"], ["v3"], []]),
    ("lnot v2 v2 m0", [["v0"], ["v0"], []]),
    ("sub v0 v1 v0 m0", [["v2"], ["v3"], ["v3"], []]),
    ("ge v2 v0 v1 m0", [["v0"], [], ["v3"], []]),
    ("sel v0 v2 v1 v0 m0", [[], ["v0"], ["v3"], ["v2"], []]),
    ("splat v0 s1 m0", [[], ["s3"], []]),
    ("index v0 m0", [["v3"], []]),
    ("gather v0 a2 v3 m0 p0", [[], ["a3"], ["v0"], [], []]),
    ("vload v0 a0 s3 m0 p0", [[], ["a2", "a3"], ["s0"], [], []]),
    ("sadd v0 v1 m0", [["v2"], ["v3"], []]),
    ("sand v4 v4 m0", [["v2"], ["v0"], []]),
    ("sor v3 v3 m1", [["v2"], ["v0"], []]),
    ("bcast v0 v1 s1 m0", [["v2"], ["v3"], ["s3"], []]),
    ("rot v4 v4 s0 m0", [["v2"], ["v0"], ["s4"], []]),
    ("shf v3 v3 s0 m1", [["v2"], ["v0"], ["s2"], []]),
    ("shuf v3 v3 v0 m0", [["v2"], ["v0"], ["v3"], []]),
    ("shuf2 v3 v3 v3 v1 m0", [["v2"], ["v0"], ["v4"], ["v3"], []]),
    ("ins v0 v1 s1 s0 m0", [["v2"], ["v3"], ["s3"], ["s2"], []]),
    # masks
    ("mcopy m0 m1", [[], []]),
    ("mand m0 m1 m0", [[], [], []]),
    ("mor m0 m1 m0", [[], [], []]),
    ("mandn m0 m1 m0", [[], [], []]),
    ("mfull m1", [[]]),
    ("mnone m1", [[]]),
    ("mtest m1 v2 m0", [[], ["v0"], []]),
    ("mlow m1 m0", [[], []]),
    ("mrange m1 s3 s3", [[], ["s0"], ["s0"]]),
    # four registers and a place; the first is written, or is the array
    ("div s0 s1 s0 m0 p0", [["s2"], ["s3"], ["s3"], [], []]),
    ("div v0 v1 v0 m0 p0", [["v2"], ["v3"], ["v3"], [], []]),
    ("store a0 s3 s1 m0 p0", [["a2"], ["s0"], ["s3"], [], []]),
    ("scatter a2 v3 v1 m0 p0", [[], ["v0"], ["v3"], [], []]),
    ("vstore a0 s3 v1 m0 p0", [["a2"], ["s0"], ["v3"], [], []]),
    # the count, the array, the index, the vector, the mask and the place
    ("pstore s0 a1 s3 v0 m0 p0", [["s3", "s4"], ["a2", "a3"], ["s0"], ["v3"], [], []]),
    ("pload s1 a0 s3 v1 m1 p0", [["s2"], ["a2", "a3"], ["s1"], ["v2"], [], []]),
]


RIGHT, NOT_THERE, OTHER_KIND = "", "40 BadRegister", "41 BadKind"


def wrongs(line, kinds):
    """Each wrong form of a line, with the rule that it breaks."""
    word, *right = line.split()
    for place, operand in enumerate(right):
        def changed(other):
            return " ".join([word, *right[:place], other, *right[place + 1:]])

        yield changed(operand[0] + "9"), NOT_THERE
        if operand[0] == "p":
            continue
        # a division is of scalars or of lanes by the class of what it writes
        yield changed("m0" if word == "div" and place == 0 else OTHER_CLASS[operand[0]] + "0"), OTHER_KIND
        for kind in kinds[place]:
            yield changed(kind), OTHER_KIND


def constants():
    """Each type's register, its ends, and one past each."""
    types = {"s2": (1, False), "s0": (32, True), "s3": (64, True), "s4": (8, False)}
    for word, (width, signed) in types.items():
        low, high = (-(2 ** (width - 1)), 2 ** (width - 1) - 1) if signed else (0, 2**width - 1)
        yield from ((f"const {word} {n}", RIGHT) for n in (low, high))
        yield from ((f"const {word} {n}", OTHER_KIND) for n in (low - 1, high + 1) if -(2**63) <= n < 2**64)
    yield "const s9 0", NOT_THERE
    yield "const v0 0", OTHER_KIND


def rows():
    yield from constants()
    for line, kinds in LINES:
        yield line, RIGHT
        yield from wrongs(line, kinds)


HEAD = """//! Instructions that the verifier takes, and wrong ones, with the rule that each breaks. Written by `tools/code_table.py`.

/// How many there are.
pub(super) const COUNT: usize = {count};

/// Each instruction, and the rule that it breaks, if it is wrong.
pub(super) const LINES: &str = "{lines}
";
"""


def main():
    lines = [f"{line}|{rule}" for line, rule in rows()]
    written.put({"crates/isp_tests_machine/src/code/codes/table.rt": HEAD.format(count=len(lines), lines="\n".join(lines))})
    if "--check" not in sys.argv:
        print(sum(not it.endswith("|") for it in lines), "are wrong")


if __name__ == "__main__":
    main()
