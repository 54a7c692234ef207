#!/usr/bin/env python3
"""Counts the writes of vectors of each kernel of examples/, by a pass of its own over their code: data of isp_tests_cases.

    python3 tools/lane_tables.py             writes data/lanes of crates/isp_tests_cases, and its files in args and stdout
    python3 tools/lane_tables.py --check     ends with status 1 where one of them is stale

The code is what `bin/isp asm` says, or the program that ISP names. The pass stands on no crate. Forward, a set of masks is a number
with a bit for each mask that contains a mask; backward, a vector has such a number of the masks under which it may still be read.
"""
import glob
import os
import subprocess
import sys

sys.dont_write_bytecode = True
import written  # noqa: E402

ROOT = os.path.dirname(os.path.dirname(os.path.realpath(__file__)))
CRATE = "crates/isp_tests_cases"
FOLDER = "lanes"
GANG = 8

JUMPS = {"jmp", "jz", "jnz", "joff", "jon", "jall"}
MASK_WRITES = {"mcopy", "mand", "mor", "mandn", "mfull", "mnone", "mtest", "mlow", "mrange"}
NO_RESULT = {"store", "scatter", "vstore", "clear", "say", "prs", "prv", "fail", "ret"} | JUMPS
PURE = set("copy conv add sub mul and or xor shl shr min max neg inv abs lnot eq ne lt le gt ge sel splat index sadd sand sor bcast rot shf shuf shuf2 ins".split())


def functions(code):
    """Yields the number of masks and the instructions of each function of code text, as words."""
    masks, lines, inside = 0, [], False
    for words in (line.split() for line in code.splitlines()):
        if words[0] == "func":
            lines, inside = [], False
        elif words[0] == "m" and not inside:
            masks, inside = int(words[1]), True
        elif words[0] == "end":
            yield masks, lines
        elif inside:
            lines.append(words)


def number(register):
    return int(register[1:])


def masks_in(words):
    return [number(it) for it in words if it[0] == "m"]


def target(words):
    return int(words[-1][1:])


def results(words):
    """Returns the registers that an instruction writes."""
    if words[0] == "call":
        return [words[2]] if words[2] != "-" else []
    if words[0] == "pload":
        return [words[1], words[4]]
    return [] if words[0] in NO_RESULT else [words[1]]


def mask_of(words):
    """Returns the mask under which an instruction works."""
    return number(words[3]) if words[0] == "call" else masks_in(words[1:])[0]


def readings(words):
    """Returns the vectors that an instruction reads, each with its mask."""
    op, rest = words[0], words[1:]
    if op == "call":
        return [(it, number(rest[2])) for it in rest[4:] if it[0] == "v"]
    if op in JUMPS or op in ("ret", "pload", "const"):
        return []
    if op == "mtest":
        return [(rest[1], number(rest[2]))]
    read = rest if op in NO_RESULT else rest[1:]
    return [(it, mask_of(words)) for it in read if it[0] == "v"]


def after_mask(words, sups, full, none):
    """Returns what contains each mask after an instruction that writes one."""
    op, mask = words[0], number(words[1])
    x = masks_in(words[2:])
    every = range(len(sups))
    if op == "mcopy":
        above, below = sups[x[0]], [i for i in every if sups[i] >> x[0] & 1]
    elif op in ("mtest", "mlow", "mandn"):
        above, below = sups[x[0]], []
    elif op == "mand":
        above, below = sups[x[0]] | sups[x[1]], [i for i in every if sups[i] >> x[0] & 1 and sups[i] >> x[1] & 1]
    elif op == "mor":
        above, below = sups[x[0]] & sups[x[1]], [i for i in every if sups[i] >> x[0] & 1 or sups[i] >> x[1] & 1]
    elif op == "mfull":
        above, below = sups[full], every
    elif op == "mnone":
        above, below = (1 << len(sups)) - 1, []
    else:
        above, below = sups[full], []
    bit = 1 << mask
    new = [row & ~bit | (bit if i in below or row >> none & 1 else 0) for i, row in enumerate(sups)]
    new[mask] = above & ~bit | bit
    return tuple(new)


def contained(masks, code):
    """Returns what contains each mask before each instruction, or None where control never comes; all lanes, the lanes of the call
    and no lane are the last three masks."""
    full, call, none = masks, masks + 1, masks + 2
    every = (1 << masks + 3) - 1
    first = [every] * (masks + 3)
    first[full] = 1 << full
    first[0] = first[call] = 1 | 1 << call | 1 << full
    states, work = [None] * len(code), [0]
    states[0] = tuple(first)

    def meet(to, sups):
        met = sups if states[to] is None else tuple(a & b for a, b in zip(states[to], sups))
        if met != states[to]:
            states[to] = met
            work.append(to)

    while work:
        at = work.pop()
        sups, words = states[at], code[at]
        op = words[0]
        if op == "jmp":
            meet(target(words), sups)
        elif op in JUMPS and words[1][0] == "m":
            mask = number(words[1])
            off = tuple(every if row >> mask & 1 else row for row in sups)
            on = tuple(row | sups[mask] for row in sups)
            meet(target(words), {"joff": off, "jall": on, "jon": sups}[op])
            meet(at + 1, off if op == "jon" else sups)
        elif op in JUMPS:
            meet(target(words), sups)
            meet(at + 1, sups)
        elif op != "ret":
            meet(at + 1, after_mask(words, sups, full, none) if op in MASK_WRITES else sups)
    return states


def before(words, read, sups, full, call):
    """Returns the masks under which each vector may be read before an instruction, and what its write is: free, useless or neither."""
    if words[0] in MASK_WRITES:
        mask, x = number(words[1]), masks_in(words[2:])
        to = {"mfull": 1 << full, "mrange": 1 << full, "mnone": 0, "mor": sum(1 << k for k in set(x))}.get(words[0])
        to = 1 << x[0] if to is None else to
        read = {v: ks & ~(1 << mask) | to if ks >> mask & 1 else ks for v, ks in read.items()}
    kind = None
    for vector in results(words):
        if vector[0] == "v":
            ks = read.get(vector, 0)
            left = sum(1 << b for b in range(full + 3) if ks >> b & 1 and not sups[b] >> mask_of(words) & 1)
            kind = "useless" if ks == 0 and words[0] in PURE else "full" if sups[full] >> mask_of(words) & 1 else "select" if left else "free"
            read = {**read, vector: left}
    if kind != "useless":
        for vector, mask in readings(words):
            read = {**read, vector: read.get(vector, 0) | 1 << mask}
    if words[0] == "ret" and words[1][0] == "v":
        read = {**read, words[1]: read.get(words[1], 0) | 1 << call}
    return {v: ks for v, ks in read.items() if ks}, kind


def kinds(masks, code):
    """Returns what the write of each instruction is, where it writes a vector."""
    states = contained(masks, code)
    into, found, changed = [{} for _ in code], [None] * len(code), True
    while changed:
        changed = False
        for at in reversed(range(len(code))):
            words, read = code[at], {}
            ways = [] if words[0] == "ret" else [target(words)] if words[0] == "jmp" else [at + 1, target(words)] if words[0] in JUMPS else [at + 1]
            for to in ways:
                for vector, ks in into[to].items():
                    read[vector] = read.get(vector, 0) | ks
            if states[at] is not None:
                read, found[at] = before(words, read, states[at], masks, masks + 1)
                changed = changed or read != into[at]
                into[at] = read
    return found


def told(code):
    found = [kind for masks, lines in functions(code) for kind in kinds(masks, lines)]
    return "taken, " + ", ".join(f"{found.count(kind)} {kind}" for kind in ("full", "free", "useless", "select"))


def main():
    program = os.environ.get("ISP", f"{ROOT}/bin/isp")
    codes = {}
    for source in sorted(glob.glob(f"{ROOT}/examples/*.ispc")):
        name = os.path.basename(source).removesuffix(".ispc")
        codes[f"{FOLDER}/{name}.code"] = subprocess.run([program, "asm", "--gang", str(GANG), source], check=True, capture_output=True, text=True).stdout
    files = {f"{CRATE}/data/{name}": f"{told(code)}\n{code}" for name, code in codes.items()}
    with open(f"{ROOT}/{CRATE}/args", encoding="utf-8") as file:
        others = [name for name in file.read().splitlines() if not name.startswith(f"{FOLDER}/")]
    files[f"{CRATE}/args"] = "".join(f"{name}\n" for name in [*others, *codes])
    files[f"{CRATE}/stdout"] = written.with_count(f"{CRATE}/stdout", len(codes), "kernels")
    written.put(files)


if __name__ == "__main__":
    main()
