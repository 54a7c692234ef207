#!/usr/bin/env python3
"""Writes crates/isp_tests_machine/src/lines/table.rt: each line of the machine that computes, moves or stores, and what is seen of it.

Each line stands here once, as code text, with what it gives by docs/MACHINE.md on lists of whole numbers, at each gang: the scalar that it
writes; the lanes of m1 of the vector; v1 in the lanes of the mask; or all elements of a0 where it stores. Nothing is taken from the crates.

    python3 tools/line_table.py             writes it
    python3 tools/line_table.py --check     ends with status 1 where it is stale
"""
import sys

sys.dont_write_bytecode = True
import written  # noqa: E402

# Of each four lanes: x in a0 and v1, y in a1, v2 and, as int64, v5; the lanes of m1, true in v0; those of m2, true in v4.
X, Y, ON, OTHER = [3, -3, 7, 200], [3, 1, 2, 1], [1, 1, 0, 1], [0, 1, 1, 1]
# s0 and s1; s2 is 0 and s6 is 6, of int64.
N, M = 9, -4


def bits(value, width, signed=True):
    value %= 1 << width
    return value - (1 << width) if signed and value >> (width - 1) else value


def quotient(x, y):
    return abs(x) // abs(y) * (1 if (x < 0) == (y < 0) else -1)


PLAIN = {
    "add": lambda x, y: x + y,
    "sub": lambda x, y: x - y,
    "mul": lambda x, y: x * y,
    "and": lambda x, y: x & y,
    "or": lambda x, y: x | y,
    "xor": lambda x, y: x ^ y,
    "shl": lambda x, y: x << y % 32,
    "shr": lambda x, y: x >> y % 32,
    "min": min,
    "max": max,
}
DIVISION = {"div": quotient, "rem": lambda x, y: x - y * quotient(x, y)}
UNARY = {"neg": lambda x: -x, "inv": lambda x: ~x, "abs": abs}
COMPARE = {
    "eq": lambda x, y: x == y,
    "ne": lambda x, y: x != y,
    "lt": lambda x, y: x < y,
    "le": lambda x, y: x <= y,
    "gt": lambda x, y: x > y,
    "ge": lambda x, y: x >= y,
}
MASKS = {"mand": lambda p, q: p and q, "mor": lambda p, q: p or q, "mandn": lambda p, q: p and not q}


class Gang:
    """The lanes of one gang, with what the lines read."""

    def __init__(self, lanes):
        self.lanes = lanes
        self.x, self.y, self.on, self.other = (four * (lanes // 4) for four in (X, Y, ON, OTHER))
        # What counts of x and y across the lanes: 0 where m1 has none.
        self.read = [x if on else 0 for x, on in zip(self.x, self.on)]
        self.members = [x for x, on in zip(self.x, self.on) if on]

    def printed(self, values, on=None):
        """The text of a vector under a mask, m1 where none is named."""
        on = self.on if on is None else on
        return "[" + ",".join(text(v) if p else "_" for v, p in zip(values, on)) + "]"

    def each(self, f):
        """The text of what f gives of x and y in each lane of m1."""
        return self.printed([f(x, y) for x, y in zip(self.x, self.y)])

    def lower(self, lane):
        """The values of the lanes of m1 below a lane."""
        return [x for x, on in zip(self.x[:lane], self.on) if on]

    def scan(self, f, start):
        values = []
        for lane in range(self.lanes):
            value = start
            for x in self.lower(lane):
                value = f(value, x)
            values.append(bits(value, 32))
        return self.printed(values)


def text(value):
    return str(value).lower() if isinstance(value, bool) else str(value)


def shown(line):
    """A line, and what shows the register that it writes: its first."""
    register = line.split()[1]
    return f"{line}/" + (f"prs {register}" if register[0] == "s" else f"prv v1 {register}" if register[0] == "m" else f"prv {register} m1")


def row(line, f):
    return shown(line), f


def mask(line, f):
    return shown(line), lambda g: g.printed(g.x, f(g))


def stored(line, f):
    return f"{line}/prv v8 m0", lambda g: g.printed(f(g), [1] * g.lanes)


def vectors():
    yield row("copy v3 v1 m1", lambda g: g.each(lambda x, y: x))
    yield row("conv v6 v1 m1", lambda g: g.each(lambda x, y: bits(x, 8)))
    for word, f in PLAIN.items():
        yield row(f"{word} v3 v1 v2 m1", lambda g, f=f: g.each(lambda x, y: bits(f(x, y), 32)))
    for word, f in DIVISION.items():
        yield row(f"{word} v3 v1 v2 m1 p0", lambda g, f=f: g.each(f))
    for word, f in UNARY.items():
        yield row(f"{word} v3 v1 m1", lambda g, f=f: g.each(lambda x, y: f(x)))
    yield row("lnot v7 v4 m1", lambda g: g.printed([not q for q in g.other]))
    for word, f in COMPARE.items():
        yield row(f"{word} v7 v1 v2 m1", lambda g, f=f: g.each(f))
    yield row("sel v3 v4 v1 v2 m1", lambda g: g.printed([x if q else y for x, y, q in zip(g.x, g.y, g.other)]))
    yield row("splat v3 s0 m1", lambda g: g.each(lambda x, y: N))
    yield row("index v3 m1", lambda g: g.printed(range(g.lanes)))


def scalars():
    yield row("const s4 -5", lambda g: "-5")
    yield row("copy s4 s1", lambda g: text(M))
    yield row("conv s3 s1", lambda g: text(M))
    for word, f in UNARY.items():
        yield row(f"{word} s4 s1", lambda g, f=f: text(f(M)))
    for word, f in PLAIN.items():
        yield row(f"{word} s4 s0 s1", lambda g, f=f: text(bits(f(N, M), 32)))
    for word, f in DIVISION.items():
        yield row(f"{word} s4 s0 s1 m0 p0", lambda g, f=f: text(f(N, M)))
    for word, f in COMPARE.items():
        yield row(f"{word} s5 s0 s1", lambda g, f=f: text(f(N, M)))
    yield row("lnot s5 s5", lambda g: "true")
    yield row("sel s4 s5 s0 s1", lambda g: text(M))


def masks():
    for word, f in MASKS.items():
        yield mask(f"{word} m3 m1 m2", lambda g, f=f: [f(p, q) for p, q in zip(g.on, g.other)])
    yield mask("mcopy m3 m2", lambda g: g.other)
    yield mask("mfull m3", lambda g: [1] * g.lanes)
    yield mask("mnone m3", lambda g: [0] * g.lanes)
    yield mask("mtest m3 v0 m2", lambda g: [p and q for p, q in zip(g.on, g.other)])
    yield mask("mlow m3 m2", lambda g: [lane == g.other.index(1) for lane in range(g.lanes)])
    yield mask("mrange m3 s2 s6", lambda g: [lane < 6 for lane in range(g.lanes)])
    yield row("mfirst s3 m2", lambda g: text(g.other.index(1)))


def across():
    yield row("radd s3 v1 m1", lambda g: text(sum(g.members)))
    yield row("rmin s4 v1 m1", lambda g: text(min(g.members)))
    yield row("rmax s4 v1 m1", lambda g: text(max(g.members)))
    yield row("requ s5 v1 m1", lambda g: text(len(set(g.members)) == 1))
    yield row("rany s5 v4 m1", lambda g: text(any(q for p, q in zip(g.on, g.other) if p)))
    yield row("rall s5 v4 m1", lambda g: text(all(q for p, q in zip(g.on, g.other) if p)))
    yield row("sadd v3 v1 m1", lambda g: g.scan(lambda a, x: a + x, 0))
    yield row("sand v3 v1 m1", lambda g: g.scan(lambda a, x: a & x, -1))
    yield row("sor v3 v1 m1", lambda g: g.scan(lambda a, x: a | x, 0))
    yield row("bcast v3 v1 s0 m1", lambda g: g.printed([g.read[N % g.lanes]] * g.lanes))
    yield row("rot v3 v1 s0 m1", lambda g: g.printed([g.read[(lane + N) % g.lanes] for lane in range(g.lanes)]))
    yield row("shf v3 v1 s0 m1", lambda g: g.printed([g.read[lane + N] if lane + N < g.lanes else 0 for lane in range(g.lanes)]))
    yield row("shuf v3 v1 v2 m1", lambda g: g.printed([g.read[y % g.lanes] for y in g.y]))
    yield row("shuf2 v3 v2 v1 v1 m1", lambda g: g.printed([beside(g)[x % (2 * g.lanes)] for x in g.x]))
    yield row("ins v3 v1 s0 s1 m1", lambda g: g.printed([M if lane == N % g.lanes else x for lane, x in enumerate(g.x)]))
    yield row("extr s4 v1 s0 m1", lambda g: text(g.read[N % g.lanes]))


def beside(g):
    """y and x side by side, where m1 has the lane."""
    return [y if on else 0 for y, on in zip(g.y, g.on)] + g.read


def scattered(g):
    """Each lane's x stored at element y, the highest lane last."""
    after = list(g.x)
    for x, y, on in zip(g.x, g.y, g.on):
        if on:
            after[y] = x
    return after


def packed(g):
    """The members' y stored from element 0 on."""
    members = [y for y, on in zip(g.y, g.on) if on]
    return members + g.x[len(members):]


def memory():
    yield row("load s4 a0 s2 m0 p0", lambda g: text(g.x[0]))
    yield row("gather v3 a0 v5 m1 p0", lambda g: g.printed([g.x[y] for y in g.y]))
    yield row("vload v3 a1 s2 m1 p0", lambda g: g.printed(g.y))
    yield "pload s4 a0 s2 v3 m1 p0/prv v3 m1", lambda g: g.printed([g.x[len(g.lower(lane))] for lane in range(g.lanes)])
    yield stored("store a0 s2 s0 m0 p0", lambda g: [N] + g.x[1:])
    yield stored("scatter a0 v5 v1 m1 p0", scattered)
    yield stored("vstore a0 s2 v2 m1 p0", lambda g: [y if on else x for x, y, on in zip(g.x, g.y, g.on)])
    yield stored("pstore s4 a0 s2 v2 m1 p0", packed)


HEAD = """//! Lines of the machine, and what is seen of each at gangs of 4, 8, 16 and 32; written by tools/line_table.py.

/// How many lines there are.
pub(super) const COUNT: usize = {count};

/// Each line: one of the machine, what shows what it wrote, and what is seen at each gang.
pub(super) const LINES: &str = r##"{lines}
"##;
"""


def table():
    """Gives the table."""
    rows = [it for part in (vectors(), scalars(), masks(), across(), memory()) for it in part]
    lines = [f"{line}|" + " ".join(f(Gang(lanes)) for lanes in (4, 8, 16, 32)) for line, f in rows]
    return HEAD.format(count=len(lines), lines="\n".join(lines))


written.put({"crates/isp_tests_machine/src/lines/table.rt": table()})
