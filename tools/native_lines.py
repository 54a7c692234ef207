"""Programs in code text that try each instruction, with what docs/MACHINE.md says of it, worked out in plain numbers.

tests() yields a name, the code text, the entry, its arguments, and what must come out, as tools/native-test takes them. `steps` is how many instructions it takes, where
that is told. `readonly` gives an array the number of its elements that may be written; the others stand in memory where a write ends the program.
untried() compares the forms of instructions in the table of docs/MACHINE.md with those in the programs.
"""
import itertools
import random
import re

GANGS = 4, 8, 16, 32
BITS = {"b": 1, "i8": 8, "u8": 8, "i16": 16, "u16": 16, "i32": 32, "u32": 32, "i64": 64, "u64": 64}
WHOLE = [t for t in BITS if t != "b"]
WIDER = {"i8": "i16", "u8": "u16", "i16": "i32", "u16": "u32", "i32": "i64", "u32": "u64", "i64": "i64", "u64": "u64"}
ROUNDS = 8


def wrap(t, z):
    z %= 1 << BITS[t]
    return z - (1 << BITS[t]) if t[0] == "i" and z >> (BITS[t] - 1) else z


def convert(t, z):
    return int(z != 0) if t == "b" else wrap(t, z)


def quotient(x, y):
    return abs(x) // abs(y) * (1 if (x < 0) == (y < 0) else -1)


PLAIN = {
    "add": lambda t, x, y: x + y,
    "sub": lambda t, x, y: x - y,
    "mul": lambda t, x, y: x * y,
    "and": lambda t, x, y: x & y,
    "or": lambda t, x, y: x | y,
    "xor": lambda t, x, y: x ^ y,
    "shl": lambda t, x, y: x << y % BITS[t],
    "shr": lambda t, x, y: x >> y % BITS[t],
    "min": lambda t, x, y: min(x, y),
    "max": lambda t, x, y: max(x, y),
}
DIVISIONS = {"div": quotient, "rem": lambda x, y: x - y * quotient(x, y)}
UNARY = {"neg": lambda x: -x, "inv": lambda x: -x - 1, "abs": abs}
COMPARE = {
    "eq": lambda x, y: x == y,
    "ne": lambda x, y: x != y,
    "lt": lambda x, y: x < y,
    "le": lambda x, y: x <= y,
    "gt": lambda x, y: x > y,
    "ge": lambda x, y: x >= y,
}
SCANS = {"sadd": (0, lambda a, x: a + x), "sand": (-1, lambda a, x: a & x), "sor": (0, lambda a, x: a | x)}


def least(t):
    return -(1 << (BITS[t] - 1)) if t[0] == "i" else 0


def greatest(t):
    return (1 << (BITS[t] - (t[0] == "i"))) - 1


def some(dice, t):
    """A value of a type: small, at an end, or any."""
    near = [0, 1, 2, 7, 31, 32, 33, 63, 64, -1, -2, -8, least(t), least(t) + 1, greatest(t), greatest(t) - 1]
    return convert(t, dice.choice(near) if dice.random() < 0.6 else dice.getrandbits(64))


def labelled(lines):
    """The lines with numbers for names: `name:` stands before the line that `@name` means."""
    at, code = {}, []
    for line in lines:
        if line.endswith(":"):
            at[line[:-1]] = len(code)
        else:
            code.append(line)
    return [re.sub(r"@(\w+)", lambda name: f"L{at[name[1]]}", line) for line in code]


class Code:
    """A function that is written line by line. Registers come by their type; what it stores in the array of a type must be what was told."""

    def __init__(self, gang, dice):
        self.gang, self.dice = gang, dice
        self.params, self.values = [], {}
        self.scalars, self.vectors, self.masks, self.body, self.locals = [], [], 1, [], []
        self.asked = []

    def array(self, name, t, values):
        self.params.append(f"par a {t} {name}")
        self.values[name] = values
        return f"a{len(self.params) - 1}"

    def scalar(self, t):
        self.scalars.append(t)
        return f"s{len(self.scalars) - 1}"

    def vector(self, t):
        self.vectors.append(t)
        return f"v{len(self.vectors) - 1}"

    def mask(self):
        self.masks += 1
        return f"m{self.masks - 1}"

    def line(self, *lines):
        self.body += lines

    def constant(self, t, n):
        s = self.scalar(t)
        self.line(f"const {s} {n}")
        return s

    def text(self, places=((0, 1), (2, 5)), before=()):
        types = [f"s {' '.join(self.scalars)}"] * bool(self.scalars) + [f"v {' '.join(self.vectors)}"] * bool(self.vectors)
        head = [f"isp {2 if self.gang == 32 else 1} gang {self.gang}", *(f"place {a} {b}" for a, b in places), "text 68c3a90a", *before, "func f export void"]
        return "\n".join([*head, *self.params, *self.locals, *types, f"m {self.masks}", *labelled([*self.body, "ret -"]), "end"]) + "\n"


class Rounds(Code):
    """A loop over rounds: in each, vectors of the arrays' next elements, and a mask m1 of the lanes where `k` is true."""

    def __init__(self, gang, t, dice):
        super().__init__(gang, dice)
        self.t, self.outs, self.wanted, self.writes = t, {}, {}, []
        size = gang * ROUNDS
        masks = [[1] * gang, [0] * gang] + [[int(dice.random() < chance) for _ in range(gang)] for chance in (0.5, 0.9, 0.2, 0.5)]
        masks += [[int(p == gang - 2) for p in range(gang)], [int(p != 1) for p in range(gang)]]
        self.k = sum(masks, [])
        self.rows = {name: [some(dice, t) for _ in range(size)] for name in "xyd"}
        self.rows["n"] = [z or 3 for z in (some(dice, t) for _ in range(size))]
        self.rows["c"] = [dice.randrange(2) for _ in range(size)]
        self.rows["j"] = [some(dice, "i32") if dice.random() < 0.3 else dice.randrange(-gang, 3 * gang) for _ in range(size)]
        self.rows["e"] = [dice.randrange(gang) for _ in range(size)]
        kinds = {**dict.fromkeys("xydn", t), "c": "b", "j": "i32", "e": "i64"}
        places = {name: self.array(name, kinds[name], list(row)) for name, row in self.rows.items()}
        places["k"] = self.array("k", "b", list(self.k))
        self.at, self.v, self.first = self.constant("i64", 0), {}, {}
        self.step, self.one = self.constant("i64", gang), self.constant("i64", 1)
        self.end, self.again, self.zero = self.constant("i64", size), self.scalar("b"), self.constant("i64", 0)
        self.full, self.m = "m0", self.mask()
        self.line("round:")
        for name, array in places.items():
            kind = kinds.get(name, "b")
            self.v[name], self.first[name] = self.vector(kind), self.scalar(kind)
            self.line(f"vload {self.v[name]} {array} {self.at} m0 p0", f"load {self.first[name]} {array} {self.at} m0 p0")
        self.places = places
        self.line(f"mtest {self.m} {self.v['k']} m0")
        self.results = {}

    def out(self, t):
        """Where results of a type go: an array, and the register with the next place."""
        if t not in self.outs:
            self.outs[t] = (self.array(f"o_{t}", t, []), self.scalar("i64"))
        return self.outs[t]

    def row(self, name, r):
        return self.rows[name][r * self.gang : (r + 1) * self.gang]

    def wants(self, t, values):
        """Adds a result: a function of the round that gives the values."""
        self.asked.append((t, values))

    def stored(self, t, register, mask="m0"):
        array, place = self.out(t)
        self.line(f"vstore {array} {place} {register} {mask} p0", f"add {place} {place} {self.step}")

    def stored_one(self, t, register):
        array, place = self.out(t)
        self.line(f"store {array} {place} {register} m0 p0", f"add {place} {place} {self.one}")

    def result(self, t):
        """Registers for results of a type: a vector, a scalar, and a vector with 1 0 1 0 .. as `c` has it."""
        if t not in self.results:
            self.results[t] = self.vector(t), self.scalar(t), self.vector(t)
            self.line(f"conv {self.results[t][2]} {self.v['c']} m0")
        return self.results[t]

    def lanes(self, t, word, rest, value, place=""):
        """An instruction that writes lanes of t under m1: `value` of a round and a lane. The others keep 1 0 1 0 .."""
        d, _, kept = self.result(t)
        self.either(t, [f"copy {d} {kept} m0", f"{word} {d} {rest} {self.m}{place}"], d, value, lambda r, p: self.row("c", r)[p])

    def either(self, t, lines, d, value, kept):
        """Lines of which the last writes lanes of d under m1: once all lanes are read, where the others have what they had, and once those of m1 alone."""
        for mask in ("m0", self.m):
            self.line(*lines)
            self.stored(t, d, mask)
            off = kept if mask == "m0" else lambda r, p: 0
            self.wants(t, lambda r, off=off: [value(r, p) if self.on(r, p) else off(r, p) for p in range(self.gang)])

    def one_value(self, t, line, value):
        """An instruction that writes a scalar of t."""
        d = self.result(t)[1]
        self.line(line.replace("D", d))
        self.stored_one(t, d)
        self.wants(t, lambda r: [value(r)])

    def mask_out(self, m, lanes):
        """The lanes of a mask, as a row of truths."""
        d, one, _ = self.result("b")
        self.line(f"const {one} 0", f"splat {d} {one} m0", f"const {one} 1", f"splat {d} {one} {m}")
        self.stored("b", d)
        self.wants("b", lambda r: [int(lanes(r, p)) for p in range(self.gang)])

    def on(self, r, p):
        return self.k[r * self.gang + p]

    def members(self, r):
        return [p for p in range(self.gang) if self.on(r, p)]

    def lane(self, name, r, p):
        """What a lane has, and 0 where it is off or not there."""
        return self.row(name, r)[p] if 0 <= p < self.gang and self.on(r, p) else 0

    def finished(self):
        self.line(f"add {self.at} {self.at} {self.step}", f"lt {self.again} {self.at} {self.end}", f"jnz {self.again} @round")
        found = {t: [] for t in self.outs}
        for r in range(ROUNDS):
            for t, values in self.asked:
                found[t] += values(r)
        wanted = {name: list(values) for name, values in self.values.items()}
        for t, values in found.items():
            self.values[f"o_{t}"], wanted[f"o_{t}"] = [0] * len(values), [bool(x) for x in values] if t == "b" else values
        for name in ("k", "c"):
            wanted[name] = [bool(x) for x in wanted[name]]
        for name in ("x", "y", "d", "n") if self.t == "b" else ():
            wanted[name] = [bool(x) for x in wanted[name]]
        writes = "".join(text(r) for r in range(ROUNDS) for text in self.writes)
        return wanted, writes.encode().hex()


def told(t, x):
    return ("false", "true")[x] if t == "b" else str(x)


def plain_lines(c, t):
    x, y, n = (lambda r, p, name=name: c.row(name, r)[p] for name in "xyn")
    v, s = c.v, c.first
    for u in BITS:
        c.lanes(u, "conv", v["x"], lambda r, p, u=u: convert(u, x(r, p)))
        c.one_value(u, f"conv D {s['x']}", lambda r, u=u: convert(u, x(r, 0)))
    for word, test in COMPARE.items():
        c.lanes("b", word, f"{v['x']} {v['y']}", lambda r, p, test=test: int(test(x(r, p), y(r, p))))
        c.one_value("b", f"{word} D {s['x']} {s['y']}", lambda r, test=test: int(test(x(r, 0), y(r, 0))))
    c.lanes(t, "copy", v["x"], x)
    c.one_value(t, f"copy D {s['x']}", lambda r: x(r, 0))
    c.lanes(t, "sel", f"{v['c']} {v['x']} {v['y']}", lambda r, p: x(r, p) if c.row("c", r)[p] else y(r, p))
    c.one_value(t, f"sel D {s['c']} {s['x']} {s['y']}", lambda r: x(r, 0) if c.row("c", r)[0] else y(r, 0))
    c.lanes(t, "splat", s["x"], lambda r, p: x(r, 0))
    if t == "b":
        c.lanes(t, "lnot", v["x"], lambda r, p: 1 - x(r, p))
        c.one_value(t, f"lnot D {s['x']}", lambda r: 1 - x(r, 0))
        return
    for word, op in PLAIN.items():
        c.lanes(t, word, f"{v['x']} {v['y']}", lambda r, p, op=op: wrap(t, op(t, x(r, p), y(r, p))))
        c.one_value(t, f"{word} D {s['x']} {s['y']}", lambda r, op=op: wrap(t, op(t, x(r, 0), y(r, 0))))
    for word, op in UNARY.items():
        c.lanes(t, word, v["x"], lambda r, p, op=op: wrap(t, op(x(r, p))))
        c.one_value(t, f"{word} D {s['x']}", lambda r, op=op: wrap(t, op(x(r, 0))))
    for word, op in DIVISIONS.items():
        d = c.result(t)[0]
        divided = [f"copy {d} {v['d']} m0", f"{word} {d} {v['x']} {v['n']} {c.m} p0"]
        c.either(t, divided, d, lambda r, p, op=op: wrap(t, op(x(r, p), n(r, p))), lambda r, p: c.row("d", r)[p])
        c.one_value(t, f"{word} D {s['x']} {s['n']} m0 p0", lambda r, op=op: wrap(t, op(x(r, 0), n(r, 0))))
    for z in (least(t), greatest(t)):
        c.one_value(t, f"const D {z}", lambda r, z=z: z)


def cross_lines(c, t):
    g, v, s = c.gang, c.v, c.first
    j = lambda r, p: c.row("j", r)[p]
    xs = lambda r: [c.row("x", r)[p] for p in c.members(r)]
    if t == "b":
        c.one_value("b", f"rany D {v['x']} {c.m}", lambda r: int(any(xs(r))))
        c.one_value("b", f"rall D {v['x']} {c.m}", lambda r: int(all(xs(r))))
        return
    c.one_value(WIDER[t], f"radd D {v['x']} {c.m}", lambda r: wrap(WIDER[t], sum(xs(r))))
    c.one_value(t, f"rmin D {v['x']} {c.m}", lambda r: min(xs(r), default=0))
    c.one_value(t, f"rmax D {v['x']} {c.m}", lambda r: max(xs(r), default=0))
    c.one_value("b", f"requ D {v['x']} {c.m}", lambda r: int(len(set(xs(r))) < 2))
    same = c.vector(t)
    c.line(f"splat {same} {s['y']} m0")
    c.one_value("b", f"requ D {same} {c.m}", lambda r: 1)
    for word, (first, op) in SCANS.items():

        def scanned(r, p, first=first, op=op):
            a = first
            for q in c.members(r):
                a = op(a, c.row("x", r)[q]) if q < p else a
            return wrap(t, a)

        c.lanes(t, word, v["x"], scanned)
    c.lanes(t, "bcast", f"{v['x']} {s['j']}", lambda r, p: c.lane("x", r, j(r, 0) % g))
    c.lanes(t, "rot", f"{v['x']} {s['j']}", lambda r, p: c.lane("x", r, (p + j(r, 0)) % g))
    c.lanes(t, "shf", f"{v['x']} {s['j']}", lambda r, p: c.lane("x", r, p + j(r, 0)))
    c.lanes(t, "shuf", f"{v['x']} {v['j']}", lambda r, p: c.lane("x", r, j(r, p) % g))

    def two(r, p):
        q = j(r, p) % (2 * g)
        return c.lane("x", r, q) if q < g else c.lane("y", r, q - g)

    c.lanes(t, "shuf2", f"{v['x']} {v['y']} {v['j']}", two)
    c.lanes(t, "ins", f"{v['x']} {s['j']} {s['y']}", lambda r, p: c.row("y", r)[0] if p == j(r, 0) % g else c.row("x", r)[p])
    c.one_value(t, f"extr D {v['x']} {s['j']} {c.m}", lambda r: c.lane("x", r, j(r, 0) % g))


def mask_lines(c, t):
    m = c.mask()
    v = c.v
    tested = c.mask()
    c.line(f"mtest {tested} {v['c']} m0")
    on, test = c.on, lambda r, p: c.row("c", r)[p]
    for word, op in (("mand", lambda a, b: a and b), ("mor", lambda a, b: a or b), ("mandn", lambda a, b: a and not b)):
        c.line(f"{word} {m} {c.m} {tested}")
        c.mask_out(m, lambda r, p, op=op: op(on(r, p), test(r, p)))
    c.line(f"mcopy {m} {c.m}")
    c.mask_out(m, on)
    c.line(f"mtest {m} {v['c']} {c.m}")
    c.mask_out(m, lambda r, p: on(r, p) and test(r, p))
    c.line(f"mnone {m}", f"mfull {m}")
    c.mask_out(m, lambda r, p: 1)
    c.line(f"mnone {m}")
    c.mask_out(m, lambda r, p: 0)
    c.line(f"mlow {m} {c.m}")
    c.mask_out(m, lambda r, p: on(r, p) and p == c.members(r)[0])
    c.one_value("i64", f"mfirst D {c.m}", lambda r: (c.members(r) or [0])[0])
    c.lanes("i32", "index", "", lambda r, p: p)
    far = 1 << 63
    for a, b in ((0, 3), (5, 5), (-2, c.gang), (7, 2), (-far, far - 1), (far - 2, far - 1), (far - 1, far - 1), (-far, 3 - far), (far - 1, -far)):
        one, two = c.constant("i64", a), c.constant("i64", b)
        c.line(f"mrange {m} {one} {two}")
        c.mask_out(m, lambda r, p, a=a, b=b: a + p < b)
    for word, op in (("joff", lambda ps: not ps), ("jon", bool), ("jall", lambda ps: len(ps) == c.gang)):
        d = c.result("b")[1]
        c.line(f"const {d} 1", f"{word} {c.m} @{word}", f"const {d} 0", f"{word}:")
        c.stored_one("b", d)
        c.wants("b", lambda r, op=op: [int(op(c.members(r)))])


def memory_lines(c, t):
    """Gathers and scatters, runs and packed calls, on an array that lanes share, and one of each lane's own."""
    g, v, s = c.gang, c.v, c.first
    e = lambda r, p: c.row("e", r)[p]
    shared, own = f"a{len(c.params) + 20}", f"a{len(c.params) + 21}"
    c.locals = [f"loc u {t} {g}", f"loc p {t} {g}"]
    c.local_names = shared, own
    back, tail, front = c.vector(t), c.constant("i64", 1), c.constant("i64", -2)

    def shown(array):
        if array == shared:
            c.line(f"vload {back} {array} {c.zero} m0 p0")
        else:
            c.line(f"gather {back} {array} {v['e']} m0 p0")
        c.stored(t, back)

    def scattered(r):
        found = [0] * g
        for p in c.members(r):
            found[e(r, p)] = c.row("x", r)[p]
        return found

    c.lanes(t, "gather", f"{c.places['x']} {v['e']}", lambda r, p: c.row("x", 0)[e(r, p)], " p0")
    c.line(f"clear {shared} m0", f"scatter {shared} {v['e']} {v['x']} {c.m} p0")
    shown(shared)
    c.wants(t, scattered)
    c.line(f"clear {own} m0", f"scatter {own} {v['e']} {v['x']} {c.m} p0")
    shown(own)
    c.wants(t, lambda r: [c.row("x", r)[p] if c.on(r, p) else 0 for p in range(g)])
    c.line(f"scatter {own} {v['e']} {v['x']} m0 p0", f"clear {own} {c.m}")
    shown(own)
    c.wants(t, lambda r: [0 if c.on(r, p) else c.row("x", r)[p] for p in range(g)])
    inner, low, high = c.mask(), c.constant("i64", 2), c.constant("i64", g - 1)
    # lanes 2 to g - 1 from -2 on, and lanes 0 to g - 2 from 1 on
    c.line(f"mrange {inner} {c.zero} {low}", f"mandn {inner} {c.m} {inner}", f"clear {shared} m0", f"vstore {shared} {front} {v['x']} {inner} p0")
    shown(shared)
    c.wants(t, lambda r: [c.row("x", r)[q + 2] if q + 2 < g and c.on(r, q + 2) else 0 for q in range(g)])
    c.line(f"vstore {shared} {c.zero} {v['y']} m0 p0")
    for mask in ("m0", inner):
        off = lambda r, p, mask=mask: c.row("d", r)[p] if mask == "m0" else 0
        c.line(f"mrange {inner} {c.zero} {low}", f"mandn {inner} {c.m} {inner}", f"copy {back} {v['d']} m0", f"vload {back} {shared} {front} {inner} p0")
        c.stored(t, back, mask)
        c.wants(t, lambda r, off=off: [c.row("y", r)[p - 2] if p >= 2 and c.on(r, p) else off(r, p) for p in range(g)])
        c.line(f"mrange {inner} {c.zero} {high}", f"mand {inner} {c.m} {inner}", f"copy {back} {v['d']} m0", f"vload {back} {shared} {tail} {inner} p0")
        c.stored(t, back, mask)
        c.wants(t, lambda r, off=off: [c.row("y", r)[p + 1] if p + 1 < g and c.on(r, p) else off(r, p) for p in range(g)])
    c.line(f"clear {shared} m0", f"vstore {shared} {c.zero} {v['x']} {c.m} p0")
    shown(shared)
    c.wants(t, lambda r: [c.row("x", r)[p] if c.on(r, p) else 0 for p in range(g)])
    if t in ("i32", "u32"):
        count = c.result("i32")[1]
        c.line(f"clear {shared} m0", f"pstore {count} {shared} {c.zero} {v['x']} {c.m} p0")
        c.stored_one("i32", count)
        c.wants("i32", lambda r: [len(c.members(r))])
        shown(shared)
        c.wants(t, lambda r: [c.row("x", r)[p] for p in c.members(r)] + [0] * (g - len(c.members(r))))
        packed = [f"copy {back} {v['d']} m0", f"pload {count} {c.places['y']} {c.at} {back} {c.m} p0"]
        c.either(t, packed, back, lambda r, p: c.row("y", r)[c.members(r).index(p)], lambda r, p: c.row("d", r)[p])
        c.stored_one("i32", count)
        c.wants("i32", lambda r: [len(c.members(r))])


def printed_lines(c, t):
    c.line("say t0", f"prs {c.first['x']}", f"prv {c.v['x']} {c.m}")
    c.writes.append(lambda r: "hé\n" + told(t, c.row("x", r)[0]))
    c.writes.append(lambda r: "[" + ",".join(told(t, c.row("x", r)[p]) if c.on(r, p) else "_" for p in range(c.gang)) + "]")


def rounds(group, lines, dice):
    for gang in GANGS:
        for t in ["i32"] if group == "masks" else BITS:
            c = Rounds(gang, t, dice)
            lines(c, t)
            wanted, writes = c.finished()
            text = c.text()
            for name, place in zip(getattr(c, "local_names", ()), range(2)):
                words = [[f"a{len(c.params) + place}" if word == name else word for word in line.split(" ")] for line in text.split("\n")]
                text = "\n".join(map(" ".join, words))
            text = "\n".join(" ".join(line.split()) for line in text.split("\n"))
            yield f"lines: {group} of {t} at {gang}", text, "f", c.values, {"end": "ends", "writes": writes, "arrays": wanted, "result": None}


def trap_of(gang, name, t, lines, values, kind, instance, index="i64"):
    """A function over x, y of t, e of the index's type and k, where an instruction traps at p1."""
    c = Code(gang, None)
    for one, kind_of in (("x", t), ("y", t), ("e", index), ("k", "b")):
        c.array(one, kind_of, values[one])
    zero, m = c.constant("i64", 0), c.mask()
    x, y, given, k, e = c.vector(t), c.vector(t), c.vector(index), c.vector("b"), c.vector("i64")
    sx, sy, se = c.scalar(t), c.scalar(t), c.scalar("i64")
    first, count = c.scalar(index), c.scalar("i32")
    for register, place in ((x, 0), (y, 1), (given, 2), (k, 3)):
        c.line(f"vload {register} a{place} {zero} m0 p0")
    c.line(f"mtest {m} {k} m0", f"load {sx} a0 {zero} m0 p0", f"load {sy} a1 {zero} m0 p0", f"load {first} a2 {zero} m0 p0")
    c.line(f"conv {e} {given} m0", f"conv {se} {first}", lines.format(x=x, y=y, e=e, m=m, sx=sx, sy=sy, se=se, count=count))
    arrays = {one: list(row) for one, row in values.items()}
    arrays["k"] = [bool(one) for one in arrays["k"]]
    wanted = {"end": "traps", "kind": kind, "start": 2, "stop": 5, "instance": instance, "writes": "", "arrays": arrays, "result": None}
    wanted["steps"] = len(c.body)
    return f"lines: {name} of {t} at {gang}", c.text(), "f", c.values, wanted


def traps(dice):
    for gang in GANGS:
        for mask in ([1] * gang, [int(p >= 2) for p in range(gang)], [int(p in (1, gang - 1)) for p in range(gang)], [int(p == gang - 1) for p in range(gang)]):
            on = [p for p in range(gang) if mask[p]]
            # two lanes that are on fail, the lowest of them last in the order of e, and a lane that is off
            bad = sorted({on[-1], on[len(on) // 2]})
            off = [p for p in range(gang) if not mask[p]][:1]
            row = lambda good, wrong: [wrong if p in bad + off else good for p in range(gang)]
            base = {"x": list(range(1, gang + 1)), "y": row(3, 0), "e": [p if p not in bad + off else (gang, -1, 1 << 62)[p % 3] for p in range(gang)], "k": mask}
            for t in ("i8", "u16", "i32", "u64"):
                for word in DIVISIONS:
                    yield trap_of(gang, f"{word} by zero", t, f"{word} {{x}} {{x}} {{y}} {{m}} p1", base, "divide", bad[0])
            for name, line in (("gather", "gather {x} a0 {e} {m} p1"), ("scatter", "scatter a0 {e} {y} {m} p1")):
                yield trap_of(gang, f"{name} outside", "i32", line, base, "index", bad[0])
            zero = {**base, "y": [0] + [5] * (gang - 1), "e": [gang] + [0] * (gang - 1)}
            yield trap_of(gang, "scalar div by zero", "i32", "div {sx} {sx} {sy} {m} p1", zero, "divide", on[0])
            for name, line in (("load", "load {sx} a0 {se} {m} p1"), ("store", "store a0 {se} {sy} {m} p1")):
                for wrong in (gang, -1, 1 << 62):
                    yield trap_of(gang, f"{name} outside", "i32", line, {**zero, "e": [wrong] + [0] * (gang - 1)}, "index", on[0])
            for shift, first in ((1, gang - 1), (2, gang - 2), (-1, 0), (-2, 0), (gang, 0), ((1 << 63) - 1, 0), (-(1 << 63), 0)):
                failing = [p for p in on if not 0 <= shift + p < gang]
                for name, line in (("vload", "vload {x} a0 {se} {m} p1"), ("vstore", "vstore a0 {se} {y} {m} p1")):
                    if failing:
                        yield trap_of(gang, f"{name} from {shift}", "i16", line, {**base, "e": [shift] + [0] * (gang - 1)}, "index", failing[0])
                failing = [p for rank, p in enumerate(on) if not 0 <= shift + rank < gang]
                for name, line in (("pload", "pload {count} a0 {se} {x} {m} p1"), ("pstore", "pstore {count} a0 {se} {y} {m} p1")):
                    if failing:
                        yield trap_of(gang, f"{name} from {shift}", "u32", line, {**base, "e": [shift] + [0] * (gang - 1)}, "index", failing[0])
            yield trap_of(gang, "fail", "i32", "fail {m} p1", base, "assert", on[0])


# ---- indices

# what an index is made of, and elements of each size
INDEX_TYPES = "i32", "i64", "u32", "i8", "u8"
ELEMENTS = "u8", "i16", "i32", "u64", "b"
# how many elements lie behind a row of all lanes
MORE = 3


def index_rows(gang):
    """Rows of indices into an array of gang + MORE elements: counting on from its start and to its end, and much like it; descending, equal, any."""
    on = list(range(gang))
    for first in range(MORE + 1):
        yield [first + p for p in on]
    for odd in (1, gang // 2, gang - 2):
        yield [1 + p + (p == odd) for p in on]
    yield [1, *(gang for _ in on[2:]), gang]
    yield on[::-1]
    yield [gang + MORE - 1 for _ in on]
    yield [2 for _ in on]
    yield [p * 5 % (gang + MORE) for p in on]
    yield [1 + p // 2 for p in on]


def index_masks(gang, dice):
    """Full, empty, all but one lane, one lane, and any."""
    yield [1] * gang
    for odd in (0, gang // 2, gang - 1):
        yield [int(p != odd) for p in range(gang)]
    yield [int(p == gang - 1) for p in range(gang)]
    yield [0] * gang
    yield [dice.randrange(2) for _ in range(gang)]


class Indexed(Code):
    """A loop over rows of indices and masks: what a gather by them gives, and what a scatter leaves. Lanes that are off have indices far outside."""

    def __init__(self, gang, t, index, dice):
        super().__init__(gang, dice)
        self.t, self.index, self.size = t, index, gang + MORE
        rows = list(index_rows(gang))
        self.rounds = [(row, mask) for row in rows for mask in index_masks(gang, dice)]
        dice.shuffle(self.rounds)
        self.befores = [[z % (self.size - 1) for z in dice.choice(rows)] for _ in self.rounds]
        self.elements = [some(dice, t) for _ in range(self.size)]
        self.given = [[some(dice, t) for _ in range(gang)] for _ in self.rounds]
        self.outs = []

    def far(self, p):
        near = self.size + p
        return {"i32": (near, -1, -(1 << 31), (1 << 31) - 1), "u32": (near, 1 << 31, (1 << 32) - 1), "i8": (near, -1, -128, 127), "u8": (near, 255)}.get(
            self.index, (near, -1, 1 << 32, (1 << 32) + 1, 1 - (1 << 32), -(1 << 63), 1 << 62)
        )[p % 2]

    def wild(self, row, mask):
        return [z if on else self.far(p) for p, (z, on) in enumerate(zip(row, mask))]

    def out(self, t, values):
        """An array that takes a row in each round."""
        array = self.array(f"out{len(self.outs)}", t, [0] * (self.gang * len(self.rounds)))
        self.outs.append((f"out{len(self.outs)}", t, values))
        return array

    def written(self):
        gang, t, index = self.gang, self.t, self.index
        kinds = {"a": t, "e": index, "before": index, "k": "b", "x": t, "far": "i64"}
        flat = {
            "a": self.elements,
            "e": [z for row, mask in self.rounds for z in self.wild(row, mask)],
            "before": sum(self.befores, []),
            "k": [on for _, mask in self.rounds for on in mask],
            "x": sum(self.given, []),
            "far": [(z + 1) % self.size for row in self.befores for z in row],
        }
        places = {name: self.array(name, kinds[name], list(row)) for name, row in flat.items()}
        names = "gathered", "mixed", "moved", "kept", "front", "back", "free"
        outs = {name: self.out(t, name) for name in names}
        self.locals = [f"loc u {t} {self.size}"]
        shared = f"a{len(self.params)}"
        at, step, end, again = self.constant("i64", 0), self.constant("i64", gang), self.constant("i64", gang * len(self.rounds)), self.scalar("b")
        zero, more, m = self.constant("i64", 0), self.constant("i64", MORE), self.mask()
        v = {name: self.vector(kind) for name, kind in kinds.items() if name != "a"}
        i, two, moved, kept, one, d = (*(self.vector("i64") for _ in range(5)), self.vector(t))
        unit = self.constant("i64", 1)
        self.line(f"splat {one} {unit} m0", "round:")
        self.line(*(f"vload {register} {places[name]} {at} m0 p0" for name, register in v.items()), f"mtest {m} {v['k']} m0")
        fill = f"copy {d} {v['x']} m0"
        # in the lanes of a mask; by two masks; by a sum of 64 bits in some lanes; and where lanes keep what an earlier round loaded
        self.line(f"conv {i} {v['e']} {m}", fill, f"gather {d} {places['a']} {i} {m} p0", f"vstore {outs['gathered']} {at} {d} m0 p0")
        self.line(f"conv {two} {v['before']} m0", f"conv {two} {v['e']} {m}", f"gather {d} {places['a']} {two} m0 p0", f"vstore {outs['mixed']} {at} {d} m0 p0")
        self.line(f"conv {moved} {v['before']} m0", f"add {moved} {moved} {one} {m}", f"gather {d} {places['a']} {moved} m0 p0", f"vstore {outs['moved']} {at} {d} m0 p0")
        self.line(f"conv {kept} {v['e']} {m}", f"gather {d} {places['a']} {kept} m0 p0", f"vstore {outs['kept']} {at} {d} m0 p0", f"copy {kept} {v['far']} m0")
        self.line(f"gather {d} {places['a']} {i} {m} p0", f"vstore {outs['free']} {at} {d} {m} p0")
        self.line(f"clear {shared} m0", f"scatter {shared} {i} {v['x']} {m} p0")
        for name, place in (("front", zero), ("back", more)):
            self.line(f"vload {d} {shared} {place} m0 p0", f"vstore {outs[name]} {at} {d} m0 p0")
        self.line(f"add {at} {at} {step}", f"lt {again} {at} {end}", f"jnz {again} @round")
        return self.text()

    def wanted(self):
        a, found = self.elements, {name: [] for name in ("gathered", "mixed", "moved", "kept", "front", "back", "free")}
        kept = [0] * self.gang
        for (row, mask), before, given in zip(self.rounds, self.befores, self.given):
            lanes = range(self.gang)
            found["gathered"] += [a[row[p]] if mask[p] else given[p] for p in lanes]
            found["free"] += [a[row[p]] if mask[p] else 0 for p in lanes]
            found["mixed"] += [a[row[p] if mask[p] else before[p]] for p in lanes]
            found["moved"] += [a[before[p] + mask[p]] for p in lanes]
            found["kept"] += [a[row[p] if mask[p] else kept[p]] for p in lanes]
            kept = [(z + 1) % self.size for z in before]
            shared = [0] * self.size
            for p in lanes:
                if mask[p]:
                    shared[row[p]] = given[p]
            found["front"] += shared[: self.gang]
            found["back"] += shared[MORE:]
        return found


def truths(values, types):
    return {name: [bool(x) for x in row] if types[name] == "b" else list(row) for name, row in values.items()}


def types_of(c):
    return {name: t for _, _, t, name in (param.split(" ") for param in c.params)}


def indices(dice):
    for gang in GANGS:
        for place, index in enumerate(INDEX_TYPES):
            for t in ELEMENTS if index == "i32" else [ELEMENTS[(place + gang) % len(ELEMENTS)]]:
                c = Indexed(gang, t, index, dice)
                text, found = c.written(), c.wanted()
                wanted = truths({**c.values, **{name: found[values] for name, _, values in c.outs}}, types_of(c))
                yield f"lines: indices {index} into {t} at {gang}", text, "f", c.values, {"end": "ends", "writes": "", "arrays": wanted, "result": None}


def far_indices(dice):
    """Traps of the lowest lane that is on and outside, by indices of each type."""
    for gang in GANGS:
        wrongs = [("i8", -1), ("i8", 127), ("u8", 255), ("i32", gang), ("i32", -1), ("i32", -(1 << 31)), ("i32", (1 << 31) - 1), ("u32", gang), ("u32", 1 << 31), ("u32", (1 << 32) - 1)]
        wrongs += [("i64", z) for z in (gang, 1 << 31, 1 << 32, (1 << 32) + 1, 1 - (1 << 32), -(1 << 63), (1 << 63) - 1)]
        masks = [[1] * gang, [int(p >= 2) for p in range(gang)], [int(p == gang - 1) for p in range(gang)], [int(p != 1) for p in range(gang)]]
        for (index, wrong), mask in itertools.product(wrongs, masks):
            on = [p for p in range(gang) if mask[p]]
            low = dice.choice(on)
            bad = [p for p in range(gang) if p == low or (p > low and p % 3 == 0) or not mask[p]]
            values = {"x": list(range(gang)), "y": [7] * gang, "e": [wrong if p in bad else p for p in range(gang)], "k": mask}
            for word, line in (("gather", "gather {x} a0 {e} {m} p1"), ("scatter", "scatter a0 {e} {y} {m} p1")):
                yield trap_of(gang, f"{word} by {index} {wrong}", "u8" if wrong == gang else "i32", line, values, "index", low, index)


# ---- the ends of arrays


def short_arrays(dice):
    """Gathers, runs and packed loads from arrays of 1 to 9 elements, behind which nothing may be read."""
    for gang in GANGS:
        for t in ELEMENTS:
            for size in (1, 2, 3, 4, 5, 7, 9):
                c = Code(gang, dice)
                mask = [int(p < size and (p % 3 != 1 or size < 3)) for p in range(gang)]
                a = c.array("a", t, [some(dice, t) for _ in range(size)])
                e, k = c.array("e", "i32", [size - 1 - p if mask[p] else 99 for p in range(gang)]), c.array("k", "b", mask)
                out = c.array("out", t, [0] * (3 * gang))
                zero, last, m = c.constant("i64", 0), c.constant("i64", size - 1), c.mask()
                given, i, flags, d, lone, first, none = c.vector("i32"), c.vector("i64"), c.vector("b"), c.vector(t), c.mask(), c.constant("i64", 1), c.scalar("i64")
                c.line(f"vload {given} {e} {zero} m0 p0", f"vload {flags} {k} {zero} m0 p0", f"mtest {m} {flags} m0", f"conv {i} {given} m0")
                c.line(f"gather {d} {a} {i} {m} p0", f"vstore {out} {none} {d} m0 p0")
                for n, (place, lanes) in enumerate(((zero, m), (last, lone)), 1):
                    there = c.constant("i64", n * gang)
                    c.line(f"mrange {lone} {zero} {first}", f"vload {d} {a} {place} {lanes} p0", f"vstore {out} {there} {d} m0 p0")
                values = c.values["a"]
                rows = [[values[size - 1 - p] if mask[p] else 0 for p in range(gang)], [values[p] if mask[p] else 0 for p in range(gang)]]
                rows.append([values[size - 1], *rows[1][1:]])
                wanted = truths({**c.values, "out": sum(rows, [])}, types_of(c))
                yield f"lines: {size} elements of {t} at {gang}", c.text(), "f", c.values, {"end": "ends", "writes": "", "arrays": wanted, "result": None}


def partial_stores(dice):
    """A store under a mask leaves the elements of lanes that are off alone: from the middle of the lanes on, a write of them ends the program."""
    for gang in GANGS:
        half = gang // 2
        for t in ("i8", "u16", "i32", "u64"):
            for chance in (1, 0.5, 0):
                c = Code(gang, dice)
                mask = [int(p < half and dice.random() < chance) for p in range(gang)]
                a, k = c.array("a", t, [some(dice, t) for _ in range(2 * gang)]), c.array("k", "b", mask)
                x, e = c.array("x", t, [some(dice, t) for _ in range(gang)]), c.array("e", "i32", [half + p for p in range(gang)])
                zero, from_half, m, count = c.constant("i64", 0), c.constant("i64", half), c.mask(), c.scalar("i32")
                lanes, flags, given, i = c.vector(t), c.vector("b"), c.vector("i32"), c.vector("i64")
                for register, array in ((lanes, x), (flags, k), (given, e)):
                    c.line(f"vload {register} {array} {zero} m0 p0")
                c.line(f"mtest {m} {flags} m0", f"conv {i} {given} m0", f"vstore {a} {from_half} {lanes} {m} p0", f"scatter {a} {i} {lanes} {m} p0")
                stored = list(c.values["a"])
                for p in range(gang):
                    stored[half + p] = c.values["x"][p] if mask[p] else stored[half + p]
                if t == "i32":
                    c.line(f"pstore {count} {a} {from_half} {lanes} {m} p0")
                    members = [p for p in range(gang) if mask[p]]
                    stored[half : half + len(members)] = [c.values["x"][p] for p in members]
                wanted = truths({**c.values, "a": stored}, types_of(c))
                yield f"lines: stores of {t} at {gang}", c.text(), "f", c.values, {"end": "ends", "writes": "", "arrays": wanted, "result": None, "readonly": {"a": gang}}


# ---- arrays of more than 2^32 bytes

HUGE = (1 << 32) + 5


# what stands where in it, and 0 in all other places
POINTS = {**{p << 26: p + 1 for p in range(64)}, **{HUGE - 1 - p: 200 - p for p in range(40)}, **{(1 << 31) - 1 - p: 100 - p for p in range(40)}}


class Sparse:
    """An array of so many elements, all 0 but at some places. What comes out of it is what stands at `looked` afterwards."""

    def __init__(self, size, points, looked):
        self.size, self.points, self.looked = size, points, looked


def huge_of(gang, name, index, lines, row, out, changed=()):
    """A program over an array of HUGE bytes with the indices of a row: `out` is what its d has in the end, or the lane that traps. Of `changed` elements
    the neighbours are looked at too."""
    c, changed = Code(gang, None), dict(changed)
    looked = sorted({near for place in changed for near in (place - 1, place, place + 1) if 0 <= near < HUGE})
    a, e = c.array("a", "u8", Sparse(HUGE, POINTS, looked)), c.array("e", index, row)
    x, o = c.array("x", "u8", [p + 1 for p in range(gang)]), c.array("out", "u8", [0] * gang)
    zero, given, i, s, lanes, d, m = c.constant("i64", 0), c.vector(index), c.vector("i64"), c.scalar("i64"), c.vector("u8"), c.vector("u8"), c.mask()
    first, three = c.scalar(index), c.constant("i64", 3)
    c.line(f"vload {given} {e} {zero} m0 p0", f"load {first} {e} {zero} m0 p0", f"vload {lanes} {x} {zero} m0 p0", f"conv {i} {given} m0", f"conv {s} {first}")
    c.line(f"mrange {m} {zero} {three}", *(line.format(a=a, i=i, s=s, x=lanes, d=d, m=m) for line in lines), f"vstore {o} {zero} {d} m0 p0")
    arrays = {"a": [changed.get(place, POINTS.get(place, 0)) for place in looked], "e": row, "x": c.values["x"], "out": out}
    wanted = {"end": "ends", "writes": "", "result": None, "arrays": arrays}
    if isinstance(out, int):
        wanted.update(end="traps", kind="index", start=2, stop=5, instance=out, arrays={**arrays, "out": [0] * gang})
    return f"huge: {name} by {index} at {gang}", c.text(), "f", c.values, wanted


def huge():
    """Accesses past 2^31 and 2^32 elements, by indices that reach there and by those that do not."""
    gather, half = "gather {d} {a} {i} m0 p1", 1 << 31
    for gang in GANGS:
        lanes, end = range(gang), HUGE - gang
        rows = [("i64", [HUGE - 1 - 3 * p for p in lanes]), ("i64", [end + p for p in lanes]), ("u32", [p << 26 for p in lanes])]
        rows += [("u32", [half + (p << 26) for p in lanes]), ("i32", [half - 1 - p for p in lanes]), ("i32", [half - gang + p for p in lanes])]
        for index, row in rows:
            yield huge_of(gang, "gather", index, [gather], row, [POINTS.get(place, 0) for place in row])
            yield huge_of(gang, "scatter", index, ["scatter {a} {i} {x} m0 p1"], row, [0] * gang, [(place, p + 1) for p, place in enumerate(row)])
        run = [POINTS[end + p] for p in lanes]
        yield huge_of(gang, "vload", "i64", ["vload {d} {a} {s} m0 p1"], [end] * gang, run)
        yield huge_of(gang, "vstore", "i64", ["vstore {a} {s} {x} {m} p1"], [end] * gang, [0] * gang, [(end + p, p + 1) for p in range(3)])
        yield huge_of(gang, "vload past the end", "i64", ["vload {d} {a} {s} m0 p1"], [end + 1] * gang, gang - 1)
        for index, wrong in (("i32", -1), ("i32", -half), ("i64", HUGE), ("i64", -1), ("i64", 1 << 33)):
            yield huge_of(gang, f"gather outside, {wrong},", index, [gather], [p if p < 2 else wrong for p in lanes], 2)


# ---- calls and jumps


def calls():
    """A function that calls itself: n deep, with a vector, an array and a mask; it adds up the lanes that called."""
    for gang in GANGS:
        for deep, off in ((3, 1), (254, 0), (255, 1), (255, 0), (256, 0)):
            inner = [
                *("func g inner v i32", "par s i32 n", "par v i32 x", "par a i32 a", "s i32 b i32", "v i32 i32", "m 1"),
                *("copy v1 v0 m0", "const s1 1", "lt s2 s0 s1", "jnz s2 L8", "splat v2 s1 m0", "add v2 v0 v2 m0", "sub s3 s0 s1"),
                *("call f0 v1 m0 p1 s3 v2 a0", "ret v1", "end"),
            ]
            mask = [int(p % 3 != off) for p in range(gang)]
            c = Code(gang, None)
            a, k, many = c.array("a", "i32", [10 * p for p in range(gang)]), c.array("k", "b", mask), c.array("n", "i32", [deep])
            zero, n = c.constant("i64", 0), c.scalar("i32")
            x, flags, m = c.vector("i32"), c.vector("b"), c.mask()
            c.line(f"vload {x} {a} {zero} m0 p0", f"vload {flags} {k} {zero} m0 p0", f"mtest {m} {flags} m0", f"load {n} {many} {zero} m0 p0")
            c.line(f"call f0 {x} {m} p1 {n} {x} {a}", f"vstore {a} {zero} {x} m0 p0")
            arrays = {"a": [10 * p + deep * mask[p] for p in range(gang)], "k": [bool(one) for one in mask], "n": [deep]}
            wanted = {"end": "ends", "writes": "", "result": None, "arrays": arrays}
            # the innermost of deep + 1 takes four to the jump and one back, the others nine; then come six of the entry with its call, the store and the end
            wanted["steps"] = 6 + 9 * deep + 5 + 2
            if deep + 2 > 256:
                wanted.update(end="traps", kind="depth", start=2, stop=5, instance=mask.index(1), steps=6 + 8 * 255)
                wanted["arrays"]["a"] = c.values["a"]
            yield f"lines: calls {deep} deep at {gang}", c.text(before=inner), "f", c.values, wanted


def voids():
    """A call without a result runs under the mask of the call, also where that is empty; its stores and its steps are seen."""
    inner = ["func g inner void", "par v i32 x", "par s i64 n", "par a i32 a", "s i32", "v i32 i64", "m 1"]
    inner += ["index v1 m0", "conv v2 v1 m0", "scatter a0 v2 v0 m0 p0", "load s1 a0 s0 m0 p0", "ret -", "end"]
    for gang in GANGS:
        for mask in ([1] * gang, [int(p % 3 != 0) for p in range(gang)], [int(p == gang - 1) for p in range(gang)], [0] * gang):
            c = Code(gang, None)
            a, k, x = c.array("a", "i32", [0] * gang), c.array("k", "b", mask), c.array("x", "i32", [3 * p + 1 for p in range(gang)])
            zero, lanes, flags, m = c.constant("i64", 0), c.vector("i32"), c.vector("b"), c.mask()
            c.line(f"vload {lanes} {x} {zero} m0 p0", f"vload {flags} {k} {zero} m0 p0", f"mtest {m} {flags} m0", f"call f0 - {m} p1 {lanes} {zero} {a}")
            arrays = {"a": [(3 * p + 1) * mask[p] for p in range(gang)], "k": [bool(one) for one in mask], "x": c.values["x"]}
            wanted = {"end": "ends", "writes": "", "result": None, "arrays": arrays, "steps": 5 + 5 + 1}
            yield f"lines: void calls at {gang}", c.text(before=inner), "f", c.values, wanted


def jumps():
    """Each jump by scalars, taken and not, forwards and back: what is passed over leaves its places 0."""
    for gang in GANGS:
        for flag in (0, 1):
            c = Code(gang, None)
            flags, out = c.array("flags", "b", [flag]), c.array("out", "i32", [0] * 5)
            zero, s, one, n = c.constant("i64", 0), c.scalar("b"), c.constant("i32", 7), 0
            places = [c.constant("i64", place) for place in range(5)]
            c.line(f"load {s} {flags} {zero} m0 p0", f"jz {s} @off", f"store {out} {places[0]} {one} m0 p0", "off:")
            c.line(f"jnz {s} @on", f"store {out} {places[1]} {one} m0 p0", "on:", "jmp @over", "back:", f"store {out} {places[2]} {one} m0 p0", "jmp @end")
            c.line("over:", f"jmp @further", f"store {out} {places[3]} {one} m0 p0", "further:", f"store {out} {places[4]} {one} m0 p0", "jmp @back", "end:")
            wanted = {"end": "ends", "writes": "", "result": None, "arrays": {"flags": [bool(flag)], "out": [7 * flag, 7 * (1 - flag), 7, 0, 7]}}
            # seven constants, and of what follows all but the store that one of the first two jumps passes over and the one that always is
            wanted["steps"] = 7 + 3 + 1 + 1 + 1 + 2 + 2 + 1
            yield f"lines: jumps at {gang}", c.text(), "f", c.values, wanted


def passed():
    """A vector that is passed is 0 in the lanes that do not call: the called function adds up all lanes. What it gives goes to a scalar."""
    inner = ["func g inner s i64", "par v i32 x", "s i64", "m 2", "mfull m1", "radd s0 v0 m1", "ret s0", "end"]
    for gang in GANGS:
        mask = [int(p % 3 != 1) for p in range(gang)]
        c = Code(gang, None)
        a, k, o = c.array("a", "i32", [10 * p + 7 for p in range(gang)]), c.array("k", "b", mask), c.array("o", "i64", [0])
        zero, x, flags, m, all_lanes = c.constant("i64", 0), c.vector("i32"), c.vector("b"), c.mask(), c.scalar("i64")
        c.line(f"vload {x} {a} {zero} m0 p0", f"vload {flags} {k} {zero} m0 p0", f"mtest {m} {flags} m0")
        c.line(f"call f0 {all_lanes} {m} p1 {x}", f"store {o} {zero} {all_lanes} m0 p0")
        arrays = {"a": c.values["a"], "k": [bool(one) for one in mask], "o": [sum(10 * p + 7 for p in range(gang) if mask[p])]}
        wanted = {"end": "ends", "writes": "", "result": None, "arrays": arrays, "steps": 5 + 3 + 2}
        yield f"lines: passed lanes at {gang}", c.text(before=inner), "f", c.values, wanted


# ---- what nobody reads again

# the words of the writes of `freed` in the C file, in order: those that need not keep the lanes that are off have an F in front
FREED = """
    FVLOAD FVLOAD FVLOAD FVLOAD FVCOPY VADD FVCOPY VSUB FVXOR FVOR SKIP FVCOPY SKIP SKIP
    FVADD FVCOPY VCOPY FVCOPY VMIN FVCOPY VNEG FVCOPY VINV FVCOPY VSUB
""".split()


class Freed(Code):
    """Writes under a mask m, whose other lanes are read again or not. `more` is a second mask, `wide` has the lanes of both, `narrow` those that are in both."""

    def __init__(self, gang, flags):
        super().__init__(gang, None)
        self.flags, self.outs = flags, {}
        self.xs, self.ys = [100 * p + 7 for p in range(gang)], [(-1) ** p * (3 * p + 1) for p in range(gang)]
        arrays = self.array("x", "i32", self.xs), self.array("y", "i32", self.ys)
        arrays += self.array("k", "b", [flag & 1 for flag in flags]), self.array("l", "b", [flag >> 1 for flag in flags])
        self.zero, self.total = self.constant("i64", 0), self.scalar("i64")
        self.v, self.w, k, l = self.vector("i32"), self.vector("i32"), self.vector("b"), self.vector("b")
        self.m, self.more, self.wide, self.narrow = (self.mask() for _ in range(4))
        self.line(*(f"vload {register} {array} {self.zero} m0 p0" for register, array in zip((self.v, self.w, k, l), arrays)))
        self.line(f"mtest {self.m} {k} m0", f"mtest {self.more} {l} m0", f"mor {self.wide} {self.m} {self.more}", f"mand {self.narrow} {self.m} {self.more}")

    def stored(self, d, mask, has, value):
        """Stores lanes of d. Where `has` is true of the flag of a lane there stands the value of its x and its y, told whether it is in m, else 0."""
        lanes = zip(self.flags, self.xs, self.ys)
        name = f"out{len(self.outs)}"
        self.outs[name] = [value(flag & 1, x, y) if has(flag) else 0 for flag, x, y in lanes]
        self.line(f"vstore {self.array(name, 'i32', [0] * self.gang)} {self.zero} {d} {mask} p0")

    def summed(self, line, has, value):
        """Stores the sum of the lanes that `has` is true of, which the line gives."""
        name = f"out{len(self.outs)}"
        self.outs[name] = [sum(value(flag & 1, x, y) for flag, x, y in zip(self.flags, self.xs, self.ys) if has(flag))]
        self.line(line, f"store {self.array(name, 'i64', [0])} {self.zero} {self.total} m0 p0")


def freed():
    """What is written under a mask is read by a wider one, by the same that has grown, by the same, by a narrower one, and not at all; by a line that is read by a wider
    one; over a jump, by a sum, by a call, and in the next round of a loop."""
    inner = ["func g inner s i64", "par v i32 x", "s i64", "m 1", "radd s0 v0 m0", "ret s0", "end"]
    everyone, some, first, both = lambda flag: True, lambda flag: flag > 0, lambda flag: flag & 1, lambda flag: flag == 3
    for gang in GANGS:
        for flags in ([1] * gang, [p % 4 for p in range(gang)], [(0, 2, 3)[p % 3] for p in range(gang)], [2 * (p % 2) for p in range(gang)]):
            c = Freed(gang, flags)
            v, w, m, d, e, grown = c.v, c.w, c.m, c.vector("i32"), c.vector("i32"), c.mask()
            c.line(f"copy {d} {v} m0", f"add {d} {v} {w} {m}")
            c.stored(d, c.wide, some, lambda on, x, y: x + y if on else x)
            c.line(f"mcopy {grown} {m}", f"copy {d} {v} m0", f"sub {d} {v} {w} {grown}", f"mor {grown} {grown} {c.more}")
            c.stored(d, grown, some, lambda on, x, y: x - y if on else x)
            c.line(f"xor {d} {v} {w} {m}")
            c.stored(d, m, first, lambda on, x, y: x ^ y)
            c.line(f"or {d} {v} {w} {m}")
            c.stored(d, c.narrow, both, lambda on, x, y: x | y)
            c.line(f"mul {d} {v} {w} {m}", f"copy {d} {w} m0", f"add {e} {v} {w} {m}", f"mul {e} {e} {e} {m}")
            c.stored(d, "m0", everyone, lambda on, x, y: y)
            c.line(f"add {e} {v} {w} {m}", f"copy {d} {w} m0", f"copy {d} {e} {m}")
            c.stored(d, c.wide, some, lambda on, x, y: x + y if on else y)
            c.line(f"copy {d} {v} m0", f"joff {m} @none", f"min {d} {v} {w} {m}", "none:")
            c.stored(d, "m0", everyone, lambda on, x, y: min(x, y) if on else x)
            c.line(f"copy {d} {v} m0", f"neg {d} {v} {m}")
            c.summed(f"radd {c.total} {d} m0", everyone, lambda on, x, y: -x if on else x)
            c.line(f"copy {d} {v} m0", f"inv {d} {v} {m}")
            c.summed(f"call f0 {c.total} {c.wide} p0 {d}", some, lambda on, x, y: -x - 1 if on else x)
            again = c.scalar("b")
            c.line(f"copy {d} {v} m0", "round:")
            c.stored(d, c.wide, some, lambda on, x, y: x - y if on else x)
            c.line(f"sub {d} {v} {w} {m}", f"lnot {again} {again}", f"jnz {again} @round")
            wanted = truths({**c.values, **c.outs}, types_of(c))
            # the loop is gone through twice, the call is of two, and the min is passed over where m is empty
            steps = sum(not line.endswith(":") for line in c.body) + 4 + 2 + 1 - (not any(map(first, flags)))
            yield f"lines: lanes that are read again at {gang}", c.text(before=inner), "f", c.values, {"end": "ends", "writes": "", "arrays": wanted, "result": None, "steps": steps}


# ---- the table of instructions


def quoted_forms(row):
    """The words of a row of the table, each with its operands. Words by themselves have those that follow, or those that stood before."""
    words, operands = [], []
    for quoted in re.findall(r"`([^`]*)`", row):
        parts = quoted.split(" ")
        plain = list(itertools.takewhile(lambda part: re.fullmatch(r"[a-z]+\d?", part), parts))
        words, operands = plain or words, parts[len(plain) :] or operands
        yield from ((word, operands) for word in words if operands)


def form(word, operands):
    """A form in one way of writing: the word with the classes of its operands, where n is a number."""
    return f"{word} {''.join('n' if re.fullmatch('n|-?[0-9]+', part) else part[0] for part in operands)}"


def table_forms(page):
    """The forms in the table of instructions. Of a call they are what its result goes to, and each kind of register that it passes."""
    table = page.split("\n## Instructions\n")[1].split("\n## ")[0]
    found = set()
    for row in re.findall(r"^\| (`.*?) \|", table, re.M):
        for word, operands in quoted_forms(row):
            found.update([f"call {one}" for one in ("-", "s", "v", "passes s", "passes v", "passes a")] if word == "call" else [form(word, operands)])
    return found


def forms_of_code(text):
    """The forms of a program's instructions."""
    inside = False
    for line in text.split("\n"):
        word, *operands = line.split(" ")
        if word == "m":
            inside = True
        elif word == "end":
            inside = False
        elif inside and word == "call":
            yield f"call {operands[1][0]}"
            yield from (f"call passes {one[0]}" for one in operands[4:])
        elif inside:
            yield form(word, operands)


def untried(page, texts):
    """The forms of the table that are in no program of a gang, and those of programs that are not in the table."""
    wanted = table_forms(page)
    for gang in GANGS:
        found = {one for text in texts if text.split("\n")[0].endswith(f"gang {gang}") for one in forms_of_code(text)}
        yield from (f"gang {gang}: no program has `{one}`" for one in sorted(wanted - found))
        yield from (f"gang {gang}: the table has no `{one}`" for one in sorted(found - wanted))


def words_of(text):
    """The words of the lines of a C file, in order."""
    return re.findall(r"^L\d+: (\w+)\(", text, re.M)


def free_words(header):
    """The words that can stand in a free line: those that the header gives a word with F in front."""
    return re.findall(r"^#define F(\w+)\(\.\.\.\) ISP_FREE\(\1\(", header, re.M)


def unfree(header, texts):
    """The words of writes that stand in no C file of a gang as they are, or in none with F in front; and C files of `freed` that have other words."""
    words = free_words(header)
    for gang in GANGS:
        found = {word for text in texts.values() if text and text.startswith(f"#define ISP_GANG {gang}\n") for word in words_of(text)}
        wanted = {"SKIP", *words, *(f"F{word}" for word in words)}
        yield from (f"gang {gang}: no C file has `{word}`" for word in sorted(wanted - found))
    for name, code, *_ in freed():
        found = [word for word in words_of(texts[code] or "") if word == "SKIP" or word.removeprefix("F") in words]
        if found != FREED:
            yield f"{name}: {' '.join(found)}"


def miscounted(header, name, told, text):
    """What differs in the C file of a kernel from what is told of its writes: `taken, 14 full, 6 free, 4 useless, 2 select`. Calls have no free line."""
    words, found = free_words(header), words_of(text)
    full, free, useless, select = map(int, re.fullmatch(r"taken, (\d+) full, (\d+) free, (\d+) useless, (\d+) select", told).groups())
    calls, kept = found.count("VCALL"), sum(word in words for word in found)
    freed_here = sum(word.removeprefix("F") in words for word in found) - kept
    if found.count("SKIP") != useless or freed_here + kept + calls != full + free + select or not kept <= select <= kept + calls:
        yield f"{name}: {told}; {freed_here} are free, {kept} kept, {found.count('SKIP')} left out, {calls} calls"


def tests():
    dice = random.Random(1)
    yield from rounds("operators", plain_lines, dice)
    yield from rounds("crossing", cross_lines, dice)
    yield from rounds("masks", mask_lines, dice)
    yield from rounds("memory", memory_lines, dice)
    yield from rounds("printing", printed_lines, dice)
    yield from indices(dice)
    yield from far_indices(dice)
    yield from short_arrays(dice)
    yield from partial_stores(dice)
    yield from traps(dice)
    yield from calls()
    yield from voids()
    yield from jumps()
    yield from passed()
    yield from freed()
