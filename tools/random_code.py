"""Random code: accepted code texts that end or trap, with arguments.

programs(count, seed) yields a name, the code text, the entry and its arguments, so many for each gang. The code is a loop of a few rounds over random instructions of the
table in docs/MACHINE.md, with jumps forward among them, a call of a second function, and in the end each register's value, written. Most indices and divisors are
made fit before they are used, so that most runs go on to the end.
"""
import random

from native_lines import COMPARE, DIVISIONS, GANGS, PLAIN, SCANS, UNARY, WHOLE, WIDER, labelled, some

SIZE = 64
LINES = 40
ROUNDS = 3
# how often an index or a divisor is left as it comes
WILD = 0.03


class Function:
    """A function that is written line by line, of registers of a few types."""

    def __init__(self, dice, types):
        self.dice, self.types = dice, types
        self.scalars, self.vectors, self.masks = [], [], 1
        self.body, self.names = [], 0

    def scalar(self, t):
        self.scalars.append(t)
        return f"s{len(self.scalars) - 1}"

    def vector(self, t):
        self.vectors.append(t)
        return f"v{len(self.vectors) - 1}"

    def mask(self):
        self.masks += 1
        return f"m{self.masks - 1}"

    def line(self, *lines):
        self.body += lines

    def constant(self, t, n):
        s = self.scalar(t)
        self.line(f"const {s} {n}")
        return s

    def one_of(self, kind, t):
        """A register of a class and a type."""
        types, letter = (self.scalars, "s") if kind == "s" else (self.vectors, "v")
        return f"{letter}{self.dice.choice([k for k, it in enumerate(types) if it == t and k >= self.first[kind]])}"

    def any_mask(self):
        return f"m{self.dice.randrange(self.masks)}"

    def written_mask(self):
        return f"m{self.dice.randrange(1, self.masks)}"

    def begin(self):
        """The registers that random instructions write: two of each class and type. Those before them keep what they have."""
        self.first = {"s": len(self.scalars), "v": len(self.vectors)}
        for t in self.types:
            for _ in range(2):
                self.constant(t, int(some(self.dice, t)))
                self.line(f"splat {self.vector(t)} {self.scalars_of(t)} m0")
        for _ in range(3):
            self.mask()

    def scalars_of(self, t):
        return f"s{max(k for k, it in enumerate(self.scalars) if it == t)}"


def fit_index(f, kind):
    """An index of 64 bits, mostly inside an array."""
    i = f.one_of(kind, "i64")
    if f.dice.random() < WILD:
        return i
    at = "m0" if kind == "v" else ""
    f.line(f"and {f.inside[kind]} {i} {f.last[kind]} {at}".rstrip())
    return f.inside[kind]


def access(f):
    """A load or a store, of one element or of lanes."""
    array, t = f.dice.choice(f.arrays)
    word = f.dice.choice(["load", "store", "gather", "scatter", "vload", "vstore", "pload", "pstore"])
    k = f.any_mask()
    if word in ("pload", "pstore") and t not in ("i32", "u32"):
        word = "vload"
    if word == "load":
        f.line(f"load {f.one_of('s', t)} {array} {fit_index(f, 's')} {k} p0")
    elif word == "store":
        f.line(f"store {array} {fit_index(f, 's')} {f.one_of('s', t)} {k} p1")
    elif word == "gather":
        f.line(f"gather {f.one_of('v', t)} {array} {fit_index(f, 'v')} {k} p0")
    elif word == "scatter":
        f.line(f"scatter {array} {fit_index(f, 'v')} {f.one_of('v', t)} {k} p1")
    elif word == "vload":
        f.line(f"vload {f.one_of('v', t)} {array} {f.near} {k} p0")
    elif word == "vstore":
        f.line(f"vstore {array} {f.near} {f.one_of('v', t)} {k} p1")
    else:
        f.line(f"{word} {f.one_of('s', 'i32')} {array} {f.near} {f.one_of('v', t)} {k} p1")


def division(f):
    t = f.dice.choice([it for it in f.types if it != "b"])
    kind = f.dice.choice("sv")
    y, k = f.one_of(kind, t), f.any_mask()
    if f.dice.random() >= WILD:
        odd = f.odd[kind, t]
        f.line(f"or {odd} {y} {f.ones[kind, t]}" + " m0" * (kind == "v"))
        y = odd
    f.line(f"{f.dice.choice(list(DIVISIONS))} {f.one_of(kind, t)} {f.one_of(kind, t)} {y} {k} p2")


def plain(f):
    """An operator, a comparison, a conversion, a choice, of scalars or of lanes."""
    kind = f.dice.choice("svv")
    k = f" {f.any_mask()}" if kind == "v" else ""
    t, u = f.dice.choice([it for it in f.types if it != "b"]), f.dice.choice(f.types)
    x, y, d = (f.one_of(kind, t) for _ in range(3))
    f.line(
        f.dice.choice(
            [f"{word} {d} {x} {y}{k}" for word in PLAIN]
            + [f"{word} {d} {x}{k}" for word in UNARY]
            + [f"{word} {f.one_of(kind, 'b')} {x} {y}{k}" for word in COMPARE]
            + [f"conv {f.one_of(kind, u)} {x}{k}", f"copy {d} {x}{k}", f"lnot {f.one_of(kind, 'b')} {f.one_of(kind, 'b')}{k}"] * 2
            + [f"sel {d} {f.one_of(kind, 'b')} {x} {y}{k}"] * 3
        )
    )


def across(f):
    t, k = f.dice.choice([it for it in f.types if it != "b"]), f.any_mask()
    x, y, d, i = f.one_of("v", t), f.one_of("v", t), f.one_of("v", t), f.one_of("s", "i32")
    choices = [f"{word} {d} {x} {i} {k}" for word in ("bcast", "rot", "shf")] + [f"{word} {d} {x} {k}" for word in SCANS]
    choices += [f"shuf {d} {x} {f.one_of('v', 'i32')} {k}", f"shuf2 {d} {x} {y} {f.one_of('v', 'i32')} {k}"]
    choices += [f"ins {d} {x} {i} {f.one_of('s', t)} {k}", f"extr {f.one_of('s', t)} {x} {i} {k}"]
    choices += [f"{word} {f.one_of('s', t)} {x} {k}" for word in ("rmin", "rmax")] + [f"requ {f.one_of('s', 'b')} {x} {k}"]
    choices += [f"{word} {f.one_of('s', 'b')} {f.one_of('v', 'b')} {k}" for word in ("rany", "rall")]
    if WIDER[t] in f.types:
        choices.append(f"radd {f.one_of('s', WIDER[t])} {x} {k}")
    choices += [f"splat {d} {f.one_of('s', t)} {k}", f"index {f.one_of('v', 'i32')} {k}"]
    f.line(f.dice.choice(choices))


def masks(f):
    d, x, y = f.written_mask(), f.any_mask(), f.any_mask()
    choices = [f"{word} {d} {x} {y}" for word in ("mand", "mor", "mandn")] + [f"{word} {d} {x}" for word in ("mcopy", "mlow")]
    choices += [f"mfull {d}", f"mtest {d} {f.one_of('v', 'b')} {y}", f"mtest {d} {f.one_of('v', 'b')} m0"]
    choices += [f"mfirst {f.one_of('s', 'i64')} {x}", f"mrange {d} {f.one_of('s', 'i64')} {f.one_of('s', 'i64')}", f"mrange {d} {f.near} {f.last['s']}"]
    f.line(f.dice.choice(choices))


def jump(f):
    """A jump over some of the instructions that come next."""
    f.names += 1
    f.line(f.dice.choice([f"jz {f.one_of('s', 'b')} @n{f.names}", f"jnz {f.one_of('s', 'b')} @n{f.names}"] + [f"{word} {f.any_mask()} @n{f.names}" for word in ("joff", "jon", "jall")]))
    for _ in range(f.dice.randrange(1, 5)):
        f.dice.choice([plain, across, masks, access, division])(f)
    f.line(f"n{f.names}:")


def written(f):
    t = f.dice.choice(f.types)
    f.line(f.dice.choice([f"prs {f.one_of('s', t)}", f"prv {f.one_of('v', t)} {f.any_mask()}", "say t0"]))


def called(f):
    if f.calls:
        f.line(f"call f0 {f.one_of('v', 'i32')} {f.any_mask()} p3 {f.one_of('s', 'i64')} {f.one_of('v', 'i32')} a0")


def instruction(f):
    f.dice.choices([plain, across, masks, access, division, jump, written, called], [12, 5, 5, 5, 2, 2, 1, 1])[0](f)


def fixed(f, gang):
    """Registers for what random instructions need and do not write."""
    f.inside = {"s": f.scalar("i64"), "v": f.vector("i64")}
    f.last = {"s": f.constant("i64", SIZE - 1), "v": f.vector("i64")}
    f.line(f"splat {f.last['v']} {f.last['s']} m0")
    f.near = f.constant("i64", f.dice.randrange(SIZE - gang + 1))
    f.odd, f.ones = {}, {}
    for t in (it for it in f.types if it != "b"):
        f.odd["s", t], f.odd["v", t] = f.scalar(t), f.vector(t)
        f.ones["s", t], f.ones["v", t] = f.constant(t, 1), f.vector(t)
        f.line(f"splat {f.ones['v', t]} {f.ones['s', t]} m0")


def header(f, first, params):
    scalars, vectors = f.scalars[params.count("s") :], f.vectors[params.count("v") :]
    kinds = [f"s {' '.join(scalars)}"] * bool(scalars) + [f"v {' '.join(vectors)}"] * bool(vectors)
    return [*first, *kinds, f"m {f.masks}", *labelled(f.body), "end"]


def inner(dice, gang):
    """A function that takes a scalar, a vector and an array, and gives a vector."""
    f = Function(dice, ["b", "i32", "i64"])
    f.scalar("i64"), f.vector("i32")
    f.arrays, f.calls = [("a0", "i32")], False
    fixed(f, gang)
    f.begin()
    for _ in range(8):
        instruction(f)
    f.line(f"add {f.one_of('v', 'i32')} v0 v0 m0", f"ret {f.one_of('v', 'i32')}")
    return header(f, ["func g inner v i32", "par s i64 n", "par v i32 x", "par a i32 a"], "sv")


def program(dice, gang):
    types = ["b", "i32", "i64", *dice.sample([t for t in WHOLE if t not in ("i32", "i64")], 2)]
    f = Function(dice, types)
    kinds = ["i32", *types]
    f.arrays, f.calls = [(f"a{k}", t) for k, t in enumerate(kinds)], True
    given = {f"a{k}": [bool(x) if t == "b" else x for x in (some(dice, t) for _ in range(SIZE))] for k, t in enumerate(kinds)}
    fixed(f, gang)
    round_, one, end, again = f.constant("i64", 0), f.constant("i64", 1), f.constant("i64", ROUNDS), f.scalar("b")
    f.begin()
    for k, t in f.arrays:
        f.line(f"vload {f.one_of('v', t)} {k} {f.near} m0 p0")
    f.line("again:")
    for _ in range(LINES):
        instruction(f)
    f.line(f"add {round_} {round_} {one}", f"lt {again} {round_} {end}", f"jnz {again} @again")
    f.line(*(f"prs s{k}" for k in range(len(f.scalars))), *(f"prv v{k} m0" for k in range(len(f.vectors))))
    flag = f.one_of("v", "b")
    for k in range(1, f.masks):
        f.line(f"prv {flag} m{k}")
    f.line("ret -")
    head = [f"isp {2 if gang == 32 else 1} gang {gang}", *(f"place {k} {k + 3}" for k in range(4)), "text 2068c3a920"]
    params = [f"par a {t} a{k}" for k, t in enumerate(kinds)]
    return "\n".join([*head, *inner(dice, gang), *header(f, ["func f export void", *params], "")]) + "\n", given


def programs(count, seed=1):
    dice = random.Random(seed)
    for gang in GANGS:
        for number in range(count):
            text, given = program(dice, gang)
            yield f"random: {number} at {gang}", text, "f", given
