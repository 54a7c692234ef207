"""What a gang of any width does, in plain Python: an evaluator of its own, for programs that are accepted.

It is written from docs/LANGUAGE.md and docs/MEANING.md, and nothing is taken from the crates. Sets of instances are tuples in order; a
varying value is a dictionary with the members of the set. tools/wide_rows.py makes rows by it, and says with `--check` how it agrees with
rows that others found.
"""
import json
import re
import sys

sys.setrecursionlimit(200000)
# How many nodes and turns are followed.
MOST = 1_000_000
ORDER = ["int8", "uint8", "int16", "uint16", "int32", "uint32", "int64", "uint64"]
WIDTH = {"bool": 1, **{t: int(re.sub(r"\D", "", t)) for t in ORDER}}
PLAIN = {
    "+": lambda x, y: x + y,
    "-": lambda x, y: x - y,
    "*": lambda x, y: x * y,
    "&": lambda x, y: x & y,
    "|": lambda x, y: x | y,
    "^": lambda x, y: x ^ y,
    "<<": lambda x, y: x << y,
    ">>": lambda x, y: x >> y,
}
COMPARE = {
    "==": lambda x, y: x == y,
    "!=": lambda x, y: x != y,
    "<": lambda x, y: x < y,
    "<=": lambda x, y: x <= y,
    ">": lambda x, y: x > y,
    ">=": lambda x, y: x >= y,
}
TYPE_WORDS = {"void", "bool", "int", "uint", "signed", "unsigned", "const", "uniform", "varying", *ORDER}
TOKEN = re.compile(
    r"(?P<blank>[ \t\r\n]+|//[^\n]*|/\*.*?\*/)|(?P<word>[A-Za-z_]\w*)|(?P<num>[0-9]\w*)|(?P<text>\"(?:[^\"\\]|\\.)*\")"
    r"|(?P<sign>\.\.\.|<<=|>>=|==|!=|<=|>=|<<|>>|\+\+|--|[-+*/%&|^]=|&&|\|\||[(){}\[\];,?:=<>+\-*/%&|^~!])",
    re.S,
)


class Trap(Exception):
    def __init__(self, kind, start, end, instance):
        self.kind, self.start, self.end, self.instance = kind, start, end, instance


class Cut(Exception):
    pass


class Long(Exception):
    """A run that is not followed to its end."""


def wrap(t, z):
    if t == "bool":
        return int(z != 0)
    w = WIDTH[t]
    z &= (1 << w) - 1
    return z - (1 << w) if t[0] == "i" and z >> (w - 1) else z


def operand(t):
    return "int32" if t == "bool" else t


def common(s, t):
    return max(operand(s), operand(t), key=ORDER.index)


def literal(text):
    m = re.fullmatch(r"(?i)(0x[0-9a-f]+|0b[01]+|[0-9]+)(ul|lu|ull|llu|u|ll|l)?", text)
    digits, suffix = m[1].lower(), (m[2] or "").lower()
    value = int(digits, 0)
    if suffix == "":
        fits = ["int32", "int64", "uint64"] if digits[:1] != "0" or len(digits) == 1 else ["int32", "uint32", "int64", "uint64"]
    elif suffix == "u":
        fits = ["uint32", "uint64"]
    elif suffix in ("l", "ll"):
        fits = ["int64"]
    else:
        fits = ["uint64"]
    return next((t, value) for t in fits if wrap(t, value) == value)


class Parser:
    def __init__(self, source):
        self.toks, at = [], 0
        while at < len(source):
            m = TOKEN.match(source, at)
            assert m, source[at : at + 20]
            at = m.end()
            if m.lastgroup != "blank":
                self.toks.append((m.lastgroup, m[0], m.start(), m.end()))
        self.toks.append(("end", "", at, at))
        self.i = 0

    def peek(self, k=0):
        return self.toks[self.i + k][1] if self.i + k < len(self.toks) and self.toks[self.i + k][0] != "text" else None

    def next(self):
        self.i += 1
        return self.toks[self.i - 1]

    def take(self, sign):
        t = self.next()
        assert t[1] == sign, (t, sign)
        return t

    def got(self, sign):
        if self.peek() == sign:
            return self.next()
        return None

    def start(self):
        return self.toks[self.i][2]

    def end(self):
        return self.toks[self.i - 1][3]

    def type(self):
        rate, sign, base = None, None, None
        while self.peek() in TYPE_WORDS:
            w = self.next()[1]
            if w in ("uniform", "varying"):
                rate = w
            elif w in ("signed", "unsigned"):
                sign = w
            elif w != "const":
                base = w
                break
        base = {"int": "int32", "uint": "uint32", None: "int32"}.get(base, base)
        if sign == "unsigned":
            base = "u" + base
        return base, rate

    def program(self):
        fs = {}
        while self.toks[self.i][0] != "end":
            exported = False
            while self.peek() in ("export", "static", "inline"):
                exported |= self.next()[1] == "export"
            base, rate = self.type()
            name = self.next()[1]
            self.take("(")
            params = []
            if self.peek() == "void" and self.peek(1) == ")":
                self.next()
            while self.peek() != ")":
                t, r = self.type()
                n = self.next()[1]
                array = bool(self.got("["))
                if array:
                    self.take("]")
                params.append((n, t, r or "varying", array))
                self.got(",")
            self.take(")")
            fs[name] = dict(name=name, elem=base, rate=rate or "varying", params=params, exported=exported, body=self.block())
        return fs

    def block(self):
        self.take("{")
        body = []
        while not self.got("}"):
            body.append(self.stmt())
        return ("block", body)

    def stmt(self):
        w = self.peek()
        if w == "{":
            return self.block()
        if self.got(";"):
            return ("empty",)
        if w in ("if", "cif"):
            self.next()
            self.take("(")
            test = self.expr()
            self.take(")")
            yes = self.stmt()
            no = self.stmt() if self.got("else") else None
            return ("if", test, yes, no)
        if w in ("while", "cwhile"):
            self.next()
            self.take("(")
            test = self.expr()
            self.take(")")
            return ("loop", None, test, None, self.stmt(), True)
        if w in ("do", "cdo"):
            self.next()
            body = self.stmt()
            self.take("while")
            self.take("(")
            test = self.expr()
            self.take(")")
            self.take(";")
            return ("loop", None, test, None, body, False)
        if w in ("for", "cfor"):
            self.next()
            self.take("(")
            first = None if self.peek() == ";" else self.decl() if self.peek() in TYPE_WORDS else self.simple()
            self.take(";")
            test = None if self.peek() == ";" else self.expr()
            self.take(";")
            step = None if self.peek() == ")" else self.simple()
            self.take(")")
            return ("for", first, test, step, self.stmt())
        if w in ("foreach", "foreach_tiled"):
            self.next()
            self.take("(")
            ranges = []
            while True:
                name = self.next()[1]
                self.take("=")
                a = self.expr()
                self.take("...")
                ranges.append((name, a, self.expr()))
                if not self.got(","):
                    break
            self.take(")")
            return ("foreach", ranges, self.stmt())
        if w == "foreach_active":
            self.next()
            self.take("(")
            name = self.next()[1]
            self.take(")")
            return ("active", name, self.stmt())
        if w == "foreach_unique":
            self.next()
            self.take("(")
            name = self.next()[1]
            self.take("in")
            e = self.expr()
            self.take(")")
            return ("unique", name, e, self.stmt())
        if w == "unmasked":
            self.next()
            return ("unmasked", self.block())
        if w in ("break", "continue"):
            self.next()
            self.take(";")
            return (w,)
        if w == "return":
            self.next()
            e = None if self.peek() == ";" else self.expr()
            self.take(";")
            return ("return", e)
        if w == "print":
            self.next()
            self.take("(")
            text = self.next()[1][1:-1]
            text = re.sub(r"\\(.)", lambda m: {"n": "\n", "t": "\t", "r": "\r"}.get(m[1], m[1]), text)
            values = []
            while self.got(","):
                values.append(self.expr())
            self.take(")")
            self.take(";")
            return ("print", text, values)
        if w == "assert":
            s = self.start()
            self.next()
            self.take("(")
            e = self.expr()
            self.take(")")
            t = self.end()
            self.take(";")
            return ("assert", e, s, t)
        it = self.decl() if w in TYPE_WORDS else self.simple()
        self.take(";")
        return it

    def decl(self):
        elem, rate = self.type()
        items = []
        while True:
            name = self.next()[1]
            if self.got("="):
                items.append((name, "init", self.expr()))
            elif self.got("["):
                size = self.next()[1]
                self.take("]")
                items.append((name, "array", size))
            else:
                items.append((name, "none", None))
            if not self.got(","):
                return ("decl", elem, rate or "varying", items)

    def simple(self):
        s = self.start()
        if self.peek() in ("++", "--"):
            op = self.next()[1][0]
            place = self.unary()
            return ("assign", op, place, None, s, self.end())
        e = self.expr()
        w = self.peek()
        if w in ("++", "--"):
            self.next()
            return ("assign", w[0], e, None, s, self.end())
        if w and w.endswith("=") and w not in ("==", "!=", "<=", ">="):
            self.next()
            right = self.expr()
            return ("assign", w[:-1], e, right, s, self.end())
        return ("expr", e)

    LEVELS = [["||"], ["&&"], ["|"], ["^"], ["&"], ["==", "!="], ["<", "<=", ">", ">="], ["<<", ">>"], ["+", "-"], ["*", "/", "%"]]

    def expr(self):
        c = self.binary(0)
        if self.got("?"):
            a = self.expr()
            self.take(":")
            return ("tern", c, a, self.expr())
        return c

    def binary(self, level):
        if level == len(self.LEVELS):
            return self.unary()
        s = self.start()
        left = self.binary(level + 1)
        while self.peek() in self.LEVELS[level]:
            op = self.next()[1]
            right = self.binary(level + 1)
            left = ("bin", op, left, right, s, self.end())
        return left

    def unary(self):
        w = self.peek()
        if w in ("-", "~", "!"):
            self.next()
            return ("un", w, self.unary())
        if w == "(" and self.peek(1) in TYPE_WORDS:
            self.next()
            t = self.type()
            self.take(")")
            return ("cast", t, self.unary())
        s = self.start()
        kind, text, _, _ = self.next()
        if kind == "num":
            return ("num", *literal(text))
        if text == "(":
            e = self.expr()
            self.take(")")
            return ("paren", e)
        if text in ("true", "false"):
            return ("num", "bool", int(text == "true"))
        if text == "programIndex":
            return ("pi",)
        if text == "programCount":
            return ("pc",)
        assert kind == "word", (kind, text)
        if self.got("["):
            e = self.expr()
            self.take("]")
            return ("index", text, e, s, self.end())
        if self.got("("):
            args = []
            while self.peek() != ")":
                if self.got("&"):
                    name = self.next()[1]
                    e = None
                    if self.got("["):
                        e = self.expr()
                        self.take("]")
                    args.append(("addr", name, e))
                else:
                    args.append(self.expr())
                self.got(",")
            self.take(")")
            return ("call", text, args, s, self.end())
        return ("var", text)


class Frame:
    def __init__(self, depth, slots):
        self.depth, self.slots, self.result = depth, slots, None


class Machine:
    """A program for a gang of n. Each expression becomes (elem, rate, function of the set and the frame)."""

    def __init__(self, source, n):
        self.n, self.all = n, tuple(range(n))
        self.fs = Parser(source.encode().decode("latin1")).program()
        self.compiled = {}

    def tick(self, k=1):
        self.work += k
        self.ticks += 1
        if self.ticks > MOST:
            raise Long()

    # ---- expressions

    def to(self, e, elem, rate=None):
        """e converted to a type, and spread where it is to be varying."""
        t, r, f = e
        if rate == "varying" and r == "uniform":
            def g(a, fr):
                z = wrap(elem, f(a, fr))
                return {p: z for p in a}
            return elem, "varying", g
        if r == "uniform":
            return elem, r, lambda a, fr: wrap(elem, f(a, fr))
        return elem, r, lambda a, fr: {p: wrap(elem, z) for p, z in f(a, fr).items()}

    def expr(self, e, sc):
        t, r, f = getattr(self, "e_" + e[0])(sc, *e[1:])
        def g(a, fr):
            assert a
            self.tick()
            return f(a, fr)
        return t, r, g

    def e_num(self, sc, t, v):
        return t, "uniform", lambda a, fr: v

    def e_pi(self, sc):
        return "int32", "varying", lambda a, fr: {p: p for p in a}

    def e_pc(self, sc):
        return "int32", "uniform", lambda a, fr: self.n

    def e_paren(self, sc, e):
        return self.expr(e, sc)

    def e_cast(self, sc, ty, e):
        return self.to(self.expr(e, sc), ty[0], ty[1])

    def e_var(self, sc, name):
        slot, t, r, array = self.find(sc, name)
        assert not array, name
        if r == "uniform":
            return t, r, lambda a, fr: fr.slots[slot]
        return t, r, lambda a, fr: {p: fr.slots[slot][p] for p in a}

    def e_un(self, sc, op, e):
        e = self.expr(e, sc)
        t = "bool" if op == "!" else operand(e[0])
        _, r, f = self.to(e, t)
        g = {"-": lambda z: wrap(t, -z), "~": lambda z: wrap(t, ~z), "!": lambda z: 1 - z}[op]
        if r == "uniform":
            return t, r, lambda a, fr: g(f(a, fr))
        return t, r, lambda a, fr: {p: g(z) for p, z in f(a, fr).items()}

    def e_bin(self, sc, op, x, y, s, end):
        x, y = self.expr(x, sc), self.expr(y, sc)
        if op in ("&&", "||"):
            return self.logic(op, x, y)
        return self.binary(op, x, y, s, end)

    def logic(self, op, x, y):
        (_, rx, f), (_, ry, g) = self.to(x, "bool"), self.to(y, "bool")
        goes_on = int(op == "&&")
        rate = "varying" if "varying" in (rx, ry) else "uniform"
        def run(a, fr):
            left = f(a, fr)
            if rx == "uniform":
                if left == goes_on:
                    return g(a, fr)
                return left if rate == "uniform" else {p: left for p in a}
            need = tuple(p for p in a if left[p] == goes_on)
            values = dict(left)
            if need:
                right = g(need, fr)
                values.update(right if ry == "varying" else {p: right for p in need})
            return values
        return "bool", rate, run

    def operate(self, op, t, x, y, bad):
        w = WIDTH[t]
        if op in ("/", "%"):
            if y == 0:
                return bad()
            q = abs(x) // abs(y) * (1 if (x < 0) == (y < 0) else -1)
            return wrap(t, q if op == "/" else x - y * q)
        return wrap(t, PLAIN[op](x, y % w if op in ("<<", ">>") else y))

    def binary(self, op, x, y, s, end):
        t = common(x[0], y[0])
        (_, rx, f), (_, ry, g) = self.to(x, t), self.to(y, t)
        compare = COMPARE.get(op)
        def one(u, v, p):
            if compare:
                return int(compare(u, v))
            def bad():
                raise Trap("divide", s, end, p)
            return self.operate(op, t, u, v, bad)
        result = "bool" if compare else t
        if (rx, ry) == ("uniform", "uniform"):
            return result, "uniform", lambda a, fr: (lambda u, v: one(u, v, a[0]))(f(a, fr), g(a, fr))
        def run(a, fr):
            u, v = f(a, fr), g(a, fr)
            return {p: one(u if rx == "uniform" else u[p], v if ry == "uniform" else v[p], p) for p in a}
        return result, "varying", run

    def e_tern(self, sc, c, x, y):
        c, x, y = self.expr(c, sc), self.expr(x, sc), self.expr(y, sc)
        t = "bool" if x[0] == y[0] == "bool" else common(x[0], y[0])
        _, rc, h = self.to(c, "bool")
        rate = "varying" if "varying" in (rc, x[1], y[1]) else "uniform"
        (_, _, f), (_, _, g) = self.to(x, t, rate), self.to(y, t, rate)
        def run(a, fr):
            test = h(a, fr)
            if rc == "uniform":
                return (f if test else g)(a, fr)
            yes, no = tuple(p for p in a if test[p]), tuple(p for p in a if not test[p])
            values = f(yes, fr) if yes else {}
            return {**values, **(g(no, fr) if no else {})}
        return t, rate, run

    def e_index(self, sc, name, e, s, end):
        get, put, t, r = self.access(sc, name, e, s, end)
        def run(a, fr):
            return get(a, fr, put(a, fr))
        return t, r, run

    def access(self, sc, name, e, s, end):
        """Of a[e]: read with an index, evaluate the index, element, rate."""
        slot, t, r, array = self.find(sc, name)
        assert array
        _, ri, f = self.expr(e, sc)
        rate = "uniform" if (r, ri) == ("uniform", "uniform") else "varying"
        def get(a, fr, i):
            self.check(a, fr, slot, r, ri, i, s, end)
            if rate == "uniform":
                return fr.slots[slot][i]
            return {p: (fr.slots[slot] if r == "uniform" else fr.slots[slot][p])[i if ri == "uniform" else i[p]] for p in a}
        return get, f, t, rate

    def check(self, a, fr, slot, r, ri, i, s, end):
        for p in a:
            size = len(fr.slots[slot] if r == "uniform" else fr.slots[slot][p])
            if not 0 <= (i if ri == "uniform" else i[p]) < size:
                raise Trap("index", s, end, p)

    # ---- calls

    def e_call(self, sc, name, args, s, end):
        if name in self.fs:
            return self.called(sc, self.fs[name], args, s, end)
        return getattr(self, "l_" + name, lambda *x: self.across(name, *x))(sc, args, s, end)

    def called(self, sc, fn, args, s, end):
        given = []
        for arg, (n, t, r, array) in zip(args, fn["params"]):
            if array:
                slot = self.find(sc, arg[1])[0]
                given.append(("array", slot))
            else:
                given.append((r, self.to(self.expr(arg, sc), t, r)[2]))
        def run(a, fr):
            values = []
            for kind, f in given:
                if kind == "array":
                    self.tick()
                    values.append(fr.slots[f])
                else:
                    values.append(f(a, fr))
            if fr.depth == 256:
                raise Trap("depth", s, end, a[0])
            return self.run_function(fn, values, a, fr.depth + 1)
        return (fn["elem"] if fn["elem"] != "void" else "void"), fn["rate"], run

    def run_function(self, fn, values, a, depth):
        if fn["name"] not in self.compiled:
            self.compiled[fn["name"]] = self.compile(fn)
        slots, body = self.compiled[fn["name"]]
        fr = Frame(depth, [self.zero(k) for k in slots])
        for (n, t, r, array), i, v in zip(fn["params"], range(len(values)), values):
            if array or r == "uniform":
                fr.slots[i] = v
            else:
                fr.slots[i].update(v)
        if fn["elem"] != "void":
            fr.result = 0 if fn["rate"] == "uniform" else {p: 0 for p in self.all}
        body(a, fr)
        if fn["elem"] == "void":
            return None
        return fr.result if fn["rate"] == "uniform" else {p: fr.result[p] for p in a}

    def zero(self, k):
        t, r, size = k
        if size is None:
            return 0 if r == "uniform" else {p: 0 for p in self.all}
        if size == "param":
            return None
        return [0] * size if r == "uniform" else {p: [0] * size for p in self.all}

    def read(self, x, a, fr):
        """A value with 0 for who is not active."""
        v = x[2](a, fr)
        return [v.get(p, 0) for p in self.all]

    def across(self, name, sc, args, s, end):
        n = self.n
        args = [self.expr(x, sc) for x in args]
        if name in ("any", "all", "none"):
            x = self.to(args[0], "bool", "varying")
            g = {"any": any, "all": all, "none": lambda v: not any(v)}[name]
            return "bool", "uniform", lambda a, fr: int(g(list(x[2](a, fr).values())))
        t = operand(args[0][0])
        if name == "shuffle" and len(args) == 3:
            t = common(args[0][0], args[1][0])
        x = self.to(args[0], t, "varying")
        if name.startswith("reduce"):
            wide = t if WIDTH[t] == 64 else re.sub(r"\d+", str(2 * WIDTH[t]), t)
            kind, g = {
                "reduce_add": (wide, lambda v: wrap(wide, sum(v))),
                "reduce_min": (t, min),
                "reduce_max": (t, max),
                "reduce_equal": ("bool", lambda v: int(len(set(v)) == 1)),
            }[name]
            return kind, "uniform", lambda a, fr: g(list(x[2](a, fr).values()))
        if name.startswith("exclusive_scan"):
            g, start = PLAIN[{"add": "+", "and": "&", "or": "|"}[name[15:]]], wrap(t, -1) if name.endswith("and") else 0
            def scan(a, fr):
                v, now, values = x[2](a, fr), start, {}
                for p in a:
                    values[p] = now
                    now = wrap(t, g(now, v[p]))
                return values
            return t, "varying", scan
        if name == "shuffle" and len(args) == 3:
            y, k = self.to(args[1], t, "varying"), self.to(args[2], "int32", "varying")
            def two(a, fr):
                u, v, w = self.read(x, a, fr), self.read(y, a, fr), k[2](a, fr)
                return {p: (u + v)[w[p] % (2 * n)] for p in a}
            return t, "varying", two
        if name == "shuffle":
            k = self.to(args[1], "int32", "varying")
            def shuffle(a, fr):
                u, w = self.read(x, a, fr), k[2](a, fr)
                return {p: u[w[p] % n] for p in a}
            return t, "varying", shuffle
        k = self.to(args[1], "int32")
        assert k[1] == "uniform"
        if name == "extract":
            return t, "uniform", lambda a, fr: (lambda u, i: u[i % n])(self.read(x, a, fr), k[2](a, fr))
        if name == "insert":
            v = self.to(args[2], t)
            def insert(a, fr):
                u, i, z = self.read(x, a, fr), k[2](a, fr), v[2](a, fr)
                u[i % n] = z
                return {p: u[p] for p in a}
            return t, "varying", insert
        g = {"broadcast": lambda u, i, p: u[i % n], "rotate": lambda u, i, p: u[(p + i) % n],
             "shift": lambda u, i, p: u[p + i] if 0 <= p + i < n else 0}[name]
        def move(a, fr):
            u, i = self.read(x, a, fr), k[2](a, fr)
            return {p: g(u, i, p) for p in a}
        return t, "varying", move

    def lanewise(self, args, types, t, g):
        rate = "varying" if any(x[1] == "varying" for x in args) else "uniform"
        fs = [self.to(x, k, rate)[2] for x, k in zip(args, types)]
        if rate == "uniform":
            return t, rate, lambda a, fr: g(*[f(a, fr) for f in fs])
        def run(a, fr):
            vs = [f(a, fr) for f in fs]
            return {p: g(*[v[p] for v in vs]) for p in a}
        return t, rate, run

    def l_min(self, sc, args, s, end, g=min):
        args = [self.expr(x, sc) for x in args]
        t = common(args[0][0], args[1][0])
        return self.lanewise(args, [t, t], t, g)

    def l_max(self, sc, args, s, end):
        return self.l_min(sc, args, s, end, max)

    def l_clamp(self, sc, args, s, end):
        args = [self.expr(x, sc) for x in args]
        t = common(common(args[0][0], args[1][0]), args[2][0])
        return self.lanewise(args, [t] * 3, t, lambda v, lo, hi: min(max(v, lo), hi))

    def l_abs(self, sc, args, s, end):
        args = [self.expr(args[0], sc)]
        t = operand(args[0][0])
        return self.lanewise(args, [t], t, lambda v: wrap(t, abs(v)))

    def l_select(self, sc, args, s, end):
        args = [self.expr(x, sc) for x in args]
        t = "bool" if args[1][0] == args[2][0] == "bool" else common(args[1][0], args[2][0])
        return self.lanewise(args, ["bool", t, t], t, lambda c, x, y: x if c else y)

    def base(self, sc, arg):
        """The slot of the array, and the index of its first element."""
        if arg[0] == "addr" and arg[2] is not None:
            f = self.expr(arg[2], sc)[2]
            def index(a, fr):
                self.tick()
                return f(a, fr)
            return self.find(sc, arg[1]), index
        def zero(a, fr):
            self.tick()
            return 0
        return self.find(sc, arg[1]), zero

    def l_packed_store_active(self, sc, args, s, end):
        (slot, t, _, _), index = self.base(sc, args[0])
        x = self.to(self.expr(args[1], sc), t, "varying")
        def run(a, fr):
            i, v, cells = index(a, fr), x[2](a, fr), fr.slots[slot]
            for k, p in enumerate(a):
                if not 0 <= i + k < len(cells):
                    raise Trap("index", s, end, p)
            for k, p in enumerate(a):
                cells[i + k] = v[p]
            return len(a)
        return "int32", "uniform", run

    def l_packed_load_active(self, sc, args, s, end):
        (slot, t, _, _), index = self.base(sc, args[0])
        target = self.find(sc, args[1][1])[0]
        def run(a, fr):
            i, cells = index(a, fr), fr.slots[slot]
            self.tick()
            for k, p in enumerate(a):
                if not 0 <= i + k < len(cells):
                    raise Trap("index", s, end, p)
            for k, p in enumerate(a):
                fr.slots[target][p] = cells[i + k]
            return len(a)
        return "int32", "uniform", run

    # ---- statements: over a set a they give (went, broke, continued, returned)

    def find(self, sc, name):
        for names in reversed(sc["names"]):
            if name in names:
                return names[name]
        raise KeyError(name)

    def new(self, sc, name, elem, rate, size):
        slot = len(sc["slots"])
        sc["slots"].append((elem, rate, size))
        sc["names"][-1][name] = (slot, elem, rate, size is not None)
        return slot

    def compile(self, fn):
        sc = dict(names=[{}], slots=[], fn=fn)
        for n, t, r, array in fn["params"]:
            self.new(sc, n, t, r, "param" if array else None)
        body = self.seq(fn["body"][1], sc)
        def run(a, fr):
            self.tick()
            return body(a, fr)
        return sc["slots"], run

    def scoped(self, sc, make):
        sc["names"].append({})
        made = make()
        sc["names"].pop()
        return made

    def stmt(self, it, sc):
        f = getattr(self, "s_" + it[0])(sc, *it[1:])
        def run(a, fr):
            self.tick()
            return f(a, fr)
        return run

    def body(self, it, sc):
        return self.scoped(sc, lambda: self.stmt(it, sc))

    def seq(self, items, sc):
        fs = [self.stmt(it, sc) for it in items]
        def run(a, fr):
            went, b, c, r = a, (), (), ()
            for f in fs:
                if not went:
                    break
                went, b2, c2, r2 = f(went, fr)
                b, c, r = b + b2, c + c2, r + r2
            return went, b, c, r
        return run

    def s_block(self, sc, items):
        return self.scoped(sc, lambda: self.seq(items, sc))

    def s_empty(self, sc):
        return lambda a, fr: (a, (), (), ())

    def s_expr(self, sc, e):
        f = self.expr(e, sc)[2]
        def run(a, fr):
            f(a, fr)
            return a, (), (), ()
        return run

    def s_decl(self, sc, elem, rate, items):
        fs = [self.item(sc, elem, rate, *it) for it in items]
        def run(a, fr):
            for f in fs:
                self.tick()
                f(a, fr)
            return a, (), (), ()
        return run

    def item(self, sc, elem, rate, name, kind, what):
        if kind == "array":
            size = self.n if what == "programCount" else literal(what)[1]
            slot = self.new(sc, name, elem, rate, size)
            def clear(a, fr):
                if rate == "uniform":
                    fr.slots[slot] = [0] * size
                else:
                    for p in a:
                        fr.slots[slot][p] = [0] * size
            return clear
        f = self.to(self.expr(what, sc), elem, rate)[2] if kind == "init" else None
        slot = self.new(sc, name, elem, rate, None)
        def run(a, fr):
            if rate == "uniform":
                fr.slots[slot] = f(a, fr) if f else 0
            else:
                fr.slots[slot].update(f(a, fr) if f else {p: 0 for p in a})
        return run

    def s_assign(self, sc, op, place, right, s, end):
        y = self.expr(right, sc) if right is not None else ("int32", "uniform", lambda a, fr: 1)
        if place[0] == "var":
            slot, t, r, array = self.find(sc, place[1])
            assert not array
            index = lambda a, fr: self.tick()
            def get(a, fr, i):
                return fr.slots[slot] if r == "uniform" else {p: fr.slots[slot][p] for p in a}
            def put(a, fr, i, v):
                if r == "uniform":
                    fr.slots[slot] = v
                else:
                    fr.slots[slot].update(v)
        else:
            _, name, e, s1, e1 = place
            get, f, t, r = self.access(sc, name, e, s1, e1)
            slot, _, ra, _ = self.find(sc, name)
            ri = self.expr(e, sc)[1]
            def index(a, fr):
                self.tick()
                return f(a, fr)
            def put(a, fr, i, v):
                self.check(a, fr, slot, ra, ri, i, s1, e1)
                if r == "uniform":
                    fr.slots[slot][i] = v
                else:
                    for p in a:
                        (fr.slots[slot] if ra == "uniform" else fr.slots[slot][p])[i if ri == "uniform" else i[p]] = v[p]
        held = {}
        if op:
            x = (t, r, lambda a, fr: get(a, fr, held["i"]))
            late = (y[0], y[1], lambda a, fr: held["y"])
            value = self.to(self.binary(op, x, late, s, end), t, r)[2]
        else:
            value = self.to((y[0], y[1], lambda a, fr: held["y"]), t, r)[2]
        def run(a, fr):
            i = index(a, fr)
            v = y[2](a, fr)
            held["i"], held["y"] = i, v
            put(a, fr, i, value(a, fr))
            return a, (), (), ()
        return run

    def s_if(self, sc, test, yes, no):
        _, r, f = self.to(self.expr(test, sc), "bool")
        yes = self.body(yes, sc)
        no = self.body(no, sc) if no else None
        def run(a, fr):
            t = f(a, fr)
            on = tuple(p for p in a if (t if r == "uniform" else t[p]))
            off = tuple(p for p in a if p not in on)
            sets = [yes(on, fr)] if on else []
            if off:
                sets.append(no(off, fr) if no else (off, (), (), ()))
            return tuple(tuple(sorted(sum((x[k] for x in sets), ()))) for k in range(4))
        return run

    def s_for(self, sc, first, test, step, body):
        def make():
            begin = self.stmt(first, sc) if first else None
            t = self.expr(test, sc) if test else None
            loop = self.loop(sc, t, step, body, True)
            def run(a, fr):
                if begin:
                    begin(a, fr)
                return loop(a, fr)
            return run
        return self.scoped(sc, make)

    def s_loop(self, sc, _first, test, _step, body, tests):
        return self.loop(sc, self.expr(test, sc), None, body, tests)

    def loop(self, sc, test, step, body, tests_first):
        t = self.to(test, "bool") if test else None
        body = self.body(body, sc)
        step = self.stmt(step, sc) if step else None
        def run(a, fr):
            live, returned, left, tests = a, (), self.turns, tests_first
            while True:
                if tests and t:
                    v = t[2](live, fr)
                    live = tuple(p for p in live if (v if t[1] == "uniform" else v[p]))
                if not live:
                    break
                if left == 0:
                    raise Cut()
                left -= 1
                self.tick()
                went, b, c, r = body(live, fr)
                returned += r
                live = tuple(sorted(went + c))
                if not live:
                    break
                if step:
                    step(live, fr)
                tests = True
            return tuple(p for p in a if p not in returned), (), (), tuple(sorted(returned))
        return run

    def s_foreach(self, sc, ranges, body):
        bounds = [(self.to(self.expr(x, sc), "int32"), self.to(self.expr(y, sc), "int32")) for _, x, y in ranges]
        def make():
            slots = [self.new(sc, name, "int32", "varying", None) for name, _, _ in ranges]
            return slots, self.body(body, sc)
        slots, inner = self.scoped(sc, make)
        n = self.n
        def run(a, fr):
            ends = []
            for x, y in bounds:
                ends.append((x[2](a, fr), y[2](a, fr)))
            lengths = [max(0, y - x) for x, y in ends]
            lengths[-1] = -(-lengths[-1] // n)
            product = 1
            for k in lengths:
                product *= k
                self.tick(product)
            def go(tuple_):
                d = len(tuple_)
                x, y = ends[d]
                if d + 1 < len(ends):
                    for i in range(x, y):
                        go(tuple_ + [i])
                    return
                for begin in range(x, y, n):
                    on = tuple(p for p in self.all if begin + p < y)
                    for slot, i in zip(slots, tuple_):
                        fr.slots[slot].update({p: i for p in on})
                    fr.slots[slots[-1]].update({p: begin + p for p in on})
                    inner(on, fr)
            go([])
            return a, (), (), ()
        return run

    def s_active(self, sc, name, body):
        def make():
            return self.new(sc, name, "int64", "uniform", None), self.body(body, sc)
        slot, inner = self.scoped(sc, make)
        def run(a, fr):
            for p in a:
                self.tick()
                fr.slots[slot] = p
                inner((p,), fr)
            return a, (), (), ()
        return run

    def s_unique(self, sc, name, e, body):
        e = self.expr(e, sc)
        x = self.to(e, e[0], "varying")
        def make():
            return self.new(sc, name, e[0], "uniform", None), self.body(body, sc)
        slot, inner = self.scoped(sc, make)
        def run(a, fr):
            v = x[2](a, fr)
            for z in dict.fromkeys(v[p] for p in a):
                self.tick()
                fr.slots[slot] = z
                inner(tuple(p for p in a if v[p] == z), fr)
            return a, (), (), ()
        return run

    def s_unmasked(self, sc, block):
        f = self.stmt(block, sc)
        def run(a, fr):
            f(self.all, fr)
            return a, (), (), ()
        return run

    def s_break(self, sc):
        return lambda a, fr: ((), a, (), ())

    def s_continue(self, sc):
        return lambda a, fr: ((), (), a, ())

    def s_return(self, sc, e):
        fn = sc["fn"]
        f = self.to(self.expr(e, sc), fn["elem"], fn["rate"])[2] if e else None
        def run(a, fr):
            if f:
                v = f(a, fr)
                if fn["rate"] == "uniform":
                    fr.result = v
                else:
                    fr.result.update(v)
            return (), (), (), a
        return run

    def s_print(self, sc, text, values):
        fs = [self.expr(e, sc) for e in values]
        parts = text.split("%")
        def run(a, fr):
            shown = []
            for t, r, f in fs:
                v = f(a, fr)
                one = lambda z: str(z) if t != "bool" else ("true" if z else "false")
                shown.append(one(v) if r == "uniform" else "[" + ",".join(one(v[p]) if p in v else "_" for p in self.all) + "]")
            self.out.append("".join(x for pair in zip(parts, shown + [""]) for x in pair))
            return a, (), (), ()
        return run

    def s_assert(self, sc, e, s, end):
        _, r, f = self.to(self.expr(e, sc), "bool")
        def run(a, fr):
            v = f(a, fr)
            for p in a:
                if not (v if r == "uniform" else v[p]):
                    raise Trap("assert", s, end, p)
            return a, (), (), ()
        return run

    # ---- runs

    def answer(self, fn, values, result):
        def text(t, z):
            return ("true" if z else "false") if t == "bool" else str(z)
        arrays = sorted((n, t, v) for (n, t, r, array), v in zip(fn["params"], values) if array)
        inner = ",".join(f'"{n}":[' + ",".join(text(t, z) for z in v) + "]" for n, t, v in arrays)
        shown = "null" if result is None else text(fn["elem"], result)
        return '{"arrays":{' + inner + '},"result":' + shown + "}"

    def run(self, entry, arguments, turns):
        """(kind, what, output, work): Ends with the answer, Traps with the trap and the arrays, or Cut."""
        fn = self.fs[entry]
        given = json.loads(arguments)
        values = []
        for n, t, r, array in fn["params"]:
            values.append([int(z) for z in given[n]] if array else int(given[n]))
        self.out, self.work, self.ticks, self.turns = [], 0, 0, turns
        try:
            result = self.run_function(fn, values, self.all, 1)
            end = ("Ends", self.answer(fn, values, result))
        except Trap as trap:
            end = ("Traps", (trap.kind, trap.start, trap.end, trap.instance, self.answer(fn, values, None)))
        except Cut:
            end = ("Cut", None)
        return (*end, "".join(self.out).encode("latin1").decode(), self.work)
