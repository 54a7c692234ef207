"""From a source to its typed tree, as a term of isp_typed: a small front in plain Python, for programs that are accepted.

It was written beside docs/LANGUAGE.md and isp's own definitions of what is well typed, so it is no independent front. tools/sample_theorems.py makes
theorems with it, and compares its trees with those of an independent implementation, which printed 108 of them.
"""
import re

ORDER = ["I8", "U8", "I16", "U16", "I32", "U32", "I64", "U64"]
BASES = {"bool": "Truth", "int": "I32", "uint": "U32", **{f"int{n}": f"I{n}" for n in (8, 16, 32, 64)}, **{f"uint{n}": f"U{n}" for n in (8, 16, 32, 64)}}
TYPE_WORDS = {"void", "signed", "unsigned", "const", "uniform", "varying", *BASES}
TOKEN = re.compile(
    r"(?P<blank>[ \t\r\n]+|//[^\n]*|/\*.*?\*/)|(?P<word>[A-Za-z_]\w*)|(?P<number>[0-9]\w*)|(?P<text>\"(?:[^\"\\]|\\.)*\")"
    r"|(?P<sign>\.\.\.|<<=|>>=|==|!=|<=|>=|<<|>>|\+\+|--|[-+*/%&|^]=|&&|\|\||[(){}\[\];,?:=<>+\-*/%&|^~!])",
    re.S,
)
LEVELS = [["||"], ["&&"], ["|"], ["^"], ["&"], ["==", "!="], ["<", "<=", ">", ">="], ["<<", ">>"], ["+", "-"], ["*", "/", "%"]]
COMPUTES = {"+": "Add", "-": "Sub", "*": "Mul", "/": "Div", "%": "Rem", "&": "And", "|": "Or", "^": "Xor", "<<": "Shl", ">>": "Shr"}
COMPARES = {"==": "Equal", "!=": "NotEqual", "<": "Less", "<=": "LessOrEqual", ">": "Greater", ">=": "GreaterOrEqual"}
DECIDES = {"&&": "And", "||": "Or"}
# Each call of the library on values: what its arguments are. o takes part in the type T in which it works, s becomes T, n and i an int32, t a bool.
LIBRARY = {
    "reduce_add": ("ReduceAdd", "o"), "reduce_min": ("ReduceMin", "o"), "reduce_max": ("ReduceMax", "o"), "reduce_equal": ("ReduceEqual", "o"),
    "any": ("Any", "t"), "all": ("All", "t"), "none": ("None", "t"), "exclusive_scan_add": ("ScanAdd", "o"), "exclusive_scan_and": ("ScanAnd", "o"),
    "exclusive_scan_or": ("ScanOr", "o"), "broadcast": ("Broadcast", "on"), "rotate": ("Rotate", "on"), "shift": ("Shift", "on"),
    "shuffle": ("Shuffle", "oi"), "shuffle_two": ("ShuffleTwo", "ooi"), "extract": ("Extract", "on"), "insert": ("Insert", "ons"),
    "min": ("Min", "oo"), "max": ("Max", "oo"), "clamp": ("Clamp", "ooo"), "abs": ("Abs", "o"), "select": ("Select", "too"),
}
UNIFORM, OF_ARGUMENTS = {"ReduceAdd", "ReduceMin", "ReduceMax", "ReduceEqual", "Any", "All", "None", "Extract"}, {"Min", "Max", "Clamp", "Abs", "Select"}


def operand(elem):
    return "I32" if elem == "Truth" else elem


def common(one, other):
    return max(operand(one), operand(other), key=ORDER.index)


def chosen(one, other):
    return "Truth" if one == other == "Truth" else common(one, other)


def widened(elem):
    return elem if elem[1:] == "64" else f"{elem[0]}{2 * int(elem[1:])}"


def either(*rates):
    return "Varying" if "Varying" in rates else "Uniform"


def literal(text):
    """Returns the type and the value of a number: the first type of those that its suffix names in which it fits."""
    m = re.fullmatch(r"(?i)(0x[0-9a-f]+|0b[01]+|[0-9]+)(ul|lu|ull|llu|u|ll|l)?", text)
    digits, suffix = m[1].lower(), (m[2] or "").lower()
    value = int(digits, 0)
    plain = ["I32", "I64", "U64"] if len(digits) == 1 or digits[0] != "0" else ["I32", "U32", "I64", "U64"]
    fits = {"": plain, "u": ["U32", "U64"], "l": ["I64"], "ll": ["I64"]}.get(suffix, ["U64"])
    return next((t, value) for t in fits if value < 1 << (int(t[1:]) - (t[0] == "I")))


def span(start, end):
    return f"(s {start} {end})"


def ty(rate, elem):
    return f"({'u' if rate == 'Uniform' else 'v'} {elem})"


def listed(terms):
    return "(" + " ∷ ".join([*terms, "[]"]) + ")"


def some(term):
    return "None" if term is None else f"(Some {term})"


class Expr:
    """A typed expression: its term, its type and its place. A target is a place that an expression reads."""

    def __init__(self, term, rate, elem, start, end, target=None):
        self.term, self.rate, self.elem, self.start, self.end, self.target = term, rate, elem, start, end, target

    def to(self, elem):
        """The expression as one of an element type: a conversion where it has another."""
        return self if self.elem == elem else Expr(f"(t_convert {elem} {self.term})", self.rate, elem, self.start, self.end)

    def test(self):
        return self.to("Truth").term


class Variable:
    def __init__(self, number, rate, elem, constant, size=None):
        self.number, self.rate, self.elem, self.constant, self.size = number, rate, elem, constant, size

    def array(self):
        assert self.size is not None
        return f"(ar {self.number} {ty(self.rate, self.elem)} {str(self.constant).lower()})"

    def term(self):
        if self.size is None:
            holds = f"AVariable {ty(self.rate, self.elem)}"
        elif self.size == "given":
            holds = f"Given {self.elem}"
        else:
            holds = f"Local {ty(self.rate, self.elem)} {self.size}"
        return f"(vr ({holds}) {str(self.constant).lower()})"


class Front:
    """The functions of a source for a gang of n. Afterwards `kinds` has each kind of node that stands in them."""

    def __init__(self, source, gang):
        self.gang, self.kinds, self.at, self.tokens, place = gang, [], 0, [], 0
        data = source.encode().decode("latin1")
        while place < len(data):
            m = TOKEN.match(data, place)
            assert m, data[place : place + 20]
            place = m.end()
            if m.lastgroup != "blank":
                self.tokens.append((m.lastgroup, m[0], m.start(), m.end()))
        self.tokens.append(("end", "", place, place))
        self.headings = self.read_headings()
        self.at, self.terms, self.answer, self.scopes, self.variables = 0, [], None, [], []
        while self.tokens[self.at][0] != "end":
            self.terms.append(self.function())

    # ---- tokens

    def peek(self, k=0):
        kind, text, _, _ = self.tokens[min(self.at + k, len(self.tokens) - 1)]
        return None if kind == "text" else text

    def next(self):
        self.at += 1
        return self.tokens[self.at - 1]

    def take(self, sign):
        token = self.next()
        assert token[1] == sign, (token, sign)
        return token

    def got(self, sign):
        return self.next() if self.peek() == sign and self.tokens[self.at][0] != "end" else None

    def start(self):
        return self.tokens[self.at][2]

    def end(self):
        return self.tokens[self.at - 1][3]

    def node(self, kind):
        self.kinds.append(kind)

    # ---- types

    def type(self):
        """Returns the rate, where one is said, the element type, or None for `void`, and whether it is constant."""
        words, base = [], None
        while self.peek() in TYPE_WORDS and base is None:
            word = self.next()[1]
            base = word if word == "void" or word in BASES else None
            words += [] if base else [word]
        elem = None if base == "void" else BASES[base or "int"]
        if "unsigned" in words:
            elem = "U" + elem[1:]
        rate = "Uniform" if "uniform" in words else "Varying" if "varying" in words else None
        return rate, elem, "const" in words

    # ---- functions

    def heading(self):
        exported = False
        while self.peek() in ("export", "static", "inline"):
            exported |= self.next()[1] == "export"
        rate, elem, _ = self.type()
        name = self.next()[1]
        self.take("(")
        if self.peek() == "void" and self.peek(1) == ")":
            self.next()
        params = []
        while self.peek() != ")":
            r, e, constant = self.type()
            word = self.next()[1]
            is_array = bool(self.got("["))
            if is_array:
                self.take("]")
            params.append((word, Variable(len(params), r or "Varying", e, constant, "given" if is_array else None)))
            self.got(",")
        self.take(")")
        return name, elem and (rate or "Varying", elem), params, exported

    def read_headings(self):
        found = []
        while self.tokens[self.at][0] != "end":
            found.append(self.heading())
            depth = 0
            while True:
                text = self.next()[1]
                depth += (text == "{") - (text == "}")
                if depth == 0:
                    break
        return found

    def function(self):
        _, self.answer, params, _ = self.heading()
        self.scopes, self.variables = [{}], []
        for word, it in params:
            self.declare(word, it)
        body = self.block(scope=False)
        gives, answer = (f"(Some {self.answer[1]})", f"(Some {ty(*self.answer)})") if self.answer else ("None", "None")
        return f"(fn {gives} {answer} {listed(it.term() for it in self.variables)} {body})"

    def declare(self, word, it):
        self.variables.append(it)
        self.scopes[-1][word] = it

    def new(self, word, rate, elem, constant=False, size=None):
        it = Variable(len(self.variables), rate, elem, constant, size)
        self.declare(word, it)
        return it

    def find(self, word):
        return next(scope[word] for scope in reversed(self.scopes) if word in scope)

    # ---- expressions

    def expr(self):
        start, test = self.start(), self.binary(0)
        if not self.got("?"):
            return test
        one = self.expr()
        self.take(":")
        other = self.expr()
        self.node("choose")
        elem, rate = chosen(one.elem, other.elem), either(test.rate, one.rate, other.rate)
        term = f"(t_choose {test.test()} {one.to(elem).term} {other.to(elem).term} {ty(rate, elem)} {span(start, self.end())})"
        return Expr(term, rate, elem, start, self.end())

    def binary(self, level):
        if level == len(LEVELS):
            return self.unary()
        start, left = self.start(), self.binary(level + 1)
        while self.peek() in LEVELS[level]:
            sign = self.next()[1]
            left = self.joined(sign, left, self.binary(level + 1), start, self.end())
        return left

    def joined(self, sign, x, y, start, end):
        rate, elem = either(x.rate, y.rate), common(x.elem, y.elem)
        if sign in DECIDES:
            self.node(f"logic {sign}")
            return Expr(f"(t_logic logic.{DECIDES[sign]} {x.test()} {y.test()} {rate} {span(start, end)})", rate, "Truth", start, end)
        x, y = x.to(elem).term, y.to(elem).term
        if sign in COMPARES:
            self.node(f"compare {sign}")
            return Expr(f"(t_compare cmp.{COMPARES[sign]} {x} {y} {rate} {span(start, end)})", rate, "Truth", start, end)
        self.node(f"binary {sign}")
        return Expr(f"(t_binary op.{COMPUTES[sign]} {x} {y} {ty(rate, elem)} {span(start, end)})", rate, elem, start, end)

    def unary(self):
        start, sign = self.start(), self.peek()
        if sign in ("-", "~", "!"):
            self.next()
            x = self.unary()
            self.node(f"unary {sign}")
            elem = "Truth" if sign == "!" else operand(x.elem)
            name = {"-": "Negate", "~": "Invert", "!": "Not"}[sign]
            return Expr(f"(t_unary un.{name} {x.to(elem).term} {ty(x.rate, elem)} {span(start, self.end())})", x.rate, elem, start, self.end())
        if sign == "(" and self.peek(1) in TYPE_WORDS:
            self.next()
            rate, elem, _ = self.type()
            self.take(")")
            x = self.unary().to(elem)
            self.node("cast")
            rate = rate or x.rate
            return Expr(f"(t_cast {x.term} {ty(rate, elem)} {span(start, self.end())})", rate, elem, start, self.end())
        return self.primary()

    def primary(self):
        kind, text, start, end = self.next()
        if kind == "number":
            self.node("number")
            elem, value = literal(text)
            return Expr(f"(cn {elem} {value} {span(start, end)})", "Uniform", elem, start, end)
        if text == "(":
            x = self.expr()
            self.take(")")
            self.node("brackets")
            return Expr(f"(t_cast {x.term} {ty(x.rate, x.elem)} {span(start, self.end())})", x.rate, x.elem, start, self.end())
        if text in ("true", "false"):
            self.node("truth")
            return Expr(f"(cn Truth {int(text == 'true')} {span(start, end)})", "Uniform", "Truth", start, end)
        if text == "programIndex":
            self.node("programIndex")
            return Expr(f"(t_program_index {span(start, end)})", "Varying", "I32", start, end)
        if text == "programCount":
            self.node("programCount")
            return Expr(f"(cn I32 {self.gang} {span(start, end)})", "Uniform", "I32", start, end)
        assert kind == "word", (kind, text)
        if self.got("("):
            x = self.called(text, start)
            assert isinstance(x, Expr), "a call without a result"
            return x
        it = self.find(text)
        if self.got("["):
            index = self.expr()
            self.take("]")
            self.node("element" if it.size == "given" or it.rate == "Uniform" else "element of its own")
            rate = either(it.rate, index.rate)
            target = f"(t_element {it.array()} {index.term} {ty(rate, it.elem)} {span(start, self.end())})"
            return Expr(f"(t_place {target})", rate, it.elem, start, self.end(), target)
        assert it.size is None, text
        self.node(f"{it.rate.lower()} variable")
        target = f"(t_variable {it.number} {ty(it.rate, it.elem)} {span(start, end)})"
        return Expr(f"(t_place {target})", it.rate, it.elem, start, end, target)

    # ---- calls: the name and the bracket are read

    def called(self, name, start):
        if name.startswith("packed_"):
            return self.packed(name, start)
        for number, (word, answer, params, _) in enumerate(self.headings):
            if word == name:
                return self.own_call(number, answer, params, start)
        values = []
        while self.peek() != ")":
            values.append(self.expr())
            self.got(",")
        self.take(")")
        self.node("shuffle of two" if name == "shuffle" and len(values) == 3 else name)
        word, parts = LIBRARY["shuffle_two" if name == "shuffle" and len(values) == 3 else name]
        elem = "Truth" if word in ("Any", "All", "None") else None
        for part, x in zip(parts, values):
            if part == "o":
                elem = operand(x.elem) if elem is None and len(parts) - parts.count("n") == 1 else x.elem if elem is None else chosen(elem, x.elem)
        elem = operand(elem) if word not in ("Any", "All", "None", "Select") else elem
        rate = either(*(x.rate for x in values))
        terms = [x.to({"o": elem, "s": elem, "n": "I32", "i": "I32", "t": "Truth"}[part]).term for part, x in zip(parts, values)]
        gives = widened(elem) if word == "ReduceAdd" else "Truth" if word == "ReduceEqual" else elem
        rate = "Uniform" if word in UNIFORM else rate if word in OF_ARGUMENTS else "Varying"
        return Expr(f"(t_library lib.{word} {elem} (t_exprs {listed(terms)}) {ty(rate, gives)} {span(start, self.end())})", rate, gives, start, self.end())

    def own_call(self, number, answer, params, start):
        terms = []
        for word, param in params:
            if param.size is None:
                terms.append(f"(t_by_value {self.expr().to(param.elem).term})")
            else:
                _, name, s, e = self.next()
                terms.append(f"(t_by_name {self.find(name).array()} {span(s, e)})")
                self.node("array that is passed")
            self.got(",")
        self.take(")")
        self.node("call")
        call = f"(t_called {number} (t_arguments {listed(terms)}) {span(start, self.end())})"
        return Expr(f"(t_call {call} {ty(*answer)})", *answer, start, self.end()) if answer else call

    def base(self):
        self.got("&")
        _, name, s, e = self.next()
        it = self.find(name)
        if self.got("["):
            index = self.expr()
            self.take("]")
            return it, f"(t_from {it.array()} {index.term} {span(s, e)})"
        return it, f"(t_whole {it.array()} {span(s, e)})"

    def packed(self, name, start):
        array, base = self.base()
        self.take(",")
        if name == "packed_store_active":
            x = self.expr().to(array.elem)
            self.take(")")
            term = f"(t_packed_store {base} {x.term} {span(start, self.end())})"
        else:
            self.take("&")
            number = self.find(self.next()[1]).number
            self.take(")")
            term = f"(t_packed_load {base} {number} {span(start, self.end())})"
        self.node(name)
        return Expr(term, "Uniform", "I32", start, self.end())

    # ---- what stands before a semicolon

    def items(self):
        """Returns the items of a declaration."""
        rate, elem, constant = self.type()
        rate, terms = rate or "Varying", []
        while True:
            _, word, start, end = self.next()
            if self.got("="):
                x = self.expr().to(elem)
                self.node("item with a value")
                it = self.new(word, rate, elem, constant)
                terms.append(f"(t_with_value {it.number} {ty(rate, elem)} {x.term} {span(start, self.end())})")
            elif self.got("["):
                text = self.next()[1]
                self.take("]")
                self.node("array of its own" if rate == "Varying" else "array that all share")
                it = self.new(word, rate, elem, constant, self.gang if text == "programCount" else literal(text)[1])
                terms.append(f"(t_with_size {it.array()} {span(start, self.end())})")
            else:
                self.node("plain item")
                terms.append(f"(t_plain {self.new(word, rate, elem, constant).number} {ty(rate, elem)} {span(start, end)})")
            if not self.got(","):
                return listed(terms)

    def simple(self):
        start = self.start()
        if self.peek() in ("++", "--"):
            sign = self.next()[1][0]
            return self.step(sign, self.unary(), start)
        if self.tokens[self.at][0] == "word" and self.peek(1) == "(":
            name = self.peek()
            found = next((it for it in self.headings if it[0] == name), None)
            if found and found[1] is None:
                self.next(), self.next()
                self.node("call alone")
                return f"(t_run {self.called(name, start)})"
        x, sign = self.expr(), self.peek()
        if sign in ("++", "--"):
            self.next()
            return self.step(sign[0], x, start)
        if sign and sign.endswith("=") and sign not in COMPARES:
            self.next()
            return self.assigned(sign[:-1], x, self.expr(), start)
        self.node("value alone")
        return f"(t_value {x.term})"

    def step(self, sign, x, start):
        self.node("step")
        return f"(t_step op.{COMPUTES[sign]} {common(x.elem, 'I32')} {x.target} {span(start, self.end())})"

    def assigned(self, sign, x, y, start):
        self.node(f"assignment {sign}=" if sign else "assignment")
        if not sign:
            return f"(t_assign {x.target} {y.to(x.elem).term} {span(start, self.end())})"
        elem = common(x.elem, y.elem)
        return f"(t_update op.{COMPUTES[sign]} {elem} {x.target} {y.to(elem).term} {span(start, self.end())})"

    # ---- statements

    def block(self, scope=True):
        start = self.take("{")[2]
        if scope:
            self.scopes.append({})
        terms = []
        while not self.got("}"):
            terms.append(self.stmt())
        if scope:
            self.scopes.pop()
        return f"(t_braces (t_stmts {listed(terms)}) {span(start, self.end())})"

    def body(self):
        self.scopes.append({})
        term = self.stmt()
        self.scopes.pop()
        return term

    def test(self):
        self.take("(")
        x = self.expr()
        self.take(")")
        return x

    def form(self, word):
        if word[0] == "c":
            self.node(word)
        return "Coherent" if word[0] == "c" else "Plain"

    def stmt(self):
        start, word = self.start(), self.peek()
        if word == "{":
            self.node("block")
            return f"(t_block {self.block()})"
        if self.got(";"):
            return f"(t_block (t_braces (t_stmts ([])) {span(start, self.end())}))"
        named = getattr(self, "s_" + word.lstrip("c"), None) if word in ("cif", "cwhile", "cdo", "cfor") else getattr(self, "s_" + (word or ""), None)
        if named:
            return named(start, len(self.variables), word)
        if word in TYPE_WORDS:
            items = self.items()
            self.take(";")
            self.node("declaration")
            return f"(t_declare {items} {span(start, self.end())})"
        it = self.simple()
        self.take(";")
        return f"(t_simple {it} {span(start, self.end())})"

    def s_if(self, start, before, word):
        form = self.form(self.next()[1])
        test = self.test()
        one = self.body()
        self.node(f"{test.rate.lower()} if{' else' if self.peek() == 'else' else ''}")
        if self.got("else"):
            return f"(t_if_else {form} {before} {test.test()} {one} {self.body()} {span(start, self.end())})"
        return f"(t_if {form} {before} {test.test()} {one} {span(start, self.end())})"

    def s_while(self, start, before, word):
        form = self.form(self.next()[1])
        test = self.test()
        self.node(f"{test.rate.lower()} while")
        return f"(t_while {form} {before} {test.test()} {self.body()} {span(start, self.end())})"

    def s_do(self, start, before, word):
        form = self.form(self.next()[1])
        body = self.body()
        self.take("while")
        test = self.test()
        self.take(";")
        self.node(f"{test.rate.lower()} do")
        return f"(t_do {form} {before} {body} {test.test()} {span(start, self.end())})"

    def s_for(self, start, before, word):
        form = self.form(self.next()[1])
        self.take("(")
        self.scopes.append({})
        first = test = step = None
        if self.peek() in TYPE_WORDS:
            begun = self.start()
            items = self.items()
            first = f"(t_first_declare {items} {span(begun, self.end())})"
        elif self.peek() != ";":
            first = f"(t_first_simple {self.simple()})"
        self.take(";")
        inside = len(self.variables)
        if self.peek() != ";":
            test = self.expr()
        self.take(";")
        if self.peek() != ")":
            step = self.simple()
        self.take(")")
        body = self.body()
        self.scopes.pop()
        self.node("for" if test is None else f"{test.rate.lower()} for")
        return f"(t_for {form} {before} {some(first)} {some(test and test.test())} {some(step)} {inside} {body} {span(start, self.end())})"

    def s_foreach(self, start, before, word):
        _, _, k, e = self.next()
        self.take("(")
        names, terms = [], []
        while True:
            _, name, s, _ = self.next()
            self.take("=")
            one = self.expr().to("I32")
            self.take("...")
            other = self.expr().to("I32")
            terms.append(f"(rg {before + len(names)} {one.term} {other.term} {span(s, self.end())})")
            names.append(name)
            if not self.got(","):
                break
        self.take(")")
        self.scopes.append({})
        for name in names:
            self.new(name, "Varying", "I32", True)
        body = self.body()
        self.scopes.pop()
        self.node(word if len(names) == 1 else f"{word} of {len(names)}")
        return f"(t_foreach {span(k, e)} {before} {listed(terms)} {body} {span(start, self.end())})"

    s_foreach_tiled = s_foreach

    def s_foreach_active(self, start, before, word):
        _, _, k, e = self.next()
        self.take("(")
        self.scopes.append({})
        self.new(self.next()[1], "Uniform", "I64", True)
        self.take(")")
        body = self.body()
        self.scopes.pop()
        self.node(word)
        return f"(t_foreach_active {span(k, e)} {before} {before} {body} {span(start, self.end())})"

    def s_foreach_unique(self, start, before, word):
        _, _, k, e = self.next()
        self.take("(")
        name = self.next()[1]
        self.take("in")
        x = self.expr()
        self.take(")")
        self.scopes.append({})
        self.new(name, "Uniform", x.elem, True)
        body = self.body()
        self.scopes.pop()
        self.node(word)
        return f"(t_foreach_unique {span(k, e)} {before} {before} {x.elem} {x.to(operand(x.elem)).term} {body} {span(start, self.end())})"

    def s_unmasked(self, start, before, word):
        _, _, k, e = self.next()
        body = self.block()
        self.node(word)
        return f"(t_unmasked {span(k, e)} {body} {span(start, self.end())})"

    def s_break(self, start, before, word):
        _, _, k, e = self.next()
        self.take(";")
        self.node(word)
        return f"(t_jump {word.capitalize()} {span(k, e)} {span(start, self.end())})"

    s_continue = s_break

    def s_return(self, start, before, word):
        _, _, k, e = self.next()
        x = None if self.peek() == ";" else self.expr().to(self.answer[1])
        self.take(";")
        self.node("return" if x is None else "return of a value")
        return f"(t_return {span(k, e)} {some(x and x.term)} {span(start, self.end())})"

    def s_print(self, start, before, word):
        _, _, k, e = self.next()
        self.take("(")
        text = re.sub(r"\\(.)", lambda m: {"n": "\n", "t": "\t", "r": "\r"}.get(m[1], m[1]), self.next()[1][1:-1])
        terms = []
        while self.got(","):
            x = self.expr()
            self.node(f"{x.rate.lower()} value that is printed")
            terms.append(x.term)
        self.take(")")
        self.take(";")
        self.node(word)
        return f"(t_print {span(k, e)} {listed(str(ord(c)) for c in text)} {listed(terms)} {span(start, self.end())})"

    def s_assert(self, start, before, word):
        self.next()
        x = self.test()
        end = self.end()
        self.take(";")
        self.node(f"{x.rate.lower()} assert")
        return f"(t_assert {x.test()} {span(start, end)} {span(start, self.end())})"
