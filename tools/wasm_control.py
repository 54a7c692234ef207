"""Small functions of WebAssembly that turn on its control, as text for an engine and as terms of isp_wasm_meaning. tools/wasm_table.py asks and writes.

A function has two parameters and writes where it comes along: a byte for each point, from address 0 on; local 2 is the next address. Code is nested tuples,
named as the constructors of specs/Syntax.antt.
"""
import itertools

NAMES = "Skip Unreachable Then Set Load Store Divide If Block Loop Br BrTable Return Call GetGlobal SetGlobal Clear".split()
GIVEN, CHOICE, NEXT, SPARE = ("Local", 0), ("Local", 1), ("Local", 2), 3


def number(value):
    return ("Const32", value)


def add(left, right):
    return ("Add", left, right)


def less_one(local):
    return ("Set", local, ("Sub", ("Local", local), number(1)))


def point(mark):
    return ("Point", mark)


def row(*codes):
    """Returns codes one after the other."""
    return codes[0] if len(codes) == 1 else ("Then", codes[0], row(*codes[1:]))


# ---- functions


def around(word, mark, inner):
    """Returns a block, loop or if with points before and behind what is inside, and one behind it."""
    body = row(point(mark), inner, point(mark + 3))
    made = ("If", number(1), body, ("Skip",)) if word == "If" else (word, body)
    return row(made, point(mark + 6))


def nests():
    """Returns three blocks, loops and ifs in one another, with a branch inside to each label, that of the function too, by number and by table."""
    rows = []
    for words in itertools.product(("Block", "Loop", "If"), repeat=3):
        for way, branch in (*((f"br_{depth}", ("Br", depth)) for depth in range(5)), ("br_table", ("BrTable", (0, 3, 2, 1), 4, CHOICE))):
            inner = row(("If", GIVEN, row(less_one(0), branch), point(10)), point(11))
            for mark in (3, 2, 1):
                inner = around(words[mark - 1], mark, inner)
            name = "_".join([way, *words]).lower()
            cases = [(1, choice) for choice in (0, 1, 2, 3, 4, 2**32 - 1)] if way == "br_table" else [(times, 0) for times in (0, 1, 2)]
            rows.append((name, [(None, inner)], cases))
    return rows


def plain():
    """Returns the other functions: name, the functions of its module with what they return, and the arguments."""
    countdown = ("Loop", row(point(1), ("If", GIVEN, row(less_one(0), ("Br", 1)), ("Skip",)), point(2)))
    leaving = ("Block", ("Loop", row(("If", ("Eqz", GIVEN), ("Br", 2), ("Skip",)), point(1), less_one(0), ("Br", 0))))
    first = row(point(1), ("Set", SPARE, number(1)), ("Br", 2))
    second = row(point(2), less_one(0), ("If", GIVEN, ("Set", SPARE, number(0)), ("Set", SPARE, number(2))), ("Br", 1))
    rungs = ("Block", row(("Block", row(("Block", ("BrTable", (0, 1), 2, ("Local", SPARE))), first)), second))
    power = row(("If", GIVEN, ("Skip",), ("Return", number(1))), ("Call", 1, (("Sub", GIVEN, number(1)), CHOICE), SPARE),
                ("Return", ("Mul", CHOICE, ("Local", SPARE))), ("Unreachable",))
    some = [(0, 0), (1, 0), (2, 7), (2**32 - 1, 1)]
    few = [(0, 0), (1, 5), (3, 2)]
    return [
        ("if_else", [(None, row(("If", GIVEN, point(1), point(2)), point(3)))], some),
        ("if_of_its_own", [(None, row(("If", GIVEN, row(point(1), ("Br", 0), point(2)), row(("Br", 0), point(4))), point(3)))], some),
        ("loop_falls_out", [(None, row(countdown, point(3)))], few),
        ("loop_left", [(None, row(leaving, point(3)))], few),
        ("ladder", [(None, ("Block", ("Loop", row(rungs, point(3), ("Br", 1)))))], [(1, 0), (2, 0), (3, 0)]),
        ("return_none", [(None, row(("Loop", row(point(1), ("If", GIVEN, ("Return",), ("Skip",)), point(2))), point(3)))], some),
        ("return_value", [("i32", row(("Block", row(("If", GIVEN, ("Return", add(GIVEN, CHOICE)), ("Skip",)), point(1))), ("Return", number(9)), ("Unreachable",)))], some),
        ("unreachable", [(None, row(point(1), ("If", GIVEN, ("Unreachable",), point(2)), point(3)))], some),
        ("divide_by_zero", [(None, row(point(1), ("Divide", "DivU", SPARE, number(7), GIVEN), point(2)))], some),
        ("load_at_the_end", [("i32", row(point(1), ("Load", 4, SPARE, GIVEN, 0), point(2), ("Return", ("Local", SPARE)), ("Unreachable",)))],
         [(65532, 0), (65533, 0), (2**32 - 1, 0)]),
        ("offset_past_the_end", [(None, row(point(1), ("Load", 1, SPARE, GIVEN, 2**32 - 1), point(2)))], [(0, 0), (1, 0), (2**32 - 1, 0)]),
        ("store_at_the_end", [(None, row(point(1), ("Store", 8, GIVEN, 8, ("Const64", 5)), point(2)))], [(65520, 0), (65521, 0), (2**32 - 8, 0)]),
        ("clear", [(None, row(*(point(mark) for mark in (1, 2, 3, 4)), ("Clear", GIVEN, CHOICE), point(5)))],
         [(0, 0), (0, 1), (1, 2), (3, 65533), (3, 65534), (65535, 1), (65535, 2), (65536, 0), (65537, 0), (1, 2**32 - 1), (2**32 - 1, 0), (2**32 - 1, 1)]),
        ("call_result", [("i32", row(point(1), ("Call", 1, (CHOICE, add(GIVEN, number(1))), SPARE), point(2), ("Return", ("Local", SPARE)), ("Unreachable",))),
                         ("i32", row(("Set", 3, ("Sub", GIVEN, CHOICE)), ("Return", ("Local", 3)), ("Unreachable",)))], few),
        ("call_has_its_locals", [("i32", row(("Set", SPARE, number(4)), ("Call", 1, (GIVEN, CHOICE), None), ("Return", ("Local", SPARE)), ("Unreachable",))),
                                 (None, row(("Store", 1, NEXT, 0, add(("Local", SPARE), number(6))), ("Set", SPARE, number(8)), ("Br", 0), ("Unreachable",)))], few),
        ("globals_stay", [("i32", row(("SetGlobal", 1, GIVEN), ("Call", 1, (CHOICE, GIVEN), None), ("GetGlobal", SPARE, 2), ("Return", add(("Local", SPARE), CHOICE)),
                                      ("Unreachable",))),
                          (None, row(("GetGlobal", SPARE, 1), ("SetGlobal", 2, add(("Local", SPARE), GIVEN)), ("SetGlobal", 1, number(3)), ("Return",)))], few),
        ("call_traps", [(None, row(point(1), ("Call", 1, (GIVEN, CHOICE), None), point(2))),
                        (None, row(("Set", 2, number(1)), point(3), ("If", GIVEN, ("Unreachable",), ("Skip",))))], few),
        ("call_of_itself", [("i32", row(("Call", 1, (GIVEN, CHOICE), SPARE), ("Return", ("Local", SPARE)), ("Unreachable",))), ("i32", power)], few),
    ]


def table():
    return plain() + nests()


# ---- as text of a module


def expr_text(expr):
    word, *parts = expr
    if word == "Local":
        return f"(local.get {parts[0]})"
    if word in ("Const32", "Const64"):
        return f"(i{word[-2:]}.const {parts[0]})"
    inner = " ".join(expr_text(part) for part in parts)
    return f"(i32.{word.lower()} {inner})"


def code_text(code, first):
    """Returns code as text, where function 0 of the module of isp_wasm_meaning has this number."""
    word, *parts = code
    if word == "Skip":
        return ""
    if word == "Point":
        return f"(i32.store8 (local.get 2) (i32.const {parts[0]})) (local.set 2 (i32.add (local.get 2) (i32.const 1)))"
    if word == "Then":
        return " ".join(code_text(part, first) for part in parts)
    if word == "Set":
        return f"(local.set {parts[0]} {expr_text(parts[1])})"
    if word == "Load":
        return f"(local.set {parts[1]} ({'i32.load8_u' if parts[0] == 1 else 'i32.load'} offset={parts[3]} {expr_text(parts[2])}))"
    if word == "Store":
        return f"({'i32.store8' if parts[0] == 1 else 'i64.store'} offset={parts[2]} {expr_text(parts[1])} {expr_text(parts[3])})"
    if word == "Divide":
        return f"(local.set {parts[1]} (i32.div_u {expr_text(parts[2])} {expr_text(parts[3])}))"
    if word == "If":
        return f"(if {expr_text(parts[0])} (then {code_text(parts[1], first)}) (else {code_text(parts[2], first)}))"
    if word in ("Block", "Loop"):
        return f"({word.lower()} {code_text(parts[0], first)})"
    if word == "GetGlobal":
        return f"(local.set {parts[0]} (global.get {parts[1]}))"
    if word == "SetGlobal":
        return f"(global.set {parts[0]} {expr_text(parts[1])})"
    if word == "Clear":
        return f"(memory.fill {expr_text(parts[0])} (i32.const 0) {expr_text(parts[1])})"
    if word == "Br":
        return f"(br {parts[0]})"
    if word == "BrTable":
        return f"(br_table {' '.join(str(label) for label in parts[0])} {parts[1]} {expr_text(parts[2])})"
    if word == "Return":
        return f"(return {expr_text(parts[0]) if parts else ''})"
    if word == "Call":
        call = f"(call {first + parts[0]} {' '.join(expr_text(part) for part in parts[1])})"
        return call if parts[2] is None else f"(local.set {parts[2]} {call})"
    return "(unreachable)"


def text(rows):
    """Returns the module: f0, f1 .. are the functions that are called, each with those that it calls behind it."""
    lines, at = ["(module (memory (export \"memory\") 1) (global i32 (i32.const 0))" + " (global (mut i32) (i32.const 0))" * 2], 0
    for place, (_, functions, _) in enumerate(rows):
        for which, (result, code) in enumerate(functions):
            export = f" (export \"f{place}\")" if which == 0 else ""
            gives = f" (result {result})" if result else ""
            lines.append(f"  (func{export} (param i32 i32){gives} (local i32 i32) {code_text(code, at)})")
        at += len(functions)
    return "\n".join([*lines, ")"])


SCRIPT = """
const fs = require('fs');
const asked = JSON.parse(fs.readFileSync(process.argv[3]));
WebAssembly.instantiate(fs.readFileSync(process.argv[2])).then(({ instance }) => {
  const memory = new Uint8Array(instance.exports.memory.buffer);
  console.log(JSON.stringify(asked.map((all, place) => all.map((given) => {
    memory.fill(0);
    let end;
    try {
      const back = instance.exports['f' + place](...given);
      end = back === undefined ? [0, 0] : [1, back >>> 0];
    } catch (e) {
      if (!(e instanceof WebAssembly.RuntimeError)) throw e;
      end = [2, 0];
    }
    return [...end, ...memory.subarray(0, 40)];
  }))));
});
"""

# ---- as theorems


def expr_term(expr):
    word, *parts = expr
    if word in ("Local", "Const32", "Const64"):
        return f"({word} {parts[0]})"
    inner = " ".join(expr_term(part) for part in parts)
    return f"(One (Eqz I32) {inner})" if word == "Eqz" else f"(Two (Of I32 {word}) {inner})"


def listed(items):
    return " ∷ ".join([*(str(item) for item in items), "[]"])


def part_term(part):
    """Returns an operand of code: a number, a name, labels, arguments, an expression or code."""
    if part is None:
        return "None"
    if not isinstance(part, tuple):
        return str(part)
    if part == () or not isinstance(part[0], str):
        return f"({listed(expr_term(it) if isinstance(it, tuple) else it for it in part)})"
    return code_term(part) if part[0] in ("Point", *NAMES) else expr_term(part)


def code_term(code):
    word, *parts = code
    if word == "Point":
        return f"(point {parts[0]})"
    if word == "Return":
        return f"(Return (Some {expr_term(parts[0])}))" if parts else "(Return None)"
    if word == "Divide":
        return f"(Divide I32 {' '.join(part_term(part) for part in parts)})"
    if word == "Call" and parts[2] is not None:
        return f"(Call {parts[0]} {part_term(parts[1])} (Some {parts[2]}))"
    return f"({' '.join([word, *(part_term(part) for part in parts)])})" if parts else word


HEAD = """-- What an engine answered of small functions that branch, loop, call and trap, and that the definitions say the same. Written by tools/wasm_table.py.
use Rattle.std.proofs.Common.{◌≡◌, ℕ, List, [], ◌∷◌, Some, None, refl}
use Rattle.std.specs.Prelude.{map, slice_index_or}
use Rattle.isp_wasm_meaning.specs.Digits.{digit, packed}
use Rattle.isp_wasm_meaning.specs.Syntax.{I32, Add, Sub, Mul, DivU, Eqz, Of, Const32, Const64, Local, One, Two}
use Rattle.isp_wasm_meaning.specs.Syntax.{Code, Skip, Unreachable, Then, Set, Load, Store, Divide, If, Block, Loop, Br, BrTable, Return, Call, GetGlobal, SetGlobal, Clear}
use Rattle.isp_wasm_meaning.specs.Meaning.{State, Result, Returned, Trapped, called, bytes}

-- a byte at the address that local 2 has, which is the next one then
abbrev point : ℕ → Code
point p = Then (Store 1 (Local 2) 0 (Const32 p)) (Set 2 (Two (Of I32 Add) (Local 2) (Const32 1)))

abbrev page : State
page = record { locals = λ x. 0; globals = λ x. 0; memory = λ a. 0; size = 65536; out = [] }

-- how a call ended: it gave nothing back (0), or a value (1), or it trapped (2); and the first n bytes of the memory
abbrev seen : ℕ → Result → List ℕ
seen n (Returned None s) = 0 ∷ 0 ∷ bytes n 0 s.memory
seen n (Returned (Some v) s) = 1 ∷ v ∷ bytes n 0 s.memory
seen n (Trapped r s) = 2 ∷ 0 ∷ bytes n 0 s.memory
seen n r = []

-- the first of these functions, of these arguments
abbrev ends : ℕ → List Code → List ℕ → List ℕ
ends n functions xs = seen n (called (λ f. slice_index_or functions f Unreachable) 20 0 xs page)
"""


def theorems(rows, results):
    lines = [HEAD.rstrip("\n")]
    for (name, functions, cases), answers in zip(rows, results):
        count = max(len(bytes(answer[2:]).rstrip(b"\0")) for answer in answers) + 1
        assert count < 40, name
        given = listed(f"({listed(case)})" for case in cases)
        wanted = listed(f"({listed(answer[: 2 + count])})" for answer in answers)
        codes = listed(code_term(code) for _, code in functions)
        lines += ["", f"{name} : map (ends {count} ({codes})) ({given}) ≡ ({wanted})", "unfolding digit packed", f"{name} = refl"]
    return "\n".join(lines) + "\n"
