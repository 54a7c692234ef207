#!/usr/bin/env python3
"""Asks an engine what each operator of isp_wasm_meaning's fragment gives at its edges, what small functions do that turn on its control
(wasm_control.py), and which functions it takes (wasm_valid.py), and writes the answers as theorems.

    tools/wasm_table.py             writes Engine.antt, EngineControl.antt and EngineValid.antt of crates/isp_wasm_meaning/proofs
    tools/wasm_table.py --check     ends with status 1 where one is not what the engine answers

The engine is Node's; wat2wasm and wast2json of wabt make its modules of texts (apt-get install nodejs wabt). An operator's function reads its operands from
memory and writes the result to memory. The theorems are proved by computing with the definitions, whenever the crate is.
"""
import itertools
import json
import os
import subprocess
import sys
import tempfile

sys.dont_write_bytecode = True
import wasm_control  # noqa: E402
import wasm_valid  # noqa: E402
import written  # noqa: E402

PROOFS = "crates/isp_wasm_meaning/proofs"
BITS = {"i32": 32, "i64": 64, "v128": 128}
SHAPES = {"I8x16": ("i8x16", 8), "I16x8": ("i16x8", 16), "I32x4": ("i32x4", 32), "I64x2": ("i64x2", 64)}
SIZES = {"I32": "i32", "I64": "i64"}
HALVES = {"I16x8": "i8x16", "I32x4": "i16x8", "I64x2": "i32x4"}


def edges(width):
    """Returns numbers of so many bits at which operators turn."""
    top = 1 << (width - 1)
    return [0, 1, width - 1, width, top - 1, top, 2 * top - 1]


def packed(lanes, width):
    return sum(lane << (width * place) for place, lane in enumerate(lanes))


def vectors(width):
    """Returns vectors in whose lanes the edges stand, each at several places."""
    found, turns = edges(width), 128 // width
    return [packed([found[(start + step * place) % len(found)] for place in range(turns)], width) for start, step in ((0, 1), (3, 1), (5, 3), (6, 5))]


def operands(kind):
    """Returns the numbers that an operand of a kind is tried with; a width stands for the amount of a shift."""
    if kind == "address":
        return [0, 1, 5, 8]
    if isinstance(kind, int):
        return [0, 1, kind - 1, kind, kind + 3]
    if kind in SHAPES:
        return vectors(SHAPES[kind][1])
    return vectors(8) if kind == "v128" else edges(BITS[kind])


def table():
    """Returns each operator: the name of its theorem, the definition, the instruction, the kinds of its operands and of its result."""
    rows = []
    for size, name in SIZES.items():
        for op, word in (("Add", "add"), ("Sub", "sub"), ("Mul", "mul")):
            rows.append((f"{word}_{name}", f"binary (Of {size} {op})", f"{name}.{word}", (name, name), name))
        for op, word in (("And", "and"), ("Or", "or"), ("Xor", "xor")):
            rows.append((f"{word}_{name}", f"binary (BitsOf {size} {op})", f"{name}.{word}", (name, name), name))
        for op, word in (("Shl", "shl"), ("ShrU", "shr_u"), ("ShrS", "shr_s")):
            rows.append((f"{word}_{name}", f"binary (ShiftOf {size} {op})", f"{name}.{word}", (name, name), name))
        for op, word in (("Eq", "eq"), ("Ne", "ne"), ("LtU", "lt_u"), ("LtS", "lt_s")):
            rows.append((f"{word}_{name}", f"binary (Compare {size} {op})", f"{name}.{word}", (name, name), "i32"))
        for op, word in (("DivU", "div_u"), ("RemU", "rem_u")):
            rows.append((f"{word}_{name}", f"quotient {op}", f"{name}.{word}", (name, name), name))
        rows.append((f"eqz_{name}", f"unary (Eqz {size})", f"{name}.eqz", (name,), "i32"))
        rows.append((f"ctz_{name}", f"unary (Ctz {size})", f"{name}.ctz", (name,), name))
    for op, word, given, result in (("Wrap", "i32.wrap_i64", "i64", "i32"), ("ExtendU", "i64.extend_i32_u", "i32", "i64"),
                                    ("ExtendS", "i64.extend_i32_s", "i32", "i64"),
                                    ("Extend8S", "i32.extend8_s", "i32", "i32"), ("Extend16S", "i32.extend16_s", "i32", "i32")):
        rows.append((op.lower(), f"unary {op}", word, (given,), result))
    for shape, (name, width) in SHAPES.items():
        lane = "i64" if width == 64 else "i32"
        for op, word in (("Add", "add"), ("Sub", "sub"), ("Mul", "mul")):
            if (op, shape) != ("Mul", "I8x16"):
                rows.append((f"{word}_{name}", f"binary (Lanes {shape} {op})", f"{name}.{word}", (shape, shape), "v128"))
        for op, word in (("Eq", "eq"), ("Ne", "ne"), ("LtU", "lt_u"), ("LtS", "lt_s")):
            if (op, shape) != ("LtU", "I64x2"):
                rows.append((f"{word}_{name}", f"binary (CompareLanes {shape} {op})", f"{name}.{word}", (shape, shape), "v128"))
        for op, word in (("Shl", "shl"), ("ShrU", "shr_u"), ("ShrS", "shr_s")):
            rows.append((f"{word}_{name}", f"binary (ShiftLanes {shape} {op})", f"{name}.{word}", (shape, width), "v128"))
        rows.append((f"splat_{name}", f"unary (Splat {shape})", f"{name}.splat", (lane,), "v128"))
        for place in (0, 128 // width - 1):
            signless = "_u" if width < 32 else ""
            rows.append((f"extract_{name}_{place}", f"unary (Extract {shape} {place})", f"{name}.extract_lane{signless} {place}", (shape,), lane))
            rows.append((f"replace_{name}_{place}", f"binary (Replace {shape} {place})", f"{name}.replace_lane {place}", (shape, lane), "v128"))
        if shape in HALVES:
            half = HALVES[shape]
            kind = next(other for other, (named, _) in SHAPES.items() if named == half)
            for op, word in (("ExtendLow", "extend_low"), ("ExtendHigh", "extend_high")):
                rows.append((f"{word}_{name}", f"unary ({op} {shape})", f"{name}.{word}_{half}_s", (kind,), "v128"))
            taken = width // 16
            chosen = " ".join(str(2 * taken * (byte // taken) + byte % taken) for byte in range(16))
            rows.append((f"evens_{name}", f"binary (Shuffle (evens {shape}))", f"i8x16.shuffle {chosen}", (shape, shape), "v128"))
    rows.append(("bitselect",
                 "λ x y c. value (λ i. i) (Bitselect (Const128 x) (Const128 y) (Const128 c))", "v128.bitselect", ("I32x4", "I16x8", "I8x16"), "v128"))
    rows.append(("select", "λ x y c. value (λ i. i) (Select (Const32 c) (Const32 x) (Const32 y))", "select", ("i32", "i32", "i32"), "i32"))
    for size, word in ((1, "i32.load8_u"), (2, "i32.load16_u"), (4, "i32.load"), (8, "i64.load"), (16, "v128.load")):
        rows.append((f"load_{size}", f"λ a. loaded {size} a pattern", word, ("address",), word.split(".")[0]))
    for size, word in ((1, "i32.store8"), (2, "i32.store16"), (4, "i32.store"), (8, "i64.store"), (16, "v128.store")):
        rows.append((f"store_{size}", f"λ a v. packed 256 16 (stored {size} a v pattern)", word, ("address", word.split(".")[0]), "v128"))
    rows.append(("bitmask_i8x16", "unary (Bitmask I8x16)", "i8x16.bitmask", ("I8x16",), "i32"))
    for op, word in (("And", "and"), ("Or", "or"), ("Xor", "xor")):
        rows.append((f"{word}_v128", f"binary (Bits {op})", f"v128.{word}", ("I32x4", "I16x8"), "v128"))
    return rows


def cases(row):
    """Returns the operands that an operator is tried on; a divisor is not 0."""
    found = list(itertools.product(*(operands(kind) for kind in row[3])))
    if len(row[3]) == 3:
        found = found[::5]
    elif row[3][0] in SHAPES:
        found = found[:: 1 + len(found) // 8]
    return [given for given in found if not row[1].startswith("quotient") or given[1]]


def text(rows):
    """Returns the module: operands lie 16 bytes apart, the result behind them."""
    lines = ["(module (memory (export \"memory\") 1)"]
    for place, row in enumerate(rows):
        if row[3][0] == "address":
            # a pattern lies from byte 64 on
            at = "(i32.add (i32.const 64) (i32.load (i32.const 0)))"
            if len(row[3]) == 1:
                lines.append(f"  (func (export \"f{place}\") ({row[4]}.store (i32.const 48) ({row[2]} {at})))")
            else:
                value = f"({row[3][1]}.load (i32.const 16))"
                lines.append(f"  (func (export \"f{place}\") ({row[2]} {at} {value}) (v128.store (i32.const 48) (v128.load (i32.const 64))))")
            continue
        kinds = ["i32" if isinstance(kind, int) else kind if kind in BITS else "v128" for kind in row[3]]
        given = " ".join(f"({kind}.load (i32.const {16 * at}))" for at, kind in enumerate(kinds))
        lines.append(f"  (func (export \"f{place}\") ({row[4]}.store (i32.const 48) ({row[2]} {given})))")
    return "\n".join([*lines, ")"])


def answers(module, asked, script):
    """Returns what a script of Node answers of a module's text and of what is asked."""
    with tempfile.TemporaryDirectory() as folder:
        paths = [os.path.join(folder, name) for name in ("it.wat", "it.wasm", "it.json", "it.js")]
        for path, said in ((paths[0], module), (paths[2], json.dumps(asked)), (paths[3], script)):
            with open(path, "w", encoding="utf-8") as file:
                file.write(said)
        subprocess.run(["wat2wasm", paths[0], "-o", paths[1]], check=True)
        done = subprocess.run(["node", paths[3], paths[1], paths[2]], check=True, capture_output=True, text=True)
    return json.loads(done.stdout)


def ask(rows):
    """Returns the engine's results for the cases of each row."""
    asked = [[[str(number) for number in given] for given in cases(row)] for row in rows]
    return answers(text(rows), [asked, [BITS[row[4]] for row in rows]], SCRIPT)


SCRIPT = """
const fs = require('fs');
const [asked, bits] = JSON.parse(fs.readFileSync(process.argv[3]));
WebAssembly.instantiate(fs.readFileSync(process.argv[2])).then(({ instance }) => {
  const view = new DataView(instance.exports.memory.buffer), low = (1n << 64n) - 1n;
  const put = (at, n) => { view.setBigUint64(at, n & low, true); view.setBigUint64(at + 8, n >> 64n, true); };
  const get = (width) => {
    const whole = view.getBigUint64(48, true) | (view.getBigUint64(56, true) << 64n);
    return (whole & ((1n << BigInt(width)) - 1n)).toString();
  };
  console.log(JSON.stringify(asked.map((all, place) => all.map((given) => {
    put(48, 0n);
    for (let i = 0; i < 32; i++) view.setUint8(64 + i, (37 * i + 200) % 256);
    given.forEach((n, at) => put(16 * at, BigInt(n)));
    instance.exports['f' + place]();
    return get(bits[place]);
  }))));
});
"""


def listed(numbers):
    return " ∷ ".join([*(str(number) for number in numbers), "[]"])


def theorems(rows, results):
    lines = ["-- What an engine answered at the edges of each operator, and that the definitions say the same. Written by tools/wasm_table.py.",
             "use Rattle.std.proofs.Common.{◌≡◌, ℕ, List, [], ◌∷◌, refl}", "use Rattle.std.specs.Prelude.{map, ◌+◌, ◌*◌, ◌%◌}",
             "use Rattle.isp_wasm_meaning.specs.Digits.{digit, packed}",
             "use Rattle.isp_wasm_meaning.specs.Lists.{evens}",
             "use Rattle.isp_wasm_meaning.specs.Syntax.{I8x16, I16x8, I32x4, I64x2, I32, I64, Add, Sub, Mul, And, Or, Xor, Shl, ShrU, ShrS, "
             "Eq, Ne, LtU, LtS, DivU, RemU}",
             "use Rattle.isp_wasm_meaning.specs.Syntax.{Eqz, Ctz, Wrap, ExtendU, ExtendS, Extend8S, Extend16S, Splat, Extract, ExtendLow, ExtendHigh, Bitmask}",
             "use Rattle.isp_wasm_meaning.specs.Syntax.{Of, BitsOf, ShiftOf, Compare, Lanes, CompareLanes, ShiftLanes, Bits, Replace, Shuffle}",
             "use Rattle.isp_wasm_meaning.specs.Syntax.{Const32, Const128, Select, Bitselect}",
             "use Rattle.isp_wasm_meaning.specs.Meaning.{unary, binary, quotient, trailing, value, loaded, stored}", "",
             "-- bytes in memory", "abbrev pattern : ℕ → ℕ", "pattern i = (37 * i + 200) % 256", "",
             "abbrev each3 : (ℕ → ℕ → ℕ → ℕ) → List ℕ → List ℕ → List ℕ → List ℕ",
             "each3 f (x ∷ xs) (y ∷ ys) (z ∷ zs) = f x y z ∷ each3 f xs ys zs", "each3 f xs ys zs = []", "",
             "abbrev each2 : (ℕ → ℕ → ℕ) → List ℕ → List ℕ → List ℕ",
             "each2 f (x ∷ xs) (y ∷ ys) = f x y ∷ each2 f xs ys", "each2 f xs ys = []"]
    for row, answers in zip(rows, results):
        name, said, _, kinds, _ = row
        given = cases(row)
        columns = " ".join(f"({listed(column)})" for column in zip(*given))
        call = f"{['map', 'each2', 'each3'][len(kinds) - 1]} ({said}) {columns}"
        lines += ["", f"{name} : {call} ≡ {listed(answers)}", "unfolding digit packed trailing", f"{name} = refl"]
    return "\n".join(lines) + "\n"


def main():
    rows, functions = table(), wasm_control.table()
    ends = answers(wasm_control.text(functions), [row[2] for row in functions], wasm_control.SCRIPT)
    tried = wasm_valid.operators(rows) + wasm_valid.codes()
    written.put({f"{PROOFS}/Engine.antt": theorems(rows, ask(rows)), f"{PROOFS}/EngineControl.antt": wasm_control.theorems(functions, ends),
                 f"{PROOFS}/EngineValid.antt": wasm_valid.theorems(tried, wasm_valid.ask(tried))})
    print(f"{len(rows)} operators, {sum(len(cases(row)) for row in rows)} cases; {len(functions)} functions, {sum(len(row[2]) for row in functions)} calls; "
          f"{sum(len(row[3]) for row in tried)} functions valid or not")


if __name__ == "__main__":
    main()
