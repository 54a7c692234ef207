#!/usr/bin/env python3
"""Asks wat2wasm which bytes each instruction of isp_wasm_meaning's fragment has, and writes the answers as theorems.

    tools/wasm_bytes.py             writes crates/isp_wasm_binary/proofs/Engine.antt
    tools/wasm_bytes.py --check     ends with status 1 where it is not what wat2wasm answers

wat2wasm is of wabt (apt-get install wabt). Each row is code as the definitions have it, and the same as the text of a module; the module is checked by
the standard's rules, and the bytes of its function are compared. The theorems are proved by computing with the definitions, whenever the crate is.
"""
import os
import subprocess
import sys
import tempfile

TOP = os.path.dirname(os.path.dirname(os.path.abspath(__file__)))
FILE = os.path.join(TOP, "crates", "isp_wasm_binary", "proofs", "Engine.antt")
SIZES = {"I32": "i32", "I64": "i64"}
SHAPES = {"I8x16": ("i8x16", 8), "I16x8": ("i16x8", 16), "I32x4": ("i32x4", 32), "I64x2": ("i64x2", 64)}
HALVES = {"I16x8": "i8x16", "I32x4": "i16x8", "I64x2": "i32x4"}
# locals of each type: 0 and 1 have 32 bits, 2 and 3 64, 4 and 5 128; 6 to 305 have 32
LOCALS = {"i32": (0, 1), "i64": (2, 3), "v128": (4, 5)}
HEAD = "(param i32 i32 i64 i64 v128 v128)"
MANY = "(local " + " ".join(["i32"] * 300) + ")"


def set_row(name, said, word, given, result):
    """Returns a row that puts an operator of locals into a local."""
    used, places = {"i32": 0, "i64": 0, "v128": 0}, []
    for kind in given:
        places.append(LOCALS[kind][used[kind] % 2])
        used[kind] += 1
    to = LOCALS[result][0]
    text = " ".join(f"(local.get {place})" for place in places)
    return name, f"Set {to} ({said(*[f'(Local {place})' for place in places])})", f"(local.set {to} ({word} {text}))", ""


def one(op):
    return lambda x: f"One {op} {x}"


def two(op):
    return lambda x, y: f"Two {op} {x} {y}"


def scalar_rows():
    for size, name in SIZES.items():
        for group, ops in (("Of", (("Add", "add"), ("Sub", "sub"), ("Mul", "mul"))), ("BitsOf", (("And", "and"), ("Or", "or"), ("Xor", "xor"))),
                           ("ShiftOf", (("Shl", "shl"), ("ShrU", "shr_u"), ("ShrS", "shr_s")))):
            for op, word in ops:
                yield set_row(f"{word}_{name}", two(f"({group} {size} {op})"), f"{name}.{word}", (name, name), name)
        for op, word in (("Eq", "eq"), ("Ne", "ne"), ("LtU", "lt_u"), ("LtS", "lt_s")):
            yield set_row(f"{word}_{name}", two(f"(Compare {size} {op})"), f"{name}.{word}", (name, name), "i32")
        for op, word in (("DivU", "div_u"), ("RemU", "rem_u")):
            to, (x, y) = LOCALS[name][0], LOCALS[name]
            yield (f"{word}_{name}", f"Divide {size} {op} {to} (Local {x}) (Local {y})", f"(local.set {to} ({name}.{word} (local.get {x}) (local.get {y})))", "")
        yield set_row(f"eqz_{name}", one(f"(Eqz {size})"), f"{name}.eqz", (name,), "i32")
        yield set_row(f"ctz_{name}", one(f"(Ctz {size})"), f"{name}.ctz", (name,), name)
    for op, word, given, result in (("Wrap", "i32.wrap_i64", "i64", "i32"), ("ExtendU", "i64.extend_i32_u", "i32", "i64"),
                                    ("ExtendS", "i64.extend_i32_s", "i32", "i64"),
                                    ("Extend8S", "i32.extend8_s", "i32", "i32"), ("Extend16S", "i32.extend16_s", "i32", "i32")):
        yield set_row(op.lower(), one(op), word, (given,), result)
    for size, name, width in (("Const32", "i32", 32), ("Const64", "i64", 64)):
        half = 1 << (width - 1)
        for number in (0, 63, 64, 127, 128, 8191, 8192, 1 << 20, half - 1, half, half + 1, 2 * half - 8193, 2 * half - 8192, 2 * half - 65, 2 * half - 64, 2 * half - 1):
            signed = number - 2 * half if number >= half else number
            yield f"{name}_{number}", f"Set {LOCALS[name][0]} ({size} {number})", f"(local.set {LOCALS[name][0]} ({name}.const {signed}))", ""


def lane_rows():
    for shape, (name, width) in SHAPES.items():
        lane = "i64" if width == 64 else "i32"
        for op, word in (("Add", "add"), ("Sub", "sub"), ("Mul", "mul")):
            if (op, shape) != ("Mul", "I8x16"):
                yield set_row(f"{word}_{name}", two(f"(Lanes {shape} {op})"), f"{name}.{word}", ("v128", "v128"), "v128")
        for op, word in (("Eq", "eq"), ("Ne", "ne"), ("LtU", "lt_u"), ("LtS", "lt_s")):
            if (op, shape) != ("LtU", "I64x2"):
                yield set_row(f"{word}_{name}", two(f"(CompareLanes {shape} {op})"), f"{name}.{word}", ("v128", "v128"), "v128")
        for op, word in (("Shl", "shl"), ("ShrU", "shr_u"), ("ShrS", "shr_s")):
            yield set_row(f"{word}_{name}", two(f"(ShiftLanes {shape} {op})"), f"{name}.{word}", ("v128", "i32"), "v128")
        yield set_row(f"splat_{name}", one(f"(Splat {shape})"), f"{name}.splat", (lane,), "v128")
        yield set_row(f"bitmask_{name}", one(f"(Bitmask {shape})"), f"{name}.bitmask", ("v128",), "i32")
        for place in (0, 128 // width - 1):
            signless = "_u" if width < 32 else ""
            yield set_row(f"extract_{name}_{place}", one(f"(Extract {shape} {place})"), f"{name}.extract_lane{signless} {place}", ("v128",), lane)
            yield set_row(f"replace_{name}_{place}", two(f"(Replace {shape} {place})"), f"{name}.replace_lane {place}", ("v128", lane), "v128")
        if shape in HALVES:
            half, taken = HALVES[shape], width // 16
            yield set_row(f"extend_low_{name}", one(f"(ExtendLow {shape})"), f"{name}.extend_low_{half}_s", ("v128",), "v128")
            yield set_row(f"extend_high_{name}", one(f"(ExtendHigh {shape})"), f"{name}.extend_high_{half}_s", ("v128",), "v128")
            chosen = " ".join(str(2 * taken * (at // taken) + at % taken) for at in range(16))
            yield set_row(f"evens_{name}", two(f"(Shuffle (evens {shape}))"), f"i8x16.shuffle {chosen}", ("v128", "v128"), "v128")
    for op, word in (("And", "and"), ("Or", "or"), ("Xor", "xor")):
        yield set_row(f"{word}_v128", two(f"(Bits {op})"), f"v128.{word}", ("v128", "v128"), "v128")
    number = sum((17 * at + 130) % 256 << (8 * at) for at in range(16))
    words = " ".join(hex(number >> (32 * at) & 0xFFFFFFFF) for at in range(4))
    yield "const_v128", f"Set 4 (Const128 {number})", f"(local.set 4 (v128.const i32x4 {words}))", ""
    yield set_row("bitselect", lambda x, y, z: f"Bitselect {x} {y} {z}", "v128.bitselect", ("v128", "v128", "v128"), "v128")


def code_rows():
    yield "select", "Set 0 (Select (Local 0) (Local 1) (Const32 7))", "(local.set 0 (select (local.get 1) (i32.const 7) (local.get 0)))", ""
    yield "far_local", "Set 300 (Local 129)", "(local.set 300 (local.get 129))", ""
    for size, word, far in ((1, "i32.load8_u", 0), (2, "i32.load16_u", 2), (4, "i32.load", 128), (8, "i64.load", 1 << 20), (16, "v128.load", 16)):
        to = LOCALS[word.split(".")[0]][0]
        yield f"load_{size}", f"Load {size} {to} (Local 1) {far}", f"(local.set {to} ({word} offset={far} (local.get 1)))", ""
    for size, word, far in ((1, "i32.store8", 3), (2, "i32.store16", 0), (4, "i32.store", 127), (8, "i64.store", 300), (16, "v128.store", 240)):
        value = LOCALS[word.split(".")[0]][1]
        yield f"store_{size}", f"Store {size} (Local 0) {far} (Local {value})", f"({word} offset={far} (local.get 0) (local.get {value}))", ""
    yield "if", "If (Local 0) (Set 0 (Local 1)) Skip", "(if (local.get 0) (then (local.set 0 (local.get 1))))", ""
    yield ("if_else", "If (Local 0) Skip (Then (Set 0 (Local 1)) (Set 1 (Local 0)))",
           "(if (local.get 0) (then) (else (local.set 0 (local.get 1)) (local.set 1 (local.get 0))))", "")
    yield "block", "Block (Then (Br 0) (Set 0 (Local 1)))", "(block (br 0) (local.set 0 (local.get 1)))", ""
    yield "loop", "Loop (If (Local 0) (Br 1) Skip)", "(loop (if (local.get 0) (then (br 1))))", ""
    labels = " ".join("0" if at % 3 else "1" for at in range(130))
    listed = " ∷ ".join([*labels.split(), "[]"])
    yield "br_table", "Block (Block (BrTable (0 ∷ 1 ∷ []) 1 (Local 0)))", "(block (block (br_table 0 1 1 (local.get 0))))", ""
    yield "long_br_table", f"Block (Block (BrTable ({listed}) 0 (Local 0)))", f"(block (block (br_table {labels} 0 (local.get 0))))", ""
    yield "return", "Return None", "(return)", ""
    yield "return_value", "Return (Some (Local 2))", "(return (local.get 2))", "i64"
    yield "unreachable", "Unreachable", "(unreachable)", ""
    yield "call", "Call 3 [] None", "(call 9)", ""
    yield "call_with", "Call 2 (Local 0 ∷ Local 2 ∷ []) (Some 1)", "(local.set 1 (call 8 (local.get 0) (local.get 2)))", ""
    yield "write", "Write (Local 0) (Const32 12)", "(call 0 (local.get 0) (i32.const 12))", ""
    for name, said, number, local in (("signed", "SignedText", 2, 2), ("unsigned", "UnsignedText", 3, 2), ("bool", "TruthText", 4, 0), ("byte", "ByteText", 5, 0)):
        yield f"print_{name}", f"Print {said} (Local {local})", f"(call {number} (local.get {local}))", ""
    yield "get_global", "GetGlobal 4 1", "(local.set 4 (global.get 1))", ""
    yield "set_global", "SetGlobal 1 (Local 5)", "(global.set 1 (local.get 5))", ""
    yield "clear", "Clear (Local 0) (Const32 300)", "(memory.fill (local.get 0) (i32.const 0) (i32.const 300))", ""
    yield ("fail", "Fail 2 70 4294967295 (Local 1)", "(call 1 (i32.const 2) (i32.const 70) (i32.const -1) (local.get 1)) (unreachable)", "")


def function_text(row):
    """Returns the module whose function 6 is the row's code."""
    _, _, text, result = row
    gives = f"(result {result})" if result else ""
    return f"""(module (import "isp" "write" (func (param i32 i32))) (import "isp" "fail" (func (param i32 i32 i32 i32)))
  (import "isp" "print_signed" (func (param i64))) (import "isp" "print_unsigned" (func (param i64)))
  (import "isp" "print_bool" (func (param i32))) (import "isp" "print_byte" (func (param i32)))
  (memory 1) (global i32 (i32.const 0)) (global (mut v128) (v128.const i64x2 0 0))
  (func {HEAD} {gives} {MANY} {text}) (func)
  (func (param i32 i64) (result i32) (i32.const 0)) (func))"""


def assembled(text):
    with tempfile.TemporaryDirectory() as folder:
        paths = [os.path.join(folder, name) for name in ("it.wat", "it.wasm")]
        with open(paths[0], "w", encoding="utf-8") as file:
            file.write(text)
        subprocess.run(["wat2wasm", paths[0], "-o", paths[1]], check=True)
        with open(paths[1], "rb") as file:
            return file.read()


def number_at(binary, at):
    """Returns an unsigned LEB128 number, and where the next byte is."""
    number, shift = 0, 0
    while True:
        number |= (binary[at] & 127) << shift
        at, shift = at + 1, shift + 7
        if binary[at - 1] < 128:
            return number, at


def body_of(binary):
    """Returns the code of the first function: what stands between its locals and the byte that ends it."""
    at = 8
    while binary[at] != 10:
        size, start = number_at(binary, at + 1)
        at = start + size
    _, at = number_at(binary, at + 1)
    _, at = number_at(binary, at)
    size, at = number_at(binary, at)
    end = at + size
    groups, at = number_at(binary, at)
    for _ in range(groups):
        _, at = number_at(binary, at)
        at += 1
    return binary[at:end - 1]


SECTIONS = ("all_sections", """(module (type (func (param i32 i32))) (type (func (param i32 i32 i32 i32))) (type (func (param i32 i64 v128) (result i32)))
  (import "isp" "write" (func (type 0))) (import "isp" "trap" (func (type 1)))
  (func (type 2) (local i32 i32 i64 v128 v128 v128) (local.set 3 (local.get 0)) (return (i32.add (local.get 3) (i32.const 1))) (unreachable))
  (func (type 0) (unreachable)) (memory 17)
  (global i32 (i32.const 1024)) (global (mut i32) (i32.const -1)) (global i64 (i64.const -5)) (global (mut v128) (v128.const i64x2 258 3))
  (export "double" (func 2)) (export "memory" (memory 0)) (export "isp.base" (global 0)) (export "\\c3\\a9" (func 3))
  (data (i32.const 64) "hello\\0a") (data (i32.const 300) ""))""",
            """record {
    types = record { params = types.I32 ∷ types.I32 ∷ []; results = [] } ∷ record { params = types.I32 ∷ types.I32 ∷ types.I32 ∷ types.I32 ∷ []; results = [] }
        ∷ record { params = types.I32 ∷ types.I64 ∷ types.V128 ∷ []; results = types.I32 ∷ [] } ∷ [];
    imports = record { from = codes "isp"; name = codes "write"; type = 0 } ∷ record { from = codes "isp"; name = codes "trap"; type = 1 } ∷ [];
    functions =
        record {
          type = 2; locals = record { count = 2; type = types.I32 } ∷ record { count = 1; type = types.I64 } ∷ record { count = 3; type = types.V128 } ∷ [];
          code = Then (Then (Set 3 (Local 0)) (Return (Some (Two (Of I32 Add) (Local 3) (Const32 1))))) Unreachable;
        }
        ∷ record { type = 0; locals = []; code = Unreachable } ∷ [];
    pages = 17;
    globals = record { type = types.I32; changes = false; first = 1024 } ∷ record { type = types.I32; changes = true; first = 2 ^ 32 - 1 }
        ∷ record { type = types.I64; changes = false; first = 2 ^ 64 - 5 } ∷ record { type = types.V128; changes = true; first = 258 + 3 * 2 ^ 64 } ∷ [];
    exports =
        record { name = codes "double"; kind = FunctionKind; index = 2 } ∷ record { name = codes "memory"; kind = MemoryKind; index = 0 }
        ∷ record { name = codes "isp.base"; kind = GlobalKind; index = 0 } ∷ record { name = 195 ∷ 169 ∷ []; kind = FunctionKind; index = 3 } ∷ [];
    pieces = record { at = 64; has = codes "hello\\n" } ∷ record { at = 300; has = [] } ∷ [];
  }""")

MODULE = ("whole_module", """(module (type (func (param i32 i32))) (type (func (param i32 i32 i32 i32)))
  (type (func (param i64))) (type (func (param i64))) (type (func (param i32))) (type (func (param i32)))
  (type (func (param i32 i32 i64) (result i32))) (type (func)) (type (func (param i64)))
  (import "isp" "write" (func (type 0))) (import "isp" "trap" (func (type 1))) (import "isp" "print_signed" (func (type 2)))
  (import "isp" "print_unsigned" (func (type 3))) (import "isp" "print_bool" (func (type 4))) (import "isp" "print_byte" (func (type 5)))
  (func (type 6) (local i32 i32 v128 v128 i64 i32) (call 0 (local.get 1) (i32.const 6)) (return (local.get 0)) (unreachable))
  (func (type 7) (unreachable)) (func (type 8) (return) (unreachable)) (memory 1) (global i32 (i32.const 6)) RESULTS (global (mut i32) (i32.const 6))
  (export "isp.memory" (memory 0)) (export "isp.base" (global 0)) (export "isp.stack" (global 17)) (export "first" (func 6)) (export "last" (func 8))
  (data (i32.const 0) "hello\\0a"))""".replace("RESULTS", "(global (mut v128) (v128.const i64x2 0 0)) " * 16),
          """record {
    functions =
        record {
          export = Some (codes "first"); params = types.I32 ∷ types.I32 ∷ types.I64 ∷ []; result = Some types.I32;
          locals = types.I32 ∷ types.I32 ∷ types.V128 ∷ types.V128 ∷ types.I64 ∷ types.I32 ∷ [];
          code = Then (Then (Write (Local 1) (Const32 6)) (Return (Some (Local 0)))) Unreachable;
        }
        ∷ types.unused
        ∷ record { export = Some (codes "last"); params = types.I64 ∷ []; result = None; locals = []; code = Then (Return None) Unreachable } ∷ [];
    memory = codes "hello\\n";
  }""")


def listed(numbers):
    return " ∷ ".join([*(str(number) for number in numbers), "[]"])


def theorems():
    lines = ["-- What wat2wasm made of each instruction, and of a module, and that the definitions say the same. Written by tools/wasm_bytes.py.",
             "use Rattle.std.proofs.Common.{◌≡◌, ◌^◌, ◌-◌, ◌+◌, ◌*◌, [], ◌∷◌, refl, Some, None, true, false}",
             "use Rattle.std.specs.Prelude.{codes}",
             "use Rattle.isp_wasm_meaning.specs.Lists.{evens}",
             "use Rattle.isp_wasm_meaning.specs.Syntax.{I8x16, I16x8, I32x4, I64x2, I32, I64, Add, Sub, Mul, And, Or, Xor, Shl, ShrU, ShrS, "
             "Eq, Ne, LtU, LtS, DivU, RemU}",
             "use Rattle.isp_wasm_meaning.specs.Syntax.{Eqz, Ctz, Wrap, ExtendU, ExtendS, Extend8S, Extend16S, Splat, Extract, ExtendLow, ExtendHigh, Bitmask}",
             "use Rattle.isp_wasm_meaning.specs.Syntax.{Of, BitsOf, ShiftOf, Compare, Lanes, CompareLanes, ShiftLanes, Bits, Replace, Shuffle}",
             "use Rattle.isp_wasm_meaning.specs.Syntax.{Const32, Const64, Const128, Local, One, Two, Select, Bitselect}",
             "use Rattle.isp_wasm_meaning.specs.Syntax.{Skip, Then, Set, Load, Store, Divide, If, Block, Loop, Br, BrTable, Return, Unreachable, Call, Write, Fail}",
             "use Rattle.isp_wasm_meaning.specs.Syntax.{SignedText, UnsignedText, TruthText, ByteText, Print, GetGlobal, SetGlobal, Clear}",
             "use Rattle.isp_wasm_binary.specs.Numbers.{groups, u32, signed_groups, i32, i64, low_bytes, v128}",
             "use Rattle.isp_wasm_binary.specs.Instructions.{code_bytes}",
             "use Rattle.isp_wasm_binary.specs.Modules.{FunctionKind, MemoryKind, GlobalKind, sections_bytes}",
             "use Rattle.isp_wasm_binary.specs.Binary.{bytes_of}",
             "use Rattle.isp_wasm_meaning.specs.Module as types"]
    rows = [*scalar_rows(), *lane_rows(), *code_rows()]
    for row in rows:
        lines += ["", f"{row[0]} : code_bytes ({row[1]}) ≡ {listed(body_of(assembled(function_text(row))))}",
                  "unfolding groups u32 signed_groups i32 i64 low_bytes v128", f"{row[0]} = refl"]
    for word, (name, text, said) in (("sections_bytes", SECTIONS), ("bytes_of", MODULE)):
        lines += ["", f"{name} : {word} ({said}) ≡ {listed(assembled(text))}",
                  "unfolding groups u32 signed_groups i32 i64 low_bytes v128 sections_bytes", f"{name} = refl"]
    return rows, "\n".join(lines) + "\n"


def main():
    rows, made = theorems()
    if sys.argv[1:] == ["--check"]:
        with open(FILE, encoding="utf-8") as file:
            if file.read() != made:
                sys.exit("tools/wasm_bytes.py: proofs/Engine.antt is not what wat2wasm answers")
        return
    with open(FILE, "w", encoding="utf-8") as file:
        file.write(made)
    print(f"{len(rows)} rows of code, 2 modules")


if __name__ == "__main__":
    main()
