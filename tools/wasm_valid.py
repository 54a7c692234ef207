"""Small functions that are valid or not, as text for an engine and as terms of isp_wasm_meaning. tools/wasm_table.py asks and writes.

Each operator stands with locals of all types, right ones and wrong ones; and code that turns on labels, on results and on what falls off an end.
"""
import itertools
import json
import os
import re
import subprocess
import tempfile

import wasm_control as control

TYPES = {"i32": "I32", "i64": "I64", "v128": "V128"}


def operators(table):
    """Returns a row for each operator: its name, code as a term and as text, and the functions' types, results first."""
    rows = []
    for name, said, word, kinds, _ in table:
        count = len(kinds)
        given = " ".join(f"(local.get {place})" for place in range(count))
        kind, _, inner = said.partition(" ")
        if name.startswith("load"):
            term, text, count = f"Load {name[5:]} 1 (Local 0) 0", f"(local.set 1 ({word} (local.get 0)))", 1
        elif name.startswith("store"):
            term, text = f"Store {name[6:]} (Local 0) 0 (Local 1)", f"({word} {given})"
        elif kind == "quotient":
            term, text = f"Divide {name[-3:].upper()} {inner} 2 (Local 0) (Local 1)", f"(local.set 2 ({word} {given}))"
        else:
            places = {"unary": "One {} (Local 0)", "binary": "Two {} (Local 0) (Local 1)"}
            made = places[kind].format(inner) if kind in places else {
                "bitselect": "Bitselect (Local 0) (Local 1) (Local 2)", "select": "Select (Local 2) (Local 0) (Local 1)"}[name]
            term, text = f"Set {count} ({made})", f"(local.set {count} ({word} {given}))"
        rows.append((name, term, text, [("", types) for types in itertools.product(TYPES, repeat=count + (not name.startswith("store")))]))
    return rows


def codes():
    """Returns rows as `operators` does, of other code."""
    one = [("", (kind,)) for kind in TYPES]
    both = [("", ()), ("i32", ())]
    gone, skip, back = ("Unreachable",), ("Skip",), ("Br", 0)
    found = [("if", ("If", control.GIVEN, skip, skip), one), ("table", ("Block", ("BrTable", (0, 1), 0, control.GIVEN)), one),
             ("no_local", ("Set", 1, control.number(0)), one), ("no_local_read", ("Set", 0, ("Local", 1)), one)]
    found += [(f"br_{depth}", control.row(("Block", ("Loop", control.row(("If", control.number(1), ("Br", depth), skip), gone))), gone), both) for depth in range(6)]
    found += [(f"table_{depth}", control.row(("Block", ("BrTable", (0, depth), 0, control.number(1))), gone), both) for depth in range(4)]
    found += [(f"table_else_{depth}", control.row(("Block", ("BrTable", (0,), depth, control.number(1))), gone), both) for depth in range(4)]
    found += [("return_none", ("Return",), both), ("return_value", ("Return", control.GIVEN), [(result, (kind,)) for result in ("", *TYPES) for kind in TYPES if result])]
    ends = {"nothing": skip, "unreachable": gone, "block": ("Block", gone), "loop": ("Loop", back), "if": ("If", control.number(1), gone, gone),
            "before": control.row(gone, ("Set", 0, control.number(1))), "table": ("Loop", ("BrTable", (), 0, control.number(1)))}
    found += [(f"end_{name}", code, [("", ("i32",)), ("i32", ("i32",))]) for name, code in ends.items()]
    rows = [(f"code_{name}", control.code_term(code), control.code_text(code, 0), sorts) for name, code, sorts in found]
    pairs = [("", pair) for pair in itertools.product(TYPES, repeat=2)]
    rows.append(("code_write", "Write (Local 0) (Local 1)", "(call 0 (local.get 0) (local.get 1))", pairs))
    rows.append(("code_clear", "Clear (Local 0) (Local 1)", "(memory.fill (local.get 0) (i32.const 0) (local.get 1))", pairs))
    every = [("", tried) for tried in itertools.product(TYPES, repeat=3)]
    rows.append(("code_call", "Call 0 (Local 0 ∷ Local 1 ∷ []) (Some 2)", "(local.set 2 (call 6 (local.get 0) (local.get 1)))", every))
    rows.append(("code_call_few", "Call 0 (Local 0 ∷ []) (Some 0)", "(local.set 0 (call 6 (local.get 0)))", one))
    rows.append(("code_call_none", "Call 1 (Local 0 ∷ []) None", "(call 7 (local.get 0))", one))
    rows.append(("code_call_nothing", "Call 1 (Local 0 ∷ []) (Some 0)", "(local.set 0 (call 7 (local.get 0)))", one))
    rows.append(("code_call_dropped", "Call 0 (Local 0 ∷ Local 1 ∷ []) None", "(call 6 (local.get 0) (local.get 1))", pairs))
    rows.append(("code_call_no_one", "Call 2 [] None", "(call 9)", one))
    for name, said, number in (("signed", "SignedText", 2), ("unsigned", "UnsignedText", 3), ("bool", "TruthText", 4), ("byte", "ByteText", 5)):
        rows.append((f"code_print_{name}", f"Print {said} (Local 0)", f"(call {number} (local.get 0))", one))
    for place in (0, 1, 16, 17, 18):
        rows.append((f"code_get_global_{place}", f"GetGlobal 0 {place}", f"(local.set 0 (global.get {place}))", one))
        rows.append((f"code_set_global_{place}", f"SetGlobal {place} (Local 0)", f"(global.set {place} (local.get 0))", one))
    rows.append(("code_fail", "Fail 1 2 3 (Local 0)", "(call 1 (i32.const 1) (i32.const 2) (i32.const 3) (local.get 0)) (unreachable)", one))
    return rows


def module(text, result, types):
    params = f"(param {' '.join(types)})" if types else ""
    gives = f"(result {result})" if result else ""
    prints = " ".join(f'(import "isp" "{name}" (func (param {kind})))'
                      for name, kind in (("print_signed", "i64"), ("print_unsigned", "i64"), ("print_bool", "i32"), ("print_byte", "i32")))
    return (f'(module (import "isp" "write" (func (param i32 i32))) (import "isp" "trap" (func (param i32 i32 i32 i32))) {prints} (memory 1) '
            f"(global i32 (i32.const 0)) {'(global (mut v128) (v128.const i64x2 0 0)) ' * 16}(global (mut i32) (i32.const 0)) "
            f"(func (param i32 i64) (result i64) (local.get 1)) (func (param v128)) (func {params} {gives} {text}))")


def ask(rows):
    """Returns for each row which of its functions the engine takes."""
    with tempfile.TemporaryDirectory() as folder:
        source, listing, script = (os.path.join(folder, name) for name in ("it.wast", "it.json", "it.js"))
        with open(source, "w", encoding="utf-8") as file:
            file.writelines(f'(assert_invalid {module(text, *sort)} "")\n' for _, _, text, sorts in rows for sort in sorts)
        with open(script, "w", encoding="utf-8") as file:
            file.write(SCRIPT)
        subprocess.run(["wast2json", "--no-check", source, "-o", listing], check=True)
        done = subprocess.run(["node", script, folder], check=True, capture_output=True, text=True)
    taken = iter(json.loads(done.stdout))
    return [[next(taken) for _ in row[3]] for row in rows]


SCRIPT = """
const fs = require('fs'), folder = process.argv[2];
const { commands } = JSON.parse(fs.readFileSync(folder + '/it.json'));
console.log(JSON.stringify(commands.map(({ filename }) => WebAssembly.validate(fs.readFileSync(folder + '/' + filename)))));
"""

HEAD = """-- Which functions an engine takes, and that the definitions take the same. Written by tools/wasm_table.py.
use Rattle.std.proofs.Common.{◌≡◌, List, [], ◌∷◌, map, Option, Some, None, Bool, true, false, refl}
use Rattle.isp_wasm_meaning.specs.Lists.{evens}
use Rattle.isp_wasm_meaning.specs.Module.{ValueType, I32 as W, I64 as L, V128 as V}
SYNTAX
use Rattle.isp_wasm_meaning.specs.Valid.{is_valid_function}

-- a function of this code that takes and gives values of these types, in a module with two others
abbrev takes : Code → Option ValueType → List ValueType → Bool
takes c r ts =
    is_valid_function (record { export = None; params = W ∷ L ∷ []; result = Some L; locals = []; code = Return (Some (Local 1)) } ∷ record { export = None; params = V ∷ []; result = None; locals = []; code = Skip } ∷ [])
    (record { export = None; params = ts; result = r; locals = []; code = c })
"""
SHORT = {"i32": "W", "i64": "L", "v128": "V"}
OTHERS = {"Local", "Unreachable", "Return", "Skip"}


def theorems(rows, answers):
    lines = []
    for (name, term, _, sorts), taken in zip(rows, answers):
        for result in sorted({sort[0] for sort in sorts}):
            chosen = [(types, said) for (given, types), said in zip(sorts, taken) if given == result]
            lists = control.listed(f"({control.listed(SHORT[kind] for kind in types)})" for types, _ in chosen)
            said = control.listed(str(is_taken).lower() for _, is_taken in chosen)
            given = f"(Some {SHORT[result]})" if result else "None"
            called = f"{name}_{result}" if result else name
            lines += ["", f"{called} : map (takes ({term}) {given}) ({lists}) ≡ ({said})", f"{called} = refl"]
    words = sorted((set(re.findall(r"\b[A-Z]\w+\b", "\n".join(line for line in lines if " : " in line))) | OTHERS) - {"None", "Some"})
    syntax = f"use Rattle.isp_wasm_meaning.specs.Syntax.{{Code, {', '.join(words)}}}"
    return "\n".join([HEAD.rstrip("\n").replace("SYNTAX", syntax), *lines]) + "\n"
