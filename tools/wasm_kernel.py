#!/usr/bin/env python3
"""Writes the code of a kernel of examples/ as a definition, for the laws of isp_wasm: crates/isp_wasm/specs/Brighten.antt.

    python3 tools/wasm_kernel.py             writes it
    python3 tools/wasm_kernel.py --check     ends with status 1 where it is stale

The code is what `bin/isp asm` says of examples/brighten.ispc.
"""
import os
import re
import subprocess
import sys

sys.dont_write_bytecode = True
import written  # noqa: E402

ROOT = os.path.dirname(os.path.dirname(os.path.realpath(__file__)))
KERNEL, GANG = "brighten", 8
FILE = "crates/isp_wasm/specs/Brighten.antt"

ELEMS = {"b": "Truth", **{word: word.upper() for word in "i8 u8 i16 u16 i32 u32 i64 u64".split()}}
KINDS = {"s": "Scalar", "v": "Vector", "a": "Array"}
# the constructors, by the class of what an instruction writes; of the words that this kernel has
PLAIN = {word: f"Binary plain.{word.capitalize()}" for word in ("add", "max", "min")}
WRITING = {
    "s": ("Scalar", "scalar", {"const": "Constant", "copy": "Copy", "conv": "Convert", "radd": "Reduce reduction.Add", **PLAIN}),
    "v": ("Vector", "vector", {"conv": "Convert", "splat": "Splat", "index": "Index", "vload": "LoadRun", **PLAIN}),
    "m": ("Mask", "mask", {"mfull": "Full", "mrange": "Range"}),
}
OTHERS = {"vstore": "StoreRun", "joff": "JumpIf jump.Off", "jon": "JumpIf jump.On"}


def operand(word):
    """Returns an operand as it stands in the definition: a register is a name and its number."""
    if re.fullmatch(r"[svma]\d+", word):
        return f"({word[0]} {word[1:]})"
    return word[1:] if word[0] in "pL" else f"(pos {word})"


def instruction(line):
    """Returns an instruction of code text as a term."""
    word, *words = line.split()
    if line == "ret -":
        return "instr.Return None"
    operands = [operand(it) for it in words]
    if word in OTHERS:
        return " ".join([f"instr.{OTHERS[word]}", *operands])
    outer, inner, forms = WRITING[words[0][0]]
    form = " ".join([f"{inner}.{forms[word]}", *operands[1:]])
    return f"instr.{outer} {operands[0]} " + (f"({form})" if operands[1:] else form)


def listed(items):
    return " ∷ ".join([*items, "[]"])


def text_of(name):
    return f'codes "{name}"'


def definition(code):
    """Returns the file, for code of one function that gives nothing back, without texts and local arrays."""
    places, params, types, lines = [], [], {"s": [], "v": []}, []
    for line in code.splitlines()[1:-1]:
        word, *words = line.split()
        if word == "place":
            places.append("record {{ start = {}; end = {} }}".format(*words))
        elif word == "func":
            name = words[0]
        elif word == "par":
            params.append(f"record {{ name = {text_of(words[2])}; kind = kind.{KINDS[words[0]]}; elem = {ELEMS[words[1]]} }}")
        elif word in types:
            types[word] = [ELEMS[it] for it in words]
        elif word == "m":
            masks = words[0]
        else:
            lines.append(instruction(line))
    every = "\n".join(lines)
    variants = [f"use Rattle.isp_code.specs.declared.instr.{which}.TheVariants as {short}" for short, which in (
        ("instr", "Instr"), ("jump", "JumpTest"), ("mask", "MaskInstr"), ("plain", "Plain"), ("reduction", "Reduction"), ("scalar", "ScalarInstr"),
        ("vector", "VectorInstr")) if f"{short}." in every]
    elems = sorted({*re.findall(r"elem = (\w+)", " ".join(params)), *types["s"], *types["v"]})
    row = [f"    {it} ∷" for it in lines[:-1]] + [f"    {lines[-1]} ∷ []"]
    return "\n".join([
        f"-- The code of examples/{KERNEL}.ispc at gang {GANG}. Written by tools/wasm_kernel.py.",
        "use Rattle.std.specs.Prelude.{ℕ, pos, List, [], ◌∷◌, None, true, codes}",
        f"use Rattle.isp_base.specs.declared.types.Elem.TheVariants.{{{', '.join('Bool as Truth' if it == 'Truth' else it for it in elems)}}}",
        f"use Rattle.isp_base.specs.declared.types.Gang.TheVariants.{{W{GANG}}}",
        "use Rattle.isp_code.specs.Listing.{Listing, Routine}",
        "use Rattle.isp_code.specs.declared.function.ParamKind.TheVariants as kind",
        "use Rattle.isp_code.specs.declared.function.Returns.TheVariants.{Nothing}",
        "use Rattle.isp_code.specs.declared.instr.Instr.{Instr}",
        *variants,
        "use Rattle.isp_code.specs.declared.register.Class.TheVariants as class",
        "use Rattle.isp_code.specs.declared.register.Register.{Register}",
        "",
        *[f"abbrev pub {letter} : ℕ → Register\n{letter} n = record {{ class = class.{which}; number = n }}\n" for letter, which in
          (("s", "Scalar"), ("v", "Vector"), ("m", "Mask"), ("a", "Array"))],
        "abbrev pub instructions : List Instr",
        "instructions =",
        *row,
        "",
        "abbrev pub routine : Routine",
        "routine =",
        "    record {",
        f"      name = {text_of(name)};",
        "      exported = true;",
        "      returns = Nothing;",
        f"      params = {listed(params)};",
        "      locals = [];",
        f"      scalars = {listed(types['s'])};",
        f"      vectors = {listed(types['v'])};",
        f"      masks = {masks};",
        "      code = instructions;",
        "    }",
        "",
        f"abbrev pub {KERNEL} : Listing",
        f"{KERNEL} = record {{ gang = W{GANG}; places = {listed(places)}; texts = []; routines = routine ∷ [] }}",
        "",
    ])


def main():
    code = subprocess.run([f"{ROOT}/bin/isp", "asm", "--gang", str(GANG), f"{ROOT}/examples/{KERNEL}.ispc"], check=True, capture_output=True, text=True).stdout
    written.put({FILE: definition(code)})


if __name__ == "__main__":
    main()
