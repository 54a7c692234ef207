#!/usr/bin/env python3
"""Writes programs with what is known of their runs as theorems over the definitions of isp_meaning.

    tools/sample_theorems.py            writes crates/isp_tests_meaning/proofs/Sampled1.antt and so on
    tools/sample_theorems.py --check    ends with status 1 where the files are not what it writes, where a kind is met by fewer than three programs,
                                        or where tools/typed_tree.py makes another tree than another hand wrote beside a source

The programs, arguments and answers are rows of crates/isp_tests_cases/data, found outside: by an independent implementation of the language, and
where it has too few by hand. The typed tree is made of the source by tools/typed_tree.py. So many rows are chosen that each kind of expression,
statement, library call, trap and gang is met at least three times. What a run meets, so that what is never reached does not count, is asked of
tools/gang.py.
"""
import collections
import glob
import json
import os
import re
import sys

from gang import Long, Machine
from typed_tree import LIBRARY, Front

TOP = os.path.dirname(os.path.dirname(os.path.abspath(__file__)))
DATA = os.path.join(TOP, "crates", "isp_tests_cases", "data")
PROOFS = os.path.join(TOP, "crates", "isp_tests_meaning", "proofs")
OUTSIDE = ("programs.rows", "unique_programs.rows", "wide_programs.rows")
BY_HAND = ("calls.rows", "divergent_traps.rows", "effects.rows", "statements.rows", "unique.rows")
TIMES, MOST_WORK, MOST_BYTES, PROGRAMS_A_FILE = 3, 300, 900, 12
ELEM = {"bool": "Truth", **{f"{sign}int{n}": f"{'U' if sign else 'I'}{n}" for sign in ("", "u") for n in (8, 16, 32, 64)}}
KIND = {"index": "Index", "divide": "Divide", "assert": "Assert", "depth": "Depth"}
# What is met in any case, beside each call of the library.
KINDS = """number,truth,programIndex,programCount,brackets,cast,uniform variable,varying variable,element,element of its own,unary -,unary ~,unary !,uniform choice,
varying choice,uniform call,varying call,packed_store_active,packed_load_active,block,empty,a value alone,call without a value,uniform item,varying item,
uniform item with a value,varying item with a value,uniform local array,varying local array,a step,=,a target: a variable,a target: an element,
a target: an element of its own,uniform if,varying if,uniform if else,varying if else,uniform while,varying while,uniform do,varying do,for,foreach of 1,foreach of 2,
foreach of 3,foreach_active,foreach_unique,unmasked,break,continue,return,return of a value,print,assert,trap index,trap divide,trap assert,trap depth,ends,cut,
gang 4,gang 8,gang 16,gang 32""".replace("\n", "").split(",")
OPERATORS = "+ - * / % & | ^ << >> == != < <= > >= && || += -= *= /= %= &= |= ^= <<= >>=".split()
USES = """use Rattle.std.specs.Prelude.{◌≡◌, true, false, List, [], ◌∷◌, Some, None}
use Rattle.std.proofs.Common.{refl}
use Rattle.std.specs.Fmt.{digits}
use Rattle.isp_base.specs.Values.{number_to, wrap_to, amount, not_zero}
use Rattle.isp_base.specs.Outcomes.{Ends, Traps, GoesOn}
use Rattle.isp_base.specs.Traps.{trap}
use Rattle.isp_base.specs.declared.types.Gang.TheVariants.{W4, W8, W16, W32}
use Rattle.isp_base.specs.declared.types.Elem.TheVariants.{Bool as Truth, I8, U8, I16, U16, I32, U32, I64, U64}
use Rattle.isp_base.specs.declared.types.Rate.TheVariants.{Uniform, Varying}
use Rattle.isp_base.specs.declared.trap.TrapKind.TheVariants as kind
use Rattle.isp_base.specs.declared.operators.BinOp.TheVariants as op
use Rattle.isp_base.specs.declared.operators.UnaryOp.TheVariants as un
use Rattle.isp_base.specs.declared.operators.Compare.TheVariants as cmp
use Rattle.isp_base.specs.declared.signature.Argument.{Argument}
use Rattle.isp_base.specs.declared.signature.Argument.TheVariants.{Array as AnArray, Value as AValue}
use Rattle.isp_tree.specs.declared.stmt.Form.TheVariants.{Plain, Coherent}
use Rattle.isp_tree.specs.declared.stmt.Jump.TheVariants.{Break, Continue}
use Rattle.isp_typed.specs.declared.library.Library.TheVariants as lib
use Rattle.isp_typed.specs.declared.variable.Holds.TheVariants.{Value as AVariable, Given, Local}
use Rattle.isp_typed.specs.declared.variable.Logic.TheVariants as logic
use Rattle.isp_typed.specs.Typed.{t_program_index, t_place, t_convert, t_cast, t_unary, t_binary, t_compare, t_logic, t_choose, t_call, t_library, t_packed_store}
use Rattle.isp_typed.specs.Typed.{t_packed_load, t_variable, t_element, t_whole, t_from, t_by_value, t_by_name, t_called, t_arguments, t_exprs}
use Rattle.isp_typed.specs.Typed.{t_plain, t_with_value, t_with_size, t_value, t_run, t_assign, t_update, t_step, t_first_declare, t_first_simple}
use Rattle.isp_typed.specs.Typed.{t_block, t_declare, t_simple, t_if, t_if_else, t_while, t_do, t_for, t_foreach, t_foreach_active, t_foreach_unique, t_unmasked}
use Rattle.isp_typed.specs.Typed.{t_jump, t_return, t_print, t_assert, t_braces, t_stmts, Program}
use Rattle.isp_meaning.specs.Runs.{run_of, work_of}
use Rattle.isp_tests_meaning.specs.Terms.{s, u, v, cn, ar, rg, vr, rw, fn, pr}
"""


# ---- rows


def told(text):
    return text.replace("␤", "\n").replace("␉", "\t")


def records(name):
    """Gives each program of a file of rows: its name, source, gang, entry and arguments, and its runs."""
    with open(os.path.join(DATA, name), encoding="utf-8") as it:
        texts = it.read().split("=== ")[1:]
    for text in texts:
        lines = text.split("\n")
        record = {"file": name, "name": lines[0], "runs": []}
        for line in lines[1:]:
            word, _, rest = line.partition(" ")
            if word in ("source", "gang", "entry", "arguments"):
                record[word] = told(rest)
            elif word == "turns":
                record["runs"].append({"turns": int(rest)})
            elif word in ("work", "writes", "ends", "traps", "cut") and record["runs"]:
                record["runs"][-1][word] = told(rest)
        if {"source", "gang", "entry", "arguments"} <= set(record) and record["runs"]:
            yield record


# ---- what a run meets


class Met(Machine):
    """An evaluator that notes each kind of node that is reached over a set that is not empty."""

    def __init__(self, source, gang):
        super().__init__(source, gang)
        self.met = set()

    def expr(self, e, sc):
        t, r, f = super().expr(e, sc)
        note = {self.kind_of_expr(e, sc, t, r)}

        def run(a, fr):
            self.met |= note
            return f(a, fr)

        return t, r, run

    def kind_of_expr(self, e, sc, elem, rate):
        word = e[0]
        if word == "num":
            return "truth" if elem == "bool" else "number"
        if word == "var":
            return f"{rate} variable"
        if word in ("un", "bin"):
            return f"{'unary ' if word == 'un' else ''}{e[1]}"
        if word == "index":
            return "element of its own" if self.find(sc, e[1])[2] == "varying" else "element"
        if word == "call" and e[1] in self.fs:
            return "call without a value" if self.fs[e[1]]["elem"] == "void" else f"{rate} call"
        if word == "call":
            return "shuffle of three" if e[1] == "shuffle" and len(e[2]) == 3 else e[1]
        return {"pi": "programIndex", "pc": "programCount", "paren": "brackets", "cast": "cast", "tern": f"{rate} choice"}[word]

    def stmt(self, it, sc):
        kinds = set(self.kinds_of_stmt(it, sc))
        f = super().stmt(it, sc)

        def run(a, fr):
            self.met |= kinds
            return f(a, fr)

        return run

    def rate(self, e, sc):
        return super().expr(e, sc)[1]

    def kinds_of_stmt(self, it, sc):
        word = it[0]
        if word == "decl":
            for _, kind, _ in it[3]:
                yield {"none": f"{it[2]} item", "init": f"{it[2]} item with a value", "array": f"{it[2]} local array"}[kind]
        elif word == "assign":
            yield "a step" if it[3] is None else f"{it[1]}="
            yield "a target: " + ("a variable" if it[2][0] == "var" else "an element of its own" if self.find(sc, it[2][1])[2] == "varying" else "an element")
        elif word == "if":
            yield f"{self.rate(it[1], sc)} if{' else' if it[3] else ''}"
        elif word == "loop":
            yield f"{self.rate(it[2], sc)} {'while' if it[5] else 'do'}"
        elif word == "for":
            yield "for"
        elif word == "foreach":
            yield f"foreach of {len(it[1])}"
        elif word in ("print", "assert"):
            for e in it[2] if word == "print" else [it[1]]:
                yield f"{self.rate(e, sc)} value in {word}"
            yield word
        elif word == "return":
            yield "return" if it[1] is None else "return of a value"
        else:
            yield {"active": "foreach_active", "unique": "foreach_unique", "expr": "a value alone"}.get(word, word)


def met(record, run):
    """Returns the kinds that a run meets, and its work."""
    machine = Met(record["plain"], int(record["gang"]))
    kind, what, out, work = machine.run(record["entry"], record["arguments"], run["turns"])
    kinds = machine.met | {f"gang {record['gang']}", f"trap {what[0]}" if kind == "Traps" else kind.lower()}
    assert ("ends" if kind == "Ends" else "traps" if kind == "Traps" else "cut") in run and str(work) == run.get("work", str(work)), record["name"]
    return kinds, work


# ---- theorems


def wrapped(text, first="", width=150):
    """Breaks a term between its words; a record stays in one line."""
    lines, line = [], first
    for word in re.findall(r"\(record \{.*?\}\)\S*|\S+", text):
        if line.strip() and len(line) + 1 + len(word) > width:
            lines.append(line)
            line = "    " + word
        else:
            line += ("" if not line or line.endswith(" ") else " ") + word
    return "\n".join([*lines, line])


def bits(elem, value):
    return int(value) % (1 << (1 if elem == "Truth" else int(elem[1:])))


def row(elem, values):
    return f"(rw {elem} (" + " ∷ ".join([*(str(bits(elem, value)) for value in values), "[]"]) + "))"


def argument(variable, value):
    if variable.size:
        return f"(AnArray {row(variable.elem, value)})"
    return f"(AValue (record {{ elem = {variable.elem}; bits = {bits(variable.elem, value)} }}))"


def listed(terms):
    return "(" + " ∷ ".join([*terms, "[]"]) + ")"


def codes(text):
    return "(" + " ∷ ".join([*(str(byte) for byte in text.encode()), "[]"]) + ")"


def end_of(record, run, front, params):
    """The outcome of a run as a term."""
    out = codes(run.get("writes", ""))
    if "cut" in run:
        return f"GoesOn {out}"
    answer = json.loads(run["ends"] if "ends" in run else run["traps"].split(" ", 2)[2])
    arrays = listed(row(it.elem, answer["arrays"][name]) for name, it in params if it.size)
    if "ends" in run:
        elem = front.heading_of[record["entry"]][1]
        given = "None" if answer["result"] is None else f"(Some (record {{ elem = {elem[1]}; bits = {bits(elem[1], answer['result'])} }}))"
        return f"Ends {arrays} {given} {out}"
    kind, instance, _ = run["traps"].split(" ", 2)
    data = record["source"].encode()
    start = data.index("⟦".encode())
    return f"Traps (trap kind.{KIND[kind]} (s {start} {data.index('⟧'.encode()) - len('⟦'.encode())}) {instance}) {arrays} {out}"


def theorems(number, record):
    """Gives the lines of a program: its source, its tree, its arguments, and what each run that was chosen comes to."""
    front = Front(record["plain"], int(record["gang"]))
    front.heading_of = {it[0]: it for it in front.headings}
    entry = [it[0] for it in front.headings].index(record["entry"])
    params = front.headings[entry][2]
    given = json.loads(record["arguments"])
    shown = record["plain"].strip("\n").replace("\n", " ")
    yield f"-- {record['file'].removesuffix('.rows')}: {record['name']}"
    yield "\n".join("-- " + line for line in wrapped(shown, width=146).replace("\n    ", "\n").split("\n"))
    yield f"abbrev program_{number} : Program"
    yield wrapped(f"program_{number} = pr W{record['gang']} {listed(front.terms)}")
    yield f"\nabbrev arguments_{number} : List Argument"
    yield wrapped(f"arguments_{number} = {listed(argument(it, given[name]) for name, it in params)}")
    for run in record["chosen"]:
        of = f"{number}_of_{run['turns']}"
        asked = f"program_{number} {entry} {run['turns']} arguments_{number}"
        yield "\n" + wrapped(f"run_{of} : run_of {asked} ≡ {end_of(record, run, front, params)}")
        yield f"unfolding digits number_to wrap_to amount not_zero\nrun_{of} = refl"
        if "work" in run:
            yield f"\nwork_{of} : work_of {asked} ≡ {run['work']}\nunfolding digits number_to wrap_to amount not_zero\nwork_{of} = refl"
    yield ""


# ---- which rows


def candidates():
    """Gives each run that may be chosen, with the kinds that it meets and how much there is to prove."""
    for name in OUTSIDE + BY_HAND:
        for record in records(name):
            record["plain"] = record["source"].replace("⟦", "").replace("⟧", "")
            if len(record["plain"]) + len(record["arguments"]) // 2 > MOST_BYTES:
                continue
            for run in record["runs"]:
                try:
                    kinds, work = met(record, run)
                except (Long, RecursionError):
                    continue
                if len(run.get("traps", "").split(" ", 2)) != 2 and len(run.get("writes", "")) <= MOST_WORK and (work <= MOST_WORK or "trap depth" in kinds):
                    yield record, run, kinds, len(record["plain"]) + 2 * work


def chosen():
    """Returns the records that are chosen, each with its runs: the greatest gain for its length first, what is found outside before what is by hand."""
    found, left = [], list(candidates())
    count, wanted = collections.Counter(), {*KINDS, *OPERATORS, *("shuffle of three" if it == "shuffle_two" else it for it in LIBRARY)}
    for files in (OUTSIDE, OUTSIDE + BY_HAND):
        while True:
            best = max(
                (it for it in left if it[0]["file"] in files),
                key=lambda it: (sum(1 for kind in it[2] if kind in wanted and count[kind] < TIMES) / it[3], it[0]["file"], it[0]["name"]),
            )
            if not any(kind in wanted and count[kind] < TIMES for kind in best[2]):
                break
            # one source is not tried by other gangs or arguments
            left = [it for it in left if it is not best and (it[0] is best[0] or it[0]["plain"] != best[0]["plain"])]
            count.update(best[2])
            found.append(best)
    return found, {kind: count[kind] for kind in wanted}


def by_record(found):
    records_of = {}
    for record, run, _, _ in found:
        records_of.setdefault((record["file"], record["name"]), record).setdefault("chosen", []).append(run)
    order = OUTSIDE + BY_HAND
    return sorted(records_of.values(), key=lambda it: (order.index(it["file"]), [int(w) if w.isdigit() else w for w in re.split(r"(\d+)", it["name"])]))


def used(line, body):
    """An import without the names that a file does not use."""
    head, opening, names = line.partition("{")
    if not opening:
        return line if re.search(rf"\b{line.split(' as ')[1].strip()}\.", body) else ""
    kept = [it for it in names.rstrip("}\n").split(", ") if re.search(rf"(?<![\w.]){re.escape(it.split(' as ')[-1].strip('◌'))}(?!\w)", body)]
    return f"{head}{{{', '.join(kept)}}}\n" if kept else ""


def files():
    """Returns the text of each file, and how often each kind is met."""
    found, count = chosen()
    all_of = by_record(found)
    texts = {}
    for at in range(0, len(all_of), PROGRAMS_A_FILE):
        part = all_of[at : at + PROGRAMS_A_FILE]
        body = "\n".join(line for number, record in enumerate(part, at) for line in theorems(number, record))
        uses = "".join(used(line + "\n", body) for line in USES.strip("\n").split("\n"))
        named = f"Sampled{at // PROGRAMS_A_FILE + 1}"
        head = f"-- Programs {at} to {at + len(part) - 1} of rows that were found outside, as theorems. Written by tools/sample_theorems.py."
        texts[named] = f"{head}\n{uses}\n{body}"
    return texts, count


# ---- trees of another hand


def nested(text):
    """A term as nested tuples, without needless brackets."""
    def go(words):
        out = []
        for word in words:
            if word == "(":
                out.append(go(words))
            elif word == ")":
                break
            else:
                out.append("Plain" if word == "Coherent" else word)
        return out[0] if len(out) == 1 else tuple(out)

    return go(iter(re.findall(r"[()]|[^\s()]+", text)))


def trees():
    """Returns how many trees beside a source of the other files are those of tools/typed_tree.py, and the names of those that are not."""
    same, other = 0, []
    for file in sorted(it for it in glob.glob(os.path.join(PROOFS, "*.antt")) if not os.path.basename(it).startswith("Sampled")):
        with open(file, encoding="utf-8") as it:
            text = it.read()
        for m in re.finditer(r"((?:^-- [^\n]*\n)+)abbrev program_(\d+) : Program\nprogram_\2 = pr W(\d+) (.*?)\n\n", text, re.M | re.S):
            source = " ".join(line[3:] for line in m[1].strip().split("\n"))
            if nested(listed(Front(source, int(m[3])).terms)) == nested(m[4]):
                same += 1
            else:
                other.append(f"program_{m[2]} of {os.path.basename(file)}")
    return same, other


def main():
    texts, count = files()
    wrong = [f"{kind} in {n} programs" for kind, n in sorted(count.items()) if n < TIMES]
    for name, text in texts.items():
        path = os.path.join(PROOFS, f"{name}.antt")
        if sys.argv[1:] == ["--check"]:
            with open(path, encoding="utf-8") as it:
                wrong += [] if it.read() == text else [f"another {name}"]
        else:
            with open(path, "w", encoding="utf-8") as it:
                it.write(text)
    same, other = trees()
    programs, theorems = (sum(text.count(word) for text in texts.values()) for word in (" : Program\n", "= refl"))
    print(f"{theorems} theorems of {programs} programs; {len(count)} kinds, each in {TIMES} or more; {same} trees are those of another hand")
    for it in wrong + other:
        print(f"tools/sample_theorems.py: {it}", file=sys.stderr)
    return 1 if wrong or other else 0


if __name__ == "__main__":
    sys.exit(main())
