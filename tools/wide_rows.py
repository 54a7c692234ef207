#!/usr/bin/env python3
"""Writes crates/isp_tests_cases/data/wide.rows: programs by a gang of 32, and what tools/gang.py finds of each.

    tools/wide_rows.py              writes them: those of other files of rows, with arrays for 32 instances, and those that stand below
    tools/wide_rows.py --check      runs each run of the other files by tools/gang.py, at its own gang, and prints where that finds another

The format of rows stands in crates/isp_tests_programs/src/records.rt. A record of another file that 32 instances bring to another kind of end, or not to its
end soon, is left out.
"""
import json
import pathlib
import sys

from gang import Long, Machine

DATA = pathlib.Path(__file__).resolve().parent.parent / "crates/isp_tests_cases/data"
HEAD = """. Programs by a gang of 32: those of the other files, where a gang of 32 can run them, and others that look across lanes and at masks.
. Found by an evaluator in Python, tools/gang.py, which agrees with every run of the other files. Written by tools/wide_rows.py.
"""
WIDE = 32
# What stands in these files is not the work of a run, is run by 32 already, or is worked out by hand for its own gang.
LEFT_OUT = (
    "arguments.rows", "programs.rows", "kernels.rows", "wide.rows", "wide_programs.rows",
    "accesses.rows", "alone.rows", "budgets.rows", "foreach.rows", "worked.rows",
)
ALL = "export void f(uniform int a[]) { int x = programIndex + 1; a[programIndex] = %s; }"
SOME = "export void f(uniform int a[]) { int x = programIndex + 1; if (%s) a[programIndex] = %s; }"
UPPER, LOWER, EDGES = "programIndex >= 16", "programIndex < 16", "programIndex % 31 == 0"


def calls():
    """Calls that look across lanes, over all lanes and under masks."""
    yield "programCount", "export uniform int f() { return programCount; }"
    yield "the sum of all numbers", "export uniform int64 f() { return reduce_add(programIndex); }"
    yield "a local array of programCount", "export uniform int f() { uniform int t[programCount]; t[programCount - 1] = 5; return t[31]; }"
    for text in (
        "exclusive_scan_add(x)", "exclusive_scan_or(1 << programIndex)", "exclusive_scan_and(~(1 << programIndex))",
        "rotate(x, 1)", "rotate(x, -1)", "rotate(x, 16)", "rotate(x, 31)", "rotate(x, 33)", "rotate(x, -2147483647 - 1)",
        "shift(x, 1)", "shift(x, -1)", "shift(x, 16)", "shift(x, -16)", "shift(x, 31)", "shift(x, -31)", "shift(x, 32)", "shift(x, -32)",
        "broadcast(x, 31)", "broadcast(x, 32)", "broadcast(x, -1)", "insert(x, 31, 99)", "insert(x, -32, 99)",
        "shuffle(x, 31 - programIndex)", "shuffle(x, programIndex + 16)", "shuffle(x, -x, 2 * programIndex)", "shuffle(x, -x, 63 - programIndex)",
        "extract(x, 31) + extract(x, 16)", "reduce_add(x)", "reduce_max(x)", "reduce_min(-x)",
        "any(x == 32) ? 1 : 0", "all(x <= 32) ? 1 : 0", "none(x > 32) ? 1 : 0", "reduce_equal(x / 33) ? 1 : 0",
    ):
        yield text, ALL % text
        for mask in (UPPER, LOWER, EDGES):
            yield f"{text} where {mask}", SOME % (mask, text)
    for elem in ("int8", "uint8", "int16", "uint16", "uint32", "int64", "uint64", "bool"):
        yield f"a scan of {elem}", f"export void f(uniform int a[]) {{ {elem} x = 100 + programIndex; a[programIndex] = exclusive_scan_add(x); }}"
        yield f"a sum of {elem}", f"export uniform int64 f() {{ {elem} x = -100 - programIndex; return reduce_add(x); }}"


def masks():
    """Masks with lanes of the upper half off: branches, loops, stores, prints and traps."""
    for mask in (UPPER, LOWER, EDGES, "programIndex == 31", "programIndex != 16", "(programIndex & 17) == 17"):
        yield f"printed where {mask}", f'export void f() {{ if ({mask}) print("%\\n", programIndex * 3); else print("%\\n", programIndex < 20); }}'
        yield f"each alone where {mask}", f'export void f() {{ if ({mask}) foreach_active (i) print("%,", i); }}'
        yield f"packed where {mask}", (
            "export uniform int f(uniform int a[], uniform int b[]) { uniform int n = 0; int x = 0;"
            f" if ({mask}) {{ n = packed_store_active(&b[1], programIndex); n += packed_load_active(a, &x); }} a[programIndex] = x; return n; }}"
        )
        yield f"all again where {mask}", f"export uniform int64 f() {{ uniform int64 n = 0; if ({mask}) unmasked {{ n = reduce_add(programIndex); }} return n; }}"
        yield f"the highest that stores where {mask}", f"export void f(uniform int a[]) {{ int j = 1; if ({mask}) a[j] = programIndex; }}"
    yield "each leaves in its own turn", "export void f(uniform int a[]) { int i = 0; while (true) { a[programIndex] += i; if (i == 31 - programIndex) break; i++; } }"
    yield "each is left out of its own turn", "export void f(uniform int a[]) { for (int i = 0; i < 40; i++) { if (i == programIndex) continue; a[programIndex] += i; } }"
    yield "each returns in its own turn", "int g(int n) { int i = 0; while (true) { if (i >= n) return 100 + i; i++; } } export void f(uniform int a[]) { a[programIndex] = g(programIndex); }"
    yield "elements by runs", "export void f(uniform int a[], uniform int n) { foreach (i = 1 ... n) a[i] += i; }"
    yield "elements by runs of the last of two ranges", "export void f(uniform int a[], uniform int n) { foreach (y = 0 ... 2, x = 0 ... n) a[y * n + x] = 100 * y + x; }"
    yield "the last run of numbers", 'export void f(uniform int n) { foreach (i = 2147483640 - n ... 2147483647) print("%\\n", i); }'
    yield "a division by zero of the last", "export void f(uniform int a[]) { a[programIndex] = 7 / (31 - programIndex); }"
    yield "an element past the end", "export void f(uniform int a[]) { a[programIndex + 1] = 7; }"
    yield "what only the last of all breaks", "export void f() { assert(programIndex < 31); }"


def given(source):
    """Arguments for one of these programs: 32 elements, which count up from 10 in tens, and 70 elements where it takes a number."""
    arguments = {}
    if "uniform int n)" in source:
        arguments["n"] = 33
    for name in "ab":
        if f"uniform int {name}[]" in source:
            arguments[name] = [10 * (k + 1) for k in range(70 if arguments else WIDE if name == "a" else WIDE + 1)]
    return json.dumps(arguments, separators=(",", ":"))


def spelt_out(text):
    return text.replace("␤", "\n").replace("␉", "\t")


def spelt(text):
    return text.replace("\n", "␤").replace("\t", "␉")


def records(path):
    """The name of each record, its source, and each run that it tells: gang, entry, arguments, turns, and what must come out."""
    for record in path.read_text(encoding="utf-8").split("=== ")[1:]:
        name, *lines = record.split("\n")
        now, runs, source = {"turns": 0}, [], None
        for line in lines:
            word, _, rest = line.partition(" ")
            if word == "source":
                source = spelt_out(rest)
            elif word in ("gang", "turns", "work"):
                now[word] = int(rest)
            elif word in ("entry", "arguments", "writes"):
                now[word] = spelt_out(rest)
            elif word in ("ends", "traps", "cut"):
                runs.append({**now, "ending": line})
                now.pop("writes", None)
                now.pop("work", None)
        yield name, source, runs


def marked(source, trap):
    """A source with a trap's place in its brackets."""
    data, (_, start, end, *_) = source.encode(), trap
    return data[:start].decode() + "⟦" + data[start:end].decode() + "⟧" + data[end:].decode()


def found(source, gang, entry, arguments, turns):
    """The source with the place of a trap, and what comes out."""
    source = source.replace("⟦", "").replace("⟧", "")
    kind, what, output, work = Machine(source, gang).run(entry, arguments, turns)
    work = min(work, 2**64 - 1)
    if kind == "Traps":
        return marked(source, what), f"traps {what[0]} {what[3]} {what[4]}", output, work
    return source, f"ends {what}" if kind == "Ends" else "cut", output, work


def check():
    """How many runs of the other files come out as they say."""
    runs = differ = 0
    for path in sorted(DATA.glob("*.rows")):
        for name, source, told in records(path) if path.name != "wide.rows" else ():
            for run in told:
                runs += 1
                where, ending, output, work = found(source, run["gang"], run["entry"], run["arguments"], run["turns"])
                # Some rows tell no arrays of a trap.
                same = f"{ending} ".startswith(run["ending"] + " ") and output == run.get("writes", "") and work == run.get("work", work)
                if not same or (ending[0] == "t" and where != source):
                    print(f"{path.name}, {name}: {ending} {output}")
                    differ += 1
    print(f"{runs} runs, {differ} differ")
    return differ > 0


def widened(arguments, times):
    """The same with each array so many times."""
    return {name: value * times if isinstance(value, list) else value for name, value in json.loads(arguments).items()}


def by_more(source, run):
    """A run of another file by 32 instances: with the same arrays, or else with longer ones, where it comes to the same kind of end."""
    for times in (WIDE // run["gang"], 1):
        arguments = json.dumps(widened(run["arguments"], times), separators=(",", ":"))
        try:
            where, ending, output, work = found(source, WIDE, run["entry"], arguments, run["turns"])
        except Long:
            continue
        kept = ending.split()[:2] == run["ending"].split()[:2] and where == source if ending[0] == "t" else ending[0] == run["ending"][0]
        if kept:
            return {**run, "arguments": arguments, "ending": ending, "output": output, "work": work}
    return None


def others():
    """The programs of other files, by the widest of the gangs that they name."""
    for path in sorted(DATA.glob("*.rows")):
        if path.name in LEFT_OUT:
            continue
        told = {}
        for name, source, runs in records(path):
            for run in runs:
                told.setdefault((source, run["entry"]), []).append((name, run))
        for (source, _), runs in told.items():
            widest = max(run["gang"] for _, run in runs)
            wide = [(name, by_more(source, run)) for name, run in runs if run["gang"] == widest]
            wide = [(name, run) for name, run in wide if run]
            if wide:
                name = wide[0][0].removesuffix(f", {widest}")
                yield f"{path.stem}, {name}", source, [run for _, run in wide]


def new():
    """The programs that stand above."""
    for name, source in (*calls(), *masks()):
        arguments = given(source)
        where, ending, output, work = found(source, WIDE, "f", arguments, 1000)
        run = {"entry": "f", "arguments": arguments, "turns": 1000, "ending": ending, "output": output, "work": work}
        yield name, where, [run]


def lines_of(name, source, runs):
    yield f"=== {name}"
    yield f"source {spelt(source)}"
    yield f"gang {WIDE}"
    for run in runs:
        yield f"entry {run['entry']}"
        yield f"arguments {spelt(run['arguments'])}"
        yield f"turns {run['turns']}"
        yield f"work {run['work']}"
        if run["output"]:
            yield f"writes {spelt(run['output'])}"
        yield run["ending"]


def write():
    lines = [line for record in (*new(), *others()) for line in lines_of(*record)]
    (DATA / "wide.rows").write_text(HEAD + "\n".join(lines) + "\n", encoding="utf-8")


if __name__ == "__main__":
    sys.exit(check() if "--check" in sys.argv else write())
