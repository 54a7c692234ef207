#!/usr/bin/env python3
"""Writes library.rows, packed.rows and pairs.rows of crates/isp_tests_cases/data: texts and what becomes of them.

Each call of the library stands here once with what it takes and gives, as docs/LANGUAGE.md has it,
and each fault of names, types and rates once; the rows hold each call with each kind of wrong
argument, each packed call with a wrong number of arguments, and each two faults in either order. Nothing is taken from the crates.

    python3 tools/source_table.py             writes them
    python3 tools/source_table.py --check     ends with status 1 where one is stale
"""
import sys

sys.dont_write_bytecode = True
import written  # noqa: E402

# What each argument is: x a value, i a uniform value. What comes out: uniform, varying, or as the arguments are.
CALLS = {
    "reduce_add": ("x", "uniform"),
    "reduce_min": ("x", "uniform"),
    "reduce_max": ("x", "uniform"),
    "reduce_equal": ("x", "uniform"),
    "any": ("x", "uniform"),
    "all": ("x", "uniform"),
    "none": ("x", "uniform"),
    "exclusive_scan_add": ("x", "varying"),
    "exclusive_scan_and": ("x", "varying"),
    "exclusive_scan_or": ("x", "varying"),
    "broadcast": ("xi", "varying"),
    "rotate": ("xi", "varying"),
    "shift": ("xi", "varying"),
    "shuffle": ("xx", "varying"),
    "shuffle of two": ("xxx", "varying"),
    "extract": ("xi", "uniform"),
    "insert": ("xii", "varying"),
    "min": ("xx", "as they are"),
    "max": ("xx", "as they are"),
    "clamp": ("xxx", "as they are"),
    "abs": ("x", "as they are"),
    "select": ("xxx", "as they are"),
}
NO_VALUES = ["a", "g()", "&v"]
PACKED = ["packed_store_active", "packed_load_active"]
# Arguments that are faultless by themselves, and such that are not, with the fault and its place.
REFERENCES = ["&a", "&v", "&u", "&c", "&a[0]", "&d[v]", "&v[1]"]
ALONE = ["a", "c", "v", "1", "t", "g()", "h(v)"]
FAULTY = [
    ("20 UnknownName", "⟦zz⟧"),
    ("20 UnknownName", "&⟦zz⟧"),
    ("20 UnknownName", "&⟦zz⟧[0]"),
    ("20 UnknownName", "&a[⟦zz⟧]"),
    ("22 Mismatch", "&a[⟦a⟧]"),
    ("22 Mismatch", "&a[⟦g()⟧]"),
    ("22 Mismatch", "(⟦a⟧)"),
    ("22 Mismatch", "1 + ⟦g()⟧"),
    ("23 Arguments", "⟦h()⟧"),
]
FAULTS = {
    "20 UnknownName": "v = ⟦zz⟧;",
    "21 NameTwice": "int ⟦v⟧;",
    "22 Mismatch": "v = ⟦a⟧;",
    "23 Arguments": "⟦g(1)⟧;",
    "24 ConstAssigned": "⟦c[0]⟧ = 1;",
    "25 BadPrint": 'print(⟦"%"⟧);',
    "30 VaryingToUniform": "u = ⟦v⟧;",
    "31 BadExit": "⟦break⟧;",
    "32 NestedForeach": "foreach (i = 0 ... 4) ⟦foreach⟧ (j = 0 ... 4) ;",
}


# The functions before the statements of a row, and the head of the function that they stand in.
FRAME = (
    "void g() { } int h(int x) { return x; } uniform int k(uniform int x) { return x; }␤"
    "void w(uniform int b[]) { } void r(const uniform int b[]) { } void q(uniform int8 b[]) { }␤"
    "void f(uniform int a[], const uniform int c[], uniform int8 d[], uniform int u, int v, bool t) { … }"
)


def file(says, rows):
    """Returns the text of a file of rows."""
    head = f". {says}.\n. Written by tools/source_table.py from the rules of the language.\n=== {says.lower()}\nframe {FRAME}\n"
    return head + "".join(f"{row}\n" for row in rows)


def call(name, arguments):
    return f"{name.split()[0]}({', '.join(arguments)})"


def library():
    for name, (kinds, gives) in CALLS.items():
        right = ["v" if kind == "x" else "u" for kind in kinds]
        uniform = ["u"] * len(kinds)
        yield f"accepts v = {call(name, right)}; v = {call(name, uniform)};"
        if gives == "varying":
            yield f"refuses 30 VaryingToUniform|u = ⟦{call(name, uniform)}⟧;"
        else:
            yield f"accepts u = {call(name, right if gives == 'uniform' else uniform)};"
        for place, kind in enumerate(kinds):
            for wrong in NO_VALUES:
                yield f"refuses 22 Mismatch|{call(name, right[:place] + [f'⟦{wrong}⟧'] + right[place + 1:])};"
            if kind == "i":
                yield f"refuses 30 VaryingToUniform|{call(name, right[:place] + ['⟦v⟧'] + right[place + 1:])};"
            if gives == "as they are":
                yield f"refuses 30 VaryingToUniform|u = ⟦{call(name, uniform[:place] + ['v'] + uniform[place + 1:])}⟧;"
        if name != "shuffle of two":
            yield f"refuses 23 Arguments|⟦{call(name, right[1:])}⟧;"
        if name != "shuffle":
            yield f"refuses 23 Arguments|⟦{call(name, right + ['v'])}⟧;"


def packed():
    for name in PACKED:
        yield f"refuses 23 Arguments|⟦{call(name, [])}⟧;"
        for one in ALONE + REFERENCES:
            yield f"refuses 23 Arguments|⟦{call(name, [one])}⟧;"
            yield f"refuses 23 Arguments|u = ⟦{call(name, [one, one, one])}⟧;"
        for place in range(3):
            for one in REFERENCES:
                some = ["a", "v", "1"]
                some[place] = one
                yield f"refuses 23 Arguments|⟦{call(name, some)}⟧;"
            for fault, one in FAULTY:
                some = ["&a", "&v", "&c"]
                some[place] = one
                yield f"refuses {fault}|{call(name, some)};"
    # another call keeps no `&`, whatever the number of its arguments
    for name in ["g", "h", "w", "min", "rotate"]:
        for one in REFERENCES:
            yield f"refuses 22 Mismatch|{call(name, [f'⟦{one}⟧', 'v', 'v'])};"


def pairs():
    bare = str.maketrans("", "", "⟦⟧")
    for first, one in FAULTS.items():
        for second, other in FAULTS.items():
            if first == second:
                continue
            # names and types come before rates and exits; else the place that ends first
            if first >= "30" and second < "30":
                yield f"refuses {second}|{one.translate(bare)} {other}"
            else:
                yield f"refuses {first}|{one} {other.translate(bare)}"


FILES = {
    "library": file("Each call of the library, with each kind of wrong argument", library()),
    "packed": file("Each packed call with a wrong number of arguments", packed()),
    "pairs": file("Each two faults, in either order", pairs()),
}
written.put({f"crates/isp_tests_cases/data/{name}.rows": text for name, text in FILES.items()})
