#!/usr/bin/env python3
"""Writes crates/isp_tests_cases/data/full_runs.rows: the runs of a `foreach`, those that have all lanes and the last one, as tools/gang.py finds them.

    tools/run_rows.py

Each program runs over so many numbers that it has no full run, one, or two, with and without a last run of fewer lanes, at each gang.
"""
import json

from wide_rows import DATA, found, spelt

HEAD = """. The runs of a `foreach`: those that have all lanes, and the last one, which has fewer.
. Found by an evaluator in Python, tools/gang.py. Written by tools/run_rows.py.
"""
GREATEST = 2**31 - 1


def lengths(gang):
    """No number, one, and as many as bring none, one or two full runs, with and without a last run."""
    return (0, 1, gang - 1, gang, gang + 1, 2 * gang, 2 * gang + 1)


def elements(count):
    return [3 * k + 1 for k in range(count)]


def programs(gang):
    """Each program with its arguments."""
    n = 2 * gang + 1
    yield "elements by runs", "export void f(uniform int a[], uniform int n) { foreach (i = 0 ... n) a[i] = a[i] + 1; }", [
        {"a": elements(k), "n": k} for k in lengths(gang)
    ] + [{"a": elements(3), "n": -5}]
    yield "the index at either end", "export void f(uniform int a[], uniform int s, uniform int n) { foreach (i = s ... n) a[i - s] = i; }", [
        {"a": [0] * k, "s": start, "n": start + k}
        for k in lengths(gang)
        for start in (-GREATEST - 1, -gang, GREATEST - k)
    ] + [{"a": [0], "s": GREATEST, "n": -GREATEST - 1}, {"a": [0], "s": -GREATEST - 1, "n": -GREATEST - 1}]
    yield "some continue", (
        "export void f(uniform int a[], uniform int b[], uniform int n) { foreach (i = 0 ... n)"
        " { if (i % 3 == 1) continue; a[i] = i; unmasked { b[programIndex] += i; } } }"
    ), [{"a": [9] * k, "b": [0] * gang, "n": k} for k in lengths(gang)]
    yield "all of a run continue", (
        "export void f(uniform int a[], uniform int n, uniform int m) { foreach (i = 0 ... n) { if (i >= m) continue; a[i] = i; } }"
    ), [{"a": [9] * n, "n": n, "m": m} for m in (0, 1, gang, gang + 1)]
    yield "prints of each run", 'export void f(uniform int n) { foreach (i = 0 ... n) { print("% ", i); if (i % 2 == 0) print("%\\n", -i); } }', [
        {"n": k} for k in lengths(gang)
    ]
    yield "a division by zero", 'export void f(uniform int a[], uniform int n, uniform int t) { foreach (i = 0 ... n) { print("%\\n", i); a[i] = 7 / (i - t); } }', [
        {"a": [0] * n, "n": n, "t": t} for t in (0, gang - 1, gang, 2 * gang - 1, 2 * gang, n)
    ]
    yield "an element past the end", "export void f(uniform int a[], uniform int n) { foreach (i = 0 ... n) a[i] = i; }", [
        {"a": [0] * k, "n": n} for k in (0, 1, gang, 2 * gang - 1, 2 * gang)
    ]
    yield "two ranges, some continue", (
        "export void f(uniform int a[], uniform int m, uniform int n) { foreach (y = 0 ... m, x = 0 ... n)"
        " { if ((x + y) % 2 == 0) continue; a[y * n + x] = 100 * y + x; } }"
    ), [{"a": [9] * (3 * k), "m": 3, "n": k} for k in lengths(gang)]
    yield "three ranges", (
        "export void f(uniform int a[], uniform int n) { foreach (z = -1 ... 1, y = 5 ... 7, x = 0 ... n)"
        ' { a[((z + 1) * 2 + y - 5) * n + x] = 100 * z + 10 * y + x; print("%", y); } }'
    ), [{"a": [9] * (4 * k), "n": k} for k in lengths(gang)]
    yield "a call in the body", (
        "int g(int x) { if (x % 2 == 0) return x; print(\"%,\", x); return -x; }"
        " export void f(uniform int a[], uniform int n) { foreach (i = 0 ... n) a[i] = g(i) + g(i + 1); }"
    ), [{"a": [0] * k, "n": k} for k in lengths(gang)]
    yield "local arrays", (
        "export void f(uniform int a[], uniform int n) { int u[2]; uniform int s[2]; foreach (i = 0 ... n)"
        " { int t[3]; t[i % 3] = i; u[i % 2] += i; s[0] += 1; a[i] = t[(i + 1) % 3] + t[i % 3] + 1000 * s[0]; }"
        ' print("% % %\\n", s[0], u[0], u[1]); }'
    ), [{"a": [0] * k, "n": k} for k in lengths(gang)]
    yield "loops and turns in the body", (
        "export void f(uniform int a[], uniform int n) { foreach (i = 0 ... n) { int k = 0; while (true) { if (k >= i % 4) break; k++; if (k == 2) continue; a[i] += k; }"
        " foreach_active (j) { if (j % 2 == 1) continue; a[i] += 100; } } }"
    ), [{"a": [0] * k, "n": k} for k in lengths(gang)]
    yield "a bound that the body writes", "export void f(uniform int a[], uniform int n) { uniform int m = n; foreach (i = 0 ... m) { m = 0; a[i] = i + m; } a[0] = m; }", [
        {"a": [9] * (k + 1), "n": k} for k in lengths(gang)
    ]


def records():
    """Each program at each gang; one with a place of a trap for each place."""
    for gang in (4, 8, 16, 32):
        for name, source, given in programs(gang):
            told = {}
            for arguments in given:
                text = json.dumps(arguments, separators=(",", ":"))
                where, ending, output, work = found(source, gang, "f", text, 100000)
                told.setdefault(where, []).append((text, ending, output, work))
            for number, (where, runs) in enumerate(told.items()):
                yield f"{name}, {gang}" + f", {number}" * (number > 0), where, gang, runs


def lines_of(name, source, gang, runs):
    yield f"=== {name}"
    yield f"source {spelt(source)}"
    yield f"gang {gang}"
    yield "entry f"
    yield "turns 100000"
    for arguments, ending, output, work in runs:
        yield f"arguments {arguments}"
        yield f"work {work}"
        if output:
            yield f"writes {spelt(output)}"
        yield ending


def main():
    lines = [line for record in records() for line in lines_of(*record)]
    (DATA / "full_runs.rows").write_text(HEAD + "\n".join(lines) + "\n", encoding="utf-8")


if __name__ == "__main__":
    main()
