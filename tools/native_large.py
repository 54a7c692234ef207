"""A kernel of 10,000 lines as a C file, built where a line is a call (include/isp_calls.h). `tools/native-test --large` calls this.

Each of gcc and clang has a minute of the processor's time, without optimization and with `-O1 -DISP_CALLS`. What the kernel then does is compared with what
tools/gang.py, which evaluates the source, finds: an end, and a trap behind some 5,000 lines.
"""
import json
import os
import resource
import subprocess
import tempfile

from gang import Machine
from native_edges import joined

GANG = 8
LINES = 10_000
SECONDS = 60
COMPILERS = ("gcc", "clang")
MODES = (["-O0"], ["-O1", "-DISP_CALLS"])
STRICT = ["-std=gnu11", "-Wall", "-Wextra", "-Werror"]

HEAD = """int mixed(int x, uniform int k) {
    if (x < 0) x = ~x;
    return x ^ k;
}
export uniform int f(uniform int a[], uniform int64 b[], uniform int n) {
    int i = programIndex;
    int x = a[programIndex];
    int y = 1;
    int64 w = 0;
"""
TAIL = """    b[programIndex] = w;
    a[programIndex] = x + y;
    return n;
}
"""
# lines of mixed kinds, one behind the other; the last turns into a trap where n is below 0
KINDS = (
    "x = x * {c} + a[i];",
    "if (x > {c}) a[i] = x; else y += x / {c};",
    "y = (y ^ {k}) - (x >> {s});",
    "w += x;",
    "i = (i + y) & 7;",
    "n = n * 5 + {c};",
    "x = y < n ? x + {c} : x - y;",
    "if (n % 3 == 0) y = rotate(y, {s});",
    "b[i] = w ^ {k};",
    "x = mixed(x, {c});",
    "while (y > 1000) y /= {c};",
)
ARRAYS = {"a": [5, -7, 11, 0, 123456, -2147483648, 2147483647, 64], "b": [0, 1, -2, 3, 4, 5, 6, 7]}

MAIN = """
#include <stdio.h>
int main(int count, char **words)
{{
    static const char *const kinds[] = {{"divide", "index", "assert", "depth"}};
    if (count != 2)
        return 9;
    int32_t a[] = {{{a}}}, result = 0;
    int64_t b[] = {{{b}}};
    struct isp_run run = {{0}};
    enum isp_end end = CALLED_f(&run, a, {count}, b, {count}, (int32_t)strtol(words[1], NULL, 10), &result);
    for (int i = 0; i < {count}; i++)
        printf("%d %lld\\n", a[i], (long long)b[i]);
    if (end == ISP_TRAPPED)
        printf("%s %u %u %u\\n", kinds[run.kind], run.place.start, run.place.end, run.instance);
    else
        printf("%d %d\\n", end, result);
    return 0;
}}
"""


def source(lines):
    """A kernel of so many lines in its body. In the middle it divides by n + 1 in the instances whose number is odd."""
    body = []
    for k in range(lines):
        if k == lines // 2:
            body.append("    if (programIndex % 2 == 1) w += 1000 / (m + 1);")
        else:
            body.append("    " + KINDS[k % len(KINDS)].format(k=k, c=3 + k % 50, s=1 + k % 7))
    return HEAD.replace("    int64 w = 0;\n", "    int64 w = 0;\n    int m = n;\n") + "\n".join(body) + "\n" + TAIL


def wanted(text, n):
    """What the program prints, found from the source."""
    kind, what, _, _ = Machine(text, GANG).run("f", json.dumps({**ARRAYS, "n": n}), 1_000_000)
    answer = json.loads(what if kind == "Ends" else what[4])
    rows = [f"{x} {z}" for x, z in zip(answer["arrays"]["a"], answer["arrays"]["b"])]
    last = f"0 {answer['result']}" if kind == "Ends" else " ".join(map(str, what[:4]))
    return "\n".join([*rows, last]) + "\n"


def seconds_of(words):
    """Runs a program, and returns how it went and the seconds of the processor."""
    before = resource.getrusage(resource.RUSAGE_CHILDREN)
    made = subprocess.run(words, capture_output=True, text=True)
    after = resource.getrusage(resource.RUSAGE_CHILDREN)
    return made, after.ru_utime + after.ru_stime - before.ru_utime - before.ru_stime


def differences(of_source, include, lines=LINES):
    """Builds and runs the kernel in each mode. Returns how many were tried, a line for each that differs, and a line for each time."""
    text = source(lines)
    main = MAIN.format(count=GANG, **{name: ", ".join(f"{z}ll" if name == "b" else f"(int32_t){z}ll" for z in row) for name, row in ARRAYS.items()})
    answers = {n: wanted(text, n) for n in (7, -1)}
    c_file = joined(of_source(GANG, text), main)
    tried, wrong, times = 0, [], []
    with tempfile.TemporaryDirectory() as folder:
        path = f"{folder}/large.c"
        with open(path, "w", encoding="utf-8") as file:
            file.write(c_file)
        for compiler in COMPILERS:
            for mode in MODES:
                name = " ".join([compiler, *mode])
                tried += 1
                made, seconds = seconds_of([compiler, *STRICT, *mode, "-I", include, path, "-o", f"{folder}/large"])
                times.append(f"{name}: {lines} lines in {seconds:.1f} seconds of the processor")
                if made.returncode:
                    wrong.append(f"{name}: {made.stderr[:2000]}")
                    continue
                if seconds >= SECONDS:
                    wrong.append(f"{name}: {seconds:.1f} seconds for {lines} lines")
                for n, answer in answers.items():
                    ran = subprocess.run([f"{folder}/large", str(n)], capture_output=True, text=True, timeout=600)
                    if (ran.returncode, ran.stdout) != (0, answer):
                        wrong.append(f"{name}: n = {n}: {ran.returncode} {ran.stdout}{ran.stderr}, not {answer}")
    return tried, wrong, times
