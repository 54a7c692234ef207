"""What the C file of a kernel does at its edges, which no single instruction shows. `tools/native-test --edges` calls this.

- Names of the source that are words of C, or of the C file itself, as the entry and as a parameter.
- Every budget: with -DISP_STEPS the C file stops at the same instruction as `isp run --budget`, with the same output and answer.
- Memory: each local array that a run takes is refused in turn. The run says so, and what it had taken is given back.
- Output: each piece that is written is refused in turn. The run stops there.
- Length: a kernel of 400 lines is built within a minute. (One of 10,000 lines is built by tools/native_large.py.)

Budgets, memory and output are tried with -O1 and with -O0, where each line of vectors is a call. Names are tried with -O0.
"""
import os
import re
import subprocess
import tempfile
import time

COMPILERS = ("gcc", "clang")
STRICT = ["-std=gnu11", "-Wall", "-Wextra", "-Werror"]
LEAKS = ["-fsanitize=undefined,address", "-fno-sanitize-recover=all"]
# each line in its place, and each line a call (include/isp_calls.h)
FORMS = (["-O1"], ["-O0"])

# words of C, and of the C file and its header, none of which isp reserves
NAMES = """main register int8_t uint64_t auto restrict volatile asm errno INT_MAX malloc calloc memcpy run result depth kind m0_given
    f0 t0 p0 L1 v0 s0 a0 m1 isp_run isp_end ISP_GANG ISP_ENDED FUNC CALL RET ADD ispm_k ispm_mask n_a p_a write to given""".split()

COUNTED = """export uniform int {entry}(uniform int {array}[], uniform int count) {{
    foreach (i = 0 ... count) {{ {array}[i] = {array}[i] + i; }}
    return count * 2;
}}
"""

TOLD = """
#include <stdio.h>
int main(void)
{{
    int32_t a[] = {{10, 20, 30, 40, 50}}, result = 0;
    struct isp_run run = {{0}};
    enum isp_end end = CALLED_{entry}(&run, a, 5, 5, &result);
    printf("%d %d %d %d %d %d %d\\n", end, result, a[0], a[1], a[2], a[3], a[4]);
    return 0;
}}
"""

# calls, local arrays, output within a loop, lanes that leave it, and a division by 0 in the fourth round
LONG = """int other(int x, uniform int k) {
    uniform int all[2];
    int own[3];
    all[1] = k;
    own[k] = x;
    return own[k] + all[1];
}
export void f(uniform int a[]) {
    int x = a[programIndex];
    for (uniform int k = 0; k < 5; k++) {
        if (x > 40) break;
        print("k % x %\\n", k, x);
        x = x + other(x, k % 3) / (3 - k);
        a[programIndex] = x;
    }
}
"""

# functions that give nothing back, called by some lanes and by none, and an end
ENDING = """void mark(uniform int a[], int x) {
    a[programIndex] = x;
}
export void f(uniform int a[]) {
    int x = a[programIndex];
    if (x > 20) mark(a, x - 1);
    if (x > 50) mark(a, 0);
    print("x %\\n", x);
}
"""

BUDGETS = """
#include <stdio.h>
static bool keep(void *to, const char *bytes, size_t count)
{
    (void)to;
    return fwrite(bytes, 1, count, stdout) == count;
}
int main(int count, char **words)
{
    if (count != 2)
        return 9;
    static const char *const kinds[] = {"divide", "index", "assert", "depth"};
    int32_t a[] = {1, 2, 30, 41};
    struct isp_run run = {.write = keep, .most_steps = strtoull(words[1], NULL, 10)};
    enum isp_end end = CALLED_f(&run, a, 4);
    if (end == ISP_NO_STEPS)
        fprintf(stderr, "isp: budget used\\n");
    if (end == ISP_TRAPPED)
        fprintf(stderr, "isp: trap %s at %u..%u, instance %u\\n", kinds[run.kind], run.place.start, run.place.end, run.instance);
    if (end == ISP_ENDED)
        printf("{\\"arrays\\":{\\"a\\":[%d,%d,%d,%d]},\\"result\\":null}\\n", a[0], a[1], a[2], a[3]);
    return end == ISP_ENDED ? 0 : end == ISP_TRAPPED ? 3 : end == ISP_NO_STEPS ? 4 : 7;
}
"""

# Refuses the growth, and the piece of output, of that number; 0 refuses none.
REFUSING = """#include <stdbool.h>
#include <stddef.h>
static unsigned long grown, refused_growth;
static void *sparing(size_t n, size_t size);
"""

REFUSED = """
#undef calloc
#include <stdio.h>
static void *sparing(size_t n, size_t size)
{
    return ++grown == refused_growth ? NULL : calloc(n, size);
}
static unsigned long written, refused_write;
static bool keep(void *to, const char *bytes, size_t count)
{
    (void)to;
    return ++written != refused_write && fwrite(bytes, 1, count, stdout) == count;
}
int main(int count, char **words)
{
    if (count != 3)
        return 9;
    refused_growth = strtoul(words[1], NULL, 10);
    refused_write = strtoul(words[2], NULL, 10);
    int32_t a[] = {1, 2, 30, 41};
    struct isp_run run = {.write = keep};
    enum isp_end end = CALLED_f(&run, a, 4);
    fprintf(stderr, "%lu %lu\\n", grown, written);
    return end == ISP_ENDED ? 0 : end == ISP_TRAPPED ? 3 : end == ISP_NO_MEMORY ? 7 : 9;
}
"""


def joined(text, program):
    """A C file with a program behind it, where CALLED_ stands for what the file's names begin with."""
    return text + program.replace("CALLED_", re.search(r"^enum isp_end ([a-z]+_)\w+\(struct isp_run", text, re.M)[1])


class Edges:
    """What the tests share: the built program, what writes C files, where the header is, and what has differed so far."""

    def __init__(self, isp, of_source, include):
        self.isp, self.of_source, self.include = isp, of_source, include
        self.tried, self.wrong = 0, []

    def check(self, name, found, wanted):
        self.tried += 1
        if found != wanted:
            self.wrong.append(f"{name}: {found}, not {wanted}")

    def built(self, folder, compiler, text, flags):
        """Builds a C file, and returns the program, or None."""
        base = f"{folder}/{compiler}{len(os.listdir(folder))}"
        with open(base + ".c", "w", encoding="utf-8") as file:
            file.write(text)
        words = [compiler, *STRICT, "-I", self.include, *flags, base + ".c", "-o", base]
        made = subprocess.run(words, capture_output=True, text=True)
        if made.returncode:
            self.wrong.append(f"{' '.join(words)}: {made.stderr[:2000]}")
            return None
        return base

    def said(self, *words):
        ran = subprocess.run(words, capture_output=True, text=True, timeout=60)
        return ran.returncode, ran.stdout, ran.stderr

    def names(self, folder, compiler):
        """Each name as the entry, with another one as its array."""
        for entry, array in zip(NAMES, NAMES[1:] + NAMES[:1]):
            text = self.of_source(4, COUNTED.format(entry=entry, array=array))
            if program := self.built(folder, compiler, joined(text, TOLD.format(entry=entry)), ["-O0"]):
                self.check(f"{compiler}: {entry}({array})", self.said(program), (0, "0 10 10 21 32 43 54\n", ""))

    def budgets(self, folder, compiler):
        """Each budget, up to one with which the run comes to its end: a trap, and the last line."""
        self.budgets_of(folder, compiler, LONG, 3)
        self.budgets_of(folder, compiler, ENDING, 0)

    def budgets_of(self, folder, compiler, kernel, status):
        text = self.of_source(4, kernel)
        programs = [self.built(folder, compiler, joined(text, BUDGETS), [*form, "-DISP_STEPS"]) for form in FORMS]
        source, arguments = f"{folder}/long.ispc", f"{folder}/long.json"
        for path, content in ((source, kernel), (arguments, '{"a":[1,2,30,41]}')):
            with open(path, "w", encoding="utf-8") as file:
                file.write(content)
        wanted = None, "", ""
        for budget in range(2000) if all(programs) else ():
            wanted = self.said(self.isp, "run", "--budget", str(budget), source, "f", arguments)
            for form, program in zip(FORMS, programs):
                self.check(f"{compiler} {' '.join(form)}: budget {budget}", self.said(program, str(budget)), wanted)
            if wanted[0] != 4:
                break
        self.check(f"{compiler}: the run is over within 2,000 instructions", wanted[0], status)

    def refusals(self, folder, compiler):
        """Each growth and each piece of output refused in turn; what was taken is looked for by the compiler's own check of leaks."""
        text = self.of_source(4, LONG)
        text = REFUSING + "#include <stdlib.h>\n#define calloc sparing\n" + joined(text, REFUSED)
        for form in FORMS:
            if program := self.built(folder, compiler, text, [*form, *LEAKS]):
                self.refused(f"{compiler} {' '.join(form)}", program)

    def refused(self, name, program):
        status, whole, counts = self.said(program, "0", "0")
        self.check(f"{name}: nothing refused", status, 3)
        if status != 3:
            return
        grown, written = map(int, counts.split())
        # two arrays in each of four calls; in each of four rounds two values and the three texts around them
        self.check(f"{name}: growths and pieces of output", (grown, written), (8, 20))
        for growth in range(1, grown + 1):
            status, output, counts = self.said(program, str(growth), "0")
            told = status, whole.startswith(output), counts.split()[0] == str(growth)
            self.check(f"{name}: growth {growth} refused", told, (7, True, True))
        for piece in range(1, written + 1):
            status, output, counts = self.said(program, "0", str(piece))
            told = status, whole.startswith(output), counts.split()[1] == str(piece)
            self.check(f"{name}: piece {piece} of output refused", told, (7, True, True))

    def lengths(self, folder, compiler):
        """A kernel of 400 lines, by a gang of 16."""
        lines = "\n".join(f"    x = x * {3 + k % 50} + (y ^ {k});\n    y = y + (x >> {1 + k % 7});" for k in range(200))
        source = f"export void f(uniform int a[]) {{\n    int x = a[programIndex], y = 1;\n{lines}\n    a[programIndex] = x + y;\n}}\n"
        main = "int main(void)\n{\n    int32_t a[16] = {0};\n    struct isp_run run = {0};\n    return CALLED_f(&run, a, 16);\n}\n"
        begun = time.monotonic()
        program = self.built(folder, compiler, joined(self.of_source(16, source), main), ["-O1"])
        self.check(f"{compiler}: 400 lines within a minute", time.monotonic() - begun < 60, True)
        if program:
            self.check(f"{compiler}: 400 lines", self.said(program), (0, "", ""))


def differences(isp, of_source, include):
    """Runs all, and returns how many were tried and a line for each that differs."""
    edges = Edges(isp, of_source, include)
    for compiler in COMPILERS:
        for test in (edges.names, edges.budgets, edges.refusals, edges.lengths):
            with tempfile.TemporaryDirectory() as folder:
                test(folder, compiler)
    return edges.tried, edges.wrong
