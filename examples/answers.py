#!/usr/bin/env python3
"""What each kernel must answer, worked out in plain Python from its arguments, without isp.

    python3 examples/answers.py            says what in the files is otherwise: an answer, what README.md shows, its pictures, the rows that are run
    python3 examples/answers.py --write    writes the answers and the rows
"""
import json
import math
import pathlib
import subprocess
import sys
import zlib

HERE = pathlib.Path(__file__).resolve().parent
ROWS = HERE.parent / "crates/isp_tests_cases/data/kernels.rows"
PICTURE = HERE.parent / "tools/picture"


def clamp(x, low, high):
    return min(max(x, low), high)


# ---- each takes the arguments, changes their arrays, and gives back the result


def brighten(a):
    a["pixels"] = [clamp(p + a["level"], 0, 255) for p in a["pixels"]]


def blur(a):
    width, height, image = a["width"], a["height"], a["image"]

    def at(y, x):
        return image[clamp(y, 0, height - 1) * width + clamp(x, 0, width - 1)]

    def mean(y, x):
        return (sum(at(y + j, x + i) for j in (-1, 0, 1) for i in (-1, 0, 1)) + 4) // 9

    a["blurred"] = [mean(y, x) for y in range(height) for x in range(width)]


def fir(a):
    def sample(i):
        total = sum(a["signal"][i - k] * tap for k, tap in enumerate(a["taps"]) if i >= k)
        return clamp((total + 128) // 256, -32768, 32767)

    a["filtered"] = [sample(i) for i in range(a["count"])]


def lookup(a):
    n = a["count"]
    a["values"] = [a["table"][v // 16] for v in a["values"][:n]] + a["values"][n:]


def histogram(a):
    a["counts"] = [sum(1 for v in a["values"] if v // 32 == b) for b in range(8)]


def mandelbrot(a):
    def turns(x, y):
        c, d, p, q, n = a["left"] + x * a["step"], a["top"] + y * a["step"], 0, 0, 0
        while n < a["limit"] and p * p + q * q < 4 * 4096 * 4096:
            p, q, n = (p * p - q * q) // 4096 + c, 2 * p * q // 4096 + d, n + 1
        return n

    a["turns"] = [turns(x, y) for y in range(a["height"]) for x in range(a["width"])]


def roots(a):
    a["values"] = [math.isqrt(v) for v in a["values"]]


def matrix(a):
    inner, columns = a["inner"], a["columns"]
    a["product"] = [
        sum(a["left"][r * inner + k] * a["right"][k * columns + c] for k in range(inner))
        for r in range(a["rows"])
        for c in range(columns)
    ]


def collatz(a):
    def steps(n):
        return 0 if n == 1 else 1 + steps(3 * n + 1 if n % 2 else n // 2)

    a["counts"] = [steps(a["first"] + i) for i in range(a["count"])]


def threshold(a):
    bright = [i for i, p in enumerate(a["pixels"]) if p > a["level"]]
    a["found"][: len(bright)] = bright
    a["marks"] = [255 if p > a["level"] else 0 for p in a["pixels"]]
    return len(bright)


def totals(a):
    a["values"] = [sum(a["values"][: i + 1]) for i in range(a["count"])]


def factors(a):
    a["numbers"] = [math.gcd(n, m) for n, m in zip(a["numbers"], a["others"])]


def compact(a):
    kept = [v for v in a["values"] if v > 0]
    a["kept"][: len(kept)] = kept
    return len(kept)


def bitonic(a):
    a["values"].sort()


def life(a):
    width, height = a["width"], a["height"]
    alive = {(y, x) for y in range(height) for x in range(width) if a["cells"][y * width + x]}
    for _ in range(a["generations"]):
        near = [((y + j) % height, (x + i) % width) for y, x in alive for j in (-1, 0, 1) for i in (-1, 0, 1) if (j, i) != (0, 0)]
        alive = {cell for cell in near if near.count(cell) == 3 or near.count(cell) == 2 and cell in alive}
    a["cells"] = [int((y, x) in alive) for y in range(height) for x in range(width)]
    a["next"] = list(a["cells"])


def find(a):
    return bytes(a["text"]).find(bytes(a["word"]))


def crc32(a):
    starts = a["starts"]
    a["sums"] = [zlib.crc32(bytes(a["bytes"][start:end])) for start, end in zip(starts, starts[1:])]


def shade(a):
    def lit(material, pixel):
        gain, level = a["gains"][material], a["levels"][material]
        return clamp(int(pixel * gain / 16) + level, 0, 255) if gain else pixel

    n = a["count"]
    a["pixels"] = [lit(m, p) for m, p in zip(a["materials"], a["pixels"][:n])] + a["pixels"][n:]


KERNELS = [brighten, blur, fir, lookup, histogram, mandelbrot, roots, matrix, collatz, threshold, totals, factors]
KERNELS += [compact, bitonic, life, find, crc32, shade]


def answer(kernel):
    arguments = json.loads((HERE / f"{kernel.__name__}.json").read_text())
    result = kernel(arguments)
    arrays = {name: arguments[name] for name in sorted(arguments) if isinstance(arguments[name], list)}
    return json.dumps({"arrays": arrays, "result": result}, separators=(",", ":")) + "\n"


def is_shown(kernel):
    """Whether README.md has the kernel's source behind its three lines, its arguments and its answer."""
    shown = (HERE / "README.md").read_text()
    name = kernel.__name__
    source = (HERE / f"{name}.ispc").read_text().splitlines()[3:]
    code = "\n".join("    " + line if line else "" for line in source)
    arguments = (HERE / f"{name}.json").read_text().strip()
    return code in shown and f"`{arguments}`, and the answer is `{answer(kernel).strip()}`" in shown


def picture(given, *words):
    return subprocess.run([PICTURE, *words], input=given, stdout=subprocess.PIPE, text=True, check=True).stdout


def pictures():
    """The pictures that README.md shows in signs, by name: the commands that stand above them, with the kernels in Python."""
    discs = picture("", "sample", "64", "40")
    turns = {"left": -9216, "top": -4800, "step": 160, "width": 78, "height": 60, "limit": 40, "turns": [0] * 4680}
    blurred = "image=pixels blurred=zeros width=width height=height"
    marked = "pixels=pixels marks=zeros count=count level=128 found=zeros"
    made = {"discs": discs}
    for kernel, arguments, shown in (
        (blur, picture(discs, "arguments", "-", *blurred.split()), "blurred 64"),
        (threshold, picture(discs, "arguments", "-", *marked.split()), "marks 64"),
        (mandelbrot, json.dumps(turns), "turns 78 6"),
    ):
        arrays = json.loads(arguments)
        kernel(arrays)
        made[kernel.__name__] = picture(json.dumps({"arrays": arrays}), "answer", "-", *shown.split())
    return {name: picture(pgm, "shown", "-") for name, pgm in made.items()}


def rows():
    """Each kernel by each gang, as isp_tests_cases reads it."""
    lines = [". The kernels of examples/, which answers.py writes here; the answers are its own, in Python."]
    for kernel in KERNELS:
        name = kernel.__name__
        source = (HERE / f"{name}.ispc").read_text().replace("\n", "␤")
        arguments = (HERE / f"{name}.json").read_text().strip()
        for gang in (4, 8, 16, 32):
            lines += [f"=== {name} of examples, {gang}", f"source {source}", f"gang {gang}", f"entry {name}"]
            lines += [f"arguments {arguments}", "turns 1000", f"ends {answer(kernel).strip()}"]
    return "\n".join(lines) + "\n"


def main():
    differ = 0
    wanted = {HERE / f"{kernel.__name__}.answer": answer(kernel) for kernel in KERNELS}
    wanted[ROWS] = rows()
    for path, text in wanted.items():
        if "--write" in sys.argv:
            path.write_text(text)
        elif path.read_text() != text:
            print(f"{path.name} differs")
            differ += 1
    for kernel in KERNELS:
        if not is_shown(kernel):
            print(f"{kernel.__name__}: README.md shows another")
            differ += 1
    readme = (HERE / "README.md").read_text()
    for name, signs in pictures().items():
        if "".join(f"    {line}".rstrip() + "\n" for line in signs.splitlines()) not in readme:
            print(f"{name}: README.md shows another picture")
            differ += 1
    print(f"{len(KERNELS)} kernels, {differ} differ")
    return differ > 0


if __name__ == "__main__":
    sys.exit(main())
