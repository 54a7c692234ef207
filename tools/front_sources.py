#!/usr/bin/env python3
"""Writes the sources of at most 1 MiB on which the front is measured (docs/SPEED.md) into a folder.

    tools/front_sources.py FOLDER
"""
import os
import sys

LIMIT = 1 << 20


def short(number):
    """Returns a name of few letters for a number."""
    digits = ""
    while number or not digits:
        number, digit = divmod(number, 36)
        digits = "0123456789abcdefghijklmnopqrstuvwxyz"[digit] + digits
    return "q" + digits


def ordinary():
    body = "x = a[programIndex] * 2 + x;\n" * 1000
    texts = [f"export void f{n}(uniform int a[]) {{\nint x = 0;\n{body}}}\n" for n in range(36)]
    return "".join(texts)


def variables():
    names = ["a"] + [short(n) for n in range(79_999)]
    items = [names[0]] + [f"{name}={before}" for before, name in zip(names, names[1:])]
    text = "void f() {\nint " + ",".join(items) + ";\n"
    return text + "a=a;" * min(20_000, (LIMIT - len(text) - 2) // 4) + "\n}"


def functions():
    names = [short(n) for n in range(20_000)]
    heads = "".join(f"void {name}(){{}}\n" for name in names)
    return heads + "void caller(){\n" + "".join(f"{name}();\n" for name in names) + "}\n"


def scopes():
    opened = "".join(f"{{int {short(n)};\n" for n in range(100))
    uses = "".join(f"{short(n % 100)}={short(n * 37 % 100)};\n" for n in range(10_000))
    return "void f() {\n" + opened + uses + "}" * 100 + "}\n"


def arguments():
    names = [short(n) for n in range(70_000)]
    head = "void f(" + ",".join(f"int {name}" for name in names) + "){}\n"
    return head + "void caller(){int a;f(" + ",".join("a" for _ in names) + ");}\n"


def empty():
    return "void f(){" + ";" * 1_000_000 + "}\n"


def main(words):
    if len(words) != 1:
        sys.exit("usage: tools/front_sources.py FOLDER")
    os.makedirs(words[0], exist_ok=True)
    for source in (ordinary, variables, functions, scopes, arguments, empty):
        text = source()
        assert len(text) <= LIMIT
        with open(os.path.join(words[0], source.__name__ + ".ispc"), "w", encoding="ascii") as it:
            it.write(text)


if __name__ == "__main__":
    main(sys.argv[1:])
