#!/usr/bin/env python3
"""Writes files of cases for crates/isp_tests_cases from those of an independent implementation, one JSON object a line.

    tools/case_rows.py WHAT FILE.jsonl > crates/isp_tests_cases/data/NAME.rows

WHAT is `programs` (gang, source, entry, arguments, and runs with turns, kind, output, work and answer, or trap and arrays), `sources`
(gang, source, and line, the refusal, or null) or `arguments` (parameters, arguments, and line, or answer). The format of what is written
stands in crates/isp_tests_programs/src/records.rt.
"""
import json
import sys

HEAD = """. From an independent implementation of the language, made from its rules by another hand, in another language, 2026-11.
. Written by tools/case_rows.py.
"""


def spelt(text):
    for sign in "␤␉⟦⟧":
        assert sign not in text, text
    assert "=== " not in text, text
    return text.replace("\n", "␤").replace("\t", "␉")


def marked(source, trap):
    if trap is None:
        return spelt(source)
    data = source.encode()
    start, end = trap["start"], trap["end"]
    return spelt(data[:start].decode()) + "⟦" + spelt(data[start:end].decode()) + "⟧" + spelt(data[end:].decode())


def lines_of_run(run):
    yield f"turns {run['turns']}"
    yield f"work {run['work']}"
    if run["output"]:
        yield f"writes {spelt(run['output'])}"
    if run["kind"] == "Ends":
        yield f"ends {run['answer']}"
    elif run["kind"] == "Traps":
        yield f"traps {run['trap']['kind']} {run['trap']['instance']} {run['arrays']}"
    else:
        yield "cut"


def program(it, number):
    traps = [run["trap"] for run in it["runs"] if run["kind"] == "Traps"]
    yield f"=== {it['name']}"
    yield f"source {marked(it['source'], traps[0] if traps else None)}"
    yield f"gang {it['gang']}"
    yield f"entry {it['entry']}"
    yield f"arguments {spelt(it['arguments'])}"
    for run in it["runs"]:
        yield from lines_of_run(run)


def source(it, number):
    yield f"=== {it.get('name', f'source {number}')}"
    yield f"source {spelt(it['source'])}"
    yield f"gang {it['gang']}"
    yield "accepted" if it["line"] is None else f"refused {it['line']}"


def returned(it, value):
    """Returns the answer of a function that returns its last argument."""
    text = str(value).lower() if it["parameters"][-1]["elem"] != "bool" else ("true" if value else "false")
    assert it["answer"].endswith('"result":null}')
    return it["answer"][: -len("null}")] + text + "}"


def arguments(it, number):
    """An array `a` and a value `n`, which is returned."""
    words = [f"uniform {one['elem']} {one['name']}{'[]' if one['is_array'] else ''}" for one in it["parameters"]]
    last = it["parameters"][-1]
    assert not last["is_array"]
    yield f"=== {it['name']}"
    yield f"source export uniform {last['elem']} f({', '.join(words)}) {{ return {last['name']}; }}"
    yield "gang 4"
    yield "entry f"
    yield f"arguments {spelt(it['arguments'])}"
    yield f"unbound {it['line']}" if it.get("line") else f"ends {returned(it, it['bound'][-1])}"


def main():
    made = {"programs": program, "sources": source, "arguments": arguments}[sys.argv[1]]
    print(HEAD, end="")
    with open(sys.argv[2], encoding="utf-8") as rows:
        for number, row in enumerate(rows):
            for line in made(json.loads(row), number):
                print(line)


main()
