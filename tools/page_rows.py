#!/usr/bin/env python3
"""Writes from the pages what the gate compares with the programs, the table from which `ispx` takes its texts, and the kit that pages name.

    tools/page_rows.py              writes the files below, and the count of requests in tools/requests/stdout
    tools/page_rows.py --check      ends with status 1 where one of these is stale, where a page shows another explanation than tools/explained.py
                                    works out, or where a row of a table of docs/FAULTS.md is the fix of no program among these, among those of
                                    faults.rows and among those of ported.rows

- tools/requests/pages.rows: the examples of README.md and docs/, so that the gate runs what the pages show.
- tools/requests/explain.rows: what `ispx explain` has to say of each example of a page and of faults.rows beside it that is refused or trapped,
  and of each source of ported.rows that is refused, by tools/explained.py.
- crates/isp_remedies/src/page.rt: the sentences and the fixes of docs/FAULTS.md.
- each page that names the kit of the toolchain, README.md among them: its name there is the one that `rt version` prints.

An example is a block between ``` that begins with `$ `:

    $ cat NAME                      the lines of a file up to the next `$ `; it stays as it is until it is shown anew
    $ isp WORD..                    what it prints, and last `[STATUS]` where that is not 0; `$ bin/isp WORD..` too
    $ isp WORD.. > NAME             what it prints is what the `$ cat NAME` behind it shows
    $ ispx WORD..                   the same of `ispx`; of `ispx explain` all behind what `isp` writes to standard output goes to standard error,
                                    of `ispx run` all where the status is not 0, of `ispx test SOURCE`, which reads SOURCE.tests too, nothing

Other commands count for nothing. A file that a page does not show is taken from the repository, where it is there. Of a command that
goes into another, or reads a file that is not shown since another made it, there is no row; its name is printed. The format of the
rows stands in tools/records.py.
"""
import glob
import os
import re
import shlex
import shutil
import subprocess
import sys

sys.dont_write_bytecode = True
import explained  # noqa: E402
import written  # noqa: E402

ROOT = os.path.dirname(os.path.dirname(os.path.realpath(__file__)))
REQUESTS = "tools/requests"
ROWS = f"{REQUESTS}/pages.rows"
EXPLAIN = f"{REQUESTS}/explain.rows"
FAULTS = f"{REQUESTS}/faults.rows"
REMEDIES = "crates/isp_remedies/src/page.rt"
COUNT = f"{REQUESTS}/stdout"
PORTED = "crates/isp_tests_cases/data/ported.rows"
# how a kit of the toolchain is called
KIT = re.compile(r"\brattle-kit-\w+")
# how a row says whose words it has
PROGRAM = {"isp": "words", "ispx": "ispx"}
HEAD = """. What the examples of README.md and of the pages of docs/ show. Written by tools/page_rows.py.
. What docs/FAULTS.md and docs/INDEPENDENCE.md show was worked out from the rules before it was run, but for the place of 11, which is left open.
"""
EXPLAIN_HEAD = """. What `ispx explain` says of what docs/ and faults.rows show as refused or stopped, and of each source that ported.rows of isp_tests_cases has as refused.
. Written by tools/page_rows.py; worked out by tools/explained.py, which has the rules in Python, from docs/FAULTS.md.
"""


def pages():
    return ["README.md", *sorted(f"docs/{name}" for name in os.listdir(f"{ROOT}/docs") if name.endswith(".md"))]


def contents(name):
    with open(f"{ROOT}/{name}", encoding="utf-8") as file:
        return file.read()


def text_of(lines):
    return "".join(f"{line}\n" for line in lines)


def spelt(text):
    for sign in "␤␉⟦⟧":
        assert sign not in text, text
    assert "=== " not in text, text
    return text.replace("\n", "␤").replace("\t", "␉")


def examples(page):
    """Yields the steps of each example, a command and the lines behind it, with the heading above."""
    heading, block = page, None
    for line in contents(page).split("\n"):
        if line.startswith("```"):
            if block is None:
                block = []
            else:
                if block[:1] and block[0].startswith("$ "):
                    yield heading, steps_of(block)
                block = None
        elif block is not None:
            block.append(line)
        elif line.startswith("#"):
            heading = f"{page}, {line.lstrip('# ')}"


def steps_of(block):
    steps = []
    for line in block:
        if line.startswith("$ "):
            steps.append((line[2:], []))
        else:
            steps[-1][1].append(line)
    return steps


def parted(shown):
    """Returns the status that shown lines end with, what went to standard output, and what to standard error."""
    last = re.fullmatch(r"\[(\d+)\]", shown[-1]) if shown else None
    if not last:
        return 0, shown, []
    status, lines = int(last[1]), shown[:-1]
    # (refused words print on standard error alone, every other failure one line)
    return (status, [], lines) if status == 2 else (status, lines[:-1], lines[-1:])


def row(heading, words, files, shown, program="words", outs=None):
    """Yields the lines of a row: a request, and what it shows, of which so many lines are of standard output."""
    status, out, err = parted(shown)
    if outs is not None:
        out, err = [*out, *err][:outs], [*out, *err][outs:]
    yield f"=== {heading}"
    # (a file of `ispx run` stands behind `@`)
    for word in [it.rpartition("@")[2] for it in [*words, *([f"{words[-1]}.tests"] if words[0] == "test" else [])]]:
        if word in files:
            yield f"file {word} {spelt(files[word])}"
        elif re.search(r"[./]", word) and os.path.isfile(f"{ROOT}/{word}"):
            yield f"file {word} {spelt(contents(word))}"
    yield f"{program} {' '.join(words)}"
    if status:
        yield f"status {status}"
    if out:
        yield f"out {spelt(text_of(out))}"
    if err:
        yield f"err {spelt(text_of(err)[:-1])}"


def as_isp(words):
    """Returns the words of `isp` for those of `ispx explain`."""
    options = sum(2 for word in words if word.startswith("--"))
    return ["check" if len(words) - options == 1 else "run", *words]


def told(words, files, printed):
    """Returns what `ispx explain` has to print where `isp` prints this, and how many lines of it are of standard output."""
    status, out, err = parted(printed)
    names = [word for word in words if not word.startswith("--") and not word.isdigit()]
    noted = [line for line in out if explained.FAULT.fullmatch(line)] if words and len(names) == 1 else []
    lines = [line for of_err in [*noted, *err] for line in explained.explained(of_err, names, files)]
    return [*out, *lines, *([f"[{status}]"] if status else [])], len(out)


def rows_of(page):
    """Returns the lines of a page's rows, and where the page shows another explanation."""
    files, unseen, rows, printed, differ = {}, set(), [], {}, []
    for heading, steps in examples(page):
        for (command, shown), (following, after) in zip(steps, [*steps[1:], ("", [])]):
            words = shlex.split(command.removeprefix("bin/"))
            assert not any(" " in word for word in words), command
            into = words[-1] if words[-2:-1] == [">"] else None
            if into:
                files.pop(into, None)
                unseen.add(into)
            if words[0] == "cat" and len(words) == 2:
                files[words[1]] = text_of(shown)
                unseen.discard(words[1])
            elif words[:2] == ["ispx", "explain"]:
                wanted, outs = told(words[2:], files, printed[tuple(as_isp(words[2:]))])
                if wanted != shown:
                    differ.append(f"{heading}: tools/explained.py says\n{text_of(wanted)}")
                rows += row(heading, words[1:], files, shown, "ispx", outs)
            elif words[0] not in ("isp", "ispx"):
                continue
            elif into and following == f"cat {into}" and not unseen.intersection(words[:-1]):
                rows += row(heading, words[1:-2], files, after, PROGRAM[words[0]])
            elif into or "|" in words or unseen.intersection(words):
                print(f"page_rows.py: no row of `{command}`", file=sys.stderr)
            else:
                # (what `ispx run` refuses it shows in several lines)
                outs = {"run": 0 if parted(shown)[0] else None, "test": len(shown)}.get(words[1]) if words[0] == "ispx" else None
                rows += row(heading, words[1:], files, shown, PROGRAM[words[0]], outs)
                printed[tuple(words[1:])] = shown
    return rows, differ


def records(rows):
    """Yields the heading, the words, the files and what is shown of each row of a request to `isp`."""
    heading, words, files, status, out, err = "", None, {}, 0, "", ""
    for line in [*rows, "=== "]:
        word, _, rest = line.partition(" ")
        rest = rest.replace("␤", "\n").replace("␉", "\t")
        if word == "===":
            if words:
                lines = [*out.split("\n")[:-1], *([err] if err else [])]
                yield heading, words, files, [*lines, *([f"[{status}]"] if status else [])]
            heading, words, files, status, out, err = rest, None, {}, 0, "", ""
        elif word == "file":
            files.__setitem__(*rest.split(" ", 1))
        elif word == "words":
            words = rest.split(" ")
        elif word == "status":
            status = int(rest)
        elif word == "out":
            out = rest
        elif word == "err":
            err = rest


def explanations(rows):
    """Yields the lines of a row for each row of a check or a run that is refused or stopped, and for each source of PORTED that is refused."""
    for heading, words, files, shown in records(rows):
        if words[0] in ("check", "run") and parted(shown)[0] != 2:
            wanted, outs = told(words[1:], files, shown)
            if wanted == shown:
                continue
            yield from row(heading, ["explain", *words[1:]], files, wanted, "ispx", outs)
    for number, (fault, source, start, end) in enumerate(ported(), 1):
        shown = [f"isp: {fault} at {start}..{end}", "[1]"]
        wanted, outs = told(["s.ispc"], {"s.ispc": source.decode()}, shown)
        yield from row(f"ported.rows, {number}", ["explain", "s.ispc"], {"s.ispc": source.decode()}, wanted, "ispx", outs)


def ported():
    """Yields the fault, the source and the span of each source that PORTED has as refused."""
    for line in contents(PORTED).split("\n"):
        if fault := re.match(r"refuses (\d+ \w+)\|(.*)⟦(.*)⟧(.*)", line):
            before, marked, after = (part.encode() for part in fault.groups()[1:])
            yield fault[1], before + marked + after, len(before), len(before + marked)


def refused(rows):
    """Yields the fault, the source and the span of each source that rows refuse, those of the pages, of FAULTS and of PORTED."""
    for _, words, files, shown in records(rows):
        err = parted(shown)[2]
        name = words[-1]
        if err and (fault := re.match(r"isp: (\d+ \w+) at (\d+)\.\.(\d+)$", err[-1])) and name in files:
            yield fault[1], files[name].encode(), int(fault[2]), int(fault[3])
    yield from ported()


def unused(rows):
    """Yields the rows of the tables of docs/FAULTS.md that are the fix of no program."""
    tables, used = {heading: [cell for cell, _ in table] for heading, (_, _, table) in explained.pages_faults().items()}, set()
    for heading, source, start, end in refused(rows):
        spot = explained.Spot(source, start, end)
        used.add((heading, next((cell for cell in tables.get(heading, []) if spot.fits(cell)), "")))
    for heading, cells in tables.items():
        yield from (f"{heading}: no program for the row {cell}" for cell in cells if (heading, cell) not in used)


def counted(rows):
    """Returns what tools/request-test prints where all comes out, with the count of its requests."""
    names = [f"{REQUESTS}/{name}" for name in sorted(glob.glob("*.rows", root_dir=f"{ROOT}/{REQUESTS}"))]
    requests = "".join(contents(name) for name in names if name not in (ROWS, EXPLAIN)) + rows
    return written.with_count(COUNT, requests.count("=== "), "requests")


def with_kit():
    """Yields each page that names the kit, and the page with the name that `rt version` prints."""
    rt = shutil.which("rt") or sys.exit("page_rows.py: rt is not on the path: it says which kit the pages name")
    kit = subprocess.run([rt, "version"], capture_output=True, text=True, check=True).stdout.split()[0]
    for page in ["README.md", *sorted(glob.glob("docs/*.md", root_dir=ROOT) + glob.glob("crates/*/README.md", root_dir=ROOT))]:
        text = contents(page)
        if KIT.search(text):
            yield page, KIT.sub(kit, text)


def main():
    check = sys.argv[1:] == ["--check"]
    if sys.argv[1:] and not check:
        print("page_rows.py: see its first lines", file=sys.stderr)
        return 2
    rows, differ = [], []
    for page in pages():
        of_page, otherwise = rows_of(page)
        rows += of_page
        differ += otherwise
    tried = [*rows, *contents(FAULTS).split("\n")]
    text, explain = HEAD + text_of(rows), EXPLAIN_HEAD + text_of(explanations(tried))
    differ += unused(tried)
    named = dict(with_kit())
    if "README.md" not in named:
        differ.append("README.md names no kit")
    for why in differ:
        print(why, file=sys.stderr)
    made = ((ROWS, text), (EXPLAIN, explain), (REMEDIES, explained.page()), (COUNT, counted(text + explain)), *named.items())
    for name, wanted in made:
        if check and (not os.path.isfile(f"{ROOT}/{name}") or contents(name) != wanted):
            differ.append(name)
            print(f"page_rows.py: {name} is stale", file=sys.stderr)
        elif not check:
            with open(f"{ROOT}/{name}", "w", encoding="utf-8") as file:
                file.write(wanted)
    return 1 if differ else 0


sys.exit(main())
