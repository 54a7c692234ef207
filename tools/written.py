"""Files that a script of tools/ writes: it writes them, or with --check ends with status 1 where one is otherwise than it would write it."""
import os
import re
import sys

ROOT = os.path.dirname(os.path.dirname(os.path.realpath(__file__)))
TEXT = re.compile(r'("(?:[^"\\]|\\.)*")', re.S)


def plain(text):
    """Returns a file of Rust without what `rt fmt` chooses: blanks and line feeds outside texts, and commas before a closing bracket."""
    parts = TEXT.split(text)
    for place in range(0, len(parts), 2):
        parts[place] = re.sub(r",(?=[)\]}])", "", re.sub(r"\s+", "", parts[place]))
    return "".join(parts)


def same(path, text):
    """Returns whether a file has this text; of Rust, up to its layout."""
    with open(f"{ROOT}/{path}", encoding="utf-8", newline="") as file:
        found = file.read()
    return found == text or (path.endswith(".rt") and plain(found) == plain(text))


def with_count(path, count, name):
    """Returns the text of a file whose line `N NAME, 0 differ` has this count."""
    with open(f"{ROOT}/{path}", encoding="utf-8") as file:
        lines = file.read().splitlines()
    changed = [f"{count} {name}, 0 differ" if re.fullmatch(rf"\d+ {name}, 0 differ", line) else line for line in lines]
    return "".join(f"{line}\n" for line in changed)


def put(files):
    """Writes these files, each a path from the top of the repository and its text; with --check compares them, and ends."""
    if sys.argv[1:] == ["--check"]:
        script = os.path.basename(sys.argv[0])
        stale = [path for path, text in files.items() if not same(path, text)]
        for path in stale:
            print(f"tools/{script}: {path} is stale: run python3 tools/{script}, and rt fmt in its crate", file=sys.stderr)
        sys.exit(1 if stale or not files else 0)
    for path, text in files.items():
        with open(f"{ROOT}/{path}", "w", encoding="utf-8", newline="") as file:
            file.write(text)
