"""Copies of the repository for a check that is to leave the crates' own `out/` as it is. What was built of the libraries is taken along."""
import os
import shutil

ROOT = os.path.dirname(os.path.dirname(os.path.realpath(__file__)))


def link(source, to):
    try:
        os.link(source, to)
    except OSError:
        shutil.copy2(source, to)


def copy_to(room, edits=None):
    """Copies what a check reads. `edits` names, by its crate, the folder of edits that stands in the copy as must-fail/; a crate that it leaves out has none there."""
    shutil.copy2(f"{ROOT}/crates.txt", room)
    for name in os.listdir(f"{ROOT}/crates"):
        crate, to = f"{ROOT}/crates/{name}", f"{room}/crates/{name}"
        shutil.copytree(crate, to, ignore=shutil.ignore_patterns("out", "must-fail", "more-edits"))
        folder = (edits or {}).get(name)
        if folder:
            shutil.copytree(f"{crate}/{folder}", f"{to}/must-fail")
        if os.path.isdir(f"{crate}/out/rlib"):
            # (never written in place)
            shutil.copytree(f"{crate}/out/rlib", f"{to}/out/rlib", copy_function=link)


def crates_listed(of_kit=False):
    """Returns the crates of crates.txt, each with those of them that it names, or else with the toolchain's libraries that it names."""
    named = {}
    with open(f"{ROOT}/crates.txt", encoding="utf-8") as it:
        for line in it:
            head, colon, libraries = line.partition("#")[0].partition(":")
            if colon:
                named[head.split()[0]] = libraries.split()
    return {name: [it for it in libraries if (it in named) != of_kit] for name, libraries in named.items()}


def is_ready(name, below):
    """Returns whether each library below a crate is built."""
    return all(os.path.isfile(f"{ROOT}/crates/{it}/out/rlib/stamp") and is_ready(it, below) for it in below[name])
