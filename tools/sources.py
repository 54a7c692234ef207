#!/usr/bin/env python3
"""What the released programs and libraries are made of: the sources that they stand on, by hash, and release/MANIFEST, which names them.

    tools/sources.py                 prints the hash of each crate's sources
    tools/sources.py ARTEFACT        says whether isp, ispx, libisp.so or libisp.a was released from the sources that are here
    tools/sources.py --state NAME    prints which program is of these sources: `released`, `built` (in the crate's out/), or the hash of the sources

A crate's hash covers its line of crates.txt and every file of its folders src, specs and proofs, by its name and its bytes. No date, no
path above the crate and nothing that was built changes it. What an artefact stands on is its crate with all crates below it, and for the
libraries tools/library, which links them.

release/MANIFEST has lines `WORD VALUE`. Those before the first line `artefact NAME` speak of the release, those after it of that artefact,
and last come lines `source NAME HASH` with the hash of each crate, and of tools/library.
"""
import hashlib
import os
import sys

ROOT = os.path.dirname(os.path.dirname(os.path.realpath(__file__)))
MANIFEST = f"{ROOT}/release/MANIFEST"
FOLDERS = ("src", "specs", "proofs")
LINKING = "tools/library"


class Artefact:
    """What is released: its name, the crate that it is built of, and where its build leaves it."""

    def __init__(self, name, crate, file, linked=False):
        self.name, self.crate, self.file, self.linked = name, crate, file, linked

    def others(self):
        """Returns the files beside the crates that it is made by."""
        return [LINKING] if self.linked else []


ARTEFACTS = {
    it.name: it
    for it in (
        Artefact("isp", "isp", "crates/isp/out/isp"),
        Artefact("ispx", "ispx", "crates/ispx/out/ispx"),
        Artefact("libisp.so", "isp_c", "lib/libisp.so", linked=True),
        Artefact("libisp.a", "isp_c", "lib/libisp.a", linked=True),
    )
}


def listed(root=ROOT):
    """Returns for each crate of crates.txt its line, and the names of the libraries that it names."""
    found = {}
    with open(f"{root}/crates.txt", encoding="utf-8") as it:
        for line in it:
            head, colon, libraries = line.partition("#")[0].partition(":")
            if colon:
                found[head.split()[0]] = (" ".join([*head.split(), ":", *libraries.split()]), libraries.split())
    return found


def stands_on(crate, root=ROOT):
    """Returns the crates that this one stands on by crates.txt, and itself, each after those below it."""
    crates, found = listed(root), []

    def visit(name):
        if name in crates and name not in found:
            for below in crates[name][1]:
                visit(below)
            found.append(name)

    visit(crate)
    return found


def hash_of(file):
    with open(file, "rb") as it:
        return hashlib.sha256(it.read()).hexdigest()


def files_of(crate, root=ROOT):
    """Returns the files of a crate's sources, as names within its folder, in order."""
    top, found = f"{root}/crates/{crate}", []
    for folder in FOLDERS:
        for at, _, names in os.walk(f"{top}/{folder}"):
            found += [f"{at}/{name}"[len(top) + 1 :] for name in names]
    return sorted(found)


def crate_hash(crate, line, root=ROOT):
    total = hashlib.sha256(line.encode())
    for name in files_of(crate, root):
        with open(f"{root}/crates/{crate}/{name}", "rb") as it:
            total.update(f"\n{name}\n".encode() + hashlib.sha256(it.read()).digest())
    return total.hexdigest()


def hashes(crates, root=ROOT):
    """Returns the hash of each of these crates."""
    lines = listed(root)
    return {it: crate_hash(it, lines[it][0], root) for it in crates}


def total_of(artefact, crates, others):
    """Returns one hash over all that an artefact stands on, by the hashes of the crates and of the other files."""
    rows = [f"{it} {found[it]}" for found in (crates, others) for it in sorted(found)]
    return hashlib.sha256("\n".join([artefact.name, *rows]).encode()).hexdigest()


def sources_of(artefact, root=ROOT):
    """Returns one hash over all that an artefact stands on, as it is here."""
    others = {it: hash_of(f"{root}/{it}") for it in artefact.others()}
    return total_of(artefact, hashes(stands_on(artefact.crate, root), root), others)


# ---- the manifest


def manifest(file=MANIFEST):
    """Returns what the manifest says of the release, and of each artefact, as words with their values; nothing where there is none."""
    about, artefacts = {"source": {}}, {}
    try:
        with open(file, encoding="utf-8") as it:
            lines = it.read().splitlines()
    except FileNotFoundError:
        return about, artefacts
    said = about
    for line in lines:
        word, _, value = line.partition(" ")
        if word == "artefact":
            said = artefacts[value] = {}
        elif word == "source":
            name, _, found = value.partition(" ")
            about["source"][name] = found
        elif word and word != "#":
            said[word] = value
    return about, artefacts


def is_released(name, total):
    """Returns whether the artefact of release/ was built of the sources with this hash."""
    return manifest()[1].get(name, {}).get("sources") == total


def newest(crates, root=ROOT):
    """Returns the last time at which a file of these crates' sources, or a folder of them, changed. No tool can set that time back."""
    last = os.stat(f"{root}/crates.txt").st_ctime_ns
    for crate in crates:
        for folder in FOLDERS:
            for at, _, names in os.walk(f"{root}/crates/{crate}/{folder}"):
                last = max(last, os.stat(at).st_ctime_ns, *(os.stat(f"{at}/{name}").st_ctime_ns for name in names))
    return last


def is_built(name, root=ROOT):
    """Returns whether the program stands where its build leaves it, and is newer than all sources."""
    program = f"{root}/{ARTEFACTS[name].file}"
    return os.access(program, os.X_OK) and os.stat(program).st_mtime_ns > newest(stands_on(name, root), root)


def main(words):
    if words[:1] == ["--state"] and len(words) == 2 and words[1] in ARTEFACTS:
        total = sources_of(ARTEFACTS[words[1]])
        print("released" if is_released(words[1], total) else "built" if is_built(words[1]) else total)
        return 0
    if not words:
        for crate, found in hashes(listed()).items():
            print(crate, found)
        return 0
    if len(words) != 1 or words[0] not in ARTEFACTS:
        print(f"usage: tools/sources.py [{' | '.join(ARTEFACTS)} | --state NAME]", file=sys.stderr)
        return 2
    same = is_released(words[0], sources_of(ARTEFACTS[words[0]]))
    print(f"{words[0]}: the sources are {'' if same else 'not '}those of the release")
    return 0 if same else 1


if __name__ == "__main__":
    sys.exit(main(sys.argv[1:]))
