"""The toolchain's program `rt` as a module, and what its gate has passed on this machine.

The toolchain says by a sum over a crate's files and the sums of all crates below whether its library is built. It works each sum out anew wherever it is
asked, which takes minutes where many crates stand on each other; here each is worked out once.

`rt ci` of some kits keeps what it passed, and that of others nothing. `tools/gate` runs it with a store of its own: a folder for each proof of a crate and
for each of its tests, by that sum, and a file for each edit that was refused. What stands in it was passed by the toolchain's own gate; whoever can write to
it is trusted, so `.ci/run` does not read it.
"""
import hashlib
import importlib.machinery
import importlib.util
import os
import shutil
import sys

STORE = os.environ.get("ISP_KEPT") or os.path.expanduser("~/.cache/isp-gate")


def toolchain():
    """Returns the toolchain's program `rt` as a module, whose sums are each worked out once."""
    program = os.path.realpath(shutil.which("rt") or sys.exit("rt is not on the path"))
    sys.path.insert(0, os.path.dirname(program))
    sys.dont_write_bytecode = True
    loader = importlib.machinery.SourceFileLoader("rt_program", program)
    rt = importlib.util.module_from_spec(importlib.util.spec_from_loader("rt_program", loader))
    loader.exec_module(rt)
    sums, stamp = {}, rt.rtlib.Crate.stamp
    rt.rtlib.Crate.stamp = lambda crate: sums[crate.folder] if crate.folder in sums else sums.setdefault(crate.folder, stamp(crate))
    rt.rtlib.guarded()
    return rt


def with_below(crates, names):
    """Returns the named crates and all that they stand on."""
    wanted = {it.name for crate in crates if crate.name in names for it in [crate, *crate.below()]}
    return [it for it in crates if it.name in wanted]


def proof(crate):
    """Returns where the proof of the crate as it is stands in the store."""
    return f"{STORE}/{crate.name}-proof-{crate.stamp()}"


def tests(crate):
    """Returns where the proved tests of the crate as it is stand in the store."""
    return f"{STORE}/{crate.name}-tests-{crate.stamp()}"


def edit(crate, file):
    """Returns where it stands in the store that this edit of the crate as it is was refused."""
    with open(file, "rb") as it:
        return f"{STORE}/{crate.name}-edit-{hashlib.sha256(crate.stamp().encode() + it.read()).hexdigest()[:40]}"


def link(source, to):
    """Puts a file or a folder in the place of another, its files as links: neither a library nor a program is written in place."""
    if os.path.isdir(source):
        shutil.rmtree(to, ignore_errors=True)
        shutil.copytree(source, to, copy_function=os.link)
        return
    if os.path.lexists(to):
        os.remove(to)
    os.link(source, to)


def keep(kept, folder, names):
    """Puts what there is of these files of a folder into the store."""
    part = f"{kept}.{os.getpid()}"
    shutil.rmtree(part, ignore_errors=True)
    os.makedirs(part)
    for name in names:
        if os.path.lexists(f"{folder}/{name}"):
            link(f"{folder}/{name}", f"{part}/{name}")
    try:
        os.rename(part, kept)
    except OSError:
        shutil.rmtree(part, ignore_errors=True)


def give(kept, folder):
    """Puts what the store has there into a folder."""
    os.makedirs(folder, exist_ok=True)
    for name in os.listdir(kept):
        link(f"{kept}/{name}", f"{folder}/{name}")


def give_libraries(crates):
    """Puts each library that the store has of the same sources into its crate's out/, and returns the crates of those that it has not."""
    left = []
    for crate in (it for it in crates if it.makes_rlib() and not it.is_built()):
        if os.path.isdir(proof(crate)):
            give(proof(crate), f"{crate.folder}/out")
        else:
            left.append(crate)
    return left
