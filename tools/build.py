#!/usr/bin/env python3
"""What `bin/isp build` and `bin/ispx build` do: proves what the program stands on, and builds it.

    tools/build.py NAME         NAME is isp or ispx

Each crate is proved by itself in its folder, the lowest first, with as many jobs as the toolchain finds room for: it lets no two
crates be proved side by side that stand on one library. What is proved is kept, so that an interrupted build goes on where it was.
"""
import fcntl
import os
import shutil
import signal
import subprocess
import sys
import time

import sources

ROOT = sources.ROOT
# (no status of the program)
FAILED = 125
# What the gate runs each program on; the program has to end with 0.
TRIAL = {"isp": ["run", "data/double.ispc", "f", "data/args.json"], "ispx": ["explain", "data/double.ispc"]}


def stop(why):
    print(f"isp: {why}", file=sys.stderr, flush=True)
    sys.exit(FAILED)


def time_told(seconds):
    return f"{seconds:.0f} s" if seconds < 100 else f"{seconds / 60:.1f} minutes"


def step(number, count, crate, words):
    """Runs one command in a crate's folder, says how long it took, and shows what it printed where it fails."""
    print(f"isp: {number} of {count}: {crate}", file=sys.stderr, flush=True)
    start, said = time.monotonic(), []
    how = {"stdin": subprocess.DEVNULL, "stdout": subprocess.PIPE, "stderr": subprocess.STDOUT, "text": True, "errors": "replace"}
    with subprocess.Popen(words, cwd=f"{ROOT}/crates/{crate}", **how) as ran:
        try:
            for line in ran.stdout:
                said.append(line)
                if line.startswith("rt: waiting"):
                    print(line, end="", file=sys.stderr, flush=True)
        finally:
            ran.terminate()
    if ran.returncode:
        sys.stderr.writelines(said)
        stop(f"{crate} is not proved, so the program is not built")
    print(f"isp: {crate} took {time_told(time.monotonic() - start)}", file=sys.stderr, flush=True)


def build(name):
    """Proves and builds under a lock, so that no second build is at work in this repository."""
    with open(__file__, encoding="utf-8") as lock:
        try:
            fcntl.flock(lock, fcntl.LOCK_EX | fcntl.LOCK_NB)
        except BlockingIOError:
            stop(f"another `bin/{name} build` is at work here")
        start, crates = time.monotonic(), sources.stands_on(name)
        artefact = sources.ARTEFACTS[name]
        before = sources.sources_of(artefact)
        print(f"isp: {len(crates)} crates are proved and built, which takes some two hours of one processor, once", file=sys.stderr, flush=True)
        for number, crate in enumerate(crates[:-1], 1):
            step(number, len(crates), crate, ["rt", "lib"])
        step(len(crates), len(crates), name, ["rt", "run", "--", *TRIAL[name]])
        if not os.access(f"{ROOT}/{artefact.file}", os.X_OK):
            stop("the build left no program")
        if sources.sources_of(artefact) != before:
            stop("a source changed while the program was built: build it again")
        os.utime(f"{ROOT}/{artefact.file}")
        print(f"isp: proved and built in {time_told(time.monotonic() - start)}", file=sys.stderr)
    return 0


def main(words):
    signal.signal(signal.SIGTERM, lambda *_: sys.exit(143))
    signal.signal(signal.SIGHUP, lambda *_: sys.exit(129))
    if words not in (["isp"], ["ispx"]):
        stop("usage: tools/build.py isp, or tools/build.py ispx")
    if not shutil.which("rt"):
        stop("there is no rt on the path to build the program with: it is the command of the Rattle toolchain, as README.md says")
    return build(words[0])


if __name__ == "__main__":
    try:
        sys.exit(main(sys.argv[1:]))
    except KeyboardInterrupt:
        sys.exit(130)
