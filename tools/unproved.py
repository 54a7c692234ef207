#!/usr/bin/env python3
"""What bin/isp and bin/ispx do where the sources are neither those of the release nor those of the built program.

    tools/unproved.py NAME SOURCES RELEASED WORD..     answers as the program NAME would; SOURCES is the hash of its sources (tools/sources.py),
                                                       RELEASED the released program, or empty

The toolchain's run without proof, `rt try`, builds a program that checks itself while it runs. That takes a minute or two. The program is
kept below a folder of the user, by the hash of the sources, so that it is built once for each change of them. A line on standard error says
that nothing is proved.

Whatever the released program answers without running anything, help, refused words and files that cannot be read, it answers at once, where
the crates that read the words are those of the release.
"""
import fcntl
import glob
import os
import shutil
import signal
import stat
import subprocess
import sys
import tempfile
import time

import sources
from build import FAILED, TRIAL, stop

NO_RT = "these sources are not those of the release, and there is no rt on the path to build a program of them: README.md says what it is"
PROVED_BY = "`bin/{0} build` proves the program and builds it"
# the program's statuses of refused words, and of files that cannot be read; words that ask for help and for the version, whose status may be 0
AT_ONCE = (2, 6)
HELP = {"help", "--help", "-h", "--version", "-V"}
# the crates that read the words
READERS = {"isp": ("isp_command_line",), "ispx": ("isp_command_line", "ispx_command_line", "isp_run_words", "isp_run_stops")}
# how often the folder of `rt try` is looked at for the program, in seconds
LOOKS = 0.05
# how many programs of other sources are kept, 25 MB each
KEPT = 4


# ---- what needs no run


def harmless(words, empty):
    """Returns the words with an empty file in place of each file that can be read, so that nothing is run; the command and options stay."""
    given = []
    for number, word in enumerate(words):
        is_value = number and words[number - 1].startswith("--")
        is_file = number and not is_value and not word.startswith("-") and os.path.isfile(word) and os.access(word, os.R_OK)
        given.append(empty if is_file else word)
    return given


def reads_the_same(name):
    """Whether the program takes the same words as the released one."""
    about, _ = sources.manifest()
    return all(about["source"].get(it) == hashed for it, hashed in sources.hashes(READERS[name]).items())


def at_once(name, released, words):
    """Returns the status, where the released program has answered the words, which ask for no run, or None."""
    if not released or not reads_the_same(name):
        return None
    with tempfile.NamedTemporaryFile(prefix="isp-empty-") as empty:
        ran = subprocess.run([released, *harmless(words, empty.name)], stdin=subprocess.DEVNULL, capture_output=True)
    if ran.returncode not in AT_ONCE and not (ran.returncode == 0 and HELP.intersection(words)):
        return None
    # (the same, but for the names that its message tells)
    return subprocess.run([released, *words], stdin=subprocess.DEVNULL).returncode


# ---- the program that is kept


def folder_for_programs():
    """Returns a folder of the user's own, into which no one else may look."""
    home = os.environ.get("HOME") or "/dev/null"
    cache = os.environ.get("XDG_CACHE_HOME", "")
    cache = cache if cache.startswith("/") else f"{home}/.cache"
    for folder in (f"{cache}/isp", f"{os.environ.get('TMPDIR') or '/tmp'}/isp-{os.getuid()}"):
        try:
            os.makedirs(folder, mode=0o700, exist_ok=True)
            it = os.lstat(folder)
            if stat.S_ISDIR(it.st_mode) and it.st_uid == os.getuid() and stat.S_IMODE(it.st_mode) == 0o700 and os.access(folder, os.W_OK):
                return folder
        except OSError:
            continue
    return stop("there is no folder to keep a program in: XDG_CACHE_HOME or TMPDIR must name one that can be written")


def linked_again(work, kept):
    """Gives each program below the work folder of `rt try` a second name, and returns whether there was one."""
    found = False
    for at, _, names in os.walk(work):
        if "program" in names:
            try:
                os.link(f"{at}/program", f"{kept}.new")
                os.replace(f"{kept}.new", kept)
                found = True
            except OSError:
                pass
    return found


def tried(name, work, kept):
    """Runs `rt try` on the trial of the gate, and leaves the program that it built under the name `kept`."""
    words = ["rt", "try", "--", *TRIAL[name]]
    how = {"stdin": subprocess.DEVNULL, "stdout": subprocess.PIPE, "stderr": subprocess.STDOUT, "text": True, "errors": "replace"}
    with tempfile.TemporaryFile("w+") as said:
        how["stdout"] = said
        with subprocess.Popen(words, cwd=f"{sources.ROOT}/crates/{name}", env={**os.environ, "TMPDIR": work}, **how) as ran:
            try:
                found = False
                while ran.poll() is None:
                    found = linked_again(work, kept) or found
                    time.sleep(LOOKS)
            finally:
                ran.terminate()
        said.seek(0)
        text = said.read()
    if ran.returncode or not found or "run=ended status=0" not in text:
        print(text, end="", file=sys.stderr)
        stop("the run without proof built no program of these sources")


def build(name, folder, program):
    """Builds the program without proof, if no other call has meanwhile."""
    os.makedirs(folder, mode=0o700, exist_ok=True)
    with open(f"{folder}/lock", "w", encoding="utf-8") as lock:
        fcntl.flock(lock, fcntl.LOCK_EX)
        if os.path.exists(program):
            return
        print("isp: these sources are not those of the release: a program is built of them, not proved, in some minutes", file=sys.stderr, flush=True)
        with tempfile.TemporaryDirectory(dir=folder, prefix="try-") as work:
            tried(name, work, f"{work}/kept")
            os.chmod(f"{work}/kept", 0o700)
            os.replace(f"{work}/kept", program)


def forget_older(cache, name):
    """Removes the programs that were built the longest time ago, but for a few."""
    found = sorted(glob.glob(f"{glob.escape(cache)}/*/{name}-not-proved"), key=os.path.getmtime)
    for program in found[:-KEPT]:
        shutil.rmtree(os.path.dirname(program), ignore_errors=True)


def answer(name, total, released, words):
    cache = folder_for_programs()
    program = f"{cache}/{total}/{name}-not-proved"
    if not os.path.exists(program):
        known = at_once(name, released, words)
        if known is not None:
            return known
        if not shutil.which("rt"):
            stop(NO_RT)
        build(name, f"{cache}/{total}", program)
        forget_older(cache, name)
    print(f"isp: not proved: {PROVED_BY.format(name)}", file=sys.stderr, flush=True)
    os.execv(program, [program, *words])


def main(words):
    for number in (signal.SIGTERM, signal.SIGHUP):
        signal.signal(number, lambda it, _: sys.exit(128 + it))
    if len(words) < 3 or words[0] not in TRIAL:
        stop("usage: tools/unproved.py NAME SOURCES RELEASED WORD..")
    return answer(words[0], words[1], words[2], words[3:])


if __name__ == "__main__":
    try:
        sys.exit(main(sys.argv[1:]))
    except KeyboardInterrupt:
        sys.exit(128 + signal.SIGINT)
