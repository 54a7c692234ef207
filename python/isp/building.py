"""A C file is built and loaded, and what was built is kept."""
from __future__ import annotations

import ctypes
import functools
import hashlib
import os
import platform
import shlex
import shutil
import stat
import subprocess
import tempfile

from . import library
from .errors import NativeError

_HEADERS = ("isp_machine.h", "isp_calls.h")
# what takes the output, built with each kernel
_OUTPUT = os.path.join(os.path.dirname(os.path.realpath(__file__)), "output.c")
_FLAGS = ["-O3", "-march=native"]
# what clang needs to be told where the processor has AVX-512 (docs/EMBEDDING.md, What to build with)
_WIDE = "-mprefer-vector-width=512"


def built(text):
    """Returns the functions of a C file: those that were kept, or built and kept."""
    compiler, headers = _compiler(), _headers()
    words = [*compiler, "-std=gnu11", *_flags(compiler)]
    folder = _cache_folder()
    if folder:
        kept = os.path.join(folder, f"{_key(text, words, headers)}.so")
        try:
            return _kept(kept) or ctypes.CDLL(_made(text, words, headers, kept))
        except OSError:
            pass  # the disk is full, say, or nothing there may be run
    with tempfile.TemporaryDirectory() as other:
        return ctypes.CDLL(_made(text, words, headers, os.path.join(other, "kernel.so")))


def _kept(path):
    """Returns the functions of a file that was kept, or None."""
    if not os.path.isfile(path) or not _is_own(path):
        return None
    try:
        return ctypes.CDLL(path)
    except OSError:
        return None


def _made(text, words, headers, to):
    """Builds a C file, and puts what is made in one step where it is to be; returns the path."""
    with tempfile.TemporaryDirectory(dir=os.path.dirname(to)) as folder:
        source, made = os.path.join(folder, "kernel.c"), os.path.join(folder, "kernel.so")
        with open(source, "w", encoding="ascii") as file:
            file.write(text)
        done = _ran([*words, "-shared", "-fPIC", "-I", headers, source, _OUTPUT, "-o", made])
        if done.returncode:
            raise NativeError(f"the C compiler ended with status {done.returncode}: {done.stderr[:1000]}")
        os.chmod(made, 0o700)
        os.replace(made, to)
    return to


# ---- the compiler


def _compiler():
    """Returns the words of the C compiler: what CC says, or the first that there is."""
    if os.environ.get("CC"):
        return shlex.split(os.environ["CC"])
    for name in ("clang", "gcc", "cc"):
        if shutil.which(name):
            return [name]
    raise NativeError("no C compiler: there is no clang, no gcc and no cc, and CC names none")


def _flags(compiler):
    """Returns the flags: what CFLAGS says, or those that are the fastest by this compiler on this processor."""
    if "CFLAGS" in os.environ:
        return shlex.split(os.environ["CFLAGS"])
    is_wide = " avx512f " in _processor() and os.path.basename(compiler[0]).startswith("clang")
    return [*_FLAGS, *[_WIDE] * is_wide]


def _headers():
    """Returns the folder of the headers."""
    return os.environ.get("ISP_INCLUDE") or library.folder("include")


def _ran(words):
    try:
        return subprocess.run(words, capture_output=True, text=True, errors="replace")
    except OSError as error:
        raise NativeError(f"no C compiler: {error}") from None


@functools.cache
def _version(*words):
    """Returns what a compiler says of itself."""
    return _ran([*words, "--version"]).stdout


@functools.cache
def _processor():
    """Returns what says for which processor `-march=native` makes code."""
    try:
        with open("/proc/cpuinfo", encoding="utf-8", errors="replace") as file:
            return "".join(sorted({line for line in file if line.startswith(("model name", "flags"))}))
    except OSError:
        return platform.processor()


# ---- what is kept


def _key(text, words, headers):
    """Returns a name for what these words make of a C file, on this processor."""
    parts = [*words, _version(*_compiler()), platform.machine(), _processor(), text]
    for path in (_OUTPUT, *(os.path.join(headers, name) for name in _HEADERS)):
        with open(path, encoding="utf-8") as file:
            parts.append(file.read())
    whole = hashlib.sha256()
    for part in parts:
        whole.update(b"%d\n%s" % (len(part.encode()), part.encode()))
    return whole.hexdigest()


def _cache_folder():
    """Returns the folder where native code is kept, below XDG_CACHE_HOME or ~/.cache; None where there can be none, or where others
    than the user can write."""
    base = os.environ.get("XDG_CACHE_HOME", "")
    base = base if os.path.isabs(base) else os.path.join(os.path.expanduser("~"), ".cache")
    if not os.path.isabs(base):
        return None
    folder = os.path.join(base, "isp", "native")
    try:
        os.makedirs(os.path.dirname(folder), exist_ok=True)
        if not os.path.isdir(folder):
            os.mkdir(folder, 0o700)
        folder = os.path.realpath(folder)
        return folder if _is_own(folder) and _is_safe(os.path.dirname(folder)) else None
    except OSError:
        return None


def _is_own(path):
    """Returns whether this user alone can write there."""
    found = os.stat(path)
    return found.st_uid == os.geteuid() and not found.st_mode & (stat.S_IWGRP | stat.S_IWOTH)


def _is_safe(folder):
    """Returns whether no other user can put another folder in the place of what lies in this one, or above."""
    found = os.stat(folder)
    others = found.st_mode & (stat.S_IWGRP | stat.S_IWOTH) and not found.st_mode & stat.S_ISVTX
    if found.st_uid not in (0, os.geteuid()) or others:
        return False
    return folder == os.path.dirname(folder) or _is_safe(os.path.dirname(folder))
