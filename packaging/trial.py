"""Tries the packages from outside, as someone does who has nothing but them: each trial is a few lines of shell, with what they must print."""
import os
import pathlib
import shutil
import subprocess
import sys
import tempfile
import venv

import formats
import tree

SECONDS = 300
MIRROR = "http://deb.debian.org/debian"
SUITE = "bookworm"
INSIDE = "python3,python3-numpy,gcc,libc6-dev,pkg-config,man-db,bash-completion,zsh,fish,nodejs"

# (/proc is mounted for the one command alone)
CHROOT = 'mount -t proc proc "$0/proc" && exec chroot "$0" "$@"'
KERNELS = """
cd "$DOC/examples"
for it in *.answer; do
    name=${it%.answer}
    isp run "$name.ispc" "$name" "$name.json" | cmp - "$it" || exit 1
done
"""
EXPLAINED = """
printf 'export void f(uniform int a[]) { uniform int x = programIndex; }' >wrong.ispc
ispx explain wrong.ispc 2>&1 | grep -c Fix
"""
BY_PKG_CONFIG = """
eval "gcc -std=c11 -O2 $(pkg-config --cflags isp) -o run '$DOC/examples/c/run.c' $(pkg-config --libs isp)"
./run "$DOC/examples/brighten.ispc" brighten "$DOC/examples/brighten.json" | cmp - "$DOC/examples/brighten.answer"
readelf -d run | grep -o 'libisp.so.0'
"""
STATIC = """
eval "gcc -std=c11 -O2 $(pkg-config --cflags isp) -o fixed '$DOC/examples/c/run.c' $(pkg-config --libs-only-L isp) -l:libisp.a -lm"
./fixed "$DOC/examples/brighten.ispc" brighten "$DOC/examples/brighten.json" | cmp - "$DOC/examples/brighten.answer"
"""
AS_C = """
ispx c --gang 16 "$DOC/examples/brighten.ispc" >brighten.c
eval "gcc -std=gnu11 -O1 -c $(pkg-config --cflags isp) brighten.c -o brighten.o"
"""
JAVASCRIPT = """
ispx wasm --gang 16 "$DOC/examples/brighten.ispc" >brighten.wasm
cp -r "$SHARE/javascript/isp" js
echo '
import { readFile } from "node:fs/promises";
import { load } from "./js/isp.js";
const kernels = await load(readFile("brighten.wasm"));
const pixels = [0, 100, 250];
kernels.call("brighten", { pixels, count: 3, level: 50 });
console.log(...pixels);
' >main.mjs
node main.mjs
"""
PYTHON = """
python3 -c '
import array, sys, isp
source = "export void twice(uniform int a[], uniform int count) { foreach (i = 0 ... count) a[i] = 2 * a[i]; }"
numbers = array.array("i", range(20))
isp.compile(source, gang=16).twice(a=numbers, count=20)
print(list(numbers) == list(range(0, 40, 2)), isp.__file__.startswith(sys.argv[1]))
' "$MODULE"
"""
NATIVE = """
python3 -c '
import array, isp
source = "export void twice(uniform int a[], uniform int count) { foreach (i = 0 ... count) a[i] = 2 * a[i]; }"
numbers = array.array("i", range(20))
isp.compile(source, gang=16, native=True).twice(a=numbers, count=20)
print(list(numbers) == list(range(0, 40, 2)))
'
"""
AS_MODULE = """
python3 -c '
import isp, subprocess
source = "export void twice(uniform int a[], uniform int count) { foreach (i = 0 ... count) a[i] = 2 * a[i]; }"
with open("twice.ispc", "w") as file: file.write(source)
written = subprocess.run(["ispx", "wasm", "--gang", "16", "twice.ispc"], capture_output=True, check=True).stdout
print(len(written) > 1000, isp.compile(source, gang=16, wasm=True).module == written)
'
"""
NUMPY = """
python3 -c '
import numpy, isp
source = "export void twice(uniform int a[], uniform int count) { foreach (i = 0 ... count) a[i] = 2 * a[i]; }"
numbers = numpy.arange(20, dtype=numpy.int32)
isp.compile(source, gang=16).twice(a=numbers, count=20)
print((numbers == 2 * numpy.arange(20)).all())
'
"""
MAN = "MANWIDTH=200 man isp | grep -c 'Instructions that may run' && MANWIDTH=200 man ispx | grep -c 'ispx explain \\['"
BASH = """
bash -c '
. "$SHARE/bash-completion/completions/isp"
COMP_WORDS=(isp ch) COMP_CWORD=1; _isp; echo "${COMPREPLY[@]}"
COMP_WORDS=(isp run --gang 1) COMP_CWORD=3; _isp; echo "${COMPREPLY[@]}"
COMP_WORDS=(isp run --b) COMP_CWORD=2; _isp; echo "${COMPREPLY[@]}"
touch kernel.ispc; COMP_WORDS=(isp run kern) COMP_CWORD=2; _isp; echo "${COMPREPLY[@]}"'
"""
LOADED = """bash -c '. /usr/share/bash-completion/bash_completion; _completion_loader isp; complete -p isp'"""
ZSH = """
zsh -n "$SHARE/zsh/vendor-completions/_isp" && zsh -n "$SHARE/zsh/vendor-completions/_ispx"
zsh -fc 'autoload -U compinit; compinit -u -d dump; echo ${_comps[isp]} ${_comps[ispx]}'
"""
FISH = "fish -c 'complete -C \"isp ch\"' | cut -f1; fish -c 'complete -C \"isp run --gang 1\"' | cut -f1"

# (what it is called, the lines of shell, what they print; None: anything)
EVERYWHERE = [
    ("each kernel of examples/", KERNELS, ""),
    ("ispx explains", EXPLAINED, "1\n"),
    ("a C program by pkg-config", BY_PKG_CONFIG, "libisp.so.0\n"),
    ("a C program with libisp.a", STATIC, ""),
    ("a kernel as C", AS_C, ""),
    ("a kernel from JavaScript", JAVASCRIPT, "50 150 255\n"),
    ("Python", PYTHON, "True True\n"),
    ("Python, native", NATIVE, "True\n"),
    ("a module from Python", AS_MODULE, "True True\n"),
    ("man", MAN, None),
    ("completion in bash", BASH, "check\n16\n--budget\nkernel.ispc\n"),
]
IN_DEBIAN = [
    ("no toolchain", "command -v rt || echo none", "none\n"),
    ("Python with NumPy", NUMPY, "True\n"),
    ("completion is found by bash", LOADED, "complete -F _isp isp\n"),
    ("completion in zsh", ZSH, "_isp _ispx\n"),
    ("completion in fish", FISH, "check\n16\n"),
]


class Trials:
    """Counts trials, and prints a line for each."""

    def __init__(self):
        self.count = self.failed = 0

    def tell(self, name, wrong):
        print(f"{name}: {'FAILS: ' + wrong.strip() if wrong else 'holds'}", flush=True)
        self.count += 1
        self.failed += bool(wrong)

    def status(self):
        print(f"{self.count} trials, {self.failed} fail")
        return 1 if self.failed else 0


def ran(words, script, wanted, **how):
    """Runs a script by some command; returns what is wrong, or nothing."""
    try:
        it = subprocess.run([*words, f"set -e\n{script}"], stdin=subprocess.DEVNULL, capture_output=True, text=True, timeout=SECONDS, **how)
    except subprocess.TimeoutExpired:
        return f"no answer in {SECONDS} seconds"
    if it.returncode or (wanted is not None and it.stdout != wanted):
        return f"status {it.returncode}: {it.stdout[-1000:]}{it.stderr[-2000:]}"
    return ""


def version(release):
    """Returns the trial of what the programs say of their version."""
    wanted = "".join(f"{it.name} {it.version}\n" for it in release.programs())
    return "the version", "isp --version 2>&1 || :; ispx --version 2>&1 || :", wanted


def names_below(folder):
    """Returns the names of all that a folder has, links and folders too."""
    return sorted(f"{at}/{name}" for at, folders, names in os.walk(folder) for name in folders + names)


# ---- the wheel


def try_wheel(release, work, trials):
    """Installs the wheel in an empty environment of Python, without a network."""
    place = work / "an environment"
    venv.create(place, with_pip=True)
    trials.tell("wheel: pip installs it", pip(place, formats.wheel(release, work)))
    told = {"PATH": f"{place}/bin:/usr/bin:/bin", "MODULE": str(place), "HOME": str(work)}
    for name, script, wanted in (it for it in EVERYWHERE if it[0].startswith("Python")):
        trials.tell(f"wheel: {name}", ran(["sh", "-c"], script, wanted, cwd=work, env=told))


def pip(place, file):
    words = [place / "bin/python", "-m", "pip", "install", "-q", "--no-index", "--disable-pip-version-check", file]
    it = subprocess.run(words, stdin=subprocess.DEVNULL, capture_output=True, text=True, timeout=SECONDS)
    return it.stderr if it.returncode else ""


# ---- the tarball


def try_tarball(release, work, trials):
    """Installs the tarball in a home folder with a blank in its name, and removes it again."""
    home, unpacked = work / "a home", work / "unpacked"
    home.mkdir()
    (home / "own").write_text("stays")
    before = names_below(home)
    unpacked.mkdir()
    subprocess.run(["tar", "-xzf", formats.tarball(release, work), "-C", unpacked], check=True)
    prefix = home / ".local"
    told = {"PATH": f"{prefix}/bin:/usr/bin:/bin", "HOME": str(home), "PREFIX": str(prefix), "MODULE": str(prefix), "DOC": f"{prefix}/share/doc/isp"}
    told |= {"SHARE": f"{prefix}/share", "PKG_CONFIG_PATH": f"{prefix}/lib/pkgconfig", "LD_LIBRARY_PATH": f"{prefix}/lib", "MANPATH": f"{prefix}/share/man"}
    told["PYTHONPATH"] = f"{prefix}/lib/isp/python"
    for _ in range(2):
        trials.tell("tarball: install.sh", ran(["sh", "-c"], "*/install.sh \"$PREFIX\"", None, cwd=unpacked, env=told))
    shutil.rmtree(unpacked)
    (work / "c").mkdir()
    for name, script, wanted in [version(release), *EVERYWHERE]:
        trials.tell(f"tarball: {name}", ran(["sh", "-c"], script, wanted, cwd=work / "c", env=told))
    gone = ran(["sh", "-c"], '"$PREFIX/share/isp/uninstall.sh"', None, cwd=work, env=told)
    left = sorted(set(names_below(home)) - set(before) - {f"{home}/.cache"})
    left = [it for it in left if not it.startswith(f"{home}/.cache/")]
    trials.tell("tarball: uninstall.sh leaves no trace", gone or "\n".join(left))


# ---- the Debian package


def stored_root():
    """Returns a tar file of a small Debian with what the trials need, and makes it where there is none."""
    cache = pathlib.Path(os.environ.get("XDG_CACHE_HOME") or pathlib.Path.home() / ".cache") / "isp"
    stored = cache / f"{SUITE}-with-{INSIDE.count(',') + 1}-for-trials.tar"
    if not stored.exists():
        cache.mkdir(mode=0o700, parents=True, exist_ok=True)
        with tempfile.TemporaryDirectory(dir=cache) as work:
            words = ["debootstrap", "--variant=minbase", f"--include={INSIDE}", SUITE, f"{work}/root", MIRROR]
            subprocess.run(words, check=True, stdout=sys.stderr)
            subprocess.run(["tar", "-C", f"{work}/root", "-cf", f"{work}/tar", "."], check=True)
            os.rename(f"{work}/tar", stored)
    return stored


def try_debian(release, work, trials):
    """Installs the Debian package in a Debian without the toolchain, and removes it again."""
    root = work / "root"
    root.mkdir()
    subprocess.run(["tar", "-C", root, "-xf", stored_root()], check=True)
    shutil.copy(formats.debian(release, work), root / "root/isp.deb")
    before = names_below(root / "usr")
    own = {"PATH": "/usr/bin:/bin:/usr/sbin:/sbin", "HOME": "/root", "DOC": "/usr/share/doc/isp", "SHARE": "/usr/share", "MODULE": "/usr/lib/python3"}
    inside = ["unshare", "--mount", "sh", "-c", CHROOT, str(root), "env", "-i", *(f"{name}={value}" for name, value in own.items()), "sh", "-c"]
    trials.tell("deb: dpkg -i", ran(inside, "dpkg -i /root/isp.deb", None))
    for name, script, wanted in [version(release), *EVERYWHERE, *IN_DEBIAN]:
        trials.tell(f"deb: {name}", ran(inside, "cd /root\n" + script, wanted))
    gone = ran(inside, "dpkg -r isp", None)
    left = sorted(it for it in set(names_below(root / "usr")) - set(before) if "/__pycache__" not in it or "/isp/" in it)
    trials.tell("deb: dpkg -r leaves no trace", gone or "\n".join(left))


def packages_again(release, work, trials):
    """Makes each package twice, and compares their bytes."""
    for name, make in formats.FORMATS.items():
        (work / name).mkdir()
        first = tree.content(make(release, work / name))
        trials.tell(f"{name}: the same bytes again", "" if tree.content(make(release, work / name)) == first else "they differ")


def quick(release):
    trials = Trials()
    with tempfile.TemporaryDirectory(prefix="isp-trial-") as folder:
        try_wheel(release, pathlib.Path(folder), trials)
        try_tarball(release, pathlib.Path(folder), trials)
    return trials.status()


def whole(release):
    if os.geteuid() or not shutil.which("debootstrap"):
        print("tools/package: --try needs root and debootstrap", file=sys.stderr)
        return 1
    trials = Trials()
    with tempfile.TemporaryDirectory(prefix="isp-trial-") as folder:
        work = pathlib.Path(folder)
        packages_again(release, work, trials)
        try_wheel(release, work, trials)
        try_tarball(release, work, trials)
        try_debian(release, work, trials)
    return trials.status()
