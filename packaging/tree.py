"""What is installed: each file with its name below the prefix, its content and its mode. The packages differ in their layout alone."""
import gzip
import os
import re
import subprocess
from typing import NamedTuple, Optional

import completions
import pages
import words

HEADERS = ("isp.h", "isp_machine.h", "isp_calls.h")
JAVASCRIPT = ("isp.js", "isp.d.ts", "package.json")
SONAME = "libisp.so.0"
PROGRAMS = ("isp", "ispx")
EXAMPLES = re.compile(r"examples/([\w.]+\.(ispc|json|answer|md|py)|(c|python)/[\w.]+)$")
PAGES = re.compile(r"(README\.md|docs/[\w.]+)$")
EDITORS = re.compile(r"editors/[\w./-]+$")


class File(NamedTuple):
    data: bytes = b""
    mode: int = 0o644
    target: Optional[str] = None


class Layout(NamedTuple):
    """Where the kinds of files stand below the prefix."""

    libraries: str
    python: str
    zsh: str
    prefix: str


DEBIAN = Layout("lib/x86_64-linux-gnu", "lib/python3/dist-packages", "share/zsh/vendor-completions", "/usr")
PLAIN = Layout("lib", "lib/isp/python", "share/zsh/site-functions", "${pcfiledir}/../..")


class Release(NamedTuple):
    """What packages are made from: the programs and libraries in a folder, and the repository."""

    folder: str
    root: str
    date: int

    def artefact(self, name):
        return content(f"{self.folder}/{name}")

    def tracked(self, *folders):
        """Returns the names of the files that git knows, in order."""
        ran = subprocess.run(["git", "ls-files", "-z", *folders], cwd=self.root, capture_output=True, text=True, check=True)
        return sorted(it for it in ran.stdout.split("\0") if it and os.path.isfile(f"{self.root}/{it}"))

    def programs(self):
        return [words.program_of(f"{self.folder}/{name}", name) for name in PROGRAMS]

    def number(self):
        """Returns the version, as 0.2.0, of which the programs know."""
        return self.programs()[0].version.split()[0]


def content(file):
    with open(file, "rb") as it:
        return it.read()


def glibc(data):
    """Returns the version of the C library that a program or library asks for."""
    found = [tuple(map(int, it.split(b"."))) for it in re.findall(rb"GLIBC_(\d+\.\d+)", data)]
    return max(found, default=(2, 17))


def link(name, target):
    """Returns a symbolic link from one name below the prefix to another."""
    return File(mode=0o777, target=os.path.relpath(target, os.path.dirname(name)))


def pkg_config(layout, version):
    lines = [f"prefix={layout.prefix}", f"libdir=${{prefix}}/{layout.libraries}", "includedir=${prefix}/include", ""]
    lines += ["Name: isp", "Description: Compiles kernels in the integer part of Intel ISPC, and runs them", f"Version: {version}"]
    lines += ["Cflags: -I${includedir}", "Libs: -L${libdir} -lisp", "Libs.private: -lm"]
    return ("\n".join(lines) + "\n").encode()


def development(release, layout):
    """Returns the libraries, the headers and isp.pc."""
    at, found = layout.libraries, {}
    found[f"{at}/{SONAME}"] = File(release.artefact("libisp.so"))
    found[f"{at}/libisp.so"] = link(f"{at}/libisp.so", f"{at}/{SONAME}")
    found[f"{at}/libisp.a"] = File(release.artefact("libisp.a"))
    found[f"{at}/pkgconfig/isp.pc"] = File(pkg_config(layout, release.number()))
    for name in HEADERS:
        found[f"include/{name}"] = File(content(f"{release.root}/include/{name}"))
    return found


def module(release):
    """Returns the files of the Python module, by their names in it."""
    return {it.removeprefix("python/isp/"): File(content(f"{release.root}/{it}")) for it in release.tracked("python/isp")}


def python(release, layout):
    """Returns the Python module, with links to the library and to the headers where it looks for them."""
    found = {f"{layout.python}/isp/{name}": file for name, file in module(release).items()}
    inside = {"lib/libisp.so": f"{layout.libraries}/{SONAME}", **{f"include/{it}": f"include/{it}" for it in HEADERS}}
    for name, target in inside.items():
        found[f"{layout.python}/isp/{name}"] = link(f"{layout.python}/isp/{name}", target)
    return found


def javascript(release):
    """Returns what runs kernels as WebAssembly from JavaScript."""
    return {f"share/javascript/isp/{name}": File(content(f"{release.root}/js/{name}")) for name in JAVASCRIPT}


def told(release, layout, date):
    """Returns the man pages and the completions."""
    found, readme = {}, content(f"{release.root}/README.md").decode()
    for it in release.programs():
        page = pages.man_page(it, readme, date).encode()
        found[f"share/man/man1/{it.name}.1.gz"] = File(gzip.compress(page, 9, mtime=0))
        found[f"share/bash-completion/completions/{it.name}"] = File(completions.bash(it).encode())
        found[f"{layout.zsh}/_{it.name}"] = File(completions.zsh(it).encode())
        found[f"share/fish/vendor_completions.d/{it.name}.fish"] = File(completions.fish(it).encode())
    return found


def documents(release):
    """Returns the pages, the examples and what editors need, so that the links from one to the other lead somewhere."""
    names = [it for it in release.tracked("README.md", "docs", "examples", "editors") if PAGES.match(it) or EXAMPLES.match(it) or EDITORS.match(it)]
    found = {f"share/doc/isp/{it}": File(content(f"{release.root}/{it}")) for it in names}
    found["share/doc/isp/copyright"] = File(content(f"{release.root}/LICENSE"))
    return found


def tree(release, layout, date):
    """Returns all that is installed, by its name below the prefix."""
    found = {f"bin/{name}": File(release.artefact(name), 0o755) for name in PROGRAMS}
    for part in (development(release, layout), python(release, layout), javascript(release), told(release, layout, date), documents(release)):
        found.update(part)
    return dict(sorted(found.items()))


def written(files, folder):
    """Writes files below a folder."""
    for name, file in files.items():
        path = f"{folder}/{name}"
        os.makedirs(os.path.dirname(path), exist_ok=True)
        if file.target is not None:
            os.symlink(file.target, path)
            continue
        with open(path, "wb") as it:
            it.write(file.data)
        os.chmod(path, file.mode)
