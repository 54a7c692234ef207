"""The three packages, each of the same bytes whenever it is made of the same files: a Debian package, a wheel and a tarball."""
import base64
import gzip
import hashlib
import io
import os
import subprocess
import tarfile
import tempfile
import time
import zipfile

import tree

HERE = os.path.dirname(os.path.realpath(__file__))
SUMMARY = "Compiler of the integer part of Intel ISPC, and its machine, both proved"
PAGE = "The compiler and the machine are proved to do what a kernel means. README.md says what is promised and what is trusted."


def day(release):
    return time.strftime("%Y-%m-%d", time.gmtime(release.date))


# ---- for Debian


def control(release, files):
    """Returns the control file of the Debian package."""
    glibc = max(tree.glibc(it.data) for name, it in files.items() if name.startswith("bin/") or name.endswith(tree.SONAME))
    size = sum(len(it.data) for it in files.values()) // 1024 + 1
    lines = ["Package: isp", f"Version: {release.number()}", "Architecture: amd64", "Section: devel", "Priority: optional"]
    lines += ["Maintainer: Puttlinden maintainers <maintainers@users.noreply.puttlinden.example>", f"Installed-Size: {size}"]
    lines += [f"Depends: libc6 (>= {glibc[0]}.{glibc[1]})", "Recommends: python3 (>= 3.9)", "Suggests: c-compiler, python3-numpy, pkg-config"]
    return "\n".join([*lines, f"Description: {SUMMARY}", f" {PAGE}"]) + "\n"


def debian(release, folder):
    """Writes the Debian package, and returns its path."""
    files = tree.tree(release, tree.DEBIAN, day(release))
    sums = [f"{hashlib.md5(it.data).hexdigest()}  usr/{name}" for name, it in files.items() if it.target is None]
    own = {
        "control": tree.File(control(release, files).encode()),
        "md5sums": tree.File(("\n".join(sums) + "\n").encode()),
        "triggers": tree.File(b"activate-noawait ldconfig\n"),
        "shlibs": tree.File(f"libisp 0 isp (>= {release.number()})\n".encode()),
        "prerm": tree.File(tree.content(f"{HERE}/prerm"), 0o755),
    }
    path = f"{folder}/isp_{release.number()}_amd64.deb"
    with tempfile.TemporaryDirectory() as work:
        os.chmod(work, 0o755)
        tree.written({f"DEBIAN/{name}": it for name, it in own.items()} | {f"usr/{name}": it for name, it in files.items()}, work)
        for at, folders, names in os.walk(work):
            for name in folders + names:
                os.utime(f"{at}/{name}", (release.date, release.date), follow_symlinks=False)
        os.utime(work, (release.date, release.date))
        words = ["dpkg-deb", "--root-owner-group", "-Zxz", "--build", work, path]
        subprocess.run(words, env={**os.environ, "SOURCE_DATE_EPOCH": str(release.date)}, stdout=subprocess.DEVNULL, check=True)
    return path


# ---- for pip


def metadata(release):
    lines = ["Metadata-Version: 2.1", "Name: isp-spmd", f"Version: {release.number()}", f"Summary: {SUMMARY}", "License: Apache-2.0", "Requires-Python: >=3.9"]
    lines += ["Classifier: Operating System :: POSIX :: Linux", "Description-Content-Type: text/markdown", ""]
    return "\n".join(lines) + "\n" + tree.content(f"{release.root}/packaging/wheel.md").decode()


def record(files):
    rows = []
    for name, data in files.items():
        sum = base64.urlsafe_b64encode(hashlib.sha256(data).digest()).rstrip(b"=").decode()
        rows.append(f"{name},sha256={sum},{len(data)}")
    return "\n".join(rows)


def wheel(release, folder):
    """Writes the wheel: the module with the library and the headers inside. Returns its path."""
    library, number = release.artefact("libisp.so"), release.number()
    tag = "py3-none-manylinux_{}_{}_x86_64".format(*max(tree.glibc(library), (2, 17)))
    files = {f"isp/{name}": it.data for name, it in tree.module(release).items()}
    files["isp/lib/libisp.so"] = library
    files.update({f"isp/include/{it}": tree.content(f"{release.root}/include/{it}") for it in tree.HEADERS})
    about = f"isp_spmd-{number}.dist-info"
    files[f"{about}/METADATA"] = metadata(release).encode()
    files[f"{about}/WHEEL"] = f"Wheel-Version: 1.0\nGenerator: tools/package\nRoot-Is-Purelib: false\nTag: {tag}\n".encode()
    files[f"{about}/licenses/LICENSE"] = tree.content(f"{release.root}/LICENSE")
    files = dict(sorted(files.items()))
    files[f"{about}/RECORD"] = f"{record(files)}\n{about}/RECORD,,\n".encode()
    path = f"{folder}/isp_spmd-{number}-{tag}.whl"
    # (a zip file knows no time before 1980)
    date = time.gmtime(max(release.date, 315532800))[:6]
    with zipfile.ZipFile(path, "w", zipfile.ZIP_DEFLATED, compresslevel=9) as into:
        for name, data in files.items():
            it = zipfile.ZipInfo(name, date)
            it.external_attr, it.compress_type = 0o100644 << 16, zipfile.ZIP_DEFLATED
            into.writestr(it, data)
    return path


# ---- for any other system


def tarball(release, folder):
    """Writes the tarball, with scripts that install and uninstall. Returns its path."""
    top = f"isp-{release.number()}"
    files = {f"{top}/files/{name}": it for name, it in tree.tree(release, tree.PLAIN, day(release)).items()}
    for name in ("install.sh", "uninstall.sh"):
        files[f"{top}/{name}"] = tree.File(tree.content(f"{HERE}/{name}"), 0o755)
    files[f"{top}/files/share/isp/uninstall.sh"] = files[f"{top}/uninstall.sh"]
    path, packed = f"{folder}/{top}-x86_64-linux.tar.gz", io.BytesIO()
    with tarfile.open(fileobj=packed, mode="w", format=tarfile.GNU_FORMAT) as into:
        for name, file in sorted(files.items()):
            it = tarfile.TarInfo(name)
            it.mtime, it.mode, it.uname, it.gname = release.date, file.mode, "root", "root"
            it.type, it.linkname, it.size = (tarfile.SYMTYPE, file.target, 0) if file.target else (tarfile.REGTYPE, "", len(file.data))
            into.addfile(it, None if file.target else io.BytesIO(file.data))
    with open(path, "wb") as it:
        it.write(gzip.compress(packed.getvalue(), 9, mtime=0))
    return path


FORMATS = {"deb": debian, "wheel": wheel, "tar": tarball}
