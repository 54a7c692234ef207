"""Native code: which compiler makes it, and how it is kept."""
import array
import os
import pathlib
import shutil
import subprocess
import sys
import tempfile
import unittest
import unittest.mock

import isp
import isp.building
from test_isp import ROOT

ONE = "export uniform int f() { return 1; }"
TWO = "export uniform int f() { return 2; }"
# a compiler that says in a file when it compiles
COUNTED = '#!/bin/sh\ncase "$*" in *-shared*) echo compiled >>"$COUNT";; esac\nexec gcc "$@"\n'


class Kept(unittest.TestCase):
    """Each test has a folder of its own for what is kept."""

    def setUp(self):
        folder = tempfile.TemporaryDirectory()
        self.addCleanup(folder.cleanup)
        self.folder = pathlib.Path(folder.name)
        self.folder.chmod(0o700)
        self.cache, compiler = self.folder / "cache", self.folder / "compiler"
        compiler.write_text(COUNTED)
        compiler.chmod(0o755)
        told = {"XDG_CACHE_HOME": str(self.cache), "CC": str(compiler), "COUNT": str(self.folder / "count"), "CFLAGS": "-O0"}
        patched = unittest.mock.patch.dict(os.environ, told)
        patched.start()
        self.addCleanup(patched.stop)

    def compiled(self):
        """Returns how often the compiler has compiled."""
        count = self.folder / "count"
        return len(count.read_text().split()) if count.exists() else 0

    def kept(self):
        return sorted(self.cache.glob("isp/native/*"))

    def answer(self, source=ONE):
        return isp.compile(source, native=True).f()

    def elsewhere(self, before="pass"):
        """Returns the answer of ONE in another process: this one has loaded what was kept."""
        text = f"import os, isp; {before}; print(isp.compile({ONE!r}, native=True).f())"
        return int(subprocess.run([sys.executable, "-c", text], capture_output=True, text=True, check=True).stdout)

    def test_compiled_once(self):
        self.assertEqual((self.answer(), self.answer(), self.compiled()), (1, 1, 1))
        self.assertEqual(len(self.kept()), 1)
        self.assertEqual((self.kept()[0].stat().st_mode & 0o777, self.kept()[0].parent.stat().st_mode & 0o777), (0o700, 0o700))

    def test_what_makes_another(self):
        """Other code, other flags, another compiler, and a change of either header."""
        self.assertEqual((self.answer(), self.answer(TWO), self.compiled()), (1, 2, 2))
        with unittest.mock.patch.dict(os.environ, CFLAGS="-O1"):
            self.assertEqual((self.answer(), self.compiled()), (1, 3))
        other = self.folder / "other"
        other.write_text(COUNTED.replace("exec gcc", "exec clang"))
        other.chmod(0o755)
        with unittest.mock.patch.dict(os.environ, CC=str(other)):
            self.assertEqual((self.answer(), self.compiled()), (1, 4))
        include = self.folder / "include"
        shutil.copytree(ROOT / "include", include)
        with unittest.mock.patch.dict(os.environ, ISP_INCLUDE=str(include)):
            self.assertEqual((self.answer(), self.compiled()), (1, 4))
            for number, name in enumerate(("isp_machine.h", "isp_calls.h"), 5):
                with (include / name).open("a") as file:
                    file.write("/* changed */\n")
                self.assertEqual((self.answer(), self.answer(), self.compiled()), (1, 1, number))
        self.assertEqual((self.answer(), self.compiled()), (1, 6))

    def test_another_processor(self):
        self.answer()
        with unittest.mock.patch.object(isp.building, "_processor", lambda: "another"):
            self.assertEqual((self.answer(), self.compiled()), (1, 2))

    def planted(self):
        """Puts the code of another kernel where that of ONE is kept."""
        self.answer(TWO)
        other = self.kept()[0]
        self.answer()
        place = next(it for it in self.kept() if it != other)
        os.replace(other, place)

    def test_where_it_is_kept(self):
        self.planted()
        self.assertEqual((self.elsewhere(), self.compiled()), (2, 2))

    def test_file_that_others_can_write(self):
        self.planted()
        for it in self.kept():
            it.chmod(0o722)
        self.assertEqual((self.elsewhere(), self.compiled()), (1, 3))

    def test_folder_that_others_can_write(self):
        """It is not used, and neither is one that lies in such a folder."""
        self.planted()
        for folder in (self.cache / "isp/native", self.cache / "isp", self.cache, self.folder):
            for mode in (0o702, 0o720):
                folder.chmod(mode)
                with self.subTest(folder=folder.name, mode=mode):
                    before = self.compiled()
                    self.assertEqual((self.elsewhere(), self.compiled()), (1, before + 1))
                folder.chmod(0o700)
        self.assertEqual(self.elsewhere(), 2)

    def test_folder_of_another(self):
        self.planted()
        self.assertEqual(self.elsewhere("os.geteuid = lambda: 12345"), 1)

    def test_broken_file(self):
        self.answer()
        for number, content in enumerate((b"", b"no library"), 2):
            for it in self.kept():
                it.unlink()
                it.write_bytes(content)
                it.chmod(0o700)
            self.assertEqual((self.elsewhere(), self.elsewhere(), self.compiled()), (1, 1, number))

    def test_no_folder(self):
        self.cache.write_text("a file")
        self.assertEqual((self.answer(), self.answer(), self.compiled()), (1, 1, 2))


class Compilers(unittest.TestCase):
    def test_first(self):
        """Clang first, then gcc, then cc; CC before all."""
        for there, wanted in ((("clang", "gcc", "cc"), ["clang"]), (("gcc", "cc"), ["gcc"]), (("cc",), ["cc"])):
            with unittest.mock.patch.dict(os.environ), unittest.mock.patch.object(shutil, "which", lambda name: name in there):
                os.environ.pop("CC", None)
                self.assertEqual(isp.building._compiler(), wanted)
                os.environ["CC"] = "gcc -m64"
                self.assertEqual(isp.building._compiler(), ["gcc", "-m64"])

    def test_flags(self):
        """As the table of docs/EMBEDDING.md has them."""
        native = ["-O3", "-march=native"]
        for compiler, processor, wanted in (
            ("clang", "flags : sse2 avx2 avx512f fma\n", [*native, "-mprefer-vector-width=512"]), ("/usr/bin/clang-14", "flags : avx512f x", [*native, "-mprefer-vector-width=512"]),
            ("clang", "flags : sse2 avx2 fma\n", native), ("gcc", "flags : sse2 avx512f fma\n", native),
        ):
            with unittest.mock.patch.dict(os.environ), unittest.mock.patch.object(isp.building, "_processor", lambda: processor):
                os.environ.pop("CFLAGS", None)
                self.assertEqual(isp.building._flags([compiler]), wanted)
                os.environ["CFLAGS"] = "-O1 -DX='a b'"
                self.assertEqual(isp.building._flags([compiler]), ["-O1", "-DX=a b"])

    def test_none(self):
        with unittest.mock.patch.dict(os.environ, CC="/nowhere/cc"), self.assertRaisesRegex(isp.NativeError, "no C compiler.*nowhere"):
            isp.compile(ONE, native=True)
        with unittest.mock.patch.dict(os.environ), unittest.mock.patch.object(shutil, "which", lambda name: None):
            os.environ.pop("CC", None)
            with self.assertRaisesRegex(isp.NativeError, "no C compiler"):
                isp.compile(ONE, native=True)

    def test_refuses(self):
        with unittest.mock.patch.dict(os.environ, CFLAGS="-include /nowhere.h"), self.assertRaisesRegex(isp.NativeError, "ended with status"):
            isp.compile(ONE, native=True)

    def test_each_compiler(self):
        source = "export void f(uniform int a[]) { foreach (i = 0 ... 9) a[i] = i * i; }"
        for words in ("gcc -O2", "clang -O2"):
            compiler, flags = words.split()
            with unittest.mock.patch.dict(os.environ, CC=compiler, CFLAGS=flags):
                kernel, values = isp.compile(source, native=True), array.array("i", [0] * 9)
            kernel.f(a=values)
            self.assertEqual(list(values), [it * it for it in range(9)])

    def test_no_budget(self):
        kernel = isp.compile(ONE, native=True)
        for call in (lambda: kernel.f(_budget=1), kernel.f.within(1)):
            with self.assertRaisesRegex(TypeError, "no budget"):
                call()


if __name__ == "__main__":
    unittest.main()
