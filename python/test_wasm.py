"""Kernels that have their module of WebAssembly too."""
import array
import pickle
import subprocess
import tempfile
import unittest

import isp
from test_isp import ROOT, TRAPS, answer, examples, made

PROGRAM = ROOT / "crates/ispx/out/ispx"
# code of which no module is made, and what is said of it: of more than 122 characters the first
NO_MODULE = {
    "isp 2 gang 32\nfunc f export void\nm 25000\nret -\nend\n": "no module: f: more than 50,000 locals. Fix: take a smaller gang, or make a function of a part.",
    "isp 2 gang 32\nfunc opens export void\n" + 256 * "loc p i64 65536\n" + "m 1\nclear a0 m0\nret -\nend\n":
        "no module: opens: 4 GB of local arrays, in it or, where it calls one, in any function; or of texts. Fix: smaller arrays, o",
}


def written(code):
    """Returns what `ispx wasm` writes of code: the status, the bytes, and the line without `isp: `."""
    with tempfile.NamedTemporaryFile("w", suffix=".isp") as file:
        file.write(code)
        file.flush()
        ran = subprocess.run([PROGRAM, "wasm", file.name], capture_output=True, check=False)
    return ran.returncode, ran.stdout, ran.stderr.decode().strip().removeprefix("isp: ")


class Modules(unittest.TestCase):
    def test_kernels(self):
        """The modules of the folder examples are those that the program writes, and their calls are those of a kernel."""
        for name, source, arguments, wanted in examples():
            for gang in (4, 8, 16, 32):
                with self.subTest(kernel=name, gang=gang):
                    status, module, line = written(isp.compile(source, gang).code)
                    self.assertEqual((status, line), (0, ""))
                    kernel = isp.compile(source, gang, wasm=True)
                    self.assertEqual(kernel.module, module)
                    self.assertEqual(answer(kernel, name, arguments, made), wanted)

    def test_none(self):
        for code, line in NO_MODULE.items():
            with self.assertRaises(isp.ModuleError) as found:
                isp.load(code, wasm=True)
            self.assertEqual((found.exception.status, found.exception.number, str(found.exception)), (8, None, line))
            self.assertEqual(str(pickle.loads(pickle.dumps(found.exception))), line)

    def test_refusals(self):
        with self.assertRaises(isp.CodeError) as found:
            isp.load("isp 1 gang 4\nfunc f export void\nm 1\njmp L1\nend\n", wasm=True)
        self.assertEqual((found.exception.number, found.exception.function), (42, 0))
        for call in (isp.compile, isp.load):
            with self.assertRaisesRegex(ValueError, "native or wasm, not both"):
                call("", native=True, wasm=True)

    def test_calls(self):
        """A kernel with its module traps and is pickled as any other."""
        source, given, _, _, instance = TRAPS["index"]
        kernel = pickle.loads(pickle.dumps(isp.compile(source, wasm=True)))
        self.assertEqual(kernel.module, isp.load(kernel.code, wasm=True).module)
        with self.assertRaises(isp.Trap) as found:
            kernel.f(a=array.array("i", given))
        self.assertEqual(found.exception.instance, instance)
