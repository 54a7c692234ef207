"""Tests of the module isp: python3 python/test_isp.py. Those of all files test_*.py of this folder are run.

Needs NumPy, Dask and distributed, gcc and clang (tools/install), lib/libisp.so (tools/library), and the program crates/isp/out/isp. Where
one of them is missing, that is a failure. With ISP_LARGE set arrays past 2^31 elements go through the library too, which takes 8 GB.
"""
import _thread
import array
import contextlib
import gc
import json
import os
import pathlib
import pickle
import signal
import subprocess
import sys
import tempfile
import unittest
import unittest.mock

ROOT = pathlib.Path(__file__).resolve().parents[1]
sys.path.insert(0, str(ROOT / "python"))
import numpy
import isp
import isp.library

PROGRAM = ROOT / "crates/isp/out/isp"
PLUS = "export void f(uniform int a[]) { a[programIndex] = a[programIndex] + 1; }"
TYPES = {"b": "bool", "i8": "int8", "u8": "uint8", "i16": "int16", "u16": "uint16", "i32": "int", "u32": "uint", "i64": "int64", "u64": "uint64"}
ARRAYS = {"i8": "b", "u8": "B", "i16": "h", "u16": "H", "i32": "i", "u32": "I", "i64": "q", "u64": "Q"}
NUMPY = {
    "b": "bool", "i8": "int8", "u8": "uint8", "i16": "int16", "u16": "uint16", "i32": "int32", "u32": "uint32", "i64": "int64",
    "u64": "uint64",
}
# a kernel, and its arguments, for each kind of trap, with the place in characters and the instance
TRAPS = {
    "divide": ("export void f(uniform int a[]) {\n    a[0] = 7;\n    a[1] = 1 / a[1];\n}", [1, 0], 3, 12, 0),
    "index": ("export void f(uniform int a[]) {\n/* å€𝄞 */ a[programIndex + 1] = 7;\n}", [1, 0, 0], 2, 11, 2),
    "assert": ("export void f(uniform int a[]) {\n    int x = a[programIndex];\n    assert(x < 7);\n}", [1, 9, 9, 0], 3, 5, 1),
    "depth": ("void g(uniform int n) { g(n + 1); }\nexport void f(uniform int a[]) { if (a[programIndex] > 2) { g(0); } }", [0, 0, 0, 3], 1, 25, 3),
}


def made(code, values):
    """Returns an array of the standard library, of this type."""
    if code == "b":
        return memoryview(bytearray(values)).cast("?")
    return array.array(ARRAYS[code], values)


def resident():
    """Returns how much memory the process has, in kilobytes."""
    with open("/proc/self/status", encoding="ascii") as file:
        return next(int(line.split()[1]) for line in file if line.startswith("VmRSS"))


def examples():
    """Returns each kernel of the folder examples that has an answer: its name, source, arguments and answer."""
    found = []
    for path in sorted(ROOT.glob("examples/*.answer")):
        found.append((path.stem, path.with_suffix(".ispc").read_text(), json.loads(path.with_suffix(".json").read_text()), path.read_text()))
    assert len(found) > 10, "the kernels of the folder examples are missing"
    return found


def answer(kernel, entry, arguments, given):
    """Runs a kernel from its arguments in JSON, with arrays of this make, and returns the answer as `isp run` writes it, by name."""
    parameters = kernel.signatures[entry].parameters
    taken = {it.name: given(it.code, arguments[it.name]) if it.is_array else arguments[it.name] for it in parameters}
    result = getattr(kernel, entry)(**taken)
    arrays = {it.name: [bool(x) if it.code == "b" else int(x) for x in taken[it.name]] for it in sorted(parameters) if it.is_array}
    return json.dumps({"arrays": arrays, "result": result}, separators=(",", ":")) + "\n"


class Kernels(unittest.TestCase):
    """Each kernel of the folder examples gives its answer, for each gang, whatever its arrays are made of."""

    def tried(self, given):
        for name, source, arguments, wanted in examples():
            for gang in (4, 8, 16, 32):
                with self.subTest(kernel=name, gang=gang):
                    self.assertEqual(answer(isp.compile(source, gang), name, arguments, given), wanted)

    def test_array(self):
        self.tried(made)

    def test_numpy(self):
        self.tried(lambda code, values: numpy.array(values, NUMPY[code]))

    def test_native(self):
        for name, source, arguments, wanted in examples():
            with self.subTest(kernel=name):
                self.assertEqual(answer(isp.compile(source, 8, native=True), name, arguments, made), wanted)

    def test_program(self):
        for name, _, _, wanted in examples():
            path = ROOT / "examples" / name
            words = [PROGRAM, "run", "--gang", "16", f"{path}.ispc", name, f"{path}.json"]
            with self.subTest(kernel=name):
                self.assertEqual(subprocess.run(words, capture_output=True, text=True, check=True).stdout, wanted)


class Calls(unittest.TestCase):
    """What a call gives, by the library and as native code."""

    def test_result_and_output(self):
        source = """export uniform int8 f(uniform int8 x, uniform bool b) { print("% %\\n", x, b); return x - 1; }
            export uniform bool g(uniform uint64 n) { return n == 18446744073709551615; } export void register() { }
            export uniform uint64 most() { return 18446744073709551615; }"""
        for native in (False, True):
            kernel = isp.compile(source, native=native)
            self.assertEqual(kernel.f(x=-128, b=True), 127)
            self.assertEqual(kernel.output, b"-128 true\n")
            self.assertEqual(kernel.f.run(x=5, b=False), isp.Result(4, b"5 false\n"))
            self.assertEqual(kernel["f"].run(x=5, b=numpy.bool_(True)).output, b"5 true\n")
            self.assertIs(kernel.g(n=2**64 - 1), True)
            self.assertEqual(kernel.most(), 2**64 - 1)
            self.assertIsNone(kernel["register"]())
            self.assertEqual(kernel.output, b"")
            self.assertEqual(pickle.loads(pickle.dumps(kernel)).f(x=1, b=False), 0)
            self.assertEqual(pickle.loads(pickle.dumps(kernel.f))(x=1, b=False), 0)
            self.assertEqual(isp.load(kernel.code, native=native).f(x=1, b=False), 0)

    def test_ends(self):
        """The ends of every type, as values, elements and results."""
        source = " ".join(f"export uniform {name} {code}(uniform {name} a[], uniform {name} x) {{ a[1] = x; return a[0]; }}" for code, name in TYPES.items())
        for native in (False, True):
            kernel = isp.compile(source, native=native)
            for code in TYPES:
                bits = 1 if code == "b" else int(code[1:])
                low, high = (-(1 << bits - 1), (1 << bits - 1) - 1) if code[0] == "i" else (0, (1 << bits) - 1)
                for first, second in ((low, high), (high, low)):
                    with self.subTest(type=code, first=first, native=native):
                        values = made(code, [first, 0])
                        self.assertEqual(kernel[code](a=values, x=second), first)
                        self.assertEqual(list(values), [first, second])

    def test_much_output(self):
        """Output that has room is written by one run; past that by two, and by one more where the function is first found to be long."""
        kernel = isp.compile('export void f(uniform int n) { for (uniform int i = 0; i < n; i++) print("%\\n", i); }')
        library = isp.library.library()
        for n, runs in ((5000, 1), (20000, 3), (20000, 1), (3, 1), (20000, 2)):
            with unittest.mock.patch.object(isp.library, "library", return_value=Counting(library)) as counted:
                kernel.f(n=n)
                self.assertEqual((n, counted.return_value.runs), (n, runs))
            self.assertEqual(kernel.output, b"".join(b"%d\n" % i for i in range(n)))
        native = isp.load(kernel.code, native=True)
        for n in (0, 1, 20000):
            self.assertEqual(native.f.run(n=n).output, b"".join(b"%d\n" % i for i in range(n)))

    def test_long_run(self):
        """A run of many instructions gives the same by a thread of its own, and where no thread can be had."""
        kernel = isp.compile("export uniform int f(uniform int a[]) { for (uniform int i = 0; i < 30000; i++) a[i % 2] += i; return a[0]; }")
        for how in ("at first", "again", "no thread"):
            values = array.array("i", [0, 0])
            none = unittest.mock.patch.object(_thread, "start_new_thread", side_effect=RuntimeError) if how == "no thread" else contextlib.nullcontext()
            with self.subTest(how=how), none:
                self.assertEqual((kernel.f(a=values), list(values)), (224985000, [224985000, 225000000]))

    def test_signatures(self):
        kernel = isp.compile("export uniform int f(uniform uint8 a[], uniform int64 n) { return 1; } export void g() { } void h() { }")
        self.assertEqual(list(kernel.signatures), ["f", "g"])
        self.assertEqual(str(kernel.signatures["f"]), "(uint8 a[], int64 n) -> int")
        self.assertEqual(str(kernel.signatures["g"]), "() -> void")
        self.assertEqual(repr(kernel.f), "<f(uint8 a[], int64 n) -> int>")
        self.assertEqual(kernel.gang, 4)
        with self.assertRaisesRegex(AttributeError, "exports no h"):
            kernel.h()
        self.assertEqual(isp.compile("export uniform int code() { return 5; }")["code"](), 5)
        with self.assertRaises(KeyError):
            kernel["h"]

    def test_what_is_written(self):
        """Which arrays a kernel writes to, by itself and by the functions that it calls."""
        kernel = isp.compile("""
            void put(uniform int to[], const uniform int from[]) { to[programIndex] = from[programIndex]; }
            void hand(const uniform int x[], uniform int y[]) { put(y, x); }
            export void f(uniform int a[], uniform int b[], const uniform int c[]) { hand(c, b); a[0] += 0; }
            export uniform int g(uniform int a[], uniform int b[]) { return a[0] + reduce_add(b[programIndex]); }
            export void each(uniform int a[], uniform int b[], uniform int c[], uniform int d[]) {
                a[0] = 1;
                b[programIndex] = 1;
                c[d[programIndex]] = 1;
            }
            export void packed(uniform int a[], uniform int b[]) { packed_store_active(a, b[programIndex]); }
            export void loaded(uniform int a[], uniform int b[]) { int v; packed_load_active(a, &v); b[programIndex] = v; }
            export void self(uniform int a[], uniform int n, uniform int b[], const uniform int c[]) { if (n > 0) { self(b, n - 1, a, c); } b[0] = 1; }
            export void round(uniform int a[], uniform int b[], uniform int c[], uniform int n) { if (n > 0) { round(b, c, a, n - 1); } c[0] = 1; }""")
        written = {name: "".join(it.name for it in signature.parameters if it.is_written) for name, signature in kernel.signatures.items()}
        self.assertEqual(written, {"f": "ab", "g": "", "each": "abc", "packed": "a", "loaded": "b", "self": "ab", "round": "abc"})

    def test_code(self):
        kernel = isp.compile(PLUS, gang=8)
        again = isp.load(kernel.code)
        values = array.array("i", range(8))
        again.f(a=values)
        self.assertEqual(list(values), list(range(1, 9)))
        self.assertEqual(again.gang, 8)
        self.assertEqual(pickle.loads(pickle.dumps(kernel)).code, kernel.code)

    def test_words(self):
        """A command of more than eight words, and texts past ASCII."""
        source = 'export void f() { print("å€𝄞\\n"); }'
        words = ["run", "--gang", "4", "--budget", "100000", "--", "source", "f", "arguments"]
        self.assertEqual(isp.library.command(words, {"source": source, "arguments": "{}"}), (0, 'å€𝄞\n{"arrays":{},"result":null}\n', ""))
        self.assertEqual(isp.compile(source).f.run().output, "å€𝄞\n".encode())

    def test_parameters_of_any_name(self):
        """Each word is a parameter's name, also those of the module."""
        kernel = isp.compile("export uniform int f(uniform int self, uniform int _budget, uniform int entry) { return self * 100 + _budget * 10 + entry; }")
        self.assertEqual(kernel.f(self=1, _budget=2, entry=3), 123)
        self.assertEqual(kernel.f.within(1000)(self=1, _budget=2, entry=3), 123)
        with self.assertRaises(isp.BudgetUsed):
            kernel.f.within(1)(self=1, _budget=2, entry=3)


class Counting:
    """The library, which counts its runs."""

    def __init__(self, library):
        self.library, self.runs = library, 0

    def isp_run(self, *words):
        self.runs += 1
        return self.library.isp_run(*words)


class Refusals(unittest.TestCase):
    """Each way in which a call is refused, once."""

    def test_source(self):
        with self.assertRaises(isp.SourceError) as found:
            isp.compile("export void f() {\n    int å = 1;\n    x = 1;\n}")
        fault = found.exception
        self.assertEqual((fault.status, fault.number, fault.name, fault.begin, fault.end), (1, 1, "BadByte", 26, 28))
        self.assertEqual((fault.line, fault.column), (2, 9))
        self.assertEqual(str(fault), "2:9: 1 BadByte at 26..28")

    def test_place_behind_other_characters(self):
        with self.assertRaises(isp.SourceError) as found:
            isp.compile("export void f() {\n/* å€𝄞 */ x = 1; }")
        self.assertEqual((found.exception.begin, found.exception.line, found.exception.column), (34, 2, 11))

    def test_ranges(self):
        for gang in (0, 5, 64, -4, 2**32 + 4, 2**64 + 8, True, "16"):
            with self.subTest(gang=gang), self.assertRaisesRegex(ValueError, "4, 8, 16 or 32"):
                isp.compile(PLUS, gang=gang)
        kernel = isp.compile(PLUS)
        values = array.array("i", range(4))
        for budget in (-1, 2**64, 2**64 + 1000):
            with self.subTest(budget=budget), self.assertRaisesRegex(ValueError, "0 to 18446744073709551615"):
                kernel.f(a=values, _budget=budget)
            with self.subTest(budget=budget), self.assertRaisesRegex(ValueError, "0 to 18446744073709551615"):
                kernel.f.within(budget)
            with self.subTest(budget=budget), self.assertRaisesRegex(ValueError, "0 to 18446744073709551615"):
                kernel.budget = budget
        with self.assertRaisesRegex(TypeError, "a budget is an int, not float"):
            kernel.f.within(1.5)
        self.assertEqual((list(values), kernel.budget), ([0, 1, 2, 3], 100_000_000))
        kernel.f(a=values, _budget=2**64 - 1)
        self.assertEqual(list(values), [1, 2, 3, 4])

    def test_no_text(self):
        for given in (PLUS.encode(), None, 5):
            with self.assertRaisesRegex(TypeError, "source: wanted a str, given"):
                isp.compile(given)
            with self.assertRaisesRegex(TypeError, "code: wanted a str, given"):
                isp.load(given)

    def test_traps(self):
        """Each kind of trap with its place and its instance, by the library, as native code, and from code alone."""
        for kind, (source, given, line, column, instance) in TRAPS.items():
            plain = isp.compile(source)
            for kernel in (plain, isp.compile(source, native=True), isp.load(plain.code), isp.load(plain.code, native=True)):
                with self.subTest(kind=kind, kernel=type(kernel), source=kernel.source is not None):
                    with self.assertRaises(isp.Trap) as found:
                        kernel.f(a=array.array("i", given))
                    trap = found.exception
                    self.assertEqual((trap.status, trap.kind, trap.instance), (3, kind, instance))
                    self.assertEqual((trap.line, trap.column), (line, column) if kernel.source else (None, None))
                    place = source.encode()[trap.begin : trap.end].decode()
                    self.assertTrue(source.split("\n")[line - 1][column - 1 :].startswith(place), place)
                    self.assertIn(f"trap {kind} at {trap.begin}..{trap.end}, instance {instance}", str(trap))

    def test_arrays_and_output_of_a_trap(self):
        source = 'export void f(uniform int a[]) { a[0] = 7; print("so far\\n"); a[1] = 1 / a[1]; }'
        for native in (False, True):
            kernel, values = isp.compile(source, native=native), array.array("i", [1, 0])
            with self.assertRaises(isp.Trap) as found:
                kernel.f(a=values)
            self.assertEqual((list(values), found.exception.output, kernel.output), ([7, 0], b"so far\n", b"so far\n"))

    def test_budget(self):
        kernel = isp.compile('export void f(uniform int a[]) { a[0] = 7; print("x"); while (true) a[0]++; }')
        values = array.array("i", [1])
        for budget in (1000, 300_000):
            with self.assertRaises(isp.BudgetUsed) as found:
                kernel.f(a=values, _budget=budget)
            self.assertEqual((found.exception.status, list(values), kernel.output, found.exception.output), (4, [1], b"x", b"x"))
        kernel.budget = 10
        with self.assertRaises(isp.BudgetUsed):
            kernel.f(a=values)

    def test_values(self):
        kernel = isp.compile("export void f(uniform uint8 n, uniform int8 m) { }")
        kernel.f(n=255, m=-128)
        kernel.f(n=numpy.int64(255), m=numpy.array(-128))
        for values in ({"n": 256, "m": 0}, {"n": -1, "m": 0}, {"n": 0, "m": 128}, {"n": 0, "m": -129}, {"n": 2**200, "m": 0}):
            with self.assertRaisesRegex(OverflowError, "wanted -?[0-9]* to [0-9]*, given"):
                kernel.f(**values)
        for values, why in (({"n": 1}, "the argument m is missing"), ({"n": 1, "m": 1, "k": 1}, "no parameter k"), ({"n": 1.0, "m": 1}, "n is uint8.*given float"),
                            ({"n": numpy.zeros(3, "i4"), "m": 1}, "n is uint8.*given ndarray"), ({"n": None, "m": 1}, "n is uint8.*given NoneType")):
            with self.assertRaisesRegex(TypeError, why):
                kernel.f(**values)

    def test_bool(self):
        """A bool of 2 is refused: NumPy can have one."""
        given = numpy.array([0, 1, 2], "u1").view(bool)
        for native in (False, True):
            kernel = isp.compile("export void f(uniform int8 a[], uniform bool b[]) { b[0] = true; }", native=native)
            with self.assertRaises(isp.ArgumentsError) as found:
                kernel.f(a=array.array("b"), b=given)
            fault = found.exception
            self.assertEqual((fault.status, fault.number, fault.parameter, fault.element, str(fault)), (5, 75, 1, 2, "75 OutOfRange"))

    def test_code(self):
        with self.assertRaises(isp.CodeError) as found:
            isp.load("isp 1 gang 4\nfunc f export void\nm 1\njmp L1\nend\n").f()
        self.assertEqual((found.exception.status, found.exception.number, found.exception.function), (8, 42, 0))
        with self.assertRaises(isp.CodeError) as found:
            isp.load("isp 1 gang 4\nfunc f export void\nm x\nret -\nend\n").f()
        self.assertEqual(found.exception.line, 3)
        with self.assertRaises(isp.CodeError):
            isp.load("isp 1 gang 4\nfunc f export void\nm 1\njmp L1\nend\n", native=True)

    def test_independence(self):
        kernel = isp.compile("export void f(uniform int a[]) { a[programIndex] = 1; } export void g(uniform int a[]) { a[0] = reduce_add(programIndex); }")
        self.assertTrue(kernel.is_independent("f"))
        self.assertFalse(kernel.is_independent("g"))
        self.assertTrue(kernel.dependence("g").startswith("rule 1 at "))
        with self.assertRaises(AttributeError):
            kernel.is_independent("h")
        with self.assertRaisesRegex(ValueError, "loaded as code"):
            isp.load(kernel.code).is_independent("f")

    def test_library(self):
        with tempfile.TemporaryDirectory() as folder:
            words = [sys.executable, "-c", "import isp; isp.compile('')"]
            told = {**os.environ, "ISP_LIBRARY": f"{folder}/none.so", "PYTHONPATH": str(ROOT / "python")}
            ran = subprocess.run(words, env=told, capture_output=True, text=True, check=False)
        self.assertRegex(ran.stderr, "none.so is not there: `tools/library` builds it")


class Memory(unittest.TestCase):
    """Many calls take no more memory than a few."""

    def tried(self, kernel, calls):
        values = array.array("i", range(4))
        for _ in range(2000):
            kernel.f(a=values)
        gc.collect()
        before = resident()
        for _ in range(calls):
            kernel.f(a=values)
        gc.collect()
        self.assertLess(resident() - before, 1024)

    def test_many_calls(self):
        self.tried(isp.compile(PLUS), int(os.environ.get("ISP_CALLS", "20000")))

    def test_many_native_calls(self):
        self.tried(isp.compile('export void f(uniform int a[]) { a[0]++; print("% and a hundred more bytes than nothing at all\\n", a[0]); }', native=True), 40000)


def main():
    """Runs the tests of all files of this folder, with native code that is kept in a folder of their own."""
    with tempfile.TemporaryDirectory() as cache:
        os.environ.update(XDG_CACHE_HOME=cache, PYTHONPATH=str(ROOT / "python"))
        os.environ.setdefault("CFLAGS", "-O1")
        # (what a shell starts in the background ignores it)
        signal.signal(signal.SIGINT, signal.default_int_handler)
        tests = unittest.defaultTestLoader.discover(str(ROOT / "python"))
        words = sys.argv[1:]
        if words:
            tests = unittest.defaultTestLoader.loadTestsFromNames(words)
        done = unittest.TextTestRunner().run(tests)
    if not done.testsRun or done.skipped:
        print(f"{done.testsRun} tests, {len(done.skipped)} left out: each is to be run")
        return 1
    return not done.wasSuccessful()


if __name__ == "__main__":
    sys.exit(main())
