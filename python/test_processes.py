"""Kernels in threads and in other processes, and Ctrl-C."""
import array
import concurrent.futures
import logging
import multiprocessing
import os
import pickle
import subprocess
import sys
import threading
import unittest

import distributed
import numpy
import isp
from test_isp import PLUS, ROOT

THREADS = 16
CALLS = int(os.environ.get("ISP_THREAD_CALLS", "100000"))
SPEAKING = 'export uniform int f(uniform int a[], uniform int n) { a[0] += n; print("% %\\n", n, a[0]); return n * n; }'
DIVIDING = "export void f(uniform int a[]) {\n    a[1] = 1 / a[1];\n}"
LONG = "export void f(uniform int a[]) { uniform int x = a[0]; for (uniform int i = 0; i < 1000000000; i++) x = x * 1664525 + i; a[0] = x; a[1] = 7; }"
ENDLESS = "export void f(uniform int a[]) { a[0] = 7; while (true) a[1]++; }"


def refused_code():
    return isp.load("isp 1 gang 4\nfunc f export void\nm x\nret -\nend\n").f()


def no_compiler():
    os.environ["CC"] = "/nowhere/cc"
    try:
        return isp.compile(PLUS, native=True)
    finally:
        del os.environ["CC"]


def refusals():
    """Returns calls that are refused, each with its exception's class and what it is known to say."""
    kernel = isp.compile(DIVIDING)
    text = {"kind": "divide", "line": 2, "column": 12, "instance": 0, "output": b""}
    speaking = isp.compile(SPEAKING + ' export void g(uniform int n) { print("on\\n"); while (n > 0) { } }')
    flags = isp.compile("export void f(uniform bool b[]) { b[0] = true; }")
    return [
        (isp.Trap, text, kernel.f, {"a": array.array("i", [1, 0])}),
        (isp.BudgetUsed, {"status": 4, "output": b"on\n"}, speaking.g.within(5000), {"n": 1}),
        (isp.SourceError, {"number": 1, "name": "BadByte", "line": 1, "column": 3}, isp.compile, {"source": "  å"}),
        (isp.ArgumentsError, {"number": 75, "parameter": 0, "element": 1}, flags.f, {"b": bools(b"\0\2")}),
        (isp.CodeError, {"line": 3, "status": 8}, refused_code, {}),
        (isp.NativeError, {"status": 2}, no_compiler, {}),
        (TypeError, {}, kernel.f, {"a": array.array("f", [1.0])}),
        (OverflowError, {}, speaking.g, {"n": 2**31}),
        (ValueError, {}, isp.compile, {"source": PLUS, "gang": 5}),
    ]


def bools(values):
    """Returns bytes as an array of bool, which can be pickled."""
    return numpy.frombuffer(bytearray(values), numpy.uint8).view(bool)


class Exceptions(unittest.TestCase):
    """Each exception arrives as it was raised: by pickle, from a worker of a pool, and from one of Dask."""

    def tried(self, call):
        """Each refusal by this way of a call, beside the same refusal here."""
        for kind, known, function, given in refusals():
            with self.subTest(kind=kind.__name__):
                with self.assertRaises(kind) as here:
                    function(**given)
                with self.assertRaises(kind) as there:
                    call(function, given)
                self.assertIs(type(there.exception), kind)
                self.assertEqual(str(there.exception), str(here.exception))
                self.assertEqual(there.exception.args, here.exception.args)
                facts = {name: it for name, it in vars(there.exception).items() if not name.startswith("__")}
                self.assertEqual(facts, vars(here.exception))
                self.assertEqual({name: facts.get(name) for name in known}, known)

    def test_pickle(self):
        def call(function, given):
            try:
                function(**given)
            except Exception as error:
                raise pickle.loads(pickle.dumps(error)) from None

        self.tried(call)

    def test_pool(self):
        for method in ("spawn", "fork"):
            context = multiprocessing.get_context(method)
            with concurrent.futures.ProcessPoolExecutor(1, mp_context=context) as pool:
                self.tried(lambda function, given: pool.submit(function, **given).result())
                kernel = isp.compile(SPEAKING)
                self.assertEqual(pool.submit(kernel.f.run, a=array.array("i", [1]), n=5).result(), isp.Result(25, b"5 6\n"))

    def test_dask(self):
        quiet = {"dashboard_address": None, "silence_logs": logging.CRITICAL}
        cluster = distributed.LocalCluster(n_workers=1, threads_per_worker=1, host="127.0.0.1", processes=True, **quiet)
        with cluster, distributed.Client(cluster) as client:
            self.tried(lambda function, given: client.submit(function, pure=False, **given).result())
            kernel = isp.compile(SPEAKING)
            self.assertEqual(client.submit(kernel.f.run, a=array.array("i", [1]), n=5, pure=False).result(), isp.Result(25, b"5 6\n"))


class Threads(unittest.TestCase):
    """Each thread sees its own output."""

    def wrong_of(self, kernel, number, calls, wrong):
        values, other = array.array("i", [0]), 0
        for i in range(calls):
            n = number * 1000 + i % 1000
            other += n
            wanted = isp.Result(n * n, b"%d %d\n" % (n, other))
            given = kernel.f.run(a=values, n=n)
            if given != wanted or kernel.output != wanted.output or values[0] != other:
                wrong.append((number, i, given, wanted, kernel.output))
                return
            if i % 1000 == 999:
                values[0] = other = 0

    def tried(self, kernel, calls):
        wrong = []
        threads = [threading.Thread(target=self.wrong_of, args=(kernel, number, calls // THREADS, wrong)) for number in range(THREADS)]
        for it in threads:
            it.start()
        for it in threads:
            it.join()
        self.assertEqual(wrong, [])
        self.assertEqual(kernel.output, b"")

    def test_library(self):
        self.tried(isp.compile(SPEAKING), CALLS)

    def test_native(self):
        self.tried(isp.compile(SPEAKING, native=True), CALLS)


INTERRUPT = """
import array, os, signal, threading, time, isp
signal.signal(signal.SIGINT, signal.default_int_handler)
def interrupt():
    time.sleep(WAITED)
    sent.append(time.monotonic())
    os.kill(os.getpid(), signal.SIGINT)
"""
INTERRUPTED = f"""
WAITED = 1
kernel, values = isp.compile({ENDLESS!r}), array.array("i", [1, 2])
kernel.budget = 2**63
for _ in range(2):
    sent = []
    thread = threading.Thread(target=interrupt)
    thread.start()
    try:
        kernel.f(a=values)
        print("ended")
    except KeyboardInterrupt:
        late = time.monotonic() - sent[0]
        print("seen" if late < SECONDS else late, list(values))
    thread.join()
print(isp.compile({PLUS!r}).f(a=array.array("i", range(4))))
"""
INTERRUPTED_NATIVE = f"""
WAITED = 0.2
kernel, values, sent = isp.compile({LONG!r}, native=True), array.array("i", [1, 2]), []
thread = threading.Thread(target=interrupt)
try:
    thread.start()
    kernel.f(a=values)
    print("ended", values[1])
except KeyboardInterrupt:
    print("seen", values[1])
"""


class CtrlC(unittest.TestCase):
    def tried(self, text, wanted):
        told = {**os.environ, "PYTHONPATH": str(ROOT / "python")}
        ran = subprocess.run([sys.executable, "-c", INTERRUPT + text], capture_output=True, text=True, timeout=60, env=told)
        self.assertEqual((ran.stdout, ran.stderr, ran.returncode), (wanted, "", 0))

    def test_library(self):
        """A run without end is left: the arrays are as they were, the module can be used, and the program can end."""
        # (a tenth of a second where nothing else is at work)
        self.tried(INTERRUPTED.replace("SECONDS", "3"), "seen [1, 2]\nseen [1, 2]\nNone\n")

    def test_native(self):
        """Native code is waited for."""
        self.tried(INTERRUPTED_NATIVE, "seen 7\n")


if __name__ == "__main__":
    unittest.main()
