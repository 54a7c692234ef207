"""The shared library: where it is, and its calls."""
from __future__ import annotations

import ctypes
import functools
import os
import signal
import subprocess
import threading
import _thread

from . import errors

# the first room for output, in bytes
ROOM = 65536


class Text(ctypes.Structure):
    _fields_ = [("at", ctypes.c_char_p), ("size", ctypes.c_size_t)]

    @classmethod
    def of(cls, text):
        data = text.encode() if isinstance(text, str) else text
        return cls(data, len(data))


class Why(ctypes.Structure):
    _fields_ = [("number", ctypes.c_uint32), ("trap", ctypes.c_uint32)]
    _fields_ += [(name, ctypes.c_size_t) for name in ("begin", "end", "instance", "line", "function", "instruction", "parameter", "element")]


class Report(ctypes.Structure):
    _fields_ = [("used", ctypes.c_size_t), ("result", ctypes.c_uint64), ("why", Why), ("line", ctypes.c_char * 128)]

    def text(self):
        return self.line.decode(errors="replace").strip().removeprefix("isp: ")


class Job(ctypes.Structure):
    _fields_ = [("entry", Text), ("budget", ctypes.c_uint64)]


class File(ctypes.Structure):
    _fields_ = [("name", Text), ("text", Text)]


class Used(ctypes.Structure):
    _fields_ = [("out", ctypes.c_size_t), ("err", ctypes.c_size_t)]


def folder(name):
    """Returns a folder of isp: that of the package itself, where it was installed, or that of the repository."""
    package = os.path.dirname(os.path.realpath(__file__))
    inside = os.path.join(package, name)
    return inside if os.path.isdir(inside) else os.path.join(os.path.dirname(os.path.dirname(package)), name)


def _released():
    """Returns where the released library is unpacked, or "" where this is no clone, or one of other sources than the release (tools/start)."""
    start = os.path.join(folder("tools"), "start")
    if not os.path.isfile(start):
        return ""
    return subprocess.run([start, "--path", "libisp.so"], stdin=subprocess.DEVNULL, stdout=subprocess.PIPE, text=True, check=False).stdout.strip()


def _library_path():
    """Returns where the shared library is: what ISP_LIBRARY says, libisp.so in the folder `lib`, or else the released one."""
    path = os.environ.get("ISP_LIBRARY") or os.path.join(folder("lib"), "libisp.so")
    if not os.path.isfile(path) and not os.environ.get("ISP_LIBRARY"):
        path = _released() or path
    if not os.path.isfile(path):
        raise OSError(f"{path} is not there: `tools/library` builds it, or ISP_LIBRARY names it")
    return path


@functools.cache
def library():
    """Returns the shared library, with the types of its calls."""
    found = ctypes.CDLL(_library_path())
    bytes_of, size, to = ctypes.c_char_p, ctypes.c_size_t, ctypes.c_void_p
    report = ctypes.POINTER(Report)
    found.isp_compile.argtypes = [bytes_of, size, ctypes.c_uint32, to, size, report]
    found.isp_native.argtypes = [bytes_of, size, to, size, report]
    found.isp_wasm.argtypes = [bytes_of, size, to, size, report]
    found.isp_run.argtypes = [bytes_of, size, ctypes.POINTER(Job), to, size, to, size, report]
    found.isp_command.argtypes = [ctypes.POINTER(Text), size, ctypes.POINTER(File), size, to, size, to, size, ctypes.POINTER(Used)]
    for call in (found.isp_compile, found.isp_run, found.isp_native, found.isp_wasm, found.isp_command):
        call.restype = ctypes.c_uint8
    return found


def command(words, files):
    """Does what the program does for these words, and returns the status, standard output and standard error."""
    spelt = (Text * len(words))(*map(Text.of, words))
    held = (File * len(files))(*[File(Text.of(name), Text.of(text)) for name, text in files.items()])
    used = Used(4096, 4096)
    while True:
        out, err = (ctypes.create_string_buffer(max(1, it)) for it in (used.out, used.err))
        status = library().isp_command(spelt, len(words), held, len(files), out, len(out), err, len(err), ctypes.byref(used))
        if status == errors.MEMORY:
            raise MemoryError("isp: memory")
        if status != errors.ROOM:
            return status, out.raw[: used.out].decode(), err.raw[: used.err].decode()


def compiled(source, gang):
    """Compiles a source; returns the status, the code text and the report."""
    status, text, report = _written(lambda room, size, report: library().isp_compile(source, len(source), gang, room, size, report))
    return status, text.decode(), report


def c_file(code):
    """Returns the status, the C file of code text, and the report."""
    status, text, report = _written(lambda room, size, report: library().isp_native(code, len(code), room, size, report))
    return status, text.decode(), report


def module(code):
    """Returns the status, the module of WebAssembly of code text, and the report."""
    return _written(lambda room, size, report: library().isp_wasm(code, len(code), room, size, report))


def first_bytes(room, count):
    """Returns so many bytes of a room. (ctypes.string_at takes a C int, which has no 2^31.)"""
    return memoryview(room)[:count].tobytes()


def _written(call):
    """Makes a call that writes bytes, with room enough; returns the status, the bytes and the report."""
    report = Report(used=ROOM)
    while True:
        room = ctypes.create_string_buffer(max(1, report.used))
        status = call(room, len(room), ctypes.byref(report))
        if status != errors.ROOM:
            return status, first_bytes(room, report.used) if status == errors.OK else b"", report


def run(code, entry, packed, budget, room):
    """Runs an entry over its arguments as bytes, a bytearray, with so much room for the output; returns the status, the report and the
    output. With the status ROOM nothing was changed, and report.used is the room that is wanted."""
    job, report, size = Job(Text.of(entry), budget), Report(), len(packed)
    held = (ctypes.c_char * max(1, size)).from_buffer(packed if size else bytearray(1))
    output = ctypes.create_string_buffer(room)
    status = library().isp_run(code, len(code), ctypes.byref(job), held, size, output, room, ctypes.byref(report))
    given = status in (errors.OK, errors.TRAP, errors.BUDGET)
    return status, report, first_bytes(output, report.used) if given else b""


# ---- Ctrl-C


def is_interruptible():
    """Returns whether a signal is seen between two calls of this thread, and Ctrl-C is one that Python sees."""
    main = threading.current_thread() is threading.main_thread()
    return main and callable(signal.getsignal(signal.SIGINT)) and not threading.stack_size()


def interruptible(call, *words):
    """Makes a call by a thread of its own, so that this one sees Ctrl-C at once. The call goes on then, and nobody takes what it
    gives."""
    given, over = [], _thread.allocate_lock()
    over.acquire()
    try:
        _thread.start_new_thread(_made, (call, words, given, over))
    except RuntimeError:
        return call(*words)  # the system has no thread to give, or Python is about to end
    over.acquire()
    if isinstance(given[0], BaseException):
        raise given[0]
    return given[0]


def _made(call, words, given, over):
    """Makes a call in a thread, and leaves what it gives."""
    try:
        given.append(call(*words))
    except BaseException as error:
        given.append(error)
    finally:
        over.release()


def raise_else(status, report):
    """Raises what the other statuses mean."""
    if status == errors.MEMORY:
        raise MemoryError("isp: memory")
    if status == errors.CODE:
        raise errors.CodeError(report.text(), report.why)
    if status == errors.ARGUMENTS:
        raise errors.ArgumentsError(report.text(), report.why)
    if status != errors.OK:
        raise errors.Error(status, report.text())
