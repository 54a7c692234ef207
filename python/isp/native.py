"""Kernels as native code, which a C compiler makes."""
from __future__ import annotations

import ctypes

from . import arguments, errors, library
from .building import built
from .kernel import Kernel, Result
from .library import Why
from .signatures import code_of

_ENDED, _TRAPPED = 0, 1
# what stands before the name of an exported function in the C file
PREFIX = "kernel_"
_IN_C = {
    "b": ctypes.c_bool, "i8": ctypes.c_int8, "u8": ctypes.c_uint8, "i16": ctypes.c_int16, "u16": ctypes.c_uint16, "i32": ctypes.c_int32,
    "u32": ctypes.c_uint32, "i64": ctypes.c_int64, "u64": ctypes.c_uint64,
}
# where an array without elements begins
_NOTHING = ctypes.c_uint64()


class _Run(ctypes.Structure):
    """`struct isp_run` of include/isp_machine.h."""

    _fields_ = [("write", ctypes.c_void_p), ("to", ctypes.c_void_p), ("kind", ctypes.c_int)]
    _fields_ += [(name, ctypes.c_uint32) for name in ("start", "end", "instance")]
    _fields_ += [("steps", ctypes.c_uint64), ("most_steps", ctypes.c_uint64)]


class _Output(ctypes.Structure):
    """`struct isp_output` of output.c."""

    _fields_ = [("bytes", ctypes.c_void_p), ("used", ctypes.c_size_t), ("room", ctypes.c_size_t)]


class Native(Kernel):
    """A kernel whose code a C compiler has made native code of. Its calls are those of a Kernel, with these differences:

    - The arrays are not copied. Each must lie at a multiple of its items' size (TypeError).
    - There is no budget: a loop without an end does not end, and Ctrl-C is seen when the call has ended.
    - The code is the proved one; of the C compiler, of include/isp_machine.h and of output.c nothing is proved (docs/EMBEDDING.md).

    The compiler is `clang`, else `gcc` or `cc`, or what the environment's CC says, with `-O3 -march=native` or what CFLAGS says. What
    it made is kept in the user's cache folder. isp_machine.h is looked for in the folder `include`, or where ISP_INCLUDE says.
    """

    def __init__(self, code, source, gang):
        super().__init__(code, source, gang)
        status, self.c_text, report = library.c_file(self._text)
        library.raise_else(status, report)
        self._calls = built(self.c_text)
        self._write = ctypes.cast(self._calls.isp_output_write, ctypes.c_void_p)

    def _run(self, entry, budget, given):
        if budget is not None:
            raise TypeError("native code has no budget")
        signature = self.signatures[entry]
        found = arguments.arrays(entry, signature, given)
        words = []
        for number, it in enumerate(signature.parameters):
            if it.is_array:
                _check_elements(entry, number, found[it.name])
                words += [ctypes.c_void_p(found[it.name].at or ctypes.addressof(_NOTHING)), ctypes.c_uint64(found[it.name].count)]
            else:
                words.append(_IN_C[it.code](arguments.number(entry, it, given[it.name])))
        result = _IN_C[code_of(signature.result)]() if signature.result else None
        words += [] if result is None else [ctypes.byref(result)]
        end, run, output = self._called(getattr(self._calls, PREFIX + entry), words)
        self._last.output = output
        if end == _TRAPPED:
            raise self._trap(run, output)
        if end != _ENDED:
            raise MemoryError("isp: memory")
        return Result(None if result is None else result.value, output)

    def _called(self, call, words):
        """Calls an exported function; returns how it ended, its run, and what it wrote."""
        held = _Output()
        run = _Run(write=self._write, to=ctypes.addressof(held))
        try:
            end = call(ctypes.byref(run), *words)
            return end, run, (ctypes.c_char * held.used).from_address(held.bytes).raw if held.used else b""
        finally:
            self._calls.isp_output_free(ctypes.byref(held))

    def _trap(self, run, output):
        """Returns the trap that a run ended with."""
        why = Why(trap=run.kind + 1, begin=run.start, end=run.end, instance=run.instance)
        text = f"trap {errors.KINDS[why.trap]} at {run.start}..{run.end}, instance {run.instance}"
        return errors.Trap(text, why, self.source, output)


def _check_elements(entry, number, array):
    """Refuses an array whose elements C cannot take: one at an odd place, and a bool that is not 0 or 1, which the library refuses."""
    item_size = array.parameter.item_size
    if array.at % item_size:
        raise TypeError(f"{entry}: {array.parameter.name} is {array.parameter.type}[]: wanted memory at a multiple of {item_size}, given some between")
    if array.parameter.code == "b" and array.size:
        others = array.view.tobytes().lstrip(b"\0\1")
        if others:
            raise errors.ArgumentsError("75 OutOfRange", Why(number=75, parameter=number, element=array.size - len(others)))
