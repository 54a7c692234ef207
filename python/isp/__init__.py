"""isp from Python: kernels in the integer part of ISPC, compiled and run by the proved library.

    import array
    import isp

    kernel = isp.compile(open("brighten.ispc").read(), gang=16)
    pixels = array.array("B", [0, 10, 100, 200])
    kernel.brighten(pixels=pixels, count=len(pixels), level=50)

`tools/library` builds the shared library. It is looked for where the environment's ISP_LIBRARY says, or in the folder `lib` of this
package or of the repository. Where it is in neither, the released one is taken, if it is of the repository's sources. Nothing else is
needed but the standard library, and for `native=True` a C compiler. Of this module nothing is proved; it is tested (tools/library-test).
"""
from __future__ import annotations

from . import errors, library
from .errors import ArgumentsError, BudgetUsed, CodeError, Error, ModuleError, NativeError, SourceError, Trap
from .kernel import Function, Kernel, Result, checked_gang
from .native import Native
from .signatures import Parameter, Signature
from .wasm import Wasm

__all__ = [
    "ArgumentsError", "BudgetUsed", "CodeError", "Error", "Function", "Kernel", "ModuleError", "Native", "NativeError", "Parameter", "Result",
    "Signature", "SourceError", "Trap", "Wasm", "compile", "load",
]


def compile(source: str, gang: int = 4, native: bool = False, wasm: bool = False) -> Kernel:
    """Compiles the text of a source for a gang of 4, 8, 16 or 32 instances, and returns the kernel; with `native` one that a
    C compiler has made native code of (Native), with `wasm` one that has its module of WebAssembly too (Wasm).

    SourceError where the source is refused, ValueError for another gang and for both `native` and `wasm`, TypeError for what is no text,
    MemoryError where memory is refused, NativeError where the C compiler is missing or fails, ModuleError where no module is made.
    """
    kind, gang = _kind(native, wasm), checked_gang(gang)
    _check_text("source", source)
    status, code, report = library.compiled(source.encode(), gang)
    if status == errors.SOURCE:
        raise SourceError(report.text(), report.why, source)
    library.raise_else(status, report)
    return kind(code, source, gang)


def load(code: str, native: bool = False, wasm: bool = False) -> Kernel:
    """Returns the kernel of code text, as `isp asm` and `kernel.code` give it. Code with a fault is refused (CodeError): by a
    call, and with `native` or `wasm` here."""
    _check_text("code", code)
    return _kind(native, wasm)(code, None, None)


def _kind(native, wasm):
    """Returns which kernel is wanted; ValueError for one that is both."""
    if native and wasm:
        raise ValueError("a kernel is native or wasm, not both")
    return Native if native else Wasm if wasm else Kernel


def _check_text(what, given):
    if not isinstance(given, str):
        raise TypeError(f"{what}: wanted a str, given {type(given).__name__}")
