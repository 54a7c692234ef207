"""Kernels as modules of WebAssembly, for pages and for Node."""
from __future__ import annotations

from . import errors, library
from .kernel import Kernel


class Wasm(Kernel):
    """A kernel whose code is a module of WebAssembly too. Its calls are those of a Kernel: here the library runs them, since Python has no
    engine of WebAssembly.

        module       the module's bytes, as `ispx wasm` writes them, which js/isp.js loads

    Their bytes are proved to be those of the code; of js/isp.js, and of an engine, nothing is (docs/EMBEDDING.md).
    """

    def __init__(self, code, source, gang):
        super().__init__(code, source, gang)
        status, self.module, report = library.module(self._text)
        if status == errors.CODE and not report.why.number:
            raise errors.ModuleError(report.text())
        library.raise_else(status, report)
