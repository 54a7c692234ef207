"""What is refused: each exception can be pickled, and is printed the same behind that."""
from __future__ import annotations

from typing import Optional

KINDS = ("", "divide", "index", "assert", "depth")
OK, SOURCE, WORDS, TRAP, BUDGET, ARGUMENTS, TEXT, MEMORY, CODE, DEPENDENT, ROOM = range(11)


class Error(Exception):
    """A call of the library that gave no answer. `status` is that of the program, `number` that of the fault in docs/FAULTS.md,
    `output` what the kernel had written until then."""

    number: Optional[int] = None
    output: bytes = b""

    def __init__(self, status: int, text: str):
        super().__init__(text or f"status {status}")
        self.status = status

    def __reduce__(self):
        return _again, (type(self), self.args, dict(self.__dict__))


def _again(kind, arguments, facts):
    """Returns the exception that was pickled."""
    error = kind.__new__(kind, *arguments)
    error.__dict__.update(facts)
    return error


class _InSource(Error):
    """One with a place in the source: bytes `begin` up to `end`, and the `line` and `column` of the first, from 1."""

    def __init__(self, status, text, why, source):
        self.begin, self.end = why.begin, why.end
        self.line, self.column = _place(source, why.begin)
        where = f"{self.line}:{self.column}: " if self.line else ""
        super().__init__(status, where + text)


class SourceError(_InSource):
    """The source is refused: `number` and `name` as in docs/FAULTS.md, at bytes `begin` up to `end`, `line` and `column` from 1."""

    def __init__(self, text, why, source):
        self.number = why.number
        self.name = text.split(" ")[1]
        super().__init__(SOURCE, text, why, source)


class Trap(_InSource):
    """A run trapped: `kind` is divide, index, assert or depth, with the place in the source and the lowest `instance` of the
    gang that caused it. The arrays are as they were then, and `output` is what was written until then. `line` is None for a
    kernel that was loaded as code."""

    def __init__(self, text, why, source, output=b""):
        self.kind = KINDS[why.trap]
        self.instance = why.instance
        self.output = output
        super().__init__(TRAP, text, why, source)


class BudgetUsed(Error):
    """The budget of instructions is used up. The arrays are as they were before the call, and `output` is what was written
    until then."""

    def __init__(self, text, output=b""):
        self.output = output
        super().__init__(BUDGET, text)


class ArgumentsError(Error):
    """The entry or the arguments are refused: `number` as in docs/FAULTS.md, and of an array the number of the `parameter` and
    of its `element`, from 0."""

    def __init__(self, text, why):
        self.number, self.parameter, self.element = why.number, why.parameter, why.element
        super().__init__(ARGUMENTS, text)


class NativeError(Error):
    """There is no native code: the C compiler is missing, or has refused the file."""

    def __init__(self, text):
        super().__init__(WORDS, text)


class ModuleError(Error):
    """No module of WebAssembly is made of the code: of which function, and why, up to 122 characters of what `ispx wasm` says."""

    def __init__(self, text):
        super().__init__(CODE, text)


class CodeError(Error):
    """Code text is refused: `number` as in docs/FAULTS.md, with the `line`, or the `function` and the `instruction`."""

    def __init__(self, text, why):
        self.number, self.line, self.function, self.instruction = why.number, why.line, why.function, why.instruction
        super().__init__(CODE, text)


def _place(source, begin):
    """Returns the line and the column of a byte of the source, from 1."""
    if source is None:
        return None, None
    before = source.encode()[:begin].decode(errors="replace")
    return before.count("\n") + 1, len(before) - (before.rfind("\n") + 1) + 1
