"""Kernels, run by the library."""
from __future__ import annotations

import functools
import operator
import re
import threading
from typing import NamedTuple, Optional, Union

from . import arguments, errors, library
from .signatures import Signature, signatures, value_of

BUDGET = 100_000_000
# a run of so few instructions is over within some hundredths of a second
SHORT = 100_000
_GANGS = (4, 8, 16, 32)


class Result(NamedTuple):
    """What a call gave: what the function returned, an int, a bool or None, and what `print` wrote, as bytes."""

    value: Union[int, bool, None]
    output: bytes


def checked_gang(gang) -> int:
    """Returns a gang; ValueError for one that there is not."""
    if gang not in _GANGS:
        raise ValueError(f"a gang has 4, 8, 16 or 32 instances, not {gang}")
    return int(gang)


def checked_budget(budget) -> int:
    """Returns a budget; ValueError for a number that is none."""
    try:
        found = operator.index(budget)
    except TypeError:
        raise TypeError(f"a budget is an int, not {type(budget).__name__}") from None
    if not 0 <= found < 1 << 64:
        raise ValueError(f"a budget is from 0 to {(1 << 64) - 1} instructions, not {found}")
    return found


class Function:
    """An exported function of a kernel. Called with its parameters by name, it changes the arrays in place and returns what the
    function returns.

        name         its name
        signature    what it takes and gives
        run          makes the same call, and returns a Result: the value and the output
        within       the same function for so many instructions at most
    """

    __slots__ = ("kernel", "name", "budget")

    def __init__(self, kernel: Kernel, name: str, budget: Optional[int] = None):
        self.kernel, self.name, self.budget = kernel, name, budget

    @property
    def __name__(self) -> str:
        return self.name

    @property
    def signature(self) -> Signature:
        """What it takes and gives."""
        return self.kernel.signatures[self.name]

    def __repr__(self):
        return f"<{self.name}{self.signature}>"

    def __call__(self, /, **arguments):
        """Makes a call, and returns what the function returns: an int, a bool or None."""
        return self.run(**arguments).value

    def run(self, /, **arguments) -> Result:
        """Makes a call, and returns the value and the output. `_budget` is a budget for this call, where no parameter has that name."""
        budget = self.budget
        if "_budget" in arguments and all(it.name != "_budget" for it in self.signature.parameters):
            budget = arguments.pop("_budget")
        return self.kernel._run(self.name, None if budget is None else checked_budget(budget), arguments)

    def within(self, budget: int) -> Function:
        """Returns the same function with a budget of its own; ValueError for a number that is none."""
        return Function(self.kernel, self.name, checked_budget(budget))


class Kernel:
    """The exported functions of a source, each a Function that takes its parameters by name.

    An array parameter takes what has a buffer of contiguous items of its type, as `array.array`, `bytearray`, a ctypes array or a
    NumPy array of any shape, and is changed in place. One that the kernel does not write to may be read-only. A value parameter
    takes an int or a bool. A call returns what the function returns, an int, a bool or None. TypeError names the parameter that
    does not fit, OverflowError a value that its type does not have.

        code         the code text, of which `isp.load` makes the kernel again
        gang         how many instances run together
        signatures   by name, what each exported function takes and gives
        output       what the last call of this thread wrote
        budget       how many instructions a call may take

    `kernel[name]` is the function of that name too, also where a kernel exports one that is called `code`, say.
    """

    def __init__(self, code: str, source: Optional[str], gang: Optional[int]):
        self.code, self.source = code, source
        found = re.match(r"isp [12] gang (\d+)\n", code)
        self.gang = gang or (int(found[1]) if found else None)
        self.signatures = signatures(code)
        self._budget = BUDGET
        self._text, self._room = code.encode(), library.ROOM
        self._last, self._long = threading.local(), set()

    @property
    def budget(self) -> int:
        return self._budget

    @budget.setter
    def budget(self, budget: int):
        self._budget = checked_budget(budget)

    @property
    def output(self) -> bytes:
        return getattr(self._last, "output", b"")

    def __getattr__(self, name):
        if name.startswith("__") or name not in self.__dict__.get("signatures", {}):
            raise AttributeError(f"the kernel exports no {name}")
        return self[name]

    def __getitem__(self, name: str) -> Function:
        if name not in self.signatures:
            raise KeyError(name)
        return Function(self, name)

    def __getstate__(self):
        return {"code": self.code, "source": self.source, "gang": self.gang, "budget": self.budget}

    def __setstate__(self, state):
        self.__init__(state["code"], state["source"], state["gang"])
        self.budget = state["budget"]

    def __dir__(self):
        return [*super().__dir__(), *self.signatures]

    def is_independent(self, name: str) -> bool:
        """Returns whether this exported function is independent by the rules, as `isp check` says (docs/INDEPENDENCE.md)."""
        return self.dependence(name) is None

    def dependence(self, name: str) -> Optional[str]:
        """Returns the rule that this exported function breaks, and where, as `rule 4 at 105..108`; None where it is independent."""
        if name not in self.signatures:
            raise AttributeError(f"the kernel exports no {name}")
        if self.source is None:
            raise ValueError("the kernel was loaded as code, which does not say whether it is independent")
        status, out, err = library.command(["check", "--gang", str(self.gang), "source"], {"source": self.source})
        if status != errors.OK:
            raise errors.Error(status, err.strip())
        said = dict(line.split(" ", 1) for line in out.splitlines()[1:])[name]
        return None if said == "independent" else said.removeprefix("dependent: ")

    def _run(self, entry, budget, given):
        signature = self.signatures[entry]
        found = arguments.arrays(entry, signature, given)
        packed = arguments.packed(entry, signature, given, found)
        status, report, output = self._made(entry, packed, self.budget if budget is None else budget)
        self._last.output = output
        self._room = max(library.ROOM, len(output) + len(output) // 4)
        if status in (errors.OK, errors.TRAP):
            arguments.unpack(packed, found)
        if status == errors.TRAP:
            raise errors.Trap(report.text(), report.why, self.source, output)
        if status == errors.BUDGET:
            raise errors.BudgetUsed(report.text(), output)
        library.raise_else(status, report)
        return Result(value_of(signature.result, report.result), output)

    def _made(self, entry, packed, budget):
        """Makes a run, once more where the output had no room: a long one by a thread of its own where this one is to see Ctrl-C. Which are
        long is found by a short budget, that leaves the arguments as they were."""
        call, words, room = library.run, (self._text, entry, packed), self._room
        if budget > SHORT and library.is_interruptible():
            if entry not in self._long:
                done = call(*words, SHORT, room)
                if done[0] not in (errors.BUDGET, errors.ROOM):
                    return done
                self._long.add(entry)
                room = max(room, done[1].used)
            call = functools.partial(library.interruptible, call)
        done = call(*words, budget, room)
        while done[0] == errors.ROOM:
            done = call(*words, budget, done[1].used)
        return done
