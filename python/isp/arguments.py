"""Arguments: which buffers are arrays of which type, where they lie, and values in the range of their type."""
from __future__ import annotations

import ctypes
import functools
import operator
import re
import struct
import sys

from .signatures import TYPES

# by the letter of the buffer protocol: a signed number, an unsigned one, or a truth. No other letter is taken.
_LETTERS = {**dict.fromkeys("bhilq", "i"), **dict.fromkeys("BHILQ", "u"), "?": "b"}
# what may stand before the letter: the machine's own order of bytes
_NATIVE = "@=<" if sys.byteorder == "little" else "@="


class _Buffer(ctypes.Structure):
    """`Py_buffer` of CPython."""

    _fields_ = [("at", ctypes.c_void_p), ("object", ctypes.py_object), ("size", ctypes.c_ssize_t), ("item_size", ctypes.c_ssize_t)]
    _fields_ += [("readonly", ctypes.c_int), ("dimensions", ctypes.c_int), ("format", ctypes.c_char_p)]
    _fields_ += [(name, ctypes.c_void_p) for name in ("shape", "strides", "suboffsets", "internal")]


_get_buffer = ctypes.PYFUNCTYPE(ctypes.c_int, ctypes.py_object, ctypes.POINTER(_Buffer), ctypes.c_int)(("PyObject_GetBuffer", ctypes.pythonapi))
_release_buffer = ctypes.PYFUNCTYPE(None, ctypes.POINTER(_Buffer))(("PyBuffer_Release", ctypes.pythonapi))


class Array:
    """An array that a call was given: its items, the bytes from `at` up to `end`, and what keeps them there."""

    def __init__(self, parameter, view):
        self.parameter, self.view, self.size = parameter, view, view.nbytes
        self.count = self.size // view.itemsize
        self.at = _address(view) if self.size else 0
        self.end = self.at + self.size


def _address(view):
    """Returns where the bytes of a contiguous view begin."""
    held = _Buffer()
    _get_buffer(view, ctypes.byref(held), 0)
    at = held.at
    _release_buffer(ctypes.byref(held))
    return at


def arrays(entry, signature, given):
    """Returns the arrays of a call by name, once all arguments are found to be there, and each array to be one of its type."""
    names = [it.name for it in signature.parameters]
    for name in names:
        if name not in given:
            raise TypeError(f"{entry}: the argument {name} is missing")
    for name in given:
        if name not in names:
            raise TypeError(f"{entry}: there is no parameter {name}")
    found = {it.name: Array(it, _view(entry, it, given[it.name])) for it in signature.parameters if it.is_array}
    if len(found) > 1:
        _check_apart(entry, found.values())
    return found


@functools.lru_cache
def element_type(form, item_size):
    """Returns the code's word of the type whose items have this format, or None."""
    found = re.fullmatch(rf"[{_NATIVE}]?([{''.join(_LETTERS)}])", form)
    # (the letter does not say the size: ctypes gives a union's items the letter B)
    if not found or item_size not in (struct.calcsize("@" + found[1]), struct.calcsize("=" + found[1])):
        return None
    kind = _LETTERS[found[1]]
    return kind if kind == "b" else f"{kind}{8 * item_size}"


def _view(entry, parameter, given):
    """Returns the memory of an array; TypeError where it is none of the parameter's type."""
    try:
        view = memoryview(given)
    except (TypeError, ValueError, BufferError) as error:
        raise _refusal(entry, parameter, f"an object with a buffer, given {type(given).__name__} ({error})") from None
    wrong = _what_is_wrong(parameter, view)
    if wrong:
        raise _refusal(entry, parameter, f"{wrong} ({type(given).__name__})")
    return view


def _refusal(entry, parameter, why):
    return TypeError(f"{entry}: {parameter.name} is {parameter.type}[]: wanted {why}")


def _what_is_wrong(parameter, view):
    """Returns what is wanted of an array and what is given, or None where it will do."""
    if element_type(view.format, view.itemsize) != parameter.code:
        return f"items of format {_letters(parameter.code)}, given {view.format!r} of {view.itemsize} bytes"
    if view.ndim == 0:
        return "one dimension or more, given none"
    if not view.c_contiguous:
        return f"contiguous items in the order of C, given shape {view.shape} with strides {view.strides}"
    if view.readonly and parameter.is_written:
        return "memory that the kernel can write to, given read-only"
    return None


def _letters(code):
    """Returns the letters of the formats of a type, as a message has them."""
    kind, size = code[0], struct.calcsize(TYPES[code][0])
    return " or ".join(repr(it) for it, its in _LETTERS.items() if its == kind and struct.calcsize(it) == size)


def _check_apart(entry, found):
    """Refuses two arrays that overlap, where the kernel writes to one of them."""
    last = last_written = None
    for array in sorted((it for it in found if it.size), key=lambda it: it.at):
        before = last if array.parameter.is_written else last_written
        if before and array.at < before.end:
            raise TypeError(f"{entry}: {before.parameter.name} and {array.parameter.name}: wanted memory apart, as the kernel writes to one, given some twice")
        if not last or array.end > last.end:
            last = array
        if array.parameter.is_written and (not last_written or array.end > last_written.end):
            last_written = array


def packed(entry, signature, given, found):
    """Returns the arguments as bytes, in the form of include/isp.h."""
    parts = []
    for it in signature.parameters:
        if it.is_array:
            array = found[it.name]
            parts += [struct.pack("<Q", array.count), array.view if array.size else b""]
        else:
            parts.append(struct.pack("<Q", number(entry, it, given[it.name]) & (1 << it.bits) - 1))
    return bytearray().join(parts)


def unpack(answer, found):
    """Writes the arrays of an answer where the arguments came from; those that the kernel does not write to stay."""
    begin, at = ctypes.addressof((ctypes.c_char * max(1, len(answer))).from_buffer(answer or bytearray(1))), 0
    for it in found.values():
        at += 8
        if it.size and it.parameter.is_written:
            ctypes.memmove(it.at, begin + at, it.size)
        at += it.size


def number(entry, parameter, given):
    """Returns a value as a number that its type has."""
    if parameter.code == "b" and type(given).__module__ == "numpy" and type(given).__name__ in ("bool_", "bool"):
        given = bool(given)
    asked = f"{entry}: {parameter.name} is {parameter.type}: wanted"
    try:
        found = operator.index(given)
    except TypeError:
        raise TypeError(f"{asked} an int or a bool, given {type(given).__name__}") from None
    bits = parameter.bits
    low, high = (-(1 << bits - 1), 1 << bits - 1) if parameter.code.startswith("i") else (0, 1 << bits)
    if not low <= found < high:
        raise OverflowError(f"{asked} {low} to {high - 1}, given {found}")
    return found
