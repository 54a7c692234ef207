"""Which objects are arrays of which type, and what becomes of the others: a TypeError, before anything runs."""
import array
import ctypes
import mmap
import os
import unittest

import numpy
import isp
from test_isp import ARRAYS, NUMPY, TYPES

# what each type's kernel does to the first element
SOURCE = " ".join(f"export void {code}(uniform {name} a[]) {{ a[0] = 1; }}" for code, name in TYPES.items())
READING = " ".join(f"export uniform {name} {code}(const uniform {name} a[]) {{ return a[0]; }}" for code, name in TYPES.items())
PAIRS = """export void write(uniform int a[], uniform int b[]) { a[0] += b[0]; b[0] += 1; }
    export void read(uniform int a[], const uniform int b[]) { a[0] += b[0]; }
    export uniform int both(const uniform int a[], const uniform int b[]) { return a[0] + b[0]; }
    export void three(const uniform int a[], uniform int b[], const uniform int c[]) { b[0] = a[0] + c[0]; }"""
REFUSED = r"{}: {} is {}\[\]: wanted .*, given .*"


class Pair(ctypes.Structure):
    _fields_ = [("first", ctypes.c_int32), ("second", ctypes.c_int32)]


class Either(ctypes.Union):
    _fields_ = [("whole", ctypes.c_int32), ("half", ctypes.c_int16)]


def numpy_types():
    """Returns NumPy's types: one for each letter that it has, those of the other order of bytes, and those that are made of others."""
    found = [numpy.dtype(it) for it in numpy.typecodes["All"]]
    found += [it.newbyteorder(order) for it in found for order in "<>"]
    found += [numpy.dtype(it) for it in ("S4", "U1", "V4", "V8", "M8[s]", "m8[ns]", "i4,i4", [("r", "u1"), ("g", "u1")], [("x", "i4")], "(2,)i4")]
    return found


def type_of_numpy(dtype):
    """Returns the code's word of a NumPy type: by its kind and its size, where its bytes are in the machine's order."""
    if not dtype.isnative or dtype.kind not in "biu" or dtype.fields or dtype.subdtype:
        return None
    return "b" if dtype.kind == "b" else f"{dtype.kind}{8 * dtype.itemsize}"


def of_ctypes():
    """Returns the types of ctypes, each with the code's word of the type, or None."""
    c = ctypes
    taken = {
        c.c_bool: "b", c.c_int8: "i8", c.c_uint8: "u8", c.c_int16: "i16", c.c_uint16: "u16", c.c_int32: "i32", c.c_uint32: "u32",
        c.c_int64: "i64", c.c_uint64: "u64", c.c_byte: "i8", c.c_ubyte: "u8", c.c_short: "i16", c.c_ushort: "u16", c.c_int: "i32",
        c.c_uint: "u32", c.c_long: "i64", c.c_ulong: "u64", c.c_longlong: "i64", c.c_ulonglong: "u64", c.c_size_t: "u64", c.c_ssize_t: "i64",
    }
    others = [c.c_char, c.c_wchar, c.c_float, c.c_double, c.c_longdouble, c.c_void_p, c.c_char_p, c.c_wchar_p, c.py_object, Pair, Either]
    others += [c.POINTER(c.c_int32), c.CFUNCTYPE(c.c_int32)]
    others += [it.__ctype_be__ for it in (c.c_int16, c.c_uint16, c.c_int32, c.c_uint32, c.c_int64, c.c_uint64, c.c_float, c.c_double)]
    return [*taken.items(), *((it, None) for it in others)]


class Arrays(unittest.TestCase):
    """By the library and as native code."""

    @classmethod
    def setUpClass(cls):
        cls.kernels = [isp.compile(SOURCE, native=native) for native in (False, True)]
        cls.reading = [isp.compile(READING, native=native) for native in (False, True)]
        cls.pairs = [isp.compile(PAIRS, native=native) for native in (False, True)]

    def tried(self, given, code):
        """An array is taken by the kernel of its type, which changes its first element, and refused by each other, which leaves all."""
        before = bytes(memoryview(given))
        for kernel in self.kernels:
            for wanted, name in TYPES.items():
                if wanted == code:
                    kernel[wanted](a=given)
                    after = bytes(memoryview(given))
                    self.assertNotEqual(after, before)
                    ctypes.memmove(ctypes.addressof(ctypes.c_char.from_buffer(given)), before, len(before))
                else:
                    with self.assertRaisesRegex(TypeError, REFUSED.format(wanted, "a", name)):
                        kernel[wanted](a=given)
                    self.assertEqual(bytes(memoryview(given)), before)

    def refused(self, given, kernels=None, why=""):
        """No kernel takes this."""
        for kernel in kernels or [*self.kernels, *self.reading]:
            for wanted, name in TYPES.items():
                with self.assertRaisesRegex(TypeError, REFUSED.format(wanted, "a", name) + why):
                    kernel[wanted](a=given)

    def has_bytes(self, given):
        """Returns whether the memory of an array can be seen, and has no objects."""
        try:
            return memoryview(given).format != "O"
        except ValueError:
            return False

    def test_numpy_types(self):
        taken = 0
        for dtype in numpy_types():
            with self.subTest(dtype=dtype):
                given = numpy.zeros(3, dtype)
                code = type_of_numpy(given.dtype)
                if not self.has_bytes(given):
                    self.refused(given)
                else:
                    self.tried(given, code)
                    taken += code is not None
        self.assertEqual({type_of_numpy(it) for it in numpy_types()}, {*TYPES, None})
        self.assertGreater(taken, 13)

    def test_objects(self):
        """An array of objects is refused, and its objects are as they were."""
        given = numpy.array([{}, [1], "text", None], object)
        self.refused(given, why="'O' of 8 bytes")
        self.assertEqual(list(given), [{}, [1], "text", None])
        held = (ctypes.py_object * 2)([], {})
        self.refused(held, why="'<O' of 8 bytes")
        self.assertEqual(list(held), [[], {}])

    def test_ctypes(self):
        for kind, code in of_ctypes():
            with self.subTest(type=kind):
                if kind is ctypes.py_object:
                    self.refused((kind * 3)())
                else:
                    self.tried((kind * 3)(), code)
                self.refused(kind())
        self.tried(((ctypes.c_int32 * 3) * 2)(), "i32")

    def test_array(self):
        codes = {**{letter: code for code, letter in ARRAYS.items()}, "l": "i64", "L": "u64"}
        for letter in array.typecodes:
            with self.subTest(letter=letter):
                given = array.array(letter, "abc" if letter in "uw" else [0, 0, 0])
                self.tried(given, codes.get(letter))

    def test_casts(self):
        """Memory of another type is cast by whoever hands it over."""
        codes = {**{letter: code for code, letter in ARRAYS.items()}, "l": "i64", "L": "u64", "?": "b"}
        for letter in "bBhHiIlLqQ?cfdnNP":
            for order in ("", "@"):
                with self.subTest(letter=order + letter):
                    self.tried(memoryview(bytearray(16)).cast(order + letter), codes.get(letter))
        self.tried(memoryview(bytearray(24)).cast("i", (2, 3)), "i32")
        self.tried(bytearray(4), "u8")
        with mmap.mmap(-1, 4096) as given:
            self.tried(given, "u8")

    def test_shapes(self):
        for shape in ((4,), (2, 3), (2, 3, 4), (1, 1, 1, 1)):
            for code, name in NUMPY.items():
                self.tried(numpy.zeros(shape, name), code)
        column = numpy.zeros((3, 3), "i4")
        read_only = numpy.zeros(4, "i4")
        read_only.flags.writeable = False
        for given, why in (
            (numpy.zeros(8, "i4")[::2], "contiguous"), (numpy.zeros(8, "i4")[::-1], "contiguous"), (numpy.asfortranarray(column), "contiguous"),
            (column.T[:, :2], "contiguous"), (column[:, 1], "contiguous"), (column[:, :1], "contiguous"),
            (memoryview(array.array("i", [0] * 4))[::2], "contiguous"), (read_only, "read-only"),
            (memoryview(array.array("i", [0] * 4)).toreadonly(), "read-only"), (numpy.array(0, "i4"), "given none"),
            (ctypes.c_int32(), "given none"), (numpy.int32(5), "given none"), (5, "given int"), (None, "given NoneType"), ([0, 0], "given list"), ("text", "given str"),
        ):
            for kernel in self.kernels:
                with self.subTest(given=repr(given)), self.assertRaisesRegex(TypeError, r"i32: a is int\[\]: wanted .*" + why):
                    kernel.i32(a=given)
        self.assertEqual((column.tolist(), read_only.tolist()), ([[0] * 3] * 3, [0] * 4))
        self.tried(column[1:], "i32")
        self.tried(numpy.zeros((1, 4), "i4").T, "i32")

    def test_released(self):
        view = memoryview(bytearray(4))
        view.release()
        with self.assertRaisesRegex(TypeError, "u8: a is uint8"):
            self.kernels[0].u8(a=view)

    def test_empty(self):
        """An array without elements is one: the index 0 is outside."""
        for given in (array.array("i"), numpy.zeros((0, 3), "i4"), numpy.zeros((3, 0), "i4"), memoryview(array.array("i", [1, 2]))[2:], (ctypes.c_int32 * 0)(),
                      numpy.zeros((3, 0), "i4", "F")):
            for kernel in (*self.kernels, *self.reading):
                with self.subTest(given=repr(given)), self.assertRaisesRegex(isp.Trap, "trap index"):
                    kernel.i32(a=given)
            with self.assertRaises(TypeError):
                self.kernels[0].u32(a=given)

    def test_read_only(self):
        """Memory that cannot be written goes where nothing is written."""
        for kernel in self.reading:
            self.assertEqual(kernel.u8(a=b"\7\1"), 7)
            self.assertEqual(kernel.i32(a=memoryview(array.array("i", [-5, 3])).toreadonly()), -5)
            self.assertEqual(kernel.i64(a=numpy.broadcast_to(numpy.int64(9), (1, 1))), 9)
            # (the processor ends whoever writes there)
            with open(__file__, "rb") as file, mmap.mmap(file.fileno(), 0, access=mmap.ACCESS_READ) as text:
                self.assertEqual(kernel.u8(a=text), text[0])

    def test_overlap(self):
        """Memory may be handed over twice where the kernel writes to neither."""
        whole = numpy.arange(8, dtype="i4")
        again = whole.copy()
        for kernel in self.pairs:
            for first, second in ((whole, whole), (whole, whole[:1]), (whole[7:], whole), (whole[:5], whole[4:]), (memoryview(whole), whole.reshape(2, 4))):
                for name in ("write", "read"):
                    with self.assertRaisesRegex(TypeError, f"{name}: [ab] and [ab]: wanted memory apart"):
                        kernel[name](a=first, b=second)
                self.assertEqual(kernel.both(a=first, b=second), int(first[0]) + int(numpy.ravel(second)[0]))
            for names in (("a", "b", "c"), ("b", "a", "c"), ("c", "a", "b")):
                given = dict(zip(names, (whole[:6], whole[1:2], whole[5:])))
                with self.subTest(names=names), self.assertRaisesRegex(TypeError, "three: [abc] and [abc]: wanted memory apart"):
                    kernel.three(**given)
            with self.assertRaisesRegex(TypeError, "wanted memory apart"):
                kernel.read(a=whole, b=memoryview(whole).toreadonly())
        self.assertEqual(whole.tolist(), again.tolist())
        for kernel in self.pairs:
            whole = again.copy()
            kernel.read(a=whole[:4], b=whole[4:])
            kernel.three(a=whole[2:], b=whole[1:2], c=whole[3:])
            self.assertEqual(whole.tolist(), [4, 5, 2, 3, 4, 5, 6, 7])

    def test_odd_places(self):
        """The library takes items at any place; native code those at a multiple of their size."""
        memory = bytearray(41)
        plain, native = self.kernels
        for code, name in NUMPY.items():
            given = numpy.frombuffer(memory, name, 2, 1)
            plain[code](a=given)
            self.assertEqual((given.tolist()[0], memory[1]), (1, 1))
            memory[1] = 0
            if given.itemsize == 1:
                native[code](a=given)
                memory[1] = 0
            else:
                with self.assertRaisesRegex(TypeError, rf"{code}: a is {TYPES[code]}\[\]: wanted memory at a multiple of {given.itemsize}"):
                    native[code](a=given)
        self.assertEqual(memory, bytes(41))


class Long(unittest.TestCase):
    """Arrays are as long as memory has room."""

    SOURCE = """export uniform uint8 f(uniform uint8 a[], uniform int64 i) { uniform uint8 was = a[i]; a[i] = 5; return was; }
        export void lit(uniform uint8 a[], uniform int count) { foreach (i = 0 ... count) a[i] = min(a[i] + 50, 255); }"""

    def test_picture(self):
        """Three colours of 3840 x 2160 pixels are one array."""
        picture = numpy.random.default_rng(1).integers(0, 256, (3, 2160, 3840), numpy.uint8)
        wanted = numpy.minimum(picture.astype(numpy.uint16) + 50, 255)
        for native in (False, True):
            kernel, given = isp.compile(self.SOURCE, gang=32, native=native), picture.copy()
            kernel.lit(a=given, count=given.size)
            self.assertTrue(numpy.array_equal(given, wanted))

    def longest(self, kernel, count):
        """The last elements of an array of so many, and the first that it does not have. (A page of memory is there once it is used.)"""
        with mmap.mmap(-1, count, flags=mmap.MAP_PRIVATE | mmap.MAP_ANONYMOUS) as given:
            given[count - 2] = 3
            self.assertEqual([kernel.f(a=given, i=count - it) for it in (1, 2, 1)], [0, 3, 5])
            self.assertEqual(given[count - 3 :], b"\0\5\5")
            with self.assertRaises(isp.Trap):
                kernel.f(a=given, i=count)

    def test_longest_native(self):
        kernel = isp.compile(self.SOURCE, native=True)
        for count in (2**31 + 5, 2**32 + 5):
            self.longest(kernel, count)

    if os.environ.get("ISP_LARGE"):

        def test_longest(self):
            self.longest(isp.compile(self.SOURCE), 2**31 + 5)


if __name__ == "__main__":
    unittest.main()
