#!/usr/bin/env python3
"""Writes crates/isp_tests_cases/data/files/files.rows: files of arrays and images, and what each holds or what is wrong with it.

The bytes are made here by struct, from the descriptions of the formats (NumPy's NEP 1, Netpbm's pgm and ppm), so what they hold is
known; what is wrong with the broken ones, and where, stands beside each by hand. Nothing is taken from the crates.

    python3 tools/file_table.py             writes it, and the count of its files in crates/isp_tests_cases/stdout
    python3 tools/file_table.py --check     ends with status 1 where one is stale
"""
import struct
import sys

sys.dont_write_bytecode = True
import written  # noqa: E402

# NumPy's name of each type, struct's letter, the name that the rows have for it, and some values: both ends of the type among them.
TYPES = [
    ("|b1", "B", "Bool", [0, 1, 1, 0, 1, 0]),
    ("|i1", "b", "I8", [-128, 127, -1, 0, 1, 5]),
    ("|u1", "B", "U8", [0, 255, 1, 128, 127, 32]),
    ("<i1", "b", "I8", [-128, 127, -1, 0, 1, 5]),
    ("<u1", "B", "U8", [0, 255, 1, 128, 127, 10]),
    ("<i2", "h", "I16", [-32768, 32767, -1, 0, 258, 2]),
    ("<u2", "H", "U16", [0, 65535, 258, 1, 513, 3]),
    ("<i4", "i", "I32", [-(2**31), 2**31 - 1, -1, 16909060, 0, 7]),
    ("<u4", "I", "U32", [0, 2**32 - 1, 16909060, 1, 2, 9]),
    ("<i8", "q", "I64", [-(2**63), 2**63 - 1, -1, 72623859790382856, 0, 1]),
    ("<u8", "Q", "U64", [0, 2**64 - 1, 72623859790382856, 1, 2, 3]),
]
ENDS, MAGIC, VERSION = "the file ends too early", "this is no file of its format", "this version is not known"
HEADER, KEYS, BIG = "no header goes on so", "the header has no type, no order or no shape", "numbers with the big end first"
FLOAT, STRUCT, KIND = "floating point numbers", "structures", "elements of a type that isp does not have"
FORTRAN, MANY, DEEP = "Fortran's order", "more elements than an array may have", "more than 64 dimensions"
MAXVAL, VALUE, LONG = "the greatest sample is not from 1 to 65535", "no value of its type", "more bytes than the elements take"


def npy(header, data=b"", version=1, pad=True):
    """Returns an NPY file with a header, which is filled up with blanks and a line feed."""
    head = header.encode("latin-1")
    start = 10 if version == 1 else 12
    if pad:
        head += b" " * (63 - (start + len(head)) % 64) + b"\n"
    return b"\x93NUMPY" + bytes([version, 0]) + struct.pack("<H" if version == 1 else "<I", len(head)) + head + data


def dictionary(name, shape, order=False):
    """Returns the header as NumPy writes it."""
    return f"{{'descr': '{name}', 'fortran_order': {order}, 'shape': {shape!r}, }}"


def held(name, shape, values, letter):
    """Returns what a row says of an array: its bits are those of its values."""
    bits = [struct.unpack("<" + letter.upper(), struct.pack("<" + letter, v))[0] for v in values]
    return " ".join([name, *map(str, shape)]) + ":" + "".join(f" {b}" for b in bits)


def arrays():
    """Gives the rows of whole NPY files: each type in each version and in several shapes."""
    for name, letter, word, values in TYPES:
        for version in (1, 2, 3):
            data = struct.pack(f"<{len(values)}{letter}", *values)
            sign = "/" if version == 1 and name in ("|b1", "<i4") or version == 3 and name == "<u2" else ""
            yield "npy" + sign, npy(dictionary(name, (2, 3)), data, version), held(word, (2, 3), values, letter)
        one = struct.pack(f"<{len(values)}{letter}", *values)
        yield "npy", npy(dictionary(name, (6,)), one), held(word, (6,), values, letter)
        yield "npy", npy(dictionary(name, ()), one[: len(one) // 6]), held(word, (), values[:1], letter)
        yield "npy", npy(dictionary(name, (3, 0, 2))), held(word, (3, 0, 2), [], letter)
    five = b"\1\2\3\4\5"
    said = "U8 5: 1 2 3 4 5"
    for text in (
        '{"descr":"|u1","fortran_order":False,"shape":(5,)}',
        "{'shape': (5,), 'fortran_order': False, 'descr': '|u1'}",
        "{'fortran_order': False, 'descr': '|u1', 'shape': (5,), }",
        "{'shape':(5 ,) ,'descr' : '|u1','fortran_order':False,}",
        "{'descr': '|u1', 'shape': (0005,), 'fortran_order': False}",
        " {\t'fortran_order'\n: False, 'shape': ( 5, ), 'descr': '|u1' , }",
    ):
        yield "npy/", npy(text, five), said
    yield "npy", npy("{'descr': '|u1', 'fortran_order': False, 'shape': (1, 5)}", five), "U8 1 5: 1 2 3 4 5"
    many = ", ".join(["1"] * 64)
    yield "npy", npy(f"{{'descr': '|u1', 'fortran_order': False, 'shape': ({many}), }}", b"\7"), "U8" + " 1" * 64 + ": 7"


def saved():
    """Gives the rows of files that numpy.save of NumPy 1.24 wrote."""
    for head, blanks, data, answer in (
        ("{'descr': '<i4', 'fortran_order': False, 'shape': (2, 3), }", 58, struct.pack("<6i", *range(6)), "I32 2 3: 0 1 2 3 4 5"),
        ("{'descr': '|b1', 'fortran_order': False, 'shape': (3,), }", 60, b"\1\0\1", "Bool 3: 1 0 1"),
        ("{'descr': '<u8', 'fortran_order': False, 'shape': (), }", 62, struct.pack("<Q", 7), "U64: 7"),
    ):
        yield "npy", npy(head + " " * blanks + "\n", data, pad=False), answer


def broken_arrays():
    """Gives the rows of NPY files that are refused, with what is wrong and its byte."""
    good = dictionary("|u1", (5,))
    five = b"\1\2\3\4\5"
    yield "npy", b"\x93NUMPZ\1\0", f"byte 5: {MAGIC}"
    yield "npy", b"P5 1 1 255\n\0", f"byte 0: {MAGIC}"
    yield "npy", b"PK\3\4", f"byte 0: {MAGIC}"
    yield "npy", npy(good, five)[:6] + b"\4" + npy(good, five)[7:], f"byte 6: {VERSION}"
    yield "npy", npy(good, five)[:6] + b"\0" + npy(good, five)[7:], f"byte 6: {VERSION}"
    yield "npy", npy(good, five)[:7] + b"\1" + npy(good, five)[8:], f"byte 7: {VERSION}"
    yield "npy", npy(good, five + b"\6"), f"byte {len(npy(good, five))}: {LONG}"
    yield "npy", npy(good, five[:4]), f"byte {len(npy(good, five)) - 1}: {ENDS}"
    yield "npy", npy(dictionary("|b1", (3,)), b"\0\1\2"), f"byte {len(npy(dictionary('|b1', (3,)))) + 2}: {VALUE}"
    yield "npy", npy(dictionary("|b1", (3,)), b"\xff"), f"byte {len(npy(dictionary('|b1', (3,))))}: {VALUE}"
    at = 10 + good.index("'|u1'")
    for name, flaw in (
        (">i4", BIG), (">u2", BIG), (">f8", BIG), (">i1", BIG), ("<f2", FLOAT), ("<f4", FLOAT), ("<f8", FLOAT), ("<c8", FLOAT), ("<c16", FLOAT), ("<f16", FLOAT),
        ("|V8", STRUCT), ("|S5", KIND), ("<U3", KIND), ("|O", KIND), ("<M8[ns]", KIND), ("<m8", KIND), ("=i4", KIND), ("|i2", KIND), ("<i3", KIND),
        ("<u16", KIND), ("<b2", KIND), ("|b2", KIND), ("i4", KIND), ("", KIND), ("int32", KIND), ("<I4", KIND), ("<i", KIND),
    ):
        yield "npy", npy(dictionary(name, (5,)), five), f"byte {at}: {flaw}"
    yield "npy", npy("{'descr': [('x', '<i4')], 'fortran_order': False, 'shape': (5,), }", five), f"byte {at}: {STRUCT}"
    yield "npy", npy(dictionary("|u1", (5,), True), five), f"byte {10 + good.index('False')}: {FORTRAN}"
    # (^ stands before the byte)
    for text, flaw in (
        ("{'descr': '|u1', 'fortran_order': False, 'shape': (5^), }", HEADER),
        ("{'descr': '|u1', 'fortran_order': False, 'shape': ^[5], }", HEADER),
        ("{'descr': '|u1', 'fortran_order': False, 'shape': (^-5,), }", HEADER),
        ("{'descr': '|u1', 'fortran_order': False, 'shape': (5^L,), }", HEADER),
        ("{'descr': '|u1', 'fortran_order': False, 'shape': (1 ^5,), }", HEADER),
        ("{'descr': '|u1', 'fortran_order': False, 'shape': (^,), }", HEADER),
        ("{'descr': '|u1', 'fortran_order': False, 'shape': (5,^,), }", HEADER),
        ("{'descr': '|u1', 'fortran_order': False, 'shape': (1, 5 ^1), }", HEADER),
        ("{'descr': '|u1', 'fortran_order': ^0, 'shape': (5,), }", HEADER),
        ("{'descr': '|u1', 'fortran_order': Fals^y, 'shape': (5,), }", HEADER),
        ("{'descr': '|u1', 'fortran_order': False^}", HEADER),
        ("{'descr': '|u1', 'fortran_order': False, 'shape': (5,), ^'x': 1}", HEADER),
        ("^{'descr': '|u1', 'descr': '|u1', 'shape': (5,), }", KEYS),
        ("^{'shape': (5,), 'fortran_order': False, 'shape': (5,), }", KEYS),
        ("{'descr': '|u1', ^'order': False, 'shape': (5,), }", KEYS),
        ("{'descr: '^|u1', 'fortran_order': False, 'shape': (5,), }", HEADER),
        ("^['descr', '|u1']", HEADER),
        ("{'descr' ^'|u1', 'fortran_order': False, 'shape': (5,), }", HEADER),
        ("{'descr': ^|u1, 'fortran_order': False, 'shape': (5,), }", HEADER),
        ("{'descr': '|u1', 'fortran_order': False, 'shape': (5,), }^x", HEADER),
    ):
        yield "npy", npy(text.replace("^", ""), five), f"byte {10 + text.index('^')}: {flaw}"
    yield "npy", npy("", five), f"byte 64: {HEADER}"
    deep = ", ".join(["1"] * 65)
    text = f"{{'descr': '|u1', 'fortran_order': False, 'shape': ({deep}), }}"
    yield "npy", npy(text, b"\7"), f"byte {10 + text.index('), }') - 1}: {DEEP}"
    for number in (2**63, 2**64, 10**30):
        text = dictionary("|u1", (number,))
        yield "npy", npy(text, five), f"byte {10 + text.index('(') + 1}: {MANY}"
    for shape in ((2**32, 2**31), (2**62, 2, 0)):
        yield "npy", npy(dictionary("<i4", shape), five), f"byte {len(npy(dictionary('<i4', shape)))}: {MANY}"
    yield "npy", npy(dictionary("<i4", (2**62,)), five), f"byte {len(npy(dictionary('<i4', (2**62,)))) + 5}: {ENDS}"
    short = good.encode() + b"  \n"
    yield "npy", b"\x93NUMPY\1\0" + struct.pack("<H", len(short)) + short + five, "U8 5: 1 2 3 4 5"
    yield "npy", b"\x93NUMPY\1\0" + struct.pack("<H", len(short)) + short[:-1] + b" " + five, f"byte {10 + len(short) - 1}: {HEADER}"
    yield "npy", b"\x93NUMPY\1\0" + struct.pack("<H", len(short)) + good.encode() + b" x\n" + five, f"byte {10 + len(good) + 1}: {HEADER}"
    yield "npy", b"\x93NUMPY\1\0" + struct.pack("<H", len(good) - 3) + short + five, f"byte {10 + len(good)}: {HEADER}"


def images():
    """Gives the rows of images."""
    six = bytes([0, 255, 1, 128, 127, 10])
    yield "image/", b"P5\n3 2\n255\n" + six, "U8 2 3: 0 255 1 128 127 10"
    yield "image/", b"P6\n1 2\n255\n" + six, "U8 2 1 3: 0 255 1 128 127 10"
    yield "image/", b"P5 3 2 255 " + six, "U8 2 3: 0 255 1 128 127 10"
    yield "image/", b"P5\n# made by hand\n3 2\n# the greatest\n255\n" + six, "U8 2 3: 0 255 1 128 127 10"
    yield "image", b"P5#\n#a#b\r\n3\t#\n\n2\r\n255\n" + six, "U8 2 3: 0 255 1 128 127 10"
    yield "image", b"P5\n3 2# no blank before it\n255\n" + six, "U8 2 3: 0 255 1 128 127 10"
    yield "image", b"P5\n3 2\n255\n##bbcc", "U8 2 3: 35 35 98 98 99 99"
    yield "image/", b"P5\n3 1\n1\n\0\1\0", "U8 1 3: 0 1 0"
    yield "image/", b"P5\n3 1\n65535\n" + struct.pack(">3H", 0, 65535, 258), "U16 1 3: 0 65535 258"
    yield "image", b"P5\n3 1\n256\n" + struct.pack(">3H", 0, 256, 1), "U16 1 3: 0 256 1"
    yield "image", b"P6\n1 1\n1000\n" + struct.pack(">3H", 0, 1000, 1), "U16 1 1 3: 0 1000 1"
    yield "image", b"P5\n0 2\n255\n", "U8 2 0:"
    yield "image", b"P5\n003 0002\n0255\n" + six, "U8 2 3: 0 255 1 128 127 10"
    yield "image", b"P5\n3 2\n255\n" + six[:5], f"byte 16: {ENDS}"
    yield "image", b"P5\n3 1\n65535\n" + b"\0" * 5, f"byte 18: {ENDS}"
    yield "image", b"P5\n3 2\n255\n" + six + b"\n", f"byte 17: {LONG}"
    yield "image", b"P5\n3 1\n1\n\0\1\2", f"byte 11: {VALUE}"
    yield "image", b"P5\n3 1\n1000\n" + struct.pack(">3H", 0, 1000, 1001), f"byte 16: {VALUE}"
    yield "image", b"P5\n3 1\n0\n\0\0\0", f"byte 7: {MAXVAL}"
    yield "image", b"P5\n3 1\n65536\n\0\0\0", f"byte 7: {MAXVAL}"
    yield "image", b"P5\n3 1\n255#c\n\0\0\0", f"byte 10: {HEADER}"
    for magic in (b"P1", b"P2", b"P3", b"P4", b"P7", b"Pf"):
        yield "image", magic + b"\n3 1\n255\n\0\0\0", f"byte 1: {MAGIC}"
    yield "image", b"\x93NUMPY", f"byte 0: {MAGIC}"
    yield "image", b"\x89PNG\r\n", f"byte 0: {MAGIC}"
    yield "image", b"P53 1\n255\n\0\0\0", f"byte 2: {HEADER}"
    yield "image", b"P5\n-3 1\n255\n\0\0\0", f"byte 3: {HEADER}"
    yield "image", b"P5\n3x1\n255\n\0\0\0", f"byte 4: {HEADER}"
    yield "image", b"P5\n3 1\n255x\0\0\0", f"byte 10: {HEADER}"
    yield "image", b"P5\n9223372036854775808 1\n255\n\0", f"byte 3: {MANY}"
    yield "image", b"P5\n4294967296 4294967296\n255\n\0", f"byte 29: {MANY}"
    yield "image", b"P6\n4294967296 2147483647\n255\n\0", f"byte 29: {MANY}"


def main():
    rows = []
    for form, data, answer in [*arrays(), *saved(), *broken_arrays(), *images()]:
        rows.append(f"{form} {data.hex()}|{answer}")
    folder = "crates/isp_tests_cases"
    count = f"{folder}/stdout"
    written.put({f"{folder}/data/files/files.rows": "".join(f"{row}\n" for row in rows), count: written.with_count(count, len(rows), "files")})


main()
