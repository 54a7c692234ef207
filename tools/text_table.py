#!/usr/bin/env python3
"""Writes crates/isp_tests_cases/data/texts/faults.rows: texts that are those of no code, and some that are, with the fault of each.

A reader of its own, written from docs/MACHINE.md (Code text), judges each text. Nothing is taken from the crates.

    python3 tools/text_table.py             writes it, and the count of its texts in crates/isp_tests_cases/stdout
    python3 tools/text_table.py --check     ends with status 1 where one is stale
"""
import re
import sys

sys.dont_write_bytecode = True
import written  # noqa: E402

TYPES = "b i8 u8 i16 u16 i32 u32 i64 u64".split()

# The instructions: how many registers, whether one more may stand there (the lanes' mask), and what ends the line.
SHAPES = {"const": (1, 0, "n"), "say": (0, 0, "t"), "jmp": (0, 0, "L"), "ret": (0, 0, "-"), "fail": (1, 0, "p")}
for words, registers, more, ending in (
    ("copy conv neg inv abs lnot", 2, 1, ""),
    ("add sub mul and or xor shl shr min max eq ne lt le gt ge", 3, 1, ""),
    ("sel", 4, 1, ""),
    ("div rem load store gather scatter vload vstore", 4, 0, "p"),
    ("pload pstore", 5, 0, "p"),
    ("splat mand mor mandn mtest mrange radd rmin rmax requ rany rall sadd sand sor", 3, 0, ""),
    ("index mcopy mlow mfirst clear prv", 2, 0, ""),
    ("mfull mnone prs", 1, 0, ""),
    ("bcast rot shf shuf extr", 4, 0, ""),
    ("shuf2 ins", 5, 0, ""),
    ("jz jnz joff jon jall", 1, 0, "L"),
):
    for word in words.split():
        SHAPES[word] = (registers, more, ending)

# The order of lines, and what may stand behind each: from one kind to another.
ORDER = "start isp place text func par loc s v m instr end".split()
BEHIND = {
    "start": "isp isp", "isp": "place func", "place": "place func", "text": "text func", "func": "par m", "par": "par m",
    "loc": "loc m", "s": "v m", "v": "m m", "m": "instr end", "instr": "instr end", "end": "func func",
}


def number(low, high):
    def judge(word):
        if not re.fullmatch("[0-9]+", word):
            return 61
        if len(word) > 1 and word[0] == "0":
            return 63
        return 0 if low <= int(word) <= high else 61

    return judge


def lettered(letters, bad=61):
    def judge(word):
        if not word or word[0] not in letters:
            return bad
        return number(0, 2**32 - 1)(word[1:]) and (63 if number(0, 2**32 - 1)(word[1:]) == 63 else bad)

    return judge


def one_of(*words):
    return lambda word: 0 if word in words else 61


def gang(word):
    return number(4, 32)(word) or (0 if word in ("4", "8", "16", "32") else 61)


def constant(word):
    if word.startswith("-"):
        return 63 if word == "-0" else number(1, 2**63)(word[1:])
    return number(0, 2**64 - 1)(word)


def back(word):
    return 0 if word == "-" else lettered("svma")(word)


def name(word):
    return 0 if re.fullmatch("[A-Za-z_][A-Za-z0-9_]*", word) else 61


def hexadecimal(word):
    return 0 if re.fullmatch("([0-9a-f][0-9a-f])+", word) else 61


REGISTER, PLACE, BELOW = lettered("svma"), lettered("p"), number(0, 2**32 - 1)
ENDINGS = {"": [], "n": [constant], "t": [lettered("t")], "L": [lettered("L", 62)], "-": [back], "p": [PLACE]}


def forms(word, count):
    """The forms of so many words behind the first, or None."""
    exact = {
        "isp": [[number(1, 2), one_of("gang"), gang]],
        "place": [[BELOW, BELOW]],
        "text": [[hexadecimal]],
        "func": [[name, one_of("export", "inner"), one_of("void")], [name, one_of("export", "inner"), one_of("s", "v"), one_of(*TYPES)]],
        "par": [[one_of("s", "v", "a"), one_of(*TYPES), name]],
        "loc": [[one_of("u", "p"), one_of(*TYPES), number(1, 65536)]],
        "m": [[BELOW]],
        "end": [[]],
    }
    if word in ("s", "v"):
        return [one_of(*TYPES)] * count if count else None
    if word == "call":
        return [lettered("f"), back, REGISTER, PLACE] + [REGISTER] * (count - 4) if count >= 4 else None
    if word in SHAPES:
        registers, more, ending = SHAPES[word]
        exact[word] = [[REGISTER] * n + ENDINGS[ending] for n in range(registers, registers + more + 1)]
    return next((fs for fs in exact[word] if len(fs) == count), None)


def line_fault(last, line):
    words = line.split(" ")
    if any(not re.fullmatch("[!-~]+", word) for word in words):
        return 63, None
    word, behind = words[0], words[1:]
    kind = word if word in ORDER[1:10] or word == "end" else "instr" if word in SHAPES or word == "call" else None
    if kind is None or word in ("start", "instr"):
        return 60, None
    first, latest = (ORDER.index(k) for k in BEHIND[last].split())
    fs = forms(word, len(behind))
    if not first <= ORDER.index(kind) <= latest or fs is None:
        return 60, None
    for judge, operand in zip(fs, behind):
        if judge(operand):
            return judge(operand), None
    if word == "isp" and behind[0] != ("2" if behind[2] == "32" else "1"):
        return 61, None
    if word == "place" and not int(behind[0]) <= int(behind[1]) <= 1048576:
        return 61, None
    return 0, kind


def fault(text):
    """The rule and the line of a text's fault, or None."""
    lines = text.split("\n")
    last = "start"
    for i, line in enumerate(lines[:-1]):
        rule, kind = line_fault(last, line)
        if rule:
            return rule, i + 1
        last = kind
    return None if lines[-1] == "" and last in ("isp", "place", "text", "end") else (60, len(lines))


H = "isp 1 gang 4\n"
F = H + "func f export void\n"
M = F + "m 1\n"
END = "end\n"

WHOLE = """isp 1 gang 4
place 0 4
place 10 1048576
text 0a7eff
func f export void
par a i32 a
par s i32 n
loc u u8 2
s i64
v i32 i64
m 2
const s1 -7
index v0 m0
conv v1 v0 m0
scatter a0 v1 v0 m0 p0
call f1 s0 m1 p1 a0 s1
joff m1 L0
ret -
end
func g inner s i32
m 1
say t0
jmp L0
end
"""
SCATTER = H + """place 0 4
func f export void
par a i32 a
v i32 i64
m 1
index v0 m0
conv v1 v0 m0
scatter a0 v1 v0 m0 p0
ret -
end
"""

# Before a line of each kind, and behind it, what makes a text of it.
FRAMES = {
    "isp": ("", ""), "place": (H, ""), "text": (H, ""), "func": (H, "m 1\nend\n"), "par": (F, "m 1\nend\n"), "loc": (F, "m 1\nend\n"),
    "s": (F, "m 1\nend\n"), "v": (F, "m 1\nend\n"), "m": (F, END), "end": (M, ""), "instr": (M, END),
}
HEADERS = [
    "isp 1 gang 4", "isp 1 gang 8", "isp 1 gang 16", "isp 2 gang 32", "place 0 4", "place 5 5", "text 0aff",
    "func f export void", "func if inner s b", "func _9 inner v u64", "par s i32 n", "par v u8 while", "par a i64 A_1",
    "loc u i16 1", "loc p u32 65536", "s b", "s i8 u8 i16 u16 i32", "v u32 i64", "m 0", "m 4294967295", "end",
]


def kind_of(line):
    word = line.split(" ")[0]
    return word if word in FRAMES else "instr"


def instructions():
    """Each word of an instruction, in each of its forms."""
    ends = {"": [], "n": ["7"], "t": ["t0"], "L": ["L0"], "-": ["-"], "p": ["p0"]}
    for word, (registers, more, ending) in SHAPES.items():
        for count in range(registers, registers + more + 1):
            yield " ".join([word] + ["s0", "v1", "m2", "a3", "s4"][:count] + ends[ending])
    yield "call f0 - m0 p0"
    yield "call f4294967295 s0 m0 p1 a0 v0"


def broken(line):
    """A line with each word broken in turn, with a word too few and too many, and with the faults of words between them."""
    words = line.split(" ")
    yield " ".join(words[:-1])
    yield line + " x"
    for i, word in enumerate(words):
        for other in breaks(word) if i else [word.upper() + "x", "0" + word]:
            yield " ".join(words[:i] + [other] + words[i + 1 :])
        yield " ".join(words[:i] + ["", word] + words[i + 1 :])


def breaks(word):
    digits = word.lstrip("svmaptfL-")
    letter = word[: len(word) - len(digits)]
    if digits.isdigit():
        yield letter + "0" + digits
        yield letter + "4294967296"
        yield letter + "x"
        yield letter
        yield ("x" if letter else "-") + digits
    elif word != "-":
        yield word + "."
        yield word.upper()
    else:
        yield "--"
        yield "-0"


def rows():
    yield from ("", "isp 1 gang 4", H, H + "x")
    for line in HEADERS + list(instructions()):
        before, behind = FRAMES[kind_of(line)]
        yield before + line + "\n" + behind
        yield before + line
        for other in broken(line):
            yield before + other + "\n" + behind
    # each kind of line behind each
    lines = ["isp 1 gang 4", "place 0 4", "text 78", "func g export void", "par s i32 n", "loc u i32 1", "s i32", "v i32", "m 1", "ret -", "end"]
    for last in lines:
        for line in lines:
            before = FRAMES[kind_of(last)][0] + last + "\n"
            yield before + line + "\n"
            yield before + line + " x\n"
    yield from (last + "\n" for last in lines)
    # words at the ends of their ranges, and what wins where two faults meet
    yield from (M + f"const s0 {n}\n" + END for n in "0 -1 -0 -01 00 - -- +1 1x 18446744073709551615 18446744073709551616 -9223372036854775808 -9223372036854775809".split(" "))
    yield from (H + f"place {p}\n" for p in ("5 4", "0 1048576", "0 1048577", "4294967296 03", "5 03", "2000000 03", "01 x", "x 01", "1048576 1048576"))
    yield from (F + f"m {n}\n" + END for n in "01 00 04294967296 4294967296 x -1 +1 0x1".split(" "))
    yield from (f"isp {h}\n" for h in ("2 gang 4", "1 gan 4", "1 gang 5", "x gang 04", "1 gan 32"))
    yield from (f"isp {v} gang {n}\n" for v in "0 1 2 3 01 02".split(" ") for n in "4 04 8 16 32 032 64".split(" "))
    yield WHOLE.replace("isp 1 gang 4", "isp 2 gang 32")
    yield from (H + f"text {t}\n" for t in ("780", "7A", "zz", "00", "7", "7g"))
    yield from (F + f"loc u i32 {n}\n" + "m 1\nend\n" for n in ("0", "1", "65536", "65537", "00", "x"))
    jumps = "jmp 0|jmp L|jmp Lx|jmp l0|jmp x01|jmp L4294967296|jmp L4294967295|jmp L01|jmp L04294967296|jz s01 x|jz x L01|jz x x|jz m0 L0"
    others = "say s01|fail m0 s01|call g0 - m0 p0|call f00 - m0 p0|call f0 x m0 p0|ret -0|ret m0|copy m0 a1|copy s0 s1 m0|copy p0 s01|copy s01 p0|div s0 s0 s0 m0"
    yield from (M + line + "\n" + END for line in (jumps + "|" + others).split("|"))
    # a text with each kind of line, stopped behind each byte; a shorter one with other bytes in each place
    yield from (WHOLE[:n] for n in range(len(WHOLE) + 1))
    yield from (SCATTER[:n] + c + SCATTER[n + 1 :] for n in range(len(SCATTER)) for c in "\n 09-azL")
    # bytes that no word has
    yield from (H + f"place 0{c}4\n" for c in "\t\x00\x7fé\u00a0")
    yield from (H + f"text 78{c}\n" for c in "\t\x01\x7fé")
    # in two lines, and behind them
    yield from (M + "jmp x\ncopy s0\n" + END, M + "copy s0\njmp x\n" + END, M + "ret -", M + "ret -\n", H + "place 0 4\nplace  0", H + "plays 0 4\n", H + "zzz \n")
    yield from (M + END + "text 78\n", M + END + "func g export void\n", M + END + "func g export void\nm 1\n" + END, M + "\n" + END, "\n", H + "\n")


NAMES = {60: "BadLine", 61: "BadOperand", 62: "BadLabel", 63: "NotCanonical"}


def main():
    seen, out = set(), []
    for text in rows():
        if text not in seen:
            seen.add(text)
            found = fault(text)
            out.append(text.replace("\n", "␤") + "|" + (f"{found[0]} {NAMES[found[0]]} at line {found[1]}" if found else "read"))
    folder = "crates/isp_tests_cases"
    count = f"{folder}/stdout"
    written.put({f"{folder}/data/texts/faults.rows": "\n".join(out) + "\n", count: written.with_count(count, len(out), "texts")})
    print(len(out), "texts,", sum(row.endswith("|read") for row in out), "without a fault")


main()
