"""What `ispx explain` has to say, worked out without the program: the place, what stands there, and the sentence and the fix of docs/FAULTS.md.

tools/page_rows.py makes requests of it, which tools/request-test compares with the program's answers, and writes the text from which the
program takes its texts (crates/isp_remedies/src/page.rt).
"""
import fnmatch
import json
import os
import re
import textwrap
import unicodedata

ROOT = os.path.dirname(os.path.dirname(os.path.realpath(__file__)))
PAGE = "docs/FAULTS.md"
# What stands before a fault, the fault, and its place. Other output may stand before `isp: `, if it does not end with its line.
FAULT = re.compile(
    r"(?P<whose>isp: |\w+ dependent: )"
    r"(?P<fault>(?P<key>\d+ \w+|trap \w+|rule \d|not apart|budget used|turns used|cannot read|cannot write|memory)"
    r"(?: at (?P<start>\d+)\.\.(?P<end>\d+)| at line (?P<line>\d+)| in function (?P<function>\d+), instruction (?P<instruction>\d+))?"
    r"(?P<rest>(?:, instance \d+|: \w+ \d+|(?<=cannot read) .*)?))"
)


TYPES = set("void bool int int8 int16 int32 int64 uint uint8 uint16 uint32 uint64 signed unsigned const uniform varying".split())
WORDS = TYPES | set("export static inline if cif else while cwhile do cdo for cfor foreach foreach_tiled foreach_active foreach_unique unmasked".split())
WORDS |= set("break continue return print assert true false programIndex programCount".split())
LEFT_OUT = set(
    "float double float16 struct soa enum typedef size_t ptrdiff_t intptr_t uintptr_t switch case default goto new delete NULL task launch sync extern "
    "sizeof template typename operator cbreak ccontinue creturn".split()
)
TOKEN = re.compile(
    r"//[^\n]*|/\*.*?(?:\*/|\Z)"
    r"|(\"(?:\\.|[^\"\\\n])*\"?|\w+|\.\.\.|<<=|>>=|[-+*/%&|^=!<>]=|\+\+|--|&&|\|\||<<|>>|[^\s])",
    re.S,
)
# What stands first in a row of a table: some tokens, and what has to be true of where they stand.
CONDITION = re.compile(
    r" after (?P<after>an? [a-z ]*?(?= in | outside |$)|`[^`]+`)| before `(?P<next>[^`]+)`| in `(?P<call>\w+)`"
    r"|(?P<outside> outside functions)|(?P<declared> in a declaration)"
)


def pages_faults():
    """Returns the sentence, the fix and the rows of fixes of each fault, by the heading that it has on the page."""
    with open(f"{ROOT}/{PAGE}", encoding="utf-8") as file:
        parts = re.split(r"^### ", re.sub(r"^```.*?^```$", "", file.read(), flags=re.M | re.S), flags=re.M)
    found = {}
    for part in parts[1:]:
        heading, _, body = part.partition("\n")
        paragraphs = [" ".join(it.split()) for it in re.split(r"^#.*|\n\n", body, flags=re.M) if it.strip()]
        fix = next((it for it in paragraphs if it.startswith("Fix: ")), "")
        cells = [re.split(r"(?<!\\)\|", line) for line in body.split("\n") if line.startswith("| ")]
        rows = [tuple(row[at].strip().replace("\\|", "|") for at in (1, -2)) for row in cells if len(row) >= 4]
        found[heading] = paragraphs[0], fix, rows[1:] if rows[:1] == [("At", "Fix")] else []
    return found


def tokens(text):
    return [it[1] for it in TOKEN.finditer(text) if it[1]]


# ---- the text of crates/isp_remedies

KINDS = {"a name": "NAME", "a type": "TYPE", "a number": "NUMBER", "a string": "STRING"}


def samples(cell):
    return [quoted or KINDS[kind] for quoted, kind in re.findall(r"`([^`]+)`|(an? \w+)", cell)]


def conditions(cell):
    """Yields what has to hold around what a cell says."""
    for it in CONDITION.finditer(cell):
        if it["after"] == "an unknown type":
            yield "unknown"
        elif it["after"]:
            yield f"after {KINDS.get(it['after']) or it['after'].strip('`')}"
        elif it["next"]:
            yield f"before {it['next']}"
        elif it["call"]:
            yield f"in {it['call']}"
        else:
            yield "outside" if it["outside"] else "declared"


def section(heading, sentence, fix, rows):
    """Yields the lines of a fault: its words, the sentence, the fix, and each row of its table."""
    yield "# " + re.sub(r"^(rule .) .*", r"\1", heading)
    yield told(sentence)
    yield told(fix)
    for cell, instead in rows:
        condition = CONDITION.search(cell)
        yield "@ " + " ".join(samples(cell[: condition.start()] if condition else cell))
        yield from (f"? {it}" for it in conditions(cell))
        yield told(f"Fix: {instead}.")


def page():
    """Returns the text of crates/isp_remedies/src/page.rt."""
    lines = [line for heading, (sentence, fix, rows) in pages_faults().items() for part in section(heading, sentence, fix, rows) for line in part.split("\n")]
    text = "\n".join(lines).replace("\\", "\\\\").replace('"', '\\"')
    return f'''//! What docs/FAULTS.md says of each fault. Written by tools/page_rows.py.

/// A section for each fault, from a line feed, `# ` and its words on: the sentence, the fix, and the rows of its table. A row is
/// `@ ` and what may stand at the place, `? ` and what has to hold around it, and its fix.
pub(crate) const PAGE: &str = "
{text}";
'''


# ---- what stands at a place


class Spot:
    """What stands at a span, and before and around it."""

    def __init__(self, data, start, end):
        before = tokens(data[:start].decode(errors="replace"))
        self.token, self.next, *_ = [*tokens(data[start:end].decode(errors="replace")), "", ""]
        self.before = before[-1] if before else ""
        self.is_first = len(before) < 2 or before[-2] in ";{})"
        self.is_outside = before.count("{") == before.count("}")
        starts = [k for k, it in enumerate(before) if it in ";{}"]
        self.is_declared = bool(TYPES.intersection(before[starts[-1] + 1 :][:1])) if starts else False
        calls = []
        for previous, it in zip(["", *before], before):
            if it == "(":
                calls.append(previous)
            elif it == ")" and calls:
                calls.pop()
        self.call = calls[-1] if calls else ""

    def fits(self, cell):
        """Whether the first cell of a row speaks of this spot."""
        condition = CONDITION.search(cell)
        names = re.findall(r"`([^`]+)`|(an? \w+)", cell[: condition.start()] if condition else cell)
        if not any(is_a(self.token, quoted or kind) for quoted, kind in names):
            return False
        return all(self.meets(it) for it in CONDITION.finditer(cell))

    def meets(self, condition):
        if condition["after"] == "an unknown type":
            return is_a(self.before, "a name") and self.is_first
        if condition["after"]:
            return is_a(self.before, condition["after"].strip("`"))
        if condition["next"]:
            return self.next == condition["next"]
        if condition["call"]:
            return self.call == condition["call"]
        return self.is_outside if condition["outside"] else self.is_declared


def is_a(token, what):
    """Whether a token is what a cell says: a kind of token, or one by its spelling, in which a `*` after a word stands for any rest."""
    if what == "a name":
        return bool(re.fullmatch(r"[A-Za-z_]\w*", token)) and token not in WORDS | LEFT_OUT
    if what == "a type":
        return token in TYPES
    if what == "a number":
        return bool(re.match(r"\d", token))
    if what == "a string":
        return token.startswith('"')
    return fnmatch.fnmatchcase(token, what) if re.match(r"\w", what) else token == what


def linked(match):
    """Returns what a link says, and from the top of the repository where it leads."""
    text, to = match[1], match[2]
    path = PAGE + to if to.startswith("#") else os.path.normpath(os.path.join(os.path.dirname(PAGE), to))
    return f"{text} ({path})"


def told(paragraph):
    plain = re.sub(r"\[([^]]+)\]\(([^)]+)\)", linked, paragraph)
    return textwrap.fill(plain, 100, break_long_words=False, break_on_hyphens=False)


def shown(text):
    """Returns a text with one printed character for each of its own."""
    return "".join("\N{REPLACEMENT CHARACTER}" if unicodedata.category(c) == "Cc" and c != "\t" else c for c in text)


def source_place(data, start, end):
    """Returns line and column, the line of the source, and carets below the bytes of the span that stand in it."""
    begin = data.rfind(b"\n", 0, start) + 1
    stop = (data + b"\n").find(b"\n", start)
    line, before, marked = (part.decode(errors="replace") for part in (data[begin:stop], data[begin:start], data[start : min(end, stop)]))
    carets = "".join(c if c == "\t" else " " for c in before) + "^" * max(len(marked.rstrip("\r")), 1)
    number = data.count(b"\n", 0, start) + 1
    return f"{number}:{len(before) + 1}", ["    " + shown(line.rstrip("\r")), "    " + carets]


def code_line(lines, key, function, instruction):
    """Returns the number of the line in which an instruction of a function stands, or of the function's head; 0 if there is none."""
    heads = [number for number, line in enumerate(lines, 1) if line.startswith("func ")]
    if function >= len(heads):
        return 0
    if key.startswith("44 "):
        return heads[function]
    masks = next((number for number, line in enumerate(lines, 1) if number > heads[function] and line.startswith("m ")), len(lines))
    number = masks + 1 + instruction
    return number if number <= len(lines) else 0


def placed(fault, name, text):
    """Returns what to print of where a fault is, or None if it has no place."""
    data = text.encode()
    lines = text.split("\n")
    if fault["start"]:
        where, below = source_place(data, int(fault["start"]), int(fault["end"]))
        return [f"{name}:{where}: {fault['whose'].removeprefix('isp: ')}{fault['key']}{fault['rest']}", *below]
    number = int(fault["line"] or 0)
    if fault["function"]:
        number = code_line(lines, fault["key"], int(fault["function"]), int(fault["instruction"]))
    if 0 < number <= len(lines):
        return [f"{name}:{number}: {fault['fault'].removesuffix(f' at line {number}')}", f"    {shown(lines[number - 1])}"]
    return None


def fitting(fault, text, rows):
    """Returns the fix of the first row that fits what stands at the fault's span, or nothing."""
    if not rows or not fault["start"]:
        return ""
    spot = Spot(text.encode(), int(fault["start"]), int(fault["end"]))
    return next((f"Fix: {fix}." for cell, fix in rows if spot.fits(cell)), "")


def exported(text):
    """Returns the parameters of each exported function of a source or of code, by its name: name, type and whether it is an array."""
    found, named = {}, ""
    if re.match(r"isp \d+ gang", text):
        for line in text.split("\n"):
            words = line.split(" ")
            if words[0] == "func":
                named = words[1] if words[2:3] == ["export"] else ""
                found.update({named: []} if named else {})
            elif words[0] == "par" and named and len(words) == 4:
                size = words[2][1:]
                found[named].append((words[3], {"b": "bool", "i": f"int{size}", "u": f"uint{size}"}.get(words[2][0], ""), words[1] == "a"))
        return found
    head, depth = [], 0
    for token in tokens(text):
        if token == "{" and depth == 0 and "export" in head and "(" in head:
            at = head.index("(")
            listed = " ".join(head[at + 1 : -1]).split(" , ")
            found[head[at - 1]] = [parameter(it.split()) for it in listed if it not in ("", "void")]
        depth += {"{": 1, "}": -1}.get(token, 0)
        head = [] if depth or token == "}" else [*head, token]
    return found


def parameter(words):
    """Returns the name of a parameter, its type, and whether it is an array."""
    is_array = words[-2:] == ["[", "]"]
    *types, name = words[:-2] if is_array else words
    base = next((it for it in types if it not in ("const", "uniform", "varying", "signed", "unsigned")), "int")
    base = f"{base}32" if base in ("int", "uint") else base
    return name, "u" + base if "unsigned" in types else base, is_array


def read_json(text):
    """Returns what the program reads of a JSON text: a number with a point, an exponent or beyond 64 bits, and -0, is a float."""

    def refused(word):
        raise ValueError(word)

    def whole(digits):
        value = int(digits)
        return value if digits != "-0" and -(2**63) <= value < 2**64 else float(digits)

    return json.loads(text, parse_int=whole, parse_constant=refused)


def value_fault(value, elem):
    """Returns the number of the fault of a value that is to have a type, or 0."""
    if elem == "bool" or type(value) is not int:
        return 0 if elem == "bool" and type(value) is bool else 74
    size = int(re.sub(r"\D", "", elem) or 64)
    low, high = (0, 2**size) if elem.startswith("u") else (-(2 ** (size - 1)), 2 ** (size - 1))
    return 0 if low <= value < high else 75


def argument_fault(parameters, given):
    """Returns the number of the first fault of arguments, and of what it is."""
    for name, elem, is_array in parameters:
        if name not in given:
            return 72, f'parameter "{name}"'
        value = given[name]
        if is_array != isinstance(value, list):
            return 74, f'parameter "{name}"'
        if not is_array:
            number = value_fault(value, elem)
            if number:
                return number, f'parameter "{name}"'
            continue
        if len(value) > 16777216:
            return 76, f'parameter "{name}"'
        for k, it in enumerate(value):
            if value_fault(it, elem):
                return value_fault(it, elem), f'parameter "{name}", element {k}'
    extra = next((name for name in given if name not in [it[0] for it in parameters]), None)
    return (73, f'member "{extra}"') if extra is not None else (0, "")


def bound(fault, words, files):
    """Returns what to print of a fault of the entry or the arguments, or None if that cannot be said."""
    number = int((re.match(r"\d+", fault["key"]) or ["0"])[0])
    if number not in (50, *range(70, 77)):
        return None
    name, entry, arguments = words
    exports = exported(files[name])
    if number == 50:
        return [f"{name}: {fault['fault']}: {entry}", f"    exported: {', '.join(exports) or 'nothing'}"]
    if number == 71:
        return [f"{arguments}: {fault['fault']}"]
    try:
        found, what = argument_fault(exports[entry], read_json(files[arguments]))
    except json.JSONDecodeError as it:
        return [f"{arguments}:{it.lineno}:{it.colno}: {fault['fault']}"]
    assert found == number, (words, found, fault["fault"])
    return [f"{arguments}: {fault['fault']}: {what}"]


def explained(line, words, files):
    """Returns the lines that explain what isp prints for these words: SOURCE, or SOURCE ENTRY ARGUMENTS."""
    fault = FAULT.fullmatch(line)
    faults = pages_faults()
    sentence, fix, rows = next(faults[it] for it in faults if it == fault["key"] or it.startswith(f"{fault['key']} "))
    text = files.get(words[0])
    where = bound(fault, words, files) or (placed(fault, words[0], text) if text is not None else None)
    parts = [sentence, fitting(fault, text or "", rows) or fix]
    return [*(where or [line]), *(it for part in parts for it in told(part).split("\n"))]
