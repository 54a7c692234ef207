"""Each growth of memory of a program refused: requests of tools/requests, answered by the built programs. Used by tools/edges.

A request is made with its first growth refused, then with its second, until it asks for fewer; and once more so with all behind it refused,
too. Under each refusal the program must answer 7 and the line of memory, and have written a beginning of what the request writes; or just what
the request says, where the system's library does without the growth. `ispx explain` and `test` may also end as the request says with the line of memory in
place of what they say. At last, with no refusal, all is as the request says; and it met as many refusals as any request does at least.
"""
import os
import pathlib
import subprocess
import tempfile

from records import ROOT, ROWS, Record, records

SECONDS = 60
# as many growths as any request has, to read its words
LEAST = 60
MEMORY = b"isp: memory\n"
# what docs/FAULTS.md says behind the line
EXPLAINED = MEMORY + b"The system gave no memory.\nFix: end other programs, or use smaller arrays.\n"
# the requests that the gate takes, by the file and the name: each command, each kind of explanation, and refused words
TAKEN = {
    "commands.rows": ["isp run double.ispc f four.json", "isp exec scatter.isp f nines.json", "isp try a"],
    "check.rows": ["a rule that a called function breaks"],
    "solo.rows": ["print"],
    "explain.rows": ["12 LeftOut", "docs/INDEPENDENCE.md, Asking", "trap divide", "70 NotJson"],
    "ispx.rows": [
        "and run", "a value in place of an array, by its parameter", "no entry, and what is exported", "count: output, answer and counts",
        "trace: with lanes, in a window", "the C file of a source", "the prototypes of the exported functions",
        "the WebAssembly module of a source", "no module where a function calls one with 4 GB of arrays", "a command that is none"],
    "test.rows": ["an array of another name", "an answer without arrays"],
}


class Growths(Record):
    """A request of a record, made with memory refused. `library` is what refuses."""

    def __init__(self, file, text, programs, library):
        super().__init__(text, programs)
        self.library, self.name = library, f"{file}: {self.name}"
        self.explains = self.words[1] in ("explain", "test")

    def run(self, _program):
        """Returns what differs, or None."""
        with tempfile.TemporaryDirectory() as folder:
            self.put(folder)
            for also in (False, True):
                growth = 0
                while True:
                    met, *ran = self.refused(folder, growth, also)
                    if not met:
                        break
                    if not self.may_be(*ran):
                        return f"growth {growth}{' and all behind it' * also} refused: {ran}"
                    growth += 1
                if ran != [self.status, self.out, self.err]:
                    return f"with no refusal: {ran}"
                if growth < LEAST:
                    return f"{growth} growths were refused"
            left = {str(path.relative_to(folder)): path.read_bytes() for path in pathlib.Path(folder).rglob("*") if path.is_file()}
            return None if left == {**self.files, **self.left} else f"the files are otherwise: {sorted(left)}"

    def may_be(self, status, out, err):
        """Returns whether the program may answer so under a refusal."""
        if (status, out) == (self.status, self.out) and (err == self.err or self.explains and err == MEMORY):
            return True
        return status == 7 and self.out.startswith(out) and (err == MEMORY or self.explains and err == EXPLAINED)

    def refused(self, folder, growth, also):
        """Returns whether a growth was refused, the status, and what was written to the output and to standard error."""
        reading, writing = os.pipe()
        told = {"LD_PRELOAD": self.library, "GROWTH": str(growth), "GROWTH_TOLD": str(writing), **({"GROWTH_ON": ""} if also else {})}
        ran = subprocess.run(self.words, cwd=folder, env=told, stdin=subprocess.DEVNULL, capture_output=True, pass_fds=(writing,), timeout=SECONDS, check=False)
        os.close(writing)
        met = os.read(reading, 1) != b""
        os.close(reading)
        return met, ran.returncode, ran.stdout, ran.stderr


def requests(programs, folder, whole):
    """Gives the requests that the gate takes, or all; what refuses is built in a folder."""
    library = built(folder)
    for path in sorted(ROWS.glob("*.rows")):
        texts = records(path)
        found = {text.split("\n")[0]: text for text in reversed(texts)}
        for text in texts if whole else [found[name] for name in TAKEN.get(path.name, [])]:
            # (what another request writes, or standard input, is not there)
            if "\nkept " not in text and "\nfile /dev/stdin " not in text:
                yield Growths(path.name, text, programs, library)


def built(folder):
    """Builds what refuses, and returns its path."""
    path = f"{folder}/growths.so"
    subprocess.run(["gcc", "-O1", "-Wall", "-Wextra", "-Werror", "-shared", "-fPIC", ROOT / "tools/growths.c", "-o", path], check=True)
    return path
