"""Requests as data: what a record of tools/requests asks of a program, and what must come of it. Used by tools/request-test and tools/growths.py.

A record is the lines from `=== ` and its name on. Each line begins with a word that says what it is:

- `.` how what comes out was found, for the reader alone;
- `file` a file's name and its text, where `␤` is a line feed and `␉` a tab, and a place may stand between `⟦` and `⟧`; `/dev/stdin` is standard input;
- `data` a file's name and its bytes in hexadecimal digits, `closed` the name of a file that cannot be written;
- `words` the words after `isp`, `ispx` those after `ispx`;
- `kept` a file's name and how its text begins: the text is what the words before write, and there is no such file where it begins otherwise;
- `status` the exit status, `out` what goes to standard output, or `bytes` its bytes in hexadecimal digits, `err` the line on standard error,
  without its line feed; in `out` and `err` the first `⟦⟧` stands for the place of the file that was written last, as `S..E`;
- `left` the files that were written, each as its name, `=` and its bytes in hexadecimal digits, with a blank between them.

What it does not say is 0 or empty.
"""
import pathlib
import subprocess
import tempfile

ROOT = pathlib.Path(__file__).resolve().parents[1]
ROWS = ROOT / "tools/requests"
SECONDS = 60
INPUT = "/dev/stdin"


def spelt_out(text):
    return text.replace("␤", "\n").replace("␉", "\t")


def records(path):
    """Returns the records of a file, each with its name first."""
    return path.read_text(encoding="utf-8").split("=== ")[1:]


class Record:
    """What a record says. `programs` has the paths of `isp` and `ispx`."""

    def __init__(self, text, programs):
        self.programs, self.files, self.closed, self.left = programs, {}, [], {}
        self.words, self.status, self.out, self.err, self.place = [], 0, b"", b"", ""
        self.name, *lines = text.split("\n")
        for line in lines:
            self.follow(*line.partition(" ")[::2])

    def follow(self, word, rest):
        """Takes a line."""
        name, _, value = rest.partition(" ")
        if word == "file":
            before, _, marked = spelt_out(value).partition("⟦")
            inner, _, after = marked.partition("⟧")
            self.place = f"{len(before.encode())}..{len((before + inner).encode())}"
            self.files[name] = (before + inner + after).encode()
        elif word == "data":
            self.files[name] = bytes.fromhex(value)
        elif word == "closed":
            self.closed.append(rest)
        elif word in ("words", "ispx"):
            self.words = [self.programs["ispx" if word == "ispx" else "isp"], *rest.split(" ")]
        elif word == "kept":
            self.keep(name, spelt_out(value))
        elif word == "status":
            self.status = int(rest)
        elif word == "out":
            self.out = spelt_out(rest).replace("⟦⟧", self.place, 1).encode()
        elif word == "bytes":
            self.out = bytes.fromhex(rest)
        elif word == "err":
            self.err = f"{spelt_out(rest).replace('⟦⟧', self.place, 1)}\n".encode()
        elif word == "left":
            self.left = {name: bytes.fromhex(digits) for name, digits in (it.split("=") for it in rest.split(" "))}

    def keep(self, name, beginning):
        """What the words so far write is the text of a file, if it begins so."""
        _, out, _, _ = self.answer()
        if out.startswith(beginning.encode()):
            self.files[name] = out

    def put(self, folder):
        """Writes its files into a folder. One that cannot be written is a folder."""
        for name, contents in self.files.items():
            if name != INPUT:
                path = pathlib.Path(folder, name)
                path.parent.mkdir(parents=True, exist_ok=True)
                path.write_bytes(contents)
        for name in self.closed:
            pathlib.Path(folder, name).mkdir(parents=True)

    def answer(self):
        """Returns the status, what was written to standard output and to standard error, and the files that were written."""
        with tempfile.TemporaryDirectory() as folder:
            self.put(folder)
            ran = subprocess.run(self.words, cwd=folder, input=self.files.get(INPUT, b""), capture_output=True, timeout=SECONDS, check=False)
            there = {str(path.relative_to(folder)): path.read_bytes() for path in pathlib.Path(folder).rglob("*") if path.is_file()}
        return ran.returncode, ran.stdout, ran.stderr, {name: there[name] for name in there if there[name] != self.files.get(name)}

    def difference(self):
        """Returns in what the request does not come out as the record says, or None."""
        found = self.answer()
        return None if found == (self.status, self.out, self.err, self.left) else f"{found} in place of {(self.status, self.out, self.err, self.left)}"
