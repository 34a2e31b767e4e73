"""The cases of crates/rows/data, read as text.rt and case.rt of crates/case_files/src read them, for the tools that run a built program."""
import os
import re

HERE = os.path.dirname(os.path.dirname(os.path.abspath(__file__)))
DATA = f"{HERE}/crates/rows/data"
ESCAPE = re.compile(rb"\\(\\|x([0-9a-f]{2})|#|\+)|(.)", re.S)


def repeated(text, index):
    """Returns the bytes of a text with escapes, where \\# is the index and \\+ the next one."""

    def one(found):
        if found[3]:
            return found[3]
        if found[2]:
            return bytes([int(found[2], 16)])
        return {b"\\": b"\\", b"#": b"%d" % index, b"+": b"%d" % (index + 1)}[found[1]]

    return ESCAPE.sub(one, text)


def line_bytes(line):
    """Returns the bytes that a line of a part says: with LF, but for one that ends with a backslash."""
    out, at = [], 0
    while at < len(line):
        if line[at : at + 1] != b"\\":
            end = line.find(b"\\", at)
            end = len(line) if end < 0 else end
            out.append(line[at:end])
            at = end
        elif at + 1 == len(line):
            return b"".join(out)
        elif line[at + 1 : at + 2] == b"(":
            end = line.index(b")", at)
            count, _, text = line[at + 2 : end].partition(b" ")
            out += [repeated(text, index) for index in range(int(count))]
            at = end + 1
        else:
            length = 4 if line[at + 1 : at + 2] == b"x" else 2
            out.append(repeated(line[at : at + length], 0))
            at += length
    return b"".join(out) + b"\n"


class Result:
    """A result that a case allows: the exit code, the console, and the files that are new or have changed."""

    def __init__(self, code):
        self.code, self.says, self.after = code, b"", {}


class Case:
    """A case: its title, the words of the command, the files before, and the results that are allowed.

    `is_plain` says that a call of the program over files alone is tried, where no call of the outside is to fail."""

    def __init__(self, title):
        self.title, self.words, self.files, self.results, self.is_plain = title, [b"log.blue"], {}, [], True

    def blueprint(self):
        """Returns the text of the blueprint that the words name, also of a generated one; empty where there is none."""
        words = [it.decode("latin-1") for it in self.words]
        names = [it for i, it in enumerate(words) if it in self.files and words[i - 1 : i] != ["--trace"]]
        return self.files[names[0]] if names else next((it.after.get("gen.blue", b"") for it in self.results), b"")

    def take(self, line, part):
        """Takes a heading, or a line of a part; returns the part that the next lines belong to, as (where, name)."""
        if line.startswith(b"|"):
            if part:
                where, name = part
                said = line_bytes(line[1:])
                if where is self.words:
                    where.append(said[:-1])
                elif isinstance(where, Result):
                    where.says += said
                else:
                    where[name] += said
            return part
        first, _, rest = line.decode("utf-8", "replace").partition(" ")
        if line == b"words":
            self.words = []
            return (self.words, None)
        if first == "file":
            self.files[rest] = b""
            return (self.files, rest)
        if first == "says":
            self.results.append(Result(int(rest)))
            return (self.results[-1], None)
        if first == "after" and self.results:
            self.results[-1].after[rest] = b""
            return (self.results[-1].after, rest)
        if first not in ("step", "sent", "room"):
            self.is_plain = False
        return None


def read_cases(names=None):
    """Returns the cases of these files of crates/rows/data, of all but those that must fail where none is named, by their titles."""
    found = {}
    for name in names or sorted(set(os.listdir(DATA)) - {"must_fail.txt"}):
        with open(f"{DATA}/{name}", "rb") as it:
            case = part = None
            for line in it.read().split(b"\n"):
                if line.startswith(b"case "):
                    case, part = Case(line[5:].decode("utf-8", "replace")), None
                    found[case.title] = case
                elif case and line and not line.startswith(b"#"):
                    part = case.take(line, part)
    return found


def contents(folder):
    """Returns the bytes of each file of a folder by its name."""
    found = {}
    for name in sorted(os.listdir(folder)):
        with open(f"{folder}/{name}", "rb") as it:
            found[name] = it.read()
    return found


def set_files(folder, files):
    """Leaves exactly these files in a folder."""
    for name in os.listdir(folder):
        os.remove(f"{folder}/{name}")
    for name, text in files.items():
        with open(f"{folder}/{name}", "wb") as it:
            it.write(text)
