"""Crates built as plain Rust, each once, over what they use of the kit."""
import hashlib
import json
import pathlib
import subprocess
import sys

from meanings.changes import TOP
from meanings.source import plain, stripped

FOLDER = pathlib.Path(__file__).resolve().parent
# what the crates use of the kit, written anew for this tool alone, those below first
KIT = ["kit", "arrayvec", "itoa", "memchr", "jiff_core", "jiff_span", "jiff"]


def crates():
    """The crates and what each stands on, those below first."""
    rows = [line.partition("#")[0].split(":") for line in (TOP / "crates.txt").read_text().splitlines()]
    below = {row[0].split()[0]: row[1].split() for row in rows if len(row) == 2}
    order = []
    while len(order) < len(below):
        order += [name for name in below if name not in order and all(one in order or one not in below for one in below[name])]
    return {name: below[name] for name in order}


BELOW = crates()


def reach(name):
    """All that a crate stands on."""
    return set(BELOW.get(name, [])).union(*(reach(one) for one in BELOW.get(name, [])))


class Builder:
    def __init__(self, work):
        self.work = work
        self.marks = {}

    def rustc(self, name, root, flags, below):
        externs = [word for one in below for word in ("--extern", f"{one}={self.work}/lib{one}.rlib")]
        command = ["rustc", "--edition", "2024", "--crate-name", name, "--cap-lints", "allow", "-L", str(self.work)]
        command += ["-C", "opt-level=1", "-C", "overflow-checks=on", "-C", "codegen-units=1", "--error-format", "json"]
        return subprocess.run([*command, *externs, *flags, str(root)], capture_output=True, text=True)

    def must(self, name, root, flags, below):
        done = self.rustc(name, root, flags, below)
        if done.returncode != 0:
            sys.exit(f"{name} is not built:\n" + "\n".join(rendered(done.stderr)[:5]))

    def library(self, name, root, below):
        """Builds a library, unless the same one was built of the same texts."""
        sources = sorted(root.parent.rglob("*.rs")) if root.name == "lib.rs" else [root]
        known = [self.marks[one] for one in below] + [path.read_text() for path in sources]
        self.marks[name] = hashlib.sha256("\n".join(known).encode()).hexdigest()
        mark = self.work / f"{name}.mark"
        if not mark.exists() or mark.read_text() != self.marks[name]:
            mark.unlink(missing_ok=True)
            self.must(name, root, ["--crate-type", "rlib", "--out-dir", str(self.work)], below)
            mark.write_text(self.marks[name])

    def kit(self):
        for name in KIT:
            self.library(name, FOLDER / "kit" / f"{name}.rs", ["jiff_core"] if name.startswith("jiff") and name != "jiff_core" else [])

    def externs(self, name):
        return [*KIT, *sorted(one for one in reach(name) if one in BELOW)]

    def put(self, name):
        """Writes a crate as plain Rust."""
        source, folder = TOP / "crates" / name / "src", self.work / name
        for path in source.rglob("*.rt"):
            target = (folder / path.relative_to(source)).with_suffix(".rs")
            target.parent.mkdir(parents=True, exist_ok=True)
            target.write_text(plain(stripped(path.read_text(encoding="utf-8"))), encoding="utf-8")
        return folder / ("lib.rs" if (folder / "lib.rs").exists() else "main.rs")

    def below(self, name):
        """Builds the crates that one stands on, unless they are built."""
        for one in BELOW:
            if one in reach(name) and one not in self.marks:
                self.library(one, self.put(one), self.externs(one))

    def program(self, name, root):
        """Builds a program, and answers the command that runs it."""
        target = self.work / f"{name}_program"
        self.must(name, root, ["-o", str(target)], self.externs(name))
        return [str(target)]

    def tests(self, name, root):
        """Builds the tests of a crate, and answers the command that runs them."""
        target = self.work / f"{name}_tests"
        self.must(name, root, ["--test", "-o", str(target)], self.externs(name))
        return [str(target), "-q", "--test-threads=1"]

    def turned(self, crate, turned):
        """Writes and builds the crate with all its changes that type, and answers these."""
        folder, dropped = self.work / crate, set()
        flags = ["--crate-type", "rlib", "--emit", "metadata", "--out-dir", str(self.work)]
        while True:
            owners = {}
            for file in turned.files:
                target = (folder / file.path.relative_to(turned.source)).with_suffix(".rs")
                target.parent.mkdir(parents=True, exist_ok=True)
                owners[str(target)] = turned.write(file, target, dropped)
            done = self.rustc(crate, folder / "lib.rs", flags, self.externs(crate))
            if done.returncode == 0:
                break
            wrong = {owner for path, line in places(done.stderr) for first, last, owner in owners.get(path, []) if first <= line <= last}
            if not wrong:
                sys.exit(f"{crate} is not built:\n" + "\n".join(rendered(done.stderr)[:5]))
            dropped |= wrong
        self.library(crate, folder / "lib.rs", self.externs(crate))
        return [number for number in turned.changes if number not in dropped], len(dropped)


def messages(errors):
    return [json.loads(line) for line in errors.splitlines() if line.startswith("{")]


def rendered(errors):
    return [message["rendered"] for message in messages(errors) if message["level"] == "error"]


def places(errors):
    """The files and lines that errors point at."""
    for message in messages(errors):
        for span in message["spans"] if message["level"].startswith("error") else []:
            if span["is_primary"]:
                yield span["file_name"], span["line_start"]
