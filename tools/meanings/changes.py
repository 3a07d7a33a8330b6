"""The small changes of a crate's code, and the crate as plain Rust with all of them behind a number."""
import collections
import pathlib
import re

from meanings.source import closing, find, plain, solid, stripped, tokens_of

TOP = pathlib.Path(__file__).resolve().parent.parent.parent
Change = collections.namedtuple("Change", "at end text")

SWAPS = {"<": "<=", "<=": "<", ">": ">=", ">=": ">", "==": "!=", "!=": "==", "&&": "||", "||": "&&"}
SWAPS |= {"+": "-", "-": "+", "+=": "-=", "-=": "+=", "..=": ".."}
COMPARES = ("<", "<=", ">", ">=", "==", "!=", "&&", "||")


def is_spaced(tokens, at):
    """Whether a mark stands between two values: the formatter puts blanks around it then, and not around that of a type."""
    return tokens[at - 1].end < tokens[at].at and tokens[at].end < tokens[at + 1].at


def other_letter(letter):
    """A letter of the same class."""
    if letter.isalnum():
        after = chr(ord(letter) + 1)
        return after if after.isalnum() and after.isascii() else chr(ord(letter) - 1)
    return "x" if letter != "x" else "y"


def other_literals(token):
    """The literal of a number, a letter or a text with one thing changed."""
    if token.kind == "number":
        found = re.fullmatch(r"(0x[0-9a-fA-F_]+|[0-9_]+?)_?([iu](?:8|16|32|64|128|size))?", token.text)
        value = int(found[1].replace("_", ""), 0 if found[1].startswith("0x") else 10) if found else None
        return [f"{number}{found[2] or ''}" for number in (value + 1, value - 1) if number >= 0] if found else []
    start = token.text.index("'" if token.kind == "char" else '"') + 1
    inner = token.text[start:-1]
    if token.kind == "text" and not inner:
        return [f'{token.text[:start]}x"']
    turned = []
    for found in re.finditer(r"\\\n|\\x..|\\.|[^\\]", inner, re.DOTALL):
        letter = found[0]
        if letter != "\\\n" and letter not in "{}":
            instead = other_letter(letter) if len(letter) == 1 else "x"
            turned.append(token.text[:start] + inner[: found.start()] + instead + inner[found.end() :] + token.text[-1])
    return turned


def arms_of(tokens, at):
    """The spans of the answers of the `match` at a place."""
    place = find(tokens, at + 1, "{")
    end = closing(tokens, place)
    place += 1
    while place < end:
        first = find(tokens, place, ("=>",)) + 1
        last = closing(tokens, first) if tokens[first].text == "{" else find(tokens, first, ",") - 1
        yield tokens[first].at, tokens[last].end
        place = last + 1
        if tokens[place].text == ",":
            place += 1


def turned_arms(text, tokens, at):
    """The arms of a `match`, two neighbours with each other's answers."""
    arms = list(arms_of(tokens, at))
    for (at_one, end_one), (at_two, end_two) in zip(arms, arms[1:]):
        one, two = text[at_one:end_one], text[at_two:end_two]
        if one != two:
            between = text[end_one:at_two]
            comma = "," if two.startswith("{") is False and not between.lstrip().startswith(",") else ""
            yield Change(at_one, end_two, f"{two}{comma}{between}{one}")


def turned_test(text, tokens, at):
    """The test of an `if` the other way round, where no comparison stands in it."""
    end = find(tokens, at + 1, ("{", "=>"))
    words = {token.text for token in tokens[at + 1 : end]}
    if "let" not in words and not words & set(COMPARES):
        first, last = tokens[at + 1].at, tokens[end - 1].end
        yield Change(first, last, f"!({text[first:last]})")


def changes_at(text, tokens, at):
    """The changes of a token, or of what begins with it."""
    token, word = tokens[at], tokens[at].text
    if token.kind in ("number", "char", "text"):
        yield from (Change(token.at, token.end, other) for other in other_literals(token))
    elif word in ("true", "false"):
        yield Change(token.at, token.end, "false" if word == "true" else "true")
    elif word == "Some" and tokens[at + 1].text == "(":
        yield Change(token.at, tokens[closing(tokens, at + 1)].end, "None")
    elif word == "match":
        yield from turned_arms(text, tokens, at)
    elif word == "if" and tokens[at + 1].text != "let":
        yield from turned_test(text, tokens, at)
    elif word in SWAPS and token.kind == "mark" and (word == "..=" or is_spaced(tokens, at)):
        yield Change(token.at, token.end, SWAPS[word])
    elif word == "!" and token.end == tokens[at + 1].at and tokens[at - 1].kind != "name":
        yield Change(token.at, token.end, "")


class File:
    """A file of the crate: its functions and constants, each with the changes of it."""

    def __init__(self, path, source):
        self.path = path
        self.text = stripped(path.read_text(encoding="utf-8"))
        self.tokens = solid(tokens_of(self.text))
        self.module = "::".join(part for part in path.relative_to(source).with_suffix("").parts if part not in ("lib", "main"))
        self.is_test = "tests" in self.module.split("::")
        self.bodies, self.constants = [], []
        if not self.is_test:
            self.look()

    def look(self):
        """Finds what can be changed: bodies of functions as spans of tokens, constants as their name, type and span."""
        tokens, at = self.tokens, 0
        while at < len(tokens):
            words = [token.text for token in tokens[at : at + 8]]
            if words[:7] == ["#", "[", "cfg", "(", "test", ")", "]"]:
                at = find(tokens, at + 7, "{;")
                at = closing(tokens, at) if tokens[at].text == "{" else at
            elif words[0] == "fn" and tokens[at + 1].kind == "name":
                opens = find(tokens, at, "{;")
                if tokens[opens].text == "{":
                    self.bodies.append((opens, closing(tokens, opens)))
                    opens = self.bodies[-1][1]
                at = opens
            elif words[0] == "const" and words[1] != "_" and words[2] == ":" and self.begins_line(at):
                self.constants.append((at, find(tokens, at, ";")))
                at = self.constants[-1][1]
            at += 1

    def begins_line(self, at):
        """Whether the item of a token stands in no other one."""
        start = self.text.rfind("\n", 0, self.tokens[at].at) + 1
        return not self.text[start].isspace()

    def changes(self, span):
        """The changes of a span of tokens."""
        for at in range(span[0] + 1, span[1]):
            yield from changes_at(self.text, self.tokens, at)

    def line(self, at):
        return self.text.count("\n", 0, at) + 1


class Turned:
    """The crate as plain Rust with its changes, by number from 1."""

    def __init__(self, crate, only):
        source = TOP / "crates" / crate / "src"
        self.source = source
        self.files = [File(path, source) for path in sorted(source.rglob("*.rt"))]
        self.changes, self.numbers = {}, {}
        for file in self.files:
            for span in file.bodies + file.constants if only in str(file.path) else []:
                for change in file.changes(span):
                    self.changes[len(self.changes) + 1] = (file, change)
                    self.numbers.setdefault((file.path, span), []).append(len(self.changes))
        self.homes = {}
        for file in self.files:
            for at, _ in file.constants:
                self.homes.setdefault(file.tokens[at + 1].text, []).append(file.module)

    def told(self, number):
        """A change as a reader wants it."""
        file, change = self.changes[number]
        before, after = file.text[change.at : change.end], change.text
        start = file.text.rfind("\n", 0, change.at) + 1
        code = file.text[start : file.text.find("\n", change.at)].strip()
        shorter = [re.sub(r"\s+", " ", side)[:70] for side in (before, after)]
        return f"{file.path.relative_to(TOP)}:{file.line(change.at)}: {shorter[0]} -> {shorter[1]}    in: {code}"

    def with_calls(self, file, at, end, change=None):
        """A span of the text with a change, and with a call in place of each constant."""
        out, last = [], at
        for place, token in enumerate(file.tokens):
            inside = at <= token.at and token.end <= end and (change is None or not change.at <= token.at < change.end)
            if inside and token.text in self.homes and self.is_value(file.tokens, place):
                homes = self.homes[token.text]
                home = file.module if file.module in homes else homes[0]
                out.append((token.at, token.end, "::".join(part for part in ("crate", home, token.text) if part) + "_()"))
        if change is not None:
            out.append(change)
        told = []
        for start, stop, instead in sorted(out):
            told += [file.text[last:start], instead]
            last = stop
        return "".join(told) + file.text[last:end]

    @staticmethod
    def is_value(tokens, place):
        """Whether a constant's name stands for a value here, and not in a type, a path or a pattern."""
        return tokens[place - 1].text not in ("::", ".", "<", ";") and tokens[place + 1].text not in (">", "=>", "::", "..=")

    def write(self, file, target, dropped):
        """Writes a file with its changes, and answers which lines belong to which."""
        out, owners, last = [], [], 0
        line = 1

        def put(piece, owner=None):
            nonlocal line
            out.append(piece)
            if owner is not None:
                owners.append((line, line + piece.count("\n"), owner))
            line += piece.count("\n")

        for span in sorted(file.bodies + file.constants):
            numbers = [number for number in self.numbers.get((file.path, span), []) if number not in dropped]
            at, end = file.tokens[span[0]].at, file.tokens[span[1]].end
            if file.tokens[span[0]].text == "const":
                put(file.text[last:end])
                colon, equals = span[0] + 2, find(file.tokens, span[0], "=")
                kind = file.text[file.tokens[colon].end : file.tokens[equals].at].strip().replace("&", "&'static ")
                name = file.tokens[span[0] + 1].text
                put(f" pub fn {name}_() -> {kind} {{ match ::kit::turned() {{")
                for number in numbers:
                    change = self.changes[number][1]
                    value = file.text[file.tokens[equals].end : change.at] + change.text + file.text[change.end : end]
                    put(f"\n{number} => {{ const TURNED: {kind} = {value} TURNED }}", number)
                put(f"\n_ => {name} }} }}")
            elif not numbers:
                put(file.text[last:at] + self.with_calls(file, at, end))
            else:
                put(file.text[last:at] + "{ match ::kit::turned() {")
                for number in numbers:
                    put(f"\n{number} => " + self.with_calls(file, at, end, self.changes[number][1]), number)
                put("\n_ => " + self.with_calls(file, at, end) + " } }")
            last = end
        put(file.text[last:])
        target.write_text(plain("".join(out)), encoding="utf-8")
        return owners
