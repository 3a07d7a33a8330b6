"""Texts of crates as tokens, and as plain Rust: without ghost code, contracts and tactics."""
import collections
import re

TOKEN = re.compile(
    r"""(?P<space>\s+)|(?P<comment>//[^\n]*|/\*.*?\*/)
    |(?P<text>b?"(?:\\.|[^"\\])*")|(?P<char>b?'(?:\\(?:x..|u\{[^}]*\}|.)|[^\\'\n])')|(?P<life>'[a-z_]\w*)
    |(?P<number>\d[\w]*(?:\.\d\w*)?)|(?P<name>[^\W\d]\w*)|(?P<mark>\.\.=|\.\.\.|<<=|>>=|=>|->|::|&&|\|\||[=!<>+\-*/%^&|]=|<<|>>|\.\.|.)""",
    re.VERBOSE | re.DOTALL,
)
Token = collections.namedtuple("Token", "kind text at end")
OPEN, CLOSE = "([{", ")]}"


def tokens_of(text):
    return [Token(found.lastgroup, found.group(), found.start(), found.end()) for found in TOKEN.finditer(text)]


def solid(tokens):
    """The tokens that say something."""
    return [token for token in tokens if token.kind not in ("space", "comment")]


def closing(tokens, at):
    """The place of the bracket that closes the one at a place."""
    depth = 0
    for place in range(at, len(tokens)):
        if tokens[place].kind == "mark":
            depth += (tokens[place].text in OPEN) - (tokens[place].text in CLOSE)
        if depth == 0:
            return place
    raise ValueError("an open bracket")


def find(tokens, at, marks):
    """The first place from `at` on with one of the marks outside of brackets."""
    depth = 0
    while at < len(tokens):
        token = tokens[at]
        if token.kind == "mark":
            if depth == 0 and token.text in marks:
                return at
            depth += (token.text in OPEN) - (token.text in CLOSE)
            if depth < 0:
                return at
        at += 1
    return at


def ghosts(tokens):
    """The spans of ghost code, contracts, tactics and proofs."""
    at = 0
    while at < len(tokens):
        token, end = tokens[at], None
        words = [other.text for other in tokens[at : at + 4]]
        if token.text == "ghost" and words[2:] == [":", "{"]:
            # a field of a type, or a member of a trait
            end = closing(tokens, at + 3)
            end += tokens[end + 1].text in (",", ";")
        elif token.text == "ghost" and token.kind == "name":
            end = find(tokens, at, ";")
        elif token.text in ("requires", "ensures"):
            opens = at + 1 if words[1] == "{" else at + 2
            end = closing(tokens, opens) if tokens[opens].text == "{" else None
        elif token.text == "impl":
            opens = find(tokens, at, "{")
            if any(one.text == "Model" and other.text == "for" for one, other in zip(tokens[at:opens], tokens[at + 1 : opens])):
                end = closing(tokens, opens)
        elif token.text == "#":
            opens = at + 1 if words[1] == "[" else at + 2
            if tokens[opens + 1].text in ("tactic", "inline"):
                end = closing(tokens, opens)
        elif words[:2] == ["prove", "!"]:
            end = closing(tokens, at + 2)
        if end is None:
            at += 1
        else:
            yield token.at, tokens[end].end, "()" if words[0] == "prove" else ""
            at = end + 1


def shown(name, told):
    """An implementation of Display."""
    return f" impl std::fmt::Display for {name} {{ fn fmt(&self, f: &mut std::fmt::Formatter<'_>) -> std::fmt::Result {{ {told} }} }}"


def with_display(found):
    """An error type with the text that is derived of its attribute."""
    fields = "".join(f"let {name} = &self.{name}; " for name in re.findall(r"\{(\w+)\}", found.group("text")))
    return found.group(0) + shown(found.group("name"), f"{fields}write!(f, {found.group('text')})")


def with_displays(found):
    """An error type with the texts that are derived of the attributes of its variants."""
    arms = re.findall(r'#\[error\(("[^"]*")\)\]\s*(\w+),', found.group("body"))
    told = ", ".join(f"Self::{name} => {text}" for text, name in arms)
    return found.group(0) + (shown(found.group("name"), f"f.write_str(match self {{ {told} }})") if arms else "")


REWRITES = [
    (re.compile(r'#\[error\((?P<text>"[^"]*")\)\]\s*pub struct (?P<name>\w+)(?:;| \{[^}]*\})'), with_display),
    (re.compile(r"pub enum (?P<name>\w+) \{(?P<body>[^}]*)\}"), with_displays),
    (re.compile(r"#\[error\([^\n]*\)\]"), ""),
    (re.compile(r"fn (\w+)\(rt: HostRuntime\)( -> io::Result<\(\)>)? \{"), r"fn \1()\2 { let rt = kit::HostRuntime;"),
    (re.compile(r"<(\w+): Files \+ AllocGlobal \+ Print>\(rt: &\1"), "(rt: &kit::HostRuntime"),
    (re.compile(r"use std::rt::Files;"), ""),
    (re.compile(r"\b([A-Z]\w*): Drop \+ "), r"\1: "),
    (re.compile(r"\b([A-Z]\w*): Drop\b"), r"\1"),
    (re.compile(r"\bfs::read_to_string\("), "kit::read_to_string("),
    (re.compile(r"use std::marker::Model;|use thiserror::Error;"), ""),
    (re.compile(r"std::marker::Brand"), "kit::ledger::Brand"),
    (re.compile(r"std::(alloc|test)\b"), r"kit::\1"),
    (re.compile(r"std::sync::ledger"), "kit::ledger"),
    (re.compile(r"\bassert(_eq|_ne)?!\(\s*rt;"), r"assert\1!("),
    (re.compile(r"fn fmt<\w+: (?:fmt::)?Write>"), "fn fmt"),
    (re.compile(r"Formatter<\w+>"), "Formatter<'_>"),
    (re.compile(r"\b(format|vec)!([\[(])in "), r"kit::\1_in!\2"),
    (re.compile(r"\.(to_string|collect)\((?=[^)\s])"), r".\1_in("),
    (re.compile(r"^(\s*)(pub(?:\([a-z]+\))? )?mod ", re.M), r"\1pub mod "),
    (
        re.compile(r"^([ \t]*)fn (\w+)\(rt: HostRuntime\) -> (Result<\(\), \w+>) \{(.*?)^\1\}$", re.S | re.M),
        r"\1fn \2() { let rt = kit::HostRuntime; let told: \3 = (|| {\4})(); assert!(told.is_ok()) }",
    ),
]


def derives(found):
    kept = [name for name in re.split(r",\s*", found.group(1)) if name not in ("Drop", "Error")]
    return f"#[derive({', '.join(kept)})]" if kept else ""


def stripped(text):
    """The text without ghost code; each line keeps its number, as far as the reader goes."""
    out, last = [], 0
    for at, end, instead in ghosts(solid(tokens_of(text))):
        out += [text[last:at], instead, "\n" * text.count("\n", at, end)]
        last = end
    return "".join(out) + text[last:]


def plain(text):
    """Plain Rust of a text without ghost code."""
    for pattern, instead in REWRITES:
        text = pattern.sub(instead, text)
    text = re.sub(r"#\[derive\(([^)]*)\)\]", derives, text)
    head = "#[allow(unused_imports)] use kit::{CollectIn as _, String, ToStringIn as _, Vec};"
    lines = text.split("\n")
    at = next((n for n, line in enumerate(lines) if line.strip() and not line.startswith(("//!", "#!["))), len(lines) - 1)
    lines[at] = f"{head} {lines[at]}"
    text = "\n".join(lines)
    return re.sub(r"(mod tests \{)", rf"\1 {head}", text)
