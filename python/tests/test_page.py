"""Runs the lines of docs/PYTHON.md as they stand there: what a line answers or prints stands behind it, as a comment."""
import ast
import contextlib
import importlib.util
import io
import os
import re
import tokenize
import unittest

import timeforms  # noqa: F401  so that without the library nothing is skipped

TOP = os.path.join(os.path.dirname(os.path.abspath(__file__)), "..", "..")


def blocks():
    """The blocks of Python on the page, in order."""
    with open(os.path.join(TOP, "docs", "PYTHON.md"), encoding="utf-8") as file:
        return re.findall(r"^```python\n(.*?)^```", file.read(), re.M | re.S)


def statements(block):
    """Each statement of a block, with its source and what stands behind it."""
    lines = block.splitlines(keepends=True)
    for statement in ast.parse(block).body:
        source = "".join(lines[statement.lineno - 1 : statement.end_lineno])
        words = tokenize.generate_tokens(io.StringIO(source).readline)
        yield statement, source, [word.string[2:] for word in words if word.type == tokenize.COMMENT]


def outcome(statement, source, names):
    """What a statement prints, then what it answers, then what it raises."""
    printed, answered = io.StringIO(), []
    try:
        with contextlib.redirect_stdout(printed):
            if isinstance(statement, ast.Expr):
                answer = eval(compile(source.lstrip(), "docs/PYTHON.md", "eval"), names)
                answered = [] if answer is None else [repr(answer)]
            else:
                exec(compile(source, "docs/PYTHON.md", "exec"), names)
                if isinstance(statement, ast.Assign) and "  # " in source:
                    answered = [repr(eval(ast.get_source_segment(source, target), names)) for target in ast.parse(source).body[0].targets]
    except (TypeError, ValueError) as error:
        answered = [f"raises {type(error).__name__}: {error}"]
    return printed.getvalue().splitlines() + answered


class Page(unittest.TestCase):
    def test_lines(self):
        names = {}
        for block in blocks():
            needs = set(re.findall(r"^import (\w+)$", block, re.M))
            with self.subTest(block):
                missing = [name for name in needs if not importlib.util.find_spec(name)]
                if missing:
                    self.skipTest(f"there is no {' and no '.join(missing)}")
                for statement, source, wanted in statements(block):
                    try:
                        self.assertEqual(outcome(statement, source, names), wanted, source)
                    except Exception as error:
                        # a server is none of what the tests need; its variables, as PGHOST, say which one is asked
                        if type(error).__name__ != "OperationalError":
                            raise
                        self.skipTest("there is no server")

    def test_count(self):
        self.assertEqual(len(blocks()), 13)


if __name__ == "__main__":
    unittest.main()
