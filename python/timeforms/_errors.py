"""Why a text has no answer."""
from __future__ import annotations

from typing import Callable, Optional

__all__ = ["CAUSES", "ConversionError"]

CAUSES = ("NoSuchForm", "NotUtf8", "Syntax", "NoSuchMoment", "Range", "Kind", "Precision", "Ambiguous")
"""The names of the causes, in the order in which they are judged."""

_LONGEST = 40


def _shown(text: object) -> str:
    """The text between quotes, of which a long one is cut."""
    if isinstance(text, (str, bytes)) and len(text) > _LONGEST:
        return repr(text[:_LONGEST]) + "..."
    return repr(text)


class ConversionError(ValueError):
    """A text has no answer. `cause` is the name of the first of these that holds:

    - `NoSuchForm`: a name is no form's, or no interval form's where one is asked for
    - `NotUtf8`: the text has half a surrogate pair, or is of bytes that are no UTF-8
    - `Syntax`: the text isn't in the first form
    - `NoSuchMoment`: its fields name no day or no time of day, or an offset of a day or more
    - `Range`: a number, or the value, leaves the bounds of its form
    - `Kind`: the second form has no values of this kind
    - `Precision`: the value is no whole number of the second form's least unit
    - `Ambiguous`: the second form's text would be read as another value

    Those of `schedule` are subclasses, which have further causes.

    `from_`, `to` and `text` are what was asked, and None where the call has no such argument. In the message a long text is cut.

    >>> print(ConversionError("Syntax", "Postgres", "PgIso", "1 dya"))
    '1 dya' is no Postgres: Syntax
    """

    cause: str
    from_: Optional[str]
    to: Optional[str]
    text: Optional[str | bytes]

    def __init__(self, cause: str, from_: Optional[str] = None, to: Optional[str] = None, text: Optional[str | bytes] = None) -> None:
        super().__init__(cause, from_, to, text)
        self.cause, self.from_, self.to, self.text = cause, from_, to, text

    def __str__(self) -> str:
        said = _SAID.get(self.cause)
        return f"{said(self)}: {self.cause}" if said else self.cause


def _no_form(error: ConversionError) -> str:
    names = " or ".join(repr(str(name)) for name in (error.from_, error.to) if name is not None)
    return f"there is no such form for this call, {names}" if names else "there is no such form"


_SAID: dict[str, Callable[[ConversionError], str]] = {
    "NoSuchForm": _no_form,
    "NotUtf8": lambda error: f"{_shown(error.text)} is no UTF-8",
    "Syntax": lambda error: f"{_shown(error.text)} is no {error.from_}",
    "NoSuchMoment": lambda error: f"{_shown(error.text)} names no day or no time of day",
    "Range": lambda error: f"{_shown(error.text)} leaves the bounds of {error.from_ or 'its form'}"
    + (f" or {error.to}" if error.to not in (None, error.from_) else ""),
    "Kind": lambda error: f"{_shown(error.text)} is of a kind that {error.to} doesn't have",
    "Precision": lambda error: f"{_shown(error.text)} is finer than {error.to}",
    "Ambiguous": lambda error: f"{_shown(error.text)} in {error.to} would be read as another value",
    "Line": lambda error: f"{_shown(error.text)} is no start, tab and length in UTF-8",
    "Empty": lambda error: f"{_shown(error.text)} lasts no time",
}
