"""The forms by name and by number."""
from __future__ import annotations

import enum

from . import _library
from ._errors import ConversionError

__all__ = ["FORMS", "NUMBERS", "Form", "no_such_form"]


class Form(str, enum.Enum):
    """The forms. Each is its name, so `Form.PgIso` and `"PgIso"` are the same to every call.

    >>> Form.PgIso == "PgIso", str(Form.PgIso)
    (True, 'PgIso')
    >>> Form("Postgres")
    <Form.Postgres: 'Postgres'>
    """

    FileTime = "FileTime"
    IsoDateTime = "IsoDateTime"
    IsoDate = "IsoDate"
    IsoDuration = "IsoDuration"
    Toml = "Toml"
    Fancy = "Fancy"
    PgIso = "PgIso"
    Postgres = "Postgres"
    PgVerbose = "PgVerbose"
    PgSql = "PgSql"
    IsoStrict = "IsoStrict"
    Unix = "Unix"
    PgTimestamp = "PgTimestamp"
    HttpDate = "HttpDate"
    MailDate = "MailDate"
    XsdDuration = "XsdDuration"

    __str__ = str.__str__
    __hash__ = str.__hash__

    def __format__(self, spec: str) -> str:
        return str.__format__(self.value, spec)


FORMS: tuple[str, ...] = tuple(_library.form_names())
"""The names of the forms, in the order of their numbers."""

NUMBERS = {name: number for number, name in enumerate(FORMS)}


def no_such_form(*names: object) -> Exception:
    """Why the names aren't all forms' names: one is no text, or it is no form's."""
    for name in names:
        if not isinstance(name, str):
            return TypeError(f"a form is a str, not {type(name).__name__}")
    for name in names:
        if name not in NUMBERS:
            return ConversionError("NoSuchForm", *map(str, names[:2]))
    return ConversionError("NoSuchForm")
