"""Where things stand in a TOML text, which tomllib doesn't tell."""

import io
import tomllib
from collections.abc import Iterator
from typing import Any

# The names and numbers that lead to a value: ("options", "ways"), or ("points", 0, "ways").
Place = tuple[str | int, ...]


def lines_of(text: str) -> dict[Place, int]:
    """The line at which each table and each key of a TOML text begins, from 1. The text is one that tomllib reads."""
    found: dict[Place, int] = {}
    tables: dict[Place, int] = {}
    table: Place = ()
    for line, first, value in _statements(text):
        if first.startswith("[["):
            name = next(_places(value))[:-1]
            tables[name] = tables.get(name, -1) + 1
            table = (*name, tables[name])
            found[table] = line
        elif first.startswith("["):
            table = next(_places(value))
            found[table] = line
        else:
            for place in _places(value):
                found.setdefault(table + place, line)
    return found


def _statements(text: str) -> Iterator[tuple[int, str, Any]]:
    """Each statement, alone, with its line and its first words: a statement ends where it can be read by itself."""
    statement, begins = "", 1
    for number, line in enumerate(io.StringIO(text), 1):
        if not statement:
            begins = number
        statement += line
        try:
            value = tomllib.loads(statement)
        except tomllib.TOMLDecodeError:
            continue
        if value:
            yield begins, statement.lstrip(), value
        statement = ""


def _places(value: Any) -> Iterator[Place]:
    """The place of each key in a value, and of each table of a list, the innermost of a path first."""
    items = value.items() if isinstance(value, dict) else enumerate(value)
    for key, inner in items:
        if isinstance(inner, dict) or isinstance(inner, list) and any(isinstance(it, dict) for it in inner):
            yield from ((key, *place) for place in _places(inner))
        yield (key,)
