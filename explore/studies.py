"""Reads study files: what is run, and the values of its options."""

import re
import tomllib
from dataclasses import dataclass
from pathlib import Path
from typing import Any

from explore.faults import Refused
from explore.statements import Place, lines_of

# What a study can be of: an image, an assembler text, or the program's own generator.
SOURCES = ("image", "text", "gen")
KEYS = (*SOURCES, "options", "points")
NEWLINE = b"\n"


@dataclass(frozen=True)
class Source:
    """What a study runs: its kind, one of SOURCES, the file that it names, and the line where it does."""

    kind: str
    file: str
    line: int

    @property
    def name(self) -> str:
        return Path(self.file).name if self.file else self.kind


@dataclass(frozen=True)
class Option:
    """The values of an option, as command words, and the line at which it stands."""

    values: tuple[str, ...]
    line: int


@dataclass(frozen=True)
class Study:
    """A study file: all combinations of the values of a group are points."""

    path: Path
    data: bytes
    source: Source
    groups: tuple[dict[str, Option], ...]

    def fault(self, line: int, what: str) -> str:
        return f"{self.path}:{line}: {what}"


def read_study(path: Path) -> Study:
    """The study of a file, or a refusal with the line."""
    try:
        data = path.read_bytes()
        text = data.decode()
        table = tomllib.loads(text)
    except OSError as fault:
        raise Refused(f"{path}: {fault.strerror}") from fault
    except UnicodeDecodeError as fault:
        raise Refused(f"{path}:{data.count(NEWLINE, 0, fault.start) + 1}: this is no UTF-8") from fault
    except tomllib.TOMLDecodeError as fault:
        raise Refused(f"{path}:{_line_in(str(fault), text)}: {fault}") from fault
    return _Reader(path, lines_of(text)).study(data, table)


def _line_in(fault: str, text: str) -> int:
    """The line that a message of tomllib names; it names none at the end of the text."""
    found = re.search(r"at line (\d+)", fault)
    return int(found[1]) if found else text.rstrip("\n").count("\n") + 1


@dataclass(frozen=True)
class _Reader:
    path: Path
    lines: dict[Place, int]

    def refuse(self, place: Place, what: str) -> Refused:
        return Refused(f"{self.path}:{self.lines.get(place, 1)}: {what}")

    def study(self, data: bytes, table: dict[str, Any]) -> Study:
        for key in table:
            if key not in KEYS:
                raise self.refuse((key,), f"{key}: no key of a study; these are {', '.join(KEYS)}")
        source = self.source(table)
        common = self.options(("options",), table.get("options", {}))
        points = table.get("points", [{}])
        if not isinstance(points, list) or not points:
            raise self.refuse(("points",), "points: a list of tables is wanted, one [[points]] for each")
        groups = tuple({**common, **self.options(("points", number), group)} for number, group in enumerate(points))
        return Study(self.path, data, source, groups)

    def source(self, table: dict[str, Any]) -> Source:
        given = [kind for kind in SOURCES if kind in table]
        if len(given) != 1:
            raise self.refuse((given[-1],) if given else (), f"one of {', '.join(SOURCES)} is wanted, and {' and '.join(given) or 'none'} is given")
        kind, value = given[0], table[given[0]]
        if kind == "gen" and value is not True:
            raise self.refuse((kind,), "gen: true is wanted; its seeds are values of the option seed")
        if kind != "gen" and not (isinstance(value, str) and value):
            raise self.refuse((kind,), f"{kind}: the path of a file is wanted")
        return Source(kind, "" if kind == "gen" else value, self.lines[kind,])

    def options(self, place: Place, table: Any) -> dict[str, Option]:
        if not isinstance(table, dict):
            raise self.refuse(place, f"{place[0]}: a table of options is wanted")
        return {name: self.option((*place, name), value) for name, value in table.items()}

    def option(self, place: Place, value: Any) -> Option:
        values = value if isinstance(value, list) else [value]
        if not values:
            raise self.refuse(place, f"{place[-1]}: the list is empty, so that there would be no point")
        for it in values:
            # What a value may be is the program's to say; a list or a table in a list is no word at all.
            if isinstance(it, (list, dict)) or "\0" in str(it):
                raise self.refuse(place, f"{place[-1]}: a number or a text is wanted, or a list of them")
        return Option(tuple(map(str, values)), self.lines[place])
