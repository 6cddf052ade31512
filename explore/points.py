"""The points of a study: each is one run of the program."""

import hashlib
from collections.abc import Iterator
from dataclasses import dataclass
from itertools import product

from explore.faults import Refused
from explore.programs import BAD_WORDS, Program
from explore.studies import Study

# What tells a point from any other: the image, the program and the options.
Key = tuple[str, str, frozenset[tuple[str, str]]]

# Words that stand before those of a point, so that an option of these is refused in a study as one that is given twice.
FORM = ["--format", "json", "--notes", "off"]


@dataclass(frozen=True)
class Point:
    """Options with their values, in the order of the study, the lines where they stand, and the image that is run."""

    options: dict[str, str]
    lines: dict[str, int]
    command: str
    image: bytes
    digest: str

    def words(self) -> list[str]:
        """The command words of the point."""
        pairs = [word for name, value in self.options.items() for word in ("--" + name, value)]
        return [self.command, *FORM, *pairs]

    def key(self, program: Program) -> Key:
        return self.digest, program.digest, frozenset(self.options.items())

    def __str__(self) -> str:
        return ", ".join(f"{name} = {value}" for name, value in self.options.items())


def points_of(study: Study, program: Program) -> list[Point]:
    """The points of a study in their order, each once: of the values of a group the last option's change first."""
    images = _Images(study, program)
    points: dict[frozenset[tuple[str, str]], Point] = {}
    for options, lines in _choices(study):
        image, digest = images.of(options.get("base"), lines.get("base", 1))
        command = "gen" if study.source.kind == "gen" else "run"
        points.setdefault(frozenset(options.items()), Point(options, lines, command, image, digest))
    return list(points.values())


def option_names(points: list[Point]) -> list[str]:
    """The options of some points, in the order in which they first come."""
    return list(dict.fromkeys(name for point in points for name in point.options))


def _choices(study: Study) -> Iterator[tuple[dict[str, str], dict[str, int]]]:
    for group in study.groups:
        lines = {name: option.line for name, option in group.items()}
        for values in product(*(option.values for option in group.values())):
            yield dict(zip(group, values)), lines


class _Images:
    """The bytes that a study's points read, each with its digest; a text is assembled where the point's memory begins."""

    def __init__(self, study: Study, program: Program) -> None:
        self.study, self.program = study, program
        self.data = b"" if study.source.kind == "gen" else self._file()
        self.known: dict[str | None, tuple[bytes, str]] = {}

    def of(self, base: str | None, line: int) -> tuple[bytes, str]:
        kind = self.study.source.kind
        if kind == "gen":
            return b"", "gen"
        place = base if kind == "text" else None
        if place not in self.known:
            image = self._assembled(place, line) if kind == "text" else self.data
            self.known[place] = image, hashlib.sha256(image).hexdigest()
        return self.known[place]

    def _file(self) -> bytes:
        path = self.study.path.parent / self.study.source.file
        try:
            return path.read_bytes()
        except OSError as fault:
            raise self._refuse(fault.strerror) from fault

    def _assembled(self, base: str | None, line: int) -> bytes:
        answer = self.program.call(["asm", *(["--base", base] if base is not None else [])], self.data)
        if answer.status == BAD_WORDS:
            raise Refused(self.study.fault(line, f"base = {base}: {answer.fault}"))
        if answer.status != 0:
            raise self._refuse(answer.fault)
        return answer.out

    def _refuse(self, why: str) -> Refused:
        source = self.study.source
        return Refused(self.study.fault(source.line, f'{source.kind} = "{source.file}": {why}'))
