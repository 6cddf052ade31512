"""The table of a study: a row for each point that ran, kept in results.csv."""

import csv
import fcntl
import io
import json
import os
import re
from collections.abc import Iterable, Iterator
from contextlib import contextmanager
from pathlib import Path
from typing import Any

from explore.faults import Refused
from explore.points import Key, Point
from explore.programs import LIMIT_MET, Answer, Program

TABLE, STUDY = "results.csv", "study.toml"

# A row by the names of its columns; what a row doesn't have isn't in it.
Row = dict[str, str]

# The columns that every table has, behind those of the options and at its end.
FIRST, LAST = ("status", "cause", "cycles"), ("image", "program")
# The option that several tables are told apart by.
FOLDER = "folder"
# The report's lists, with the name of a part of each.
PARTS = {"cores": "core", "buses": "bus"}
# Numbers of a part that are no counts, so that their sum would say nothing.
NO_COUNTS = {"at", "free", "value"}
OF_A_PART = re.compile(r"(core|bus)(\d+)_(\w+)")


def row_of(point: Point, program: Program, answer: Answer) -> Row:
    """The row of a point that ended so."""
    report = _report(answer)
    row = {**point.options, "image": point.digest, "program": program.digest}
    row["status"] = "" if answer.status is None else str(answer.status)
    row["cause"] = _cause(answer, report)
    if report:
        for columns in _columns(report):
            row.update(columns)
    return row


def _report(answer: Answer) -> dict[str, Any] | None:
    """The report of a run: the last line that was written, behind one that gen writes first."""
    try:
        report = json.loads(answer.out.splitlines()[-1])
    except (ValueError, IndexError):
        return None
    return report if isinstance(report, dict) and {"cycles", *PARTS} <= report.keys() else None


def _cause(answer: Answer, report: dict[str, Any] | None) -> str:
    """Why a run isn't one in which every core exited with 0."""
    if answer.fault:
        return answer.fault
    if answer.status is not None and answer.status < 0:
        return f"stopped by signal {-answer.status}"
    if report is None:
        return "no report"
    return "; ".join(
        f"core {number} {core['end']} {core['value']} at {core['at']}"
        for number, core in enumerate(report["cores"])
        if (core["end"], core["value"]) != ("exit", 0)
    )


def _columns(report: dict[str, Any]) -> Iterator[Row]:
    """The columns of a report: its cycles, each member of each core and bus, and the sums of their counts."""
    yield {"cycles": str(report["cycles"])}
    for parts, name in PARTS.items():
        prefix = "" if name == "core" else f"{name}_"
        sums: dict[str, int] = {}
        for number, part in enumerate(report[parts]):
            yield {f"{name}{number}_{member}": str(value) for member, value in part.items()}
            for member, value in part.items():
                if isinstance(value, int) and member not in NO_COUNTS:
                    sums[prefix + member] = sums.get(prefix + member, 0) + value
        yield {column: str(value) for column, value in sums.items()}


def is_final(row: Row) -> bool:
    """Whether a point would end so again: else the host ended it, by a signal, want of memory or a failed write, say."""
    return row["status"] in map(str, range(LIMIT_MET + 1))


def _key(row: Row, options: list[str]) -> Key:
    return row.get("image", ""), row.get("program", ""), frozenset(options_in(row, options).items())


def options_in(row: Row, names: Iterable[str]) -> Row:
    return {name: row[name] for name in names if name in row}


class Table:
    """Rows with the options that they are told apart by, in the order of the options' columns."""

    def __init__(self, options: list[str], rows: list[Row]) -> None:
        self.options, self.rows = options, rows

    def text(self) -> str:
        """The table as it is written: options, how the run ended, sums, and then each core and bus."""
        text = io.StringIO()
        writer = csv.DictWriter(text, self.columns(), restval="", lineterminator="\n")
        writer.writeheader()
        writer.writerows(self.rows)
        return text.getvalue()

    def columns(self) -> list[str]:
        found = {column for row in self.rows for column in row}.difference(self.options, FIRST, LAST)
        parts = {column: match for column in found if (match := OF_A_PART.fullmatch(column))}
        sums = sorted(found - parts.keys(), key=lambda column: (column.startswith("bus_"), column))
        of_parts = sorted(parts, key=lambda column: (parts[column][1] == "bus", int(parts[column][2]), parts[column][3]))
        return [*self.options, *FIRST, *sums, *of_parts, *LAST]


def read_table(folder: Path) -> Table:
    """The table in a folder."""
    path = folder / TABLE
    try:
        with open(path, newline="", encoding="utf-8") as file:
            reader = csv.DictReader(file, strict=True)
            columns = list(reader.fieldnames or [])
            if not {*FIRST, *LAST} <= {*columns}:
                raise Refused(f"{path}: this is no table of a study")
            rows = [{column: value for column, value in row.items() if value} for row in reader]
    except OSError as fault:
        raise Refused(f"{path}: {fault.strerror}") from fault
    except (csv.Error, UnicodeDecodeError) as fault:
        raise Refused(f"{path}: this is no table of a study: {fault}") from fault
    for row in rows:
        row.setdefault("status", "")
    return Table(columns[: columns.index(FIRST[0])], rows)


def read_tables(folders: list[Path]) -> Table:
    """The table in a folder; or those in several as one, in which a row's first option is the name of its folder."""
    if len(folders) == 1:
        return read_table(folders[0])
    names = [folder.resolve().name for folder in folders]
    if len({*names}) < len(names):
        raise Refused(f"two of the folders have one name: {', '.join(names)}")
    tables = [read_table(folder) for folder in folders]
    options = dict.fromkeys(option for table in tables for option in table.options)
    return Table([FOLDER, *options], [{FOLDER: name, **row} for name, table in zip(names, tables) for row in table.rows])


class Results:
    """The folder of a study's results while the study runs."""

    def __init__(self, folder: Path, program: Program, points: list[Point], options: list[str]) -> None:
        self.folder, self.program, self.options = folder, program, options
        self.order = [point.key(program) for point in points]
        table = read_table(folder) if (folder / TABLE).exists() else Table([], [])
        rows = {_key(row, table.options): row for row in table.rows if is_final(row)}
        self.known: dict[Key, Row] = {key: rows[key] for key in self.order if key in rows}
        # How many rows aren't of this study, or of other bytes of its image or program, or of points that the host ended.
        self.left_out = len(table.rows) - len(self.known)

    def has(self, point: Point) -> bool:
        return point.key(self.program) in self.known

    def add(self, point: Point, answer: Answer) -> Row:
        self.known[point.key(self.program)] = row = row_of(point, self.program, answer)
        return row

    def write(self) -> None:
        """Writes the table, its rows in the order of the study."""
        rows = [self.known[key] for key in self.order if key in self.known]
        write_whole(self.folder / TABLE, Table(self.options, rows).text().encode())


def write_whole(path: Path, data: bytes) -> None:
    """Writes a file beside its place and then puts it there, so that what is there is always whole."""
    part = path.with_name(path.name + ".part")
    try:
        with open(part, "wb") as file:
            file.write(data)
            file.flush()
            os.fsync(file.fileno())
        os.replace(part, path)
    except OSError as fault:
        raise Refused(f"{path}: {fault.strerror}") from fault


@contextmanager
def held(folder: Path) -> Iterator[None]:
    """Makes the folder, and keeps it from other runs of studies."""
    try:
        folder.mkdir(parents=True, exist_ok=True)
        place = os.open(folder, os.O_RDONLY | os.O_DIRECTORY)
    except OSError as fault:
        raise Refused(f"{folder}: {fault.strerror}") from fault
    try:
        try:
            fcntl.flock(place, fcntl.LOCK_EX | fcntl.LOCK_NB)
        except BlockingIOError as fault:
            raise Refused(f"{folder}: another study is running into it") from fault
        yield
    finally:
        os.close(place)
