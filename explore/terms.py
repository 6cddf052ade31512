"""What a picture shows of a table: columns, their ratios, and the points of its lines."""

import re
from collections.abc import Iterable
from dataclasses import dataclass

from explore.faults import Refused
from explore.results import Row, Table, options_in

# The value of a column, or, behind @, that of the row with other values of some options: cycles@cores=1.
COLUMN = re.compile(r"([\w-]+)((?:@[\w-]+=[^@/]+)*)")

Value = float | str


@dataclass(frozen=True)
class Column:
    """A column, of the row itself or of the one in which these options are other ones."""

    name: str
    others: dict[str, str]

    def __str__(self) -> str:
        return " at ".join([self.name, *(f"{name} = {value}" for name, value in self.others.items())])


@dataclass(frozen=True)
class Term:
    """A column, or a ratio of two."""

    over: Column
    under: Column | None

    def columns(self) -> list[Column]:
        return [self.over, *([self.under] if self.under else [])]


def read_term(text: str, table: Table) -> Term:
    """The term that a text spells, of columns that the table has."""
    parts = text.split("/")
    if len(parts) > 2:
        raise Refused(f"{text}: a column is wanted, or a ratio of two")
    columns = [_read_column(part.strip(), table) for part in parts]
    return Term(columns[0], columns[1] if len(columns) == 2 else None)


def _read_column(text: str, table: Table) -> Column:
    found = COLUMN.fullmatch(text)
    if not found:
        raise Refused(f"{text}: a column is wanted, and perhaps @OPTION=VALUE behind it")
    others = dict(it.split("=", 1) for it in found[2].split("@")[1:])
    named(found[1], table.columns(), "column")
    for name in others:
        named(name, table.options, "option")
    return Column(found[1], others)


def named(name: str, names: list[str], kind: str) -> str:
    """The name, where it is one of these."""
    if name not in names:
        raise Refused(f"{name}: no {kind} of the table; these are {', '.join(names)}")
    return name


class Values:
    """Looks terms up in the rows of a table."""

    def __init__(self, table: Table, rows: list[Row]) -> None:
        self.table = table
        self.rows = {frozenset(options_in(row, table.options).items()): row for row in rows}

    def of(self, term: Term, row: Row) -> float:
        over, *under = [self._number(column, row) for column in term.columns()]
        if not under:
            return over
        if under[0] == 0:
            raise Refused(f"{term.under} is 0 in the point {self._told(row)}")
        return over / under[0]

    def _number(self, column: Column, row: Row) -> float:
        value = self._row(column, row).get(column.name, "")
        try:
            return float(value)
        except ValueError as fault:
            raise Refused(f"{column.name} is {value or 'missing'}, and no number, in the point {self._told(row)}") from fault

    def _row(self, column: Column, row: Row) -> Row:
        if not column.others:
            return row
        options = {**options_in(row, self.table.options), **column.others}
        found = self.rows.get(frozenset(options.items()))
        if found is None:
            raise Refused(f"{column}: the table has no such row for the point {self._told(row)}")
        return found

    def _told(self, row: Row) -> str:
        return ", ".join(f"{name} = {value}" for name, value in options_in(row, self.table.options).items())


def is_whole(row: Row) -> bool:
    """Whether every core of the run exited, so that its numbers are those of a whole run."""
    ends = [value for column, value in row.items() if re.fullmatch(r"core\d+_end", column)]
    return bool(ends) and all(end == "exit" for end in ends)


@dataclass(frozen=True)
class Line:
    """The points of a line in the order of their x, and its label."""

    label: str
    points: list[tuple[Value, float]]


def lines_of(table: Table, rows: list[Row], x: str, y: Term, lines: str | None) -> list[Line]:
    """A line for each value of an option or column, or one for all rows."""
    values, found = Values(table, table.rows), dict[str, dict[str, float]]()
    for row in rows:
        label, place = _shown(row, lines) if lines else "", _shown(row, x)
        points = found.setdefault(label, {})
        if place in points:
            raise Refused(f"two points have {x} = {place}{f' and {lines} = {label}' if lines else ''}: {_apart(table, rows, {x, lines})}")
        points[place] = values.of(y, row)
    is_numeric = all(_is_number(place) for points in found.values() for place in points)
    return [
        Line(f"{lines} = {label}", [(float(place) if is_numeric else place, found[label][place]) for place in sorted(found[label], key=_order)])
        for label in sorted(found, key=_order)
    ]


def _shown(row: Row, column: str) -> str:
    """The value in a column; an option that isn't given has the program's default."""
    return row.get(column, "default")


def _apart(table: Table, rows: list[Row], shown: Iterable[str | None]) -> str:
    """The options in which points differ that a picture shows at one place."""
    apart = [name for name in table.options if name not in {*shown} and len({row.get(name) for row in rows}) > 1]
    return f"choose by --where one value of {', '.join(apart)}" if apart else "they differ in no option that isn't shown"


def _is_number(text: str) -> bool:
    try:
        float(text)
    except ValueError:
        return False
    return True


def _order(text: str) -> tuple[bool, float | str]:
    """Numbers come before texts."""
    if _is_number(text):
        return False, float(text)
    return True, text
