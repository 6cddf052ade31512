"""Draws a table with matplotlib."""

import io
from dataclasses import dataclass
from pathlib import Path
from typing import Any

from explore.faults import Refused, needed
from explore.terms import Line, Term, Value

# What numbers count, where their name doesn't say it.
UNITS = {
    "base": "address",
    "memory": "bytes",
    "memory-delay": "cycles",
    "snoop": "cycles",
    "transfer": "cycles",
    "occupancy": "cycles",
    "slack": "cycles",
    "quantum": "cycles",
    "interval": "cycles",
    "limit": "cycles",
    "ways": "lines of a set",
    "waits": "cycles",
    "retired": "instructions",
}
FORMS = ("svg", "png")
INCHES = (6.4, 4.0)
MOST_MARKS = 12


@dataclass(frozen=True)
class Axes:
    """What stands at a picture's axes, and which of them are logarithmic."""

    title: str
    x: str
    y: Term
    lines: str | None
    log_x: bool
    log_y: bool


def form_of(path: Path) -> str:
    """The form of a picture's file, by its name."""
    form = path.suffix.removeprefix(".").lower()
    if form not in FORMS:
        raise Refused(f"{path}: a name is wanted that ends in .svg or .png")
    return form


def draw(axes: Axes, lines: list[Line], form: str) -> bytes:
    """The bytes of a picture."""
    matplotlib = needed("matplotlib", "python3-matplotlib", "plot")
    figures = needed("matplotlib.figure", "python3-matplotlib", "plot")
    # Texts stay texts, and the same table gives the same bytes.
    matplotlib.rcParams.update({"svg.fonttype": "none", "svg.hashsalt": "slacksim", "font.sans-serif": ["DejaVu Sans"]})
    figure = figures.Figure(figsize=INCHES, layout="constrained")
    _fill(figure.add_subplot(), axes, lines)
    picture = io.BytesIO()
    figure.savefig(picture, format=form, metadata={"Date": None} if form == "svg" else {"Software": None})
    return picture.getvalue()


def _fill(plot: Any, axes: Axes, lines: list[Line]) -> None:
    for line, marker in zip(lines, "os^Dv*Px<>" * len(lines)):
        plot.plot(*zip(*line.points), marker=marker, markersize=4, label=line.label)
    plot.set_title(axes.title)
    plot.set_xlabel(label_of(axes.x))
    plot.set_ylabel(_label_of_term(axes.y))
    if axes.log_x:
        plot.set_xscale("log", base=2)
    if axes.log_y:
        plot.set_yscale("log")
    else:
        plot.set_ylim(bottom=0)
    _mark_points(plot, {place for line in lines for place, _ in line.points})
    plot.grid(alpha=0.3)
    if axes.lines:
        plot.legend(loc="upper left", bbox_to_anchor=(1.01, 1))


def _mark_points(plot: Any, places: set[Value]) -> None:
    """Puts marks at the points themselves, where these are few numbers."""
    numbers = sorted(it for it in places if isinstance(it, float))
    if 0 < len(numbers) <= MOST_MARKS:
        plot.set_xticks(numbers, [f"{it:g}" for it in numbers])
        plot.set_xticks([], minor=True)


def label_of(name: str) -> str:
    """The name of a column with its unit."""
    return f"{name} ({UNITS[name]})" if name in UNITS else name


def _label_of_term(term: Term) -> str:
    if not term.under:
        return label_of(str(term.over))
    return " / ".join(f"({column})" if column.others else str(column) for column in term.columns())
