"""The command line."""

import argparse
import sys
from pathlib import Path

from explore import checks, cluster, pictures, runs, terms
from explore.faults import Refused
from explore.points import option_names, points_of
from explore.programs import Program
from explore.progress import progress
from explore.results import STUDY, Results, Row, Table, held, is_final, read_tables, write_whole
from explore.studies import read_study

TOP = Path(__file__).resolve().parent.parent
LAUNCHER, PROGRAM = TOP / "slacksim", TOP / "crates/slacksim/out/slacksim"


def main(words: list[str]) -> int:
    """Does what the words say: 0 where it is done, 1 where the host ended points, 2 where it is refused."""
    args = _parser().parse_args(words)
    try:
        status: int = args.command(args)
        return status
    except Refused as refused:
        for line in refused.args:
            say(line)
        return 2
    except KeyboardInterrupt:
        say("interrupted; what had ended is kept")
        return 130


def say(line: str) -> None:
    print(f"explore: {line}", file=sys.stderr)


def _parser() -> argparse.ArgumentParser:
    parser = argparse.ArgumentParser(prog="explore", description="Runs studies of the simulator, and draws them.")
    commands = parser.add_subparsers(required=True, metavar="COMMAND")
    run = commands.add_parser("run", help="run the points of a study that its results don't have")
    run.set_defaults(command=run_study)
    run.add_argument("study", type=Path, help="the study file, in TOML")
    run.add_argument("--out", type=Path, required=True, metavar="FOLDER", help="the folder of the results")
    run.add_argument("--program", type=Path, default=PROGRAM, metavar="PATH", help="the built program (default: %(default)s)")
    run.add_argument("--jobs", type=_count, default=runs.processors(), metavar="N", help="points at once here (default: one for each processor)")
    run.add_argument("--scheduler", metavar="ADDRESS", help="run the points on the Dask cluster of this scheduler, as tcp://host:8786")
    plot = commands.add_parser("plot", help="draw the results of a study, or of several")
    plot.set_defaults(command=plot_results)
    plot.add_argument("results", type=Path, nargs="+", metavar="FOLDER", help="the folder of the results, or several, told apart by the column folder")
    plot.add_argument("--x", required=True, metavar="COLUMN", help="what goes to the right")
    up = "what goes up: a column, or a ratio, as misses/accesses or cycles@cores=1/cycles"
    plot.add_argument("--y", required=True, metavar="TERM", help=up)
    plot.add_argument("--lines", metavar="COLUMN", help="one line for each value of this column")
    where = "only the points with this value; may be given several times"
    plot.add_argument("--where", action="append", default=[], type=_pair, metavar="OPTION=VALUE", help=where)
    plot.add_argument("--log-x", action="store_true", help="a logarithmic axis to the right")
    plot.add_argument("--log-y", action="store_true", help="a logarithmic axis up")
    plot.add_argument("-o", "--output", type=Path, required=True, metavar="FILE", help="the picture, .svg or .png")
    return parser


def _count(text: str) -> int:
    if not text.isdecimal() or int(text) < 1:
        raise argparse.ArgumentTypeError("a number from 1 is wanted")
    return int(text)


def _pair(text: str) -> tuple[str, str]:
    name, equals, value = text.partition("=")
    if not equals:
        raise argparse.ArgumentTypeError("OPTION=VALUE is wanted")
    return name, value


def run_study(args: argparse.Namespace) -> int:
    """Runs a study, and writes its table whenever points have ended."""
    if args.program.resolve() == LAUNCHER:
        raise Refused(f"{args.program} is the launcher, whose bytes don't tell what it runs: give the program that it built")
    study, program = read_study(args.study), Program(args.program)
    points = points_of(study, program)
    checks.check(study, points, program, args.jobs)
    with held(args.out):
        results = Results(args.out, program, points, option_names(points))
        if results.left_out:
            say(f"{results.left_out} rows of the table are of other points, image or program, or unfinished, and aren't kept")
        left = [point for point in points if not results.has(point)]
        write_whole(args.out / STUDY, study.data)
        results.write()
        batches = cluster.run_on_cluster(program, left, args.scheduler) if args.scheduler else runs.run_here(program, left, args.jobs)
        return _follow(results, batches, len(points), len(left))


def _follow(results: Results, batches: runs.Batches, total: int, left: int) -> int:
    """Puts what ends into the table, and says at the end how many points the host ended."""
    bar, unfinished = progress(total, total - left), 0
    try:
        for batch in batches:
            unfinished += sum(not is_final(results.add(point, answer)) for point, answer in batch)
            results.write()
            bar.update(len(batch))
    finally:
        bar.close()
    if unfinished:
        say(f"the host ended {unfinished} of the points, as their causes say; the next run tries them again")
    return 1 if unfinished else 0


def plot_results(args: argparse.Namespace) -> int:
    """Draws a picture of a table."""
    form, table = pictures.form_of(args.output), read_tables(args.results)
    terms.named(args.x, table.columns(), "column")
    if args.lines:
        terms.named(args.lines, table.columns(), "column")
    rows = _chosen(table, args.where)
    y = terms.read_term(args.y, table)
    lines = terms.lines_of(table, rows, args.x, y, args.lines)
    names = dict.fromkeys(read_study(folder / STUDY).source.name for folder in args.results)
    title = ", ".join([*names, *(f"{name} = {value}" for name, value in args.where)])
    axes = pictures.Axes(title, args.x, y, args.lines, args.log_x, args.log_y)
    write_whole(args.output, pictures.draw(axes, lines, form))
    return 0


def _chosen(table: Table, where: list[tuple[str, str]]) -> list[Row]:
    """The rows that a picture shows: those of whole runs."""
    for name, _ in where:
        terms.named(name, table.options, "option")
    rows = [row for row in table.rows if all(row.get(name) == value for name, value in where)]
    whole = [row for row in rows if terms.is_whole(row)]
    if len(whole) < len(rows):
        say(f"{len(rows) - len(whole)} points aren't shown: not every core of theirs exited")
    if not whole:
        raise Refused("there is no point to show")
    return whole
