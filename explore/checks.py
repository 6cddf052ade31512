"""Asks the program about each point of a study before any is run."""

import re
from collections.abc import Iterator
from concurrent.futures import ThreadPoolExecutor

from explore.faults import Refused
from explore.points import Point
from explore.programs import BAD_INPUT, BAD_WORDS, Answer, Program
from explore.studies import Study

# A point is asked about by a run of one cycle.
BRIEF = "1"


def check(study: Study, points: list[Point], program: Program, jobs: int) -> None:
    """Refuses a study in which the program refuses the words or the image of a point, or a limit; each fault is told once."""
    with ThreadPoolExecutor(jobs) as pool:
        found = pool.map(lambda point: _fault(study, point, program), points)
    told: dict[str, str] = {}
    for where, rest in [*filter(None, found), *_limit_faults(study, points, program)]:
        told.setdefault(where, where + rest)
    if told:
        raise Refused(*told.values())


def _fault(study: Study, point: Point, program: Program) -> tuple[str, str] | None:
    words = point.words()
    if "limit" in point.options:
        words[words.index("--limit") + 1] = BRIEF
    else:
        words += ["--limit", BRIEF]
    answer = program.call(words, point.image)
    if answer.status == BAD_WORDS:
        return _at(study, point, _blamed(words, answer.fault), answer)
    if answer.status == BAD_INPUT:
        return _at(study, point, None, answer)
    if answer.status not in (0, 1, 4):
        raise Refused(f"{program.path} ended with status {answer.status} in a run of one cycle: {answer.fault} (of the point {point})")
    return None


def _limit_faults(study: Study, points: list[Point], program: Program) -> Iterator[tuple[str, str]]:
    """The faults of limits: each is tested in a run with no image, which the program refuses once the words are good."""
    limits = {point.options["limit"]: point for point in points if "limit" in point.options}
    for limit, point in limits.items():
        answer = program.call(["run", "--limit", limit], b"")
        if answer.status == BAD_WORDS:
            yield _at(study, point, "limit", answer)


def _blamed(words: list[str], fault: str) -> str | None:
    """The option that a fault of words is about."""
    if found := re.search(r" at (\d+)", fault):
        return words[(int(found[1]) - 1) // 2 * 2 + 1].removeprefix("--")
    found = re.search(r"bound (\w+) given", fault)
    return found[1].replace("_", "-") if found else None


def _at(study: Study, point: Point, option: str | None, answer: Answer) -> tuple[str, str]:
    """What is at fault, with its line, and the rest of what is told: the point in which it was."""
    rest = f" (in the point {point})" if len(point.options) > 1 else ""
    if answer.status == BAD_INPUT:
        return study.fault(study.source.line, f'{study.source.kind} = "{study.source.file}": {answer.fault}'), rest
    if option in point.lines:
        return study.fault(point.lines[option], f"{option} = {point.options[option]}: {answer.fault}"), rest
    # A bound of an option that isn't given: what is at fault is the whole point.
    return study.fault(min(point.lines.values(), default=study.source.line), f"{point}: {answer.fault}"), ""
