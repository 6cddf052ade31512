"""Writes timeline.svg: the 22 cycles of examples/stores.s on two cores, as MACHINE.md tells them."""

import pathlib

LEFT, WIDTH, CYCLES = 76, 48, 22
CORE_0, BUS, CORE_1, HEIGHT = 64, 210, 372, 46
FILL = {"runs": "#cfe3f7", "asks": "#f9d9a8", "waits": "#ececec"}
ASK, POST, SETTLED = "#b36b00", "#1d6fb8", "#a33333"

# What each core does in each cycle: a kind, and the word in the cell.
CELLS_0 = (
    [("runs", "lui"), ("asks", "sw")]
    + [("waits", "waits")] * 9
    + [("runs", "sw"), ("runs", "addi"), ("runs", "addi"), ("runs", "ecall"), ("asks", "flush")]
)
CELLS_1 = (
    [("runs", "lui"), ("asks", "sw")]
    + [("waits", "waits")] * 3
    + [("asks", "sw"), ("waits", "waits")] * 4
    + [("asks", "sw")]
    + [("waits", "waits")] * 4
    + [("runs", "sw"), ("runs", "addi"), ("runs", "addi"), ("runs", "ecall")]
)

# Each ask of the bus: the core, the cycle of its stamp, that of its grant, its name, to which core a post goes, which
# one, and when it is due.
ASKS = [
    (0, 1, 1, "ReadOwn", 0, "Reply", 11),
    (1, 1, 3, "ReadOwn", 1, "Retry", 5),
    (1, 5, 5, "ReadOwn", 1, "Retry", 7),
    (1, 7, 7, "ReadOwn", 1, "Retry", 9),
    (1, 9, 9, "ReadOwn", 1, "Retry", 11),
    (1, 11, 11, "ReadOwn", 1, "Retry", 13),
    (1, 13, 13, "ReadOwn", 0, "SnoopOwn", 15),
    (0, 15, 15, "Flush", 1, "Reply", 18),
]


def left(cycle):
    return LEFT + WIDTH * cycle


def text(x, y, words, size=12, anchor="middle", more=""):
    return f'<text x="{x}" y="{y}" font-size="{size}" text-anchor="{anchor}"{more}>{words}</text>'


def box(x, y, width, height, fill):
    return f'<rect x="{x}" y="{y}" width="{width}" height="{height}" fill="{fill}" stroke="#777"/>'


def row(y, name, cells):
    lines = [text(LEFT - 10, y + 28, name, 13, "end")]
    for cycle, (kind, word) in enumerate(cells):
        lines += [box(left(cycle), y, WIDTH, HEIGHT, FILL[kind]), text(left(cycle) + WIDTH / 2, y + 28, word)]
    return lines


def arrow(x1, y1, x2, y2, colour):
    return f'<line x1="{x1}" y1="{y1}" x2="{x2}" y2="{y2}" stroke="{colour}" stroke-width="1.5" marker-end="url(#c{colour[1:]})"/>'


def edge(core):
    """Where an arrow meets a core's row, and where it meets the bus's on that side."""
    return (CORE_0 + HEIGHT, BUS) if core == 0 else (CORE_1, BUS + HEIGHT)


def ask(core, stamp, grant, name, to, post, due):
    core_y, bus_y = edge(core)
    to_y, from_y = edge(to)
    middle = left(grant) + WIDTH
    return [
        box(left(grant), BUS, 2 * WIDTH, HEIGHT, "#e3f1da"),
        text(middle, BUS + 19, f"{name}, core {core}", 10),
        text(middle, BUS + 35, f"{post}, due {due}", 10),
        arrow(left(stamp) + 34, core_y, left(grant) + (34 if stamp == grant else 12), bus_y, ASK),
        arrow(left(grant) + WIDTH + 14, from_y, left(due) + 14, to_y, POST),
    ]


def head(colour):
    return (
        f'<marker id="c{colour[1:]}" viewBox="0 0 8 8" refX="7" refY="4" markerWidth="7" markerHeight="7" orient="auto">'
        f'<path d="M0 0 L8 4 L0 8 z" fill="{colour}"/></marker>'
    )


def picture():
    width, height = left(CYCLES) + 20, 486
    lines = [
        f'<svg xmlns="http://www.w3.org/2000/svg" viewBox="0 0 {width} {height}" font-family="sans-serif">',
        "<title>The sample's 22 cycles: both cores and the bus</title>",
        f"<defs>{head(ASK)}{head(POST)}</defs>",
        f'<rect width="{width}" height="{height}" fill="white"/>',
        text(LEFT - 10, 44, "cycle", 13, "end"),
    ]
    lines += [text(left(cycle) + WIDTH / 2, 44, cycle, 13) for cycle in range(CYCLES)]
    lines += row(CORE_0, "core 0", CELLS_0) + row(CORE_1, "core 1", CELLS_1)
    lines += [text(LEFT - 10, BUS + 28, "bus 0", 13, "end")]
    lines += [line for one in ASKS for line in ask(*one)]
    lines += [
        f'<line x1="{left(12)}" y1="{BUS - 34}" x2="{left(12)}" y2="{BUS + HEIGHT + 34}" stroke="{SETTLED}" stroke-dasharray="5 4"/>',
        text(left(12) - 6, BUS - 12, "the line is settled from 12 on", 11, "end", f' fill="{SETTLED}"'),
        box(left(16), CORE_0, 6 * WIDTH, HEIGHT, "white"),
        text(left(19), CORE_0 + 28, "has ended, and goes on applying posts"),
        text(left(17) + 8, BUS + 28, "free from 17 on", 11, "start"),
    ]
    key = [("#cfe3f7", "an instruction completes"), ("#f9d9a8", "an ask is sent"), ("#ececec", "waits for the line")]
    for place, (fill, words) in enumerate(key):
        x = LEFT + 230 * place
        lines += [box(x, 448, 18, 18, fill), text(x + 26, 462, words, 12, "start")]
    for place, (colour, words) in enumerate([(ASK, "ask"), (POST, "post, applied when it is due")]):
        x = LEFT + 690 + 120 * place
        lines += [arrow(x, 457, x + 30, 457, colour), text(x + 38, 462, words, 12, "start")]
    return "\n".join([*lines, "</svg>"]) + "\n"


if __name__ == "__main__":
    pathlib.Path(__file__).with_suffix(".svg").write_text(picture(), encoding="utf-8")
