"""The command line of `tools/chart`, and its pictures."""
import argparse
import re
import sys
from collections.abc import Sequence
from datetime import datetime, timezone
from pathlib import Path
from typing import Any

import matplotlib

matplotlib.use("Agg")
matplotlib.rcParams["svg.hashsalt"] = "dubp_node"
import matplotlib.pyplot as plots  # noqa: E402
import numpy  # noqa: E402
from matplotlib.collections import LineCollection  # noqa: E402

from . import spelling  # noqa: E402
from .feeding import NoCommands  # noqa: E402
from .history import Behind, entries, run, steps_of  # noqa: E402
from .people import least_sentry_degree  # noqa: E402
from .places import FAILED, PROGRAM  # noqa: E402
from .program import ProgramEnded  # noqa: E402
from .progress import Progress  # noqa: E402

INCHES, DOTS = (9, 4.5), 110
COLOURS = ("#0b57a4", "#c25700", "#1d6b3a", "#7a3b9a", "#8a4b00", "#4d5966")
MOST_NAMES, ROUNDS = 150, 250
_EPILOG = """\
what is drawn:
  members    the members behind each block
  dividend   the dividend of the head, in units for each member
  money      the mass and the unspent money
  balance    the balance of each --account, a key, a name or a condition
  web        the members and their live certifications behind the last block
  bench      the tables that benches/run writes, from a file with them: seconds, memory, and the time of a block

exit status: 0 the picture is written; 1 it cannot be made, and standard error says why; 2 wrong words, or a package is missing
"""


class NoPicture(ValueError):
    """The picture cannot be made; the message says why."""


def words(given: list[str] | None = None) -> argparse.Namespace:
    """The words of the command line."""
    parser = argparse.ArgumentParser(prog="chart", description=__doc__, epilog=_EPILOG, formatter_class=argparse.RawDescriptionHelpFormatter)
    parser.add_argument("what", choices=("members", "dividend", "money", "balance", "web", "bench"))
    parser.add_argument("source", type=Path, help="a log of tools/serve, a file of commands, or for bench a file with its tables")
    parser.add_argument("out", type=Path, help="the picture, a name that ends with .png or .svg")
    parser.add_argument("--account", action="append", default=[], metavar="WORD", help="whose balance; may be given several times")
    parser.add_argument("--program", type=Path, default=PROGRAM, help="the built dubp_node (default: that of this repository)")
    found = parser.parse_args(given)
    if found.out.suffix not in (".png", ".svg"):
        parser.error(f"{found.out}: a picture's name ends with .png or .svg")
    if (found.what == "balance") != bool(found.account):
        parser.error("balance wants an --account, and nothing else takes one")
    return found


def main(given: list[str] | None = None) -> int:
    """Draws. Gives the exit status."""
    asked = words(given)
    try:
        figure = _bench(asked.source) if asked.what == "bench" else _of_currency(asked)
        figure.savefig(asked.out, dpi=DOTS, metadata={"Date": None} if asked.out.suffix == ".svg" else {"Software": None})
    except (NoPicture, NoCommands, ProgramEnded, OSError) as error:
        print(f"chart: {error}", file=sys.stderr)
        return FAILED
    plots.close(figure)
    return 0


def _of_currency(asked: argparse.Namespace) -> Any:
    given = entries(asked.source)
    conditions = [_condition(each, given) for each in asked.account]
    progress = Progress("chart:")
    history, people = run(asked.program, given, conditions, progress.show)
    progress.end()
    points = history.points
    if not points:
        raise NoPicture(f"{asked.source} has no block that is accepted")
    if asked.what == "web":
        return _web(people, steps_of(given), points[-1])
    return _over_time(asked, points)


def _condition(word: str, given: Sequence[Any]) -> str:
    """The condition that a word means: a key's, that of the key with a name, or itself."""
    if spelling.is_key(word):
        return f"SIG({word})"
    if not spelling.is_uid(word):
        return _checked_condition(word)
    line = re.compile(rb"^([1-9A-HJ-NP-Za-km-z]{43,44}):[^:\n]+:[^:\n]+:" + word.encode() + rb"$", re.MULTILINE)
    for command in given:
        found = line.search(command.frame) if command.word == "BLOCK" and command.frame else None
        if found:
            return f"SIG({found[1].decode()})"
    raise NoPicture(f"nobody is called {word}")


def _checked_condition(word: str) -> str:
    if not spelling.is_condition_like(word):
        raise NoPicture(f"{word} is neither a key, nor a name, nor a condition")
    return word


def _over_time(asked: argparse.Namespace, points: list[Behind]) -> Any:
    titles = {"members": "Members", "dividend": "Dividend, in units for each member", "money": "Money, in units", "balance": "Balance, in units"}
    if asked.what == "balance":
        lines = [(_shown(word), [each.balances[place] for each in points]) for place, word in enumerate(asked.account)]
    else:
        names = {"members": ["members"], "dividend": ["dividend"], "money": ["mass", "unspent"]}[asked.what]
        lines = [(name, [each.value(name) for each in points]) for name in names]
    figure, axes = plots.subplots(figsize=INCHES, constrained_layout=True)
    numbers = [each.number for each in points]
    for place, (name, values) in enumerate(lines):
        axes.step(numbers, values, where="post", label=f"{name}: {values[-1]:,}", color=COLOURS[place % len(COLOURS)],
                  linestyle="--" if name == "unspent" else "-", linewidth=1.8)
    axes.set_title(f"{titles[asked.what]}: {_when(points)}", fontsize=11)
    axes.set_xlabel("block")
    axes.set_ylim(bottom=0)
    axes.yaxis.set_major_formatter(lambda value, _: f"{value:,.0f}")
    axes.xaxis.set_major_formatter(lambda value, _: f"{value:,.0f}")
    axes.grid(color="#dddddd")
    axes.legend(loc="upper left", frameon=False)
    return figure


def _shown(word: str) -> str:
    return word if len(word) <= 24 else f"{word[:21]}..."


def _when(points: list[Behind]) -> str:
    first, last = (datetime.fromtimestamp(point.value("median_time"), timezone.utc) for point in (points[0], points[-1]))
    return f"blocks {points[0].number:,} to {points[-1].number:,}, {first:%Y-%m-%d %H:%M} to {last:%Y-%m-%d %H:%M} UTC"


# the web

def _web(people: dict[str, list[list[str]]], steps: int, last: Behind) -> Any:
    members = [key for key, (_, difficulty, _) in people.items() if difficulty != ["NONE"]]
    if not members:
        raise NoPicture("nobody is a member behind the last block")
    place = {key: at for at, key in enumerate(members)}
    states = {key: people[key][0][0].split(" ") for key in members}
    degree = least_sentry_degree(len(members), steps)
    sentries = [min(int(states[key][6]), int(states[key][7])) >= degree for key in members]
    lines = [line.split(" ") for key in members for line in people[key][2] if line.startswith("CERT ")]
    pairs = sorted({(place[each[1]], place[each[2]]) for each in lines if each[1] in place and each[2] in place})
    at = _laid_out(len(members), pairs)
    figure, axes = plots.subplots(figsize=(9, 9), constrained_layout=True)
    axes.add_collection(LineCollection([(at[a], at[b]) for a, b in pairs], colors="#8d98a5", linewidths=0.6, alpha=0.7, zorder=1))
    axes.scatter(at[:, 0], at[:, 1], s=[90 if each else 40 for each in sentries], zorder=2, edgecolors="#1b1f24",
                 c=["#c25700" if each else "#ffffff" for each in sentries])
    for key in members if len(members) <= MOST_NAMES else []:
        axes.annotate(states[key][2][:20], at[place[key]], xytext=(0, -11), textcoords="offset points", ha="center", va="top", fontsize=7)
    axes.set_title(f"{len(members)} members, of them {sum(sentries)} sentries (filled), {len(pairs)} live certifications, block {last.number:,}")
    axes.set_axis_off()
    axes.autoscale_view()
    return figure


def _laid_out(count: int, pairs: list[tuple[int, int]]) -> Any:
    """Places of points so that those of a pair are near one another and all others apart: springs, from a circle, the same at each run."""
    angles = numpy.linspace(0, 2 * numpy.pi, count, endpoint=False)
    at = numpy.stack([numpy.cos(angles), numpy.sin(angles)], axis=1)
    ends = numpy.array(pairs, dtype=int).reshape(-1, 2)
    wanted = 1.6 / max(1.0, count**0.5)
    for heat in numpy.linspace(0.12, 0.002, ROUNDS if count <= 600 else ROUNDS // 5):
        apart = at[:, None, :] - at[None, :, :]
        far = numpy.maximum(numpy.linalg.norm(apart, axis=2), 1e-3)
        force = (apart * (wanted**2 / far**2)[:, :, None]).sum(axis=1) - 0.3 * at * wanted
        for first, second in ((0, 1), (1, 0)):
            along = at[ends[:, second]] - at[ends[:, first]]
            pull = along * (numpy.linalg.norm(along, axis=1) / wanted / 4)[:, None]
            numpy.add.at(force, ends[:, first], pull)
        size = numpy.maximum(numpy.linalg.norm(force, axis=1), 1e-6)
        at = at + force / size[:, None] * numpy.minimum(size, heat)[:, None]
    return at


# benchmarks

def _bench(source: Path) -> Any:
    tables = _tables(source.read_text(encoding="utf-8"))
    rows: list[list[str]] = next((rows for head, rows in tables if head[:4] == ["Input", "Bytes", "Seconds", "KiB"]), [])
    heights: list[list[str]] = next((rows for head, rows in tables if head[:2] == ["Blocks before", "µs a block"]), [])
    if not rows and not heights:
        raise NoPicture(f"{source} has no table as benches/run writes them")
    tall = max(2.5, 0.27 * len(rows) + 1.2)
    figure, axes = plots.subplots(1, 3, figsize=(14, tall), constrained_layout=True, gridspec_kw={"width_ratios": [3, 3, 2]})
    other = len(rows[0]) > 6 if rows else False
    names = [row[0] for row in rows]
    seconds = [[_number(row[2]) for row in rows]] + ([[_number(row[5]) for row in rows]] if other else [])
    memory = [[_number(row[3]) / 1024 for row in rows]] + ([[_number(row[6]) / 1024 for row in rows]] if other and len(rows[0]) > 7 else [])
    _bars(axes[0], "Seconds of a processor", names, seconds)
    _bars(axes[1], "Memory, MiB", [""] * len(names), memory)
    _bars(axes[2], "A block behind so many others, µs", [row[0] for row in heights], [[_number(row[1]) for row in heights]] + (
        [[_number(row[2]) for row in heights]] if heights and len(heights[0]) > 2 else []), is_small=True)
    axes[0].legend(loc="best", frameon=False)
    return figure


def _tables(text: str) -> list[tuple[list[str], list[list[str]]]]:
    """The tables of a text in Markdown: the cells of the head, and of each row."""
    found: list[tuple[list[str], list[list[str]]]] = []
    before = ""
    for line in text.split("\n"):
        cells = [cell.strip() for cell in line.strip("|").split("|")]
        if re.fullmatch(r"\|(-+\|)+", line):
            found.append(([cell.strip() for cell in before.strip().strip("|").split("|")], []))
        elif line.startswith("|") and before.startswith("|") and found:
            found[-1][1].append(cells)
        before = line
    return found


def _number(text: str) -> float:
    try:
        return float(text.replace(",", ""))
    except ValueError:
        return 0.0


def _bars(axes: Any, title: str, names: list[str], lines: list[list[float]], *, is_small: bool = False) -> None:
    width = 0.8 / max(1, len(lines))
    for place, values in enumerate(lines):
        heights = [at + place * width for at in range(len(values))]
        axes.barh(heights, values, width, label=("the program", "the other")[place % 2], color=COLOURS[place])
        for height, value in zip(heights, values):
            axes.annotate(f"{value:,.3g}" if value < 1000 else f"{value:,.0f}", (value, height), xytext=(3, 0), textcoords="offset points",
                          va="center", fontsize=6)
    axes.set_title(title, fontsize=10)
    axes.set_yticks([at + 0.4 - width / 2 for at in range(len(names))], names, fontsize=8)
    axes.invert_yaxis()
    if not is_small and any(value > 0 for values in lines for value in values):
        axes.set_xscale("log")
    axes.grid(axis="x", color="#dddddd")
    axes.margins(x=0.15)
