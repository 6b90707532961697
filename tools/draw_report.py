#!/usr/bin/env python3
"""Draws a report of bounds as an SVG picture; it needs matplotlib.

    draw_report.py REPORT PICTURE

Above, how far the bounds of each parameter are from one another, by station or, of parameters without one, by type; below, what the
estimates leave of each row. Both are drawn in powers of ten, and a zero stands on the lowest line.
"""

import sys
from fractions import Fraction

import matplotlib

matplotlib.use("svg")
import matplotlib.pyplot as plt  # noqa: E402

COLORS = ("#1b6ca8", "#c8553d", "#4b8f5c", "#8a6fb0", "#b08d2f", "#666666")
MARKS = "osD^vP"
# the least power of ten that is given to a zero
LOWEST = -30


class Row:
    """A line of the report."""

    def __init__(self, line):
        self.kind, code, self.unit = line[7:13].strip(), line[14:18].strip(), line[40:44].strip()
        lower, upper, residual = line[44:].split()
        self.width = Fraction(upper) - Fraction(lower)
        self.residual = Fraction(residual)
        self.station = self.kind if code.strip("-") == "" else code


def rows_of(text):
    head, certificate, *lines, end = text.splitlines()
    assert head == "SNXCOMB BOUNDS 1" and end == "END"
    return certificate, [Row(line) for line in lines]


def draw(axes, rows, value, title):
    """One mark for each row: stations in order, then what has none."""
    kinds = sorted({row.kind for row in rows})
    beside = {it: sorted({row.kind for row in rows if row.station == it}) for it in {row.station for row in rows}}
    stations = sorted({row.station for row in rows}, key=lambda it: (it in kinds, it))
    shown = [float(value(row)) for row in rows]
    least = min((it for it in shown if it > 0), default=10.0**LOWEST)
    floor = least / 10
    for k, kind in enumerate(kinds):
        mine = [(row.station, max(it, floor)) for row, it in zip(rows, shown) if row.kind == kind]
        places = [stations.index(it) + (beside[it].index(kind) - (len(beside[it]) - 1) / 2) * 0.5 / len(beside[it]) for it, _ in mine]
        heights = [height for _, height in mine]
        axes.plot(places, heights, MARKS[k % len(MARKS)], color=COLORS[k % len(COLORS)], markersize=4, label=kind)
    axes.set_yscale("log")
    axes.set_title(title, fontsize=9, loc="left")
    axes.set_xticks(range(len(stations)), stations, fontsize=8, rotation=90 if len(stations) > 12 else 0)
    axes.set_xlim(-0.6, len(stations) - 0.4)
    axes.tick_params(axis="y", labelsize=8)
    axes.minorticks_off()
    axes.grid(axis="y", linewidth=0.4, color="#cccccc")
    axes.set_axisbelow(True)
    for side in ("top", "right"):
        axes.spines[side].set_visible(False)
    if any(it == 0 for it in shown):
        axes.axhline(floor, linewidth=0.6, color="#999999", linestyle=":")
        axes.text(1, floor, " zero", transform=axes.get_yaxis_transform(), va="center", fontsize=7, color="#666666")


def main():
    with open(sys.argv[1], encoding="ascii") as file:
        certificate, rows = rows_of(file.read())
    # the same report gives the same bytes
    plt.rcParams.update({"svg.fonttype": "none", "svg.hashsalt": "snxcomb", "font.family": "sans-serif"})
    figure, (above, below) = plt.subplots(2, 1, figsize=(7.2, 5.6), constrained_layout=True)
    units = ", ".join(sorted({row.unit for row in rows if row.unit}))
    draw(above, rows, lambda row: row.width, f"Width of the bounds, each in its unit ({units})" if units else "Width of the bounds")
    draw(below, rows, lambda row: row.residual, "Bound of the residual at the estimates, in the unit of the right side")
    figure.suptitle(certificate, fontsize=9, x=0.01, ha="left", color="#666666")
    handles, labels = above.get_legend_handles_labels()
    figure.legend(handles, labels, loc="upper right", ncol=len(labels), fontsize=8, frameon=False)
    figure.savefig(sys.argv[2], format="svg", metadata={"Date": None, "Creator": "snxcomb"})


if __name__ == "__main__":
    sys.exit(main())
