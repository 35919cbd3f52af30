#!/usr/bin/env python3
"""Draws docs/longest.svg: how long the longest put takes, by the size of the chip, before and after.

  tools/longest.sh BEFORE.a | tools/longest.py

Of each size and of each share of its keys the worst way of putting is taken. Both axes are logarithmic.
"""
import math
import pathlib
import sys

ROOT = pathlib.Path(__file__).resolve().parent.parent
WIDTH, HEIGHT, LEFT, RIGHT, TOP, BOTTOM = 760, 420, 90, 170, 70, 60
BLOCKS, SECONDS = (10, 6000), (0.01, 300)
MONO = "ui-monospace,SFMono-Regular,Menlo,Consolas,'DejaVu Sans Mono',monospace"
STYLE = ".g{stroke:#d8d5ca}.a{font-size:12px;fill:#66645c}.k{font-size:12px;fill:#222}.h{font-size:18px;font-weight:bold;fill:#222}"


def seconds(text):
    number, unit = text.split()
    return float(number) / (1000 if unit == "ms" else 1)


def series(lines):
    """{(before or after, full or half): {blocks: seconds}}"""
    found, most = {}, {}
    for line in lines:
        cells = [cell.strip() for cell in line.strip().strip("|").split("|")]
        if not cells[0].isdigit() or len(cells) < 9:
            continue
        blocks, keys = int(cells[0]), int(cells[1])
        most[blocks] = max(most.get(blocks, 0), keys)
        for when, cell in (("before", cells[4]), ("after", cells[8])):
            at = found.setdefault((when, "full" if keys == most[blocks] else "half full"), {})
            at[blocks] = max(at.get(blocks, 0), seconds(cell))
    return found


def along(value, bounds, begin, end):
    low, high = (math.log(bound) for bound in bounds)
    return begin + (math.log(value) - low) / (high - low) * (end - begin)


def x(blocks):
    return along(blocks, BLOCKS, LEFT, WIDTH - RIGHT)


def y(time):
    return along(time, SECONDS, HEIGHT - BOTTOM, TOP)


def words(time):
    return f"{1000 * time:.0f} ms" if time < 1 else f"{time:.1f} s" if time < 10 else f"{time:.0f} s"


def axes(sizes):
    for time in (0.01, 0.1, 1, 10, 100):
        yield f'<path class="g" d="M{LEFT} {y(time):.1f}H{WIDTH - RIGHT}"/>'
        yield f'<text x="{LEFT - 10}" y="{y(time) + 4:.1f}" class="a" text-anchor="end">{time * 1000:.0f} ms</text>' if time < 1 else (
            f'<text x="{LEFT - 10}" y="{y(time) + 4:.1f}" class="a" text-anchor="end">{time:.0f} s</text>')
    for blocks in sizes:
        yield f'<path class="g" d="M{x(blocks):.1f} {TOP}V{HEIGHT - BOTTOM}"/>'
        yield f'<text x="{x(blocks):.1f}" y="{HEIGHT - BOTTOM + 20}" class="a" text-anchor="middle">{blocks:,}</text>'
    yield f'<text x="{(LEFT + WIDTH - RIGHT) / 2:.1f}" y="{HEIGHT - 16}" class="a" text-anchor="middle">blocks</text>'


def curve(name, colour, dash, points, above):
    line = " ".join(f"{x(blocks):.1f},{y(time):.1f}" for blocks, time in points)
    yield f'<polyline fill="none" stroke="{colour}" stroke-width="2"{dash} points="{line}"/>'
    for blocks, time in points:
        yield f'<circle cx="{x(blocks):.1f}" cy="{y(time):.1f}" r="3.5" fill="{colour}"/>'
        if above:
            yield f'<text x="{x(blocks):.1f}" y="{y(time) - 9:.1f}" class="k" fill="{colour}" text-anchor="middle">{words(time)}</text>'
    yield f'<text x="{x(points[-1][0]) + 14:.1f}" y="{y(points[-1][1]) + (4 if above else 18):.1f}" class="k">{name}</text>'


def draw(found):
    sizes = sorted(next(iter(found.values())))
    yield f'<svg xmlns="http://www.w3.org/2000/svg" viewBox="0 0 {WIDTH} {HEIGHT}" width="{WIDTH}" height="{HEIGHT}" role="img" font-family="{MONO}">'
    yield "<title>The longest put by the size of the chip, before and after cleaning by the way</title>"
    yield "<!-- drawn by tools/longest.py from what tools/longest.sh prints -->"
    yield f"<style>{STYLE}</style>"
    yield f'<rect width="{WIDTH}" height="{HEIGHT}" rx="10" fill="#fdfcf8" stroke="#d8d5ca"/>'
    yield '<text x="24" y="36" class="h">The longest put</text>'
    yield from axes(sizes)
    for (when, how), points in sorted(found.items(), reverse=True):
        full = how == "full"
        if when == "after" and not full:
            continue  # the same line
        name = f"{when}, {how}" if when == "before" else when
        yield from curve(name, "#c4510a" if when == "before" else "#1d5fbf", "" if full else ' stroke-dasharray="5 4"', sorted(points.items()), full)
    yield "</svg>"


(ROOT / "docs" / "longest.svg").write_text("\n".join(draw(series(sys.stdin))) + "\n", encoding="utf8")
