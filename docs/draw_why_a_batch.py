#!/usr/bin/env python3
"""Draws why_a_batch.svg, from the row of 1,000 files in the table of trips in bench/README.md: on the left one call an
exchange, on the right one batch. A line is a message, and time goes down. Of many exchanges only the first ones are drawn."""

import re
from pathlib import Path

HERE = Path(__file__).resolve().parent
FILES = 1_000
WIDTH, HEIGHT, PANEL = 760, 400, 380
CLIENT, SERVER = 70, 310
TOP, BOTTOM, TRIP = 88, 320, 26
COLOURS = {"sent": "#b4532a", "back": "#1f6f54"}


def trips():
    """The exchanges, the bytes sent and the bytes back of the row: of one batch, and of one call an exchange."""
    table = (HERE.parent / "bench/README.md").read_text().split("## Trips")[1]
    for row in re.findall(r"^\|((?: *[\d,]+ *\|)+)$", table, re.MULTILINE):
        files, *numbers = (int(word.replace(",", "")) for word in row.split("|")[:-1])
        if files == FILES:
            return numbers[:3], numbers[3:]
    raise LookupError(f"bench/README.md has no row of {FILES} files")


def text(x, y, words, **more):
    styles = "".join(f' {name.replace("_", "-")}="{value}"' for name, value in more.items())
    return f'<text x="{x}" y="{y}"{styles}>{words}</text>'


def message(way, start, end):
    (x, y), (to_x, to_y) = start, end
    return f'<line x1="{x}" y1="{y}" x2="{to_x}" y2="{to_y}" stroke="{COLOURS[way]}" stroke-width="2" marker-end="url(#{way})"/>'


def exchange(left, y):
    """A request and its reply, from a height on."""
    client, server, half = left + CLIENT, left + SERVER, TRIP // 2
    yield message("sent", (client, y), (server - 3, y + half - 2))
    yield message("back", (server, y + half), (client + 3, y + TRIP - 2))


def side(left, title, numbers):
    """One side of the picture."""
    count, sent, back = numbers
    middle = left + PANEL // 2
    yield text(middle, 30, title, text_anchor="middle", font_weight="bold", font_size=16)
    for x, name in ((CLIENT, "client"), (SERVER, "server")):
        yield text(left + x, 58, name, text_anchor="middle")
        yield f'<line x1="{left + x}" y1="66" x2="{left + x}" y2="{BOTTOM}" stroke="#999"/>'
    drawn = min(count, (BOTTOM - TOP) // TRIP)
    for number in range(drawn):
        yield from exchange(left, TOP + number * TRIP)
    if count > drawn:
        yield text(middle, BOTTOM + 16, f"and {count - drawn:,} more", text_anchor="middle", font_style="italic")
    trip = "round trip" if count == 1 else "round trips"
    yield text(middle, BOTTOM + 42, f"{count:,} {trip}", text_anchor="middle", font_weight="bold")
    yield text(middle, BOTTOM + 64, f"{sent:,} bytes sent, {back:,} bytes back", text_anchor="middle")


def head(way):
    """The head of an arrow."""
    return (
        f'<marker id="{way}" viewBox="0 0 8 8" refX="7" refY="4" markerWidth="5" markerHeight="5" orient="auto">'
        f'<path d="M0,0 L8,4 L0,8 z" fill="{COLOURS[way]}"/></marker>'
    )


def picture(whole, single):
    yield f'<svg xmlns="http://www.w3.org/2000/svg" viewBox="0 0 {WIDTH} {HEIGHT}" font-family="sans-serif" font-size="14" fill="#222">'
    yield f"<defs>{''.join(head(way) for way in COLOURS)}</defs>"
    yield f'<rect width="{WIDTH}" height="{HEIGHT}" fill="#fff"/>'
    yield from side(0, f"One call an exchange, {FILES:,} files", single)
    yield from side(PANEL, f"One batch, {FILES:,} files", whole)
    yield "</svg>"


if __name__ == "__main__":
    (HERE / "why_a_batch.svg").write_text("\n".join(picture(*trips())) + "\n")
