"""Draws what `sfplay` wrote as a picture, in SVG.

    ./sfplay --probes NET < LINES | python3 tools/picture.py > run.svg

Each part of the values has a row, and so has each probe. A truth is a line that is high or low, an event an arrow with its payload, and
everything else a box for as long as it stays the same. Where the run returned to a save, and the time went back, a new band begins.
"""

import argparse
import html
import sys

from samples import samples

WIDTH, LEFT, RIGHT, ROW = 960, 160, 24, 34
# How wide a character is, about.
CHARACTER = 7
STYLE = """text{font:12px sans-serif}
rect{fill:#eef3fb;stroke:#4a6a9a}
path{fill:none;stroke:#24508a}
.event{stroke:#b03000}
.time{stroke:#888}"""


def bands(all_samples):
    """The samples in stretches in which the time goes on."""
    band = []
    for time, parts in all_samples:
        if band and time <= band[-1][0]:
            yield band
            band = []
        band.append((time, parts))
    if band:
        yield band


def end_of(band):
    """Until when the last sample of a band is drawn: as long as the shortest step."""
    times = [time for time, _ in band]
    return times[-1] + min((later - time for time, later in zip(times, times[1:])), default=1)


def stretches(band, name):
    """From when until when a part has which value, and the parts of the sample at which that begins."""
    ends = [time for time, _ in band[1:]] + [end_of(band)]
    begun = None
    for (time, parts), end in zip(band, ends):
        value = parts.get(name)
        if begun and begun[2] == value and not (name.endswith(".occurs") and value == "true"):
            begun[1] = end
            continue
        if begun and begun[2] is not None:
            yield begun
        begun = [time, end, value, parts]
    if begun[2] is not None:
        yield begun


def label(x, y, room, text):
    """A text that is cut where it has too little room, and is whole where one points at it."""
    most = max(int(room / CHARACTER), 0)
    shown = text if len(text) <= most else text[: most - 1] + "…" if most > 1 else ""
    return f'<text x="{x:.1f}" y="{y}">{html.escape(shown)}<title>{html.escape(text)}</title></text>'


def event(x, y, payload):
    arrow = f'<path class="event" d="M{x:.1f} {y + 24}V{y + 4}l-4 6m4 -6l4 6"/>'
    return arrow if payload == "()" else arrow + label(x + 7, y + 16, 12 * CHARACTER, payload)


def row(band, name, y, place):
    """The row of a part in a band, where `place` says where a time is."""
    yield label(8, y + 18, LEFT - 16, name.removesuffix(".occurs"))
    level = None
    for begin, end, value, parts in stretches(band, name):
        left, right = place(begin), place(end)
        if name.endswith(".occurs"):
            if value == "true":
                yield event(left, y, parts[name.removesuffix("occurs") + "payload"])
        elif value in ("true", "false"):
            height = y + (4 if value == "true" else 24)
            yield f'<path d="M{left:.1f} {height if level is None else level}V{height}H{right:.1f}"/>'
            level = height
        else:
            yield f'<rect x="{left:.1f}" y="{y + 4}" width="{max(right - left, 1):.1f}" height="20"/>'
            yield label(left + 4, y + 18, right - left - 6, value)


def drawn(all_bands):
    """The whole picture."""
    names = dict.fromkeys(name for band in all_bands for _, parts in band for name in parts if not name.endswith(".payload"))
    last = max(map(end_of, all_bands))
    shapes, y = [], 12

    def place(time):
        return LEFT + (WIDTH - LEFT - RIGHT) * time / last

    for band in all_bands:
        for name in names:
            shapes += row(band, name, y, place)
            y += ROW
        first, end = band[0][0], band[-1][0]
        shapes.append(f'<path class="time" d="M{place(first):.1f} {y}H{place(end_of(band)):.1f}"/>')
        shapes.append(f'<text x="{place(first):.1f}" y="{y + 14}">{first} to {end} ms</text>')
        y += ROW
    size = f'width="{WIDTH}" height="{y}" viewBox="0 0 {WIDTH} {y}"'
    return "\n".join([f'<svg xmlns="http://www.w3.org/2000/svg" {size}>', f"<style>{STYLE}</style>", *shapes, "</svg>"])


def main():
    argparse.ArgumentParser(description=__doc__, formatter_class=argparse.RawDescriptionHelpFormatter).parse_args()
    all_bands = list(bands(samples(sys.stdin)))
    if not all_bands:
        sys.exit("picture: no line of a sample (`> TIME VALUE`) came in")
    print(drawn(all_bands))


if __name__ == "__main__":
    main()
