#!/usr/bin/env python3
"""Draws a map of a bike share system from its GBFS v3.0 feeds, as one self-contained HTML page, an SVG picture, or
both.

    map.py SOURCE [--html FILE] [--svg FILE] [--language LANGUAGE]

SOURCE is the URL of the feed gbfs, whose `feeds` are followed, or a folder that holds each feed as NAME.json. A line on
standard output tells how many stations, bicycles and docks were found. What has a name in LANGUAGE, one of the
system's, is named in it. Whatever is no GBFS v3.0 ends it with one line on standard error and status 1. It needs
nothing but Python's standard library, 3.8 or later. Which members of the feeds it relies on is said in gbfs.py.
"""

import argparse
import html
import math
import re
import sys
from pathlib import Path

sys.dont_write_bytecode = True

import gbfs

FONT = "font-family=\"'Segoe UI', 'Helvetica Neue', Helvetica, Arial, sans-serif\""
INK, SOFT, FAINT, PALE = "#1f2933", "#616e7c", "#cbd2d9", "#d3dce5"
BICYCLES, DOCKS, BROKEN, GROUND = "#1d6fb8", "#d6e6f5", "#e8590c", "#f7f9fb"
WIDTH, PANEL, MARGIN = 900, 232, 16
NAMED = 200
COUNTED = ("vehicles_available", "docks_available", "vehicles_disabled", "docks_disabled")


def told(moment):
    """A moment as it is shown."""
    return moment.strftime("%Y-%m-%d %H:%M:%S UTC")


def escaped(text):
    """A text as HTML and SVG write it, with a sign for each character that XML does not have."""
    return html.escape(re.sub("[^\n -\x7e\xa0-\ud7ff\ue000-\ufffd\U00010000-\U0010ffff]", "\ufffd", text))


def spoken(text):
    """The attribute that names the language of a text out of the feeds. All other words are English."""
    language = getattr(text, "language", "")
    return f' lang="{escaped(language)}"' if language else ""


def state_of(station):
    """What a station does not do, in words."""
    if not station["is_installed"]:
        return "not installed"
    return ", ".join(f"not {it}" for it in ("renting", "returning") if not station[f"is_{it}"])


# The picture. Lengths are in pixels.


def number(value):
    """A length with at most one decimal."""
    return f"{value:.1f}".rstrip("0").rstrip(".")


def words(x, y, text, size=11, color=INK, more=""):
    """A text that begins at x and stands on y."""
    more += spoken(text)
    return f'<text x="{number(x)}" y="{number(y)}" font-size="{size}" fill="{color}"{more}>{escaped(text)}</text>'


def length(text, size):
    """How long a text is at most, in the widest of the usual fonts. Letters are narrow, wide, capital, or as most."""
    narrow, wide = sum(it in " ijlrtf.,'\"()-" for it in text), sum(it in "mwMW" for it in text)
    capital = sum(it.isupper() for it in text)
    return size * (0.61 * len(text) - 0.24 * narrow + 0.34 * wide + 0.08 * capital)


def sector(x, y, radius, begin, end, color):
    """A sector of a circle between two shares of its turn, from the top and clockwise."""
    if end - begin >= 0.9999:
        return f'<circle cx="{number(x)}" cy="{number(y)}" r="{number(radius)}" fill="{color}"/>'
    if end - begin <= 0.0001:
        return ""
    points = [(x + radius * math.sin(2 * math.pi * it), y - radius * math.cos(2 * math.pi * it)) for it in (begin, end)]
    (x1, y1), (x2, y2) = [[f"{it:.2f}" for it in point] for point in points]
    large = int(end - begin > 0.5)
    return (
        f'<path d="M{number(x)} {number(y)}L{x1} {y1}A{number(radius)} {number(radius)} 0 {large} 1 {x2} {y2}Z" '
        f'fill="{color}"/>'
    )


def disc(x, y, radius, shares, closed):
    """A circle filled by shares of its turn: bicycles from the top clockwise, then free docks; broken ones before the
    top."""
    bicycles, docks, broken = shares
    parts = [sector(x, y, radius, 0, bicycles, BICYCLES), sector(x, y, radius, bicycles, bicycles + docks, DOCKS)]
    parts.append(sector(x, y, radius, 1 - broken, 1, BROKEN))
    ring = f'stroke="{INK}" stroke-width="1.4" stroke-dasharray="3 2"' if closed else f'stroke="{BICYCLES}"'
    parts.append(
        f'<circle cx="{number(x)}" cy="{number(y)}" r="{number(radius)}" fill="none" pointer-events="all" {ring}/>'
    )
    return "".join(parts)


def shares_of(station):
    """Which shares of a station are bicycles, free docks and broken ones. What it does not tell, such as absent counts,
    is none."""
    bicycles, docks, disabled, broken = (station[f"num_{name}"] for name in COUNTED)
    whole = max(1, station["capacity"], bicycles + docks)
    # A broken dock with a bicycle in it counts as both.
    return bicycles / whole, docks / whole, min(disabled + broken, whole - bicycles - docks) / whole


def drawn_station(station, types, x, y, radius):
    """A station's circle, with what it holds shown where the pointer rests on it."""
    kinds = ", ".join(
        f"{types[kind]['name'] if kind in types else kind} {count}"
        for kind, count in station["counts"].items()
        if count
    )
    told_of = [
        " ".join(station["name"].split()),
        f"{station['num_vehicles_available']} bicycles available" + (f" ({kinds})" if kinds else ""),
        f"{station['num_docks_available']} free docks",
        f"{station['num_vehicles_disabled']} disabled bicycles, {station['num_docks_disabled']} broken docks",
        f"capacity {station['capacity']}",
        *filter(None, [state_of(station), " ".join(station["region"].split())]),
    ]
    title = escaped("\n".join(told_of))
    shape = disc(x, y, radius, shares_of(station), bool(state_of(station)))
    return f'<g class="station" data-station="{escaped(station["station_id"])}"><title>{title}</title>{shape}</g>'


class Picture:
    """Where the stations stand on the map: a flat one, by the middle's latitude."""

    def __init__(self, system, height):
        """Finds the scale at which all stations are on the map, and the size of their circles."""
        self.system, self.height = system, height
        self.width = WIDTH - PANEL - 3 * MARGIN
        lats, lons = ([it[name] for it in system.stations] or [0] for name in ("lat", "lon"))
        self.middle = [(min(it) + max(it)) / 2 for it in (lats, lons)]
        self.narrow = max(0.01, math.cos(math.radians(self.middle[0])))
        spans = max(lats) - min(lats), (max(lons) - min(lons)) * self.narrow
        # Pixels for a degree of latitude. A system of one place is as large as some hundred metres.
        self.scale = min((self.height - 100) / max(spans[0], 0.003), (self.width - 80) / max(spans[1], 0.003))
        most = max([it["capacity"] for it in system.stations] or [1])
        largest = min(16, max(3, 0.2 * math.sqrt(self.width * self.height / max(1, len(system.stations)))))
        self.unit = largest / math.sqrt(max(1, most))

    def radius(self, capacity):
        """The radius of a station's circle, whose area goes by the capacity, on a tenth of a pixel."""
        return round(max(2.5, self.unit * math.sqrt(capacity)), 1)

    def place(self, station):
        """The middle of a station's circle, on a tenth of a pixel."""
        x = MARGIN + self.width / 2 + (station["lon"] - self.middle[1]) * self.narrow * self.scale
        return round(x, 1), round(MARGIN + self.height / 2 - (station["lat"] - self.middle[0]) * self.scale, 1)

    def draw(self):
        """The ground, the regions, the circles, as many names as there is room for, and a scale."""
        box = f'x="{MARGIN}" y="{MARGIN}" width="{self.width}" height="{self.height}"'
        parts = [f'<rect {box} rx="6" fill="{GROUND}" stroke="{FAINT}" stroke-width="0.8"/>']
        placed = sorted(
            ((it, *self.place(it), self.radius(it["capacity"])) for it in self.system.stations), key=lambda it: -it[3]
        )
        taken = [(x - radius, y - radius, x + radius, y + radius) for _, x, y, radius in placed]
        parts += self.regions(taken)
        parts += [drawn_station(it, self.system.types, x, y, radius) for it, x, y, radius in placed]
        return "\n".join([*parts, *self.names(placed, taken), self.ruler()])

    def regions(self, taken):
        """The name of each region, pale and large, as near the middle of its stations as it touches nothing that is
        taken, and in the very middle where there is no such place."""
        places = {}
        for station in self.system.stations:
            if station["region"]:
                places.setdefault(station["region"], []).append(self.place(station))
        around = [(8 * right, 8 * down) for right in range(-15, 16) for down in range(-15, 16)]
        around.sort(key=lambda it: math.hypot(*it))
        more = ' font-weight="600" text-anchor="middle" pointer-events="none"'
        parts = []
        for name, found in sorted(places.items()):
            x, y = (sum(it) / len(it) for it in zip(*found))
            wide = 0.55 * length(name, 18)
            spots = [(x + right, y + down) for right, down in around]
            boxes = [(left - wide, base - 14, left + wide, base + 5) for left, base in spots]
            free = ((*spot, box) for spot, box in zip(spots, boxes) if self.is_free(box, taken))
            x, y, box = next(free, (x, y, None))
            taken += [box] if box else []
            parts.append(words(x, y, name, 18, PALE, more))
        return parts

    def is_free(self, box, taken):
        """Whether a box (left, top, right, bottom) is on the map, above its scale, and touches none that is taken."""
        left, top, right, bottom = box
        ends = MARGIN + 4, MARGIN + 4, MARGIN + self.width - 4, MARGIN + self.height - 22
        inside = ends[0] < left and ends[1] < top and right < ends[2] and bottom < ends[3]
        return inside and not any(left < it[2] and it[0] < right and top < it[3] and it[1] < bottom for it in taken)

    def names(self, placed, taken):
        """Names of the largest stations, each where it touches no circle and no other name."""
        parts = []
        for station, x, y, radius in placed[:NAMED]:
            wide, aside, low = length(station["name"], 9), 0.7 * radius + 3, 0.7 * radius
            spots = [
                (radius + 3, 3, "start"),
                (-radius - 3, 3, "end"),
                (0, radius + 10, "middle"),
                (0, -radius - 4, "middle"),
            ]
            spots += [
                (aside, low + 8, "start"),
                (aside, -low - 1, "start"),
                (-aside, low + 8, "end"),
                (-aside, -low - 1, "end"),
            ]
            for left, base, anchor in ((x + right, y + down, it) for right, down, it in spots):
                begin = left - {"start": 0, "middle": wide / 2, "end": wide}[anchor]
                box = (begin, base - 8, begin + wide, base + 2)
                if self.is_free(box, taken):
                    taken.append(box)
                    parts.append(
                        words(left, base, station["name"], 9, SOFT, f' text-anchor="{anchor}" pointer-events="none"')
                    )
                    break
        return parts

    def ruler(self):
        """A scale of a round length."""
        metre = self.scale / 111_200
        length = next((it for it in (20000, 10000, 5000, 2000, 1000, 500, 200, 100, 50) if it * metre <= 150), 20)
        x, y = MARGIN + 14, MARGIN + self.height - 12
        text = f"{length // 1000} km" if length >= 1000 else f"{length} m"
        line = f'<path d="M{x} {y - 4}v4h{number(length * metre)}v-4" fill="none" stroke="{SOFT}"/>'
        return line + words(x + length * metre + 6, y, text, 9, SOFT)


def panel(system, picture):
    """The words beside the map: name, moment, sums, key, types and prices. Returns them with the height that they
    take."""
    x, y = WIDTH - PANEL - MARGIN, MARGIN + 18
    bicycles, docks, disabled, broken = (sum(it[f"num_{name}"] for it in system.stations) for name in COUNTED)
    parts = [words(x, y, system.name, 20, INK, ' font-weight="600"'), words(x, y + 19, told(system.moment), 11, SOFT)]
    y += 50
    rows = [
        ((1, 0, 0), False, f"{bicycles} bicycles available"),
        ((0, 1, 0), False, f"{docks} free docks"),
        ((0, 0, 1), False, f"{disabled} disabled bicycles, {broken} broken docks"),
        (
            (0, 1, 0),
            True,
            f"{sum(bool(state_of(it)) for it in system.stations)} of {len(system.stations)} stations closed",
        ),
    ]
    for shares, closed, text in rows:
        parts += [disc(x + 7, y - 4, 7, shares, closed), words(x + 22, y, text, 11)]
        y += 22
    sizes, y = key_of_sizes(system, picture, x, y)
    kinds, y = types_of(system, x, y)
    prices, y = prices_of(system, x, y)
    return [*parts, *sizes, *kinds, *prices], y


def key_of_sizes(system, picture, x, y):
    """Circles of three capacities."""
    found = sorted(it["capacity"] for it in system.stations) or [1]
    sizes = sorted({found[0], found[len(found) // 2], found[-1]})
    parts, left, tall = [], x, 2 * picture.radius(sizes[-1])
    for size in sizes:
        radius = picture.radius(size)
        parts.append(
            f'<circle cx="{number(left + radius)}" cy="{number(y + tall / 2)}" r="{number(radius)}" fill="none" '
            f'stroke="{SOFT}"/>'
        )
        parts.append(words(left + 2 * radius + 4, y + tall / 2 + 4, str(size), 11, SOFT))
        left += 2 * radius + 10 + 7 * len(str(size)) + 8
    return [*parts, words(left, y + tall / 2 + 4, "docks", 11, SOFT)], y + tall + 26


def types_of(system, x, y):
    """The available bicycles of each type."""
    counts = {}
    for station in system.stations:
        for kind, count in station["counts"].items():
            counts[kind] = counts.get(kind, 0) + count
    if not counts:
        return [], y
    parts = [words(x, y, "Available by type", 12, INK, ' font-weight="600"')]
    for kind, count in list(counts.items())[:8]:
        y += 17
        name = system.types[kind]["name"] if kind in system.types else kind
        parts += [words(x, y, name), words(x + PANEL, y, str(count), 11, INK, ' text-anchor="end"')]
    return parts, y + 32


def prices_of(system, x, y):
    """The plans with their prices, what they charge, and the types that begin with them."""
    if not system.plans:
        return [], y
    parts = [words(x, y, "Prices", 12, INK, ' font-weight="600"')]
    for plan in system.plans[:6]:
        y += 20
        parts += [words(x, y, plan["name"], 11), words(x + PANEL, y, plan["price"], 11, INK, ' text-anchor="end"')]
        for line in [*plan["charges"], *([f"now for: {', '.join(plan['types'])}"] if plan["types"] else [])]:
            y += 13
            parts.append(words(x, y, line, 9, SOFT))
    if len(system.plans) > 6:
        y += 20
        parts.append(words(x, y, f"and {len(system.plans) - 6} more", 11, SOFT))
    return parts, y + 16


def svg_of(system):
    """The whole picture."""
    _, needed = panel(system, Picture(system, 560))
    height = max(560, int(needed))
    picture = Picture(system, height)
    parts, _ = panel(system, picture)
    parts.append(words(WIDTH - PANEL - MARGIN, MARGIN + height - 2, "Drawn from the system's GBFS v3.0 feeds", 9, SOFT))
    size = f'width="{WIDTH}" height="{height + 2 * MARGIN}" viewBox="0 0 {WIDTH} {height + 2 * MARGIN}"'
    title = f"{escaped(system.name)}, {told(system.moment)}"
    head = f'<svg xmlns="http://www.w3.org/2000/svg" {size} role="img" aria-label="{title}" {FONT}>'
    return "\n".join([head, '<rect width="100%" height="100%" fill="#fff"/>', picture.draw(), *parts, "</svg>"]) + "\n"


# The page.


def table(head, rows):
    """A table of HTML; numbers stand at the right, and so do the heads of those columns."""

    def cells(row, tag):
        """A row of the table, in cells of this tag."""
        marks = [' class="number"' if isinstance(it, int) else "" for it in (rows[0] if rows else head)]
        made = [f"<{tag}{mark}{spoken(it)}>{escaped(str(it))}</{tag}>" for mark, it in zip(marks, row)]
        return f"<tr>{''.join(made)}</tr>"

    return "\n".join(["<table>", cells(head, "th"), *(cells(row, "td") for row in rows), "</table>"])


STYLE = """
body { font-family: 'Segoe UI', 'Helvetica Neue', Helvetica, Arial, sans-serif; color: #1f2933; }
body { max-width: 900px; margin: 24px auto; padding: 0 16px; }
svg { max-width: 100%; height: auto; }
h2 { font-size: 17px; margin: 28px 0 8px; }
table { border-collapse: collapse; font-size: 13px; width: 100%; }
th, td { text-align: left; padding: 4px 8px; border-bottom: 1px solid #e4e7eb; vertical-align: bottom; }
th { color: #616e7c; font-weight: 600; }
th.number, td.number { text-align: right; font-variant-numeric: tabular-nums; }
td:last-child, td:nth-child(2) { white-space: nowrap; }
"""


def html_of(system):
    """The page: the picture, the prices and the stations. It loads nothing from elsewhere."""
    plans = [
        (it["name"], it["price"], "; ".join(it["charges"]), it["description"], ", ".join(it["types"]))
        for it in system.plans
    ]
    stations, has_regions = [], any(it["region"] for it in system.stations)
    for it in sorted(system.stations, key=lambda it: it["name"]):
        counts = [it[f"num_{name}"] for name in COUNTED]
        region = [it["region"]] if has_regions else []
        stations.append((it["name"], *region, *counts, it["capacity"], state_of(it), told(it["reported"])))
    head = ("Station", *(["Region"] if has_regions else []), "Bicycles available", "Free docks")
    head += ("Disabled bicycles", "Broken docks", "Capacity", "Closed", "Last reported")
    return "\n".join([
        '<!DOCTYPE html>\n<html lang="en">\n<head>\n<meta charset="utf-8">',
        '<meta name="viewport" content="width=device-width, initial-scale=1">',
        f"<title{spoken(system.name)}>{escaped(system.name)}</title>\n<style>{STYLE}</style>\n</head>\n<body>",
        svg_of(system).rstrip(),
        "<h2>Prices</h2>", table(("Plan", "Price", "Charges", "Description", "Now for"), plans),
        "<h2>Stations</h2>", table(head, stations),
        "</body>\n</html>\n",
    ])


def main():
    """Reads the feeds and writes what is asked for. Returns the status."""
    reader = argparse.ArgumentParser(usage="%(prog)s SOURCE [--html FILE] [--svg FILE] [--language LANGUAGE]")
    reader.add_argument("source")
    reader.add_argument("--html")
    reader.add_argument("--svg")
    reader.add_argument("--language")
    given = reader.parse_args()
    try:
        system = gbfs.System(given.source, given.language)
        for file, text_of in (given.html, html_of), (given.svg, svg_of):
            if file:
                Path(file).write_text(text_of(system), encoding="utf-8")
    except (gbfs.NotGbfs, OSError) as fault:
        print("map.py:", " ".join(str(fault).split()), file=sys.stderr)
        return 1
    bicycles, docks = (
        sum(station[name] for station in system.stations) for name in ("num_vehicles_available", "num_docks_available")
    )
    print(f"{len(system.stations)} stations, {bicycles} bicycles available, {docks} free docks")
    return 0


if __name__ == "__main__":
    sys.exit(main())
