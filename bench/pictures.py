"""Draws curves as SVG text. Its colours can be read on light and on dark ground."""

import math

WIDTH, HEIGHT, LEFT, RIGHT, TOP, BOTTOM = 720, 360, 70, 130, 40, 50  # of the picture and of the margins, in pixels
GREY = "#7d7d7d"
COLOURS = ("#3d85c6", "#d9730d", "#5a9e3f", "#b5569f")


def short(value):
    """A number of an axis: 0.5, 1.5, 20, 1,000."""
    return f"{value:,.12g}"


def steps(most):
    """At most six round numbers from 0 to at least the greatest value."""
    size = 10 ** math.floor(math.log10(most / 5))
    step = next(it * size for it in (1, 2, 5, 10) if it * size * 5 >= most)
    return [step * it for it in range(math.ceil(most / step) + 1)]


def powers(least, most):
    """The powers of ten from at most the least to at least the greatest value."""
    first = math.floor(math.log10(least))
    return [10.0**it for it in range(first, max(math.ceil(math.log10(most)), first + 1) + 1)]


class Axis:
    """Where values stand between two pixels; in powers of ten, or from 0 on."""

    def __init__(self, values, begin, end, in_powers):
        """An axis for these values, from one pixel to another."""
        self.marks = powers(min(values), max(values)) if in_powers else steps(max(values))
        self.begin, self.end, self.scale = begin, end, math.log10 if in_powers else float

    def at(self, value):
        """The pixel of a value."""
        least, most = self.scale(self.marks[0]), self.scale(self.marks[-1])
        return self.begin + (self.scale(value) - least) / (most - least) * (self.end - self.begin)


def text(x, y, words, anchor="middle", colour=GREY, size=12):
    """Words at a place, in pixels."""
    return f'<text x="{x:.1f}" y="{y:.1f}" text-anchor="{anchor}" fill="{colour}" font-size="{size}">{words}</text>'


def line(x1, y1, x2, y2, width):
    """A straight line between two places, in pixels."""
    return f'<line x1="{x1:.1f}" y1="{y1:.1f}" x2="{x2:.1f}" y2="{y2:.1f}" stroke="{GREY}" stroke-width="{width}"/>'


def curve(points, x, y, name, colour):
    """A curve with its points, and its name at its end."""
    at = [(x.at(one), y.at(other)) for one, other in points]
    path = " ".join(f"{one:.1f},{other:.1f}" for one, other in at)
    dots = [f'<circle cx="{one:.1f}" cy="{other:.1f}" r="2.5" fill="{colour}"/>' for one, other in at]
    drawn = f'<polyline points="{path}" fill="none" stroke="{colour}" stroke-width="2"/>'
    return [drawn, *dots, text(at[-1][0] + 8, at[-1][1] + 4, name, "start", colour)]


def chart(title, across, curves, in_powers=False):
    """The picture of curves, given as name and points; values across are drawn by their powers of ten, and so, if
    asked, those upwards."""
    points = [it for _, some in curves for it in some]
    x = Axis([one for one, _ in points], LEFT, WIDTH - RIGHT, True)
    y = Axis([other for _, other in points], HEIGHT - BOTTOM, TOP, in_powers)
    drawn = [text(LEFT, 22, title, "start", size=14), text((LEFT + WIDTH - RIGHT) / 2, HEIGHT - 12, across)]
    for mark in x.marks:
        drawn += [line(x.at(mark), y.begin, x.at(mark), y.begin + 5, 1), text(x.at(mark), y.begin + 20, short(mark))]
    for mark in y.marks:
        drawn += [
            line(LEFT, y.at(mark), WIDTH - RIGHT, y.at(mark), 0.3), text(LEFT - 8, y.at(mark) + 4, short(mark), "end")
        ]
    drawn.append(line(LEFT, y.begin, WIDTH - RIGHT, y.begin, 1))
    for at, (name, some) in enumerate(curves):
        drawn += curve(some, x, y, name, COLOURS[at % len(COLOURS)])
    head = (
        f'<svg xmlns="http://www.w3.org/2000/svg" viewBox="0 0 {WIDTH} {HEIGHT}" width="{WIDTH}" height="{HEIGHT}" '
        'font-family="sans-serif">'
    )
    return "\n".join([head, *drawn, "</svg>", ""])
