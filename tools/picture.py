#!/usr/bin/env python3
"""A picture (SVG) of the fields of a job, from the job and the field program's own output.

    field < orchard.job > orchard.out
    python3 tools/picture.py orchard.job orchard.out > orchard.svg
    python3 tools/picture.py examples/square.txt examples/square.out examples/bow_tie.txt examples/bow_tie.out > two.svg

A job may also be given as the text of examples/make_job.py (an ending .txt). Each ring gets a panel: an accepted ring with its area, its nozzles as the program
answered them, a crossed ring with its crossing edges in red and their numbers. A ring's lobes are shaded and signed by the way they are walked: + clockwise on
the map, - anticlockwise; the doubled area is the sum of the lobes' areas with these signs. What is answered is read from the output and never worked out here,
except the lobes, which no output has. Assumes Python 3.9 or newer and its standard library.
"""

import sys
from fractions import Fraction
from pathlib import Path
from xml.sax.saxutils import escape

import jobfile
from jobfile import BEGIN, CORNER, CLOSE, NOZZLE, POINT, Unreadable

WIDTH, HEIGHT, MARGIN, TITLE, LEGEND = 360, 300, 42, 34, 26
CLOCKWISE, ANTICLOCKWISE, BORDER_LINE, RED = "#cfe8cf", "#f6dfb8", "#3b5d3b", "#c81e1e"
NOZZLE_LOOK = {"open": ("#1b7f3b", "#1b7f3b"), "border": ("#ffffff", "#d08a00"), "shut": ("#ffffff", "#707070")}


class Panel:
    """One ring of a job, with what the program said of it: the line of its acceptance, or its refusal; and its nozzles with their answers."""

    def __init__(self, code):
        self.code, self.corners, self.nozzles = code, [], []
        self.said, self.edges = "the file ends before the ring is closed", None


# ---- from a job and its output to panels


class Output:
    """The lines of the field program, taken one after the other."""

    def __init__(self, text):
        self.lines = [line.split() for line in text.splitlines()]
        self.next = 0

    def refused_at(self, offset):
        """Whether the next line is the refusal of the record at an offset."""
        line = self.lines[self.next] if self.next < len(self.lines) else []
        return line[:1] == ["refused"] and line[3:4] == [str(offset)]

    def take(self, word):
        """The rest of the next line, which begins with `word`."""
        if self.next >= len(self.lines) or self.lines[self.next][:1] != [word]:
            raise Unreadable("line %d of the output is not of this job: `%s` is expected" % (self.next + 1, word))
        self.next += 1
        return self.lines[self.next - 1][1:]

    def expect(self, right):
        if not right:
            raise Unreadable("line %d of the output is not of this job" % self.next)


def refuse(panel, words):
    """`refused R at OFFSET`, and for 9 its edges."""
    panel.said = "refused " + words[0]
    if words[3:4] == ["edges"]:
        panel.edges = (int(words[4]), int(words[5]))
        panel.said += ": edges %d and %d" % panel.edges


def close_ring(panel, output):
    words = output.take("field")
    output.expect(words[:4] == [str(panel.code), "corners", str(len(panel.corners)), "area2"] and len(words) == 5)
    area = int(words[4])
    panel.said = "%s m², %s" % (metres(Fraction(abs(area), 2 * 10**6)), "clockwise" if area > 0 else "anticlockwise")


def query(panel, point, output):
    words = output.take("nozzle")
    output.expect(words[:2] == [str(point[0]), str(point[1])] and words[2] in NOZZLE_LOOK)
    panel.nozzles.append((point, words[2]))


def panels(job, text):
    """The panels of a job, as far as the program went before a refusal."""
    output, found = Output(text), []
    for offset, kind, numbers in jobfile.records(job):
        if output.refused_at(offset):
            if kind in (CORNER, CLOSE) and found:
                refuse(found[-1], output.take("refused"))
            break
        if kind == BEGIN:
            found.append(Panel(numbers[0]))
        elif kind == POINT:
            output.take("point")
        elif not found:
            raise Unreadable("at %d: the output is not of this job: the record has no field" % offset)
        elif kind == CORNER:
            found[-1].corners.append(numbers)
        elif kind == CLOSE:
            close_ring(found[-1], output)
        elif kind == NOZZLE:
            query(found[-1], numbers, output)
    return [panel for panel in found if panel.corners]


# ---- the lobes of a ring


def crossing_point(a, b, c, d):
    """The point inside both lines a-b and c-d where they cross, or None."""
    u, v, w = (b[0] - a[0], b[1] - a[1]), (d[0] - c[0], d[1] - c[1]), (c[0] - a[0], c[1] - a[1])
    size = u[0] * v[1] - u[1] * v[0]
    if size == 0:
        return None
    s, t = Fraction(w[0] * v[1] - w[1] * v[0], size), Fraction(w[0] * u[1] - w[1] * u[0], size)
    return (a[0] + s * u[0], a[1] + s * u[1]) if 0 < s < 1 and 0 < t < 1 else None


def lobes(ring):
    """The ring taken apart at its crossings, each part walked as the ring walks it."""
    count = len(ring)
    for i in range(count):
        for j in range(i + 2, count):
            at = crossing_point(ring[i], ring[i + 1], ring[j], ring[(j + 1) % count])
            if at:
                return lobes([at] + ring[i + 1 : j + 1]) + lobes([at] + ring[j + 1 :] + ring[: i + 1])
    return [ring]


def area2(ring):
    """Positive is clockwise on the map: X is north and Y east."""
    return sum(a[0] * b[1] - b[0] * a[1] for a, b in zip(ring, ring[1:] + ring[:1]))


def middle(ring):
    """The centre of gravity of a lobe, for its sign."""
    doubled = area2(ring)
    if doubled == 0:
        return ring[0]
    parts = [(a[0] * b[1] - b[0] * a[1], a[0] + b[0], a[1] + b[1]) for a, b in zip(ring, ring[1:] + ring[:1])]
    return tuple(Fraction(sum(part[0] * part[axis] for part in parts)) / (3 * doubled) for axis in (1, 2))


# ---- from panels to SVG


def metres(value):
    return ("%.3f" % float(value)).rstrip("0").rstrip(".")


class View:
    """Where the millimetres of a panel stand in its picture: north is up, and both axes have one scale."""

    def __init__(self, panel):
        points = panel.corners + [point for point, _ in panel.nozzles]
        self.north, self.west = max(X for X, _ in points), min(Y for _, Y in points)
        tall, wide = self.north - min(X for X, _ in points), max(Y for _, Y in points) - self.west
        self.scale = min(Fraction(WIDTH - 2 * MARGIN, max(wide, 1)), Fraction(HEIGHT - 2 * MARGIN, max(tall, 1)))
        self.left = (WIDTH - wide * self.scale) / 2
        self.top = TITLE + (HEIGHT - tall * self.scale) / 2

    def at(self, point):
        return float(self.left + (point[1] - self.west) * self.scale), float(self.top + (self.north - point[0]) * self.scale)


def text(place, words, size=11, colour="#222222", anchor="middle"):
    return '<text x="%.1f" y="%.1f" font-size="%d" fill="%s" text-anchor="%s">%s</text>' % (*place, size, colour, anchor, escape(words))


def line(a, b, colour, width):
    return '<line x1="%.1f" y1="%.1f" x2="%.1f" y2="%.1f" stroke="%s" stroke-width="%s"/>' % (*a, *b, colour, width)


def draw_lobes(panel, view):
    drawn = []
    for lobe in lobes(panel.corners):
        sign = area2(lobe)
        points = " ".join("%.1f,%.1f" % view.at(corner) for corner in lobe)
        drawn.append('<polygon points="%s" fill="%s"/>' % (points, CLOCKWISE if sign > 0 else ANTICLOCKWISE))
        if sign:
            x, y = view.at(middle(lobe))
            drawn.append(text((x, y + 8), "+" if sign > 0 else "−", 24, "#888888"))
    return drawn


def draw_edges(panel, view):
    ring, drawn = panel.corners, []
    for number, (a, b) in enumerate(zip(ring, ring[1:] + ring[:1])):
        crossing = panel.edges is not None and number in panel.edges
        drawn.append(line(view.at(a), view.at(b), RED if crossing else BORDER_LINE, 2.5 if crossing else 1.5))
        if crossing:
            quarter = (a[0] + Fraction(b[0] - a[0], 4), a[1] + Fraction(b[1] - a[1], 4))
            x, y = view.at(quarter)
            drawn.append(text((x + 14, y - 5), "edge %d" % number, 11, RED))
    return drawn


def draw_corners(panel, view):
    middle_x, middle_y = WIDTH / 2, TITLE + HEIGHT / 2
    drawn = []
    for number, corner in enumerate(panel.corners):
        x, y = view.at(corner)
        drawn.append('<circle cx="%.1f" cy="%.1f" r="2" fill="%s"/>' % (x, y, BORDER_LINE))
        if len(panel.corners) <= 40:
            drawn.append(text((x + (10 if x >= middle_x else -10), y + (14 if y >= middle_y else -6)), str(number), 10, "#444444"))
    return drawn


def nozzle_mark(place, answer):
    return '<circle cx="%.1f" cy="%.1f" r="4" fill="%s" stroke="%s" stroke-width="2"/>' % (*place, *NOZZLE_LOOK[answer])


def draw_nozzles(panel, view):
    return [nozzle_mark(view.at(point), answer) for point, answer in panel.nozzles]


def draw_legend(panel):
    answers = [answer for answer in NOZZLE_LOOK if any(said == answer for _, said in panel.nozzles)]
    drawn, x, y = [], MARGIN, TITLE + HEIGHT + LEGEND / 2
    for answer in answers:
        drawn += [nozzle_mark((x, y - 4), answer), text((x + 10, y), answer, 11, anchor="start")]
        x += 70
    return drawn


def draw(panel, left):
    view = View(panel)
    title = "field %d, %d corners: %s" % (panel.code, len(panel.corners), panel.said)
    parts = [text((WIDTH / 2, TITLE - 12), title, 12, RED if panel.said.startswith("refused") else "#222222")]
    parts += draw_lobes(panel, view) + draw_edges(panel, view) + draw_corners(panel, view) + draw_nozzles(panel, view) + draw_legend(panel)
    return ['<g transform="translate(%d,0)">' % left] + parts + ["</g>"]


def picture(found):
    if not found:
        raise Unreadable("the job has no ring to draw")
    size = (WIDTH * len(found), TITLE + HEIGHT + LEGEND)
    head = '<svg xmlns="http://www.w3.org/2000/svg" width="%d" height="%d" viewBox="0 0 %d %d" font-family="sans-serif">' % (*size, *size)
    body = [part for place, panel in enumerate(found) for part in draw(panel, WIDTH * place)]
    return "\n".join([head, '<rect width="100%" height="100%" fill="#ffffff"/>', *body, "</svg>"]) + "\n"


def job_of(name):
    path = Path(name)
    return jobfile.from_text(path.read_text(encoding="utf-8")) if path.suffix == ".txt" else path.read_bytes()


def main(names):
    if not names or len(names) % 2:
        raise Unreadable(__doc__)
    pairs = zip(names[::2], names[1::2])
    return picture([panel for job, output in pairs for panel in panels(job_of(job), Path(output).read_text(encoding="utf-8"))])


if __name__ == "__main__":
    try:
        sys.stdout.write(main(sys.argv[1:]))
    except Unreadable as wrong:
        sys.exit(str(wrong))
