"""Part programs like the output of CAM systems, for bench/cut. Each function returns the lines of a program without its end. They are
computed, and so are the same each time."""
import math


def head(feed):
    return ["G21 G90 G17 G94", "G0 Z5", f"F{feed}"]


def raster():
    """A finishing raster over a wavy surface: lines of 0.1 mm along X, rows 0.5 mm apart."""
    def height(x, y):
        return 2.5 * math.sin(x / 5) * math.cos(y / 7) + 0.8 * math.sin((x + y) / 1.7)

    lines = head(3000) + ["G0 X0 Y0", f"G1 Z{height(0, 0):.4f}"]
    for row in range(60):
        y = row * 0.5
        places = [k * 0.1 for k in range(401)]
        for x in places if row % 2 == 0 else reversed(places):
            lines.append(f"X{x:.4f} Y{y:.4f} Z{height(x, y):.4f}")
    return lines


def adaptive():
    """Clearing of a field of 60 x 40 mm by arcs of 4 mm, with short lines between them."""
    lines = head(2400) + ["G0 X0 Y0", "G1 Z-2"]
    radius = 4.0
    for lane in range(5):
        y = lane * 9.0
        lines += ["G0 Z5", f"G0 X{0:.4f} Y{y + radius:.4f}", "G1 Z-2 F600", "F2400"]
        for k in range(75):
            x = k * 0.8
            lines.append(f"G2 X{x:.4f} Y{y - radius:.4f} I0 J{-radius:.4f}")
            lines.append(f"G1 X{x - 1.0:.4f}")
            lines.append(f"G2 X{x - 1.0:.4f} Y{y + radius:.4f} I0 J{radius:.4f}")
            lines.append(f"G1 X{x + 0.8:.4f}")
    return lines


def curve(x, y, rx, ry, begin, end):
    count = max(8, int(abs(end - begin) * max(rx, ry) / 0.12))
    angles = [begin + (end - begin) * k / count for k in range(count + 1)]
    return [(x + rx * math.cos(a), y + ry * math.sin(a)) for a in angles]


def stroke(ax, ay, bx, by):
    count = max(2, int(math.hypot(bx - ax, by - ay) / 0.2))
    return [(ax + (bx - ax) * k / count, ay + (by - ay) * k / count) for k in range(count + 1)]


def joined(*parts):
    """Parts of a stroke, each of which begins where the one before it ends."""
    return parts[0] + [place for part in parts[1:] for place in part[1:]]


LETTERS = {
    "S": [joined(curve(4, 9, 3.5, 3, 0.2, 1.5 * math.pi), curve(4, 3, 3.5, 3, 0.5 * math.pi, -math.pi + 0.2))],
    "C": [curve(5, 6, 4.5, 6, 0.25 * math.pi, 1.75 * math.pi)],
    "O": [curve(5, 6, 4.5, 6, 0, 2 * math.pi)],
    "N": [joined(stroke(0, 0, 0, 12), stroke(0, 12, 8, 0), stroke(8, 0, 8, 12))],
    "A": [joined(stroke(0, 0, 4, 12), stroke(4, 12, 8, 0)), stroke(1.3, 4, 6.7, 4)],
    "R": [stroke(0, 0, 0, 12) + joined(curve(3, 9, 4, 3, 0.5 * math.pi, -0.5 * math.pi), stroke(3, 6, 8, 0))],
    "E": [joined(stroke(7, 12, 0, 12), stroke(0, 12, 0, 0), stroke(0, 0, 7, 0)), stroke(0, 6, 5, 6)],
}


def carved(places, x, y):
    """The places of a stroke with depths: full depth in the middle, up to the surface at both ends, waves between."""
    total = sum(math.dist(a, b) for a, b in zip(places, places[1:]))
    along = 0.0
    for k, place in enumerate(places):
        if k:
            along += math.dist(place, places[k - 1])
        rise = max(0.0, min(1.0, along / 1.2, (total - along) / 1.2))
        yield x + place[0], y + place[1], -1.4 * rise - 0.25 * math.sin(along * 1.1) * rise


def lettering():
    """V-carved letters of 12 mm: lines of 0.05 to 0.2 mm with depths."""
    lines = head(1500)
    for row, word in enumerate(("SCANNER", "OCEANS", "CARSON", "SENECA", "ROSCOE", "ARENAS")):
        for column, letter in enumerate(word):
            for places in LETTERS[letter]:
                first, *rest = carved(places, column * 11.0, row * -16.0)
                lines += ["G0 X{:.4f} Y{:.4f}".format(*first), "G0 Z1", "G1 Z{:.4f} F400".format(first[2]), "F1500"]
                lines += ["G1 X{:.4f} Y{:.4f} Z{:.4f}".format(*place) for place in rest]
                lines.append("G0 Z5")
    return lines


def spiral_pocket():
    """A round pocket of 30 mm radius as one spiral, 1 mm a turn, in chords within 0.005 mm."""
    lines = head(3000) + ["G0 X0 Y0", "G1 Z-3 F300", "F3000"]
    angle = 0.5
    while (radius := angle / (2 * math.pi)) <= 30:
        lines.append(f"G1 X{radius * math.cos(angle):.4f} Y{radius * math.sin(angle):.4f}")
        angle += min(0.5, 2 * math.acos(1 - 0.005 / max(radius, 0.05)))
    end = angle + 2 * math.pi
    while angle < end:
        lines.append(f"G1 X{30 * math.cos(angle):.4f} Y{30 * math.sin(angle):.4f}")
        angle += 2 * math.acos(1 - 0.005 / 30)
    return lines


def drilling():
    """500 holes on a grid of 5 mm."""
    lines = head(300) + ["G99"]
    for k in range(500):
        row, column = divmod(k, 25)
        x = column if row % 2 == 0 else 24 - column
        lines.append(f"X{x * 5} Y{row * 5}" if k else f"G81 X{x * 5} Y{row * 5} Z-4 R1")
    return lines + ["G80"]


def fine_circle():
    """Ten turns of 1 mm radius in chords of 0.02 mm: what a bound for neighbours alone would take too fast."""
    chords = int(100 * math.pi)
    angles = [2 * math.pi * k / chords for k in range(1, 10 * chords + 1)]
    return head(6000) + ["G0 X1 Y0", "G1 Z-1"] + [f"X{math.cos(a):.6f} Y{math.sin(a):.6f}" for a in angles]


def contour():
    """Two rounds of a wavy contour of some 20 mm radius in lines of 0.02 mm, as a scanned outline has them."""
    def place(angle):
        radius = 20 + 2 * math.cos(3 * angle) + 0.5 * math.sin(11 * angle)
        return radius * math.cos(angle), radius * math.sin(angle)

    lines = head(6000) + ["G0 X{:.4f} Y{:.4f}".format(*place(0)), "G1 Z-1 F300", "F6000"]
    angle, last = 0.0, place(0)
    while angle < 4 * math.pi:
        angle += 0.0001
        if math.dist(last, here := place(angle)) >= 0.02:
            lines.append("G1 X{:.4f} Y{:.4f}".format(*here))
            last = here
    return lines


def zigzag():
    """Three hundred lines of 2 mm to and fro, each turning back by 160 degrees."""
    lines = head(4800) + ["G0 X0 Y0", "G1 Z-1 F300", "F4800"]
    for k in range(1, 301):
        lines.append(f"G1 X{k * 0.35:.4f} Y{2.0 * (k % 2):.4f}")
    return lines


def star():
    """A star of sixty rays of 1 to 4 mm length, in and out in lines of 0.1 mm, twenty times, each a little larger."""
    lines = head(6000) + ["G0 X8 Y0", "G1 Z-1 F300", "F6000"]
    for size in range(20):
        for ray in range(60):
            begin = 2 * math.pi * ray / 60
            tip, foot = 9 + size * 0.1 + 3 * (ray % 4) / 4, 8 + size * 0.1
            count = round((tip - foot) / 0.1)
            for k in range(2 * count):
                radius = foot + (tip - foot) * (1 - abs(k / count - 1))
                angle = begin + 2 * math.pi / 60 * k / (2 * count)
                lines.append(f"G1 X{radius * math.cos(angle):.4f} Y{radius * math.sin(angle):.4f}")
    return lines


def trochoid():
    """A slot of 60 mm by trochoids: circles of 3 mm radius in chords of 0.2 mm, each 0.6 mm farther on."""
    chords = round(2 * math.pi * 3 / 0.2)
    lines = head(2400) + ["G0 X0 Y3", "G1 Z-2 F300", "F2400"]
    for k in range(1, 100 * chords + 1):
        angle = math.pi / 2 - 2 * math.pi * k / chords
        lines.append(f"G1 X{3 * math.cos(angle) + 0.6 * k / chords:.4f} Y{3 * math.sin(angle):.4f}")
    return lines


def ramps():
    """A slot by ramps of 1 in 20, to and fro, in three passes side by side."""
    lines, z = ["G21 G90 G17 G94", "G0 Z5", "G0 X0 Y0", "G1 Z0 F600", "F2400"], 0.0
    for k in range(60):
        z -= 0.15
        y = 2.0 * (k // 20)
        lines.append(f"G1 X{60 if k % 2 == 0 else 0:.4f} Y{y:.4f} Z{z:.4f}")
        if k % 20 == 19:
            lines += ["G0 Z5", f"G0 X0 Y{y + 8:.4f}", "G1 Z0 F600", "F2400"]
            z = 0.0
    return [*lines, "G0 Z5"]


def relief():
    """A relief with steep flanks, scanned along X."""

    def height(x, y):
        return -2.0 + 2.0 * math.tanh(6 * math.sin(x / 3.0 + y / 9.0)) + 0.3 * math.sin(x * 1.3)

    lines = ["G21 G90 G17 G94", "G0 Z5", "G0 X0 Y0", f"G1 Z{height(0, 0):.3f} F600", "F3000"]
    for row in range(40):
        y = row * 0.4
        columns = [k * 0.2 for k in range(301)]
        lines += [f"X{x:.3f} Y{y:.3f} Z{height(x, y):.3f}" for x in (columns if row % 2 == 0 else columns[::-1])]
    return [*lines, "G0 Z5"]


PROGRAMS = {
    "contour of 0.02 mm lines, F6000": contour,
    "zigzag of 2 mm lines, F4800": zigzag,
    "star of 0.1 mm lines, F6000": star,
    "trochoids of 0.2 mm, F2400": trochoid,
    "3D raster of 0.1 mm, F3000": raster,
    "adaptive clearing, F2400": adaptive,
    "V-carved lettering, F1500": lettering,
    "spiral pocket, F3000": spiral_pocket,
    "500 drilled holes, F300": drilling,
    "circle of 0.02 mm chords, F6000": fine_circle,
    "ramps of 1 in 20, F2400": ramps,
    "relief of 0.2 mm, F3000": relief,
}
