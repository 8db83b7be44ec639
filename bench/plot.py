"""Plots of how cost grows, as SVG. Both axes are logarithmic: where cost doubles with the fill, a line rises with the dotted ones."""
import math
import os

WIDTH, HEIGHT, LEFT, RIGHT, TOP, BOTTOM = 860, 470, 78, 232, 52, 60
COLOURS = {"sound": "#0b6e4f", "write_64": "#1f4e9e", "add": "#b5541c", "zero_page": "#7a3b8f", "drop": "#8a6d00"}
LABELS = {"sound": "soundness", "write_64": "write 64 bytes", "add": "add a page", "zero_page": "zero a page", "drop": "drop a record"}


def shown(ns):
    return f"{ns:g} ns" if ns < 1000 else f"{ns / 1000:g} µs" if ns < 1e6 else f"{ns / 1e6:g} ms"


class Plot:
    def __init__(self, title, x_name, xs, ys):
        self.xs, self.low, self.high = xs, 10 ** math.floor(math.log10(min(ys))), 10 ** math.ceil(math.log10(max(ys)))
        self.parts = [
            f'<svg xmlns="http://www.w3.org/2000/svg" viewBox="0 0 {WIDTH} {HEIGHT}" font-family="sans-serif" font-size="13" fill="#222">',
            f'<rect width="{WIDTH}" height="{HEIGHT}" fill="#fcfcfa"/>',
            f'<text x="{LEFT}" y="28" font-size="17" font-weight="bold">{title}</text>',
            f'<text x="{(LEFT + WIDTH - RIGHT) / 2}" y="{HEIGHT - 14}" text-anchor="middle">{x_name}</text>',
            f'<text x="20" y="{(TOP + HEIGHT - BOTTOM) / 2}" text-anchor="middle" transform="rotate(-90 20 {(TOP + HEIGHT - BOTTOM) / 2})">time of one call</text>',
        ]
        self.grid()

    def x(self, v):
        a, b = math.log(self.xs[0]), math.log(self.xs[-1])
        return LEFT + (math.log(v) - a) / (b - a) * (WIDTH - LEFT - RIGHT)

    def y(self, v):
        a, b = math.log(self.low), math.log(self.high)
        return HEIGHT - BOTTOM - (math.log(v) - a) / (b - a) * (HEIGHT - TOP - BOTTOM)

    def grid(self):
        v = self.low
        while v <= self.high:
            y = self.y(v)
            self.parts.append(f'<path d="M{LEFT} {y:.1f}H{WIDTH - RIGHT}" stroke="#d8d8d2"/><text x="{LEFT - 8}" y="{y + 4:.1f}" text-anchor="end">{shown(v)}</text>')
            v *= 10
        for v in self.xs:
            x = self.x(v)
            self.parts.append(f'<path d="M{x:.1f} {TOP}V{HEIGHT - BOTTOM}" stroke="#ececE6"/><text x="{x:.1f}" y="{HEIGHT - BOTTOM + 20}" text-anchor="middle">{v:,}</text>')

    def slope(self):
        """Lines along which cost doubles with the fill."""
        v = self.low
        while v < self.high:
            end = min(self.high, v * self.xs[-1] / self.xs[0])
            x = self.x(self.xs[0] * end / v)
            self.parts.append(f'<path d="M{LEFT} {self.y(v):.1f}L{x:.1f} {self.y(end):.1f}" stroke="#b9b9b2" stroke-dasharray="2 4"/>')
            v *= 10

    def line(self, points, colour, dashed):
        way = "L".join(f"{self.x(x):.1f} {self.y(y):.1f}" for x, y in points)
        dash = ' stroke-dasharray="7 4"' if dashed else ""
        self.parts.append(f'<path d="M{way}" fill="none" stroke="{colour}" stroke-width="2.2"{dash}/>')
        for x, y in points:
            self.parts.append(f'<circle cx="{self.x(x):.1f}" cy="{self.y(y):.1f}" r="3" fill="{colour}"/>')

    def names(self, ends):
        """Names beside the ends of the lines, kept apart."""
        last = 0
        for y, name, colour in sorted((self.y(v), name, colour) for v, name, colour in ends):
            last = max(y, last + 17)
            self.parts.append(f'<text x="{WIDTH - RIGHT + 10}" y="{last + 4:.1f}" fill="{colour}">{name}</text>')

    def save(self, path):
        open(path, "w").write("\n".join([*self.parts, "</svg>\n"]))


def series(times, section, work, place):
    return [(k[place], v) for k, v in times.items() if k[0] == section and k[1] == work and v]


def drawn(store, rust, section, place, title, x_name, path):
    lines = []
    for work, colour in COLOURS.items():
        for times, side, dashed in ((store, "store", False), (rust, "Rust", True)):
            points = series(times, section, work, place)
            if points:
                lines.append((points, f"{side}: {LABELS[work]}", colour, dashed))
    p = Plot(title, x_name, [x for x, _ in lines[0][0]], [y for points, *_ in lines for _, y in points])
    p.slope()
    for points, _, colour, dashed in lines:
        p.line(points, colour, dashed)
    p.names([(points[-1][1], name, colour) for points, name, colour, _ in lines])
    p.save(path)


def draw(store, rust, folder):
    at = lambda name: os.path.join(folder, name)
    drawn(store, rust, "frames", 2, "Cost against frames in use, with 8 ranges", "frames in use of 1,024", at("cost-frames.svg"))
    drawn(store, rust, "ranges", 3, "Cost against ranges in use, with 1,016 frames", "ranges in use of 512", at("cost-ranges.svg"))
    drawn(store, rust, "frames and ranges", 2, "Cost against frames in use, with half as many ranges", "frames in use of 1,024", at("cost-both.svg"))
