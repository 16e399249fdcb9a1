"""What bin/recovery measured as a picture in SVG: at the left the rates, at the right what was lost, by how often the driver is killed."""

HEIGHT, ABOVE, BELOW, LEFT, WIDE = 320, 48, 56, 56, 400
COLOURS = (("read", "#1f6fb2"), ("written", "#c4602a"))


def step_for(most):
    """The distance of an axis' five lines: a round number."""
    return next(it for power in range(-3, 12) for it in (10 ** power * round_ for round_ in (1, 2, 2.5, 5)) if 5 * it >= most)


def text(x, y, it, more=""):
    return f'<text x="{x:.1f}" y="{y:.1f}"{more}>{it}</text>'


class Panel:
    """A part of the picture, with an axis of its own."""

    def __init__(self, at, title, names, values):
        self.at, self.title, self.names, self.values = at, title, names, values
        self.step = step_for(max((it for line in values for it in line), default=1))

    def place(self, index, value):
        across = WIDE - LEFT - 24
        x, value = self.at + LEFT + across * (index + 0.5) / max(1, len(self.names)), max(0, value)
        return x, HEIGHT - BELOW - (HEIGHT - ABOVE - BELOW) * value / (5 * self.step)

    def axes(self):
        parts = [text(self.at + LEFT, ABOVE - 24, self.title, ' font-weight="bold"')]
        for line in range(6):
            _, y = self.place(0, line * self.step)
            parts.append(f'<line x1="{self.at + LEFT}" y1="{y:.1f}" x2="{self.at + WIDE - 24}" y2="{y:.1f}" stroke="#ddd"/>')
            parts.append(text(self.at + LEFT - 8, y + 4, f"{line * self.step:g}", ' text-anchor="end"'))
        for index, name in enumerate(self.names):
            parts.append(text(self.place(index, 0)[0], HEIGHT - BELOW + 18, name, ' text-anchor="middle"'))
        parts.append(text(self.at + (WIDE + LEFT) / 2 - 12, HEIGHT - 14, "killed every .. seconds", ' text-anchor="middle"'))
        return parts

    def lines(self):
        parts = []
        for at, ((name, colour), values) in enumerate(zip(COLOURS, self.values)):
            points = [self.place(index, value) for index, value in enumerate(values)]
            path = " ".join(f"{x:.1f},{y:.1f}" for x, y in points)
            parts.append(f'<polyline points="{path}" fill="none" stroke="{colour}" stroke-width="2"/>')
            parts += [f'<circle cx="{x:.1f}" cy="{y:.1f}" r="3" fill="{colour}"/>' for x, y in points]
            parts.append(text(self.at + WIDE - 104 + 40 * at, ABOVE - 8, name, f' fill="{colour}"'))
        return parts


def drawn(rows):
    """The picture of rows, each of which has `interval`, `rates` and `lost`."""
    names = [it.interval for it in rows]
    rates = Panel(0, "MiB a second", names, [[it.rates[way] for it in rows] for way in (0, 1)])
    killed = [it for it in rows if it.lost]
    more = [[it.lost[way] for it in killed] for way in (0, 1)]
    lost = Panel(WIDE, "% more time than without deaths", [it.interval for it in killed], more)
    parts = [*rates.axes(), *rates.lines(), *lost.axes(), *lost.lines()]
    return (f'<svg xmlns="http://www.w3.org/2000/svg" width="{2 * WIDE}" height="{HEIGHT}" font-family="sans-serif" font-size="12">\n'
            '<rect width="100%" height="100%" fill="white"/>\n' + "\n".join(parts) + "\n</svg>\n")
