"""Draws times against numbers of states, both on logarithmic scales, as SVG: panels side by side with one scale of times."""
import math

WIDE, HIGH, GAP = 168, 190, 16  # of a panel, and between two
LEFT, TOP, BELOW, RIGHT = 66, 62, 52, 14
OURS, THEIRS, FAINT, INK = "#1565a7", "#c4561a", "#d9d9d9", "#333333"


def words(x, y, text, anchor="middle", size=11, more=""):
    text = text.replace("&", "&amp;").replace("<", "&lt;")
    return f'<text x="{x:.1f}" y="{y:.1f}" text-anchor="{anchor}" font-size="{size}" fill="{INK}" {more}>{text}</text>'


def stroke(x1, y1, x2, y2, colour, more=""):
    return f'<line x1="{x1:.1f}" y1="{y1:.1f}" x2="{x2:.1f}" y2="{y2:.1f}" stroke="{colour}" {more}/>'


def disc(x, y, colour):
    return f'<circle cx="{x:.1f}" cy="{y:.1f}" r="2.8" fill="{colour}"/>'


def square(x, y, colour):
    return f'<rect x="{x - 2.6:.1f}" y="{y - 2.6:.1f}" width="5.2" height="5.2" fill="{colour}"/>'


def amount(us):
    return f"{us:,.0f}" if us >= 1 else f"{us:g}"


class Scale:
    """Places within a panel: states from left to right, microseconds from below."""

    def __init__(self, sizes, panels):
        every = [us for _, ours, theirs in panels for _, us in ours + theirs]
        self.sizes = sizes
        self.low = math.floor(math.log10(min(every)))
        self.high = max(math.ceil(math.log10(max(every))), self.low + 1)

    def x(self, n):
        low, high = math.log2(self.sizes[0]), math.log2(self.sizes[-1])
        return 10 + (WIDE - 20) * (math.log2(n) - low) / (high - low)

    def y(self, us):
        return HIGH * (1 - (math.log10(us) - self.low) / (self.high - self.low))


def frame(scale, first):
    """Grid, ticks and, for the first panel, the scale of times."""
    out = []
    for power in range(scale.low, scale.high + 1):
        y = scale.y(10.0**power)
        out.append(stroke(0, y, WIDE, y, FAINT))
        if first:
            out.append(words(-6, y + 4, amount(10.0**power), "end"))
    for n in scale.sizes:
        out.append(stroke(scale.x(n), HIGH, scale.x(n), HIGH + 4, INK))
        out.append(words(scale.x(n), HIGH + 16, f"{n:,}", size=9.5))
    out.append(words(WIDE / 2, HIGH + 32, "states"))
    out.append(f'<rect x="0" y="0" width="{WIDE}" height="{HIGH}" fill="none" stroke="{INK}"/>')
    return out


def proportion(scale, ours):
    """What growth in proportion to the states would be, from our first time on, as far as it stays inside."""
    (n, us), most = ours[0], scale.sizes[-1]
    end = min(most, n * 10.0**scale.high / us)
    return stroke(scale.x(n), scale.y(us), scale.x(end), scale.y(us * end / n), "#888888", 'stroke-dasharray="1.5 3"')


def curve(scale, points, colour, mark, dashes):
    at = [(scale.x(n), scale.y(us)) for n, us in points]
    path = " ".join(f"{x:.1f},{y:.1f}" for x, y in at)
    dash = f' stroke-dasharray="{dashes}"' if dashes else ""
    return [f'<polyline points="{path}" fill="none" stroke="{colour}" stroke-width="1.6"{dash}/>'] + [mark(x, y, colour) for x, y in at]


def panel(scale, first, name, ours, theirs):
    out = [words(WIDE / 2, -7, name), *frame(scale, first), proportion(scale, ours)]
    if theirs:
        out += curve(scale, theirs, THEIRS, square, "5 3")
    return out + curve(scale, ours, OURS, disc, None)


def legend(wide, beside):
    """Names of the curves, from the right."""
    out, x = [], wide - RIGHT
    entries = [("in proportion", None, "#888888", "1.5 3"), (beside, square, THEIRS, "5 3"), ("ours", disc, OURS, None)]
    for name, mark, colour, dashes in [e for e in entries if e[0]]:
        x -= 6.2 * len(name)
        out.append(words(x, 24, name, "start"))
        dash = f'stroke-width="1.6" stroke-dasharray="{dashes}"' if dashes else 'stroke-width="1.6"'
        out.append(stroke(x - 32, 20, x - 6, 20, colour, dash))
        if mark:
            out.append(mark(x - 19, 20, colour))
        x -= 46
    return out


def picture(title, beside, panels, sizes):
    """A panel is a name, our times and OpenFst's, each a list of (states, microseconds)."""
    scale = Scale(sizes, panels)
    wide = LEFT + len(panels) * (WIDE + GAP) - GAP + RIGHT
    high = TOP + HIGH + BELOW
    out = [f'<svg xmlns="http://www.w3.org/2000/svg" width="{wide}" height="{high}" viewBox="0 0 {wide} {high}" font-family="sans-serif">']
    out.append(f'<rect width="{wide}" height="{high}" fill="white"/>')
    out.append(words(LEFT, 25, title, "start", 15, 'font-weight="bold"'))
    out += legend(wide, beside)
    middle = TOP + HIGH / 2
    out.append(words(16, middle, "microseconds", more=f'transform="rotate(-90 16 {middle})"'))
    for i, (name, ours, theirs) in enumerate(panels):
        out.append(f'<g transform="translate({LEFT + i * (WIDE + GAP)} {TOP})">')
        out += panel(scale, i == 0, name, ours, theirs)
        out.append("</g>")
    return "\n".join(out + ["</svg>"]) + "\n"
