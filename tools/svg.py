"""Drawings in SVG, readable on a light and on a dark page: a drawing has its own panel, and its colours follow the colour scheme of the reader's page.
`compare.py` and `picture.py` use it."""
from xml.sax.saxutils import escape

STYLE = """text { font-family: -apple-system, "Segoe UI", "Liberation Sans", "DejaVu Sans", Helvetica, Arial, sans-serif; fill: #1f2328 }
.title { font-size: 15px; font-weight: 600 }
.label { font-size: 12px }
.strong { font-weight: 600 }
.small { font-size: 11px }
.mono { font-family: ui-monospace, "SF Mono", Menlo, "Liberation Mono", "DejaVu Sans Mono", monospace; font-size: 11px }
.muted { fill: #59636e }
.panel { fill: #f6f8fa; stroke: #d1d9e0 }
.node { fill: #ffffff; stroke: #59636e }
.lane { stroke: #d1d9e0 }
.edge { stroke: #59636e; fill: none }
.blue { fill: #2f6fd0 }
.green { fill: #2a8a43 }
.amber { fill: #c27803 }
.red { fill: #cf3f36 }
.grey { fill: #818b98 }
.pale-blue { fill: #d3e3fb; stroke: #2f6fd0 }
.pale-green { fill: #d2f0da; stroke: #2a8a43 }
.pale-red { fill: #fadcd9; stroke: #cf3f36 }
.pale-amber { fill: #fbe8c6; stroke: #c27803 }
.pale-violet { fill: #e7dcfb; stroke: #7a4fd0 }
.red-text { fill: #b42318 }
.amber-text { fill: #8a5300 }
.amber-line { stroke: #c27803; fill: none }
.red-line { stroke: #cf3f36; fill: none }
@media (prefers-color-scheme: dark) {
text { fill: #e6edf3 }
.muted { fill: #9198a1 }
.panel { fill: #151b23; stroke: #3d444d }
.node { fill: #212830; stroke: #9198a1 }
.lane { stroke: #3d444d }
.edge { stroke: #9198a1 }
.blue { fill: #4f8fea }
.green { fill: #3fa95c }
.amber { fill: #d9962b }
.red { fill: #e5635a }
.pale-blue { fill: #17345e; stroke: #4f8fea }
.pale-green { fill: #14401f; stroke: #3fa95c }
.pale-red { fill: #551d1a; stroke: #e5635a }
.pale-amber { fill: #4c3407; stroke: #d9962b }
.pale-violet { fill: #36215f; stroke: #a383ee }
.red-text { fill: #ff9a92 }
.amber-text { fill: #f0b95c }
.amber-line { stroke: #d9962b }
.red-line { stroke: #e5635a }
}"""


def number(value):
    """A coordinate with one digit after the point, if it needs one."""
    return f"{value:.1f}".removesuffix(".0")


class Drawing:
    """A drawing on a panel of its size. Coordinates are pixels from the upper left corner."""

    def __init__(self, width, height):
        self.width, self.height, self.parts = width, height, []

    def text(self, x, y, words, kind="label", anchor="start"):
        self.parts.append(f'<text x="{number(x)}" y="{number(y)}" class="{kind}" text-anchor="{anchor}">{escape(words)}</text>')

    def box(self, x, y, width, height, kind, radius=2):
        self.parts.append(f'<rect x="{number(x)}" y="{number(y)}" width="{number(width)}" height="{number(height)}" rx="{radius}" class="{kind}"/>')

    def line(self, points, kind, dashed=False, arrow=None):
        """A line through the points; with `arrow`, which names a colour, it ends in a head."""
        path = "M" + " L".join(f"{number(x)} {number(y)}" for x, y in points)
        dash = ' stroke-dasharray="4 3"' if dashed else ""
        self.parts.append(f'<path d="{path}" class="{kind}" stroke-width="1.5"{dash}/>')
        if arrow:
            self.head(points[-2], points[-1], arrow)

    def head(self, start, end, kind):
        """The head of an arrow that ends at `end`."""
        (x, y), (u, v) = start, end
        length = max(((u - x) ** 2 + (v - y) ** 2) ** 0.5, 0.1)
        a, b = (u - x) / length, (v - y) / length
        corners = [(u, v), (u - 7 * a - 3.5 * b, v - 7 * b + 3.5 * a), (u - 7 * a + 3.5 * b, v - 7 * b - 3.5 * a)]
        self.parts.append(f'<polygon points="{" ".join(f"{number(p)},{number(q)}" for p, q in corners)}" class="{kind}"/>')

    def whole(self, title):
        panel = f'<rect x="0.5" y="0.5" width="{self.width - 1}" height="{self.height - 1}" rx="6" class="panel"/>'
        head = f'<svg xmlns="http://www.w3.org/2000/svg" width="{self.width}" height="{self.height}" viewBox="0 0 {self.width} {self.height}" role="img">'
        return "\n".join([head, f"<title>{escape(title)}</title>", f"<style>\n{STYLE}\n</style>", panel, *self.parts, "</svg>"]) + "\n"
