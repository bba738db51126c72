"""A picture in SVG: shapes and texts on a light card, so that it reads the same on a light page and on a dark one."""
import html

INK, FAINT, GRID, CARD = "#24292f", "#57606a", "#d0d7de", "#ffffff"
BLUE, RED, GREEN, AMBER, PURPLE = "#1b6ca8", "#c2384c", "#2f7a3d", "#b06f00", "#7a4fb5"
HEAD = 7  # how long the head of an arrow is


def number(value):
    """A length with one decimal at most."""
    return f"{round(value, 1) + 0.0:.1f}".removesuffix(".0")


class Picture:
    """Shapes are drawn in the order of the calls, later ones on top. Lengths are in pixels."""

    def __init__(self, width, height, title):
        self.width, self.height, self.title, self.parts = width, height, title, []
        self.rect(0.5, 0.5, width - 1, height - 1, fill=CARD, stroke=GRID, radius=8)

    def add(self, tag, text=None, **fields):
        """An element; a field `stroke_width` becomes the attribute `stroke-width`. Fields of None are left out."""
        given = ((name.replace("_", "-"), number(it) if isinstance(it, float) else it) for name, it in fields.items() if it is not None)
        head = f"<{tag} " + " ".join(f'{name}="{html.escape(str(it))}"' for name, it in given)
        self.parts.append(head + ("/>" if text is None else f">{text}</{tag}>"))

    def rect(self, x, y, width, height, fill="none", stroke="none", radius=0, **more):
        self.add("rect", x=float(x), y=float(y), width=float(width), height=float(height), rx=radius, fill=fill, stroke=stroke, **more)

    def circle(self, x, y, radius, fill, stroke=CARD, **more):
        self.add("circle", cx=float(x), cy=float(y), r=radius, fill=fill, stroke=stroke, **more)

    def path(self, points, stroke=FAINT, width=1.5, fill="none", dash=None):
        """Lines from point to point."""
        steps = "L".join(f"{number(x)} {number(y)}" for x, y in points)
        self.add("path", d=f"M{steps}", stroke=stroke, stroke_width=width, fill=fill, stroke_dasharray=dash)

    def arrow(self, *points, stroke=FAINT, width=1.5):
        """Lines from point to point, with a head at the last."""
        self.path(points, stroke, width)
        self.head(points[-2], points[-1], stroke)

    def head(self, before, tip, fill):
        (a, b), (x, y) = before, tip
        length = ((x - a) ** 2 + (y - b) ** 2) ** 0.5
        u, v = (x - a) / length * HEAD, (y - b) / length * HEAD
        self.path([(x, y), (x - u + v / 2, y - v - u / 2), (x - u - v / 2, y - v + u / 2)], "none", fill=fill)

    def text(self, x, y, text, fill=INK, size=13, anchor="start", weight=None, **more):
        """One line of text; y is the line below its letters."""
        self.add("text", html.escape(text), x=float(x), y=float(y), fill=fill, font_size=size, text_anchor=anchor, font_weight=weight, **more)

    def lines(self, x, y, texts, gap=16, **more):
        for i, text in enumerate(texts):
            self.text(x, y + i * gap, text, **more)

    def svg(self):
        box = f'viewBox="0 0 {self.width} {self.height}" font-family="Helvetica, Arial, sans-serif" role="img"'
        head = f'<svg xmlns="http://www.w3.org/2000/svg" {box}>'
        return "\n".join([head, f"<title>{html.escape(self.title)}</title>", *self.parts, "</svg>", ""])
