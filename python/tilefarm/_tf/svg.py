"""Small SVG pictures, written as text."""

FONT = "font-family='DejaVu Sans, Verdana, sans-serif'"


def escape(words: str) -> str:
    """Words as they stand in XML. (The module that has this loads the half of the library.)"""
    return words.replace("&", "&amp;").replace("<", "&lt;").replace(">", "&gt;")


class Drawing:
    """Shapes in the order in which they are drawn, on a white ground."""

    def __init__(self, width: float, height: float):
        self.left, self.width, self.height, self.shapes = 0.0, width, height, []

    def box(self, x: float, y: float, width: float, height: float, fill: str, line: str = "#444", dash: str = "") -> None:
        dashes = f" stroke-dasharray='{dash}'" if dash else ""
        self.shapes.append(f"<rect x='{x:g}' y='{y:g}' width='{width:g}' height='{height:g}' rx='4' fill='{fill}' "
                           f"stroke='{line}'{dashes}/>")

    def bar(self, x: float, y: float, width: float, height: float, title: str) -> None:
        self.shapes.append(f"<rect x='{x:.2f}' y='{y:.2f}' width='{width:.2f}' height='{height:.2f}' fill='#4a7ab5'>"
                           f"<title>{escape(title)}</title></rect>")

    def text(self, x: float, y: float, words: str, size: int = 12, anchor: str = "middle", colour: str = "#111") -> None:
        self.shapes.append(f"<text x='{x:g}' y='{y:g}' {FONT} font-size='{size}' text-anchor='{anchor}' fill='{colour}'>"
                           f"{escape(words)}</text>")

    def arrow(self, start: tuple[float, float], end: tuple[float, float]) -> None:
        """A curve from a point downwards to another."""
        (x, y), (to_x, to_y) = start, end
        bend = max((to_y - y) / 2, 12)
        self.shapes.append(f"<path d='M{x:g},{y:g} C{x:g},{y + bend:g} {to_x:g},{to_y - bend:g} {to_x:g},{to_y:g}' fill='none' "
                           "stroke='#666' marker-end='url(#tip)'/>")

    def way(self, points: list[tuple[float, float]]) -> None:
        """Straight lines from point to point, with a tip at the last."""
        through = " ".join(f"{x:g},{y:g}" for x, y in points)
        self.shapes.append(f"<polyline points='{through}' fill='none' stroke='#999' marker-end='url(#tip)'/>")

    def line(self, x: float, y: float, to_x: float, to_y: float) -> None:
        self.shapes.append(f"<line x1='{x:g}' y1='{y:g}' x2='{to_x:g}' y2='{to_y:g}' stroke='#444'/>")

    def svg(self) -> bytes:
        tip = ("<defs><marker id='tip' viewBox='0 0 8 8' refX='8' refY='4' markerWidth='7' markerHeight='7' orient='auto'>"
               "<path d='M0,0 L8,4 L0,8 z' fill='#666'/></marker></defs>")
        head = (f"<svg xmlns='http://www.w3.org/2000/svg' width='{self.width:g}' height='{self.height:g}' "
                f"viewBox='{self.left:g} 0 {self.width:g} {self.height:g}'>")
        ground = f"<rect x='{self.left:g}' width='100%' height='100%' fill='white'/>"
        return "\n".join([head, tip, ground, *self.shapes, "</svg>", ""]).encode()
