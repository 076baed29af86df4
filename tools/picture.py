"""Pictures in docs/, drawn as SVG."""

import html
import pathlib

DOCS = pathlib.Path(__file__).resolve().parent.parent / "docs"
STYLE = """<style>
text { font: 12px sans-serif; fill: #222 }
.small { font-size: 11px; fill: #555 }
.code { font-family: monospace; font-size: 11px }
.middle { text-anchor: middle }
.end { text-anchor: end }
</style>"""


class Picture:
    """A picture in the making: what was drawn so far."""

    def __init__(self, width, height, title):
        self.size, self.shapes = (width, height), []
        self.add(f'<title>{html.escape(title)}</title>{STYLE}<rect width="{width}" height="{height}" fill="white"/>')

    def add(self, shape):
        self.shapes.append(shape)

    def text(self, x, y, text, kind=""):
        self.add(f'<text x="{x:g}" y="{y:g}" class="{kind}">{html.escape(text)}</text>')

    def line(self, x, y, x2, y2, colour="#999", more=""):
        self.add(f'<line x1="{x:g}" y1="{y:g}" x2="{x2:g}" y2="{y2:g}" stroke="{colour}" {more}/>')

    def box(self, x, y, width, height, colour, more=""):
        self.add(f'<rect x="{x:g}" y="{y:g}" width="{width:g}" height="{height:g}" fill="{colour}" {more}/>')

    def write(self, name):
        width, height = self.size
        sizes = f'width="{width}" height="{height}" viewBox="0 0 {width} {height}"'
        head = f'<svg xmlns="http://www.w3.org/2000/svg" {sizes}>'
        (DOCS / name).write_text("\n".join([head, *self.shapes, "</svg>", ""]), encoding="utf-8")
        print(DOCS / name)
