"""What the tools that draw pictures share: the parts of an svg, in colours for light and for dark pages."""
import re
from html import escape
from pathlib import Path

ROOT = Path(__file__).resolve().parent.parent
FOLDER = ROOT / "docs/pictures"

# The colours on a light and on a dark page. They stand in the rules themselves, since some viewers know no variables of
# CSS.
LIGHT = {"page": "#ffffff", "ink": "#1f2328", "faint": "#59636e", "line": "#8c959f", "code": "#ddf4ff",
         "law": "#fff1d6", "test": "#f0f2f4", "way": "#0969da", "far": "#d1242f", "near": "#8250df", "bar": "#54aeff",
         "mesh": "#d8dee4", "mark": "#ffb8b0"}
DARK = {"page": "#0d1117", "ink": "#e6edf3", "faint": "#9198a1", "line": "#6e7681", "code": "#12324f", "law": "#4d3a12",
        "test": "#21262d", "way": "#58a6ff", "far": "#ff7b72", "near": "#d2a8ff", "bar": "#1f6feb", "mesh": "#30363d",
        "mark": "#8e2b26"}
SHAPES = """
text { font: 13px 'DejaVu Sans', Verdana, sans-serif }
.small { font-size: 12px } .mono { font-family: 'DejaVu Sans Mono', monospace }
.title { font-size: 16px; font-weight: bold } .strong { font-weight: bold }
rect.test { stroke-dasharray: 4 3 } rect.way { stroke-width: 2.5 }
path { fill: none; stroke-width: 1.2 } path.way { stroke-width: 1.8 }
circle.far, rect.far, circle.near, rect.near { stroke-width: 1.8 }
"""
COLOURED = """
text { fill: ink } .faint { fill: faint }
.page { fill: page } .code { fill: code } .law { fill: law } .test { fill: test } .mark { fill: mark }
rect.code, rect.law, rect.test, rect.mark { stroke: line } rect.way, path.way { stroke: way }
path { stroke: line } .bar { fill: bar } .mesh { stroke: mesh }
.far { fill: far } .near { fill: near } .far.empty, .near.empty { fill: page }
circle.far, rect.far { stroke: far } circle.near, rect.near { stroke: near }
"""


def coloured(colours):
    return re.sub(r"(?<=: )\w+", lambda found: colours[found.group()], COLOURED)


STYLE = "%s%s@media (prefers-color-scheme: dark) {%s}\n" % (SHAPES, coloured(LIGHT), coloured(DARK))


def text_of(name):
    return (ROOT / name).read_text(encoding="utf-8")


def label(x, y, text, kind="", anchor="start"):
    return '<text x="%.0f" y="%.0f" class="%s" text-anchor="%s">%s</text>' % (x, y, kind, anchor, escape(text))


def box(x, y, width, height, kind):
    return '<rect x="%.1f" y="%.1f" width="%.1f" height="%.1f" rx="5" class="%s"/>' % (x, y, width, height, kind)


def picture(width, height, title, parts):
    head = '<svg xmlns="http://www.w3.org/2000/svg" viewBox="0 0 %d %d" width="%d" height="%d" role="img">' % (
        width, height, width, height)
    page = '<rect width="%d" height="%d" class="page"/>' % (width, height)
    head += "\n<title>%s</title>\n<style>%s</style>" % (escape(title), STYLE)
    return "\n".join([head, page, *parts, "</svg>"]) + "\n"


def made(pictures, arguments):
    """Writes the pictures, or with --check compares them: the status of the tool."""
    status = 0
    for name, draw in pictures:
        file, text = FOLDER / name, draw()
        if file.exists() and file.read_text(encoding="utf-8") == text:
            continue
        if "--check" in arguments:
            print("docs/pictures/%s isn't what it shows" % name)
            status = 1
        else:
            FOLDER.mkdir(exist_ok=True)
            file.write_text(text, encoding="utf-8")
    return status
