"""Plain SVG: words, boxes, lines, and how much room words take."""

from html import escape

INK, PALE_INK, GRID, PAPER = "#22303c", "#5a6772", "#e3e7ea", "#fdfdfb"

SIZES = {"title": 22, "heading": 16, "strong": 14, "plain": 14, "small": 13, "count": 13,
         "label": 12}
BOLD = {"title", "heading", "strong"}

STYLE = f"""<style>
text {{ font-family: "DejaVu Sans", Verdana, Arial, sans-serif; fill: {INK}; }}
.title {{ font-size: {SIZES["title"]}px; font-weight: bold; }}
.heading {{ font-size: {SIZES["heading"]}px; font-weight: bold; }}
.strong {{ font-size: {SIZES["strong"]}px; font-weight: bold; }}
.plain {{ font-size: {SIZES["plain"]}px; }}
.small {{ font-size: {SIZES["small"]}px; fill: {PALE_INK}; }}
.count {{ font-size: {SIZES["count"]}px; paint-order: stroke; stroke: {PAPER}; stroke-width: 3px; }}
.label {{ font-size: {SIZES["label"]}px; fill: {PALE_INK}; }}
.middle {{ text-anchor: middle; }}
.end {{ text-anchor: end; }}
rect {{ shape-rendering: crispEdges; }}
</style>"""

# Widths of characters in parts of the font's size, none too small for DejaVu Sans and Verdana;
# bold letters are wider by a sixth.
NARROW = set(" !'(),-./:;I[]fijlrt|")
WIDE = set("#%&<>=+mw@_~^") | set("ABCDEFGHJKLMNOPQRSTUVWXYZ")
LEAST_SIZES = {"title": 14}
LEAST_SIZE = 8                      # of all other kinds


def least_size(kind):
    return LEAST_SIZES.get(kind, LEAST_SIZE)


def width(text, kind, size=None):
    """At least the room that a text takes."""
    ems = sum(0.46 if letter in NARROW else 0.65 if letter.isascii() and letter not in WIDE
              else 1.0 for letter in text)
    return ems * (size or SIZES[kind]) * (7 / 6 if kind in BOLD else 1)


def fitting(texts, kind, room):
    """The greatest size at which each of the texts has room, within the least and the usual."""
    widest = max((width(text, kind) for text in texts), default=0)
    size = SIZES[kind]
    return size if widest <= room else max(least_size(kind), size * room / widest)


def cut(text, kind, room):
    """The text, or as much of it as has room at the least size."""
    if width(text, kind, least_size(kind)) <= room:
        return text
    while text and width(text + "\u2026", kind, least_size(kind)) > room:
        text = text[:-1]
    return text + "\u2026"


def words(x, y, text, classes, size=None):
    """The classes begin with the text's kind."""
    kind = classes.split()[0]
    sized = "" if size in (None, SIZES[kind]) else f' style="font-size: {size:.1f}px"'
    return f'<text x="{x:g}" y="{y:g}" class="{classes}"{sized}>{escape(text)}</text>'


def fitted(x, y, text, kind, room):
    """Words that keep to their room, smaller if need be and cut at last."""
    text = cut(text, kind, room)
    return words(x, y, text, kind, fitting([text], kind, room))


def box(x, y, wide, high, colour):
    return (f'<rect x="{x:.1f}" y="{y:.1f}" width="{wide:.1f}" height="{high:.1f}" '
            f'fill="{colour}"/>')


def line(x1, y1, x2, y2, colour):
    return f'<line x1="{x1:g}" y1="{y1:g}" x2="{x2:g}" y2="{y2:g}" stroke="{colour}"/>'


def document(wide, high, title, parts):
    head = (f'<svg xmlns="http://www.w3.org/2000/svg" width="{wide}" height="{high}" '
            f'viewBox="0 0 {wide} {high}" role="img">')
    return "\n".join([head, f"<title>{escape(title)}</title>", STYLE,
                      box(0, 0, wide, high, PAPER), *parts, "</svg>", ""])
