"""A state diagram as SVG: boxes at fixed places, arrows through fixed points, text beside them. A white ground is drawn under
all, for viewers that are dark."""
import typing
from xml.sax.saxutils import escape

WIDTH, HEIGHT = 136, 60
STYLE = """text { font-family: Helvetica, Arial, sans-serif; font-size: 13px; fill: #111; }
.name { font-size: 16px; font-weight: bold; text-anchor: middle; }
.inside { font-size: 11px; text-anchor: middle; }
.tag { font-size: 11px; fill: #555; }
.box { fill: #eef3fa; stroke: #234; stroke-width: 1.5; }
.arrow { fill: none; stroke: #234; stroke-width: 1.5; marker-end: url(#head); }"""
HEAD = ('<defs><marker id="head" viewBox="0 0 10 10" refX="9" refY="5" markerWidth="8" markerHeight="8" orient="auto">'
        '<path d="M 0 1 L 10 5 L 0 9 z" fill="#234"/></marker></defs>')


class Arrow(typing.NamedTuple):
    """points: corners from box to box; at: where the label's first line starts or, by anchor, ends or has its middle; gap:
    from the label's last line to the tag, by default across the arrow."""

    points: typing.List[typing.Tuple[int, int]]
    at: typing.Tuple[int, int]
    anchor: str = "middle"
    gap: int = 23


def text(place, content, kind="", anchor=""):
    marks = (f' class="{kind}"' if kind else "") + (f' text-anchor="{anchor}"' if anchor else "")
    return f'<text x="{place[0]}" y="{place[1]}"{marks}>{escape(content)}</text>'


def box(place, name, inside):
    """A state with its name and, under it, what a move that stays does."""
    x, y = place
    yield f'<rect class="box" x="{x - WIDTH // 2}" y="{y - HEIGHT // 2}" width="{WIDTH}" height="{HEIGHT}" rx="10"/>'
    yield text((x, y - 2 if inside else y + 6), name, "name")
    if inside:
        yield text((x, y + 17), inside, "inside")


def label_lines(arrow, label, tag):
    """(place, content, class) of each line of a label; `|` parts the lines, the tag is the last."""
    x, y = arrow.at
    lines = label.split("|")
    yield from (((x, y + 16 * n), line, "") for n, line in enumerate(lines))
    yield (x, y + 16 * (len(lines) - 1) + arrow.gap), f"[{tag}]", "tag"


def drawn(arrow, move, label, tag):
    points = " ".join(f"{x},{y}" for x, y in arrow.points)
    yield f'<g><title>{escape(move)}</title><polyline class="arrow" points="{points}"/>'
    yield from (text(place, line, kind, arrow.anchor) for place, line, kind in label_lines(arrow, label, tag))
    yield "</g>"


def page(size, title, body):
    width, height = size
    yield f'<svg xmlns="http://www.w3.org/2000/svg" width="{width}" height="{height}" viewBox="0 0 {width} {height}">'
    yield f"<title>{escape(title)}</title>"
    yield f"<style>{STYLE}</style>"
    yield HEAD
    yield f'<rect width="{width}" height="{height}" fill="#fff"/>'
    yield from body
    yield "</svg>"
