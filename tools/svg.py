"""Writes SVG: elements as texts, and a whole picture of them."""

from xml.sax.saxutils import escape, quoteattr

FONT = "font-family:'DejaVu Sans',Verdana,sans-serif"
# Colours that stay apart for those who see few: after Okabe and Ito, darkened where text is written in them.
SESSIONS = ("#0060a0", "#a05000", "#006b4f", "#8a3a78", "#5a5a00", "#3a3a3a")
RED = "#c01818"
GREEN = "#1a7a2e"
INK = "#202020"
FAINT = "#d8d8d8"


def rounded(value):
    """A number of at most two places after the dot."""
    return f"{value:.2f}".rstrip("0").rstrip(".") if isinstance(value, float) else str(value)


def element(name, body="", title=None, **attributes):
    """An element with a body that is SVG already, and what is told where one points at it."""
    named = {key.rstrip("_").replace("_", "-"): rounded(value) for key, value in attributes.items()}
    words = "".join(f" {key}={quoteattr(value)}" for key, value in named.items())
    if title is not None:
        body = f"<title>{escape(title)}</title>{body}"
    return f"<{name}{words}>{body}</{name}>" if body else f"<{name}{words}/>"


def text(x, y, words, **attributes):
    """A text at a place."""
    return element("text", escape(words), x=x, y=y, **attributes)


def line(x1, y1, x2, y2, **attributes):
    """A line."""
    return element("line", x1=x1, y1=y1, x2=x2, y2=y2, **attributes)


def session_colour(at):
    """The colour of the session at a place among all."""
    return SESSIONS[at % len(SESSIONS)]


def arrow_heads(name, colour):
    """The head of an arrow, to be named by marker_end."""
    return element(
        "defs",
        element(
            "marker",
            element("path", d="M0 0L8 4L0 8z", fill=colour),
            id=name,
            markerWidth=8,
            markerHeight=8,
            refX=8,
            refY=4,
            orient="auto",
            markerUnits="userSpaceOnUse",
        ),
    )


def picture(width, height, style, title, items):
    """A whole picture on white ground."""
    head = (
        f'<svg xmlns="http://www.w3.org/2000/svg" width="{rounded(width)}" height="{rounded(height)}" '
        f'viewBox="0 0 {rounded(width)} {rounded(height)}">'
    )
    ground = element("rect", width=width, height=height, fill="#ffffff")
    parts = [head, f"<title>{escape(title)}</title>", f"<style>{style}</style>", ground, *items, "</svg>"]
    return "\n".join(parts) + "\n"
