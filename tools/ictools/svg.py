"""The little of SVG that a chart needs."""

from __future__ import annotations

from xml.sax.saxutils import escape, quoteattr

FONT = "'DejaVu Sans Mono', Menlo, Consolas, 'Liberation Mono', monospace"
PER_SIZE = 0.61  # width of a letter, as a part of the font's size
MORE = "\u2026"


def text_width(text: str, size: int) -> float:
    return len(text) * size * PER_SIZE


def clip(text: str, limit: int) -> str:
    return text if len(text) <= limit else text[:limit - 1] + MORE


class Picture:
    """Elements in layers: a later layer is painted over an earlier one."""

    def __init__(self, layers: tuple) -> None:
        self.layers: dict = {layer: [] for layer in layers}

    def add(self, layer: str, element: str) -> None:
        self.layers[layer].append(element)

    def line(self, layer: str, kind: str, x1: float, y1: float, x2: float, y2: float) -> None:
        self.add(layer, '<path class="%s" d="M%.1f %.1fL%.1f %.1f"/>' % (kind, x1, y1, x2, y2))

    def path(self, layer: str, kind: str, points: str) -> None:
        self.add(layer, '<path class="%s" d="%s"/>' % (kind, points))

    def box(self, layer: str, kind: str, x: float, y: float, width: float, height: float,
            round_: int = 0) -> None:
        self.add(layer, '<rect class="%s" x="%.1f" y="%.1f" width="%.1f" height="%.1f"%s/>' % (
            kind, x, y, width, height, ' rx="%d"' % round_ if round_ else ""))

    def circle(self, layer: str, kind: str, x: float, y: float, radius: float) -> None:
        self.add(layer, '<circle class="%s" cx="%.1f" cy="%.1f" r="%.1f"/>' % (kind, x, y,
                                                                              radius))

    def text(self, layer: str, kind: str, x: float, y: float, text: str, anchor: str = "",
             whole: str = "") -> None:
        """A text; `whole` is shown where the pointer rests, if it isn't the text itself."""
        tip = "<title>%s</title>" % escape(whole) if whole and whole != text else ""
        place = ' text-anchor="%s"' % anchor if anchor else ""
        self.add(layer, '<text class="%s" x="%.1f" y="%.1f"%s>%s%s</text>' % (
            kind, x, y, place, tip, escape(text)))

    def whole(self, width: float, height: float, title: str, style: str) -> str:
        head = ('<svg xmlns="http://www.w3.org/2000/svg" width="%d" height="%d" '
                'viewBox="0 0 %d %d" role="img" aria-label=%s>\n<title>%s</title>\n'
                '<style>%s</style>\n<rect class="page" width="100%%" height="100%%"/>\n'
                % (width, height, width, height, quoteattr(title), escape(title), style))
        body = "\n".join("<g>\n%s\n</g>" % "\n".join(elements)
                         for elements in self.layers.values() if elements)
        return head + body + "\n</svg>\n"
