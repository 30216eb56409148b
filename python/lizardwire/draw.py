"""Pictures: each outline with its cage, as one SVG, side by side or each in its place; and two outlines with their clearance.

Nothing is worked out here: what is drawn as a cage is what the answer says, and where
two outlines come nearest is what the library says. A picture is as wide as what it is
shown in, up to its own greatest width. Its words come in two sizes, one for a phone and
one for anything wider; which is shown is left to the screen, and room is kept for the
larger. Light and dark follow the screen, too.
"""
import math
from typing import Callable, Dict, Iterable, List, NamedTuple, Optional, Sequence, Tuple
from xml.sax.saxutils import escape, quoteattr

from .jobs import Answer
from .refusals import Pair, RingEdge, exact, short
from .shapes import Outline, Point, Ring, _outline

CELL, GAP, MARGIN = 320, 20, 20
ONE_CELL = 420
PAD = 9
PHONE_SCREEN, PHONE_TEXT = 360, 12.0
WIDE_SCREEN, WIDE_TEXT = 700, 15.0
# How large the ring around a place is.
AROUND = 10

# Widths of the characters from space to tilde, in hundredths of the text's size: those of a wide typeface.
WIDTHS = (32, 40, 46, 84, 64, 95, 78, 27, 39, 39, 50, 84, 32, 36, 32, 34, 64, 64, 64, 64, 64, 64, 64, 64, 64, 64, 34, 34, 84,
          84, 84, 53, 100, 68, 69, 70, 77, 63, 58, 77, 75, 29, 29, 66, 56, 86, 75, 79, 60, 79, 69, 63, 61, 73, 68, 99, 69, 61,
          69, 39, 34, 39, 84, 50, 50, 61, 63, 55, 63, 62, 35, 63, 63, 28, 28, 58, 28, 97, 63, 61, 63, 63, 41, 52, 39, 63, 59,
          82, 59, 59, 52, 64, 34, 64, 84)
BOLD = 1.13

STYLE = """
  svg {{ display: block; margin: 0 auto; max-width: {most}px; }}
  text {{ font-family: system-ui, -apple-system, "Segoe UI", Roboto, "DejaVu Sans", sans-serif; fill: #1b2733; }}
  .wide text {{ font-size: {wide:.2f}px; }}
  .phone text {{ font-size: {phone:.2f}px; }}
  .phone {{ display: none; }}
  .name {{ font-weight: 600; }}
  .soft {{ fill: #52606f; }}
  .no {{ fill: #9b1239; }}
  .page {{ fill: #ffffff; }}
  .source {{ fill: #d9e8f4; stroke: #1668a6; stroke-width: 1.8; stroke-linejoin: round; fill-rule: evenodd; }}
  .refused {{ fill: #ececec; stroke: #66717e; stroke-dasharray: 6 4; }}
  .cage {{ fill: none; stroke: #c2410c; stroke-width: 2.6; stroke-linejoin: round; }}
  .vertex {{ fill: #c2410c; }}
  .mark {{ stroke: #111827; stroke-width: 4.5; stroke-linecap: round; stroke-linejoin: round; fill: none; }}
  .spot {{ stroke: #111827; stroke-width: 2.2; fill: none; }}
  .edge {{ font-weight: 700; text-anchor: middle; paint-order: stroke; stroke: #ffffff; stroke-width: 5px; stroke-linejoin: round; }}
  @media (max-width: 480px) {{
    .wide {{ display: none; }}
    .phone {{ display: inline; }}
  }}
  @media (prefers-color-scheme: dark) {{
    text {{ fill: #e8eef4; }}
    .soft {{ fill: #a9b8c7; }}
    .no {{ fill: #ff9db3; }}
    .page {{ fill: #11161d; }}
    .source {{ fill: #1d3144; stroke: #6cb3ea; }}
    .refused {{ fill: #262a30; stroke: #9aa5b1; }}
    .cage {{ stroke: #ff9d5c; }}
    .vertex {{ fill: #ff9d5c; }}
    .mark, .spot {{ stroke: #ffffff; }}
    .edge {{ stroke: #11161d; }}
  }}
"""


class Item(NamedTuple):
    """One outline to draw: ``up`` where the second coordinate grows upwards."""

    name: str
    side: str
    distance: float
    rings: List[Ring]
    answer: Answer
    up: bool = True

    def asked(self) -> str:
        """What was asked for."""
        return f"{self.side} {short(self.distance)}" if self.side else ""

    def words(self) -> str:
        """The answer in words."""
        refused = self.answer.refused
        return f"no, {refused.number}: {refused.words}" if refused else self.answer.words()

    def pair(self) -> Optional[Pair]:
        """Two edges that cross or touch, of a 9, an 11 or a 12, where they are known and there."""
        pair = self.answer.refused.edges if self.answer.refused else None
        return pair if pair and all(ring < len(self.rings) and self.rings[ring] for ring, _ in pair) else None

    def spot(self) -> Optional[RingEdge]:
        """The edge of a 7 or a 27, whose ends are one point or a hair apart, where it is known and there."""
        edge = self.answer.refused.edge if self.answer.refused else None
        return edge if edge and edge.ring < len(self.rings) and self.rings[edge.ring] else None

    def failing_holes(self) -> List[int]:
        """The holes of an 11 or a 12, where they are known."""
        refused = self.answer.refused
        return [int(value) for value in refused.values.values()] if refused and refused.number in (11, 12) else []


# ---- words

def clean(text: str) -> str:
    """The text without what XML cannot hold."""
    return "".join(c if c >= " " and not 0xD800 <= ord(c) <= 0xDFFF and c not in "\ufffe\uffff" else " " for c in text)


def width(text: str, size: float, bold: bool = False) -> float:
    """How wide a text is at most."""
    hundredths = sum(WIDTHS[ord(c) - 32] if " " <= c <= "~" else 65 if ord(c) < 0x1100 else 100 for c in text)
    return hundredths / 100 * size * (BOLD if bold else 1)


def cut(text: str, size: float, room: float, bold: bool = False) -> str:
    """The text, shortened where it does not fit."""
    if width(text, size, bold) <= room:
        return text
    while text and width(text + "…", size, bold) > room:
        text = text[:-1]
    return text.rstrip() + "…"


def wrap(text: str, size: float, room: float) -> List[str]:
    """The text in lines that fit."""
    lines: List[str] = []
    for word in text.split():
        if lines and width(lines[-1] + " " + word, size) <= room:
            lines[-1] += " " + word
        else:
            lines.append(cut(word, size, room))
    # A last word of a letter or two takes its neighbour with it.
    if len(lines) > 1 and len(lines[-1]) < 3 and " " in lines[-2]:
        lines[-2], _, last = lines[-2].rpartition(" ")
        lines[-1] = last + " " + lines[-1]
    return lines


def pair_words(pair: Pair, names: Sequence[str] = ()) -> str:
    """Two edges that cross or touch, by the names of their rings, or by their numbers in what was given."""
    return " meets ".join(f"edge {edge} of {clean(names[ring]) if names else f'ring {ring}'}" for ring, edge in pair)


class Line(NamedTuple):
    """A line of words: parts with their class, and how far each is from the left."""

    parts: List[Tuple[str, str, float]]


def label(item: Item, size: float, room: float) -> List[Line]:
    """The words below a drawing, as lines."""
    name, asked = cut(clean(item.name), size, room, True), item.asked()
    after = width(name, size, True) + 0.6 * size
    lines = [Line([(name, "name", 0.0)])]
    if asked and after + width(asked, size) <= room:
        lines[0].parts.append((asked, "soft", after))
    elif asked:
        lines.append(Line([(cut(asked, size, room), "soft", 0.0)]))
    kind = "no" if item.answer.refused else ""
    lines += [Line([(text, kind, 0.0)]) for text in wrap(clean(item.words()), size, room)]
    return lines + [Line([(text, "soft", 0.0)]) for text in wrap(item.answer.event_words(), size, room)]


# ---- geometry of the drawing

def finite(rings: Iterable[Ring]) -> List[Ring]:
    """The rings that can be drawn."""
    return [ring for ring in rings if ring and all(math.isfinite(c) and abs(c) < 1e150 for p in ring for c in p)]


Segment = Tuple[Point, Point]
Box = Tuple[float, float, float, float]
Placing = Callable[[Point], Point]


def placing(rings: Sequence[Ring], left: float, top: float, wide: float, high: float, up: bool) -> Placing:
    """Fits the rings into a box: one scale for both axes."""
    east, north = [p[0] for r in rings for p in r], [p[1] for r in rings for p in r]
    scale = min((wide - 2 * PAD) / ((max(east) - min(east)) or 1), (high - 2 * PAD) / ((max(north) - min(north)) or 1))
    middle = (min(east) + max(east)) / 2, (min(north) + max(north)) / 2
    turn = -scale if up else scale
    return lambda p: (left + wide / 2 + (p[0] - middle[0]) * scale, top + high / 2 + (p[1] - middle[1]) * turn)


def span(rings: Sequence[Ring]) -> float:
    """How wide or high the rings are, whichever is more."""
    return max(max(p[k] for ring in rings for p in ring) - min(p[k] for ring in rings for p in ring) for k in (0, 1))


def within(ring: Ring, far: float) -> Ring:
    """The part of a ring that is no farther east, west, north and south than that, closed along the border."""
    for axis, way in ((0, 1), (0, -1), (1, 1), (1, -1)):
        kept: Ring = []
        for p, q in zip(ring, ring[1:] + ring[:1]):
            a, b = far - way * p[axis], far - way * q[axis]
            if a >= 0:
                kept.append(p)
            if (a < 0) != (b < 0):
                kept.append((p[0] + (q[0] - p[0]) * a / (a - b), p[1] + (q[1] - p[1]) * a / (a - b)))
        ring = kept
    return ring


def path(rings: Iterable[Ring], place: Placing) -> str:
    """The rings as path data."""
    return "".join("M" + "L".join("{:.2f} {:.2f}".format(*place(p)) for p in ring) + "Z" for ring in rings)


def ends(ring: Ring, edge: int) -> Segment:
    """Where an edge starts and ends."""
    return ring[edge % len(ring)], ring[(edge + 1) % len(ring)]


def away(p: Point, a: Point, b: Point) -> float:
    """How far a point is from a segment."""
    x, y = b[0] - a[0], b[1] - a[1]
    length = x * x + y * y
    t = max(0.0, min(1.0, ((p[0] - a[0]) * x + (p[1] - a[1]) * y) / length)) if length else 0.0
    return math.hypot(p[0] - a[0] - t * x, p[1] - a[1] - t * y)


def meeting(a: Point, b: Point, c: Point, d: Point) -> Point:
    """Where two segments that meet do so; where they touch, the end that lies on the other."""
    r, s = (b[0] - a[0], b[1] - a[1]), (d[0] - c[0], d[1] - c[1])
    turn = r[0] * s[1] - r[1] * s[0]
    if turn:
        t = ((c[0] - a[0]) * s[1] - (c[1] - a[1]) * s[0]) / turn
        u = ((c[0] - a[0]) * r[1] - (c[1] - a[1]) * r[0]) / turn
        if -1e-9 <= t <= 1 + 1e-9 and -1e-9 <= u <= 1 + 1e-9:
            return a[0] + t * r[0], a[1] + t * r[1]
    shared = sorted({a, b} & {c, d})
    options = [(away(p, c, d), p) for p in (a, b) if p not in shared] + [(away(p, a, b), p) for p in (c, d) if p not in shared]
    found = min(options, default=(math.inf, a))
    # Two on one line, one behind the other, have their end in common and nothing else.
    return shared[0] if shared and found[0] > 1e-6 else found[1]


# Where the number of an edge may stand: how far along the edge, in its lengths; how far on, and to its side, in the text's size.
PLACES = [*((t, 0.0, side) for t in (0.5, 0.38, 0.62, 0.26, 0.74, 0.14, 0.86) for side in (0.85, -0.85, 1.6, -1.6)),
          (0.0, -0.95, 0.0), (1.0, 0.95, 0.0)]


def beside(edge: Segment, other: Segment, text: str, size: float, walls: Sequence[Segment], spot: Point,
           taken: Sequence[Tuple[Point, str]], box: Box) -> Point:
    """A place for a number beside an edge: clear of all edges, of the spot and of what is taken, inside the box, and not at the other."""
    (ax, ay), (bx, by) = edge
    length, half = math.dist(*edge) or 1.0, width(text, size, True) / 2
    east, north = size * (bx - ax) / length, size * (by - ay) / length
    best, best_score = ((ax + bx) / 2, (ay + by) / 2), -math.inf
    for t, on, side in PLACES:
        p = ax + t * (bx - ax) + on * east - side * north, ay + t * (by - ay) + on * north + side * east
        p = min(max(p[0], box[0] + half), box[2] - half), min(max(p[1], box[1] + size / 2), box[3] - size / 2)
        clear = min([away(p, *wall) for wall in walls], default=size)
        over = sum(1 for q, number in taken if abs(p[1] - q[1]) < size
                   and abs(p[0] - q[0]) < half + width(number, size, True) / 2 + 0.2 * size)
        score = (min(clear, size) + min(math.dist(p, spot), 2 * size) - 10 * size * over - 0.1 * size * abs(t - 0.5)
                 - 0.4 * size * (abs(side) != 0.85) - 4 * size * (away(p, *other) < 1.3 * away(p, *edge)))
        if score > best_score:
            best, best_score = p, score
    return best


# ---- the parts of the picture

class Page:
    """What has been drawn so far: shapes, and the words in both sizes."""

    def __init__(self, columns: int) -> None:
        self.columns = columns
        self.cell = ONE_CELL if columns == 1 else CELL
        self.high = round(0.65 * self.cell)
        self.across = 2 * MARGIN + columns * self.cell + (columns - 1) * GAP
        self.phone = PHONE_TEXT * self.across / PHONE_SCREEN
        self.wide = WIDE_TEXT * self.across / WIDE_SCREEN if columns > 1 else 11.5
        self.shapes: List[str] = []
        self.words: Dict[str, List[str]] = {"wide": [], "phone": []}

    def sizes(self) -> List[Tuple[str, float]]:
        """The two sizes of words."""
        return [("wide", self.wide), ("phone", self.phone)]

    def left(self, column: int) -> float:
        """Where a column starts."""
        return MARGIN + column * (self.cell + GAP)

    def say(self, kind: str, x: float, y: float, text: str, style: str) -> None:
        """Puts words down."""
        styled = f' class="{style}"' if style else ""
        self.words[kind].append(f'<text{styled} x="{x:.1f}" y="{y:.1f}">{escape(text)}</text>')


def drawing(page: Page, item: Item, left: float, top: float) -> None:
    """The outline, its cage, and what is marked."""
    rings, cage = finite(item.rings), finite(item.answer.rings)
    if not rings and not cage:
        for kind, _ in page.sizes():
            page.say(kind, left, top + page.high / 2, "nothing to draw", "soft")
        return
    place = placing(rings + cage, left, top, page.cell, page.high, item.up)
    page.shapes.append(f'<path class="source{" refused" if item.answer.refused else ""}" d="{path(rings, place)}"/>')
    if cage:
        page.shapes.append(f'<path class="cage" d="{path(cage, place)}"/>')
        vertices(page, [[place(p) for p in ring] for ring in cage])
    if item.answer.refused and len(rings) == len(item.rings):
        marks(page, item, place, left, top)


def vertices(page: Page, rings: List[Ring]) -> None:
    """A dot at each vertex, as large as the edges between them allow."""
    lengths = sorted(math.dist(p, q) for ring in rings for p, q in zip(ring, ring[1:] + ring[:1]))
    size = min(3.4, 0.35 * lengths[len(lengths) // 8])
    if size >= 1.4:
        page.shapes += ['<circle class="vertex" cx="{:.2f}" cy="{:.2f}" r="{:.1f}"/>'.format(*p, size) for r in rings for p in r]


def marks(page: Page, item: Item, place: Placing, left: float, top: float) -> None:
    """Two edges that cross or touch, or one that is too short to see, with their numbers; where there are none, the holes of an 11 or
    a 12."""
    pair, spot = item.pair(), item.spot()
    marked = [item.rings[hole + 1] for hole in item.failing_holes() if hole + 1 < len(item.rings)]
    box = left, top, left + page.cell, top + page.high
    if pair:
        crossing(page, item.rings, pair, pair_words(pair), place, box)
    elif spot:
        too_near(page, item.rings, spot, clean(item.words()), place, box)
    elif marked:
        page.shapes.append(f'<path class="mark" d="{path(marked, place)}"/>')


def crossing(page: Page, given: Sequence[Ring], pair: Pair, words: str, place: Placing, box: Box) -> None:
    """Two edges that cross or touch: drawn thick, the place ringed, their numbers beside them, the words where it is pointed at."""
    rings = [[place(p) for p in ring] for ring in given]
    edges = [ends(rings[ring], edge) for ring, edge in pair]
    spot = meeting(*edges[0], *edges[1])
    ringed(page, edges, spot, words)
    walls = [ends(r, k) for r in rings for k in range(len(r))]
    for kind, size in page.sizes():
        taken: List[Tuple[Point, str]] = []
        for number, edge, other in zip((str(of.edge) for of in pair), edges, edges[::-1]):
            at = beside(edge, other, number, size, walls, spot, taken, box)
            taken.append((at, number))
            page.say(kind, at[0], at[1] + 0.36 * size, number, "edge")


def ringed(page: Page, edges: Sequence[Segment], spot: Point, words: str) -> None:
    """Edges drawn thick, with a ring around a place and words where it is pointed at. One that is too short to see is a dot."""
    page.shapes += [f"<g><title>{escape(words)}</title>",
                    *('<path class="mark" d="M{:.2f} {:.2f}L{:.2f} {:.2f}"/>'.format(*a, *b) for a, b in edges),
                    '<circle class="spot" cx="{:.2f}" cy="{:.2f}" r="{}"/></g>'.format(*spot, AROUND)]


def too_near(page: Page, given: Sequence[Ring], edge: RingEdge, words: str, place: Placing, box: Box) -> None:
    """An edge whose ends are one point or a hair apart: a dot with a ring around it, and its number beside it."""
    rings = [[place(p) for p in ring] for ring in given]
    segment = ends(rings[edge.ring], edge.edge)
    ringed(page, [segment], segment[0], words)
    aside(page, rings, segment, str(edge.edge), box, AROUND)


def legend(page: Page, items: Sequence[Item], top: float) -> float:
    """What the colours mean, of what there is; where it ends."""
    refused = {item.answer.refused.number for item in items if item.answer.refused}
    found = all(item.pair() for item in items if item.answer.refused and item.answer.refused.number in (11, 12))
    rows = [('<path class="source" d="M{0} {1}h40v20h-40z"/>', "outline, as drawn")]
    if any(item.answer.rings for item in items):
        rows.append(('<path class="cage" d="M{0} {2}h40"/><circle class="vertex" cx="{0}" cy="{2}" r="3.4"/>'
                     '<circle class="vertex" cx="{3}" cy="{2}" r="3.4"/>', "its cage"))
    if refused:
        rows.append(('<path class="source refused" d="M{0} {1}h40v20h-40z"/>', "no cage: refused"))
    if refused & {9, 11, 12}:
        rows.append(('<path class="mark" d="M{0} {1}l40 20m-40 0l40 -20"/>',
                     "edges that cross" if not refused & {11, 12} else "edges that meet" if found else "where it fails"))
    if any(item.spot() for item in items):
        rows.append(('<g transform="translate({0} {1})"><path class="mark" d="M20 10h0"/><circle class="spot" cx="20" cy="10" r="10"/></g>',
                     "vertices too near"))
    return meanings(page, rows, top)


def meanings(page: Page, rows: Sequence[Tuple[str, str]], top: float) -> float:
    """Marks with their words, in two columns; where they end."""
    step = max(36, 1.25 * page.phone)
    for k, (mark, words) in enumerate(rows):
        x, y = MARGIN + k % 2 * (page.across - 2 * MARGIN + GAP) / 2 + 4, top + k // 2 * step
        page.shapes.append(mark.format(x, y, y + 10, x + 40))
        for kind, size in page.sizes():
            page.say(kind, x + 54, y + 10 + 0.36 * size, words, "")
    return top + ((len(rows) - 1) // 2 + 1) * step


def picture(items: Sequence[Item], columns: Optional[int] = None) -> str:
    """The picture of some outlines with their answers: two columns, one where there is one outline, or as many as are asked for."""
    page = Page(max(1, columns or min(2, len(items))))
    bottom = legend(page, items, MARGIN) + 8
    for start in range(0, len(items), page.columns):
        row = items[start:start + page.columns]
        most = bottom + page.high
        for column, item in enumerate(row):
            left = page.left(column)
            drawing(page, item, left, bottom)
            for kind, size in page.sizes():
                for k, line in enumerate(label(item, size, page.cell)):
                    y = bottom + page.high + 6 + (k + 0.8) * 1.25 * size
                    most = max(most, y + 0.3 * size)
                    for text, style, right in line.parts:
                        page.say(kind, left + right, y, text, style)
        bottom = most + 22
    return _whole(page, _said(items), bottom)


# ---- two outlines, and where they come nearest

TWO = """
  .source {{ fill-opacity: 0.75; }}
  .other {{ fill: #fbe3d2; stroke: #c2410c; }}
  .gap {{ stroke: #111827; stroke-width: 2.2; }}
  .end {{ fill: #111827; }}
  .frame {{ stroke: #52606f; stroke-width: 1.4; fill: none; }}
  @media (prefers-color-scheme: dark) {{
    .other {{ fill: #4a2a17; stroke: #ff9d5c; }}
    .gap {{ stroke: #ffffff; }}
    .end {{ fill: #ffffff; }}
    .frame {{ stroke: #a9b8c7; }}
  }}
"""
KINDS = "source", "source other"
# A gap that is drawn shorter than this has a close-up, which shows no less than this part of what the outlines span.
SMALL, CLOSEST = 24, 1 / 4000
# What runs out of a close-up is drawn this far: librsvg fills wrongly what runs out by 100,000.
FAR = 5000


def clearance_picture(first: Outline, second: Outline, names: Tuple[str, str] = ("first", "second"), up: bool = True) -> str:
    """Two outlines with their nearest points, joined, and their clearance; where that is small, with a close-up.

    Of outlines that meet two edges that do are marked, with their numbers in the outlines as they are: see :attr:`Outline.edges`.
    """
    rings = [_outline(first).vertices, _outline(second).vertices]
    near, met = first.nearest_points(second), first.meeting(second)
    layers = [(kind, outline.vertices) for outline, kind in sorted(zip((first, second), KINDS), key=lambda part: -part[0].area)]
    page = Page(2)
    if not near or math.dist(*map(placing(rings, 0, 0, page.cell, page.high, up), near[1:])) >= SMALL:
        page = Page(1)
    top = meanings(page, _meant(page, names, met is not None), MARGIN) + 8
    boxes = [(page.left(k), top, page.left(k) + page.cell, top + page.high) for k in range(page.columns)]
    place = placing(rings, *boxes[0][:2], page.cell, page.high, up)
    page.shapes += _layers(layers, place)
    if met:
        pair = RingEdge(0, met.edge_of_first), RingEdge(1, met.edge_of_second)
        crossing(page, rings, pair, pair_words(pair, names), place, boxes[0])
    if near:
        place = place if page.columns == 1 else close_up(page, layers, near[1:], place, boxes, up)
        joined(page, rings, near[1:], short(float(f"{near.distance:.4g}")), place, boxes[-1])
    said = f"clearance {exact(near.distance)}" if near else "clearance 0: they meet"
    for kind, size in page.sizes():
        page.say(kind, MARGIN, top + page.high + 6 + size, said, "name")
    return _whole(page, f"{' and '.join(map(clean, names))}: {said}", top + page.high + 28 + 1.3 * page.phone, TWO)


def _layers(layers: Sequence[Tuple[str, Ring]], place: Placing) -> List[str]:
    placed = [(kind, within([place(p) for p in ring], FAR)) for kind, ring in layers]
    return [f'<path class="{kind}" d="{path([ring], lambda p: p)}"/>' for kind, ring in placed]


def _meant(page: Page, names: Tuple[str, str], meet: bool) -> List[Tuple[str, str]]:
    """Marks, and what they mean."""
    rows = [(f'<path class="{kind}" d="M{{0}} {{1}}h40v20h-40z"/>', cut(clean(name), page.phone, page.across / 2 - 80))
            for kind, name in zip(KINDS, names)]
    if meet:
        return rows + [('<path class="mark" d="M{0} {1}l40 20m-40 0l40 -20"/>', "edges that meet")]
    rows.append(('<path class="gap" d="M{0} {2}h40"/><circle class="end" cx="{0}" cy="{2}" r="4"/>'
                 '<circle class="end" cx="{3}" cy="{2}" r="4"/>', "nearest points"))
    return rows + [('<path class="frame" d="M{0} {1}h40v20h-40z"/>', "close-up")][:page.columns - 1]


def close_up(page: Page, layers: Sequence[Tuple[str, Ring]], gap: Segment, place: Placing, boxes: Sequence[Box], up: bool) -> Placing:
    """What is around a gap, framed in the first box and drawn in the second; how points are placed there."""
    east, north = (gap[0][0] + gap[1][0]) / 2, (gap[0][1] + gap[1][1]) / 2
    high = max(1.5 * math.dist(*gap), CLOSEST * span([ring for _, ring in layers]))
    wide = high * (page.cell - 2 * PAD) / (page.high - 2 * PAD)
    near = placing([[(east - wide, north - high), (east + wide, north + high)]], *boxes[1][:2], page.cell, page.high, up)
    (x, y), (right, _), (_, bottom) = place((east, north)), place((east + wide, north)), place((east, north + high))
    a, b = max(right - x, 6.0), max(abs(bottom - y), 4.0)
    x, y, right, bottom = max(x - a, boxes[0][0]), max(y - b, boxes[0][1]), min(x + a, boxes[0][2]), min(y + b, boxes[0][3])
    page.shapes.append(f'<rect class="frame" x="{x:.2f}" y="{y:.2f}" width="{right - x:.2f}" height="{bottom - y:.2f}"/>')
    frame = f'x="{boxes[1][0] + PAD:.2f}" y="{boxes[1][1] + PAD:.2f}" width="{page.cell - 2 * PAD}" height="{page.high - 2 * PAD}"'
    page.shapes += [f'<clipPath id="close-up"><rect {frame}/></clipPath>', '<g clip-path="url(#close-up)">', *_layers(layers, near),
                    "</g>", f'<rect class="frame" {frame}/>']
    return near


def joined(page: Page, rings: Sequence[Ring], gap: Segment, words: str, place: Placing, box: Box) -> None:
    """Two points, the line between them, and words beside it, on the side with more room."""
    a, b = map(place, gap)
    page.shapes.append('<path class="gap" d="M{:.2f} {:.2f}L{:.2f} {:.2f}"/>'.format(*a, *b))
    page.shapes += ['<circle class="end" cx="{:.2f}" cy="{:.2f}" r="4"/>'.format(*p) for p in (a, b)]
    aside(page, [[place(p) for p in ring] for ring in rings], (a, b), words, box)


def aside(page: Page, rings: Sequence[Ring], gap: Segment, words: str, box: Box, off: float = 0.0) -> None:
    """Words beside a short segment, farther off by so much, inside the box, on the side with more room."""
    (a, b), walls = gap, [ends(ring, k) for ring in rings for k in range(len(ring))]
    length, middle = math.dist(a, b), ((a[0] + b[0]) / 2, (a[1] + b[1]) / 2)
    across = ((b[1] - a[1]) / length, (a[0] - b[0]) / length) if length else (0.0, 1.0)
    for kind, size in page.sizes():
        half = width(words, size, True) / 2
        far = abs(across[0]) * half + abs(across[1]) * size / 2 + 0.5 * size + off
        sides = [(middle[0] + s * across[0], middle[1] + s * across[1]) for s in (far, -far)]
        sides = [(min(max(x, box[0] + half), box[2] - half), min(max(y, box[1] + size / 2), box[3] - size / 2)) for x, y in sides]
        # What the box pushes back onto the segment has no room.
        x, y = max(sides, key=lambda p: (math.dist(p, middle) > 0.8 * far, min(away(p, *wall) for wall in walls)))
        page.say(kind, x, y + 0.36 * size, words, "edge")


# ---- each in its place

IN_PLACE = """
  path {{ vector-effect: non-scaling-stroke; stroke-linejoin: round; fill-rule: evenodd; }}
  .source {{ fill: #d9e8f4; stroke: #1668a6; stroke-width: 1.5px; }}
  .refused {{ fill: #ececec; stroke: #66717e; stroke-dasharray: 6 4; }}
  .cage {{ fill: none; stroke: #c2410c; stroke-width: 2.2px; }}
  .mark {{ fill: none; stroke: #111827; stroke-width: 4px; stroke-linecap: round; }}
  .spot {{ fill: none; stroke: #111827; stroke-width: 1.5px; }}
"""


def in_place(items: Sequence[Item]) -> str:
    """The outlines and cages where they are, digit for digit, for a drawing program to open. The words are titles of the parts."""
    out: List[str] = []
    east, north = [], []
    for item in items:
        turn = -1.0 if item.up else 1.0
        rings = [[(p[0], turn * p[1]) for p in ring] for ring in finite(item.rings)]
        cage = [[(p[0], turn * p[1]) for p in ring] for ring in finite(item.answer.rings)]
        east += [p[0] for ring in rings + cage for p in ring]
        north += [p[1] for ring in rings + cage for p in ring]
        name = clean(item.name)
        out.append(f"<g><title>{escape(name)}, {item.asked()}: {escape(clean(item.words()))}</title>")
        kind = "source refused" if item.answer.refused else "source"
        out.append(f'<path class="{kind}" d="{_exact(rings)}"><title>{escape(name)}</title></path>')
        if cage:
            out.append(f'<path class="cage" d="{_exact(cage)}"><title>{escape(name)} cage</title></path>')
        if len(rings) == len(item.rings):
            out += _marked(item, rings)
        out.append("</g>")
    left, top = min(east, default=0.0), min(north, default=0.0)
    wide, high = max(east, default=1.0) - left, max(north, default=1.0) - top
    around = 0.04 * max(wide, high, 1e-9)
    box = f"{left - around!r} {top - around!r} {wide + 2 * around!r} {high + 2 * around!r}"
    return "\n".join([f'<svg xmlns="http://www.w3.org/2000/svg" viewBox="{box}" width="100%">',
                      f"<title>{escape(_said(items))}</title>", f"<style>{IN_PLACE.format()}</style>", *out, "</svg>", ""])


def _marked(item: Item, rings: Sequence[Ring]) -> List[str]:
    """Two edges that cross or touch, or one that is too short to see, with a diamond around it."""
    pair, spot = item.pair(), item.spot()
    edges: Sequence[RingEdge] = pair or ([spot] if spot else [])
    if not edges:
        return []
    out = [f"<g><title>{pair_words(pair) if pair else escape(clean(item.words()))}</title>"]
    out += [f'<path class="mark" d="{_exact([list(ends(rings[ring], edge))])[:-1]}"/>' for ring, edge in edges]
    if spot:
        east, north = ends(rings[spot.ring], spot.edge)[0]
        far = 0.03 * span(rings)
        diamond = [(east - far, north), (east, north - far), (east + far, north), (east, north + far)]
        out.append(f'<path class="spot" d="{_exact([diamond])}"/>')
    return out + ["</g>"]


def _exact(rings: Iterable[Ring]) -> str:
    """Path data with every digit."""
    return "".join("M" + "L".join(f"{p[0] + 0.0!r} {p[1] + 0.0!r}" for p in ring) + "Z" for ring in rings)


def _said(items: Sequence[Item]) -> str:
    refused = sum(1 for item in items if item.answer.refused)
    return f"{len(items)} outline{'s' * (len(items) != 1)}: {len(items) - refused} with a cage, {refused} refused"


def _whole(page: Page, said: str, high: float, more: str = "") -> str:
    style = (STYLE + more).format(most=page.across * 1.35 if page.columns > 1 else 720, wide=page.wide, phone=page.phone)
    return "\n".join([
        f'<svg xmlns="http://www.w3.org/2000/svg" viewBox="0 0 {page.across} {high:.0f}" width="100%" role="img" '
        f"aria-label={quoteattr(said)}>",
        f"<title>{escape(said)}</title>",
        f"<style>{style}</style>",
        f'<rect class="page" width="{page.across}" height="{high:.0f}" rx="12"/>',
        *page.shapes,
        *(f'<g class="{kind}">\n' + "\n".join(words) + "\n</g>" for kind, words in page.words.items()),
        "</svg>", ""])
