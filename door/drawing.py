"""A fleet, or a flight of several files, drawn to scale: from above, and below that from the side, with one x axis.

A drawing is for the eye, and its distances are worked out here, in binary64. Those that are promised are the spacing
report's.
"""
import math
import os
from typing import NamedTuple

from door import scene, svg

# in pixels: the panels, what is around them, and signs
PLOT_WIDTH = 880
MOST_HEIGHTS = 900
LEAST_HEIGHT = 110
ROOM = 24
EDGE = 24
TITLE = 52
CAPTION = 26
X_AXIS = 46
ROW = 20
TICK_GAP = 44
LEAST_BAR = 80
DOT = 2.2
LETTERS = 11

INK, FAINT, GRID, PAPER, ALARM = "#222222", "#666666", "#e8e8e8", "#fcfcfc", "#d7191c"
# told apart by most eyes, on white and from the alarm's red
COLOURS = ("#0072b2", "#009e73", "#b8860b", "#7b4fb5", "#3aa0d8", "#c2569a", "#8c6d31", "#17808a")
PALE = 0.14
HALO = {"paint_order": "stroke", "stroke": "white", "stroke_width": 3, "stroke_linejoin": "round"}

# so many of the pairs that are too near have their distance in the drawing, and are named below it
MOST_NAMED = 8


def drawn(names, fleets, limit=None):
    """The SVG of a file, or of a flight of several. Pairs nearer than the limit, in metres, are marked."""
    tracks = scene.tracks(fleets)
    near = [] if limit is None else scene.near_pairs(tracks, limit)
    views = views_of(tracks)
    left, below = views[0].left, views[1].bottom() + X_AXIS
    legend = legend_of(left, below, len(fleets) > 1, limit)
    notes = notes_of(left + PLOT_WIDTH / 2, below, [*near_words(names, near, limit), *scene.shortcomings(fleets)])
    title = title_of(names, fleets)
    height = below + ROW * max(len(legend), len(notes)) + EDGE / 2
    return svg.document(left + PLOT_WIDTH + EDGE, height, title, [
        svg.text((left, 30), title, font_size=17, fill=INK),
        scale_bar(left + PLOT_WIDTH, views[0].scale),
        *(panel(view, tracks, near) for view in views),
        x_axis(views[1]), *legend, *notes], font_family="sans-serif", font_size=LETTERS)


def colour(index):
    return COLOURS[index % len(COLOURS)]


# ---- where things are


class View(NamedTuple):
    """A panel: what goes up in it, where it is, and which place its lower left corner is."""
    name: str
    up: int
    left: float
    top: float
    height: float
    corner: tuple
    scale: float

    def at(self, place):
        """Where a place is in the drawing."""
        return self.right_of(place[0]), self.up_to(place[self.up])

    def right_of(self, number):
        return self.left + (number - self.corner[0]) * self.scale

    def up_to(self, number):
        return self.bottom() - (number - self.corner[1]) * self.scale

    def bottom(self):
        return self.top + self.height

    def marks_right(self):
        """The marks of the x axis: where each is, and its number in words."""
        return [(self.right_of(mark), words) for mark, words in marks(self.corner[0], PLOT_WIDTH, self.scale)]

    def marks_up(self):
        """The marks of the other axis."""
        return [(self.up_to(mark), words) for mark, words in marks(self.corner[1], self.height, self.scale)]


def views_of(tracks):
    """The two panels, in one scale: the largest in which everything is within them."""
    spans = [span_of(tracks, axis) for axis in range(3)]
    across, ahead, upward = (high - low for low, high in spans)
    scale = min((PLOT_WIDTH - 2 * ROOM) / across, MOST_HEIGHTS / (ahead + upward))
    heights = [max(LEAST_HEIGHT, scale * size + 2 * ROOM) for size in (ahead, upward)]
    corners = [(lower_end(spans[0], PLOT_WIDTH, scale), lower_end(spans[axis], height, scale))
               for axis, height in zip((1, 2), heights)]
    top = TITLE + CAPTION
    views = [View("Top view", 1, 0, top, heights[0], corners[0], scale),
             View("Side view", 2, 0, top + heights[0] + CAPTION + EDGE, heights[1], corners[1], scale)]
    widest = max((svg.width_of(words, LETTERS) for view in views for _, words in view.marks_up()), default=0)
    return [view._replace(left=EDGE + widest) for view in views]


def span_of(tracks, axis):
    """The numbers between which everything lies on an axis, so far from each other that they are told apart."""
    reached = [number for track in tracks for number in track.reach(axis)] or [0.0]
    low, high = min(reached), max(reached)
    least = max(1.0, 1e-9 * max(abs(low), abs(high)))
    if high - low < least:
        return (low + high - least) / 2, (low + high + least) / 2
    return low, high


def lower_end(span, pixels, scale):
    """The number at the lower end of so many pixels that have a span in their middle."""
    return (sum(span) - pixels / scale) / 2


def marks(low, pixels, scale):
    """Round numbers from a low one on, as far as the pixels go, with their words."""
    step = rounded_up(TICK_GAP / scale)
    counts = range(math.ceil(low / step), math.floor((low + pixels / scale) / step) + 1)
    return [(count * step, in_steps(count, step)) for count in counts]


def rounded_up(length):
    """The least of 1, 2 and 5, times a power of ten, that is not below a length."""
    power = 10.0 ** math.floor(math.log10(length))
    return next(times * power for times in (1, 2, 5, 10) if length <= times * power or times == 10)


def in_steps(count, step):
    """So many steps, in as many digits as tell them from one step more."""
    number = count * step
    places = max(0, -math.floor(math.log10(step) + 1e-9))
    if abs(number) < 1e6 and places <= 6:
        return f"{number:.{places}f}"
    return f"{number:.{len(str(abs(count))) + 1}g}"


# ---- a panel


def panel(view, tracks, near):
    return svg.group([
        *frame(view),
        *(goal_line(view, track) for track in tracks if track.goal),
        *(way(view, track) for track in tracks),
        # made pale together, so that those upon each other are no darker
        svg.group([disc(view, track) for track in tracks], opacity=PALE),
        *(drone(view, track) for track in tracks),
        *(velocity(view, track) for track in tracks if track.velocity),
        *(near_line(*map(view.at, pair.ends)) for pair in reversed(near)),
        *labels(view, tracks, near)])


def frame(view):
    """The grid, the numbers at its left, and the panel's caption."""
    right = view.left + PLOT_WIDTH
    yield svg.box(view.left, view.top, PLOT_WIDTH, view.height, fill=PAPER)
    for x, _ in view.marks_right():
        yield svg.line((x, view.top), (x, view.bottom()), stroke=GRID)
    for y, words in view.marks_up():
        yield svg.line((view.left, y), (right, y), stroke=GRID)
        yield svg.text((view.left - 6, y + 4), words, text_anchor="end", fill=FAINT)
    yield svg.box(view.left, view.top, PLOT_WIDTH, view.height, fill="none", stroke=FAINT)
    caption = f"{view.name}: x to the right, {'xyz'[view.up]} up, in metres"
    yield svg.text((view.left, view.top - 8), caption, font_size=13, fill=INK)


def x_axis(view):
    """The numbers below the lower panel, which hold for both. Wide ones are left out where they would meet."""
    placed = []
    for x, said in view.marks_right():
        place_first([Words(x, view.bottom() + 16, said, LETTERS)], placed)
    return svg.group([svg.text((words.x, words.y), words.said, text_anchor="middle", fill=FAINT) for words in placed])


def goal_line(view, track):
    return goal_sign(view.at(track.last()), view.at(track.goal), colour(track.index))


def goal_sign(start, end, ink):
    return (svg.line(start, end, stroke=ink, stroke_width=0.9, stroke_dasharray="4 4", opacity=0.7)
            + svg.cross(end, 4, stroke=ink, stroke_width=1.6))


def way(view, track):
    """The way through the files: its first place is an empty circle, and those between are dots."""
    points = [view.at(place) for place in track.seen()]
    return way_sign(points, view.scale * track.radius, colour(track.index)) if len(points) > 1 else ""


def way_sign(points, radius, ink):
    return svg.group([
        svg.circle(points[0], max(DOT + 1, radius), fill="none", stroke=ink, stroke_dasharray="2 3"),
        svg.polyline(points, stroke=ink, stroke_width=1.1),
        svg.circle(points[0], DOT, fill="white", stroke=ink),
        *(svg.circle(point, DOT, fill=ink) for point in points[1:-1])])


def disc(view, track):
    return svg.circle(view.at(track.last()), view.scale * track.radius, fill=colour(track.index))


def drone(view, track):
    return drone_sign(view.at(track.last()), view.scale * track.radius, colour(track.index))


def drone_sign(centre, radius, ink):
    """A circle of the radius, and a dot for the centre, which is seen where the circle is too small."""
    return svg.circle(centre, radius, fill="none", stroke=ink, stroke_width=1.3) + svg.circle(centre, DOT, fill=ink)


def velocity(view, track):
    return svg.arrow(view.at(track.last()), view.at(track.tip()), colour(track.index))


def near_line(start, end):
    """A line with dots at its ends; a ring where the view shows the two at one place."""
    if math.dist(start, end) < 6:
        return svg.circle(start, 7, fill="none", stroke=ALARM, stroke_width=2)
    return (svg.line(start, end, stroke=ALARM, stroke_width=2)
            + svg.circle(start, 3, fill=ALARM) + svg.circle(end, 3, fill=ALARM))


# ---- words in a panel


class Words(NamedTuple):
    """Words in a drawing: the middle of their base line, what is said, and how large."""
    x: float
    y: float
    said: str
    size: float

    def touches(self, other):
        apart = (svg.width_of(self.said, self.size) + svg.width_of(other.said, other.size)) / 2 + 4
        return abs(self.x - other.x) < apart and abs(self.y - other.y) < max(self.size, other.size)


def place_first(choices, placed):
    """Places the first of several words that has room beside those that are placed, and says whether one has."""
    for words in choices:
        if not any(map(words.touches, placed)):
            placed.append(words)
            return True
    return False


def labels(view, tracks, near):
    """The indices beside the drones, and the distances of pairs that are too near, where there is room for them."""
    size = LETTERS if len(tracks) <= 24 else LETTERS - 2
    placed, held = [], []
    for together in at_one_place(view, tracks):
        choices = corners(view, together, size)
        if place_first(choices, placed):
            held.append(together)
        else:
            upon = next(at for at, words in enumerate(placed) if words.touches(choices[0]))
            held[upon] = sorted(held[upon] + together)
    for words, group in zip(list(placed), held):
        indices = [track.index for track in group]
        yield label(words._replace(said=scene.ranges(indices)), colour(indices[0]) if len(indices) == 1 else INK)
    for pair in near[:MOST_NAMED]:
        if place_first(beside(view, pair), placed):
            yield label(placed[-1], ALARM)


def at_one_place(view, tracks):
    """The drones in groups, those together that a view shows at one place."""
    groups = {}
    for track in tracks:
        groups.setdefault(tuple(round(pixel / 4) for pixel in view.at(track.last())), []).append(track)
    return groups.values()


def corners(view, together, size):
    """Where the indices may stand: above at the left of the drone, or at another of its corners."""
    (x, y), said = view.at(together[0].last()), scene.ranges([track.index for track in together])
    away = 0.7 * min(8, view.scale * together[0].radius) + 3
    aside = away + svg.width_of(said, size) / 2
    return [Words(x + right * aside, y + (away + 0.75 * size if is_below else -away), said, size)
            for right, is_below in ((-1, False), (1, True), (1, False), (-1, True))]


def beside(view, pair):
    """Where a distance may stand: below the middle of its line, or above, or nearer to one of its ends."""
    (x, y), (to_x, to_y) = map(view.at, pair.ends)
    return [Words(x + part * (to_x - x), y + part * (to_y - y) + away, metres(pair.distance), LETTERS)
            for part in (0.5, 0.3, 0.7) for away in (LETTERS + 5, -8)]


def label(words, ink):
    return svg.text((words.x, words.y), words.said, text_anchor="middle", font_size=words.size, font_weight="bold",
                    fill=ink, **HALO)


def metres(distance):
    """A distance to the millimetre."""
    return f"{distance:.3f} m" if distance < 1e6 else f"{distance:.4g} m"


# ---- around the panels


def title_of(names, fleets):
    count = max(map(len, fleets))
    agents = "1 agent" if count == 1 else f"{count} agents"
    if len(fleets) == 1:
        return f"{shortened(names[0])}: {agents}"
    return f"{shortened(names[0])} to {shortened(names[-1])}: {len(fleets)} files, {agents}"


def shortened(name):
    """A file's own name, without its folders."""
    name = "standard input" if name == "-" else os.path.basename(name)
    return name if len(name) <= 40 else f"{name[:18]} .. {name[-18:]}"


def scale_bar(right, scale):
    """A bar of a round length, at the upper right."""
    length = rounded_up(LEAST_BAR / scale)
    left, y = right - scale * length, 40
    bar = f"M{left:.2f},{y - 5}v10M{left:.2f},{y}H{right:.2f}M{right:.2f},{y - 5}v10"
    return (svg.element("path", d=bar, fill="none", stroke=INK, stroke_width=1.5)
            + svg.text(((left + right) / 2, y - 8), f"{length:g} m", text_anchor="middle", fill=INK))


def legend_of(left, top, is_flight, limit):
    """What the signs mean, a row for each."""
    ink, x = COLOURS[0], left + 18
    rows = [
        (lambda y: svg.circle((x, y), 8, fill=ink, opacity=PALE) + drone_sign((x, y), 8, ink),
         "a drone, with its radius and its index" + (", in the last file" if is_flight else "")),
        (lambda y: svg.arrow((x - 14, y), (x + 14, y), ink), "its velocity, as far as a second takes it"),
        (lambda y: goal_sign((x - 16, y), (x + 10, y), ink), "its goal")]
    if is_flight:
        rows.append((lambda y: way_sign([(x - 8, y), (x + 6, y), (x + 16, y)], 6, ink),
                     "its way from its place in the first file, with a dot for each file between"))
    if limit is not None:
        rows.append((lambda y: near_line((x - 12, y), (x + 12, y)),
                     f"a pair with centres nearer than {limit:g} m" + (", where it is nearest" if is_flight else "")))
    return [sign(top + 4 + ROW * row) + svg.text((left + 44, top + 8 + ROW * row), words, fill=INK)
            for row, (sign, words) in enumerate(rows)]


def near_words(names, near, limit):
    """The pairs that are too near, the nearest first."""
    if limit is None:
        return
    count = len(near)
    # nothing is known of the time between two files
    moments = " at these moments" if len(names) > 1 else ""
    yield f"{count or 'no'} pair{'' if count == 1 else 's'} nearer than {limit:g} m{moments}{':' if near else ''}"
    for pair in near[:MOST_NAMED]:
        where = f", in {shortened(names[pair.file])}" if len(names) > 1 else ""
        yield f"{pair.first} and {pair.second}: {metres(pair.distance)}{where}"
    if count > MOST_NAMED:
        yield f"and {count - MOST_NAMED} more"


def notes_of(left, top, lines):
    return [svg.text((left, top + 8 + ROW * row), line, fill=INK) for row, line in enumerate(lines)]
