"""The few elements of SVG that a drawing needs, as text."""
import html
import math

# the width of a letter in its own size, on average, of the fonts that a viewer may choose
LETTER = 0.6


def element(kind, inside=None, **attributes):
    """An element; a `_` in an attribute's name is a hyphen."""
    given = "".join(f' {name.replace("_", "-")}="{html.escape(_value(value))}"' for name, value in attributes.items())
    return f"<{kind}{given}/>" if inside is None else f"<{kind}{given}>{inside}</{kind}>"


def _value(value):
    """A number to a hundredth, which is finer than anybody sees."""
    return value if isinstance(value, str) else f"{value:.2f}".rstrip("0").rstrip(".")


def document(width, height, title, elements, **attributes):
    """A whole drawing, on white."""
    inside = [element("title", escaped(title)), box(0, 0, width, height, fill="white"), *elements]
    return element("svg", "\n" + "\n".join(inside) + "\n", xmlns="http://www.w3.org/2000/svg", width=width,
                   height=height, viewBox=f"0 0 {width:.2f} {height:.2f}", **attributes) + "\n"


def group(elements, **attributes):
    return element("g", "\n" + "\n".join(elements) + "\n", **attributes)


def line(start, end, **attributes):
    return element("line", x1=start[0], y1=start[1], x2=end[0], y2=end[1], **attributes)


def polyline(points, **attributes):
    return element("polyline", points=" ".join(f"{x:.2f},{y:.2f}" for x, y in points), fill="none", **attributes)


def circle(centre, radius, **attributes):
    return element("circle", cx=centre[0], cy=centre[1], r=radius, **attributes)


def box(left, top, width, height, **attributes):
    return element("rect", x=left, y=top, width=width, height=height, **attributes)


def text(at, words, **attributes):
    return element("text", escaped(words), x=at[0], y=at[1], **attributes)


def cross(centre, size, **attributes):
    left, top, side = centre[0] - size, centre[1] - size, 2 * size
    strokes = f"M{left:.2f},{top:.2f}l{side},{side}M{left:.2f},{top + side:.2f}l{side},{-side}"
    return element("path", d=strokes, fill="none", **attributes)


def arrow(start, end, colour, head=7.0):
    """An arrow, whose head is smaller where the arrow is short; nothing where there is no length to see."""
    length = math.dist(start, end)
    if length < 1.5:
        return ""
    head = min(head, 0.6 * length)
    along = [(b - a) / length for a, b in zip(start, end)]
    foot = [b - head * d for b, d in zip(end, along)]
    across = (-along[1] * head * 0.4, along[0] * head * 0.4)
    tips = [end, (foot[0] + across[0], foot[1] + across[1]), (foot[0] - across[0], foot[1] - across[1])]
    return (line(start, foot, stroke=colour, stroke_width=1.8)
            + element("polygon", points=" ".join(f"{x:.2f},{y:.2f}" for x, y in tips), fill=colour))


def width_of(words, size):
    """About how wide a text is."""
    return LETTER * size * len(words)


def escaped(words):
    """Text for XML, which has no character for some that a file's name may have."""
    return html.escape("".join(letter if letter.isprintable() else "\N{REPLACEMENT CHARACTER}" for letter in words))
