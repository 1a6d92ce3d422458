"""Tables of numbers, with the decimal points of a column below each other."""
from door import fleet, numbers

# how an agent flies, beside where it is and goes
PARAMETERS = [key for key in fleet.KEYS if key not in "x y z vx vy vz gx gy gz".split()]
KEY_WIDTH = max(map(len, fleet.KEYS))


def table(head, rows):
    """A line for the head and for each row, of cells that are text."""
    columns = [_column(name, cells) for name, *cells in zip(head, *rows)]
    return "".join("  ".join(line).rstrip() + "\n" for line in zip(*columns))


def _column(name, cells):
    """The cells of a column, all of one width, below its name."""
    before, after = 0, 0
    for cell in cells:
        before, after = max(before, _before_point(cell)), max(after, len(cell) - _before_point(cell))
    placed = [" " * (before - _before_point(cell)) + cell for cell in cells]
    width = max(len(name), before + after)
    return [name.rjust(width), *(cell.ljust(before + after).rjust(width) for cell in placed)]


def _before_point(number):
    """How much of a number stands before its decimal point."""
    return len(number.partition(".")[0])


def of_ticked(lines):
    """What onetick prints for the agents: index, position and velocity."""
    rows = [[index, *(numbers.shortest(int(word, 16)) for word in words)] for index, *words in lines]
    return table(["agent", *fleet.KEYS[:6]], rows)


def of_fleet(agents):
    """A line for each agent; what is the same for all, and says nothing of where they are or go, stands once below."""
    common = [key for key in PARAMETERS if len({agent[key] for agent in agents}) == 1]
    keys = [key for key in fleet.KEYS if key not in common]
    rows = [[str(index), *(fleet.shown(agent, key) for key in keys)] for index, agent in enumerate(agents)]
    return table(["agent", *keys], rows) + _every(agents, common)


def _every(agents, keys):
    return " ".join(["every agent:", *(f"{key}={fleet.shown(agents[0], key)}" for key in keys)]) + "\n" if keys else ""


def of_places(agents):
    """A line for each number: its place, its key, its bits, and what it is in decimals."""
    rows = []
    for index, agent in enumerate(agents):
        for word, key in enumerate(fleet.KEYS):
            place = fleet.RECORD_WORDS * index + word
            rows.append([str(index), str(word), str(place), key.ljust(KEY_WIDTH), numbers.digits(agent[key]),
                         fleet.shown(agent, key)])
    return table(["agent", "word", "place", "key".ljust(KEY_WIDTH), "bits", "decimal"], rows)
