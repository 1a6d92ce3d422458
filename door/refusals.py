"""A refusal in words: what its number says, and what its place means.

The numbers are those of the documents' table. What a place means depends on who refused: a call on the table, as the
programs on fleet files pass it on; the velocity call by itself; or the spacing report, whose 9 and 14 are its own.
"""
import re
from typing import NamedTuple

from door import fleet, numbers

MOST_NEIGHBOURS = 63
MOST_FRAMES = 1048576
ANY = 2 ** 64

LINE = re.compile(rb"refused ([0-9]+) ([0-9]+)(?: frame [0-9]+)?\n")


class Unknown(Exception):
    """Nothing is refused with that number, or at that place."""


class Row(NamedTuple):
    """The places at which a number is given, and its words, with {} for the place."""
    places: range
    words: str


# What the velocity call says of a call as a whole, and a plan may pass on.
WHOLE_CALL = {
    1: Row(range(1), "the neighbours' numbers are not a multiple of 8"),
    2: Row(range(12, 12 * MOST_NEIGHBOURS + 1, 12), "scratch is too short, {} numbers are needed"),
    7: Row(range(1), "the velocity is not finite"),
    17: Row(range(MOST_NEIGHBOURS + 1, ANY), "there are {} neighbours, and at most 63 are allowed"),
}
CALL = {
    **WHOLE_CALL,
    6: Row(range(MOST_NEIGHBOURS), "the plane for neighbour {} is not finite"),
    18: Row(range(MOST_NEIGHBOURS), "on plane {}, that of the neighbour, a clamp's lower bound is not <= its upper"),
}
TABLE = {
    **WHOLE_CALL,
    6: Row(range(fleet.MOST_AGENTS), "of a plan, the plane for its neighbour agent {} is not finite"),
    8: Row(range(ANY), "there is no agent {}"),
    9: Row(range(64, 65), "the table is full, with {} agents"),
    10: Row(range(1), "a tick is open"),
    11: Row(range(1), "no tick is open"),
    12: Row(range(fleet.MOST_AGENTS), "at the close, agent {} is the first without a plan"),
    13: Row(range(fleet.MOST_AGENTS), "at the close, agent {} is the first whose new position is not finite"),
    16: Row(range(fleet.RECORD_BYTES, fleet.MOST_BYTES + 1, fleet.RECORD_BYTES),
            "the buffer is too short, {} bytes are needed"),
    18: Row(range(MOST_NEIGHBOURS), "of a plan, on its plane {}, a clamp's lower bound is not <= its upper"),
}
SPACING = {
    14: Row(range(ANY), "the recording ends within a frame, {} complete numbers into it: it is cut off, or has another number of drones"),
}

# The velocity call's numbers, before the eight of each neighbour, which are as its own first eight.
CALL_NAMES = (
    "the position's x", "the position's y", "the position's z",
    "the velocity's x", "the velocity's y", "the velocity's z",
    "the radius", "the responsibility",
    "the preferred velocity's x", "the preferred velocity's y", "the preferred velocity's z",
    "the maximum speed", "the time step", "the time horizon",
    "the fallback's x", "the fallback's y", "the fallback's z")
PER_NEIGHBOUR = 8

# What can be wrong with a number, by the refusal and the number's name. 3 is given for any but the margin.
WRONG = {
    3: {name: "is not finite" for name in (*CALL_NAMES, *fleet.NAMES.values()) if name != fleet.NAMES[fleet.MARGIN]},
    4: {"the radius": "is below 0", "the responsibility": "is below 0", "the maximum speed": "is below 0",
        "the time step": "is not above 0", "the time horizon": "is not above 0"},
    5: {"the fallback's x": "begins a fallback that, dotted with itself, is below 0.99999 or above 1.00001"},
    15: {"the margin": "is neither 0 nor 1", "the distance": "is not zero, and the margin is 0"},
}

# where a plan's 3 can be, in the preferred velocity; and open's 3 and 4, the time step
PREFERRED = range(8, 11)
OPEN_STEP = 12


def parted(output):
    """The number and the place, where a program's output is the line `refused N P`, or that with a frame; else None."""
    line = LINE.fullmatch(output)
    return line and tuple(map(int, line.groups()))


# ---- by who refused


def of_table(number, place):
    """A refusal of a call on the table, as the programs on fleet files pass it on."""
    if number == 14:
        return of_length(place)
    if number in WRONG:
        return "; or ".join([of_record(number, place), *of_other_calls(number, place)])
    if number == 19:
        raise Unknown("19 is the spacing report's: explain --spacing 19 P")
    return said(TABLE, number, place, "a call on the table")


def of_file(number, place, data):
    """The same where the fleet file is at hand: what stands at the place, and who refused.

    A 3 at 8, 9 or 10 is load's where the goal of record 0 is not finite. Else it is a plan's: the preferred velocity,
    goal - position, is the one part of a plan's call that load has not looked at.
    """
    if number not in WRONG:
        return of_table(number, place)
    agents = fleet.decoded(data)
    word = word_at(agents, place)
    if number == 3 and place in PREFERRED and word is not None and numbers.is_finite(word):
        return of_plan(place, agents)
    found = "" if word is None else f" (it is {shown_at(agents, place)}, bits {numbers.digits(word)})"
    return of_record(number, place) + found


def of_call(number, place):
    """A refusal of the velocity call by itself."""
    if number not in WRONG:
        return said(CALL, number, place, "the velocity call")
    if place < len(CALL_NAMES):
        return f"number {place}, {wrong(number, place, CALL_NAMES[place])}"
    neighbour, at = divmod(place - len(CALL_NAMES), PER_NEIGHBOUR)
    if neighbour >= MOST_NEIGHBOURS:
        raise nowhere(number, place)
    return f"neighbour {neighbour}, number {at}, {wrong(number, place, CALL_NAMES[at])}"


def of_spacing(number, place):
    """A refusal of the spacing report."""
    if (number, place) == (9, fleet.MOST_AGENTS):
        return f"there are over {place} agents"
    if (number, place) == (9, MOST_FRAMES):
        return f"there are over {place} frames"
    if number == 19 and place < 3 * fleet.MOST_AGENTS:
        agent, axis = divmod(place, 3)
        return f"number {place}, the {'xyz'[axis]} of agent {agent}, is not from -16384 to 16384"
    if number in (9, 19):
        raise nowhere(number, place)
    return said(SPACING, number, place, "the spacing report")


# ---- parts


def of_length(length):
    if length % fleet.RECORD_BYTES:
        return f"{length} bytes are not a whole number of records of {fleet.RECORD_BYTES} bytes"
    if length > fleet.MOST_BYTES:
        return f"{length} bytes are {length // fleet.RECORD_BYTES} records, and a fleet has at most {fleet.MOST_AGENTS}"
    raise nowhere(14, length)


def of_record(number, place):
    record, word = divmod(place, fleet.RECORD_WORDS)
    if record >= fleet.MOST_AGENTS:
        raise nowhere(number, place)
    return f"record {record}, word {word}, {wrong(number, place, fleet.NAMES[fleet.KEYS[word]])}"


def of_other_calls(number, place):
    """What a number at that place is where it comes from a call with no record in it."""
    if number == 3 and place in PREFERRED:
        return [f"of the call goal, {wrong(number, place, fleet.NAMES[fleet.KEYS[place]])}",
                f"of a plan, {beyond(place)}"]
    if number in (3, 4) and place == OPEN_STEP:
        return [f"of the call open, {wrong(number, place, 'the time step')}"]
    return []


def of_plan(place, agents):
    """A plan's 3: that of the first agent whose goal - position is beyond the last number, if the file shows it."""
    overflowing = ((index, at) for index, agent in enumerate(agents) for at in PREFERRED if overflows(agent, at))
    index, at = next(overflowing, (None, None))
    return f"of {'a plan after the first tick' if at != place else f'the plan of agent {index}'}, {beyond(place)}"


def overflows(agent, place):
    """Whether the preferred velocity's number at a place, goal - position, is beyond the last number."""
    goal, start = agent[fleet.KEYS[place]], agent[fleet.KEYS[place - PREFERRED.start]]
    try:
        numbers.rounded(numbers.value(goal) - numbers.value(start))
    except OverflowError:
        return True
    return False


def beyond(place):
    return f"{CALL_NAMES[place]}, goal - position, is beyond the last number"


def word_at(agents, place):
    """The word at a place of a fleet file, if it has the place."""
    record, word = divmod(place, fleet.RECORD_WORDS)
    return agents[record][fleet.KEYS[word]] if record < len(agents) else None


def shown_at(agents, place):
    record, word = divmod(place, fleet.RECORD_WORDS)
    return fleet.shown(agents[record], fleet.KEYS[word])


def wrong(number, place, name):
    """What is wrong with the number of a name."""
    if name not in WRONG[number]:
        raise nowhere(number, place)
    return f"{name}, {WRONG[number][name]}"


def said(rows, number, place, who):
    if number not in rows:
        raise Unknown(f"{who} is never refused with {number}")
    if place not in rows[number].places:
        raise nowhere(number, place)
    return rows[number].words.format(place)


def nowhere(number, place):
    return Unknown(f"{number} is never given at place {place}")
