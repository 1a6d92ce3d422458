"""Fleet files: records of 76 bytes, no header, each 19 little-endian words.

An agent is a dictionary of its words by key, in the order of a record.
"""
import struct

from door import numbers

KEYS = tuple(
    "x y z vx vy vz radius responsibility gx gy gz speed horizon fx fy fz obstacles margin distance".split())
NAMES = dict(zip(KEYS, (
    "the position's x", "the position's y", "the position's z",
    "the velocity's x", "the velocity's y", "the velocity's z",
    "the radius", "the responsibility",
    "the goal's x", "the goal's y", "the goal's z",
    "the maximum speed", "the time horizon",
    "the fallback's x", "the fallback's y", "the fallback's z",
    "the obstacle time horizon", "the margin", "the distance")))
# the one word that is a whole number
MARGIN = "margin"

RECORD_WORDS = len(KEYS)
RECORD_BYTES = 4 * RECORD_WORDS
MOST_AGENTS = 64
MOST_BYTES = MOST_AGENTS * RECORD_BYTES


class NotAFleet(Exception):
    """So many bytes are no fleet file: what load refuses by 14."""

    def __init__(self, length):
        super().__init__(length)
        self.length = length


def packed(words):
    """Little-endian bytes of words."""
    return struct.pack(f"<{len(words)}I", *words)


def words(agent):
    """The 19 words of a record."""
    return [agent[key] for key in KEYS]


def encoded(agents):
    """The bytes of a fleet file, of any number of agents."""
    return b"".join(packed(words(agent)) for agent in agents)


def decoded(data):
    """The agents of a fleet file. Nothing is said against their numbers: a record may be one that load refuses."""
    if len(data) % RECORD_BYTES or len(data) > MOST_BYTES:
        raise NotAFleet(len(data))
    return [dict(zip(KEYS, record)) for record in struct.iter_unpack(f"<{RECORD_WORDS}I", data)]


def moved(data, lines):
    """A fleet file with the positions and velocities of onetick's lines, an index and six words in hex each."""
    agents = decoded(data)
    for agent, (_, *ticked) in zip(agents, lines):
        agent.update(zip(KEYS, (int(word, 16) for word in ticked)))
    return encoded(agents)


def vector(agent, *keys):
    """The numbers of an agent that stand under these keys."""
    return tuple(numbers.value(agent[key]) for key in keys)


def position(agent):
    return vector(agent, "x", "y", "z")


def velocity(agent):
    return vector(agent, "vx", "vy", "vz")


def goal(agent):
    return vector(agent, "gx", "gy", "gz")


def shown(agent, key):
    """A word as the text form has it."""
    return str(agent[key]) if key == MARGIN else numbers.shortest(agent[key])
