"""What there is to draw: agents over the files of a flight, and pairs that are near each other."""
import itertools
import math
from typing import NamedTuple, Optional

from door import fleet, numbers


class Track(NamedTuple):
    """An agent over the files: where it is in each, None where it is nowhere, and what it is like in the last."""
    index: int
    places: list
    radius: float = 0.0
    velocity: Optional[tuple] = None
    goal: Optional[tuple] = None

    def seen(self):
        """Where it is, in the order of the files."""
        return [place for place in self.places if place]

    def last(self):
        return self.seen()[-1]

    def tip(self):
        """Where its velocity takes it in a second."""
        return tuple(place + step for place, step in zip(self.last(), self.velocity))

    def reach(self, axis):
        """The numbers that its parts have on an axis: circles, the tip of the velocity, the goal."""
        for place in self.seen():
            yield from (place[axis] - self.radius, place[axis] + self.radius)
        if self.velocity:
            yield self.tip()[axis]
        if self.goal:
            yield self.goal[axis]


class Near(NamedTuple):
    """A pair at the moment at which it is nearest: the distance, the two agents, the file, and where they are."""
    distance: float
    first: int
    second: int
    file: int
    ends: tuple


def tracks(fleets):
    """The agents that are somewhere."""
    every = map(track, itertools.count(), by_agent(fleets))
    return [one for one in every if one.seen()]


def by_agent(fleets):
    """For each index what the files have there, None where a file is too short."""
    return itertools.zip_longest(*fleets)


def track(index, agents):
    places = [agent and finite(fleet.position(agent)) for agent in agents]
    last = next((agent for agent, place in zip(reversed(agents), reversed(places)) if place), None)
    if last is None:
        return Track(index, places)
    radius = numbers.value(last["radius"]) if has_radius(last) else 0.0
    return Track(index, places, radius, finite(fleet.velocity(last)), finite(fleet.goal(last)))


def finite(vector):
    """A vector, if it can be drawn."""
    return vector if all(map(math.isfinite, vector)) else None


def has_radius(agent):
    """Whether the radius can be drawn."""
    return 0 <= numbers.value(agent["radius"]) < math.inf


def near_pairs(tracked, limit):
    """The pairs that are nearer than the limit in some file, the nearest first."""
    nearest = (moment(*pair) for pair in itertools.combinations(tracked, 2))
    return sorted(near for near in nearest if near and near.distance < limit)


def moment(one, other):
    """When two agents are nearest, if they are ever in one file."""
    return min((Near(math.dist(a, b), one.index, other.index, file, (a, b))
                for file, (a, b) in enumerate(zip(one.places, other.places)) if a and b), default=None)


def shortcomings(fleets):
    """What can't be drawn, in lines."""
    agents = list(by_agent(fleets))
    if not agents:
        yield "there are no agents"
    if len(set(map(len, fleets))) > 1:
        yield "not every file has every agent: a way ends with the last file that has it"
    for words, is_drawn in (
            ("position not finite, not drawn there", lambda agent: finite(fleet.position(agent))),
            ("velocity not finite, not drawn", lambda agent: finite(fleet.velocity(agent))),
            ("goal not finite, not drawn", lambda agent: finite(fleet.goal(agent))),
            ("radius below 0 or not finite, drawn as 0", has_radius)):
        bad = [index for index, files in enumerate(agents) if any(agent and not is_drawn(agent) for agent in files)]
        if bad:
            yield f"{words}: {ranges(bad)}"


def ranges(indices, most=4):
    """Rising indices in short: 0-3, 7, .."""
    parts = []
    for _, run in itertools.groupby(enumerate(indices), lambda pair: pair[1] - pair[0]):
        run = [str(index) for _, index in run]
        parts += run if len(run) < 3 else [f"{run[0]}-{run[-1]}"]
    return ", ".join(parts[:most] + [".."] * (len(parts) > most))
