"""The text form of a fleet: a line for each agent, which a person can write.

    # two drones that meet
    agent left  gx=1.5
    agent right x=4 gx=4

A line is `agent`, a name where one is wanted, and `key=value` for what is not as in the standard agent. The name is
for the reader alone: a fleet file has none.
"""
from door import fleet, numbers

# Document 01's agent at 0: radius and responsibility 1, maximum speed and horizon 2, fallback (0, 0, 1).
CHANGED = {"radius": "1", "responsibility": "1", "speed": "2", "horizon": "2", "fz": "1"}
STANDARD = {key: numbers.word(CHANGED.get(key, "0")) for key in fleet.KEYS}


class BadText(Exception):
    """A line that can't be read: its number, counted from 1, and what is wrong with it."""

    def __init__(self, line, wrong):
        super().__init__(f"line {line}: {wrong}")


def changes(pairs):
    """The words that pairs `key=value` give, by key."""
    given = {}
    for pair in pairs:
        key, equals, value = pair.partition("=")
        if not equals:
            raise ValueError(f"{pair!r} is not of the form key=value")
        if key not in fleet.KEYS:
            raise ValueError(f"there is no key {key!r}; the keys are {' '.join(fleet.KEYS)}")
        if key in given:
            raise ValueError(f"{key} is given twice")
        try:
            given[key] = numbers.whole_word(value) if key == fleet.MARGIN else numbers.word(value)
        except ValueError as wrong:
            raise ValueError(f"{key}: {wrong}") from None
    return given


def encoded(given):
    """A fleet file: for each agent the pairs `key=value` of what is not as in the standard one."""
    return fleet.encoded({**STANDARD, **changes(pairs)} for pairs in given)


def read(text):
    """The agents of a text, in its order."""
    agents, named = [], {}
    for number, line in enumerate(text.split("\n"), 1):
        words = line.partition("#")[0].split()
        if not words:
            continue
        try:
            name, agent = _agent(words)
            if len(agents) == fleet.MOST_AGENTS:
                raise ValueError(f"a fleet has at most {fleet.MOST_AGENTS} agents, and this is one more")
            if name and named.setdefault(name, number) != number:
                raise ValueError(f"the name {name} is that of line {named[name]}")
        except ValueError as wrong:
            raise BadText(number, wrong) from None
        agents.append(agent)
    return agents


def _agent(words):
    """The name that a line gives, if it does, and its agent."""
    first, *rest = words
    if first != "agent":
        raise ValueError(f"a line begins with 'agent', and not with {first!r}")
    name = rest.pop(0) if rest and "=" not in rest[0] else None
    return name, {**STANDARD, **changes(rest)}


def write(agents):
    """A text that reads as these agents, each named by its index."""
    left_out = " ".join(f"{key}={value}" for key, value in CHANGED.items())
    head = f"# What a line leaves out is as in the standard agent: {left_out}, and 0.\n"
    return head + "".join(_line(index, agent) for index, agent in enumerate(agents))


def _line(index, agent):
    given = [f"{key}={fleet.shown(agent, key)}" for key in fleet.KEYS if agent[key] != STANDARD[key]]
    return " ".join(["agent", str(index), *given]) + "\n"
