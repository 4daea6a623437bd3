"""A litmus test: a description of programs, and in the comments above it what is claimed of their outcomes."""

import re
import tomllib
from pathlib import Path

from assembly import Program
from condition import Condition, parse_locations, parse_state

WORD = re.compile(r"\[(\w+)\] is word (\d+)")
HEADINGS = ("has to show:", "may show:")


class Description:
    """What the keys of a description say of its programs and of memory."""

    def __init__(self, text):
        document = tomllib.loads(text)
        mesh = document["mesh"]
        self.tiles = mesh["cols"] * mesh["rows"]
        self.channels = mesh.get("vcs", 1)
        self.controllers = mesh.get("controllers", [0])
        words = 4 * mesh.get("lines", 16)
        first = mesh.get("memory", [])
        self.memory = tuple(first) + (0,) * (words - len(first))
        codes = {core["tile"]: core["code"] for core in document.get("core", [])}
        self.programs = [Program(codes.get(tile, ""), tile) for tile in range(self.tiles)]


class Test:
    """A description with its claims: a condition on final states, the final states that are allowed and those of them that
    some run has to show, and the races that some run has to show."""

    def __init__(self, path):
        self.path = Path(path)
        self.name = self.path.stem
        self.text = self.path.read_text(encoding="utf-8")
        self.description = Description(self.text)
        self.words, self.races, self.condition = {}, [], None
        self._further = []
        listed = {heading: [] for heading in HEADINGS}
        heading = None
        for line in claims(self.text):
            if line in HEADINGS:
                heading = line
            elif heading and line.endswith(";"):
                listed[heading].append(parse_state(line))
            else:
                heading = None
                self._claim(line)
        if self.condition is None:
            raise ValueError(f"{self.path}: no condition")
        self.locations = sorted(self.condition.locations.union(self._further), key=lambda place: place.order())
        self.shown = {self._state(values) for values in listed["has to show:"]}
        self.allowed = self.shown | {self._state(values) for values in listed["may show:"]}

    def _claim(self, line):
        first, _, rest = line.partition(" ")
        if first in ("exists", "~exists", "forall"):
            self.condition = Condition(line)
        elif first == "locations":
            self._further = parse_locations(rest)
        elif first == "race":
            self.races.append(rest)
        else:
            self.words.update((name, int(number)) for name, number in WORD.findall(line))

    def _state(self, values):
        if set(values) != set(self.locations):
            raise ValueError(f"{self.path}: a state has other locations than the condition")
        return tuple((place, values[place]) for place in self.locations)

    def observed(self, cores, memory):
        """What is seen of a final state of the cores and of memory: the values of the test's locations."""
        return tuple((place, self._value(place, cores, memory)) for place in self.locations)

    def _value(self, place, cores, memory):
        if place.tile is not None:
            return cores[place.tile].registers[place.register]
        return memory[self.words[place.word]]


def claims(text):
    """The comment lines above the description."""
    for line in text.split("\n"):
        if not line.startswith("#"):
            return
        yield line[1:].strip()
