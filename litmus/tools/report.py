"""The report of a run, as `scorpio step` writes it (docs/report.md)."""

from dataclasses import dataclass

WORDS = {"ld": "ld", "st": "st", "sw": "swap", "fa": "fadd"}


@dataclass(frozen=True)
class Request:
    """An ordered request: its source, how many requests the source made before, its kind and its line."""

    source: int
    number: int
    kind: str
    line: int

    def is_get(self):
        return self.kind != "PutM"

    def is_like(self, other):
        """Whether it is of the same tile and for the same line."""
        return (self.source, self.line) == (other.source, other.line)


@dataclass(frozen=True)
class Performed:
    """An access that was performed; `old` is None for a load and a store."""

    tile: int
    number: int
    word: str
    address: int
    value: int
    time: int
    old: int | None

    def __str__(self):
        return f"access {self.number} of tile {self.tile} ({self.word} at {self.address}, value {self.value})"


class Report:
    """The lines of a report by their kinds. Events are lists of words, without the `e`."""

    def __init__(self, text):
        self.requests, self.accesses, self.steps, self.events, memory = [], [], [], [], []
        self.is_finished = False
        for line in text.splitlines():
            first, *words = line.split(" ")
            if first == "q":
                self.requests.append(Request(int(words[1]), int(words[2]), words[3], int(words[4])))
            elif first == "a":
                self.accesses.append(performed(words))
            elif first == "s":
                self.steps.append(int(words[2]))
            elif first == "m":
                memory += [int(word) for word in words[1:]]
            elif first == "e":
                self.events.append(words)
            elif first == "ended":
                self.is_finished = words == ["finished"]
        self.memory = tuple(memory)


def performed(words):
    tile, number, word, address, value, time, *old = words
    return Performed(int(tile), int(number), WORDS[word], int(address), int(value), int(time), int(old[0]) if old else None)
