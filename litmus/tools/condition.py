"""Final states as they are written in a test, and conditions on them, by the grammar of herd7."""

import re
from typing import NamedTuple

TOKENS = re.compile(r"\s*(/\\|\\/|~|\(|\)|\d+:r[0-7]|\[\w+\]|=|\d+|true)")
LOCATION = re.compile(r"(\d+):r([0-7])|\[(\w+)\]")


class Location(NamedTuple):
    """A register of a tile, or a word of memory by its name (then the tile is None)."""

    tile: int | None
    register: int | None
    word: str | None

    def __str__(self):
        return f"[{self.word}]" if self.tile is None else f"{self.tile}:r{self.register}"

    def order(self):
        """Registers come before words; registers by tile and number, words by name."""
        return (self.tile is None, self.tile or 0, self.register or 0, self.word or "")


def location(text):
    found = LOCATION.fullmatch(text.strip())
    if not found:
        raise ValueError(f"no register and no word: {text}")
    tile, register, word = found.groups()
    return Location(None, None, word) if word else Location(int(tile), int(register), None)


def parse_state(text):
    """The values of `0:r2=0; [x]=1;`, by their locations."""
    pairs = [piece.split("=") for piece in text.split(";") if piece.strip()]
    return {location(left): int(right) for left, right in pairs}


def parse_locations(text):
    """The locations of `0:r2; [x];`."""
    return [location(piece) for piece in text.split(";") if piece.strip()]


def state_text(state):
    return " ".join(f"{place}={value};" for place, value in state)


class Condition:
    """A quantifier, `exists`, `~exists` or `forall`, and a proposition on final states."""

    def __init__(self, text):
        self.text = text
        self.quantifier, _, proposition = text.partition(" ")
        self.tokens = []
        while proposition.strip():
            found = TOKENS.match(proposition)
            if not found:
                raise ValueError(f"condition: {proposition}")
            self.tokens.append(found.group(1))
            proposition = proposition[found.end() :]
        self.locations = {location(token) for token in self.tokens if LOCATION.fullmatch(token)}
        self.proposition = self._either()
        if self.tokens:
            raise ValueError(f"condition: {' '.join(self.tokens)}")

    def holds(self, state):
        """Whether the proposition holds in a final state, given as pairs of locations and values."""
        return self.proposition(dict(state))

    def kind(self):
        """What herd7 calls a test with such a condition."""
        return {"exists": "Allowed", "~exists": "Forbidden", "forall": "Required"}[self.quantifier]

    def is_met(self, positive, negative):
        """Whether the condition is met, by how many outcomes have the proposition and how many have not."""
        return {"exists": positive > 0, "~exists": positive == 0, "forall": negative == 0}[self.quantifier]

    def _take(self, token):
        if self.tokens[:1] == [token]:
            self.tokens.pop(0)
            return True
        return False

    def _either(self):
        left = self._both()
        while self._take("\\/"):
            left = self._joined(any, left, self._both())
        return left

    def _both(self):
        left = self._one()
        while self._take("/\\"):
            left = self._joined(all, left, self._one())
        return left

    @staticmethod
    def _joined(join, left, right):
        return lambda state: join((left(state), right(state)))

    def _one(self):
        if self._take("~"):
            inner = self._one()
            return lambda state: not inner(state)
        if self._take("true"):
            return lambda state: True
        if self._take("("):
            inner = self._either()
            if not self._take(")"):
                raise ValueError(f"condition: {self.text}")
            return inner
        place, equals, value = location(self.tokens.pop(0)), self.tokens.pop(0), int(self.tokens.pop(0))
        if equals != "=":
            raise ValueError(f"condition: {self.text}")
        return lambda state: state[place] == value
