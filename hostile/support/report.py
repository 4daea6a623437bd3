"""The report of a run, read line by line."""

from dataclasses import dataclass


class Malformed(Exception):
    """A text that is no report."""


@dataclass
class Access:
    tile: int
    number: int
    op: str
    address: int
    value: int
    time: int
    old: int = 0


@dataclass
class Report:
    requests: list   # (source, number, kind, line)
    seen: list       # how many requests each tile has seen
    steps: list      # how many steps each core did
    accesses: list
    memory: list     # the words, empty where the run did not finish
    windows: int
    hops: int
    journal: list    # the words of each event, without `e`
    ended: str


class _Lines:
    def __init__(self, text):
        if not text.endswith(b"\n"):
            raise Malformed("no line feed at the end")
        self.lines = iter(text.decode("ascii").split("\n")[:-1])

    def next(self, word):
        words = next(self.lines, "").split(" ")
        if words[0] != word:
            raise Malformed(f"a line of {words[0]} in place of {word}")
        return words[1:]

    def count(self, word):
        (number,) = self.numbers(self.next(word))
        return number

    def listed(self, head, word):
        return [self.next(word) for _ in range(self.count(head))]

    @staticmethod
    def numbers(words):
        if any(not word.isdigit() or (len(word) > 1 and word[0] == "0") for word in words):
            raise Malformed(f"{words} are no numbers")
        return [int(word) for word in words]


def parse(text):
    lines = _Lines(text)
    requests = [_request(place, words) for place, words in enumerate(lines.listed("requests", "q"))]
    tiles = [lines.numbers(words) for words in lines.listed("seen", "s")]
    if [tile for tile, _, _ in tiles] != list(range(len(tiles))):
        raise Malformed("the lines of tiles do not go from 0 on")
    accesses = [_access(words) for words in lines.listed("accesses", "a")]
    memory = [lines.numbers(words) for words in lines.listed("memory", "m")]
    if any(len(line) != 5 or line[0] != place for place, line in enumerate(memory)):
        raise Malformed("the lines of memory do not go from 0 on, by four words")
    report = Report(requests, [seen for _, seen, _ in tiles], [steps for _, _, steps in tiles], accesses,
                    [word for line in memory for word in line[1:]], lines.count("windows"), lines.count("hops"),
                    lines.listed("journal", "e"), " ".join(lines.next("ended")))
    if next(lines.lines, None) is not None:
        raise Malformed("lines after the last")
    return report


def _request(place, words):
    at, source, number, line = _Lines.numbers([*words[:3], *words[4:]])
    if at != place or words[3] not in ("GetS", "GetM", "PutM"):
        raise Malformed(f"request {words} at place {place}")
    return source, number, words[3], line


def _access(words):
    wanted = {"ld": 6, "st": 6, "sw": 7, "fa": 7}
    op = words[2] if len(words) > 2 else ""
    if wanted.get(op) != len(words):
        raise Malformed(f"access {words}")
    tile, number, *rest = _Lines.numbers(words[:2] + words[3:])
    return Access(tile, number, op, *rest)
