"""The two networks of requests, once more: a journal is done again event by event, by the rules of docs/ alone."""

from support.priority import by_priority

OPPOSITE = {"e": "w", "w": "e", "n": "s", "s": "n"}
# Events of cores, caches and replies, of which the networks of requests know nothing.
ELSEWHERE = ("core", "send", "datahop", "dataeject")


class NotEnabled(Exception):
    """An event that is not possible where the journal has it."""


def _require(holds, what):
    if not holds:
        raise NotEnabled(what)


class Grid:
    def __init__(self, cols, rows):
        self.cols, self.rows = cols, rows

    def at(self, tile):
        return tile % self.cols, tile // self.cols

    def neighbour(self, tile, side):
        x, y = self.at(tile)
        across, down = {"e": (1, 0), "w": (-1, 0), "n": (0, -1), "s": (0, 1)}[side]
        x, y = x + across, y + down
        return y * self.cols + x if 0 <= x < self.cols and 0 <= y < self.rows else None

    def tree_outs(self, source, tile):
        """The ports by which a copy leaves a router, on the tree of its source: along the row first, then up and down."""
        (sx, sy), (x, y) = self.at(source), self.at(tile)
        sides = {"n": y <= sy, "s": y >= sy, "e": y == sy and x >= sx, "w": y == sy and x <= sx}
        return {"l"} | {side for side, goes in sides.items() if goes and self.neighbour(tile, side) is not None}


class Replay:
    def __init__(self, document):
        mesh, tiles = document.mesh, document.tiles()
        self.tiles, self.window, self.vcs = tiles, mesh["window"], mesh["vcs"]
        self.grid = Grid(mesh["cols"], mesh["rows"])
        self.channels = {}               # (router, port, slot) -> (request, the ports that are owed)
        self.made, self.posted, self.ordered = [0] * tiles, [0] * tiles, [0] * tiles
        self.open, self.phase, self.hops = set(), 0, 0
        self.order, self.ends = [], [0]  # the requests, and how many of them are in the first windows
        self.taken, self.seen = [0] * tiles, [0] * tiles
        self.trees = {}

    def do(self, words):
        name, *operands = words
        if name not in ELSEWHERE:
            getattr(self, name)(*(int(word) if word.isdigit() else word for word in operands))

    def expected(self, tile):
        known = self.ends[self.taken[tile]]
        return self.order[self.seen[tile]] if self.seen[tile] < known else None

    def tick(self):
        _require(self.open, "a tick of a window without posts")
        self.phase += 1
        if self.phase == self.window:
            self._close()

    def _close(self):
        for tile in by_priority(len(self.ends) - 1, self.open, self.tiles):
            self.order.append((tile, self.ordered[tile]))
            self.ordered[tile] += 1
        self.ends.append(len(self.order))
        self.open, self.phase = set(), 0

    def inject(self, tile):
        request = (tile, self.made[tile])
        self._put(request, tile, "l", self._free(tile, "l"))
        self.made[tile] += 1

    def post(self, tile):
        _require(self.phase == 0 and tile not in self.open and self.posted[tile] < self.made[tile], "a post")
        self.open.add(tile)
        self.posted[tile] += 1

    def take(self, tile):
        _require(self.taken[tile] + 1 < len(self.ends), "a take without a closed window")
        self.taken[tile] += 1

    def eject(self, tile):
        request = self.expected(tile)
        _require(request is not None, "a delivery where nothing is expected")
        places = [(tile, port, slot) for port in "lewns" for slot in range(self.vcs + 1)]
        held = [place for place in places
                if place in self.channels and self.channels[place][0] == request and "l" in self.channels[place][1]]
        _require(len(held) == 1, f"a delivery of {request}, of which {len(held)} copies are there")
        self._served(held[0], "l")
        self.seen[tile] += 1

    def hop(self, router, port, slot, out):
        request, owed = self.channels.get((router, port, slot), (None, ()))
        _require(out in owed, "a hop that no copy owes")
        there, enters = self.grid.neighbour(router, out), OPPOSITE[out]
        free = self._free(there, enters)
        if free is None and (there, enters, self.vcs) not in self.channels and self.expected(there) == request:
            free = self.vcs
        self._put(request, there, enters, free)
        self._served((router, port, slot), out)
        self.hops += 1

    def _free(self, router, port):
        return next((slot for slot in range(self.vcs) if (router, port, slot) not in self.channels), None)

    def _put(self, request, router, port, slot):
        _require(slot is not None, "a request that enters where no channel is free")
        tree = self.trees.get((request[0], router))
        if tree is None:
            tree = self.trees[request[0], router] = self.grid.tree_outs(request[0], router)
        self.channels[router, port, slot] = (request, set(tree))

    def _served(self, place, port):
        owed = self.channels[place][1]
        owed.discard(port)
        if not owed:
            del self.channels[place]
