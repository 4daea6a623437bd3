"""Races of the protocol, read off from the requests and the journal of a report (docs/coherence.md has the protocol).

A moment is a number of requests that a tile has delivered. The words of a get are told at tiles without a memory controller
alone: at the others a message that comes may as well bring a line back."""

from dataclasses import dataclass

from report import Request


@dataclass
class Travel:
    """A request on its way: when its tile made it, its place in the order, and when the words came that it asked for (None
    where none came: to a PutM, and to a get of a tile that owned the line at its place)."""

    request: Request
    made: int
    place: int
    words: int | None = None

    @property
    def kind(self):
        return self.request.kind


class Run:
    """A report by the requests of its tiles, and by the moments at which words came back to memory."""

    def __init__(self, description, report):
        self.channels, self.controllers = description.channels, description.controllers
        self.requests, self.events = report.requests, report.events
        places = {(request.source, request.number): place for place, request in enumerate(self.requests)}
        self.travels, self.came_home = [], {tile: [] for tile in self.controllers}
        for tile in range(description.tiles):
            self._follow(tile, places)

    def _follow(self, tile, places):
        delivered, travels = 0, []
        for event in self.events:
            if event[0] == "tick" or int(event[1]) != tile:
                continue
            if event[0] == "inject" and (tile, len(travels)) in places:
                place = places[tile, len(travels)]
                travels.append(Travel(self.requests[place], delivered, place))
            elif event[0] == "eject":
                delivered += 1
            elif event[0] == "dataeject" and tile in self.controllers:
                self.came_home[tile].append(delivered)
            elif event[0] == "dataeject":
                next(travel for travel in reversed(travels) if travel.request.is_get()).words = delivered
        self.travels += travels

    def of_kind(self, kind):
        return [travel for travel in self.travels if travel.kind == kind]

    def others(self, request, begin, end):
        """The gets of other tiles for the line of a request, at the places from begin on and before end."""
        gets = [get for get in self.requests[begin:end] if get.is_get()]
        return [get for get in gets if get.line == request.line and get.source != request.source]

    def writers(self, request, begin, end):
        """Those of them that are to write."""
        return [get for get in self.others(request, begin, end) if get.kind == "GetM"]

    def while_waiting(self, travel):
        """The gets of others for its line that the tile delivered after its own request and before the words came."""
        return self.others(travel.request, travel.place + 1, travel.words or 0)

    def owner(self, line, place):
        """The tile that owns a line at a place of the order, or None where memory does."""
        owner = None
        for request in self.requests[:place]:
            if request.line == line and request.kind == "GetM":
                owner = request.source
            elif request.line == line and request.kind == "PutM" and request.source == owner:
                owner = None
        return owner

    def is_owner(self, request, place):
        return self.owner(request.line, place) == request.source

    def is_sharer(self, request, place):
        """Whether the tile's last request for the line before a place was a get, it does not own the line, and no other tile
        has written since."""
        own = [p for p, earlier in enumerate(self.requests[:place]) if earlier.is_like(request)]
        if not own or not self.requests[own[-1]].is_get() or self.is_owner(request, place):
            return False
        return not self.writers(request, own[-1], place)

    def is_overtaken(self, travel):
        """Whether a GetM of another tile for the line is ordered after the request was made and before itself."""
        return bool(self.writers(travel.request, travel.made, travel.place))

    def is_live(self, travel):
        """Whether the tile of a PutM still owns the line at its place."""
        return self.is_owner(travel.request, travel.place)


def early_words(run):
    """The words of a get come before the get itself is delivered."""
    return any(travel.words is not None and travel.words <= travel.place for travel in run.travels)


def invalidated_reader(run):
    """A read is delivered, then a GetM of another tile for its line, and only then its words come."""
    return any(get.kind == "GetM" for travel in run.of_kind("GetS") for get in run.while_waiting(travel))


def readers_and_a_writer(run):
    """Behind a write that waits for its words come reads and then a write: the list of those to whom the words go on."""
    lists = [[get.kind for get in run.while_waiting(travel)] for travel in run.of_kind("GetM")]
    return any("GetS" in kinds and "GetM" in kinds[kinds.index("GetS") :] for kinds in lists)


def upgrade_from_shared(run):
    """A tile that has a copy in S asks to write, and no other tile's write comes before."""
    return any(run.is_sharer(t.request, t.made) and not run.is_overtaken(t) for t in run.of_kind("GetM"))


def upgrade_from_shared_overtaken(run):
    """A tile that has a copy in S asks to write, and another tile's write comes before."""
    return any(run.is_sharer(t.request, t.made) and run.is_overtaken(t) for t in run.of_kind("GetM"))


def upgrade_from_owned(run):
    """A tile that has a copy in O asks to write, and no other tile's write comes before."""
    return any(run.is_owner(t.request, t.made) and not run.is_overtaken(t) for t in run.of_kind("GetM"))


def upgrade_from_owned_overtaken(run):
    """A tile that has a copy in O asks to write, and another tile's write comes before."""
    return any(run.is_owner(t.request, t.made) and run.is_overtaken(t) for t in run.of_kind("GetM"))


def write_back(run):
    """A tile writes back a line that it still owns when its PutM is ordered."""
    return any(run.is_live(travel) for travel in run.of_kind("PutM"))


def write_back_overtaken(run):
    """Another tile's GetM is ordered before the PutM of a line that is written back."""
    return any(not run.is_live(travel) for travel in run.of_kind("PutM"))


def write_back_read(run):
    """Another tile's read is ordered before the PutM of a line that is written back: the words under way serve it."""
    return any(run.is_live(t) and run.others(t.request, t.made, t.place) for t in run.of_kind("PutM"))


def get_before_words_are_home(run):
    """The home delivers a PutM and then another tile's get for the line, and only then the words that are written back. Told
    where the run has one PutM, and the line's home makes no get."""
    puts = run.of_kind("PutM")
    if len(puts) != 1 or not run.is_live(puts[0]):
        return False
    home = run.controllers[puts[0].request.line % len(run.controllers)]
    if any(request.source == home for request in run.requests):
        return False
    return bool(run.others(puts[0].request, puts[0].place + 1, run.came_home[home][0]))


def silent_drop(run):
    """A tile reads a line again of which it had a copy in S: a full set has dropped it."""
    return any(run.is_sharer(travel.request, travel.made) for travel in run.of_kind("GetS"))


def reserved_channel(run):
    """A copy goes on from a reserved channel."""
    return any(event[0] == "hop" and event[2] != "l" and int(event[3]) == run.channels for event in run.events)


RACES = {
    race.__name__.replace("_", " "): race
    for race in (
        early_words,
        invalidated_reader,
        readers_and_a_writer,
        upgrade_from_shared,
        upgrade_from_shared_overtaken,
        upgrade_from_owned,
        upgrade_from_owned_overtaken,
        write_back,
        write_back_overtaken,
        write_back_read,
        get_before_words_are_home,
        silent_drop,
        reserved_channel,
    )
}
