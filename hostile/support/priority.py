"""The order of requests by the rotating priority, straight from the posts."""


def by_priority(window, posted, tiles):
    """The tiles that post in a window, from the tile of the window's number on, round."""
    return sorted(posted, key=lambda tile: (tile - window) % tiles)


def order_of(document):
    return [tile for window, posted in enumerate(document.posts)
            for tile in by_priority(window, posted, document.tiles())]


def order_text(document):
    return (" ".join(map(str, order_of(document))) + "\n").encode()


def deliver_text(document):
    """Every tile delivers the whole order."""
    order = "".join(f" {tile}" for tile in order_of(document))
    return "".join(f"tile {tile}:{order}\n" for tile in range(document.tiles())).encode()
