"""Descriptions for tries of streams and machines, with the texts that are to be written of them."""

from functools import lru_cache

from support import reading
from support.priority import deliver_text, order_text

SMALL = b"posts = [[0,1],[1]]\nmesh = { cols = 2, rows = 1, window = 1 }\n"
FAULTY = b"colour = 1\n"
FAULT = b"scorpio: document: unknown key colour"

_SPIN = """posts = [[3, 0], [1, 2, 3]]
[mesh]
cols = 2
rows = 2
window = 2
[[core]]
tile = 1
code = "wait: ld r1 r0 0\\nbeq r1 r0 wait"
""".encode()


# One core, whose run is the same by threads: nothing of it is up to a schedule.
ONE_CORE = """[mesh]
cols = 1
rows = 1
window = 1
lines = 1
sets = 1
[[core]]
tile = 0
code = '''
li r1 7
st r1 r0 2
ld r2 r0 2
'''
""".encode()

# Two cores that each store to a word of their own and load that of the other.
STORES_AND_LOADS = """[mesh]
cols = 2
rows = 1
window = 1
lines = 2
sets = 2
[[core]]
tile = 0
code = '''
li r1 1
st r1 r0 0
ld r2 r0 4
'''
[[core]]
tile = 1
code = '''
li r1 1
st r1 r0 4
ld r2 r0 0
'''
""".encode()


def small_for(command):
    """A small description of which the command always writes one and the same text."""
    return ONE_CORE if command == "run" else SMALL


def spinning():
    """A core that waits for ever. A run of it ends with its budget, and is as long as that."""
    return _SPIN


@lru_cache(maxsize=None)
def long_show():
    """A description whose canonical text is some hundred kilobytes long, more than any buffer on its way."""
    program = "".join(f"addi r{place % 8} r{place % 7} {place}\n" for place in range(1024))
    cores = "".join(f"[[core]]\ntile = {tile}\ncode = '''\n{program}'''\n" for tile in range(25))
    return f"[mesh]\ncols = 5\nrows = 5\nwindow = 8\n{cores}".encode()


@lru_cache(maxsize=None)
def text_of(command, document):
    """What `order`, `deliver` and `show` write of it, by the references."""
    meant = reading.read(document)
    texts = {"order": order_text, "deliver": deliver_text, "show": reading.Document.canonical_text}
    return texts[command](meant)
