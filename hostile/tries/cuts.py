"""Descriptions that are cut off at each byte, or have a byte changed: `show` gives the document that is left, or its first fault."""

import random

from support import reading
from support.program import TOP
from support.trials import Trial

# How many cuts or changes are one trial; how many bytes of each description are changed, and with --all.
TOGETHER, CHANGES, OF_ALL = 150, 150, 5000
EXAMPLES = sorted((TOP / "examples").glob("*.toml"))
# Bytes that mean something in a description, beside any others.
TELLING = b"\n\r\t #\"'[]{}=.,_@:+-0179aelrx\x00\x7f\x80\xff"


def trials(options):
    changes = OF_ALL if options.all else CHANGES
    for path in EXAMPLES:
        data = path.read_bytes()
        cuts = range(len(data) + 1)
        for first in cuts[::TOGETHER]:
            yield Trial(f"{path.name} cut at {first} and on", cut_off, data, cuts[first:first + TOGETHER])
        for first in range(0, changes, TOGETHER):
            yield Trial(f"{path.name} changed, from {first}", changed, data, f"{options.seed} {path.name} {first}")


def cut_off(program, data, cuts):
    try_each(program, (data[:cut] for cut in cuts))


def changed(program, data, seed):
    dice = random.Random(seed)
    try_each(program, (with_change(dice, data) for _ in range(TOGETHER)))


def with_change(dice, data):
    at = dice.randrange(len(data))
    byte = dice.choice(TELLING) if dice.random() < 0.6 else dice.randrange(256)
    return data[:at] + bytes([byte]) + data[at + 1:]


def try_each(program, descriptions):
    shown = set()
    for data in descriptions:
        end = program.run(["show"], data)
        try:
            text = reading.read(data).canonical_text()
        except reading.DocFault as fault:
            end.wants(2, b"", fault.line())
            continue
        end.wants(0, text)
        if text not in shown:
            shown.add(text)
            program.run(["show"], text).wants(0, text)
