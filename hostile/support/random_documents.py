"""Random documents from a seeded generator, in many spellings, some of them with a fault."""

import random
from dataclasses import dataclass

from support.assembly import NUMBER, REGISTER, SHAPES, WORD_LIMIT

ACCESSES = ("ld", "st", "swap", "fadd")
REGISTER_ONLY = ("li", "add", "sub", "addi", "tid")
BRANCHES = ("beq", "bne", "jmp")
# One document in so many has a fault.
FAULTY = 8


@dataclass
class Made:
    """A document's bytes, and the options of a run of it."""
    data: bytes
    pace: int
    budget: int


def made(seed, index):
    """The document of this number: the same bytes each time."""
    dice = random.Random(f"{seed} {index}")
    mesh = _mesh(dice)
    tiles = mesh["cols"] * mesh["rows"]
    posts = _posts(dice, tiles) if dice.random() < 0.7 else []
    cores = _cores(dice, tiles, mesh["lines"])
    text = _text(dice, mesh, posts, cores)
    if dice.randrange(FAULTY) == 0:
        text = _with_fault(dice, mesh, posts, cores)
    budget = dice.choice([dice.randint(1, 60), dice.randint(100, 6000), dice.randint(6000, 40_000), 1_000_000])
    if any(_may_spin(lines) for _, lines in cores):
        budget = min(budget, dice.randint(1000, 15_000))
    return Made(text.encode(), dice.choice([0, 1, 3, 7, dice.randrange(2**32)]), budget)


def _mesh(dice):
    most = dice.choice([2, 3, 3, 4, 5, 8])
    cols, rows = dice.randint(1, most), dice.randint(1, most)
    least = max(1, cols + rows - 2)
    lines = dice.choice([1, 2, 3, 4, 8, 16, 256])
    mesh = {"cols": cols, "rows": rows, "window": dice.choice([least, least, dice.randint(least, 64)])}
    chosen = {"vcs": dice.choice([1, 1, 2, dice.randint(1, 8)]), "data_vcs": dice.randint(1, 4),
              "sets": dice.choice([1, 2, 3, dice.randint(1, 64)]), "ways": dice.randint(1, 4),
              "controllers": dice.sample(range(cols * rows), dice.randint(1, min(cols * rows, 5))),
              "memory": [_word(dice) for _ in range(dice.randint(0, min(4 * lines, 12)))]}
    mesh.update((key, value) for key, value in chosen.items() if dice.random() < 0.7)
    # (the line count stays, so that programs meet at few lines)
    return {**mesh, "lines": lines}


def _word(dice):
    return dice.choice([0, dice.randrange(100), WORD_LIMIT - 1, dice.randrange(WORD_LIMIT)])


def _posts(dice, tiles):
    return [dice.sample(range(tiles), dice.randint(1, tiles)) for _ in range(dice.randint(1, 8))]


# ---- programs: lines of text, one instruction each

def _cores(dice, tiles, lines):
    number = dice.randint(0, tiles) if tiles <= 9 or dice.random() < 0.15 else dice.randint(0, 9)
    return [(tile, _program(dice, lines, 12 if tiles <= 16 else 6)) for tile in dice.sample(range(tiles), number)]


def _program(dice, lines, most):
    return dice.choice([_straight, _straight, _forward, _forward, _counting, _waiting])(dice, lines, dice.randint(0, most))


def _straight(dice, lines, length):
    return [_instruction(dice, lines, dice.choice(ACCESSES if dice.random() < 0.6 else REGISTER_ONLY)) for _ in range(length)]


def _forward(dice, lines, length):
    """Branches and jumps to later places, by labels or by number."""
    program = _straight(dice, lines, length)
    for place in range(length):
        if dice.random() < 0.3:
            program[place] = _branch(dice, f"@{dice.randint(place + 1, length)}")
    if length and dice.random() < 0.5:
        program[dice.randrange(length)] = _branch(dice, "end")
        program.append("end: halt" if dice.random() < 0.5 else "end:")
    return program


def _counting(dice, lines, length):
    """A loop that ends after a few rounds: r6 counts, r7 is how many."""
    body = [line.replace("r6", "r5").replace("r7", "r4") for line in _straight(dice, lines, max(1, length - 4))]
    return [f"li r7 {dice.randint(1, 4)}", "li r6 0", "again:", *body, "addi r6 r6 1", "bne r6 r7 again"]


def _waiting(dice, lines, length):
    """Waits for a word to change, and may wait for ever."""
    body = _straight(dice, lines, length)
    address = dice.randrange(4 * lines)
    return [f"wait: ld r1 r0 {address}", f"{dice.choice(['beq', 'bne'])} r1 r2 wait", *body]


def _branch(dice, target):
    name = dice.choice(BRANCHES)
    registers = [] if name == "jmp" else [_register(dice), _register(dice)]
    return " ".join([name, *registers, target])


def _instruction(dice, lines, name):
    shapes = SHAPES[name]
    numbers = lambda: dice.randrange(4 * lines + 2) if name in ACCESSES and dice.random() < 0.9 else _word(dice)
    words = [_register(dice) if shape == REGISTER else _spelled(dice, numbers()) for shape in shapes
             if shape in (REGISTER, NUMBER)]
    if name in ACCESSES and dice.random() < 0.8:
        words[1] = "r0"
    return " ".join([name, *words])


def _register(dice):
    return f"r{dice.randrange(8)}"


def _spelled(dice, number):
    return "0" * (dice.randint(1, 30) if dice.random() < 0.05 else 0) + str(number)


def _may_spin(lines):
    return any(line.startswith("wait:") for line in lines) or any(line.startswith("again:") for line in lines)


# ---- the text of a document

def _text(dice, mesh, posts, cores):
    keys = list(mesh)
    dice.shuffle(keys)
    pairs = [f"{key} = {_integers(dice, mesh[key])}" for key in keys]
    parts = ["mesh = { " + ", ".join(pairs) + " }"] if dice.random() < 0.3 else ["[mesh]", *pairs]
    tables = [_core_text(dice, tile, lines) for tile, lines in cores]
    if posts or dice.random() < 0.2:
        # (a key of the whole document stands before the first table)
        parts.insert(0, f"posts = {_integers(dice, posts)}")
    return dice.choice(["\n", "\r\n"]).join(parts + [""]) + "".join(tables)


def _integers(dice, value):
    if isinstance(value, list):
        between = dice.choice([",", ", ", " ,\n  "])
        if not value:
            return "[]"
        return "[" + between.join(_integers(dice, item) for item in value) + dice.choice(["", ",", " "]) + "]"
    return dice.choice([str, str, str, str, hex, oct, bin, lambda number: f"+{number}"])(value)


def _core_text(dice, tile, lines):
    laid_out = [_laid_out(dice, line) for line in lines]
    code = "\n".join(laid_out)
    quoted = dice.choice([f'"""\n{code}\n"""', f"'''\n{code}'''", '"' + code.replace("\t", "\\t").replace("\n", "\\n") + '"'])
    pairs = [f"tile = {tile}", f"code = {quoted}"]
    dice.shuffle(pairs)
    return "\n[[core]]\n" + "\n".join(pairs) + "\n"


def _laid_out(dice, line):
    line = dice.choice(["", "", "\t", "   "]) + line.replace(" ", dice.choice([" ", " ", "  ", "\t", " \t "]))
    return line + dice.choice(["", "", "", "  ", " # a word", "#"]) + ("\n" if dice.random() < 0.1 else "")


# ---- faults: each turns the parts of a good document, or its text

def _with_fault(dice, mesh, posts, cores):
    mesh, posts, cores = dict(mesh), [list(window) for window in posts], [(tile, list(lines)) for tile, lines in cores]
    turn = dice.choice([_bad_value, _bad_list, _missing, _unknown, _bad_posts, _bad_core, _bad_line, _torn])
    text = turn(dice, mesh, posts, cores)
    return _text(dice, mesh, posts, cores) if text is None else text


def _bad_value(dice, mesh, _posts, _cores):
    mesh[dice.choice(list(mesh))] = dice.choice([0, -1, 9, 65, 257, 2**32, 2**63 - 1, [], [0, 0], [1, [2]], [-1], [2**32]])


def _bad_list(dice, mesh, _posts, _cores):
    tiles = mesh["cols"] * mesh["rows"]
    mesh["controllers"] = dice.choice([[0, 0], [tiles], list(range(tiles)) + [0], []])
    mesh["memory"] = [0] * dice.choice([0, 4 * mesh["lines"], 4 * mesh["lines"] + 1])


def _missing(dice, mesh, posts, cores):
    if dice.random() < 0.7:
        del mesh[dice.choice(["cols", "rows", "window"])]
        return None
    return _text(dice, mesh, posts, cores).replace(dice.choice(["tile =", "code =", "mesh"]), dice.choice(["#", "a ="]))


def _unknown(dice, mesh, posts, cores):
    key = dice.choice(["colour", "Cols", '"two words"', '"\u00e9"', '"a\\nline"', '""'])
    if dice.random() < 0.5:
        mesh[key] = dice.choice([1, [], [2, 3]])
        return None
    return f"{key} = {dice.choice(['1', '[]', 'true', '1.5', '1979-05-27', '{}'])}\n" + _text(dice, mesh, posts, cores)


def _bad_posts(dice, mesh, posts, _cores):
    tiles = mesh["cols"] * mesh["rows"]
    posts.append(dice.choice([[], [tiles], [-1], [0, 0], 0, [[0]]]))


def _bad_core(dice, mesh, posts, cores):
    tiles = mesh["cols"] * mesh["rows"]
    cores += dice.choice([[(tiles, [])], [(-1, [])], [(0, []), (0, ["halt"])], [('"0"', [])], [("1.0", [])]])
    return _text(dice, mesh, posts, cores) + dice.choice(["", "", "shape = 1\n"])


def _bad_line(dice, _mesh, _posts, cores):
    tile, lines = dice.choice(cores) if cores else (0, [])
    if not cores:
        cores.append((tile, lines))
    bad = dice.choice(["mul r1 r2 r3", "li r8 1", "li r1 4294967296", "li r1 -1", "add r1 r2", "jmp nowhere", "jmp @99999",
                       "1a: halt", "a: b: halt", ":", "tid R1", "beq r1 r2 @", "li r1 0x1", "end: halt", "wait:", "again: halt",
                       "ld r1 r0", "halt halt", "li r01 1", "h\u00e9", "halt\u00a0", "li r1 \u0663"])
    lines.insert(dice.randint(0, len(lines)), bad)
    if dice.random() < 0.1:
        lines[:0] = ["halt"] * 1025


def _torn(dice, mesh, posts, cores):
    text = _text(dice, mesh, posts, cores)
    at = dice.randrange(len(text))
    return text[:at] + dice.choice(["", "\0", "]", "\u2028", '"', "= ="]) + text[at + dice.randint(0, 3):]
