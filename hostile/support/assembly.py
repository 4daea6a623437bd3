"""Assembly by its rules alone: what a text assembles to, or its first fault."""

import re

REGISTER, NUMBER, TARGET = "register", "number", "target"
SHAPES = {
    "li": (REGISTER, NUMBER),
    "add": (REGISTER, REGISTER, REGISTER),
    "sub": (REGISTER, REGISTER, REGISTER),
    "addi": (REGISTER, REGISTER, NUMBER),
    "ld": (REGISTER, REGISTER, NUMBER),
    "st": (REGISTER, REGISTER, NUMBER),
    "swap": (REGISTER, REGISTER, NUMBER),
    "fadd": (REGISTER, REGISTER, NUMBER),
    "beq": (REGISTER, REGISTER, TARGET),
    "bne": (REGISTER, REGISTER, TARGET),
    "jmp": (TARGET,),
    "tid": (REGISTER,),
    "halt": (),
}
ACCESSES = ("ld", "st", "swap", "fadd")
MOST_INSTRUCTIONS = 1024
WORD_LIMIT = 2**32
_NAME = re.compile(r"[A-Za-z_][A-Za-z0-9_]*")
_DIGITS = re.compile(r"[0-9]+")
_KINDS = {REGISTER: 2, NUMBER: 3, TARGET: 4}


class AsmFault(Exception):
    def __init__(self, line, kind):
        super().__init__(line, kind)
        self.line, self.kind = line, kind


def assemble(text):
    """The instructions of a text: lists of a word and its operands, targets as places."""
    lines = [_split(line) for line in text.split("\n")]
    places, length = _labels(lines)
    program, seen = [], set()
    for number, (label, words) in enumerate(lines, 1):
        if label is not None:
            if not _NAME.fullmatch(label):
                raise AsmFault(number, 1)
            if label in seen:
                raise AsmFault(number, 4)
            seen.add(label)
        if words:
            program.append(_instruction(number, words, places, length, len(program)))
    return program


def _split(line):
    words = [word for word in re.split("[ \t\r]+", line.split("#", 1)[0]) if word]
    if words and words[0].endswith(":"):
        return words[0][:-1], words[1:]
    return None, words


def _labels(lines):
    places, length = {}, 0
    for label, words in lines:
        if label is not None and _NAME.fullmatch(label):
            places.setdefault(label, length)
        length += bool(words)
    return places, length


def _instruction(number, words, places, length, done):
    name, operands = words[0], words[1:]
    if name not in SHAPES:
        raise AsmFault(number, 1)
    if done >= MOST_INSTRUCTIONS:
        raise AsmFault(number, 6)
    shapes = SHAPES[name]
    if len(operands) != len(shapes):
        raise AsmFault(number, 5)
    return [name, *(_operand(number, shape, word, places, length) for shape, word in zip(shapes, operands))]


def _operand(number, shape, word, places, length):
    value = None
    if shape == REGISTER:
        value = int(word[1]) if re.fullmatch("r[0-7]", word) else None
    elif shape == NUMBER:
        value = _below(word, WORD_LIMIT)
    elif word.startswith("@"):
        value = _below(word[1:], length + 1)
    else:
        value = places.get(word)
    if value is None:
        raise AsmFault(number, _KINDS[shape])
    return value


def _below(digits, limit):
    if not _DIGITS.fullmatch(digits):
        return None
    # (so many digits are above every limit, or zeros, which int() would count against its own limit)
    digits = digits.lstrip("0") or "0"
    return int(digits) if len(digits) <= 10 and int(digits) < limit else None


def printed(instruction):
    name, *operands = instruction
    marks = {REGISTER: "r", NUMBER: "", TARGET: "@"}
    return " ".join([name, *(f"{marks[shape]}{value}" for shape, value in zip(SHAPES[name], operands))])


def goes_forward(program):
    """Whether all its branches and jumps go to later places."""
    return all(instruction[-1] > place for place, instruction in enumerate(program)
               if instruction[0] in ("beq", "bne", "jmp"))
