"""The programs of the cores: from text to instructions, and what an instruction does (docs/assembly.md)."""

from dataclasses import dataclass
from typing import NamedTuple, Optional

MODULUS = 2**32

# the operands of each instruction: registers, numbers and targets
OPERANDS = {
    "li": "rn", "add": "rrr", "sub": "rrr", "addi": "rrn", "ld": "rrn", "st": "rrn", "swap": "rrn", "fadd": "rrn",
    "beq": "rrt", "bne": "rrt", "jmp": "t", "tid": "r", "halt": "",
}  # fmt: skip
ACCESSES = ("ld", "st", "swap", "fadd")


class Instruction(NamedTuple):
    word: str
    operands: tuple


class Core(NamedTuple):
    """A core between two instructions: its place in the program, and its registers."""

    place: int
    registers: tuple


@dataclass(frozen=True)
class Access:
    """What a core asks of memory: `value` is what a store or a swap writes and an add adds, and 0 for a load."""

    word: str
    register: int
    address: int
    value: int

    def is_atomic(self):
        """Whether it reads the word and writes it at one time."""
        return self.word in ("swap", "fadd")

    def word_after(self, old):
        """The word at the address after the access."""
        if self.word == "ld":
            return old
        return (old + self.value) % MODULUS if self.word == "fadd" else self.value


class Program:
    """The instructions of one core. A text that does not assemble raises ValueError."""

    def __init__(self, text, tile):
        self.tile = tile
        self.instructions = assemble(text)

    def start(self):
        """The core before its first instruction."""
        return Core(0, (0,) * 8)

    def instruction(self, core):
        if core.place >= len(self.instructions):
            return Instruction("halt", ())
        return self.instructions[core.place]

    def is_halted(self, core):
        return self.instruction(core).word == "halt"

    def settle(self, core):
        """The core after the register instructions that come next, and how many these were."""
        done, met = 0, set()
        while self.instruction(core).word not in ACCESSES + ("halt",):
            if core in met:
                raise ValueError(f"tile {self.tile} goes in a loop without an access")
            met.add(core)
            core = self.after_register_instruction(core)
            done += 1
        return core, done

    def after_register_instruction(self, core):
        word, operands = self.instruction(core)
        registers, place = list(core.registers), core.place + 1
        if word in ("beq", "bne"):
            a, b, target = operands
            place = target if (registers[a] == registers[b]) == (word == "beq") else place
        elif word == "jmp":
            place = operands[0]
        else:
            registers[operands[0]] = self.result(word, registers, operands[1:]) % MODULUS
        return Core(place, tuple(registers))

    def result(self, word, registers, operands):
        if word == "li":
            return operands[0]
        if word == "tid":
            return self.tile
        a, b = operands
        if word == "addi":
            return registers[a] + b
        return registers[a] + registers[b] if word == "add" else registers[a] - registers[b]

    def access(self, core, words) -> Optional[Access]:
        """The access that comes next, in a memory of so many words; None where the core has halted."""
        word, operands = self.instruction(core)
        if word not in ACCESSES:
            return None
        register, base, offset = operands
        value = 0 if word == "ld" else core.registers[register]
        return Access(word, register, (core.registers[base] + offset) % MODULUS % words, value)

    def after_access(self, core, access, old):
        """The core once it has done the access that came next, at a word that was `old`."""
        registers = list(core.registers)
        if access.word != "st":
            registers[access.register] = old
        return Core(core.place + 1, tuple(registers))


def assemble(text):
    """The instructions of a text, with labels as places."""
    lines, labels = [], {}
    for number, line in enumerate(text.split("\n"), 1):
        words = line.split("#")[0].split()
        if words and words[0].endswith(":"):
            labels[words.pop(0)[:-1]] = len(lines)
        if words:
            lines.append((number, words))
    return [assemble_line(number, words, labels) for number, words in lines]


def assemble_line(number, words, labels):
    name, *operands = words
    kinds = OPERANDS.get(name)
    if kinds is None or len(kinds) != len(operands):
        raise ValueError(f"line {number}: {' '.join(words)}")
    return Instruction(name, tuple(operand(number, kind, text, labels) for kind, text in zip(kinds, operands)))


def operand(number, kind, text, labels):
    if kind == "t" and text in labels:
        return labels[text]
    prefix = {"r": "r", "n": "", "t": "@"}[kind]
    digits = text[len(prefix) :]
    if not text.startswith(prefix) or not digits.isdecimal():
        raise ValueError(f"line {number}: {text}")
    return int(digits)
