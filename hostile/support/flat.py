"""A sequential machine: cores over one flat memory, which each access reads or writes at once."""

from support.assembly import ACCESSES, WORD_LIMIT

OPS = {"ld": "ld", "st": "st", "swap": "sw", "fadd": "fa"}


class NoExecution(Exception):
    """A list of accesses that no interleaving of the programs gives."""


class Core:
    def __init__(self, tile, program):
        self.tile, self.program = tile, program
        self.registers, self.place, self.steps = [0] * 8, 0, 0

    def next(self):
        """The instruction that comes next, or None where the core halts."""
        if self.place >= len(self.program) or self.program[self.place][0] == "halt":
            return None
        return self.program[self.place]

    def advance(self, steps):
        """Does register instructions until so many instructions are done, and meets nothing else on the way."""
        while self.steps < steps:
            instruction = self.next()
            if instruction is None or instruction[0] in ACCESSES:
                raise NoExecution(f"core {self.tile} meets {instruction} after {self.steps} steps")
            self._do(*instruction)
            self.steps += 1
        if self.steps > steps:
            raise NoExecution(f"core {self.tile} has done {self.steps} steps, and not {steps}")

    def _do(self, name, *operands):
        registers, target = self.registers, self.place + 1
        if name == "li":
            registers[operands[0]] = operands[1]
        elif name == "tid":
            registers[operands[0]] = self.tile
        elif name in ("add", "sub", "addi"):
            rd, ra, last = operands
            other = last if name == "addi" else registers[last]
            registers[rd] = (registers[ra] + (-other if name == "sub" else other)) % WORD_LIMIT
        elif name == "jmp" or (registers[operands[0]] == registers[operands[1]]) == (name == "beq"):
            target = operands[-1]
        self.place = target

    def access_done(self):
        self.place += 1
        self.steps += 1


def run(document, report):
    """Takes the accesses of a report in their order, and returns the memory that they leave."""
    size = 4 * document.mesh["lines"]
    memory = document.mesh["memory"] + [0] * (size - len(document.mesh["memory"]))
    cores = [Core(tile, document.programs.get(tile, [])) for tile in range(document.tiles())]
    for at, access in enumerate(report.accesses):
        try:
            _take(cores[access.tile], memory, access)
        except NoExecution as cause:
            raise NoExecution(f"access {at}: {cause}") from None
    for core, steps in zip(cores, report.steps):
        core.advance(steps)
        if report.ended == "finished" and core.next() is not None:
            raise NoExecution(f"core {core.tile} has not halted in a finished run")
    return memory


def _take(core, memory, access):
    core.advance(access.number)
    instruction = core.next()
    if instruction is None or OPS.get(instruction[0]) != access.op:
        raise NoExecution(f"core {core.tile} does {instruction}, and not {access.op}")
    _, rd, ra, offset = instruction
    address = (core.registers[ra] + offset) % WORD_LIMIT % len(memory)
    word, register = memory[address], core.registers[rd]
    after = {"ld": word, "st": register, "sw": register, "fa": (word + register) % WORD_LIMIT}[access.op]
    old = word if access.op in ("sw", "fa") else 0
    if (address, after, old) != (access.address, access.value, access.old):
        raise NoExecution(f"{access} where flat memory gives address {address}, value {after}, old {old}")
    memory[address] = after
    if access.op != "st":
        core.registers[rd] = word
    core.access_done()
