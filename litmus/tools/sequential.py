"""Sequential executions: all final states of some programs, and whether a list of accesses is one execution of them."""

MOST_STATES = 1_000_000


def final_states(description):
    """The final states, each a pair of cores and memory, of all interleavings of the accesses of a description's programs.

    A state is the cores, each at an access or halted, and the memory. It is visited once, so programs that spin are no
    trouble as long as their states are finitely many. What no interleaving ends in is no final state."""
    programs = description.programs
    start = tuple(program.settle(program.start())[0] for program in programs), description.memory
    pending, visited, final = [start], {start}, set()
    while pending:
        cores, memory = state = pending.pop()
        following = list(successors(programs, cores, memory))
        if not following and all(program.is_halted(core) for program, core in zip(programs, cores)):
            final.add(state)
        for successor in following:
            if successor not in visited:
                visited.add(successor)
                pending.append(successor)
        if len(visited) > MOST_STATES:
            raise ValueError(f"more than {MOST_STATES} states")
    return final


def successors(programs, cores, memory):
    """The states after one access of one core, and the register instructions that follow it."""
    for tile, program in enumerate(programs):
        access = program.access(cores[tile], len(memory))
        if access is None:
            continue
        old = memory[access.address]
        core, _ = program.settle(program.after_access(cores[tile], access, old))
        yield replaced(cores, tile, core), replaced(memory, access.address, access.word_after(old))


def replaced(items, position, item):
    return items[:position] + (item,) + items[position + 1 :]


class Execution:
    """An execution that is followed access by access. What does not fit the programs or memory raises ValueError."""

    def __init__(self, description):
        self.programs = description.programs
        self.memory = description.memory
        self.cores = [program.start() for program in self.programs]
        self.steps = [0] * len(self.cores)

    def settle(self, tile):
        """Does the register instructions that come next at a tile."""
        self.cores[tile], done = self.programs[tile].settle(self.cores[tile])
        self.steps[tile] += done

    def take(self, seen):
        """Takes an access of a report: it has to be the next one of its core, and to have read what was written last."""
        self.settle(seen.tile)
        program, core = self.programs[seen.tile], self.cores[seen.tile]
        access = program.access(core, len(self.memory))
        if access is None:
            raise ValueError(f"{seen} comes after the core has halted")
        old = self.memory[access.address]
        printed_old = old if access.is_atomic() else None
        wanted = (self.steps[seen.tile], access.word, access.address, access.word_after(old), printed_old)
        if (seen.number, seen.word, seen.address, seen.value, seen.old) != wanted:
            raise ValueError(f"{seen} is no next step of a sequential execution")
        self.cores[seen.tile] = program.after_access(core, access, old)
        self.steps[seen.tile] += 1
        self.memory = replaced(self.memory, access.address, access.word_after(old))

    def end(self, steps, memory):
        """Ends the execution: every core has halted after so many steps, and memory is this one."""
        for tile, program in enumerate(self.programs):
            self.settle(tile)
            if not program.is_halted(self.cores[tile]):
                raise ValueError(f"the core of tile {tile} has not halted")
        if self.steps != steps or self.memory != memory:
            raise ValueError("the steps or the memory in the end are others than those of the accesses")
