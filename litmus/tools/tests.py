"""Tests of the tools, against what was worked out by hand: python3 litmus/tools/tests.py"""

import unittest

from condition import Condition, parse_state, state_text
from description import Description
from report import performed
from sequential import Execution, final_states

MESH = "[mesh]\ncols = {}\nrows = 1\nwindow = {}\nlines = 2\n"


def description(*programs):
    """A description of these programs, one a tile; a semicolon stands for a line's end."""
    cores = [f'[[core]]\ntile = {tile}\ncode = """\n{code}\n"""\n' for tile, code in enumerate(programs)]
    return Description((MESH.format(len(programs), max(1, len(programs) - 1)) + "".join(cores)).replace(";", "\n"))


def outcomes(described, register):
    """The values of a register at all tiles, of each final state."""
    return {tuple(core.registers[register] for core in cores) for cores, _ in final_states(described)}


class Enumeration(unittest.TestCase):
    def test_store_buffering_has_three_outcomes(self):
        buffering = description("li r1 1;st r1 r0 0;ld r2 r0 4", "li r1 1;st r1 r0 4;ld r2 r0 0")
        self.assertEqual(outcomes(buffering, 2), {(0, 1), (1, 0), (1, 1)})

    def test_adds_are_atomic_and_a_load_with_a_store_is_not(self):
        adds = description("li r1 1;fadd r1 r0 0", "li r1 1;fadd r1 r0 0")
        self.assertEqual({memory[0] for _, memory in final_states(adds)}, {2})
        pairs = description("ld r1 r0 0;addi r1 r1 1;st r1 r0 0", "ld r1 r0 0;addi r1 r1 1;st r1 r0 0")
        self.assertEqual({memory[0] for _, memory in final_states(pairs)}, {1, 2})

    def test_a_core_that_spins_sees_what_it_waits_for(self):
        passing = description("li r1 7;st r1 r0 0;st r1 r0 4", "wait: ld r1 r0 4;beq r1 r0 wait;ld r2 r0 0")
        self.assertEqual(outcomes(passing, 2), {(0, 7)})

    def test_a_core_that_waits_in_vain_ends_in_no_state(self):
        self.assertEqual(final_states(description("wait: ld r1 r0 0;beq r1 r0 wait")), set())

    def test_sums_and_addresses_wrap(self):
        (((core,), memory),) = final_states(description("li r1 4294967295;addi r1 r1 2;st r1 r0 9;sub r2 r0 r1"))
        self.assertEqual((core.registers[1], core.registers[2], memory[1]), (1, 4294967295, 1))


class Executions(unittest.TestCase):
    """One core that stores 7 and loads it again, as it may be reported."""

    def follow(self, *lines, steps=3, word=7):
        execution = Execution(description("li r1 7;st r1 r0 2;ld r2 r0 2"))
        for line in lines:
            execution.take(performed(line.split(" ")))
        execution.end([steps], (0, 0, word, 0, 0, 0, 0, 0))

    def test_what_fits_is_followed(self):
        self.follow("0 1 st 2 7 1", "0 2 ld 2 7 1")

    def test_what_does_not_fit_is_refused(self):
        for lines in (["0 2 ld 2 7 1"], ["0 1 st 2 8 1"], ["0 1 st 2 7 1", "0 2 ld 2 0 1"], ["0 1 st 2 7 1", "0 3 ld 2 7 1"]):
            with self.assertRaises(ValueError):
                self.follow(*lines)

    def test_the_end_has_to_fit(self):
        for end in ({"steps": 2}, {"word": 8}):
            with self.assertRaises(ValueError):
                self.follow("0 1 st 2 7 1", "0 2 ld 2 7 1", **end)
        with self.assertRaises(ValueError):
            self.follow("0 1 st 2 7 1")


class Conditions(unittest.TestCase):
    def test_a_conjunction_binds_closer(self):
        condition = Condition("exists 0:r1=1 /\\ [x]=1 \\/ ~(0:r1=1)")
        states = ["0:r1=0; [x]=0;", "0:r1=1; [x]=0;", "0:r1=1; [x]=1;"]
        self.assertEqual([condition.holds(parse_state(state)) for state in states], [True, False, True])

    def test_quantifiers(self):
        met = {"exists": [True, False, True], "~exists": [False, True, False], "forall": [False, False, True]}
        for quantifier, wanted in met.items():
            condition = Condition(f"{quantifier} true")
            self.assertEqual([condition.is_met(*counts) for counts in ((1, 1), (0, 2), (2, 0))], wanted)

    def test_a_state_is_printed_as_it_is_written(self):
        self.assertEqual(state_text(parse_state("0:r1=0; [x]=3;").items()), "0:r1=0; [x]=3;")


if __name__ == "__main__":
    unittest.main()
