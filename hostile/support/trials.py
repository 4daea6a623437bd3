"""Trials: a name, and what is done."""

from dataclasses import dataclass

from support.program import Skipped, Wrong


class Trial:
    def __init__(self, name, action, *arguments):
        self.name, self.action, self.arguments = name, action, arguments

    def result(self, program):
        """How it went. What a trial did not foresee is a failure too."""
        try:
            self.action(program, *self.arguments)
        except Skipped as cause:
            return Result(self.name, skipped=str(cause))
        except Wrong as wrong:
            return Result(self.name, wrong=wrong)
        except Exception as cause:
            return Result(self.name, wrong=Wrong(f"{type(cause).__name__}: {cause}"))
        return Result(self.name)


@dataclass
class Result:
    name: str
    wrong: object = None
    skipped: str = ""
