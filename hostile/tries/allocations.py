"""Each request for memory of a run is refused in turn, by a library of our own between the program and the C library."""

import os
import shutil
import subprocess
import tempfile
from functools import lru_cache
from pathlib import Path

from support import reading
from support.program import TOP, Skipped, Wrong
from support.texts import ONE_CORE, SMALL, STORES_AND_LOADS
from support.trials import Trial
from tries.documents import ROUND_EVENTS, check_run

SOURCE = Path(__file__).resolve().parents[1] / "support" / "refusing.c"
BUDGET = 200
OUT_OF_MEMORY = b"scorpio: out of memory\n"
# Commands that take all their memory before they write.
TAKES_ALL_FIRST = ((["order"], SMALL), (["deliver"], SMALL), (["show"], SMALL), (["step", "--budget", str(BUDGET)], STORES_AND_LOADS),
                   (["gen", "42", "--text"], b""), (["gen", "42"], b""))
# The built tests of rounds, and the one that says in these words that a round was left out, or that it has no memory itself.
TESTS, TEST = "crates/round_tests/out/round_tests_tests", "rounds::four_tiles_add_to_one_word"
LEFT_OUT, NO_MEMORY = b"a round was left out", (b"NoMemory", b"no memory is left")


def trials(_options):
    for words, document in TAKES_ALL_FIRST:
        yield Trial(f"{' '.join(words)}: each request is refused", each_request, words, document)
    for name, document in (("one core", ONE_CORE), ("two cores", STORES_AND_LOADS)):
        yield Trial(f"run of {name}: each request is refused", each_request_by_threads, ["run", "--budget", str(BUDGET)], document)
    yield Trial("a round that gets no memory is left out, and counted", rounds_left_out)


@lru_cache(maxsize=None)
def library():
    """The library, made anew for each process that tries."""
    compiler = shutil.which("cc") or shutil.which("gcc")
    if compiler is None:
        raise Skipped("there is no C compiler")
    folder = tempfile.TemporaryDirectory(prefix="scorpio-refusing-")
    made = Path(folder.name) / "refusing.so"
    tried = subprocess.run([compiler, "-O1", "-shared", "-fPIC", "-o", str(made), str(SOURCE)], capture_output=True)
    if tried.returncode != 0:
        raise Skipped("the C compiler makes no library here")
    return folder, made


def refusing(refused, counted=os.devnull):
    """The variables by which the library is there, and refuses this request."""
    return {**os.environ, "LD_PRELOAD": str(library()[1]), "REFUSED": str(refused), "COUNTED": str(counted)}


def requests(program, words, document):
    """How many requests for memory a run makes."""
    with tempfile.NamedTemporaryFile() as counted:
        program.run(words, document, env=refusing(0, counted.name)).wants_one_of({0, 3})
        count = int(counted.read() or 0)
    if count == 0:
        raise Wrong("no request for memory was seen", words, document)
    return count


def each_request(program, words, document):
    """A refusal ends the run before anything is written, or the run does all the same: a list that gets no room to spare asks again
    for what it needs, and a sort without room of its own takes longer."""
    whole, ended = program.run(words, document), 0
    for number in range(1, requests(program, words, document) + 1):
        end = program.run(words, document, env=refusing(number))
        if end.status == whole.status:
            end.wants(whole.status, whole.text)
        else:
            wants_none(end, number)
            ended += 1
    if ended == 0:
        raise Wrong("no refusal ended the run", words, document)


def wants_none(end, number):
    if (end.status, end.text, end.said) != (6, b"", OUT_OF_MEMORY):
        end.refuse(f"request {number} refused: status {end.status}, {len(end.text)} bytes written, said {end.said!r}")


def each_request_by_threads(program, words, document):
    """Before the first round it is out of memory. Later the round is left out, and the run is a run of the document."""
    meant = reading.read(document)
    count, left_out = requests(program, words, document), 0
    for number in range(1, count + 1):
        end = program.run(words, document, env=refusing(number))
        if end.status == 6:
            wants_none(end, number)
        else:
            left_out += 1
            end.wants(0)
            check_run(end, meant, BUDGET, ROUND_EVENTS * meant.tiles() - 1)
    if left_out == 0:
        raise Wrong(f"each of {count} refusals ended the run", words, document)


def rounds_left_out(_program):
    """While rounds go on a refusal leaves one out, which the test counts, or takes a thread away, and then the test passes: the tiles
    take their turns one after another. Before and after them the test itself has no memory."""
    path = TOP / TESTS
    if not path.exists():
        raise Skipped("the tests of rounds are not built here")
    with tempfile.NamedTemporaryFile() as counted:
        tested(path, refusing(0, counted.name))
        count = int(counted.read())
    left_out = 0
    for number in range(1, count + 1):
        status, said = tested(path, refusing(number), None)
        left_out += LEFT_OUT in said
        if status != 0 and not any(words in said for words in (LEFT_OUT, *NO_MEMORY)):
            raise Wrong(f"request {number} of {count} refused: status {status}, {said!r}")
    if left_out < 2:
        raise Wrong(f"of {count} requests only {left_out} leave a round out")


def tested(path, variables, wanted=0):
    """The status of the test, and what it says."""
    with tempfile.TemporaryDirectory() as folder:
        run = subprocess.run([path, TEST], env=variables, cwd=folder, stdin=subprocess.DEVNULL, stdout=subprocess.PIPE,
                             stderr=subprocess.STDOUT, timeout=120)
    if wanted is not None and run.returncode != wanted:
        raise Wrong(f"{TEST} ends with status {run.returncode} where nothing is refused")
    return run.returncode, run.stdout
