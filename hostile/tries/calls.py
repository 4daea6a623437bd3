"""Each call of the system that reads, writes or takes memory fails in turn: by limits of a file and, where the machine has
`strace`, by failures that it puts in."""

import os
import re
import resource
import shutil
import subprocess
import tempfile
from pathlib import Path

from support.program import Skipped, Wrong
from support.texts import FAULTY, ONE_CORE, SMALL, long_show, spinning, text_of
from support.trials import Trial

RUN = ["step", "--budget", "9000"]
PROGRAMS = ((["order"], SMALL), (["deliver"], SMALL), (["show"], long_show()), (RUN, spinning()), (["run"], ONE_CORE))
READ_ERRORS, WRITE_ERRORS = ("EIO", "EAGAIN"), ("EIO", "ENOSPC", "EPIPE", "EAGAIN")


def trials(options):
    yield Trial("a file that may have so many bytes, at each byte of a small text", each_length, "deliver", SMALL, 1)
    yield Trial("a file that may have so many bytes, along a long text", each_length, "show", long_show(), 7919)
    for words, document in PROGRAMS:
        name = " ".join(words)
        for error in READ_ERRORS:
            yield Trial(f"{name}: each read fails by {error}", each_call, "read", error, words, document)
        for error in WRITE_ERRORS:
            yield Trial(f"{name}: each write fails by {error}", each_call, "write", error, words, document)
        for calls in ("mmap", "brk", "mmap,brk"):
            yield Trial(f"{name}: memory fails by {calls}", each_taking, calls, words, document)
    for words, status in ((["show"], 2), ([], 1)):
        yield Trial(f"the line of status {status} fails to be written", line_fails, words, status)


# ---- files of limited size

def each_length(program, command, document, stride):
    """As many bytes as the file may have are there, and no more."""
    whole = text_of(command, document)
    for length in [*range(0, len(whole), stride), len(whole) - 1]:
        # (a shell leaves the signal of this limit as it is, by which the system ends a process: here it is passed over)
        end = program.run([command], document, restore_signals=False,
                          preexec_fn=lambda: resource.setrlimit(resource.RLIMIT_FSIZE, (length, length)))
        check_limited(end, whole, length)


def check_limited(end, whole, length):
    # (the line on standard error goes to a file too)
    said = b"scorpio: write failed\n"[:length]
    if (end.status, end.text, end.said) != (5, whole[:length], said):
        end.refuse(f"with files of {length} bytes: status {end.status}, {len(end.text)} bytes written, said {end.said!r}")


# ---- calls that are made to fail

class Traced:
    """A run under `strace`, with the calls that it made."""

    def __init__(self, program, words, document, calls, inject=()):
        with tempfile.TemporaryDirectory() as folder:
            log = Path(folder) / "log"
            before = ["strace", "-o", str(log), "-e", f"trace={calls}", *(word for one in inject for word in ("-e", f"inject={one}"))]
            self.end = program.run(words, document, before=before)
            lines = log.read_text(errors="replace").splitlines()
        self.calls = [line for line in lines if re.match(r"\w+\(", line)]

    def numbers(self, call, descriptors):
        """Which of the calls of this name, from 1, are on one of these descriptors."""
        of_name = [line for line in self.calls if line.startswith(call + "(")]
        return [at for at, line in enumerate(of_name, 1) if int(re.match(r"\w+\((-?\d+)", line)[1]) in descriptors]

    def place(self, call, number):
        """Where in the list of all calls that one of this name stands."""
        return [at for at, line in enumerate(self.calls) if line.startswith(call + "(")][number - 1]


def need_strace():
    if shutil.which("strace") is None:
        raise Skipped("there is no strace")
    tried = subprocess.run(["strace", "-o", os.devnull, "-e", "inject=write:error=EIO:when=99", "true"], capture_output=True)
    if tried.returncode != 0:
        raise Skipped("strace may not trace here")


def each_call(program, call, error, words, document):
    """Once a read has failed nothing is written; once a write has failed no more is, and what came before is there."""
    need_strace()
    whole = Traced(program, words, document, "read,write")
    numbers = whole.numbers(call, {0} if call == "read" else {1})
    if not numbers:
        raise Wrong(f"no call of {call} was seen", words, document)
    for number in numbers:
        traced = Traced(program, words, document, "read,write", [f"{call}:error={error}:when={number}"])
        traced.end.document = document
        if call == "read":
            traced.end.wants(4, b"")
        else:
            check_prefix(traced.end.wants(5).wants_part_of(whole.end.text), whole, number)


def check_prefix(end, whole, number):
    """What the writes before the failed one wrote is there. (A buffer that is given up tries once more to write what it holds,
    so after a failure that was the only one there may be more.)"""
    wrote = sum(int(line.rsplit("= ", 1)[1].split()[0]) for line in whole.calls[:whole.place("write", number)]
                if line.startswith("write(1,"))
    if len(end.text) < wrote:
        end.refuse(f"{len(end.text)} bytes are there, of {wrote} that were written before write {number} failed")


def each_taking(program, calls, words, document):
    """From each call on that takes memory none gives any: the run does all, or is out of memory and has written nothing."""
    need_strace()
    whole = Traced(program, words, document, "mmap,brk,read")
    if whole.end.status not in (0, 3):
        whole.end.refuse(f"status {whole.end.status} where nothing fails")
    # (what the loader takes before the first read is not the program's own)
    for number in range(first_own(whole, calls), count_of(whole, calls) + 1):
        traced = Traced(program, words, document, "none",
                        [f"{call}:error=ENOMEM:when={nth}+" for call, nth in places(whole, calls, number)])
        end, out = traced.end, (6, b"", b"scorpio: out of memory\n")
        if (end.status, end.text, end.said) not in (out, (whole.end.status, whole.end.text, whole.end.said)):
            end.refuse(f"{calls} failing from call {number} on: status {end.status}, {len(end.text)} bytes, said {end.said!r}")


def takings(whole, calls):
    return [line.split("(")[0] for line in whole.calls if line.split("(")[0] in calls.split(",")]


def count_of(whole, calls):
    return len(takings(whole, calls))


def first_own(whole, calls):
    """The first of these calls after the loader's: after the last that maps a file, and the memory of the first thread."""
    loaded = max(at for at, line in enumerate(whole.calls) if line.startswith("mmap(") and "MAP_ANONYMOUS" not in line)
    before = whole.calls[:loaded + LOADER_CALLS]
    return 1 + sum(line.split("(")[0] in calls.split(",") for line in before)


# (after the last file the loader takes memory twice: for the library's variables and for the first thread)
LOADER_CALLS = 3


def places(whole, calls, number):
    """From which of its own calls on each kind fails, where all fail from the call with this number."""
    made = takings(whole, calls)
    return [(call, made[:number - 1].count(call) + 1) for call in calls.split(",")]


def line_fails(program, words, status):
    """Standard error takes nothing: the status is the same, and nothing is on standard output."""
    need_strace()
    whole = Traced(program, words, FAULTY, "read,write")
    for number in whole.numbers("write", {2}):
        traced = Traced(program, words, FAULTY, "read,write", [f"write:error=EIO:when={number}"])
        if (traced.end.status, traced.end.text) != (status, b""):
            traced.end.refuse(f"status {traced.end.status} in place of {status}")
