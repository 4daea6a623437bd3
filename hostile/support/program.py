"""The program under trial: where it is, how it is run, and what its runs ended with."""

import os
import re
import subprocess
import tempfile
from dataclasses import dataclass
from pathlib import Path

TOP = Path(__file__).resolve().parents[2]
INPUT_LIMIT = 1_048_576
MOST_BUDGET = 4_000_000
# A run that is tried takes a few seconds. Past this time it is said to hang: a busy machine lets a run wait for long.
SECONDS = 300

USAGE = (b"usage:\n  scorpio order\n  scorpio show\n  scorpio deliver\n"
         b"  scorpio step [--pace n] [--budget n]\n  scorpio run [--budget n]\n  scorpio gen n [--text]")
# What standard error has to say at each status. At status 2 any fault of a document may be told.
LINES = {
    0: b"",
    1: USAGE,
    3: b"scorpio: budget spent",
    4: b"scorpio: read failed",
    5: b"scorpio: write failed",
    6: b"scorpio: out of memory",
    7: b"scorpio: input too long",
}
_KEY = (rb"(mesh|posts|core|mesh\.(cols|rows|window|vcs|data_vcs|lines|sets|ways|controllers|memory)"
        rb"|core\.(tile|code))")
FAULT = re.compile(
    rb"scorpio: document: (not toml|unknown key .*|(missing|wrong kind|out of range) " + _KEY
    + rb"|controllers|core twice \d+|core \d+ line \d+ kind [1-6])", re.DOTALL)


class Wrong(Exception):
    """The program did what it must not do. `words` and `document` repeat it."""

    def __init__(self, what, words=(), document=None):
        super().__init__(what)
        self.words, self.document = list(words), document

    def __reduce__(self):
        return Wrong, (str(self), self.words, self.document)


class Skipped(Exception):
    """The machine lacks what a try needs."""


@dataclass
class End:
    """How a run ended. A status below 0 is the signal that ended it."""
    words: list
    document: object
    status: int
    text: bytes
    said: bytes

    def refuse(self, what):
        raise Wrong(what, self.words, self.document)

    def wants(self, status, text=None, said=None):
        """That it ended with this status, this text and this line on standard error: that of the status, where none is given."""
        if self.status != status:
            self.refuse(f"status {self.status} in place of {status}; it said {brief(self.said)}")
        if text is not None and self.text != text:
            self.refuse(f"wrote {brief(self.text)} in place of {brief(text)}")
        if said is None and status == 2:
            if not FAULT.fullmatch(self.said.rstrip(b"\n")):
                self.refuse(f"said {brief(self.said)}, which is no fault of a document")
        elif self.said.rstrip(b"\n") != (LINES[status] if said is None else said):
            self.refuse(f"said {brief(self.said)} at status {status}")
        return self

    def wants_one_of(self, statuses):
        if self.status not in statuses:
            self.refuse(f"status {self.status} in place of one of {sorted(statuses)}; it said {brief(self.said)}")
        return self.wants(self.status)

    def wants_part_of(self, whole):
        """That a prefix of the text was written."""
        if not whole.startswith(self.text):
            self.refuse(f"wrote {brief(self.text)}, which is no prefix of the text")
        return self


def brief(text):
    return repr(text if len(text) <= 120 else text[:120] + b"..")


def built():
    """The program: that of the environment, or the repository's, which its script builds where it is not fresh."""
    named = os.environ.get("SCORPIO")
    if named:
        return str(Path(named).resolve())
    first = subprocess.run([str(TOP / "scorpio"), "order"], stdin=subprocess.DEVNULL, stdout=subprocess.DEVNULL)
    if first.returncode != 2:
        raise SystemExit("the program could not be built")
    return str(TOP / "crates/scorpio_cli/out/scorpio_cli")


class Program:
    def __init__(self, path):
        self.path = path

    def start(self, words, stdin, stdout, stderr, **more):
        """Starts it over these descriptors. Broken pipes and sizes of files have the effects that a shell leaves them."""
        return subprocess.Popen([self.path, *words], stdin=stdin, stdout=stdout, stderr=stderr, **more)

    def run(self, words, document=b"", stdin=None, stdout=None, stderr=None, before=(), **more):
        """Runs it to its end. Where no input is given it reads the document from a file; `before` are words that start it."""
        with tempfile.TemporaryFile() as source, tempfile.TemporaryFile() as sink, tempfile.TemporaryFile() as errors:
            if stdin is None:
                source.write(document)
                source.seek(0)
            run = subprocess.Popen([*before, self.path, *words],
                                   stdin=source if stdin is None else stdin,
                                   stdout=sink if stdout is None else stdout,
                                   stderr=errors if stderr is None else stderr, **more)
            status = ended(run, words, document)
            return End(list(words), document, status, contents(sink), contents(errors))


def contents(file):
    file.seek(0)
    return file.read()


def ended(run, words=(), document=None, seconds=SECONDS):
    """The status of a run, which has to end in time."""
    try:
        return run.wait(timeout=seconds)
    except subprocess.TimeoutExpired:
        run.kill()
        run.wait()
        raise Wrong(f"no end in {seconds} seconds", words, document) from None
