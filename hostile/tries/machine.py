"""What a machine does to a program: signals that stop it and let it go on, many runs at once, little memory."""

import os
import resource
import signal
import tempfile
import time

from support import reading
from support.program import End, Skipped, Wrong, contents
from support.streams import Run, closed, small_pipe
from support.texts import FAULTY, ONE_CORE, SMALL, long_show, spinning, text_of
from support.trials import Trial
from tries.documents import ROUND_EVENTS, check_run

AT_ONCE = 64
# A run of about a second.
LONG_RUN = ["step", "--pace", "5", "--budget", "400000"]
# A run by threads that takes some tenths of a second at least.
THREADS_BUDGET = 4000
# What is tried of memory goes up to here, in kilobytes, where each of the runs has enough.
AMPLE = 128 * 1024


def trials(options):
    for action in (stopped_and_continued, threads_stopped_and_continued, stopped_before_its_input, stopped_before_a_full_pipe,
                   signals_without_meaning, many_at_once, little_stack):
        yield Trial(action.__name__.replace("_", " "), action)
    for command in ("step", "run"):
        for number in (signal.SIGTERM, signal.SIGINT, signal.SIGHUP, signal.SIGKILL):
            yield Trial(f"{command} that {number.name} ends", ended_by_a_signal, command, number)
    steps = 120 if options.all else 30
    for words, document in ((["order"], SMALL), (["deliver"], SMALL), (["show"], long_show()), (["show"], FAULTY), ([], b""),
                            (["step"], SMALL), (["step", "--budget", "3000"], spinning()), (["run"], ONE_CORE),
                            (["order"], bytes(2**20 + 1))):
        yield Trial(f"little memory, {' '.join(words)} of {len(document)} bytes", little_memory, words, document, steps)


# ---- signals

def started(program, words, document, stdout):
    with tempfile.TemporaryFile() as source:
        source.write(document)
        source.seek(0)
        return Run(program, words, source, stdout, document)


def stopped_and_continued(program):
    whole = program.run(LONG_RUN, spinning()).wants(3).text
    end_of_stopped(program, LONG_RUN, spinning()).wants(3, whole)


def threads_stopped_and_continued(program):
    """All threads of a run stand still together, wherever each of them is, and go on: the report is one of the document."""
    document = reading.read(spinning())
    end = end_of_stopped(program, ["run", "--budget", str(THREADS_BUDGET)], spinning())
    check_run(end, document, THREADS_BUDGET, ROUND_EVENTS * document.tiles() - 1)


def end_of_stopped(program, words, document):
    """The end of a run that was stopped again and again."""
    with tempfile.TemporaryFile() as sink:
        run = started(program, words, document, sink)
        stops = 0
        while run.process.poll() is None:
            stops += stop_and_continue(run)
            time.sleep(0.01)
        if stops < 3:
            raise Wrong(f"the run ended after {stops} stops: it is too short to be tried")
        run.text += contents(sink)
    return run.end()


def stop_and_continue(run):
    """Whether the run was stopped: it may have ended before."""
    run.process.send_signal(signal.SIGSTOP)
    if run.process.returncode is not None:
        return False
    stopped = os.waitid(os.P_PID, run.process.pid, os.WSTOPPED | os.WEXITED | os.WNOWAIT)
    time.sleep(0.005)
    run.process.send_signal(signal.SIGCONT)
    return stopped.si_code == os.CLD_STOPPED


def stopped_before_its_input(program):
    reading_end, writing_end = os.pipe()
    there, into = os.pipe()
    run = Run(program, ["deliver"], reading_end, into, SMALL)
    closed(reading_end, into)
    for byte in SMALL:
        os.write(writing_end, bytes([byte]))
        stop_and_continue(run)
    closed(writing_end)
    run.read_all(there)
    closed(there)
    run.end().wants(0, text_of("deliver", SMALL))


def stopped_before_a_full_pipe(program):
    there, into = small_pipe()
    run = started(program, ["show"], long_show(), into)
    closed(into)
    run.waits()
    while run.read(there, 10_000):
        stop_and_continue(run)
    closed(there)
    run.end().wants(0, text_of("show", long_show()))


def signals_without_meaning(program):
    """Those that do nothing where a program does not ask for them."""
    whole = program.run(LONG_RUN, spinning()).wants(3).text
    with tempfile.TemporaryFile() as sink:
        run = started(program, LONG_RUN, spinning(), sink)
        while run.process.poll() is None:
            for number in (signal.SIGWINCH, signal.SIGCHLD, signal.SIGURG, signal.SIGCONT):
                run.process.send_signal(number)
            time.sleep(0.001)
        run.text += contents(sink)
    run.end().wants(3, whole)


def ended_by_a_signal(program, command, number):
    """Nothing of a run is written before it has ended, so a run that is ended by force has written nothing."""
    with tempfile.TemporaryFile() as sink:
        run = started(program, [command, "--budget", "4000000"], spinning(), sink)
        time.sleep(0.1)
        run.process.send_signal(number)
        run.text += contents(sink)
        end = run.end()
    if (end.status, end.text, end.said) != (-number, b"", b""):
        end.refuse(f"status {end.status}, {len(end.text)} bytes written, said {end.said!r}")


# ---- many at once

def many_at_once(program):
    runs = [(["order"], SMALL), (["deliver"], SMALL), (["show"], long_show()), (["step", "--budget", "2000"], spinning()),
            (["run"], ONE_CORE)]
    wholes = [program.run(words, document) for words, document in runs]
    sinks = [tempfile.TemporaryFile() for _ in range(AT_ONCE)]
    going = [started(program, *runs[at % len(runs)], sink) for at, sink in enumerate(sinks)]
    for at, (run, sink) in enumerate(zip(going, sinks)):
        end = run.end()
        whole = wholes[at % len(runs)]
        if (end.status, contents(sink), end.said) != (whole.status, whole.text, whole.said):
            end.refuse(f"run {at} of {AT_ONCE} ended otherwise than the same run alone")
        sink.close()


# ---- memory

def run_within(program, kilobytes, words, document, kind=resource.RLIMIT_AS):
    limit = kilobytes * 1024
    return program.run(words, document, preexec_fn=lambda: resource.setrlimit(kind, (limit, limit)))


def least_to_be_loaded(program):
    """The least limit, in kilobytes, at which the program comes to look at its arguments. Below it the system's loader fails."""
    for kilobytes in range(1024, AMPLE, 64):
        if run_within(program, kilobytes, [], b"").status == 1:
            return kilobytes
    raise Skipped("the program is not loaded within any limit")


def little_memory(program, words, document, steps):
    """Within each limit it does all, or says that it is out of memory and has written nothing."""
    whole = program.run(words, document)
    floor = least_to_be_loaded(program)
    ample, statuses = AMPLE - floor, set()
    # (closer to each other where there is little)
    for step in range(steps + 1):
        kilobytes = floor + int(ample * (step / steps) ** 3) // 4 * 4
        end = run_within(program, kilobytes, words, document)
        statuses.add(end.status)
        wanted = whole if end.status == whole.status else End(words, document, 6, b"", b"scorpio: out of memory\n")
        if (end.status, end.text, end.said) != (wanted.status, wanted.text, wanted.said):
            end.refuse(f"with {kilobytes} kilobytes: status {end.status}, {len(end.text)} bytes written, said {end.said!r}")
    if whole.status not in statuses:
        raise Wrong(f"with {AMPLE} kilobytes it does not end as without a limit", words, document)


def little_stack(program):
    """It calls no function to a depth that the input names, so a small stack is enough."""
    for document, words in ((long_show(), ["show"]), (b"a = " + b"[" * 2**20, ["show"]), (spinning(), ["step", "--budget", "2000"]),
                            (ONE_CORE, ["run"])):
        whole = program.run(words, document[:2**20])
        end = run_within(program, 256, words, document[:2**20], resource.RLIMIT_STACK)
        if (end.status, end.text, end.said) != (whole.status, whole.text, whole.said):
            end.refuse(f"with a stack of 256 kilobytes: status {end.status}")
