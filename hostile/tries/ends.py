"""Standard input, output and error as real machines have them: full, closed, slow, cut, endless, hung up.
What `.ci/streams` tries (small texts, and streams that are gone from the start) is not done again."""

import os
import tempfile

from support.program import INPUT_LIMIT, Wrong
from support.streams import Run, closed, feed, hung_up_terminal, raw_terminal, reset_socket, small_pipe
from support.texts import FAULT, FAULTY, ONE_CORE, SMALL, long_show, small_for, spinning, text_of
from support.trials import Trial

COMMANDS = ("order", "deliver", "show", "step", "run")


def trials(options):
    for action in (long_text_into_a_full_device, spent_run_into_a_full_device, output_to_a_slow_reader_byte_by_byte,
                   long_output_to_a_slow_reader, output_that_may_not_be_written, output_to_a_reset_socket,
                   output_to_a_terminal, output_to_a_terminal_that_hung_up, output_that_never_waits,
                   outputs_that_are_one_pipe, error_is_gone_at_each_status):
        yield Trial(action.__name__.replace("_", " "), action)
    for count in (0, 1, 100, 4095, 4096, 4097, 65_535, 65_536, 65_537, 200_000):
        yield Trial(f"output whose reader leaves after {count} bytes", reader_leaves, count)
    for command in COMMANDS:
        yield Trial(f"{command} of an input that never ends", endless_input, command)
        yield Trial(f"{command} of an input of the limit", input_of_the_limit, command)
        yield Trial(f"{command} of an input that stops and goes on", input_that_stops, command)
    for action in (one_byte_past_the_limit_is_taken, endless_pipe, input_in_single_bytes, input_in_odd_pieces,
                   input_that_stops_and_is_cut, input_that_may_not_be_read, input_from_a_reset_socket,
                   input_from_a_terminal, input_from_a_terminal_that_hung_up, input_that_never_waits,
                   input_that_fails_to_be_read):
        yield Trial(action.__name__.replace("_", " "), action)


# ---- standard output

def long_text_into_a_full_device(program):
    with open("/dev/full", "wb") as full:
        program.run(["show"], long_show(), stdout=full).wants(5)


def spent_run_into_a_full_device(program):
    with open("/dev/full", "wb") as full:
        for command in ("step", "run"):
            program.run([command, "--budget", "9000"], spinning(), stdout=full).wants(5)


def reader_leaves(program, count):
    whole = text_of("show", long_show())
    there, into = small_pipe()
    with tempfile.TemporaryFile() as source:
        source.write(long_show())
        source.seek(0)
        run = Run(program, ["show"], source, into, long_show())
    closed(into)
    while len(run.text) < count and run.read(there, count - len(run.text)):
        pass
    closed(there)
    run.end().wants(5).wants_part_of(whole)


def output_to_a_slow_reader_byte_by_byte(program):
    slow_output(program, "deliver", SMALL, 1, 0.005)


def long_output_to_a_slow_reader(program):
    slow_output(program, "show", long_show(), 3001, 0.002)


def slow_output(program, command, document, count, pause):
    there, into = small_pipe()
    with tempfile.TemporaryFile() as source:
        source.write(document)
        source.seek(0)
        run = Run(program, [command], source, into, document)
    closed(into)
    run.read_all(there, count, pause)
    closed(there)
    run.end().wants(0, text_of(command, document))


def output_that_may_not_be_written(program):
    with open("/dev/null", "rb") as reading_only:
        for command in COMMANDS:
            program.run([command], SMALL, stdout=reading_only).wants(5)


def output_to_a_reset_socket(program):
    with reset_socket() as near:
        program.run(["order"], SMALL, stdout=near).wants(5)


def output_to_a_terminal(program):
    other, terminal = raw_terminal()
    with tempfile.TemporaryFile() as source:
        source.write(long_show())
        source.seek(0)
        run = Run(program, ["show"], source, terminal, long_show())
    closed(terminal)
    run.read_all(other)
    closed(other)
    run.end().wants(0, text_of("show", long_show()))


def output_to_a_terminal_that_hung_up(program):
    terminal = hung_up_terminal()
    program.run(["order"], SMALL, stdout=terminal).wants(5)
    closed(terminal)


def output_that_never_waits(program):
    """A pipe that is set so that a write fails where it would wait: as much as it holds is written, and no more."""
    there, into = small_pipe()
    os.set_blocking(into, False)
    program.run(["show"], long_show(), stdout=into).wants(5)
    closed(into)
    text = b"".join(iter(lambda: os.read(there, 65536), b""))
    closed(there)
    if not text or not text_of("show", long_show()).startswith(text):
        raise Wrong("what was written is no prefix of the text", ["show"], long_show())


def outputs_that_are_one_pipe(program):
    """Nobody reads it: the text and the line are both lost, and the status is that of the text."""
    there, into = os.pipe()
    closed(there)
    program.run(["show"], SMALL, stdout=into, stderr=into).wants(5, said=b"")
    closed(into)


# ---- standard error

def error_is_gone_at_each_status(program):
    """The line is lost, and nothing else: status and text are as they would be."""
    there, into = os.pipe()
    closed(there)
    with open("/dev/full", "wb") as full, open("/dev/null", "rb") as reading_only:
        for error in (full, reading_only, into):
            for words, document, status in (([], b"", 1), (["show"], FAULTY, 2), (["step", "--budget", "9"], spinning(), 3),
                                            (["run", "--budget", "1"], ONE_CORE, 3),
                                            (["order"], bytes(INPUT_LIMIT + 1), 7)):
                whole = program.run(words, document).wants(status, said=FAULT if status == 2 else None).text
                program.run(words, document, stderr=error).wants(status, whole, b"")
            program.run(["order"], SMALL, stdin=full, stderr=error).wants(4, b"", b"")
    closed(into)


# ---- standard input

def endless_input(program, command):
    with open("/dev/zero", "rb") as zeros:
        program.run([command], stdin=zeros).wants(7, b"")


def one_byte_past_the_limit_is_taken(program):
    for length in (INPUT_LIMIT + 1, INPUT_LIMIT + 2, 3 * INPUT_LIMIT):
        with tempfile.TemporaryFile() as source:
            source.truncate(length)
            program.run(["show"], stdin=source).wants(7, b"")
            taken = os.lseek(source.fileno(), 0, os.SEEK_CUR)
            if taken != INPUT_LIMIT + 1:
                raise Wrong(f"{taken} bytes of an input of {length} were taken")


def input_of_the_limit(program, command):
    small = small_for(command)
    padded = small + b"\n" * (INPUT_LIMIT - len(small))
    whole = program.run([command], small).wants(0).text
    program.run([command], padded).wants(0, whole)
    program.run([command], padded + b"\n").wants(7, b"")


def endless_pipe(program):
    reading_end, writing_end = os.pipe()
    feeder = feed(writing_end, bytes(4 * INPUT_LIMIT))
    program.run(["order"], stdin=reading_end).wants(7, b"")
    closed(reading_end)
    feeder.join()


def input_in_single_bytes(program):
    input_in_pieces(program, "deliver", SMALL, 1, 0.002)


def input_in_odd_pieces(program):
    input_in_pieces(program, "show", long_show(), 4099, 0)


def input_in_pieces(program, command, document, count, pause):
    reading_end, writing_end = os.pipe()
    feeder = feed(writing_end, document, count, pause)
    program.run([command], document, stdin=reading_end).wants(0, text_of(command, document))
    closed(reading_end)
    feeder.join()


def input_that_stops(program, command):
    """It waits as long as the input may go on, and then does what the whole of it says."""
    whole = program.run([command], small_for(command)).wants(0).text
    end = stopped_run(program, command, small_for(command))
    if (end.status, end.text) != (0, whole):
        end.refuse(f"status {end.status} and another text than where the input does not stop")


def stopped_run(program, command, document, rest=True):
    """A run whose input stands still in the middle, and then ends there or with the rest."""
    reading_end, writing_end = os.pipe()
    there, into = os.pipe()
    run = Run(program, [command], reading_end, into, document)
    closed(reading_end, into)
    half = len(document) // 2
    os.write(writing_end, document[:half])
    run.waits()
    if rest:
        os.write(writing_end, document[half:])
    closed(writing_end)
    run.read_all(there)
    closed(there)
    return run.end()


def input_that_stops_and_is_cut(program):
    stopped_run(program, "show", SMALL, rest=False).wants(2, b"", b"scorpio: document: not toml")


def input_that_may_not_be_read(program):
    with open("/dev/null", "wb") as writing_only:
        for command in COMMANDS:
            program.run([command], stdin=writing_only).wants(4, b"")


def input_from_a_reset_socket(program):
    with reset_socket() as near:
        program.run(["order"], stdin=near).wants(4, b"")


def input_from_a_terminal(program):
    other, terminal = raw_terminal()
    there, into = os.pipe()
    run = Run(program, ["order"], terminal, into, SMALL)
    os.write(other, SMALL)
    closed(into)
    run.waits()
    # (without its other side the terminal has no more to give: a read of it fails)
    closed(terminal, other)
    run.read_all(there)
    closed(there)
    run.end().wants(4, b"")


def input_from_a_terminal_that_hung_up(program):
    terminal = hung_up_terminal()
    end = program.run(["order"], stdin=terminal)
    closed(terminal)
    # (the system lets a read of it fail, or end)
    end.wants_one_of({2, 4})


def input_that_never_waits(program):
    """A pipe that is set so that a read fails where it would wait."""
    reading_end, writing_end = os.pipe()
    os.set_blocking(reading_end, False)
    os.write(writing_end, SMALL)
    program.run(["order"], stdin=reading_end).wants(4, b"")
    closed(reading_end, writing_end)


def input_that_fails_to_be_read(program):
    """The first page of a process's own memory is not there."""
    with open("/proc/self/mem", "rb") as memory:
        program.run(["order"], stdin=memory).wants(4, b"")
