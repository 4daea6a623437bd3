"""Descriptors that behave as those of real machines do."""

import fcntl
import os
import pty
import socket
import tempfile
import threading
import time
import tty

from support.program import End, contents, ended

SET_PIPE_SIZE = getattr(fcntl, "F_SETPIPE_SZ", 1031)
# How long a run is looked at before it is said to wait.
A_WHILE = 0.2


def small_pipe():
    """A pipe that holds one page, and so makes its writer wait early."""
    reading_end, writing_end = os.pipe()
    fcntl.fcntl(writing_end, SET_PIPE_SIZE, 4096)
    return reading_end, writing_end


def hung_up_terminal():
    """A terminal whose other side is gone."""
    other, terminal = pty.openpty()
    os.close(other)
    return terminal


def raw_terminal():
    """Both sides of a terminal that changes nothing of what goes through it."""
    other, terminal = pty.openpty()
    tty.setraw(terminal)
    return other, terminal


def reset_socket():
    """A socket whose peer closed it with something unread, so that a read of it fails, and so does a write."""
    near, far = socket.socketpair()
    near.send(b"unread")
    far.close()
    return near


class Run:
    """A run whose streams the caller serves while it goes on. What was read of its output is gathered in `text`."""

    def __init__(self, program, words, stdin, stdout, document=None):
        self.words, self.document, self.text = list(words), document, bytearray()
        self.errors = tempfile.TemporaryFile()
        self.process = program.start(words, stdin, stdout, self.errors)

    def read(self, descriptor, count):
        """Up to so many bytes of its output; nothing at its end."""
        try:
            piece = os.read(descriptor, count)
        except OSError:  # (of a terminal whose program has ended)
            piece = b""
        self.text += piece
        return piece

    def read_all(self, descriptor, count=65536, pause=0.0):
        while self.read(descriptor, count):
            time.sleep(pause)

    def waits(self):
        """That it goes on and has nothing to do but to wait."""
        time.sleep(A_WHILE)
        if self.process.poll() is not None:
            self.end().refuse("it ended while its stream stood still")

    def end(self):
        status = ended(self.process, self.words, self.document)
        return End(self.words, self.document, status, bytes(self.text), contents(self.errors))


def feed(descriptor, data, count=65536, pause=0.0):
    """Writes data into a pipe, piece by piece, from a thread of its own, until it is written or nobody reads it."""
    def write():
        try:
            for first in range(0, len(data), count):
                os.write(descriptor, data[first:first + count])
                time.sleep(pause)
        except BrokenPipeError:
            pass
        os.close(descriptor)
    thread = threading.Thread(target=write, daemon=True)
    thread.start()
    return thread


def closed(*descriptors):
    for descriptor in descriptors:
        os.close(descriptor)

