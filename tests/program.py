"""A built program, run as tests/run-program runs it, on a copy in a folder of its own."""

import fcntl
import os
import shutil
import struct
import subprocess
import sys
import tempfile
import termios
import time
import tty

ROOT = os.path.dirname(os.path.dirname(os.path.abspath(__file__)))
MOST_SECONDS = 60
A_MOMENT = 0.0002

# What standard input may be: a pipe; a terminal, which cannot be read once its other end is closed; a folder, which cannot be read.
PIPE, TERMINAL, FOLDER = "pipe", "terminal", "folder"


def unread(source):
    """How many bytes of a pipe or of a terminal are written and not read."""
    return struct.unpack("i", fcntl.ioctl(source, termios.FIONREAD, bytes(4)))[0]


class Program:
    """`with Program(NAME) as program`: the program crates/NAME/out/NAME, in a new folder inside the one that is given, if any. Where it is not built
    the run ends in '0 passed, 1 failed'."""

    def __init__(self, name, inside=None):
        built = os.path.join(ROOT, "crates", name, "out", name)
        if not os.path.isfile(built):
            print(f"no program to run: run 'tests/build {name}' first\n0 passed, 1 failed")
            sys.exit(1)
        said = subprocess.run([os.path.join(ROOT, "tests", "run-program"), "--prefix"], check=True, stdout=subprocess.PIPE, text=True)
        self.made = tempfile.TemporaryDirectory(dir=inside)
        self.room = self.made.name
        os.chmod(self.room, 0o755)
        copy = shutil.copy(built, os.path.join(self.room, "program"))
        os.chmod(copy, 0o755)
        self.command = said.stdout.splitlines() + [copy]
        self.env = dict(os.environ)
        self.output, self.error = (open(os.path.join(self.room, name), "w+b") for name in ("output", "error"))

    def __enter__(self):
        return self

    def __exit__(self, *_):
        self.output.close()
        self.error.close()
        self.made.cleanup()

    def lay(self, name, text):
        """A file with this text, which the program can read; answers its path."""
        path = os.path.join(self.room, name)
        with open(path, "wb") as file:
            file.write(text)
        os.chmod(path, 0o644)
        return path

    def run(self, words, pieces, kind=PIPE, open_until=0):
        """The status, and what is written on standard output and on standard error. Each of the pieces comes to the program when it has read all
        before. Behind them the input stays open until so many bytes stand on standard output; where that is None, until the program has ended."""
        for file in (self.output, self.error):
            file.seek(0)
            file.truncate()
        source, end, seen = opened(kind, self.room)
        try:
            process = subprocess.Popen(self.command + words, stdin=source, stdout=self.output, stderr=self.error, cwd=self.room, env=self.env)
        finally:
            if source != seen:
                os.close(source)
        try:
            feed(process, end, seen, pieces)
            in_time = stands(process, self.output, open_until)
        finally:
            for one in {end, seen}:
                os.close(one)
        try:
            status = process.wait(MOST_SECONDS if in_time else 0)
        except subprocess.TimeoutExpired:
            in_time = False
        if not in_time:
            process.kill()
            process.wait()
            return -1, b"", b"not within a minute\n"
        return status, whole(self.output), whole(self.error)


def opened(kind, room):
    """An input of this kind for the program, the end that is written to, and where it is seen what is not read."""
    source, end = os.openpty() if kind == TERMINAL else os.pipe()
    os.set_blocking(end, False)
    if kind == TERMINAL:
        tty.setraw(end)
        return source, end, source
    if kind == FOLDER:
        os.close(source)
        source = os.open(room, os.O_RDONLY)
    return source, end, end


def feed(process, end, seen, pieces):
    """Writes the pieces, each when the one before is read, until the process ends or its time is up."""
    until = time.monotonic() + MOST_SECONDS
    for piece in pieces:
        rest = memoryview(piece)
        while rest or unread(seen):
            try:
                rest = rest[os.write(end, rest) :] if rest else rest
            except BlockingIOError:
                pass
            except BrokenPipeError:
                return
            if process.poll() is not None or time.monotonic() > until:
                return
            time.sleep(A_MOMENT)


def stands(process, output, enough):
    """Waits until so many bytes stand in the output, or until the process has ended; says whether it was in time."""
    until = time.monotonic() + MOST_SECONDS
    while process.poll() is None and (enough is None or os.fstat(output.fileno()).st_size < enough):
        if time.monotonic() > until:
            return False
        time.sleep(A_MOMENT)
    return True


def whole(file):
    file.seek(0)
    return file.read()
