"""Runs the program inventory on input and output that the system makes hard.

    python3 tests/hard_input.py PROGRAM
    python3 tests/hard_input.py PROGRAM --valgrind

What must be printed is worked out by slot_file.py. The program must always end; where it can't read
its input to the end it refuses it, and where it can't write all of its output it says so on standard
error. With --valgrind it runs once on each file of a few kinds, and valgrind must find no error.
"""
import sys

sys.dont_write_bytecode = True

import os
import resource
import signal
import subprocess
import tempfile
import time
import tty

import file_mixes
import slot_file
from inventory import LISTING, example

SECONDS = 20
UNREAD = (b"refused 1 0\n", b"inventory: standard input: ")
UNWRITTEN = b"inventory: standard output: "
UNNAMED = b"inventory: reads standard input: inventory < FILE\n"


def ended(program, status=0, **how):
    """What the program prints on both outputs; it must end, and with this status."""
    how = {"stdout": subprocess.PIPE, "stderr": subprocess.PIPE, **how}
    done = subprocess.run([program], timeout=SECONDS, **how)
    assert done.returncode == status, done.returncode
    return done


def assert_printed(done, text, label):
    """On standard output this text, and on standard error nothing."""
    assert (done.stdout, done.stderr) == (text, b""), (label, done.stdout, done.stderr)


def assert_unread(done, label):
    line, reason = UNREAD
    assert done.stdout == line, (label, done.stdout)
    assert done.stderr.startswith(reason), (label, done.stderr)


# Input


def closed_input(program):
    assert_unread(ended(program, preexec_fn=lambda: os.close(0)), "closed")


def unreadable_input(program):
    """A directory, and a file that is open for writing only."""
    with tempfile.TemporaryDirectory() as folder:
        at = os.open(folder, os.O_RDONLY)
        assert_unread(ended(program, stdin=at), "a directory")
        os.close(at)
        at = os.open(os.path.join(folder, "file"), os.O_WRONLY | os.O_CREAT)
        assert_unread(ended(program, stdin=at), "not for reading")
        os.close(at)


def input_that_fails_at_its_end(program):
    """A terminal's far side gives every byte of an accepted file, and then an error."""
    ours, theirs = os.openpty()
    tty.setraw(theirs)
    os.write(theirs, example())
    os.close(theirs)
    assert_unread(ended(program, stdin=ours), "an error after the last byte")
    os.close(ours)


def stopped_pipe(program):
    """A pipe that stops after any number of slots, in the middle of one, or of its first."""
    data = example()
    for size in (0, 1, 2, 63, *range(64, len(data), 64), *range(100, len(data), 64)):
        text = slot_file.printed(data[:size])
        assert text.startswith(b"refused "), size
        assert_printed(ended(program, input=data[:size]), text, size)


def killed_writer(program):
    with tempfile.NamedTemporaryFile() as file:
        file.write(example())
        file.flush()
        words = ["sh", "-c", 'head -c 320 "$0" && kill -9 $$', file.name]
        writer = subprocess.Popen(words, stdout=subprocess.PIPE)
        done = ended(program, stdin=writer.stdout)
        assert writer.wait() == -signal.SIGKILL
    assert_printed(done, b"refused 3 0\n", "killed writer")


def slow_pipe(program):
    """Pieces with pauses between them are one file."""
    running = subprocess.Popen([program], stdin=subprocess.PIPE, stdout=subprocess.PIPE)
    for byte in example():
        running.stdin.write(bytes([byte]))
        running.stdin.flush()
        time.sleep(0.001)
    text, _ = running.communicate(timeout=SECONDS)
    assert (text, running.returncode) == (LISTING, 0), text


def long_input(program):
    for case in file_mixes.full()[:1] + file_mixes.full_of_locomotives():
        full = case.data
        assert len(full) == 65_536
        assert_printed(ended(program, input=full), slot_file.printed(full), case.label)
        assert_printed(ended(program, input=full + b"\0"), b"refused 1 0\n", "a byte more")
    with open("/dev/zero", "rb") as endless:
        assert_printed(ended(program, stdin=endless), b"refused 1 0\n", "no end")


def named_file(program):
    """A file named as an argument is not read, and that is said; what comes by the pipe is."""
    done = subprocess.run([program, "FILE"], input=example(), capture_output=True, timeout=SECONDS)
    assert (done.returncode, done.stdout) == (0, LISTING), done
    assert done.stderr == UNNAMED, done.stderr


# Output


def full_device(program):
    with open("/dev/full", "wb") as full:
        done = ended(program, input=example(), stdout=full)
    assert done.stderr.startswith(UNWRITTEN), done.stderr


def closed_output(program):
    done = ended(program, input=example(), stdout=None, preexec_fn=lambda: os.close(1))
    assert done.stderr.startswith(UNWRITTEN), done.stderr


def closed_pipe(program):
    """The program says what failed, whether or not its caller ignores the signal: it ignores it itself."""
    for ignored in (False, True):
        ours, theirs = os.pipe()
        os.close(ours)
        done = ended(program, input=example(), stdout=theirs, restore_signals=not ignored)
        os.close(theirs)
        assert done.stderr.startswith(UNWRITTEN), done.stderr


def room_for_a_part(program):
    """A file that may hold 100 bytes: what stands there is no whole listing, and it is said."""

    def limit():
        signal.signal(signal.SIGXFSZ, signal.SIG_IGN)
        resource.setrlimit(resource.RLIMIT_FSIZE, (100, 100))

    with tempfile.TemporaryFile() as out:
        done = ended(program, input=example(), stdout=out, preexec_fn=limit, restore_signals=False)
        out.seek(0)
        assert out.read() == LISTING[:100]
    assert done.stderr.startswith(UNWRITTEN), done.stderr


# Memory


def under_valgrind(program):
    kinds = [b"", b"\1", example(), example()[:-64], file_mixes.full()[0].data, bytes(70_000)]
    kinds += [case.data for case in file_mixes.full_of_locomotives()]
    words = ["valgrind", "-q", "--error-exitcode=9", "--leak-check=full", program]
    for data in kinds:
        done = subprocess.run(words, input=data, capture_output=True)
        assert done.returncode != 9 and done.stderr == b"", done.stderr.decode()
        assert done.stdout == slot_file.printed(data), len(data)


HARD = (
    closed_input,
    unreadable_input,
    input_that_fails_at_its_end,
    stopped_pipe,
    killed_writer,
    slow_pipe,
    long_input,
    named_file,
    full_device,
    closed_output,
    closed_pipe,
    room_for_a_part,
)


def main():
    if len(sys.argv) not in (2, 3) or sys.argv[2:] not in ([], ["--valgrind"]):
        sys.exit("usage: hard_input.py PROGRAM [--valgrind]")
    program = os.path.abspath(sys.argv[1])
    for test in [under_valgrind] if sys.argv[2:] else HARD:
        test(program)
        print(f"{test.__name__}: as it should be")


if __name__ == "__main__":
    main()
