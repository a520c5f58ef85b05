#!/usr/bin/env python3
"""Runs treelist where its input can't be read or its listing can't be written, and compares what it prints and what it says on
standard error.

    ./check_failures.py

The program is TREELIST, by default crates/treelist/out/treelist of the repository. Its exit status is 0 in each case; README.md says
how a whole listing is told.
"""
import errno
import fcntl
import os
import pty
import re
import resource
import signal
import subprocess
import sys
import tempfile
import tty

HERE = os.path.dirname(os.path.abspath(__file__))
TREELIST = os.environ.get("TREELIST", os.path.join(HERE, "..", "crates", "treelist", "out", "treelist"))
SHEET = os.path.join(HERE, "workplace.tokens")
LISTING = os.path.join(HERE, "workplace.listing")

UNREAD = b"input cannot be read\n"
PIPE_SIZE = 1031  # Linux's F_SETPIPE_SZ, which Python names from 3.10 on
SMALLEST_PIPE = 4096  # bytes; the listing has more
CUT = os.path.getsize(LISTING) - 1


def contents(path):
    with open(path, "rb") as file:
        return file.read()


def is_whole(listing):
    return re.search(rb"^answer=(end|stopped number=[0-9]+)\n\Z", listing, re.M) is not None


def run(command, **options):
    """A run's status, output and errors; the output is None where it goes elsewhere."""
    ran = subprocess.run(command, stderr=subprocess.PIPE, timeout=60, **options)
    return ran.returncode, ran.stdout, ran.stderr.decode()


def redirected(redirections):
    return run(["sh", "-c", 'exec "$0" ' + redirections, TREELIST, SHEET], stdout=subprocess.PIPE)


def input_that_waits():
    """A whole sheet from a pipe that doesn't block and may still be written to."""
    end, start = os.pipe()
    os.set_blocking(end, False)
    os.write(start, contents(SHEET))
    ran = run([TREELIST], stdin=end, stdout=subprocess.PIPE)
    os.close(start)
    os.close(end)
    return ran


def input_that_breaks_off():
    """A whole sheet from a terminal that is closed then."""
    end, start = pty.openpty()
    tty.setraw(start)
    os.write(start, contents(SHEET))
    os.close(start)
    ran = run([TREELIST], stdin=end, stdout=subprocess.PIPE)
    os.close(end)
    return ran


def output_that_fills_up():
    """A listing to a pipe that doesn't block and that nobody empties meanwhile."""
    end, start = os.pipe()
    fcntl.fcntl(start, PIPE_SIZE, SMALLEST_PIPE)
    os.set_blocking(start, False)
    with open(SHEET, "rb") as sheet:
        status, _, errors = run([TREELIST], stdin=sheet, stdout=start)
    os.close(start)
    with os.fdopen(end, "rb") as pipe:
        return status, pipe.read(), errors


def output_without_its_last_byte():
    """A listing to a file that may not grow to its size, with the signal ignored that would end the program."""
    def limit():
        signal.signal(signal.SIGXFSZ, signal.SIG_IGN)
        resource.setrlimit(resource.RLIMIT_FSIZE, (CUT, CUT))

    with tempfile.TemporaryFile() as file, open(SHEET, "rb") as sheet:
        status, _, errors = run([TREELIST], stdin=sheet, stdout=file, restore_signals=False, preexec_fn=limit)
        file.seek(0)
        return status, file.read(), errors


def output_that_nobody_reads():
    """A listing to a pipe that nobody reads, with the signal ignored that would end the program."""
    end, start = os.pipe()
    os.close(end)
    with open(SHEET, "rb") as sheet:
        status, _, errors = run([TREELIST], stdin=sheet, stdout=start, restore_signals=False,
                                preexec_fn=lambda: signal.signal(signal.SIGPIPE, signal.SIG_IGN))
    os.close(start)
    return status, b"", errors


def input_error(why, number):
    return "treelist: standard input: %s (os error %d)\n" % (why, number)


def output_error(why, number):
    return "treelist: standard output: %s (os error %d)\n" % (why, number)


# a name, the run, what it prints (None: a part of the listing), what it says on standard error
CASES = [
    ("a closed input", lambda: redirected("<&-"), UNREAD, input_error("Bad file descriptor", errno.EBADF)),
    ("a folder as input", lambda: redirected("</"), UNREAD, input_error("Is a directory", errno.EISDIR)),
    ("an input that waits", input_that_waits, UNREAD, input_error("Resource temporarily unavailable", errno.EAGAIN)),
    ("an input that breaks off", input_that_breaks_off, UNREAD, input_error("Input/output error", errno.EIO)),
    ("a closed output", lambda: redirected('<"$1" >&-'), b"", output_error("Bad file descriptor", errno.EBADF)),
    ("a full output", lambda: redirected('<"$1" >/dev/full'), b"", output_error("No space left on device", errno.ENOSPC)),
    ("an output that nobody reads", output_that_nobody_reads, b"", output_error("Broken pipe", errno.EPIPE)),
    ("an output that fills up", output_that_fills_up, None, output_error("Resource temporarily unavailable", errno.EAGAIN)),
    ("an output without its last byte", output_without_its_last_byte, contents(LISTING)[:CUT], output_error("File too large", errno.EFBIG)),
    ("a closed input and a full output", lambda: redirected("<&- >/dev/full"), b"",
     input_error("Bad file descriptor", errno.EBADF) + output_error("No space left on device", errno.ENOSPC)),
]


def is_as_said(status, output, said, printed, errors):
    if printed is None:
        as_printed = output != b"" and contents(LISTING).startswith(output)
    else:
        as_printed = output == printed
    return status == 0 and as_printed and not is_whole(output) and said == errors


def main():
    if not os.access(TREELIST, os.X_OK):
        print("check_failures: no %s: run (cd crates/treelist && rt run < stdin)" % TREELIST, file=sys.stderr)
        return 2
    wrong = 0
    if not is_whole(contents(LISTING)):
        print("the listing is not whole")
        wrong = 1
    for name, case, printed, errors in CASES:
        status, output, said = case()
        if is_as_said(status, output, said, printed, errors):
            print("%s: told" % name)
        else:
            print("%s: status %d, printed %d bytes, at their end %r, said %r" % (name, status, len(output), output[-40:], said))
            wrong = 1
    return wrong


if __name__ == "__main__":
    sys.exit(main())
