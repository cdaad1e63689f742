"""failures.py: what the proved programs do where reading or writing fails: a directory as standard input, a terminal that hangs up behind the
input, and as standard output a full device, a pipe that fills, and a file that may grow no further. `compare.py cases` runs it.
"""

import fcntl
import os
import pathlib
import resource
import signal
import struct
import subprocess
import sys
import tempfile
import threading
import tty

from report import read_records

SECOND = pathlib.Path(__file__).resolve().parent
ROOT = SECOND.parent
UNREAD = b"standard input could not be read"
UNWRITTEN = b"standard output could not be written"
# Each program's sample; a capture is read by the last two.
SAMPLES = {"distance": "distance", "session": "flight", "station": "station", "report": "report", "judge": "judge"}
CAPTURES = ("report", "judge")
CHANNEL_IDS = 255
FILE_HEAD = 24
# Where a read fails in a sample, and in one that is a capture.
ENDS = {"nothing": 0, "a sample": None, "part of a sample": -3}
CAPTURE_ENDS = ENDS | {"part of the file's head": FILE_HEAD - 1, "the file's head": FILE_HEAD, "part of a record's head": FILE_HEAD + 7}
# How many bytes can be written before a write fails: behind every program's first line, and within a later one.
ROOM = 50
# A file may have so many bytes: far more than what the run script writes on its way.
LARGEST_FILE = 2**40


def run_proved(program, source, stdout=subprocess.PIPE, prepare=None):
    """What the proved program makes of a descriptor, which is closed behind it, and its lines on standard error."""
    environment = os.environ | {"PROGRAM": program}
    run = subprocess.run([ROOT / "run", "-"], stdin=source, stdout=stdout, stderr=subprocess.PIPE, env=environment, preexec_fn=prepare)
    os.close(source)
    if run.returncode:
        sys.exit(run.stderr.decode())
    return run.stdout, [line for line in run.stderr.splitlines() if not line.startswith(b"run: ")]


def run_second(program, text):
    """What the second implementation writes, and its lines on standard error."""
    run = subprocess.run([sys.executable, SECOND / f"{program}.py"], input=text, capture_output=True, check=True)
    return run.stdout, run.stderr.splitlines()


# ---- Reading ----


def failing(text):
    """A descriptor that gives a text and then fails: a terminal whose other side writes the text and hangs up."""
    ours, theirs = os.openpty()
    tty.setraw(theirs)

    def write():
        with open(theirs, "wb") as side:
            side.write(text)

    threading.Thread(target=write).start()
    return ours


def turned(capture):
    """A little-endian capture in big-endian order; its times, which nobody reads, are 0."""
    file = struct.pack(">IHHIIII", *struct.unpack("<IHHIIII", capture[:FILE_HEAD]))
    for original, frame in read_records(capture, "little"):
        file += struct.pack(">IIII", 0, 0, len(frame), original) + frame
    return file


def asked(program, text):
    """What is to be written where reading fails behind a text, and said."""
    if program not in CAPTURES:
        text = text[: text.rfind(b"\n") + 1]
    written, said = run_second(program, text)
    if program == "judge":
        return b"channel verdict\n" + b"".join(b"%d undecided\n" % channel for channel in range(CHANNEL_IDS)), said
    if program == "report":
        return written + (b"" if b"refused " in written else b"refused 26\n"), said
    return written, [*said, UNREAD]


# ---- Writing ----


def holding(text):
    """A descriptor that gives a text and ends."""
    source = os.memfd_create("text")
    os.write(source, text)
    os.lseek(source, 0, os.SEEK_SET)
    return source


def run_into_pipe(program, text, room):
    """What a program writes into a pipe that has so much room, where it is taken whole or not at all, and its lines on standard error."""
    ours, theirs = os.pipe()
    filled = fcntl.fcntl(theirs, fcntl.F_SETPIPE_SZ, 1) - room
    os.write(theirs, bytes(filled))
    os.set_blocking(theirs, False)
    said = run_proved(program, holding(text), theirs)[1]
    os.close(theirs)
    with open(ours, "rb") as pipe:
        return pipe.read()[filled:], said


def limit_files():
    """A write that would pass the limit takes what fits; the next one fails, and doesn't end the program."""
    signal.signal(signal.SIGXFSZ, signal.SIG_IGN)
    resource.setrlimit(resource.RLIMIT_FSIZE, (LARGEST_FILE, LARGEST_FILE))


def run_into_file(program, text, room):
    """What a program writes into a file that may grow by so many bytes, and its lines on standard error."""
    with tempfile.TemporaryFile(buffering=0) as file:
        start = file.seek(LARGEST_FILE - room)
        said = run_proved(program, holding(text), file, limit_files)[1]
        file.seek(start)
        return file.read(), said


# ---- Both ----


def told(name, program, found, wanted):
    """Prints whether a program did what is asked for; counts it where it didn't."""
    left, right = repr(found), repr(wanted)
    start = max(0, len(os.path.commonprefix((left, right))) - 100)
    print(f"{program}, {name}: {'as asked' if found == wanted else f'..{left[start:]:.300} and not ..{right[start:]:.300}'}")
    return found != wanted


def compare_reading(program, text):
    """How many inputs of a program that fail differ from what is asked for, in both byte orders the same."""
    differing = told("a directory", program, run_proved(program, os.open(SECOND, os.O_RDONLY)), asked(program, b""))
    texts = {"little-endian": text, "big-endian": turned(text)} if program in CAPTURES else {"lines": text}
    for before, end in (CAPTURE_ENDS if program in CAPTURES else ENDS).items():
        wanted = asked(program, text[:end])
        for form, whole in texts.items():
            differing += told(f"a read that fails behind {before}, {form}", program, run_proved(program, failing(whole[:end])), wanted)
    return differing


def compare_writing(program, text):
    """How many outputs of a program that fail differ from what is asked for."""
    with open("/dev/full", "wb") as full:
        differing = told("a full device", program, run_proved(program, holding(text), full)[1], [UNWRITTEN])
    written = run_second(program, text)[0]
    lines = written[: written.rfind(b"\n", 0, ROOM) + 1]
    if lines in (b"", written[:ROOM]):
        sys.exit(f"{program}: {ROOM} bytes don't end within a later line")
    differing += told("a pipe that fills", program, run_into_pipe(program, text, ROOM), (lines, [UNWRITTEN]))
    differing += told("a file that fills", program, run_into_file(program, text, ROOM), (written[:ROOM], [UNWRITTEN]))
    # A capture that is cut off has a last line of its own.
    most = run_second(program, text[:-3])[0][:-3]
    differing += told("a file that fills in the last line", program, run_into_file(program, text[:-3], len(most)), (most, [UNWRITTEN]))
    return differing


def compare_failures():
    """How many programs and failures differ from what is asked for."""
    differing = 0
    for program, sample in SAMPLES.items():
        text = (ROOT / "docs" / "samples" / sample).read_bytes()
        differing += compare_reading(program, text) + compare_writing(program, text)
    return differing
