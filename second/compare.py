"""compare.py: the proved programs against the second implementation.

    compare.py stored                               make each stored output and each made file anew, and compare
    compare.py random PROGRAM SEED COUNT            one random script of COUNT lines, run by both; reports the first difference
    compare.py captures PROGRAM SEED COUNT RECORDS  COUNT random captures of up to RECORDS records, likewise
    compare.py pieces PROGRAM SEED COUNT RECORDS    the same, handed over in pieces of 1 byte, of 15, of 16, of 17 and so on
    compare.py capture PROGRAM FILE WORD..          one capture, with the program's words
    compare.py cases                                the small captures of judge_cases.py, the samples of `judge` among them, and
                                                    each program where reading or writing fails (failures.py)
    compare.py joined [SEED CALLS]                  `session` and `station` over joined.py's net, either of them ours or the second

`random` is for `distance`, `session` and `station`, the captures for `report` and `judge`.
"""

import os
import pathlib
import random
import subprocess
import sys
import time
from dataclasses import astuple
from itertools import chain, cycle, repeat

from captures import Dice, draw_capture, draw_setting
from failures import compare_failures
from joined import compare_proved
from judge_captures import draw_session
from judge_cases import CASES
from own_captures import draw_recording

SECOND = pathlib.Path(__file__).resolve().parent
ROOT = SECOND.parent
# Each proved program that answers line by line, with the number of lines that it writes before the answers.
PROGRAMS = {"distance": 1, "session": 0, "station": 0}
# Each program that reads a capture, with what draws captures for it.
CAPTURES = {"report": (draw_capture,), "judge": (draw_session, draw_session, draw_session, draw_capture, draw_recording)}
# Programs whose stored output is compared line by line.
STORED = PROGRAMS | dict.fromkeys(CAPTURES, 0)
# Each made file, with the script that prints it, and the script's words.
MADE = {
    "crates/session/stdin": "stored.py",
    "crates/station/stdin": "stored_station.py",
    "crates/report/stdin": "stored_capture.py",
    "crates/judge/stdin": "stored_judge.py",
    "docs/FLIGHT.md": "flight_page.py",
    "docs/BOTH-ENDS.md": "both_ends.py",
    "docs/samples/station": "both_ends.py lines station",
    "docs/samples/report": "sample_capture.py",
    "docs/REPORT.md": "report_page.py",
    "docs/samples/judge": "sample_judge.py",
    "docs/samples/judge-wrap": "sample_judge.py wrap",
    "docs/samples/judge-withdrawn": "sample_judge.py withdrawn",
    "docs/JUDGE.md": "judge_page.py",
}
# Words for a program that reads a capture: none, the program's own, others, and such that are refused.
WORDS = ([], [], [], ["8580", "8581", "7"], ["8581", "8580", "7"], ["8580", "0", "255"], ["1", "1", "1"], ["08580", "8581", "7"], ["8580", "8581"], ["8580", "65536", "7"])

# The pieces that an input is handed over in: about the length of a record's head, of a file's, and more than a buffer holds.
PIECES = (1, 15, 16, 17, 1, 23, 24, 25, 4096, 65536, 140000)
# Seconds between two pieces, so that the program reads one before the next is there.
PAUSE = 0.002


def run_script(name, *words, text=b""):
    """What a script of this folder writes."""
    command = [sys.executable, SECOND / name, *words]
    return subprocess.run(command, input=text, stdout=subprocess.PIPE, check=True).stdout


def run_second(program, text, words=()):
    """What the second implementation writes."""
    return run_script(f"{program}.py", *words, text=text)


def run_proved(program, text, words=(), sizes=None):
    """What the proved program writes, and its lines on standard error; the run script builds it, with the `rt` of the PATH.

    With sizes, the input is handed over in pieces of these sizes, over and over, once the program has written its first byte: before that
    the pieces would gather in the pipe.
    """
    environment = os.environ | {"PROGRAM": program}
    process = subprocess.Popen([ROOT / "run", "-", *words], stdin=subprocess.PIPE, stdout=subprocess.PIPE, stderr=subprocess.PIPE, bufsize=0, env=environment)
    opening = b""
    if sizes:
        opening = process.stdout.read(1)
        text = feed(process.stdin, text, sizes)
    written, complaints = process.communicate(text)
    if process.returncode:
        sys.exit(complaints.decode())
    return opening + written, [line for line in complaints.splitlines() if not line.startswith(b"run: ")]


def feed(pipe, text, sizes):
    """Hands a text over piece by piece; gives what nobody took."""
    place = 0
    for size in cycle(sizes):
        if place >= len(text):
            return b""
        try:
            pipe.write(text[place : place + size])
        except BrokenPipeError:
            return b""
        place += size
        time.sleep(PAUSE)


def first_difference(program, text, proved, second):
    """The first line on which two outputs differ, with what was asked; none where they agree."""
    asked = [b""] * STORED[program] + text.split(b"\n")
    left, right = proved.split(b"\n"), second.split(b"\n")
    if len(left) != len(right):
        return f"the proved program wrote {len(left)} lines, the second {len(right)}"
    for question, one, other in zip(chain(asked, repeat(b"")), left, right):
        if one != other:
            return f"asked {question[:300]!r}, proved {one[:300]!r}, second {other[:300]!r}"
    return None

def compare_stored():
    """Each program's stored output is what the second implementation makes of the stored input; made files likewise."""
    differing = 0
    for path, script in MADE.items():
        is_same = run_script(*script.split()) == (ROOT / path).read_bytes()
        print(f"{path}: {'as made' if is_same else f'not what {script} prints'}")
        differing += not is_same
    for program in STORED:
        crate = ROOT / "crates" / program
        text = (crate / "stdin").read_bytes()
        difference = first_difference(program, text, (crate / "stdout").read_bytes(), run_second(program, text))
        print(f"{program}: {difference or 'as stored'}")
        differing += difference is not None
    return differing


def compare_random(program, seed, count):
    """Both implementations on one random script."""
    text = run_script(f"random_{program}.py", seed, count)
    difference = first_difference(program, text, run_proved(program, text)[0], run_second(program, text))
    print(f"{program}, seed {seed}, {count} lines: {difference or 'no difference'}")
    return difference is not None


def compare_capture(program, capture, words, name, sizes=None):
    """Both implementations on one capture: what they print, and what they complain of."""
    proved, complaints = run_proved(program, capture, words, sizes)
    second = subprocess.run([sys.executable, SECOND / f"{program}.py", *words], input=capture, capture_output=True, check=True)
    difference = first_difference(program, b"", proved, second.stdout)
    if complaints != second.stderr.splitlines():
        difference = f"on standard error, proved {complaints!r}, second {second.stderr!r}"
    print(f"{program}, {name}, {len(capture)} bytes: {difference or 'no difference'}")
    return difference is not None


def compare_captures(program, seed, count, records, sizes=None):
    """Both implementations on random captures, each under words that are its own setting, or others."""
    differing = 0
    for number in range(int(count)):
        dice = Dice(f"{seed} {number}", draw_setting(random.Random(f"{seed} {number} setting")))
        size = dice.choice((0, 1, dice.randrange(int(records) + 1), int(records)))
        own = [str(word) for word in astuple(dice.setting)]
        words = dice.choice((own, own, own, own, dice.choice(WORDS)))
        capture = dice.choice(CAPTURES[program])(dice, size)
        differing += compare_capture(program, capture, words, f"seed {seed} {number}, words {words}", sizes)
    return differing


def main():
    """The command that the words say."""
    if sys.argv[1:] == ["stored"]:
        return compare_stored()
    if len(sys.argv) == 5 and sys.argv[1] == "random" and sys.argv[2] in PROGRAMS:
        return compare_random(*sys.argv[2:])
    if len(sys.argv) == 6 and sys.argv[1] == "captures" and sys.argv[2] in CAPTURES:
        return compare_captures(*sys.argv[2:])
    if len(sys.argv) == 6 and sys.argv[1] == "pieces" and sys.argv[2] in CAPTURES:
        return compare_captures(*sys.argv[2:], PIECES)
    if sys.argv[1:] == ["cases"]:
        return sum(compare_capture("judge", capture, [], name) for name, (capture, _) in CASES.items()) + compare_failures()
    if len(sys.argv) in (2, 4) and sys.argv[1] == "joined":
        return compare_proved(*sys.argv[2:])
    if len(sys.argv) >= 4 and sys.argv[1] == "capture" and sys.argv[2] in CAPTURES:
        return compare_capture(sys.argv[2], pathlib.Path(sys.argv[3]).read_bytes(), sys.argv[4:], sys.argv[3])
    print(__doc__, file=sys.stderr)
    return 2


if __name__ == "__main__":
    sys.exit(main())
