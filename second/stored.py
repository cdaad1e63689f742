"""stored.py: prints the stored script of `session`, the same at each run; it fails where the script lacks something.

Lines about messages, document 01's examples as calls, lines that break the format, states at their limits, two faults
in one message, lengths and values next to those listed, the pacer, the statuses by configuration, offers by the handful,
the sample flight of docs/, and a long flight drawn by lot.
"""

import collections
import pathlib
import re
import subprocess
import sys

import session
from call_lines import start
from happenings import HAPPENINGS, count_happenings
from stored_broken import broken_message_lines, broken_state_lines
from stored_codes import code_lines
from stored_examples import example_lines
from stored_flight import flight_lines
from stored_handful import handful_lines, handful_scenes
from stored_lengths import length_lines
from stored_limits import limit_lines
from stored_messages import message_lines
from stored_orders import order_lines
from stored_pacer import pacer_lines

SAMPLE = pathlib.Path(__file__).resolve().parent.parent / "docs" / "samples" / "flight"
FEWEST_OF_EACH = 5
# 23 is the radio end's alone.
REFUSALS = [f"refused {number}" for number in (*range(1, 23), 24)]
ANSWERS = [
    "control", "data", "written", "started", "taken", "offered", "sent", "nothing waiting", "not operational", "window shut",
    "withdrawn", "accepted", "accepted due", "query", "channel", "store", "kept", "quiet", "due", "silent",
    "due silent", "pacer",
    "bad line",
]
# What each packet of a handful is answered.
IN_A_HANDFUL = [f"{answer} in a handful" for answer in ("taken", *(f"refused {number}" for number in range(12, 18)))]


def all_lines():
    """The whole script, one character a byte; a broken line leaves the state as it was."""
    yield from message_lines()
    yield from broken_message_lines()
    yield from example_lines()
    yield from broken_state_lines()
    yield "show 2"
    yield from limit_lines()
    yield from order_lines()
    yield from length_lines()
    yield from pacer_lines()
    yield from code_lines()
    yield from handful_lines()
    yield from SAMPLE.read_text().splitlines()
    yield from flight_lines()


def demand(counted, names, fewest):
    """End the program where one of these is counted too seldom."""
    seldom = {name: counted[name] for name in names if counted[name] < fewest}
    if seldom:
        sys.exit(f"too seldom in the stored script: {seldom}")


def count_answers(script):
    """How often each refusal and each other sort of answer is given."""
    command = [sys.executable, session.__file__]
    answers = subprocess.run(command, input=script, capture_output=True, check=True).stdout.decode()
    return collections.Counter(sort for answer in answers.splitlines() for sort in sorts_of(answer))


def sorts_of(answer):
    """The answer's own sort, and that of each packet of a handful."""
    yield sort_of(answer)
    if answer.startswith("offered"):
        yield from (f"{one} in a handful" for one in re.findall("taken|refused [0-9]+", answer))


def sort_of(answer):
    """A refusal's number, an answer of fixed words, or an answer's first word."""
    if answer in ANSWERS:
        return answer
    return " ".join(answer.split(" ", 2)[: 2 if answer.startswith("refused ") else 1])


def test_broken():
    """A line that is to break the format is answered so, in a started state too."""
    started = session.Session()
    started.answer(start((0, "plain", 0, 1500)).encode())
    sound = [line for line in broken_state_lines() if started.answer(line.encode("latin-1")) != session.BAD_LINE]
    if sound:
        sys.exit(f"not broken: {sound}")


def test_scenes():
    """A handful is answered as its packets are one by one, and leaves what they leave."""
    for scene in handful_scenes():
        at_once, *looks = answer_fresh([*scene.begin(), scene.at_once(), *scene.looks()])[len(scene.begin()) :]
        singly = answer_fresh([*scene.begin(), *scene.one_by_one(), *scene.looks()])[len(scene.begin()) :]
        if at_once != " ".join(["offered", *singly[: len(scene.offered)]]) or looks != singly[len(scene.offered) :]:
            sys.exit(f"otherwise one by one: {scene}")


def answer_fresh(lines):
    """The answers of a session of its own."""
    answering = session.Session()
    return [answering.answer(line.encode()) for line in lines]


def main():
    """Print the script; with the word `counts` how often each thing comes in it."""
    script = "\n".join(all_lines()).encode("latin-1")
    counted = count_answers(script) + count_happenings(flight_lines())
    test_broken()
    test_scenes()
    names = [*REFUSALS, *ANSWERS, *IN_A_HANDFUL, *HAPPENINGS]
    demand(counted, names, FEWEST_OF_EACH)
    if sys.argv[1:] == ["counts"]:
        print("\n".join(f"{counted[name]} {name}" for name in names))
    else:
        sys.stdout.buffer.write(script)


if __name__ == "__main__":
    main()
