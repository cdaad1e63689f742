"""stored_station.py: prints the stored script of `station`, the same at each run; it fails where the script lacks
something.

Starts and lines that break the format, datagrams heard, what the radio tells of itself, and a long script
drawn by lot.
"""

import collections
import random
import sys

import station
from random_station import draw_lines
from stored import demand
from stored_station_hearing import hearing_lines
from stored_station_starts import STOCKED, broken_lines, start_lines
from stored_station_telling import telling_lines

FEWEST_OF_EACH = 5
DRAWN_LINES = 700
SEED = "station"
REFUSALS = [f"refused {number}" for number in (*range(1, 13), 18, 19, 20, 23)]
ANSWERS = ["started", "answer", "heard", "unasked", "unchanged", "kept", "tell", "channel", "bad line"]


def all_lines():
    """The whole script, one character a byte."""
    yield from start_lines()
    yield from hearing_lines()
    yield from telling_lines()
    yield from draw_lines(random.Random(SEED), DRAWN_LINES, spoiled=0.5)
    yield "show 0"


def sort_of(answer):
    """A refusal's number, an answer of fixed words, or an answer's first word."""
    if answer in ANSWERS:
        return answer
    return " ".join(answer.split(" ", 2)[: 2 if answer.startswith("refused ") else 1])


def count_answers(lines):
    """How often each refusal and each other sort of answer is given; of `unasked` by which line, too."""
    counted = collections.Counter()
    answering = station.Station()
    for line in lines:
        sort = sort_of(answering.answer(line.encode("latin-1")))
        counted[sort] += 1
        counted[f"{sort} by {line.split(' ')[0]}"] += 1
    return counted


def test_broken():
    """A line that is to break the format is answered so, in a started state too."""
    started = station.Station()
    for line in STOCKED:
        started.answer(line.encode())
    sound = [line for line in broken_lines() if started.answer(line.encode("latin-1")) != station.BAD_LINE]
    if sound:
        sys.exit(f"not broken: {[line[:60] for line in sound]}")


# What each line that may write a message is answered.
BY_LINE = [
    "unasked by hear", "unasked by status", "unasked by context", "unasked by queued", "unchanged by status",
    "unchanged by context", "unchanged by queued", "refused 18 by hear", "refused 18 by status", "refused 18 by context",
    "refused 18 by queued", "refused 18 by tell", "refused 12 by hear", "refused 12 by status", "refused 12 by queued",
    "refused 12 by show", "refused 20 by status", "refused 20 by context", "refused 20 by link",
]


def main():
    """Print the script; with the word `counts` how often each thing comes in it."""
    lines = list(all_lines())
    counted = count_answers(lines)
    test_broken()
    demand(counted, [*REFUSALS, *ANSWERS, *BY_LINE], FEWEST_OF_EACH)
    if sys.argv[1:] == ["counts"]:
        print("\n".join(f"{counted[name]} {name}" for name in [*REFUSALS, *ANSWERS, *BY_LINE]))
    else:
        sys.stdout.buffer.write("\n".join(lines).encode("latin-1"))


if __name__ == "__main__":
    main()
