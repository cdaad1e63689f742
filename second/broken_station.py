"""broken_station.py: breaks the second implementation of the radio's end on purpose, one way at a time, and counts what
the stored script of `station` notices.

Each way replaces one place of `radio_end.py`, `station.py` or `ciri.py` in memory. Prints a row for each way: its name,
and the first line of the stored script that is answered otherwise. Fails where a way that a line can reach isn't
noticed, or one that no line can reach is.
"""

import pathlib
import sys
import types

from broken import answer_or_failure, break_source
from broken_radio_end import UNSEEN_WAYS, WAYS

SECOND = pathlib.Path(__file__).resolve().parent
CRATE = SECOND.parent / "crates" / "station"
MODULES = ("ciri", "session", "radio_end", "station")
SHOWN = 60


def load_station(sources):
    """The station made of these sources, each module loaded before those that import it by its name."""
    for name in MODULES:
        module = types.ModuleType(name)
        sys.modules[name] = module
        exec(compile(sources[name], f"{name}.py", "exec"), module.__dict__)
    return sys.modules["station"].Station()


def first_difference(station, lines, answers):
    """The first line that is answered otherwise, as its number and its words; none where all agree."""
    for place, (line, answer) in enumerate(zip(lines, answers, strict=True), 1):
        broken_answer = answer_or_failure(station, line)
        if broken_answer != answer:
            asked = line[:SHOWN].decode("latin-1")
            return f"line {place}: {asked!r}: {answer[:SHOWN]!r} became {broken_answer[:SHOWN]!r}"
    return None


def break_and_run(way, sources, lines, answers):
    """What the stored script notices of one way."""
    name, module, old, new = way
    broken = sources | {module: break_source(name, sources[module], old, new)}
    return first_difference(load_station(broken), lines, answers)


def main():
    """Print the table; the number of ways that came out otherwise than their list says."""
    sources = {name: (SECOND / f"{name}.py").read_text() for name in MODULES}
    lines = (CRATE / "stdin").read_bytes().split(b"\n")
    answers = (CRATE / "stdout").read_text().splitlines()
    if first_difference(load_station(sources), lines, answers) is not None:
        sys.exit("the stored answers aren't those of the second implementation")
    noticed = unexpected = 0
    for way in [*WAYS, *UNSEEN_WAYS]:
        difference = break_and_run(way, sources, lines, answers)
        noticed += difference is not None
        unexpected += (difference is not None) != (way in WAYS)
        print(f"{way[0]} | {difference or 'NOT NOTICED'}", flush=True)
    print(f"noticed {noticed} of {len(WAYS) + len(UNSEEN_WAYS)}; no line can reach {len(UNSEEN_WAYS)} of them")
    return unexpected


if __name__ == "__main__":
    sys.exit(main())
