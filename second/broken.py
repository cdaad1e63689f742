"""broken.py: breaks the second implementation on purpose, one way at a time, and counts what the stored script notices.

Each way replaces one place of `ciri.py` or `session.py` in memory. Prints a row for each way: its name, and the first
line of the stored script that is answered otherwise. Fails where a way that a line can reach isn't noticed, or one of
`broken_unseen.py` is.
"""

import pathlib
import sys
import types

from broken_handful import HANDFUL_WAYS
from broken_messages import MESSAGE_WAYS
from broken_pacer import PACER_WAYS
from broken_sessions import SESSION_WAYS
from broken_states import STATE_WAYS
from broken_unseen import UNSEEN_WAYS

SECOND = pathlib.Path(__file__).resolve().parent
CRATE = SECOND.parent / "crates" / "session"
SHOWN = 60


def break_source(name, source, old, new):
    """The source with the one place replaced; a place that isn't there exactly once ends the program."""
    if source.count(old) != 1 or old == new:
        sys.exit(f"{name}: {source.count(old)} places for {old!r}")
    return source.replace(old, new)


def load_modules(sources):
    """The session made of these sources, `ciri` loaded first, since `session` imports it by that name."""
    for name in ("ciri", "session"):
        module = types.ModuleType(name)
        sys.modules[name] = module
        exec(compile(sources[name], f"{name}.py", "exec"), module.__dict__)
    return sys.modules["session"].Session()


def answer_or_failure(session, line):
    """The answer, or how the broken program ends."""
    try:
        return session.answer(line)
    except Exception as failure:
        return f"ends by {type(failure).__name__}"


def first_difference(session, lines, answers):
    """The first line that is answered otherwise, as its number and its words; none where all agree."""
    for place, (line, answer) in enumerate(zip(lines, answers, strict=True), 1):
        broken_answer = answer_or_failure(session, line)
        if broken_answer != answer:
            asked = line[:SHOWN].decode("latin-1")
            return f"line {place}: {asked!r}: {answer[:SHOWN]!r} became {broken_answer[:SHOWN]!r}"
    return None


def break_and_run(way, sources, lines, answers):
    """What the stored script notices of one way."""
    name, module, old, new = way
    broken = sources | {module: break_source(name, sources[module], old, new)}
    return first_difference(load_modules(broken), lines, answers)


def main():
    """Print the table; the number of ways that came out otherwise than their list says."""
    sources = {name: (SECOND / f"{name}.py").read_text() for name in ("ciri", "session")}
    lines = (CRATE / "stdin").read_bytes().split(b"\n")
    answers = (CRATE / "stdout").read_text().splitlines()
    if first_difference(load_modules(sources), lines, answers) is not None:
        sys.exit("the stored answers aren't those of the second implementation")
    ways = [*MESSAGE_WAYS, *STATE_WAYS, *PACER_WAYS, *HANDFUL_WAYS, *SESSION_WAYS]
    noticed = unexpected = 0
    for way in [*ways, *UNSEEN_WAYS]:
        difference = break_and_run(way, sources, lines, answers)
        noticed += difference is not None
        unexpected += (difference is not None) != (way in ways)
        print(f"{way[0]} | {difference or 'NOT NOTICED'}", flush=True)
    print(f"noticed {noticed} of {len(ways) + len(UNSEEN_WAYS)}; no line can reach {len(UNSEEN_WAYS)} of them")
    return unexpected


if __name__ == "__main__":
    sys.exit(main())
