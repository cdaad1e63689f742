"""broken_judge.py: breaks judge.py on purpose, one way at a time, and prints what notices it.

Each way of broken_verdicts.py replaces places of `judge.py` in memory. The captures are the stored one (`crates/judge/stdin`) and those of
judge_cases.py, the three samples among them. Fails where a way isn't noticed.
"""

import pathlib
import sys
import types

from broken import break_source
from broken_verdicts import WAYS
from judge_cases import CASES
from report import DEFAULT_WORDS, read_setting

SECOND = pathlib.Path(__file__).resolve().parent
STORED = SECOND.parent / "crates" / "judge" / "stdin"


def load_judge(source):
    """The lines that a source of judge.py makes of a capture."""
    module = types.ModuleType("judge")
    sys.modules["judge"] = module
    exec(compile(source, "judge.py", "exec"), module.__dict__)
    return module.judge_lines


def lines_or_failure(judge_lines, capture):
    """The lines, or how the broken program ends."""
    try:
        return list(judge_lines(read_setting(DEFAULT_WORDS), capture))
    except Exception as failure:
        return [f"ends by {type(failure).__name__}"]


def find_differences(judge_lines, captures, answers):
    """The captures that are answered otherwise, each with its first line that is."""
    noticed = []
    for name, capture in captures.items():
        found = lines_or_failure(judge_lines, capture)
        if found != answers[name]:
            pairs = [(right, wrong) for right, wrong in zip(answers[name], found) if right != wrong]
            right, wrong = pairs[0] if pairs else (f"{len(answers[name])} lines", f"{len(found)}")
            noticed.append(f"{name}: {right!r} became {wrong!r}")
    return noticed


def main():
    """Print the table; the number of ways that nothing notices."""
    source = (SECOND / "judge.py").read_text()
    captures = {"stored": STORED.read_bytes()} | {name: capture for name, (capture, _) in CASES.items()}
    answers = {name: lines_or_failure(load_judge(source), capture) for name, capture in captures.items()}
    unnoticed = 0
    for way in WAYS:
        broken = source
        for old, new in way[1:]:
            broken = break_source(way[0], broken, old, new)
        noticed = find_differences(load_judge(broken), captures, answers)
        unnoticed += not noticed
        print(f"{way[0]} | {noticed[0] if noticed else 'NOT NOTICED'} | {len(noticed)} captures", flush=True)
    print(f"noticed {len(WAYS) - unnoticed} of {len(WAYS)}")
    return unnoticed


if __name__ == "__main__":
    sys.exit(main())
