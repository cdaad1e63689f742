"""both_ends.py: prints docs/BOTH-ENDS.md, in which `session` and `station` talk with each other, line by line.

    both_ends.py                          prints the page, with the second implementation as both programs
    both_ends.py SESSION STATION          prints it with these two programs, each a command in one word
    both_ends.py check [SESSION STATION]  says whether the page is as these programs make it
    both_ends.py lines PROGRAM            prints the lines that PROGRAM is asked, as a script

The lines and the words on them are those of docs/samples/both-ends, where a line that begins with `- ` is a row: the
program, its line, a word on it. `{session}` and `{station}` in a line are the message that this end wrote last.
"""

import contextlib
import pathlib
import shlex
import subprocess
import sys

SECOND = pathlib.Path(__file__).resolve().parent
DOCS = SECOND.parent / "docs"
PAGE = DOCS / "BOTH-ENDS.md"
SAMPLE = DOCS / "samples" / "both-ends"
PROGRAMS = ("session", "station")
ROW_MARK = "- "
TABLE_HEAD = ["| Program | Line | Answer | |", "|---|---|---|---|"]
# The answers behind which a message stands.
WITH_MESSAGE = ("query", "sent", "answer", "unasked", "tell")


class Ended(Exception):
    """A program that has ended was asked."""


class End:
    """A program that runs, and the message that it wrote last."""

    def __init__(self, command):
        self.process = subprocess.Popen(command, stdin=subprocess.PIPE, stdout=subprocess.PIPE, text=True, bufsize=1)
        self.message = None
        self.asked = []

    def ask(self, line):
        """A line's answer; both go through the pipes at once."""
        self.asked.append(line)
        with contextlib.suppress(BrokenPipeError):
            self.process.stdin.write(line + "\n")
            self.process.stdin.flush()
        answered = self.process.stdout.readline()
        if not answered:
            raise Ended(f"{self.process.args} has ended, and was asked {line[:100]!r}")
        answer = answered.removesuffix("\n")
        first, *words = answer.split(" ")
        if first in WITH_MESSAGE:
            self.message = words[0]
        return answer

    def close(self):
        """The script ends; the program has no line more to say."""
        rest, _ = self.process.communicate()
        if rest or self.process.returncode:
            sys.exit(f"{self.process.args} wrote {rest!r} behind its last answer, and ended with {self.process.returncode}")


def row(ends, line):
    """A row of the page: the line is asked with the messages put in."""
    name, template, word = line.removeprefix(ROW_MARK).split(" | ")
    messages = {program: end.message for program, end in ends.items()}
    asked = template.format(**messages)
    return f"| `{name}` | `{asked}` | `{ends[name].ask(asked)}` | {word} |"


def page_lines(ends, sample):
    """The sample with its rows answered, a head above the first of each table."""
    is_in_table = False
    for line in sample:
        is_row = line.startswith(ROW_MARK)
        if is_row and not is_in_table:
            yield from TABLE_HEAD
        yield row(ends, line) if is_row else line
        is_in_table = is_row


def talk(commands):
    """The page as these programs make it, and the lines that each was asked."""
    ends = {name: End(command) for name, command in zip(PROGRAMS, commands, strict=True)}
    page = "\n".join(page_lines(ends, SAMPLE.read_text().splitlines())) + "\n"
    for end in ends.values():
        end.close()
    return page, {name: end.asked for name, end in ends.items()}


def main():
    """Print the page or a program's lines, or compare the page; 1 where it differs."""
    words = sys.argv[1:]
    own = [[sys.executable, "-u", str(SECOND / f"{name}.py")] for name in PROGRAMS]
    if words[:1] == ["lines"] and words[1:] in ([name] for name in PROGRAMS):
        print("\n".join(talk(own)[1][words[1]]))
        return 0
    is_check = words[:1] == ["check"]
    given = words[1:] if is_check else words
    if len(given) not in (0, len(PROGRAMS)):
        sys.exit(__doc__)
    page, _ = talk([shlex.split(command) for command in given] or own)
    if not is_check:
        sys.stdout.write(page)
        return 0
    is_same = page == PAGE.read_text()
    print(f"docs/BOTH-ENDS.md: {'as made' if is_same else 'not what both_ends.py prints'}")
    return not is_same


if __name__ == "__main__":
    sys.exit(main())
