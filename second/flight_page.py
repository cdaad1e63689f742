"""flight_page.py: prints docs/FLIGHT.md, the sample flight's lines with their answers and a word on each.

The words are those of docs/samples/flight-words, where a line that begins with `- ` is the word on the script's next
line, and all else is copied.
"""

import pathlib
import sys

from session import Session

SAMPLES = pathlib.Path(__file__).resolve().parent.parent / "docs" / "samples"
WORD_MARK = "- "
TABLE_HEAD = ["| Line | Answer | |", "|---|---|---|"]


def answer_rows(script, words):
    """One row of the table for each line of the script."""
    if len(script) != len(words):
        sys.exit(f"{len(script)} lines in the script, {len(words)} words on them")
    session = Session()
    return [f"| `{line}` | `{session.answer(line.encode())}` | {word} |" for line, word in zip(script, words)]


def page_lines(script, template):
    """The template with its words turned into rows, a head above the first of each table."""
    rows = iter(answer_rows(script, [line.removeprefix(WORD_MARK) for line in template if line.startswith(WORD_MARK)]))
    is_in_table = False
    for line in template:
        is_word = line.startswith(WORD_MARK)
        if is_word and not is_in_table:
            yield from TABLE_HEAD
        yield next(rows) if is_word else line
        is_in_table = is_word


def main():
    """Print the page."""
    script = (SAMPLES / "flight").read_text().splitlines()
    template = (SAMPLES / "flight-words").read_text().splitlines()
    print("\n".join(page_lines(script, template)))


if __name__ == "__main__":
    main()
