"""random_session.py SEED COUNT [messages|state|all]: prints a random session script of COUNT lines.

The same seed gives the same script. The script knows the state it has brought about, since each line is also
answered here by session.py; so sequences, windows, times and sizes are chosen near the limits that matter.
"""

import random
import sys

from malformed_lines import ODD_LINES, spoil_line
from random_message_lines import draw_message_line
from random_state_lines import StateLines
from random_values import chance

MODES = ("messages", "state", "all")


def draw_lines(dice, mode, count):
    """The lines of a script without newlines, one character a byte."""
    state_lines = StateLines(dice)
    for _ in range(count):
        is_message = mode == "messages" or (mode == "all" and chance(dice, 40))
        line = draw_message_line(dice) if is_message else state_lines.draw()
        if chance(dice, 2):
            line = spoil_line(dice, line)
        elif mode != "messages" and chance(dice, 1):
            line = dice.choice(ODD_LINES)
        state_lines.note(line)
        yield line


def main():
    """Print the script; one in four lacks the newline behind its last line."""
    seed, count, mode = sys.argv[1], int(sys.argv[2]), (sys.argv[3:] or ["all"])[0]
    if mode not in MODES:
        sys.exit(f"the third word is one of {', '.join(MODES)}")
    dice = random.Random(f"{mode} {seed}")
    lacks_last_newline = chance(dice, 25)
    script = "".join(line + "\n" for line in draw_lines(dice, mode, count))
    script = script[:-1] if lacks_last_newline and not script.endswith("\n\n") else script
    sys.stdout.buffer.write(script.encode("latin-1"))


if __name__ == "__main__":
    main()
