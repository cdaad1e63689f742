"""The program of document 01's "Counting": lines of sequence and window, answered with their distance."""

import re
import sys

from ciri import MODULUS, distance

HEADER = "sequence window distance"
BAD = "bad"
LINE = re.compile(rb"(0|[1-9][0-9]{0,9}) (0|[1-9][0-9]{0,9})")


def answer_line(line):
    """The answer to a line without its newline."""
    match = LINE.fullmatch(line)
    if match is None:
        return BAD
    sequence, window = int(match[1]), int(match[2])
    if sequence >= MODULUS or window >= MODULUS:
        return BAD
    return f"{sequence} {window} {distance(sequence, window)}"


def main():
    """Print the header, then an answer for each line."""
    print(HEADER)
    for line in sys.stdin.buffer:
        print(answer_line(line.removesuffix(b"\n")))


if __name__ == "__main__":
    main()
