"""random_distance.py SEED COUNT: prints COUNT random lines for distance.py, faultless and damaged."""

import random
import sys

MODULUS = 2**32
LIMITS = (0, 1, 2**31 - 1, 2**31, 2**31 + 1, MODULUS - 1)
BAD_WORDS = (
    b"", b"-1", b"+1", b"00", b"007", b"4294967296", b"4294967297", b"9999999999", b"10000000000", b"9" * 5000, b"1.0",
    b"0x10", b"1_000", b"x", b"\xd9\xa0", b"\xff", b"\0", b"\r", b"\t", b" ",
)
ENDINGS = (b" ", b"\r", b"\t", b"\0", b" 1", b"x", b"\x0b", b"\x0c", b"\x85", b"\xe2\x80\xa8")


def draw_number(dice):
    """A number of 32 bits: at a limit, small, or any."""
    return dice.choice((dice.choice(LIMITS), dice.randrange(10000), dice.randrange(MODULUS)))


def draw_faultless(dice):
    """A sequence and a window, often near each other or half the range apart."""
    sequence = draw_number(dice)
    near = sequence + dice.randrange(-2000, 2001)
    opposite = sequence + 2**31 + dice.randrange(-2, 3)
    window = dice.choice((near, opposite, draw_number(dice))) % MODULUS
    return b"%d %d" % (sequence, window)


def damage(dice, line):
    """The line with one thing wrong; seldom it is still well-formed."""
    sequence, window = line.split(b" ")
    word, place = dice.choice(BAD_WORDS), dice.randrange(len(line))
    return dice.choice((
        word + b" " + window,
        sequence + b" " + word,
        sequence,
        sequence + window,
        sequence + dice.choice((b"  ", b"\t", b",")) + window,
        b" " + line,
        b"0" + line,
        sequence + b" 0" + window,
        line + dice.choice(ENDINGS),
        line[:place] + dice.choice((b"7", b"x", b"-", b"\xa0")) + line[place:],
        line[:place] + line[place + 1 :],
        dice.randbytes(dice.randrange(12)).replace(b"\n", b"0"),
        b"",
        b"1 " * dice.randrange(1, 3000),
    ))


def draw_line(dice):
    """A line, two times in three faultless."""
    line = draw_faultless(dice)
    return line if dice.randrange(3) > 0 else damage(dice, line)


def main():
    """Print the lines; one time in four the newline behind the last is missing."""
    seed, count = sys.argv[1], int(sys.argv[2])
    dice = random.Random(seed)
    lacks_last_newline = dice.randrange(4) == 0
    text = b"".join(draw_line(dice) + b"\n" for _ in range(count))
    sys.stdout.buffer.write(text[:-1] if lacks_last_newline and not text.endswith(b"\n\n") else text)


if __name__ == "__main__":
    main()
