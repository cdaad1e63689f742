"""Handfuls of packets, drawn by lot: lists that belong together, and such that don't."""

from dataclasses import dataclass

import ciri
from call_lines import offers
from random_packets import draw_packet
from random_values import clamp, pick
from session import COUNT_LIMIT, LENGTH_LIMIT, LINE_LIMIT

# So many bytes leave room for every other word of a line.
MOST_BYTES = LINE_LIMIT // 2 - 2000


@dataclass
class Handful:
    """What an `offers` says: its three lists, the room for answers, and the packets end to end."""

    channels: list
    expiries: list
    lengths: list
    answers: int
    octets: bytes


def draw_count(dice):
    """How many packets, often about the most that are taken."""
    few, many = dice.randrange(2, 9), dice.randrange(9, ciri.HANDFUL_LIMIT)
    most = ciri.HANDFUL_LIMIT
    return pick(dice, (1, 0), (4, 1), (14, few), (3, many), (1.5, most), (0.5, most + 1))


def gather(offered):
    """A handful of packets as (CHANNEL, EXPIRY, bytes), up to the first one that would make the line too long."""
    handful = Handful([], [], [], 0, b"")
    for channel, expiry, octets in offered:
        if len(handful.octets) + len(octets) > MOST_BYTES:
            break
        add_packet(handful, channel, expiry, octets)
    return handful


def add_packet(handful, channel, expiry, octets):
    """One packet more behind the others."""
    handful.channels.append(channel)
    handful.expiries.append(expiry)
    handful.lengths.append(len(octets))
    handful.answers = clamp(handful.answers + 1, COUNT_LIMIT)
    handful.octets += octets


# ---- Something wrong ----


def miscount_list(dice, handful):
    """One of the lists has a number fewer or more."""
    numbers = dice.choice((handful.channels, handful.expiries, handful.lengths))
    if numbers and dice.random() < 0.5:
        numbers.pop(dice.randrange(len(numbers)))
    elif len(numbers) < COUNT_LIMIT:
        numbers.insert(dice.randrange(len(numbers) + 1), dice.choice([0, *numbers]))


def miscount_answers(dice, handful):
    """Room for fewer answers, or for more."""
    count = handful.answers
    handful.answers = clamp(dice.choice((count - 1, count + 1, 0, ciri.HANDFUL_LIMIT, COUNT_LIMIT)), COUNT_LIMIT)


def misstate_length(dice, handful):
    """One length is another, so that the sum is."""
    if handful.lengths:
        place = dice.randrange(len(handful.lengths))
        length = handful.lengths[place]
        wrong = dice.choice((length - 1, length + 1, 0, length + 2**16, LENGTH_LIMIT))
        handful.lengths[place] = clamp(wrong, LENGTH_LIMIT)


def move_boundary(dice, handful):
    """One stretch is longer and the next one shorter: the sum stays."""
    if len(handful.lengths) >= 2:
        place = dice.randrange(len(handful.lengths) - 1)
        both = sum(handful.lengths[place : place + 2])
        first = clamp(dice.choice((handful.lengths[place] + 1, handful.lengths[place] - 1, 0, both)), both)
        handful.lengths[place : place + 2] = [first, both - first]


def misstate_bytes(dice, handful):
    """A byte fewer, a byte more, or none at all."""
    handful.octets = dice.choice((handful.octets[:-1], handful.octets + b"\x60", b""))


def exceed_count(dice, handful):
    """More packets than are taken, each of them faultless."""
    count = dice.choice((33, 33, 34, 64, COUNT_LIMIT))
    while len(handful.lengths) < count and len(handful.octets) < MOST_BYTES:
        channel = dice.choice(handful.channels or [ciri.PRIMARY_CHANNEL])
        expiry = dice.choice(handful.expiries or [LENGTH_LIMIT])
        add_packet(handful, channel, expiry, draw_packet(dice, ciri.IPV6_HEADER_LENGTH))


DAMAGES = (
    miscount_list, miscount_list, miscount_answers, misstate_length, move_boundary, misstate_bytes, exceed_count,
)


def draw_handful(dice, now, offered):
    """A line that offers these packets at once; in one of nine draws with something wrong, seldom with two things."""
    handful = gather(offered)
    for _ in range(pick(dice, (88, 0), (10, 1), (2, 2))):
        dice.choice(DAMAGES)(dice, handful)
    return offers(now, handful.channels, handful.expiries, handful.lengths, handful.answers, handful.octets)
