"""Numbers, IDs and lengths drawn by lot, those at a limit often."""

import ciri
from session import ID_LIMIT, LENGTH_LIMIT, MASK_LIMIT, SEQUENCE_LIMIT, TIME_LIMIT

USUAL_NUMBERS = (0, 1, 255, 256, 2**31 - 1, 2**31, 2**31 + 1, SEQUENCE_LIMIT - 1, SEQUENCE_LIMIT)
USUAL_CHANNELS = (0, 1, 2, 3, 7, 127, 253, 254)
USUAL_CODES = (0, 1, 2, 64, 128, MASK_LIMIT)
USUAL_WAITS = (1, 2, 10, 2**32, 2**63 - 1, 2**63, TIME_LIMIT - 1, TIME_LIMIT)
USUAL_ROOMS = (0, 1, 5, 2000, ciri.PACKET_LIMIT + 20, ciri.DATAGRAM_LIMIT, LENGTH_LIMIT)


def pick(dice, *weighted):
    """One of the values, each given with its weight as (weight, value)."""
    weights, values = zip(*weighted)
    return dice.choices(values, weights)[0]


def chance(dice, percent):
    """True in that percentage of draws."""
    return dice.random() * 100 < percent


def clamp(number, limit):
    """The nearest number from 0 to the limit."""
    return max(0, min(number, limit))


def draw_number(dice):
    """A number of 32 bits, often one at a limit."""
    return pick(dice, (1, dice.choice(USUAL_NUMBERS)), (1, dice.getrandbits(32)))


def draw_channel(dice):
    """A Channel ID, often one of a few, so that two options often name the same channel."""
    return pick(dice, (4, dice.choice(USUAL_CHANNELS)), (1, dice.randrange(ciri.RESERVED_CHANNEL)))


def draw_datalink(dice):
    """A Datalink ID."""
    return pick(dice, (3, 7), (1, 0), (1, ID_LIMIT), (2, dice.randrange(ID_LIMIT + 1)))


def draw_wait(dice):
    """A HelloTime or a silence limit: some of a session's lines long, or one at a limit."""
    return pick(dice, (3, dice.randrange(20, 600)), (1, dice.choice(USUAL_WAITS)))


def draw_codes(dice):
    """A setting of the statuses 8 to 15, or none."""
    return pick(dice, (2, None), (3, dice.randrange(MASK_LIMIT + 1)), (2, dice.choice(USUAL_CODES)))


def draw_room_near(dice, size):
    """A length at a message's size, just under it, above it, or any."""
    room = pick(dice, (5, size), (3, size - 1), (2, size + 1), (4, size + 1000), (2, dice.choice(USUAL_ROOMS)))
    return clamp(room, LENGTH_LIMIT)
