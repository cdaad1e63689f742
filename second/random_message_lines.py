"""Well-formed lines about messages, drawn by lot."""

import ciri
from damaged_messages import draw_datagram
from random_messages import ENDS
from random_values import chance, draw_datalink, draw_room_near, pick
from session import LENGTH_LIMIT, LINE_LIMIT, show_bytes


def draw_message_line(dice):
    """A well-formed line about messages."""
    return pick(dice, (600, draw_read), (600, draw_echo), (1, draw_long_read))(dice)


def draw_read(dice):
    """`read END ID HEX`"""
    end, datalink_id = dice.choice(ENDS), draw_datalink(dice)
    return f"read {end} {datalink_id} {show_bytes(draw_datagram(dice, end, datalink_id))}"


def draw_echo(dice):
    """`echo END ID HEX END2 ROOM`"""
    end, datalink_id = dice.choice(ENDS), draw_datalink(dice)
    datagram = draw_datagram(dice, end, datalink_id)
    end2 = end if chance(dice, 75) else dice.choice(ENDS)
    room = draw_room_near(dice, written_size(end, datalink_id, datagram, end2))
    return f"echo {end} {datalink_id} {show_bytes(datagram)} {end2} {room}"


def written_size(end, datalink_id, datagram, end2):
    """The size of the message that `echo` writes, or any where it refuses."""
    try:
        meaning = ciri.read_message(end, datalink_id, datagram)
        return len(ciri.write_message(end2, meaning, LENGTH_LIMIT))
    except ciri.Refusal:
        return len(datagram)


def draw_long_read(dice):
    """A line of the greatest length, or just over it."""
    first = dice.choice(("read ips 10 ", "read ips 100 "))
    return first + "1801000107" + "0" * (LINE_LIMIT - 22)
