"""The stored script's lines about messages.

Random lines; one message of each kind cut at every byte; messages of 255 channels; and the longest datagram and
longer ones, read and written.
"""

import random

import ciri
from call_lines import DATALINK_ID
from random_session import draw_lines
from session import LENGTH_LIMIT, show_bytes

RANDOM_LINES = 1200


def whole_messages():
    """One message of each kind with every option that it may hold, with the end that sends it."""
    ips_control = ciri.Meaning(ciri.CONTROL, DATALINK_ID, sequences={0: 0, 3: 4294967000, 254: 4294967295})
    ips_data = ciri.Meaning(
        ciri.DATA, DATALINK_ID, sequences={3: 500}, channel=3, expiration=1, packet=bytes(range(40)))
    radio_control = ciri.Meaning(
        ciri.CONTROL, DATALINK_ID, link_instance=ciri.LinkInstance(3, 258), context=b"\0station",
        statuses={0: 7, 3: 8, 254: 15}, windows={0: None, 3: 0, 254: 4294967295})
    radio_data = ciri.Meaning(ciri.DATA, DATALINK_ID, channel=254, packet=b"")
    return [(ciri.IPS, ips_control), (ciri.IPS, ips_data), (ciri.RADIO, radio_control), (ciri.RADIO, radio_data)]


def full_messages():
    """Control messages that name all 255 channels."""
    channels = range(255)
    ips = ciri.Meaning(ciri.CONTROL, DATALINK_ID, sequences={n: n * 16843009 for n in channels})
    radio = ciri.Meaning(
        ciri.CONTROL, DATALINK_ID, statuses={n: n % 16 for n in channels}, windows={n: n or None for n in channels})
    return [(ciri.IPS, ips), (ciri.RADIO, radio)]


def read_line(end, datagram):
    """A line that reads a datagram."""
    return f"read {end} {DATALINK_ID} {show_bytes(datagram)}"


def echo_lines(end, meaning):
    """The message written again with just enough room, a byte less, and as a message of each end."""
    datagram = ciri.write_message(end, meaning, ciri.DATAGRAM_LIMIT)
    words = f"echo {end} {DATALINK_ID} {datagram.hex()}"
    yield from (f"{words} {end} {room}" for room in (len(datagram), len(datagram) - 1, 0, LENGTH_LIMIT))
    yield from (f"{words} {end2} {ciri.DATAGRAM_LIMIT}" for end2 in (ciri.IPS, ciri.RADIO))


def cut_lines(end, meaning):
    """The message cut at every byte."""
    datagram = ciri.write_message(end, meaning, ciri.DATAGRAM_LIMIT)
    return (read_line(end, datagram[:length]) for length in range(len(datagram) + 1))


def long_message(size):
    """A radio data message of that many bytes, its packet all zeros."""
    head = ciri.write_header(ciri.DATA) + ciri.write_option(ciri.DATALINK_IDENTIFIER, bytes([DATALINK_ID]))
    return head + ciri.write_option(ciri.PACKET_DATA, bytes(size - len(head) - ciri.FRAME_LENGTH))


def longest_lines():
    """Datagrams from a byte under the limit to four over it; the longest written again, with room and a byte less."""
    limit = ciri.DATAGRAM_LIMIT
    yield from (read_line(ciri.RADIO, long_message(size)) for size in range(limit - 1, limit + 5))
    words = f"echo radio {DATALINK_ID} {long_message(limit).hex()} ips"
    yield from (f"{words} {room}" for room in (limit, limit - 1))


def message_lines():
    """All of them."""
    yield from draw_lines(random.Random("stored"), "messages", RANDOM_LINES)
    for end, meaning in whole_messages():
        yield from cut_lines(end, meaning)
        yield from echo_lines(end, meaning)
    # Faultless as the IPS end's; the radio's lacks its Channel Status.
    yield from echo_lines(ciri.IPS, ciri.Meaning(ciri.CONTROL, DATALINK_ID))
    for end, meaning in full_messages():
        yield read_line(end, ciri.write_message(end, meaning, ciri.DATAGRAM_LIMIT))
        yield from echo_lines(end, meaning)
    yield from longest_lines()
