"""Calls as lines of a station script."""

import ciri
from session import show_bytes

DATALINK_ID = 7
# An output that holds any message of the radio's end.
ROOMY = 1000


def start(*channels, datalink_id=DATALINK_ID):
    """A `start` of channels as (CHANNEL, KIND, WATERMARK, THROUGHPUT)."""
    words = ["start", datalink_id, len(channels), *(word for channel in channels for word in channel)]
    return " ".join(str(word) for word in words)


def query(sequences, room=ROOMY, datalink_id=DATALINK_ID):
    """A control message of the IPS end with these Flow Sequences, heard."""
    meaning = ciri.Meaning(ciri.CONTROL, datalink_id, sequences=dict(sequences))
    return hear(ciri.write_message(ciri.IPS, meaning, ciri.DATAGRAM_LIMIT), room)


def packet(channel, length, sequence=None, room=ROOMY):
    """A data message of the IPS end with so many bytes, heard; channel None for one without a Channel Identifier."""
    sequences = {} if sequence is None else {channel: sequence}
    meaning = ciri.Meaning(ciri.DATA, DATALINK_ID, channel=channel, packet=bytes(length), sequences=sequences)
    return hear(ciri.write_message(ciri.IPS, meaning, ciri.DATAGRAM_LIMIT), room)


def hear(datagram, room=ROOMY):
    """A datagram, heard."""
    return f"hear {room} {show_bytes(datagram)}"


def message_length(plain, flow, without_field=0, link=0, context=0):
    """The bytes of the radio's message with so many plain and flow-controlled channels, of these some without the
    field, and a Link Instance and a Context of so many bytes."""
    channels = 5 * (plain + flow) + 8 * flow - 4 * without_field
    return 5 + (3 + link if link else 0) + (3 + context if context else 0) + channels
