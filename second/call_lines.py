"""Calls as lines of a session script."""

import ciri
from session import show_bytes

DATALINK_ID = 7
# An output that holds any data message, and an expiry that no time reaches.
ROOMY = 9100
NEVER = 100000


def packet(length, mark=0):
    """An IPv6 packet whose bytes tell it from another's; one under 40 bytes is cut short."""
    payload_length = max(0, length - ciri.IPV6_HEADER_LENGTH).to_bytes(2, "big")
    return (b"\x60\0\0\0" + payload_length + bytes((mark + place) % 256 for place in range(6, length)))[:length]


def start(*channels, memory=None, pace=None, codes=None, datalink_id=DATALINK_ID):
    """A `start` of channels as (CHANNEL, KIND, FIRST, STORE), perhaps with `memory LEN`, `pace HELLO LIMIT` and
    `codes MASK`."""
    words = ["start", datalink_id, len(channels), *(word for channel in channels for word in channel)]
    words += [] if memory is None else ["memory", memory]
    words += [] if pace is None else ["pace", *pace]
    words += [] if codes is None else ["codes", codes]
    return " ".join(str(word) for word in words)


def offer(channel, time, expiry, octets):
    """An `offer` of these bytes."""
    return f"offer {channel} {time} {expiry} {show_bytes(octets)}"


def offers(time, channels, expiries, lengths, answers, octets):
    """An `offers` of these lists, with room for so many answers, of these bytes."""
    words = [str(time)]
    for name, numbers in (("channels", channels), ("expiries", expiries), ("lengths", lengths)):
        words += [name, str(len(numbers)), *(str(number) for number in numbers)]
    return f"offers {' '.join(words)} answers {answers} {show_bytes(octets)}"


def handful(time, *offered):
    """An `offers` of packets as (CHANNEL, EXPIRY, bytes), its lists as they belong."""
    channels, expiries, packets = zip(*offered) if offered else ((), (), ())
    lengths = [len(octets) for octets in packets]
    return offers(time, channels, expiries, lengths, len(packets), b"".join(packets))


def radio(statuses, windows=(), context=None, link_instance=None, time=0):
    """A radio control message of these Statuses and Flow Windows, handed in."""
    meaning = ciri.Meaning(ciri.CONTROL, DATALINK_ID, link_instance, context, dict(statuses), windows=dict(windows))
    return f"radio {time} {ciri.write_message(ciri.RADIO, meaning, ciri.DATAGRAM_LIMIT).hex()}"


def radio_data(time, octets=b"\1"):
    """A radio data message with these bytes as its packet, handed in."""
    meaning = ciri.Meaning(ciri.DATA, DATALINK_ID, packet=octets)
    return f"radio {time} {ciri.write_message(ciri.RADIO, meaning, ciri.DATAGRAM_LIMIT).hex()}"


def radio_options(options):
    """A radio control message of these options in hexadecimal, read and handed in."""
    message = f"10010001{DATALINK_ID:02x}{options}"
    return [f"read radio {DATALINK_ID} {message}", f"radio 0 {message}"]
