"""The stored script's lines about each option's length, each status, IPv6's version and what is kept."""

import ciri
from call_lines import DATALINK_ID, ROOMY, offer, packet, radio, radio_options, start
from stored_orders import ENDS, PACKET, PLANES, read_options

# The first bytes of it are a faultless content of any known type but Datalink Identifier: channel 0, no number is 0.
CONTENT = bytes(range(10))
DATALINK_CONTENT = bytes([DATALINK_ID, *range(1, 10)])
STATUS = "0500020007"
# What the other options of a message are, so that it lacks none.
REST = {
    (ciri.IPS, ciri.CONTROL): "",
    (ciri.IPS, ciri.DATA): PACKET,
    (ciri.RADIO, ciri.CONTROL): STATUS,
    (ciri.RADIO, ciri.DATA): PACKET,
}
EIGHT = bytes(range(1, 9))


def option_lengths():
    """Each known option at every length from 0 to 10, in each message that lists it, with the rest that it needs."""
    for end in ENDS:
        for plane in PLANES:
            for kind in sorted(ciri.LISTED[end, plane]):
                yield from (option_of_length(end, plane, kind, length) for length in range(11))


def option_of_length(end, plane, kind, length):
    """A message with the option; a Flow Sequence in a data message stands with the Channel Identifier it needs."""
    content = DATALINK_CONTENT if kind == ciri.DATALINK_IDENTIFIER else CONTENT
    option = ciri.write_option(kind, content[:length]).hex()
    rest = "" if kind in (ciri.PACKET_DATA, ciri.CHANNEL_STATUS) else REST[end, plane]
    channel = "81000100" if kind == ciri.FLOW_SEQUENCE and plane == ciri.DATA else ""
    return read_options(end, plane, option, channel, rest, datalink=kind != ciri.DATALINK_IDENTIFIER)


def zero_contents():
    """Each option with a content of zeros: a number 0 is one, except as an Expiration Time."""
    for end in ENDS:
        for plane in PLANES:
            zeros = [ciri.write_option(kind, bytes(length)).hex() for kind, length in (
                (ciri.LINK_INSTANCE, 8), (ciri.DATALINK_CONTEXT, 8), (ciri.FLOW_WINDOW, 5), (ciri.FLOW_SEQUENCE, 5),
                (ciri.CHANNEL_IDENTIFIER, 1), (ciri.EXPIRATION_TIME, 4))]
            yield from (read_options(end, plane, option, REST[end, plane]) for option in zeros)


def unknown_types():
    """Every type, known or not, with a content of one byte, in each message."""
    for end in ENDS:
        for plane in PLANES:
            yield from (read_options(end, plane, f"{kind:02x}000107", REST[end, plane]) for kind in range(256))


def statuses():
    """Every status with a packet waiting, on channel 0 and on another, with unused bits too."""
    for status in range(16):
        yield start((0, "plain", 0, 1500), (5, "flow", 0, 1500))
        yield from (offer(channel, 1, 9, packet(40, channel)) for channel in (0, 5))
        yield from radio_options(f"05000200{status:02x}05000205{15 - status:02x}")
        yield from ("show 0", "show 5", f"next 0 1 {ROOMY}", f"next 5 1 {ROOMY}", "show 0", "show 5")
        yield from radio_options(f"05000200{0xf0 | status:02x}")
        yield from (offer(0, 1, 9, packet(40)), "show 0", f"next 0 1 {ROOMY}", f"next 5 1 {ROOMY}", "show 5")


def versions():
    """Packets of every version, and with the flow bits beside it; a Payload Length next to the right one."""
    yield start((0, "plain", 0, 1500))
    for version in range(16):
        yield from (offer(0, 1, 9, bytes([version << 4 | low]) + packet(40)[1:]) for low in (0, 15))
    yield from ("show 0", "store 0", "withdraw 0")
    for length in (40, 41, 296, 1500):
        for payload in (length - 41, length - 40, length - 39, length, (length - 40) << 8, length - 40 + 256):
            octets = packet(length)
            yield offer(0, 1, 9, octets[:4] + (payload % 2**16).to_bytes(2, "big") + octets[6:])
    yield "show 0"


def kept():
    """Link Instance and Context given, not given again, another; refused messages, after a gap too; a fresh start."""
    yield from (start((0, "plain", 0, 1500)), "kept")
    links = (None, (1, 0), None, (1, 1), (2, 1), (8, 2**64 - 1), (8, 2**63), (3, 65536), None)
    contexts = (None, b"\0", None, b"\0", b"\0\0", EIGHT, EIGHT[:7], None, b"\1")
    for link in links:
        yield from (radio({0: 7}, link_instance=link and ciri.LinkInstance(*link)), "kept", "show 0")
    for context in contexts:
        yield from (radio({0: 7}, context=context), "kept", "show 0")
    for link, context in zip(links, reversed(contexts)):
        yield from (radio({0: 7}, context=context, link_instance=link and ciri.LinkInstance(*link)), "kept", "show 0")
    new = "0300015504000166"
    refused = ("1001000107" + new, f"1001000108{new}{STATUS}", f"2001000107{new}{STATUS}", f"1001000107{STATUS}{new}01")
    for context in (b"A", None):
        yield from (radio({0: 7}, context=context), "kept")
        for message in refused:
            yield from (f"radio 0 {message}", "kept", "show 0")
    yield from (radio({0: 7}, context=b"\x66"), "kept")
    yield from (f"radio 0 1801000107{PACKET}", "kept", offer(0, 1, 9, packet(40)), f"next 0 1 {ROOMY}", "kept")
    yield from (start((0, "plain", 0, 1499)), "kept", "query 100", "withdraw 0", "kept", start((0, "plain", 0, 1500)))
    yield from ("kept", f"radio 0 1001000107{STATUS}{new}", "kept")


def length_lines():
    """All of them."""
    yield from option_lengths()
    yield from zero_contents()
    yield from unknown_types()
    yield from statuses()
    yield from versions()
    yield from kept()
