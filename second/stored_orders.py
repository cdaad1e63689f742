"""The stored script's lines with two faults in one message: the one that is tested first is given.

Each neighbouring pair of document 01's order 1, 2, then of an option 3, 8, 6, 4, 5, 7, then 9, 10, 11.
"""

import ciri
from call_lines import DATALINK_ID
from session import show_bytes

ENDS = (ciri.IPS, ciri.RADIO)
PLANES = (ciri.CONTROL, ciri.DATA)
# For each message: an option that it doesn't list, in the form that has no other fault.
UNLISTED = {
    (ciri.IPS, ciri.CONTROL): "8200040000000a",
    (ciri.IPS, ciri.DATA): "0500020007",
    (ciri.RADIO, ciri.CONTROL): "8600050000000001",
    (ciri.RADIO, ciri.DATA): "060005000000ffff",
}
# An option of each type that has a Channel ID or a reserved value: with the reserved one, and its length a byte off.
RESERVED = {
    ciri.CHANNEL_STATUS: ("050002ff07", "050001ff", "050003ff0700"),
    ciri.FLOW_WINDOW: ("060001ff", "060002ff00", "060006ff0000000000"),
    ciri.FLOW_SEQUENCE: ("860005ff00000001", "860004ff000000", "860006ff0000000001"),
    ciri.CHANNEL_IDENTIFIER: ("810001ff", "810002ff00"),
    ciri.EXPIRATION_TIME: ("82000400000000", "820003000000", "8200050000000000"),
}
# A faultless option of each type that may stand once, or once for each channel, and then one that has the fault 5 or 4.
STATED = {
    ciri.DATALINK_IDENTIFIER: ("01000107", "0100020707"),
    ciri.LINK_INSTANCE: ("03000101", "030000"),
    ciri.DATALINK_CONTEXT: ("04000101", "040009010101010101010101"),
    ciri.CHANNEL_STATUS: ("0500020007", "050003000700"),
    ciri.FLOW_WINDOW: ("060005000000ffff", "06000200ff"),
    ciri.FLOW_SEQUENCE: ("8600050000000001", "86000400000001"),
    ciri.CHANNEL_IDENTIFIER: ("81000100", "8100020000"),
    ciri.EXPIRATION_TIME: ("82000400000001", "82000300ffff"),
}
PACKET = "80000101"


def header(plane, first=ciri.VERSION):
    """A header in hexadecimal."""
    return f"{first << 4 | (ciri.DATA_PLANE_FLAG if plane == ciri.DATA else 0):02x}"


def read_options(end, plane, *options, datalink=True):
    """A line that reads a message of these options in hexadecimal, mostly behind a Datalink Identifier."""
    identifier = f"010001{DATALINK_ID:02x}" if datalink else ""
    return f"read {end} {DATALINK_ID} {header(plane)}{identifier}{''.join(options)}"


def headers():
    """1 before 2, and 2 before what an option has: every version, a datagram too long of each."""
    for end in ENDS:
        yield from (f"read {end} {DATALINK_ID} {header(plane, version)}ff" for plane in PLANES for version in range(16))
        too_long = bytes(ciri.DATAGRAM_LIMIT + 1)
        yield from (f"read {end} {DATALINK_ID} {show_bytes(octets)}" for octets in (too_long, b"\x20" + too_long[1:]))


def behind_packet(end):
    """3 before 8: behind Packet Data an option cut short; 8 before 6, 4, 5 and 7, and unknown types too."""
    cut = ("01", "0100", "010001", "01000207", "ffffff", "c80001")
    faulty = (UNLISTED[end, ciri.DATA], "010000", "810001ff", "01000107", PACKET, "c80000", "000000")
    yield from (read_options(end, ciri.DATA, PACKET, option) for option in (*cut, *faulty))
    yield from (read_options(end, ciri.DATA, PACKET, option, datalink=False) for option in (*cut, *faulty))


def of_one_option(end, plane):
    """3 before 6, 4, 5 and 7; 6 before 4, 5 and 7; 4 before 5; 5 before 7; 4 before 7."""
    unlisted = UNLISTED[end, plane]
    yield read_options(end, plane, unlisted)
    yield read_options(end, plane, unlisted[:-2])
    for forms in RESERVED.values():
        yield from (read_options(end, plane, option) for option in forms)
        yield read_options(end, plane, forms[0][:-2])
        yield read_options(end, plane, forms[0], forms[0])
    for kind, (stated, wrong) in STATED.items():
        yield read_options(end, plane, stated, stated)
        yield read_options(end, plane, stated, wrong)
        yield from (read_options(end, plane, stated, option) for option in RESERVED.get(kind, ()))


def of_two_options(end, plane):
    """The options are tested one after another: the first option's fault, be its number tested later or not."""
    faults = (UNLISTED[end, plane], "010000", "01000107", "8100", "860005ff00000001", "050002ff00")
    yield from (read_options(end, plane, one, other) for one in faults for other in faults)


def missing_options(end, plane):
    """An option's fault before 9; 9 before 10 and 11; 10 before 11; each alone, in a data message of either channel."""
    sequence, other_sequence, channel = "8600050300000001", "8600050400000001", "81000103"
    for tail in ((), (PACKET,)):
        for options in ((), (sequence,), (channel, sequence), (channel, other_sequence), (channel,)):
            yield from (read_options(end, plane, identifier, *options, *tail, datalink=False)
                        for identifier in ("", "01000107", "01000108"))
    statuses = ("", "0500020007", "0500020107", "050002010705000200f0")
    yield from (read_options(end, plane, identifier, status, datalink=False)
                for identifier in ("", "01000107", "01000108") for status in statuses)


def order_lines():
    """All of them."""
    yield from headers()
    for end in ENDS:
        yield from behind_packet(end)
        for plane in PLANES:
            yield from of_one_option(end, plane)
            yield from of_two_options(end, plane)
            yield from missing_options(end, plane)
