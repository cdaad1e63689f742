"""sample_capture.py: writes docs/samples/report, a small capture with a record of each sort, to standard output."""

import sys

from ciri import CHANNEL_IDENTIFIER, CONTROL, DATA, DATALINK_IDENTIFIER, FLOW_SEQUENCE, IPS, PACKET_DATA, RADIO
from ciri import Meaning, write_header, write_message, write_option

ORDER = "little"
ROOM = 65507
DATALINK_ID = 7
RADIO_PORT, IPS_PORT = 8580, 8581
RADIO_ADDRESS, IPS_ADDRESS = bytes([2, 0, 0, 0, 0, 1]), bytes([2, 0, 0, 0, 0, 2])
PACKET = bytes.fromhex("6000000000003b40") + bytes(15) + b"\x01" + bytes(15) + b"\x02"


def big(number, length=2):
    """A number in network order."""
    return number.to_bytes(length, "big")


def udp_of(port, data, length=None):
    """A UDP datagram from the other end's port; its length is right unless another is given."""
    source = IPS_PORT if port == RADIO_PORT else RADIO_PORT
    return big(source) + big(port) + big(8 + len(data) if length is None else length) + bytes(2) + data


def ipv4_of(carried, options=b"", flags=0, protocol=17):
    """An IPv4 packet; checksums aren't checked, and stand as 0."""
    head = bytes([0x45 + len(options) // 4, 0]) + big(20 + len(options) + len(carried)) + bytes(2) + big(flags)
    return head + bytes([64, protocol, 0, 0, 10, 0, 0, 1, 10, 0, 0, 2]) + options + carried


def frame_of(packet, kind=0x0800):
    """An Ethernet frame, padded to 60 bytes."""
    return (RADIO_ADDRESS + IPS_ADDRESS + big(kind) + packet).ljust(60, b"\0")


def message(end, meaning):
    """A message as it is written."""
    return write_message(end, meaning, ROOM)


def options_of(plane, *options):
    """A message of options that no writer would write."""
    return write_header(plane) + b"".join(write_option(*option) for option in options)


QUERY = message(IPS, Meaning(CONTROL, DATALINK_ID, sequences={3: 100}))
REPORT = message(RADIO, Meaning(CONTROL, DATALINK_ID, statuses={0: 1, 3: 1}, windows={0: 4000, 3: None}))
GRANT = message(RADIO, Meaning(CONTROL, DATALINK_ID, statuses={0: 1, 3: 1}, windows={3: 2500}))
SENT = message(IPS, Meaning(DATA, DATALINK_ID, sequences={3: 140}, channel=3, packet=PACKET))
UNNAMED = message(IPS, Meaning(DATA, DATALINK_ID, packet=PACKET))
HEARD = message(RADIO, Meaning(DATA, DATALINK_ID, channel=3, packet=PACKET + b"answer"))
OTHER_LINK = message(RADIO, Meaning(CONTROL, 8, statuses={0: 1}))
UNPAIRED = options_of(DATA, (DATALINK_IDENTIFIER, b"\x07"), (FLOW_SEQUENCE, b"\x03\0\0\0\x8c"), (CHANNEL_IDENTIFIER, b"\x04"), (PACKET_DATA, PACKET))

# Each record with a word on it: what it is, what it is counted as, its frame, and by how much it was shortened.
RECORDS = [
    ("the IPS end asks, by a control message", "`ips`", frame_of(ipv4_of(udp_of(RADIO_PORT, QUERY))), 0),
    ("the radio's answer: a window for channel 0, a Flow Window without the field for channel 3", "`radio`, `channel 0 windows`", frame_of(ipv4_of(udp_of(IPS_PORT, REPORT))), 0),
    ("a window for channel 3", "`radio`, `channel 3 windows`", frame_of(ipv4_of(udp_of(IPS_PORT, GRANT))), 0),
    ("a packet of 40 bytes on channel 3", "`ips`, `channel 3 packets`, `channel 3 bytes`", frame_of(ipv4_of(udp_of(RADIO_PORT, SENT))), 0),
    ("a packet without a Channel Identifier, behind four bytes of IPv4 options", "`ips`, `channel 0 packets`, `channel 0 bytes`", frame_of(ipv4_of(udp_of(RADIO_PORT, UNNAMED), b"\x94\x04\0\0")), 0),
    ("the radio's packet of 46 bytes on channel 3", "`radio`, `channel 3 packets`, `channel 3 bytes`", frame_of(ipv4_of(udp_of(IPS_PORT, HEARD))), 0),
    ("a control message under Datalink ID 8", "`radio`, `refusal 11`", frame_of(ipv4_of(udp_of(IPS_PORT, OTHER_LINK))), 0),
    ("a Flow Sequence of channel 3 beside a Channel Identifier of 4", "`ips`, `refusal 10`", frame_of(ipv4_of(udp_of(RADIO_PORT, UNPAIRED))), 0),
    ("an empty datagram", "`radio`, `refusal 2`", frame_of(ipv4_of(udp_of(IPS_PORT, b""))), 0),
    ("the same packet as record 4, sent by the radio, who may not count: a Flow Sequence out of place", "`radio`, `refusal 6`", frame_of(ipv4_of(udp_of(IPS_PORT, SENT))), 0),
    ("a first fragment", "`skipped`", frame_of(ipv4_of(udp_of(RADIO_PORT, SENT), flags=0x2000)), 0),
    ("behind a VLAN tag", "`skipped`", frame_of(big(5) + big(0x0800) + ipv4_of(udp_of(RADIO_PORT, SENT)), 0x8100), 0),
    ("TCP", "`skipped`", frame_of(ipv4_of(udp_of(RADIO_PORT, SENT), protocol=6)), 0),
    ("to another port", "`skipped`", frame_of(ipv4_of(udp_of(53, SENT))), 0),
    ("a UDP length over what IPv4 carries", "`skipped`", frame_of(ipv4_of(udp_of(RADIO_PORT, SENT, 200))), 0),
    ("shortened by the capture", "`skipped`", frame_of(ipv4_of(udp_of(RADIO_PORT, SENT))), 30),
]


def capture_of(frames):
    """A capture's bytes: head, then a record each second of a frame and by how much it was shortened."""
    capture = bytearray(bytes.fromhex("d4c3b2a1") + (2).to_bytes(2, ORDER) + (4).to_bytes(2, ORDER) + bytes(8))
    capture += (65535).to_bytes(4, ORDER) + (1).to_bytes(4, ORDER)
    for second, (frame, lost) in enumerate(frames):
        kept = frame[: len(frame) - lost]
        for number in (second, 0, len(kept), len(frame)):
            capture += number.to_bytes(4, ORDER)
        capture += kept
    return bytes(capture)


def sample_capture():
    """The capture's bytes."""
    return capture_of([(frame, lost) for _, _, frame, lost in RECORDS])


def main():
    """Write the capture."""
    sys.stdout.buffer.write(sample_capture())


if __name__ == "__main__":
    main()
