"""sample_judge.py [wrap | withdrawn]: writes docs/samples/judge, a session that passes, to standard output.

With a word, the same session with a fault in it: a packet that had to wait is sent too early.
"""

import sys

from ciri import CONTROL, DATA, IPS, RADIO, Meaning
from sample_capture import DATALINK_ID, IPS_PORT, PACKET, RADIO_PORT, capture_of, frame_of, ipv4_of, message, udp_of


def from_ips(**stated):
    """A frame with a message of the IPS end."""
    return frame_of(ipv4_of(udp_of(RADIO_PORT, message(IPS, Meaning(**stated)))))


def from_radio(**stated):
    """A frame with a message of the radio."""
    return frame_of(ipv4_of(udp_of(IPS_PORT, message(RADIO, Meaning(**stated)))))


def sent(sequence, datalink_id=DATALINK_ID):
    """A packet of 40 bytes on channel 3, with a Flow Sequence."""
    return from_ips(plane=DATA, datalink_id=datalink_id, sequences={3: sequence}, channel=3, packet=PACKET)


def report(windows):
    """The radio's control message: both channels operational, and these Flow Windows."""
    return from_radio(plane=CONTROL, datalink_id=DATALINK_ID, statuses={0: 1, 3: 1}, windows=windows)


# Each record with a word on it.
RECORDS = [
    ("the IPS end asks, and states its Flow Sequence 4294967230", from_ips(plane=CONTROL, datalink_id=DATALINK_ID, sequences={3: 4294967230})),
    ("the radio grants channel 3 the window 44; channel 0, without a Flow Window, is free", report({3: 44})),
    ("40 bytes without a Channel Identifier, so on channel 0: nothing is counted there", from_ips(plane=DATA, datalink_id=DATALINK_ID, packet=PACKET)),
    ("40 bytes on channel 3 with Flow Sequence 4294967270, the first: counted from 4294967230, and 110 bytes from the window", sent(4294967270)),
    ("40 bytes with Flow Sequence 14: past the wrap, and they fit in the 70 bytes that were left", sent(14)),
    ("the radio shrinks the window to 4294967290, 20 bytes before the sequence: the next packet has to wait", report({3: 4294967290})),
    ("a data message under Datalink ID 8: the reader refuses it, and it is passed over", sent(999, 8)),
    ("another protocol than IPv4", frame_of(b"", 0x88CC)),
    ("the window becomes 54", report({3: 54})),
    ("the packet that waited, with Flow Sequence 54: it fits exactly", sent(54)),
    ("the window becomes 1054", report({3: 1054})),
    ("40 bytes with Flow Sequence 94", sent(94)),
    ("the radio withdraws the window, which had 960 bytes left: the next packet has to wait", report({3: None})),
    ("a data message of the radio: not judged", from_radio(plane=DATA, datalink_id=DATALINK_ID, channel=3, packet=PACKET)),
    ("the window becomes 134", report({3: 134})),
    ("the packet that waited, with Flow Sequence 134", sent(134)),
    ("no Flow Window for channel 3: it is free", report({})),
    ("40 bytes on channel 3 without a Flow Sequence", from_ips(plane=DATA, datalink_id=DATALINK_ID, channel=3, packet=PACKET)),
]

# Each fault: the record whose packet is sent too early, and the record that it becomes.
FAULTS = {"wrap": (10, 7), "withdrawn": (16, 14)}


def session(fault=None):
    """The records of the session; with a fault, one of them stands earlier."""
    records = list(RECORDS)
    if fault is not None:
        waited, early = FAULTS[fault]
        records.insert(early - 1, records.pop(waited - 1))
    return records


def sample(fault=None):
    """The capture's bytes."""
    return capture_of([(frame, 0) for _, frame in session(fault)])


def main():
    """Write the capture."""
    sys.stdout.buffer.write(sample(*sys.argv[1:]))


if __name__ == "__main__":
    main()
