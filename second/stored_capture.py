"""stored_capture.py: writes the stored capture of the proved `report` to standard output.

Every kind of record comes several times, every count that can be is more than 0 for some channel, records of 0 and of
65,536 bytes are among them, and behind the last that is counted stands a whole one of 65,537 bytes: number 26.
"""

import sys
from dataclasses import astuple

from captures import KINDS, PROGRAM_SETTING, RECORD_LIMIT, Dice, ethernet_of, head_of, ipv4_of, longest, record_of, udp_of, whole
from ciri import CHANNEL_IDENTIFIER, CONTROL, DATA, DATALINK_IDENTIFIER, FLOW_SEQUENCE, IPS, PACKET_DATA, RADIO
from ciri import Meaning, write_header, write_message, write_option
from report import report_lines

ORDER = "big"
EACH, WHOLE = 12, 300
ROOM = 65507
RADIO_PORT, IPS_PORT, DATALINK_ID = astuple(PROGRAM_SETTING)


def message_records(dice):
    """Faultless messages: a data message of each end on every channel, none among them, and windows given and not."""
    for channel in [None, *range(0, 255, 7), 253, 254]:
        for end, port in ((IPS, RADIO_PORT), (RADIO, IPS_PORT)):
            packet = dice.randbytes(dice.randrange(40))
            datagram = write_message(end, Meaning(DATA, DATALINK_ID, channel=channel, packet=packet), ROOM)
            yield ethernet_of(dice, ipv4_of(dice, udp_of(dice, port, datagram)))
    for _ in range(10):
        windows = {channel: dice.choice((None, dice.getrandbits(32))) for channel in dice.sample(range(255), 30)}
        datagram = write_message(RADIO, Meaning(CONTROL, DATALINK_ID, statuses={0: 1}, windows=windows), ROOM)
        yield ethernet_of(dice, ipv4_of(dice, udp_of(dice, IPS_PORT, datagram)))


def unpaired_records(dice):
    """Data messages whose Flow Sequence has no Channel Identifier, or one of another channel: number 10."""
    for channel in (None, 0, 1, 2, 3, 254):
        options = [(DATALINK_IDENTIFIER, bytes([DATALINK_ID])), (FLOW_SEQUENCE, b"\x05" + dice.randbytes(4))]
        options += [] if channel is None else [(CHANNEL_IDENTIFIER, bytes([channel]))]
        datagram = write_header(DATA) + b"".join(write_option(*option) for option in [*options, (PACKET_DATA, b"packet")])
        yield ethernet_of(dice, ipv4_of(dice, udp_of(dice, RADIO_PORT, datagram)))


def draw_frames(dice):
    """The frames that are counted, in an order drawn by lot."""
    frames = [kind(dice) for _, kind in KINDS for _ in range(EACH)] + [whole(dice) for _ in range(WHOLE)]
    frames += [*message_records(dice), *unpaired_records(dice), b"", longest(dice).ljust(RECORD_LIMIT, b"\0")[:RECORD_LIMIT]]
    dice.shuffle(frames)
    return frames


def stored_capture():
    """The capture's bytes."""
    dice = Dice("report")
    frames = draw_frames(dice)
    records = [record_of(dice, ORDER, frame, len(frame), len(frame)) for frame in frames]
    for original in (1, 2, 100, RECORD_LIMIT + 1, 2**32 - 1):
        frame = whole(dice)
        records.append(record_of(dice, ORDER, frame, len(frame), len(frame) + original if original < 2**31 else original))
        records.append(record_of(dice, ORDER, frame, len(frame), dice.randrange(len(frame))))
    over = bytes(RECORD_LIMIT + 1)
    records.append(record_of(dice, ORDER, over, len(over), len(over)))
    records += [record_of(dice, ORDER, frame, len(frame), len(frame)) for frame in frames[:5]]
    return head_of(dice, ORDER) + b"".join(records)


def main():
    """Write the capture, if it says what it is for."""
    capture = stored_capture()
    counts = dict(line.rsplit(" ", 1) for line in report_lines(PROGRAM_SETTING, capture))
    lacking = [name for name in ["skipped", "ips", "radio"] + [f"refusal {n}" for n in range(2, 12)] if int(counts[name]) < 5]
    if lacking or counts["refused"] != "26":
        sys.exit(f"fewer than five: {lacking}; refused {counts.get('refused')}")
    sys.stdout.buffer.write(capture)


if __name__ == "__main__":
    main()
