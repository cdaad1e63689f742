"""The stored station script's lines about datagrams heard: faults and their order, sequences, windows, bytes queued."""

import ciri
from station_lines import ROOMY, hear, message_length, packet, query, start
from stored_lengths import option_of_length
from stored_orders import PACKET, PLANES, behind_packet, missing_options, of_one_option, of_two_options
from stored_station_starts import CHANNELS, FLOW, MOST, PLAIN

LARGEST = 2**64 - 1
SHOWN = ("show 0", "show 3")

# ---- Faults, and which is tested first ----


def read_as_heard(lines):
    """Lines that read a message of the IPS end, heard instead."""
    return (f"hear {ROOMY} {line.split(' ')[3]}" for line in lines)


def reader_orders():
    """Two faults in one message, for each neighbouring pair of document 01's order; a state that 0 and 3 are of."""
    yield start((0, "flow", 100, 50), FLOW)
    yield from read_as_heard(behind_packet(ciri.IPS))
    for plane in PLANES:
        yield from read_as_heard(of_one_option(ciri.IPS, plane))
        yield from (*SHOWN, *read_as_heard(of_two_options(ciri.IPS, plane)), *SHOWN)
        yield from read_as_heard(missing_options(ciri.IPS, plane))
        for kind in sorted(ciri.LISTED[ciri.IPS, plane]):
            lengths = (0, 1, 2, 4, 5, 6)
            yield from read_as_heard(option_of_length(ciri.IPS, plane, kind, length) for length in lengths)
        yield from SHOWN


def headers():
    """1 before 2; every version, both planes, the unused bits; the empty datagram, and a header alone."""
    yield start((0, "flow", 100, 50), FLOW)
    too_long = bytes(ciri.DATAGRAM_LIMIT + 1)
    yield from (hear(first + too_long[1:]) for first in (b"\x00", b"\x10", b"\x18", b"\x20", b"\xff"))
    skipped = ciri.DATAGRAM_LIMIT - 8
    yield hear(bytes.fromhex("1001000107") + ciri.write_option(200, bytes(skipped)))
    yield from (hear(bytes([header]) + bytes.fromhex("01000107" + PACKET)) for header in range(0, 256, 4))
    yield from (hear(octets) for octets in (b"", b"\x10", b"\x18", b"\x1f\1\0\1\7\x80\0\0", b"\x17\1\0\1\7"))
    yield from SHOWN


def lacking_channels():
    """12 by a Flow Sequence, by a Channel Identifier, by both; behind 9, 10 and 11, before 18; nothing is heard of it."""
    yield from (start(PLAIN, FLOW), query({3: 500}), *SHOWN)
    yield from (query({4: 1}), query({3: 700, 4: 1}), query({4: 1, 3: 700}), query({0: 1, 3: 700, 254: 1}), *SHOWN)
    yield from (packet(4, 10), packet(4, 10, 5), packet(254, 0), packet(1, 10), *SHOWN)
    yield from (query({4: 1}, room=0), query({3: 700, 4: 1}, room=0), packet(4, 10, room=0), packet(4, 10, 9, room=0))
    yield from (query({4: 1}, datalink_id=8), query({3: 1}, datalink_id=8, room=0), *SHOWN)
    options = ("8600050400000001", "81000104" + PACKET, "860005040000000181000104" + PACKET)
    for option in options:
        for header in ("10", "18"):
            yield from (f"hear {room} {header}{datalink}{option}"
                        for datalink in ("", "01000107", "01000108") for room in (0, ROOMY))
    yield from ("hear 0 1801000107860005040000000181000103" + PACKET, "hear 0 180100010886000504000000018000", *SHOWN)


def rooms():
    """18 where the message is a byte too long, and then nothing is heard and nothing queued."""
    yield from (start(PLAIN, FLOW), f"status 3 7 {ROOMY}")
    without, with_field = message_length(1, 1, 1), message_length(1, 1)
    yield from (query({}, room=room) for room in (0, without - 1, without, with_field))
    yield from (query({3: 900}, room=room) for room in (0, without, with_field - 1))
    yield from (*SHOWN, packet(3, 7, 910, room=with_field - 1), *SHOWN, packet(3, 7, room=0), "show 3")
    yield from (packet(3, 7, 910, room=0), *SHOWN, query({3: 800}, room=with_field), "show 3")
    yield from (packet(3, 9, 910, room=with_field - 1), *SHOWN, packet(3, 9, 910, room=with_field), *SHOWN)
    yield from (packet(3, 8, 918, room=0), "show 3", packet(0, 8, room=0), packet(None, 1, room=0), *SHOWN)
    yield from (packet(3, 500, 1418, room=with_field - 1), "show 3", packet(3, 500, 1418, room=with_field), "show 3")
    yield from ("link 8 1", f"context 0102 {ROOMY}", query({3: 1419}, room=with_field + 15), "show 3")
    yield from (query({3: 1419}, room=with_field + 16), "show 3")


# ---- The highest sequence, by distance ----


def distances():
    """From several sequences each step at the limits of being ahead, by a control message and by a data message."""
    for first in (0, 1, MOST, MOST + 1, 2**32 - 1, 1000):
        for step in (0, 1, -1, MOST, MOST + 1, MOST + 2, -MOST):
            sequence = (first + step) % 2**32
            yield from (start(PLAIN, FLOW), query({3: first}), query({3: sequence}), "show 3")
            yield from (start(PLAIN, FLOW), query({3: first}), packet(3, 0, sequence), "show 3")


def round_and_round():
    """Round the 32 bits by the longest step, by steps that pass the wrap; behind it is not heard, nor the same."""
    yield from (start(PLAIN, FLOW), query({3: 0}))
    yield from (query({3: MOST * turn % 2**32}) for turn in range(1, 6))
    yield from ("show 3", start(PLAIN, FLOW), query({3: 4294967290}))
    yield from (query({3: number}) for number in (5, 4294967295, 4, 5, 6))
    yield from ("show 3", packet(3, 3, 5), packet(3, 3, 6), packet(3, 3, 9), packet(3, 3, 8), "show 3")


def several_sequences():
    """Several Flow Sequences in one message, in any order, some ahead and some behind; plain channels' are passed over."""
    yield start((9, "flow", 1, 1), PLAIN, (254, "flow", 5, 6), (4, "plain", 9, 9), (3, "flow", 7, 0))
    shown = ("show 9", "show 0", "show 254", "show 4", "show 3")
    yield from (query({9: 1, 254: 2}), *shown, query({3: 5, 9: 0, 254: 3}), *shown)
    yield f"hear {ROOMY} 1086000504000000638600050300000063860005000000006301000107860005fe00000001"
    yield from (*shown, query({0: 9, 4: 9}), query({}), packet(4, 5, 77), packet(0, 5, 77), packet(0, 5), *shown)
    yield from (query({0: 1, 4: 1, 9: 2, 3: 0xFFFFFFFF}), *shown)


# ---- Windows ----


def windows():
    """Watermarks and throughputs with bytes queued about their sum and about where 2^31 - 1 is cut, at both ends of the
    sequences."""
    pairs = ((0, 0), (0, 1), (100, 50), (MOST, 0), (0, MOST), (1, MOST), (MOST, MOST), (2**30, 2**30), (2**30, 2**30 - 1))
    for place, (watermark, throughput) in enumerate(pairs):
        total = watermark + throughput
        yield from (start(PLAIN, (3, "flow", watermark, throughput)), "show 3", query({3: (7, 2**32 - 1)[place % 2]}))
        about = {number + step for number in (total, total - MOST) for step in (-1, 0, 1)}
        amounts = about | {0, 1, 2**31, 2**32, 2**32 + total, LARGEST - 1, LARGEST}
        for queued in sorted(amount for amount in amounts if amount >= 0):
            yield from (f"queued 3 {queued} {ROOMY}", "show 3")
        yield from (f"queued 3 0 {ROOMY}", query({3: 2**31 + place}), "show 3")


def in_step():
    """A packet with its sequence leaves the window where it was, until more is queued than watermark and throughput."""
    yield from (start(PLAIN, FLOW), packet(3, 30), "show 3", query({3: 1000}), "show 3", f"queued 3 0 {ROOMY}")
    yield from (packet(3, 40, 1000 + 40 * turn) for turn in range(1, 4))
    yield from ("show 3", packet(3, 30, 1150), "show 3", packet(3, 1, 1151), "show 3", packet(3, 40, 1191), "show 3")
    yield from (packet(3, 40, 1191), packet(3, 0, 1191), packet(3, 0), "show 3", f"queued 3 100 {ROOMY}", "show 3")
    yield from (packet(3, 40, 1191), packet(3, 10, 1100), packet(3, 0, 1192), packet(3, 1), packet(3, 5), "show 3")


def first_by_data():
    """The first sequence of a channel by a data message: a window comes of it, and it is told."""
    yield from (start(PLAIN, FLOW, (0xFE, "flow", 0, 0)), packet(3, 0), packet(3, 9), "show 3", packet(3, 0, 0), "show 3")
    yield from (packet(254, 0, 0), packet(254, 0, 0), packet(254, 1, 0), packet(254, 1, 1), "show 254")


def under_the_cut():
    """Where 2^31 - 1 is cut, bytes queued below it change no window; one byte above it does."""
    yield from (start(PLAIN, (3, "flow", MOST, 100)), query({3: 5}), packet(3, 99), "show 3", packet(3, 1), "show 3")
    yield from (packet(3, 1), "show 3", packet(3, 50, 55), packet(3, 0, 56), "show 3", f"queued 3 101 {ROOMY}", "show 3")
    yield from (f"queued 3 100 {ROOMY}", f"queued 3 0 {ROOMY}", packet(3, 40, 96), "show 3")


def channel_zero():
    """A data message without a Channel Identifier is queued on channel 0, plain or flow-controlled."""
    for kind in ("plain", "flow"):
        yield from (start(FLOW, (0, kind, 20, 30)), packet(None, 10), packet(0, 10), *SHOWN, query({0: 8, 3: 9}), *SHOWN)
        yield from (packet(None, 10), packet(0, 10, 18), packet(0, 5), packet(None, 0), packet(0, 0, 40), *SHOWN)
        yield from (packet(None, 30, room=0), packet(3, 9, 18, room=0), *SHOWN)


def other_options():
    """Expiration Time, unknown options and unused bits change nothing of what is heard; long packets are queued whole."""
    yield start(PLAIN, FLOW)
    yield from (f"hear {ROOMY} 1f8200040000000101000107c80003010203810001038600050300000009{PACKET}", "show 3")
    yield from (f"hear {ROOMY} 17c8000086000503000000a001000107ff000101", "show 3")
    yield from (packet(3, 1500, 1660), packet(3, 9001), "show 3")
    yield from (packet(3, 60000, 1700), packet(None, 60000), *SHOWN, query({3: 1701}), "show 3")


def held_at_the_largest():
    """Bytes queued are held at 2^64 - 1, on plain channels and flow-controlled ones."""
    for channel in (0, 3):
        yield from (start(PLAIN, FLOW), query({3: 4294967295}))
        for queued in (LARGEST - 40, LARGEST - 39, LARGEST - 1, LARGEST):
            yield from (f"queued {channel} {queued} {ROOMY}", packet(channel, 40), f"show {channel}")
            yield from (packet(channel, 1), f"show {channel}")
        yield from (packet(channel, 0), f"show {channel}", packet(3, 40, 39), *SHOWN, f"queued {channel} 0 {ROOMY}", *SHOWN)


def most_channels():
    """Sixty-four channels, configured in no order and told by rising ID; a query that names all of them."""
    kinds = {channel: "plain" if channel % 3 == 0 else "flow" for channel in CHANNELS}
    yield start(*[(channel, kinds[channel], channel, 1000 * channel) for channel in CHANNELS])
    flow = sum(kind == "flow" for kind in kinds.values())
    without, with_field = message_length(64 - flow, flow, flow), message_length(64 - flow, flow)
    yield from (f"tell {without - 1}", f"tell {without}", f"tell {with_field}", "show 254", "show 253")
    sequences = {channel: 2**32 - 1 - 7 * channel for channel in CHANNELS}
    yield from (query(sequences, room=with_field - 1), f"tell {without}", query(sequences, room=with_field))
    yield from (f"show {channel}" for channel in CHANNELS)
    yield from (query(sequences | {253: 1}), query({CHANNELS[-1]: 8}), query({CHANNELS[0]: 9}))
    yield from (packet(channel, channel, (sequences[channel] + channel) % 2**32) for channel in CHANNELS[::7])
    yield from (packet(channel, 2) for channel in CHANNELS[-3:])
    yield from (f"status {channel} {channel % 16} {ROOMY}" for channel in CHANNELS[::9])
    yield "link 8 18446744073709551615"
    yield from (f"context 0102030405060708 {with_field + more}" for more in (21, 22))
    yield from (f"tell {with_field + 22}", f"tell {with_field + 21}", *(f"show {channel}" for channel in CHANNELS[::5]))


def hearing_lines():
    """All of them."""
    yield from reader_orders()
    yield from headers()
    yield from lacking_channels()
    yield from rooms()
    yield from distances()
    yield from round_and_round()
    yield from several_sequences()
    yield from windows()
    yield from in_step()
    yield from first_by_data()
    yield from under_the_cut()
    yield from channel_zero()
    yield from other_options()
    yield from held_at_the_largest()
    yield from most_channels()
