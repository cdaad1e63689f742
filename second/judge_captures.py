"""judge_captures.py SEED COUNT: writes a random capture of a session of COUNT records to standard output.

The same seed gives the same capture. Most data messages obey, so that a channel's one fault is met behind messages that pass; now
and then a fault is drawn, and some captures hold a fragment or a shortened record, or are refused by 25 or 26.
"""

import sys
from dataclasses import dataclass

import ciri
from captures import RECORD_LIMIT, Dice, damage_head, ethernet_of, fragment, fragment_bit, head_of, ipv4_of, ipv4_length, low_header, near_type
from captures import other_port, other_protocol, other_type, other_version, record_of, short, tagged, udp_length, udp_of, unpadded
from damaged_messages import damage
from random_messages import Draft, draw_header, finish_options, state_radio_control
from random_values import chance, draw_channel, draw_number, pick

USUAL_LENGTHS = (0, 1, 40, 41, 100, 1500)
OTHER_KINDS = (other_port, tagged, other_type, other_protocol, other_version, short, near_type, low_header, unpadded, ipv4_length, udp_length)


@dataclass
class Side:
    """What the recording shows of a channel: its flow state, none before any radio control message, and the last sequence."""

    flow: object = None
    sequence: int = 0


class Session:
    """A session in the making: its channels, and how often a data message is at fault, in percent."""

    def __init__(self, dice):
        self.dice = dice
        self.faults = dice.choice((0, 0, 1, 3, 10, 30, 80))
        self.channels = sorted({draw_channel(dice) for _ in range(dice.choice((1, 2, 4, 12, 60)))})
        self.sides = {channel: Side(sequence=draw_sequence(dice)) for channel in range(255)}


def draw_sequence(dice):
    """A sequence, often just before the wrap or the middle."""
    return pick(dice, (2, (ciri.MODULUS - dice.randrange(300)) % ciri.MODULUS), (1, 2**31 - dice.randrange(300)), (1, draw_number(dice)))


def draw_length(dice):
    """A packet's length."""
    return pick(dice, (3, dice.randrange(120)), (2, dice.choice(USUAL_LENGTHS)), (1, 40))


# ---- Messages ----


def draft_of(session, end, plane, options):
    """A draft of these options, in any order, and of the configured Datalink ID."""
    options.append((ciri.DATALINK_IDENTIFIER, bytes([session.dice.setting.datalink_id])))
    return Draft(end, plane, draw_header(session.dice, plane), finish_options(session.dice, options, ciri.CONTROL))


def draw_flow(dice, side):
    """What the radio makes of a channel: mostly a window a few packets ahead; behind, far away, none, or free."""
    ahead = pick(dice, (6, dice.randrange(600)), (2, dice.randrange(60)), (1, 40), (1, -dice.randrange(200)), (1, 2**31 + dice.randrange(-2, 3)))
    window = pick(dice, (20, (side.sequence + ahead) % ciri.MODULUS), (1, draw_number(dice)))
    return pick(dice, (12, window), (1, ciri.NO_WINDOW), (2, ciri.FREE))


def next_flow(dice, side, keeping):
    """The flow state as it is, in so many percent of draws, or another."""
    return side.flow if side.flow is not None and chance(dice, keeping) else draw_flow(dice, side)


def radio_control(session):
    """A radio control message, heard by every channel."""
    dice = session.dice
    keeping = dice.choice((0, 70))
    flows = {channel: next_flow(dice, session.sides[channel], keeping) for channel in session.channels}
    for channel, side in session.sides.items():
        side.flow = flows.get(channel, ciri.FREE)
    windows = {channel: None if flow == ciri.NO_WINDOW else flow for channel, flow in flows.items() if flow != ciri.FREE}
    statuses = {channel: dice.randrange(16) for channel in {0, *session.channels}}
    return draft_of(session, ciri.RADIO, ciri.CONTROL, state_radio_control(dice, statuses, windows))


def query(session):
    """An IPS control message; its sequences are often others than those of the data messages."""
    dice = session.dice
    stated = {channel: pick(dice, (1, session.sides[channel].sequence), (1, draw_sequence(dice))) for channel in session.channels}
    options = [(ciri.FLOW_SEQUENCE, bytes([channel]) + sequence.to_bytes(4, "big")) for channel, sequence in stated.items()]
    return draft_of(session, ciri.IPS, ciri.CONTROL, options)


def data_message(session, end, channel, sequence, length):
    """A data message; one of channel 0 names it only sometimes."""
    dice = session.dice
    options = []
    if channel != 0 or sequence is not None or chance(dice, 50):
        options.append((ciri.CHANNEL_IDENTIFIER, bytes([channel])))
    if sequence is not None:
        options.append((ciri.FLOW_SEQUENCE, bytes([channel]) + sequence.to_bytes(4, "big")))
    if end == ciri.IPS and chance(dice, 20):
        options.append((ciri.EXPIRATION_TIME, bytes([0, 0, 1, 0])))
    draft = draft_of(session, end, ciri.DATA, options)
    draft.options.append((ciri.PACKET_DATA, dice.randbytes(length)))
    return draft


def obedient_message(session, channel):
    """A data message that obeys, where one can: the channel is free, or has a window with room; none otherwise."""
    dice, side = session.dice, session.sides[channel]
    if side.flow in (None, ciri.NO_WINDOW):
        return None
    if side.flow == ciri.FREE:
        return data_message(session, ciri.IPS, channel, None, draw_length(dice))
    room = ciri.distance(side.sequence, side.flow)
    if room < 0:
        return None
    length = min(room, pick(dice, (6, draw_length(dice)), (1, 9000)))
    side.sequence = (side.sequence + length) % ciri.MODULUS
    return data_message(session, ciri.IPS, channel, side.sequence, length)


def faulty_message(session, channel):
    """A data message that often doesn't obey; the count goes on from the sequence that it carried."""
    dice, side = session.dice, session.sides[channel]
    length, room = draw_length(dice), 40
    if isinstance(side.flow, int):
        room = ciri.distance(side.sequence, side.flow)
        length = pick(dice, (2, length), (1, max(0, min(room + 1, 1500))))
    after = (side.sequence + length) % ciri.MODULUS
    sequence = pick(
        dice, (4, after), (2, side.sequence), (1, (after + 1) % ciri.MODULUS), (1, (after - 1) % ciri.MODULUS), (1, (after + 2**31) % ciri.MODULUS),
        (1, (after + length) % ciri.MODULUS), (3, None), (1, draw_number(dice)),
    )
    side.sequence = side.sequence if sequence is None else sequence
    return data_message(session, ciri.IPS, channel, sequence, length)


def ips_data(session):
    """A data message of the IPS end, where one is drawn that can be."""
    dice = session.dice
    channel = pick(dice, (20, dice.choice(session.channels)), (1, draw_channel(dice)))
    if chance(dice, session.faults):
        return faulty_message(session, channel)
    return obedient_message(session, channel)


def radio_data(session):
    """A data message of the radio, which isn't judged."""
    return data_message(session, ciri.RADIO, draw_channel(session.dice), None, draw_length(session.dice))


# ---- Frames ----


def draft_frame(dice, draft):
    """A frame with a message of an end."""
    return datagram_frame(dice, draft.end, draft.encode())


def datagram_frame(dice, end, datagram):
    """A frame with a datagram of an end."""
    port = dice.setting.radio_port if end == ciri.IPS else dice.setting.ips_port
    return ethernet_of(dice, ipv4_of(dice, udp_of(dice, port, datagram[: RECORD_LIMIT - 100])))


def damaged_frame(session):
    """A message with something wrong, mostly one that the reader refuses: the session's sides don't see it."""
    dice = session.dice
    sides = {channel: Side(side.flow, side.sequence) for channel, side in session.sides.items()}
    draft = dice.choice((radio_control, query, radio_data))(session) if chance(dice, 50) else faulty_message(session, dice.choice(session.channels))
    session.sides = sides
    for _ in range(20):
        datagram = damage(dice, Draft(draft.end, draft.plane, draft.header, list(draft.options)))
        if is_refused(dice.setting, draft.end, datagram) or chance(dice, session.faults / 5):
            return datagram_frame(dice, draft.end, datagram)
    return short(dice)


def is_refused(setting, end, datagram):
    """Whether the reader refuses a datagram."""
    try:
        ciri.read_message(end, setting.datalink_id, datagram)
    except ciri.Refusal:
        return True
    return False


def draw_frame(session):
    """A frame of the session, or another."""
    dice = session.dice
    maker = pick(dice, (12, ips_data), (4, radio_control), (1, query), (1, radio_data), (2, None))
    draft = maker(session) if maker else None
    if draft is not None:
        return draft_frame(dice, draft)
    return damaged_frame(session) if chance(dice, 60) else other_frame(session)


def other_frame(session):
    """A frame from which no datagram is taken; where faults are drawn, now and then one that hides a datagram."""
    kinds = OTHER_KINDS if session.faults else OTHER_KINDS[:8]
    return session.dice.choice(kinds)(session.dice)


# ---- The file ----


def draw_session(dice, count):
    """A capture's bytes."""
    order = dice.choice(("little", "big"))
    session = Session(dice)
    frames = [draw_frame(session) for _ in range(count)]
    records = [record_of(dice, order, frame, len(frame), dice.choice((len(frame), len(frame), dice.randrange(len(frame) + 1)))) for frame in frames]
    return spoil(dice, order, records)


def spoil(dice, order, records):
    """The file of these records; sometimes one that decides nothing."""
    head = head_of(dice, order)
    place = dice.randrange(len(records) + 1)
    way = dice.randrange(30)
    if way == 0:
        frame = dice.choice((fragment, fragment_bit))(dice)
        records.insert(place, record_of(dice, order, frame, len(frame), len(frame)))
    elif way == 1:
        frame = dice.choice((other_type, short, other_protocol))(dice)
        records.insert(place, record_of(dice, order, frame, len(frame), len(frame) + dice.choice((1, 100, RECORD_LIMIT))))
    elif way == 2:
        head = damage_head(dice, order)
    elif way == 3:
        over = dice.choice((RECORD_LIMIT + 1, 2**24, 2**32 - 1))
        records.insert(place, record_of(dice, order, bytes(dice.choice((0, 10, RECORD_LIMIT + 1))), over, over))
    elif way == 4 and records:
        records[-1] = records[-1][: dice.randrange(1, len(records[-1]) + 1)]
    return head + b"".join(records)


def main():
    """Write the capture."""
    sys.stdout.buffer.write(draw_session(Dice(sys.argv[1]), int(sys.argv[2])))


if __name__ == "__main__":
    main()
