"""stored_judge.py: writes the stored capture of the proved `judge` to standard output.

Each life below is that of one channel: what the radio makes of it, and its data messages, with where the first breach is. All
channels live side by side in one little-endian file, between records of other kinds and datagrams that the reader refuses.
"""

import sys
from dataclasses import astuple, dataclass, field

from captures import PROGRAM_SETTING, Dice, ethernet_of, head_of, ipv4_of, near_type, other_port, other_protocol, other_type, other_version
from captures import record_of, short, tagged, udp_of
from ciri import CONTROL, DATA, FREE, IPS, MODULUS, NO_WINDOW, RADIO, Meaning, write_message
from damaged_messages import damage
from judge import accepted, judge_lines
from random_messages import draw_draft

ORDER = "little"
ROOM = 65507
RADIO_PORT, IPS_PORT, DATALINK_ID = astuple(PROGRAM_SETTING)
OTHER_LINK = 8
OTHER_KINDS = (other_port, tagged, other_type, other_protocol, other_version, short, near_type)
PASSES = None
# Where a life's count begins: about the wrap, the middle, and between.
BEGINNINGS = (0, 1000, 2**31 - 20, 2**31 + 5, MODULUS - 66, MODULUS - 1)


@dataclass
class Life:
    """A channel's life: for each turn the flow state that the radio reports, then data messages as (length, sequence or None).

    Before the first turn no radio control message has come. `breach` is the place of the first breach among all messages.
    """

    turns: list
    breach: int | None = PASSES
    before: list = field(default_factory=list)
    query: int | None = None


def counted(begin, *lengths):
    """Messages of these lengths that count on from a beginning."""
    messages = []
    for length in lengths:
        begin += length
        messages.append((length, begin % MODULUS))
    return messages


def window(begin, more):
    """A window so many bytes behind a beginning."""
    return (begin + more) % MODULUS


def lives_from(begin):
    """One life for each thing that can go right or wrong, counted from a beginning."""
    def at(more):
        return window(begin, more)

    open_window = at(500)
    yield Life([(at(40), counted(begin, 40))])
    yield Life([(at(39), counted(begin, 40))], 0)
    yield Life([(at(2**31 - 1), counted(begin, 40, 41, 42))])
    yield Life([(at(2**31), counted(begin, 40))], 0)
    yield Life([(at(2**31 + 40), counted(begin, 40, 40))], 0)
    yield Life([(at(100), counted(begin, 40, 50, 11))], 2)
    yield Life([(at(100), counted(begin, 40, 50, 10, 1))], 3)
    # Another sequence than the one after the packet: from before it, a byte off, repeated, one lost.
    yield Life([(open_window, [(40, at(40)), (30, at(40)), (30, at(70))])], 1)
    yield Life([(open_window, [(40, at(40)), (30, at(71))])], 1)
    yield Life([(open_window, [(40, at(40)), (30, at(69))])], 1)
    yield Life([(open_window, [(40, at(40)), (30, at(70)), (30, at(70))])], 2)
    yield Life([(open_window, [(40, at(40)), (30, at(110))])], 1)
    yield Life([(open_window, [(40, at(40)), (30, at(70 + 2**31))])], 1)
    yield Life([(open_window, [(40, at(40)), (30, at(70 + 2**16))])], 1)
    # Windows that shrink, and grow again.
    yield Life([(open_window, counted(begin, 40)), (at(60), counted(at(40), 30))], 1)
    yield Life([(open_window, counted(begin, 40)), (at(30), counted(at(40), 40))], 1)
    yield Life([(open_window, counted(begin, 40)), (at(30), []), (at(80), counted(at(40), 40))])
    yield Life([(at(20), []), (at(40), counted(begin, 40)), (at(90), counted(at(40), 50))])
    # Windows that are withdrawn, or no longer stated.
    yield Life([(open_window, counted(begin, 40)), (NO_WINDOW, counted(at(40), 30))], 1)
    yield Life([(open_window, counted(begin, 40)), (NO_WINDOW, [(30, None)])], 1)
    yield Life([(NO_WINDOW, []), (open_window, counted(begin, 40, 40))])
    yield Life([(open_window, counted(begin, 40)), (FREE, counted(at(40), 30))], 1)
    yield Life([(open_window, counted(begin, 40)), (FREE, [(30, None)]), (open_window, counted(at(40), 50))])
    yield Life([(open_window, counted(begin, 40)), (FREE, [(30, None)]), (open_window, counted(at(70), 50))], 2)
    yield Life([(FREE, [(30, None), (0, None)]), (NO_WINDOW, []), (open_window, counted(begin, 40, 40))])
    yield Life([(FREE, [(30, None)]), (NO_WINDOW, [(30, None)])], 1)
    # No sequence under a window, and packets without a byte.
    yield Life([(open_window, [(40, None)])], 0)
    yield Life([(open_window, [*counted(begin, 40), (0, None)])], 1)
    yield Life([(begin, counted(begin, 0, 0))])
    yield Life([(at(-1), counted(begin, 0))], 0)
    yield Life([(at(40), counted(begin, 40, 0, 0)), (at(39), [(0, at(40))])], 3)
    yield Life([(open_window, [(40, at(40)), (0, at(41))])], 1)
    # Before any radio control message.
    yield Life([(open_window, counted(at(40), 40))], 0, before=[(40, at(40))])
    yield Life([(FREE, [(40, None)])], 0, before=[(40, None)])
    # A query's sequence is no base, before the first packet and behind it.
    yield Life([(at(40), counted(begin, 40))], query=at(7))
    yield Life([(open_window, counted(begin, 40)), (open_window, counted(at(40), 50))], query=at(9))
    yield Life([(open_window, counted(begin, 40)), (open_window, [(50, at(59))])], 1, query=at(9))
    # What follows a breach changes nothing.
    yield Life([(open_window, [(40, at(40)), (30, at(200)), *counted(at(200), 30, 40), (30, at(0))])], 1)
    yield Life([(open_window, counted(begin, 40)), (FREE, [(30, at(70)), (30, None), (30, at(70))]), (NO_WINDOW, [(9, None)])], 1)


# On channel 0 messages without a Channel Identifier, which can't carry a sequence.
UNNAMED = Life([(FREE, [(40, None), (0, None)]), (500, [(40, 140), (30, 170)]), (FREE, [(7, None)]), (500, [(20, 190), (30, None), (30, 220)])], 6)


def draw_lives(dice):
    """A life for most channels; the others have none, a window, or no window."""
    lives = [life for begin in BEGINNINGS for life in lives_from(begin)]
    lives += [Life([(flow, [])]) for flow in (FREE, NO_WINDOW, 0, 500)]
    places = [254, *dice.sample(range(1, 254), len(lives) - 1)]
    return {0: UNNAMED, **dict(zip(places, lives))}


# ---- Frames ----


def frame_of(dice, end, datagram):
    """A frame with a datagram of an end."""
    port = RADIO_PORT if end == IPS else IPS_PORT
    return ethernet_of(dice, ipv4_of(dice, udp_of(dice, port, datagram)))


def data_frame(dice, channel, length, sequence):
    """A data message; on channel 0 it names its channel where it has to."""
    named = None if channel == 0 and sequence is None else channel
    sequences = {} if sequence is None else {channel: sequence}
    expiration = dice.choice((None, None, 5000))
    meaning = Meaning(DATA, DATALINK_ID, sequences=sequences, channel=named, expiration=expiration, packet=dice.randbytes(length))
    return frame_of(dice, IPS, write_message(IPS, meaning, ROOM))


def control_frame(dice, lives, turn):
    """The radio control message of a turn; behind its last turn a life stays as it is. Statuses, which aren't judged, are drawn."""
    flows = {channel: life.turns[min(turn, len(life.turns) - 1)][0] for channel, life in lives.items()}
    windows = {channel: None if flow == NO_WINDOW else flow for channel, flow in flows.items() if flow != FREE}
    statuses = {channel: dice.randrange(16) for channel in [0, *dice.sample(range(1, 255), 200)]}
    return frame_of(dice, RADIO, write_message(RADIO, Meaning(CONTROL, DATALINK_ID, statuses=statuses, windows=windows), ROOM))


def query_frame(dice, lives):
    """A query with the sequences that lives ask for."""
    sequences = {channel: life.query for channel, life in lives.items() if life.query is not None}
    return frame_of(dice, IPS, write_message(IPS, Meaning(CONTROL, DATALINK_ID, sequences=sequences), ROOM))


def passed_over_frame(dice, lives):
    """A record that isn't judged: a query, a radio data message, a datagram that the reader refuses, or a record of another kind."""
    draw = dice.randrange(6)
    if draw == 0:
        meaning = Meaning(DATA, DATALINK_ID, channel=dice.randrange(255), packet=dice.randbytes(dice.randrange(50)))
        return frame_of(dice, RADIO, write_message(RADIO, meaning, ROOM))
    if draw == 1:
        return dice.choice(OTHER_KINDS)(dice)
    if draw == 2:
        return query_frame(dice, lives)
    if draw == 3:
        return other_link_frame(dice)
    return frame_of(dice, *refused_datagram(dice))


def other_link_frame(dice):
    """A message of another datalink: a radio control message without a window, or a packet on any channel."""
    if dice.randrange(2):
        return frame_of(dice, RADIO, write_message(RADIO, Meaning(CONTROL, OTHER_LINK, statuses={0: 1}), ROOM))
    channel = dice.randrange(255)
    return frame_of(dice, IPS, write_message(IPS, Meaning(DATA, OTHER_LINK, sequences={channel: 77}, channel=channel, packet=b"packet"), ROOM))


def refused_datagram(dice):
    """A datagram that the reader refuses, with its end: damaged."""
    while True:
        end, plane = dice.choice((IPS, RADIO)), dice.choice((CONTROL, DATA))
        datagram = damage(dice, draw_draft(dice, end, plane, DATALINK_ID))
        if not accepted(PROGRAM_SETTING, 0, end, datagram):
            return end, datagram


# ---- The session ----


def turn_messages(dice, lives, turn):
    """The data messages of a turn, each as (channel, length, sequence): a channel's own in order, the channels mixed."""
    waiting = {channel: list(life.before if turn is None else life.turns[turn][1]) for channel, life in lives.items() if turn is None or turn < len(life.turns)}
    order = [channel for channel, messages in waiting.items() for _ in messages]
    dice.shuffle(order)
    for channel in order:
        yield (channel, *waiting[channel].pop(0))


def draw_frames(dice, lives):
    """All frames; a data message's frame comes with its channel, others with none."""
    for channel, length, sequence in turn_messages(dice, lives, None):
        yield channel, data_frame(dice, channel, length, sequence)
    for turn in range(max(len(life.turns) for life in lives.values())):
        yield None, query_frame(dice, lives)
        yield None, control_frame(dice, lives, turn)
        for message in turn_messages(dice, lives, turn):
            yield message[0], data_frame(dice, *message)
            if dice.randrange(4) == 0:
                yield None, passed_over_frame(dice, lives)


def stored_judge():
    """The capture's bytes, and the lines that the lives ask for."""
    dice = Dice("judge")
    lives = draw_lives(dice)
    numbers, frames = {channel: [] for channel in range(255)}, []
    for channel, frame in draw_frames(dice, lives):
        frames.append(frame)
        if channel is not None:
            numbers[channel].append(len(frames))
    capture = head_of(dice, ORDER) + b"".join(record_of(dice, ORDER, frame, len(frame), len(frame)) for frame in frames)
    breaches = {channel: numbers[channel][life.breach] for channel, life in lives.items() if life.breach is not None}
    return capture, ["channel verdict", *(f"{channel} breach {breaches[channel]}" if channel in breaches else f"{channel} passes" for channel in range(255))]


def main():
    """Write the capture, if its verdicts are those that the lives ask for."""
    capture, lines = stored_judge()
    found = list(judge_lines(PROGRAM_SETTING, capture))
    if found != lines:
        sys.exit(f"asked and found: {[pair for pair in zip(lines, found) if pair[0] != pair[1]]}")
    sys.stdout.buffer.write(capture)


if __name__ == "__main__":
    main()
