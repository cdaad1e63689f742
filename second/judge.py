"""judge.py [RADIO-PORT IPS-PORT DATALINK]: the program of document 02's "Judging another maker's session".

Reads a capture as report.py does, and prints for each channel whether all data messages of the IPS end obey.
"""

import sys
from dataclasses import dataclass

from ciri import CONTROL, DATA, FREE, IPS, MODULUS, NO_WINDOW, RADIO, Meaning, Refusal, distance, read_message
from report import CHANNELS, FRAGMENT, SHORTENED, USAGE, find_datagram, read_order, read_records, read_setting

# A channel's flow before any radio control message.
NOT_SEEN = "not seen"


@dataclass(frozen=True)
class Message:
    """An accepted message: the number of its record, counted from 1, its end, and its meaning."""

    record: int
    end: str
    meaning: Meaning


class Undecided(Exception):
    """The capture decides nothing."""


# ---- The capture's accepted messages ----


def accepted_messages(setting, file):
    """All accepted messages in record order; raises Undecided at a fragment or a shortened record, and at 25 and 26."""
    order = read_order(file)
    if order is None:
        raise Undecided
    messages = []
    for record, (original, frame) in enumerate(whole_records(file, order), 1):
        kind, datagram = find_datagram(setting, original, frame)
        if kind in (FRAGMENT, SHORTENED):
            raise Undecided
        if kind in (IPS, RADIO):
            messages += accepted(setting, record, kind, datagram)
    return messages


def whole_records(file, order):
    """All records of a file without a fault."""
    try:
        return list(read_records(file, order))
    except Refusal as refusal:
        raise Undecided from refusal


def accepted(setting, record, end, datagram):
    """The message of a datagram; none where the reader refuses it."""
    try:
        return [Message(record, end, read_message(end, setting.datalink_id, datagram))]
    except Refusal:
        return []


# ---- One channel ----


def is_radio_control(message):
    """Whether it is a radio control message."""
    return message.end == RADIO and message.meaning.plane == CONTROL


def is_sent_on(channel, message):
    """Whether it is a data message of the IPS end on a channel; none stated is channel 0."""
    stated = message.meaning.channel
    return message.end == IPS and message.meaning.plane == DATA and (0 if stated is None else stated) == channel


def flow_after(channel, before):
    """What the latest radio control message made of a channel."""
    for message in reversed(before):
        if is_radio_control(message):
            windows = message.meaning.windows
            if channel not in windows:
                return FREE
            return NO_WINDOW if windows[channel] is None else windows[channel]
    return NOT_SEEN


def base_of(channel, before, sequence, length):
    """The last Flow Sequence that a data message of the channel carried; for the first, its own less its bytes."""
    for message in reversed(before):
        if is_sent_on(channel, message) and channel in message.meaning.sequences:
            return message.meaning.sequences[channel]
    return (sequence - length) % MODULUS


def obeys(channel, before, meaning):
    """Whether a data message of a channel obeys, behind these messages."""
    flow, sequence, length = flow_after(channel, before), meaning.sequences.get(channel), len(meaning.packet)
    if flow in (NOT_SEEN, NO_WINDOW):
        return False
    if flow == FREE:
        return sequence is None
    if sequence is None:
        return False
    base = base_of(channel, before, sequence, length)
    return sequence == (base + length) % MODULUS and length <= distance(base, flow)


def breaches(channel, messages):
    """The records of the channel's data messages that don't obey, in order."""
    seen = [message for message in messages if is_radio_control(message) or is_sent_on(channel, message)]
    for place, message in enumerate(seen):
        if is_sent_on(channel, message) and not obeys(channel, seen[:place], message.meaning):
            yield message.record


# ---- The verdicts ----


def verdict_of(channel, messages):
    """The verdict on a channel: the first breach, or that it passes."""
    first = next(breaches(channel, messages), None)
    return "passes" if first is None else f"breach {first}"


def judge_lines(setting, file):
    """The lines of the program."""
    yield "channel verdict"
    try:
        messages = accepted_messages(setting, file)
    except Undecided:
        yield from (f"{channel} undecided" for channel in CHANNELS)
        return
    yield from (f"{channel} {verdict_of(channel, messages)}" for channel in CHANNELS)


def figures(setting, file):
    """How many data messages of the IPS end are accepted, and how many records skipped, up to the end or to where the file is refused."""
    order = read_order(file)
    judged = skipped = 0
    try:
        for original, frame in read_records(file, order) if order else ():
            kind, datagram = find_datagram(setting, original, frame)
            skipped += kind not in (IPS, RADIO)
            if kind == IPS:
                judged += sum(message.meaning.plane == DATA for message in accepted(setting, 0, kind, datagram))
    except Refusal:
        pass
    return judged, skipped


def main():
    """Print the verdicts, and on standard error how many data messages were judged and records skipped."""
    setting = read_setting(sys.argv[1:])
    if setting is None:
        print(USAGE, file=sys.stderr)
        return
    file = sys.stdin.buffer.read()
    for line in judge_lines(setting, file):
        print(line)
    judged, skipped = figures(setting, file)
    print(f"judged {judged} skipped {skipped}", file=sys.stderr)


if __name__ == "__main__":
    main()
