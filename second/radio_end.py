"""The radio's end of CIRI, written from document 02's "The radio's end" over the messages of `ciri.py`.

A state is never changed: each call gives the state after it, so that a refused one leaves the state before.
"""

from dataclasses import dataclass, replace

from ciri import (
    CHANNEL_COUNTS, CONTROL, DATALINK_CONTEXT, IPS, LENGTHS, MODULUS, PRIMARY_CHANNEL, RADIO, RESERVED_CHANNEL,
    LinkInstance, Meaning, Refusal, distance, fits_bits, is_link_instance_allowed, read_message, write_message,
)

# The greatest watermark, the greatest throughput per period, and what is cut of a window.
ALLOWANCE_LIMIT = 2**31 - 1
# The greatest number of bytes queued.
QUEUED_LIMIT = 2**64 - 1

# What a call gives beside a message or instead of one.
ANSWER = "answer"
UNASKED = "unasked"
HEARD = "heard"
UNCHANGED = "unchanged"


@dataclass(frozen=True)
class Setting:
    """A channel's configuration; watermark and throughput per period in bytes."""

    channel_id: int
    is_flow_controlled: bool
    watermark: int
    throughput: int


@dataclass(frozen=True)
class Channel:
    """A configured channel: its status, the bytes queued on it, the highest Flow Sequence (None: none was heard)."""

    setting: Setting
    status: int = 0
    queued: int = 0
    highest: int | None = None


@dataclass(frozen=True)
class Radio:
    """The kept state: Datalink ID, the channels in configuration order, Link Instance and Context or none."""

    datalink_id: int
    channels: tuple
    link_instance: LinkInstance | None = None
    context: bytes | None = None


# ---- Numbers 19 and 23 ----


def is_configuration_allowed(datalink_id, settings):
    """Whether 19 passes a configuration."""
    channel_ids = [setting.channel_id for setting in settings]
    return (
        fits_bits(datalink_id, 8)
        and len(channel_ids) in CHANNEL_COUNTS
        and all(fits_bits(channel_id, 8) and channel_id != RESERVED_CHANNEL for channel_id in channel_ids)
        and len(set(channel_ids)) == len(channel_ids)
        and PRIMARY_CHANNEL in channel_ids
    )


def is_allowance_allowed(setting):
    """Whether 23 passes a channel, plain or not."""
    return 0 <= setting.watermark <= ALLOWANCE_LIMIT and 0 <= setting.throughput <= ALLOWANCE_LIMIT


def test_state(radio):
    """Number 19 of a state: a configuration in it that would be refused, by 23 too, and what is kept."""
    settings = [channel.setting for channel in radio.channels]
    if not (
        is_configuration_allowed(radio.datalink_id, settings)
        and all(is_allowance_allowed(setting) for setting in settings)
        and all(is_channel_allowed(channel) for channel in radio.channels)
        and (radio.link_instance is None or is_link_instance_allowed(radio.link_instance))
        and (radio.context is None or is_context_allowed(radio.context))
    ):
        raise Refusal(19)


def is_channel_allowed(channel):
    """Whether a channel's status, bytes queued and highest sequence are within the limits."""
    return (
        fits_bits(channel.status, 4)
        and fits_bits(channel.queued, 64)
        and (channel.highest is None or fits_bits(channel.highest, 32))
    )


def is_context_allowed(context):
    """Whether a Context has one of its lengths."""
    return len(context) in LENGTHS[DATALINK_CONTEXT]


# ---- Start ----


def start_radio(datalink_id, settings):
    """The fresh state. Order: 19, 23."""
    if not is_configuration_allowed(datalink_id, settings):
        raise Refusal(19)
    if not all(is_allowance_allowed(setting) for setting in settings):
        raise Refusal(23)
    return Radio(datalink_id, tuple(Channel(setting) for setting in settings))


# ---- Channels and their windows ----


def find_channel(radio, channel_id):
    """The configured channel of that ID; number 12 if it lacks one."""
    for channel in radio.channels:
        if channel.setting.channel_id == channel_id:
            return channel
    raise Refusal(12)


def put_channel(radio, changed):
    """The state with one channel changed."""
    channel_id = changed.setting.channel_id
    channels = tuple(changed if channel.setting.channel_id == channel_id else channel for channel in radio.channels)
    return replace(radio, channels=channels)


def window_of(channel):
    """The highest sequence plus the larger of 0 and watermark plus throughput minus bytes queued, cut at 2^31 - 1; none
    until a sequence was heard."""
    if channel.highest is None:
        return None
    allowance = max(0, channel.setting.watermark + channel.setting.throughput - channel.queued)
    return (channel.highest + min(ALLOWANCE_LIMIT, allowance)) % MODULUS


def windows_of(radio):
    """The window of each flow-controlled channel."""
    return {
        channel.setting.channel_id: window_of(channel)
        for channel in radio.channels
        if channel.setting.is_flow_controlled
    }


# ---- The message ----


def message_of(radio, room):
    """The radio control message of a state, for an output of `room` bytes; number 18 where it doesn't fit."""
    statuses = {channel.setting.channel_id: channel.status for channel in radio.channels}
    meaning = Meaning(
        CONTROL, radio.datalink_id, radio.link_instance, radio.context, statuses, windows=windows_of(radio)
    )
    return write_message(RADIO, meaning, room)


def settle(before, after, room, answer):
    """The state after a change, with a message where a status, the Context or a window differs, else the answer."""
    if told_of(before) == told_of(after):
        return after, answer, None
    return after, UNASKED, message_of(after, room)


def told_of(radio):
    """What is told unasked where it changes."""
    return [channel.status for channel in radio.channels], radio.context, windows_of(radio)


# ---- A datagram of the IPS end ----


def hear_datagram(radio, datagram, room):
    """A datagram is heard: a control message is answered, a data message may change a window. Order: 19, 1 to 11, 12,
    18."""
    test_state(radio)
    meaning = read_message(IPS, radio.datalink_id, datagram)
    for channel_id in named_by(meaning):
        find_channel(radio, channel_id)
    after = replace(radio, channels=tuple(hear_on(channel, meaning) for channel in radio.channels))
    if meaning.plane == CONTROL:
        return after, ANSWER, message_of(after, room)
    return settle(radio, after, room, HEARD)


def named_by(meaning):
    """The channels that a message names: by Flow Sequences, and that of its packet."""
    if meaning.plane == CONTROL:
        return list(meaning.sequences)
    return [*meaning.sequences, carrier_of(meaning)]


def carrier_of(meaning):
    """The channel of a data message: without a Channel Identifier it is channel 0."""
    return PRIMARY_CHANNEL if meaning.channel is None else meaning.channel


def hear_on(channel, meaning):
    """A channel after its Flow Sequence and its packet, where there is one."""
    channel_id = channel.setting.channel_id
    if channel_id in meaning.sequences and channel.setting.is_flow_controlled:
        channel = replace(channel, highest=higher_of(channel.highest, meaning.sequences[channel_id]))
    if meaning.packet is not None and carrier_of(meaning) == channel_id:
        channel = replace(channel, queued=min(QUEUED_LIMIT, channel.queued + len(meaning.packet)))
    return channel


def higher_of(highest, sequence):
    """The highest sequence by distance: the first one heard, or one that is ahead."""
    if highest is None or distance(highest, sequence) > 0:
        return sequence
    return highest


# ---- What the radio tells of itself ----


def set_status(radio, channel_id, status, room):
    """A channel has this status. Order: 19, 12, 20, 18."""
    test_state(radio)
    channel = find_channel(radio, channel_id)
    if not fits_bits(status, 4):
        raise Refusal(20)
    return settle(radio, put_channel(radio, replace(channel, status=status)), room, UNCHANGED)


def set_context(radio, context, room):
    """The Context is this one, or there is none. Order: 19, 20, 18."""
    test_state(radio)
    if context is not None and not is_context_allowed(context):
        raise Refusal(20)
    return settle(radio, replace(radio, context=context), room, UNCHANGED)


def set_queued(radio, channel_id, queued, room):
    """So many bytes are queued on a channel. Order: 19, 12, 18."""
    test_state(radio)
    channel = find_channel(radio, channel_id)
    return settle(radio, put_channel(radio, replace(channel, queued=queued)), room, UNCHANGED)


def keep_link(radio, link_instance):
    """The Link Instance is this one; nothing is told unasked. Order: 19, 20."""
    test_state(radio)
    if not is_link_instance_allowed(link_instance):
        raise Refusal(20)
    return replace(radio, link_instance=link_instance)


def tell_message(radio, room):
    """The message as it stands. Order: 19, 18."""
    test_state(radio)
    return message_of(radio, room)
