"""Lines that start a state, drawn by lot: within the limits, and with one thing outside them."""

import ciri
from call_lines import start
from random_values import chance, clamp, draw_codes, draw_datalink, draw_number, draw_wait, pick
from session import LENGTH_LIMIT, SEQUENCE_LIMIT


def draw_configuration(dice, channel_id):
    """A channel's words in `start`, within the limits."""
    kind = pick(dice, (7, "flow"), (3, "plain"))
    first = pick(dice, (3, SEQUENCE_LIMIT - dice.randrange(4000)), (2, draw_number(dice)), (1, 0))
    any_store, about_a_packet = dice.randrange(1500, 65537), dice.randrange(8998, 9003)
    small, large = pick(dice, (3, 1500), (2, 1501), (6, dice.randrange(1501, 6000))), pick(dice, (1, 65535), (3, 65536))
    store = pick(dice, (11, small), (2, about_a_packet), (2, any_store), (4, large))
    return [channel_id, kind, first, store]


def draw_configurations(dice, count):
    """That number of channels within the limits, channel 0 at any place."""
    others = dice.sample(range(1, ciri.RESERVED_CHANNEL), count - 1)
    channel_ids = dice.sample([0, *others], count)
    return [draw_configuration(dice, channel_id) for channel_id in channel_ids]


def draw_start(dice):
    """A start within the limits."""
    count = pick(dice, (3, 1), (5, 2), (5, 3), (3, 4), (2, dice.randrange(5, 17)), (1, dice.randrange(17, 64)), (1, 64))
    channels = draw_configurations(dice, count)
    memory = sum(channel[3] for channel in channels) if chance(dice, 10) else None
    pace, codes = draw_pace(dice), draw_codes(dice)
    return start(*channels, memory=memory, pace=pace, codes=codes, datalink_id=draw_datalink(dice))


def draw_pace(dice):
    """HelloTime and silence limit within the limits, or none."""
    return (draw_wait(dice), draw_wait(dice)) if chance(dice, 70) else None


def draw_refused_pace(dice):
    """One of the two is 0, or both."""
    return dice.choice(((0, draw_wait(dice)), (draw_wait(dice), 0), (0, 0)))


def miscount_channels(dice, channels):
    """None, or too many; more than 80 are a bad line."""
    count = dice.choice((0, 65, 65, 66, 80, 81))
    channels[:] = draw_configurations(dice, count) if count > 0 else []


def reserve_channel(_, channels):
    """Channel ID 255."""
    channels[-1][0] = ciri.RESERVED_CHANNEL


def repeat_channel(dice, channels):
    """An ID twice."""
    channels.insert(0, draw_configuration(dice, dice.choice(channels)[0]))


def drop_primary(dice, channels):
    """No channel 0."""
    others = [channel for channel in channels if channel[0] != ciri.PRIMARY_CHANNEL]
    channels[:] = others or [draw_configuration(dice, 254)]


def misstate_store(dice, channels):
    """A store length outside its limits."""
    dice.choice(channels)[3] = dice.choice((0, 1, 1499, 65537, LENGTH_LIMIT))


CHANNELS_DAMAGES = (miscount_channels, reserve_channel, repeat_channel, drop_primary, misstate_store)


def draw_refused_start(dice):
    """A start with something outside the limits: a memory of another length, a wait of 0, something about the channels;
    seldom one of these and a wait of 0."""
    channels = draw_configurations(dice, pick(dice, (8, dice.randrange(1, 5)), (0.5, 16), (0.5, 64)))
    memory, pace = None, draw_refused_pace(dice) if chance(dice, 15) else draw_pace(dice)
    damage = pick(dice, (2, "memory"), (6, "channels"), (2, "pace"))
    if damage == "memory":
        stores = sum(channel[3] for channel in channels)
        memory = clamp(dice.choice((stores - 1, stores + 1, 0, stores + 1500, LENGTH_LIMIT)), LENGTH_LIMIT)
    elif damage == "channels":
        dice.choice(CHANNELS_DAMAGES)(dice, channels)
    else:
        pace = draw_refused_pace(dice)
    return start(*channels, memory=memory, pace=pace, codes=draw_codes(dice), datalink_id=draw_datalink(dice))
