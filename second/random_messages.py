"""Faultless messages of both ends and both planes, drawn by lot."""

from dataclasses import dataclass, field

import ciri
from random_values import chance, draw_channel, draw_number, pick

ENDS = (ciri.IPS, ciri.RADIO)
PLANES = (ciri.CONTROL, ciri.DATA)
UNKNOWN_TYPES = (0, 2, 7, 64, 127, 131, 133, 135, 200, 252, 253, 254, 255)
USUAL_CONTEXTS = (b"\x00", b"\x00\x00", b"\x01", b"\x01\x02", b"ABCDEFG", b"ABCDEFGH")


@dataclass
class Draft:
    """A message in the making: its header and its options as pairs of type and content."""

    end: str
    plane: str
    header: int
    options: list = field(default_factory=list)

    def encode(self):
        """The message's bytes."""
        return bytes([self.header]) + b"".join(ciri.write_option(*option) for option in self.options)

    def places(self):
        """The place of each option."""
        place = ciri.HEADER_LENGTH
        places = []
        for _, content in self.options:
            places.append(place)
            place += ciri.FRAME_LENGTH + len(content)
        return places


def draw_header(dice, plane):
    """A header of the current version, the unused bits often set."""
    unused = pick(dice, (3, 0), (1, dice.randrange(8)))
    return ciri.write_header(plane)[0] | unused


def draw_content(dice, kind):
    """A content of a listed length for a known type."""
    if kind == ciri.CHANNEL_STATUS:
        return bytes([draw_channel(dice), dice.randrange(256)])
    if kind in (ciri.FLOW_SEQUENCE, ciri.FLOW_WINDOW):
        return bytes([draw_channel(dice)]) + draw_number(dice).to_bytes(4, "big")
    if kind == ciri.CHANNEL_IDENTIFIER:
        return bytes([draw_channel(dice)])
    if kind == ciri.EXPIRATION_TIME:
        return max(1, draw_number(dice)).to_bytes(4, "big")
    if kind == ciri.PACKET_DATA:
        return dice.randbytes(pick(dice, (1, 0), (1, 1), (2, 40), (8, dice.randrange(100)), (1, 1500)))
    return dice.randbytes(dice.choice(ciri.LENGTHS[kind]))


def draw_options(dice, end, plane, datalink_id):
    """The options of a faultless message, Packet Data the last, the others in any order."""
    if (end, plane) == (ciri.RADIO, ciri.CONTROL):
        options = draw_radio_control(dice)
    elif plane == ciri.CONTROL:
        options = draw_sequences(dice)
    else:
        options = draw_metadata(dice, end)
    options.append((ciri.DATALINK_IDENTIFIER, bytes([datalink_id])))
    return finish_options(dice, options, plane)


def finish_options(dice, options, plane):
    """Shuffle the options, put unknown ones between them, and for data Packet Data behind them."""
    for _ in range(pick(dice, (6, 0), (2, 1), (1, 3))):
        options.append((dice.choice(UNKNOWN_TYPES), dice.randbytes(dice.choice((0, 1, 5, 20)))))
    dice.shuffle(options)
    if plane == ciri.DATA:
        options.append((ciri.PACKET_DATA, draw_content(dice, ciri.PACKET_DATA)))
    return options


def draw_channels(dice):
    """Some different Channel IDs."""
    return {draw_channel(dice) for _ in range(pick(dice, (2, 0), (3, 1), (3, 3), (2, 6), (1, 40)))}


def draw_sequences(dice):
    """The Flow Sequences of an IPS control message."""
    channels = sorted(draw_channels(dice))
    return [(ciri.FLOW_SEQUENCE, bytes([channel]) + draw_number(dice).to_bytes(4, "big")) for channel in channels]


def draw_metadata(dice, end):
    """What a data message may hold besides Datalink Identifier and Packet Data."""
    options = []
    if chance(dice, 70):
        channel = bytes([draw_channel(dice)])
        options.append((ciri.CHANNEL_IDENTIFIER, channel))
        if end == ciri.IPS and chance(dice, 50):
            options.append((ciri.FLOW_SEQUENCE, channel + draw_number(dice).to_bytes(4, "big")))
    if end == ciri.IPS and chance(dice, 40):
        options.append((ciri.EXPIRATION_TIME, draw_content(dice, ciri.EXPIRATION_TIME)))
    return options


def draw_radio_control(dice):
    """What a radio control message may hold besides the Datalink Identifier, of any channels."""
    statuses = {channel: dice.randrange(16) for channel in sorted(draw_channels(dice) | {ciri.PRIMARY_CHANNEL})}
    windows = {channel: pick(dice, (3, draw_number(dice)), (1, None)) for channel in sorted(draw_channels(dice))}
    return state_radio_control(dice, statuses, windows)


def state_radio_control(dice, statuses, windows):
    """The options that state these Statuses and Flow Windows, and perhaps a Link Instance and a Context."""
    options = []
    for channel, status in statuses.items():
        unused = pick(dice, (3, 0), (1, dice.randrange(16)))
        options.append((ciri.CHANNEL_STATUS, bytes([channel, unused << 4 | status])))
    for channel, window in windows.items():
        options.append((ciri.FLOW_WINDOW, bytes([channel]) + ciri.write_window(window)))
    if chance(dice, 30):
        options.append((ciri.LINK_INSTANCE, draw_content(dice, ciri.LINK_INSTANCE)))
    if chance(dice, 40):
        any_context = draw_content(dice, ciri.DATALINK_CONTEXT)
        options.append((ciri.DATALINK_CONTEXT, pick(dice, (4, dice.choice(USUAL_CONTEXTS)), (1, any_context))))
    return options


def draw_draft(dice, end, plane, datalink_id):
    """A faultless message."""
    return Draft(end, plane, draw_header(dice, plane), draw_options(dice, end, plane, datalink_id))
