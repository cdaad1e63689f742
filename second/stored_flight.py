"""The stored script's flight: one state of forty channels through 5,000 calls, drawn by lot, always the same.

Each flow-controlled channel begins at most a few thousand bytes before the wrap of its 32-bit count, and most cross it.
"""

import random

import ciri
from call_lines import DATALINK_ID, start
from damaged_messages import damage
from random_packets import draw_packet, spoil_packet
from random_state_lines import StateLines
from random_values import chance, pick
from session import show_bytes

CALLS = 5000
LOOKS = ("show", "store", "pacer")
# HelloTime and silence limit: so short that both are often over.
PACE = (300, 700)
# The setting of the statuses 8 to 15: 9, 12 and 15 are operational.
CODES = 0b10010010
# Stores: small ones, and such that take the longest packet.
SMALL, LONG = (1500, 3001), (9000, 20000)
# How often each line comes in each phase of the flight.
PHASES = {
    "mixed": (
        (27, "offer"), (3, "offers"), (34, "next"), (1, "withdraw"), (14, "radio"), (6, "pace"),
        (2, "query"), (8, "show"), (0.6, "store"), (1, "pacer"),
    ),
    "fill": (
        (70, "offer"), (6, "offers"), (6, "next"), (0.2, "withdraw"), (6, "radio"), (4, "pace"),
        (1, "query"), (5, "show"), (0.4, "store"), (1, "pacer"),
    ),
    "drain": (
        (7, "offer"), (1, "offers"), (66, "next"), (0.3, "withdraw"), (16, "radio"), (4, "pace"),
        (1, "query"), (8, "show"), (0.6, "store"), (1, "pacer"),
    ),
}


class Flight(StateLines):
    """Lines of one state, without another start."""

    def draw(self):
        """The next line."""
        if self.lines_left == 0:
            self.begin_phase()
        self.lines_left -= 1
        return self.draw_by_word(pick(self.dice, *PHASES[self.phase]))

    def begin_phase(self):
        """Another phase, about another channel unless the queue just filled is to be drained."""
        self.lines_left = self.dice.randrange(20, 80)
        self.phase = "drain" if self.phase == "fill" else self.dice.choice(("mixed", "fill"))
        if self.phase != "drain":
            self.favourite = self.dice.choice(self.session.endpoint.channels).configuration.channel_id

    def draw_packet_for(self, channel):
        """A packet for this channel, mostly a short one."""
        some, large = self.dice.randrange(40, 130), self.dice.randrange(130, 600)
        longest = min(ciri.PACKET_LIMIT, channel.configuration.store_length)
        length = pick(self.dice, (60, 40), (120, some), (15, large), (5, longest), (1, longest + 1), (1, 39))
        packet = draw_packet(self.dice, length)
        return spoil_packet(self.dice, packet) if chance(self.dice, 2) else packet

    def draw_radio(self):
        """`radio NOW HEX`: a control message, now and then a damaged one, or a data message, in a silence more often."""
        is_silent = all(channel.status is None for channel in self.session.endpoint.channels)
        damaged, data = (40, 40) if is_silent else (8, 4)
        draw = pick(self.dice, (88, self.draw_faultless), (damaged, self.draw_damaged), (data, self.draw_data))
        return f"radio {self.draw_pacer_now(20)} {show_bytes(draw(DATALINK_ID))}"

    def draw_faultless(self, datalink_id):
        """A control message for the configured channels."""
        return self.draft_control(datalink_id).encode()

    def draw_damaged(self, datalink_id):
        """One with something wrong."""
        return damage(self.dice, self.draft_control(datalink_id))


def draw_flight_start(dice):
    """Forty channels in any order, 0 and 254 among them, seven of them plain, with small stores but for four."""
    channels = [0, 254, *dice.sample(range(1, 254), 38)]
    dice.shuffle(channels)
    firsts = [ciri.MODULUS - dice.randrange(100, 4000) for _ in channels]
    return start(*[
        (channel, "plain" if place % 6 == 3 else "flow", first, dice.randrange(*(LONG if place % 10 == 7 else SMALL)))
        for place, (channel, first) in enumerate(zip(channels, firsts))], pace=PACE, codes=CODES)


def flight_lines():
    """The flight: its start, and lines until all calls are made."""
    dice = random.Random("flight")
    flight = Flight(dice)
    line = draw_flight_start(dice)
    calls = 0
    while calls <= CALLS:
        calls += not line.startswith(LOOKS)
        flight.note(line)
        yield line
        line = flight.draw()
