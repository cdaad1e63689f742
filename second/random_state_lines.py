"""Lines about a state, drawn by lot."""

import ciri
from call_lines import ROOMY, offer
from damaged_messages import damage, draw_datagram, stretch
from random_handfuls import draw_count, draw_handful
from random_messages import ENDS, Draft, draw_draft, draw_header, finish_options, state_radio_control
from random_packets import draw_offered
from random_starts import draw_refused_start, draw_start
from random_values import chance, clamp, draw_channel, draw_number, draw_room_near, pick
from session import LENGTH_LIMIT, LINE_LIMIT, TIME_LIMIT, Session, show_bytes

# How often each line comes in each phase of a session.
PHASES = {
    "mixed": (
        (26, "offer"), (5, "offers"), (28, "next"), (2, "withdraw"), (16, "radio"), (5, "pace"),
        (5, "query"), (10, "show"), (3, "store"), (3, "kept"), (3, "pacer"), (2, "start"),
    ),
    "fill": (
        (70, "offer"), (8, "offers"), (3, "next"), (0.2, "withdraw"), (4, "radio"), (2, "pace"),
        (1, "query"), (6, "show"), (2, "store"), (1, "kept"), (1, "pacer"), (1, "start"),
    ),
    "drain": (
        (5, "offer"), (1, "offers"), (62, "next"), (0.5, "withdraw"), (16, "radio"), (2, "pace"),
        (2, "query"), (9, "show"), (3, "store"), (3, "kept"), (1, "pacer"), (1, "start"),
    ),
}

LINES_OF_ANY_STATE = (
    "query 100", "show 0", "store 0", "withdraw 0", "next 0 0 0", "radio 0 -", "offer 0 0 1 -", "kept",
    "pace 0", "pacer", "offers 0 channels 0 expiries 0 lengths 0 answers 0 -",
    "offers 0 channels 1 0 expiries 1 1 lengths 1 0 answers 1 -",
)


class StateLines:
    """Lines about a state, chosen by the state that the lines before have brought about."""

    def __init__(self, dice):
        self.dice = dice
        self.session = Session()
        self.clock = 0
        self.phase = "mixed"
        self.lines_left = 0
        self.favourite = 0
        self.touched = 0

    def draw(self):
        """The next line."""
        if self.session.endpoint is None:
            return self.draw_before_start()
        if self.lines_left <= 0:
            return self.begin_phase()
        self.lines_left -= 1
        return self.draw_by_word(pick(self.dice, *PHASES[self.phase]))

    def draw_by_word(self, word):
        """A line with that first word."""
        draws = {
            "offer": self.draw_offer,
            "offers": self.draw_offers,
            "next": self.draw_next,
            "withdraw": self.draw_withdraw,
            "radio": self.draw_radio,
            "pace": self.draw_pace,
            "query": self.draw_query,
            "show": self.draw_show,
            "store": self.draw_store,
            "kept": self.draw_kept,
            "pacer": self.draw_pacer,
            "start": self.draw_start,
        }
        return draws[word]()

    def note(self, line):
        """Answer a line here too, to know the state behind it."""
        self.session.answer(line.encode("latin-1"))

    def begin_phase(self):
        """Another phase: often the draining of a queue just filled, else another channel or a fresh start."""
        self.lines_left = self.dice.randrange(20, 80)
        if self.phase == "fill" and chance(self.dice, 75):
            self.phase = "drain"
            return self.draw_radio()
        self.phase = pick(self.dice, (3, "mixed"), (2, "fill"))
        if chance(self.dice, 40):
            return self.draw_fresh_start()
        self.favourite = self.dice.choice(self.session.endpoint.channels).configuration.channel_id
        return self.draw_radio()

    def draw_fresh_start(self):
        """A start that is accepted, and the clock set anew."""
        self.favourite = 0
        late = pick(self.dice, (3, TIME_LIMIT - 10000), (1, TIME_LIMIT - 9))
        self.clock = pick(self.dice, (3, 0), (2, 1000), (1, 2**32 - 50), (1, 2**63 - 50), (1, late))
        return draw_start(self.dice)

    def draw_before_start(self):
        """A start, or a line that asks for a state there isn't."""
        draw = pick(self.dice, (4, self.draw_fresh_start), (2, self.draw_start), (4, None))
        return draw() if draw else self.dice.choice(LINES_OF_ANY_STATE)

    def draw_start(self):
        """A start that mostly is refused."""
        return draw_refused_start(self.dice)

    def draw_configured(self):
        """A configured channel, mostly the favourite of the phase."""
        return self.find_preferred([self.favourite], 92 if self.phase == "fill" else 70)

    def draw_waiting(self):
        """A configured channel, mostly one on which packets wait."""
        channels = self.session.endpoint.channels
        return self.find_preferred([channel.configuration.channel_id for channel in channels if channel.queue], 85)

    def draw_touched(self):
        """A configured channel, mostly the one of the last call."""
        return self.find_preferred([self.touched], 75)

    def find_preferred(self, channel_ids, percent):
        """A configured channel, in that percentage of draws one of these."""
        channels = self.session.endpoint.channels
        preferred = [channel for channel in channels if channel.configuration.channel_id in channel_ids]
        return self.dice.choice(preferred if preferred and chance(self.dice, percent) else channels)

    def show_channel_id(self, channel):
        """The channel's ID, seldom another."""
        self.touched = channel.configuration.channel_id
        other = self.dice.choice((ciri.RESERVED_CHANNEL, draw_channel(self.dice)))
        return pick(self.dice, (97, self.touched), (3, other))

    def draw_now(self, channel):
        """A time, mostly going forward, seldom at or before the channel's latest."""
        step = pick(self.dice, (30, 0), (40, self.dice.randrange(1, 6)), (10, self.dice.randrange(10, 100)), (1, 1000))
        self.clock = clamp(self.clock + (min(step, 1) if self.phase == "fill" else step), TIME_LIMIT)
        now = pick(self.dice, (93, self.clock), (3, channel.latest - 1), (2, channel.latest), (0.5, 0))
        return clamp(now, TIME_LIMIT)

    def draw_step(self):
        """By how much a clock goes forward, seldom by nothing."""
        return pick(self.dice, (20, 0), (40, self.dice.randrange(1, 6)), (10, self.dice.randrange(10, 100)))

    def draw_pacer_now(self, aimed):
        """A time for the pacer, mostly going forward, in that percentage of draws about where a wait is over; seldom
        before its clock."""
        pacer = self.session.endpoint.pacer
        due, silent = pacer.last_due + pacer.hello_time, pacer.last_heard + pacer.silence_limit
        over = pick(self.dice, (2, due), (3, silent)) + pick(self.dice, (3, 0), (3, -1), (1, 1))
        forward = max(self.clock, pacer.clock) + self.draw_step()
        now = over if chance(self.dice, aimed) and pacer.clock <= over <= TIME_LIMIT else forward
        return clamp(pick(self.dice, (94, now), (3, pacer.clock), (3, pacer.clock - 1), (0.5, 0)), TIME_LIMIT)

    def draw_expiry(self, now):
        """An expiry, mostly after the time given; soon or far."""
        soon = pick(self.dice, (1, 1), (3, self.dice.randrange(2, 30)), (3, self.dice.randrange(30, 600)))
        far = pick(self.dice, (3, 100000), (1, TIME_LIMIT))
        after = pick(self.dice, (1, soon), (11 if self.phase == "fill" else 1, far))
        return clamp(now + pick(self.dice, (96, after), (2, 0), (1, -1), (0.5, -now)), TIME_LIMIT)

    def draw_offer(self):
        """`offer CHANNEL NOW EXPIRY HEX`"""
        channel = self.draw_configured()
        now = self.draw_now(channel)
        packet = self.draw_packet_for(channel)
        return offer(self.show_channel_id(channel), now, self.draw_expiry(now), packet)

    def draw_packet_for(self, channel):
        """A packet for this channel."""
        return draw_offered(self.dice, self.phase == "fill", channel.configuration.store_length)

    def draw_offers(self):
        """`offers NOW channels N C.. expiries N E.. lengths N L.. answers N HEX`"""
        now = self.draw_now(self.draw_configured())
        return draw_handful(self.dice, now, [self.draw_one_of_many(now) for _ in range(draw_count(self.dice))])

    def draw_one_of_many(self, now):
        """A packet of a handful as (CHANNEL, EXPIRY, bytes), more often than others for another channel."""
        channel = self.find_preferred([self.favourite], 50)
        packet = self.draw_packet_for(channel)
        return self.show_channel_id(channel), self.draw_expiry(now), packet

    def draw_next(self):
        """`next CHANNEL NOW ROOM`"""
        channel = self.draw_waiting()
        now = self.draw_now(channel)
        return f"next {self.show_channel_id(channel)} {now} {self.draw_next_room(channel)}"

    def draw_next_room(self, channel):
        """Room for any packet, or about the size of the message with the first waiting one, or with another."""
        lengths = [waiting.length for waiting in channel.queue] or [40]
        length = pick(self.dice, (3, lengths[0]), (1, self.dice.choice(lengths)))
        identifiers = 2 * (ciri.FRAME_LENGTH + 1)
        sequence = 0 if channel.flow in (ciri.FREE, ciri.NO_WINDOW) else ciri.FRAME_LENGTH + 5
        size = ciri.HEADER_LENGTH + identifiers + sequence + ciri.FRAME_LENGTH + length
        return pick(self.dice, (60, ROOMY), (40, draw_room_near(self.dice, size)))

    def draw_withdraw(self):
        """`withdraw CHANNEL`"""
        return f"withdraw {self.show_channel_id(self.draw_configured())}"

    def draw_show(self):
        """`show CHANNEL`"""
        return f"show {self.show_channel_id(self.draw_touched())}"

    def draw_store(self):
        """`store CHANNEL`"""
        return f"store {self.show_channel_id(self.draw_touched())}"

    def draw_kept(self):
        """`kept`"""
        return "kept"

    def draw_pacer(self):
        """`pacer`"""
        return "pacer"

    def draw_pace(self):
        """`pace NOW`"""
        return f"pace {self.draw_pacer_now(50)}"

    def draw_query(self):
        """`query ROOM`"""
        size = len(ciri.query_message(self.session.endpoint, LENGTH_LIMIT))
        return f"query {draw_room_near(self.dice, size)}"

    def draw_radio(self):
        """`radio NOW HEX`"""
        datalink_id = self.session.endpoint.datalink_id
        head = f"radio {self.draw_pacer_now(5)} "
        if chance(self.dice, 0.1):
            return self.draw_long(head)
        draw = pick(self.dice, (90, self.draw_control), (6, self.draw_data), (6, self.draw_any))
        return head + show_bytes(draw(datalink_id))

    def draw_control(self, datalink_id):
        """A radio control message for the configured channels: faultless, damaged, or at the datagram's limit."""
        finish = pick(self.dice, (90, None), (10, damage), (0.3, stretch))
        draft = self.draft_control(datalink_id)
        return draft.encode() if finish is None else finish(self.dice, draft)

    def draw_data(self, datalink_id):
        """A radio data message."""
        return draw_draft(self.dice, ciri.RADIO, ciri.DATA, datalink_id).encode()

    def draw_any(self, datalink_id):
        """A message of either end."""
        return draw_datagram(self.dice, self.dice.choice(ENDS), datalink_id)

    def draw_long(self, head):
        """A line of the greatest length with this head, or one just over it."""
        return head + "00" * ((LINE_LIMIT - len(head)) // 2 + self.dice.randrange(2))

    def draft_control(self, datalink_id):
        """A radio control message for the configured channels, seldom for others too."""
        statuses, windows = {}, {}
        for channel in self.session.endpoint.channels:
            self.state_channel(channel, statuses, windows)
        if chance(self.dice, 15):
            statuses.setdefault(draw_channel(self.dice), 7)
            windows.setdefault(draw_channel(self.dice), draw_number(self.dice))
        statuses.setdefault(ciri.PRIMARY_CHANNEL, 7)
        options = state_radio_control(self.dice, statuses, windows)
        options.append((ciri.DATALINK_IDENTIFIER, bytes([datalink_id])))
        options = finish_options(self.dice, options, ciri.CONTROL)
        return Draft(ciri.RADIO, ciri.CONTROL, draw_header(self.dice, ciri.CONTROL), options)

    def state_channel(self, channel, statuses, windows):
        """A channel's Status and Flow Window, or one of them, or none."""
        channel_id = channel.configuration.channel_id
        if chance(self.dice, 94):
            low, unknown = self.dice.randrange(1, 7), self.dice.randrange(8, 16)
            often = 20 if self.session.endpoint.codes else 5
            statuses[channel_id] = pick(self.dice, (74, 7), (14, low), (4, 0), (often, unknown))
        if chance(self.dice, 87 if channel.configuration.is_flow_controlled else 10):
            windows[channel_id] = pick(self.dice, (87, self.draw_window(channel)), (13, None))

    def draw_window(self, channel):
        """A window about the sequence: shut, just open, wide, or where the distance is at its limits."""
        lengths = [waiting.length for waiting in channel.queue] or [40]
        at_first = pick(self.dice, (3, lengths[0]), (2, lengths[0] - 1), (1, lengths[0] + 1))
        waiting, wide = sum(lengths), self.dice.randrange(1500, 20000)
        low = self.dice.choice((0, 39, 40, -1, -wide))
        limit = self.dice.choice((-(2**31), -(2**31) + 1, 2**31 - 1, 2**31 - 2, 2**31 - 1 + lengths[0]))
        anywhere = draw_number(self.dice)
        offset = pick(self.dice, (25, waiting), (25, at_first), (35, wide), (9, low), (6, limit), (2, anywhere))
        return (channel.sequence + offset) % ciri.MODULUS
