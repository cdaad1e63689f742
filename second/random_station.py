"""random_station.py SEED COUNT: prints a random station script of COUNT lines.

The same seed gives the same script. The script knows the state it has brought about, since each line is also answered
here by station.py; so sequences, bytes queued and rooms are chosen near the limits that matter.
"""

import random
import sys

import ciri
import radio_end
from damaged_messages import damage, draw_datagram, stretch
from malformed_lines import spoil_line
from random_messages import Draft, draw_header, finish_options
from random_values import chance, clamp, draw_channel, draw_datalink, draw_number, draw_room_near, pick
from session import LENGTH_LIMIT, LINE_LIMIT
from station import BYTES_LIMIT, Station
from station_lines import ROOMY, hear, start

MOST = radio_end.ALLOWANCE_LIMIT
# How often each line comes.
WORDS = (
    (30, "query"), (30, "packet"), (4, "any"), (8, "status"), (6, "context"), (14, "queued"), (4, "link"), (4, "tell"),
    (12, "show"), (1, "start"), (1, "fresh"),
)
LINES_OF_ANY_STATE = (
    "tell 100", "show 0", "status 0 1 100", "context 01 100", "queued 0 5 100", "link 1 1", "hear 100 1001000107",
)
ODD_LINES = (
    "", " ", "-", "start", "hear", "status", "context", "queued", "link", "tell", "show", "stop", "Show 0", "show 0 0",
    " tell 100", "tell\t100", "tell 100\r", "start 7 0", "start 7 81", "start 7 1", "start 7 1 0 Flow 0 0", "\x00",
    "start 7 1 0 plain 0 0 0", "start 7 1 0 plain 0 18446744073709551616", "link 256 0", "link 1 18446744073709551616",
    "status 0 256 100", "status 256 0 100", "status 0 0 4194305", "queued 0 18446744073709551616 100", "context 0 100",
    "context  100", "context -- 100", "hear 100  ", "hear 4194305 -", "refused 12 0", "query 100", "radio 0 -", "\xff\xfe",
)
USUAL_CONTEXTS = ("-", "00", "0000", "01", "0102", "41424344454647", "4142434445464748", "414243444546474849")


class StationLines:
    """Lines for a station, chosen by the state that the lines before have brought about."""

    def __init__(self, dice):
        self.dice = dice
        self.station = Station()
        self.favourite = 0

    def note(self, line):
        """Answer a line here too, to know the state behind it."""
        self.station.answer(line.encode("latin-1"))

    def draw(self):
        """The next line."""
        if self.station.radio is None:
            draw = pick(self.dice, (4, self.draw_fresh), (2, self.draw_start), (4, None))
            return draw() if draw else self.dice.choice(LINES_OF_ANY_STATE)
        return getattr(self, f"draw_{pick(self.dice, *WORDS)}")()

    # ---- Starts ----

    def draw_allowance(self):
        """A watermark or a throughput within the limits, often one at a limit."""
        usual, near_most = self.dice.randrange(3000), MOST - self.dice.randrange(1500)
        return pick(self.dice, (5, usual), (2, 0), (1, MOST), (1, near_most), (1, 2**30))

    def draw_channels(self, count):
        """That number of channels within the limits, channel 0 at any place."""
        others = self.dice.sample(range(1, ciri.RESERVED_CHANNEL), count - 1)
        if count < 6 and chance(self.dice, 50):
            others = [one for one in dict.fromkeys(draw_channel(self.dice) for _ in others) if one]
        ids = self.dice.sample([0, *others], 1 + len(others))
        kinds = [pick(self.dice, (7, "flow"), (3, "plain")) for _ in ids]
        return [[one, kind, self.draw_allowance(), self.draw_allowance()] for one, kind in zip(ids, kinds)]

    def draw_fresh(self):
        """A start within the limits."""
        some, many = self.dice.randrange(5, 17), self.dice.randrange(17, 64)
        count = pick(self.dice, (3, 1), (5, 2), (5, 3), (3, 5), (2, some), (0.5, many), (0.5, 64))
        channels = self.draw_channels(count)
        self.favourite = self.dice.choice(channels)[0]
        return start(*channels, datalink_id=draw_datalink(self.dice))

    def draw_start(self):
        """A start with something outside the limits, sometimes two things."""
        channels = self.draw_channels(pick(self.dice, (8, self.dice.randrange(1, 5)), (0.5, 64)))
        for _ in range(pick(self.dice, (3, 1), (1, 2))):
            fault = self.dice.choice(("count", "reserved", "twice", "primary", "allowance", "allowance"))
            if fault == "count":
                count = self.dice.choice((0, 65, 66, 80, 81))
                channels = self.draw_channels(count) if count else []
            elif channels and fault == "reserved":
                self.dice.choice(channels)[0] = ciri.RESERVED_CHANNEL
            elif channels and fault == "twice":
                channels.append([self.dice.choice(channels)[0], "flow", 1, 1])
            elif channels and fault == "primary":
                channels = [channel for channel in channels if channel[0] != 0] or [[254, "flow", 1, 1]]
            elif channels:
                over = pick(self.dice, (4, MOST + 1), (2, 2**32), (1, BYTES_LIMIT), (1, BYTES_LIMIT + 1))
                self.dice.choice(channels)[self.dice.choice((2, 3))] = over
        return start(*channels, datalink_id=draw_datalink(self.dice))

    # ---- Channels and rooms ----

    def draw_configured(self):
        """A configured channel, mostly the favourite one."""
        channels = self.station.radio.channels
        preferred = [channel for channel in channels if channel.setting.channel_id == self.favourite]
        return preferred[0] if preferred and chance(self.dice, 60) else self.dice.choice(channels)

    def draw_id(self, channel):
        """The channel's ID, seldom another."""
        other = self.dice.choice((ciri.RESERVED_CHANNEL, draw_channel(self.dice)))
        return pick(self.dice, (97, channel.setting.channel_id), (3, other))

    def draw_room(self):
        """Mostly room enough, else about the length of the message as it stands, or with a field more."""
        size = len(radio_end.message_of(self.station.radio, LENGTH_LIMIT)) + pick(self.dice, (4, 0), (1, 4), (1, -4))
        return pick(self.dice, (80, ROOMY), (20, draw_room_near(self.dice, size)))

    # ---- Datagrams ----

    def draw_sequence(self, channel):
        """A sequence about the highest: ahead, the same, behind, and where ahead ends."""
        near, far = self.dice.randrange(1, 3000), self.dice.choice((MOST, MOST + 1, MOST + 2, MOST - 1, -MOST))
        step = pick(self.dice, (60, near), (8, 0), (8, -near), (4, 1), (3, -1), (10, far), (5, draw_number(self.dice)))
        first = draw_number(self.dice) if channel.highest is None else channel.highest
        return (first + step) % ciri.MODULUS

    def sequence_option(self, channel_id, sequence):
        """A Flow Sequence."""
        return ciri.FLOW_SEQUENCE, bytes([channel_id]) + sequence.to_bytes(4, "big")

    def finish(self, plane, options):
        """A line that hears a message of these options: faultless, damaged, or at the datagram's limit."""
        options.append((ciri.DATALINK_IDENTIFIER, bytes([self.station.radio.datalink_id])))
        carried = options.pop(0) if plane == ciri.DATA else None
        options = finish_options(self.dice, options, ciri.CONTROL) + ([carried] if carried else [])
        draft = Draft(ciri.IPS, plane, draw_header(self.dice, plane), options)
        spoil = pick(self.dice, (91, None), (9, damage), (0.1, stretch))
        return hear(draft.encode() if spoil is None else spoil(self.dice, draft), self.draw_room())

    def draw_query(self):
        """A control message with the sequences of some channels, seldom of one that is lacking."""
        channels = [channel for channel in self.station.radio.channels if chance(self.dice, 60)]
        sequences = {channel.setting.channel_id: self.draw_sequence(channel) for channel in channels}
        if chance(self.dice, 4):
            sequences.setdefault(draw_channel(self.dice), draw_number(self.dice))
        return self.finish(ciri.CONTROL, [self.sequence_option(*stated) for stated in sequences.items()])

    def draw_packet(self):
        """A data message on a channel, mostly with the sequence behind its bytes."""
        channel, length = self.draw_configured(), self.draw_length()
        channel_id = channel.setting.channel_id if chance(self.dice, 97) else draw_channel(self.dice)
        options = [(ciri.PACKET_DATA, self.dice.randbytes(length))]
        if chance(self.dice, 92):
            options.append((ciri.CHANNEL_IDENTIFIER, bytes([channel_id])))
            behind = self.draw_sequence(channel) if channel.highest is None else (channel.highest + length) % ciri.MODULUS
            if chance(self.dice, 80):
                options.append(self.sequence_option(channel_id, pick(self.dice, (4, behind), (1, self.draw_sequence(channel)))))
        if chance(self.dice, 15):
            options.append((ciri.EXPIRATION_TIME, self.dice.choice((b"\0\0\0\1", b"\xff\xff\xff\xff"))))
        return self.finish(ciri.DATA, options)

    def draw_length(self):
        """The bytes of a packet."""
        short, long = self.dice.randrange(200), self.dice.randrange(1500)
        return pick(self.dice, (1, 0), (1, 1), (4, 40), (8, short), (2, long), (0.2, 9000))

    def draw_any(self):
        """A message of either end, or one that is too long."""
        end = pick(self.dice, (3, ciri.IPS), (1, ciri.RADIO))
        datagram = draw_datagram(self.dice, end, self.station.radio.datalink_id)
        if chance(self.dice, 3):
            head = f"hear {self.draw_room()} "
            return head + "00" * ((LINE_LIMIT - len(head)) // 2 + self.dice.randrange(2))
        return hear(datagram, self.draw_room())

    # ---- What the radio tells of itself ----

    def draw_status(self):
        """`status CHANNEL VALUE ROOM`"""
        channel = self.draw_configured()
        value = pick(self.dice, (6, self.dice.randrange(16)), (2, channel.status), (0.5, 16), (0.5, self.dice.randrange(16, 256)))
        return f"status {self.draw_id(channel)} {value} {self.draw_room()}"

    def draw_context(self):
        """`context HEX ROOM`"""
        kept = self.station.radio.context
        same = "-" if kept is None else kept.hex()
        other = self.dice.randbytes(self.dice.randrange(1, 11)).hex()
        return f"context {pick(self.dice, (3, self.dice.choice(USUAL_CONTEXTS)), (2, same), (2, other))} {self.draw_room()}"

    def draw_queued(self):
        """`queued CHANNEL BYTES ROOM`"""
        channel = self.draw_configured()
        total = channel.setting.watermark + channel.setting.throughput
        near = self.dice.choice((total, total - MOST, channel.queued)) + self.dice.choice((-1, 0, 1))
        large = self.dice.choice((2**31, 2**32, 2**32 + total, 2**63, BYTES_LIMIT, BYTES_LIMIT - 40))
        queued = pick(self.dice, (3, 0), (4, self.dice.randrange(total + 2)), (4, near), (1, large), (2, channel.queued // 2))
        return f"queued {self.draw_id(channel)} {clamp(queued, BYTES_LIMIT)} {self.draw_room()}"

    def draw_link(self):
        """`link LEN VALUE`"""
        length = pick(self.dice, (12, self.dice.randrange(1, 9)), (1, 0), (1, 9), (1, self.dice.randrange(9, 256)))
        limit = 256 ** min(length, 8)
        value = pick(self.dice, (3, self.dice.randrange(limit)), (1, limit - 1), (1, limit), (1, 0))
        return f"link {length} {clamp(value, BYTES_LIMIT)}"

    def draw_tell(self):
        """`tell ROOM`"""
        return f"tell {self.draw_room()}"

    def draw_show(self):
        """`show CHANNEL`"""
        return f"show {self.draw_id(self.draw_configured())}"


def draw_lines(dice, count, spoiled=2):
    """The lines of a script without newlines, one character a byte; in that percentage something is wrong."""
    lines = StationLines(dice)
    for _ in range(count):
        line = lines.draw()
        if chance(dice, spoiled):
            line = spoil_line(dice, line)
        elif chance(dice, spoiled / 2):
            line = dice.choice(ODD_LINES)
        lines.note(line)
        yield line


def main():
    """Print the script; one in four lacks the newline behind its last line."""
    seed, count = sys.argv[1], int(sys.argv[2])
    dice = random.Random(f"station {seed}")
    lacks_last_newline = chance(dice, 25)
    script = "".join(line + "\n" for line in draw_lines(dice, count))
    script = script[:-1] if lacks_last_newline and not script.endswith("\n\n") else script
    sys.stdout.buffer.write(script.encode("latin-1"))


if __name__ == "__main__":
    main()
