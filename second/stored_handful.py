"""The stored script's lines that offer packets by the handful: number 24 from both sides, and each scene in which a
handful is offered at once, and then one by one to another fresh state."""

from dataclasses import dataclass

import ciri
from call_lines import NEVER, ROOMY, handful, offer, offers, packet, radio, start
from session import LENGTH_LIMIT, LINE_LIMIT, TIME_LIMIT
from stored_limits import CHANNELS as ANY_ORDER

CHANNELS = ((0, "plain", 0, 1500), (3, "flow", 4294967200, 1500), (9, "plain", 5, 1600))
IDS = tuple(channel[0] for channel in CHANNELS)
LATE = (4, "plain", 0, 1500)


@dataclass(frozen=True)
class Scene:
    """A fresh state of these channels, lines to it, and then packets as (CHANNEL, EXPIRY, bytes) at one time."""

    time: int
    offered: tuple
    before: tuple = ()
    channels: tuple = CHANNELS

    def begin(self):
        """The lines up to the packets."""
        return [start(*self.channels), *self.before]

    def at_once(self):
        """The packets as one line."""
        return handful(self.time, *self.offered)

    def one_by_one(self):
        """The packets as lines of their own."""
        return [offer(channel, self.time, expiry, octets) for channel, expiry, octets in self.offered]

    def looks(self):
        """Each channel, and the store of each that was offered a packet."""
        ids = [channel[0] for channel in self.channels]
        named = {channel for channel, _, _ in self.offered}
        return [f"show {channel}" for channel in ids] + [f"store {channel}" for channel in ids if channel in named]


def waiting(channel, *lengths, mark=0):
    """Packets of these lengths for one channel, each told from the others."""
    return tuple((channel, NEVER, packet(length, mark + 11 * place)) for place, length in enumerate(lengths))


# ---- Refused ones in the midst ----


def refused_packets():
    """Packets that are refused at time 5 by the state below, by each number; the stretch of each is passed over."""
    yield from ((channel, NEVER, packet(40)) for channel in (7, ciri.RESERVED_CHANNEL))
    no_ipv6 = (b"", packet(39), packet(40) + b"\0", packet(42)[:41], b"\x50" + packet(40)[1:])
    yield from ((0, NEVER, octets) for octets in no_ipv6)
    yield 0, NEVER, packet(1501)
    yield 4, NEVER, packet(40)
    yield from ((0, expiry, packet(40)) for expiry in (5, 0))
    yield 9, NEVER, packet(40)


def in_the_midst():
    """Each of them alone between packets that are taken; then all in a row, in front, at the end, and no other."""
    state = {"before": (offer(4, 6, NEVER, packet(40)), offer(9, 5, NEVER, packet(1561))), "channels": (*CHANNELS, LATE)}
    front, behind = waiting(0, 43, mark=50), (*waiting(0, 41, mark=90), *waiting(3, 42, mark=70))
    faulty = tuple(refused_packets())
    yield from (Scene(5, (*front, one, *behind), **state) for one in faulty)
    for offered in ((*front, *faulty, *behind), (*faulty, *front), (*behind, *faulty), faulty):
        yield Scene(5, offered, **state)


def two_faults():
    """Of two faults of one packet the one that is tested first is given, in a handful too."""
    full = (offer(0, 5, NEVER, packet(1500)), offer(9, 4, NEVER, packet(1600)))
    offered = (
        (7, 0, packet(39)), (0, 0, packet(39)), (0, 0, packet(1501) + b"\0"), (0, 0, packet(1501)), (0, 0, packet(1500)),
        (9, 4, packet(1601)), (9, 4, packet(40)), (9, NEVER, packet(40)), (9, NEVER, packet(1601)), (3, NEVER, packet(40)),
    )
    yield Scene(4, offered, full)


def stretches():
    """Where one packet ends and the next begins is what the lengths say, not what the packets do."""
    pair = packet(40, 1) + packet(40, 2)
    for cut in (0, 39, 40, 41, 80):
        yield Scene(1, ((0, NEVER, pair[:cut]), (3, NEVER, pair[cut:]), *waiting(0, 44)))
    # The second half of the packet looks like one, and is no packet of its own, unless the lengths make it one.
    nested = b"\x60\0\0\0\0\x28" + packet(40)[6:] + packet(40, 3)
    yield Scene(1, ((0, NEVER, nested), (3, NEVER, nested[:40]), (3, NEVER, nested[40:])))
    yield Scene(1, ((0, NEVER, b""),) * 3)


# ---- Room ----


def counted_room():
    """The 32nd and the 33rd waiting, within one handful and behind what waits; the state as the packets before left it."""
    many = ciri.WAITING_LIMIT
    yield Scene(2, waiting(0, *[40] * many), (offer(0, 1, NEVER, packet(40, 9)),))
    nearly = (handful(1, *waiting(0, *[40] * (many - 1))),)
    yield Scene(2, (*waiting(0, 41, 42), *waiting(3, 40), *waiting(0, 43)), nearly)
    full = (handful(1, *[(0, 2 if mark in (4, 20) else NEVER, packet(40, mark)) for mark in range(many)]),)
    yield Scene(2, waiting(0, 41, 42, 43, 44, mark=50), full)
    yield Scene(1, waiting(0, 41, 42, mark=50), full)


def room_in_bytes():
    """A store full to the byte, and one byte over; a shorter packet behind one that had no room is taken."""
    for lengths in ((700, 760, 40), (700, 761, 40), (1500, 40), (1500, 1500), (40, 1461, 1460, 40), (700, 801, 800, 40)):
        yield Scene(1, (*waiting(0, *lengths), *waiting(3, 40)))
    in_turn = ((0, 1400), (3, 1400), (0, 101), (3, 100), (0, 100), (3, 40))
    yield Scene(1, tuple((channel, NEVER, packet(length)) for channel, length in in_turn))
    yield Scene(2, waiting(0, 900, 801, 800, 100, 40), (offer(0, 1, 2, packet(600)), offer(0, 1, NEVER, packet(500))))


def expiring():
    """Packets expire by the first one taken of their channel, for which they leave room and for those behind it; where
    all are refused, or none is offered, they stay."""
    full = tuple(offer(0, 1, expiry, packet(length, length)) for length, expiry in ((400, 50), (700, 10), (400, 50)))
    others = tuple(offer(channel, 1, 10, packet(60, channel)) for channel in (3, 9))
    refused = ((0, NEVER, packet(701)), (0, 10, packet(40)), (3, 10, packet(40)), (0, NEVER, packet(39)))
    for time in (9, 10, 50):
        yield Scene(time, (*refused, *waiting(0, 700, 40)), (*full, *others))
    yield Scene(10, refused, (*full, *others))
    yield Scene(10, waiting(0, 40, 1400, 60, 40), (offer(0, 1, 10, packet(1400)),))
    yield Scene(10, ((0, 11, packet(40, 1)), (0, 12, packet(41, 2)), (0, 11, packet(42, 3)), (0, 13, packet(43, 4))))
    soon = handful(10, (0, 11, packet(40, 1)), (0, 12, packet(41, 2)), (0, 11, packet(42, 3)), (0, 13, packet(43, 4)))
    yield Scene(11, ((0, 12, packet(44, 5)), (0, 11, packet(45, 6)), (3, 12, packet(46, 7))), (soon,))
    yield Scene(12, (*waiting(0, 1417, 1418, 1457, 40), *waiting(3, 44)), (soon,))


# ---- Times and channels ----


def times():
    """One time for all, and each channel's own latest; a refused packet leaves it. The least time and the greatest."""
    latest = tuple(offer(channel, time, NEVER, packet(40)) for channel, time in ((0, 10), (3, 4), (9, 7)))
    three = (*waiting(0, 41), *waiting(3, 42), *waiting(0, 43), *waiting(9, 44), *waiting(3, 45))
    yield from (Scene(time, three, latest) for time in (3, 4, 7, 10))
    yield Scene(20, ((0, 20, packet(41)), (3, 19, packet(42)), (3, 21, packet(43))), latest)
    for time in (0, 1, TIME_LIMIT - 1, TIME_LIMIT):
        yield Scene(time, tuple((3, expiry, packet(40, expiry % 9)) for expiry in (0, 1, 2, TIME_LIMIT - 1, TIME_LIMIT)))


def mixed_channels():
    """Several channels in turn, one of them at places that aren't neighbours, others not configured."""
    for channels in ((0, 3, 0, 9, 3, 0, 9, 9, 0), (9, 255, 3, 4, 0, 255, 3, 254, 9)):
        yield Scene(1, tuple((channel, NEVER, packet(40 + place, place)) for place, channel in enumerate(channels)))
    yield Scene(1, ((0, NEVER, packet(60, 7)),) * 3 + ((3, NEVER, packet(60, 7)),) * 2)


def long_packets():
    """Packets of 9,000 bytes and one more, and stores that are shorter than that."""
    channels = ((0, "plain", 0, 9000), (3, "flow", 0, 8999), (9, "plain", 0, 18100))
    lengths = ((0, 9001), (0, 9000), (3, 9000), (3, 8999), (9, 9000), (0, 40), (9, 9001), (9, 9000), (9, 101), (9, 100))
    yield Scene(1, tuple((channel, NEVER, packet(length, length)) for channel, length in lengths), channels=channels)


def handful_scenes():
    """All that is offered both ways."""
    yield from in_the_midst()
    yield from two_faults()
    yield from stretches()
    yield from counted_room()
    yield from room_in_bytes()
    yield from expiring()
    yield from times()
    yield from mixed_channels()
    yield from long_packets()
    yield from (Scene(1, offered) for offered in ((), waiting(3, 40), waiting(3, 39)))


# ---- Number 24 ----


def miscounted(count):
    """A handful of so many packets but for one of its four counts, then for two; the lengths' sum is right in each."""
    octets = b"".join(packet(40, mark) for mark in range(count))
    steps = [[step if place == which else 0 for place in range(4)] for which in range(4) for step in (-1, 1)]
    steps += [[1, 1, 0, 0], [0, 1, 1, 0], [0, 0, 1, 1], [1, 0, 1, 0], [1, 1, 1, 0], [0, 1, 1, 1]]
    for counts in ([count + step for step in row] for row in steps):
        if min(counts) >= 0:
            lengths = [40] * counts[2]
            lengths[-1:] = [len(octets) - 40 * (counts[2] - 1)] if counts[2] else []
            channels = [IDS[place % len(IDS)] for place in range(counts[0])]
            yield offers(5, channels, [NEVER] * counts[1], lengths, counts[3], octets)


def missummed():
    """Two packets of 40 bytes, none and 32, and lengths whose sum is a byte off, far off, or right in numbers that wrap."""
    pair = packet(40, 1) + packet(40, 2)
    off = ((40, 39), (40, 41), (39, 40), (41, 40), (0, 0), (40, 0), (0, 40), (65536 + 40, 40), (40, LENGTH_LIMIT))
    for lengths in off:
        yield offers(5, (0, 3), (NEVER, NEVER), lengths, 2, pair)
    for octets in (b"", pair[:40], pair[:79], pair + b"\0"):
        yield offers(5, (0, 3), (NEVER, NEVER), (40, 40), 2, octets)
    yield from (offers(5, (), (), (), 0, octets) for octets in (b"\0", packet(40)))
    yield from (offers(5, (0,), (NEVER,), (length,), 1, b"") for length in (1, 40, 256, 65536, LENGTH_LIMIT))
    yield from (offers(5, (0,) * count, (NEVER,) * count, (LENGTH_LIMIT,) * count, count, b"") for count in (4, 32))
    most = b"".join(packet(40, mark) for mark in range(32))
    yield from (offers(5, [0] * 32, [NEVER] * 32, [40] * 32, 32, octets) for octets in (most[:-1], most + b"\0"))


def too_many():
    """33 packets and more, with no other fault and with another."""
    for count in (33, 80):
        yield handful(5, *[(IDS[place % 3], NEVER, packet(40, place)) for place in range(count)])
        yield offers(5, [0] * count, [NEVER] * count, [0] * count, count, b"")
        yield offers(5, [0] * count, [NEVER] * count, [40] * count, count, packet(40))
        yield offers(5, [0] * count, [NEVER] * count, [0] * count, 32, b"")
        yield offers(5, [0] * 32, [NEVER] * count, [0] * count, count, b"")


def refused_as_a_whole():
    """24 before 12 to 17 of any packet, and it leaves everything: what has expired, the latest time, the stores."""
    yield from (start(*CHANNELS), radio(dict.fromkeys(IDS, 7)))
    yield from (offer(0, 1, 4, packet(50, 5)), offer(0, 2, NEVER, packet(40, 6)), offer(3, 6, NEVER, packet(1500)))
    for lines in (*(miscounted(count) for count in (0, 1, 2, 32)), missummed(), too_many()):
        yield from (*lines, "show 0", "show 3", "show 9")
    yield offers(5, (7, 255, 0, 3), (0, 0, 5, NEVER), (40, 40, 40, 39), 4, b"\x50" * 160)
    yield offers(0, (0, 3), (NEVER, NEVER), (40, 40), 1, packet(40) + packet(40))
    yield from (f"{look} {channel}" for channel in IDS for look in ("show", "store"))
    yield from (handful(5, *waiting(9, *[40] * ciri.HANDFUL_LIMIT)), "show 9", "store 9", "pacer", "kept")
    yield from (handful(5, *[(0, NEVER, b"")] * ciri.HANDFUL_LIMIT), handful(5), handful(0), "show 0", "show 3")


# ---- Around a handful ----


def sent_afterwards():
    """What a handful left waiting is sent in its order, under a window that holds some of it; handfuls come between."""
    yield from (start(*CHANNELS), handful(1, *waiting(3, 40, 41, 42), *waiting(0, 43)), f"next 3 1 {ROOMY}")
    yield from (radio({0: 7, 3: 7}, {3: 29}), "query 100")
    yield from (f"next 3 {time} {ROOMY}" for time in (2, 3, 4))
    yield from (handful(4, (3, 9, packet(44)), (5, 9, packet(40)), (3, 6, packet(45))), "show 3", radio({0: 7, 3: 7}))
    yield from (f"next 3 {time} {ROOMY}" for time in (5, 6, 7))
    yield from ("show 3", "withdraw 0", handful(7, *waiting(0, 1500, 40), *waiting(3, 40)), "withdraw 3", "show 0")
    yield from ("store 3", handful(6, *waiting(0, 40), *waiting(3, 40), *waiting(9, 40)), "show 9", "query 100")


def every_channel():
    """Sixty-four channels in two handfuls, against the order of their stores."""
    yield start(*[(channel, "flow" if channel % 3 else "plain", channel, 1500 + channel) for channel in ANY_ORDER])
    for channels in (ANY_ORDER[:31:-1], ANY_ORDER[31::-1]):
        yield handful(1, *[(channel, NEVER + channel, packet(40 + channel, channel)) for channel in channels])
    yield from (f"show {channel}" for channel in ANY_ORDER)
    yield from (f"store {channel}" for channel in ANY_ORDER[::9])


def stretched(line_length, expiry):
    """A handful of seven packets of 9,000 bytes and one that makes the line so long; none where a digit is left over."""
    rest, one_over = divmod(line_length - len(handful(1, *waiting(0, *[9000] * 7), (3, expiry, packet(5000)))), 2)
    return [] if one_over else [handful(1, *waiting(0, *[9000] * 7), (3, expiry, packet(5000 + rest)))]


def longest_lines():
    """A line of the greatest length, and of a byte more; the longest store full to the byte."""
    yield start((0, "plain", 0, 65536), (3, "plain", 0, 9000))
    for line_length in (LINE_LIMIT + 1, LINE_LIMIT):
        yield from (line for expiry in (NEVER, 10 * NEVER) for line in stretched(line_length, expiry))
        yield from ("show 0", "show 3")
    yield from (handful(1, *waiting(0, 2537, 2536, 40)), "show 0")


def handful_lines():
    """All of them."""
    for scene in handful_scenes():
        yield from (*scene.begin(), scene.at_once(), *scene.looks())
        yield from (*scene.begin(), *scene.one_by_one(), *scene.looks())
    yield from refused_as_a_whole()
    yield from sent_afterwards()
    yield from every_channel()
    yield from longest_lines()
