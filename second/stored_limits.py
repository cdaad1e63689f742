"""The stored script's lines that bring a state to each of its limits, and try what lies just outside."""

import ciri
from call_lines import NEVER, ROOMY, offer, packet, radio, start
from session import LENGTH_LIMIT, TIME_LIMIT
from stored_orders import PACKET

# Sixty-four Channel IDs in no order: 254 is the twelfth, 0 the forty-first.
CHANNELS = tuple((44 * place + 25) % 255 for place in range(64))


# ---- Starts at the limits ----


def start_limits():
    """Each limit of a configuration and what lies just outside; a refused start leaves the state before it."""
    yield from (start((0, "plain", 0, store)) for store in (0, 1499, 1500, 65537, LENGTH_LIMIT, 65536))
    yield from (offer(0, 3, 9, packet(40)), "show 0")
    yield from (start((0, "flow", 4294967295, 1500), memory=memory) for memory in (0, 1499, 1501, LENGTH_LIMIT))
    yield from (start((channel, "flow", 0, 1500)) for channel in (1, 254, 255))
    yield from (start((0, "flow", 0, 1500), (channel, "flow", 0, 1500)) for channel in (0, 255))
    yield from (start(*[(channel, "plain", 0, 65536) for channel in range(count)]) for count in (0, 65, 80, 81))
    yield from (start(*[(channel, "plain", 0, 1500) for channel in range(count)]) for count in (66, 65))
    yield from (start(memory=0), "show 0", "next 0 3 100", "query 100")
    yield from (start((0, "flow", 4294967295, 1500), memory=1500), "show 0", "query 100")
    yield from (start((0, "plain", 0, 1500), datalink_id=datalink_id) for datalink_id in (0, 255, 256))
    yield from ("query 6", "query 5", "query 4", "query 0")
    most = [(channel, "flow", 4294967295 - channel, 65536) for channel in CHANNELS]
    yield from (start(*most, memory=memory) for memory in (LENGTH_LIMIT - 1, LENGTH_LIMIT + 1, LENGTH_LIMIT))
    first, last = CHANNELS[0], CHANNELS[-1]
    yield from ("query 517", "query 516", offer(last, 1, 2, packet(9000)), f"show {last}", f"show {first}")
    yield from (f"next {last} 1 {ROOMY}", start(*most[:63]), f"show {last}", "query 509")


# ---- Queues and stores at the limits ----


def full_stores():
    """Stores full to the byte, by 1, 3 and 32 packets; the room of a departed packet is used again."""
    yield start((0, "plain", 0, 1500), (3, "flow", 9, 3000), (9, "plain", 0, 48000), (8, "plain", 0, 65536))
    yield radio({0: 1, 3: 1, 9: 1, 8: 1})
    yield from (offer(0, 1, 9, packet(length)) for length in (1500, 40))
    yield from (offer(3, 1, NEVER, packet(length, length)) for length in (1460, 1500, 41, 40, 40))
    yield from ("store 3", f"next 3 2 {ROOMY}", "store 3")
    yield from (offer(3, 2, NEVER, packet(length, 7)) for length in (1461, 1460, 40))
    yield from ("show 3", "store 3", "withdraw 3", "show 3", "store 3")
    yield from (offer(9, 1, NEVER, packet(1500, mark)) for mark in range(33))
    yield from ("show 9", f"next 9 1 {ROOMY}", "store 9")
    yield from (offer(9, 1, NEVER, packet(length, 77)) for length in (1500, 40))
    yield from (offer(8, 1, NEVER, packet(40 + 7 * mark, mark)) for mark in range(33))
    yield from ("show 8", "store 8", "show 0", "store 0")


def lengths_by_store():
    """Packets about 9,000 bytes and about the store's length, where nothing waits and where something does: 14 above
    the smaller of the two, and never 17 for a packet that no empty store would take."""
    for store in (1500, 1501, 8999, 9000, 9001, 65536):
        longest = min(store, ciri.PACKET_LIMIT)
        yield start((0, "plain", 0, 65536), (3, "flow", 9, store))
        yield from (offer(3, 1, NEVER, packet(length, store)) for length in (longest + 1, longest))
        yield from (offer(3, 1, NEVER, packet(length, store)) for length in (longest + 1, longest, 40))
        yield from ("show 3", "withdraw 3", offer(3, 1, NEVER, packet(40, 3)))
        behind = (longest + 1, longest, longest - 39, longest - 40)
        yield from (offer(3, 1, NEVER, packet(length, 5)) for length in behind)
        yield "show 3"
    yield from (offer(3, 1, NEVER, packet(9000, mark)) for mark in range(6))
    yield from (offer(3, 1, NEVER, packet(length, 9)) for length in (2576, 2575, 40, 9001, 9000))
    yield from ("show 3", "store 3", "show 0")


def long_packets():
    """Packets of 9,000 bytes wait, expire, are sent by an output of just enough bytes and under a window."""
    yield start((0, "plain", 0, 9000), (3, "flow", 4294960000, 27000), (7, "flow", 0, 1500))
    yield radio({0: 7, 3: 7, 7: 7}, {3: 1703, 7: 1500})
    yield from (offer(0, 1, 9, packet(9000, 1)), "show 0", "store 0", offer(0, 8, 9, packet(40)))
    yield from (f"next 0 8 {room}" for room in (9011, 9012))
    yield from ("show 0", "store 0", offer(0, 8, 9, packet(9000, 2)), offer(0, 9, 10, packet(8999, 3)), "show 0")
    yield from (offer(3, 1, expiry, packet(9000, expiry)) for expiry in (70, 60, 80))
    yield from (offer(3, 1, 80, packet(40)), f"next 3 2 {ROOMY}", "show 3", radio({0: 7, 3: 7, 7: 7}, {3: 1704}))
    yield from (*(f"next 3 2 {room}" for room in (9019, 9020)), "show 3", f"next 3 2 {ROOMY}", "query 100")
    yield from (radio({0: 7, 3: 7}), offer(3, 60, 80, packet(9000, 4)), "show 3", "store 3")
    yield from (offer(7, 1, 9, packet(1501)), offer(7, 1, 9, packet(9000)), offer(7, 1, 9, packet(1500, 7)), "show 7")
    yield from (f"next 3 60 {ROOMY}", f"next 7 1 {ROOMY}", "kept", "withdraw 3", "show 3", "query 100")


def expiries():
    """Packets expire at their time wherever they wait; 17 and 18 are judged after that and expire nothing."""
    yield start((0, "plain", 0, 1500), (4, "plain", 0, 1500))
    yield radio({0: 7, 4: 7})
    waiting = ((400, 50), (700, 10), (300, 50), (100, 11))
    yield from (offer(0, 1, expiry, packet(length, expiry)) for length, expiry in waiting)
    yield from (offer(0, 10, 60, packet(701)), "show 0", offer(0, 10, 60, packet(700)), "show 0", "store 0")
    yield from ("next 0 11 411", "show 0", "next 0 11 412", "show 0", "store 0")
    yield from (offer(4, 1, 5 if mark % 3 == 1 else 90, packet(40, mark)) for mark in range(32))
    yield from (offer(4, time, 91, packet(40, 99)) for time in (4, 5))
    yield from ("show 4", "next 4 5 51", "show 4", "next 4 90 0", "show 4", "next 4 91 0", "show 4", "store 4")


def many_expire():
    """Thirty of 32 packets expire together, by an Offer, where the first lasts, and by a Next, where it does not."""
    yield start((0, "plain", 0, 3000), (2, "plain", 0, 3000))
    yield radio({0: 7, 2: 7})
    for channel, lasting in ((0, (0, 20)), (2, (7, 31))):
        yield from (offer(channel, 1, NEVER if mark in lasting else 50, packet(40 + 3 * mark, mark))
                    for mark in range(32))
    yield from ("store 0", offer(0, 50, NEVER, packet(1500, 99)), "show 0", "store 0")
    yield from ("store 2", f"next 2 50 {ROOMY}", "show 2", "store 2", f"next 2 50 {ROOMY}", "store 2")


def times():
    """The least and the greatest time; the latest time is each channel's own."""
    yield start((0, "plain", 0, 1500), (5, "plain", 0, 1500))
    yield from (offer(0, 0, expiry, packet(40)) for expiry in (0, 1, TIME_LIMIT))
    yield from ("next 0 0 0", "next 0 1 0", "show 0", "next 0 0 0")
    for time in (TIME_LIMIT - 1, TIME_LIMIT, TIME_LIMIT + 1):
        yield from (offer(0, time, expiry, packet(40)) for expiry in (TIME_LIMIT - 1, TIME_LIMIT, TIME_LIMIT + 1))
        yield from ("show 0", f"next 0 {time} 0", "show 0")
    yield from ("next 0 0 0", offer(0, TIME_LIMIT - 1, TIME_LIMIT, packet(40)), offer(5, 0, 1, packet(40)), "show 5")


def orders():
    """Of two faults the one that is tested first is given."""
    yield start((0, "plain", 0, 1500), (6, "flow", 0, 1500))
    yield radio({0: 7, 6: 7})
    yield from (offer(0, 5, 9, packet(1500)), offer(7, 4, 4, packet(39)), offer(0, 4, 4, packet(39)))
    yield from (offer(0, 4, 4, b"\x50" + packet(length)[1:]) for length in (1501, 9001))
    yield from (offer(0, 4, 4, packet(length) + b"\0") for length in (1500, 9000))
    yield from (offer(0, 4, 4, packet(length)) for length in (9001, 9000, 1501, 1500))
    yield from (offer(0, 5, 5, packet(length)) for length in (9001, 1501, 1500))
    yield from (offer(0, 5, 9, packet(1500)), "next 7 0 0", "next 0 4 0", "next 0 5 0")
    yield from ("withdraw 7", "show 255", "store 7", "show 0", f"next 0 5 {ROOMY}", "next 0 4 0", "next 0 5 0")


# ---- Radio messages ----


def contexts():
    """Due at the first Context and at each that differs in length or bytes."""
    yield start((0, "plain", 0, 1500))
    given = (None, b"\0", b"\0", None, b"\0", b"\0\0", b"\0", b"\1", b"eightlng", b"eightlnh", b"eightln", b"\0")
    for context in given:
        yield radio({0: 7}, context=context, link_instance=ciri.LinkInstance(8, 2**64 - 1) if context else None)
    message = radio({0: 3, 254: 3}, {4: 4}, context=b"\2")
    yield from (message + "00", message.replace("radio 0 1001000107", "radio 0 1001000108"), "show 0", message, message)
    yield from ("radio 0 18010001078000020102", "show 0", "radio 0 -", "radio 0 20", "radio 0 10", "radio 0 1001000107")


def gaps():
    """After a control message without a Context any is due, and once; data and refused messages are no gap."""
    yield start((0, "plain", 0, 1500))
    no_gap = (f"radio 0 1801000107{PACKET}", "kept", radio({0: 7}) + "00", "kept")
    yield from (radio({0: 7}, context=b"A"), "kept", radio({0: 7}), "kept", *no_gap)
    yield from (radio({0: 7}, context=b"A"), "kept", radio({0: 7}, context=b"A"), "kept", *no_gap)
    yield from (radio({0: 7}, context=b"A"), "kept", radio({0: 7}), radio({0: 7}), "kept")
    yield from (radio({0: 7}, context=b"B"), "kept", radio({0: 7}, context=b"B"), radio({0: 7}, context=b"A"), "kept")


def long_messages():
    """The longest datagram with its channels named behind a skipped option, and one byte more."""
    yield start((254, "flow", 0, 1500), (0, "plain", 0, 1500))
    named = "0500020003" + "050002fe07" + "060005fe00000400"
    for length in (65507, 65508):
        skipped = length - 5 - 3 - len(named) // 2
        yield from (f"radio 0 1001000107c8{skipped:04x}{'5a' * skipped}{named}", "show 0", "show 254")


def many_channels(channels, turns):
    """Channels in shuffled order: each has its own store, its own status, its own window."""
    kinds = ["plain" if place % 5 == 4 else "flow" for place in range(len(channels))]
    places = enumerate(channels)
    yield start(*[(channel, kinds[place], 4294967295 - 7 * place, 1500 + place) for place, channel in places])
    room = 5 + 8 * kinds.count("flow")
    for turn in range(turns):
        yield radio({channel: (3 * channel + turn) % 9 for channel in channels if channel % 7 != turn + 1},
                    {channel: 100 * turn + channel for channel in channels if channel % 4 != turn})
        for channel in channels:
            yield from (offer(channel, turn, NEVER, packet(40 + channel % 9, channel + turn)), f"show {channel}")
            yield from (f"next {channel} {turn} {ROOMY}", f"show {channel}", f"query {room - turn}")
    yield from (f"store {channel}" for channel in channels)


def limit_lines():
    """All of them."""
    yield from start_limits()
    yield from full_stores()
    yield from lengths_by_store()
    yield from long_packets()
    yield from expiries()
    yield from many_expire()
    yield from times()
    yield from orders()
    yield from contexts()
    yield from gaps()
    yield from long_messages()
    yield from many_channels(CHANNELS[32:48], 2)
    yield from many_channels((*CHANNELS[1:40], 0), 2)
    yield from many_channels(CHANNELS, 1)
