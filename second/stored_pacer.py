"""The stored script's lines about the pacer: its two waits, its clock, and what a silence ends."""

import ciri
from call_lines import NEVER, ROOMY, offer, packet, radio, radio_data, start
from session import LENGTH_LIMIT, TIME_LIMIT

PLAIN = (0, "plain", 0, 1500)
HALF = 2**63
TOO_LONG = "00" * (ciri.DATAGRAM_LIMIT + 1)
# Radio messages that are refused, by numbers 2 to 9 and 11.
REFUSED = (
    "2001000107", "100100010705", "100100010705000100", "1001000107050002ff07", "10010001078600050000000001",
    "100100010705000200070500020007", "18010001078000010181000100", "1001000107", "10010001080500020007",
)
# Channels of each kind, some of them with a window, free, or without one by the message below.
CHANNELS = ((4, "flow", 4294967000, 1500), (0, "plain", 9, 1600), (5, "flow", 70, 1700), (6, "flow", 80, 1800),
            (7, "plain", 0, 1500))
IDS = tuple(channel[0] for channel in CHANNELS)
OPENED = {channel: 1 + channel for channel in IDS}, {4: 500, 6: None, 7: 9}


def ask(*times):
    """The pacer asked at each time, and shown behind it."""
    for time in times:
        yield from (f"pace {time}", "pacer")


def shows(channels=IDS):
    """Each channel shown."""
    return [f"show {channel}" for channel in channels]


# ---- Configuration ----


def waits():
    """22 at each wait of 0, and not next to it; it leaves the state before. Where a start says no waits: 5000 and 9000."""
    yield from (start(PLAIN, pace=(7, 100)), "pace 6", "pace 7", "pacer")
    for pace in ((0, 9000), (5000, 0), (0, 0), (0, TIME_LIMIT), (TIME_LIMIT, 0), (TIME_LIMIT + 1, 1), (1, TIME_LIMIT + 1)):
        yield from (start(PLAIN, pace=pace), start(PLAIN, memory=1500, pace=pace), "pacer")
    yield from ("pace 13", "pace 14", "pace 99", "pace 100", "pacer")
    for pace in ((1, 1), (1, TIME_LIMIT), (TIME_LIMIT, 1), (TIME_LIMIT, TIME_LIMIT)):
        yield from (start(PLAIN, memory=1500, pace=pace), *ask(0, 1, 2, TIME_LIMIT - 1, TIME_LIMIT, TIME_LIMIT))
    yield from (start(PLAIN), *ask(4999, 5000, 8999, 9000, 9999, 10000))
    yield from (start(PLAIN, memory=1500), *ask(5000, 9000))


def starts_refused_twice():
    """19 before 22: each fault of a configuration with a wait of 0, the memory's length too."""
    stores = ((0, "plain", 0, store) for store in (0, 1499, 65537))
    faulty = [(), ((1, "flow", 0, 1500),), (PLAIN, PLAIN), (PLAIN, (255, "flow", 0, 1500)), *((one,) for one in stores)]
    faulty += [[(channel, "plain", 0, 1500) for channel in range(count)] for count in (65, 80)]
    for pace in ((0, 9000), (5000, 0), (0, 0)):
        yield from (start(*channels, pace=pace) for channels in faulty)
        yield from (start(PLAIN, memory=memory, pace=pace) for memory in (0, 1499, 1501, LENGTH_LIMIT))
        yield start(*[(channel, "plain", 0, 1500) for channel in range(64)], pace=pace)
    yield "pacer"


# ---- Due and silent ----


def due_queries():
    """Due at HelloTime or more since the last due one, which is the time asked; both waits run from 0 first."""
    yield from (start(PLAIN, pace=(10, 1000)), *ask(0, 9, 10, 10, 19, 20, 37, 40, 46, 47, 56, 1000, 1009, 1010))
    yield from (start(PLAIN, pace=(1, 3)), *ask(0, 1, 1, 2, 3, 3, 9))
    yield from (start(PLAIN, pace=(10, 1000)), radio({0: 7}, time=50), *ask(50, 59, 60), radio_data(95), *ask(95))
    yield from (radio({0: 7}, time=104), "query 100", "pacer", *ask(104, 105, 1103, 1104))


def due_and_silent():
    """Both waits over at once, either alone, and neither; a silence goes on at every ask."""
    yield from (start(PLAIN, pace=(100, 100)), radio({0: 7}), *ask(99, 100, 101, 199, 200, 200))
    yield from (start(PLAIN, pace=(100, 30)), radio({0: 7}, time=7), *ask(36), "show 0", *ask(37), "show 0")
    yield from (*ask(38, 99, 100, 101), radio({0: 7}, time=150), *ask(179, 180, 200), "show 0")
    yield from (start(PLAIN, pace=(30, 100)), *ask(29, 30, 60, 99, 100, 130), radio({0: 5}, time=130))
    yield from (*ask(130, 160, 229), "show 0", *ask(230), "show 0")


def greatest_times():
    """Times up to 2^64 - 1; a wait that would end beyond it isn't over, and doesn't begin at 0 again."""
    for pace in ((HALF, TIME_LIMIT), (TIME_LIMIT, HALF), (HALF, HALF), (TIME_LIMIT, TIME_LIMIT)):
        yield from (start(PLAIN, pace=pace), *ask(0, HALF - 1, HALF, HALF + 1, TIME_LIMIT - 1, TIME_LIMIT, TIME_LIMIT))
        yield from (start(PLAIN, pace=pace), radio({0: 7}, time=HALF), *ask(HALF), "show 0", *ask(TIME_LIMIT), "show 0")
    for pace in ((1, 1), (2, 2), (TIME_LIMIT, 1), (1, TIME_LIMIT)):
        yield from (start(PLAIN, pace=pace), radio({0: 7}, time=TIME_LIMIT - 2), *ask(TIME_LIMIT - 2, TIME_LIMIT - 1))
        yield from ("show 0", radio({0: 6}, time=TIME_LIMIT - 1), *ask(TIME_LIMIT - 1), "show 0", *ask(TIME_LIMIT))
        yield from ("show 0", radio({0: 5}, time=TIME_LIMIT), *ask(TIME_LIMIT), "show 0", *ask(TIME_LIMIT + 1))
        yield from ("pace 0", radio({0: 4}, time=TIME_LIMIT - 1), radio_data(0), *ask(TIME_LIMIT), "show 0")


# ---- The clock ----


def clock():
    """21 just before the clock and never at it, be it moved by an ask, a control message or a data message."""
    yield from (start(PLAIN, pace=(10, 1000)), *ask(0))
    for moved in ("pace 50", radio({0: 7}, time=100), radio_data(150), radio({0: 6}, time=150), radio_data(150)):
        yield moved
        now = int(moved.split(" ")[1])
        yield from ("pacer", f"pace {now - 1}", radio({0: 3}, time=now - 1), radio_data(now - 1), "pacer", "show 0")
        yield from ("pace 0", radio({0: 3}), radio_data(0), f"pace {now}", "pacer", "show 0")
    yield from (radio({0: 5}, time=150), radio_data(151), "pace 150", "pace 151", "pacer", "show 0")
    yield from (start(PLAIN), "pacer", radio({0: 7}), "pacer", start((0, "plain", 0, 1499)), "pacer", "pace 0")


def refused_messages():
    """A refused message moves no time, and 21 is given before any number of reading."""
    yield from (start(PLAIN, pace=(10, 100)), radio({0: 7}, time=20), "pacer")
    yield from (f"radio 19 {TOO_LONG}", f"radio 30 {TOO_LONG}", "pacer")
    for place, message in enumerate(REFUSED):
        yield from (f"radio {30 + place} {message}", "pacer", f"radio 19 {message}", f"radio 20 {message}", "pacer")
    yield from ("radio 19 -", "radio 20 -", "pacer", "show 0", *ask(20, 119, 120), "show 0")
    for message in REFUSED:
        yield from (f"radio 119 {message}", f"radio 130 {message}", "pacer", "show 0")


def data_messages():
    """A data message moves the clock, and neither ends a silence nor puts it off."""
    yield from (start(PLAIN, (3, "flow", 5, 1500), pace=(50, 100)), radio_data(10), "pacer", "show 0", "show 3")
    yield from (radio({0: 7, 3: 7}, {3: 900}, b"ctx", time=20), radio_data(70), "pacer", "show 0", "show 3", *ask(119))
    yield from (radio_data(119), *ask(119), "show 3", radio_data(120), "pacer", "show 0", "show 3", "kept", *ask(120))
    yield from ("show 0", "show 3", radio_data(125), "show 0", "show 3", "pacer", *ask(126), "kept")
    yield from (radio_data(500), "pacer", radio({0: 7, 3: 7}, {3: 900}, b"ctx", time=500), "pacer", *ask(599, 600))


def own_clocks():
    """A channel's time and the pacer's have nothing to do with each other; Query and the other calls move no pacer."""
    yield from (start(PLAIN, pace=(10, 1000)), radio({0: 7}, time=600), "pace 700", "pacer", "show 0")
    yield from (offer(0, 5, NEVER, packet(40)), offer(0, 4, NEVER, packet(40)), f"next 0 6 {ROOMY}", "next 0 5 0", "pacer")
    yield from (offer(0, 90000, NEVER, packet(40)), "withdraw 0", "query 100", "query 0", "pacer", "pace 709", "pace 710")
    yield from ("show 0", "pace 699", "next 0 89999 0", "next 0 90000 0", "pace 1599", "query 100", "show 0", "pace 1600")
    yield from ("show 0", "next 0 89999 0", offer(0, 90000, NEVER, packet(40)), "next 0 90000 0", "pacer", "show 0")


# ---- What a silence ends ----


def silences():
    """Every channel is not reported, every flow-controlled one has no window, free or not; all else stays."""
    yield from (start(*CHANNELS, pace=(1000, 500)), *(offer(channel, 30 + channel, NEVER, packet(40 + channel, channel))
                for channel in IDS for _ in range(2)))
    yield radio(*OPENED, b"ctx", ciri.LinkInstance(2, 77), time=100)
    yield from (*shows(), *(f"next {channel} 60 {ROOMY}" for channel in IDS), *shows(), "pace 599", *shows())
    yield from ("pace 600", *shows(), "kept", "pacer", "query 100", *(f"store {channel}" for channel in IDS))
    yield from (*(f"next {channel} 61 {ROOMY}" for channel in IDS), "pace 600", "pace 1000", *shows(), "kept")
    yield from (offer(0, 62, NEVER, packet(60, 1)), offer(4, 62, 70, packet(61, 2)), "withdraw 5", "query 100", *shows())
    yield from ("pace 1001", *shows(), *(f"store {channel}" for channel in IDS), "next 4 70 0", "show 4", "store 4")
    yield from (radio(*OPENED, b"ctx", time=1100), *shows(), "kept", "pace 1100", *shows())
    yield from (f"next {channel} 80 {ROOMY}" for channel in IDS)
    yield from ("query 100", *shows(), "pace 1599", *shows(), "pace 1600", *shows())


def after_a_silence():
    """The next control message says all anew: named or not, with a window or not; a silence is no gap."""
    flow = (3, "flow", 100, 1500)
    messages = (({0: 7}, {}), ({0: 7}, {3: 900}), ({0: 7, 3: 7}, {3: None}), ({0: 7, 3: 7}, {3: 139}), ({0: 7, 3: 7}, {3: 140}),
                ({0: 7, 3: 7}, {}), ({0: 7, 3: 8}, {}), ({0: 0, 3: 0}, {3: 900}))
    for statuses, windows in messages:
        yield from (start(PLAIN, flow, pace=(1000, 50)), offer(3, 1, NEVER, packet(40, 3)), offer(0, 1, NEVER, packet(41)))
        yield from (radio({0: 7, 3: 7}, {3: 800}, b"A", time=10), "pace 60", *shows((0, 3)))
        yield from (radio(statuses, windows, b"A", time=61), *shows((0, 3)), f"next 0 2 {ROOMY}", f"next 3 2 {ROOMY}")
        yield from (*shows((0, 3)), "kept")
    yield from (radio({0: 7}, time=62), "pace 112", "kept", radio({0: 7}, context=b"A", time=113), "kept")
    yield from ("pace 163", radio({0: 7}, context=b"A", time=163), "pace 213", radio({0: 7}, context=b"B", time=213))


def messages_after_the_limit():
    """A radio message tests no silence: one that comes after the limit is heard, and the next ask isn't silent."""
    yield from (start(PLAIN, (3, "flow", 100, 1500), pace=(1000, 50)), radio({0: 7, 3: 7}, {3: 800}, time=10))
    yield from (radio_data(60), *shows((0, 3)), radio({0: 6, 3: 5}, {3: 700}, time=60), *shows((0, 3)), "pacer")
    yield from ("pace 60", radio({0: 5}, time=999), *shows((0, 3)), "pace 999", "pace 1048", *shows((0, 3)), "pace 1049")
    yield from (*shows((0, 3)), radio({0: 5, 3: 1}, time=5000), "pace 5049", *shows((0, 3)), "pace 5050", *shows((0, 3)))


def most_channels():
    """All of 64 channels fall silent."""
    channels = tuple((44 * place + 25) % 255 for place in range(64))
    yield start(*[(channel, "plain" if channel % 3 == 0 else "flow", channel, 1500) for channel in channels], pace=(9, 9))
    yield radio({channel: 1 + channel % 15 for channel in channels}, {channel: channel for channel in channels if channel % 2})
    yield from ("pace 8", *shows(channels), "pace 9", *shows(channels))


def pacer_lines():
    """All of them."""
    yield from waits()
    yield from starts_refused_twice()
    yield from due_queries()
    yield from due_and_silent()
    yield from greatest_times()
    yield from clock()
    yield from refused_messages()
    yield from data_messages()
    yield from own_clocks()
    yield from silences()
    yield from after_a_silence()
    yield from messages_after_the_limit()
    yield from most_channels()
