"""The stored script's lines about statuses 8 to 15 that are operational by configuration."""

from call_lines import DATALINK_ID, NEVER, ROOMY, offer, packet, radio, start

# No setting said, none set, each bit alone, all but one, every other, all.
SETTINGS = (None, 0, *(1 << bit for bit in range(8)), 0x7F, 0xFE, 0x55, 0xAA, 0xFF)
# Each channel has its own number as its status; the last one is not reported.
CHANNELS = tuple(range(17))
STATUSES = {channel: channel for channel in CHANNELS[:16]}
PLAIN = (0, "plain", 0, 1500)


def every_status():
    """Every status and one not reported, under each setting."""
    for codes in SETTINGS:
        yield start(*[(channel, "plain", 0, 1500) for channel in CHANNELS], codes=codes)
        yield from (offer(channel, 1, 9, packet(40, channel)) for channel in CHANNELS)
        yield radio(STATUSES)
        yield from (f"next {channel} 1 {ROOMY}" for channel in CHANNELS)


def shown_and_read():
    """A status is read and shown as it was, whatever the setting; unused bits count for nothing."""
    message = f"10010001{DATALINK_ID:02x}05000200f90500020308"
    for codes in (None, 1, 2, 255):
        yield from (start(PLAIN, (3, "plain", 0, 1500), codes=codes), offer(0, 1, 9, packet(40)), offer(3, 1, 9, packet(41)))
        yield from (f"read radio {DATALINK_ID} {message}", f"radio 0 {message}", "show 0", "show 3", "query 100")
        yield from (f"next 0 1 {ROOMY}", f"next 3 1 {ROOMY}", "show 0", "show 3")


def before_and_behind():
    """Nothing waiting comes before the status, and the window behind it; 18 only where there is a message."""
    flow = (3, "flow", 100, 1500)
    for codes in (0, 2, 253, 255):
        yield from (start(PLAIN, flow, codes=codes), radio({0: 9, 3: 9}, {3: 139}), "next 0 1 0", "next 3 1 0")
        yield from (offer(0, 2, 9, packet(40)), offer(3, 2, 9, packet(40, 3)), "next 0 2 0", "next 3 2 0", "show 3")
        yield from (radio({0: 9, 3: 9}, {3: 140}), "next 3 2 59", f"next 3 2 {ROOMY}", "show 3", "query 100")
        yield from (offer(3, 2, 9, packet(40, 5)), radio({0: 10, 3: 9}, {3: None}), "next 0 2 51", "next 3 2 52")
        yield from (radio({0: 9, 3: 9}), "next 0 2 52", f"next 3 2 {ROOMY}", "show 0", "show 3")


def settings_of_starts():
    """The setting is the last accepted start's, and stays through every call; one said by a refused start isn't."""
    opened = (radio({0: 9}, time=5), offer(0, 1, NEVER, packet(40)), f"next 0 1 {ROOMY}", offer(0, 1, NEVER, packet(41)))
    yield from (start(PLAIN, codes=2), *opened, f"next 0 1 {ROOMY}")
    yield from (start((0, "plain", 0, 1499), codes=0), start(PLAIN, memory=1499, codes=0), start(PLAIN, pace=(0, 1), codes=0))
    yield from (start(PLAIN, codes=256), "start 7 1 0 plain 0 1500 codes 0 pace 1 1", *opened)
    yield from ("withdraw 0", "query 100", "kept", "pace 9005", radio({0: 8}, time=9006), *opened[1:], "next 0 1 52")
    yield from (radio({0: 9}, time=9007), "next 0 1 52", start(PLAIN), *opened, start(PLAIN, codes=253), *opened)
    yield from (start(PLAIN, memory=1500, codes=2), *opened, start(PLAIN, memory=1500, pace=(1, 9), codes=2), *opened)
    yield from (start(PLAIN, pace=(1, 9), codes=2), *opened, start(PLAIN, pace=(0, 9), codes=255), "next 0 1 52", "show 0")
    yield from (start((1, "plain", 0, 1500), pace=(0, 9), codes=255), start(PLAIN, memory=1, pace=(0, 9), codes=255))


def silences():
    """Under any setting a channel that fell silent isn't operational, and 0 isn't."""
    for codes in (0, 1, 2, 255):
        yield from (start(PLAIN, (3, "flow", 0, 1500), pace=(50, 50), codes=codes), offer(0, 1, 9, packet(40)))
        yield from (offer(3, 1, 9, packet(40)), "next 0 1 0", "next 3 1 0", radio({0: 8, 3: 9}), "next 0 1 0", "next 3 1 0")
        yield from ("pace 50", "next 0 1 0", "next 3 1 0", "show 0", "show 3", radio({0: 0, 3: 9}, {3: 40}, time=50))
        yield from ("next 0 1 0", "next 3 1 0", f"next 3 1 {ROOMY}", radio({0: 9}, time=50), "next 0 1 0")


def code_lines():
    """All of them."""
    yield from every_status()
    yield from shown_and_read()
    yield from before_and_behind()
    yield from settings_of_starts()
    yield from silences()
