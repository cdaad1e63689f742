"""The stored script's lines for document 01's examples, as calls."""

import ciri
from call_lines import NEVER, ROOMY, handful, offer, packet, radio, radio_options, start

LONGEST_PACKET = ciri.IPV6_HEADER_LENGTH + 65535
# Sequence, window and the packets tried: document 01's starred examples, then some at the count's limits.
COUNTING = (
    (4294967000, 500, (797, 796, 40)), (100, 100, (40,)), (100, 99, (40,)), (100, 2147483748, (40, 1500)),
    (100, 2147483747, (40, 1500)), (4294967295, 39, (41, 40)), (0, 4294967295, (40,)), (0, 2147483648, (40,)),
)
# Flow Window options of channel 2: window 0000FFFF in force before each of the others, and none at all.
WINDOW = "060005020000ffff"
WINDOWS = (WINDOW, "06000102", WINDOW, "", WINDOW, "0600050200000000", "060001ff")


def before_start():
    """Before a state is started, lines that ask for one are bad; a refused start starts none."""
    asked = [offer(0, 0, 1, packet(40)), "next 0 0 100", "withdraw 0", radio({0: 7}), "query 100"]
    asked += ["show 0", "store 0", "kept", "pace 0", "pacer"]
    asked += [handful(0), handful(0, (0, 1, packet(40)))]
    yield from asked
    yield from (start(), start((0, "plain", 0, 1499)), "start 7 1 0 plain 0")
    yield from asked


def packet_examples():
    """Packets of 39 and 40 bytes, 9,000 and 9,001; the 32nd and 33rd waiting; expiry equal to the time."""
    yield start((0, "plain", 0, 65536), (2, "flow", 0, 1500))
    lengths = (0, 1, 39, 40, 41, 1500, 1501, 8999, 9000, 9001, LONGEST_PACKET)
    yield from (offer(0, 5, 6, packet(length, length)) for length in lengths)
    yield from ("show 0", "store 0", "withdraw 0")
    yield from (offer(0, 5, expiry, packet(40)) for expiry in (5, 4, 0, 6))
    yield from (offer(2, 7, NEVER, packet(40, mark)) for mark in range(33))
    yield from ("show 2", "store 2", "next 0 6 100", "show 0")


def counting_examples():
    """Each starred example on counting: the window comes, packets of these lengths are tried, one after another."""
    for sequence, window, lengths in COUNTING:
        yield start((0, "plain", 0, 1500), (2, "flow", sequence, 1500))
        yield radio({0: 7, 2: 7}, {2: window})
        for length in lengths:
            yield from (offer(2, 1, 9, packet(length)), f"next 2 1 {ROOMY}", "show 2", "withdraw 2", "query 100")


def message_examples():
    """Each starred example on messages, with what the channels then do."""
    yield start((0, "plain", 0, 1500), (2, "flow", 4294967000, 1500), (3, "plain", 0, 1500))
    yield from (offer(channel, 1, 9, packet(40, channel)) for channel in (0, 2, 3))
    yield from [*radio_options("05000200f7"), "show 0", "next 0 1 52"]
    yield from [*radio_options("05000200070500020308"), "show 3", "next 3 1 52", "show 0"]
    for window in WINDOWS:
        yield from [*radio_options("05000200070500020207" + window), "show 2", "next 2 1 60", "show 2"]
        yield offer(2, 1, 9, packet(40, 5))


def example_lines():
    """All of them."""
    yield from before_start()
    yield from packet_examples()
    yield from counting_examples()
    yield from message_examples()
