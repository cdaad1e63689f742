"""The stored station script's lines about what the radio tells of itself: status, Context, bytes queued, Link Instance."""

from station_lines import ROOMY, message_length, packet, query, start
from stored_station_starts import FLOW, PLAIN

THREE = (PLAIN, FLOW, (9, "flow", 7, 7))
SHOWN = ("show 0", "show 3", "show 9")
TOLD = f"tell {ROOMY}"


def statuses():
    """Every status, told where it differs and else not; every channel is named, and no status goes to another."""
    yield from (start(*THREE), *(f"status {channel} 0 0" for channel in (0, 3, 9)), query({3: 50}))
    for status in range(16):
        yield from (f"status 3 {status} {ROOMY}", f"status 3 {status} 0", "show 3")
    yield from (f"status {channel} {status} {ROOMY}" for channel in (0, 9, 3) for status in (1, 15, 15, 8, 0))
    yield from (f"status {channel} 7 {ROOMY}" for channel in (0, 9))
    yield from (*SHOWN, f"status 3 0 {ROOMY}", f"status 3 0 {ROOMY}", *SHOWN, TOLD)


def status_faults():
    """12 before 20, 20 before 18; 18 at a byte too few and only where the status differs; nothing is set then."""
    yield from (start(*THREE), query({3: 50}), f"status 3 5 {ROOMY}")
    yield from (f"status {channel} {status} {room}"
                for channel in (1, 254, 255) for status in (5, 16, 255) for room in (0, ROOMY))
    yield from (f"status 3 {status} {room}" for status in (16, 17, 21, 255) for room in (0, ROOMY))
    length = message_length(1, 2, 1)
    yield from (*SHOWN, f"status 3 6 {length - 1}", "status 3 6 0", "status 3 5 0", "show 3", f"status 3 6 {length}", "show 3")
    yield from ("status 9 2 5", f"status 0 1 {length - 1}", f"status 0 1 {length}", f"status 0 1 {length - 1}", *SHOWN, TOLD)


def contexts():
    """Contexts of every length, added, equal, changed in a byte or in length, removed, removed again."""
    yield from (start(*THREE), "context - 0", TOLD)
    eight = "0102030405060708"
    for length in range(1, 9):
        yield from (f"context {eight[: 2 * length]} {room}" for room in (ROOMY, 0))
        yield f"tell {message_length(1, 2, 2, 0, length)}"
    short = ("-", "-", "00", "0000", "00", "01", "01", "-", "ff", "00ff", "ff00", "ff")
    yield from (f"context {change} {ROOMY}" for change in (*short, "ff" * 8, "ff" * 7 + "fe", "00" * 8, "-"))
    yield TOLD


def context_faults():
    """20 over 8 bytes, before 18; 18 at a byte too few and only where the Context differs; nothing is set then."""
    yield from (start(*THREE), query({9: 1}), f"context 0102 {ROOMY}")
    yield from (f"context {'01' * length} {room}" for length in (9, 10, 16, 255, 256, 264) for room in (0, ROOMY))
    without = message_length(1, 2, 1)
    yield from (TOLD, f"context 0103 {without + 4}", "context 0102 0", TOLD, f"context 0103 {without + 5}")
    yield from (f"context {'05' * 8} {without + 10}", TOLD, f"context {'05' * 8} {without + 11}", f"context 05 {without + 3}")
    yield from (f"context - {without - 1}", TOLD, f"context - {without}", "context - 0", f"context 05 {without + 3}", TOLD)
    yield from (f"context 05 {without + 4}", TOLD)


def queues():
    """Bytes queued are kept where they change no window too: before a sequence, above the sum, on a plain channel; and
    told where they do."""
    yield from (start(*THREE), "queued 3 60 0", "queued 3 60 0", "queued 0 12 0", "queued 0 18446744073709551615 0", *SHOWN)
    yield from (query({3: 50}), "show 3", "queued 3 60 0", f"queued 3 61 {ROOMY}", "queued 3 61 0")
    yield from (f"queued 3 0 {ROOMY}", "show 3")
    yield from (f"queued 3 150 {ROOMY}", "queued 3 151 0", "queued 3 18446744073709551615 0", "show 3", f"queued 3 149 {ROOMY}")
    yield from ("queued 9 3 0", "show 9", query({9: 4294967290}), f"queued 9 0 {ROOMY}", f"queued 9 14 {ROOMY}", *SHOWN)
    yield from (packet(9, 1), packet(9, 1, 4294967291), packet(9, 5, 0), f"queued 9 13 {ROOMY}", *SHOWN, TOLD)


def queue_faults():
    """12 before 18; 18 at a byte too few and only where a window differs; the number isn't kept then."""
    yield from (start(*THREE), query({3: 50}))
    yield from (f"queued {channel} {queued} {room}"
                for channel in (1, 254, 255) for queued in (0, 7, 2**64 - 1) for room in (0, ROOMY))
    length = message_length(1, 2, 1)
    yield from (f"queued 3 7 {length - 1}", "queued 3 7 0", "show 3", f"queued 3 7 {length}", "show 3", "queued 3 7 0")
    yield from ("queued 3 1000 0", "show 3", f"queued 3 1000 {length}", "queued 3 1001 0", "show 3")
    yield from ("queued 3 8 0", "show 3", TOLD)
    yield from ("queued 0 9 0", "queued 9 9 0", *SHOWN)


def links():
    """Link Instances of every length with the numbers at its limits; kept without a message, told with the next one."""
    yield from (start(*THREE), TOLD)
    for length in (0, 1, 2, 3, 4, 5, 6, 7, 8, 9, 16, 254, 255):
        most = min(256**length - 1, 2**64 - 1)
        numbers = sorted({0, 1, most, min(most + 1, 2**64 - 1), 2**64 - 1})
        yield from (line for number in numbers for line in (f"link {length} {number}", TOLD))
    yield from ("status 3 0 0", "context - 0", "queued 3 0 0", f"status 3 1 {ROOMY}", "link 1 9")
    yield from (f"context 44 {ROOMY}", "link 2 9", "context 44 0", "status 3 1 0", query({3: 6}))
    yield from (f"queued 3 3 {ROOMY}", "link 3 9", packet(3, 1), packet(3, 1, 7), TOLD)
    yield from (f"context - {ROOMY}", "link 3 9", TOLD, *SHOWN)


def told():
    """`tell` with each number of options: exactly enough and one byte less; it changes nothing, nor does `show`."""
    yield start(*THREE)
    parts = ((), (query({3: 1}),), (query({9: 4294967295}),), ("link 1 0",), (f"context 00 {ROOMY}",), ("link 8 5",),
             (f"context {'07' * 8} {ROOMY}",))
    lengths = (message_length(1, 2, 2), message_length(1, 2, 1), message_length(1, 2), message_length(1, 2, 0, 1),
               message_length(1, 2, 0, 1, 1), message_length(1, 2, 0, 8, 1), message_length(1, 2, 0, 8, 8))
    for part, length in zip(parts, lengths, strict=True):
        yield from (*part, f"tell {length - 1}", f"tell {length}", f"tell {length + 1}", "tell 0", *SHOWN, f"tell {length}")
    yield from (f"show {channel}" for channel in (1, 2, 4, 8, 10, 254, 255))
    yield from (start((0, "plain", 1, 1)), "tell 9", "tell 10", "show 0", "show 3")
    yield from (start((0, "flow", 1, 1)), "tell 13", "tell 14", query({0: 0}, room=17), query({0: 0}, room=18))
    yield from ("show 0", "tell 18")


def telling_lines():
    """All of them."""
    yield from statuses()
    yield from status_faults()
    yield from contexts()
    yield from context_faults()
    yield from queues()
    yield from queue_faults()
    yield from links()
    yield from told()
