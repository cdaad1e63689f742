"""The stored station script's lines about starts, and those that break the format."""

from session import LINE_LIMIT
from station_lines import ROOMY, packet, query, start

MOST = 2**31 - 1
# Numbers about the limits of watermark and throughput.
ALLOWANCES = (0, 1, MOST - 1, MOST, MOST + 1, 2**32 - 1, 2**32, 2**63, 2**64 - 1, 2**64)
# Sixty-four Channel IDs in no order: 254 is the twelfth, 0 the forty-first.
CHANNELS = tuple((44 * place + 25) % 255 for place in range(64))
PLAIN = (0, "plain", 10, 20)
FLOW = (3, "flow", 100, 50)
# Something in each part of a state, so that a start that is refused can be seen to leave it.
STOCKED = (
    start(PLAIN, FLOW), f"status 3 5 {ROOMY}", f"context aa00 {ROOMY}", "link 2 300", query({3: 4294967290}),
    packet(0, 11), packet(3, 12),
)
STANDING = ("show 0", "show 3", f"tell {ROOMY}")

# ---- Starts ----


def before_a_start():
    """Every line that asks for a state, before there is one; a refused start makes none."""
    lines = ("hear 100 1001000107", "status 0 0 100", "context - 100", "queued 0 0 100", "link 1 1", "tell 100", "show 0")
    yield from (*lines, "start 7 0", *lines, start((0, "plain", MOST + 1, 0)), *lines, "stop", "")


def counts():
    """Sixty-four channels and no more; a bad line above 80."""
    yield from STOCKED
    for count in (0, 65, 66, 80, 81):
        yield start(*[(channel, "flow", 1, 1) for channel in range(count)])
    yield from STANDING
    for count in (1, 63, 64):
        yield from (start(*[(channel, "flow", 1, 1) for channel in range(count)]), f"show {count - 1}", f"show {count}")
        yield from (f"tell {5 + 9 * count}", f"tell {4 + 9 * count}")
    yield from (start((0, "plain", 1, 1), datalink_id=datalink_id) for datalink_id in (0, 255, 256))
    yield from ("tell 10", query({}, datalink_id=255), query({}, datalink_id=0), *STOCKED, *STANDING)


def refused_channels():
    """Channel 255, an ID twice, no channel 0; each with a watermark or throughput that is 23 too, and each leaves the
    state."""
    for watermark, throughput in ((1, 1), (MOST + 1, 1), (1, MOST + 1)):
        yield start((255, "flow", watermark, throughput), PLAIN)
        yield start(PLAIN, (255, "plain", watermark, throughput))
        yield start(PLAIN, (0, "flow", watermark, throughput))
        yield start(PLAIN, FLOW, (4, "plain", 1, 1), (3, "plain", watermark, throughput))
        yield start((254, "flow", watermark, throughput))
        yield start((1, "plain", watermark, throughput), FLOW)
        yield start(*[(channel, "plain", watermark, throughput) for channel in range(65)])
        yield from STANDING
    yield from (start((254, "flow", 1, 1), PLAIN), f"tell {ROOMY}", "show 254", *STOCKED)


def allowances():
    """Watermark and throughput at their limits, on the first channel and the last, plain and flow-controlled."""
    for number in ALLOWANCES:
        for kind in ("plain", "flow"):
            yield from (start((0, kind, number, 0)), start((0, kind, 0, number)), start(PLAIN, (3, kind, number, MOST)))
            yield from (start(FLOW, (0, kind, MOST, number)), "show 0", "show 3")
    yield from (start((0, "flow", MOST, MOST)), query({0: 5}), "show 0", *STOCKED)
    yield from (start((0, "plain", MOST + 1, MOST + 1)), start(FLOW, (0, "flow", MOST, 2**64 - 1)), *STANDING)


def fresh_again():
    """An accepted start keeps nothing of the state before."""
    yield from (*STOCKED, *STANDING, start(PLAIN, FLOW), *STANDING, f"status 3 0 {ROOMY}", f"context - {ROOMY}")
    yield from (f"queued 3 0 {ROOMY}", *STANDING, *STOCKED, start(PLAIN, (3, "plain", 1, 1)), *STANDING)


# ---- Lines that break the format ----

NO_NUMBERS = ["", "-", "-1", "+1", "01", "00", "0x1", "1.", "x", "\t1", "1\r", "\xb2", "9" * 30]
NO_BYTES = ["", "0", "000", "0g", "AB", "-0", "--", "0-", "0x00", "60\t"]
NO_ID = [*NO_NUMBERS, "256"]
NO_COUNT = [*NO_NUMBERS, "18446744073709551616"]
NO_LENGTH = [*NO_NUMBERS, "4194305"]
# One faultless line of each command, and for each of its words what it may not be.
FAULTLESS = {
    "start 7 1 0 flow 100 18446744073709551615": [
        NO_ID, [*NO_NUMBERS, "0", "2", "81"], NO_ID, ["", "Flow", "flows", "0"], NO_COUNT, NO_COUNT],
    "hear 100 1001000107": [NO_LENGTH, NO_BYTES],
    "status 0 7 100": [NO_ID, NO_ID, NO_LENGTH],
    "context 4555 100": [NO_BYTES, NO_LENGTH],
    "queued 0 7 100": [NO_ID, NO_COUNT, NO_LENGTH],
    "link 8 18446744073709551615": [NO_ID, NO_COUNT],
    "tell 100": [NO_LENGTH],
    "show 0": [NO_ID],
}


def broken_lines():
    """Each command with each word wrong, with words missing and added, in other letters; lines of `session`."""
    yield from ("", " ", "-", "\xff\0", "x" * LINE_LIMIT, "query 100", "read ips 7 1001000107", "next 0 0 100", "kept")
    for faultless, wrongs in FAULTLESS.items():
        words = faultless.split(" ")
        yield from (" ".join(words[:place]) for place in range(1, len(words)))
        for place, wrong in enumerate(wrongs, 1):
            yield from (" ".join([*words[:place], word, *words[place + 1 :]]) for word in wrong)
        yield from (faultless + end for end in (" ", " 0", "\t", "\r", "\0", " memory 1500"))
        behind_first = faultless[len(words[0]) :]
        yield from (" " + faultless, words[0].upper() + behind_first, words[0] + " " + behind_first)
    yield from ("hear 1 " + "00" * 69997, "hear 10 " + "00" * 69997, "context " + "00" * 69996 + " 1")


def long_lines():
    """Lines at the greatest length: a datagram that is 1, a Context that is 20; and rooms of the greatest length."""
    yield from ("hear 10 " + "00" * 69996, "context " + "00" * 69995 + " 1", "context " + "00" * 69995 + " 4194304")
    yield from ("tell 4194304", "hear 4194304 1001000107", "status 0 0 4194304", "status 0 16 4194304")


def start_lines():
    """All of them."""
    yield from before_a_start()
    yield from counts()
    yield from refused_channels()
    yield from allowances()
    yield from fresh_again()
    yield from STOCKED
    yield from broken_lines()
    yield from STANDING
    yield from long_lines()
    yield from STANDING
