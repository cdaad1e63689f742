"""The stored script's lines that break the format."""

from call_lines import handful, offer, offers, packet, radio
from session import COUNT_LIMIT

# One faultless line of each command, and for each of its words what it may not be.
NO_NUMBERS = ["", "-", "-1", "+1", "01", "00", "0x1", "1.", "x", "\t1", "1\r", "\xb2", "9" * 30]
NO_BYTES = ["", "0", "000", "0g", "AB", "-0", "--", "0-", "0x00", "60\t"]
NO_ID = [*NO_NUMBERS, "256"]
NO_SEQUENCE = [*NO_NUMBERS, "4294967296"]
NO_TIME = [*NO_NUMBERS, "18446744073709551616"]
NO_LENGTH = [*NO_NUMBERS, "4194305"]
# Where one number stands behind it.
NO_COUNT = [*NO_NUMBERS, "0", "2", "81"]
FAULTLESS = {
    "start 7 1 0 flow 4294967295 1500 memory 1500 pace 5000 18446744073709551615 codes 255": [
        NO_ID, NO_COUNT, NO_ID, ["", "Flow", "flows", "0"], NO_SEQUENCE, NO_LENGTH,
        ["", "Memory", "1500", "pace"], NO_LENGTH, ["", "Pace", "pacer", "memory", "codes", "1500"], NO_TIME, NO_TIME,
        ["", "Codes", "code", "memory", "pace", "2"], NO_ID],
    offer(0, 1, 9, packet(40)): [NO_ID, NO_TIME, NO_TIME, NO_BYTES],
    handful(1, (0, 9, packet(40))): [
        NO_TIME, ["", "Channels", "channel", "expiries", "1"], NO_COUNT, NO_ID, ["", "Expiries", "expiry", "lengths", "1"],
        NO_COUNT, NO_TIME, ["", "Lengths", "length", "answers", "40"], NO_COUNT, NO_LENGTH,
        ["", "Answers", "answer", "channels", "1"], [*NO_NUMBERS, "81"], NO_BYTES],
    "next 0 1 100": [NO_ID, NO_TIME, NO_LENGTH],
    "withdraw 0": [NO_ID],
    radio({0: 7}): [NO_TIME, NO_BYTES],
    "pace 1": [NO_TIME],
    "query 100": [NO_LENGTH],
    "show 0": [NO_ID],
    "store 0": [NO_ID],
    "kept": [],
    "pacer": [],
}
# What a start may say behind its channels, out of order or twice.
OUT_OF_ORDER = (
    "pace 1 1 memory 1500", "memory 1500 memory 1500", "pace 1 1 pace 1 1", "pace 1 1 1", "pace 1 memory 1500",
    "codes 1 pace 1 1", "codes 1 memory 1500", "memory 1500 codes 1 pace 1 1", "pace 1 1 codes 1 memory 1500",
    "codes 1 codes 1", "codes 1 1", "pace 1 codes 1", "memory codes 1", "codes",
)
# The words before which a start may end.
PERHAPS = ("memory", "pace", "codes")


def broken_message_lines():
    """Lines about messages, by one word each, and some that are at the greatest length or over it."""
    yield from ("", " ", "read", "read ips", "read ips 7", "read ips 7 ", "read  ips 7 10", "read ips 7 10 ")
    yield from ("read ips 256 10", "read ips 07 10", "read ips -1 10", "read air 7 10", "READ ips 7 10")
    yield from ("read ips 7 1", "read ips 7 1G", "read ips 7 1A", "read ips 7 - x", "read ips 7 -", "read ips 7 10\r")
    yield from ("echo ips 7 10", "echo ips 7 10 ips", "echo ips 7 10 ips 4194305", "echo ips 7 10 ips 01", "\xff\0")
    yield from ("x" * 140000, "read ips 7 " + "0" * 139989, "read ips 7 " + "00" * 70000)
    yield from ("read ips 17 " + "00" * 69994, "read ips 7 " + "00" * 69995)


def broken_state_lines():
    """Each command with each word wrong, with words missing and added, in other letters."""
    for faultless, wrongs in FAULTLESS.items():
        words = faultless.split(" ")
        yield from (" ".join(words[:place]) for place in range(1, len(words)) if words[place] not in PERHAPS)
        for place, wrong in enumerate(wrongs, 1):
            yield from (" ".join([*words[:place], word, *words[place + 1 :]]) for word in wrong)
        yield from (faultless + end for end in (" ", " 0", "\t", "\r", "\0", " memory 1500", " pace 1 1", " codes 1"))
        behind_first = faultless[len(words[0]) :]
        yield from (" " + faultless, words[0].upper() + behind_first, words[0] + " " + behind_first)
    yield from (f"start 7 1 0 flow 0 1500 {words}" for words in OUT_OF_ORDER)
    yield from broken_handfuls()


def broken_handfuls():
    """Lists out of order, missing and twice; a count that is one off among several; a space too many; 81 of each."""
    lists = ("channels 2 0 0", "expiries 2 9 9", "lengths 2 40 40", "answers 2")
    end = (packet(40) + packet(40, 1)).hex()
    orders = [[*lists[:place], lists[place + 1], lists[place], *lists[place + 2 :]] for place in range(3)]
    orders += [lists[::-1], *([one for one in lists if one != missing] for missing in lists)]
    orders += [[*lists[:place], *lists[place - 1 :]] for place in range(1, len(lists) + 1)]
    yield from (f"offers 1 {' '.join(order)} {end}" for order in orders)
    line = f"offers 1 {' '.join(lists)} {end}"
    for one in lists[:3]:
        keyword, _, *numbers = one.split(" ")
        for count in (0, 1, 3, COUNT_LIMIT, COUNT_LIMIT + 1):
            yield line.replace(one, f"{keyword} {count} {' '.join(numbers)}")
        yield from (line.replace(one, f"{keyword} 2 {numbers[0]} {wrong}") for wrong in ("18446744073709551616", "-", "0x"))
    words = line.split(" ")
    yield from (" ".join([*words[:place], "", *words[place:]]) for place in range(len(words) + 1))
    too_many = COUNT_LIMIT + 1
    for counts in ((too_many, 0, 0, 0), (0, too_many, 0, 0), (0, 0, too_many, 0), (0, 0, 0, too_many), (too_many,) * 4):
        channels, expiries, lengths, answers = counts
        yield offers(1, [0] * channels, [9] * expiries, [0] * lengths, answers, b"")
