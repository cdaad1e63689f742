"""judge_cases.py: small captures for the program `judge`, each the sample session with something in it, and the verdict on channel 3.

Run, it prints each with its verdict by judge.py; fails where that isn't the one asked for.
"""

import sys

from judge import judge_lines
from report import DEFAULT_WORDS, read_setting
from sample_capture import RADIO_PORT, big, capture_of, frame_of, ipv4_of, udp_of
from sample_judge import RECORDS, sample

FRAMES = [(frame, 0) for _, frame in RECORDS]
CARRIED = udp_of(RADIO_PORT, b"part")
FIRST_FRAGMENT, LAST_FRAGMENT = ipv4_of(CARRIED, flags=0x2000), ipv4_of(CARRIED, flags=0x0003)
# An IPv6 packet whose first extension header is that of a fragment.
IPV6_FRAGMENT = bytes([0x60, 0, 0, 0, 0, 16, 44, 64]) + bytes(32) + bytes([17, 0, 0, 1]) + bytes(12)
HEAD = 24


def with_frame(place, frame, lost=0):
    """The session with a record more."""
    return capture_of([*FRAMES[:place], (frame, lost), *FRAMES[place:]])


def shortened(place, lost):
    """The session with a record of its own shortened."""
    return capture_of([*FRAMES[:place], (FRAMES[place][0], lost), *FRAMES[place + 1 :]])


def with_head(place, *numbers):
    """The session with other bytes in its head."""
    file = bytearray(sample())
    file[place : place + len(numbers)] = numbers
    return bytes(file)


CASES = {
    "as it is": (sample(), "passes"),
    "plain comparison at the wrap": (sample("wrap"), "breach 7"),
    "a withdrawn window used on": (sample("withdrawn"), "breach 14"),
    "a first fragment behind all": (with_frame(len(FRAMES), frame_of(FIRST_FRAGMENT)), "undecided"),
    "a last fragment before all": (with_frame(0, frame_of(LAST_FRAGMENT)), "undecided"),
    "a fragment of TCP": (with_frame(5, frame_of(ipv4_of(CARRIED, flags=0x2000, protocol=6))), "undecided"),
    "a fragment to another port": (with_frame(5, frame_of(ipv4_of(udp_of(53, b""), flags=0x2000))), "undecided"),
    "a fragment behind a breach": (capture_of([FRAMES[9], (frame_of(FIRST_FRAGMENT), 0)]), "undecided"),
    "the last record shortened by a byte": (shortened(len(FRAMES) - 1, 1), "undecided"),
    "the first record shortened to nothing": (shortened(0, 60), "undecided"),
    "a shortened record of another type": (with_frame(5, frame_of(b"", 0x0806), 10), "undecided"),
    "a shortened record to another port": (with_frame(5, frame_of(ipv4_of(udp_of(53, b""))), 1), "undecided"),
    "the last record cut off": (sample()[:-1], "undecided"),
    "the last record's head cut off": (sample() + bytes(15), "undecided"),
    "a record over 65,536 bytes": (capture_of([*FRAMES, (bytes(65537), 0)]), "undecided"),
    "a record of 65,536 bytes": (capture_of([*FRAMES, (bytes(65536), 0)]), "passes"),
    "nanoseconds": (with_head(0, 0x4D, 0x3C), "undecided"),
    "another version": (with_head(6, 3), "undecided"),
    "another link type": (with_head(20, 101), "undecided"),
    "a head cut off": (sample()[: HEAD - 1], "undecided"),
    "an empty file": (b"", "undecided"),
    "a head alone": (sample()[:HEAD], "passes"),
    "a fragment behind a VLAN tag": (with_frame(5, frame_of(big(5) + big(0x0800) + FIRST_FRAGMENT, 0x8100)), "passes"),
    "a fragment of IPv6": (with_frame(5, frame_of(IPV6_FRAGMENT, 0x86DD)), "passes"),
    "don't fragment": (with_frame(5, frame_of(ipv4_of(CARRIED, flags=0x4000))), "passes"),
    "TCP": (with_frame(5, frame_of(ipv4_of(CARRIED, protocol=6))), "passes"),
    "an IPv4 length over the record": (with_frame(5, frame_of(ipv4_of(CARRIED)[:20].replace(big(20 + len(CARRIED)), big(1500), 1))), "passes"),
}


def main():
    """Print the verdicts."""
    differing = 0
    for name, (capture, asked) in CASES.items():
        found = list(judge_lines(read_setting(DEFAULT_WORDS), capture))[1 + 3].split(" ", 1)[1]
        differing += found != asked
        print(f"{name}: {found}" if found == asked else f"{name}: {found}, asked for {asked}")
    return differing


if __name__ == "__main__":
    sys.exit(main())
