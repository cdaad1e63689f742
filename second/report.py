"""report.py [RADIO-PORT IPS-PORT DATALINK]: the program of document 02's "A report over captures".

Reads a classic pcap file of Ethernet from standard input and prints the counts.
"""

import re
import sys
from dataclasses import dataclass

from ciri import CONTROL, IPS, RADIO, Refusal, read_message

HEAD_LENGTH = 24
RECORD_HEAD_LENGTH = 16
RECORD_LIMIT = 65536
ORDERS = {b"\xd4\xc3\xb2\xa1": "little", b"\xa1\xb2\xc3\xd4": "big"}
ETHERNET = 1
COUNT_LIMIT = 2**64 - 1
CHANNELS = range(255)
REFUSALS = range(1, 12)
BAD_HEAD, BAD_RECORD = 25, 26
DEFAULT_WORDS = ["8580", "8581", "7"]
NUMBER = re.compile(r"0|[1-9][0-9]*")
USAGE = "three words or none: RADIO-PORT IPS-PORT DATALINK (ports 0 to 65535 and not equal, DATALINK 0 to 255)"

# The kinds of a record; the last two are its datagrams' ends.
SHORTENED, SHORT, OTHER_TYPE, NOT_IPV4, FRAGMENT, OTHER_PROTOCOL, IPV4_LENGTH, UDP_LENGTH, OTHER_PORT = (
    "shortened", "short", "other type", "not IPv4", "fragment", "other protocol", "IPv4 length", "UDP length", "other port",
)


@dataclass(frozen=True)
class Setting:
    """The ports of the two ends, and the configured Datalink ID."""

    radio_port: int
    ips_port: int
    datalink_id: int


# ---- The file ----


def read_order(file):
    """The byte order of a file whose head is right; None for any other (number 25)."""
    head = file[:HEAD_LENGTH]
    order = ORDERS.get(head[:4])
    if len(head) < HEAD_LENGTH or order is None:
        return None
    version = (int.from_bytes(head[4:6], order), int.from_bytes(head[6:8], order))
    if version != (2, 4) or int.from_bytes(head[20:24], order) != ETHERNET:
        return None
    return order


def read_records(file, order):
    """Each record's original length and bytes; raises Refusal 26 behind the last whole one where the file goes wrong."""
    place = HEAD_LENGTH
    while place < len(file):
        head = file[place : place + RECORD_HEAD_LENGTH]
        if len(head) < RECORD_HEAD_LENGTH:
            raise Refusal(BAD_RECORD)
        captured, original = int.from_bytes(head[8:12], order), int.from_bytes(head[12:16], order)
        start = place + RECORD_HEAD_LENGTH
        if captured > RECORD_LIMIT or start + captured > len(file):
            raise Refusal(BAD_RECORD)
        yield original, file[start : start + captured]
        place = start + captured


# ---- A record ----


def find_datagram(setting, original, frame):
    """A record's kind, and where that is an end, its datagram."""
    if len(frame) < original:
        return SHORTENED, None
    if len(frame) < 14:
        return SHORT, None
    if frame[12:14] != b"\x08\x00":
        return OTHER_TYPE, None
    return find_in_ipv4(setting, frame[14:])


def find_in_ipv4(setting, packet):
    """The same of what stands behind an Ethernet header."""
    if len(packet) < 20 or packet[0] >> 4 != 4:
        return NOT_IPV4, None
    flags = int.from_bytes(packet[6:8], "big")
    if flags & 0x2000 or flags & 0x1FFF:
        return FRAGMENT, None
    if packet[9] != 17:
        return OTHER_PROTOCOL, None
    header_length, total_length = 4 * (packet[0] & 0x0F), int.from_bytes(packet[2:4], "big")
    if header_length < 20 or header_length > total_length or total_length > len(packet):
        return IPV4_LENGTH, None
    return find_in_udp(setting, packet[header_length:total_length])


def find_in_udp(setting, carried):
    """The same of what IPv4 carries."""
    if len(carried) < 8:
        return UDP_LENGTH, None
    port, length = int.from_bytes(carried[2:4], "big"), int.from_bytes(carried[4:6], "big")
    if length < 8 or length > len(carried):
        return UDP_LENGTH, None
    if port == setting.radio_port:
        return IPS, carried[8:length]
    if port == setting.ips_port:
        return RADIO, carried[8:length]
    return OTHER_PORT, None


# ---- The counts ----


class Census:
    """All counts by name, in the order in which they are printed."""

    def __init__(self, setting):
        self.setting = setting
        names = ["records", "skipped", "ips", "radio"]
        names += [f"refusal {number}" for number in REFUSALS]
        names += [f"channel {channel} {what}" for channel in CHANNELS for what in ("packets", "bytes", "windows")]
        self.counts = dict.fromkeys(names, 0)

    def add(self, name, amount=1):
        """A count never passes the largest number of 64 bits."""
        self.counts[name] = min(COUNT_LIMIT, self.counts[name] + amount)

    def count_record(self, original, frame):
        """Count one record."""
        self.add("records")
        kind, datagram = find_datagram(self.setting, original, frame)
        if kind not in (IPS, RADIO):
            self.add("skipped")
            return
        self.add(kind)
        try:
            meaning = read_message(kind, self.setting.datalink_id, datagram)
        except Refusal as refusal:
            self.add(f"refusal {refusal.number}")
            return
        self.count_message(meaning)

    def count_message(self, meaning):
        """Count an accepted message: a control message by its windows, which only the radio's has, a data message by its packet."""
        if meaning.plane == CONTROL:
            for channel, window in meaning.windows.items():
                if window is not None:
                    self.add(f"channel {channel} windows")
            return
        channel = 0 if meaning.channel is None else meaning.channel
        self.add(f"channel {channel} packets")
        self.add(f"channel {channel} bytes", len(meaning.packet))


def report_lines(setting, file):
    """The lines of the report."""
    yield "count value"
    order = read_order(file)
    if order is None:
        yield f"refused {BAD_HEAD}"
        return
    census, last_lines = Census(setting), []
    try:
        for original, frame in read_records(file, order):
            census.count_record(original, frame)
    except Refusal as refusal:
        last_lines = [f"refused {refusal.number}"]
    for name, value in census.counts.items():
        yield f"{name} {value}"
    yield from last_lines


# ---- The words ----


def read_setting(words):
    """The setting that three words say, or the program's own; None for anything else."""
    words = words or DEFAULT_WORDS
    if len(words) != 3 or not all(NUMBER.fullmatch(word) for word in words):
        return None
    setting = Setting(*(int(word) for word in words))
    if setting.radio_port > 65535 or setting.ips_port > 65535 or setting.radio_port == setting.ips_port or setting.datalink_id > 255:
        return None
    return setting


def main():
    """Print the report."""
    setting = read_setting(sys.argv[1:])
    if setting is None:
        print(USAGE, file=sys.stderr)
        return
    for line in report_lines(setting, sys.stdin.buffer.read()):
        print(line)


if __name__ == "__main__":
    main()
