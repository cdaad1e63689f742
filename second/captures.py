"""captures.py SEED COUNT: writes a random capture of COUNT records to standard output, faultless and damaged.

The same seed gives the same capture. Its datagrams are those of damaged_messages.py, packed into Ethernet frames of every kind
that report.py tells apart; the file's byte order is drawn too, and sometimes the file is cut off or its head is wrong.
"""

import random
import sys

import ciri
from damaged_messages import draw_datagram
from random_values import draw_number, pick
from report import Setting

PROGRAM_SETTING = Setting(8580, 8581, 7)
# Settings that a mistake about bytes mixes up: each port the other's bytes exchanged, one byte the same, 0 and the highest.
SETTINGS = (PROGRAM_SETTING, Setting(258, 513, 7), Setting(513, 258, 0), Setting(8581, 8580, 255), Setting(0, 65535, 1), Setting(255, 65280, 254))
IPV4_TYPE, VLAN_TYPE, SERVICE_TAG_TYPE, IPV6_TYPE, ARP_TYPE = 0x0800, 0x8100, 0x88A8, 0x86DD, 0x0806
UDP, TCP, ICMP = 17, 6, 1
MORE_FRAGMENTS, DONT_FRAGMENT, RESERVED_FLAG = 0x2000, 0x4000, 0x8000
SHORTEST_FRAME = 60
RECORD_LIMIT = 65536
MAGIC = 0xA1B2C3D4
NANOSECOND_MAGIC = 0xA1B23C4D


class Dice(random.Random):
    """Dice, with the setting that captures are drawn for."""

    def __init__(self, seed, setting=PROGRAM_SETTING):
        super().__init__(seed)
        self.setting = setting


def draw_setting(dice):
    """The program's setting, one of the others, or any."""
    radio_port, ips_port = dice.sample(range(65536), 2)
    return pick(dice, (2, PROGRAM_SETTING), (4, dice.choice(SETTINGS)), (2, Setting(radio_port, ips_port, dice.randrange(256))))


def big(number, length):
    """A number of so many bytes in network order."""
    return number.to_bytes(length, "big")


# ---- Frames, layer by layer ----


def udp_of(dice, port, data, length=None):
    """A UDP datagram; its length is right unless another is given. Source ports are often the other end's, or the same."""
    source = pick(dice, (3, dice.setting.ips_port), (3, dice.setting.radio_port), (2, dice.randrange(65536)))
    return big(source, 2) + big(port, 2) + big(8 + len(data) if length is None else length, 2) + dice.randbytes(2) + data


def ipv4_of(dice, carried, protocol=UDP, flags=None, version=4, words=None, total=None):
    """An IPv4 packet, sometimes with options. What is given stands in its header, right or wrong."""
    options = dice.randbytes(4 * pick(dice, (6, 0), (2, dice.randrange(1, 11)), (1, 10)))
    header_words = 5 + len(options) // 4 if words is None else words
    length = 20 + len(options) + len(carried) if total is None else total
    flags = pick(dice, (2, 0), (2, DONT_FRAGMENT), (1, RESERVED_FLAG)) if flags is None else flags
    head = bytes([version << 4 | header_words, dice.randrange(256)]) + big(length % 65536, 2) + dice.randbytes(2) + big(flags, 2)
    return head + bytes([64, protocol]) + dice.randbytes(10) + options + carried


def ethernet_of(dice, packet, kind=IPV4_TYPE):
    """An Ethernet frame, often padded to 60 bytes, sometimes with more behind."""
    frame = dice.randbytes(12) + big(kind, 2) + packet
    padding = pick(dice, (3, max(0, SHORTEST_FRAME - len(frame))), (2, 0), (1, dice.randrange(40)))
    return frame + pick(dice, (1, bytes(padding)), (1, dice.randbytes(padding)))


def draw_message(dice):
    """A datagram of either end with its port, mostly under the configured Datalink ID."""
    end = dice.choice((ciri.IPS, ciri.RADIO))
    datagram = draw_datagram(dice, end, pick(dice, (9, dice.setting.datalink_id), (1, dice.randrange(256))))
    port = dice.setting.radio_port if end == ciri.IPS else dice.setting.ips_port
    return port, datagram[: RECORD_LIMIT - 100]


# ---- The kinds of a record ----


def whole(dice):
    """A datagram of either end."""
    port, data = draw_message(dice)
    return ethernet_of(dice, ipv4_of(dice, udp_of(dice, port, data)))


def other_port(dice):
    """A datagram to another port; now and then a neighbour's."""
    own, data = draw_message(dice)
    neighbours = ((own - 1) % 65536, (own + 1) % 65536, own % 256 * 256 + own // 256, 0, 65535)
    port = pick(dice, (1, dice.choice(neighbours)), (1, dice.randrange(65536)))
    return ethernet_of(dice, ipv4_of(dice, udp_of(dice, port, data)))


def fragment(dice):
    """A fragment: the first, one between, the last; or one of another protocol."""
    port, data = draw_message(dice)
    offset = pick(dice, (2, 0), (1, 1), (1, dice.randrange(1, 0x2000)))
    flags = offset | (MORE_FRAGMENTS if offset == 0 else dice.choice((0, MORE_FRAGMENTS)))
    return ethernet_of(dice, ipv4_of(dice, udp_of(dice, port, data), dice.choice((UDP, UDP, TCP)), flags))


def tagged(dice):
    """A frame with one VLAN tag or two."""
    port, data = draw_message(dice)
    packet = ipv4_of(dice, udp_of(dice, port, data))
    inner = dice.randbytes(2) + big(IPV4_TYPE, 2) + packet
    if dice.randrange(3) == 0:
        return ethernet_of(dice, dice.randbytes(2) + big(VLAN_TYPE, 2) + inner, SERVICE_TAG_TYPE)
    return ethernet_of(dice, inner, VLAN_TYPE)


def other_type(dice):
    """IPv6, ARP, or a length in place of a type."""
    return ethernet_of(dice, dice.randbytes(dice.randrange(80)), dice.choice((IPV6_TYPE, ARP_TYPE, 46, 0x0801, 0x0008)))


def near_type(dice):
    """A packet without a fault behind an EtherType that is nearly that of IPv4."""
    port, data = draw_message(dice)
    return ethernet_of(dice, ipv4_of(dice, udp_of(dice, port, data)), dice.choice((0x0801, 0x0900, 0x0008, 0x0000)))


def low_header(dice):
    """A header of four words, with a header of UDP where it would end: at byte 16, where the addresses stand."""
    port, data = draw_message(dice)
    packet = ipv4_of(dice, b"", words=4, total=16 + 8 + len(data))[:16]
    return ethernet_of(dice, packet + udp_of(dice, port, data))


def fragment_bit(dice):
    """One bit of the fragment field alone."""
    port, data = draw_message(dice)
    return ethernet_of(dice, ipv4_of(dice, udp_of(dice, port, data), flags=dice.choice((0x0001, 0x0100, 0x1000, 0x2000))))


def unpadded(dice):
    """A frame that ends inside the header of UDP, or just behind it: 34 to 43 bytes."""
    port, _ = draw_message(dice)
    length = dice.randrange(34, 44)
    carried = udp_of(dice, port, dice.randbytes(1), length=pick(dice, (2, max(0, length - 34)), (1, 8), (1, 9)))[: length - 34]
    head = b"\x45" + bytes(1) + big(length - 14, 2) + bytes(4) + bytes([64, UDP]) + dice.randbytes(10)
    return dice.randbytes(12) + big(IPV4_TYPE, 2) + head + carried


def other_protocol(dice):
    """TCP, ICMP or any other protocol."""
    port, data = draw_message(dice)
    return ethernet_of(dice, ipv4_of(dice, udp_of(dice, port, data), dice.choice((TCP, ICMP, 16, 18, 0, 255))))


def other_version(dice):
    """A version that isn't 4, or too few bytes for a header."""
    port, data = draw_message(dice)
    packet = ipv4_of(dice, udp_of(dice, port, data), version=dice.choice((0, 3, 5, 6, 15)))
    short = (dice.randbytes(12) + big(IPV4_TYPE, 2) + b"\x45" + bytes(40))[: dice.randrange(14, 34)]
    return dice.choice((ethernet_of(dice, packet), short))


def ipv4_length(dice):
    """An IPv4 header or total length that doesn't fit, or just does."""
    port, data = draw_message(dice)
    carried = udp_of(dice, port, data)
    size = 20 + len(carried)
    return dice.choice((
        ethernet_of(dice, ipv4_of(dice, carried, words=dice.randrange(5))),
        ethernet_of(dice, ipv4_of(dice, carried, words=15)),
        ethernet_of(dice, ipv4_of(dice, carried, total=dice.randrange(0, 28))),
        ethernet_of(dice, ipv4_of(dice, carried, total=size + dice.randrange(1, 4))),
        ethernet_of(dice, ipv4_of(dice, carried, total=65535)),
    ))


def udp_length(dice):
    """A UDP length that doesn't fit what IPv4 carries, or bytes behind it."""
    port, data = draw_message(dice)
    size = 8 + len(data)
    length = pick(dice, (2, dice.randrange(8)), (2, size + dice.randrange(1, 5)), (3, max(8, size - dice.randrange(1, 9))), (1, 8))
    carried = udp_of(dice, port, data, length % 65536)
    return ethernet_of(dice, ipv4_of(dice, carried[: pick(dice, (5, len(carried)), (1, dice.randrange(9)))]))


def short(dice):
    """Too few bytes for an Ethernet header."""
    return dice.randbytes(dice.randrange(14))


def longest(dice):
    """A record of the largest length that is taken, or near it."""
    data = ciri.write_header(ciri.DATA) + ciri.write_option(1, bytes([dice.setting.datalink_id])) + ciri.write_option(128, bytes(dice.randrange(64900, 65000)))
    frame = dice.randbytes(12) + big(IPV4_TYPE, 2) + ipv4_of(dice, udp_of(dice, dice.setting.radio_port, data), words=None)
    return frame + bytes(max(0, RECORD_LIMIT - len(frame) - dice.randrange(3)))


KINDS = (
    (40, whole), (5, other_port), (6, fragment), (4, tagged), (3, other_type), (3, other_protocol), (4, other_version),
    (8, ipv4_length), (8, udp_length), (3, short), (4, near_type), (4, low_header), (5, fragment_bit), (5, unpadded),
)


# ---- The file ----


def draw_record(dice, order):
    """A record: its head and its bytes. Sometimes the capture shortened it, or says that it kept more than there was."""
    frame = pick(dice, *KINDS)(dice) if dice.randrange(200) else longest(dice)
    frame = frame[:RECORD_LIMIT]
    original = len(frame)
    if dice.randrange(12) == 0:
        original += pick(dice, (2, 1), (2, dice.randrange(1, 100)), (1, RECORD_LIMIT), (1, 2**32 - 1 - original))
    elif dice.randrange(12) == 0:
        original = dice.randrange(original + 1)
    return record_of(dice, order, frame, len(frame), original)


def record_of(dice, order, frame, captured, original):
    """A record's head, and bytes."""
    times = dice.randbytes(8)
    return times + captured.to_bytes(4, order) + original.to_bytes(4, order) + frame


def head_of(dice, order, magic=MAGIC, version=(2, 4), link=1):
    """A file's head; zone, figures and snapshot length are drawn."""
    return (
        magic.to_bytes(4, order) + version[0].to_bytes(2, order) + version[1].to_bytes(2, order)
        + dice.randbytes(8) + draw_number(dice).to_bytes(4, order) + link.to_bytes(4, order)
    )


def damage_head(dice, order):
    """A head that is refused by 25."""
    other = "big" if order == "little" else "little"
    return dice.choice((
        head_of(dice, order, NANOSECOND_MAGIC),
        head_of(dice, order, version=dice.choice(((2, 3), (1, 4), (4, 2), (0, 0), (512, 1024)))),
        head_of(dice, order, link=dice.choice((0, 2, 101, 113, 1 << 24, 1 + (1 << 28)))),
        MAGIC.to_bytes(4, order) + head_of(dice, other)[4:],
        head_of(dice, order)[: dice.randrange(24)],
        dice.randbytes(24),
        b"",
    ))


def draw_capture(dice, count):
    """A capture's bytes."""
    order = dice.choice(("little", "big"))
    if dice.randrange(12) == 0:
        return damage_head(dice, order) + (b"".join(draw_record(dice, order) for _ in range(3)) if dice.randrange(2) else b"")
    records = [draw_record(dice, order) for _ in range(count)]
    ending = dice.randrange(6)
    if ending == 0 and records:
        place = dice.randrange(len(records))
        records[place] = records[place][: dice.randrange(1, len(records[place]) + 1)]
        records[place + 1 :] = []
    elif ending == 1:
        place = dice.randrange(len(records) + 1)
        over = dice.choice((RECORD_LIMIT + 1, RECORD_LIMIT + 2, 2**24, 2**32 - 1))
        records.insert(place, record_of(dice, order, bytes(dice.choice((0, 10, RECORD_LIMIT + 1))), over, over))
    return head_of(dice, order) + b"".join(records)


def main():
    """Write the capture."""
    sys.stdout.buffer.write(draw_capture(Dice(sys.argv[1]), int(sys.argv[2])))


if __name__ == "__main__":
    main()
