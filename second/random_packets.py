"""Packets to be offered, drawn by lot."""

import ciri
from random_values import chance, pick


def draw_packet(dice, length):
    """An IPv6 packet; one under 40 bytes is cut short."""
    payload_length = max(0, length - ciri.IPV6_HEADER_LENGTH) % 2**16
    first = bytes([0x60 | dice.randrange(16)]) + dice.randbytes(3) + payload_length.to_bytes(2, "big")
    return (first + dice.randbytes(max(length, ciri.IPV6_HEADER_LENGTH) - len(first)))[:length]


def spoil_packet(dice, packet):
    """Often number 13: another version, another Payload Length, a byte more or less."""
    length = int.from_bytes(packet[4:6], "big")
    wrong_length = (pick(dice, (1, length + 1), (1, length - 1), (1, 0), (1, length << 8)) % 2**16).to_bytes(2, "big")
    return dice.choice((
        bytes([dice.randrange(256)]) + packet[1:],
        packet[:4] + wrong_length + packet[6:],
        packet + b"\x00",
        packet[:-1],
        b"",
    ))


def draw_offered(dice, is_filling, store_length):
    """A packet to offer, often at the limits: of packets then, and of the packets that this store's length allows."""
    small, large = dice.randrange(40, 120), dice.randrange(1200, 1501)
    longest = min(ciri.PACKET_LIMIT, store_length)
    short = ((6, 40), (12, small), (4, dice.randrange(120, 500)), (3, large), (2, 1500), (0.6, 1501), (0.4, 39))
    long = ((0.6, longest), (0.6, longest + 1), (0.2, ciri.PACKET_LIMIT), (0.2, ciri.PACKET_LIMIT + 1))
    filling = ((3, 40), (12, small), (1, large), (0.5, longest))
    packet = draw_packet(dice, pick(dice, *(filling if is_filling else short + long), (0.1, dice.randrange(10000))))
    return spoil_packet(dice, packet) if chance(dice, 4) else packet
