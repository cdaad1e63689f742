"""tool_datagrams.py dump SEED END: random datagrams of an end as a hex dump for text2pcap.
tool_datagrams.py send SEED: datagrams of both ends and others, sent over the loopback device."""

import random
import socket
import sys

import ciri
from captures import PROGRAM_SETTING
from damaged_messages import draw_datagram

RADIO_PORT, IPS_PORT = PROGRAM_SETTING.radio_port, PROGRAM_SETTING.ips_port
PORTS = {ciri.IPS: RADIO_PORT, ciri.RADIO: IPS_PORT}
COUNT = 60
# text2pcap takes packets up to 65,535 bytes, with the headers that it puts before them.
LONGEST = 65000


def draw_datagrams(dice, end):
    """Datagrams of an end that have room in a packet; text2pcap wants one byte at least."""
    datagrams = [draw_datagram(dice, end, PROGRAM_SETTING.datalink_id) for _ in range(COUNT)]
    return [datagram for datagram in datagrams if 1 <= len(datagram) <= LONGEST]


def dump(seed, end):
    """Print the hex dump: an offset, then 16 bytes a line."""
    for datagram in draw_datagrams(random.Random(f"{seed} {end}"), end):
        for place in range(0, len(datagram), 16):
            print(f"{place:06x} " + " ".join(f"{byte:02x}" for byte in datagram[place : place + 16]))
        print()


def send(seed):
    """Send datagrams to both ports and to others, over IPv4 and over IPv6 where there is one."""
    dice = random.Random(seed)
    with socket.socket(socket.AF_INET, socket.SOCK_DGRAM) as sender:
        for end in (ciri.IPS, ciri.RADIO):
            for datagram in draw_datagrams(dice, end):
                sender.sendto(datagram, ("127.0.0.1", PORTS[end]))
        for port in (RADIO_PORT - 1, IPS_PORT + 1, 9):
            sender.sendto(b"another port", ("127.0.0.1", port))
        sender.sendto(b"", ("127.0.0.1", RADIO_PORT))
    if socket.has_ipv6:
        with socket.socket(socket.AF_INET6, socket.SOCK_DGRAM) as sender:
            try:
                sender.sendto(b"IPv6", ("::1", RADIO_PORT))
            except OSError:
                pass


def main():
    """The command that the words say."""
    if sys.argv[1:2] == ["dump"] and len(sys.argv) == 4:
        return dump(*sys.argv[2:])
    if sys.argv[1:2] == ["send"] and len(sys.argv) == 3:
        return send(sys.argv[2])
    sys.exit(__doc__)


if __name__ == "__main__":
    main()
