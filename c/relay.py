"""relay.py SEED SECONDS ROUTER RADIO: joins c/router and c/radio over UDP on the loopback device, by a relay that loses, repeats and reorders.

It runs both programs, hands the router packets of its network, and relays between the ports below; a datagram or a packet is handed to the
router only while it waits for one, so that a recording has the messages in the endpoint's own order. It prints what `report` has to count
of a recording, each line behind the leg that it is of: `router` between router and relay, `radio` between relay and radio; and behind
`refused` how many datagrams the router and the radio refused.
"""

import random
import select
import socket
import subprocess
import sys
import time

LOOPBACK = "127.0.0.1"
# Each program's own port, and the one that it takes for the other end's.
ROUTER_PORTS = (18581, 18580)
RADIO_PORTS = (18582, 18583)
CHANNELS = (0, 3, 3, 3, 7, 200)
LENGTHS = (40, 41, 100, 600, 1500, 4000, 9000)
MOST_PACKETS = 4000
MOST_ON_THE_WAY = 30
BUFFER = 4 << 20
# Seconds that nothing happens for until the net is looked at again.
PAUSE = 0.002
# Seconds that a program has to end in.
PATIENCE = 10


class Way:
    """One direction; messages arrive in any order, some twice, some never."""

    def __init__(self, dice):
        self.dice = dice
        self.messages = []
        self.arrived = self.lost = self.repeated = self.overtook = 0

    def send(self, message):
        """Takes a message on the way, or loses it."""
        self.messages.append(message)
        if self.dice.random() < 0.1 or len(self.messages) > MOST_ON_THE_WAY:
            self.messages.pop(self.dice.randrange(len(self.messages)))
            self.lost += 1

    def take(self):
        """One that arrives."""
        place = self.dice.randrange(len(self.messages)) if self.dice.random() < 0.2 else 0
        self.arrived += 1
        self.overtook += place > 0
        if self.dice.random() < 0.1:
            self.repeated += 1
            return self.messages[place]
        return self.messages.pop(place)

    def __str__(self):
        return f"{self.arrived} arrived, {self.lost} lost, {self.repeated} repeated, {self.overtook} out of order"


def open_socket(ports):
    """A socket that takes the place of a program's other end."""
    program, other = ports
    opened = socket.socket(socket.AF_INET, socket.SOCK_DGRAM)
    opened.setsockopt(socket.SOL_SOCKET, socket.SO_RCVBUF, BUFFER)
    opened.bind((LOOPBACK, other))
    opened.connect((LOOPBACK, program))
    opened.setblocking(False)
    return opened


def take_all(opened):
    """All datagrams that have come."""
    while True:
        try:
            yield opened.recv(65536)
        except BlockingIOError:
            return
        except ConnectionRefusedError:
            continue  # the other end isn't there yet, or no longer


def draw_packet(dice):
    """An IPv6 packet behind its Channel ID."""
    length = dice.choice(LENGTHS)
    header = bytes([0x60, 0, 0, 0]) + (length - 40).to_bytes(2, "big") + bytes([59, 64]) + bytes(32)
    return bytes([dice.choice(CHANNELS)]) + header + dice.randbytes(length - 40)


class Relay:
    """Both programs and the net between them."""

    def __init__(self, seed, router, radio):
        self.dice = random.Random(f"relay {seed}")
        self.to_router, self.to_radio = open_socket(ROUTER_PORTS), open_socket(RADIO_PORTS)
        self.up, self.down = Way(self.dice), Way(self.dice)
        self.network, network = socket.socketpair(socket.AF_UNIX, socket.SOCK_SEQPACKET)
        self.router = subprocess.Popen([router, *map(str, ROUTER_PORTS)], stdin=network, stdout=subprocess.PIPE)
        self.radio = subprocess.Popen([radio, *map(str, RADIO_PORTS)], stdin=subprocess.PIPE, stdout=subprocess.PIPE)
        network.close()
        self.packets = self.handed = self.waits_for = 0
        self.is_waiting = False
        self.spoken = b""

    def listen(self):
        """Takes what has come: datagrams of both ends, and how many things the router has taken."""
        ready, _, _ = select.select([self.to_router, self.to_radio, self.router.stdout], [], [], PAUSE)
        for datagram in take_all(self.to_router):
            self.up.send(datagram)
        for datagram in take_all(self.to_radio):
            self.down.send(datagram)
        if self.router.stdout in ready:
            self.spoken += self.router.stdout.read1(65536)
            *lines, self.spoken = self.spoken.split(b"\n")
            if lines:
                self.is_waiting = True
                self.waits_for = int(lines[-1].split()[1])

    def is_up(self):
        """Whether both programs have spoken, so that nothing is sent to a port that isn't open."""
        return self.is_waiting and len(self.down.messages) > 0

    def pass_on(self):
        """Something arrives at the radio; at the router one thing, and only while it waits."""
        if self.up.messages and self.dice.random() < 0.9:
            self.to_radio.send(self.up.take())
        if self.waits_for != self.handed:
            return
        if self.down.messages and self.dice.random() < 0.5:
            self.to_router.send(self.down.take())
            self.handed += 1
        elif self.packets < MOST_PACKETS:
            self.network.send(draw_packet(self.dice))
            self.packets += 1
            self.handed += 1

    def end(self):
        """Both programs end; what they say of themselves."""
        self.network.close()
        router = self.spoken + self.router.communicate(timeout=PATIENCE)[0]
        for datagram in take_all(self.to_router):
            self.up.send(datagram)
        radio = self.radio.communicate(timeout=PATIENCE)[0]
        if self.router.returncode or self.radio.returncode:
            sys.exit(f"relay: the router ended with {self.router.returncode}, the radio with {self.radio.returncode}")
        return [dict(line.rsplit(" ", 1) for line in said.decode().splitlines()) for said in (router, radio)]


def main():
    """Relay for so many seconds, and print what a recording has to hold."""
    seed, seconds, router, radio = sys.argv[1:]
    relay = Relay(seed, router, radio)
    end = time.monotonic() + float(seconds)
    is_up = False
    while time.monotonic() < end and relay.router.poll() is None and relay.radio.poll() is None:
        relay.listen()
        is_up = is_up or relay.is_up()
        if is_up:
            relay.pass_on()
    of_router, of_radio = relay.end()
    packets = {name: int(count) for name, count in of_router.items() if name.startswith("channel")}
    print(f"router ips {sum(packets.values()) + int(of_router['queries'])}")
    print(f"router radio {relay.down.arrived}")
    for name, count in packets.items():
        print(f"router {name} {count}")
    print(f"radio ips {relay.up.arrived}")
    print(f"radio radio {of_radio['sent']}")
    print(f"refused {of_router['refused']} {of_radio['refused']}")
    print(f"relay: to the radio: {relay.up}; {of_radio['heard']} heard", file=sys.stderr)
    print(f"relay: to the router: {relay.down}; {of_router['taken']} packets taken in, {of_router['held back']} held back", file=sys.stderr)


if __name__ == "__main__":
    main()
