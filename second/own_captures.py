"""own_captures.py SEED COUNT: runs this implementation's endpoint COUNT times, judges the recordings, and fails where one doesn't pass.

A recording holds what the endpoint sent and heard, in that order. Every flow-controlled channel has to pass; a plain one doesn't heed
windows, and may not.
"""

import sys

import ciri
from captures import PROGRAM_SETTING, Dice, ethernet_of, head_of, ipv4_of, record_of, udp_of
from judge import judge_lines
from random_values import chance, pick

CALLS = 300
STORE = 4000
ROOM = 9100
LENGTHS = (40, 41, 100, 500)


def draw_endpoint(dice):
    """A fresh endpoint and its memory: channel 0 and a few others, the first sequence often near the wrap."""
    channels = [0, *dice.sample(range(1, 255), dice.randrange(1, 6))]
    first = (0, 2**32 - 100, 2**31 - 50, dice.getrandbits(32))
    configurations = [ciri.Configuration(channel, chance(dice, 70), dice.choice(first), STORE) for channel in channels]
    memory = bytearray(STORE * len(channels))
    pacer = ciri.Pacer(dice.randrange(1, 40), dice.randrange(1, 60))
    codes = dice.choice((0, 2, 255))
    return ciri.start_endpoint(dice.setting.datalink_id, configurations, codes, pacer, memory), memory


def draw_packet(dice):
    """An IPv6 packet."""
    length = dice.choice(LENGTHS)
    return bytes([0x60, 0, 0, 0]) + (length - ciri.IPV6_HEADER_LENGTH).to_bytes(2, "big") + bytes([59, 64]) + bytes(32) + dice.randbytes(length - 40)


def draw_window(dice, channel):
    """A window about the channel's sequence, or none."""
    ahead = pick(dice, (2, dice.randrange(300)), (1, dice.randrange(-100, 800)))
    return pick(dice, (4, (channel.sequence + ahead) % ciri.MODULUS), (1, None))


def radio_message(dice, endpoint):
    """A radio control message, now and then of another datalink."""
    windows = {channel.configuration.channel_id: draw_window(dice, channel) for channel in endpoint.channels if chance(dice, 85)}
    statuses = {channel.configuration.channel_id: dice.choice((1, 1, 7, 0, 9)) for channel in endpoint.channels}
    datalink_id = pick(dice, (4, dice.setting.datalink_id), (1, (dice.setting.datalink_id + 1) % 256))
    meaning = ciri.Meaning(ciri.CONTROL, datalink_id, statuses=statuses, windows=windows)
    return ciri.write_message(ciri.RADIO, meaning, ciri.DATAGRAM_LIMIT)


def make_call(dice, endpoint, memory, now):
    """One call; gives the datagrams that a recording has of it, each with its end: a radio message that 21 refuses came for nobody."""
    channel = dice.choice(endpoint.channels).configuration.channel_id
    kind = pick(dice, (4, "radio"), (7, "offer"), (8, "next"), (1, "pace"), (1, "query"))
    if kind == "radio":
        datagram = radio_message(dice, endpoint)
        refused = try_call(ciri.accept_radio, endpoint, pick(dice, (9, now), (1, now // 2)), datagram)
        return [] if refused == 21 else [(ciri.RADIO, datagram)]
    if kind == "pace":
        try_call(ciri.ask_pacer, endpoint, now)
        return []
    if kind == "offer":
        try_call(ciri.offer_packet, endpoint, memory, channel, now, now + dice.randrange(1, 200), draw_packet(dice))
        return []
    if kind == "query":
        return [(ciri.IPS, ciri.query_message(endpoint, ciri.DATAGRAM_LIMIT))]
    answer = ciri.next_message(endpoint, memory, channel, now, ROOM)
    return [(ciri.IPS, answer)] if isinstance(answer, bytes) else []


def try_call(call, *arguments):
    """A call that may be refused; the number of refusal, or None."""
    try:
        call(*arguments)
    except ciri.Refusal as refusal:
        return refusal.number
    return None


def draw_own(dice, count):
    """A recording of an endpoint's run of so many calls, and its flow-controlled channels."""
    endpoint, memory = draw_endpoint(dice)
    order = dice.choice(("little", "big"))
    capture = head_of(dice, order)
    for now in range(count):
        for end, datagram in make_call(dice, endpoint, memory, now):
            port = dice.setting.radio_port if end == ciri.IPS else dice.setting.ips_port
            frame = ethernet_of(dice, ipv4_of(dice, udp_of(dice, port, datagram)))
            capture += record_of(dice, order, frame, len(frame), len(frame))
    return capture, [channel.configuration.channel_id for channel in endpoint.channels if channel.configuration.is_flow_controlled]


def draw_recording(dice, count):
    """The recording alone."""
    return draw_own(dice, count)[0]


def main():
    """Judge the recordings; the number of flow-controlled channels that don't pass."""
    judged = failing = 0
    for number in range(int(sys.argv[2])):
        capture, controlled = draw_own(Dice(f"{sys.argv[1]} {number}"), CALLS)
        verdicts = list(judge_lines(PROGRAM_SETTING, capture))[1:]
        judged += len(controlled)
        failing += sum(verdicts[channel] != f"{channel} passes" for channel in controlled)
    print(f"{judged} flow-controlled channels, {failing} that don't pass")
    return failing


if __name__ == "__main__":
    sys.exit(main())
