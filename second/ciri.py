"""A CIRI endpoint (ARINC 858 Part 3), written from documents 01 and 02 with plain Python integers.

First the messages of both ends and both planes, then the state of the Airborne IPS System's end and its pacer.
"""

from dataclasses import dataclass, field

# Whose message it is, and its plane.
IPS, RADIO = "ips", "radio"
CONTROL, DATA = "control", "data"

# Option types (section 3, Table 3-3).
DATALINK_IDENTIFIER = 1
LINK_INSTANCE = 3
DATALINK_CONTEXT = 4
CHANNEL_STATUS = 5
FLOW_WINDOW = 6
PACKET_DATA = 128
CHANNEL_IDENTIFIER = 129
EXPIRATION_TIME = 130
FLOW_SEQUENCE = 134

# The lengths listed for each known type (document 01's table and sections 3.3.1, 3.3.7 to 3.3.9).
LENGTHS = {
    DATALINK_IDENTIFIER: (1,),
    LINK_INSTANCE: range(1, 9),
    DATALINK_CONTEXT: range(1, 9),
    CHANNEL_STATUS: (2,),
    FLOW_WINDOW: (1, 5),
    PACKET_DATA: range(0, 65536),
    CHANNEL_IDENTIFIER: (1,),
    EXPIRATION_TIME: (4,),
    FLOW_SEQUENCE: (5,),
}

# The types whose content begins with a Channel ID.
WITH_CHANNEL = {CHANNEL_STATUS, FLOW_WINDOW, CHANNEL_IDENTIFIER, FLOW_SEQUENCE}

# What each message may hold, and what it must.
LISTED = {
    (IPS, CONTROL): {DATALINK_IDENTIFIER, FLOW_SEQUENCE},
    (IPS, DATA): {DATALINK_IDENTIFIER, FLOW_SEQUENCE, CHANNEL_IDENTIFIER, EXPIRATION_TIME, PACKET_DATA},
    (RADIO, CONTROL): {DATALINK_IDENTIFIER, LINK_INSTANCE, DATALINK_CONTEXT, CHANNEL_STATUS, FLOW_WINDOW},
    (RADIO, DATA): {DATALINK_IDENTIFIER, CHANNEL_IDENTIFIER, PACKET_DATA},
}
REQUIRED = {
    (IPS, CONTROL): {DATALINK_IDENTIFIER},
    (IPS, DATA): {DATALINK_IDENTIFIER, PACKET_DATA},
    (RADIO, CONTROL): {DATALINK_IDENTIFIER, CHANNEL_STATUS},
    (RADIO, DATA): {DATALINK_IDENTIFIER, PACKET_DATA},
}

VERSION = 1
DATA_PLANE_FLAG = 0x08
HEADER_LENGTH = 1
FRAME_LENGTH = 3
DATAGRAM_LIMIT = 65507
RESERVED_CHANNEL = 255
PRIMARY_CHANNEL = 0

CHANNEL_COUNTS = range(1, 65)
STORE_LENGTHS = range(1500, 65537)
WAITING_LIMIT = 32
HANDFUL_LIMIT = 32
IPV6_HEADER_LENGTH = 40
PACKET_LIMIT = 9000
MODULUS = 2**32
# The statuses that are operational anyway, and those that are by configuration.
OPERATIONAL_STATUSES = range(1, 8)
CONFIGURED_STATUSES = range(8, 16)

# A channel's flow state is FREE, NO_WINDOW or the number of the window in force.
FREE = "free"
NO_WINDOW = "none"

# The answers of Next where there is no message.
NOTHING_WAITING = "nothing waiting"
NOT_OPERATIONAL = "not operational"
WINDOW_SHUT = "window shut"

# The answer for a packet of a handful that is taken; for another it is the number of its refusal.
TAKEN = 0


class Refusal(Exception):
    """A refusal: its number and its place."""

    def __init__(self, number, place=0):
        super().__init__(number, place)
        self.number = number
        self.place = place


# ---- Messages: the meaning ----


@dataclass
class LinkInstance:
    """A Link Instance ID: an unsigned number, its length kept."""

    length: int
    value: int


@dataclass
class Meaning:
    """A message's meaning: its plane, its Datalink ID, and for each known kind (and channel) what is stated."""

    plane: str
    datalink_id: int | None = None
    link_instance: LinkInstance | None = None
    context: bytes | None = None
    statuses: dict = field(default_factory=dict)  # Channel ID to Status
    sequences: dict = field(default_factory=dict)  # Channel ID to Flow Sequence
    windows: dict = field(default_factory=dict)  # Channel ID to Flow Window, None where the option has no window
    channel: int | None = None
    expiration: int | None = None
    packet: bytes | None = None


def stated_kinds(meaning):
    """The option types of which the meaning states something."""
    stated = {
        DATALINK_IDENTIFIER: meaning.datalink_id is not None,
        LINK_INSTANCE: meaning.link_instance is not None,
        DATALINK_CONTEXT: meaning.context is not None,
        CHANNEL_STATUS: len(meaning.statuses) > 0,
        FLOW_SEQUENCE: len(meaning.sequences) > 0,
        FLOW_WINDOW: len(meaning.windows) > 0,
        CHANNEL_IDENTIFIER: meaning.channel is not None,
        EXPIRATION_TIME: meaning.expiration is not None,
        PACKET_DATA: meaning.packet is not None,
    }
    return {kind for kind, is_stated in stated.items() if is_stated}


def is_required_missing(end, meaning):
    """A required option is missing; of a radio control message's Channel Statuses, channel 0's is required."""
    if not REQUIRED[end, meaning.plane] <= stated_kinds(meaning):
        return True
    return (end, meaning.plane) == (RADIO, CONTROL) and PRIMARY_CHANNEL not in meaning.statuses


def is_sequence_misplaced(meaning):
    """A data message's Flow Sequence needs a Channel Identifier of the same channel."""
    return meaning.plane == DATA and any(channel != meaning.channel for channel in meaning.sequences)


# ---- Messages: reading ----


def read_message(end, datalink_id, datagram):
    """Read a message sent by `end`, for a reader configured with `datalink_id`. Order: 1, 2, options, 9, 10, 11."""
    if len(datagram) > DATAGRAM_LIMIT:
        raise Refusal(1)
    meaning = Meaning(read_plane(datagram))
    place = HEADER_LENGTH
    while place < len(datagram):
        place = read_option(end, meaning, datagram, place)
    if is_required_missing(end, meaning):
        raise Refusal(9, len(datagram))
    if is_sequence_misplaced(meaning):
        raise Refusal(10, len(datagram))
    if meaning.datalink_id != datalink_id:
        raise Refusal(11, len(datagram))
    return meaning


def read_plane(datagram):
    """The header: 4-bit Version, 1-bit Data Plane flag, 3 unused bits."""
    if len(datagram) < HEADER_LENGTH or datagram[0] >> 4 != VERSION:
        raise Refusal(2)
    return DATA if datagram[0] & DATA_PLANE_FLAG else CONTROL


def read_option(end, meaning, datagram, place):
    """Read the option that begins at `place` and give the place behind it. Order: 3, 8, 6, 4, 5, 7."""
    kind, content = read_frame(datagram, place)
    if meaning.packet is not None:
        raise Refusal(8, place)
    if kind in LENGTHS:
        test_known_option(end, meaning, kind, content, place)
        take_option(meaning, kind, content)
    return place + FRAME_LENGTH + len(content)


def read_frame(datagram, place):
    """The option's 8-bit Type and its content, after a 16-bit Length that counts the content only."""
    content_place = place + FRAME_LENGTH
    if content_place > len(datagram):
        raise Refusal(3, place)
    length = int.from_bytes(datagram[place + 1 : content_place], "big")
    if content_place + length > len(datagram):
        raise Refusal(3, place)
    return datagram[place], datagram[content_place : content_place + length]


def test_known_option(end, meaning, kind, content, place):
    """Numbers 6, 4, 5 and 7 of a known option."""
    if kind not in LISTED[end, meaning.plane]:
        raise Refusal(6, place)
    if len(content) not in LENGTHS[kind]:
        raise Refusal(4, place)
    if not has_meaning(kind, content):
        raise Refusal(5, place)
    if is_repeated(meaning, kind, content):
        raise Refusal(7, place)


def has_meaning(kind, content):
    """Channel ID 255 is reserved, and so is Expiration Time 0."""
    if kind in WITH_CHANNEL:
        return content[0] != RESERVED_CHANNEL
    if kind == EXPIRATION_TIME:
        return int.from_bytes(content, "big") != 0
    return True


def is_repeated(meaning, kind, content):
    """Whether the option repeats one where at most one may stand: in all, or for each channel."""
    if kind == CHANNEL_STATUS:
        return content[0] in meaning.statuses
    if kind == FLOW_WINDOW:
        return content[0] in meaning.windows
    if kind == FLOW_SEQUENCE and meaning.plane == CONTROL:
        return content[0] in meaning.sequences
    return kind in stated_kinds(meaning)


def take_option(meaning, kind, content):
    """Add what a faultless option states to the meaning."""
    if kind == DATALINK_IDENTIFIER:
        meaning.datalink_id = content[0]
    elif kind == LINK_INSTANCE:
        meaning.link_instance = LinkInstance(len(content), int.from_bytes(content, "big"))
    elif kind == DATALINK_CONTEXT:
        meaning.context = content
    elif kind == CHANNEL_STATUS:
        meaning.statuses[content[0]] = content[1] & 0x0F
    elif kind == FLOW_SEQUENCE:
        meaning.sequences[content[0]] = int.from_bytes(content[1:], "big")
    elif kind == FLOW_WINDOW:
        meaning.windows[content[0]] = int.from_bytes(content[1:], "big") if len(content) == 5 else None
    elif kind == CHANNEL_IDENTIFIER:
        meaning.channel = content[0]
    elif kind == EXPIRATION_TIME:
        meaning.expiration = int.from_bytes(content, "big")
    elif kind == PACKET_DATA:
        meaning.packet = content


# ---- Messages: writing ----


def write_message(end, meaning, room):
    """The bytes of a message sent by `end`, for an output of `room` bytes. Order: 20, 18."""
    if not may_be_written(end, meaning):
        raise Refusal(20)
    message = write_header(meaning.plane) + b"".join(write_options(meaning))
    if len(message) > room or len(message) > DATAGRAM_LIMIT:
        raise Refusal(18)
    return message


def may_be_written(end, meaning):
    """Whether the lists of what each message may hold, and section 3's lengths and values, allow the meaning."""
    return (
        stated_kinds(meaning) <= LISTED[end, meaning.plane]
        and not is_required_missing(end, meaning)
        and not is_sequence_misplaced(meaning)
        and are_lengths_allowed(meaning)
        and are_values_allowed(meaning)
    )


def are_lengths_allowed(meaning):
    """Whether what has a variable length has a listed one."""
    return (
        (meaning.link_instance is None or is_link_instance_allowed(meaning.link_instance))
        and (meaning.context is None or len(meaning.context) in LENGTHS[DATALINK_CONTEXT])
        and (meaning.packet is None or len(meaning.packet) in LENGTHS[PACKET_DATA])
    )


def is_link_instance_allowed(link_instance):
    """Whether the length is 1 to 8 and the number isn't too big for it."""
    return link_instance.length in LENGTHS[LINK_INSTANCE] and fits_bits(link_instance.value, 8 * link_instance.length)


def are_values_allowed(meaning):
    """Whether each number is one that section 3.3 allows."""
    channels = [*meaning.statuses, *meaning.sequences, *meaning.windows]
    channels += [] if meaning.channel is None else [meaning.channel]
    windows = [window for window in meaning.windows.values() if window is not None]
    return (
        fits_bits(meaning.datalink_id, 8)
        and all(fits_bits(channel, 8) and channel != RESERVED_CHANNEL for channel in channels)
        and all(fits_bits(status, 4) for status in meaning.statuses.values())
        and all(fits_bits(number, 32) for number in [*meaning.sequences.values(), *windows])
        and (meaning.expiration is None or (fits_bits(meaning.expiration, 32) and meaning.expiration != 0))
    )


def fits_bits(number, bits):
    """Whether the number is one of so many unsigned bits."""
    return 0 <= number < 2**bits


def write_header(plane):
    """Version, Data Plane flag, unused bits as 0."""
    return bytes([VERSION << 4 | (DATA_PLANE_FLAG if plane == DATA else 0)])


def write_options(meaning):
    """The options in the writer's order."""
    yield write_option(DATALINK_IDENTIFIER, bytes([meaning.datalink_id]))
    if meaning.link_instance is not None:
        yield write_option(LINK_INSTANCE, meaning.link_instance.value.to_bytes(meaning.link_instance.length, "big"))
    if meaning.context is not None:
        yield write_option(DATALINK_CONTEXT, meaning.context)
    for channel in sorted(meaning.statuses):
        yield write_option(CHANNEL_STATUS, bytes([channel, meaning.statuses[channel]]))
    for channel in sorted(meaning.sequences):
        yield write_option(FLOW_SEQUENCE, bytes([channel]) + meaning.sequences[channel].to_bytes(4, "big"))
    for channel in sorted(meaning.windows):
        yield write_option(FLOW_WINDOW, bytes([channel]) + write_window(meaning.windows[channel]))
    if meaning.channel is not None:
        yield write_option(CHANNEL_IDENTIFIER, bytes([meaning.channel]))
    if meaning.expiration is not None:
        yield write_option(EXPIRATION_TIME, meaning.expiration.to_bytes(4, "big"))
    if meaning.packet is not None:
        yield write_option(PACKET_DATA, meaning.packet)


def write_window(window):
    """The window field, or nothing where there is no window."""
    return b"" if window is None else window.to_bytes(4, "big")


def write_option(kind, content):
    """The option frame: Type, Length of the content, content."""
    return bytes([kind]) + len(content).to_bytes(2, "big") + content


# ---- Counting ----


def distance(sequence, window):
    """The one number from -2^31 to 2^31 - 1 equal to window minus sequence modulo 2^32."""
    difference = (window - sequence) % MODULUS
    return difference if difference < MODULUS // 2 else difference - MODULUS


# ---- The state of the Airborne IPS System's end ----


@dataclass(frozen=True)
class Configuration:
    """A channel's configuration."""

    channel_id: int
    is_flow_controlled: bool
    first_sequence: int
    store_length: int


@dataclass(frozen=True)
class Waiting:
    """A waiting packet: its bytes stand in the channel's store."""

    length: int
    expiry: int


@dataclass
class Channel:
    """A configured channel: its status (None: not reported), flow state, sequence, latest time and queue."""

    configuration: Configuration
    status: int | None
    flow: str | int
    sequence: int
    latest: int
    queue: list


@dataclass
class Pacer:
    """The two configured waits, the pacer's one clock, and the times that the waits run from."""

    hello_time: int
    silence_limit: int
    clock: int = 0
    last_due: int = 0
    last_heard: int = 0


@dataclass
class Endpoint:
    """The kept state: Datalink ID, the channels in configuration order, pacer, last Link Instance, last Context
    received.

    `codes`: the setting of the statuses 8 to 15, bit status - 8 set where that status is operational.
    `is_gap`: the control message accepted just before had no Context.
    """

    datalink_id: int
    channels: list
    codes: int
    pacer: Pacer
    link_instance: LinkInstance | None
    context: bytes | None
    is_gap: bool = False


# ---- Numbers 19 and 22 ----


def test_configuration(datalink_id, configurations, codes):
    """Number 19 of a configuration."""
    channel_ids = [configuration.channel_id for configuration in configurations]
    if not (
        fits_bits(datalink_id, 8)
        and len(channel_ids) in CHANNEL_COUNTS
        and all(fits_bits(channel_id, 8) and channel_id != RESERVED_CHANNEL for channel_id in channel_ids)
        and len(set(channel_ids)) == len(channel_ids)
        and PRIMARY_CHANNEL in channel_ids
        and all(configuration.store_length in STORE_LENGTHS for configuration in configurations)
        and fits_bits(codes, len(CONFIGURED_STATUSES))
    ):
        raise Refusal(19)


def test_memory(configurations, memory):
    """Number 19 of a lent memory: its length is the sum of the stores."""
    if len(memory) != sum(configuration.store_length for configuration in configurations):
        raise Refusal(19)


def are_waits_allowed(pacer):
    """Whether HelloTime and silence limit are numbers of 64 bits other than 0."""
    return all(fits_bits(wait, 64) and wait != 0 for wait in (pacer.hello_time, pacer.silence_limit))


def test_state(endpoint):
    """Number 19 of a state: a configuration in it that would be refused, by 22 too, and what is kept."""
    test_configuration(endpoint.datalink_id, configurations_of(endpoint), endpoint.codes)
    if not are_waits_allowed(endpoint.pacer):
        raise Refusal(19)
    if endpoint.link_instance is not None and not is_link_instance_allowed(endpoint.link_instance):
        raise Refusal(19)
    if endpoint.context is not None and len(endpoint.context) not in LENGTHS[DATALINK_CONTEXT]:
        raise Refusal(19)
    if not all(is_channel_allowed(channel) for channel in endpoint.channels):
        raise Refusal(19)


def is_channel_allowed(channel):
    """Whether a channel's status, queue and flow state are within the limits."""
    lengths = [waiting.length for waiting in channel.queue]
    return (
        (channel.status is None or fits_bits(channel.status, 4))
        and len(lengths) <= WAITING_LIMIT
        and all(IPV6_HEADER_LENGTH <= length <= PACKET_LIMIT for length in lengths)
        and sum(lengths) <= channel.configuration.store_length
        and (channel.configuration.is_flow_controlled or channel.flow == FREE)
    )


def configurations_of(endpoint):
    """The configuration in a state."""
    return [channel.configuration for channel in endpoint.channels]


# ---- Fresh start ----


def start_endpoint(datalink_id, configurations, codes, pacer, memory):
    """A fresh start: the fresh state; each store in the lent memory is filled with zeros. Order: 19, 22."""
    test_configuration(datalink_id, configurations, codes)
    test_memory(configurations, memory)
    if not are_waits_allowed(pacer):
        raise Refusal(22)
    memory[:] = bytes(len(memory))
    channels = [start_channel(configuration) for configuration in configurations]
    return Endpoint(datalink_id, channels, codes, pacer, None, None)


def start_channel(configuration):
    """A fresh channel: status not reported; no window if flow-controlled, else free; latest time 0."""
    flow = NO_WINDOW if configuration.is_flow_controlled else FREE
    return Channel(configuration, None, flow, configuration.first_sequence, 0, [])


# ---- Offer ----


def offer_packet(endpoint, memory, channel_id, now, expiry, packet):
    """A packet with an expiry time joins the end of its queue. Order: 19, 12, 13, 14, 15, 16, 17."""
    test_state(endpoint)
    test_memory(configurations_of(endpoint), memory)
    channel = find_channel(endpoint, channel_id)
    test_ipv6(packet)
    test_length(channel, packet)
    test_time(channel, now)
    if expiry <= now:
        raise Refusal(16)
    unexpired = find_unexpired(endpoint, memory, channel, now)
    test_room(channel, unexpired, packet)
    keep_waiting(endpoint, memory, channel, unexpired + [(packet, expiry)])
    channel.latest = now


def test_ipv6(packet):
    """Number 13: a packet that isn't IPv6 (RFC 8200)."""
    if len(packet) < IPV6_HEADER_LENGTH or packet[0] >> 4 != 6:
        raise Refusal(13)
    if len(packet) != IPV6_HEADER_LENGTH + int.from_bytes(packet[4:6], "big"):
        raise Refusal(13)


def test_length(channel, packet):
    """Number 14: a packet over the smaller of 9,000 and the store's length."""
    if len(packet) > min(PACKET_LIMIT, channel.configuration.store_length):
        raise Refusal(14)


def test_time(channel, now):
    """Number 15: time before this channel's latest."""
    if now < channel.latest:
        raise Refusal(15)


def test_room(channel, unexpired, packet):
    """Number 17: 32 packets wait, or waiting bytes plus this packet exceed the store."""
    waiting_bytes = sum(len(waiting_packet) for waiting_packet, _ in unexpired)
    if len(unexpired) == WAITING_LIMIT or waiting_bytes + len(packet) > channel.configuration.store_length:
        raise Refusal(17)


# ---- Offers by the handful ----


def offer_handful(endpoint, memory, channel_ids, expiries, lengths, packets, now, answers):
    """Packets that stand end to end are offered one by one, in that order and at one time; each gets its answer.

    Order: 19, 24, then for each packet as if it were offered alone.
    """
    test_state(endpoint)
    test_memory(configurations_of(endpoint), memory)
    test_handful(channel_ids, expiries, lengths, packets, answers)
    start = 0
    for place, length in enumerate(lengths):
        packet = packets[start : start + length]
        answers[place] = answer_offer(endpoint, memory, channel_ids[place], now, expiries[place], packet)
        start += length


def test_handful(channel_ids, expiries, lengths, packets, answers):
    """Number 24: more than 32 packets, lists of unequal count, or lengths whose sum isn't the buffer's length."""
    count = len(channel_ids)
    if count > HANDFUL_LIMIT:
        raise Refusal(24)
    if len(expiries) != count or len(lengths) != count or len(answers) != count:
        raise Refusal(24)
    if sum(lengths) != len(packets):
        raise Refusal(24)


def answer_offer(endpoint, memory, channel_id, now, expiry, packet):
    """The answer for one packet of a handful; a refused one leaves everything, and those behind it their turn."""
    try:
        offer_packet(endpoint, memory, channel_id, now, expiry, packet)
    except Refusal as refusal:
        return refusal.number
    return TAKEN


# ---- Next ----


def next_message(endpoint, memory, channel_id, now, room):
    """The data message with the first waiting packet, or the answer why there is none. Order: 19, 12, 15, 18."""
    test_state(endpoint)
    test_memory(configurations_of(endpoint), memory)
    channel = find_channel(endpoint, channel_id)
    test_time(channel, now)
    unexpired = find_unexpired(endpoint, memory, channel, now)
    answer = why_no_message(endpoint.codes, channel, unexpired)
    if answer is None:
        first_packet, _ = unexpired.pop(0)
        answer = send_packet(endpoint, channel, first_packet, room)
    keep_waiting(endpoint, memory, channel, unexpired)
    channel.latest = now
    return answer


def why_no_message(codes, channel, unexpired):
    """The first of the three answers that holds, or None. Only the first waiting packet is tried."""
    if len(unexpired) == 0:
        return NOTHING_WAITING
    if not is_operational(codes, channel.status):
        return NOT_OPERATIONAL
    first_packet, _ = unexpired[0]
    if not fits(channel, len(first_packet)):
        return WINDOW_SHUT
    return None


def is_operational(codes, status):
    """Status 1 to 7 is operational; 8 to 15 as the setting has it; 0 isn't, nor is one not reported."""
    if status is None:
        return False
    if status in CONFIGURED_STATUSES:
        return codes >> (status - CONFIGURED_STATUSES.start) & 1 == 1
    return status in OPERATIONAL_STATUSES


def fits(channel, length):
    """Whether the channel is free, or the packet's length is at most the distance to the window in force."""
    if channel.flow == FREE:
        return True
    if channel.flow == NO_WINDOW:
        return False
    return length <= distance(channel.sequence, channel.flow)


def send_packet(endpoint, channel, packet, room):
    """The data message; under a window the sequence grows by the packet's length and the message carries the sum."""
    channel_id = channel.configuration.channel_id
    meaning = Meaning(DATA, endpoint.datalink_id, channel=channel_id, packet=packet)
    sequence = channel.sequence
    if channel.flow != FREE:
        sequence = (sequence + len(packet)) % MODULUS
        meaning.sequences[channel_id] = sequence
    message = write_message(IPS, meaning, room)
    channel.sequence = sequence
    return message


# ---- Withdraw ----


def withdraw_packets(endpoint, memory, channel_id):
    """All packets waiting on the channel are withdrawn. Order: 19, 12."""
    test_state(endpoint)
    test_memory(configurations_of(endpoint), memory)
    keep_waiting(endpoint, memory, find_channel(endpoint, channel_id), [])


# ---- Channels and their stores ----


def find_channel(endpoint, channel_id):
    """The configured channel of that ID; number 12 if there is none."""
    for channel in endpoint.channels:
        if channel.configuration.channel_id == channel_id:
            return channel
    raise Refusal(12)


def find_store(endpoint, channel):
    """Where the channel's store stands in the lent memory: the stores stand end to end in configuration order."""
    start = 0
    for other in endpoint.channels:
        if other is channel:
            break
        start += other.configuration.store_length
    return slice(start, start + channel.configuration.store_length)


def find_unexpired(endpoint, memory, channel, now):
    """The waiting packets that haven't expired at the time given, each with its expiry; changes nothing."""
    store = bytes(memory[find_store(endpoint, channel)])
    unexpired = []
    start = 0
    for waiting in channel.queue:
        if waiting.expiry > now:
            unexpired.append((store[start : start + waiting.length], waiting.expiry))
        start += waiting.length
    return unexpired


def keep_waiting(endpoint, memory, channel, packets):
    """Leave these packets waiting: end to end in order from the store's start, behind them zeros."""
    store = b"".join(packet for packet, _ in packets).ljust(channel.configuration.store_length, b"\0")
    memory[find_store(endpoint, channel)] = store
    channel.queue = [Waiting(len(packet), expiry) for packet, expiry in packets]


# ---- A radio message handed in ----


def accept_radio(endpoint, now, datagram):
    """A radio message handed in; gives whether a mobility message is due. Order: 19, 21, then as for reading."""
    test_state(endpoint)
    test_pacer_time(endpoint.pacer, now)
    meaning = read_message(RADIO, endpoint.datalink_id, datagram)
    endpoint.pacer.clock = now
    if meaning.plane == DATA:
        return False
    endpoint.pacer.last_heard = now
    for channel in endpoint.channels:
        update_channel(channel, meaning)
    if meaning.link_instance is not None:
        endpoint.link_instance = meaning.link_instance
    return update_context(endpoint, meaning)


def update_channel(channel, meaning):
    """A channel takes its Status, or is not reported; a flow-controlled one takes its flow state."""
    channel_id = channel.configuration.channel_id
    channel.status = meaning.statuses.get(channel_id)
    if channel.configuration.is_flow_controlled:
        channel.flow = flow_after(channel_id, meaning)


def flow_after(channel_id, meaning):
    """No Flow Window option: free; one without a window: no window; one with a window: that is in force."""
    if channel_id not in meaning.windows:
        return FREE
    if meaning.windows[channel_id] is None:
        return NO_WINDOW
    return meaning.windows[channel_id]


def update_context(endpoint, meaning):
    """Due when a Context comes that differs from the last Context received, is the first, or comes after a gap."""
    if meaning.context is None:
        endpoint.is_gap = True
        return False
    is_due = endpoint.is_gap or meaning.context != endpoint.context
    endpoint.is_gap = False
    endpoint.context = meaning.context
    return is_due


def kept_context(endpoint):
    """The Context of the control message accepted just before, where it had one."""
    return None if endpoint.is_gap else endpoint.context


# ---- The pacer ----


def test_pacer_time(pacer, now):
    """Number 21: pacer time earlier than its latest."""
    if now < pacer.clock:
        raise Refusal(21)


def ask_pacer(endpoint, now):
    """Whether a query is due, and whether the radio is silent: then every channel hears so. Order: 19, 21."""
    test_state(endpoint)
    pacer = endpoint.pacer
    test_pacer_time(pacer, now)
    pacer.clock = now
    is_due = pacer.last_due + pacer.hello_time <= now
    if is_due:
        pacer.last_due = now
    is_silent = pacer.last_heard + pacer.silence_limit <= now
    if is_silent:
        for channel in endpoint.channels:
            silence_channel(channel)
    return is_due, is_silent


def silence_channel(channel):
    """A channel is not reported; a flow-controlled one, free or not, has no window. Packets stay waiting."""
    channel.status = None
    if channel.configuration.is_flow_controlled:
        channel.flow = NO_WINDOW


# ---- Query ----


def query_message(endpoint, room):
    """The IPS control message with a Flow Sequence for each flow-controlled channel. Order: 19, 18."""
    test_state(endpoint)
    meaning = Meaning(CONTROL, endpoint.datalink_id)
    for channel in endpoint.channels:
        if channel.configuration.is_flow_controlled:
            meaning.sequences[channel.configuration.channel_id] = channel.sequence
    return write_message(IPS, meaning, room)
