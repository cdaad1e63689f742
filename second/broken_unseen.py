"""Ways to break `ciri.py` that no line of a session can notice, each with why."""

from broken_handful import ANSWER, LOOP, STEP, STRETCH, SUM, TEST, in_order
from broken_messages import of_ciri

UNSEEN_WAYS = of_ciri(
    # `echo` never writes longer than it read, and it read at most 65,507 bytes.
    ("messages over the datagram's limit written", "if len(message) > room or len(message) > DATAGRAM_LIMIT:",
     "if len(message) > room:"),
    # `echo` writes what was read: its lengths, values and misplaced sequences were refused there already.
    ("unlisted lengths written", "        and are_lengths_allowed(meaning)\n", ""),
    ("reserved values written", "        and are_values_allowed(meaning)\n", ""),
    ("a misplaced Flow Sequence written", "        and not is_sequence_misplaced(meaning)\n", ""),
    ("a Link Instance too big for its length", " and fits_bits(link_instance.value, 8 * link_instance.length)", ""),
    # A line's state comes of accepted calls alone, so that it is within the limits.
    ("a kept Link Instance of any length in a state",
     "    if endpoint.link_instance is not None and not is_link_instance_allowed(endpoint.link_instance):",
     "    if False:"),
    ("a kept Context of any length in a state",
     "    if endpoint.context is not None and len(endpoint.context) not in LENGTHS[DATALINK_CONTEXT]:",
     "    if False:"),
    ("any channel in a state", "    if not all(is_channel_allowed(channel) for channel in endpoint.channels):",
     "    if False:"),
    ("any status in a state", "        (channel.status is None or fits_bits(channel.status, 4))\n", "        True\n"),
    ("more than 32 waiting in a state", "        and len(lengths) <= WAITING_LIMIT\n", ""),
    ("any waiting length in a state",
     "        and all(IPV6_HEADER_LENGTH <= length <= PACKET_LIMIT for length in lengths)\n", ""),
    ("waiting bytes over the store in a state", "        and sum(lengths) <= channel.configuration.store_length\n", ""),
    ("waits of 0 in a state", "    if not are_waits_allowed(endpoint.pacer):\n        raise Refusal(19)\n", ""),
    # A wait is one of 64 bits: the session reads no other.
    ("a wait over 64 bits configured", "fits_bits(wait, 64) and wait != 0", "wait != 0"),
    # A setting is one byte's number: the session reads no other.
    ("a setting over 255 configured", "        and fits_bits(codes, len(CONFIGURED_STATUSES))\n", ""),
    # No status is above 15: number 19, and a message has no wider one.
    ("status 16 by the setting", "CONFIGURED_STATUSES = range(8, 16)", "CONFIGURED_STATUSES = range(8, 17)"),
    # The state is within the limits, so that 19 is never given beside 21.
    ("21 before 19", "    test_state(endpoint)\n    test_pacer_time(endpoint.pacer, now)\n",
     "    test_pacer_time(endpoint.pacer, now)\n    test_state(endpoint)\n"),
    # The lent memory is the one of the start, and new there: its bytes are zeros before.
    ("a start leaves the memory's bytes", "    memory[:] = bytes(len(memory))\n", ""),
    # `store` shows a channel's store wherever it stands; no line shows the whole memory.
    ("stores by rising Channel ID",
     "    for other in endpoint.channels:\n" "        if other is channel:",
     "    for other in sorted(endpoint.channels, key=lambda one: one.configuration.channel_id):\n"
     "        if other is channel:"),
    # Number 19 is given then too, since there is no channel 0.
    ("no channel configured", "CHANNEL_COUNTS = range(1, 65)", "CHANNEL_COUNTS = range(0, 65)"),
    # A Datalink ID is one byte's number: the session reads no other.
    ("a Datalink ID over 255 configured",
     "        fits_bits(datalink_id, 8)\n" "        and len(channel_ids)", "        len(channel_ids)"),
    # The state is within the limits, so that 19 is never given beside 24.
    ("24 before 19", "    test_state(endpoint)\n    test_memory(configurations_of(endpoint), memory)\n" + TEST,
     TEST + "    test_state(endpoint)\n    test_memory(configurations_of(endpoint), memory)\n"),
    # An accepted offer leaves a state within the limits, so that 19 is given before the first packet or never; the single
    # offer tests it too.
    ("no 19 of a handful's own", "    test_state(endpoint)\n    test_memory(configurations_of(endpoint), memory)\n" + TEST, TEST),
    # 32 lengths of at most 4,194,304 bytes are too few for a sum to wrap at 2^32: the session reads no others.
    ("the sum counted in 32 bits", SUM, "    if sum(lengths) % 2**32 != len(packets):\n"),
    # No packet sees another channel's, so that those of one channel may come before those of another, each answer where
    # it belongs.
    ("grouped by channel", LOOP + STRETCH + ANSWER + STEP,
     in_order("sorted(range(len(lengths)), key=lambda place: channel_ids[place])")),
    # The lengths' sum is the buffer's length: what is left is as long as the last length says.
    ("the rest of the buffer for the last packet", STRETCH,
     "        packet = packets[start : start + length] if place < len(lengths) - 1 else packets[start:]\n"),
)
