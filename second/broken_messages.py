"""Ways to break reading and writing of messages in `ciri.py`: name, module, the place, what stands there instead."""


def of_ciri(*ways):
    """These ways, of the module `ciri`."""
    return [(name, "ciri", old, new) for name, old, new in ways]


LENGTHS = of_ciri(
    ("an empty Link Instance", "    LINK_INSTANCE: range(1, 9)", "    LINK_INSTANCE: range(0, 9)"),
    ("no Link Instance of 1 byte", "    LINK_INSTANCE: range(1, 9)", "    LINK_INSTANCE: range(2, 9)"),
    ("no Link Instance of 8 bytes", "    LINK_INSTANCE: range(1, 9)", "    LINK_INSTANCE: range(1, 8)"),
    ("a Link Instance of 9 bytes", "    LINK_INSTANCE: range(1, 9)", "    LINK_INSTANCE: range(1, 10)"),
    ("an empty Context", "    DATALINK_CONTEXT: range(1, 9)", "    DATALINK_CONTEXT: range(0, 9)"),
    ("no Context of 1 byte", "    DATALINK_CONTEXT: range(1, 9)", "    DATALINK_CONTEXT: range(2, 9)"),
    ("no Context of 8 bytes", "    DATALINK_CONTEXT: range(1, 9)", "    DATALINK_CONTEXT: range(1, 8)"),
    ("a Context of 9 bytes", "    DATALINK_CONTEXT: range(1, 9)", "    DATALINK_CONTEXT: range(1, 10)"),
    ("a Datalink Identifier of 2 bytes", "    DATALINK_IDENTIFIER: (1,)", "    DATALINK_IDENTIFIER: (1, 2)"),
    ("a Channel Status of 3 bytes", "    CHANNEL_STATUS: (2,)", "    CHANNEL_STATUS: (2, 3)"),
    ("a Flow Window of 2 bytes", "    FLOW_WINDOW: (1, 5)", "    FLOW_WINDOW: (1, 2, 5)"),
    ("a Flow Window of 4 bytes", "    FLOW_WINDOW: (1, 5)", "    FLOW_WINDOW: (1, 4, 5)"),
    ("a Flow Window of 6 bytes", "    FLOW_WINDOW: (1, 5)", "    FLOW_WINDOW: (1, 5, 6)"),
    ("no Flow Window without a window", "    FLOW_WINDOW: (1, 5)", "    FLOW_WINDOW: (5,)"),
    ("no empty Packet Data", "    PACKET_DATA: range(0, 65536)", "    PACKET_DATA: range(1, 65536)"),
    ("a Channel Identifier of 2 bytes", "    CHANNEL_IDENTIFIER: (1,)", "    CHANNEL_IDENTIFIER: (1, 2)"),
    ("an Expiration Time of 3 bytes", "    EXPIRATION_TIME: (4,)", "    EXPIRATION_TIME: (3, 4)"),
    ("an Expiration Time of 5 bytes", "    EXPIRATION_TIME: (4,)", "    EXPIRATION_TIME: (4, 5)"),
    ("a Flow Sequence of 1 byte", "    FLOW_SEQUENCE: (5,)", "    FLOW_SEQUENCE: (1, 5)"),
    ("a Flow Sequence of 4 bytes", "    FLOW_SEQUENCE: (5,)", "    FLOW_SEQUENCE: (4, 5)"),
    ("a Flow Sequence of 6 bytes", "    FLOW_SEQUENCE: (5,)", "    FLOW_SEQUENCE: (5, 6)"),
)

LISTS = of_ciri(
    ("Flow Sequence is type 131", "FLOW_SEQUENCE = 134", "FLOW_SEQUENCE = 131"),
    ("Channel Status has no Channel ID", "WITH_CHANNEL = {CHANNEL_STATUS, ", "WITH_CHANNEL = {"),
    ("Flow Window has no Channel ID", "{CHANNEL_STATUS, FLOW_WINDOW, CHANNEL_ID", "{CHANNEL_STATUS, CHANNEL_ID"),
    ("IPS control lists no Flow Sequence",
     "(IPS, CONTROL): {DATALINK_IDENTIFIER, FLOW_SEQUENCE}", "(IPS, CONTROL): {DATALINK_IDENTIFIER}"),
    ("IPS control lists Packet Data",
     "(IPS, CONTROL): {DATALINK_IDENTIFIER, FLOW_SEQUENCE}",
     "(IPS, CONTROL): {DATALINK_IDENTIFIER, FLOW_SEQUENCE, PACKET_DATA}"),
    ("IPS data lists no Expiration Time", "CHANNEL_IDENTIFIER, EXPIRATION_TIME, PACKET_DATA}",
     "CHANNEL_IDENTIFIER, PACKET_DATA}"),
    ("radio control lists Flow Sequence", "CHANNEL_STATUS, FLOW_WINDOW},",
     "CHANNEL_STATUS, FLOW_WINDOW, FLOW_SEQUENCE},"),
    ("radio data lists Expiration Time", "(RADIO, DATA): {DATALINK_IDENTIFIER, CHANNEL_IDENTIFIER, PACKET_DATA}",
     "(RADIO, DATA): {DATALINK_IDENTIFIER, CHANNEL_IDENTIFIER, EXPIRATION_TIME, PACKET_DATA}"),
    ("radio data lists Flow Sequence", "(RADIO, DATA): {DATALINK_IDENTIFIER, CHANNEL_IDENTIFIER, PACKET_DATA}",
     "(RADIO, DATA): {DATALINK_IDENTIFIER, CHANNEL_IDENTIFIER, FLOW_SEQUENCE, PACKET_DATA}"),
    ("IPS data needs no Packet Data", "(IPS, DATA): {DATALINK_IDENTIFIER, PACKET_DATA}",
     "(IPS, DATA): {DATALINK_IDENTIFIER}"),
    ("radio data needs no Packet Data",
     "(RADIO, DATA): {DATALINK_IDENTIFIER, PACKET_DATA}", "(RADIO, DATA): {DATALINK_IDENTIFIER}"),
    ("radio data needs a Channel Identifier", "(RADIO, DATA): {DATALINK_IDENTIFIER, PACKET_DATA}",
     "(RADIO, DATA): {DATALINK_IDENTIFIER, PACKET_DATA, CHANNEL_IDENTIFIER}"),
    ("channel 0's status isn't required", "(RADIO, CONTROL) and PRIMARY_CHANNEL not in meaning.statuses",
     "(RADIO, CONTROL) and not meaning.statuses"),
    ("a Flow Sequence needs no Channel Identifier", "any(channel != meaning.channel for",
     "any(meaning.channel is not None and channel != meaning.channel for"),
    ("a Flow Sequence of another channel", "any(channel != meaning.channel for", "any(meaning.channel is None for"),
)

READING = of_ciri(
    ("datagrams up to 65506 bytes", "DATAGRAM_LIMIT = 65507", "DATAGRAM_LIMIT = 65506"),
    ("datagrams up to 65508 bytes", "DATAGRAM_LIMIT = 65507", "DATAGRAM_LIMIT = 65508"),
    ("another version", "datagram[0] >> 4 != VERSION", "datagram[0] >> 4 not in (VERSION, 0)"),
    ("any later version", "datagram[0] >> 4 != VERSION", "datagram[0] >> 4 < VERSION"),
    ("unused header bits refused", "datagram[0] >> 4 != VERSION", "datagram[0] & 0xF7 != VERSION << 4"),
    ("the empty datagram is a control message", "if len(datagram) < HEADER_LENGTH or datagram[0]",
     "if not datagram:\n        return CONTROL\n    if datagram[0]"),
    ("the flag one bit lower", "DATA_PLANE_FLAG = 0x08", "DATA_PLANE_FLAG = 0x04"),
    ("2 before 1", "        raise Refusal(1)\n", "        read_plane(datagram)\n        raise Refusal(1)\n"),
    ("a frame that ends the datagram is cut", "if content_place > len(datagram)", "if content_place >= len(datagram)"),
    ("a content that ends the datagram is cut", "if content_place + length > len", "if content_place + length >= len"),
    ("a content cut by one byte is taken", "if content_place + length > len", "if content_place + length - 1 > len"),
    ("the length little-endian", 'content_place], "big")', 'content_place], "little")'),
    ("the length counts its frame", 'content_place], "big")', 'content_place], "big") - FRAME_LENGTH'),
    ("8 before 3", "    kind, content = read_frame(datagram, place)\n    if meaning.packet is not None:\n"
     "        raise Refusal(8, place)\n", "    if meaning.packet is not None:\n        raise Refusal(8, place)\n"
     "    kind, content = read_frame(datagram, place)\n"),
    ("options after Packet Data",
     "    if meaning.packet is not None:\n" "        raise Refusal(8",
     "    if False:\n" "        raise Refusal(8"),
    ("unknown options after Packet Data", "if meaning.packet is not None:\n        raise Refusal(8",
     "if meaning.packet is not None and kind in LENGTHS:\n        raise Refusal(8"),
    ("6 before 8", "    if meaning.packet is not None:\n        raise Refusal(8",
     "    if kind in LENGTHS and kind not in LISTED[end, meaning.plane]:\n        raise Refusal(6, place)\n"
     "    if meaning.packet is not None:\n        raise Refusal(8"),
    ("unknown types refused", "    if kind in LENGTHS:\n",
     "    if kind not in LENGTHS:\n" "        raise Refusal(6, place)\n" "    if True:\n"),
    ("unknown types from 128 refused", "    if kind in LENGTHS:\n",
     "    if kind not in LENGTHS and kind >= 128:\n        raise Refusal(6, place)\n    if kind in LENGTHS:\n"),
    ("unlisted options skipped", "    if kind in LENGTHS:\n", "    if kind in LISTED[end, meaning.plane]:\n"),
    ("4 before 6", "    if kind not in LISTED[end, meaning.plane]:\n        raise Refusal(6, place)\n"
     "    if len(content) not in LENGTHS[kind]:\n        raise Refusal(4, place)\n",
     "    if len(content) not in LENGTHS[kind]:\n        raise Refusal(4, place)\n"
     "    if kind not in LISTED[end, meaning.plane]:\n        raise Refusal(6, place)\n"),
    ("5 before 4", "    if len(content) not in LENGTHS[kind]:\n",
     "    if content and not has_meaning(kind, content):\n        raise Refusal(5, place)\n"
     "    if len(content) not in LENGTHS[kind]:\n"),
    ("7 before 4", "    if len(content) not in LENGTHS[kind]:\n",
     "    if content and is_repeated(meaning, kind, content):\n        raise Refusal(7, place)\n"
     "    if len(content) not in LENGTHS[kind]:\n"),
    ("7 before 5", "    if not has_meaning(kind, content):\n",
     "    if is_repeated(meaning, kind, content):\n" "        raise Refusal(7, place)\n"
     "    if not has_meaning(kind, content):\n"),
    ("the place behind the option's frame", "raise Refusal(6, place)", "raise Refusal(6, place + FRAME_LENGTH)"),
    ("Channel ID 255", "        return content[0] != RESERVED_CHANNEL", "        return True"),
    ("no Channel ID 254", "        return content[0] != RESERVED_CHANNEL", "        return content[0] < 254"),
    ("Expiration Time 0", '        return int.from_bytes(content, "big") != 0', "        return True"),
    ("status 8 to 15 is number 5", "    if kind in WITH_CHANNEL:\n        return content[0] != RESERVED_CHANNEL",
     "    if kind == CHANNEL_STATUS and content[1] & 0x08:\n        return False\n"
     "    if kind in WITH_CHANNEL:\n        return content[0] != RESERVED_CHANNEL"),
    ("a status repeated", "        return content[0] in meaning.statuses", "        return False"),
    ("one Flow Window in all", "        return content[0] in meaning.windows",
     "        return len(meaning.windows) > 0"),
    ("a Flow Window repeated", "        return content[0] in meaning.windows", "        return False"),
    ("one Flow Sequence in all", "kind == FLOW_SEQUENCE and meaning.plane == CONTROL", "False"),
    ("a data message's Flow Sequences by channel", "kind == FLOW_SEQUENCE and meaning.plane == CONTROL",
     "kind == FLOW_SEQUENCE"),
    ("a Link Instance repeated", "return kind in stated_kinds(meaning)",
     "return kind != LINK_INSTANCE and kind in stated_kinds(meaning)"),
    ("a Context repeated", "return kind in stated_kinds(meaning)",
     "return kind != DATALINK_CONTEXT and kind in stated_kinds(meaning)"),
    ("a Datalink Identifier repeated", "return kind in stated_kinds(meaning)",
     "return kind != DATALINK_IDENTIFIER and kind in stated_kinds(meaning)"),
    ("an Expiration Time repeated", "return kind in stated_kinds(meaning)",
     "return kind != EXPIRATION_TIME and kind in stated_kinds(meaning)"),
    ("the status with its unused bits", "content[1] & 0x0F", "content[1]"),
    ("the status of three bits", "content[1] & 0x0F", "content[1] & 0x07"),
    ("the status in the higher bits", "content[1] & 0x0F", "content[1] >> 4"),
    ("no window is window 0", 'if len(content) == 5 else None', 'if len(content) == 5 else 0'),
    ("window 0 is no window", 'if len(content) == 5 else None', 'if len(content) == 5 and any(content[1:]) else None'),
    ("10 before 9", "    if is_required_missing(end, meaning):\n        raise Refusal(9",
     "    if is_sequence_misplaced(meaning):\n        raise Refusal(10, len(datagram))\n"
     "    if is_required_missing(end, meaning):\n        raise Refusal(9"),
    ("11 before 9", "    if is_required_missing(end, meaning):\n        raise Refusal(9",
     "    if meaning.datalink_id not in (None, datalink_id):\n        raise Refusal(11, len(datagram))\n"
     "    if is_required_missing(end, meaning):\n        raise Refusal(9"),
    ("11 before 10", "    if is_sequence_misplaced(meaning):\n        raise Refusal(10",
     "    if meaning.datalink_id != datalink_id:\n        raise Refusal(11, len(datagram))\n"
     "    if is_sequence_misplaced(meaning):\n        raise Refusal(10"),
    ("any Datalink ID", "    if meaning.datalink_id != datalink_id:", "    if False:"),
    ("9 at place 0", "raise Refusal(9, len(datagram))", "raise Refusal(9)"),
)

WRITING = of_ciri(
    ("18 before 20",
     "    if not may_be_written(end, meaning):\n" "        raise Refusal(20)\n"
     '    message = write_header(meaning.plane) + b"".join(write_options(meaning))\n'
     "    if len(message) > room or len(message) > DATAGRAM_LIMIT:\n" "        raise Refusal(18)\n",
     '    message = write_header(meaning.plane) + b"".join(write_options(meaning))\n' "    if len(message) > room:\n"
     "        raise Refusal(18)\n" "    if not may_be_written(end, meaning):\n" "        raise Refusal(20)\n"),
    ("an output as long as the message is too short", "if len(message) > room or", "if len(message) >= room or"),
    ("unlisted kinds written", "        stated_kinds(meaning) <= LISTED[end, meaning.plane]\n", "        True\n"),
    ("written without a required option", "        and not is_required_missing(end, meaning)\n        and not is_seq",
     "        and not is_seq"),
    ("the header's unused bits set", "return bytes([VERSION << 4 | (", "return bytes([VERSION << 4 | 7 | ("),
    ("the Data Plane flag not written", "(DATA_PLANE_FLAG if plane == DATA else 0)", "0"),
    ("a Link Instance shortened", "yield write_option(LINK_INSTANCE, meaning.link_instance.value.to_bytes("
     'meaning.link_instance.length, "big"))', "yield write_option(LINK_INSTANCE, meaning.link_instance.value.to_bytes("
     'max(1, (meaning.link_instance.value.bit_length() + 7) // 8), "big"))'),
    ("statuses in the order read", "for channel in sorted(meaning.statuses):", "for channel in meaning.statuses:"),
    ("sequences in the order read", "for channel in sorted(meaning.sequences):", "for channel in meaning.sequences:"),
    ("windows in the order read", "for channel in sorted(meaning.windows):", "for channel in meaning.windows:"),
    ("the status's unused bits set", "bytes([channel, meaning.statuses[channel]])",
     "bytes([channel, 0xF0 | meaning.statuses[channel]])"),
    ("no window written as window 0", 'return b"" if window is None else window', "return (window or 0)"),
    ("Channel Identifier 0 not written",
     "    if meaning.channel is not None:\n" "        yield",
     "    if meaning.channel:\n" "        yield"),
    ("Context before Link Instance",
     "    if meaning.link_instance is not None:\n        yield", "    if meaning.context is not None:\n"
     "        yield write_option(DATALINK_CONTEXT, meaning.context)\n        meaning.context = None\n"
     "    if meaning.link_instance is not None:\n        yield"),
    ("Expiration Time before Channel Identifier",
     "    if meaning.channel is not None:\n" "        yield",
     "    if meaning.expiration is not None:\n"
     '        yield write_option(EXPIRATION_TIME, meaning.expiration.to_bytes(4, "big"))\n'
     "        meaning.expiration = None\n" "    if meaning.channel is not None:\n" "        yield"),
    ("the written length little-endian", 'len(content).to_bytes(2, "big")', 'len(content).to_bytes(2, "little")'),
)

MESSAGE_WAYS = [*LENGTHS, *LISTS, *READING, *WRITING]
