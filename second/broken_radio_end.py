"""Ways to break the radio's end in `radio_end.py` and its lines in `station.py`: name, module, the place, what stands
there instead."""


def of(module, *ways):
    """These ways, of one module."""
    return [(name, module, old, new) for name, old, new in ways]


AHEAD = "    if highest is None or distance(highest, sequence) > 0:\n"
ALLOWANCE = "    allowance = max(0, channel.setting.watermark + channel.setting.throughput - channel.queued)\n"
GRANTED = "    return (channel.highest + min(ALLOWANCE_LIMIT, allowance)) % MODULUS\n"
NO_FIELD = "    if channel.highest is None:\n        return None\n"
QUEUED = "        channel = replace(channel, queued=min(QUEUED_LIMIT, channel.queued + len(meaning.packet)))\n"
PACKET = "    if meaning.packet is not None and carrier_of(meaning) == channel_id:\n"
SEQUENCE = "    if channel_id in meaning.sequences and channel.setting.is_flow_controlled:\n"
TAKEN = "        channel = replace(channel, highest=higher_of(channel.highest, meaning.sequences[channel_id]))\n"
LACKING = "    for channel_id in named_by(meaning):\n        find_channel(radio, channel_id)\n"
READING = "    meaning = read_message(IPS, radio.datalink_id, datagram)\n"
ANSWERED = "        return after, ANSWER, message_of(after, room)\n"
HEARD = "    return settle(radio, after, room, HEARD)\n"
DIFFERS = "    if told_of(before) == told_of(after):\n"
TOLD = "    return [channel.status for channel in radio.channels], radio.context, windows_of(radio)\n"
STATUSES = "    statuses = {channel.setting.channel_id: channel.status for channel in radio.channels}\n"
SETTLED = "    return after, UNASKED, message_of(after, room)\n"
STATUS_TEST = "    if not fits_bits(status, 4):\n        raise Refusal(20)\n"
STATUS_SET = "    return settle(radio, put_channel(radio, replace(channel, status=status)), room, UNCHANGED)\n"
CONTEXT_TEST = "    if context is not None and not is_context_allowed(context):\n        raise Refusal(20)\n"
CONTEXT_SET = "    return settle(radio, replace(radio, context=context), room, UNCHANGED)\n"
QUEUED_SET = "    return settle(radio, put_channel(radio, replace(channel, queued=queued)), room, UNCHANGED)\n"
NINETEEN = "    if not is_configuration_allowed(datalink_id, settings):\n        raise Refusal(19)\n"
TWENTY_THREE = "    if not all(is_allowance_allowed(setting) for setting in settings):\n        raise Refusal(23)\n"
ALLOWED = "    return 0 <= setting.watermark <= ALLOWANCE_LIMIT and 0 <= setting.throughput <= ALLOWANCE_LIMIT\n"

SEQUENCES = of(
    "radio_end",
    ("the highest by plain numbers", AHEAD, "    if highest is None or sequence > highest:\n"),
    ("2^31 counted as ahead", AHEAD, "    if highest is None or 0 < (sequence - highest) % MODULUS <= 2**31:\n"),
    ("2^31 - 1 counted as behind", AHEAD, "    if highest is None or 0 < distance(highest, sequence) < 2**31 - 1:\n"),
    ("any other sequence is taken", AHEAD, "    if highest is None or distance(highest, sequence) != 0:\n"),
    ("the last sequence, not the highest", AHEAD, "    if True:\n"),
    ("the distance the other way round", AHEAD, "    if highest is None or distance(sequence, highest) > 0:\n"),
    ("the first sequence is never left", AHEAD, "    if highest is None:\n"),
    ("the highest begins at 0", AHEAD, "    if distance(highest or 0, sequence) > 0:\n"),
    ("a sequence of 0 is none", AHEAD, "    if not highest or distance(highest, sequence) > 0:\n"),
    ("a plain channel hears sequences", SEQUENCE, "    if channel_id in meaning.sequences:\n"),
    ("a plain channel's sequence is refused", LACKING,
     LACKING + "    if any(not find_channel(radio, one).setting.is_flow_controlled for one in meaning.sequences):\n"
     "        raise Refusal(12)\n"),
    ("sequences of data messages aren't heard", SEQUENCE,
     SEQUENCE.replace(" and channel", " and meaning.packet is None and channel")),
    ("sequences of control messages aren't heard", SEQUENCE,
     SEQUENCE.replace(" and channel", " and meaning.packet is not None and channel")),
    ("a control message sets the highest anew", "highest=higher_of(channel.highest, meaning.sequences[channel_id])",
     "highest=higher_of(None if meaning.plane == CONTROL else channel.highest, meaning.sequences[channel_id])"),
    ("one sequence of a message alone", SEQUENCE,
     SEQUENCE.replace("channel_id in meaning.sequences", "channel_id in list(meaning.sequences)[:1]")),
    ("a sequence heard by every channel", "meaning.sequences[channel_id]))\n", "max(meaning.sequences.values())))\n"),
)

WINDOWS = of(
    "radio_end",
    ("wrap-around where more is queued than the sum", ALLOWANCE,
     ALLOWANCE.replace("max(0, ", "(").replace(".queued)\n", ".queued) % MODULUS\n")),
    ("the sum below 0 is subtracted", ALLOWANCE, ALLOWANCE.replace("max(0, ", "(")),
    ("no cut", GRANTED, "    return (channel.highest + allowance) % MODULUS\n"),
    ("the cut made on the window's number", GRANTED,
     "    return min(ALLOWANCE_LIMIT, (channel.highest + allowance) % MODULUS)\n"),
    ("the cut made on the uncut window", GRANTED, "    return min(ALLOWANCE_LIMIT, channel.highest + allowance)\n"),
    ("the cut at 2^31", GRANTED, GRANTED.replace("ALLOWANCE_LIMIT", "2**31")),
    ("the cut at 2^31 - 2", GRANTED, GRANTED.replace("ALLOWANCE_LIMIT", "2**31 - 2")),
    ("the cut made before the bytes queued are subtracted", ALLOWANCE,
     "    allowance = max(0, min(ALLOWANCE_LIMIT, channel.setting.watermark + channel.setting.throughput) - channel.queued)\n"),
    ("the sum in 31 bits", ALLOWANCE,
     "    allowance = max(0, (channel.setting.watermark + channel.setting.throughput) % 2**31 - channel.queued)\n"),
    ("the bytes queued in 32 bits", ALLOWANCE, ALLOWANCE.replace("channel.queued", "channel.queued % MODULUS")),
    ("the bytes queued in 63 bits, the highest as a sign", ALLOWANCE,
     ALLOWANCE.replace("channel.queued", "(channel.queued - 2**64 * (channel.queued >= 2**63))")),
    ("the watermark alone", ALLOWANCE, ALLOWANCE.replace(" + channel.setting.throughput", "")),
    ("the throughput alone", ALLOWANCE, ALLOWANCE.replace("channel.setting.watermark + ", "")),
    ("the bytes queued left out", ALLOWANCE, ALLOWANCE.replace(" - channel.queued", "")),
    ("the bytes queued added", ALLOWANCE, ALLOWANCE.replace(" - channel.queued", " + channel.queued")),
    ("the larger of the sum and the bytes queued", ALLOWANCE, ALLOWANCE.replace("max(0, ", "max(channel.queued, ")),
    ("the window without the highest", GRANTED, "    return min(ALLOWANCE_LIMIT, allowance)\n"),
    ("a window of 33 bits held at the largest", GRANTED,
     GRANTED.replace(" % MODULUS", "").replace("return (", "return min(MODULUS - 1, ")),
    ("window 0 for no field", NO_FIELD, "    if channel.highest is None:\n        return 0\n"),
    ("a window from 0 before a sequence", NO_FIELD + ALLOWANCE + GRANTED,
     ALLOWANCE + GRANTED.replace("channel.highest", "(channel.highest or 0)")),
    ("no window where it has no byte", GRANTED, "    if allowance == 0:\n        return None\n" + GRANTED),
    ("plain channels have windows", "        if channel.setting.is_flow_controlled\n    }\n", "    }\n"),
    ("no Flow Window until a sequence was heard", "        if channel.setting.is_flow_controlled\n    }\n",
     "        if channel.setting.is_flow_controlled and channel.highest is not None\n    }\n"),
)

QUEUES = of(
    "radio_end",
    ("the packet not queued", QUEUED, "        pass\n"),
    ("the packet not held at the largest", QUEUED, QUEUED.replace("min(QUEUED_LIMIT, ", "(")),
    ("the bytes queued wrap", QUEUED,
     QUEUED.replace("min(QUEUED_LIMIT, channel.queued + len(meaning.packet))", "(channel.queued + len(meaning.packet)) % 2**64")),
    ("held at 2^64 - 2", "QUEUED_LIMIT = 2**64 - 1", "QUEUED_LIMIT = 2**64 - 2"),
    ("held at 2^32 - 1", "QUEUED_LIMIT = 2**64 - 1", "QUEUED_LIMIT = 2**32 - 1"),
    ("a packet in place of the bytes queued", QUEUED, QUEUED.replace("channel.queued + ", "")),
    ("a packet counted as one", QUEUED, QUEUED.replace("len(meaning.packet)", "1")),
    ("40 bytes of each packet not counted", QUEUED,
     QUEUED.replace("len(meaning.packet)", "max(0, len(meaning.packet) - 40)")),
    ("a packet on a flow-controlled channel alone", PACKET,
     PACKET.replace(" and ", " and channel.setting.is_flow_controlled and ")),
    ("a packet queued only with its sequence", PACKET, PACKET.replace(" and ", " and meaning.sequences and ")),
    ("a packet queued only where its sequence is ahead", SEQUENCE + TAKEN + PACKET,
     "    before = channel\n" + SEQUENCE + TAKEN
     + "    is_old = channel_id in meaning.sequences and channel.setting.is_flow_controlled and channel == before\n"
     + PACKET.replace(" and ", " and not is_old and ")),
    ("a packet without a Channel Identifier isn't queued", PACKET,
     PACKET.replace("carrier_of(meaning)", "meaning.channel")),
    ("a packet without a Channel Identifier is on the first channel",
     "    after = replace(radio, channels=tuple(hear_on(",
     "    if meaning.channel is None and meaning.packet is not None:\n"
     "        meaning = replace(meaning, channel=radio.channels[0].setting.channel_id)\n"
     "    after = replace(radio, channels=tuple(hear_on("),
    ("a packet queued on every channel", PACKET, "    if meaning.packet is not None:\n"),
    ("`queued` adds", QUEUED_SET, QUEUED_SET.replace("queued=queued", "queued=channel.queued + queued")),
    ("`queued` not kept where no window changes", QUEUED_SET,
     "    after, answer, message = settle(radio, put_channel(radio, replace(channel, queued=queued)), room, UNCHANGED)\n"
     "    return (radio if answer == UNCHANGED else after), answer, message\n"),
    ("`queued` of a plain channel not kept", QUEUED_SET,
     "    if not channel.setting.is_flow_controlled:\n        return radio, UNCHANGED, None\n" + QUEUED_SET),
    ("`queued` told where the number differs", QUEUED_SET,
     "    if queued != channel.queued:\n        after = put_channel(radio, replace(channel, queued=queued))\n"
     "        return after, UNASKED, message_of(after, room)\n" + QUEUED_SET),
)

HEARING = of(
    "radio_end",
    ("windows from before hearing", ANSWERED, ANSWERED.replace("message_of(after", "message_of(radio")),
    ("a control message answered where something changed", ANSWERED,
     "        return settle(radio, after, room, HEARD)\n"),
    ("a control message without a sequence isn't answered", ANSWERED,
     "        if not meaning.sequences:\n            return after, HEARD, None\n" + ANSWERED),
    ("a data message always told", HEARD, "    return after, UNASKED, message_of(after, room)\n"),
    ("a data message never told", HEARD, "    return after, HEARD, None\n"),
    ("a data message answered like a control message", "    if meaning.plane == CONTROL:\n        return after",
     "    if True:\n        return after"),
    ("told where the highest moved", HEARD,
     "    if [c.highest for c in radio.channels] != [c.highest for c in after.channels]:\n" + SETTLED.replace("    return", "        return") + HEARD),
    ("told where a window grew, not where it shrank", HEARD,
     "    before, now = windows_of(radio), windows_of(after)\n"
     "    if all(now[c] == before[c] or before[c] is not None and distance(before[c], now[c]) < 0 for c in now):\n"
     "        return after, HEARD, None\n" + HEARD),
    ("told where a window shrank, not where it grew", HEARD,
     "    before, now = windows_of(radio), windows_of(after)\n"
     "    if all(now[c] == before[c] or before[c] is not None and distance(before[c], now[c]) > 0 for c in now):\n"
     "        return after, HEARD, None\n" + HEARD),
    ("a first window isn't told", HEARD,
     "    if all(window is None or window == windows_of(after)[c] for c, window in windows_of(radio).items()):\n"
     "        return after, HEARD, None\n" + HEARD),
    ("a data message with nothing new isn't kept", HEARD,
     "    after, answer, message = settle(radio, after, room, HEARD)\n    return (radio if answer == HEARD else after), answer, message\n"),
    ("a lacking channel skipped", LACKING, ""),
    ("a lacking Channel Identifier skipped", "    return [*meaning.sequences, carrier_of(meaning)]\n",
     "    return list(meaning.sequences)\n"),
    ("a lacking Flow Sequence skipped in a control message", "        return list(meaning.sequences)\n",
     "        return []\n"),
    ("12 for the first named channel alone", "    for channel_id in named_by(meaning):\n",
     "    for channel_id in named_by(meaning)[:1]:\n"),
    ("12 before reading", READING + LACKING,
     "    if b'\\x86\\0\\5\\4' in datagram or b'\\x81\\0\\1\\4' in datagram:\n        find_channel(radio, 4)\n" + READING + LACKING),
    ("12 after 18", LACKING, "    if meaning.plane == CONTROL:\n        message_of(radio, room)\n" + LACKING),
    ("12 with the datagram's length as its place", LACKING,
     LACKING.replace("        find_channel(radio, channel_id)\n",
                     "        if all(channel.setting.channel_id != channel_id for channel in radio.channels):\n"
                     "            raise Refusal(12, len(datagram))\n")),
    ("messages of the radio's end heard", "read_message(IPS, ", "read_message(RADIO, "),
    ("any Datalink ID heard", READING,
     "    meaning = read_message(IPS, datagram[4] if len(datagram) > 4 else 0, datagram)\n"),
    ("18 by the message before", SETTLED, "    message_of(before, room)\n" + SETTLED),
    ("18 where nothing is written", "        return after, answer, None\n",
     "        message_of(after, room)\n        return after, answer, None\n"),
    ("an answer over its room is written", "    return write_message(RADIO, meaning, room)\n",
     "    return write_message(RADIO, meaning, 2**20)\n"),
    ("an output needs a byte more", "    return write_message(RADIO, meaning, room)\n",
     "    return write_message(RADIO, meaning, room - 1)\n"),
    ("a state that hears nothing from 128 on", PACKET, PACKET.replace(" and ", " and channel_id < 128 and ")),
)

TELLING = of(
    "radio_end",
    ("unasked at an equal status", STATUS_SET,
     "    after = put_channel(radio, replace(channel, status=status))\n    return after, UNASKED, message_of(after, room)\n"),
    ("a status told by nobody", TOLD, TOLD.replace("[channel.status for channel in radio.channels], ", "")),
    ("a Context told by nobody", TOLD, TOLD.replace("radio.context, ", "")),
    ("a window told by nobody", TOLD, TOLD.replace(", windows_of(radio)", "")),
    ("bytes queued told", TOLD, TOLD.replace("channel.status for", "(channel.status, channel.queued) for")),
    ("only operational or not is told", TOLD, TOLD.replace("channel.status for", "channel.status > 0 for")),
    ("a Context told by its length", TOLD, TOLD.replace("radio.context", "len(radio.context or b'')")),
    ("a Context told by its number", TOLD, TOLD.replace("radio.context", "int.from_bytes(radio.context or b'', 'big')")),
    ("a removed Context isn't told", CONTEXT_SET,
     "    if context is None:\n        return replace(radio, context=None), UNCHANGED, None\n" + CONTEXT_SET),
    ("a removed Context stays", CONTEXT_SET, CONTEXT_SET.replace("context=context", "context=context or radio.context")),
    ("a Context is never replaced", CONTEXT_SET,
     CONTEXT_SET.replace("context=context", "context=radio.context or context")),
    ("status 15 refused", STATUS_TEST, STATUS_TEST.replace("not fits_bits(status, 4)", "status > 14")),
    ("status 8 to 15 refused", STATUS_TEST, STATUS_TEST.replace("not fits_bits(status, 4)", "status > 7")),
    ("a status cut to 4 bits", STATUS_TEST, "    status %= 16\n"),
    ("20 before 12", "    channel = find_channel(radio, channel_id)\n" + STATUS_TEST,
     STATUS_TEST + "    channel = find_channel(radio, channel_id)\n"),
    ("18 before 20 of a status", STATUS_TEST, "    message_of(radio, room)\n" + STATUS_TEST),
    ("18 before 20 of a Context", CONTEXT_TEST, "    message_of(radio, room)\n" + CONTEXT_TEST),
    ("18 before 12 of bytes queued", "    channel = find_channel(radio, channel_id)\n    return settle(",
     "    message_of(radio, room)\n    channel = find_channel(radio, channel_id)\n    return settle("),
    ("a Context over 8 bytes cut", CONTEXT_TEST, "    context = context and context[:8]\n"),
    ("a Context over 8 bytes is none", CONTEXT_TEST, "    context = context if context and len(context) < 9 else None\n"),
    ("4 for a Context over 8 bytes", CONTEXT_TEST, CONTEXT_TEST.replace("20", "4")),
    ("a Link Instance too big is cut",
     "    if not is_link_instance_allowed(link_instance):\n        raise Refusal(20)\n    return replace(radio, link",
     "    if link_instance.length not in range(1, 9):\n        raise Refusal(20)\n"
     "    link_instance = LinkInstance(link_instance.length, link_instance.value % 256**link_instance.length)\n    return replace(radio, link"),
    ("a Link Instance of any length",
     "    if not is_link_instance_allowed(link_instance):\n        raise Refusal(20)\n    return replace(radio, link",
     "    return replace(radio, link"),
    ("the first Link Instance stays", "    return replace(radio, link_instance=link_instance)\n",
     "    return replace(radio, link_instance=radio.link_instance or link_instance)\n"),
    ("a Link Instance never told", "radio.datalink_id, radio.link_instance, radio.context, statuses",
     "radio.datalink_id, None, radio.context, statuses"),
    ("a Context never told", "radio.datalink_id, radio.link_instance, radio.context, statuses",
     "radio.datalink_id, radio.link_instance, None, statuses"),
    ("only operational channels named", STATUSES,
     STATUSES.replace(" in radio.channels}", " in radio.channels if channel.status or not channel.setting.channel_id}")),
    ("a status put on channel 0 too", STATUS_SET,
     STATUS_SET.replace("put_channel(radio, replace(channel, status=status))",
     "put_channel(put_channel(radio, replace(find_channel(radio, 0), status=status)), replace(channel, status=status))")),
    ("`tell` keeps to 0 bytes queued", "    test_state(radio)\n    return message_of(radio, room)\n",
     "    test_state(radio)\n    return message_of(replace(radio, channels=tuple(replace(c, queued=0) for c in radio.channels)), room)\n"),
    ("only the changed channel named", SETTLED,
     "    changed = [c for b, c in zip(before.channels, after.channels) if b != c or c.setting.channel_id == 0]\n"
     "    return after, UNASKED, message_of(replace(after, channels=tuple(changed)), room)\n"),
    ("only the changed windows named", SETTLED,
     "    named = [c if b != c else replace(c, setting=replace(c.setting, is_flow_controlled=False))\n"
     "             for b, c in zip(before.channels, after.channels)]\n"
     "    return after, UNASKED, message_of(replace(after, channels=tuple(named)), room)\n"),
    ("the message as it was before", SETTLED, SETTLED.replace("message_of(after", "message_of(before")),
)

STARTS = of(
    "radio_end",
    ("23 before 19", NINETEEN + TWENTY_THREE, TWENTY_THREE + NINETEEN),
    ("23 never given", TWENTY_THREE, ""),
    ("19 for 23", TWENTY_THREE, TWENTY_THREE.replace("23", "19")),
    ("23 of flow-controlled channels alone", TWENTY_THREE,
     TWENTY_THREE.replace("for setting in settings)", "for setting in settings if setting.is_flow_controlled)")),
    ("23 of the sum", ALLOWED, "    return setting.watermark + setting.throughput <= ALLOWANCE_LIMIT\n"),
    ("23 of the watermark alone", ALLOWED, "    return 0 <= setting.watermark <= ALLOWANCE_LIMIT\n"),
    ("23 of the throughput alone", ALLOWED, "    return 0 <= setting.throughput <= ALLOWANCE_LIMIT\n"),
    ("23 of the first channel alone", TWENTY_THREE, TWENTY_THREE.replace("in settings)", "in settings[:1])")),
    ("a watermark of 2^31", ALLOWED,
     ALLOWED.replace("setting.watermark <= ALLOWANCE_LIMIT", "setting.watermark <= 2**31")),
    ("no watermark of 2^31 - 1", ALLOWED,
     ALLOWED.replace("setting.watermark <= ALLOWANCE_LIMIT", "setting.watermark < ALLOWANCE_LIMIT")),
    ("a throughput of 2^31", ALLOWED,
     ALLOWED.replace("setting.throughput <= ALLOWANCE_LIMIT", "setting.throughput <= 2**31")),
    ("no throughput of 2^31 - 1", ALLOWED,
     ALLOWED.replace("setting.throughput <= ALLOWANCE_LIMIT", "setting.throughput < ALLOWANCE_LIMIT")),
    ("a watermark in 32 bits", ALLOWED, ALLOWED.replace("0 <= setting.watermark <=", "setting.watermark % 2**32 <=")),
    ("channel 255 configured", "fits_bits(channel_id, 8) and channel_id != RESERVED_CHANNEL", "fits_bits(channel_id, 8)"),
    ("a channel configured twice", "        and len(set(channel_ids)) == len(channel_ids)\n", ""),
    ("no channel 0", "        and PRIMARY_CHANNEL in channel_ids\n", ""),
    ("63 channels at most", "len(channel_ids) in CHANNEL_COUNTS", "len(channel_ids) in range(1, 64)"),
    ("65 channels", "len(channel_ids) in CHANNEL_COUNTS", "len(channel_ids) in range(1, 66)"),
    ("a fresh status of 7", "    status: int = 0\n", "    status: int = 7\n"),
    ("fresh bytes queued", "    queued: int = 0\n", "    queued: int = 1\n"),
    ("a fresh sequence of 0", "    highest: int | None = None\n", "    highest: int | None = 0\n"),
)

LINES = of(
    "station",
    ("a refused start leaves no state", "    station.radio = radio_end.start_radio(",
     "    station.radio = None\n    station.radio = radio_end.start_radio("),
    ("a start keeps Context and Link Instance", "    station.radio = radio_end.start_radio(datalink_id, settings)\n",
     "    before = station.radio\n    station.radio = radio_end.start_radio(datalink_id, settings)\n"
     "    if before:\n        station.radio = radio_end.replace(station.radio, link_instance=before.link_instance, context=before.context)\n"),
    ("the sequence kept at 18",
     "    return keep_and_show(station, *radio_end.hear_datagram(station.radio, datagram, room))\n",
     "    after = radio_end.hear_datagram(station.radio, datagram, LENGTH_LIMIT)[0]\n"
     "    try:\n        return keep_and_show(station, *radio_end.hear_datagram(station.radio, datagram, room))\n"
     "    finally:\n        station.radio = after\n"),
    ("the status kept at 18",
     "    return keep_and_show(station, *radio_end.set_status(station.radio, channel_id, status, room))\n",
     "    after = radio_end.set_status(station.radio, channel_id, status, LENGTH_LIMIT)[0]\n"
     "    try:\n        return keep_and_show(station, *radio_end.set_status(station.radio, channel_id, status, room))\n"
     "    finally:\n        station.radio = after\n"),
    ("the Context kept at 18",
     "    return keep_and_show(station, *radio_end.set_context(station.radio, context, room))\n",
     "    after = radio_end.set_context(station.radio, context, LENGTH_LIMIT)[0]\n"
     "    try:\n        return keep_and_show(station, *radio_end.set_context(station.radio, context, room))\n"
     "    finally:\n        station.radio = after\n"),
    ("the bytes queued kept at 18",
     "    return keep_and_show(station, *radio_end.set_queued(station.radio, channel_id, queued, room))\n",
     "    after = radio_end.set_queued(station.radio, channel_id, queued, LENGTH_LIMIT)[0]\n"
     "    try:\n        return keep_and_show(station, *radio_end.set_queued(station.radio, channel_id, queued, room))\n"
     "    finally:\n        station.radio = after\n"),
    ("a status of 256 read", "STATUS_LIMIT = 255", "STATUS_LIMIT = 256"),
    ("no status of 255 read", "STATUS_LIMIT = 255", "STATUS_LIMIT = 254"),
    ("a status above 15 is a bad line", "STATUS_LIMIT = 255", "STATUS_LIMIT = 15"),
    ("a length of 256 read", "LINK_LENGTH_LIMIT = 255", "LINK_LENGTH_LIMIT = 256"),
    ("no length of 255 read", "LINK_LENGTH_LIMIT = 255", "LINK_LENGTH_LIMIT = 254"),
    ("a length above 8 is a bad line", "LINK_LENGTH_LIMIT = 255", "LINK_LENGTH_LIMIT = 8"),
    ("bytes of 2^64 read", "BYTES_LIMIT = 2**64 - 1", "BYTES_LIMIT = 2**64"),
    ("no bytes of 2^64 - 1 read", "BYTES_LIMIT = 2**64 - 1", "BYTES_LIMIT = 2**64 - 2"),
    ("words missing of a start", "    if len(words) != WORDS", "    if len(words) > WORDS"),
    ("words behind a start", "    if len(words) != WORDS",
     "    words = words[: WORDS_OF_A_CHANNEL * read_number(count_word, COUNT_LIMIT)]\n    if len(words) != WORDS"),
    ("a line before a start", '        if self.radio is None and first != b"start":\n',
     '        if self.radio is None and first not in (b"start", b"link"):\n'),
    ("a window of a plain channel shown as none", '        return "-"\n    window', '        return "none"\n    window'),
    ("no window shown as -", 'return "none" if window is None', 'return "-" if window is None'),
    ("no highest shown as none", '"-" if channel.highest is None', '"none" if channel.highest is None'),
    ("window and highest exchanged", "{show_window(channel)} {highest}", "{highest} {show_window(channel)}"),
    ("a Link Instance told unasked", '    return "kept"\n',
     '    return f"unasked {show_bytes(radio_end.tell_message(station.radio, LENGTH_LIMIT))}"\n'),
    ("a window shown from 0 before a sequence", "    window = radio_end.window_of(channel)\n",
     "    window = radio_end.window_of(radio_end.replace(channel, highest=channel.highest or 0))\n"),
    ("`context -` is a Context of no byte", "    context = read_bytes(hex_word) or None\n",
     "    context = read_bytes(hex_word)\n"),
)

WRITING = of(
    "ciri",
    ("Channel Statuses in configuration order", "for channel in sorted(meaning.statuses):",
     "for channel in meaning.statuses:"),
    ("Flow Windows in configuration order", "for channel in sorted(meaning.windows):", "for channel in meaning.windows:"),
    ("Context before Link Instance",
     "    if meaning.link_instance is not None:\n        yield write_option(LINK_INSTANCE, meaning.link_instance.value.to_bytes(meaning.link_instance.length, \"big\"))\n"
     "    if meaning.context is not None:\n        yield write_option(DATALINK_CONTEXT, meaning.context)\n",
     "    if meaning.context is not None:\n        yield write_option(DATALINK_CONTEXT, meaning.context)\n"
     "    if meaning.link_instance is not None:\n        yield write_option(LINK_INSTANCE, meaning.link_instance.value.to_bytes(meaning.link_instance.length, \"big\"))\n"),
    ("no window written as window 0", 'return b"" if window is None else', "return bytes(4) if window is None else"),
    ("2^31 is ahead by the distance", "difference if difference < MODULUS // 2 else",
     "difference if difference <= MODULUS // 2 else"),
)

WAYS = [*SEQUENCES, *WINDOWS, *QUEUES, *HEARING, *TELLING, *STARTS, *LINES, *WRITING]

UNSEEN_WAYS = [
    *of(
        "radio_end",
        # A line's state comes of accepted calls alone, so that it is within the limits.
        ("a state outside its limits taken", "    test_state(radio)\n    meaning", "    meaning"),
        ("any status in a state", "        fits_bits(channel.status, 4)\n        and fits_bits(channel.queued, 64)\n",
         "        fits_bits(channel.queued, 64)\n"),
        ("any bytes queued in a state", "        and fits_bits(channel.queued, 64)\n", ""),
        ("a plain channel with a highest in a state refused",
         "fits_bits(channel.highest, 32)", "(channel.setting.is_flow_controlled and fits_bits(channel.highest, 32))"),
        ("any Link Instance in a state",
         "        and (radio.link_instance is None or is_link_instance_allowed(radio.link_instance))\n", ""),
        ("any Context in a state", "        and (radio.context is None or is_context_allowed(radio.context))\n", ""),
        ("23's faults in a state", "        and all(is_allowance_allowed(setting) for setting in settings)\n", ""),
        # The writer gives 20 for a status above 15, too.
        ("status above 15 taken", STATUS_TEST, ""),
        ("status 16 taken", STATUS_TEST, STATUS_TEST.replace("not fits_bits(status, 4)", "status > 16")),
        # Number 19 is given then too, since there is no channel 0.
        ("no channel configured", "len(channel_ids) in CHANNEL_COUNTS", "len(channel_ids) <= 64"),
        # A Datalink ID is one byte's number: the station reads no other.
        ("a Datalink ID over 255 configured", "        fits_bits(datalink_id, 8)\n        and len(channel_ids)",
         "        len(channel_ids)"),
        # The watermark and the throughput are numbers from 0: the station reads no other.
        ("a watermark below 0 configured", "0 <= setting.watermark <=", "setting.watermark <="),
        # A data message changes one channel, and no status and no Context.
        ("a data message's own channel alone looked at", HEARD,
         "    own = carrier_of(meaning)\n    if windows_of(radio).get(own) == windows_of(after).get(own):\n"
         "        return after, HEARD, None\n" + HEARD),
        # The packet's channel is the only one that a Flow Sequence of a data message may name: else it is 10.
        ("a data message's Flow Sequence names no channel", "    return [*meaning.sequences, carrier_of(meaning)]\n",
         "    return [carrier_of(meaning)]\n"),
    ),
    *of(
        "station",
        # Both have the same limit, and only their sum counts.
        ("watermark and throughput exchanged",
         "        read_number(watermark_word, BYTES_LIMIT),\n        read_number(throughput_word, BYTES_LIMIT),\n",
         "        read_number(throughput_word, BYTES_LIMIT),\n        read_number(watermark_word, BYTES_LIMIT),\n"),
    ),
    *of(
        "ciri",
        # The longest message of the radio's end has 859 bytes.
        ("messages over the datagram's limit written", "if len(message) > room or len(message) > DATAGRAM_LIMIT:",
         "if len(message) > room:"),
    ),
]
