"""Ways to break the offers by the handful in `ciri.py` and their line in `session.py`: name, module, the place, what
stands there instead."""

from broken_messages import of_ciri
from broken_sessions import of_session

TEST = "    test_handful(channel_ids, expiries, lengths, packets, answers)\n"
LOOP = "    for place, length in enumerate(lengths):\n"
STRETCH = "        packet = packets[start : start + length]\n"
ANSWER = "        answers[place] = answer_offer(endpoint, memory, channel_ids[place], now, expiries[place], packet)\n"
STEP = "        start += length\n"
COUNT = "    count = len(channel_ids)\n"
MANY = "    if count > HANDFUL_LIMIT:\n"
COUNTS = "    if len(expiries) != count or len(lengths) != count or len(answers) != count:\n"
SUM = "    if sum(lengths) != len(packets):\n"
REFUSED = "        return refusal.number\n"
# The lines of the loop, each packet's stretch found first, so that they may be gone through in another order.
STARTS = "    starts = [sum(lengths[:place]) for place in range(len(lengths))]\n"
ONE = ("        packet = packets[starts[place] : starts[place] + lengths[place]]\n" + ANSWER)
BEFORE = "    import copy\n    channels_before, memory_before = copy.deepcopy(endpoint.channels), bytes(memory)\n"


def in_order(order):
    """The loop gone through in another order, each answer where it belongs."""
    return f"{STARTS}    for place in {order}:\n{ONE}"


def though_refused(lines):
    """The test of a handful, and what is done where it refuses."""
    return TEST.replace("    test", "    try:\n        test") + f"    except Refusal:\n{lines}        raise\n"


def at_count(old, new):
    """The test of the counts with another comparison."""
    return COUNTS, COUNTS.replace(old, new)


WHOLE = of_ciri(
    ("at most 31 in a handful", "HANDFUL_LIMIT = 32", "HANDFUL_LIMIT = 31"),
    ("33 in a handful", "HANDFUL_LIMIT = 32", "HANDFUL_LIMIT = 33"),
    ("any number in a handful", MANY, "    if False:\n"),
    ("no empty handful", MANY, "    if count == 0 or count > HANDFUL_LIMIT:\n"),
    ("no handful of one", MANY, "    if count == 1 or count > HANDFUL_LIMIT:\n"),
    ("13 for a handful that is 24", SUM + "        raise Refusal(24)\n", SUM + "        raise Refusal(13)\n"),
    ("19 for lists of unequal count", COUNTS + "        raise Refusal(24)\n", COUNTS + "        raise Refusal(19)\n"),
    ("17 for more than 32", MANY + "        raise Refusal(24)\n", MANY + "        raise Refusal(17)\n"),
    ("the channels' count not compared", COUNT, "    count = len(lengths)\n"),
    ("the expiries' count not compared", *at_count("len(expiries) != count", "False")),
    ("the lengths' count not compared", *at_count("len(lengths) != count", "False")),
    ("the answers' count not compared", *at_count("len(answers) != count", "False")),
    ("more expiries than packets", *at_count("len(expiries) != count", "len(expiries) < count")),
    ("fewer expiries than packets", *at_count("len(expiries) != count", "len(expiries) > count")),
    ("more lengths than packets", *at_count("len(lengths) != count", "len(lengths) < count")),
    ("fewer lengths than packets", *at_count("len(lengths) != count", "len(lengths) > count")),
    ("room for more answers than packets", *at_count("len(answers) != count", "len(answers) < count")),
    ("room for fewer answers than packets", *at_count("len(answers) != count", "len(answers) > count")),
    ("as many as the shortest list", TEST,
     "    count = min(len(channel_ids), len(expiries), len(lengths), len(answers))\n"
     "    channel_ids, expiries, lengths = channel_ids[:count], expiries[:count], lengths[:count]\n"
     "    del answers[count:]\n" + TEST),
    ("the sum not compared", SUM, "    if False:\n"),
    ("a sum at most the buffer's length", SUM, "    if sum(lengths) > len(packets):\n"),
    ("a sum at least the buffer's length", SUM, "    if sum(lengths) < len(packets):\n"),
    ("a sum a byte off", SUM, "    if abs(sum(lengths) - len(packets)) > 1:\n"),
    ("the sum counted in 16 bits", SUM, "    if sum(lengths) % 2**16 != len(packets) % 2**16:\n"),
    ("the sum counted in 24 bits", SUM, "    if sum(lengths) % 2**24 != len(packets):\n"),
    ("the sum counted in 27 bits", SUM, "    if sum(lengths) % 2**27 != len(packets):\n"),
    ("an empty handful of any buffer", SUM, "    if lengths and sum(lengths) != len(packets):\n"),
    ("an empty buffer of any lengths", SUM, "    if packets and sum(lengths) != len(packets):\n"),
    ("24 for a length of 0", SUM, "    if 0 in lengths or sum(lengths) != len(packets):\n"),
    ("24 for a length under 40", SUM, "    if any(length < 40 for length in lengths) or sum(lengths) != len(packets):\n"),
    ("24 for a length over 9000", SUM, "    if any(length > PACKET_LIMIT for length in lengths) or sum(lengths) != len(packets):\n"),
    ("12 before 24", TEST, though_refused(
        "        for channel_id in channel_ids:\n            find_channel(endpoint, channel_id)\n")),
    ("15 before 24", TEST, though_refused(
        "        for channel_id in channel_ids:\n"
        "            for channel in endpoint.channels:\n"
        "                if channel.configuration.channel_id == channel_id:\n                    test_time(channel, now)\n")),
    ("16 before 24", TEST, though_refused(
        "        if any(expiry <= now for expiry in expiries):\n            raise Refusal(16)\n")),
    ("packets expire though 24 is given", TEST, though_refused(
        "        for channel in endpoint.channels:\n"
        "            keep_waiting(endpoint, memory, channel, find_unexpired(endpoint, memory, channel, now))\n")),
    ("the latest time moves though 24 is given", TEST, though_refused(
        "        for channel in endpoint.channels:\n            channel.latest = max(channel.latest, now)\n")),
    ("what fits is taken though 24 is given", TEST, though_refused(
        "        start = 0\n"
        "        for channel_id, expiry, length in zip(channel_ids, expiries, lengths):\n"
        "            answer_offer(endpoint, memory, channel_id, now, expiry, packets[start : start + length])\n"
        "            start += length\n")),
)

EACH = of_ciri(
    ("stops at the first refusal", ANSWER,
     ANSWER + "        if answers[place] != TAKEN:\n"
     "            answers[place:] = [answers[place]] * (len(answers) - place)\n            break\n"),
    ("stops at the first 17", ANSWER,
     ANSWER + "        if answers[place] == 17:\n            answers[place:] = [17] * (len(answers) - place)\n            break\n"),
    ("17 for all behind it on that channel", ANSWER,
     ANSWER + "        if (channel_ids[place], 17) in list(zip(channel_ids, answers))[:place] and answers[place] == TAKEN:\n"
     "            answers[place] = 17\n"),
    ("what is behind a refused one of its channel isn't tried", ANSWER,
     "        refused = [one for one, answer in zip(channel_ids[:place], answers) if answer != TAKEN]\n"
     "        if channel_ids[place] in refused:\n            answers[place] = 17\n            start += length\n            continue\n"
     + ANSWER),
    ("all or nothing", LOOP + STRETCH + ANSWER + STEP,
     BEFORE + LOOP + STRETCH + ANSWER + STEP + "    if any(answers):\n"
     "        endpoint.channels[:], memory[:] = channels_before, memory_before\n"),
    ("one refusal is the whole handful's", REFUSED, "        raise\n"),
    ("an unknown channel is the whole handful's", REFUSED, "        if refusal.number == 12:\n            raise\n" + REFUSED),
    ("a time gone by is the whole handful's", REFUSED, "        if refusal.number == 15:\n            raise\n" + REFUSED),
    ("a refused stretch isn't passed over", STEP, "        start += length if answers[place] == TAKEN else 0\n"),
    ("a stretch that isn't IPv6 isn't passed over", STEP, "        start += length if answers[place] != 13 else 0\n"),
    ("an unknown channel's stretch isn't passed over", STEP, "        start += length if answers[place] != 12 else 0\n"),
    ("a full store's stretch isn't passed over", STEP, "        start += length if answers[place] != 17 else 0\n"),
    ("at least 40 bytes are passed over", STEP, "        start += max(length, IPV6_HEADER_LENGTH)\n"),
    ("at most 9000 bytes are passed over", STEP, "        start += min(length, PACKET_LIMIT)\n"),
    ("stretches by the Payload Length", STRETCH,
     "        length = IPV6_HEADER_LENGTH + int.from_bytes(packets[start + 4 : start + 6], 'big')\n" + STRETCH),
    ("each packet from the buffer's start", STRETCH, "        packet = packets[:length]\n"),
    ("an empty stretch is taken", ANSWER, ANSWER + "        answers[place] = answers[place] if length else TAKEN\n"),
    ("17 judged on the state before the call", LOOP + STRETCH + ANSWER,
     "    import copy\n    before, memory_before = copy.deepcopy(endpoint), bytes(memory)\n" + LOOP + STRETCH + ANSWER
     + "        answers[place] = answer_offer(copy.deepcopy(before), bytearray(memory_before), channel_ids[place], now,\n"
     "                                      expiries[place], packet)\n"),
    ("the packets backwards", LOOP + STRETCH + ANSWER + STEP, in_order("reversed(range(len(lengths)))")),
    ("the shortest packets first", LOOP + STRETCH + ANSWER + STEP,
     in_order("sorted(range(len(lengths)), key=lambda place: lengths[place])")),
    ("the soonest expiries first", LOOP + STRETCH + ANSWER + STEP,
     in_order("sorted(range(len(lengths)), key=lambda place: expiries[place])")),
    ("answers grouped by channel", LOOP + STRETCH + ANSWER + STEP,
     LOOP + STRETCH + ANSWER + STEP + "    order = sorted(range(len(lengths)), key=lambda place: channel_ids[place])\n"
     "    answers[:] = [answers[place] for place in order]\n"),
    ("answers backwards", LOOP + STRETCH + ANSWER + STEP, LOOP + STRETCH + ANSWER + STEP + "    answers.reverse()\n"),
    ("refused answers behind the others", LOOP + STRETCH + ANSWER + STEP,
     LOOP + STRETCH + ANSWER + STEP + "    answers.sort()\n"),
    ("every refusal is 13", REFUSED, "        return 13\n"),
    ("a refusal's place for its number", REFUSED, "        return refusal.place\n"),
    ("every packet is answered taken", REFUSED, "        return TAKEN\n"),
    ("the first expiry for all", ANSWER, ANSWER.replace("expiries[place]", "expiries[0]")),
    ("the last expiry for all", ANSWER, ANSWER.replace("expiries[place]", "expiries[-1]")),
    ("the first channel for all", ANSWER, ANSWER.replace("channel_ids[place]", "channel_ids[0]")),
    ("the time runs on by each packet", ANSWER, ANSWER.replace("now,", "now + place,")),
    ("15 for the first packet alone", ANSWER,
     "        latest = [channel.latest for channel in endpoint.channels if channel.configuration.channel_id == channel_ids[place]]\n"
     + ANSWER.replace("now,", "max(now, *latest, 0) if place else now,")),
    ("15 for all by the first packet's channel", LOOP,
     "    if any(now < channel.latest for channel in endpoint.channels if channel.configuration.channel_id in channel_ids[:1]):\n"
     "        answers[:], lengths = [15] * len(answers), []\n" + LOOP),
    ("15 by any channel", ANSWER,
     ANSWER + "        if answers[place] == TAKEN and any(now < channel.latest for channel in endpoint.channels):\n"
     "            answers[place] = 15\n"),
    ("one packet of a channel in a handful", ANSWER,
     "        if channel_ids[place] in channel_ids[:place]:\n            answers[place] = 17\n            start += length\n            continue\n"
     + ANSWER),
    ("one packet of a channel in a row", ANSWER,
     "        if place and channel_ids[place] == channel_ids[place - 1]:\n"
     "            answers[place] = 17\n            start += length\n            continue\n" + ANSWER),
    ("a packet that is there twice is taken once", ANSWER,
     "        if packet in [packets[sum(lengths[:one]) : sum(lengths[: one + 1])] for one in range(place)]:\n"
     "            answers[place] = TAKEN\n            start += length\n            continue\n" + ANSWER),
    ("every channel's packets expire", LOOP,
     "    for channel in endpoint.channels:\n"
     "        keep_waiting(endpoint, memory, channel, find_unexpired(endpoint, memory, channel, now))\n" + LOOP),
    ("a named channel's packets expire though all are refused", LOOP,
     "    for channel in endpoint.channels:\n        if channel.configuration.channel_id in channel_ids and now >= channel.latest:\n"
     "            keep_waiting(endpoint, memory, channel, find_unexpired(endpoint, memory, channel, now))\n" + LOOP),
    ("a named channel's latest time moves though all are refused", LOOP,
     "    for channel in endpoint.channels:\n        if channel.configuration.channel_id in channel_ids:\n"
     "            channel.latest = max(channel.latest, now)\n" + LOOP),
    ("every channel's latest time moves", LOOP,
     "    for channel in endpoint.channels:\n        channel.latest = max(channel.latest, now)\n" + LOOP),
    ("a refused packet's channel takes the time", REFUSED,
     "        for channel in endpoint.channels:\n"
     "            if channel.configuration.channel_id == channel_id and refusal.number in (16, 17):\n"
     "                channel.latest = now\n" + REFUSED),
)

CALL = "    ciri.offer_handful(session.endpoint, session.memory, channel_ids, expiries, lengths, packets, now, answers)\n"
KEYWORD = "    if words[:1] != [keyword] or len(words) < 2:\n"

LINE = of_session(
    ("an offered packet without its place", 'f"refused {answer} 0"', 'f"refused {answer}"'),
    ("an offered packet's answer as a number", '"taken" if answer == ciri.TAKEN else f"refused {answer} 0"', "str(answer)"),
    ("`offered` without its answers", '" ".join(["offered", *(show_answer(answer) for answer in answers)])', '"offered"'),
    ("no `offered` in front", '" ".join(["offered", *(show_answer(answer) for answer in answers)])',
     '" ".join(show_answer(answer) for answer in answers)'),
    ("as many answers as lengths", CALL, "    answers = [None] * len(lengths)\n" + CALL),
    ("channels and expiries change places", CALL, CALL.replace("channel_ids, expiries", "expiries, channel_ids")),
    ("channels up to 254 in a handful", 'read_list(rest, b"channels", ID_LIMIT)', 'read_list(rest, b"channels", 254)'),
    ("any channel in a handful", 'read_list(rest, b"channels", ID_LIMIT)', 'read_list(rest, b"channels", TIME_LIMIT)'),
    ("expiries up to 2^32 - 1 in a handful", 'read_list(rest, b"expiries", TIME_LIMIT)', 'read_list(rest, b"expiries", SEQUENCE_LIMIT)'),
    ("lengths up to 65536 in a handful", 'read_list(rest, b"lengths", LENGTH_LIMIT)', 'read_list(rest, b"lengths", 65536)'),
    ("any length in a handful", 'read_list(rest, b"lengths", LENGTH_LIMIT)', 'read_list(rest, b"lengths", TIME_LIMIT)'),
    ("a list's keyword in other letters", KEYWORD, KEYWORD.replace("words[:1]", "[word.lower() for word in words[:1]]")),
    ("any word for a list's keyword", KEYWORD, "    if len(words) < 2:\n"),
    ("a keyword that begins alike", KEYWORD, "    if len(words) < 2 or words[0][:6] != keyword[:6]:\n"),
    ("lists in any order", '    channel_ids = read_list(rest, b"channels", ID_LIMIT)\n    expiries = read_list(rest, b"expiries", TIME_LIMIT)\n',
     '    if rest[0] == b"expiries":\n        expiries = read_list(rest, b"expiries", TIME_LIMIT)\n'
     '        channel_ids = read_list(rest, b"channels", ID_LIMIT)\n'
     '    else:\n        channel_ids = read_list(rest, b"channels", ID_LIMIT)\n        expiries = read_list(rest, b"expiries", TIME_LIMIT)\n'),
    ("32 in a list at most", "    count = read_number(words[1], COUNT_LIMIT)\n", "    count = read_number(words[1], 32)\n"),
    ("79 in a list at most", "    count = read_number(words[1], COUNT_LIMIT)\n", "    count = read_number(words[1], 79)\n"),
    ("81 in a list", "    count = read_number(words[1], COUNT_LIMIT)\n", "    count = read_number(words[1], 81)\n"),
    ("words for two lists of 80", "10 + 3 * COUNT_LIMIT", "10 + 2 * COUNT_LIMIT"),
    ("words behind a handful", "    if len(rest) != 1:\n", "    if len(rest) < 1:\n"),
    ("`offers` before a start", "if self.endpoint is None and first not in WITHOUT_STATE:\n",
     "if self.endpoint is None and first == b'offers':\n            return 'offered'\n"
     "        if self.endpoint is None and first not in WITHOUT_STATE:\n"),
    ("`offers` is no line", '    b"offers": (answer_offers, 10, 10 + 3 * COUNT_LIMIT),\n', ""),
)

HANDFUL_WAYS = [*WHOLE, *EACH, *LINE]
