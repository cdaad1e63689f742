"""Ways to break `judge.py`: name, then places with what stands there instead."""

STATED = "            return NO_WINDOW if windows[channel] is None else windows[channel]\n"
ABSENT = "            if channel not in windows:\n                return FREE\n"
EARLIER = "flow_after(channel, before[:before.index(message)])"
OBEYS = "    return sequence == (base + length) % MODULUS and length <= distance(base, flow)\n"
SEEN = "is_radio_control(message) or is_sent_on(channel, message)]"
SENT = "message.end == IPS and message.meaning.plane == DATA and (0 if stated is None else stated) == channel"
LATEST = "    for message in reversed(before):\n        if is_radio_control(message):\n"
RECORDS = "enumerate(whole_records(file, order), 1)"
TAKEN = "            messages += accepted(setting, record, kind, datagram)\n"

# Each way: its name, then places of judge.py with what stands there instead.
WAYS = (
    ("passes all", ('return "passes" if first is None else', 'return "passes" if True else')),
    ("the plain difference to the window", (OBEYS, OBEYS.replace("distance(base, flow)", "flow - base"))),
    (
        "the sequence at most the window, as plain numbers",
        (OBEYS, OBEYS.replace("length <= distance(base, flow)", "sequence <= flow")),
    ),
    ("the distance from 0 up", (OBEYS, OBEYS.replace("distance(base, flow)", "(flow - base) % MODULUS"))),
    (
        "a distance of 2^31 up",
        (
            OBEYS,
            OBEYS.replace("distance(base, flow)", "(-distance(flow, base) if distance(flow, base) == -2**31 else distance(base, flow))"),
        ),
    ),
    (
        "the largest window kept",
        (
            STATED,
            f"            earlier = {EARLIER}\n            return NO_WINDOW if windows[channel] is None else "
            "max(earlier, windows[channel]) if isinstance(earlier, int) else windows[channel]\n",
        ),
    ),
    (
        "the farthest window kept, by distance",
        (
            STATED,
            f"            earlier = {EARLIER}\n            return NO_WINDOW if windows[channel] is None else "
            "earlier if isinstance(earlier, int) and distance(windows[channel], earlier) > 0 else windows[channel]\n",
        ),
    ),
    (
        "the first window kept",
        (
            STATED,
            f"            earlier = {EARLIER}\n            return NO_WINDOW if windows[channel] is None else "
            "earlier if isinstance(earlier, int) else windows[channel]\n",
        ),
    ),
    (
        "the old window kept after an empty option",
        (STATED, f"            return {EARLIER} if windows[channel] is None else windows[channel]\n"),
    ),
    (
        "the old window kept after an absent option",
        (
            ABSENT,
            f"            earlier = {EARLIER}\n            if channel not in windows:\n"
            "                return earlier if isinstance(earlier, int) else FREE\n",
        ),
    ),
    ("an empty option is window 0", (STATED, STATED.replace("NO_WINDOW", "0"))),
    ("an empty option is free", (STATED, STATED.replace("NO_WINDOW", "FREE"))),
    ("an absent option is no window", (ABSENT, ABSENT.replace("FREE", "NO_WINDOW"))),
    ("the sequence from before the packet", (OBEYS, OBEYS.replace("(base + length) % MODULUS", "base"))),
    ("any sequence", (OBEYS, OBEYS.replace("sequence == (base + length) % MODULUS and ", ""))),
    (
        "any sequence that isn't lower, by distance",
        (OBEYS, OBEYS.replace("sequence == (base + length) % MODULUS", "distance(base, sequence) >= 0")),
    ),
    ("any window", (OBEYS, OBEYS.replace(" and length <= distance(base, flow)", ""))),
    ("a packet that fits exactly doesn't", (OBEYS, OBEYS.replace("length <=", "length <"))),
    ("a byte over the window", (OBEYS, OBEYS.replace("length <=", "length - 1 <="))),
    ("a sum that doesn't wrap", (OBEYS, OBEYS.replace("(base + length) % MODULUS", "base + length"))),
    (
        "the whole count fits from the first sequence less its bytes",
        ("    for message in reversed(before):\n        if is_sent_on", "    for message in before:\n        if is_sent_on"),
    ),
    (
        "every message counted from its own sequence less its bytes",
        ("            return message.meaning.sequences[channel]\n", "            pass\n"),
    ),
    ("the first counted from 0", ("    return (sequence - length) % MODULUS\n", "    return 0\n")),
    ("the first counted from its own sequence", ("    return (sequence - length) % MODULUS\n", "    return sequence\n")),
    ("the first isn't wrapped", ("    return (sequence - length) % MODULUS\n", "    return max(0, sequence - length)\n")),
    (
        "a base from a query",
        (SEEN, "message.meaning.plane == CONTROL or is_sent_on(channel, message)]"),
        (
            "        if is_sent_on(channel, message) and channel in message",
            "        if message.end == IPS and channel in message",
        ),
    ),
    (
        "sends on a free channel are counted",
        (
            "            return message.meaning.sequences[channel]\n",
            "            behind = before[before.index(message) + 1:]\n"
            "            return (message.meaning.sequences[channel] + sum(len(one.meaning.packet) for one in behind if is_sent_on(channel, one))) % MODULUS\n",
        ),
    ),
    (
        "a free channel forgets the base",
        (
            "    for message in reversed(before):\n        if is_sent_on",
            "    for message in reversed(before):\n        if is_radio_control(message) and channel not in message.meaning.windows:\n"
            "            break\n        if is_sent_on",
        ),
    ),
    (
        "numbers that count only CIRI datagrams",
        (
            RECORDS,
            "enumerate((one for one in whole_records(file, order) if find_datagram(setting, *one)[0] in (IPS, RADIO, FRAGMENT, SHORTENED)), 1)",
        ),
    ),
    ("numbers that count only accepted messages", (TAKEN, TAKEN.replace("record", "len(messages) + 1"))),
    ("numbers from 0", (RECORDS, RECORDS.replace("1)", "0)"))),
    (
        "numbers that count the channel's data messages",
        ("            yield message.record\n", "            yield sum(is_sent_on(channel, one) for one in seen[:place]) + 1\n"),
    ),
    (
        "refused datagrams as undecided",
        ("    except Refusal:\n        return []\n", "    except Refusal as refusal:\n        raise Undecided from refusal\n"),
    ),
    (
        "refused radio messages as undecided",
        (
            "    except Refusal:\n        return []\n",
            "    except Refusal as refusal:\n        if end == RADIO:\n            raise Undecided from refusal\n        return []\n",
        ),
    ),
    ("the last breach reported", ("next(breaches(channel, messages), None)", "max(breaches(channel, messages), default=None)")),
    (
        "a Datalink ID of any number",
        (
            "read_message(end, setting.datalink_id, datagram)",
            "read_message(end, datagram[4] if len(datagram) > 4 else 0, datagram)",
        ),
    ),
    (
        "before any radio control message as free",
        (
            "    if flow in (NOT_SEEN, NO_WINDOW):",
            "    if flow == NOT_SEEN:\n        return sequence is None\n    if flow == NO_WINDOW:",
        ),
    ),
    (
        "before any radio control message anything",
        ("    if flow in (NOT_SEEN, NO_WINDOW):", "    if flow == NOT_SEEN:\n        return True\n    if flow == NO_WINDOW:"),
    ),
    (
        "without a window a message without a sequence",
        (
            "    if flow in (NOT_SEEN, NO_WINDOW):\n        return False\n",
            "    if flow == NOT_SEEN:\n        return False\n    if flow == NO_WINDOW:\n        return sequence is None\n",
        ),
    ),
    ("a Flow Sequence on a free channel", ("        return sequence is None\n", "        return True\n")),
    (
        "no Flow Sequence under a window",
        ("    if sequence is None:\n        return False\n", "    if sequence is None:\n        return True\n"),
    ),
    (
        "packets without a byte always obey",
        ("    flow, sequence, length =", "    if not meaning.packet:\n        return True\n    flow, sequence, length ="),
    ),
    ("the radio's data messages judged", (SENT, SENT.removeprefix("message.end == IPS and "))),
    (
        "an IPS control message as the radio's",
        ("message.end == RADIO and message.meaning.plane == CONTROL", "message.meaning.plane == CONTROL"),
    ),
    (
        "no Channel Identifier is no channel",
        (SENT, SENT.replace("(0 if stated is None else stated) == channel", "stated == channel")),
    ),
    (
        "no Channel Identifier is every channel",
        (SENT, SENT.replace("(0 if stated is None else stated) == channel", "stated in (None, channel)")),
    ),
    (
        "a channel that isn't operational has no window",
        (
            LATEST,
            LATEST + "            if not 1 <= message.meaning.statuses.get(channel, 0) <= 7:\n                return NO_WINDOW\n",
        ),
    ),
    (
        "a status of 0 ends a window",
        (LATEST, LATEST + "            if message.meaning.statuses.get(channel) == 0:\n                return NO_WINDOW\n"),
    ),
    ("fragments passed over", ("if kind in (FRAGMENT, SHORTENED):", "if kind == SHORTENED:")),
    ("shortened records passed over", ("if kind in (FRAGMENT, SHORTENED):", "if kind == FRAGMENT:")),
    ("other records as undecided", ("if kind in (FRAGMENT, SHORTENED):", "if kind not in (IPS, RADIO):")),
    (
        "a fragment behind a breach decides nothing of it",
        ("            raise Undecided\n        if kind in (IPS, RADIO):", "            break\n        if kind in (IPS, RADIO):"),
    ),
    (
        "25 as a capture without a record",
        ("    if order is None:\n        raise Undecided\n", "    if order is None:\n        return []\n"),
    ),
    ("26 as an end", ("        raise Undecided from refusal\n\n\ndef accepted", "        return []\n\n\ndef accepted")),
    ("the header alone for undecided", ('        yield from (f"{channel} undecided" for channel in CHANNELS)\n', "")),
    (
        "a last line that says 25 or 26",
        (
            '        yield from (f"{channel} undecided" for channel in CHANNELS)\n',
            '        yield from (f"{channel} undecided" for channel in CHANNELS)\n        yield "refused 26"\n',
        ),
    ),
)
