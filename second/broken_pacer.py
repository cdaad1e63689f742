"""Ways to break the pacer in `ciri.py`: name, module, the place, what stands there instead."""

from broken_messages import of_ciri

CLOCK = "    endpoint.pacer.clock = now\n    if meaning.plane == DATA:\n        return False\n"
HEARD = "    endpoint.pacer.last_heard = now\n"
READING = "    meaning = read_message(RADIO, endpoint.datalink_id, datagram)\n"
DUE = "    is_due = pacer.last_due + pacer.hello_time <= now\n"
SILENT = "    is_silent = pacer.last_heard + pacer.silence_limit <= now\n"
SILENCED = "        for channel in endpoint.channels:\n            silence_channel(channel)\n"
FLOW = "        channel.flow = NO_WINDOW\n"

WAITS = of_ciri(
    ("a HelloTime of 0", "wait != 0 for wait in (pacer.hello_time, pacer.silence_limit)",
     "wait != 0 for wait in (pacer.silence_limit,)"),
    ("a silence limit of 0", "wait != 0 for wait in (pacer.hello_time, pacer.silence_limit)",
     "wait != 0 for wait in (pacer.hello_time,)"),
    ("22 only where both waits are 0", "return all(fits_bits(wait, 64) and", "return any(fits_bits(wait, 64) and"),
    ("no wait of 1", "fits_bits(wait, 64) and wait != 0", "fits_bits(wait, 64) and wait > 1"),
    ("no wait of 2^64 - 1", "fits_bits(wait, 64) and wait != 0", "0 < wait < 2**64 - 1"),
    ("19 for a wait of 0 in a configuration", "        raise Refusal(22)\n", "        raise Refusal(19)\n"),
    ("22 before the memory's 19",
     "    test_memory(configurations, memory)\n" "    if not are_waits_allowed(pacer):\n" "        raise Refusal(22)\n",
     "    if not are_waits_allowed(pacer):\n" "        raise Refusal(22)\n" "    test_memory(configurations, memory)\n"),
    ("22 before the channels' 19",
     "    test_configuration(datalink_id, configurations, codes)\n" "    test_memory(configurations, memory)\n"
     "    if not are_waits_allowed(pacer):\n" "        raise Refusal(22)\n",
     "    if not are_waits_allowed(pacer):\n" "        raise Refusal(22)\n"
     "    test_configuration(datalink_id, configurations, codes)\n" "    test_memory(configurations, memory)\n"),
    ("due only after more than HelloTime", DUE, DUE.replace("<=", "<")),
    ("due a millisecond early", DUE, DUE.replace("<= now", "<= now + 1")),
    ("silent only after more than the limit", SILENT, SILENT.replace("<=", "<")),
    ("silent a millisecond early", SILENT, SILENT.replace("<= now", "<= now + 1")),
    ("due counted modulo 2^64", DUE, "    is_due = (pacer.last_due + pacer.hello_time) % 2**64 <= now\n"),
    ("silent counted modulo 2^64", SILENT, "    is_silent = (pacer.last_heard + pacer.silence_limit) % 2**64 <= now\n"),
    ("due by the silence limit", DUE, DUE.replace("hello_time", "silence_limit")),
    ("silent by HelloTime", SILENT, SILENT.replace("silence_limit", "hello_time")),
    ("due since the last control message", DUE, DUE.replace("last_due", "last_heard")),
    ("silent since the last due query", SILENT, SILENT.replace("last_heard", "last_due")),
    ("due since the clock", "    pacer.clock = now\n" + DUE,
     DUE.replace("pacer.last_due", "pacer.clock") + "    pacer.clock = now\n"),
    ("the first ask is due", DUE, DUE.replace(" <= now", " <= now or pacer.last_due == 0")),
    ("no silence before a first control message", SILENT, SILENT.replace(" <= now", " <= now and pacer.last_heard > 0")),
    ("every ask moves the last due", "    if is_due:\n        pacer.last_due = now\n", "    pacer.last_due = now\n"),
    ("the last due grows by HelloTime", "        pacer.last_due = now\n", "        pacer.last_due += pacer.hello_time\n"),
    ("the last due stays", "        pacer.last_due = now\n", "        pass\n"),
    ("a silence restarts its wait", SILENCED, SILENCED + "        pacer.last_heard = now\n"),
    ("silent once in a silence", "    if is_silent:\n",
     "    is_silent = is_silent and any(channel.status is not None for channel in endpoint.channels)\n    if is_silent:\n"),
    ("no query due in a silence", "    return is_due, is_silent\n", "    return is_due and not is_silent, is_silent\n"),
    ("no silence where a query is due", "    return is_due, is_silent\n", "    return is_due, is_silent and not is_due\n"),
    ("a query puts the next one off", "    meaning = Meaning(CONTROL, endpoint.datalink_id)\n",
     "    meaning = Meaning(CONTROL, endpoint.datalink_id)\n    endpoint.pacer.last_due = endpoint.pacer.clock\n"),
)

TIMES = of_ciri(
    ("the clock's time again is 21", "    if now < pacer.clock:", "    if now <= pacer.clock and pacer.clock > 0:"),
    ("the pacer's time may go back", "    if now < pacer.clock:", "    if False:"),
    ("the pacer's time may go back by one", "    if now < pacer.clock:", "    if now + 1 < pacer.clock:"),
    ("15 for a pacer time", "        raise Refusal(21)\n", "        raise Refusal(15)\n"),
    ("21 after reading", "    test_pacer_time(endpoint.pacer, now)\n" + READING,
     READING + "    test_pacer_time(endpoint.pacer, now)\n"),
    ("21 in no radio message", "    test_pacer_time(endpoint.pacer, now)\n", ""),
    ("21 in no ask", "    test_pacer_time(pacer, now)\n", ""),
    ("21 before the last due and the last heard alone", "    if now < pacer.clock:", "    if now < max(pacer.last_due, pacer.last_heard):"),
    ("an ask moves no clock", "    pacer.clock = now\n    is_due", "    is_due"),
    ("a quiet ask moves no clock", "    pacer.clock = now\n" + DUE,
     DUE + "    pacer.clock = now if is_due else pacer.clock\n"),
    ("a refused ask moves the clock", "    test_pacer_time(pacer, now)\n    pacer.clock = now\n",
     "    before, pacer.clock = pacer.clock, now\n    if now < before:\n        raise Refusal(21)\n"),
    ("a refused message moves the clock", READING, "    endpoint.pacer.clock = now\n" + READING),
    ("a refused message is heard", READING, HEARD + READING),
    ("a control message moves no clock", CLOCK,
     "    if meaning.plane == DATA:\n        endpoint.pacer.clock = now\n        return False\n"),
    ("a data message moves no clock", CLOCK,
     "    if meaning.plane == DATA:\n        return False\n    endpoint.pacer.clock = now\n"),
    ("a data message restarts the silence", CLOCK, HEARD + CLOCK),
    ("a control message isn't heard", HEARD, ""),
    ("a control message is heard at the clock before", "    endpoint.pacer.clock = now\n    if meaning",
     "    before, endpoint.pacer.clock = endpoint.pacer.clock, now\n"
     "    endpoint.pacer.last_heard = before if meaning.plane == CONTROL else endpoint.pacer.last_heard\n"
     "    now = before if meaning.plane == CONTROL else now\n    if meaning"),
    ("a control message puts the query off", HEARD, HEARD + "    endpoint.pacer.last_due = now\n"),
    ("a data message tests for silence", "        return False\n    endpoint.pacer.last_heard = now\n",
     "        ask_pacer(endpoint, now)\n        return False\n    endpoint.pacer.last_heard = now\n"),
    ("a message after the limit isn't heard", HEARD,
     "    if endpoint.pacer.last_heard + endpoint.pacer.silence_limit <= now:\n        return False\n" + HEARD),
    ("a silence counts on a channel's latest time", "    channel.status = None\n    if",
     "    channel.status, channel.latest = None, channel.latest + 1\n    if"),
    ("21 before a channel's latest time", "    pacer.clock = now\n    is_due",
     "    if any(now < channel.latest for channel in endpoint.channels):\n        raise Refusal(21)\n"
     "    pacer.clock = now\n    is_due"),
)

SILENCES = of_ciri(
    ("a silence changes nothing", SILENCED, "        pass\n"),
    ("a silence on channel 0 alone", SILENCED, "        silence_channel(find_channel(endpoint, 0))\n"),
    ("a silence on sixteen channels alone", SILENCED, SILENCED.replace("endpoint.channels:", "endpoint.channels[:16]:")),
    ("a silence on flow-controlled channels alone", "    channel.status = None\n    if",
     "    channel.status = None if channel.configuration.is_flow_controlled else channel.status\n    if"),
    ("a silence leaves channels that packets wait on", "            silence_channel(channel)\n",
     "            if not channel.queue:\n                silence_channel(channel)\n"),
    ("status 0 in a silence", "    channel.status = None\n    if", "    channel.status = 0\n    if"),
    ("a silence leaves the status", "    channel.status = None\n    if", "    if"),
    ("a silence leaves the window", FLOW, "        pass\n"),
    ("a free flow-controlled channel stays free", FLOW,
     "        channel.flow = FREE if channel.flow == FREE else NO_WINDOW\n"),
    ("a flow-controlled channel becomes free", FLOW, "        channel.flow = FREE\n"),
    ("window 0 in a silence", FLOW, "        channel.flow = 0\n"),
    ("a plain channel gets no window", "        channel.flow = NO_WINDOW\n", "        pass\n    channel.flow = NO_WINDOW\n"),
    ("a silence withdraws", FLOW, FLOW + "    channel.queue = []\n"),
    ("a silence zeroes the sequence", FLOW, FLOW + "        channel.sequence = 0\n"),
    ("a silence returns to the first sequence", FLOW,
     FLOW + "        channel.sequence = channel.configuration.first_sequence\n"),
    ("a silence zeroes the latest time", FLOW, FLOW + "    channel.latest = 0\n"),
    ("a silence is a gap", SILENCED, SILENCED + "        endpoint.is_gap = True\n"),
    ("a silence forgets the Link Instance", SILENCED, SILENCED + "        endpoint.link_instance = None\n"),
    ("a silence moves the latest time", SILENCED,
     "        for channel in endpoint.channels:\n            silence_channel(channel)\n            channel.latest = now\n"),
)

PACER_WAYS = [*WAITS, *TIMES, *SILENCES]
