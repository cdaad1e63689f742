"""What came to pass in a flight: whether the script drawn by lot has what it is for."""

import collections
import copy
import dataclasses
import re

import ciri
from session import TIME_LIMIT, Session, read_list

HAPPENINGS = (
    "wrap crossed", "window granted", "window shrunk", "window withdrawn", "window absent", "status up", "status down",
    "status not reported", "context of another length", "context of other bytes", "same context after a gap",
    "expired in the middle", "a byte too short", "silence over waiting packets", "silence on a free channel",
    "silence under a window", "silence on a plain channel", "silent again", "late query",
    "data message after a limit", "control message after a limit", "refused message after a limit",
    "sent under a configured status", "held back under an unknown status", "handful for several channels",
    "handful refused as a whole", "taken behind a refused one", "no room left by the same handful",
    "expired by a handful",
)


def count_happenings(lines):
    """How often each thing came to pass that the flight is for."""
    first, *others = lines
    session = Session()
    session.answer(first.encode())
    counted = collections.Counter()
    for line in others:
        before = keep_endpoint(session.endpoint)
        answer = session.answer(line.encode())
        counted.update(find_happenings(before, line.split(" "), answer, session))
    return counted


def keep_endpoint(endpoint):
    """The state as it stands, for a look back after a call."""
    channels = [copy.copy(channel) for channel in endpoint.channels]
    return dataclasses.replace(endpoint, channels=channels, pacer=copy.copy(endpoint.pacer))


def find_happenings(before, words, answer, session):
    """What one call brought about."""
    if words[0] == "radio":
        yield from find_in_radio(before, session.endpoint)
        yield from find_in_time(before.pacer, words, answer)
    elif words[0] == "pace":
        yield from find_in_pace(before, int(words[1]), answer)
    elif words[0] == "offers":
        yield from find_in_handful(before, words, answer)
    elif words[0] == "next" and answer == "refused 18 0":
        yield from find_in_short_room(words, session)
    elif words[0] in ("offer", "next") and not answer.startswith("refused"):
        yield from find_in_queue(before, words, session.endpoint)
        yield from find_in_codes(before, words, answer)


def find_in_radio(before, after):
    """What a radio message changed."""
    yield from find_in_context(before.context, after.context)
    if before.is_gap and not after.is_gap and before.context == after.context:
        yield "same context after a gap"
    for old, new in zip(before.channels, after.channels):
        yield from find_in_status(old.status, new.status)
        yield from find_in_flow(old.flow, new.flow)


def find_in_time(pacer, words, answer):
    """A radio message that came when the silence limit was over already, which it doesn't test."""
    now = int(words[1])
    if now >= pacer.clock and now >= pacer.last_heard + pacer.silence_limit:
        if answer.startswith("refused"):
            yield "refused message after a limit"
        else:
            yield f"{ciri.read_plane(bytes.fromhex(words[2]))} message after a limit"


def find_in_pace(before, now, answer):
    """What the pacer's answer brought about: a query due late, a silence and what it ended."""
    if "due" in answer and now > before.pacer.last_due + before.pacer.hello_time:
        yield "late query"
    if "silent" in answer:
        yield from (name for channel in before.channels for name in find_in_silence(channel))
        if all(channel.status is None for channel in before.channels):
            yield "silent again"


def find_in_silence(channel):
    """What a silence ended on a channel that was reported."""
    if channel.status is not None:
        if channel.queue:
            yield "silence over waiting packets"
        if not channel.configuration.is_flow_controlled:
            yield "silence on a plain channel"
        elif channel.flow == ciri.FREE:
            yield "silence on a free channel"
        elif channel.flow != ciri.NO_WINDOW:
            yield "silence under a window"


def find_in_short_room(words, session):
    """A refused Next that is answered with a message if the output has one byte more."""
    longer = [*words[:-1], str(int(words[-1]) + 1)]
    if copy.deepcopy(session).answer(" ".join(longer).encode()).startswith("sent"):
        yield "a byte too short"


def find_in_queue(before, words, after):
    """An accepted Offer or Next that crossed the wrap, or expired a packet between two that wait on."""
    channel_id, now = int(words[1]), int(words[2])
    old, new = ciri.find_channel(before, channel_id), ciri.find_channel(after, channel_id)
    if new.sequence < old.sequence:
        yield "wrap crossed"
    if re.search("wx+w", "".join("w" if waiting.expiry > now else "x" for waiting in old.queue)):
        yield "expired in the middle"


def find_in_handful(before, words, answer):
    """What became of the packets of a handful, and what expired by them."""
    if answer == "refused 24 0":
        yield "handful refused as a whole"
        return
    now, rest = int(words[1]), [word.encode() for word in words[2:]]
    channel_ids, _, lengths = (read_list(rest, keyword, TIME_LIMIT) for keyword in (b"channels", b"expiries", b"lengths"))
    answers = re.findall("taken|refused [0-9]+", answer)
    taken = {channel_id for channel_id, one in zip(channel_ids, answers) if one == "taken"}
    if len(taken) > 1:
        yield "handful for several channels"
    if re.search("refused [0-9]+ 0 taken", answer):
        yield "taken behind a refused one"
    if any(waiting.expiry <= now for channel_id in taken for waiting in ciri.find_channel(before, channel_id).queue):
        yield "expired by a handful"
    for channel_id, length, one in zip(channel_ids, lengths, answers):
        if one == "refused 17" and had_room(ciri.find_channel(before, channel_id), now, length):
            yield "no room left by the same handful"


def had_room(channel, now, length):
    """Whether number 17 was not to be given for a packet of that length."""
    lengths = [waiting.length for waiting in channel.queue if waiting.expiry > now]
    return len(lengths) < ciri.WAITING_LIMIT and sum(lengths) + length <= channel.configuration.store_length


def find_in_codes(before, words, answer):
    """A Next that sent, or didn't, because of how the setting has a status of 8 to 15."""
    if words[0] == "next" and ciri.find_channel(before, int(words[1])).status in ciri.CONFIGURED_STATUSES:
        if answer.startswith("sent"):
            yield "sent under a configured status"
        elif answer == ciri.NOT_OPERATIONAL:
            yield "held back under an unknown status"


def find_in_context(old, new):
    """A Context that differs from the last one."""
    if old is not None and old != new:
        yield "context of other bytes" if len(old) == len(new) else "context of another length"


def find_in_status(old, new):
    """A status that went up or down, or is no longer reported."""
    if old is not None and new is None:
        yield "status not reported"
    elif old is not None and old != new:
        yield "status up" if new > old else "status down"


def find_in_flow(old, new):
    """A window granted, shrunk or gone."""
    if isinstance(new, int):
        if not isinstance(old, int):
            yield "window granted"
        elif ciri.distance(old, new) < 0:
            yield "window shrunk"
    elif isinstance(old, int):
        yield "window withdrawn" if new == ciri.NO_WINDOW else "window absent"
