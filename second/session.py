"""The program `session`: reads a script from standard input, answers each line with one line (docs/SESSION.md)."""

import re
import sys

import ciri

BAD_LINE = "bad line"
LINE_LIMIT = 140_000
ID_LIMIT = 255
MASK_LIMIT = 255
COUNT_LIMIT = 80
SEQUENCE_LIMIT = 2**32 - 1
TIME_LIMIT = 2**64 - 1
LENGTH_LIMIT = 4_194_304

NUMBER = re.compile(rb"0|[1-9][0-9]{0,19}")
BYTE_STRING = re.compile(rb"(?:[0-9a-f]{2})+")
ENDS = {b"ips": ciri.IPS, b"radio": ciri.RADIO}
IS_FLOW_CONTROLLED = {b"plain": False, b"flow": True}
WORDS_OF_A_CHANNEL = 4
# HelloTime and silence limit where a start says none.
USUAL_WAITS = [5000, 9000]
# The setting of the statuses 8 to 15 where a start says none.
USUAL_CODES = [0]
# The pacer's answers: whether a query is due, whether the radio is silent.
PACES = {(False, False): "quiet", (True, False): "due", (False, True): "silent", (True, True): "due silent"}


class BadLine(Exception):
    """The line breaks the format, or asks for a state before one was started."""


# ---- Words ----


def read_number(word, limit):
    """A decimal number from 0 to the limit with no needless leading zero."""
    if NUMBER.fullmatch(word) is None or int(word) > limit:
        raise BadLine
    return int(word)


def read_bytes(word):
    """Pairs of lowercase hexadecimal digits; `-` is the empty byte string."""
    if word == b"-":
        return b""
    if BYTE_STRING.fullmatch(word) is None:
        raise BadLine
    return bytes.fromhex(word.decode())


def read_choice(word, choices):
    """One of a few fixed words."""
    if word not in choices:
        raise BadLine
    return choices[word]


def show_bytes(octets):
    """A byte string as the format writes it."""
    return octets.hex() if octets else "-"


def show_link_and_context(link_instance, context):
    """A Link Instance and a Context as parts of a line, each where there is one."""
    parts = []
    if link_instance is not None:
        parts.append(f"link {link_instance.length} {link_instance.value}")
    if context is not None:
        parts.append(f"context {show_bytes(context)}")
    return parts


def show_meaning(meaning):
    """A meaning as one line, in the writer's order."""
    parts = [f"{meaning.plane} {meaning.datalink_id}"]
    parts += show_link_and_context(meaning.link_instance, meaning.context)
    parts += [f"status {channel} {status}" for channel, status in sorted(meaning.statuses.items())]
    parts += [f"sequence {channel} {sequence}" for channel, sequence in sorted(meaning.sequences.items())]
    parts += [f"window {channel} {show_window(meaning.windows[channel])}" for channel in sorted(meaning.windows)]
    if meaning.channel is not None:
        parts.append(f"channel {meaning.channel}")
    if meaning.expiration is not None:
        parts.append(f"expiration {meaning.expiration}")
    if meaning.packet is not None:
        parts.append(f"packet {show_bytes(meaning.packet)}")
    return " ".join(parts)


def show_window(window):
    """The window's number, or `none` where the option has no window."""
    return "none" if window is None else str(window)


def show_channel(channel):
    """A channel's state as one line."""
    status = "-" if channel.status is None else channel.status
    parts = [f"channel {channel.configuration.channel_id} {status} {channel.flow}"]
    parts.append(f"{channel.sequence} {channel.latest} {len(channel.queue)}")
    parts += [f"{waiting.length} {waiting.expiry}" for waiting in channel.queue]
    return " ".join(parts)


# ---- Lines about messages ----


def read_meaning(end_word, id_word, hex_word):
    """What `read` and `echo` begin with."""
    end = read_choice(end_word, ENDS)
    datalink_id = read_number(id_word, ID_LIMIT)
    return ciri.read_message(end, datalink_id, read_bytes(hex_word))


def answer_read(_, end_word, id_word, hex_word):
    """`read END ID HEX`"""
    return show_meaning(read_meaning(end_word, id_word, hex_word))


def answer_echo(_, end_word, id_word, hex_word, end2_word, room_word):
    """`echo END ID HEX END2 ROOM`"""
    end2 = read_choice(end2_word, ENDS)
    room = read_number(room_word, LENGTH_LIMIT)
    meaning = read_meaning(end_word, id_word, hex_word)
    return f"written {show_bytes(ciri.write_message(end2, meaning, room))}"


# ---- Lines about a state ----


def answer_start(session, id_word, count_word, *words):
    """`start ID COUNT`, for each channel `CHANNEL KIND FIRST STORE`, then each or not `memory LEN`, `pace HELLO LIMIT` and
    `codes MASK`"""
    datalink_id = read_number(id_word, ID_LIMIT)
    channels_end = WORDS_OF_A_CHANNEL * read_number(count_word, COUNT_LIMIT)
    if len(words) < channels_end:
        raise BadLine
    places = range(0, channels_end, WORDS_OF_A_CHANNEL)
    configurations = [read_configuration(*words[place : place + WORDS_OF_A_CHANNEL]) for place in places]
    rest = list(words[channels_end:])
    stores = sum(configuration.store_length for configuration in configurations)
    (memory_length,) = read_perhaps(rest, b"memory", LENGTH_LIMIT, [stores])
    pacer = ciri.Pacer(*read_perhaps(rest, b"pace", TIME_LIMIT, USUAL_WAITS))
    (codes,) = read_perhaps(rest, b"codes", MASK_LIMIT, USUAL_CODES)
    if rest:
        raise BadLine
    memory = bytearray(memory_length)
    session.endpoint = ciri.start_endpoint(datalink_id, configurations, codes, pacer, memory)
    session.memory = memory
    return "started"


def read_configuration(channel_word, kind_word, first_word, store_word):
    """`CHANNEL KIND FIRST STORE`"""
    return ciri.Configuration(
        read_number(channel_word, ID_LIMIT),
        read_choice(kind_word, IS_FLOW_CONTROLLED),
        read_number(first_word, SEQUENCE_LIMIT),
        read_number(store_word, LENGTH_LIMIT),
    )


def read_perhaps(words, keyword, limit, usual):
    """Takes a keyword and as many numbers as are usual from the front of the words, or nothing where it isn't there."""
    if words[:1] != [keyword]:
        return usual
    taken = words[1 : 1 + len(usual)]
    if len(taken) < len(usual):
        raise BadLine
    del words[: 1 + len(usual)]
    return [read_number(word, limit) for word in taken]


def answer_offer(session, channel_word, now_word, expiry_word, hex_word):
    """`offer CHANNEL NOW EXPIRY HEX`"""
    channel_id = read_number(channel_word, ID_LIMIT)
    now = read_number(now_word, TIME_LIMIT)
    expiry = read_number(expiry_word, TIME_LIMIT)
    packet = read_bytes(hex_word)
    ciri.offer_packet(session.endpoint, session.memory, channel_id, now, expiry, packet)
    return "taken"


def answer_offers(session, now_word, *words):
    """`offers NOW channels N C.. expiries N E.. lengths N L.. answers N HEX`"""
    now = read_number(now_word, TIME_LIMIT)
    rest = list(words)
    channel_ids = read_list(rest, b"channels", ID_LIMIT)
    expiries = read_list(rest, b"expiries", TIME_LIMIT)
    lengths = read_list(rest, b"lengths", LENGTH_LIMIT)
    answers = [None] * read_count(rest, b"answers")
    if len(rest) != 1:
        raise BadLine
    packets = read_bytes(rest[0])
    ciri.offer_handful(session.endpoint, session.memory, channel_ids, expiries, lengths, packets, now, answers)
    return " ".join(["offered", *(show_answer(answer) for answer in answers)])


def read_list(words, keyword, limit):
    """Takes a keyword, a count and so many numbers from the front of the words.

    Where there are fewer, the next keyword is among them, or isn't there.
    """
    count = read_count(words, keyword)
    numbers = [read_number(word, limit) for word in words[:count]]
    del words[:count]
    return numbers


def read_count(words, keyword):
    """Takes a keyword and a count from the front of the words."""
    if words[:1] != [keyword] or len(words) < 2:
        raise BadLine
    count = read_number(words[1], COUNT_LIMIT)
    del words[:2]
    return count


def show_answer(answer):
    """What a packet of a handful is answered, as if it were offered alone."""
    return "taken" if answer == ciri.TAKEN else f"refused {answer} 0"


def answer_next(session, channel_word, now_word, room_word):
    """`next CHANNEL NOW ROOM`"""
    channel_id = read_number(channel_word, ID_LIMIT)
    now = read_number(now_word, TIME_LIMIT)
    room = read_number(room_word, LENGTH_LIMIT)
    answer = ciri.next_message(session.endpoint, session.memory, channel_id, now, room)
    return f"sent {show_bytes(answer)}" if isinstance(answer, bytes) else answer


def answer_withdraw(session, channel_word):
    """`withdraw CHANNEL`"""
    ciri.withdraw_packets(session.endpoint, session.memory, read_number(channel_word, ID_LIMIT))
    return "withdrawn"


def answer_radio(session, now_word, hex_word):
    """`radio NOW HEX`"""
    now = read_number(now_word, TIME_LIMIT)
    is_due = ciri.accept_radio(session.endpoint, now, read_bytes(hex_word))
    return "accepted due" if is_due else "accepted"


def answer_pace(session, now_word):
    """`pace NOW`"""
    return PACES[ciri.ask_pacer(session.endpoint, read_number(now_word, TIME_LIMIT))]


def answer_query(session, room_word):
    """`query ROOM`"""
    return f"query {show_bytes(ciri.query_message(session.endpoint, read_number(room_word, LENGTH_LIMIT)))}"


def answer_show(session, channel_word):
    """`show CHANNEL`"""
    return show_channel(ciri.find_channel(session.endpoint, read_number(channel_word, ID_LIMIT)))


def answer_store(session, channel_word):
    """`store CHANNEL`"""
    channel = ciri.find_channel(session.endpoint, read_number(channel_word, ID_LIMIT))
    return f"store {show_bytes(session.memory[ciri.find_store(session.endpoint, channel)])}"


def answer_kept(session):
    """`kept`"""
    context = ciri.kept_context(session.endpoint)
    return " ".join(["kept", *show_link_and_context(session.endpoint.link_instance, context)])


def answer_pacer(session):
    """`pacer`"""
    pacer = session.endpoint.pacer
    return f"pacer {pacer.clock} {pacer.last_due} {pacer.last_heard}"


# ---- The session ----

# For each line's first word: its answer, the least and the greatest number of words behind it.
LINES = {
    b"read": (answer_read, 3, 3),
    b"echo": (answer_echo, 5, 5),
    b"start": (answer_start, 2, 2 + WORDS_OF_A_CHANNEL * COUNT_LIMIT + 7),
    b"offer": (answer_offer, 4, 4),
    b"offers": (answer_offers, 10, 10 + 3 * COUNT_LIMIT),
    b"next": (answer_next, 3, 3),
    b"withdraw": (answer_withdraw, 1, 1),
    b"radio": (answer_radio, 2, 2),
    b"pace": (answer_pace, 1, 1),
    b"query": (answer_query, 1, 1),
    b"show": (answer_show, 1, 1),
    b"store": (answer_store, 1, 1),
    b"kept": (answer_kept, 0, 0),
    b"pacer": (answer_pacer, 0, 0),
}
WITHOUT_STATE = (b"read", b"echo", b"start")


class Session:
    """One state, once started, and its lent memory."""

    def __init__(self):
        self.endpoint = None
        self.memory = None

    def answer(self, line):
        """The answer to a line without its newline."""
        try:
            return self.answer_words(line)
        except ciri.Refusal as refusal:
            return f"refused {refusal.number} {refusal.place}"
        except BadLine:
            return BAD_LINE

    def answer_words(self, line):
        """The answer to a line that isn't refused and isn't bad."""
        if len(line) > LINE_LIMIT:
            raise BadLine
        first, *words = line.split(b" ")
        answer, least, greatest = read_choice(first, LINES)
        if not least <= len(words) <= greatest:
            raise BadLine
        if self.endpoint is None and first not in WITHOUT_STATE:
            raise BadLine
        return answer(self, *words)


def main():
    """Answer each line; a last line without a newline counts if it isn't empty."""
    session = Session()
    for line in sys.stdin.buffer:
        print(session.answer(line.removesuffix(b"\n")))


if __name__ == "__main__":
    main()
