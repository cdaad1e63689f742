"""The program `station`: reads a script from standard input, answers each line with one line (docs/STATION.md)."""

import sys

import ciri
import radio_end
from session import (
    BAD_LINE, COUNT_LIMIT, ID_LIMIT, IS_FLOW_CONTROLLED, LENGTH_LIMIT, LINE_LIMIT, WORDS_OF_A_CHANNEL, BadLine,
    read_bytes, read_choice, read_number, show_bytes,
)

BYTES_LIMIT = 2**64 - 1
STATUS_LIMIT = 255
LINK_LENGTH_LIMIT = 255


# ---- Lines ----


def answer_start(station, id_word, count_word, *words):
    """`start ID COUNT`, and for each channel `CHANNEL KIND WATERMARK THROUGHPUT`"""
    datalink_id = read_number(id_word, ID_LIMIT)
    if len(words) != WORDS_OF_A_CHANNEL * read_number(count_word, COUNT_LIMIT):
        raise BadLine
    places = range(0, len(words), WORDS_OF_A_CHANNEL)
    settings = [read_setting(*words[place : place + WORDS_OF_A_CHANNEL]) for place in places]
    station.radio = radio_end.start_radio(datalink_id, settings)
    return "started"


def read_setting(channel_word, kind_word, watermark_word, throughput_word):
    """`CHANNEL KIND WATERMARK THROUGHPUT`"""
    return radio_end.Setting(
        read_number(channel_word, ID_LIMIT),
        read_choice(kind_word, IS_FLOW_CONTROLLED),
        read_number(watermark_word, BYTES_LIMIT),
        read_number(throughput_word, BYTES_LIMIT),
    )


def answer_hear(station, room_word, hex_word):
    """`hear ROOM HEX`"""
    room = read_number(room_word, LENGTH_LIMIT)
    datagram = read_bytes(hex_word)
    return keep_and_show(station, *radio_end.hear_datagram(station.radio, datagram, room))


def answer_status(station, channel_word, value_word, room_word):
    """`status CHANNEL VALUE ROOM`"""
    channel_id = read_number(channel_word, ID_LIMIT)
    status = read_number(value_word, STATUS_LIMIT)
    room = read_number(room_word, LENGTH_LIMIT)
    return keep_and_show(station, *radio_end.set_status(station.radio, channel_id, status, room))


def answer_context(station, hex_word, room_word):
    """`context HEX ROOM`, the empty byte string for none"""
    context = read_bytes(hex_word) or None
    room = read_number(room_word, LENGTH_LIMIT)
    return keep_and_show(station, *radio_end.set_context(station.radio, context, room))


def answer_queued(station, channel_word, bytes_word, room_word):
    """`queued CHANNEL BYTES ROOM`"""
    channel_id = read_number(channel_word, ID_LIMIT)
    queued = read_number(bytes_word, BYTES_LIMIT)
    room = read_number(room_word, LENGTH_LIMIT)
    return keep_and_show(station, *radio_end.set_queued(station.radio, channel_id, queued, room))


def keep_and_show(station, radio, answer, message):
    """The state after an accepted call is kept; its answer, and the message where there is one."""
    station.radio = radio
    return answer if message is None else f"{answer} {show_bytes(message)}"


def answer_link(station, length_word, value_word):
    """`link LEN VALUE`"""
    length = read_number(length_word, LINK_LENGTH_LIMIT)
    link_instance = ciri.LinkInstance(length, read_number(value_word, BYTES_LIMIT))
    station.radio = radio_end.keep_link(station.radio, link_instance)
    return "kept"


def answer_tell(station, room_word):
    """`tell ROOM`"""
    return f"tell {show_bytes(radio_end.tell_message(station.radio, read_number(room_word, LENGTH_LIMIT)))}"


def answer_show(station, channel_word):
    """`show CHANNEL`"""
    channel = radio_end.find_channel(station.radio, read_number(channel_word, ID_LIMIT))
    highest = "-" if channel.highest is None else channel.highest
    return f"channel {channel.setting.channel_id} {channel.status} {show_window(channel)} {highest} {channel.queued}"


def show_window(channel):
    """The window's number; `none` before a sequence was heard, `-` on a plain channel."""
    if not channel.setting.is_flow_controlled:
        return "-"
    window = radio_end.window_of(channel)
    return "none" if window is None else window


# ---- The station ----

# For each line's first word: its answer, the least and the greatest number of words behind it.
LINES = {
    b"start": (answer_start, 2, 2 + WORDS_OF_A_CHANNEL * COUNT_LIMIT),
    b"hear": (answer_hear, 2, 2),
    b"status": (answer_status, 3, 3),
    b"context": (answer_context, 2, 2),
    b"queued": (answer_queued, 3, 3),
    b"link": (answer_link, 2, 2),
    b"tell": (answer_tell, 1, 1),
    b"show": (answer_show, 1, 1),
}


class Station:
    """One state, once started."""

    def __init__(self):
        self.radio = None

    def answer(self, line):
        """The answer to a line without its newline."""
        try:
            return self.answer_words(line)
        except ciri.Refusal as refusal:
            return f"refused {refusal.number} {refusal.place}"
        except BadLine:
            return BAD_LINE

    def answer_words(self, line):
        """The answer to a line that isn't refused and isn't bad."""
        if len(line) > LINE_LIMIT:
            raise BadLine
        first, *words = line.split(b" ")
        answer, least, greatest = read_choice(first, LINES)
        if not least <= len(words) <= greatest:
            raise BadLine
        if self.radio is None and first != b"start":
            raise BadLine
        return answer(self, *words)


def main():
    """Answer each line; a last line without a newline counts if it isn't empty."""
    station = Station()
    for line in sys.stdin.buffer:
        print(station.answer(line.removesuffix(b"\n")))


if __name__ == "__main__":
    main()
