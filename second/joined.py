"""joined.py [SEED CALLS [SESSION STATION]]: joins `session` and `station` by a net that loses, repeats and reorders by lot, in four pairings.

The proved programs and this implementation's stand in either place, and every line has to be answered alike in all four; SESSION and
STATION are other programs in the place of the proved ones, each a command in one word. In numbers that never wrap, no packet is sent past
the highest window that the radio has ever granted (docs/JOINED.md).
"""

import contextlib
import pathlib
import random
import shlex
import sys
from dataclasses import dataclass

import ciri
from both_ends import PROGRAMS, End, Ended
from random_values import chance, pick

SECOND = pathlib.Path(__file__).resolve().parent
RUN = SECOND.parent / "run"
SEED, CALLS = "1", "2000"
DATALINK = 7
STORE = 20_000
ROOM = 9100
MOST = 2**30
NEVER = 2**64 - 1
LENGTHS = (40, 41, 100, 1500, 8999, 9000)
# A talk in which fewer packets than one in so many calls are counted is one in which nothing goes.
CALLS_OF_A_PACKET = 50
# Messages on their way; what is sent beyond them is lost.
MOST_ON_THE_WAY = 12


class Broken(Exception):
    """What an end wrote isn't what the numbers say."""


@dataclass
class Terms:
    """A channel as both ends are configured."""

    channel_id: int
    is_controlled: dict
    first: int
    watermark: int
    throughput: int


@dataclass
class Numbers:
    """A channel flow-controlled at both ends: the endpoint's count, the highest that the radio heard, the highest that it granted."""

    count: int
    heard: int | None = None
    top: int | None = None


@dataclass
class Message:
    """A message on its way, with what was counted on each channel that it names when it was sent."""

    datagram: str
    counted: dict


def draw_first(dice, about):
    """A first sequence a little before a number, or about it."""
    return (about - pick(dice, (3, dice.randrange(20_000)), (1, dice.randrange(-20_000, 0)))) % ciri.MODULUS


def draw_terms(dice):
    """Plain at both ends, flow-controlled at both, and at one of them only."""
    kinds = ((0, False, False, 0), (3, True, True, 0), (9, True, False, 0), (12, False, True, 0), (200, True, True, 2**31))
    for channel_id, session, station, about in kinds:
        granted = dice.choice((MOST, MOST - 1, 30_000))
        watermark = dice.randrange(granted + 1)
        yield Terms(channel_id, {"session": session, "station": station}, draw_first(dice, about), watermark, granted - watermark)


def draw_packet(dice):
    """An IPv6 packet."""
    length = pick(dice, (3, dice.choice(LENGTHS)), (1, dice.randrange(40, 9001)))
    return bytes([0x60, 0, 0, 0]) + (length - ciri.IPV6_HEADER_LENGTH).to_bytes(2, "big") + bytes([59, 64]) + bytes(32) + dice.randbytes(length - 40)


def kind_word(terms, program):
    """A channel's kind as a start says it."""
    return "flow" if terms.is_controlled[program] else "plain"


class Way:
    """One direction of the net."""

    def __init__(self, dice):
        self.dice = dice
        self.messages = []
        self.change()

    def change(self):
        """Another weather, in percents."""
        self.lost, self.repeated, self.reordered = self.dice.choice((0, 10, 40)), self.dice.choice((0, 20, 50)), self.dice.choice((0, 50, 100))
        self.is_blocked = chance(self.dice, 20)

    def send(self, message):
        """Takes a message on the way, or loses it."""
        if not chance(self.dice, self.lost) and len(self.messages) < MOST_ON_THE_WAY:
            self.messages.append(message)

    def take(self, counts):
        """A message that arrives, first come or not, once or again; none that is too old."""
        self.messages = [message for message in self.messages if all(counts[channel] - count < MOST for channel, count in message.counted.items())]
        if self.is_blocked or not self.messages:
            return None
        place = self.dice.randrange(len(self.messages)) if chance(self.dice, self.reordered) else 0
        return self.messages[place] if chance(self.dice, self.repeated) else self.messages.pop(place)


class Talk:
    """Both programs, the net between them, and the numbers of the channels."""

    def __init__(self, seed, commands):
        self.dice = random.Random(f"joined {seed}")
        self.commands = dict(zip(PROGRAMS, commands, strict=True))
        self.ends = {}
        self.lines = []
        self.terms = list(draw_terms(self.dice))
        self.numbers = {terms.channel_id: Numbers(terms.first) for terms in self.terms if all(terms.is_controlled.values())}
        self.queued = {terms.channel_id: 0 for terms in self.terms}
        self.up, self.down = Way(self.dice), Way(self.dice)
        self.clock = 0
        self.sent = 0

    def ask(self, program, line):
        """The answer to a line. A program is started by its first one, behind the other's answer: two that are built at once get into each other's way."""
        if program not in self.ends:
            self.ends[program] = End(self.commands[program])
        answer = self.ends[program].ask(line)
        self.lines.append((program, line, answer))
        return answer

    def ask_for_message(self, program, line):
        """The message in the answer to a line, if there is one, taken on its way."""
        word, *rest = self.ask(program, line).split(" ")
        if program == "session" and word in ("query", "sent"):
            self.up.send(self.stated(rest[0]))
        if program == "station" and word in ("answer", "unasked", "tell"):
            self.down.send(self.granted(rest[0]))

    def counts(self):
        """The endpoint's counts."""
        return {channel: numbers.count for channel, numbers in self.numbers.items()}

    # ---- What the messages say, in numbers ----

    def stated(self, datagram):
        """A message of the endpoint: its sequences are the counts, and no packet is past the highest window."""
        meaning = ciri.read_message(ciri.IPS, DATALINK, bytes.fromhex(datagram))
        numbers = self.numbers.get(meaning.channel)
        if meaning.plane == ciri.DATA and numbers is not None:
            self.sent += 1
            numbers.count += len(meaning.packet)
            if numbers.top is None or numbers.count > numbers.top:
                raise Broken(f"channel {meaning.channel}: {numbers.count} is sent, and the highest window ever granted is {numbers.top}")
            if meaning.channel not in meaning.sequences:
                raise Broken(f"channel {meaning.channel}: a packet went that isn't counted")
        counted = {channel: self.numbers[channel].count for channel in meaning.sequences if channel in self.numbers}
        for channel, count in counted.items():
            if meaning.sequences[channel] != count % ciri.MODULUS:
                raise Broken(f"channel {channel}: the sequence {meaning.sequences[channel]} of the count {count}")
        return Message(datagram, counted)

    def granted(self, datagram):
        """A message of the radio: it names every flow-controlled channel, and grants no more than it may."""
        meaning = ciri.read_message(ciri.RADIO, DATALINK, bytes.fromhex(datagram))
        if set(meaning.windows) != {terms.channel_id for terms in self.terms if terms.is_controlled["station"]}:
            raise Broken(f"windows of the channels {sorted(meaning.windows)}")
        for channel, numbers in self.numbers.items():
            window = meaning.windows[channel]
            if (window is None) != (numbers.heard is None):
                raise Broken(f"channel {channel}: the window {window} where {numbers.heard} was heard")
            if window is not None:
                ahead = (window - numbers.heard) % ciri.MODULUS
                if ahead > MOST:
                    raise Broken(f"channel {channel}: a window of {ahead}")
                numbers.top = max(numbers.top or 0, numbers.heard + ahead)
        return Message(datagram, self.counts())

    # ---- Calls ----

    def start(self):
        """Both starts; every channel becomes operational."""
        session = [f"{terms.channel_id} {kind_word(terms, 'session')} {terms.first} {STORE}" for terms in self.terms]
        station = [f"{terms.channel_id} {kind_word(terms, 'station')} {terms.watermark} {terms.throughput}" for terms in self.terms]
        self.ask("session", " ".join([f"start {DATALINK} {len(session)}", *session, f"pace {self.dice.choice((20, 200))} {self.dice.choice((500, 5000))}"]))
        self.ask("station", " ".join([f"start {DATALINK} {len(station)}", *station]))
        for terms in self.terms:
            self.ask_for_message("station", f"status {terms.channel_id} 7 {ROOM}")

    def draw_channel(self):
        """A Channel ID, often one that is counted."""
        return pick(self.dice, (5, self.dice.choice(list(self.numbers))), (1, self.dice.choice(self.terms).channel_id))

    def draw_expiry(self):
        """When a packet expires; some never do."""
        return pick(self.dice, (1, NEVER), (2, self.clock + self.dice.randrange(1, 600)))

    def offer(self):
        """One packet is offered."""
        self.ask("session", f"offer {self.draw_channel()} {self.clock} {self.draw_expiry()} {draw_packet(self.dice).hex()}")

    def offer_handful(self):
        """A few are."""
        packets = [draw_packet(self.dice) for _ in range(self.dice.randrange(1, 5))]
        count = len(packets)
        channels, expiries = (" ".join(str(draw()) for _ in packets) for draw in (self.draw_channel, self.draw_expiry))
        lengths = " ".join(str(len(packet)) for packet in packets)
        lists = f"channels {count} {channels} expiries {count} {expiries} lengths {count} {lengths} answers {count}"
        self.ask("session", f"offers {self.clock} {lists} {b''.join(packets).hex()}")

    def send(self):
        """What waits on a channel is asked for."""
        channel = self.draw_channel()
        for _ in range(self.dice.randrange(1, 5)):
            self.ask_for_message("session", f"next {channel} {self.clock} {ROOM}")

    def let_time_pass(self):
        """The pacer is asked, and a query is written where one is due."""
        self.clock += self.dice.choice((1, 10, 100))
        if self.ask("session", f"pace {self.clock}").startswith("due"):
            self.ask_for_message("session", f"query {ROOM}")

    def withdraw(self):
        """A channel's packets are withdrawn."""
        self.ask("session", f"withdraw {self.draw_channel()}")

    def empty_queue(self):
        """The radio has sent what was queued, or has so much that the window shuts."""
        channel = self.draw_channel()
        terms = next(terms for terms in self.terms if terms.channel_id == channel)
        granted = terms.watermark + terms.throughput
        self.queued[channel] = pick(self.dice, (9, 0), (1, granted), (1, max(granted - 9000, 0)), (1, NEVER))
        self.ask_for_message("station", f"queued {channel} {self.queued[channel]} {ROOM}")

    def say_status(self):
        """A channel's status, mostly operational."""
        self.ask_for_message("station", f"status {self.draw_channel()} {pick(self.dice, (4, 7), (1, self.dice.randrange(16)))} {ROOM}")

    def tell(self):
        """The radio tells unasked, with another Link Instance."""
        self.ask("station", f"link 2 {self.dice.randrange(65536)}")
        self.ask_for_message("station", f"tell {ROOM}")

    # ---- The net ----

    def pass_messages(self):
        """Messages arrive, or don't."""
        for _ in range(self.dice.randrange(4)):
            message = self.up.take(self.counts())
            if message is not None:
                self.hear(message)
            message = self.down.take(self.counts())
            if message is not None:
                self.ask("session", f"radio {self.clock} {message.datagram}")

    def hear(self, message):
        """The radio hears a message."""
        for channel, count in message.counted.items():
            self.numbers[channel].heard = max(self.numbers[channel].heard or 0, count)
        meaning = ciri.read_message(ciri.IPS, DATALINK, bytes.fromhex(message.datagram))
        if meaning.packet is not None:
            channel = meaning.channel or ciri.PRIMARY_CHANNEL
            self.queued[channel] = min(self.queued[channel] + len(meaning.packet), NEVER)
        self.ask_for_message("station", f"hear {ROOM} {message.datagram}")

    def settle(self):
        """What both ends show is what the numbers say."""
        for terms in self.terms:
            channel, numbers = terms.channel_id, self.numbers.get(terms.channel_id)
            shown = self.ask("session", f"show {channel}").split(" ")
            if numbers is not None and int(shown[4]) != numbers.count % ciri.MODULUS:
                raise Broken(f"channel {channel}: the endpoint has {shown[4]} where the count is {numbers.count}")
            _, _, _, _, highest, queued = self.ask("station", f"show {channel}").split(" ")
            if int(queued) != self.queued[channel]:
                raise Broken(f"channel {channel}: {queued} queued where {self.queued[channel]} bytes arrived")
            if numbers is not None and highest != ("-" if numbers.heard is None else str(numbers.heard % ciri.MODULUS)):
                raise Broken(f"channel {channel}: {highest} where {numbers.heard} was heard")

    def run(self, calls):
        """All lines with their answers."""
        self.start()
        moves = {self.offer: 6, self.offer_handful: 2, self.send: 12, self.let_time_pass: 3, self.withdraw: 0.2, self.empty_queue: 6, self.say_status: 1, self.tell: 1}
        while len(self.lines) < calls:
            self.dice.choices(list(moves), moves.values())[0]()
            self.pass_messages()
            if chance(self.dice, 3):
                self.up.change()
                self.down.change()
        self.settle()
        if self.sent * CALLS_OF_A_PACKET < calls:
            raise Broken(f"{self.sent} packets were counted in {calls} calls")
        return self.lines

    def close(self):
        """Both programs end, whatever one of them says to it."""
        with contextlib.ExitStack() as stack:
            for end in self.ends.values():
                stack.callback(end.close)


def talk(seed, calls, commands):
    """What two programs say to each other, and the complaint where the numbers are broken."""
    one = Talk(seed, commands)
    try:
        one.run(calls)
        complaint = None
    except (Broken, ciri.Refusal) as broken:
        complaint = f"{one.lines[-1][1][:100]!r}: {broken!r}"
    except Ended as ended:
        complaint = str(ended)
    finally:
        one.close()
    counted = sum(numbers.count for numbers in one.numbers.values()) - sum(terms.first for terms in one.terms if terms.channel_id in one.numbers)
    return one.lines, complaint, f"{one.sent} packets, {counted} bytes counted"


def first_difference(lines, others):
    """The first line on which two talks differ; none where they are alike."""
    for (program, line, answer), (_, other_line, other) in zip(lines, others):
        if (line, answer) != (other_line, other):
            return f"{program} was asked {line[:200]!r}, and answered {answer[:200]!r} where {other[:200]!r} was answered to {other_line[:200]!r}"
    return None if len(lines) == len(others) else f"{len(lines)} lines and {len(others)}"


def compare(seed, calls, proved):
    """All four pairings; how many differ from this implementation's own or are broken."""
    second = [[sys.executable, "-u", str(SECOND / f"{program}.py")] for program in PROGRAMS]
    differing = 0
    expected, complaint, figures = talk(seed, calls, second)
    print(f"joined, seed {seed}, second and second: {complaint or f'{len(expected)} lines, {figures}'}")
    differing += complaint is not None
    for names, commands in (("proved and second", [proved[0], second[1]]), ("second and proved", [second[0], proved[1]]), ("proved and proved", proved)):
        lines, complaint, figures = talk(seed, calls, commands)
        complaints = [said for said in (first_difference(lines, expected), complaint) if said]
        print(f"joined, seed {seed}, {names}: {'; '.join(complaints) or f'the same {len(lines)} lines'}")
        differing += len(complaints) > 0
    return differing


def compare_proved(seed=SEED, calls=CALLS):
    """The proved programs with this implementation's."""
    return compare(seed, int(calls), [[str(RUN), "-"], ["env", "PROGRAM=station", str(RUN), "-"]])


def main():
    """The number of pairings that differ, or are broken."""
    words = sys.argv[1:]
    if len(words) == 4:
        return compare(words[0], int(words[1]), [shlex.split(command) for command in words[2:]])
    if len(words) not in (0, 2):
        sys.exit(__doc__)
    return compare_proved(*words)


if __name__ == "__main__":
    sys.exit(main())
