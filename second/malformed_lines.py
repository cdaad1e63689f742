"""Lines with something wrong, drawn by lot."""

BAD_WORDS = (
    "-1", "+1", "01", "00", "0x7", "256", "4294967296", "18446744073709551616", "4194305", "9" * 400, "1.0", "x", "--",
    "-", "", "\t", "\r", "\0", "\xff", "\xd9\xa0", "AB", "0g", "abc", "plain", "memory", "pace", "codes", "ips",
    "IPS",
)
ODD_LINES = (
    "", " ", "-", "read", "echo", "start", "offer", "next", "show", "stop", "Show 0", "show 0 0", "query",
    " query 100", "query\t100", "query 100\r", "start 7 0", "start 7 81", "start 7 1 memory 1500", "memory 1500",
    "start 7 1 0 plain 0 1500 memory", "start 7 1 0 plain 0 1500 memory 1500 0", "start 7 1 0 Flow 0 1500",
    "start 7 1 0 plain 0 1500 pace", "start 7 1 0 plain 0 1500 pace 1", "start 7 1 0 plain 0 1500 pace 1 1 1",
    "start 7 1 0 plain 0 1500 pace 1 1 memory 1500", "start 7 1 pace 1 1", "start 7 1 0 plain 0 1500 Pace 1 1",
    "start 7 1 0 plain 0 1500 codes", "start 7 1 0 plain 0 1500 codes 256", "start 7 1 0 plain 0 1500 codes 1 1",
    "start 7 1 0 plain 0 1500 codes 1 pace 1 1", "start 7 1 codes 1", "start 7 1 0 plain 0 1500 Codes 1", "codes 1",
    "pace", "pace ", "pace -1", "pace 0 0", "pace 18446744073709551616", "pacer 0", "pacer ", "Pacer", "radio 0",
    "\x00", "\xff\xfe", "refused 12 0", "radio", "radio  ", "store -1", "withdraw 256", "next 0 0 4194305",
    "kept 0", "kept ", " kept", "Kept", "offers", "offers 0", "offers 0 channels", "offers 0 channels 0",
    "offers 0 channels 0 expiries 0 lengths 0 answers 0", "offers 0 channels 0 expiries 0 lengths 0 answers 0 - -",
    "offers 0 channels 0 expiries 0 lengths 0 answers 81 -", "offers 0 channels 0 expiries 0 lengths 0 -",
    "offers 0 channels 0 lengths 0 expiries 0 answers 0 -", "offers 0 channels 0 0 expiries 0 lengths 0 answers 0 -",
    "offers 0 channels 1 expiries 0 lengths 0 answers 0 -", "offers 0 0 0 0 0 -", "Offers 0",
)
# The fixed words of an `offers`; behind each stands a count.
KEYWORDS = ("channels", "expiries", "lengths", "answers")
LINE_ENDS = (" ", "\r", "\t", "\0", "\xe4")


def spoil_line(dice, line):
    """A line with one thing wrong behind its first word; seldom it is still well-formed."""
    first, *words = line.split(" ")
    if not words:
        return first + dice.choice(LINE_ENDS)
    place = dice.randrange(len(words))
    spoils = (spoil_word, drop_word, add_word, zero_word, raise_word, halve_word, join_words, end_line)
    if first == "offers":
        spoils += (spoil_keyword, spoil_count, swap_lists)
    dice.choice(spoils)(dice, words, place)
    return " ".join([first, *words])


def spoil_word(dice, words, place):
    """A word becomes one that mostly doesn't belong there."""
    words[place] = dice.choice(BAD_WORDS)


def spoil_keyword(dice, words, _):
    """A keyword of a handful becomes another."""
    places = find_keywords(words)
    words[dice.choice(places)] = dice.choice((*KEYWORDS, "channel", "Answers", "length", "expiry"))


def spoil_count(dice, words, _):
    """A count of a handful becomes another."""
    places = find_keywords(words)
    words[dice.choice(places) + 1] = dice.choice(("0", "1", "2", "31", "33", "80", "81"))


def swap_lists(dice, words, _):
    """Two neighbouring lists of a handful change places."""
    channels, expiries, lengths, answers = find_keywords(words)
    first, second, end = dice.choice(((channels, expiries, lengths), (expiries, lengths, answers)))
    words[first:end] = words[second:end] + words[first:second]


def find_keywords(words):
    """Where the keywords of a handful stand."""
    return [place for place, word in enumerate(words) if word in KEYWORDS]


def drop_word(_, words, place):
    """A word is missing."""
    words.pop(place)


def add_word(dice, words, place):
    """A word too many; an empty one makes two spaces."""
    words.insert(place + dice.randrange(2), dice.choice(("", "0", "7", "-", "memory", "pace", "codes")))


def zero_word(_, words, place):
    """A needless leading zero."""
    words[place] = "0" + words[place]


def raise_word(_, words, place):
    """Uppercase letters."""
    words[place] = words[place].upper()


def halve_word(_, words, place):
    """A digit is missing."""
    words[place] = words[place][:-1]


def join_words(_, words, place):
    """A tab for a space."""
    words[place : place + 2] = ["\t".join(words[place : place + 2])]


def end_line(dice, words, _):
    """Something behind the last word."""
    words[-1] += dice.choice(LINE_ENDS)
