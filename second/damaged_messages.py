"""Messages with something wrong, drawn by lot: damage to a message's options, then to its bytes."""

import ciri
from random_messages import PLANES, UNKNOWN_TYPES, draw_content, draw_draft
from random_values import chance, pick

# ---- Damage to a message's options ----


def drop_option(dice, draft):
    """Often number 9."""
    if draft.options:
        draft.options.pop(dice.randrange(len(draft.options)))


def drop_required(dice, draft):
    """Number 9."""
    required = ciri.REQUIRED[draft.end, draft.plane]
    dropped = dice.choice(sorted(required))
    draft.options = [option for option in draft.options if option[0] != dropped]


def repeat_option(dice, draft):
    """Often number 7; number 8 behind Packet Data."""
    if draft.options:
        repeated = dice.choice(draft.options)
        draft.options.insert(dice.randrange(len(draft.options)), repeated)


def repeat_kind(dice, draft):
    """An option of the same type, perhaps of another channel."""
    kinds = [kind for kind, _ in draft.options if kind in ciri.LENGTHS]
    if kinds:
        kind = dice.choice(kinds)
        draft.options.insert(dice.randrange(len(draft.options)), (kind, draw_content(dice, kind)))


def insert_any_kind(dice, draft):
    """Often number 6."""
    kind = dice.choice(sorted(ciri.LENGTHS))
    draft.options.insert(dice.randrange(len(draft.options) + 1), (kind, draw_content(dice, kind)))


def resize_option(dice, draft):
    """Often number 4: a content of another length."""
    if draft.options:
        place = dice.randrange(len(draft.options))
        kind, content = draft.options[place]
        length = pick(dice, (2, len(content) + 1), (2, max(0, len(content) - 1)), (1, 0), (1, 9), (1, 300))
        draft.options[place] = (kind, content.ljust(length, b"\x05")[:length])


def reserve_value(dice, draft):
    """Number 5: Channel ID 255, or Expiration Time 0."""
    places = [place for place, (kind, _) in enumerate(draft.options) if kind in ciri.WITH_CHANNEL]
    places += [place for place, (kind, _) in enumerate(draft.options) if kind == ciri.EXPIRATION_TIME]
    if places:
        place = dice.choice(places)
        kind, content = draft.options[place]
        reserved = bytes(4) if kind == ciri.EXPIRATION_TIME else b"\xff" + content[1:]
        draft.options[place] = (kind, reserved)


def append_option(dice, draft):
    """Number 8 behind Packet Data."""
    kind = dice.choice([*ciri.LENGTHS, *UNKNOWN_TYPES])
    content = draw_content(dice, kind) if kind in ciri.LENGTHS else dice.randbytes(dice.randrange(9))
    draft.options.append((kind, content))


def change_datalink(dice, draft):
    """Number 11."""
    for place, (kind, _) in enumerate(draft.options):
        if kind == ciri.DATALINK_IDENTIFIER:
            draft.options[place] = (kind, dice.randbytes(1))


def part_sequence(dice, draft):
    """Number 10: a Flow Sequence of a channel that the Channel Identifier, if any, doesn't name."""
    draft.options = [option for option in draft.options if option[0] != ciri.FLOW_SEQUENCE]
    draft.options.insert(0, (ciri.FLOW_SEQUENCE, draw_content(dice, ciri.FLOW_SEQUENCE)))


def change_version(dice, draft):
    """Number 2."""
    draft.header = dice.randrange(256)


def turn_plane(_, draft):
    """The other plane."""
    draft.header ^= ciri.DATA_PLANE_FLAG


OPTION_DAMAGES = (
    drop_option,
    drop_required,
    repeat_option,
    repeat_kind,
    insert_any_kind,
    resize_option,
    reserve_value,
    append_option,
    change_datalink,
    part_sequence,
    change_version,
    turn_plane,
)


# ---- Damage to a message's bytes ----


def truncate(dice, _, datagram):
    """Number 3 or 9, or 2 where nothing is left."""
    return datagram[: pick(dice, (1, 0), (1, 1), (6, dice.randrange(len(datagram))))]


def flip_byte(dice, _, datagram):
    """Any byte becomes any other."""
    place = dice.randrange(len(datagram))
    return datagram[:place] + dice.randbytes(1) + datagram[place + 1 :]


def flip_bit(dice, _, datagram):
    """One bit is turned."""
    place = dice.randrange(len(datagram))
    return datagram[:place] + bytes([datagram[place] ^ 1 << dice.randrange(8)]) + datagram[place + 1 :]


def misstate_length(dice, draft, datagram):
    """An option's Length that isn't its content's."""
    if not draft.options:
        return datagram
    place = dice.choice(draft.places()) + 1
    length = int.from_bytes(datagram[place : place + 2], "big")
    misstated = pick(dice, (2, length + 1), (2, length - 1), (1, 0), (1, 0xFFFF), (1, length + 4)) % 2**16
    return datagram[:place] + misstated.to_bytes(2, "big") + datagram[place + 2 :]


def add_stray_bytes(dice, _, datagram):
    """Often number 3."""
    return datagram + dice.randbytes(dice.randrange(1, 5))


BYTE_DAMAGES = (truncate, flip_byte, flip_bit, misstate_length, add_stray_bytes)


def damage(dice, draft):
    """A message's bytes after one damage or a few."""
    for _ in range(pick(dice, (2, 0), (7, 1), (2, 2))):
        dice.choice(OPTION_DAMAGES)(dice, draft)
    datagram = draft.encode()
    for _ in range(pick(dice, (5, 0), (2, 1))):
        datagram = dice.choice(BYTE_DAMAGES)(dice, draft, datagram)
    return datagram


def stretch(dice, draft):
    """A message's bytes at the datagram's limit, by a longer Packet Data or an unknown option."""
    spare = ciri.DATAGRAM_LIMIT + dice.choice((-1, 0, 1, 5)) - len(draft.encode())
    if draft.plane == ciri.DATA and chance(dice, 60):
        kind, content = draft.options[-1]
        draft.options[-1] = (kind, content + bytes(spare))
    else:
        draft.options.insert(0, (dice.choice(UNKNOWN_TYPES), bytes(spare - ciri.FRAME_LENGTH)))
    return draft.encode()


def draw_datagram(dice, end, datalink_id):
    """A message of one end: faultless, at the datagram's limit, or damaged."""
    draft = draw_draft(dice, end, dice.choice(PLANES), datalink_id)
    finish = pick(dice, (55, None), (44.5, damage), (0.5, stretch))
    return draft.encode() if finish is None else finish(dice, draft)
