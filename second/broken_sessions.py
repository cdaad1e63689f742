"""Ways to break the session's lines in `session.py`: name, module, the place, what stands there instead."""


def of_session(*ways):
    """These ways, of the module `session`."""
    return [(name, "session", old, new) for name, old, new in ways]


SESSION_WAYS = of_session(
    ("lines a byte shorter", "LINE_LIMIT = 140_000", "LINE_LIMIT = 139_999"),
    ("lines a byte longer", "LINE_LIMIT = 140_000", "LINE_LIMIT = 140_001"),
    ("IDs up to 254", "ID_LIMIT = 255", "ID_LIMIT = 254"),
    ("IDs up to 256", "ID_LIMIT = 255", "ID_LIMIT = 256"),
    ("79 channels read", "COUNT_LIMIT = 80", "COUNT_LIMIT = 79"),
    ("81 channels read", "COUNT_LIMIT = 80", "COUNT_LIMIT = 81"),
    ("a sequence of 2^32", "SEQUENCE_LIMIT = 2**32 - 1", "SEQUENCE_LIMIT = 2**32"),
    ("no sequence of 2^32 - 1", "SEQUENCE_LIMIT = 2**32 - 1", "SEQUENCE_LIMIT = 2**32 - 2"),
    ("a time of 2^64", "TIME_LIMIT = 2**64 - 1", "TIME_LIMIT = 2**64"),
    ("no time of 2^64 - 1", "TIME_LIMIT = 2**64 - 1", "TIME_LIMIT = 2**64 - 2"),
    ("a length of 4194305", "LENGTH_LIMIT = 4_194_304", "LENGTH_LIMIT = 4_194_305"),
    ("no length of 4194304", "LENGTH_LIMIT = 4_194_304", "LENGTH_LIMIT = 4_194_303"),
    ("needless zeros", 'rb"0|[1-9][0-9]{0,19}"', 'rb"[0-9]{1,20}"'),
    ("uppercase digits", "[0-9a-f]{2}", "[0-9a-fA-F]{2}"),
    ("an empty word is the empty byte string", 'if word == b"-":', 'if word in (b"-", b""):'),
    ("`memory` read in other letters", "    if words[:1] != [keyword]:", "    if [w.lower() for w in words[:1]] != [keyword]:"),
    ("words behind a start", "    if rest:\n        raise BadLine\n", ""),
    ("`pace` with one wait", "    if len(taken) < len(usual):\n        raise BadLine\n",
     "    if len(taken) < len(usual):\n        taken = [*taken, b'9000'][: len(usual)]\n"),
    ("`pace` before `memory`", '    (memory_length,) = read_perhaps(rest, b"memory", LENGTH_LIMIT, [stores])\n',
     '    if rest[:1] == [b"pace"]:\n        rest = rest[3:] + rest[:3]\n'
     '    (memory_length,) = read_perhaps(rest, b"memory", LENGTH_LIMIT, [stores])\n'),
    ("a HelloTime of 5001 where none is said", "USUAL_WAITS = [5000, 9000]", "USUAL_WAITS = [5001, 9000]"),
    ("a HelloTime of 4999 where none is said", "USUAL_WAITS = [5000, 9000]", "USUAL_WAITS = [4999, 9000]"),
    ("a silence limit of 9001 where none is said", "USUAL_WAITS = [5000, 9000]", "USUAL_WAITS = [5000, 9001]"),
    ("a silence limit of 8999 where none is said", "USUAL_WAITS = [5000, 9000]", "USUAL_WAITS = [5000, 8999]"),
    ("waits up to 2^32 - 1", 'read_perhaps(rest, b"pace", TIME_LIMIT,', 'read_perhaps(rest, b"pace", SEQUENCE_LIMIT,'),
    ("silence limit and HelloTime", 'ciri.Pacer(*read_perhaps(rest, b"pace", TIME_LIMIT, USUAL_WAITS))',
     'ciri.Pacer(*reversed(read_perhaps(rest, b"pace", TIME_LIMIT, USUAL_WAITS)))'),
    ("a setting of 255 where none is said", "USUAL_CODES = [0]", "USUAL_CODES = [255]"),
    ("a setting of 2 where none is said", "USUAL_CODES = [0]", "USUAL_CODES = [2]"),
    ("a MASK of 256", "MASK_LIMIT = 255", "MASK_LIMIT = 256"),
    ("no MASK of 255", "MASK_LIMIT = 255", "MASK_LIMIT = 254"),
    ("`codes` before `pace`", '    pacer = ciri.Pacer(',
     '    if rest[:1] == [b"codes"]:\n        rest = rest[2:] + rest[:2]\n    pacer = ciri.Pacer('),
    ("`codes` is dropped", '    (codes,) = read_perhaps(rest, b"codes", MASK_LIMIT, USUAL_CODES)\n',
     '    read_perhaps(rest, b"codes", MASK_LIMIT, USUAL_CODES)\n    (codes,) = USUAL_CODES\n'),
    ("a start without `codes` keeps the older setting", '    (codes,) = read_perhaps(rest, b"codes", MASK_LIMIT, USUAL_CODES)\n',
     '    (codes,) = read_perhaps(rest, b"codes", MASK_LIMIT, [session.endpoint.codes] if session.endpoint else [0])\n'),
    ("a refused start's setting", '    memory = bytearray(memory_length)\n',
     '    memory = bytearray(memory_length)\n    if session.endpoint:\n        session.endpoint.codes = codes\n'),
    ("`silent due`", '(True, True): "due silent"', '(True, True): "silent due"'),
    ("`pacer` in another order", "{pacer.last_due} {pacer.last_heard}", "{pacer.last_heard} {pacer.last_due}"),
    ("a radio message without its time", "    now = read_number(now_word, TIME_LIMIT)\n    is_due",
     "    read_number(now_word, TIME_LIMIT)\n    now = session.endpoint.pacer.clock\n    is_due"),
    ("`pacer` before a start", "if self.endpoint is None and first not in WITHOUT_STATE:\n",
     "if self.endpoint is None and first == b'pacer':\n            return 'pacer 0 0 0'\n"
     "        if self.endpoint is None and first not in WITHOUT_STATE:\n"),
    ("words behind a line", "if not least <= len(words) <= greatest:",
     "words = words[:greatest]\n        if not least <= len(words):"),
    ("a refused start leaves no state", "    session.endpoint = ciri.start_endpoint(",
     "    session.endpoint = None\n    session.endpoint = ciri.start_endpoint("),
    ("`kept` before a start", "if self.endpoint is None and first not in WITHOUT_STATE:\n",
     "if self.endpoint is None and first == b'kept':\n            return 'kept'\n"
     "        if self.endpoint is None and first not in WITHOUT_STATE:\n"),
    ("`kept` without the Link Instance's length", 'f"link {link_instance.length} {link_instance.value}"',
     'f"link {link_instance.value}"'),
    ("a status not reported shown as 0", '"-" if channel.status is None else', '"0" if channel.status is None else'),
)
