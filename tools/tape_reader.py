"""tape_reader: reads tapes by docs/FORMATS.md and docs/RULES.md alone, to compare the program with.

A module of check-imports and check-tapes. It shares nothing with the program but those two pages.
"""
OPEN = 0xA5
LONGEST_PAYLOAD = 16777216
LAST_SOURCE = 2 ** 32 - 1
COUNTS = 2 ** 64
FINALS = {235, 239, 435, 437, 438, 439}
CAUSES = {1: "Limit", 2: "Deferred", 3: "Missing", 4: "Unsendable"}
OWE, FINAL, DROP, BASE, SEEN, CLOSED, LONG_BASE, BATCH = 1, 2, 3, 4, 5, 9, 10, 11
FROM_SOURCE = 5  # what the tag of a note about a debt of a backlog file has more
LONGEST_BATCH = 65536
KEYS = {tag + more: 9 + length for tag in (OWE, FINAL, DROP) for more, length in ((0, 0), (FROM_SOURCE, 4))}
LENGTHS = {SEEN: 9, CLOSED: 5} | {tag: key + (2 if tag in (FINAL, FINAL + FROM_SOURCE) else 1)
                                  for tag, key in KEYS.items() if tag not in (OWE, OWE + FROM_SOURCE)}


class Damaged(Exception):
    """A segment, 0 or 1, is damaged at an offset."""

    def __init__(self, segment, at):
        super().__init__(f"segment {segment} is damaged at {at}")
        self.segment, self.at = segment, at


class NoPayload(Exception):
    """Octets spell no note, or a note is not legal."""


def number(octets):
    return int.from_bytes(octets, "big")


def is_visible(text):
    return all(33 <= octet <= 126 for octet in text)


def is_token(text):
    return 1 <= len(text) <= 255 and is_visible(text) and not text.startswith(b"/") and b".." not in text.split(b"/")


def is_message_id(text):
    return (3 <= len(text) <= 250 and is_visible(text) and text.startswith(b"<") and text.endswith(b">")
            and text.count(b">") == 1)


def payloads_of(octets, segment):
    """The payloads of a segment, each with the offset of its gate, and the offset of the end gate."""
    found, at = [], 0
    while octets:
        if at == len(octets):
            raise Damaged(segment, at)
        if octets[at] != OPEN or at + 1 == len(octets):
            break
        length = number(octets[at + 1:at + 5])
        if at + 5 > len(octets) or length > LONGEST_PAYLOAD or at + 5 + length > len(octets):
            raise Damaged(segment, at)
        found.append((at, octets[at + 5:at + 5 + length]))
        at += 5 + length
    return found, at


def note_end(octets, at):
    """Where the note ends that begins at an offset, by its tag and the lengths of its texts."""
    tag = octets[at] if at < len(octets) else 0
    if tag in (OWE, OWE + FROM_SOURCE):
        token = at + KEYS[tag]
        message_id = token + 1 + number(octets[token:token + 1])
        end = message_id + 1 + number(octets[message_id:message_id + 1])
    elif tag in LENGTHS:
        end = at + LENGTHS[tag]
    else:
        raise NoPayload(f"no note in a batch: {octets[at:at + 20].hex()}")
    if end > len(octets):
        raise NoPayload("a note that its batch cuts short")
    return end


def notes_of(payload):
    """The notes of a payload, each as a payload of its own: those of a batch, or the one that the payload is."""
    if payload[:1] != bytes([BATCH]):
        return [payload]
    count, at, notes = number(payload[1:5]), 5, []
    if len(payload) > LONGEST_BATCH or count < 2:
        raise NoPayload(f"a batch of {count} in {len(payload)} octets")
    while at < len(payload):
        end = note_end(payload, at)
        notes.append(payload[at:end])
        at = end
    if len(notes) != count:
        raise NoPayload(f"a batch of {len(notes)} that says {count}")
    return notes


class Base:
    """What a segment begins with that a rotation wrote."""

    def __init__(self, payload):
        if (payload[:1], len(payload)) not in ((bytes([BASE]), 49), (bytes([LONG_BASE]), 61)):
            raise NoPayload("no Base")
        numbers = [number(payload[at:at + 8]) for at in range(1, 49, 8)]
        self.generation, self.mark, self.taken, self.answered, self.dropped, self.live = numbers
        self.closed, self.import_mark = number(payload[49:53]), number(payload[53:61])
        if payload[0] == LONG_BASE and self.closed == 0 and self.import_mark == 0:
            raise NoPayload("a Base that is spelled otherwise")

    def is_sound(self):
        return (self.generation > 0 and self.taken == self.answered + self.dropped + self.live
                and self.closed < LAST_SOURCE)


def base_of(payloads):
    """The Base that stands first, if one does."""
    try:
        return Base(payloads[0][1]) if payloads else None
    except NoPayload:
        return None


def generation_of(octets, segment):
    """The generation of a segment, by its first record alone."""
    if not octets or octets[0] != OPEN or len(octets) == 1:
        return 0
    length = number(octets[1:5])
    if len(octets) < 5 or length > LONGEST_PAYLOAD or 5 + length > len(octets):
        raise Damaged(segment, 0)
    base = base_of([(0, octets[5:5 + length])])
    if base and base.generation == 0:
        raise Damaged(segment, 0)
    return base.generation if base else 0


class Tape:
    """What a peer is owed, and how far its sources have come, by the octets of the two files of its tape."""

    def __init__(self, first, second=b""):
        self.mark = self.closed = self.import_mark = self.taken = self.answered = self.dropped = self.owed_bytes = 0
        self.debts = {}
        generations = [generation_of(octets, segment) for segment, octets in enumerate((first, second))]
        self.segment = 1 if generations[1] > generations[0] else 0
        payloads, end = payloads_of((first, second)[self.segment], self.segment)
        base = base_of(payloads)
        if base:
            payloads = self.begin(base, payloads, end)
        for at, payload in payloads:
            self.judge(at, self.apply_each, payload)

    @classmethod
    def of(cls, path):
        """The tape of the files PATH~a and PATH~b, of which each may be missing."""
        return cls(*(octets_of(path + end) for end in ("~a", "~b")))

    def judge(self, at, take, *payload):
        try:
            take(*payload)
        except NoPayload as why:
            raise Damaged(self.segment, at) from why

    def begin(self, base, payloads, end):
        """Begins with a Base and its debts, and gives the payloads after them."""
        if not base.is_sound():
            raise Damaged(self.segment, 0)
        self.mark, self.closed, self.import_mark = base.mark, base.closed, base.import_mark
        self.taken, self.answered, self.dropped = base.taken, base.answered, base.dropped
        self.last = (0, 0)
        for at, payload in payloads[1:1 + base.live]:
            self.judge(at, self.take_base_debt, payload)
        if len(self.debts) < base.live:
            raise Damaged(self.segment, end)
        return payloads[1 + base.live:]

    def take_base_debt(self, payload):
        key, debt = self.read_owe(payload)
        source, line = key
        most = {0: self.mark, self.closed + 1: self.import_mark}.get(source, COUNTS)
        if not (self.last < key and 1 <= line <= most and source <= self.closed + 1):
            raise NoPayload(f"{key} after a Base")
        self.last = key
        self.add(key, debt)

    @staticmethod
    def read_key(payload, tag):
        """The key of a note about a debt, whose tag is this one if it is of the funnel, and what follows it."""
        if payload[:1] == bytes([tag]) and len(payload) >= 9:
            return (0, number(payload[1:9])), payload[9:]
        if payload[:1] == bytes([tag + FROM_SOURCE]) and len(payload) >= 13 and number(payload[1:5]) > 0:
            return (number(payload[1:5]), number(payload[5:13])), payload[13:]
        raise NoPayload(f"no note of the kind {tag}")

    def read_owe(self, payload):
        key, rest = self.read_key(payload, OWE)
        token_end = 1 + rest[0] if rest else 1
        id_length = rest[token_end:token_end + 1]
        token, message_id = rest[1:token_end], rest[token_end + 1:]
        if not id_length or len(message_id) != id_length[0] or not is_token(token) or not is_message_id(message_id):
            raise NoPayload(f"the texts of {key}")
        return key, (token.decode(), message_id.decode())

    def apply_each(self, payload):
        """Takes the notes of a payload, each of which has to be legal in its turn."""
        for note in notes_of(payload):
            self.apply(note)

    def apply(self, payload):
        """Takes a note, which has to be legal."""
        tag = payload[0] if payload else 0
        if tag in (OWE, OWE + FROM_SOURCE):
            self.owe(*self.read_owe(payload))
        elif tag in (FINAL, FINAL + FROM_SOURCE):
            self.end(*self.read_key(payload, FINAL), 2, FINALS)
            self.answered += 1
        elif tag in (DROP, DROP + FROM_SOURCE):
            self.end(*self.read_key(payload, DROP), 1, CAUSES)
            self.dropped += 1
        elif tag == SEEN and len(payload) == 9 and number(payload[1:]) > self.mark:
            self.mark = number(payload[1:])
        elif tag == CLOSED and len(payload) == 5 and number(payload[1:]) == self.closed + 1 < LAST_SOURCE:
            self.closed, self.import_mark = self.closed + 1, 0
        else:
            raise NoPayload(payload[:20].hex())

    def owe(self, key, debt):
        source, line = key
        if source == 0 and line > self.mark:
            self.mark = line
        elif source == self.closed + 1 and line > self.import_mark:
            self.import_mark = line
        else:
            raise NoPayload(f"{key} comes late")
        self.taken += 1
        self.add(key, debt)

    def add(self, key, debt):
        self.debts[key] = debt
        self.owed_bytes += self.octets(debt)
        if self.taken >= COUNTS or self.owed_bytes >= COUNTS:
            raise NoPayload("a count is full")

    @staticmethod
    def octets(debt):
        return sum(len(text) + 1 for text in debt)

    def end(self, key, rest, length, known):
        if len(rest) != length or number(rest) not in known or key not in self.debts:
            raise NoPayload(f"{key} ends by {rest.hex()}")
        self.owed_bytes -= self.octets(self.debts.pop(key))

    def listed(self, name):
        """What `--owed` has to print of this peer."""
        return [f"{name} {printed(key)} {' '.join(debt)}" for key, debt in sorted(self.debts.items())]


def printed(key):
    """A key as the program prints it."""
    source, line = key
    return str(line) if source == 0 else f"{source}/{line}"


def octets_of(path):
    try:
        with open(path, "rb") as file:
            return file.read()
    except FileNotFoundError:
        return b""
