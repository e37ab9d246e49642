"""The form of archives and of their text (docs/ARCHIVE.md), for the tools beside it. It examines the form and nothing else."""
from collections import namedtuple
import re
import struct

MOST_BYTES = 65536
I32 = (-2**31, 2**31 - 1)
U16 = (0, 2**16 - 1)
U8 = (0, 2**8 - 1)
# The fields of each record: their names, their layout in bytes, and the least and the greatest number of each.
RECORDS = {
    "V": ("x y z", "<3i", [I32, I32, I32]),
    "T": ("a b c d", "<4H", [U16, U16, U16, U16]),
    "M": ("cell mark", "<HB", [U16, U8]),
    "G": ("", "<", []),
    "E": ("", "<", []),
}

# at: the line, from 1, of a record in a text; the byte, from 0, of one in an archive
Record = namedtuple("Record", "at letter numbers")


class Fault(Exception):
    """What is wrong, and with `at` where: a line or a byte as in a record, or None."""

    def __init__(self, words, at=None):
        super().__init__(words)
        self.at = at


class Order:
    """Whether records come in the order of the form."""

    def __init__(self):
        self.seen = ""
        # The last marked cell since the last G.
        self.cell = None

    def take(self, letter, numbers):
        if self.seen == "E":
            raise Fault("nothing may follow E")
        if letter == "V" and self.seen not in ("", "V"):
            raise Fault("V comes before T, M and G")
        if letter == "T" and self.seen not in ("", "V", "T"):
            raise Fault("T comes before M and G")
        if letter == "M":
            cell, mark = numbers
            if mark not in (1, 2):
                raise Fault(f"the mark {mark} is not 1 or 2")
            if self.cell is not None and cell <= self.cell:
                raise Fault(f"cells ascend before each G: {cell} after {self.cell}")
            self.cell = cell
        if letter == "G":
            self.cell = None
        if letter == "E" and self.cell is not None:
            raise Fault("a G is missing after the last M")
        self.seen = letter


def in_order(records):
    """The records, as long as they come in order."""
    order = Order()
    for record in records:
        try:
            order.take(record.letter, record.numbers)
        except Fault as fault:
            raise Fault(str(fault), record.at) from None
        yield record


def archive_records(archive):
    """The records of an archive up to an E as the last byte, in any order."""
    if len(archive) > MOST_BYTES:
        raise Fault(f"there are {len(archive)} bytes, and an archive has at most {MOST_BYTES}", MOST_BYTES)
    at = 0
    letter = ""
    while at < len(archive):
        letter = chr(archive[at])
        if letter not in RECORDS:
            raise Fault(f"no record begins with the byte {archive[at]}", at)
        layout = RECORDS[letter][1]
        end = at + 1 + struct.calcsize(layout)
        if end > len(archive):
            raise Fault(f"the record {letter} is cut short", at)
        yield Record(at, letter, struct.unpack(layout, archive[at + 1:end]))
        at = end
    if letter != "E":
        raise Fault("E is missing", at)


def text_records(text):
    """The records of a text, in any order; an E is put at the end where there is none."""
    last = None
    for number, line in enumerate(text.split("\n"), 1):
        words = line.split("#")[0].split()
        if words:
            try:
                last = Record(number, *_words(words))
            except Fault as fault:
                raise Fault(str(fault), number) from None
            yield last
    if last is None or last.letter != "E":
        yield Record(last.at if last else 1, "E", ())


def _words(words):
    """The letter and the numbers of a line's words."""
    letter = words[0]
    if letter not in RECORDS:
        raise Fault(f"unknown record {letter}: it is V, T, M, G or E")
    names, _, limits = RECORDS[letter]
    if len(words) != 1 + len(limits):
        raise Fault(f"the record is: {letter} {names}".rstrip())
    numbers = []
    for word, name, (least, most) in zip(words[1:], names.split(), limits):
        if not re.fullmatch("[+-]?[0-9]{1,20}", word):
            raise Fault(f"not a whole number: {word}")
        n = int(word)
        if not least <= n <= most:
            raise Fault(f"the mark {n} is not 1 or 2" if name == "mark" else f"{name}: {n} is not from {least} to {most}")
        numbers.append(n)
    return letter, tuple(numbers)


def record_bytes(record):
    return record.letter.encode() + struct.pack(RECORDS[record.letter][1], *record.numbers)


def record_line(record):
    return " ".join([record.letter, *map(str, record.numbers)]) + "\n"


def decoded(data):
    """The text of a file's bytes, without a byte-order mark."""
    try:
        return data.decode("utf-8-sig")
    except UnicodeDecodeError:
        raise Fault("the text is not UTF-8") from None


def is_text(data):
    """Whether bytes are a text: UTF-8 without control characters. Positions of an archive have zeros, or bytes of 255 that no UTF-8 has."""
    try:
        return not re.search("[\0-\x08\x0b\x0e-\x1f]", decoded(data))
    except Fault:
        return False
