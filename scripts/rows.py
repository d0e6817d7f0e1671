"""Rows of a file: texts, and what is wanted of them. scripts/make_cases.py and scripts/cases.py read rows with it.

`TEXT => WANTED` is a row, and so are lines `NAME: TEXT`, a document each, with lines `> WANTED` behind them. `NAME` alone stands
for a file that cannot be read. A text after `given` stands before those of each row that follows, until others are given, or
`nothing`. A line that begins with # is a comment.

Pictures stand for what cannot be seen or would be long: ␊ and the like for a control character, ␠ for a space, ▯ for the byte
0xff, ⟨U+FEFF⟩ for a character by its number, ⟨9*TEXT⟩ for a text nine times, in which ‹0› stands for 0 at first and for one more
each time."""
import re

PLAIN = {chr(0x2400 + code): chr(code) for code in range(0x21)}
PLAIN["␡"] = "\x7f"


def plain_bytes(text):
    return b"\xff".join("".join(PLAIN.get(one, one) for one in part).encode() for part in text.split("▯"))


def inside_bytes(inside):
    """What ⟨ and ⟩ enclose."""
    count, times, text = inside.partition("*")
    if not times:
        return chr(int(inside.removeprefix("U+"), 16)).encode()
    if "‹" not in text:
        return plain_bytes(text) * int(count)
    turned = lambda turn: re.sub("‹([0-9]+)›", lambda found: str(int(found[1]) + turn), text)
    return b"".join(plain_bytes(turned(turn)) for turn in range(int(count)))


def bytes_of(text):
    """The bytes that a text of a row stands for."""
    first, *pieces = text.split("⟨")
    made = [plain_bytes(first)]
    for piece in pieces:
        inside, closing, rest = piece.partition("⟩")
        if not closing:
            raise ValueError(f"no ⟩ in {text}")
        made += [inside_bytes(inside), plain_bytes(rest)]
    return b"".join(made)


class Entry:
    """A text with its name, or a name alone."""

    def __init__(self, key, text):
        self.key = key
        self.is_given = False
        self.bytes = None if text is None else bytes_of(text)

    @classmethod
    def of_line(cls, line):
        key, colon, text = line.partition(":")
        return cls(key, text.strip() if colon else None)


class Row:
    """Texts, and what is wanted of them, with the line where that stands first."""

    def __init__(self, line, entries):
        self.line = line
        self.entries = entries
        self.lines = []

    @property
    def wanted(self):
        """What is wanted, a line behind the other."""
        return bytes_of("\n".join(self.lines)).decode()


def read_rows(path):
    """The rows of a file."""
    rows, given, own = [], [], []
    is_giving = is_open = False

    def put_row(number):
        nonlocal is_giving
        rows.append(Row(number, given + own))
        own.clear()
        is_giving = False

    with open(path, encoding="utf-8") as file:
        lines = file.read().split("\n")
    for number, line in enumerate(lines, 1):
        if not line or line.startswith("#"):
            is_open = False
        elif line.startswith(">"):
            if not is_open:
                put_row(number)
            rows[-1].lines.append(line[1:].strip())
            is_open = True
        elif "=>" in line:
            text, _, wanted = line.partition("=>")
            own.append(Entry("", text.strip()))
            put_row(number)
            rows[-1].lines.append(wanted.strip())
            is_open = False
        elif line.startswith("given "):
            entry = Entry.of_line(line.removeprefix("given "))
            if not is_giving:
                given.clear()
            if entry.bytes is not None:
                entry.is_given = is_giving = True
                given.append(entry)
        else:
            is_open = False
            own.append(Entry.of_line(line))
    return rows
