#!/usr/bin/env python3
"""Makes a day file from lines of text, or text from a day file.

    python3 tools/make_day.py FILE.txt > FILE.day
    python3 tools/make_day.py --text FILE.day > FILE.txt

Each line is a record: its mark and its fields in decimal, with one space between each two.

    HZ horizon origin
    YN yard name                     the name is all that follows the second space
    LN from to transit capacity
    DP yard
    SD lane period capacity
    HD yard pallets
    BK slip
    RL slip
    QT ranking
    RS

A field may have any number that fits in its bytes, so that what is refused can be written too. And besides:

    HEX 48 5a 03                     these bytes as they are, such as a record that is cut short
    TIMES 512 HD 1 1                 the line that follows the number, so many times
    # ...                            a remark; such lines and empty ones make nothing

With --text, what is no whole record becomes a HEX line. FILE may be `-` for standard input.
"""
import re
import struct
import sys

LAYOUT = {"HZ": "BB", "LN": "BBBH", "DP": "B", "SD": "BBH", "HD": "BH", "BK": "H", "RL": "H", "QT": "B", "RS": ""}


def record(text):
    """The bytes of a line."""
    if not text.strip() or text.startswith("#"):
        return b""
    mark, _, rest = text.partition(" ")
    if mark == "TIMES":
        count, _, again = rest.partition(" ")
        return int(count) * record(again)
    if mark == "HEX":
        return bytes.fromhex(rest)
    if mark == "YN":
        yard, _, name = rest.partition(" ")
        return b"YN" + struct.pack("BB", int(yard), len(name)) + name.encode("latin-1")
    return mark.encode() + struct.pack(">" + LAYOUT[mark], *map(int, rest.split()))


def make(text):
    """The bytes of all lines."""
    file = b""
    for number, line in enumerate(text.split("\n"), 1):
        try:
            file += record(line)
        except (KeyError, ValueError, struct.error) as why:
            sys.exit(f"line {number}: {line!r}: {why!r}")
    return file


def lines(file):
    """The lines of a day file."""
    while file:
        mark = file[:2].decode("latin-1")
        size = 2 + struct.calcsize(">" + LAYOUT.get(mark, ""))
        if mark == "YN" and len(file) > 3 and re.fullmatch(rb"[ -~]*", file[4:4 + file[3]]) and len(file) >= 4 + file[3]:
            size = 4 + file[3]
            yield f"YN {file[2]} {file[4:size].decode()}"
        elif mark in LAYOUT and len(file) >= size:
            yield " ".join([mark, *map(str, struct.unpack(">" + LAYOUT[mark], file[2:size]))])
        else:
            size = len(file)
            yield "HEX " + file.hex(" ")
        file = file[size:]


def main():
    names = [name for name in sys.argv[1:] if name != "--text"]
    if len(names) != 1:
        sys.exit(__doc__)
    to_text = "--text" in sys.argv
    source = sys.stdin.buffer if names[0] == "-" else open(names[0], "rb")
    with source:
        data = source.read()
    if to_text:
        print("\n".join(lines(data)))
    else:
        sys.stdout.buffer.write(make(data.decode("latin-1")))


if __name__ == "__main__":
    main()
