#!/usr/bin/env python3
"""The file of a library (docs/FORMATS.md), read and written without the program: for other scripts.

records.py make FILE COUNT SOURCE WORDS     a library with this many units, u1000000, u1000001 .., that have no certificate, and this many bytes of
                                            source and words of code each; it has room for as many more, and prints how many bytes a body has
records.py image FILE CODE GLOBALS          a library with one unit, `image`, of the words in these two files
records.py sizes FILE                       for each unit its name, and how many bytes its record's body has without a certificate and with its own"""

import struct
import sys

HEAD, OPEN = 16, b"\xa5"
# The largest size that an area can have, and the smallest.
MOST, LEAST = 1 << 30, 64


class Record:
    """A record that adds or replaces a unit, and the places of its parts in the file."""

    def __init__(self, data, at):
        (length,) = struct.unpack_from("<I", data, at + 1)
        self.at, self.body, self.end = at, at + 5, at + 5 + length
        self.version, self.kind, size = data[self.body : self.body + 3]
        at = self.body + 3 + size
        self.name = data[self.body + 3 : at].decode()
        if self.kind == 3:
            return
        self.source = range(at + 4, at + 4 + struct.unpack_from("<I", data, at)[0])
        at = self.source.stop
        code = range(at + 4, at + 4 + 4 * struct.unpack_from("<I", data, at)[0])
        globals_ = range(code.stop + 4, code.stop + 4 + 4 * struct.unpack_from("<I", data, code.stop)[0])
        self.image, self.behind_image = [*code, *globals_], globals_.stop
        self.certificate = range(self.behind_image + 4, self.end) if self.version == 2 else None


def records(data):
    """The records in use, the oldest first."""
    if data[1:8] != b"CCLIB01":
        raise ValueError("this is no library")
    at = HEAD + data[0] % 2 * struct.unpack_from("<I", data, 8)[0]
    while data[at : at + 1] == OPEN:
        yield Record(data, at)
        at = Record(data, at).end


def body(name, source, code, globals_=b"", certificate=None):
    """The body of a record that adds this unit."""
    made = bytes([1 if certificate is None else 2, 1, len(name)]) + name.encode()
    made += struct.pack("<I", len(source)) + source
    made += struct.pack("<I", len(code) // 4) + code + struct.pack("<I", len(globals_) // 4) + globals_
    return made if certificate is None else made + struct.pack("<I", len(certificate)) + certificate


def record(body_):
    return OPEN + struct.pack("<I", len(body_)) + body_


def write(path, bodies, area=0):
    """Makes a library of these records, with areas of this many bytes or as many as they take."""
    made = b"".join(map(record, bodies))
    area = min(MOST, max(LEAST, area, len(made) + 1))
    with open(path, "wb") as file:
        file.write(b"\0CCLIB01" + struct.pack("<II", area, 0) + made + bytes(2 * area - len(made)))


def make(path, count, source, words):
    bodies = [body(f"u{1_000_000 + it}", b"/" * source, b"\x13\0\0\0" * words) for it in range(count)]
    write(path, bodies, 2 * count * (len(bodies[0]) + 5) + LEAST)
    print(len(bodies[0]))


def image(path, code, globals_):
    with open(code, "rb") as first, open(globals_, "rb") as second:
        write(path, [body("image", b"", first.read(), second.read())], 4096)


def sizes(path):
    with open(path, "rb") as file:
        data = file.read()
    for it in filter(lambda it: it.kind != 3, records(data)):
        print(it.name, it.behind_image - it.body, it.end - it.body)


def main():
    words = sys.argv[1:]
    if len(words) == 5 and words[0] == "make":
        make(words[1], *map(int, words[2:]))
    elif len(words) == 4 and words[0] == "image":
        image(*words[1:])
    elif len(words) == 2 and words[0] == "sizes":
        sizes(words[1])
    else:
        sys.exit(__doc__)


if __name__ == "__main__":
    main()
