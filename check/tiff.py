"""TIFF files by the definitions: the contents of an image, and a plate's file."""
import struct


def first_directory(data, order):
    """The values of each BYTE, SHORT or LONG field of a file's first directory. The first entry of a tag counts."""
    place, fields = struct.unpack_from(order + "I", data, 4)[0], {}
    for entry in range(struct.unpack_from(order + "H", data, place)[0]):
        at = place + 2 + 12 * entry
        tag, kind, count = struct.unpack_from(order + "HHI", data, at)
        if kind in (1, 3, 4) and tag not in fields:
            size, letter = {1: (1, "B"), 3: (2, "H"), 4: (4, "I")}[kind]
            start = at + 8 if size * count <= 4 else struct.unpack_from(order + "I", data, at + 8)[0]
            fields[tag] = struct.unpack_from(order + letter * count, data, start)
    return fields


def unpacked(strip):
    """The bytes that PackBits packets expand to."""
    out, at = bytearray(), 0
    while at < len(strip):
        head = strip[at]
        if head < 128:
            out += strip[at + 1:at + 2 + head]
            at += 2 + head
        elif head == 128:
            at += 1
        else:
            out += strip[at + 1:at + 2] * (257 - head)
            at += 2
    return bytes(out)


class Image:
    """The samples of the first image of a TIFF file, pixel after pixel, uncompressed."""

    def __init__(self, path):
        with open(path, "rb") as file:
            data = file.read()
        order = "<" if data[:2] == b"II" else ">"
        fields = first_directory(data, order)
        self.width, self.length, self.photometric = (fields[tag][0] for tag in (256, 257, 262))
        count, deep = fields.get(277, (1,))[0], fields.get(258, (1,))[0]
        each = min(self.length, fields.get(278, (self.length,))[0])
        planes = count if fields.get(284, (1,))[0] == 2 else 1
        across = (self.width * (count // planes) * deep + 7) // 8
        strips, plane = -(-self.length // each), []
        for number, (at, size) in enumerate(zip(fields[273], fields[279])):
            if number % strips == 0:
                plane.append(bytearray())
            rows = min(each, self.length - number % strips * each)
            strip = data[at:at + size]
            if fields.get(259, (1,))[0] == 32773:
                strip = unpacked(strip)
            if len(strip) < rows * across:
                raise ValueError(f"{path}: a strip is short")
            plane[-1] += strip[:rows * across]
        self.samples = plane[0]
        if planes > 1:
            self.samples = bytearray(planes * len(plane[0]))
            for number in range(planes):
                self.samples[number::planes] = plane[number]

    def contone(self, x, y):
        at = 4 * (y * self.width + x)
        return list(self.samples[at:at + 4]) + [0]

    def marked(self, x, y):
        byte = self.samples[y * ((self.width + 7) // 8) + x // 8]
        return (byte >> (7 - x % 8) & 1) == (0 if self.photometric == 1 else 1)


def packed(row):
    """A row in PackBits."""
    out, at = bytearray(), 0
    while at < len(row):
        same = 1
        while same < 128 and at + same < len(row) and row[at + same] == row[at]:
            same += 1
        if same >= 3:
            out += bytes([257 - same, row[at]])
            at += same
            continue
        end = at
        while end < len(row) and end - at < 128 and row[end:end + 3] != row[end:end + 1] * 3:
            end += 1
        out += bytes([end - at - 1]) + row[at:end]
        at = end
    return bytes(out)


def plate_file(width, rows, dpi):
    """A plate: front, packed rows, directory, resolutions, strip table."""
    each = max(1, 8192 // ((width + 7) // 8))
    strips = [b"".join(map(packed, rows[i:i + each])) for i in range(0, len(rows), each)]
    body = b"".join(strips)
    end = 8 + len(body)
    at, s = end + end % 2, len(strips)
    offsets = [8 + sum(map(len, strips[:i])) for i in range(s)]
    entries = [
        (256, 4, 1, width), (257, 4, 1, len(rows)), (258, 3, 1, 1), (259, 3, 1, 32773), (262, 3, 1, 0),
        (273, 4, s, 8 if s == 1 else at + 166), (277, 3, 1, 1), (278, 4, 1, each),
        (279, 4, s, end - 8 if s == 1 else at + 166 + 4 * s),
        (282, 5, 1, at + 150), (283, 5, 1, at + 158), (296, 3, 1, 2),
    ]
    out = b"II" + struct.pack("<HI", 42, at) + body + bytes(end % 2) + struct.pack("<H", len(entries))
    out += b"".join(struct.pack("<HHII", *entry) for entry in entries)
    out += struct.pack("<I4I", 0, dpi, 1, dpi, 1)
    if s > 1:
        out += struct.pack(f"<{2 * s}I", *offsets, *map(len, strips))
    return out
