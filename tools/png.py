"""Pictures as PNG files: rows of three bytes for each pixel."""
import struct
import zlib

HEAD = b"\x89PNG\r\n\x1a\n"
COLOURS, PALETTE = 2, 3  # kinds of PNG: red, green and blue of each pixel, or its place in a list of colours
PLAIN, LEFT, UP = b"\0", b"\1", b"\2"  # what a row is told by
SIZES = bytes(min(it, 256 - it) for it in range(256))  # of differences


def chunk(kind, data):
    return struct.pack(">I", len(data)) + kind + data + struct.pack(">I", zlib.crc32(kind + data))


def pixels(row):
    """The colours of a row, one after the other."""
    return zip(row[0::3], row[1::3], row[2::3])


def palette_of(rows):
    """The colours of a picture in order, or none where they are more than 256."""
    found = set()
    for row in dict.fromkeys(rows):
        found.update(pixels(row))
        if len(found) > 256:
            return None
    return sorted(found)


def less(row, other):
    """The differences of two rows, byte by byte."""
    return bytes((it - below) & 255 for it, below in zip(row, other))


def filtered(row, above, kind):
    """A row as PNG has it: as it is, or less the pixel to its left, or less the row above it, whichever has the smallest bytes."""
    if row == above:
        return UP + bytes(len(row))
    if kind == PALETTE:
        return PLAIN + row
    ways = [PLAIN + row, LEFT + less(row, bytes(3) + row), UP + less(row, above)]
    return min(ways, key=lambda it: sum(it[1:].translate(SIZES)))


def scanlines(rows, kind):
    above = bytes(len(rows[0]))
    for row in rows:
        yield filtered(row, above, kind)
        above = row


def unfiltered(line, above):
    """The row that a line of ours stands for."""
    way, row = line[:1], bytearray(line[1:])
    if way == LEFT:
        for at in range(3, len(row)):
            row[at] = (row[at] + row[at - 3]) & 255
    elif way == UP:
        row = bytes((it + below) & 255 for it, below in zip(row, above))
    return bytes(row)


def packed(width, height, rows):
    """The bytes of a PNG file, with a palette where there are few colours."""
    palette = palette_of(rows)
    colours = b""
    if palette is not None:
        place = {colour: at for at, colour in enumerate(palette)}
        short = {row: bytes(place[it] for it in pixels(row)) for row in dict.fromkeys(rows)}
        rows = [short[row] for row in rows]
        colours = chunk(b"PLTE", b"".join(map(bytes, palette)))
    kind = COLOURS if palette is None else PALETTE
    head = chunk(b"IHDR", struct.pack(">IIBBBBB", width, height, 8, kind, 0, 0, 0))
    data = chunk(b"IDAT", zlib.compress(b"".join(scanlines(rows, kind)), 9))
    return HEAD + head + colours + data + chunk(b"IEND", b"")


def chunks(data):
    """The kinds of chunks of a file, each with its bytes put together."""
    found, at = {}, len(HEAD)
    while at < len(data):
        (length,) = struct.unpack_from(">I", data, at)
        kind = data[at + 4:at + 8]
        found[kind] = found.get(kind, b"") + data[at + 8:at + 8 + length]
        at += 12 + length
    return found


def unpacked(data):
    """The rows of a file that `packed` made."""
    parts = chunks(data)
    width, height, _, kind = struct.unpack_from(">IIBB", parts[b"IHDR"])
    length = width * (3 if kind == COLOURS else 1)
    lines = zlib.decompress(parts[b"IDAT"])
    rows = []
    for at in range(0, len(lines), length + 1):
        rows.append(unfiltered(lines[at:at + 1 + length], rows[-1] if rows else bytes(length)))
    assert len(rows) == height
    colours = parts.get(b"PLTE", b"")
    return rows if kind == COLOURS else [b"".join(colours[3 * it:3 * it + 3] for it in row) for row in rows]


def enlarged(rows, scale):
    """Each pixel so many times as wide and as high."""
    wide = [b"".join(row[at:at + 3] * scale for at in range(0, len(row), 3)) for row in rows] if scale > 1 else rows
    return [row for row in wide for _ in range(scale)]
