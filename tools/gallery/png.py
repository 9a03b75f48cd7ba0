"""A small reader of PNG: what browsers and rsvg-convert write, eight bits a channel, RGB or RGBA, not interlaced."""
import struct
import zlib
from itertools import accumulate

CHANNELS = {2: 3, 6: 4}


class Image:
    """The pixels of an image: its size, and the bytes of each row, `channels` of them a pixel."""

    def __init__(self, data):
        chunks = dict.fromkeys((b'IHDR', b'IDAT'), b'')
        assert data[:8] == b'\x89PNG\r\n\x1a\n', 'no PNG'
        at = 8
        while at < len(data):
            length, kind = struct.unpack('>I4s', data[at:at + 8])
            if kind in chunks:
                chunks[kind] += data[at + 8:at + 8 + length]
            at += 12 + length
        self.width, self.height, depth, color, _, _, interlaced = struct.unpack('>IIBBBBB', chunks[b'IHDR'])
        assert depth == 8 and color in CHANNELS and not interlaced, (depth, color, interlaced)
        self.channels = CHANNELS[color]
        self.rows = list(unfiltered(zlib.decompress(chunks[b'IDAT']), self.width * self.channels, self.channels))

    def pixel(self, x, y):
        """The red, the green and the blue of a pixel."""
        return self.rows[y][x * self.channels:x * self.channels + 3]


def unfiltered(data, width, step):
    """The rows of `width` bytes that PNG's filters made `data` from; a pixel is `step` bytes."""
    above = bytes(width)
    for at in range(0, len(data), width + 1):
        line = data[at + 1:at + 1 + width]
        above = FILTERS[data[at]](line, above, step)
        yield above


def from_left(line, _, step):
    """A row that states differences from the pixel to the left."""
    row = bytearray(line)
    for channel in range(step):
        row[channel::step] = bytes(sum_ & 255 for sum_ in accumulate(line[channel::step]))
    return bytes(row)


def from_above(line, above, _):
    """A row that states differences from the row above."""
    return bytes((a + b) & 255 for a, b in zip(line, above))


def from_average(line, above, step):
    """A row that states differences from the mean of the pixels to the left and above."""
    row = bytearray(step) + line
    for at, up in enumerate(above):
        row[at + step] = (row[at + step] + (row[at] + up) // 2) & 255
    return bytes(row[step:])


def from_nearest(line, above, step):
    """A row that states differences from the pixel to the left, above, or above that to the left: whichever predicts it best (Paeth)."""
    row, corners = bytearray(step) + line, bytes(step) + above
    for at, (up, corner) in enumerate(zip(above, corners)):
        left = row[at]
        by_left, by_up, by_corner = abs(up - corner), abs(left - corner), abs(left + up - 2 * corner)
        nearest = left if by_left <= by_up and by_left <= by_corner else up if by_up <= by_corner else corner
        row[at + step] = (row[at + step] + nearest) & 255
    return bytes(row[step:])


FILTERS = (lambda line, *_: line, from_left, from_above, from_average, from_nearest)
