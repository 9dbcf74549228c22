"""What vkms of Linux 6.1 shows, by its own arithmetic (drivers/gpu/drm/vkms/vkms_composer.c and vkms_formats.c).

A channel has 16 bits between layers, every plane is pre-multiplied, sums have 32 bits, and planes stand in the order of their index.
"""
import functools
import struct
import zlib

MOST = 0xFFFF
BACKGROUND = (MOST, 0, 0, 0)


def widened(value, bits):
    """A channel of so many bits as one of 16 (RGB565_to_argb_u16)."""
    most = (1 << bits) - 1
    return (2 * value * MOST + most) // (2 * most)


@functools.cache
def read_pixel(word, format):
    """A pixel's word as alpha, red, green and blue."""
    if format == "RG16":
        return MOST, widened(word >> 11, 5), widened(word >> 5 & 63, 6), widened(word & 31, 5)
    alpha, *colours = (257 * (word >> shift & 255) for shift in (24, 16, 8, 0))
    return (alpha if format == "AR24" else MOST, *colours)


def channel(source, below, alpha):
    """pre_mul_blend_channel: what does not fit into 32 bits is lost, and into 16."""
    total = (source * MOST + below * (MOST - alpha)) % 2**32
    return (total + MOST // 2) % 2**32 // MOST % 2**16


@functools.cache
def blended(pixel, below):
    alpha, *colours = pixel
    return (MOST, *(channel(colour, under, alpha) for colour, under in zip(colours, below[1:])))


def ramp(format, x, y):
    if format == "RG16":
        return x % 32 << 11 | y % 64 << 5 | (x + y) % 32
    return 255 << 24 | x % 256 << 16 | y % 256 << 8 | (x + y) % 256


def word_at(thing, x, y):
    """The word of a framebuffer's pixel."""
    name, *words = thing.pattern
    if name == "ramp":
        return ramp(thing.format, x, y)
    if name == "pixels":
        return int(words[y * thing.width + x], 16)
    is_second = name == "checker" and (x // int(words[2]) + y // int(words[2])) % 2
    return int(words[1 if is_second else 0], 16)


def spans(values, width, height):
    """Where a plane is on a screen, as ranges of columns and rows."""
    sides = [(values[f"CRTC_{axis}"], values[f"CRTC_{size}"], whole) for axis, size, whole in (("X", "W", width), ("Y", "H", height))]
    return [range(max(at, 0), min(at + length, whole)) for at, length, whole in sides]


def checksum(planes, width, height):
    """The CRC32 of a frame of planes, each with its values by name."""
    frame = [[BACKGROUND] * width for _ in range(height)]
    for values in planes:
        thing, (columns, rows) = values["FB_ID"], spans(values, width, height)
        left, top = (values[f"SRC_{axis}"] // 65536 - values[f"CRTC_{axis}"] for axis in "XY")
        for y in rows:
            for x in columns:
                frame[y][x] = blended(read_pixel(word_at(thing, x + left, y + top), thing.format), frame[y][x])
    pixels = b"".join(struct.pack("<4H", *pixel) for row in frame for pixel in row)
    return zlib.crc32(pixels, 2**32 - 1) ^ (2**32 - 1)
