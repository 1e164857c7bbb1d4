"""Colours by name: a name has the same colour in every picture, whatever else the system has. The page does the same,
in page/src/colours.js."""
from __future__ import annotations

import functools
import math

# a side without a glue
BARE = "#b8c0c8"
# how many hues there are, and for each lightness and chroma a round of them
HUES, SHADES = 24, ((0.8, 0.085), (0.68, 0.105), (0.88, 0.06))
# which of all ways to mix names keeps the colours of the examples apart
SALT = 34727
U32 = 0xFFFFFFFF


def channel(linear: float) -> int:
    """A part of a colour in sRGB, 0 to 255."""
    it = min(1.0, max(0.0, linear))
    shown = 12.92 * it if it <= 0.0031308 else 1.055 * math.pow(it, 1 / 2.4) - 0.055
    return math.floor(255 * shown + 0.5)


def oklch(light: float, chroma: float, hue: float) -> str:
    """The colour of a lightness, a chroma and a hue (in degrees) in Oklch, as #rrggbb."""
    a, b = chroma * math.cos(math.radians(hue)), chroma * math.sin(math.radians(hue))
    long, middle, short = (
        it**3
        for it in (
            light + 0.3963377774 * a + 0.2158037573 * b,
            light - 0.1055613458 * a - 0.0638541728 * b,
            light - 0.0894841775 * a - 1.291485548 * b,
        )
    )
    linear = (
        4.0767416621 * long - 3.3077115913 * middle + 0.2309699292 * short,
        -1.2684380046 * long + 2.6097574011 * middle - 0.3413193965 * short,
        -0.0041960863 * long - 0.7034186147 * middle + 1.707614701 * short,
    )
    return "#" + "".join(f"{channel(it):02x}" for it in linear)


@functools.lru_cache(None)
def palette() -> list[str]:
    """All colours."""
    return [
        oklch(light, chroma, (at + shade / len(SHADES)) * 360 / HUES + 20)
        for shade, (light, chroma) in enumerate(SHADES)
        for at in range(HUES)
    ]


def mixed(name: str) -> int:
    """32 bits that a name makes: FNV-1a over its bytes, and a mix, so that names which differ by one sign are far
    apart."""
    it = 0x811C9DC5
    for byte in name.encode():
        it = (it ^ byte) * 0x01000193 & U32
    it = (it ^ it >> 16 ^ SALT) * 0x7FEB352D & U32
    it = (it ^ it >> 15) * 0x846CA68B & U32
    return it ^ it >> 16


def colour_of(name: str, wished: dict[str, str] | None = None) -> str:
    """The colour of a type, or of a glue, as #rrggbb: the one that is wished for, or the one that its name makes."""
    if wished and name in wished:
        return wished[name]
    return BARE if name == "-" else palette()[mixed(name) % len(palette())]


def parts_of(colour: str) -> tuple[int, int, int]:
    """Red, green and blue, 0 to 255."""
    return int(colour[1:3], 16), int(colour[3:5], 16), int(colour[5:7], 16)


def is_dark(colour: str) -> bool:
    """Whether light letters are to stand on it."""
    red, green, blue = parts_of(colour)
    return 0.299 * red + 0.587 * green + 0.114 * blue < 128
