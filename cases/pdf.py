"""Reads the words of a PDF that the browser printed, page by page, for the tests.

It knows what this browser writes: objects one after another, streams that are packed by zlib, and fonts whose glyphs
are named by the letters that they show.
"""
import re
import unicodedata
import zlib

OBJECT = re.compile(rb"(?:^|\n)([0-9]+) 0 obj\s(.*?)\sendobj", re.DOTALL)
# (what is packed may end with a line end of its own)
STREAM = re.compile(rb"stream\r?\n(.*?)\nendstream", re.DOTALL)
FONT = re.compile(rb"/(F[0-9]+) ([0-9]+) 0 R")
SHOWN = re.compile(rb"/(F[0-9]+) [0-9.]+ Tf|<([0-9A-Fa-f]+)> Tj|\[(.*?)\] TJ|(BT)|(ET)", re.DOTALL)
HEX = re.compile(rb"<([0-9A-Fa-f]+)>")
ONE = re.compile(rb"^<([0-9A-F]+)> <([0-9A-F]+)>$", re.MULTILINE)
RANGE = re.compile(rb"^<([0-9A-F]+)> <([0-9A-F]+)> <([0-9A-F]+)>$", re.MULTILINE)


def pages(content: bytes) -> list[str]:
    """The words of each page, in the order in which they were drawn."""
    objects = {int(number): body for number, body in OBJECT.findall(content)}
    found = [body for body in objects.values() if re.search(rb"/Type /Page\b", body)]
    return [words_of(objects, body) for body in found]


def stream_of(body: bytes) -> bytes:
    match = STREAM.search(body)
    if match is None:
        return b""
    return zlib.decompressobj().decompress(match[1]) if b"/FlateDecode" in body else match[1]


def number_behind(name: bytes, body: bytes) -> int | None:
    match = re.search(name + rb" ([0-9]+) 0 R", body)
    return int(match[1]) if match else None


def letters_of(objects: dict[int, bytes], font: int) -> dict[int, str]:
    """What each glyph of a font shows."""
    number = number_behind(rb"/ToUnicode", objects[font])
    text = stream_of(objects[number]) if number is not None else b""
    letters = {int(glyph, 16): letter_of(code) for glyph, code in ONE.findall(text)}
    for first, last, code in RANGE.findall(text):
        for place in range(int(first, 16), int(last, 16) + 1):
            letters[place] = chr(int(code, 16) + place - int(first, 16))
    return letters


def letter_of(code: bytes) -> str:
    return bytes.fromhex(code.decode()).decode("utf-16-be", "replace")


def words_of(objects: dict[int, bytes], page: bytes) -> str:
    resources = number_behind(rb"/Resources", page)
    own = objects[resources] if resources is not None else page
    fonts = {name: letters_of(objects, int(number)) for name, number in FONT.findall(own)}
    content = number_behind(rb"/Contents", page)
    words: list[str] = []
    letters: dict[int, str] = {}
    for font, one, several, begin, _ in SHOWN.findall(stream_of(objects[content]) if content is not None else b""):
        if font:
            letters = fonts.get(font, {})
        elif begin:
            words.append(" ")
        for glyphs in [one] if one else HEX.findall(several):
            words += [letters.get(int(glyphs[place : place + 4], 16), "?") for place in range(0, len(glyphs), 4)]
    # (a font may have one glyph for two letters)
    return unicodedata.normalize("NFKC", "".join(words))
