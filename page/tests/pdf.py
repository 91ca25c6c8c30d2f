"""The text of a PDF that Chromium made, read with the standard library alone. A font names its glyphs by two bytes, and has a map of these to characters."""
import re
import zlib

OBJECT = re.compile(rb"(?s)(\d+) 0 obj(.*?)endobj")
STREAM = re.compile(rb"(?s)stream\r?\n(.*)\r?\nendstream")
MAPPED = re.compile(rb"<([0-9A-F]{4})> <([0-9A-F]+)>\n")
RANGE = re.compile(rb"<([0-9A-F]{4})> <([0-9A-F]{4})> <([0-9A-F]{4})>\n")
# The choice of a font by its object, or glyphs that are shown.
SHOWN = re.compile(rb"/F(\d+) [\d.]+ Tf|<([0-9A-F]+)>")


def unpacked(body):
    found = STREAM.search(body)
    return zlib.decompress(found[1]) if found and b"/FlateDecode" in body[: found.start()] else b""


def glyphs(table):
    """The character of each glyph, of the table of a font."""
    made = {int(it[1], 16): bytes.fromhex(it[2].decode()).decode("utf-16-be") for it in MAPPED.finditer(table)}
    for first, last, begin in (tuple(int(it, 16) for it in found.groups()) for found in RANGE.finditer(table)):
        made |= {at: chr(begin + at - first) for at in range(first, last + 1)}
    return made


def text_of(pdf):
    """The text of all pages in order. Nothing parts what the pages have apart."""
    objects = {int(it[1]): it[2] for it in OBJECT.finditer(pdf)}
    tables = {at: re.search(rb"/ToUnicode (\d+) 0 R", body) for at, body in objects.items()}
    fonts = {at: glyphs(unpacked(objects[int(found[1])])) for at, found in tables.items() if found}
    pages = [re.search(rb"/Contents (\d+) 0 R", body) for body in objects.values() if b"/Type /Page\n" in body]
    text, font = "", {}
    for page in filter(None, pages):
        for it in SHOWN.finditer(unpacked(objects[int(page[1])])):
            if it[1]:
                font = fonts.get(int(it[1]), {})
            else:
                text += "".join(font.get(int(it[2][at : at + 4], 16), "\ufffd") for at in range(0, len(it[2]), 4))
    return text
