"""The parts of a workbook: a zip of XML, of which each part is read piece by piece, and nothing is kept but what
somebody asked for. A name of a part is only looked up: nothing is unpacked into a folder."""
import io
import zipfile
from xml.parsers import expat

from registry_tools.errors import FileFault, shown
from registry_tools.sheets import limits

PIECE = 1 << 16
# Between the name of a namespace and that of an element.
BETWEEN = "}"
# How each entry of a zip's list of its parts begins.
ENTRY = b"PK\x01\x02"
NO_OTHER = "a part that is stored, or packed by deflate"


class Elements:
    """Who is told the elements of a part as they come. `open` has the names of those that are open, without the one
    that begins or ends."""

    def __init__(self) -> None:
        self.open: list[str] = []

    def begin(self, name: str, of: dict[str, str]) -> None:
        """An element begins, with these attributes."""

    def end(self, name: str) -> None:
        """An element ends."""

    def text(self, letters: str) -> None:
        """Letters stand in the element that is open."""


class Enough(Exception):
    """Nothing more of a part is wanted."""


class Parts:
    """The parts of the workbook in a file. Raises FileFault at a limit, and what is no workbook raises what unpacking
    and reading it raises."""

    def __init__(self, path: str, content: bytes) -> None:
        self.path, self.bytes, self.elements = path, 0, 0
        # (the list is read at once, with an object for each entry)
        if content.count(ENTRY) > limits.MOST_PARTS:
            raise limits.too_much(path, "parts", limits.MOST_PARTS)
        self.archive = zipfile.ZipFile(io.BytesIO(content))
        self.names = self.archive.namelist()
        names = set[str]()
        for name in self.names:
            if name in names:
                # (one program reads the first, and another one the last)
                raise FileFault(path, 0, "part", f"{shown(name)} twice", "each part once")
            names.add(name)

    def read(self, name: str, elements: Elements) -> None:
        """Tells somebody all elements of a part. Raises KeyError if there is none."""
        part = self.archive.getinfo(name)
        if part.compress_type not in (zipfile.ZIP_STORED, zipfile.ZIP_DEFLATED):
            raise FileFault(self.path, 0, shown(name), f"packing {part.compress_type}", NO_OTHER)
        parser = self.parser_for(name, elements)
        fed = 0
        try:
            with self.archive.open(part) as stream:
                while piece := stream.read(PIECE):
                    self.bytes += len(piece)
                    if self.bytes > limits.MOST_BYTES:
                        raise limits.too_much(self.path, "bytes of its parts, unpacked", limits.MOST_BYTES)
                    parser.Parse(piece, False)
                    fed += len(piece)
                    if fed - parser.CurrentByteIndex > limits.MOST_ELEMENT:
                        raise limits.too_much(self.path, f"bytes of one element of {shown(name)}", limits.MOST_ELEMENT)
            parser.Parse(b"", True)
        except Enough:
            pass

    def parser_for(self, name: str, elements: Elements) -> expat.XMLParserType:
        """What reads a part for somebody."""
        parser = expat.ParserCreate(namespace_separator=BETWEEN)
        parser.buffer_text = True

        def begin(element: str, of: dict[str, str]) -> None:
            self.elements += 1
            if self.elements > limits.MOST_ELEMENTS:
                raise limits.too_much(self.path, "elements", limits.MOST_ELEMENTS)
            if len(elements.open) >= limits.MOST_DEPTH:
                raise limits.too_much(self.path, f"elements in each other in {shown(name)}", limits.MOST_DEPTH)
            elements.begin(element, of)
            elements.open.append(element)

        def end(element: str) -> None:
            elements.open.pop()
            elements.end(element)

        def refuse(*_: object) -> None:
            raise FileFault(self.path, 0, shown(name), "a DOCTYPE", "none: a spreadsheet writes none, and its entities "
                            "may be endless")  # fmt: skip

        parser.StartElementHandler, parser.EndElementHandler = begin, end
        parser.CharacterDataHandler, parser.StartDoctypeDeclHandler = elements.text, refuse
        return parser


def count_in(word: str | None, otherwise: int) -> int:
    """The number that an attribute spells: how often, or at which place; `otherwise`, if it is not there. Raises
    ValueError if it is none that a table can have."""
    if word is None:
        return otherwise
    if not (word.isascii() and word.isdigit() and len(word) < 10):
        raise ValueError(f"the number {shown(word)}")
    return int(word)
