"""What goes over a connection between whoever gives a command and the desk that carries it out: frames, each a letter,
a length and so many bytes.

  the desk     GO, once it is there
  the caller   WORDS, and behind them the CONTENT of each file that they name and that could be read
  the desk     OUT and ERRORS, what the command writes to its streams, as it comes; FILE, a name, with its CONTENT
  the desk     FOLDER, a name, then of all that is in it ROOM, a name, or INSIDE, a name with its CONTENT, then ALL
  the caller   THERE, once all that is written
  the desk     KEEP, so that the folder gets its name; at last STATUS
  the caller   STOP at any time behind its words: as Ctrl-C at a terminal
"""
import json
import socket
import struct
from typing import Any, BinaryIO

GO, WORDS, CONTENT, OUT, ERRORS, FILE, FOLDER, ROOM, INSIDE, ALL, THERE, KEEP, STATUS, STOP = (
    b"G", b"W", b"C", b"O", b"E", b"F", b"D", b"R", b"I", b"A", b"T", b"K", b"S", b"X",
)  # fmt: skip
# The exit status of a command that is refused.
FAULT = 2
HEAD = struct.Struct("!cQ")
# So many bytes are read at a time.
PIECE = 1 << 20


class Broken(OSError):
    """The connection has ended, or what came is no frame."""


def frame(kind: bytes, content: bytes = b"") -> bytes:
    """A frame."""
    return HEAD.pack(kind, len(content)) + content


def send(connection: socket.socket, kind: bytes, content: bytes = b"") -> None:
    """Sends a frame. Raises Broken."""
    try:
        connection.sendall(frame(kind, content))
    except OSError as error:
        raise Broken(str(error.strerror)) from None


def send_at_once(connection: socket.socket, content: bytes) -> None:
    """Sends some bytes, the last ones, and waits for nobody."""
    connection.setblocking(False)
    try:
        connection.send(content)
        connection.shutdown(socket.SHUT_WR)
    except OSError:
        # (they are gone)
        pass


def refuse(connection: socket.socket, why: str) -> None:
    """Tells whoever wants to give a command that nothing is done, and why."""
    send_at_once(connection, frame(ERRORS, f"{why}\n".encode()) + frame(STATUS, bytes([FAULT])))


def take(stream: BinaryIO, most: int) -> tuple[bytes, bytes]:
    """The next frame, of so many bytes at most. Raises Broken."""
    kind, length = HEAD.unpack(bytes_from(stream, HEAD.size))
    if length > most:
        raise Broken(f"{length:,} bytes at a time; at most {most:,} may come")
    return kind, bytes_from(stream, length)


def bytes_from(stream: BinaryIO, count: int) -> bytes:
    """So many bytes. Memory is taken as they come, and not as they are told. Raises Broken."""
    pieces, left = list[bytes](), count
    while left:
        try:
            piece = stream.read(min(left, PIECE))
        except OSError as error:
            raise Broken(str(error.strerror)) from None
        if not piece:
            raise Broken("the connection has ended")
        pieces.append(piece)
        left -= len(piece)
    return b"".join(pieces)


def said(value: object) -> bytes:
    """Words as the content of a frame. (A byte that is no UTF-8 stays what it is.)"""
    return json.dumps(value).encode("ascii")


def heard(content: bytes) -> Any:
    """The words of a frame. Raises Broken."""
    try:
        return json.loads(content)
    except (ValueError, RecursionError):
        raise Broken("words that are none") from None


def user_at(connection: socket.socket) -> int:
    """The user of the system at the other end of a connection."""
    peer = connection.getsockopt(socket.SOL_SOCKET, socket.SO_PEERCRED, struct.calcsize("iII"))
    _, user, _ = struct.unpack("iII", peer)
    return int(user)
