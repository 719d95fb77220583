"""As much of PostgreSQL's protocol, version 3, as sends binary values and takes them back."""

import socket
import struct

# Values in flight: few enough for the buffers of both ends, so that neither waits for the other.
MOST_IN_FLIGHT = 64
BYTES_IN_FLIGHT = 1 << 16


class Refused(Exception):
    """An error of the server: its code and message."""


class Client:
    def __init__(self, path, user):
        self.socket = socket.socket(socket.AF_UNIX)
        self.socket.connect(str(path))
        self.stream = self.socket.makefile("rb")
        settings = f"user\0{user}\0database\0postgres\0client_encoding\0UTF8\0\0".encode()
        self.socket.sendall(struct.pack("!II", len(settings) + 8, 3 << 16) + settings)
        self.replies()

    def close(self):
        self.socket.sendall(message(b"X", b""))
        self.stream.close()
        self.socket.close()

    def query(self, text):
        """Rows of the first column, as text."""
        self.socket.sendall(message(b"Q", text.encode() + b"\0"))
        return self.replies()

    def prepare(self, name, type_name):
        """A statement that takes a value of a type and sends it back."""
        text = f"{name}\0SELECT $1::{type_name}\0".encode()
        self.socket.sendall(message(b"P", text + struct.pack("!H", 0)) + message(b"S", b""))
        self.replies()

    def echo(self, name, values):
        """For each value what the server sends back, or its refusal."""
        values, place = list(values), 0
        while place < len(values):
            end, size = place, 0
            while end < len(values) and end - place < MOST_IN_FLIGHT and size < BYTES_IN_FLIGHT:
                size += len(values[end])
                end += 1
            self.socket.sendall(b"".join(bind(name, value) for value in values[place:end]))
            for _ in range(place, end):
                yield self.outcome()
            place = end

    def outcome(self):
        try:
            return self.replies()[0]
        except Refused as refusal:
            return refusal

    def replies(self):
        """The first column of every row up to the end of the answer; raises the server's error."""
        rows, refusal = [], None
        while True:
            kind, size = struct.unpack("!cI", self.stream.read(5))
            body = self.stream.read(size - 4)
            if kind == b"D":
                (length,) = struct.unpack_from("!i", body, 2)
                rows.append(body[6 : 6 + length])
            elif kind == b"E":
                fields = dict((f[:1], f[1:].decode()) for f in body.split(b"\0") if f)
                refusal = Refused(fields[b"C"], fields[b"M"])
            elif kind == b"Z":
                break
        if refusal:
            raise refusal
        return rows


def message(kind, body):
    return kind + struct.pack("!I", len(body) + 4) + body


def bind(name, value):
    """Hands a binary value to a statement and asks for a binary row."""
    body = f"\0{name}\0".encode() + struct.pack("!HHHI", 1, 1, 1, len(value)) + value
    body += struct.pack("!HH", 1, 1)
    execute = b"\0" + struct.pack("!I", 0)
    return message(b"B", body) + message(b"E", execute) + message(b"S", b"")
