"""A client of a server for measurements and trials: frames, the sign-on with the test signature, and the messages that they need.

A user's public key is its own name, and `upspin` itself the helper (docs/HELPER.md), so nothing here protects anything.
"""
import hashlib
import socket
import struct

CHANGED, ENTRY, ROWS, EVENTS, BYTES = 1, 2, 3, 5, 8
OK, PRIVATE, NOT_EXIST, IO = 0x00, 0x04, 0x06, 0x10
CHALLENGE, WELCOME = 0x81, 0x82


def number(n):
    """A num: an unsigned LEB128 number."""
    out = b""
    while n > 127:
        out += bytes([n % 128 + 128])
        n //= 128
    return out + bytes([n])


def signed(n):
    """An int: a number that may be negative."""
    return number(2 * n if n >= 0 else -2 * n - 1)


def text(data):
    data = data.encode() if isinstance(data, str) else data
    return number(len(data)) + data


def put(path, user, time, kind=0, packing=1, blocks=()):
    """A Put of a file (kind 0) or a directory (kind 1) with this time, in place of whatever may be replaced."""
    at, pieces = 0, b""
    for data in blocks:
        pieces += text(b"") + hashlib.sha256(data).digest() + number(at) + number(len(data)) + text(b"")
        at += len(data)
    head = text(path) + text(path) + bytes([packing]) + signed(time) + text(user) + bytes([kind]) + text(b"") + text(b"")
    return b"\x11" + head + number(len(blocks)) + pieces + signed(0)


def lookup(path):
    return b"\x10" + text(path)


def delete(path):
    return b"\x12" + text(path)


def glob(pattern):
    return b"\x13" + text(pattern)


def watch(path, above):
    return b"\x15" + text(path) + signed(above)


def fetch(data):
    """A Get of the block of these bytes."""
    return b"\x20" + text(hashlib.sha256(data).hexdigest().upper())


def store(data):
    return b"\x21" + text(data)


class Reader:
    """The fields of a message, one after the other."""

    def __init__(self, data):
        self.data, self.at = data, 0

    def byte(self):
        self.at += 1
        return self.data[self.at - 1]

    def number(self):
        found, shift = 0, 0
        while True:
            byte = self.byte()
            found |= (byte & 127) << shift
            shift += 7
            if byte < 128:
                return found

    def signed(self):
        n = self.number()
        return n // 2 if n % 2 == 0 else -(n + 1) // 2

    def take(self, count):
        self.at += count
        return self.data[self.at - count : self.at]

    def text(self):
        return self.take(self.number())

    def entry(self):
        """The name, the time and the sequence of an entry."""
        name, _, _, time = self.text(), self.text(), self.byte(), self.signed()
        self.text(), self.byte(), self.text(), self.text()
        for _ in range(self.number()):
            self.text(), self.take(32), self.number(), self.number(), self.text()
        return name.decode(), time, self.number()


def position(reply):
    """The position of the record that a reply says was added; None where none was."""
    return Reader(reply[2:]).number() if reply[:2] == bytes([OK, CHANGED]) else None


def events(reply):
    """The events of a reply to a Watch: position, whether it is a Put, path and time; and the sequence to go on from."""
    assert reply[:2] == bytes([OK, EVENTS]), reply[:40]
    fields, found = Reader(reply[2:]), []
    for _ in range(fields.number()):
        at, kind = fields.number(), fields.byte()
        name, time, _ = fields.entry()
        found.append((at, kind == 0, name, time))
    return found, fields.number()


class Gone(Exception):
    """The server ended the connection."""


class Connection:
    """A connection to a server on the loopback."""

    def __init__(self, port, timeout=30):
        self.held = b""
        self.socket = socket.create_connection(("127.0.0.1", port), timeout)
        self.socket.setsockopt(socket.IPPROTO_TCP, socket.TCP_NODELAY, 1)

    def send(self, *payloads):
        self.socket.sendall(b"".join(struct.pack(">I", len(payload)) + payload for payload in payloads))

    def hear(self):
        """The payload of the next frame."""
        while len(self.held) < 4 or len(self.held) < 4 + struct.unpack(">I", self.held[:4])[0]:
            more = self.socket.recv(1 << 16)
            if not more:
                raise Gone
            self.held += more
        end = 4 + struct.unpack(">I", self.held[:4])[0]
        payload, self.held = self.held[4:end], self.held[end:]
        return payload

    def ask(self, payload):
        self.send(payload)
        return self.hear()

    def challenge(self, user):
        """Says who signs on, and answers the challenge."""
        said = self.ask(b"\x01" + text(user))
        assert said[0] == CHALLENGE, said
        return said[1:]

    def sign_on(self, user, host="home"):
        message = f"upspin 1 {host} {user} {self.challenge(user).hex().upper()}".encode()
        said = self.ask(b"\x02" + text(hashlib.sha256(user.encode() + message).digest()))
        assert said[0] == WELCOME, said
        return self

    def events_above(self, path, above):
        """All events at and under a path above a position."""
        found = []
        while True:
            more, after = events(self.ask(watch(path, above)))
            found += more
            if after == above or not more:
                return found
            above = after

    def close(self):
        self.socket.close()

    def __enter__(self):
        return self

    def __exit__(self, *_):
        self.close()
