"""The little of WebSocket (RFC 6455) that a browser's remote end wants: whole messages of text, no extensions."""

import base64
import os
import socket
import struct

TEXT, CLOSE, PING, PONG = 1, 8, 9, 10


class Socket:
    """A client's end."""

    def __init__(self, host, port, path):
        self.socket = socket.create_connection((host, port), 30)
        self.rest = b""
        key = base64.b64encode(os.urandom(16)).decode()
        head = f"GET {path} HTTP/1.1\r\nHost: {host}:{port}\r\nUpgrade: websocket\r\nConnection: Upgrade\r\n"
        self.socket.sendall(f"{head}Sec-WebSocket-Key: {key}\r\nSec-WebSocket-Version: 13\r\n\r\n".encode())
        while b"\r\n\r\n" not in self.rest:
            self.rest += self.more()
        answer, _, self.rest = self.rest.partition(b"\r\n\r\n")
        if b" 101 " not in answer.split(b"\r\n")[0]:
            raise OSError(f"no web socket: {answer.decode('latin1')}")

    def more(self):
        got = self.socket.recv(1 << 20)
        if not got:
            raise OSError("the browser is gone")
        return got

    def take(self, count):
        parts, have = [self.rest], len(self.rest)
        while have < count:
            parts.append(self.more())
            have += len(parts[-1])
        whole = b"".join(parts)
        self.rest = whole[count:]
        return whole[:count]

    def send(self, data, kind=TEXT):
        """Sends a message, masked as a client's has to be."""
        length = len(data)
        if length < 126:
            size = struct.pack("!B", 128 | length)
        elif length < 65536:
            size = struct.pack("!BH", 128 | 126, length)
        else:
            size = struct.pack("!BQ", 128 | 127, length)
        mask = os.urandom(4)
        pad = int.from_bytes(mask * (length // 4 + 1), "big") >> 8 * (4 - length % 4)
        masked = (int.from_bytes(data, "big") ^ pad).to_bytes(length, "big")
        self.socket.sendall(bytes([128 | kind]) + size + mask + masked)

    def receive(self, seconds):
        """The next message of text."""
        self.socket.settimeout(seconds)
        parts = []
        while True:
            first, length = self.take(2)
            if length == 126:
                length = struct.unpack("!H", self.take(2))[0]
            elif length == 127:
                length = struct.unpack("!Q", self.take(8))[0]
            data, kind = self.take(length), first & 15
            if kind == PING:
                self.send(data, PONG)
            elif kind == CLOSE:
                raise OSError("the browser closed the socket")
            elif kind != PONG:
                parts.append(data)
                if first & 128:
                    return b"".join(parts)

    def close(self):
        self.socket.close()
