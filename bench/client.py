"""A client that keeps one connection, and the times at which its replies come."""
import gc
import socket
import time

WAIT = 60  # seconds, for a reply


class Client:
    """One kept connection to a server."""

    def __init__(self, server):
        self.server = server
        self.stream = socket.create_connection(server.address, WAIT)
        self.stream.setsockopt(socket.IPPROTO_TCP, socket.TCP_NODELAY, 1)

    def __enter__(self):
        return self

    def __exit__(self, *_):
        self.stream.close()

    def send(self, pieces, count):
        """Sends pieces, each by a write of its own, and takes so many replies. How many seconds
        after the first write each reply was whole, and the last reply."""
        times = []
        rest = b""
        begun = time.perf_counter()
        for piece in pieces:
            self.stream.sendall(piece)
        while True:
            piece = self.stream.recv(65536)
            now = time.perf_counter() - begun
            if not piece:
                raise SystemExit(f"the connection ended after {rest}")
            rest += piece
            while (length := length_of(rest)) and length <= len(rest):
                if not rest.startswith(b"HTTP/1.1 200 "):
                    raise SystemExit(f"refused: {rest[:length]}")
                times.append(now)
                if len(times) == count:
                    return times, rest
                rest = rest[length:]

    def ask(self, message):
        """The whole reply to one message."""
        return self.send([message], 1)[1]

    def measure(self, messages, depth):
        """Sends messages, so many by one write, and takes all their replies before the next write.
        Replies in a second, and for each write the seconds that its replies took."""
        batches = [messages[at:at + depth] for at in range(0, len(messages), depth)]
        batches = [([b"".join(batch)], len(batch)) for batch in batches]
        times = []
        gc.disable()
        begun = time.perf_counter()
        for pieces, count in batches:
            times.append(self.send(pieces, count)[0])
        taken = time.perf_counter() - begun
        gc.enable()
        return len(messages) / taken, times


def length_of(text):
    """The length of the first reply, or 0 where its head is not whole yet."""
    end = text.find(b"\r\n\r\n")
    if end < 0:
        return 0
    at = text.index(b"Content-Length: ") + 16
    return end + 4 + int(text[at:text.index(b"\r", at)])


def order(meter, ref, tender=1000):
    """The head and the body of a sale."""
    body = f'{{"meter":"{meter}","operator":"ann","ref":"{ref}","tender":{tender}}}'.encode()
    return b"POST /sales HTTP/1.1\r\nHost: d\r\nContent-Length: %d\r\n\r\n" % len(body), body


def sale(meter, ref):
    return b"".join(order(meter, ref))


def get(target):
    return f"GET {target} HTTP/1.1\r\nHost: d\r\n\r\n".encode()


def reprint(number):
    return get(f"/sales/{number}")
