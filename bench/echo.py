#!/usr/bin/env python3
"""The floor under every server: for each so many bytes that it reads, on one connection, it
writes the bytes of a file. It reads nothing of what is asked. With a word more it does what a
server should not: it writes each reply in two halves and leaves TCP_NODELAY out, so that the second
half waits for the first one's acknowledgement, which the other side's kernel delays.

    echo.py LENGTH FILE [halves]
"""
import socket
import sys
from pathlib import Path


def main():
    length = int(sys.argv[1])
    reply = Path(sys.argv[2]).read_bytes()
    with socket.create_server(("127.0.0.1", 0)) as listener:
        print(f"listening 127.0.0.1:{listener.getsockname()[1]}", file=sys.stderr, flush=True)
        stream, _ = listener.accept()
    pieces = [reply]
    with stream:
        if sys.argv[3:] == ["halves"]:
            pieces = [reply[:len(reply) // 2], reply[len(reply) // 2:]]
        else:
            stream.setsockopt(socket.IPPROTO_TCP, socket.TCP_NODELAY, 1)
        waiting = 0
        while piece := stream.recv(65536):
            waiting += len(piece)
            while waiting >= length:
                waiting -= length
                for part in pieces:
                    stream.sendall(part)


main()
