"""A server that answers as a test says, and no book behind it."""
import contextlib
import os
import socket
import threading

from rollback_client import ConnectionLost


def greeted(connect):
    """What a call with a short timeout connects: a slow machine may need longer for the greeting, and then it is made again."""
    while True:
        with contextlib.suppress(ConnectionLost):
            return connect()


class FakeServer:
    """Takes one caller at a time. `answer` gives the bytes that answer a line; the greeting is answered as the program does."""

    def __init__(self, room, answer, greet=True):
        self.address = os.path.join(room, "fake")
        self.answer, self.greet = answer, greet
        self.socket = socket.socket(socket.AF_UNIX, socket.SOCK_STREAM)
        self.socket.bind(self.address)
        self.socket.listen(16)
        threading.Thread(target=self.serve, daemon=True).start()

    def serve(self):
        while True:
            try:
                stream, _ = self.socket.accept()
            except OSError:
                return
            with stream, stream.makefile("rb") as lines:
                if self.greet and lines.readline():
                    stream.sendall(b"no 20\n")
                for line in lines:
                    said = self.answer(line)
                    if said is None:
                        break
                    stream.sendall(said)

    def close(self):
        self.socket.close()
