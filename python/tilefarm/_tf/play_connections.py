"""Connections to a page's server: how many there are, and how long each request may take to come."""
import io
import socket
import threading
import time
from http.server import ThreadingHTTPServer


class Deadline(io.RawIOBase):
    """What a connection sends. From its first bytes on a request has so many seconds to come whole; before them it may stay idle as long."""

    def __init__(self, connection: socket.socket, seconds: float):
        super().__init__()
        self.connection, self.seconds, self.end = connection, seconds, 0.0

    def begin(self) -> None:
        """The next request has not begun."""
        self.end = 0.0

    def readable(self) -> bool:
        return True

    def readinto(self, buffer) -> int:
        left = self.end - time.monotonic() if self.end else self.seconds
        if left <= 0:
            raise TimeoutError("the request took too long")
        self.connection.settimeout(left)
        count = self.connection.recv_into(buffer)
        self.end = self.end or time.monotonic() + self.seconds
        return count


class BoundedServer(ThreadingHTTPServer):
    """A server with a thread for each connection, of which there are so many at most: one more is closed."""

    daemon_threads = True

    def __init__(self, address: tuple[str, int], handler: type, most: int):
        self.places = threading.BoundedSemaphore(most)
        super().__init__(address, handler)

    def process_request(self, request, client_address) -> None:
        if not self.places.acquire(blocking=False):
            self.shutdown_request(request)
            return
        try:
            super().process_request(request, client_address)
        except RuntimeError:
            self.places.release()
            self.shutdown_request(request)

    def process_request_thread(self, request, client_address) -> None:
        try:
            super().process_request_thread(request, client_address)
        finally:
            self.places.release()
