"""The far ends of the router's links: all that comes there is kept, and whoever the router looks for is there."""

import selectors
import socket
import struct
import threading
import time

import frames
from space import within

# Of the kernel's headers: all protocols of Ethernet, and the option by which each frame has its time.
ALL, STAMPS, ROOM = 3, 35, 4 << 20
LONGEST = 65_600


def opened(device):
    """A socket for all frames of a device."""
    sock = socket.socket(socket.AF_PACKET, socket.SOCK_RAW, socket.htons(ALL))
    sock.bind((device, ALL))
    sock.setsockopt(socket.SOL_SOCKET, STAMPS, 1)
    sock.setsockopt(socket.SOL_SOCKET, socket.SO_RCVBUF, ROOM)
    sock.setblocking(False)
    return sock


def time_of(told):
    """When a frame came, by the kernel's clock."""
    for level, kind, value in told:
        if (level, kind) == (socket.SOL_SOCKET, STAMPS):
            seconds, nanoseconds = struct.unpack("qq", value)
            return seconds + nanoseconds / 1e9
    return time.time()


class Tap:
    """Sockets on devices of one name space, each the far end of the link of its name."""

    def __init__(self, space, links, routers):
        self.sockets = {link: within(space, lambda device=device: opened(device)) for link, device in links.items()}
        self.routers = routers  # the addresses of the router, that nobody else answers for
        self.frames, self.news, self.is_open = [], threading.Condition(), True
        self.thread = threading.Thread(target=self.listen)
        self.thread.start()

    def close(self):
        self.is_open = False
        self.thread.join()
        for sock in self.sockets.values():
            sock.close()

    def listen(self):
        """Takes what comes until all ends."""
        with selectors.DefaultSelector() as selector:
            for link, sock in self.sockets.items():
                selector.register(sock, selectors.EVENT_READ, link)
            while self.is_open:
                for key, _ in selector.select(0.2):
                    self.take(key.data, key.fileobj)

    def take(self, link, sock):
        """Takes all that waits at a socket."""
        while True:
            try:
                raw, told, _, _ = sock.recvmsg(LONGEST, 256)
            except OSError:
                return
            frame = frames.read(raw, time_of(told), link)
            if frame and frame.from_mac[:2] != b"\x02\xbe":
                self.keep(frame)
                self.answer(frame)

    def keep(self, frame):
        with self.news:
            self.frames.append(frame)
            self.news.notify_all()

    def answer(self, frame):
        """Says where an address is that the router looks for. Its own probes for a double have no source."""
        address = frame.solicited
        if address and not frame.source.is_unspecified and address not in self.routers:
            self.send(frame.link, frames.advertisement(address, frame.source, frame.from_mac))

    def send(self, link, raw):
        """Sends a frame, and keeps it."""
        frame = frames.read(raw, time.time(), link, is_sent=True)
        self.keep(frame)
        self.sockets[link].send(raw)
        return frame

    def since(self, moment):
        """What the router has sent from that time on."""
        with self.news:
            return [frame for frame in self.frames if frame.time >= moment and not frame.is_sent]

    def wait(self, seconds, find):
        """Waits until `find` answers something true, and answers that, or its last answer after that time."""
        ends = time.monotonic() + seconds
        with self.news:
            while not (found := find()):
                left = ends - time.monotonic()
                if left <= 0:
                    break
                self.news.wait(min(left, 0.5))
        return found
