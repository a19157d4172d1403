"""The bytes of the protocol, written here a second time, and ends that say what they are told."""
import contextlib
import itertools
import json
import random
import socket
import struct
import threading
import zlib

from daemons import PATIENCE, USUAL, until
from runner import sure


def hello(sender, to, life=None, label=255, version=1):
    life = random.getrandbits(64) if life is None else life
    name = lambda text: bytes([len(text)]) + text.encode()
    return b"RGND" + struct.pack(">BQH", version, life, label) + name(sender) + name(to)


def look(sender, to, versions=0):
    """A hello of version 2 that begins no count: it asks for the way, and may name versions."""
    return b"RGNL" + hello(sender, to, label=versions, version=2)[4:]


def way(cost, names, length=None):
    names = names if isinstance(names, bytes) else "\n".join(names).encode()
    return b"W" + struct.pack(">HH", cost, len(names) if length is None else length) + names


def frame(label, text, item=None, length=None):
    item = zlib.crc32(text) if item is None else item
    return b"F" + struct.pack(">HII", label, item, len(text) if length is None else length) + text


def body(kind, sequence, entries=b""):
    """A body: behind its number these bytes, or the entries of a list and how many there are."""
    if isinstance(entries, list):
        entries = struct.pack(">I", len(entries)) + b"".join(entries)
    return kind + struct.pack(">Q", sequence) + entries


def entry(key, value=b""):
    """That a key has a value, or none any more."""
    key = bytes([len(key)]) + key
    return b"U" + key if value is None else b"S" + key + struct.pack(">I", len(value)) + value


def report(said):
    said = said if isinstance(said, bytes) else json.dumps(said, separators=(",", ":")).encode()
    return b"R" + struct.pack(">I", len(said)) + said


def exactly(sock, count):
    got = bytearray()
    while len(got) < count:
        piece = sock.recv(min(1 << 20, count - len(got)))
        if not piece:
            raise EOFError
        got += piece
    return bytes(got)


def take_hello(sock, begins=b"RGND\x01"):
    """Takes a hello, or what begins so; it answers which beginning came."""
    head = exactly(sock, 15)
    sure(head.startswith(begins), head)
    for _ in range(2):
        exactly(sock, exactly(sock, 1)[0])
    return head[:5]


def closed(sock):
    """Whether the other end closes."""
    sock.settimeout(0.1)

    def is_closed():
        try:
            return not sock.recv(1 << 16)
        except TimeoutError:
            return False
        except ConnectionError:
            return True
    return until(is_closed, pause=0)


def the_root_comes(tree):
    """The root begins to listen where another one did, and comes through to all."""
    tree.write("one", "1")
    tree.root.start()

    def is_right():
        # (a process that some thread is starting has that other listener as well, for a moment)
        if not tree.root.alive() and tree.root.said("in use"):
            tree.root.start()
        return not tree.wrong()
    sure(until(is_right), tree.wrong(), tree.root.text()[-300:])


def listener(agent):
    """Listens in the place of an agent that does not run."""
    sock = socket.create_server(("127.0.0.1", agent.port))
    sock.settimeout(USUAL * PATIENCE)
    return sock


class Child:
    """A child that takes all, acknowledges it as long as it may, and sends what it is told to."""

    def __init__(self, parent, name):
        self.lock, self.sock = threading.Lock(), parent.connect()
        self.sock.sendall(hello(name, parent.name))
        self.closed, self.may = threading.Event(), threading.Event()
        self.may.set()
        self.taker = threading.Thread(target=self.take, daemon=True)
        self.taker.start()

    def take(self):
        try:
            take_hello(self.sock)
            while True:
                label, _, length = struct.unpack(">HII", exactly(self.sock, 11)[1:])
                exactly(self.sock, length)
                self.may.wait()
                self.send(b"A" + struct.pack(">H", label))
        except (OSError, EOFError, ValueError, AssertionError):
            self.closed.set()

    def send(self, text):
        with self.lock:
            self.sock.sendall(text)

    def close(self):
        # (what waits for a descriptor would read from whoever is given that one next)
        with contextlib.suppress(OSError):
            self.sock.shutdown(socket.SHUT_RDWR)
        self.may.set()
        self.taker.join()
        self.sock.close()


class Parent:
    """The parent of an agent, which it starts: of what it sends it waits for acknowledgements."""

    def __init__(self, agent):
        self.agent, self.numbers = agent, itertools.count(1)
        self.listener, self.sock = listener(agent.parent), None
        self.life = random.getrandbits(64)
        # (what is said here at once is to come in time)
        agent.tables["link"] = {"ack_timeout": "1m", "evict": "10m"}
        agent.start()
        self.meet()

    def meet(self):
        """Takes the next connection that is kept: of looks, version 1 knows nothing."""
        if self.sock:
            self.sock.close()
        while True:
            self.sock, _ = self.listener.accept()
            self.sock.settimeout(USUAL * PATIENCE)
            if self.sock.recv(4, socket.MSG_PEEK | socket.MSG_WAITALL) != b"RGNL":
                break
            self.sock.recv(4096)
            self.sock.close()
        self.sock.sendall(hello(self.agent.parent.name, self.agent.name, self.life, label=0))
        take_hello(self.sock)
        return self

    def send(self, text, item=None):
        """Sends a body, and waits until it is acknowledged."""
        label = next(self.numbers) % 255
        self.sock.sendall(frame(label, text, item))
        acknowledged = None
        while acknowledged != label:
            kind = exactly(self.sock, 1)
            sure(kind in b"AR", "it sends", kind)
            number = int.from_bytes(exactly(self.sock, 2 if kind == b"A" else 4), "big")
            if kind == b"A":
                acknowledged = number
            else:
                exactly(self.sock, number)

    def gives_way(self):
        """Leaves the agent to its real parent, which has to come through to all."""
        self.close()
        the_root_comes(self.agent.tree)

    def close(self):
        self.sock.close()
        self.listener.close()
