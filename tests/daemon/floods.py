"""Floods by TLS: key updates, hellos, certificates and sessions that are to stop an agent."""
import contextlib
import ctypes
import functools
import multiprocessing
import pathlib
import resource
import select
import socket
import ssl
import struct
import time

from daemons import (PATIENCE, USUAL, bounded, by_tls, certify, during, of_tree, patient, tls,
                     until, used, very_patient)
from protocol import hello
from runner import sure

# More than anything but a handshake with a large group costs the agent in seconds of its processor,
# on a slow machine too.
CHEAP = 0.03
# The most memory that connections without a hello may cost an agent, in MiB: four times the 60 KiB
# of each of the 64, and one for each child that is away.
WAITING = 16
# By whose certificate each flood is.
KINDS = {"keys": "stranger", "keys of a child": "evil", "records of a byte": "evil",
         "sessions": "stranger"}
# A prime one less than which is divisible by 2 to the power of 600: a square root modulo it costs
# most of a second.
PRIME = ((1 << 60) + 45 << 600) + 1
# How long a flood goes on where nobody ends it.
LONG = USUAL * PATIENCE * 4
OPENSSL = ctypes.CDLL("libssl.so.3")


# ---- Who floods (each at a pace of its own)

@functools.cache
def first_hello(group):
    """The first message of a client that knows this group alone."""
    context = ssl.SSLContext(ssl.PROTOCOL_TLS_CLIENT)
    context.check_hostname = False
    context.set_ecdh_curve(group)
    sent = ssl.MemoryBIO()
    with contextlib.suppress(ssl.SSLWantReadError):
        context.wrap_bio(ssl.MemoryBIO(), sent).do_handshake()
    return sent.read()


def der(tag, *parts):
    """A value of DER, of at most 255 bytes or some more."""
    inside = b"".join(parts)
    size = len(inside)
    length = bytes([size]) if size < 128 else b"\x82" + struct.pack(">H", size)
    return bytes([tag]) + length + inside


def hard_certificate():
    """A certificate that nobody signed, whose key is a compressed point on a curve of its own."""
    curves, name = b"\x2a\x86\x48\xce\x3d", der(0x30, der(0x31, der(0x30, der(
        6, b"\x55\x04\x03"), der(12, b"x"))))
    point, prime, one = b"\2" + bytes(83), der(2, PRIME.to_bytes(83, "big")), der(2, b"\1")
    curve = der(0x30, one, der(0x30, der(6, curves, b"\1\1"), prime),
                der(0x30, der(4, b"\1"), der(4, b"\x31")), der(4, point), der(2, b"\7"))
    key = der(0x30, der(0x30, der(6, curves, b"\2\1"), curve), der(3, b"\0", point))
    signs = der(0x30, der(6, curves, b"\4\3\2"))
    times = der(0x30, der(0x17, b"250101000000Z"), der(0x17, b"450101000000Z"))
    return der(0x30, der(0x30, one, signs, name, times, name, key), signs,
               der(3, b"\0", der(0x30, one, one)))


def hard_client(port, address, count):
    """A client from this address that is to send its certificates; and so many of them, which are
    hard to read."""
    record = lambda kind, inside: b"\x16\3\3" + struct.pack(
        ">HBBH", len(inside) + 4, kind, 0, len(inside)) + inside
    extension = lambda kind, inside: struct.pack(">HH", kind, len(inside)) + inside
    more = b"".join([extension(10, b"\0\4\0\x1d\0\x17"), extension(11, b"\1\0"),
                     extension(13, b"\0\4\4\3\x08\4"), extension(0xff01, b"\0")])
    first = b"\3\3" + bytes(33) + b"\0\4\xc0\x2b\xc0\x2f\1\0" + struct.pack(">H", len(more))
    one = hard_certificate()
    chain = (b"\0" + struct.pack(">H", len(one)) + one) * count
    sock = socket.socket()
    sock.settimeout(LONG)
    sock.bind((address, 0))
    sock.connect(("127.0.0.1", port))
    sock.sendall(record(1, first + more))
    seen = b""
    while not seen.endswith(b"\x0e\0\0\0"):
        seen += sock.recv(1 << 14) or b"\x0e\0\0\0"
    return sock, record(11, b"\0" + struct.pack(">H", len(chain)) + chain)


def flood(kind, port, home, begun):
    """Makes connections to an agent, each of which does one thing as often as it may."""
    begun.set()
    if kind in ("slow", "silent"):
        return {"slow": slow, "silent": silent}[kind](port)
    context = tls(home, KINDS[kind])
    if kind == "sessions":
        context.maximum_version = ssl.TLSVersion.TLSv1_2
    for _ in during(LONG):
        with contextlib.suppress(OSError), \
                socket.create_connection(("127.0.0.1", port), 0.5) as plain, \
                context.wrap_socket(plain) as sock:
            connected(kind, sock)


def connected(kind, sock):
    # (Python has no name for these calls of OpenSSL: its object has the pointer in third place)
    inner = ctypes.c_void_p.from_address(id(sock._sslobj) + 3 * ctypes.sizeof(ctypes.c_void_p))
    if kind == "sessions":
        # (a whole handshake of TLS 1.2, with another one begun on its connection)
        OPENSSL.SSL_renegotiate(inner)
        return sock.do_handshake()
    sock.settimeout(None)
    sock.setsockopt(socket.IPPROTO_TCP, socket.TCP_NODELAY, 1)
    if kind != "keys":
        sock.sendall(hello("evil", "root"))
    if kind == "records of a byte":
        # (after each report, what it means is refused, and it begins anew)
        sock.sendall(b"R" + struct.pack(">I", 0xfffff))
    for _ in during(LONG):
        for _ in range(2_000):
            if kind == "records of a byte":
                sock.send(b"x")
            else:
                OPENSSL.SSL_key_update(inner, 0)
                sock.do_handshake()
        # what an agent sends is taken, so that it can send on
        with contextlib.suppress(BlockingIOError):
            while socket.socket.recv(sock, 1 << 16, socket.MSG_DONTWAIT):
                pass


def slow(port, addresses=1_000):
    """As many connections as there are addresses, each of which sends its hello byte by byte."""
    hard = resource.getrlimit(resource.RLIMIT_NOFILE)[1]
    resource.setrlimit(resource.RLIMIT_NOFILE, (min(hard, addresses + 100), hard))
    text = first_hello("X25519")
    socks = [None] * addresses
    for _ in during(LONG):
        for at, it in enumerate(socks):
            if it is None:
                sock = socket.socket()
                sock.setblocking(False)
                sock.bind((f"127.9.{at // 250}.{at % 250 + 1}", 0))
                sock.connect_ex(("127.0.0.1", port))
                socks[at] = [sock, 0]
                continue
            try:
                it[1] += it[0].send(text[it[1]:it[1] + 1] or b"x")
            except BlockingIOError:
                pass
            except OSError:
                it[0].close()
                socks[at] = None
        time.sleep(0.2)


def silent(port):
    """Connections of one address without a byte, as many as there is time for."""
    socks = []
    for _ in during(LONG):
        sock = socket.socket()
        sock.setblocking(False)
        sock.bind(("127.8.0.1", 0))
        sock.connect_ex(("127.0.0.1", port))
        socks = [*socks, sock][-300:]
        time.sleep(0.001)


@contextlib.contextmanager
def flooding(kind, tree):
    """Asserts that a process of its own floods the root as long as the block goes on."""
    spawn = multiprocessing.get_context("spawn")
    begun = spawn.Event()
    process = spawn.Process(
        target=flood, args=(kind, tree.root.port, tree.home, begun), daemon=True)
    process.start()
    try:
        sure(begun.wait(USUAL * PATIENCE), kind, "does not begin")
        yield
        sure(process.is_alive(), kind, "ended by itself")
    finally:
        process.kill()
        process.join()


def secure(tree):
    patient(tree)
    by_tls(tree)
    for name in ("stranger", "evil"):
        certify(tree.home, name)
    tree.root.top["children"] = [it.name for it in tree.root.children] + ["evil"]
    for agent in tree:
        agent.env = {}


@of_tree({"left": "root", "right": "root"}, secure, begins=True)
def floods_hold_nobody_up(tree):
    """Changes reach an honest child, and another one gets in that begins anew."""
    for kind in ("keys", "keys of a child", "records of a byte", "sessions", "slow", "silent"):
        closed = lambda: tree.root.said("it sends too much without data")
        before = closed()
        with flooding(kind, tree), flooding(kind, tree):
            for _ in range(5):
                tree.reaches("left", "right")
            tree["right"].restart()
            sure(until(tree["right"].up, pause=0.1), kind, "who begins anew does not get in")
            tree.reaches("left", "right")
            # (how much of it comes at once is up to the machine)
            is_closed = lambda: closed() > before or not kind.startswith("keys")
            sure(until(is_closed), kind, "goes on without an end")
        tree.settles()


def busy(agent):
    """How many of its threads have done much of a handshake."""
    count = 0
    for task in pathlib.Path(f"/proc/{agent.process.pid}/task").iterdir():
        with contextlib.suppress(OSError):
            is_one = (task / "comm").read_text().startswith("handshakes")
            count += is_one and int((task / "schedstat").read_text().split()[0]) > 200_000_000
    return count


def comes_back(tree, child):
    """Whether a child connects anew while all threads are at work for others of whom none ends."""
    tree.is_well()
    child.kill()
    with contextlib.ExitStack() as stack:
        # (a handshake has room for 36 of them: half a minute of a processor)
        clients = [hard_client(tree.root.port, f"127.8.0.{at}", 36)
                   for at in range(1, 13)]
        socks = [stack.enter_context(sock) for sock, _ in clients]
        for sock, text in clients:
            sock.sendall(text)
        sure(until(lambda: busy(tree.root) >= 8), "they are not at work:", busy(tree.root))
        child.start()
        ended = lambda: any(select.select(socks, [], [], 0)[0])
        is_up = until(lambda: ended() or child.up(), pause=0.05) and not ended()
    # (what is under way for them goes on, though nobody wants it any more)
    tree.root.restart()
    child.restart()
    return is_up


# (whoever waits is left only after a minute)
@of_tree({"left": "root"}, secure, very_patient, begins=True)
def a_child_comes_back_while_strangers_have_all_threads(tree, root, left):
    # (on a slow machine one of them may have ended before)
    sure(any(comes_back(tree, left) for _ in range(3)), left.text()[-500:])


@of_tree({"left": "root"}, secure)
def a_hello_without_a_certificate_costs_little(tree):
    # (what comes first is a handshake, or an alert)
    for group, kind in [("X25519", b"\x16"), ("prime256v1", b"\x16"), ("ffdhe8192", b"\x15"),
                        ("secp521r1", b"\x15")]:
        text, spent, kinds = first_hello(group), used(tree.root), set()
        for _ in range(30):
            with tree.root.connect() as sock:
                sock.sendall(text)
                kinds.add(sock.recv(1))
        tree.root.status()
        seconds = (used(tree.root) - spent) / 30
        sure(kinds == {kind} and seconds < CHEAP, group, kinds, seconds)
    tree.reaches("left")


@of_tree({"left": "root"}, secure)
def connections_that_wait_have_little_memory(tree, root):
    """Each stops where it sends its certificate, which is a long one."""
    kept = []
    with bounded(root, WAITING):
        for _ in range(150):
            sock = root.connect()
            kept.append(sock)
            sock.sendall(first_hello("X25519"))
            sure(sock.recv(1 << 14), "no answer")
            # (a record of which the rest never comes)
            sock.sendall(b"\x17\x03\x03\x3f\x00" + bytes(14_000))
        tree.reaches("left")


@of_tree({"left": "root", "right": "root"}, secure, runs=False)
def few_descriptors_and_many_silent_clients_stop_nobody(tree):
    tree.root.prefix = ["prlimit", "--nofile=40"]
    tree.begin(without=["right"])
    silent = [tree.root.connect() for _ in range(100)]
    tree["right"].start()
    sure(until(tree["right"].up, pause=0.1), "a child does not get in, of", len(silent))
    tree.reaches("left", "right")
    sure(tree.root.alive() and tree.root.status()["name"] == "root")
