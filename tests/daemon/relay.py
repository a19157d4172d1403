"""What lies between a child and its parent: relays that can lose and delay, and a bad network."""
import contextlib
import math
import os
import random
import select
import socket
import subprocess
import sys
import threading
import time


def lose(percent):
    """Has so many percent of all packets lost: the script begins again in a network of its own."""
    if not percent:
        return
    if not os.environ.get("LOSES"):
        os.environ["LOSES"] = "1"
        os.execvp("unshare", ["unshare", "--net", sys.executable, *sys.argv])
    rule = f'iifname "lo" numgen random mod 1000000 < {round(percent * 10_000)} drop'
    for words in (["ip", "link", "set", "lo", "up", "mtu", "1500"],
                  ["nft", "add table inet lossy; add chain inet lossy in "
                   "{ type filter hook input priority 0 ; }; add rule inet lossy in " + rule]):
        subprocess.run(words, check=True, capture_output=True)


def between(agent, by_parent=False, **more):
    """From its next start on an agent connects to its parent by a relay, or that to the agent."""
    relay = Relay(agent.port if by_parent else agent.parent.port, **more)
    agent.tree.ends.callback(relay.close)
    if by_parent:
        turn(agent, relay.port)
    else:
        agent.top["parents"] = [agent.parent.at(relay.port)]
    return relay


def turn(child, port=None):
    """From its next start or reload on, the parent of an agent connects to it."""
    top = child.parent.top
    names = top.get("children") or [it.name for it in child.parent.children]
    top["children"] = [child.at(port) if name == child.name else name for name in names]
    child.top.update(parents=[child.parent.name], listen=f"127.0.0.1:{child.port}")


class Relay:
    """Passes bytes on. With `cuts` it closes each connection after a drawn while, and what is under
    way is lost, often in the middle of a message, but not while it is `calm`; with `delay` bytes
    come that many seconds late. What an end that connects sends is what `changed` makes of it."""

    def __init__(self, port, cuts=None, delay=0.0, seed=1):
        self.to, self.cuts, self.delay = port, cuts, delay
        self.draw, self.calm, self.changed = random.Random(seed), False, bytes
        self.listener = socket.create_server(("127.0.0.1", 0))
        self.port = self.listener.getsockname()[1]
        self.connections = self.passed = 0      # how many there were, and of how many bytes
        self.socks = []
        threading.Thread(target=self.accept, daemon=True).start()

    def accept(self):
        while self.listener.fileno() >= 0:
            try:
                near, _ = self.listener.accept()
            except OSError:
                # (it is closed, or no descriptor is left for a while)
                time.sleep(0.01)
                continue
            threading.Thread(target=self.serve, args=(near,), daemon=True).start()

    def serve(self, near):
        # (where it is closed while it waits, a descriptor is none any more)
        with near, contextlib.suppress(OSError, ValueError), \
                socket.create_connection(("127.0.0.1", self.to), timeout=5) as far:
            self.connections += 1
            self.socks += [near, far]
            end = time.monotonic() + (self.draw.uniform(*self.cuts) if self.cuts else math.inf)
            waiting = []        # (when, to, bytes)
            while self.calm or time.monotonic() < end:
                now = time.monotonic()
                while waiting and waiting[0][0] <= now:
                    _, to, piece = waiting.pop(0)
                    to.sendall(piece)
                due = [now + 0.2, *(it[0] for it in waiting[:1]), now + 0.2 if self.calm else end]
                for sock in select.select([near, far], [], [], max(0.0, min(due) - now))[0]:
                    piece, other = sock.recv(1 << 16), far if sock is near else near
                    if not piece:
                        return
                    self.passed += len(piece)
                    piece = self.changed(piece) if sock is near else piece
                    if self.cuts and not self.calm and self.draw.random() < 0.05:
                        # (of the last piece only a part gets through)
                        other.sendall(piece[:self.draw.randrange(len(piece))])
                        return
                    waiting.append((time.monotonic() + self.delay, other, piece))

    def close(self):
        for sock in (self.listener, *self.socks):
            sock.close()
