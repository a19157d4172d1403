"""A tree of agents of rignoldad on this machine, for the tests beside it.

Each agent has a folder of its own under one temporary folder: its configuration, its settings, its
control socket and its log. An agent is known by a name such as `root`, `left`, `left1`.
"""
import atexit
import concurrent.futures
import contextlib
import functools
import glob
import http.client
import itertools
import json
import os
import pathlib
import random
import re
import shutil
import signal
import socket
import ssl
import stat
import subprocess
import tempfile
import threading
import time

from runner import sure, test

HOME = pathlib.Path(__file__).resolve().parents[2]
PACKAGING = HOME / "rust/rignoldad/packaging"
SEVEN = {"left": "root", "right": "root", "left1": "left", "left2": "left", "right1": "right",
         "right2": "right"}


@functools.cache
def binaries():
    """The folder of the two programs: RIGNOLDAD_BIN, what cargo built, or those that are kept."""
    named = os.environ.get("RIGNOLDAD_BIN")
    if named:
        return pathlib.Path(named).resolve()
    built = HOME / "rust/target/release"
    if (built / "rignoldad").exists() and (built / "rignoldactl").exists():
        return built
    folder = tempfile.mkdtemp(prefix="rignolda-programs-")
    atexit.register(shutil.rmtree, folder, ignore_errors=True)
    if subprocess.run([HOME / "tools/build_daemon", "--unpack", folder]).returncode:
        raise SystemExit("there is no daemon: tools/build_daemon builds it")
    return pathlib.Path(folder)


# How many times longer than usual things may take, on a machine that has much else to do.
PATIENCE = float(os.environ.get("PATIENCE", 4))
# How many seconds is usual for what is only waited for: with patience, it has a minute.
USUAL = 15.0


def until(what, seconds=USUAL, pause=0.01):
    """Whether something comes to hold within `seconds` seconds, and some patience. Where a pause
    takes longer than it should, the machine has much else to do, and time counts the less for it,
    down to a tenth."""
    left, before = seconds * PATIENCE, time.monotonic()
    while not (holds := what()) and left > 0:
        begun = time.monotonic()
        time.sleep(pause)
        now = time.monotonic()
        left -= (now - before) * min(1, max(2 * pause / (now - begun), 0.1))
        before = now
    return bool(holds)


def becomes(value, expected, *words, pause=0.01):
    """Asserts that what a function gives comes to be what is expected, and says what it gave."""
    holds = until(lambda: value() == expected, pause=pause)
    sure(holds, *words, holds or value(), "is not", expected)


def during(seconds, pause=0.0):
    """0, 1, 2 and so on, with a pause between them, until so many seconds have passed."""
    end = time.monotonic() + seconds
    for at in itertools.count():
        if time.monotonic() >= end:
            return
        yield at
        time.sleep(pause)


def took(act):
    """How many seconds something takes."""
    begun = time.monotonic()
    act()
    return time.monotonic() - begun


# (of these ports the system gives none to a connection)
PORTS = iter(random.SystemRandom().sample(range(12_000, 32_000), 20_000))


def free_port():
    """A port that nobody has."""
    for port in PORTS:
        with socket.socket() as sock, contextlib.suppress(OSError):
            sock.setsockopt(socket.SOL_SOCKET, socket.SO_REUSEADDR, 1)
            sock.bind(("127.0.0.1", port))
            return port


def toml(table):
    """The lines of a table of TOML: what JSON writes for texts, numbers and lists is a value."""
    return [f"{key} = {json.dumps(value)}" for key, value in table.items()]


class Agent:
    """One agent: its configuration, and its process while it runs."""

    def __init__(self, tree, name, parent):
        self.tree, self.name, self.parent = tree, name, parent
        self.home = tree.home / name
        self.home.mkdir()
        self.port = free_port()
        self.settings, self.socket = self.home / "settings", self.home / "control"
        self.log, self.file = self.home / "log", self.home / "agent.toml"
        self.process = None
        self.children = []
        self.tables = {"link": {"ack_timeout": "500ms", "evict": "1s"},
                       "apply": {"folder": str(self.settings)}}
        self.top = {}
        self.hooks = []         # tables [[hook]]
        self.prefix = []        # what its command begins with
        self.program = None     # its daemon, where it is another one
        self.env = {"RIGNOLDA_TRACE": "1"}
        if parent:
            self.below(parent)
        else:
            self.truth = self.home / "truth"
            self.truth.mkdir()
            # (without a setting too it is the truth)
            (self.truth / ".empty").touch()
            self.tables["root"] = {"settings": str(self.truth), "round": "1s"}

    def at(self, port=None):
        """How a configuration names it, where it is to be connected to."""
        return f"{self.name}@127.0.0.1:{port or self.port}"

    def below(self, *parents):
        """From its next start on it has these parents, after those that it has."""
        self.top["parents"] = self.top.get("parents", []) + [parent.at() for parent in parents]
        for parent in parents:
            parent.children.append(self)

    def configure(self):
        """Writes the configuration anew."""
        top = {"name": self.name, "control": str(self.socket), **self.top}
        if self.children:
            top.setdefault("children", [child.name for child in self.children])
        if "children" in top:
            top.setdefault("listen", f"127.0.0.1:{self.port}")
        tables = [(f"[{name}]", table) for name, table in self.tables.items()]
        tables += [("[[hook]]", table) for table in self.hooks]
        lines = toml(top) + [line for head, table in tables for line in (head, *toml(table))]
        self.file.write_text("\n".join(lines) + "\n")

    def start(self):
        self.configure()
        with open(self.log, "a") as log:
            self.process = subprocess.Popen(
                [*self.prefix, self.program or self.tree.bin / "rignoldad", self.file],
                stderr=log, stdout=log, stdin=subprocess.DEVNULL, cwd=self.home,
                env={**os.environ, **self.env})

    def kill(self, how=signal.SIGKILL):
        """Ends the process, and waits until it is gone."""
        if self.process:
            self.process.send_signal(how)
            self.process.wait()
            self.process = None

    def signal(self, number):
        self.process.send_signal(number)

    def restart(self):
        self.kill()
        self.start()

    def reload(self):
        """Has its configuration written and read anew."""
        self.configure()
        done = self.said("reload done")
        self.signal(signal.SIGHUP)
        sure(until(lambda: self.said("reload done") > done), self.text()[-500:])

    def alive(self):
        return self.process is not None and self.process.poll() is None

    def hook(self, text, **more):
        """From its next start on it has this hook, and more about it."""
        self.tables["apply"].update(hook=self.hook_of("hook", text), **more)

    def hook_of(self, name, text):
        """A program of its own that does this."""
        hook = self.home / name
        hook.write_text(f"#!/bin/sh\n{text}\n")
        hook.chmod(0o755)
        return str(hook)

    def noted(self, name):
        """The lines that its hooks have written to a file of this name."""
        path = self.home / name
        return path.read_text().splitlines() if path.exists() else []

    # ---- What it is asked

    def connect(self):
        """A connection to where it listens."""
        return socket.create_connection(("127.0.0.1", self.port), timeout=USUAL * PATIENCE)

    def client(self, seconds=USUAL * PATIENCE):
        """A connection to its control socket."""
        sock = socket.socket(socket.AF_UNIX)
        sock.settimeout(seconds)
        sock.connect(str(self.socket))
        return sock

    def request(self, seconds=USUAL * PATIENCE, **words):
        """What it answers to one request of this process; nothing where it does not answer."""
        try:
            with self.client(seconds) as sock:
                sock.sendall(json.dumps(words).encode() + b"\n")
                return json.loads(sock.makefile("rb").readline())
        except (OSError, ValueError):
            return {}

    def status(self, seconds=USUAL * PATIENCE):
        return self.request(seconds, do="status").get("status", {})

    def up(self):
        """Whether it answers, and has its parent and a whole table."""
        status = self.status()
        return bool(status.get("whole")) and (status["is_root"] or status["parent"] is not None)

    def becomes(self, **facts):
        """Asserts that its status comes to say this."""
        def said():
            status = self.status()
            return {key: status.get(key) for key in facts}
        becomes(said, facts, self.name, pause=0.05)

    def command(self, *words):
        """The words of rignoldactl, where it is asked."""
        return [self.tree.bin / "rignoldactl", "--socket", self.socket, *map(str, words)]

    def run(self, *words, **options):
        """How rignoldactl ends, and what it prints as text."""
        options = {"capture_output": True, "text": True, "timeout": 120, **options}
        return subprocess.run(self.command(*words), **options)

    def refuses(self, why, *words, status=1):
        """Has a command refused, and says why."""
        done = self.run(*words)
        sure(done.returncode == status and why in done.stderr and not done.stdout, why, done)

    def ask(self, *words, value=None, check=True):
        """What rignoldactl prints, as JSON; where it is refused, `error`."""
        run = functools.partial(self.run, "--json", *words, text=False, input=value or b"")
        done, end = run(), time.monotonic() + USUAL * PATIENCE
        # (on a machine with much else to do it may get no answer in its ten seconds)
        while b"does not answer: not in time" in done.stderr and time.monotonic() < end:
            done = run()
        if check and done.returncode:
            raise RuntimeError(f"{self.name}: {' '.join(map(str, words))}: {done.stderr.decode()}")
        return json.loads(done.stdout or "{}")

    def lacks(self, *words, seconds=1):
        """Why a wait is not done in this time; nothing where it is."""
        return self.ask("wait", "--timeout", f"{seconds}s", *words, check=False).get("error", "")

    @contextlib.contextmanager
    def publisher(self):
        """What publishes a value of a key by one connection, and gives the number of the change."""
        with self.client() as sock, sock.makefile("rb") as answers:
            def publish(key, value):
                words = {"do": "publish", "key": key, "value": value.encode().hex()}
                sock.sendall(json.dumps(words).encode() + b"\n")
                said = answers.readline()
                sure(b"published" in said, said, self.text()[-300:])
                return json.loads(said)["published"]
            yield publish

    def page(self, path, method="GET", headers={}):
        """What is answered where its metrics are: the status, the headers, and the text."""
        link = http.client.HTTPConnection("127.0.0.1", self.metrics, timeout=USUAL * PATIENCE)
        link.request(method, path, headers=headers)
        with contextlib.closing(link), link.getresponse() as answer:
            return answer.status, answer.headers, answer.read().decode()

    def counts(self):
        return self.page("/metrics")[2]

    # ---- What it has

    def write(self, key, value):
        """Changes the folder of a root as an editor does."""
        new = self.truth / f".{key}.new"
        new.write_bytes(value if isinstance(value, bytes) else str(value).encode())
        new.rename(self.truth / key)

    def files(self):
        """The settings that it applied."""
        return read(self.settings)

    def text(self):
        return self.log.read_text(errors="replace") if self.log.exists() else ""

    def said(self, words):
        """How many lines of its log contain these words."""
        return sum(words in line for line in self.text().splitlines())

    def says(self, *words):
        """Asserts that its log comes to have these words."""
        for one in words:
            sure(until(lambda: self.said(one)), self.name, "does not say", one, self.text()[-500:])


def read(folder):
    """The regular files of a folder; what else is there has no bytes."""
    found = {}
    for name in glob.glob("*", root_dir=folder):
        try:
            file = os.open(folder / name, os.O_RDONLY | os.O_NOFOLLOW | os.O_NONBLOCK)
        except OSError as error:
            if not isinstance(error, FileNotFoundError):
                found[name] = None
            continue
        is_file = stat.S_ISREG(os.fstat(file).st_mode)
        found[name] = open(file, "rb", closefd=False).read() if is_file else None
        os.close(file)
    return found


def counting(truth, groups):
    """The files of an agent of these groups, by the files of the root's folder."""
    files = {}
    for key in {name.partition("@")[0] for name in truth}:
        names = [*(f"{key}@{group}" for group in groups), key]
        value = next((truth[name] for name in names if name in truth), None)
        if value is not None:
            files[key] = value
    return files


class Tree:
    """Agents on this machine, to which these acts are done before they start. As a context it ends
    them and removes their folders; and no agent may have panicked."""

    def __init__(self, shape=None, *before):
        self.bin = binaries()
        self.home = pathlib.Path(tempfile.mkdtemp(prefix="rignolda-"))
        self.ends = contextlib.ExitStack()      # what ends with it
        self.agents = {"root": Agent(self, "root", None)}
        self.root = self.agents["root"]
        self.write = self.root.write
        for name, parent in (SEVEN if shape is None else shape).items():
            self.add(name, parent)
        for act in before:
            act(self)

    def add(self, name, parent):
        self.agents[name] = Agent(self, name, self.agents[parent])
        return self.agents[name]

    def __getitem__(self, name):
        return self.agents[name]

    def __iter__(self):
        return iter(self.agents.values())

    def __enter__(self):
        return self

    def __exit__(self, kind, value, trace):
        panicked = [agent.name for agent in self if agent.said("panicked")]
        self.close()
        sure(kind or not panicked, "these panicked:", panicked)

    def close(self):
        for agent in self:
            agent.kill()
        self.ends.close()
        shutil.rmtree(self.home, ignore_errors=True)

    def start(self, agents=None):
        for agent in agents or self:
            agent.start()

    def fill(self):
        """Gives the root eight settings."""
        for at in range(8):
            self.write(f"key{at}", f"value {at}")

    def begin(self, without=()):
        """Starts all but some agents, and waits until they have the settings of the root."""
        self.fill()
        there = [agent for agent in self if agent.name not in without]
        self.start(there)
        self.is_well(*there)

    def ready(self, agents=()):
        """Whether each agent comes to have its parent and a whole table."""
        return until(lambda: all(agent.up() for agent in agents or self), pause=0.05)

    def is_ready(self, *agents):
        sure(self.ready(agents), "not ready", [agent.text()[-300:] for agent in agents or self])

    def truth(self):
        return read(self.root.truth)

    def wrong(self, agents=None, truth=None):
        """The agents whose settings differ from those of the root's folder, or from these."""
        truth = self.truth() if truth is None else truth
        return [agent.name for agent in (agents or self)
                if agent.files() != counting(truth, agent.top.get("groups", []))]

    def goes_on(self, truth, agents=None):
        """Asserts that all have these settings as long as three rounds of half a second take."""
        for _ in during(1.5):
            sure(not self.wrong(agents, truth), self.wrong(agents, truth))

    def right(self, seconds=USUAL, agents=None):
        """Whether all agents come to have the settings of the root's folder."""
        return until(lambda: not self.wrong(agents), seconds)

    def settles(self, *agents):
        """Asserts that they do, or these agents."""
        sure(self.right(agents=agents), "other settings than the root's:", self.wrong(agents))

    def is_well(self, *agents):
        """Asserts that they come to be ready, and to have the settings of the root's folder."""
        self.is_ready(*agents)
        self.settles(*agents)

    def wait(self, *number):
        """Waits until all agents have what the root's folder has, or a change of this number."""
        self.root.ask("wait", "--everywhere", "--timeout", "60s", *number)

    def publish(self, *words, **given):
        """Has a change published, and come to be everywhere: its number."""
        number = self.root.ask("publish", *words, **given)["sequence"]
        self.wait(number)
        return number

    def rounds(self, count=1):
        """Has so many rounds begun, one after the other."""
        for _ in range(count):
            last = self.root.status()["round"]
            self.root.ask("round")
            sure(until(lambda: self.root.status()["round"] != last), "there was no round")

    def mount(self, folder, other, act=lambda: None):
        """Has a folder in the place of the root's at once, as a mount does, and that one elsewhere;
        an act comes before the root sees it. Where files went one by one, it would see those."""
        self.root.signal(signal.SIGSTOP)
        self.root.truth.rename(other)
        folder.rename(self.root.truth)
        act()
        self.root.signal(signal.SIGCONT)

    def reaches(self, *names):
        """Has a change reach these agents."""
        value = f"probe {time.monotonic_ns()}"
        self.write("probe", value)
        for name in names:
            file = self[name].settings / "probe"
            sure(until(lambda: file.exists() and file.read_text() == value),
                 "a change does not reach", name)


def of_tree(shape=None, *before, without=(), runs=True, **how):
    """Makes a function a test of a tree, which runs but for some agents, or is only made. It takes
    the tree, and as many of its agents as it names."""
    def made(function):
        @functools.wraps(function)
        def tried():
            with Tree(shape, *before) as tree:
                if runs:
                    tree.begin(without)
                function(tree, *itertools.islice(tree, function.__code__.co_argcount - 1))
        return test(tried, **how)
    return made


def root_has(**keys):
    """What gives the root these keys of its table, before a tree starts."""
    return lambda tree: tree.root.tables["root"].update(keys)


def patient(tree, **times):
    """What a test says at once is to come in time."""
    for agent in tree:
        agent.tables["link"] = {"ack_timeout": "5s", "evict": "1m", **times}


def very_patient(tree):
    patient(tree, ack_timeout="1m", evict="10m")


def counted(tree):
    """Counts of all agents are there for Prometheus."""
    for agent in tree:
        agent.metrics = free_port()
        agent.top["metrics"] = f"127.0.0.1:{agent.metrics}"


@contextlib.contextmanager
def meanwhile(*acts):
    """Does each of these again and again, in a thread of its own, until the block ends."""
    done = threading.Event()

    def go_on(act):
        while not done.is_set():
            with contextlib.suppress(OSError):
                act()
    with concurrent.futures.ThreadPoolExecutor(len(acts)) as pool:
        ends = pool.map(go_on, acts)
        try:
            yield
        finally:
            done.set()
    list(ends)


# ---- What is measured of a process

def memory(agent, what="VmHWM"):
    """The MiB that it had in memory at most, or, as `VmRSS`, that it has."""
    text = pathlib.Path(f"/proc/{agent.process.pid}/status").read_text()
    return int(re.search(rf"{what}:\s+(\d+)", text)[1]) / 1024


@contextlib.contextmanager
def bounded(agent, most):
    """Asserts that meanwhile an agent's memory grows by so many MiB at most."""
    # (what it had at most is measured anew)
    pathlib.Path(f"/proc/{agent.process.pid}/clear_refs").write_text("5")
    before = memory(agent)
    yield
    grew = memory(agent) - before
    sure(grew < most, agent.name, "grew by", grew, "MiB, of", most)


# ---- Certificates

def openssl(home, *words):
    subprocess.run(["openssl", *words], check=True, capture_output=True, cwd=home)


def certify(home, name, seconds=86_400, authority="authority", more=""):
    """A certificate that ends in so many seconds, as the table of a configuration."""
    key = ["-newkey", "ec", "-pkeyopt", "ec_paramgen_curve:P-256", "-nodes"]
    if not (home / "ca.crt").exists():
        home.mkdir(exist_ok=True)
        openssl(home, "req", "-x509", *key, "-days", "90", "-subj", f"/CN={authority}", "-keyout",
                "ca.key", "-out", "ca.crt")
        (home / "index").touch()
        (home / "ca.cnf").write_text(
            "[ca]\ndefault_ca = d\n[d]\nnew_certs_dir = .\ndatabase = index\ndefault_md = sha256\n"
            "policy = p\nrand_serial = yes\nunique_subject = no\ncopy_extensions = copy\n[p]\n"
            "commonName = supplied\n")
    when = lambda add: time.strftime("%Y%m%d%H%M%SZ", time.gmtime(time.time() + add))
    openssl(home, "req", *key, "-subj", f"/CN={name}", "-addext",
            f"subjectAltName=DNS:{name}{more}", "-keyout", f"{name}.key", "-out", f"{name}.csr")
    openssl(home, "ca", "-batch", "-config", "ca.cnf", "-cert", "ca.crt", "-keyfile", "ca.key",
            "-in", f"{name}.csr", "-out", f"{name}.crt", "-startdate", when(-3_600), "-enddate",
            when(seconds), "-notext")
    return {"certificate": str(home / f"{name}.crt"), "key": str(home / f"{name}.key"),
            "authority": str(home / "ca.crt")}


def by_tls(tree):
    for agent in tree:
        agent.tables["tls"] = certify(tree.home, agent.name)


def tls(home, name):
    """A client's side of TLS, by the certificate of this name."""
    context = ssl.SSLContext(ssl.PROTOCOL_TLS_CLIENT)
    context.check_hostname = False
    context.load_verify_locations(home / "ca.crt")
    context.load_cert_chain(home / f"{name}.crt", home / f"{name}.key")
    return context


def used(agent):
    """The seconds of a processor that a process used."""
    text = pathlib.Path(f"/proc/{agent.process.pid}/stat").read_text()
    fields = text.rpartition(")")[2].split()
    return (int(fields[11]) + int(fields[12])) / os.sysconf("SC_CLK_TCK")


# ---- Shapes

def chain(depth):
    """A tree of one path."""
    names = ["root"] + [f"a{at}" for at in range(1, depth + 1)]
    return dict(zip(names[1:], names))


def fan(nodes, width=2):
    """A complete tree: agent n has the children width * n + 1 and on."""
    name = lambda at: "root" if at == 0 else f"a{at}"
    return {name(at): name((at - 1) // width) for at in range(1, nodes)}
