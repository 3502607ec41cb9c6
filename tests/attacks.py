#!/usr/bin/env python3
"""Attacks on a server by clients and machines that have no right token, and what they may cost nobody else.

tests/attacks.py --serve GB_SERVE --peer GB_PEER --base-port N [--only WORD]

Starts these two programs on loopback, at ports from N on (256 of them), and runs each attack beside a client that has right
tokens. No other client waits longer than 100 milliseconds, no node is noticed, a record does not grow by a byte for what is refused or junk,
and an administrator gets in. The last line is `N passed, M failed`; the status is 1 if one failed. `--only` runs those whose names have WORD.
It needs nothing beside Python. Where the machine itself is slow, a client may wait three times as long as one of a server that only echoes.
"""
import argparse
import contextlib
import hashlib
import hmac
import os
import resource
import selectors
import signal
import socket
import struct
import subprocess
import sys
import tempfile
import threading
import time
import urllib.error
import urllib.request

CLUSTER, ADMIN, TENANT = (bytes([byte]) * 32 for byte in (0x11, 0x22, 0x33))
NOBODY = "0" * 64  # a token that is not valid
LONGEST = 0.1  # seconds that another client may wait
SLOWER = 3  # how many times as long as a client of an echo it may wait
SESSIONS, STATUS, RELAYED = 64, 140, 200  # how far above a server's first port its other ports are


def token(key, text):
    return hmac.new(key, text, hashlib.sha256).hexdigest()


ADMIN_TOKEN = token(ADMIN, b"A")


def tenant_token(tenant):
    return token(TENANT, b"T" + struct.pack(">H", tenant))


def member_token(tenant, group, node=0):
    return token(TENANT, b"M" + struct.pack(">HHB", tenant, group, node))


def framed(text):
    return struct.pack(">I", len(text)) + text.encode("ascii")


DENIED = [framed(f"open {NOBODY} 7 {group}") for group in (1, 2)]


class Failed(Exception):
    """What an attack did that it may not do."""


def expect(is_so, text):
    if not is_so:
        raise Failed(text)


class Link:
    """A connection to a node's sessions."""

    def __init__(self, port, timeout=10):
        self.socket = socket.create_connection(("127.0.0.1", port), timeout)
        self.socket.setsockopt(socket.IPPROTO_TCP, socket.TCP_NODELAY, 1)

    def read(self, count):
        text = b""
        while len(text) < count:
            piece = self.socket.recv(count - len(text))
            if not piece:
                raise ConnectionError("closed")
            text += piece
        return text

    def told(self):
        (size,) = struct.unpack(">I", self.read(4))
        return self.read(size).decode("ascii")

    def ask(self, text):
        self.socket.sendall(framed(text))
        return self.told()

    def figures(self):
        text = self.ask(f"status {ADMIN_TOKEN}")
        expect(text.startswith("status "), f"an administrator is answered {text[:40]!r}")
        return {word.split("=")[0]: int(word.split("=")[1]) for word in text.split()[1:]}

    def close(self):
        self.socket.close()


class Process:
    """A program that serves. It ends when its standard input does."""

    def __init__(self, words, log):
        self.process = subprocess.Popen(words, stdin=subprocess.PIPE, stdout=subprocess.PIPE, stderr=log)
        self.process.stdin.write(f"{CLUSTER.hex()}\n{ADMIN.hex()}\n".encode("ascii"))
        self.process.stdin.flush()
        line = self.process.stdout.readline()
        if not line.startswith(b"serving"):
            self.end()
            raise Failed(f"{words[0]} does not serve: {line!r}")

    @property
    def pid(self):
        return self.process.pid

    def end(self):
        with contextlib.suppress(OSError):
            self.process.stdin.close()
        try:
            self.process.wait(20)
        except subprocess.TimeoutExpired:
            self.process.kill()
            self.process.wait()


class Attacks:
    def __init__(self, serve, peer, port):
        self.serve, self.peer, self.port = serve, peer, port
        self.folder = tempfile.TemporaryDirectory()
        self.log = open(os.path.join(self.folder.name, "log"), "wb")

    def next_ports(self):
        """Each server has ports of its own, since the system keeps closed connections for a while."""
        self.port += 2
        return self.port

    @contextlib.contextmanager
    def served(self, *words, nodes=1):
        base = self.next_ports()
        server = Process([self.serve, "--nodes", str(nodes), "--base-port", str(base), "--stop-at-end", *words], self.log)
        server.port = base
        server.sessions = base + SESSIONS
        try:
            yield server
        finally:
            server.end()

    @contextlib.contextmanager
    def peers(self, silence, seen, folder):
        """Two nodes, each a gb_peer. `seen` has for each node the ports at which it finds the packets of the two, and its own last."""
        started = []
        try:
            for node, (ports, status) in enumerate(seen):
                path = os.path.join(folder, f"cluster{node}.toml")
                with open(path, "w", encoding="ascii") as file:
                    file.write(f"run = 1\ntick = 20\nsilence = {silence}\n")
                    for at, port in enumerate(ports):
                        file.write(f'[[node]]\npackets = "127.0.0.1:{port}"\nsessions = "127.0.0.1:{self.port + SESSIONS + at}"\n')
                words = ["--cluster", path, "--node", str(node), "--dir", folder, "--wait", "0", "--stop-at-end"]
                words += ["--status", f"127.0.0.1:{status}"]
                started.append(Process([self.peer, *words], self.log))
            yield started
        finally:
            for process in started:
                with contextlib.suppress(ProcessLookupError):
                    os.kill(process.pid, signal.SIGCONT)
            for process in started:
                process.end()


def prepare(port, node=0, members="0", kind="beb", groups=(1, 2)):
    """Makes the groups of a tenant at a node, as far as they are not there."""
    link = Link(port)
    expect(link.ask(f"tenant {ADMIN_TOKEN} 7 {TENANT.hex()} 8 1000 65536 1000") == "ok", "a tenant is not taken in")
    for group in groups:
        text = link.ask(f"make {tenant_token(7)} 7 {group} {kind} {members} 1000 60000 1000")
        expect(text == "ok", f"a group is not made: {text}")
        expect(link.ask(f"open {tenant_token(7)} 7 {group}") == "ok", "a group is not opened")
    link.close()


ECHO = """
import socket
listener = socket.create_server(("127.0.0.1", 0))
print(listener.getsockname()[1], flush=True)
link = listener.accept()[0]
link.setsockopt(socket.IPPROTO_TCP, socket.TCP_NODELAY, 1)
while True:
    text = link.recv(65536)
    if not text:
        break
    link.sendall(text)
"""


class Waits(threading.Thread):
    """Asks by a function again and again, until it is over, and notes how long each answer takes, in seconds."""

    def __init__(self, ask, is_over):
        super().__init__(daemon=True)
        self.ask, self.is_over, self.waits, self.fault = ask, is_over, [], None

    def run(self):
        try:
            while not self.is_over.is_set():
                begun = time.monotonic()
                self.ask()
                self.waits.append(time.monotonic() - begun)
                time.sleep(0.002)
        except (OSError, struct.error) as fault:
            self.fault = fault


class Beside:
    """A client with right tokens that fetches again and again beside an attack, and one of a process that only echoes."""

    def __init__(self, port):
        self.is_over = threading.Event()
        self.echo = subprocess.Popen([sys.executable, "-c", ECHO], stdout=subprocess.PIPE)
        self.link, self.other = Link(port, 10), Link(int(self.echo.stdout.readline()), 10)
        text = f"fetch {member_token(7, 1)} 7 1 0 16"
        self.client = Waits(lambda: self.link.ask(text), self.is_over)
        self.control = Waits(lambda: self.other.ask(text), self.is_over)

    @property
    def waits(self):
        return self.client.waits

    @property
    def fault(self):
        return self.client.fault

    def __enter__(self):
        self.client.start()
        self.control.start()
        return self

    def __exit__(self, *_):
        self.is_over.set()
        self.client.join(15)
        self.control.join(15)
        self.other.close()
        self.echo.wait(15)

    def check(self):
        expect(self.fault is None, f"another client is not answered: {self.fault}")
        expect(len(self.waits) > 10, f"another client is answered {len(self.waits)} times only")
        echoed = max(self.control.waits, default=0)
        seen = f"another client waits {max(self.waits) * 1000:.1f} ms at most, of {len(self.waits)} fetches; one of an echo {echoed * 1000:.1f} ms"
        expect(max(self.waits) <= max(LONGEST, SLOWER * echoed), seen)
        return seen


def waiters(port, count):
    """Connections that wait for an entry of group 1."""
    links = [Link(port, 30) for _ in range(count)]
    body = framed(f"await {member_token(7, 1)} 7 1 0 16 60000")
    for link in links:
        link.socket.sendall(body)
    watch = Link(port)
    until = time.monotonic() + 20
    while watch.figures()["connections_waiting"] < count:
        expect(time.monotonic() < until, "clients do not wait")
        time.sleep(0.05)
    watch.close()
    return links


def read_denied(link, count):
    """Reads this number of replies of 20 bytes."""
    link.socket.settimeout(60)
    rest = count * 20
    while rest:
        piece = link.socket.recv(min(rest, 65_536))
        if not piece:
            raise ConnectionError("closed")
        rest -= len(piece)


def bytes_of(folder):
    return sum(os.path.getsize(os.path.join(folder, name)) for name in os.listdir(folder) if name.endswith(".record"))


# The attacks. Each returns a line that says what was seen, or raises Failed.


def wake_storm(attacks):
    """A client without a token touches groups for which 1,000 others wait."""
    with attacks.served(nodes=2) as server:
        for node in range(2):
            prepare(server.sessions + node, node, "0,1")
        links = waiters(server.sessions, 1000)
        watch = Link(server.sessions)
        before = watch.figures()
        with Beside(server.sessions) as beside:
            stranger = Link(server.sessions, 60)
            for _ in range(3):
                stranger.socket.sendall((DENIED[0] + DENIED[1]) * 400)
                read_denied(stranger, 800)
            time.sleep(0.5)
        after = watch.figures()
        fetches = after["requests_fetch"] - before["requests_fetch"] - len(beside.waits)
        for link in links:
            link.close()
        seen = beside.check()
        expect(fetches <= 1, f"{fetches} fetches for others that wait")
        expect(after["nodes_noticed"] == 0, "a node is noticed")
        return seen


def junk_in_records(attacks):
    """5,000 datagrams that are no packets, and 8 MB of requests without a token, at a node that keeps a record."""
    with tempfile.TemporaryDirectory() as folder:
        with attacks.served("--tick", "60000", "--dir", folder, "--record") as server:
            prepare(server.sessions)
            time.sleep(0.3)
            before = bytes_of(folder)
            expect(before > 0, "there is no record")
            sender = socket.socket(socket.AF_INET, socket.SOCK_DGRAM)
            for at in range(5000):
                sender.sendto(os.urandom(1400), ("127.0.0.1", server.port))
                if at % 50 == 0:
                    time.sleep(0.001)
            time.sleep(0.5)
            junk = bytes_of(folder) - before
            stranger = Link(server.sessions, 60)
            said = framed(f"say {NOBODY} 7 1 " + "00" * 1000)
            for _ in range(40):
                stranger.socket.sendall(said * 100)
                read_denied(stranger, 100)
            time.sleep(0.5)
            denied = bytes_of(folder) - before - junk
            with Beside(server.sessions) as beside:
                time.sleep(0.2)
            expect(beside.fault is None and len(beside.waits) > 10, "the node does not go on")
        expect(junk == 0, f"the record grows by {junk} bytes for datagrams that are no packets")
        expect(denied == 0, f"the record grows by {denied} bytes for requests without a token")
        return "the record grows by nothing"


def all_places_taken(attacks):
    """20 strangers at 20 connections; then 20 clients with right tokens, and a stranger that comes again and again."""
    with attacks.served("--connections", "20") as server:
        prepare(server.sessions)
        strangers = [Link(server.sessions) for _ in range(20)]
        for link in strangers:
            expect(link.ask(f"open {NOBODY} 7 1") == "refused 1 Denied", "a stranger is not refused")
        Link(server.sessions).figures()
        # Each asks as soon as it is connected: until then it may make room for the next one.
        members = []
        for _ in range(20):
            members.append(Link(server.sessions))
            expect(members[-1].ask(f"fetch {member_token(7, 1)} 7 1 0 16") == "log 0", "a member is not let in")
        kept = [Link(server.sessions) for _ in range(5)]
        Link(server.sessions).figures()
        for link in members:
            expect(link.ask(f"fetch {member_token(7, 1)} 7 1 0 16") == "log 0", "a member makes room for a stranger")
        for link in strangers + members + kept:
            link.close()
        return "an administrator gets in"


def asked_ahead(attacks):
    """300 strangers ask without waiting for replies; one that has a token asks beside them."""
    with attacks.served() as server:
        prepare(server.sessions)
        strangers = askers(server.sessions, 300)
        try:
            with Beside(server.sessions) as beside:
                time.sleep(3)
            begun = time.monotonic()
            Link(server.sessions).figures()
            took = time.monotonic() - begun
        finally:
            strangers.kill()
            strangers.wait()
        expect(took < 1, f"an administrator waits {took:.1f} s")
        return beside.check()


ASKER = """
import selectors, socket, sys
port, count, body = int(sys.argv[1]), int(sys.argv[2]), bytes.fromhex(sys.argv[3]) * 200
select = selectors.DefaultSelector()
for _ in range(count):
    link = socket.create_connection(("127.0.0.1", port))
    link.setblocking(False)
    select.register(link, selectors.EVENT_READ | selectors.EVENT_WRITE)
print("ready", flush=True)
while select.get_map():
    for key, events in select.select(0.1):
        try:
            if events & selectors.EVENT_READ and not key.fileobj.recv(65536):
                select.unregister(key.fileobj)
                continue
            if events & selectors.EVENT_WRITE:
                key.fileobj.send(body)
        except BlockingIOError:
            pass
        except OSError:
            select.unregister(key.fileobj)
"""


def askers(port, count):
    """Strangers that ask ahead, in a process of their own, so that they take no time of the client that is watched."""
    words = [sys.executable, "-c", ASKER, str(port), str(count), (DENIED[0] + DENIED[1]).hex()]
    strangers = subprocess.Popen(words, stdout=subprocess.PIPE)
    strangers.stdout.readline()
    return strangers


def health(port):
    try:
        with urllib.request.urlopen(f"http://127.0.0.1:{port}/healthz", timeout=10) as answer:
            return answer.status
    except urllib.error.HTTPError as error:
        return error.code


def paused_node(attacks):
    """A node stands still for longer than the silence, and goes on: it notices the other one in turn, and says that it is not well."""
    base = attacks.next_ports()
    with tempfile.TemporaryDirectory() as folder:
        ports = (base, base + 1)
        with attacks.peers(50, [(ports, base + STATUS), (ports, base + STATUS + 1)], folder) as nodes:
            for node in range(2):
                prepare(base + SESSIONS + node, node, "0,1", "allack")
            expect([health(base + STATUS), health(base + STATUS + 1)] == [200, 200], "nodes are not well at first")
            os.kill(nodes[1].pid, signal.SIGSTOP)
            time.sleep(2)
            os.kill(nodes[1].pid, signal.SIGCONT)
            return parted(base)


def parted(base):
    """Two nodes have noticed each other: both say so, and the groups go on at each."""
    until = time.monotonic() + 5
    links = [Link(base + SESSIONS + node) for node in range(2)]
    while not all(link.figures()["nodes_noticed"] == 1 for link in links):
        noticed = [link.figures()["nodes_noticed"] for link in links]
        expect(time.monotonic() < until, f"the nodes noticed {noticed[0]} and {noticed[1]} others, each should have noticed the other")
        time.sleep(0.1)
    time.sleep(0.2)
    seen = [health(base + STATUS), health(base + STATUS + 1)]
    expect(seen == [503, 503], f"/healthz is {seen[0]} and {seen[1]}")
    for node, link in enumerate(links):
        mine = member_token(7, 1, node)
        expect(link.ask(f"say {mine} 7 1 6869").startswith("said "), "a say is refused")
        text = link.ask(f"await {mine} 7 1 0 16 2000")
        expect(text.startswith("log 1 "), f"the group of node {node} stands still: {text}")
    return "each noticed the other, is not well, and goes on"


class Relay(threading.Thread):
    """Carries datagrams between two nodes, by a socket for each. It may lose those of the first node."""

    def __init__(self, nodes, ports):
        super().__init__(daemon=True)
        self.nodes, self.loses, self.is_over = nodes, False, False
        self.sockets = []
        for port in ports:
            mine = socket.socket(socket.AF_INET, socket.SOCK_DGRAM)
            mine.bind(("127.0.0.1", port))
            self.sockets.append(mine)

    def run(self):
        select = selectors.DefaultSelector()
        for at, mine in enumerate(self.sockets):
            select.register(mine, selectors.EVENT_READ, at)
        while not self.is_over:
            for key, _ in select.select(0.05):
                text = key.fileobj.recv(65_536)
                at = key.data
                # What comes to the place of node `at` was sent by the other one; it goes on from the other one's place.
                if not (self.loses and at == 1):
                    with contextlib.suppress(OSError):
                        self.sockets[1 - at].sendto(text, ("127.0.0.1", self.nodes[at]))


def lost_packets(attacks):
    """Packets from node 0 to node 1 are lost for longer than the silence, those of node 1 are not."""
    base = attacks.next_ports()
    relay = Relay((base, base + 1), (base + RELAYED, base + RELAYED + 1))
    relay.start()
    try:
        with tempfile.TemporaryDirectory() as folder:
            seen = [((base, base + RELAYED + 1), base + STATUS), ((base + RELAYED, base + 1), base + STATUS + 1)]
            with attacks.peers(100, seen, folder):
                for node in range(2):
                    prepare(base + SESSIONS + node, node, "0,1", "allack")
                relay.loses = True
                time.sleep(4)
                relay.loses = False
                return parted(base)
    finally:
        relay.is_over = True
        relay.join()
        for mine in relay.sockets:
            mine.close()


def known_tenants(attacks):
    """Whether the time of a refusal tells which tenants exist."""
    with attacks.served() as server:
        prepare(server.sessions)
        times = {7: [], 9: []}
        for _ in range(40):
            for tenant, took in times.items():
                link = Link(server.sessions, 60)
                body = framed(f"open {NOBODY} {tenant} 9") * 50
                begun = time.monotonic()
                for _ in range(20):
                    link.socket.sendall(body)
                    read_denied(link, 50)
                took.append(time.monotonic() - begun)
                link.close()
        known, unknown = (sorted(took)[len(took) // 4] for took in times.values())
        ratio = known / unknown
        expect(0.8 < ratio < 1.25, f"a refusal takes {ratio:.2f} times as long where the tenant is known")
        return f"a refusal takes {ratio:.2f} times as long where the tenant is known"


SENDER = """
import os, socket, sys, time
port, until = int(sys.argv[1]), time.monotonic() + float(sys.argv[2])
sender = socket.socket(socket.AF_INET, socket.SOCK_DGRAM)
sender.connect(("127.0.0.1", port))
text = os.urandom(64)
while time.monotonic() < until:
    for _ in range(1000):
        try:
            sender.send(text)
        except OSError:
            pass
"""


def flood(attacks):
    """Six senders without a key flood the port of a node's packets for four seconds."""
    with attacks.served(nodes=2) as server:
        for node in range(2):
            prepare(server.sessions + node, node, "0,1", "allack")
        senders = [subprocess.Popen([sys.executable, "-c", SENDER, str(server.port), "4"]) for _ in range(6)]
        with Beside(server.sessions) as beside:
            for sender in senders:
                sender.wait()
        time.sleep(4)
        noticed = [Link(server.sessions + node).figures()["nodes_noticed"] for node in range(2)]
        expect(noticed == [0, 0], f"the nodes noticed {noticed[0]} and {noticed[1]} others")
        link, other = Link(server.sessions), Link(server.sessions + 1)
        expect(link.ask(f"say {member_token(7, 1)} 7 1 6869") == "said 1", "a say is refused")
        text = other.ask(f"await {member_token(7, 1, 1)} 7 1 0 16 2000")
        expect(text.startswith("log 1 "), "a group stands still after the flood")
        return beside.check()


def trickle(attacks):
    """A byte every half second, on a connection that has asked nothing, and on one that was refused."""
    with attacks.served() as server:
        prepare(server.sessions)
        fresh, refused = Link(server.sessions), Link(server.sessions)
        expect(refused.ask(f"open {NOBODY} 7 1") == "refused 1 Denied", "a stranger is not refused")
        begun, closed = time.monotonic(), {}
        text = DENIED[0]
        for at in range(40):
            for name, link in (("fresh", fresh), ("refused", refused)):
                if name in closed:
                    continue
                link.socket.settimeout(0.2)
                try:
                    link.socket.sendall(text[at : at + 1])
                    if link.socket.recv(1) == b"":
                        closed[name] = time.monotonic() - begun
                except TimeoutError:
                    pass
                except OSError:
                    closed[name] = time.monotonic() - begun
            if len(closed) == 2:
                break
            time.sleep(0.1)
        for name in ("fresh", "refused"):
            expect(name in closed, f"a {name} connection is open after {time.monotonic() - begun:.0f} s")
            expect(9 < closed[name] < 13, f"a {name} connection is closed after {closed[name]:.1f} s")
        return f"closed after {closed['fresh']:.1f} and {closed['refused']:.1f} s"


def no_descriptors(attacks):
    """The system has no descriptor for a client; once it has one again, the client is let in though nobody else comes."""
    with attacks.served() as server:
        prepare(server.sessions)
        link = Link(server.sessions)
        link.figures()
        count = len(os.listdir(f"/proc/{server.pid}/fd"))
        limits = resource.prlimit(server.pid, resource.RLIMIT_NOFILE)
        resource.prlimit(server.pid, resource.RLIMIT_NOFILE, (count, limits[1]))
        late = Link(server.sessions)
        time.sleep(0.5)
        resource.prlimit(server.pid, resource.RLIMIT_NOFILE, limits)
        begun = time.monotonic()
        late.figures()
        took = time.monotonic() - begun
        expect(took < 1, f"the client is let in after {took:.1f} s")
        return f"the client is let in after {took:.2f} s"


def end_beside_askers(attacks):
    """An administrator ends a server beside strangers that ask ahead."""
    with attacks.served() as server:
        prepare(server.sessions)
        strangers = askers(server.sessions, 20)
        try:
            time.sleep(0.5)
            begun = time.monotonic()
            text = Link(server.sessions).ask(f"stop {ADMIN_TOKEN}")
            server.process.wait(20)
            took = time.monotonic() - begun
        finally:
            strangers.kill()
            strangers.wait()
        expect(text == "ok", f"an administrator is answered {text!r}")
        expect(took < 4, f"the server ends after {took:.1f} s")
        return f"the server ends after {took:.2f} s"


def shutdown_without_token(attacks):
    """A stop with another token ends nothing."""
    with attacks.served() as server:
        link = Link(server.sessions)
        expect(link.ask(f"stop {NOBODY}") == "refused 1 Denied", "a stop without a token is not refused")
        expect(link.ask(f"stop {tenant_token(7)}") == "refused 1 Denied", "a stop with a tenant's token is not refused")
        time.sleep(0.5)
        Link(server.sessions).figures()
        return "it goes on"


ATTACKS = (
    wake_storm,
    junk_in_records,
    all_places_taken,
    asked_ahead,
    paused_node,
    lost_packets,
    known_tenants,
    flood,
    trickle,
    no_descriptors,
    end_beside_askers,
    shutdown_without_token,
)


def main():
    words = argparse.ArgumentParser(description=__doc__, formatter_class=argparse.RawDescriptionHelpFormatter)
    words.add_argument("--serve", required=True, help="the program gb_serve")
    words.add_argument("--peer", required=True, help="the program gb_peer")
    words.add_argument("--base-port", type=int, required=True)
    words.add_argument("--only", default="")
    given = words.parse_args()
    soft, hard = resource.getrlimit(resource.RLIMIT_NOFILE)
    resource.setrlimit(resource.RLIMIT_NOFILE, (hard if hard < 65_536 else max(soft, 65_536), hard))
    attacks = Attacks(given.serve, given.peer, given.base_port - 2)
    passed = failed = 0
    for attack in ATTACKS:
        if given.only not in attack.__name__:
            continue
        name = attack.__name__.replace("_", " ")
        try:
            seen = attack(attacks)
        except (Failed, OSError, subprocess.SubprocessError) as fault:
            failed += 1
            print(f"{name}: FAILED: {fault}", flush=True)
        else:
            passed += 1
            print(f"{name}: {seen}", flush=True)
    print(f"{passed} passed, {failed} failed")
    return 1 if failed else 0


if __name__ == "__main__":
    sys.exit(main())
