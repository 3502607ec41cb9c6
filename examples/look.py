#!/usr/bin/env python3
"""A look at the service before any proof: builds gb_serve without proof, starts three nodes, makes a group of three members, lets each say
something, and prints each member's log. It needs Python 3.9 and the command rt of the Rattle toolchain.

    look.sh [PORT]     the nodes' ports begin at PORT, 24000 if it is not given

Status 0: each member has every message; 1: not, or no node answered within ten minutes.
"""
import os
import socket
import subprocess
import sys
import tempfile
import time

from client import GROUP, MEMBERS, TENANT, TEXTS, TOP, chat
from foqradesh import Client, Group, Keys, Spec, node_address

PATIENCE = 600  # seconds until a node answers: the build comes first
UNPROVED = """
This gb_serve was built without proof. Nothing is promised of it.
    ./install      proves and builds all programs into bin/, in half an hour or more
"""


def start(port, keys):
    """Start a server of three nodes, which ends with the rt that built it."""
    words = ["rt", "try", "--seconds", "3600", "--", "--nodes", "3", "--version", "3", "--base-port", str(port)]
    return subprocess.Popen(
        words, cwd=os.path.join(TOP, "crates", "gb_serve"), stdin=keys, stdout=subprocess.DEVNULL, stderr=subprocess.PIPE
    )


def wait_for(server, port):
    """Wait until a node answers. Returns whether it does."""
    ends = time.monotonic() + PATIENCE
    while time.monotonic() < ends and server.poll() is None:
        try:
            socket.create_connection(node_address(port, 0), timeout=1).close()
            return True
        except OSError:
            time.sleep(0.5)
    return False


def end(server):
    """End rt, with all that it started."""
    if server.poll() is None:
        server.terminate()
        server.wait(timeout=60)


def look(port):
    """Build, start, chat and stop. Returns the status."""
    cluster_key, admin_key, tenant_key = (os.urandom(32) for _ in range(3))
    with tempfile.TemporaryFile() as keys:
        keys.write(f"{cluster_key.hex()}\n{admin_key.hex()}\n".encode())
        keys.seek(0)
        print("building gb_serve without proof, a minute or two", flush=True)
        server = start(port, keys)
    try:
        if not wait_for(server, port):
            end(server)
            print(server.stderr.read().decode("utf-8", "replace"), end="")
            print("no node answers")
            return 1
        clients = {node: Client(node_address(port, node), Keys(node, admin=admin_key, tenants={TENANT: tenant_key})) for node in MEMBERS}
        for client in clients.values():
            client.add_tenant(TENANT, tenant_key, groups=4, messages=100, total_bytes=4096, window=100)
        Group(clients, TENANT, GROUP, Spec("fallack", MEMBERS, messages=100, total_bytes=4096, window=100)).start()
        logs = chat(clients)
        clients[0].shutdown()
        for client in clients.values():
            client.close()
        server.wait(timeout=60)
        print(UNPROVED, end="")
        return 0 if logs == [list(zip(MEMBERS, TEXTS))] * 3 else 1
    finally:
        end(server)


def main(words):
    """Return the status."""
    if len(words) > 1 or not all(word.isdigit() for word in words):
        print(__doc__)
        return 2
    return look(int(words[0]) if words else 24000)


if __name__ == "__main__":
    sys.exit(main(sys.argv[1:]))
