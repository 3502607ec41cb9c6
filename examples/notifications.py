#!/usr/bin/env python3
"""Notifications: one writer and many readers, by best-effort broadcast in the writer's order. The writer waits for nobody.

    notifications.py [PORT [GB_SERVE]]

Each node of three has a reader. Status 0: each reader has each notification, in order.
"""
import sys
import threading

from cluster import NODES, TENANT, cluster
from foqradesh import Group, Spec

GROUP, WRITER = 1, 0
SPEC = Spec("fbeb", NODES, messages=1024, total_bytes=65536, window=1024)
NOTICES = [f"build {number} passed" for number in range(100)]


def read(connect, node, seen):
    """Follow the log at a node until it has as many notifications as are sent."""
    with connect(node) as client:
        for entry in client.follow(TENANT, GROUP):
            seen[node].append(entry.payload.decode())
            if len(seen[node]) == len(NOTICES):
                return


def main(words):
    seen = {node: [] for node in NODES}
    with cluster(words) as connect:
        clients = {node: connect(node) for node in NODES}
        Group(clients, TENANT, GROUP, SPEC).start()
        readers = [threading.Thread(target=read, args=(connect, node, seen), daemon=True) for node in NODES]
        for reader in readers:
            reader.start()
        with clients[WRITER].pipeline() as ahead:  # all are sent before the first is answered
            for notice in NOTICES:
                ahead.say(TENANT, GROUP, notice.encode())
        for reader in readers:
            reader.join(timeout=30)
        for client in clients.values():
            client.close()
    for node in NODES:
        print(f"reader at node {node}: {len(seen[node])} notifications, the last one: {seen[node][-1] if seen[node] else None}")
    return 0 if all(seen[node] == NOTICES for node in NODES) else 1


if __name__ == "__main__":
    sys.exit(main(sys.argv[1:]))
