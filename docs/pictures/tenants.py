"""Tenants, rooms and groups over shared links."""
from pictures import Picture

NODES = ("node 0", "node 1", "node 2")
# Each room: its colour, its name, and the nodes of its members.
ROOMS = (("blue", "tenant 7, room 1", (0, 1, 2)), ("blue", "tenant 7, room 2", (0, 1)), ("orange", "tenant 8, room 1", (1, 2)))


def draw():
    picture = Picture(860, 350, "Tenants and rooms over shared links",
                      "Three nodes. Tenant 7 has a room with members on all nodes and one with members on nodes 0 and 1; tenant 8 has a room "
                      "with members on nodes 1 and 2. Between each two nodes there is one link. A packet on it has items of both tenants.")
    left = [30 + 300 * node for node in range(3)]
    for node, name in enumerate(NODES):
        picture.box(left[node], 70, 200, 170)
        picture.text(left[node] + 100, 92, name, bold=True)
        picture.line(left[node] + 100, 30, left[node] + 100, 68, "soft", arrow=True)
        picture.text(left[node] + 100, 22, "clients, over TCP", "soft", size=12)
    for row, (colour, name, members) in enumerate(ROOMS):
        for node in members:
            picture.box(left[node] + 14, 104 + 44 * row, 172, 34, colour)
            picture.text(left[node] + 100, 126 + 44 * row, name, colour, size=13)
    for gap in (0, 1):
        start = left[gap] + 200
        picture.line(start, 200, start + 100, 200, width=5)
        picture.text(start + 50, 190, "one link", size=12)
    picture.line(130, 240, 130, 262, width=5)
    picture.line(130, 262, 730, 262, width=5)
    picture.line(730, 262, 730, 240, width=5)
    picture.text(70, 301, "a packet from 1 to 2, by UDP:", anchor="start", size=13)
    picture.box(270, 282, 110, 28)
    picture.text(325, 301, "header", size=13)
    for place, (colour, words) in enumerate((("blue", "7 1: hello"), ("orange", "8 1: more"), ("blue", "7 1: yes"))):
        picture.box(380 + 110 * place, 282, 110, 28, colour)
        picture.text(435 + 110 * place, 301, words, colour, size=13)
    picture.box(710, 282, 70, 28)
    picture.text(745, 301, "tag", size=13)
    picture.text(430, 338, "What a room's members see does not depend on the other items, rooms and tenants.", size=13)
    return picture
