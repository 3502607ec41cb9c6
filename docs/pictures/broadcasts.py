"""Four kinds of broadcast, each as a sequence with one crash."""
from pictures import Picture


class Sequence:
    """Three nodes side by side, with time going down."""

    def __init__(self, picture, left, name):
        self.picture = picture
        self.at = [left + 40, left + 120, left + 200]
        picture.text(left + 120, 28, name, bold=True)
        for node, x in enumerate(self.at):
            picture.box(x - 16, 40, 32, 24)
            picture.text(x, 57, str(node), size=13)

    def lives(self, node, until, colour="soft"):
        self.picture.line(self.at[node], 64, self.at[node], until, colour)

    def crash(self, node, y):
        self.lives(node, y)
        self.picture.cross(self.at[node], y)

    def says(self, y):
        self.picture.dot(self.at[0], y, "blue")
        self.picture.text(self.at[0] - 10, y + 4, "m", "blue", anchor="end", size=13)

    def sends(self, a, b, y, colour="blue"):
        self.picture.line(self.at[a], y, self.at[b], y + 26, colour, arrow=True)

    def delivers(self, node, y):
        self.picture.box(self.at[node] - 7, y - 7, 14, 14, "green")

    def notices(self, node, y):
        self.picture.line(self.at[node] - 9, y, self.at[node] + 9, y, "red", width=3)

    def note(self, words, row=0):
        self.picture.text(self.at[1], 300 + 17 * row, words, size=12)


def best_effort(picture):
    it = Sequence(picture, 0, "best effort")
    it.crash(0, 112)
    it.lives(1, 280)
    it.lives(2, 280)
    it.says(80)
    it.delivers(0, 92)
    it.sends(0, 1, 84)
    it.delivers(1, 114)
    it.note("0 and 1 have m,")
    it.note("2 never gets it", 1)


def eager(picture):
    it = Sequence(picture, 250, "eager")
    it.crash(0, 112)
    it.lives(1, 280)
    it.lives(2, 280)
    it.says(80)
    it.delivers(0, 92)
    it.sends(0, 1, 84)
    it.delivers(1, 114)
    it.sends(1, 2, 118, "orange")
    it.delivers(2, 148)
    it.note("1 relays m at once:")
    it.note("1 and 2 have it", 1)


def all_ack(picture):
    it = Sequence(picture, 500, "all-ack")
    it.crash(0, 112)
    it.lives(1, 280)
    it.lives(2, 280)
    it.says(80)
    it.sends(0, 1, 84)
    it.sends(1, 2, 118, "orange")
    it.sends(2, 1, 152, "orange")
    it.delivers(1, 184)
    it.notices(1, 236)
    it.notices(2, 236)
    it.delivers(2, 252)
    it.note("1 waits until all hold m,")
    it.note("2 until it notices 0", 1)


def majority(picture):
    it = Sequence(picture, 750, "majority-ack")
    it.crash(0, 112)
    it.lives(1, 280)
    it.lives(2, 280)
    it.says(80)
    it.sends(0, 1, 84)
    it.delivers(1, 114)
    it.sends(1, 2, 118, "orange")
    it.delivers(2, 148)
    it.note("each waits until two")
    it.note("of three hold m", 1)


def draw():
    picture = Picture(1000, 366, "Four kinds of broadcast and one crash",
                      "Node 0 says m and sends it to node 1. It crashes before it sends m to node 2. Best effort: nodes 0 and 1 deliver m, node 2 "
                      "never gets it. Eager: node 1 relays m, and node 2 delivers it. All-ack: node 1 delivers m when the relay of node 2 shows "
                      "that all hold it; node 2 delivers it when it notices node 0. Majority-ack: nodes 1 and 2 deliver m as soon as two of "
                      "three hold it.")
    for part in (best_effort, eager, all_ack, majority):
        part(picture)
    for x in (250, 500, 750):
        picture.line(x, 16, x, 322, "soft", dashed=True, width=1)
    picture.dot(60, 347, "blue")
    picture.text(72, 351, "m is said", anchor="start", size=12)
    picture.line(150, 346, 190, 346, "blue", arrow=True)
    picture.text(198, 351, "m is sent", anchor="start", size=12)
    picture.line(280, 346, 320, 346, "orange", arrow=True)
    picture.text(328, 351, "m is relayed", anchor="start", size=12)
    picture.box(430, 339, 14, 14, "green")
    picture.text(452, 351, "m is delivered", anchor="start", size=12)
    picture.cross(572, 346, size=6)
    picture.text(586, 351, "node 0 crashes", anchor="start", size=12)
    picture.line(700, 346, 718, 346, "red", width=3)
    picture.text(726, 351, "node 0 is noticed, after the silence", anchor="start", size=12)
    return picture
