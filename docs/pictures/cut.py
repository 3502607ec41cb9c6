"""A node that is cut off, for a short and for a long time."""
from pictures import Picture


def draw():
    picture = Picture(980, 330, "A node that is cut off",
                      "Four nodes on a time line; node 3 is a spare. Node 2 is cut off for less than the silence: nothing is lost, its packets come later. Then it is cut off for "
                      "longer: nodes 0, 1 and 3 notice it, it notices them, and that is for good, also when the network is whole again. Node 2 is "
                      "shut down, and a new group has its members on nodes 0, 1 and 3.")
    rows = [70, 110, 150, 200]
    for node, y in enumerate(rows[:3]):
        picture.text(16, y + 5, f"node {node}", anchor="start", bold=True)
    picture.text(16, rows[3] + 5, "node 3, spare", anchor="start", bold=True)
    for y in (70, 110, 200):
        picture.line(130, y, 950, y, "ink", width=3)
    for begin, end in ((130, 250), (350, 450)):
        picture.line(begin, rows[2], end, rows[2], "ink", width=3)
    picture.line(250, rows[2], 350, rows[2], "soft", dashed=True, width=3)
    picture.line(450, rows[2], 800, rows[2], "soft", dashed=True, width=3)
    for begin, end, words in ((250, 350, "cut off, short"), (450, 720, "cut off, longer than the silence")):
        picture.box(begin, 128, end - begin, 44, "orange", dashed=True)
        picture.text(begin + 6, 146, words, "orange", anchor="start", size=12)
        picture.text(begin + 6, 162, "no packets", "orange", anchor="start", size=12)
    picture.text(300, 40, "nothing is lost:", size=12)
    picture.text(300, 55, "frames are sent again", size=12)
    for y in (70, 110, 200):
        picture.cross(670, y, size=7)
    picture.cross(690, 150, size=7)
    picture.text(680, 40, "they notice each other,", "red", size=12)
    picture.text(680, 55, "for good", "red", size=12)
    picture.line(800, 138, 800, 162, "red", width=4)
    picture.text(800, 180, "shutdown", "red", size=12)
    picture.line(870, 62, 870, 208, "green", width=4)
    picture.text(880, 40, "a new group, or the", "green", size=12)
    picture.text(880, 55, "next generation: 0, 1, 3", "green", size=12)
    picture.line(130, 245, 950, 245, arrow=True)
    picture.text(950, 265, "time", "soft", anchor="end", size=12)
    picture.text(16, 290, "All-ack groups with a member on node 2 deliver nothing new from the cut until the notice; the other kinds go on.",
                 anchor="start", size=13)
    picture.text(16, 312, "Node 2 comes back when all nodes begin the next run.", anchor="start", size=13)
    return picture
