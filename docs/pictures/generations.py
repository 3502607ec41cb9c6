"""Generations of a room on a time line."""
from pictures import Picture

# Each generation: its name, when it is made, when the last marker is read, and when it is dropped, in pixels from the left.
GENERATIONS = (("7 1", 120, 330, 420), ("7 1.1", 270, 550, 640), ("7 1.2", 490, 780, 870))


def draw():
    picture = Picture(980, 300, "Generations of a room on a time line",
                      "Three groups, 7 1, 7 1.1 and 7 1.2, one after the other. Each next one is made before the one before it is full. "
                      "Then each member says a marker in the old one. When all markers are read the old one is dropped.")
    picture.text(16, 24, "The room 7 1 at one node", anchor="start", bold=True)
    for row, (name, made, read, dropped) in enumerate(GENERATIONS):
        y, colour = 52 + 62 * row, ("blue", "green", "orange")[row]
        picture.text(16, y + 24, name, colour, anchor="start", bold=True, mono=True)
        picture.box(made, y, dropped - made, 36, colour, dashed=False)
        picture.text(made + 8, y + 15, "make, open", colour, anchor="start", size=12)
        picture.text((made + read) / 2 + 6, y + 30, "messages", colour, size=12)
        picture.line(read, y, read, y + 36, colour, dashed=True)
        picture.text(read + 4, y + 15, "markers", colour, anchor="start", size=12)
        picture.text(read + 4, y + 30, "read", colour, anchor="start", size=12)
        picture.text(dropped + 6, y + 23, "drop", "soft", anchor="start", size=12)
    picture.line(110, 250, 960, 250, arrow=True)
    picture.text(960, 270, "time", "soft", anchor="end", size=12)
    picture.text(16, 288, "When three quarters of a generation are used, a client makes the next one. Four live at a node at most.", anchor="start", size=13)
    return picture
