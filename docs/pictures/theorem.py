"""The theorem as a square."""
from pictures import Picture


def draw():
    picture = Picture(820, 320, "The theorem as a square",
                      "From a run of the cluster two ways lead to what is seen of a group. One reads it from the run. The other takes the group's "
                      "projection, runs the model of the group alone on it, and reads what is seen there. The theorem: both are equal.")
    for x, y, width, colour, words, below in (
            (30, 40, 300, "ink", "a run of the cluster", "all tenants, links, packets"),
            (490, 40, 300, "blue", "the events of the group g", "project plan g run"),
            (30, 210, 300, "green", "what is seen of g in the run", "replies, and items in packets"),
            (490, 210, 300, "green", "what is seen of g alone", "replies, and carried items")):
        picture.box(x, y, width, 64, colour)
        picture.text(x + width / 2, y + 27, words, colour, bold=True)
        picture.text(x + width / 2, y + 48, below, colour, size=12, mono=below.startswith("project"))
    picture.line(332, 72, 486, 72, arrow=True)
    picture.text(410, 62, "projection", size=13)
    picture.line(180, 106, 180, 206, arrow=True)
    picture.text(190, 160, "read the run", anchor="start", size=13)
    picture.line(640, 106, 640, 206, "blue", arrow=True)
    picture.text(650, 152, "run the model", "blue", anchor="start", size=13)
    picture.text(650, 170, "of g alone", "blue", anchor="start", size=13)
    picture.line(340, 236, 480, 236, "red", width=3)
    picture.line(340, 248, 480, 248, "red", width=3)
    picture.text(410, 226, "are equal: proved", "red", size=13, bold=True)
    picture.text(410, 304, "The right side knows nothing of other tenants: so what they do does not show.", size=13)
    return picture
