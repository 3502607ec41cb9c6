"""The floors of crates, from crates.txt."""
import os

from pictures import TOP, Picture

COLOURS = ("blue", "ink")


def floors():
    """Returns the headings of crates.txt with the names of their crates, the lowest first, without tests."""
    found = []
    with open(os.path.join(TOP, "crates.txt"), encoding="utf-8") as file:
        for line in file:
            if line.startswith("#"):
                found.append((line[1:].strip(), []))
            elif line.strip():
                found[-1][1].append(line.split(":")[0].split()[0])
    return [floor for floor in found if not floor[0].startswith("tests")]


def rows_of(names):
    """Returns the names in rows of at most 8."""
    return [names[start:start + 8] for start in range(0, len(names), 8)]


def draw():
    heights = [26 + 18 * len(rows_of(names)) for _, names in floors()]
    picture = Picture(900, sum(heights) + 8 * len(heights) + 20, "The floors of crates",
                      "Each floor stands on those below it. " + " ".join(f"{heading}: {', '.join(names)}." for heading, names in floors()))
    y = sum(heights) + 8 * len(heights) + 6
    for place, (heading, names) in enumerate(floors()):
        y -= heights[place] + 8
        picture.box(10, y, 880, heights[place], COLOURS[place % 2])
        picture.text(22, y + 20, heading, COLOURS[place % 2], anchor="start", bold=True, size=13)
        for row, part in enumerate(rows_of(names)):
            picture.text(22, y + 38 + 18 * row, "  ".join(part), anchor="start", size=12, mono=True)
    return picture
