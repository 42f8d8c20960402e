#!/usr/bin/env python3
"""Draws the torque of a joint over its range, as bands that are proved to hold it.

    examples/sweep/sweep.py [PROGRAM] [--width RAD].. [--out FILE]

The range of one joint of the arm is cut into brackets of angles. The program answers one row for each bracket, with an
interval that holds the torque at every angle of the bracket. Each `--width` gives one band: the brackets 0.1 and 0.01
radians wide where none is named. The picture goes to standard output where no file is named.
"""
import argparse
import csv
import math
import subprocess
import sys
import xml.etree.ElementTree
from decimal import Decimal
from itertools import cycle
from pathlib import Path

TOP = Path(__file__).resolve().parents[2]
ROBOT = TOP / "examples" / "arm7.urdf"
JOINT = "joint_a2"
HELD = {"q.joint_a4": "1.2", "v.joint_a1": "1.4"}  # all other numbers are 0
CAPTION = "The arm turns about its base at 1.4 rad/s, with its elbow bent by 1.2 rad."
COLOURS = ("#a8c6e8", "#1f5fa8", "#e08a1e", "#7a3e9d")
STYLE = "<style>text{font:14px 'DejaVu Sans',Verdana,sans-serif;fill:#222}.grid{stroke:#ddd}.zero{stroke:#888}</style>"

WIDE, HIGH = 820, 500
LEFT, RIGHT, TOP_EDGE, BOTTOM = 84, 800, 24, 396


def limits():
    """The lower and the upper end of the joint's range, as the robot's file has them."""
    root = xml.etree.ElementTree.parse(ROBOT).getroot()
    limit = root.find("joint[@name='%s']/limit" % JOINT)
    return Decimal(limit.get("lower")), Decimal(limit.get("upper"))


def brackets(width):
    """Brackets of angles which have this width and cover the range; the last one ends with it."""
    lower, upper = limits()
    for k in range(math.ceil((upper - lower) / width)):
        yield lower + k * width, min(lower + (k + 1) * width, upper)


def torques(program, cut):
    """The ends of the torque's interval for each bracket."""
    header = ",".join(["q." + JOINT, *HELD])
    rows = [",".join(["%s..%s" % bracket, *HELD.values()]) for bracket in cut]
    run = subprocess.run([program, "--task", "rnea", "--urdf", ROBOT], input="\n".join([header, *rows, ""]),
                         capture_output=True, text=True)
    if run.returncode != 0:
        sys.exit("sweep: the program ended with status %d. %s" % (run.returncode, run.stderr))
    answers = csv.DictReader(run.stdout.splitlines())
    return [tuple(map(float, answer["tau." + JOINT].split(".."))) for answer in answers]


def band(program, width):
    """A band as steps: the ends of each bracket, and those of its torque."""
    cut = list(brackets(width))
    return [(float(start), float(end), low, high) for (start, end), (low, high) in zip(cut, torques(program, cut))]


class Axis:
    """A straight scale from two numbers to two places, with round numbers as its ticks."""

    def __init__(self, least, most, start, end, step):
        self.step, self.first, self.last = step, int(least // step), -int(-most // step)
        self.start, self.scale = start, (end - start) / ((self.last - self.first) * step)

    def at(self, number):
        return "%.2f" % (self.start + (number - self.first * self.step) * self.scale)

    def ticks(self):
        return [k * self.step for k in range(self.first, self.last + 1)]


def axes_of(bands):
    """The axes that hold all bands."""
    steps = [step for steps in bands for step in steps]
    return (Axis(min(s[0] for s in steps), max(s[1] for s in steps), LEFT, RIGHT, 0.5),
            Axis(min(s[2] for s in steps), max(s[3] for s in steps), BOTTOM, TOP_EDGE, 20))


def text(x, y, words, more=""):
    return '<text x="%s" y="%s"%s>%s</text>' % (x, y, more, words)


def minus(number):
    """A number as text, with a minus sign as wide as a plus."""
    return ("%g" % number).replace("-", "\u2212")


def grid(across, up):
    """Lines and numbers at the ticks, and what the axes show."""
    middle = ' text-anchor="middle"'
    for tick in across.ticks():
        yield '<path d="M%s %dV%d" class="%s"/>' % (across.at(tick), TOP_EDGE, BOTTOM, "grid" if tick else "zero")
        yield text(across.at(tick), BOTTOM + 20, minus(tick), middle)
    for tick in up.ticks():
        yield '<path d="M%d %sH%d" class="%s"/>' % (LEFT, up.at(tick), RIGHT, "grid" if tick else "zero")
        yield text(LEFT - 8, up.at(tick), minus(tick), ' dy="5" text-anchor="end"')
    yield text((LEFT + RIGHT) // 2, BOTTOM + 42, "angle of %s (rad)" % JOINT, middle)
    yield text(0, 0, "torque of %s (N m)" % JOINT,
               middle + ' transform="translate(26 %d) rotate(-90)"' % ((TOP_EDGE + BOTTOM) // 2))


def outline(steps, across, up):
    """The outline of a band: along its upper ends, and back along its lower ones."""
    ends = [(x, high) for start, end, _, high in steps for x in (start, end)]
    ends += [(x, low) for start, end, low, _ in reversed(steps) for x in (end, start)]
    return "M" + "L".join("%s %s" % (across.at(x), up.at(y)) for x, y in ends) + "Z"


def picture(widths, bands):
    across, up = axes_of(bands)
    yield '<svg xmlns="http://www.w3.org/2000/svg" width="{0}" height="{1}" viewBox="0 0 {0} {1}">'.format(WIDE, HIGH)
    yield STYLE
    yield '<rect width="%d" height="%d" fill="#fff"/>' % (WIDE, HIGH)
    yield from grid(across, up)
    for place, (width, steps, colour) in enumerate(zip(widths, bands, cycle(COLOURS))):
        level = TOP_EDGE + 16 + 24 * place
        yield '<path d="%s" fill="%s"/>' % (outline(steps, across, up), colour)
        yield '<rect x="%d" y="%d" width="22" height="12" fill="%s"/>' % (RIGHT - 262, level, colour)
        yield text(RIGHT - 232, level + 11, "brackets of %s rad, %d rows" % (width, len(steps)))
    yield text(LEFT, BOTTOM + 74, CAPTION)
    yield text(LEFT, BOTTOM + 94, "At every angle the torque is proved to lie in the band.")
    yield "</svg>\n"


def width_of(word):
    """A width in radians, above zero."""
    if not 0 < float(word) < 10:
        raise ValueError
    return Decimal(word)


def main():
    parser = argparse.ArgumentParser(description=__doc__.splitlines()[0])
    parser.add_argument("program", nargs="?", default=TOP / "crates" / "rbd" / "out" / "rbd")
    parser.add_argument("--width", type=width_of, action="append", help="the width of the brackets, in radians")
    parser.add_argument("--out", type=Path, help="the file of the picture")
    words = parser.parse_args()
    if not Path(words.program).is_file():
        parser.error("there is no program at %s" % words.program)
    widths = sorted(words.width or [Decimal("0.1"), Decimal("0.01")], reverse=True)
    drawn = "\n".join(picture(widths, [band(words.program, width) for width in widths])).encode()
    if words.out:
        words.out.write_bytes(drawn)
    else:
        sys.stdout.buffer.write(drawn)


if __name__ == "__main__":
    main()
