"""Whether the colours of objects are apart for everyone, also for the colour-blind, and words on them can be read."""
import itertools
import math

from view.svg import COLOURS, ink
from models import same

LEAST_APART, LEAST_APART_OF_FEW, FEW, LEAST_CONTRAST = 15, 16, 8, 4
# What an eye without one of its three cones makes of light of red, green and blue (Machado, Oliveira and Fernandes 2009).
EYES = {
    "all cones": ((1, 0, 0), (0, 1, 0), (0, 0, 1)),
    "no long cones": ((0.152286, 1.052583, -0.204868), (0.114503, 0.786281, 0.099216), (-0.003882, -0.048116, 1.051998)),
    "no middle cones": ((0.367322, 0.860646, -0.227968), (0.280085, 0.672501, 0.047413), (-0.011820, 0.042940, 0.968881)),
    "no short cones": ((1.255528, -0.076749, -0.178779), (-0.078411, 0.930809, 0.147602), (0.004733, 0.691367, 0.303900)),
}
# From light to how bright it is and what else an eye compares, of white 1 each.
TO_XYZ = ((0.4339, 0.3762, 0.1899), (0.2126, 0.7152, 0.0722), (0.0177, 0.1095, 0.8728))
INKS = {"dark": "#1f2328", "white": "#ffffff"}


def light(colour):
    """How much red, green and blue light a colour has."""
    parts = (part / 255 for part in bytes.fromhex(colour[1:]))
    return [part / 12.92 if part <= 0.04045 else ((part + 0.055) / 1.055) ** 2.4 for part in parts]


def times(matrix, column):
    return [sum(one * other for one, other in zip(row, column)) for row in matrix]


def seen(colour, eye):
    """Where the colour is in a space (CIE Lab) in which equal distances look alike; two that one can just tell apart are 2.3
    from each other there."""
    x, y, z = (part ** (1 / 3) if part > 0.008856 else 7.787 * part + 16 / 116
               for part in times(TO_XYZ, [min(1, max(0, part)) for part in times(EYES[eye], light(colour))]))
    return 116 * y - 16, 500 * (x - y), 200 * (y - z)


def contrast(one, other):
    """By the rules of the web for what can be read: 1 for the same colour, 21 for black on white."""
    darker, brighter = sorted(times(TO_XYZ, light(it))[1] + 0.05 for it in (one, other))
    return brighter / darker


def check_colours(_):
    for eye in EYES:
        for (at, one), (_, other) in itertools.combinations(reversed(list(enumerate(COLOURS))), 2):
            apart = math.dist(seen(one, eye), seen(other, eye))
            least = LEAST_APART_OF_FEW if at < FEW else LEAST_APART
            same(apart >= least, f"with {eye} {one} and {other} are {apart:.1f} apart")
    for number, colour in enumerate(COLOURS):
        on_it = contrast(colour, INKS[ink(number)])
        same(on_it >= LEAST_CONTRAST, f"words on {colour} have a contrast of {on_it:.1f}")
