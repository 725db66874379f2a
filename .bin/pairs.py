"""Pairs of limit beacons, in the one sense that every program here has of them, document 02's: on a card of version 3 a second 10 or 11
read at no more than the card's distance from the first makes a pair, a beacon belongs to one pair only, and a mode change parts them."""

VERSION = 3
BEACONS = (10, 11)
KINDS = [f"{first}-{second}" for first in BEACONS for second in BEACONS]  # in the order of the card's speeds
SPEEDS = (30, 40, 50, 70)  # km/h; each of the card's is one of these
FARTHEST = 50  # metres, the greatest distance of a card
METRE = 10_000  # in tenths of a millimetre


def made(samples, distance):
    """For each accepted sample since the opening, by its mode, its travel in tenths of a millimetre and the beacon that is read in it, the
    kind of the pair that this makes, None where it makes none. The distance is in metres: the first's own travel is not counted, the
    second's is."""
    first, way, before = None, 0, 1  # a session opens in CONV
    for mode, travel, beacon in samples:
        first, way, before = first if mode == before else None, way + travel, mode
        kind = None
        if beacon in BEACONS:
            if first is not None and way <= METRE * distance:
                kind, first = f"{first}-{beacon}", None
            else:
                first, way = beacon, 0
        yield kind
