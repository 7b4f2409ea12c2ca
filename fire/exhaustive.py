"""The greatest number of cases of a small pallet, by trying every layer: no certificate and no rule of a certificate is used."""

import functools

from orders import sides_of


@functools.lru_cache(maxsize=None)
def greatest_count(width, height, long_side, short_side):
    """The most cases that a layer of whole positions has."""
    shapes = {(along_x, along_y) for along_x, along_y in ((long_side, short_side), (short_side, long_side))
              if along_x <= width and along_y <= height}
    masks = {shape: sum(1 << (x + y * width) for x in range(shape[0]) for y in range(shape[1])) for shape in shapes}

    @functools.lru_cache(maxsize=None)
    def most(cell, covered):
        """The most cases that have their corners at this cell or behind it, row by row, where the cells of `covered` are taken;
        its first bit is this cell's."""
        if cell == width * height:
            return 0
        best = most(cell + 1, covered >> 1)
        if covered & 1 == 0:
            x, y = cell % width, cell // width
            for along_x, along_y in shapes:
                mask = masks[along_x, along_y]
                if x + along_x <= width and y + along_y <= height and covered & mask == 0:
                    best = max(best, 1 + most(cell + 1, (covered | mask) >> 1))
        return best

    return most(0, 0)


def is_small(instance):
    """Few enough cells, and few enough that one row's cases reach ahead."""
    return instance[0] * instance[1] <= 150 and min(instance[:2]) * instance[2] <= 24


def greatest_of(entry):
    """The greatest count of an entry's order, or None where this is too much to try: of the order's own pallet and case, the
    gap added, where that is small, else of the instance that was planned."""
    for instance in (sides_of(entry.order), entry.reduced):
        if is_small(instance):
            width, height = sorted(instance[:2])
            return greatest_count(width, height, *instance[2:])
    return None
