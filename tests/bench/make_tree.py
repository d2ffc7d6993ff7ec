#!/usr/bin/env python3
"""Makes the tree that the rows of trees.sh copy: make_tree.py FOLDER

3,295 files of 290 MiB together in 266 folders, the same at each call: most files are small, and a few have some MiB. Some are empty, and some names
have other bytes than letters. No two pieces of 4,096 bytes are alike.
"""

import os
import random
import sys

FILES, BYTES = 3295, 290 << 20
FOLDERS = 265  # and the folder itself


def sizes(chance):
    """So many sizes that come to so many bytes."""
    some = [0] * 5 + [int(chance.lognormvariate(9.6, 1.9)) for _ in range(FILES - 5)]
    factor = BYTES / sum(some)
    some = [min(int(size * factor), 12 << 20) for size in some]
    missing = BYTES - sum(some)
    step = missing // (FILES - 5)
    some = [size + step if number >= 5 else size for number, size in enumerate(some)]
    some[-1] += BYTES - sum(some)
    return some


def folders(chance, top):
    """Folders, each in one of those before it."""
    made = [top]
    for number in range(FOLDERS):
        parent = chance.choice(made[-40:])
        made.append(os.path.join(parent, chance.choice(("photos %d", "src-%d", "%%%d", "é%d")) % number))
    return made


def main(top):
    chance = random.Random(1)
    made = folders(chance, top)
    for folder in made:
        os.makedirs(folder, exist_ok=True)
    for number, size in enumerate(sizes(chance)):
        with open(os.path.join(chance.choice(made), "file_%04d" % number), "wb") as file:
            file.write(chance.randbytes(size))


if __name__ == "__main__":
    main(sys.argv[1])
