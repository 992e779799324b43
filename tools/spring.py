"""Writes the two example sheets as binary files:

    python3 tools/spring.py data

makes data/spring.sheet (52 bytes, the example of docs/FORMAT.md) and
data/largest.sheet (39,260 bytes, the greatest length a legal file can have).
"""

import os
import sys

from sheets import SPRING, largest


def main():
    folder = sys.argv[1]
    os.makedirs(folder, exist_ok=True)
    for name, data in (("spring", SPRING), ("largest", largest())):
        path = os.path.join(folder, name + ".sheet")
        with open(path, "wb") as out:
            out.write(data)
        print(path, len(data))


if __name__ == "__main__":
    main()
