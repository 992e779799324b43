"""Scripts made at random from fixed seeds, as one more part of the script of `turns`:

    python3 tools/corpus.py STDIN STDOUT

writes them by themselves, with what the reference alone says of them. tools/compare plays
such scripts, and larger ones, for as long as one likes; these few are played each time.
"""

import sys

from generate_scripts import Scale, script
from turns_script import Script

# Small sheets and short scripts, so that there is room for many.
SCALE = Scale(inner=8, sheets=1, tips=6, changes=3, looks=6)
SEEDS = range(1, 221)


def corpus_cases(s):
    for seed in SEEDS:
        script(s, seed, SCALE)


def main():
    s = Script()
    corpus_cases(s)
    s.write(*sys.argv[1:3])


if __name__ == "__main__":
    main()
