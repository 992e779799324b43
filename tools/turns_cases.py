"""Writes a script of turns and the outcome of each, for comparison:

    python3 tools/turns_cases.py STDIN STDOUT

STDIN gets the script (its language: tools/reference/play.py), STDOUT what the
reference prints for it. Cases written by hand also name their outcome; if the
reference differs from one of them, nothing is written. The cases of load are in
load_cases.py, those of check in check_cases.py, rule_cases.py and
altered_cases.py, those of cut, round and seal in layer_cases.py and
layer_altered_cases.py, those of place in place_cases.py and
place_altered_cases.py, those of list in list_cases.py, those of kernels alone in
tips_cases.py, lines that are no commands in word_cases.py, turns in any order in
history_cases.py, and scripts made at random in corpus.py.
"""

import sys

from altered_cases import altered_cases
from check_cases import check_cases
from corpus import corpus_cases
from history_cases import history_cases
from layer_altered_cases import layer_altered_cases
from layer_cases import layer_cases
from list_cases import list_cases
from load_cases import load_cases
from place_altered_cases import place_altered_cases
from place_cases import place_cases
from rule_cases import rule_cases
from tips_cases import tips_cases
from turns_script import Script
from word_cases import word_cases


def main():
    s = Script()
    for part in (load_cases, check_cases, rule_cases, altered_cases, layer_cases,
                 layer_altered_cases, place_cases, place_altered_cases, list_cases,
                 tips_cases, word_cases, history_cases, corpus_cases):
        part(s)
    s.write(*sys.argv[1:3])


if __name__ == "__main__":
    main()
