"""Writes scripts and their prints into a folder.

    python3 expected.py FOLDER [COUNT]

writes 001.script and 001.print and so on. Scripts are chosen so that every
case that coverage.py knows is there several times, and then those of each
kind that are not long, as long as their sizes together stay under the largest.
"""

import sys
from collections import Counter
from pathlib import Path

from coverage import cases_of
from generate import KINDS, script
from ring import print_of

SEEDS = 100             # candidates of each kind
EACH_CASE = 4           # so many scripts reach each case, if so many do
NOT_LONG = 6_000        # bytes
LARGEST_SIZE = 1_400_000


def candidates():
    """Scripts of all kinds in turn, each once."""
    texts = (script(kind, seed) for seed in range(SEEDS) for kind in KINDS)
    return list(dict.fromkeys(texts))


def for_cases(texts):
    """Scripts such that each case is reached often enough, rare cases first."""
    reached = Counter()
    cases = {text: cases_of(text) for text in sorted(texts, key=len)}
    rarity = Counter(case for found in cases.values() for case in found)
    for case in sorted(rarity, key=lambda case: (rarity[case], case)):
        for text in list(cases):
            if reached[case] >= EACH_CASE:
                break
            if case in cases[text]:
                reached.update(cases.pop(text))
                yield text


def chosen(count):
    texts = candidates()
    picked, size = set(), 0
    for text in list(for_cases(texts)) + [text for text in texts if len(text) <= NOT_LONG]:
        if text not in picked and len(picked) < count and size + len(text) <= LARGEST_SIZE:
            picked.add(text)
            size += len(text)
    return [text for text in texts if text in picked]


def main(folder, count):
    folder.mkdir(parents=True, exist_ok=True)
    texts = chosen(count)
    for number, text in enumerate(texts, start=1):
        (folder / f"{number:03}.script").write_bytes(text)
        (folder / f"{number:03}.print").write_bytes(print_of(text))
    prints = sum(len(print_of(text)) for text in texts)
    print(f"{len(texts)} scripts, {sum(map(len, texts))} bytes; prints, {prints} bytes")


if __name__ == "__main__":
    if len(sys.argv) not in (2, 3):
        sys.exit("usage: expected.py FOLDER [COUNT]")
    main(Path(sys.argv[1]), int(sys.argv[2]) if len(sys.argv) == 3 else 300)
