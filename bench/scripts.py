#!/usr/bin/env python3
"""Writes what the benchmark runs on: scripts.py FOLDER.

calls-nN-lL.plan: a `roll=` line, then lines of a row's digit and a line of a script. All journals are brought to a
length of L - 8 (row 0), and then measured around L:

  row 1  notes put into outboxes: 8 before the turn that says them, and 16 for each station at the end
  row 2  turns that post only a heartbeat
  row 3  a turn that says 8 notes and posts a heartbeat
  row 4  takes of a heartbeat
  row 5  takes of an entry, which is appended

No call is refused, nothing is lost and nobody is put off. Turns come in rounds. All stations but the last have their
turns one right after the other; the last takes their heartbeats, has its turn, in which it alone says notes, and then
the others take all frames. So every station has heard the one before it since its own last turn.

long.script: a script of nearly 16,384 bytes.
"""
import sys

HEARTBEAT_ROUNDS = 16
ENTRIES = 32


def acts(number):
    """The four notes of an entry, from its opening to its closing."""
    return [
        f"a=1 b={number} c={500_000 + number} d=1200",
        f"a=2 b={number} c={80_000 + number} d=0",
        f"a=3 b={number} c={2_000 + number} d=0",
        f"a=4 b={number} c=0 d=0",
    ]


def notes(count):
    """So many notes, of which the last 8 open and close two entries; room is left for them in the book."""
    early = [act for number in range(1, ENTRIES - 1) for act in acts(number)]
    late = [act for number in (ENTRIES - 1, ENTRIES) for act in acts(number)]
    again = "a=1 b=1 c=500001 d=1200"
    fill = max(0, count - 8 - len(early))
    return early[: count - 8 - fill] + [again] * fill + late


def round_of(n, said, rows):
    """A round in which the last station says notes, if there are any; all frames are taken."""
    note, turn, beat, entry = rows
    last = n - 1
    lines = [f"{note}do=note at={last} {x}" for x in said]
    lines += [f"{turn[0]}do=turn"] * last
    lines += [f"{beat}do=take at={last}"] * last
    lines += [f"{turn[1 if said else 0]}do=turn"]
    for at in range(last):
        lines += [f"{beat}do=take at={at}"] * (last - 1)
    for at in range(last):
        lines += [f"{entry}do=take at={at}"] * len(said)
    for at in range(last):
        lines += [f"{beat}do=take at={at}"]
    return lines


UNTIMED = ("0", "00", "0", "0")
TIMED = ("1", "23", "4", "5")


def plan(n, length):
    said = notes(length)
    lines = [f"roll={n}"]
    at = 0
    while at < length - 8:
        step = min(8, length - 8 - at)
        lines += round_of(n, said[at : at + step], UNTIMED)
        at += step
    lines += round_of(n, said[at:], TIMED)
    for _ in range(HEARTBEAT_ROUNDS):
        lines += round_of(n, [], TIMED)
    lines += [f"1do=note at={at} {x}" for at in range(n) for x in said[:8] + said[-8:]]
    return "\n".join(lines) + "\n"


def long_script(n, limit):
    """Rounds of notes and heartbeats while there is room for one more."""
    text = f"roll={n}\n"
    said = notes(ENTRIES * 4)
    for at in range(0, len(said), 8):
        more = round_of(n, said[at : at + 8], UNTIMED) + round_of(n, [], UNTIMED)
        more = "".join(line[1:] + "\n" for line in more)
        if len(text) + len(more) > limit:
            break
        text += more
    while len(text) + 8 <= limit:
        text += "do=turn\n"
    return text


def main():
    folder = sys.argv[1]
    for n in (3, 8):
        for length in (10, 240):
            with open(f"{folder}/calls-n{n}-l{length}.plan", "w") as out:
                out.write(plan(n, length))
    with open(f"{folder}/long.script", "w") as out:
        out.write(long_script(3, 16_384))


main()
