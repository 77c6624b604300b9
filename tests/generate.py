"""Scripts at random, the same for the same kind and seed.

    python3 generate.py KIND SEED

writes one script; `script` gives it as bytes. The kinds are those of KINDS.
"""

import random
import sys

from ring import (JOURNAL_PLACES, LINE_PLACES, NOTE_LIMIT, OUTBOX_PLACES,
                  SCRIPT_BYTES, EntryFrame, Heartbeat, Note, Ring, State, lines_of,
                  perform_line)

LARGEST = 4_294_967_295
SMALLEST_NOTE = Note(0, 0, 0, 0)


class Enough(Exception):
    """The script has no room for a further line."""


class Writer:
    """Writes a script, and performs it on a ring to know how it stands."""

    def __init__(self):
        self.lines = []
        self.room = SCRIPT_BYTES
        self.ring = None
        self.to_the_end = False     # whether lines are taken until refused

    def raw(self, line):
        """Write a line as it is; it is not performed."""
        if len(line) + 1 > self.room:
            raise Enough
        self.room -= len(line) + 1
        self.lines.append(line)

    def text(self):
        return b"".join(line + b"\n" for line in self.lines)

    def roll(self, n):
        self.raw(b"roll=%d" % n)
        self.ring = Ring(n)
        self.n = n

    def do(self, line):
        self.raw(line)
        return perform_line(self.ring, line)

    def note(self, at, note):
        return self.do(b"do=note at=%d a=%d b=%d c=%d d=%d" % (at, *note))

    def turn(self):
        return self.do(b"do=turn")

    def take(self, at):
        return self.do(b"do=take at=%d" % at)

    def lose(self, at):
        return self.do(b"do=lose at=%d" % at)

    def stop(self, at):
        return self.do(b"do=stop at=%d" % at)

    def enter(self, at):
        return self.do(b"do=enter at=%d" % at)

    # How the ring stands

    def station(self, s):
        return self.ring.stations[s]

    def owner(self):
        """The owner of the next turn."""
        return (self.ring.next_turn - 1) % self.n

    def waiting(self, s):
        return self.ring.wire.count(s)

    def oldest(self, s):
        """The oldest frame of the line of s."""
        return self.ring.wire.lines[s][0]

    def those(self, test):
        return [s for s in range(self.n) if test(self.station(s))]

    def not_out(self):
        return self.those(lambda station: not station.state.out)

    def out(self):
        return self.those(lambda station: station.state.out)

    def running(self):
        return self.those(lambda station: station.state is State.RUNNING)

    # Several lines at once

    def enter_all(self):
        for s in self.out():
            self.enter(s)

    def enter_again(self, s):
        """Station s stops and enters."""
        self.stop(s)
        self.enter(s)

    def take_line(self, s, most=LINE_PLACES, loses=lambda frame: False):
        """Station s takes what waits, as long as it is not out, but loses the frames
        for which `loses` says so."""
        while most and self.waiting(s) and s in self.not_out():
            if loses(self.oldest(s)):
                self.lose(s)
            else:
                self.take(s)
            most -= 1
        if self.to_the_end and not self.waiting(s):
            self.take(s)

    def take_all(self, rng=None):
        """All stations that are not out take all, mixed where rng is given."""
        while True:
            ready = [s for s in self.not_out() if self.waiting(s)]
            if not ready:
                return
            if rng:
                self.take_line(rng.choice(ready), rng.randint(1, 6))
            else:
                self.take_line(ready[0])

    def turns(self, count, rng=None):
        """So many turns, all frames taken after each."""
        for _ in range(count):
            self.turn()
            self.take_all(rng)

    def turns_until_owner(self, s):
        """Turns, all frames taken, until the next turn is that of s."""
        while self.owner() != s:
            self.turns(1)


# Notes


def plain_note(rng):
    """A well-formed note on one of few entries."""
    number = rng.randint(1, 9)
    a = rng.choice([1, 1, 2, 2, 3, 4, 4])
    if a == 1:
        return Note(1, number, rng.randint(0, 999_999), rng.randint(0, 10_000))
    if a == 4:
        return Note(4, number, 0, 0)
    return Note(a, number, rng.randint(0, 99_999), 0)


def odd_note(rng, note=None):
    """A note with a figure at its limit or over it, or any numbers at all."""
    if rng.random() < 0.1:
        return Note(*(rng.choice([0, 1, 4, 5, LARGEST, rng.randint(0, LARGEST)])
                      for _ in range(4)))
    figures = list(note or plain_note(rng))
    limits = {
        0: [0, 5, LARGEST],
        1: [0, 1, 9_999_999, 10_000_000],
        2: [0, 1, 1_000_000_000, 1_000_000_001, LARGEST],
        3: [0, 1, 10_000, 10_001],
    }
    which = rng.choice([0, 1, 1, 2, 2, 2, 3, 3])
    figures[which] = rng.choice(limits[which])
    return Note(*figures)


def some_note(rng):
    return odd_note(rng) if rng.random() < 0.15 else plain_note(rng)


def short_note(rng):
    """A note with a short line."""
    return Note(rng.choice([0, 0, 1, 2, 3, 4]), rng.randint(0, 9), rng.randint(0, 9), 0)


# What the owner or all say, and what is lost


def some_notes(w, rng, share):
    """Notes to stations that are not out; to each the more, the larger its share."""
    for s in w.not_out():
        while rng.random() < share(s) / (share(s) + w.n):
            w.note(s, some_note(rng))


def owner_says(w, rng, share):
    """Perhaps a note to the owner of the next turn, if it is running."""
    if w.owner() in w.running() and rng.random() < share:
        w.note(w.owner(), plain_note(rng))


def heartbeats(rng, deaf):
    """Loses that part of the heartbeats."""
    return lambda frame: isinstance(frame, Heartbeat) and rng.random() < deaf


def take_badly(w, rng, s, lates, losses):
    """Station s is late, or loses frames: `losses` tells how likely each is lost."""
    if rng.random() < lates:
        w.take_line(s, rng.randint(0, 3))
    else:
        w.take_line(s, loses=lambda frame: rng.random() < losses(frame))


# Kinds


def calm(w, rng):
    """All frames are taken before each turn; perhaps some stations stop."""
    w.roll(rng.randint(1, 8))
    w.to_the_end = rng.random() < 0.3
    share = rng.choice([0.1, 0.4, 1.5, 4])
    stops = rng.choice([0, 0, 0.02, 0.08])
    mixed = rng if rng.random() < 0.5 else None
    for _ in range(rng.randint(3, 50)):
        some_notes(w, rng, lambda s: share)
        if w.not_out() and rng.random() < stops:
            w.stop(rng.choice(w.not_out()))
        w.turns(1, mixed)


def wild(w, rng):
    """All calls, at random."""
    w.roll(rng.randint(1, 8))
    shares = {
        "take": rng.choice([3, 10, 25, 60]),
        "turn": rng.choice([2, 5, 10]),
        "note": rng.choice([1, 5, 15]),
        "lose": rng.choice([0, 0.3, 2]),
        "stop": rng.choice([0.1, 0.5, 2]),
        "enter": rng.choice([0.1, 1, 4]),
        "deliver": rng.choice([0, 1, 4, 12]),
    }
    off = rng.choice([0, 0.01, 0.05])
    for _ in range(rng.randint(20, 600)):
        call = rng.choices(list(shares), shares.values())[0]
        s = rng.randrange(w.n)
        if call != "deliver" and rng.random() < off:
            s = rng.choice([w.n, w.n + 1, 8, 31, 32, 255, 256, LARGEST])
        if call == "turn":
            w.turn()
        elif call == "note":
            for _ in range(rng.choice([1, 1, 2, 5, 18])):
                w.note(s, some_note(rng))
        elif call == "deliver":
            w.take_all(rng)
        elif call == "lose":
            for _ in range(rng.choice([1, 1, 3, 33])):
                w.lose(s)
        else:
            getattr(w, call)(s)


def lossy_at_random(w, rng):
    """Mostly calm, with lost frames, late frames, stops and entering again."""
    w.roll(rng.randint(2, 8))
    w.to_the_end = rng.random() < 0.3
    losses = rng.choice([0, 0.003, 0.01, 0.04])
    deaf = rng.choice([0, 0, 0.05, 0.2])        # heartbeats and joins lost
    lates = rng.choice([0, 0.03, 0.1])
    stops = rng.choice([0, 0.03, 0.1])
    enters = rng.choice([0.1, 0.5, 1])
    together = rng.choice([0, 0.5])
    ahead = rng.choice([0, 0.02, 0.1])
    share = rng.choice([0.3, 1, 4])
    for _ in range(rng.randint(10, 150)):
        some_notes(w, rng, lambda s: share)
        if w.not_out() and rng.random() < stops:
            s = rng.choice(w.not_out())
            w.stop(s)
            if (s + 1) % w.n in w.not_out() and rng.random() < together:
                w.stop((s + 1) % w.n)
        if w.out() and rng.random() < enters:
            for s in w.out() if rng.random() < together else [rng.choice(w.out())]:
                w.enter(s)
        s = w.owner()
        w.turn()
        if s in w.not_out() and rng.random() < ahead:
            # What it said is only just on its way to the others.
            w.enter_again(s)
        for s in rng.sample(w.not_out(), len(w.not_out())):
            take_badly(w, rng, s, lates,
                       lambda frame: losses if isinstance(frame, EntryFrame) else deaf)
    if rng.random() < 0.5:
        w.enter_all()


def lossy_edge(w, rng):
    """A part with the vote goes on; all else happens to the others, its edge."""
    w.roll(rng.randint(3, 8))
    w.to_the_end = rng.random() < 0.2
    losses = rng.choice([0, 0.02, 0.1])
    deaf = rng.choice([0, 0.1, 0.4])        # heartbeats lost
    lates = rng.choice([0, 0.1, 0.3])
    stops = rng.choice([0.02, 0.1])
    enters = rng.choice([0.1, 0.3, 0.8])
    share = rng.choice([0, 0.2, 0.5])
    edge = []
    for _ in range(rng.randint(4 * w.n, 20 * w.n)):
        if len(w.running()) == w.n and rng.random() < 0.5:
            edge = rng.sample(range(w.n), rng.randint(1, (w.n - 1) // 2))
        for s in edge:
            if s in w.out():
                if rng.random() < enters:
                    w.enter(s)
            elif rng.random() < stops:
                w.stop(s)
        owner = w.owner()
        if owner in w.not_out() and rng.random() < share:
            for _ in range(rng.choice([1, 1, 2, 5])):
                w.note(owner, plain_note(rng))
        w.turn()
        if owner in edge and owner in w.not_out() and rng.random() < stops:
            w.enter_again(owner)
        for s in w.not_out():
            before = (s - 1) % w.n
            if s not in edge:
                # It must hear the station before it, but no more than that.
                w.take_line(s, loses=lambda frame: isinstance(frame, Heartbeat)
                            and before not in edge and frame.sender != before
                            and rng.random() < deaf)
            else:
                take_badly(w, rng, s, lates,
                           lambda frame: deaf if isinstance(frame, Heartbeat) else losses)
    if rng.random() < 0.5:
        w.enter_all()


def say_in_vain(w, rng, s, to=()):
    """Station s says a note that all others lose, but those of `to`."""
    w.turns_until_owner(s)
    if s not in w.running():
        return
    w.note(s, plain_note(rng))
    w.turn()
    for other in range(w.n):
        if other in to:
            w.take_line(other)
        else:
            while w.waiting(other):
                w.lose(other)


def lossy_wishes(w, rng):
    """Several stations are out and join again together, in turns that go well."""
    w.roll(rng.randint(4, 8))
    most = (w.n - 1) // 2
    say = rng.choice([0, 0.1, 0.5])
    for _ in range(rng.randint(2, 4)):
        start = rng.randrange(w.n)
        apart = rng.choice([1, 1, 1, 2])
        away = [(start + apart * i) % w.n for i in range(rng.randint(1, most))]
        if rng.random() < 0.3:
            ahead = rng.choice(away)
            say_in_vain(w, rng, ahead)
            if ahead in w.not_out():
                w.stop(ahead)
        for s in away:
            if s in w.not_out():
                w.stop(s)
        for _ in range(rng.randint(0, w.n + 2)):
            if w.owner() in w.running() and rng.random() < 0.5:
                for _ in range(rng.randint(1, 4)):
                    w.note(w.owner(), plain_note(rng))
            w.turns(1)
        for s in away:
            if s in w.out():
                w.enter(s)
        late = rng.choice([0, 0, 0.1, 0.3])
        for _ in range(rng.randint(w.n, 3 * w.n)):
            owner_says(w, rng, say)
            w.turn()
            for s in w.not_out():
                if rng.random() >= late:
                    w.take_line(s)


def lossy_gap(w, rng):
    """A station loses some frames of a turn, goes out with a gap, and comes back."""
    w.roll(rng.randint(3, 8))
    for _ in range(rng.randint(1, 4)):
        w.turns(rng.randint(0, w.n))
        poor = rng.randrange(w.n)
        if w.owner() in w.running():
            for _ in range(rng.randint(1, 4)):
                w.note(w.owner(), plain_note(rng))
        w.turn()
        for _ in range(rng.randint(1, 3)):
            if w.waiting(poor):
                w.lose(poor)
        w.take_all(rng)
        for _ in range(rng.randint(0, 2 * w.n)):
            owner_says(w, rng, 0.4)
            w.turns(1)
        w.enter_all()
        w.turns(rng.randint(w.n, 2 * w.n))


def lossy_deaf(w, rng):
    """All entries are taken, but heartbeats are lost, so that members are put off."""
    w.roll(rng.randint(4, 8))
    deaf = rng.choice([0.1, 0.2, 0.3, 0.5])
    share = rng.choice([0, 0.2, 0.6])
    back = rng.choice([0, 0.2, 0.5])
    for _ in range(rng.randint(w.n, 8 * w.n)):
        owner_says(w, rng, share)
        w.turn()
        for s in w.not_out():
            w.take_line(s, loses=heartbeats(rng, deaf))
        for s in w.out():
            if rng.random() < back:
                w.enter(s)
    if rng.random() < 0.5:
        w.enter_all()


def lossy_old_wish(w, rng):
    """A station that holds a wish is stopped and let in itself before its turn."""
    w.roll(rng.randint(5, 8))
    y, z = 0, 1
    for _ in range(rng.randint(0, 1)):
        w.turns(w.n)
    w.turns_until_owner(y)
    w.enter_again(y)
    w.turns(1)
    if rng.random() < 0.8:
        w.stop(y)
    w.enter_again(z)
    w.turns(w.n + 1)
    if rng.random() < 0.5:
        w.enter(y)
    w.turns(rng.randint(0, 2 * w.n))


def lossy_two_wishes(w, rng):
    """A station takes two joins of another one between two turns of its own."""
    w.roll(rng.randint(3, 7))
    y, z, after = 0, 1, 2
    w.turns(1)
    w.enter_again(y)
    w.turns_until_owner(y)
    w.turn()
    for s in w.running():
        if s != z:
            w.take_line(s)
    for _ in range(rng.choice([0, 1, 8])):
        w.note(z, plain_note(rng))
    w.turns(1)
    if rng.random() < 0.5:
        say_in_vain(w, rng, after, to=[y])
    for s in range(after, w.n):
        for _ in range(rng.choice([0, 2, 8])):
            if s in w.not_out():
                w.note(s, plain_note(rng))
    w.turns_until_owner(y)
    w.turns(rng.randint(2, w.n + 2))


def lossy_first_round(w, rng):
    """In the first round none need be heard: frames are taken late, notes said before."""
    w.roll(rng.randint(2, 8))
    takes = rng.choice([0.3, 0.6, 0.9])
    share = rng.choice([0.2, 0.5])
    ahead = rng.choice([0, 0.5, 1])
    for _ in range(rng.randint(2, w.n + 2)):
        owner = w.owner()
        says = owner in w.running() and rng.random() < share
        if says:
            w.note(owner, plain_note(rng))
        w.turn()
        if says and owner in w.not_out() and rng.random() < ahead:
            w.enter_again(owner)
        for s in w.not_out():
            while w.waiting(s) and s in w.not_out() and rng.random() < takes:
                w.take(s)
    for s in w.not_out():
        w.take_line(s, rng.choice([1, 3, 32]))


def lossy_sent_again(w, rng):
    """Heartbeats are lost, or not taken yet, after entries that were sent again."""
    w.roll(rng.randint(3, 8))
    slow = rng.randrange(w.n)
    w.stop(slow)
    for _ in range(w.n + rng.randint(0, 3)):
        if w.owner() in w.running():
            for _ in range(rng.choice([1, 3, 6])):
                w.note(w.owner(), plain_note(rng))
        w.turns(1)
    w.enter(slow)
    slow_takes = rng.choice([0, 0, 0.3, 1])
    deaf = rng.choice([0.1, 0.3, 0.6])
    for _ in range(rng.randint(w.n, 4 * w.n)):
        owner_says(w, rng, 0.5)
        w.turn()
        for s in w.not_out():
            if rng.random() < (1 - slow_takes if s == slow else 0.1):
                continue
            w.take_line(s, loses=heartbeats(rng, deaf))


def lossy(w, rng):
    """Lost frames, gaps, stops, and stations that come back."""
    rng.choices([lossy_at_random, lossy_edge, lossy_gap, lossy_wishes, lossy_deaf,
                 lossy_old_wish, lossy_two_wishes, lossy_first_round, lossy_sent_again],
                [2, 3, 2, 4, 3, 1, 2, 1, 2])[0](w, rng)


def outvoted(w, rng):
    """The roll falls into two or three parts that lose each other's frames."""
    w.roll(rng.randint(2, 8))
    w.to_the_end = rng.random() < 0.3
    w.turns(rng.randint(0, 2 * w.n))
    parts = rng.choice([2, 2, 2, 3])
    part = [rng.randrange(parts) for _ in range(w.n)]
    share = [rng.choice([0, 0.2, 1, 6]) for _ in range(parts)]
    for _ in range(rng.randint(w.n, 5 * w.n)):
        some_notes(w, rng, lambda s: share[part[s]])
        w.turn()
        for s in w.not_out():
            w.take_line(s, loses=lambda frame: part[frame.sender] != part[s])
    if rng.random() < 0.7:
        for s in w.out():
            if rng.random() < 0.8:
                w.enter(s)
        w.take_all(rng)
        w.turns(rng.randint(0, 4 * w.n))


def say_until(w, rng, length, sayers=None):
    """Efficiently said short notes, until a running station has the length."""
    while w.running():
        longest = max(w.station(s).length for s in w.running())
        if longest >= length:
            return
        s = w.owner()
        if s in w.running() and (sayers is None or s in sayers):
            wanted = min(8, length - longest)
            for _ in range(wanted - len(w.station(s).outbox)):
                w.note(s, short_note(rng) if rng.random() < 0.5 else SMALLEST_NOTE)
        w.turns(1)


def join_again(w):
    """The owner of the next turn is stopped and enters, and joins in that turn."""
    s = w.owner()
    w.enter_again(s)
    w.turns(2)


def long_alone(w, rng):
    """One station with more notes than a journal takes."""
    w.roll(1)
    for _ in range(rng.randint(29, 33)):
        for _ in range(rng.choice([8, 8, 8, 9, 7])):
            w.note(0, short_note(rng))
        w.turn()
    for _ in range(rng.randint(0, 18)):
        w.note(0, plain_note(rng))
        w.turn()


def long_some(w, rng):
    """As many stations as have the vote go to 240 notes; the others are stopped."""
    w.roll(rng.choice([2, 3, 4, 5]))
    w.turns(rng.randint(0, 2))
    for s in rng.sample(range(w.n), w.n - (w.n // 2 + 1)):
        w.stop(s)
    say_until(w, rng, NOTE_LIMIT - rng.randint(0, 3))
    for _ in range(rng.randint(0, 10)):
        w.note(rng.choice(w.running()), plain_note(rng))
    w.turns(2 * w.n)


def long_views(w, rng):
    """Three stations: notes, and then views until a journal has 256 entries."""
    w.roll(3)
    w.turns(rng.randint(0, 2))
    say_until(w, rng, NOTE_LIMIT - rng.choice([0, 0, 1, 1, 2, 3]))
    calm_at = rng.choice([0, JOURNAL_PLACES - 1, JOURNAL_PLACES - 2])
    while len(w.running()) == 3:
        longest = w.station(w.owner()).length
        if longest == JOURNAL_PLACES:
            break
        if longest == calm_at:
            w.turns(3)
        join_again(w)
    end = rng.choice(["stop", "enter", "enter", "join", "turns"])
    w.to_the_end = rng.random() < 0.5
    if end in ("stop", "enter"):
        w.stop(w.owner())
        w.turns(rng.choice([2, 5, 5]))
    if end == "enter":
        w.enter_all()
    if end == "join":
        w.turns(1)
        join_again(w)
    w.turns(20)


def long_late(w, rng):
    """Three stations; near the end of the journal one only joins, and takes nothing."""
    w.roll(3)
    say_until(w, rng, NOTE_LIMIT)
    late_at = rng.choice([244, 247, 248, 248, 248, 249])
    while w.station(w.owner()).length < late_at:
        join_again(w)
    late = w.owner()
    w.enter_again(late)
    for _ in range(40):
        w.turn()
        w.to_the_end = w.station((late + 1) % 3).state is State.FULL
        for s in w.not_out():
            if s != late:
                w.take_line(s)


def long_back(w, rng):
    """Two of three stations say; the third comes back near the end, several times."""
    w.roll(3)
    third = rng.randrange(3)
    others = [s for s in range(3) if s != third]
    say_until(w, rng, rng.choice([215, 222, 230, 236]))
    w.turns_until_owner(third)
    w.stop(third)
    say_until(w, rng, NOTE_LIMIT, others)
    takes = rng.choice([0.2, 0.5, 1])
    for _ in range(60):
        if third in w.out():
            w.enter(third)
        w.turn()
        for s in others:
            w.take_line(s)
        if rng.random() < takes:
            w.take_line(third)


def long_pair(w, rng):
    """Two stations reach 256 by letting each other in.

    Each leaves the last heartbeat in its line until its own turn is over, so
    that it has still heard the other one when that one joins again.
    """
    w.roll(2)
    # Station 1 has heard station 0 at the start, and takes its heartbeat later.
    w.turn()
    w.turn()
    w.take_all()
    length = NOTE_LIMIT - rng.randint(0, 9)
    while w.station(1).length < length:
        for _ in range(min(8, length - w.station(0).length)):
            w.note(0, short_note(rng))
        w.turn()
        w.take_line(1, w.waiting(1) - 1)
        w.turn()
        w.take_all()
    while len(w.running()) == 2:
        s = w.owner()
        w.enter_again(s)
        w.turn()
        w.take_line(1 - s)
        w.turn()
        w.take_line(s, w.waiting(s) - 1)
        w.turn()
        w.take_all()
    w.turns(rng.randint(0, 6))


def long(w, rng):
    """Journals of 240 entries and more."""
    rng.choice([long_alone, long_some, long_views, long_views, long_late, long_back,
                long_pair])(w, rng)


def filled_line(w, rng):
    """A station takes nothing until its line is full, or nearly."""
    w.roll(rng.randint(2, 8))
    w.to_the_end = rng.random() < 0.5
    slow = rng.randrange(w.n)
    others = [s for s in range(w.n) if s != slow]
    extra = rng.choice([-1, 0, 0, 1, 3, 20])
    stopped = rng.random() < 0.3
    if stopped:
        w.stop(slow)
    posted = 0
    while posted < LINE_PLACES + extra and w.not_out():
        s = w.owner()
        if s != slow and s in w.not_out() and rng.random() < (0.6 if stopped else 0.9):
            for _ in range(rng.randint(1, 8) if stopped else rng.randint(6, 9)):
                w.note(s, some_note(rng))
        before = w.waiting(slow)
        w.turn()
        posted += max(w.waiting(slow) - before, 1)
        for other in others:
            w.take_line(other)
    if slow in w.not_out() and rng.random() < 0.3:
        w.stop(slow)
    for _ in range(rng.choice([0, 0, 1, 5, 33])):
        w.lose(slow)
    if slow in w.out() and rng.random() < 0.7:
        w.enter(slow)
    w.take_line(slow, rng.choice([3, 32, 32]))
    if slow in w.out() and rng.random() < 0.7:
        w.enter(slow)
    w.turns(rng.randint(0, 6 * w.n))


def filled_outboxes(w, rng):
    """Outboxes with 16 notes and more, then turns that say them."""
    w.roll(rng.randint(1, 8))
    for s in rng.sample(range(w.n), rng.randint(1, min(w.n, 3))):
        if rng.random() < 0.2:
            w.enter_again(s)
        for _ in range(OUTBOX_PLACES + rng.choice([-1, 0, 1, 2])):
            w.note(s, some_note(rng))
    for _ in range(rng.randint(1, 4 * w.n)):
        w.turns(1)
        if rng.random() < 0.1:
            w.note(rng.randrange(w.n), plain_note(rng))


def filled_pool(w, rng):
    """Every line full with frames of its own: all stations join, in vain."""
    w.roll(rng.choice([2, 5, 8, 8, 8]))
    if rng.random() < 0.5:
        for _ in range(16):
            w.note(0, short_note(rng))
        w.turns(rng.randint(1, w.n))
    for s in range(w.n):
        if s in w.not_out():
            w.stop(s)
        w.enter(s)
    for _ in range(LINE_PLACES + 4):
        w.turn()
    for s in rng.sample(range(w.n), rng.choice([1, w.n - 1, w.n])):
        w.enter_again(s)
        while w.waiting(s) < LINE_PLACES:
            w.turn()
    w.turn()
    for s in range(w.n):
        for _ in range(rng.choice([1, 5, 33])):
            w.do(b"do=%b at=%d" % (rng.choice([b"take", b"lose"]), s))


def filled_again(w, rng):
    """Entries sent again to stations that have them."""
    w.roll(rng.randint(3, 8))
    w.to_the_end = rng.random() < 0.3
    slow = rng.randrange(w.n)
    w.turns_until_owner(slow)
    w.stop(slow)
    others = [s for s in range(w.n) if s != slow]
    for _ in range(rng.randint(w.n, 3 * w.n)):
        s = w.owner()
        if s != slow:
            for _ in range(rng.randint(0, 3)):
                w.note(s, some_note(rng))
        w.turns(1)
    w.enter(slow)
    for _ in range(rng.randint(2, 6) * w.n):
        w.turn()
        for s in others:
            w.take_line(s)
        if rng.random() < 0.15:
            w.take_line(slow)
        if rng.random() < 0.05:
            w.lose(slow)
    w.take_all()


def filled(w, rng):
    """Full lines, full outboxes, frames of one entry several times."""
    rng.choice([filled_line, filled_line, filled_outboxes, filled_pool, filled_again])(w, rng)


def whole_entry(rng, number):
    """An entry from opening to closing, with figures at their limits."""
    cents = [rng.choice([0, 1_000_000_000, 1_000_000_000]) for _ in range(3)]
    notes = [Note(1, number, cents[0], rng.choice([0, 10_000, 10_000])),
             Note(2, number, cents[1], 0),
             Note(3, number, cents[2], 0),
             Note(4, number, 0, 0)]
    if rng.random() < 0.2:
        notes.pop(rng.choice([1, 2]))
    if rng.random() < 0.5:
        # One of them comes first with a figure too large.
        i = rng.randrange(len(notes))
        largest_c = 0 if notes[i].a == 4 else 1_000_000_000
        largest_d = 10_000 if notes[i].a == 1 else 0
        notes.insert(i, rng.choice([notes[i]._replace(c=largest_c + 1),
                                    notes[i]._replace(d=largest_d + 1)]))
    return notes


def books(w, rng):
    """Notes that reach every verdict of the entry book."""
    w.roll(rng.choice([1, 1, 1, 2, 3]))
    numbers = rng.sample(range(1, 10_000_000), rng.choice([4, 20, 33, 40]))
    numbers[:2] = rng.choice([[1, 9_999_999], [70, 71]])

    def price():
        return rng.choice([0, 1, 999, 500_000, 1_000_000_000, rng.randint(0, 10 ** 9)])

    def rate():
        return rng.choice([0, 1, 1200, 9_999, 10_000, rng.randint(0, 10_000)])

    notes = []
    for number in numbers:
        if rng.random() < 0.1:
            notes += whole_entry(rng, number)
        else:
            notes.append(Note(1, number, price(), rate()))
    orderly = rng.random()
    for _ in range(rng.randint(10, 120)):
        number = rng.choice(numbers)
        a = rng.choice([1, 2, 2, 2, 3, 3, 4, 4])
        if a == 1:
            note = Note(1, number, price(), rate())
        elif a == 4:
            note = Note(4, number, 0, 0)
        else:
            note = Note(a, number, price(), 0)
        if rng.random() < 0.2:
            note = odd_note(rng, note)
        notes.insert(rng.randint(0 if rng.random() > orderly else len(notes) // 2,
                                 len(notes)), note)
    while notes:
        for _ in range(min(8, len(notes))):
            w.note(w.owner(), notes.pop(0))
        w.turns(1)
    w.turns(w.n)


def with_number(rng, line, digits):
    """The line with one of its numbers replaced."""
    words = line.split(b" ")
    numbered = [i for i, word in enumerate(words) if word[-1:].isdigit()]
    if not numbered:
        return b"do=take at=" + digits
    i = rng.choice(numbered)
    words[i] = words[i].split(b"=")[0] + b"=" + digits
    return b" ".join(words)


def broken(rng, line):
    """A line that is misshapen now, or nearly so."""
    words = line.split(b" ")
    spot = rng.randint(0, len(line))
    odd_byte = bytes([rng.choice([0, 1, 9, 11, 12, 13, 28, 127,
                                  rng.randint(32, 126), rng.randint(128, 255)])])
    anything = bytes(rng.randint(0, 255) for _ in range(rng.randint(1, 40)))
    whole = [b"", b" ", b"do", b"do=", b"do=roll", b"do=say at=0", b"do=turn at=0",
             b"do=take", b"do=take at=", b"do=takes at=0", b"do= at=0", b"at=0 do=take",
             b"do=note at=0", b"do=note at=0 a=1 b=2 c=3", b"do=note a=1 b=2 c=3 d=4",
             b"do=note at=0 b=1 a=1 c=1 d=1", b"do=note at=0 a=1 b=2 c=3 d=4 e=5",
             b"roll", b"roll=", b"roll=3 ", b"roll=3 do=turn", b"roll=%d" % rng.randint(0, 9)]
    edited = [
        b" " + line, line + b" ", line + b"\r", b"#" + line, line + b"#",
        line + b" at=0", line + b" d=0", line.upper(),
        line.replace(b" ", b"  ", 1), line.replace(b" ", b"\t", 1), line.replace(b" ", b"", 1),
        line.replace(b"=", b":", 1), line.replace(b"=", b" = ", 1),
        line.replace(b"=", b"==", 1), line.replace(b"=", b"", 1),
        line.replace(b"at=", rng.choice([b"to=", b"At=", b"a=", b"att=", b"t="])),
        line.replace(b"do=", rng.choice([b"d=", b"doo=", b"Do=", b"roll="])),
        line[:spot], line[spot:], line[:spot] + odd_byte + line[spot:], anything,
        b" ".join(words[:-1]), b" ".join(words[1:]), b" ".join(words + words[-1:]),
        b" ".join(reversed(words)),
    ]
    numbers = [b"", b"00", b"01", b"000000000001", b"+1", b"-1", b"-0", b"0x1", b"1e0", b"1.0",
               b"1_0", b"1,000", b"\xd9\xa1", b"4294967294", b"4294967295", b"4294967296",
               b"4294967297", b"4294967300", b"4300000000", b"5000000000", b"9999999999",
               b"10000000000", b"18446744073709551615", b"18446744073709551616",
               b"18446744073709551617", b"0" * rng.randint(2, 30),
               b"9" * rng.choice([11, 40, 5000])]
    way = rng.random()
    if way < 0.2:
        made = rng.choice(whole)
    elif way < 0.6:
        made = rng.choice(edited)
    else:
        made = with_number(rng, line, rng.choice(numbers))
    return made.replace(b"\n", b"")


def bad_lines(rng):
    """A script with misshapen lines."""
    lines = lines_of(script(rng.choice(["calm", "wild", "lossy", "books"]), rng.random()))
    share = rng.choice([0.02, 0.1, 0.4])
    lines[1:] = [broken(rng, line) if rng.random() < share else line for line in lines[1:]]
    for _ in range(rng.randint(0, 3)):
        extra = rng.choice([b"", b"\r", b"roll=%d" % rng.choice([0, 3, 9]),
                            broken(rng, b"do=take at=0"),
                            broken(rng, b"do=note at=0 a=1 b=70 c=500 d=1200")])
        lines.insert(rng.randint(1, len(lines)), extra)
    return lines


def bad_first_line(rng):
    lines = lines_of(script("wild", rng.random()))
    first = rng.choice([lines[0], b"do=turn", b"do=take at=0", b"do=enter at=7",
                        b"do=note at=0 a=1 b=70 c=500 d=1200"])
    way = rng.choice(["broken", "command", "roll"])
    if way == "broken":
        lines[0] = broken(rng, first)
    elif way == "command":
        lines[0:1] = [] if first == lines[0] else [first]
    else:
        lines[0] = b"roll=%d" % rng.choice([0, 0, 9, 9, 10, 16, 32, 256, 257, 259, 65537,
                                            LARGEST - 1, LARGEST])
    return lines


def bad_size(rng):
    """A text near the largest size, or far over it."""
    size = SCRIPT_BYTES + rng.choice([-1, 0, 0, 1, 1, 1, 2, 100, 16_384])
    text = rng.choice([b"", b"", b"", b"do=turn\n", b"x\n", b"roll=9\n"])
    text += script(rng.choice(["calm", "wild"]), rng.random())
    filling = rng.choice([b"do=turn\n", b"do=take at=0\n", b"\n", b"do=lose at=7\n", b"x"])
    text += filling * ((size - len(text)) // len(filling) + 1)
    text = text[:size]
    return text[:-1] + b"\n" if rng.random() < 0.5 else text


TINY = [b"", b"\n", b"\n\n", b"\r\n", b"roll=1", b"roll=8\n", b"roll=1\r\n", b"do=turn",
        b" ", b"\0", b"roll=2\n\n", b"roll=2\n\n\n", b"\nroll=2\n", b"roll=3\ndo=turn",
        b"roll=0", b"roll=9", b"\xef\xbb\xbfroll=3\n", b"roll=4294967296\n", b"roll=03\n"]


def bad(w, rng):
    """Misshapen lines of many sorts, bad first lines, texts too long or empty."""
    way = rng.choices(["lines", "first", "size", "tiny"], [8, 6, 4, 2])[0]
    if way == "size":
        return bad_size(rng)
    if way == "tiny":
        return rng.choice(TINY)
    for line in bad_lines(rng) if way == "lines" else bad_first_line(rng):
        if len(line) < w.room:
            w.raw(line)
    text = w.text()
    return text[:len(text) - rng.choice([0, 0, 1, 2])]


KINDS = {
    "calm": calm,
    "wild": wild,
    "lossy": lossy,
    "bad": bad,
    "long": long,
    "filled": filled,
    "outvoted": outvoted,
    "books": books,
}


def script(kind, seed) -> bytes:
    """The script of that kind and seed."""
    writer = Writer()
    try:
        text = KINDS[kind](writer, random.Random(f"{kind} {seed}"))
    except Enough:
        text = None
    return writer.text() if text is None else text


if __name__ == "__main__":
    if len(sys.argv) != 3 or sys.argv[1] not in KINDS:
        sys.exit(f"usage: generate.py KIND SEED\nkinds: {' '.join(KINDS)}")
    sys.stdout.buffer.write(script(sys.argv[1], sys.argv[2]))
