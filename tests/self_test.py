"""Checks the examples of the rules, and the promises at every step of many scripts.

    python3 self_test.py [COUNT] [FIRST SEED]

COUNT is how many scripts of each kind are checked.
"""

import itertools
import random
import sys
import time
from copy import deepcopy
from pathlib import Path

import ring as rules
from generate import KINDS, script
from ring import (ByHeads, ByWeight, ClaimBook, End, Entry, EntryBook, EntryFrame, Heartbeat,
                  JoinFrame, LineWire, Note, PoolWire, Refused, Ring, State, Token, View, bit,
                  perform, print_lines, print_of)


def refusal_of(call, *args):
    """The number with which a call is refused by exception."""
    try:
        call(*args)
    except Refused as refused:
        return refused.number
    return 0


# Voting


def check_voting_examples():
    assert ByHeads(5).has_vote(7) and not ByHeads(5).has_vote(3)
    assert not ByHeads(4).has_vote(3)
    assert ByWeight([3, 1, 1]).has_vote(1) and not ByWeight([3, 1, 1]).has_vote(6)
    assert [refusal_of(ByHeads, n) for n in (0, 1, 8, 9)] == [7, 0, 0, 7]
    assert refusal_of(ByWeight, []) == 7 and refusal_of(ByWeight, [101] * 9) == 7
    assert refusal_of(ByWeight, [101, 1]) == 9 and refusal_of(ByWeight, [0, 0]) == 9
    assert refusal_of(ByWeight, [100, 0]) == 0


def check_voting_laws():
    rng = random.Random(1)
    some = [ByWeight([rng.randint(0, 100) for _ in range(n - 1)] + [1]) for n in range(1, 6)]
    for n, rule in [(n, ByHeads(n)) for n in range(1, 9)] + list(enumerate(some, start=1)):
        whole = rules.whole_roll(n)
        winning = [mask for mask in range(whole + 1) if rule.has_vote(mask)]
        assert all(a & b for a, b in itertools.product(winning, winning))
        assert all(rule.has_vote(mask | bit(s)) for mask in winning for s in range(n))
        assert whole in winning
        assert not any(rule.has_vote(mask | bit(n)) for mask in range(whole + 1))


# Books


def check_entry_book():
    def verdicts(*notes):
        book = EntryBook()
        return [book.give(Note(*note)) for note in notes], list(book.entries.values())

    opened = (1, 70, 500_000, 1_200)
    given, (entry,) = verdicts(opened, (2, 70, 80_000, 0), (3, 70, 2_000, 0), (4, 70, 0, 0))
    assert given == [0, 0, 0, 0] and entry.duty == 69_840
    assert verdicts(opened, (4, 70, 0, 0))[0] == [0, 7]
    given, (entry,) = verdicts(opened, (2, 70, 0, 0), (4, 70, 0, 0), (3, 70, 1, 0), opened)
    assert given == [0, 0, 0, 5, 2] and (entry.insurance, entry.duty) == (None, 60_000)
    assert verdicts(opened, (2, 70, 1, 0), (2, 70, 2, 0), (3, 70, 1, 0), (3, 70, 1, 0))[0] == \
        [0, 0, 6, 0, 6]
    given, (entry,) = verdicts((1, 1, 10 ** 9, 10_000), (2, 1, 10 ** 9, 0), (3, 1, 10 ** 9, 0),
                               (4, 1, 0, 0))
    assert given == [0] * 4 and entry.duty == 3_000_000_000
    malformed = [(0, 1, 0, 0), (5, 1, 0, 0), (1, 0, 0, 0), (1, 10_000_000, 0, 0),
                 (1, 1, 10 ** 9 + 1, 0), (1, 1, 0, 10_001), (2, 1, 10 ** 9 + 1, 0),
                 (2, 1, 0, 1), (3, 1, 0, 1), (4, 1, 1, 0), (4, 1, 0, 1), (4, 0, 0, 0)]
    assert verdicts(*malformed) == ([1] * len(malformed), [])
    assert verdicts((2, 1, 0, 0), (3, 1, 0, 0), (4, 1, 0, 0)) == ([4] * 3, [])
    many = [(1, number, 0, 0) for number in range(1, 34)] + [(1, 1, 0, 0), (2, 33, 0, 0)]
    assert verdicts(*many)[0] == [0] * 32 + [3, 2, 4]


def check_claim_book():
    book = ClaimBook()
    given = [book.give(Note(*note)) for note in
             [(1, 5, 0, 0), (1, 5, 0, 0), (1, 5, 1, 0), (2, 5, 1, 0), (2, 6, 0, 0), (2, 5, 0, 0),
              (2, 5, 0, 0), (0, 5, 0, 0), (3, 5, 0, 0), (1, 0, 0, 0), (1, 10_000_000, 0, 0),
              (1, 5, 8, 0), (1, 5, 0, 1)]]
    assert given == [0, 2, 2, 4, 4, 0, 4, 1, 1, 1, 1, 1, 1]
    assert [book.give(Note(1, number, 7, 0)) for number in range(1, 34)] == [0] * 32 + [3]
    assert book.give(Note(1, 1, 0, 0)) == 2
    assert book.give(Note(2, 9, 7, 0)) == 0 and book.give(Note(1, 33, 2, 0)) == 0
    assert book.places[8] == (33, 2)


# Wires


def check_wires():
    for make in (LineWire, PoolWire):
        assert [refusal_of(make, n) for n in (0, 1, 8, 9)] == [7, 0, 0, 7]
        wire = make(3)
        for frame in range(40):
            wire.post(0, frame)
        assert [wire.count(s) for s in range(3)] == [0, 32, 32]
        assert wire.take(1) == 0 and wire.count(1) == 31
        wire.post(2, "late")
        assert [wire.count(s) for s in range(3)] == [1, 32, 32]
        assert [wire.take(1) for _ in range(33)] == list(range(1, 32)) + ["late", None]
        wire.clear(2)
        assert wire.take(2) is None
        for call in (wire.take, wire.clear, wire.count):
            assert refusal_of(call, 3) == 1
        assert refusal_of(wire.post, 3, "frame") == 1


def check_wires_alike():
    rng = random.Random(2)
    for _ in range(8):
        n = rng.randint(1, 8)
        line, pool = LineWire(n), PoolWire(n)
        for frame in range(500):
            s = rng.randrange(n)
            call = rng.choice(["post"] * 4 + ["take"] * 3 + ["clear"] * (rng.random() < 0.02))
            args = (s, frame) if call == "post" else (s,)
            assert getattr(line, call)(*args) == getattr(pool, call)(*args)
            assert [line.count(s) for s in range(n)] == [pool.count(s) for s in range(n)]


# Stations


NOTE = Note(1, 70, 500_000, 1_200)


def station_with(length, n=3, number=1):
    """A running station whose k-th entry is a note of turn k."""
    station = Ring(n).stations[number]
    station.journal = [Entry(place, place, NOTE) for place in range(1, length + 1)]
    return station


def check_taking_examples():
    station = station_with(4)
    station.take(EntryFrame(0, Entry(6, 9, NOTE), 8))
    assert station.state is State.GAP and station.length == 4
    station = station_with(4)
    station.take(EntryFrame(0, Entry(5, 9, NOTE), 3))
    assert station.state is State.RUNNING and station.length == 4
    station.take(EntryFrame(0, Entry(5, 9, NOTE), 4))
    assert station.length == 5 and station.known == {0: 5, 2: 0}


def check_ignored_frames():
    def entry(place=5, turn=9, content=NOTE, sender=0):
        return EntryFrame(sender, Entry(place, turn, content), 4)

    frames = [entry(sender=1), entry(sender=3), entry(place=0), entry(place=257),
              entry(turn=0), entry(turn=1_000_001), entry(content=View(0)),
              entry(content=View(1)), entry(content=View(11)), Heartbeat(1, End(4, 4)),
              Heartbeat(0, End(0, 4)), Heartbeat(0, End(4, 0)), Heartbeat(0, End(257, 4)),
              Heartbeat(0, End(5, 1_000_001)), JoinFrame(0, End(257, 4)), JoinFrame(3, End(0, 0)),
              JoinFrame(0, End(0, 1))]
    station = station_with(4)
    before = deepcopy(vars(station))
    for frame in frames:
        station.take(frame)
        for name in ("state", "journal", "firm", "heard", "known", "wishes"):
            assert getattr(station, name) == before[name], frame
    station.take(entry(content=View(6)))
    assert station.length == 5


def check_turn_by_calls():
    station = station_with(4)
    assert [refusal_of(station.opening, turn) for turn in (0, 1, 2, 3, 4, 6, 1_000_001)] == [4] * 7
    station.state = State.STOPPED
    assert refusal_of(station.opening, 6) == 4 and refusal_of(station.opening, 5) == 0
    station = station_with(4)
    station.outbox.extend([NOTE] * 10)
    token = station.opening(5)
    assert not station.saying(Token(0, 7)) and not station.saying(Token(1, 2))
    assert [station.saying(token) for _ in range(9)] == [True] * 8 + [False]
    station.passing(Token(0, 7))
    station.passing(Token(1, 2))
    assert station.wire.count(0) == 8
    station.passing(token)
    assert station.wire.count(0) == 9 and not any(station.heard.values())
    station = station_with(4)
    station.outbox.append(NOTE)
    token = station.opening(5)
    station.state = State.JOINING
    assert not station.saying(token)
    station.passing(token)
    assert station.wire.take(0) == JoinFrame(1, End(4, 4))


def take_all(ring):
    for s, station in enumerate(ring.stations):
        while not station.state.out and ring.wire.count(s):
            assert ring.take(s) == 0


def check_turn_example():
    ring = Ring(3)
    assert ring.stop(0) == 0
    for turn in range(1, 6):
        assert all(station.length == 0 for station in ring.stations)
        assert ring.turn() == 0
        take_all(ring)
    assert ring.stations[0].journal == []
    for s in (1, 2):
        assert ring.stations[s].journal == [Entry(1, 5, View(6))]


def check_last_turn():
    ring = Ring(3)
    ring.next_turn = 1_000_000
    assert ring.turn() == 0 and ring.turn() == 4 and ring.turn() == 4


# Script and print


def check_print_examples():
    text = b"roll=1\ndo=note at=0 a=1 b=70 c=500000 d=1200\ndo=turn\ndo=take at=0\n"
    expected = (b"line=4 refused=5\n"
                b"station=0 state=running firm=1 length=1\n"
                b"place=1 turn=1 kind=note a=1 b=70 c=500000 d=1200\n"
                b"entry=70 price=500000 rate=1200 freight=none insurance=none duty=none\n")
    assert print_of(text) == expected
    assert print_of(text[:-1]) == expected
    ring, refusals = perform(text[:text.index(b"do=take")])
    assert refusals == [] and ring.stations[0].firm == 1


def check_first_lines():
    running = b"station=0 state=running firm=0 length=0\n"
    for text, expected in [
            (b"", b"line=1 refused=10\n"), (b"\n", b"line=1 refused=10\n"),
            (b"roll=01", b"line=1 refused=10\n"), (b"roll=4294967296", b"line=1 refused=10\n"),
            (b"roll=1 \n", b"line=1 refused=10\n"), (b"do=turn", b"line=1 refused=11\n"),
            (b"do=turn \ndo=turn", b"line=1 refused=10\n"), (b"roll=0", b"line=1 refused=7\n"),
            (b"roll=9\n\n", b"line=1 refused=7\n"), (b"roll=4294967295", b"line=1 refused=7\n"),
            (b"roll=1", running), (b"roll=1\n", running),
            (b"roll=1\n\n", b"line=2 refused=10\n" + running),
            (b"roll=1\nroll=1\n", b"line=2 refused=10\n" + running),
            (b"roll=1\ndo=take at=4294967295", b"line=2 refused=1\n" + running),
            (b"roll=1\ndo=take at=4294967296", b"line=2 refused=10\n" + running),
            (b"roll=1\ndo=enter at=0\ndo=stop at=0\ndo=stop at=0\n",
             b"line=2 refused=6\nline=4 refused=2\n" + running.replace(b"running", b"out-stopped")),
            (b"x" * 16_384, b"line=1 refused=10\n"), (b"x" * 16_385, b"line=0 refused=12\n")]:
        assert print_of(text) == expected, (text, print_of(text))


def check_example_scripts():
    folder = Path(__file__).resolve().parent.parent / "examples"
    for text in folder.glob("*.script"):
        assert print_of(text.read_bytes()) == text.with_suffix(".print").read_bytes(), text.name


def check_any_bytes():
    rng = random.Random(3)
    for _ in range(300):
        text = bytes(rng.choices(b"dorltunake= 0123456789\n\r\xff\0", k=rng.randint(0, 200)))
        print_of(text)
        print_of(b"roll=3\n" + text)


# Promises


class CountingWire(LineWire):
    posted = 0

    def post(self, sender, frame):
        self.posted += 1
        super().post(sender, frame)


class Promises:
    """Checks a ring after every line of a script."""

    def __init__(self):
        self.posted = 0

    def make_ring(self, n):
        return Ring(n, wire=CountingWire(n))

    def check(self, ring):
        assert ring.wire.posted - self.posted <= 11
        self.posted = ring.wire.posted
        for station in ring.stations:
            self.check_station(station)
        for one, other in itertools.combinations(ring.stations, 2):
            self.check_firm_parts(one, other)
            self.check_journals(one, other)

    def check_station(self, station):
        assert station.firm <= station.length <= 256
        assert all(place <= station.length for place in station.known.values())
        assert len(station.outbox) <= 16
        if station.state is State.RUNNING:
            assert station.newest_view & bit(station.number)

    def check_firm_parts(self, one, other):
        """One begins the other; equally long ones give equal books."""
        firm = min(one.firm, other.firm)
        assert one.journal[:firm] == other.journal[:firm]
        if one.firm == other.firm:
            assert one.book == other.book

    def check_journals(self, one, other):
        """An entry of one turn at one place: all before it agrees too."""
        for place in range(min(one.length, other.length), 0, -1):
            if one.turn_at(place) == other.turn_at(place):
                assert one.journal[:place] == other.journal[:place]
                return


def check_book(station):
    """The book is the firm part's notes, given in order to an empty book."""
    book = EntryBook()
    for entry in station.journal[:station.firm]:
        if isinstance(entry.content, Note):
            book.give(entry.content)
    assert book == station.book


def memory(ring):
    """All that a ring remembers."""
    return [ring.next_turn, [list(line) for line in ring.wire.lines]] + [
        (s.state, list(s.journal), s.firm, list(s.outbox), dict(s.heard), dict(s.known),
         dict(s.wishes), deepcopy(s.book)) for s in ring.stations]


def check_refusals_change_nothing(text):
    if len(text) > rules.SCRIPT_BYTES:
        return
    lines = rules.lines_of(text)
    try:
        ring = rules.ring_of(lines[0])
    except Refused:
        return
    for line in lines[1:200]:
        before = memory(ring)
        if rules.perform_line(ring, line):
            assert memory(ring) == before, line


def check_scripts(count, first):
    for kind in KINDS:
        for seed in range(first, first + count):
            text = script(kind, seed)
            try:
                promises = Promises()
                ring, refusals = perform(text, promises.make_ring, promises.check)
                if ring:
                    for station in ring.stations:
                        check_book(station)
                pooled = perform(text, lambda n: Ring(n, wire=PoolWire(n)))
                assert list(print_lines(*pooled)) == list(print_lines(ring, refusals))
                if seed < first + 3:
                    check_refusals_change_nothing(text)
            except AssertionError:
                print(f"broken by generate.py {kind} {seed}")
                raise


def main(count, first):
    started = time.perf_counter()
    checks = [check for name, check in globals().items()
              if name.startswith("check_") and check.__code__.co_argcount == 0]
    for check in checks:
        check()
    check_scripts(count, first)
    print(f"{len(checks)} checks and {count * len(KINDS)} scripts hold, "
          f"{time.perf_counter() - started:.1f} s")


if __name__ == "__main__":
    main(int(sys.argv[1]) if len(sys.argv) > 1 else 10,
         int(sys.argv[2]) if len(sys.argv) > 2 else 0)
