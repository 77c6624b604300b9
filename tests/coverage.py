"""Shows what the scripts of each kind reach.

    python3 coverage.py [COUNT] [FIRST SEED]

performs COUNT seeds of each kind and prints for every case of the rules how
many scripts reach it, by kind. Cases that none reaches are listed at the end.
`cases_of` gives the cases of one script.
"""

import sys
import time
from collections import Counter

from generate import KINDS, script
from ring import (ACCEPTED, JOURNAL_PLACES, LINE_PLACES, MOST_SAID, NOTE_LIMIT,
                  POOL_PLACES, SCRIPT_BYTES, EntryBook, LineWire, Ring, State,
                  Station, View, bit, command_of, lines_of, perform)

OUT_STATES = [state.value for state in State if state.out]


def span(number):
    """A count as a word: 0, 1 to 7, 8, more."""
    return "0" if number == 0 else "1 to 7" if number < 8 else "8" if number == 8 else "over 8"


def side(number, other):
    return "under" if number < other else "at" if number == other else "over"


class WatchedBook(EntryBook):
    def __init__(self, seen):
        super().__init__()
        self.seen = seen

    def give(self, note):
        verdict = super().give(note)
        self.seen.add(f"verdict {verdict}")
        if verdict == 1:
            for figure in "bcd":
                if self.verdict(note._replace(**{figure: 0 if figure > "b" else 1})) == 0:
                    self.seen.add(f"malformed by {figure} alone, a={note.a}")
        if verdict == 0:
            self.seen.add(f"taken a={note.a}")
            self.seen.add(f"entries {len(self.entries)}" if len(self.entries) == 32
                          else "entries under 32")
            if note.a == self.CLOSE:
                entry = self.entries[note.b]
                insured = "without" if entry.insurance is None else "with"
                self.seen.add(f"closed {insured} insurance")
                if entry.duty in (0, 3_000_000_000):
                    self.seen.add(f"duty {entry.duty}")
                if (entry.price + entry.freight + (entry.insurance or 0)) * entry.rate % 10_000:
                    self.seen.add("duty rounded down")
        return verdict


class WatchedWire(LineWire):
    def __init__(self, n, seen):
        super().__init__(n)
        self.seen = seen

    def post(self, sender, frame):
        counts = [len(line) for s, line in enumerate(self.lines) if s != sender]
        if LINE_PLACES in counts:
            self.seen.add("wire: frame lost at all lines" if min(counts) == LINE_PLACES
                          else "wire: frame lost at some lines")
        super().post(sender, frame)
        if max(map(len, self.lines)) == LINE_PLACES:
            self.seen.add("wire: line of 32")
        if sum(map(len, self.lines)) == POOL_PLACES:
            frames = {id(frame) for line in self.lines for frame in line}
            if len(frames) == POOL_PLACES:
                self.seen.add("wire: 256 frames")


class WatchedStation(Station):
    def __init__(self, number, n, rule, wire, book):
        super().__init__(number, n, rule, wire, book)
        self.seen = book.seen

    def settle(self):
        firm = self.firm
        super().settle()
        if self.firm > firm:
            self.seen.add(f"settled more, {self.state.value}")
        if not self.state.out and not self.newest_view & bit(self.number):
            self.seen.add("settled under a view without itself")

    def enter(self):
        firm = self.firm
        super().enter()
        if self.firm > firm:
            self.seen.add("settled more on entering")

    def take_entry(self, frame):
        state, length, known = self.state, self.length, self.known[frame.sender]
        case = super().take_entry(frame)
        name = f"entry case {case}, {state.value}"
        if case == 4:
            name += ", other turn" if frame.entry.place <= length else ", other turn before"
        self.seen.add(name)
        if case == 1 and frame.entry.place != known:
            self.seen.add("entry case 1, known place " +
                          ("lower" if known < frame.entry.place else "higher"))
        if case == 2 and isinstance(frame.entry.content, View):
            self.seen.add(f"view taken, {state.value} to {self.state.value}")
        return case

    def take_heartbeat(self, frame):
        state, length, place = self.state, self.length, frame.end.place
        matches = "matches" if self.matches(frame.end) else "does not match"
        super().take_heartbeat(frame)
        self.seen.add(f"heartbeat {side(place, length)} length, {matches}, {state.value}")

    def take_join(self, frame):
        matches = "matches" if self.matches(frame.end) else "does not match"
        older = frame.sender in self.wishes
        state = self.state
        super().take_join(frame)
        self.seen.add(f"join {matches}, {state.value}")
        if older and state is State.RUNNING:
            self.seen.add("join in the place of an older wish")

    def putting_off(self, turn):
        length, view = self.length, self.newest_view
        super().putting_off(turn)
        if self.state.out:
            self.seen.add(f"putting off: {self.state.value}")
        elif self.length > length:
            collected = bin(view ^ self.newest_view).count("1")
            self.seen.add(f"putting off: view without {collected}")
        else:
            self.seen.add("putting off: none")
            if view != (1 << self.n) - 1:
                self.seen.add("putting off: none, smaller view")

    def letting_in(self, turn):
        if not self.wishes:
            self.seen.add("letting in: no wish")
        fit = 0
        for station, end in self.wishes.items():
            if self.fit(station, end):
                fit += 1
            elif not self.matches(end):
                self.seen.add("letting in: end does not match")
            else:
                self.seen.add("letting in: another is next")
        if fit > 1:
            self.seen.add("letting in: several fit")
        return super().letting_in(turn)

    def serve(self, turn, station, end):
        length, view = self.length, self.newest_view
        lacking = length - end.place
        again = min(lacking, 8)
        super().serve(turn, station, end)
        if self.length > length:
            what = "view"
            self.seen.add("let in: " + ("member before" if view & bit(station) else "not a member"))
        else:
            what = "no view, full" if lacking <= 8 else "no view, more to send"
            if self.outbox:
                self.seen.add("letting in: no view, notes wait")
        self.seen.add(f"letting in: sent {span(again)}, {what}")

    def passing(self, token):
        if self.state is State.RUNNING:
            self.seen.add(f"said {token.said}" + (", wish served" if token.wish_served else ""))
            if self.outbox and token.wish_served:
                self.seen.add("said none for the wish, notes wait")
            elif self.outbox and self.length >= NOTE_LIMIT and token.said < MOST_SAID:
                self.seen.add("said to the limit of 240" if token.said else
                              "said none at 240 or over")
        super().passing(token)


class WatchedRing(Ring):
    def __init__(self, n, seen):
        self.seen = seen
        self.cause = {}
        super().__init__(n, wire=WatchedWire(n, seen), book=lambda: WatchedBook(seen),
                         station=WatchedStation)

    def watch(self, call, *args):
        before = [station.state for station in self.stations]
        answer = getattr(super(), call)(*args)
        self.seen.add(f"{call} {answer}")
        for s, (old, new) in enumerate(zip(before, (x.state for x in self.stations))):
            if old is not new:
                self.seen.add(f"{old.value} to {new.value}")
                if new.out:
                    self.cause[s] = new.value
                elif new is State.RUNNING:
                    self.seen.add(f"let in again after {self.cause[s]}")
        return answer

    def note(self, s, note):
        return self.watch("note", s, note)

    def turn(self):
        owner = self.stations[(self.next_turn - 1) % self.n]
        state = "out" if owner.state.out else owner.state.value
        posted = CountingPosts(self.wire)
        answer = self.watch("turn")
        posted.end()
        self.seen.add(f"turn of {state}")
        self.seen.add(f"turn posts {posted.count}")
        return answer

    def take(self, s):
        return self.watch("take", s)

    def lose(self, s):
        return self.watch("lose", s)

    def stop(self, s):
        return self.watch("stop", s)

    def enter(self, s):
        return self.watch("enter", s)


class CountingPosts:
    """Counts the frames posted to a wire until its end is called."""

    def __init__(self, wire):
        self.count = 0
        self.wire = wire
        post = wire.post

        def counting(sender, frame):
            self.count += 1
            post(sender, frame)

        wire.post = counting

    def end(self):
        del self.wire.post


def length_case(length):
    if length in (0, NOTE_LIMIT, JOURNAL_PLACES):
        return f"length {length}"
    return "length 1 to 239" if length < NOTE_LIMIT else "length 241 to 255"


def cases_of(text):
    """The cases that a script reaches."""
    seen = set()
    ring, refusals = perform(text, lambda n: WatchedRing(n, seen))
    for line, number in refusals:
        seen.add(f"refused {number}")
        if line < 2:
            seen.add(f"line {line} refused {number}")
    if len(text) == SCRIPT_BYTES:
        seen.add("text of 16384 bytes")
    if not text.endswith(b"\n"):
        seen.add("text without a last newline")
    if ring:
        seen.add(f"roll {ring.n}")
        if any((command_of(line) or ("",))[0] == "roll" for line in lines_of(text)[1:]):
            seen.add("later line roll")
        for station in ring.stations:
            seen.add(f"ends {station.state.value}")
            seen.add(length_case(station.length))
            seen.add("firm under length" if station.firm < station.length else "firm at length")
    return seen


def listed(pattern, *values):
    return [pattern.format(value) for value in values]


# Every case that a script can reach, in the order of the print.
CASES = {
    "refusals": listed("refused {}", 1, 2, 3, 5, 6, 7, 10, 11, 12)
    + ["line 0 refused 12", "line 1 refused 7", "line 1 refused 10", "line 1 refused 11",
       "later line roll", "text of 16384 bytes", "text without a last newline"],
    "calls": listed("note {}", 0, 1, 2, 3) + ["turn 0"] + listed("take {}", 0, 1, 2, 5)
    + listed("lose {}", 0, 1, 5) + listed("stop {}", 0, 1, 2) + listed("enter {}", 0, 1, 6),
    "rolls": listed("roll {}", *range(1, 9)),
    "states at the end": listed("ends {}", *(state.value for state in State)),
    "changes": listed("running to {}", *OUT_STATES) + ["joining to out-stopped"]
    + listed("{} to joining", *OUT_STATES)
    + ["joining to running"]
    # After out-full there is no place for a view that lets the station in.
    + listed("let in again after {}", *OUT_STATES[:-1]),
    "journals": ["length 0", "length 1 to 239", "length 240", "length 241 to 255", "length 256",
                 "firm under length", "firm at length", "settled more, running",
                 "settled more, joining", "settled more on entering",
                 "settled under a view without itself"],
    "entries": ["entry case 1, running", "entry case 1, joining",
                "entry case 1, known place lower", "entry case 1, known place higher",
                "entry case 2, running", "entry case 2, joining",
                "entry case 3, running", "entry case 3, joining",
                "entry case 4, running, other turn", "entry case 4, joining, other turn",
                "entry case 4, running, other turn before",
                "entry case 4, joining, other turn before",
                "view taken, running to running", "view taken, running to out-putoff",
                "view taken, joining to running", "view taken, joining to joining"],
    "heartbeats": [f"heartbeat {where} length, {matches}, {state}"
                   for state in ("running", "joining")
                   for where, matches in (("under", "matches"), ("under", "does not match"),
                                          ("at", "matches"), ("at", "does not match"),
                                          ("over", "does not match"))],
    "joins": ["join matches, running", "join does not match, running",
              "join matches, joining", "join does not match, joining",
              "join in the place of an older wish"],
    "turns": listed("turn of {}", "running", "joining", "out")
    + listed("turn posts {}", *range(0, 12)),
    "putting off": ["putting off: none", "putting off: none, smaller view"]
    + listed("putting off: view without {}", 1, 2, 3)
    + ["putting off: out-outvoted", "putting off: out-full"],
    "letting in": ["letting in: no wish", "letting in: end does not match",
                   "letting in: another is next", "letting in: several fit"]
    + listed("letting in: sent {}, view", "0", "1 to 7", "8")
    + ["letting in: sent 8, no view, more to send"]
    + listed("letting in: sent {}, no view, full", "0", "1 to 7", "8")
    + ["letting in: no view, notes wait", "let in: not a member", "let in: member before"],
    "saying": listed("said {}", *range(0, 9))
    + ["said 0, wish served", "said none for the wish, notes wait",
       "said to the limit of 240", "said none at 240 or over"],
    "wire": ["wire: line of 32", "wire: frame lost at some lines",
             "wire: frame lost at all lines", "wire: 256 frames"],
    "book": listed("verdict {}", *range(0, 8)) + listed("taken a={}", 1, 2, 3, 4)
    + [f"malformed by {figure} alone, a={a}" for figure in "bcd" for a in (1, 2, 3, 4)]
    + ["closed with insurance", "closed without insurance", "duty 0", "duty 3000000000",
       "duty rounded down", "entries under 32", "entries 32"],
}


def main(count, first):
    started = time.perf_counter()
    by_kind = {kind: Counter() for kind in KINDS}
    for kind, reached in by_kind.items():
        for seed in range(first, first + count):
            reached.update(cases_of(script(kind, seed)))
    print(f"{'case':50}" + "".join(f"{kind:>9}" for kind in KINDS) + f"{'all':>9}")
    missing = []
    for title, cases in CASES.items():
        print(f"\n{title}")
        for case in cases:
            counts = [by_kind[kind][case] for kind in KINDS]
            print(f"  {case:48}" + "".join(f"{n or '.':>9}" for n in counts + [sum(counts)]))
            if not sum(counts):
                missing.append(case)
    known = {case for cases in CASES.values() for case in cases}
    others = sorted(set().union(*by_kind.values()) - known)
    print(f"\n{count} scripts of each kind, {time.perf_counter() - started:.1f} s")
    print("not reached:", ", ".join(missing) or "nothing")
    print("not listed:", ", ".join(others) or "nothing")


if __name__ == "__main__":
    main(int(sys.argv[1]) if len(sys.argv) > 1 else 100,
         int(sys.argv[2]) if len(sys.argv) > 2 else 0)
