"""The declaration ring: voting, books, wires, stations, ring, script and print.

    python3 ring.py < SCRIPT

performs the script on a ring with the line wire, empty entry books and the
rule by heads, and writes its print. `print_of` does the same for bytes.
"""

import re
import sys
from collections import deque
from dataclasses import dataclass
from enum import Enum
from typing import NamedTuple, Optional, Union

MOST_STATIONS = 8
LAST_TURN = 1_000_000
JOURNAL_PLACES = 256
NOTE_LIMIT = 240        # notes are said while the length is under this
OUTBOX_PLACES = 16
LINE_PLACES = 32
POOL_PLACES = 256
MOST_SENT_AGAIN = 8     # entries sent again for one wish
MOST_SAID = 8           # notes said in one turn
SCRIPT_BYTES = 16_384
LARGEST_NUMBER = 4_294_967_295

# Refusals. Those of lent memory (8 and 13) have no place here.
ACCEPTED = 0
OFF_ROLL = 1
IS_OUT = 2
OUTBOX_FULL = 3
WRONG_TURN = 4
LINE_EMPTY = 5
NOT_OUT = 6
BAD_ROLL = 7
BAD_WEIGHT = 9
MISSHAPEN = 10
COMMAND_FIRST = 11
TOO_LONG = 12


class Refused(Exception):
    """A refusal by something that answers no number, as making does."""

    def __init__(self, number):
        super().__init__(f"refused={number}")
        self.number = number


def check_roll(n):
    if not 1 <= n <= MOST_STATIONS:
        raise Refused(BAD_ROLL)


def bit(station):
    """The mask of one station."""
    return 1 << station


def whole_roll(n):
    """The mask of all stations of the roll."""
    return (1 << n) - 1


def stations_of(mask):
    """The stations of a mask, by number."""
    return [s for s in range(mask.bit_length()) if mask & bit(s)]


# Voting


class ByHeads:
    """A set has the vote if it is more than half of the stations."""

    def __init__(self, n):
        check_roll(n)
        self.n = n

    def has_vote(self, mask):
        return mask <= whole_roll(self.n) and 2 * len(stations_of(mask)) > self.n


class ByWeight:
    """A set has the vote if it weighs more than half of the whole weight."""

    def __init__(self, weights):
        check_roll(len(weights))
        if max(weights) > 100 or sum(weights) == 0:
            raise Refused(BAD_WEIGHT)
        self.weights = list(weights)

    def has_vote(self, mask):
        if mask > whole_roll(len(self.weights)):
            return False
        return 2 * sum(self.weights[s] for s in stations_of(mask)) > sum(self.weights)


# Notes and books


class Note(NamedTuple):
    a: int
    b: int
    c: int
    d: int


BOOK_PLACES = 32
LARGEST_ENTRY = 9_999_999
MOST_CENTS = 1_000_000_000
HIGHEST_RATE = 10_000

TAKEN = 0
MALFORMED = 1


@dataclass
class BookEntry:
    """An entry of the entry book. Amounts not given are None."""

    number: int
    price: int
    rate: int
    freight: Optional[int] = None
    insurance: Optional[int] = None
    duty: Optional[int] = None


class EntryBook:
    OPEN, FREIGHT, INSURANCE, CLOSE = 1, 2, 3, 4
    OPENED_BEFORE, NO_PLACE, UNKNOWN_ENTRY, CLOSED, GIVEN_BEFORE, NO_FREIGHT = range(2, 8)

    def __init__(self):
        self.entries = {}       # by number, in the order of opening

    def __eq__(self, other):
        return list(self.entries.values()) == list(other.entries.values())

    def give(self, note):
        """Give the book a note; answers the verdict."""
        verdict = self.verdict(note)
        if verdict == TAKEN:
            self.take(note)
        return verdict

    def verdict(self, note):
        """The first verdict of the list that applies."""
        if not self.well_formed(note):
            return MALFORMED
        if note.a == self.OPEN:
            return self.verdict_on_opening(note.b)
        return self.verdict_on_standing(note.a, self.entries.get(note.b))

    def well_formed(self, note):
        if not 1 <= note.b <= LARGEST_ENTRY:
            return False
        if note.a == self.OPEN:
            return note.c <= MOST_CENTS and note.d <= HIGHEST_RATE
        if note.a in (self.FREIGHT, self.INSURANCE):
            return note.c <= MOST_CENTS and note.d == 0
        return note.a == self.CLOSE and note.c == 0 and note.d == 0

    def verdict_on_opening(self, number):
        if number in self.entries:
            return self.OPENED_BEFORE
        if len(self.entries) == BOOK_PLACES:
            return self.NO_PLACE
        return TAKEN

    def verdict_on_standing(self, a, entry):
        if entry is None:
            return self.UNKNOWN_ENTRY
        if entry.duty is not None:
            return self.CLOSED
        if a == self.FREIGHT and entry.freight is not None:
            return self.GIVEN_BEFORE
        if a == self.INSURANCE and entry.insurance is not None:
            return self.GIVEN_BEFORE
        if a == self.CLOSE and entry.freight is None:
            return self.NO_FREIGHT
        return TAKEN

    def take(self, note):
        if note.a == self.OPEN:
            self.entries[note.b] = BookEntry(note.b, price=note.c, rate=note.d)
            return
        entry = self.entries[note.b]
        if note.a == self.FREIGHT:
            entry.freight = note.c
        elif note.a == self.INSURANCE:
            entry.insurance = note.c
        else:
            value = entry.price + entry.freight + (entry.insurance or 0)
            entry.duty = value * entry.rate // 10_000


class ClaimBook:
    CLAIM, RELEASE = 1, 2
    CLAIMED, NO_PLACE, NOT_HELD = range(2, 5)

    def __init__(self):
        self.places = [None] * BOOK_PLACES      # (file, station), or None if free

    def __eq__(self, other):
        return self.places == other.places

    def give(self, note):
        """Give the book a note; answers the verdict."""
        verdict = self.verdict(note)
        if verdict == TAKEN:
            claim = (note.b, note.c)
            if note.a == self.CLAIM:
                self.places[self.places.index(None)] = claim
            else:
                self.places[self.places.index(claim)] = None
        return verdict

    def verdict(self, note):
        well_formed = (note.a in (self.CLAIM, self.RELEASE)
                       and 1 <= note.b <= LARGEST_ENTRY
                       and note.c < MOST_STATIONS and note.d == 0)
        if not well_formed:
            return MALFORMED
        if note.a == self.RELEASE:
            return TAKEN if (note.b, note.c) in self.places else self.NOT_HELD
        if any(claim and claim[0] == note.b for claim in self.places):
            return self.CLAIMED
        return TAKEN if None in self.places else self.NO_PLACE


# Wires


class LineWire:
    """A line of frames for each station."""

    def __init__(self, n):
        check_roll(n)
        self.lines = [deque() for _ in range(n)]

    def post(self, sender, frame):
        self.line(sender)
        for station, line in enumerate(self.lines):
            if station != sender and len(line) < LINE_PLACES:
                line.append(frame)

    def take(self, station):
        """The oldest frame of the line, or None."""
        line = self.line(station)
        return line.popleft() if line else None

    def clear(self, station):
        self.line(station).clear()

    def count(self, station):
        return len(self.line(station))

    def line(self, station):
        if not 0 <= station < len(self.lines):
            raise Refused(OFF_ROLL)
        return self.lines[station]


class PoolWire:
    """Each frame once, with the mask of the stations that it waits for."""

    def __init__(self, n):
        check_roll(n)
        self.n = n
        self.pool = []          # [frame, mask], in the order of posting

    def post(self, sender, frame):
        self.waiting(sender)
        mask = sum(bit(s) for s in range(self.n)
                   if s != sender and self.count(s) < LINE_PLACES)
        if mask:
            self.pool.append([frame, mask])
            assert len(self.pool) <= POOL_PLACES

    def take(self, station):
        """The oldest frame that waits for the station, or None."""
        for place in self.waiting(station):
            self.release(place, station)
            return place[0]
        return None

    def clear(self, station):
        for place in self.waiting(station):
            self.release(place, station)

    def count(self, station):
        return len(self.waiting(station))

    def waiting(self, station):
        if not 0 <= station < self.n:
            raise Refused(OFF_ROLL)
        return [place for place in self.pool if place[1] & bit(station)]

    def release(self, place, station):
        place[1] &= ~bit(station)
        self.pool = [kept for kept in self.pool if kept[1]]


# Journal and frames


class View(NamedTuple):
    mask: int


class Entry(NamedTuple):
    place: int
    turn: int
    content: Union[Note, View]


class End(NamedTuple):
    place: int
    turn: int


NO_END = End(0, 0)


class EntryFrame(NamedTuple):
    sender: int
    entry: Entry
    turn_before: int


class Heartbeat(NamedTuple):
    sender: int
    end: End


class JoinFrame(NamedTuple):
    sender: int
    end: End


class State(Enum):
    """The states, as they are printed."""

    RUNNING = "running"
    JOINING = "joining"
    STOPPED = "out-stopped"
    GAP = "out-gap"
    PUT_OFF = "out-putoff"
    OUTVOTED = "out-outvoted"
    FULL = "out-full"

    @property
    def out(self):
        return self not in (State.RUNNING, State.JOINING)


@dataclass
class Token:
    """What opening a turn gives, and saying and passing use."""

    station: int
    turn: int
    wish_served: bool = False
    said: int = 0


class Station:
    def __init__(self, number, n, rule, wire, book):
        self.number = number
        self.n = n
        self.rule = rule
        self.wire = wire
        self.book = book
        self.state = State.RUNNING
        self.journal = []
        self.firm = 0
        self.outbox = deque()
        others = [s for s in range(n) if s != number]
        self.heard = dict.fromkeys(others, True)
        self.known = dict.fromkeys(others, 0)
        self.wishes = {}        # the end wished from, by station

    # The journal

    @property
    def length(self):
        return len(self.journal)

    @property
    def end(self):
        return End(self.length, self.turn_at(self.length))

    @property
    def newest_view(self):
        for entry in reversed(self.journal):
            if isinstance(entry.content, View):
                return entry.content.mask
        return whole_roll(self.n)

    def turn_at(self, place):
        """The turn of the entry at a place of the journal; 0 at place 0."""
        return self.journal[place - 1].turn if place else 0

    def has(self, place, turn):
        """Whether the journal has an entry of that turn at that place."""
        return 1 <= place <= self.length and self.turn_at(place) == turn

    def matches(self, end):
        return end == NO_END or self.has(*end)

    def settle(self):
        if self.state.out:
            return
        members = stations_of(self.newest_view)
        sure = min([self.length] + [self.known[s] for s in members if s != self.number])
        for entry in self.journal[self.firm:sure]:
            if isinstance(entry.content, Note):
                self.book.give(entry.content)
        self.firm = max(self.firm, sure)

    # Taking a frame

    def take(self, frame):
        if not self.ignores(frame):
            if isinstance(frame, EntryFrame):
                self.take_entry(frame)
            elif isinstance(frame, Heartbeat):
                self.take_heartbeat(frame)
            else:
                self.take_join(frame)
        self.settle()

    def ignores(self, frame):
        """Whether every station would ignore the frame."""
        if frame.sender not in self.known:
            return True
        if isinstance(frame, EntryFrame):
            place, turn, content = frame.entry
            if isinstance(content, View) and not self.rule.has_vote(content.mask):
                return True
        else:
            if frame.end == NO_END:
                return False
            place, turn = frame.end
        return not (1 <= place <= JOURNAL_PLACES and 1 <= turn <= LAST_TURN)

    def raise_known(self, sender, place):
        self.known[sender] = max(self.known[sender], place)

    def take_entry(self, frame):
        """Answers which of the four cases it was."""
        entry = frame.entry
        if self.has(entry.place, entry.turn):
            self.raise_known(frame.sender, entry.place)
            return 1
        if entry.place == self.length + 1 and frame.turn_before == self.end.turn:
            self.journal.append(entry)
            self.raise_known(frame.sender, entry.place)
            if isinstance(entry.content, View):
                self.take_view(entry.content.mask)
            return 2
        if entry.place > self.length + 1:
            if self.state is State.RUNNING:
                self.state = State.GAP
            return 3
        return 4

    def take_view(self, mask):
        member = bool(mask & bit(self.number))
        if self.state is State.RUNNING and not member:
            self.state = State.PUT_OFF
        elif self.state is State.JOINING and member:
            self.state = State.RUNNING
            self.mark_all(heard=True)

    def take_heartbeat(self, frame):
        running = self.state is State.RUNNING
        if running and self.length < frame.end.place:
            self.state = State.GAP
        elif self.matches(frame.end):
            self.raise_known(frame.sender, frame.end.place)
            if running and frame.end.place == self.length:
                self.heard[frame.sender] = True

    def take_join(self, frame):
        if self.state is not State.RUNNING:
            return
        self.wishes[frame.sender] = frame.end
        if self.matches(frame.end):
            self.raise_known(frame.sender, frame.end.place)

    def mark_all(self, heard):
        for station in self.heard:
            self.heard[station] = heard

    # A turn

    def opening(self, turn):
        """Steps 1 and 2. Gives the token of the turn."""
        due = (1 <= turn <= LAST_TURN
               and (turn - 1) % self.n == self.number
               and turn > self.end.turn)
        if not due:
            raise Refused(WRONG_TURN)
        token = Token(self.number, turn)
        if self.state is State.RUNNING:
            self.putting_off(turn)
        if self.state is State.RUNNING:
            token.wish_served = self.letting_in(turn)
        return token

    def saying(self, token):
        """Step 3 for one note. Tells whether one was due."""
        due = (self.accepts(token)
               and self.state is State.RUNNING
               and not token.wish_served
               and token.said < MOST_SAID
               and self.length < NOTE_LIMIT
               and bool(self.outbox))
        if due:
            token.said += 1
            self.append(token.turn, self.outbox.popleft())
        return due

    def passing(self, token):
        """Step 4, or the join frame."""
        if not self.accepts(token):
            return
        if self.state is State.RUNNING:
            self.post(Heartbeat(self.number, self.end))
            self.mark_all(heard=False)
            self.wishes.clear()
        elif self.state is State.JOINING:
            self.post(JoinFrame(self.number, self.end))
        self.settle()

    def accepts(self, token):
        return token.station == self.number and token.turn >= self.end.turn

    def putting_off(self, turn):
        view = self.newest_view
        left = view
        for station in self.going_back():
            if view & bit(station):
                if self.heard[station]:
                    break
                left &= ~bit(station)
        if left == view:
            return
        if not self.rule.has_vote(left):
            self.state = State.OUTVOTED
        elif self.length == JOURNAL_PLACES:
            self.state = State.FULL
        else:
            self.append(turn, View(left))

    def letting_in(self, turn):
        """Tells whether a wish was served."""
        for station in self.going_back():
            if station in self.wishes and self.fit(station, self.wishes[station]):
                self.serve(turn, station, self.wishes[station])
                return True
        return False

    def fit(self, station, end):
        return self.matches(end) and self.next_other_member(station) == self.number

    def next_other_member(self, station):
        """The first member of the newest view after the station, going on."""
        view = self.newest_view
        for step in range(1, self.n):
            after = (station + step) % self.n
            if view & bit(after):
                return after
        return None

    def serve(self, turn, station, end):
        lacking = self.journal[end.place:]
        for entry in lacking[:MOST_SENT_AGAIN]:
            self.post_entry(entry)
        if len(lacking) <= MOST_SENT_AGAIN and self.length < JOURNAL_PLACES:
            self.append(turn, View(self.newest_view | bit(station)))

    def going_back(self):
        """The other stations, going back round the roll."""
        return [(self.number - step) % self.n for step in range(1, self.n)]

    def append(self, turn, content):
        """Append a new entry and post it."""
        entry = Entry(self.length + 1, turn, content)
        self.journal.append(entry)
        self.post_entry(entry)

    def post_entry(self, entry):
        self.post(EntryFrame(self.number, entry, self.turn_at(entry.place - 1)))

    def post(self, frame):
        self.wire.post(self.number, frame)

    def enter(self):
        self.state = State.JOINING
        self.wire.clear(self.number)
        self.wishes.clear()
        self.settle()


# The ring


class Ring:
    """The six calls. Each answers 0, or the number of its refusal."""

    def __init__(self, n, rule=None, wire=None, book=EntryBook, station=Station):
        check_roll(n)
        self.n = n
        self.wire = wire or LineWire(n)
        rule = rule or ByHeads(n)
        self.stations = [station(s, n, rule, self.wire, book()) for s in range(n)]
        self.next_turn = 1

    def note(self, s, note):
        if s >= self.n:
            return OFF_ROLL
        station = self.stations[s]
        if station.state.out:
            return IS_OUT
        if len(station.outbox) == OUTBOX_PLACES:
            return OUTBOX_FULL
        station.outbox.append(note)
        return ACCEPTED

    def turn(self):
        if self.next_turn > LAST_TURN:
            return WRONG_TURN
        owner = self.stations[(self.next_turn - 1) % self.n]
        token = owner.opening(self.next_turn)
        while owner.saying(token):
            pass
        owner.passing(token)
        self.next_turn += 1
        return ACCEPTED

    def take(self, s):
        if s >= self.n:
            return OFF_ROLL
        if self.stations[s].state.out:
            return IS_OUT
        frame = self.wire.take(s)
        if frame is None:
            return LINE_EMPTY
        self.stations[s].take(frame)
        return ACCEPTED

    def lose(self, s):
        if s >= self.n:
            return OFF_ROLL
        return LINE_EMPTY if self.wire.take(s) is None else ACCEPTED

    def stop(self, s):
        if s >= self.n:
            return OFF_ROLL
        if self.stations[s].state.out:
            return IS_OUT
        self.stations[s].state = State.STOPPED
        return ACCEPTED

    def enter(self, s):
        if s >= self.n:
            return OFF_ROLL
        if not self.stations[s].state.out:
            return NOT_OUT
        self.stations[s].enter()
        return ACCEPTED


# Script and print


class Command(NamedTuple):
    """A well-shaped line: its word and its numbers."""

    word: str
    numbers: tuple


NUMBER = rb"(0|[1-9][0-9]{0,9})"
FORMS = {
    "roll": re.compile(rb"roll=" + NUMBER),
    "note": re.compile(rb"do=note at=%b a=%b b=%b c=%b d=%b" % ((NUMBER,) * 5)),
    "turn": re.compile(rb"do=turn"),
    "take": re.compile(rb"do=take at=" + NUMBER),
    "lose": re.compile(rb"do=lose at=" + NUMBER),
    "stop": re.compile(rb"do=stop at=" + NUMBER),
    "enter": re.compile(rb"do=enter at=" + NUMBER),
}


def lines_of(script):
    """The lines of a script, without their ends."""
    if script.endswith(b"\n"):
        script = script[:-1]
    return script.split(b"\n")


def command_of(line):
    """The command of a line, or None if it is misshapen."""
    for word, form in FORMS.items():
        match = form.fullmatch(line)
        if match:
            numbers = tuple(int(digits) for digits in match.groups())
            if all(number <= LARGEST_NUMBER for number in numbers):
                return Command(word, numbers)
    return None


def perform_line(ring, line):
    """Perform a line after the first; answers 0 or its refusal."""
    command = command_of(line)
    if command is None or command.word == "roll":
        return MISSHAPEN
    if command.word == "turn":
        return ring.turn()
    if command.word == "note":
        at, a, b, c, d = command.numbers
        return ring.note(at, Note(a, b, c, d))
    call = {"take": ring.take, "lose": ring.lose,
            "stop": ring.stop, "enter": ring.enter}[command.word]
    return call(*command.numbers)


def ring_of(first_line, make_ring=Ring):
    """The ring that the first line asks for."""
    command = command_of(first_line)
    if command is None:
        raise Refused(MISSHAPEN)
    if command.word != "roll":
        raise Refused(COMMAND_FIRST)
    return make_ring(command.numbers[0])


def perform(script, make_ring=Ring, after_line=None):
    """Perform a script.

    Answers the ring, or None where the first line or the length is refused,
    and the refusals as pairs of line and number. After each line performed,
    `after_line` is given the ring.
    """
    if len(script) > SCRIPT_BYTES:
        return None, [(0, TOO_LONG)]
    lines = lines_of(script)
    try:
        ring = ring_of(lines[0], make_ring)
    except Refused as refused:
        return None, [(1, refused.number)]
    refusals = []
    for number, line in enumerate(lines[1:], start=2):
        refusal = perform_line(ring, line)
        if refusal != ACCEPTED:
            refusals.append((number, refusal))
        if after_line:
            after_line(ring)
    return ring, refusals


def entry_line(entry):
    head = f"place={entry.place} turn={entry.turn}"
    if isinstance(entry.content, View):
        return f"{head} kind=view mask={entry.content.mask}"
    a, b, c, d = entry.content
    return f"{head} kind=note a={a} b={b} c={c} d={d}"


def book_line(entry):
    freight, insurance, duty = ("none" if amount is None else amount for amount in
                                (entry.freight, entry.insurance, entry.duty))
    return (f"entry={entry.number} price={entry.price} rate={entry.rate} "
            f"freight={freight} insurance={insurance} duty={duty}")


def station_lines(station):
    yield (f"station={station.number} state={station.state.value} "
           f"firm={station.firm} length={station.length}")
    yield from map(entry_line, station.journal)
    yield from map(book_line, station.book.entries.values())


def print_lines(ring, refusals):
    for line, number in refusals:
        yield f"line={line} refused={number}"
    if ring:
        for station in ring.stations:
            yield from station_lines(station)


def print_of(script: bytes) -> bytes:
    """What the script prints."""
    lines = print_lines(*perform(script))
    return "".join(line + "\n" for line in lines).encode("ascii")


if __name__ == "__main__":
    sys.stdout.buffer.write(print_of(sys.stdin.buffer.read()))
