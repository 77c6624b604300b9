//! A station: what it does with frames, and in its turn.

use crate::book::EntryBook;
use crate::protocol::*;
use crate::wire::LineWire;
use std::collections::VecDeque;

#[derive(Clone, Copy, Debug, PartialEq, Eq)]
pub enum Cause {
    Stopped,
    Gap,
    PutOff,
    Outvoted,
    Full,
}

#[derive(Clone, Copy, Debug, PartialEq, Eq)]
pub enum State {
    Running,
    Joining,
    Out(Cause),
}

impl State {
    pub fn is_out(self) -> bool {
        matches!(self, State::Out(_))
    }
}

/// What a station keeps of another one.
#[derive(Clone, Copy, Debug)]
struct Peer {
    heard: bool,
    known: u16,
    wish: Option<End>,
}

#[derive(Debug)]
pub struct Station {
    me: u8,
    rule: Heads,
    state: State,
    firm: usize,
    /// The newest view of the journal, or the whole roll.
    view: u8,
    journal: Vec<Entry>,
    peers: [Peer; MAX_STATIONS],
    outbox: VecDeque<Note>,
    book: EntryBook,
}

impl Station {
    pub fn new(me: u8, rule: Heads) -> Self {
        Self {
            me,
            rule,
            state: State::Running,
            firm: 0,
            view: rule.whole(),
            journal: Vec::with_capacity(JOURNAL_PLACES),
            peers: [Peer { heard: true, known: 0, wish: None }; MAX_STATIONS],
            outbox: VecDeque::with_capacity(OUTBOX_PLACES),
            book: EntryBook::default(),
        }
    }

    pub fn state(&self) -> State {
        self.state
    }

    pub fn firm(&self) -> usize {
        self.firm
    }

    pub fn journal(&self) -> &[Entry] {
        &self.journal
    }

    pub fn book(&self) -> &EntryBook {
        &self.book
    }

    pub fn note(&mut self, note: Note) -> Result<(), Refusal> {
        if self.state.is_out() {
            return Err(Refusal::IsOut);
        }
        if self.outbox.len() == OUTBOX_PLACES {
            return Err(Refusal::OutboxFull);
        }
        self.outbox.push_back(note);
        Ok(())
    }

    pub fn stop(&mut self) -> Result<(), Refusal> {
        if self.state.is_out() {
            return Err(Refusal::IsOut);
        }
        self.state = State::Out(Cause::Stopped);
        Ok(())
    }

    pub fn enter(&mut self) -> Result<(), Refusal> {
        if !self.state.is_out() {
            return Err(Refusal::NotOut);
        }
        self.state = State::Joining;
        for peer in &mut self.peers {
            peer.wish = None;
        }
        self.settle();
        Ok(())
    }

    /// Takes a frame; the station is not out.
    pub fn take(&mut self, frame: &Frame) {
        self.receive(frame);
        if !self.state.is_out() {
            self.settle();
        }
    }

    fn receive(&mut self, frame: &Frame) {
        match *frame {
            Frame::Entry { sender, entry, before } => {
                if self.is_other(sender) && self.is_lawful(&entry) {
                    self.take_entry(sender, entry, before);
                }
            }
            Frame::Heartbeat { sender, end } => {
                if self.is_other(sender) && is_end(end) {
                    self.take_heartbeat(sender, end);
                }
            }
            Frame::Join { sender, end } => {
                if self.is_other(sender) && is_end(end) && self.state == State::Running {
                    self.peers[usize::from(sender)].wish = Some(end);
                    if self.matches(end) {
                        self.raise(sender, end.place);
                    }
                }
            }
        }
    }

    fn take_entry(&mut self, sender: u8, entry: Entry, before: u32) {
        let place = usize::from(entry.place);
        let length = self.journal.len();
        if place <= length {
            if self.journal[place - 1].turn == entry.turn {
                self.raise(sender, entry.place);
            }
        } else if place > length + 1 {
            if self.state == State::Running {
                self.state = State::Out(Cause::Gap);
            }
        } else if before == self.end().turn {
            self.append(entry);
            self.raise(sender, entry.place);
            if let Body::View(mask) = entry.body {
                match (self.state, contains(mask, self.me)) {
                    (State::Running, false) => self.state = State::Out(Cause::PutOff),
                    (State::Joining, true) => {
                        self.state = State::Running;
                        for peer in &mut self.peers {
                            peer.heard = true;
                        }
                    }
                    _ => {}
                }
            }
        }
    }

    fn take_heartbeat(&mut self, sender: u8, end: End) {
        let place = usize::from(end.place);
        let running = self.state == State::Running;
        if running && place > self.journal.len() {
            self.state = State::Out(Cause::Gap);
        } else if self.matches(end) {
            self.raise(sender, end.place);
            if running && place == self.journal.len() {
                self.peers[usize::from(sender)].heard = true;
            }
        }
    }

    /// Performs turn t, which is this station's.
    pub fn turn(&mut self, wire: &mut LineWire, t: u32) {
        if self.state == State::Running {
            self.put_off(wire, t);
        }
        match self.state {
            State::Running => {
                if let Some((station, place)) = self.wish_to_serve() {
                    self.serve(wire, t, station, place);
                } else {
                    self.say_notes(wire, t);
                }
                wire.post(self.me, Frame::Heartbeat { sender: self.me, end: self.end() });
                for peer in &mut self.peers {
                    peer.heard = false;
                    peer.wish = None;
                }
            }
            State::Joining => wire.post(self.me, Frame::Join { sender: self.me, end: self.end() }),
            State::Out(_) => return,
        }
        self.settle();
    }

    /// Puts off the members not heard, going back up to the first one heard.
    fn put_off(&mut self, wire: &mut LineWire, t: u32) {
        let mut gone = 0;
        for station in self.others_back() {
            if contains(self.view, station) {
                if self.peers[usize::from(station)].heard {
                    break;
                }
                gone |= 1 << station;
            }
        }
        if gone == 0 {
            return;
        }
        let rest = self.view & !gone;
        if !self.rule.has_vote(rest) {
            self.state = State::Out(Cause::Outvoted);
        } else if self.journal.len() == JOURNAL_PLACES {
            self.state = State::Out(Cause::Full);
        } else {
            self.say(wire, t, Body::View(rest));
        }
    }

    /// The nearest fit wish going back: whose it is, and the place after which it asks for entries.
    fn wish_to_serve(&self) -> Option<(u8, usize)> {
        if self.peers.iter().all(|peer| peer.wish.is_none()) {
            return None;
        }
        self.others_back().find_map(|station| {
            let end = self.peers[usize::from(station)].wish?;
            (self.matches(end) && self.next_member(station) == Some(self.me))
                .then_some((station, usize::from(end.place)))
        })
    }

    /// The first member met going on round the roll from a station, which itself does not count.
    fn next_member(&self, station: u8) -> Option<u8> {
        let roll = self.rule.roll();
        (1..roll).map(|k| (station + k) % roll).find(|&s| contains(self.view, s))
    }

    fn serve(&mut self, wire: &mut LineWire, t: u32, station: u8, place: usize) {
        let length = self.journal.len();
        let to = length.min(place + RESENT_PER_TURN);
        let mut before = place.checked_sub(1).map_or(0, |last| self.journal[last].turn);
        for &entry in &self.journal[place..to] {
            wire.post(self.me, Frame::Entry { sender: self.me, entry, before });
            before = entry.turn;
        }
        if to == length && length < JOURNAL_PLACES {
            self.say(wire, t, Body::View(self.view | 1 << station));
        }
    }

    fn say_notes(&mut self, wire: &mut LineWire, t: u32) {
        for _ in 0..NOTES_PER_TURN {
            if self.journal.len() >= NOTE_ROOM {
                break;
            }
            let Some(note) = self.outbox.pop_front() else {
                break;
            };
            self.say(wire, t, Body::Note(note));
        }
    }

    /// Appends an entry and posts it.
    fn say(&mut self, wire: &mut LineWire, t: u32, body: Body) {
        let End { place, turn: before } = self.end();
        let entry = Entry { place: place + 1, turn: t, body };
        self.append(entry);
        wire.post(self.me, Frame::Entry { sender: self.me, entry, before });
    }

    fn append(&mut self, entry: Entry) {
        if let Body::View(mask) = entry.body {
            self.view = mask;
        }
        self.journal.push(entry);
    }

    /// Works the firm count out again, and gives newly firm notes to the book.
    fn settle(&mut self) {
        let mut least = self.journal.len();
        for (station, peer) in (0..self.rule.roll()).zip(&self.peers) {
            if station != self.me && contains(self.view, station) {
                least = least.min(usize::from(peer.known));
            }
        }
        if least > self.firm {
            for entry in &self.journal[self.firm..least] {
                if let Body::Note(note) = entry.body {
                    self.book.give(note);
                }
            }
            self.firm = least;
        }
    }

    /// The other stations of the roll, going back from this one.
    fn others_back(&self) -> impl Iterator<Item = u8> {
        (0..self.me).rev().chain((self.me + 1..self.rule.roll()).rev())
    }

    fn end(&self) -> End {
        match self.journal.last() {
            Some(entry) => End { place: entry.place, turn: entry.turn },
            None => End { place: 0, turn: 0 },
        }
    }

    fn matches(&self, end: End) -> bool {
        match usize::from(end.place).checked_sub(1) {
            None => end.turn == 0,
            Some(last) => self.journal.get(last).is_some_and(|entry| entry.turn == end.turn),
        }
    }

    fn raise(&mut self, sender: u8, place: u16) {
        let known = &mut self.peers[usize::from(sender)].known;
        *known = (*known).max(place);
    }

    fn is_other(&self, sender: u8) -> bool {
        sender < self.rule.roll() && sender != self.me
    }

    fn is_lawful(&self, entry: &Entry) -> bool {
        is_in_range(entry.place, entry.turn)
            && match entry.body {
                Body::Note(_) => true,
                Body::View(mask) => self.rule.has_vote(mask),
            }
    }
}

fn is_in_range(place: u16, turn: u32) -> bool {
    (1..=JOURNAL_PLACES).contains(&usize::from(place)) && (1..=LAST_TURN).contains(&turn)
}

fn is_end(end: End) -> bool {
    (end.place == 0 && end.turn == 0) || is_in_range(end.place, end.turn)
}
