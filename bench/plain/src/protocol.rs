//! The words that all layers share.

pub const MAX_STATIONS: usize = 8;
pub const LINE_PLACES: usize = 32;
pub const JOURNAL_PLACES: usize = 256;
pub const OUTBOX_PLACES: usize = 16;
pub const NOTE_ROOM: usize = 240;
pub const NOTES_PER_TURN: usize = 8;
pub const RESENT_PER_TURN: usize = 8;
pub const LAST_TURN: u32 = 1_000_000;

#[derive(Clone, Copy, Debug, PartialEq, Eq)]
pub struct Note {
    pub a: u32,
    pub b: u32,
    pub c: u32,
    pub d: u32,
}

#[derive(Clone, Copy, Debug, PartialEq, Eq)]
pub enum Body {
    Note(Note),
    /// The mask of the ring's members.
    View(u8),
}

#[derive(Clone, Copy, Debug, PartialEq, Eq)]
pub struct Entry {
    pub place: u16,
    pub turn: u32,
    pub body: Body,
}

/// The last place of a journal and that entry's turn, zeros when it is empty.
#[derive(Clone, Copy, Debug, PartialEq, Eq)]
pub struct End {
    pub place: u16,
    pub turn: u32,
}

#[derive(Clone, Copy, Debug)]
pub enum Frame {
    Entry { sender: u8, entry: Entry, before: u32 },
    Heartbeat { sender: u8, end: End },
    Join { sender: u8, end: End },
}

#[derive(Clone, Copy, Debug, PartialEq, Eq)]
pub enum Refusal {
    NotOnRoll = 1,
    IsOut = 2,
    OutboxFull = 3,
    WrongTurn = 4,
    LineEmpty = 5,
    NotOut = 6,
    RollSize = 7,
    MisshapenLine = 10,
    CommandFirst = 11,
    TextTooLong = 12,
}

#[derive(Clone, Copy, Debug, PartialEq, Eq)]
pub enum Call {
    Note { at: u32, note: Note },
    Turn,
    Take { at: u32 },
    Lose { at: u32 },
    Stop { at: u32 },
    Enter { at: u32 },
}

/// The rule by heads: more than half of the stations.
#[derive(Clone, Copy, Debug)]
pub struct Heads {
    stations: u8,
}

impl Heads {
    pub fn new(stations: u32) -> Result<Self, Refusal> {
        match stations {
            1..=8 => Ok(Self { stations: stations as u8 }),
            _ => Err(Refusal::RollSize),
        }
    }

    pub fn roll(self) -> u8 {
        self.stations
    }

    /// The mask of all stations.
    pub fn whole(self) -> u8 {
        u8::MAX >> (8 - self.stations)
    }

    pub fn has_vote(self, mask: u8) -> bool {
        mask & !self.whole() == 0 && mask.count_ones() * 2 > u32::from(self.stations)
    }
}

pub fn contains(mask: u8, station: u8) -> bool {
    mask >> station & 1 == 1
}
