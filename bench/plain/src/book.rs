//! The book of customs entries.

use crate::protocol::Note;

const ENTRY_PLACES: usize = 32;
const MAX_NUMBER: u32 = 9_999_999;
const MAX_AMOUNT: u32 = 1_000_000_000;
const MAX_RATE: u32 = 10_000;

#[derive(Clone, Copy, Debug)]
pub struct CustomsEntry {
    pub number: u32,
    pub price: u32,
    pub rate: u32,
    pub freight: Option<u32>,
    pub insurance: Option<u32>,
    /// An entry that has its duty is closed.
    pub duty: Option<u32>,
}

#[derive(Clone, Copy, Debug, PartialEq, Eq)]
pub enum Verdict {
    Taken,
    Malformed,
    OpenedBefore,
    NoPlace,
    UnknownEntry,
    Closed,
    GivenBefore,
    NoFreight,
}

/// The entries in order of opening, with room for all of them from the start.
#[derive(Debug)]
pub struct EntryBook {
    entries: Vec<CustomsEntry>,
}

impl Default for EntryBook {
    fn default() -> Self {
        Self { entries: Vec::with_capacity(ENTRY_PLACES) }
    }
}

impl EntryBook {
    pub fn entries(&self) -> &[CustomsEntry] {
        &self.entries
    }

    pub fn give(&mut self, Note { a, b, c, d }: Note) -> Verdict {
        let shaped = match a {
            1 => d <= MAX_RATE,
            2 | 3 => d == 0,
            4 => c == 0 && d == 0,
            _ => false,
        };
        if !shaped || !(1..=MAX_NUMBER).contains(&b) || c > MAX_AMOUNT {
            return Verdict::Malformed;
        }
        let Some(entry) = self.entries.iter_mut().find(|entry| entry.number == b) else {
            if a != 1 {
                return Verdict::UnknownEntry;
            }
            if self.entries.len() == ENTRY_PLACES {
                return Verdict::NoPlace;
            }
            self.entries.push(CustomsEntry {
                number: b,
                price: c,
                rate: d,
                freight: None,
                insurance: None,
                duty: None,
            });
            return Verdict::Taken;
        };
        if a == 1 {
            return Verdict::OpenedBefore;
        }
        if entry.duty.is_some() {
            return Verdict::Closed;
        }
        match a {
            2 => give_once(&mut entry.freight, c),
            3 => give_once(&mut entry.insurance, c),
            _ => entry.close(),
        }
    }
}

fn give_once(amount: &mut Option<u32>, given: u32) -> Verdict {
    if amount.is_some() {
        return Verdict::GivenBefore;
    }
    *amount = Some(given);
    Verdict::Taken
}

impl CustomsEntry {
    fn close(&mut self) -> Verdict {
        let Some(freight) = self.freight else {
            return Verdict::NoFreight;
        };
        let insurance = self.insurance.unwrap_or(0);
        let value = u64::from(self.price) + u64::from(freight) + u64::from(insurance);
        self.duty = Some((value * u64::from(self.rate) / 10_000) as u32);
        Verdict::Taken
    }
}
