//! The ring and its six calls.

use crate::protocol::{Call, Heads, Note, Refusal, LAST_TURN};
use crate::station::Station;
use crate::wire::LineWire;

#[derive(Debug)]
pub struct Ring {
    stations: Vec<Station>,
    wire: LineWire,
    turn: u32,
}

impl Ring {
    pub fn new(rule: Heads) -> Self {
        let stations = (0..rule.roll()).map(|me| Station::new(me, rule)).collect();
        Self { stations, wire: LineWire::new(rule.roll()), turn: 1 }
    }

    pub fn stations(&self) -> &[Station] {
        &self.stations
    }

    fn station(&mut self, at: u32) -> Result<&mut Station, Refusal> {
        self.stations.get_mut(at as usize).ok_or(Refusal::NotOnRoll)
    }

    pub fn note(&mut self, at: u32, note: Note) -> Result<(), Refusal> {
        self.station(at)?.note(note)
    }

    pub fn turn(&mut self) -> Result<(), Refusal> {
        if self.turn > LAST_TURN {
            return Err(Refusal::WrongTurn);
        }
        let owner = (self.turn - 1) as usize % self.stations.len();
        self.stations[owner].turn(&mut self.wire, self.turn);
        self.turn += 1;
        Ok(())
    }

    pub fn take(&mut self, at: u32) -> Result<(), Refusal> {
        let station = self.stations.get_mut(at as usize).ok_or(Refusal::NotOnRoll)?;
        if station.state().is_out() {
            return Err(Refusal::IsOut);
        }
        let frame = self.wire.take(at as usize).ok_or(Refusal::LineEmpty)?;
        station.take(&frame);
        Ok(())
    }

    pub fn lose(&mut self, at: u32) -> Result<(), Refusal> {
        self.station(at)?;
        self.wire.take(at as usize).ok_or(Refusal::LineEmpty)?;
        Ok(())
    }

    pub fn stop(&mut self, at: u32) -> Result<(), Refusal> {
        self.station(at)?.stop()
    }

    pub fn enter(&mut self, at: u32) -> Result<(), Refusal> {
        self.station(at)?.enter()?;
        self.wire.clear(at as usize);
        Ok(())
    }

    pub fn call(&mut self, call: Call) -> Result<(), Refusal> {
        match call {
            Call::Note { at, note } => self.note(at, note),
            Call::Turn => self.turn(),
            Call::Take { at } => self.take(at),
            Call::Lose { at } => self.lose(at),
            Call::Stop { at } => self.stop(at),
            Call::Enter { at } => self.enter(at),
        }
    }
}
