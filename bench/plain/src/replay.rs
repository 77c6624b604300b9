//! From the bytes of a script to the bytes of its print.

use crate::book::CustomsEntry;
use crate::protocol::{Body, Entry, Heads, Note, Refusal};
use crate::ring::Ring;
use crate::script::{command, lines, Command, MAX_TEXT};
use crate::station::{Cause, State, Station};
use std::fmt;
use std::io::{self, Write};

/// The print of a script.
pub fn replay(text: &[u8]) -> io::Result<Vec<u8>> {
    let mut out = Vec::new();
    if text.len() > MAX_TEXT {
        refused(&mut out, 0, Refusal::TextTooLong)?;
        return Ok(out);
    }
    let mut lines = lines(text);
    let rule = match lines.next().and_then(command) {
        Some(Command::Roll(n)) => Heads::new(n),
        Some(Command::Call(_)) => Err(Refusal::CommandFirst),
        None => Err(Refusal::MisshapenLine),
    };
    let mut ring = match rule {
        Ok(rule) => Ring::new(rule),
        Err(refusal) => {
            refused(&mut out, 1, refusal)?;
            return Ok(out);
        }
    };
    for (line, number) in lines.zip(2..) {
        let answer = match command(line) {
            Some(Command::Call(call)) => ring.call(call),
            _ => Err(Refusal::MisshapenLine),
        };
        if let Err(refusal) = answer {
            refused(&mut out, number, refusal)?;
        }
    }
    for (number, station) in ring.stations().iter().enumerate() {
        print_station(&mut out, number, station)?;
    }
    Ok(out)
}

fn refused(out: &mut Vec<u8>, line: usize, refusal: Refusal) -> io::Result<()> {
    writeln!(out, "line={line} refused={}", refusal as u8)
}

fn print_station(out: &mut Vec<u8>, number: usize, station: &Station) -> io::Result<()> {
    let state = word(station.state());
    let length = station.journal().len();
    writeln!(out, "station={number} state={state} firm={} length={length}", station.firm())?;
    for &Entry { place, turn, body } in station.journal() {
        match body {
            Body::Note(Note { a, b, c, d }) => {
                writeln!(out, "place={place} turn={turn} kind=note a={a} b={b} c={c} d={d}")?
            }
            Body::View(mask) => writeln!(out, "place={place} turn={turn} kind=view mask={mask}")?,
        }
    }
    for &CustomsEntry { number, price, rate, freight, insurance, duty } in station.book().entries() {
        let (freight, insurance, duty) = (Amount(freight), Amount(insurance), Amount(duty));
        writeln!(
            out,
            "entry={number} price={price} rate={rate} freight={freight} insurance={insurance} duty={duty}"
        )?;
    }
    Ok(())
}

fn word(state: State) -> &'static str {
    match state {
        State::Running => "running",
        State::Joining => "joining",
        State::Out(Cause::Stopped) => "out-stopped",
        State::Out(Cause::Gap) => "out-gap",
        State::Out(Cause::PutOff) => "out-putoff",
        State::Out(Cause::Outvoted) => "out-outvoted",
        State::Out(Cause::Full) => "out-full",
    }
}

/// Cents, or `none`.
struct Amount(Option<u32>);

impl fmt::Display for Amount {
    fn fmt(&self, f: &mut fmt::Formatter<'_>) -> fmt::Result {
        match self.0 {
            Some(cents) => write!(f, "{cents}"),
            None => f.write_str("none"),
        }
    }
}
