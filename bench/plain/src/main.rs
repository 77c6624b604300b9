//! Times calls on rings, and whole scripts, as the program `timing` does for the proved ring.

use plain_ring::protocol::{Call, Heads};
use plain_ring::replay::replay;
use plain_ring::ring::Ring;
use plain_ring::script::{command, lines, Command};
use std::env;
use std::error::Error;
use std::fs;
use std::time::Instant;

/// The rows that a line can name; row 0 is not for the table.
const ROWS: usize = 6;

/// How often the clock is read to tell what that costs.
const CLOCK_READS: u32 = 100_000;

/// Calls that are timed together.
struct Group {
    row: usize,
    calls: Vec<Call>,
}

struct Plan {
    rule: Heads,
    groups: Vec<Group>,
}

fn read_plan(file: &str) -> Result<Plan, Box<dyn Error>> {
    let text = fs::read(file)?;
    let mut lines = lines(&text);
    let Some(Command::Roll(roll)) = lines.next().and_then(command) else {
        return Err("line 1 is no roll".into());
    };
    let rule = Heads::new(roll).map_err(|_| "the roll is off 1 to 8")?;
    let mut groups: Vec<Group> = Vec::new();
    for line in lines {
        let Some((mark, rest)) = line.split_first() else {
            return Err("an empty line".into());
        };
        let row = usize::from(mark.wrapping_sub(b'0'));
        let Some(Command::Call(call)) = command(rest) else {
            return Err("a line is no call".into());
        };
        if row >= ROWS {
            return Err("a line names no row".into());
        }
        match groups.last_mut() {
            Some(group) if group.row == row => group.calls.push(call),
            _ => groups.push(Group { row, calls: vec![call] }),
        }
    }
    Ok(Plan { rule, groups })
}

/// Makes some calls on each ring, and answers how many were refused.
fn call_all(rings: &mut [Ring], calls: &[Call]) -> u64 {
    let mut refused = 0;
    for ring in rings {
        for &call in calls {
            if ring.call(call).is_err() {
                refused += 1;
            }
        }
    }
    refused
}

fn time_calls(file: &str, rounds: u32, count: u32) -> Result<(), Box<dyn Error>> {
    let plan = read_plan(file)?;
    let (mut firm, mut length, mut refused) = (0, 0, 0);
    for _ in 0..rounds {
        let mut nanos = [0; ROWS];
        let mut calls = [0; ROWS];
        let mut rings: Vec<Ring> = (0..count).map(|_| Ring::new(plan.rule)).collect();
        for group in &plan.groups {
            let start = Instant::now();
            refused += call_all(&mut rings, &group.calls);
            nanos[group.row] += start.elapsed().as_nanos();
            calls[group.row] += group.calls.len() * rings.len();
        }
        for (row, (calls, nanos)) in calls.iter().zip(nanos).enumerate() {
            println!("row={row} calls={calls} nanos={nanos}");
        }
        for station in rings.iter().flat_map(Ring::stations) {
            firm += station.firm();
            length += station.journal().len();
        }
    }
    println!("firm={firm} length={length} refused={refused}");
    Ok(())
}

fn time_script(file: &str, rounds: u32) -> Result<(), Box<dyn Error>> {
    let text = fs::read(file)?;
    let mut bytes = 0;
    for _ in 0..rounds {
        let start = Instant::now();
        let print = replay(&text)?;
        let nanos = start.elapsed().as_nanos();
        bytes += print.len();
        println!("row=1 calls=1 nanos={nanos}");
    }
    println!("bytes={bytes}");
    Ok(())
}

/// What lies between two readings of the clock.
fn time_clock() {
    let mut nanos = 0;
    for _ in 0..CLOCK_READS {
        nanos += Instant::now().elapsed().as_nanos();
    }
    println!("clock={CLOCK_READS} nanos={nanos}");
}

fn main() -> Result<(), Box<dyn Error>> {
    let words: Vec<String> = env::args().skip(1).collect();
    match &words[..] {
        [file, rounds] => time_script(file, rounds.parse()?)?,
        [file, rounds, rings] => time_calls(file, rounds.parse()?, rings.parse()?)?,
        _ => {
            println!("usage: plain_ring FILE ROUNDS [RINGS]");
            return Ok(());
        }
    }
    time_clock();
    Ok(())
}
