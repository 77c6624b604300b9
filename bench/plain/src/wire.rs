//! A line of frames for each station.

use crate::protocol::{Frame, LINE_PLACES};
use std::collections::VecDeque;

#[derive(Debug)]
pub struct LineWire {
    lines: Vec<VecDeque<Frame>>,
}

impl LineWire {
    pub fn new(roll: u8) -> Self {
        let lines = (0..roll).map(|_| VecDeque::with_capacity(LINE_PLACES)).collect();
        Self { lines }
    }

    /// Adds a frame to every line but the sender's; a full line loses it.
    pub fn post(&mut self, sender: u8, frame: Frame) {
        for (station, line) in self.lines.iter_mut().enumerate() {
            if station != usize::from(sender) && line.len() < LINE_PLACES {
                line.push_back(frame);
            }
        }
    }

    pub fn take(&mut self, station: usize) -> Option<Frame> {
        self.lines[station].pop_front()
    }

    pub fn clear(&mut self, station: usize) {
        self.lines[station].clear();
    }
}
