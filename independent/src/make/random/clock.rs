//! The count and the ticks of a random script (request 6 of document 02).

use super::host::Parcel;
use super::{Mood, Player};
use crate::codec::read_message;
use crate::make::{count, start_clerk, tick, TICK_AT_CLERK, TICK_AT_LINE};
use crate::script::{take_entry, Answer, MOST_ROOM};
use crate::timers::{Lengths, Ticked};

impl Player {
    /// The count of a new script: mostly small, sometimes just before the wrap.
    pub fn first_count(&mut self) -> Vec<u8> {
        let small = self.dice.below(100_000) as u32;
        count(if self.dice.once_in(3) { 0_u32.wrapping_sub(small / 20) } else { small })
    }

    /// Lengths for a start of the clerk's desk, mostly in range and often on an edge.
    pub fn some_start_of_clerk(&mut self) -> Vec<u8> {
        let mut lengths =
            [(1, 3600), (60, 3600), (60, 86400), (10, 30)].map(|(lowest, highest): (u32, u32)| {
                match self.dice.below(6) {
                    0 => lowest,
                    1 => highest,
                    2 => lowest + self.dice.below((highest - lowest) as usize) as u32,
                    _ => lowest + 10,
                }
            });
        if self.dice.once_in(3) {
            let bad = [0, 9, 31, 59, 3601, 86401, 65_556, 1 << 31, u32::MAX];
            let place = self.dice.below(4);
            if let (Some(length), Some(value)) = (lengths.get_mut(place), self.dice.pick(&bad)) {
                *length = value;
            }
        }
        let [t1, t2_ccbs, t2_ccnr, t3] = lengths;
        start_clerk(Lengths { t1, t2_ccbs, t2_ccnr, t3 })
    }

    /// A deadline that is stored, of a timer that runs or not: mostly the one that
    /// comes next, or the next guard's, so that not too many are due at once.
    fn some_deadline(&mut self) -> Option<u32> {
        let guards: Vec<u32> = self.session.line.records.iter().map(|r| r.guard).collect();
        let of_clerk = self.session.clerk.records.iter().flat_map(|r| [r.deadlines.t1, r.deadlines.t2, r.deadlines.t3]);
        let all: Vec<u32> = of_clerk.chain(guards.iter().copied()).collect();
        let now = self.session.count;
        let next = |deadlines: Vec<u32>| deadlines.into_iter().min_by_key(|deadline| deadline.wrapping_sub(now));
        match self.dice.below(20) {
            0 => self.dice.pick(&all),
            1..=6 => next(guards),
            _ => next(all),
        }
    }

    /// The count goes on, mostly by little; sometimes to a deadline or near to it, or
    /// by hours; rarely back, and in a storm anywhere.
    pub fn clock(&mut self) {
        let now = self.session.count;
        let little = self.dice.below(4) as u32;
        let storm = self.mood == Mood::Storm;
        let next = match self.dice.below(120) {
            0..=4 => {
                let deadline = self.some_deadline().unwrap_or(now);
                deadline.wrapping_add(self.dice.below(3) as u32).wrapping_sub(1)
            }
            5 => now.wrapping_add(self.dice.below(120) as u32),
            6 if self.dice.once_in(4) => now.wrapping_add(self.dice.below(90_000) as u32),
            7 => now.wrapping_sub(1 + self.dice.below(40) as u32),
            8 if storm && self.dice.once_in(4) => now.wrapping_sub(self.dice.below(100_000) as u32),
            9 if storm && self.dice.once_in(8) => self.dice.next() as u32,
            10 if storm && self.dice.once_in(8) => now.wrapping_add((1 << 31) - 3 + little),
            _ => now.wrapping_add(little),
        };
        self.put(&count(next));
    }

    /// What a tick would send now.
    fn tick_would_send(&self, code: u8) -> usize {
        let played = take_entry(&tick(code, MOST_ROOM as u16)).map(|(entry, _)| self.session.clone().play(&entry));
        match played {
            Some(Answer::Ticked { told: Ok(Ticked { length, .. }), .. }) => length,
            _ => 0,
        }
    }

    /// Mostly there is room enough: just so, or more; sometimes too little.
    pub fn tick(&mut self, line_end: bool) {
        let code = if line_end { TICK_AT_LINE } else { TICK_AT_CLERK };
        let needed = self.tick_would_send(code);
        let room = match self.dice.below(16) {
            0 => 0,
            1 | 2 => needed.saturating_sub(1),
            3 => self.dice.below(needed + 1),
            4 if self.dice.once_in(4) => MOST_ROOM,
            5 | 6 => needed + self.dice.below(60),
            _ => needed,
        };
        self.put(&tick(code, room.min(MOST_ROOM) as u16));
    }

    /// What a tick sent goes onto the wire to the other end, each message with its
    /// record's origin.
    pub fn follow_tick(&mut self, line_end: bool, ticked: &Ticked, buffer: &[u8]) {
        let origins = self.origins.follow_tick(line_end, &ticked.places);
        let mut rest = buffer.get(..ticked.length).unwrap_or(&[]);
        for origin in origins {
            let behind = match read_message(rest) {
                Ok((_, behind)) => behind,
                Err(_) => return,
            };
            let bytes = rest.get(..rest.len() - behind.len()).unwrap_or(rest).to_vec();
            self.put_on_wire(line_end, Parcel { bytes, origin });
            rest = behind;
        }
    }
}
