//! What the host of a random script knows: where each record and each message comes
//! from. READINGS-02, request 1: "A record and a message have an origin, which the
//! run notes and no desk sees".

use super::{Mood, Player};
use crate::codec::Elements;
use crate::make::{Who, ABSENT};
use crate::meant::Held;
use crate::outcome::Outcome;
use crate::script::{Entry, Session};

/// A message on a wire, with its origin.
#[derive(Clone)]
pub struct Parcel {
    pub bytes: Vec<u8>,
    pub origin: usize,
}

/// The origins of both desks' records, in the order of storing.
#[derive(Default)]
pub struct Origins {
    clerk: Vec<usize>,
    line: Vec<usize>,
    last: usize,
}

pub fn is_at_line(entry: &Entry) -> bool {
    matches!(
        entry,
        Entry::ToLine { .. }
            | Entry::Look { .. }
            | Entry::Report { .. }
            | Entry::Act(_, _)
            | Entry::GuardRunsOut(_)
            | Entry::FellAtLine(_)
            | Entry::TickAtLine { .. }
            | Entry::StartLine { .. }
    )
}

impl Origins {
    /// One that nothing has yet.
    pub fn fresh(&mut self) -> usize {
        self.last += 1;
        self.last
    }

    fn list(&self, line_end: bool) -> &[usize] {
        if line_end {
            &self.line
        } else {
            &self.clerk
        }
    }

    #[cfg(test)]
    pub fn count(&self, line_end: bool) -> usize {
        self.list(line_end).len()
    }

    /// Where the record of an origin stands.
    pub fn place(&self, line_end: bool, origin: usize) -> Option<usize> {
        self.list(line_end).iter().position(|known| *known == origin)
    }

    /// The origin of the record at a place; 0 is nobody's.
    pub fn of(&self, line_end: bool, place: usize) -> usize {
        self.list(line_end).get(place).copied().unwrap_or(0)
    }

    /// Follows a step that has been played: "a record that of the ask or of the
    /// request message that made it, a message that of the record, or of the
    /// refused message, that it was sent for". Gives the origin of what is sent.
    pub fn follow(&mut self, session: &Session, entry: &Entry, outcome: &Outcome, origin: usize) -> usize {
        let line_end = is_at_line(entry);
        let now = if line_end { session.line.records.len() } else { session.clerk.records.len() };
        let list = if line_end { &mut self.line } else { &mut self.clerk };
        let at = match outcome.at {
            Some(at) => at,
            None => {
                // A start leaves no record.
                list.truncate(now);
                return origin;
            }
        };
        if now > list.len() {
            list.push(origin);
        }
        let of_record = list.get(at).copied().unwrap_or(origin);
        if now < list.len() {
            list.remove(at);
        }
        of_record
    }

    /// Follows a tick: gives the origins of those that expired, in their order.
    pub fn follow_tick(&mut self, line_end: bool, places: &[usize]) -> Vec<usize> {
        let list = if line_end { &mut self.line } else { &mut self.clerk };
        let expired = places.iter().filter_map(|place| list.get(*place).copied()).collect();
        for place in places.iter().rev() {
            if *place < list.len() {
                list.remove(*place);
            }
        }
        expired
    }
}

impl Player {
    fn count(&self, line_end: bool) -> usize {
        if line_end {
            self.session.line.records.len()
        } else {
            self.session.clerk.records.len()
        }
    }

    /// The host errs now and then, and more often in a storm.
    fn errs(&mut self) -> bool {
        let times = if self.mood == Mood::Storm { 8 } else { 50 };
        self.dice.once_in(times)
    }

    /// Any place: of some record, one behind the last, far off, or none.
    fn any_place(&mut self, line_end: bool) -> u8 {
        let count = self.count(line_end);
        match self.dice.below(6) {
            0 => ABSENT,
            1 => self.dice.byte(),
            _ => self.dice.below(count + 1) as u8,
        }
    }

    /// The place that the host names for a message of this origin.
    pub fn place_for(&mut self, line_end: bool, origin: usize) -> u8 {
        if self.errs() {
            return self.any_place(line_end);
        }
        self.origins.place(line_end, origin).map_or(ABSENT, |place| place as u8)
    }

    /// How the host names the record at a place: by its identifier, mostly, if it
    /// has one, else by the place.
    pub fn who_at(&mut self, line_end: bool, place: usize) -> Who {
        let identifier = match line_end {
            true => self.session.line.records.get(place).and_then(|r| r.identifier),
            false => self.session.clerk.records.get(place).and_then(|r| r.identifier),
        };
        let named = identifier.is_some() && !self.dice.once_in(8);
        let place = if self.errs() { self.any_place(line_end) } else { place as u8 };
        Who { identifier: identifier.filter(|_| named), place }
    }

    /// Mostly a record that is live at this desk.
    pub fn some_who(&mut self, line_end: bool) -> Who {
        let place = self.dice.below(self.count(line_end));
        match self.dice.below(6) {
            0 => Who { identifier: Some(self.some_identifier()), place: self.any_place(line_end) },
            1 => Who { identifier: None, place: self.any_place(line_end) },
            _ => self.who_at(line_end, place),
        }
    }

    /// The elements of the record at a place, mostly; else with one of them other
    /// or withheld.
    pub fn elements_near(&mut self, line_end: bool, place: usize) -> Elements {
        let held = match line_end {
            true => self.session.line.records.get(place).map(Held::elements),
            false => self.session.clerk.records.get(place).map(Held::elements),
        };
        let (number_a, number_b) = (self.some_number_a(), self.some_number_b());
        let service = u32::from(self.some_service());
        let held = match held {
            Some(held) => held,
            None => return Elements { number_a, number_b, service },
        };
        match self.dice.below(8) {
            0 => Elements { number_a, ..held },
            1 => Elements { number_b, ..held },
            2 => Elements { service, ..held },
            3 => Elements { number_a: Vec::new(), ..held },
            _ => held,
        }
    }
}
