//! Which timers a record has, and when they are due, stated a second time for the
//! rows of request 6; timers.rs and the desks are what is played.

use super::observed::down_mark;
use crate::clerk::{self, ClerkDesk};
use crate::codec::{Carrier, Content, Message};
use crate::line::{self, LineDesk};
use crate::meant::Held;
use crate::outcome::{Connection, Kind};

const ALL_COUNTS: u64 = 1 << 32;
const HALF: u64 = 1 << 31;

/// How far the count is behind a deadline, modulo 2^32.
pub fn behind(count: u32, deadline: u32) -> u64 {
    (u64::from(count) + ALL_COUNTS - u64::from(deadline)) % ALL_COUNTS
}

pub fn is_due(count: u32, deadline: u32) -> bool {
    behind(count, deadline) < HALF
}

/// "count + length modulo 2^32".
pub fn sum(count: u32, length: u32) -> u32 {
    ((u64::from(count) + u64::from(length)) % ALL_COUNTS) as u32
}

/// The moments that have rows of their own. A day is longer than any length: what
/// is farther off is due, or ahead, by the half of all counts alone.
pub fn moments(count: u32, deadline: u32) -> Vec<&'static str> {
    let behind = behind(count, deadline);
    let ahead = ALL_COUNTS - behind;
    let near = 90_000;
    let all = [
        (ahead == 1, "one before its deadline"),
        (behind == 0, "at its deadline"),
        (behind == HALF - 1, "2^31 - 1 behind its deadline"),
        (behind == HALF, "2^31 behind its deadline"),
        (behind < near && count < deadline, "due over the wrap"),
        (ahead < near && count > deadline, "ahead over the wrap"),
    ];
    all.iter().filter(|(met, _)| *met).map(|(_, moment)| *moment).collect()
}

pub struct Running {
    pub name: &'static str,
    pub deadline: u32,
    /// A tick looks at it: not at T2 in Ringout.
    pub ends: bool,
}

/// What the rows look at in a record.
pub struct Timed {
    pub state: &'static str,
    pub state_and_choice: String,
    pub kind: Kind,
    pub running: Vec<Running>,
    /// The ccCancel that goes with its expiry.
    pub cancel: Message,
}

impl Timed {
    pub fn expires(&self, count: u32) -> bool {
        self.running.iter().any(|timer| timer.ends && is_due(count, timer.deadline))
    }

    pub fn is_named(&self) -> bool {
        self.cancel.identifier.is_some()
    }
}

/// "The ccCancel that a report of the timer sends": by the connection choice and the
/// mark "connection down".
fn cancel<R: Held>(record: &R, connection: Option<Connection>, down: bool) -> Message {
    let released = down || connection == Some(Connection::Rls);
    let carrier = if released { Carrier::Setup } else { Carrier::ReleaseComplete };
    let elements = Some(record.elements()).filter(|_| released);
    Message { carrier, identifier: record.identifier(), content: Content::CcCancel, elements }
}

pub fn of_clerk(record: &clerk::Record) -> Timed {
    let timer = |name, deadline, ends| Running { name, deadline, ends };
    let held = &record.deadlines;
    let running = match record.state {
        clerk::State::WaitAck => vec![timer("T1", held.t1, true)],
        clerk::State::Invoked | clerk::State::Suspended => vec![timer("T2", held.t2, true)],
        clerk::State::WaitAnswer => vec![timer("T2", held.t2, true), timer("T3", held.t3, true)],
        clerk::State::Ringout => vec![timer("T2", held.t2, false)],
    };
    let state = record.state.name();
    let choice = record.connection.map(|choice| format!(" {}{}", choice.name(), down_mark(record.down)));
    Timed {
        state,
        state_and_choice: format!("{state}{}", choice.unwrap_or_default()),
        kind: record.kind,
        running,
        cancel: cancel(record, record.connection, record.down),
    }
}

pub fn of_line(record: &line::Record) -> Timed {
    let (state, mark) = match (record.state, record.suspended) {
        (line::State::Await, true) => ("Await suspended", " suspended"),
        (state, _) => (state.name(), ""),
    };
    let choice = format!("{}{}", record.connection.name(), down_mark(record.down));
    Timed {
        state,
        state_and_choice: format!("{} {choice}{mark}", record.state.name()),
        kind: record.kind,
        running: vec![Running { name: "guard", deadline: record.guard, ends: true }],
        cancel: cancel(record, Some(record.connection), record.down),
    }
}

pub fn clerk_records(desk: &ClerkDesk) -> Vec<Timed> {
    desk.records.iter().map(of_clerk).collect()
}

pub fn line_records(desk: &LineDesk) -> Vec<Timed> {
    desk.records.iter().map(of_line).collect()
}
