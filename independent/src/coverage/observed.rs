//! Names the rows that one played entry reached.

use super::{observed_clerk, observed_codec, observed_line, observed_meant, observed_ticks};
use crate::codec::{read_message, Message};
use crate::outcome::{Outcome, GUARD, T1, T2, T3};
use crate::script::{Answer, Entry, Session};

/// The rows of one entry; prints have none.
pub fn names(before: &Session, entry: &Entry, answer: &Answer, after: &Session) -> Vec<String> {
    if let Entry::Write { bytes, place, size } = entry {
        return observed_codec::names(bytes, *place, *size, answer);
    }
    if let Entry::Count(count) = entry {
        return vec![format!("count: {}", observed_ticks::count_name(before.count, *count))];
    }
    let desk = if is_at_clerk(entry) { "clerk" } else { "line" };
    let names = match answer {
        Answer::Step { outcome, left, fault_place } => step_names(before, entry, outcome, *left, *fault_place, after),
        Answer::Ticked { told, buffer } => observed_ticks::tick_names(before, entry, told, buffer, after),
        _ => return Vec::new(),
    };
    names.iter().map(|name| format!("{desk}: {name}")).collect()
}

fn step_names(
    before: &Session,
    entry: &Entry,
    outcome: &Outcome,
    left: usize,
    fault_place: Option<usize>,
    after: &Session,
) -> Vec<String> {
    let mut names = match refused_bytes(entry) {
        Some(bytes) => vec![refused_bytes_name(bytes, outcome, fault_place)],
        None if is_at_clerk(entry) => observed_clerk::names(&before.clerk, entry, outcome, &after.clerk),
        None => observed_line::names(&before.line, entry, outcome, &after.line),
    };
    if fault_place.is_some() && refused_bytes(entry).is_none() {
        names.push("a place, and no bytes were refused".to_string());
    }
    if let Entry::StartClerk(lengths) = entry {
        names.extend(observed_ticks::start_names(before, lengths, outcome, after));
    }
    names.extend(observed_meant::names(before, entry, outcome, after));
    names.extend(observed_ticks::step_names(before, entry, outcome, after));
    names.extend(left_names(entry, outcome, left));
    names.extend(deletion_name(before, entry, outcome, after));
    if let Some(refusal) = outcome.refusal {
        names.push(format!("refusal {}", refusal.number()));
    }
    names
}

pub fn is_at_clerk(entry: &Entry) -> bool {
    matches!(
        entry,
        Entry::StartClerk(_)
            | Entry::Ask(_)
            | Entry::ToClerk { .. }
            | Entry::Accept(_)
            | Entry::UserAFree(_, _)
            | Entry::UserCancels(_)
            | Entry::TimerRunsOut(_, _)
            | Entry::FellAtClerk(_)
            | Entry::TickAtClerk { .. }
    )
}

fn timers_text(timers: u32) -> String {
    let named = [(T1, "T1"), (T2, "T2"), (T3, "T3"), (GUARD, "guard")];
    let running: Vec<&str> = named.iter().filter(|(bit, _)| timers & bit != 0).map(|(_, name)| *name).collect();
    running.join(" and ")
}

pub fn message_text(message: &Message) -> String {
    format!("{} in {}", message.content.name(), message.carrier.name())
}

/// What an entry did: the refusal and its reply, or the state afterwards, the
/// message, the notice, the timers and the clear-the-call word.
pub fn outcome_text(outcome: &Outcome, state_after: &str) -> String {
    if let Some(refusal) = outcome.refusal {
        let reply = outcome.message.as_ref().map(|m| format!(", reply {}", message_text(m)));
        return format!("refusal {}{}", refusal.number(), reply.unwrap_or_default());
    }
    let mut text = state_after.to_string();
    if let Some(message) = &outcome.message {
        text.push_str(&format!(", sends {}", message_text(message)));
    }
    if let Some(notice) = outcome.notice {
        text.push_str(&format!(", \"{}\"", notice.name()));
    }
    if outcome.starts != 0 {
        text.push_str(&format!(", starts {}", timers_text(outcome.starts)));
    }
    if outcome.stops != 0 {
        text.push_str(&format!(", stops {}", timers_text(outcome.stops)));
    }
    if outcome.clear {
        text.push_str(", clear the call");
    }
    text
}

/// True where the later records are the older ones without the one at this place.
fn is_gone<R: Clone + PartialEq>(old: &[R], new: &[R], place: usize) -> bool {
    let mut rest = old.to_vec();
    if place < rest.len() {
        rest.remove(place);
    }
    rest == new
}

/// Where the record stood that is gone: a delete has to close the gap, and to leave
/// all others as they were.
fn deletion_name(before: &Session, entry: &Entry, outcome: &Outcome, after: &Session) -> Option<String> {
    if matches!(entry, Entry::StartClerk(_) | Entry::StartLine { .. }) {
        return None;
    }
    let (old, new) = match is_at_clerk(entry) {
        true => (before.clerk.records.len(), after.clerk.records.len()),
        false => (before.line.records.len(), after.line.records.len()),
    };
    if new >= old {
        return None;
    }
    let place = outcome.at.unwrap_or(old);
    let gone = match is_at_clerk(entry) {
        true => is_gone(&before.clerk.records, &after.clerk.records, place),
        false => is_gone(&before.line.records, &after.line.records, place),
    };
    let which = match place {
        _ if !gone => "not the one it was about",
        0 if old == 1 => "alone",
        0 => "the oldest",
        _ if place + 1 == old => "the youngest",
        _ => "between others",
    };
    Some(format!("a record is deleted: {which}"))
}

/// The bytes of an entry, for a desk that gets some.
fn bytes_of(entry: &Entry) -> Option<&[u8]> {
    match entry {
        Entry::ToClerk { bytes, .. } | Entry::ToLine { bytes, .. } => Some(bytes),
        _ => None,
    }
}

/// Bytes that hold no message.
fn refused_bytes(entry: &Entry) -> Option<&[u8]> {
    bytes_of(entry).filter(|bytes| read_message(bytes).is_err())
}

/// Its row: the fault, the refusal and the place; no such refusal has a reply.
fn refused_bytes_name(bytes: &[u8], outcome: &Outcome, fault_place: Option<usize>) -> String {
    let refusal = outcome.refusal.map_or(0, |r| r.number());
    let name = observed_codec::fault_name(bytes, refusal, fault_place);
    if outcome.message.is_some() {
        return format!("{name}, and a reply");
    }
    name
}

/// Bytes behind a message that was read.
fn left_names(entry: &Entry, outcome: &Outcome, left: usize) -> Vec<String> {
    if left == 0 || bytes_of(entry).is_none() || refused_bytes(entry).is_some() {
        return Vec::new();
    }
    let judged = if outcome.refusal.is_some() { "refused" } else { "taken" };
    vec![format!("bytes follow a message that is {judged}")]
}

/// Request 11: what the mark adds to the choice's name.
pub fn down_mark(down: bool) -> &'static str {
    if down {
        " down"
    } else {
        ""
    }
}

pub fn digits_fault(digits: &[u8], fewest: usize) -> Option<&'static str> {
    if digits.len() < fewest {
        Some("has no digits")
    } else if digits.len() > 15 {
        Some("has over 15 digits")
    } else if digits.iter().any(|d| *d > 9) {
        Some("has a digit over 9")
    } else {
        None
    }
}

pub fn edge_outcome(outcome: &Outcome) -> String {
    outcome.refusal.map_or("taken".to_string(), |r| format!("refusal {}", r.number()))
}
