//! Names the rows of request 6 that one played entry reached. A thing that goes wrong
//! makes a row that is not listed.

use super::observed::{is_at_clerk, message_text};
use super::timing::{clerk_records, is_due, line_records, moments, sum, Timed};
use crate::codec::{message_bytes, Refusal};
use crate::outcome::{Kind, Outcome, GUARD, T1, T2, T3};
use crate::script::{Entry, Session};
use crate::timers::{Lengths, Ticked};

/// The row of code 3: half of all counts is the farthest that the count goes on.
pub fn count_name(before: u32, after: u32) -> &'static str {
    match (before == after, is_due(after, before), before < after) {
        (true, _, _) => "stays",
        (_, true, true) => "goes on",
        (_, true, false) => "goes on over the wrap",
        (_, false, false) => "goes back",
        (_, false, true) => "goes back over the wrap",
    }
}

/// The four lengths with their ranges, in the order of the entry.
fn ranges(lengths: &Lengths) -> [(&'static str, u32, u32, u32); 4] {
    [
        ("T1", lengths.t1, 1, 3600),
        ("T2 CCBS", lengths.t2_ccbs, 60, 3600),
        ("T2 CCNR", lengths.t2_ccnr, 60, 86400),
        ("T3", lengths.t3, 10, 30),
    ]
}

/// The rows of code 2: which length was out of range, and the edges.
pub fn start_names(before: &Session, lengths: &Lengths, outcome: &Outcome, after: &Session) -> Vec<String> {
    let refusal = outcome.refusal.map(|r| r.number());
    let judged = match refusal {
        None if after.clerk.records.is_empty() && after.clerk.lengths == *lengths => "started".to_string(),
        Some(number) if after == before => format!("refusal {number}"),
        _ => "the desk is another".to_string(),
    };
    let faults: Vec<String> = ranges(lengths).iter().filter_map(fault).collect();
    let which = match faults.as_slice() {
        [] => "".to_string(),
        [fault] => format!(": {fault}"),
        _ => ": several lengths out of range".to_string(),
    };
    let desk = if before.clerk.records.is_empty() { "desk without records" } else { "desk with records" };
    let mut names = vec![format!("start, {desk}{which}: {judged}")];
    // An edge counts where it decides: none is out of range, or it alone.
    if faults.len() < 2 {
        let ranges = ranges(lengths);
        let deciding = ranges.iter().filter(|range| faults.is_empty() || fault(range).is_some());
        names.extend(deciding.flat_map(edges).map(|edge| format!("start: {edge}: {judged}")));
    }
    if faults.is_empty() != refusal.is_none() {
        names.push("start: judged wrongly".to_string());
    }
    names
}

fn fault((name, value, lowest, highest): &(&'static str, u32, u32, u32)) -> Option<String> {
    match value {
        value if value < lowest => Some(format!("{name} under its range")),
        value if value > highest => Some(format!("{name} over its range")),
        _ => None,
    }
}

/// Values on the edges of a range, and such as would be in range if their high bytes
/// were not read.
fn edges((name, value, lowest, highest): &(&'static str, u32, u32, u32)) -> Vec<String> {
    let mut edges = Vec::new();
    if [lowest - 1, *lowest, *highest, highest + 1].contains(value) {
        edges.push(format!("{name} {value}"));
    }
    for bytes in 1..=3 {
        let low = value % (1 << (8 * bytes));
        if value > highest && (*lowest..=*highest).contains(&low) {
            edges.push(format!("{name} in range in its low {bytes} of 4 bytes"));
        }
    }
    edges
}

/// The records of the desk that an entry is at.
fn records(session: &Session, at_clerk: bool) -> Vec<Timed> {
    if at_clerk {
        clerk_records(&session.clerk)
    } else {
        line_records(&session.line)
    }
}

/// True where a tick ended the records at these places and nothing else.
fn ended_alone(before: &Session, places: &[usize], after: &Session, at_clerk: bool) -> bool {
    let mut expected = before.clone();
    for place in places.iter().rev() {
        if at_clerk {
            expected.clerk.records.remove(*place);
        } else {
            expected.line.records.remove(*place);
        }
    }
    expected == *after
}

/// The rows of a tick.
pub fn tick_names(
    before: &Session,
    entry: &Entry,
    told: &Result<Ticked, Refusal>,
    buffer: &[u8],
    after: &Session,
) -> Vec<String> {
    let at_clerk = is_at_clerk(entry);
    let records = records(before, at_clerk);
    let places: Vec<usize> = (0..records.len()).filter(|place| records[*place].expires(before.count)).collect();
    let sent: Vec<Vec<u8>> = places.iter().map(|place| message_bytes(&records[*place].cancel)).collect();
    let lengths: Vec<usize> = sent.iter().map(Vec::len).collect();
    let room = room_name(&lengths, buffer.len());
    match told {
        Err(refusal) => {
            let untouched = buffer.iter().all(|byte| *byte == 0xEE) && before == after;
            let judged = if untouched { "" } else { ", and something changed" };
            vec![format!("{room}: refusal {}{judged}", refusal.number()), format!("refusal {}", refusal.number())]
        }
        Ok(ticked) => {
            let mut written = sent.concat();
            let right = ticked.places == places
                && ticked.length == written.len()
                && ended_alone(before, &places, after, at_clerk);
            written.resize(buffer.len(), 0xEE);
            let judged = if right && written == buffer { "taken" } else { "another outcome" };
            let mut names = vec![format!("{room}: {judged}")];
            names.extend(number_names(&records, &places, if at_clerk { 16 } else { 32 }));
            names.extend(records.iter().flat_map(|record| record_names(record, before.count)));
            names
        }
    }
}

/// How much room there is for the messages of a tick.
fn room_name(lengths: &[usize], room: usize) -> String {
    let all: usize = lengths.iter().sum();
    let due = match lengths.len() {
        0 => "nothing due",
        1 => "one due",
        _ => "several due",
    };
    let first = lengths.first().copied().unwrap_or(0);
    let room = match room {
        0 => "no room",
        2048 => "room 2048",
        _ if all == 0 => "some room",
        _ if room == all => "exactly enough",
        _ if room > all => "bytes behind",
        _ if room + 1 == all => "one byte short",
        _ if room >= first => "room for some",
        _ => "room for none",
    };
    format!("tick: {due}, {room}")
}

/// How many records expired, and which.
fn number_names(records: &[Timed], places: &[usize], most: usize) -> Vec<String> {
    let (all, gone) = (records.len(), places.len());
    let is_gone = |place: usize| places.contains(&place);
    let between = |expires: bool| {
        let others = |place: &usize| is_gone(*place) != expires;
        let first = (0..all).find(others);
        let last = (0..all).rev().find(others);
        (0..all).any(|place| is_gone(place) == expires && first < Some(place) && first.is_some() && last > Some(place))
    };
    let counted = match (all, gone) {
        (0, _) => "no record",
        (1, 0) => "none of one",
        (_, 0) => "none of several",
        (1, _) => "the only one",
        (all, gone) if all == gone => "all of several",
        (_, 1) => "one of several",
        _ => "some of several",
    };
    let some = gone > 0 && gone < all;
    let more = [
        (some && between(false), "one stays between two that expire"),
        (some && between(true), "one expires between two that stay"),
        (some && !is_gone(0), "the oldest stays"),
        (some && !is_gone(all.saturating_sub(1)), "the youngest stays"),
        (all == most && gone == 0, "none of a full desk"),
        (all == most && gone == all, "all of a full desk"),
    ];
    let met = more.iter().filter(|(met, _)| *met).map(|(_, name)| *name);
    [counted].into_iter().chain(met).map(|name| format!("tick: {name}")).collect()
}

/// What the tick did with one record, and how far the count was behind its
/// deadlines; the latter where no other timer of it was due.
fn record_names(record: &Timed, count: u32) -> Vec<String> {
    let due: Vec<&str> = record.running.iter().filter(|t| is_due(count, t.deadline)).map(|t| t.name).collect();
    let running: Vec<&str> = record.running.iter().map(|t| t.name).collect();
    let named = if record.is_named() { "an identifier" } else { "no identifier" };
    let timers = match due.as_slice() {
        [] => format!("{} not due", running.join(" and ")),
        due => format!("{} due", due.join(" and ")),
    };
    let expires = record.expires(count);
    let outcome = match expires {
        true => format!("expires, sends {}", message_text(&record.cancel)),
        false => "stays".to_string(),
    };
    let mut names = vec![format!("tick: {}, {named}: {timers}: {outcome}", record.state_and_choice)];
    let judged = if expires { "expires" } else { "stays" };
    for timer in &record.running {
        let alone = due.iter().all(|name| *name == timer.name);
        let moments = moments(count, timer.deadline).into_iter().filter(|_| alone);
        names.extend(moments.map(|moment| format!("tick: {}, {} {moment}: {judged}", record.state, timer.name)));
    }
    if expires {
        let withheld = match &record.cancel.elements {
            Some(elements) if elements.number_a.is_empty() => ", numberA withheld",
            Some(_) => ", numberA given",
            None => "",
        };
        names.push(format!("tick sends {}, {named}{withheld}", message_text(&record.cancel)));
    }
    names
}

/// The length of a timer that a step starts.
fn length(session: &Session, timer: &str, kind: Kind) -> u32 {
    let lengths = &session.clerk.lengths;
    match (timer, kind) {
        ("T1", _) => lengths.t1,
        ("T2", Kind::Ccbs) => lengths.t2_ccbs,
        ("T2", Kind::Ccnr) => lengths.t2_ccnr,
        ("T3", _) => lengths.t3,
        (_, Kind::Ccbs) => 3660,
        (_, Kind::Ccnr) => 86460,
    }
}

fn starts(outcome: &Outcome, timer: &str) -> bool {
    [(T1, "T1"), (T2, "T2"), (T3, "T3"), (GUARD, "guard")]
        .iter()
        .any(|(bit, name)| *name == timer && outcome.starts & bit != 0)
}

/// The rows of a step: what it stored, what it left, and that it let a record go on
/// whose timer was due.
pub fn step_names(before: &Session, entry: &Entry, outcome: &Outcome, after: &Session) -> Vec<String> {
    let at_clerk = is_at_clerk(entry);
    let (old, new) = (records(before, at_clerk), records(after, at_clerk));
    let mut names = by_hand_names(before, entry, outcome, &old);
    let now = match outcome.at.and_then(|at| new.get(at)) {
        Some(now) if new.len() >= old.len() => now,
        _ => return names,
    };
    let was = outcome.at.and_then(|at| old.get(at)).filter(|_| new.len() == old.len());
    for timer in &now.running {
        let fresh = sum(before.count, length(before, timer.name, now.kind));
        let kept = was.and_then(|was| was.running.iter().find(|t| t.name == timer.name));
        if starts(outcome, timer.name) {
            names.push(started_name(timer.name, now.kind, before.count, timer.deadline, fresh));
        } else if kept.map(|kept| kept.deadline) != Some(timer.deadline) {
            names.push(format!("the deadline of {} is moved", timer.name));
        } else if let Some(was) = was.filter(|was| timer.deadline != fresh && was.state != now.state) {
            let (from, to) = (was.kind.name(), now.kind.name());
            names.push(format!("{} goes on from {} {from} to {} {to}", timer.name, was.state, now.state));
        }
    }
    names.extend(t3_anew_name(before, outcome, was));
    if let Some(was) = was.filter(|was| was.state != now.state) {
        let due = was.running.iter().filter(|timer| is_due(before.count, timer.deadline));
        names.extend(
            due.map(|timer| format!("{}: {} is due, and a step goes on to {}", was.state, timer.name, now.state)),
        );
    }
    names
}

/// T3 is started once more, and a deadline of the time before is stored still.
fn t3_anew_name(before: &Session, outcome: &Outcome, was: Option<&Timed>) -> Option<String> {
    let was = was.filter(|_| starts(outcome, "T3"))?;
    let old = before.clerk.records.get(outcome.at?)?.deadlines.t3;
    let fresh = sum(before.count, before.clerk.lengths.t3);
    (old != 0 && old != fresh).then(|| format!("T3 starts anew from {}", was.state))
}

fn started_name(timer: &str, kind: Kind, count: u32, deadline: u32, expected: u32) -> String {
    let wrap = if expected < count { ", over the wrap" } else { "" };
    let judged = if deadline == expected { "count and length" } else { "another deadline" };
    format!("{timer} of {} starts{wrap}: {judged}", kind.name())
}

/// "Reports by hand go by the state alone and not by the deadline": those of a timer
/// that runs.
fn by_hand_names(before: &Session, entry: &Entry, outcome: &Outcome, records: &[Timed]) -> Vec<String> {
    let (name, reported) = match entry {
        Entry::TimerRunsOut(name, timer) => (name, timer.name()),
        Entry::GuardRunsOut(name) => (name, "guard"),
        _ => return Vec::new(),
    };
    let by_identifier = |r: &&Timed| r.cancel.identifier == name.identifier;
    let record = match name.identifier {
        Some(_) => records.iter().find(by_identifier),
        None => records.get(name.place),
    };
    let running = record.and_then(|record| record.running.iter().find(|t| t.name == reported));
    let (record, timer) = match (record, running) {
        (Some(record), Some(timer)) => (record, timer),
        _ => return Vec::new(),
    };
    let due = if is_due(before.count, timer.deadline) { "due" } else { "not due" };
    let judged = super::observed::edge_outcome(outcome);
    vec![format!("{reported} by hand in {}, {due}: {judged}", record.state)]
}
