//! Names the rows of the line desk that one played entry reached.

use super::meaning::{self, line_views, Meaning};
use super::observed::{digits_fault, down_mark, edge_outcome, message_text, outcome_text};
use crate::codec::{read_message, Carrier, Content, Message, Refusal, RequestFields};
use crate::line::{self, LineDesk};
use crate::meant::Name;
use crate::outcome::{Kind, Outcome};
use crate::script::Entry;

fn state(desk: &LineDesk, about: Option<usize>) -> String {
    let record = match about.and_then(|place| desk.records.get(place)) {
        Some(record) => record,
        None => return "no record".to_string(),
    };
    let suspended = if record.suspended { " suspended" } else { "" };
    format!("{} {}{}{}", record.state.name(), record.connection.name(), down_mark(record.down), suspended)
}

/// One step about a record: the desk before and after it.
struct Seen<'a> {
    before: &'a LineDesk,
    after: &'a LineDesk,
    outcome: &'a Outcome,
    meaning: Meaning,
}

impl Seen<'_> {
    fn old(&self) -> Option<&line::Record> {
        self.meaning.about.and_then(|place| self.before.records.get(place))
    }

    fn new(&self) -> Option<&line::Record> {
        let record = self.meaning.about.and_then(|place| self.after.records.get(place));
        record.filter(|_| self.after.records.len() == self.before.records.len())
    }

    /// A ccRingout may store another kind.
    fn state_after(&self, content: Option<&Content>) -> String {
        match (self.new(), content) {
            (None, _) => "deleted".to_string(),
            (Some(record), Some(Content::CcRingout)) => {
                format!("{} {}", state(self.after, self.meaning.about), record.kind.name())
            }
            _ => state(self.after, self.meaning.about),
        }
    }

    fn name(&self, input: &str, suffix: &str, content: Option<&Content>) -> String {
        let outcome = outcome_text(self.outcome, &self.state_after(content));
        let state = state(self.before, self.meaning.about);
        format!("{state}: {input} {}{suffix}: {outcome}", self.meaning.how)
    }

    /// What else decides the row: the line's status, the keep choice and the kind
    /// for a ccRingout in Await.
    fn suffix(&self, message: &Message) -> String {
        match self.old() {
            Some(record) if message.content == Content::CcRingout && record.state == line::State::Await => {
                let line = if self.before.line_busy(&record.number_b) { "busy" } else { "free" };
                format!(", line {line}, keep {}, {}", u32::from(record.keep), record.kind.name())
            }
            _ => String::new(),
        }
    }

    /// The rows of a message that is no request.
    fn names(&self, message: &Message) -> Vec<String> {
        let name = self.name(&message_text(message), &self.suffix(message), Some(&message.content));
        [name].into_iter().chain(self.converted_name(message)).collect()
    }

    /// What a record that was made CCBS goes on to by a message that it takes.
    fn converted_name(&self, message: &Message) -> Option<String> {
        let (old, new) = (self.old()?, self.new()?);
        let counted = matches!(message.content, Content::CcRingout | Content::CcResume);
        if self.outcome.refusal.is_some() || !counted || !is_converted(self.before, old) {
            return None;
        }
        let now = format!("{} {}", new.state.name(), new.kind.name());
        Some(format!("a record made CCBS: {}: {now}", message_text(message)))
    }
}

/// What an act or a guard's report is called in the rows, and how it names its
/// record.
pub fn act(entry: &Entry) -> Option<(Name, String)> {
    Some(match entry {
        Entry::Act(name, which) => (*name, format!("act {}", which.name())),
        Entry::GuardRunsOut(name) => (*name, "guard runs out".to_string()),
        Entry::FellAtLine(name) => (*name, "the connection fell".to_string()),
        _ => return None,
    })
}

/// The types for this end.
pub fn is_for(content: &Content) -> bool {
    matches!(content.type_number(), 1 | 2 | 6 | 8 | 9 | 10)
}

pub fn names(before: &LineDesk, entry: &Entry, outcome: &Outcome, after: &LineDesk) -> Vec<String> {
    let seen = |meaning: Meaning| Seen { before, after, outcome, meaning };
    if let Some((name, input)) = act(entry) {
        let meaning = meaning::of_name(&line_views(before, None), name.identifier, name.place);
        return vec![seen(meaning).name(&input, "", None)];
    }
    match entry {
        Entry::StartLine { lines, .. } => {
            let mut names = vec![start_name(before, lines, outcome)];
            names.extend(start_edge(lines, outcome));
            names
        }
        Entry::ToLine { place, bytes } => match read_message(bytes) {
            Err(_) => Vec::new(),
            Ok((message, _)) => match &message.content {
                Content::CcbsRequest(fields) => request_names(before, &message, Kind::Ccbs, fields, outcome),
                Content::CcnrRequest(fields) => request_names(before, &message, Kind::Ccnr, fields, outcome),
                content => {
                    let views = line_views(before, Some(content));
                    seen(meaning::of_message(&views, &message, *place, is_for(content))).names(&message)
                }
            },
        },
        Entry::Report { digits, busy } => {
            let mut names = report_names(before, digits, *busy, outcome, after);
            names.extend(number_edge("report", digits, outcome));
            names
        }
        Entry::Look { digits } => {
            let mut names = look_names(before, digits, outcome);
            names.extend(number_edge("Look", digits, outcome));
            names
        }
        _ => Vec::new(),
    }
}

/// True for a CCBS record on a line that doesn't allow CCBS: it was CCNR once.
fn is_converted(desk: &LineDesk, record: &line::Record) -> bool {
    let asked = desk.lines.iter().any(|l| l.digits == record.number_b && l.allows_ccbs);
    record.kind == Kind::Ccbs && !asked
}

fn start_name(before: &LineDesk, lines: &[line::Line], outcome: &Outcome) -> String {
    let over = before.records.is_empty();
    let over = if over { "desk without records" } else { "desk with records" };
    let fault = lines.iter().find_map(|l| digits_fault(&l.digits, 1));
    let input = match (lines.len(), fault) {
        (17..=usize::MAX, _) => "more than 16 lines".to_string(),
        (_, Some(fault)) => format!("a line {fault}"),
        _ if outcome.refusal.is_some() => "one number twice".to_string(),
        (0, _) => "no lines".to_string(),
        (16, _) => "16 lines".to_string(),
        _ => "1 to 15 lines".to_string(),
    };
    format!("start: {input}, {over}: {}", outcome_text(outcome, "started"))
}

/// A line's number of 15 digits against 16.
fn start_edge(lines: &[line::Line], outcome: &Outcome) -> Option<String> {
    let longest = lines.iter().map(|l| l.digits.len()).max()?;
    let first_fault = lines.iter().find(|l| digits_fault(&l.digits, 1).is_some());
    let met = match outcome.refusal {
        None => longest == 15,
        Some(_) => lines.len() <= 16 && first_fault.map_or(false, |l| l.digits.len() == 16),
    };
    met.then(|| format!("start: a line of {longest} digits: {}", edge_outcome(outcome)))
}

/// Look and report: 15 digits against 16.
fn number_edge(input: &str, digits: &[u8], outcome: &Outcome) -> Option<String> {
    let known = outcome.refusal != Some(Refusal::NoSuchLine);
    match (digits.len(), known) {
        (15, true) => Some(format!("{input}: the number of a line of 15 digits: {}", edge_outcome(outcome))),
        (16, false) => Some(format!("{input}: a number of 16 digits: {}", edge_outcome(outcome))),
        _ => None,
    }
}

/// What an accepted request has in its fields, or finds at the desk, on an edge.
fn request_edges(before: &LineDesk, fields: &RequestFields) -> Vec<String> {
    let on_line = before.records.iter().filter(|r| r.number_b == fields.number_b).count();
    let edges = [
        (fields.number_a.len() == 15, "numberA of 15 digits"),
        (fields.number_b.len() == 15, "numberB of 15 digits"),
        (fields.service == 0, "service 0"),
        (fields.service == 16383, "service 16383"),
        (on_line == 4, "the line has 4"),
        (before.records.len() == 31, "the desk has 31"),
    ];
    edges.iter().filter(|(met, _)| *met).map(|(_, edge)| format!("request: {edge}: accepted")).collect()
}

/// The first reason for an error, in the order of document 01.
fn error_reason(desk: &LineDesk, message: &Message, kind: Kind, fields: &RequestFields) -> String {
    let on_line: Vec<&line::Record> = desk.records.iter().filter(|r| r.number_b == fields.number_b).collect();
    let same_numbers = on_line.iter().find(|r| !fields.number_a.is_empty() && r.number_a == fields.number_a);
    let full = if desk.records.len() == 32 { "desk full" } else { "desk not full" };
    if desk.line_place(&fields.number_b).is_none() {
        format!("numberB is no line, {full}")
    } else if desk.lines.iter().any(|l| l.digits == fields.number_b && !allows(l, kind)) {
        format!("kind isn't allowed, {full}")
    } else if message.identifier.is_some() && desk.records.iter().any(|r| r.identifier == message.identifier) {
        "same identifier".to_string()
    } else if let Some(record) = same_numbers {
        let which = if record.kind == kind { "same" } else { "other" };
        format!("same two numbers, {which} kind")
    } else if on_line.len() == 5 {
        "the line has 5".to_string()
    } else {
        "the desk has 32".to_string()
    }
}

fn allows(line: &line::Line, kind: Kind) -> bool {
    match kind {
        Kind::Ccbs => line.allows_ccbs,
        Kind::Ccnr => line.allows_ccnr,
    }
}

fn request_names(
    before: &LineDesk,
    message: &Message,
    kind: Kind,
    fields: &RequestFields,
    outcome: &Outcome,
) -> Vec<String> {
    let name = message.content.name();
    if message.carrier != Carrier::Setup {
        return vec![format!("{}: {}", message_text(message), outcome_text(outcome, ""))];
    }
    if outcome.starts == 0 {
        let reason = error_reason(before, message, kind, fields);
        return vec![format!("{name}: {reason}: {}", outcome_text(outcome, "nothing stored"))];
    }
    let line = if before.line_busy(&fields.number_b) { "busy" } else { "free" };
    let settings = format!("keeps {}, retains {}", u32::from(before.keeps), u32::from(before.retains));
    let case = format!("flags {}, {settings}, line {line}", fields.flags);
    let mut names = vec![format!("{name}: {case}: {}", outcome_text(outcome, "Invoked"))];
    names.extend(near_duplicates(before, fields).iter().map(|near| format!("request: {near}: accepted")));
    names.extend(request_edges(before, fields));
    names
}

/// Accepted although it is nearly a duplicate of a live record.
fn near_duplicates(before: &LineDesk, fields: &RequestFields) -> Vec<&'static str> {
    let mut near = Vec::new();
    let withheld = fields.number_a.is_empty();
    let same_a = |r: &line::Record| r.number_a == fields.number_a;
    let same_b = |r: &line::Record| r.number_b == fields.number_b;
    if before.records.iter().any(|r| withheld && same_a(r) && same_b(r)) {
        near.push("numberA withheld on both sides, same numberB");
    }
    if before.records.iter().any(|r| !withheld && same_a(r) && !same_b(r)) {
        near.push("same numberA, other numberB");
    }
    if before.records.iter().any(|r| !withheld && !r.number_a.is_empty() && !same_a(r) && same_b(r)) {
        near.push("other numberA, same numberB");
    }
    near
}

/// Digits that name no line: bad ones, or good ones that are unknown.
fn unknown_digits(digits: &[u8]) -> String {
    match digits_fault(digits, 1) {
        Some(fault) => format!("the number {fault}"),
        None => "unknown digits".to_string(),
    }
}

fn report_names(before: &LineDesk, digits: &[u8], busy: bool, outcome: &Outcome, after: &LineDesk) -> Vec<String> {
    let word = if busy { "busy" } else { "free" };
    if outcome.refusal.is_some() {
        let which = unknown_digits(digits);
        return vec![format!("report {word}: {which}: {}", outcome_text(outcome, ""))];
    }
    let was = if before.line_busy(digits) { "busy" } else { "free" };
    let mut names = vec![format!("report {word}: line was {was}: {}", outcome_text(outcome, "stored"))];
    for (old, new) in before.records.iter().zip(after.records.iter()) {
        if old.number_b == digits && busy && !old.active {
            let marked = if new.active { "marked active" } else { "not marked" };
            names.push(format!("report busy: record in {}, not active: {marked}", old.state.name()));
        } else if old.number_b != digits && busy && !old.active && old.state == line::State::Invoked {
            let marked = if new.active { "marked active" } else { "not marked" };
            names.push(format!("report busy: record of another line: {marked}"));
        } else if old.number_b == digits && !busy && old.active {
            let marked = if new.active { "stays marked" } else { "not marked" };
            names.push(format!("report free: record marked active: {marked}"));
        }
    }
    names
}

/// Why a Look offers nothing, the first reason in the order of document 01.
fn nothing_reason(records: &[&line::Record], busy: bool) -> &'static str {
    let in_state = |state| records.iter().any(|r| r.state == state);
    if busy {
        "the line is busy"
    } else if in_state(line::State::Alert) {
        "a record in Alert"
    } else if records.iter().any(|r| r.state == line::State::Await && !r.suspended) {
        "a record in Await without suspended mark"
    } else if in_state(line::State::Invoked) {
        "CCNR never active"
    } else if in_state(line::State::Await) {
        "only suspended records"
    } else {
        "no records"
    }
}

fn look_names(before: &LineDesk, digits: &[u8], outcome: &Outcome) -> Vec<String> {
    if before.line_place(digits).is_none() {
        return vec![format!("Look: {}: {}", unknown_digits(digits), outcome_text(outcome, ""))];
    }
    let records: Vec<&line::Record> = before.records.iter().filter(|r| r.number_b == digits).collect();
    let offered = match outcome.at.and_then(|place| before.records.get(place)) {
        Some(offered) => offered,
        None => {
            let reason = nothing_reason(&records, before.line_busy(digits));
            return vec![format!("Look: {reason}: {}", outcome_text(outcome, ""))];
        }
    };
    let place = match records.iter().position(|r| std::ptr::eq(*r, offered)) {
        Some(place) => place,
        None => return vec!["Look: offers a record of another line".to_string()],
    };
    let mut names = offer_names(&records, place, outcome);
    if records.get(place).map_or(false, |record| is_converted(before, record)) {
        names.push("a record made CCBS: Look: offered".to_string());
    }
    names
}

fn offer_names(records: &[&line::Record], place: usize, outcome: &Outcome) -> Vec<String> {
    let (older, rest) = records.split_at(place);
    let (record, younger) = match rest.split_first() {
        Some((record, younger)) => (record, younger),
        None => return Vec::new(),
    };
    let kind = record.kind.name();
    let choice = format!("{}{}", record.connection.name(), down_mark(record.down));
    let mut names = vec![format!("Look: {kind} {choice} fits: {}", outcome_text(outcome, "Await"))];
    let fits = |r: &&line::Record| r.state == line::State::Invoked && (r.kind == Kind::Ccbs || r.active);
    if older.iter().any(|r| r.suspended) {
        names.push("Look: offered past an older suspended record".to_string());
    }
    if younger.iter().any(|r| r.suspended) {
        names.push("Look: offered before a younger suspended record".to_string());
    }
    if older.iter().any(|r| r.state == line::State::Invoked && r.kind == Kind::Ccnr && !r.active) {
        names.push("Look: offered past an older CCNR record never active".to_string());
    }
    if younger.iter().any(fits) {
        names.push("Look: the oldest of several that fit".to_string());
    }
    if older.iter().any(fits) {
        names.push("Look: offered past an older one that fits".to_string());
    }
    names
}
