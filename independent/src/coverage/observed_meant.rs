//! Names the rows of request 1 that one played entry reached: which record it was
//! about and why, what the place was worth, what was sent for whom, what is a
//! duplicate. A thing that goes wrong makes a row that is not listed.

use super::meaning::{self, clerk_views, line_views, misfits, Meaning, View, BY_FIT, BY_IDENTIFIER, BY_PLACE};
use super::observed::{is_at_clerk, message_text};
use super::{observed_clerk, observed_line};
use crate::codec::{read_message, Content, Elements, Identifier, Message, RequestFields, SHORT};
use crate::line;
use crate::outcome::{Kind, Outcome};
use crate::script::{Entry, Session};

/// What an entry hands to a desk, as far as request 1 goes.
enum Input {
    Ask(Option<Identifier>),
    Act { label: String, identifier: Option<Identifier>, place: usize },
    Message { message: Message, place: usize },
    Look(Vec<u8>),
    Other,
}

fn input(entry: &Entry) -> Input {
    if let Some((name, label)) = observed_clerk::act(entry).or_else(|| observed_line::act(entry)) {
        return Input::Act { label, identifier: name.identifier, place: name.place };
    }
    match entry {
        Entry::Ask(ask) => Input::Ask(ask.identifier),
        Entry::ToClerk { place, bytes, .. } | Entry::ToLine { place, bytes } => match read_message(bytes) {
            Ok((message, _)) => Input::Message { message, place: *place },
            Err(_) => Input::Other,
        },
        Entry::Look { digits } => Input::Look(digits.clone()),
        _ => Input::Other,
    }
}

/// The desk that the entry is at, before it is played.
struct Desk {
    at_clerk: bool,
    views: Vec<View>,
}

impl Desk {
    fn of(before: &Session, entry: &Entry, input: &Input) -> Desk {
        let content = match input {
            Input::Message { message, .. } => Some(&message.content),
            _ => None,
        };
        let at_clerk = is_at_clerk(entry);
        let views = if at_clerk { clerk_views(&before.clerk, content) } else { line_views(&before.line, content) };
        Desk { at_clerk, views }
    }

    fn takes(&self, content: &Content) -> bool {
        if self.at_clerk {
            observed_clerk::is_for(content)
        } else {
            observed_line::is_for(content)
        }
    }

    /// What the place that was given is, where another record may be meant.
    fn place_text(&self, about: Option<usize>, place: usize) -> &'static str {
        if about == Some(place) {
            "its own"
        } else if place < self.views.len() {
            "another record's"
        } else {
            "absent"
        }
    }

    fn absent_text(&self, place: usize) -> &'static str {
        match place {
            _ if self.views.is_empty() => "at an empty desk",
            255 => "255",
            _ if place == self.views.len() => "one behind the last",
            _ => "far behind the last",
        }
    }
}

fn is_request(content: &Content) -> bool {
    matches!(content, Content::CcbsRequest(_) | Content::CcnrRequest(_))
}

pub fn names(before: &Session, entry: &Entry, outcome: &Outcome, after: &Session) -> Vec<String> {
    let input = input(entry);
    let desk = Desk::of(before, entry, &input);
    let meaning = meaning_of(&desk, &input);
    let mut names = Vec::new();
    if outcome.at != expected_at(before, &desk, &input, outcome, meaning.as_ref()) {
        names.push("at another place".to_string());
    }
    if alters_others(before, entry, outcome, after) {
        names.push("another record is altered".to_string());
    }
    names.extend(sent_name(&desk, &input, outcome));
    match (&input, &meaning) {
        (Input::Act { label, place, .. }, Some(meaning)) => {
            names.extend(naming_name(&desk, label, meaning, *place, outcome));
        }
        (Input::Message { message, place }, Some(meaning)) if desk.takes(&message.content) => {
            names.extend(naming_name(&desk, message.content.name(), meaning, *place, outcome));
            names.extend(message_names(&desk, message, meaning, *place, outcome));
        }
        (Input::Message { message, place }, None) => names.extend(request_names(&desk, message, *place, outcome)),
        _ => {}
    }
    names
}

/// None for what is about no record: an ask, a request at the line, a Look.
fn meaning_of(desk: &Desk, input: &Input) -> Option<Meaning> {
    match input {
        Input::Act { identifier, place, .. } => Some(meaning::of_name(&desk.views, *identifier, *place)),
        Input::Message { message, .. } if is_request(&message.content) && !desk.at_clerk => None,
        Input::Message { message, place } => {
            Some(meaning::of_message(&desk.views, message, *place, desk.takes(&message.content)))
        }
        _ => None,
    }
}

/// "For an ask and an accepted request it is where the record was stored, for a
/// Look the record that was offered. `-` for every refused step, a denied request, a
/// line report, a start."
fn expected_at(
    before: &Session,
    desk: &Desk,
    input: &Input,
    outcome: &Outcome,
    meaning: Option<&Meaning>,
) -> Option<usize> {
    if outcome.refusal.is_some() {
        return None;
    }
    let fits = |r: &line::Record| r.state == line::State::Invoked && (r.kind == Kind::Ccbs || r.active);
    match input {
        Input::Ask(_) => Some(desk.views.len()),
        Input::Message { .. } if meaning.is_none() => Some(desk.views.len()).filter(|_| outcome.starts != 0),
        Input::Look(digits) => before.line.records.iter().position(|r| r.number_b == *digits && fits(r)),
        _ => meaning.and_then(|meaning| meaning.about),
    }
}

/// "No step alters another request": all records but the one at `at` are as they
/// were. A line report marks several, and a start ends all.
fn alters_others(before: &Session, entry: &Entry, outcome: &Outcome, after: &Session) -> bool {
    let at = outcome.at.unwrap_or(usize::MAX);
    match entry {
        Entry::Report { .. } | Entry::StartLine { .. } | Entry::StartClerk(_) => false,
        _ if is_at_clerk(entry) => differ_beside(&before.clerk.records, &after.clerk.records, at),
        _ => differ_beside(&before.line.records, &after.line.records, at),
    }
}

fn differ_beside<R: PartialEq>(old: &[R], new: &[R], at: usize) -> bool {
    let behind = if new.len() < old.len() { at } else { at.saturating_add(1) };
    let front = |records: &[R]| at.min(records.len());
    let back = |records: &[R], from: usize| from.min(records.len());
    old[..front(old)] != new[..front(new)] || old[back(old, at.saturating_add(1))..] != new[back(new, behind)..]
}

/// "A reply has the refused message's identifier or none .. What a record sends has
/// the record's identifier or none, and in Setup (5, 6, 9, 10) the record's
/// elements, numberA as it is held. A request error and a result have the request's."
fn sent_name(desk: &Desk, input: &Input, outcome: &Outcome) -> Option<String> {
    let sent = outcome.message.as_ref()?;
    let of_record = outcome.at.and_then(|place| desk.views.get(place));
    let identifier = match (input, of_record) {
        (Input::Ask(identifier), _) => *identifier,
        (_, Some(view)) => view.identifier,
        (Input::Message { message, .. }, None) => message.identifier,
        _ => None,
    };
    let carried = sent.content.carries_elements(sent.carrier);
    let elements: Option<Elements> = of_record.filter(|_| carried).map(|view| view.elements.clone());
    let verb = if outcome.refusal.is_some() { "replies" } else { "sends" };
    let named = if sent.identifier.is_some() { "an identifier" } else { "no identifier" };
    let withheld = match &sent.elements {
        Some(elements) if elements.number_a.is_empty() => ", numberA withheld",
        Some(_) => ", numberA given",
        None => "",
    };
    let wrong = if sent.identifier != identifier {
        ", another's identifier"
    } else if sent.elements != elements {
        ", other elements"
    } else {
        ""
    };
    Some(format!("{verb} {}, {named}{withheld}{wrong}", message_text(sent)))
}

/// What the name was worth: by place, and what the place was beside an identifier.
fn naming_name(desk: &Desk, label: &str, meaning: &Meaning, place: usize, outcome: &Outcome) -> Option<String> {
    let refusal = outcome.refusal.map(|r| r.number());
    let place_text = desk.place_text(meaning.about, place);
    match (meaning.how, meaning.about, refusal) {
        (BY_PLACE, Some(about), None) => {
            let named = desk.views.get(about).map_or(false, |view| view.identifier.is_some());
            let which = if named { "with an identifier" } else { "without an identifier" };
            Some(format!("{label} by place: of a record {which}: taken"))
        }
        (BY_PLACE, None, Some(6)) => Some(format!("{label} by place: {}: refusal 6", desk.absent_text(place))),
        (BY_IDENTIFIER, Some(_), None) => Some(format!("{label} by identifier, the place is {place_text}: taken")),
        (BY_FIT, Some(_), None) => Some(format!("{label} by fit, the place is {place_text}: taken")),
        (BY_IDENTIFIER | BY_FIT, None, Some(6)) => {
            let given = if place < desk.views.len() { "a record's" } else { "absent" };
            Some(format!("{label} {}, no such record, the place is {given}: refusal 6", meaning.how))
        }
        (_, None, _) | (BY_PLACE, _, Some(6)) => Some(format!("{label} {}: {refusal:?}", meaning.how)),
        _ => None,
    }
}

/// A message that may be fitted: why it was taken or not.
fn message_names(desk: &Desk, message: &Message, meaning: &Meaning, place: usize, outcome: &Outcome) -> Vec<String> {
    let content = message.content.name();
    match (&message.elements, meaning.how) {
        (Some(elements), BY_FIT) => {
            let mut names = fit_names(desk, message, elements, meaning, outcome);
            names.extend(missed_names(desk, message, outcome));
            if meaning.about.is_none() {
                let named = if message.identifier.is_some() { "an identifier" } else { "no identifier" };
                let given = if place < desk.views.len() { "a record's" } else { "absent" };
                names.push(format!("{content} with {named}, nothing fits, the place is {given}: refusal 6"));
            }
            names
        }
        (Some(_), BY_IDENTIFIER) => by_identifier_names(desk, message, meaning, outcome),
        _ => Vec::new(),
    }
}

/// Taken, or 7; a carrier is never the fault in Setup.
fn judged(outcome: &Outcome) -> String {
    outcome.refusal.map_or("taken".to_string(), |r| format!("refusal {}", r.number()))
}

fn fit_names(desk: &Desk, message: &Message, told: &Elements, meaning: &Meaning, outcome: &Outcome) -> Vec<String> {
    let (about, view) = match meaning.about.and_then(|about| Some((about, desk.views.get(about)?))) {
        Some((about, view)) => (about, view),
        None => return Vec::new(),
    };
    let content = message.content.name();
    let identifiers = match (message.identifier, view.identifier) {
        (None, None) => "no identifiers",
        (Some(_), None) => "an identifier in the message alone",
        (None, Some(_)) => "an identifier in the record alone",
        (Some(_), Some(_)) => "identifiers on both sides",
    };
    let number_a = number_a_text(&told.number_a, &view.elements.number_a, "message");
    let several = match (meaning.fitting.len(), meaning.fitting.first()) {
        (1, _) => "one fits",
        _ if outcome.refusal.is_some() => "several fit",
        (_, Some(first)) if *first == about => "the oldest of several that fit",
        _ => "past an older one that fits",
    };
    let judged = judged(outcome);
    vec![
        format!("{content} by fit: {identifiers}, {number_a}: {judged}"),
        format!("{content} by fit: {several}: {judged}"),
    ]
}

fn number_a_text(told: &[u8], held: &[u8], told_in: &str) -> String {
    match (told, held) {
        ([], []) => "numberA withheld on both sides".to_string(),
        ([], _) => format!("numberA withheld in the {told_in}"),
        (_, []) => "numberA withheld in the record".to_string(),
        _ if told == held => "same numberA".to_string(),
        _ => "other numberA".to_string(),
    }
}

/// Records that don't fit for one reason alone.
fn missed_names(desk: &Desk, message: &Message, outcome: &Outcome) -> Vec<String> {
    let judged = match outcome.refusal.map_or(0, |r| r.number()) {
        0 => "another is taken",
        6 => "refusal 6",
        _ => return Vec::new(),
    };
    let content = message.content.name();
    let alone = |view: &View| match misfits(view, message)[..] {
        [reason] => Some(format!("{content} by fit: a record is missed by {reason} alone: {judged}")),
        _ => None,
    };
    desk.views.iter().filter_map(alone).collect()
}

/// "that one, whatever its elements and state".
fn by_identifier_names(desk: &Desk, message: &Message, meaning: &Meaning, outcome: &Outcome) -> Vec<String> {
    let (about, view) = match meaning.about.and_then(|about| Some((about, desk.views.get(about)?))) {
        Some((about, view)) => (about, view),
        None => return Vec::new(),
    };
    let (content, judged) = (message.content.name(), judged(outcome));
    let reasons = misfits(view, message).into_iter().filter(|reason| *reason != "the identifier");
    let mut names: Vec<String> =
        reasons.map(|reason| format!("{content} by identifier, other {reason}: {judged}")).collect();
    if desk.views[..about].iter().any(|older| misfits(older, message).is_empty()) {
        names.push(format!("{content} by identifier, past an older one that fits: {judged}"));
    }
    names
}

/// How a request stands to a live record, and whether that makes it a duplicate.
fn relation(identifier: Option<Identifier>, fields: &RequestFields, view: &View) -> (String, bool) {
    let identifiers = match (identifier, view.identifier) {
        (Some(told), Some(held)) if told == held => "same identifier",
        (Some(_), Some(_)) => "other identifiers",
        (Some(_), None) => "an identifier in the request alone",
        (None, Some(_)) => "an identifier in the record alone",
        (None, None) => "no identifiers",
    };
    let number_a = number_a_text(&fields.number_a, &view.elements.number_a, "request");
    let same_b = fields.number_b == view.elements.number_b;
    let number_b = if same_b { "same numberB" } else { "other numberB" };
    let duplicate = identifiers == "same identifier" || (number_a == "same numberA" && same_b);
    (format!("request: {identifiers}, {number_a}, {number_b}"), duplicate)
}

/// A request that reached the test of duplicates, against each live record, or
/// against the first that makes it one.
fn request_names(desk: &Desk, message: &Message, place: usize, outcome: &Outcome) -> Vec<String> {
    let fields = match &message.content {
        Content::CcbsRequest(fields) | Content::CcnrRequest(fields) => fields,
        _ => return Vec::new(),
    };
    let mut relations = desk.views.iter().map(|view| relation(message.identifier, fields, view));
    if outcome.starts != 0 {
        let given = if place < desk.views.len() { "a record's" } else { "absent" };
        let mut names: Vec<String> = relations.map(|(text, _)| format!("{text}: accepted")).collect();
        names.sort();
        names.dedup();
        names.push(format!("request: the place is {given}: accepted"));
        return names;
    }
    let short = |sent: &Message| sent.content == Content::RequestError { error: SHORT };
    if !outcome.message.as_ref().map_or(false, short) {
        return Vec::new();
    }
    let first = relations.find(|(_, duplicate)| *duplicate);
    first.map(|(text, _)| format!("{text}: short error")).into_iter().collect()
}
