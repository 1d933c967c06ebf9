//! Names the rows of the clerk's desk that one played entry reached.

use super::meaning::{self, clerk_views, Meaning};
use super::observed::{digits_fault, down_mark, edge_outcome, message_text, outcome_text};
use crate::clerk::{self, Ask, ClerkDesk, FreeChoice};
use crate::codec::{read_message, Content, Message, REMOTE_USER_BUSY_AGAIN};
use crate::meant::Name;
use crate::outcome::Outcome;
use crate::script::Entry;

fn state(desk: &ClerkDesk, about: Option<usize>) -> String {
    let record = match about.and_then(|place| desk.records.get(place)) {
        Some(record) => record,
        None => return "no record".to_string(),
    };
    match record.connection {
        Some(choice) => format!("{} {}{}", record.state.name(), choice.name(), down_mark(record.down)),
        None => record.state.name().to_string(),
    }
}

/// One step about a record: the desk before and after it.
struct Seen<'a> {
    before: &'a ClerkDesk,
    after: &'a ClerkDesk,
    outcome: &'a Outcome,
    meaning: Meaning,
}

impl Seen<'_> {
    /// The state afterwards; an acknowledgment also stores the keep choice, and
    /// "busy again" the kind.
    fn state_after(&self, content: Option<&Content>) -> String {
        let record = self.meaning.about.and_then(|place| self.after.records.get(place));
        let record = match record.filter(|_| self.after.records.len() == self.before.records.len()) {
            Some(record) => record,
            None => return "deleted".to_string(),
        };
        let state = state(self.after, self.meaning.about);
        match (content, record.keep) {
            (Some(Content::RequestResult { .. }), Some(keep)) => format!("{state} keep {}", u32::from(keep)),
            (Some(Content::RingoutError { error: REMOTE_USER_BUSY_AGAIN }), _) => {
                format!("{state} {}", record.kind.name())
            }
            _ => state,
        }
    }

    fn name(&self, input: &str, suffix: &str, content: Option<&Content>) -> String {
        let outcome = outcome_text(self.outcome, &self.state_after(content));
        let state = state(self.before, self.meaning.about);
        format!("{state}: {input} {}{suffix}: {outcome}", self.meaning.how)
    }

    /// What else decides the row: can-keep for a result, keep and the kind for
    /// "busy again", the host's word for ccExecPossible.
    fn suffix(&self, message: &Message, user_a_busy: bool) -> String {
        let record = self.meaning.about.and_then(|place| self.before.records.get(place));
        match (&message.content, record) {
            (Content::CcExecPossible, _) if user_a_busy => ", User A busy".to_string(),
            (Content::CcExecPossible, _) => ", User A not busy".to_string(),
            (Content::RequestResult { keep: 1 }, Some(record)) if record.state == clerk::State::WaitAck => {
                format!(", can-keep {}", u32::from(record.can_keep))
            }
            (Content::RingoutError { error: REMOTE_USER_BUSY_AGAIN }, Some(record))
                if record.state == clerk::State::Ringout =>
            {
                format!(", keep {}, {}", u32::from(record.keep == Some(true)), record.kind.name())
            }
            _ => String::new(),
        }
    }
}

/// What an act or a timer report is called in the rows, and how it names its record.
pub fn act(entry: &Entry) -> Option<(Name, String)> {
    Some(match entry {
        Entry::Accept(name) => (*name, "accept".to_string()),
        Entry::UserAFree(name, FreeChoice::Resume) => (*name, "User A free, resume".to_string()),
        Entry::UserAFree(name, FreeChoice::Recall) => (*name, "User A free, recall".to_string()),
        Entry::UserCancels(name) => (*name, "user's cancel".to_string()),
        Entry::TimerRunsOut(name, timer) => (*name, format!("{} runs out", timer.name())),
        Entry::FellAtClerk(name) => (*name, "the connection fell".to_string()),
        _ => return None,
    })
}

/// The types for this end.
pub fn is_for(content: &Content) -> bool {
    !matches!(content.type_number(), 1 | 2 | 6 | 8 | 9)
}

pub fn names(before: &ClerkDesk, entry: &Entry, outcome: &Outcome, after: &ClerkDesk) -> Vec<String> {
    let seen = |meaning: Meaning| Seen { before, after, outcome, meaning };
    if let Some((name, input)) = act(entry) {
        let meaning = meaning::of_name(&clerk_views(before, None), name.identifier, name.place);
        return vec![seen(meaning).name(&input, "", None)];
    }
    match entry {
        Entry::Ask(ask) => {
            let mut names = vec![ask_name(before, ask, outcome)];
            names.extend(ask_edges(before, ask, outcome));
            names
        }
        Entry::ToClerk { user_a_busy, place, bytes } => match read_message(bytes) {
            Err(_) => Vec::new(),
            Ok((message, _)) => {
                let views = clerk_views(before, Some(&message.content));
                let seen = seen(meaning::of_message(&views, &message, *place, is_for(&message.content)));
                let suffix = seen.suffix(&message, *user_a_busy);
                vec![seen.name(&message_text(&message), &suffix, Some(&message.content))]
            }
        },
        _ => Vec::new(),
    }
}

/// The first field of an ask that is out of range.
fn ask_fault(ask: &Ask) -> String {
    if let Some(fault) = digits_fault(&ask.number_a, 0) {
        format!("numberA {fault}")
    } else if let Some(fault) = digits_fault(&ask.number_b, 1) {
        format!("numberB {fault}")
    } else if ask.service > 16383 {
        "service over 16383".to_string()
    } else if ask.preference > 2 {
        "preference over 2".to_string()
    } else {
        "in range".to_string()
    }
}

fn ask_name(before: &ClerkDesk, ask: &Ask, outcome: &Outcome) -> String {
    let number_a = if ask.number_a.is_empty() { "numberA withheld" } else { "numberA given" };
    let full = if before.records.len() == 16 { "desk full" } else { "desk not full" };
    let live = ask.identifier.is_some() && before.records.iter().any(|r| r.identifier == ask.identifier);
    let named = if ask.identifier.is_some() { "an identifier" } else { "no identifier" };
    let input = match outcome.refusal.map_or(0, |r| r.number()) {
        0 => {
            let choices = format!("can-keep {}, preference {}", u32::from(ask.can_keep), ask.preference);
            format!("{named}, {}, {number_a}, {choices}", ask.kind.name())
        }
        2 => ask_fault(ask),
        _ if live => format!("identifier live, {full}"),
        _ if ask.identifier.is_none() => format!("no identifier, {full}"),
        _ => format!("identifier not live, {full}"),
    };
    format!("ask: {input}: {}", outcome_text(outcome, "Wait-Ack"))
}

/// The edges of an ask: the last value that is in range and the first that is
/// not, the last place of the desk and the first that it doesn't have.
fn ask_edges(before: &ClerkDesk, ask: &Ask, outcome: &Outcome) -> Vec<String> {
    let filled = before.records.len();
    let fault = ask_fault(ask);
    let edges = match outcome.refusal.map_or(0, |r| r.number()) {
        0 => vec![
            (ask.number_a.len() == 15, "numberA of 15 digits"),
            (ask.number_b.len() == 15, "numberB of 15 digits"),
            (ask.service == 16383, "service 16383"),
            (ask.preference == 2, "preference 2"),
            (filled == 15, "the desk has 15"),
            (is_alike(before, ask), "no identifier, a record is alike in all"),
        ],
        2 => vec![
            (fault.starts_with("numberA") && ask.number_a.len() == 16, "numberA of 16 digits"),
            (fault.starts_with("numberB") && ask.number_b.len() == 16, "numberB of 16 digits"),
            (fault.starts_with("service") && ask.service == 16384, "service 16384"),
            (fault.starts_with("preference") && ask.preference == 3, "preference 3"),
        ],
        5 => vec![(filled == 16, "the desk has 16")],
        _ => vec![],
    };
    let met = edges.iter().filter(|(met, _)| *met);
    met.map(|(_, edge)| format!("ask: {edge}: {}", edge_outcome(outcome))).collect()
}

/// A record without an identifier that this ask, which has none, would be told
/// from by its place alone.
fn is_alike(before: &ClerkDesk, ask: &Ask) -> bool {
    let numbers =
        |r: &clerk::Record| (&r.number_a, &r.number_b, r.service) == (&ask.number_a, &ask.number_b, ask.service);
    ask.identifier.is_none() && before.records.iter().any(|r| r.identifier.is_none() && numbers(r))
}
