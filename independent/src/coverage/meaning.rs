//! Which record an input is about, stated a second time for the rows (request 1);
//! meant.rs is what the desks go by.

use crate::clerk::{self, ClerkDesk};
use crate::codec::{Content, Elements, Identifier, Message};
use crate::line::{self, LineDesk};

/// What the rows look at in a record.
pub struct View {
    pub identifier: Option<Identifier>,
    pub elements: Elements,
    /// "A state the message is for".
    in_such_a_state: bool,
}

/// How the record was found, and which it is: the one that is taken, or on a 7 by
/// fit the oldest that fits.
pub struct Meaning {
    pub how: &'static str,
    pub about: Option<usize>,
    /// All that fit, where the search went by fit.
    pub fitting: Vec<usize>,
}

pub const BY_IDENTIFIER: &str = "by identifier";
pub const BY_PLACE: &str = "by place";
pub const BY_FIT: &str = "by fit";

pub fn clerk_views(desk: &ClerkDesk, content: Option<&Content>) -> Vec<View> {
    let view = |r: &clerk::Record| View {
        identifier: r.identifier,
        elements: Elements { number_a: r.number_a.clone(), number_b: r.number_b.clone(), service: r.service },
        in_such_a_state: match content {
            Some(Content::CcExecPossible) => r.state == clerk::State::Invoked,
            Some(Content::CcCancel) => true,
            _ => false,
        },
    };
    desk.records.iter().map(view).collect()
}

pub fn line_views(desk: &LineDesk, content: Option<&Content>) -> Vec<View> {
    let view = |r: &line::Record| View {
        identifier: r.identifier,
        elements: Elements { number_a: r.number_a.clone(), number_b: r.number_b.clone(), service: r.service },
        in_such_a_state: match content {
            Some(Content::CcRingout | Content::CcResume) => r.state == line::State::Await,
            Some(Content::CcCancel) => true,
            _ => false,
        },
    };
    desk.records.iter().map(view).collect()
}

/// Acts and timers; messages that are for the other end are looked at in the same
/// way, as their refusal asks for no record.
pub fn of_name(views: &[View], identifier: Option<Identifier>, place: usize) -> Meaning {
    let (how, about) = match identifier {
        Some(_) => (BY_IDENTIFIER, views.iter().position(|view| view.identifier == identifier)),
        None => (BY_PLACE, Some(place).filter(|place| *place < views.len())),
    };
    Meaning { how, about, fitting: Vec::new() }
}

/// Why a record does not fit a message; all reasons.
pub fn misfits(view: &View, message: &Message) -> Vec<&'static str> {
    let told = match &message.elements {
        Some(told) => told,
        None => return vec!["no elements"],
    };
    let held = &view.elements;
    let both_given = !held.number_a.is_empty() && !told.number_a.is_empty();
    let reasons = [
        (view.identifier.is_some() && message.identifier.is_some(), "the identifier"),
        (both_given && held.number_a != told.number_a, "numberA"),
        (held.number_b != told.number_b, "numberB"),
        (held.service != told.service, "service"),
    ];
    reasons.iter().filter(|(met, _)| *met).map(|(_, reason)| *reason).collect()
}

/// The record that a message is about. The types that carry elements at this end
/// are fitted where no record has their identifier.
pub fn of_message(views: &[View], message: &Message, place: usize, for_this_end: bool) -> Meaning {
    let named = of_name(views, message.identifier, place);
    let by_identifier = named.how == BY_IDENTIFIER && named.about.is_some();
    if by_identifier || message.elements.is_none() || !for_this_end {
        return named;
    }
    let fitting: Vec<usize> = (0..views.len()).filter(|n| misfits(&views[*n], message).is_empty()).collect();
    let taken = fitting.iter().copied().find(|n| views[*n].in_such_a_state);
    Meaning { how: BY_FIT, about: taken.or(fitting.first().copied()), fitting }
}
