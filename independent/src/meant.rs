//! Request 1 of document 02: which record a message, an act or a timer report is
//! about, now that the identifier may be absent. Both desks ask here.

use crate::codec::{Content, Elements, Identifier, Message, Refusal};

/// How an act or a timer report names its record: by its identifier, or without
/// one by its place. "Named place" is "a record's index in its desk, from 0, in
/// the order of storing". A message has an identifier of its own or none.
#[derive(Clone, Copy, PartialEq, Eq, Debug)]
pub struct Name {
    pub identifier: Option<Identifier>,
    pub place: usize,
}

/// What of a record is held against a message.
pub trait Held {
    fn identifier(&self) -> Option<Identifier>;
    fn elements(&self) -> Elements;
    /// "A state the message is for": 5 Invoked; 6 and 9 Await; 10 every state.
    fn is_in_state_for(&self, content: &Content) -> bool;
}

/// The place of the record with this identifier. Identifiers in one desk differ.
pub fn place_of<R: Held>(records: &[R], identifier: &Identifier) -> Option<usize> {
    records.iter().position(|r| r.identifier() == Some(*identifier))
}

/// "elements present on both sides must be equal": a withheld numberA is absent,
/// numberB and service are always there.
fn elements_fit(held: &Elements, told: &Elements) -> bool {
    let absent = held.number_a.is_empty() || told.number_a.is_empty();
    let same_a = absent || held.number_a == told.number_a;
    same_a && held.number_b == told.number_b && held.service == told.service
}

/// (b): "a record fits if not both have an identifier, and numberB and service are
/// equal .., and numberA is equal where both give it".
fn fits<R: Held>(record: &R, identifier: &Option<Identifier>, elements: &Elements) -> bool {
    let both = identifier.is_some() && record.identifier().is_some();
    !both && elements_fit(&record.elements(), elements)
}

/// "The oldest fitting record in a state the message is for; one fits but none in
/// such a state, 7; none fits, 6."
fn oldest_fitting<R: Held>(records: &[R], message: &Message, elements: &Elements) -> Result<usize, Refusal> {
    let fitting = || records.iter().enumerate().filter(|(_, r)| fits(*r, &message.identifier, elements));
    let chosen = fitting().find(|(_, r)| r.is_in_state_for(&message.content));
    match chosen {
        Some((place, _)) => Ok(place),
        None if fitting().next().is_some() => Err(Refusal::NoRow),
        None => Err(Refusal::NoRecord),
    }
}

/// "an absent place .. is 6".
fn record_at<R>(records: &[R], place: usize) -> Result<usize, Refusal> {
    records.get(place).map(|_| place).ok_or(Refusal::NoRecord)
}

/// The record that a message means, which is for this end and no request: (a) by
/// its identifier, "whatever its elements and state"; (b) types 5, 6, 9 and 10 in
/// Setup by fit; (c) without an identifier by the named place; (d) otherwise 6.
pub fn record_meant<R: Held>(records: &[R], message: &Message, place: usize) -> Result<usize, Refusal> {
    let by_identifier = message.identifier.and_then(|identifier| place_of(records, &identifier));
    match (by_identifier, &message.elements, message.identifier) {
        (Some(found), _, _) => Ok(found),
        (None, Some(elements), _) => oldest_fitting(records, message, elements),
        (None, None, None) => record_at(records, place),
        (None, None, Some(_)) => Err(Refusal::NoRecord),
    }
}

/// "any act or timer report without one: the record at the named place; no record
/// there, 6. With an identifier the place is not looked at (so an identifier that
/// no record has is 6 for acts and timers)."
pub fn record_named<R: Held>(records: &[R], name: &Name) -> Result<usize, Refusal> {
    match name.identifier {
        Some(identifier) => place_of(records, &identifier).ok_or(Refusal::NoRecord),
        None => record_at(records, name.place),
    }
}
